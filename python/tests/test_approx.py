"""Functions as polynomials with a remainder: against Python's `math`, and in questions whose answers are known."""
import math
import unittest
from fractions import Fraction

from dpoly import DeltaSat, Real, Unsat, convert, script_of, solve, solve_script
from dpoly.approx import LARGEST, atan, atan_at, cos, enclosed, exp, exp_at, log, log_at, sigmoid, sin, sine_at, tanh

KNOWN = {
    "sin": math.sin,
    "cos": math.cos,
    "exp": math.exp,
    "log": math.log,
    "atan": math.atan,
    "tanh": math.tanh,
    "sigmoid": lambda x: 1 / (1 + math.exp(-x)),
}
RANGES = [
    ("sin", -4, 4, 12),
    ("sin", Fraction(1, 3), Fraction(4, 3), 35),
    ("cos", -1, 20, 12),
    ("exp", -2, 3, 12),
    ("exp", 0, 0, 12),
    ("exp", 10, 11, 12),
    ("log", Fraction(1, 10), 10, 12),
    ("log", 1000, 5000, 12),
    ("atan", -10, 10, 12),
    ("atan", 0, 1, 30),
    ("tanh", -5, 5, 12),
    ("sigmoid", -8, 8, 12),
]


class Enclosures(unittest.TestCase):
    def test_each_polynomial_is_within_its_error(self):
        for name, low, high, bits in RANGES:
            wanted = Fraction(1, 2**bits)
            pieces = enclosed(name, Fraction(low), Fraction(high), wanted)
            self.assertEqual((pieces[0].low, pieces[-1].high), (low, high))
            self.assertTrue(all(a.high == b.low for a, b in zip(pieces, pieces[1:])))
            for piece in pieces:
                self.assertLessEqual(piece.error, wanted)
                for k in range(41):
                    x = piece.low + (piece.high - piece.low) * k / 40
                    value = Fraction(0)
                    for it in reversed(piece.coefficients):
                        value = value * (x - piece.center) / piece.scale + it
                    true = KNOWN[name](float(x))
                    self.assertLessEqual(abs(float(value) - true), float(piece.error) + 1e-13 * (1 + abs(true)), (name, x))

    def test_values_at_a_fraction(self):
        """Digits of well-known constants."""
        e, ln2 = Fraction("2.718281828459045235360287471352"), Fraction("0.693147180559945309417232121458")
        pi, sine = Fraction("3.141592653589793238462643383279"), Fraction("0.841470984807896506652502321630")
        for (low, high), value in [(exp_at(Fraction(1)), e), (log_at(Fraction(2)), ln2), (atan_at(Fraction(1)), pi / 4), (sine_at(Fraction(1), False), sine)]:
            self.assertLess(high - low, Fraction(1, 10**25))
            self.assertTrue(low - Fraction(1, 10**29) <= value <= high + Fraction(1, 10**29))
        # tan(5/4), the bound of tanh in its disc
        self.assertLess(sine_at(Fraction(5, 4), False)[1] / sine_at(Fraction(5, 4), True)[0], LARGEST)

    def test_what_cannot_be_enclosed(self):
        for wrong in [lambda: log(Real("x", 0, 1)), lambda: sin(Real("x")), lambda: exp(Real("x", 0, 1000)), lambda: sin(Real("x", 0, 1), Fraction(1, 2**50)), lambda: tanh(Real("x", -40, 40), Fraction(1, 2**20), degree=1)]:
            with self.assertRaises(ValueError):
                wrong()


class Questions(unittest.TestCase):
    def test_known_answers(self):
        x, y = Real("x", 0, 1), Real("y", -2, 2)
        for question in [
            [sin(x) >= Fraction(85, 100)],  # sin(1) = 0.8415
            [exp(y) <= 1 + y - Fraction(1, 100)],
            [sin(y) ** 2 + cos(y) ** 2 >= Fraction(101, 100)],
            [log(1 + x) >= x + Fraction(1, 100)],
            [atan(y) >= Fraction(112, 100)],  # atan(2) = 1.1071
            [tanh(y) >= Fraction(97, 100)],  # tanh(2) = 0.9640
            [sigmoid(y) >= Fraction(89, 100)],  # 0.8808
        ]:
            self.assertIsInstance(solve(*question), Unsat)
        # the same function of the same term has one remainder
        self.assertEqual(script_of(sin(x * x) - sin(x * x) <= 0, sin(x) <= 1).count("(declare-const |sin("), 2)
        found = solve(exp(y) == 2, delta_bits=16)
        self.assertIsInstance(found, DeltaSat)
        self.assertAlmostEqual(float(found.point["y"]), math.log(2), places=3)

    def test_scripts_of_dreal(self):
        done = convert(
            "(set-logic QF_NRA)(set-option :precision 0.001)(declare-fun x () Real [0, 2])(declare-fun y () Real)"
            "(assert (= y (sin (* 2 x))))(assert (let ((sin x)) (>= (+ (exp (- sin)) y) 1.9)))(check-sat)(exit)"
        )
        self.assertEqual(done.enclosed, ("sin", "exp"))
        self.assertIsInstance(solve_script(done.text, delta_bits=done.delta_bits), Unsat)
        done = convert("(declare-fun x () Real)(assert (= (cos x) (* 2 x)))(assert (<= 0 x 1))(check-sat)")
        self.assertAlmostEqual(float(solve_script(done.text).point["x"]), 0.45018, places=2)
        # names of the script's own, and remainders that are not taken for others
        done = convert("(declare-const |sin(0)| Real)(assert (<= 0 |sin(0)| 1))(assert (>= (sin |sin(0)|) (+ |sin(0)| 0.01)))(check-sat)")
        self.assertIn("|sin(1)|", done.text)
        self.assertIsInstance(solve_script(done.text), Unsat)
        done = convert("(declare-const x Real)(assert (<= 0 x 1))(define-fun sin ((a Real)) Real (* 9 a))(assert (>= (sin x) 5))(check-sat)")
        self.assertEqual(done.enclosed, ())
        self.assertIsInstance(solve_script(done.text), DeltaSat)


if __name__ == "__main__":
    unittest.main()
