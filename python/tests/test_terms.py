"""Formulas as scripts."""
import unittest
from decimal import Decimal
from fractions import Fraction

from dpoly import And, Bool, Distinct, If, Implies, Max, Min, Not, Or, Real, Sqrt, Xor, script_of

X = Real("x", 0, 10)
Y = Real("y", -1, 1)
P = Bool("p")

ROWS = [
    (X + 1 - Y <= 2, "(<= (+ x 1 (- y)) 2)"),
    (2 * X * Y > -3, "(> (* 2 x y) (- 3))"),
    (1 - X < Y / 3, "(< (+ 1 (- x)) (* y (/ 1 3)))"),
    (0 <= X, "(>= x 0)"),
    (X**3 == 8, "(= (* (* x x) x) 8)"),
    (X**0 != 2, "(distinct 1 2)"),
    (X**4 >= 1, "(let ((t0 (* x x))) (>= (* t0 t0) 1))"),
    (abs(X - Y) <= 0.5, "(let ((t0 (+ x (- y)))) (<= (ite (>= t0 0) t0 (- t0)) (/ 1 2)))"),
    (X / Y <= 1, "(<= (/ x y) 1)"),
    (1 / (X * Y) <= 1, "(<= (/ 1 (* x y)) 1)"),
    (X**-2 <= 1, "(<= (/ 1 (* x x)) 1)"),
    (Sqrt(X) + X**0.5 <= 1, "(<= (+ (sqrt x) (sqrt x)) 1)"),
    (Max(X, Y, 1) <= 1, "(let ((t0 (ite (>= x y) x y))) (<= (ite (>= t0 1) t0 1) 1))"),
    (Min(X, 2) <= 1, "(<= (ite (<= x 2) x 2) 1)"),
    # a root under a condition: y may be negative, x is not
    (Or(P, Sqrt(X) <= 1), "(or p (<= (sqrt x) 1))"),
    (Or(P, Sqrt(Y) <= 1), "(or p (<= |root(0.0)| 1))"),
    (And(Sqrt(Y) <= 2, Or(P, Sqrt(Y) <= 1)), "(or p (<= (sqrt y) 1))"),
    (If(Y >= 0, Sqrt(Y), Sqrt(Sqrt(Y) + 1)) <= 1, "(<= (ite (>= y 0) |root(0.0)| (sqrt (+ |root(0.0)| 1))) 1)"),
    (X == Decimal("0.1"), "(= x (/ 1 10))"),
    (X == Fraction(-2, 6), "(= x (- (/ 1 3)))"),
    (X == 0.1, "(= x (/ 3602879701896397 36028797018963968))"),
    (Or(P, Not(P), False), "(or p (not p) false)"),
    (Or([P, X <= 1]), "(or p (<= x 1))"),
    (Or(), "false"),
    (P | ~P, "(or p (not p))"),
    (Implies(P, X <= 1), "(=> p (<= x 1))"),
    (P ^ (X <= 1), "(xor p (<= x 1))"),
    (P == (X <= 1), "(= p (<= x 1))"),
    (If(P, X, Y) <= 1, "(<= (ite p x y) 1)"),
    (If(P, X <= 1, Y <= 1), "(ite p (<= x 1) (<= y 1))"),
    (Distinct(X, Y, 1), "(distinct x y 1)"),
    (Xor(P, Or(And(P, P), P)), "(xor p (or (and p p) p))"),
]


def asserted(formula):
    """The last assertion of the formula's script."""
    return [it for it in script_of(formula).split("\n") if it.startswith("(assert ")][-1][len("(assert ") : -1]


class Terms(unittest.TestCase):
    def test_each_operator_has_its_text(self):
        for formula, text in ROWS:
            with self.subTest(text):
                self.assertEqual(asserted(formula), text)

    def test_a_script_is_whole(self):
        self.assertEqual(
            script_of(And(X * Y <= 1, P), X >= 1),
            "(set-logic QF_NRA)\n(declare-const x Real)\n(declare-const y Real)\n(declare-const p Bool)\n"
            "(assert (<= 0 x 10))\n(assert (<= (- 1) y 1))\n(assert (<= (* x y) 1))\n(assert p)\n(assert (>= x 1))\n(check-sat)\n",
        )
        self.assertIn("(assert (<= z 3))", script_of(Real("z", None, 3) >= 1))

    def test_a_root_under_a_condition_has_its_guard(self):
        text = script_of(Or(P, Sqrt(X + 5 * Y) <= 1))
        self.assertIn("(assert (<= 0 |root(0.0)| 4))\n", text)
        self.assertIn("(assert (let ((t0 (+ x (* 5 y)))) (= (* |root(0.0)| |root(0.0)|) (ite (>= t0 0) t0 0))))\n", text)
        with self.assertRaises(ValueError):
            script_of(Or(P, Sqrt(Real("free")) <= 1))

    def test_names_are_spelled(self):
        for name, text in [("a b", "|a b|"), ("let", "|let|"), ("2x", "|2x|"), ("x'", "|x'|"), ("x_1", "x_1"), ("é", "|é|")]:
            self.assertIn(f"(declare-const {text} Real)", script_of(Real(name, 0, 1) <= 1))
        for name in ["", "a|b", "a\\b", "and", "+"]:
            with self.subTest(name), self.assertRaises(ValueError):
                Real(name, 0, 1)

    def test_a_name_cannot_add_commands(self):
        hostile = "x) (assert false) (declare-const y\n"
        self.assertEqual(script_of(Real(hostile, 0, 1) <= 1).count(f"|{hostile}|"), 3)

    def test_fresh_names_are_none_of_the_constants(self):
        taken = Real("t0", 0, 1)
        self.assertEqual(asserted((taken + 1) ** 2 <= 1), "(let ((t0_ (+ t0 1))) (<= (* t0_ t0_) 1))")

    def test_shared_terms_stand_once(self):
        term = X
        for _ in range(60):
            term = term * term + 1
        self.assertLess(len(script_of(term <= 1)), 4000)

    def test_constants_of_one_name_agree(self):
        script_of(Real("x", 0, 10) + X <= 1)
        for other in [Real("x", 0, 9) <= 1, Bool("x")]:
            with self.assertRaises(ValueError):
                script_of(X <= 1, other)

    def test_what_is_no_formula_is_refused(self):
        for wrong in [
            lambda: bool(X <= 1),
            lambda: 0 <= X <= 1,
            lambda: X**0.25,
            lambda: X**True,
            lambda: Sqrt(P),
            lambda: Max(),
            lambda: X + "1",
            lambda: X + True,
            lambda: And(X <= 1, "p"),
            lambda: Not(X),
            lambda: If(P, X, P),
        ]:
            with self.assertRaises(TypeError):
                wrong()
        for wrong in [lambda: X + float("inf"), lambda: X + 10**37, lambda: X * 1e-40]:
            with self.assertRaises(ValueError):
                wrong()
        with self.assertRaises(ZeroDivisionError):
            X / 0


if __name__ == "__main__":
    unittest.main()
