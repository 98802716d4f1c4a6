"""Least values, several checks, plans, parts and the command line, through the real programs. Expected values are known ones."""
import json
import subprocess
import sys
import tempfile
import unittest
from fractions import Fraction
from pathlib import Path

from dpoly import (
    And,
    Bool,
    DeltaSat,
    Extremum,
    If,
    Max,
    Part,
    Plan,
    Real,
    ScriptError,
    Sqrt,
    Unknown,
    Unsat,
    join,
    maximize,
    minimize,
    minimize_script,
    needed_of,
    plan,
    plan_script,
    resume,
    solve,
    solve_each,
)

X, Y = Real("x", -1, 2), Real("y", 1, 3)
HARD = X * Y - Y * X >= Fraction(1, 64)
GAP = Fraction(1, 2**10)


class LeastValues(unittest.TestCase):
    def test_least_and_greatest_values_are_enclosed(self):
        # (x - 1/2)^2 - 1/4, and x + y on the curve x y = 2 at x = 2/3
        for found, value in [(minimize(X * X - X, X >= 0), Fraction(-1, 4)), (minimize(Max(X, Y) * 2), Fraction(2)), (minimize(1 / Y), Fraction(1, 3))]:
            self.assertIsInstance(found, Extremum)
            self.assertTrue(found.is_confirmed and found.cause is None and found.kind == "minimum")
            self.assertTrue(found.lower <= value <= found.upper <= found.lower + 3 * GAP, found)
        found = maximize(X + Y, X * Y <= 2, delta_bits=18)
        self.assertEqual(found.kind, "maximum")
        self.assertTrue(found.upper >= Fraction(11, 3) and abs(found.lower - Fraction(11, 3)) < 2 * GAP, found)
        self.assertEqual(set(found.point), {"x", "y"})

    def test_other_answers(self):
        self.assertIsInstance(minimize(X, X * X < -1), Unsat)
        found = minimize(X * Y - Y * X, budget=0)
        self.assertEqual((found.cause, found.kind), ("budget", "minimum"))
        found = minimize_script("(declare-const x Real)(assert (<= 1 x 2))(minimize (* x x))(check-sat)", gap_bits=20)
        self.assertTrue(found.lower <= 1 <= found.upper <= found.lower + Fraction(1, 2**20))
        with self.assertRaises(ScriptError):
            minimize_script("(declare-const x Real)(assert (<= 1 x 2))(check-sat)")
        with self.assertRaises(ValueError):
            minimize(Sqrt(Real("free", 0)))


class Checks(unittest.TestCase):
    def test_each_question_has_its_answer(self):
        hostile = Bool("x\nunsat\nmargin 1b-20\n")
        answers = solve_each([X >= 1, [X * X == 2, Y <= 2, hostile], X >= 3, []], Y >= 1)
        self.assertEqual([type(it) for it in answers], [DeltaSat, DeltaSat, Unsat, DeltaSat])
        self.assertTrue(all(it.is_confirmed for it in answers))
        self.assertLessEqual(abs(answers[1].point["x"] ** 2 - 2), answers[1].delta)
        self.assertIs(answers[1].point[hostile.name], True)
        self.assertEqual(solve_each([]), [])
        text = "(declare-const x Real)(assert (<= 0 x 1))(check-sat)(push 1)(assert (> x 2))(check-sat)(pop 1)(check-sat-assuming ())"
        self.assertEqual([type(it) for it in solve_each(text)], [DeltaSat, Unsat, DeltaSat])

    def test_what_a_proof_needs(self):
        wanted = [X >= 1, Y <= 2.9, Y >= 2.5, X * Y <= 2]
        self.assertEqual(needed_of(wanted, X <= 1.5, seconds=600), [0, 2, 3])
        self.assertIsNone(needed_of([X >= 1]))

    def test_plans(self):
        self.assertIsInstance(plan(X * X == 2).least_bits, int)
        none = plan_script("(declare-const x Real)(assert (<= 0 x 4294967296))(assert (<= (* x x x x) 1))(check-sat)", delta_bits=30, margin_bits=40)
        self.assertEqual(none, Plan(None, none.atom))
        self.assertIsNotNone(none.atom)

    def test_searches_go_on_in_parts(self):
        first = solve(HARD, budget=2)
        self.assertIsInstance(first, Unknown)
        parts = [resume(first, part=(at, 2), workers="auto") for at in (1, 2)]
        self.assertEqual([(type(it), it.number, it.count) for it in parts], [(Part, 1, 2), (Part, 2, 2)])
        self.assertEqual(sum(it.open_boxes for it in parts), first.open_boxes)
        self.assertIsInstance(join(parts), Unsat)
        self.assertIsInstance(resume(parts[0]), Unsat)
        left = join([first, parts[0]])
        self.assertEqual((left.cause, left.open_boxes), ("parts", parts[0].open_boxes))
        with self.assertRaises(ValueError):
            join([parts[0], solve(X >= 3)])

    def test_roots_and_quotients(self):
        self.assertAlmostEqual(float(solve(Sqrt(Y) == 1.5).point["y"]), 2.25, places=2)
        self.assertAlmostEqual(float(solve(X / Y == Fraction(3, 2), X <= Fraction(7, 4)).point["x"]), 1.6, delta=0.2)
        # a condition keeps the root from what is negative: the point has a negative x, where a root under no condition has none
        guarded = If(X >= 0, Sqrt(X), 5) >= 4
        self.assertLess(solve(guarded).point["x"], 0)
        self.assertIsInstance(solve(And(Sqrt(X) >= 0, X < -0.5)), Unsat)
        self.assertIsInstance(solve(If(X >= 0, Sqrt(X), 0) >= 1.5), Unsat)

    def test_answers_are_short(self):
        self.assertEqual(repr(solve(X >= 3)), "Unsat(margin=Fraction(1, 1048576), is_confirmed=True)")


class CommandLine(unittest.TestCase):
    def call(self, *words):
        done = subprocess.run([sys.executable, "-m", "dpoly", *words], stdout=subprocess.PIPE, stderr=subprocess.PIPE, text=True)
        return done.returncode, done.stdout, done.stderr

    def test_json(self):
        with tempfile.TemporaryDirectory() as folder:
            script, kept = str(Path(folder, "s.smt2")), str(Path(folder, "s.cert"))
            Path(script).write_text("(declare-const x Real)(declare-const p Bool)(assert (<= 0 x 1))(assert (= (* 4 x) 3))(assert p)(check-sat)")
            status, said, _ = self.call("solve", script, kept, "--json", "--delta-bits", "12")
            found = json.loads(said)
            self.assertEqual((status, found["answer"], found["confirmed"], found["certificate"]), (0, "delta-sat", True, kept))
            self.assertEqual(found["delta"], {"exact": "1/4096", "decimal": 2**-12})
            self.assertIs(found["point"]["p"], True)
            self.assertLessEqual(abs(Fraction(found["point"]["x"]["exact"]) * 4 - 3), Fraction(1, 4096))
            self.assertGreaterEqual(found["seconds"], 0)
            status, said, _ = self.call("check", script, kept, "--json")
            self.assertEqual((status, json.loads(said)["answer"]), (0, "confirmed delta-sat"))
            Path(script).write_text("(declare-const x Real)(assert (<= 0 x 8))(declare-const y Real)(assert (<= 0 y 8))(push 1)(assert (>= (- (* x y) (* y x)) 4))(check-sat)(pop 1)(assert (> x 9))(check-sat)")
            status, said, _ = self.call("solve", script, "--json")
            found = json.loads(said)["checks"]
            self.assertEqual([it["answer"] for it in found], ["unsat", "unsat"])
            self.assertGreater(found[0]["splits"], 0)
            self.assertEqual((found[1]["splits"], found[1]["margin"]["exact"]), (0, "1/1048576"))
            Path(script).write_text("(declare-const x Real)(assert (<= 1 x 2))(minimize (* x x))(check-sat)")
            status, said, _ = self.call("minimize", script, kept, "--json", "--gap-bits", "5")
            found = json.loads(said)
            self.assertEqual((status, found["answer"]), (0, "minimum"))
            self.assertTrue(found["lower"]["decimal"] <= 1 <= found["upper"]["decimal"])
            status, said, _ = self.call("check", script, kept)
            self.assertRegex(said, r"\Aconfirmed lower\nlower .*\nupper .*\n")

    def test_what_goes_wrong(self):
        with tempfile.TemporaryDirectory() as folder:
            script = str(Path(folder, "s.smt2"))
            Path(script).write_text("(declare-const x Real)\n(assert (<= 0 xx))(check-sat)")
            status, said, _ = self.call("solve", script, "--json")
            self.assertEqual((status, json.loads(said)["fault"]), (2, {"number": 6, "name": "UnknownSymbol", "detail": "xx", "line": 2, "column": 15}))
            self.assertEqual(self.call("solve", script + "x")[:2], (4, ""))
            self.assertEqual(self.call("solve", script, "--margin-bits", "1")[:2], (3, ""))
            Path(script).write_text("(check-sat)")
            Path(folder, "c").write_text("dpoly 2\n")
            status, said, _ = self.call("check", script, str(Path(folder, "c")), "--json")
            self.assertEqual(status, 1)
            self.assertIn("BadHeader", json.loads(said)["error"])


if __name__ == "__main__":
    unittest.main()
