"""Questions to the real programs, which `find_programs` finds (set DPOLY to their folder)."""
import os
import stat
import tempfile
import unittest
from fractions import Fraction

from dpoly import (
    And,
    Bool,
    CertificateError,
    DeltaSat,
    DpolyError,
    If,
    Or,
    ProgramError,
    Programs,
    Real,
    ScriptError,
    Unknown,
    Unsat,
    UsageError,
    convert,
    find_programs,
    solve,
    solve_script,
)

X = Real("x", 0, 2)


def program(folder, name, text):
    """A small shell program in the folder, in place of a real one."""
    path = os.path.join(folder, name)
    with open(path, "w") as file:
        file.write(f"#!/bin/sh\n{text}\n")
    os.chmod(path, os.stat(path).st_mode | stat.S_IXUSR)
    return path


class Answers(unittest.TestCase):
    def test_unsat_at_its_margin(self):
        answer = solve(And(X * X == 2, X <= 1), margin_bits=30)
        self.assertIsInstance(answer, Unsat)
        self.assertEqual(answer.margin, Fraction(1, 2**30))
        self.assertTrue(answer.is_confirmed)
        self.assertTrue(answer.certificate.startswith(b"dpoly "))

    def test_a_point_satisfies_the_question(self):
        y, on = Real("a name\nwith | replaced".replace("|", "'"), Fraction(1, 3), 0.5), Bool("on")
        answer = solve(X * X + y == 2, Or(on, X <= y), delta_bits=12)
        self.assertIsInstance(answer, DeltaSat)
        self.assertEqual(answer.delta, Fraction(1, 2**12))
        self.assertEqual(set(answer.point), {"x", y.name, "on"})
        x, y_value = answer.point["x"], answer.point[y.name]
        self.assertLessEqual(abs(x * x + y_value - 2), answer.delta)
        self.assertTrue(answer.point["on"] or x - y_value <= answer.delta)

    def test_unknown_has_its_cause(self):
        x, y = Real("x", 0, 1), Real("y", 0, 1)
        hard = x * y - y * x >= Fraction(1, 64)
        spent = solve(hard, budget=0)
        self.assertIsInstance(spent, Unknown)
        self.assertEqual((spent.cause, spent.budget, spent.open_boxes), ("budget", 0, 1))
        narrow = solve(hard, least_bits=1)
        self.assertIsInstance(narrow, Unknown)
        self.assertEqual((narrow.cause, narrow.open_boxes), ("width", 4))
        self.assertLessEqual(narrow.box["x"][1] - narrow.box["x"][0], Fraction(1, 2))

    def test_choices_and_options(self):
        u = If(X > 1, 1, If(X < -1, -1, X))
        self.assertIsInstance(solve(u > 1.1, workers=2, check=False), Unsat)
        free = Real("free")
        self.assertIsInstance(solve(free * free == -1, bound=4), Unsat)

    def test_scripts_as_text(self):
        text = "(declare-const |a b| Real)(declare-const p Bool)(assert (<= 0 |a b| 1))(assert p)(check-sat)"
        answer = solve_script(text)
        self.assertEqual(answer.point["p"], True)
        self.assertTrue(0 <= answer.point["a b"] <= 1)

    def test_converted_scripts_are_solved(self):
        z3 = "(set-info :status unknown)\n(declare-fun x () Real)\n(assert\n (let ((?x8 (^ x 2.0)))\n (and (<= 0.0 x) (<= x 2.0) (<= ?x8 (- 1.0)))))\n(check-sat)\n"
        self.assertIsInstance(solve_script(convert(z3).text), Unsat)
        dreal = convert("(set-logic QF_NRA)(set-option :precision 0.001)(declare-fun x () Real [0, 2])(assert (= (^ x 5) 3.2e1))(check-sat)(exit)")
        answer = solve_script(dreal.text, delta_bits=dreal.delta_bits)
        self.assertLessEqual(abs(answer.point["x"] ** 5 - 32), Fraction(1, 1000))


class Failures(unittest.TestCase):
    def test_several_checks_are_refused(self):
        with self.assertRaises(DpolyError) as caught:
            solve_script("(check-sat)(assert false)(check-sat)")
        self.assertIn("several checks", str(caught.exception))

    def test_a_refused_script_shows_its_place(self):
        with self.assertRaises(ScriptError) as caught:
            solve_script("(declare-const x Real)\n(assert (< x zz))\n(check-sat)")
        error = caught.exception
        self.assertEqual((error.number, error.name, error.detail, error.line, error.column), (6, "UnknownSymbol", "zz", 2, 14))
        self.assertEqual(error.source, "(assert (< x zz))")
        with self.assertRaises(ScriptError) as caught:
            solve(Real("no\x1bbounds") <= 1)
        self.assertEqual(caught.exception.name, "NoBound")
        self.assertNotIn("\x1b", str(caught.exception))

    def test_refused_options(self):
        with self.assertRaises(UsageError):
            solve(X <= 1, margin_bits=5, delta_bits=5)
        with self.assertRaises(TypeError):
            solve(X <= 1, budget=1.5)

    def test_what_is_not_confirmed_is_no_answer(self):
        real = find_programs()
        with tempfile.TemporaryDirectory() as folder:
            liar = program(folder, "liar", 'for it; do last=$it; done; echo "dpoly 2" >"$last"; printf "unsat\\nmargin 1b-20\\n"')
            with self.assertRaises(CertificateError):
                solve(X <= 1, programs=Programs(liar, real.checker))
            other = program(folder, "other", 'printf "confirmed unsat\\nmargin 1b-19\\n"')
            with self.assertRaises(CertificateError):
                solve(X > 2.5, programs=Programs(real.solver, other))

    def test_programs_that_fail(self):
        with tempfile.TemporaryDirectory() as folder:
            for name, text, wanted in [("full", "exit 6", 6), ("silent", "exit 5", 5), ("odd", "exit 77", 77)]:
                with self.assertRaises(ProgramError) as caught:
                    solve(X <= 1, programs=Programs(program(folder, name, text), "true"))
                self.assertEqual(caught.exception.status, wanted)
            with self.assertRaises(ProgramError):
                solve(X <= 1, seconds=0.2, programs=Programs(program(folder, "slow", "exec sleep 5"), "true"))
            with self.assertRaises(ProgramError):
                solve(X <= 1, programs=Programs(os.path.join(folder, "missing"), "true"))

    def test_programs_are_found(self):
        known = {it: os.environ.get(it) for it in ("DPOLY", "PATH")}
        try:
            with tempfile.TemporaryDirectory() as folder:
                solver, checker = (program(folder, it, "exit 0") for it in ("dpoly", "dpoly-check"))
                for named, path in [(folder, ""), (solver, ""), ("", folder)]:
                    os.environ["DPOLY"], os.environ["PATH"] = named, path
                    self.assertEqual(find_programs(), Programs(solver, checker))
                os.environ["DPOLY"], os.environ["PATH"] = "", ""
                with self.assertRaises(ProgramError):
                    find_programs()
        finally:
            for name, value in known.items():
                os.environ.pop(name) if value is None else os.environ.__setitem__(name, value)


if __name__ == "__main__":
    unittest.main()
