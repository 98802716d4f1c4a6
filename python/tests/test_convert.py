"""Scripts of z3 and dReal, by rows; the expected texts are written by hand."""
import subprocess
import sys
import tempfile
import time
import unittest
from pathlib import Path

from dpoly import ConversionError, convert

DECLARED = "(declare-const x Real)\n(declare-const y Real)\n(declare-const p Bool)\n(declare-const q Bool)\n"

# what stands in the script, behind DECLARED where it uses these constants, and what is written
ROWS = [
    ("(set-logic ALL)", "(set-logic QF_NRA)"),
    ("(set-logic QF_NRA_ODE)", "(set-logic QF_NRA)"),
    ("(set-info :status unknown)", "(set-info :status unknown)"),
    ("(declare-fun z () Real)", "(declare-const z Real)"),
    ("(declare-fun z () Real [0, 10])", "(declare-const z Real)\n(assert (<= 0 z 10))"),
    ("(declare-const z Real [-1.5, 1e1])", "(declare-const z Real)\n(assert (<= (- (/ 3 2)) z 10))"),
    ("(declare-const z Real 0 10)", "(declare-const z Real)\n(assert (<= 0 z 10))"),
    ("(declare-fun z () Real [0, inf])", "(declare-const z Real)\n(assert (<= 0 z))"),
    ("(declare-fun z () Real [-inf, inf])", "(declare-const z Real)"),
    ("(declare-fun |a b| () Bool)", "(declare-const |a b| Bool)"),
    ("(assert (< (^ x 2) y))", "(assert (< (* x x) y))"),
    ("(assert (< (^ x 2.0) y))", "(assert (< (* x x) y))"),
    ("(assert (< (pow x 3) y))", "(assert (< (* (* x x) x) y))"),
    ("(assert (< (^ x 0) (^ x 1)))", "(assert (< 1 x))"),
    ("(assert (< (^ x 4) y))", "(assert (< (let ((power1 (* x x))) (* power1 power1)) y))"),
    ("(assert (< (^ (+ x y) 2) 1))", "(assert (< (let ((power1 (+ x y))) (* power1 power1)) 1))"),
    ("(assert (< (^ (+ x y) 1) 1))", "(assert (< (+ x y) 1))"),
    ("(declare-const power1 Real)(assert (< power1 (^ x 4)))", "(declare-const power1 Real)\n(assert (< power1 (let ((power2 (* x x))) (* power2 power2))))"),
    ("(assert (let ((power1 y)) (< (^ power1 4) x)))", "(assert (let ((power1 y)) (< (let ((power2 (* power1 power1))) (* power2 power2)) x)))"),
    ("(assert (< (abs x) 1.5e-2))", "(assert (< (let ((power1 x)) (ite (>= power1 0) power1 (- power1))) (/ 3 200)))"),
    ("(assert (< (max x y) 1))", "(assert (< (let ((power1 x) (power2 y)) (ite (>= power1 power2) power1 power2)) 1))"),
    ("(assert (! (and p (not q)) :named one))", "(assert (and p (not q)))"),
    ("(assert (! p :named one))(assert (or q one))", "(define-fun one () Bool p)\n(assert one)\n(assert (or q one))"),
    ("(assert (let ((a (^ x 2)) (b y)) (<= a b)))", "(assert (let ((a (* x x)) (b y)) (<= a b)))"),
    ("(define-fun sq ((a Real)) Real (^ a 2))", "(define-fun sq ((a Real)) Real (* a a))"),
    ("(define-const c Real (^ x 2))", "(define-fun c () Real (* x x))"),
    # what the program reads
    ("(push)(pop 1)(push 2)(pop)", "(push 1)\n(pop 1)\n(push 2)\n(pop 1)"),
    ("(minimize (* x y))", "(minimize (* x y))"),
    ("(check-sat-assuming (p (not q)))", "(check-sat-assuming (p (not q)))"),
    ("(check-sat-assuming (p (< (^ x 2) 1)))", "(check-sat-assuming (p (< (* x x) 1)))"),
    ("(echo \"a (b\"\" c\")(get-value (x (^ y 2)))(get-info :name)", "(echo \"a (b\"\" c\")\n(get-value (x (* y y)))\n(get-info :name)"),
    ("(reset-assertions)(declare-const x Bool)", "(reset-assertions)\n(declare-const x Bool)"),
    ("(assert (= (sqrt x) (/ x y)))", "(assert (= (sqrt x) (/ x y)))"),
    ("(assert (< (^ x 0.5) (^ y (/ 1.0 2.0))))", "(assert (< (sqrt x) (sqrt y)))"),
    ("(assert (< -0.5 (* +3 x) -1e-1))", "(assert (< (- (/ 1 2)) (* 3 x) (- (/ 1 10))))"),
    ("(assert (< 007 x 1." + "0" * 40 + "))", "(assert (< 7 x 1))"),
    # a name that the script has is not an operator
    ("(define-fun max ((a Real) (b Real)) Real (* a b))(assert (>= (max x y) 3.5))", "(define-fun max ((a Real) (b Real)) Real (* a b))\n(assert (>= (max x y) 3.5))"),
    ("(define-fun ^ ((a Real) (b Real)) Real (- a b))(assert (>= (^ x 2) 0))", "(define-fun ^ ((a Real) (b Real)) Real (- a b))\n(assert (>= (^ x 2) 0))"),
    ("(define-fun sin ((a Real)) Real a)(assert (>= (sin x) 0))", "(define-fun sin ((a Real)) Real a)\n(assert (>= (sin x) 0))"),
    ("(define-fun |abs| ((a Real)) Real a)(assert (>= (abs x) 0))", "(define-fun |abs| ((a Real)) Real a)\n(assert (>= (abs x) 0))"),
    ("(define-fun sqrt ((a Real)) Real a)(assert (>= (sqrt x) 0))", "(define-fun sqrt ((a Real)) Real a)\n(assert (>= (sqrt x) 0))"),
    ("(declare-const -0.5 Real)(assert (< -0.5 (^ x 2)))", "(declare-const -0.5 Real)\n(assert (< -0.5 (* x x)))"),
    ("(assert (let ((exp x)) (< exp 1)))", "(assert (let ((exp x)) (< exp 1)))"),
    ("(push 1)(define-fun abs ((a Real)) Real a)(assert (< (abs x) 1))(pop 1)(assert (< (abs x) 1))",
     "(push 1)\n(define-fun abs ((a Real)) Real a)\n(assert (< (abs x) 1))\n(pop 1)\n(assert (< (let ((power1 x)) (ite (>= power1 0) power1 (- power1))) 1))"),
    # bounds that follow
    ("(assert (= y (+ x 1)))(assert (<= (* y y) 4))(check-sat)",
     "(assert (= y (+ x 1)))\n(assert (<= (* y y) 4))\n(assert (<= (- 3) x 1))\n(assert (<= (- 2) y 2))\n(check-sat)"),
    ("(push 1)(assert (< 0 x 3))(assert (= (* x y) 2))(assert (>= x 1))(check-sat)(pop 1)(check-sat)",
     "(push 1)\n(assert (< 0 x 3))\n(assert (= (* x y) 2))\n(assert (>= x 1))\n(assert (<= (/ 349525 524288) y 2))\n(check-sat)\n(pop 1)\n(check-sat)"),
    ("(assert (or (<= 0 x 1) p))(check-sat)", "(assert (or (<= 0 x 1) p))\n(check-sat)"),
    # where a comment ends, and where the script does
    ("; a comment\n(check-sat)(exit)", "(check-sat)\n(exit)"),
    ("; a comment\r(assert p)", "(assert p)"),
    ("(exit) {", "(exit)"),
]

# what has no counterpart, its place (behind DECLARED, which ends with line 4), and a word that the error names
FAULTS = [
    ("(assert\n (<= (sin x) 0))", 6, 6, "bounds"),
    ("(assert (<= (tan x) 0))", 5, 14, "tan"),
    ("(assert (<= 0 x 1))(assert (<= (log x) 0))", 5, 32, "log"),
    ("(assert (<= 0 x 1))(assert (<= (sin x x) 0))", 5, 32, "one argument"),
    ("(define-fun f ((a Real)) Real (sin a))", 5, 31, "parameters"),
    ("(declare-fun n () Int)", 5, 19, "Int"),
    ("(declare-fun f (Real) Real)", 5, 16, "arguments"),
    ("(assert (<= (^ x y) 1))", 5, 18, "exponent"),
    ("(assert (<= (^ x 0.25) 1))", 5, 18, "exponent"),
    ("(assert (<= (^ x (- 2)) 1))", 5, 18, "exponent"),
    ("(assert (<= (^ x 1e" + "9" * 5000 + ") 1))", 5, 18, "exponent"),
    ("(assert (<= x 1e" + "9" * 5000 + "))", 5, 15, "too large"),
    ("(assert (<= x " + "9" * 5000 + "))", 5, 15, "too large"),
    ("(maximize x)", 5, 1, "maximize"),
    ("(minimize x)(minimize y)", 5, 13, "one minimize"),
    ("(pop 1)", 5, 1, "levels"),
    ("(push 99999999999999999999)", 5, 1, "levels"),
    ("(get-unsat-core)", 5, 1, "dpoly-smt"),
    ("(set-logic QF_LIA)", 5, 1, "QF_LIA"),
    ("(set-logic ALL)(set-logic ALL)", 5, 16, "already"),
    ("(set-option :precision 1e-12)", 5, 1, "2^-30"),
    ("(set-option :precision 0)", 5, 1, "above 0"),
    ("(set-info :bounds [1, 2])", 5, 19, "["),
    ("(assert (forall ((z Real)) (< z 1)))", 5, 10, "forall"),
    ("(assert (<= z 1))", 5, 13, "z is not declared"),
    ("(assert (<= x p))", 5, 9, "Real Bool"),
    ("(assert (true p q))", 5, 9, "true"),
    ("(assert x)", 5, 9, "Bool"),
    ("(define-fun f ((a Real)) Real a)(assert (<= (f p) 1))", 5, 45, "f takes Real"),
    ("(declare-const x Real)", 5, 1, "already"),
    ("(define-fun ite () Real x)", 5, 1, "theories"),
    ("(assert (let ((* x)) (<= x 1)))", 5, 16, "name"),
    ("(assert (let ((a x) (a y)) (<= a 1)))", 5, 22, "name"),
    ("(define-fun sqrt ((a Real)) Real a)(assert (<= (^ x 0.5) 1))", 5, 48, "sqrt"),
    ("(assert (<= (sqrt x) 1))(push 1)(declare-const sqrt Real)", 5, 33, "sqrt"),
    ("(assert (let ((sqrt x)) (<= (^ x 0.5) 1)))", 5, 29, "sqrt"),
    ("(assert (or (! p :named a) q))(assert a)", 5, 25, "names a part"),
    ("(assert (<= x 1)", 5, 1, "not closed"),
    (")", 5, 1, "closes nothing"),
    ("(assert {)", 5, 9, "token"),
    ("(assert (<= x 1-2))", 5, 15, "token"),
    ("(echo \"a)", 5, 7, "string"),
    ("(declare-fun z () Real [0 10])", 5, 1, "bounds"),
    ("(assert (integral 0 t x f))", 5, 10, "integral"),
    ("5", 5, 1, "command"),
]


class Conversions(unittest.TestCase):
    def test_rows(self):
        for text, wanted in ROWS:
            with self.subTest(text[:80]):
                self.assertEqual(convert(DECLARED + text).text, DECLARED + wanted + "\n")

    def test_faults_name_what_and_where(self):
        for text, line, column, word in FAULTS:
            with self.subTest(text[:80]), self.assertRaises(ConversionError) as caught:
                convert(DECLARED + text)
            self.assertEqual((caught.exception.line, caught.exception.column), (line, column), text[:80])
            self.assertIn(word, str(caught.exception))

    def test_precision_becomes_delta(self):
        for precision, delta, margin in [("0.001", 10, None), ("0.5", 1, None), ("1e-6", 20, 30), ("(/ 1 1024)", 10, None)]:
            done = convert(f"(set-option :precision {precision})(check-sat)")
            self.assertEqual((done.delta_bits, done.margin_bits), (delta, margin))
        self.assertEqual(done.options, ["--delta-bits", "10"])

    def test_deep_scripts(self):
        for before, after in [("(- ", ")"), ("(abs ", ")"), ("(^ ", " 2)"), ("(let ((a x)) ", ")"), ("(! ", " :a b)"), ("(sqrt ", ")")]:
            begin = time.monotonic()
            convert(DECLARED + "(assert (<= " + before * 4_000 + "x" + after * 4_000 + " 1))")
            self.assertLess(time.monotonic() - begin, 20)
        deep = "(assert " + "(not " * 4_000 + "p" + ")" * 4_000 + ")"
        self.assertEqual(convert(DECLARED + deep).text, DECLARED + deep + "\n")
        convert("(set-info :a " + "(" * 4_000 + ")" * 4_000 + ")")

    def test_the_command_line(self):
        with tempfile.TemporaryDirectory() as folder:
            path = Path(folder, "script.smt2")
            path.write_bytes(b"(set-option :precision 1e-6)\r\n(declare-const |\xff\r\n| Real) ; \xfe\n(assert (<= 0 |\xff\r\n| 1))")
            done = subprocess.run([sys.executable, "-m", "dpoly", "convert", path], stdout=subprocess.PIPE)
            wanted = b"; solve it with --delta-bits 20 --margin-bits 30\n(declare-const |\xff\r\n| Real)\n(assert (<= 0 |\xff\r\n| 1))\n"
            self.assertEqual((done.returncode, done.stdout), (0, wanted))
            path.write_text("(assert\n zz)")
            done = subprocess.run([sys.executable, "-m", "dpoly", "convert", path], stdout=subprocess.PIPE, stderr=subprocess.PIPE, text=True)
            self.assertEqual((done.returncode, done.stdout), (1, ""))
            self.assertIn("2:2: zz is not declared", done.stderr)


if __name__ == "__main__":
    unittest.main()
