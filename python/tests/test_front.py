"""Sessions with `dpoly-smt` by pipes, as tools hold them; each answer is waited for before the next command is sent."""
import os
import select
import signal
import subprocess
import tempfile
import unittest
from fractions import Fraction
from pathlib import Path

FRONT = str(Path(__file__).resolve().parent.parent / "dpoly-smt")


def heed_interrupts():
    signal.signal(signal.SIGINT, signal.SIG_DFL)


class Client:
    """A client that writes a command and reads the answer, line by line, and gives up after five minutes."""

    def __init__(self, *words):
        # (a test that runs in the background of a shell ignores interrupts, and so would the front)
        self.process = subprocess.Popen(
            [FRONT, *words], stdin=subprocess.PIPE, stdout=subprocess.PIPE, bufsize=0, preexec_fn=heed_interrupts
        )
        self.read = b""

    def send(self, text):
        self.process.stdin.write(text.encode())

    def line(self):
        while b"\n" not in self.read:
            ready, _, _ = select.select([self.process.stdout], [], [], 300)
            if not ready:
                raise AssertionError(f"no answer; so far {self.read!r}")
            piece = os.read(self.process.stdout.fileno(), 4096)
            if not piece:
                raise AssertionError(f"the end, and not an answer; so far {self.read!r}")
            self.read += piece
        found, _, self.read = self.read.partition(b"\n")
        return found.decode()

    def expression(self):
        """Lines up to the end of an expression."""
        text = self.line()
        while text.count("(") > text.count(")"):
            text += "\n" + self.line()
        return text

    def ask(self, text):
        self.send(text + "\n")
        return self.expression()

    def end(self):
        self.process.stdin.close()
        try:
            return self.process.wait(300)
        finally:
            self.process.stdout.close()


class Sessions(unittest.TestCase):
    def client(self, *words):
        found = Client(*words)
        self.addCleanup(found.process.stdout.close)
        self.addCleanup(found.process.stdin.close)
        self.addCleanup(found.process.wait)
        self.addCleanup(found.process.kill)
        return found

    def talk(self, client, *pairs):
        for said, wanted in pairs:
            self.assertEqual(client.ask(said), wanted, said)

    def test_generic_solver_of_pysmt(self):
        """The commands that pySMT's `SmtLibSolver` sends, each answered by a line before the next."""
        client = self.client("-in")
        silent = [
            "(set-option :print-success true)",
            '(set-option :diagnostic-output-channel "stdout")',
            "(set-option :produce-models true)",
            "(set-option :random-seed 42)",
            "(set-logic QF_NRA)",
            "(declare-fun x () Real)",
            "(declare-fun y () Real)",
            "(declare-fun |a b| () Bool)",
            "(assert (let ((.def_0 (<= x 2.0))) (let ((.def_1 (<= 0.0 x))) (let ((.def_2 (and .def_1 .def_0))) .def_2))))",
            "(assert (let ((.def_0 (* x x))) (let ((.def_1 (= y .def_0))) .def_1)))",
            "(assert (<= 0.0 y 4.0))",
        ]
        for command in silent:
            self.assertEqual(client.ask(command), "success", command)
        self.assertEqual(client.ask("(check-sat)"), "sat")
        values = {it: client.ask(f"(get-value ({it}))") for it in ("x", "y", "|a b|")}
        self.assertEqual(values["|a b|"][:8], "((|a b| ")
        x, y = (number(values[it][4:-2]) for it in ("x", "y"))
        self.assertEqual(y, x * x)
        for command, wanted in [
            ("(push 1)", "success"),
            ("(assert (< y (- (/ 1 10))))", "success"),
            ("(check-sat)", "unsat"),
            ("(pop 1)", "success"),
            ("(check-sat)", "sat"),
            ("(reset-assertions)", "success"),
            ("(exit)", "success"),
        ]:
            self.assertEqual(client.ask(command), wanted, command)
        self.assertEqual(client.end(), 0)

    def test_proof_obligation_of_why3(self):
        """A goal as Why3 sends it: comments, a negated goal, questions for the reason and a model."""
        client = self.client("-smt2", "--seconds", "300", "--core-seconds", "300")
        client.send(
            ";; produced by a driver for SMT-LIB2\n(set-info :smt-lib-version 2.6)\n(set-option :produce-models true)\n(set-logic ALL)\n"
            ';; "abs"\n(define-fun abs1 ((x Real)) Real (ite (<= 0.0 x) x (- x)))\n(declare-fun x () Real)\n(declare-fun y () Real)\n'
            ";; \"H\"\n(assert (! (and (<= (- 1.0) x) (<= x 1.0)) :named H))\n(assert (! (and (<= (- 1.0) y) (<= y 1.0)) :named H1))\n"
            ";; Goal \"g\"\n(push)\n(assert (not (<= (abs1 (* x y)) (+ 1.0 (/ 1.0 8.0)))))\n(check-sat)\n"
        )
        self.assertEqual(client.line(), "unsat")
        self.assertEqual(client.ask("(get-unsat-core)"), "(H H1)")
        client.send("(pop)\n(push)\n(assert (not (<= (abs1 (* x y)) 0.5)))\n(check-sat)\n(get-model)\n")
        self.assertEqual(client.line(), "sat")
        model = client.expression()
        self.assertRegex(model, r"\A\(\n  \(define-fun x \(\) Real .*\)\n  \(define-fun y \(\) Real .*\)\n\)\Z")
        # the square root of 2: no fraction satisfies it
        client.send("(pop)\n(push)\n(assert (not (distinct (* x x) 0.5)))\n(check-sat)\n(get-info :reason-unknown)\n")
        self.assertEqual(client.line(), "unknown")
        self.assertRegex(client.line(), r'\A\(:reason-unknown "delta-sat: .*"\)\Z')
        self.assertRegex(client.ask("(get-value ((* x x)))"), r"\A\(\(\(\* x x\) \(/ \d+\.0 \d+\.0\)\)\)\Z")
        client.end()

    def test_cores(self):
        client = self.client("--core-seconds", "300")
        client.send("(declare-const x Real)(declare-const y Real)(declare-const p Bool)(declare-const q Bool)(declare-const r Bool)")
        client.send("(assert (and (<= 0 x 1) (<= 0 y 1)))(assert (! (<= y 0.5) :named unused))(assert (! (>= x 0.75) :named |a b|))")
        client.send("(assert (=> p (<= (* x x) 0.5)))(assert (=> q (>= y 0.25)))(assert (! (or r (<= y 1)) :named also))")
        self.talk(
            client,
            ("(check-sat-assuming (r (not q) p))", "unsat"),
            ("(get-unsat-assumptions)", "(p)"),
            ("(get-unsat-core)", "(|a b|)"),
            ("(check-sat-assuming (q (not p)))", "sat"),
            ("(get-unsat-core)", '(error "line 5 column 1: the last command that counts is no check-sat that answered unsat")'),
            ("(check-sat-assuming ((<= (+ x y) 0.5) (and q r)))", "unsat"),
            ("(get-unsat-assumptions)", "((<= (+ x y) 0.5))"),
            ("(check-sat)", "sat"),
        )
        client.end()

    def test_bounds_that_follow_cross(self):
        """No assertion bounds y, and what follows of it leaves nothing."""
        client = self.client("--core-seconds", "300")
        client.send("(declare-const x Real)(declare-const y Real)(assert (! (<= 0 x 2) :named range))(assert (! (= y (* x x)) :named square))")
        self.talk(client, ("(push)(assert (! (>= y 5) :named high))(check-sat)", "unsat"), ("(get-unsat-core)", "(range square high)"))
        client.end()

    def test_a_core_without_a_constant(self):
        """The bounds of a constant that the core does not use are left out with it, and so is what is named beside them."""
        client = self.client("--core-seconds", "300")
        client.send("(declare-const x Real)(declare-const y Real)(declare-const z Real)(assert (! (<= 0 x 2) :named rx))")
        client.send("(assert (! (<= 0 y 10) :named ry))(assert (! (<= 0 z 10) :named rz))(assert (! (= y (* x x)) :named square))")
        client.send("(assert (! (<= (+ y z) 12) :named sum))(assert (! (>= y 5) :named high))(assert (! (or rz (>= z 3)) :named either))")
        self.talk(client, ("(check-sat)", "unsat"), ("(get-unsat-core)", "(rx square high)"))
        client.end()

    def test_values_are_exact(self):
        client = self.client()
        client.send("(declare-const x Real)(declare-const y Real)(declare-const free Real)(declare-const p Bool)(define-fun twice ((a Real)) Real (* 2 a))")
        self.talk(
            client,
            ("(assert (<= 0 x 1))(assert (= (* 3 x) 1))(assert (= y (+ (twice x) (^ x 2))))(assert (<= 0 y 5))(assert p)(check-sat)", "sat"),
            ("(get-value (x y (twice (abs (- x))) (sqrt (^ y 2)) (< x y) p free))",
             "((x (/ 1.0 3.0)) (y (/ 7.0 9.0)) ((twice (abs (- x))) (/ 2.0 3.0)) ((sqrt (^ y 2)) (/ 7.0 9.0)) ((< x y) true) (p true) (free 0.0))"),
            ("(get-value ((sqrt x)))", '(error "line 3 column 13: the value of this term is no fraction, or is not defined")'),
            ("(get-value ((/ 1 free)))", '(error "line 4 column 13: the value of this term is no fraction, or is not defined")'),
            ("(get-model)", "(\n  (define-fun x () Real (/ 1.0 3.0))\n  (define-fun y () Real (/ 7.0 9.0))\n  (define-fun free () Real 0.0)\n  (define-fun p () Bool true)\n)"),
            ("(assert (distinct x y))(get-model)", '(error "line 6 column 24: the last command that counts is no check-sat that answered sat or unknown")'),
        )
        client.end()

    def test_sat_is_exact(self):
        """Strict comparisons and `distinct`, which the program does not tell from others, and quotients by nought."""
        for script, wanted in [
            ("(assert (and (<= 0 x 1) (> x 1)))", "unknown"),
            ("(assert (and (<= 0 x 1) (< x 1) (> x 0)))", "sat"),
            ("(assert (and (<= 1 x 1) (distinct x 1)))", "unknown"),
            ("(assert (and (<= 0 x 1) (distinct x 1)))", "sat"),
            ("(assert (and (<= 1 x 2) (= (* x x) 2)))", "unknown"),
            ("(assert (and (<= 1 x 2) (= (* x x) (/ 9 4))))", "sat"),
            ("(assert (and (<= 1 x 2) (= (/ 3 x) 2)))", "sat"),
            ("(assert (and (<= 1 x 2) (= (sqrt x) (/ 5 4))))", "sat"),
            ("(assert (and (<= 1 x 2) (= x (sqrt 2))))", "unknown"),
        ]:
            client = self.client()
            self.assertEqual(client.ask(f"(declare-const x Real){script}(check-sat)"), wanted, script)
            client.end()

    def test_reasons(self):
        hard = "(declare-const x Real)(declare-const y Real)(assert (and (<= 0 x 8) (<= 0 y 8)))(assert (>= (- (* x y) (* y x)) 0.001))"
        for words, script, wanted in [
            ((), "(declare-const x Real)(assert (> (* x x) 2))", 'incomplete: NoBound x: assert bounds of it, or ask for --bound N'),
            (("--budget", "0"), hard, "budget: 0 boxes were split, 1 are open"),
            (("--least-bits", "0", "--budget", "100000"), hard, "width: a box of the least width is not decided"),
            (("--budget", "1000000", "--seconds", "0.05"), hard, "timeout"),
            ((), "(set-option :dpoly.budget 0)" + hard, "budget: 0 boxes were split, 1 are open"),
            ((), "(set-option :dpoly.budget 1000000)(set-option :timeout 50)" + hard, "timeout"),
        ]:
            client = self.client(*words)
            self.assertEqual(client.ask(script + "(check-sat)"), "unknown")
            self.assertEqual(client.ask("(get-info :reason-unknown)"), f'(:reason-unknown "{wanted}")')
            client.end()
        client = self.client("--bound", "3")
        self.assertEqual(client.ask("(declare-const x Real)(assert (> (* x x) 10))(check-sat)"), "unsat")
        client.end()

    def test_faults_do_not_end_a_session(self):
        client = self.client()
        client.send("(declare-const x Real)(assert (<= 0 x 1))")
        self.talk(
            client,
            ("(assert (<= x z))", '(error "line 1 column 56: z is not declared")'),
            # an assertion is missing: what is left has a point, which says nothing of the whole
            ("(check-sat)", "unknown"),
            ("(get-info :reason-unknown)", '(:reason-unknown "incomplete: a command was refused, and the point is of what is left")'),
            ("(push 1)(assert (> x 2))(check-sat)", "unsat"),
            ("(reset)(check-sat)", "sat"),
            ("(declare-fun f (Real) Real)", '(error "line 6 column 16: a function with arguments has no counterpart")'),
            ("(reset){ x", '(error "line 7 column 8: \'{\' begins no token of SMT-LIB")'),
            ("(echo \"a \"\"b\"\"\")", '"a ""b"""'),
            ("(get-proof)", "unsupported"),
            ("(set-option :global-declarations true)", "unsupported"),
            (")(get-info :error-behavior)", '(error "line 11 column 1: a parenthesis closes nothing")'),
        )
        self.assertEqual(client.line(), "(:error-behavior continued-execution)")
        deep = "(assert " + "(not " * 10_000 + "x" + ")" * 10_000 + ")"
        self.assertRegex(client.ask(deep), "error")
        self.assertEqual(client.end(), 1)

    def test_an_answer_needs_no_line_feed(self):
        client = self.client()
        client.send('(get-info :name)(echo "a')
        self.assertEqual(client.line(), '(:name "dpoly")')
        client.send(' (b")')
        self.assertEqual(client.line(), '"a (b"')
        client.send("(declare-const x")
        client.send("y Real)(get-value (xy))")
        self.assertRegex(client.line(), "no check-sat")
        client.end()

    def test_files_and_failures(self):
        with tempfile.TemporaryDirectory() as folder:
            path = Path(folder, "script.smt2")
            path.write_text("(declare-const x Real)\n(assert (<= 0 x 1))(assert (> x 3))\n(check-sat)\n(exit)\n(check-sat)")
            done = subprocess.run([FRONT, path], stdout=subprocess.PIPE, stderr=subprocess.PIPE, text=True)
            self.assertEqual((done.returncode, done.stdout, done.stderr), (0, "unsat\n", ""))
            done = subprocess.run([FRONT, path.with_name("none")], stdout=subprocess.PIPE, stderr=subprocess.PIPE, text=True)
            self.assertEqual((done.returncode, done.stdout), (4, ""))
            bare = {**os.environ, "DPOLY": folder}
            done = subprocess.run([FRONT, path], stdout=subprocess.PIPE, stderr=subprocess.PIPE, text=True, env=bare)
            self.assertEqual((done.returncode, done.stdout), (6, ""))

    def test_a_client_that_goes_away(self):
        client = self.client()
        self.assertEqual(client.ask("(get-info :name)"), '(:name "dpoly")')
        client.process.stdout.close()
        client.send("(get-info :name)\n")
        self.assertEqual(client.process.wait(300), 5)
        other = self.client()
        other.ask("(get-info :name)")
        other.process.send_signal(signal.SIGINT)
        self.assertEqual(other.process.wait(300), 130)


def number(text):
    """A value as SMT-LIB writes it."""
    words = text.replace("(", " ").replace(")", " ").split()
    sign = -1 if "-" in words else 1
    numbers = [Fraction(it) for it in words if it not in "-/"]
    return sign * (numbers[0] / numbers[1] if len(numbers) == 2 else numbers[0])


if __name__ == "__main__":
    unittest.main()
