"""`python3 -m dpoly trim` and `coq`, by certificates that are written here."""
import argparse
import contextlib
import io
import os
import tempfile
import unittest

from dpoly import plain

HEAD = "dpoly 2\nmargin 20\ndelta 10\nbound none\n"
SCRIPT = "(declare-const x Real)(assert (<= 0 x 1))(assert (>= (* 1 x) (/ 3 4)))(assert (<= (* 1 x) (/ 1 4)))(check-sat)"
# lines, and what is left of them
ROWS = [
    ("cover 0/tree/unit 2/unit 3/pull 2/void 3/end", "cover 0/tree/unit 2/unit 3/pull 2/void 3/end"),
    ("cover 0/tree/unit 0/unit 2/unit 3/pull 2/pull 2/void 3/end", "cover 0/tree/unit 2/unit 3/pull 2/void 3/end"),
    ("cover 0/tree/cut 0 1b-1/unit 2/void 2/unit 3/void 3/end", "cover 0/tree/cut 0 1b-1/unit 2/void 2/unit 3/void 3/end"),
    ("cover 0/tree/case 1/unit 2/unit 3/pull 2/void 3/unit 2/unit 3/pull 2/void 3/end", "cover 0/tree/unit 2/unit 3/pull 2/void 3/end"),
    ("cover 1/lemma 0/real 0 1b0/yes 1 2 3/no/pull 2/void 3/tree/unit 1/unit 2/unit 3/by 0/end",
     "cover 1/lemma 0/real 0 1b0/yes 2 3/no/pull 2/void 3/tree/unit 2/unit 3/by 0/end"),
    ("cover 1/lemma 0/real 0 1b0/yes 2 3/no/pull 2/void 3/tree/unit 2/unit 3/pull 2/void 3/end",
     "cover 0/tree/unit 2/unit 3/pull 2/void 3/end"),
]
BOX = "".join(f"(declare-const {it} Real)(assert (<= (- 1) {it} 1))" for it in "xyz")
SQUARES = BOX + "(assert (<= (* 2 z) 0))(assert (<= (+ (* x x) (* (- 2) x y) (* y y) 1) 0))(check-sat)"
APART = "voidpos 1 7 1b0 0 2 1 0 1 1 1b0 -1b0 0"
BOUNDED = f"{APART} 1 2 1 0 3b-1"  # the bound of z is a factor, and where z is at most 0 or at least 0 the rest is positive
SQUARES_ROWS = [
    (f"unit 6/unit 7/pull 6/{BOUNDED}", f"unit 6/unit 7/pull 6/{BOUNDED}"),
    (f"unit 0/unit 6/unit 7/pull 6/pull 0/{BOUNDED}", f"unit 6/unit 7/pull 6/{BOUNDED}"),
    (f"unit 6/unit 7/pull 6/{APART}", f"unit 7/{APART}"),
    (f"cut 2 0/unit 7/{BOUNDED}/unit 7/{BOUNDED}", f"cut 2 0/unit 7/{BOUNDED}/unit 7/{BOUNDED}"),
    (f"cut 2 0/unit 7/{APART}/unit 7/{BOUNDED}", f"unit 7/{APART}"),
]
# x is at most 1/4 or at least 3/4, where y is at most 1/2; and x^2 is 1/4
GROUPS = ("(declare-const x Real)(assert (<= 0 x 1))(declare-const y Real)(assert (<= 0 y 1))(assert (<= (* 2 y) 1))"
          "(assert (or (>= (* 1 x) (/ 3 4)) (<= (* 1 x) (/ 1 4)) (>= (* 1 y) (/ 3 4))))(assert (= (* x x) (/ 1 4)))(check-sat)")
BOTH = "either 1 5 6/pull 5/void 8/pull 6/void 8"
GROUPS_ROWS = [
    (f"unit 4/unit 8/pull 4/{BOTH}", f"unit 4/unit 8/pull 4/{BOTH}"),  # where y is above 1/2 neither group has to hold
    (f"unit 0/unit 4/unit 8/pull 0/pull 4/{BOTH}", f"unit 4/unit 8/pull 4/{BOTH}"),
    (f"unit 4/unit 8/pull 4/either 1 0 1/{BOTH}/{BOTH}", f"unit 4/unit 8/pull 4/{BOTH}"),
]
LEAST = SCRIPT.replace("(check-sat)", "(minimize (* 1 x))(check-sat)")
SEVERAL = "(declare-const x Real)(assert (<= 0 x 1))(assert (>= (* x x) 2))(check-sat)(check-sat)"
PART = "cover 0/keep 0/tree/unit 2/void 2/end"
# what is read alike in two versions: a script, the versions, and lines
VERSIONS = [
    (SCRIPT, (2, 5), ROWS[3][0]),
    (SCRIPT, (2, 5), "cover 0/tree/unit 2/unit 3/voidcomb 2 -1b0 3 1b0/end"),
    (SEVERAL, (3, 5), f"checks 2/{PART}/{PART}"),
    (LEAST, (4, 5), "lower 1b-3/cover 0/tree/unit 2/pull 2/over/end"),
]


def header(version):
    return HEAD.replace("dpoly 2", f"dpoly {version}")


def command(words):
    """The exit status of `python3 -m dpoly` with these words."""
    parser = argparse.ArgumentParser()
    plain.add_commands(parser.add_subparsers(dest="command"))
    parsed = parser.parse_args(words)
    return parsed.run(parsed)


class Trim(unittest.TestCase):
    def test_rows(self):
        from dpoly import trim

        for lines, wanted in ROWS:
            certificate = (HEAD + lines.replace("/", "\n") + "\n").encode()
            found = trim.trim_fully(SCRIPT.encode(), certificate)
            with self.subTest(lines):
                self.assertEqual(found.decode(), HEAD + wanted.replace("/", "\n") + "\n")
                self.assertEqual(plain.checker.check(SCRIPT.encode(), found), plain.checker.check(SCRIPT.encode(), certificate))

    def test_squares(self):
        from dpoly import coq, trim

        head = header(5) + "cover 0\ntree\n"
        for lines, wanted in SQUARES_ROWS:
            texts = [head + it.replace("/", "\n") + "\nend\n" for it in (lines, wanted)]
            with self.subTest(lines):
                self.assertEqual(plain.checker.check(SQUARES.encode(), texts[0].encode())[0], 0)
                self.assertEqual(trim.trim_fully(SQUARES.encode(), texts[0].encode()).decode(), texts[1])
                self.assertIn("LVoidPos", coq.theorem(SQUARES.encode(), texts[0].encode()))
                before = texts[0].replace("dpoly 5", "dpoly 2").encode()
                self.assertRaises(coq.Refused, coq.theorem, SQUARES.encode(), before)
                self.assertRaises(trim.Untrimmed, trim.trim, SQUARES.encode(), before)

    def test_groups(self):
        from dpoly import coq, trim

        head = header(5) + "cover 0\ntree\n"
        for lines, wanted in GROUPS_ROWS:
            texts = [head + it.replace("/", "\n") + "\nend\n" for it in (lines, wanted)]
            with self.subTest(lines):
                self.assertEqual(plain.checker.check(GROUPS.encode(), texts[0].encode())[0], 0)
                self.assertEqual(trim.trim_fully(GROUPS.encode(), texts[0].encode()).decode(), texts[1])
                self.assertIn("LEither [6]%positive [7]%positive [6]%positive", coq.theorem(GROUPS.encode(), texts[0].encode()))
                before = texts[0].replace("dpoly 5", "dpoly 2").encode()
                self.assertRaises(coq.Refused, coq.theorem, GROUPS.encode(), before)
                self.assertRaises(trim.Untrimmed, trim.trim, GROUPS.encode(), before)

    def test_command(self):
        with tempfile.TemporaryDirectory() as folder:
            paths = [os.path.join(folder, it) for it in ("s.smt2", "c.cert", "out.cert")]
            for path, text in zip(paths, (SCRIPT, HEAD + ROWS[1][0].replace("/", "\n"))):
                with open(path, "w") as file:
                    file.write(text)
            said = io.StringIO()
            with contextlib.redirect_stdout(said):
                self.assertEqual(command(["trim", *paths]), 0)
            self.assertEqual(said.getvalue(), "lines 12 -> 11\n")
            with contextlib.redirect_stdout(said):
                self.assertEqual(command(["coq", *paths[:2], "--name", "apart"]), 0)
            self.assertIn("Theorem apart :", said.getvalue())

    def test_versions(self):
        from dpoly import coq, trim

        for script, versions, lines in VERSIONS:
            texts = [(header(it) + lines.replace("/", "\n") + "\n").encode() for it in versions]
            with self.subTest(lines):
                theorems = [coq.theorem(script.encode(), it) for it in texts]
                self.assertIn("Theorem", theorems[0])
                self.assertEqual(*theorems)
                if script == SEVERAL:
                    for text in texts:
                        self.assertRaises(trim.Untrimmed, trim.trim, script.encode(), text)
                    continue
                old, new = (trim.trim_fully(script.encode(), it) for it in texts)
                self.assertEqual(old.split(b"\n")[1:], new.split(b"\n")[1:])
                self.assertTrue(new.startswith(b"dpoly 5\n"))
        lines = VERSIONS[0][2].replace("/", "\n") + "\n"
        for version in (3, 4, 6):
            for read in (coq.theorem, trim.trim):
                self.assertRaises(plain.checker.CertificateFault, read, SCRIPT.encode(), (header(version) + lines).encode())

    def test_open_boxes(self):
        from dpoly import trim

        lines = HEAD + "cover 0\ntree\ncut 0 1b-1\nopen\nfalse\nend\n"
        with self.assertRaises(trim.Untrimmed):
            trim.trim(SCRIPT.encode(), lines.encode())


if __name__ == "__main__":
    unittest.main()
