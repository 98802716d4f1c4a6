"""What a cover uses of the assertions of its script, by certificates that are written here."""
import unittest

from dpoly import cores, front
from dpoly.smtlib import Reader

HEAD = "dpoly 5\nmargin 20\ndelta 10\nbound none\n"
# atoms 0 to 3
BOUNDS = "(declare-const x Real)(declare-const y Real)(assert (<= 0 x 1))(assert (<= 0 y 1))"
LOW, HIGH = "(assert (<= (* 1 x) (/ 1 4)))", "(>= (* 1 x) (/ 3 4))"
# atoms 4, 5 and 6
APART = f"{BOUNDS}(assert {HIGH})(assert (<= (* 1 y) (/ 1 2))){LOW}"
# atoms 4 or 5, and 6
EITHER = f"{BOUNDS}(assert (or {HIGH} (>= (* 1 y) 2))){LOW}"
# atoms 4 and 5
SQUARES = f"{BOUNDS}(assert (<= (+ (* x x) (* (- 2) x y) (* y y) 1) 0)){LOW}"
VOID = "voidpos 1 4 1b0 0 2 1 0 1 1 1b0 -1b0 0"
# atoms 0 to 4
TIGHT = ("(declare-const x Real)(assert (<= 0 x 9))(assert (<= x 1))(assert (<= x 2))"
         "(assert (>= (* x x) 2))")
CROSSED = ("(declare-const x Real)(assert (<= 0 x 3))(assert (<= x 2))(assert (>= x 1))"
           "(assert (<= x 0.5))")
UNIT_BOX = "real 0 1b0/real 0 1b0"
# a script, the lines of a cover, the numbers of the assertions of the core, from 0
ROWS = [
    (APART, "cover 0/tree/unit 4/unit 6/pull 4/void 6/end", {0, 2, 4}),
    (APART, "cover 0/tree/unit 5/pull 5/unit 4/unit 6/pull 4/void 6/end", {0, 2, 4}),
    (APART, "cover 0/tree/cut 1 1b-1/unit 4/unit 6/pull 4/void 6/unit 4/unit 6/pull 4/void 6/end",
     {0, 2, 4}),
    (APART, f"cover 1/lemma 0/{UNIT_BOX}/yes 4 6/no/pull 4/void 6/"
            "tree/unit 4/unit 5/unit 6/by 0/end", {0, 2, 4}),
    (APART, f"cover 1/lemma 0/{UNIT_BOX}/yes/no/unit 4/pull 4/unit 6/void 6/"
            "tree/unit 5/by 0/end", {0, 2, 4}),
    (EITHER, "cover 0/tree/unit 6/pull 6/false/end", {0, 1, 2, 3}),
    (SQUARES, f"cover 0/tree/unit 5/unit 4/{VOID}/end", {0, 1, 2}),
    (SQUARES, f"cover 0/tree/unit 5/pull 5/unit 4/{VOID}/end", {0, 1, 2, 3}),
    (TIGHT, "cover 0/tree/unit 4/void 4/end", {0, 1, 3}),
    (CROSSED, "cover 0/tree/empty 0/end", {2, 3}),
]


def session_of(script):
    """A session in which a script was read."""
    session = front.Session()
    for tree in Reader().feed(script, True):
        front.answer_to(session, tree)
    return session


class Cores(unittest.TestCase):
    def test_rows(self):
        for commands, lines, wanted in ROWS:
            session = session_of(commands)
            script = session.script(session.assertions).encode()
            certificate = (HEAD + lines.replace("/", "\n") + "\n").encode()
            with self.subTest(lines):
                used = cores.used_by(script, certificate, None, 60)
                graphs = [it.graph for it in session.assertions]
                self.assertEqual(cores.core_of(used, graphs, set()), wanted)
                self.assertEqual(cores.core_of(used, graphs, {1}), wanted | {1})

    def test_no_time(self):
        session = session_of(APART)
        certificate = (HEAD + ROWS[0][1].replace("/", "\n") + "\n").encode()
        script = session.script(session.assertions).encode()
        self.assertIsNone(cores.used_by(script, certificate, None, 0))

    def test_an_assertion_that_stands_twice(self):
        """The one that is kept anyway is taken."""
        session = session_of(BOUNDS + "(assert (>= (* x x) 2))(assert (>= (* x x) 2))")
        script = session.script(session.assertions).encode()
        certificate = (HEAD + "cover 0/tree/false/end/".replace("/", "\n")).encode()
        used = cores.used_by(script, certificate, None, 60)
        graphs = [it.graph for it in session.assertions]
        self.assertEqual(used.conjuncts, [{-2, -1}])
        self.assertEqual(cores.core_of(used, graphs, {3}), {0, 3})
        self.assertEqual(cores.core_of(used, graphs, set()), {0, 2})


if __name__ == "__main__":
    unittest.main()
