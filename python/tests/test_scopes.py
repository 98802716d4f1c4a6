"""Scripts at random whose own names are those of other languages' operators: what `convert` writes has to be what they say."""
import random
import subprocess
import tempfile
import unittest
from fractions import Fraction
from pathlib import Path

from dpoly import convert, find_programs
from dpoly.convert import Converter
from dpoly.values import Graph

COUNT = 500
NAMES = ["abs", "min", "max", "pow", "^", "sin", "power1", "power2", "exp", "|max|", "-0.5"]


class Dice:
    """A script made at random: as it is written, with names that are all different and without operators of other languages, and
    as Python functions of a point. Each name is bound when it is made, so no name is looked up by its text."""

    def __init__(self, seed):
        self.dice, self.count, self.choices = random.Random(seed), 0, 0
        self.lines, self.plain, self.checks = [], [], []
        # a name of the script to (arity, name in the plain text, function)
        self.scope = {}
        for name in ("x", "y"):
            self.lines.append(f"(declare-const {name} Real)(assert (<= 1 {name} 2))")
            self.scope[name] = (0, name, lambda point, local, name=name: point[name])
        self.plain += self.lines
        for _ in range(self.dice.randrange(1, 5)):
            self.definition()
        for _ in range(self.dice.randrange(1, 3)):
            self.assertion()
        self.lines.append("(check-sat)")
        self.plain.append("(check-sat)")

    def fresh(self):
        self.count += 1
        return f"n{self.count}"

    def definition(self):
        name = self.dice.choice(NAMES)
        if name.strip("|") in {it.strip("|") for it in self.scope}:
            return
        names = self.dice.sample([it for it in NAMES if it != "|max|"] + ["x"], self.dice.randrange(0, 3))
        inner, fresh = dict(self.scope), [self.fresh() for _ in names]
        for parameter, unique in zip(names, fresh):
            self.put(inner, parameter, (0, unique, lambda point, local, unique=unique: local[unique]))
        self.choices = 3
        text, plain, body = self.term(inner, 3)
        self.choices = 0
        unique = self.fresh()
        listed = " ".join(f"({it} Real)" for it in names), " ".join(f"({it} Real)" for it in fresh)
        self.lines.append(f"(define-fun {name} ({listed[0]}) Real {text})")
        self.plain.append(f"(define-fun {unique} ({listed[1]}) Real {plain})")
        if names:
            self.put(self.scope, name, (len(names), unique, lambda point, *values: body(point, dict(zip(fresh, values)))))
        else:
            self.put(self.scope, name, (0, unique, lambda point, local: body(point, {})))

    @staticmethod
    def put(scope, name, entry):
        for it in [it for it in scope if it.strip("|") == name.strip("|")]:
            del scope[it]
        scope[name] = entry

    def assertion(self):
        self.choices = 0
        text, plain, value = self.term(self.scope, 4)
        point = {it: Fraction(self.dice.randrange(8, 17), 8) for it in ("x", "y")}
        limit = value(point, {}) + Fraction(self.dice.randrange(-3, 9), 4)
        written = f"(/ {abs(limit.numerator)} {limit.denominator})"
        if abs(limit.numerator) > 10**30 or limit.denominator > 10**30:
            return
        written = written if limit >= 0 else f"(- {written})"
        self.lines.append(f"(assert (>= {text} {written}))")
        self.plain.append(f"(assert (>= {plain} {written}))")
        self.checks.append((len(self.checks), value, limit))

    def term(self, scope, depth):
        """A term as it is written, plainly, and as a function."""
        kind = self.dice.randrange(10) if depth else 0
        leaves = [it for it in scope if scope[it][0] == 0]
        if kind <= 2:
            if self.dice.randrange(4):
                name = self.dice.choice(leaves)
                return name, scope[name][1], scope[name][2]
            text = self.dice.choice(["2", "0.5", "1e0", "-0.25", "2.5e-1"])
            value = Fraction(text)
            plain = f"(/ {abs(value.numerator)} {value.denominator})"
            return text, plain if value >= 0 else f"(- {plain})", lambda point, local: value
        calls = [it for it in scope if scope[it][0]]
        if kind <= 4 and calls:
            return self.call(scope, self.dice.choice(calls), depth)
        if kind == 5:
            return self.let(scope, depth)
        if kind <= 7:
            return self.elsewhere(scope, depth)
        a, b = self.term(scope, depth - 1), self.term(scope, depth - 1)
        sign = self.dice.choice("+-")
        of = {"+": lambda p, n: a[2](p, n) + b[2](p, n), "-": lambda p, n: a[2](p, n) - b[2](p, n)}[sign]
        return f"({sign} {a[0]} {b[0]})", f"({sign} {a[1]} {b[1]})", of

    def call(self, scope, name, depth):
        count, unique, of = scope[name]
        parts = [self.term(scope, depth - 1) for _ in range(count)]
        words = [" ".join(it[side] for it in parts) for side in (0, 1)]
        return f"({name} {words[0]})", f"({unique} {words[1]})", lambda p, n: of(p, *(it[2](p, n) for it in parts))

    def let(self, scope, depth):
        name, unique = self.dice.choice([*NAMES, "x"]), self.fresh()
        value, inner = self.term(scope, depth - 1), dict(scope)
        self.put(inner, name, (0, unique, lambda point, local: local[unique]))
        body = self.term(inner, depth - 1)
        texts = [f"(let (({bound} {value[side]})) {body[side]})" for side, bound in ((0, name), (1, unique))]
        return texts[0], texts[1], lambda p, n: body[2](p, {**n, unique: value[2](p, n)})

    def elsewhere(self, scope, depth):
        """An operator of another language, where no name of the script hides it."""
        name = self.dice.choice(["abs", "min", "max", "pow", "^"])
        self.choices += name in ("abs", "min", "max")
        # (each choice doubles what stands above it; so there are none in definitions, and few elsewhere)
        if name in {it.strip("|") for it in scope} or name in ("abs", "min", "max") and self.choices > 2:
            return self.term(scope, depth - 1)
        a, left = self.term(scope, depth - 1), self.fresh()
        if name in ("pow", "^"):
            exponent = self.dice.choice([2, 3])
            product = f"(* {left} {left})" if exponent == 2 else f"(* (* {left} {left}) {left})"
            return f"({name} {a[0]} {exponent})", f"(let (({left} {a[1]})) {product})", lambda p, n: a[2](p, n) ** exponent
        if name == "abs":
            return f"(abs {a[0]})", f"(let (({left} {a[1]})) (ite (>= {left} 0) {left} (- {left})))", lambda p, n: abs(a[2](p, n))
        b, right, sign, of = self.term(scope, depth - 1), self.fresh(), {"min": "<=", "max": ">="}[name], {"min": min, "max": max}[name]
        plain = f"(let (({left} {a[1]}) ({right} {b[1]})) (ite ({sign} {left} {right}) {left} {right}))"
        return f"({name} {a[0]} {b[0]})", plain, lambda p, n: of(a[2](p, n), b[2](p, n))


def truths_of(text):
    """The assertions of a script for evaluation, but for the bounds of x and y, in order."""
    converter, found = Converter(text), []
    for tree in converter.commands:
        converter.command(tree)
        if tree.head == "assert":
            found.append(Graph(converter.writer.code))
    return found[2:]


class Scopes(unittest.TestCase):
    def test_values_are_those_of_the_script(self):
        for seed in range(COUNT):
            made = Dice(seed)
            text = "\n".join(made.lines)
            graphs = truths_of(convert(text).text)
            dice = random.Random(seed)
            for number, value, limit in made.checks:
                for _ in range(4):
                    point = {it: Fraction(dice.randrange(0, 33), 8) for it in ("x", "y")}
                    self.assertEqual(graphs[number].value(point), value(point, {}) >= limit, text)

    def test_answers_are_those_of_the_script_with_other_names(self):
        program, kinds = find_programs().solver, set()
        with tempfile.TemporaryDirectory() as folder:
            for seed in range(COUNT):
                made, said = Dice(seed), []
                for text in (convert("\n".join(made.lines)).text, "\n".join(made.plain)):
                    path = Path(folder, "script.smt2")
                    path.write_text(text)
                    done = subprocess.run([program, "solve", "--budget", "10", path, "/dev/null"], stdout=subprocess.PIPE, stderr=subprocess.PIPE)
                    said.append((done.returncode, done.stdout))
                self.assertEqual(said[0], said[1], "\n".join(made.lines))
                kinds.add(said[0][1].split(b"\n")[0].split(b" ")[0])
        self.assertLessEqual({b"unsat", b"delta-sat"}, kinds)


if __name__ == "__main__":
    unittest.main()
