"""A certificate as a theorem of Coq: `python3 -m dpoly coq SCRIPT CERT`.

The file that is written states what the script says, in plain real numbers, and proves it by the library in `coq/`, which replays
the certificate's lines. Nothing here is trusted: what Coq accepts is the theorem that it prints. The script is read, and the
certificate followed, by the checker in plain Python (`checker/`). It is followed to find which conjunct of the script a `false`
or a `unit` is about, so that Coq looks at that one alone.
"""
from __future__ import annotations

import os
import re
import sys
from collections import Counter
from copy import copy
from fractions import Fraction
from itertools import product
from typing import Any, Dict, Iterable, Iterator, List, NamedTuple, Optional, Sequence, Tuple

from .plain import checker  # isort: skip
from dpoly_intervals import UNIT  # noqa: E402
from dpoly_lines import RULES  # noqa: E402
from dpoly_roots import Trees, rewritten  # noqa: E402
from dpoly_script import Claim, Expression, Names, Problem, ScriptFault, read_expressions, steps_of  # noqa: E402

PIECE = 200  # lines in one definition
# What Coq calls the lines of a word; those of `false`, `unit` and `either` name conjuncts besides.
CONSTRUCTORS = {"pull": "LPull", "push": "LPush", "comb": "LComb", "void": "LVoid", "voidno": "LVoidNo", "voidcomb": "LVoidComb",
                "voidpos": "LVoidPos", "by": "LBy", "over": "LOver", "ban": "LBan", "cut": "LCut", "flip": "LFlip", "case": "LCase"}
WIDEST_BOUND = 2**32 - 1


class Refused(Exception):
    """A certificate of which no theorem can be written, and why."""


# ---------------------------------------------------------------- The statement as text
class Text(NamedTuple):
    """A term or formula in Coq's notation, and the level of its outermost notation (0 of what needs no parentheses)."""

    text: str
    level: int

    def within(self, level: int) -> str:
        return self.text if self.level <= level else f"({self.text})"


RELATIONS = {"<=": "Rle", "<": "Rlt", ">=": "Rge", ">": "Rgt", "=": "Req"}
DECISIONS = {"<=": "Rle_dec", "<": "Rlt_dec", ">=": "Rge_dec", ">": "Rgt_dec", "=": "Req_EM_T"}
OPPOSITE = {"<=": ">", "<": ">=", ">=": "<", ">": "<="}
WORDS = set("as at cofix else end exists exists2 fix for forall fun if IF in let match mod Prop return Set then Type using where with "
            "by R O S I true false negb andb orb implb eqb sqrt True False not and or iff Rle_dec Rlt_dec Rge_dec Rgt_dec Req_EM_T "
            "Rleb Rltb Rgeb Rgtb Reqb SProp".split())


def number_text(value: Fraction) -> Text:
    if value.denominator == 1:
        return Text(str(value), 0 if value >= 0 else 35)
    return Text(f"{value.numerator} / {value.denominator}", 40)


def decimal_text(digits: str) -> str:
    whole, _, part = digits.partition(".")
    return f"{whole}.{part}" if part.strip("0") else whole


class Printer:
    """Trees of a script (`dpoly_roots.Trees`) as Coq's terms and formulas."""

    def __init__(self, trees: Any, names: Dict[str, str]):
        self.trees, self.names = trees, names
        self.sorts = {axis.name: axis.sort for axis in trees.axes}

    def is_real(self, tree: Any) -> bool:
        if tree.kind in ("root", "quotient"):
            return True
        if tree.kind == "leaf":
            kind, value, _ = tree.value
            return kind != "symbol" or self.sorts.get(value) == "Real"
        return tree.value in ("+", "-", "*", "/") or tree.value == "ite" and self.is_real(tree.parts[1])

    def real(self, tree: Any) -> Text:
        """A Real term."""
        if tree.kind == "root":
            return Text(f"sqrt {self.real(tree.parts[0]).within(0)}", 10)
        if tree.kind == "quotient":
            a, b = map(self.real, tree.parts)
            return Text(f"{a.within(40)} / {b.within(39)}", 40)
        if tree.kind == "leaf":
            kind, value, at = tree.value
            if kind == "symbol":
                return Text(self.names[value], 0)
            return Text(decimal_text(self.trees_digits(at)) if kind == "decimal" else str(value), 0)
        name, parts = tree.value, tree.parts
        if name == "ite":
            a, b = (self.real(it).within(200) for it in parts[1:])
            return Text(f"if {self.condition(parts[0])} then {a} else {b}", 200)
        texts = self.factors(parts) if name == "*" else [self.real(it) for it in parts]
        if name == "-" and len(texts) == 1:
            return Text(f"- {texts[0].within(10)}", 35)
        result = texts[0]
        for it in texts[1:]:
            level = 50 if name in "+-" else 40
            result = Text(f"{result.within(level)} {name} {it.within(level - 1)}", level)
        return result

    def factors(self, parts: Sequence[Any]) -> List[Text]:
        """The factors of a product. One that stands several times is a power where docs/FORMATS.md makes it one."""
        found, has_choice, often = [], any(it.has_choice for it in parts), Counter(it.of_class for it in parts)
        for it in parts:
            if has_choice or it.is_number:
                found.append(self.real(it))
            elif it.of_class in often:
                times, text = often.pop(it.of_class), self.real(it)
                found.append(text if times == 1 else Text(f"{text.within(29)} ^ {times}", 30))
        return found

    def trees_digits(self, at: int) -> str:
        found = re.compile(r"[0-9]+(?:\.[0-9]*)?").match(self.trees.script, at)
        assert found
        return found[0]

    def condition(self, tree: Any) -> str:
        """The condition of a choice: a decision, or a `bool`."""
        if tree.kind == "applied" and tree.value in DECISIONS and len(tree.parts) == 2 and self.is_real(tree.parts[0]):
            a, b = (self.real(it).within(9) for it in tree.parts)
            return f"{DECISIONS[tree.value]} {a} {b}"
        return self.truth(tree).within(200)

    def truth(self, tree: Any) -> Text:
        """A Bool expression as a `bool`."""
        if tree.kind == "leaf":
            return Text(self.names.get(tree.value.value, tree.value.value), 0)
        name, parts = tree.value, list(tree.parts)
        if name == "not":
            return Text(f"negb {self.truth(parts[0]).within(9)}", 10)
        if name in RELATIONS and self.is_real(parts[0]):
            pairs = [Text(f"{RELATIONS[name]}b {self.real(a).within(9)} {self.real(b).within(9)}", 10) for a, b in zip(parts, parts[1:])]
            return self.folded("&&", 40, pairs)
        texts = [self.truth(it) for it in parts]
        if name in ("and", "or"):
            return self.folded("&&" if name == "and" else "||", 40 if name == "and" else 50, texts)
        if name == "=>":
            result = texts.pop()
            while texts:
                result = Text(f"implb {texts.pop().within(9)} {result.within(9)}", 10)
            return result
        if name in ("=", "xor"):
            result = texts[0]
            if name == "=":
                return self.folded("&&", 40, [Text(f"eqb {a.within(9)} {b.within(9)}", 10) for a, b in zip(texts, texts[1:])])
            for it in texts[1:]:
                result = Text(f"negb (eqb {result.within(9)} {it.within(9)})", 10)
            return result
        if name == "ite":
            c, a, b = (it.within(200) for it in texts)
            return Text(f"if {c} then {a} else {b}", 200)
        raise Refused(f"the condition of a choice has an operation that is left out: {name}")

    @staticmethod
    def folded(sign: str, level: int, texts: List[Text]) -> Text:
        """Joined from the right, as the formulas are."""
        result = texts[-1]
        for it in reversed(texts[:-1]):
            result = Text(f"{it.within(level - 1)} {sign} {result.within(level - 1)}", level)
        return result

    @staticmethod
    def joined(sign: str, level: int, texts: List[Text]) -> Text:
        """Joined by a sign that groups from the right."""
        result = texts[-1]
        for it in reversed(texts[:-1]):
            result = Text(f"{it.within(level - 1)} {sign} {result.within(level)}", level)
        return result

    def comparison(self, name: str, a: Any, b: Any) -> Text:
        return Text(f"{self.real(a).within(69)} {name} {self.real(b).within(69)}", 70)

    def formula(self, tree: Any) -> Text:
        """A Bool expression as a proposition."""
        if tree.kind == "leaf":
            value = tree.value.value
            return Text({"true": "True", "false": "False"}[value], 0) if value not in self.names else Text(f"{self.names[value]} = true", 70)
        name, parts = tree.value, list(tree.parts)
        if name == "not":
            return Text(f"~ {self.formula(parts[0]).within(74)}", 75)
        if name in RELATIONS and self.is_real(parts[0]):
            signs = [name] * (len(parts) - 1)
            if len(parts) == 3 and name in ("<=", "<"):
                a, b, c = (self.real(it).within(69) for it in parts)
                return Text(f"{a} {name} {b} {name} {c}", 70)
            return self.joined("/\\", 80, [self.comparison(sign, a, b) for sign, a, b in zip(signs, parts, parts[1:])])
        if name == "distinct":
            pairs = [(a, b) for at, a in enumerate(parts) for b in parts[at + 1 :]]
            if self.is_real(parts[0]):
                return self.joined("/\\", 80, [self.comparison("<>", a, b) for a, b in pairs])
            return self.joined("/\\", 80, [self.denied(self.equivalence(a, b)) for a, b in pairs])
        if name in ("and", "or"):
            return self.joined("/\\" if name == "and" else "\\/", 80 if name == "and" else 85, [self.formula(it) for it in parts])
        if name == "=>":
            return self.joined("->", 99, [self.formula(it) for it in parts])
        if name == "xor":
            result = self.formula(parts[0])
            for it in parts[1:]:
                result = self.denied(Text(f"{result.within(94)} <-> {self.formula(it).within(94)}", 95))
            return result
        if name == "=":
            return self.joined("/\\", 80, [self.equivalence(a, b) for a, b in zip(parts, parts[1:])])
        if name == "ite":
            c, a, b = map(self.formula, parts)
            return Text(f"{c.within(79)} /\\ {a.within(80)} \\/ ~ {c.within(74)} /\\ {b.within(80)}", 85)
        raise Refused(f"an operation that is left out: {name}")

    def equivalence(self, a: Any, b: Any) -> Text:
        return Text(f"{self.formula(a).within(94)} <-> {self.formula(b).within(94)}", 95)

    @staticmethod
    def denied(formula: Text) -> Text:
        return Text(f"~ {formula.within(74)}", 75)

    def opposite(self, tree: Any) -> Text:
        """The conclusion whose denial is this assertion."""
        if tree.kind == "applied" and tree.value == "not":
            return self.formula(tree.parts[0])
        if tree.kind == "applied" and len(tree.parts) == 2 and self.is_real(tree.parts[0]):
            if tree.value in OPPOSITE:
                return self.comparison(OPPOSITE[tree.value], *tree.parts)
            if tree.value == "=":
                return self.comparison("<>", *tree.parts)
        if tree.kind == "applied" and tree.value == "or":
            return self.joined("/\\", 80, [self.opposite(it) for it in tree.parts])
        if tree.kind == "applied" and tree.value == "and":
            return self.joined("->", 99, [*(self.formula(it) for it in tree.parts[:-1]), self.opposite(tree.parts[-1])])
        return self.denied(self.formula(tree))


class Loosened:
    """Trees of a script as propositions in which each comparison is loosened by a number, as docs/FORMATS.md has it ("What a script
    means"): negations stand at comparisons alone, and that of an equation always holds."""

    def __init__(self, printer: Printer, delta: Fraction):
        self.printer, self.delta = printer, number_text(delta).text

    def comparison(self, name: str, a: Any, b: Any, truth: bool) -> Text:
        if name == "=" and not truth:
            return Text("True", 0)
        if any(it.has_choice for it in (a, b)):
            raise Refused("the point's theorem leaves out choices between reals")
        left, right = self.printer.real(a).within(50), self.printer.real(b).within(50)
        low, high = f"{right} - {self.delta}", f"{right} + {self.delta}"
        if name == "=":
            return Text(f"{low} <= {left} <= {high}", 70)
        return Text(f"{left} <= {high}" if (name[0] == "<") == truth else f"{left} >= {low}", 70)

    def joined(self, is_all: bool, texts: List[Text]) -> Text:
        return Printer.joined("/\\", 80, texts) if is_all else Printer.joined("\\/", 85, texts)

    def ways(self, *ways: Tuple[Text, Text]) -> Text:
        return self.joined(False, [self.joined(True, list(it)) for it in ways])

    def formula(self, tree: Any, truth: bool = True) -> Text:
        if tree.kind == "leaf":
            value, names = tree.value.value, self.printer.names
            if value in names:
                return Text(f"{names[value]} = {'true' if truth else 'false'}", 70)
            return Text("True" if (value == "true") == truth else "False", 0)
        name, parts = tree.value, list(tree.parts)
        if name == "not":
            return self.formula(parts[0], not truth)
        if name in RELATIONS and self.printer.is_real(parts[0]):
            return self.joined(truth, [self.comparison(name, a, b, truth) for a, b in zip(parts, parts[1:])])
        if name == "distinct":
            pairs = [(a, b) for at, a in enumerate(parts) for b in parts[at + 1 :]]
            if self.printer.is_real(parts[0]):
                return self.joined(truth, [self.comparison("=", a, b, not truth) for a, b in pairs])
            return self.joined(truth, [self.xor(a, b, truth) for a, b in pairs])
        if name in ("and", "or"):
            return self.joined((name == "and") == truth, [self.formula(it, truth) for it in parts])
        if name == "=>":
            return self.joined(not truth, [*(self.formula(it, not truth) for it in parts[:-1]), self.formula(parts[-1], truth)])
        if name == "=":
            return self.joined(truth, [self.xor(a, b, not truth) for a, b in zip(parts, parts[1:])])
        if name == "xor" and len(parts) == 2:
            return self.xor(*parts, truth)
        if name == "ite":
            condition, a, b = parts
            return self.ways((self.formula(condition), self.formula(a, truth)), (self.formula(condition, False), self.formula(b, truth)))
        raise Refused(f"the point's theorem leaves out an operation: {name} of {len(parts)}")

    def xor(self, a: Any, b: Any, truth: bool) -> Text:
        return self.ways((self.formula(a), self.formula(b, not truth)), (self.formula(a, False), self.formula(b, truth)))


def point_theorem(asked: "Asked", script: bytes, lines: Any, header: Any, name: str) -> List[str]:
    """The theorem that the lines of a point show: there is a point that satisfies what is asserted, loosened by delta."""
    written, check, problem = asked
    if len(written.axes) != len(check.axes):
        raise Refused("the point's theorem leaves out roots and quotients")
    space = checker.Cover(problem, header.version, *header.ends).read_point(lines)
    trees, names = Trees(written, script), coq_names(written.axes)
    delta = Fraction(1, 2**header.delta)
    loosened = Loosened(Printer(trees, names), delta)
    texts = [loosened.formula(it.tree).within(79) for it in trees.asserted if not it.is_goal]
    for of, is_upper in missing_bounds(check, header.bound) if header.bound is not None else []:
        end = f"{header.bound} + {loosened.delta}" if is_upper else f"- {header.bound} - {loosened.delta}"
        texts.append(f"{names[of]} {'<=' if is_upper else '>='} {end}")
    axes = [(names[it.name], it.sort, value) for it, value in zip(written.axes, space)]
    binders = " ".join(f"({it} : {'R' if sort == 'Real' else 'bool'})" for it, sort, _ in axes)
    values = [f"({number_text(Fraction(it[0], UNIT)).text})" if sort == "Real" else str(it[0]).lower() for _, sort, it in axes]
    body = " /\\ ".join(texts or ["True"]) + "."
    return [f"Theorem {name} :", wrapped(f"exists {binders}," if axes else ""), wrapped(body, "    "),
            "Proof. " + (wrapped(f"exists {', '.join(values)}; ", "").strip() + " " if axes else "") + "dpoly_point. Qed.", ""]


def coq_names(axes: Sequence[Any]) -> Dict[str, str]:
    """A name of Coq for each constant of a script."""
    found: Dict[str, str] = {}
    taken = set(WORDS)
    for axis in axes:
        name = re.sub("[^A-Za-z0-9_']", "_", axis.name)
        if not re.match("[A-Za-z]", name):
            name = f"v{name}" if name.startswith("_") else f"v_{name}"
        while name in taken:
            name += "_"
        taken.add(name)
        found[axis.name] = name
    return found


# ---------------------------------------------------------------- The problem of the theorem
def symbol(name: str) -> Any:
    return Expression("symbol", name, 0)


def listed(name: str, *parts: Any) -> Any:
    return Expression("list", [symbol(name), *parts], 0)


def number(value: Fraction) -> Any:
    return Expression("numeral", value, 0) if value >= 0 else listed("-", Expression("numeral", -value, 0))


class Conjuncts:
    """The conjuncts of a problem's form, in order, numbered from 0; each is a number of a form."""

    def __init__(self, problem: Any):
        self.forms, self.list = problem.forms, []
        waiting = [len(problem.forms) - 1]
        while waiting:
            form = waiting.pop()
            kind, *parts = self.forms[form]
            if kind == "all":
                waiting.extend(reversed(parts[0]))
            else:
                self.list.append(form)
        self.of_atom: Dict[int, List[int]] = {}
        for at, form in enumerate(self.list):
            for atom in set(self.atoms_below(form)):
                self.of_atom.setdefault(atom, []).append(at)

    def atoms_below(self, form: int) -> Iterator[int]:
        waiting = [form]
        while waiting:
            kind, *parts = self.forms[waiting.pop()]
            if kind == "atom":
                yield parts[0]
            elif kind in ("all", "any"):
                waiting.extend(parts[0])

    def may(self, form: int, atom: Any, domain: Any) -> bool:
        """Whether a form is true, where `atom` says which atoms count as true and `domain` which Bool values."""
        kind, *parts = self.forms[form]
        if kind == "all":
            return all(self.may(it, atom, domain) for it in parts[0])
        if kind == "any":
            return any(self.may(it, atom, domain) for it in parts[0])
        return kind == "true" or kind == "atom" and atom(parts[0]) or kind == "bool" and domain(*parts)


class Target:
    """The problem that the theorem has, whose atoms are those of the certificate's problem by other numbers."""

    def __init__(self, check: Any, claims: List[Any], problem: Any):
        target = Problem(check._replace(assertions=claims), WIDEST_BOUND)
        terms, known = target.terms, {}
        for at, (kind, *parts) in enumerate(problem.terms.parts):
            mapped = parts if kind in ("constant", "variable") else [known.get(it) for it in parts]
            known[at] = terms.numbers.get((kind, *mapped))
        numbers = {it: at for at, it in enumerate(target.atoms)}
        self.number = [numbers.get((known[term], kind)) for term, kind in problem.atoms]
        self.atom = {there: here for here, there in enumerate(self.number) if there is not None}
        self.conjuncts = Conjuncts(target)


# ---------------------------------------------------------------- The lines
def grid(value: int) -> str:
    """An end, a whole number of units of 2^-120, as `m e`."""
    if not value:
        return "0 0"
    zeros = (value & -value).bit_length() - 1
    m, e = value >> zeros, zeros - 120
    return f"{m if m > 0 else f'({m})'} {e if e >= 0 else f'({e})'}"


class Follower:
    """Follows trees of a certificate and writes their lines for Coq."""

    def __init__(self, cover: Any, target: Target, axis_numbers: Dict[int, int], bool_numbers: Dict[int, int]):
        self.cover, self.target, self.axes, self.bools, self.last = cover, target, axis_numbers, bool_numbers, 0

    def atom(self, number: int) -> int:
        there = self.target.number[number]
        if there is None:
            raise Refused(f"the certificate marks atom {number}, which is that of the goal and none of the theorem")
        return there + 1

    def failing(self, state: Any, candidates: Sequence[int]) -> Optional[int]:
        """The number of a conjunct that cannot be true."""
        conjuncts, cover = self.target.conjuncts, self.cover
        def atom(there: int) -> bool:
            here = self.target.atom.get(there)
            return here is None or cover.meets(here, state)
        def domain(axis: int, value: bool) -> bool:
            return value in state.space[axis]
        order = [self.last] if self.last in candidates else []
        for it in [*order, *candidates]:
            if not conjuncts.may(conjuncts.list[it], atom, domain):
                self.last = it
                return it + 1
        return None

    def failing_with(self, state: Any, atoms: Iterable[int], first: Sequence[int] = ()) -> Optional[int]:
        """The same at a state with marks of these atoms; `first` are looked at before the others."""
        conjuncts = self.target.conjuncts
        near = [it for atom in atoms for it in conjuncts.of_atom.get(self.atom(atom) - 1, [])]
        return self.failing(state, [*first, *near]) or self.failing(state, range(len(conjuncts.list)))

    def groups(self, groups: Any, state: Any) -> Optional[str]:
        """Two groups of atoms, and conjuncts of which one cannot be true where an atom of each fails."""
        found: List[int] = []
        for pair in product(*groups):
            conjunct = self.failing_with(state.all_marked(pair, False), pair, [it - 1 for it in found])
            if conjunct is None:
                return None
            if conjunct not in found:
                found.append(conjunct)
        texts = ["; ".join(map(str, it)) for it in (*(map(self.atom, group) for group in groups), found)]
        return " ".join(f"[{it}]%positive" for it in texts)

    def pairs(self, pairs: Iterable[Tuple[int, int]]) -> str:
        """The pairs of a combination. Their order is the certificate's, whatever their numbers are here."""
        return "; ".join(f"weigh {self.atom(j)} {grid(by)}" for j, by in pairs)

    def block(self, block: Any) -> str:
        """A block of squares. The axes of a monomial have the certificate's order too, which nothing in Coq asks for."""
        factor = "None" if block.factor is None else f"(Some {self.axes[block.factor]}%positive)"
        monomials = ["[" + "; ".join(str(self.axes[axis]) for axis in it) + "]" for it in block.monomials]
        rows = ["[" + "; ".join(f"grid {grid(number)}" for number in it) + "]" for it in block.rows]
        return f"Block {factor} [{'; '.join(monomials)}]%positive [{'; '.join(rows)}]"

    def line(self, word: str, numbers: Sequence[Any], state: Any, main: bool) -> Tuple[Optional[str], Optional[List[Any]]]:
        """A line for Coq, and the states that it leaves; None where its condition fails."""
        if main and self.cover.problem.empty:
            return "LEmpty", [] if word == "empty" else None
        if word == "unit" and state.marks.get(numbers[0]) is not None:
            return None, None
        if word in ("false", "unit"):
            asked = state.marked(numbers[0], False) if word == "unit" else state
            conjunct = self.failing_with(asked, numbers)
            if conjunct is None:
                return None, None
            return (f"LFalse {conjunct}", []) if word == "false" else (f"LUnit {self.atom(numbers[0])} {conjunct}", [state.marked(numbers[0], True)])
        left = self.cover.after(word, numbers, state, main)
        if left is None:
            return None, None
        if word == "either":
            groups = self.groups(numbers[0], state)
            return (None, None) if groups is None else (f"LEither {groups}", left)
        return " ".join([CONSTRUCTORS[word], *self.operands(word, numbers)]), left

    def operands(self, word: str, numbers: Sequence[Any]) -> Iterator[str]:
        """What stands behind the constructor."""
        rule = RULES[word]
        if rule.by == "combination":
            yield f"[{self.pairs(zip(numbers[::2], numbers[1::2]))}]"
            return
        if rule.by == "squares":
            [squares] = numbers
            yield f"[{self.pairs(squares.pairs)}]"
            yield f"[{'; '.join(map(self.block, squares.blocks))}]"
            return
        for kind, number in zip(rule.kinds(len(numbers)), numbers):
            if kind == "A":
                yield str(self.atom(number))
            elif kind == "M":
                yield str(number + 1)
            elif kind == "D":
                yield grid(number)
            else:
                yield str((self.axes if number in self.cover.declared else self.bools)[number])

    def tree(self, lines: Any, state: Any, main: bool) -> List[str]:
        """The lines of the tree of a state."""
        waiting, found = [state], []
        while waiting:
            state = waiting.pop()
            word, numbers = lines.take() or (None, [])
            if word not in RULES:
                raise Refused(f"line {lines.number}: a line of a tree is missing")
            rule = RULES[word]
            if rule.shape == "stays":
                raise Refused(f"line {lines.number}: the certificate leaves a box open, so it proves nothing")
            if not self.cover.has_all(word, numbers):
                raise Refused(f"line {lines.number}: there is no such number")
            text, left = self.line(word, numbers, state, main)
            if text is None or left is None:
                raise Refused(f"line {lines.number}: the condition of {word} fails")
            found.append(text)
            waiting.extend(reversed(left))
        return found

    def lemma(self, lines: Any, at: int, axes: int) -> Tuple[str, int, List[str]]:
        """Box and marks of a lemma over the first so many axes; the number of its tree's first line; the tree."""
        if lines.due("lemma", 1) != [at]:
            raise Refused(f"line {lines.number}: another lemma is due")
        space, box, bools = [], [], []
        for axis in range(axes):
            if axis in self.cover.declared:
                low, high = lines.due("real", 2)
                if low > high:
                    raise checker.CertificateFault("BadNumber")
                space.append((low, high))
                if axis in self.axes:
                    box.append(f"side {self.axes[axis]} {grid(low)} {grid(high)}")
            else:
                [domain] = lines.due("bool", 1)
                space.append(checker.DOMAINS[domain])
                if domain != "both":
                    bools.append(f"mark {self.bools[axis]} {domain}")
        marks = dict.fromkeys(lines.due("yes"), True)
        marks.update(dict.fromkeys(lines.due("no"), False))
        state = checker.State((*space, *self.cover.root().space[axes:]), marks)
        first = lines.number + 1
        tree = self.tree(lines, state, False)
        self.cover.lemmas.append(state)
        texts = "; ".join(f"mark {self.atom(j)} {'true' if b else 'false'}" for j, b in sorted(marks.items()))
        return f"[{'; '.join(box)}] [{texts}] [{'; '.join(bools)}]", first, tree


# ---------------------------------------------------------------- The file
class Options(NamedTuple):
    """How the theorem is written: the arithmetic, its name, which assertion is the conclusion (from 1; None for False), and
    whether it is left out, so that the certificate alone is written."""

    arithmetic: str = "Big"
    name: str = "no_point"
    conclusion: Optional[int] = None
    data_only: bool = False


def wrapped(text: str, indent: str = "  ", width: int = 120) -> str:
    """The text in lines of at most so many characters, broken at spaces."""
    lines, line = [], indent
    for word in text.split(" "):
        if len(line) + len(word) > width and line.strip():
            lines.append(line.rstrip())
            line = indent
        line += word + " "
    return "\n".join([*lines, line.rstrip()])


class Asked(NamedTuple):
    """Of a check what is in force as it is written, the same with constants for roots and quotients, and the problem of that."""

    written: Any
    check: Any
    problem: Any


def read_checks(script: bytes, bound: Optional[int]) -> List[Asked]:
    """What the checks of a script ask."""
    steps = steps_of(read_expressions(script))
    try:
        return [Asked(it, it, Problem(it, bound)) for it in Names(steps).checks]
    except ScriptFault:
        checks = [(it, rewritten(it, script, bound)) for it in Names(steps, roots=True).checks]
        return [Asked(written, check, Problem(check, bound)) for written, check in checks]


def missing_bounds(check: Any, bound: int) -> List[Tuple[str, bool]]:
    """The sides of constants that have no bound but that of the command line: a name, and whether it is the upper side."""
    one, other = (Problem(check, it).declared for it in (bound, bound + 1))
    return [(check.axes[axis].name, bool(side)) for axis in one for side in (0, 1) if one[axis][side] != other[axis][side]]


class Part:
    """The theorem of one check: its statement and where the certificate's numbers are found in it."""

    def __init__(self, written: Any, check: Any, script: bytes, bound: Optional[int], options: Options,
                 lower: Optional[Fraction] = None, limit: Optional[int] = None):
        self.check, self.options, self.limit = check, options, limit
        trees = Trees(written, script)
        self.names = coq_names(written.axes)
        printer = Printer(trees, self.names)
        first = len(check.assertions) - len(trees.asserted)  # those of roots and quotients come before
        given = [(it, claim) for it, claim in zip(trees.asserted, check.assertions[first:])]
        asserted = [it for it in given if not it[0].is_goal]
        goal = next((it for it in given if it[0].is_goal), None)
        self.conclusion, last = "False", []
        if options.conclusion is not None and lower is None:
            if not 1 <= options.conclusion <= len(asserted):
                raise Refused(f"there is no assertion {options.conclusion}")
            tree, claim = asserted.pop(options.conclusion - 1)
            self.conclusion, last = printer.opposite(tree.tree).within(200), [claim]
        if lower is not None:
            assert goal is not None
            term = goal[1].expression.value[1].value[1]
            self.conclusion = f"{number_text(lower).within(69)} <= {printer.real(goal[0].tree).within(69)}"
            last = [Claim(0, listed("not", listed("<=", self.fraction(lower), term)), False)]
            if limit is not None:
                scaled = listed("*", number(Fraction(2**limit)), term)
                last = [Claim(0, listed("<=", listed("+", scaled, number(-lower * 2**limit)), number(Fraction(0))), False)]
        self.hypotheses = [printer.formula(it.tree).within(98) for it, _ in asserted]
        extra = []
        for name, is_upper in missing_bounds(check, bound) if bound is not None else []:
            end = number(Fraction(bound if is_upper else -bound))
            extra.append(Claim(0, listed("<=", symbol(name), end) if is_upper else listed("<=", end, symbol(name)), False))
            self.hypotheses.append(f"{self.names[name]} <= {bound}" if is_upper else f"- {bound} <= {self.names[name]}")
        self.claims = [*check.assertions[:first], *(claim for _, claim in asserted), *extra, *last]
        self.number_variables(written, check)

    @staticmethod
    def fraction(value: Fraction) -> Any:
        if value.denominator == 1:
            return number(value)
        return listed("/", number(Fraction(value.numerator)), number(Fraction(value.denominator)))

    def number_variables(self, written: Any, check: Any) -> None:
        """Real variables and Bool variables have numbers in the order in which they first stand in the statement."""
        sorts = {self.names[it.name]: (axis, it.sort) for axis, it in enumerate(written.axes)}
        self.axis_numbers: Dict[int, int] = {}
        self.bool_numbers: Dict[int, int] = {}
        for word in re.findall(r"[A-Za-z_][A-Za-z0-9_']*", " ".join([*self.hypotheses, self.conclusion])):
            if word in sorts:
                axis, sort = sorts[word]
                if sort == "Real":
                    self.axis_numbers.setdefault(axis, 2 * (len(self.axis_numbers) + 1))
                else:
                    self.bool_numbers.setdefault(axis, len(self.bool_numbers) + 1)
        for at in range(len(written.axes), len(check.axes)):
            self.axis_numbers[at] = 2 * (at - len(written.axes) + 1) + 1

    def statement(self) -> List[str]:
        """The theorem's lines."""
        of_sort = {sort: [self.names[it.name] for it in self.check.axes if it.name in self.names and it.sort == sort] for sort in ("Real", "Bool")}
        binders = [f"({' '.join(of_sort[sort])} : {name})" for sort, name in (("Real", "R"), ("Bool", "bool")) if of_sort[sort]]
        parts = [*(f"{it} ->" for it in self.hypotheses), f"{self.conclusion}."]
        head = wrapped(f"forall {' '.join(binders)},") + "\n" if binders else ""
        return [f"Theorem {self.options.name} :", head + "\n".join(wrapped(it, "    " if head else "  ") for it in parts)]


def lines_text(name: str, lines: Sequence[str]) -> Tuple[List[str], str]:
    """Definitions of the lines in pieces, and the list of their names."""
    texts, names = [], []
    for at in range(0, len(lines), PIECE):
        names.append(f"{name}_{len(names)}")
        texts.append(f"Definition {names[-1]} : list line := [\n" + wrapped("; ".join(lines[at : at + PIECE])) + "].")
    return texts, f"[{'; '.join(names)}]"


class Place(NamedTuple):
    """Where a lemma stands: the number of the line before it, and how many axes it has."""

    line: int
    axes: int


def theorem_of(part: Part, problem: Any, cover: Any, count: int, lines: Any, margin: int, places: Optional[List[Place]] = None) -> List[str]:
    """The certificate of a part and its theorem. `places` has the lemmas that are kept from the parts before, which are proved
    here once more, and gets those of this part."""
    name, places = part.options.name, [] if places is None else places
    follower = Follower(cover, Target(part.check, part.claims, problem), part.axis_numbers, part.bool_numbers)
    texts, lemmas, kept = [], [], len(places)
    for at in range(count):
        source = lines
        if at < kept:
            source = copy(lines)
            source.number = places[at].line
        else:
            places.append(Place(lines.number, len(cover.axes)))
        record, first, tree = follower.lemma(source, at, places[at].axes)
        more, pieces = lines_text(f"{name}_lemma_{at + 1}", tree)
        texts += more
        lemmas.append(f"LemmaText {record} {first} {pieces}")
    lines.due("tree", 0)
    first = lines.number + 1
    more, pieces = lines_text(f"{name}_tree", follower.tree(lines, cover.root(), True))
    lines.due("end", 0)
    texts += more
    limit = "None" if part.limit is None else f"(Some {part.limit}%Z)"
    texts += [f"Definition {name}_lemmas : list lemma_text := [" + ";\n  ".join(lemmas) + "].",
              f"Definition {name}_certificate : certificate :=",
              wrapped(f"Certificate {margin} {limit} {name}_lemmas {first} {pieces}") + ".", ""]
    return texts if part.options.data_only else [*texts, *part.statement(), f"Proof. dpoly with {name}_certificate. Qed.", ""]


def header_of(options: Options, script: str, certificate: str) -> List[str]:
    """The head of the file. Names of files have no place in a comment of Coq but as plain characters."""
    script, certificate = (re.sub(r"[^A-Za-z0-9_.+-]", "_", it) for it in (script, certificate))
    return [f"(* {script} by {certificate}, written by python3 -m dpoly coq. *)",
            "From Coq Require Import ZArith NArith Reals List.",
            f"From Dpoly Require Import {'Certificate' if options.data_only else f'Statement Certificate {options.arithmetic}'}.",
            "Import ListNotations.", "Local Open Scope R_scope.", ""]


def theorem(script: bytes, certificate: bytes, options: Options = Options(), names: Tuple[str, str] = ("The script", "")) -> str:
    """The file for Coq of a script and its certificate. Raises `Refused` where there is none, and the faults of script and
    certificate as the checker in Python does."""
    return "\n".join([*header_of(options, *names), *theorems(script, certificate, options)])


def theorems(script: bytes, certificate: bytes, options: Options) -> List[str]:
    """The same without the head of the file."""
    lines = checker.Lines(certificate)
    header = checker.read_header(lines)
    checks = read_checks(script, header.bound)
    first = checker.behind_bound(header, checker.takes([it.problem for it in checks]), lines)
    if first[0] == "checks":
        return session(checks, script, lines, header, first, options)
    return single(checks[0], script, lines, header, first, options)


def single(asked: Asked, script: bytes, lines: Any, header: Any, first: Tuple[str, Any], options: Options) -> List[str]:
    """The theorem of a script with one check; `first` is the line behind the header."""
    (word, values), problem = first, asked.problem
    lower = limit = end = None
    if word == "point":
        found = point_theorem(asked, script, lines, header, options.name)
        if lines.take():
            raise Refused(f"line {lines.number}: a line too many")
        return found
    if word == "lower":
        [end] = values
        if end is None:
            raise Refused("the certificate has no lower bound, so it proves nothing of the goal")
        lower = Fraction(end, UNIT)
        word, values = lines.header("cover", "goal")
    if word == "goal":
        limit = values[0]
        problem = checker.limited(problem, limit, end)
        word, values = lines.header("cover")
    part = Part(asked.written, asked.check, script, header.bound, options, lower, limit)
    cover = checker.Cover(problem, header.version, *header.ends, lower=end)
    found = theorem_of(part, problem, cover, checker.number_of_lemmas(values), lines, header.margin)
    rest = lines.take()
    if rest and lower is not None and rest[0] == "point":
        checker.Cover(asked.problem, header.version, *header.ends).read_point(lines)
        rest = lines.take()
    if rest:
        raise Refused(f"line {lines.number}: a line too many")
    return found


def session(checks: List[Asked], script: bytes, lines: Any, header: Any, first: Tuple[str, Any], options: Options) -> List[str]:
    """A theorem for each check whose part is a cover that leaves nothing: NAME_1, NAME_2, .. by the numbers of the checks. `first`
    is the line behind the header."""
    if first[1] != [len(checks)]:
        raise Refused("the certificate has another number of checks")
    found, before, cover, places = [], None, None, []
    for at, asked in enumerate(checks):
        problem = asked.problem
        word, values = lines.take() or (None, [])
        if word == "point":
            found += point_theorem(asked, script, lines, header, f"{options.name}_{at + 1}")
            cover, places = None, []
        elif word == "cover":
            count = checker.number_of_lemmas(values)
            kept = checker.kept_lemmas(before, cover, problem, lines, count)
            cover, probe = checker.Cover(problem, header.version, *header.ends, kept), copy(lines)
            if cover.read_cover(probe, count):
                found.append(f"(* Check {at + 1} is open. *)\n")
            else:
                part = Part(asked.written, asked.check, script, header.bound, options._replace(name=f"{options.name}_{at + 1}"))
                places, again = places[: len(kept)], checker.Cover(problem, header.version, *header.ends)
                found += theorem_of(part, problem, again, count, lines, header.margin, places)
            lines.number = probe.number
        else:
            raise Refused(f"line {lines.number}: the part of check {at + 1} is missing")
        before = problem
    if lines.take():
        raise Refused(f"line {lines.number}: a line too many")
    return found


def run(words: Any) -> int:
    """The command: `words` has script, certificate, arithmetic, name and conclusion."""
    try:
        texts = []
        for path in (words.script, words.certificate):
            with open(path, "rb") as file:
                texts.append(file.read())
        name = words.name or re.sub("[^A-Za-z0-9_]", "_", os.path.splitext(os.path.basename(words.script))[0])
        if not re.fullmatch("[A-Za-z][A-Za-z0-9_']*", name) or name in WORDS:
            raise Refused(f"{name} is no name for a theorem: give one with --name")
        options = Options(words.arithmetic, name, words.conclusion, words.data)
        sys.stdout.write(theorem(*texts, options, (os.path.basename(words.script), os.path.basename(words.certificate))))
        return 0
    except Refused as error:
        print(f"dpoly coq: {words.certificate}: {error}", file=sys.stderr)
    except RecursionError:
        print(f"dpoly coq: {words.script}: its expressions nest too deep for Coq", file=sys.stderr)
    except checker.CertificateFault as fault:
        print(f"dpoly coq: {words.certificate}: certificate fault {' '.join(fault.args)}", file=sys.stderr)
    except ScriptFault as fault:
        print(f"dpoly coq: {words.script}: script fault {fault.args[0]}", file=sys.stderr)
    except OSError as error:
        print(f"dpoly coq: {error}", file=sys.stderr)
    return 1
