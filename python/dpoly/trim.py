"""Leaves out the lines of a certificate that nothing needs: `python3 -m dpoly trim SCRIPT CERT OUT`.

A line that narrows is needed where an end that it moves is used below: by a leaf, or by a line that is needed itself and narrows by
atoms that have the axis. A mark, a value of a Bool constant and a side of a cut are needed where something below uses them; where a
child of a `cut`, `flip`, `case` or `either` needs nothing of what the line gives it, the child stands in the place of the line. Lines
that are left compute what they computed, since all ends that they read are as they were. Lemmas that nothing cites are left out as
well, and the others hold wherever the ends and marks that their trees need are given.
"""
from __future__ import annotations

import os
import sys
import time
from itertools import product
from typing import Any, Dict, FrozenSet, Iterator, List, NamedTuple, Optional, Sequence, Set, Tuple

from .plain import checker  # isort: skip
from dpoly_lines import RULES, rule_of  # noqa: E402
from dpoly_script import ScriptFault  # noqa: E402

WORDS = {domain: word for word, domain in checker.DOMAINS.items()}
# What a line may need: ("low" or "high", axis), ("bool", axis), ("mark", atom), or ("conjunct", form)
# of the script's form, which no line gives.
Need = Tuple[str, int]


class Untrimmed(Exception):
    """A certificate that is not trimmed, and why."""


class Line(NamedTuple):
    """A line of a tree: its text, how many states it leaves, what it gives (each state its own), and what it reads."""

    text: str
    leaves: int
    gives: Tuple[FrozenSet[Need], ...]
    reads: FrozenSet[Need]


class Trimmed(NamedTuple):
    """A tree that was trimmed, as a line with trees below it, and what it needs."""

    tree: Any
    needs: Set[Need]


class Follower:
    """Follows the trees of a cover and says of each line what it reads and gives."""

    def __init__(self, cover: Any, end: Optional[float] = None):
        self.cover, self.problem, self.end = cover, cover.problem, end
        self.lemma_needs: List[FrozenSet[Need]] = []
        self.axes_of: Dict[int, FrozenSet[int]] = {}

    def axes(self, term: int) -> FrozenSet[int]:
        """The axes below a term."""
        if term not in self.axes_of:
            parts = self.problem.terms.parts
            self.axes_of[term] = frozenset(parts[it][1] for it in self.problem.terms.below(term) if parts[it][0] == "variable")
        return self.axes_of[term]

    def ends(self, term: int) -> Set[Need]:
        return {(side, axis) for axis in self.axes(term) for side in ("low", "high")}

    def read_by(self, word: str, values: Sequence[Any]) -> FrozenSet[Need]:
        """What a line reads that narrows or closes by atoms: their marks, the ends of the axes below them, and those of the axes that
        the line names."""
        found: Set[Need] = set()
        for kind, it in checker.named(word, values):
            if kind == "A":
                found |= {*self.ends(self.problem.atoms[it][0]), ("mark", it)}
            elif kind == "X":
                found |= {("low", it), ("high", it)}
        return frozenset(found)

    def reason(self, state: Any) -> Optional[Set[Need]]:
        """A small set of what makes the form false at a state, with the conjunct that is false; None where it may be true."""
        found = self.reasons(state)
        false = [it for it in self.cover.form.conjuncts if found[it] is not None]
        if not false:
            return None
        conjunct = min(false, key=lambda it: len(found[it]))  # type: ignore[arg-type]
        return {*found[conjunct], ("conjunct", conjunct)}  # type: ignore[misc]

    def reasons(self, state: Any) -> List[Optional[Set[Need]]]:
        """The same of each form, without conjuncts."""
        found: List[Optional[Set[Need]]] = []
        for kind, *parts in self.problem.forms:
            if kind == "atom":
                if state.marks.get(parts[0]) is False:
                    found.append({("mark", parts[0])})
                else:
                    found.append(None if self.cover.meets(parts[0], state) else self.ends(self.problem.atoms[parts[0]][0]))
            elif kind == "bool":
                found.append(None if parts[1] in state.space[parts[0]] else {("bool", parts[0])})
            elif kind in ("true", "false"):
                found.append(None if kind == "true" else set())
            else:
                below = [found[it] for it in parts[0]]
                if kind == "all":
                    false = [it for it in below if it is not None]
                    found.append(min(false, key=len) if false else None)
                else:
                    found.append(None if None in below else set().union(*below))  # type: ignore[arg-type]
        return found

    def choices(self, groups: Any, state: Any) -> Set[Need]:
        """What makes the form false where an atom of each of two groups fails, for each two of them."""
        found: Set[Need] = set()
        for pair in product(*groups):
            why = self.reason(state.all_marked(pair, False))
            assert why is not None
            found |= why - {("mark", atom) for atom in pair}
        return found

    @staticmethod
    def moved(before: Any, after: Any) -> FrozenSet[Need]:
        """The ends that differ between two spaces."""
        found = set()
        for axis, (a, b) in enumerate(zip(before, after)):
            if a is not b and not isinstance(a[0], bool):
                found |= {("low", axis)} if a[0] != b[0] else set()
                found |= {("high", axis)} if a[1] != b[1] else set()
        return frozenset(found)

    def line(self, word: str, numbers: Sequence[Any], text: str, state: Any, main: bool) -> Tuple[Line, List[Any]]:
        """What a line reads and gives, and the states that it leaves."""
        none: FrozenSet[Need] = frozenset()
        rule, first = RULES[word], numbers[0] if numbers else 0
        if main and self.problem.empty:
            if word != "empty":
                raise Untrimmed(f"the condition of {word} fails")
            return Line(text, 0, (), frozenset({("low", first), ("high", first)})), []
        if word in ("false", "unit"):
            why = self.reason(state.marked(first, False) if word == "unit" else state)
            if why is None or word == "unit" and state.marks.get(first) is not None:
                raise Untrimmed(f"the condition of {word} fails")
            if word == "false":
                return Line(text, 0, (), frozenset(why)), []
            given = frozenset({("mark", first)})
            return Line(text, 1, (given,), frozenset(why) - given), [state.marked(first, True)]
        if rule.shape == "stays":
            raise Untrimmed("it leaves a box open, and is left as it is")
        left = self.cover.after(word, numbers, state, main)
        if left is None:
            raise Untrimmed(f"the condition of {word} fails")
        if rule.by:
            moved = tuple(self.moved(state.space, it.space) for it in left)
            return Line(text, len(left), moved, self.read_by(word, numbers)), left
        if "M" in rule.operands:
            lemma = numbers[-1]
            given = frozenset({("mark", first)}) if rule.shape == "marks" else none
            return Line(text, len(left), (given,) * len(left), self.lemma_needs[lemma] - given), left
        if word == "cut":
            return Line(text, 2, (frozenset({("high", first)}), frozenset({("low", first)})), none), left
        if word == "either":
            marks = tuple(frozenset(("mark", atom) for atom in group) for group in first)
            return Line(text, 2, marks, frozenset(self.choices(first, state))), left
        if word in ("flip", "case"):
            given = frozenset({("bool" if word == "flip" else "mark", first)})
            return Line(text, 2, (given, given), none), left
        if word == "over":
            has_bound = self.cover.lower != -checker.INFINITE
            return Line(text, 0, (), frozenset(self.ends(self.problem.goal)) if has_bound else none), left
        return Line(text, 0, (), none), left

    def tree(self, lines: Any, state: Any, main: bool) -> Iterator[Line]:
        """The lines of the tree of a state, in order."""
        waiting = [state]
        while waiting:
            state = waiting.pop()
            word, numbers = lines.take() or (None, [])
            if self.end is not None and time.monotonic() > self.end:
                raise Untrimmed("the time is over")
            if word not in RULES:
                raise Untrimmed(f"line {lines.number}: a line of a tree is missing")
            text = lines.lines[lines.number - 1].decode("ascii")
            try:
                line, left = self.line(word, numbers, text, state, main)
            except (Untrimmed, IndexError) as error:
                raise Untrimmed(f"line {lines.number}: {error}") from None
            yield line
            waiting.extend(reversed(left))


def trimmed(lines: Sequence[Line]) -> Trimmed:
    """A tree without the lines that nothing needs; the last line is looked at first."""
    done: List[Trimmed] = []
    for line in reversed(lines):
        below = [done.pop() for _ in range(line.leaves)]
        spare = next((it for it, given in zip(below, line.gives) if not given & it.needs), None)
        if spare is not None:
            done.append(spare)
            continue
        needs = set(line.reads)
        for it, given in zip(below, line.gives):
            needs |= it.needs if is_narrowing(line) else it.needs - given
        done.append(Trimmed((line.text, *(it.tree for it in below)), needs))
    [whole] = done
    return whole


def is_narrowing(line: Line) -> bool:
    """Whether the line moves ends that it reads as well."""
    return rule_of(line.text).shape == "narrows"


def texts_of(tree: Any) -> Iterator[str]:
    waiting = [tree]
    while waiting:
        text, *below = waiting.pop()
        yield text
        waiting.extend(reversed(below))


class Lemma(NamedTuple):
    """A lemma's lines `real`, `bool`, `yes` and `no`, and its tree."""

    head: List[str]
    tree: Any


def read_lemma(follower: Follower, lines: Any, at: int, may_widen: bool) -> Lemma:
    """A lemma, trimmed. Where it may be widened it holds in the declared box but for what its tree needs."""
    cover = follower.cover
    if lines.due("lemma", 1) != [at]:
        raise Untrimmed(f"line {lines.number}: another lemma is due")
    space: List[Any] = []
    for axis in range(len(cover.axes)):
        space.append(tuple(lines.due("real", 2)) if axis in cover.declared else checker.DOMAINS[lines.due("bool", 1)[0]])
    marks = dict.fromkeys(lines.due("yes"), True)
    marks.update(dict.fromkeys(lines.due("no"), False))
    found = trimmed(list(follower.tree(lines, checker.State(tuple(space), marks), False)))
    root = cover.root().space
    if may_widen:
        for axis, it in enumerate(space):
            if axis in cover.declared:
                low, high = root[axis]
                space[axis] = (it[0] if ("low", axis) in found.needs else min(it[0], low),
                               it[1] if ("high", axis) in found.needs else max(it[1], high))
            elif ("bool", axis) not in found.needs:
                space[axis] = checker.DOMAINS["both"]
        marks = {atom: mark for atom, mark in marks.items() if ("mark", atom) in found.needs}
    state = checker.State(tuple(space), marks)
    cover.lemmas.append(state)
    conjuncts = {it for it in found.needs if it[0] == "conjunct"}
    follower.lemma_needs.append(frozenset(needs_of(state, root, cover.declared)) | conjuncts)
    head = []
    for axis, it in enumerate(space):
        if axis in cover.declared:
            head.append(f"real {checker.end_text(it[0])} {checker.end_text(it[1])}")
        else:
            head.append(f"bool {WORDS[it]}")
    for word, mark in (("yes", True), ("no", False)):
        head.append(" ".join([word, *(str(atom) for atom in sorted(marks) if marks[atom] is mark)]))
    return Lemma(head, found.tree)


def needs_of(lemma: Any, root: Any, declared: Any) -> Iterator[Need]:
    """What a state needs so that the lemma covers it."""
    for axis, it in enumerate(lemma.space):
        if axis in declared:
            if root[axis][0] < it[0]:
                yield "low", axis
            if root[axis][1] > it[1]:
                yield "high", axis
        elif it != checker.DOMAINS["both"]:
            yield "bool", axis
    for atom in lemma.marks:
        yield "mark", atom


def cited_by(texts: Sequence[str]) -> Set[int]:
    return {int(it.split(" ")[-1]) for it in texts if "M" in rule_of(it).operands}


def renumbered(text: str, numbers: Dict[int, int]) -> str:
    word, *rest = text.split(" ")
    return " ".join([word, *rest[:-1], str(numbers[int(rest[-1])])]) if "M" in rule_of(text).operands else text


def read_trimmed(cover: Any, lines: Any, count: int, end: Optional[float] = None) -> Tuple[List[Lemma], Trimmed]:
    """The lemmas of a cover and its main tree, trimmed. Raises `Untrimmed` after `end`, a time of the monotonic clock."""
    follower = Follower(cover, end)
    lemmas = [read_lemma(follower, lines, at, True) for at in range(count)]
    lines.due("tree", 0)
    main = trimmed(list(follower.tree(lines, cover.root(), True)))
    lines.due("end", 0)
    return lemmas, main


def trim_cover(cover: Any, lines: Any, count: int) -> List[str]:
    """The lines of a cover from `cover K` to `end`, trimmed."""
    lemmas, whole = read_trimmed(cover, lines, count)
    main = list(texts_of(whole.tree))
    trees = [list(texts_of(it.tree)) for it in lemmas]
    used, waiting = set(), cited_by(main)
    while waiting:
        used |= waiting
        waiting = set().union(*(cited_by(trees[it]) for it in waiting)) - used
    numbers = {old: new for new, old in enumerate(sorted(used))}
    found = [f"cover {len(numbers)}"]
    for old, new in numbers.items():
        found += [f"lemma {new}", *lemmas[old].head, *(renumbered(it, numbers) for it in trees[old])]
    return [*found, "tree", *(renumbered(it, numbers) for it in main), "end"]


def trim(script: bytes, certificate: bytes) -> bytes:
    """A certificate of the same script that says the same, without lines that nothing needs. Raises `Untrimmed`, or the faults of
    script and certificate as the checker in Python does."""
    lines = checker.Lines(certificate)
    header = checker.read_header(lines)
    problems = checker.read_problems(script, header.bound)
    word, values = checker.behind_bound(header, checker.takes(problems), lines)
    if word == "checks":
        raise Untrimmed("certificates of several checks are left as they are")
    [of_cover], lower = problems, None
    if word == "lower":
        [lower] = values
        lower = -checker.INFINITE if lower is None else lower
        word, values = lines.header("cover", "goal")
    if word == "goal":
        of_cover = checker.limited(of_cover, values[0], lower)
        word, values = lines.header("cover")
    if word == "point":
        return certificate
    head = [it.decode("ascii") for it in lines.lines[: lines.number - 1]]
    cover = checker.Cover(of_cover, header.version, *header.ends, lower=lower)
    found = [*head, *trim_cover(cover, lines, checker.number_of_lemmas(values))]
    rest = [it.decode("ascii") for it in lines.lines[lines.number :]]
    return "\n".join([*found, *rest, ""]).encode("ascii")


def trim_fully(script: bytes, certificate: bytes) -> bytes:
    """The same, until nothing more is left out."""
    while True:
        found = trim(script, certificate)
        if found.count(b"\n") >= certificate.count(b"\n"):
            return found if len(found) < len(certificate) else certificate
        certificate = found


def run(words: Any) -> int:
    """The command: what is written was checked as a whole, and has the answer of what was read."""
    try:
        with open(words.script, "rb") as file:
            script = file.read()
        with open(words.certificate, "rb") as file:
            certificate = file.read()
        found = trim_fully(script, certificate)
        bound = checker.read_header(checker.Lines(certificate)).bound
        if checker.check(script, found, bound) != checker.check(script, certificate, bound):
            raise Untrimmed("what is left has another answer: it was not written")
        draft = f"{words.out}.draft-{os.getpid()}"
        with open(draft, "xb") as file:
            file.write(found)
        os.replace(draft, words.out)
    except Untrimmed as error:
        print(f"dpoly trim: {words.certificate}: {error}", file=sys.stderr)
        return 1
    except checker.CertificateFault as fault:
        print(f"dpoly trim: {words.certificate}: certificate fault {' '.join(fault.args)}", file=sys.stderr)
        return 1
    except ScriptFault as fault:
        print(f"dpoly trim: {words.script}: script fault {fault.args[0]}", file=sys.stderr)
        return 1
    except OSError as error:
        print(f"dpoly trim: {error}", file=sys.stderr)
        return 1
    print(f"lines {certificate.count(10)} -> {found.count(10)}")
    return 0
