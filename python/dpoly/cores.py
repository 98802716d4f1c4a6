"""Smaller sets of assertions that still have no point: by what a cover uses, by solving fewer."""
from __future__ import annotations

import time
from fractions import Fraction
from typing import Callable, Dict, List, NamedTuple, Optional, Sequence, Set, Tuple, TypeVar

from .ranges import Side, stated_bounds
from .values import Graph

Item = TypeVar("Item")
MOST_FOLLOWED = 1 << 25


def shrunk(items: Sequence[Item], is_unsat: Callable[[Sequence[Item], float], bool],
           seconds: float) -> List[Item]:
    """A part of the items, in their order, that `is_unsat` confirms, as the whole is known to be:
    all that can be left out is, in halves, quarters and so on down to one (delta debugging: Zeller,
    Hildebrandt, IEEE TSE 2002), until so many seconds have passed. `is_unsat` is told how many
    seconds are left."""
    end, found, size = time.monotonic() + seconds, list(items), len(items)
    while size:
        at = 0
        while at < len(found):
            left = end - time.monotonic()
            if left <= 0:
                return found
            fewer = found[:at] + found[at + size :]
            if is_unsat(fewer, left):
                found = fewer
            else:
                at += size
        size //= 2
    return found


class Used(NamedTuple):
    """What a cover uses of the assertions of its script: of each conjunct that it finds false the
    numbers of the assertions that have it, and the bounds that its declared box needs. The last
    assertion has the number -1, the one before it -2."""

    conjuncts: List[Set[int]]
    bounds: Set[Side]


def used_by(script: bytes, certificate: bytes, bound: Optional[int],
            seconds: float) -> Optional[Used]:
    """What the cover of a certificate of a script with one check uses; None where that is not found
    within so many seconds, which a certificate of more than `MOST_FOLLOWED` bytes would take to be
    read, or where the checker in Python, which follows it, is not there."""
    end = time.monotonic() + seconds
    if seconds <= 0 or len(certificate) > MOST_FOLLOWED:
        return None
    try:
        from . import trim
    except ImportError:
        return None
    lines = trim.checker.Lines(certificate)
    header = trim.checker.read_header(lines)
    word, values = lines.header("cover", "point")
    [problem] = trim.checker.read_problems(script, bound)
    if word == "point":
        return None
    cover = trim.checker.Cover(problem, header.version, *header.ends)
    try:
        needs = sorted(trim.read_trimmed(cover, lines, values[0], end)[1].needs)
    except trim.Untrimmed:
        return None
    names = [it.name.encode("latin-1") for it in problem.names.axes]
    sides = ((kind, names[it].decode("utf-8", "surrogateescape"))
             for kind, it in needs if kind in ("low", "high"))
    return Used([assertions_with(problem.forms, it) for kind, it in needs if kind == "conjunct"],
                {(int(kind == "high"), name) for kind, name in sides})


def assertions_with(forms: Sequence[Tuple], conjunct: int) -> Set[int]:
    """The numbers of the assertions that have a conjunct, a form."""
    assertions = forms[-1][1]
    found = set()
    for number, truth in enumerate(assertions, -len(assertions)):
        waiting, seen = [truth], set()
        while waiting and number not in found:
            it = waiting.pop()
            if it == conjunct:
                found.add(number)
            elif forms[it][0] == "all" and it not in seen:
                seen.add(it)
                waiting += forms[it][1]
    return found


def core_of(used: Used, graphs: Sequence[Graph], kept: Set[int]) -> Set[int]:
    """The numbers, from 0, of assertions that suffice by what a cover uses; `kept` are among them
    anyway. Each constant that they use has a stated bound on each side on which one of the
    assertions states one."""
    found, stated = set(kept), [stated_bounds(it) for it in graphs]

    def take_one_of(choice: Set[int]) -> None:
        if choice and not choice & found:
            found.add(min(choice))

    for numbers in used.conjuncts:
        take_one_of({len(graphs) + it for it in numbers if len(graphs) + it >= 0})
    for side in sorted(used.bounds):
        take_one_of(tightest(side, stated))
    done: Set[int] = set()
    while found - done:
        new = found - done
        done |= new
        for name in sorted({name for it in new for name in graphs[it].constants()}):
            for side in ((0, name), (1, name)):
                take_one_of({at for at, it in enumerate(stated) if side in it})
    return found


def tightest(side: Side, stated: Sequence[Dict[Side, Fraction]]) -> Set[int]:
    """The numbers of the assertions that state the tightest bound on a side."""
    ends = {at: it[side] for at, it in enumerate(stated) if side in it}
    best = (min if side[0] else max)(ends.values(), default=None)
    return {at for at, end in ends.items() if end == best}
