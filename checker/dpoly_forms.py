"""The form of a script, for the checker in plain Python (`dpoly_checker.py`): whether it is true,
where it is told which atoms and Bool values count as true."""
from __future__ import annotations

from typing import Any, Callable, Dict, Iterable, List, Optional, Sequence, Tuple

OfAtom = Callable[[int], bool]
OfBool = Callable[[int, bool], bool]


class Form:
    """The forms of a problem, of which the last one is that of the script. Its conjuncts, reached
    through `all` alone, are looked at one after the other until one is false."""
    def __init__(self, forms: Sequence[Tuple[Any, ...]]):
        self.forms = forms
        self.conjuncts: Dict[int, None] = {}  # in order, each once
        waiting, seen = [len(forms) - 1], set()
        while waiting:
            it = waiting.pop()
            if forms[it][0] != 'all':
                self.conjuncts[it] = None
            elif it not in seen:
                seen.add(it)
                waiting.extend(reversed(forms[it][1]))
        self.forms_of_atoms: Dict[int, int] = {
            parts[0]: number for number, (kind, *parts) in enumerate(forms) if kind == 'atom'}
        self.last_false: Optional[int] = None
        self.parents: Optional[List[List[int]]] = None
        self.with_atom: Dict[int, List[int]] = {}

    def conjuncts_with(self, atom: int) -> List[int]:
        """The conjuncts in which an atom stands."""
        found = self.with_atom.get(atom)
        if found is None:
            found = self.with_atom[atom] = self.conjuncts_above(self.forms_of_atoms[atom])
        return found

    def conjuncts_above(self, form: int) -> List[int]:
        if self.parents is None:
            self.parents = [[] for _ in self.forms]
            for number, (kind, *parts) in enumerate(self.forms):
                for it in set(parts[0]) if kind in ('all', 'any') else ():
                    self.parents[it].append(number)
        waiting, found, seen = [form], [], {form}
        while waiting:
            it = waiting.pop()
            if it in self.conjuncts:
                found.append(it)
            new = set(self.parents[it]) - seen
            seen |= new
            waiting.extend(new)
        return found

    def is_true(self, of_atom: OfAtom, of_bool: OfBool, first: Iterable[int] = ()) -> bool:
        """Whether the form of the script is true. Where it is false that is found sooner if a
        false conjunct is among `first`, or was the false one of the last time."""
        known: Dict[int, bool] = {}
        for it in first:
            if not self.truth(it, of_atom, of_bool, known):
                return False
        if self.last_false is not None:
            if not self.truth(self.last_false, of_atom, of_bool, known):
                return False
        for it in self.conjuncts:
            if not self.truth(it, of_atom, of_bool, known):
                self.last_false = it
                return False
        return True

    def truth(self, form: int, of_atom: OfAtom, of_bool: OfBool, known: Dict[int, bool]) -> bool:
        """Whether a form is true. Its parts are looked at in order until one decides; forms nest
        thousands deep, so `open_forms` has those whose parts are being looked at. What is found
        of them is kept in `known`."""
        open_forms: List[Tuple[int, bool, Any]] = []
        while True:
            kind, *parts = self.forms[form]
            result = known.get(form)
            if result is None:
                if kind == 'atom':
                    result = of_atom(parts[0])
                elif kind == 'bool':
                    result = of_bool(*parts)
                elif kind in ('all', 'any'):
                    result = kind == 'all'  # that of no parts
                    open_forms.append((form, result, iter(parts[0])))
                else:
                    result = kind == 'true'
            while open_forms:
                form, is_all, rest = open_forms[-1]
                following = next(rest, None) if result == is_all else None
                if following is not None:
                    form = following
                    break
                known[form] = result
                open_forms.pop()
            else:
                return result
