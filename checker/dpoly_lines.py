"""The lines of a tree by their first words: what each does with the state where it stands, and what
follows its word; and what each version of the format has. The tables that all of the repository's
Python has of them."""
from typing import Dict, FrozenSet, NamedTuple, Tuple

# How many states a line of each shape leaves to the lines behind it; one that stays leaves its own
# state open.
LEFT = {'narrows': 1, 'marks': 1, 'parts': 2, 'ends': 0, 'stays': 0}


class Rule(NamedTuple):
    """The lines of one word: their shape; a letter for each operand, A an atom, X an axis, M a
    lemma, D a number of the grid, with `+` behind them where all of them may come again, S all that
    a sum of squares has, G two groups of atoms; and what narrows or closes the box, if anything
    does."""
    shape: str
    operands: str = ''
    by: str = ''

    @property
    def left(self) -> int:
        """How many states a line leaves to the lines behind it."""
        return LEFT[self.shape]

    def kinds(self, count: int) -> str:
        """A letter for each operand of a line that has so many."""
        if self.operands.endswith('+'):
            once = self.operands[:-1]
            return once * max(1, count // len(once))
        return self.operands


RULES: Dict[str, Rule] = {
    'pull': Rule('narrows', 'A', 'range'),
    'push': Rule('narrows', 'A', 'off-range'),
    'comb': Rule('narrows', 'AD+', 'combination'),
    'void': Rule('ends', 'A', 'range'),
    'voidno': Rule('ends', 'A', 'off-range'),
    'voidcomb': Rule('ends', 'AD+', 'combination'),
    'voidpos': Rule('ends', 'S', 'squares'),
    'false': Rule('ends'),
    'by': Rule('ends', 'M'),
    'over': Rule('ends'),
    'empty': Rule('ends', 'X'),
    'unit': Rule('marks', 'A'),
    'ban': Rule('marks', 'AM'),
    'cut': Rule('parts', 'XD'),
    'flip': Rule('parts', 'X'),
    'case': Rule('parts', 'A'),
    'either': Rule('parts', 'G'),
    'open': Rule('stays'),
    'stuck': Rule('stays', 'A'),
}


class Version(NamedTuple):
    """A version of the format: what its certificates are of, by the keys of `BEHIND_BOUND`, what
    may narrow a box, how many pairs a combination has at most, in how many ways an atom of the one
    group of a line `either` can be chosen with one of the other at most, and whether an honest line
    may cut any Real axis above the least width, or the widest alone, which no checker asks."""
    of: FrozenSet[str]
    narrows: Tuple[str, ...]
    most_pairs: int
    most_choices: int
    cuts_any: bool


# The words of the line behind the bound, which tells what a certificate is of.
BEHIND_BOUND = {'one check': ('cover', 'point'), 'several checks': ('checks',),
                'least value': ('lower',)}
ALL_NARROW = ('range', 'off-range', 'combination')
VERSIONS: Dict[int, Version] = {
    1: Version(frozenset({'one check'}), ('range',), 0, 0, False),
    2: Version(frozenset({'one check'}), ALL_NARROW, 64, 0, False),
    3: Version(frozenset({'several checks'}), ALL_NARROW, 64, 0, False),
    4: Version(frozenset({'least value'}), ALL_NARROW, 64, 0, False),
    5: Version(frozenset(BEHIND_BOUND), (*ALL_NARROW, 'squares'), 512, 64, True),
}


# What the lines begin with that leave two states.
SPLITS: Tuple[str, ...] = tuple(word + ' ' for word, rule in RULES.items() if rule.shape == 'parts')


def rule_of(line: str) -> Rule:
    """The rule of a line of a tree, by its first word. ValueError where it is that of none."""
    word = line.split(' ', 1)[0]
    if word not in RULES:
        raise ValueError(f'{word!r} is the first word of no line of a tree')
    return RULES[word]
