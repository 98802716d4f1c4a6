"""Sets of scripts: `bench/scripts`, and folders elsewhere that have an `INDEX.tsv` too."""
from __future__ import annotations

import os
from dataclasses import dataclass
from typing import Optional

HERE = os.path.dirname(os.path.abspath(__file__))
OWN = 'scripts'

# What a reader calls the families of the indexes.
KINDS = {
    'polynomials near a bound': (
        'bernstein depend flyspeck globopt polyineq psdform qp squares tangent wide'
    ),
    'systems of equations': 'allroots demo hong hong2 system',
    'distances between points': 'geometry kissing packing',
    'bounded model checking': 'bmc flow',
    'barriers, Lyapunov functions': 'barrier lyapunov',
    'neural networks': 'net network',
    'disjunctions': 'boolean sat3',
}


@dataclass(frozen=True)
class Script:
    """A script of a set. Its status is what is known of it otherwise, as sat, unsat or nothing."""

    set: str
    name: str
    family: str
    status: str
    path: str

    def kind(self) -> str:
        return next(kind for kind, names in KINDS.items() if self.family in names.split())


def indexed(set_name: str, folder: str) -> list[Script]:
    with open(os.path.join(folder, 'INDEX.tsv'), encoding='utf-8') as file:
        head, *lines = file.read().splitlines()
    columns = head.split('\t')
    found = []
    for line in lines:
        row = dict(zip(columns, line.split('\t')))
        path = os.path.join(folder, row['script'] + '.smt2')
        found.append(Script(set_name, row['script'], row['family'], row.get('status', ''), path))
    return sorted(found, key=lambda it: it.name)


def own() -> list[Script]:
    return indexed(OWN, os.path.join(HERE, OWN))


def others(folder: Optional[str]) -> list[Script]:
    """The scripts of the folders in a folder, without those that `bench/scripts` has too."""
    if folder is None:
        return []
    known = {it.name for it in own()}
    found: list[Script] = []
    for name in sorted(os.listdir(folder)):
        if os.path.exists(os.path.join(folder, name, 'INDEX.tsv')):
            for script in indexed(name, os.path.join(folder, name)):
                if script.name not in known:
                    known.add(script.name)
                    found.append(script)
    return found
