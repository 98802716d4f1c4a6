"""What was measured, as files of tab-separated values: `bench/results/NAME.tsv`.

The first lines are comments, `# KEY VALUE`, on the run: when, on what, with which program; on all
of them where rows are of several. Then come the names of the columns, and a row for each thing
that was measured. An empty field was not measured."""
from __future__ import annotations

import datetime
import fcntl
import os
import platform
import subprocess
from typing import Iterable, Optional

HERE = os.path.dirname(os.path.abspath(__file__))
FOLDER = os.path.join(HERE, 'results')
Row = dict[str, str]


class Results:
    """The rows of one file, by the columns that name them."""

    def __init__(self, name: str, keys: list[str], columns: list[str]):
        self.path = os.path.join(FOLDER, name + '.tsv')
        self.name, self.keys, self.columns = name, keys, keys + columns
        self.about: dict[str, str] = {}
        self.rows: dict[tuple[str, ...], Row] = {}
        if os.path.exists(self.path):
            self.read()

    def read(self) -> None:
        with open(self.path, encoding='utf-8') as file:
            lines = file.read().splitlines()
        comments = [it for it in lines if it.startswith('# ')]
        self.about = dict(it[2:].split(' ', 1) for it in comments)
        head, *rest = [it for it in lines if not it.startswith('# ')]
        for line in rest:
            row = dict(zip(head.split('\t'), line.split('\t')))
            self.rows[self.key(row)] = {it: row.get(it, '') for it in self.columns}

    def key(self, row: Row) -> tuple[str, ...]:
        return tuple(row[it] for it in self.keys)

    def find(self, *key: str) -> Optional[Row]:
        return self.rows.get(key)

    def put(self, row: Row, about: dict[str, str]) -> None:
        """Adds a row, in the place of one of the same name, and writes the file.

        What `about` tells of the run stands beside what the file tells of those before it."""
        unknown = set(row) - set(self.columns)
        assert not unknown, unknown
        os.makedirs(FOLDER, exist_ok=True)
        folder = os.open(FOLDER, os.O_RDONLY)
        try:
            fcntl.flock(folder, fcntl.LOCK_EX)
            if os.path.exists(self.path):
                self.read()  # another run may have added rows
            for key, value in about.items():
                there = [*filter(None, self.about.get(key, '').split('; '))]
                new = [it for it in value.split('; ') if it and it not in there]
                if new:
                    self.about[key] = '; '.join([*there, *new])
            self.rows[self.key(row)] = {it: row.get(it, '') for it in self.columns}
            self.write()
        finally:
            os.close(folder)

    def write(self) -> None:
        lines = [f'# {key} {value}' for key, value in self.about.items()]
        lines.append('\t'.join(self.columns))
        for key in sorted(self.rows):
            lines.append('\t'.join(self.rows[key][it] for it in self.columns))
        new = self.path + '.new'
        with open(new, 'w', encoding='utf-8') as file:
            file.write('\n'.join(lines) + '\n')
        os.replace(new, self.path)

    def __iter__(self) -> Iterable[Row]:
        return iter([self.rows[it] for it in sorted(self.rows)])


def machine(program: str, commit: str = '') -> dict[str, str]:
    """What the file tells of the machine, and of the commit of the program: where none is given,
    that of the repository in which it stands."""
    processor = platform.machine()
    with open('/proc/cpuinfo', encoding='utf-8') as file:
        names = [it.split(':')[1].strip() for it in file if it.startswith('model name')]
    if names:
        processor = f'{len(names)} x {names[0]}'
    memory = os.sysconf('SC_PAGE_SIZE') * os.sysconf('SC_PHYS_PAGES') / 2**30
    if not commit:
        folder = os.path.dirname(os.path.abspath(program))
        words = ['git', '-C', folder, 'log', '-1', '--format=%h']
        found = subprocess.run(words, stdout=subprocess.PIPE, stderr=subprocess.DEVNULL, text=True)
        commit = found.stdout.strip()
    return {
        'date': datetime.datetime.now(datetime.timezone.utc).strftime('%Y-%m-%d'),
        'machine': f'{processor}, {memory:.0f} GB',
        'commit': commit,
    }
