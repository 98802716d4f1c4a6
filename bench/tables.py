"""Tables of the pages in docs/: each stands right behind the line `<!-- table: NAME -->`."""
from __future__ import annotations

import argparse
import os
import re
from typing import Sequence

import results

LOAD = os.getloadavg()[0]  # before anything was measured
DOCS = os.path.join(os.path.dirname(os.path.dirname(os.path.abspath(__file__))), 'docs')


def markdown(head: Sequence[str], rows: Sequence[Sequence[str]]) -> str:
    lines = ['| ' + ' | '.join(head) + ' |', '|' + '---|' * len(head)]
    return '\n'.join([*lines, *('| ' + ' | '.join(row) + ' |' for row in rows)])


def add_words(parser: argparse.ArgumentParser) -> None:
    """The words of a script that measures Coq and puts tables into its page."""
    parser.add_argument('library')
    parser.add_argument('--program', default='')
    parser.add_argument('--commit', default='', help='of DPOLY, where its folder does not tell')
    parser.add_argument('--jobs', type=int, default=1)
    parser.add_argument('--page', action='store_true')


def run_on(words: argparse.Namespace, more: dict[str, str]) -> str:
    """What was measured when, on which machine, with which program, with how many processes side
    by side and beside which load, by the words that `add_words` adds."""
    about = results.machine(words.program or words.library, words.commit)
    cells = {'date': about['date'], 'machine': about['machine'], 'load before': f'{LOAD:.1f}',
             'side by side': str(words.jobs), '`dpoly` of commit': about['commit'], **more}
    return markdown(list(cells), [list(cells.values())])


def put(page: str, tables: dict[str, str]) -> None:
    """Puts each table behind its mark, in the place of the one that is there."""
    path = os.path.join(DOCS, page)
    with open(path, encoding='utf-8') as file:
        text = file.read()
    for name, table in tables.items():
        mark = f'<!-- table: {name} -->\n'
        if mark not in text:
            raise SystemExit(f'docs/{page} has no mark for the table {name}')
        before, _, behind = text.partition(mark)
        text = before + mark + table + '\n' + re.sub(r'\A(?:\|.*\n)*', '', behind)
    with open(path, 'w', encoding='utf-8') as file:
        file.write(text)
