#!/usr/bin/env python3
"""Measures how the library `coq/` replays certificates (docs/COQ.md).

    bench/coq.py LIBRARY CERTIFICATES [--arithmetics Big,Prim] [--most LINES] [--jobs N]
                 [--page --program DPOLY [--commit C]] [NAME ..]

LIBRARY is `coq/theories` after `make -C coq`. CERTIFICATES is a folder with pairs NAME.smt2 and
NAME.cert, as bench/trim.py makes one. A row is printed for each: lines of the certificate, and user
seconds of the command that writes the file, and with each arithmetic of coqc in all and of the
tactic alone; `fails` where Coq does not accept it. With `--page` the rows from 250 lines on go into
the page, with the sum of all and the commit of the program that wrote the certificates."""
import argparse
import multiprocessing
import os
import re
import resource
import subprocess
import sys
import tempfile
import time
from typing import Iterator, List, NamedTuple, Optional

import tables

TOP = os.path.dirname(os.path.dirname(os.path.abspath(__file__)))
sys.dont_write_bytecode = True
sys.path.insert(0, os.path.join(TOP, 'python'))
from dpoly import coq  # noqa: E402

SHOWN = 250  # lines of a certificate from which on the page has a row of its own


class Replay(NamedTuple):
    """User seconds of coqc and of the tactic."""

    coqc: float
    tactic: float


class Row(NamedTuple):
    """A certificate, and its replay with each arithmetic; none where Coq does not accept it."""

    name: str
    lines: int
    command: float
    replays: List[Optional[Replay]]


def user_seconds() -> float:
    return resource.getrusage(resource.RUSAGE_CHILDREN).ru_utime


def read(folder: str, name: str) -> List[bytes]:
    texts = []
    for end in ('.smt2', '.cert'):
        with open(os.path.join(folder, name + end), 'rb') as file:
            texts.append(file.read())
    return texts


def replayed(library: str, text: str) -> Optional[Replay]:
    """Coq on a file of this text."""
    with tempfile.TemporaryDirectory() as folder:
        path = os.path.join(folder, 'goal.v')
        with open(path, 'w') as file:
            file.write(text.replace('Proof. dpoly', 'Proof. Time dpoly'))
        before = user_seconds()
        call = ['coqc', '-Q', os.path.abspath(library), 'Dpoly', path]
        done = subprocess.run(call, cwd=folder, capture_output=True, text=True)
        tactic = sum(map(float, re.findall(r'\(([0-9.]+)u', done.stdout)))
        return None if done.returncode else Replay(user_seconds() - before, tactic)


class Job(NamedTuple):
    """A certificate to be replayed."""

    words: argparse.Namespace
    name: str


def row_of(job: Job) -> Row:
    script, certificate = read(job.words.certificates, job.name)
    replays = []
    for it in job.words.arithmetics:
        before = time.process_time()
        text = coq.theorem(script, certificate, coq.Options(it, 'goal'))
        command = time.process_time() - before
        replays.append(replayed(job.words.library, text))
    return Row(job.name, certificate.count(b'\n'), command, replays)


def cells_of(row: Row) -> List[str]:
    cells = [row.name, f'{row.lines:,}', f'{row.command:.1f}']
    for it in row.replays:
        cells += [f'{it.coqc:.1f}', f'{it.tactic:.2f}'] if it else ['fails', '']
    return cells


def sums(rows: List[Row], arithmetics: List[str]) -> Iterator[List[str]]:
    """With each arithmetic, of the certificates that replay with it: how many they are, their
    lines, the longest, and how long a line takes in the mean."""
    for at, arithmetic in enumerate(arithmetics):
        found = [(it.lines, it.replays[at]) for it in rows]
        done = [(lines, it) for lines, it in found if it]
        lines = sum(it for it, _ in done)
        tactic, coqc = (sum(getattr(it, of) for _, it in done) for of in ('tactic', 'coqc'))
        yield [f'`{arithmetic}`', f'{len(done)} of {len(rows)}', f'{lines:,}',
               f'{max(it for it, _ in done):,}', f'{1000 * tactic / lines:.2f}',
               f'{1000 * coqc / lines:.2f}']


def put(rows: List[Row], words: argparse.Namespace) -> None:
    """The tables of the page."""
    heads = [f'{it}: {what}' for it in words.arithmetics for what in ('`coqc`', 'tactic')]
    shown = sorted((it for it in rows if it.lines >= SHOWN), key=lambda it: it.lines)
    whole = tables.markdown(['certificate', 'lines', 'command', *heads], list(map(cells_of, shown)))
    heads = ['arithmetic', 'replay', 'lines', 'longest', 'tactic, ms a line', '`coqc`, ms a line']
    all_of = tables.markdown(heads, list(sums(rows, words.arithmetics)))
    run_on = tables.run_on(words, {})
    tables.put('COQ.md', {'replays-run': run_on, 'replays': whole, 'replays-sum': all_of})


def main() -> None:
    parser = argparse.ArgumentParser(
        description=__doc__, formatter_class=argparse.RawDescriptionHelpFormatter)
    tables.add_words(parser)
    parser.add_argument('certificates')
    parser.add_argument('--arithmetics', type=lambda it: it.split(','), default=['Big', 'Prim'])
    parser.add_argument('--most', type=int, default=10**9)
    parser.add_argument('names', nargs='*')
    words = parser.parse_intermixed_args()
    found = [it[:-5] for it in os.listdir(words.certificates) if it.endswith('.cert')]
    sizes = {it: read(words.certificates, it)[1].count(b'\n') for it in words.names or found}
    longest_first = sorted(sizes, key=lambda it: -sizes[it])
    jobs = [Job(words, it) for it in longest_first if sizes[it] <= words.most]
    rows = []
    with multiprocessing.Pool(words.jobs) as pool:
        for row in pool.imap_unordered(row_of, jobs):
            rows.append(row)
            print('\t'.join(cells_of(row)), flush=True)
    if words.page:
        put(rows, words)


if __name__ == '__main__':
    main()
