#!/usr/bin/env python3
"""By how much certificates shrink by `python3 -m dpoly trim` (docs/COQ.md).

    bench/trim.py DPOLY DPOLY_CHECK FOLDER [--most LINES] [--seconds S] [--jobs N] [--page]
                  [NAME ..]

Solves the scripts of examples/ and bench/scripts, keeps those that are `unsat`, or have a least
value, as NAME.smt2 and NAME.cert in FOLDER (where they are not there already), trims each
certificate of at most so many lines to NAME.trim, and has DPOLY_CHECK confirm both. A row is
printed for each: its name, lines before and after, processor seconds of trimming, and what the
checker says of the two. With `--page` the tables go into the page."""
import argparse
import multiprocessing
import os
import re
import shutil
import statistics
import subprocess
import sys
import time
from typing import Iterator, List, NamedTuple, Optional

import tables

TOP = os.path.dirname(os.path.dirname(os.path.abspath(__file__)))
sys.dont_write_bytecode = True
sys.path.insert(0, os.path.join(TOP, 'python'))
from dpoly import trim  # noqa: E402
from dpoly.plain import checker  # noqa: E402

SHOWN = 250  # lines of a certificate from which on the page has a row of its own


def scripts() -> Iterator[str]:
    for folder in ('examples', 'bench/scripts'):
        for name in sorted(os.listdir(os.path.join(TOP, folder))):
            if name.endswith('.smt2'):
                yield os.path.join(TOP, folder, name)


def read(path: str) -> bytes:
    with open(path, 'rb') as file:
        return file.read()


def said(command: List[str], seconds: Optional[float] = None) -> str:
    try:
        return subprocess.run(command, capture_output=True, text=True, timeout=seconds).stdout
    except subprocess.TimeoutExpired:
        return ''


def solve(program: str, script: str, folder: str, name: str, seconds: float) -> bool:
    """Whether the folder has a certificate of the script that proves something."""
    kept, certificate = (os.path.join(folder, name + end) for end in ('.smt2', '.cert'))
    if os.path.exists(certificate):
        return True
    command = 'minimize' if b'(minimize ' in read(script) else 'solve'
    answer = said([program, command, script, certificate], seconds)
    if not re.search('^(unsat|minimum)$', answer, re.M):
        if os.path.exists(certificate):
            os.remove(certificate)
        return False
    shutil.copyfile(script, kept)
    return True


class Row(NamedTuple):
    """A certificate: its lines, those that are left by trimming (0 where it is not trimmed), the
    seconds that it takes, and what the checker says."""

    name: str
    lines: int
    left: int
    seconds: float
    verdict: str


def trimmed(words: argparse.Namespace, script: str, name: str) -> Row:
    """Trims a certificate of the folder."""
    path = os.path.join(words.folder, f'{name}.cert')
    certificate, before = read(path), time.process_time()
    lines = certificate.count(b'\n')
    if lines > words.most:
        return Row(name, lines, 0, 0.0, 'not trimmed')
    try:
        found = trim.trim_fully(read(script), certificate)
    except (trim.Untrimmed, checker.CertificateFault) as fault:
        return Row(name, lines, 0, 0.0, f'not trimmed: {fault}')
    seconds = time.process_time() - before
    out = f'{path[:-5]}.trim'
    with open(out, 'wb') as file:
        file.write(found)
    answers = [' '.join(said([words.checker, script, it]).split()) for it in (path, out)]
    is_same = answers[0] == answers[1] and answers[0].startswith('confirmed ')
    verdict = answers[0] if is_same else f'DIFFERENT: {answers[0]!r} {answers[1]!r}'
    return Row(name, lines, found.count(b'\n'), seconds, verdict)


class Job(NamedTuple):
    """A script to be solved, and its certificate to be trimmed."""

    words: argparse.Namespace
    script: str


def row_of(job: Job) -> Optional[Row]:
    words, name = job.words, os.path.basename(job.script)[:-5]
    if not solve(words.program, job.script, words.folder, name, words.seconds):
        return None
    return trimmed(words, job.script, name)


def put(rows: List[Row]) -> None:
    """The tables of the page."""
    done = sorted((it for it in rows if it.left), key=lambda it: it.lines)
    gone = [1 - it.left / it.lines for it in done]
    shown = [[it.name, f'{it.lines:,}', f'{it.left:,}', f'{100 * part:.0f}%', f'{it.seconds:.1f}']
             for it, part in zip(done, gone) if it.lines >= SHOWN]
    lines, left = sum(it.lines for it in done), sum(it.left for it in done)
    mean, median = (f'{100 * it:.0f}%' for it in (1 - left / lines, statistics.median(gone)))
    heads = ['certificates', 'lines', 'left', 'of all lines left out', 'in the median']
    whole = tables.markdown(heads, [[str(len(done)), f'{lines:,}', f'{left:,}', mean, median]])
    heads = ['certificate', 'lines', 'left', 'left out', 'seconds']
    tables.put('COQ.md', {'trimmed': tables.markdown(heads, shown), 'trimmed-sum': whole})


def main() -> None:
    parser = argparse.ArgumentParser(
        description=__doc__, formatter_class=argparse.RawDescriptionHelpFormatter)
    for name in ('program', 'checker', 'folder'):
        parser.add_argument(name)
    parser.add_argument('--most', type=int, default=10**9)
    parser.add_argument('--seconds', type=float, default=300)
    parser.add_argument('--jobs', type=int, default=1)
    parser.add_argument('--page', action='store_true')
    parser.add_argument('names', nargs='*')
    words = parser.parse_intermixed_args()
    words.program, words.checker = map(os.path.abspath, (words.program, words.checker))
    os.makedirs(words.folder, exist_ok=True)
    jobs = [Job(words, it) for it in scripts()
            if not words.names or os.path.basename(it)[:-5] in words.names]
    rows = []
    with multiprocessing.Pool(words.jobs) as pool:
        for row in filter(None, pool.imap(row_of, jobs)):
            rows.append(row)
            print(row.name, row.lines, row.left or '', f'{row.seconds:.1f}', row.verdict,
                  sep='\t', flush=True)
    if words.page:
        if any(it.verdict.startswith('DIFFERENT') for it in rows):
            sys.exit('trim: the checker says something else of a trimmed certificate')
        put(rows)


if __name__ == '__main__':
    main()
