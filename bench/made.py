"""Scripts and certificates that are large in one way, for the parts `reading` and `memory`."""
from __future__ import annotations

import os
from typing import Callable

from parts import CHECK, SOLVE, Asked, Part, fixed
from results import Results
from runs import least, load, run
from sets import OWN

MANY = 1_000_000
READING = Results('reading', ['script'], ['bytes', 'seconds', 'mb', 'load'])
MEMORY = Results('memory', ['what'], ['solve mb', 'check mb', 'load'])


def real(name: str, low: str = '0', high: str = '1') -> str:
    return f'(declare-const {name} Real)\n(assert (<= {low} {name} {high}))\n'


def comments() -> str:
    line = '; ' + 77 * '-' + '\n'
    return real('x') + (60_000_000 // len(line)) * line + '(check-sat)\n'


def comparison() -> str:
    return real('x') + f'(assert (<= {MANY * "x "}))\n(check-sat)\n'


def conjunction() -> str:
    return '(declare-const p Bool)\n' + f'(assert (and {MANY * "p "}))\n(check-sat)\n'


def definitions(count: int = 100_000) -> str:
    lines = [f'(define-fun f{i + 1} () Real f{i})\n' for i in range(count)]
    return real('f0') + ''.join(lines) + f'(assert (> f{count} 2))\n(check-sat)\n'


READ: dict[str, Callable[[], str]] = {
    '60 MB of comments': comments,
    'a comparison of 1,000,000 arguments': comparison,
    'a conjunction of 1,000,000 arguments': conjunction,
    'a chain of 100,000 definitions, each calling the one before it': definitions,
}
DEMO = 'the script of `demo 1 10000`, and its solution'


def reading_part(asked: Asked) -> None:
    """Scripts that are large, read and not searched."""
    part = Part(asked, READING)
    path, cert = asked.file('script.smt2'), asked.file('certificate')
    for name, make in READ.items():
        if not part.is_due(name):
            continue
        with open(path, 'w', encoding='ascii') as file:
            file.write(make())
        reading_row(asked, part, name, [asked.program, 'solve', '--budget', '0', path, cert], path)
    if part.is_due(DEMO):
        reading_row(asked, part, DEMO, [asked.program, 'demo', '1', '10000', cert], None)


def reading_row(asked: Asked, part: Part, name: str, words: list[str], path: str | None) -> None:
    idle, begun = part.is_idle(), load()
    done = least(words, 10 * asked.seconds, 3)
    if done.status != 0:
        raise SystemExit(f'release: {name}: status {done.status}')
    size = str(os.path.getsize(path)) if path else ''
    row = {'script': name, 'bytes': size, 'seconds': fixed(done.cpu)}
    row['mb'] = f'{done.megabytes:.0f}'
    part.put(row, ['seconds'], idle, begun)


def many_axes(count: int) -> str:
    """A script over many axes that neither narrowing nor a combination closes."""
    names = [f'x{i}' for i in range(count)]
    text = ''.join(real(it) for it in names)
    text += '(assert (= (- (* x0 x1) (* x1 x0)) (/ 1 900)))\n'
    return text + f'(assert (<= (+ {" ".join(names)}) {count}))\n(check-sat)\n'


def deep_tree(axes: int, cuts: int) -> str:
    """A certificate whose tree cuts the first part again and again, and leaves all open."""
    lines = [f'cut {i % axes} 1b-{1 + i // axes}' for i in range(cuts)]
    head = 'dpoly 2\nmargin 20\ndelta 10\nbound none\ncover 0\ntree\n'
    return head + '\n'.join(lines) + '\n' + (cuts + 1) * 'open\n' + 'end\n'


def memory_part(asked: Asked) -> None:
    """Greatest resident sizes of `solve` and `check`."""
    part = Part(asked, MEMORY)
    if part.is_due('the scripts of `bench/scripts`, the most'):
        most_of_scripts(part)
    path, cert = asked.file('script.smt2'), asked.file('certificate')
    name = '1,000 axes, 2,000 splits, left open'
    if part.is_due(name):
        write(path, many_axes(1_000))
        memory_row(asked, part, name, [asked.program, 'solve', '--budget', '2000', path, cert])
    name = 'a tree of 50,000 cuts in one another, over 1,024 axes'
    if part.is_due(name):
        write(path, many_axes(1_024))
        write(cert, deep_tree(1_024, 50_000))
        memory_row(asked, part, name, [])


def write(path: str, text: str) -> None:
    with open(path, 'w', encoding='ascii') as file:
        file.write(text)


def most_of_scripts(part: Part) -> None:
    """From the files of solvers and checks."""
    own = [it for it in SOLVE if it['set'] == OWN and it['solver'] == 'dpoly']
    solved = [float(it['mb']) for it in own]
    checked = [float(it['mb']) for it in CHECK if it['set'] == OWN]
    if solved and checked:
        row = {'what': 'the scripts of `bench/scripts`, the most'}
        row |= {'solve mb': f'{max(solved):.0f}', 'check mb': f'{max(checked):.1f}'}
        part.keep(row)


def memory_row(asked: Asked, part: Part, name: str, words: list[str]) -> None:
    """The sizes of a search, where there is one, and of the check of its certificate."""
    path, cert = asked.file('script.smt2'), asked.file('certificate')
    row = {'what': name}
    if words:
        done = run(words, 30 * asked.seconds)
        if not done.output.startswith('unknown budget'):
            raise SystemExit(f'release: {name}: {done.lines()[0]}')
        row['solve mb'] = f'{done.megabytes:.0f}'
    checked = run([asked.checker, path, cert], 30 * asked.seconds)
    if not checked.output.startswith(('open ', 'confirmed ')):
        raise SystemExit(f'release: {name}: {checked.lines()[0]}')
    row['check mb'] = f'{checked.megabytes:.0f}'
    part.keep(row)
