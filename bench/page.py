"""The tables and pictures of docs/PERFORMANCE.md, from the files of `bench/results`.

In the page a table stands right behind the line `<!-- table: NAME -->`."""
from __future__ import annotations

import math
import os
from typing import Callable, Iterable, Optional

import pictures
import tables
from before import AXES, CHOICES, CHOICES_WORD, SQUARES, SQUARES_WORD
from goals import GOALS
from made import MEMORY, READING
from parts import CHECK, SETS, SOLVE, SOLVED
from products import POWERS
from results import Results, Row
from sets import OWN
from workers import SMALL, WORKERS
from workers_sim import MODEL

LIMIT = 20.0  # processor seconds of a solver
MANY = 100  # splits from which a script stands in the table of axes
WORTH = 0.1  # seconds from which a row stands in the tables of times
NAMES = {'dpoly': 'dpoly', 'rule': 'plain, same rule', 'plain': 'plain'}
NAMES |= {'z3': 'z3', 'cvc5': 'cvc5'}

# Tables that take long or several machines; they are kept as they were measured.
CLUSTER = Results(
    'cluster',
    ['question'],
    ['splits', 'solve, s', 'check, s', 'cluster, s', 'search, s', 'parts', 'commit', 'load'],
)
CLUSTER_MODEL = Results(
    'cluster_model', ['ideal', 'machines'], ['rounds', 'parts at once', 'busy', 'results', 'load']
)

Table = tuple[list[str], list[list[str]]]


def mean(values: list[float]) -> float:
    return math.exp(sum(map(math.log, values)) / len(values)) if values else float('nan')


def count(text: str) -> str:
    return f'{int(text):,}' if text else ''


def seconds(text: str) -> str:
    """Seconds with two digits behind the point, and three where there would be none."""
    if not text:
        return '–'
    value = float(text)
    return f'{value:.3f}' if value < 0.1 else f'{value:.2f}' if value < 10 else f'{value:.1f}'


def ratio(above: str, below: str) -> Optional[float]:
    return float(above) / max(float(below), 1e-4) if above and below else None


def shown(value: Optional[float]) -> str:
    return '–' if value is None or math.isnan(value) else f'{value:.2f}'


def solved(row: Optional[Row]) -> bool:
    return row is not None and row['answer'] in SOLVED


def took(row: Optional[Row], with_splits: bool = False) -> str:
    """What a solver made of a script: seconds, with the splits before them, or that it is open."""
    if row is None:
        return ''
    if not solved(row):
        return 'open'
    splits = count(row['splits']) + ', ' if with_splits and row['splits'] else ''
    return splits + seconds(row['seconds'])


def by(solver: str, set_name: str, script: str) -> Optional[Row]:
    return SOLVE.find(set_name, script, solver)


def known() -> list[tuple[str, str]]:
    """Set and name of each script that some solver was run on."""
    return sorted({(it['set'], it['script']) for it in SOLVE}, key=lambda it: (it[0] != OWN, it))


def scripts() -> Table:
    head = ['script', 'answer', 'splits', 'lines', 'solve s', 'check s', 'MB']
    head += ['plain', 'z3', 'cvc5']
    rows = []
    for set_name, name in known():
        own, checked = by('dpoly', set_name, name), CHECK.find(set_name, name)
        if set_name != OWN:
            continue
        cells = [name, '', '', '', '', '', '']
        if own is not None and checked is not None:
            cells[1:4] = [own['answer'], count(own['splits']), count(checked['lines'])]
            cells[4:] = [seconds(own['seconds']), seconds(checked['seconds']), own['mb']]
        cells.append(took(by('plain', set_name, name), True))
        rows.append(cells + [took(by(it, set_name, name)) for it in ('z3', 'cvc5')])
    return head, rows


def reach() -> Table:
    solvers = [it for it in NAMES if it != 'plain']
    head = ['kind', 'scripts', *(NAMES[it] for it in solvers), 'open for `dpoly`']
    kinds: dict[str, list[tuple[str, str]]] = {}
    for key in known():
        kinds.setdefault(kind_of(key), []).append(key)
    rows = []
    for kind, keys in kinds.items():
        rows.append([kind, *reach_cells(solvers, keys), ', '.join(open_ones(keys))])
    rows.sort(key=lambda it: it[0])
    rows.append(['all', *reach_cells(solvers, known()), ''])
    alone = [str(sum(is_alone(it, key, solvers) for key in known())) for it in solvers]
    return head, [*rows, ['not solved by others', '', *alone, '']]


def reach_cells(solvers: list[str], keys: list[tuple[str, str]]) -> list[str]:
    return [str(len(keys)), *(str(sum(solved(by(it, *key)) for key in keys)) for it in solvers)]


def open_ones(keys: list[tuple[str, str]]) -> list[str]:
    return [name for set_name, name in keys if not solved(by('dpoly', set_name, name))]


def is_alone(solver: str, key: tuple[str, str], solvers: list[str]) -> bool:
    """Whether no solver of another make has solved a script."""
    make = ('dpoly', 'rule') if solver in ('dpoly', 'rule') else (solver,)
    others = [it for it in solvers if it not in make]
    return solved(by(solver, *key)) and not any(solved(by(it, *key)) for it in others)


def kind_of(key: tuple[str, str]) -> str:
    row = SETS.find(*key)
    return row['kind'] if row else ''


def times() -> Table:
    """Scripts without a point that take a while: the plain program beside, and the check."""
    head = ['script', 'splits', 'plain', 'solve s', 'plain s', 'times', 'a split', 'KB']
    head += ['check s', 'of solve']
    rows, ratios = [], []
    for key in known():
        one, two, checked = by('dpoly', *key), by('rule', *key), CHECK.find(*key)
        if not (one and checked and one['answer'] == 'unsat') or not is_long(one, two):
            continue
        found = time_ratios(one, two, checked)
        ratios.append(found)
        plain = ['', ''] if two is None else ['open', '']
        if two is not None and solved(two):
            plain = [count(two['splits']), seconds(two['seconds'])]
        cells = [key[1], count(one['splits']), plain[0], seconds(one['seconds']), plain[1]]
        cells += [shown(found[0]), shown(found[1])]
        cells += [f'{int(checked["bytes"]) / 1000:,.0f}', seconds(checked['seconds'])]
        rows.append([*cells, shown(found[2])])
    means = [shown(mean([it[i] for it in ratios if it[i]])) for i in range(3)]
    last = ['geometric mean', '', '', '', '', means[0], means[1], '', '', means[2]]
    return head, [*rows, last]


def is_long(*rows: Optional[Row]) -> bool:
    """Whether either took a while: many splits, where nothing was timed."""
    took_most = max(float(it['seconds'] or 0) for it in rows if it)
    splits = max(int(it['splits'] or 0) for it in rows if it)
    timed = any(it and it['seconds'] for it in rows)
    return took_most >= WORTH if timed else splits >= 1000


def time_ratios(one: Row, two: Optional[Row], checked: Row) -> list[Optional[float]]:
    """`dpoly` over the plain program, of seconds and of seconds a split; check over solve."""
    both = two if two is not None and two['answer'] == 'unsat' else None
    time = ratio(one['seconds'], both['seconds']) if both else None
    splits = (int(one['splits']) + 1) / (int(both['splits']) + 1) if both else None
    each = time / splits if time and splits else None
    return [time, each, ratio(checked['seconds'], one['seconds'])]


def workers() -> Table:
    counts = sorted({it['workers'] for it in WORKERS}, key=int)
    head = ['script', 'processors', 'busy beside', *(f'{it} workers' for it in counts)]
    head[3:4] = ['1 worker'] if counts else []
    rows = []
    for name, busy, processors in sorted(
        {(it['script'], it['busy'], it['processors']) for it in WORKERS},
        key=lambda it: (it[0], int(it[1]), -int(it[2])),
    ):
        found = [WORKERS.find(name, many, processors, busy) for many in counts]
        clocks = [seconds(it['clock']) if it else '' for it in found]
        rows.append([name, processors, busy, *clocks])
    return head, rows


def workers_small() -> Table:
    more = sorted(float(it['four, ms']) - float(it['one, ms']) for it in SMALL if it['one, ms'])
    head = ['scripts', 'four workers take more than one, ms', 'least', 'most']
    if not more:
        return head, []
    average = sum(more) / len(more)
    return head, [[str(len(more)), *(f'{it:.2f}' for it in (average, more[0], more[-1]))]]


def workers_model() -> Table:
    columns, rows = plain_table(MODEL)
    head = [f'a turn of {row[0]} us' for row in rows]
    return ['workers', *head], [
        [column, *(row[place] for row in rows)] for place, column in enumerate(columns) if place
    ]


def minimize() -> Table:
    head = ['goal', 'least value', 'lower', 'upper', 'splits', 's', 's, four workers', 'check s']
    head += ['told, s', 'times']
    rows, others = [], []
    for row in sorted(GOALS, key=lambda it: (-float(it['seconds'] or 0), -int(it['splits'] or 0))):
        if is_quick(row):
            others.append(int(row['splits'] or 0))
            continue
        cells = [row['goal'], row['least value'], row['lower'], row['upper'], count(row['splits'])]
        cells += [seconds(row[it]) for it in ('seconds', 'four workers', 'check', 'told')]
        rows.append([*cells, shown(ratio(row['seconds'], row['told']))])
    if others:
        most = f'{min(others)} to {max(others)}'
        rows.append([f'{len(others)} others', *3 * [''], most, *5 * ['']])
    return head, rows


def is_quick(row: Row) -> bool:
    """Whether a goal takes little: few splits, where nothing was timed."""
    return float(row['seconds']) < WORTH / 5 if row['seconds'] else int(row['splits'] or 0) < 30


def powers() -> Table:
    """How many times the splits products of two take, over the scripts that have powers."""
    head = ['scripts with powers', 'products of two take so many times the splits (mean)']
    head += ['least', 'most', 'open with products of two']
    ratios = sorted(
        (int(it['splits in twos']) + 1) / (int(it['splits']) + 1)
        for it in POWERS
        if it['answer in twos'] == 'unsat'
    )
    left = [it['script'] for it in POWERS if it['answer in twos'] != 'unsat']
    if not ratios:
        return head, []
    found = [f'{it:.2f}' for it in (mean(ratios), ratios[0], ratios[-1])]
    return head, [[str(len(POWERS.rows)), *found, ', '.join(left)]]


def axes() -> Table:
    """Splits of scripts without a point, with the widest axis cut and with a chosen one."""
    head = ['script', 'widest', 'chosen', 'times']
    many, few, rows = [], [], []
    for row in AXES:
        times = times_splits(row)
        if times is None:
            continue
        if max(int(row['older splits']), int(row['splits'])) < MANY:
            few.append(times)
            continue
        many.append(times)
        rows.append([row['script'], *splits_cells(row)])
    rows.append([f'mean of these {len(many)}', '', '', shown(mean(many))])
    rows.append([f'mean of {len(few)} others, of fewer than {MANY}', '', '', shown(mean(few))])
    return head, [*rows, ['mean of all', '', '', shown(mean(many + few))]]


def squares() -> Table:
    """Splits of scripts without a point, without sums of squares and with them, by kind: of each
    script that they close a box of, or that one program alone decides."""
    head = ['kind', 'script', 'without', 'with', 'times', 'boxes closed by squares']
    these, others, rows = [], [], []
    for row in SQUARES:
        if 'unsat' not in (row['answer'], row['older answer']):
            continue
        times = times_splits(row)
        is_new = times is None or int(row[SQUARES_WORD]) > 0
        if times is not None:
            (these if is_new else others).append(times)
        if is_new:
            kind = kind_of((row['set'], row['script']))
            rows.append([kind, row['script'], *splits_cells(row), count(row[SQUARES_WORD])])
    rows.sort()
    means = [(f'mean of these {len(these)}', these), (f'mean of {len(others)} others', others)]
    means.append(('mean of all', these + others))
    return head, [*rows, *([name, '', '', '', shown(mean(it)), ''] for name, it in means)]


def choices() -> Table:
    """Splits of scripts without a point, without splits on a choice of two and with them: of each
    script that has such splits, and of all."""
    head = ['script', 'without', 'with', 'of them on a choice of two']
    others, rows = [], []
    for row in CHOICES:
        if row['answer'] != 'unsat':
            continue
        if int(row[CHOICES_WORD]) > 0:
            without, now, _ = splits_cells(row)
            rows.append([row['script'], without, now, count(row[CHOICES_WORD])])
        elif (times := times_splits(row)) is not None:
            others.append(times)
    rows.append([f'mean of {len(others)} others', '', shown(mean(others)) + ' times', ''])
    return head, rows


def times_splits(row: Row) -> Optional[float]:
    """How many times the splits of the older program this one takes, where both decide."""
    if row['answer'] != 'unsat' or row['older answer'] != 'unsat':
        return None
    return (int(row['splits']) + 1) / (int(row['older splits']) + 1)


def splits_cells(row: Row) -> list[str]:
    """The splits of the older program and of this one, and how many times as many."""
    cells = []
    for before in ('older ', ''):
        is_solved = row[before + 'answer'] == 'unsat'
        cells.append(count(row[before + 'splits']) if is_solved else 'open')
    return [*cells, shown(times_splits(row))]


def plain_table(results: Results, numbers: Iterable[str] = ()) -> Table:
    """The rows of a file as they are."""
    columns = [it for it in results.columns if it != 'load']
    rows = []
    for row in results:
        rows.append([count(row[it]) if it in numbers else row[it] for it in columns])
    return columns, rows


def reading() -> Table:
    head = ['script', 'MB of text', 's', 'MB of memory']
    rows = []
    for row in READING:
        size = f'{int(row["bytes"]) / 1e6:.1f}' if row['bytes'] else ''
        rows.append([row['script'], size, seconds(row['seconds']), row['mb']])
    return head, rows


def cluster_model() -> Table:
    """Rows of machines; of each ideal time the rounds, and parts at once with their busy share."""
    ideals = ['1 minute', '10 minutes', 'an hour']
    ways = ('rounds', 'at once, busy')
    head = ['machines', *(f'{ideal}: {way}' for ideal in ideals for way in ways)]
    rows = []
    for machines in sorted({it['machines'] for it in CLUSTER_MODEL}, key=int):
        cells = [count(machines)]
        for ideal in ideals:
            row = CLUSTER_MODEL.find(ideal, machines)
            cells += [row['rounds'], f'{row["parts at once"]}, {row["busy"]}'] if row else ['', '']
        rows.append(cells)
    return head, rows


def runs() -> Table:
    """When and on what the files were measured; those alike are in one row."""
    head = ['files', 'date', 'program of commit', 'machine', 'load when timed, at most']
    rows: dict[tuple[str, ...], list[str]] = {}
    measured = [SOLVE, CHECK, POWERS, AXES, SQUARES, CHOICES]
    measured += [WORKERS, SMALL, MODEL, MEMORY, GOALS, READING]
    for results in [*measured, *CARRIED]:
        if not results.rows:
            continue
        loads = [float(it['load']) for it in results if it['load'] not in ('', '-')]
        most = f'{max(loads):.1f}' if loads else results.about.get('load', 'counts alone')
        about = tuple(results.about.get(it, '') for it in ('date', 'commit', 'machine'))
        rows.setdefault((*about, most), []).append(results.name)
    return head, [[', '.join(names), *about] for about, names in rows.items()]


CARRIED = (CLUSTER, CLUSTER_MODEL)
TABLES: dict[str, Callable[[], Table]] = {
    'scripts': scripts,
    'reach': reach,
    'times': times,
    'powers': powers,
    'axes': axes,
    'squares': squares,
    'choices': choices,
    'workers': workers,
    'workers-small': workers_small,
    'workers-model': workers_model,
    'memory': lambda: plain_table(MEMORY),
    'minimize': minimize,
    'cluster': lambda: plain_table(CLUSTER, ['splits']),
    'cluster-model': cluster_model,
    'reading': reading,
    'runs': runs,
}


def write() -> None:
    """Writes the tables of the page and the pictures anew."""
    tables.put('PERFORMANCE.md', {name: tables.markdown(*it()) for name, it in TABLES.items()})
    draw()


def draw() -> None:
    """The pictures, where all that they show was timed."""
    times: dict[str, list[float]] = {}
    for solver, name in NAMES.items():
        rows = [it for it in map(lambda key: by(solver, *key), known()) if solved(it)]
        if rows and all(it['seconds'] for it in rows if it):
            times[name] = [float(it['seconds']) for it in rows if it]
    if 'dpoly' in times:
        save('solved.svg', pictures.cactus(times, len(known()), LIMIT))
    lines = speedup_lines()
    if lines:
        save('workers.svg', pictures.speedups(lines))


# Processors, and busy processes beside.
SHOWN = [(4, 0, 'four processors'), (2, 0, 'two processors'), (4, 4, 'four, all busy')]


def speedup_lines() -> dict[str, list[pictures.Point]]:
    """Geometric means over the scripts, by the number of workers."""
    found: dict[str, list[pictures.Point]] = {}
    for processors, busy, name in SHOWN:
        for many in (1, 2, 4, 8, 64):
            values = []
            for script in {it['script'] for it in WORKERS}:
                row = WORKERS.find(script, str(many), str(processors), str(busy))
                one = WORKERS.find(script, '1', str(processors), str(busy))
                if row and one:
                    values.append(float(one['clock']) / float(row['clock']))
            if values:
                found.setdefault(name, []).append((float(many), mean(values)))
    return found


def save(name: str, text: str) -> None:
    with open(os.path.join(tables.DOCS, name), 'w', encoding='utf-8') as file:
        file.write(text)


