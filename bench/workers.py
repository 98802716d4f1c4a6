"""The part `workers`: searches with many workers by the clock, on free processors and others."""
from __future__ import annotations

import os
import statistics
import subprocess
import sys
import time
from types import TracebackType
from typing import NamedTuple, Optional

from parts import MOST_SPLITS, SOLVE, Asked, Part, splits_of
from results import Results
from runs import load, run
from sets import Script, others, own

WORKERS = Results(
    'workers', ['script', 'workers', 'processors', 'busy'], ['splits', 'clock', 'load']
)
SMALL = Results('workers_small', ['script'], ['one, ms', 'four, ms', 'load'])
SCRIPTS = 2  # so many scripts, those that take longest
SHORTEST, LONGEST = 0.5, 8.0  # seconds with one worker
SMALL_RUNS = 41


class Setting(NamedTuple):
    workers: int
    processors: int
    busy: int  # processes beside that use the processors


SETTINGS = [
    Setting(1, 4, 0),
    Setting(2, 4, 0),
    Setting(4, 4, 0),
    Setting(8, 4, 0),
    Setting(64, 4, 0),
    Setting(1, 2, 0),
    Setting(2, 2, 0),
    Setting(4, 2, 0),
    Setting(1, 4, 4),
    Setting(4, 4, 4),
]


class Busy:
    """Processes that do nothing but use the processors."""

    def __init__(self, count: int, processors: set[int]):
        self.children = [
            subprocess.Popen(
                [sys.executable, '-c', 'while True: pass'],
                preexec_fn=lambda: os.sched_setaffinity(0, processors),
            )
            for _ in range(count)
        ]

    def __enter__(self) -> None:
        time.sleep(0.2 if self.children else 0)

    def __exit__(
        self,
        kind: Optional[type[BaseException]],
        error: Optional[BaseException],
        trace: Optional[TracebackType],
    ) -> None:
        for child in self.children:
            child.kill()
            child.wait()


def busy_now(seconds: float = 0.5) -> float:
    """How many processors are busy while this program waits; the load still has its last runs."""

    def ticks() -> tuple[int, int]:
        with open('/proc/stat', encoding='ascii') as file:
            fields = [int(it) for it in file.readline().split()[1:]]
        return sum(fields), fields[3] + fields[4]

    before, idle_before = ticks()
    time.sleep(seconds)
    after, idle_after = ticks()
    idle_share = (idle_after - idle_before) / max(after - before, 1)
    return (1 - idle_share) * (os.cpu_count() or 1)


def longest(asked: Asked) -> list[Script]:
    """The scripts without a point that take longest, within the limits of this part."""
    seconds = {}
    for script in [*own(), *others(asked.sets)]:
        row = SOLVE.find(script.set, script.name, 'dpoly')
        if row and row['answer'] == 'unsat' and row['seconds']:
            if SHORTEST <= float(row['seconds']) <= LONGEST:
                seconds[script] = float(row['seconds'])
    return sorted(seconds, key=lambda it: -seconds[it])[:SCRIPTS]


def workers_part(asked: Asked) -> None:
    """Many workers by the clock, on free processors, on fewer, and beside busy processes."""
    part = Part(asked, WORKERS)
    begun, idle = load(), part.is_idle()
    if not idle:
        return
    for script in longest(asked):
        for setting in SETTINGS:
            key = script.name, *(str(it) for it in setting)
            if part.is_due(*key) and busy_now() < 0.5:
                row(asked, part, script, setting, begun)
    small(asked, begun)


def row(asked: Asked, part: Part, script: Script, setting: Setting, begun: float) -> None:
    processors = set(sorted(os.sched_getaffinity(0))[: setting.processors])
    cert = asked.file('certificate')
    words = [asked.program, 'solve', '--budget', MOST_SPLITS, script.path, cert]
    words += ['--workers', str(setting.workers)]
    with Busy(setting.busy, processors):
        runs = [run(words, 20 * asked.seconds, processors)]
        while len(runs) < 3 and runs[0].wall < 4:
            runs.append(run(words, 20 * asked.seconds, processors))
    if any(it.lines()[0] != 'unsat' for it in runs):
        sys.exit(f'release: {script.name} with {setting.workers} workers: {runs[0].lines()[0]}')
    found = {
        'script': script.name,
        'workers': str(setting.workers),
        'processors': str(setting.processors),
        'busy': str(setting.busy),
        'splits': splits_of('dpoly', runs[-1], cert),
        'clock': f'{statistics.median(it.wall for it in runs):.3f}',
    }
    part.put(found, ['clock'], True, begun)


def small(asked: Asked, begun: float) -> None:
    """Scripts that take a few milliseconds, with one worker and with four."""
    part, cert = Part(asked, SMALL), asked.file('certificate')
    for script in own():
        alone = SOLVE.find(script.set, script.name, 'dpoly')
        if not part.is_due(script.name) or not alone or float(alone['seconds'] or 1) > 0.02:
            continue
        took: dict[str, list[float]] = {'1': [], '4': []}
        for _ in range(SMALL_RUNS):
            for workers, times in took.items():
                words = [asked.program, 'solve', script.path, cert, '--workers', workers]
                times.append(1000 * run(words, asked.seconds).wall)
        one, four = (f'{statistics.median(it):.2f}' for it in took.values())
        row = {'script': script.name, 'one, ms': one, 'four, ms': four}
        part.put(row, ['one, ms', 'four, ms'], busy_now() < 0.5, begun)
