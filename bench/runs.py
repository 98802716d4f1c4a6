"""Runs programs within limits, and tells what they said and took."""
from __future__ import annotations

import dataclasses
import math
import os
import resource
import signal
import subprocess
import tempfile
import time
from dataclasses import dataclass
from typing import Optional

GNU_TIME = '/usr/bin/time'
ADDRESS_SPACE = 12 << 30  # bytes
WALL_FACTOR = 40  # so many times its processor seconds may a run take by the clock


@dataclass
class Run:
    """How a run went. `status` is None where a limit ended it."""

    status: Optional[int]
    output: str
    cpu: float  # processor seconds, user and system
    wall: float  # seconds of the clock
    megabytes: float  # greatest resident size

    def lines(self) -> list[str]:
        return self.output.split('\n')


def load() -> float:
    """The machine's load of the last minute."""
    return os.getloadavg()[0]


def wait_below(most: float, seconds: float) -> bool:
    """Waits until the load is below a number, at most so long. Whether it is."""
    end = time.monotonic() + seconds
    while load() >= most and time.monotonic() < end:
        time.sleep(5)
    return load() < most


def run(
    words: list[str],
    limit: float = 3600.0,
    processors: Optional[set[int]] = None,
    with_size: bool = True,
) -> Run:
    """Runs a program for at most `limit` processor seconds (of each of its processes).

    For the greatest size GNU time stands between, since Linux counts to it what a process was
    before it became the program. That takes about a millisecond."""

    def begin() -> None:
        most = math.ceil(limit)
        resource.setrlimit(resource.RLIMIT_CPU, (most, most + 1))
        resource.setrlimit(resource.RLIMIT_AS, (ADDRESS_SPACE, ADDRESS_SPACE))
        if processors is not None:
            os.sched_setaffinity(0, processors)

    with tempfile.NamedTemporaryFile('r') as size, tempfile.TemporaryFile() as output:
        between = [GNU_TIME, '-q', '-o', size.name, '-f', '%M'] if with_size else []
        begun = time.monotonic()
        child = subprocess.Popen(
            [*between, *words],
            stdout=output,
            stderr=subprocess.DEVNULL,
            stdin=subprocess.DEVNULL,
            preexec_fn=begin,
            start_new_session=True,
        )
        try:
            usage, code = reap(child, begun + WALL_FACTOR * limit)
        except BaseException:
            os.killpg(child.pid, signal.SIGKILL)
            raise
        wall = time.monotonic() - begun
        output.seek(0)
        text = output.read().decode('utf-8', 'replace')
        kilobytes = size.read().split()
    megabytes = int(kilobytes[-1]) / 1024 if kilobytes else 0.0
    return Run(code, text, usage.ru_utime + usage.ru_stime, wall, megabytes)


Usage = resource.struct_rusage


def reap(child: subprocess.Popen[bytes], end: float) -> tuple[Usage, Optional[int]]:
    """Waits for a program, and ends all of its group at a time of the clock."""
    pause = 0.0005
    while True:
        pid, status, usage = os.wait4(child.pid, os.WNOHANG)
        if pid:
            break
        if time.monotonic() > end:
            os.killpg(child.pid, signal.SIGKILL)
            _, status, usage = os.wait4(child.pid, 0)
            break
        time.sleep(pause)
        pause = min(pause * 1.5, 0.02)
    child.returncode = 0
    code = os.waitstatus_to_exitcode(status)
    # GNU time answers 128 and the signal that ended the program
    return usage, None if code < 0 or code >= 128 else code


def least(words: list[str], limit: float, repeat: int, enough: float = 2.0) -> Run:
    """The run that took least, of so many; of one alone where that took longer than `enough`."""
    best = run(words, limit)
    for _ in range(repeat - 1):
        if best.status is None or best.cpu > enough:
            break
        again = run(words, limit, with_size=False)
        if again.cpu < best.cpu:
            best = dataclasses.replace(again, megabytes=best.megabytes)
    return best
