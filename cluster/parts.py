"""What is done on the machines of a cluster: `parts.py FOLDER NUMBER` is the job of this number, which goes on with the parts
that are laid out in FOLDER, one after the other, until the driver is done or gone.

`queue/ORDER.BUDGET.NAME` is a part that is free. The job that renames it to `taken/NUMBER.NAME` goes on with it, and renames it
to `ended/NAME` then, from where the driver takes it. Where it has no result then, it failed.

A part is a box that a certificate leaves open. `done/NAME.cert` is what became of it, a certificate of the script in which
all other boxes are open. `open/NAME.cert` is what that leaves to do: the same without the trees that leave nothing, which
are `open` there, so it is short. The parts of NAME are called NAME-K, by their numbers K among the open lines of
`open/NAME.cert`; `open/NAME.json` has these numbers. All of `open` can be made again from `done`."""
import contextlib
import json
import os
import random
import stat
import subprocess
import sys
import time
from dataclasses import asdict, dataclass, field
from typing import List, Optional

sys.path.insert(1, os.path.join(os.path.dirname(os.path.dirname(os.path.realpath(__file__))), 'checker'))
from dpoly_lines import RULES  # noqa: E402

# So many bytes a certificate has at most, and each other file: what is known of a result, a task, a driver's name.
MOST_OF_CERTIFICATE, MOST_KNOWN = 1 << 32, 1 << 26
WORDS = {it.encode(): rule for it, rule in RULES.items()}


@dataclass
class Known:
    """What is known of a result: whether it is a point, the numbers of its parts, how many lines are open in what it leaves to
    do, how many branches that has, how many splits were made for it, and in how many seconds, 0 where that is not known."""

    is_point: bool
    parts: List[int] = field(default_factory=list)
    open: int = 0
    branches: int = 0
    splits: int = 0
    seconds: float = 0


@dataclass
class Task:
    """What a driver asks of its jobs: the program, the driver's name, the options of each part and the seconds that one may
    take, how many jobs there are, and for how many seconds a job waits between two looks, and for a driver that is silent."""

    program: str
    driver: str
    options: List[str]
    seconds: Optional[int]
    jobs: int
    pause: float
    patience: float


def read(name, most):
    """The bytes of a plain file, so many at most. Another one is an error: any file of the work folder may be a link."""
    with open(name, 'rb', opener=lambda path, flags: os.open(path, flags | os.O_NONBLOCK)) as file:
        check_plain(name, os.fstat(file.fileno()))
        data = file.read(most + 1)
    if len(data) > most:
        raise ValueError('%s is too long' % name)
    return data


def check_plain(name, status):
    """Raises an error where the status of a file is not that of a plain one."""
    if not stat.S_ISREG(status.st_mode):
        raise ValueError('%s is no plain file' % name)


def write(name, data):
    """Writes a file beside, and gives it its name."""
    with open(beside(name), 'wb') as file:
        file.write(data)
    os.replace(beside(name), name)


def beside(name):
    return '%s.%s.%d' % (name, os.uname().nodename, os.getpid())


def rule_of(line):
    """The rule of a line of a tree. An error where it has none."""
    rule = WORDS.get(line.split(b' ', 1)[0])
    if rule is None:
        raise ValueError('%r is no line of a tree' % line[:80])
    return rule


def outline(tree, rules, own):
    """The lines of a tree in which each tree that has none of its own open lines, by their numbers, is None."""
    number, trees = sum(it.shape == 'stays' for it in rules), []
    # from the last line to the first; the lines of each tree are in this order too
    for line, rule in zip(reversed(tree), reversed(rules)):
        if rule.left == 2:
            first, second = trees.pop(), trees.pop()
            trees.append([None] if first == second == [None] else second + first + [line])
        elif rule.left == 0:
            number -= rule.shape == 'stays'
            trees.append([line if line == b'open' and number in own else None])
        elif trees[-1] != [None]:
            trees[-1].append(line)
    whole, = trees
    return whole[::-1]


def told(name):
    """What is known of a result. An error where the file says something else."""
    known = json.loads(read('open/%s.json' % name, MOST_KNOWN))
    if not is_known(known):
        raise ValueError('open/%s.json is not what is known of a result' % name)
    return Known(**known)


def is_count(value):
    return type(value) is int and value >= 0


def is_known(value):
    """Whether this is what `keep` writes of a result."""
    return (
        isinstance(value, dict)
        and set(value) == {'is_point', 'parts', 'open', 'branches', 'splits', 'seconds'}
        and type(value.get('is_point')) is bool
        and isinstance(value.get('parts'), list)
        and all(map(is_count, value['parts']))
        and all(is_count(value.get(name)) for name in ('open', 'branches', 'splits'))
        and type(value.get('seconds')) in (int, float)
    )


def keep(name, there, seconds=0):
    """Makes what stands under `there`, which took so long, the result of this name, unless that has one. An error where it
    is no whole certificate."""
    lines = read(there, MOST_OF_CERTIFICATE).split(b'\n')
    parent, _, number = name.rpartition('-')
    known = Known(lines[4] == b'point', seconds=seconds)
    if lines[-2:] != [b'end', b'']:
        raise ValueError('it is cut off')
    if not known.is_point:
        top = len(lines) - lines[::-1].index(b'tree')
        tree = lines[top:-2]
        rules = [rule_of(line) for line in tree]
        leaving = sum(it.shape == 'stays' for it in rules)
        before = told(parent) if parent else Known(False, open=1)
        own = range(int(number or 0), leaving - (before.open - 1 - int(number or 0)))
        left = outline(tree, rules, own)
        leaves = [line for line in left if line in (b'open', None)]
        known.parts, known.open = [place for place, line in enumerate(leaves) if line], len(leaves)
        known.branches = sum(line is not None and rule_of(line).left == 2 for line in left)
        known.splits = sum(it.left == 2 for it in rules) - before.branches
    result = 'done/%s.cert' % name
    if there != result:
        try:
            os.link(there, result)
        except FileExistsError:
            return
    if not known.is_point:
        write('open/%s.cert' % name, b'\n'.join(lines[:top] + [line or b'open' for line in left] + lines[-2:]))
    write('open/%s.json' % name, json.dumps(asdict(known)).encode())


def resume(task, name, budget):
    """Goes on with a part. Where that does not end as it should there is no result."""
    parent, _, number = name.rpartition('-')
    there = beside('done/' + name)
    try:
        share = '%d/%d' % (int(number) + 1, told(parent).open)
        words = [task.program, 'resume', '--part', share, '--budget', budget, *task.options, 'script.smt2', 'open/%s.cert' % parent, there]
        begin = time.monotonic()
        subprocess.run(words, stdin=subprocess.DEVNULL, stdout=subprocess.DEVNULL, timeout=task.seconds, check=True)
        keep(name, there, time.monotonic() - begin)
    except (OSError, subprocess.SubprocessError, ValueError, IndexError) as error:
        print('dpoly-cluster: part %s: %s' % (name, error), file=sys.stderr)
    finally:
        if os.path.exists(there):
            os.remove(there)


def taken(folder, number, jobs):
    """A free part, its budget, and where it stands now; None where there is none. One of the first as many as there are
    jobs, so that few of them want the same."""
    try:
        first = sorted(os.listdir(folder + '/queue'))[:jobs]
    except FileNotFoundError:
        return None
    for it in random.sample(first, len(first)):
        _, budget, name = it.split('.')
        there = '%s/taken/%s.%s' % (folder, number, name)
        try:
            os.rename('%s/queue/%s' % (folder, it), there)
        except FileNotFoundError:
            continue
        return name, budget, there
    return None


class Presence:
    """That of the driver, by the file that has its name while it is at work, and is touched all the time."""

    def __init__(self, task):
        self.task, self.touched, self.seen = task, None, 0

    def is_there(self):
        """Whether it is at work. How long ago the file was touched is told by the clock of this machine alone."""
        try:
            touched = os.stat('driver').st_mtime_ns
            if read('driver', MOST_KNOWN) != self.task.driver.encode():
                return False
        except FileNotFoundError:
            # the work is done, and its folder gone
            return False
        if touched != self.touched:
            self.touched, self.seen = touched, time.monotonic()
        return time.monotonic() < self.seen + self.task.patience


def main(folder, number):
    task = Task(**json.loads(read(folder + '/task', MOST_KNOWN)))
    os.chdir(os.path.dirname(os.path.dirname(folder)))
    driver, pause = Presence(task), 0.02
    while driver.is_there():
        part = taken(folder, number, task.jobs)
        if part is None:
            time.sleep(pause)
            pause = min(1.5 * pause, task.pause)
            continue
        name, budget, there = part
        result = 'done/%s.cert' % name
        if not os.path.exists(result):
            resume(task, name, budget)
        with contextlib.suppress(FileNotFoundError):
            os.rename(there, '%s/ended/%s' % (folder, name))
        pause = 0.02
        if not os.path.exists(result):
            # where the fault is this machine's, others get the part
            time.sleep(5 * task.pause)


if __name__ == '__main__':
    main(*sys.argv[1:])
