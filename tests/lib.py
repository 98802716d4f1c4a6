"""What the tests in Python have in common: counting what is as wanted, calling programs, files in a
folder, and a few scripts. The folder of the test that is run is on Python's path, so `import lib`
finds it."""
import os
import subprocess
import sys

TOP = os.path.dirname(os.path.dirname(os.path.abspath(__file__)))
BENCH = os.path.join(TOP, 'bench', 'scripts')
SECOND = os.path.join(TOP, 'checker', 'dpoly_checker.py')

sys.path.insert(1, os.path.dirname(SECOND))
from dpoly_lines import SPLITS, rule_of  # noqa: E402

# ---- scripts and certificates

BOX = '(declare-const x Real)\n(assert (<= 0 x 1))\n'
ROOT = BOX + '(assert (= (* x x) (/ 1 4)))\n(check-sat)\n'
NO_ROOT = BOX + '(assert (= (* x x) (- 1)))\n(check-sat)\n'
TWICE = BOX + '(push 1)\n(assert (> x 2))\n(check-sat)\n(pop 1)\n  (check-sat)\n'
GAP = (BOX + '(assert (or (>= x (/ 3 4)) (<= x (/ 1 4))))\n'
       '(assert (= (* x x) (/ 1 4)))\n(check-sat)\n')
BEYOND = '(declare-const y Real)\n(assert (> (* y y) 2))\n(check-sat)\n'
SPREAD = ('(declare-const x Real)\n(declare-const y Real)\n%s'
          '(assert (= (- (* x y) (* y x)) (/ 1 %d)))\n(check-sat)\n')
SIDES = '(assert (<= (- (/ 1 2)) x (/ 1 2)))\n(assert (<= (- (/ 1 2)) y (/ 1 2)))\n'
SQUARES = SPREAD % (SIDES, 8)
FINE = SPREAD % (SIDES, 512)
UNBOUNDED = SPREAD % ('', 1)
HEAD = 'dpoly 2\nmargin 20\ndelta 10\nbound none\n'
UNSAT = 'unsat\nmargin 1b-20\n'
PLENTY = '1048576'


def jobs(times, room):
    """Jobs one after the other within so much time: a disjunction for each pair of them."""
    text = ''.join('(declare-const s%d Real)\n(assert (<= 0 s%d %d))\n' % (k, k, room - time)
                   for k, time in enumerate(times))
    apart = '(assert (or (<= (+ s%d %d) s%d) (<= (+ s%d %d) s%d)))\n'
    for i, time in enumerate(times):
        for j in range(i):
            text += apart % (i, time, j, j, times[j], i)
    return text + '(check-sat)\n'


def word(line):
    return line.split(' ')[0]


def is_branch(line):
    """Whether a line of a tree leaves two states."""
    return rule_of(line).shape == 'parts'


def stays(line):
    """Whether a line of a tree leaves its state open or stuck."""
    return rule_of(line).shape == 'stays'


def after_tree(lines, at):
    """The place behind the tree that begins at this place."""
    due = 1
    while due:
        due += rule_of(lines[at]).left - 1
        at += 1
    return at


def left(tree):
    """How many states a tree leaves open or stuck."""
    return sum(map(stays, tree))


# ---- tests


class Fail(Exception):
    """A run that does not let the next ones of its row go on."""


class Tests:
    """Counts what is as wanted, and tells what is not. Programs are called in `folder` with the
    environment `env`, or that of the test itself."""

    env = None
    seconds = 600  # of a call

    def __init__(self, name, folder=None):
        self.name, self.folder = name, folder
        self.count = self.wrong = 0
        self.what = ''  # the row

    def want(self, what, is_so, said='', most=400):
        """Counts whether something is so; where it is not, tells the last of what was said."""
        self.count += 1
        if not is_so:
            self.wrong += 1
            row = self.what + ': ' if self.what else ''
            print('%s: %s%s: %s' % (self.name, row, what, str(said).strip()[-most:]), flush=True)
        return bool(is_so)

    def compare(self, what, wanted, found):
        """Counts whether what was found is as wanted."""
        said = '%s, wanted %s' % (repr(found)[:300], repr(wanted)[:300])
        return self.want(what, wanted == found, said, len(said))

    def path(self, *names):
        return os.path.join(self.folder, *names)

    def read(self, *names):
        """What stands under the name, or None where there is no such file."""
        if not os.path.exists(self.path(*names)):
            return None
        with open(self.path(*names), encoding='utf-8') as file:
            return file.read()

    def write(self, name, text, mode=None):
        with open(self.path(name), 'w', encoding='utf-8') as file:
            file.write(text)
        if mode is not None:
            os.chmod(self.path(name), mode)

    def drop(self, *names):
        for name in names:
            if os.path.exists(self.path(name)):
                os.remove(self.path(name))

    def call(self, *words, **how):
        """Exit status and standard output."""
        usual = {'cwd': self.folder, 'env': self.env, 'stdin': subprocess.DEVNULL,
                 'stdout': subprocess.PIPE, 'stderr': subprocess.DEVNULL, 'timeout': self.seconds}
        done = subprocess.run(words, **{**usual, **how})
        return done.returncode, done.stdout.decode()

    def end(self, how='as wanted'):
        """Tells how many were as wanted; the exit status."""
        print('%s: %d of %d %s' % (self.name, self.count - self.wrong, self.count, how))
        return 0 if self.count and not self.wrong else 1


def install(*packages):
    """Installs packages of Debian, as root; what fails is seen by what is not there then."""
    words = ['apt-get', 'install', '-y', '--no-install-recommends', *packages]
    env = dict(os.environ, DEBIAN_FRONTEND='noninteractive')
    subprocess.run(words, env=env, stdout=subprocess.DEVNULL, stderr=subprocess.DEVNULL)


def programs():
    """The program and the checker, the first two words of the call."""
    return [os.path.abspath(it) for it in sys.argv[1:3]]
