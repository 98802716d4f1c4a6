"""What a call of `dpoly-cluster` asks for: its options, and the programs that it uses."""
import argparse
import os
import shutil
import sys


def say(text):
    print('dpoly-cluster: ' + text, file=sys.stderr, flush=True)


class Words(argparse.ArgumentParser):
    """Faults are told on standard error, and have status 3, as those of `dpoly`."""

    def error(self, message):
        say(message)
        print('usage fault')
        raise SystemExit(3)

    def print_help(self, file=None):
        super().print_help(sys.stderr)
        self.error('no question was asked')


def number_from(least, most=None):
    """The reader of an option's number within these limits."""

    def read(text):
        value = int(text)
        if value < least or most is not None and value > most:
            raise ValueError(text)
        return value

    read.__name__ = 'number from %d' % least + ('' if most is None else ' to %d' % most)
    return read


def asked_for():
    """The options of the call."""
    behind = sys.argv.index('--') if '--' in sys.argv else len(sys.argv)
    parser = Words(prog='dpoly-cluster', usage='dpoly-cluster [options] SCRIPT CERT [-- WORD ..]')
    any_number, positive = number_from(0), number_from(1)
    for name, value, kind, what in [
            ('margin-bits', 20, any_number, 'as of dpoly solve'), ('delta-bits', 10, any_number, 'as of dpoly solve'),
            ('least-bits', 20, any_number, 'as of dpoly solve'), ('bound', None, any_number, 'as of dpoly solve'),
            ('jobs', None, positive, 'so many at a time; one for each processor with --engine local, else 64'),
            ('workers', 1, number_from(1, 64), 'threads of a job'), ('parts', 4, positive, 'parts for each job below which they are made smaller'),
            ('budget', None, any_number, 'splits of the first search, and of a part at least; 1000 by default, or 6 for each job where that is more'),
            ('part-seconds', None, positive, 'a part that takes longer is done again'), ('rounds', None, any_number, 'at most so many rounds')]:
        parser.add_argument('--' + name, type=kind, default=value, metavar='N', help=what + ('' if value is None else '; %d by default' % value))
    parser.add_argument('--engine', default='local', help='local (default), parallel, slurm, or FILE.py with a class Engine')
    parser.add_argument('--work', metavar='DIR', help='a folder that all machines see; CERT.work by default')
    parser.add_argument('--continue', action='store_true', dest='goes_on', help='goes on with what is in DIR')
    parser.add_argument('script', metavar='SCRIPT')
    parser.add_argument('cert', metavar='CERT')
    asked = parser.parse_args(sys.argv[1:behind])
    asked.words = sys.argv[behind + 1 :]
    is_local = asked.engine == 'local'
    asked.jobs = asked.jobs or (max(1, len(os.sched_getaffinity(0)) // asked.workers) if is_local else 64)
    # what many jobs find in few splits is more than one driver can take
    asked.budget = max(1000, 6 * asked.jobs) if asked.budget is None else asked.budget
    asked.pause = 0.2 if is_local else 2
    asked.bound = [] if asked.bound is None else ['--bound', str(asked.bound)]
    # the folder of a call that names none goes with it
    asked.is_own = asked.work is None
    asked.work = os.path.abspath(asked.work or asked.cert + '.work')
    asked.cert = os.path.abspath(asked.cert)
    asked.program, asked.checker = shutil.which('dpoly'), shutil.which('dpoly-check')
    if asked.engine.endswith('.py'):
        asked.engine = os.path.abspath(asked.engine)
    elif asked.engine not in ('local', 'parallel', 'slurm'):
        parser.error('there is no engine %s' % asked.engine)
    for tool in ['dpoly', 'dpoly-check'] + {'parallel': ['parallel'], 'slurm': ['sbatch', 'squeue', 'scancel']}.get(asked.engine, []):
        if not shutil.which(tool):
            parser.error('there is no %s on the path' % tool)
    if os.path.exists(os.path.join(asked.work, 'driver')) and not asked.goes_on:
        parser.error('%s is there: --continue goes on with it' % asked.work)
    return asked
