"""Where the jobs of `dpoly-cluster` run. An engine starts commands (`submit`, each a list of words), tells which of them run or
wait (`running`: their numbers, counted from 0 through all calls of `submit`), and ends all (`cancel`). It is made with the
options of the call: `jobs`, `workers`, and `words`, what stands behind `--`. There are never more commands than `jobs` that run
or wait. How one ended does not matter: what it left to do is seen in the work folder.
`--engine FILE.py` takes the class `Engine` of a file."""
import importlib.util
import os
import shlex
import signal
import subprocess

LONGEST_ARRAY = 1000


class Local:
    """Processes of this machine."""

    def __init__(self, asked):
        self.count, self.going = 0, {}

    def submit(self, commands):
        for it in commands:
            self.going[self.count] = subprocess.Popen(it, stdin=subprocess.DEVNULL, start_new_session=True)
            self.count += 1

    def running(self):
        self.going = {number: it for number, it in self.going.items() if it.poll() is None}
        return set(self.going)

    def cancel(self):
        for number in self.running():
            os.killpg(self.going[number].pid, signal.SIGKILL)
            self.going[number].wait()


class Parallel:
    """GNU parallel, on the machines that its words name; with no words, on this one. One call has all commands, with a NUL
    between them, since a path may hold a line feed. Those that are submitted while it runs wait for its end, since the places of
    a machine that is lost are lost, and others are taken."""

    LOG = 'parallel.log'

    def __init__(self, asked):
        self.words, self.count, self.process = asked.words or ['--jobs', str(asked.jobs)], 0, None
        self.waiting, self.going = {}, []

    def submit(self, commands):
        for it in commands:
            self.waiting[self.count] = it
            self.count += 1
        self.running()

    def start(self):
        """Starts those that wait."""
        if os.path.exists(self.LOG):
            os.remove(self.LOG)
        words = ['parallel', '--will-cite', '--null', '--sshdelay', '0.1', '--joblog', self.LOG, *self.words]
        self.process = subprocess.Popen(words, stdin=subprocess.PIPE, stdout=subprocess.DEVNULL, start_new_session=True)
        self.process.stdin.write('\0'.join(map(shlex.join, self.waiting.values())).encode())
        self.process.stdin.close()
        self.going, self.waiting = list(self.waiting), {}

    def running(self):
        if self.process is None or self.process.poll() is not None:
            self.going = []
            if self.waiting:
                self.start()
        ended = set()
        if self.going and os.path.exists(self.LOG):
            with open(self.LOG, encoding='utf-8', errors='replace') as file:
                ended = {self.going[int(line.split('\t')[0]) - 1] for line in file if line[0].isdigit() and line.endswith('\n')}
        return set(self.going) - ended | set(self.waiting)

    def cancel(self):
        self.waiting = {}
        if self.process and self.process.poll() is None:
            os.killpg(self.process.pid, signal.SIGKILL)
            self.process.wait()


class Slurm:
    """Arrays of sbatch."""

    def __init__(self, asked):
        self.asked, self.arrays, self.numbers, self.alive = asked, [], {}, set()

    def submit(self, commands):
        asked = self.asked
        for at in range(0, len(commands), LONGEST_ARRAY):
            some = commands[at : at + LONGEST_ARRAY]
            cases = ''.join('%d) exec %s ;;\n' % (number, shlex.join(it)) for number, it in enumerate(some))
            words = ['sbatch', '--parsable', '--job-name=dpoly', '--no-requeue', '--output=/dev/null', '--cpus-per-task=%d' % asked.workers,
                     '--array=0-%d' % (len(some) - 1), *asked.words]
            script = '#!/bin/sh\ncase $SLURM_ARRAY_TASK_ID in\n%sesac\n' % cases
            said = subprocess.run(words, input=script, stdout=subprocess.PIPE, text=True, check=True).stdout
            self.arrays.append(said.strip().split(';')[0])
            for index in range(len(some)):
                self.alive.add(len(self.numbers))
                self.numbers['%s_%d' % (self.arrays[-1], index)] = len(self.numbers)

    def running(self):
        words = ['squeue', '--me', '--noheader', '--array', '--format=%F_%K', '--states=PENDING,CONFIGURING,RUNNING,SUSPENDED']
        said = subprocess.run(words, stdout=subprocess.PIPE, text=True)
        # where the controller does not answer they may run
        if said.returncode == 0:
            self.alive = {self.numbers[it] for it in said.stdout.split() if it in self.numbers}
        return self.alive

    def cancel(self):
        if self.arrays:
            subprocess.run(['scancel', *self.arrays], stderr=subprocess.DEVNULL)


def engine(asked):
    """The engine that is asked for."""
    if not asked.engine.endswith('.py'):
        return {'local': Local, 'parallel': Parallel, 'slurm': Slurm}[asked.engine](asked)
    spec = importlib.util.spec_from_file_location('engine', asked.engine)
    module = importlib.util.module_from_spec(spec)
    spec.loader.exec_module(module)
    return module.Engine(asked)
