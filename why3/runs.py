"""Runs of the programs, within a time and a memory, that leave no process behind."""
import ctypes
import os
import re
import resource
import shutil
import signal
import subprocess
import sys
from fractions import Fraction
from math import ceil

# A limit of time is of the processor's, since several provers run at a time; so many times as much of the clock ends the run too.
CLOCK = 5
PR_SET_PDEATHSIG = 1
CAUGHT = (signal.SIGTERM, signal.SIGINT, signal.SIGHUP, signal.SIGALRM, signal.SIGXCPU)
STATUSES = {4: 'cannot read a file', 5: 'cannot write a file'}


class Ended(Exception):
    """The line that is printed, and the exit status."""

    def __init__(self, line, status=0):
        super().__init__(line)
        self.line, self.status = line, status


def failure(text):
    return Ended('Failure: ' + text, 1)


def program(name):
    """Where a program is: in the folder that DPOLY names, beside this one, or on the path."""
    named, here = os.environ.get('DPOLY', ''), os.path.dirname(os.path.abspath(sys.argv[0]))
    if named and not os.path.isdir(named):
        named = os.path.dirname(named)
    for folder in [named] if named else [here, *os.environ.get('PATH', os.defpath).split(os.pathsep)]:
        found = shutil.which(name, path=folder) if folder else None
        if found:
            return os.path.abspath(found)
    raise failure('there is no program %s; put it on the path, or let DPOLY name its folder' % name)


def stop(*_):
    raise Ended('Failure: stopped', 143)


def out_of_time(*_):
    raise Ended('Timeout')


def guard(seconds):
    """Ends this run when it is asked to, after so many seconds of the processor, and after some times as many of the clock."""
    for it in CAUGHT:
        signal.signal(it, out_of_time if it in (signal.SIGALRM, signal.SIGXCPU) else stop)
    if seconds:
        signal.setitimer(signal.ITIMER_REAL, CLOCK * seconds)
        lower(resource.RLIMIT_CPU, seconds)


def unguard():
    """What is left to do is done, whatever signals come."""
    for it in CAUGHT:
        signal.signal(it, signal.SIG_IGN)


def lower(limit, wanted):
    """Sets the soft limit, which may not be above the hard one."""
    _, hard = resource.getrlimit(limit)
    if hard == resource.RLIM_INFINITY or wanted <= hard:
        resource.setrlimit(limit, (wanted, hard))


class Runner:
    """Calls programs, with so many megabytes each, and with what is left of so many seconds for each worker."""

    def __init__(self, megabytes, seconds, workers):
        self.megabytes, self.seconds, self.workers = megabytes, seconds, workers
        self.libc = ctypes.CDLL(None)

    def left(self):
        """Seconds of the processor for one call, one at least."""
        used = sum(resource.getrusage(who).ru_utime + resource.getrusage(who).ru_stime for who in (resource.RUSAGE_SELF, resource.RUSAGE_CHILDREN))
        return max(1, ceil(self.seconds * self.workers - used))

    def limit(self):
        """In the new process: it ends with this one, however that ends, and has so much memory and time."""
        self.libc.prctl(PR_SET_PDEATHSIG, signal.SIGKILL)
        signal.signal(signal.SIGXCPU, signal.SIG_DFL)
        signal.pthread_sigmask(signal.SIG_UNBLOCK, CAUGHT)
        if self.megabytes:
            lower(resource.RLIMIT_AS, self.megabytes << 20)
        if self.seconds:
            lower(resource.RLIMIT_CPU, self.left())

    def call(self, *words):
        """Exit status and standard output. A signal that comes while the process begins waits until it can be ended."""
        process = None
        signal.pthread_sigmask(signal.SIG_BLOCK, CAUGHT)
        try:
            process = subprocess.Popen(words, stdin=subprocess.DEVNULL, stdout=subprocess.PIPE, stderr=subprocess.DEVNULL, start_new_session=True, preexec_fn=self.limit)
            signal.pthread_sigmask(signal.SIG_UNBLOCK, CAUGHT)
            said, _ = process.communicate()
        except OSError as error:
            raise failure('%s does not start: %s' % (words[0], error.strerror)) from None
        finally:
            if process and process.returncode is None:
                os.killpg(process.pid, signal.SIGKILL)
                process.wait()
            signal.pthread_sigmask(signal.SIG_UNBLOCK, CAUGHT)
        status, name = process.returncode, os.path.basename(words[0])
        if status == 6:
            raise Ended('OutOfMemory')
        if -status == signal.SIGXCPU:
            raise Ended('Timeout')
        if status < 0:
            raise failure('%s was ended by signal %d' % (name, -status))
        if status in STATUSES:
            raise failure('%s %s' % (name, STATUSES[status]))
        return status, said.decode('utf-8', 'replace')


def answer(runner, solver, checker, script, certificate, options, bound):
    """What `solve` says of the script: its first line and the lines behind. `unsat` is said where the checker confirms it."""
    status, said = runner.call(solver, 'solve', *options, *bound, script, certificate)
    if status == 2:
        return 'refused', said
    if status:
        raise failure('dpoly solve ended with status %d' % status)
    first, _, rest = said.partition('\n')
    if first == 'unsat':
        status, confirmed = runner.call(checker, *bound, script, certificate)
        if status or confirmed != 'confirmed unsat\n' + rest:
            raise failure('dpoly-check does not confirm the certificate')
        return 'unsat', rest
    return first, rest


def value(text):
    """The number `MbE` for people."""
    if text in ('true', 'false'):
        return text
    size, _, exponent = text.partition('b')
    exact = int(size) * Fraction(2) ** int(exponent or 0)
    return str(exact) if exact.denominator == 1 and abs(exact) < 10**9 else '%.6g' % exact


def point(lines, names):
    """The values of constants that the answer lists, by the names that people gave them."""
    told = {short: name for name, short in names.items()}
    found = []
    for line in lines.splitlines():
        matched = re.fullmatch(r'(\w+) (\S+)', line)
        if matched and matched[1] in told:
            found.append((told[matched[1]], value(matched[2])))
    return found
