"""What dpoly says of a goal."""
import contextlib
import hashlib
import os
import re
import shutil
import tempfile
from math import ceil

import runs
from case import Maker, cases_of
from goal import Goal
from normal import Normal
from runs import Ended, failure
from script import script_of
from smt import Fault, shown

MOST_BYTES = 256 << 20
BUDGET = '1048576'
# The usual margin first; where a point is near, one that takes less room.
COARSE = ('--budget', BUDGET)
FINE = ('--budget', BUDGET, '--margin-bits', '40', '--delta-bits', '24', '--least-bits', '40')
MOST_SHOWN = 300
USAGE = 'usage: dpoly-why3 [-t SECONDS] [-m MEGABYTES] [--workers K] [--bound N] FILE'
OPTIONS = {'-t': (0, 10**6), '-m': (0, 10**6), '--workers': (1, 64), '--bound': (1, 2**32 - 1)}


def asked_for(words):
    """The options and the file."""
    found, files, words = dict.fromkeys(OPTIONS), [], list(words)
    while words:
        word = words.pop(0)
        if word in OPTIONS:
            low, high = OPTIONS[word]
            number = words.pop(0) if words else ''
            if not re.fullmatch(r'[0-9]{1,19}(\.[0-9]{1,9})?' if word == '-t' else '[0-9]{1,19}', number) or not low <= ceil(float(number)) <= high:
                raise Ended('Failure: %s takes a number from %d to %d' % (word, low, high), 3)
            found[word] = ceil(float(number))
        else:
            files.append(word)
    if len(files) != 1 or files[0].startswith('-'):
        raise Ended('Failure: ' + USAGE, 3)
    return found, files[0]


def prove(words):
    """Ends with what is to be printed."""
    asked, path = asked_for(words)
    runs.guard(asked['-t'])
    try:
        with open(path, encoding='utf-8', errors='surrogateescape') as file:
            text = file.read(MOST_BYTES)
            if file.read(1):
                raise failure('%s is larger than %d bytes' % (shown(path), MOST_BYTES))
    except OSError as error:
        raise Ended('Failure: %s: %s' % (shown(path), error.strerror), 4) from None
    try:
        goal = Goal(text)
    except Fault as fault:
        raise Ended('Failure: %s: %s' % (shown(path), fault), 2) from None
    raise Prover(asked, path).prove(goal)


class Prover:
    def __init__(self, asked, path):
        self.bound, self.name = asked['--bound'], re.sub(r'^why_[0-9a-f]+_|\.smt2$', '', os.path.basename(path))
        self.solver, self.checker = runs.program('dpoly'), runs.program('dpoly-check')
        self.runner = runs.Runner(asked['-m'], asked['-t'], asked['--workers'] or 1)
        self.options = ['--workers', str(asked['--workers'])] if asked['--workers'] else []
        self.keep = os.environ.get('DPOLY_WHY3_KEEP')

    def prove(self, goal):
        """The end of the run. Each case has to be unsat."""
        normal = Normal(goal.terms)
        facts = [it for fact in goal.facts[:-1] for it in normal.of(fact)]
        with tempfile.TemporaryDirectory(prefix='dpoly-why3-') as folder:
            for number, case in enumerate(cases_of(goal.terms, normal.of(goal.facts[-1]))):
                reason = self.case(folder, number, Maker(goal.terms, facts, case, normal.laws, self.bound))
                if reason:
                    return Ended('Unknown: ' + shown(reason, MOST_SHOWN))
        if self.bound:
            return Ended('Unknown: no counterexample has all its numbers between -%d and %d, bounds that the goal does not have' % (self.bound, self.bound))
        return Ended('Valid')

    def case(self, folder, number, maker):
        """Why the case is not proved; nothing where it is."""
        near = maker.make(False)
        reason = self.tried(folder, number, maker.terms, near, [COARSE, FINE])
        if reason:
            whole = maker.make(True)
            if set(whole.parts) != set(near.parts) and not self.tried(folder, number, maker.terms, whole, [COARSE]):
                return ''
        return reason

    def tried(self, folder, number, terms, case, searches):
        text, names = script_of(terms, case)
        script, certificate = os.path.join(folder, 'case.smt2'), os.path.join(folder, 'case.cert')
        with open(script, 'w', encoding='ascii') as file:
            file.write(text)
        bound = ['--bound', str(self.bound)] if self.bound else []
        reason = ''
        for search in searches:
            first, rest = runs.answer(self.runner, self.solver, self.checker, script, certificate, [*search, *self.options], bound)
            if first == 'unsat':
                self.keep_certificate(number, script, certificate)
                return ''
            reason = case.doubts[0] if case.doubts else because(terms, names, first, rest)
            if case.doubts or first not in ('delta-sat', 'unknown width'):
                break
        return reason

    def keep_certificate(self, number, script, certificate):
        if not self.keep:
            return
        with open(script, 'rb') as file:
            name = '%s-%d-%s' % (self.name[:100], number, hashlib.sha256(file.read()).hexdigest()[:12])
        try:
            os.makedirs(self.keep, exist_ok=True)
            for source, ending in ((script, '.smt2'), (certificate, '.cert')):
                draft, whole = (os.path.join(self.keep, it) for it in ('%s%s.%d' % (name, ending, os.getpid()), name + ending))
                try:
                    shutil.copyfile(source, draft)
                    os.replace(draft, whole)
                finally:
                    with contextlib.suppress(FileNotFoundError):
                        os.remove(draft)
        except OSError as error:
            raise Ended('Failure: %s: %s' % (shown(self.keep), error.strerror), 5) from None


def because(terms, names, first, rest):
    """What an answer other than unsat means for the goal."""
    if first == 'delta-sat':
        values = ['%s = %s' % (shown(terms.text(name), 30), value) for name, value in runs.point(rest, names)]
        return 'not met, or met with no room, near %s' % ', '.join(values) if values else 'not met, or met with no room'
    if first.startswith('unknown budget'):
        return 'open after %s splits: nearer bounds or lemmas help' % BUDGET
    if first == 'unknown width':
        return 'open in a smallest box: met with no room, or nearer bounds help'
    if first == 'refused':
        return 'the script is refused: %s' % rest.strip()
    return 'an answer that is not known: %s' % first
