"""What powers are worth: scripts whose products are written again as products of two, from left to
right, so that no factor is read as a power."""
from __future__ import annotations

from parts import MOST_SPLITS, SOLVE, Asked, Part, splits_of, verdict
from results import Results
from runs import run
from sets import Script, others, own
from terms import has_power, in_twos, parse, spelled

POWERS = Results(
    'powers', ['set', 'script'], ['splits', 'answer in twos', 'splits in twos', 'load']
)


def powers_part(asked: Asked) -> None:
    """Splits of scripts with powers, as they are and with products of two."""
    part = Part(asked, POWERS)
    for script in [*own(), *others(asked.sets)]:
        if asked.only in script.name and part.is_due(script.set, script.name):
            row(asked, part, script)


def row(asked: Asked, part: Part, script: Script) -> None:
    with open(script.path, encoding='utf-8') as file:
        trees = parse(file.read())
    alone = SOLVE.find(script.set, script.name, 'dpoly')
    if not any(map(has_power, trees)) or alone is None or alone['answer'] != 'unsat':
        return
    path, cert = asked.file('script.smt2'), asked.file('certificate')
    with open(path, 'w', encoding='utf-8') as file:
        file.write('\n'.join(spelled(in_twos(it)) for it in trees) + '\n')
    done = run([asked.program, 'solve', '--budget', MOST_SPLITS, path, cert], asked.seconds)
    found = {
        'set': script.set,
        'script': script.name,
        'splits': alone['splits'],
        'answer in twos': verdict(done),
        'splits in twos': '' if done.status is None else splits_of('dpoly', done, cert),
    }
    part.keep(found)
