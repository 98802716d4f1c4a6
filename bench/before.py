"""What a change is worth: splits of a program of before it, and of this one."""
from __future__ import annotations

import os
import sys

from parts import MOST_SPLITS, Asked, Part, splits_of, verdict
from results import Results, Row
from runs import run
from sets import Script, others, own

KEYS = ['set', 'script']
SPLITS = ['answer', 'splits', 'older answer', 'older splits']
SQUARES_WORD = 'voidpos'  # the line that sums of squares close a box by
CHOICES_WORD = 'either'  # the line that splits on a choice of two

AXES = Results('axes', KEYS, [*SPLITS, 'load'])
SQUARES = Results('squares', KEYS, [*SPLITS, SQUARES_WORD, 'load'])
CHOICES = Results('choices', KEYS, [*SPLITS, CHOICES_WORD, 'load'])
WORDS = (SQUARES_WORD, CHOICES_WORD)


def lines_of(word: str, cert: str) -> str:
    """How many lines of a certificate begin with a word."""
    with open(cert, encoding='ascii') as file:
        return str(sum(it.startswith(word + ' ') for it in file))


def measured(asked: Asked, results: Results, script: Script) -> Row:
    """What the program of `--older` and this one make of a script."""
    row = {'set': script.set, 'script': script.name}
    cert = asked.file('certificate')
    for before, program in (('', asked.program), ('older ', asked.older)):
        if os.path.exists(cert):
            os.remove(cert)
        words = [program, 'solve', '--budget', MOST_SPLITS, script.path, cert]
        done = run(words, asked.seconds)
        row[before + 'answer'] = verdict(done)
        row[before + 'splits'] = '' if done.status is None else splits_of('dpoly', done, cert)
        for word in WORDS:
            if word in results.columns and not before and row['splits']:
                row[word] = lines_of(word, cert)
    return row


def compare(asked: Asked, results: Results) -> None:
    """Puts a row for each script."""
    if asked.older is None:
        sys.exit(f'release: {results.name} needs --older')
    part = Part(asked, results)
    for script in [*own(), *others(asked.sets)]:
        if asked.only in script.name and part.is_due(script.set, script.name):
            part.keep(measured(asked, results, script))


def axes_part(asked: Asked) -> None:
    """Splits of the program of `--older`, which cuts the widest axis, and of this one."""
    compare(asked, AXES)


def squares_part(asked: Asked) -> None:
    """Splits of the program of `--older`, which has no sums of squares, and of this one."""
    compare(asked, SQUARES)


def choices_part(asked: Asked) -> None:
    """Splits of the program of `--older`, which has no splits on a choice of two, and of this one."""
    compare(asked, CHOICES)
