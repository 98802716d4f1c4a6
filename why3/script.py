"""The script of a case."""
from fractions import Fraction
from math import inf

# Expressions nest so deep at most before a name is given.
DEEPEST = 60


def number(value):
    value = Fraction(value)
    text = str(value.numerator if value >= 0 else -value.numerator)
    text = text if value.denominator == 1 else '(/ %s %d)' % (text, value.denominator)
    return text if value >= 0 else '(- %s)' % text


def script_of(terms, case):
    """The text, and the names of the constants in it."""
    names = {it: '%s%d' % ('b' if terms.sort[it] == 'Bool' else 'x', at) for at, it in enumerate(case.names)}
    lines = ['(set-logic QF_NRA)']
    for it, name in names.items():
        lines.append('(declare-const %s %s)' % (name, 'Bool' if terms.sort[it] == 'Bool' else 'Real'))
    for it, (low, high) in case.bounds.items():
        sides = [*([number(low)] if low != -inf else []), names[it], *([number(high)] if high != inf else [])]
        if len(sides) > 1:
            lines.append('(assert (<= %s))' % ' '.join(sides))
    uses = {}
    order = terms.below(case.parts)
    for it in order:
        for part in terms.parts(it):
            uses[part] = uses.get(part, 0) + 1
    texts, depths, count = dict(names), dict.fromkeys(names, 0), 0
    for it in order:
        if it in texts:
            continue
        parts = terms.parts(it)
        text = written(terms, it, [texts[part] for part in parts])
        depth = 1 + max((depths[part] for part in parts), default=0)
        if depth >= DEEPEST or uses.get(it, 0) > 1 and len(text) > 12:
            count += 1
            lines.append('(define-fun t%d () %s %s)' % (count, 'Bool' if terms.sort[it] == 'Bool' else 'Real', text))
            text, depth = 't%d' % count, 0
        texts[it], depths[it] = text, depth
    lines += ['(assert %s)' % texts[it] for it in case.parts]
    return '\n'.join([*lines, '(check-sat)', '']), names


def written(terms, node, parts):
    op = terms.op[node]
    if op == 'num':
        return number(terms.args[node][0])
    if op in ('true', 'false'):
        return op
    if op == '-' and terms.args[node][0] == terms.zero:
        return '(- %s)' % parts[1]
    return '(%s %s)' % ('=' if op == 'iff' else op, ' '.join(parts))
