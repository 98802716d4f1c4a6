"""One case of a goal as a script of dpoly: what can be kept of it, with bounds, roots and quotients."""
from dataclasses import dataclass, field
from fractions import Fraction
from math import inf

from ranges import WHOLE, Ranges, holds_zero, meet

# Of equations that give a constant its value, so many are put in, where the value has so many operations at most.
MOST_VALUES, MOST_SIZE = 400, 300
# Bounds of constants are whole multiples of 2^-20, and below 2^60.
GRAIN, MOST = 2**20, 2**60
# Goals are taken apart into so many cases at most.
MOST_CASES = 64


@dataclass
class Case:
    """`parts` have to hold together, `bounds` those of numbers that do not stand there, `names` the constants in order; `doubts` say what was left
    out because nothing bounds it."""
    parts: list
    bounds: dict
    names: list
    doubts: list = field(default_factory=list)


def cases_of(terms, parts):
    """The last part of a conjunction, the negated conclusion, taken apart: each case has what it needs besides."""
    todo, done = [list(parts)], []
    while todo:
        case = todo.pop()
        last = case[-1] if case else terms.true
        if terms.op[last] == 'or' and len(todo) + len(done) + len(terms.args[last]) <= MOST_CASES:
            for it in reversed(terms.args[last]):
                todo.append(case[:-1] + (list(terms.args[it]) if terms.op[it] == 'and' else [it]))
        else:
            done.append(case)
    return done


class Maker:
    """Makes a case. `laws` are what is known of constants besides, `bound` is that of `--bound`."""

    def __init__(self, terms, facts, case, laws, bound=None):
        self.terms, self.laws, self.bound = terms, laws, bound
        self.facts = [it for it in [*facts, *case] if it != terms.true]
        self.conclusion = case[-1] if case else terms.true
        self.reasons, self.extra, self.settled = {}, [], {}

    def make(self, is_whole):
        """The case, with all facts where `is_whole`, else with those that what is concluded reaches."""
        terms = self.terms
        parts = self.with_laws(self.facts)
        values = self.values(parts)
        parts, conclusion = self.put(parts, values), self.put([self.conclusion], values)
        parts = parts if is_whole else self.reached(parts, conclusion)
        self.ranges = self.learned([it for it in parts if it not in conclusion])
        if any(inf in map(abs, self.bounds(it)) for part in parts for it in self.ranges.consts(part) if terms.is_number(it)):
            self.ranges = self.learned(parts, self.ranges.facts)
        self.said = self.stated(parts)
        parts = [self.settle(it) for it in parts]
        parts = [part for it in [*parts, *self.extra] for part in (terms.args[it] if terms.op[it] == 'and' else (it,))]
        if self.extra:
            self.ranges = self.learned(parts, self.ranges.facts)
        free = {it for part in parts for it in self.ranges.consts(part) if terms.is_number(it) and inf in map(abs, self.bounds(it))}
        if self.bound is None:
            parts = self.without(parts, free)
        parts = list(dict.fromkeys(it for it in parts if it != terms.true))
        names = [it for it in terms.below(parts) if terms.op[it] == 'const']
        stated = self.stated(parts)
        bounds = {it: self.missing(it, stated) for it in names if terms.is_number(it)}
        return Case(parts, bounds, names, self.doubts(free))

    def learned(self, parts, facts=None):
        ranges = Ranges(self.terms, facts)
        ranges.learn(parts, frozenset(c for it in parts for c in ranges.consts(it)))
        return ranges

    def with_laws(self, parts):
        """With what is known of the constants in the parts."""
        kept, seen, at = list(dict.fromkeys(parts)), set(), 0
        while at < len(kept):
            for it in self.terms.below([kept[at]], seen):
                if it in self.laws:
                    law = self.laws[it]
                    kept += self.terms.args[law] if self.terms.op[law] == 'and' else [law]
            at += 1
        return kept

    # ---- values

    def values(self, parts):
        """Constants without bounds of their own that an equation gives a value."""
        terms, values = self.terms, {}
        stated = self.stated(parts)
        for part in parts:
            if terms.op[part] != '=' or len(values) >= MOST_VALUES:
                continue
            for name, value in (terms.args[part], terms.args[part][::-1]):
                if terms.op[name] != 'const' or name in values or inf not in map(abs, stated.get(name, WHOLE)):
                    continue
                resolved = self.resolved(value, values)
                if name not in terms.consts(resolved) and self.size(resolved) <= MOST_SIZE:
                    values[name] = value
                    break
        return values

    def stated(self, parts):
        """The bounds that comparisons of a constant with a number say."""
        terms, found = self.terms, {}
        for part in parts:
            if terms.op[part] in ('<=', '<', '='):
                a, b = terms.args[part]
                for name, other, ends in ((a, b, (-inf, terms.value(b))), (b, a, (terms.value(a), inf))):
                    if terms.op[name] == 'const' and terms.op[other] == 'num':
                        ends = ends if terms.op[part] != '=' else (terms.value(other),) * 2
                        found[name] = meet(found.get(name, WHOLE), ends)
        return found

    def resolved(self, node, values):
        """The term with the values for constants, and the values of constants in these."""
        terms, memo, stack = self.terms, {}, [node]
        while stack:
            at = stack[-1]
            needs = [values[at]] if at in values else terms.parts(at)
            missing = [it for it in needs if it not in memo]
            if at in memo:
                stack.pop()
            elif missing:
                stack += missing
            else:
                made = tuple(memo[it] for it in needs)
                memo[stack.pop()] = made[0] if at in values else at if made == tuple(needs) else terms.rebuilt(at, made)
        return memo[node]

    def put(self, parts, values):
        made = [self.resolved(it, values) for it in parts] if values else parts
        return [it for part in made for it in (self.terms.args[part] if self.terms.op[part] == 'and' else (part,))]

    def size(self, root):
        """How many operations there are in the term where each is written out."""
        sizes = {}
        for it in self.terms.below([root]):
            sizes[it] = min(1 + sum(sizes[part] for part in self.terms.parts(it)), 1 << 30)
        return sizes[root]

    # ---- what is kept

    def reached(self, parts, roots):
        """The parts that share a constant with the roots, or with a part that is reached."""
        terms, by_name = self.terms, {}
        for part in parts:
            for it in terms.consts(part):
                by_name.setdefault(it, []).append(part)
        todo = [it for root in roots for it in terms.consts(root)]
        if not todo:
            return parts
        found, seen = set(roots), set()
        while todo:
            name = todo.pop()
            if name not in seen:
                seen.add(name)
                for part in by_name.get(name, ()):
                    if part not in found:
                        found.add(part)
                        todo += terms.consts(part)
        return [it for it in parts if it in found]

    def without(self, parts, free):
        """The parts without the comparisons in which a constant without bounds stands."""
        terms, memo, is_free = self.terms, {}, {}

        def leaf(node):
            if terms.op[node] in ('and', 'or'):
                return None
            for it in terms.below([node]):
                if it not in is_free:
                    is_free[it] = it in free or any(is_free[part] for part in terms.parts(it))
            return terms.true if is_free[node] else node

        made = [terms.mapped(it, leaf, memo) for it in parts] if free else parts
        return [it for part in made for it in (terms.args[part] if terms.op[part] == 'and' else (part,))]

    def doubts(self, free):
        told = []
        for it in sorted(free):
            low, high = self.bounds(it)
            side = 'no bounds' if low == -inf and high == inf else 'no lower bound' if low == -inf else 'no upper bound'
            told.append(self.reasons.get(it) or '%s has %s: add a premise that bounds it' % (self.terms.text(it), side))
        return told

    # ---- bounds, roots, quotients

    def bounds(self, name):
        """The range of a constant, with ends that the program reads."""
        low, high = self.ranges.of(name)
        return (-inf if low < -MOST else Fraction(low * GRAIN // 1, GRAIN)), (inf if high > MOST else -Fraction(-high * GRAIN // 1, GRAIN))

    def missing(self, name, stated):
        """The bounds of a constant on sides of which none is stated."""
        low, high = self.bounds(name)
        said_low, said_high = stated.get(name, WHOLE)
        return low if said_low == -inf else -inf, high if said_high == inf else inf

    def read(self, name):
        """The range of a constant that the program reads: what is stated, and what is missing there."""
        low, high = self.bounds(name)
        said_low, said_high = self.said.get(name, WHOLE)
        return low if said_low == -inf else said_low, high if said_high == inf else said_high

    def settle(self, root):
        """The part with names for what stands where the program wants a polynomial, and with constants of which nothing is known
        for roots and quotients that need not be what they are called."""
        terms, done, stack = self.terms, self.settled, [root]
        while stack:
            node = stack[-1]
            parts = terms.parts(node)
            missing = [it for it in parts if it not in done]
            if node in done:
                stack.pop()
            elif missing:
                stack += missing
            else:
                stack.pop()
                made = tuple(done[it] for it in parts)
                if terms.op[node] == 'sqrt':
                    done[node] = self.root(node, *parts, *made)
                elif terms.op[node] == '/':
                    done[node] = self.quotient(node, *parts, *made)
                else:
                    done[node] = node if made == parts else terms.rebuilt(node, made)
        return done[root]

    def root(self, node, argument, made):
        terms = self.terms
        if self.ranges.of(argument)[0] < 0:
            return self.doubt(node, 'the argument %s of a root may be negative' % terms.text(argument))
        return terms.make('sqrt', (self.polynomial(made, argument, ('ite',)),), 'Real')

    def quotient(self, node, a, b, made_a, made_b):
        terms, range_b = self.terms, self.ranges.of(b)
        if holds_zero(range_b):
            return self.doubt(node, 'the divisor %s may be 0' % terms.text(b))
        made_b = self.polynomial(made_b, b, ('ite', 'sqrt', '/'))
        plain = Ranges(terms, {it: self.read(it) for it in terms.consts(made_b)})
        if holds_zero(plain.of(made_b)):
            made_b = self.named(made_b, range_b)
        return terms.div(self.polynomial(made_a, a, ('ite',)), made_b)

    def polynomial(self, made, node, kinds):
        """The term, or a constant for it where such an operation stands in it."""
        if any(self.terms.op[it] in kinds for it in self.terms.below([made])):
            return self.named(made, self.ranges.of(node))
        return made

    def named(self, made, within):
        terms = self.terms
        name = terms.const(terms.text(made), 'Real')
        self.ranges.facts[name] = within
        self.extra.append(terms.eq(name, made))
        return name

    def doubt(self, node, reason):
        name = self.terms.const(self.terms.text(node), 'Real')
        self.reasons[name] = reason
        return name
