"""Ranges of terms: what follows of them from comparisons, by intervals (HC4: Benhamou, Goualard, Granvilliers, Puget, ICLP 1999)."""
from fractions import Fraction
from math import inf, isqrt

WHOLE = (-inf, inf)
# Ends are rounded outward to multiples of 2^-FINE, and are infinite from 2^LARGE on.
FINE, LARGE = 96, 200
ROUNDS = 12
DEEPEST = 3


def down(x):
    if isinstance(x, float):
        return x
    if abs(x) >= 2**LARGE:
        return -inf if x < 0 else Fraction(2**LARGE)
    return x if x.denominator.bit_length() <= FINE else Fraction((x.numerator << FINE) // x.denominator, 1 << FINE)


def up(x):
    return x if isinstance(x, float) else -down(-x)


def outward(low, high):
    return down(low), up(high)


def plus(x, y):
    """Of two lower ends or two upper ends."""
    return x if isinstance(x, float) else y if isinstance(y, float) else x + y


def times(x, y):
    if x == 0 or y == 0:
        return Fraction(0)
    if isinstance(x, float) or isinstance(y, float):
        return inf if (x > 0) == (y > 0) else -inf
    return x * y


def product(a, b):
    ends = [times(x, y) for x in a for y in b]
    return outward(min(ends), max(ends))


def sum_of(a, b):
    return outward(plus(a[0], b[0]), plus(a[1], b[1]))


def opposite(a):
    return -a[1], -a[0]


def holds_zero(a):
    return a[0] <= 0 <= a[1]


def inverse(a):
    """Of a range that does not hold 0."""
    return tuple(Fraction(0) if isinstance(it, float) else 1 / it for it in reversed(a))


def meet(a, b):
    return max(a[0], b[0]), min(a[1], b[1])


def hull(a, b):
    return min(a[0], b[0]), max(a[1], b[1])


def root_up(x):
    """A number whose square is not below x, which is not negative."""
    return x if isinstance(x, float) else Fraction(isqrt((x.numerator << 40) // x.denominator) + 1, 1 << 20)


def root_down(x):
    """A number whose square is not above x, which is not negative."""
    return x if isinstance(x, float) else Fraction(isqrt((x.numerator << 40) // x.denominator), 1 << 20)


class Ranges:
    """Ranges of constants and other terms, by `of`. What is told of a term is kept, and what follows of its parts."""

    def __init__(self, terms, facts=None):
        self.terms, self.facts, self.found = terms, dict(facts or {}), {}
        self.known, self.is_changed = {}, False

    def of(self, root):
        terms, found, stack = self.terms, self.found, [root]
        while stack:
            node = stack[-1]
            if node in found:
                stack.pop()
                continue
            parts = [it for it in terms.parts(node) if terms.is_number(it)]
            missing = [it for it in parts if it not in found]
            if missing:
                stack += missing
            else:
                found[stack.pop()] = meet(self.computed(node, [found[it] for it in parts]), self.facts.get(node, WHOLE))
        return found[root]

    def computed(self, node, parts):
        op, args = self.terms.op[node], self.terms.args[node]
        if op == 'num':
            return outward(args[0], args[0])
        if any(low > high for low, high in parts):
            return WHOLE
        if op == '+':
            return sum_of(*parts)
        if op == '-':
            return sum_of(parts[0], opposite(parts[1]))
        if op == '*':
            if args[0] == args[1]:
                low, high = product(parts[0], parts[0])
                return Fraction(0) if holds_zero(parts[0]) else max(low, Fraction(0)), high
            return product(*parts)
        if op == '/':
            return WHOLE if holds_zero(parts[1]) else product(parts[0], inverse(parts[1]))
        if op == 'ite':
            return self.choice(args[0], args[1], parts[0], parts[1])
        if op == 'sqrt':
            low, high = (max(it, Fraction(0)) for it in parts[0])
            return root_down(low), root_up(high)
        return WHOLE

    def choice(self, condition, arm, a, b):
        """The hull of the arms, each where the condition is a comparison that bounds the arm itself."""
        terms = self.terms
        if terms.op[condition] in ('<=', '<') and terms.value(terms.args[condition][0]) == 0 and terms.args[condition][1] == arm:
            low, high = a  # an absolute value: if 0 <= t then t else -t
            if b == opposite(a):
                return Fraction(0) if holds_zero(a) else min(abs(low), abs(high)), max(-low, high)
        return hull(a, b)

    # ---- what follows

    def learn(self, parts, owned=frozenset(), depth=0):
        """Takes in the parts of a conjunction. `owned` are constants that stand in these parts alone."""
        for _ in range(ROUNDS):
            self.is_changed = False
            for it in parts:
                self.take(it)
                if self.terms.op[it] == 'or' and depth < DEEPEST:
                    others = {c for other in parts if other != it for c in self.consts(other)}
                    self.take_any(it, owned - others, depth)
                if self.is_changed:
                    self.found = {}
            if not self.is_changed:
                break

    def take(self, node):
        op, args = self.terms.op[node], self.terms.args[node]
        if op in ('<=', '<'):
            a, b = args
            self.narrow(a, (-inf, self.of(b)[1]))
            self.narrow(b, (self.of(a)[0], inf))
        elif op == '=':
            self.narrow(args[0], self.of(args[1]))
            self.narrow(args[1], self.of(args[0]))

    def take_any(self, node, owned, depth):
        """What follows in each case. An owned constant is free in cases that have it not, and so may lie where others want it."""
        terms = self.terms
        wanted = [it for it in self.consts(node) if terms.is_number(it) and inf in map(abs, self.of(it))]
        cases, ranges = terms.args[node], []
        if not wanted:
            return
        for case in cases:
            inner = Ranges(terms, self.facts)
            inner.known = self.known
            inner.learn(terms.args[case] if terms.op[case] == 'and' else (case,), owned & self.consts(case), depth + 1)
            ranges.append(inner)
        for it in wanted:
            here = [inner.of(it) for case, inner in zip(cases, ranges) if it not in owned or it in self.consts(case)]
            found = here[0]
            for one in here[1:]:
                found = hull(found, one)
            self.narrow(it, found)

    def consts(self, node):
        if node not in self.known:
            self.known[node] = frozenset(self.terms.consts(node))
        return self.known[node]

    def narrow(self, node, wanted):
        """Each part of the term keeps what is needed for the term to lie in the range."""
        terms, stack = self.terms, [(node, wanted)]
        while stack:
            node, wanted = stack.pop()
            now = self.of(node)
            after = meet(now, wanted)
            if now[0] > now[1] or not self.is_better(now, after):
                continue
            if terms.op[node] != 'num':
                self.facts[node] = after
                self.found[node] = after
                self.is_changed = True
            if after[0] <= after[1]:
                stack += self.demands(node, after)

    @staticmethod
    def is_better(old, new):
        """Where an end is found, or moves by more than a hundredth of the range, or nothing is left."""
        if new[0] > new[1]:
            return True
        if any(isinstance(x, float) and not isinstance(y, float) for x, y in zip(old, new)):
            return True
        if isinstance(old[1] - old[0] if not any(isinstance(it, float) for it in old) else inf, float):
            return any(x != y and abs(x - y) > abs(y) / 100 for x, y in zip(old, new) if not isinstance(x, float))
        return (old[1] - old[0]) - (new[1] - new[0]) > (old[1] - old[0]) / 100

    def demands(self, node, wanted):
        terms = self.terms
        op, args = terms.op[node], terms.args[node]
        if op == '+':
            a, b = args
            return [(a, sum_of(wanted, opposite(self.of(b)))), (b, sum_of(wanted, opposite(self.of(a))))]
        if op == '-':
            a, b = args
            return [(a, sum_of(wanted, self.of(b))), (b, sum_of(self.of(a), opposite(wanted)))]
        if op == '*' and args[0] == args[1]:
            high = root_up(max(wanted[1], Fraction(0)))
            return [(args[0], (-high, high))]
        if op == '*':
            return [(it, product(wanted, inverse(self.of(by)))) for it, by in (args, args[::-1]) if not holds_zero(self.of(by))]
        if op == '/' and not holds_zero(self.of(args[1])):
            return [(args[0], product(wanted, self.of(args[1])))]
        if op == 'ite' and terms.op[args[0]] in ('<=', '<') and terms.value(terms.args[args[0]][0]) == 0 and terms.args[args[0]][1] == args[1] and args[2] == terms.neg(args[1]):
            return [(args[1], (-wanted[1], wanted[1]))]
        return []
