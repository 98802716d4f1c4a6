"""Terms and formulas, each of which stands once: a term is a number, and equal terms are one number.

The operators are `num` and `const`, whose only argument is a fraction and a name; `var`, of a quantifier; `+ - * / ite`, `sqrt`,
`abs`, `min`, `max`, `floor`, `ceil`, `truncate`; `<= < =` of numbers; `true false not and or iff`; `forall` and `exists`, whose first
argument is a tuple of variables; and `app`, of a symbol that is known by its declaration alone. `sort` has their sorts. An
integer is a real number that is known to be one (`is_int`).
"""
from fractions import Fraction

NUMBERS = ('Real', 'Int')
# A literal beyond that is left as a constant of which nothing is known.
MOST_BITS = 4096


def run(walk):
    """What a generator returns that yields generators for what it needs of others: recursion without a stack of its own."""
    stack, value = [walk], None
    while stack:
        try:
            stack.append(stack[-1].send(value))
            value = None
        except StopIteration as ended:
            stack.pop()
            value = ended.value
    return value


class Terms:
    def __init__(self):
        self.op, self.args, self.sort, self.is_int = [], [], [], []
        self.known, self.fresh = {}, 0
        self.true, self.false = self.make('true', (), 'Bool'), self.make('false', (), 'Bool')
        self.zero, self.one = self.num(0), self.num(1)

    def make(self, op, args, sort, is_int=False):
        key = (op, args, sort)
        found = self.known.get(key)
        if found is None:
            found = self.known[key] = len(self.op)
            self.op.append(op)
            self.args.append(args)
            self.sort.append(sort)
            self.is_int.append(is_int)
        return found

    def num(self, value):
        value = Fraction(value)
        return self.make('num', (value,), 'Real', value.denominator == 1)

    def value(self, node):
        """The number that a literal is; None of other terms."""
        return self.args[node][0] if self.op[node] == 'num' else None

    def const(self, name, sort):
        """A constant of its own: two of one name are two."""
        self.fresh += 1
        return self.make('const', (name, self.fresh), sort, sort == 'Int')

    def var(self, name, sort):
        self.fresh += 1
        return self.make('var', (name, self.fresh), sort, sort == 'Int')

    def is_number(self, node):
        return self.sort[node] in NUMBERS

    def parts(self, node):
        """The terms directly below."""
        op, args = self.op[node], self.args[node]
        if op in ('num', 'const', 'var'):
            return ()
        return args[1:] if op in ('app', 'forall', 'exists') else args

    # ---- numbers

    def add(self, a, b):
        return self.arithmetic('+', a, b, lambda x, y: x + y)

    def sub(self, a, b):
        return self.arithmetic('-', a, b, lambda x, y: x - y)

    def mul(self, a, b):
        return self.arithmetic('*', a, b, lambda x, y: x * y)

    def neg(self, a):
        return self.sub(self.zero, a)

    def arithmetic(self, op, a, b, of):
        x, y = self.value(a), self.value(b)
        if x is not None and y is not None:
            z = of(x, y)
            if z.numerator.bit_length() + z.denominator.bit_length() <= MOST_BITS:
                return self.num(z)
        if y == 0 and op in '+-' or y == 1 and op == '*':
            return a
        if x == 0 and op == '+' or x == 1 and op == '*':
            return b
        return self.make(op, (a, b), 'Real', self.is_int[a] and self.is_int[b])

    def div(self, a, b):
        x, y = self.value(a), self.value(b)
        if y:
            return self.num(x / y) if x is not None else self.mul(self.num(1 / y), a)
        return self.make('/', (a, b), 'Real')

    def power(self, a, exponent):
        """A product of squares."""
        value = a if exponent else self.one
        for bit in bin(exponent)[3:] if exponent else '':
            value = self.mul(value, value)
            if bit == '1':
                value = self.mul(value, a)
        return value

    # ---- comparisons

    def le(self, a, b):
        x, y = self.value(a), self.value(b)
        if x is not None and y is not None:
            return self.true if x <= y else self.false
        return self.true if a == b else self.make('<=', self.sides(a, b), 'Bool')

    def lt(self, a, b):
        """Of integers, that the first is at most the second less 1."""
        if self.is_int[a] and self.is_int[b]:
            return self.le(self.add(a, self.one), b)
        x, y = self.value(a), self.value(b)
        if x is not None and y is not None:
            return self.true if x < y else self.false
        return self.false if a == b else self.make('<', self.sides(a, b), 'Bool')

    def sides(self, a, b):
        """The sides of a comparison; of an opposite with a number those of the term with the opposite number."""
        for one, other in ((a, b), (b, a)):
            if self.op[one] == '-' and self.args[one][0] == self.zero and self.op[other] == 'num':
                t, n = self.args[one][1], self.num(-self.value(other))
                return (n, t) if one == a else (t, n)
        return a, b

    def eq(self, a, b):
        x, y = self.value(a), self.value(b)
        if x is not None and y is not None:
            return self.true if x == y else self.false
        if a == b:
            return self.true
        return self.make('=', (a, b) if a < b else (b, a), 'Bool')

    # ---- formulas

    def negated(self, a):
        if a in (self.true, self.false):
            return self.false if a == self.true else self.true
        return self.args[a][0] if self.op[a] == 'not' else self.make('not', (a,), 'Bool')

    def all_of(self, parts):
        return self.junction('and', parts, self.true, self.false)

    def any_of(self, parts):
        return self.junction('or', parts, self.false, self.true)

    def junction(self, op, parts, neutral, ending):
        """Parts that are such a junction themselves stand in it."""
        kept = {}
        for part in parts:
            for it in self.args[part] if self.op[part] == op else (part,):
                if it == ending:
                    return ending
                if it != neutral:
                    kept[it] = True
        if len(kept) > 1:
            return self.make(op, tuple(kept), 'Bool')
        return next(iter(kept), neutral)

    def iff(self, a, b):
        if a == b:
            return self.true
        for one, other in ((a, b), (b, a)):
            if one in (self.true, self.false):
                return other if one == self.true else self.negated(other)
        return self.make('iff', (a, b) if a < b else (b, a), 'Bool')

    def ite(self, c, a, b):
        if c in (self.true, self.false):
            return a if c == self.true else b
        if a == b:
            return a
        if self.sort[a] == 'Bool':
            return self.any_of([self.all_of([c, a]), self.all_of([self.negated(c), b])])
        return self.make('ite', (c, a, b), self.sort[a], self.is_int[a] and self.is_int[b])

    def equal(self, a, b):
        """Equality of terms of any one sort."""
        if self.is_number(a) and self.is_number(b):
            return self.eq(a, b)
        if self.sort[a] == 'Bool' and self.sort[b] == 'Bool':
            return self.iff(a, b)
        return self.true if a == b else self.make('app', ('=', *sorted((a, b))), 'Bool')

    # ---- walks

    def rebuilt(self, node, parts, values=None):
        """The node with other parts, and other variables of a quantifier."""
        op = self.op[node]
        if op in ('forall', 'exists'):
            own = tuple((values or {}).get(it, it) for it in self.args[node][0])
            return self.make(op, (own, *parts), 'Bool')
        if op in BUILDERS:
            return BUILDERS[op](self, *parts)
        if op in ('and', 'or'):
            return self.all_of(parts) if op == 'and' else self.any_of(parts)
        head = self.args[node][:1] if op == 'app' else ()
        return self.make(op, (*head, *parts), self.sort[node], self.is_int[node])

    def mapped(self, root, leaf, memo, values=None):
        """The term with `leaf(node)` for each node for which that is not None, rebuilt above it. `memo` is kept by the caller."""
        stack = [root]
        while stack:
            node = stack[-1]
            if node in memo:
                stack.pop()
                continue
            other = leaf(node)
            if other is not None:
                memo[stack.pop()] = other
                continue
            parts = self.parts(node)
            missing = [it for it in parts if it not in memo]
            if missing:
                stack += missing
            else:
                stack.pop()
                made = tuple(memo[it] for it in parts)
                memo[node] = node if made == parts else self.rebuilt(node, made, values)
        return memo[root]

    def put(self, root, values):
        """The term with other terms for variables or constants. Variables of quantifiers on the way are new ones."""
        values = dict(values)

        def leaf(node):
            if self.op[node] in ('forall', 'exists'):
                for it in self.args[node][0]:
                    if it not in values:
                        values[it] = self.var(self.args[it][0], self.sort[it])
            return values.get(node)

        return self.mapped(root, leaf, {}, values)

    def below(self, roots, seen=None):
        """The nodes in the terms, parts before what they are part of."""
        order, seen = [], set() if seen is None else seen
        stack = [(it, False) for it in roots]
        while stack:
            node, is_open = stack.pop()
            if is_open:
                order.append(node)
            elif node not in seen:
                seen.add(node)
                stack.append((node, True))
                stack += [(it, False) for it in self.parts(node)]
        return order

    def consts(self, root):
        return {it for it in self.below([root]) if self.op[it] == 'const'}

    def text(self, root, most=60):
        """The term for people."""
        words, stack, size = [], [root], 0
        while stack and size <= most:
            node = stack.pop()
            if isinstance(node, str):
                word = node
            elif self.op[node] in ('const', 'var', 'num'):
                word = str(self.args[node][0]).strip('|')
            else:
                name = self.args[node][0] if self.op[node] == 'app' else self.op[node]
                inner = [it for part in self.parts(node) for it in (' ', part)]
                stack += reversed(['(', name, *inner, ')'])
                continue
            words.append(word)
            size += len(word)
        return ''.join(words)


BUILDERS = {
    '+': Terms.add, '-': Terms.sub, '*': Terms.mul, '/': Terms.div, 'ite': Terms.ite, '<=': Terms.le, '<': Terms.lt,
    '=': Terms.eq, 'not': Terms.negated, 'iff': Terms.iff,
}
