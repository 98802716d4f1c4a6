"""Formulas without quantifiers and negations, that hold wherever the given ones can be made to hold.

What holds for some value has a constant for it. What holds for all values is left out, where it stands in favour, and else is a
Bool of which nothing is known, as is every comparison of what is no number. An application of which nothing is known is a
constant. So what is refuted of the result is refuted of what was given.
"""
from smt import shown
from terms import run

# So many summands of a comparison are looked at.
MOST_SUMMANDS = 200


class Normal:
    def __init__(self, terms):
        self.terms, self.known, self.plain_known, self.abstract = terms, {}, {}, {}
        # what is known of the constants that stand for roundings
        self.laws = {}

    def of(self, node):
        """The parts of a conjunction that holds wherever the formula can."""
        found = run(self.formula(node, True))
        return list(self.terms.args[found]) if self.terms.op[found] == 'and' else [found]

    def formula(self, node, is_true):
        key = node, is_true
        if key not in self.known:
            self.known[key] = yield self.made(node, is_true)
        return self.known[key]

    def made(self, node, is_true):
        terms, op = self.terms, self.terms.op[node]
        if op in ('true', 'false'):
            return node if is_true else terms.negated(node)
        if op == 'not':
            return (yield self.formula(terms.args[node][0], not is_true))
        if op in ('and', 'or'):
            parts = []
            for it in terms.args[node]:
                parts.append((yield self.formula(it, is_true)))
            return terms.all_of(parts) if (op == 'and') == is_true else terms.any_of(parts)
        if op == 'iff':
            return (yield self.iff(*terms.args[node], is_true))
        if op in ('forall', 'exists'):
            return (yield self.quantified(node, is_true))
        if op in ('<=', '<'):
            a, b = terms.args[node]
            positive = node if is_true else (terms.lt if op == '<=' else terms.le)(b, a)
            return (yield self.comparison(positive))
        if op == '=' and not is_true:
            a, b = terms.args[node]
            # of real numbers no comparison with a margin says that they differ
            return (yield self.formula(terms.any_of([terms.lt(a, b), terms.lt(b, a)]), True)) if terms.is_int[a] and terms.is_int[b] else terms.true
        atom = self.plain(node)
        return atom if is_true else terms.negated(atom)

    def iff(self, a, b, is_true):
        sides = []
        for it in (a, b):
            for way in (True, False):
                sides.append((yield self.formula(it, way)))
        yes_a, no_a, yes_b, no_b = sides
        terms = self.terms
        pairs = ((yes_a, yes_b), (no_a, no_b)) if is_true else ((yes_a, no_b), (no_a, yes_b))
        return terms.any_of([terms.all_of(it) for it in pairs])

    def quantified(self, node, is_true):
        terms = self.terms
        variables, body = terms.args[node]
        if (terms.op[node] == 'forall') == is_true:
            return terms.true
        # A variable stands in one quantifier alone, and so can be the constant itself.
        for it in variables:
            terms.op[it] = 'const'
        return (yield self.formula(body, is_true))

    def comparison(self, node):
        """Where an absolute value, a least or a greatest one is a summand and stands nowhere else, comparisons with what it is made
        of: all of them, or any."""
        terms = self.terms
        found = self.summand(node) if terms.op[node] in ('<=', '<') else None
        if found is None:
            return self.plain(node)
        it, is_rising = found
        parts = terms.args[it] if terms.op[it] != 'abs' else (terms.args[it][0], terms.neg(terms.args[it][0]))
        made = [terms.put(node, {it: part}) for part in parts]
        is_any = is_rising == (terms.op[it] != 'min')
        return (yield self.formula(terms.any_of(made) if is_any else terms.all_of(made), True))

    def summand(self, node):
        """One that stands once on the sides of a comparison, and whether the comparison holds the more the larger it is."""
        terms = self.terms
        a, b = terms.args[node]
        stack, found, others = [(a, False), (b, True)], {}, []
        for _ in range(MOST_SUMMANDS):
            if not stack:
                break
            it, is_rising = stack.pop()
            op, args = terms.op[it], terms.args[it]
            if op in ('abs', 'min', 'max'):
                found[it] = None if it in found else is_rising
                others += args
            elif op in '+-':
                stack += [(args[0], is_rising), (args[1], is_rising == (op == '+'))]
            elif op == '*' and terms.value(args[0]) is not None:
                stack.append((args[1], is_rising == (terms.value(args[0]) > 0)))
            elif op == '*' and terms.value(args[1]) is not None:
                stack.append((args[0], is_rising == (terms.value(args[1]) > 0)))
            else:
                others.append(it)
        inner = set() if stack else set(terms.below(others))
        return None if stack else next(((it, way) for it, way in found.items() if way is not None and it not in inner), None)

    # ---- terms

    def plain(self, root):
        """The term with constants for what is not known, and choices for absolute values, least and greatest ones."""
        terms, known, stack = self.terms, self.plain_known, [root]
        while stack:
            node = stack[-1]
            op = terms.op[node]
            parts = () if op in ('app', 'forall', 'exists') else terms.parts(node)
            missing = [it for it in parts if it not in known]
            if node in known:
                stack.pop()
            elif missing:
                stack += missing
            else:
                known[stack.pop()] = self.simple(node, [known[it] for it in parts])
        return known[root]

    def simple(self, node, parts):
        terms, op = self.terms, self.terms.op[node]
        if op in ('app', 'forall', 'exists'):
            name = shown(terms.text(node)) if op == 'app' else op
            return terms.const(name, terms.sort[node])
        if op == 'abs':
            return terms.ite(terms.le(terms.zero, parts[0]), parts[0], terms.neg(parts[0]))
        if op in ('min', 'max'):
            a, b = parts
            return terms.ite(terms.le(a, b), *((a, b) if op == 'min' else (b, a)))
        if op in ('floor', 'ceil', 'truncate'):
            return self.rounding(op, *parts)
        return terms.rebuilt(node, tuple(parts)) if parts else node

    def rounding(self, op, t):
        terms = self.terms
        whole = terms.const(shown('%s %s' % (op, terms.text(t))), 'Int')
        down = terms.all_of([terms.le(whole, t), terms.lt(terms.sub(t, terms.one), whole)])
        up = terms.all_of([terms.le(t, whole), terms.lt(whole, terms.add(t, terms.one))])
        if op == 'truncate':
            zero = terms.zero
            law = terms.any_of([terms.all_of([terms.le(zero, t), terms.le(zero, whole), down]), terms.all_of([terms.le(t, zero), terms.le(whole, zero), up])])
        else:
            law = down if op == 'floor' else up
        self.laws[whole] = law
        return whole
