"""The assertions of an SMT-LIB file that Why3 wrote, as formulas over numbers and Bools.

Definitions are put in where they are used; so are those that stand as an axiom, `forall x. f x = t`. What is not known of
numbers stays an application (`app`).
"""
import re
from fractions import Fraction

from smt import Fault, commands, shown
from terms import Terms, run

NUMERAL = re.compile(r'[0-9]+(\.[0-9]*)?')
# The functions that dpoly.drv names so that no other has the name.
OWN = {'dpoly.sqrt': ('sqrt', 1), 'dpoly.abs': ('abs', 1), 'dpoly.min': ('min', 2), 'dpoly.max': ('max', 2),
       'dpoly.floor': ('floor', 1), 'dpoly.ceil': ('ceil', 1), 'dpoly.truncate': ('truncate', 1)}
IGNORED = ('set-logic', 'set-info', 'set-option', 'check-sat', 'get-model', 'get-info', 'exit', 'push', 'declare-sort')
MOST_POWER = 1000


class Goal:
    """`facts` are the assertions, in order; the last one is the negated goal."""

    def __init__(self, text):
        self.terms, self.facts = Terms(), []
        self.scope, self.declared, self.defined = {}, {}, {}
        for line, command in commands(text):
            try:
                self.command(command)
            except Fault as fault:
                raise Fault('%s: %s' % (line, fault)) from None
        if not self.facts:
            raise Fault('there is no assertion')

    def command(self, command):
        name = command[0] if command else ''
        if name == 'assert' and len(command) == 2:
            self.fact(self.formula(command[1]))
        elif name in ('declare-fun', 'declare-const') and len(command) == (4 if name == 'declare-fun' else 3):
            self.declare(command[1], command[2] if name == 'declare-fun' else [], command[-1])
        elif name == 'define-fun' and len(command) == 5:
            self.define(*command[1:])
        elif not isinstance(name, str) or name not in IGNORED:
            raise Fault('the command %s is none of Why3' % shown(str(name)))

    def declare(self, name, sorts, sort):
        if not isinstance(name, str) or not isinstance(sorts, list):
            raise Fault('a declaration has a name, sorts and a sort')
        self.defined.pop(name, None)
        self.declared[name] = self.terms.const(name, sort_of(sort)) if not sorts else (len(sorts), sort_of(sort))

    def define(self, name, parameters, sort, body):
        if not isinstance(parameters, list) or not isinstance(name, str):
            raise Fault('a definition has a name and parameters')
        variables, names = self.variables(parameters)
        value = self.within(names, variables, body)
        if self.terms.sort[value] != sort_of(sort) and not (self.terms.is_number(value) and sort_of(sort) in ('Real', 'Int')):
            raise Fault('the definition of %s has another sort' % shown(name))
        self.defined[name] = variables, value

    def variables(self, bindings):
        if not isinstance(bindings, list):
            raise Fault('variables are wanted, with their sorts')
        for it in bindings:
            if not isinstance(it, list) or len(it) != 2 or not isinstance(it[0], str):
                raise Fault('a variable has a name and a sort')
        return tuple(self.terms.var(name, sort_of(sort)) for name, sort in bindings), [it[0] for it in bindings]

    def within(self, names, values, body):
        for name, value in zip(names, values):
            self.scope.setdefault(name, []).append(value)
        try:
            return run(self.term(body))
        finally:
            for name in names:
                self.scope[name].pop()

    # ---- facts

    def formula(self, tree):
        node = run(self.term(tree))
        if self.terms.sort[node] != 'Bool':
            raise Fault('an assertion is no formula')
        return node

    def fact(self, node):
        terms = self.terms
        if terms.op[node] == 'forall':
            variables, body = terms.args[node]
            if terms.op[body] in ('=', 'iff') and any(self.is_definition(variables, *sides) for sides in (terms.args[body], terms.args[body][::-1])):
                return
        self.facts.append(node)

    def is_definition(self, variables, left, right):
        """Whether it defines a function, which is then put in from here on."""
        terms = self.terms
        if terms.op[left] != 'app':
            return False
        name, *arguments = terms.args[left]
        if name not in self.declared or name in self.defined or sorted(arguments) != sorted(variables):
            return False
        if any(terms.op[it] == 'app' and terms.args[it][0] == name for it in terms.below([right])):
            return False
        self.defined[name] = tuple(arguments), right
        return True

    # ---- terms

    def term(self, tree):
        if isinstance(tree, str):
            return self.word(tree)
        if not tree:
            raise Fault('a term is wanted, and not ()')
        head = tree[0]
        if head == 'let' and len(tree) == 3:
            return (yield self.let(tree[1], tree[2]))
        if head in ('forall', 'exists') and len(tree) == 3:
            return (yield self.quantified(head, tree[1], tree[2]))
        if head == '!' and len(tree) > 1:
            return (yield self.term(tree[1]))
        if head in ('_', 'as'):
            return self.terms.make('app', (str(tree),), '?')
        arguments = []
        for it in tree[1:]:
            arguments.append(self.word(it) if isinstance(it, str) else (yield self.term(it)))
        if isinstance(head, list):
            return self.terms.make('app', (str(head), *arguments), '?')
        return self.applied(head, arguments)

    def let(self, bindings, body):
        if not isinstance(bindings, list) or any(not isinstance(it, list) or len(it) != 2 or not isinstance(it[0], str) for it in bindings):
            raise Fault('a let has names with terms')
        values = []
        for _, tree in bindings:
            values.append((yield self.term(tree)))
        for (name, _), value in zip(bindings, values):
            self.scope.setdefault(name, []).append(value)
        found = yield self.term(body)
        for name, _ in bindings:
            self.scope[name].pop()
        return found

    def quantified(self, op, bindings, body):
        variables, names = self.variables(bindings)
        for name, value in zip(names, variables):
            self.scope.setdefault(name, []).append(value)
        found = yield self.term(body)
        for name in names:
            self.scope[name].pop()
        if self.terms.sort[found] != 'Bool':
            raise Fault('what is quantified is no formula')
        if found in (self.terms.true, self.terms.false):
            return found
        return self.terms.make(op, (variables, found), 'Bool')

    def word(self, word):
        bound = self.scope.get(word)
        if bound:
            return bound[-1]
        if word in ('true', 'false'):
            return self.terms.true if word == 'true' else self.terms.false
        if NUMERAL.fullmatch(word):
            return self.terms.num(Fraction(word))
        if word in self.defined and not self.defined[word][0]:
            return self.defined[word][1]
        declared = self.declared.get(word)
        if isinstance(declared, int):
            return declared
        raise Fault('the symbol %s is not declared' % shown(word))

    def applied(self, name, arguments):
        terms = self.terms
        if name in self.defined:
            variables, value = self.defined[name]
            if len(variables) != len(arguments):
                raise Fault('%s has another number of arguments' % shown(name))
            return terms.put(value, dict(zip(variables, arguments)))
        if name in self.declared:
            declared = self.declared[name]
            if isinstance(declared, int) or declared[0] != len(arguments):
                raise Fault('%s has another number of arguments' % shown(name))
            return terms.make('app', (name, *arguments), declared[1], declared[1] == 'Int')
        if name in CORE:
            low, high, of = CORE[name]
            if not low <= len(arguments) <= (high or len(arguments)):
                raise Fault('%s has another number of arguments' % name)
            return of(terms, *arguments) if fits(terms, name, arguments) else self.unknown(name, arguments)
        if name in OWN:
            op, count = OWN[name]
            if len(arguments) != count or not all(terms.is_number(it) for it in arguments):
                raise Fault('%s has other arguments' % name)
            return terms.make(op, tuple(arguments), 'Real', op in ('floor', 'ceil', 'truncate'))
        if name == 'dpoly.power' and len(arguments) == 2 and all(terms.is_number(it) for it in arguments):
            exponent = terms.value(arguments[1])
            if exponent is not None and exponent.denominator == 1 and 0 <= exponent <= MOST_POWER:
                return terms.power(arguments[0], int(exponent))
            return terms.make('app', (name, *arguments), 'Real')
        raise Fault('the symbol %s is not declared' % shown(name))

    def unknown(self, name, arguments):
        """An operation on what is neither number nor Bool."""
        is_bool = name in ('<=', '<', '>=', '>', 'not', 'and', 'or', '=>', 'xor', 'distinct', '=')
        return self.terms.make('app', (name, *arguments), 'Bool' if is_bool else '?')


def sort_of(tree):
    return tree if isinstance(tree, str) else shown(str(tree), 200)


def fits(terms, name, arguments):
    if name in ('=', 'distinct', 'ite'):
        sorts = {'number' if terms.is_number(it) else terms.sort[it] for it in arguments[name == 'ite':]}
        return len(sorts) == 1 and (name != 'ite' or terms.sort[arguments[0]] == 'Bool' and sorts <= {'number', 'Bool'})
    if name in ('not', 'and', 'or', '=>', 'xor'):
        return all(terms.sort[it] == 'Bool' for it in arguments)
    return all(terms.is_number(it) for it in arguments)


def left(of):
    def fold(terms, first, *others):
        for it in others:
            first = of(terms, first, it)
        return first
    return fold


def chained(of):
    return lambda terms, *a: terms.all_of([of(terms, x, y) for x, y in zip(a, a[1:])])


def implied(terms, *a):
    return terms.any_of([*(terms.negated(it) for it in a[:-1]), a[-1]])


def distinct(terms, *a):
    return terms.all_of([terms.negated(terms.equal(x, y)) for i, x in enumerate(a) for y in a[i + 1:]])


CORE = {
    '+': (1, None, left(Terms.add)), '-': (1, None, lambda terms, *a: left(Terms.sub)(terms, *a) if a[1:] else terms.neg(a[0])),
    '*': (1, None, left(Terms.mul)), '/': (2, None, left(Terms.div)), 'to_real': (1, 1, lambda terms, a: a),
    '<=': (2, None, chained(Terms.le)), '<': (2, None, chained(Terms.lt)),
    '>=': (2, None, chained(lambda terms, a, b: terms.le(b, a))), '>': (2, None, chained(lambda terms, a, b: terms.lt(b, a))),
    '=': (2, None, chained(Terms.equal)), 'distinct': (2, 60, distinct), 'not': (1, 1, Terms.negated),
    'and': (1, None, lambda terms, *a: terms.all_of(a)), 'or': (1, None, lambda terms, *a: terms.any_of(a)),
    '=>': (2, None, implied), 'xor': (2, None, left(lambda terms, a, b: terms.negated(terms.iff(a, b)))), 'ite': (3, 3, Terms.ite),
}
