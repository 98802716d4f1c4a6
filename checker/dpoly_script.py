"""What a script says, for the checker in plain Python (`dpoly_checker.py`): tokens, commands, names
and sorts, terms and forms."""
from __future__ import annotations

import re
from collections import Counter
from fractions import Fraction
from typing import (Any, Callable, Dict, Generator, Iterable, List, NamedTuple, Optional, Sequence,
                    Tuple, Union)

from dpoly_intervals import UNIT, rounded

SCRIPT_FAULTS = ('BadByte OpenToken Unbalanced NumberTooWide BadCommand UnknownSymbol SortMismatch '
                 'Redeclared DivisorNotConstant ZeroDivisor NoBound BoundTooWide TooMany NoCheck '
                 'WrongLogic LeftOut').split()


class ScriptFault(Exception):
    """Its name, the offset of its place in the script (None for 0:0), and its detail if it has
    one."""


# ---------------------------------------------------------------- Tokens, expressions (phases 1, 2)
WITHIN = r'[0-9A-Za-z~!@$%^&*_\-+=<>.?/]'
SIMPLE = rf'(?![0-9]){WITHIN}+'
TOKEN = re.compile(
    r'(?P<blank>[ \t\n\r]+|;[^\n\r]*)|(?P<open>\()|(?P<close>\))'
    r'|(?P<number>(?:0|[1-9][0-9]*)(?:\.[0-9]*)?)'
    rf'|(?P<symbol>{SIMPLE})|\|(?P<quoted>[^|\\]*)\|'
    rf'|(?P<string>"[^"]*(?:""[^"]*)*"(?!"))|(?P<keyword>:{WITHIN}+)')
RESERVED = {'!', '_', 'as', 'let', 'exists', 'forall', 'match', 'par'}
WIDEST = 10**36


class Expression(NamedTuple):
    """Its kind is symbol, reserved, numeral, decimal, string, keyword or list; its value a text, a
    fraction or a list of expressions. `at` is the offset of its first byte."""
    kind: str
    value: Any
    at: int


def read_expressions(script: bytes) -> List[Expression]:
    """The top-level expressions of a script up to `(exit)`. One character stands for one byte."""
    if len(script) > 67108864:
        raise ScriptFault('TooMany', None, 'Bytes')
    text, at = script.decode('latin-1'), 0
    # The top level, and the open lists with their places.
    lists: List[Tuple[Any, List[Expression]]] = [(None, [])]
    while at < len(text):
        token = TOKEN.match(text, at)
        if not token:
            raise fault_without_token(text, at)
        kind, value, end = token.lastgroup, token[token.lastgroup], token.end()
        if kind == 'open':
            if len(lists) > 256:
                raise ScriptFault('TooMany', at, 'Depth')
            lists.append((at, []))
        elif kind == 'close':
            if len(lists) == 1:
                raise ScriptFault('Unbalanced', at)
            start, items = lists.pop()
            lists[-1][1].append(Expression('list', items, start))
            if len(lists) == 1 and [it[:2] for it in items] == [('symbol', 'exit')]:
                break
        elif kind == 'number':
            kind = 'decimal' if '.' in value else 'numeral'
            lists[-1][1].append(Expression(kind, number(value, at), at))
            if re.match(WITHIN, text[end : end + 1]):
                raise ScriptFault('BadByte', end)
        elif kind != 'blank':
            if kind in ('symbol', 'quoted'):
                kind = 'reserved' if kind == 'symbol' and value in RESERVED else 'symbol'
            lists[-1][1].append(Expression(kind, value, at))
        at = end
    if len(lists) > 1:
        raise ScriptFault('Unbalanced', lists[-1][0])
    return lists[0][1]


def fault_without_token(text: str, at: int) -> ScriptFault:
    """The fault at a place where no token begins, or one that does not end."""
    end = re.compile(r'[^|\\]*').match(text, at + 1).end()
    if text[at] == '|' and end < len(text):
        return ScriptFault('BadByte', end)  # a backslash
    return ScriptFault('OpenToken' if text[at] in '"|' else 'BadByte', at)


def number(text: str, at: int) -> Fraction:
    """The value of a numeral or decimal: its digits over a power of ten, neither of which may
    exceed 10^36."""
    whole, _, part = text.partition('.')
    digits = (whole + part).lstrip('0') or '0'
    if len(part) > 36 or len(digits) > 37 or int(digits) > WIDEST:
        raise ScriptFault('NumberTooWide', at)
    return Fraction(int(digits), 10 ** len(part))


def digits_at(script: str, at: int) -> str:
    """The digits of the numeral or decimal at a place of a script."""
    return TOKEN.match(script, at)['number']


def name_text(name: str) -> str:
    """A name as it is printed. That of a root or a quotient has a bar at its head, which no name of
    a script has."""
    name = name.encode('latin-1').decode('utf-8', 'surrogateescape')
    if name.startswith('|'):
        return name[1:]
    return name if re.fullmatch(SIMPLE, name) and name not in RESERVED else f'|{name}|'


# ---------------------------------------------------------------- Commands (phase 3)
LEFT_OUT = set('get-proof get-unsat-core define-sort define-const define-fun-rec define-funs-rec '
               'declare-datatype declare-datatypes'.split())
# What may follow the word of a command, as a pattern of the letters below.
COMMANDS = {
    'set-logic': 's', 'declare-const': 's[sl]', 'declare-fun': 's[le][sl]',
    'define-fun': 's[le][sl].', 'assert': '.', 'minimize': '.', 'check-sat': '',
    'check-sat-assuming': '[le]', 'push': 'n', 'pop': 'n', 'reset': '', 'reset-assertions': '',
    'get-value': 'l', 'get-model': '', 'echo': 't', 'exit': '', 'set-info': '.*',
    'set-option': '.*', 'get-info': '.*'}
LETTERS = {'symbol': 's', 'numeral': 'n', 'string': 't'}
MOST = 1024  # axes and levels at once, and checks


class Step(NamedTuple):
    """What a command does: its word, its place and its arguments. `push` and `pop` have a number;
    an assumption is a level, with an `assert` of each literal and a `check-sat`."""
    word: str
    at: int
    arguments: Any


def letters(items: Sequence[Expression]) -> str:
    """A letter for each expression: s for a symbol, l for a list, e for an empty list, n for a
    numeral, t for a string, x for anything else."""
    return ''.join(letter(it) for it in items)


def letter(it: Expression) -> str:
    if it.kind == 'list':
        return 'l' if it.value else 'e'
    return LETTERS.get(it.kind, 'x')


def is_pair(it: Expression, second: str) -> bool:
    """Whether an expression is a list of a symbol and something with the letter of the pattern
    `second`."""
    return it.kind == 'list' and re.fullmatch('s' + second, letters(it.value)) is not None


def steps_of(commands: Sequence[Expression]) -> List[Step]:
    """What the commands do, one step after the other: each has to be of its form, and within the
    limits of levels and checks."""
    steps: List[Step] = []
    has_logic, has_goal, levels, checks = False, False, 0, 0
    for command in commands:
        fault = command_fault(command, has_logic, has_goal, levels)
        if fault:
            raise ScriptFault(fault, command.at)
        word, at, rest = command.value[0].value, command.at, command.value[1:]
        assumed = rest[0].value if word == 'check-sat-assuming' else []
        opened = int(rest[0].value) if word == 'push' else 1 if assumed else 0
        if levels + opened > MOST:
            raise ScriptFault('TooMany', at, 'Levels')
        if word in ('check-sat', 'check-sat-assuming'):
            checks += 1
            if checks > MOST:
                raise ScriptFault('TooMany', at, 'Checks')
            asked = [*(Step('assert', at, [it]) for it in assumed), Step('check-sat', at, [])]
            steps += [Step('push', at, 1), *asked, Step('pop', at, 1)] if assumed else asked
        elif word in ('push', 'pop'):
            steps.append(Step(word, at, int(rest[0].value)))
            levels += opened if word == 'push' else -int(rest[0].value)
        else:
            steps.append(Step(word, at, rest))
        has_logic = has_logic and word != 'reset' or word == 'set-logic'
        has_goal = has_goal or word == 'minimize'
        levels = 0 if word in ('reset', 'reset-assertions') else levels
    if not checks:
        raise ScriptFault('NoCheck', None)
    return steps


def command_fault(command: Expression, has_logic: bool, has_goal: bool,
                  levels: int) -> Optional[str]:
    """The name of the fault of a command's form, or None, where a logic and a goal came before or
    not, and so many levels are open."""
    if command.kind != 'list' or letters(command.value[:1]) != 's':
        return 'BadCommand'
    name, rest = command.value[0].value, command.value[1:]
    if name in LEFT_OUT:
        return 'LeftOut'
    if name not in COMMANDS or not re.fullmatch(COMMANDS[name], letters(rest)):
        return 'BadCommand'
    if name == 'set-logic':
        if has_logic:
            return 'BadCommand'
        return None if rest[0].value in ('QF_NRA', 'QF_LRA') else 'WrongLogic'
    if name == 'pop' and rest[0].value > levels:
        return 'BadCommand'
    if name == 'minimize' and has_goal:
        return 'LeftOut'
    inner = rest[1].value if name in ('declare-fun', 'define-fun') else []
    if name == 'define-fun' and all(is_pair(it, '[sl]') for it in inner):
        inner = [it.value[1] for it in inner]
    elif not re.fullmatch('[sl]*' if name == 'declare-fun' else '', letters(inner)):
        return 'BadCommand'
    sorts = list(inner)
    if name in ('declare-const', 'declare-fun'):
        sorts += rest[-1:]
    elif name == 'define-fun':
        sorts += rest[2:3]
    plain = all(it.value in ('Real', 'Bool') for it in sorts)
    return None if plain and not (name == 'declare-fun' and inner) else 'LeftOut'


# ---------------------------------------------------------------- Names and sorts (phase 4)
THEORIES = set('true false not => and or xor = distinct ite + - * / <= < >= >'.split())


class Named(NamedTuple):
    """What a top-level name stands for. A constant has its axis; a definition has its parameters,
    with their sorts, and its body."""
    sort: str
    axis: Optional[int]
    parameters: Dict[str, str]
    body: Optional[Expression]


class Axis(NamedTuple):
    """A declared constant, with the place of its declaration."""
    name: str
    sort: str
    at: int


def result_sort(name: str, sorts: Sequence[Optional[str]]) -> Optional[str]:
    """The sort of an operation of the theories on arguments of these sorts, or None where they do
    not fit."""
    count, bools, reals = len(sorts), set(sorts) == {'Bool'}, set(sorts) == {'Real'}
    if name == 'ite':
        is_choice = count == 3 and sorts[0] == 'Bool' and sorts[1] == sorts[2]
        return sorts[1] if is_choice else None
    if name in ('+', '-', '*', '/'):
        return 'Real' if reals and (name != '/' or count > 1) else None
    if name in ('and', 'or'):
        return 'Bool' if bools else None
    if name == 'not':
        return 'Bool' if bools and count == 1 else None
    if name in ('=>', 'xor'):
        fits = bools
    else:
        fits = bools or reals if name in ('=', 'distinct') else reals
    return 'Bool' if fits and count > 1 else None


class Claim(NamedTuple):
    """An assertion, or a goal as the assertion for which it stands, with its command's place."""
    at: int
    expression: Expression
    is_goal: bool


class Force(NamedTuple):
    """What is in force somewhere in a script: the top-level names with what they stand for, the
    axes, the assertions, and the commands."""
    named: Dict[str, Named]
    axes: List[Axis]
    assertions: List[Claim]
    commands: List[Step]


class Check(NamedTuple):
    """What is in force at a check, and whether all commands in force at the check before are so up
    to this one."""
    named: Dict[str, Named]
    axes: List[Axis]
    assertions: List[Claim]
    commands: List[Step]
    extends: bool


def goal_claim(term: Expression, at: int) -> Claim:
    """The assertion for which the goal `term` of a command at this place stands:
    `(or (<= term 0) true)`."""
    def leaf(kind: str, value: Any) -> Expression:
        return Expression(kind, value, at)
    comparison = leaf('list', [leaf('symbol', '<='), term, leaf('numeral', Fraction(0))])
    return Claim(at, leaf('list', [leaf('symbol', 'or'), comparison, leaf('symbol', 'true')]), True)


class Names:
    """The names and sorts of a script, step by step; `checks` has its checks. With roots `sqrt` is
    a function of one Real, known before the first command."""
    def __init__(self, steps: Sequence[Step], roots: bool = False):
        self.theory = {'sqrt': Named('Real', None, {'': 'Real'}, None)} if roots else {}
        self.checks: List[Check] = []
        self.start()
        levels: List[Force] = []  # what was in force before each open level
        before, extends = 0, False
        for step in steps:
            if step.word == 'push':
                levels += [self.in_force()] * step.arguments
            elif step.word == 'pop' and step.arguments:
                self.restore(levels[-step.arguments])
                del levels[-step.arguments :]
            elif step.word in ('reset', 'reset-assertions'):
                self.start()
                levels = []
            elif step.word == 'check-sat':
                self.checks.append(Check(*self.in_force(), extends))
                before, extends = len(self.commands), True
            else:
                self.take(*step)
            extends = extends and len(self.commands) >= before

    def start(self) -> None:
        """Nothing is in force."""
        self.restore(Force(self.theory, [], [], []))

    def restore(self, force: Force) -> None:
        """This is in force; several levels may share it, so it is copied."""
        self.named, self.axes = dict(force.named), list(force.axes)
        self.assertions, self.commands = list(force.assertions), list(force.commands)

    def in_force(self) -> Force:
        """What is in force, as it is now."""
        return Force(dict(self.named), list(self.axes), list(self.assertions), list(self.commands))

    def take(self, word: str, at: int, arguments: Any) -> None:
        """Takes a command that is checked for names and sorts."""
        if word in ('declare-const', 'declare-fun', 'define-fun', 'assert', 'minimize'):
            self.commands.append(Step(word, at, arguments))
        if word in ('declare-const', 'declare-fun'):
            name, sort = arguments[0].value, arguments[-1].value
            self.check_new(name, self.named, at)
            if len(self.axes) == MOST:
                raise ScriptFault('TooMany', at, 'Axes')
            self.named[name] = Named(sort, len(self.axes), {}, None)
            self.axes.append(Axis(name, sort, at))
        elif word == 'define-fun':
            name, parameters, sort, body = arguments
            self.check_new(name.value, self.named, at)
            local = self.bound(parameters.value, lambda of_sort: of_sort.value)
            self.check_sort(body, local, sort.value)
            self.named[name.value] = Named(sort.value, None, local, body)
        elif word == 'assert':
            self.check_sort(arguments[0], {}, 'Bool')
            self.assertions.append(Claim(at, arguments[0], False))
        elif word == 'minimize':
            self.check_sort(arguments[0], {}, 'Real')
            self.assertions.append(goal_claim(arguments[0], at))
        elif word == 'get-value':
            for term in arguments[0].value:
                self.sort(term, {})

    def check_new(self, name: str, taken: Iterable[str], at: int) -> None:
        if name in taken or name in THEORIES:
            raise ScriptFault('Redeclared', at, name_text(name))

    def bound(self, pairs: Sequence[Expression],
              sort: Callable[[Expression], Any]) -> Dict[str, str]:
        """The sorts of the names of a `let` or of parameters; `sort` gives that of what stands
        beside a name."""
        local = {}
        for symbol, beside in (it.value for it in pairs):
            self.check_new(symbol.value, local, symbol.at)
            local[symbol.value] = sort(beside)
        return local

    def check_sort(self, expression: Expression, local: Dict[str, str], sort: str) -> None:
        if self.sort(expression, local) != sort:
            raise ScriptFault('SortMismatch', expression.at)

    def sort(self, expression: Expression, local: Dict[str, str]) -> str:
        """The sort of an expression; `local` has those of the names of `let` and of parameters."""
        kind, value, at = expression
        if kind in ('numeral', 'decimal'):
            return 'Real'
        head, rest = (value[0], value[1:]) if kind == 'list' and value else (expression, [])
        name = head.value
        if head.kind == 'reserved' and kind == 'list':
            if name == '!' and rest:
                return self.sort(rest[0], local)
            if name == 'let' and is_let(rest):
                inner = self.bound(rest[0].value, lambda it: self.sort(it, local))
                return self.sort(rest[1], {**local, **inner})
            raise ScriptFault('SortMismatch' if name in ('!', 'let') else 'LeftOut', at)
        if head.kind != 'symbol':
            raise ScriptFault('SortMismatch', at)
        if name not in local and name not in self.named and name not in THEORIES:
            if name == 'sqrt':
                raise ScriptFault('LeftOut', at)
            raise ScriptFault('UnknownSymbol', at, name_text(name))
        sorts = [self.sort(it, local) for it in rest]
        if name in local or name in ('true', 'false'):
            found, wanted = local.get(name, 'Bool'), []
        elif name in self.named:
            found, wanted = self.named[name].sort, list(self.named[name].parameters.values())
        else:
            found, wanted = result_sort(name, sorts), sorts
        if found is None or sorts != wanted or bool(sorts) != (kind == 'list'):
            raise ScriptFault('SortMismatch', at)
        return found


def is_let(rest: Sequence[Expression]) -> bool:
    """Whether what follows `let` is of its form."""
    if letters(rest)[:1] != 'l' or len(rest) != 2:
        return False
    return all(is_pair(it, '.') for it in rest[0].value)


# ---------------------------------------------------------------- Terms and forms (phase 5)
class Terms:
    """Subterms, numbered in the order in which they are made. Each is a tuple: ('constant',
    fraction), ('variable', axis), ('minus', a), ('plus', a, b), ('times', a, b) or ('square', a),
    where a and b are numbers of subterms."""
    def __init__(self) -> None:
        self.parts: List[Tuple[Any, ...]] = []
        self.numbers: Dict[Tuple[Any, ...], int] = {}
        self.memo: Dict[int, List[int]] = {}

    def make(self, *parts: Any) -> int:
        if parts not in self.numbers:
            self.numbers[parts] = len(self.parts)
            self.parts.append(parts)
        return self.numbers[parts]

    def constant(self, tree: Any) -> Optional[Fraction]:
        """The fraction of a constant; None of anything else."""
        is_constant = isinstance(tree, int) and self.parts[tree][0] == 'constant'
        return self.parts[tree][1] if is_constant else None

    def operation(self, sign: str, at: int, a: int, b: Optional[int] = None) -> int:
        """The tree `-a`, `a + b`, `a - b`, `a * b` or `a / b` of trees; `at` is the place of the
        expression."""
        left, right = self.constant(a), self.constant(b)
        if b is None:
            return self.make('minus', a) if left is None else self.make('constant', -left)
        if sign == '-':
            return self.operation('+', at, a, self.operation('-', at, b))
        if sign == '/' and not right:
            raise ScriptFault('DivisorNotConstant' if right is None else 'ZeroDivisor', at)
        if sign == '/':
            return self.operation('*', at, a, self.make('constant', 1 / right))
        if left is not None and right is not None:
            p, q = left.numerator, left.denominator
            r, s = right.numerator, right.denominator
            steps = [p * r, q * s] if sign == '*' else [p * s, r * q, p * s + r * q, q * s]
            if any(abs(it) > WIDEST for it in steps):
                raise ScriptFault('NumberTooWide', at)
            return self.make('constant', Fraction(*steps[-2:]))
        if sign == '*' and a == b:
            return self.make('square', a)
        return self.make('plus' if sign == '+' else 'times', a, b)

    def power(self, factor: int, times: int) -> int:
        """The tree of a factor that stands so many times: the square of a power, or the factor
        times that."""
        if times == 1:
            return factor
        square = self.make('square', self.power(factor, times // 2))
        return self.make('times', factor, square) if times % 2 else square

    def powers(self, factors: Sequence[int]) -> List[int]:
        """The trees of a product, each that stands several times as one power where the first of
        it stands; a constant is no factor of a power."""
        often = Counter(factors)
        found: List[int] = []
        for tree in factors:
            if self.constant(tree) is not None:
                found.append(tree)
            elif tree in often:
                found.append(self.power(tree, often.pop(tree)))
        return found

    def below(self, term: int) -> List[int]:
        """The numbers of a term's subterms, itself included, in ascending order."""
        if term not in self.memo:
            found, waiting = {term}, [term]
            while waiting:
                kind, *parts = self.parts[waiting.pop()]
                new = set(parts) - found if kind not in ('constant', 'variable') else set()
                found |= new
                waiting.extend(new)
            self.memo[term] = sorted(found)
        return self.memo[term]


class Node:
    """An unfolded Bool expression: its kind, one of true, false, bool, comparison, not, and, or,
    xor and ite, and its parts. Those of `bool` are an axis, those of a comparison its kind ('<=',
    '>=' or '='), two trees and its place, all others nodes. A choice of Reals has the kind
    `choice`; its parts are a node and two arms, each a tree (the number of its term) or a
    choice."""
    def __init__(self, kind: str, *parts: Any):
        self.kind, self.parts = kind, parts


# What an expression unfolds to: a tree, which is the number of a term, or a node.
Value = Union[int, Node]
# Recursion with a stack of our own, since chains of definitions are thousands long: a generator
# that yields tasks and is sent their results.
Task = Generator[Any, Any, Any]
# A declared interval.
Bounds = Tuple[Fraction, Fraction]


def is_choice(value: Value) -> bool:
    return isinstance(value, Node) and value.kind == 'choice'


def is_real(value: Value) -> bool:
    return isinstance(value, int) or value.kind == 'choice'


def run(task: Task) -> Any:
    """The result of a task."""
    tasks, result = [task], None
    while tasks:
        try:
            tasks.append(tasks[-1].send(result))
            result = None
        except StopIteration as done:
            tasks.pop()
            result = done.value
    return result


class Problem:
    """The terms, atoms and forms of what is in force at a check, its declared box, and the term of
    its goal, None where it has none or that is a choice. An atom is a pair of a term and a kind,
    '<=', '>=' or '='. A form is a tuple: ('true',), ('false',), ('atom', J), ('bool', axis, value),
    ('all', forms) or ('any', forms), where forms are numbers, parts before wholes. The last form is
    that of all assertions."""
    def __init__(self, names: Check, bound: Optional[int]):
        self.names, self.extends, self.terms = names, names.extends, Terms()
        self.atoms: Any = {}
        self.forms: Any = {}
        self.memo: Dict[Tuple[Node, bool], int] = {}
        self.size = self.places = 0
        self.command: Optional[int] = None
        self.goal: Optional[int] = None
        nodes, truths = [], []
        # The terms of an assertion are made before those of its atoms.
        for self.command, expression, is_goal in names.assertions:
            nodes.append(run(self.unfold(expression, {})))
            if is_goal and nodes[-1].parts[0].kind == 'comparison':  # else a choice was taken apart
                self.goal = nodes[-1].parts[0].parts[1]
            truths.append(run(self.form(nodes[-1], True)))
            self.check_limits()
        self.add_form('all', tuple(truths))
        self.check_limits()
        self.atoms, self.forms = list(self.atoms), list(self.forms)
        self.declared = self.declared_box(nodes, bound)
        self.empty = any(low > high for low, high in self.declared.values())

    def count(self) -> None:
        """Counts an expression that is reached, or a choice that is taken apart."""
        self.size += 1
        if self.size > 1048576:
            raise ScriptFault('TooMany', self.command, 'Size')

    def check_limits(self) -> None:
        counts = {'Nodes': len(self.terms.parts), 'Atoms': 16 * len(self.atoms),
                  'Forms': len(self.forms) + self.places}
        for what, count in counts.items():
            if count > 1048576:
                raise ScriptFault('TooMany', self.command, what)

    # ---- unfolding
    def unfold(self, expression: Expression, local: Dict[str, Value]) -> Task:
        """A task: the value of an expression; `local` has those of local names."""
        self.count()
        kind, value, at = expression
        if kind in ('numeral', 'decimal'):
            if value > WIDEST:  # one that was put in the place of an end
                raise ScriptFault('NumberTooWide', at)
            return self.terms.make('constant', value)
        (head, *rest), values = (value if kind == 'list' else [expression]), []
        if head.kind == 'reserved':  # `!` or `let`
            inner = dict(local)
            for symbol, bound in (it.value for it in rest[0].value) if head.value == 'let' else ():
                inner[symbol.value] = yield self.unfold(bound, local)
            return (yield self.unfold(rest[0] if head.value == '!' else rest[1], inner))
        for it in rest:
            values.append((yield self.unfold(it, local)))
        named = self.names.named.get(head.value)
        if head.value in local:
            return local[head.value]
        if not named:
            return (yield self.operation(head.value, values, at))
        if named.axis is None:
            return (yield self.unfold(named.body, dict(zip(named.parameters, values))))
        if named.sort == 'Real':
            return self.terms.make('variable', named.axis)
        return Node('bool', named.axis)

    def operation(self, name: str, values: List[Value], at: int) -> Task:
        """A task: the value of an operation of the theories."""
        if name in ('+', '-', '*', '/'):
            return (yield self.arithmetic(name, values, at))
        if name in ('=', 'distinct', '<=', '<', '>=', '>'):
            return (yield self.comparisons(name, values, at))
        if name == '=>':
            result = values.pop()
            while values:
                result = Node('or', Node('not', values.pop()), result)
            return result
        if name == 'xor':
            result = values[0]
            for it in values[1:]:
                result = Node('xor', result, it)
            return result
        return Node('choice' if name == 'ite' and is_real(values[1]) else name, *values)

    def arithmetic(self, name: str, values: List[Value], at: int) -> Task:
        """A task: the value of an operation on Reals, a tree or a choice."""
        if name == '/' and any(map(is_choice, values[1:])):
            raise ScriptFault('DivisorNotConstant', at)

        def made(*trees: int) -> int:
            return self.terms.operation(name, at, *trees)

        if name == '-' and len(values) == 1:
            return (yield self.apart(made, 'choice', values))
        if name == '*' and all(isinstance(it, int) for it in values):
            values = self.terms.powers(values)
        result = values[0]
        for it in values[1:]:
            result = yield self.apart(made, 'choice', [result, it])
        return result

    def comparisons(self, name: str, values: List[Value], at: int) -> Task:
        """A task: the node of a comparison, a chain of them, or a `distinct`."""
        count, is_distinct, reals = len(values), name == 'distinct', is_real(values[0])
        kind = {'<': '<=', '>': '>=', 'distinct': '='}.get(name, name)
        nodes: List[Node] = []
        for first, a in enumerate(values):
            for b in values[first + 1 : count if is_distinct else first + 2]:
                nodes.append((yield self.compared(kind, a, b, at)) if reals else Node('xor', a, b))
        if kind == '=' and reals == is_distinct:
            nodes = [Node('not', it) for it in nodes]
        return nodes[0] if len(nodes) == 1 else Node('and', *nodes)

    def compared(self, kind: str, a: Value, b: Value, at: int) -> Task:
        """A task: the node of a comparison of two Reals."""
        return self.apart(lambda a, b: Node('comparison', kind, a, b, at), 'ite', [a, b])

    def apart(self, make: Callable[..., Value], kind: str, values: Sequence[Value]) -> Task:
        """A task: `make` of some trees; where one is a choice, a node of this kind of the choice's
        condition and of what comes of its arms in its place. The first choice is taken apart
        first."""
        at = next((at for at, it in enumerate(values) if is_choice(it)), None)
        if at is None:
            return make(*values)
        self.count()
        condition, *arms = values[at].parts
        for number, arm in enumerate(arms):
            arms[number] = yield self.apart(make, kind, [*values[:at], arm, *values[at + 1 :]])
        return Node(kind, condition, *arms)

    # ---- forms
    def add_form(self, *form: Any) -> int:
        if form not in self.forms:
            self.places += len(form[1]) if form[0] in ('all', 'any') else 0
            self.forms[form] = len(self.forms)
        return self.forms[form]

    def form(self, node: Node, truth: bool) -> Task:
        """A task: the number of the form of a node's truth or of its negation, made where it is
        first needed."""
        if (node, truth) not in self.memo:
            self.memo[node, truth] = yield self.new_form(truth, node.kind, *node.parts)
        return self.memo[node, truth]

    def new_form(self, truth: bool, kind: str, *parts: Any) -> Task:
        """A task: the same, not yet made."""
        if kind in ('true', 'false'):
            return self.add_form('true' if (kind == 'true') == truth else 'false')
        if kind == 'bool':
            return self.add_form('bool', parts[0], truth)
        if kind == 'comparison':
            return self.atom(truth, *parts)
        if kind == 'not':
            return (yield self.form(parts[0], not truth))
        if kind in ('and', 'or'):
            of_list = 'all' if (kind == 'and') == truth else 'any'
            return (yield self.list_of(of_list, [(it, truth) for it in parts]))
        if kind == 'xor':
            a, b = parts
            ways = [(a, True), (b, not truth)], [(a, False), (b, truth)]
        else:
            condition, a, b = parts
            ways = [(condition, True), (a, truth)], [(condition, False), (b, truth)]
        first = yield self.list_of('all', ways[0])
        second = yield self.list_of('all', ways[1])
        return self.add_form('any', (first, second))

    def list_of(self, kind: str, wanted: Sequence[Tuple[Node, bool]]) -> Task:
        """A task: `all` or `any` of the truths or negations of some nodes."""
        numbers = []
        for node, truth in wanted:
            numbers.append((yield self.form(node, truth)))
        return self.add_form(kind, tuple(numbers))

    def atom(self, truth: bool, kind: str, a: int, b: int, at: int) -> int:
        """The form of a comparison's truth or negation. The term is `a` if `b` is the constant 0,
        else `a + (-b)`."""
        if kind == '=' and not truth:
            return self.add_form('true')
        kind = kind if truth else {'<=': '>=', '>=': '<='}[kind]
        term = a if self.terms.constant(b) == 0 else self.terms.operation('-', at, a, b)
        return self.add_form('atom', self.atoms.setdefault((term, kind), len(self.atoms)))

    # ---- the declared box (phase 6)
    def declared_box(self, nodes: Sequence[Node], bound: Optional[int]) -> Dict[int, Bounds]:
        """The declared interval of each Real axis."""
        reals = [axis for axis, it in enumerate(self.names.axes) if it.sort == 'Real']
        lower: Dict[int, List[Fraction]] = {axis: [] for axis in reals}
        upper: Dict[int, List[Fraction]] = {axis: [] for axis in reals}
        waiting, seen = list(nodes), set()
        while waiting:
            node = waiting.pop()
            if node.kind == 'and' and node not in seen:
                seen.add(node)
                waiting.extend(node.parts)
            elif node.kind == 'comparison':
                kind, a, b, _ = node.parts
                for term, other, sides in (a, b, (lower, upper)), (b, a, (upper, lower)):
                    value = self.terms.constant(other)
                    if self.terms.parts[term][0] == 'variable' and value is not None:
                        axis = self.terms.parts[term][1]
                        for side, of_kind in zip(sides, ('>=', '<=')):
                            side[axis].extend([value] if kind in (of_kind, '=') else [])
        return {axis: self.declared_interval(self.names.axes[axis], lower[axis], upper[axis], bound)
                for axis in reals}

    def declared_interval(self, axis: Axis, lower: Sequence[Fraction], upper: Sequence[Fraction],
                          bound: Optional[int]) -> Bounds:
        if bound is None and not (lower and upper):
            raise ScriptFault('NoBound', axis.at, name_text(axis.name))
        ends = max(lower) if lower else Fraction(-bound), min(upper) if upper else Fraction(bound)
        if any(abs(it) > 2**32 and rounded(it)[0] != it * UNIT for it in ends):
            raise ScriptFault('BoundTooWide', axis.at, name_text(axis.name))
        return ends
