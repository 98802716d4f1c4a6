"""SMT-LIB 2.6 as text: tokens, expressions that come in pieces, names by scope and sorts. Nothing here recurses on the depth of
a script."""
from __future__ import annotations

import re
from dataclasses import dataclass, field
from fractions import Fraction
from typing import Dict, Generator, Iterator, List, Optional, Sequence, Tuple, Union

from .terms import LARGEST, RESERVED, Constant

THEORIES = frozenset("true false not => and or xor = distinct ite + - * / <= < >= >".split())
"""The symbols that no script may declare."""
SORTS = ("Real", "Bool")
MOST_LEVELS = 1024
MOST_POWER = 1000
"""The largest exponent that is written out."""


class ConversionError(ValueError):
    """What a script says has no counterpart in the program's language, or is no SMT-LIB. `line` and `column` count from 1."""

    def __init__(self, what: str, line: int, column: int) -> None:
        self.what, self.line, self.column = what, line, column
        super().__init__(f"{line}:{column}: {what}")


# ---------------------------------------------------------------- Tokens and expressions
WITHIN = r"[A-Za-z0-9~!@$%^&*_\-+=<>.?/]"
TOKENS = re.compile(
    rf"""(?P<space>(?:[ \t\r\n]+|;[^\n\r]*)+)
    |(?P<open>\()|(?P<close>\))|(?P<bracket>[\[\],])
    |(?P<string>"[^"]*(?:""[^"]*)*"(?!"))
    |(?P<quoted>\|[^|\\]*\|)
    |(?P<keyword>:{WITHIN}+)
    |(?P<number>[0-9]+(?:\.[0-9]*)?(?:[eE][+-]?[0-9]+)?(?!{WITHIN}))
    |(?P<symbol>(?![0-9]){WITHIN}+)""",
    re.VERBOSE,
)
SIGNED = re.compile(r"([+-]?)([0-9]+\.?[0-9]*|\.[0-9]+)(?:[eE]([+-]?[0-9]+))?")


@dataclass(frozen=True)
class Token:
    """A token with its place. The kind is symbol, quoted, number, keyword, string or bracket."""

    kind: str
    text: str
    line: int
    column: int

    @property
    def symbol(self) -> Optional[str]:
        """The symbol that this is, without bars; None of anything else, and of a reserved word."""
        if self.kind == "quoted":
            return self.text[1:-1]
        return self.text if self.kind == "symbol" and self.text not in RESERVED else None


class Group:
    """A list in parentheses, with the place of the opening one."""

    __slots__ = ("items", "line", "column")

    def __init__(self, items: Sequence["Tree"], line: int, column: int) -> None:
        self.items, self.line, self.column = tuple(items), line, column

    @property
    def head(self) -> Optional[str]:
        """The word that the list begins with: a symbol without bars, or a reserved word."""
        first = self.items[0] if self.items else None
        if not isinstance(first, Token) or first.kind not in ("symbol", "quoted"):
            return None
        return first.symbol or first.text


Tree = Union[Token, Group]


def fault(what: str, tree: Tree) -> ConversionError:
    return ConversionError(what, tree.line, tree.column)


class Reader:
    """The expressions of a text that comes in pieces, each as soon as its last byte is there."""

    def __init__(self) -> None:
        self.rest, self.line, self.column = "", 1, 1
        self.stack: List[Tuple[Token, List[Tree]]] = []

    def feed(self, text: str, is_last: bool = False) -> Iterator[Tree]:
        """The expressions that end in this piece. Raises `ConversionError` for what is no token or no expression."""
        self.rest, at = self.rest + text, 0
        try:
            while at < len(self.rest):
                found = TOKENS.match(self.rest, at)
                if found is None:
                    if not is_last and self.may_go_on(at):
                        return
                    raise ConversionError(self.no_token(at), self.line, self.column)
                if found.end() == len(self.rest) and not is_last and found.lastgroup not in ("open", "close", "bracket", "quoted"):
                    return
                at = found.end()
                token = Token(str(found.lastgroup), found[0], self.line, self.column)
                self.move(found[0])
                if token.kind != "space":
                    yield from self.take(token)
            if is_last and self.stack:
                raise fault("a parenthesis is not closed", self.stack[-1][0])
        finally:
            self.rest = self.rest[at:]

    def may_go_on(self, at: int) -> bool:
        """Whether what begins here can become a token by what comes later."""
        return self.rest[at] == '"' or self.rest[at] == "|" and "\\" not in self.rest[at:]

    def no_token(self, at: int) -> str:
        what = {'"': "a string is not closed", "|": "a quoted symbol is not closed, or holds a backslash"}
        return what.get(self.rest[at], f"{self.rest[at]!r} begins no token of SMT-LIB")

    def move(self, text: str) -> None:
        """Counts lines and columns."""
        lines = text.count("\n")
        self.line += lines
        self.column = len(text) - text.rindex("\n") if lines else self.column + len(text)

    def take(self, token: Token) -> Iterator[Tree]:
        tree: Tree = token
        if token.kind == "open":
            self.stack.append((token, []))
            return
        if token.kind == "close":
            if not self.stack:
                raise fault("a parenthesis closes nothing", token)
            opened, items = self.stack.pop()
            tree = Group(items, opened.line, opened.column)
        if self.stack:
            self.stack[-1][1].append(tree)
        else:
            yield tree

    def skip_fault(self) -> None:
        """Goes on behind a fault: what is open is dropped, and the rest of a line that begins with no token."""
        self.stack = []
        if TOKENS.match(self.rest) is None:
            end = self.rest.find("\n")
            dropped = self.rest if end < 0 else self.rest[: end + 1]
            self.move(dropped)
            self.rest = self.rest[len(dropped) :]


def trees(text: str) -> Iterator[Tree]:
    """The expressions of a text, one after the other. Brackets stay tokens."""
    return Reader().feed(text, is_last=True)


def plain(root: Tree) -> str:
    """The expression as text, as it is."""
    pieces: List[str] = []
    left: List[Union[Tree, str]] = [root]
    while left:
        it = left.pop()
        if isinstance(it, Group):
            pieces.append("(")
            left.append(")")
            for number, item in enumerate(reversed(it.items)):
                left += [" ", item] if number else [item]
        else:
            pieces.append(it if isinstance(it, str) else it.text)
    return "".join(pieces)


def is_word(items: Sequence[Tree], word: str) -> bool:
    return len(items) == 1 and isinstance(items[0], Token) and items[0].text == word


def number_of(tree: Tree) -> Fraction:
    """The number that a constant expression of `-`, `/` and literals stands for. Raises `ConversionError` for anything else."""
    sign, numbers, at = 1, [], tree
    while isinstance(at, Group) and len(at.items) == 2 and is_word(at.items[:1], "-"):
        sign, at = -sign, at.items[1]
    if isinstance(at, Group) and len(at.items) == 3 and is_word(at.items[:1], "/"):
        numbers = [signed_number(it) for it in at.items[1:]]
    else:
        numbers = [signed_number(at), Fraction(1)]
    if None in numbers or not numbers[1]:
        raise fault("a number is wanted here", tree)
    return sign * numbers[0] / numbers[1]  # type: ignore[operator]


def signed_number(tree: Tree) -> Optional[Fraction]:
    """The number of a literal, or of a literal under one minus; None of anything else."""
    if isinstance(tree, Group):
        if len(tree.items) != 2 or not is_word(tree.items[:1], "-") or isinstance(tree.items[1], Group):
            return None
        value = signed_number(tree.items[1])
        return None if value is None else -value
    return literal(tree)


def literal(token: Token) -> Optional[Fraction]:
    """The number that a token is, with a sign before it and an exponent behind it where they are there; None where it is none.
    Raises `ConversionError` where its numerator or denominator is above 10^36."""
    found = SIGNED.fullmatch(token.text) if token.kind in ("number", "symbol") else None
    if not found:
        return None
    whole, _, part = found[2].partition(".")
    part = part.rstrip("0")
    digits = (whole + part).lstrip("0")
    power = (found[3] or "0").lstrip("+-").lstrip("0") or "0"
    if not digits:
        return Fraction(0)
    if len(digits) > 120 or len(power) > 3:
        raise fault("the number is too large or too small: numerator and denominator are at most 10^36", token)
    exponent = int(power) * (-1 if found[3] and found[3].startswith("-") else 1) - len(part)
    value = int(digits) * Fraction(10) ** exponent * (-1 if found[1] == "-" else 1)
    if max(abs(value.numerator), value.denominator) > LARGEST:
        raise fault("the number is too large or too small: numerator and denominator are at most 10^36", token)
    return value


def literal_text(token: Token, value: Fraction) -> str:
    """The number of a token as the program reads it: as it stands, or as a fraction."""
    found = re.fullmatch(r"(0|[1-9][0-9]*)(?:\.([0-9]*))?", token.text)
    digits = (found[1] + (found[2] or "")).lstrip("0") if found else ""
    if found and len(found[2] or "") <= 36 and (len(digits) <= 36 or digits == "1" + "0" * 36):
        return token.text
    return Constant(value).symbol


# ---------------------------------------------------------------- Names
@dataclass(frozen=True)
class Local:
    """A name of a `let` or a parameter: its sort, and the slot that has its value."""

    sort: str
    slot: int


@dataclass(frozen=True)
class Declared:
    """A constant."""

    name: str
    sort: str


Instruction = Tuple[object, ...]


@dataclass
class Code:
    """An expression for evaluation (`values.py`), operands before what is made of them: `("number", f)`, `("truth", b)`,
    `("constant", name)`, `("slot", i)`, `("store", i)`, `("call", definition)` and `("apply", operator, count)`."""

    instructions: List[Instruction] = field(default_factory=list)
    slots: int = 0


@dataclass(frozen=True)
class Defined:
    """A definition: its parameters' sorts, and its body, whose first slots are the parameters."""

    name: str
    sort: str
    parameters: Tuple[str, ...]
    code: Code


class Scope:
    """The top-level names in force, with the levels that `push` opened."""

    def __init__(self) -> None:
        self.names: Dict[str, Union[Declared, Defined]] = {}
        self.levels: List[int] = []
        # whether `sqrt` was used as the square root, and whether it was declared or defined, at any time
        self.uses_root = self.has_own_root = False

    def add(self, entry: Union[Declared, Defined], tree: Tree) -> None:
        if entry.name in THEORIES:
            raise fault(f"{entry.name} is a symbol of SMT-LIB's theories, and no name of a script's own", tree)
        if entry.name in self.names:
            raise fault(f"{entry.name} is declared or defined already", tree)
        if entry.name == "sqrt":
            self.has_own_root = True
            self.check_root(tree)
        self.names[entry.name] = entry

    def use_root(self, tree: Tree) -> None:
        """Uses `sqrt` as the square root."""
        self.uses_root = True
        self.check_root(tree)

    def check_root(self, tree: Tree) -> None:
        """The program knows `sqrt` for a whole script or not at all."""
        if self.uses_root and self.has_own_root:
            raise fault("a square root cannot be written in a script that has a name sqrt of its own", tree)

    def push(self, count: int, tree: Tree) -> None:
        if len(self.levels) + count > MOST_LEVELS:
            raise fault(f"at most {MOST_LEVELS} levels are open at once", tree)
        self.levels += [len(self.names)] * count

    def pop(self, count: int, tree: Tree) -> None:
        if count > len(self.levels):
            raise fault(f"{len(self.levels)} levels are open, and no more can be closed", tree)
        if count:
            kept = self.levels[-count]
            del self.levels[-count:]
            for name in list(self.names)[kept:]:
                del self.names[name]

    def reset(self) -> None:
        self.names, self.levels = {}, []


# ---------------------------------------------------------------- Terms
COMPARISONS = frozenset("<= < >= >".split())
ELSEWHERE = frozenset(
    "sin cos tan asin acos atan atan2 arcsin arccos arctan sinh cosh tanh exp log ln integral forall_t root-obj to_real to_int is_int "
    "div mod select store pi real.pi connect".split()
)
"""Operators of other languages that this one has not."""
POWERS, CHOICES = ("^", "pow"), {"abs": 1, "min": 2, "max": 2}


def sort_of(name: str, sorts: List[str]) -> Optional[str]:
    """The sort of an operation of the theories on arguments of these sorts; None where they do not fit."""
    count, bools, reals = len(sorts), set(sorts) == {"Bool"}, set(sorts) == {"Real"}
    if name in ("true", "false"):
        return None
    if name == "ite":
        return sorts[1] if count == 3 and sorts[0] == "Bool" and sorts[1] == sorts[2] else None
    if name in ("+", "-", "*", "/"):
        return "Real" if reals and (name != "/" or count > 1) else None
    fits = bools if name in ("and", "or", "not", "=>", "xor") else reals if name in COMPARISONS else bools or reals
    return "Bool" if fits and (name in ("and", "or") or (count == 1 if name == "not" else count > 1)) else None


@dataclass
class Written:
    """An expression in the program's language, its sort, and the same for evaluation."""

    text: str
    sort: str
    code: Code


class Functions:
    """What writes functions that the program has not. `names` are theirs; `text` writes one of an argument that is bound to a name
    and is the last operand of the code."""

    names: frozenset = frozenset()

    def text(self, name: str, bound: str, code: Code, tree: Tree) -> str:
        raise NotImplementedError


Task = Generator["Task", Optional[str], str]


def run(task: Task) -> str:
    """The result of a task, a generator that yields tasks and is sent their results: recursion with a stack of its own."""
    tasks, result = [task], None
    while tasks:
        try:
            tasks.append(tasks[-1].send(result))
            result = None
        except StopIteration as done:
            tasks.pop()
            result = done.value
    return str(result)


class Writer:
    """Writes expressions in the program's language: whole powers as products of named squares, `abs`, `min` and `max` as choices,
    other literals as fractions. A name is what the innermost `let` or parameter, else the script's own declaration or definition
    says; only a name that none of them has is an operator of the other language."""

    def __init__(self, scope: Scope, labels: Optional[Dict[str, Tree]] = None, functions: Optional["Functions"] = None) -> None:
        self.scope, self.labels, self.functions = scope, labels, functions
        self.local: Dict[str, List[Local]] = {}
        self.pieces: List[str] = []
        self.code = Code()
        self.fresh_names = self.parameters = 0

    def write(self, root: Tree, sort: Optional[str], parameters: Sequence[Tuple[Token, str]] = ()) -> Written:
        """The expression. Raises `ConversionError` where it has no counterpart, or has not the sort that is wanted."""
        self.pieces, self.code, self.local, self.parameters = [], Code(), {}, len(parameters)
        self.bind([(name, of_sort) for name, of_sort in parameters])
        found = run(self.expression(root))
        if sort is not None and found != sort:
            raise fault(f"an expression of the sort {sort} is wanted here, and not of {found}", root)
        return Written("".join(self.pieces), found, self.code)

    def bind(self, pairs: Sequence[Tuple[Token, str]]) -> List[int]:
        """Makes local names known, and answers their slots."""
        slots, names = [], set()
        for token, sort in pairs:
            name = token.symbol
            if name is None or name in THEORIES or name in names:
                raise fault(f"{token.text} cannot be a name here", token)
            names.add(name)
            slots.append(self.code.slots)
            self.local.setdefault(name, []).append(Local(sort, self.code.slots))
            self.code.slots += 1
        return slots

    def put(self, *instruction: object) -> None:
        self.code.instructions.append(instruction)

    def expression(self, tree: Tree) -> Task:
        """A task: writes the expression, and answers its sort."""
        if isinstance(tree, Token):
            return self.leaf(tree)
        head = tree.items[0] if tree.items else None
        if not isinstance(head, Token):
            raise fault("an operator is wanted here", tree)
        if head.text == "let":
            return (yield self.binding(tree))
        if head.text == "!":
            return (yield self.annotated(tree))
        name = head.symbol
        if name is None:
            raise fault(f"{head.text} has no counterpart", head)
        if self.local.get(name):
            raise fault(f"{name} is a local name, and takes no arguments", tree)
        known = self.scope.names.get(name)
        if known is not None:
            return (yield self.call(tree, head, known))
        if name in POWERS:
            return (yield self.power(tree))
        if name in CHOICES:
            return (yield self.choice(name, tree))
        if self.functions is not None and name in self.functions.names:
            return (yield self.enclosed(tree, name))
        if name not in THEORIES and name != "sqrt":
            raise self.unknown(name, head)
        return (yield self.operation(name, tree, head))

    def unknown(self, name: str, token: Token) -> ConversionError:
        if name in ELSEWHERE:
            return fault(f"{name} has no counterpart", token)
        return fault(f"{name} is not declared", token)

    def is_known(self, tree: Tree) -> bool:
        """Whether this is a name that the script has: `+2` may be one."""
        name = tree.symbol if isinstance(tree, Token) else None
        return name is not None and (bool(self.local.get(name)) or name in self.scope.names)

    def leaf(self, token: Token) -> str:
        name = token.symbol
        local = self.local.get(name) if name is not None else None
        known = self.scope.names.get(name) if name is not None else None
        if local:
            self.put("slot", local[-1].slot)
            sort = local[-1].sort
        elif isinstance(known, Declared):
            self.put("constant", known.name)
            sort = known.sort
        elif isinstance(known, Defined):
            if known.parameters:
                raise fault(f"{name} is a function, and has no arguments here", token)
            self.put("call", known)
            sort = known.sort
        elif name in ("true", "false"):
            self.put("truth", name == "true")
            sort = "Bool"
        else:
            value = literal(token) if token.kind in ("number", "symbol") else None
            if value is None:
                raise self.unknown(name, token) if name is not None else fault(f"{token.text} has no place in a term", token)
            self.put("number", value)
            self.pieces.append(literal_text(token, value))
            return "Real"
        self.pieces.append(token.text)
        return sort

    def arguments(self, items: Sequence[Tree]) -> Generator[Task, Optional[str], List[str]]:
        sorts = []
        for it in items:
            self.pieces.append(" ")
            sorts.append(str((yield self.expression(it))))
        return sorts

    def call(self, tree: Group, head: Token, known: Union[Declared, Defined]) -> Task:
        """A call of a definition of the script."""
        self.pieces.append("(" + head.text)
        sorts = yield from self.arguments(tree.items[1:])
        wanted = list(known.parameters) if isinstance(known, Defined) else []
        if not sorts or sorts != wanted:
            raise fault(f"{known.name} takes {' '.join(wanted) or 'no arguments'}, and not {' '.join(sorts) or 'none'}", tree)
        self.pieces.append(")")
        self.put("call", known)
        return known.sort

    def operation(self, name: str, tree: Group, head: Token) -> Task:
        """An operator of the program's language."""
        self.pieces.append("(" + head.text)
        sorts = yield from self.arguments(tree.items[1:])
        if name == "sqrt":
            self.scope.use_root(head)
            found: Optional[str] = "Real" if sorts == ["Real"] else None
        else:
            found = sort_of(name, sorts)
        if found is None:
            raise fault(f"{name} does not take {' '.join(sorts) or 'no arguments'}", tree)
        self.pieces.append(")")
        self.put("apply", name, len(sorts))
        return found

    def binding(self, tree: Group) -> Task:
        pairs = tree.items[1] if len(tree.items) == 3 else None
        inner = pairs.items if isinstance(pairs, Group) else ()
        if not inner or any(not isinstance(it, Group) or len(it.items) != 2 or not isinstance(it.items[0], Token) for it in inner):
            raise fault("a let has bindings and a body", tree)
        bound: List[Tuple[Token, str]] = []
        self.pieces.append("(let (")
        for number, it in enumerate(inner):
            name, value = it.items  # type: ignore[union-attr]
            self.pieces.append(f"{' ' if number else ''}({name.text} ")
            bound.append((name, str((yield self.expression(value)))))
            self.pieces.append(")")
        self.pieces.append(") ")
        for slot in reversed(self.bind(bound)):
            self.put("store", slot)
        sort = yield self.expression(tree.items[2])
        for name, _ in bound:
            self.local[str(name.symbol)].pop()
        self.pieces.append(")")
        return str(sort)

    def annotated(self, tree: Group) -> Task:
        """An annotated term. A label that the script uses elsewhere is to be the name of a whole assertion (`label_of`)."""
        if len(tree.items) < 2:
            raise fault("an annotation has a term", tree)
        for word, beside in zip(tree.items[2:], tree.items[3:]):
            if self.labels is not None and is_word([word], ":named") and isinstance(beside, Token) and beside.symbol in self.labels:
                raise fault(f"{beside.text} names a part of an assertion, and is used as a name: define it by a define-fun", beside)
        return (yield self.expression(tree.items[1]))

    def fresh(self) -> str:
        """A name that nothing has in this place."""
        while True:
            self.fresh_names += 1
            name = f"power{self.fresh_names}"
            if not self.local.get(name) and name not in self.scope.names:
                return name

    def power(self, tree: Group) -> Task:
        """A whole power: `(^ x 5)` is x times the square of the square of x, each square named; `(^ t 0.5)` is a square root."""
        if len(tree.items) != 3:
            raise fault("a power has a base and an exponent", tree)
        try:
            exponent = Fraction(-1) if self.is_known(tree.items[2]) else number_of(tree.items[2])
        except ConversionError:
            exponent = Fraction(-1)
        if exponent == Fraction(1, 2):
            return (yield self.root(tree))
        if exponent.denominator != 1 or not 0 <= exponent <= MOST_POWER:
            raise fault(f"an exponent has to be 0.5 or a whole number from 0 to {MOST_POWER}", tree.items[2])
        is_leaf, begin = isinstance(tree.items[1], Token), len(self.pieces)
        base = "" if is_leaf or exponent == 1 else self.fresh()
        self.pieces.append(f"(let (({base} " if base else "")
        sort = yield self.expression(tree.items[1])
        if sort != "Real":
            raise fault("a power has a base of the sort Real", tree)
        self.put("power", int(exponent))
        if base:
            self.pieces.append(f")) {self.power_text(base, int(exponent))})")
        elif exponent != 1:
            self.pieces[begin:] = [self.power_text("".join(self.pieces[begin:]), int(exponent))]
        return "Real"

    def power_text(self, base: str, exponent: int) -> str:
        """A power of a symbol or literal."""
        if exponent == 0:
            return "1"
        opened, value = [], base
        for bit in bin(exponent)[3:]:
            if value != base:
                name = self.fresh()
                opened.append(f"(let (({name} {value})) ")
                value = name
            value = f"(* {value} {value})"
            if bit == "1":
                value = f"(* {value} {base})"
        return "".join(opened) + value + ")" * len(opened)

    def root(self, tree: Group) -> Task:
        if self.local.get("sqrt"):
            raise fault("this power is a square root, and sqrt is a local name here", tree)
        self.scope.use_root(tree)
        self.pieces.append("(sqrt ")
        sort = yield self.expression(tree.items[1])
        if sort != "Real":
            raise fault("a power has a base of the sort Real", tree)
        self.pieces.append(")")
        self.put("apply", "sqrt", 1)
        return "Real"

    def enclosed(self, tree: Group, name: str) -> Task:
        """A function as a polynomial of its argument, by `functions`."""
        if len(tree.items) != 2:
            raise fault(f"{name} takes one argument", tree)
        bound = self.fresh()
        self.pieces.append(f"(let (({bound} ")
        sort = yield self.expression(tree.items[1])
        if sort != "Real":
            raise fault(f"{name} takes an argument of the sort Real", tree)
        if self.parameters:
            raise fault(f"{name} stands in a function with parameters: write what the function stands for instead", tree)
        self.pieces.append(f")) {self.functions.text(name, bound, self.code, tree)})")  # type: ignore[union-attr]
        self.put("apply", name, 1)
        return "Real"

    def choice(self, name: str, tree: Group) -> Task:
        """`abs`, `min` or `max` as an `ite` over named arguments."""
        if len(tree.items) - 1 != CHOICES[name]:
            raise fault(f"{name} has another number of arguments", tree)
        names = [self.fresh() for _ in tree.items[1:]]
        self.pieces.append("(let (")
        for number, (bound, it) in enumerate(zip(names, tree.items[1:])):
            self.pieces.append(f"{' ' if number else ''}({bound} ")
            sort = yield self.expression(it)
            if sort != "Real":
                raise fault(f"{name} takes arguments of the sort Real", tree)
            self.pieces.append(")")
        first, last = names[0], names[-1]
        written = {"abs": f"(ite (>= {first} 0) {first} (- {first}))", "min": f"(ite (<= {first} {last}) {first} {last})"}
        written["max"] = f"(ite (>= {first} {last}) {first} {last})"
        self.pieces.append(f") {written[name]})")
        self.put("apply", name, len(names))
        return "Real"


def label_of(tree: Tree) -> Tuple[Tree, Optional[Token]]:
    """The term of an assertion, and the label that it has as a whole: `(! t :named n)`."""
    if isinstance(tree, Group) and len(tree.items) >= 2 and is_word(tree.items[:1], "!"):
        for word, beside in zip(tree.items[2:], tree.items[3:]):
            if is_word([word], ":named") and isinstance(beside, Token) and beside.symbol is not None:
                return tree.items[1], beside
    return tree, None
