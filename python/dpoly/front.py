"""`dpoly-smt`: a session in SMT-LIB 2.6 on standard input, each command answered at once, for tools that drive a solver by a pipe.

`unsat` is confirmed by `dpoly-check`. `sat` is said only where a point satisfies the assertions exactly, by rational arithmetic.
All else is `unknown`, with `(get-info :reason-unknown)`.
"""
from __future__ import annotations

import argparse
import codecs
import os
import sys
import time
from dataclasses import dataclass, field
from fractions import Fraction
from typing import Callable, Dict, Iterator, List, Optional, Sequence, Set, Tuple, Union

from .convert import level_count, name_in, precision_bits, sort_in
from .cores import core_of, shrunk, used_by
from .ranges import bound_texts, implied_bounds, roots_may_fail
from .smtlib import Code, ConversionError, Declared, Defined, Group, Reader, Scope, Token, Tree, Writer, fault, is_word, label_of, number_of, plain
from .solver import DeltaSat, DpolyError, OutOfTime, ProgramError, Programs, ScriptError, Unknown, Unsat, find_programs, printable, solve_script
from .terms import spelled
from .values import Graph, TooDear, exact_point, text_of_value

LOGICS = ("QF_NRA", "QF_LRA", "QF_NRA_ODE", "ALL")
VERSION = "0.2.0"
Answered = Union[str, None]
"""What a command prints; None where it prints nothing but `success`, if that is asked for."""


class Refusal(Exception):
    """A command that is not carried out; the text says why."""


@dataclass(frozen=True)
class Assertion:
    """An assertion or assumption: as it was written, in the program's language, and for evaluation, as code and as what that
    unfolds to."""

    source: str
    text: str
    code: Code
    graph: Graph
    label: Optional[str] = None


@dataclass(frozen=True)
class Command:
    """A declaration or definition in the program's language, and the name that it gives."""

    name: str
    text: str


@dataclass
class Level:
    """What `push` keeps: how many commands and assertions there were. `lost` counts the commands that were refused since."""

    commands: int = 0
    assertions: int = 0
    lost: int = 0


@dataclass
class Options:
    """How a check is asked."""

    margin_bits: Optional[int] = None
    delta_bits: Optional[int] = None
    least_bits: Optional[int] = None
    budget: Optional[int] = None
    bound: Optional[int] = None
    workers: Union[int, str, None] = None
    seconds: Optional[float] = None
    core_seconds: float = 10.0


@dataclass
class Outcome:
    """What the last check found: `said` is sat, unsat or unknown, `reason` tells of unknown why, `point` is the model, `proof`
    what `dpoly` answered where it is unsat."""

    said: str
    reason: str = ""
    point: Optional[Dict[str, Union[Fraction, bool]]] = None
    proof: Optional[Unsat] = None
    assumed: Tuple[Assertion, ...] = ()
    splits: Optional[int] = None
    seconds: float = 0.0


@dataclass
class Session:
    """The state of a session, and its commands."""

    options: Options = field(default_factory=Options)
    programs: Optional[Programs] = None

    def __post_init__(self) -> None:
        self.print_success = False
        self.settings: Dict[str, str] = {":print-success": "false"}
        self.start()

    def start(self) -> None:
        self.scope = Scope()
        self.writer = Writer(self.scope)
        self.commands: List[Command] = []
        self.assertions: List[Assertion] = []
        self.levels = [Level()]
        self.logic: Optional[str] = None
        self.outcome: Optional[Outcome] = None

    # ---- commands

    def run(self, tree: Tree) -> Answered:
        """Carries out a command. Raises `ConversionError` or `Refusal` where it is refused."""
        name = tree.head if isinstance(tree, Group) else None
        if not isinstance(tree, Group) or name is None:
            raise fault("a command is wanted here", tree)
        counts, made = COMMANDS.get(name, ((), None))
        if made is None:
            return "unsupported"
        if counts and len(tree.items) - 1 not in counts:
            raise fault(f"the command {name} has another form", tree)
        try:
            return made(self, tree)
        except (ConversionError, Refusal, TooDear):
            if name in CHANGES:
                self.levels[-1].lost += 1
            raise

    def set_logic(self, tree: Group) -> Answered:
        name = plain(tree.items[1])
        if self.logic is not None:
            raise fault("the logic is set already", tree)
        if name not in LOGICS:
            raise fault(f"the logic {name} has no counterpart: {', '.join(LOGICS)}", tree)
        self.logic = name
        return None

    def set_option(self, tree: Group) -> Answered:
        if len(tree.items) != 3 or not isinstance(tree.items[1], Token):
            raise fault("set-option has a keyword and a value", tree)
        word, value = tree.items[1].text, tree.items[2]
        if word == ":print-success":
            self.print_success = truth_in(value)
        elif word == ":precision":
            self.options.delta_bits, self.options.margin_bits = precision_bits(number_of(value), tree)
        elif word == ":timeout":
            milliseconds = number_of(value)
            self.options.seconds = float(milliseconds) / 1000 if milliseconds > 0 else None
        elif word.startswith(":dpoly."):
            self.set_own(word[len(":dpoly.") :], value, tree)
        elif word in (":produce-proofs", ":global-declarations") and truth_in(value) or word not in STANDARD_OPTIONS:
            return "unsupported"
        self.settings[word] = plain(value)
        return None

    def set_own(self, name: str, value: Tree, tree: Group) -> None:
        """An option of the program, as `(set-option :dpoly.budget 1000)`."""
        name = name.replace("-", "_")
        if name not in OWN_OPTIONS:
            raise fault(f"there is no option :dpoly.{name.replace('_', '-')}", tree)
        if name == "workers" and is_word([value], "auto"):
            self.options.workers = "auto"
            return
        number = number_of(value)
        if number < 0 or number.denominator != 1 and name not in ("seconds", "core_seconds"):
            raise fault("a whole number is wanted here", value)
        setattr(self.options, name, float(number) if name in ("seconds", "core_seconds") else int(number))

    def declare(self, tree: Group) -> Answered:
        items = list(tree.items[1:])
        if tree.head == "declare-fun":
            parameters = items.pop(1) if len(items) == 3 else tree
            if not isinstance(parameters, Group) or parameters is tree or parameters.items:
                raise fault("a function with arguments has no counterpart", parameters)
        if len(items) != 2:
            raise fault("a declaration has a name and a sort", tree)
        name, sort = name_in(items[0]), sort_in(items[1])
        self.scope.add(Declared(name, sort), tree)
        self.commands.append(Command(name, f"(declare-const {plain(items[0])} {sort})"))
        return self.changed()

    def define(self, tree: Group) -> Answered:
        if tree.head == "define-fun":
            name, listed, sort, body = tree.items[1:]
        else:
            (name, sort, body), listed = tree.items[1:], Group((), tree.line, tree.column)
        if not isinstance(listed, Group) or any(not isinstance(it, Group) or len(it.items) != 2 or not isinstance(it.items[0], Token) for it in listed.items):
            raise fault("a definition has a list of parameters, each with its sort", tree)
        parameters = [(it.items[0], sort_in(it.items[1])) for it in listed.items]  # type: ignore[union-attr]
        written = self.writer.write(body, sort_in(sort), parameters)  # type: ignore[arg-type]
        found = Defined(name_in(name), written.sort, tuple(it for _, it in parameters), written.code)
        self.add_definition(found, f"(define-fun {plain(name)} {plain(listed)} {written.sort} {written.text})", tree)
        return self.changed()

    def add_definition(self, found: Defined, text: str, tree: Tree) -> None:
        self.scope.add(found, tree)
        self.commands.append(Command(found.name, text))

    def assertion(self, tree: Group) -> Answered:
        term, label = label_of(tree.items[1])
        written = self.writer.write(term, "Bool")
        graph = Graph(written.code)
        if label is not None:
            name = name_in(label)
            self.add_definition(Defined(name, "Bool", (), written.code), f"(define-fun {label.text} () Bool {written.text})", label)
        self.assertions.append(Assertion(plain(tree.items[1]), written.text, written.code, graph, label.text if label else None))
        return self.changed()

    def changed(self) -> Answered:
        self.outcome = None
        return None

    def push(self, tree: Group) -> Answered:
        count = level_count(tree)
        self.scope.push(count, tree)
        self.levels += [Level(len(self.commands), len(self.assertions)) for _ in range(count)]
        return self.changed()

    def pop(self, tree: Group) -> Answered:
        count = level_count(tree)
        self.scope.pop(count, tree)
        if count:
            kept = self.levels[-count]
            del self.levels[-count:], self.commands[kept.commands :], self.assertions[kept.assertions :]
        return self.changed()

    def reset(self, tree: Group) -> Answered:
        if tree.head == "reset":
            self.settings, self.print_success = {":print-success": "false"}, False
            self.start()
        else:
            logic = self.logic
            self.start()
            self.logic = logic
        return None

    # ---- checks

    def check(self, tree: Group) -> Answered:
        assumed: List[Assertion] = []
        if tree.head == "check-sat-assuming":
            listed = tree.items[1]
            if not isinstance(listed, Group):
                raise fault("the assumptions are a list", listed)
            for it in listed.items:
                written = self.writer.write(it, "Bool")
                assumed.append(Assertion(plain(it), written.text, written.code, Graph(written.code)))
        self.outcome = self.ask(assumed)
        return self.outcome.said

    def ask(self, assumed: Sequence[Assertion]) -> Outcome:
        """The outcome of a check with these assumptions."""
        begin, asked = time.monotonic(), [*self.assertions, *assumed]
        outcome = self.answered(asked)
        outcome.assumed, outcome.seconds = tuple(assumed), time.monotonic() - begin
        if outcome.said == "sat" and any(it.lost for it in self.levels):
            outcome.said, outcome.reason = "unknown", "incomplete: a command was refused, and the point is of what is left"
        return outcome

    def answered(self, asked: Sequence[Assertion], seconds: Optional[float] = None) -> Outcome:
        """The outcome of these assertions, within so many seconds, if they are given, and those of the option."""
        words = self.words()
        if seconds is not None:
            words["seconds"] = min(seconds, self.options.seconds or seconds)
        try:
            answer = solve_script(self.script(asked), programs=self.programs, **words)  # type: ignore[arg-type]
        except ScriptError as error:
            hint = ": assert bounds of it, or ask for --bound N" if error.name == "NoBound" else ""
            return Outcome("unknown", f"incomplete: {error.name} {error.detail}".rstrip() + hint)
        except OutOfTime:
            return Outcome("unknown", "timeout")
        except ProgramError as error:
            return Outcome("unknown", "memout" if error.status == 6 else f"incomplete: {error}")
        except DpolyError as error:
            return Outcome("unknown", f"incomplete: {error}")
        if isinstance(answer, Unsat):
            if roots_may_fail([it.graph for it in asked]):
                return Outcome("unknown", "incomplete: no point has all arguments of square roots at 0 or above; assert bounds that keep them there")
            return Outcome("unsat", proof=answer)
        if isinstance(answer, Unknown):
            told = f"budget: {answer.budget} boxes were split, {answer.open_boxes} are open" if answer.cause == "budget" else "width: a box of the least width is not decided"
            return Outcome("unknown", told)
        near = {**self.values_of_others(asked), **self.own(answer)}
        found = exact_point([it.graph for it in asked], near)
        if found is not None:
            return Outcome("sat", point=found)
        return Outcome("unknown", f"delta-sat: a point satisfies all within {answer.delta}, and none was found that does so exactly", near)

    def own(self, answer: DeltaSat) -> Dict[str, Union[Fraction, bool]]:
        """The values of the session's constants: the program has some besides, for roots and quotients."""
        return {name: it for name, it in answer.point.items() if isinstance(self.scope.names.get(name), Declared)}

    def values_of_others(self, asked: Sequence[Assertion]) -> Dict[str, Union[Fraction, bool]]:
        """A value for each constant that is not asked of."""
        constants = (it for it in self.scope.names.values() if isinstance(it, Declared))
        return {it.name: Fraction(0) if it.sort == "Real" else False for it in constants}

    def script(self, asked: Sequence[Assertion]) -> str:
        """The script of a check. Constants and definitions that the assertions do not use are left out; bounds that follow from the
        assertions are stated where these state none."""
        used = names_in([it.code for it in asked])
        lines = ["(set-logic QF_NRA)", *(it.text for it in self.commands if it.name in used)]
        reals = [it.name for it in self.scope.names.values() if isinstance(it, Declared) and it.sort == "Real" and it.name in used]
        implied = implied_bounds([it.graph for it in asked], reals)
        lines += [line for name, bounds in implied.items() for line in bound_texts(spelled(name), bounds)]
        return "\n".join([*lines, *(f"(assert {it.text})" for it in asked), "(check-sat)", ""])

    def words(self) -> Dict[str, object]:
        asked = self.options
        return {name: getattr(asked, name) for name in ("margin_bits", "delta_bits", "least_bits", "budget", "bound", "workers", "seconds")}

    # ---- what is asked behind a check

    def last(self, *said: str) -> Outcome:
        if self.outcome is None or self.outcome.said not in said:
            raise Refusal(f"the last command that counts is no check-sat that answered {' or '.join(said)}")
        return self.outcome

    def point(self) -> Dict[str, Union[Fraction, bool]]:
        point = self.last("sat", "unknown").point
        if point is None:
            raise Refusal("there is no model: " + self.last("unknown").reason)
        return point

    def model(self, tree: Group) -> Answered:
        point, lines = self.point(), []
        for it in self.scope.names.values():
            if isinstance(it, Declared):
                lines.append(f"  (define-fun {spelled(it.name)} () {it.sort} {text_of_value(point[it.name])})")
        return "\n".join(["(", *lines, ")"])

    def values(self, tree: Group) -> Answered:
        point, listed, pairs = self.point(), tree.items[1], []
        if not isinstance(listed, Group) or not listed.items:
            raise fault("get-value has a list of terms", tree)
        for it in listed.items:
            value = Graph(self.writer.write(it, None).code).value(point)
            if value is None:
                raise fault("the value of this term is no fraction, or is not defined", it)
            pairs.append(f"({plain(it)} {text_of_value(value)})")
        return f"({' '.join(pairs)})"

    def assignment(self, tree: Group) -> Answered:
        point = self.point()
        values = [(it.label, it.graph.value(point)) for it in self.assertions if it.label]
        return f"({' '.join(f'({label} {text_of_value(value)})' for label, value in values if isinstance(value, bool))})"

    def core(self, tree: Group) -> Answered:
        """The named assertions of a subset that has no point, with all those that have no name."""
        assumed = self.last("unsat").assumed
        named = [it for it in self.assertions if it.label]
        rest = [it for it in self.assertions if not it.label]
        found = self.shrunk(named, [*rest, *assumed])
        return f"({' '.join(str(it.label) for it in found)})"

    def core_of_assumptions(self, tree: Group) -> Answered:
        found = self.shrunk(list(self.last("unsat").assumed), self.assertions)
        return f"({' '.join(it.source for it in found)})"

    def shrunk(self, wanted: List[Assertion], kept: Sequence[Assertion]) -> List[Assertion]:
        """A part of the assertions `wanted` that has no point together with those that are kept: what the cover of the last check
        uses, if that is confirmed, and of these what cannot be left out."""
        def is_unsat(some: Sequence[Assertion], seconds: float) -> bool:
            return self.answered([*kept, *some], seconds).said == "unsat"

        begin, seconds = time.monotonic(), self.options.core_seconds
        fewer = self.used(wanted, seconds / 2)
        if len(fewer) < len(wanted) and is_unsat(fewer, seconds):
            wanted = fewer
        return shrunk(wanted, is_unsat, begin + seconds - time.monotonic())

    def used(self, wanted: List[Assertion], seconds: float) -> List[Assertion]:
        """Those of the assertions that the cover of the last check uses, all of them where that is not known."""
        outcome = self.last("unsat")
        if not wanted or outcome.proof is None or outcome.proof.question is None:
            return wanted
        question, asked = outcome.proof.question, [*self.assertions, *outcome.assumed]
        used = used_by(question.script, outcome.proof.certificate, question.bound, seconds)
        if used is None:
            return wanted
        kept = {at for at, it in enumerate(asked) if not any(it is other for other in wanted)}
        found = core_of(used, [it.graph for it in asked], kept)
        return [it for at, it in enumerate(asked) if at in found - kept]

    def asserted(self, tree: Group) -> Answered:
        return "\n".join(["(" + (self.assertions[0].source if self.assertions else ""), *(" " + it.source for it in self.assertions[1:])]) + ")"

    def info(self, tree: Group) -> Answered:
        word = tree.items[1].text if isinstance(tree.items[1], Token) else ""
        if word == ":reason-unknown":
            return f"(:reason-unknown {quoted(self.last('unknown').reason)})"
        if word == ":all-statistics":
            seconds = self.outcome.seconds if self.outcome else 0.0
            return f"(:time {seconds:.3f})"
        if word == ":assertion-stack-levels":
            return f"(:assertion-stack-levels {len(self.levels) - 1})"
        return f"({word} {INFO[word]})" if word in INFO else "unsupported"

    def option(self, tree: Group) -> Answered:
        word = tree.items[1].text if isinstance(tree.items[1], Token) else ""
        return self.settings.get(word, "unsupported")

    def echo(self, tree: Group) -> Answered:
        if not isinstance(tree.items[1], Token) or tree.items[1].kind != "string":
            raise fault("echo has a string", tree)
        return tree.items[1].text

    def nothing(self, tree: Group) -> Answered:
        return None


INFO = {":name": '"dpoly"', ":version": f'"{VERSION}"', ":authors": '"the authors of dpoly"', ":error-behavior": "continued-execution"}
STANDARD_OPTIONS = frozenset(
    ":diagnostic-output-channel :global-declarations :interactive-mode :produce-assertions :produce-assignments :produce-models "
    ":produce-proofs :produce-unsat-assumptions :produce-unsat-cores :random-seed :regular-output-channel :reproducible-resource-limit "
    ":verbosity".split()
)
OWN_OPTIONS = frozenset("margin_bits delta_bits least_bits budget bound workers seconds core_seconds".split())
CHANGES = frozenset("declare-fun declare-const define-fun define-const assert".split())
# the numbers of arguments (none: any), and the method
COMMANDS: Dict[str, Tuple[Tuple[int, ...], Callable[[Session, Group], Answered]]] = {
    "set-logic": ((1,), Session.set_logic),
    "set-option": ((), Session.set_option),
    "set-info": ((), Session.nothing),
    "declare-fun": ((3,), Session.declare),
    "declare-const": ((2,), Session.declare),
    "define-fun": ((4,), Session.define),
    "define-const": ((3,), Session.define),
    "assert": ((1,), Session.assertion),
    "push": ((0, 1), Session.push),
    "pop": ((0, 1), Session.pop),
    "reset": ((0,), Session.reset),
    "reset-assertions": ((0,), Session.reset),
    "check-sat": ((0,), Session.check),
    "check-sat-assuming": ((1,), Session.check),
    "get-model": ((0,), Session.model),
    "get-value": ((1,), Session.values),
    "get-assignment": ((0,), Session.assignment),
    "get-unsat-core": ((0,), Session.core),
    "get-unsat-assumptions": ((0,), Session.core_of_assumptions),
    "get-assertions": ((0,), Session.asserted),
    "get-info": ((1,), Session.info),
    "get-option": ((1,), Session.option),
    "echo": ((1,), Session.echo),
}


def names_in(codes: Sequence[Code]) -> Set[str]:
    """The constants and definitions that expressions name, and those that the definitions name."""
    found: Set[str] = set()
    waiting = list(codes)
    while waiting:
        for word, *rest in waiting.pop().instructions:
            if word == "constant":
                found.add(rest[0])  # type: ignore[arg-type]
            elif word == "call" and rest[0].name not in found:  # type: ignore[attr-defined]
                found.add(rest[0].name)  # type: ignore[attr-defined]
                waiting.append(rest[0].code)  # type: ignore[attr-defined]
    return found


def quoted(text: str) -> str:
    return '"' + printable(text).replace('"', '""') + '"'


def truth_in(tree: Tree) -> bool:
    if not isinstance(tree, Token) or tree.text not in ("true", "false"):
        raise fault("true or false is wanted here", tree)
    return tree.text == "true"


# ---------------------------------------------------------------- The pipe
def answer_to(session: Session, tree: Tree) -> str:
    """What a command prints, its line feed included; nothing, where it prints nothing."""
    try:
        said = session.run(tree)
    except ConversionError as error:
        return f"(error {quoted(f'line {error.line} column {error.column}: {error.what}')})\n"
    except (Refusal, TooDear) as error:
        return f"(error {quoted(f'line {tree.line} column {tree.column}: {error}')})\n"
    if said is None:
        return "success\n" if session.print_success else ""
    return said + "\n"


def serve(session: Session, pieces: Iterator[Tuple[str, bool]], say: Callable[[str], None]) -> bool:
    """Answers the commands of a text that comes in pieces, each with whether it is the last, up to `(exit)`; whether none was
    answered by an error."""
    reader, is_clean = Reader(), True
    for text, is_last in pieces:
        is_read = False
        while not is_read:
            try:
                for tree in reader.feed(text, is_last):
                    if isinstance(tree, Group) and tree.head == "exit" and len(tree.items) == 1:
                        say("success\n" if session.print_success else "")
                        return is_clean
                    said = answer_to(session, tree)
                    is_clean = is_clean and not said.startswith("(error ")
                    say(said)
                is_read = True
            except ConversionError as error:
                is_clean, text = False, ""
                session.levels[-1].lost += 1
                say(f"(error {quoted(f'line {error.line} column {error.column}: {error.what}')})\n")
                reader.skip_fault()
    return is_clean


def pieces_of(source: int) -> Iterator[Tuple[str, bool]]:
    """The text of a file or pipe, as it comes."""
    decoder = codecs.getincrementaldecoder("utf-8")("surrogateescape")
    while True:
        read = os.read(source, 1 << 16)
        yield decoder.decode(read, final=not read), not read
        if not read:
            return


def say(text: str) -> None:
    """Writes to standard output at once."""
    if text:
        sys.stdout.buffer.write(text.encode("utf-8", "surrogateescape"))
        sys.stdout.buffer.flush()


def arguments() -> argparse.ArgumentParser:
    parser = argparse.ArgumentParser(
        prog="dpoly-smt",
        description="Answers SMT-LIB 2.6 command by command: unsat (confirmed by dpoly-check), sat (a point satisfies the script exactly), or unknown, with (get-info :reason-unknown).",
        epilog="Each option is one of a session too: (set-option :dpoly.budget 1000).",
        allow_abbrev=False,
    )
    parser.add_argument("file", metavar="FILE", nargs="?", default="-", help="the script; standard input where it is left out, or -")
    parser.add_argument("-in", "-smt2", dest="ignored", action="store_true", help="taken, as z3 takes them; nothing changes")
    parser.add_argument("--bound", type=int, metavar="N", help="gives -N or N to each missing bound: unsat says nothing beyond these")
    parser.add_argument("--margin-bits", type=int, metavar="M", help="the margin of unsat, 2^-M (20)")
    parser.add_argument("--delta-bits", type=int, metavar="D", help="the delta of a search for a point, 2^-D (10)")
    parser.add_argument("--least-bits", type=int, metavar="W", help="the least width of a box, 2^-W (20)")
    parser.add_argument("--budget", type=int, metavar="N", help="splits of a check (65536)")
    parser.add_argument("--workers", type=workers_in, metavar="K", help="threads of a check (1), or auto")
    parser.add_argument("--seconds", type=float, metavar="S", help="of a check; then unknown")
    parser.add_argument("--core-seconds", type=float, metavar="S", default=10.0, help="of making a core smaller (10)")
    return parser


def workers_in(word: str) -> Union[int, str]:
    return word if word == "auto" else int(word)


def beside(launcher: str) -> Optional[Programs]:
    """The programs in the folder of the launcher, where they are there and `DPOLY` names no others."""
    folder = os.path.dirname(os.path.abspath(launcher))
    found = [os.path.join(folder, it) for it in ("dpoly", "dpoly-check")]
    return Programs(*found) if not os.environ.get("DPOLY") and all(os.access(it, os.X_OK) for it in found) else None


def main(words: Optional[Sequence[str]] = None) -> int:
    asked = arguments().parse_args(words)
    names = ("margin_bits", "delta_bits", "least_bits", "budget", "bound", "workers", "seconds", "core_seconds")
    session = Session(Options(**{it: getattr(asked, it) for it in names}), beside(sys.argv[0]))
    try:
        session.programs = session.programs or find_programs()
        source = 0 if asked.file == "-" else os.open(asked.file, os.O_RDONLY)
        return 0 if serve(session, pieces_of(source), say) else 1
    except ProgramError as error:
        print(f"dpoly-smt: {error}", file=sys.stderr)
        return 6
    except OSError as error:
        if isinstance(error, BrokenPipeError):
            os.dup2(os.open(os.devnull, os.O_WRONLY), 1)  # (nobody reads: nothing is to be said at the end)
            return 5
        print(f"dpoly-smt: {asked.file}: {error.strerror}", file=sys.stderr)
        return 4
    except KeyboardInterrupt:
        return 130


if __name__ == "__main__":
    sys.exit(main())
