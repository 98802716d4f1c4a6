"""Runs of the programs `dpoly` and `dpoly-check`, and what they answer."""
from __future__ import annotations

import os
import re
import shutil
import subprocess
import tempfile
from dataclasses import dataclass, field, replace
from fractions import Fraction
from typing import Dict, List, Optional, Sequence, Set, Tuple, Union

from .script import names_of, script_of

Value = Union[Fraction, bool]
Box = Dict[str, Union[Tuple[Fraction, Fraction], bool]]


class DpolyError(Exception):
    """What went wrong in a call of this package."""


class ScriptError(DpolyError):
    """The script was refused. `number`, `name` and `detail` are those of the fault, `line` and `column` its place (columns
    count bytes), `source` the text of that line."""

    def __init__(self, number: int, name: str, detail: str, line: int, column: int, source: str) -> None:
        self.number, self.name, self.detail, self.line, self.column, self.source = number, name, detail, line, column, source
        shown = printable(source)
        what = f"{name} {printable(detail)}" if detail else name
        place = f" at {line}:{column}: {shown}" if line else ""
        super().__init__(f"script fault {number} {what}{place}")


class CertificateError(DpolyError):
    """The checker did not confirm an answer: `answer` is what it said."""

    def __init__(self, answer: str) -> None:
        self.answer = answer
        super().__init__(f"the certificate is not confirmed: {printable(answer)}")


class UsageError(DpolyError):
    """The program refused its options; the text says which."""


class ProgramError(DpolyError):
    """The program could not read or write a file (status 4 or 5), ran out of memory (6), took longer than `seconds`, is not
    there, or ended otherwise than it can. `status` is its exit status, if it had one."""

    def __init__(self, text: str, status: Optional[int] = None) -> None:
        self.status = status
        super().__init__(text)


class OutOfTime(ProgramError):
    """A program took longer than `seconds`."""


@dataclass(frozen=True)
class Question:
    """What was asked: the script, and the bound that was given to what has none."""

    script: bytes
    bound: Optional[int] = None


@dataclass(frozen=True)
class Unsat:
    """No point within the bounds satisfies the question, even with each comparison loosened by `margin`. `is_confirmed`:
    whether the checker confirmed the certificate."""

    margin: Fraction
    certificate: bytes = field(repr=False)
    is_confirmed: bool
    question: Optional[Question] = field(default=None, repr=False, compare=False)


@dataclass(frozen=True)
class DeltaSat:
    """`point` satisfies the question with each comparison loosened by `delta`, and each Real value lies within `delta` of
    its bounds. Values are exact; they go by the names as they were given."""

    delta: Fraction
    point: Dict[str, Value]
    certificate: bytes = field(repr=False)
    is_confirmed: bool
    question: Optional[Question] = field(default=None, repr=False, compare=False)


@dataclass(frozen=True)
class Unknown:
    """No answer. `cause` is "budget": `budget` boxes were split; or "width": the box `box`, of the least width, could not be
    decided, for the comparison number `atom`. `open_boxes` counts the boxes that are left, where the checker counted them."""

    cause: str
    certificate: bytes = field(repr=False)
    is_confirmed: bool
    budget: Optional[int] = None
    atom: Optional[int] = None
    box: Optional[Box] = None
    open_boxes: Optional[int] = None
    question: Optional[Question] = field(default=None, repr=False, compare=False)


Answer = Union[Unsat, DeltaSat, Unknown]


@dataclass(frozen=True)
class Programs:
    """Where the two programs are."""

    solver: str
    checker: str


def find_programs() -> Programs:
    """The programs that the environment names: `DPOLY` is the folder that holds `dpoly` and `dpoly-check`, or the solver
    itself, with `dpoly-check` beside it or on PATH; else both are looked for on PATH. Raises `ProgramError` where one is
    missing."""
    named = os.environ.get("DPOLY", "")
    folder = named if os.path.isdir(named) else os.path.dirname(named)
    solver = named if named and not os.path.isdir(named) else os.path.join(folder, "dpoly") if named else "dpoly"
    beside = os.path.join(folder, "dpoly-check")
    checker = beside if named and os.path.isfile(beside) else "dpoly-check"
    found = [shutil.which(it) for it in (solver, checker)]
    for program, at in zip((solver, checker), found):
        if at is None:
            raise ProgramError(f"there is no program {program}: put it on PATH, or have DPOLY name its folder")
    return Programs(os.path.abspath(found[0]), os.path.abspath(found[1]))  # type: ignore[arg-type]


def solve(
    *formulas: object,
    margin_bits: Optional[int] = None,
    delta_bits: Optional[int] = None,
    least_bits: Optional[int] = None,
    budget: Optional[int] = None,
    bound: Optional[int] = None,
    workers: Union[int, str, None] = None,
    check: bool = True,
    seconds: Optional[float] = None,
    programs: Optional[Programs] = None,
) -> Answer:
    """Whether all of the formulas can hold. The options are the program's (its defaults where they are left out); `check`
    has `dpoly-check` confirm the answer, and raises `CertificateError` where it does not; `seconds` bounds each program's
    time. Raises a `DpolyError` where there is no answer, `ValueError` for constants that do not fit together."""
    options = options_of(margin_bits, delta_bits, least_bits, budget, bound, workers)
    answer = run(script_of(*formulas).encode(), options, bound, check, seconds, programs or find_programs())
    return of_constants(answer, names_of(*formulas))


def solve_script(
    script: Union[str, bytes],
    *,
    margin_bits: Optional[int] = None,
    delta_bits: Optional[int] = None,
    least_bits: Optional[int] = None,
    budget: Optional[int] = None,
    bound: Optional[int] = None,
    workers: Union[int, str, None] = None,
    check: bool = True,
    seconds: Optional[float] = None,
    programs: Optional[Programs] = None,
) -> Answer:
    """As `solve`, for an SMT-LIB script in the program's language, with one check."""
    options = options_of(margin_bits, delta_bits, least_bits, budget, bound, workers)
    text = script.encode() if isinstance(script, str) else script
    return run(text, options, bound, check, seconds, programs or find_programs())


def of_constants(answer: Answer, names: Set[str]) -> Answer:
    """The answer, with the values of these constants alone: the program has others besides, for roots and quotients."""
    if isinstance(answer, DeltaSat):
        return replace(answer, point={name: it for name, it in answer.point.items() if name in names})
    if isinstance(answer, Unknown) and answer.box is not None:
        return replace(answer, box={name: it for name, it in answer.box.items() if name in names})
    return answer


def options_of(*values: Union[int, str, None]) -> List[str]:
    words = []
    for name, value in zip(("margin-bits", "delta-bits", "least-bits", "budget", "bound", "workers"), values):
        if value is not None:
            if isinstance(value, bool) or not isinstance(value, int) and (name, value) != ("workers", "auto"):
                raise TypeError(f"{name.replace('-', '_')} has to be a whole number, and not {value!r}")
            words += [f"--{name}", str(value)]
    return words


def run(script: bytes, options: List[str], bound: Optional[int], check: bool, seconds: Optional[float], programs: Programs) -> Answer:
    """Solves the script, and has the certificate checked."""
    question = Question(script, bound)
    said, certificate, confirmed = run_command("solve", question, options, check, seconds, programs)
    if any(it.startswith(b"checks ") for it in certificate.split(b"\n", 5)[4:5]):  # behind the header's first four lines
        raise DpolyError("the script has several checks: solve_each answers them")
    return answer_of(said, certificate, confirmed, question)


def run_command(
    command: str, question: Question, options: List[str], check: bool, seconds: Optional[float], programs: Programs, read: Sequence[bytes] = ()
) -> Tuple[bytes, bytes, Optional[bytes]]:
    """Runs a command of the program in a folder of its own: what it said, its certificate, and what the checker said of that, if
    it was asked. `read` are certificates that the command reads."""
    with tempfile.TemporaryDirectory(prefix="dpoly-") as folder:
        paths = [os.path.join(folder, it) for it in ("question.smt2", "certificate", *(f"read{at}" for at in range(len(read))))]
        for path, text in zip((paths[0], *paths[2:]), (question.script, *read)):
            with open(path, "wb") as file:
                file.write(text)
        files = [paths[0], *paths[2:], paths[1]] if command != "join" else [*paths[:2], *paths[2:]]
        said = call([programs.solver, command, *options, *files], question.script, seconds)
        with open(paths[1], "rb") as file:
            certificate = file.read()
        confirmed = call([programs.checker, *bound_words(question), *paths[:2]], question.script, seconds) if check else None
    return said, certificate, confirmed


def check_certificate(question: Question, certificate: bytes, seconds: Optional[float] = None, programs: Optional[Programs] = None) -> bytes:
    """What `dpoly-check` says of a certificate. Raises `CertificateError` where it refuses it."""
    with tempfile.TemporaryDirectory(prefix="dpoly-") as folder:
        paths = [os.path.join(folder, it) for it in ("question.smt2", "certificate")]
        for path, text in zip(paths, (question.script, certificate)):
            with open(path, "wb") as file:
                file.write(text)
        return call([(programs or find_programs()).checker, *bound_words(question), *paths], question.script, seconds)


def bound_words(question: Question) -> List[str]:
    return ["--bound", str(question.bound)] if question.bound is not None else []


def call(words: List[str], script: bytes, seconds: Optional[float]) -> bytes:
    """What the program writes. Raises what its exit status says."""
    try:
        done = subprocess.run(words, stdin=subprocess.DEVNULL, stdout=subprocess.PIPE, stderr=subprocess.PIPE, timeout=seconds)
    except subprocess.TimeoutExpired:
        raise OutOfTime(f"{os.path.basename(words[0])} took more than {seconds} seconds") from None
    except OSError as error:
        raise ProgramError(f"{words[0]} does not start: {error.strerror}") from None
    said, status = done.stdout, done.returncode
    complaint = printable(done.stderr.decode("utf-8", "replace").strip())
    if status == 0:
        return said
    if status == 1:
        raise CertificateError(first_line(said))
    if status == 2:
        raise script_error(said, script)
    if status == 3:
        raise UsageError(complaint or "the options were refused")
    causes = {4: "a file could not be read", 5: "a file could not be written", 6: "out of memory"}
    raise ProgramError(complaint or causes.get(status, f"{words[0]} ended with status {status}"), status)


def first_line(said: bytes) -> str:
    return said.split(b"\n", 1)[0].decode("utf-8", "replace")


def script_error(said: bytes, script: bytes) -> DpolyError:
    """The fault of the script. A name in it may hold any byte, so the place is read from the end."""
    text = said.decode("utf-8", "surrogateescape")
    found = re.fullmatch(r"script fault (\d+) (\w+)(?: (.*))? (\d+):(\d+)\n", text, re.DOTALL)
    if not found:
        return ProgramError(f"the script was refused, and the answer cannot be read: {printable(first_line(said))}", 2)
    line, column = int(found[4]), int(found[5])
    lines = script.split(b"\n")
    source = lines[line - 1].decode("utf-8", "replace") if 1 <= line <= len(lines) else ""
    detail = (found[3] or "").encode("utf-8", "surrogateescape").decode("utf-8", "replace")
    return ScriptError(int(found[1]), found[2], detail, line, column, source)


def answer_of(said: bytes, certificate: bytes, confirmed: Optional[bytes], question: Question) -> Answer:
    """What the program answered, where the checker's text, if it was asked, says the same."""
    answer, rest = first_answer(said.decode("utf-8", "surrogateescape"), certificate, confirmed, question)
    if rest:
        raise ProgramError(f"an answer that this package does not know: {printable(rest[:80])}", 0)
    return answer


def first_answer(text: str, certificate: bytes, confirmed: Optional[bytes], question: Question) -> Tuple[Answer, str]:
    """The first answer of a text, and what stands behind it; `confirmed` is what the checker said of this one."""
    first, _, rest = text.partition("\n")
    is_confirmed = confirmed is not None
    if first == "unsat":
        margin, _, rest = rest.partition("\n")
        expect(confirmed, f"confirmed unsat\n{margin}\n".encode())
        return Unsat(dyadic(margin.partition(" ")[2]), certificate, is_confirmed, question), rest
    if first == "delta-sat":
        bits, _, values = rest.partition("\n")
        expect(confirmed, f"confirmed delta-sat\n{bits}\n".encode())
        lines, rest = named_lines(values)
        point: Dict[str, Value] = {}
        for name, it in lines:  # (those of the script come first; a root may have the name of one of them)
            point.setdefault(name, value_of(it))
        return DeltaSat(dyadic(bits.partition(" ")[2]), point, certificate, is_confirmed, question), rest
    left = open_count(confirmed)
    if first.startswith("unknown budget "):
        budget = int(first.rpartition(" ")[2])
        return Unknown("budget", certificate, is_confirmed, budget=budget, open_boxes=left, question=question), rest
    if first == "unknown width":
        atom, _, sides = rest.partition("\n")
        lines, rest = named_lines(sides)
        box = {name: side_of(it) for name, it in lines}
        number = int(atom.partition(" ")[2])
        return Unknown("width", certificate, is_confirmed, atom=number, box=box, open_boxes=left, question=question), rest
    raise ProgramError(f"an answer that this package does not know: {printable(first)}", 0)


def expect(confirmed: Optional[bytes], wanted: bytes) -> None:
    if confirmed is not None and confirmed != wanted:
        raise CertificateError(first_line(confirmed))


def open_count(confirmed: Optional[bytes]) -> Optional[int]:
    if confirmed is None:
        return None
    found = re.fullmatch(rb"open (\d+)\n", confirmed)
    if not found:
        raise CertificateError(first_line(confirmed))
    return int(found[1])


NUMBER = r"(?:-?[0-9]+b-?[0-9]+|0)"
NAMED_LINE = re.compile(rf"(?:\|([^|]*)\||([^\s|]+)) (true|false|{NUMBER}(?: {NUMBER})?)\n")


def named_lines(text: str) -> Tuple[List[Tuple[str, str]], str]:
    """The lines `NAME VALUE` that the text begins with, and the rest. A quoted name may hold line feeds and spaces, but no bar."""
    found, at = [], 0
    while True:
        it = NAMED_LINE.match(text, at)
        if it is None:
            return found, text[at:]
        at = it.end()
        name = it[1] if it[1] is not None else it[2]
        found.append((name.encode("utf-8", "surrogateescape").decode("utf-8", "replace"), it[3]))


def dyadic(text: str) -> Fraction:
    """The number that `MbE` or `0` stands for."""
    size, _, exponent = text.partition("b")
    return int(size) * Fraction(2) ** int(exponent or 0)


def value_of(text: str) -> Value:
    return text == "true" if text in ("true", "false") else dyadic(text)


def side_of(text: str) -> Union[Tuple[Fraction, Fraction], bool]:
    if text in ("true", "false"):
        return text == "true"
    low, _, high = text.partition(" ")
    return dyadic(low), dyadic(high)


def printable(text: str) -> str:
    """The text with each control character escaped, so that a hostile name cannot write to a terminal."""
    return "".join(it if it.isprintable() else it.encode("unicode_escape", "backslashreplace").decode() for it in text)
