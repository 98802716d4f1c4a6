"""Least and greatest values, several questions at once, plans, and searches that go on where others stopped."""
from __future__ import annotations

import os
import re
import tempfile
from dataclasses import dataclass, field, replace
from fractions import Fraction
from typing import Dict, Iterable, List, Optional, Sequence, Tuple, Union

from .cores import shrunk
from .script import goal_script_of, names_of, script_of, session_script_of
from .solver import (
    Answer,
    CertificateError,
    DpolyError,
    ProgramError,
    Programs,
    Question,
    Unknown,
    Unsat,
    Value,
    answer_of,
    bound_words,
    call,
    dyadic,
    expect,
    find_programs,
    first_answer,
    first_line,
    named_lines,
    of_constants,
    options_of,
    printable,
    run_command,
    solve,
    value_of,
)
from .terms import Proposition, Term, formulas_of, term_of


@dataclass(frozen=True)
class Extremum:
    """The least value of a term over the points that satisfy a question, or its greatest one (`kind` is "minimum" or "maximum"),
    lies in what the two numbers tell:

    - of a minimum the term is nowhere below `lower`, wherever the question holds, even loosened by the margin; at `point`, which
      satisfies it loosened by delta, the term is at most `upper`. Of a maximum it is nowhere above `upper`, and at least `lower`
      at the point. None tells of a bound that there is none.
    - `cause` is None where the two are within the gap that was asked for, else "budget", "width" or "limit"."""

    kind: str
    lower: Optional[Fraction]
    upper: Optional[Fraction]
    point: Dict[str, Value]
    cause: Optional[str]
    certificate: bytes = field(repr=False)
    is_confirmed: bool
    question: Optional[Question] = field(default=None, repr=False, compare=False)


@dataclass(frozen=True)
class Plan:
    """`least_bits` is a least width with which no search of the question ends by the width; None where there is none, and `atom`
    or `axis` says what is in the way."""

    least_bits: Optional[int]
    atom: Optional[int] = None
    axis: Optional[int] = None


@dataclass(frozen=True)
class Part:
    """A part of a search is closed: `open_boxes` are left, all of them in other parts."""

    number: int
    count: int
    open_boxes: int
    margin: Fraction
    certificate: bytes = field(repr=False)
    is_confirmed: bool
    question: Optional[Question] = field(default=None, repr=False, compare=False)


Bits = Optional[int]


def minimize(
    term: Term,
    *formulas: object,
    margin_bits: Bits = None,
    delta_bits: Bits = None,
    least_bits: Bits = None,
    budget: Optional[int] = None,
    bound: Optional[int] = None,
    workers: Union[int, str, None] = None,
    gap_bits: Bits = None,
    check: bool = True,
    seconds: Optional[float] = None,
    programs: Optional[Programs] = None,
) -> Union[Extremum, Answer]:
    """The least value of the term where all of the formulas hold: an `Extremum`; `Unsat` or `Unknown` where no point was found.
    The options are those of `solve`; `gap_bits` is how near the two bounds shall be, 2^-gap_bits."""
    options = options_of(margin_bits, delta_bits, least_bits, budget, bound, workers) + gap_words(gap_bits)
    script, is_named = goal_script_of(term_of(term), *formulas)
    found = run_minimize(Question(script.encode(), bound), options, check, seconds, programs or find_programs())
    names = names_of(*formulas_of(formulas), term_of(term) == 0)
    if isinstance(found, Extremum):
        point = {name: it for name, it in found.point.items() if name in names}
        # the constant that stands for the term may be off by delta at the point; wherever the question holds it is the term
        upper = found.upper if found.upper is None or not is_named else found.upper + Fraction(1, 2 ** (10 if delta_bits is None else delta_bits))
        return replace(found, point=point, upper=upper)
    return of_constants(found, names)


def maximize(term: Term, *formulas: object, **options: object) -> Union[Extremum, Answer]:
    """The greatest value of the term, as `minimize` finds the least one."""
    found = minimize(-term_of(term), *formulas, **options)  # type: ignore[arg-type]
    if not isinstance(found, Extremum):
        return found
    lower, upper = (None if it is None else -it for it in (found.upper, found.lower))
    return replace(found, kind="maximum", lower=lower, upper=upper)


def minimize_script(
    script: Union[str, bytes],
    *,
    margin_bits: Bits = None,
    delta_bits: Bits = None,
    least_bits: Bits = None,
    budget: Optional[int] = None,
    bound: Optional[int] = None,
    workers: Union[int, str, None] = None,
    gap_bits: Bits = None,
    check: bool = True,
    seconds: Optional[float] = None,
    programs: Optional[Programs] = None,
) -> Union[Extremum, Answer]:
    """As `minimize`, for a script with a goal, `(minimize t)`."""
    options = options_of(margin_bits, delta_bits, least_bits, budget, bound, workers) + gap_words(gap_bits)
    question = Question(script.encode() if isinstance(script, str) else script, bound)
    return run_minimize(question, options, check, seconds, programs or find_programs())


def gap_words(gap_bits: Bits) -> List[str]:
    if gap_bits is not None and (isinstance(gap_bits, bool) or not isinstance(gap_bits, int)):
        raise TypeError(f"gap_bits has to be a whole number, and not {gap_bits!r}")
    return [] if gap_bits is None else ["--gap-bits", str(gap_bits)]


def run_minimize(question: Question, options: List[str], check: bool, seconds: Optional[float], programs: Programs) -> Union[Extremum, Answer]:
    said, certificate, confirmed = run_command("minimize", question, options, check, seconds, programs)
    text = said.decode("utf-8", "surrogateescape")
    first, _, rest = text.partition("\n")
    found = re.match(r"lower (\S+)\nupper (\S+)\n", rest)
    if found is None or first == "delta-sat":
        return answer_of(said, certificate, confirmed, question)
    lines, left = named_lines(rest[found.end() :])
    if left or first != "minimum" and not re.fullmatch(r"unknown (budget \d+|width|limit)", first):
        raise ProgramError(f"an answer that this package does not know: {printable(first)}", 0)
    expect(confirmed, f"confirmed lower {found[1]}\nupper {found[2]}\n".encode())
    lower, upper = (None if it == "none" else dyadic(it) for it in found.groups())
    point = {name: value_of(it) for name, it in lines}
    cause = None if first == "minimum" else first.split(" ")[1]
    return Extremum("minimum", lower, upper, point, cause, certificate, confirmed is not None, question)


def solve_each(
    questions: Union[str, bytes, Iterable[object]],
    *formulas: object,
    margin_bits: Bits = None,
    delta_bits: Bits = None,
    least_bits: Bits = None,
    budget: Optional[int] = None,
    bound: Optional[int] = None,
    workers: Union[int, str, None] = None,
    check: bool = True,
    seconds: Optional[float] = None,
    programs: Optional[Programs] = None,
) -> List[Answer]:
    """Of each question, a formula or a list of formulas, whether it can hold together with the other formulas: the checks of one
    script, with one certificate, in order. `questions` may be a script with any number of checks."""
    options = options_of(margin_bits, delta_bits, least_bits, budget, bound, workers)
    if isinstance(questions, (str, bytes)):
        script = questions.encode() if isinstance(questions, str) else questions
        names = None
    else:
        asked = [formulas_of((it,)) for it in questions]
        if not asked:
            return []
        script = session_script_of(formulas_of(formulas), asked).encode()
        names = names_of(*formulas_of(formulas), *(it for each in asked for it in each))
    question = Question(script, bound)
    said, certificate, confirmed = run_command("solve", question, options, check, seconds, programs or find_programs())
    text, shown, answers = said.decode("utf-8", "surrogateescape"), confirmations(confirmed), []
    while text:
        answer, text = first_answer(text, certificate, None if shown is None else next(shown, b""), question)
        answers.append(answer if names is None else of_constants(answer, names))
    if shown is not None and next(shown, None) is not None:
        raise CertificateError("the certificate has more parts than there are answers")
    return answers


def confirmations(confirmed: Optional[bytes]) -> Optional[Iterable[bytes]]:
    """What the checker said of each check."""
    if confirmed is None:
        return None
    return iter(re.findall(rb"open \d+\n|confirmed [^\n]*\n[^\n]*\n", confirmed))


def needed_of(assumptions: Sequence[Proposition], *formulas: object, seconds: float = 60.0, **options: object) -> Optional[List[int]]:
    """Which of the assumptions, by their numbers from 0, have together with the formulas no point, where all of them have none; None
    where these have one, or where it is not known. Each smaller set is solved and confirmed; after so many seconds the smallest
    that was found is the answer."""
    def is_unsat(some: Sequence[int], left: float) -> bool:
        try:
            return isinstance(solve(*formulas_of(formulas), *(assumptions[it] for it in some), seconds=left, **options), Unsat)  # type: ignore[arg-type]
        except DpolyError:
            return False

    numbers = list(range(len(assumptions)))
    return shrunk(numbers, is_unsat, seconds) if is_unsat(numbers, seconds) else None


def plan(
    *formulas: object, margin_bits: Bits = None, delta_bits: Bits = None, bound: Optional[int] = None, seconds: Optional[float] = None, programs: Optional[Programs] = None
) -> Plan:
    """A least width with which no search of these formulas ends by the width (`docs/ANSWERS.md`, "Choosing the least width")."""
    return plan_script(script_of(*formulas), margin_bits=margin_bits, delta_bits=delta_bits, bound=bound, seconds=seconds, programs=programs)


def plan_script(
    script: Union[str, bytes], *, margin_bits: Bits = None, delta_bits: Bits = None, bound: Optional[int] = None, seconds: Optional[float] = None, programs: Optional[Programs] = None
) -> Plan:
    """As `plan`, for a script with one check."""
    text = script.encode() if isinstance(script, str) else script
    with tempfile.TemporaryDirectory(prefix="dpoly-") as folder:
        path = os.path.join(folder, "question.smt2")
        with open(path, "wb") as file:
            file.write(text)
        options = options_of(margin_bits, delta_bits, None, None, bound, None)
        said = call([(programs or find_programs()).solver, "plan", *options, path], text, seconds).decode()
    found = re.fullmatch(r"plan (?:least-bits (\d+)|none atom (\d+)|none axis (\d+))\n", said)
    if not found:
        raise DpolyError(f"a plan of several checks, or one that this package does not know: {printable(said)}")
    return Plan(*(None if it is None else int(it) for it in found.groups()))


def resume(
    answer: Union[Unknown, Part, Answer],
    *,
    part: Optional[Tuple[int, int]] = None,
    least_bits: Bits = None,
    budget: Optional[int] = None,
    workers: Union[int, str, None] = None,
    check: bool = True,
    seconds: Optional[float] = None,
    programs: Optional[Programs] = None,
) -> Union[Answer, Part]:
    """Goes on where an answer left boxes open, with its certificate: the whole, or part (i, n) of the open boxes, 1 <= i <= n. A
    `Part` says that this part is closed and others are open."""
    question = question_of(answer)
    options = options_of(None, None, least_bits, budget, None, workers) + bound_words(question)
    options += [] if part is None else ["--part", f"{part[0]}/{part[1]}"]
    said, certificate, confirmed = run_command("resume", question, options, check, seconds, programs or find_programs(), [answer.certificate])
    found = re.fullmatch(rb"part (\d+)/(\d+)\n(open \d+\n)margin (\S+)\n", said)
    if not found:
        return answer_of(said, certificate, confirmed, question)
    expect(confirmed, found[3])
    number, count, left = int(found[1]), int(found[2]), int(found[3].split()[1])
    return Part(number, count, left, dyadic(found[4].decode()), certificate, confirmed is not None, question)


def join(
    answers: Sequence[Union[Answer, Part]], *, check: bool = True, seconds: Optional[float] = None, programs: Optional[Programs] = None
) -> Answer:
    """One answer of those that `resume` gave for the parts of one certificate: what is closed in one of them is closed. What stays
    open is `Unknown`, with the cause "parts"."""
    if len(answers) < 2 or len({question_of(it) for it in answers}) != 1:
        raise ValueError("two or more answers to the same question are joined")
    question = question_of(answers[0])
    options = bound_words(question)
    said, certificate, confirmed = run_command("join", question, options, check, seconds, programs or find_programs(), [it.certificate for it in answers])
    expect(confirmed, said)
    text, is_confirmed = first_line(said), confirmed is not None
    if text == "confirmed unsat":
        return answer_of(said.replace(b"confirmed ", b"", 1), certificate, confirmed, question)
    if text == "confirmed delta-sat":
        known = next(it for it in answers if hasattr(it, "point"))
        return replace(known, certificate=certificate, is_confirmed=is_confirmed)
    return Unknown("parts", certificate, is_confirmed, open_boxes=int(text.split(" ")[1]), question=question)


def question_of(answer: Union[Answer, Part]) -> Question:
    if answer.question is None:
        raise ValueError("this answer does not tell what was asked")
    return answer.question
