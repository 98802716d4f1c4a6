"""Systems of polynomial differential equations and hybrid automata: each property is a line, and its answer a `Statement` with the
words of what is proved, the script, the certificate, and where it is not proved the point.

A flow is a dictionary from Reals to terms, their rates; the Reals' bounds are the region that is looked at. Derivatives along a flow
are computed exactly, on polynomials."""
from __future__ import annotations

from dataclasses import dataclass, field
from fractions import Fraction
from typing import Dict, List, Mapping, Optional, Sequence, Tuple, Union

from .polynomials import Polynomial
from .runs import Extremum, minimize, solve_each
from .script import steps_script_of
from .solver import Answer, DeltaSat, Unknown, Unsat, Value
from .terms import And, Bool, Formula, Number, Or, Real, Term, formula_of, fraction_of, formulas_of, replaced, term_of

Flow = Mapping[Real, Term]
Condition = Union[Formula, Sequence[Formula], bool]


@dataclass(frozen=True)
class Check:
    """One of the conditions of a statement: its words, and the answer to the question whether a point breaks it (of `largest_level`
    where the first point is that does). No answer stands where it holds by the coefficients alone."""

    words: str
    answer: Union[Answer, Extremum, None] = None

    @property
    def holds(self) -> bool:
        return self.answer is None or isinstance(self.answer, (Unsat, Extremum))


@dataclass(frozen=True)
class Statement:
    """What was found. `holds` is True where it is proved (each check's certificate is confirmed), False where a point breaks a
    condition within delta, None where that is not known. `words` say it; `point` is the point, and `run` of `reach` the points of a
    run, step by step. `script` and `certificate` are what `dpoly-check` takes; they are empty where all holds by the coefficients."""

    holds: Optional[bool]
    words: str
    checks: Tuple[Check, ...]
    script: str = field(repr=False, default="")
    certificate: bytes = field(repr=False, default=b"")
    point: Optional[Dict[str, Value]] = None
    run: Tuple[Dict[str, Value], ...] = ()
    level: Optional[Fraction] = None

    def __bool__(self) -> bool:
        return self.holds is True


@dataclass(frozen=True)
class Mode:
    """A mode of a hybrid automaton: its flow, and the condition under which it may stay in it."""

    name: str
    flow: Flow = field(default_factory=dict)
    stay: Condition = True


@dataclass(frozen=True)
class Jump:
    """A step from a mode to a mode, where the guard holds; a Real that the reset does not name keeps its value."""

    source: str
    target: str
    guard: Condition = True
    reset: Mapping[Real, Term] = field(default_factory=dict)


@dataclass(frozen=True)
class Automaton:
    """A hybrid automaton over some Reals (`variables`), with modes and jumps."""

    variables: Sequence[Real]
    modes: Sequence[Mode]
    jumps: Sequence[Jump] = ()

    def mode(self, name: str) -> Mode:
        found = next((it for it in self.modes if it.name == name), None)
        if found is None:
            raise ValueError(f"there is no mode {name!r}")
        return found


# ---------------------------------------------------------------- Derivatives and questions
def rates_of(flow: Flow) -> Dict[str, Polynomial]:
    return {it.name: Polynomial.of(term_of(rate)) for it, rate in flow.items()}


def lie(term: Term, flow: Flow) -> Term:
    """The derivative of a polynomial along a flow, with exact coefficients."""
    return Polynomial.of(term).along(rates_of(flow)).term()


def derivative(term: Term, variable: Real) -> Term:
    """The derivative of a polynomial by a Real."""
    return Polynomial.of(term).derivative(variable.name).term()


def all_of(condition: Condition) -> List[Formula]:
    return list(formulas_of((condition,))) if not isinstance(condition, bool) else [formula_of(condition)]


def within(variables: Sequence[Real]) -> str:
    return ", ".join(f"{it.name} in [{it.low}, {it.high}]" for it in variables)


def bounded(variables: Sequence[Real]) -> None:
    missing = [it.name for it in variables if it.low is None or it.high is None]
    if missing:
        raise ValueError(f"a region is wanted: give {', '.join(missing)} bounds, as Real('x', -1, 1)")


def told_flow(flow: Flow) -> str:
    return ", ".join(f"{it.name}' = {Polynomial.of(term_of(rate))}" for it, rate in flow.items())


@dataclass
class Question:
    """A condition to be checked: its words, and the formulas that a point which breaks it satisfies; None where it holds anyway."""

    words: str
    formulas: Optional[List[Formula]]


def stated(proved: str, questions: Sequence[Question], besides: Sequence[Formula], options: Mapping[str, object]) -> Statement:
    """Asks all questions in one session, together with the formulas `besides`."""
    asked = [it for it in questions if it.formulas is not None]
    if not asked:
        return Statement(True, proved, tuple(Check(it.words) for it in questions))
    steps = [(list(besides) if number == 0 else [], it.formulas or []) for number, it in enumerate(asked)]
    script = steps_script_of(steps)
    answers = solve_each(script, **options)  # type: ignore[arg-type]
    found = iter(answers)
    checks = tuple(Check(it.words, None if it.formulas is None else next(found)) for it in questions)
    return concluded(proved, checks, script, answers[0].certificate)


def concluded(proved: str, checks: Tuple[Check, ...], script: str, certificate: bytes) -> Statement:
    broken = next((it for it in checks if isinstance(it.answer, DeltaSat)), None)
    if broken is not None:
        assert isinstance(broken.answer, DeltaSat)
        words = f"Not so, or only by less than {broken.answer.delta}: {broken.words} is broken at {told_point(broken.answer.point)}."
        return Statement(False, words, checks, script, certificate, broken.answer.point)
    left = next((it for it in checks if not it.holds), None)
    if left is not None:
        assert isinstance(left.answer, Unknown)
        return Statement(None, f"Not decided ({left.answer.cause}): {left.words}.", checks, script, certificate)
    margins = [it.answer.margin for it in checks if isinstance(it.answer, Unsat)]
    told = f" Each comparison may be off by {max(margins)}." if margins else ""
    return Statement(True, proved + told, checks, script, certificate)


def told_point(point: Mapping[str, Value]) -> str:
    return ", ".join(f"{name} = {value}" if isinstance(value, bool) else f"{name} = {float(value):.6g}" for name, value in point.items())


# ---------------------------------------------------------------- Properties
def barrier(flow: Flow, certificate: Term, start: Condition, unsafe: Condition, **options: object) -> Statement:
    """Whether a polynomial B is a barrier (Prajna, Jadbabaie, HSCC 2004): below 0 where the flow starts, above 0 where it must not
    go, and falling along the flow where B is 0."""
    variables = list(flow)
    bounded(variables)
    of = Polynomial.of(certificate)
    along = of.along(rates_of(flow))
    b = of.term()
    questions = [
        Question("B < 0 where it starts", [*all_of(start), b >= 0]),
        Question("B > 0 where it must not go", [*all_of(unsafe), b <= 0]),
        Question("B falls where B = 0", falling([b == 0], along)),
    ]
    proved = f"No run of {told_flow(flow)} that begins in the start region and stays within {within(variables)} comes to the unsafe region: B = {of} is a barrier."
    return stated(proved, questions, [], options)


def falling(where: List[Formula], along: Polynomial) -> Optional[List[Formula]]:
    """What a point satisfies at which a derivative is not below 0; None where it is a number that is not above 0."""
    value = along.number()
    return None if value is not None and value <= 0 else [*where, along.term() >= 0]


def lyapunov(flow: Flow, function: Term, inner: Number, outer: Number, rate: Number = 0, **options: object) -> Statement:
    """Whether V is above 0 and falls on the ring inner <= |x| <= outer: V' < -rate * V along the flow. At the equilibrium itself V'
    is 0, so a ring leaves it out."""
    variables = list(flow)
    bounded(variables)
    of, low, high = Polynomial.of(function), fraction_of(inner), fraction_of(outer)
    if not 0 < low < high:
        raise ValueError("a ring has 0 < inner < outer")
    if any(it.low > -high or it.high < high for it in variables):  # type: ignore[operator]
        raise ValueError(f"the ring is to lie within the bounds, which are {within(variables)}")
    square = sum((it * it for it in variables[1:]), variables[0] * variables[0])
    ring = [low * low <= square, square <= high * high]
    along = of.along(rates_of(flow)) + of * Polynomial.constant(fraction_of(rate))
    questions = [
        Question("V > 0 on the ring", [*ring, of.term() <= 0]),
        Question("V falls on the ring", falling(ring, along)),
    ]
    faster = f", by more than {fraction_of(rate)} * V" if rate else ""
    proved = f"Where {low} <= |x| <= {high}, V = {of} is above 0 and falls along {told_flow(flow)}{faster}."
    return stated(proved, questions, [], options)


def invariant(automaton: Automaton, functions: Mapping[str, Term], start: Mapping[str, Condition], unsafe: Optional[Mapping[str, Condition]] = None, **options: object) -> Statement:
    """Whether the conditions B <= 0, one for each mode, hold all along: at the start, along each flow (B falls where it is 0 and the
    mode may stay), and over each jump. With `unsafe`, whether they exclude that too. All is inductive: it holds for any number
    of steps and any time, as long as a run stays within the bounds."""
    bounded(automaton.variables)
    of = {it.name: Polynomial.of(functions[it.name]) for it in automaton.modes}
    questions: List[Question] = []
    for name, condition in start.items():
        questions.append(Question(f"B <= 0 where it starts in {name}", [*all_of(condition), of[automaton.mode(name).name].term() >= 0]))
    for mode in automaton.modes:
        if mode.flow:
            where = [*all_of(mode.stay), of[mode.name].term() == 0]
            questions.append(Question(f"B falls where B = 0 in {mode.name}", falling(where, of[mode.name].along(rates_of(mode.flow)))))
    for jump in automaton.jumps:
        before, after = of[jump.source], of[jump.target].with_values(rates_of(jump.reset))
        change = (after - before).number()
        where = [*all_of(automaton.mode(jump.source).stay), *all_of(jump.guard), before.term() <= 0, after.term() >= 0]
        questions.append(Question(f"B stays at or below 0 by the jump from {jump.source} to {jump.target}", None if change is not None and change <= 0 else where))
    for name, condition in (unsafe or {}).items():
        questions.append(Question(f"B > 0 where it must not be in {name}", [*all_of(condition), of[automaton.mode(name).name].term() <= 0]))
    told = ", ".join(f"{of[it.name]} <= 0 in {it.name}" for it in automaton.modes)
    proved = f"Each run that stays within {within(automaton.variables)} has at all times {told}" + (", and never comes to the unsafe region." if unsafe else ".")
    return stated(proved, questions, [], options)


def reach(automaton: Automaton, start: Mapping[str, Condition], target: Mapping[str, Condition], steps: int, **options: object) -> Statement:
    """Whether some run of at most so many jumps comes from the start to the target: a check for each number of jumps, in one
    session. Flows are not followed: a step of time is a jump whose reset is a numerical step."""
    bounded(automaton.variables)
    names = [it.name for it in automaton.modes]
    places = [{it.name: Real(f"{it.name}@{k}", it.low, it.high) for it in automaton.variables} for k in range(steps + 1)]
    modes = [{name: Bool(f"in {name}@{k}") for name in names} for k in range(steps + 1)]

    def at(k: int, name: str, condition: Condition) -> Formula:
        automaton.mode(name)
        parts = [replaced(it, places[k]) for it in all_of(condition)]
        return And(modes[k][name], *parts) if len(names) > 1 else And(*parts)

    def one_mode(k: int) -> List[Formula]:
        if len(names) == 1:
            return []
        return [Or(*modes[k].values()), *(Or(~modes[k][a], ~modes[k][b]) for i, a in enumerate(names) for b in names[i + 1 :])]

    def step(k: int) -> Formula:
        ways = []
        for jump in automaton.jumps:
            resets = {it.name: term_of(value) for it, value in jump.reset.items()}
            values = [places[k + 1][it.name] == replaced(resets.get(it.name, it), places[k]) for it in automaton.variables]
            ways.append(And(at(k, jump.source, jump.guard), *(replaced(it, places[k]) for it in all_of(automaton.mode(jump.source).stay)), at(k + 1, jump.target, True), *values))
        return Or(*ways)

    checks, asserted = [], [*one_mode(0), Or(*(at(0, name, it) for name, it in start.items()))]
    for k in range(steps + 1):
        checks.append((asserted, [Or(*(at(k, name, it) for name, it in target.items()))]))
        asserted = [*one_mode(k + 1), step(k)] if k < steps else []
    script = steps_script_of(checks)
    answers = solve_each(script, **options)  # type: ignore[arg-type]
    found = tuple(Check(f"it does not come there in {k} steps", it) for k, it in enumerate(answers))
    proved = f"No run of {steps} steps or fewer that stays within {within(automaton.variables)} comes to the target."
    statement = concluded(proved, found, script, answers[0].certificate)
    if statement.point is None:
        return statement
    count = next(k for k, it in enumerate(answers) if isinstance(it, DeltaSat))
    run = tuple(place_in(statement.point, places[k], modes[k]) for k in range(count + 1))
    words = f"A run comes to the target in {count} steps, each of them within {answers[count].delta}: {' -> '.join(told_point(it) for it in run)}."  # type: ignore[union-attr]
    return Statement(False, words, found, script, answers[0].certificate, statement.point, run)


def place_in(point: Mapping[str, Value], places: Mapping[str, Real], modes: Mapping[str, Bool]) -> Dict[str, Value]:
    found: Dict[str, Value] = {name: point[it.name] for name, it in places.items() if it.name in point}
    found.update({f"in {name}": True for name, it in modes.items() if point.get(it.name) is True})
    return found


def largest_level(flow: Flow, function: Term, inner: Number, **options: object) -> Statement:
    """The greatest level c, within the gap, such that V falls along the flow wherever inner <= V < c and the region V < c touches no
    bound of the Reals: so each run that begins there comes to V <= inner. `level` is what is proved."""
    variables = list(flow)
    bounded(variables)
    of = Polynomial.of(function)
    v, along, low = of.term(), of.along(rates_of(flow)), fraction_of(inner)
    edge = Or(*(it == end for it in variables for end in (it.low, it.high)))
    found = [minimize(v, along.term() >= 0, v >= low, **options), minimize(v, edge, **options)]  # type: ignore[arg-type]
    checks = (Check("V falls", found[0]), Check("V < c touches no bound", found[1]))
    bounds = [it for it in found if isinstance(it, Extremum)]
    worst = min(bounds, key=lambda it: -1 if it.lower is None else it.lower, default=None)
    if worst is None or worst.lower is None or not all(it.holds for it in checks):
        return Statement(None, "Not decided: no level is proved.", checks)
    level, script = worst.lower, worst.question.script.decode() if worst.question else ""
    too_much = f" V = {float(worst.upper):.6g} is too much, at {told_point(worst.point)}." if worst.upper is not None else ""
    words = f"Where {low} <= V < {float(level):.6g}, V = {of} falls along {told_flow(flow)}, and no such point is on the edge of {within(variables)}.{too_much}"
    return Statement(level > low, words, checks, script, worst.certificate, worst.point, (), level)
