"""Questions to `dpoly`, a proved solver for Boolean combinations of polynomial constraints over bounded variables.

    >>> from dpoly import And, Real, solve
    >>> x = Real("x", 0, 2)
    >>> solve(And(x * x == 2, x <= 1))                              # doctest: +SKIP
    Unsat(margin=Fraction(1, 1048576), ...)

Formulas are built from `Real` and `Bool` with Python's operators and `And`, `Or`, `Not`, `Implies`, `Xor`, `Distinct` and
`If`. `solve` writes them as an SMT-LIB script, runs the program, has the certificate confirmed by `dpoly-check`, and answers
`Unsat`, `DeltaSat` or `Unknown`. `solve_script` does the same with a script as text; `convert` reads scripts that were
written for z3 or dReal.
"""
from .convert import Conversion, ConversionError, convert
from .runs import Extremum, Part, Plan, join, maximize, minimize, minimize_script, needed_of, plan, plan_script, resume, solve_each
from .script import script_of
from .solver import (
    Answer,
    CertificateError,
    DeltaSat,
    DpolyError,
    OutOfTime,
    ProgramError,
    Programs,
    Question,
    ScriptError,
    Unknown,
    Unsat,
    UsageError,
    find_programs,
    solve,
    solve_script,
)
from .terms import And, Bool, Distinct, Expression, Formula, If, Implies, Max, Min, Not, Number, Or, Real, Sqrt, Term, Xor

__all__ = [
    "And",
    "Answer",
    "Bool",
    "CertificateError",
    "Conversion",
    "ConversionError",
    "DeltaSat",
    "Distinct",
    "DpolyError",
    "Expression",
    "Extremum",
    "Formula",
    "If",
    "Implies",
    "Max",
    "Min",
    "Not",
    "Number",
    "Or",
    "OutOfTime",
    "Part",
    "Plan",
    "ProgramError",
    "Programs",
    "Question",
    "Real",
    "ScriptError",
    "Sqrt",
    "Term",
    "Unknown",
    "Unsat",
    "UsageError",
    "Xor",
    "convert",
    "find_programs",
    "join",
    "maximize",
    "minimize",
    "minimize_script",
    "needed_of",
    "plan",
    "plan_script",
    "resume",
    "script_of",
    "solve",
    "solve_each",
    "solve_script",
]
