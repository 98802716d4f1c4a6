"""The command line of the package."""
from __future__ import annotations

import argparse
import json
import re
import sys
import time
from dataclasses import fields
from fractions import Fraction
from typing import Any, Callable, Dict, List, Optional, Sequence, Union

from . import plain
from .convert import ConversionError, convert
from .runs import Extremum, minimize_script, solve_each
from .solver import Answer, CertificateError, DeltaSat, DpolyError, ProgramError, Question, ScriptError, Unknown, Unsat, UsageError, check_certificate, dyadic

OPTIONS = [
    ("--margin-bits", int, "M", "the margin of unsat, 2^-M (20)"),
    ("--delta-bits", int, "D", "the delta of a point, 2^-D (10)"),
    ("--least-bits", int, "W", "the least width of a box, 2^-W (20)"),
    ("--budget", int, "N", "how many boxes are split at most (65536)"),
    ("--bound", int, "N", "gives -N or N to each missing bound"),
    ("--seconds", float, "S", "how long each program may take"),
]


def parser() -> argparse.ArgumentParser:
    found = argparse.ArgumentParser(prog="python3 -m dpoly", description="Tools around the solver dpoly.")
    commands = found.add_subparsers(dest="command", required=True)
    reads = commands.add_parser("convert", help="writes a script of z3 or dReal in the language of dpoly")
    reads.add_argument("file", metavar="FILE", help="the script; - is standard input")
    reads.set_defaults(run=run_convert)
    for name, run, says in (("solve", run_solve, "solves a script, has the certificate confirmed, and prints the answer"), ("minimize", run_minimize, "finds the least value of a script's goal, has the certificate confirmed, and prints it")):
        asks = commands.add_parser(name, help=says, description=says)
        asks.add_argument("script", metavar="SCRIPT", help="the script; - is standard input")
        asks.add_argument("certificate", metavar="CERT", nargs="?", help="where the certificate is kept; it is not where this is left out")
        asks.add_argument("--json", action="store_true", help="prints JSON")
        for option, kind, word, what in OPTIONS:
            asks.add_argument(option, type=kind, metavar=word, help=what)
        asks.add_argument("--workers", type=lambda it: it if it == "auto" else int(it), metavar="K", help="threads (1), or auto")
        if name == "minimize":
            asks.add_argument("--gap-bits", type=int, metavar="G", help="how near the bounds shall be, 2^-G (10)")
        asks.set_defaults(run=run)
    checks = commands.add_parser("check", help="checks a certificate by dpoly-check", description="Checks a certificate by dpoly-check.")
    checks.add_argument("script", metavar="SCRIPT")
    checks.add_argument("certificate", metavar="CERT")
    checks.add_argument("--json", action="store_true", help="prints JSON")
    checks.add_argument("--bound", type=int, metavar="N", help="the bound with which the script was solved")
    checks.add_argument("--seconds", type=float, metavar="S", help="how long the checker may take")
    checks.set_defaults(run=run_check)
    plain.add_commands(commands)
    return found


def read(path: str) -> bytes:
    if path == "-":
        return sys.stdin.buffer.read()
    with open(path, "rb") as file:
        return file.read()


def run_convert(words: argparse.Namespace) -> int:
    try:
        done = convert(read(words.file).decode("utf-8", "surrogateescape"))
    except (ConversionError, OSError) as error:
        print(f"dpoly convert: {words.file}: {error}", file=sys.stderr)
        return 1
    options = f"; solve it with {' '.join(done.options)}\n" if done.options else ""
    sys.stdout.buffer.write((options + done.text).encode("utf-8", "surrogateescape"))
    return 0


# ---------------------------------------------------------------- JSON
def as_json(value: object) -> Any:
    """The value for JSON: a number with its exact value as a text, and the nearest decimal one."""
    if isinstance(value, Fraction):
        return {"exact": str(value), "decimal": float(value)}
    if isinstance(value, dict):
        return {str(name): as_json(it) for name, it in value.items()}
    if isinstance(value, tuple):
        return [as_json(it) for it in value]
    return value


NAMES = {Unsat: "unsat", DeltaSat: "delta-sat", Unknown: "unknown"}


def told(answer: Union[Answer, Extremum]) -> Dict[str, Any]:
    """The fields of an answer that have a value."""
    found: Dict[str, Any] = {"answer": NAMES.get(type(answer)) or ("unknown" if answer.cause else answer.kind)}  # type: ignore[union-attr]
    for it in fields(answer):
        value = getattr(answer, it.name)
        if it.name not in ("certificate", "question", "kind", "is_confirmed") and (value is not None or it.name in ("lower", "upper")):
            found[it.name] = as_json(value)
    found["confirmed"] = answer.is_confirmed
    return found


def splits_in(certificate: bytes) -> List[Optional[int]]:
    """How many boxes the main tree of each part splits; None of a point."""
    found: List[Optional[int]] = []
    inside = False
    for line in certificate.split(b"\n"):
        if line in (b"tree", b"point"):
            found.append(0 if line == b"tree" else None)
            inside = line == b"tree"
        elif line == b"end":
            inside = False
        elif inside and line.startswith((b"cut ", b"flip ", b"case ", b"either ")):
            found[-1] = (found[-1] or 0) + 1
    return found


def run_solve(words: argparse.Namespace) -> int:
    def ask(script: bytes) -> Dict[str, Any]:
        answers = solve_each(script, **options_in(words))
        made = [told(it) for it in answers]
        for it, splits in zip(made, splits_in(answers[0].certificate)):
            it["splits"] = splits
        return keep(words, answers[0].certificate, made[0] if len(made) == 1 else {"checks": made})

    return give(words, ask)


def run_minimize(words: argparse.Namespace) -> int:
    def ask(script: bytes) -> Dict[str, Any]:
        answer = minimize_script(script, gap_bits=words.gap_bits, **options_in(words))
        return keep(words, answer.certificate, {**told(answer), "splits": (splits_in(answer.certificate) or [None])[0]})

    return give(words, ask)


def run_check(words: argparse.Namespace) -> int:
    def ask(script: bytes) -> Dict[str, Any]:
        shown = check_certificate(Question(script, words.bound), read(words.certificate), words.seconds).decode().splitlines()
        made = [verdict(line, behind) for line, behind in zip(shown, [*shown[1:], ""]) if re.match("confirmed|open", line)]
        return {**(made[0] if len(made) == 1 else {"checks": made}), "certificate": words.certificate}

    return give(words, ask)


def verdict(line: str, behind: str) -> Dict[str, Any]:
    """What the checker says of a check: a line, with that behind it."""
    word, _, rest = line.partition(" ")
    if word == "open":
        return {"answer": "open", "open_boxes": int(rest)}
    name, _, value = behind.partition(" ")
    kind, _, lower = rest.partition(" ")
    found: Dict[str, Any] = {"answer": "confirmed " + kind}
    if kind == "lower":
        found["lower"] = None if lower == "none" else as_json(dyadic(lower))
    if name in ("margin", "delta", "upper"):
        found[name] = None if value == "none" else as_json(dyadic(value))
    return found


def options_in(words: argparse.Namespace) -> Dict[str, Any]:
    names = [option[2:].replace("-", "_") for option, *_ in OPTIONS] + ["workers"]
    return {it: getattr(words, it) for it in names}


def keep(words: argparse.Namespace, certificate: bytes, made: Dict[str, Any]) -> Dict[str, Any]:
    """Writes the certificate where it is asked for."""
    if words.certificate is not None:
        with open(words.certificate, "wb") as file:
            file.write(certificate)
        made["certificate"] = words.certificate
    return made


def give(words: argparse.Namespace, ask: Callable[[bytes], Dict[str, Any]]) -> int:
    """Prints what `ask` answers, or what went wrong; the exit status is the program's."""
    begin, status = time.monotonic(), 0
    try:
        made = ask(read(words.script))
    except ScriptError as error:
        status, made = 2, {"error": str(error), "fault": {it: getattr(error, it) for it in ("number", "name", "detail", "line", "column")}}
    except (DpolyError, OSError) as error:
        statuses = {CertificateError: 1, UsageError: 3}
        status = statuses.get(type(error)) or getattr(error, "status", None) or (4 if isinstance(error, OSError) else 6)
        made = {"error": str(error)}
    made["seconds"] = round(time.monotonic() - begin, 3)
    if words.json:
        print(json.dumps(made, indent=2))
    elif status:
        print(f"dpoly {words.command}: {made['error']}", file=sys.stderr)
    else:
        print("\n".join(lines_of(made)))
    return status


def lines_of(made: Dict[str, Any]) -> List[str]:
    """The same for people."""
    lines: List[str] = []
    for name, value in made.items():
        if name == "checks":
            lines += [line for it in value for line in lines_of(it)]
        elif isinstance(value, dict) and "exact" not in value:
            lines += [f"{name} {inner} {short(it)}" for inner, it in value.items()]
        else:
            lines.append(short(value) if name == "answer" else f"{name} {short(value)}")
    return lines


def short(value: Any) -> str:
    if isinstance(value, dict):
        return value["exact"] if "/" not in value["exact"] else f"{value['decimal']!r} ({value['exact']})"
    return " ".join(map(short, value)) if isinstance(value, list) else str(value).lower() if isinstance(value, bool) else str(value)


def main(words: Optional[Sequence[str]] = None) -> int:
    asked = parser().parse_args(words)
    return asked.run(asked)
