"""The checker in plain Python (`checker/` of the repository), and the commands that follow certificates with it."""
from __future__ import annotations

import argparse
import os
import sys
from typing import Any

ARITHMETICS = ("Std", "Big", "Prim")


def find_checker() -> str:
    """The folder of the checker: `DPOLY_CHECKER`, or `checker/` of the repository that this package is in."""
    here = os.path.dirname(os.path.abspath(__file__))
    folder = os.environ.get("DPOLY_CHECKER") or os.path.join(os.path.dirname(os.path.dirname(here)), "checker")
    if not os.path.exists(os.path.join(folder, "dpoly_checker.py")):
        raise ImportError("the checker in Python was not found: set DPOLY_CHECKER to the repository's folder checker/")
    return folder


def __getattr__(name: str) -> Any:
    """`checker`, which is loaded when it is first asked for: the rest of the package does without it."""
    if name != "checker":
        raise AttributeError(name)
    folder = find_checker()
    if folder not in sys.path:
        sys.path.insert(0, folder)
    import dpoly_checker

    return dpoly_checker


def run_coq(words: Any) -> int:
    try:
        from . import coq
    except ImportError as error:
        return told("coq", error)
    return coq.run(words)


def run_trim(words: Any) -> int:
    try:
        from . import trim
    except ImportError as error:
        return told("trim", error)
    return trim.run(words)


def told(command: str, error: ImportError) -> int:
    print(f"dpoly {command}: {error}", file=sys.stderr)
    return 1


def add_commands(commands: "argparse._SubParsersAction[argparse.ArgumentParser]") -> None:
    """Adds `coq` and `trim` to the parser of `python3 -m dpoly`."""
    writes = commands.add_parser("coq", help="writes a theorem of Coq that a certificate proves")
    writes.add_argument("script", metavar="SCRIPT")
    writes.add_argument("certificate", metavar="CERT")
    writes.add_argument("--arithmetic", choices=ARITHMETICS, default="Big", help="how Coq computes (Big)")
    writes.add_argument("--name", help="the theorem's name; that of the script where it is left out")
    writes.add_argument("--conclusion", type=int, metavar="K", help="the conclusion is that assertion K, from 1, does not hold")
    writes.add_argument("--data", action="store_true", help="writes the certificate alone, for a theorem of your own: NAME_certificate")
    writes.set_defaults(run=run_coq)
    trims = commands.add_parser("trim", help="leaves out lines of a certificate that nothing needs")
    trims.add_argument("script", metavar="SCRIPT")
    trims.add_argument("certificate", metavar="CERT")
    trims.add_argument("out", metavar="OUT")
    trims.set_defaults(run=run_trim)
