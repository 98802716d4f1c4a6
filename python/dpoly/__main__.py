"""`python3 -m dpoly COMMAND`: `convert` writes a script of z3 or dReal in the program's language; `solve`, `minimize` and `check`
run the programs and print JSON; `coq` writes a theorem of Coq, `trim` a shorter certificate."""
from __future__ import annotations

import sys

from .commands import main

sys.exit(main())
