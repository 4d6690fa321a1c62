#!/usr/bin/env python3
"""Compares what translate.py, Prelude.v and Kit.v assume of the kit with the kit's sources.

    kit.py FOLDER     the folder of the kit's sources

OPERATORS says where the kit declares each operator; × and → are built in. The comments of Kit.v
quote the definitions and laws of the kit's library: its file has to have these lines exactly once,
and no further clause beside them. The goals of Kit.v say the same of what Coq has in their place.
"""

import re
import sys
from pathlib import Path

from translate import FIXITY

MATHLIB = "antt/port/mathlib/src/Core"
OPERATORS = {
    f"{MATHLIB}/Path.antt": "≡",
    f"{MATHLIB}/Logic.antt": "↔ ⊎ ≢",
    f"{MATHLIB}/Bool.antt": "&& ||",
    "core/specs/Bool.antt": "==",
    f"{MATHLIB}/Nat.antt": "+ * < ≤ - % / ^",
    f"{MATHLIB}/List/Defs.antt": "∷ ++",
}
DECLARES = {None: "infix", "left": "infixl", "right": "infixr"}
QUOTED = re.compile(r"(?s)\(\* (\S+\.antt):\n(.*?)\*\)")
LAWS = (Path(__file__).parent / "Kit.v").read_text()


def texts_of(laws):
    """What Kit.v quotes of each file of the kit."""
    found = {}
    for file, text in QUOTED.findall(laws):
        found.setdefault(file, []).append(text)
    return found


TEXTS = texts_of(LAWS)


def stands_in(text, whole):
    """Whether a file has the lines of a text exactly once, and if they are clauses no others."""
    lines = [line.strip() for line in whole.splitlines()]
    wanted = [line.strip() for line in text.splitlines()]
    starts = [at for at in range(len(lines)) if lines[at : at + len(wanted)] == wanted]
    if len(starts) != 1:
        return False
    [first], behind = starts, starts[0] + len(wanted)
    beside = [*lines[max(0, first - 1) : first], *lines[behind : behind + 1]]
    return " = " not in wanted[-1] or not any(" = " in line for line in beside)


def differences_to(kit):
    """What the kit's sources have otherwise, a line for each."""
    for file, operators in OPERATORS.items():
        declared = re.findall(r"(?m)^ *(infix[lr]?) (\d+)((?: \S+)+)$", (kit / file).read_text())
        for operator in operators.split():
            strength, side = FIXITY[operator]
            found = [(how, int(n)) for how, n, names in declared if f"◌{operator}◌" in names.split()]
            if found != [(DECLARES[side], strength)]:
                yield f"{operator}: {found} in {file}"
    for file, texts in TEXTS.items():
        whole = (kit / file).read_text()
        yield from (f"{file}: {text!r}" for text in texts if not stands_in(text, whole))


if __name__ == "__main__":
    if len(sys.argv) != 2:
        sys.exit(__doc__)
    lines = [*differences_to(Path(sys.argv[1]))]
    print("\n".join(lines) or "nothing differs")
    sys.exit(len(lines) > 0)
