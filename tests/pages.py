"""The examples of the pages: each command that a page shows writes what the page shows after it.

A page's blocks are carried out one after the other, in a folder with a copy of examples/ and
python/, or in the page's own folder there; `cd` leads on. A command that asks Graphviz is left out,
by its name, where there is none. `install` tries EMBEDDING, whose commands need the library, and
`assembler` the page of examples/assembler/. Pages that have to show commands do.
"""

import re
import shutil
import tempfile
from pathlib import Path

from building import ROOT, short
from running import run_in_bash, text_of

# the page that shows how to build with the library
EMBEDDING = ROOT / "docs/EMBEDDING.md"
PAGES = [ROOT / "README.md", *sorted((ROOT / "docs").glob("*.md")), ROOT / "examples/README.md"]
# pages whose reader types something
SHOWING = ["README", "EMBEDDING", "OLD-PROGRAMS", "DECK", "OUTPUT"]

# a character that no page has, between the lines of a command
CONTINUED = "\0"

# carries out the command in a folder, with both streams on one, and says where it then stands
CARRY_OUT = 'cd "$2" && PATH="$1:$PATH" && eval "$3" 2>&1; pwd > "$4"'


def shown_by(page):
    """Each command of a page, which may go on in lines with `>`, with the lines after it."""
    text = text_of(page).replace("\n    > ", CONTINUED)
    for block in re.findall(r"(?m)(?:^    .*\n|^\n)+", text):
        lines = [line[4:] for line in block.rstrip().split("\n")]
        starts = [at for at, line in enumerate(lines) if line.startswith("$ ")]
        for at, end in zip(starts, [*starts[1:], len(lines)]):
            command = lines[at][2:].replace(CONTINUED, "\n")
            yield command, "".join(f"{line}\n" for line in lines[at + 1 : end])


def check_page(checks, page, chanv, put=str, **how):
    """Carries out a page's commands; `put` gives a command with the reader's own paths."""
    with tempfile.TemporaryDirectory() as room:
        for name in ("examples", "python"):
            shutil.copytree(ROOT / name, Path(room) / name)
        carry_out(checks, page, chanv, Path(room), put, how)


def carry_out(checks, page, chanv, room, put, how):
    beside = room / page.parent.relative_to(ROOT)
    standing = beside if beside.is_dir() else room
    for command, shown in shown_by(page):
        if " dot " in command and not shutil.which("dot"):
            checks.skip(f"{short(page)}: {command}", "no dot")
            continue
        told = room / "stands"
        ran = run_in_bash(CARRY_OUT, chanv.parent, standing, put(command), told, **how)
        checks.expect(f"{short(page)}: {command}", shown, ran.output)
        standing = Path(text_of(told).rstrip("\n"))


def check(checks, built):
    for page in PAGES:
        if page != EMBEDDING:
            check_page(checks, page, built.chanv())
    showing = {page.stem for page in PAGES if any(shown_by(page))}
    checks.expect_that("pages that show commands", showing >= {*SHOWING}, sorted(showing))
