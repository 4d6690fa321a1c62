#!/usr/bin/env python3
"""The tables of laws in docs/MACHINE.md: with --write they are written, otherwise compared.

What a law says is in the comment above it, in src/laws.rt of its crate. MACHINE says in which table
each law stands, and its marks.
"""

import re
import sys
from pathlib import Path

ROOT = Path(__file__).resolve().parent.parent
PAGE = ROOT / "docs/MACHINE.md"
LAW = re.compile(r"(?m)((?:^/// .*\n)+)(?:^#\[.*\n)*^(?:pub\(crate\) )?fn (\w+)\(\)$")
ROW = re.compile(r"(?m)^\| `(\w+)`([^|\n]*) \| ([^|\n]*) \|$")


def comments():
    """What the comment above each law says, in one line."""
    for path in sorted(ROOT.glob("crates/*/src/laws.rt")):
        for comment, name in LAW.findall(path.read_text()):
            yield name, " ".join(line.removeprefix("/// ") for line in comment.splitlines())


def cell(comment):
    """A comment as the table has it: a phrase, with the verdicts in italics."""
    comment = re.sub(r"\b(a|says|is|verdict) (yes|no(?=,| may| is))\b", r"\1 *\2*", comment)
    first = comment[0].lower() if re.match("[A-Z][a-z]* ", comment) else comment[0]
    return first + comment[1:].removesuffix(".")


def written(page, laws):
    """The page with each law's row as it should be."""

    def row(found):
        said = laws.get(found[1])
        return f"| `{found[1]}`{found[2]} | {cell(said)} |" if said else found[0]

    return ROW.sub(row, page)


def main():
    page = PAGE.read_text()
    right = written(page, dict(comments()))
    if sys.argv[1:] == ["--write"]:
        PAGE.write_text(right)
    elif right != page:
        sys.exit("tests/laws.py: docs/MACHINE.md has another text for a law; --write writes it")


def check(checks, _built):
    page, laws = PAGE.read_text(), dict(comments())
    checks.expect_that("there are laws", len(laws) > 60, [*laws])
    rows = [name for name, _, _ in ROW.findall(page) if name in laws]
    checks.expect("the laws with a row, each once", sorted(laws), sorted(rows))
    checks.expect("the tables of laws", written(page, laws).splitlines(), page.splitlines())


if __name__ == "__main__":
    main()
