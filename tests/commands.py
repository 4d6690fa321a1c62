#!/usr/bin/env python3
"""The copies of the table of commands: with --write they are written, otherwise compared.

The table is in crates/chan_args/src/command_table.rt, and kind.rt beside it says what the values
of its options are. Its copies are the usage of the program there; the synopsis of the manual, its
headings and what it calls values; and the commands and options of the completions.
"""

import re
import sys
from pathlib import Path
from typing import NamedTuple

ROOT = Path(__file__).resolve().parent.parent
TABLE = ROOT / "crates/chan_args/src/command_table.rt"
PAGE, COMPLETIONS = ROOT / "docs/chanv.1", ROOT / "docs/chanv.bash"
# what help calls the value of each kind, and the form of its text
KINDS = {
    kind: (value, form)
    for kind, value, form in re.findall(
        r'Kind::(\w+) => \(\s*"([^"]*)",\s+"([^"]*)"', TABLE.with_name("kind.rt").read_text()
    )
}
FIRST, LAST = "    # the table of commands: tests/commands.py\n", "    # end of the table\n"


class Command(NamedTuple):
    name: str
    usage: list
    # the name of each option, and what help calls its value
    options: dict


def commands():
    """The commands of the table, in its order."""
    text = TABLE.read_text()
    word = r'name: "(\w+)",\s+kind: Kind::(\w+)'
    named = dict(re.findall(r"(?ms)const (\w+): (?:Word|&\[Word\]) = (.*?);$", text))
    rows = re.findall(r'(?s)CommandRow \{\s+name: "(\w+)".*?usage: "(.*?)",\s+words: (.*?),\n', text)
    for name, usage, words in rows:
        words = named.get(words, words)
        words = re.sub(r"\b[A-Z_]{2,}\b", lambda it: named.get(it[0], it[0]), words)
        kinds = re.findall(word, words)
        options = {option: KINDS[kind][0] for option, kind in kinds if kind != "Operand"}
        yield Command(name, usage.split("\n       "), options)


def replaced(text, front, back, middle):
    """A text with another part between two."""
    before, _, rest = text.partition(front)
    _, _, after = rest.partition(back)
    return f"{before}{front}{middle}{back}{after}"


def synopsis_line(line):
    """A line of usage in the macros of man: what is typed is bold, and what stands for it italic."""
    parts = re.findall(r"<[A-Z][A-Z-]*>|[A-Z]{3,}(?:-[A-Z]+)?|[\[\]|<>.]+|[^\[\]|<>A-Z.]+", line)
    out, font = ".B ", "B"
    for part in parts:
        kind = "I" if re.search("[A-Z]", part) else "R" if re.match(r"[\[\]|<>.]", part) else "B"
        part = part.strip("<>") if kind == "I" else part.replace("<", "").replace(">", "")
        if not part:
            continue
        if kind != font and part != " ":
            out, font = out + f"\\f{kind}", kind
        out += part.replace("-", "\\-")
    return out


def with_headings(page, table):
    """The manual with the heading of each command, but for one that has several lines of usage."""
    for it in table:
        if len(it.usage) == 1:
            heading = ".SS " + synopsis_line(it.usage[0]).removeprefix(".B chanv ")
            page = re.sub(rf"(?m)^\.SS {it.name} .*$", lambda _, line=heading: line, page)
    return page


def with_values(page, table):
    """The manual with what the value of each option is called."""
    for name, value in {pair for it in table for pair in it.options.items() if pair[1]}:
        value = value.replace("-", "\\\\-")
        page = re.sub(rf"(?m)^(\.BI \\-\\-{name}\\~ )[A-Z\\-]+", rf"\g<1>{value}", page)
    return page


def copies():
    """Each file that has a copy, with the text that it should have."""
    table = list(commands())
    usage = "\n       ".join(line for it in table for line in it.usage)
    yield TABLE, replaced(TABLE.read_text(), 'const USAGE: &str = "', '";', usage)
    lines = [synopsis_line(line) for it in table for line in it.usage]
    lines.append(".B chanv help \\fR[\\fICOMMAND\\fR]")
    page = replaced(PAGE.read_text(), ".SH SYNOPSIS\n.nf\n", ".fi\n", "\n".join([*lines, ""]))
    yield PAGE, with_values(with_headings(page, table), table)
    block = f"    local commands='{' '.join(it.name for it in table)} help'\n    local -A options=(\n"
    for it in table:
        block += f"        [{it.name}]='{' '.join(f'--{name}' for name in it.options)}'\n"
    valued = sorted({f"--{name}" for it in table for name, value in it.options.items() if value})
    block += f"    )\n    local valued='{' '.join(valued)}'\n"
    yield COMPLETIONS, replaced(COMPLETIONS.read_text(), FIRST, LAST, block)


def check(checks, _built):
    for path, text in copies():
        checks.expect(f"the copy of the table of commands in {path.name}", text, path.read_text())


if __name__ == "__main__":
    for path, text in copies():
        if "--write" in sys.argv:
            path.write_text(text)
        elif path.read_text() != text:
            sys.exit(f"{path}: run tests/commands.py --write")
