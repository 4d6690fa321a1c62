"""Runs rows: the words of a command line, its input, and the status, output and message expected.

Each test of the command line makes rows for `check_rows`. The fixed ones are in the files of rows/,
where a comment over each section says what its columns are:

    [SECTION]
    COLUMN | COLUMN | COLUMN
    COLUMN | COLUMN
        the last column, which is long \\
        and goes on
"""

import re
import shlex
from pathlib import Path
from typing import NamedTuple

from building import HERE, is_proved, version
from running import Ran, run, run_in_bash, text_of

MOST_SHOWN = 100
# usage faults that chanv words itself
OWN = ("error: invalid value ", "error: chanv show takes one CCW", " isn't a command; ")


class Row(NamedTuple):
    words: list
    # each of the two texts may be a pattern, which has to match all of it
    expected: Ran
    given: bytes | Path = b""
    # what starts the program in bash, if a stream is turned or a limit is set
    script: str = ""
    about: str = ""

    def name(self):
        """The words, what starts the program, and how the input ends, each cut where it is long."""
        given = self.given.name if isinstance(self.given, Path) else ascii(self.given[-MOST_SHOWN:])
        parts = ["chanv", *map(str, self.words), self.script, self.about]
        return f"{' '.join(filter(None, parts))[:MOST_SHOWN]}, input {given}"


def sections_of(name):
    """The sections of a file of rows/: the columns of each row."""
    text = re.sub(r"\\\n *", "", text_of(HERE / "rows" / name)).replace("\n    ", " | ")
    sections = {}
    for line in text.splitlines():
        if found := re.fullmatch(r"\[(.*)\]", line):
            rows = sections[found[1]] = []
        elif line and not line.startswith("#"):
            rows.append(line.split(" | "))
    return sections


def bytes_of(column):
    r"""The bytes that a column spells, with `\n` for a line feed and `\xHH` for any byte."""
    return column.encode("latin-1").decode("unicode_escape").encode("latin-1")


def words_of(column):
    """The words of a command line, as a shell reads them; `\\xHH` is any byte."""
    return [bytes_of(word) if "\\x" in word else word for word in shlex.split(column)]


def usage_fault(text, usage=""):
    """What comes of words that can't be a command line; usage lines may follow."""
    usage = f"\nUsage: {usage}\n" if usage else ""
    return Ran(4, "", f"error: {text}\n{usage}\nFor more information, try '--help'.\n")


def settled(expected, seen):
    """What is expected, or what was seen in place of a pattern that matches it."""
    is_met = isinstance(expected, re.Pattern) and expected.fullmatch(seen)
    return seen if is_met else expected


def without_clap(expected, ran):
    """Both without what clap words, whose versions differ, and with one text for the version."""
    if expected.output == f"chanv {version()}\n":
        expected = expected._replace(output=f"chanv {version()} (not proved)\n")
    # no pattern is for what clap words
    if isinstance(expected.error, re.Pattern) or not expected.error.startswith("error: "):
        return expected, ran
    if any(own in it.error for own in OWN for it in (expected, ran)):
        return expected, ran
    return [it._replace(error=it.error.partition(" ")[0]) for it in (expected, ran)]


def check_rows(checks, program, rows, **how):
    for row in rows:
        words, given = [program, *row.words], {"given": row.given, **how}
        ran = run_in_bash(row.script, *words, **given) if row.script else run(*words, **given)
        expected = Ran(*map(settled, row.expected, ran))
        if not is_proved(program):
            expected, ran = without_clap(expected, ran)
        checks.expect(row.name(), expected, ran)
