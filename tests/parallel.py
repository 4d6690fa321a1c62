"""Processes that write to one pipe: no line of one is broken by a line of another."""

import shlex
import tempfile
from pathlib import Path

from examples import FOLDERS, TEXTS, decks_of
from running import Ran, run

# each command, and the number of files that one process gets
COMMANDS = {"verify": 4, "list": 1, "why --all": 4}
PROCESSES, TIMES = 8, 10
LONG_NAME = "x" * 5000

# two No Operations, chained, and then no CCW: a program of 24 bytes
PROGRAM = bytes.fromhex("0300000040000001" "0300000000000001" "0000000000000000")
PROGRAMS, REFUSED = 1000, 2000


CARET = "{}: " + len("found chanv deck ") * " " + "^"
EXPECTED = "{}: expected chanv deck 1, chanv deck 2"


def lines_of(program, command, names, processes, count):
    """The lines on standard output and on standard error, sorted. A process gets so many names."""
    words = [program, *shlex.split(command)]
    xargs = ["xargs", "-0", "-P", str(processes), "-n", str(count), *words]
    ran = run(*xargs, given="\0".join(names).encode())
    return sorted(ran.output.splitlines()), sorted(ran.error.splitlines())


def check_lines(checks, program, command, names, count, wanted):
    """The lines of processes that run side by side, several times."""
    for time in range(TIMES):
        seen = lines_of(program, command, names, PROCESSES, count)
        checks.expect(f"{command}, {PROCESSES} processes, time {time}", wanted, seen)


def check_refused(checks, program, room):
    """The lines on standard error, each about a deck that is refused."""
    decks = [room / f"{number}.deck" for number in range(REFUSED)]
    for deck in decks:
        deck.write_text("chanv deck 3\n")
    names = [str(deck) for deck in decks]
    said = ["chanv: {}: deck line 1: header", "{}: found chanv deck 3", CARET, EXPECTED]
    wanted = [], sorted(line.format(name) for name in names for line in said)
    check_lines(checks, program, "verify", names, REFUSED // PROCESSES, wanted)


def check_found(checks, program, room):
    """The lines of `find`, each written as soon as its verdict is known."""
    image = room / "image"
    image.write_bytes(PROGRAMS * PROGRAM)
    shape = "2 CCWs: no-operation, no-operation"
    starts = [f"{24 * number:06X} yes {shape}" for number in range(PROGRAMS)]
    names, wanted = PROCESSES * [str(image)], (sorted(PROCESSES * starts), [])
    check_lines(checks, program, "find --device 2314", names, 1, wanted)


def check(checks, built):
    program = built.chanv()
    names = 2 * [str(deck) for folder in (*FOLDERS, TEXTS) for deck in decks_of(folder)]
    checks.expect_that("there are some hundred decks", len(names) > 300, len(names))
    for command, count in COMMANDS.items():
        output, error = lines_of(program, command, names, 1, count)
        checks.expect_that(f"{command} has a line for each deck", len(output) >= len(names), output)
        check_lines(checks, program, command, names, count, (output, error))
    with tempfile.TemporaryDirectory() as folder:
        check_refused(checks, program, Path(folder))
        check_found(checks, program, Path(folder))
    long = run(program, "verify", LONG_NAME)
    checks.expect("a long name", Ran(3, "", f"chanv: {LONG_NAME}: cannot open\n"), long)
