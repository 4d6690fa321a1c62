#!/usr/bin/env python3
"""Measures chanv beside limit.c, a verifier written by hand in C, and prints a table.

    bench/ratios.py [PROGRAM [LIBRARY]]

PROGRAM is the built chanv, else crates/chanv/out/chanv; LIBRARY is the folder of libchanv.a and
chanv.h, else out. For a command the table has millions of instructions and milliseconds, for a call
of the library instructions and microseconds. valgrind counts the instructions; the time is that of
the clock, of the fastest of five runs. The status is 1 if an answer differs, or if a call of the
library doesn't say yes.
"""

import os
import re
import shlex
import subprocess
import sys
import tempfile
import time
from pathlib import Path
from random import Random
from typing import NamedTuple

BENCH = Path(__file__).resolve().parent
FLAGS = ["-O3", "-march=x86-64", "-Wall", "-Wextra"]
VALGRIND = ["valgrind", "--tool=callgrind", "--callgrind-out-file=/dev/null"]
RUNS = 5

DECKS = [f"{name}-65536" for name in ("places", "chain", "comb", "scattered", "areas-apart")]
DECKS += ["extents", "full-storage"]
COMMANDS = [("verify", name) for name in DECKS] + [("list", name) for name in DECKS[:4]]

IMAGE_SIZE = 16_777_216

# what repeat.c calls, in chanv and in limit.c, and how many places the program has
CALLS = [("verify", "limit", places) for places in (1, 8, 64)]
CALLS += [("take_in", "", places) for places in (1, 8, 64)]
CALLS += [("check_start", "", 8), ("check_write", "", 8)]
# one call costs what so many cost more than one, divided
COUNTED, TIMED = 11, 20_001


class Asked(NamedTuple):
    """What is asked of chanv and of limit.c: the words of each, none if limit.c has no such thing,
    and their input. A call is made as often as a last word says."""

    name: str
    chanv: list
    limit: list
    given: Path | None = None
    is_call: bool = False

    def both(self):
        return [words for words in (self.chanv, self.limit) if words]


def compiled(source, made, *words):
    compiler = shlex.split(os.environ.get("CC") or "cc")
    subprocess.run([*compiler, *FLAGS, "-o", made, BENCH / source, *words], check=True)
    return made


def compiled_limit(room):
    return compiled("limit.c", room / "limit")


def over_decks(program, limit, room):
    subprocess.run([sys.executable, BENCH / "decks.py", room, *DECKS], check=True)
    for command, name in COMMANDS:
        deck = room / f"{name}.deck"
        yield Asked(f"{command} {name}", [program, command], [limit, command], deck)


def over_images(program, limit, room):
    for name, image in (("zeros", bytes(IMAGE_SIZE)), ("noise", Random(43).randbytes(IMAGE_SIZE))):
        path = room / f"{name}.bin"
        path.write_bytes(image)
        find = [program, "find", "--device", "2314", path]
        yield Asked(f"find in 16 MiB of {name}", find, [limit, "scan", path])


def of_library(library, room):
    limit = compiled("limit.c", room / "limit.o", "-DLIBRARY", f"-I{library}", "-c")
    linked = [limit, f"-I{library}", library / "libchanv.a", "-pthread"]
    repeat = compiled("repeat.c", room / "repeat", *linked)
    for call, other, places in CALLS:
        name = f"chanv_{call}, {places} place{'s' if places > 1 else ''}"
        words = [[repeat, it, str(places)] if it else [] for it in (call, other)]
        yield Asked(name, *words, is_call=True)


def all_asked(program, library, room):
    """Everything that is measured."""
    limit = compiled_limit(room)
    yield from over_decks(program, limit, room)
    yield from over_images(program, limit, room)
    yield from of_library(library, room)


def run(words, given, output=subprocess.DEVNULL):
    with open(given or os.devnull, "rb") as read:
        return subprocess.run(words, stdin=read, stdout=output, stderr=subprocess.PIPE)


def count(words, given):
    """The instructions of a run."""
    error = run([*VALGRIND, *words], given).stderr.decode()
    return int(re.search(r"I +refs: +([\d,]+)", error)[1].replace(",", ""))


def seconds(words, given):
    begun = time.perf_counter()
    run(words, given)
    return time.perf_counter() - begun


def fastest(words, given):
    return min(seconds(words, given) for _ in range(RUNS))


def costs(asked, cost_of, times):
    """The cost for chanv and then for limit.c; for a call, the difference that more calls make."""
    for words in asked.both():
        if asked.is_call:
            many, one = (cost_of([*words, str(often)], None) for often in (times, 1))
            yield (many - one) / (times - 1)
        else:
            yield cost_of(words, asked.given)


def instructions(asked):
    return [*costs(asked, count, COUNTED)]


def are_right(asked):
    """Whether both write the same for a deck, and say yes to a call."""
    often = ["1"] if asked.is_call else []
    ran = [run([*words, *often], asked.given, subprocess.PIPE) for words in asked.both()]
    if asked.given:
        return len({(each.returncode, each.stdout) for each in ran}) == 1
    return not any(each.returncode for each in ran)


def cells(values, scale, form):
    """The columns of chanv and of limit.c, and their ratio."""
    shown = [form.format(scale * value) for value in values]
    if len(values) == 1:
        return f"{shown[0]} | – | –"
    return f"{shown[0]} | {shown[1]} | {values[0] / values[1]:.2f}"


def row(asked):
    counts, times = instructions(asked), [*costs(asked, fastest, TIMED)]
    if asked.is_call:
        counted, timed = cells(counts, 1, "{:,.0f}"), cells(times, 1e6, "{:.2f}")
    else:
        counted, timed = cells(counts, 1e-6, "{:.1f}"), cells(times, 1000, "{:.0f}")
    return f"| {asked.name} | {counted} | {timed} |"


def main():
    program = sys.argv[1] if len(sys.argv) > 1 else BENCH.parent / "crates/chanv/out/chanv"
    library = sys.argv[2] if len(sys.argv) > 2 else BENCH.parent / "out"
    wrong = []
    print("| | chanv | limit.c | ratio | chanv, time | limit.c, time | ratio |")
    print("|---|---|---|---|---|---|---|")
    with tempfile.TemporaryDirectory() as room:
        for asked in all_asked(Path(program).resolve(), Path(library).resolve(), Path(room)):
            print(row(asked), flush=True)
            wrong += [] if are_right(asked) else [asked.name]
    for name in wrong:
        print(f"other answers: {name}", file=sys.stderr)
    return 1 if wrong else 0


if __name__ == "__main__":
    sys.exit(main())
