#!/usr/bin/env python3
"""Runs `chanv verify`, `list` and `why` over the decks of a folder and prints a table. Called by measure.sh.

    measure.py PROGRAM FOLDER RUNS LIMIT

Seconds are those of the clock, of the fastest of RUNS runs; the peak is the largest resident set of all runs. A run
that takes more than LIMIT seconds of the processor is ended, and the deck isn't run again.
"""

import os
import re
import resource
import subprocess
import sys
import time
from pathlib import Path

GNU_TIME = "/usr/bin/time"
MEGA = 1_000_000


def run_limits(limit):
    """Set in the child before the program starts: when it is over the limit the system ends it."""

    def set_limits():
        resource.setrlimit(resource.RLIMIT_CPU, (limit, limit))
        resource.setrlimit(resource.RLIMIT_CORE, (0, 0))

    return set_limits


def run(program, action, deck, report, limit):
    """Seconds, peak in bytes, status, and the verdict's line, of one run."""
    by_time = os.access(GNU_TIME, os.X_OK)
    command = [GNU_TIME, "-v", "-o", report] if by_time else []
    command += [program, action]
    with open(deck, "rb") as text:
        begin = time.perf_counter()
        child = subprocess.Popen(
            command, stdin=text, stdout=subprocess.PIPE, stderr=subprocess.STDOUT, preexec_fn=run_limits(limit)
        )
        printed = child.stdout.read().decode("ascii", "replace")
        _, wait_status, usage = os.wait4(child.pid, 0)
        seconds = time.perf_counter() - begin
    child.returncode = status = os.waitstatus_to_exitcode(wait_status)
    kibibytes = usage.ru_maxrss
    if by_time:
        kibibytes = int(re.search(r"Maximum resident set size \(kbytes\): (\d+)", report.read_text())[1])
    lines = printed.splitlines() or [""]
    return seconds, kibibytes * 1024, status, lines[0 if action == "why" else -1]


def measure(program, action, deck, report, runs, limit):
    """Seconds, peak and what was printed; the last says more where it isn't a verdict with its status."""
    fastest, highest = float("inf"), 0
    for _ in range(runs):
        seconds, peak, status, line = run(program, action, deck, report, limit)
        fastest, highest = min(fastest, seconds), max(highest, peak)
        if status != (0 if line == "yes" else 1):
            return seconds, highest, f"status {status}: {line}" if seconds < limit else f"none in {limit} s"
    return fastest, highest, line


def main(program, folder, runs, limit):
    folder = Path(folder)
    print(f"{'deck':<20}{'action':<8}{'text MB':>9}{'seconds':>10}{'MB/s':>8}{'peak MB':>9}  verdict")
    wrong = 0
    for row in (folder / "verdicts.txt").read_text().splitlines():
        name, expected = row.split("\t")
        deck = folder / name
        size = deck.stat().st_size
        for action in ("verify", "list", "why"):
            seconds, peak, verdict = measure(program, action, deck, folder / "report", int(runs), int(limit))
            wrong += verdict != expected
            shown = verdict if verdict == expected else f"{verdict} (expected {expected})"
            numbers = f"{size / MEGA:>9.3f}{seconds:>10.3f}{size / MEGA / seconds:>8.1f}{peak / MEGA:>9.1f}"
            print(f"{deck.stem:<20}{action:<8}{numbers}  {shown}", flush=True)
    sys.exit(1 if wrong else 0)


if __name__ == "__main__":
    main(*sys.argv[1:])
