"""The library for C while a second thread rewrites the program that it looks at.

The program of c/race.c makes each call for so many seconds, 5 or what RACE_SECONDS says, over a
program whose CCWs, arguments and mask a second thread rewrites meanwhile, also byte by byte; four
calls run at a time, each in a process of its own. A call has to return, may write only the memory
that it was handed for that, and has to answer with one of its codes: yes, no, too many places or
too little room, because the job itself is right. Which of them come is left to chance, except in a
run of 20 seconds or more: there each has to come. `chanv_check_write` doesn't look at storage, and
always answers yes. `chanv_take_in` may also answer that storage changed.
`ask` of examples/c/emulator.c has to give an answer that holds: over any storage with the kept
bytes the program may start exactly if the verdict there is yes.
"""

import os
import re
import tempfile
from concurrent.futures import ThreadPoolExecutor
from pathlib import Path

from building import HERE, compile_with
from running import MOST_SECONDS, run

AT_ONCE = 4
SECONDS = 5
# a run that takes as long sees each code
LONG = 20
MOST_THREADS = 2

# the codes of chanv.h that each call gives over a job without a fault, while there is memory; the
# emulator asks again if storage changed, so this code needn't come
CODES = {
    "verify": {0, 1, 2},
    "list": {0, 2, 11},
    "why": {0, 1, 2, 11},
    "text": {0, 1, 2, 11},
    "take_in": {0, 1, 2, 11, 12},
    "check_start": {0, 1},
    "check_write": {0},
    "emulator": {0, 1, 2},
}


def check_call(checks, call, seconds, ran):
    ended = ran.status == 0 and not ran.error
    checks.expect_that(f"{call} while storage changes, for {seconds} s", ended, ran)
    codes = {int(code) for code in re.findall(r", \d+ times (\d+)", ran.output)}
    rare = {12} if call == "emulator" else set()
    are_right = codes - rare == CODES[call] if seconds >= LONG else codes - rare <= CODES[call]
    checks.expect_that(f"the codes of {call} while storage changes", are_right, codes)


def leave_out(checks, seconds):
    """Names what so short a run isn't asked for."""
    if seconds < LONG:
        checks.leave_out("that each answer comes", f"RACE_SECONDS={LONG} waits for them")


def check(checks, built):
    library, seconds = built.library(), int(os.environ.get("RACE_SECONDS") or SECONDS)
    leave_out(checks, seconds)
    with tempfile.TemporaryDirectory() as room:
        program = compile_with(library, HERE / "c/race.c", Path(room) / "race")
        # each thread of a race takes a processor
        most = MOST_THREADS * seconds + MOST_SECONDS
        with ThreadPoolExecutor(max_workers=AT_ONCE) as beside:
            runs = beside.map(lambda call: run(program, str(seconds), call, processor=most), CODES)
            for call, ran in zip(CODES, runs):
                check_call(checks, call, seconds, ran)
