"""A program that changes while the library takes it in never starts unless it was judged.

The program of c/changing.c stores over a CCW, an argument, or a CCW that is read twice, at random
moments of `chanv_take_in`, as the channel of a program in flight may; and at each allocation of the
call in turn. Then storage is quiet: if the program may start, its verdict has to be yes, and what
is remembered has to be what quiet storage gives. A call that says that storage changed allows
nothing; it never comes over quiet storage, and some store brings it about. Each allocation refused
gives CHANV_MEMORY, and nothing is written. And a start is asked about while a program in the table
stores: into other bytes, which never matters, and over the new program, which always does. With
just enough memory for the one program, what the call leaves behind is looked at for each store of
the other.
"""

import re
import tempfile
from concurrent.futures import ThreadPoolExecutor
from pathlib import Path

from building import HERE, compile_with
from running import run

# so many places, and so many rounds of each mode
SIZES = [(8, 800), (64, 800), (4096, 80)]
MODES = ["once", "toggle", "seek", "link", "growths"]
# two threads each, so two at a time
AT_ONCE = 2
WRAPPED = "-Wl,--wrap=malloc,--wrap=realloc"

LINE = r"(\w+), \d+ places: (\d+) taken in, (\d+) changed, (\d+) started, of which 0 wrongly and 0 "
LINE += r"with other needs; 0 wrong refusals"
ROOM_LINE = r"(?m)^room: (\d+) taken in, (\d+) without room, (\d+) changed, 0 wrong$"


def check_size(checks, places, rounds, ran):
    found = {mode: [*map(int, few)] for mode, *few in re.findall(LINE, ran.output)}
    name = f"programs of {places} places that change"
    checks.expect_that(name, (ran.status, [*found]) == (0, MODES), ran)
    if [*found] == MODES:
        counts = {mode: taken + changed for mode, (taken, changed, _) in found.items()}
        raced = {mode: rounds for mode in MODES[:-1]}
        checks.expect(f"the rounds of {name}", raced | {"growths": counts["growths"]}, counts)
        checks.expect_that(f"some start of {name}", found["toggle"][2] > 0, found)
        checks.expect_that(f"a change is noticed in {name}", found["growths"][1] > 0, found)
    starts = f"start, {places} places: 0 refused beside stores, 0 granted over them\n"
    checks.expect_that(f"starts of {name}", starts in ran.output, ran)
    [counts] = re.findall(ROOM_LINE, ran.output) or [()]
    is_so = counts != () and all(int(count) > 0 for count in counts)
    checks.expect_that("each answer of a call with just enough memory", is_so, ran)


def check(checks, built):
    library = built.library()
    with tempfile.TemporaryDirectory() as room:
        made = Path(room) / "changing"
        program = compile_with(library, HERE / "c/changing.c", made, WRAPPED)
        with ThreadPoolExecutor(max_workers=AT_ONCE) as beside:
            more = [*MODES, "start", "room"]
            words = [[program, str(places), str(rounds), *more] for places, rounds in SIZES]
            for (places, rounds), ran in zip(SIZES, beside.map(lambda it: run(*it), words)):
                check_size(checks, places, rounds, ran)
