"""How tests/run counts and bounds: its last lines, its status, and programs that don't end.

What was left out and what was skipped comes before the last line, by name. What is skipped fails a
run that may skip nothing; what is left out never does, and names the variable that asks for it. A
program that computes for ever ends by its seconds of a processor, and a program that waits doesn't.
"""

import os
import sys
from time import monotonic

from building import HERE
from running import Ran, run

# one test for each pair of passed and failed, then what the first leaves out and skips
SCRIPT = """
import sys
sys.path.insert(0, {!r})
from expecting import Checks, finish
tests = []
for passed, failed in {}:
    tests.append(Checks("it"))
    tests[-1].passed, tests[-1].failed = passed, failed
{}
sys.exit(finish(tests, {}))
"""
LEAVES = 'tests[0].leave_out("the rest", "ALL=1 tries it")'
SKIPS = 'tests[0].skip("a part", "no tool"); tests[1].skip("all of it", "no cargo")'
BREAKS = "tests[0].could_run = False"
LEFT, SKIPPED = "left out it: the rest: ALL=1 tries it\n", "skipped it: a part: no tool\n"
ALSO = "skipped it: all of it: no cargo\n"
# numbers, what happens, whether a part may be skipped; the lines and the status
FINISHED = [
    ([(2, 0), (3, 0)], "", True, "5 passed, 0 failed\n", 0),
    ([(2, 0), (3, 1)], "", True, "5 passed, 1 failed\n", 1),
    ([(0, 0)], "", True, "0 passed, 0 failed\n", 1),
    ([(2, 0)], LEAVES, True, f"{LEFT}2 passed, 0 failed\n", 0),
    ([(2, 0)], LEAVES, False, f"{LEFT}2 passed, 0 failed\n", 0),
    ([(2, 0), (3, 0)], SKIPS, True, f"{SKIPPED}{ALSO}5 passed, 0 failed, 2 skipped\n", 0),
    (
        [(2, 0), (3, 0)],
        SKIPS,
        False,
        f"FAILED {SKIPPED}FAILED {ALSO}5 passed, 2 failed\n",
        1,
    ),
    (
        [(2, 0), (3, 1)],
        f"{SKIPS}; {LEAVES}",
        True,
        f"{LEFT}{SKIPPED}{ALSO}5 passed, 1 failed, 2 skipped\n",
        1,
    ),
    ([(2, 0)], BREAKS, True, "2 passed, 0 failed\n", 2),
]

# each variable, the test that it asks for more, and whether that leaves out less
LEFT_OUT = """
import sys
sys.path.insert(0, {!r})
import {} as test
from expecting import Checks
checks = Checks("it")
{}
print(len(checks.left_out))
"""
OF_RUSTC = "test.leave_out(checks, {}, {})"
LEAVING = [
    ("rustc", OF_RUSTC.format(True, 2500), 0),
    ("rustc", OF_RUSTC.format(True, 300), 1),
    ("rustc", OF_RUSTC.format(True, 0), 2),
    ("rustc", OF_RUSTC.format(False, 2500), 1),
    ("rustc_library", "test.leave_out(checks, True)", 0),
    ("rustc_library", "test.leave_out(checks, False)", 1),
    ("races", "test.leave_out(checks, 5)", 1),
    ("races", "test.leave_out(checks, 20)", 0),
    ("coq_mutants", "test.leave_out(checks, test.USUAL)", 1),
    ("coq_mutants", "test.leave_out(checks, test.every())", 0),
]

# what a program does, its seconds of a processor and of the clock, and the status
BOUNDED = [
    ("while :; do :; done", 1, 600, "none in 1 s of a processor"),
    ("sleep 3", 1, 600, 0),
    ("sleep 100; true", 1, 1, "none in 1 s"),
    ("exec sleep 100", 1, 1, "none in 1 s"),
    ("exit 3", 1, 600, 3),
    ("kill -9 $$", 1, 600, -9),
]


def script_of(text):
    return run(sys.executable, "-B", "-c", text, env={**os.environ, "PYTHONPATH": str(HERE)})


def check(checks, _built):
    for numbers, happens, may_skip, lines, status in FINISHED:
        ran = script_of(SCRIPT.format(str(HERE), numbers, happens, may_skip))
        name = f"the last lines over {numbers}, {happens or 'all tried'}, {may_skip}"
        checks.expect(name, Ran(status, lines), ran)
    for test, leaves, count in LEAVING:
        ran = script_of(LEFT_OUT.format(str(HERE), test, leaves))
        checks.expect(f"how much is left out: {test}, {leaves}", Ran(0, f"{count}\n"), ran)
    for script, processor, timeout, status in BOUNDED:
        began = monotonic()
        ran = run("sh", "-c", script, processor=processor, timeout=timeout)
        checks.expect(f"{script}, {processor} s, {timeout} s", Ran(status), ran)
        checks.expect_that(f"{script} is over", monotonic() - began < 90, monotonic() - began)
