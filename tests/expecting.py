"""Counts what passes and what fails, and prints both: for every test.

A test is a module with a function `check(checks, built)`. It hands each of its checks to `checks`,
of the class Checks, which prints one that fails as it comes. `carry_out` runs a test and prints its
line; `finish` prints the last line and gives the status.
"""

import time
import traceback
from itertools import zip_longest

MOST_SHOWN = 300


class CannotRun(Exception):
    """What a test needs isn't there, or couldn't be built."""


def say(text):
    """Prints lines at once, so that those of another test don't come between."""
    print(f"{text}\n", end="", flush=True)


class Checks:
    """The checks of one test."""

    def __init__(self, test):
        self.test = test
        self.passed = self.failed = 0
        self.skipped, self.left_out = [], []
        self.could_run = True

    def fail(self, name, *details):
        self.failed += 1
        say("\n    ".join([f"FAILED {self.test}: {name}", *details]))

    def skip(self, part, why):
        """Names a part of the test that isn't tried here, and says why."""
        self.skipped.append(f"skipped {self.test}: {part}: {why}")

    def leave_out(self, part, why):
        """Names a part of the test that this run isn't asked for, and says what asks for it."""
        self.left_out.append(f"left out {self.test}: {part}: {why}")

    def expect_that(self, name, is_so, seen):
        if is_so:
            self.passed += 1
        else:
            self.fail(name, f"seen: {shown(seen)}")

    def expect(self, name, expected, seen):
        if seen == expected:
            self.passed += 1
        else:
            self.fail(name, *differences(expected, seen))

    def __str__(self):
        return f"{self.passed} passed, {self.failed} failed"


def shown(value):
    text = ascii(value)
    return text if len(text) <= MOST_SHOWN else text[:MOST_SHOWN] + " .."


def differences(expected, seen):
    """A line for each field of a named tuple that differs, and else one for the whole value."""
    names = getattr(expected, "_fields", ())
    if type(expected) is not type(seen) or not names:
        return [difference("", expected, seen)]
    fields = zip(names, expected, seen)
    return [difference(f"{name}: ", one, other) for name, one, other in fields if one != other]


def difference(where, expected, seen):
    """Of texts of several lines it shows the first line that differs."""
    if isinstance(expected, str) and isinstance(seen, str) and "\n" in expected + seen:
        pairs = zip_longest(expected.splitlines(True), seen.splitlines(True), fillvalue="")
        differing = ((number, *pair) for number, pair in enumerate(pairs, 1) if len({*pair}) > 1)
        number, expected, seen = next(differing)
        where += f"line {number}: "
    return f"{where}expected {shown(expected)}, got {shown(seen)}"


def carry_out(name, check, *given):
    """Runs a test, whatever becomes of it, and prints its line."""
    checks = Checks(name)
    began = time.monotonic()
    try:
        check(checks, *given)
        if not checks.passed and not checks.failed and not checks.skipped:
            checks.fail("it checks nothing")
    except CannotRun as why:
        checks.could_run = False
        checks.fail("it can't run", *str(why).splitlines())
    except Exception:
        checks.fail("it broke off", *traceback.format_exc().splitlines())
    say(f"{name}: {checks}, {time.monotonic() - began:.1f} s")
    return checks


def finish(tests, may_skip=True):
    """Names what was left out and what was skipped, and prints the last line over all tests. The
    status is 0 if all passed, 1 if a check failed or none was made, and 2 if a test couldn't run.
    What was skipped counts as failed if it may not be; what was left out never does."""
    whole = Checks("all")
    skipped = [part for test in tests for part in test.skipped]
    for part in (part for test in tests for part in test.left_out):
        say(part)
    for part in skipped:
        say(part if may_skip else f"FAILED {part}")
    whole.passed = sum(test.passed for test in tests)
    whole.failed = sum(test.failed for test in tests) + (0 if may_skip else len(skipped))
    say(f"{whole}, {len(skipped)} skipped" if skipped and may_skip else whole)
    if not all(test.could_run for test in tests):
        return 2
    return 1 if whole.failed or not whole.passed else 0
