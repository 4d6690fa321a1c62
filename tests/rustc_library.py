"""The library for C by plain rustc, with nothing proved, under sanitizers and the library's tests.

The Rust part is built under AddressSanitizer, with each overflow and each assertion of Rust's
library checked; the C file and the programs of c/ are under UndefinedBehaviorSanitizer too. The
programs of c/ have to write over it what they write over the proved library, and tests of Python
run over it; if RUSTC_JOBS is set, as in the gate, so do those that take long: rooms of all sizes,
the rest of Python, races of 5 seconds, and programs that change. Without sanitizers, which have
their own memory, each growth of memory is refused, and the bytes between fields are looked at.

Without cargo or the crates the test is left out, by its name. If this compiler has no
AddressSanitizer, all runs without sanitizers, and that is named too.
"""

import os
import re
import shlex
import tempfile
from concurrent.futures import ThreadPoolExecutor
from pathlib import Path
from typing import NamedTuple

import cargo
from building import HERE, SANITIZED, c_compiler, compile_with
from expecting import CannotRun
from library import LINED, check_layout, check_lines, refuse_growths
from running import run
from rustc import WHOLE

# tests of tests/run; Python loads the sanitizer before itself
IN_PYTHON = ["nulls", "python_edges", "python_calls"]
LONG_IN_PYTHON = ["python", "python_supervisor"]
LONG_IN_C = ["changing", "races"]
# the program of c/ that takes long under sanitizers
LONG = "memory"


class Library(NamedTuple):
    """The library under test, what C programs with it are compiled with, and what Python needs."""

    folder: Path
    flags: list
    environment: dict


def library_under_test(checks):
    try:
        folder = cargo.sanitized_library()
    except CannotRun as why:
        checks.skip("sanitizers", str(why).splitlines()[-1])
        return Library(cargo.library(), [], {})
    # what Python itself leaves behind isn't meant
    first = {"LD_PRELOAD": cargo.runtime_of("asan"), "ASAN_OPTIONS": "detect_leaks=0"}
    return Library(folder, SANITIZED, first)


def check_programs(checks, library, room, is_whole):
    for name in LINED:
        if name != LONG or is_whole:
            compile_with(library.folder, HERE / f"c/{name}.c", room / name, *library.flags)
            check_lines(checks, room, name)


def check_checking(checks, library):
    """What rustc compiled checks what it should: overflows, what Rust's library asserts, and under
    sanitizers each access."""
    listed = run("nm", library.folder / "libchanv.a").output
    of_walk = re.search(r"(?ms)^chan_walk-\S+:\n(.*?)^$", listed)[1]
    called = " ".join(re.findall(r"(?m)^ +U (\S+)", of_walk))
    wanted = ["panic_const_add_overflow", "panic_nounwind", "__asan_report_store"]
    for name in wanted if library.flags else wanted[:2]:
        checks.expect_that(f"chan_walk calls {name}", name in called, called)


def check_plain(checks, room):
    """What sanitizers would hide: bytes of the stack in an answer, and refused memory."""
    plain = cargo.library()
    check_layout(checks, plain, room, is_proved=False)
    for name in ("one_call", "bytes"):
        compile_with(plain, HERE / f"c/{name}.c", room / name)
    check_lines(checks, room, "bytes")
    refuse_growths(checks, room)


def check_tests(checks, library, chanv, is_whole):
    """Runs tests of tests/run over the library, and counts what they count."""
    compiler = {**os.environ, "CC": shlex.join([*c_compiler(), *library.flags])}
    # sanitizers find a fault of memory in any run, so that no answer has to come
    compiler["RACE_SECONDS"] = ""
    groups = [(IN_PYTHON + LONG_IN_PYTHON * is_whole, compiler | library.environment)]
    groups += [(LONG_IN_C, compiler)] * is_whole
    where = ["--library", library.folder, "--program", chanv]

    def ran_with(group):
        names, environment = group
        return run(HERE / "run", *names, *where, env=environment, timeout=None)

    with ThreadPoolExecutor() as beside:
        for (names, _), ran in zip(groups, beside.map(ran_with, groups)):
            count(checks, " ".join(names), ran)


def count(checks, names, ran):
    *lines, last = ran.output.splitlines() or [""]
    found = re.fullmatch(r"(\d+) passed, (\d+) failed(?:, \d+ skipped)?", last)
    checks.passed += int(found[1]) if found else 0
    checks.skipped += [line for line in lines if line.startswith("skipped ")]
    if ran.status != 0 or not found:
        checks.fail(f"{names} over it", *ran.output.splitlines(), *ran.error.splitlines())


def leave_out(checks, is_whole):
    """Names what this run isn't asked for."""
    if not is_whole:
        left = f"{LONG} in C, and the tests {', '.join(LONG_IN_PYTHON + LONG_IN_C)} over it"
        checks.leave_out(left, f"RUSTC_JOBS={WHOLE} tries them")


def check(checks, built):
    if why := cargo.missing():
        checks.skip("all of it", why)
        return
    library, is_whole = library_under_test(checks), bool(os.environ.get("RUSTC_JOBS"))
    leave_out(checks, is_whole)
    with tempfile.TemporaryDirectory() as room:
        check_checking(checks, library)
        check_programs(checks, library, Path(room), is_whole)
        check_plain(checks, Path(room))
    check_tests(checks, library, built.chanv(), is_whole)
