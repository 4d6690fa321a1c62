#!/usr/bin/env python3
"""Proves every crate by the kit's gate, builds chanv and the library for C, and tries the mutants.

    tests/audit.py             all of that
    tests/audit.py --proofs    only proves

The kit's gate is `rt ci`; tests/kit_gate.py runs it and keeps what it builds. It runs in a copy
without must-fail/, because for these edits it would prove a crate once more. If the checkout has no
libraries, it gets each library and program that `rt ci` built, and all that follows begins with
these: `make`, `make lib`, and the mutants of a crate once it is proved. A library holds what the
kit made of the proofs, in the files that a check keeps in out/incremental, so they go there too.
Should a kit keep other files, a check of the crate proves it once more.

The program of the unit tests goes to out/unit_tests; tests/run would have to prove it again.

While `rt ci` runs, a quarter of the processors try no mutants. Its last line is `N passed, M
failed`, the mutants' is `N refused, M failed`, and the status is 1 if an M isn't 0.
"""

import argparse
import concurrent.futures
import json
import os
import re
import shutil
import subprocess
import sys
import tempfile
import time
from pathlib import Path

sys.dont_write_bytecode = True

from mutants import (  # noqa: E402
    CRATES,
    ROOT,
    STANDS_ON,
    Trying,
    is_proved,
    is_proved_in_copy,
    with_mutants,
)

# how `rt ci` says that it has proved a crate, or has kept it from an earlier run
PROVED = re.compile(r"rt: (\w+) (?:proved$|is kept: )")
START = time.monotonic()
# the targets of make for what isn't a library of other crates, and for a library for C that is built
TARGETS = {"chanv": "run", "chanv_c": "lib"}
LINK = "link"


def copy_of_all(room):
    """A copy of the checkout, without what was built and without must-fail/."""

    def left_out(_, names):
        return {".git", "out", "must-fail"} & {*names}

    return shutil.copytree(ROOT, Path(room) / "copy", symlinks=True, ignore=left_out)


def give(copy, crate):
    """Gives the checkout what `rt ci` built of the crate: program, or library with its proofs."""
    built, out = copy / "crates" / crate / "out", CRATES / crate / "out"
    archive = built / f"rlib/{crate}.rlib/lib{crate}.a"
    for file in (built / crate, built / f"{crate}.o", built / f"{crate}.stamp", archive):
        if file.is_file():
            out.mkdir(exist_ok=True)
            shutil.copy(file, out)
    if not (built / "rlib").is_dir():
        return
    shutil.copytree(built / "rlib", out / "rlib")
    try:
        keep_proofs(built / f"rlib/{crate}.rlib/toolchain", out / "incremental")
    except Exception as error:
        shutil.rmtree(out / "incremental", ignore_errors=True)
        print(f"a check has to prove {crate} once more: {error!r}", flush=True)


def keep_proofs(library, kept):
    """Takes the crate's modules out of its library, into a folder that is named as a check does."""
    (kept / "modules").mkdir(parents=True)
    with open(library / "checked.a", "rb") as archive:
        for line in (library / "checked.json").read_text().splitlines():
            name, start, size = json.loads(line)
            # others are of the libraries below
            if "/" not in name:
                archive.seek(start)
                module = archive.read(size)
                (kept / f"modules/{name}.oantt").write_bytes(module)
    kernel = re.search(rb"(?m)^--@ kernel (\S+)$", module)[1].decode()
    (kept / "modules").rename(kept / kernel.replace("/", "_"))


def is_made(target):
    return not subprocess.call(["make", target], cwd=ROOT, stdin=subprocess.DEVNULL)


class Audit:
    """What was proved and given so far, and what tries the mutants."""

    def __init__(self, copy, pool, crates):
        self.copy, self.pool, self.trying = copy, pool, Trying(pool)
        self.left, self.given = crates, set()
        self.gives = not any(CRATES.glob("*/out/rlib"))

    def begin(self, crate):
        self.left.remove(crate)
        self.trying.begin(crate, self.is_ready)

    def is_ready(self, crate):
        """Whether the crate is proved in the checkout, and what isn't a library of others built."""
        if crate in self.given and (CRATES / crate / f"out/lib{crate}.a").is_file():
            return is_made(LINK) and is_proved_in_copy(crate)
        if crate in TARGETS:
            return is_made(TARGETS[crate])
        return is_proved_in_copy(crate) if crate in self.given else is_proved(crate)

    def proved(self, crate):
        if self.gives and crate not in self.given:
            self.given.add(crate)
            give(self.copy, crate)
            if crate in self.left:
                self.begin(crate)

    def prove(self):
        """The status of `rt ci`, after which all that it proved is given."""
        how = {"stdin": subprocess.DEVNULL, "stdout": subprocess.PIPE, "errors": "replace"}
        with subprocess.Popen([ROOT / "tests/kit_gate.py"], cwd=self.copy, **how) as proving:
            for _ in range(len(os.sched_getaffinity(0)) // 4):
                self.pool.submit(proving.wait)
            for line in proving.stdout:
                print(line, end="", flush=True)
                found = PROVED.match(line)
                if found:
                    say_when(f"{found[1]} was proved")
                    self.proved(found[1])
        for crate in STANDS_ON if proving.returncode == 0 else ():
            self.proved(crate)
        say_when("rt ci ended")
        return proving.returncode


def say_when(what):
    minutes, seconds = divmod(int(time.monotonic() - START), 60)
    print(f"{what}, {minutes}:{seconds:02} after the start", flush=True)


def main():
    said = argparse.ArgumentParser(prog="tests/audit.py", description=__doc__.splitlines()[0])
    said.add_argument("--proofs", action="store_true", help="prove, and try no mutants")
    crates = [] if said.parse_args().proofs else with_mutants()
    processors = len(os.sched_getaffinity(0))
    with (
        tempfile.TemporaryDirectory(prefix="audit-") as room,
        concurrent.futures.ThreadPoolExecutor(processors) as pool,
    ):
        audit = Audit(copy_of_all(room), pool, [*crates])
        if audit.prove():
            pool.shutdown(cancel_futures=True)
            return 1
        (ROOT / "out").mkdir(exist_ok=True)
        shutil.copy(audit.copy / "crates/unit_tests/out/unit_tests_tests", ROOT / "out/unit_tests")
        for crate in [*audit.left]:
            audit.begin(crate)
        status = audit.trying.end() if crates else 0
    say_when("the audit ended")
    return status


if __name__ == "__main__":
    sys.exit(main())
