#!/usr/bin/env python3
"""Runs `rt ci`, the kit's gate, so that what it builds serves later steps.

By itself `rt ci` gives a proof as many jobs as there are idle processors, one if other proofs wait.
Each job loads all the libraries below the crate, which takes up to two minutes. Here a proof gets a
job for each thousand lines of its sources, but no more than all processors but one, and the proof
of tests gets one. Mutants take what is left.

`rt ci` builds libraries that hold what they state, without the proofs, leaves no sum of the sources
beside a program, and builds no static library. Here libraries are those that `rt lib` builds, a
program has the sum by which `rt run` sees that nothing has changed, and a static library is built
from what was proved.

All else is the kit's own: what it proves, how, and what it prints. What the kit does otherwise than
is expected here stays as it is.
"""

import copy
import importlib.machinery
import importlib.util
import os
import shutil
import sys

sys.dont_write_bytecode = True

# how many lines of sources make it worth that a job loads the libraries
LINES_OF_A_JOB = 1000


def kit_at(path):
    """The program `rt` as a module."""
    loader = importlib.machinery.SourceFileLoader("rt", path)
    kit = importlib.util.module_from_spec(importlib.util.spec_from_loader("rt", loader))
    loader.exec_module(kit)
    return kit


def share_out_jobs(kit):
    """Has each proof of `rt ci` take jobs by its crate's size, and libraries keep their proofs."""
    in_lanes, most = kit.in_lanes, max(kit.processors() - 1, 1)

    def task(name, waits, lines, needs, call):
        # no other proof waits for that of tests
        share = 1 if name[1] == "tests" else lines // LINES_OF_A_JOB
        jobs = min(max(share, 1), most)
        return waits, lines, needs, lambda given, _: call(given, jobs)

    def in_lanes_by_size(tasks):
        try:
            tasks = {name: task(name, *it) for name, it in tasks.items()}
        except TypeError as error:
            say_why(error)
        # until here the kit says that libraries shall have no proofs
        kit.Crate.cuts_libraries = False
        return in_lanes(tasks)

    kit.in_lanes = in_lanes_by_size


def leave_sums(kit):
    """Has `rt ci` write the sum of its sources beside each program that it proved and built."""
    prove, read_files, sum_of = kit.Crate.ci, kit.read_files, kit.rtlib.sum_of

    def prove_and_leave_sum(crate, flags, tests):
        as_run = copy.copy(crate)
        read_files(as_run)
        sources = as_run.stamp()
        status = prove(crate, flags, tests)
        if status == 0 and crate.is_program and not tests:
            program = f"{crate.folder}/out/{crate.name}"
            with open(f"{program}.stamp", "w", encoding="utf-8") as stamp:
                stamp.write(sources + sum_of(program))
        return status

    kit.Crate.ci = prove_and_leave_sum


def build_static_libraries(kit):
    """Has `rt ci` build each static library from what it proved, and leave it with its proofs."""
    prove = kit.Crate.ci

    def prove_and_build(crate, flags, tests):
        if tests or not crate.is_static:
            return prove(crate, flags, tests)
        words, made = crate.words(flags, keeps=False), f"out/rlib/{crate.name}.rlib"
        os.makedirs(f"{crate.folder}/out/rlib", exist_ok=True)
        status = crate.prove(["check", *words, "-o", made])
        if status == 0:
            build(kit, crate, words, made)
        return status

    kit.Crate.ci = prove_and_build


def build(kit, crate, words, made):
    """Compiles a static library that was proved. Without it, `make lib` proves it once more."""
    for flag in ("--logic-built", "--jobs"):
        at = words.index(flag)
        words = [*words[:at], *words[at + 2 :]]
    more = ["--crate-checked", made, "--toolchain", f"{kit.KIT}/toolchain"]
    crate.call(kit.rtlib.RATTLE, "build", *words, *more, "-o", f"{made}/lib{crate.name}.a")


def say_why(error):
    print(f"rt ci stays as the kit has it: {error!r}", flush=True)


def main():
    program = shutil.which("rt") or sys.exit("tests/kit_gate.py: no program rt")
    try:
        kit = kit_at(os.path.realpath(program))
        share_out_jobs(kit)
        leave_sums(kit)
        build_static_libraries(kit)
    except (Exception, SystemExit) as error:
        say_why(error)
        os.execv(program, ["rt", "ci"])
    return kit.main(["ci"])


if __name__ == "__main__":
    sys.exit(main())
