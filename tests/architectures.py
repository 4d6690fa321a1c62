"""What plain rustc builds for other machines, against the program of this machine.

`make rustc TARGET=..` builds program and library for each machine, with each overflow checked, and
qemu runs them. The program writes what the proved program writes over all decks, images, words and
command lines, and the programs of c/ write their lines with the library. s390x has the other order
of bytes. i686 has words of 32 bits: there a sum of two addresses wraps, which on 64 bits, where all
is proved, none does; c/far.c asks about such addresses and rows. aarch64 and armv7 are those of a
Raspberry Pi.

A machine without its linker, its qemu or a compiler with Rust's library for it is left out, by its
name. `rustc/machines.sh` loads such a compiler into out/machines.
"""

import os
import shlex
import shutil
import tempfile
from concurrent.futures import ThreadPoolExecutor
from pathlib import Path

import rustc
from building import FLAGS, HERE, NOT_PROVED, ROOT, must_succeed
from expecting import Checks
from library import LINED, check_lines
from running import run, write_script

COMPILER = ROOT / "out/machines"
# the machines, and what runs a program of each by the name that follows; x86-64 itself runs i686's
OF_I686 = "/usr/i686-linux-gnu/lib"
MACHINES = [
    ("s390x", "linux-gnu", "qemu-s390x-static -L /usr/s390x-linux-gnu -0"),
    ("aarch64", "linux-gnu", "qemu-aarch64-static -L /usr/aarch64-linux-gnu -0"),
    ("armv7", "linux-gnueabihf", "qemu-arm-static -L /usr/arm-linux-gnueabihf -0"),
    ("i686", "linux-gnu", f"{OF_I686}/ld-linux.so.2 --library-path {OF_I686} --argv0"),
]
IN_C = [*LINED, "bytes"]
# random jobs for each machine
JOBS = 20


class Machine:
    def __init__(self, name, system, runner):
        self.name, self.target = name, f"{name}-unknown-{system}"
        self.tools, self.runner = f"{name.removesuffix('v7')}-{system}", runner
        self.built = NOT_PROVED / self.target

    def lacks(self):
        """What is missing to build for the machine and to run what is built, or None."""
        for tool in (f"{self.tools}-gcc", self.runner.split()[0]):
            if shutil.which(tool) is None:
                return f"no {tool}"
        words = ["rustc", "--print", "target-libdir", "--target", self.target]
        where = run(*words, env=with_compiler()).output.strip()
        return None if any(Path(where).glob("libstd-*")) else f"no rustc for {self.target}"

    def started(self, path, program):
        """A program of this machine that runs one of the other, by the name it was called."""
        words = f'{self.runner} "$0" {shlex.quote(str(program))} "$@"'
        write_script(path, f"#!/bin/sh\nexec {words}\n")
        return path


def with_compiler():
    return {**os.environ, "PATH": f"{COMPILER}:{os.environ['PATH']}"}


def build(machine):
    words = ["make", "-C", ROOT, "rustc", f"TARGET={machine.target}", "PROFILE=checked"]
    must_succeed(*words, env=with_compiler(), timeout=None)


def check_program(checks, folder, machine, proved):
    started = machine.started(folder / "other", machine.built / "chanv")
    programs = [rustc.as_chanv(it, folder) for it in (proved, started)]
    (folder / "inputs").mkdir()
    rustc.check_inputs(checks, programs, folder, JOBS)
    rustc.check_words(checks, programs)
    rustc.check_command_lines(checks, programs, folder / "inputs")


def check_library(checks, folder, machine):
    compiler = [f"{machine.tools}-gcc", *FLAGS, f"-I{machine.built}", f"-I{ROOT / 'examples/c'}"]
    for name in IN_C:
        made = folder / f"{name}.made"
        linked = [HERE / f"c/{name}.c", machine.built / "libchanv.a", "-pthread"]
        must_succeed(*compiler, "-o", made, *linked)
        machine.started(folder / name, made)
        check_lines(checks, folder, name)


def checks_of(machine, proved):
    checks = Checks(f"architectures, {machine.name}")
    with tempfile.TemporaryDirectory() as room:
        check_library(checks, Path(room), machine)
        check_program(checks, Path(room), machine, proved)
    return checks


def check(checks, built):
    if why := rustc.missing():
        checks.skip("all of it", why)
        return
    machines, proved = [], built.chanv()
    for machine in (Machine(*names) for names in MACHINES):
        if why := machine.lacks():
            checks.skip(machine.name, why)
        else:
            build(machine)
            machines.append(machine)
    with ThreadPoolExecutor() as beside:
        for done in beside.map(lambda machine: checks_of(machine, proved), machines):
            checks.passed += done.passed
            checks.failed += done.failed
