"""`make static` and `make static-rustc` make one program that runs with nothing else.

What plain rustc compiles is tried for this machine and for those of the test `architectures`, and
what is proved if it is under test. Each program is no larger than README says, asks for no loader and
no library, says whether it is proved, and in a folder that has nothing else, which is its root, has
the verdicts of the examples. A machine is left out by its name as in that test; without the
superuser the programs run, but not in a root of their own.
"""

import os
import re
import shutil
import tempfile
from pathlib import Path

from architectures import MACHINES, Machine, with_compiler
from building import NOT_PROVED, ROOT, is_proved, most_bytes, must_succeed, said_version
from cargo import missing
from examples import EXAMPLES, decks_of, status_of, verdicts_of
from running import Ran, run

NAME = "chanv-static"


def in_root(room, program, runner):
    """The words by which a program runs in a root of its own, whose folder has nothing else but
    what runs it."""
    root = Path(tempfile.mkdtemp(dir=room))
    files = [program, *([shutil.which(runner)] if runner else [])]
    for file in files:
        shutil.copy(file, root)
    inside = [f"/{Path(file).name}" for file in reversed(files)]
    if os.geteuid() == 0:
        return ["chroot", root, *inside]
    return ["env", "-i", *(f"{root}{file}" for file in inside)]


def check_program(checks, about, program, runner=""):
    size = program.stat().st_size
    checks.expect_that(f"the size of {about}", size <= most_bytes("static"), size)
    asked = run("readelf", "-lW", program).output + run("readelf", "-dW", program).output
    found = re.findall(r"INTERP|NEEDED.*", asked)
    checks.expect(f"what {about} asks for", [], found)
    with tempfile.TemporaryDirectory() as room:
        words = in_root(room, program, runner)
        said = Ran(0, said_version(program))
        checks.expect(f"the version of {about}", said, run(*words, "--version"))
        verdicts = verdicts_of(EXAMPLES)
        for deck in decks_of(EXAMPLES):
            verdict = verdicts[deck.name]
            wanted = Ran(status_of(verdict), f"{verdict}\n")
            ran = run(*words, "verify", given=deck)
            checks.expect(f"{deck.name} by {about}", wanted, ran._replace(error=""))


def check_proved(checks):
    must_succeed("make", "-s", "-C", ROOT, "static", timeout=None)
    check_program(checks, "the proved program", ROOT / "out" / NAME)


def check_rustc(checks):
    if why := missing():
        checks.skip("what rustc compiles", why)
        return
    must_succeed("make", "-s", "-C", ROOT, "static-rustc", timeout=None)
    check_program(checks, "the program by rustc", NOT_PROVED / NAME)
    for machine in (Machine(*names) for names in MACHINES):
        if why := machine.lacks():
            checks.skip(machine.name, why)
            continue
        words = ["make", "-s", "-C", ROOT, "static-rustc", f"TARGET={machine.target}"]
        must_succeed(*words, env=with_compiler(), timeout=None)
        # this machine runs what is for i686 itself
        qemu = machine.runner.split()[0] if "qemu" in machine.runner else ""
        check_program(checks, f"the program for {machine.name}", machine.built / NAME, qemu)


def check(checks, built):
    if os.geteuid() != 0:
        checks.skip("a root of their own", "not the superuser")
    if is_proved(built.chanv()):
        if (ROOT / "crates/chanv/out/chanv.o").is_file():
            check_proved(checks)
        else:
            checks.skip("the proved program", "no crates/chanv/out/chanv.o")
    check_rustc(checks)
