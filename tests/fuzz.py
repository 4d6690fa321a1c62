#!/usr/bin/env python3
"""Inputs that a fuzzer found, through harnesses with oracles over decks, images and the calls.

    tests/fuzz.py --seconds 60     # libFuzzer looks for new inputs, so long with each harness

Plain rustc compiles the harnesses of fuzz/ with each overflow checked. They ask every command or
every call about an input and compare the answers: all commands agree on a verdict; the least job is
judged yes, and with a byte less no; an answer depends on kept bytes alone; so much room as a call
says is enough, and a byte less isn't. As a test this runs the inputs in fuzz/corpus/, from which
libFuzzer begins too; it needs clang, and leaves new inputs in out/fuzz. Without cargo or the crates
the test is left out, by its name.
"""

import argparse
import os
import shutil
import subprocess
import sys
import tempfile
from pathlib import Path

import cargo
from building import FLAGS, HERE, ROOT, c_compiler, must_succeed
from expecting import CannotRun
from running import Ran, run

FOLDER = HERE / "fuzz"
# each harness with the function that it hands inputs to, and whether it asks the library for C
HARNESSES = [("decks", "over_deck", False), ("images", "over_image", False)]
HARNESSES += [("calls", "over_calls", True)]
FOUND = ROOT / "out/fuzz"


def built(*words, **how):
    """Builds the harnesses in Rust, and the library for C, with all overflows checked."""
    crate, strip = cargo.workspace() / "chan_fuzz", cargo.stripping()
    sources = [FOLDER / "Cargo.toml", *(FOLDER / "src").iterdir()]
    with tempfile.TemporaryDirectory(dir=crate.parent) as room:
        # a folder of the workspace comes whole, because another cargo may read
        for to in (Path(room) / "made", crate):
            for path in sources:
                strip.write(to / path.relative_to(FOLDER), path.read_text())
            if not crate.exists():
                to.rename(crate)
    cargo.cargo("build", *cargo.CHECKED, *words, "-p", "chan_fuzz", "-p", "chanv_c", **how)


def linked(made, harness, archives, compiler, *flags):
    """A program of a harness, out of what cargo left in a folder."""
    name, over, asks_library = harness
    words = [*compiler, *flags, f"-DOVER={over}", "-o", made, FOLDER / "entry.c"]
    if asks_library:
        words += [f"-I{ROOT / 'crates/chanv_c/include'}", FOLDER / "calls.c", ROOT / "c/chanv.c"]
    archive = "libchanv_c.a" if asks_library else "libchan_fuzz.a"
    must_succeed(*words, archives / archive, "-pthread")
    return made


def unpacked(name, folder):
    """The inputs that are kept for a harness."""
    folder.mkdir(parents=True, exist_ok=True)
    must_succeed("tar", "-xzf", FOLDER / f"corpus/{name}.tar.gz", "-C", folder)
    return sorted(folder.iterdir())


def check(checks, _built):
    if why := cargo.missing():
        checks.skip("all of it", why)
        return
    built()
    with tempfile.TemporaryDirectory() as room:
        for harness in HARNESSES:
            name, room_of = harness[0], Path(room)
            made = cargo.MADE / "target/checked"
            flags = [*FLAGS, "-DFILES"]
            program = linked(room_of / f"over_{name}", harness, made, c_compiler(), *flags)
            inputs = unpacked(name, room_of / name)
            checks.expect_that(f"inputs of {name}", len(inputs) > 100, len(inputs))
            ran = run(program, *inputs, timeout=None)
            ran = ran._replace(error=ran.error if ran.status != 0 else "")
            checks.expect(f"the oracles over {name}", Ran(0, f"{len(inputs)} inputs\n"), ran)


def fuzz(seconds):
    """Has libFuzzer look for inputs that cover more, or that an oracle refuses."""
    if shutil.which("clang") is None:
        raise CannotRun("no clang")
    there = cargo.MADE / "target/covered"
    wrapped = {**os.environ, "RUSTC_WRAPPER": str(FOLDER / "covered.sh")}
    built("--target", cargo.TARGET, "--target-dir", there, env=wrapped)
    for harness in HARNESSES:
        name, room = harness[0], FOUND / harness[0]
        archives, flags = there / cargo.TARGET / "checked", ["-O1", "-fsanitize=fuzzer"]
        unpacked(name, room)
        program = linked(FOUND / f"over_{name}", harness, archives, ["clang"], *flags)
        print(f"{name}, {seconds} s", flush=True)
        words = [program, "-close_fd_mask=1", "-print_final_stats=1", f"-max_total_time={seconds}"]
        status = subprocess.run([*words, "-max_len=4096", room], cwd=FOUND).returncode
        if status != 0:
            raise CannotRun(f"an input in {FOUND} fails: {program} FILE shows how")


def main():
    said = argparse.ArgumentParser(description=__doc__.splitlines()[0])
    said.add_argument("--seconds", type=int, default=60, help="how long each harness is fuzzed")
    fuzz(said.parse_args().seconds)


if __name__ == "__main__":
    try:
        main()
    except CannotRun as why:
        sys.exit(f"tests/fuzz.py: {why}")
