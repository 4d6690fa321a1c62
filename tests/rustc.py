"""The same sources by plain rustc, with nothing proved, against the proved program.

The program of rustc/ is built with each overflow and each assertion of Rust's library checked. Its
unit tests pass. Both programs write the same with the same status over all example decks, large,
damaged and refused decks, random jobs of the model, their storage as images, each command line,
each word and each code. So a fault of the kit's compiler or library shows, unless Rust's has the
same. Usage faults that clap words are compared by status, because its versions differ.
Each growth of memory is refused too, and streams are full, closed or unread. What the script of
rustc/ strips, writes and names is looked at by itself.

RUSTC_JOBS says how many random jobs there are. Without it there are few, and only one command is
refused memory: all takes two minutes of a processor, and this half of that, most of it the build.
If the program under test is plain rustc's too, nothing is compared. Without cargo or the crates the
test is left out, by its name.
"""

import os
import re
import shlex
import socket
import sys
import tempfile
import threading
from concurrent.futures import ThreadPoolExecutor
from pathlib import Path
from random import Random

from answers import make_inputs
from building import ROOT, is_proved, short, version
from cargo import CHECKED, cargo, missing, program, stripping, workspace
from command_lines import runs
from examples import EXAMPLES, FOLDERS, SEARCH_LOOP, TEXTS, decks_of
from expecting import Checks
from model import SEED, deck_of, jobs_of
from refused_decks import refused
from refused_memory import advice_cases, check_next_deck, command_cases
from refusing import Growths
from rows import without_clap
from running import Ran, run, run_in_bash, text_of
from speed import decks_of_bench

FEW, WHOLE = 300, 2500
AT_ONCE = 4

# commands over all decks at once, over a deck, and over an image
OF_DECKS = ["verify", "list", "why", "why --all", "needs"]
OF_DECKS += ["list --wide", "why --of 800", "why --of 808", "needs --deck"]
OF_A_DECK = ["graph {path}"]
OF_AN_IMAGE = [
    "find {path}",
    "find --device 2311 {path}",
    "deck --start {start:06X} --least {path}",
    "deck --start {start:06X} --open {path}",
    "deck --start {start:06X} --extent 0-9 --store 0+100 --mask 58 {path}",
]
# decks of bench/ with as many places as a deck of version 1 may have
LARGE = ["places", "loops", "chain", "ring", "comb", "offends"]
# the start in an image that isn't of a job
START = 0x800

# the crates whose structs and calls are C's, and a file that copies only what the library made
OF_C = ["chan_needs", "chanv_c"]
WRITES_ONLY = ["c_place.rt"]

# the script where Debian's packages aren't installed
FETCHING = """
import sys, pathlib
sys.path.insert(0, "{}")
import strip
strip.DEBIAN = pathlib.Path("{}")
sys.argv[1:] = ["{}"]
strip.main()
"""

# Folders of crates: those of Debian 12 and 13, and others; and what is missing there.
IN_12 = "arrayvec-0.7.2 byteorder-1.4.3 clap-4.0.32 hex-0.4.3 itoa-1.0.1 "
IN_12 += "smallvec-1.9.0 strsim-0.10.0 "
IN_13 = "arrayvec-0.7.6 byteorder-1.5.0 clap-4.5.23 hex-0.4.3 itoa-1.0.14 "
IN_13 += "smallvec-1.13.2 strsim-0.11.1 "
ALSO = "clap_lex-0.3.0 thiserror-impl-1.0.37 hex-conservative-0.1.1"
CRATES = [
    ("Debian 12", f"{IN_12} {ALSO} thiserror-1.0.37", None),
    ("Debian 13", f"{IN_13} {ALSO} thiserror-2.0.11", None),
    ("two versions", f"{IN_13} {ALSO} thiserror-3.0.0 thiserror-1.0.69", None),
    ("a name alone", f"{IN_13} {ALSO}", "no crates thiserror >=1, <3"),
    ("too new", f"{IN_13} thiserror-3.0.0", "no crates thiserror >=1, <3 (not 3.0.0)"),
    ("too old", f"{IN_12} thiserror-0.9.9", "no crates thiserror >=1, <3 (not 0.9.9)"),
    (
        "two crates",
        "arrayvec-0.6.9 byteorder-1.5.0 clap-4.5.23 hex-0.4.3 itoa-1.0.14 smallvec-1.13.2"
        " strsim-0.9.3 strsim-0.12.0 thiserror-2.0.11",
        "no crates arrayvec >=0.7, <0.8 (not 0.6.9); strsim >=0.10, <0.12 (not 0.12.0, 0.9.3)",
    ),
]

# what Cargo is told of a crate: name, its other words in crates.txt, what it uses
PACKAGE = f"""[package]
name = "{{}}"
version = "{version()}+not.proved"
edition = "2024"
[lints]
workspace = true
{{}}[dependencies]
kit = {{{{ path = "../kit" }}}}
"""
MANIFESTS = [
    (
        "chanv",
        [],
        ["chan_walk", "clap"],
        PACKAGE.format("chanv", '[[bin]]\nname = "chanv-rustc"\npath = "src/main.rs"\n')
        + 'chan_walk = { path = "../chan_walk" }\nclap = { path = "../shims/clap" }\n',
    ),
    (
        "chanv_c",
        ["staticlib"],
        ["thiserror"],
        PACKAGE.format("chanv_c", '[lib]\ncrate-type = ["staticlib"]\n')
        + 'thiserror = ">=1, <3"\n',
    ),
]

# the function that the script makes of `main`
BEGUN = "begun"

EACH = '"$1" {} 2>&1 < /dev/null; echo "status $?"\n'

# streams that are full, closed or a folder, for a program and a deck
STREAMS = [
    '"$1" list "$2" > /dev/full',
    '"$1" list "$2" >&-',
    '"$1" list "$2" missing.deck 2>&-',
    '"$1" list <&-',
    '"$1" list < /',
    '"$1" --help > /dev/full',
    'exec "$1" list < "$2" 1<&0',
]


def as_chanv(program, room):
    """A link to a program in a folder of its own: help shows the name by which it was called."""
    link = Path(tempfile.mkdtemp(dir=room)) / "chanv"
    link.symlink_to(program)
    return link


def inputs_in(folder, count):
    """The decks, and each image with a start; random jobs and texts are written into the folder."""
    decks = [deck for each in (*FOLDERS, TEXTS) for deck in decks_of(each)]
    images = [(START, path) for path in (*decks, *sorted(EXAMPLES.glob("*.bin")))]
    for name in LARGE:
        decks.append(folder / f"{name}.deck")
        decks[-1].write_text("".join(decks_of_bench()[name]()))
    for number, (text, *_) in enumerate(refused()):
        decks.append(folder / f"text-{number}.deck")
        decks[-1].write_bytes(text)
    for number, job in enumerate(jobs_of(Random(SEED), count)):
        decks.append(folder / f"job-{number}.deck")
        decks[-1].write_text("".join(f"{line}\n" for line in deck_of(job)))
        images.append((job.start, folder / f"job-{number}.bin"))
        images[-1][1].write_bytes(bytes(job.storage))
    return decks, images


def answers_of_each(programs, lines):
    """What each program writes for each command line, with its status."""
    with tempfile.NamedTemporaryFile("w", suffix=".sh") as script:
        script.write("".join(EACH.format(line) for line in lines))
        script.flush()
        for it in programs:
            ran = run("bash", script.name, it, timeout=None)
            yield re.split(r"(?m)^status (\d+)\n", ran.output)


def check_lines(checks, programs, lines):
    """Compares what the programs write for each of many command lines, some of them at a time."""
    parts = [lines[at::AT_ONCE] for at in range(AT_ONCE)]
    with ThreadPoolExecutor(AT_ONCE) as beside:
        found = beside.map(lambda part: [*answers_of_each(programs, part)], parts)
        for part, (proved, plain) in zip(parts, found):
            checks.expect("how many answers", 2 * len(part) + 1, len(proved))
            checks.expect("how many answers of rustc", len(proved), len(plain))
            for at, line in enumerate(part):
                both = [tuple(texts[2 * at : 2 * at + 2]) for texts in (proved, plain)]
                checks.expect(line, *both)


def check_decks(checks, programs, decks):
    """Compares the commands that take many decks."""
    pairs = [(command, it) for command in OF_DECKS for it in programs]
    with ThreadPoolExecutor(AT_ONCE) as beside:
        ran = beside.map(lambda pair: run(pair[1], *pair[0].split(), *decks, timeout=None), pairs)
        found = [*ran]
    for command, proved, plain in zip(OF_DECKS, found[::2], found[1::2]):
        checks.expect(f"{command} over {len(decks)} decks", proved, plain)


def check_inputs(checks, programs, folder, count):
    decks, images = inputs_in(folder, count)
    check_decks(checks, programs, decks)
    lines = [command.format(path=path) for command in OF_A_DECK for path in decks]
    for command in OF_AN_IMAGE:
        lines += [command.format(start=start, path=path) for start, path in images]
    check_lines(checks, programs, lines)


def check_words(checks, programs):
    listed = run(programs[0], "explain").output.splitlines()
    words = [line.partition(": ")[0] for line in listed if line]
    near = [f"{word}x" for word in words if word != "-"]
    codes = [f"{front}{code:02X}" for front in ("", "mask ") for code in range(256)]
    ccws = [f"{code:02X}000A002{code % 16:X}000050" for code in range(256)]
    lines = [f"explain {shlex.quote(word)}" for word in (*words, *near, *codes)]
    lines += [f"{command} {ccw}" for command in ("show", "show --name") for ccw in ccws]
    check_lines(checks, programs, lines)


def check_command_lines(checks, programs, folder):
    """The words of a usage fault are clap's, except for the faults that chanv words itself."""
    make_inputs(folder)
    for words, given, _ in runs():
        file = folder / given
        how = {"given": file if file.is_file() else b"", "cwd": folder}
        both = without_clap(*(run(it, *words, **how) for it in programs))
        checks.expect(f"{words} < {given}", *both)


def into_closed_pipe(program):
    """What comes of a program whose standard output is a pipe that nothing reads."""
    reader, writer = os.pipe()
    os.close(reader)
    ran = run(program, "list", SEARCH_LOOP, stdout=writer)
    os.close(writer)
    return ran


def check_streams(checks, programs):
    for script in STREAMS:
        checks.expect(script, *(run_in_bash(script, it, SEARCH_LOOP) for it in programs))
    checks.expect("a pipe that nothing reads", *map(into_closed_pipe, programs))


def check_sources(checks, strip):
    """What is stripped has its functions in the lines of the .rt file."""
    for path in sorted((ROOT / "crates").glob("*/src/**/*.rt")):
        text = text_of(path)
        lines, left = text.split("\n"), strip.strip(text).split("\n")
        checks.expect(f"the lines of {short(path)}", len(lines), len(left))
        moved = [
            name
            for line, other in zip(lines, left)
            for name in re.findall(r"\bfn (\w+)", other)
            if name not in line and name != BEGUN
        ]
        checks.expect(f"functions in other lines of {short(path)}", [], moved)


def check_of_c(checks, strip):
    """No call of C takes a slice, no struct of C has a slice, and what may be written meanwhile is
    copied by the loads of kit/."""
    for path in sorted(it for crate in OF_C for it in (ROOT / "crates" / crate).glob("src/*.rt")):
        text = strip.strip(text_of(path))
        seen = re.findall(r'extern "C" fn [^{]*|#\[repr\(C\)\][^}]*', text)
        slices = [it for it in seen if re.search(r"&[^,\n]*\[", it)]
        checks.expect(f"slices that C hands to {short(path)}", [], slices)
        plain = [] if path.name in WRITES_ONLY else re.findall(r".*copy_from_slice.*", text)
        checks.expect(f"plain copies in {short(path)}", [], plain)


def check_packages(checks, strip):
    """Where nothing is installed the script names what the workspace and its shims use, and README
    the compiler. A shim takes the versions that the script looks for."""
    shims = [text_of(path) for path in (ROOT / "rustc/shims").glob("*/Cargo.toml")]
    wrapped = dict(re.findall(r'package = "(\w+)", version = "(.*?)"', "".join(shims)))
    for name, versions in wrapped.items():
        checks.expect(f"the versions of {name} in its shim", strip.range_of(name), versions)
    wanted = {f"librust-{name}-dev" for name in {*strip.REAL, *wrapped}}
    page, (first, second) = text_of(ROOT / "rustc/README.md"), strip.OLDEST
    said = re.findall(r"Rust (\S+) or later\nserves: on Debian the packages (.*),", page)
    names = " and ".join(f"`{name}`" for name in strip.COMPILER)
    line = f"{' '.join(strip.COMPILER)} librust-{{{','.join(strip.NEEDED)}}}-dev"
    found = re.findall(r"(?m)^    apt-get install make gcc python3 (.*)$", page)
    checks.expect("the packages of README", [line], found)
    checks.expect("the compiler of README", [(f"{first}.{second}", names)], said)
    with tempfile.TemporaryDirectory() as room:
        strip.DEBIAN = Path(room)
        checks.expect("the packages of Debian", wanted, {*strip.packages()} - {*strip.COMPILER})


def check_versions(checks, strip):
    """Crates serve by their versions, and one that is missing is named with those that would."""
    for about, crates, lacks in CRATES:
        with tempfile.TemporaryDirectory() as room:
            strip.DEBIAN = Path(room)
            for crate in crates.split():
                (strip.DEBIAN / crate).mkdir()
            checks.expect(f"what is missing, {about}", lacks, strip.lacks(strip.DEBIAN))
            named = [f"librust-{name}-dev" for name in re.findall(r"(\w+) >=", lacks or "")]
            packages = [it for it in strip.packages() if it not in strip.COMPILER]
            checks.expect(f"the packages for it, {about}", named, packages)
            wanted = None if lacks else strip.DEBIAN
            checks.expect(f"where crates come from, {about}", wanted, strip.source_of(None))
    for given, wanted in [("crates.io", None), ("/there", Path("/there")), ("x", Path.cwd() / "x")]:
        checks.expect(f"where crates come from, --crates {given}", wanted, strip.source_of(given))


def check_manifests(checks, strip):
    own = {"chan_walk", "ccw_core"}
    for about, words, needs, wanted in MANIFESTS:
        text = strip.manifest(about, words, needs, own)
        checks.expect(f"the manifest of {about}", wanted, text)


def refuse_all(listening, asked):
    """Takes connections in, and ends each without an answer."""
    while True:
        try:
            connection, _ = listening.accept()
        except OSError:
            return
        with connection:
            asked.append(connection.recv(100))


def check_fetching(checks, strip):
    """Without the crates of Debian and without a network, the script asks once, and then says what
    to install. A newer cargo asks for all crates at a time: once for each."""
    asked = []
    with tempfile.TemporaryDirectory() as room, socket.create_server(("127.0.0.1", 0)) as listening:
        threading.Thread(target=refuse_all, args=(listening, asked), daemon=True).start()
        script = FETCHING.format(ROOT / "rustc", f"{room}/none", f"{room}/workspace")
        proxy = f"http://127.0.0.1:{listening.getsockname()[1]}"
        environment = {**os.environ, "CARGO_HOME": room, "CARGO_HTTP_PROXY": proxy}
        ran = run(sys.executable, "-B", "-c", script, env=environment)
        listening.shutdown(socket.SHUT_RDWR)
    says = "rustc/strip.py: no crates come from crates.io: .*\nno crates arrayvec >=0.7, <0.8; .*"
    says += "; on Debian 12 or 13: apt-get install librust-"
    is_so = ran.status == 1 and re.match(says, ran.error)
    checks.expect_that("what the script says without crates", is_so, ran)
    is_once = len(asked) in (1, len(strip.NEEDED))
    checks.expect_that("how often it asks for them", is_once, f"{len(asked)} times")


def check_rewriting(checks, strip):
    """A changed source is written again, an unchanged one isn't, and other crates lock anew."""
    with tempfile.TemporaryDirectory() as room:
        folder = Path(room)
        done = [strip.write(folder / "a/lib.rs", text) for text in ("one", "one", "two")]
        seen = done, text_of(folder / "a/lib.rs")
        checks.expect("a source, written three times", ([True, False, True], "two"), seen)
        for crates, is_left in ((None, False), (None, True), ("/crates", False), ("/crates", True)):
            (folder / "Cargo.lock").touch()
            strip.write_source(folder, crates)
            checks.expect(f"the lock over {crates}", is_left, (folder / "Cargo.lock").exists())


def check_unit_tests(checks):
    sources = [text_of(path) for path in (ROOT / "crates/unit_tests/src").rglob("*.rt")]
    ran = run("cargo", "test", "--lib", *CHECKED, "-p", "unit_tests", cwd=workspace(), timeout=None)
    checks.expect_that("the unit tests", ran.status == 0, ran)
    passed = sum(map(int, re.findall(r"test result: ok. (\d+) passed", ran.output)))
    checks.expect("how many unit tests", "".join(sources).count("#[test]"), passed)


def growths_of(case):
    """The checks of a case in which each growth is refused."""
    checks = Checks("rustc")
    with tempfile.TemporaryDirectory() as room:
        Growths(room).refuse_each(checks, case)
    return checks


def check_growths(checks, plain, is_whole):
    """A refused growth is reported, also by the crates that can't go on without memory."""
    cases = [*command_cases(plain), *advice_cases(plain)]
    with ThreadPoolExecutor(AT_ONCE) as beside:
        for done in beside.map(growths_of, cases if is_whole else cases[:1]):
            checks.passed += done.passed
            checks.failed += done.failed


def check_against(checks, proved, plain, count):
    """Compares the programs over everything that they may be asked."""
    with tempfile.TemporaryDirectory() as room:
        folder = Path(room)
        programs = [as_chanv(it, folder) for it in (proved, plain)]
        check_inputs(checks, programs, folder, count or FEW)
        check_words(checks, programs)
        check_streams(checks, programs)
        (folder / "inputs").mkdir()
        check_command_lines(checks, programs, folder / "inputs")


def leave_out(checks, is_compared, count):
    """Names what this run isn't asked for."""
    if not is_compared:
        checks.leave_out("each comparison", "the program under test is plain rustc's too")
    elif count < WHOLE:
        left = f"random jobs after the first {count or FEW}"
        checks.leave_out(left, f"RUSTC_JOBS={WHOLE} compares them")
    if not count:
        left = "refused memory in all commands but one"
        checks.leave_out(left, f"RUSTC_JOBS={WHOLE} refuses it")


def check(checks, built):
    if why := missing():
        checks.skip("all of it", why)
        return
    count = int(os.environ.get("RUSTC_JOBS") or 0)
    plain, is_compared = program(), is_proved(built.chanv())
    parts = (check_sources, check_of_c, check_packages, check_versions, check_manifests)
    for part in (*parts, check_rewriting):
        part(checks, stripping())
    check_fetching(checks, stripping())
    check_unit_tests(checks)
    if is_compared:
        check_against(checks, built.chanv(), plain, count)
    check_next_deck(checks, plain)
    check_growths(checks, plain, count)
    leave_out(checks, is_compared, count)
