"""What `make dist` packs is built by cargo alone, judges the examples, and has a library for Rust.

The archive is unpacked in a new folder. There `cargo install --offline` finds a compiler, a linker
and nothing else on its path, so no Python, no kit and no crates of Debian, and its HOME is empty.
The program that it installs has the verdicts of the examples. Each crate in the archive has the
checksums of Debian's crate. The archive has a lock and its pages, nothing in it tells when or by
whom it was packed, and by itself `make dist` puts it in out/. Without cargo or the crates the test
is left out, by its name.

With binutils and what every system has, `make` and `make check` of the archive build and try
program and library, and `make install` puts there what it puts there from the checkout. Its README
begins with the line to type, and its links lead somewhere.

The package also has a library for Rust. The example of its first page runs. Programs of another
package use it: rust/judge.rs answers about the example decks as the program does, rust/ask.rs gets
each fault and each refusal, as rust/ask.out has them, rust/memory.rs refuses each growth of memory
in turn, and the compiler tells of each line in MISTAKES.
"""

import re
import shutil
import tarfile
import tempfile
from pathlib import Path

from building import HERE, ROOT, most_bytes, must_succeed, version
from cargo import missing, stripping
from examples import EXAMPLES, FOLDERS, decks_of, verdicts_of
from links_and_sizes import broken_links
from running import Ran, run, text_of

NAME, ARCHIVE = f"chanv-{version()}-not-proved", "packed.tar.gz"
# what cargo finds on its path besides itself
TOOLS = ["cc", "ld"]
SUMS = ".cargo-checksum.json"
# what its Makefile calls besides
MAKES = "make ar as objcopy chmod cmp cp cut find install ln mkdir rm sed sort tr".split()
# files of the archive, besides those of crates
PACKED = ["Cargo.lock", "Cargo.toml", "README.md", "Makefile", "install.mk", ".cargo/config.toml"]
# what `make install` puts beside share/ and the shared library
BUILT = ["bin/chanv", "include/chanv.h", "lib/libchanv.a", "lib/pkgconfig/chanv.pc"]
# mode, time and owner of each file there
ABOUT = (0o644, 0, 0, 0, "", "")

# a package that uses the library, by the lines of rustc/README.md
BY_PATH = f"""[dependencies]
    chanv = {{ path = "../{NAME}/chanv" }}
"""
OUTSIDE = f"""[package]
name = "outside"
version = "0.0.0"
edition = "2024"
{BY_PATH}"""
BUILD = ["cargo", "build", "--offline", "--config", f"../{NAME}/.cargo/config.toml"]
# the lines of `needs` about a program for which some job will do, and the first line about another
OF_NEEDS = re.compile(r".*\.deck:|(?:mask|extent|fetch|store|keep|no) .*")

ASKING = """#![deny(unused_must_use, unused_variables)]
#![allow(dead_code, unused_imports)]
use chanv::{{Area, Device, Job, Program, Refusal, Row, Source}};
fn ask(job: &Job, program: &Program, table: &mut Vec<Row>, area: Area) -> Result<(), Refusal> {{
    let _ = (job, program, &table, area);
    {}
    Ok(())
}}
fn main() {{}}
"""
# what refused memory comes to; the numbers are the compiler's
REFUSED = [f"{it}: an answer after N refusals" for it in "verify why needs find may_start".split()]
REFUSED.append("may_write: an answer after 0 refusals")

RIGHT = [
    "if chanv::verify(job).is_ok() { println!(); }",
    "println!(\"{}\", chanv::why(job)?);",
    "table.push(chanv::may_start(program, job, table)?);",
    "chanv::may_write(table, area)?;",
    "table.push(Row::writing(table, area)?);",
    "chanv::needs(&Source::new(&vec![0; 8], 0, Device::D2311))?;",
]
# what a caller may forget or get wrong, and what the compiler says
MISTAKES = [
    ("chanv::verify(job);", "unused `Result` that must be used"),
    ("chanv::why(job)?;", "unused `Explanation` that must be used"),
    ("chanv::may_write(table, area);", "unused `Result` that must be used"),
    ("chanv::may_start(program, job, table)?;", "unused `Row` that must be used"),
    ("Row::writing(table, area)?;", "unused `Row` that must be used"),
    ("let row = chanv::may_start(program, job, table)?;", "unused variable: `row`"),
    ("let _ = Job { source: job.source, mask: 0, extents: &[], fetch: &[] };", "missing field"),
    ("chanv::take_in(&job.source, &[area])?;", "takes 3 arguments but 2"),
    ("let _ = Program::default();", "no function or associated item named `default`"),
    ("let _ = Program(Default::default());", "private field"),
    (
        "table.push(Row { program: program.clone(), stores: area, keeps: area });",
        "fields `program`, `stores` and `keeps` of struct `Row` are private",
    ),
    (
        "let mut bytes = vec![0; 8]; let source = Source::new(&bytes, 0, Device::D2311);"
        " bytes[0] = 1; chanv::needs(&source)?;",
        "cannot borrow `bytes` as mutable",
    ),
]


def tools_in(folder):
    """A path with a compiler of Rust that needs no HOME, and a linker."""
    folder.mkdir()
    compiler = Path(run("rustc", "--print", "sysroot").output.strip()) / "bin"
    for tool in ("cargo", "rustc", "rustdoc"):
        found = shutil.which(tool)
        # rustup's own tools look into HOME
        needs_home = run("env", "-i", f"HOME={folder}", found, "--version").status != 0
        (folder / tool).symlink_to(compiler / tool if needs_home else found)
    for tool in TOOLS:
        (folder / tool).symlink_to(shutil.which(tool))
    return folder


def pack(room):
    """Unpacks in a folder what `make dist` packs."""
    must_succeed("make", "-C", ROOT, "dist", f"DIST={room / ARCHIVE}", timeout=None)
    must_succeed("tar", "-xzf", room / ARCHIVE, "-C", room)


def alone_in(room):
    """The words that go before a command which is to find nothing but these tools, and an empty
    HOME."""
    home, path = room / "home", tools_in(room / "tools")
    home.mkdir()
    return ["env", "-i", f"HOME={home}", f"PATH={path}"]


def check_sums(checks, folder, debian):
    crates = sorted((folder / "vendor").iterdir())
    checks.expect_that("crates are packed", len(crates) > 10, crates)
    for crate in crates:
        wanted = text_of(debian / crate.name / SUMS)
        checks.expect(f"the checksums of {crate.name}", wanted, text_of(crate / SUMS))


def check_archive(checks, archive):
    """The same sources give the same archive, on each machine and at any time."""
    with tarfile.open(archive) as packed:
        entries = packed.getmembers()
    names = {it.name for it in entries}
    for name in PACKED:
        checks.expect_that(f"{name} is packed", f"{NAME}/{name}" in names, sorted(names)[:20])
    about = {(it.mode, it.mtime, it.uid, it.gid, it.uname, it.gname) for it in entries}
    checks.expect("mode, time and owner of its files", {ABOUT}, about)
    # by RFC 1952 four bytes say when; no flag says that a name follows
    checks.expect("time and name in its head", bytes(5), archive.read_bytes()[3:8])
    size = archive.stat().st_size
    checks.expect_that("the size of the archive", size <= most_bytes("dist"), size)
    ran = run("make", "-n", "-C", ROOT, "dist")
    wanted = f"rustc/dist.py {version()} out/{NAME}.tar.gz\n"
    checks.expect_that("where make dist packs it", wanted in ran.output, ran)


def files_in(folder):
    """The files and links of a folder: the bytes of each."""
    found = {str(it.relative_to(folder)): it for it in folder.rglob("*") if not it.is_dir()}
    return {name: it.read_bytes() for name, it in found.items()}


def check_make(checks, room, alone):
    """`make`, `make check`, `make install` and `make uninstall` of the archive, and its README."""
    folder, stage, checkout = room / NAME, room / "stage", room / "checkout"
    for tool in MAKES:
        (room / "tools" / tool).symlink_to(shutil.which(tool))
    first, *_ = text_of(folder / "README.md").splitlines()
    checks.expect_that("README begins with a line to type", first.startswith("    make && "), first)
    checks.expect("dead links of README", [], broken_links(folder / "README.md"))
    steps = re.findall(r"make(?: \w+)?", first)
    checks.expect("its steps", ["make", "make check", "make install"], steps)
    for step in steps:
        ran = run(*alone, *step.split(), f"DESTDIR={stage}", "PREFIX=/p", cwd=folder, timeout=None)
        checks.expect_that(f"{step} of the archive", ran.status == 0, ran)
        if ran.status != 0:
            return
    must_succeed("make", "-s", "-C", ROOT, "share", f"DESTDIR={checkout}", "PREFIX=/p")
    wanted, seen = files_in(checkout / "p"), files_in(stage / "p")
    others = {name: seen.pop(name) for name in [*seen] if not name.startswith("share/")}
    checks.expect("what share/ lacks or has besides", [], sorted(wanted.keys() ^ seen.keys()))
    other = [name for name in wanted if wanted[name] != seen.get(name)]
    checks.expect("files of share/ that are others than in the checkout", [], other)
    shared = [name for name in others if name.startswith("lib/libchanv.so")]
    checks.expect("what else is installed", BUILT, sorted({*others} - {*shared}))
    checks.expect("names of the shared library", 3, len(shared))
    checks.expect("how many shared libraries these name", 1, len({others[it] for it in shared}))
    said = Ran(0, f"chanv {version()} (not proved)\n")
    checks.expect("the installed program", said, run(stage / "p/bin/chanv", "--version"))
    page = others["lib/pkgconfig/chanv.pc"].decode()
    checks.expect_that("chanv.pc says so too", ", not proved\n" in page, page)
    words = ["make", "uninstall", f"DESTDIR={stage}", "PREFIX=/p"]
    checks.expect("make uninstall", 0, run(*alone, *words, cwd=folder).status)
    checks.expect("what it leaves", {}, files_in(stage))


def check_page(checks, folder, alone):
    """The first page says that nothing is proved, and its example runs."""
    first = text_of(folder / "chanv/src/lib.rs").partition("\n")[0]
    checks.expect_that("the first line says so", "not proved" in first, first)
    words = ["cargo", "test", "--doc", "--offline", "--quiet"]
    ran = run(*alone, *words, cwd=folder, timeout=None)
    passed = ran.status == 0 and "test result: ok. 1 passed; 0 failed" in ran.output
    checks.expect_that("the example of the first page", passed, ran)


def check_outside(checks, room, alone, program):
    """Programs of another package, which have only the archive."""
    sources = room / "outside/src/bin"
    sources.mkdir(parents=True)
    (room / "outside/Cargo.toml").write_text(OUTSIDE)
    page = text_of(ROOT / "rustc/README.md").replace("VERSION", version())
    for lines in (BY_PATH, " ".join(BUILD)):
        checks.expect_that(f"rustc/README.md has {lines}", f"    {lines}" in page, page)
    made = room / NAME / "target"
    words = [*alone, *BUILD, "--quiet", "--target-dir", made, "--bin"]

    def build(name, text):
        (sources / f"{name}.rs").write_text(text)
        return run(*words, name, cwd=room / "outside", timeout=None)

    for name in ("judge", "ask", "memory"):
        ran = build(name, text_of(HERE / f"rust/{name}.rs"))
        checks.expect(f"{name}.rs compiles", Ran(0), ran)
    check_answers(checks, made / "debug/judge", program)
    check_lines(checks, run(made / "debug/ask"))
    ran = run(made / "debug/memory")
    checks.expect("memory.rs", REFUSED, re.sub(r"[1-9]\d*", "N", ran.output).splitlines())
    checks.expect("right calls", Ran(0), build("right", ASKING.format("\n".join(RIGHT))))
    for number, (line, said) in enumerate(MISTAKES):
        ran = build(f"mistake_{number}", ASKING.format(line))
        errors = re.findall(r"(?m)^error(?:\[E\d+\])?: (.*)$", ran.error)
        checks.expect_that(line, errors and said in errors[0], errors)


def check_lines(checks, ran):
    """rust/ask.rs writes the lines of rust/ask.out."""
    wanted = text_of(HERE / "rust/ask.out").replace("VERSION", version()).splitlines()
    seen = ran.output.splitlines()
    checks.expect("ask.rs", (0, "", len(wanted)), (ran.status, ran.error, len(seen)))
    for expected, line in zip(wanted, seen):
        checks.expect(f"ask.rs, {expected.partition(': ')[0]}", expected, line)


def check_answers(checks, judge, program):
    """The library answers about each deck as the program does."""
    decks = [deck for folder in FOLDERS for deck in decks_of(folder)]
    for command in ("verify", "why", "needs"):
        wanted = run(program, command, *decks).output.splitlines()
        if command == "needs":
            wanted = [line for line in wanted if OF_NEEDS.fullmatch(line)]
        ran = run(judge, command, *decks)
        checks.expect_that(f"{command} answers about each deck", len(wanted) >= len(decks), wanted)
        seen = ran.output.splitlines()
        checks.expect(f"{command} by the library", (0, "", wanted), (ran.status, ran.error, seen))


def check(checks, _built):
    if why := missing():
        checks.skip("all of it", why)
        return
    with tempfile.TemporaryDirectory() as room:
        room = Path(room)
        pack(room)
        alone = alone_in(room)
        check_archive(checks, room / ARCHIVE)
        words = ["cargo", "install", "--offline", "--quiet", "--path", "chanv"]
        ran = run(*alone, *words, cwd=room / NAME, timeout=None)
        program = room / "home/.cargo/bin/chanv-rustc"
        checks.expect("cargo install", 0, ran.status)
        if ran.status != 0:
            checks.fail("what cargo says", *ran.error.splitlines())
            return
        check_sums(checks, room / NAME, stripping().DEBIAN)
        said = f"chanv {version()} (not proved)\n"
        checks.expect("its version", Ran(0, said), run(program, "--version"))
        decks = decks_of(EXAMPLES)
        wanted = [f"{deck}: {verdict}" for deck, verdict in sorted(verdicts_of(EXAMPLES).items())]
        ran = run(program, "verify", *[deck.name for deck in decks], cwd=EXAMPLES)
        checks.expect("the verdicts of the examples", wanted, ran.output.splitlines())
        check_page(checks, room / NAME, alone)
        check_outside(checks, room, alone, program)
        check_make(checks, room, alone)
