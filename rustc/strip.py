#!/usr/bin/env python3
"""Makes a Cargo workspace of the sources, which plain rustc compiles with nothing proved.

    rustc/strip.py [FOLDER] [--crates FOLDER|crates.io]
    rustc/strip.py --packages

From each .rt file the script takes away what only the prover reads. Line ends stay, so a message of
rustc names the line of the .rt file. A few forms are written as Rust has them: see FORMS. Each file
gets the prelude of kit/, which gives Rattle's names of `std` over Rust's. shims/ has the crates
whose calls differ from Rust's. The other crates are Rust's own: Debian's, if its packages
librust-*-dev are installed, and otherwise those of crates.io. --packages prints the packages of
Debian that are missing here.
"""

import argparse
import json
import os
import re
import shutil
import subprocess
import sys
from pathlib import Path

HERE = Path(__file__).resolve().parent
ROOT = HERE.parent

# Rust's crates that are used as they are. Every other crate that crates.txt names is in shims/.
REAL = ["arrayvec", "byteorder", "itoa", "thiserror"]
# What the library of the package chanv uses besides what the program uses.
LIBRARY = ["chan_deck", "chan_find", "chan_needs", "chan_walk", "chan_why", "ckd_core", "thiserror"]
# Where Debian's packages put Rust's crates, and the crates that are needed, each with the first
# version that serves and the first that may not.
DEBIAN = Path("/usr/share/cargo/registry")
NEEDED = {
    "arrayvec": ("0.7", "0.8"),
    "byteorder": ("1", "2"),
    "clap": ("4", "5"),
    "hex": ("0.4", "0.5"),
    "itoa": ("1", "2"),
    "smallvec": ("1.9", "2"),
    "strsim": ("0.10", "0.12"),
    "thiserror": ("1", "3"),
}
# The first version that has edition 2024. Debian 12's packages rustc and cargo are older.
OLDEST = (1, 85)
COMPILER = ["rustc-web", "cargo-web"]

# What is copied as it is: comments, text, characters, lifetimes and words.
OPAQUE = re.compile(
    r"//[^\n]*|/\*.*?\*/|b?\"(?:[^\"\\]|\\.)*\"|b?'(?:[^'\\\n]|\\[^\n]{1,8}?)'|'\w+|\w+", re.S
)
# How something for the prover begins: a ghost item, a clause, an attribute for tactics.
GHOST = re.compile(r"(?:pub(?:\([\w:]+\))?\s+)?ghost\b")
CLAUSE = re.compile(r"(?:requires|ensures)\b\*?\s*\w*\s*(?=\{)")
TACTIC = re.compile(r"#!?\[(?:tactic|cycle)\b")

PRELUDE = "#[allow(unused_imports)] use ::kit::prelude::*; "


def derived(found):
    """A derive without `Drop`, because Rust drops every value. Public types that can be copied get
    `Debug`, because users of the library for Rust print them."""
    names = [name for name in found[1].split(", ") if name != "Drop"]
    if found[2] and "Copy" in names and "Debug" not in names:
        names.append("Debug")
    return f"#[derive({', '.join(names)})]" if names else ""


# The structs that C lays out and that have lists, what is inside of braces, and a list in a field
# or a parameter.
OF_C = "CBytes|CJob|NeedLists|Remembered"
INSIDE = r"[^{}]*(?:\{%s\}[^{}]*)*"
LIST = re.compile(r"&(?:'a )?(mut )?\[([\w<>'_]+)\]")


def laid_out_by_c(found):
    """A struct whose lists are pointers and lengths, as C has them."""
    return LIST.sub(lambda it: f"::kit::c::List<'a, {it[2]}>", found[0])


def made_for_c(found):
    """A struct of C that is made from slices."""
    text = re.sub(r"(?m)^( +)(copy|store|keep),$", r"\1\2: \2,", found[0])
    text = re.sub(r"(: )&\[(.+)\],$", r"\1::kit::c::List::leaked([\2]),", text, flags=re.M)
    lists = r"\b(storage|extents|fetch|store|keep|kept): (?!::kit)([^\n]+),(?=\n)"
    return re.sub(lists, r"\1: ::kit::c::List::of(\2),", text)


def called_by_c(found):
    """A call of the library as C makes it, and as the sources have it. C hands over a list as a
    pointer and a length, and no allocator, which has no size."""
    name, given = found[1], found[2]
    taken, handed = [], []
    for what, kind in re.findall(r"(\w+): ([^,]+)", given):
        if of := LIST.fullmatch(kind.strip()):
            taken += [f"{what}: *{'mut' if of[1] else 'const'} {of[2]}", f"{what}_len: usize"]
            made = f"::kit::c::{'room' if of[1] else 'list'}({what}, {what}_len)"
            handed.append(f"unsafe {{ {made} }}")
        elif kind == "Global":
            handed.append(kind)
        else:
            taken.append(f"{what}: {kind}")
            handed.append(what)
    also = "::kit::c::NOT_PROVED | " if name == "chanv_version" else ""
    body = f"{also}self::{name}({', '.join(handed)})"
    outer = f'extern "C" fn {name}({", ".join(taken)}) -> u32 {{ {body} }}'
    return f"const _: () = {{ #[unsafe(no_mangle)]\n{outer} }}; pub fn {name}({given}) -> u32"


# What Rust has otherwise: derives and bounds of `Drop`, the writer of a `fmt`, the runtime that
# `main` or a test is given, and what C calls, lays out, and may write meanwhile.
FORMS = [
    (re.compile(r"#\[derive\(([\w, ]*)\)\](?=(\npub \w+ \w+ \{)?)"), derived),
    (re.compile(r"(?<=\w)(?::| \+) Drop\b"), lambda found: ""),
    (
        re.compile(r"fn fmt<W: fmt::Write>\(&self, f: &mut fmt::Formatter<W>\)"),
        lambda found: "fn fmt(&self, f: &mut fmt::Formatter<'_>)",
    ),
    (
        re.compile(r"fn main\(rt: HostRuntime\)"),
        lambda found: "kit::main!(begun); fn begun(rt: HostRuntime)",
    ),
    (
        re.compile(r"fn (\w+)\(rt: HostRuntime\)([^{]*)\{"),
        lambda found: f"fn {found[1]}(){found[2]}{{ let rt = HostRuntime::new();",
    ),
    (
        re.compile(r'#\[unsafe\(no_mangle\)\]\npub extern "C" fn (\w+)\(([^)]*)\) -> u32'),
        called_by_c,
    ),
    (re.compile(rf"#\[repr\(C\)\]\n.*\npub struct (?:{OF_C})<[^}}]*}}"), laid_out_by_c),
    (re.compile(rf"\b(?:{OF_C}) \{{{INSIDE % (INSIDE % '[^{}]*')}\}}"), made_for_c),
    (
        re.compile(r"\b(or_empty\(|pairs_of\(alloc, )(\w+\.\w+)\)"),
        lambda found: f"{found[1]}{found[2]}.rows())",
    ),
    (
        re.compile(r"\b((?:copy|into)\[[^\]]*\])\.copy_from_slice\("),
        lambda found: f"::kit::c::copy(&mut {found[1]}, ",
    ),
]


def after_brackets(text, at):
    """The place after the brackets that begin at `at`."""
    depth = 0
    while True:
        if text[at] == '"':
            at = OPAQUE.match(text, at).end()
            continue
        depth += (text[at] in "{[(") - (text[at] in "}])")
        at += 1
        if depth == 0:
            return at


def after_ghost(text, at):
    """The place after a ghost item: after its `;` or `,`, or before the end of its block."""
    while text[at] not in ";,}":
        at = after_brackets(text, at) if text[at] in "{[(" else at + 1
    return at + (text[at] != "}")


def piece(text, at):
    """What Rust reads in place of what begins at `at`, and the place after that."""
    if found := GHOST.match(text, at):
        return "", after_ghost(text, found.end())
    if found := CLAUSE.match(text, at):
        return "", after_brackets(text, found.end())
    if TACTIC.match(text, at):
        return "", after_brackets(text, text.index("[", at))
    for form, written in FORMS:
        if found := form.match(text, at):
            return written(found), found.end()
    if found := OPAQUE.match(text, at):
        return found[0], found.end()
    return text[at], at + 1


def strip(text):
    """The text of a .rt file as Rust reads it."""
    pieces, at, begun = [], 0, False
    while at < len(text):
        put, end = piece(text, at)
        if not begun and put.strip() and not put.startswith("//!"):
            begun = True
            put = ("#![no_main] " if "fn main(" in text else "") + PRELUDE + put
        pieces.append(put or "\n" * text.count("\n", at, end))
        at = end
    # no spaces stay at the end of a line that lost something
    return re.sub(r"[ \t]+(?=\n)", "", "".join(pieces))


def crates():
    """Each crate of crates.txt: its name, its other words, and the crates that it uses."""
    for line in (ROOT / "crates.txt").read_text().splitlines():
        if line and not line.startswith("#"):
            head, _, needs = line.partition(":")
            name, *words = head.split()
            yield name, words, needs.split()


def manifest(name, words, needs, own):
    """The Cargo.toml of a crate. The program is named so that it isn't taken for the proved one."""
    [version] = re.findall(r"(?m)^VERSION = (.*)$", (ROOT / "Makefile").read_text())
    lines = ["[package]", f'name = "{name}"', f'version = "{version}+not.proved"']
    lines.append('edition = "2024"')
    lines += ["[lints]", "workspace = true"]
    if name == "chanv":
        lines += ["[[bin]]", 'name = "chanv-rustc"', 'path = "src/main.rs"']
    if "staticlib" in words:
        lines += ["[lib]", 'crate-type = ["staticlib"]']
    lines += ["[dependencies]", 'kit = { path = "../kit" }']
    for need in needs:
        where = f"../{need}" if need in own else f"../shims/{need}"
        by_path = f'{{ path = "{where}" }}'
        lines.append(f'{need} = "{range_of(need)}"' if need in REAL else f"{need} = {by_path}")
    return "".join(f"{line}\n" for line in lines)


def range_of(name):
    """The versions of a crate that serve, as Cargo writes them."""
    return ">={}, <{}".format(*NEEDED[name])


def number_of(version):
    return tuple(map(int, version.split(".")))


def versions_in(folder, name):
    """The versions of a crate that a folder of Debian's has."""
    found = (re.fullmatch(rf"{name}-(\d+(?:\.\d+)*).*", it.name) for it in folder.glob(f"{name}-*"))
    return [it[1] for it in found if it]


def lacking(folder):
    """The crates of which a folder of Debian's has no version that serves."""
    for name, bounds in NEEDED.items():
        first, end = map(number_of, bounds)
        if not any(first <= number_of(it) < end for it in versions_in(folder, name)):
            yield name


def lacks(folder):
    """What a folder of Debian's lacks, with its versions, or None."""
    names = []
    for name in lacking(folder):
        also = f" (not {', '.join(sorted(found))})" if (found := versions_in(folder, name)) else ""
        names.append(f"{name} {range_of(name)}{also}")
    return f"no crates {'; '.join(names)}" if names else None


def fault_of_cargo():
    """What is wrong with cargo here, or None."""
    if shutil.which("cargo") is None:
        return "no cargo"
    said = subprocess.run(["cargo", "--version"], capture_output=True, text=True).stdout
    found = re.match(r"cargo (\d+)\.(\d+)", said)
    if found and tuple(map(int, found.groups())) >= OLDEST:
        return None
    return f"{said.strip() or 'cargo'} is older than {'.'.join(map(str, OLDEST))}"


def packages():
    """The packages of Debian that are missing here."""
    crates = [f"librust-{name}-dev" for name in lacking(DEBIAN)]
    return COMPILER * bool(fault_of_cargo()) + crates


def install():
    return f"on Debian 12 or 13: apt-get install {' '.join(packages())}"


def source_of(given):
    """The folder of Rust's crates, or None for crates.io."""
    if given:
        return None if given == "crates.io" else Path(given).absolute()
    return None if lacks(DEBIAN) else DEBIAN


def fetch(folder):
    """Has cargo load the crates from crates.io, and ends at once if it can't."""
    at_once = {**os.environ, "CARGO_NET_RETRY": "0"}
    words = ["cargo", "fetch", "--quiet"]
    ran = subprocess.run(words, cwd=folder, env=at_once, capture_output=True, text=True)
    if ran.returncode != 0:
        why = ran.stderr.strip().rpartition("\n")[2].strip()
        here = lacks(DEBIAN) or "Debian's crates are here"
        sys.exit(f"rustc/strip.py: no crates come from crates.io: {why}\n{here}; {install()}")


def write(path, text):
    """Writes a file, unless it has this text: then cargo needn't compile it again."""
    if path.exists() and path.read_text() == text:
        return False
    path.parent.mkdir(parents=True, exist_ok=True)
    # at once, because another cargo may read
    whole = path.with_name(f".{path.name}.{os.getpid()}")
    whole.write_text(text)
    whole.replace(path)
    return True


def without_paths(folder):
    """The flags by which no path of the builder gets into what is built, so that the same sources
    give the same bytes in every folder."""
    home = os.environ.get("CARGO_HOME") or Path.home() / ".cargo"
    return [f"--remap-path-prefix={it}=" for it in (home, folder.absolute())]


def write_source(folder, crates):
    """Tells cargo where the crates come from. The other source's versions may be others."""
    text = f"[build]\nrustflags = {json.dumps(without_paths(folder))}\n"
    if crates:
        text += '[source.crates-io]\nreplace-with = "folder"\n[source.folder]\n'
        text += f'directory = "{crates}"\n'
    if write(folder / ".cargo/config.toml", text):
        (folder / "Cargo.lock").unlink(missing_ok=True)


def write_crate(folder, name, words, needs, own):
    if name == "chanv":
        for source in HERE.glob("library/*.rs"):
            write(folder / "chanv/src" / source.name, source.read_text())
        needs = sorted({*needs, *LIBRARY})
    write(folder / name / "Cargo.toml", manifest(name, words, needs, own))
    for source in (ROOT / "crates" / name / "src").rglob("*.rt"):
        text = strip(source.read_text())
        if source.name in ("lib.rt", "main.rt"):
            text = f"{text}\n#[macro_use]\nextern crate kit as std;\n"
        write(folder / source.relative_to(ROOT / "crates").with_suffix(".rs"), text)


def main():
    given = argparse.ArgumentParser(description=__doc__.splitlines()[0])
    given.add_argument("to", nargs="?", type=Path, default=ROOT / "out/rustc", metavar="FOLDER")
    given.add_argument("--crates", metavar="FOLDER|crates.io", help="where Rust's crates are")
    given.add_argument("--packages", action="store_true", help="print what Debian's apt installs")
    given = given.parse_args()
    if given.packages:
        print(*packages())
        return
    if fault := fault_of_cargo():
        sys.exit(f"rustc/strip.py: {fault}; {install()}")
    source = source_of(given.crates)
    write_source(given.to, source)
    for path in [HERE / "Cargo.toml", *HERE.glob("kit/**/*.*"), *HERE.glob("shims/**/*.*")]:
        write(given.to / path.relative_to(HERE), path.read_text())
    rows = [*crates()]
    own = {name for name, _, _ in rows}
    for name, words, needs in rows:
        write_crate(given.to, name, words, needs, own)
    if source is None:
        fetch(given.to)


if __name__ == "__main__":
    main()
