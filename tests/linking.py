"""How the Makefile links the library for C, and with which tools, over stubs in place of its Rust
part.

Neither the kit nor cargo is needed: the C file's calls of the Rust part lead to empty functions. A
C compiler that makes no position-independent code by itself has to be told to. The shared library
has its soname, and no stack that runs, no table that stays writable and no symbol that is bound
late. CROSS begins the names of all tools, and cargo gets the linker of the machine that TARGET
names.
"""

import os
import re
import shlex
import shutil
import tempfile
from pathlib import Path

from building import ROOT, c_compiler, must_succeed, version
from library import MAY_ASK_FOR
from running import run, text_of, write_script

TOOLS = ["ld", "objcopy", "ar"]
# runs a tool of this machine, and leaves its name
STANDS_FOR = '#!/bin/sh\necho {tool} >> "$SEEN"\nexec {tool} "$@"\n'
# each row of readelf that the shared library has to have
DYNAMIC = [rf"SONAME.*\[libchanv\.so\.{re.escape(version().split('.')[0])}\]", "BIND_NOW"]
HEADERS = ["GNU_RELRO", "GNU_STACK .* RW "]
# other machines as rustc names them, and what the names of their tools begin with
MACHINES = {
    "s390x-unknown-linux-gnu": "s390x-linux-gnu",
    "aarch64-unknown-linux-gnu": "aarch64-linux-gnu",
    "armv7-unknown-linux-gnueabihf": "arm-linux-gnueabihf",
    "i686-unknown-linux-gnu": "i686-linux-gnu",
}


def stubs(room):
    """An object with an empty function for each call that c/chanv.c makes of the Rust part."""
    made = room / "c.o"
    include = f"-I{ROOT / 'crates/chanv_c/include'}"
    must_succeed(*c_compiler(), "-c", "-o", made, include, ROOT / "c/chanv.c")
    asked = {*re.findall(r"(?m)^ +U ([a-z]\w+)$", run("nm", made).output)} - MAY_ASK_FOR
    (room / "stubs.c").write_text("".join(f"void {name}(void) {{}}\n" for name in asked))
    object_of = room / "stubs.o"
    must_succeed(*c_compiler(), "-fPIC", "-c", "-o", object_of, room / "stubs.c")
    return object_of


def link(out, room, compiler, *words):
    given = [f"OUT={out}", f"PARTS={room / 'stubs.o'}", f"CC={shlex.join([*compiler])}", *words]
    paths = {"PATH": f"{room}:{os.environ['PATH']}", "SEEN": str(room / "seen")}
    return run("make", "-C", ROOT, "link", *given, env={**os.environ, **paths})


def check_linking(checks, room):
    # by itself it would make code for one place alone
    ran = link(room / "out", room, [*c_compiler(), "-fno-pie"])
    checks.expect_that("make link", ran.status == 0, ran)
    made = room / f"out/libchanv.so.{version()}"
    for option, rows in (("-dW", DYNAMIC), ("-lW", HEADERS)):
        seen = run("readelf", option, made).output
        for row in rows:
            checks.expect_that(f"the shared library has {row}", re.search(row, seen), seen)
    rows = run("readelf", "-dW", made).output
    checks.expect_that("it has no code that is changed", "TEXTREL" not in rows, rows)


def check_tools(checks, room):
    for tool in TOOLS:
        write_script(room / f"other-{tool}", STANDS_FOR.format(tool=shutil.which(tool)))
    ran = link(room / "crossed", room, c_compiler(), "CROSS=other-")
    checks.expect_that("make link for another machine", ran.status == 0, ran)
    seen = {Path(line).name for line in text_of(room / "seen").split()}
    checks.expect("the tools for another machine", {*TOOLS}, seen)
    for machine, of_tools in MACHINES.items():
        shows = ["--eval=show: ; @env", "show", f"TARGET={machine}"]
        ran = run("make", "-s", "-C", ROOT, *shows)
        linker = f"CARGO_TARGET_{machine.upper().replace('-', '_')}_LINKER={of_tools}-gcc"
        checks.expect_that(f"cargo's linker for {machine}", linker in ran.output.split("\n"), ran)


def check(checks, _built):
    with tempfile.TemporaryDirectory() as name:
        room = Path(name)
        stubs(room)
        check_linking(checks, room)
        check_tools(checks, room)
