"""Finds what the tests run, and builds what is written in C."""

import os
import re
import shlex
import threading
from pathlib import Path

from expecting import CannotRun
from running import run

ROOT = Path(__file__).resolve().parent.parent
HERE = ROOT / "tests"
FLAGS = ["-std=c11", "-Wall", "-Wextra", "-Werror", "-O2"]
# what `make rustc` leaves
NOT_PROVED = ROOT / "out/not_proved"
SANITIZED = ["-g", "-fsanitize=address,undefined", "-fno-sanitize-recover=all"]


def short(path):
    """The path from the top of the repository, for the names of checks."""
    return str(path.relative_to(ROOT))


def crates():
    """The names that crates.txt lists, lowest first."""
    lines = (ROOT / "crates.txt").read_text().splitlines()
    return [line.partition(":")[0].split()[0] for line in lines if line and line[0] != "#"]


class Made:
    """What was given, or what a target of make leaves at a path, made once, whoever asks first."""

    def __init__(self, given, target, path):
        self._given, self._target, self._path = given, target, path
        self._one_at_a_time = threading.Lock()

    def path(self):
        with self._one_at_a_time:
            if self._given is None:
                must_succeed("make", "-C", ROOT, self._target, timeout=None)
                self._given = self._path
        return Path(self._given).absolute()


class Built:
    """The programs, and the library for C; paths that aren't given are those of this repository.

    `jobs` says how many crates may be proved at a time; None leaves it to `rt`.
    """

    def __init__(self, program=None, unit_tests=None, library=None, jobs=None):
        self.jobs = jobs
        self._chanv = program or ROOT / "crates/chanv/out/chanv"
        made = ROOT / "crates/unit_tests/out/unit_tests_tests"
        self._unit_tests = Made(unit_tests, "unit_tests", made)
        self._library = Made(library, "lib", ROOT / "out")

    def chanv(self):
        return existing(self._chanv)

    def unit_tests(self):
        """The program of the unit tests. `make unit_tests` builds it, if none was given."""
        return existing(self._unit_tests.path())

    def library(self):
        """The folder with libchanv.a and chanv.h. `make lib` builds them, if none was given."""
        folder = self._library.path()
        for name in ("libchanv.a", "chanv.h"):
            if not (folder / name).is_file():
                raise CannotRun(f"no {folder / name}")
        return folder


def is_proved(path):
    """Whether a program, or the folder of a library, isn't one that `make rustc` left."""
    return NOT_PROVED not in (path, *path.parents)


def said_version(program):
    """What the program says to --version."""
    return f"chanv {version()}\n" if is_proved(program) else f"chanv {version()} (not proved)\n"


def existing(program):
    path = Path(program).absolute()
    if not (path.is_file() and os.access(path, os.X_OK)):
        raise CannotRun(f"no program {path}")
    return path


def c_compiler():
    return shlex.split(os.environ.get("CC") or "cc")


def compile_c(source, made, *flags):
    """Compiles a file with the C compiler, which is $CC or cc."""
    must_succeed(*c_compiler(), "-o", made, source, *flags)
    return made


def version():
    """The version of this repository, which the Makefile says; the test of that name compares."""
    return re.search(r"(?m)^VERSION = (.*)$", (ROOT / "Makefile").read_text())[1]


def most_bytes(target):
    """The size that README's table of builds gives for what a target of make makes."""
    rows = re.findall(r"(?m)^\|.*\|$", (ROOT / "README.md").read_text())
    [row] = [row for row in rows if re.search(rf"`make {target}`.* MB \|$", row)]
    return int(float(row.split(" | ")[-1].split()[0]) * 1_000_000)


def version_of(header):
    return re.search(r'(?m)^#define CHANV_VERSION "(.*)"$', header.read_text())[1]


def compile_with(library, source, made, *more):
    """Compiles a program that asks the library for C, which stands in a folder."""
    linked = [f"-I{library}", f"-I{ROOT / 'examples/c'}", library / "libchanv.a", "-pthread"]
    return compile_c(source, made, *FLAGS, *more, *linked)


def must_succeed(*words, **how):
    try:
        ran = run(*words, **how)
    except OSError as error:
        raise CannotRun(f"{words[0]}: {error.strerror}") from error
    if ran.status != 0:
        raise CannotRun(f"{shlex.join(map(str, words))}\n{ran.output}{ran.error}")
