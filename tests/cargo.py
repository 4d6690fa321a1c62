"""Builds the program and the library for C by plain rustc, as rustc/ says, for the tests."""

import os
import platform
import shutil
import threading
from importlib import util

from building import ROOT, SANITIZED, c_compiler, must_succeed, version
from running import run

MADE = ROOT / "out/rustc"
# each overflow, and each assertion of Rust's library, is checked
CHECKED = ["--offline", "--quiet", "--profile", "checked"]
TARGET = f"{platform.machine()}-unknown-linux-gnu"
# what the shared library shows
SHOWN = "{ global: chanv_*; local: *; };\n"

_one_at_a_time = threading.Lock()
_stripped = []


def stripping():
    """The module of rustc/strip.py."""
    found = util.spec_from_file_location("strip", ROOT / "rustc/strip.py")
    module = util.module_from_spec(found)
    found.loader.exec_module(module)
    return module


def missing():
    """What is missing to build here without a network, or None."""
    strip = stripping()
    return strip.fault_of_cargo() or strip.lacks(strip.DEBIAN)


def workspace():
    """The folder of Cargo's workspace, made once, whoever asks first."""
    with _one_at_a_time:
        if not _stripped:
            must_succeed(ROOT / "rustc/strip.py", MADE)
            _stripped.append(MADE)
    return MADE


def cargo(*words, **how):
    must_succeed("cargo", *words, cwd=workspace(), timeout=None, **how)


def program():
    """chanv by rustc, with everything checked."""
    cargo("build", *CHECKED, "-p", "chanv")
    return MADE / "target/checked/chanv-rustc"


def library():
    """The folder with the library for C by rustc."""
    cargo("build", *CHECKED, "-p", "chanv_c")
    return linked(MADE / "library", MADE / "target/checked")


def sanitized_library():
    """The same under AddressSanitizer, and its C file under UndefinedBehaviorSanitizer too."""
    wrapped = {**os.environ, "RUSTC_WRAPPER": str(ROOT / "rustc/sanitized.sh")}
    # the wrapper isn't a part of what cargo compares, so the folder is another
    there = MADE / "sanitized"
    words = ["--target", TARGET, "--target-dir", there, "-p", "chanv_c"]
    cargo("build", *CHECKED, *words, env=wrapped)
    return linked(MADE / "sanitized_library", there / TARGET / "checked", *SANITIZED)


def linked(folder, made, *flags):
    """Links the library with its C file, like `make lib`: an archive and a shared library."""
    folder.mkdir(exist_ok=True)
    shutil.copy(ROOT / "crates/chanv_c/include/chanv.h", folder)
    shutil.copy(made / "libchanv_c.a", folder / "libchanv.a")
    compile_it = [*c_compiler(), "-std=c99", "-O2", "-fPIC", f"-I{folder}", *flags]
    must_succeed(*compile_it, "-c", "-o", folder / "chanv_c.o", ROOT / "c/chanv.c")
    # ar itself asks LLVM's plugin, if there is one, which can't read what rustc's newer LLVM wrote
    must_succeed("gcc-ar", "rs", folder / "libchanv.a", folder / "chanv_c.o")
    (folder / "shown.map").write_text(SHOWN)
    soname = f"libchanv.so.{version().split('.')[0]}"
    how = [f"-soname,{soname}", f"--version-script={folder / 'shown.map'}", "--gc-sections"]
    whole = ["-Wl,--whole-archive", folder / "libchanv.a", "-Wl,--no-whole-archive"]
    shared = folder / f"libchanv.so.{version()}"
    link = [*c_compiler(), "-shared", *flags, *(f"-Wl,{it}" for it in how)]
    must_succeed(*link, "-o", shared, *whole, "-pthread")
    return folder


def runtime_of(sanitizer):
    """The path of a sanitizer's library, which goes before all others."""
    return run(*c_compiler(), f"-print-file-name=lib{sanitizer}.so").output.strip()
