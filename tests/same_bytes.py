"""What plain rustc builds has the same bytes in every folder, and no path of who built it.

`make rustc` builds in two copies of the checkout, by the compiler of `rustc/machines.sh`, because
Debian's keeps the paths of the sources, and a newer one drops them by itself. Without that compiler
the test is left out, by its name.
"""

import os
import shutil
import tempfile
from pathlib import Path

from architectures import COMPILER, with_compiler
from building import ROOT, must_succeed, version
from cargo import missing

MADE = ["chanv", "libchanv.a", f"libchanv.so.{version()}"]
IGNORED = shutil.ignore_patterns("out", ".git", "__pycache__")


def built_in(folder):
    """What a copy of the checkout in a folder builds: the bytes of each file."""
    shutil.copytree(ROOT, folder, symlinks=True, ignore=IGNORED)
    must_succeed("make", "-s", "-C", folder, "rustc", env=with_compiler(), timeout=None)
    return [(folder / "out/not_proved" / name).read_bytes() for name in MADE]


def check(checks, _built):
    why = missing() or (None if (COMPILER / "rustc").exists() else f"no compiler in {COMPILER}")
    if why:
        checks.skip("all of it", why)
        return
    with tempfile.TemporaryDirectory() as room:
        folders = [Path(room, name) for name in ("here", "in/another-folder")]
        first, second = map(built_in, folders)
    builders = [room, str(ROOT), os.path.expanduser("~")]
    for name, here, there in zip(MADE, first, second):
        checks.expect_that(f"{name} is the same in two folders", here == there, "other bytes")
        paths = [it for it in builders if it.encode() in here]
        checks.expect(f"paths of who built {name}", [], paths)
