#!/usr/bin/env python3
"""Packs what `make install` installs, as sources that cargo and a C compiler build, off line.

    rustc/dist.py VERSION ARCHIVE

The archive has the workspace that strip.py makes, in vendor/ the crates of Debian that it uses,
with Debian's checksums, and a lock; the C file and the header of the library; in share/ what no
machine compiles; and the Makefile and the README of archive/. The same sources give the same
archive.
"""

import gzip
import io
import json
import shutil
import subprocess
import sys
import tarfile
import tempfile
from pathlib import Path

sys.dont_write_bytecode = True

import strip  # noqa: E402

HERE = Path(__file__).resolve().parent
VENDORED = '[source.crates-io]\nreplace-with = "vendor"\n[source.vendor]\ndirectory = "vendor"\n'


def vendor(folder):
    """Copies each crate that the workspace uses from elsewhere."""
    words = ["cargo", "metadata", "--offline", "--format-version=1"]
    said = subprocess.run(words, cwd=folder, stdout=subprocess.PIPE, check=True).stdout
    for crate in json.loads(said)["packages"]:
        at = Path(crate["manifest_path"]).parent
        if folder not in at.parents:
            shutil.copytree(at, folder / "vendor" / at.name)
    (folder / ".cargo/config.toml").write_text(VENDORED)


def add_rest(folder, name, version):
    """Adds all but the workspace and its crates."""
    root = HERE.parent
    for file in ("c/chanv.c", "crates/chanv_c/include/chanv.h", "docs/chanv.pc.in"):
        shutil.copy(root / file, folder / "chanv_c")
    shutil.copy(root / "install.mk", folder)
    words = ["make", "-s", "-C", root, "share", f"DESTDIR={folder}", "PREFIX="]
    subprocess.run(words, check=True)
    oldest = ".".join(map(str, strip.OLDEST))
    values = {"@VERSION@": version, "@FOLDER@": name, "@OLDEST@": oldest}
    for file in (HERE / "archive").iterdir():
        text = file.read_text()
        for hole, value in values.items():
            text = text.replace(hole, value)
        (folder / file.name).write_text(text)


def pack(folder, name, archive):
    """Packs a folder under a name, each file with the same owner, mode and time. The archive
    doesn't hold its own name."""
    with (
        open(archive, "wb") as file,
        gzip.GzipFile("", "wb", fileobj=file, mtime=0) as packed,
        tarfile.open(None, "w", packed) as tar,
    ):
        for path in sorted(it for it in folder.rglob("*") if it.is_file()):
            entry = tarfile.TarInfo(f"{name}/{path.relative_to(folder)}")
            data = path.read_bytes()
            entry.size = len(data)
            tar.addfile(entry, io.BytesIO(data))


def main():
    version, archive = sys.argv[1:]
    if why := strip.lacks(strip.DEBIAN):
        sys.exit(f"rustc/dist.py: {why}; it packs the crates of Debian; {strip.install()}")
    with tempfile.TemporaryDirectory() as room:
        folder = Path(room).resolve() / "chanv"
        subprocess.run([HERE / "strip.py", folder], check=True)
        vendor(folder)
        name = f"chanv-{version}-not-proved"
        add_rest(folder, name, version)
        pack(folder, name, archive)


if __name__ == "__main__":
    main()
