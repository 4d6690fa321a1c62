"""Builds the package for pip, and writes only to the folder that pip names. It needs only Python.

pip asks for a wheel, for one that refers to this checkout (`pip install -e`), or for an archive of
the sources. `make wheel` asks for a wheel that has the library in it, for one kind of machine:

    python3 backend/building.py FOLDER LIBRARY PLATFORM [MARK]

MARK is what the version says of the library besides, such as `+not.proved`.
"""

import base64
import hashlib
import io
import re
import sys
import tarfile
import zipfile
from pathlib import Path

HERE = Path(__file__).resolve().parent.parent
PACKAGE = [*sorted((HERE / "chanv").glob("*.py")), HERE / "chanv/py.typed"]
SOURCES = [HERE / "pyproject.toml", HERE / "README.md", Path(__file__).resolve(), *PACKAGE]
NAMED = re.compile(r'(?m)^(?:VERSION|SONAME) = "(.*)"$')
VERSION, SONAME = NAMED.findall((HERE / "chanv/_c.py").read_text())
NAME = f"chanv-{VERSION}"

METADATA = f"""Metadata-Version: 2.1
Name: chanv
Version: {VERSION}
Summary: May a System/360 channel program run? Proved answers, over chanv's library for C.
Requires-Python: >=3.10
Description-Content-Type: text/markdown

{(HERE / "README.md").read_text()}"""

WHEEL = """Wheel-Version: 1.0
Generator: chanv
Root-Is-Purelib: {}
Tag: py3-none-{}
"""


def record_of(name, held):
    digest = base64.urlsafe_b64encode(hashlib.sha256(held).digest()).rstrip(b"=").decode()
    return f"{name},sha256={digest},{len(held)}\n"


def write_wheel(folder, files, platform="any", mark=""):
    """A wheel with these files, each a name and its bytes, and what every wheel has."""
    metadata = METADATA.replace(f"\nVersion: {VERSION}\n", f"\nVersion: {VERSION}{mark}\n")
    if mark:
        metadata = metadata.replace("Proved answers", "Answers that nothing proves")
    is_pure = str(platform == "any").lower()
    about = {"METADATA": metadata, "WHEEL": WHEEL.format(is_pure, platform)}
    info = f"{NAME}{mark}.dist-info"
    files = {**files, **{f"{info}/{name}": it.encode() for name, it in about.items()}}
    record = f"{info}/RECORD"
    files[record] = "".join([*map(record_of, files, files.values()), f"{record},,\n"]).encode()
    wheel = f"{NAME}{mark}-py3-none-{platform}.whl"
    with zipfile.ZipFile(Path(folder) / wheel, "w", zipfile.ZIP_DEFLATED) as out:
        for name, held in files.items():
            out.writestr(zipfile.ZipInfo(name, (1980, 1, 1, 0, 0, 0)), held)
    return wheel


def packaged():
    return {f"chanv/{it.name}": it.read_bytes() for it in PACKAGE}


def build_wheel(folder, settings=None, metadata=None):
    return write_wheel(folder, packaged())


def build_editable(folder, settings=None, metadata=None):
    return write_wheel(folder, {"chanv.pth": f"{HERE}\n".encode()})


def build_sdist(folder, settings=None):
    with tarfile.open(Path(folder) / f"{NAME}.tar.gz", "w:gz") as out:
        for file in SOURCES:
            out.add(file, f"{NAME}/{file.relative_to(HERE)}")
        about = tarfile.TarInfo(f"{NAME}/PKG-INFO")
        about.size = len(METADATA.encode())
        out.addfile(about, io.BytesIO(METADATA.encode()))
    return f"{NAME}.tar.gz"


def build_whole(folder, library, platform, mark=""):
    """A wheel with the library in the package, where the package looks for it."""
    files = {**packaged(), f"chanv/{SONAME}": Path(library).read_bytes()}
    return write_wheel(folder, files, platform, mark)


if __name__ == "__main__":
    print(build_whole(*sys.argv[1:]))
