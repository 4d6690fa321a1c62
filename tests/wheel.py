"""What `pip` gets of python/: a wheel, the wheel of a checkout, and an archive of the sources.

The backend makes them without pip. What is in them is by the packaging specifications: a wheel's
RECORD lists each file with its hash and its length, and itself without; METADATA and PKG-INFO name
the oldest Python that will do and hold the README; and the wheel of a checkout leads there.

`make wheel` and `make wheel-rustc` put the library into the package: the wheel is for one kind of
machine, its version says whether the library is proved, and where pip installs it there is no need
of anything else.
"""

import base64
import csv
import hashlib
import platform
import sys
import tarfile
import tempfile
import zipfile
from importlib import util
from pathlib import Path

from building import ROOT, is_proved, most_bytes, must_succeed, version
from package import FOLDER, shared_library
from python import soname
from running import Ran, run, text_of

NAME = f"chanv-{version()}"
PACKAGE = ["__init__.py", "_c.py", "py.typed", "supervisor.py"]
SOURCES = ["README.md", "backend/building.py", "pyproject.toml"]
METADATA = f"""Metadata-Version: 2.1
Name: chanv
Version: {version()}
Summary: May a System/360 channel program run? Proved answers, over chanv's library for C.
Requires-Python: >=3.10
Description-Content-Type: text/markdown

"""
# what the metadata say of a library that isn't proved
PROVED, NOT_PROVED = "Proved answers", "Answers that nothing proves"
MARK = "+not.proved"
# what a wheel is for on machines as rustc names them, and as they name themselves
PLATFORMS = {
    "TARGET=": f"linux_{platform.machine()}",
    "TARGET=aarch64-unknown-linux-gnu": "linux_aarch64",
    "TARGET=armv7-unknown-linux-gnueabihf": "linux_armv7l",
}
# what is asked where the wheel is installed
ASK = """import chanv, importlib.metadata as m
print(m.version("chanv"), chanv.__version__, chanv.library_version(), chanv._c._found())
"""


def backend():
    found = util.spec_from_file_location("building_of_pip", FOLDER / "backend/building.py")
    module = util.module_from_spec(found)
    found.loader.exec_module(module)
    return module


def record_of(files):
    """The rows of RECORD: a hash is in base64 for URLs, without the signs that fill it up."""
    for name, held in files.items():
        digest = base64.urlsafe_b64encode(hashlib.sha256(held).digest()).decode()
        yield [name, f"sha256={digest.replace('=', '')}", str(len(held))]


def check_wheel(checks, about, wheel, wanted, kind="any", mark=""):
    """A wheel holds these files, and what each wheel has to have."""
    checks.expect(f"the name of {about}", f"{NAME}{mark}-py3-none-{kind}.whl", wheel.name)
    with zipfile.ZipFile(wheel) as packed:
        files = {it: packed.read(it) for it in packed.namelist()}
    info = f"{NAME}{mark}.dist-info"
    record = files.pop(f"{info}/RECORD").decode()
    rows = [*record_of(files), [f"{info}/RECORD", "", ""]]
    checks.expect(f"the record of {about}", sorted(rows), sorted(csv.reader(record.splitlines())))
    metadata = METADATA.replace(f"Version: {version()}\n", f"Version: {version()}{mark}\n")
    metadata = metadata.replace(PROVED, NOT_PROVED if mark else PROVED)
    metadata += text_of(FOLDER / "README.md")
    checks.expect(f"the metadata of {about}", metadata, text_of(files.pop(f"{info}/METADATA")))
    said = dict(line.split(": ") for line in text_of(files.pop(f"{info}/WHEEL")).splitlines())
    is_pure = str(kind == "any").lower()
    tags = {"Wheel-Version": "1.0", "Root-Is-Purelib": is_pure, "Tag": f"py3-none-{kind}"}
    checks.expect(f"the tags of {about}", tags, {it: said.get(it) for it in tags})
    checks.expect(f"the files of {about}", wanted, files)


def check_editable(checks, made, room):
    """A Python that reads the wheel of a checkout gets the package from the checkout."""
    wheel = room / made.build_editable(room)
    check_wheel(checks, "the wheel of a checkout", wheel, {"chanv.pth": f"{FOLDER}\n".encode()})
    site = room / "site"
    zipfile.ZipFile(wheel).extractall(site)
    script = f"import site; site.addsitedir({str(site)!r}); import chanv; print(chanv.__file__)"
    ran = run(sys.executable, "-I", "-B", "-c", script)
    checks.expect("where it leads", f"{FOLDER / 'chanv/__init__.py'}\n", ran.output)


def check_whole(checks, built, packaged, room):
    """The wheel with the library, and what it answers where pip installs it and nothing else is."""
    library, is_so = built.library(), is_proved(built.library())
    target, given = ("wheel", [f"OUT={library}"]) if is_so else ("wheel-rustc", [])
    must_succeed("make", "-s", "-C", ROOT, target, f"WHEELS={room}", *given)
    [wheel] = room.glob("*.whl")
    size = wheel.stat().st_size
    checks.expect_that("the size of the wheel", size <= most_bytes("wheel"), size)
    mark, held = "" if is_so else MARK, shared_library(built).read_bytes()
    wanted = {**packaged, f"chanv/{soname()}": held}
    check_wheel(checks, "the wheel with the library", wheel, wanted, PLATFORMS["TARGET="], mark)
    for given, kind in PLATFORMS.items():
        ran = run("make", "-s", "-C", ROOT, given, "--eval=show: ; @echo $(PLATFORM)", "show")
        checks.expect(f"whom it is for, {given}", f"{kind}\n", ran.output)
    there = room / "there"
    if run(sys.executable, "-m", "venv", there).status != 0:
        checks.skip("pip install of the wheel with the library", "no venv with pip")
        return
    offline = ["env", "-i", "PIP_NO_INDEX=1", f"HOME={room}"]
    must_succeed(*offline, there / "bin/pip", "install", "-q", wheel)
    [place] = there.glob(f"lib/python3*/site-packages/chanv/{soname()}")
    said = f"{version()}{mark} {version()} {version()}{mark} {place}\n"
    checks.expect("what it answers", Ran(0, said), run(*offline, there / "bin/python", "-c", ASK))


def check_archive(checks, made, room):
    """The sources as they are; the metadata, with a letter of two bytes, as a whole."""
    made.METADATA += "\u00e9\n"
    with tarfile.open(room / made.build_sdist(room)) as packed:
        files = {it.name: packed.extractfile(it).read() for it in packed if it.isfile()}
    about = files.pop(f"{NAME}/PKG-INFO", b"").decode()
    metadata = METADATA + text_of(FOLDER / "README.md") + "\u00e9\n"
    checks.expect("the metadata of the archive", metadata, about)
    names = [*SOURCES, *(f"chanv/{name}" for name in PACKAGE)]
    wanted = {f"{NAME}/{name}": (FOLDER / name).read_bytes() for name in names}
    checks.expect("the files of the archive", wanted, files)


def check(checks, built):
    made = backend()
    packaged = {f"chanv/{name}": (FOLDER / "chanv" / name).read_bytes() for name in PACKAGE}
    with tempfile.TemporaryDirectory() as name:
        room = Path(name)
        check_wheel(checks, "the wheel", room / made.build_wheel(room), packaged)
        (room / "editable").mkdir()
        check_editable(checks, made, room / "editable")
        check_archive(checks, made, room)
        (room / "whole").mkdir()
        check_whole(checks, built, packaged, room / "whole")
