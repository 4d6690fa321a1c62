"""What `make deb` and `make deb-rustc` pack for Debian is whole, and clean under lintian.

The packages have what `make install` puts into a stage, each file once, and besides only what every
package has. The package of the library is named by its soname. Each says whether it is proved, by
its version and its description. The test `clean` installs them. Without debhelper the test is left
out, by its name, and without lintian the part.
"""

import re
import shutil
import tempfile
from pathlib import Path

from building import ROOT, is_proved, most_bytes, must_succeed, version
from running import run

TOOLS = ["dpkg-buildpackage", "dh", "dh_python3"]
# what every package has, and where Debian wants what `make install` puts elsewhere
OWN = re.compile(r"usr/share/doc/[^/]+/(copyright|changelog\.gz)")
MOVED = {
    "usr/share/chanv/python/": "usr/lib/python3/dist-packages/",
    "usr/share/man/man1/chanv.1": "usr/share/man/man1/chanv.1.gz",
}
# the tags of lintian about what the owner hasn't said: who maintains, and the licence
OWNERS = [
    "bogus-mail-host",
    "bogus-mail-host-in-debian-changelog",
    "copyright-without-copyright-notice",
]


def missing():
    """What is missing to pack here, or None."""
    return next((f"no {tool}" for tool in TOOLS if shutil.which(tool) is None), None)


def given(built):
    """The target and the words by which make packs what is under test, and what its version adds."""
    library, program = built.library(), built.chanv()
    if is_proved(program):
        return "deb", [f"OUT={library}", f"PROGRAM={program}"], ""
    return "deb-rustc", [], "~not.proved"


def pack(built, room):
    """Makes the packages in a folder: their paths, by the names of the packages."""
    target, words, _ = given(built)
    words += [f"PACKAGES={room / 'deb'}"]
    must_succeed("make", "-s", "-C", ROOT, target, *words, timeout=None)
    return {it.name.partition("_")[0]: it for it in sorted((room / "deb").glob("*.deb"))}


def field(package, name):
    return run("dpkg-deb", "--field", package, name).output.strip()


def files_of(package):
    listed = run("dpkg-deb", "--contents", package).output.splitlines()
    return [line.split(" ./")[1].split(" -> ")[0] for line in listed if not line.endswith("/")]


def check_files(checks, packages, stage):
    wanted = {str(it.relative_to(stage)) for it in stage.rglob("*") if not it.is_dir()}
    for old, new in MOVED.items():
        wanted = {it.replace(old, new) if it.startswith(old) else it for it in wanted}
    seen = [name for it in packages.values() for name in files_of(it) if not OWN.fullmatch(name)]
    checks.expect("files of the packages", sorted(wanted), sorted(seen))


def check_names(checks, packages, library, mark):
    rows = run("readelf", "-dW", library / f"libchanv.so.{version()}").output
    [soname] = re.findall(r"SONAME.*\[libchanv\.so\.(.*)\]", rows)
    wanted = ["chanv", "libchanv-dev", f"libchanv{soname}", "python3-chanv"]
    checks.expect("the packages", wanted, sorted(packages))
    for name, package in packages.items():
        checks.expect(f"the version of {name}", f"{version()}{mark}", field(package, "Version"))
        said = field(package, "Description").splitlines()
        is_said = said[0].endswith(", not proved"), "Nothing of this version is proved" in said[-1]
        checks.expect(f"whether {name} says that it isn't proved", (bool(mark),) * 2, is_said)
    size = sum(it.stat().st_size for it in packages.values())
    checks.expect_that("the size of all", size <= most_bytes("deb"), size)
    depends = field(packages["libchanv-dev"], "Depends")
    checks.expect("what libchanv-dev needs", f"libchanv{soname} (= {version()}{mark})", depends)


def check_lintian(checks, room):
    if shutil.which("lintian") is None:
        checks.skip("lintian", "no lintian")
        return
    [changes] = (room / "deb").glob("*.changes")
    words = ["--allow-root", "--fail-on", "error,warning", "--suppress-tags", ",".join(OWNERS)]
    ran = run("lintian", *words, changes, timeout=None)
    checks.expect_that("lintian finds nothing else", ran.status == 0, ran)


def check(checks, built):
    if why := missing():
        checks.skip("all of it", why)
        return
    _, _, mark = given(built)
    with tempfile.TemporaryDirectory() as name:
        room = Path(name)
        packages = pack(built, room)
        check_names(checks, packages, built.library(), mark)
        check_files(checks, packages, room / "deb/chanv/stage")
        check_lintian(checks, room)
