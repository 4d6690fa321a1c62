"""What README says of building, typed in a new Debian 12 and a new Debian 13.

debootstrap makes each from where apt is set up to take packages from. The checkout is copied in,
and the lines after `Without the kit` and after `With the kit` are typed. With the kit, which is
bound in to be read only, what takes a proof isn't typed; and in place of all tests some are run.
What `make dist` packs is unpacked there too. After the line of its README for apt it is built,
checked and installed without a network, and a C program is linked with what is installed. And the
packages of the test `deb` are installed, tried from C and Python, and removed without a trace.
Each release is left out, by its name, if this isn't the superuser, if there is no debootstrap or if
no package comes.
"""

import os
import re
import shutil
import tempfile
from concurrent.futures import ThreadPoolExecutor
from pathlib import Path

import deb
from building import ROOT, must_succeed
from cargo import missing as cannot_pack
from cargo_alone import NAME, pack
from expecting import Checks
from running import run, text_of

README, OF_ARCHIVE = ROOT / "README.md", ROOT / "rustc/archive/README.md"
RELEASES = ["bookworm", "trixie"]
# what each block begins after, and what is tried once its lines are typed
WITHOUT, WITH, ARCHIVE = "Without the kit", "With the kit", "On Debian 12 or 13:"
# what isn't in a README
PACKAGES = "the packages"
TESTS = "steps counting manual versions pages words ranges refused_decks wheel linking"
WITHOUT_NETWORK = """unshare --net make check
make install && ldconfig
cc -std=c11 -o ask /usr/local/share/doc/chanv/examples/c/ask.c -lchanv && ./ask
make uninstall && test -z "$(find /usr/local -type f)\""""
INSTALLED = """apt-get install -y gcc libc6-dev pkg-config /deb/*.deb
chanv verify /usr/share/doc/chanv/examples/search-loop.deck
cp /usr/share/doc/chanv/examples/c/ask.c .
cc -std=c11 -o ask ask.c $(pkg-config --cflags --libs chanv) && ./ask
python3 -c 'import chanv; assert chanv.library_version().startswith(chanv.__version__)'
dpkg --purge chanv libchanv-dev python3-chanv $(cd /deb && ls | grep -o "^libchanv[0-9]*")
test -z "$(find /usr /etc /var/lib/dpkg/info -name '*chanv*')\""""
THEN = {
    WITHOUT: f"tests/run --rustc {TESTS}",
    WITH: "tests/run steps",
    ARCHIVE: WITHOUT_NETWORK,
    PACKAGES: INSTALLED,
}
# the lines that are typed; others take a proof or run all tests
TYPED = re.compile(r"apt-get |make (try|rustc)\b|make$|out/")
LAST = 12

# mounts in a space of its own, so that nothing stays mounted; the first word is the new root
ENTER = """
mount --bind /proc "$1/proc" && mount --bind /dev "$1/dev" || exit 125
if [ -n "$KIT" ]; then
    mkdir -p "$1$KIT" && mount --bind -o ro "$KIT" "$1$KIT" || exit 125
fi
exec chroot "$1" /usr/bin/env -i HOME=/root DEBIAN_FRONTEND=noninteractive \\
    PATH="${KIT:+$KIT/bin:}/usr/local/bin:/usr/sbin:/usr/bin:/sbin:/bin" bash -ec "$2"
"""


def block_of(heading):
    """The lines that a README has a reader type after the words, without their comments."""
    if heading == PACKAGES:
        return []
    after = text_of(OF_ARCHIVE if heading == ARCHIVE else README).partition(heading)[2]
    found = re.search(r"(?m)(?:^    .*\n)+", after)
    lines = found[0].splitlines() if found else []
    return [re.sub(r"  +#.*", "", line).strip() for line in lines]


def mirror():
    """Where apt takes the packages of the release here from, or None."""
    said = text_of(Path("/etc/os-release")) if Path("/etc/os-release").exists() else ""
    here = re.search(r"(?m)^VERSION_CODENAME=(\w+)$", said)
    words = ["--format", "$(REPO_URI) $(RELEASE) $(COMPONENT)", "Created-By: Packages"]
    for line in run("apt-get", "indextargets", *words).output.splitlines():
        place, release, component = line.split()
        if here and (release, component) == (here[1], "main"):
            return place
    return None


def missing():
    """Why no release can be tried here, or None."""
    if os.geteuid() != 0:
        return "not the superuser"
    absent = [it for it in ("debootstrap", "unshare", "apt-get") if shutil.which(it) is None]
    if absent:
        return f"no {absent[0]}"
    if run("unshare", "--mount", "true").status != 0:
        return "no mounts of its own"
    return None if mirror() else "apt has no place for packages"


def kit():
    """The folder of the kit, or nothing."""
    return str(Path(run("rt", "doc").output.strip()).parent) if shutil.which("rt") else ""


def lacks(heading, kit):
    """Why a block can't be tried here, or None."""
    if heading == WITH and not kit:
        return "no rt"
    return {ARCHIVE: cannot_pack, PACKAGES: deb.missing}.get(heading, lambda: None)()


def prepare(heading, root, built):
    """Puts into a new system what is packed, and gives the folder in which the lines are typed."""
    if heading == PACKAGES:
        deb.pack(built, root)
    if heading != ARCHIVE:
        return "chanv"
    pack(root)
    return NAME


def typed(root, lines, kit="", folder="chanv"):
    """Types lines in a folder of a new system, and stops at the first that fails."""
    script = "\n".join([f"set -v; cd /{folder}", *lines])
    words = ["unshare", "--mount", "sh", "-c", ENTER, "sh", root, script]
    return run(*words, env={**os.environ, "KIT": kit}, timeout=None)


def check_block(checks, release, root, heading, kit, folder):
    lines = [line for line in block_of(heading) if TYPED.match(line)]
    has_lines = len(lines) > 1 or heading == PACKAGES
    checks.expect_that(f"README's lines: {heading}", has_lines, lines)
    ran = typed(root, [*lines, THEN[heading]], kit, folder)
    if ran.status == 0:
        checks.passed += 1
    else:
        failed = [line for line in ran.output.splitlines() if line.startswith("FAILED ")]
        seen = [*failed[:LAST], *ran.output.splitlines()[-LAST:], *ran.error.splitlines()[-LAST:]]
        checks.fail(f"{release}: {heading}", *seen)


def made(release, root):
    """Makes a new system with the checkout in it. Gives why that failed, or None."""
    ran = run("debootstrap", "--variant=minbase", release, root, mirror(), timeout=None)
    if ran.status != 0:
        return (ran.output + ran.error).strip().rpartition("\n")[2]
    ignored = shutil.ignore_patterns("out", ".git", "__pycache__")
    shutil.copytree(ROOT, root / "chanv", symlinks=True, ignore=ignored)
    return None if typed(root, ["apt-get -q update"]).status == 0 else "apt-get update failed"


def checks_of(release, built):
    checks = Checks("clean")
    with tempfile.TemporaryDirectory(prefix=f"{release}-") as room:
        new = Path(room, "new")
        if why := made(release, new):
            checks.skip(release, why)
            return checks
        for heading in THEN:
            its = kit() if heading == WITH else ""
            if why := lacks(heading, its):
                checks.skip(f"{release}, {heading}", why)
                continue
            root = Path(room, "tried")
            must_succeed("cp", "-a", new, root)
            check_block(checks, release, root, heading, its, prepare(heading, root, built))
            shutil.rmtree(root)
    return checks


def check(checks, built):
    if why := missing():
        checks.skip("all of it", why)
        return
    with ThreadPoolExecutor() as beside:
        for done in beside.map(lambda release: checks_of(release, built), RELEASES):
            checks.passed += done.passed
            checks.failed += done.failed
            checks.skipped += done.skipped
