"""What the steps of the Makefile say before they begin, and what `make try` comes to.

tests/tools names each tool that a step lacks, and stops at a kit that doesn't start. `make try`
judges the deck that it is told, and fails unless a verdict was printed: a script in place of `rt`
says what `rt` may say. The kit itself, if it is here, tries a copy of the sources with one broken.
"""

import os
import shutil
import tempfile
from pathlib import Path

from building import ROOT
from examples import SEARCH_LOOP
from running import Ran, run, text_of, write_script

# what each step needs, as docs/CONTRIBUTING.md says it; python3 by its name or by its version
LINKING = ["cc", "ld", "objcopy", "ar"]
STEPS = {
    "prove": ["rt"],
    "link": ["rt", *LINKING],
    "coq": ["coqc", "coq_makefile", "ocamlopt", "python3"],
    "rustc": ["python3", *LINKING],
    "deb": ["dpkg-buildpackage", "dh", "dh_python3"],
    "test": ["rt", *LINKING, "bash", "nm", "readelf"],
}
OF_THE_KIT = ["prove", "link", "test"]
KIT, NO_KIT = "rattle-kit-0 logic 0", "make: rt version failed"
# in place of rt, and of each tool
SAYS_KIT = f"#!/bin/sh\necho {KIT}\n"
FOUND, FAILS = "#!/bin/sh\n", "#!/bin/sh\nexit 1\n"

# in place of rt: says where it is and what it is told, copies the deck, and ends as it is told
RT = f"""#!/bin/sh
[ "$*" != version ] || {{ echo {KIT}; exit; }}
echo "${{PWD##*/}} $*" > "$SEEN"
cat >> "$SEEN"
printf "$SAYS"
eval "$ENDS"
"""
# what rt says, how it ends, and whether that is a verdict
TRIED = [
    ("yes\n", "exit 0", True),
    ("no 000818 changes-argument\nand why\n", "exit 1", True),
    ("", "exit 0", False),
    ("", "exit 1", False),
    ("yes\n", "exit 1", False),
    ("no 000818 changes-argument\n", "exit 0", False),
    ("", "exit 2", False),
    ("no 000818 changes-argument\n", "exit 3", False),
    ("", "kill -9 $$", False),
    ("no 000818 changes-argument\n", "kill -9 $$", False),
]
BROKEN = "fn broken( {\n"


def tools_of(step, tools):
    """What the script says of a step where there are only these tools."""
    environment = {"PATH": str(tools), "KIT": KIT}
    return run("/bin/sh", ROOT / "tests/tools", step, env=environment)


def check_tools(checks, room):
    for step, needed in STEPS.items():
        tools = room / step
        tools.mkdir()
        for tool in {*needed, "python3"}:
            write_script(tools / tool, SAYS_KIT if tool == "rt" else FOUND)
        checks.expect(f"{step} with all", Ran(0), tools_of(step, tools))
        for tool in needed:
            (tools / tool).rename(room / "away")
            ran = tools_of(step, tools)
            is_so = ran.status == 1 and f"make: not found: {tool};" in ran.error
            checks.expect_that(f"{step} without {tool}", is_so, ran)
            (room / "away").rename(tools / tool)


def check_kit(checks, room):
    """The kit wants a whole Python, and has to say which kit it is."""
    for step in OF_THE_KIT:
        tools = room / step
        write_script(tools / "python3", FAILS)
        ran = tools_of(step, tools)
        said = "not found: Python-3" in ran.error and "apt-get install python3\n" in ran.error
        checks.expect_that(f"{step} with half a Python", ran.status == 1 and said, ran)
        write_script(tools / "python3", FOUND)
        for about, script in [("fails", FAILS), ("says nothing", FOUND)]:
            write_script(tools / "rt", script)
            ran = tools_of(step, tools)
            is_so = ran.status == 1 and ran.error.startswith(NO_KIT)
            checks.expect_that(f"{step} with a kit that {about}", is_so, ran)
        write_script(tools / "rt", f"{FOUND}echo another\n")
        said = f"make: warning: proved with {KIT}, but this is another\n"
        checks.expect(f"{step} with another kit", Ran(0, "", said), tools_of(step, tools))


def check_try(checks, room):
    """`make try` judges the deck with that path, and a no is no error."""
    write_script(room / "rt", RT)
    seen = room / "seen"
    words = ["make", "-s", "-C", ROOT, "try", f"DECK={SEARCH_LOOP.relative_to(ROOT)}", f"KIT={KIT}"]
    for says, ends, is_verdict in TRIED:
        given = {"PATH": f"{room}:{os.environ['PATH']}", "SEEN": str(seen)}
        ran = run(*words, env={**os.environ, **given, "SAYS": says, "ENDS": ends})
        name = f"make try, of which rt says {says!r} before it does {ends}"
        checks.expect(name, (is_verdict, says), (ran.status == 0, ran.output))
        about = is_verdict or "make try: no verdict" in ran.error
        checks.expect_that(f"{name}, and why it failed", about, ran)
    checks.expect("what rt is told", f"chanv try -- why\n{text_of(SEARCH_LOOP)}", text_of(seen))
    ran = run(*words[:-2], f"DECK={room / 'none'}", f"KIT={KIT}", env={**os.environ, **given})
    checks.expect_that("make try without its deck", ran.status != 0, ran)


def check_broken(checks, room):
    """The kit itself, over sources that don't compile."""
    if shutil.which("rt") is None:
        checks.skip("make try over a broken source", "no rt")
        return
    copy = room / "copy"
    copy.mkdir()
    for name in ("Makefile", "install.mk", "crates.txt", "HANDLES", "tests/tools", "examples", "crates"):
        at = copy / name
        at.parent.mkdir(exist_ok=True)
        if (ROOT / name).is_dir():
            ignored = shutil.ignore_patterns("out", "proofs", "must-fail")
            shutil.copytree(ROOT / name, at, ignore=ignored)
        else:
            shutil.copy(ROOT / name, at)
    with (copy / "crates/chanv/src/main.rt").open("a") as source:
        source.write(BROKEN)
    ran = run("make", "-C", copy, "try")
    is_so = ran.status != 0 and "src/main.rt:" in ran.error and "no verdict" in ran.error
    checks.expect_that("make try over a broken source", is_so, ran)


def check(checks, _built):
    with tempfile.TemporaryDirectory() as room:
        folder = Path(room)
        check_tools(checks, folder)
        check_kit(checks, folder)
        check_try(checks, folder)
        check_broken(checks, folder)
