"""The module of hercules/, by its questions alone over random programs, and in the Hercules here.

The program of c/hercules.c starts random programs again and again, while storage, its keys and
what another program may store into change. It compares each answer with the answer to a question
put anew to storage as it stands. A header that leaves something out has to give a wrong answer. The
CCWs that the assembler makes of demo.s are compared with its lines.

The module itself is built with the headers of the source in the folder HERCULES_SOURCE, and loaded
into the Hercules that is installed. Each case there says which programs start on which disks, which
commands follow, and what has to be logged. A module that leaves something out has to fail a case.
What can't be tried is left out, by its name.
"""

import concurrent.futures
import os
import re
import shutil
import tempfile
from pathlib import Path
from typing import NamedTuple

from assembler import ASSEMBLER, LINKER
from building import FLAGS, HERE, ROOT, compile_c, short
from running import Ran, run, text_of

FOLDER = ROOT / "hercules"
SEEDS, STARTS = range(1, 9), 20000

# by the clock: what takes longer hangs, as Hercules itself may
MOST_SECONDS = 600
# Hercules itself may crash if a disk is detached with a program in flight: so often it is tried
CRASHES = 6
# the message with which Hercules begins to end
SHUTDOWN = "HHCIN900I"
# how much longer the pauses are if what was logged isn't what comes, as on a machine that is busy
LONGER = 4

# What is left out, the text that is in the header for it, and the text that is there instead.
CARELESS = [
    ("the comparison", "code <= CHANV_REFUSED_CHANGED", "code < CHANV_REFUSED_CHANGED"),
    ("the keys", "(has & STORKEY_KEY) == key", "has < 255"),
    ("fetch protection", "(fetching && !(has & STORKEY_FETCH))", "fetching"),
    (
        "what goes on where chanv stops",
        "CHANV_ALLOW_HANGING | CHANV_ALLOW_INTERRUPTING",
        "CHANV_ALLOW_HANGING | CHANV_ALLOW_INTERRUPTING | CHANV_ALLOW_ENDING_CHAINS",
    ),
    ("the table", "flight.table, flight.rows, program", "NULL, 0, program"),
]

# the CCWs of demo.s by their addresses: a seek, a search for the home address, and a read of record
# zero, with the flags of each; the search has two
CCWS = {
    0x800: "0700090040000006 3900090260000004 0800080800000000 1600090C20000010",
    0x840: "0700090640000006 3900090860000004 0800084800000000 1600090C20000010",
    0x880: "0700090040000006 3900090260000004 0800088800000000 16000FF820000010",
}


def compile_header(library, header, folder):
    """Compiles the program with a header, which is in the folder by itself."""
    folder.mkdir()
    (folder / "chanvask.h").write_text(header)
    linked = ["-D_DEFAULT_SOURCE", f"-I{library}", f"-I{folder}", library / "libchanv.a"]
    return compile_c(HERE / "c/hercules.c", folder / "hercules", *FLAGS, *linked)


def check_header(checks, library, room):
    header = text_of(FOLDER / "chanvask.h")
    program = compile_header(library, header, room / "careful")
    for seed in SEEDS:
        ran = run(program, str(seed), str(STARTS))
        counts = rf"{STARTS} starts, ([1-9]\d*) yes, ([1-9]\d*) stopped, ([1-9]\d*) beside"
        ended = ran.status == 0 and re.match(counts, ran.output)
        checks.expect_that(f"{STARTS} starts, seed {seed}", ended, ran)
    ran = run(program, "0", str(STARTS))
    all_yes = ran.output.startswith(f"{STARTS} of {STARTS} yes beside 8, ")
    checks.expect_that("starts beside eight programs", ran.status == 0 and all_yes, ran)
    for name, old, new in CARELESS:
        checks.expect(f"the header has {name}, once", 1, header.count(old))
        program = compile_header(library, header.replace(old, new), room / name)
        came = [run(program, str(seed), str(STARTS)) for seed in SEEDS]
        wrong = [ran for ran in came if ran.status == 1 and ran.output.startswith("differs at ")]
        checks.expect_that(f"without {name} an answer is wrong", wrong, came)


def check_demo(checks, room):
    """The assembler makes of demo.s the CCWs that its lines say."""
    if not shutil.which(ASSEMBLER):
        checks.skip(short(FOLDER / "demo.s"), f"no {ASSEMBLER}")
        return
    assembled, linked = room / "demo.o", room / "demo.bin"
    made = [
        run(ASSEMBLER, "-m31", "-march=g5", "-o", assembled, FOLDER / "demo.s"),
        run(LINKER, *"-m elf_s390 -Ttext 0 --oformat binary -o".split(), linked, assembled),
    ]
    checks.expect("demo.s is assembled and linked", [Ran(0), Ran(0)], made)
    image = linked.read_bytes()
    for address, ccws in CCWS.items():
        found = image[address : address + 32].hex(" ", 8).upper()
        checks.expect(f"the CCWs at {address:06X} of demo.s", ccws, found)


class Case(NamedTuple):
    """What Hercules is given: a program with symbols of the assembler, statements of disks without
    their address and file, and commands; and what it logs, a line each."""

    name: str
    program: str
    disks: tuple
    lines: str
    commands: tuple = ()
    image: tuple = ("2314",)
    refused: str = ""


ASKS = "chanv=10-19 chanvrefuse"
DEMO = """\
HHCCV001I 0190: chanv yes, start 000800
HHCCV002W 0190: chanv no 000840 seek-outside, start 000840, not started
HHCCV003I 0190:  000840 fresh 0700090640000006
HHCCV002W 0190: chanv no 000898 store-not-lent, start 000880, not started
HHCCV003I 0190:  000880 fresh 0700090040000006
HHCCV003I 0190:  000888 fresh 3900090260000004
HHCCV003I 0190:  000898 fresh 16000FF820000010
HHCCV003I 0190: not lent: 001000-001007
PSW=00020000 80002020
"""
YES_191 = "HHCCV001I 0191: chanv yes, start 000840\n"
YES_190 = "HHCCV001I 0190: chanv yes, start 000800\n"
ENDED, REFUSED = "PSW=00020000 80000000\n", "PSW=00020000 80000020\n"
OVER = "HHCCV007W 0190: chanv keeps-stored-over 000800 by the program on 0191, start 000800"
STOPS = "HHCCV006W 0190: chanv stops at 0008C0, start 0008C0"
BESIDE = "chanv yes, beside the unjudged program on 0191, start 000800"
NOTHING = "0 starts, 0 questions, 0 noes, 0 refused, 0 beside unjudged, 0 changed\n"
ONCE = NOTHING.replace("0 starts, 0 questions", "1 starts, 1 questions")
IN_USE = "HHCHD017E Unload of chanv.so rejected by final section\n"

CASES = [
    # on a plain image, a compressed one, and on the other type of disk
    *(
        case
        for image in (("2314",), ("-z", "2314"), ("2311",))
        for case in [
            Case("no questions", "demo", ("",), "PSW=00020000 80000010\n", image=image),
            Case("good, outside and past", "demo", (ASKS,), DEMO, image=image),
        ]
    ),
    *(
        case
        for image in (("2314",), ("-z", "2314"))
        for case in [
            Case(
                "goes on", "demo around=1", ("chanv=10-19",), image=image,
                lines=f"{STOPS}\nPSW=00020000 80000500\n",
            ),
            Case(
                "goes on, refused", "demo around=1", (ASKS,), image=image,
                lines=f"{STOPS}, not started\n{REFUSED}",
            ),
            Case("masked", "demo masked=1", ("",), "PSW=00020000 800C0C0E\n", image=image),
        ]
    ),
    Case("a conflict", "two", (ASKS, ASKS), f"{YES_191}{OVER}, not started\n{REFUSED}"),
    Case("a conflict that starts", "two", ("chanv=10-19", ASKS), f"{YES_191}{OVER}\n{ENDED}"),
    Case("no conflict", "two apart=1", (ASKS, ASKS), YES_191 + YES_190 + ENDED),
    Case(
        "a disk that doesn't ask", "two apart=1", (ASKS, ""),
        f"HHCCV001I 0190: {BESIDE}\n{ENDED}",
    ),
    Case(
        "beside a no", "two apart=1", (ASKS, "chanv=5-6"),
        "HHCCV002W 0191: chanv no 000840 seek-outside, start 000840\n"
        f"HHCCV003I 0191:  000840 fresh 0700090040000006\nHHCCV001I 0190: {BESIDE}\n{ENDED}",
    ),
    Case(
        "a yes that is refused", "two apart=1", ("chanv=10-19 chanvrefuse=beside", ""),
        f"HHCCV008W 0190: {BESIDE}, not started\n{REFUSED}",
    ),
    Case(
        "a kept byte", "two apart=1 rounds=0 spoil=1 release=1", (ASKS, ASKS),
        YES_191 + "HHCCV009W 0191: chanv kept byte 000845 changed while in flight\n",
    ),
    Case(
        "a printer", "two apart=1 rounds=0 prints=1 release=1", (ASKS, ASKS),
        f"{YES_191}HHCCV008W 0191: chanv yes, but the unjudged program on 000E started "
        "meanwhile\n",
    ),
    Case(
        "detach in flight", "two apart=1 still=1", (ASKS, f"nosyncio {ASKS}"),
        f"{YES_191}{YES_190}{ENDED}HHCCV011E 0191: chanv has a program in flight from "
        f"before\n{IN_USE}"
        f"HHCCV012I 0191: judged in flight; {ONCE}",
        ("detach 191", "attach 191 2314 d1 chanv=10-19", "detach 190", "rmmod chanv.so",
         "chanv"),
    ),
    Case(
        "system reset in flight", "two apart=1 still=1", (ASKS, f"nosyncio {ASKS}"),
        f"{YES_191}{YES_190}{ENDED}HHCCV012I 0191: judged in flight; {ONCE}"
        f"HHCCV012I 0190: nothing in flight; {ONCE}HHCCV010W 0191: chanv judges no program beside "
        f"another on it, start 000840, not started\n{YES_190}{ENDED}",
        ("sysreset", "chanv", "restart", "pause 2"),
    ),
    Case(
        "Halt I/O in flight", "two apart=1 still=1 halts=1", (ASKS, f"nosyncio {ASKS}"),
        f"{YES_191}{YES_190}{ENDED}HHCCV012I 0191: judged in flight; {ONCE}"
        f"HHCCV012I 0190: nothing in flight; {ONCE}", ("chanv",),
    ),
    Case(
        "the end after a search", "two apart=1 rounds=0 release=1", (ASKS, ASKS),
        f"{YES_191}HHCCV012I 0191: nothing in flight; {ONCE}"
        f"HHCCV012I 0190: nothing in flight; {NOTHING}", ("chanv",),
    ),
    Case(
        "rmmod, detach and attach", "demo", (ASKS,),
        f"{DEMO}{IN_USE}HHCHD103I Module chanv.so unloaded\n{DEMO}",
        ("rmmod chanv.so", "detach 190", "rmmod chanv.so", "ldmod MODULE",
         f"attach 190 2314 d0 {ASKS}", "restart", "pause 3"),
    ),
    Case(
        "rmmod in flight", "two apart=1 rounds=0", (ASKS, ASKS), YES_191 + IN_USE,
        ("detach 190", "rmmod chanv.so"),
    ),
    Case(
        "devinit", "demo", (ASKS,),
        DEMO + "HHCCV002W 0190: chanv no 000800 seek-outside, start 000800, not started\n"
        "HHCCV003I 0190:  000800 fresh 0700090040000006\n"
        "HHCCV001I 0190: chanv yes, start 000840\n"
        "HHCCV002W 0190: chanv no 000880 seek-outside, start 000880, not started\n"
        "HHCCV003I 0190:  000880 fresh 0700090040000006\nPSW=00020000 80200020\n",
        (f"devinit 190 d0 {ASKS.replace('10-19', '20-29')}", "sysreset", "restart", "pause 3"),
    ),
    Case("a wrong statement", "demo", ("chanv=19-10",), "", ()),
    Case(
        "low storage", "demo low=1", (ASKS,),
        "HHCCV007W 0190: chanv keeps-stored-over 000180 by the machine, start 000180, "
        f"not started\n{REFUSED}",
    ),
    Case(
        "Read IPL", "demo", (ASKS,), f"{DEMO}HHCCV012I 0190: nothing in flight; "
        "3 starts, 3 questions, 2 noes, 2 refused, 0 beside unjudged, 0 changed\n"
        + "".join(DEMO.splitlines(True)[3:8]),
        ("ipl 190", "pause 1", "chanv"),
    ),
    # the sizes are those of what chanv_take_in asks for, and of a disk of the module
    Case(
        "no memory for an answer", "demo", (ASKS,), refused="4206000 4207000",
        lines="".join(
            f"HHCCV004E 0190: chanv has no answer, out-of-memory, start 0008{at}0, not started\n"
            for at in "048"
        ) + "PSW=00020000 80202020\n",
    ),
    Case(
        "no memory for a disk", "demo", (ASKS,), refused="140000 200000",
        lines="HHCCV011E 0190: chanv has no memory for this disk\n",
    ),
    Case(
        "a program that changes", "demo rounds=50 changing=1", ("chanv=10-19 chanvquiet",),
        ENDED + "HHCCV005I 0190: chanv: 50 starts, 50 questions, 0 noes\n", ("detach 190",),
    ),
    Case(
        "20,000 starts", "demo rounds=20000", ("chanv=10-19 chanvquiet",),
        ENDED + "HHCCV005I 0190: chanv: 20000 starts, 1 questions, 0 noes\n",
        ("pause 6", "detach 190"),
    ),
]

# What is left out of chanv.c, the text for it, the text instead, and the case that fails.
FORGETFUL = [
    ("the table", "flight.table[ask->row].program = *program;", ";", "a conflict"),
    ("the end", "    memset(program, 0, sizeof *program);\n", "", "the end after a search"),
    ("two at once", "ARCH_370 && ask->running == 0)", "ARCH_370)", "system reset in flight"),
    ("others", "(other = unjudged()) != NULL", "0", "a disk that doesn't ask"),
    ("a no", "ask->is_unjudged = 1;", ";", "beside a no"),
    ("Start I/O", "    begin_unjudged(dev);\n    pthread", "    ;\n    pthread", "a printer"),
    ("the kept bytes", "chanvask_has_changed(program,", "0 && chanvask_has_changed(program,",
     "a kept byte"),
    ("low storage", "flight.table[i].stores = ", "(void)", "low storage"),
    ("the refusal", "ask->refuse && !loads", "0", "good, outside and past"),
    ("the Read IPL", "look_at_processors() && start == 0", "look_at_processors() && 0", "Read IPL"),
    ("the hold", "disk->ask.running > 0 || disk->ask.dev->hnd == &disk->ours", "0",
     "rmmod, detach and attach"),
    ("the refused memory", "disk == NULL ||", "", "no memory for a disk"),
]


def make_module(library, source, to, folder):
    words = [f"LIBRARY={library}", f"INCLUDE={library}", f"SOURCE={source}", f"TO={to}"]
    return run("make", "-s", "-C", folder, "CFLAGS=-Werror", *words, "all", "programs")


def check_missing(checks, library, room, source):
    """What isn't there is named."""
    ran = make_module(room, source, room / "none", FOLDER)
    checks.expect_that("no library", "no libchanv.a; run make lib or" in ran.error, ran)
    ran = make_module(library, room, room / "none", FOLDER)
    checks.expect_that("no headers", "hercules/fetch.sh gets it" in ran.error, ran)


def assemble(program, room):
    """Makes the image of a program, as `two apart=1`."""
    name, *symbols = program.split()
    defined = [word for symbol in symbols for word in ("--defsym", symbol)]
    made, image = room / "it.o", room / "it.bin"
    for words in (
        [ASSEMBLER, "-m31", "-march=g5", *defined, "-o", made, FOLDER / f"{name}.s"],
        [LINKER, *"-m elf_s390 -Ttext 0 --oformat binary -o".split(), image, made],
    ):
        if run(*words).status != 0:
            raise OSError(f"{program} isn't assembled")


def play(module, case, room, preload, longer=1):
    """What Hercules logs of a case: the lines of the module, and the PSW of a disabled wait."""
    assemble(case.program, room)
    statements = ["ARCHMODE S/370", "MAINSIZE 4", "NUMCPU 1", "OSTAILOR QUIET", "DEVTMAX -1"]
    statements += ["CPUPRIO 0", "DEVPRIO 0", f"LDMOD {module}", "000E 1403 printed"]
    for number, words in enumerate(case.disks):
        run("dasdinit", *case.image[:-1], "-a", f"d{number}", case.image[-1], "DEMO", cwd=room)
        statements.append(f"019{number} {case.image[-1]} d{number} {words}")
    commands = ["loadcore it.bin 0", "restart", "pause 3", *case.commands, "pause 1", "quit"]
    (room / "it.cnf").write_text("\n".join(statements) + "\n")
    script = "\n".join(commands).replace("MODULE", str(module)) + "\n"
    script = re.sub(r"(?<=pause )\d+", lambda seconds: str(longer * int(seconds[0])), script)
    (room / "it.rc").write_text(script)
    known = {**os.environ, "HERCULES_RC": "it.rc"}
    if case.refused:
        least, most = case.refused.split()
        known |= {"LD_PRELOAD": str(preload), "REFUSED_FROM": least, "REFUSED_TO": most}
    words = ["timeout", "-s", "KILL", "90", "hercules", "-d", "-f", "it.cnf"]
    for _ in range(CRASHES if "detach 191" in case.commands else 1):
        ran = run(*words, cwd=room, env=known, timeout=MOST_SECONDS)
        if 0 <= ran.status < 128:
            break
    told = r"HHCCV(?:00[1-46-9]|01[0-2]).*|PSW=\S+ \S+|HHCHD(?:017E|103I).*"
    told += "|HHCCV005I.*" if "HHCCV005I" in case.lines else ""
    # a program that is still in flight ends now or later while Hercules shuts down
    lines = re.findall(told, ran.output.partition(SHUTDOWN)[0])
    return "".join(re.sub(r", \d+ ns$", "", line) + "\n" for line in lines)


def by_disk(lines):
    """The lines of each disk in their order: those of several disks come in any."""
    return "".join(sorted(lines.splitlines(True), key=lambda line: line.split()[1]))


def check_cases(checks, module, room, cases, must_fail=None):
    """Tries cases beside each other. If a module leaves something out, the case has to fail."""
    preload = room / "refuse_sizes.so"
    if not preload.exists():
        run("cc", "-shared", "-fPIC", "-O2", "-o", preload, HERE / "c/refuse_sizes.c", "-ldl")

    def played(case):
        for longer in (1, LONGER):
            with tempfile.TemporaryDirectory(dir=room) as folder:
                lines = play(module, case, Path(folder), preload, longer)
            if must_fail or by_disk(lines) == by_disk(case.lines):
                break
        return lines

    with concurrent.futures.ThreadPoolExecutor(4) as beside:
        for case, lines in zip(cases, beside.map(played, cases)):
            name = f"{case.name}, {' '.join(case.image)}"
            if must_fail:
                is_seen = by_disk(lines) != by_disk(case.lines)
                checks.expect_that(f"without {must_fail}: {name}", is_seen, lines)
            else:
                checks.expect(name, by_disk(case.lines), by_disk(lines))


def check_careless(checks, library, room, source):
    for name, old, new, case in FORGETFUL:
        folder = room / "careless" / re.sub(r"\W", "_", name)
        shutil.copytree(FOLDER, folder)
        text = text_of(folder / "chanv.c")
        checks.expect(f"chanv.c has {name}, once", 1, text.count(old))
        (folder / "chanv.c").write_text(text.replace(old, new))
        words = [f"LIBRARY={library}", f"INCLUDE={library}", f"SOURCE={source}", f"TO={folder}"]
        ran = run("make", "-s", "-C", folder, *words, "all")
        checks.expect(f"the module without {name} is built", 0, ran.status)
        [first, *_] = [it for it in CASES if it.name == case]
        check_cases(checks, folder / "chanv.so", room, [first], name)


def check_headers(checks, library, room, source):
    """A module with the headers of another Hercules isn't loaded."""
    other = room / "other"
    shutil.copytree(source, other, ignore=lambda folder, names: [
        name for name in names if not name.endswith(".h") and not Path(folder, name).is_dir()])
    text = text_of(source / "hstructs.h")
    checks.expect("hstructs.h has DEVBLK, once", 1, text.count("\nstruct DEVBLK {"))
    text = text.replace("\nstruct DEVBLK {", "\nstruct DEVBLK { int it;")
    (other / "hstructs.h").write_text(text)
    ran = make_module(library, other, other / "built", FOLDER)
    checks.expect("a module with other headers is built", 0, ran.status)
    (room / "other.cnf").write_text(f"ARCHMODE S/370\nLDMOD {other}/built/chanv.so\n")
    (room / "other.rc").write_text("pause 1\nquit\n")
    ran = run("timeout", "-s", "KILL", "90", "hercules", "-d", "-f", "other.cnf", cwd=room,
              env={**os.environ, "HERCULES_RC": "other.rc"}, timeout=MOST_SECONDS)
    is_refused = "HHCHD014E Dependency check failed for module chanv.so" in ran.output
    checks.expect_that("other headers", is_refused and "HHCCV" not in ran.output, ran.output[-600:])


def check_module(checks, library, room):
    missing = [name for name in ("hercules", "dasdinit", ASSEMBLER) if not shutil.which(name)]
    source = os.environ.get("HERCULES_SOURCE")
    if missing or not source:
        checks.skip("the module in Hercules", f"no {' or '.join(missing) or 'HERCULES_SOURCE'}")
        return
    source, to = Path(source).absolute(), room / "built"
    checks.expect("make hercules", 0, make_module(library, source, to, FOLDER).status)
    check_missing(checks, library, room, source)
    check_headers(checks, library, room, source)
    check_cases(checks, to / "chanv.so", room, CASES)
    check_careless(checks, library, room, source)


def check(checks, built):
    library = built.library()
    with tempfile.TemporaryDirectory() as room:
        check_header(checks, library, Path(room))
        check_demo(checks, Path(room))
        check_module(checks, library, Path(room))
