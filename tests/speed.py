"""No command is worse than linear, times a logarithm, in the size of its input.

Each command runs over each input of bench/worst.py, and over command lines that grow, at one size
and at four times that size: instructions grow by at most GROWTH, whatever they are. So an answer
that goes through all lent areas for each place, or looks at the rest of a line at each blank,
fails. DECISIONS names the exceptions. The sizes are small, because a comparison of each with each
shows at a thousand.

Three decks and an image of bench/ have more time than they take, but not for worse growth. Each is
as large as the limits admit in one respect: 65,536 places with a seek argument for every
second one, a half million areas in the worst order, and as many offences with the longest path. The
bounds are seconds of a processor, some ten times as many as one of 2020 needs. An algorithm that
compares each with each needs more than that. In the image, a million programs lead into one chain:
to judge them all takes half an hour, so after so many places `find` says that it doesn't.

A start with 4,096 rows in order, and one with 64 KiB of kept bytes, are bounded in instructions,
some three times as many as `chanv_check_start` takes: the product of the rows, and a comparison of
each byte alone, take more. A start beside a program with 65,536 rows of each kind that can't meet
takes at most 12 instructions for each row. So is a picture of 65,536 places, with some 100,000
arrows: a search from the first place on for each takes more. So is a verdict on 4,096 places whose
addresses are chosen to share lists: if the walk did not make more lists early, it would take three
quarters more instructions. So is a verdict on 65,410 places at 21,800 doublewords side by side: if
those of 512 bytes shared a list, it would take almost four times as many.

RATIOS holds what chanv takes of what bench/limit.c takes, a verifier by hand in C, over decks of
bench/ and in calls of the library, and CALLS holds the calls that it doesn't have. Both are the
figures of the proved program and a few percent more. ALLOCATIONS holds how often a call about a few
places asks for memory. limit.c gives the answers of chanv over decks of examples/, refused decks and
random jobs, so that it does the same work.

valgrind counts the instructions; without it this part is left out, by its name.
"""

import concurrent.futures
import functools
import heapq
import os
import random
import re
import shutil
import subprocess
import sys
import tempfile
from importlib import util
from pathlib import Path

from building import HERE, ROOT, compile_with, is_proved
from examples import FOLDERS, TEXTS, decks_of
from model import JOBS, SEED, deck_of, jobs_of
from refused_decks import refused
from running import run, text_of

# the deck, the command, the seconds, and the status
BOUNDS = [
    ("places-65536", "verify", 1.0, 0),
    ("areas-falling", "verify", 1.0, 0),
    ("offends-65536", "why", 2.0, 1),
]

# what c/many_rows.c asks about, and how many instructions the call may take
INSTRUCTIONS = [
    (("rows", "4096"), 8_000_000),
    (("bytes", "65536"), 100_000),
    (("beyond", "65536"), 12 * 2 * 65_536 + 20_000),
]

# the deck whose picture is drawn, and how many instructions that may take
PICTURE = "comb-65536", 2_000_000_000

# by what the walk multiplies a doubleword's number to pick a list; how many places there are whose
# addresses are chosen to share lists, and how many instructions the verdict on them may take
GOLDEN = 0x9E3779B1
SHARING = 4_096, 30_000_000
STORAGE_LIMIT = 16_777_216

# how many CCWs lie side by side, and how many instructions the verdict may take
SIDE_BY_SIDE = 21_800, 84_000_000

# the processor time after which the system ends a run, and the most for `find`
LAST_SECOND = 20

# what makes inputs that are hard on some command
WORST = ROOT / "bench/worst.py"

# by how much instructions may grow if an input grows by TIMES: for a thousand, 4.8 times the work
# of a sort
TIMES, GROWTH = 4, 5.0

# each command that reads decks, and each that reads images, where N bytes are eight for each of the
# input's size; an image's storage is as long as bench/worst.py may want
DECK_COMMANDS = [
    "verify",
    "list",
    "list --wide",
    "list --range 800-80F",
    "list --range 800+{N:X}",
    "why",
    "why --all",
    "why --of 800",
    "needs",
    "needs --deck",
    "graph",
]
IMAGE_COMMANDS = [
    "find --device 2314 --storage 80000",
    "deck --device 2314 --start 800 --extent 0-202 --storage 80000",
    "deck --device 2314 --start 800 --least --storage 80000",
]

# what may grow faster, by command and input, as docs/DECISIONS.md says
EXCEPTIONS = {("graph", "stores over all")}

# command lines: what comes first, what comes again and again, and how often; at last the status
WORDS = [
    ("deck --device 2314 --start 0 --extent 0-202 --storage 1000", "--fetch 900+10", 500, 0),
    ("deck --device 2314 --start 0 --storage 1000", "--extent 0-202", 500, 0),
    ("explain", "misaligned", 500, 0),
    ("explain", "sek", 500, 4),
    ("verify", "no-such-file", 200, 3),
]
# one word that grows: what comes before it, a part of it, how often, and the status
LONG_WORDS = [
    ("explain", "x", 2_000, 4),
    ("show", "0", 2_000, 4),
    ("show --name", "0 ", 2_000, 4),
    ("list", "--wide", 500, 4),
    ("", "find", 500, 4),
]

# the most times the instructions of bench/limit.c, and the most of calls that it doesn't have
RATIOS = {
    "verify places-65536": 3.60,
    "verify chain-65536": 3.66,
    "verify comb-65536": 4.34,
    "verify scattered-65536": 5.56,
    "verify areas-apart-65536": 2.83,
    "verify extents": 3.09,
    "verify full-storage": 3.56,
    "list places-65536": 2.94,
    "list chain-65536": 2.71,
    "list comb-65536": 3.70,
    "list scattered-65536": 4.14,
    "find in 16 MiB of zeros": 11.65,
    "find in 16 MiB of noise": 12.56,
    "chanv_verify, 1 place": 3.80,
    "chanv_verify, 8 places": 3.48,
    "chanv_verify, 64 places": 3.46,
}
CALLS = {
    "chanv_take_in, 1 place": 11_500,
    "chanv_take_in, 8 places": 29_200,
    "chanv_take_in, 64 places": 175_900,
    "chanv_check_start, 8 places": 122_500,
    "chanv_check_write, 8 places": 63_500,
}
# how often a call asks for memory, at most
ALLOCATIONS = {"chanv_verify, 1 place": 3, "chanv_verify, 8 places": 3}
# plain rustc's programs take up to so many times as much as the proved ones
BY_RUSTC = 1.2

# how many places `find` judges in an image, as docs/OUTPUT.md says
PLACES_JUDGED = 16_777_216


def of_bench(name):
    """A module of bench/; modules of the tests have the same names."""
    found = util.spec_from_file_location(f"bench_{name}", ROOT / f"bench/{name}.py")
    module = util.module_from_spec(found)
    found.loader.exec_module(module)
    return module


def decks_of_bench():
    """The decks of bench/decks.py, by name."""
    return of_bench("decks").DECKS


def timed(program, command, path, output=subprocess.DEVNULL):
    """The status, and the seconds of a processor."""
    words = ["bash", "-c", 'ulimit -t "$1"; shift; exec "$@"', "bash", str(LAST_SECOND)]
    with path.open("rb") as given:
        how = {"stdin": given, "stdout": output, "stderr": subprocess.DEVNULL}
        with subprocess.Popen([*words, program, *command.split()], **how) as child:
            _, status, used = os.wait4(child.pid, 0)
            child.returncode = os.waitstatus_to_exitcode(status)
    return child.returncode, used.ru_utime + used.ru_stime


def check_count(checks, name, most, *words, given=b"", only=()):
    """A run takes at most so many instructions, or only what a function takes of it."""
    how = ["--callgrind-out-file=/dev/null", *only]
    ran = run("valgrind", "--tool=callgrind", *how, *words, given=given)
    found = re.search(r"Collected : (\d+)", ran.error)
    count = int(found[1]) if found else 0
    checks.expect(name, 0, ran.status)
    checks.expect_that(f"{name}, at most {most} instructions", 0 < count <= most, count)


def sharing(count):
    """A deck of so many places, at the doublewords of least product, so that they share lists."""
    doublewords = range(256, STORAGE_LIMIT // 8 - 1)
    chosen = heapq.nsmallest(count // 2, doublewords, key=lambda at: at * GOLDEN % 2**32)
    random.Random(count).shuffle(chosen)
    return of_bench("decks").linked([8 * at for at in chosen])


def side_by_side(count):
    """A deck of a data chain of so many CCWs, which a read, a write and a search enter."""
    words = ["3100100040000005", "0800203000000000", "3100100040000005", "0800204000000000"]
    for code in ("06", "05", "31"):
        words += [f"{code}00100080000005", "0801000000000000"]
    lines = [f"put {0x2000 + 8 * at:06X} {word}\n" for at, word in enumerate(words)]
    for at in range(count):
        flags = "80" if at + 1 < count else "00"
        lines.append(f"put {0x10000 + 8 * at:06X} 00001000{flags}000001\n")
    head = "chanv deck 2\ndevice 2314\nmask C0\nstart 002000\nlimit 65536\nextent 000 202\n"
    lent = "fetch 001000 000005\nstore 001000 000005\nstorage 0100000\n"
    return f"{head}{lent}{''.join(lines)}end\n"


@functools.cache
def worst(*words):
    """What bench/worst.py writes."""
    return subprocess.run([sys.executable, WORST, *words], capture_output=True, check=True).stdout


def over_input(command, name, size):
    """The words and the input of a command over an input of bench/worst.py."""
    return command.format(N=8 * size).split(), worst(name, str(size))


def again_and_again(first, words, size):
    return [*first.split(), *words.split() * size], b""


def with_long_word(first, part, size):
    return [*first.split(), part * size], b""


def growths():
    """What is measured: its name, a size, what gives words and input for a size, and the statuses."""
    for line in worst().decode().splitlines():
        kind, name, size = line.split("\t")
        for command in DECK_COMMANDS if kind == "deck" else IMAGE_COMMANDS:
            if (command, name) not in EXCEPTIONS:
                given = functools.partial(over_input, command, name)
                yield f"{command} over {name}", int(size), given, {0, 1, 2}
    for how, rows in ((again_and_again, WORDS), (with_long_word, LONG_WORDS)):
        for first, part, size, status in rows:
            yield f"{first} {part} ..", size, functools.partial(how, first, part), {status}


def counted(program, words, given):
    """The status of a run, and how many instructions it takes."""
    ran = run("valgrind", "--tool=callgrind", "--callgrind-out-file=/dev/null", program, *words,
              given=given)
    found = re.search(r"Collected : (\d+)", ran.error)
    return ran.status, int(found[1]) if found else 0


def check_growth(checks, program):
    """Each command over each input that is hard on some command, and command lines that grow."""

    def measure(row):
        name, size, given_at, statuses = row
        return name, statuses, [counted(program, *given_at(at)) for at in (size, TIMES * size)]

    with concurrent.futures.ThreadPoolExecutor(2) as beside:
        for name, statuses, [(status, count), (again, more)] in beside.map(measure, growths()):
            checks.expect_that(f"{name}, the statuses", {status, again} <= statuses, (status, again))
            is_so = 0 < more <= GROWTH * count
            checks.expect_that(f"{name}, grows by at most {GROWTH}", is_so, f"{count}, then {more}")


def check_instructions(checks, built, decks, room):
    program = compile_with(built.library(), HERE / "c/many_rows.c", room / "many_rows")
    only = ["--toggle-collect=chanv_check_start"]
    for words, most in INSTRUCTIONS:
        check_count(checks, f"check_start, {' '.join(words)}", most, program, *words, only=only)
    name, most = PICTURE
    deck = "".join(decks[name]()).encode()
    check_count(checks, f"graph {name}", most, built.chanv(), "graph", given=deck)
    count, most = SHARING
    deck = "".join(sharing(count)).encode()
    check_count(checks, "verify, places that share lists", most, built.chanv(), "verify", given=deck)
    count, most = SIDE_BY_SIDE
    deck = side_by_side(count).encode()
    check_count(checks, "verify, places side by side", most, built.chanv(), "verify", given=deck)


def check_find(checks, program, room):
    """All programs of the image have a line, and those up to the last place that counts a verdict."""
    bench, image, lines = of_bench("find"), room / "image", room / "lines"
    image.write_bytes(bench.entries())
    with lines.open("wb") as output:
        status, seconds = timed(program, "find --device 2314", image, output)
    checks.expect("find, entries into one chain", 0, status)
    checks.expect_that(f"find, at most {LAST_SECOND} s", seconds <= LAST_SECOND, f"{seconds:.2f} s")
    starts = range(8 * bench.CHAIN, bench.SIZE, 16)
    # two CCWs, and the chain
    judged = -(-PLACES_JUDGED // (2 + bench.CHAIN))
    verdict = f"yes {2 + bench.CHAIN} CCWs: {', '.join(['no-operation'] * 4)}"
    said = [verdict if at < judged else "not judged" for at in range(len(starts))]
    wanted = [f"{start:06X} {line}" for start, line in zip(starts, said, strict=True)]
    checks.expect_that("find, each line", wanted == text_of(lines).splitlines(), len(wanted))


def check_limit(checks, program, limit, room):
    """limit.c gives the answers of chanv; why a deck is refused, chanv alone says."""
    decks = [deck for folder in (*FOLDERS, TEXTS) for deck in decks_of(folder)]
    texts = [text for text, *_ in refused()]
    for job in jobs_of(random.Random(SEED), JOBS):
        texts.append("".join(f"{line}\n" for line in deck_of(job)).encode())
    for number, text in enumerate(texts):
        decks.append(room / f"{number}.deck")
        decks[-1].write_bytes(text)
    for command in ("verify", "list"):
        both = (run(it, command, *decks)._replace(error="") for it in (program, limit))
        checks.expect(f"limit.c, {command} over {len(decks)} decks", *both)


def allocations(call):
    """How often one call more asks for memory."""

    def counted(times):
        ran = subprocess.run(["valgrind", *call, str(times)], stderr=subprocess.PIPE, check=True)
        return int(re.search(rb"total heap usage: ([\d,]+)", ran.stderr)[1].replace(b",", b""))

    return counted(2) - counted(1)


def check_ratios(checks, built, room):
    bench, program, library = of_bench("ratios"), built.chanv(), built.library()
    check_limit(checks, program, bench.compiled_limit(room), room)
    more = [1 if is_proved(it) else BY_RUSTC for it in (program, library)]
    limits = {**RATIOS, **CALLS}

    def measure(asked):
        return asked, bench.are_right(asked), bench.instructions(asked)

    with concurrent.futures.ThreadPoolExecutor(2) as beside:
        measured = [*beside.map(measure, bench.all_asked(program, library, room))]
    for asked, is_right, (count, *of_limit) in measured:
        checks.expect_that(f"{asked.name}, the answers", is_right, "other answers")
        most = more[asked.is_call] * limits.pop(asked.name, 0)
        seen = count / of_limit[0] if of_limit else count
        kind = "times the instructions of limit.c" if of_limit else "instructions"
        checks.expect_that(f"{asked.name}, at most {most:g} {kind}", 0 < seen <= most, f"{seen:g}")
        if asked.name in ALLOCATIONS:
            seen, most = allocations(asked.chanv), ALLOCATIONS[asked.name]
            checks.expect_that(f"{asked.name}, at most {most} allocations", 0 < seen <= most, seen)
    checks.expect("limits of what isn't measured", [], [*limits])


def check(checks, built):
    program, decks = built.chanv(), decks_of_bench()
    has_valgrind = shutil.which("valgrind") is not None
    if has_valgrind:
        check_growth(checks, program)
    else:
        checks.skip("instructions", "no valgrind")
    with tempfile.TemporaryDirectory() as room:
        if has_valgrind:
            check_instructions(checks, built, decks, Path(room))
            check_ratios(checks, built, Path(room))
        check_find(checks, program, Path(room))
    with tempfile.TemporaryDirectory() as room:
        for name, command, most, wanted in BOUNDS:
            deck = Path(room) / f"{name}.deck"
            deck.write_text("".join(decks[name]()))
            status, seconds = timed(program, command, deck)
            checks.expect(f"{command} {name}", wanted, status)
            is_so = seconds <= most
            checks.expect_that(f"{command} {name}, at most {most} s", is_so, f"{seconds:.2f} s")
