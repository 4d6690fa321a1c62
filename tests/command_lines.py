"""Command lines over each kind of input, with their streams open, full and closed.

Each row of rows/command_lines.txt, and each command over each input, runs with each of STREAMS and
with 40 KiB of stack. Two rules say what comes of a full or closed stream: a failed write to
standard output ends the run with status 3, and what standard error can't take is left out. Then
come odd names of files, and `show` over random CCWs: `show --name` accepts what `show` prints of
any CCW, but neither a wrong group or name nor wrong flags.
"""

import os
import re
import shlex
import sys
import tempfile
from functools import partial
from itertools import product
from pathlib import Path
from random import Random

from answers import DECKS, REFUSED, answer, answers, helps, is_told, make_inputs, of_image
from answers import texts_of_help, whole
from building import HERE, must_succeed, version
from rows import Row, bytes_of, check_rows, sections_of, usage_fault, words_of
from running import Ran
from words import meanings

sys.path.insert(0, str(HERE / "model"))

from channel import ccw_at  # noqa: E402
from judging import FRESH, Place  # noqa: E402
from writing import name_of  # noqa: E402

SEED, SHOWN_CCWS, LONG, MANY = 69, 60, 60_000, 2_000
COMMANDS = ["verify", "list", "list --wide", "why", "why --all", "graph", "needs", "needs --deck"]
ACTIONS = ("verify", "why", "list", "needs", "graph")
PAIRED = ["yes", "no", "damaged", "empty", "many", "folder", "nowhere", "-"]
IMAGES = ["core", "empty", "long", "folder", "nowhere", "closed"]
OF_IMAGE = ["find", "deck --start 800 --extent 10-19 --fetch 900+10 --store 900+10"]
USUAL_DEVICE = Ran(0, "", "note: no --device, so 2314\n")
YES, NO = "yes: yes\n", "changes: no 000810 changes-ccw\n"
CANNOT_OPEN = "chanv: {}: cannot open{}\n"
NOT_CCW = re.compile("chanv: not a CCW\n(.+\n)*")


def unwritten(parts):
    """The first part that has an output ends the run."""
    for at, part in enumerate(parts):
        if part.output:
            return Ran(3, "", "".join(it.error for it in parts[:at]) + "chanv: write failed\n")
    return whole(parts)


# what turns the streams, what then comes of all parts, and whether standard error takes it
STREAMS = [
    ('exec "$@" {}', whole, True),
    ('exec "$@" {} > /dev/full', unwritten, True),
    ('exec "$@" {} >&-', unwritten, True),
    ('exec "$@" {} 2> /dev/full', whole, False),
    ('exec "$@" {} 2>&-', whole, False),
    ('exec "$@" {} >&- 2>&-', unwritten, False),
    ('ulimit -s 40 && exec "$@" {}', whole, True),
]


def rows_of_words():
    """The rows that need no standard input."""
    sections = sections_of("command_lines.txt")
    for words, *texts in sections["status 0"]:
        yield Row(words_of(words), Ran(0, *(f"{text}\n" if text else "" for text in texts)))
    for words, said in sections["status 4"]:
        yield Row(words_of(words), Ran(4, "", "chanv: " + said.replace("\\n", "\n") + "\n"))
    for words in ("--version", "-V", "--version --fast"):
        yield Row(words.split(), Ran(0, f"chanv {version()}\n"))
    yield Row(["explain", "changes-ccw"], Ran(0, meanings()["changes-ccw"]))
    yield from (Row(words, Ran(0, text)) for words, text in helps())
    for words, fault in sections["fault"]:
        yield Row(words_of(words), usage_fault(fault.replace("\\n", "\n")))
    texts = texts_of_help()
    for words, fault in sections["fault with usage"]:
        command = words.removeprefix("help ").split()[0]
        usage = texts.get(f"help {command}", texts["--help"])
        usage = re.search(r"(?s)Usage: (.*?)\n\n", usage)[1]
        yield Row(words_of(words), usage_fault(fault.replace("\\n", "\n"), usage))


def over_each(words, inputs, part_of, *before):
    """Over standard input, without a name and by its name, and over the file itself."""
    for name in inputs:
        if name != "nowhere":
            yield words, name, [*before, part_of(name)]
            yield [*words, "-"], name, [*before, part_of(name)]
        if name != "closed":
            yield [*words, name], "closed", [*before, part_of(name, name)]


def runs():
    """The words, what standard input is, and what comes of each part."""
    for given, words, *command in sections_of("command_lines.txt")["asked"]:
        action, *names = command or shlex.split(words)
        names = shlex.split(names[0]) if command else names
        yield words_of(words), given, answers(action, names, given)
    for row, given in product(rows_of_words(), ("yes", "closed")):
        yield row.words, given, [row.expected]
    for name in [*DECKS, *REFUSED]:
        yield from [([], name, [answer("verify", name)])] if name != "nowhere" else []
    for action in COMMANDS:
        names = [name for name in DECKS if is_told(action, DECKS[name])]
        yield from over_each(action.split(), [*names, *REFUSED], partial(answer, action))
    for action, pair in product(ACTIONS, product(PAIRED, PAIRED)):
        yield [action, *pair], "closed", answers(action, pair, "closed")
    # the deck `no` offends at 000808 alone, and `changes` at 000810
    no, absent = answer("why", "no"), "note: no offence at 000810\n"
    yield from over_each(["why", "--of", "808"], ["no", *REFUSED], partial(answer, "why"))
    yield ["why", "--of", "810"], "no", [no._replace(error=f"{absent}{no.error}")]
    yield ["why", "--of", "810"], "yes", [Ran(0, "yes\n", absent)]
    offence = answer("why", "changes", "changes", is_among=True)
    of_two = [offence, Ran(0, YES, f"yes: {absent}")]
    yield ["why", "--of", "810", "changes", "yes"], "closed", of_two
    for pair in product(("core", "empty", "nowhere"), repeat=2):
        yield ["find", "--device", "2314", *pair], "closed", [*map(found_in, pair)]
    for words in OF_IMAGE:
        action, *options = words.split()
        part_of = partial(of_image, action)
        yield from over_each([action, "--device", "2314", *options], IMAGES, part_of)
        yield from over_each([action, *options], IMAGES, part_of, USUAL_DEVICE)


def found_in(name):
    """What `find` says of one of several images: its name comes over its lines."""
    part = of_image("find", name, name)
    return part if part.status else part._replace(output=f"{name}:\n{part.output}")


def rows_of_streams():
    for words, given, parts in runs():
        is_long = "long" in (given, *words)
        given = "<&-" if given == "closed" else f"< {shlex.quote(given)}"
        for script, ended, is_heard in STREAMS[:1] if is_long else STREAMS:
            expected = ended(parts) if is_heard else ended(parts)._replace(error="")
            yield Row(words, expected, script=script.format(given))


def rows_of_names(folder):
    """Each hostile name is that of no file, then of a damaged deck, and then of a deck. A name that
    isn't UTF-8 can't be opened. Many files take as few descriptors as one."""
    for [shown] in sections_of("command_lines.txt")["hostile names"]:
        name, is_text = bytes_of(shown), "\\xFF" not in shown
        missing = Ran(3, "", CANNOT_OPEN.format(shown, ": no such file" if is_text else ""))
        yield Row(["verify", name, "yes"], whole([missing, Ran(0, YES)]))
        yield Row(["deck", "--device", "2314", "--start", "800", "--least", name], missing)
        file = Path(os.fsdecode(os.fsencode(folder) + b"/" + name))
        for deck in ("damaged", "changes"):
            file.write_bytes((folder / deck).read_bytes())
            there = answer("verify", deck, shown) if is_text else missing
            yield Row(["verify", name], there, about=deck)
        if not is_text:
            parts = [Ran(1, NO), missing, Ran(0, YES)]
            yield Row(["verify", "changes", name, "yes"], whole(parts))
        file.unlink()
    long = ["\\x5C" * LONG, "\\xFF" * LONG]
    errors = "".join(CANNOT_OPEN.format(name, "") for name in long)
    yield Row(["verify", *map(bytes_of, long)], Ran(3, "", errors))
    yield Row(["verify", *["yes"] * MANY], Ran(0, YES * MANY), script='ulimit -n 8 && exec "$@"')


def rows_of_shown(random):
    """The rows for a random CCW."""
    word = random.randbytes(8)
    ccw, digits = ccw_at(word, 0), word.hex().upper()
    name = name_of(Place(0, FRESH, True), ccw)
    yield Row(["show", digits], Ran(0, f"{ccw.text()}\n"))
    for it in (digits, ccw.text(), f"{ccw.text()} {name}"):
        yield Row(["show", "--name", it], Ran(0, f"{ccw.text()} {name}\n"))
    *front, flags, spare, count, group = ccw.text().split(" ")
    at = random.randrange(5)
    other = "X" if flags[at] == "-" else "DCLSP"[at - 1]
    wrong_flags = f"{flags[:at]}{other}{flags[at + 1 :]}"
    for words in [
        [*front, flags, spare, count, "write" if group == "read" else "read"],
        [*front, flags, spare, count, group, "seek" if name == "erase" else "erase"],
        [*front, flags, spare, count, name],
        [*front, flags, spare, count, group, name, name],
        [*front, wrong_flags, spare, count, group],
        [*front, f"{flags[:5]}8", spare, count, group],
    ]:
        yield Row(["show", "--name", " ".join(words)], Ran(4, "", NOT_CCW))


def check(checks, built):
    program, random = built.chanv(), Random(SEED)
    with tempfile.TemporaryDirectory() as room:
        folder = Path(room)
        make_inputs(folder)
        check_rows(checks, program, rows_of_streams(), cwd=folder)
        check_rows(checks, program, rows_of_names(folder), cwd=folder)
        # the superuser may read any file, so another user tries, who may not reach the checkout
        (folder / "secret").touch(mode=0)
        folder.chmod(0o755)
        user = {"user": 65534} if os.geteuid() == 0 else {}
        must_succeed("cp", program, folder / "copied")
        refused = Ran(3, "", CANNOT_OPEN.format("secret", ": permission denied"))
        commands = (["verify"], ["graph"], ["find", "--device", "2314"])
        rows = [Row([*words, "secret"], refused) for words in commands]
        check_rows(checks, folder / "copied", rows, cwd=folder, **user)
    for _ in range(SHOWN_CCWS):
        check_rows(checks, program, rows_of_shown(random))
