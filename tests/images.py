"""Decks made of images of storage, how options may be spelled, and what is refused.

Each example deck is taken apart, into the image of its storage and the options of its job; the deck
that `chanv deck` makes of them has to be the same text. So has the deck that is made of the image
from its first byte on that isn't zero. The other rows are those of rows/images.txt, and odd images.
"""

import re
import tempfile
from pathlib import Path

from building import short
from cures import said_openly
from examples import EXAMPLES, FOLDERS, SEARCH_LOOP, TEXTS, decks_of, taken_apart
from model import limit_line
from needs import CURE, least_lines
from rows import Row, check_rows, sections_of, usage_fault
from running import Ran, text_of

LOOP = text_of(SEARCH_LOOP)
LOOP_STORAGE = taken_apart(LOOP)[1]
# the search loop's job as options, and another
JOB = "--start 800 --extent 10-19 --fetch 900+10 --store a00+100".split()
SMALL_JOB = "--start 8 --extent 0-9".split()
# an image whose program changes an argument of its own
CORE, CORE_DECK = EXAMPLES / "core.bin", text_of(EXAMPLES / "changes-argument.deck")
TOO_LONG, TOO_LONG_SAID = bytes(0x1000001), Ran(2, "", "chanv: image too long\n")
USUAL_DEVICE = "note: no --device, so 2314\n"
HEAD = "chanv deck 1\ndevice 2314\nmask 00\nstart {}\nextent {}\n"
OUTSIDE = "note: {} lies outside the image, so it is zero here\n"
HELP = r"(?:help: .*\n)+"
EMPTY = "note: the image is empty\n"
IS_DECK = "note: this is a deck; chanv verify judges it\n"
PAST = "chanv: image past storage\n"


def image_of(column):
    """The bytes of an image in a row."""
    parts = (part.partition("*") for part in column.removeprefix("-").split(" "))
    return b"".join(bytes.fromhex(digits) * int(times or 1) for digits, _, times in parts)


def lines_of(column):
    return column.replace("; ", "\n") + "\n"


def only_note(note, word, behind=""):
    """The pattern of a text in which no line has a word, but for this note, if there is one, before
    what matches the last pattern."""
    return re.compile(rf"(?:(?!.*{re.escape(word)}).*\n)*{re.escape(note)}{behind}")


def deck(words, expected, given=b"", about=""):
    """A row for `deck`: a note names the usual device if right words don't name one, and another
    an empty image."""
    if not given and expected.status == 0 and "chanv deck 1\n" in str(expected.output):
        is_read = any(Path(word).is_file() for word in words)
        expected = expected._replace(error=("" if is_read else EMPTY) + expected.error)
    is_usual = not any(str(word).startswith("--device") for word in words)
    if is_usual and isinstance(expected.error, str) and not expected.error.startswith("error: "):
        expected = expected._replace(error=USUAL_DEVICE + expected.error)
    return Row(["deck", *words], expected, given, about=about)


def rows_of_examples():
    for path in [path for folder in (*FOLDERS, TEXTS) for path in decks_of(folder)]:
        text = text_of(path)
        words, storage = taken_apart(text)
        yield deck(words, Ran(0, text), storage, short(path))
        image = storage.lstrip(b"\0")
        if image:
            words += ["--at", f"{len(storage) - len(image):x}"]
            yield deck(words, Ran(0, text), image, f"{short(path)} from its first byte on")


def rows_of_file():
    sections = sections_of("images.txt")
    forms = dict(sections["forms"])
    for option, text, *why in sections["values"]:
        name, value = option.split(" ")
        why = why[0] if why else forms[value]
        fault = usage_fault(f"invalid value '{text}' for '{option}': {why}")
        yield deck([*SMALL_JOB, name, text], fault)
    for word, area in sections["areas"]:
        lines = f"fetch {area}\nstore {area}\nstorage 0000000\nend\n"
        expected = Ran(0, f"{HEAD.format('000008', '000 009')}{lines}")
        yield deck([*SMALL_JOB, "--fetch", word, "--store", word], expected)
    front = HEAD.format("000800", "010 019") + "fetch 000900 000010\nstore 000A00 000100\n"
    for at, image, lines in sections["placed"]:
        expected = Ran(0, f"{front}{lines_of(lines)}end\n")
        expected = TOO_LONG_SAID if lines == "too long" else expected
        yield deck([*JOB, "--at", at], expected, image_of(image))
    for words, image, lines in sections["whole decks"]:
        yield deck(words.split(), Ran(0, lines_of(lines)), image_of(image))
    for [words] in sections["search loop"]:
        yield deck(words.split(), Ran(0, LOOP), LOOP_STORAGE)
    for name, words, image, size, outside, why in sections["no job"]:
        notes = "" if size == "-" else CURE.format(size)
        notes += "" if outside == "-" else OUTSIDE.format(outside)
        help_line = f"help: chanv explain {why.partition(';')[0].split()[2]}\n"
        expected = Ran(1, "", f"chanv: no job will do: {lines_of(why)}{notes}{help_line}")
        yield deck(["--least", *words.split()], expected, image_of(image), name)
    for name, words, image, *note in sections["starts"]:
        error = only_note("".join(f"{line}\n" for line in note), " --start ", HELP)
        yield deck(["--least", *words.split()], Ran(1, "", error), image_of(image), name)


def rows_of_images():
    """Images that are a part of storage, too long or decks, and the least job and the open job."""
    yield deck(JOB, Ran(0, LOOP), LOOP_STORAGE[:-7], "an odd end")
    yield deck([*JOB, "--at", "7FD"], Ran(0, LOOP), LOOP_STORAGE[0x7FD:0xFFB])
    yield deck(SMALL_JOB, TOO_LONG_SAID, TOO_LONG, "a byte too much")
    yield deck([*SMALL_JOB, "--at", "FFFFFF"], TOO_LONG_SAID, b"a\0")
    endless = deck(["--device=2314", *JOB], TOO_LONG_SAID)
    yield endless._replace(script="yes '' | \"$@\"")
    # a deck that is taken as an image is named as one, whatever comes of it
    made = re.compile("chanv deck 1\n(.+\n)+end\n")
    for word, status in [("--extent=0-9", 0), ("--open", 0), ("--least", 1)]:
        words, output = ["--device=2314", "--start=800", "--raw", word], "" if status else made
        noted, unnoted = (only_note(note, IS_DECK[:-1]) for note in (IS_DECK, ""))
        yield deck([*words, SEARCH_LOOP], Ran(status, output, noted))
        yield deck(words, Ran(status, output, unnoted), b"chanv  deck 1\n")
    least, why = ["--start", "800", "--least"], text_of(EXAMPLES / "changes-argument.why")
    said = f"chanv: too many places\n{limit_line(2)}\n"
    yield deck([*least, "--limit", "2"], Ran(2, "", said), LOOP_STORAGE)
    for words in (least, JOB):
        yield deck([*words, "none"], Ran(3, "", "chanv: none: cannot open: no such file\n"))
    yield deck([*JOB, EXAMPLES], Ran(3, "", f"chanv: {EXAMPLES}: read failed: it is a folder\n"))
    with tempfile.NamedTemporaryFile() as file:
        too_long = Ran(2, "", f"chanv: {file.name}: image too long\n")
        for image, expected in [(LOOP_STORAGE, Ran(0, LOOP)), (TOO_LONG, too_long)]:
            Path(file.name).write_bytes(image)
            yield deck([*JOB, file.name], expected)
    openly = said_openly(CORE_DECK)
    yield deck([*least, CORE], Ran(1, "", f"chanv: {CORE}: no job will do: {why}{openly}"))
    size = int(re.search("storage (.*)", CORE_DECK)[1], 16)
    lent = f"fetch 000000 {size:06X}\nstore 000000 {size:06X}\nstorage"
    granted = f"mask C0\nstart 000800\nextent 000 202\n{lent}"
    text = re.sub("(?s)mask .*storage", granted, CORE_DECK)
    # no job will do, but the open job draws the program
    yield deck(["--start", "800", "--open", CORE], Ran(0, text))
    yield Row([], Ran(1, why.splitlines(True)[0]), text.encode())


def rows_of_storage():
    """Storage of the size that is asked for is zero behind the image."""
    words, storage = taken_apart(LOOP)
    first = len(storage) - len(storage.lstrip(b"\0"))
    image, at = storage.strip(b"\0"), ["--at", f"{first:X}"]
    taken = (first + len(image) + 7) // 8 * 8
    for size in (taken, taken + 8, 0x1000, 0xFFFFF8, 0x1000000):
        text = re.sub("storage .*", f"storage {size:07X}", LOOP)
        yield deck([*words, *at, "--storage", f"{size:x}"], Ran(0, text), image)
    needed = text_of(SEARCH_LOOP.with_suffix(".needs")).splitlines()
    text = "".join(f"{line}\n" for line in least_lines(LOOP, needed))
    expected = Ran(0, text.replace("storage 0001000", "storage 0002000"))
    yield deck(["--start", "800", "--least", *at, "--storage=2000"], expected, image)
    past = [("0", "10", bytes(17), "10"), ("5", "8", bytes(4), "3"), ("8", "8", bytes(1), "0")]
    for at, size, given, room in [*past, ("0", "1000000", TOO_LONG, "1000000")]:
        place, begins = ["--at", at, "--storage", size], f"note: the image begins at 00000{at}"
        note = f"{begins} and has more than {room} bytes, but storage has {size:0>7}\n"
        yield deck([*SMALL_JOB, *place], Ran(4, "", f"{PAST}{note}"), given)
        yield Row(["find", "--device=2314", *place], Ran(4, "", f"{PAST}{note}"), given)
    note = "note: the image begins at 000009, past storage of 0000008 bytes\n"
    yield deck([*SMALL_JOB, "--at=9", "--storage=8"], Ran(4, "", f"{PAST}{note}"))


def check(checks, built):
    for rows in (rows_of_examples, rows_of_file, rows_of_images, rows_of_storage):
        check_rows(checks, built.chanv(), rows())
