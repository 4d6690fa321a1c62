"""`chanv find` and `chanv deck` say where an image seems to begin, and what other file it is.

    tests/run beginnings

A search loop is a search under chain command and, eight bytes on, a transfer. It fits if the image
begins at the transfer's target less the search's offset, which is below 0 if so many bytes come
before the one at address 0. A loop doesn't count for another address than --at if its transfer leads
to a CCW without a fault under --at. Standard error has a note exactly if one address besides --at
fits at least two loops, and none more, or one loop alone where none fits --at and it leads to zeros
or out of the image; or, if no two loops agree, if two agree once the bytes of each word of four are
swapped. The loops are read anew here, over the bytes: of an image cut at twenty places, of noise, of
loops that agree on a wrong address, of ties, and of images with no loop. Over each cut
image the address that the note names then brings the programs of the whole image, and no note; so
does the command that it names over an image with bytes before its own. Decks that are made of an
image get the same note. Last come files of other forms.
"""

import gzip
import re
import sys
from random import Random

from building import HERE
from examples import SEARCH_LOOP, taken_apart
from find import FITTING, LARGEST
from running import run, text_of

sys.path.insert(0, str(HERE / "model"))

from channel import CHAIN_COMMAND, CHAIN_DATA, COMMANDS, LOW_BITS, Ccw  # noqa: E402

SEED, IMAGES = 71, 300
DEVICE = ["--device", "2314"]


def ccw_of(word):
    return Ccw(word[0], int.from_bytes(word[1:4]), word[4], word[5], int.from_bytes(word[6:8]))


def word_of(code, address, flags, count):
    return bytes([code, *address.to_bytes(3, "big"), flags, 0, *count.to_bytes(2, "big")])


def is_search(ccw):
    """Whether a search loop may begin with a CCW."""
    command = COMMANDS.get(ccw.code)
    is_chained = ccw.flags & (CHAIN_DATA | CHAIN_COMMAND | LOW_BITS) == CHAIN_COMMAND
    return command is not None and command.kind == "search" and is_chained and ccw.count > 0


SWAPPED = (
    "note: {} search loops fit if the bytes of each word of four are swapped: dump with "
    "--endian=big\n"
)


def loops_of(image, size):
    """For each search loop the address at which an image of this size then begins, where it leads,
    and its offset."""
    for at in range(len(image) - 15):
        transfer = ccw_of(image[at + 8 : at + 16])
        if is_search(ccw_of(image[at : at + 8])) and transfer.is_transfer():
            begins = transfer.address - at
            if transfer.address % 8 == 0 and begins + size <= LARGEST:
                yield begins, transfer.address, at


def beginnings(image):
    for begins, target, _ in loops_of(image, len(image)):
        yield begins, target


def leads_to_ccw(image, offset):
    if not 0 <= offset <= len(image) - 8:
        return False
    ccw = ccw_of(image[offset : offset + 8])
    return ccw.code in COMMANDS and not ccw.flags & LOW_BITS and ccw.count > 0


def swapped_votes(image):
    """How many loops agree in the image with each word turned round, at words alone."""
    words = [image[at : at + 4] for at in range(0, len(image) - 3, 4)]
    swapped = b"".join(word[::-1] for word in words)
    # a transfer of sixteen bytes may not go past the image
    votes = [begins for begins, target, at in loops_of(swapped, len(image)) if at % 4 == 0]
    return max(map(votes.count, votes), default=0)


def note_of(image, at=0):
    loops = [
        (begins, target)
        for begins, target in beginnings(image)
        if begins == at or not leads_to_ccw(image, target - at)
    ]
    votes = [begins for begins, _ in loops]
    counts = {begins: votes.count(begins) for begins in votes}
    here = counts.pop(at, 0)
    most = max(counts.values(), default=0)
    if max(here, most) < 2 and (swapped := swapped_votes(image)) > 1:
        return SWAPPED.format(swapped)
    likely = [begins for begins, count in counts.items() if count == most]
    if not likely or len(likely) > 1 == most or most <= min(here, 1):
        return ""
    likely.sort()
    target = dict(loops)[likely[0]] - at
    if most == 1 and target >= 0 and any(word := image[target : target + 8]) and len(word) == 8:
        return ""
    are_others = here > 1 or most <= here
    return f"note: {most}{' other' * are_others} {fitting(most, likely[0], are_others)}\n"


def fitting(count, begins, are_others=False):
    fit = "search loop fits if" if count == 1 else "search loops fit if"
    if begins < 0:
        drop = f"drop the bytes before it, by tail -c +{1 - begins}"
        return f"{fit} byte {-begins:06X} of the image is at 000000: {drop}"
    verb = "judge their part by" if are_others else "try" if count == 1 else "say"
    return f"{fit} the image begins at {begins:06X}: {verb} --at {begins:X}"


def program_at(address, seek_to):
    """A seek, a search loop and a read, whose arguments follow the four CCWs."""
    argument, search = address + 0x20, address + 8
    words = [
        word_of(0x07, argument, CHAIN_COMMAND, 6),
        word_of(0x31, argument + 2, CHAIN_COMMAND, 5),
        word_of(0x08, search, 0, 0),
        word_of(0x06, address + 0x40, 0x20, 0x10),
    ]
    seek = bytes([0, 0, 0, seek_to, 0, 3, 1, 0])
    return b"".join(words) + seek


BEGINS, SIZE, APART = 0x2000, 0x600, 0x80
PROGRAMS = [BEGINS + APART * number for number in range(1, 9)]


def core():
    """Storage from 002000 on, with eight programs in zeros."""
    image = bytearray(SIZE)
    for number, address in enumerate(PROGRAMS):
        program = program_at(address, number)
        image[address - BEGINS : address - BEGINS + len(program)] = program
    return bytes(image)


def loop_at(offset, begins, code=0x31):
    """A search loop for an offset of an image that begins there."""
    at = begins + offset
    return word_of(code, at, CHAIN_COMMAND, 5) + word_of(0x08, at, 0, 0)


def image_of_preamble(size, loops):
    """An image of zeros but for loops, given by offset and the address that each fits."""
    image = bytearray(size)
    for offset, begins in loops:
        image[offset : offset + 16] = loop_at(offset, begins)
    return bytes(image)


ODD = 0x1235
# two searches that hand on to the next search, 24 bytes on, and a third that does to a read
LEADS_ON = bytes(0x800) + bytes.fromhex(
    "3100090040000005 0800081800000000 06000A0020000050"
    "3100090840000005 0800083000000000 06000A0020000050 06000A0020000050"
)
FIRST_REGION = [(0, 0), (16, 0), (32, 0)]
# images by name, with what --at is, and the address that the note names
CASES = [
    ("two loops", image_of_preamble(0x100, [(0, 0x2000), (0x40, 0x2000)]), 0, 0x2000),
    ("one loop", image_of_preamble(0x100, [(0, 0x2000)]), 0, 0x2000),
    ("one loop that leads to bytes", image_of_preamble(0x100, [(0, 0x20), (40, 0)]), 0, None),
    ("one loop that leads to its search", image_of_preamble(0x100, [(16, -16)]), 0, -16),
    ("one loop at --at", image_of_preamble(0x100, [(0, 0x2000)]), 0x2000, None),
    ("one loop beside one at --at", image_of_preamble(0x100, [(0, 0), (16, 0x2000)]), 0, None),
    ("two loops that don't agree", image_of_preamble(0x100, [(0, 8), (16, 0x2000)]), 0, None),
    ("no loop", bytes(0x100), 0, None),
    ("two loops at odd places", image_of_preamble(0x100, [(3, ODD), (0x43, ODD)]), 0, ODD),
    ("a tie", image_of_preamble(0x100, [(0, 0x800), (16, 0x900), (32, 0x800), (48, 0x900)]), 0, 0x800),
    ("as many as --at", image_of_preamble(0x100, [(0, 0), (16, 0), (32, 0x800), (48, 0x800)]), 0, 0x800),
    ("one more than --at", image_of_preamble(0x100, [(0, 0x800), (16, 0x800), (32, 0)]), 0, 0x800),
    (
        "a wrong majority",
        image_of_preamble(0x100, [(0, 0x2000), (16, 0x2000), (32, 0x3000), (48, 0x3000), (64, 0x3000)]),
        0x2000,
        0x3000,
    ),
    ("the majority at --at", image_of_preamble(0x100, [(0, 0x2000), (16, 0x2000)]), 0x2000, None),
    ("a second region", image_of_preamble(0x100, [*FIRST_REGION, (64, 0x800), (80, 0x800)]), 0, 0x800),
    ("two loops of further regions", image_of_preamble(0x100, [*FIRST_REGION, (64, 8), (80, 16)]), 0, None),
    ("loops that lead to searches", LEADS_ON, 0, None),
    ("before storage", image_of_preamble(0x100, [(0x40, -8), (0x60, -8)]), 0, -8),
    ("one loop before storage", image_of_preamble(0x100, [(0x40, -8)]), 0, -8),
    ("past the largest storage", image_of_preamble(0x100, [(0, 0xFFFF08), (16, 0xFFFF08)]), 0, None),
    ("up to its end", image_of_preamble(0x100, [(0, 0xFFFF00), (16, 0xFFFF00)]), 0, 0xFFFF00),
]
# changes of the second of three loops, each of which makes it none: bytes of it by their offsets
NONE_BY = {
    "no search": {0: 0x06},
    "no code of the table": {0: 0x21},
    "no chain command": {4: 0},
    "chain data": {4: 0xC0},
    "a low flag": {4: 0x41},
    "a count of zero": {7: 0},
    "no transfer": {8: 0x06},
    "a target between doublewords": {11: 0x11},
}


def found(program, image, *words):
    """What `find` says, without the notes on programs."""
    ran = run(program, "find", *DEVICE, *words, given=image)
    others = ("note: no program found", "note: storage has")
    notes = [line for line in ran.error.splitlines(True) if not line.startswith(others)]
    return ran.status, "".join(notes)


def check_cases(checks, program):
    for name, image, at, begins in CASES:
        note = note_of(image, at)
        seen = re.findall(r" (?:begins at|byte) (\w{6})", note)
        wanted = [] if begins is None else [f"{abs(begins):06X}"]
        checks.expect(f"the model's note on {name}", wanted, seen)
        checks.expect(name, (0, note), found(program, image, "--at", f"{at:X}"))
    # the zeros behind an image don't count, so it may be elsewhere though storage is full
    image = image_of_preamble(0x100, [(0, 0x2000), (0x40, 0x2000)])
    wanted = f"note: 2 {fitting(2, 0x2000)}\n"
    full = ["--storage", "1000000"]
    checks.expect("two loops in full storage", (0, wanted), found(program, image, *full))
    ran = run(program, "deck", *DEVICE, *full, "--start", "0", "--open", given=image)
    checks.expect("a deck of two loops in full storage", (0, wanted), (ran.status, ran.error))
    one_left = f"note: 1 {fitting(1, 0x800)}\n"
    for name, changes in NONE_BY.items():
        image = bytearray(image_of_preamble(0x100, [(0, 0x800), (0x40, 0x800)]))
        for at, byte in changes.items():
            image[0x40 + at] = byte
        checks.expect(f"a loop with {name}", (0, one_left), found(program, bytes(image)))
    for code in (0xB1, 0x39, 0xE9):
        image = loop_at(0, 0x800, code) + loop_at(16, 0x800, 0x71)
        checks.expect(f"a loop by {code:02X}", (0, note_of(image)), found(program, image))
    image = bytearray(image_of_preamble(0x100, [(0, 0x800), (0x40, 0x800)]))
    image[8], image[0x48], image[0x44] = 0xF8, 0x18, 0x78
    wanted = "note: 2 search loops fit if the image begins at 000800: say --at 800\n"
    checks.expect("other codes of a transfer", (0, wanted), found(program, bytes(image)))


def cuts(random):
    """Twenty places at which the image is cut, the half of them at no multiple of 8."""
    most = PROGRAMS[-3] - BEGINS
    at_words = [8 * random.randrange(most // 8) for _ in range(8)]
    between = [8 * random.randrange(most // 8) + random.randrange(1, 8) for _ in range(10)]
    return [8, 1, *at_words, *between]


def check_fronts(checks, program):
    """Bytes before the one at address 0, more and fewer than the programs' addresses."""
    whole = bytes(BEGINS) + core()
    lines = run(program, "find", *DEVICE, given=whole).output
    for size in (1, 0x1FFF, 0x2000, 0x10000, 0x10005):
        image = bytes(size) + whole
        said = found(program, image)
        checks.expect(f"{size:X} bytes in front", (0, note_of(image)), said)
        number = int(re.search(r"tail -c \+(\d+)\n", said[1])[1])
        ran = run(program, "find", *DEVICE, given=image[number - 1 :])
        checks.expect(f"without {size:X} bytes in front", (lines, ""), (ran.output, ran.error))


def check_cuts(checks, program, random):
    whole = core()
    expected = run(program, "find", *DEVICE, "--at", f"{BEGINS:X}", given=whole)
    checks.expect("programs of the whole image", 8, expected.output.count(" yes 4 CCWs: "))
    checks.expect("no note on the whole image", "", expected.error)
    for cut in cuts(random):
        image = whole[cut:]
        left = sum(address + 8 >= BEGINS + cut for address in PROGRAMS)
        at = f"{BEGINS + cut:X}"
        note = f"note: {left} {fitting(left, BEGINS + cut)}\n"
        checks.expect(f"the note on a cut at {cut:X}", (0, note), found(program, image))
        ran = run(program, "find", *DEVICE, "--at", at, given=image)
        # a program that is cut may begin at a later CCW
        whole_ones = [f"00{it:04X}" for it in PROGRAMS if it >= BEGINS + cut]
        starts = [line[:6] for line in ran.output.splitlines() if " yes 4 CCWs" in line]
        checks.expect(f"the programs of a cut at {cut:X}", (whole_ones, ""), (starts, ran.error))


def check_noise(checks, program, random):
    """Random bytes with loops in them, at random places and for few addresses."""
    noted = 0
    for number in range(IMAGES):
        image = bytearray(random.randbytes(random.randrange(0x200)))
        begins = [random.randrange(0x2000) for _ in range(3)]
        for _ in range(random.randrange(6) if len(image) >= 32 else 0):
            fits = random.choice(begins)
            offset = 8 * random.randrange(len(image) // 8 - 2) + -fits % 8
            offset += random.randrange(8) == 0
            image[offset : offset + 16] = loop_at(offset, fits)
        at = random.choice([0, *begins])
        image, note = bytes(image), note_of(image, at)
        # some of the shortest are text
        words = ["--raw", "--at", f"{at:X}"]
        checks.expect(f"image {number}", (0, note), found(program, image, *words))
        noted += bool(note)
    checks.expect_that("some images get a note, others don't", 9 < noted < IMAGES - 9, noted)
    image = random.randbytes(0x40000)
    checks.expect("a large image of noise", (0, note_of(image)), found(program, image))


def check_decks(checks, program):
    """`deck` writes the same note, whether or not some job will do."""
    image = core()[8:]
    note = note_of(image)
    for words, status in [
        (["--start", "78", "--extent", "0-9"], 0),
        (["--start", "78", "--open"], 0),
        (["--start", "78", "--least"], 1),
        (["--start", "2080", "--at", "2008", "--least"], 0),
    ]:
        ran = run(program, "deck", *DEVICE, *words, given=image)
        wanted = "" if "--at" in words else note
        notes = "".join(line for line in ran.error.splitlines(True) if FITTING.match(line))
        checks.expect(f"deck {' '.join(words)}", (status, wanted), (ran.status, notes))


def check_swapped(checks, program):
    """Images whose words a PC has swapped, with loops that then agree, and with one alone."""
    image = core()
    swapped = b"".join(image[at : at + 4][::-1] for at in range(0, len(image), 4))
    wanted = (0, SWAPPED.format(8))
    checks.expect("swapped words", wanted, found(program, swapped))
    checks.expect("swapped words, placed", wanted, found(program, swapped, "--at", f"{BEGINS:X}"))
    checks.expect("swapped words of one loop", (0, note_of(swapped[:0x100])), found(program, swapped[:0x100]))
    checks.expect_that("one loop isn't enough", "swapped" not in note_of(swapped[:0x100]), swapped)
    dump = run("od", "-Ax", "-tx4", "-v", given=image).output.encode()
    checks.expect("a dump with swapped words", wanted, found(program, dump))
    dump = run("od", "-Ax", "-tx4", "-v", "--endian=big", given=image).output.encode()
    checks.expect("a dump with words as they are", (0, note_of(image)), found(program, dump))


def check_forms(checks, program):
    """Files of another form, by how they begin."""
    tape = "note: this is {}, with headers between its blocks; take its first block out by tail -c +{} | head -c {}\n"
    aws, simh = tape.format("an AWS tape of Hercules", 7, 300), tape.format("a tape of SimH", 5, 300)
    block, end = b"\0" * 299 + b"\1", b"\0\0\x2C\x01\x40\0"
    for name, front, note in [
        ("gzip", gzip.compress(bytes(64)), "note: this is compressed by gzip; unpack it first\n"),
        ("two bytes of gzip", b"\x1F\x8B", "note: this is compressed by gzip; unpack it first\n"),
        ("a byte of gzip", b"\x1F", ""),
        (
            "an object deck",
            b"\x02" + "ESD      ".encode("cp037") + bytes(70),
            "note: this is an object deck; link and load it first\n",
        ),
        ("no object deck", b"\x02" + "ESB".encode("cp037"), ""),
        ("no byte", b"", "note: the image is empty\n"),
        ("an AWS tape", b"\x2C\x01\0\0\xA0\0" + block + end, aws),
        ("a part of an AWS tape", b"\x2C\x01\0\0\xA0\0" + block + end[:3], ""),
        ("another length on a tape", b"\x2D\x01\0\0\xA0\0" + block + end, ""),
        ("no record on a tape", b"\x2C\x01\0\0\x20\0" + block + end, ""),
        ("a tape of SimH", b"\x2C\x01\0\0" + block + b"\x2C\x01\0\0", simh),
        (
            "a tape of SimH with an odd block",
            b"\x2B\x01\0\0" + block + b"\x2B\x01\0\0",
            simh.replace("300", "299"),
        ),
        ("no tape of SimH", b"\x2C\x01\0\0" + block + b"\x2C\x01\0\1", ""),
        ("a tape of no block", bytes(64), ""),
    ]:
        checks.expect(name, (0, note), found(program, front))


def check(checks, built):
    program, random = built.chanv(), Random(SEED)
    check_cases(checks, program)
    check_fronts(checks, program)
    check_cuts(checks, program, random)
    check_noise(checks, program, random)
    check_decks(checks, program)
    check_swapped(checks, program)
    check_forms(checks, program)
