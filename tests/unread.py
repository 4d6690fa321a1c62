"""`chanv find` and `chanv deck --least` say what a program takes that the image doesn't hold.

    tests/run unread

The bytes after an image, and those in the gaps of a dump, are zeros, so that a seek goes to cylinder
0 if its argument is there. After a yes a note names these bytes, once for each CCW and for each run
of them, and says whether they are outside the image or in a gap. Images are cut before an argument,
within it and after it, and placed elsewhere; dumps lack the line of an argument at their end and
between others. Arguments come through data chains, too, and Set File Mask takes a byte. After a no
the first byte on its path is named that isn't there. The last cases are about the size of storage.
"""

import re

from running import run

DEVICE = ["--device", "2314"]
LEAST = ["deck", *DEVICE, "--start", "800", "--least"]
OUTSIDE, GAP = "outside the image", "in a gap of the dump"
STORAGE = "note: storage has {:07X} bytes; give --storage if it has more, and --at if the image begins elsewhere\n"


def takes(taker, taken, where):
    return f"note: {taken}, which {taker} takes, lies {where}, so it is zero here\n"


SEEK = "000800 07 000900 40 00 0006\n"
LOOP = "000808 31 000A00 40 00 0005\n000810 08 000808 00 00 0000\n000818 06 000B00 00 00 0010\n"
PROGRAM = f"{SEEK}{LOOP}\n"
# a seek whose argument comes in three parts, the second of them by a transfer
PARTS = """\
000800 07 000900 80 00 0002
000808 08 000820 00 00 0000
000810 03 000000 00 00 0001
000820 00 000910 80 00 0001
000828 00 000902 40 00 0003
000830 03 000000 00 00 0001

"""
PARTS_TAKEN = ["000900-000901", "000910", "000902-000904"]
MASK = "000800 1F 000900 40 00 0001\n000808 03 000000 00 00 0001\n\n"
SEARCH = "000800 31 000A00 40 00 0005\n000808 08 000800 00 00 0000\n000810 06 000B00 00 00 0010\n"
WHOLE = "000900-000905"
# dumps, and what 000800 takes that they don't tell
CASES = [
    ("an argument is forgotten", PROGRAM, [(WHOLE, OUTSIDE)]),
    ("an argument is there", f"{PROGRAM}000900 00000000 00000000\n", []),
    ("an argument is in a gap", f"{PROGRAM}000A00 0000000001\n", [(WHOLE, GAP)]),
    ("its end is missing", f"{PROGRAM}000900 00000000\n", [("000904-000905", OUTSIDE)]),
    ("its beginning is missing", f"{PROGRAM}000904 0000\n", [("000900-000903", GAP)]),
    ("a byte of it is missing", f"{PROGRAM}000900 0000\n\n000903 000000\n", [("000902", GAP)]),
    (
        "both ends of it are missing",
        f"{PROGRAM}000902 00\n",
        [("000900-000901", GAP), ("000903-000905", OUTSIDE)],
    ),
    ("an argument in parts", PARTS, [(taken, OUTSIDE) for taken in PARTS_TAKEN]),
    ("one part is there", f"{PARTS}000910 00\n", [(taken, GAP) for taken in PARTS_TAKEN[::2]]),
    ("a mask is forgotten", MASK, [("000900", OUTSIDE)]),
    ("a mask is there", f"{MASK}000900 00\n", []),
    ("the data of a search is forgotten", SEARCH, []),
]


def notes_of(ran):
    """What is said beside the notes on gaps and on lines."""
    others = ("note: zeros in gaps", "note: lines without")
    return "".join(line for line in ran.error.splitlines(True) if not line.startswith(others))


def check_dumps(checks, program):
    size = ["--storage", "1000"]
    for name, text, lacks in CASES:
        notes = "".join(takes("000800", taken, where) for taken, where in lacks)
        ran = run(program, *LEAST, *size, given=text.encode())
        checks.expect(f"{name}, a deck", (0, notes), (ran.status, notes_of(ran)))
        ran = run(program, "find", *DEVICE, *size, given=text.encode())
        is_yes = ran.output.startswith("000800 yes ")
        checks.expect(f"{name}, found", (0, True, notes), (ran.status, is_yes, notes_of(ran)))
    # the gap of a dump moves with its bytes
    text = re.sub("(?m)^0008", "0000", PROGRAM) + "000200 00\n"
    ran = run(program, *LEAST, *size, "--at", "800", given=text.encode())
    checks.expect("a dump that is placed", takes("000800", WHOLE, GAP), notes_of(ran))


def check_images(checks, program):
    """Images that are cut or begin later; and each CCW is named once, of many a hundred."""
    image = bytearray(0xB10)
    for line in PROGRAM.split("\n")[:-2]:
        at, _, digits = line.partition(" ")
        image[int(at, 16) : int(at, 16) + 8] = bytes.fromhex(digits)
    cuts = [(0x820, WHOLE), (0x903, "000903-000905"), (0x905, "000905"), (0x906, "")]
    for size, taken in cuts:
        notes = taken and takes("000800", taken, OUTSIDE)
        for words in (LEAST, ["find", *DEVICE]):
            ran = run(program, *words, "--storage", "1000", given=bytes(image[:size]))
            checks.expect(f"{size:X} bytes by {words[0]}", (0, notes), (ran.status, notes_of(ran)))
    words = ["--storage", "1000", "--at", "800"]
    ran = run(program, *LEAST, *words, given=bytes(image[0x800:0x900]))
    wanted = takes("000800", WHOLE, OUTSIDE)
    checks.expect("an image that begins later", wanted, notes_of(ran))
    # two programs lead to the seek
    leads = "03000000400000010800080000000000"
    both = f"000700 {leads}\n\n000720 {leads}\n\n{PROGRAM}".encode()
    ran = run(program, "find", *DEVICE, "--storage", "1000", given=both)
    checks.expect("two programs with a seek", (2, wanted), (ran.output.count(" yes "), notes_of(ran)))
    many = bytes.fromhex("0700F00040000006") * 150 + bytes.fromhex("0300000000000001")
    ran = run(program, *LEAST, "--at", "800", "--storage", "10000", given=many)
    lines = notes_of(ran).splitlines(True)
    named = [takes(f"{0x800 + 8 * at:06X}", "00F000-00F005", OUTSIDE) for at in range(100)]
    more = "note: further CCWs take bytes that the image doesn't hold\n"
    checks.expect("a hundred CCWs are named", [*named, more], lines)


def check_noes(checks, program):
    """After a no the first byte that is missing; and that data goes past storage."""
    text = "000800 03 000000 40 00 0001\n000808 08 000900 00 00 0000\n\n"
    for more, where in [("", OUTSIDE), ("000A00 00\n", GAP)]:
        ran = run(program, *LEAST, "--storage", "1000", given=(text + more).encode())
        note = f"note: 000900 lies {where}, so it is zero here\n"
        checks.expect_that(f"a CCW {where}", ran.status == 1 and note in ran.error, ran)
    reads = ["06 000A00 40 00 0010", "06 000A00 40 00 0010", "06 000A00 00 00 0010"]
    for size, reason in [(0xA08, "data-outside"), (0xA10, "")]:
        text = "".join(f"{0x800 + 8 * at:06X} {ccw}\n" for at, ccw in enumerate(["03 000000 40 00 0001", "03 000000 40 00 0001", *reads]))
        ran = run(program, "find", *DEVICE, "--storage", f"{size:X}", given=text.encode())
        is_seen = reason in ran.output and bool(reason) == (" no " in ran.output)
        notes = STORAGE.format(size) if reason else ""
        checks.expect(f"storage of {size:X}", (True, notes), (is_seen, notes_of(ran)))


def check(checks, built):
    program = built.chanv()
    check_dumps(checks, program)
    check_images(checks, program)
    check_noes(checks, program)
