"""`chanv find` and `chanv deck` read dumps of storage and typed listings as text.

    tests/run dumps

Each image is dumped in each form by the tool that has the form, and the deck and the programs that
chanv makes of the dump have to be those of the image itself: images of examples/, noise, and text,
whose text columns look like digits and marks. Hercules displays images where it is installed. ABEND
dumps are made by the rule of their layout: a line has its address in six digits, eight words in two
groups, and 32 characters in EBCDIC; lines like the line before are one line that names them.

Then come texts by hand: what their bytes are, and what is said of gaps and of lines that are passed
over; lines that are refused, with the character that the caret is under; options that override the
dump's address and size; texts that are no dump, which are refused unless --raw is given; and inputs
that come in pieces. The test `texts` has the forms of other tools.
"""

import codecs
import re
import shutil
import tempfile
from pathlib import Path
from random import Random

from building import ROOT
from examples import EXAMPLES, SEARCH_LOOP, taken_apart
from running import Ran, run, run_in_bash, text_of

SEED = 83
DEVICE = ["--device", "2314"]
OPEN = ["deck", *DEVICE, "--start", "0", "--open"]

# a tool and its words for each form that is read; the image comes from standard input. Words of
# several bytes are padded, so that the last has to be whole.
FORMS = [
    "xxd",
    "xxd -u -c 32 -g 4",
    "xxd -c 7 -g 3",
    "xxd -c 1",
    "xxd -c 256 -g 1",
    "xxd -c 11 -g 0",
    "xxd -a",
    "xxd -E",
    "hexdump -C",
    "hexdump -v -C",
    "od -Ax -tx1",
    "od -v -Ax -tx1",
    "od -v -w32 -Ax -tx1",
    "od -Ax -tx1z",
    "od -Ax -tx4 --endian=big",
    "od -Ax -tx8 --endian=big",
    "od -tx1",
    "od -v -tx1z",
    "od -v -w8 -tx1",
    "objdump -s -b binary -m s390",
]
# forms that are refused at a line, why, and a word of the text that the caret is under
DIGIT = "not a hexadecimal digit; a text column or a comment begins with |, >, * or ;"
HALF = "a byte has two digits"
STEP = "the bytes above don't end here"
GAP = f"{STEP}; if none is missing, put an empty line between"
SWAPPED = (
    "words of two bytes may be swapped; dump with od -Ax -tx1, or put a colon after each address"
)
OCTAL = "not an octal digit, but addresses of seven digits are octal"
DIFFERS = "another line has another byte at this address"
AGAIN = "the repeat goes over bytes of another line"
DECIMAL = "the addresses seem to be decimal; dump with hexadecimal ones"
REPEAT = "it isn't known what is repeated, or how often"
LINE = "no address, no repeat and no comment"
HIGH = "storage ends at FFFFFF"
APART = "more than eight blanks before a byte, so others may be missing"
NONE = "no line of this text is an address with bytes"
LABEL = "a label isn't a hexadecimal number, and the address comes next"
LIKE = "no address, but else like the first line with one; a comment begins with ; or *"
# what follows if no line is read before
EXPECTED = "expected a line such as {}, or --raw if the text itself is storage\n"
TYPED_LINE, COLON_LINE = "000800  07000900 40000006", "00000800: 0700 0900 4000 0006"
# what is said of addresses of seven octal digits
OCTAL_NOTE = "note: the addresses have seven digits, all octal, and are read as octal\n"
REFUSED_FORMS = [
    ("od -Ax -x", SWAPPED),
    ("od -tx2", SWAPPED),
    ("hexdump", SWAPPED),
    ("hexdump -x", SWAPPED),
    ("xxd -e", DIGIT),
    ("xxd -b", DIGIT),
    ("od -v -Ad -tx1", DECIMAL),
    ("xxd -d", DECIMAL),
    ("od -v", STEP),
]

# Hercules' storage is changed below this by its timer, so images lie above
DISPLAYED_AT = 0x10000
CONFIGURATION = "ARCHMODE S/370\nMAINSIZE 16\nNUMCPU 1\nOSTAILOR QUIET\n0009 3215-C\n"


def images(random):
    yield from ((path.name, path.read_bytes()) for path in sorted(EXAMPLES.glob("*.bin")))
    yield "noise", random.randbytes(776)
    yield "noise of odd length", random.randbytes(771)
    yield "text", text_of(ROOT / "README.md").encode()[:1501] + b"||**>><< 00 00  ..  "
    yield "repeats", b"ab\0\0" * 64 + bytes(300) + b"\x31\0\x09\0" * 21


def both(program, given, *words):
    """What `deck` and `find` make of an input."""
    return [run(program, *command, *words, given=given) for command in (OPEN, ["find", *DEVICE])]


def dump_by(form, image):
    """The dump of an image by a tool; `objdump` reads only files, and writes headings first."""
    if not form.startswith("objdump"):
        return run(*form.split(), given=image).output.encode()
    with tempfile.NamedTemporaryFile() as file:
        Path(file.name).write_bytes(image)
        dump = run(*form.split(), file.name).output
    return dump.partition("section .data:\n")[2].encode()


def check_forms(checks, program, random):
    for name, image in images(random):
        bare = both(program, image, "--raw")
        for form in FORMS:
            tool = form.split()[0]
            if not shutil.which(tool):
                checks.skip(form, f"no {tool}")
                continue
            if "-endian" in form and len(image) % 8:
                continue
            dump = dump_by(form, image)
            is_octal = tool == "od" and "-A" not in form
            beside = OCTAL_NOTE * is_octal
            expected = [ran._replace(error=beside + ran.error) for ran in bare]
            checks.expect(f"{name} by {form}", expected, both(program, dump))
            # line ends, blanks and a byte-order mark as other systems have them
            dump = re.sub(rb"(?m)^(\w+:?) ", rb"\1\t", dump).replace(b"\n", b"\r\n")
            dump = b"\xef\xbb\xbf" + dump
            checks.expect(f"{name} by {form}, elsewhere", expected, both(program, dump))
        dump = "".join(abend_dump(image, 0)).encode()
        checks.expect(f"{name} in an ABEND dump", bare, both(program, dump))
    core = (EXAMPLES / "core.bin").read_bytes()
    for form, why in REFUSED_FORMS:
        if not shutil.which(form.split()[0]):
            continue
        dump = run(*form.split(), given=core).output.encode()
        said = rf"chanv: dump line \d+: {re.escape(why)}\nfound .*\n +\^\n(expected .*\n)?"
        for ran in both(program, dump):
            is_refused = ran[:2] == (2, "") and re.fullmatch(said, ran.error)
            checks.expect_that(f"{form} is refused", is_refused, ran)


def in_ebcdic(image):
    text = codecs.decode(image, "cp037")
    return "".join(it if it.isascii() and it.isalnum() else "." for it in text)


def abend_dump(image, begins):
    """The lines of an image in an ABEND dump, without heads."""
    lines = [(begins + at, image[at : at + 32]) for at in range(0, len(image), 32)]
    at = 0
    while at < len(lines):
        address, part = lines[at]
        words = [part[word : word + 4].hex().upper() for word in range(0, len(part), 4)]
        digits = f"{' '.join(words[:4])}  {' '.join(words[4:])}"
        yield f"{address:06X}   {digits:<74}*{in_ebcdic(part)}*\n"
        at += 1
        first = at
        while at < len(lines) and lines[at][1] == part:
            at += 1
        if at - first == 1:
            yield f"  LINE  {lines[first][0]:06X}  SAME AS ABOVE\n"
        elif at > first:
            yield f"  LINES {lines[first][0]:06X}-{lines[at - 1][0]:06X}  SAME AS ABOVE\n"


def check_hercules(checks, program, random):
    if not shutil.which("hercules"):
        checks.skip("what Hercules displays", "no hercules")
        return
    # whole lines, since it displays no less
    shown = [(name, image[: len(image) // 16 * 16]) for name, image in images(random)]
    commands = ["pause 1"]
    for at, (_, image) in enumerate(shown, 1):
        begins = at * DISPLAYED_AT
        commands += [f"loadcore {at} {begins:X}", f"r {begins:X}-{begins + len(image) - 1:X}"]
    with tempfile.TemporaryDirectory() as folder:
        room = Path(folder)
        for at, (_, image) in enumerate(shown, 1):
            (room / f"{at}").write_bytes(image)
        (room / "configuration").write_text(CONFIGURATION)
        (room / "commands").write_text("\n".join([*commands, "pause 2", "quit\n"]))
        script = 'HERCULES_RC=commands exec "$@" < /dev/null'
        words = ["timeout", "60", "hercules", "-d", "-f", "configuration"]
        log = run_in_bash(script, *words, cwd=room).output
    parts = re.split("(?m)^loadcore .*\n", log)[1:]
    checks.expect("Hercules displays each image", len(shown), len(parts))
    for at, ((name, image), part) in enumerate(zip(shown, parts), 1):
        begins = ["--at", f"{at * DISPLAYED_AT:X}"]
        expected = both(program, image, *begins, "--raw")
        lines = "".join(re.findall("R:.*\n", part))
        checks.expect(f"{name} by Hercules", expected, both(program, lines.encode()))
        placed = both(program, lines.encode(), "--at", "0")
        bare = both(program, image, "--raw")
        checks.expect(f"{name} by Hercules, placed", bare, placed)
        # the command comes before, and others and messages after
        log = f"r {begins[1]}.8\n{lines}stop\nquit\nHHCIN900I Begin Hercules shutdown\n"
        passed = "note: lines without an address, passed over: 4\n"
        expected = [ran._replace(error=passed + ran.error) for ran in expected]
        checks.expect(f"{name} in a log of Hercules", expected, both(program, log.encode()))


# lines that may come between the lines of a dump
HEADS = """\
JOB READER STEP GO TIME 101500 DATE 66001
COMPLETION CODE SYSTEM = 0C4
NUCLEUS
REGS AT ENTRY TO ABEND
FLTS 0-6
FLTR 0-6
P/P STORAGE
SP 000
LOAD MODULE READER
CSECT 1 OF 1
TRACE TABLE
PAGE 0002
END OF DUMP
because the count is zero
no 000818 invalid-code
yes
"""
PASSED = "note: lines without an address, passed over: {}\n"
SHORTER = "note: dump line {} has an address of fewer digits than the line before\n"

# typed texts: the bytes by their addresses, and what is said
TYPED = [
    (
        "a typed program",
        "* the search loop, as on paper\n"
        "000800 31 000900 40 00 0005  ; search for the record\n"
        "000808 08 000800 00 00 0000  * try the next\n"
        "\n"
        "  000810  06000A00 20000050;read it",
        {0x800: "3100090040000005 0800080000000000 06000A0020000050"},
        "",
    ),
    ("eight blanks", "000800        07000900        40000006\n", {0x800: "0700090040000006"}, ""),
    (
        "colons",
        "800: 07000900 40000006\n808:0300000000000001\n",
        {0x800: "0700090040000006 0300000000000001"},
        "",
    ),
    ("words of two bytes after a colon", "800: 0700 0900 4000", {0x800: "070009004000"}, ""),
    ("a word of two bytes and a byte", "800 0700 09", {0x800: "070009"}, ""),
    ("lower case", "00a0c 0c0a", {0xA0C: "0C0A"}, ""),
    ("one byte in a line", "100 01\n101 02\n102 03\n", {0x100: "010203"}, ""),
    (
        "gaps",
        "000800 0700090040000006\n000810 06 00\n000814 FF\n\n816 EE\n",
        {0x800: "0700090040000006", 0x810: "0600", 0x814: "FF", 0x816: "EE"},
        SHORTER.format(5)
        + "note: zeros in gaps of the dump: 11, at 000808-00080F, 000812-000813, 000815\n",
    ),
    (
        "many gaps",
        "".join(f"{at:X} 11\n" for at in range(0x100, 0x200, 3)),
        {at: "11" for at in range(0x100, 0x200, 3)},
        "note: zeros in gaps of the dump: 170, at "
        + ", ".join(f"{at:06X}-{at + 1:06X}" for at in range(0x101, 0x118, 3))
        + ", ..\n",
    ),
    (
        "gaps between lines of sixteen bytes",
        f"000: {'11 ' * 16}\n010: {'22' * 16}\n040: {'33' * 16}\n",
        {0: "11" * 16 + "22" * 16, 0x40: "33" * 16},
        "note: zeros in gaps of the dump: 32, at 000020-00003F\n",
    ),
    (
        "parts in any order, and a line twice",
        "900 11\n800 22\n800 22\n900 11 33\n",
        {0x800: "22", 0x900: "1133"},
        "note: zeros in gaps of the dump: 255, at 000801-0008FF\n",
    ),
    ("a repeat up to the end", "000 0102\n*\n007\n", {0: "01020102010201"}, ""),
    ("a repeat up to a line", "000 0102\n*\n008 03\n", {0: "010201020102010203"}, ""),
    ("no repeat", "000 0102\n*\n002 03\n", {0: "010203"}, ""),
    (
        "lines that are as above",
        "LOAD MODULE X\n000800  01020304\nLINE 000804 SAME AS ABOVE\n"
        "LINES 000808-000810   SAME AS ABOVE\nEND OF DUMP\n",
        {0x800: "01020304" * 5},
        "note: lines without an address, passed over: 2\n",
    ),
    *(
        (f"{head} between lines", f"800 07\n{head}\n801 08\n", {0x800: "0708"}, PASSED.format(1))
        for head in HEADS.splitlines()
    ),
    (
        "a gap after a head and after a comment",
        "800 07\nPAGE 2\n802 08\n; here\n804 09\n",
        {0x800: "07", 0x802: "08", 0x804: "09"},
        f"{PASSED.format(1)}note: zeros in gaps of the dump: 2, at 000801, 000803\n",
    ),
    ("a form feed before a page", "800 07\n\fPAGE 2\n801 08\n", {0x800: "0708"}, PASSED.format(1)),
    (
        "Hercules at an odd address",
        "R:00000801:K:06=000900 40000006 31000902 40000005 08 ... ....... ....\n",
        {0x801: "00090040000006310009024000000508"},
        "",
    ),
    (
        "Hercules at the end of a page",
        "R:00000FF8:K:06=00000001 00000002                    ........        \n",
        {0xFF8: "0000000100000002"},
        "",
    ),
    ("the text of blanks", "000: 2020  \n002: 205a   Z\n004: 5a20  Z\n", {0: "2020205A5A20"}, ""),
    ("digits that are no text", "000: 4142  005A\n", {0: "4142005A"}, ""),
    ("octal", "0004000 07 00\n0004002 09\n", {0x800: "070009"}, OCTAL_NOTE),
    ("seven typed digits", "0000700  07 00\n", {0o700: "0700"}, OCTAL_NOTE),
    ("seven digits with a colon", "0004000: 07 00\n", {0x4000: "0700"}, ""),
    ("seven digits that aren't octal", "0000800 07\n0000801 08\n", {0x800: "0708"}, ""),
    ("an end", "000800 0700\n000802\n", {0x800: "0700"}, ""),
    ("the end of storage", "FFFFF9 00000000000007\n1000000\n", {0xFFFFFF: "07"}, ""),
    (
        "lines without an address before",
        "a dump: be\nPAGE 1\n; here\n\n800 07\n",
        {0x800: "07"},
        "note: lines without an address, passed over: 2\n",
    ),
]

# a text, the number of the line that is refused, why, and the column of the caret
WRONG = [
    ("a letter in a byte", "800 07\n801 0O\n", 2, DIGIT, 5),
    ("a letter after a digit", "800 07\n801 4G\n", 2, DIGIT, 5),
    ("a letter between bytes", "800 07\n801 08 g0\n", 2, DIGIT, 7),
    ("a letter in the first line", "800 0700O90040000006\n808 07\n", 1, DIGIT, 8),
    ("half a byte at the end", "800 070\n801 07\n", 1, HALF, 6),
    ("half a byte before a blank", "800 07\n801 0 70\n", 2, HALF, 4),
    ("half a byte before a comment", "800 07\n801 0;70\n", 2, HALF, 4),
    ("a word in a line", "800 07\nhere 801 08\n", 2, LINE, 0),
    ("a line without an address", "800 07\n  code 08\n", 2, LINE, 2),
    ("a head later in a line", "800 07\nend of PAGE 2\n", 2, LINE, 0),
    ("a letter right after an address", "800 07\n801g 08\n", 2, LINE, 0),
    ("a prompt after the dump", "800 07\n$ \n", 2, LINE, 0),
    ("another byte", "800 0708\n900 09\n800 0709\n", 3, DIFFERS, 6),
    ("a repeat over a byte", "802 09\n800 07\n*\n803\n", 4, AGAIN, 0),
    ("a repeat over itself", "800 07\n*\n803 09\n800 07\n*\n803 09\n", 6, AGAIN, 0),
    ("a step that is too short", "800 07080910\n802 09101112\n", 2, STEP, 0),
    ("a gap of one byte", "800 07 000900 40 0006\n808 08\n", 2, GAP, 0),
    ("a lost byte", f"000 {'11' * 16}\n010 {'22' * 15}\n020 {'33' * 16}\n", 3, GAP, 0),
    ("a lost half", f"000 {'11' * 16}\n010 {'22' * 8}\n020 {'33' * 16}\n", 3, GAP, 0),
    ("decimal addresses", f"000: {'11' * 16}\n016: {'22' * 16}\n", 2, DECIMAL, 0),
    ("decimal addresses from 800 on", f"800: {'11' * 16}\n816: {'22' * 16}\n", 2, DECIMAL, 0),
    ("decimal addresses of seven digits", f"0000000 {'11' * 8}\n0000008 {'22' * 8}\n", 2, OCTAL, 6),
    ("an end before the end", "800 0708\n801\n", 2, STEP, 0),
    ("an end after the end", "800 0708\n803\n", 2, STEP, 0),
    ("swapped words", "800 0700 0900\n", 1, SWAPPED, 4),
    ("swapped words later", "800 0700090040000006\n808 0700 0900 4000 0006\n", 2, SWAPPED, 4),
    ("an address that is too high", "800 07\n1000001 07\n", 2, HIGH, 0),
    ("bytes past storage", "FFFFF8 0707070707070707 08\n", 1, HIGH, 24),
    ("a repeat past storage", "FFFFF0 07\n*\n1000001\n", 3, HIGH, 0),
    ("a repeat without an end", "800 07\n*\n", 2, REPEAT, 0),
    ("a repeat of half a line", "000 0102\n*\n005 03\n", 3, REPEAT, 0),
    ("a repeat that goes back", "100 0102\n*\n080 03\n", 3, REPEAT, 0),
    ("lines elsewhere", "000800 01020304\n LINE 000808 SAME AS ABOVE\n", 2, REPEAT, 1),
    ("lines backwards", "000800 01020304\nLINES 000804-000800 SAME AS ABOVE\n", 2, REPEAT, 0),
    ("lines of half a line", "000800 01020304\nLINES 000804-000806 SAME AS ABOVE\n", 2, REPEAT, 0),
    ("lines of none", "LINES 000804-000806 SAME AS ABOVE\n800 07\n", 1, REPEAT, 0),
    ("a missing word", "000800   07000900          20000010 *..*\n000810 07\n", 1, APART, 27),
    ("nine blanks", "800 07000900         40000006\n", 1, APART, 21),
    ("nine blanks in front", "800 07\n801         08\n", 2, APART, 12),
    ("missing words in front", "000804 07\n000820            07000900 *..*\n", 2, APART, 18),
    ("four bytes of the only line", "800 07000900 4O000006\n", 1, DIGIT, 14),
    ("a letter in the first address", "00O800 0700\n000802 09\n", 1, LIKE, 0),
    ("a letter in a label's address", "A 00O800 07000900\nB 000804 40000006\n", 1, LIKE, 0),
    ("a label that is a number", "SEEK 000800 07000900 40000006\nB10  000808 03000000 00000001\n", 2, LABEL, 0),
    ("an address of letters", "; here\nABC 0700\n802 0900\n", 2, LIKE, 0),
    ("a message among typed lines", "800 07\nHHC00007I entered\n", 2, LINE, 0),
    ("a wrong row in a log", "R:00000800:K:06=07000900 40000006\nR:0000O810:K:06=07\n", 2, LINE, 0),
]


# a line that is read
WHOLE = re.compile(r"(R:|\w+:? *(\w\w)+)")


def storage_of(ran):
    return taken_apart(ran.output)[1]


def laid_out(bytes_by_address):
    """Storage with these bytes, up to a multiple of 8."""
    end = max(at + len(bytes.fromhex(digits)) for at, digits in bytes_by_address.items())
    storage = bytearray(end + -end % 8)
    for at, digits in bytes_by_address.items():
        part = bytes.fromhex(digits)
        storage[at : at + len(part)] = part
    return bytes(storage)


def check_typed(checks, program):
    for name, text, expected, said in TYPED:
        ran = run(program, *OPEN, given=text.encode())
        seen = (ran.status, ran.error, storage_of(ran))
        checks.expect(name, (0, said, laid_out(expected)), seen)
    for name, text, number, why, column in WRONG:
        line = text.splitlines()[number - 1].rstrip()
        said = f"chanv: dump line {number}: {why}\nfound {line}\n{' ' * (6 + column)}^\n"
        is_first = not any(WHOLE.match(line) for line in text.splitlines()[: number - 1])
        if is_first:
            said += EXPECTED.format(COLON_LINE if ":" in line else TYPED_LINE)
        for ran in both(program, text.encode()):
            checks.expect(name, Ran(2, "", said), ran)
    # a long line is cut, and so is the caret far behind
    for count, shown in [(50, 171), (300, 240)]:
        line = f"800 {'07 ' * count}g"
        ran = run(program, *OPEN, given=f"700 07\n{line}".encode())
        caret = f"{' ' * (10 + 3 * count)}^\n" if count == 50 else ""
        cut = line if len(line) <= shown else f"{line[:shown]} .."
        expected = Ran(2, "", f"chanv: dump line 2: {DIGIT}\nfound {cut}\n{caret}")
        checks.expect(f"a fault after {count} bytes", expected, ran)


def check_options(checks, program, folder):
    """The dump's address and size hold where no option says another; a name comes before a line."""
    loop = taken_apart(text_of(SEARCH_LOOP))[1][0x800:0x818]
    path = folder / "typed"
    path.write_text("".join(f"{0x800 + at:06X} {loop[at : at + 8].hex()}\n" for at in (0, 8, 16)))
    for words in ("", "--at 800", "--storage 1000", "--at 0", "--at 900 --storage 1000"):
        words, placed = words.split(), words if "--at" in words else f"--at 800 {words}"
        expected = both(program, loop, *placed.split())
        seen = both(program, path.read_bytes(), *words)
        checks.expect(f"a dump with {words}", expected, seen)
        checks.expect(f"a named dump with {words}", expected[0], run(program, *OPEN, *words, path))
    past = both(program, path.read_bytes(), "--storage", "810")
    note = "note: the image begins at 000800 and has more than 10 bytes, but storage has 0000810\n"
    said = "chanv: image past storage\n"
    checks.expect("a dump past storage", [Ran(4, "", said + note)] * 2, past)
    (folder / "wrong").write_text("800 07\n801 070\n")
    said = f"chanv: {folder / 'wrong'}: dump line 2: {HALF}\nfound 801 070\n            ^\n"
    ran = run(program, *OPEN, folder / "wrong")
    checks.expect("a named dump is refused", Ran(2, "", said), ran)
    ran = run_in_bash('exec "$@" 2> /dev/full', program, *OPEN, folder / "wrong")
    checks.expect("a refusal that can't be written", Ran(2), ran)
    text = b"800 07 00\n" * 10
    ran = run_in_bash('ulimit -s 40 && exec "$@"', program, *OPEN, given=text)
    checks.expect("little stack", run(program, *OPEN, given=text), ran)


# texts of which no line is read: the line that is refused, why, the column and the nearest form
DIGITS = "help: xxd -r -p makes an image of digits alone\n"
OTHERS = [
    ("plain digits", "3100090040000005\n0800080000000000\n", 1, HIGH, 0, TYPED_LINE, DIGITS),
    ("plain digits of four bytes", "31000900\n40000005\n", 1, HIGH, 0, TYPED_LINE, DIGITS),
    ("an address alone", "000800\n000808:\n", 1, NONE, 6, TYPED_LINE, DIGITS),
    ("short addresses", "\n80 07\n88 08\n", 2, NONE, 2, TYPED_LINE, DIGITS),
    ("words", "bad dead beef\nadd cafe\n", 1, NONE, 3, TYPED_LINE, ""),
    ("numbers before words", "2311 becomes\n1000 CCWs\n", 1, DIGIT, 8, TYPED_LINE, ""),
    ("three bytes and a half", "800 07 00 09 0\n", 1, HALF, 13, TYPED_LINE, ""),
    ("prose", "It seeks to a cylinder.\n", 1, NONE, 0, TYPED_LINE, ""),
]


def check_others(checks, program, folder):
    """Texts that aren't dumps are refused, unless --raw says that they are images; other inputs are
    images as they are; and an image may come in pieces."""
    for name, text, number, why, column, form, more in OTHERS:
        line = text.splitlines()[number - 1]
        said = f"chanv: dump line {number}: {why}\nfound {line}\n{' ' * (6 + column)}^\n"
        wanted = Ran(2, "", said + EXPECTED.format(form) + more)
        for ran in both(program, text.encode()):
            checks.expect(f"{name} are refused", wanted, ran)
    texts = [ROOT / "README.md", ROOT / "CHANGELOG.md"]
    for name, text in [
        *[(path.name, path.read_bytes()) for path in texts],
        *[(name, text.encode()) for name, text, *_ in OTHERS],
        ("a dump", b"800 07\n"),
        ("a deck", SEARCH_LOOP.read_bytes()),
    ]:
        for ran in both(program, text)[:1]:
            is_refused = ran[:2] == (2, "") or text == b"800 07\n"
            checks.expect_that(f"{name} isn't storage", is_refused, ran)
        expected = text + bytes(-len(text) % 8)
        ran = run(program, *OPEN, "--raw", given=text)
        checks.expect(f"{name} as an image", (0, expected), (ran.status, storage_of(ran)))
    for name, image in [
        ("a control character", b"800 07\n\x01"),
        ("a dump with a zero", b"800 07\n\0"),
        ("blanks alone", b" " * 64),
        ("one character alone", b"\x40" * 64),
        ("a CCW", bytes.fromhex("0700090040000006")),
    ]:
        ran = run(program, *OPEN, given=image)
        expected = image + bytes(-len(image) % 8)
        checks.expect(f"{name} is an image", (0, expected), (ran.status, storage_of(ran)))
    said = "chanv: this is a deck; chanv verify judges it\n"
    checks.expect("a deck", [Ran(2, "", said)] * 2, both(program, SEARCH_LOOP.read_bytes()))
    ran = run(program, "find", *DEVICE, "--raw", given=SEARCH_LOOP.read_bytes())
    note = "note: this is a deck; chanv verify judges it\n"
    checks.expect("a deck as an image", Ran(0, "", note), ran)
    dump = b"000800 0700090040000006\n000808 0300000000000001\n"
    script = '{ head -c 5 "$2"; sleep 0.2; tail -c +6 "$2"; } | "$1" "${@:3}"'
    image = b"801 0" + bytes(9000) + dump
    for name, text in [("dump", dump), ("image", image), ("text", b"words " * 9 + b"\n")]:
        (folder / name).write_bytes(text)
        ran = run_in_bash(script, program, folder / name, *OPEN)
        checks.expect(f"a {name} in pieces", run(program, *OPEN, given=text), ran)
    too_long = Ran(2, "", "chanv: image too long\n")
    ran = run_in_bash('yes "800 07" | "$@"', program, *OPEN)
    checks.expect("a dump without end", too_long, ran)
    ran = run_in_bash('yes "800 07" | "$@"', program, *OPEN, "--storage", "1000")
    checks.expect("a dump without end past storage", Ran(4, "", "chanv: image past storage\n"), ran)


def check_hostile(checks, program, folder):
    """Texts of many megabytes take no more than seconds of a processor."""
    most = 30_000_000
    for name, text in [
        ("blanks", b"800 07" + b" " * most),
        ("blanks in words", b"800" + b"  20" * (most // 8) + b" " * (most // 2)),
        ("a byte in a line", b"".join(b"%06X 07\n" % at for at in range(most // 10))),
        ("repeats", b"FFF000 01\n" + b"000 01\n*\nFFF000\n" * (most // 20)),
        ("repeats of one byte", b"000 01\n" + b"*\n000 01\n" * (most // 10)),
        ("lines without an address", b"800 07\n" + b"r \n" * (most // 3)),
        ("digits", b"800 " + b"07" * (most // 2)),
        ("texts", b"800 07\n" + b"900  07 \n" * (most // 9)),
    ]:
        (folder / "hostile").write_bytes(text)
        ran = run_in_bash('ulimit -t 10 && exec "$@"', program, *OPEN, folder / "hostile")
        checks.expect_that(f"{name} of {most} bytes", ran.status in (0, 2), ran)


def check(checks, built):
    program, random = built.chanv(), Random(SEED)
    check_forms(checks, program, random)
    check_hercules(checks, program, random)
    check_typed(checks, program)
    with tempfile.TemporaryDirectory() as folder:
        check_options(checks, program, Path(folder))
        check_others(checks, program, Path(folder))
        check_hostile(checks, program, Path(folder))
