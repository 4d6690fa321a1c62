"""`chanv find` and `chanv deck` take no text for storage: they read it as a dump, or refuse it.

    tests/run texts

One image is written in each form that debuggers, emulators, editors and people give it, by the rule
of the form: with other addresses, groups and text columns than those of the test `dumps`, in other
codes of characters, and as texts that have no address. Each text is either read, and the deck is
then that of the image, or refused with status 2, with the number of the line that can't be read, why
not, the line, a caret, and the form that the line comes nearest to. Whichever it is, it is written
here by hand. Tools of this machine then dump a longer image and a shorter one in further forms, of
which none may be taken for storage either, nor be read with other bytes.
"""

import base64
import codecs
import re
import shutil

from dumps import DECIMAL, DIGIT, HALF, HIGH, LIKE, LINE, NONE, OCTAL, REPEAT, STEP, SWAPPED, in_ebcdic
from examples import EXAMPLES, taken_apart
from running import Ran, run

CORE = (EXAMPLES / "core.bin").read_bytes()
AT, SIZE = 0x800, 0x20
IMAGE = CORE[AT : AT + SIZE]
OPEN = ["deck", "--device", "2314", "--start", "800", "--storage", "1000", "--open"]
ONE_LINE = "no line ends; fold -w LENGTH, or dd conv=ascii cbs=LENGTH, makes lines"
# a text that is read, and that may have a note
READ = None


def words(part, size, between=" ", before=""):
    return between.join(before + part[at : at + size].hex() for at in range(0, len(part), size))


def ccw(part):
    """A CCW as people write it."""
    fields = [part[:1], part[1:4], part[4:5], part[5:6], part[6:]]
    return " ".join(field.hex().upper() for field in fields)


def characters(part):
    return "".join(chr(byte) if 0x20 <= byte < 0x7F else "." for byte in part)


def lines(size, form):
    """A line for each `size` bytes of the image, by a form of its address and its bytes."""
    parts = [(AT + at, IMAGE[at : at + size]) for at in range(0, SIZE, size)]
    return "".join(form(address, part) + "\n" for address, part in parts)


TYPED = lines(8, lambda at, part: f"{at:06X} {ccw(part)}  ; a CCW")
LABELS = iter(["SEEK   ", "SEARCH ", "       ", "READ1  "])
RULER = " ".join(f"{at:02X}" for at in range(16))
HEAD = "JOB READER            STEP GO            TIME 101500   DATE 66001"
ABEND = [HEAD, *lines(16, lambda at, part: f"{at:06X}   {words(part, 4):<74}*{in_ebcdic(part)}*").splitlines()]
LIST = """\
000800 fresh t . 07 000900 -C---0 00 0006 control seek
000808 fresh - . 31 000902 -C---0 00 0005 write search-id-equal
000810 fresh - . 08 000808 -----0 00 0000 transfer transfer-in-channel
000818 fresh - * 06 000900 --L--0 00 0010 read read-data
no 000818 changes-argument
"""


def record(kind, address, part):
    body = bytes([len(part) + len(address) + 1]) + address + part
    return f"S{kind}{body.hex().upper()}{255 - sum(body) % 256:02X}"


# texts by name; why each is refused, at which line, and the column of the caret, or `READ`
CASES = [
    # debuggers
    ("gdb x/32xb", lines(8, lambda at, part: f"0x{at:x}:\t{words(part, 1, chr(9), '0x')}"), READ),
    ("gdb x/16xh", lines(16, lambda at, part: f"0x{at:x}:\t{words(part, 2, chr(9), '0x')}"), READ),
    ("gdb x/16xw", lines(16, lambda at, part: f"0x{at:x}:\t{words(part, 4, chr(9), '0x')}"), READ),
    ("gdb x/4xg", lines(16, lambda at, part: f"0x{at:x}:\t{words(part, 8, chr(9), '0x')}"), READ),
    ("gdb, a symbol", lines(8, lambda at, part: f"0x{at:x} <core+{at - AT}>:\t{words(part, 1, ' ', '0x')}"), READ),
    ("lldb memory read", lines(16, lambda at, part: f"0x{at:08x}: {words(part, 1)}  {characters(part)}"), READ),
    ("lldb x/32xb", lines(8, lambda at, part: f"0x{at:08x}: {words(part, 1, ' ', '0x')}"), READ),
    ("a number and a colon", lines(8, lambda at, part: f"0x{at:x}: {words(part, 1)}"), READ),
    ("a number and a blank", lines(8, lambda at, part: f"0x{at:x} {words(part, 1)}"), READ),
    ("numbers and blanks", lines(8, lambda at, part: f"0x{at:x} {words(part, 1, ' ', '0x')}"), (NONE, 1, 5)),
    ("windbg db", lines(16, lambda at, part: f"{at:08x}  {words(part[:8], 1)}-{words(part[8:], 1)}"), (DIGIT, 1, 33)),
    ("windbg dd", lines(16, lambda at, part: f"{at:08x}  {words(part, 4)}"), READ),
    ("debug of DOS", lines(16, lambda at, part: f"0100:{at:04X}  {words(part, 1)}   {characters(part)}"), (NONE, 1, 4)),
    ("debug of DOS, one line", f"0100:0800  {words(IMAGE[:16], 1)}\n", (NONE, 1, 4)),
    # QEMU and z/Architecture: addresses of sixteen digits
    ("QEMU xp/32xb", lines(8, lambda at, part: f"{at:016x}: {words(part, 1, ' ', '0x')}"), READ),
    ("QEMU xp/8xw", "(qemu) xp/8xw 0x800\n" + lines(16, lambda at, part: f"{at:016x}: {words(part, 4, ' ', '0x')}"), READ),
    # Hercules and CP
    ("Hercules v", lines(16, lambda at, part: f"V:{at:08X}:K:06={words(part, 4)} {in_ebcdic(part)}"), READ),
    ("Hercules 4", lines(16, lambda at, part: f"HHC02290I R:{at:016X}:K:06={words(part, 4)} {in_ebcdic(part)}"), READ),
    ("Hercules with the time", lines(16, lambda at, part: f"16:02:33.123 R:{at:08X}:K:06={words(part, 4)}"), READ),
    (
        "a log of Hercules",
        "HHC00013I Herc command: 'r 800.20'\nr 800.20\n"
        + lines(16, lambda at, part: f"R:{at:08X}:K:06={words(part, 4)} {in_ebcdic(part)}\nherc =====> stop")
        + "v 900\nHHCIN900I Begin Hercules shutdown\n",
        READ,
    ),
    ("CP with keys", lines(16, lambda at, part: f"V{at:08X}  {words(part, 4)} 06"), READ),
    ("CP with a key and text", lines(16, lambda at, part: f"R{at:08X}  {words(part, 4)} 06 *{in_ebcdic(part)}*"), READ),
    ("CP with text", lines(16, lambda at, part: f"R{at:08X}  {words(part, 4)} *{in_ebcdic(part)}*"), READ),
    ("CP, sixteen digits", lines(16, lambda at, part: f"R{at:016X}  {words(part, 4)} 06"), READ),
    ("CP with the time", lines(16, lambda at, part: f"10:15:22 R{at:08X}  {words(part, 4)} 06"), READ),
    ("a wrong row of CP", f"R00000800  {words(IMAGE[:16], 4)} 06\nR0000O810  {words(IMAGE[16:], 4)} 06\n", (LINE, 2, 0)),
    ("CP, eight words", f"V00000800  {words(IMAGE, 4)} 06\n", READ),
    # SimH
    ("SimH examine", lines(4, lambda at, part: f"{at:X}:\t{words(part, 4)}"), READ),
    # people and programs of people
    ("labels", lines(8, lambda at, part: f"{next(LABELS)}{at:06X} {ccw(part)}"), READ),
    ("labels with colons", lines(8, lambda at, part: f"L{at - AT}: {at:06X}: {ccw(part)}"), READ),
    ("lines of a deck", lines(8, lambda at, part: f"put {at:06X} {part.hex().upper()}"), READ),
    ("rows of a listing", LIST, READ),
    ("cut from an assembler's listing", lines(8, lambda at, part: f"{at:06X} {part.hex().upper()}"), READ),
    ("an assembler's listing", lines(8, lambda at, part: f"{at:06X} {part.hex().upper()}    12 SEEK  CCW  7,ARG"), (DIGIT, 1, 30)),
    ("an assembler's source", "SEEK     CCW   7,ARGUMENT,X'40',6\n", (NONE, 1, 0)),
    ("constants", lines(8, lambda at, part: f"         DC    X'{part.hex().upper()}'"), (NONE, 1, 11)),
    ("a patch", lines(8, lambda at, part: f"REP {at:04X} {words(part, 2, ',')}"), (NONE, 1, 0)),
    ("a patch of one", lines(8, lambda at, part: f"REP {at:04X} {words(part, 8)}"), READ),
    ("cards of digits", f"{IMAGE.hex().upper():<72}00000010\n", (NONE, 1, 64)),
    # digits without addresses
    ("digits", IMAGE.hex() + "\n", (NONE, 1, 64)),
    ("doublewords", lines(8, lambda at, part: part.hex()), (HIGH, 1, 0)),
    ("words of storage", lines(8, lambda at, part: words(part, 4)), (HIGH, 1, 0)),
    ("halfwords", lines(16, lambda at, part: words(part, 2)), (SWAPPED, 1, 5)),
    ("bytes", lines(16, lambda at, part: words(part, 1)), (NONE, 1, 2)),
    ("CCWs", lines(8, lambda at, part: ccw(part)), (NONE, 1, 2)),
    ("a C array", lines(8, lambda at, part: f"  {words(part, 1, ', ', '0x')},"), (NONE, 1, 6)),
    ("xxd -i", "unsigned char core[] = {\n" + lines(8, lambda at, part: f"  {words(part, 1, ', ', '0x')},"), (NONE, 1, 0)),
    ("a C array without commas", lines(8, lambda at, part: words(part, 1, " ", "0x")), (NONE, 1, 4)),
    ("words of C", lines(8, lambda at, part: words(part, 4, " ", "0x")), (NONE, 1, 10)),
    ("a list of Python", f"{[*IMAGE]}\n", (NONE, 1, 0)),
    # files that tools make
    ("S-records", "".join(record(1, (AT + at).to_bytes(2, "big"), IMAGE[at : at + 16]) + "\n" for at in (0, 16)), (NONE, 1, 0)),
    ("S-records with a head", record(0, bytes(2), b"HDR") + "\n" + record(3, AT.to_bytes(4, "big"), IMAGE) + "\n", (NONE, 1, 0)),
    ("Intel hex", lines(16, lambda at, part: f":10{at:04X}00{part.hex().upper()}00"), (NONE, 1, 0)),
    ("Verilog", f"@{AT:08X}\n{words(IMAGE, 1)}\n", (NONE, 1, 0)),
    ("base64", base64.b64encode(IMAGE).decode() + "\n", (NONE, 1, 1)),
    ("uuencode", "begin 644 core\n" + codecs.encode(IMAGE, "uu").decode()[15:], (NONE, 1, 2)),
    # other marks
    ("commas", lines(8, lambda at, part: f"{at:06X},{words(part, 1, ',')}"), (NONE, 1, 6)),
    ("an equals sign", lines(8, lambda at, part: f"{at:06X}={words(part, 4)}"), (NONE, 1, 6)),
    ("brackets", lines(8, lambda at, part: f"[{at:06X}] {words(part, 4)}"), (NONE, 1, 0)),
    ("offsets", lines(16, lambda at, part: f"+{at:04X} {words(part, 4)}"), (NONE, 1, 0)),
    ("tabs", lines(8, lambda at, part: f"{at:06X}\t{words(part, 1, chr(9))}"), READ),
    ("a table of Markdown", "| address | CCW |\n" + lines(8, lambda at, part: f"| {at:06X} | {words(part, 8)} |"), (NONE, 1, 0)),
    ("an indented text", re.sub("(?m)^", "    ", TYPED), READ),
    ("numbered lines", lines(8, lambda at, part: f"   1 {at:06X} {ccw(part)}"), (NONE, 1, 4)),
    # rulers, heads and quotes
    ("Format-Hex", f"\n           {RULER}\n\n" + lines(16, lambda at, part: f"{at:08X}   {words(part, 1)}  {characters(part)}"), READ),
    ("HxD", f"Offset(h) {RULER}\n\n" + lines(16, lambda at, part: f"{at:08X}  {words(part, 1)}  {characters(part)}"), READ),
    ("a ruler of words", "         0        4        8        C\n" + lines(16, lambda at, part: f"{at:06X}  {words(part, 4)}"), READ),
    ("tcpdump -X", lines(16, lambda at, part: f"\t0x{at:04x}:  {words(part, 2)}  {characters(part)}"), READ),
    ("Wireshark", lines(16, lambda at, part: f"{at:04x}   {words(part, 1)}   {characters(part)}"), READ),
    ("IPCS", lines(16, lambda at, part: f"{at:08X}  {words(part, 4)}  | {in_ebcdic(part)} |"), READ),
    ("a date above", "Date: 1969 12 31\n" + TYPED, READ),
    ("quoted mail", re.sub("(?m)^(?=.)", "> ", TYPED), READ),
    ("mail quoted twice", "Jim wrote:\n" + re.sub("(?m)^(?=.)", ">> ", TYPED), READ),
    ("mail quoted without a blank", re.sub("(?m)^(?=.)", ">", TYPED), (NONE, 1, 0)),
    ("HTML", f"<pre>\n{TYPED}</pre>\n", (LINE, 6, 0)),
    # other codes of characters
    ("UTF-16 with a mark", codecs.BOM_UTF16_LE + TYPED.encode("utf-16-le"), READ),
    ("UTF-16, the high byte first", codecs.BOM_UTF16_BE + TYPED.encode("utf-16-be"), READ),
    ("UTF-16 without a mark", TYPED.replace("\n", "\r\n").encode("utf-16-le"), READ),
    ("UTF-16 without a mark, the high byte first", TYPED.encode("utf-16-be"), READ),
    ("an ABEND dump in EBCDIC", "\n".join([*ABEND, ""]).encode("cp037").replace(b"\x25", b"\x15"), READ),
    ("an ABEND dump in EBCDIC, line feeds", "\n".join([*ABEND, ""]).encode("cp037"), READ),
    ("an ABEND dump in records", "".join(line.ljust(121) for line in ABEND).encode("cp037"), (ONE_LINE, 1, 0)),
    ("Latin-1", TYPED.replace("a CCW", "f\u00fcr").encode("latin-1"), READ),
    ("no-break blanks", TYPED.replace(" ", "\u00a0"), (NONE, 1, 6)),
    ("colours", re.sub(r"(?m)^(\w+)", "\x1b[1;32m\\1\x1b[0m", TYPED), READ),
    ("the end of a text of DOS", "\ufeff" + TYPED.replace("\n", "\r\n") + "\x1a", READ),
    ("form feeds", "\f" + TYPED.replace("\n", "\n\f", 1), READ),
    ("carriage returns alone", TYPED.replace("\n", "\r"), (ONE_LINE, 1, 0)),
    ("no line ends", TYPED.replace("\n", "  "), (ONE_LINE, 1, 0)),
    # slips of typing
    ("a letter in the first address", TYPED.replace("000800", "00O800", 1), (LIKE, 1, 0)),
    ("a letter in a later address", TYPED.replace("000810", "0008l0", 1), (LINE, 3, 0)),
    ("a letter in the only address", "00O800 31 000900 40 00 0005\n", (NONE, 1, 2)),
    ("blank lines", "  \n\n\t\n", (NONE, 1, 0)),
    # other texts of chanv
    ("what a program needs", "mask 40\nextent 012 012\nfetch 000900 000007\nkeep 000800 000020\n", (NONE, 1, 0)),
    ("prose", "The program seeks to cylinder 12 and reads a record.\n", (NONE, 1, 0)),
]
# what makes an image of a text
HELP = {
    **dict.fromkeys(["digits", "doublewords", "words of storage", "halfwords", "bytes", "CCWs"], "xxd -r -p makes an image of digits alone"),
    **dict.fromkeys(["S-records", "S-records with a head"], "objcopy -I srec -O binary makes an image of S-records"),
    "Intel hex": "objcopy -I ihex -O binary makes an image of Intel hex",
}
# forms of tools that aren't read; hexdump's and od's first lines are zeros
REFUSED_TOOLS = [
    *("od", "od -b", "od -c", "od -x", "od -d", "od -Ad -tx1", "od -to1", "od -tu1", "od -td4", "od -An -tx1"),
    *("hexdump", "hexdump -b", "hexdump -c", "hexdump -d", "hexdump -o", "hexdump -x"),
    *("xxd -p", "xxd -b", "xxd -e", "xxd -d", "xxd -i"),
]


def found_line(line):
    shown = "".join(chr(byte) if 0x20 <= byte < 0x7F else f"\\x{byte:02X}" for byte in line)
    return shown if len(shown) <= 60 else None


def check(checks, built):
    program = built.chanv()
    expected = bytes(AT) + IMAGE + bytes(0x1000 - AT - SIZE)
    for name, text, why in CASES:
        given = text.encode() if isinstance(text, str) else text
        ran = run(program, *OPEN, given=given)
        if why is READ:
            seen = taken_apart(ran.output)[1] if ran.status == 0 else ran.error
            checks.expect(f"{name} is read", expected, seen)
            continue
        reason, number, column = why
        refused = rf"chanv: dump line {number}: {re.escape(reason)}\nfound (.*)\n( +)\^\n"
        refused += "" if reason == LINE else r"expected a line such as (.*), or --raw if .*\n"
        refused += re.escape(f"help: {HELP[name]}\n") if name in HELP else ""
        match = re.fullmatch(refused, ran.error)
        checks.expect_that(f"{name} is refused", ran[:2] == (2, "") and match, ran)
        if match and (line := found_line(given.split(b"\n")[number - 1].rstrip())):
            checks.expect(f"{name}, the line", line, match[1])
            shown = match[1].encode().decode("unicode_escape") if "\\x" not in line else line
            checks.expect(f"{name}, the caret", 6 + column, len(match[2])) if shown == line else None
        ran = run(program, "find", "--device", "2314", given=given)
        checks.expect(f"{name} isn't searched", 2, ran.status)
    for tool in REFUSED_TOOLS:
        if not shutil.which(tool.split()[0]):
            checks.skip(tool, f"no {tool.split()[0]}")
            continue
        for size, image in [("long", CORE), ("short", CORE[AT : AT + 16])]:
            dump = run(*tool.split(), given=image).output.encode()
            ran = run(program, *OPEN, given=dump)
            if (size, tool) != ("short", "xxd -d"):
                checks.expect(f"the {size} image by {tool} is refused", (2, ""), ran[:2])
