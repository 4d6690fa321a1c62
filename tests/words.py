"""`chanv explain` writes what the tables of `words.rt` say of each word.

A row there begins with a line for its word, in the order in which `chanv explain` alone lists the
words. Further lines explain the word at length; `chanv explain WORD` writes these, or else the
line, in any case of the word's letters. The words explained at length are the reasons of the table
in docs/VERDICT.md, the causes of the table in docs/DECK.md, and the failures of the table in
docs/OUTPUT.md, in this order, and last a deck, which is judged yes. The commands of docs/DEVICE.md
are words too, each with its code.
Each word that `verify`, `list`, `why`, `needs`, `graph` or `find` writes about an example is known,
and so are codes, the names of further codes, masks, and flags as a row shows them. Any other word
is refused, and the nearest is named. Several words that aren't a phrase are explained in turn. And
`chanv why` gives the cause of each example deck's no in a form that the row of its reason in
docs/OUTPUT.md shows; each reason has an example.
"""

import re

from building import ROOT, short
from causes import FURTHER
from examples import FOLDERS, TEXTS, taken_apart, verdicts_of
from running import Ran, run, text_of

WORDS = ROOT / "crates/chan_deck/src/words.rt"
OUTPUT = ROOT / "docs/OUTPUT.md"
# the page of each table of words, the heading over it, and how a row begins
TABLES = [
    ("VERDICT.md", "The rules", r"\| \d+ \| `([a-z-]+)` \|"),
    ("DECK.md", "How a text is refused", r"\| `([a-z-]+)` \| (?!may)"),
    ("OUTPUT.md", "Lines in place of an answer", r"\| `([a-z-]+)` \| `[a-zA-Z :;.]+` \| \d \|"),
]

# a row of its tables: the line, the word in it, and the lines that explain the word at length
ROW = r'(?m)^    "((\S.*?): .*?)(?:\n((?:\S.*\n)*?\S.*?))?",$'

# how the line on a word without a meaning ends
LISTS_ALL = "chanv explain lists all words"

# words that have no meaning, and the nearest
UNKNOWN = {
    "": "",
    "changes": "",
    "changes-ccw ": "changes-ccw",
    "CHANGES-CWC": "changes-ccw",
    "too many place": "too many places",
    "reached  by": "reached by",
    "put-aero": "put-zero",
    "7": "",
    "007": "",
    "0g": "",
    "mask 9": "",
    "mask 098": "",
    "daek-outside": "data-outside",
    "serch-id-equal": "search-id-equal",
    "WRIT-DATA": "write-data",
    "write-key-data-m": "write-key-data",
    "read-count-key-data-m": "read-count-key-data-mt",
    "kep": "keep",
    "seek-mt": "",
    "restor": "",
    "musk 98": "",
    "mask  98": "",
    "x" * 100_000: "",
}

# words of wide listings, pictures and `find` that mean what they mean anywhere, and two marks
PLAIN = ["->", "seeks", "sets", "until", "if", "over", "at", "byte", "bytes", "CCWs"]
# words that have to be among those of an answer, so that none is overlooked
SOME_OF = {
    "why FILE": {"changes-argument", "short-seek"},
    "list --wide": {"no-ccw", "stores", "cylinder", "mask", "changes-argument", "C", "search"},
    "graph": {"chained", "fetches", "cylinder", "TIC", "stored over by", "changes-ccw", "found"},
    "find": {"yes", "no", "changes-argument", "search-id-equal", "read-data"},
}

# what begins a line of an answer whose rest is a sentence, and what numbers and flags are
PHRASES = ["because", "stored over by", "stores over for the next run", "reached by", "note"]
PHRASES += ["help", "found", "expected"]
NUMBER, FLAGS = re.compile(r"[0-9A-F]{2,8}|\d+"), re.compile(r"[D-][C-][L-][S-][P-][0-7]")

# what stands for a value in the form of a cause
VALUES = {
    "DATA": r"[0-9A-F]{6,8}(?:-[0-9A-F]{6,8})?",
    "A-B": r"[0-9A-F]{6,8}(?:-[0-9A-F]{6,8})?",
    "ADDRESS": r"[0-9A-F]{6,8}",
    "BYTE": r"[0-9A-F]{6}",
    "BYTES": r"(?:[0-9A-F]{2})+",
    "RANGES": r"[0-9A-F]{6}(?:-[0-9A-F]{6})?(?:, [0-9A-F]{6}(?:-[0-9A-F]{6})?)*",
    "HHHH": r"[0-9A-F]{4}",
    "HH": r"[0-9A-F]{2}",
    "NAME": r"[a-z-]+",
    "N": r"[0-9A-F]+",
    "M": r"\d+",
}
VALUE = re.compile(r"\b(?:" + "|".join(VALUES) + r")\b")


def words_under(page, heading, row):
    """The words of the table under a heading of a page, up to the next heading."""
    section = text_of(ROOT / "docs" / page).partition(f"\n## {heading}")[2].partition("\n## ")[0]
    table = re.search(f"(?m)(?:^{row}.*\n)+", section)
    return re.findall(f"(?m)^{row}", table[0] if table else "")


def meanings():
    """What `chanv explain` writes about each word."""
    return {word: f"{more or line}\n" for line, word, more in re.findall(ROW, text_of(WORDS))}


def causes_of(page):
    """The forms of each reason's cause, as patterns."""
    table = page.partition("\n### Causes\n")[2].partition("\n### ")[0]
    for word, said in re.findall(r"(?m)^\| `([a-z-]+)` \| (.*) \|$", table):
        forms = re.findall(r"`(because [^`]+)`", said)
        plain = [re.sub(r"[()]", r"\\\g<0>", form) for form in forms]
        yield word, [VALUE.sub(lambda found: VALUES[found[0]], form) for form in plain]


def check_causes(checks, program, causes):
    shown = set()
    for folder in (*FOLDERS, TEXTS):
        for name, verdict in verdicts_of(folder).items():
            if verdict == "yes":
                continue
            word, forms = verdict.split(" ")[2], causes.get(verdict.split(" ")[2], [])
            lines = run(program, "why", given=folder / name).output.splitlines()
            causing = [line for line in lines if line.startswith("because ")]
            has_form = any(re.fullmatch(form, line) for form in forms for line in causing)
            checks.expect_that(f"the cause of {short(folder / name)}", has_form, causing)
            shown.add(word)
    checks.expect("the reasons that an example has", sorted(causes), sorted(shown))


# the code at the end of a command's line, the columns of the table of commands, and of the two
# tables of masks
CODE = r" \(code ([0-9A-F]{2})\)$"
CLASS = r"(?m)^\| `([0-9A-F]{2})` \| (?:`([0-9A-F]{2})` )?\| `([a-z-]+)` \| \w+ \| (\w+) \|"
BITS = r"(?m)^\| `([0-9A-F]{2})` \| (none|\w+(?:, \w+)*) \|$"

# codes of no command of the table, and what is said of them after their group
OTHER_CODES = {
    "00": "invalid, no command, because the low four bits are zero",
    "F0": "invalid, no command, because the low four bits are zero",
    "02": "read, read-ipl: not in the table of commands that chanv knows",
    "0F": "control, space-count: not in the table of commands that chanv knows",
    "b4": "sense, reserve: not in the table of commands that chanv knows",
    "0C": "read-backward, not in the table of commands that chanv knows",
    "08": "transfer, {transfer}; no mask inhibits it",
    "f8": "transfer, {transfer}; no mask inhibits it",
}
NAMED_OUTSIDE = r"(?m)^(\w\w): group [a-z-]+, ([a-z-]+): not in the table of commands"
NO_MASKS = {"20": "20", "ff": "FF", "01": "01"}


def inhibited_by(page):
    """The classes that each choice of the bits C0 and of the bits 18 inhibits."""
    rows = re.findall(BITS, page.partition("mask bits `C0`")[2].partition("A mask inhibits")[0])
    each = [(int(bits, 16), set(named.split(", ")) - {"none"}) for bits, named in rows]
    return each[:4], each[4:]


def group_of(code):
    """The word of the group of a code, by the table of docs/DEVICE.md."""
    last = {0: "invalid", 4: "sense", 8: "transfer", 12: "read-backward"}
    return last[code % 16] if code % 4 == 0 else ["", "write", "read", "control"][code % 4]


def check_codes(checks, program, meanings):
    """A command code is a word, as are the name of a further code and `mask` with a byte."""
    page = text_of(ROOT / "docs/DEVICE.md")
    writes, seeks = inhibited_by(page)
    classes, commands = {}, {}
    for code, mt, name, of_class in re.findall(CLASS, page):
        classes[int(code, 16)] = name, of_class
        bits = [
            (which, [f"{byte:02X}" for byte, named in each if of_class in named])
            for which, each in (("C0", writes), ("18", seeks))
        ]
        said = "no mask inhibits it"
        for which, those in bits:
            if those:
                front = ", ".join(those[:-1]) + " or " if those[1:] else ""
                said = f"a mask inhibits it if its bits {which} are {front}{those[-1]}"
        commands[code] = name, said
        if mt:
            commands[mt] = f"{name}-mt", said
    listed = {code: word for word, said in meanings.items() for code in re.findall(CODE, said)}
    checks.expect("the commands", {code: name for code, (name, _) in commands.items()}, listed)
    for code, (name, said) in commands.items():
        does = re.sub(CODE, "", meanings[name]).rstrip("\n")
        line = f"{code}: group {group_of(int(code, 16))}, {does}; {said}\n"
        checks.expect(code, Ran(0, line), run(program, "explain", code.lower()))
    transfer = meanings["transfer-in-channel"].partition(" (codes")[0]
    for code, said in OTHER_CODES.items():
        line = f"{code.upper()}: group {said.format(transfer=transfer)}\n"
        checks.expect(code, Ran(0, line), run(program, "explain", code))
    seen = run(program, "explain", *(f"{code:02X}" for code in range(256))).output
    names = {int(code, 16): f" ({name})" for code, name in re.findall(NAMED_OUTSIDE, seen)}
    for code in sorted({*names, *FURTHER}):
        about = f"the row of {code:02X} under Further codes of docs/OUTPUT.md"
        checks.expect(about, names.get(code), FURTHER.get(code))
    for code, named in FURTHER.items():
        name = named[2:-1]
        said = f"group {group_of(code)}, {name}: not in the table of commands that chanv knows"
        for word in (f"{code:02X}", name, name.upper()):
            checks.expect(word, Ran(0, f"{code:02X}: {said}\n"), run(program, "explain", word))
    for write, of_writes in writes:
        for seek, of_seeks in seeks:
            those = of_writes | of_seeks
            names = [name for _, (name, it) in sorted(classes.items()) if it in those]
            line = f"mask {write | seek:02X}: inhibits {', '.join(names) or 'no command'}\n"
            for word in ("mask {:02x}", "MASK {:02X}"):
                word = word.format(write | seek)
                checks.expect(word, Ran(0, line), run(program, "explain", word))
    for byte, shown in NO_MASKS.items():
        line = f"mask {shown}: isn't a file mask; only the bits C0 and 18 may be on\n"
        checks.expect(f"mask {byte}", Ran(0, line), run(program, "explain", f"mask {byte}"))


def words_of(text):
    """The words of an answer: phrases that begin a line, and else all but numbers."""
    for line in text.splitlines():
        phrase = next((phrase for phrase in PHRASES if line.startswith(phrase)), "")
        # the text of a key has words of its own
        line = re.sub(r"\(key '[^']*'\)", "key", line)
        parts = re.sub(r"[(),]", "", line).split(" ")
        flags = "".join(part for part in parts if FLAGS.fullmatch(part)).strip("01234567")
        words = [part for part in parts if not NUMBER.fullmatch(part) and not FLAGS.fullmatch(part)]
        yield from [phrase] if phrase else [*words, *flags]


def words_of_wide(text):
    """The words of the rows of a wide listing, and of the verdict."""
    for line in text.splitlines()[1:]:
        yield from words_of(re.sub(r"[:]|(?<=[0-9A-F])-(?=[0-9A-F])", " ", line))


def words_of_picture(text):
    """The words of the rows of boxes, reasons, phrases that are alone in a line, and the labels of
    arrows; a cause, which is a sentence, is indented."""
    for cell in re.findall(r"<td[^>]*>([^<]*)</td>", text):
        cell = cell.replace("&#160;", " ")
        if re.match(r"[0-9A-F]{6,} ", cell):
            row, over, _ = cell.partition("stored over by")
            yield from [over] if over else []
            yield from words_of(re.sub(r"(?<=[0-9A-F])-(?=[0-9A-F])", " ", row))
        elif not cell.startswith(("  ", "... ")):
            yield cell.removesuffix(":")
    for label in re.findall(r' label=" ([^"]*) "', text):
        yield from words_of(label)


def words_of_found(text):
    """The words of the lines of `find`."""
    for line in text.splitlines():
        is_large = line.endswith(" too many places")
        yield from ["too many places"] if is_large else words_of(line.replace(":", ""))


def words_of_help(text):
    """The words that lines of help lead to."""
    return re.findall(r"(?m)^help: chanv explain (.*)$", text)


def printed(program, path):
    """Each word that an answer about a deck has, with what it is in."""
    for command in ("verify", "list", "why", "why --all", "needs"):
        ran = run(program, *command.split(" "), given=path)
        yield command, [*words_of(ran.output), *words_of(ran.error)]
    yield "why FILE", words_of_help(run(program, "why", path).error)
    yield "list --wide", words_of_wide(run(program, "list", "--wide", given=path).output)
    yield "graph", words_of_picture(run(program, "graph", given=path).output)
    storage = taken_apart(text_of(path))[1]
    yield "find", words_of_found(run(program, "find", "--device", "2314", given=storage).output)


def check_printed(checks, program):
    """Each word that an answer about an example has is one that is explained."""
    found, whence = {}, {}
    for folder in (*FOLDERS, TEXTS):
        for name in verdicts_of(folder):
            for command, words in printed(program, folder / name):
                for word in filter(None, words):
                    found.setdefault(word, f"{command} {name}")
                    whence.setdefault(command, set()).add(word)
    some = {"because", "reached by", "stored over by", "never ends by itself", "TIC", "changes-ccw"}
    checks.expect_that("some phrases are found", some <= set(found), found)
    for command, some in SOME_OF.items():
        checks.expect_that(f"some words of {command}", some <= whence[command], whence[command])
    for word in PLAIN:
        checks.expect_that(f"{word} is printed", word in found, found)
        found.pop(word, None)
    for word, where in found.items():
        ran = run(program, "explain", "--", word)
        checks.expect_that(f"{word}, from {where}", ran.status == 0 and ran.output, ran)


def check_flags(checks, program, meanings):
    """Flags as a row shows them are a word: each letter has its name."""
    flags = {it: re.search(r"the flag (.*?) \(", meanings[it])[1] for it in "DCLSP"}
    for byte in range(256):
        letters = "".join(it if byte & 0x80 >> at else "-" for at, it in enumerate(flags))
        low, word = byte % 8, f"{letters}{byte % 8}"
        parts = [f"{it} {name}" for it, name in flags.items() if it in letters]
        parts += [f"{low} low bits, which must be zero"] if low else []
        line = f"{word}: {'; '.join(parts) or 'no flag is on'}\n"
        checks.expect(word, Ran(0, line), run(program, "explain", "--", word))
    line = "-CL--0: C chain command; L suppress length indication\n"
    checks.expect("-CL--0 alone", Ran(0, line), run(program, "explain", "-CL--0"))
    unlike = [f"{'-' * at}X{'-' * (4 - at)}0" for at in range(len(flags))]
    for word in ("-CL--8", "-CL---", "CD---0", "-CL-0", "-cl--0", "-CL--00", "DCLSP", *unlike):
        ran = run(program, "explain", "--", word)
        checks.expect(f"{word}, which isn't flags", (4, ""), (ran.status, ran.output))


def check_several(checks, program, explained):
    """Words that aren't one phrase are explained in turn, and each line on a word names it."""
    ran = run(program, "explain", *explained)
    checks.expect("all words at once", Ran(0, "".join(explained.values())), ran)
    first, *_, last = explained
    for word, nearest in UNKNOWN.items():
        near = f"the nearest is {nearest}, and " if nearest else ""
        said = f"chanv: {word}: no such word; {near}{LISTS_ALL}\n"
        refused = Ran(4, explained[first] + explained[last], said)
        ran = run(program, "explain", first, word, last)
        checks.expect(f"'{word[:20]}' among others", refused, ran)


def check(checks, built):
    program, explained, listed = built.chanv(), meanings(), []
    rows = re.findall(ROW, text_of(WORDS))
    for table in TABLES:
        words = words_under(*table)
        checks.expect_that(f"the table of {table[0]} has words", words, words)
        listed += words
    at_length = [word for _, word, more in rows if more]
    wanted = [*listed, "deck"]
    checks.expect("the words of the tables, and those explained at length", wanted, at_length)
    [deck] = re.findall(r"(?s)chanv deck 1\n.*", run(program, "explain", "deck").output)
    judged = run(program, "verify", given=deck.encode())
    checks.expect("the deck of explain deck", Ran(0, "yes\n"), judged)
    for word, meaning in explained.items():
        checks.expect(word, Ran(0, meaning), run(program, "explain", word))
        checks.expect(word.upper(), Ran(0, meaning), run(program, "explain", word.upper()))
    lines = "".join(f"{line}\n" for line, *_ in rows)
    checks.expect("the list of words", Ran(0, lines), run(program, "explain"))
    for word, nearest in UNKNOWN.items():
        near = f"the nearest is {nearest}, and " if nearest else ""
        refused = Ran(4, "", f"chanv: no such word; {near}{LISTS_ALL}\n")
        checks.expect(f"'{word[:20]}'", refused, run(program, "explain", word))
    check_several(checks, program, explained)
    check_printed(checks, program)
    check_flags(checks, program, explained)
    check_codes(checks, program, explained)
    check_causes(checks, program, dict(causes_of(text_of(OUTPUT))))
