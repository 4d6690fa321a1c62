"""Decks that are refused: the line and the cause, and what `why` says of the line.

They are those of rows/refused_decks.txt, and the search loop's deck, damaged. Each front of its 205
bytes is refused as `ended`, at the line that is one more than its number of line feeds. Each byte
replaced by `~` is refused at its own line: the first thirteen as `header`, the last as `ended`, and
each other as `form`. By docs/OUTPUT.md `why` expects a line feed or the forms that may come, and
the conditions that it expects are those of the page.
"""

import re

from building import ROOT
from examples import SEARCH_LOOP, TEXTS
from rows import Row, bytes_of, check_rows, sections_of
from running import Ran, text_of

DECKS = {"version 1": text_of(SEARCH_LOOP), "version 2": text_of(TEXTS / "deck-two.deck")}

# the forms by their first words, each with its pattern
PATTERNS = {
    "chanv": "chanv deck 1, chanv deck 2",
    "device": "device 2311, device 2314",
    "mask": "mask XX, where X is 0-9 or A-F",
    "start": "start XXXXXX, where X is 0-9 or A-F",
    "extent": "extent NNN NNN, where N is 0-9",
    "fetch": "fetch XXXXXX XXXXXX, where X is 0-9 or A-F",
    "store": "store XXXXXX XXXXXX, where X is 0-9 or A-F",
    "storage": "storage XXXXXXX, where X is 0-9 or A-F",
    "put": "put XXXXXX XXXXXXXXXXXXXXXX, where X is 0-9 or A-F",
    "end": "end",
}

# the forms that may come at each line of the search loop's deck
MAY_COME = [[form] for form in ("chanv", "device", "mask", "start", "extent")]
MAY_COME += [["extent", "fetch", "store", "storage"], ["fetch", "store", "storage"]]
MAY_COME += [["store", "storage"], *[["put", "end"]] * 4]

# a byte of a line as it is shown, and what a letter of a pattern stands for
SHOWN = re.compile(r"\\x[0-9A-F]{2}|.")
DIGITS = {"X": "0123456789ABCDEF", "N": "0123456789"}


def fitting(pattern, letters):
    """How many first letters of a line, whose last blank is escaped, are as a pattern has them."""
    for at, letter in enumerate(letters):
        letter = " " if letter == "\\x20" else letter
        if at == len(pattern) or letter not in DIGITS.get(pattern[at], pattern[at]):
            return at
    return len(letters)


def caret_under(found, expected, cause):
    """The line with a caret under the first wrong character of what was found, if it has a form at
    all and the one form that may come there, or that the line begins like, has another."""
    forms = [form for form in expected.split("; ")[0].split(", ") if "where" not in form]
    are_words = len(forms) > 1 and not any(" " in form for form in forms)
    is_text = not found.startswith(("the end of the text", "an empty line"))
    if cause not in ("form", "header") or are_words or not is_text or expected.startswith("a deck"):
        return ""
    letters = SHOWN.findall(found.removesuffix(" .."))
    at = max(fitting(form, letters) for form in forms)
    if found.endswith(" ..") and at == len(letters):
        return ""
    return " " * len("found " + "".join(letters[:at])) + "^\n"


def refusal(line, cause):
    return f"chanv: deck line {line}: {cause}\n"


def hint(found, caret, expected):
    return f"found {found}\n{caret}expected {expected}\n"


def replaced(name):
    """The decks of a section in which a text gives way to another, each with its refusal."""
    for place, old, *new in sections_of("refused_decks.txt")[name]:
        old, new = bytes_of(old), bytes_of("".join(new))
        yield DECKS[name].encode().replace(old, new, 1), refusal(*place.split())


def hinted(name, lines=()):
    """The texts of a section after some lines of a deck, each with its refusal and its hint."""
    for place, spelled, *found, expected in sections_of("refused_decks.txt")[name]:
        line, cause = place.split()
        text = "".join(lines[: int(line) - 1]).encode() + bytes_of(spelled)
        shown = spelled.removesuffix("\\n").rpartition("\\n")[2]
        if name == "carets":
            caret = " " * (len("found ") + int(found[0])) + "^\n"
        else:
            [shown] = found or [shown]
            caret = caret_under(shown, expected, cause)
        yield text, refusal(line, cause), hint(shown, caret, expected)


def damaged(deck):
    """Each damaged deck, with the line at which it is refused, and the cause."""
    for front in (deck[:length] for length in range(len(deck))):
        yield front, front.count(b"\n") + 1, "ended"
    for at in range(len(deck)):
        text = deck[:at] + b"~" + deck[at + 1 :]
        cause = "header" if at < 13 else "ended" if at == len(deck) - 1 else "form"
        yield text, deck[:at].count(b"\n") + 1, cause


def hint_on(line, piece, cause):
    """What `why` says of a piece of a line of the search loop's deck."""
    forms = MAY_COME[line - 1]
    begun = [form for form in forms if piece.split(" ")[0] == form]
    expected = PATTERNS[(begun or forms)[0]] if begun or len(forms) == 1 else ", ".join(forms)
    if cause == "ended" and piece:
        expected = "a line feed at the end of this line"
    found = re.sub(" $", r"\\x20", piece) or "the end of the text"
    return hint(found, caret_under(found, expected, cause), expected)


def refused():
    """Each deck that is refused, with its refusal, and its hint if it is known."""
    for name, deck in DECKS.items():
        yield from ((text, said, None) for text, said in replaced(name))
        *lines, _last_put, end = deck.splitlines(keepends=True)
        yield from hinted(f"after {name}", [*lines, end])
    yield from [*hinted("no deck"), *hinted("carets")]
    for deck, line, cause in damaged(SEARCH_LOOP.read_bytes()):
        piece = (deck.decode().split("\n") + [""])[line - 1]
        yield deck, refusal(line, cause), hint_on(line, piece, cause)


def rows():
    """Each command says the same; `why` and `graph` add the hint. Nothing is written."""
    for text, said, beside in refused():
        for action in ("verify", "list", "needs"):
            yield Row([action], Ran(2, "", said), text)
        for action in ("why", "graph") if beside else ():
            yield Row([action], Ran(2, "", said + beside), text)
    # a deck in UTF-16 is named as such, with a byte-order mark and without
    said = "expected a deck in ASCII; this text is in UTF-16\n"
    error = re.compile(f"{refusal(1, 'header')}found .+\n{said}")
    for order, mark in (("utf-16-le", b"\xff\xfe"), ("utf-16-be", b"\xfe\xff")):
        for front in (b"", mark):
            yield Row(["why"], Ran(2, "", error), front + DECKS["version 1"].encode(order))


# a row of OUTPUT's table on `expected` that is about one cause, and what stands for a value there
CONDITION = r"(?m)^\| `([a-z-]+)` \| (.*) \|$"
VALUES = {"ADDRESS": "[0-9A-F]{6}", "SSSSSSS": "[0-9A-F]{7}", "NNNN": r"\d+"}


def conditions():
    """The texts that OUTPUT has for each cause that is a condition, as patterns."""
    page = text_of(ROOT / "docs/OUTPUT.md").partition("\n### A text that isn't a deck\n")[2]
    for cause, said in re.findall(CONDITION, page.partition("\n## ")[0]):
        texts = [re.escape(text) for text in re.findall("`([^`]+)`", said)]
        yield cause, [re.sub("|".join(VALUES), lambda it: VALUES[it[0]], it) for it in texts]


def check_conditions(checks):
    """What is expected by the rows is what OUTPUT says, and each of its texts is."""
    sections, told = sections_of("refused_decks.txt"), dict(conditions())
    every = [row for name in ("no deck", "after version 2") for row in sections[name]]
    expected = {(row[0].split(" ")[1], row[-1]) for row in every}
    checks.expect("how many causes have a condition", 8, len(told))
    for cause, texts in told.items():
        found = {text for other, text in expected if other == cause}
        for text in found:
            fits = any(re.fullmatch(pattern, text) for pattern in texts)
            checks.expect_that(f"OUTPUT on {cause}: {text}", fits, texts)
        for pattern in texts:
            comes = any(re.fullmatch(pattern, text) for text in found)
            checks.expect_that(f"a row on {cause}: {pattern}", comes, found)


def check(checks, built):
    check_conditions(checks)
    check_rows(checks, built.chanv(), rows())
