"""What comes of an input of the command line, by the README and docs/, and inputs of each kind.

The answers over decks are the files next to them in examples/. The commands add the input's name,
notes and help, or say what is wrong with an input that isn't a deck.
"""

import os
import re

from building import HERE
from cures import said_beside, said_openly
from examples import EXAMPLES, SEARCH_LOOP, TEXTS, listed_with, picture_of, status_of
from examples import status_of_needs, verdicts_of
from find import NONE_FOUND
from model import limit_line
from needs import NO_JOB, least_lines
from running import Ran, text_of

MOST_BYTES = 67_108_864
ENDINGS = {it: it for it in ("list", "why", "needs")}
ENDINGS |= {"why --all": "all", "graph": "dot", "needs --deck": "needs"}

# files of a folder of inputs, and the example that each is; `vain` has areas lent in vain
DECKS = {
    "yes": SEARCH_LOOP,
    "noted": EXAMPLES / "trips.deck",
    "no": EXAMPLES / "chained-and-fresh.deck",
    "changes": EXAMPLES / "changes-itself.deck",
    "end": EXAMPLES / "end-of-storage.deck",
    "vain": TEXTS / "lent-in-vain.deck",
    "folder/-": SEARCH_LOOP,
}
WIDE = """\
   address   entered  flags   data            command              does
   000800    fresh    -C---0  000900-000904   search-id-equal      start, fetches 5 bytes, until found (cylinder 0, head 0, record 0)
   000808    fresh    -----0  -> 000800       transfer-in-channel
   000810    fresh    --L--0  000A00-000A4F   read-data            stores 80 bytes, SLI
yes
"""
FOUND = "000800 no 000818 changes-argument 4 CCWs: seek, search-id-equal, read-data\n"
MASK_HINT = "found mask\n          ^\nexpected mask XX, where X is 0-9 or A-F\n"
ENDED_HINT = "found the end of the text\nexpected chanv deck 1, chanv deck 2\n"

# The other inputs: the status, what is said, and what is added by `why`, and over a named FILE that
# isn't a deck by all. `closed` is standard input that is closed, and there is no `nowhere`.
REFUSED = {
    "damaged": (2, "deck line 3: form\n", MASK_HINT),
    "empty": (2, "deck line 1: ended\n", ENDED_HINT),
    "no right": (2, "deck line 1: ended\n", ENDED_HINT),
    "many": (2, "too many places\n", f"{limit_line(2)}\n"),
    "long": (2, "deck too long\n", ""),
    "folder": (3, "read failed: it is a folder\n", ""),
    "nowhere": (3, "cannot open: no such file\n", ""),
    "closed": (3, "read failed\n", ""),
}


def make_inputs(folder):
    """A file for each input, in an empty folder, an image of storage, `core`, and a file `help`."""
    deck = text_of(SEARCH_LOOP)
    (folder / "folder").mkdir()
    for name, example in DECKS.items():
        (folder / name).write_bytes(example.read_bytes())
    (folder / "damaged").write_text(deck.replace("\nmask 00\n", "\nmask\n"))
    limited = deck.replace("\nextent", "\nlimit 00002\nextent")
    (folder / "many").write_text(limited.replace("deck 1", "deck 2"))
    (folder / "core").write_bytes((EXAMPLES / "core.bin").read_bytes())
    for name in ("empty", "no right", "long", "help"):
        (folder / name).touch()
    os.truncate(folder / "long", MOST_BYTES + 1)


def refused(action, fault, name, is_among=False):
    """What comes of an input without an answer; among several its name is before each line."""
    status, said, hint = fault
    if name in (None, "-"):
        said = said.replace(": it is a folder", "")
    front = "" if name is None else f"{name}: "
    is_limit = hint.startswith("the limit")
    told = ("why", "graph", "needs") if is_limit else ("why", "graph")
    if name is None and action.split()[0] not in told:
        hint = ""
    if is_among:
        hint = "".join(f"{front}{line}\n" for line in hint.splitlines())
    return Ran(status, "", f"chanv: {front}{said}{hint}")


def is_told(action, deck):
    """Whether it is known what a command writes of a deck."""
    if action == "list --wide":
        return deck == SEARCH_LOOP
    is_yes = verdicts_of(deck.parent)[deck.name] == "yes"
    is_verdict = action == "verify" or is_yes and action.startswith("why")
    return is_verdict or ENDINGS[action] in listed_with(deck)


def text_by(action, deck, name):
    """What a command writes of a deck, without what names the deck before it."""
    if action == "graph":
        return picture_of(deck, "" if name in (None, "-") else name)
    if action == "list --wide":
        return WIDE
    text = f"{verdicts_of(deck.parent)[deck.name]}\n"
    if ENDINGS.get(action) in listed_with(deck):
        text = text_of(deck.with_suffix(f".{ENDINGS[action]}"))
    if action == "needs --deck" and status_of_needs(text) == 0:
        return "".join(f"{line}\n" for line in least_lines(text_of(deck), text.splitlines()))
    return text


def answer(action, given, name=None, is_among=False):
    """What comes of an input, which has a name, or is standard input alone."""
    if given not in DECKS:
        return refused(action, REFUSED.get(given, REFUSED["nowhere"]), name, is_among)
    deck, command, error = DECKS[given], action.split()[0], ""
    text, status = text_by(action, deck, name), status_of(verdicts_of(deck.parent)[deck.name])
    if command == "needs":
        status = status_of_needs(text)
        said = NO_JOB + said_openly(text_of(deck)) if status else ""
        if status and action == "needs --deck":
            said, text = text + said, ""
        front = f"{name}: " if is_among else ""
        error = "".join(f"{front}{line}" for line in said.splitlines(keepends=True))
    if command == "why":
        error = said_beside(deck, name or "", is_among)
    if command in ("verify", "why") and name is not None:
        text = f"{name}: {text}"
    if command in ("list", "needs") and is_among:
        text = f"{name}:\n{text}"
    return Ran(status, text, error)


def of_image(action, image, name=None):
    """What comes of an image of storage. One of no bytes makes a deck without storage, and has no
    program; `long` is longer than storage may be too."""
    if image not in ("core", "empty"):
        fault = (2, "image too long\n", "") if image == "long" else REFUSED[image]
        return refused(action, fault, name)
    empty = "" if image == "core" else "note: the image is empty\n"
    if action == "find":
        return Ran(0, FOUND) if image == "core" else Ran(0, "", empty + NONE_FOUND)
    deck = text_of(EXAMPLES / "changes-argument.deck")
    bare = re.sub("(?s)storage .*end", "storage 0000000\nend", deck)
    return Ran(0, deck if image == "core" else bare, empty)


def answers(action, names, given):
    """What comes of each of the inputs, among which `-` is standard input, or of it alone. Standard
    input that was read to its end is empty."""
    if names in ([], ["-"]):
        return [answer(action, given)]
    parts = []
    for name in names:
        parts.append(answer(action, given if name == "-" else name, name, len(names) > 1))
        given = "empty" if name == "-" and given != "closed" else given
    return parts


def whole(parts):
    """What comes of all the parts of a run."""
    outputs, errors = zip(*[(part.output, part.error) for part in parts])
    return Ran(max(part.status for part in parts), "".join(outputs), "".join(errors))


def texts_of_help():
    """What stands in help.txt behind each line with a dollar, by that line's words."""
    pieces = re.split(r"(?m)^\$ chanv (.*)\n", text_of(HERE / "help.txt"))[1:]
    return {words: f"{text.rstrip()}\n" for words, text in zip(pieces[::2], pieces[1::2])}


def helps():
    """Each way to ask for the help of the program or of a command, with its text."""
    for words, text in texts_of_help().items():
        command = words.removeprefix("help ")
        ways = [words, f"{command} --help", f"{command} -h"] if command != "help" else [words]
        if words == "--help":
            ways = ["--help", "-h", "help", "--help x", "help --help", "help -h"]
        yield from [(way.split(), text) for way in ways]
