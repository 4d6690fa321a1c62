"""The decks of examples/ and of examples/cases/, which most tests go through, and of texts/."""

from functools import cache

from building import ROOT
from running import text_of

EXAMPLES = ROOT / "examples"
FOLDERS = (EXAMPLES, EXAMPLES / "cases")

# decks that are there for the texts next to them
TEXTS = EXAMPLES / "texts"

SEARCH_LOOP = EXAMPLES / "search-loop.deck"
CHANGES_ITSELF = EXAMPLES / "changes-itself.deck"
CHANGES_BOTH = EXAMPLES / "changes-both.deck"

# A reader who follows the README leaves this in examples/. Git and the tests ignore it.
MADE_BY_READERS = "dump.deck"


def decks_of(folder):
    """The paths of a folder's decks, by name."""
    return sorted(path for path in folder.glob("*.deck") if path.name != MADE_BY_READERS)


@cache
def rows_of(folder):
    """The rows of the folder's verdicts.txt: deck, verdict, the endings of the files that have its
    other answers or `-`, and in cases/ what it shows."""
    return [line.split("\t") for line in text_of(folder / "verdicts.txt").splitlines()]


def verdicts_of(folder):
    """The verdict of each deck."""
    return {row[0]: row[1] for row in rows_of(folder)}


def listed_with(deck):
    """The endings of the files that its folder's verdicts.txt lists with a deck."""
    [row] = [row for row in rows_of(deck.parent) if row[0] == deck.name]
    return [] if row[2] == "-" else row[2].split(" ")


def status_of(verdict):
    return 0 if verdict == "yes" else 1


def status_of_needs(text):
    """Where no job will do, the text begins as an explanation does, and else with a mask."""
    return 1 if text.startswith("no ") else 0


def picture_of(deck, name):
    """What `chanv graph` draws of a deck, with this name in its title, or without one for `""`."""
    title = f'  graph [label="{name}: ' if name else '  graph [label="'
    return text_of(deck.with_suffix(".dot")).replace('  graph [label="', title, 1)


def taken_apart(text):
    """The options of a deck's job, and its storage."""
    words, storage = [], bytearray()
    for line in text.splitlines():
        match line.split():
            case ["device" | "mask" | "start" | "limit" as name, value]:
                words += [f"--{name}", value]
            case ["extent", first, last]:
                words += ["--extent", f"{first}-{last}"]
            case ["fetch" | "store" as name, start, length]:
                words += [f"--{name}", f"{start}+{length}"]
            case ["storage", size]:
                storage = bytearray(int(size, 16))
            case ["put", address, digits]:
                storage[int(address, 16) : int(address, 16) + 8] = bytes.fromhex(digits)
    return words, bytes(storage)
