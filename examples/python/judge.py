#!/usr/bin/env python3
"""Judges decks through the library: a line for each, as `chanv verify FILE...` writes them.

    PYTHONPATH=python python3 examples/python/judge.py FILE...

The status is 0 if each has a yes, 1 if one has a no, and 2 if one has no answer: it can't be read,
it isn't a deck, or the library gives none.
"""

import re
import sys
from pathlib import Path

import chanv

# a deck's lines in their order; a limit comes in version 2 alone
DECK = re.compile(
    r"chanv deck (?:1|(2))\n"
    r"device (?P<device>[0-9]{4})\n"
    r"mask (?P<mask>[0-9A-F]{2})\n"
    r"start (?P<start>[0-9A-F]{6})\n"
    r"(?(1)limit (?P<limit>[0-9]{5})\n)"
    r"(?P<extents>(?:extent [0-9]{3} [0-9]{3}\n)+)"
    r"(?P<fetch>(?:fetch [0-9A-F]{6} [0-9A-F]{6}\n)*)"
    r"(?P<store>(?:store [0-9A-F]{6} [0-9A-F]{6}\n)*)"
    r"storage (?P<storage>[0-9A-F]{7})\n"
    r"(?P<puts>(?:put [0-9A-F]{6} [0-9A-F]{16}\n)*)"
    r"end\n"
)


def pairs_of(lines, base):
    """The two numbers of each line."""
    return [tuple(int(digits, base) for digits in line.split()[1:]) for line in lines.splitlines()]


def read_deck(text):
    """The job of a deck's text (docs/DECK.md). It raises ValueError if the text isn't a deck."""
    deck = DECK.fullmatch(text)
    if not deck or int(deck["storage"], 16) % 8:
        raise ValueError("not a deck")
    storage, least = bytearray(int(deck["storage"], 16)), 0
    for address, word in pairs_of(deck["puts"], 16):
        if address % 8 or not least <= address <= len(storage) - 8 or not word:
            raise ValueError("not a deck")
        storage[address : address + 8] = word.to_bytes(8, "big")
        least = address + 8
    return chanv.Job(
        storage=storage,
        start=int(deck["start"], 16),
        extents=pairs_of(deck["extents"], 10),
        fetch=pairs_of(deck["fetch"], 16),
        store=pairs_of(deck["store"], 16),
        device=int(deck["device"]),
        mask=int(deck["mask"], 16),
        limit=int(deck["limit"] or 4096),
    )


def main():
    status = 0
    for name in sys.argv[1:]:
        try:
            verdict = chanv.verify(read_deck(Path(name).read_bytes().decode("latin-1")))
        except (OSError, ValueError, chanv.NoAnswer) as why:
            print(f"{name}: no answer: {why}", file=sys.stderr)
            status = 2
        else:
            print(f"{name}: {verdict}")
            status = max(status, 0 if verdict else 1)
    return status


if __name__ == "__main__":
    sys.exit(main())
