#!/usr/bin/env python3
"""Writes the decks that are measured: each is large in one respect.

    bench/decks.py FOLDER [NAME...]

writes each NAME.deck, or all of them, to FOLDER, and verdicts.txt with a line for each: its file, a
tab, and the verdict line that the rules give. The same decks come out each time.
"""

import sys
from functools import partial
from pathlib import Path

DOUBLEWORD = 8
STORAGE_LIMIT = 0x1000000  # bytes; addresses have 24 bits
PLACES = 4096  # the most places that may be reachable where a deck doesn't say it
MOST_PLACES = 65536  # the most that a deck may say
MANY = 500_000  # lent areas, or extents

CHAIN_DATA = 0x80
CHAIN_COMMAND = 0x40
SUPPRESS_LENGTH = 0x20
LAST = 0x00

SEEK = 0x07
SEARCH_ID_EQUAL = 0x31
READ_DATA = 0x06
TRANSFER = 0x08
NO_OPERATION = 0x03

START = 0x800


def word(command, address, flags, count):
    """A channel command word, as sixteen digits."""
    return f"{command:02X}{address:06X}{flags:02X}00{count:04X}"


def put(address, digits):
    return f"put {address:06X} {digits}\n"


def areas(kind, pairs):
    return (f"{kind} {start:06X} {length:06X}\n" for start, length in pairs)


def in_a_row(words, start=START):
    """Puts of doublewords that follow each other."""
    return (put(start + DOUBLEWORD * i, digits) for i, digits in enumerate(words))


def deck(puts, storage, extents=((10, 19),), fetch=(), store=(), places=PLACES, start=START):
    """The lines of a deck on a 2314 with the mask 00, in the order of the grammar.

    Where the program has another number of places, the deck is of version 2 and says it as its
    limit.
    """
    yield f"chanv deck {1 if places == PLACES else 2}\ndevice 2314\nmask 00\n"
    yield f"start {start:06X}\n"
    if places != PLACES:
        yield f"limit {places:05d}\n"
    yield from (f"extent {first:03d} {last:03d}\n" for first, last in extents)
    yield from areas("fetch", fetch)
    yield from areas("store", store)
    yield f"storage {storage:07X}\n"
    yield from puts
    yield "end\n"


SEARCH_LOOP = {
    0x800: word(SEARCH_ID_EQUAL, 0x900, CHAIN_COMMAND, 5),
    0x808: word(TRANSFER, 0x800, 0, 0),
    0x810: word(READ_DATA, 0xA00, SUPPRESS_LENGTH, 80),
}


def small():
    """The usual search loop: what a run costs at least."""
    puts = (put(address, digits) for address, digits in SEARCH_LOOP.items())
    return deck(puts, 0x1000, fetch=[(0x900, 16)], store=[(0xA00, 256)])


def full_storage():
    """The same program in the largest storage, every doubleword of it put."""

    def puts():
        for address in range(0, STORAGE_LIMIT, DOUBLEWORD):
            scattered = (address + 1) * 0x9E3779B97F4A7C15 % 2**64 | 1
            yield put(address, SEARCH_LOOP.get(address) or f"{scattered:016X}")

    return deck(puts(), STORAGE_LIMIT, fetch=[(0x900, 16)], store=[(0xA00, 256)])


def room_for(places):
    """Where data may lie behind the CCWs of so many places, and how much storage there is then."""
    return (0x10000, 0x80000) if places == PLACES else (0x100000, 0x400000)


def places(count=PLACES):
    """As many places as there may be, each of another CCW: by turns a seek and a read.

    So half of the places have an argument of their own to guard, and the other half store.
    """
    arguments, storage = room_for(count)
    data = arguments + 8 * count
    words = []
    for i in range(count // 2):
        words.append(word(SEEK, arguments + 8 * i, CHAIN_COMMAND, 6))
        words.append(word(READ_DATA, data + 16 * i, CHAIN_COMMAND, 16))
    words[-1] = word(READ_DATA, data + 16 * (count // 2 - 1), LAST, 16)
    cylinders = [f"0000{10 + i % 10:04X}{i % 20:04X}0000" for i in range(count // 2)]
    puts = [*in_a_row(words), *in_a_row(cylinders, arguments)]
    fetch, store = [(arguments, 4 * count)], [(data, 8 * count)]
    return deck(puts, storage, fetch=fetch, store=store, places=count)


def loops(count=PLACES):
    """As many places as there may be, in search loops and one more CCW.

    The search of each loop but the first is two places, since it is also entered by the transfer.
    """
    base, storage = room_for(count)
    data = base + 0x1000
    words = []
    for i in range(count // 4):
        search = START + DOUBLEWORD * len(words)
        words.append(word(SEARCH_ID_EQUAL, base, CHAIN_COMMAND, 5))
        words.append(word(TRANSFER, search, 0, 0))
        words.append(word(READ_DATA, data + 16 * i, CHAIN_COMMAND, 16))
    words.append(word(NO_OPERATION, 0, LAST, 1))
    fetch, store = [(base, 5)], [(data, 4 * count)]
    return deck(in_a_row(words), storage, fetch=fetch, store=store, places=count)


def chain(count=PLACES, storage=None):
    """One read by the longest data chain: as many places as there may be, all of one operation."""
    data, enough = room_for(count)
    words = [word(READ_DATA, data + 16 * i, CHAIN_DATA, 16) for i in range(count - 1)]
    words.append(word(READ_DATA, data + 16 * (count - 1), LAST, 16))
    return deck(in_a_row(words), storage or enough, store=[(data, 16 * count)], places=count)


def ring(count=PLACES):
    """A ring of as many places as there may be: No Operations, and a transfer back to the first."""
    words = [word(NO_OPERATION, 0, CHAIN_COMMAND, 1)] * (count - 1) + [word(TRANSFER, START, 0, 0)]
    _, storage = room_for(count)
    return deck(in_a_row(words), storage, places=count)


def comb(count=PLACES):
    """Search loops of which each leads on to the next, from the last address to the first.

    So the place that ends the program is found first, and each loop is retraced by a transfer.
    """
    base, storage = room_for(count)
    loops = count // 3
    words, last = [], START + DOUBLEWORD * 3 * (loops - 1)
    for i in range(loops):
        search = START + DOUBLEWORD * 3 * i
        on = word(TRANSFER, search - 3 * DOUBLEWORD, 0, 0) if i else word(NO_OPERATION, 0, LAST, 1)
        words += [word(SEARCH_ID_EQUAL, base, CHAIN_COMMAND, 5), word(TRANSFER, search, 0, 0), on]
    return deck(in_a_row(words), storage, fetch=[(base, 5)], places=count, start=last)


def linked(pairs):
    """Two places at each address: a No Operation, and a transfer to the next address.

    The storage is the largest, and the last pair ends the program.
    """
    puts = {}
    for here, there in zip(pairs, pairs[1:]):
        puts[here] = word(NO_OPERATION, 0, CHAIN_COMMAND, 1)
        puts[here + DOUBLEWORD] = word(TRANSFER, there, 0, 0)
    puts[pairs[-1]] = word(NO_OPERATION, 0, CHAIN_COMMAND, 1)
    puts[pairs[-1] + DOUBLEWORD] = word(NO_OPERATION, 0, LAST, 1)
    lines = (put(address, digits) for address, digits in sorted(puts.items()))
    return deck(lines, STORAGE_LIMIT, places=2 * len(pairs), start=pairs[0])


def scattered(count=PLACES):
    """As many places as there may be, two by two all over the largest storage.

    Each pair is a No Operation and a transfer to the next pair, which lies far from it.
    """
    slots = (STORAGE_LIMIT - START) // 16
    # no factor in common with the slots
    return linked([START + 16 * (i * 647_963 % slots) for i in range(count // 2)])


def one_byte_areas(order):
    """Lent areas of one byte each that adjoin, and one read that needs all of them together."""
    lent, parts = 0x100000, 8
    length = MANY // parts  # 62,500, as a count is at most 65,535
    words = [word(READ_DATA, lent + length * i, CHAIN_DATA, length) for i in range(parts - 1)]
    words.append(word(READ_DATA, lent + length * (parts - 1), LAST, length))
    return deck(in_a_row(words), 0x200000, store=((lent + i, 1) for i in order))


def areas_rising():
    """One read that needs 500,000 adjoining areas together, each of one byte."""
    return one_byte_areas(range(MANY))


def areas_falling():
    """The same areas, the last first."""
    return one_byte_areas(reversed(range(MANY)))


def areas_mixed():
    """The same areas, in an order that looks like none."""
    # no factor in common with 500,000
    return one_byte_areas(i * 312_347 % MANY for i in range(MANY))


def areas_apart(count=PLACES):
    """500,000 areas of which no two adjoin, the last first, and as many places as there may be.

    Each place reads into another area.
    """
    lent = 0x100000
    spread = MANY // count
    words = [word(READ_DATA, lent + 16 * spread * i, CHAIN_COMMAND, 8) for i in range(count - 1)]
    words.append(word(READ_DATA, lent + 16 * spread * (count - 1), LAST, 8))
    store = ((lent + 16 * i, 8) for i in reversed(range(MANY)))
    return deck(in_a_row(words), 0x900000, store=store, places=count)


def offends(count=PLACES):
    """As many places as there may be, all of which offend but one transfer.

    Each stores over the CCW reached last. That one has the least address, so the path to the first
    offence has all the places.
    """
    words = [word(READ_DATA, START, CHAIN_COMMAND, 1)] * (count - 1) + [word(TRANSFER, START, 0, 0)]
    words[0] = word(READ_DATA, START, LAST, 1)
    _, storage = room_for(count)
    store, start = [(START, 1)], START + DOUBLEWORD
    return deck(in_a_row(words), storage, store=store, places=count, start=start)


def extents():
    """500,000 extents, and as many seeks as there may be places.

    All seek a cylinder that only the last extent has.
    """
    argument = 0x20000
    words = [word(SEEK, argument, CHAIN_COMMAND, 6)] * (PLACES - 1)
    words.append(word(SEEK, argument, LAST, 6))
    pairs = [(i % 100, i % 100 + 100) for i in range(MANY - 1)] + [(202, 202)]
    puts = [*in_a_row(words), put(argument, "000000CA00130000")]
    return deck(puts, 0x40000, extents=pairs, fetch=[(argument, 6)])


DECKS = {
    "small": small,
    "full-storage": full_storage,
    "places": places,
    "loops": loops,
    "chain": chain,
    "ring": ring,
    "comb": comb,
    "scattered": scattered,
    "areas-rising": areas_rising,
    "areas-falling": areas_falling,
    "areas-mixed": areas_mixed,
    "areas-apart": areas_apart,
    "extents": extents,
    "offends": offends,
}

# The same with more places, to see how time grows with their number.
GROWING = [
    ("places", places),
    ("loops", loops),
    ("chain", chain),
    ("ring", ring),
    ("comb", comb),
    ("scattered", scattered),
    ("areas-apart", areas_apart),
    ("offends", offends),
]
for name, write in GROWING:
    for count in (MOST_PLACES // 4, MOST_PLACES):
        DECKS[f"{name}-{count}"] = partial(write, count)

# The most places in the largest storage, of which little is put: what memory is for both together.
DECKS["chain-in-full-storage"] = partial(chain, MOST_PLACES, STORAGE_LIMIT)


def verdict_on(name):
    """The verdict's line that the rules give."""
    return f"no {START:06X} changes-ccw" if name.startswith("offends") else "yes"


def main(arguments):
    names = arguments[1:] or list(DECKS)
    unknown = [name for name in names if name not in DECKS]
    if not arguments or unknown:
        sys.exit(f"usage: decks.py FOLDER [NAME...], where a NAME is one of {' '.join(DECKS)}")
    folder = Path(arguments[0])
    for name in names:
        with open(folder / f"{name}.deck", "w", encoding="ascii", newline="\n") as file:
            file.writelines(DECKS[name]())
    verdicts = "".join(f"{name}.deck\t{verdict_on(name)}\n" for name in names)
    (folder / "verdicts.txt").write_text(verdicts, encoding="ascii")


if __name__ == "__main__":
    main(sys.argv[1:])
