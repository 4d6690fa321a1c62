#!/usr/bin/env python3
"""Inputs that are hard on some command, each as large as you ask.

    bench/worst.py NAME SIZE    writes the input to standard output
    bench/worst.py              lists them: deck or image, the name, and a size to begin with

The test `speed` measures each command over each input, once of that size and once four times as
large: no command may be worse than linear, times a logarithm.
"""

import random
import sys
from functools import partial

from decks import CHAIN_COMMAND, LAST, NO_OPERATION, READ_DATA, SEEK, comb, deck, in_a_row
from decks import offends, places, put, ring, scattered, word

LENT = 0x100000
# how much storage the decks have, and the images at most
ROOM, IMAGE_ROOM = 0x200000, 0x80000
# a CCW that does nothing and goes on, and a line of a dump with sixteen bytes
OPERATION = bytes.fromhex("0300000040000001")
SIXTEEN = " ".join(["01"] * 16)


def areas(order, size):
    """A read of so many bytes, lent by as many areas, right behind a program that ends before it."""
    words = [word(NO_OPERATION, 0, LAST, 1), word(READ_DATA, LENT, LAST, size)]
    return deck(in_a_row(words), ROOM, store=((LENT + i, 1) for i in order(range(size))))


def areas_needed(size):
    """A read that needs so many areas of one byte, the last first."""
    words = [word(READ_DATA, LENT, LAST, size)]
    return deck(in_a_row(words), ROOM, store=((LENT + i, 1) for i in reversed(range(size))))


def areas_apart(length, size):
    """Areas of eight bytes that don't adjoin, and a read of a length into every fourth."""
    flags = [CHAIN_COMMAND] * (size // 4 - 1) + [LAST]
    words = [word(READ_DATA, LENT + 64 * i, flag, length) for i, flag in enumerate(flags)]
    store = ((LENT + 16 * i, 8) for i in reversed(range(size)))
    return deck(in_a_row(words), ROOM, store=store, places=size // 4)


def extents(size):
    """Extents, and seeks to a cylinder that the last alone has, one for four extents."""
    words = [word(SEEK, LENT, CHAIN_COMMAND, 6)] * (size // 4 - 1) + [word(SEEK, LENT, LAST, 6)]
    pairs = [(i % 100, i % 100 + 100) for i in range(size - 1)] + [(202, 202)]
    puts = [*in_a_row(words), put(LENT, "000000CA00000000")]
    return deck(puts, ROOM, extents=pairs, fetch=[(LENT, 6)], places=size // 4)


def stores_over_all(size):
    """Reads of which each stores over the CCWs of all."""
    flags = [CHAIN_COMMAND] * (size - 1) + [LAST]
    words = [word(READ_DATA, 0, flag, 65_535) for flag in flags]
    return deck(in_a_row(words), ROOM, store=[(0, ROOM)], places=size)


def rows(size, apart=16, end="\n"):
    return (f"{apart * i:06X}: {SIXTEEN}{end}" for i in range(size))


def repeats(size):
    """Rows that a star repeats fifteen times."""
    yield from rows(size, 256, "\n*\n")
    yield f"{256 * size:06X}:\n"


def same(size):
    """Rows of an ABEND dump, each with a line that repeats it."""
    for at in range(0, 32 * size, 32):
        yield f"{at:06X}  {'01010101 ' * 4}\nLINE {at + 16:06X}  SAME AS ABOVE\n"


def texts_of_blanks(size):
    """Rows whose bytes are the text of their own digits, so that each two blanks may begin it."""
    yield ("000000: " + "32 30 20 32 30 20 20 " * size + " " + "20 20  " * size + "\n") * 20


def labels(size):
    """Rows after words that may be labels or come before what Hercules displays."""
    yield from (f"R V R: V: a b c R {row}" for row in rows(size))


def quoted(size):
    """Lines of words of which each may come before an address."""
    yield from rows(1)
    yield ("; " + "R: V: R0 <a " * size + "\n") * 20
    yield ("x" * size + " " + "<" * size + "\n") * 20


def coloured(size):
    yield from (f"\x1b[1;32m{row[:7]}\x1b[0m{row[7:]}" for row in rows(size))


def in_utf_16(size):
    yield b"\xff\xfe"
    yield from (row.encode("utf-16-le") for row in rows(size))


def in_ebcdic(size):
    yield from (row.encode("cp037") for row in rows(size))


def gaps(size):
    """A chain of seeks whose arguments are in gaps of a dump that has as many more."""
    for at in range(size):
        last = at == size - 1
        yield f"{8 * at:06X} 07{0x10000 + 16 * at:06X}{0x00 if last else 0x40:02X}000006\n"
    yield "\n"
    yield from (f"{0x10000 + 16 * at:06X} 00\n\n" for at in range(size))


def swapped_loops(size):
    """Search loops whose words of four bytes are turned round."""
    for part in search_loops(size):
        yield b"".join(part[at : at + 4][::-1] for at in range(0, 24, 4))


def data_chains(size):
    """Reads that chain data to the next, up to the last."""
    words = [word(READ_DATA, LENT, 0x80, 1)] * (size - 1) + [word(READ_DATA, LENT, LAST, 1)]
    return deck(in_a_row(words), ROOM, store=[(LENT, 1)], places=size)


def search_loops(size):
    """Loops of a search, a transfer back to it and a read."""
    for at in range(0, 24 * size, 24):
        yield bytes.fromhex(f"310000004000000508{at:06X}000000000600000000000008")


DECKS = {
    "areas rising": (partial(areas, iter), 1_024),
    "areas falling": (partial(areas, reversed), 1_024),
    "areas needed": (areas_needed, 1_024),
    "areas apart": (partial(areas_apart, 8), 4_096),
    "areas too short": (partial(areas_apart, 16), 4_096),
    "extents": (extents, 4_096),
    "stores over all": (stores_over_all, 1_024),
    "arguments": (places, 1_024),
    "a ring": (ring, 1_024),
    "loops backwards": (comb, 1_024),
    "scattered": (scattered, 1_024),
    "offences": (offends, 1_024),
    "data chains": (data_chains, 1_024),
}

IMAGES = {
    "rows": (rows, 1_024),
    "one row again": (lambda size: ["000000: " + SIXTEEN + "\n"] * size, 1_024),
    "rows apart": (lambda size: rows(size, 64, "\n\n"), 1_024),
    "rows falling": (lambda size: reversed([*rows(size, 64, "\n\n")]), 1_024),
    "blanks after a byte": (lambda size: [f"000000: 00{' ' * size}\n"] * 20, 500),
    "blanks after a byte, no colon": (lambda size: [f"000000 00{' ' * size}\n"] * 20, 500),
    "blanks and a text": (lambda size: [f"000000: 00{' ' * size}x\n"] * 20, 500),
    "lines of blanks": (lambda size: ["000000: 01\n", (" " * size + "\n") * 20], 500),
    "a long line": (lambda size: ["000000: ", "01 " * size], 4_096),
    "a long line of pairs": (lambda size: ["000000: ", "20 20  " * size], 4_096),
    "texts of blanks": (texts_of_blanks, 32),
    "long addresses": (lambda size: [*rows(1), ("0" * size + "\n") * 20], 500),
    "headings": (lambda size: [*rows(1), "PAGE 0001\n" * size], 4_096),
    "comments": (lambda size: [*rows(1), "; nothing\n" * size], 4_096),
    "text before a row": (lambda size: ["nothing\n" * size, *rows(1)], 4_096),
    "text": (lambda size: ["nothing\n"] * size, 4_096),
    "repeats": (repeats, 256),
    "lines that are the same": (same, 1_024),
    "digits": (lambda size: ["0123456789ABCDEF"] * size, 4_096),
    "zeros": (lambda size: [bytes(16 * size)], 4_096),
    "noise": (lambda size: [random.Random(size).randbytes(16 * size)], 4_096),
    "a chain": (lambda size: [OPERATION * size, bytes(8)], 4_096),
    "search loops": (search_loops, 1_024),
    "swapped search loops": (swapped_loops, 1_024),
    "labels": (labels, 1_024),
    "quoted words": (quoted, 500),
    "colours": (coloured, 1_024),
    "UTF-16": (in_utf_16, 1_024),
    "EBCDIC": (in_ebcdic, 1_024),
    "arguments in gaps": (gaps, 1_024),
    "transfers": (lambda size: [bytes.fromhex("0800000800000000") * size], 4_096),
}



def main(arguments):
    rows = {**DECKS, **IMAGES}
    match arguments:
        case []:
            for name, (_, size) in rows.items():
                print("deck" if name in DECKS else "image", name, size, sep="\t")
        case [name, size] if name in rows:
            for part in rows[name][0](int(size)):
                sys.stdout.buffer.write(part if isinstance(part, bytes) else part.encode())
        case _:
            sys.exit(f"usage: worst.py [NAME SIZE], where NAME is one of: {', '.join(rows)}")


if __name__ == "__main__":
    main(sys.argv[1:])
