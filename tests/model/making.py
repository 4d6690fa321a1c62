"""Random jobs, small ones: most of each job is right, so that every verdict comes often."""

from channel import CHAIN_COMMAND, CHAIN_DATA, COMMANDS, LAST_CYLINDER, MASKS, SKIP
from judging import Job

SIZE, PROGRAM, ARGUMENTS, DATA, END = 0x200, 0x80, 0x100, 0x140, 0x180
SEEKS, SEARCHES, READS, WRITES = (0x07, 0x0B, 0x1B), (0x31, 0xB1, 0x29), (0x06, 0x86), (0x05, 0x1D)
TRANSFER, SET_MASK, RECALIBRATE, NO_OPERATION, SENSE = 0x08, 0x1F, 0x13, 0x03, 0x04


def one_in(random, number):
    return random.randrange(number) == 0


def code_of(random):
    if one_in(random, 40):
        return random.randrange(256)
    if one_in(random, 10):
        return random.choice(sorted(COMMANDS))
    idle = (NO_OPERATION, RECALIBRATE, SENSE)
    kinds = [SEEKS, SEARCHES, READS, WRITES, (TRANSFER,), (SET_MASK,), idle]
    return random.choice(random.choices(kinds, [3, 4, 5, 1, 3, 1, 2])[0])


def address_of(random, code, count, targets):
    if one_in(random, 40):
        return random.choice([random.randrange(SIZE + 16), random.randrange(1 << 24)])
    if code & 0x0F == TRANSFER:
        return random.choice(targets) + 4 * one_in(random, 40)
    if code in SEEKS:
        return ARGUMENTS + 8 * random.randrange(4) + one_in(random, 20)
    if code == SET_MASK:
        return ARGUMENTS + 0x20 + random.randrange(16)
    if one_in(random, 5):
        return random.randrange(PROGRAM, DATA)
    stores = code in COMMANDS and COMMANDS[code].kind == "inward"
    first, last = (DATA, END) if stores else (ARGUMENTS, DATA)
    return random.randrange(first, max(first + 1, last - count + 1))


def word_of(random, code, targets, is_last):
    """A CCW of this code; a transfer leads to one of the targets."""
    count = random.choice([2, 4, 6]) if one_in(random, 6) else 6
    if code not in SEEKS:
        count = random.choice([0, 0xFFFF]) if one_in(random, 50) else random.randrange(1, 17)
    flags = 0 if is_last or one_in(random, 10) else CHAIN_COMMAND
    flags = CHAIN_DATA | one_in(random, 3) * CHAIN_COMMAND if one_in(random, 6) else flags
    flags |= random.choice([0, 0x20, 0x28, SKIP])
    flags |= random.randrange(8) if one_in(random, 50) else 0
    address = address_of(random, code, count, targets)
    place, size = address.to_bytes(3, "big"), count.to_bytes(2, "big")
    return bytes([code, *place, flags, random.randrange(2), *size])


def argument_of(random):
    """The argument of a seek, mostly to a cylinder of the usual extent."""
    cylinder = random.randrange(300) if one_in(random, 16) else random.randrange(10, 20)
    # the device's last cylinder and the next come as often as fifty others
    cylinder = LAST_CYLINDER + cylinder % 2 if cylinder >= 250 else cylinder
    head = random.randrange(25) if one_in(random, 8) else random.randrange(10)
    bin_number = 1 if one_in(random, 30) else 0
    return b"".join(it.to_bytes(2, "big") for it in (bin_number, cylinder, head, 0))


def areas_of(random, start, end):
    """Mostly this area, in one piece or in two; else any areas."""
    if one_in(random, 8):
        areas = [(random.randrange(SIZE), random.randrange(SIZE)) for _ in range(2)]
        return [*areas, (0, SIZE)][: random.randrange(4)]
    if one_in(random, 4):
        middle = random.randrange(start, end)
        return [(middle, end - middle), (start, middle - start)]
    return [(start, end - start)]


def extents_of(random):
    """Mostly one extent; else any two, or two that adjoin."""
    if one_in(random, 8):
        first = random.randrange(LAST_CYLINDER + 1)
        last = random.randrange(first, LAST_CYLINDER + 1)
        return [(10, 12), (13, 13 + last % 6)] if first % 2 else [(first, last), (10, 12)]
    return random.choice([[(0, 19)], [(10, 14), (15, LAST_CYLINDER)], [(10, 19)]])


def random_job(random):
    codes = [code_of(random) for _ in range(random.randrange(1, 10))]
    places = [PROGRAM + 8 * at for at in range(len(codes))]
    targets = [at for at, code in zip(places, codes) if code & 0x0F != TRANSFER] or places
    words = (word_of(random, code, targets, at == places[-1]) for at, code in zip(places, codes))
    program = b"".join(words)
    masks = bytes(random.choice([*MASKS, random.randrange(256)]) for _ in range(16))
    arguments = b"".join(argument_of(random) for _ in range(4)) + masks
    storage = bytearray(SIZE)
    storage[PROGRAM : PROGRAM + len(program)] = program
    storage[ARGUMENTS : ARGUMENTS + len(arguments)] = arguments
    start = random.choice(places) if one_in(random, 10) else targets[0]
    return Job(
        bytes(storage),
        start,
        random.choice([2311, 2314]),
        random.choice(MASKS) if one_in(random, 3) else random.choice([0x00, 0xC0]),
        extents_of(random),
        areas_of(random, ARGUMENTS, DATA if one_in(random, 2) else END),
        areas_of(random, DATA if one_in(random, 2) else PROGRAM, END),
        random.randrange(1, 8) if one_in(random, 20) else 4096,
    )


def many_arguments(seeks):
    """A job of seeks, each with an argument of its own, and of a read over each of their bytes."""
    words = [(SEEKS[0], 8 * at, 6) for at in range(seeks)]
    words += [(READS[0], at + byte, 1) for _, at, _ in words for byte in range(6)]
    start, size = 8 * seeks, 8 * (seeks + len(words))
    arguments = b"".join(it.to_bytes(2, "big") for it in (0, 10, 0, 0)) * seeks
    program = b"".join(
        bytes([code, *address.to_bytes(3, "big"), CHAIN_COMMAND, 0, *count.to_bytes(2, "big")])
        for code, address, count in words
    )
    ends = bytes([NO_OPERATION, 0, 0, 0, 0, 0, 0, 1])
    everything = [(0, size)]
    storage = arguments + program + ends
    return Job(storage, start, 2314, 0xC0, [(10, 10)], everything, everything, 4096)


def changed(job, random):
    """A job with a byte of its storage changed that isn't zero, or without."""
    storage = bytearray(job.storage)
    held = [at for at, byte in enumerate(storage) if byte]
    if held:
        storage[random.choice(held)] = random.choice([0, 8, 0x40, 0x80, random.randrange(256)])
    return job._replace(storage=bytes(storage))
