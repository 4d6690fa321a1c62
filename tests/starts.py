"""Starts, writes of others and what a user owns: the library over random rows, and a second reading.

The reading is from the header: what is compared, in which order, and which byte or cylinder is
named. Rows come from anywhere: they overlap, aren't sorted, are empty or lie past storage; kept
bytes are missing; masks and devices are invalid.
"""

import random

from package import package

CASES, SEED = 4000, 1964
# how many rows are in flight, mostly, and at most
FEW, MANY = 4, 12
# both parts of a file mask, from the laxest bits to the strictest
WRITES, SEEKS = (0xC0, 0x00, 0x80, 0x40), (0x00, 0x08, 0x10, 0x18)
MASKS = [writes | seeks for writes in WRITES for seeks in SEEKS]
SIZE = 48

# each answer that random rows lead to
ANSWERS = """yes other-start other-device other-length changed mask no-cylinder not-fetchable
    not-storable stores-over-kept keeps-stored-over writes-over-kept keeps-outside""".split()


def strictness(mask):
    return WRITES.index(mask & 0xC0), SEEKS.index(mask & 0x18)


def bytes_of(areas):
    return {byte for start, length in areas for byte in range(start, start + length)}


def cylinders_of(runs):
    return {number for first, last in runs for number in range(first, last + 1)}


def changed_byte(storage, program):
    addresses = [byte for start, length in program.keep for byte in range(start, start + length)]
    for number, byte in enumerate(addresses):
        is_there = byte < len(storage) and number < len(program.kept)
        if not is_there or storage[byte] != program.kept[number]:
            return byte
    return None


def least(found):
    return min(found, default=None)


def lacking(listed, lent, size):
    return least(byte for byte in bytes_of(listed) if byte not in bytes_of(lent) or byte >= size)


def refusal_of(job, program, in_flight):
    """The first refusal with its value and the number of a program, or None."""
    size = len(job.storage)
    if job.start != program.start:
        return "other-start", None, None
    if job.device != program.device:
        return "other-device", None, None
    if size != program.storage_len:
        return "other-length", None, None
    byte = changed_byte(job.storage, program)
    if byte is not None:
        return "changed", byte, None
    is_mask = program.mask in MASKS
    needed = strictness(program.mask) if is_mask else (-1, -1)
    if any(one < other for one, other in zip(needed, strictness(job.mask))):
        return "mask", None, None
    number = least(cylinders_of(program.extents) - cylinders_of(job.extents))
    if number is not None:
        return "no-cylinder", number, None
    for word, listed, lent in [
        ("not-fetchable", program.fetch, job.fetch),
        ("not-storable", program.store, job.store),
    ]:
        byte = lacking(listed, lent, size)
        if byte is not None:
            return word, byte, None
    return conflict_of(program, in_flight)


def lists_of(row):
    """What a row stores over, and what it keeps."""
    if row is None:
        return [], []
    return (row.store, row.keep) if hasattr(row, "kept") else ([row.stores], [row.keeps])


def conflict_of(program, in_flight):
    for number, (others_store, others_keep) in enumerate(map(lists_of, in_flight)):
        for word, store, keep in [
            ("stores-over-kept", program.store, others_keep),
            ("keeps-stored-over", others_store, program.keep),
        ]:
            byte = least(bytes_of(store) & bytes_of(keep))
            if byte is not None:
                return word, byte, number
    return None


def keeper_of(area, in_flight):
    for number, other in enumerate(in_flight):
        byte = least(bytes_of([area]) & bytes_of(lists_of(other)[1]))
        if byte is not None:
            return "writes-over-kept", byte, number
    return None


def outside(keep, areas):
    byte = least(bytes_of(keep) - bytes_of(areas))
    return None if byte is None else ("keeps-outside", byte, None)


class Dice(random.Random):
    """What is thrown agrees mostly, so that each refusal has its share."""

    def area(self, most=12):
        return self.randrange(SIZE - 4), self.choice([0, 1, 2, self.randrange(most)])

    def areas(self, most=4):
        return [self.area() for _ in range(self.randrange(most))]

    def is_rare(self):
        return self.randrange(12) == 0

    def job(self, chanv):
        return chanv.Job(
            storage=bytearray(self.randrange(3) for _ in range(SIZE)),
            start=8,
            extents=[(0, 202)] if self.randrange(3) else [(10, 19), (18, 30)],
            fetch=[(0, SIZE)] if self.randrange(3) else self.areas(6),
            store=[(0, SIZE)] if self.randrange(3) else self.areas(6),
            device=2314,
            mask=self.choice([0xC0, 0xC0, *MASKS]),
        )

    def program(self, chanv, job):
        keep = self.areas()
        addresses = [byte for area in keep for byte in range(area[0], sum(area))]
        kept = bytes(job.storage[byte] for byte in addresses if byte < SIZE)
        if self.is_rare():
            kept = kept[:-1] if self.randrange(2) else bytes(len(kept))
        return chanv.Program(
            start=16 if self.is_rare() else 8,
            device=self.choice([2311, 2313]) if self.is_rare() else 2314,
            storage_len=SIZE + 8 if self.is_rare() else SIZE,
            mask=self.randrange(256) if self.is_rare() else self.choice([0x58, *MASKS]),
            extents=[(12, 15 + self.randrange(9))] if self.randrange(3) else [(15, 11), (30, 31)],
            fetch=self.areas(),
            store=self.areas(),
            keep=keep,
            kept=kept + bytes(self.randrange(2)),
        )

    def in_flight(self, chanv, job):
        most = self.choice([FEW, FEW, MANY])
        return [self.row(chanv, job) for _ in range(self.randrange(most))]

    def row(self, chanv, job):
        """Mostly a program in flight; or others who write or rely on bytes; or none."""
        if self.is_rare():
            return None
        if self.is_rare():
            areas = self.area(), self.choice([(0, 0), self.area()])
            return chanv.Row(*areas) if self.randrange(2) else chanv.Row(*areas[::-1])
        return self.program(chanv, job)


def told(permission):
    return None if permission else (permission.refusal, permission.value, permission.row)


def taken_in_for(chanv, source, own):
    """The refusal of a program whose user owns these areas."""
    try:
        chanv.take_in(source, own)
    except chanv.Refused as refused:
        return told(refused.permission)
    return None


def check(checks, built):
    chanv, dice, seen, numbers = package(built), Dice(SEED), set(), set()
    # it reads three bytes, by CCWs that are kept
    kept = [(8, 24)]
    ccws = bytes.fromhex("0600000060000001 0600000160000001 0600000220000001")
    source = chanv.Source(bytes(8) + ccws + bytes(SIZE - 32), 8)
    for number in range(CASES):
        job = dice.job(chanv)
        program, in_flight = dice.program(chanv, job), dice.in_flight(chanv, job)
        wanted = refusal_of(job, program, in_flight)
        found = told(chanv.may_start(job, program, in_flight))
        checks.expect(f"start {number}", wanted, found)
        area = dice.area()
        wanted_write = keeper_of(area, in_flight)
        checks.expect(f"write {number}", wanted_write, told(chanv.may_write(area, in_flight)))
        areas = dice.areas(6) if dice.randrange(2) else [(16, SIZE), (0, 16)]
        wanted_own = outside(kept, areas)
        checks.expect(f"areas {number}", wanted_own, taken_in_for(chanv, source, areas))
        answers = wanted, wanted_write, wanted_own
        seen |= {answer[0] if answer else "yes" for answer in answers}
        numbers |= {(answer[0], answer[2]) for answer in answers if answer}
    checks.expect("each answer comes", {*ANSWERS}, seen)
    for word in ("stores-over-kept", "keeps-stored-over", "writes-over-kept"):
        found = {number for answer, number in numbers if answer == word}
        checks.expect_that(f"{word} by a row after many", max(found) >= FEW + 2, found)
