"""The machine by docs/MACHINE.md: its steps, and what its runs come to."""

from channel import CHAIN_COMMAND, CHAIN_DATA, COMMANDS, SKIP, ccw_at, covers, inhibited
from channel import is_allowed, is_at_least
from judging import FRESH, Place, first_place, kind_at, program_check

ENDED = "ended"


def amounts(ccw, kind, missing):
    """How many bytes may be moved, one number for each difference that a step can make."""
    if kind == "idle":
        return [0]
    return sorted({0, 1, ccw.count, *range(min(missing, ccw.count) + 1)})


def steps(storage, place, gathered):
    """Each step from a place: its events, and the stage after it. `gathered` has the addresses of
    the bytes that a seek under way has gathered. A stage is a place with such addresses, a
    program check, or the end."""
    check = program_check(storage, place)
    if check:
        yield [], check
        return
    ccw = ccw_at(storage, place.address)
    if ccw.is_transfer():
        yield [], (Place(ccw.address, place.entered, True), gathered)
        return
    begun = [("command", ccw.code)] if place.entered == FRESH else []
    command = COMMANDS.get(ccw.code) if begun else None
    if begun and not command:
        yield begun, ENDED
        return
    kind, is_seek = kind_at(place, ccw), bool(gathered or command and command.is_seek())
    for moved in amounts(ccw, kind, 6 - len(gathered)):
        events, under_way, has_seek = [*begun], gathered, is_seek
        if kind == "inward" and not ccw.flags & SKIP:
            events.append(("store", ccw.address, moved))
        if kind in ("outward", "search"):
            events.append(("fetch", ccw.address, ccw.count))
        if has_seek:
            more = tuple(range(ccw.address, ccw.address + moved))[: 6 - len(gathered)]
            events.append(("gather", more))
            under_way = gathered + more
            if len(under_way) == 6:
                events.append(("seek", bytes(storage[at] for at in under_way)))
                under_way, has_seek = (), False
        if command and command.name == "recalibrate":
            events.append(("seek", bytes(6)))
        if command and command.name == "set-file-mask" and moved:
            events.append(("mask", ccw.address, storage[ccw.address]))
        yield events, ENDED
        is_whole = moved == ccw.count
        after = place.address + 8
        if ccw.flags & CHAIN_DATA:
            if is_whole and kind != "idle":
                yield events, (Place(after, kind, False), under_way)
        elif has_seek and is_whole:
            yield [*events, ("seek", None)], ENDED
        elif ccw.flags & CHAIN_COMMAND and not has_seek:
            yield events, (Place(after, FRESH, False), ())
            if kind == "search":
                yield events, (Place(after + 8, FRESH, False), ())


def harms(job, events):
    """The reasons that events show."""
    for what, *values in events:
        match what, values:
            case "command", [code]:
                if code not in COMMANDS:
                    yield "not-in-table"
                elif COMMANDS[code].mask_class in inhibited(job.mask):
                    yield "inhibited"
            case "store", [address, moved] if not covers(job.store, address, moved):
                yield "store-not-lent"
            case "fetch", [address, count] if not covers(job.fetch, address, count):
                yield "fetch-not-lent"
            case "seek", [None]:
                yield "short-seek"
            case "seek", [argument] if not is_allowed(job.device, job.extents, argument):
                yield "seek-outside"
            case "mask", [_, byte] if not is_at_least(byte, job.mask):
                yield "weakens-mask"


def runs(job):
    """All that runs may come to while each store brings the bytes that storage holds: the pairs of
    an address and a reason that a run shows there, and the bytes that some run uses.

    The fault of a seek shows at a later step of its operation, and counts at the seek. A store of
    other bytes makes no difference to a later step, unless it changes a byte that some run uses,
    which is a harm of its own: the job isn't steady.
    """
    shown, stores, ccws, arguments = set(), [], set(), set()
    seen, left = set(), [(first_place(job), (), 0)]
    while left:
        state = left.pop()
        if state in seen:
            continue
        seen.add(state)
        place, gathered, seek = state
        seek = seek if gathered else place.address
        if ccw_at(job.storage, place.address):
            ccws |= {*range(place.address, place.address + 8)}
        for events, stage in steps(job.storage, place, gathered):
            for reason in harms(job, events):
                is_late = reason in ("short-seek", "seek-outside")
                shown.add((seek if is_late else place.address, reason))
            stores += [(place.address, *values) for what, *values in events if what == "store"]
            arguments |= {at for what, *values in events if what == "gather" for at in values[0]}
            arguments |= {values[0] for what, *values in events if what == "mask"}
            if isinstance(stage, tuple):
                left.append((*stage, seek))
            elif stage != ENDED:
                shown |= {(place.address, stage)} | ({(seek, "short-seek")} if gathered else set())
    for at, address, moved in stores:
        stored = range(address, address + moved)
        for used, reason in ((ccws, "changes-ccw"), (arguments, "changes-argument")):
            if not used.isdisjoint(stored):
                shown.add((at, reason))
    return shown, ccws | arguments


def random_run(job, used, random, length):
    """The harms of one run of at most so many steps, whose stores bring any bytes."""
    storage, state = bytearray(job.storage), (first_place(job), ())
    for _ in range(length):
        events, stage = random.choice(list(steps(storage, *state)))
        yield from harms(job, events)
        for what, *values in events:
            if what == "store":
                address, moved = values
                storage[address : address + moved] = random.randbytes(moved)
        if any(storage[at] != job.storage[at] for at in used):
            yield "unsteady"
        if not isinstance(stage, tuple):
            yield from [stage] * (stage != ENDED)
            return
        state = stage
