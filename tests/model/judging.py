"""The verdict by docs/VERDICT.md, and the needs of a program by docs/OUTPUT.md."""

from typing import NamedTuple

from channel import (
    CHAIN_COMMAND,
    CHAIN_DATA,
    COMMANDS,
    LAST_CYLINDER,
    LOW_BITS,
    MASKS,
    SKIP,
    ccw_at,
    covers,
    fields_of,
    has_cylinder,
    inhibited,
    is_allowed,
    is_at_least,
)

REASONS = """misaligned outside-storage transfer-not-allowed invalid-code bad-format zero-count
data-outside not-in-table inhibited store-not-lent fetch-not-lent short-seek seek-outside
changes-ccw changes-argument weakens-mask""".split()
NUMBER = {word: number for number, word in enumerate(REASONS, 1)}

# how a place is entered: Fresh, or by the data chain of an operation of a kind
FRESH, WAYS = "fresh", {"fresh": 0, "inward": 1, "outward": 2, "search": 3}


class Job(NamedTuple):
    storage: bytes
    start: int
    device: int
    mask: int
    extents: list
    fetch: list
    store: list
    limit: int = 4096

    def opened(self):
        """The open job of its program, which grants everything."""
        whole = [(0, len(self.storage))]
        return self._replace(mask=0xC0, extents=[(0, LAST_CYLINDER)], fetch=whole, store=whole)


class Place(NamedTuple):
    address: int
    entered: str
    by_transfer: bool

    def order(self):
        return self.address, WAYS[self.entered], self.by_transfer


def first_place(job):
    return Place(job.start, FRESH, True)


def command_at(place, ccw):
    """The command that begins there, if one does."""
    is_new = place.entered == FRESH and not ccw.is_transfer()
    return COMMANDS.get(ccw.code) if is_new else None


def kind_at(place, ccw):
    """A code that isn't in the table moves nothing."""
    if place.entered != FRESH:
        return place.entered
    command = COMMANDS.get(ccw.code)
    return command.kind if command else "idle"


def does_store(place, ccw):
    return not ccw.is_transfer() and kind_at(place, ccw) == "inward" and not ccw.flags & SKIP


def does_fetch(place, ccw):
    return not ccw.is_transfer() and kind_at(place, ccw) in ("outward", "search")


def program_check(storage, place):
    """The first of the reasons 1 to 7 that applies."""
    ccw = ccw_at(storage, place.address)
    if place.address % 8:
        return "misaligned"
    if ccw is None:
        return "outside-storage"
    if ccw.is_transfer():
        return "transfer-not-allowed" if place.by_transfer else None
    if place.entered == FRESH and ccw.code & 0x0F == 0:
        return "invalid-code"
    if ccw.flags & LOW_BITS:
        return "bad-format"
    if ccw.count == 0:
        return "zero-count"
    return "data-outside" if ccw.address + ccw.count > len(storage) else None


def own_fault(job, place):
    check = program_check(job.storage, place)
    ccw = ccw_at(job.storage, place.address)
    if check or ccw.is_transfer():
        return check
    command = command_at(place, ccw)
    if place.entered == FRESH and not command:
        return "not-in-table"
    if command and command.mask_class in inhibited(job.mask):
        return "inhibited"
    if does_store(place, ccw) and not covers(job.store, ccw.address, ccw.count):
        return "store-not-lent"
    if does_fetch(place, ccw) and not covers(job.fetch, ccw.address, ccw.count):
        return "fetch-not-lent"
    return fault_of_command(job, place, ccw, command) if command else None


def fault_of_command(job, place, ccw, command):
    if command.is_seek():
        argument = argument_of(job.storage, place.address)
        if argument is None:
            return "short-seek"
        is_right = is_allowed(job.device, job.extents, bytes(job.storage[at] for at in argument))
        return None if is_right else "seek-outside"
    if command.name == "recalibrate" and not has_cylinder(job.extents, 0):
        return "seek-outside"
    if command.name == "set-file-mask" and not is_at_least(job.storage[ccw.address], job.mask):
        return "weakens-mask"
    return None


def argument_of(storage, seek):
    """The addresses of the six bytes that the data chain of a seek gives, if it gives six."""
    addresses, at = [], seek
    while True:
        ccw = ccw_at(storage, at)
        if ccw is None or ccw.is_transfer() or ccw.flags & LOW_BITS or ccw.count == 0:
            return None
        if ccw.address + ccw.count > len(storage):
            return None
        addresses += range(ccw.address, ccw.address + ccw.count)
        if len(addresses) >= 6:
            return addresses[:6]
        if not ccw.flags & CHAIN_DATA:
            return None
        after = ccw_at(storage, at + 8)
        at = after.address if after and after.is_transfer() else at + 8


def setting_of(job, place):
    """What the operation that begins at a place sets, by the first seven checks: a track, by a seek
    whose bin is zero or by a Recalibrate, or the byte of Set File Mask."""
    ccw = ccw_at(job.storage, place.address)
    command = command_at(place, ccw) if ccw and not program_check(job.storage, place) else None
    if command and command.name == "recalibrate":
        return {"cylinder": 0, "head": 0}
    if command and command.name == "set-file-mask":
        return {"mask": job.storage[ccw.address]}
    if command and command.is_seek():
        argument = argument_of(job.storage, place.address) or ()
        fields = fields_of(bytes(job.storage[at] for at in argument))
        return None if fields[0] or not argument else {"cylinder": fields[1], "head": fields[2]}
    return None


def path_to(job, faults, offends):
    """The shortest path to a place that offends, and of equally short ones the one that goes on to
    the next CCW where another skips it."""
    before, left = {first_place(job): None}, [first_place(job)]
    while left and not offends(left[0]):
        place = left.pop(0)
        after = [] if faults[place] else successors(place, ccw_at(job.storage, place.address))
        for target in after:
            if target not in before:
                before[target] = place
                left.append(target)
    path, place = [], left[0]
    while place:
        path.insert(0, place)
        place = before[place]
    return path


def stored_over(job, path):
    """The last place before a path's end that stores one of eight bytes from the end's address."""
    wanted = range(path[-1].address, path[-1].address + 8)
    for place in reversed(path[:-1]):
        ccw = ccw_at(job.storage, place.address)
        data = range(ccw.address, ccw.address + ccw.count)
        if does_store(place, ccw) and data.start < wanted.stop and wanted.start < data.stop:
            return place
    return None


def successors(place, ccw):
    kind = kind_at(place, ccw)
    if ccw.is_transfer():
        return [Place(ccw.address, place.entered, True)]
    if ccw.flags & CHAIN_DATA:
        return [] if kind == "idle" else [Place(place.address + 8, kind, False)]
    if not ccw.flags & CHAIN_COMMAND:
        return []
    after = [Place(place.address + 8, FRESH, False)]
    return after + [Place(place.address + 16, FRESH, False)] * (kind == "search")


def reachable(job):
    """The reachable places, each with its own fault or none."""
    faults, left = {}, [first_place(job)]
    while left:
        place = left.pop()
        if place not in faults:
            faults[place] = own_fault(job, place)
            if not faults[place]:
                left += successors(place, ccw_at(job.storage, place.address))
    return faults


def endless(job, faults):
    """The reachable places from which no successors lead to one that ends the program."""
    after = {
        place: successors(place, ccw_at(job.storage, place.address))
        for place, fault in faults.items()
        if not fault
    }
    can_end, more = set(), {place for place in after if not after[place]}
    while more:
        can_end |= more
        more = {place for place in after if not can_end.isdisjoint(after[place])} - can_end
    return faults.keys() - can_end


def guarded(job, faults):
    """The guarded bytes: those of CCWs, and those of arguments."""
    ccws, arguments = set(), set()
    for place, fault in faults.items():
        ccw = ccw_at(job.storage, place.address)
        if ccw:
            ccws |= {*range(place.address, place.address + 8)}
        command = command_at(place, ccw) if ccw and not fault else None
        if command and command.is_seek():
            arguments |= {*argument_of(job.storage, place.address)}
        elif command and command.name == "set-file-mask":
            arguments.add(ccw.address)
    return ccws, arguments


def offences(job, faults):
    """The pairs of a place and a reason, in order."""
    found = [(place, fault) for place, fault in faults.items() if fault]
    if not found:
        ccws, arguments = guarded(job, faults)
        for place in faults:
            ccw = ccw_at(job.storage, place.address)
            stored = range(ccw.address, ccw.address + ccw.count) if does_store(place, ccw) else ()
            found += [(place, "changes-ccw")] * (not ccws.isdisjoint(stored))
            found += [(place, "changes-argument")] * (not arguments.isdisjoint(stored))
    return sorted(found, key=lambda it: (it[0].address, NUMBER[it[1]], it[0].order()))


class Needs(NamedTuple):
    mask: int
    cylinders: set
    fetch: set
    store: set
    keep: set


def needs(job, faults):
    """The needs of a program, by the reachable places of its open job, which has a yes."""
    cylinders, fetch, store, classes, bytes_set = set(), set(), set(), set(), set()
    for place in faults:
        ccw = ccw_at(job.storage, place.address)
        span = range(ccw.address, ccw.address + ccw.count)
        store |= {*span} if does_store(place, ccw) else set()
        fetch |= {*span} if does_fetch(place, ccw) else set()
        command = command_at(place, ccw)
        if command:
            classes.add(command.mask_class)
            if command.is_seek():
                argument = bytes(job.storage[at] for at in argument_of(job.storage, place.address))
                cylinders.add(fields_of(argument)[1])
            elif command.name == "recalibrate":
                cylinders.add(0)
            elif command.name == "set-file-mask":
                bytes_set.add(job.storage[ccw.address])
    serving = [
        mask
        for mask in MASKS
        if not classes & inhibited(mask) and all(is_at_least(byte, mask) for byte in bytes_set)
    ]
    [mask] = [one for one in serving if all(is_at_least(one, other) for other in serving)]
    ccws, arguments = guarded(job, faults)
    return Needs(mask, cylinders, fetch, store, ccws | arguments)
