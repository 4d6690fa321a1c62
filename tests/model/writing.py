"""The texts of a job by docs/DECK.md and docs/OUTPUT.md: its deck, verdict, listing and needs."""

from channel import COMMANDS, ccw_at
from judging import (
    FRESH,
    NUMBER,
    Job,
    does_fetch,
    does_store,
    guarded,
    kind_at,
    own_fault,
    path_to,
    setting_of,
    stored_over,
    successors,
)

WAY = {"fresh": "fresh", "inward": "in", "outward": "out", "search": "search"}


def deck_of(job):
    is_old = job.limit == 4096
    yield f"chanv deck {1 if is_old else 2}"
    yield f"device {job.device}"
    yield f"mask {job.mask:02X}"
    yield f"start {job.start:06X}"
    yield from [] if is_old else [f"limit {job.limit:05}"]
    yield from (f"extent {first:03} {last:03}" for first, last in job.extents)
    yield from (f"fetch {start:06X} {length:06X}" for start, length in job.fetch)
    yield from (f"store {start:06X} {length:06X}" for start, length in job.store)
    yield f"storage {len(job.storage):07X}"
    for at in range(0, len(job.storage), 8):
        word = job.storage[at : at + 8]
        yield from [f"put {at:06X} {word.hex().upper()}"] if any(word) else []
    yield "end"


def job_of(text):
    """The job of a deck's text."""
    said = {"extent": [], "fetch": [], "store": [], "put": [], "limit": [["04096"]]}
    for line in text.splitlines():
        word, *values = line.split(" ")
        said.setdefault(word, []).append(values)
    storage = bytearray(int(said["storage"][0][0], 16))
    for at, digits in said["put"]:
        storage[int(at, 16) : int(at, 16) + 8] = bytes.fromhex(digits)
    fetch, store = (
        [(int(start, 16), int(length, 16)) for start, length in said[word]]
        for word in ("fetch", "store")
    )
    return Job(
        bytes(storage),
        int(said["start"][0][0], 16),
        int(said["device"][0][0]),
        int(said["mask"][0][0], 16),
        [(int(first), int(last)) for first, last in said["extent"]],
        fetch,
        store,
        int(said["limit"][-1][0]),
    )


def verdict_of(found):
    """The verdict's line: the first of the offences in order."""
    return f"no {found[0][0].address:06X} {found[0][1]}" if found else "yes"


def hang_note(places):
    """The note on the first of the places from which on the program never ends by itself."""
    if places:
        first = min(places, key=lambda place: place.order())
        yield (
            f"note: from {first.address:06X} (entered {WAY[first.entered]}) on the program never "
            "ends by itself: only an error, an end of file, an incorrect length or a Halt I/O stops "
            "it"
        )


def name_of(place, ccw):
    if ccw.is_transfer():
        return "transfer-in-channel"
    if place.entered != FRESH:
        return "chained"
    return COMMANDS[ccw.code].name if ccw.code in COMMANDS else "unknown"


def row_of(job, place, is_marked):
    ccw = ccw_at(job.storage, place.address)
    told = f"{ccw.text()} {name_of(place, ccw)}" if ccw else "no-ccw"
    transfer, mark = "t" if place.by_transfer else "-", "*" if is_marked else "."
    return f"{place.address:06X} {WAY[place.entered]} {transfer} {mark} {told}"


def listing_of(job, faults, found):
    for place in sorted(faults, key=lambda place: place.order()):
        yield row_of(job, place, found and place.address == found[0][0].address)
    yield verdict_of(found)


def setting_text(job, place):
    """What is set at a place, in parentheses."""
    setting = setting_of(job, place)
    if setting is None:
        return ""
    if "mask" in setting:
        return f"(mask {setting['mask']:02X})"
    return f"(cylinder {setting['cylinder']}, head {setting['head']})"


def path_of(job, faults, found):
    """The rows of the path to the verdict's place, and what is stored over there before."""
    address, reason = found[0][0].address, found[0][1]
    offending = {place for place, word in found if (place.address, word) == (address, reason)}
    path = path_to(job, faults, offending.__contains__)
    for place in path:
        yield f"{row_of(job, place, place is path[-1])} {setting_text(job, place)}".rstrip()
    over = stored_over(job, path) if NUMBER[reason] <= 8 else None
    if over:
        yield f"stored over by {over.address:06X}: what will stand there is not judged"


# a part of EBCDIC, by Python's code page 037
SHOWN_IN_KEYS = (
    " .(+$*)-/,%_:#@=0123456789ABCDEFGHIJKLMNOPQRSTUVWXYZabcdefghijklmnopqrstuvwxyz".encode("cp037")
)
MOST_OF_KEY = 16


def are_stored(job, faults, addresses):
    """Whether a reachable CCW stores into some bytes."""
    for place in faults:
        ccw = ccw_at(job.storage, place.address)
        if ccw and does_store(place, ccw):
            data = range(ccw.address, ccw.address + ccw.count)
            if any(address in data for address in addresses):
                return True
    return False


def known_setting(job, faults, place):
    """What the operation at a place sets, if no reachable CCW stores over what it takes that from."""
    ccw = ccw_at(job.storage, place.address)
    command = COMMANDS.get(ccw.code) if ccw and place.entered == FRESH else None
    takes = ccw and not (command and command.kind == "idle")
    data = range(ccw.address, ccw.address + ccw.count) if takes else ()
    taken = guarded(job, {place: faults[place]})[1] if ccw else ()
    return None if are_stored(job, faults, {*data, *taken}) else setting_of(job, place)


def compared_by(job, faults, place):
    """The track, the record or the key that a search compares, if its CCW has all of it."""
    ccw = ccw_at(job.storage, place.address)
    command = COMMANDS.get(ccw.code) if place.entered == FRESH else None
    data = range(ccw.address, ccw.address + ccw.count)
    is_search = command and command.kind == "search" and not ccw.is_transfer()
    if not is_search or ccw.flags & 0x80 or are_stored(job, faults, data):
        return ""
    if data and data[-1] >= len(job.storage):
        return ""
    value = bytes(job.storage[at] for at in data)
    if "-key-" in command.name:
        key, more = value[:MOST_OF_KEY], ".." * (len(value) > MOST_OF_KEY)
        is_text = all(byte in SHOWN_IN_KEYS for byte in key)
        return f" (key '{key.decode('cp037')}{more}')" if is_text else f" (key {key.hex().upper()}{more})"
    if len(value) != (5 if "-id-" in command.name else 4):
        return ""
    cylinder, head = int.from_bytes(value[:2]), int.from_bytes(value[2:4])
    record = f", record {value[4]}" if len(value) == 5 else ""
    return f" (cylinder {cylinder}, head {head}{record})"


def amount_of(ccw):
    return f" {ccw.count} byte{'s' * (ccw.count != 1)}"


def reported_of(ccw):
    if ccw.is_transfer():
        return ""
    return ", SLI" * bool(ccw.flags & 0x20) + ", PCI" * bool(ccw.flags & 0x08)


def deed_of(job, faults, place, ccw):
    """What the CCW at a place does, whether the program starts there, and its flags."""
    is_start = (place.address, place.entered) == (job.start, FRESH)
    done = done_by(job, faults, place, ccw) if ccw else ""
    return parts_said(is_start, done, reported_of(ccw) if ccw else "")


def parts_said(is_start, done, reported):
    """The parts of the last column, with a comma between two."""
    return ", ".join(filter(None, ["start" * is_start, done, reported.removeprefix(", ")]))


def done_by(job, faults, place, ccw):
    """What the CCW at a place sets, or what it does with its data."""
    setting = known_setting(job, faults, place) or {}
    if "mask" in setting:
        return f"sets mask {setting['mask']:02X}"
    if setting:
        return f"seeks cylinder {setting['cylinder']}, head {setting['head']}"
    if ccw.is_transfer() or ccw.count == 0:
        return ""
    behind = compared_by(job, faults, place)
    if does_store(place, ccw):
        return f"stores{amount_of(ccw)}{behind}"
    if not does_fetch(place, ccw):
        return f"skips{amount_of(ccw)}{behind}" if kind_at(place, ccw) == "inward" else ""
    after = [] if own_fault(job, place) else successors(place, ccw)
    is_search = place.entered == FRESH and len(after) == 2
    back = ccw_at(job.storage, after[0].address) if is_search else None
    is_loop = back and back.is_transfer() and back.address == place.address
    return f"fetches{amount_of(ccw)}{', until found' * bool(is_loop)}{behind}"


def wide_of(job, faults, found):
    """The wide listing: places that differ in whether a transfer led there are one row, but for
    transfers."""
    rows = [*wide_rows(job, faults, found)]
    width = max([20, *(len(name) for _, name, _ in rows)])
    yield f"   address   entered  flags   data            {'command':{width}} does"
    for front, name, does in rows:
        yield f"{front} {name:{width}} {does}".rstrip()
    yield verdict_of(found)


def wide_rows(job, faults, found):
    """The front of each row, the name, and what the CCW does."""
    before = None
    for place in sorted(faults, key=lambda place: place.order()):
        ccw = ccw_at(job.storage, place.address)
        is_twin = before and place[:2] == before[:2] and not (ccw and ccw.is_transfer())
        before = place
        if is_twin:
            continue
        reasons = ", ".join(reason for at, reason in found if at == place)
        does = deed_of(job, faults, place, ccw)
        does = ": ".join(filter(None, [does, reasons]))
        flags, data, name = "-", "-", "no-ccw"
        if ccw:
            last = f"-{ccw.address + ccw.count - 1:06X}" if ccw.count > 1 else ""
            data = f"-> {ccw.address:06X}" if ccw.is_transfer() else f"{ccw.address:06X}{last}"
            flags, name = ccw.text().split(" ")[2], name_of(place, ccw).replace("chained", "-")
        indent = "" if place.entered == FRESH else "  "
        address, way = f"{indent}{place.address:06X}", WAY[place.entered]
        mark = "=>" if reasons else "  "
        yield f"{mark} {address:9} {way:8} {flags:7} {data:15}", name, does


def second_path_of(job, faults, found):
    """If the offence is a change, the rows of the path to what is changed: the first of the CCWs
    that the data meets, or a CCW that takes the first byte that is stored over."""
    place, reason = found[0]
    if not reason.startswith("changes-"):
        return
    ccw = ccw_at(job.storage, place.address)
    data = range(ccw.address, ccw.address + ccw.count)
    if reason == "changes-ccw":
        near = range(data.start - 7, data.stop)
        address = min(it.address for it in faults if it.address in near)
        path = path_to(job, faults, lambda it: it.address == address)
    else:
        byte = min(guarded(job, faults)[1].intersection(data))
        path = path_to(job, faults, lambda it: byte in guarded(job, {it: None})[1])
    yield "reached by"
    for place in path:
        yield f"{row_of(job, place, place is path[-1])} {setting_text(job, place)}".rstrip()


def spans(numbers):
    """The runs without a gap, by first number and length."""
    first = last = None
    for number in sorted(numbers):
        if last is not None and number != last + 1:
            yield first, last - first + 1
            first = None
        first, last = number if first is None else first, number
    if first is not None:
        yield first, last - first + 1


def needs_of(needed):
    yield f"mask {needed.mask:02X}"
    for first, count in spans(needed.cylinders):
        yield f"extent {first:03} {first + count - 1:03}"
    for word in ("fetch", "store", "keep"):
        addresses = getattr(needed, word)
        yield from (f"{word} {start:06X} {length:06X}" for start, length in spans(addresses))
