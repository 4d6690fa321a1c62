"""The line `because` of an offence, by the table of causes in docs/OUTPUT.md, for the model."""

import re
import sys
from typing import NamedTuple

from building import HERE, ROOT
from running import text_of

sys.path.insert(0, str(HERE / "model"))

from channel import (  # noqa: E402
    CHAIN_DATA,
    COMMANDS,
    HEADS,
    LAST_CYLINDER,
    LOW_BITS,
    MASKS,
    Ccw,
    ccw_at,
    fields_of,
    has_cylinder,
    inhibited,
)
from judging import Job, Place, guarded, path_to  # noqa: E402

CODES = r"(?m)^\| ((?:`\w\w`(?:, )?)+)( mt)? \| (.*) \|$"


def further_names():
    """The names of codes that aren't in the table of commands."""
    section = text_of(ROOT / "docs/OUTPUT.md").partition("\n## Further codes\n")[2]
    for codes, has_more, names in re.findall(CODES, section):
        codes, names = re.findall(r"\w\w", codes), re.findall("`(.*?)`", names)
        for code, name in zip(codes, names, strict=True):
            yield int(code, 16), f" ({name})"
            if has_more:
                yield int(code, 16) + 0x80, f" ({name}-mt)"


FURTHER = dict(further_names())


class Case(NamedTuple):
    """The last place of the path to an offence."""

    job: Job
    faults: dict
    place: Place
    is_first: bool
    # none if no CCW is there
    ccw: Ccw | None

    def data(self):
        return range(self.ccw.address, self.ccw.address + self.ccw.count)

    def shown(self):
        return range_of(self.ccw.address, self.ccw.count)


def range_of(first, count):
    return f"{first:06X}-{first + count - 1:06X}" if count > 1 else f"{first:06X}"


def ranges_of(addresses):
    """The runs of some addresses in their order."""
    runs = []
    for address in addresses:
        if runs and address == sum(runs[-1]):
            runs[-1][1] += 1
        else:
            runs.append([address, 1])
    return ", ".join(range_of(*run) for run in runs)


def given_to(job, seek):
    """The addresses of the bytes, at most six, that the data chain of a seek gives."""
    addresses, at = [], seek
    while len(addresses) < 6:
        ccw = ccw_at(job.storage, at)
        if ccw is None or ccw.is_transfer() or ccw.flags & LOW_BITS or ccw.count == 0:
            break
        if ccw.address + ccw.count > len(job.storage):
            break
        addresses += range(ccw.address, ccw.address + ccw.count)
        if not ccw.flags & CHAIN_DATA:
            break
        after = ccw_at(job.storage, at + 8)
        at = after.address if after and after.is_transfer() else at + 8
    return addresses[:6]


def bytes_given(job, addresses):
    return bytes(job.storage[at] for at in addresses)


def argument_of(case):
    given = given_to(case.job, case.place.address)
    return f"{bytes_given(case.job, given).hex().upper()} at {ranges_of(given)}"


def unlent(case, areas, purpose):
    data = case.data()
    ends = [(max(first, data.start), min(first + size, data.stop)) for first, size in areas]
    lent = {at for first, end in ends for at in range(first, end)}
    gap = ranges_of(at for at in data if at not in lent).split(", ")[0]
    part = f"none of {gap} is" if gap == case.shown() else f"{gap} of {case.shown()} is not"
    return f"{part} lent for {purpose}"


def short(case):
    count = len(given_to(case.job, case.place.address))
    return f"the argument ends after {count} of 6 bytes: {argument_of(case)}"


def outside(case):
    if not COMMANDS[case.ccw.code].is_seek():
        return "cylinder 0 is in no extent"
    argument = bytes_given(case.job, given_to(case.job, case.place.address))
    bin_number, cylinder, head = fields_of(argument)
    wrong = f"head {head} is not below {HEADS[case.job.device]}"
    if not has_cylinder(case.job.extents, cylinder):
        wrong = f"cylinder {cylinder} is in no extent"
    if cylinder > LAST_CYLINDER:
        wrong = f"cylinder {cylinder} is above {LAST_CYLINDER}, the device's last"
    if bin_number:
        wrong = f"bin {bin_number:04X} is not zero"
    return f"{wrong}: the argument is {argument_of(case)}"


def over_ccw(case):
    near = range(case.data().start - 7, case.data().stop)
    least = min(it.address for it in case.faults if it.address in near)
    return f"it stores {case.shown()}, over the CCW at {least:06X}"


def over_argument(case):
    byte = min(guarded(case.job, case.faults)[1].intersection(case.data()))
    takes = path_to(case.job, case.faults, lambda it: byte in guarded(case.job, {it: None})[1])
    taker = takes[-1].address
    what = f"{byte:06X} of the argument {ranges_of(given_to(case.job, taker))}"
    if not COMMANDS[ccw_at(case.job.storage, taker).code].is_seek():
        what = f"the mask byte {byte:06X}"
    return f"it stores {case.shown()}, over {what} of {taker:06X}"


def weaker(case):
    byte, mask = case.job.storage[case.ccw.address], case.job.mask
    if byte not in MASKS:
        return f"mask byte {byte:02X} is no file mask"
    permitted = inhibited(mask) - inhibited(byte)
    least = min(code for code, command in COMMANDS.items() if command.mask_class in permitted)
    name = COMMANDS[least].name
    return f"mask byte {byte:02X} is not as strict as {mask:02X}: it permits {name}"


def not_in_storage(case, what):
    return f"{what} is not in storage of {len(case.job.storage):07X} bytes"


CAUSES = {
    "misaligned": lambda it: f"{it.place.address:06X} is not a multiple of 8",
    "outside-storage": lambda it: not_in_storage(it, range_of(it.place.address, 8)),
    "transfer-not-allowed": lambda it: (
        "a transfer " + ("stands first" if it.is_first else "leads to a transfer")
    ),
    "invalid-code": lambda it: f"code {it.ccw.code:02X} is invalid",
    "bad-format": lambda it: f"flag bits {it.ccw.flags & LOW_BITS:02X} are on",
    "zero-count": lambda it: "the count is zero",
    "data-outside": lambda it: not_in_storage(it, it.shown()),
    "not-in-table": lambda it: (
        f"code {it.ccw.code:02X}{FURTHER.get(it.ccw.code, '')} is not in the table"
    ),
    "inhibited": lambda it: f"mask {it.job.mask:02X} inhibits {COMMANDS[it.ccw.code].name}",
    "store-not-lent": lambda it: unlent(it, it.job.store, "storing"),
    "fetch-not-lent": lambda it: unlent(it, it.job.fetch, "fetching"),
    "short-seek": short,
    "seek-outside": outside,
    "changes-ccw": over_ccw,
    "changes-argument": over_argument,
    "weakens-mask": weaker,
}


def cause_of(job, faults, places, reason):
    """The cause for which the first of these places offends, by the path that leads to it."""
    path = path_to(job, faults, places.__contains__)
    case = Case(job, faults, path[-1], len(path) == 1, ccw_at(job.storage, path[-1].address))
    return f"because {CAUSES[reason](case)}"
