"""`chanv list --wide`, read back and compared with the model.

    tests/run wide

Of each example deck and of 600 random jobs: after a header there is a row for each CCW and way of
entry that the model reaches, in the order of `chanv list`, and the verdict's line is last. A row
has the address, indented if a data chain leads there; the way of entry; the flags; the data as a
range, or where a transfer leads; the name, `-` where the code doesn't count; and what the CCW does,
with the number of bytes, what a search compares, SLI and PCI, and whether the program starts there.
The rows of the places that offend, and no others, are marked `=>` and end with the reasons. Each
column begins at its heading. Without --wide the listing stays as `decks` and `model` have it.
"""

import re
import sys
import tempfile
from collections import Counter
from pathlib import Path
from typing import NamedTuple

from building import HERE
from examples import EXAMPLES
from model import Answer, decks_and_jobs
from running import Ran, run, text_of

sys.path.insert(0, str(HERE / "model"))

from channel import COMMANDS, ccw_at  # noqa: E402
from judging import (  # noqa: E402
    FRESH,
    NUMBER,
    Job,
    command_at,
    does_fetch,
    does_store,
    successors,
)
from writing import (  # noqa: E402
    WAY,
    amount_of,
    compared_by,
    deck_of,
    known_setting,
    parts_said,
    reported_of,
)

SEED, JOBS = 67, 600
# a longer listing takes the model long
MOST_PLACES = 1000
HEADER = "   address   entered  flags   data            command              does"
HEADING = re.compile("   address   entered  flags   data            command {14,}does")
ROW = re.compile(r"(=>|  ) (  )?(\w{6,}) +(\w+) +(\S+) +(-> \w+|\S+) +(\S+)(?: +(\S.*))?")


class Row(NamedTuple):
    """What a row says."""

    is_marked: bool
    is_indented: bool
    address: str
    entered: str
    flags: str
    data: str
    name: str
    does: str


def is_transfer(job, place):
    ccw = ccw_at(job.storage, place.address)
    return ccw is not None and ccw.is_transfer()


def rows_of(job, faults):
    """The places, of two that differ only in whether a transfer leads there the first; but those of
    a transfer differ."""
    rows = {}
    for place in sorted(faults, key=lambda place: place.order()):
        by_transfer = is_transfer(job, place) and place.by_transfer
        rows.setdefault((place.address, place.entered, by_transfer), place)
    return rows.values()


def data_of(ccw):
    if ccw is None:
        return "-"
    if ccw.is_transfer():
        return f"-> {ccw.address:06X}"
    last = f"-{ccw.address + ccw.count - 1:06X}" if ccw.count > 1 else ""
    return f"{ccw.address:06X}{last}"


def name_of(place, ccw):
    if ccw is None:
        return "no-ccw"
    if ccw.is_transfer():
        return "transfer-in-channel"
    if place.entered != FRESH:
        return "-"
    return COMMANDS[ccw.code].name if ccw.code in COMMANDS else "unknown"


def verb_of(place, ccw):
    """What the CCW does with its data."""
    if ccw is None or ccw.is_transfer() or ccw.count == 0:
        return ""
    command = command_at(place, ccw)
    if does_store(place, ccw):
        return "stores"
    if does_fetch(place, ccw):
        return "fetches"
    is_inward = place.entered == "inward" or command is not None and command.kind == "inward"
    return "skips" if is_inward else ""


def is_repeated(job, faults, place):
    """Whether a transfer without a fault leads from the CCW after a search back to the search."""
    ccw = ccw_at(job.storage, place.address)
    if faults[place] or ccw.is_transfer():
        return False
    after = successors(place, ccw)
    if len(after) != 2 or not is_transfer(job, after[0]) or faults[after[0]]:
        return False
    [back] = successors(after[0], ccw_at(job.storage, after[0].address))
    return (back.address, back.entered) == (place.address, place.entered)


def deed_of(job, faults, place):
    ccw = ccw_at(job.storage, place.address)
    is_start = (place.address, place.entered) == (job.start, FRESH)
    done = done_by(job, faults, place, ccw)
    return parts_said(is_start, done, reported_of(ccw) if ccw else "")


def done_by(job, faults, place, ccw):
    setting = known_setting(job, faults, place)
    if setting and "mask" in setting:
        return f"sets mask {setting['mask']:02X}"
    if setting:
        return f"seeks cylinder {setting['cylinder']}, head {setting['head']}"
    verb = verb_of(place, ccw)
    if not verb:
        return ""
    until = ", until found" if is_repeated(job, faults, place) else ""
    return f"{verb}{amount_of(ccw)}{until}{compared_by(job, faults, place)}"


def row_of(answer, place):
    job, ccw = answer.job, ccw_at(answer.job.storage, place.address)
    reasons = [reason for other, reason in answer.found if is_same_row(job, place, other)]
    reasons = ", ".join(sorted(set(reasons), key=NUMBER.get))
    deed = deed_of(job, answer.faults, place)
    return Row(
        bool(reasons),
        place.entered != FRESH,
        f"{place.address:06X}",
        WAY[place.entered],
        ccw.text().split(" ")[2] if ccw else "-",
        data_of(ccw),
        name_of(place, ccw),
        f"{deed}: {reasons}" if deed and reasons else deed or reasons,
    )


def is_same_row(job, place, other):
    if is_transfer(job, place):
        return other == place
    return (other.address, other.entered) == (place.address, place.entered)


def read_back(line):
    found = ROW.fullmatch(line)
    if not found:
        return line
    mark, indent, address, entered, flags, data, name, does = found.groups("")
    return Row(mark == "=>", bool(indent), address, entered, flags, data, name, does)


def are_in_columns(row, line, header):
    """Whether what a row says begins under the headings."""
    headings = ("entered", "flags", "data", "command", "does")
    began = [header.index(f" {word}") + 1 for word in headings]
    said = [row.entered, row.flags, row.data, row.name, row.does]
    return all(line[at:].startswith(word) for at, word in zip(began, said))


def check_listing(checks, program, path, job, seen):
    answer, name = Answer(job), path.stem
    if answer.is_too_large or len(answer.faults) > MOST_PLACES:
        return
    ran = run(program, "list", "--wide", given=path)
    header, *lines, verdict = ran.output.splitlines()
    ended = Ran(1 if answer.found else 0, ran.output, "")
    checks.expect(f"the status of {name}", ended, ran)
    checks.expect_that(f"the header of {name}", HEADING.fullmatch(header), header)
    checks.expect(f"the last line of {name}", answer.verdict, verdict)
    wanted = [row_of(answer, place) for place in rows_of(job, answer.faults)]
    rows = [read_back(line) for line in lines]
    checks.expect(f"how many rows {name} has", len(wanted), len(rows))
    for row, found, line in zip(wanted, rows, lines):
        checks.expect(f"the row {row.address} {row.entered} of {name}", row, found)
        is_so = are_in_columns(row, line, header) and line == line.rstrip()
        checks.expect_that(f"the columns of {row.address} of {name}", is_so, line)
        seen["transfer"] += row.data.startswith("-> ")
        seen["loop"] += " until found" in row.does
        seen["record"] += ", record " in row.does
        seen["key"] += "(key " in row.does
        seen["SLI and PCI"] += ", SLI, PCI" in row.does
        seen["seek"] += "seeks cylinder" in row.does
        seen["mask"] += "sets mask" in row.does
        seen["skips"] += "skips" in row.does
        seen["no CCW"] += row.name == "no-ccw"
        seen["two reasons"] += "changes-ccw, changes-argument" in row.does
        twins = [other for other in wanted if other.address == row.address]
        seen["a blameless row"] += row.is_marked and not all(it.is_marked for it in twins)


# the fixed listing marks three rows of 000808, of which the write's data chain makes one offend
TWO_WAYS = [
    "0600800080000010",
    "0600810060000010",
    "3100400040000005",
    "0800080800000000",
    "0500410080000010",
    "0800080800000000",
]
TWO_WAYS_LISTED = f"""\
{HEADER}
   000800    fresh    D----0  008000-00800F   read-data            start, stores 16 bytes
   000808    fresh    -CL--0  008100-00810F   read-data            stores 16 bytes, SLI
     000808  in       -CL--0  008100-00810F   -                    stores 16 bytes, SLI
=>   000808  out      -CL--0  008100-00810F   -                    fetches 16 bytes, SLI: fetch-not-lent
   000810    fresh    -C---0  004000-004004   search-id-equal      fetches 5 bytes (cylinder 0, head 0, record 0)
   000818    fresh    -----0  -> 000808       transfer-in-channel
   000820    fresh    D----0  004100-00410F   write-data           fetches 16 bytes
     000828  out      -----0  -> 000808       transfer-in-channel
no 000808 fetch-not-lent
"""


def two_ways_deck():
    storage = (bytes(0x800) + bytes.fromhex("".join(TWO_WAYS))).ljust(0x9000, b"\0")
    lent = [(0x4000, 0x200)], [(0x8000, 0x200)]
    job = Job(storage, 0x800, 2314, 0, [(0, 19)], *lent)
    return "".join(f"{line}\n" for line in deck_of(job))


def check_ways(checks, program, room):
    """The listing of one program to the byte, alone and among several FILEs."""
    path = room / "two-ways.deck"
    path.write_text(two_ways_deck())
    for words, wanted in [
        (["list", "--wide", path], Ran(1, TWO_WAYS_LISTED)),
        (["list", path, "--wide"], Ran(1, TWO_WAYS_LISTED)),
        (["list", "--wide", path, path], Ran(1, f"{path}:\n{TWO_WAYS_LISTED}" * 2)),
    ]:
        names = " ".join(map(str, words)).replace(str(path), path.name)
        checks.expect(f"chanv {names}", wanted, run(program, *words))
    rows = run(program, "list", path).output.splitlines()[1:4]
    checks.expect("the fixed listing's marks", ["*"] * 3, [row.split(" ")[3] for row in rows])
    usual = text_of(EXAMPLES / "search-loop.list")
    checks.expect("list stays", usual, run(program, "list", EXAMPLES / "search-loop.deck").output)


def check(checks, built):
    program, seen = built.chanv(), Counter()
    with tempfile.TemporaryDirectory() as room:
        for path, job in decks_and_jobs(room, SEED, JOBS):
            check_listing(checks, program, path, job, seen)
        check_ways(checks, program, Path(room))
    checks.expect_that("each kind of row comes", len(seen) == 11 and all(seen.values()), seen)
