"""`chanv list --range AREA` has every doubleword of a range with its own fault, by the model.

    tests/run ranges

Over each example deck and over random jobs, the range goes from before the first reachable CCW to
behind the last one. A doubleword behind one that chains data counts as a part of its chain, also if
that one comes before the range; any other as a CCW that begins an operation, so a program with several mistakes is seen in one round. A
transfer to where no CCW can be counts as a mistake.
Further rows are about the ends of a range, what isn't one, and several FILEs.
"""

import sys
import tempfile

from building import HERE
from causes import CAUSES, Case
from examples import EXAMPLES
from model import Answer, decks_and_jobs
from rows import usage_fault
from running import Ran, run, text_of

sys.path.insert(0, str(HERE / "model"))

from channel import ccw_at  # noqa: E402
from judging import FRESH, Place, first_place, kind_at, own_fault, successors  # noqa: E402
from writing import job_of, row_of, setting_text, verdict_of  # noqa: E402

SEED, JOBS = 83, 400
MANY = EXAMPLES / "many-faults.deck"
WAYS_BY_KIND = {"inward": "inward", "outward": "outward", "search": "search"}
FORM = (
    "hexadecimal start and length or first and last byte, each at most FFFFFF, as 900+10 or 900-90F"
)


# the faults of a place to which a transfer leads that are the transfer's
NOWHERE = ("misaligned", "outside-storage", "transfer-not-allowed")


def entered_behind(place, ccw):
    """How the doubleword behind one is entered, if the first goes on to it."""
    if ccw is None or ccw.is_transfer() or not ccw.flags & 0x80:
        return FRESH
    return WAYS_BY_KIND.get(kind_at(place, ccw), FRESH)


def chains_data(job, address):
    ccw = ccw_at(job.storage, address) if address >= 0 else None
    return ccw and ccw.flags & 0x80 and not ccw.is_transfer()


def rows_of(job, first, last):
    first = begin = first // 8 * 8
    while chains_data(job, begin - 8):
        begin -= 8
    entered = FRESH
    for address in range(begin, min(last + 1, len(job.storage)), 8):
        row = [*row_of_place(job, address, entered)]
        entered = row.pop()
        yield from row if address >= first else []


def row_of_place(job, address, entered):
    """The row of a doubleword, its cause if it has a fault, and how the next is entered."""
    place, ccw = Place(address, entered, False), ccw_at(job.storage, address)
    fault, at = own_fault(job, place), place
    if ccw and ccw.is_transfer() and not fault:
        [at] = successors(place, ccw)
        fault = own_fault(job, at) if own_fault(job, at) in NOWHERE else None
    yield f"{row_of(job, place, fault)} {setting_text(job, place)}".rstrip()
    if fault:
        yield f"because {CAUSES[fault](Case(job, {}, at, at == first_place(job), ccw))}"
    yield entered_behind(place, ccw)


def listed(job, first, last, verdict):
    return "".join(f"{line}\n" for line in [*rows_of(job, first, last), verdict])


def check_jobs(checks, program, room):
    faults = chains = 0
    for path, job in decks_and_jobs(room, SEED, JOBS):
        answer = Answer(job)
        if answer.is_too_large:
            continue
        addresses = [it.address for it in answer.faults if it.address < len(job.storage)]
        first = max(min(addresses, default=0) - 16, 0)
        last = min(max(addresses, default=0) + 23, 0xFFFFFF)
        wanted = listed(job, first, last, answer.verdict)
        ran = run(program, "list", "--range", f"{first:X}-{last:X}", path)
        checks.expect(f"list --range over {path.stem}", Ran(int(bool(answer.found)), wanted), ran)
        faults += wanted.count("because ")
        # from the first doubleword on behind one that chains data
        behind = [at + 8 for at in sorted(addresses) if at % 8 == 0 and chains_data(job, at)]
        if behind and behind[0] < len(job.storage):
            wanted = listed(job, behind[0], last, answer.verdict)
            ran = run(program, "list", "--range", f"{behind[0]:X}-{max(last, behind[0]):X}", path)
            checks.expect(f"list --range within a chain of {path.stem}", Ran(int(bool(answer.found)), wanted), ran)
            chains += 1
    checks.expect_that("many faults are listed", faults > JOBS, faults)
    checks.expect_that("many ranges begin within a chain", chains > JOBS // 8, chains)


def check_ends(checks, program):
    job = job_of(text_of(MANY))
    verdict = verdict_of(Answer(job).found)
    size = len(job.storage)
    for words, first, last in [
        ("800-800", 0x800, 0x800),
        ("807+1", 0x807, 0x807),
        ("0x807+2", 0x807, 0x808),
        ("800+0", 0x800, 0x7FF),
        ("803+0", 0x808, 0x7FF),
        (f"{size - 8:x}-{size + 99:X}", size - 8, size),
        (f"{size:X}+8", size, size - 1),
        ("FFFFF8-FFFFFF", size, size - 1),
    ]:
        wanted = Ran(1, listed(job, first, last, verdict))
        checks.expect(f"the range {words}", wanted, run(program, "list", "--range", words, MANY))
    text = text_of(MANY).replace(f"storage {size:07X}", "storage 0003000")
    wanted = Ran(1, listed(job_of(text), 0, 0x2FFF, verdict))
    ran = run(program, "list", "--range", "0-2FFF", given=text.encode())
    checks.expect("a range of 12 KiB", wanted, ran)
    one = listed(job, 0x800, 0x807, verdict)
    two = f"{MANY}:\n{one}" * 2
    ran = run(program, "list", "--range", "800+8", MANY, MANY)
    checks.expect("a range of two decks", Ran(1, two), ran)
    ran = run(program, "list", "--range=800+8", given=MANY)
    checks.expect("a range of standard input", Ran(1, one), ran)
    fault = usage_fault(f"invalid value '8Z' for '--range <AREA>': {FORM}")
    checks.expect("no range", fault, run(program, "list", "--range", "8Z", MANY))


def check(checks, built):
    program = built.chanv()
    with tempfile.TemporaryDirectory() as room:
        check_jobs(checks, program, room)
    check_ends(checks, program)
