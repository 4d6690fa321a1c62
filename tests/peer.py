#!/usr/bin/env python3
"""The machine and the verdicts beside Hercules, an emulator that nobody of this project wrote.

    tests/run peer            the examples, and three hundred other jobs
    tests/peer.py --seed 7    other jobs

Hercules 3.13 carries out each job by SIO, on disks with four contents, and traces each CCW. The
trace has to be a run of the machine in tests/model. A program check comes exactly where the machine
has one; bytes outside storage have a storage key of their own. After a yes of chanv there is no
program check, each place on the way is in the listing, no byte outside the areas for storing has
changed, and the arm is inside the extents. Each difference has to be in the table of
docs/MACHINE.md. Wrong machines are followed too, and each has to differ otherwise. A program that
reads a record for ever ends if the record is an end of file.
"""

import argparse
import re
import shutil
import sys
import tempfile
from pathlib import Path
from random import Random

sys.dont_write_bytecode = True

from building import HERE, ROOT, Built, short  # noqa: E402
from examples import FOLDERS, decks_of  # noqa: E402
from expecting import carry_out, finish  # noqa: E402
from model import answers_of, answers_of_each  # noqa: E402
from running import text_of  # noqa: E402

sys.path.insert(0, str(HERE / "peer"))

from emulator import CONTENTS, MOST_GATHERING, MOST_MILLISECONDS, Request  # noqa: E402
from emulator import fits, in_blocks, make_volume, make_volumes, run_all  # noqa: E402
from following import WRONG, Machine, changes_itself, difference, follow  # noqa: E402
from following import gathers_for_ever  # noqa: E402
from judging import Job  # noqa: E402
from making import random_job  # noqa: E402
from writing import WAY, deck_of, job_of  # noqa: E402

SEED, JOBS = 360, 300
BATCH = 128

# programs at 000800 for what no other job shows, with all of storage lent
PROBES = {
    "one byte past storage": ["12000FF920000008"],
    "a chain with both flags": ["12000A00E0000004", "00000A0420000004"],
    "flag 04": ["06000A0024000008"],
    "both flags": ["03000000C0000001", "0300000020000001"],
    "rejected": ["23000900A0000001", "0000090120000001"],
    "another device": ["1700000060000001", "0300000020000001"],
}

# a program that reads the first record of cylinder 10, head 0, for ever
READS_AGAIN = ["3100090040000005", "0800080000000000", "06000A0060000050", "0800080000000000"]
FIRST_RECORD = bytes([0, 10, 0, 0, 1])
# what it comes to by the records of the disk: whether it has to be halted, and the unit status,
# which is channel end and device end with unit exception after an end of file
ENDS = {"plain": (True, 0x00), "ended": (False, 0x0D)}

# a run without end that has shown fewer CCWs was only slow, and is carried out again
FEW_CCWS, MORE_MILLISECONDS = 300, 2000
LONG = 300


def jobs_of(seed, count):
    """The jobs by name, in storage of whole blocks."""
    named = [(short(deck), job_of(text_of(deck))) for it in FOLDERS for deck in decks_of(it)]
    for name, words in PROBES.items():
        storage = (bytes(0x800) + bytes.fromhex("".join(words))).ljust(0x1000, b"\0")
        lent = [(0, len(storage))]
        named.append((f"probe {name}", Job(storage, 0x800, 2314, 0, [(10, 19)], lent, lent)))
    random = Random(seed)
    named += [(f"seed {seed} job {number}", random_job(random)) for number in range(count)]
    whole = ((name, in_blocks(job)) for name, job in named)
    return {name: job for name, job in whole if fits(job)}


def verdicts_of(program, jobs, room):
    """The verdict of each job, and the places that its listing has."""
    paths = {}
    for number, (name, job) in enumerate(jobs.items()):
        paths[name] = Path(room) / f"job-{number}"
        paths[name].write_text("".join(f"{line}\n" for line in deck_of(job)))
    verdicts = answers_of(program, "verify", paths.values())
    listings = answers_of_each(program, "list", paths.values())
    for (name, path), lines in zip(paths.items(), listings, strict=True):
        yield name, verdicts[str(path)], {tuple(line.split()[:3]) for line in lines}


def requests_of(jobs):
    for name, job in jobs:
        longest = MOST_GATHERING if gathers_for_ever(job) else MOST_MILLISECONDS
        for content in CONTENTS:
            yield name, Request(job, content, longest)


def outcomes_of(jobs):
    """Each run of each job, on each content of the disk."""
    with tempfile.TemporaryDirectory() as room:
        volumes = make_volumes(Path(room), [job for _, job in jobs])
        named = [*requests_of(jobs)]
        outcomes = run_all([request for _, request in named], volumes)
        slow = [at for at, it in enumerate(outcomes) if it.is_late and len(it.trace) < FEW_CCWS]
        again = [named[at][1]._replace(milliseconds=MORE_MILLISECONDS) for at in slow]
        for at, outcome in zip(slow, run_all(again, volumes)):
            outcomes[at] = outcome
        return [(*it, outcome) for it, outcome in zip(named, outcomes)]


def row_of(place):
    return f"{place.address:06X}", WAY[place.entered], "t" if place.by_transfer else "-"


def check_yes(checks, name, request, outcome, trace, listed):
    """What a yes promises, on the emulator."""
    job = request.job
    checks.expect(f"a program check of {name}", False, outcome.is_checked())
    _, _, places, _ = follow(Machine(job), trace, outcome.is_late)
    checks.expect(f"places of {name}", set(), {row_of(it) for it in places} - listed)
    lent = {at for start, count in job.store for at in range(start, start + count)}
    pairs = zip(job.storage, outcome.storage)
    changed = {at for at, (old, new) in enumerate(pairs) if old != new}
    checks.expect(f"bytes not lent of {name}", set(), changed - lent)
    if outcome.cylinder is not None:
        inside = any(first <= outcome.cylinder <= last for first, last in job.extents)
        checks.expect_that(f"the arm of {name}", inside, outcome.cylinder)


def check_run(checks, name, request, outcome, said, known):
    """Compares one run; the answer is its class of difference, if it has one."""
    verdict, listed = said
    is_begun = outcome.trace[:3] == [word for _, word in request.prefix()[:3]]
    checks.expect_that(f"{name} was carried out", is_begun and not outcome.is_lost, outcome.trace)
    trace = outcome.trace[3:]
    found = difference(Machine(request.job), outcome, trace)
    is_known = found in (None, *known)
    checks.expect_that(f"a class of {name}", is_known, (found, verdict, [*map(bytes.hex, trace)]))
    if verdict == ["yes"] and found is None:
        check_yes(checks, name, request, outcome, trace, listed)
    return found


def check_wrong(checks, ran, known):
    """Each wrong machine differs from some run in a way that the table doesn't have."""
    for wrong in WRONG:
        found = (difference(wrong(it.job), outcome, outcome.trace[3:]) for it, outcome in ran)
        shown = next((it for it in found if it not in (None, *known)), None)
        checks.expect_that(f"a run shows that {wrong.__name__} is wrong", shown, "no run")


def check_end_of_file(checks):
    """Of a program that never ends by itself, a read of an end of file ends."""
    storage = bytearray(0x1000)
    program = bytes.fromhex("".join(READS_AGAIN))
    storage[0x800 : 0x800 + len(program)] = program
    storage[0x900 : 0x900 + len(FIRST_RECORD)] = FIRST_RECORD
    lent = [(0, len(storage))]
    request = Request(Job(bytes(storage), 0x800, 2314, 0, [(10, 19)], lent, lent), "plain", LONG)
    for content, ended in ENDS.items():
        with tempfile.TemporaryDirectory() as room:
            volume = make_volume(Path(room), 2314, content, [])
            [outcome] = run_all([request], {request.device(): (2314, volume)})
        found = outcome.is_late, outcome.unit_status
        checks.expect(f"a read again and again of records that are {content}", ended, found)


def compare(checks, built, seed, count):
    missing = [name for name in ("hercules", "dasdinit") if not shutil.which(name)]
    if missing:
        checks.skip("runs on Hercules", f"no {missing[0]}")
        return
    page = text_of(ROOT / "docs/MACHINE.md").partition("\n## Beside Hercules\n")[2]
    known = re.findall(r"(?m)^\| \*(.*?)\* \|", page.partition("\n## ")[0])
    jobs, ran, classes = jobs_of(seed, count), [], {}
    with tempfile.TemporaryDirectory() as room:
        said = {name: rest for name, *rest in verdicts_of(built.chanv(), jobs, room)}
    stable = [(name, job) for name, job in jobs.items() if not changes_itself(job)]
    for at in range(0, len(stable), BATCH):
        for name, request, outcome in outcomes_of(stable[at : at + BATCH]):
            named = f"{name}, {request.content}"
            found = check_run(checks, named, request, outcome, said[name], known)
            classes.setdefault(found, name)
            ran.append((request, outcome))
    checks.expect("each job ran on each disk", len(CONTENTS) * len(stable), len(ran))
    checks.expect_that("each class comes", classes.keys() >= {*known}, sorted(map(str, classes)))
    check_wrong(checks, ran, known)
    check_end_of_file(checks)


def check(checks, built):
    compare(checks, built, SEED, JOBS)


if __name__ == "__main__":
    given = argparse.ArgumentParser(prog="tests/peer.py", description=__doc__.splitlines()[0])
    given.add_argument("--seed", type=int, default=SEED)
    given.add_argument("--jobs", type=int, default=JOBS)
    given.add_argument("--program", metavar="PATH")
    given = given.parse_args()
    sys.exit(finish([carry_out("peer", compare, Built(given.program), given.seed, given.jobs)]))
