#!/usr/bin/env python3
"""A model of the rules, written from the pages of docs/, against the program over random jobs.

    tests/run model                         some thousand jobs, always the same
    tests/model.py --seed 7 --jobs 20000    other jobs, or more

The model is in model/: the channel and the disk (channel), the verdict and the needs (judging), the
machine (stepping), the texts (writing) and the jobs (making). It was written from DEVICE, VERDICT,
MACHINE, DECK and OUTPUT, and from no code of the crates. It has to agree on the verdict, on
all offences and their causes, on the needs, on the listing, on the path to the verdict's place and
to every other that offends, on the path to what is changed there, and on where each job may hang.
Then it steps the machine over the job: after a yes all runs are safe and no byte that one uses
changes, and after a no a run shows the reason at its address. Every third job is an example deck
with a changed byte. The verdicts of the example decks themselves are the model's too.
"""

import argparse
import re
import sys
import tempfile
from itertools import takewhile
from pathlib import Path
from random import Random

sys.dont_write_bytecode = True

from building import HERE, Built, short  # noqa: E402
from causes import cause_of  # noqa: E402
from examples import FOLDERS, TEXTS, decks_of, verdicts_of  # noqa: E402
from expecting import carry_out, finish  # noqa: E402
from running import run, run_in_bash, text_of  # noqa: E402

sys.path.insert(0, str(HERE / "model"))

from channel import ccw_at  # noqa: E402
from judging import (  # noqa: E402
    FRESH,
    NUMBER,
    Place,
    endless,
    needs,
    offences,
    own_fault,
    reachable,
)
from making import changed, many_arguments, random_job  # noqa: E402
from stepping import random_run, runs, steps  # noqa: E402
from writing import (  # noqa: E402
    deck_of,
    hang_note,
    job_of,
    listing_of,
    needs_of,
    path_of,
    second_path_of,
    verdict_of,
    wide_of,
)

SEED, JOBS = 360, 2500
# with six bytes of an argument each: more than a leaf of the map of rustc/kit holds
MANY_SEEKS = 86
MOST_PLACES = 65536
# an example that is changed and stepped has to be small
MOST_STORAGE = 0x2000
RUNS, LENGTH = 4, 30
# of how many addresses of a job the offence is explained
MOST_ASKED = 6

# `why --of` over each of some decks, after its address, and its status
OF = 'while [ $# -gt 1 ]; do "$0" why --of "$1" "$2" 2>&1; echo "status $?"; shift 2; done'
# what begins the lines of `why --all` on each offence and its cause
OFFENDS = "yes", "no ", "also ", "because "

# a command over each of some decks, and its status
EACH = 'run="$1 $2"; shift 2; for deck; do $run "$deck" 2>&1; echo "status $?"; done'


class Answer:
    """What the model says of a job."""

    def __init__(self, job):
        self.job, self.faults = job, reachable(job)
        self.is_too_large = len(self.faults) > job.limit
        self.found = offences(job, self.faults)
        self.verdict = verdict_of(self.found)

    def all_offences(self):
        """The verdict, a line for each other address and reason that offend, and each cause."""
        yield self.verdict
        pairs = dict.fromkeys((place.address, reason) for place, reason in self.found)
        for number, (address, reason) in enumerate(pairs):
            yield from [f"also {address:06X} {reason}"] * (number > 0)
            yield self.cause_of(address, reason)

    def cause_of(self, address, reason):
        places = {at for at, why in self.found if (at.address, why) == (address, reason)}
        return cause_of(self.job, self.faults, places, reason)

    def least_reason(self, address):
        """The first of the reasons by which an address offends."""
        return next(reason for place, reason in self.found if place.address == address)


def limit_line(limit):
    """What is said of the limit on places, if more are reachable."""
    if limit == MOST_PLACES:
        return f"the limit is {limit}, and none is higher"
    return (
        f"the limit is {limit}; the line limit of a deck of version 2, or --limit of chanv find "
        f"and deck, may raise it to {MOST_PLACES}"
    )


def answers_of(program, command, paths):
    """The lines of a command that takes many decks, by their names."""
    ran = run(program, *command.split(), *paths)
    lines, mine = {str(path): [] for path in paths}, []
    for line in (ran.output + ran.error).splitlines():
        name, _, text = line.removeprefix("chanv: ").partition(": ")
        if name in lines:
            mine = lines[name]
        mine.append(text if name in lines else line)
    return lines


def answers_of_each(program, command, paths):
    """The lines of a command that takes one deck, and then its status, in order of the decks."""
    ran = run_in_bash(EACH, program, command, *paths)
    lines = []
    for line in ran.output.splitlines():
        lines.append(line)
        if line.startswith("status "):
            yield lines
            lines = []


def check_job(checks, path, answer, verified, explained, listed):
    name = path.stem
    if answer.is_too_large:
        wanted = ["too many places", limit_line(answer.job.limit)]
        checks.expect(f"verify {name}", wanted, verified)
        return
    checks.expect(f"verify {name}", [answer.verdict], verified)
    offending = [line for line in explained if line.startswith(OFFENDS)]
    checks.expect(f"why --all {name}", [*answer.all_offences()], offending)
    listing = listing_of(answer.job, answer.faults, answer.found)
    checks.expect(f"list {name}", [*listing, f"status {1 if answer.found else 0}"], listed)


ROW = re.compile(r"\w+ (fresh|in|out|search) [t-] [.*] .*|stored over by .*")
ONE_BYTE = re.compile(r"\b(\w{6,})-\1\b")


def check_path(checks, name, answer, explained):
    """The path to the verdict's place, with what its seeks and masks set; and a range of one byte
    is an address."""
    if answer.is_too_large or not answer.found:
        return
    first = [line for line in explained if not line.startswith("note: ")]
    first = [*takewhile("reached by".__ne__, first)]
    found = [line for line in first if ROW.fullmatch(line)]
    wanted = [*path_of(answer.job, answer.faults, answer.found)]
    checks.expect(f"the path of {name}", wanted, found)
    ranges = [line for line in explained if ONE_BYTE.search(line)]
    checks.expect(f"ranges of one byte of {name}", [], ranges)


def check_wide(checks, path, answer, listed):
    """The wide listing, whose last line is the verdict's."""
    if not answer.is_too_large:
        wanted = [*wide_of(answer.job, answer.faults, answer.found)]
        status = f"status {1 if answer.found else 0}"
        checks.expect(f"list --wide {path.stem}", [*wanted, status], listed)


def check_explained(checks, program, answers):
    """`why --of ADDRESS` has the verdict, and the path, the cause and the second path of the
    offence at ADDRESS, of several the one with the least reason; and no line `also`. If no offence
    is at ADDRESS, a note says so, and all is as without the option."""
    asked, wanted = [], []
    for path, answer in answers.items():
        if answer.is_too_large:
            continue
        addresses = sorted({place.address for place, _ in answer.found})
        for address in sorted({*addresses[:MOST_ASKED], *addresses[-1:]}):
            asked.append((address, path))
            wanted.append([*lines_of_offence(answer, address)])
        others = {place.address for place in answer.faults} - {*addresses}
        for address in sorted(others)[:1]:
            asked.append((address, path))
            wanted.append(None)
    words = [word for address, path in asked for word in (f"{address:X}", str(path))]
    ran = run("bash", "-c", OF, program, *words)
    found = [[]]
    for line in ran.output.splitlines():
        found[-1].append(line)
        found += [[]] * line.startswith("status ")
    usual = {path: run(program, "why", path) for address, path in asked}
    for (address, path), lines, seen in zip(asked, wanted, found[:-1], strict=True):
        name = f"why --of {address:06X} {path.stem}"
        if lines is None:
            note = f"note: no offence at {address:06X}\n"
            plain = usual[path]
            whole = f"{plain.output}{note}{plain.error}status {plain.status}"
            checks.expect(name, whole.splitlines(), seen)
            continue
        verdict = f"{path}: {answers[path].verdict}"
        told = [line for line in seen if not line.startswith(("note: ", "help: "))]
        checks.expect(name, [verdict, *lines, "status 1"], told)
        word = answers[path].least_reason(address)
        checks.expect(f"help of {name}", [f"help: chanv explain {word}"], seen[-2:-1])
    return sum(lines is not None for lines in wanted)


def lines_of_offence(answer, address):
    """What `why` writes of the offence at an address, behind the verdict."""
    reason = answer.least_reason(address)
    [found] = [[it for it in answer.found if (it[0].address, it[1]) == (address, reason)]]
    rows = [*path_of(answer.job, answer.faults, found)]
    over = [rows.pop()] if rows[-1].startswith("stored over by ") else []
    yield from rows
    yield answer.cause_of(address, reason)
    yield from over
    yield from second_path_of(answer.job, answer.faults, found)


def check_hang(checks, name, answer, noted):
    """After a yes, a note says from where on the program never ends by itself."""
    is_yes = not answer.is_too_large and not answer.found
    wanted = [*hang_note(endless(answer.job, answer.faults))] if is_yes else []
    found = [line for line in noted if " never ends " in line]
    checks.expect(f"the note on the end of {name}", wanted, found)


def behind_note(answer):
    """The note on a CCW behind the last one, to which no run comes."""
    storage, addresses = answer.job.storage, {place.address for place in answer.faults}
    place = Place(max(addresses) + 8, FRESH, False)
    ccw = ccw_at(storage, place.address)
    if ccw is None:
        return
    fault = own_fault(answer.job, place)
    is_well_formed = fault is None or NUMBER[fault] > NUMBER["not-in-table"]
    is_like_ccw = is_well_formed and storage[place.address + 5] == 0
    if ccw.address in addresses if ccw.is_transfer() else is_like_ccw:
        yield f"note: {place.address:06X} looks like a CCW, but no run comes there"


def check_behind(checks, name, answer, noted):
    """After a yes, a note names a CCW right behind the program's last one."""
    is_yes = not answer.is_too_large and not answer.found
    wanted = [*behind_note(answer)] if is_yes else []
    found = [line for line in noted if " looks like a CCW" in line]
    checks.expect(f"the note on what is behind {name}", wanted, found)
    return len(found)


def check_needs(checks, path, job, needed):
    opened = Answer(job.opened())
    if opened.is_too_large:
        wanted = [f"chanv: {path}: too many places", limit_line(job.limit), "status 2"]
    elif opened.found:
        # an explanation of the open job's verdict
        wanted, needed = [opened.verdict, "status 1"], [needed[0], needed[-1]]
    else:
        wanted = [*needs_of(needs(opened.job, opened.faults)), "status 0"]
    checks.expect(f"needs {path.stem}", wanted, needed)


def check_runs(checks, name, answer, random):
    """The machine agrees: a yes has only safe runs and is steady, and a no is shown by a run."""
    shown, used = runs(answer.job)
    if answer.found:
        place, reason = answer.found[0]
        is_shown = (place.address, reason) in shown
        checks.expect_that(f"a run shows the no of {name}", is_shown, sorted(shown))
        return
    checks.expect(f"the harms of runs of {name}", set(), shown)
    for _ in range(RUNS):
        harms = list(random_run(answer.job, used, random, LENGTH))
        checks.expect(f"the harms of a run of {name}", [], harms)


def check_amounts(checks):
    """A step moves no byte, some or all. No verdict shows that: what some bytes do, all do too."""
    for code, what, wanted in [("06", "store", {0, 1, 6}), ("07", "gather", {*range(7)})]:
        storage = bytes.fromhex(f"{code}00000800000006").ljust(16, b"\0")
        each = [it for events, _ in steps(storage, Place(0, FRESH, False), ()) for it in events]
        last = [values[-1] for name, *values in each if name == what]
        moved = {it if what == "store" else len(it) for it in last}
        checks.expect_that(f"how many bytes {code} may move", wanted <= moved, moved)


def check_examples(checks):
    for folder in (*FOLDERS, TEXTS):
        for name, verdict in verdicts_of(folder).items():
            answer = Answer(job_of(text_of(folder / name)))
            checks.expect(f"the verdict of {short(folder / name)}", verdict, answer.verdict)


def all_decks():
    return [deck for folder in (*FOLDERS, TEXTS) for deck in decks_of(folder)]


def decks_and_jobs(room, seed, count):
    """All example decks with their jobs, and random jobs, whose decks come into a folder."""
    for deck in all_decks():
        yield deck, job_of(text_of(deck))
    random = Random(seed)
    for number in range(count):
        job = random_job(random)
        deck = Path(room) / f"seed-{seed}-job-{number}"
        deck.write_text("".join(f"{line}\n" for line in deck_of(job)))
        yield deck, job


def jobs_of(random, count):
    examples = [job_of(text_of(deck)) for folder in FOLDERS for deck in decks_of(folder)]
    small = [job for job in examples if len(job.storage) <= MOST_STORAGE]
    for number in range(count):
        yield changed(random.choice(small), random) if number % 3 == 0 else random_job(random)


def compare(checks, built, seed, count):
    program, random = built.chanv(), Random(seed)
    check_examples(checks)
    check_amounts(checks)
    with tempfile.TemporaryDirectory() as room:
        answers = {}
        jobs = [*jobs_of(random, count), many_arguments(MANY_SEEKS)]
        for number, job in enumerate(jobs):
            path = Path(room) / f"seed-{seed}-job-{number}"
            path.write_text("".join(f"{line}\n" for line in deck_of(job)))
            answers[path] = Answer(job)
        verified = answers_of(program, "verify", answers)
        explained = answers_of(program, "why --all", answers)
        listed = answers_of_each(program, "list", answers)
        needed = answers_of_each(program, "needs", answers)
        noted = answers_of_each(program, "why", answers)
        told = zip(answers.items(), listed, needed, noted, strict=True)
        behind = 0
        for (path, answer), rows, lines, notes in told:
            said = verified[str(path)], explained[str(path)], rows
            check_job(checks, path, answer, *said)
            check_needs(checks, path, answer.job, lines)
            check_hang(checks, path.stem, answer, notes)
            check_path(checks, path.stem, answer, notes)
            behind += check_behind(checks, path.stem, answer, notes)
            if not answer.is_too_large:
                check_runs(checks, path.stem, answer, random)
        wide = answers_of_each(program, "list --wide", answers)
        for (path, answer), lines in zip(answers.items(), wide, strict=True):
            check_wide(checks, path, answer, lines)
        asked = check_explained(checks, program, answers)
        examples = {deck: Answer(job_of(text_of(deck))) for deck in all_decks()}
        asked += check_explained(checks, program, examples)
        checks.expect_that("many offences are explained", asked > len(answers) // 2, asked)
    checks.expect_that("some programs have a CCW behind them", 9 < behind < len(answers), behind)
    kinds = {answer.found[0][1] if answer.found else "yes" for answer in answers.values()}
    checks.expect_that("each verdict comes", len(kinds) == 17, sorted(kinds))
    yes = [it for it in answers.values() if not it.is_too_large and not it.found]
    hanging = [it for it in yes if endless(it.job, it.faults)]
    checks.expect_that("some jobs never end, others do", 0 < len(hanging) < len(yes), len(yes))


def check(checks, built):
    compare(checks, built, SEED, JOBS)


if __name__ == "__main__":
    given = argparse.ArgumentParser(prog="tests/model.py", description=__doc__.splitlines()[0])
    given.add_argument("--seed", type=int, default=SEED)
    given.add_argument("--jobs", type=int, default=JOBS)
    given.add_argument("--program", metavar="PATH")
    given = given.parse_args()
    sys.exit(finish([carry_out("model", compare, Built(given.program), given.seed, given.jobs)]))
