#!/usr/bin/env python3
"""Tries each mutant: those of single functions several with one check, the others alone.

    tests/mutants.py            all crates, lowest first
    tests/mutants.py CRATE..    only these
    tests/mutants.py --built    `make` and `make lib` built everything just now

tests/audit.py tries them too, those of a crate as soon as `rt ci` has proved it.

A mutant is an edit that makes the code or a definition wrong, so that the prover has to refuse it.
Those that a rule or a law names are crates/CRATE/must-fail/NAME.edit, the others
tests/mutants/CRATE/NAME.edit. `file:` and then pairs of `old:` and `new:` say what it changes. It
also names what has to refuse it, as `rt check` does but without the crate, in lines that `rt` takes
for comments:

    # function: extents::judge           for one that changes the body of this function
    # goals: returns-then-first-last     the goals that the search leaves open there, if any
    # clause: kept                       the clause of the function that refuses it
    # refused-by: laws::yes_is_safe      for any other: the law or function that has to refuse it

Each crate is first proved as it is, from what out/ has kept, unless --built says that this was just
done. Then a copy gets mutants of several functions, and only these functions are checked, with what
they call. What out/ has kept serves every reading, except for these functions and those that call
them. So functions that come to many others by calls are read together.

Each mutant has to be refused for a goal of its own: one that the search left open, or one whose
written answer no longer shows it. If it names a clause, a goal has to be about that clause. If it
names goals, it has to be each of these; the copy leaves them to the search by name, because `rt
check` would else look for what to offer, which takes as long again. A call of something that isn't
proved, a proof that lost a name, and a text that isn't Rattle don't count. A mutant that such a
thing hides is tried again without those that were refused with it, and in the end alone. What a
caller owes rests on the contracts of what it calls, never on their bodies, so a function is refused
here for its own body alone.

The others are wrong definitions, with the code that computes them, and constants, which several
functions read. For each of these a copy is checked as far as the law or the function that has to
refuse it, with the lemmas that its proof cites.

A check runs on each processor, the one with most mutants first. Those of mutants give way to other
processes.

It prints a line for each mutant, with the goals, those of the second sort as (answered), or with
the first complaint, and the processor time of each check. The last line is `N refused, M failed`,
and the status is 1 if M isn't 0.
"""

import argparse
import collections
import concurrent.futures
import contextlib
import itertools
import math
import os
import queue
import re
import shutil
import subprocess
import sys
import tempfile
from pathlib import Path

sys.dont_write_bytecode = True

from sources import CRATES, ROOT, items, uses  # noqa: E402

MUTANTS = ROOT / "tests/mutants"
# how many mutants a reading has: more take less of the processors, and leave some idle at the end
MOST = 45
# complaints about a text that can't be read, and more about one that rests on something missing
UNREAD = re.compile(
    "is not in scope|has no field|is no name|operand is missing|expected the end|cannot continue"
)
LOST = re.compile(f"{UNREAD.pattern}|has no `|was not admitted")
UNFIT = "an old text isn't in its file exactly once"
LINES = [it.partition(":") for it in (ROOT / "crates.txt").read_text().splitlines()]
STANDS_ON = {it[0].split()[0]: set(it[2].split()) for it in LINES if it[0][:1] not in ("", "#")}
# a refusal: the file, and why
REFUSED = re.compile(r"(?m)^(?:\./)?([^\s:]+):\d+:\d+: error: (.*)")
OPEN = re.compile(r"(?m)^note: (\S+: it is not proved that .*)")

# is_body: whether it changes the body of the function; changes: file, old and new text of each
Mutant = collections.namedtuple("Mutant", "path function is_body goals clause changes")


def paths_of(crate):
    """The files of a crate's mutants, those that a rule or a law names first."""
    folders = (CRATES / crate / "must-fail", MUTANTS / crate)
    return [path for folder in folders for path in sorted(folder.glob("*.edit"))]


def read_mutant(path):
    function, is_body, goals, clause, file, old, changes = "", False, [], "", "", "", []
    for line in path.read_text().splitlines():
        word, _, text = line.removeprefix("# ").partition(":")
        text = text.removeprefix(" ")
        if word in ("function", "refused-by"):
            function, is_body = text, word == "function"
        elif word == "goals":
            goals = text.split(", ")
        elif word == "clause":
            clause = text
        elif word == "file":
            file = text
        elif word == "old":
            old = text
        elif word == "new":
            changes.append((file, old, text))
    return Mutant(path, function, is_body, goals, clause, changes)


def clauses_of(goals):
    """The clauses of a function that goals are about: the last part of a goal's name, if it has it."""
    return {it[1] for it in (re.search(r"-clause-([\w']+)", goal) for goal in goals) if it}


def text_of(crate, file, texts):
    """The text of a crate's file, if these texts don't have another, or none if there is no file."""
    path = CRATES / crate / file
    return texts.get(file) or (path.read_text() if path.is_file() else "")


def applied(crate, mutant, texts):
    """The texts of files with the mutant, or None if an old text isn't in one exactly once."""
    texts = dict(texts)
    for file, old, new in mutant.changes:
        text = text_of(crate, file, texts)
        if text.count(old) != 1:
            return None
        texts[file] = text.replace(old, new)
    return texts


def folder_of(crate, mutant):
    """The folder of the proof of the mutant's function, with a `+` if the function calls itself."""
    *above, name = mutant.function.split("::")
    calls_itself = (CRATES / crate / "proofs").joinpath(*above, f"+{name}").is_dir()
    return "/".join(["proofs", *above, f"+{name}" if calls_itself else name])


def left_to_search(crate, mutant, texts):
    """These texts, with the goals that the mutant names left to the search by name."""
    folder = folder_of(crate, mutant)
    file, goals = f"{folder}/Answers.antt", f"Rattle.{crate}.{folder.replace('/', '.')}.Goals"
    text = text_of(crate, file, texts)
    uses = {
        r"(?m)^use .*[{ ]rules[,}]": "use Rattle.std.proofs.Common.{rules}",
        "Goals as goal": f"use {goals} as goal",
    }
    lines = [line for has, line in uses.items() if not re.search(has, text)]
    answers = [f"pub {it} : goal.{it}\n{it} c = search rules\n" for it in mutant.goals]
    return {**texts, file: "\n".join([*lines, text, *answers])} if answers else texts


def called(words, folder, what, gives_way=True):
    """The output of a command of `rt` in a crate's folder, and its status."""
    how = {"stdout": subprocess.PIPE, "stderr": subprocess.STDOUT, "stdin": subprocess.DEVNULL}
    words = [*["nice"] * gives_way, "rt", *words]
    with subprocess.Popen(words, cwd=folder, text=True, errors="replace", **how) as ran:
        said = ran.stdout.read()
        _, status, used = os.wait4(ran.pid, 0)
        ran.returncode = os.waitstatus_to_exitcode(status)
    spent = used.ru_utime + used.ru_stime
    print(f"{folder.name}, {what}: {spent:.0f} s of a processor", flush=True)
    return said, ran.returncode


def is_proved(crate):
    """Whether the crate is proved as it is, which takes no time if `make` has built it."""
    folder = CRATES / crate
    command = "lib" if (folder / "src/lib.rt").is_file() else "check"
    return called([command], folder, "as it is")[1] == 0


def below(crate):
    """The crate and all crates of the repository on which it stands."""
    found = {crate}
    for name in STANDS_ON[crate] & STANDS_ON.keys():
        found |= below(name)
    return found


def share(source, target):
    """Shares a folder of out/, gigabytes in all: `rt` replaces the files there, and edits none."""
    if source.is_dir():
        target.parent.mkdir(exist_ok=True)
        words = ["-T", source, target]
        # on another disk nothing can be shared
        if subprocess.call(["cp", "-al", *words], stderr=subprocess.DEVNULL):
            subprocess.check_call(["cp", "-a", *words])


@contextlib.contextmanager
def copy_of(crate):
    """A copy of the crates, with the libraries of those below this one, and its kept work."""
    with tempfile.TemporaryDirectory(prefix="mutants-") as room:
        copy = Path(room) / "crates"
        shutil.copytree(CRATES, copy, ignore=shutil.ignore_patterns("must-fail", "out"))
        shutil.copy(ROOT / "crates.txt", room)
        for one in below(crate):
            share(CRATES / one / "out/rlib", copy / one / "out/rlib")
        share(CRATES / crate / "out/incremental", copy / crate / "out/incremental")
        yield copy / crate


def is_proved_in_copy(crate):
    """Whether a copy of the crate is proved as it is. What that check keeps serves its mutants.

    In place it would wait for such checks of the crates below.
    """
    with copy_of(crate) as copy:
        # all mutants of the crate wait for this one
        is_well = called(["check", "--jobs=1"], copy, "as it is", gives_way=False)[1] == 0
        if is_well:
            kept = CRATES / crate / "out/incremental"
            shutil.rmtree(kept, ignore_errors=True)
            shutil.move(copy / "out/incremental", kept)
        return is_well


def check_with(crate, texts, functions, what):
    """The output of `rt check` on these functions, with these texts in place of the crate's."""
    only = [word for name in functions for word in ("--only", name)]
    with copy_of(crate) as copy:
        for file, text in texts.items():
            (copy / file).parent.mkdir(parents=True, exist_ok=True)
            (copy / file).write_text(text)
        return called(["check", "--jobs=1", *only], copy, what)[0]


def own_goals(crate, mutant, line, said):
    """The goals of its own for which the mutant's function, which has this line, is refused."""
    left = re.search("`search` did not prove ((?:`[^`]*`(?:, )?)*)", line)
    folder = re.escape(folder_of(crate, mutant))
    error = rf"(?m)^(?:\./)?{folder}/\w+\.antt:\d+:\d+: error: `([^`]*)`: (.*)"
    refused = [goal for goal, why in re.findall(error, said) if not LOST.search(why)]
    answers = [it if it in mutant.goals else f"{it} (answered)" for it in refused]
    found = [*dict.fromkeys((re.findall("`([^`]*)`", left[1]) if left else []) + answers)]
    is_refused = set(mutant.goals) <= set(found)
    return found if is_refused and {mutant.clause} <= {"", *clauses_of(found)} else []


def callers_first(crate, mutants):
    """These mutants of functions, those first whose functions come to most others by names."""
    named = uses([*items(crate)])
    come_to = {item.path(): {item} for item in named}
    for found in come_to.values():
        new = found
        while new:
            new = {it for one in new for it in named[one]} - found
            found |= new
    return sorted(mutants, key=lambda it: -len(come_to.get(it.function, ())))


def readings(crate, mutants):
    """Shares out mutants of single functions evenly, no two of a function or place to a reading.

    Gives the mutants of each reading and the texts of files with all of them: no texts for one that
    fits no file.
    """
    found, number = [], math.ceil(len(mutants) / MOST)
    for mutant in mutants:
        fitting = []
        for group, texts in found:
            more = applied(crate, mutant, texts)
            if more and texts and mutant.function not in [it.function for it in group]:
                fitting.append((group, texts, more))
        with_room = [it for it in fitting if len(it[0]) < len(mutants) / number]
        # one more reading costs more than a mutant too many
        where = with_room or (fitting if len(found) >= number else [])
        if where:
            group, texts, more = where[0]
            group.append(mutant)
            texts.update(left_to_search(crate, mutant, more))
        else:
            texts = applied(crate, mutant, {})
            found.append(([mutant], left_to_search(crate, mutant, texts) if texts else {}))
    return found


def tried(crate, mutants, texts):
    """Gives each mutant with the goals for which it is refused, or with none and the reason."""
    if not texts:
        yield mutants[0], [], UNFIT
        return
    functions = [mutant.function for mutant in mutants]
    said, hidden = check_with(crate, texts, functions, f"{len(mutants)} mutants"), []
    for mutant in mutants:
        line = re.search(rf"(?m)^fn {re.escape(f'{crate}::{mutant.function}')}: (.*)", said)
        error = re.search(r"(?m)^.*\berror(\[[\w-]+\])?: .*", said)
        goals = own_goals(crate, mutant, line[1], said) if line else []
        if goals or len(mutants) == 1 or line and line[1].startswith("proved"):
            told = [it[0] for it in (line, len(mutants) == 1 and error) if it]
            yield mutant, goals, "; ".join(told)[:240] or "`rt check` doesn't name its function"
        else:
            hidden.append(mutant)
    for again in [[it] for it in hidden] if hidden == mutants else [hidden]:
        for reading in readings(crate, again):
            yield from tried(crate, *reading)


def together(crate, reading):
    """Tries mutants of one reading: gives each name, whether it is refused, and why."""
    for mutant, goals, why in tried(crate, *reading):
        end = f"refused: {mutant.function}: {', '.join(goals)}" if goals else f"FAILED: {why}"
        yield mutant.path.stem, bool(goals), end


def alone(crate, mutant):
    """Tries one of the others, and gives the same for it."""
    texts = applied(crate, mutant, {})
    said = check_with(crate, texts, [mutant.function], mutant.path.stem) if texts else UNFIT
    errors = REFUSED.findall(said)
    # a mutant that can't be read shows nothing, nor does a proof that only lost a name
    unread = [
        why
        for file, why in errors
        if UNREAD.search(why) and (file in texts or file.startswith(("src/", "specs/")))
    ]
    found = [why for _, why in errors if not LOST.search(why)] + OPEN.findall(said)
    # without a file of answers the function itself has no proof, if its lemma is refused
    is_left = re.search(rf"fn {crate}::{mutant.function}: (not proved|no proof)\b", said)
    is_refused = bool(is_left and found and not unread)
    end = "refused" if is_refused else "FAILED"
    why = [*unread, *found, said[-240:]][0]
    yield mutant.path.stem, is_refused, f"{end}: {mutant.function}: {why}"


def told(crate, found):
    """Prints a line for each mutant, and counts both sorts."""
    found = list(found)
    print("\n".join(f"{crate}/{name}: {end}" for name, _, end in found), flush=True)
    refused = sum(is_refused for _, is_refused, _ in found)
    return refused, len(found) - refused


def not_proved(crate):
    print(f"{crate}: FAILED: it isn't proved as it is", flush=True)
    return 0, 1


def tasks(crate):
    """For each check of the crate's mutants how many it has, and what tries and counts them."""
    mutants = [read_mutant(path) for path in paths_of(crate)]
    bodies = callers_first(crate, [mutant for mutant in mutants if mutant.is_body])
    found = [(len(reading[0]), together(crate, reading)) for reading in readings(crate, bodies)]
    found += [(1, alone(crate, mutant)) for mutant in mutants if not mutant.is_body]
    return [(number, lambda found=it: told(crate, found)) for number, it in found]


class Trying:
    """Tries mutants in a pool: of the checks that wait first the one with most of them."""

    def __init__(self, pool):
        self.pool, self.results = pool, []
        self.waiting, self.numbers = queue.PriorityQueue(), itertools.count()

    def add(self, mutants, task):
        self.waiting.put((-mutants, next(self.numbers), task))
        self.results.append(self.pool.submit(lambda: self.waiting.get()[-1]()))

    def begin(self, crate, prove):
        """Adds what tries the crate's mutants, once `prove` says that the crate is proved."""

        def add_all():
            if not prove(crate):
                return not_proved(crate)
            for mutants, task in tasks(crate):
                self.add(mutants, task)
            return 0, 0

        self.add(MOST + 1, add_all)

    def end(self):
        """Prints the last line once all are tried, and gives the status."""
        refused, failed = map(sum, zip((0, 0), *(it.result() for it in self.results)))
        print(f"{refused} refused, {failed} failed")
        return 1 if failed or not refused else 0


def with_mutants():
    """The crates that have mutants, lowest first."""
    return sorted(filter(paths_of, STANDS_ON), key=lambda it: len(below(it)))


def arguments(crates):
    said = argparse.ArgumentParser(prog="tests/mutants.py", description=__doc__.splitlines()[0])
    said.add_argument("crates", nargs="*", metavar="CRATE", help="none: all, lowest first")
    said.add_argument("--built", action="store_true", help="make and make lib built it just now")
    given = said.parse_args()
    for crate in given.crates:
        if crate not in crates:
            said.error(f"{crate} has no mutants")
    return given


def main():
    lowest_first = with_mutants()
    given = arguments(lowest_first)
    with concurrent.futures.ThreadPoolExecutor(len(os.sched_getaffinity(0))) as pool:
        trying = Trying(pool)
        for crate in given.crates or lowest_first:
            is_well = given.built or is_proved(crate)
            trying.begin(crate, lambda _, is_well=is_well: is_well)
        return trying.end()


if __name__ == "__main__":
    sys.exit(main())
