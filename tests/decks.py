"""The verdicts, listings, explanations, pictures and needs of all example decks.

`chanv verify` prints a deck's line of the folder's verdicts.txt and nothing else. That line lists
the files next to the deck: NAME.list, NAME.why, NAME.all, NAME.dot and NAME.needs have the output
of `chanv list`, `why`, `why --all`, `graph` and `needs`, and NAME.notes what `why` writes on
standard error before its help. A file that is listed has to be there, and one that isn't listed
must not be.
"""

from building import short
from examples import (
    FOLDERS,
    TEXTS,
    decks_of,
    listed_with,
    rows_of,
    status_of,
    status_of_needs,
    verdicts_of,
)
from cures import said_beside, said_openly
from needs import NO_JOB
from running import Ran, run, text_of

COMMANDS = {"list": "list", "why": "why", "all": "why --all", "dot": "graph", "needs": "needs"}
ENDINGS = {*COMMANDS, "notes"}


def check_deck(checks, program, deck, verdict):
    name, status, listed = short(deck), status_of(verdict), listed_with(deck)
    there = {path.suffix[1:] for path in deck.parent.glob(f"{deck.stem}.*")} & ENDINGS
    checks.expect(f"the files next to {name}", sorted(listed), sorted(there))
    ran = run(program, "verify", given=deck)
    checks.expect(f"verify {name}", Ran(status, f"{verdict}\n"), ran)
    for ending in there - {"notes"}:
        text = text_of(deck.with_suffix(f".{ending}"))
        ended = status_of_needs(text) if ending == "needs" else status
        error = said_beside(deck) if ending in ("why", "all") else ""
        if ending == "needs" and ended == 1:
            error = NO_JOB + said_openly(text_of(deck))
        ran = run(program, *COMMANDS[ending].split(), given=deck)
        checks.expect(f"{COMMANDS[ending]} {name}", Ran(ended, text, error), ran)


def check(checks, built):
    program = built.chanv()
    for folder in (*FOLDERS, TEXTS):
        found = [deck.name for deck in decks_of(folder)]
        listed = sorted(row[0] for row in rows_of(folder))
        checks.expect(f"the decks of {short(folder)}/verdicts.txt", listed, found)
        for name, verdict in verdicts_of(folder).items():
            if name in found:
                check_deck(checks, program, folder / name, verdict)
    for row in rows_of(FOLDERS[1]):
        checks.expect_that(f"{row[0]}: the case shows something", len(row) == 4 and row[3], row)
