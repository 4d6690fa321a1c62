"""What `chanv why` says after a no on how to cure it, and each cure, carried out.

    tests/run cures

After a no, standard error ends with lines `help: ..`. The model computes them for the verdict of
each example deck with a no, of 1,500 random jobs, and of programs at the edges of the rules: a line
for the deck that lends or grants what is missing, or what to change in the program, and last the
word to look up. Then the cure is carried out. With the line that help quotes in the deck, the
offence with this address and this reason is gone. A program that help parts in two is judged again
without the chain command that help names: the offence is gone. Both parts of two programs have a
yes. Before help comes a note, exactly if a CCW with a fault leads on, because chanv doesn't look
past it.
"""

import re
import sys
import tempfile
from collections import Counter
from pathlib import Path

from building import HERE
from examples import EXAMPLES, listed_with
from model import Answer, decks_and_jobs
from running import Ran, run, text_of

sys.path.insert(0, str(HERE / "model"))

from channel import (  # noqa: E402
    CHAIN_COMMAND,
    CHAIN_DATA,
    COMMANDS,
    LAST_CYLINDER,
    MASKS,
    ccw_at,
    has_cylinder,
    inhibited,
)
from judging import (  # noqa: E402
    FRESH,
    Job,
    argument_of,
    command_at,
    guarded,
    path_to,
    successors,
)
from writing import deck_of, job_of  # noqa: E402

SEED, JOBS = 66, 1500
UNSEEN = "note: chanv didn't look past the CCWs that have a fault; after a repair ask again"
EXCHANGED = re.compile(r"note: the whole range is lent, but for (?:storing|fetching)")
QUOTED = re.compile(r'help: with "((\w+) [^"]*)" .*')
ELSEWHERE = re.compile(r"help: store the data elsewhere, so that the (\w+ ?\w*) (\w+) stays")
PARTED = re.compile(
    r"help: if (\w+) should use what is read there, end the program at (\w+) by switching off "
    r"chain command, run that part, and then judge the part from \1 on"
)
CUT = re.compile(
    r"help: (\w+) has been carried out by then: end the program at (\w+) by switching off chain "
    r"command, run that part, and then judge the part from (\w+) on"
)
CHAINED = re.compile(
    r"help: (\w+) chains data to here; switch chain data off there if its data ends with it"
)
SET_FILE_MASK = 0x1F
# what comes before a line of a deck with one of these words
BEFORE = {"extent": "fetch|store|storage", "fetch": "store|storage", "store": "storage"}


def strictest(classes):
    """The strictest mask that inhibits no command of these classes."""
    serving = [mask for mask in MASKS if not classes & inhibited(mask)]
    most = [mask for mask in serving if all(inhibited(mask) >= inhibited(it) for it in serving)]
    # of masks that inhibit the same there is none
    [mask] = most
    return mask


EVERY_CLASS = {command.mask_class for command in COMMANDS.values()}


def quoted_by(answer, place, reason):
    """The line of help for a reason that a line of a deck may cure, or none."""
    job, ccw = answer.job, ccw_at(answer.job.storage, place.address)
    permitted = EVERY_CLASS - inhibited(job.mask)
    if reason in ("store-not-lent", "fetch-not-lent"):
        word = reason.partition("-")[0]
        line = f"{word} {ccw.address:06X} {ccw.count:06X}"
        yield f'help: with "{line}" these bytes are lent'
    elif reason == "inhibited":
        command = command_at(place, ccw)
        mask = strictest(permitted | {command.mask_class})
        yield f'help: with "mask {mask:02X}" {command.name} is permitted'
    elif reason == "weakens-mask":
        byte = job.storage[ccw.address]
        if byte in MASKS:
            mask = strictest(permitted | EVERY_CLASS - inhibited(byte))
            yield f'help: with "mask {mask:02X}" the program may set {byte:02X}'
    elif reason == "seek-outside":
        cylinder = cylinder_of(job, place, ccw)
        if cylinder is not None and cylinder <= LAST_CYLINDER:
            line = f"extent {cylinder:03} {cylinder:03}"
            yield f'help: with "{line}" cylinder {cylinder} is granted'


def cylinder_of(job, place, ccw):
    """The cylinder that is in no extent, if that is the cause."""
    if command_at(place, ccw).name == "recalibrate":
        return 0
    argument = bytes(job.storage[at] for at in argument_of(job.storage, place.address))
    cylinder = int.from_bytes(argument[2:4])
    is_granted = any(argument[:2]) or has_cylinder(job.extents, cylinder)
    return None if is_granted else cylinder


def offending(answer):
    """The path to the verdict's place, and its reason."""
    address, reason = answer.found[0][0].address, answer.found[0][1]
    ends = {place for place, word in answer.found if (place.address, word) == (address, reason)}
    return path_to(answer.job, answer.faults, ends.__contains__), reason


def meets(data, address):
    """Whether data meets the CCW at an address."""
    return data.start < address + 8 and address < data.stop


def changed_by(answer, place, reason):
    """What a store changes, the address that help names, and the path to a place there."""
    job, faults = answer.job, answer.faults
    ccw = ccw_at(job.storage, place.address)
    data = range(ccw.address, ccw.address + ccw.count)
    if reason == "changes-ccw":
        address = min(it.address for it in faults if meets(data, it.address))
        return "CCW at", address, path_to(job, faults, lambda it: it.address == address)
    byte = min(guarded(job, faults)[1].intersection(data))
    path = path_to(job, faults, lambda it: byte in guarded(job, {it: None})[1])
    return "argument of", path[-1].address, path


def parting_of(answer, place, path):
    """Where the first part ends and the second begins, if what is read is there before its use."""
    job, before = answer.job, path[:-1]
    begins = ccw_at(job.storage, path[-1].address)
    commands = [it for it in before if not ccw_at(job.storage, it.address).is_transfer()]
    is_read_before = any(it.address == place.address for it in before)
    if path[-1].entered != FRESH or not is_read_before or not commands or begins.is_transfer():
        return None
    last = commands[-1]
    command = command_at(last, ccw_at(job.storage, last.address))
    is_search = last.entered == "search" or command is not None and command.kind == "search"
    return None if is_search else (path[-1].address, last.address)


def leads_to(job, faults, start, address, without=None):
    """Whether a place leads to an address, also if no place at another address leads on."""
    seen, left = set(), [start]
    while left:
        place = left.pop()
        if place in seen or faults[place] or place.address == without:
            continue
        seen.add(place)
        after = successors(place, ccw_at(job.storage, place.address))
        if any(it.address == address for it in after):
            return True
        left += after
    return False


def cut_of(answer, path, taker):
    """Where a seek that has been carried out may end a program, and where the rest then begins."""
    job, faults = answer.job, answer.faults

    def is_command(place):
        ccw = ccw_at(job.storage, place.address)
        return bool(ccw) and not ccw.is_transfer()

    seeks = [at for at, it in enumerate(path[:-1]) if it.address == taker and it.entered == FRESH]
    if not seeks or ccw_at(job.storage, taker).code == SET_FILE_MASK:
        return None
    [at, *_] = seeks
    firsts = [it for it in range(at + 1, len(path)) if path[it].entered == FRESH and is_command(path[it])]
    if not firsts:
        return None
    [*_, last] = filter(is_command, path[: firsts[0]])
    changing = path[-1]
    is_again = leads_to(job, faults, changing, taker)
    if is_again or leads_to(job, faults, path[0], changing.address, last.address):
        return None
    return last.address, path[firsts[0]].address


def chained_from(answer, path):
    """The CCW that chains data to the end of a path, if one does."""
    ccws = [(it, ccw_at(answer.job.storage, it.address)) for it in path[:-1]]
    before = [it for it, ccw in ccws if ccw and not ccw.is_transfer()]
    return before[-1] if before and path[-1].entered != FRESH else None


def help_of(answer):
    """The lines of help that the model wants."""
    path, reason = offending(answer)
    place = path[-1]
    if reason.startswith("changes-"):
        what, address, second = changed_by(answer, place, reason)
        yield f"help: store the data elsewhere, so that the {what} {address:06X} stays"
        parts = parting_of(answer, place, second)
        if parts:
            user, last = parts
            yield (
                f"help: if {user:06X} should use what is read there, end the program at {last:06X} "
                "by switching off chain command, run that part, and then judge the part from "
                f"{user:06X} on"
            )
        cut = cut_of(answer, path, address) if what == "argument of" else None
        if cut:
            last, first = cut
            yield (
                f"help: {address:06X} has been carried out by then: end the program at {last:06X} "
                "by switching off chain command, run that part, and then judge the part from "
                f"{first:06X} on"
            )
    elif reason == "zero-count" and (before := chained_from(answer, path)):
        yield (
            f"help: {before.address:06X} chains data to here; switch chain data off there if its "
            "data ends with it"
        )
    else:
        yield from quoted_by(answer, place, reason)
    yield f"help: chanv explain {reason}"


def said_beside(deck, name="", is_among=False):
    """What `why` writes on standard error beside the answer on an example, which is an input with
    that name, or standard input alone: its notes, and after a no help."""
    notes = text_of(deck.with_suffix(".notes")) if "notes" in listed_with(deck) else ""
    answer = Answer(job_of(text_of(deck)))
    lines = [*notes.splitlines(), *(help_of(answer) if answer.found else ())]
    front = f"{name}: " if is_among else ""
    return "".join(f"{front}{line}\n" for line in lines)


def said_openly(deck):
    """How to cure the no on a deck's program under its open job, as `why` says it."""
    answer = Answer(job_of(deck).opened())
    lines = [UNSEEN] * is_unseen(answer) + [*help_of(answer)]
    return "".join(f"{line}\n" for line in lines)


def is_unseen(answer):
    """Whether a CCW with a fault of its own leads on: a transfer, or one with a chaining flag."""
    ccws = [ccw_at(answer.job.storage, it.address) for it, fault in answer.faults.items() if fault]
    chaining = CHAIN_DATA | CHAIN_COMMAND
    return any(ccw and (ccw.is_transfer() or ccw.flags & chaining) for ccw in ccws)


def with_line(deck, line):
    """The deck with another line, in place of its mask or before the lines that come later."""
    word = line.partition(" ")[0]
    if word == "mask":
        return re.sub(r"(?m)^mask ..$", line, deck, count=1)
    return re.sub(rf"(?m)^({BEFORE[word]}) ", rf"{line}\n\1 ", deck, count=1)


def without_chain_command(deck, address):
    return without_flag(deck, address, CHAIN_COMMAND)


def without_flag(deck, address, flag):
    """The deck with a flag off in a CCW."""
    [digits] = re.findall(rf"(?m)^put {address} (\w+)$", deck)
    flags = int(digits[8:10], 16)
    off = f"{digits[:8]}{flags & ~flag:02X}{digits[10:]}"
    return deck.replace(f"put {address} {digits}\n", f"put {address} {off}\n")


def offences_said(program, deck):
    """The pairs of an address and a reason that `why --all` lists, and its causes."""
    lines = run(program, "why", "--all", given=deck.encode()).output.splitlines()
    pairs = [tuple(line.split(" ")[1:]) for line in lines if line.startswith(("no ", "also "))]
    causes = [line for line in lines if line.startswith("because ")]
    return dict(zip(pairs, causes)), "yes" in lines


def check_cures(checks, program, name, deck, answer, said, tried):
    """Carries out what the lines of help say."""
    place, reason = answer.found[0]
    pair = f"{place.address:06X}", reason
    for line in said:
        quoted, parted = QUOTED.fullmatch(line), PARTED.fullmatch(line)
        cut, chained = CUT.fullmatch(line), CHAINED.fullmatch(line)
        if quoted:
            left, _ = offences_said(program, with_line(deck, quoted[1]))
            # a seek to a cylinder that is granted may have a wrong head
            is_gone = pair not in left or left[pair].startswith("because head ")
            checks.expect_that(f"{name} with {quoted[1]}", is_gone, left)
            tried[reason] += 1
        elif parted:
            last = parted[2]
            left, _ = offences_said(program, without_chain_command(deck, last))
            checks.expect_that(f"{name} that ends at {last}", pair not in left, left)
            tried[f"{reason}, parted"] += 1
        elif cut:
            _, last, first = cut.groups()
            left, _ = offences_said(program, without_chain_command(deck, last))
            checks.expect_that(f"{name} that ends with the seek at {last}", pair not in left, left)
            rest = re.sub("(?m)^start .*$", f"start {first}", deck)
            left, _ = offences_said(program, rest)
            checks.expect_that(f"{name} from {first} on", pair not in left, left)
            tried[f"{reason}, cut"] += 1
        elif chained:
            left, _ = offences_said(program, without_flag(deck, chained[1], CHAIN_DATA))
            checks.expect_that(f"{name} without a chain from {chained[1]}", pair not in left, left)
            tried[f"{reason}, chained"] += 1
        elif ELSEWHERE.fullmatch(line):
            tried[f"{reason}, elsewhere"] += 1


def check_deck(checks, program, path, job, tried):
    answer, name = Answer(job), path.stem
    if answer.is_too_large or not answer.found:
        return
    ran = run(program, "why", path)
    said = ran.error.splitlines()
    helping = [line for line in said if line.startswith("help: ")]
    checks.expect(f"help on {name}", [*help_of(answer)], helping)
    notes = said[: len(said) - len(helping)]
    wanted = [UNSEEN] if is_unseen(answer) else []
    others = [line for line in notes if not EXCHANGED.fullmatch(line)]
    checks.expect(f"notes on {name}", wanted, others)
    checks.expect(f"help on {name} comes last", helping, said[len(notes) :])
    tried["unseen" if wanted else "all seen"] += 1
    check_cures(checks, program, name, text_of(path), answer, helping, tried)


def check_names(checks, program):
    """Among several inputs, the name of its input comes before each line of help."""
    deck = EXAMPLES / "changes-itself.deck"
    helping = "help: store the data elsewhere, so that the CCW at 000818 stays\n"
    helping += "help: if 000818 should use what is read there, end the program at 000810 by "
    helping += "switching off chain command, run that part, and then judge the part from 000818 "
    helping += "on\n"
    helping += "help: chanv explain changes-ccw\n"
    among = "".join(f"-: {line}\n" for line in helping.splitlines())
    why = text_of(deck.with_suffix(".why"))
    verdict = why.partition("\n")[0]
    for words, wanted in [
        (["why"], Ran(1, why, helping)),
        (["why", "-"], Ran(1, why, helping)),
        (["why", "--all"], Ran(1, why, helping)),
        (["verify", deck], Ran(1, f"{deck}: {verdict}\n")),
        (["why", deck], Ran(1, f"{deck}: {why}", helping)),
        (["why", "--all", deck], Ran(1, f"{deck}: {why}", helping)),
        (["why", "--of", "810", deck], Ran(1, f"{deck}: {why}", helping)),
        (["why", "-", "-"], Ran(2, f"-: {why}", None)),
    ]:
        ran = run(program, *words, given=deck)
        if wanted.error is None:
            is_so = ran.output == wanted.output and ran.error.startswith(among)
            checks.expect_that(f"chanv {words}", is_so, ran)
        else:
            checks.expect(f"chanv {words}", wanted, ran)


# a program that reads in the CCW that it runs next: the start, its CCWs, and both parts
READS_ITS_NEXT = [
    "0600081040000008",
    "0300000040000001",
    "0300000000000001",
]


def check_parts(checks, program):
    """Programs that are judged in two parts: each part has a yes."""
    storage = bytes(0x800) + bytes.fromhex("".join(READS_ITS_NEXT)) + bytes(8)
    job = Job(storage, 0x800, 2314, 0, [(0, 19)], [], [(0x810, 8)])
    loader = "".join(f"{line}\n" for line in deck_of(job))
    for name, deck, second, last in [
        ("index-seek", text_of(EXAMPLES / "index-seek.deck"), "000818", "000810"),
        ("a loader", loader, "000810", "000808"),
    ]:
        with tempfile.TemporaryDirectory() as room:
            path = Path(room) / "my.deck"
            path.write_text(deck)
            said = run(program, "why", path).error
        parted = PARTED.search(said)
        found = parted.groups() if parted else said
        checks.expect(f"where {name} is parted", (second, last), found)
        for part, text in [
            ("first", without_chain_command(deck, last)),
            ("second", re.sub(r"(?m)^start \w+$", f"start {second}", deck)),
        ]:
            ran = run(program, given=text.encode())
            checks.expect(f"the {part} part of {name}", Ran(0, "yes\n"), ran)


# programs that read over a CCW of their own: what comes after the read at 000810, the CCW that it
# reads over, and where help parts each: before that CCW, and after the CCW before it. A first part
# can't end at a search or within a data chain, and a second part can't begin with a transfer.
READING = {
    "after a search": (
        "3100090040000005 0800081800000000 06000A0020000050",
        "000828",
        None,
    ),
    "after the data chain of a search": (
        "3100090080000002 0000090240000003 0800081800000000 06000A0020000050",
        "000830",
        None,
    ),
    "within a data chain": ("06000A0080000008 00000A0800000008", "000820", None),
    "at a transfer": (
        "0300000040000001 0800083000000000 0300000040000001 06000A0020000050",
        "000820",
        None,
    ),
    "after a data chain": (
        "06000A0080000008 00000A0840000008 06000A1020000050",
        "000828",
        ("000828", "000820"),
    ),
}
# the cylinders of seeks outside the extents, and the line that help quotes, if the device has it
SEEKS = {202: "extent 202 202", 203: None}


def job_over(ccws, argument=bytes(5)):
    """A job of these CCWs from 000800 on, with an argument at 000900; all areas are lent."""
    storage = bytearray(0x1000)
    program = bytes.fromhex(ccws)
    storage[0x800 : 0x800 + len(program)] = program
    storage[0x900 : 0x900 + len(argument)] = argument
    whole = [(0, len(storage))]
    return Job(bytes(storage), 0x800, 2314, 0, [(10, 19)], whole, whole)


def help_over(checks, program, room, name, job):
    """The lines of help on a job, which are the model's too."""
    path = room / "my.deck"
    path.write_text("".join(f"{line}\n" for line in deck_of(job)))
    helping = [it for it in run(program, "why", path).error.splitlines() if it.startswith("help: ")]
    checks.expect(f"the model's help {name}", [*help_of(Answer(job))], helping)
    return helping


def check_where_parted(checks, program, room):
    for name, (after, over, parts) in READING.items():
        front = f"3100090040000005 0800080000000000 06{over}40000008"
        job = job_over(f"{front} {after}")
        helping = help_over(checks, program, room, name, job)
        elsewhere = f"help: store the data elsewhere, so that the CCW at {over} stays"
        checks.expect(f"what is read over {name}", [elsewhere], helping[:1])
        parted = [it.groups() for it in map(PARTED.fullmatch, helping) if it]
        checks.expect(f"where a program is parted {name}", [parts] if parts else [], parted)


def check_cylinders(checks, program, room):
    for cylinder, line in SEEKS.items():
        job = job_over("0700090000000006", bytes([0, 0, 0, cylinder, 0, 0]))
        helping = help_over(checks, program, room, f"on cylinder {cylinder}", job)
        quoted = [it[1] for it in map(QUOTED.fullmatch, helping) if it]
        checks.expect(f"the line for cylinder {cylinder}", [line] if line else [], quoted)


def check(checks, built):
    program, tried = built.chanv(), Counter()
    with tempfile.TemporaryDirectory() as room:
        for path, job in decks_and_jobs(room, SEED, JOBS):
            check_deck(checks, program, path, job, tried)
        check_where_parted(checks, program, Path(room))
        check_cylinders(checks, program, Path(room))
    check_names(checks, program)
    check_parts(checks, program)
    changes = [f"changes-{what}" for what in ("ccw", "argument")]
    kinds = [f"{reason}, {how}" for reason in changes for how in ("elsewhere", "parted")]
    kinds += ["store-not-lent", "fetch-not-lent", "inhibited", "weakens-mask", "seek-outside"]
    kinds += ["changes-argument, cut", "zero-count, chained", "unseen", "all seen"]
    checks.expect("each kind of cure and of note comes", sorted(kinds), sorted(tried))
