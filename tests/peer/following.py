"""Follows a run of the emulator through the machine of tests/model, by the CCWs that it fetched."""

from channel import CHAIN_COMMAND, CHAIN_DATA, COMMANDS, LOW_BITS, ccw_at
from judging import FRESH, Place, first_place, kind_at, program_check, reachable, successors
from stepping import runs, steps


class Machine:
    """The machine of docs/MACHINE.md over a job. A state is a place, and what a seek gathered."""

    def __init__(self, job):
        self.job, self.storage = job, job.storage

    def ccw(self, place):
        return ccw_at(self.storage, place.address)

    def check(self, place):
        """The program check that comes there."""
        return program_check(self.storage, place)

    def onward(self, state):
        """The states that one step leads to."""
        return {stage for _, stage in steps(self.storage, *state) if isinstance(stage, tuple)}

    def holds(self, place, word):
        """Whether the channel can fetch this CCW there."""
        ccw = self.ccw(place)
        return ccw is not None and self.storage[place.address : place.address + 8] == word


def follow(machine, trace, is_late):
    """The states at the last CCW of a trace, those that come after it, all places on the way, and
    the states from which none led on as the trace does. A late run had its CCWs taken away."""
    last, states, places = set(), {(first_place(machine.job), ())}, set()
    for number, word in enumerate(trace):
        met = {state for state in states if machine.holds(state[0], word)}
        if not met:
            was_cleared = is_late and (not any(word[4:]) or number >= len(trace) - 2)
            return last, states, places, set() if was_cleared else last or states
        places |= {place for place, _ in met}
        sound = [state for state in met if not machine.check(state[0])]
        last, states = met, {after for state in sound for after in machine.onward(state)}
    return last, states, places, set()


def difference(machine, outcome, trace):
    """The class of what a run did that the machine can't do, or None. `trace` begins with the job's
    first CCW."""
    last, states, _, strayed = follow(machine, trace, outcome.is_late)
    if strayed:
        return led_astray(machine, strayed, outcome)
    if outcome.is_late:
        return None
    checks = {machine.check(place) for place, _ in last} - {None}
    if not outcome.is_checked():
        return passed_over(machine, last) if last and len(checks) == len(last) else None
    checks |= {machine.check(place) for place, _ in states} & {"misaligned", "outside-storage"}
    if outcome.is_outside():
        checks &= {"outside-storage", "data-outside"}
    if checks:
        return None
    return led_astray(machine, last, outcome, chained_bytes(trace) > 0xFFFF)


def led_astray(machine, states, outcome, is_long=False):
    """Why a run went on from these states to another CCW, or to a check of its own."""
    for place, _ in states:
        check, ccw = machine.check(place), machine.ccw(place)
        if check:
            return passed_over(machine, states)
        if ccw.is_transfer():
            continue
        chains = ccw.flags & CHAIN_DATA
        if place.entered == FRESH and ccw.code not in COMMANDS:
            return "data chain of a rejected command" if chains else "command of another device"
        if chains and kind_at(place, ccw) == "idle":
            both = "Recalibrate with chain data", "No Operation with both chaining flags"
            return both[COMMANDS[ccw.code].name == "no-operation"]
    return "chain of more than 65,536 bytes" if is_long else "unknown"


def passed_over(machine, states):
    """The class of a check that didn't come."""
    place, _ = next(iter(states))
    check, ccw = machine.check(place), machine.ccw(place)
    if check == "bad-format" and ccw.flags & LOW_BITS == 4:
        return "flag 04"
    if check == "data-outside":
        return "bytes outside storage that don't move"
    return f"no {check}"


def chained_bytes(trace):
    """How many bytes the data chain at the end of a trace has."""
    total = 0
    for word in reversed(trace):
        if word[0] & 0x0F == 8:
            continue
        if total and not word[4] & CHAIN_DATA:
            break
        total += int.from_bytes(word[6:])
    return total


def changes_itself(job):
    """Whether some run stores over a CCW or an argument that some run uses."""
    return any(reason.startswith("changes-") for _, reason in runs(job)[0])


def gathers_for_ever(job):
    """Whether a data chain comes back to a CCW of its own."""
    for place in reachable(job):
        seen = set()
        while place not in seen and place.entered != FRESH:
            seen.add(place)
            is_checked = program_check(job.storage, place)
            after = successors(place, ccw_at(job.storage, place.address)) if not is_checked else []
            place = after[0] if after else Place(0, FRESH, False)
        if place in seen:
            return True
    return False


# ---- wrong machines, each of which some run has to show


class NeverSkips(Machine):
    def onward(self, state):
        skipped = Place(state[0].address + 16, FRESH, False)
        is_transfer = self.ccw(state[0]).is_transfer()
        return {it for it in super().onward(state) if is_transfer or it[0] != skipped}


class SkipsFromTheFirst(NeverSkips):
    """The skip leads from the first CCW of a search's data chain, not from the last."""

    def onward(self, state):
        is_last = state[0].entered == "search" and not self.ccw(state[0]).is_transfer()
        return super().onward(state) if is_last else Machine.onward(self, state)


class LooksAtChainedCodes(Machine):
    def check(self, place):
        code = self.ccw(place).code if self.ccw(place) else 1
        chained = place.entered != FRESH and code & 0x0F == 0
        return super().check(place) or ("invalid-code" if chained else None)


class TransfersTwice(Machine):
    def check(self, place):
        check = super().check(place)
        return None if check == "transfer-not-allowed" else check


class TransferBeginsAnew(Machine):
    """A transfer in a data chain begins a new operation."""

    def onward(self, state):
        after = super().onward(state)
        if not self.ccw(state[0]).is_transfer():
            return after
        return {(place._replace(entered=FRESH), ()) for place, _ in after}


class CommandChainWins(Machine):
    """Chain command counts even with chain data."""

    def onward(self, state):
        ccw, after = self.ccw(state[0]), super().onward(state)
        both = CHAIN_DATA | CHAIN_COMMAND
        if not after or ccw.is_transfer() or ccw.flags & both != both:
            return after
        return {(Place(state[0].address + 8, FRESH, False), ())}


class FlagsOfTransfers(Machine):
    def check(self, place):
        flags = self.ccw(place).flags if self.ccw(place) else 0
        return super().check(place) or ("bad-format" if flags & LOW_BITS else None)


class CountsOfZero(Machine):
    def check(self, place):
        check = super().check(place)
        return None if check == "zero-count" else check


class OneByteMore(Machine):
    """A range may end one byte past storage."""

    def check(self, place):
        check, ccw = super().check(place), self.ccw(place)
        by_one = ccw and ccw.address + ccw.count == len(self.storage) + 1
        return None if check == "data-outside" and by_one else check


WRONG = [NeverSkips, SkipsFromTheFirst, LooksAtChainedCodes, TransfersTwice, TransferBeginsAnew]
WRONG += [CommandChainWins, FlagsOfTransfers, CountsOfZero, OneByteMore]
