"""The supervisor of python/ over random starts, while others write and other threads ask.

The machine is that of tests/model/. Devices write into their areas, the machine stores where it
always does, and the caller writes what it guards, all without a question. Another thread acts
between a question and what comes of it, unless the lock is held. No program does harm, whatever the
seed; if the supervisor leaves a duty out, some program does. The rest is by the docstrings.
"""

import sys
import threading
from dataclasses import replace
from types import ModuleType

from building import HERE
from package import FOLDER, package, taken_in
from python_edges import SIZE, error_of, job_of
from running import text_of

sys.path.insert(0, str(HERE / "model"))

from flying import STORAGE, UNITS, Flights  # noqa: E402

SUPERVISOR = FOLDER / "chanv/supervisor.py"
SEEDS, STARTS = range(1, 4), 1000
# programs that are in flight at once
MANY = 9

# where the machine itself stores, what the caller guards, and the rest
MACHINE, GUARDED = (0x240, 0x20), (0x5C0, 0x20)
OWN = [(0, MACHINE[0]), (sum(MACHINE), STORAGE)]
# all storage from where the machine of the model stores nothing, for one that nobody else uses
ABOVE = {"own": [(0x80, 0xFFFF80)]}
# CCWs that end a program, which is what the caller guards, mostly
ENDS = bytes.fromhex("0300000020000001") * 4
# devices that write to areas; their units come after those of the programs
DEVICES = range(UNITS, UNITS + 2)

ASKED = "may_start(job, program, self._table)"
MAY = "may_write(area, self._table)"
LASTING = f"{MAY}\n            if permission:\n                self._table"
GRANTS = ("mask", "no-cylinder", "not-fetchable", "not-storable")
# takes certain refusals for a yes
IGNORING = f"(lambda it: Permission() if it.refusal in {{}} else it)({ASKED})"
# a duty, the text that does it, and the text in its place
CARELESS = [
    ("the look at the unit", "if unit in self._table:", "if unit is None:"),
    ("the question before a start", ASKED, "Permission()"),
    ("the table", ASKED, "may_start(job, program, [])"),
    ("the grants", ASKED, IGNORING.format(GRANTS)),
    ("the comparison", ASKED, IGNORING.format(("changed",))),
    ("the row of a program", "enter(unit, program)", "enter(unit, Row())"),
    ("the question before a write", "if permission:\n                put()", "put()"),
    ("the question before a lasting write", LASTING, LASTING.replace(MAY, "Permission()")),
    ("the row of a lasting write", "Row(stores=area))", "Row())"),
    ("the user's own storage", "take_in(source, own,", "take_in(source, [(0, 1 << 24)],"),
    ("the look at what is guarded", "may_write(area, [program])", "Permission()"),
    ("the row of what is guarded", "Row(keeps=area)", "Row()"),
    ("the lock", "= _Lock()", "= __import__('contextlib').nullcontext()"),
]


def module_of(text):
    """The module of the supervisor, made of this text."""
    made = ModuleType("chanv.careless")
    made.__package__ = "chanv"
    exec(compile(text, str(SUPERVISOR), "exec"), vars(made))
    return made


class Supervised:
    """The supervisor as the flights ask it. A leave waits while another thread holds the lock."""

    def __init__(self, chanv, module, accepts):
        self.chanv, self.module, self.storage = chanv, module, bytearray(STORAGE)
        everything = {"hanging": True, "interrupting": True, "ending_chains": True}

        def start_io(_unit, job):
            return self.begin(job) and accepts()

        self.supervisor = module.Supervisor(start_io, own=OWN, guarded=[GUARDED], **everything)
        self.programs, self.waiting, self.harm = {}, [], None

    def begin(self, job):
        self.arm_of = job.extents[0][0]
        return True

    def is_held(self):
        return getattr(self.supervisor._lock, "locked", lambda: False)()

    def made(self, job):
        lists = job.extents, job.fetch, job.store
        return self.chanv.Job(self.storage, job.start, *lists, job.device, job.mask, job.limit)

    def take_in(self, number, job):
        try:
            self.programs[number] = self.supervisor.take_in(self.made(job))
        except (self.chanv.NoAnswer, self.chanv.NoJob, self.module.Refused):
            return False
        return True

    def rows(self, number):
        program = self.programs[number]
        return program.mask, [*program.extents], [*program.fetch], [*program.store]

    def start(self, number, unit, job):
        try:
            return bool(self.supervisor.start(unit, self.made(job), self.programs[number]))
        except IndexError:
            return False  # without the lock another thread shortened the table

    def arm(self):
        """`start_io` begins with a prefix."""
        return self.arm_of

    def leave(self, unit):
        self.waiting.append(unit)
        while self.waiting and not self.is_held():
            if error_of(lambda: self.supervisor.leave(self.waiting.pop())):
                self.harm = "its row is lost"


class Threads(Flights):
    """Flights that go on while the supervisor is asked. `harm` is what another thread met first."""

    def __init__(self, chanv, module, seed):
        super().__init__(Supervised(chanv, module, lambda: self.below(8) != 0), seed)
        self.harm, self.is_within, self.areas, self.guarded = None, False, {}, ENDS
        self.put(GUARDED, ENDS)
        for name in ("take_in", "may_start", "may_write"):
            setattr(module, name, self.watched(getattr(chanv, name)))

    def watched(self, ask):
        def asking(*given, **named):
            answer = ask(*given, **named)
            if not self.is_within:
                self.is_within = True
                self.harm = self.harm or self.meanwhile()
                self.is_within = False
            return answer

        return asking

    def meanwhile(self):
        """What happens between a question and what comes of it."""
        self.store()
        if self.flights and self.below(2):
            return self.step(self.random.choice([*self.flights]))
        if self.supervisor.is_held() or self.below(2):
            return None
        self.write(self.below(STORAGE - 16), self.random.randbytes(8))
        return self.start_some()

    def put(self, area, held):
        self.storage[area[0] : sum(area)] = held

    def store(self):
        """Writes that need no question."""
        if self.below(32) == 0:
            self.guarded = self.random.choice([ENDS, self.random.randbytes(GUARDED[1])])
            self.put(GUARDED, self.guarded)
        for area in (*[MACHINE] * (self.below(32) == 0), *self.areas.values()):
            self.put(area, self.random.randbytes(area[1]))

    def write(self, address, held):
        area = (address, len(held))
        if self.supervisor.supervisor.write(area, lambda: self.put(area, held)):
            self.count("written")

    def start_some(self):
        """A device begins to write or ends it, now and then; and some program is tried."""
        if self.counts["held_back"] > 2000 + 50 * self.counts["started"]:
            return "nothing starts any more"
        unit, area = self.random.choice(DEVICES), (self.below(STORAGE - 0x40), 1 + self.below(0x40))
        if unit in self.areas:
            del self.areas[unit]
            self.supervisor.leave(unit)
        elif self.below(4) == 0 and self.supervisor.supervisor.begin_write(unit, area):
            self.areas[unit] = area
            self.counts["lasting"] = self.counts.get("lasting", 0) + 1
        return super().start_some()

    def step(self, unit):
        harm = super().step(unit)
        if self.storage[GUARDED[0] : sum(GUARDED)] != self.guarded:
            harm = "over what is guarded"
        return harm or self.harm or self.supervisor.harm


def check_careful(checks, chanv):
    for seed in SEEDS:
        flights = Threads(chanv, module_of(text_of(SUPERVISOR)), seed)
        checks.expect(f"harm in {STARTS} starts, seed {seed}", None, flights.fly(STARTS))
        each = all(flights.counts.values()) and "lasting" in flights.counts
        checks.expect_that(f"seed {seed} comes to everything", each, flights.counts)


def check_careless(checks, chanv):
    text = text_of(SUPERVISOR)
    for name, old, new in CARELESS:
        checks.expect_that(f"the supervisor has {name}", old in text, old)
        made = (Threads(chanv, module_of(text.replace(old, new)), seed) for seed in SEEDS)
        harm = next(filter(None, (flights.fly(STARTS) for flights in made)), None)
        checks.expect_that(f"without {name} a program comes to harm", harm, "no harm")


# ---- what is taken in

READ, END = "0600010020000010", "0300000020000001"
# a program at 000080, what takes it in, and what it is refused for otherwise
REFUSED = [
    ({0x80: "0600010040000010", 0x88: "0800008000000000"}, "hanging", "may-hang", 0x80),
    ({0x80: "0600010048000010", 0x88: END}, "interrupting", "interrupts", 0x80),
    ({0x80: "0600010040000010", 0x88: "03000100A0000001"}, "ending_chains", "ends-chaining", 0x88),
]


def refusal_of(ask):
    """The refusal with its value, or None for a program."""
    found = error_of(ask)
    if not hasattr(found, "permission"):
        return None
    return found.permission.refusal, found.permission.value, str(found)


def check_refused(checks, chanv):
    made = chanv.supervisor.Supervisor
    for words, name, refusal, at in REFUSED:
        job = job_of(chanv, words, 0x80)
        others = {it: it != name for _, it, *_ in REFUSED}
        for given in ({}, others):
            found = refusal_of(lambda: made(None, **ABOVE, **given).take_in(job))
            line = f"no: {refusal} {at:06X}"
            checks.expect(f"{refusal} with {given}", (refusal, at, line), found)
        found = made(None, **ABOVE, **{name: True}).take_in(job)
        checks.expect(f"{refusal}, taken in", taken_in(chanv, job), found)
    for start, own, guarded, refusal in [
        (0x80, ABOVE, [], None),
        (0x78, ABOVE, [], ("keeps-outside", 0x78)),
        (0xFF8, ABOVE, [], None),
        (0x80, {"own": [(0x84, 4), (0x80, 4)]}, [], None),
        (0x80, {"own": [(0x80, 7)]}, [], ("keeps-outside", 0x87)),
        (0x80, ABOVE, [(0, 0x80), (0x88, 8)], None),
        (0x80, ABOVE, [(0, 8), (0x87, 8)], ("keeps-outside", 0x87)),
    ]:
        job, about = job_of(chanv, {start: READ}, start), f"{start:X}, own {own}, {guarded} guarded"
        found = refusal_of(lambda: made(None, **own, guarded=guarded).take_in(job))
        checks.expect(f"at {about}", refusal, found and found[:2])
        every = made(None, own=iter([(0, 0x1000000)]), guarded=iter(guarded))
        found = refusal_of(lambda: every.take_in(job, **own))
        checks.expect(f"at {about}, for one user", refusal, found and found[:2])
    wide = made(None, own=[(0, SIZE)])
    loop = job_of(chanv, {0: "0600010040000010", 8: "0800000000000000"}, 0)
    checks.expect("a hang at 0", ("may-hang", 0), refusal_of(lambda: wide.take_in(loop))[:2])
    found = refusal_of(lambda: wide.take_in(job_of(chanv, {0: READ}, 0), own=[]))
    checks.expect("no storage of the user's own", ("keeps-outside", 0), found[:2])


def check_tries(checks, chanv):
    """A program that changes each time isn't taken in without end."""
    module, job, asked = module_of(text_of(SUPERVISOR)), job_of(chanv, {0x80: READ}, 0x80), []
    for count, code, wanted, calls in [
        (0, "CHANGED_MEANWHILE", taken_in(chanv, job), 1),
        (7, "CHANGED_MEANWHILE", taken_in(chanv, job), 8),
        (8, "CHANGED_MEANWHILE", None, 8),
        (1, "MEMORY", None, 1),
    ]:
        def take_in(job, own, **allowed):
            asked.append(job)
            if len(asked) <= count:
                raise chanv.NoAnswer(chanv.Answer[code])
            return chanv.take_in(job, own, **allowed)

        asked.clear()
        module.take_in = take_in
        found = error_of(lambda: module.Supervisor(None, **ABOVE).take_in(job))
        wanted = wanted or chanv.Answer[code]
        checks.expect(f"{code}, {count} times", wanted, getattr(found, "code", found))
        checks.expect(f"{code}, {count} times, how often", [job] * calls, asked)


# ---- starts, writes and leaves

def check_starts(checks, chanv):
    accepts, seen = [], []

    def start_io(unit, job):
        seen.append((unit, job, supervisor._lock.locked()))
        return accepts.pop()

    supervisor = chanv.supervisor.Supervisor(start_io, **ABOVE, guarded=[(0xF00, 8)])
    words = {0x80: READ, 0x90: "0600008420000004", 0xA0: "06000F0420000008"}
    jobs = {start: job_of(chanv, words, start) for start in words}
    programs = {start: supervisor.take_in(job) for start, job in jobs.items()}

    def start(unit, at):
        found = error_of(lambda: supervisor.start(unit, jobs[at], programs[at]))
        return found if isinstance(found, Exception) else str(found)

    for about, accepted, unit, at, wanted in [
        ("that the channel doesn't accept", False, 0x191, 0x80, "no: not-accepted"),
        ("once more", True, 0x191, 0x80, "yes"),
        ("on a unit in use", None, 0x191, 0x80, "no: unit-in-use"),
        ("over its CCW", None, 0x190, 0x90, "no: stores-over-kept 000084 by unit 401"),
        ("over what is guarded", None, 0x190, 0xA0, "no: stores-over-kept 000F04"),
        ("of the same on another unit", True, 0, 0x80, "yes"),
    ]:
        accepts[:], seen[:] = [accepted], []
        checks.expect(f"a start {about}", wanted, start(unit, at))
        calls = [] if accepted is None else [(unit, jobs[at], True)]
        checks.expect(f"a start {about}, what is called", calls, seen)
    accepts.clear()
    checks.expect("a start that breaks off", IndexError, type(start(7, 0x80)))
    checks.expect("a unit after it", "no: unit-in-use", start(7, 0x80))
    check_writes(checks, supervisor)
    for unit in (0x191, 0, 7):
        supervisor.leave(unit)
        found = error_of(lambda: supervisor.leave(unit))
        checks.expect("a leave of a free unit", KeyError, type(found))
    accepts.append(True)
    checks.expect("a start when all have left", "yes", start(0x190, 0x90))
    supervisor.leave(0x190)
    # what may be a condition code, or a forgotten return, frees no unit
    for accepted in (None, 0, 1):
        accepts.append(accepted)
        checks.expect(f"a start over {accepted}", TypeError, type(start(0x190, 0x90)))
        checks.expect(f"after {accepted}", "no: unit-in-use", start(0x190, 0x90))
        supervisor.leave(0x190)
    for call in (lambda: supervisor.leave(5), lambda: supervisor.write((0, 1), print)):
        found = error_of(lambda: supervisor.write((0, 1), call))
        checks.expect("a call of the supervisor under its lock", RuntimeError, type(found))
    checks.expect("a write after it", "yes", str(supervisor.write((0, 1), lambda: None)))
    source, program = jobs[0x90].source, programs[0x90]
    found = error_of(lambda: supervisor.start(0x190, source, program))
    checks.expect("a start of a source", TypeError, type(found))


def check_owned(checks, chanv):
    """What a user owns is part of what all users own, by areas of any order and number."""
    job = job_of(chanv, {0x80: READ}, 0x80)
    for all_users, own, refused in [
        ([(0x80, 8)], [(0, 0x1000)], None),
        ([(0x7C, 8), (0x84, 8)], [(0x86, 2), (0x80, 6)], None),
        ([(0x80, 7), (0x88, 8)], [(0, 0x1000)], "no: keeps-outside 000087"),
        ([(0, 0x1000)], [(0x81, 0x100)], "no: keeps-outside 000080"),
        ([(0, 0x80)], [(0x80, 8)], "no: keeps-outside 000080"),
        ([(0, 0x1000)], [], "no: keeps-outside 000080"),
    ]:
        supervisor = chanv.supervisor.Supervisor(None, own=all_users)
        found = error_of(lambda: supervisor.take_in(job, own))
        what = str(getattr(found, "permission", "taken in"))
        checks.expect(f"{own} of {all_users}", refused or "taken in", what)
    for own in [(0x800, 0x800), [(1,)], [(0.5, 1)]]:
        found = error_of(lambda: chanv.supervisor.Supervisor(None, own=own))
        is_refused = isinstance(found, (TypeError, ValueError))
        checks.expect_that(f"{own} isn't a list of areas", is_refused, found)


def check_writes(checks, supervisor):
    """Programs at 000080 are in flight."""
    seen = []

    def put():
        seen.append(supervisor._lock.locked())

    for area, line in [
        ((0x80, 0), "yes"),
        ((0x88, 8), "yes"),
        ((0x79, 8), "no: writes-over-kept 000080 by unit 401"),
        ((0xF07, 1), "no: writes-over-kept 000F07"),
    ]:
        seen.clear()
        checks.expect(f"a write to {area}", line, str(supervisor.write(area, put)))
        checks.expect(f"a write to {area}, what is called", [True] * (line == "yes"), seen)
        found = str(supervisor.begin_write(0x180, area))
        checks.expect(f"a write to {area} that lasts", line, found)
        if line == "yes":
            found = str(supervisor.begin_write(0x180, area))
            checks.expect("another on its unit", "no: unit-in-use", found)
            supervisor.leave(0x180)
    found = str(supervisor.begin_write(0x191, (0, 1)))
    checks.expect("a write on a program's unit", "no: unit-in-use", found)


def check_many(checks, chanv):
    """Of many programs in flight each is asked about: one alone is in the way."""
    supervisor = chanv.supervisor.Supervisor(lambda unit, job: True, **ABOVE)
    for unit in range(MANY):
        at = 0x80 + 0x20 * unit
        job = job_of(chanv, {at: f"06{at + 0x10:06X}20000008"}, at)
        checks.expect("a start", True, bool(supervisor.start(unit, job, supervisor.take_in(job))))
    for unit in range(MANY):
        at, others = 0x80 + 0x20 * unit, 0x80 + 0x20 * MANY
        # reads over its CCW; and keeps what it stores into
        for start, word, refusal, byte in [
            (others, f"06{at + 7:06X}20000002", "stores-over-kept", at + 7),
            (at + 0x10, END, "keeps-stored-over", at + 0x10),
        ]:
            job = job_of(chanv, {start: word}, start)
            line = f"no: {refusal} {byte:06X} by unit {unit}"
            found = str(supervisor.start(MANY, job, supervisor.take_in(job)))
            checks.expect(f"{refusal} of {MANY}", line, found)
        line = f"no: writes-over-kept {at:06X} by unit {unit}"
        checks.expect("a write", line, str(supervisor.write((at, 1), lambda: None)))
        checks.expect("a lasting write", line, str(supervisor.begin_write(MANY, (at, 1))))


def check_lasting(checks, chanv):
    """A program that keeps what a device writes waits until the device has left."""
    supervisor = chanv.supervisor.Supervisor(lambda unit, job: True, **ABOVE)
    job = job_of(chanv, {0x80: READ}, 0x80)
    program = supervisor.take_in(job)
    over = "no: keeps-stored-over 000087 by unit 0"
    for area, line in [((0x88, 8), "yes"), ((0x87, 1), over)]:
        checks.expect("a write that lasts", True, bool(supervisor.begin_write(0, area)))
        checks.expect(f"a start beside {area}", line, str(supervisor.start(1, job, program)))
        supervisor.leave(0)
        error_of(lambda: supervisor.leave(1))
    checks.expect("a start after it", "yes", str(supervisor.start(1, job, program)))


def check_given(checks, chanv):
    """What the caller forgets or mistakes is an error, and nothing starts: the users' storage, a
    program of another supervisor or of nobody, and a job over a copy of storage."""
    made, seen = chanv.supervisor.Supervisor, []
    checks.expect("no own", TypeError, type(error_of(lambda: made(None))))
    supervisor = made(lambda unit, job: seen.append(unit) or True, **ABOVE)
    job = job_of(chanv, {0x80: READ}, 0x80)
    program = supervisor.take_in(job)
    asks = {0x80: "0600010048000010", 0x88: END}
    interrupting = job_of(chanv, asks, 0x80)
    for about, asked, given in [
        ("that `take_in` made", job, taken_in(chanv, job)),
        ("that interrupts", interrupting, taken_in(chanv, interrupting)),
        ("of another supervisor", job, made(None, **ABOVE).take_in(job)),
        ("that is a row", job, chanv.Row((0, 8))),
    ]:
        found = error_of(lambda: supervisor.start(1, asked, given))
        checks.expect(f"a start of a program {about}", ValueError, type(found))
    storage = job.storage
    for about, over, wanted in [
        ("bytes", bytes(storage), TypeError),
        ("a view of bytes", memoryview(bytes(storage))[:], TypeError),
        ("a read-only view of bytes", memoryview(bytes(storage)).toreadonly(), TypeError),
        ("a read-only view of storage", memoryview(storage).toreadonly(), chanv.Permission),
        ("a view of storage", memoryview(storage), chanv.Permission),
    ]:
        other = replace(job, storage=over)
        found = error_of(lambda: chanv.may_start(other, program, []))
        checks.expect(f"may_start over {about}", wanted, type(found))
        found = error_of(lambda: supervisor.start(len(seen), other, program))
        checks.expect(f"a start over {about}", wanted, type(found))
    checks.expect("what started", [0, 1], seen)


def check_lock(checks, chanv):
    """Each call waits while another thread has the lock."""
    supervisor = chanv.supervisor.Supervisor(lambda unit, job: True, **ABOVE)
    job = job_of(chanv, {0x80: READ}, 0x80)
    program = supervisor.take_in(job)
    for name, given in [
        ("start", (1, job, program)),
        ("write", ((0, 1), lambda: None)),
        ("begin_write", (2, (0, 1))),
        ("leave", (1,)),
    ]:
        with supervisor._lock:
            other = threading.Thread(target=getattr(supervisor, name), args=given)
            other.start()
            other.join(0.05)
            checks.expect(f"{name} waits for the lock", True, other.is_alive())
        other.join(10)
        checks.expect(f"{name} comes to an end", False, other.is_alive())


def check(checks, built):
    chanv = package(built)
    package(built, "chanv.supervisor")
    check_refused(checks, chanv)
    check_tries(checks, chanv)
    check_starts(checks, chanv)
    check_owned(checks, chanv)
    check_many(checks, chanv)
    check_lasting(checks, chanv)
    check_given(checks, chanv)
    check_lock(checks, chanv)
    check_careful(checks, chanv)
    check_careless(checks, chanv)
