"""The worked supervisor over random starts, with others who write what no program in flight keeps.

The machine is that of tests/model/, and examples/c/supervisor.c decides what may start and what may
be written. The machine also stores by itself, without a question. No program in flight does harm,
whatever the seed. If the supervisor leaves out one of the checks that the law asks for, some
program does.
"""

import sys
import tempfile
from ctypes import CDLL, POINTER, byref, c_char
from pathlib import Path

from building import FLAGS, HERE, ROOT, SANITIZED, compile_c
from package import package
from running import Ran, run, text_of

sys.path.insert(0, str(HERE / "model"))

from flying import STORAGE, Flights  # noqa: E402

SUPERVISOR = ROOT / "examples/c/supervisor.c"
SEEDS, STARTS = range(1, 6), 4000

# What a careless supervisor leaves out: a name, the text of the check, and the text in its place.
# The middle two take certain refusals for a yes.
DENIED = "&taken->program, &refusal) != CHANV_YES)"
CARELESS = [
    ("beside", "(job, in_flight, ROWS,", "(job, in_flight, 0,"),
    (
        "grants",
        DENIED,
        "&taken->program, &refusal) == CHANV_NO && (refusal.code < CHANV_REFUSED_MASK"
        " || refusal.code > CHANV_REFUSED_NOT_STORABLE))",
    ),
    (
        "the comparison",
        DENIED,
        "&taken->program, &refusal) == CHANV_NO && refusal.code != CHANV_REFUSED_CHANGED)",
    ),
    ("hands off", "&refusal) == CHANV_YES;", "&refusal) <= CHANV_NO;"),
    ("a look at the unit", "in_flight[unit].program.device != 0", "unit < 0"),
    (
        "the users' own storage",
        "&source, &own,",
        "&source, &(struct chanv_areas){&(struct chanv_area)CHANV_ALL_STORAGE, 1},",
    ),
    ("a row of the prefixes", ".keeps = area", ".stores = area"),
    ("a prefix", "memcpy(storage + address, prefix, len);", "(void)storage;"),
]
# what its caller forgets: a name, and the word for it in c/flights.c
FORGOTTEN = [("memory of its own", "SHARES_MEMORY"), ("waiting for the end", "LEAVES_EARLY")]
# where the machine itself stores, and where the prefixes stand, as c/flights.c has them
MACHINE, PREFIXES = slice(0x240, 0x260), slice(0x5C0, 0x5E0)

MAY = "allowed = CHANV_ALLOW_ENDING_CHAINS"


class Supervisor:
    """The worked supervisor, over storage that it and Python share."""

    def __init__(self, c, library):
        self.c, self.library, self.storage = c, CDLL(str(library)), bytearray(STORAGE)
        self.library.flights_program.restype = POINTER(c.Program)
        self.library.flights_begin()
        self.bytes = c.bytes_at((c_char * STORAGE).from_buffer(self.storage))

    def made(self, job):
        extents, areas = self.c.Extent * len(job.extents), [job.fetch, job.store]
        made = [(self.c.Area * len(rows))(*rows) for rows in areas]
        lists = self.c.Extents(extents(*job.extents), len(job.extents))
        fetch, store = (self.c.Areas(rows, len(rows)) for rows in made)
        numbers = job.start, job.limit, job.device, job.mask
        return self.c.Job(self.bytes, lists, fetch, store, *numbers)

    def take_in(self, number, job):
        return self.library.flights_take_in(number, byref(self.made(job))) == 0

    def rows(self, number):
        """What the program needs: a mask, extents, and areas for fetching and for storing."""
        rows = self.library.flights_program(number).contents.rows
        extents, fetch, store = (
            [it.at[number] for number in range(it.len)]
            for it in (rows.extents, rows.fetch, rows.store)
        )
        areas = [[(it.start, it.len) for it in rows] for rows in (fetch, store)]
        return rows.mask, [(it.first, it.last) for it in extents], *areas

    def start(self, number, device, job):
        return self.library.flights_start(number, device, byref(self.made(job)))

    def arm(self):
        cylinder = self.library.flights_arm()
        return None if cylinder < 0 else cylinder

    def leave(self, device):
        self.library.flights_leave(device)

    def may_write(self, address, count):
        return self.library.flights_may_write(address, count)


class Beside(Flights):
    """Flights beside which the machine stores. No program may store over a prefix."""

    def __init__(self, supervisor, seed):
        super().__init__(supervisor, seed)
        self.prefixes = bytes(self.storage[PREFIXES])

    def step(self, unit):
        self.storage[MACHINE] = self.random.randbytes(MACHINE.stop - MACHINE.start)
        harm = super().step(unit)
        return harm or ("over a prefix" if self.storage[PREFIXES] != self.prefixes else None)


def compile_flights(library, supervisor, folder, seed, *forgotten):
    """A library with a supervisor, for each seed another, because it has a table of its own."""
    folder.mkdir(exist_ok=True)
    (folder / "supervisor.c").write_text(supervisor)
    linked = [f"-I{library}", f"-I{folder}", library / "libchanv.a", "-shared", "-fPIC"]
    linked += [f"-D{word}=1" for word in forgotten]
    return compile_c(HERE / "c/flights.c", folder / f"{seed}.so", *FLAGS, *linked)


def check_careful(checks, c, library, room):
    for seed in SEEDS:
        made = compile_flights(library, text_of(SUPERVISOR), room / "careful", seed)
        flights = Beside(Supervisor(c, made), seed)
        checks.expect(f"harm in {STARTS} starts, seed {seed}", None, flights.fly(STARTS))
        each = all(flights.counts.values())
        checks.expect_that(f"seed {seed} comes to everything", each, flights.counts)


def check_careless(checks, c, library, room):
    text = text_of(SUPERVISOR)
    for name, old, new in CARELESS:
        checks.expect(f"the supervisor has {name}, once", 1, text.count(old))
        check_harm(checks, c, library, room, name, text.replace(old, new))
    for name, word in FORGOTTEN:
        check_harm(checks, c, library, room, name, text, word)


def check_harm(checks, c, library, room, name, supervisor, *forgotten):
    made = (compile_flights(library, supervisor, room / name, seed, *forgotten) for seed in SEEDS)
    harms = (Beside(Supervisor(c, it), seed).fly(STARTS) for it, seed in zip(made, SEEDS))
    harm = next(filter(None, harms), None)
    checks.expect_that(f"without {name} a program comes to harm", harm, "no harm")


def answers_wanted():
    """What c/answers.c prints: only what was taken in starts, and writes know its rows."""
    for name, answer in [
        ("2 rows", "yes"),
        ("127 rows", "yes"),
        ("128 rows", "no-room"),
        ("2032 kept bytes", "yes"),
        ("2040 kept bytes", "no-room"),
        ("a code of no command", "no"),
        ("for a 2311", "yes"),
        ("for a 2314", "yes"),
        ("a loop", "no"),
        ("a loop", "yes"),
        ("outside its own storage", "no"),
        ("an interruption", "no"),
        ("an interruption", "yes"),
    ]:
        started = f"{name}: {answer}, {'started' if answer == 'yes' else 'held back'}"
        other = {"for a 2311": ", on a 2314 held back", "for a 2314": ", on a 2311 held back"}
        yield started + other.get(name, "")
    yield "prefix 07003F1840000006 1F003F1E40000001 0800080000000000 0000000A00008000: yes"
    yield "over the prefixes: yes, held back"
    yield "just before the prefixes: yes, started"
    yield "emulated 2 rows: yes, there"
    yield "emulated a code of no command: no, not there"
    yield "emulated chain data where nothing moves: no, not there"
    for write, allowed in [
        ("0 800", True),
        ("0 801", False),
        ("80F 1", False),
        ("810 8", True),
        ("8 FFFFFFFF", False),
        ("FFFFFFFF FFFFFFFF", True),
    ]:
        yield f"write {write}: {'allowed' if allowed else 'held back'}"


def compile_answers(library, supervisor, folder):
    folder.mkdir()
    (folder / "supervisor.c").write_text(supervisor)
    linked = [f"-I{library}", f"-I{folder}", f"-I{ROOT / 'examples/c'}", library / "libchanv.a"]
    return compile_c(HERE / "c/answers.c", folder / "answers", *FLAGS, *SANITIZED, *linked)


def check_answers(checks, library, room):
    """At the edges of what is taken in, under the sanitizers: only what was taken in starts."""
    text = text_of(SUPERVISOR)
    ran = run(compile_answers(library, text, room / "each answer"))
    wanted = "".join(f"{line}\n" for line in answers_wanted())
    checks.expect("each answer of chanv_take_in", Ran(0, wanted), ran)
    checks.expect("the supervisor says what programs may do, once", 1, text.count(MAY))
    careless = text.replace(MAY, "allowed = CHANV_ALLOW_ENDING_CHAINS | CHANV_ALLOW_HANGING")
    ran = run(compile_answers(library, careless, room / "any program"))
    checks.expect_that("or else it starts", ran != Ran(0, wanted), ran)


def check(checks, built):
    library = built.library()
    with tempfile.TemporaryDirectory() as folder:
        room = Path(folder)
        c = package(built, "chanv._c")
        check_careful(checks, c, library, room)
        check_careless(checks, c, library, room)
        check_answers(checks, library, room)
