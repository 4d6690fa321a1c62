"""What the package of python/ hands to the library, seen by a watcher between the two.

A second copy of the package asks the library under test through the watcher, which sees the structs
of each call, and changes storage between two calls of one question. It compares where storage lies
with the caller's address, each list with the caller's rows, and each number with the caller's. The
widths of numbers are the header's, and what has to come of a change follows from its rules. Without
memory no call has an answer. A library that is named goes before the one beside the package.
"""

import mmap
import os
import re
import shutil
import sys
import tempfile
from ctypes import addressof, byref, c_char, c_char_p, c_void_p, cast, sizeof, string_at
from importlib import util
from pathlib import Path

import python_edges
from library import LAYOUT
from package import FOLDER, package, shared_library, taken_in
from python import soname
from python_edges import EACH, EVERYWHERE, FIELDS, HEADER, LOOP, error_of, job_of, storage_of
from running import Ran, run, text_of

# the calls about a job that copy its storage; `find` is added where it is asked, and so are those
# that never copy
COPYING, AS_IT_IS = "verify places why text".split(), ["take_in", "may_start"]

# the code of a call that had no memory
MEMORY = 3

# a seek, a search, a write and a read, and in its place a CCW that does nothing
LONG = {
    0x800: "0700090040000006",
    0x808: "3100090240000005",
    0x810: "0800080800000000",
    0x818: "05000A0040000050",
    0x820: "06000B0020000050",
    0x900: "0000000C00000000",
}
SHORT = bytes.fromhex(python_edges.SHORT)
# no job will do for these: the code isn't in the table, and the count is zero
UNKNOWN, ZERO = bytes.fromhex("0900090040000006"), bytes.fromhex("0300000020000000")
# the first line and the code of their explanations
SAID = {UNKNOWN: ("no 000800 not-in-table", " 09 "), ZERO: ("no 000800 zero-count", " 03 ")}


class Watcher:
    """The library, except that `before` and `after` see the name and the arguments of each call."""

    def __init__(self, real):
        self.real = real
        self.rest()

    def rest(self):
        self.before = self.after = lambda name, given: None

    def __getattr__(self, name):
        call = getattr(self.real, name)

        def seen(*given):
            self.before(name, given)
            answer = call(*given)
            self.after(name, given)
            return answer

        # the package says of which type a word is
        return call if name.endswith("_word") else seen


def watched(built):
    """A copy of the package that no other test asks, and its watcher."""
    real = package(built, "chanv._c").library
    where = {"submodule_search_locations": [str(FOLDER / "chanv")]}
    found = util.spec_from_file_location("watched", FOLDER / "chanv/__init__.py", **where)
    chanv = sys.modules["watched"] = util.module_from_spec(found)
    found.loader.exec_module(chanv)
    chanv._c.library = Watcher(real)
    return chanv, chanv._c.library


# ---- where storage lies

def storages(held):
    """Storage of each type, and where it lies."""
    mapped, words = mmap.mmap(-1, len(held)), bytearray(held)
    mapped[:] = held
    yield "bytes", held, cast(c_char_p(held), c_void_p).value
    for name, storage in [
        ("bytearray", bytearray(held)),
        ("memoryview", memoryview(bytearray(held))),
        ("memoryview of words", memoryview(words).cast("I")),
        ("mmap", mapped),
    ]:
        yield name, storage, addressof(c_char.from_buffer(storage))


def questions(chanv, storage, program, **copy):
    """Each call that reads storage, by its name."""
    job = chanv.Job(storage, 0x800, EACH, EVERYWHERE, EVERYWHERE, **copy)
    for name in COPYING:
        yield name, lambda call=getattr(chanv, name): call(job)
    yield "take_in", lambda: taken_in(chanv, job)
    yield "may_start", lambda: chanv.may_start(job, program, [])
    yield "find", lambda: chanv.find(storage, **copy)


def check_storage(checks, chanv, watcher):
    """Each call gets a copy of what can change, of its whole length, and with `copy=False` none;
    what is right whatever writes storage never gets one."""
    held, seen = bytes(storage_of(LOOP)), []
    program = taken_in(chanv, job_of(chanv, LOOP, 0x800))

    def note(name, given):
        handed = given[0]._obj
        handed = getattr(handed, "storage", handed)
        seen.append((handed.at == own, handed.len))

    watcher.before = note
    for kind, storage, own in storages(held):
        for how in ({}, {"copy": True}, {"copy": False}):
            for name, ask in questions(chanv, storage, program, **how):
                is_own = kind == "bytes" or how == {"copy": False} or name in AS_IT_IS
                seen.clear()
                wanted = {(is_own, len(held))}
                if kind == "bytes" and name == "may_start":
                    checks.expect("may_start over bytes", TypeError, type(error_of(ask)))
                    wanted = set()
                else:
                    ask()
                checks.expect(f"storage of {name} over {kind}, {how}", wanted, {*seen})


def check_release(checks, chanv, watcher):
    """After an error storage can grow again: no call holds it any more."""
    program = taken_in(chanv, job_of(chanv, LOOP, 0x800))

    def fail(name, given):
        raise KeyError(name)

    storage = bytearray(storage_of(LOOP))
    for name, ask in questions(chanv, storage, program, copy=False):
        watcher.before = fail
        checks.expect(f"{name} breaks off", KeyError, type(error_of(ask)))
        checks.expect(f"{name}, storage after it", None, error_of(lambda: grow(storage)))


def grow(storage):
    """Makes it longer, which Python refuses while someone holds its memory."""
    storage.append(0)
    del storage[-1]


# ---- rows and numbers

# what the library says of a program, and isn't asked with
NOTES = "hangs_at hangs_entered interrupts_at ends_chaining_at".split()


def rows_of(handed):
    """The rows of a list that the library gets."""
    rows = [handed.at[number] for number in range(handed.len)]
    return tuple(tuple(getattr(row, name) for name, _ in row._fields_) for row in rows)


def handed_job(job):
    numbers = {name: getattr(job, name) for name in ("start", "limit", "device", "mask")}
    return numbers | {name: rows_of(getattr(job, name)) for name in ("extents", "fetch", "store")}


def handed_program(made):
    rows = made.rows
    lists = {name: rows_of(getattr(rows, name)) for name in ("extents", "fetch", "store", "keep")}
    numbers = {"start": made.start, "device": made.device}
    numbers |= {"storage_len": rows.storage_len, "mask": rows.mask}
    return {**numbers, **lists, "kept": string_at(made.kept.at, made.kept.len)}


def check_rows(checks, chanv, watcher):
    """The library gets each row of each list, and no list gets the rows of another."""
    seen = []
    watcher.before = lambda name, given: seen.append(given)
    for count in range(6):
        for name in ("extents", "fetch", "store"):
            lists = {it: () for it in ("extents", "fetch", "store")}
            lists[name] = tuple((number, number + 7) for number in range(count))
            numbers = {"start": 0x800, "limit": 17, "device": 2311, "mask": 0x48}
            error_of(lambda: chanv.verify(chanv.Job(bytes(0x1000), **numbers, **lists)))
            checks.expect(f"{count} rows of {name}", numbers | lists, handed_job(seen[-1][0]._obj))
    fields = {name: it for name, it in FIELDS.items() if name not in NOTES}
    programs = [chanv.Program(**FIELDS)]
    for name, bits in (("extents", 16), ("fetch", 32), ("store", 32), ("keep", 32)):
        rows = tuple((number, (1 << bits) - 1 - number) for number in range(5))
        programs.append(chanv.Program(**{**FIELDS, name: rows}))
    for number, program in enumerate(programs):
        wanted = {name: getattr(program, name) for name in fields}
        chanv.may_write((0, 1), [None, *programs])
        flying, count, *_ = seen[-1]
        checks.expect("how many rows the table of a write has", len(programs) + 1, count.value)
        found = handed_program(flying[number + 1].program)
        checks.expect(f"program {number} in flight, for a write", wanted, found)
        chanv.may_start(job_of(chanv, LOOP, 0x800), program, [None, *programs])
        _, flying, count, asked, _ = seen[-1]
        checks.expect("how many rows the table of a start has", len(programs) + 1, count.value)
        found = handed_program(flying[number + 1].program)
        checks.expect(f"program {number} in flight, for a start", wanted, found)
        checks.expect(f"program {number} to start", wanted, handed_program(asked._obj))
        areas = wanted["fetch"]
        error_of(lambda: chanv.take_in(job_of(chanv, LOOP, 0x800), iter(areas)))
        found = rows_of(seen[-1][1]._obj)
        checks.expect(f"the areas that a user owns, with {number}", areas, found)


def check_source(checks, chanv, watcher):
    """The library gets the source, what the user owns and what is allowed, as they are; a user who
    owns nothing has no area."""
    seen = []
    watcher.before = lambda name, given: name == "chanv_take_in" and seen.append(given)
    for storage, *numbers in ((bytes(16), 0x808, 2311, 17), (bytes(8), 1, 2, 3)):
        for own in ((), ((0x10, 5),), ((1, 2), (3, 4))):
            for allowed in range(8):
                names = "hanging interrupting ending_chains".split()
                may = {name: bool(allowed >> bit & 1) for bit, name in enumerate(names)}
                source = chanv.Source(storage, *numbers)
                error_of(lambda: chanv.take_in(source, own, **may))
                asked, owned, bits, *_ = seen[-1]
                found = asked._obj
                found = found.storage.len, found.start, found.device, found.limit
                about = f"{own}, {may}"
                checks.expect(f"the source, {about}", (len(storage), *numbers), found)
                checks.expect(f"what is owned, {about}", own, rows_of(owned._obj))
                checks.expect(f"what is allowed, {about}", allowed, bits.value)
    job = chanv.Job(bytes(16), 0x808, EACH, device=2311, limit=17)
    checks.expect("the source of a job", chanv.Source(bytes(16), 0x808, 2311, 17), job.source)


def check_areas_of_rows(checks, chanv, watcher):
    """A row of the table that is no program has its areas, and a program of zeros."""
    seen, none = [], bytes(sizeof(chanv._c.Program))
    watcher.before = lambda name, given: seen.append(given)
    for stores, keeps in ((0x900, 0x50), (0, 0)), ((0, 0), (8, 9)), ((1, 2), (3, 4)):
        chanv.may_write((0, 1), [None, chanv.Row(stores, keeps), chanv.Row(keeps=keeps)])
        rows = seen[-1][0]
        found = [[(it.start, it.len) for it in (row.stores, row.keeps)] for row in rows]
        checks.expect("areas", [[(0, 0)] * 2, [stores, keeps], [(0, 0), keeps]], found)
        checks.expect("programs", [none] * 3, [bytes(row.program) for row in rows])


def check_laid_out(checks, chanv, watcher):
    """A job's lists are laid out once: two questions at once get the same."""
    job = job_of(chanv, LOOP, 0x800)
    program, seen = taken_in(chanv, job), []

    def note(name, given):
        made = given[0]._obj
        seen.append([cast(it.at, c_void_p).value for it in (made.extents, made.fetch, made.store)])
        if len(seen) == 1:
            chanv.may_start(job, program, [])

    watcher.before = note
    chanv.verify(job)
    checks.expect("where the lists of a job lie", seen[0], seen[1])


def widths_of(struct):
    """How many bits each number of a struct of the header has."""
    fields = re.search(rf"(?ms)^struct chanv_{struct} \{{(.*?)^\}};", text_of(HEADER))[1]
    return {name: int(bits) for bits, name in re.findall(r"uint(\d+)_t (\w+);", fields)}


def numbers_of(struct):
    """The numbers of a job or a program, and of the pairs in its lists: the width of each."""
    lists = {"extents": widths_of("extent")["last"]}
    lists |= {name: widths_of("area")["len"] for name in ("fetch", "store")}
    if struct == "source":
        return widths_of("source"), {}
    if struct == "job":
        return widths_of("job"), lists
    return widths_of("rows") | widths_of("program"), {**lists, "keep": widths_of("area")["len"]}


def wrong_numbers(bits):
    for number in (1 << bits, (1 << bits) + 8, -1):
        yield number, OverflowError
    for other in (8.0, "8", None, b"8"):
        yield other, TypeError


def check_numbers(checks, chanv, watcher):
    """A number that its field doesn't hold, and what isn't a whole number, is refused by each way
    of asking; the largest number of each field reaches the library."""
    seen = []
    watcher.before = lambda name, given: seen.append(given)
    source = {"storage": bytes(8), "start": 0}
    job = {**source, "extents": ()}
    program = {name: FIELDS[name] for name in FIELDS}
    asked = {
        "source": lambda **more: error_of(lambda: chanv.Source(**{**source, **more})),
        "job": lambda **more: error_of(lambda: chanv.Job(**{**job, **more})),
        "program": lambda **more: error_of(lambda: chanv.Program(**{**program, **more})),
    }
    for struct, ask in asked.items():
        numbers, lists = numbers_of(struct)
        checks.expect(f"how many numbers of a {struct}", 3 + (struct != "source"), len(numbers))
        for name, bits in numbers.items():
            for number, error in wrong_numbers(bits):
                checks.expect(f"{struct}, {name} {number!r}", error, type(ask(**{name: number})))
        for name, bits in lists.items():
            for number, error in wrong_numbers(bits):
                for pair in ((number, 0), (0, number)):
                    found = ask(**{name: [(0, 0), pair]})
                    checks.expect(f"{struct}, {name} {pair}", error, type(found))
        largest = {name: (1 << bits) - 1 for name, bits in numbers.items()}
        made = ask(**largest)
        if struct == "source":
            continue  # check_source sees what is handed in
        error_of(lambda: chanv.verify(made) if struct == "job" else chanv.may_write((0, 1), [made]))
        handed = handed_job(seen[-1][0]._obj) if struct == "job" else handed_program(seen[-1][0][0].program)
        found = {name: handed[name] for name in largest}
        checks.expect(f"the largest numbers of a {struct}", largest, found)
    for number, error in wrong_numbers(widths_of("area")["len"]):
        for pair in ((number, 0), (0, number)):
            found = error_of(lambda: chanv.may_write(pair, []))
            checks.expect(f"a write to {pair}", error, type(found))
            found = error_of(lambda: chanv.take_in(chanv.Source(bytes(8), 0), [(0, 0), pair]))
            checks.expect(f"a user who owns {pair}", error, type(found))
            for name in ("stores", "keeps"):
                found = error_of(lambda: chanv.Row(**{name: pair}))
                checks.expect(f"a row that {name} {pair}", error, type(found))
    for number, error in wrong_numbers(16):
        found = error_of(lambda: chanv.find(bytes(8), number))
        checks.expect(f"find on {number!r}", error, type(found))
    for kept in (10, "0123456789", None):
        checks.expect(f"kept {kept!r}", TypeError, type(asked["program"](kept=kept)))


def check_layout(checks, chanv):
    """The structs of the package are laid out as those of the header."""
    structs = re.findall(r"(?m)^struct chanv_(\w+) (\d+)\n((?: +.*\n)+)", text_of(LAYOUT))
    checks.expect_that("structs are recorded", len(structs) > 10, structs)
    for name, size, lines in structs:
        made = getattr(chanv._c, name.title())
        fields = [(it, getattr(made, it)) for it, _ in made._fields_]
        seen = [f"{it} {field.offset} {field.size}" for it, field in fields]
        checks.expect(f"the fields of {name}", [line.strip() for line in lines.splitlines()], seen)
        checks.expect(f"the size of {name}", int(size), sizeof(made))


# ---- storage that changes between two calls

def changed(storage, call, texts):
    """Stores these bytes at 000800: the first by the first such call, and so on."""
    left = iter(texts)

    def change(name, given):
        text = next(left, b"") if name == f"chanv_{call}" else b""
        storage[0x800 : 0x800 + len(text)] = text

    return change


def check_needs(checks, chanv, watcher):
    """The needs are those of the program that the last call saw, and no row is made up: with too
    little room at first."""
    chanv._ROOM = 8
    storage = bytearray(storage_of(LONG))
    long, quiet = bytes(storage[0x800:0x828]), taken_in(chanv, job_of(chanv, LONG, 0x800))
    short = chanv.Program(0x800, 2314, 0x1000, 0x58, (), (), (), [(0x800, 8)], SHORT)
    held = [len(getattr(quiet, name)) for name in ("extents", "fetch", "store", "keep")]
    checks.expect("how many rows the long program has", [1, 2, 1, 2], held)
    job = chanv.Job(storage, 0x800, extents=EACH, copy=False)
    for about, texts, wanted in [
        ("shrinks", [long, SHORT], short),
        ("grows", [SHORT, long, long], quiet),
        ("grows and shrinks", [SHORT, long, SHORT], short),
    ]:
        watcher.before = changed(storage, "take_in", texts)
        found = error_of(lambda: taken_in(chanv, job))
        checks.expect(f"needs of a program that {about}", wanted, found)
    watcher.before = changed(storage, "find", [long, bytes(len(long))])
    checks.expect("starts that went away", [], chanv.find(storage, copy=False))


def check_many(checks, chanv, watcher):
    """The lists of a program that is long, with the room that is usual."""
    count, calls = 4096, []
    ccws = [f"06{0x10000 + 32 * at:06X}60000010" for at in range(count - 1)] + ["0601000020000010"]
    job = chanv.Job(bytes.fromhex("".join(ccws)).ljust(0x40000, b"!"), 0, EACH)
    watcher.before = lambda name, given: calls.append(name)
    program = taken_in(chanv, job)
    checks.expect("how often a long program is taken in", 2, len(calls))
    areas = tuple((0x10000 + 32 * at, 16) for at in range(count - 1))
    seen = program.store, program.keep, program.kept
    kept = job.storage[: 8 * count]
    checks.expect("the lists of a long program", (areas, ((0, 8 * count),), kept), seen)
    calls.clear()
    taken_in(chanv, job_of(chanv, LOOP, 0x800))
    checks.expect("how often a short program is taken in", 1, len(calls))


def check_no_job(checks, chanv, watcher):
    """The verdict and the explanation of a NoJob are about the same bytes."""
    storage = bytearray(storage_of(LONG))
    job = chanv.Job(storage, 0x800, extents=EACH, copy=False)
    for about, call, text, said in [
        ("stays", "take_in", UNKNOWN, UNKNOWN),
        ("becomes another no", "take_in", ZERO, ZERO),
        ("goes away after the verdict", "verify", SHORT, UNKNOWN),
        ("goes away after its text", "text", SHORT, UNKNOWN),
    ]:
        storage[0x800:0x808] = UNKNOWN
        watcher.after = changed(storage, call, [text])
        found = error_of(lambda: taken_in(chanv, job))
        verdict, row = SAID[said]
        first, _, rest = found.explanation.partition("\n")
        checks.expect(f"a no that {about}", (verdict, verdict), (str(found.verdict), first))
        checks.expect_that(f"the path of a no that {about}", row in rest, rest)
        checks.expect(f"storage after a no that {about}", None, error_of(lambda: grow(storage)))
    storage[0x800:0x808] = UNKNOWN
    watcher.after = changed(storage, "take_in", [SHORT])
    found = error_of(lambda: taken_in(chanv, job))
    code = getattr(found, "code", found)
    checks.expect("a no that goes away", chanv.Answer.CHANGED_MEANWHILE, code)


class Without:
    """The library, of which each call says that it has no memory."""

    def __init__(self, real):
        self.real = real

    def __getattr__(self, name):
        return getattr(self.real, name) if name.endswith("_word") else lambda *given: MEMORY


def check_memory(checks, chanv, watcher):
    """Want of memory is neither a yes nor a no, whatever was asked."""
    job = job_of(chanv, LOOP, 0x800)
    program = taken_in(chanv, job)
    asked = [*questions(chanv, job.storage, program)]
    asked += [("may_write", lambda: chanv.may_write((0, 1), [program]))]
    chanv._c.library = Without(watcher.real)
    for name, ask in asked:
        found = error_of(ask)
        checks.expect(f"{name} without memory", chanv.NoAnswer, type(found))
        checks.expect(f"{name} without memory, code", MEMORY, getattr(found, "code", None))
    chanv._c.library = watcher


def check_named_library(checks, built):
    """The library that CHANV_LIBRARY names goes before the one beside the package."""
    with tempfile.TemporaryDirectory() as room:
        package, own = Path(room) / "share/chanv/python", Path(room) / "lib"
        shutil.copytree(FOLDER / "chanv", package / "chanv", ignore=lambda *_: ["__pycache__"])
        own.mkdir()
        named = {**os.environ, "PYTHONPATH": str(package)}
        named["CHANV_LIBRARY"] = str(shared_library(built))
        (own / soname()).write_text("no library")
        ran = run(sys.executable, "-B", "-c", "import chanv; chanv.find(bytes(8))", env=named)
    checks.expect("a library beside the package that is named", Ran(0), ran)


def check(checks, built):
    chanv, watcher = watched(built)
    check_named_library(checks, built)
    for part in (
        check_storage,
        check_release,
        check_rows,
        check_source,
        check_areas_of_rows,
        check_laid_out,
        check_numbers,
        check_many,
        check_needs,
        check_no_job,
        check_memory,
    ):
        watcher.rest()
        part(checks, chanv, watcher)
    check_layout(checks, chanv)
