"""The package of python/ at its edges: address 0, both types of device, each code and each field.

What is expected was worked out from the rules and from the header. Every way of asking is tried: a
no at 000000 stays a no, a program of a 2311 isn't one of a 2314, each code comes with its extent,
and no field is lost on the way. Each number of the header's enums means what its name says, and its
comments say what comes. Lists may come from iterators, except the table of the programs in flight,
in which only a program counts.
"""

import collections
import copy
import dataclasses
import functools
import pickle
import re
from types import SimpleNamespace

from building import ROOT
from package import package, taken_in
from running import text_of

SIZE = 0x1000
HEADER = ROOT / "crates/chanv_c/include/chanv.h"
EVERYWHERE, EACH = [(0, SIZE)], [(0, 202)]

# a search loop that lends what it needs, at 000800
LOOP = {0x800: "3100090040000005", 0x808: "0800080000000000", 0x810: "06000A0020000050"}
# A CCW at 0007F0 that ends the program if it is entered fresh, as after the search, and that the
# data chain of the CCW at 000810 leads to again and again.
TWO_WAYS = {
    0x7F0: "03000A1080000010",
    0x7F8: "080007F000000000",
    0x800: "3100090040000005",
    0x808: "080007F000000000",
    0x818: "080007F000000000",
}


# a CCW that does nothing, and ends the program
SHORT = "0300000020000001"


def storage_of(words, size=SIZE):
    held = bytearray(size)
    for address, word in words.items():
        held[address : address + 8] = bytes.fromhex(word)
    return held


def job_of(chanv, words, start, **more):
    """A job that grants everything, or what is said."""
    lent = {"extents": EACH, "fetch": EVERYWHERE, "store": EVERYWHERE}
    return chanv.Job(storage_of(words), start, **{**lent, **more})


def error_of(ask):
    """The error of a call, or its answer."""
    try:
        return ask()
    except Exception as error:
        return error


# ---- a no at 000000

# the CCWs, the start, what the job lends, and the reason
AT_ZERO = [
    ("no command", {}, 0, {}, "invalid-code"),
    ("a read", {0: "0600010020000010"}, 0, {"store": []}, "store-not-lent"),
    ("a read over itself", {0: "0600000020000008"}, 0, {}, "changes-ccw"),
    ("a read that a transfer leads to", {0: "0600010020000010", 8: "0800000000000000"}, 8, {}, ""),
]


def check_no_at_zero(checks, chanv):
    for name, words, start, more, reason in AT_ZERO[:3]:
        job, line = job_of(chanv, words, start, **more), f"no 000000 {reason}"
        verdict = chanv.verify(job)
        checks.expect(f"{name} at 0, verify", (0, reason), (verdict.address, verdict.reason))
        checks.expect(f"{name} at 0, as a condition", False, bool(verdict))
        checks.expect(f"{name} at 0, as text", line, str(verdict))
        told = chanv.why(job)
        checks.expect(f"{name} at 0, why", verdict, told and told.verdict)
        path = told and [(it.address, it.entered) for it in told.path]
        checks.expect(f"{name} at 0, the path", [(0, "fresh")], path)
        checks.expect(f"{name} at 0, the text", line, chanv.text(job).partition("\n")[0])
        places = [(it.address, it.entered) for it in chanv.places(job)]
        checks.expect(f"{name} at 0, the places", [(0, "fresh")], places)
        check_needs_at_zero(checks, chanv, name, job, "yes" if more else line)
    job = job_of(chanv, *AT_ZERO[3][1:3])
    refused = [str(chanv.verify(job)), error_of(lambda: taken_in(chanv, job)).verdict.address]
    checks.expect("a transfer that comes first", ["no 000008 transfer-not-allowed", 8], refused)


def check_needs_at_zero(checks, chanv, name, job, line):
    told = chanv.text(job.opened())
    checks.expect(f"{name} at 0, the open text", line, told.partition("\n")[0])
    needed = error_of(lambda: taken_in(chanv, job))
    if line == "yes":
        checks.expect(f"{name} at 0, what it keeps", ((0, 8),), needed.keep)
        return
    checks.expect(f"{name} at 0, no job", chanv.NoJob, type(needed))
    checks.expect(f"{name} at 0, its verdict", line, str(needed.verdict))
    checks.expect(f"{name} at 0, its text", f"no job will do: {line}", str(needed))
    checks.expect(f"{name} at 0, its reason", line, needed.explanation.partition("\n")[0])


def check_refusals_at_zero(checks, chanv):
    """The refusals of a start and of a write that name the byte 000000, the cylinder 0, and the
    program 0."""
    read = {0: "0600010020000010"}
    program = taken_in(chanv, job_of(chanv, read, 0))
    fetching = {8: "3100000020000005"}
    over = taken_in(chanv, job_of(chanv, {8: "0600000020000008"}, 8))
    seek = {0: "0700010020000006"}
    rows = [
        ("changed 000000", {**read, 0: "0700010020000010"}, program, {}, []),
        ("not-fetchable 000000", fetching, None, {"fetch": [(1, 9)]}, []),
        ("not-storable 000000", {8: "0600000020000008"}, over, {"store": [(1, 9)]}, []),
        ("no-cylinder 000", seek, None, {"extents": [(1, 202)]}, []),
        ("stores-over-kept 000000 by row 0", {8: "0600000020000008"}, over, {}, [program]),
        ("keeps-stored-over 000000 by row 0", read, program, {}, [over]),
    ]
    for line, words, asked, more, in_flight in rows:
        start = min(words)
        asked = asked or taken_in(chanv, job_of(chanv, words, start))
        found = chanv.may_start(job_of(chanv, words, start, **more), asked, in_flight)
        checks.expect(f"a start: {line}", (f"no: {line}", False), (str(found), bool(found)))
    found = chanv.may_write((0, 1), [program])
    line = "no: writes-over-kept 000000 by row 0"
    checks.expect("a write over 0", (line, False), (str(found), bool(found)))
    found = chanv.may_write((8, 8), [None, program])
    checks.expect("a write beside it", ("yes", True), (str(found), bool(found)))
    for areas, line in [
        ([(0, 8)], None),
        ([(4, 4), (0, 4)], None),
        (iter([(0, 4), (4, 4)]), None),
        ([(1, 7)], "no: keeps-outside 000000"),
        ([(0, 7)], "no: keeps-outside 000007"),
        ([], "no: keeps-outside 000000"),
    ]:
        found = error_of(lambda: chanv.take_in(job_of(chanv, read, 0), areas))
        wanted = line if line else str(program)
        checks.expect(f"owned {areas}", wanted, str(found))
        checks.expect(f"owned {areas}, refused", line is not None, type(found) is chanv.Refused)


def check_notes_at_zero(checks, chanv):
    """What a supervisor may want to refuse, at 000000 and not at all."""
    rows = [
        ("060001004800000F", 0, None),  # a read with an interruption, then a No Operation
        ("03000100A0000001", None, 0),  # a No Operation with chain data
        ("1300010088000001", 0, 0),  # a Recalibrate with both
        ("0600010080000008", None, None),  # a read with chain data
    ]
    for word, interrupts, ends in rows:
        program = taken_in(chanv, job_of(chanv, {0: word, 8: "0300010020000001"}, 0))
        for name, made in [("itself", program), *copies_of(program)]:
            seen = made.interrupts_at, made.ends_chaining_at
            checks.expect(f"notes on {word}, {name}", (interrupts, ends), seen)


def check_hang_at_zero(checks, chanv):
    loop = {0: "0600010040000010", 8: "0800000000000000"}
    program = taken_in(chanv, job_of(chanv, loop, 0))
    checks.expect("a hang at 0", (0, "fresh"), (program.hangs_at, program.hangs_entered))
    for name, made in copies_of(program):
        checks.expect(f"a hang at 0, {name}", (0, "fresh"), (made.hangs_at, made.hangs_entered))
    for code, entered in (("06", "in"), ("05", "out"), ("31", "search")):
        program = taken_in(chanv, job_of(chanv, {**TWO_WAYS, 0x810: f"{code}000A0080000008"}, 0x800))
        seen = program.hangs_at, program.hangs_entered
        checks.expect(f"a hang in the data chain of {code}", (0x7F0, entered), seen)
    ends = taken_in(chanv, job_of(chanv, LOOP, 0x800))
    checks.expect("no hang", (None, None), (ends.hangs_at, ends.hangs_entered))


# ---- both types of device

def check_devices(checks, chanv):
    """A seek to head 10 is right on a 2314, which has 20, and wrong on a 2311, which has 10."""
    words = {0x800: "0700090040000006", 0x808: "06000A0020000010", 0x900: "00000000000A0000"}
    for device, heads, line in [
        (2311, 10, "no 000800 seek-outside"),
        (2314, 20, "yes"),
    ]:
        job = job_of(chanv, words, 0x800, device=device)
        checks.expect(f"on a {device}, verify", line, str(chanv.verify(job)))
        checks.expect(f"on a {device}, text", line, chanv.text(job).splitlines()[0])
        told = chanv.text(job.opened()).splitlines()[0]
        checks.expect(f"on a {device}, open text", line, told)
        starts = [] if device == 2311 else [0x800]
        checks.expect(f"on a {device}, find", starts, chanv.find(job.storage, device))
        told, needed = chanv.why(job), error_of(lambda: taken_in(chanv, job))
        if device == 2311:
            checks.expect(f"on a {device}, how many heads", heads, told.values["below"])
            checks.expect(f"on a {device}, needs", line, str(needed.verdict))
        else:
            checks.expect(f"on a {device}, why", None, told)
            checks.expect(f"on a {device}, needs", 2314, needed.device)
    checks.expect("find, usually", [0x800], chanv.find(storage_of(words)))
    checks.expect("a job, usually", 2314, job_of(chanv, words, 0x800).device)
    asked = {
        device: taken_in(chanv, job_of(chanv, LOOP, 0x800, device=device)) for device in (2311, 2314)
    }
    for device, program in asked.items():
        checks.expect(f"a program for a {device}", device, program.device)
        for other in asked:
            job = job_of(chanv, LOOP, 0x800, device=other)
            line = "yes" if other == device else "no: other-device"
            found = str(chanv.may_start(job, program, []))
            checks.expect(f"a program for a {device} on a {other}", line, found)


# ---- the prefix

# a mask, the address of a prefix, the program's start, the first cylinder, and the bytes
PREFIXES = [
    (0x00, 0x000, 0x800, 0, "0700001040000006 0800080000000000 0000000000000000"),
    (0x00, 0x9E8, 0x800, 202, "070009F840000006 0800080000000000 000000CA00000000"),
    (0x40, 0x100, 0x808, 10, "0700011840000006 1F00011E40000001 0800080800000000 0000000A00004000"),
    (0x58, 0xFE0, 0x800, 201, "07000FF840000006 1F000FFE40000001 0800080000000000 000000C900005800"),
]
# where none can stand, by mask, address and start: off a multiple of 8, past storage, or before a
# program that starts past storage
NOWHERE = [
    *((0x40, at, 0x800) for at in (1, 2, 4, 7, 0x104, 0xFE8, 0xFF8, SIZE, 2**24, 2**32 - 8)),
    *((0x00, at, 0x800) for at in (0xFEC, 0xFF0, 0xFF8, SIZE, 2**32 - 8)),
    *((mask, 0x100, at) for mask in (0x00, 0x40) for at in (SIZE, 2**24, 2**32 - 8)),
]


def check_prefixes(checks, chanv):
    """The prefix of a job, byte for byte, and that a program that begins with it is judged so."""
    for mask, address, start, cylinder, words in PREFIXES:
        some = [(cylinder, cylinder), (5, 7)]
        job = job_of(chanv, LOOP, start, mask=mask, extents=some)
        name = f"the prefix under mask {mask:02X} at {address:06X}"
        made = error_of(lambda: chanv.make_prefix(job, address))
        checks.expect(name, bytes.fromhex(words), made)
        storage = bytearray(SIZE)
        storage[address : address + len(made)] = made
        storage[start : start + 8] = bytes.fromhex(SHORT)
        whole = chanv.Job(storage, address, extents=some, fetch=EVERYWHERE)
        checks.expect(f"{name}, judged", "yes", str(chanv.verify(whole)))
    for mask, address, start in NOWHERE:
        job = job_of(chanv, LOOP, start, mask=mask)
        found = error_of(lambda: chanv.make_prefix(job, address))
        checks.expect(f"no prefix at {address:X} to {start:X}", "ValueError", type(found).__name__)
    for code, fault in [("NOT_A_MASK", {"mask": 1}), ("NO_EXTENT", {"extents": []})]:
        found = error_of(lambda: chanv.make_prefix(job_of(chanv, LOOP, 0x800, **fault), 0x100))
        checks.expect(f"a prefix under a fault: {code}", chanv.Answer[code], found.code)


# ---- each code

# what is wrong with the job, the code's name, and the index of the extent
FAULTS = [
    ({"limit": 2}, "TOO_MANY_PLACES", 0),
    ({"storage": bytearray(0x1000001)}, "STORAGE_TOO_LARGE", 0),
    ({"device": 2305}, "NOT_A_DEVICE", 0),
    ({"mask": 0x20}, "NOT_A_MASK", 0),
    ({"extents": []}, "NO_EXTENT", 0),
    ({"extents": [(0, 1), (19, 10)]}, "EXTENT_BACKWARDS", 1),
    ({"extents": [(19, 10)]}, "EXTENT_BACKWARDS", 0),
    ({"extents": [(0, 1), (2, 2), (10, 203)]}, "EXTENT_PAST_DEVICE", 2),
    ({"extents": [(10, 203)]}, "EXTENT_PAST_DEVICE", 0),
    ({"limit": 0}, "NOT_A_LIMIT", 0),
    ({"limit": 65537}, "NOT_A_LIMIT", 0),
]
# the call that doesn't tell which extent is wrong
WITHOUT_EXTENT = "text"
# faults of what a job grants, which doesn't matter where a program is taken in
OF_GRANTS = "NOT_A_MASK NO_EXTENT EXTENT_BACKWARDS EXTENT_PAST_DEVICE".split()


def check_codes(checks, chanv):
    enum = re.search(r"(?s)enum chanv_answer \{(.*?)\n\};", text_of(HEADER))[1]
    wanted = {name: int(number) for name, number in re.findall(r"CHANV_(\w+) = (\d+)", enum)}
    checks.expect("the codes", wanted, {it.name: int(it) for it in chanv.Answer})
    program = taken_in(chanv, job_of(chanv, LOOP, 0x800))
    calls = [getattr(chanv, it) for it in "verify places why text".split()]
    calls.append(functools.wraps(chanv.take_in)(lambda job: taken_in(chanv, job)))
    for changes, name, extent in FAULTS:
        job = dataclasses.replace(job_of(chanv, LOOP, 0x800), **changes)
        for call in (*calls, may_start := lambda it: chanv.may_start(it, program, [])):
            about = f"{name}, {'may_start' if call is may_start else call.__name__}"
            if call is may_start and name in ("TOO_MANY_PLACES", "NOT_A_LIMIT"):
                checks.expect(about, "yes", str(call(job)))
                continue
            if call is calls[-1] and name in OF_GRANTS:
                checks.expect(about, program, call(job))
                continue
            told = 0 if call.__name__ == WITHOUT_EXTENT else extent
            check_no_answer(checks, chanv, about, error_of(lambda: call(job)), name, told)
    for device, size, name in [(2314, SIZE << 12, ""), (2305, SIZE, "NOT_A_DEVICE")]:
        found = error_of(lambda: chanv.find(bytes(size), device))
        if name:
            check_no_answer(checks, chanv, f"{name}, find", found, name, 0)
        else:
            checks.expect("find in 16 MiB", [], found)
    found = error_of(lambda: chanv.find(bytes((SIZE << 12) + 1)))
    check_no_answer(checks, chanv, "find in more", found, "STORAGE_TOO_LARGE", 0)


def check_no_answer(checks, chanv, about, found, name, extent):
    checks.expect(about, chanv.NoAnswer, type(found))
    if not isinstance(found, chanv.NoAnswer):
        return
    checks.expect(f"{about}, code", chanv.Answer[name], found.code)
    checks.expect(f"{about}, type of the code", chanv.Answer, type(found.code))
    checks.expect(f"{about}, extent", extent, found.extent)
    word = name.lower().replace("_", "-")
    is_wrong = name in ("EXTENT_BACKWARDS", "EXTENT_PAST_DEVICE")
    wanted = f"{word} (extent {extent})" if is_wrong else word
    checks.expect(f"{about}, text", wanted, str(found))
    made = pickle.loads(pickle.dumps(found))
    seen = type(made.code), made.code, made.extent
    checks.expect(f"{about}, pickled", (chanv.Answer, found.code, extent), seen)


def check_limit(checks, chanv):
    """Usually 4,096 places may be reachable, and not one more."""
    [usual] = re.findall(r"CHANV_USUAL_LIMIT = (\d+)", text_of(HEADER))
    checks.expect("the usual limit", int(usual), job_of(chanv, LOOP, 0x800).limit)
    for count in (4096, 4097):
        ccws = bytes.fromhex("0300000060000001") * (count - 1) + bytes.fromhex("0300000020000001")
        job = chanv.Job(ccws, 0, extents=EACH)
        found = error_of(lambda: chanv.verify(job))
        code = getattr(found, "code", "yes" if found else "no")
        wanted = "yes" if count == 4096 else chanv.Answer.TOO_MANY_PLACES
        checks.expect(f"{count} places", wanted, code)


# ---- what the header says

# the front of a number's name in the header, and the words that the rest isn't
WORDS = {"reason": "REASON_", "refusal": "REFUSED_", "entered": "ENTERED_"}
OTHER_WORDS = {f"ENTERED_CHAIN_{it}": it.lower() for it in ("IN", "OUT", "SEARCH")}
# arguments of a seek, and the part of each that isn't allowed with its value
PARTS = [("0001000A0000", "PART_BIN", 1), ("000000140000", "PART_CYLINDER", 20)]
PARTS.append(("0000000A0014", "PART_HEAD", 20))


def check_numbers(checks, chanv):
    """Each number of an enum means what its name says."""
    numbers = {name: int(it) for name, it in re.findall(r"CHANV_(\w+) = (\d+)", text_of(HEADER))}
    for kind, front in WORDS.items():
        names = [name for name in numbers if name.startswith(front)]
        checks.expect_that(f"the header has numbers {front}", len(names) > 3, names)
        for name in names:
            word = OTHER_WORDS.get(name, name.removeprefix(front).lower().replace("_", "-"))
            checks.expect(f"the word of {name}", word, chanv._word(kind, numbers[name]))
    largest = numbers["LARGEST_LIMIT"]
    found = error_of(lambda: chanv.verify(job_of(chanv, LOOP, 0x800, limit=largest)))
    checks.expect("the largest limit", "yes", str(found))
    found = error_of(lambda: chanv.verify(job_of(chanv, LOOP, 0x800, limit=largest + 1)))
    check_no_answer(checks, chanv, "a larger limit", found, "NOT_A_LIMIT", 0)
    for argument, part, value in PARTS:
        words = {0x800: "0700090040000006", 0x808: SHORT, 0x900: f"{argument}0000"}
        told = chanv.why(job_of(chanv, words, 0x800, extents=[(10, 19)]))
        seen = told.verdict.reason, told.values["outside"], told.values["value"]
        checks.expect(f"a seek to {argument}", ("seek-outside", numbers[part], value), seen)


def check_comments(checks, chanv):
    """The header's table of values, and its numbers for the taker, are those of the package."""
    header = text_of(HEADER)
    names = {name for name, *_ in chanv._c.Evidence._fields_}
    rows = re.findall(r"(?m)^ \*  +\d+  ([a-z-]+)(.*(?:\n \* {20,}.*)*)", header)
    told = {word: {*re.findall(r"\w+", text)} & names for word, text in rows}
    values = {word: {*names.split()} for word, names in chanv._VALUES.items()}
    checks.expect("the values of each reason", told, values)
    told = re.findall(r"(\d) if (?:the taker|it) is a (Set File Mask|seek)", header)
    checks.expect("whose number sets_mask has", ["Set File Mask", "seek"], [it for _, it in told])
    for number, taker in told:
        ccw = {"Set File Mask": "1F00090000000001", "seek": "0700090000000006"}[taker]
        why = chanv.why(job_of(chanv, {0x800: "0600090040000001", 0x808: ccw}, 0x800))
        seen = why.verdict.reason, why.values["sets_mask"]
        checks.expect(f"sets_mask of a {taker}", ("changes-argument", int(number)), seen)


def check_order(checks, chanv):
    """Of several bytes and of both conflicts a start names the one that the header says."""
    comment = re.search(r"(?s)Why a program may not start(.*?)\*/", text_of(HEADER))[1]
    [first] = re.findall(r"looks\s+\*?\s*for (\d+) and then for \d+ at each", comment)
    over = {start: f"06{other:06X}20000008" for start, other in ((0x800, 0xC00), (0xC00, 0x800))}
    one, other = (taken_in(chanv, job_of(chanv, over, start)) for start in over)
    found = chanv.may_start(job_of(chanv, over, 0x800), one, [other]).refusal
    checks.expect("both conflicts with one program", chanv._word("refusal", int(first)), found)
    ends = {"first": 0x900, "least": 0x900, "greatest": 0x904}
    for name, kind in (("FETCHABLE", "fetch"), ("STORABLE", "store")):
        word = re.search(rf"NOT_{name} = .*?the (\w+) byte", text_of(HEADER))[1]
        ccw = {"fetch": "3100090020000005", "store": "0600090020000005"}[kind]
        program = taken_in(chanv, job_of(chanv, {0x800: ccw}, 0x800))
        job = job_of(chanv, {0x800: ccw}, 0x800, **{kind: [(0x901, 3)]})
        found = chanv.may_start(job, program, []).value
        checks.expect(f"the {word} byte that isn't lent, {kind}", ends[word], found)


# ---- each field

# a program in which no two fields are alike
FIELDS = {
    "start": 0x808,
    "device": 2311,
    "storage_len": 0x2000,
    "mask": 0x48,
    "extents": ((3, 5), (9, 9)),
    "fetch": ((0x10, 1),),
    "store": ((0x20, 2), (0x30, 3)),
    "keep": ((0x808, 8), (0x900, 2)),
    "kept": b"0123456789",
    "hangs_at": 0x810,
    "hangs_entered": "out",
    "interrupts_at": 0x818,
    "ends_chaining_at": 0x820,
}
LISTS = ("extents", "fetch", "store", "keep")


def copies_of(value):
    yield "pickled", pickle.loads(pickle.dumps(value))
    yield "copied", copy.copy(value)
    yield "copied deeply", copy.deepcopy(value)
    yield "replaced", dataclasses.replace(value)


def check_fields(checks, chanv):
    names = [it.name for it in dataclasses.fields(chanv.Program)]
    checks.expect("the fields of a program", [*FIELDS], names)
    for how in (tuple, list, iter, lambda rows: (it for it in rows)):
        rows = {name: how(FIELDS[name]) for name in LISTS}
        program = chanv.Program(**{**FIELDS, **rows})
        for name, made in [("made", program), *copies_of(program)]:
            held = {it: getattr(made, it) for it in FIELDS}
            checks.expect(f"a program, {name}", FIELDS, held)
            checks.expect(f"a program, {name}, the same", True, made == program)
            kept = [chanv.may_write((at, 1), [made]).value for at in (0x807, 0x80F, 0x901, 0x902)]
            checks.expect(f"a program, {name}, keeps", [None, 0x80F, 0x901, None], kept)
    other = dataclasses.replace(program, keep=iter([(0x40, 10)]))
    checks.expect("another list", 0x40, chanv.may_write((0, SIZE), [other]).value)
    words = chanv.why(job_of(chanv, LOOP, 0x800, store=[]))
    for value in (words, words.verdict, words.path[0], chanv.Permission("writes-over-kept", 0, 0)):
        name = type(value).__name__
        checks.expect(f"{name}, pickled", value, pickle.loads(pickle.dumps(value)))


def check_jobs(checks, chanv):
    """A job holds its lists, whatever they came from, and prints without storage."""
    lent = {"extents": [(10, 19)], "fetch": [(0x900, 0x10)], "store": [(0xA00, 0x100)]}
    for how in (tuple, list, iter, lambda rows: (it for it in rows)):
        job = chanv.Job(storage_of(LOOP), 0x800, **{name: how(it) for name, it in lent.items()})
        answers = [str(chanv.verify(job)) for _ in range(2)]
        checks.expect("a job, asked twice", ["yes", "yes"], answers)
        held = job.extents, job.fetch, job.store
        wanted = tuple(tuple(it) for it in lent.values())
        checks.expect("the lists of a job", wanted, held)
        checks.expect("a job, pickled", job, pickle.loads(pickle.dumps(job)))
    check_opened(checks, chanv, dataclasses.replace(job, limit=17, device=2311, copy=False))
    rows = [[10, 19]]
    job = chanv.Job(storage_of(LOOP), 0x800, rows, lent["fetch"], lent["store"])
    rows[0][0], rows[0][1] = 19, 10
    checks.expect("a job whose list was changed", "yes", str(chanv.verify(job)))
    shown = repr(job)
    checks.expect_that("a job as text", "storage" not in shown and "start=2048" in shown, shown)


def check_opened(checks, chanv, job):
    """The open job grants what the header says, and is otherwise the job itself."""
    macros = re.findall(r"#define CHANV_(ALL|OPEN)_(\w+) (.*)", text_of(HEADER))
    numbers = {name: [int(it, 0) for it in re.findall(r"\w+", text)] for _, name, text in macros}
    whole = (tuple(numbers["STORAGE"]),)
    wanted = {"extents": (tuple(numbers["CYLINDERS"]),), "fetch": whole, "store": whole}
    wanted |= {"mask": numbers["MASK"][0]}
    checks.expect("the open job", dataclasses.replace(job, **wanted), job.opened())
    checks.expect("the open job grants else than the job", False, job == job.opened())


def check_programs(checks, chanv):
    """In flight only a program counts, or None; to start, only a program."""
    job = job_of(chanv, LOOP, 0x800)
    program = taken_in(chanv, job)
    table = {0x190: program, 0: None}
    found = chanv.may_write((0x800, 1), table.values()).refusal
    checks.expect("a table's values", "writes-over-kept", found)
    checks.expect("nobody", True, bool(chanv.may_write((0x800, 1), [None])))
    checks.expect("a start beside nobody", True, bool(chanv.may_start(job, program, [None])))
    wrong = [{0: program}, table, [0], [""], [False], [program, 0], [()], [[program]], ["x"]]
    for in_flight in [*wrong, program, None]:
        about = f"{type(in_flight).__name__} in flight"
        found = error_of(lambda: chanv.may_write((0x800, 1), in_flight))
        checks.expect(f"a write, {about}", TypeError, type(found))
        found = error_of(lambda: chanv.may_start(job, program, in_flight))
        checks.expect(f"a start, {about}", TypeError, type(found))
    for start in (None, 0, "", [program], job):
        found = error_of(lambda: chanv.may_start(job, start, []))
        checks.expect(f"a start of {type(start).__name__}", TypeError, type(found))
    check_rows(checks, chanv, job, program)
    looks_alike = SimpleNamespace(**vars(program))
    found = error_of(lambda: chanv.may_start(job, looks_alike, []))
    checks.expect("a start of what looks like a program", TypeError, type(found))
    found = error_of(lambda: chanv.may_write((0x800, 1), [looks_alike]))
    checks.expect("a write, what looks like a program in flight", TypeError, type(found))


def check_rows(checks, chanv, job, program):
    """Rows of the table that are no program: they don't start, and others go round them."""
    over, beside = (0x817, 0x10), (0x818, 0x10)
    for row, refusal in [
        (chanv.Row(stores=over), "keeps-stored-over"),
        (chanv.Row(stores=beside), None),
        (chanv.Row(beside, (0xA4F, 1)), "stores-over-kept"),
        (chanv.Row(keeps=(0xA4F, 1)), "stores-over-kept"),
        (chanv.Row(keeps=(0xA50, 1)), None),
        (chanv.Row(), None),
    ]:
        found = chanv.may_start(job, program, [row]).refusal
        checks.expect(f"a start beside {row}", refusal, found)
        found = error_of(lambda: chanv.may_start(job, row, []))
        checks.expect(f"a start of {row}", TypeError, type(found))
    checks.expect("a write into a buffer", True, bool(chanv.may_write(over, [chanv.Row(over)])))
    found = chanv.may_write((0xA, 0xA), [chanv.Row(keeps=(0x10, 8))])
    checks.expect("a write over what is guarded", 0x10, found.value)


class Anew:
    """A table that makes each program anew, so that nothing else holds it."""

    def __init__(self, rows):
        self.rows = rows

    def __iter__(self):
        return (dataclasses.replace(it) for it in self.rows)


def check_tables(checks, chanv):
    """A table of the programs in flight has to be there, and gives them each time anew."""
    job = job_of(chanv, LOOP, 0x800)
    program = taken_in(chanv, job)
    over = taken_in(chanv, job_of(chanv, {0xC00: "0600080020000008"}, 0xC00))
    ways = [list, tuple, set, collections.deque, lambda rows: dict(enumerate(rows)).values(), Anew]
    for how in ways:
        table = how([over])
        for _ in range(2):
            answers = chanv.may_start(job, program, table), chanv.may_write((0xC00, 1), table)
            seen = [it.refusal for it in answers]
            about = f"asked with a {type(table).__name__}"
            checks.expect(about, ["keeps-stored-over", "writes-over-kept"], seen)
    for how in (iter, reversed, lambda rows: (it for it in rows), lambda rows: filter(None, rows)):
        table = how([over])
        found = error_of(lambda: chanv.may_start(job, program, table))
        checks.expect(f"a start beside a {type(table).__name__}", TypeError, type(found))
        found = error_of(lambda: chanv.may_write((0xC00, 1), table))
        checks.expect(f"a write beside a {type(table).__name__}", TypeError, type(found))
    for ask in (lambda: chanv.may_start(job, program), lambda: chanv.may_write((0x800, 1))):
        checks.expect("asked without a table", TypeError, type(error_of(ask)))


def check(checks, built):
    chanv = package(built)
    for part in (
        check_no_at_zero,
        check_refusals_at_zero,
        check_notes_at_zero,
        check_hang_at_zero,
        check_devices,
        check_prefixes,
        check_codes,
        check_limit,
        check_numbers,
        check_comments,
        check_order,
        check_fields,
        check_jobs,
        check_programs,
        check_tables,
    ):
        part(checks, chanv)
