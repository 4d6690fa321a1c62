"""chanv for Python: may a System/360 channel program run?

>>> storage = bytearray(0x1000)
>>> storage[0x800:0x808] = bytes.fromhex("3100090040000005")  # search for the record named at 900
>>> storage[0x808:0x810] = bytes.fromhex("0800080000000000")  # not this one: try the next
>>> storage[0x810:0x818] = bytes.fromhex("06000A0020000050")  # found: read its 80 bytes to A00
>>> lent = {"fetch": [(0x900, 0x10)], "store": [(0xA00, 0x100)]}
>>> print(verify(Job(storage, 0x800, extents=[(10, 19)], **lent)))
yes
>>> print(verify(Job(storage, 0x800, extents=[(10, 19)], fetch=lent["fetch"])))
no 000810 store-not-lent
>>> [f"{start:06X}" for start in find(storage)]
['000800']

A supervisor takes each program in: it says what the program's user owns, and learns what every job
has to grant. Before each start and each write it asks again, and holds one lock from the question
until the start or the write is done:

>>> job = Job(storage, 0x800, extents=[(10, 19)], **lent)
>>> program = take_in(job, own=[(0x800, 0x800)])
>>> in_flight = {}                                            # by device
>>> if may_start(job, program, in_flight.values()):
...     in_flight[0x190] = program                            # until it has ended
>>> print(may_write((0x900, 16), in_flight.values()))         # data may change
yes
>>> print(may_write((0x810, 8), in_flight.values()))
no: writes-over-kept 000810 by row 0

`chanv.supervisor` has a class that does so. chanv.h has the caller's duties and the premises of
these answers. The library is the one that CHANV_LIBRARY names, else the one in this package, in
`lib` of the prefix where the package is installed, or in `out` of its checkout, or whatever the
system finds under the library's name. It is loaded by the first call, which raises WrongLibrary if
there is none of this version.
"""

from array import array
from collections.abc import Collection, Iterator, Sequence
from contextlib import contextmanager
from ctypes import Array, byref, c_char_p, c_size_t, c_uint16, c_uint32, create_string_buffer
from dataclasses import dataclass, field, fields, replace
from enum import IntEnum
from mmap import mmap
from typing import Any, Union

from . import _c
from ._c import Error, WrongLibrary
from ._c import VERSION as __version__

__all__ = [
    "Answer",
    "Error",
    "Explanation",
    "Job",
    "NoAnswer",
    "NoJob",
    "Permission",
    "Place",
    "Program",
    "Refused",
    "Row",
    "Source",
    "Verdict",
    "WrongLibrary",
    "find",
    "library_version",
    "make_prefix",
    "may_start",
    "may_write",
    "places",
    "take_in",
    "text",
    "verify",
    "why",
]

Storage = Union[bytes, bytearray, memoryview, mmap, "array[Any]"]
Pairs = Sequence[Sequence[int]]
# what is in flight: programs and rows, with None for nobody, or the table of a supervisor
_Table = Union[Collection["Program | Row | None"], "_Flying"]

# the values of each reason, by the names of chanv.h
_VALUES = {
    "misaligned": "address",
    "outside-storage": "range storage_len",
    "transfer-not-allowed": "",
    "invalid-code": "code",
    "bad-format": "bits",
    "zero-count": "",
    "data-outside": "range storage_len",
    "not-in-table": "code",
    "inhibited": "code mask",
    "store-not-lent": "range gap",
    "fetch-not-lent": "range gap",
    "short-seek": "given addresses bytes",
    "seek-outside": "outside value below given addresses bytes",
    "changes-ccw": "range address",
    "changes-argument": "range address taker sets_mask given addresses bytes",
    "weakens-mask": "mask value",
}

# the refusals with an address or a cylinder
_WITH_VALUE = "changed no-cylinder not-fetchable not-storable keeps-outside may-hang".split()
_WITH_VALUE += "interrupts ends-chaining stores-over-kept keeps-stored-over writes-over-kept".split()

# what the open job of a program grants
_ALL_CYLINDERS, _ALL_STORAGE, _OPEN_MASK = (0, 202), (0, 16777216), 0xC0

# how many bytes `take_in` hands in at first, which most programs don't fill
_ROOM = 1024
# the most bytes that a prefix has
_PREFIX = 32


class Answer(IntEnum):
    """What a call of the library returns: `enum chanv_answer` of chanv.h, which says when."""

    YES = 0
    NO = 1
    TOO_MANY_PLACES = 2
    MEMORY = 3
    STORAGE_TOO_LARGE = 4
    NOT_A_DEVICE = 5
    NOT_A_MASK = 6
    NO_EXTENT = 7
    EXTENT_BACKWARDS = 8
    EXTENT_PAST_DEVICE = 9
    NOT_A_LIMIT = 10
    NO_ROOM = 11
    CHANGED_MEANWHILE = 12


_OF_AN_EXTENT = (Answer.EXTENT_BACKWARDS, Answer.EXTENT_PAST_DEVICE)


class NoAnswer(Error):
    """Neither yes nor no: the library's code, and the index of the extent if one is wrong."""

    def __init__(self, code: int, extent: int = 0) -> None:
        super().__init__(code, extent)
        self.code, self.extent = Answer(code), extent

    def __str__(self) -> str:
        which = f" (extent {self.extent})" if self.code in _OF_AN_EXTENT else ""
        return _word("answer", self.code) + which


class NoJob(Error):
    """No job will do for a program: the verdict if everything is granted, and its explanation."""

    def __init__(self, verdict: "Verdict", explanation: str) -> None:
        super().__init__(verdict, explanation)
        self.verdict, self.explanation = verdict, explanation

    def __str__(self) -> str:
        return f"no job will do: {self.verdict}"


class Refused(Error):
    """A program keeps or may do what isn't allowed, so it isn't taken in: its refusal, and where."""

    def __init__(self, permission: "Permission") -> None:
        super().__init__(permission)
        self.permission = permission


class _LaidOut:
    """What lays its lists out for C once, when it is made. Its fields alone are copied."""

    def _lists(self, *areas: str) -> list[Any]:
        """Makes the extents and these lists of areas tuples, and lays each out for C."""
        for name, bits in (("extents", 16), *((it, 32) for it in areas)):
            object.__setattr__(self, name, _c.pairs(getattr(self, name), bits))
        extents = _c.extents(getattr(self, "extents"))
        return [extents, *(_c.areas(getattr(self, name)) for name in areas)]

    def __reduce__(self) -> Any:
        return type(self), tuple(getattr(self, it.name) for it in fields(self))


@dataclass(frozen=True)
class Source:
    """A channel program, as a user hands it in. OverflowError: C has no such number."""

    storage: Storage = field(repr=False)  # main storage from address 0 on
    start: int  # the address of the first CCW
    device: int = 2314  # the type of the device: 2311 or 2314
    limit: int = 4096

    def __post_init__(self) -> None:
        _c.number(self.start, 32), _c.number(self.limit, 32), _c.number(self.device, 16)


@dataclass(frozen=True)
class Job(_LaidOut):
    """A channel program before its start, and all that it may use.

    Making a job raises OverflowError if C has no such number. The lists become tuples at once, so
    that they may come from an iterator.

    `verify`, `places`, `why` and `text` copy storage that can change, because Python's other
    threads run meanwhile. With `copy=False` they don't: then nothing may write storage from the
    call to its return. `take_in` and `may_start` never copy it: they are right even while other
    threads write. `may_start` wants main storage itself, so it refuses `bytes`, which never change.
    """

    storage: Storage = field(repr=False)  # main storage from address 0 on, as it is now
    start: int  # the address of the first CCW
    extents: Pairs  # the cylinders of the file, as pairs of first and last
    fetch: Pairs = ()  # the areas lent for fetching, as pairs of start and length
    store: Pairs = ()  # the areas lent for storing
    device: int = 2314  # the type of the device: 2311 or 2314
    mask: int = 0
    limit: int = 4096
    copy: bool = True

    def __post_init__(self) -> None:
        numbers = _c.number(self.start, 32), _c.number(self.limit, 32)
        few = _c.number(self.device, 16), _c.number(self.mask, 8)
        made = *self._lists("fetch", "store"), *numbers, *few
        object.__setattr__(self, "_made", made)

    @property
    def source(self) -> Source:
        """The job's program."""
        return Source(self.storage, self.start, self.device, self.limit)

    def opened(self) -> "Job":
        """The open job of the program, which grants all: its text says why no job will do."""
        cylinders, whole = [_ALL_CYLINDERS], [_ALL_STORAGE]
        return replace(self, extents=cylinders, fetch=whole, store=whole, mask=_OPEN_MASK)


@dataclass(frozen=True)
class Verdict:
    """Yes, or no with the first CCW that offends and the reason. As a condition it is its yes."""

    address: int | None = None
    reason: str | None = None

    def __bool__(self) -> bool:
        return self.reason is None

    def __str__(self) -> str:
        return "yes" if self.address is None else f"no {self.address:06X} {self.reason}"


@dataclass(frozen=True)
class Place:
    """A CCW that the program can come to, and how it enters it."""

    address: int
    entered: str
    after_transfer: bool


@dataclass(frozen=True)
class Explanation:
    """A no, the values of its cause by name, the path there, and the path to what is changed."""

    verdict: Verdict
    values: dict[str, Any]
    path: list[Place]
    second_path: list[Place]


@dataclass(frozen=True)
class Program(_LaidOut):
    """All that is remembered of a program; `take_in` makes it, and nothing changes it.

    The lists become tuples at once, so that they may come from an iterator.
    """

    start: int
    device: int  # the type of the device
    storage_len: int
    mask: int  # the strictest that serves
    extents: Pairs
    fetch: Pairs
    store: Pairs
    keep: Pairs
    kept: bytes  # the kept bytes as they were
    hangs_at: int | None = None  # the first address from which on it never ends by itself
    hangs_entered: str | None = None  # and how it enters the CCW there
    interrupts_at: int | None = None  # the first CCW with a program-controlled interruption
    # the first No Operation or Recalibrate with chain data, which ends it, but not in each emulator
    ends_chaining_at: int | None = None

    def __post_init__(self) -> None:
        object.__setattr__(self, "kept", bytes(memoryview(self.kept)))
        numbers = _c.number(self.storage_len, 32), _c.number(self.mask, 8)
        rows = _c.Rows(*self._lists("fetch", "store", "keep"), *numbers)
        few = _c.number(self.start, 32), _c.number(self.device, 16)
        object.__setattr__(self, "_made", _c.Program(rows, _c.bytes_at(self.kept), *few))


@dataclass(frozen=True)
class Row:
    """A row of the table that is no program. While it is in the table, others may write into the
    area `stores`, a pair of start and length, such as a tape's input: enter it after a yes of
    `may_write`, and take it out after the last byte is written. And no program that may store over
    the area `keeps` starts, such as a prefix of the supervisor's own."""

    stores: Sequence[int] = (0, 0)
    keeps: Sequence[int] = (0, 0)

    def __post_init__(self) -> None:
        areas = _c.pairs([self.stores, self.keeps], 32)
        for name, area in zip(("stores", "keeps"), areas):
            object.__setattr__(self, name, area)


@dataclass(frozen=True)
class Permission:
    """Yes, or no with a refusal, its address or cylinder, and the row that is in the way.

    As a condition it is its yes. A `Supervisor` names the unit on which that row's program is.
    """

    refusal: str | None = None
    value: int | None = None
    row: int | None = None
    unit: int | None = None

    def __bool__(self) -> bool:
        return self.refusal is None

    def __str__(self) -> str:
        if self:
            return "yes"
        digits = "03" if self.refusal == "no-cylinder" else "06X"
        value = "" if self.value is None else f" {self.value:{digits}}"
        row = "" if self.row is None else f" by row {self.row}"
        unit = "" if self.unit is None else f" by unit {self.unit}"
        return f"no: {self.refusal}{value}{row}{unit}"


# Each call raises NoAnswer if there is no answer, and TypeError if storage has no bytes.


def verify(job: Job) -> Verdict:
    """The verdict on a job."""
    out = _c.Verdict()
    with _job(job, _quiet(job)) as made:
        answer = _c.library.chanv_verify(byref(made), byref(out))
    _must_answer(answer, out.extent)
    return _verdict(out)


def places(job: Job) -> list[Place]:
    """The places that the program can come to, in order."""
    count, extent, answer, rows = c_size_t(), c_size_t(), _c.NO_ROOM, (_c.Place * 0)()
    with _job(job, _quiet(job)) as made:
        while answer == _c.NO_ROOM:
            rows = (_c.Place * count.value)()
            given = rows, c_size_t(len(rows)), byref(count), byref(extent)
            answer = _c.library.chanv_list(byref(made), *given)
    _must_answer(answer, extent.value)
    return _places(rows, count.value)


def why(job: Job) -> Explanation | None:
    """The explanation of a no, or None after a yes."""
    out, answer = _c.Explanation(), _c.NO_ROOM
    first, second = (_c.Place * 0)(), (_c.Place * 0)()
    with _job(job, _quiet(job)) as made:
        while answer == _c.NO_ROOM or (len(first), len(second)) != _counts(out):
            first, second = ((_c.Place * count)() for count in _counts(out))
            rooms = first, c_size_t(len(first)), second, c_size_t(len(second))
            answer = _c.library.chanv_why(byref(made), *rooms, byref(out))
    _must_answer(answer, out.verdict.extent)
    if answer == _c.YES:
        return None
    verdict, rows = _verdict(out.verdict), [_places(it, len(it)) for it in (first, second)]
    names = _VALUES[str(verdict.reason)].split()
    return Explanation(verdict, {name: _value(out.evidence, name) for name in names}, *rows)


def text(job: Job) -> str:
    """The text that explains the verdict, as `chanv why` prints it."""
    length, answer, buffer = c_size_t(), _c.NO_ROOM, create_string_buffer(0)
    with _job(job, _quiet(job)) as made:
        while answer == _c.NO_ROOM:
            buffer = create_string_buffer(length.value)
            given = buffer, c_size_t(len(buffer)), byref(length)
            answer = _c.library.chanv_text(byref(made), *given)
    _must_answer(answer, 0)
    return buffer.raw[: length.value].decode("ascii")


def find(storage: Storage, device: int = 2314, copy: bool = True) -> list[int]:
    """The starts of the channel programs in storage, in order; `copy` as in a job."""
    count, answer, starts = c_size_t(), _c.NO_ROOM, (c_uint32 * 0)()
    number = c_uint16(_c.number(device, 16))
    with _c.bytes_of(_c.quiet(storage) if copy else storage) as image:
        while answer == _c.NO_ROOM:
            starts = (c_uint32 * count.value)()
            room = c_size_t(len(starts))
            answer = _c.library.chanv_find(byref(image), number, starts, room, byref(count))
    _must_answer(answer, 0)
    return starts[: count.value]


def take_in(
    source: Source | Job,
    own: Pairs,
    *,
    hanging: bool = False,
    interrupting: bool = False,
    ending_chains: bool = False,
) -> Program:
    """What the program needs in every job and keeps, to be remembered. Other threads may write
    storage meanwhile. What a job grants doesn't matter.

    `own` is what the program's user owns, pairs of start and length in any order: only bytes of
    these areas may be kept. It may go on until it is halted if `hanging`, may ask for
    program-controlled interruptions if `interrupting`, and may end at a No Operation or Recalibrate
    with chain data if `ending_chains`.

    It raises NoJob if no job will do, Refused if the program keeps or may do what isn't allowed, and
    NoAnswer with CHANGED_MEANWHILE if storage changed during the call: ask again then, but not
    without end."""
    made, out, owned = _c.Program(), _c.Intake(), _c.areas(_c.pairs(own, 32))
    allowed = (
        hanging * _c.HANGING + interrupting * _c.INTERRUPTING + ending_chains * _c.ENDING_CHAINS
    )
    answer, length, room = _c.NO_ROOM, c_size_t(_ROOM), create_string_buffer(0)
    with _c.bytes_of(source.storage) as held:
        asked = _c.Source(held, source.start, source.limit, source.device)
        while answer == _c.NO_ROOM:
            room = create_string_buffer(length.value)
            filled = room, c_size_t(len(room)), byref(length), byref(made), byref(out)
            given = byref(asked), byref(owned), c_uint32(allowed), *filled
            answer = _c.library.chanv_take_in(*given)
    _must_answer(answer, out.verdict.extent)
    if out.refusal.code:
        raise Refused(_permission(out.refusal))
    if answer == _c.NO:
        raise _no_job(source)
    return _program(made, out)  # the lists are in `room`


def make_prefix(job: Job, address: int) -> bytes:
    """The prefix through which the job's program starts, for the address at which it will stand: it
    moves the arm into the extents, sets the job's mask, and goes on to the program in the same
    chain. It raises ValueError if it can't stand there."""
    length, prefix = c_size_t(), create_string_buffer(_PREFIX)
    with _job(job, job.storage) as made:
        given = c_uint32(_c.number(address, 32)), prefix, c_size_t(_PREFIX), byref(length)
        answer = _c.library.chanv_make_prefix(byref(made), *given)
    _must_answer(answer, 0)
    if answer == _c.NO:
        raise ValueError("no prefix can stand at this address")
    return prefix.raw[: length.value]


def may_start(job: Job, program: Program, in_flight: _Table) -> Permission:
    """Whether a program may start under a job beside what is in flight: programs, and rows that
    are none; None in the list is nobody.

    It is `chanv_check_start`, and a yes has the premises that chanv.h lists. An iterator is no list
    of them, but a TypeError: asked about twice, it would be empty. So is a job over `bytes` or a
    view of `bytes`: the kept bytes are compared with main storage as it is now, not with a copy.
    """
    out, flying = _c.Refusal(), _rows(in_flight)
    starting = byref(_filled(program))
    if _c.never_changes(job.storage):
        raise TypeError("may_start asks about main storage as it is now, and bytes never change")
    with _job(job, job.storage) as made:
        given = flying, c_size_t(len(flying)), starting, byref(out)
        answer = _c.library.chanv_check_start(byref(made), *given)
    _must_answer(answer, out.extent)
    return _permission(out)


def may_write(area: Sequence[int], in_flight: _Table) -> Permission:
    """Whether others may write to an area, a pair of start and length, now.

    It is `chanv_check_write`; the list is that of `may_start`.
    """
    out, flying = _c.Refusal(), _rows(in_flight)
    made = _c.Area(*_c.pairs([area], 32)[0])
    answer = _c.library.chanv_check_write(flying, c_size_t(len(flying)), byref(made), byref(out))
    _must_answer(answer, 0)
    return _permission(out)


def library_version() -> str:
    """The version of the library, such as 1.0.0, or 1.0.0+not.proved if nothing of it is proved."""
    return _c.version_of(_c.library)


@contextmanager
def _job(job: Job, storage: Storage) -> Iterator[_c.Job]:
    """The job for C over its storage, or over a copy of it, as long as the block lasts."""
    if not isinstance(job, Job):
        raise TypeError(f"this asks about a Job, not about a {type(job).__name__}")
    with _c.bytes_of(storage) as held:
        yield _c.Job(held, *getattr(job, "_made"))


def _quiet(job: Job) -> Storage:
    """Storage that nothing writes: a copy, unless the job says that none is needed."""
    return _c.quiet(job.storage) if job.copy else job.storage


def _must_answer(answer: int, extent: int) -> None:
    if answer not in (_c.YES, _c.NO):
        raise NoAnswer(answer, extent)


def _word(kind: str, number: int) -> str:
    """The library's word for a reason, an answer, a refusal or a way of entry."""
    call = getattr(_c.library, f"chanv_{kind}_word")
    call.restype = c_char_p
    word: bytes = call(c_uint32(number))
    return word.decode("ascii")


def _verdict(out: _c.Verdict) -> Verdict:
    return Verdict(out.address, _word("reason", out.reason)) if out.reason else Verdict()


def _places(rows: Any, count: int) -> list[Place]:
    words = [_word("entered", entered) for entered in range(4)]
    return [
        Place(it.address, words[it.entered], bool(it.after_transfer)) for it in rows[:count]
    ]


def _counts(out: _c.Explanation) -> tuple[int, int]:
    return out.path_count, out.second_path_count


def _value(evidence: _c.Evidence, name: str) -> Any:
    value = getattr(evidence, name)
    if isinstance(value, _c.Area):
        return value.start, value.len
    return tuple(value) if isinstance(value, Array) else value


def _permission(out: _c.Refusal) -> Permission:
    if not out.code:
        return Permission()
    word = _word("refusal", out.code)
    value = out.value if word in _WITH_VALUE else None
    return Permission(word, value, None if out.row == _c.NOBODY else out.row)


def _program(made: _c.Program, out: _c.Intake) -> Program:
    """What the library wrote about a program, in values of Python."""
    rows = made.rows
    return Program(
        start=made.start,
        device=made.device,
        storage_len=rows.storage_len,
        mask=rows.mask,
        extents=_c.rows_of(rows.extents),
        fetch=_c.rows_of(rows.fetch),
        store=_c.rows_of(rows.store),
        keep=_c.rows_of(rows.keep),
        kept=_c.held_bytes(made.kept),
        hangs_at=out.hangs_at if out.may_hang else None,
        hangs_entered=_word("entered", out.hangs_entered) if out.may_hang else None,
        interrupts_at=out.interrupts_at if out.interrupts else None,
        ends_chaining_at=out.ends_chaining_at if out.ends_chaining else None,
    )


def _no_job(source: Source | Job) -> Error:
    """Why no job will do. The verdict and its explanation are about one copy of storage, which
    nothing writes; if some job will do for the copy, storage has changed."""
    quiet, device, limit = _c.quiet(source.storage), source.device, source.limit
    opened = Job(quiet, source.start, [_ALL_CYLINDERS], device=device, limit=limit).opened()
    verdict = verify(opened)
    if verdict:
        return NoAnswer(Answer.CHANGED_MEANWHILE)
    return NoJob(verdict, text(opened))


def _filled(program: Program) -> _c.Program:
    """The program for C; anything else, such as a key of a table, is a TypeError."""
    if not isinstance(program, Program):
        raise TypeError(f"a Program was expected, not {type(program).__name__}")
    made: _c.Program = getattr(program, "_made")
    return made


def _row(it: Program | Row | None) -> _c.Row:
    """The row for C."""
    if it is None:
        return _c.Row()
    if isinstance(it, Row):
        return _c.Row(_c.Program(), _c.Area(*it.stores), _c.Area(*it.keeps))
    return _c.Row(_filled(it))


class _Flying:
    """What is in flight by the units on which it is, in rows that C reads where they are. A row of
    zeros is nobody's. A row without a unit stays."""

    def __init__(self) -> None:
        self.rows = (_c.Row * 8)()
        self._free = [*reversed(range(8))]
        self._by_unit: dict[int, tuple[int, Program | Row]] = {}

    def __contains__(self, unit: int) -> bool:
        return unit in self._by_unit

    def enter(self, unit: int | None, it: Program | Row) -> None:
        made = _row(it)
        if not self._free:
            count = len(self.rows)
            self.rows = (_c.Row * (2 * count))(*self.rows)
            self._free = [*reversed(range(count, 2 * count))]
        row = self._free.pop()
        self.rows[row] = made
        if unit is not None:
            self._by_unit[unit] = row, it  # the row refers to a program's lists

    def leave(self, unit: int) -> None:
        row, _ = self._by_unit.pop(unit)
        self.rows[row] = _c.Row()
        self._free.append(row)

    def unit_at(self, row: int) -> int | None:
        return next((unit for unit, (it, _) in self._by_unit.items() if it == row), None)


def _rows(rows: _Table) -> Any:
    """The rows of a table, with zeros for None."""
    if isinstance(rows, _Flying):
        return rows.rows
    if isinstance(rows, Iterator):
        raise TypeError("what is in flight is an iterator; hand in a list or another table")
    made = [_row(it) for it in rows]
    return (_c.Row * len(made))(*made)
