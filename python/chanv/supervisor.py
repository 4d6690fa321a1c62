"""A supervisor that has several channel programs in flight on one main storage."""

from collections.abc import Callable, Sequence
from dataclasses import replace
from threading import Lock, get_ident
from weakref import WeakValueDictionary

from . import Answer, Job, NoAnswer, Pairs, Permission, Program, Refused, Row, Source, _Flying
from . import _c, may_start, may_write, take_in

__all__ = ["Refused", "Supervisor"]

# how often a program is taken in that changes each time
TRIES = 8


def _common(some: Pairs, others: Pairs) -> list[tuple[int, int]]:
    """The areas that two lists of areas have in common, of each area with each."""
    bounds = [
        (max(start, first), min(start + length, first + size))
        for start, length in some
        for first, size in others
    ]
    return [(start, end - start) for start, end in bounds if start < end]


class _Lock:
    """A lock that raises RuntimeError where its own thread would wait for itself."""

    def __init__(self) -> None:
        self._lock, self._holder = Lock(), 0

    def __enter__(self) -> None:
        if self._holder == get_ident():
            raise RuntimeError("what a supervisor calls must not call it")
        self._lock.acquire()
        self._holder = get_ident()

    def __exit__(self, *_: object) -> None:
        self._holder = 0
        self._lock.release()

    def locked(self) -> bool:
        return self._lock.locked()


class Supervisor:
    """Starts programs, and lets others write, so that no program in flight does harm.

    >>> storage = bytearray(0x1000)
    >>> storage[0x800:0x808] = bytes.fromhex("06000A0020000050")  # read 80 bytes to A00
    >>> job = Job(storage, 0x800, extents=[(10, 19)], store=[(0xA00, 0x100)])
    >>> own = [(0x800, 0x800)]  # the users' own storage, where the machine itself never stores
    >>> supervisor = Supervisor(start_io=lambda unit, job: True, own=own)
    >>> program = supervisor.take_in(job)
    >>> print(supervisor.start(0x190, job, program))
    yes
    >>> print(supervisor.write((0x800, 8), lambda: storage.__setitem__(0x800, 0)))
    no: writes-over-kept 000800 by unit 400
    >>> supervisor.leave(0x190)

    `start_io(unit, job)` moves the arm of the unit into the job's extents, puts the job's mask in
    force by a prefix, starts the program at the job's start, and returns True if it is in flight
    now, otherwise False. A unit is an arm, by its number, and of the job's type. If `start_io`
    raises, or returns anything else, such as a condition code, the program counts as in flight. What
    the supervisor calls runs under its lock; if it calls a method of it, that raises RuntimeError.

    `own` is the storage of the users, as pairs of start and length: not low storage, where the
    machine stores PSWs, the CSW and the timer and logs out, nor the system's own. Only you know
    where it is, so it has no default. Whatever else writes `own` asks by `write`.

    `take_in` refuses a program

    - that keeps bytes outside `own`;
    - that may go on until you halt it, unless `hanging`;
    - with a program-controlled interruption, unless `interrupting`: it invites the processor to
      change the program, and chanv hasn't seen what is written then;
    - that ends at a No Operation or Recalibrate with chain data, unless `ending_chains`: some
      emulators go on, to a CCW that chanv hasn't seen;
    - that keeps a byte of `guarded`, areas of your own such as prefixes. No program starts that may
      store over them.

    A refusal has the word of the library, or `unit-in-use`, or `not-accepted` if `start_io` returned
    False.
    """

    def __init__(
        self,
        start_io: Callable[[int, Job], bool],
        *,
        own: Pairs,
        guarded: Pairs = (),
        hanging: bool = False,
        interrupting: bool = False,
        ending_chains: bool = False,
    ) -> None:
        self._start_io = start_io
        self._own, self._guarded = _c.pairs(own, 32), _c.pairs(guarded, 32)
        self._allowed = {
            "hanging": hanging,
            "interrupting": interrupting,
            "ending_chains": ending_chains,
        }
        self._lock = _Lock()
        self._taken_in: WeakValueDictionary[int, Program] = WeakValueDictionary()  # by their ids
        # by unit, and what is guarded
        self._table = _Flying()
        for area in self._guarded:
            self._table.enter(None, Row(keeps=area))

    def take_in(self, source: Source | Job, own: Pairs | None = None) -> Program:
        """Takes a program in, over storage that anything may write; `own` is the part of the users'
        storage that is its user's, and if left out all of it. It raises like `chanv.take_in`;
        CHANGED_MEANWHILE only after some tries."""
        owned = self._own if own is None else _common(_c.pairs(own, 32), self._own)
        program = self._settled(source, owned)
        for area in self._guarded:
            spared = may_write(area, [program])
            if not spared:
                raise Refused(Permission("keeps-outside", spared.value))
        self._taken_in[id(program)] = program
        return program

    def start(self, unit: int, job: Job, program: Program) -> Permission:
        """Starts a program that `take_in` returned, if its unit is free and it may start. It is in
        flight until it leaves. A refusal names the unit of the program in the way. For any other
        program, also an equal one, it raises ValueError. If `start_io` doesn't say whether the
        program is in flight, it raises TypeError."""
        if self._taken_in.get(id(program)) is not program:
            raise ValueError("this supervisor didn't take the program in")
        with self._lock:
            if unit in self._table:
                return Permission("unit-in-use")
            permission = may_start(job, program, self._table)
            if permission:
                self._table.enter(unit, program)
                accepted: object = self._start_io(unit, job)
                if not isinstance(accepted, bool):
                    raise TypeError(f"start_io must return True or False, not {accepted!r}")
                if not accepted:
                    self._table.leave(unit)
                    return Permission("not-accepted")
            return self._by_unit(permission)

    def write(self, area: Sequence[int], put: Callable[[], object]) -> Permission:
        """Calls `put`, which writes only to the area, if others may write there now."""
        with self._lock:
            permission = may_write(area, self._table)
            if permission:
                put()
            return self._by_unit(permission)

    def begin_write(self, unit: int, area: Sequence[int]) -> Permission:
        """Lets a unit, such as a tape, write to an area at any time until it leaves."""
        with self._lock:
            if unit in self._table:
                return Permission("unit-in-use")
            permission = may_write(area, self._table)
            if permission:
                self._table.enter(unit, Row(stores=area))
            return self._by_unit(permission)

    def leave(self, unit: int) -> None:
        """The unit is free from now on: its program makes no further step, or it writes no further
        byte, and its last store is visible. It raises KeyError if the unit was free."""
        with self._lock:
            self._table.leave(unit)

    def _settled(self, source: Source | Job, own: Pairs) -> Program:
        """The program, taken in again if storage changed too much, but not without end."""
        for _ in range(TRIES - 1):
            try:
                return take_in(source, own, **self._allowed)
            except NoAnswer as why:
                if why.code != Answer.CHANGED_MEANWHILE:
                    raise
        return take_in(source, own, **self._allowed)

    def _by_unit(self, permission: Permission) -> Permission:
        if permission.row is None:
            return permission
        return replace(permission, row=None, unit=self._table.unit_at(permission.row))
