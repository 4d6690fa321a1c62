"""Programs in flight on the machine, under a supervisor, while others write what it lets them."""

from random import Random
from typing import NamedTuple

from channel import MASKS
from judging import Job, first_place
from making import ARGUMENTS, DATA, PROGRAM, random_job
from stepping import ENDED, harms, steps

STORAGE, PROGRAMS, UNITS = 0x800, 12, 8

# the types of device
TYPES = (2311, 2314)

# programs lie so far apart that the data of one meet the CCWs and arguments of another
APART = 0x40


class Flight(NamedTuple):
    """A program on a unit: its number and job, and the state of its run."""

    number: int
    job: Job
    state: tuple


class Flights:
    """What happens on one storage. `supervisor` has the calls of the worked supervisor: `take_in`,
    `rows`, `start`, `leave` and `may_write`, and says by `arm` to which cylinder the prefix of the
    last start moved the arm, if there was one."""

    def __init__(self, supervisor, seed):
        self.supervisor, self.random = supervisor, Random(seed)
        self.storage = supervisor.storage
        self.asked, self.flights, self.was_started = {}, {}, set()
        self.arms = dict.fromkeys(range(UNITS), 0)
        names = "taken_in refused started again held_back busy written other_device".split()
        self.counts = dict.fromkeys([*names, *(f"on_{it}" for it in TYPES)], 0)

    def below(self, most):
        return int(self.random.random() * most)

    def count(self, *names):
        for name in names:
            self.counts[name] += 1

    def write(self, address, held):
        """Others write, if they may."""
        if self.supervisor.may_write(address, len(held)):
            self.storage[address : address + len(held)] = held
            self.count("written")

    def write_program(self, number):
        """Others write a program at some address, in so far as they may, and have it taken in."""
        job, base = random_job(self.random), APART * self.below((STORAGE - DATA) // APART)
        for at in range(PROGRAM, DATA, 8):
            word = job.storage[at : at + 8]
            if at < ARGUMENTS and any(word):
                address = (int.from_bytes(word[1:4]) + base) & 0xFFFFFF
                word = word[:1] + address.to_bytes(3, "big") + word[4:]
            self.write(at + base, word)
        asked = job._replace(storage=self.storage, start=job.start + base, limit=4096)
        is_listed = self.supervisor.take_in(number, asked)
        self.asked[number] = asked if is_listed else None
        self.was_started.discard(number)
        self.count("taken_in" if is_listed else "refused")

    def granted(self, number):
        """A job that grants just what the program needs, mostly, or about anything."""
        asked = self.asked[number]
        mask, extents, fetch, store = self.supervisor.rows(number)
        if self.below(4) == 0:
            mask = self.random.choice(MASKS)
        if not extents or self.below(4) == 0:
            extents = [(self.below(16), 202)]
        for areas in (fetch, store):
            if areas and self.below(8) == 0:
                start, count = areas[0]
                areas[0] = (start, count - 1)
        if self.below(4) == 0:
            fetch, store = [(8 * self.below(16), STORAGE)], fetch
        device = asked.device
        if self.below(8) == 0:
            [device] = {*TYPES} - {device}
            self.count("other_device")
        job = asked._replace(mask=mask, extents=extents, fetch=fetch, store=store)
        return job._replace(device=device)

    def try_start(self, number, unit):
        """The answer is a harm if it starts on a unit in use, or on another type of device than it
        was asked for."""
        job = self.granted(number) if self.asked[number] else None
        if job is None or not self.supervisor.start(number, unit, job):
            self.count("held_back", *["busy"] * (unit in self.flights))
            return None
        if unit in self.flights:
            return "on a unit that another program uses"
        if job.device != self.asked[number].device:
            return "on another type of device"
        self.flights[unit] = Flight(number, job, (first_place(job), ()))
        arm = self.supervisor.arm()
        self.arms[unit] = self.arms[unit] if arm is None else arm
        self.count("started", f"on_{job.device}", *["again"] * (number in self.was_started))
        self.was_started.add(number)
        return None

    def step(self, unit):
        """One step of the program on a unit, or a halt. The answer is its harm, if it did any."""
        flight = self.flights[unit]
        if flight.state == ENDED or self.below(64) == 0:
            del self.flights[unit]
            self.supervisor.leave(unit)
            return None
        possible = [*steps(self.storage, *flight.state)]
        going_on = [it for it in possible if it[1] != ENDED]
        events, stage = self.random.choice(going_on if going_on and self.below(8) else possible)
        for reason in harms(flight.job, events):
            return reason
        for what, *values in events:
            if what == "seek":
                self.arms[unit] = int.from_bytes(values[0][2:4], "big")
            if what == "store":
                if not any(first <= self.arms[unit] <= last for first, last in flight.job.extents):
                    return "data from outside its extents"
                address, moved = values
                self.storage[address : address + moved] = self.random.randbytes(moved)
        if stage != ENDED and not isinstance(stage, tuple):
            return stage
        self.flights[unit] = flight._replace(state=stage)
        return None

    def fly(self, wanted):
        """Goes on until so many programs were started, or one does harm, which is the answer."""
        while self.counts["started"] < wanted:
            harm = None
            if self.flights and self.below(4) != 0:
                harm = self.step(self.random.choice([*self.flights]))
            else:
                harm = self.start_some()
            if harm:
                return harm
            if self.below(8) == 0:
                held = self.random.randbytes(1 + self.below(15))
                self.write(self.below(STORAGE - 16), held)
        return None

    def start_some(self):
        """Tries to start some program. One that isn't in flight may be written anew before."""
        number, unit = self.below(PROGRAMS), self.below(UNITS)
        is_flying = any(flight.number == number for flight in self.flights.values())
        if not is_flying and (not self.asked.get(number) or self.below(64) == 0):
            self.write_program(number)
        return self.try_start(number, unit)
