"""Hercules 3.13 as a disk and a channel: volumes, and runs of jobs on them with their traces."""

import os
import re
import struct
import subprocess
import tempfile
import time
from pathlib import Path
from random import Random
from typing import NamedTuple

import nucleus
from channel import HEADS, LAST_CYLINDER
from nucleus import PREFIX, PROGRAM, SIZE, ccw

DEVICES = (2311, 2314)
CONTENTS = ("blank", "plain", "sought", "odd")
SEARCHES = (0x31, 0x51, 0x71, 0x29, 0x49, 0x69, 0x39)

# how long a run that doesn't end may take, and one that gathers data without end
MOST_MILLISECONDS, MOST_GATHERING = 50, 1500
MOST_SECONDS = 100

# of a run that doesn't end, so many CCWs are looked at
MOST_CCWS = 1000

OPTIONS = """CPUSERIAL 000611\nCPUMODEL 3033\nMAINSIZE 16\nXPNDSIZE 0\nNUMCPU 1\nARCHMODE S/370
OSTAILOR QUIET\nHERCPRIO 0\nTODPRIO 0\nCPUPRIO 15\nDEVPRIO 0\nPANRATE SLOW\nSHCMDOPT DISABLE"""
TRACED = re.compile(r"HHCCP048I [0-9A-F]{4}:CCW=([0-9A-F]{8}) ([0-9A-F]{8})")
STOPPED = re.compile(rb"HHCCP011I[^\n]*\n?[^\n]*?PSW=")


class Request(NamedTuple):
    """A job to run, the content of the disk, and for how long."""

    job: object
    content: str
    milliseconds: int

    def device(self):
        return 0x190 + 4 * DEVICES.index(self.job.device) + CONTENTS.index(self.content)

    def prefix(self):
        """Seek to the first cylinder, set the job's mask, and go to its first CCW."""
        argument = struct.pack(">HHHH", 0, self.job.extents[0][0], 0, 0)
        return [
            (PROGRAM, ccw(0x07, PROGRAM + 0x48, 0x40, 6)),
            (PROGRAM + 8, ccw(0x1F, PROGRAM + 0x40, 0x60, 1)),
            (PROGRAM + 16, ccw(0x08, self.job.start, 0, 0)),
            (PROGRAM + 0x40, bytes([self.job.mask]).ljust(8, b"\0")),
            (PROGRAM + 0x48, argument),
        ]

    def record(self):
        """Storage outside the job has another key, so that a CCW or data there is refused."""
        storage = self.job.storage
        blocks = len(storage) // 2048
        keys = [(0, 8192, 0xF8), (0x1000, blocks - 2, 0x10), (PREFIX, 2, 0x10), (PROGRAM, 1, 0x10)]
        keys = [run for run in keys if run[1]]
        words = [(at, storage[at : at + 8]) for at in range(0, len(storage), 8)]
        puts = self.prefix() + [
            (at + PREFIX if at < 0x1000 else at, word) for at, word in words if any(word)
        ]
        units = self.milliseconds * 1000 // 16
        told = struct.pack(
            ">5I", self.device(), 0x10000000 | PROGRAM, units, len(keys), len(puts)
        )
        told = told.ljust(64, b"\0") + b"".join(struct.pack(">3I", *run) for run in keys)
        return told.ljust(128, b"\0") + b"".join(struct.pack(">I", at) + it for at, it in puts)


def fits(job):
    """Whether a job has room in the supervisor's storage, and in a record of the tape."""
    words = sum(any(job.storage[at : at + 8]) for at in range(0, len(job.storage), 8))
    return len(job.storage) <= SIZE and 128 + 12 * (words + 5) <= 0xFFFF


def in_blocks(job):
    """The job with storage that storage keys can tell from the rest: whole blocks of 2K."""
    whole = max(0x1000, -(-len(job.storage) // 2048) * 2048)
    return job._replace(storage=job.storage.ljust(whole, b"\0"))


class Outcome:
    """How a run ended, what storage held then, and the CCWs that the channel fetched."""

    def __init__(self, record, storage, trace):
        self.unit_status, self.channel_status = record[12], record[13]
        flags = record[16]
        self.is_late = bool(flags & nucleus.LATE)
        self.is_lost = bool(flags & nucleus.STUCK) or not flags & nucleus.FINAL
        has_home = flags & nucleus.HAS_HOME and not self.is_lost
        self.cylinder = int.from_bytes(record[21:23]) if has_home else None
        self.storage = storage
        self.trace = trace[:MOST_CCWS] if self.is_late else trace

    def is_checked(self):
        """A program check, or a protection check, which stands for an address outside storage."""
        return bool(self.channel_status & 0x30) and not self.is_late

    def is_outside(self):
        return bool(self.channel_status & 0x10)


# ---- volumes


def track(cylinder, head, size, records, first):
    """A track of so many bytes, with those of the records that have room."""
    home = struct.pack(">BHH", 0, cylinder, head)
    made = home + struct.pack(">HHBBH", cylinder, head, 0, 0, len(first)) + first
    for name, key, data in records:
        record = name + struct.pack(">BH", len(key), len(data)) + key + data
        if len(made) + len(record) + 16 > size:
            break
        made += record
    return (made + b"\xff" * 8).ljust(size, b"\0")


def records_of(content, cylinder, head, sought, random):
    """Usual records, records without data, which mark the end of a file, records that the searches
    of the jobs find, or odd ones."""
    names = [struct.pack(">HHB", cylinder, head, number) for number in range(1, 8)]
    if content == "ended":
        return [(name, b"", b"") for name in names]
    if content == "plain":
        sizes = [(8, 80), (0, 80), (8, 80), (0, 256), (8, 256)]
        return [(name, bytes(key), random.randbytes(n)) for name, (key, n) in zip(names, sizes)]
    if content == "sought":
        some = random.sample(sought, min(len(sought), 40))
        keyed = [(it[:5], it[: random.choice([5, 8])], random.randbytes(16)) for it in some]
        return keyed + [(name, b"", random.randbytes(40)) for name in names[:2]]
    odd = [bytes([random.randrange(128)]) + random.randbytes(4) for _ in names]
    lengths = [0, 1, 6, 80, 600, 1500]
    return [
        (random.choice(pair), random.randbytes(random.choice([0, 3, 44])), bytes(length))
        for pair, length in zip(zip(names, odd), random.sample(lengths, random.randrange(1, 7)))
    ]


def make_volume(folder, device, content, sought):
    """A volume of the emulator with this content on each track."""
    blank, made = folder / f"blank.{device}", folder / f"{content}.{device}"
    if not blank.is_file():
        words = ["dasdinit", "-a", blank, str(device), f"V{device}"]
        subprocess.run(words, check=True, capture_output=True)
    if content == "blank":
        return blank
    random, head = Random(f"{device} {content}"), blank.read_bytes()[:512]
    [size] = struct.unpack_from("<I", head, 12)
    with made.open("wb") as file:
        file.write(head)
        for number in range((LAST_CYLINDER + 1) * HEADS[device]):
            place = divmod(number, HEADS[device])
            records = records_of(content, *place, sought, random)
            file.write(track(*place, size, records, random.randbytes(8)))
    return made


def sought_by(jobs):
    """What the searches of the jobs look for: the first eight bytes of each argument."""
    found = {bytes(8)}
    for job in jobs:
        for at in range(0, len(job.storage), 8):
            word = job.storage[at : at + 8]
            if word[0] & 0x7F in SEARCHES:
                start = int.from_bytes(word[1:4])
                found.add(job.storage[start : start + 8].ljust(8, b"\0"))
    return sorted(it for it in found if not it[0] & 0x80)


def make_volumes(folder, jobs):
    sought = sought_by(jobs)
    return {
        0x190 + 4 * row + column: (device, make_volume(folder, device, content, sought))
        for row, device in enumerate(DEVICES)
        for column, content in enumerate(CONTENTS)
    }


# ---- runs


def write_tape(path, records):
    before, blocks = 0, []
    for record in records:
        blocks.append(struct.pack("<HHBB", len(record), before, 0xA0, 0) + record)
        before = len(record)
    marks = struct.pack("<HHBB", 0, before, 0x40, 0) + struct.pack("<HHBB", 0, 0, 0x40, 0)
    path.write_bytes(b"".join(blocks) + marks)


def read_tape(path):
    held, at = path.read_bytes(), 0
    while at + 6 <= len(held):
        count, _, flags, _ = struct.unpack_from("<HHBB", held, at)
        at += 6
        if not flags & 0x40:
            yield held[at : at + count]
            at += count


def configure(room, volumes):
    """What the emulator reads: the machine, and the commands with which it begins."""
    lines = [f"{at:04X} {device} {path} nosyncio" for at, (device, path) in volumes.items()]
    lines += [f"0480 3420 {room}/in.aws", f"0481 3420 {room}/out.aws"]
    (room / "machine").write_text("\n".join([OPTIONS, *lines, ""]))
    begin = []
    for number, (at, held) in enumerate(nucleus.pieces()):
        (room / f"core{number}").write_bytes(held)
        begin.append(f"loadcore {room}/core{number} {at:X}")
    begin += [f"t+{at:04X}" for at in volumes]
    (room / "begin").write_text("\n".join([*begin, "restart", ""]))


def carry_out(room):
    """Starts the emulator and waits until its processor stops. The answer is what it printed."""
    log, end = room / "log", time.monotonic() + MOST_SECONDS
    told = {**os.environ, "HERCULES_RC": str(room / "begin")}
    words = ["hercules", "-d", "-f", str(room / "machine")]
    with log.open("wb") as output:
        files = {"stdin": subprocess.DEVNULL, "stdout": output, "stderr": output}
        with subprocess.Popen(words, cwd=room, env=told, start_new_session=True, **files) as ran:
            while ran.poll() is None and time.monotonic() < end:
                time.sleep(0.05)
                with log.open("rb") as printed:
                    printed.seek(max(0, log.stat().st_size - 4096))
                    if STOPPED.search(printed.read()):
                        break
            ran.kill()
    return log.read_text(errors="replace")


def traces_of(text):
    """The CCWs of each run. The one that reads the home address comes after the last of a run."""
    trace = []
    for first, second in TRACED.findall(text):
        word = bytes.fromhex(first + second)
        if int.from_bytes(word[1:4]) == nucleus.HOME:
            yield trace
            trace = []
        else:
            trace.append(word)


def run_once(requests, volumes):
    """Carries out the requests in turn; the outcomes are fewer if the emulator gave up."""
    with tempfile.TemporaryDirectory() as name:
        room = Path(name)
        write_tape(room / "in.aws", [request.record() for request in requests])
        (room / "out.aws").touch()
        configure(room, volumes)
        traces = traces_of(carry_out(room))
        records = [*read_tape(room / "out.aws")]
        return [Outcome(*it) for it in zip(records[::2], records[1::2], traces)]


def run_all(requests, volumes):
    """Carries out all requests. After a run that nothing ends, it begins again with the next."""
    outcomes = []
    while len(outcomes) < len(requests):
        some = run_once(requests[len(outcomes) :], volumes)
        ended = next((at for at, it in enumerate(some, 1) if it.is_lost), len(some))
        if not ended:
            break
        outcomes += some[:ended]
    return outcomes
