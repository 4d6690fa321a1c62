#!/usr/bin/env python3
"""Measures `chanv find` over images of 16 MiB, beside reading them, and prints a table.

    bench/find.py [PROGRAM]    PROGRAM is the built chanv, else crates/chanv/out/chanv

The time is that of the processor, the least of three runs; the peak is the largest resident set, in
millions of bytes, which is never below what Python takes before the program starts. The status is 0
if ordinary content takes less than a second and 60 MB, a million entries into one chain less than
20 seconds, and any other less than 3.
"""

import os
import subprocess
import sys
import tempfile
from pathlib import Path
from random import Random

ROOT = Path(__file__).resolve().parent.parent
SIZE, RUNS = 16_777_216, 3
OPERATION, TRANSFER = "0300000040000001", "0800000800000000"
LOOP = ["3100000040000005", "0800000000000000", "0600000040000008"]
# an operation that chains to a transfer to 0, and the length of the chain to which such pairs lead
ENTRY, LAST = "03000000400000010800000000000000", "0300000000000001"
CHAIN = 4_090


def filled(words):
    """An image of these bytes, again and again."""
    return (words * (SIZE // len(words) + 1))[:SIZE]


def entries():
    """A chain, and programs that lead to it from all the rest of the image."""
    chain = bytes.fromhex(OPERATION * (CHAIN - 1) + LAST)
    return chain + bytes.fromhex(ENTRY) * ((SIZE - len(chain)) // 16)


def images(program):
    """Each image with its name, and the seconds that it may take: 1 for ordinary content."""
    random = Random(43)
    text = (ROOT / "README.md").read_bytes()
    yield "zeros", bytes(SIZE), 1
    yield "noise", random.randbytes(SIZE), 1
    yield "code", filled(program.read_bytes()), 1
    yield "text in ASCII", filled(text), 1
    yield "text in EBCDIC", filled(text.decode("ascii", "replace").encode("cp037", "replace")), 1
    yield "one chain", filled(bytes.fromhex(OPERATION))[:-8] + bytes(8), 3
    yield "transfers", filled(bytes.fromhex(TRANSFER)), 3
    yield "search loops", filled(bytes.fromhex("".join(LOOP))), 3
    yield "entries into one chain", entries(), 20


def measured(words, output):
    """Processor seconds and the peak of the fastest of some runs, with the output in a file."""
    runs = []
    for _ in range(RUNS):
        flags = os.O_WRONLY | os.O_CREAT | os.O_TRUNC
        action = [(os.POSIX_SPAWN_OPEN, 1, output, flags, 0o600)]
        child = os.posix_spawn(words[0], words, os.environ, file_actions=action)
        _, status, used = os.wait4(child, 0)
        if status:
            raise SystemExit(f"{words} ended with {status}")
        runs.append((used.ru_utime + used.ru_stime, used.ru_maxrss))
    return min(runs)


def write_images(program, room):
    """In a process of its own: a run's peak is never below that of the process that starts it."""
    for number, (name, image, most) in enumerate(images(program)):
        (room / f"{number} {name} {most}").write_bytes(image)


def measure(program, room):
    is_within = True
    print("| image of 16 MiB | reading, seconds | find, seconds | peak MB | programs |")
    print("|---|---|---|---|---|")
    for path in sorted(room.iterdir()):
        read, _ = measured(["/bin/cat", str(path)], "/dev/null")
        words = [str(program), "find", "--device", "2314", str(path)]
        seconds, peak = measured(words, f"{room}.lines")
        lines = len(Path(f"{room}.lines").read_text().splitlines())
        peak *= 1024 / 1e6
        name, most = path.name.strip(" 0123456789"), int(path.name.rsplit(" ")[-1])
        is_within &= seconds < most and (most > 1 or peak < 60)
        print(f"| {name} | {read:.3f} | {seconds:.3f} | {peak:.1f} | {lines} |")
    return 0 if is_within else 1


def main():
    program = Path(sys.argv[1] if len(sys.argv) > 1 else ROOT / "crates/chanv/out/chanv").resolve()
    if len(sys.argv) > 2:
        return write_images(program, Path(sys.argv[2]))
    with tempfile.TemporaryDirectory() as folder:
        room = Path(folder) / "images"
        room.mkdir()
        subprocess.run([sys.executable, __file__, program, room], check=True)
        return measure(program, room)


if __name__ == "__main__":
    sys.exit(main())
