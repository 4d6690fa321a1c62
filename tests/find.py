"""`chanv find` lists the starts that docs/OLD-PROGRAMS.md defines, in many small images.

No proof says which starts these are, so this test does. It reads the definition anew, over the
places and faults of model/, and not as the code finds the programs. The images are storages of
random jobs, two of them in a row, example decks in noise, and bytes that are often CCWs. After the
verdict a line has the number of the program's CCWs and the names of its first commands, which are
read anew too. Then come large images of one shape each. `find` of the package for Python, which
calls `chanv_find`, lists the same starts, and leads to each start with a yes. Images that were
written for one part of the definition each have the starts that a reader of the page expects.
"""

import re
import sys
import tempfile
from pathlib import Path
from random import Random

from building import HERE
from examples import EXAMPLES, FOLDERS, decks_of
from model import Answer, answers_of_each, limit_line
from package import package
from running import Ran, run, text_of

sys.path.insert(0, str(HERE / "model"))

from channel import CHAIN_COMMAND, COMMANDS, ccw_at  # noqa: E402
from judging import (  # noqa: E402
    FRESH,
    Job,
    Place,
    command_at,
    first_place,
    own_fault,
    successors,
)
from making import SIZE, random_job  # noqa: E402
from writing import job_of  # noqa: E402

SEED, IMAGES, LIMIT = 43, 2400, 200
MOST_NAMES = 4
MOST_STORAGE = 0x1000
LARGEST = 16_777_216

# a No Operation that chains command and one that doesn't, a search, a read and a search that chain
# data, and no CCW
NEXT, LAST, SEARCH = "0300000040000001", "0300000000000001", "3100000040000005"
READ_ON, SEARCH_ON, NONE = "0600000080000001", "3100000080000001", "0000000000000000"


def to(address):
    """A transfer in channel."""
    return f"08{address:06X}00000000"


# images by doublewords, and the starts that the page defines in each
WORKED = [
    ("two programs", [NEXT, LAST, NEXT, LAST], [0, 0x10]),
    ("one CCW", [LAST], []),
    ("one CCW that leads to itself", [NEXT, to(0)], []),
    ("a search loop", [SEARCH, to(0), LAST], [0]),
    ("a second CCW with a fault", [NEXT, NONE], []),
    ("byte 5 of the first CCW", ["0300000040010001", LAST], []),
    ("byte 5 of the second CCW", [NEXT, "0300000000010001"], []),
    ("byte 5 of a transfer", [NEXT, "0800001000010000", LAST], [0]),
    ("two starts that lead to each other", [NEXT, to(0x10), NEXT, to(0)], [0]),
    ("a start that leads to a lower one", [NEXT, LAST, NEXT, to(0)], [0x10]),
    ("a transfer in the last doubleword", [NEXT, LAST, NEXT, NEXT, to(0)], [0x10]),
    # in the next three, 0 leads to the last start only if 28, 10 or 30 counts once for each way in
    (
        "a transfer after a transfer and after a CCW",
        [SEARCH, to(0x20), to(0x28), NONE, NEXT, to(0x38), NONE, NEXT, LAST],
        [0],
    ),
    ("a search on a data chain and as a start", [READ_ON, to(0x10), SEARCH, LAST, NEXT, LAST], [0]),
    (
        "a CCW on the data chains of a read and of a search",
        [SEARCH, to(0x20), READ_ON, to(0x30), SEARCH_ON, to(0x30), NEXT, LAST, NEXT, LAST],
        [0],
    ),
]


def start_at(address):
    return Place(address, FRESH, True)


def is_plain(job, place):
    ccw = ccw_at(job.storage, place.address)
    return own_fault(job, place) is None and (ccw.is_transfer() or ccw.spare == 0)


def next_places(job, place):
    """The places one step after a plain place; none after any other."""
    return successors(place, ccw_at(job.storage, place.address)) if is_plain(job, place) else []


def is_second(job, start, place):
    is_elsewhere = place.address != start and is_plain(job, place)
    return is_elsewhere and not ccw_at(job.storage, place.address).is_transfer()


def is_likely(job, start):
    first = next_places(job, start_at(start))
    second = [place for before in first for place in next_places(job, before)]
    return any(is_second(job, start, place) for place in [*first, *second])


def led_to(job, start):
    """The places that plain places lead to from a start."""
    places, left = set(), [start_at(start)]
    while left:
        place = left.pop()
        if place not in places:
            places.add(place)
            left += next_places(job, place)
            left += [start_at(place.address)] * is_plain(job, place)
    return places


def programs_of(job):
    likely = [at for at in range(0, len(job.storage), 8) if is_likely(job, at)]
    led = {start: led_to(job, start) for start in likely}
    for start in likely:
        into = [other for other in likely if start_at(start) in led[other]]
        if all(start_at(other) in led[start] and start <= other for other in into):
            yield start


def with_a_yes(job):
    """The starts with a yes, two CCWs other than transfers, and byte 5 of each of these zero."""
    for start in range(0, len(job.storage), 8):
        answer = Answer(job._replace(start=start))
        if answer.verdict == "yes" and not answer.is_too_large:
            ccws = {place.address: ccw_at(job.storage, place.address) for place in answer.faults}
            spares = [ccw.spare for ccw in ccws.values() if not ccw.is_transfer()]
            if len(spares) > 1 and not any(spares):
                yield start


def job_over(image, device):
    storage = image + bytes(-len(image) % 8)
    return Job(storage, 0, device, 0, [], [], [], LIMIT).opened()


def lines_of(image, device):
    """What the page says of an image: a line for each program, with the verdict on it."""
    job = job_over(image, device)
    starts = [*programs_of(job)]
    is_past_limit = is_past_storage = False
    for start in starts:
        answer = Answer(job._replace(start=start))
        told = "too many places" if answer.is_too_large else f"{answer.verdict} {shape_of(answer)}"
        yield f"{start:06X} {told}"
        is_past_limit |= answer.is_too_large
        is_past_storage |= " data-outside " in told
    if is_past_storage:
        yield STORAGE_NOTE.format(len(job.storage))
    if is_past_limit:
        yield limit_line(LIMIT)
    if not starts:
        yield NONE_FOUND.strip()


def shape_of(answer):
    """How many CCWs a program has, and the names of the commands that it comes to first, each CCW
    once: one after another, of a search first that which comes if it fails."""
    job, faults = answer.job, answer.faults
    count = len({place.address for place in faults if ccw_at(job.storage, place.address)})
    names, met, left = {}, set(), [first_place(job)]
    for place in left:
        if place in met:
            continue
        met.add(place)
        ccw = ccw_at(job.storage, place.address)
        command = command_at(place, ccw) if ccw else None
        if command and len(names) < MOST_NAMES:
            names.setdefault(place.address, command.name)
        left += [] if faults[place] else successors(place, ccw)
    named = f": {', '.join(names.values())}" if names else ""
    return f"{count} CCW{'s' if count != 1 else ''}{named}"


def noise(random, size, is_ccws):
    """Random bytes; or words that are often CCWs, chained to the next."""
    if not is_ccws:
        return random.randbytes(size)
    words = []
    for _ in range(size // 8):
        code, flags = random.choice(sorted(COMMANDS)), random.choice([0, CHAIN_COMMAND, 0x60])
        word = bytes([code, 0, 0, random.randrange(256), flags, 0, 0, random.randrange(1, 9)])
        transfer = bytes([8, 0, 0, 8 * random.randrange(size // 8), 0, 0, 0, 0])
        words.append(random.choice([word, word, transfer, random.randbytes(8), bytes(8)]))
    return b"".join(words)


def image_of(random, number, storages):
    kind = number % 4
    if kind == 0:
        return random_job(random).storage[: SIZE - random.randrange(9)]
    if kind == 1:
        return random_job(random).storage + random_job(random).storage
    if kind == 2:
        return noise(random, 8 * random.randrange(1, 33), random.randrange(4) > 0)
    # the bytes of an example that are zero become noise, but for those of its CCWs
    storage = bytearray(random.choice(storages))
    for at in range(0, len(storage), 8):
        if not any(storage[at : at + 8]):
            storage[at : at + 8] = random.randbytes(8)
    return bytes(storage)


def check_images(checks, program, device, random, storages):
    with tempfile.TemporaryDirectory() as room:
        images = {}
        for number in range(IMAGES // 2):
            path = Path(room) / f"image-{number}"
            images[path] = image_of(random, number, storages)
            path.write_bytes(images[path])
        command = f"find --device {device} --limit {LIMIT}"
        found = 0
        answers = answers_of_each(program, command, images)
        for (path, image), lines in zip(images.items(), answers, strict=True):
            wanted = [*lines_of(image, device), "status 0"]
            lines = [line for line in lines if not FITTING.fullmatch(line)]
            checks.expect(f"{command} {path.name}", wanted, lines)
            found += sum(not line.startswith(("note:", "status")) for line in lines)
        checks.expect_that(f"there are programs for the {device}", found > IMAGES // 4, found)


def check_large(checks, program):
    """Images as large as storage: of zeros, one chain, and transfers alone."""
    operation = bytes.fromhex("0300000040000001")
    last = bytes.fromhex("0300000000000001")
    transfer = bytes.fromhex("0800000800000000")
    words = LARGEST // 8
    chained = Ran(0, "000000 too many places\n", f"{limit_line(4096)}\n")
    for name, image, wanted in [
        ("no byte", b"", Ran(0, "", "note: the image is empty\n" + NONE_FOUND)),
        ("zeros", bytes(LARGEST), Ran(0, "", NONE_FOUND)),
        ("one chain", operation * (words - 1) + last, chained),
        ("transfers", transfer * words, Ran(0, "", NONE_FOUND)),
    ]:
        ran = run(program, "find", "--device", "2314", given=image)
        checks.expect(f"an image of {name}", wanted, ran)
    for words, note in [
        (["--at", "0"], NONE_FOUND),
        (["--at", "800"], f"{NONE}; if storage goes on behind the image, give --storage\n"),
        (["--storage", "1000"], f"{NONE}; {ELSEWHERE}, give --at\n"),
        (["--at", "800", "--storage", "1000"], f"{NONE}\n"),
    ]:
        ran = run(program, "find", "--device", "2314", *words, given=bytes(64))
        checks.expect(f"no program, with {' '.join(words)}", Ran(0, "", note), ran)
    wanted = Ran(2, "", "chanv: image too long\n")
    ran = run(program, "find", "--device", "2314", given=bytes(LARGEST + 1))
    checks.expect("an image that is too long", wanted, ran)


# what `beginnings` tries
FITTING = re.compile(r"note: (?:\d+(?: other)? search loops? fits? if .+|the image is empty)")
NONE = "note: no program found"
STORAGE_NOTE = (
    "note: storage has {:07X} bytes; give --storage if it has more, and --at if the image begins "
    "elsewhere"
)
ELSEWHERE = "if the image begins at another address than 0"
NONE_FOUND = (
    "note: no program found; if the image is a part of storage, give --at and --storage\n"
)


def check_library(checks, chanv, random, storages):
    count = 0
    for number in range(IMAGES // 20):
        job = job_over(image_of(random, number, storages), 2314)
        found = chanv.find(job.storage)
        checks.expect(f"chanv_find over image {number}", [*programs_of(job)], found)
        places = set().union(*(led_to(job, start) for start in found))
        for start in with_a_yes(job):
            name = f"a start found in image {number} leads to {start:06X}"
            checks.expect_that(name, start_at(start) in places, found)
            count += 1
    checks.expect_that("there are starts with a yes", count > IMAGES // 200, count)


def check_worked(checks, chanv):
    for name, words, wanted in WORKED:
        image = bytes.fromhex("".join(words))
        checks.expect(f"the starts in {name}", wanted, chanv.find(image))
        checks.expect(f"the definition in {name}", wanted, [*programs_of(job_over(image, 2314))])
    program, top = bytes.fromhex(NEXT + LAST), LARGEST - 16
    up, down = (bytes.fromhex(NEXT + to(address)) for address in (top, 0))
    for name, image, device, wanted in [
        ("no byte", b"", 2314, []),
        ("one byte too many", bytes(LARGEST + 1), 2314, 4),
        ("all of storage", bytes(LARGEST), 2311, []),
        ("programs at both ends", program + bytes(top - 16) + program, 2314, [0, top]),
        ("a transfer to the top", up + bytes(top - 16) + program, 2314, [0]),
        ("a transfer from the top", program + bytes(top - 16) + down, 2314, [top]),
        ("another device", bytes(8), 2312, 5),
        ("both", bytes(LARGEST + 1), 0, 4),
        ("an image", (EXAMPLES / "core.bin").read_bytes(), 2314, [0x800]),
    ]:
        try:
            found = chanv.find(image, device)
        except chanv.NoAnswer as why:
            found = why.code
        checks.expect(f"chanv_find over {name}", wanted, found)


def check(checks, built):
    program, random = built.chanv(), Random(SEED)
    jobs = [job_of(text_of(deck)) for folder in FOLDERS for deck in decks_of(folder)]
    storages = [job.storage for job in jobs if len(job.storage) <= MOST_STORAGE]
    for device in (2311, 2314):
        check_images(checks, program, device, random, storages)
    check_large(checks, program)
    chanv = package(built)
    check_library(checks, chanv, random, storages)
    check_worked(checks, chanv)
    wanted = "000800 no 000818 changes-argument 4 CCWs: seek, search-id-equal, read-data\n"
    note = "note: no --device, so 2314\n"
    ran = run(program, "find", EXAMPLES / "core.bin")
    checks.expect("the example of the page", Ran(0, wanted, note), ran)
