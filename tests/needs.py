"""What `chanv needs` writes is the least job: it is judged yes, and nothing less is.

From each example deck whose program may run under some job, a deck is made of the lines of
`chanv needs`, which is judged `yes`. With a byte less at either end of an area, a cylinder less at
either end of an extent, or the next stricter mask in either of its two parts, it is judged `no`.
A deck's own verdict is `yes` exactly where its job grants what is written. And that deck is what
`chanv deck --least` makes of the program's storage, and what `chanv needs --deck` writes; where no
job will do, they say so.
"""

import re
import sys

from building import HERE, short
from cures import said_openly
from examples import EXAMPLES, FOLDERS, TEXTS, decks_of, taken_apart
from running import Ran, run, text_of

sys.path.insert(0, str(HERE / "model"))

from judging import NUMBER, first_place, own_fault  # noqa: E402
from writing import job_of as job_in  # noqa: E402

CURE = (
    "note: storage has {} bytes; give --storage if it has more, and --at if the image begins"
    " elsewhere\n"
)

# what standard error says of a program that no job will do for
NO_JOB = (
    "note: no job will do: the no holds even if the job grants everything; chanv verify may name"
    " another CCW, because the deck's job grants less\n"
)

# both parts of a file mask, from the laxest bits to the strictest
WRITES, SEEKS = (0xC0, 0x00, 0x80, 0x40), (0x00, 0x08, 0x10, 0x18)
GRANTING = ("mask", "extent", "fetch", "store")
# the whole of the largest storage, fetched by a search in 257 CCWs
LARGEST = """chanv deck 1
device 2314
mask 00
start 000800
extent 000 000
storage 1000000
"""


def job_of(lines):
    """What lines of a deck grant: the mask, and lists of pairs."""
    job = {"mask": 0, "extent": [], "fetch": [], "store": []}
    for line in lines:
        word, *numbers = line.split(" ")
        if word == "mask":
            job["mask"] = int(numbers[0], 16)
        elif word in GRANTING:
            base = 10 if word == "extent" else 16
            job[word].append(tuple(int(number, base) for number in numbers))
    return job


def lines_of(job):
    yield f"mask {job['mask']:02X}"
    yield from (f"extent {first:03} {last:03}" for first, last in job["extent"] or [(0, 202)])
    for word in ("fetch", "store"):
        yield from (f"{word} {start:06X} {length:06X}" for start, length in job[word])


def deck_with(deck, job):
    """The deck with another job; its mask stands before the start, and its lists behind."""
    mask, *lists = lines_of(job)
    kept = [line for line in deck.splitlines() if line.split(" ")[0] not in GRANTING]
    kept.insert(2, mask)
    at = next(at for at, line in enumerate(kept) if line.startswith("storage "))
    return "".join(f"{line}\n" for line in kept[:at] + lists + kept[at:])


def part_less(pair, is_extent):
    """What is left of an extent or an area without its first, and without its last."""
    first, end = pair
    if is_extent:
        return [[it] if it[0] <= it[1] else [] for it in ((first + 1, end), (first, end - 1))]
    return [[(first + 1, end - 1)], [(first, end - 1)]]


def other_extents(job):
    """One cylinder that isn't needed, since a deck has to have an extent."""
    needed = {n for first, last in job["extent"] for n in range(first, last + 1)}
    spare = next(n for n in range(203) if n not in needed)
    return [(spare, spare)]


def lesser_jobs(job):
    """The job with one thing less, each with a name."""
    for word in ("extent", "fetch", "store"):
        for at, pair in enumerate(job[word]):
            for side, left in zip(("first", "last"), part_less(pair, word == "extent")):
                pairs = job[word][:at] + left + job[word][at + 1 :]
                is_bare = word == "extent" and not pairs
                pairs = other_extents(job) if is_bare else pairs
                yield f"{word} {at} without its {side}", {**job, word: pairs}
    for chain, bits in ((WRITES, 0xC0), (SEEKS, 0x18)):
        at = chain.index(job["mask"] & bits)
        for stricter in chain[at + 1 : at + 2]:
            yield f"mask {stricter:02X}", {**job, "mask": job["mask"] & ~bits | stricter}


def is_as_strict(mask, other):
    return all(
        chain.index(mask & bits) >= chain.index(other & bits)
        for chain, bits in ((WRITES, 0xC0), (SEEKS, 0x18))
    )


def spread(job, word):
    if word == "extent":
        return {n for first, last in job[word] for n in range(first, last + 1)}
    return {n for start, length in job[word] for n in range(start, start + length)}


def grants(job, needed):
    is_served = is_as_strict(needed["mask"], job["mask"])
    return is_served and all(spread(needed, word) <= spread(job, word) for word in GRANTING[1:])


def made_of_image(program, deck):
    """What `chanv deck --least` makes of a deck's storage, with no more of its job than it says."""
    words, storage = taken_apart(deck)
    pairs = zip(words[::2], words[1::2])
    kept = [f"{name}={said}" for name, said in pairs if name[2:] not in GRANTING]
    return run(program, "deck", "--least", *kept, given=storage)


def cure_of(deck, explanation):
    """The note on the size of storage: data goes past its end, or no command is at the start."""
    _, address, reason = explanation.partition("\n")[0].split(" ")
    [size] = re.findall(r"(?m)^storage (\w+)$", deck)
    is_start = f"start {address}\n" in deck and reason in ("outside-storage", "invalid-code")
    is_cured = (reason == "data-outside" or is_start) and size != "1000000"
    return CURE.format(size) if is_cured else ""


def start_note(deck, explanation):
    """The note on a start whose digits are those of a CCW's address in decimal, if the program has
    no command at its start, and the CCW there no fault."""
    _, address, reason = explanation.partition("\n")[0].split(" ")
    [start] = re.findall(r"(?m)^start (\w+)$", deck)
    digits = start.lstrip("0") or "0"
    if address != start or NUMBER[reason] > 8 or not digits.isdecimal():
        return ""
    decimal = int(digits)
    there = job_in(deck).opened()._replace(start=decimal)
    is_there = decimal != int(start, 16) and own_fault(there, first_place(there)) is None
    said = f"note: --start {digits} is hexadecimal; decimal {digits} is --start {decimal:X}\n"
    return said if is_there else ""


def least_lines(deck, needed):
    """The deck with the least job, line by line: of version 1 exactly if the limit is the usual
    one, with the job's lines as `needs` has them, and with storage as it was."""
    lines = deck.splitlines()
    limits = [line for line in lines if line.startswith("limit ") and line != "limit 04096"]
    job = [line for line in needed if not line.startswith("keep ")]
    job[1:1] = [] if job[1:] and job[1].startswith("extent ") else ["extent 000 202"]
    yield f"chanv deck {2 if limits else 1}"
    yield from (line for line in lines if line.startswith("device "))
    yield job[0]
    yield from (line for line in lines if line.startswith("start "))
    yield from [*limits, *job[1:]]
    yield from (line for line in lines if line.startswith(("storage ", "put ", "end")))


def check_deck_of_needs(checks, program, path, ran):
    """`needs --deck` writes the deck with the least job, or nothing if no job will do."""
    name, deck = short(path), text_of(path)
    made = run(program, "needs", "--deck", given=path)
    if ran.status != 0:
        checks.expect(f"needs --deck: {name}", Ran(ran.status, "", ran.output + ran.error), made)
        return
    lines = [*least_lines(deck, ran.output.splitlines())]
    checks.expect(f"the lines of needs --deck: {name}", lines, made.output.splitlines())
    checks.expect(f"needs --deck: {name}", (0, ""), (made.status, made.error))
    judged = run(program, "verify", given=made.output.encode())
    checks.expect(f"the deck of needs --deck: {name}", Ran(0, "yes\n"), judged)
    again = run(program, "needs", "--deck", given=made.output.encode())
    checks.expect(f"needs --deck of needs --deck: {name}", made, again)


def check_several(checks, program):
    """Over several FILEs each deck comes under a line with its FILE; a limit makes version 2."""
    loop, changes = EXAMPLES / "search-loop.deck", EXAMPLES / "changes-itself.deck"
    text = f"{loop}:\n{run(program, 'needs', '--deck', loop).output}{changes}:\n"
    why = run(program, "needs", changes).output + NO_JOB + said_openly(text_of(changes))
    error = "".join(f"{changes}: {line}" for line in why.splitlines(keepends=True))
    ran = run(program, "needs", loop, "--deck", changes)
    checks.expect("needs --deck over two", Ran(1, text, error), ran)
    two = text_of(loop).replace("deck 1", "deck 2")
    for limit, version in [("04096", 1), ("00003", 2), ("65536", 2)]:
        deck = two.replace("\nextent", f"\nlimit {limit}\nextent", 1)
        made = run(program, "needs", "--deck", given=deck.encode()).output
        wanted = run(program, "needs", "--deck", given=loop).output
        if version == 2:
            wanted = wanted.replace("deck 1", "deck 2")
            wanted = wanted.replace("\nextent", f"\nlimit {limit}\nextent", 1)
        checks.expect(f"needs --deck under a limit of {limit}", wanted, made)


def check_deck(checks, program, path):
    name, deck = short(path), text_of(path)
    verdict = run(program, "verify", given=path)
    ran = run(program, "needs", given=path)
    made = made_of_image(program, deck)
    openly = said_openly(deck) if ran.status == 1 else ""
    error = NO_JOB + openly if ran.status == 1 else ""
    checks.expect(f"what is said beside the needs of {name}", error, ran.error)
    check_deck_of_needs(checks, program, path, ran)
    if ran.status == 1:
        checks.expect(f"no job will do: {name}", 1, verdict.status)
        notes = cure_of(deck, ran.output) + start_note(deck, ran.output)
        refused = f"chanv: no job will do: {ran.output}{notes}{openly}"
        checks.expect(f"deck --least: {name}", Ran(1, "", refused), made)
        return
    needed = job_of(ran.output.splitlines())
    is_granted = grants(job_of(deck.splitlines()), needed)
    checks.expect(f"the job of {name}", 0 if is_granted else 1, verdict.status)
    least = deck_with(deck, needed)
    checks.expect(f"deck --least: {name}", Ran(0, least), made)
    judged = run(program, "verify", given=least.encode())
    checks.expect(f"the least job: {name}", "yes\n", judged.output)
    for less, job in lesser_jobs(needed):
        judged = run(program, "verify", given=deck_with(deck, job).encode())
        checks.expect(f"{less}: {name}", 1, judged.status)


def check_largest(checks, program):
    ccws = [(i * 0xFFFF, 0x80, 0xFFFF) for i in range(256)] + [(0xFFFF00, 0x00, 0x0100)]
    puts = [
        f"put {0x800 + 8 * i:06X} 31{data:06X}{flags:02X}00{count:04X}\n"
        for i, (data, flags, count) in enumerate(ccws)
    ]
    ran = run(program, "needs", given=f"{LARGEST}{''.join(puts)}end\n".encode())
    text = "mask 58\nfetch 000000 FFFFFF\nfetch FFFFFF 000001\nkeep 000800 000808\n"
    checks.expect("all of the largest storage", Ran(0, text), ran)


def check(checks, built):
    program = built.chanv()
    for folder in (*FOLDERS, TEXTS):
        for path in decks_of(folder):
            check_deck(checks, program, path)
    check_largest(checks, program)
    check_several(checks, program)
