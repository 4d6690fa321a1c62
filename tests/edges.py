"""The longest deck, most places, seeks beside extents, each kind of note, most notes of a kind, and
high addresses."""

import re
import sys
from itertools import product
from pathlib import Path

from answers import MOST_BYTES
from building import HERE
from cures import UNSEEN, help_of
from examples import SEARCH_LOOP
from model import Answer, limit_line
from rows import Row, check_rows
from running import Ran
from speed import GOLDEN, STORAGE_LIMIT
from wide import two_ways_deck

sys.path.insert(0, str(HERE / "model"))

from channel import COMMANDS, MASKS, inhibited  # noqa: E402
from judging import reachable  # noqa: E402
from writing import job_of  # noqa: E402

YES, MANY = Ran(0, "yes\n"), Ran(2, "", "chanv: too many places\n")
TOO_LONG = Ran(2, "", "chanv: deck too long\n")
GONE = '{ sleep 0.2; "$@"; } | true; exit "${PIPESTATUS[0]}"'
FIRST_ROW = '"$@" | head -n 1; exit "${PIPESTATUS[0]}"'

# a No Operation, and one that chains; a search, a transfer back to it, and a read
END, CHAINED = "0300000000000001", "0300000040000001"
LOOP = ["3100090040000005", "0800080000FF0000", "06000A0020000050"]
SEARCH = "000800 fresh t {} 31 000900 -C---0 00 0005 write search-id-equal\n"
# how many lists the walk makes at most, and how many doublewords of storage then share a list
MOST_LISTS, MOST_SHARING = 262_144, 9
# data that each CCW of a program moves, a search over it, and what begins the data chains
DATA, SEARCH_DATA, DATA_CHAINS = "001000", "3100100040000005", ("06", "05", "31")
NOT_FETCHED = f"""\
no 000800 fetch-not-lent
{SEARCH.format("*")}because none of 000900-000904 is lent for fetching
"""
NOT_STORED = f"""\
no 000810 store-not-lent
{SEARCH.format(".")}000810 fresh - * 06 000A00 --L--0 00 0050 read read-data
because none of 000A00-000A4F is lent for storing
"""
FRONT = "000A00-000A0F of 000A00-000A4F is not lent"
NOT_WHOLLY_STORED = NOT_STORED.replace("none of 000A00-000A4F is lent", FRONT)
CHAINED_NOT_STORED = f"""\
no 000818 store-not-lent
{SEARCH.format(".")}000810 fresh - . 06 000A00 D----0 00 0050 read read-data
000818 in - * 00 000B00 -----0 00 0010 invalid chained
because none of 000B00-000B0F is lent for storing
"""
STORING = "note: the whole range is lent, but for storing\n"
FETCHING = "note: the whole range is lent, but for fetching\n"

# how the notes on CCWs and areas go on
INTERRUPTS = "interrupts: the processor may then change any byte not listed as keep by chanv needs"
ENDS = "ends the program: chain data is on, and the command moves no data"
HANGS = (
    "from {} (entered {}) on the program never ends by itself: "
    "only an error, an end of file, an incorrect length or a Halt I/O stops it"
)
IGNORED = "in byte 5, which the channel ignores; flags are in byte 4"
PAST, UNUSED = "reaches past storage", "is used by no reachable CCW"

# areas that are lent in vain and reach past storage, and a note of each kind in their order
LENT_IN_VAIN = ["fetch 000FF0 000020", "store 000FF8 000010"]
NOTES = [
    *(f"{area} {what}" for what in (PAST, UNUSED) for area in LENT_IN_VAIN),
    "keep 000040 000010 is where the machine stores PSWs, the CSW or the timer",
    f"000040 {INTERRUPTS}",
    f"000048 {ENDS}",
    f"000040 has 01 {IGNORED}",
    f"000048 has FF {IGNORED}",
]


def deck_of(ccws, areas=(), storage=0x100000, limit=None, start=0x800):
    """A deck of version 2 if it has a limit, with CCWs from the start on."""
    version, line = (2, f"limit {limit:05}\n") if limit else (1, "")
    head = f"chanv deck {version}\ndevice 2314\nmask 00\nstart {start:06X}\n{line}extent 010 019\n"
    lines = "".join(f"{area}\n" for area in areas)
    puts = "".join(f"put {start + 8 * at:06X} {ccw}\n" for at, ccw in enumerate(ccws))
    return f"{head}{lines}storage {storage:07X}\n{puts}end\n"


def chain_of(count, limit=None, last=END):
    """A deck of so many CCWs, each chained to the next, but the last."""
    return deck_of([CHAINED] * (count - 1) + [last], limit=limit)


def sharing():
    """A deck whose walk searches the longest list: nine doublewords share a list however many lists
    there are, and the program comes to each in all eight ways, twice. The limit is left open."""
    shared = next(it for it in doublewords_by_list().values() if len(it) == MOST_SHARING)
    words, targets = {}, []
    for at in shared:
        # the search leads to both CCWs behind it, and the read leads on as it is entered
        words |= {at - 16: SEARCH_DATA, at - 8: f"06{DATA}80000001", at: f"03{DATA}20000001"}
        targets += [(at - 16, ""), (at - 8, "05"), (at - 8, "31"), (at, "")]
        targets += [(at, code) for code in DATA_CHAINS]
    rung, driver = 0x2000, 0x2000 + 32 * len(targets) + 8
    for at, code in 2 * targets:
        words |= {rung: SEARCH_DATA, rung + 8: f"08{driver if code else at:06X}00000000"}
        rung += 16
        if code:
            words |= {driver: f"{code}{DATA}80000005", driver + 8: f"08{at:06X}00000000"}
            driver += 16
    words[rung] = END
    head = "chanv deck 2\ndevice 2314\nmask C0\nstart 002000\nlimit {:05}\nextent 000 202\n"
    puts = "".join(f"put {at:06X} {word}\n" for at, word in sorted(words.items()))
    return f"{head}fetch {DATA} 000005\nstore {DATA} 000005\nstorage 1000000\n{puts}end\n"


def doublewords_by_list():
    """Doublewords from 008000 on by the list that they pick, up to one with most of them."""
    lists = {}
    for at in range(0x8000, STORAGE_LIMIT, 8):
        chosen = lists.setdefault(at // 8 * GOLDEN % 2**32 * MOST_LISTS >> 32, [])
        chosen.append(at)
        if len(chosen) == MOST_SHARING:
            return lists


def longest():
    """A deck of as many bytes as a text may have: two extents, 3,355,437 areas, and one CCW."""
    return deck_of([END], ["extent 010 019"] + ["fetch 000900 000010"] * 3_355_437, 0x1000)


def over(deck, expected, *words, **more):
    return Row(words, expected, deck.encode(), **more)


def explained(deck, expected, **more):
    """The row of `why`: the model's help on a no comes after the notes."""
    answer = Answer(job_of(deck))
    helping = "".join(f"{line}\n" for line in (help_of(answer) if answer.found else ()))
    return over(deck, expected._replace(error=expected.error + helping), "why", **more)


def noted(lines, more=""):
    """The notes of a kind, of which a hundred are written."""
    return "".join([f"note: {line}\n" for line in lines[:100]] + [more])


def rows_of_limits():
    """The longest deck, as many places as the limit, in both versions, and more of each."""
    deck = longest()
    yield over(deck, YES, about=f"{MOST_BYTES} bytes")
    yield over(f"{deck}\n", TOO_LONG, about="one byte more")
    yield from (Row([action], TOO_LONG, Path("/dev/zero")) for action in ("verify", "list"))
    yield over(chain_of(4096), YES)
    yield over(chain_of(4096, last="0200000000000001"), Ran(1, "no 0087F8 not-in-table\n"))
    yield over(chain_of(4097), MANY)
    yield over(chain_of(4097, 4096), MANY)
    yield over(chain_of(4097, 4097), YES)
    yield over(chain_of(4098, 4097), MANY)
    deck = sharing()
    count = len(reachable(job_of(deck.format(4096))))
    yield over(deck.format(count), YES, about="places that share a list")
    yield over(deck.format(count - 1), MANY, about="one more place that shares a list")
    for limit in (2, 5000, 65535, 65536):
        said = f"{MANY.error}{limit_line(limit)}\n"
        yield over(chain_of(limit + 1, limit), MANY._replace(error=said), "why")
    # a reader of the first row alone: of a listing that fits a pipe, and of one that doesn't
    yield Row(["list"], Ran(0, SEARCH.format(".")), SEARCH_LOOP, FIRST_ROW)
    row = "000800 fresh t . 03 000000 -C---0 00 0001 control no-operation\n"
    yield over(chain_of(4096), Ran(3, row, "chanv: write failed\n"), "list", script=FIRST_ROW)
    # a reader that is gone before anything is written has read enough of an explanation
    for words, error in [
        (["explain"], ""),
        (["explain", "deck"], ""),
        (["--help"], "chanv: write failed\n"),
        (["list"], "chanv: write failed\n"),
    ]:
        yield Row(words, Ran(3 if error else 0, "", error), SEARCH_LOOP, GONE)


def rows_of_exchanged():
    """After a no, a note on a range that is lent whole, but the other way. If the search offends,
    it leads on; the read doesn't."""
    exchanged = ["fetch 000A00 000100", "store 000900 000005"]
    for areas, output, error in [
        (exchanged, NOT_FETCHED, f"{STORING}{UNSEEN}\n"),
        (["store 000900 000003", "store 000903 000002"], NOT_FETCHED, f"{STORING}{UNSEEN}\n"),
        (["store 000900 000004"], NOT_FETCHED, f"{UNSEEN}\n"),
        (["store 000905 000010"], NOT_FETCHED, f"{UNSEEN}\n"),
        (["fetch 000900 000200"], NOT_STORED, FETCHING),
        (["fetch 000900 00014F"], NOT_STORED, ""),
        (["fetch 000900 000005", "store 000A10 000100"], NOT_WHOLLY_STORED, ""),
    ]:
        yield explained(deck_of(LOOP, areas, 0x1000), Ran(1, output, error), about=f"{areas}")
    deck, verdict = deck_of(LOOP, exchanged, 0x1000), NOT_FETCHED.splitlines(True)[0]
    needs = "mask 58\nfetch 000900 000005\nstore 000A00 000050\nkeep 000800 000018\n"
    yield over(deck, Ran(1, verdict), "verify")
    yield over(deck, Ran(1, SEARCH.format("*") + verdict), "list")
    yield over(deck, Ran(0, needs), "needs")
    # the note comes if a data chain enters the CCW without a transfer
    chained = [*LOOP[:2], "06000A0080000050", "00000B0000000010"]
    areas = ["fetch 000900 000005", "fetch 000B00 000010", "store 000A00 000050"]
    yield explained(deck_of(chained, areas, 0x1000), Ran(1, CHAINED_NOT_STORED, FETCHING))
    # a write's data chain that a transfer leads to the CCW of a read isn't a matter of the areas
    fetching = re.compile(r"no \w{6} fetch-not-lent\n(.+\n)+")
    yield explained(two_ways_deck(), Ran(1, fetching, f"{UNSEEN}\n"))


def rows_of_seeks():
    """A seek outside its extent, to the device's last cylinder and to the next; and to the cylinder
    behind two extents that adjoin, in both orders."""
    for cylinder, why in [(202, "is in no extent"), (203, "is above 202, the device's last")]:
        argument = f"0000{cylinder:04X}00000000"
        place = f"control seek (cylinder {cylinder}, head 0)"
        output = f"no 000800 seek-outside\n000800 fresh t * 07 000808 -----0 00 0006 {place}\n"
        why = f"because cylinder {cylinder} {why}: the argument is {argument[:12]} at 000808-00080D"
        deck = deck_of(["0700080800000006", argument], ["fetch 000808 000006"], 0x1000)
        yield explained(deck, Ran(1, f"{output}{why}\n"))
    for first, middle, last in [(10, 14, 19), (1, 100, 201), (198, 200, 201)]:
        extents = [f"extent {first:03} {middle:03}\n", f"extent {middle + 1:03} {last:03}\n"]
        cylinders = first, middle + 1, last, last + 1
        for lines, cylinder in product((extents, extents[::-1]), cylinders):
            argument = f"0000{cylinder:04X}00000000"
            deck = deck_of(["0700080800000006", argument], ["fetch 000808 000006"], 0x1000)
            deck = deck.replace("extent 010 019\n", "".join(lines))
            expected = Ran(1, "no 000800 seek-outside\n") if cylinder > last else YES
            yield over(deck, expected, about=f"{lines}, cylinder {cylinder}")


def many_noted(count, more):
    """Decks with so many notes of a kind, and the notes: areas lent in vain, of which those that
    adjoin have one note; areas that overlap and reach past storage; and CCWs of each sort."""
    adjoining = [f"fetch {0x1000 + 16 * at:06X} 000010" for at in range(count)]
    apart = [f"store {0x1000 + 32 * at:06X} 000010" for at in range(count)]
    notes = noted([f"fetch 001000 {16 * count:06X} {UNUSED}"])
    notes += noted([f"{area} {UNUSED}" for area in apart], more)
    yield deck_of([END], adjoining + apart, 0x10000), notes
    lengths = range(2, 2 * count + 2, 2)
    past = [[f"{word} 00FFFF {length:06X}" for length in lengths] for word in ("fetch", "store")]
    pairs = product((PAST, UNUSED), past)
    notes = [noted([f"{area} {what}" for area in areas], more) for what, areas in pairs]
    yield deck_of([END], past[0] + past[1], 0x10000), "".join(notes)
    # those that interrupt have one note
    asking = ["0300000048000001"] * (count - 1) + ["0300000008000001"]
    who = f"000800 and {count - 1} more interrupt" if count > 1 else "000800 interrupts"
    yield deck_of(asking), noted([f"{who}{INTERRUPTS.removeprefix('interrupts')}"])
    ccw, last = "0300000040010001", "0300000000010001"
    lines = [f"{0x800 + 8 * at:06X} has 01 {IGNORED}" for at in range(count)]
    yield deck_of([ccw] * (count - 1) + [last]), noted(lines, more)
    # searches, each before a No Operation with chain data on
    ladder = ["3100080040000005", "0300000080000001"] * count + [END]
    lines = [f"{0x808 + 16 * at:06X} {ENDS}" for at in range(count)]
    once = f"000800 and {count - 1} more search once: no transfer right behind repeats them"
    yield deck_of(ladder, ["fetch 000800 000005"]), noted(lines, more) + noted([once])


def rows_of_notes():
    """A note of each kind, also if chain data is on alone, and many of a kind. First the CCWs lie
    where the machine stores the CSW: one chains and interrupts, and one ends the program."""
    for last in ("03000000C0FF0001", "0300000080FF0001"):
        deck = deck_of(["0300000048010001", last], LENT_IN_VAIN, 0x1000, start=0x40)
        yield over(deck, YES._replace(error=noted(NOTES)), "why")
    # a loop without an end at the same place
    loop, notes = deck_of([CHAINED, "0800004000000000"], start=0x40), [NOTES[4]]
    notes += [HANGS.format("000040", "fresh")]
    yield over(loop, YES._replace(error=noted(notes)), "why")
    # a loop of data chains, which a read at 000810 enters through a transfer
    ccws = ["03000A0080000001", "0800080000000000", "06000A0080000001", "0800080000000000"]
    loop = deck_of(ccws, ["store 000A00 000001"]).replace("start 000800", "start 000810")
    yield over(loop, YES._replace(error=noted([HANGS.format("000800", "in")])), "why")
    # neither a transfer's flags nor its byte 5 mean anything
    loop = [LOOP[0], "0800080008FF0000", END]
    yield over(deck_of(loop, ["fetch 000900 000005"]), YES, "why")
    # a mask byte right before, at both ends of and right behind what the machine stores
    kept = "note: keep {:06X} 000001 is where the machine stores PSWs, the CSW or the timer\n"
    for byte in (0x17, 0x18, 0x47, 0x48, 0x4F, 0x50, 0x53, 0x54):
        is_stored = 0x18 <= byte <= 0x47 or 0x50 <= byte <= 0x53
        deck = deck_of([f"1F{byte:06X}00000001"], [f"fetch {byte:06X} 000001"])
        yield over(deck, YES._replace(error=kept.format(byte) * is_stored), "why")
    more_of = {99: "", 100: "", 101: "note: 1 more such\n", 250: "note: 150 more such\n"}
    for count, more in more_of.items():
        for deck, notes in many_noted(count, more):
            yield over(deck, YES._replace(error=notes), "why", about=f"{count} notes")


def own_mask_deck(ccws, masks):
    """A deck whose job permits every command, with CCWs, and mask bytes from 0008F0 on."""
    deck = deck_of(ccws, ["fetch 0008F0 000010"]).replace("mask 00", "mask C0")
    puts = f"put 0008F0 {bytes(masks).hex().upper():F<16}\nput 0008F8 0000000A00000000\nend\n"
    return deck.replace("extent 010 019", "extent 000 019").replace("end\n", puts)


def own_mask_notes(found):
    """The notes on commands, each with the mask that inhibits it, of which each mask has one."""
    first = {}
    for address, code, mask in found:
        if COMMANDS[code].mask_class in inhibited(mask):
            first.setdefault(mask, address)
    what = "is a command that the program's own mask {:02X} inhibits: a run ends there"
    notes = [f"{address:06X} {what.format(mask)}" for mask, address in sorted(first.items())]
    return YES._replace(error=noted(notes))


def rows_of_own_masks():
    """Commands that the program's own mask inhibits: each kind of command behind each mask, none
    before it; those behind each of two masks; and one to which a loop comes back."""
    set_mask = "1F0008F{}40000001"
    codes = [0x1D, 0x05, 0x07, 0x0B, 0x1B, 0x13]
    behind = [f"{code:02X}0008F840000006" for code in codes]
    for mask in MASKS:
        deck = own_mask_deck([behind[1], set_mask.format(0), *behind, END], [mask])
        found = [(0x810 + 8 * at, code, mask) for at, code in enumerate(codes)]
        yield over(deck, own_mask_notes(found), "why", about=f"mask {mask:02X}")
    for one, other in product(MASKS, MASKS):
        ccws = [set_mask.format(0), behind[0], set_mask.format(1), behind[1], END]
        found = [(0x808, codes[0], one), (0x818, codes[1], other)]
        deck = own_mask_deck(ccws, [one, other])
        yield over(deck, own_mask_notes(found), "why", about=f"masks {one:02X}, {other:02X}")
    search, back = "310008F840000005", "0800080000000000"
    loop = [behind[1], set_mask.format(0), search, back, END]
    yield over(own_mask_deck(loop, [0x40]), own_mask_notes([(0x800, 0x05, 0x40)]), "why")


# a program that goes on in what it reads; one that stores over its seek's argument, whose last
# range is a single address; and notes
READS_IN = """\
no 123500 invalid-code
123400 fresh t . 06 123500 -C---0 00 0050 read read-data
123408 fresh - . 08 123500 -----0 00 0000 transfer transfer-in-channel
123500 fresh t * 00 000000 -----0 00 0000 invalid unknown
because code 00 is invalid
stored over by 123400: what will stand there is not judged
"""
STORES_OVER = """\
no 123410 changes-argument
123400 fresh t . 07 123418 D----0 00 0005 control seek (cylinder 10, head 0)
123408 out - . 00 123420 -C---0 00 0001 invalid chained
123410 fresh - * 06 123418 -----0 00 0010 read read-data
because it stores 123418-123427, over 123418 of the argument 123418-12341C, 123420 of 123400
reached by
123400 fresh t * 07 123418 D----0 00 0005 control seek (cylinder 10, head 0)
"""
HIGH_NOTES = [
    f"store 1FFFF8 000010 {PAST}",
    f"fetch 1FFFF0 000010 {UNUSED}",
    f"store 1FFFF8 000010 {UNUSED}",
    f"123400 {INTERRUPTS}",
    f"123408 {ENDS}",
    f"123400 has 01 {IGNORED}",
]


def rows_of_high_addresses():
    """Far up in storage each address of an explanation, and of a note, has all its six digits."""
    for ccws, areas, expected in [
        (["0612350040000050", "0812350000000000"], ["store 123500 000050"], Ran(1, READS_IN)),
        (
            ["0712341880000005", "0012342040000001", "0612341800000010", "0000000A00000000"],
            ["fetch 123418 000009", "store 123418 000010"],
            Ran(1, STORES_OVER),
        ),
        (
            ["0300000048010001", "0300000080000001"],
            ["fetch 1FFFF0 000010", "store 1FFFF8 000010"],
            Ran(0, "yes\n", noted(HIGH_NOTES)),
        ),
    ]:
        yield explained(deck_of(ccws, areas, 0x200000, start=0x123400), expected)


def check(checks, built):
    checks.expect("the length of the longest deck", MOST_BYTES, len(longest()))
    for rows in (
        rows_of_limits,
        rows_of_exchanged,
        rows_of_seeks,
        rows_of_notes,
        rows_of_own_masks,
        rows_of_high_addresses,
    ):
        check_rows(checks, built.chanv(), rows())
