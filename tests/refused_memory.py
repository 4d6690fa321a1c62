"""Each growth of memory refused in turn, in commands of the program and in other calls.

Each is made over its worked case: once with every growth granted, which has to give the case's
answer; and then with the first growth refused, the second, and so on up to the last, each alone and
each with all that come after it, which has to give a report of a failed allocation and no other
answer. Unit tests make the calls that chanv doesn't make.
"""

import signal
import tempfile

from answers import FOUND, WIDE
from beginnings import core, note_of
from building import ROOT, is_proved
from cures import UNSEEN, said_beside
from examples import CHANGES_BOTH, CHANGES_ITSELF, EXAMPLES, SEARCH_LOOP
from find import NONE_FOUND
from needs import least_lines
from refusing import Case, Growths
from running import Ran, text_of

CCW, CCW_LINE = "06000A0020000050", "06 000A00 --L--0 00 0050 read"
OF_IMAGE = "--device 2314 --start 800 --extent 10-19 --fetch 900+10 --store 900+10".split()
OUT_OF_MEMORY = "chanv: out of memory\n"
NOTES = """\
note: fetch 000FFF 000002 reaches past storage
note: fetch 000FFF 000002 is used by no reachable CCW
"""
# the search loop with its areas exchanged
EXCHANGED = """\
no 000800 fetch-not-lent
000800 fresh t * 31 000900 -C---0 00 0005 write search-id-equal
because none of 000900-000904 is lent for fetching
"""
SEEMS = f"note: the whole range is lent, but for storing\n{UNSEEN}\n"
REFUSED = "chanv: deck line 1: header\n"
DEVICE_FAULT = "error: invalid value '2301' for '--device <NUMBER>': 2311 or 2314"
MORE = "\n\nFor more information, try '--help'.\n"
HALF = "chanv: dump line 2: a byte has two digits\n"
HINT = "found chanv deck 3\n                 ^\nexpected chanv deck 1, chanv deck 2\n"

# the answers of `why` and of `why --of` differ in the path and in the lines `also`
OF_LATER = """\
no 000928 changes-ccw
000910 fresh t . 07 000908 -C---0 00 0006 control seek (cylinder 10, head 0)
000918 fresh - . 31 000900 -C---0 00 0005 write search-id-equal
000928 fresh - . 06 000900 -C---0 00 0018 read read-data
000930 fresh - * 06 000930 -----0 00 0008 read read-data
because it stores 000930-000937, over the CCW at 000930
reached by
000910 fresh t . 07 000908 -C---0 00 0006 control seek (cylinder 10, head 0)
000918 fresh - . 31 000900 -C---0 00 0005 write search-id-equal
000928 fresh - . 06 000900 -C---0 00 0018 read read-data
000930 fresh - * 06 000930 -----0 00 0008 read read-data
"""
HELP_ON_LATER = """\
help: store the data elsewhere, so that the CCW at 000930 stays
help: chanv explain changes-ccw
"""
HELP_ON_EXCHANGED = """\
help: with "fetch 000900 000005" these bytes are lent
help: chanv explain fetch-not-lent
"""
PLACES = "too many places: see too-many-places\n"

# unit tests of calls that chanv doesn't make, each with one of all that comes before
READ = "growing::the_deck_is_read"
EXPLORED = "growing::its_job_is_explored"
CALLS = [
    ("growing::guard_new", EXPLORED),
    ("growing::writes_deck", READ),
    ("growing::tells_row", READ),
    ("growing::writes_listing", EXPLORED),
    ("growing::runs", READ),
]


def commands():
    """Words of the program, their input, what they write, and what they say beside that."""
    deck, changing = SEARCH_LOOP.read_bytes(), CHANGES_ITSELF.read_bytes()
    image = (EXAMPLES / "core.bin").read_bytes()
    lines = [f"{at:06X} {image[at : at + 64].hex()}\n" for at in range(0, len(image), 64)]
    listing = text_of(EXAMPLES / "search-loop.list")
    needed = text_of(EXAMPLES / "search-loop.needs").splitlines()
    least = "".join(f"{line}\n" for line in least_lines(text_of(SEARCH_LOOP), needed))
    return [
        (["show", CCW], b"", f"{CCW_LINE}\n"),
        (["show", "--name", CCW], b"", f"{CCW_LINE} read-data\n"),
        (["verify"], deck, "yes\n"),
        (["list"], deck, listing),
        (["verify", SEARCH_LOOP], b"", f"{SEARCH_LOOP}: yes\n"),
        (["list", SEARCH_LOOP], b"", listing),
        (
            ["why"],
            changing,
            text_of(CHANGES_ITSELF.with_suffix(".why")),
            said_beside(CHANGES_ITSELF),
        ),
        (["why", SEARCH_LOOP], b"", f"{SEARCH_LOOP}: yes\n"),
        (["why", "--of", "930"], CHANGES_BOTH.read_bytes(), OF_LATER, HELP_ON_LATER),
        (["list", "--wide"], deck, WIDE),
        (["needs", "--deck"], deck, least),
        (["explain", "too", "many", "places"], b"", PLACES),
        (
            ["why", "--all"],
            CHANGES_BOTH.read_bytes(),
            text_of(CHANGES_BOTH.with_suffix(".all")),
            said_beside(CHANGES_BOTH),
        ),
        (["graph"], deck, text_of(EXAMPLES / "search-loop.dot")),
        (["needs"], deck, text_of(EXAMPLES / "search-loop.needs")),
        (["find", "--device", "2314"], image, FOUND),
        (["find", "--device=2314"], "".join(lines).encode(), FOUND),
        (["deck", *OF_IMAGE], image, text_of(EXAMPLES / "changes-argument.deck")),
    ]


def call_cases(unit_tests):
    for call, before in CALLS:
        yield Case(
            name=call,
            words=[unit_tests, call],
            expected=Ran(0, "\ntest result: ok\n"),
            complaints=("out of memory\n",),
            begun=stopped(),
            before=[unit_tests, before],
            refused=-signal.SIGABRT,
        )


def stopped():
    """What a unit test writes that stops at the one assertion of all."""
    lines = (ROOT / "crates/unit_tests/src/shared.rt").read_text().splitlines()
    number = next(n for n, line in enumerate(lines, 1) if "assert!(" in line)
    return f"\ntest stopped at src/shared.rt:{number}:5\n"


def command_cases(chanv):
    for words, given, answer, *said in commands():
        complaints = (OUT_OF_MEMORY,)
        # the second once a file is read
        if SEARCH_LOOP in words:
            complaints += (f"chanv: {SEARCH_LOOP}: out of memory\n",)
        yield Case(
            name=" ".join(map(str, ["chanv", *words])),
            words=[chanv, *words],
            expected=Ran(1 if answer.startswith("no ") else 0, answer, "".join(said)),
            given=given,
            complaints=complaints,
            begun=answer if words[0] in ("list", "find") else "",
            # the complaint replaces notes
            may_answer=words[0] in ("why", "find", "deck"),
        )


def advice_cases(chanv):
    """`why` where notes or a hint follow; where memory runs out for these, a complaint does."""
    lent_in_vain = b"fetch 000FFF 000002\nstore 000A00"
    deck = SEARCH_LOOP.read_bytes().replace(b"store 000A00", lent_in_vain)
    areas, turned = b"fetch 000900 000010\nstore 000A00", b"fetch 000A00 000100\nstore 000900"
    exchanged = SEARCH_LOOP.read_bytes().replace(areas, turned)
    for name, given, expected, line in [
        ("notes", deck, Ran(0, "yes\n", NOTES), ""),
        ("areas that seem exchanged", exchanged, Ran(1, EXCHANGED, SEEMS + HELP_ON_EXCHANGED), ""),
        ("a hint", b"chanv deck 3\n", Ran(2, "", REFUSED + HINT), REFUSED),
    ]:
        yield Case(
            name=f"chanv why, {name}",
            words=[chanv, "why"],
            expected=expected,
            given=given,
            complaints=(OUT_OF_MEMORY, line + OUT_OF_MEMORY),
            may_answer=True,
        )


def help_cases(chanv):
    """`why` over a FILE where help follows, `find` over a dump that is refused, and where search
    loops vote."""
    text = f"{CHANGES_ITSELF}: {text_of(CHANGES_ITSELF.with_suffix('.why'))}"
    yield Case(
        name="chanv why, help",
        words=[chanv, "why", CHANGES_ITSELF],
        expected=Ran(1, text, said_beside(CHANGES_ITSELF, "named")),
        complaints=(OUT_OF_MEMORY, f"chanv: {CHANGES_ITSELF}: out of memory\n"),
        may_answer=True,
    )
    yield Case(
        name="chanv find, a dump that is refused",
        words=[chanv, "find", "--device", "2314"],
        expected=Ran(2, "", f"{HALF}found 801 070\n            ^\n"),
        given=b"800 07\n801 070\n",
        complaints=(OUT_OF_MEMORY,),
    )
    loops = core()[8:]
    yield Case(
        name="chanv find, a note on search loops",
        words=[chanv, "find", "--device", "2314"],
        expected=Ran(0, "", note_of(loops) + NONE_FOUND),
        given=loops,
        # for the search, after which no note is made; and in place of the note on search loops
        complaints=(OUT_OF_MEMORY, OUT_OF_MEMORY + NONE_FOUND),
        may_answer=True,
    )


def usage_cases(chanv):
    """A usage fault of each maker: the text is made, so want of memory may take its place."""
    file = str(SEARCH_LOOP)
    for words, said in [
        (["find", "--device", "2301"], f"{DEVICE_FAULT}{MORE}"),
        ([file], f"error: {file} isn't a command; chanv verify {file} judges a deck, "
         f"chanv find {file} searches an image{MORE}"),
    ]:
        yield Case(
            name=f"chanv {' '.join(words)}",
            words=[chanv, *words],
            expected=Ran(4, "", said),
            complaints=(OUT_OF_MEMORY,),
            may_stand=True,
        )


def check_next_deck(checks, chanv):
    """Memory that is refused over one deck is an error there, and the next gets its answer."""
    words = [chanv, "verify", SEARCH_LOOP, SEARCH_LOOP]
    wanted = Ran(3, f"{SEARCH_LOOP}: yes\n", f"chanv: {SEARCH_LOOP}: out of memory\n")
    with tempfile.TemporaryDirectory() as room:
        growths = Growths(room)
        _, count = growths.run(words)
        found = {growths.run(words, refused=number)[0] for number in range(1, count + 1)}
    checks.expect_that("memory refused over one of two decks", wanted in found, found)


def check(checks, built):
    chanv = built.chanv()
    check_next_deck(checks, chanv)
    cases = [*command_cases(chanv)]
    if is_proved(chanv):
        cases += call_cases(built.unit_tests())
    cases += [*advice_cases(chanv), *help_cases(chanv), *usage_cases(chanv)]
    with tempfile.TemporaryDirectory() as folder:
        growths = Growths(folder)
        for case in cases:
            growths.refuse_each(checks, case)
