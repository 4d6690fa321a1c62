"""The package of python/ over all decks, with each fault of a job and numbers that C cuts.

`judge.py` of examples/python/ reads each deck of examples/ and examples/cases/ and asks it. Each
answer has to be the verdict of the deck; there is none to a text that `chanv` refuses, or to a
missing file. The package's own example is carried out too. It looks for the library only in its own
prefix or checkout, and `pip` installs it without a network in a plain environment. What asks `pip`
is left out, by its name, where there is no `venv`, and the check of types where there is no mypy.
"""

import dataclasses
import importlib
import mmap
import os
import pickle
import re
import shutil
import sys
import tempfile
from array import array
from ctypes import byref, c_size_t
from pathlib import Path

from building import HERE, ROOT, compile_c, short, version
from examples import EXAMPLES, FOLDERS, SEARCH_LOOP, TEXTS, decks_of, listed_with, verdicts_of
from package import FOLDER, package, shared_library, taken_in
from refused_decks import DECKS, replaced
from running import Ran, run, text_of

sys.path.insert(0, str(HERE / "model"))

from channel import CHAIN_DATA, ccw_at  # noqa: E402
from judging import command_at, endless, reachable  # noqa: E402
from writing import job_of  # noqa: E402

JUDGE = EXAMPLES / "python/judge.py"
SMALL_LIMIT = EXAMPLES / "small-limit.deck"

# a deck whose first CCW, at 000000, is zeros
AT_ZERO = """chanv deck 1
device 2314
mask 00
start 000000
extent 000 202
storage 0000800
end
"""

# the values that are hexadecimal numbers, with their digits
HEXADECIMAL = {"address": 6, "taker": 6, "storage_len": 7, "code": 2, "mask": 2, "bits": 2}

# the flag for a program-controlled interruption, and the commands that move no data
INTERRUPTION, IDLE = 0x08, ("no-operation", "recalibrate")

# the ways in which a CCW is entered, in the order of the header
ENTERED = ("fresh", "in", "out", "search")

# a library of another version
OTHER_VERSION = "unsigned chanv_version(void) { return 0x000300; }\n"

# What is wrong with the job, and the code and the wrong extent's index that the header gives it.
FAULTS = [
    ({"limit": 2}, (2, 0)),
    ({"storage": bytes(0x1000001)}, (4, 0)),
    ({"device": 2305}, (5, 0)),
    ({"mask": 0x20}, (6, 0)),
    ({"extents": []}, (7, 0)),
    ({"extents": [(0, 1), (19, 10)]}, (8, 1)),
    ({"extents": [(0, 1), (2, 2), (10, 203)]}, (9, 2)),
    ({"limit": 0}, (10, 0)),
    ({"limit": 65537, "mask": 0x20}, (6, 0)),
]

# Each would pass for a number of the job, or lend more, if it were cut to the size of its field.
TOO_LARGE = [
    {"start": 0x1_0000_0800},
    {"limit": 0x1_0000_1000},
    {"device": 0x10000 + 2314},
    {"mask": 0x100},
    {"extents": [(0x10000 + 10, 19)]},
    {"fetch": [(0x900, 0x1_0000_0010)]},
    {"store": [(-1, 0x1000)]},
]


def judge(library, *decks):
    return run(sys.executable, "-B", JUDGE, *decks, env=told(library))


def told(library, folder=FOLDER):
    return {**os.environ, "CHANV_LIBRARY": str(library), "PYTHONPATH": str(folder)}


def python(library, script, folder=FOLDER):
    return run(sys.executable, "-B", "-c", script, env=told(library, folder))


def check_decks(checks, library):
    for folder in FOLDERS:
        verdicts = verdicts_of(folder)
        ran = judge(library, *decks_of(folder))
        checks.expect(f"{short(folder)}, the status", (1, ""), (ran.status, ran.error))
        lines = ran.output.splitlines()
        checks.expect(f"{short(folder)}, how many lines", len(verdicts), len(lines))
        for (name, verdict), line in zip(sorted(verdicts.items()), lines):
            checks.expect(f"judge {name}", f"{folder / name}: {verdict}", line)


def check_status(checks, library):
    """One deck that has a yes, and one of which there is no answer behind it."""
    with tempfile.TemporaryDirectory() as room:
        deck = Path(room) / "two-places.deck"
        deck.write_text(text_of(SMALL_LIMIT).replace("limit 00003", "limit 00002"))
        error = f"{deck}: no answer: too-many-places\n"
        yes = f"{SMALL_LIMIT}: yes\n"
        checks.expect("judge a yes", Ran(0, yes), judge(library, SMALL_LIMIT))
        checks.expect("judge too many", Ran(2, yes, error), judge(library, SMALL_LIMIT, deck))
        deck.write_text(AT_ZERO)
        no = f"{deck}: no 000000 invalid-code\n"
        checks.expect("judge a no at 0", Ran(1, no), judge(library, deck))


def check_refused(checks, library):
    """No answer to what isn't a deck, nor to a file that isn't there."""
    texts = [b"", *(text for name in DECKS for text, _ in replaced(name))]
    with tempfile.TemporaryDirectory() as room:
        files = [Path(room) / "missing.deck"]
        for number, text in enumerate(texts):
            files.append(Path(room) / f"{number}.deck")
            files[-1].write_bytes(text)
        files.append(Path(room) / "carriage-returns.deck")
        files[-1].write_text(DECKS["version 1"], newline="\r\n")
        for file in files:
            ran = judge(library, file)
            begun = ran.error.startswith(f"{file}: no answer: ")
            checks.expect(f"judge {file.name}", (2, "", True), (ran.status, ran.output, begun))


def answer_on(chanv, job, changes):
    """The code and the index of the extent, or the name of another error; a verdict is its text."""
    try:
        return str(chanv.verify(dataclasses.replace(job, **changes)))
    except chanv.NoAnswer as why:
        return why.code, why.extent
    except OverflowError as error:
        return type(error).__name__


def check_answers(checks, chanv, judging):
    job = judging.read_deck(text_of(EXAMPLES / "search-loop.deck"))
    checks.expect("the job itself", "yes", answer_on(chanv, job, {}))
    for changes, wanted in FAULTS:
        checks.expect(f"with {sorted(changes)}", wanted, answer_on(chanv, job, changes))
    for changes in TOO_LARGE:
        checks.expect(f"with {changes}", "OverflowError", answer_on(chanv, job, changes))


def check_calls(checks, chanv, judging, c):
    """Over each deck: what the rules say, the package says too, and the program's own texts."""
    for folder in (*FOLDERS, TEXTS):
        reasons = reasons_of(folder) if folder in FOLDERS else {}
        verdicts = verdicts_of(folder)
        refused = {name for name, verdict in verdicts.items() if verdict != "yes"}
        if reasons:
            checks.expect(f"{short(folder)}, which have a no", refused, {*reasons})
        for name, wanted in verdicts.items():
            deck = folder / name
            job = judging.read_deck(text_of(deck))
            verdict = chanv.verify(job)
            checks.expect(f"verdict of {name}", wanted, str(verdict))
            if name in reasons or verdict:
                told = "".join(f"{line}\n" for line in why_of(chanv, c, job))
                checks.expect(f"why {name}", reasons.get(name, ""), told)
            check_texts(checks, chanv, deck, job, verdict)
            check_needs(checks, chanv, deck, job, verdict)


def reasons_of(folder):
    """For each deck the lines of its paths and values, which come in a block after its name."""
    blocks = text_of(HERE / f"why-{folder.name}.out").rstrip("\n").split("\n\n")
    return {name: f"{lines}\n" for name, lines in (block.split("\n", 1) for block in blocks)}


def row_of(place):
    return f"{place.address:06X} {place.entered} {'t' if place.after_transfer else '-'}"


def why_of(chanv, c, job):
    """The path, each value of the cause that isn't 0 after its name, and the second path."""
    told, raw = chanv.why(job), c.Explanation()
    if told is None:
        return
    with chanv._job(job, job.storage) as made:
        c.library.chanv_why(byref(made), None, c_size_t(0), None, c_size_t(0), byref(raw))
    yield from map(row_of, told.path)
    yield " ".join(values_of(raw.evidence))
    yield from ["reached by"] * bool(told.second_path) + [*map(row_of, told.second_path)]


def values_of(evidence):
    yield f"because {evidence.reason}"
    for name in ("range", "gap"):
        area = getattr(evidence, name)
        yield from [f"{name} {area.start:06X} {area.len:06X}"] * bool(area.start or area.len)
    for name, digits in HEXADECIMAL.items():
        value = getattr(evidence, name)
        yield from [f"{name} {value:0{digits}X}"] * bool(value)
    if evidence.given:
        given, at = [*evidence.bytes][: evidence.given], [*evidence.addresses][: evidence.given]
        yield f"given {evidence.given} bytes {bytes(given).hex().upper()} at"
        yield from (f"{address:06X}" for address in at)
    for name in ("outside", "value", "below", "sets_mask"):
        value = getattr(evidence, name)
        yield from [f"{name} {value}"] * bool(value)


def check_texts(checks, chanv, deck, job, verdict):
    """Text and listing are those of the files beside the deck."""
    listed = listed_with(deck)
    if "why" in listed or verdict:
        wanted = text_of(deck.with_suffix(".why")) if "why" in listed else "yes\n"
        checks.expect(f"text of {deck.name}", wanted, chanv.text(job))
    if "list" in listed:
        rows = text_of(deck.with_suffix(".list")).splitlines()[:-1]
        wanted = [" ".join(row.split(" ")[:3]) for row in rows]
        checks.expect(f"places of {deck.name}", wanted, [*map(row_of, chanv.places(job))])


def check_needs(checks, chanv, deck, job, verdict):
    """The needs are those of the file, and the program may start exactly if its verdict is yes."""
    wanted = text_of(deck.with_suffix(".needs")) if "needs" in listed_with(deck) else None
    try:
        program = taken_in(chanv, job)
    except chanv.NoJob as refused:
        checks.expect(f"no start of {deck.name}", False, bool(verdict))
        if wanted is not None:
            checks.expect(f"no job for {deck.name}", wanted, refused.explanation)
        opened = chanv.text(job.opened())
        checks.expect(f"the open job of {deck.name}", refused.explanation, opened)
        return
    if wanted is not None:
        lines = [f"mask {program.mask:02X}"]
        lines += [f"extent {first:03} {last:03}" for first, last in program.extents]
        for word in ("fetch", "store", "keep"):
            lines += [f"{word} {at:06X} {size:06X}" for at, size in getattr(program, word)]
        checks.expect(f"needs of {deck.name}", wanted.splitlines(), lines)
    if verdict:
        asked = job_of(text_of(deck))
        hanging = endless(asked, reachable(asked))
        first = min((place.order() for place in hanging), default=None)
        place = (first[0], ENTERED[first[1]]) if first else (None, None)
        seen = program.hangs_at, program.hangs_entered
        checks.expect(f"where {deck.name} may hang", place, seen)
        seen = program.interrupts_at, program.ends_chaining_at
        checks.expect(f"notes on {deck.name}", first_notes(asked), seen)
    alone, beside = (chanv.may_start(job, program, it) for it in ([], [None, program]))
    checks.expect(f"start of {deck.name}", bool(verdict), bool(alone))
    spared = beside.refusal not in ("stores-over-kept", "keeps-stored-over")
    checks.expect(f"{deck.name} beside itself", bool(verdict), bool(beside) or not spared)
    at, size = program.keep[0]
    found = chanv.may_write((at, size), [program]).refusal
    checks.expect(f"write over {deck.name}", "writes-over-kept", found)
    checks.expect_that(f"write beside {deck.name}", chanv.may_write((at, 0), [program]), "kept")


def first_notes(job):
    """The least addresses of CCWs that ask for an interruption, and that end the program although
    chain data is on."""
    found = [(place, ccw_at(job.storage, place.address)) for place in reachable(job)]
    found = [(place, ccw, command_at(place, ccw)) for place, ccw in found if not ccw.is_transfer()]
    interrupting = [place.address for place, ccw, _ in found if ccw.flags & INTERRUPTION]
    ending = [
        place.address
        for place, ccw, command in found
        if command and command.name in IDLE and ccw.flags & CHAIN_DATA
    ]
    return min(interrupting, default=None), min(ending, default=None)


def check_storage(checks, chanv, judging):
    """Storage of each type, asked about with a copy and without, and a number, which has none."""
    job = judging.read_deck(text_of(SEARCH_LOOP))
    held = bytes(job.storage)
    with tempfile.TemporaryFile() as file:
        file.write(held)
        file.flush()
        with mmap.mmap(file.fileno(), 0, access=mmap.ACCESS_READ) as mapped:
            words = array("I", held)
            for storage in (held, bytearray(held), memoryview(held), mapped, words):
                for copy in (True, False):
                    asked = dataclasses.replace(job, storage=storage, copy=copy)
                    name = f"{type(storage).__name__}, copy={copy}"
                    checks.expect(name, "yes", str(chanv.verify(asked)))
                    checks.expect(f"find in {name}", [0x800], chanv.find(storage, copy=copy))
    program = taken_in(chanv, job)
    apart = memoryview(bytearray(2 * len(held)))[::2]
    for name, storage in (("a number", 8), ("every other byte", apart)):
        for copy in (True, False):
            asked = dataclasses.replace(job, storage=storage, copy=copy)
            for ask in (
                lambda: chanv.verify(asked),
                lambda: taken_in(chanv, asked),
                lambda: chanv.may_start(asked, program, []),
                lambda: chanv.find(storage, copy=copy),
            ):
                checks.expect(f"storage that is {name}", "TypeError", error_of(ask))
    for device in (0x10000 + 2314, -1):
        found = error_of(lambda: chanv.find(held, device))
        checks.expect(f"find on {device}", "OverflowError", found)


def error_of(ask):
    try:
        return ask()
    except (TypeError, OverflowError) as error:
        return type(error).__name__


def check_values(checks, chanv, judging):
    """What can't change, what can be pickled, and how permissions print."""
    program = taken_in(chanv, judging.read_deck(text_of(SEARCH_LOOP)))
    rows = program.extents, program.fetch, program.store, program.keep
    checks.expect_that("rows are tuples", all(type(it) is tuple for it in rows), rows)
    checks.expect("a program, pickled", program, pickle.loads(pickle.dumps(program)))
    no_job = chanv.NoJob(chanv.Verdict(8, "misaligned"), "text")
    for error in (chanv.NoAnswer(8, 1), no_job, chanv.WrongLibrary("x")):
        made = pickle.loads(pickle.dumps(error))
        same = type(made) is type(error) and vars(made) == vars(error) and str(made) == str(error)
        checks.expect_that(f"{type(error).__name__}, pickled", same, made)
        checks.expect_that("it has the base", isinstance(made, chanv.Error), type(made))
    for permission, text in [
        (chanv.Permission(), "yes"),
        (chanv.Permission("no-cylinder", 17), "no: no-cylinder 017"),
        (chanv.Permission("not-storable", 0), "no: not-storable 000000"),
        (chanv.Permission("writes-over-kept", 0, 0), "no: writes-over-kept 000000 by row 0"),
        (chanv.Permission("mask"), "no: mask"),
    ]:
        checks.expect(f"{text} as text", text, str(permission))


ASK = "import chanv; print(chanv.verify(chanv.Job(bytes(8), 0, [(0, 1)])))"
ASKED = Ran(0, "no 000000 invalid-code\n")
CATCH = """
import chanv
for kind in (ImportError, chanv.WrongLibrary, chanv.Error):
    try:
        chanv.verify(chanv.Job(bytes(8), 0, [(0, 1)]))
    except kind as error:
        print(error)
"""


def check_library(checks, library, room):
    """Another library is refused by its name when it is asked, and help works without any."""
    source, text = room / "other.c", room / "text.so"
    text.write_text("no library\n")
    libraries = [(room / "missing.so", "there is no library {}"), (text, "{} isn't chanv's")]
    for name, code, says in (
        ("old", OTHER_VERSION, "{} is version 0.3.0, and this package needs "),
        ("other", "int other;\n", "{} isn't chanv's library"),
    ):
        source.write_text(code)
        made = compile_c(source, room / f"{name}.so", "-shared", "-fPIC")
        libraries.append((made, says))
    for other, says in libraries:
        ran = python(other, CATCH)
        lines = ran.output.splitlines()
        is_so = ran.status == 0 and len(lines) == 3
        is_so = is_so and all(line.startswith(says.format(other)) for line in lines)
        checks.expect_that(f"a library that is {other.stem}", is_so, ran)
        ran = python(other, "import chanv; help(chanv); help(chanv.verify)")
        is_so = ran.status == 0 and "The verdict on a job." in ran.output
        checks.expect_that(f"help with a library that is {other.stem}", is_so, ran)
        ran = python(other, ASK)
        named = f"chanv._c.WrongLibrary: {says.format(other)}"
        checks.expect_that(f"a call with a library that is {other.stem}", named in ran.error, ran)
    at = {"__name__": "_c", "__file__": "/_c.py"}
    code = text_of(FOLDER / "chanv/_c.py")
    script = f"at = {at!r}; exec(compile({code!r}, '_c.py', 'exec'), at)\n"
    script += "print(at['__getattr__']('library').chanv_version() >> 16 & 255)"
    checks.expect("right under the root", Ran(0, "1\n"), python(library, script))


def soname():
    [name] = re.findall(r'SONAME = "(.*)"', text_of(FOLDER / "chanv/_c.py"))
    return name


def ask_from(package, library, at):
    """Asks a copy of the package in a folder, with the library copied to a place."""
    shutil.copytree(FOLDER / "chanv", package / "chanv", ignore=lambda *_: ["__pycache__"])
    at.parent.mkdir(parents=True, exist_ok=True)
    shutil.copy(library, at)
    found = {**os.environ, "PYTHONPATH": str(package)}
    found.pop("CHANV_LIBRARY", None)
    return run(sys.executable, "-B", "-c", ASK, env=found)


def check_places(checks, library, room):
    """Where the package looks: in itself, in `lib` of its own prefix, or in `out` of its checkout."""
    name = soname()
    for about, package, at in [
        ("make install", "a/share/chanv/python", f"a/lib/{name}"),
        ("pip", "b/lib/python3.11/site-packages", f"b/lib/{name}"),
        ("Debian's pip", "c/lib/python3/dist-packages", f"c/lib/{name}"),
        ("a wheel with a library", "k/site", f"k/site/chanv/{name}"),
    ]:
        ran = ask_from(room / package, library, room / at)
        checks.expect(f"as {about} leaves it", ASKED, ran)
    checkout = room / "d/python"
    checkout.mkdir(parents=True)
    shutil.copy(FOLDER / "pyproject.toml", checkout)
    checks.expect("in a checkout", ASKED, ask_from(checkout, library, room / f"d/out/libchanv.so.{version()}"))
    # what isn't a library is named where the package looks, whatever library the system has
    text = room / "text"
    text.write_text("no library\n")
    for about, package, at, looks in [
        ("lib of its prefix", "j/share/chanv/python", f"j/lib/{name}", True),
        ("the folder above", "e/deep", f"e/lib/{name}", False),
        ("a folder far above", "f/deep/er/still", f"f/lib/{name}", False),
        ("the package itself", "g", f"g/chanv/{name}", True),
        ("the out of what isn't a checkout", "h/python", f"h/out/{name}", False),
        ("the lib of a target folder", "i/lib/here", f"i/lib/{name}", False),
    ]:
        ran = ask_from(room / package, text, room / at)
        named = str(room / at) in ran.error.partition("WrongLibrary")[2]
        checks.expect_that(f"whether it looks in {about}", named == looks, ran)


def check_pip(checks, library, room):
    """pip installs the package in a plain environment without a network, and leaves the checkout as
    it was."""
    there, checkout = room / "there", room / "checkout"
    if run(sys.executable, "-m", "venv", there).status != 0:
        checks.skip("pip install", "no venv with pip")
        return
    shutil.copytree(FOLDER, checkout / "python", ignore=lambda *_: ["__pycache__"])
    shutil.copy(ROOT / ".gitignore", checkout)
    git = ["git", "-C", checkout, "-c", "user.name=x", "-c", "user.email=x"]
    has_git = shutil.which("git") and all(
        run(*git, *words).status == 0
        for words in (["init", "-q"], ["add", "."], ["commit", "-qm", "the package"])
    )
    offline = {**os.environ, "PIP_NO_INDEX": "1", "PIP_CONFIG_FILE": os.devnull}
    offline.pop("PIP_FIND_LINKS", None)
    offline.pop("PYTHONPATH", None)
    offline["CHANV_LIBRARY"] = str(library)
    pip, asked = [there / "bin/pip", "install", "-q"], [there / "bin/python", "-c", ASK]
    about = "from importlib.metadata import metadata as m; import chanv; it = m('chanv'); "
    about += "print(it['Version'], chanv.__version__, it.get_payload())"
    readme = text_of(FOLDER / "README.md")
    for words in (["./python"], ["--editable", "./python"]):
        ran = run(*pip, *words, env=offline, cwd=checkout)
        checks.expect_that(f"pip install {words[0]}", ran.status == 0, ran)
        checks.expect(f"what {words[0]} installed", ASKED, run(*asked, env=offline, cwd=room))
        wanted = Ran(0, f"{version()} {version()} {readme}\n")
        ran = run(there / "bin/python", "-c", about, env=offline, cwd=room)
        checks.expect(f"the metadata of {words[0]}", wanted, ran)
        run(there / "bin/pip", "uninstall", "-qy", "chanv", env=offline)
    packed = run(there / "bin/python", "-B", "-c", PACK, room, env=offline, cwd=checkout / "python")
    archive = room / f"chanv-{version()}.tar.gz"
    checks.expect_that("an archive of the sources", archive.is_file(), packed)
    ran = run(*pip, archive, env=offline, cwd=room)
    checks.expect_that("pip install of the archive", ran.status == 0, ran)
    checks.expect("what the archive installed", ASKED, run(*asked, env=offline, cwd=room))
    if has_git:
        left = run(*git, "status", "--porcelain", "--untracked-files=all")
        checks.expect("what pip leaves in the checkout", Ran(0), left)
    else:
        checks.skip("what pip leaves in the checkout", "no git")


PACK = """
import sys
sys.path.insert(0, "backend")
import building
building.build_sdist(sys.argv[1])
"""


def check_types(checks, room):
    pythons = (sys.executable, "/usr/bin/python3")
    able = next((it for it in pythons if run(it, "-m", "mypy", "-V").status == 0), None)
    if able is None:
        checks.skip("types", "no mypy")
        return
    cache = room / "cache"
    ran = run(able, "-m", "mypy", "--strict", "--cache-dir", cache, FOLDER / "chanv")
    checks.expect_that("types", ran.status == 0, ran)


def check_readme(checks, library):
    """The example of the package's README prints what stands behind its last line."""
    [code] = re.findall(r"(?s)```python\n(.*?)```", text_of(FOLDER / "README.md"))
    [says] = re.findall(r"print\(.*\)  # (.*)\n", code)
    checks.expect("the README's example", Ran(0, f"{says}\n"), python(library, code))


def check(checks, built):
    library = shared_library(built)
    chanv = package(built)
    sys.path.insert(0, str(JUDGE.parent))
    judging = importlib.import_module("judge")
    for name in ("chanv", "chanv.supervisor"):
        example = f"import {name} as it, doctest, sys; sys.exit(doctest.testmod(it).failed)"
        checks.expect(f"the example of {name}", Ran(0), python(library, example))
    check_readme(checks, library)
    with tempfile.TemporaryDirectory() as room:
        check_library(checks, library, Path(room))
        check_places(checks, library, Path(room) / "places")
        check_pip(checks, library, Path(room))
        check_types(checks, Path(room))
    check_decks(checks, library)
    check_status(checks, library)
    check_refused(checks, library)
    check_answers(checks, chanv, judging)
    check_storage(checks, chanv, judging)
    check_values(checks, chanv, judging)
    check_calls(checks, chanv, judging, package(built, "chanv._c"))
