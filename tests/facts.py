#!/usr/bin/env python3
"""What two pages say is the same on both, and counts are those of the repository.

    tests/facts.py --write    writes the table of TESTING, which says what each test shows

Each fact is on one page, and others link to it. Few are on two, because a reader needs them on
both: the premises of the theorem, which the header lists as THEOREM does, the manual in short, and
SUPERVISOR by their numbers; the reasons of a no, and which rest on choices of this project; the
answers of calls; where the machine itself stores; how many commands there are; what a command line
looks like, in help and in the manual; and the kit. TESTING counts decks, mutants, unit tests and
the jobs of `model` and `peer`.

Two facts are in two places of the sources, because C has to be told, and because a constant text of
the language can't be put together of others: the numbers of the header with the largest storage,
and lines of the usage. The header's comments say numbers again, and what a caller must do before a
yes counts, which a page says in the same words. Each other sentence of the header is a line of
rows/header.txt, under what it is about and the tests that show what it says. So a sentence changes
only together with that line, and with a look at these tests.
"""

import ast
import re
import sys

import model
import peer
from building import HERE, ROOT, crates
from commands import KINDS
from examples import FOLDERS, TEXTS, decks_of
from running import text_of
from words import meanings

DOCS = ROOT / "docs"
HEADER = ROOT / "crates/chanv_c/include/chanv.h"
SENTENCES = HERE / "rows/header.txt"
# what the manual says in short, in the words of THEOREM
IN_SHORT = [
    "main storage from address 0 on",
    "the arm is inside the job's extents, and the job's file mask is in force",
    "From the question until the program has left, nothing else changes a byte that it keeps",
    "not even the machine, which stores PSWs, the CSW and the timer in low storage",
]


# what the header asks of a caller beside the premises, and the page that asks it in the same words
ASKED = [
    ("EMBEDDING.md", "nothing may write storage: ask about quiet storage, or about a copy"),
    ("EMBEDDING.md", "what the call judges is what the copy holds"),
    ("SUPERVISOR.md", "Only CHANV_OK allows anything"),
    (
        "EMBEDDING.md",
        "only after CHANV_YES from chanv_check_write, asked with the program in the table",
    ),
    ("THEOREM.md", "premises 1 and 2"),
    ("EMBEDDING.md", "any other code except 4 to 7"),
    ("EMBEDDING.md", "Pass room 0 to skip a path"),
]

# what a page says of a case that surprises; the test `library` shows the first
SAID = [
    ("EMBEDDING.md", "no areas own nothing, and 0 allows nothing"),
    ("MACHINE.md", "Every CCW from which the program may go on is reachable"),
]


def plain(text):
    """Words alone, without the marks of Markdown, of a comment of C or of a manual page."""
    text = re.sub(r"(?m)^ \*|^\.[A-Z]+ ?(.*)$", r"\1", text)
    return " ".join(re.sub(r"[*`\\]", "", text).split())


def section(page, front):
    """The section of a page whose heading begins so."""
    return text_of(DOCS / page).partition(f"\n## {front}")[2].partition("\n## ")[0]


def numbered(text):
    """The items 1., 2. and so on of a list, as plain words."""
    items = re.findall(r"(?ms)^(?: \* )?(\d)\. (.*?)(?=^(?: \* )?\d\. |^(?: \*)?\s*$|\Z)", text)
    return {number: plain(item) for number, item in items}


def check_premises(checks):
    page = section("THEOREM.md", "Premises")
    premises = numbered(page)
    checks.expect("the numbers of the premises", [*"123456"], [*premises])
    comment = text_of(HEADER).partition("This is proved under premises")[2].partition("*/")[0]
    checks.expect("the premises of the header", premises, numbered(comment))
    duties = " ".join(section("SUPERVISOR.md", "The duties").split())
    named = ", ".join(re.findall(r"\*\* \(([\d, ]+)\)", duties)).split(", ")
    checks.expect("the premises that duties name", [*premises], sorted(set(named)))
    for name, text in (("THEOREM", page), ("the manual", text_of(DOCS / "chanv.1"))):
        text = plain(text).lower()
        for words in IN_SHORT:
            checks.expect_that(f"{name} says: {words}", words.lower() in text, text)


def check_duties(checks):
    """The header asks of a caller what the pages ask."""
    header = plain(text_of(HEADER))
    for page, words in ASKED:
        checks.expect_that(f"the header says: {words}", words in header, words)
        checks.expect_that(f"{page} says: {words}", words in plain(text_of(DOCS / page)), words)


def check_said(checks):
    for page, words in SAID:
        checks.expect_that(f"{page} says: {words}", words in plain(text_of(DOCS / page)), words)


def sentences_of(block):
    """The sentences of a block of the header: of the comment before it, and of those on fields."""
    front, code = re.match(r"(?s)(?:/\*(.*?)\*/)?(.*)", block).groups()
    yield from re.split(r"(?<=\D[.?]) (?=[A-Z]|chanv_|- )", plain("\n" + (front or "")))
    for what, comment in re.findall(r"(?ms)([^;,{}/]+?)[;,]?\s*/\*(.*?)\*/", code):
        yield f"{plain(what)}: {plain(comment)}"


def header_blocks():
    """What each block of the header with a comment is about, and its sentences."""
    about = r"(?m)^(?:struct|enum) (chanv_\w+) \{|\b(chanv_\w+)\(|^#(?:define|ifndef) (CHANV_\w+)|$"
    for block in text_of(HEADER).split("\n\n"):
        if "/*" in block:
            code = re.sub(r"(?s)/\*.*?\*/", "", block)
            names = [name for it in re.findall(about, code) for name in it if name]
            yield names[0], [*filter(None, sentences_of(block))]


def check_sentences(checks):
    """Each sentence of the header is one of its table, whose tests there are."""
    rows = re.findall(r"(?m)^\[(\w+)\] (.*)\n((?:[^\[\n].*\n)+)", text_of(SENTENCES))
    said = {name: [*lines.splitlines()] for name, _, lines in rows}
    found = dict(header_blocks())
    checks.expect("what the header speaks about", [*said], [*found])
    for name, sentences in found.items():
        checks.expect(f"the header on {name}", said.get(name), sentences)
    for name, tests, _ in rows:
        for test in tests.split():
            checks.expect_that(f"{name}, the test {test}", (HERE / f"{test}.py").is_file(), test)


def check_comments(checks):
    """The numbers in the header's comments: which codes are faults, and how large things may be."""
    header = plain(text_of(HEADER))
    refusals = text_of(ROOT / "crates/chanv_c/src/refusal.rt")
    codes = dict(re.findall(r"CHANV_(\w+) = (\d+)", text_of(HEADER)))
    shown = {int(codes[it]) for it in re.findall(r"JobFault::\w+(?:\(_\))? => (\w+),", refusals)}
    told = re.findall(r"(\d+) to (\d+)(?= are faults)", header)
    sets = [{*range(int(first), int(last) + 1)} for first, last in told]
    checks.expect("the faults", [shown], sets)
    limits = dict(re.findall(r"(\w+) = (\d{4,})", text_of(HEADER) + text_of(ROOT / "c/chanv.c")))
    sizes = {f"{int(limits[it]):,}" for it in ("LARGEST_STORAGE", "CHANV_LARGEST_LIMIT")}
    checks.expect("the sizes", sizes, {*re.findall(r"\d+(?:,\d{3})+", header)})


def check_reasons(checks):
    """The reasons in the order of their numbers, on each page with a table of them."""
    table = re.findall(r"(?m)^\| (\d+) \| `([a-z-]+)` \|", section("VERDICT.md", "The rules"))
    words = [word for _, word in table]
    checks.expect("the numbers of VERDICT", [*map(str, range(1, 17))], [n for n, _ in table])
    constants = re.findall(r"CHANV_REASON_(\w+) = (\d+)", text_of(HEADER))
    named = [name.lower().replace("_", "-") for name, _ in constants]
    checks.expect("the reasons of the header", words, named)
    causes = text_of(DOCS / "OUTPUT.md").partition("\n### Causes\n")[2].partition("\n### ")[0]
    said = re.findall(r"(?m)^\| `([a-z-]+)` \|", causes)
    checks.expect("the reasons of OUTPUT", words, said)
    shown = section("MACHINE.md", "What a run shows")
    cells = re.findall(r"(?m)^\| ((?:`[a-z-]+`(?:, )?)+) \|", shown)
    said = [word for cell in cells for word in re.findall(r"`([a-z-]+)`", cell)]
    checks.expect("the reasons of MACHINE after the program checks", words[7:], said)


def check_choices(checks):
    """THEOREM names the reasons that may rest on a choice of this project, as DEVICE does."""
    choices = section("DEVICE.md", "This project")
    cells = re.findall(r"(?m)^\| .* \| (.*) \|$", choices)
    chosen = {word for cell in cells for word in re.findall(r"`([a-z-]+)`", cell)}
    sentence = " ".join(section("THEOREM.md", "What you have to trust").split())
    sentence = sentence.partition("a *no* may rest on such a rule: ")[2].partition(". ")[0]
    checks.expect("the reasons that rest on choices", chosen, {*re.findall(r"`(.*?)`", sentence)})


def check_answers(checks):
    """EMBEDDING explains each code of the header."""
    answers = text_of(HEADER).partition("enum chanv_answer {")[2].partition("};")[0]
    codes = {int(number) for number in re.findall(r"(?m)^ +CHANV_[A-Z_]+ = (\d+)", answers)}
    rows = re.findall(r"(?m)^\| ([\d, to]+) \| ", section("EMBEDDING.md", "The calls"))
    told = set()
    for part in ", ".join(rows).split(", "):
        first, _, last = part.partition(" to ")
        told |= {*range(int(first), int(last or first) + 1)}
    checks.expect("the codes of EMBEDDING", codes, told)


def check_numbers(checks):
    """C has the library's numbers: the header its answers and refusals, c/chanv.c the storage."""
    enums = re.findall(r"(?s)enum chanv_(?:answer|refused|allowed) \{(.*?)\};", text_of(HEADER))
    header = dict(re.findall(r"(?m)^ +CHANV_([A-Z_]+) = (\d+)", "".join(enums)))
    source = text_of(ROOT / "crates/chanv_c/src/codes.rt")
    library = dict(re.findall(r"const ([A-Z_]+): u32 = (\d+);", source))
    checks.expect("how many enums have these numbers", 3, len(enums))
    limits = re.search(r"CHANV_USUAL_LIMIT = (\d+)", text_of(HEADER))
    checks.expect("the usual limit", limits[1], library.pop("USUAL_LIMIT"))
    checks.expect("what allows nothing", "0", header.pop("ALLOW_NOTHING"))
    checks.expect("the numbers of the library", header, library)
    ccws = text_of(ROOT / "crates/ccw_core/src/ccw.rt")
    limit = re.search(r"STORAGE_LIMIT: u32 = ([\d_]+);", ccws)
    largest = re.search(r"LARGEST_STORAGE = (\d+)", text_of(ROOT / "c/chanv.c"))
    checks.expect("the largest storage of C", limit[1].replace("_", ""), largest[1])


def usages():
    """The usage of the program, and that of each command with options, by their constants."""
    source = text_of(ROOT / "crates/chan_args/src/command_table.rt")
    return dict(re.findall(r'(?s)const (USAGE\w*): &str = "(.*?)";', source))


def check_manual(checks):
    """The manual has the usage of help and `help` itself, the devices of the option, and of the
    lines `keep` what `chanv explain` says."""
    page = text_of(DOCS / "chanv.1")
    lines = re.sub("[<>]", "", usages()["USAGE"]).split("\n       ")
    synopsis = page.partition("\n.SH SYNOPSIS\n.nf\n")[2].partition("\n.fi\n")[0]
    said = re.sub(r"(?m)^\.B |\\f\w|\\(?=-)", "", synopsis).split("\n")
    checks.expect("the synopsis of the manual", [*lines, "chanv help [COMMAND]"], said)
    form = KINDS["Device"][1]
    devices = re.search(r"for the IBM (.*) disks", page)[1]
    checks.expect("the devices of the manual", *(re.findall(r"\d+", it) for it in (form, devices)))
    keep = meanings()["keep"].removeprefix("keep: ").rstrip()
    says_so = f"keep has {keep}." in plain(page)
    checks.expect_that(f"the manual says: keep has {keep}", says_so, page)


def check_machine_stores(checks):
    """OUTPUT has the note on the ranges that SUPERVISOR says of the old PSWs, the CSW and the timer,
    of which the first two adjoin."""
    row = re.search(r"(?m)^\| stores old PSWs .*?;", text_of(DOCS / "SUPERVISOR.md"))[0]
    first, _, _, last, *timer = re.findall(r"`(\w{6})`", row)
    row = re.search(r"(?m)^\| `keep SSSSSS.*$", text_of(DOCS / "OUTPUT.md"))[0]
    stored = [f"{first}-{last}", "-".join(timer)]
    checks.expect("where the machine stores", re.findall(r"`(\w{6}-\w{6})`", row), stored)


def check_walks(checks):
    """Each page that says how often `chanv_take_in` walks says what the code does."""
    source = text_of(ROOT / "crates/chanv_c/src/take_in.rt")
    walks = len(re.findall(r"\bmatch (?:kept|needs)_of\(", source))
    pages = [ROOT / "CHANGELOG.md", ROOT / "bench/README.md", *sorted(DOCS.glob("*.md"))]
    how = r"chanv_take_in (?:judges|walks|surveys)[^.]*?\b(once|twice)\b"
    said = [word for page in pages for word in re.findall(how, plain(text_of(page)))]
    checks.expect("how often chanv_take_in walks", [["once", "twice"][walks - 1]] * 2, said)


def check_texts(checks):
    """`chan_run` makes no text of more than 14 characters but a failure's, and those of errors."""
    for path in sorted((ROOT / "crates/chan_run/src").glob("*.rt")):
        if path.name != "failure.rt":
            code = re.sub(r"(?m)^ *(//|#\[error).*$", "", text_of(path))
            texts = [re.sub(r"\{\w*\}", "", it) for it in re.findall(r'"((?:[^"\\]|\\.)*)"', code)]
            long = [it for it in texts if len(it) > 14]
            checks.expect(f"long texts of {path.name}", [], long)


def check_crates(checks):
    """PROOF and the picture of the crates call what each is by the same words."""
    table = section("PROOF.md", "What is proved, by crate")
    has = dict(re.findall(r"(?m)^\| `(\w+)` \| (.*?) \| .* \|$", table))
    labels = re.findall(r'label = "(\w+)\\n(.*?)"', text_of(DOCS / "crates.dot"))
    checks.expect("the crates of PROOF", {*crates()} - {"unit_tests"}, {*has})
    for name, label in labels:
        words = set(re.findall(r"\w+", label)) - {"a", "an", "of", "the", "s"}
        said = set(re.findall(r"\w+", has.get(name, "")))
        checks.expect(f"words on {name} that its row lacks", set(), words - said)


def check_counts(checks):
    page = text_of(DOCS / "TESTING.md")
    told = {cells[0]: cells[2] for cells in re.findall(r"(?m)^\| (.*?) \| (.*?) \| (.*?) \|", page)}
    decks = sum(len(decks_of(folder)) for folder in (*FOLDERS, TEXTS))
    mutants = [*ROOT.glob("tests/mutants/*/*.edit"), *ROOT.glob("crates/*/must-fail/*.edit")]
    tests = sum(text_of(it).count("#[test]") for it in ROOT.glob("crates/unit_tests/src/**/*.rt"))
    jobs = peer.jobs_of(peer.SEED, peer.JOBS)
    run = [name for name, job in jobs.items() if not peer.changes_itself(job)]
    of_decks = sum(".deck" in name for name in run)
    probes = sum(name.startswith("probe ") for name in run)
    checks.expect("TESTING says four disks", 4, len(peer.CONTENTS))
    said = f"{len(run)} jobs, on four disks each: {of_decks} example decks, "
    said += f"{len(run) - of_decks - probes} random jobs and {probes} probes"
    for kind, count in [
        ("unit tests", f"{tests}"),
        ("worked cases, examples", f"{decks} decks"),
        ("model", f"{model.JOBS:,} jobs"),
        ("peer", said),
        ("[mutants](PROOF.md#mutants)", f"{len(mutants)}"),
    ]:
        checks.expect(f"TESTING counts: {kind}", count, told.get(kind))
    row = r"(?m)^\| `\w\w` \| (`\w\w` )?\| `[a-z-]+` \| \w+ \|"
    codes = re.findall(row, section("DEVICE.md", "Commands"))
    count = len(codes) + sum(map(bool, codes))
    checks.expect("DEVICE and README count forty codes", 40, count)
    for name in ("README.md", "docs/DEVICE.md"):
        checks.expect_that(f"{name} says forty", "forty codes" in text_of(ROOT / name), "no forty")


def tested():
    """The table of TESTING: the first lines of each test, in the order of their names."""
    listed = re.findall(r'(?m)^    "(\w+)",$', text_of(HERE / "run").partition("]")[0])
    for name in sorted(listed):
        comment = ast.get_docstring(ast.parse(text_of(HERE / f"{name}.py")))
        said = " ".join(comment.split("\n\n")[0].split()).removesuffix(".")
        yield f"| `{name}` | {said} |"


TABLE = re.compile(r"(?s)(?<=\| test \| shows \|\n\|---\|---\|\n).*?(?=\n\n)")


def check_tested(checks):
    table = TABLE.search(text_of(DOCS / "TESTING.md"))[0]
    checks.expect("what TESTING says of each test", [*tested()], table.splitlines())


def check_kit(checks):
    kit = re.search(r"(?m)^KIT = (\S+)", text_of(ROOT / "Makefile"))[1]
    checks.expect_that("README names the kit", f"`{kit}`" in text_of(ROOT / "README.md"), kit)
    others = re.compile(r"rattle-kit-\w+")
    for page in [ROOT / "README.md", *sorted(DOCS.glob("*.md"))]:
        named = set(others.findall(text_of(page))) - {kit}
        checks.expect(f"other kits on {page.name}", set(), named)


def check(checks, _built):
    check_premises(checks)
    check_duties(checks)
    check_said(checks)
    check_sentences(checks)
    check_comments(checks)
    check_reasons(checks)
    check_choices(checks)
    check_answers(checks)
    check_numbers(checks)
    check_manual(checks)
    check_machine_stores(checks)
    check_walks(checks)
    check_texts(checks)
    check_crates(checks)
    check_counts(checks)
    check_tested(checks)
    check_kit(checks)


if __name__ == "__main__" and sys.argv[1:] == ["--write"]:
    PAGE = DOCS / "TESTING.md"
    PAGE.write_text(TABLE.sub(lambda _: "\n".join(tested()), text_of(PAGE)))
