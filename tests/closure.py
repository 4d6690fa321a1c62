#!/usr/bin/env python3
"""docs/THEOREM.md quotes the statements as they are, and counts the definitions under them.

    tests/run closure          compares the page with the sources
    tests/closure.py --write   writes the quotations and the table of files anew

A statement rests on the definitions that it names, and on those that these name in turn, up to
types of the code and to the kit. The files come in the order of crates.txt and of each crate's
specs/Lib.antt, so that a reader who goes down the table meets nothing before its definition is
near. No file of the table stands in the group of Lib.antt that only ties the code to the others.
"""

import re
import sys
from typing import NamedTuple

sys.dont_write_bytecode = True

from building import ROOT, crates  # noqa: E402
from running import text_of  # noqa: E402
from sources import CRATES  # noqa: E402

PAGE = ROOT / "docs/THEOREM.md"
VERIFY = CRATES / "chan_walk/src/judgement.rt"
BLOCK = re.compile(r"(<!-- tests/closure.py writes (\w+) -->\n).*?(<!-- up to here -->\n)", re.S)

PROMISED = ["IsSafe", "IsSteady"]
LAWS = ["StaysWell", "LeastJob", "SupervisedStaysWell"]
# the words of the contract, and what leads from them down to a run and its events, by file
QUOTED = {
    "chan_walk/Answers": ["IsAnswer", "IsSoundAmong", "HasWitness"],
    "chan_walk/Harm": ["MayHarm", "DoesHarm", "IsHarm"],
    "chan_walk/Headline": "IsSafe IsSteady AreSafe AreSteady IsSafeMoment IsSafeEvent".split(),
    "chan_walk/Runs": ["IsRun"],
}

DEFINED = re.compile(r"(?:(?:abbrev|unfoldable|pub|record|data|syntax|infix) )+\(?([^\s:(){}]+)")
WORD = re.compile(r"[\w'◌]+")


class Definition(NamedTuple):
    # the crate and the file that it is in, as `chan_walk/Machine`
    file: str
    name: str
    comments: tuple
    lines: tuple

    def words(self):
        return set(WORD.findall(re.sub(r"--.*", "", "\n".join(self.lines)))) - {self.name}

    def constructors(self):
        is_data = "data" in self.lines[0].split()[:3]
        return re.findall(r"(?m)^ +(\w+) *:", "\n".join(self.lines[1:])) if is_data else []


def definitions_of(file, text):
    """A definition begins at a line without an indent, behind its comments."""
    comments, found = [], []
    for line in text.splitlines():
        begins = DEFINED.match(line)
        if line.startswith("--"):
            comments.append(line)
        elif line.startswith("use ") or not line:
            comments = []
        elif begins:
            found.append((begins[1], comments, [line]))
            comments = []
        elif found:
            found[-1][2].append(line)
    return [Definition(file, name, tuple(some), tuple(lines)) for name, some, lines in found]


def files():
    """Each file of definitions, as `chan_walk/Machine`, in the order in which they are read."""
    for crate in crates():
        index = CRATES / crate / "specs/Lib.antt"
        names = re.findall(r"(?m)^pub mod (\w+)", text_of(index)) if index.is_file() else []
        yield from (f"{crate}/{name}" for name in names)


def only_tying():
    """The files that some Lib.antt lists under the comment that they only tie the code."""
    for crate in crates():
        index = CRATES / crate / "specs/Lib.antt"
        groups = text_of(index).split("\n-- ") if index.is_file() else []
        for group in groups:
            if group.startswith("What only ties the code"):
                yield from (f"{crate}/{name}" for name in re.findall(r"(?m)^pub mod (\w+)", group))


class Sources:
    """All definitions, and of each file the names that it takes from others."""

    def __init__(self):
        self.files, self.at, self.used = list(files()), {}, {}
        for file in self.files:
            crate, _, name = file.partition("/")
            text = text_of(CRATES / crate / f"specs/{name}.antt")
            for one in definitions_of(file, text):
                self.at |= {(file, one.name): one}
                self.at |= {(file, constructor): one for constructor in one.constructors()}
            taken = re.findall(r"(?m)^use Rattle\.(\w+)\.specs\.(\w+)\.\{(.*)\}", text)
            self.used[file] = {
                word: (f"{crate}/{module}", word)
                for crate, module, words in taken
                for word in words.split(", ")
            }

    def named(self, name):
        """The definition of this name, in whichever file it is."""
        [found] = {one for (_, other), one in self.at.items() if other == name}
        return found

    def closure(self, names):
        """These definitions and all that they rest on."""
        found, new = set(), {self.named(name) for name in names}
        while new:
            found |= new
            keys = {(one.file, word) for one in new for word in one.words()}
            keys |= {self.used[file].get(word) for file, word in keys}
            new = {self.at[key] for key in keys if key in self.at} - found
        return found


def contract():
    text = text_of(VERIFY)
    begins = text.index("pub fn verify(")
    return text[begins : text.index("\n{\n", begins)]


def statements():
    """What each column of the table rests on."""
    verify = re.findall(r"\b((?:Is|Has)\w+) job\.now", contract())
    return {
        "a yes": PROMISED,
        "`verify`": verify,
        "with the laws": verify + LAWS,
    }


def quoted_contract(_sources):
    return f"```rust\n{contract()}\n```\n"


def quoted_definitions(sources):
    some = [sources.at[file, name] for file, names in QUOTED.items() for name in names]
    texts = ["\n".join([*one.comments, *one.lines]) for one in some]
    return "```agda\n" + "\n\n".join(texts) + "\n```\n"


def row(*cells):
    return f"| {' | '.join(cells)} |\n"


def table(sources):
    """For each file the definitions that each statement needs of it, and then how long all are."""
    columns = statements()
    under = [sources.closure(names) for names in columns.values()]
    lines = [row("file", *columns), "|---|" + "---|" * len(under) + "\n"]
    for file in sources.files:
        counts = [sum(one.file == file for one in some) for some in under]
        if any(counts):
            lines.append(row(f"`{file}`", *(str(count or "") for count in counts)))
    for name, count in (
        ("definitions", len),
        ("files", lambda some: len({one.file for one in some})),
        ("lines", lambda some: sum(len(one.lines) for one in some)),
        ("lines of comments", lambda some: sum(len(one.comments) for one in some)),
    ):
        lines.append(row(f"**{name}**", *(f"**{count(some)}**" for some in under)))
    return "".join(lines)


BLOCKS = {"contract": quoted_contract, "definitions": quoted_definitions, "files": table}


def filled(page):
    sources = Sources()
    return BLOCK.sub(lambda it: f"{it[1]}{BLOCKS[it[2]](sources)}{it[3]}", page)


def check(checks, _built):
    page = text_of(PAGE)
    blocks = sorted(name for _, name, _ in BLOCK.findall(page))
    checks.expect("the blocks of docs/THEOREM.md", sorted(BLOCKS), blocks)
    checks.expect("docs/THEOREM.md", filled(page), page)
    counted = set(re.findall(r"(?m)^\| `(\w+/\w+)` \|", page))
    checks.expect("files of the table that only tie the code", set(), counted & {*only_tying()})


if __name__ == "__main__":
    if sys.argv[1:] != ["--write"]:
        sys.exit(__doc__)
    PAGE.write_text(filled(text_of(PAGE)))
