#!/usr/bin/env python3
"""Each picture of docs/ is made from its source as it is now, and the map of the crates is true.

    tests/run pictures          compares each picture with its source
    tests/pictures.py --write   draws the pictures anew, by Graphviz

The test needs no Graphviz: a picture carries the hash of its source in its first comment, and has
the texts and the arrows of its source.
"""

import hashlib
import html
import re
import sys

sys.dont_write_bytecode = True

from building import ROOT, crates, must_succeed, short  # noqa: E402
from examples import EXAMPLES  # noqa: E402
from running import run, text_of  # noqa: E402

CRATES = ROOT / "docs/crates.dot"
# one is the picture that `chanv graph` draws of an example
SOURCES = [*sorted((ROOT / "docs").glob("*.dot")), EXAMPLES / "changes-argument.dot"]
MARK = "<!-- made by tests/pictures.py from {} with the hash {} -->\n"


def picture_of(source):
    return ROOT / "docs" / f"{source.stem}.svg"


def mark_of(source):
    return MARK.format(short(source), hashlib.sha256(source.read_bytes()).hexdigest())


def write():
    must_succeed("dot", "-V")
    for source in SOURCES:
        drawn = run("dot", "-Tsvg", source).output
        picture_of(source).write_text(mark_of(source) + drawn[drawn.index("<svg") :])


# in a source a name, where an arrow leads from or to, and a label: in quotes, a word or a table
NAME = r'(?:"[^"]+"|\w+)'
ARROW = re.compile(rf"({NAME})(?::\w+)* -> ({NAME})")
LABEL = re.compile(r'\blabel ?= ?(?:"((?:[^"\\]|\\.)*)"|(\w+)|<(.*?)>[\],]*;$)', re.M)
UNLABELLED = re.compile(rf"(?:^|[;{{]) *({NAME}) \[(?![^\]]*\blabel)", re.M)


def texts_of(source):
    """The texts that Graphviz draws: the lines of labels, and names of nodes without a label."""
    text = text_of(source)
    for quoted, word, table in LABEL.findall(text):
        cells = [html.unescape(it) for it in re.findall(r"<td[^>]*>(.*?)</td>", table)]
        yield from quoted.split(r"\n") if quoted else [word] if word else cells
    names = (name.strip('"') for name in UNLABELLED.findall(text))
    yield from (name for name in names if name not in ("graph", "node", "edge"))


def check_drawn(checks, source):
    """The picture has the texts and the arrows of its source, in any order."""
    drawn, about = text_of(picture_of(source)), short(picture_of(source))
    texts = [html.unescape(it) for it in re.findall(r"<text[^>]*>(.*?)</text>", drawn)]
    plain = (sorted(" ".join(it.split()) for it in each) for each in (texts_of(source), texts))
    checks.expect(f"the texts of {about}", *plain)
    arrows = [[it.strip('"') for it in pair] for pair in ARROW.findall(text_of(source))]
    titles = (html.unescape(it) for it in re.findall("<title>(.*)</title>", drawn))
    ends = [re.sub(r":\w+(?=->|$)", "", it).split("->") for it in titles if "->" in it]
    checks.expect(f"the arrows of {about}", sorted(arrows), sorted(ends))


def reached(edges):
    """For each name all those that arrows lead to."""
    found = {name: set(others) for name, others in edges.items()}
    for _ in found:
        for name, others in found.items():
            found[name] = others.union(*(found.get(other, set()) for other in others))
    return found


def check_crates(checks):
    names = set(crates())
    lines = re.findall(r"(?m)^(\w+)(?: staticlib)?: (.*)$", text_of(ROOT / "crates.txt"))
    used = {name: set(others.split()) & names for name, others in lines}
    drawn = {name: set() for name in names}
    for other, name in re.findall(r"(?m)^    (\w+) -> (\w+)", text_of(CRATES)):
        drawn.setdefault(name, set()).add(other)
    checks.expect("the crates that each one uses", reached(used), reached(drawn))


def check(checks, _built):
    for source in SOURCES:
        picture = picture_of(source)
        first = text_of(picture).partition("<svg")[0] if picture.is_file() else "no picture"
        checks.expect(short(picture), mark_of(source), first)
        check_drawn(checks, source)
    pictures = sorted(path.stem for path in (ROOT / "docs").glob("*.svg"))
    checks.expect("the pictures of docs/", sorted(source.stem for source in SOURCES), pictures)
    check_crates(checks)


if __name__ == "__main__":
    if sys.argv[1:] != ["--write"]:
        sys.exit(__doc__)
    write()
