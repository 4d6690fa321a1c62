"""The links of the pages lead somewhere, and README keeps its size.

A page is README.md, CHANGELOG.md, a page of docs/, or a README of another folder. Its links lead to
pages and headings that exist. Each page of docs/ that code or the manual names is there, and README
leads to each page of docs/. Each term of the glossary has a link. README has at most 130 lines.
"""

import re

from building import ROOT, short
from running import text_of

README = ROOT / "README.md"
DOCS = sorted((ROOT / "docs").glob("*.md"))
BESIDE = ("bench", "coq", "hercules", "python", "rustc")
OTHERS = [ROOT / "CHANGELOG.md", *(ROOT / f"{it}/README.md" for it in BESIDE)]
OTHERS += sorted(ROOT.glob("examples/**/*.md"))
PAGES = [README, *DOCS, *OTHERS]
GLOSSARY = ROOT / "docs/GLOSSARY.md"

MOST_LINES = 130
FOLDERS = ("crates", "tests", "examples", "bench", "c", "python", "rustc")
SOURCES = {".rt", ".antt", ".h", ".c", ".py", ".txt", ".edit", ".sh", ".s"}
# a page of docs/, which the manual writes with a backslash before each hyphen
NAMED = r"\bdocs/([A-Z]+(?:\\?-[A-Z]+)*\.md)\b"

FENCED = r"(?ms)^```.*?^```$"


def anchors_of(page):
    """The names of a page's headings, as links write them."""
    headings = re.findall(r"(?m)^#+ (.*)$", re.sub(FENCED, "", text_of(page)))
    return {re.sub(r"[^\w\- ]", "", heading.lower()).replace(" ", "-") for heading in headings}


def links_of(page):
    """The links of a page, and whether each leads somewhere. Tables have links too, but blocks of
    code have none."""
    for link in re.findall(r"\]\(([^)\s]+)\)", re.sub(FENCED, "", text_of(page))):
        name, _, anchor = link.partition("#")
        to = page.parent / name if name else page
        is_there = to.exists() and (not anchor or anchor in anchors_of(to))
        yield link, "//" in link or is_there


def broken_links(page):
    return [link for link, is_there in links_of(page) if not is_there]


def check_links(checks, page):
    for link, is_there in links_of(page):
        checks.expect_that(f"{short(page)}: the link {link}", is_there, link)


def sources():
    """The texts outside docs/ that may name a page."""
    yield from (ROOT / "Makefile", ROOT / "docs/chanv.1", ROOT / "tests/run", ROOT / "tests/tools")
    for folder in FOLDERS:
        for path in sorted((ROOT / folder).rglob("*")):
            if path.suffix in SOURCES and "out" not in path.relative_to(ROOT).parts:
                yield path


def check_named(checks):
    for path in sources():
        for name in sorted(set(re.findall(NAMED, text_of(path)))):
            name = name.replace("\\", "")
            is_there = (ROOT / "docs" / name).is_file()
            checks.expect_that(f"{short(path)} names docs/{name}", is_there, name)


def check_glossary(checks):
    rows = re.findall(r"(?m)^\| (?!term)\w.*\|$", text_of(GLOSSARY))
    checks.expect_that("the glossary has terms", rows, rows)
    for row in rows:
        checks.expect_that(f"a link of the term {row.split(' | ')[0]}", "](" in row, row)


def check_readme(checks):
    text = text_of(README)
    last = set(re.findall(r"\]\((docs/[A-Z-]+\.md)\)", text.partition("\n## Find your way\n")[2]))
    checks.expect("the pages that the last table leads to", {*map(short, DOCS)}, last)
    lines = len(text.splitlines())
    checks.expect_that(f"README has at most {MOST_LINES} lines", lines <= MOST_LINES, lines)


def check(checks, _built):
    check_named(checks)
    check_glossary(checks)
    check_readme(checks)
    for page in PAGES:
        check_links(checks, page)
