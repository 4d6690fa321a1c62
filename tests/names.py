"""Each name in backticks exists: on pages, in comments of the sources, in help and in `explain`.

    tests/run names

A name is a word of the sources: of their code and texts, or of a file's name. In specs/ and proofs/
only declared and imported names count, and no bound variable. A number may end a name, and a hyphen
the front of one. OUTSIDE lists the words that belong to others. Numbers, words of capitals alone,
which stand for values, and single letters aren't names. A path in backticks leads to a file or a
folder: from the top, or from any folder; on PROOF a path without a crate is one of `chan_walk`, and
in a comment one of its crate.
"""

import io
import re
import tokenize

from building import HERE, ROOT, short
from links_and_sizes import FENCED, PAGES
from running import text_of
from words import WORDS

# words of tools, systems and libraries, and folders of an installation
OUTSIDE = set(
    """
    clippy no-deps allow-holes tidy plant proves lto savecore setuptools
    pmemsave c1-24 x/32xb x/16xw x00000800 x07000900
    dlopen ldconfig mprotect MAP_FIXED ls
    find_package pkg_check_modules PkgConfig IMPORTED_TARGET dependency
    rustup s390x-unknown-linux-gnu s390x-linux-gnu-gcc
    lib share/chanv/python share/doc/chanv/hercules
    """.split()
)

SPAN = re.compile(r"(?<!`)`([^`\n]+(?:\n[^`\n]+)?)`(?!`)")
WORD = re.compile(r"[^\W\d_]\w*(?:-\w+)*-?|_\w+")
NUMBERED = re.compile(r"-\d+$")
# what isn't a name: values, bits of a code, and a byte of a text
VALUE = re.compile(r"[A-Z\d-]+|[x01]{8}|\w")
BYTE = re.compile(r"\\x\w\w")

# strings, which stay, and comments of each kind of source
LIKE_C = re.compile(r'"(?:\\.|[^"\\])*"|//[^\n]*|/\*.*?\*/', re.S)
LIKE_SHELL = re.compile(r"(?m)^ *#(?! *(?:define|include)).*")
OF_DEFINITIONS = re.compile(r"--[^\n]*")
# what a file of definitions imports, and declares in a line of its own or as a field
DECLARED = re.compile(r"(?m)^use .*|^(?:[a-z]+ )*?(?:pub )?[^\W\d]\w*(?= |$)|^  (?:pub )?\w+(?= )")
# what begins a line of a comment
FRONT = re.compile(r"(?m)^\s*(?:///?|//!|--|\*|#)\s?")

SHELL = {"", ".sh", ".bash", ".in", ".edit", ".txt", ".toml", ".dot", ".s", ".1", ".map"}
NO_SOURCES = {".gz", ".md", ".svg", ".deck", ".bin"}
ENDINGS = r"(?:rt|antt|rs|py|md|h|c|sh|s|txt|toml|dot|svg|edit)"
PATH = re.compile(rf"(?:[\w.-]+/)+[\w.-]*|[\w-]+\.{ENDINGS}")
# `NAME` and the like stand for any name, and `out/` is made
ANY = re.compile(r"[A-Z]{2,}(?:/|\.|$)|(?:^|/)(?:out|[A-Z])/|^[~.]*/")
DEFINITIONS = re.compile(r"crates/(\w+)/specs/(\w+)\.antt")
IN_CRATE = re.compile(
    r"`((?:src|specs|proofs)/[\w./]+)`(?:(?:,| and|, and) `[^`]+`)*(?: of `(\w+)`)?"
)


def files():
    for path in sorted(ROOT.rglob("*")):
        parts = path.relative_to(ROOT).parts
        if ".git" not in parts and "out" not in parts and "__pycache__" not in parts:
            yield path


def of_python(text):
    """The code of a module, and its comments with its doc strings."""
    code, comments = [], []
    for token in tokenize.generate_tokens(io.StringIO(text).readline):
        is_doc = token.type == tokenize.STRING and token.string.startswith('"""')
        is_comment = is_doc or token.type == tokenize.COMMENT
        (comments if is_comment else code).append(token.string)
    return " ".join(code), comments


def parted(path):
    """The code of a source, and its comments."""
    text = text_of(path)
    if path.suffix == ".py" or text.startswith("#!/usr/bin/env python3"):
        return of_python(text)
    if path.suffix == ".antt":
        code = " ".join(DECLARED.findall(OF_DEFINITIONS.sub(" ", text)))
        return code, OF_DEFINITIONS.findall(text)
    if path.suffix in SHELL:
        return LIKE_SHELL.sub("", text), LIKE_SHELL.findall(text)
    comments = [it for it in LIKE_C.findall(text) if it[0] != '"']
    return LIKE_C.sub(lambda it: it[0] if it[0][0] == '"' else " ", text), comments


class Sources:
    """The names and paths that there are, and the comments of each source."""

    def __init__(self):
        self.names, self.paths, self.comments = set(OUTSIDE), set(OUTSIDE), {}
        for path in files():
            parts = short(path).split("/")
            self.paths |= {"/".join(parts[at:]) for at in range(len(parts))}
            # as the table of THEOREM has them
            self.paths |= {"/".join(it) for it in DEFINITIONS.findall(short(path))}
            self.names |= {path.stem, path.name}
            if path.is_file() and path.suffix not in NO_SOURCES:
                code, comments = parted(path)
                self.names |= {*WORD.findall(code), *re.findall(r"\w+", code)}
                self.comments[path] = FRONT.sub("", "\n".join(comments))

    def has(self, word):
        if word in self.names or VALUE.fullmatch(word):
            return True
        if word.endswith("-"):
            return any(name.startswith(word) for name in self.names)
        return NUMBERED.sub("", word) in self.names


def missing_names(text, sources):
    """The words in backticks that the sources don't have."""
    for span in SPAN.findall(text):
        for word in WORD.findall(BYTE.sub(" ", span)):
            if not sources.has(word):
                yield word


def missing_paths(text, paths):
    for span in SPAN.findall(text):
        if PATH.fullmatch(span) and not ANY.search(span) and span.rstrip("/") not in paths:
            yield span


def paths_of_crates(text, crate):
    """The paths within a crate that a text names, from the top."""
    for path, named in IN_CRATE.findall(text):
        if not ANY.search(path):
            yield f"crates/{named or crate}/{path}"


def check_names(checks, name, text, sources):
    missing = sorted({*missing_names(re.sub(FENCED, "", text), sources)})
    checks.expect(f"names of {name} that don't exist", [], missing)


def check_paths(checks, name, text, sources):
    missing = sorted({*missing_paths(re.sub(FENCED, "", text), sources.paths)})
    checks.expect(f"paths of {name} that don't exist", [], missing)


def check(checks, _built):
    sources = Sources()
    for page in PAGES:
        # CHANGELOG has names of earlier versions
        if page.name != "CHANGELOG.md":
            check_names(checks, short(page), text_of(page), sources)
        check_paths(checks, short(page), text_of(page), sources)
    for path in (HERE / "help.txt", WORDS):
        check_names(checks, short(path), text_of(path), sources)
    for path, text in sources.comments.items():
        name = f"the comments of {short(path)}"
        check_names(checks, name, text, sources)
        check_paths(checks, name, text, sources)
    texts = {"chan_walk": text_of(ROOT / "docs/PROOF.md")}
    for path, text in sources.comments.items():
        top, _, rest = short(path).partition("/")
        crate = rest.partition("/")[0] if top == "crates" else ""
        texts[crate] = texts.get(crate, "") + text if crate else ""
    for crate, text in texts.items():
        missing = [it for it in paths_of_crates(text, crate) if it not in sources.paths]
        checks.expect(f"paths of {crate} that don't exist", [], missing)
