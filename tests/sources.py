"""The functions and constants of the crates, with the names of their clauses, and what they name.

Rattle is written as Rust is, with clauses between a function's result and its body. All is told by
words and braces; comments, texts and characters are passed over, and so are modules of tests.
"""

import re
from functools import partial
from typing import NamedTuple

from building import ROOT

CRATES = ROOT / "crates"

PASSED_OVER = re.compile(r"""//[^\n]*|"(?:\\.|[^"\\])*"|'(?:\\[^']*|[^\\'\n])'""", re.S)
MODULE = re.compile(r"(?m)^(#\[cfg\(test\)\]\n)?mod (\w+);")
EXPORTED = re.compile(r"pub use crate::[\w:]+::(?:\{([^}]*)\}|(\w+));")
IMPL = re.compile(r"(?m)^impl\b(?: *<(?:[^<>]|<[^<>]*>)*>)? ([^{;]*)\{")
FUNCTION = re.compile(r"(?m)^ *(pub |pub\(crate\) )?(?:extern +)?fn (\w+)")
DECLARED = re.compile(r"(?m)^(?:pub |pub\(crate\) )?(?:struct|enum) (\w+)")
CONSTANT = re.compile(r"(?m)^(?:pub |pub\(crate\) )?(?:const|static) (\w+):")
CLAUSE = re.compile(r"\b(?:requires|(ensures))(?: (\w+))?\s*$")
# a name, with the type or module, or the dot, before it, and the parenthesis behind it
NAMED = re.compile(r"(?:(\w+)::)?((?<!\.)\.)?\b(\w+)\b(\()?")


class Item(NamedTuple):
    """A function or a constant."""

    # the file in the crate's folder, and the module's name
    file: str
    module: str
    # the type that a function belongs to, and the trait that asks for it there; or nothing
    kind: str
    trait: str
    name: str
    is_public: bool
    # the names of its clauses, empty for one without; None for a constant
    clauses: tuple | None
    # where it stands in the file, and what stands there
    start: int
    end: int
    text: str

    def short(self):
        return f"{self.kind}{self.trait}::{self.name}" if self.kind else self.name

    def path(self):
        """Its name as `rt check` has it, but for the crate."""
        return f"{self.module}::{self.short()}" if self.module else self.short()

    def is_for_c(self):
        """Whether it is a function that C calls."""
        return bool(re.match(r" *pub extern +fn\b", self.text))

    def holds(self, file, text, some):
        """Whether some text stands in it, where its file has that text."""
        return self.file == file and some in text[self.start : self.end]

    def is_meant(self, before, dot, called):
        """Whether it may be meant by its name. What a trait asks for needn't be named to be called,
        so of that it isn't told."""
        if self.trait or bool(called) != (self.clauses is not None):
            return False
        if self.kind:
            return bool(dot) or before in (self.kind, "Self")
        return not dot and before in ("", self.module.rpartition("::")[2])


def read(path):
    """The text of a source, with spaces in place of what is passed over."""
    return PASSED_OVER.sub(lambda found: re.sub(r"[^\n]", " ", found[0]), path.read_text())


def closed(text, at):
    """Where what the brace at this point opens has ended."""
    depth = 0
    for found in re.compile(r"[{}]").finditer(text, at):
        depth += 1 if found[0] == "{" else -1
        if depth == 0:
            return found.end()
    raise ValueError("a brace isn't closed")


def contract(text, at):
    """The names of a function's clauses, and where its body ends. Its own name ends here."""
    clauses = []
    while True:
        opened = text.index("{", at)
        word, end = CLAUSE.search(text, at, opened), closed(text, opened)
        if not word:
            return tuple(clauses), end
        if word[1]:
            clauses.append(word[2] or "")
        at = end


def implemented(header):
    """The type of an impl, and the trait with the type that it takes, as `rt check` joins them."""
    trait, _, kind = re.sub(r"<'\w+>", "", header).rpartition(" for ")
    words = re.search(r"(\w+)(?:<(\w+))?", trait.rpartition("::")[2])
    return re.match(r"\w+", kind)[0], "".join(filter(None, words.groups())) if words else ""


def top(crate):
    library = CRATES / crate / "src/lib.rt"
    return library if library.is_file() else library.with_name("main.rt")


def modules(crate):
    """Each module of a crate with its file, in the order in which they are named."""

    def beneath(name, file, folder):
        yield name, file
        for is_test, part in MODULE.findall(file.read_text()):
            if not is_test:
                path = f"{name}::{part}" if name else part
                yield from beneath(path, folder / f"{part}.rt", folder / part)

    return beneath("", top(crate), top(crate).parent)


def exported(crate):
    """The names that lib.rt makes public; a program has none."""
    listed = EXPORTED.findall(top(crate).read_text())
    return {name for several, one in listed for name in re.findall(r"\w+", several or one)}


def items(crate):
    """All functions and constants, as they stand. In a program those are public that say so. A
    type's own functions are of the module that declares the type, wherever they stand."""
    public, is_program = exported(crate), top(crate).name == "main.rt"
    texts = {module: read(path) for module, path in modules(crate)}
    homes = {name: module for module, text in texts.items() for name in DECLARED.findall(text)}
    for module, path in modules(crate):
        text, item = texts[module], partial(Item, str(path.relative_to(CRATES / crate)))
        impls = [(it.start(), closed(text, it.end() - 1), it[1]) for it in IMPL.finditer(text)]
        for found in FUNCTION.finditer(text):
            around = [header for start, end, header in impls if start < found.start() < end]
            kind, trait = implemented(around[0]) if around else ("", "")
            is_public = found[1] == "pub " and (is_program or (kind or found[2]) in public)
            clauses, end = contract(text, found.end())
            whole = (found.start(), end, text[found.start() : end])
            home = module if trait else homes.get(kind, module)
            yield item(home, kind, trait, found[2], is_public, clauses, *whole)
        for found in CONSTANT.finditer(text):
            end = text.index(";\n", found.end()) + 1
            whole = (found.start(), end, text[found.start() : end])
            yield item(module, "", "", found[1], False, None, *whole)


def uses(every):
    """For each item of a crate those that it names; told by the names, so that a function of
    another type with the same name counts too."""
    by_name = {}
    for item in every:
        by_name.setdefault(item.name, []).append(item)

    def named(item):
        for before, dot, name, called in NAMED.findall(item.text):
            meant = [it for it in by_name.get(name, ()) if it.is_meant(before, dot, called)]
            yield from [it for it in meant if it.module == item.module] or meant

    return {item: set(named(item)) - {item} for item in every}
