#!/usr/bin/env python3
"""Each mutant fits the code, each public contract has one, and docs/MACHINE.md names each law.

    tests/run proof_table   checks that
    make table              prints the functions with their clauses and mutants

The tables are made from the sources of the crates and from the mutants in must-fail/ and
tests/mutants/. A mutant fits if each of its old texts occurs once in its file, and if it changes
some function, constant or definition. A function's mutant may also be one of a function that it
calls. What C calls is called by nothing else, so each clause of its contract has a mutant that
names it, by a goal or by itself. The table of laws in docs/MACHINE.md names only functions that exist, among them all of
laws.rt. No file of mutants is left out: each belongs to a crate and names what has to refuse it.

No two files of specs/ define the same name, and no two public types have one name. No two modules
of a crate import each other, directly or through others. No line is wider than a page, but for
imports of proofs, and these name each module once. No source has a table of hexadecimal digits or
reads or writes them one by one, which is the work of `hex`.
"""

import re
import sys
from collections import Counter

sys.dont_write_bytecode = True

from building import ROOT, crates, short  # noqa: E402
from closure import Sources  # noqa: E402
from mutants import MUTANTS, clauses_of, paths_of, read_mutant  # noqa: E402
from running import text_of  # noqa: E402
from sources import CRATES, items, uses  # noqa: E402

LAWS = ROOT / "docs/MACHINE.md"

TYPE = re.compile(r"(?m)^pub (?:struct|enum|trait) (\w+)")

# what an import of a proof brings in, up to the names
IMPORT = re.compile(r"(?m)^((?:unfoldable )?(?:pub )?use \S+)\.\{")

# how many columns a line may have
WIDEST = {"src": 100, "specs": 100, "proofs": 160}

# how digits would be read or written without `hex`
OWN_DIGITS = re.compile(
    r"0123456789[Aa]|\b7, 8, 9,|\b(?:to|from)_digit\b|b'[Ff]'|<< 4\b|>> 4\b|\* 16 \+"
)

# over any type there is no other value that it could give
HAS_NONE = "watched::Watched::into_inner"


def shown(mutant):
    name = f"`{mutant.path.stem}`"
    return f"**{name}**" if mutant.path.parent.name == "must-fail" else name


def definitions(mutant):
    """The files of definitions that it changes."""
    return sorted({file for file, _, _ in mutant.changes if file.startswith("specs/")})


class Crate:
    """The functions and constants of a crate, and its mutants."""

    def __init__(self, name):
        self.name = name
        self.folder = CRATES / name
        self.items = list(items(name))
        self.mutants = [read_mutant(path) for path in paths_of(name)]
        changed = [(mutant, self.changed(mutant)) for mutant in self.mutants]
        self.bodies = {it: [one for one, some in changed if it in some] for it in self.items}

    def text(self, file):
        path = self.folder / file
        return text_of(path) if path.is_file() else ""

    def changed(self, mutant):
        """The items that it changes; none if it changes definitions with them."""
        if definitions(mutant):
            return []
        function = mutant.function if mutant.is_body else ""
        named = [item for item in self.items if function in ("", item.path())]
        olds = [(file, self.text(file), old) for file, old, _ in mutant.changes]
        return [item for item in named if any(item.holds(*old) for old in olds)]

    def misfits(self, mutant):
        """The old texts that aren't in their files exactly once, after the changes before."""
        texts = {}
        for file, old, new in mutant.changes:
            text = texts[file] if file in texts else self.text(file)
            if text.count(old) != 1:
                yield f"{file}: {old}"
            texts[file] = text.replace(old, new)

    def public(self):
        return [item for item in self.items if item.is_public]

    def come_to(self):
        """For each public function all that it comes to by names, up to other public ones."""
        named = uses(self.items)
        for item in self.public():
            found, new = set(), {item}
            while new:
                new = {it for one in new for it in named[one] if not it.is_public} - found
                found |= new
            yield item, found

    def tables(self):
        come_to, functions, others, wrong = dict(self.come_to()), [], [], []
        for item in self.items:
            mutants = ", ".join(map(shown, self.bodies[item])) or "–"
            if item.is_public:
                clauses = [f"`{clause}`" if clause else "–" for clause in item.clauses]
                functions.append((f"`{item.path()}`", ", ".join(clauses), mutants))
            elif self.bodies[item]:
                public = [f"`{it.short()}`" for it, found in come_to.items() if item in found]
                others.append((f"`{item.path()}`", ", ".join(public) or "–", mutants))
        for mutant in self.mutants:
            if definitions(mutant):
                files = ", ".join(f"`{file}`" for file in definitions(mutant))
                wrong.append((shown(mutant), files))
        yield f"### `{self.name}`\n\n"
        yield table(("function", "clauses", "mutants"), functions)
        yield table(("reached from these", "from", "mutants"), others)
        yield table(("mutant of a definition", "file"), wrong)


def table(heads, rows):
    lines = [f"| {' | '.join(cells)} |\n" for cells in (heads, *rows)]
    lines.insert(1, f"|{'---|' * len(heads)}\n")
    return "".join([*lines, "\n"]) if rows else ""


def with_any():
    """The crates that have a public function or a mutant, lowest first."""
    return [crate for crate in map(Crate, crates()) if crate.public() or crate.mutants]


def tables(some):
    return "".join(part for crate in some for part in crate.tables())


def check_mutants(checks, crate):
    for mutant in crate.mutants:
        name, misfits = short(mutant.path), list(crate.misfits(mutant))
        checks.expect_that(f"{name} fits", mutant.changes and not misfits, misfits)
        is_change = crate.changed(mutant) or definitions(mutant)
        checks.expect_that(f"{name} changes something", is_change, mutant)
        names = {item.path() for item in crate.items}
        there = mutant.function in names
        checks.expect_that(f"{name} names what has to refuse it", there, mutant.function)


def check_functions(checks, crate):
    """Each that promises something has a mutant, of its own or of a function that it comes to."""
    for item, found in crate.come_to():
        if not item.clauses:
            continue
        mutants = [mutant for one in (item, *found) for mutant in crate.bodies[one]]
        name = f"{crate.name}::{item.path()} has a mutant"
        checks.expect_that(name, mutants or item.path() == HAS_NONE, mutants)


def check_clauses(checks, crate):
    """Each clause of a function that C calls is one that some mutant of the function is about."""
    for item in crate.items:
        if not item.is_for_c():
            continue
        own = [mutant for mutant in crate.mutants if mutant.function == item.path()]
        named = {mutant.clause for mutant in own}
        named |= {clause for mutant in own for clause in clauses_of(mutant.goals)}
        clauses = {clause for clause in item.clauses if clause}
        checks.expect(f"{item.path()}, clauses without a mutant", set(), clauses - named)


def check_laws(checks, some):
    section = text_of(LAWS).partition("\n## The laws\n")[2].partition("\n## ")[0]
    cells = re.findall(r"(?m)^\| (`[^|]*) \|", section)
    names = {name for cell in cells for name in re.findall(r"`(\w+)`", cell)}
    there = {item.name for crate in some for item in crate.items}
    laws = {item.name for crate in some for item in crate.items if item.file == "src/laws.rt"}
    checks.expect_that("there are laws", laws, laws)
    for name in sorted(names | laws):
        checks.expect_that(f"the law {name} is there", name in there, name)
        checks.expect_that(f"the page names the law {name}", name in names, name)


def several(names):
    return {name for name, count in Counter(names).items() if count > 1}


def in_cycles(crate):
    """The modules of a crate that come to themselves by what they import."""
    paths = (CRATES / crate / "src").rglob("*.rt")
    imports = {path.stem: {*re.findall(r"\bcrate::(\w+)::", text_of(path))} for path in paths}
    come_to = {module: {*named} for module, named in imports.items()}
    for through in imports:
        for named in come_to.values():
            named |= come_to[through] if through in named else set()
    return {module for module, named in come_to.items() if module in named - {"lib", "main"}}


def check_names(checks):
    definitions = {*Sources().at.values()}
    checks.expect("names of several definitions", set(), several(one.name for one in definitions))
    sources = [path for crate in crates() for path in (CRATES / crate / "src").rglob("*.rt")]
    types = [name for path in sources for name in TYPE.findall(text_of(path))]
    checks.expect("names of several public types", set(), several(types))
    for crate in crates():
        checks.expect(f"modules of {crate} that import each other", set(), in_cycles(crate))


def too_wide(folder, most):
    """The lines of a folder with more characters; imports of proofs don't count."""
    for path in sorted(path for path in folder.rglob("*") if path.is_file()):
        for number, line in enumerate(text_of(path).splitlines(), 1):
            if len(line) > most and not (most > 100 and IMPORT.match(line)):
                yield f"{short(path)}:{number}"


def check_widths(checks):
    for crate in crates():
        for name, most in WIDEST.items():
            wide = [*too_wide(CRATES / crate / name, most)]
            checks.expect(f"lines of {crate}/{name} of over {most} columns", [], wide)


def check_digits(checks):
    for path in sorted(CRATES.glob("*/src/**/*.rt")):
        code = re.sub(r"//.*", "", text_of(path))
        checks.expect(f"own digits of {short(path)}", [], OWN_DIGITS.findall(code))


def check_imports(checks):
    for crate in crates():
        proofs = [*(CRATES / crate / "proofs").rglob("*.antt")]
        twice = {short(path): several(IMPORT.findall(text_of(path))) for path in proofs}
        found = {path: modules for path, modules in twice.items() if modules}
        checks.expect(f"modules that a proof of {crate} imports by two lines", {}, found)


def check(checks, _built):
    some = with_any()
    check_names(checks)
    check_widths(checks)
    check_digits(checks)
    check_imports(checks)
    tried = [mutant.path for crate in some for mutant in crate.mutants]
    left_out = {*MUTANTS.rglob("*.*"), *CRATES.glob("*/must-fail/*")} - {*tried}
    checks.expect("files of mutants that no crate tries", set(), left_out)
    for crate in some:
        check_mutants(checks, crate)
        check_functions(checks, crate)
        check_clauses(checks, crate)
    check_laws(checks, some)
    checks.expect_that("make table", tables(some), "nothing to print")


if __name__ == "__main__":
    print(tables(with_any()), end="")
