"""What names mean, in the files of specs/ and in the Coq text made from them, for coq_written.

A meaning is a tuple: ('definition', crate, file, name), ('constructor', crate, file, name),
('type', crate, name) and ('variant', crate, type, name) of the code, ('number', n) for a constant
and for zero, or ('library', name). Nothing here is the translator's but its Source, which splits a
file into its items.
"""

import re
from functools import cache

from building import ROOT
from coq_text import Inductive, Record, Unread
from translate import Source, path_of

# what the kit's library calls what Coq or Prelude.v calls otherwise, and what both call the same
LIBRARY = {
    **{"nat": "ℕ", "S": "suc", "bool": "Bool", "negb": "not", "list": "List", "unit": "Unit"},
    **{"firstn": "take", "skipn": "drop", "rev": "reverse", "Nat.min": "min", "Empty": "⊥"},
    **{"Nat.leb": "nat_le", "Nat.ltb": "nat_lt", "Nat.eqb": "nat_eq", "Nat.land": "bit_and"},
    **{"existsb": "list_any", "forallb": "list_all", "option": "Option"},
}
SAME = """true false [] map length Some None option_map option_or is_some is_none slice_index tt
 range_with_len codes AllByRecursion IsStrictlyIncreasing All AllWithin HoldsAt IsSome
 flat_map MatchBool on eq_of_both pointwise bytes_high_first to_be_bytes w32
 encode_upper decimal""".split()
LIBRARY |= {name: name for name in SAME}
# constructors of Coq with a name that a definition's variable could have, beside those above
OF_COQ = {"O", "I", "inl", "inr", "pair", "nil", "cons", "left", "right", "existT", "String"}

DECLARED = r"(\w+)\.specs\.declared\.(\w+)"
USE = re.compile(r"(?m)^(?:ghost )?use Rattle\.([\w.]+)\.\{([^{}]*)\}")
ALIAS = re.compile(r"(?m)^use Rattle\.([\w.]+)\.TheVariants as (\w+)")


def in_coq(name):
    return name.replace("-", "_")


class File:
    """A file of definitions: its items by the translator, and what its other names mean."""

    def __init__(self, files, crate, name):
        text = (files.root / path_of(crate, name)).read_text()
        self.files, self.crate, self.name = files, crate, name
        self.source = Source(files.root, crate, name, (0,))
        self.taken = {}
        for path, names in USE.findall(text):
            self.taken |= {it.strip(): path for it in names.split(",")}
        self.aliases = {alias: path for path, alias in ALIAS.findall(text)}

    def constructors(self):
        """The constructors of its data, each with the name of its data."""
        return {
            found: item.name
            for item in self.source.items.values()
            if item.kind == "pub data"
            for found in re.findall(r"(?m)^  (\S+) :", item.text)
        }

    def own(self, name):
        if name in self.source.items:
            return ("definition", self.crate, self.name, name)
        if name in self.constructors():
            return ("constructor", self.crate, self.name, name)
        return None

    def meaning(self, name):
        """What a name means that nothing binds."""
        path = self.taken.get(name)
        if path is None:
            return self.own(name) or (("library", name) if name in ("Unit", "⊥", "tt") else None)
        if path.startswith("std.specs.") or path == "hex.specs.Hex":
            return ("number", 0) if name == "zero" else ("library", name)
        if found := re.fullmatch(rf"{DECLARED}\.TheConstants", path):
            return ("number", self.files.constant(*found.groups(), name))
        if found := re.fullmatch(rf"{DECLARED}\.(\w+)\.TheVariants", path):
            return ("variant", found[1], found[3], name)
        if found := re.fullmatch(rf"{DECLARED}\.(\w+)", path):
            return ("type", found[1], found[3]) if found[3] == name else None
        if found := re.fullmatch(r"(\w+)\.specs\.(\w+)", path):
            return self.files.file(*found.groups()).own(name)
        return None

    def variant(self, alias, name):
        """What alias.name means, if `use` has the alias for the variants of a type."""
        found = re.fullmatch(rf"{DECLARED}\.(\w+)", self.aliases.get(alias, ""))
        return ("variant", found[1], found[3], name) if found else None

    def is_constructor(self, name):
        found = self.meaning(name)
        if found and found[0] == "library":
            return name in ("true", "false", "[]", "Some", "None", "suc", "tt")
        return bool(found) and found[0] in ("constructor", "variant", "number")


class Files:
    """The files of definitions of a checkout."""

    def __init__(self, root=ROOT):
        self.root = root

    @cache
    def file(self, crate, name):
        return File(self, crate, name)

    def constant(self, crate, module, name):
        text = (self.root / f"crates/{crate}/src/{module}.rt").read_text()
        [number] = re.findall(rf"(?m)^pub const {name}: \w+ = (\w+);", text)
        return int(number.replace("_", ""), 0)


class Names:
    """What Coq's names mean, as far as the text is read."""

    def __init__(self, files):
        self.files, self.file, self.crate = files, None, None
        self.means = {name: ("library", kit) for name, kit in LIBRARY.items()}
        self.projections, self.makers = {}, {}

    def go_to(self, heading):
        """Goes to the file or the types that a heading names."""
        path = r"/specs/(\w+)\.antt|/src/(laws)\.rt|, of the code"
        found = re.fullmatch(rf"\(\* ---- (\w+)(?:{path}) \*\)", heading)
        if found:
            self.crate, file = found[1], found[2] or found[3]
            self.file = self.files.file(self.crate, file) if file else None

    def add(self, name, meaning):
        if name in self.means or name in OF_COQ:
            raise Unread(f"{name} is the name of {self.means.get(name, 'what Coq has')} too")
        self.means[name] = meaning

    def item(self, name):
        """The definition of the file, or the type of the code, that an item of the text is."""
        if self.file is None:
            return ("type", self.crate, name)
        plain = [it for it in self.file.source.items if in_coq(it) == name]
        longer = [it for it in self.file.source.items if f"{self.file.name}_{in_coq(it)}" == name]
        if len(plain + longer) != 1:
            raise Unread(f"{name} is none, or several, of {self.file.crate}/{self.file.name}")
        return ("definition", self.file.crate, self.file.name, (plain + longer)[0])

    def add_parts(self, item, meaning):
        """Adds the maker and the fields of a record, and the constructors of data."""
        if isinstance(item, Record):
            fields = [field.removeprefix(f"{item.name}_") for field, _ in item.fields]
            if [f"{item.name}_{it}" for it in fields] != [it for it, _ in item.fields]:
                raise Unread(f"the fields of {item.name}")
            self.add(item.maker, ("maker", item.name))
            self.makers[item.maker] = fields
            for field, name in zip(fields, item.fields):
                self.add(name[0], ("field", item.name, field))
                self.projections[name[0]] = (field, len(item.params))
        elif isinstance(item, Inductive):
            for name, _, kind in item.constructors:
                self.add(name, self.part(name, meaning, kind is not None))

    def part(self, name, meaning, is_data):
        """What a constructor means: its name may begin with that of its type."""
        if not is_data:
            return ("variant", *meaning[1:], name.removeprefix(f"{meaning[2]}_"))
        own = [it for it, data in self.file.constructors().items() if data == meaning[3]]
        [found] = [it for it in own if name in (in_coq(it), f"{meaning[3]}_{in_coq(it)}")]
        return ("constructor", *meaning[1:3], found)
