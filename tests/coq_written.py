"""What the translator into Coq writes, read back: each definition means what its file says.

The test coq shows that the translator reads the definitions as the kit does. Here a reader of its
own, `coq_text`, reads what is written by Coq's levels. Each definition is compared with what was
read: a variable by what binds it, every other name by what its file takes it from
(`coq_meanings`), a field by its record, a clause by its patterns (`coq_terms`), and structs, enums
and constants by the sources in Rust (`coq_types`). ALTERED has changes of the text: each has to be
noticed, at its definition. Forms that Coq could read differently are written otherwise, or refused
with file and line (`coq_forms`), and no word of a file is lost when it is split into definitions.
Coq itself isn't needed.
"""

import re
import sys
import tempfile
from functools import cache
from pathlib import Path

import coq_forms
from building import ROOT
from coq_meanings import Files, Names
from coq_reading import lost, lost_laws
from coq_terms import Clauses, Differs
from coq_text import Definition, Inductive, Items, Record, Unread
from coq_types import Types
from running import text_of

HERE = ROOT / "coq"
sys.path.insert(0, str(HERE))

import translate  # noqa: E402

# the definition, a part of its text, and another text for that
ALTERED = [
    # signs
    ("has_data_in", "Fields_count c <=? n", "Fields_count c <? n"),
    ("has_count", "0 <? Fields_count c", "0 <=? Fields_count c"),
    ("IsByteOf", "Area_start a <= b", "Area_start a < b"),
    ("is_invalid", "c mod 16 =? 0", "c * 16 =? 0"),
    ("inhibits_too", "class) || ", "class) && "),
    ("table", " ++ write_commands", " ++ search_commands"),
    ("AreExtents", "extents × All", "extents ⊎ All"),
    ("IsOfAnother", "Job_start j ≢ ", "Job_start j = "),
    ("StrictnessIsByClass", "true ↔ is_mask", "true -> is_mask"),
    ("RememberedIsFit", "IsRemembered j p -> Keeps", "IsRemembered j p × Keeps"),
    # how strong signs are
    (
        "seek_faults",
        "(begins_seek p c && is_refused j x) || (begins_recalibrate p c && negb (",
        "begins_seek p c && (is_refused j x || begins_recalibrate p c) && (negb (",
    ),
    ("cylinder_of", "2 * 256 + slice_index x 3", "2 * (256 + slice_index x 3)"),
    ("lies_in", "(Area_start x <=? b) && (b <? ", "Area_start x <=? (b && b <? "),
    ("IsSameIn", "P b -> byte t b = byte s b", "(P b -> byte t b) = byte s b"),
    ("IsRunAmong", "(Steps m n ⊎ Waits m n × ", "((Steps m n ⊎ Waits m n) × "),
    ("cylinder_digits", "(n / 10) mod 10", "n / (10 mod 10)"),
    ("cylinder_digits", "48 + n / 100", "(48 + n) / 100"),
    # numbers and texts
    ("chains_data", "128", "64"),
    ("heads_of", "D2314 => 20", "D2314 => 19"),
    ("IsExtent", "snd e <= 202", "snd e <= 203"),
    ("control_commands", '"seek"', '"sense"'),
    ("cylinder_digits", "n / 100", "n / 10"),
    ("cylinder_digits", "n / 100", "n * 100"),
    ("HasForm", "2 ^ 28", "2 * 28"),
    ("HasForm", "2 ^ 28", "28 ^ 2"),
    # parts that are left out, or stand elsewhere
    ("is_allowed", "has_no_bin x && ", ""),
    ("IsLeastOf", "P n × ", ""),
    (
        "track_of",
        "then Some (mkTrack (cylinder_of x) (head_of x)) else None",
        "then None else Some (mkTrack (cylinder_of x) (head_of x))",
    ),
    ("ccw", "(byte s (a + 4)) (byte s (a + 5))", "(byte s (a + 5)) (byte s (a + 4))"),
    ("data_of", "(Fields_address c) (Fields_count c)", "(Fields_count c) (Fields_address c)"),
    ("Area", "Area_start : nat;\n  Area_len : nat", "Area_len : nat;\n  Area_start : nat"),
    ("Area", "Area_len : nat", "Area_len : bool"),
    ("Entry", "  | ChainIn\n  | ChainOut", "  | ChainOut\n  | ChainIn"),
    ("inhibits_write", "WriteUpdate => bits =? 64", "WriteUpdate => false"),
    ("inhibits_seek", "| Plain => ", "| WriteHome => "),
    ("IsSupervised", "  | [] => Empty\n", ""),
    ("IsNotGranted", "  | _ => Empty\n  end", "  | _ => unit\n  end"),
    ("SupervisionGoesOn", " ⊎ IsWriting v w", ""),
    ("IsAllowed", "_free : (Situation_at (Supervision_situation v)) i = None", "_free : unit"),
    ("IsAllowed", "  IsAllowed_program : Remembered;\n", ""),
    # names
    ("is_transfer", "Fields_command c", "Fields_flags c"),
    ("covered", "covered areas (S a) n", "covered areas (S n) a"),
    ("IsFirstChanged", "(b : nat)", "(s : nat)"),
    ("is_at_least", "forallb (inhibits_too", "existsb (inhibits_too"),
    ("is_known", "is_some", "is_none"),
    ("first_reason", "Some (snd t)", "Some (fst t)"),
    ("AreFlightsWell", "forall (i : nat) (f : Flight)", "forall {i : nat} (f : Flight)"),
    ("IsSupervised", " as tail1)) => IsSupervised tail1", " as tail1)) => IsSupervised before"),
    ("HasChanged", "| (Changed b) =>", "| (Cylinder b) =>"),
    ("may_stand", "| (Some (storage n)), Item_end", "| (Some (storage n)), (start n)"),
    ("AppliesBehindEnd", "FoundLine_part (b :: rest)", "FoundLine_part rest"),
    ("text", "flat_map", "map"),
    ("same_versions", "on version_number", "on limit_of"),
    ("OneTextTexts", "Spells u d -> t = u", "Spells u d -> u = t"),
    ("texts_of_failure", '"too many places\n"', '"too many places"'),
    ("line_over", '"deck line "', '"deck "'),
    ("status_of", "| Denied => 1", "| Denied => 0"),
]
# parts of what is written for coq_forms, and what Coq would take for something else
CAUGHT = [
    ("HasSeven", "= 7 :: l", "= tail1"),
    ("HasSeven", "b :: l = 7", "tail1 = 7"),
    ("with_nines", "fun b => b :: l", "fun b => tail1"),
    ("is_without", "| O_, None => true", "| O, None => true"),
    ("is_any", "(Some I_)", "(Some I)"),
    ("first", "(x2_ : nat) (x2 : nat)", "(x2 : nat) (x2 : nat)"),
]
class Text:
    """The items of a text, which are compared in their order."""

    def __init__(self, items, root=ROOT):
        self.items = items
        self.names = Names(Files(root))
        self.clauses, self.types = Clauses(self.names), Types(root, self.names.means)
        self.found = []

    def differences(self, only=None):
        """A line for each item, or for the item of a name, that doesn't mean what its file says."""
        for item in self.items:
            if isinstance(item, str):
                self.names.go_to(item)
                continue
            try:
                self.compare(item, only in (None, item.name))
            except (Differs, Unread) as why:
                yield f"{item.name}: {why}"

    def compare(self, item, is_asked):
        meaning = self.names.item(item.name)
        self.found.append(meaning)
        is_early = isinstance(item, Inductive) or getattr(item, "is_recursive", False)
        if is_early:
            self.names.add(item.name, meaning)
        try:
            if is_asked:
                self.compare_with_source(item, meaning)
        finally:
            if not is_early:
                self.names.add(item.name, meaning)
            self.names.add_parts(item, meaning)

    def compare_with_source(self, item, meaning):
        if meaning[0] != "type":
            self.compare_definition(item, meaning)
        elif not self.types.is_declared(item, *meaning[1:]):
            raise Differs(item)

    def compare_definition(self, item, meaning):
        read = translate.read_item(self.names.file.source.items[meaning[3]])
        kind, compare = {
            Definition: (translate.Abbrev, self.clauses.same_abbrev),
            Record: (translate.Record, self.clauses.same_rows),
            Inductive: (translate.Data, self.clauses.same_data),
        }[type(item)]
        if not isinstance(read, kind):
            raise Differs(f"{item.name} is written as {type(item).__name__}")
        compare(read, item)


@cache
def items_of(text):
    return [*Items(text).items()]


def differences(text, root=ROOT):
    """A line for each item of the text that doesn't mean what its file says."""
    try:
        return [*Text(items_of(text), root).differences()]
    except Unread as why:
        return [f"unread: {why}"]


def noticed(text, row, root):
    """What is said of a text with a change of one item, or None if the item can't be changed so."""
    name, old, new = row
    begins = re.search(rf"(?m)^(?:Definition|Fixpoint|Record|Inductive) {name}\b", text)
    item = text[begins.start() :].partition("\n\n")[0] if begins else ""
    if old not in item:
        return None
    try:
        [other] = Items(item.replace(old, new, 1)).items()
        items = [other if getattr(it, "name", None) == name else it for it in items_of(text)]
    except Unread:
        return None
    return [*Text(items, root).differences(only=name)]


def check_altered(checks, text, rows, root):
    for row in rows:
        said = noticed(text, row, root)
        checks.expect_that(f"{row[0]}: {row[2]!r} for {row[1]!r} is noticed", bool(said), said)


def check_forms(checks):
    with tempfile.TemporaryDirectory() as room:
        root = Path(room)
        coq_forms.write_crate(root, coq_forms.FORMS, {})
        texts = {name: coq_forms.translated(root, [name]) for name in coq_forms.NAMES}
        for name, text in texts.items():
            checks.expect(f"the made-up form {name}, as written", [], differences(text, root))
        for row in CAUGHT:
            check_altered(checks, texts[row[0]], [row], root)
        names, text, _ = coq_forms.definitions_of_pairs()
        coq_forms.write_crate(root, text, {})
        text = coq_forms.translated(root, names)
        checks.expect("pairs of operators, as written", [], differences(text, root))
    for name, (sources, text, wanted) in coq_forms.SOURCES.items():
        with tempfile.TemporaryDirectory() as room:
            root = Path(room)
            coq_forms.write_crate(root, text, sources)
            said = coq_forms.translated(root, ["bits_of"])
            if wanted is None:
                checks.expect(f"{name}, written otherwise", [], differences(said, root))
            else:
                at_line = re.match(r"crates/c/(specs/Forms\.antt:\d+|src): ", said)
                checks.expect_that(f"{name}, refused", at_line and wanted in said, said)


def check(checks, _built):
    names = text_of(HERE / "LAWS").split()
    text = translate.Translation(ROOT, names).text()
    whole = Text(items_of(text))
    checks.expect("definitions that are written otherwise", [], [*whole.differences()])
    tried = {*re.findall(r"match t with (\w+) => tt end;", text)}
    checks.expect("names of patterns, which Coq tries", whole.clauses.variables, tried)
    checks.expect("definitions that are written twice", len({*whole.found}), len(whole.found))
    found = {it[3] for it in whole.found if it[0] == "definition"}
    checks.expect("laws that aren't written", set(), {*names} - found)
    for crate, file in sorted({it[1:3] for it in whole.found if it[0] == "definition"}):
        source = whole.names.files.file(crate, file).source
        find = lost_laws if file == translate.LAWS else lost
        found = find(source, text_of(ROOT / translate.path_of(crate, file)))
        checks.expect(f"words of {crate}/{file} that are lost", None, found)
    check_altered(checks, text, ALTERED, ROOT)
    check_forms(checks)
