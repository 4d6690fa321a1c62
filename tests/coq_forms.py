"""Made-up crates in forms that kit and Coq could read differently, for coq_written and coq.

FORMS is translated, and VALUES has for each of its definitions what the kit makes of it, as a goal
of Coq. `pairs` puts each operator on each side of each other, and has what Coq has to read, without
operators. SOURCES has what a crate may hold beside its definitions, and why it is refused.
"""

import sys

from building import ROOT

sys.path.insert(0, str(ROOT / "coq"))

from translate import Refused, Translation  # noqa: E402

LIBRARY = """use Rattle.std.specs.Prelude.{◌≡◌, List, [], ◌∷◌, ℕ, zero, suc, Bool, true, false}
use Rattle.std.specs.Prelude.{Option, None, Some, length, ◌+◌, ◌*◌, ◌-◌, ◌%◌, ◌/◌, ◌^◌, ◌&&◌, ◌||◌, ◌++◌, map}
use Rattle.std.specs.Prelude.{if◌then◌else◌, nat_lt, codes, ◌==◌, ◌≢◌, ◌<◌, ◌≤◌, ◌⊎◌, ◌↔◌}
"""
FORMS = """
-- b is bound anew, and the list behind it is no longer what the pattern took apart
abbrev pub HasSeven : List ℕ → Type 0
HasSeven [] = ⊥
HasSeven (a ∷ []) = ⊥
HasSeven (a ∷ b ∷ l) = (b : ℕ) × ((b ∷ l) ≡ (7 ∷ l))

abbrev pub AreAllSevens : List ℕ → Type 0
AreAllSevens [] = ⊥
AreAllSevens (a ∷ []) = ⊥
AreAllSevens (a ∷ b ∷ l) = (b : ℕ) → ((b ∷ l) ≡ (7 ∷ l))

abbrev pub with_nines : List ℕ → List (List ℕ)
with_nines [] = []
with_nines (a ∷ []) = []
with_nines (a ∷ b ∷ l) = map (λ b. b ∷ l) (9 ∷ [])

-- O, I and pair are variables
abbrev pub is_without : ℕ → Option ℕ → Bool
is_without O None = true
is_without n o = false

abbrev pub is_any : Bool → Option ℕ → Bool
is_any true (Some I) = true
is_any pair o = pair

-- the second argument is matched, and the first is called as Coq calls that
abbrev pub first : ℕ → ℕ → ℕ
first x2 zero = x2
first x2 (suc n) = x2

abbrev pub same : List ℕ → List ℕ
same (tail1 ∷ b ∷ l) = tail1 ∷ (b ∷ l)
same xs = xs

abbrev pub HasEqual : Type 0
HasEqual = (n : ℕ) (e : n ≡ 1) → (m : ℕ) × (e : m ≡ n) × (n ≡ m)

-- words of Coq are variables
abbrev pub sum_of : ℕ → ℕ → ℕ → ℕ
sum_of mod forall match = mod + forall * match - match % 2 + 1

abbrev pub is_between : Bool → Bool → Bool → Bool
is_between fst nat S = if fst && nat || S then nat_lt 1 2 && S else fst || nat && S
"""
NAMES = """HasSeven AreAllSevens with_nines is_without is_any first same HasEqual sum_of
 is_between""".split()
VALUES = [
    "Goal HasSeven [1; 2]. exact (existT _ 7 eq_refl). Qed.",
    "Goal AreAllSevens [1; 7] -> Empty. intros H. discriminate (H 8). Qed.",
    "Goal with_nines [1; 2; 3] = [[9; 3]]. reflexivity. Qed.",
    "Goal is_without 5 None = true. reflexivity. Qed.",
    "Goal is_without 5 (Some 1) = false. reflexivity. Qed.",
    "Goal is_any true (Some 1) = true. reflexivity. Qed.",
    "Goal is_any false (Some 1) = false. reflexivity. Qed.",
    "Goal first 3 0 = 3. reflexivity. Qed.",
    "Goal first 3 9 = 3. reflexivity. Qed.",
    "Goal same [1; 2; 3] = [1; 2; 3]. reflexivity. Qed.",
    "Goal HasEqual. intros n e. exact (existT _ n (existT _ eq_refl eq_refl)). Qed.",
    # 5 + 2 * 3 - 3 % 2 + 1
    "Goal sum_of 5 2 3 = 11. reflexivity. Qed.",
    # if false && true || false, then the rest: false || true && false
    "Goal is_between false true false = false. reflexivity. Qed.",
    # if false && false || true, then 1 < 2 && true
    "Goal is_between false false true = true. reflexivity. Qed.",
    "Goal is_between true false false = true. reflexivity. Qed.",
]

# operator -> the types of its sides, the type of what it makes, and Coq's function
OPERATORS = {
    "+": ("ℕ", "ℕ", "ℕ", "Nat.add ({}) ({})"),
    "-": ("ℕ", "ℕ", "ℕ", "Nat.sub ({}) ({})"),
    "*": ("ℕ", "ℕ", "ℕ", "Nat.mul ({}) ({})"),
    "%": ("ℕ", "ℕ", "ℕ", "Nat.modulo ({}) ({})"),
    "/": ("ℕ", "ℕ", "ℕ", "Nat.div ({}) ({})"),
    "^": ("ℕ", "ℕ", "ℕ", "Nat.pow ({}) ({})"),
    "==": ("ℕ", "ℕ", "Bool", "Nat.eqb ({}) ({})"),
    "&&": ("Bool", "Bool", "Bool", "andb ({}) ({})"),
    "||": ("Bool", "Bool", "Bool", "orb ({}) ({})"),
    "∷": ("ℕ", "List ℕ", "List ℕ", "cons ({}) ({})"),
    "++": ("List ℕ", "List ℕ", "List ℕ", "app ({}) ({})"),
    "≡": ("ℕ", "ℕ", "Type 0", "@eq nat ({}) ({})"),
    "≢": ("ℕ", "ℕ", "Type 0", "forall _ : @eq nat ({}) ({}), Empty_set"),
    "<": ("ℕ", "ℕ", "Type 0", "lt ({}) ({})"),
    "≤": ("ℕ", "ℕ", "Type 0", "le ({}) ({})"),
    "×": ("Type 0", "Type 0", "Type 0", "prod ({}) ({})"),
    "⊎": ("Type 0", "Type 0", "Type 0", "sum ({}) ({})"),
    "↔": ("Type 0", "Type 0", "Type 0", "prod (forall _ : {0}, {1}) (forall _ : {1}, {0})"),
    "→": ("Type 0", "Type 0", "Type 0", "forall _ : {}, {}"),
}


def pairs():
    """A definition for each operator on each side of each other, and its goal in Coq."""
    for outer, (left, right, makes, of_outer) in OPERATORS.items():
        for inner, (one, other, made, of_inner) in OPERATORS.items():
            within = of_inner.format("a", "b")
            if made == left:
                text = f"(a {inner} b) {outer} c"
                yield (one, other, right, makes), text, of_outer.format(within, "c")
            if made == right:
                text = f"c {outer} (a {inner} b)"
                yield (one, other, left, makes), text, of_outer.format("c", within)


def definitions_of_pairs():
    """The names of the pairs, their definitions, and their goals."""
    found = [*pairs()]
    names = [f"pair_{number}" for number in range(len(found))]
    texts, goals = [], []
    for name, (types, text, in_coq) in zip(names, found):
        texts.append(f"abbrev pub {name} : {' → '.join(types)}\n{name} a b c = {text}\n")
        goals.append(f"Goal forall a b c, {name} a b c = ({in_coq}). reflexivity. Qed.")
    return names, "\n".join(texts), goals


A_ROW = "pub struct Row {\n    pub bits: u8,\n}\n"
NO_ROW = "struct Row<'a> {\n    names: &'a [u8],\n}\n"
OF_ROWS = """use Rattle.c.specs.declared.rows.Row.{Row}
abbrev pub bits_of : Row → ℕ
bits_of r = r.bits
"""
TABLE = "pub struct Table {\n    pub first: Row,\n}\n"
OF_TABLES = OF_ROWS.replace("rows.Row.{Row}", "table.Table.{Table}").replace(": Row", ": Table")
OF_TABLES = OF_TABLES.replace("r.bits", "r.first.bits")
CONSTANT = "pub const MOST: u8 = 1;\n"
OF_CONSTANT = """use Rattle.c.specs.declared.rows.TheConstants.{MOST}
abbrev pub bits_of : ℕ
bits_of = MOST
"""
ENUM = "pub enum Row {\n    Long,\n    Short,\n}\n"
OF_ENUM = """use Rattle.c.specs.declared.rows.Row.TheVariants.{Long}
use Rattle.c.specs.declared.rows.Row.{Row}
abbrev pub bits_of : Row
bits_of = Long
"""
MODEL = "impl Model for Row {\n    ghost Value = { ℕ };\n}\n"
# the sources in Rust, the definition, and what is said of it, None for nothing
TWICE = "{} is declared twice: crates/c/src/{}, crates/c/src/{}"
SOURCES = {
    "one type": ({"rows": A_ROW}, OF_ROWS, None),
    "two types in two files": (
        {"rows": A_ROW, "table": NO_ROW},
        OF_ROWS,
        TWICE.format("Row", "rows.rt:1", "table.rt:1"),
    ),
    "two types in one file": (
        {"rows": f"{A_ROW}mod other {{\n{NO_ROW}}}\n"},
        OF_ROWS,
        TWICE.format("Row", "rows.rt:1", "rows.rt:5"),
    ),
    "a type of another file": ({"table": A_ROW}, OF_ROWS, "Row is not declared in rows"),
    "the type of a field": ({"rows": A_ROW, "table": TABLE}, OF_TABLES, None),
    "two types for a field": (
        {"rows": A_ROW, "table": TABLE, "wide": NO_ROW},
        OF_TABLES,
        TWICE.format("Row", "rows.rt:1", "wide.rt:1"),
    ),
    "two models for a field": (
        {"rows": f"{A_ROW}{MODEL}{MODEL}", "table": TABLE},
        OF_TABLES.replace("r.first.bits", "r.first"),
        TWICE.format("Row", "rows.rt:4", "rows.rt:7"),
    ),
    "one enum": ({"rows": ENUM}, OF_ENUM, None),
    "two enums": (
        {"rows": ENUM, "table": ENUM.replace("Long,\n    Short", "Short,\n    Long")},
        OF_ENUM,
        TWICE.format("Row", "rows.rt:1", "table.rt:1"),
    ),
    "one constant": ({"rows": CONSTANT, "table": CONSTANT.replace("1", "2")}, OF_CONSTANT, None),
    "two constants": (
        {"rows": f"{CONSTANT}mod other {{\n    {CONSTANT.replace('1', '2')}}}\n"},
        OF_CONSTANT,
        TWICE.format("MOST", "rows.rt:1", "rows.rt:3"),
    ),
    "two letters": ({}, 'abbrev pub bits_of : ℕ\nbits_of = length (codes "é")\n', "unread: '\"é"),
    "a name that isn't ASCII": ({}, "abbrev pub bits_of : ℕ → ℕ\nbits_of é = é\n", "unread: 'é"),
}


def write_crate(root, text, sources):
    """Writes a crate c with these definitions and sources in Rust."""
    files = {f"src/{name}.rt": source for name, source in sources.items()}
    files |= {"specs/Lib.antt": "pub mod Forms\n", "specs/Forms.antt": LIBRARY + text}
    for name, content in files.items():
        path = root / "crates/c" / name
        path.parent.mkdir(parents=True, exist_ok=True)
        path.write_text(content)
    (root / "crates.txt").write_text("c:\n")


def translated(root, names):
    """What the script writes for the crate, or what it says if it refuses the crate."""
    try:
        return Translation(root, names).text()
    except Refused as why:
        return str(why)
