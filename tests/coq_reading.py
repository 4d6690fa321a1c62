"""What the translator of coq/ reads: as the kit does, and without losing a word. For the test coq.

A definition that was read is written back in the notation of the specs, with every operator in
parentheses, and compared with its file word by word; parentheses, and signs after a last part, are
left out. The items of a file, one after the other, have all its words. READ has texts with the order in which the kit reads them, REFUSED texts that the
translator may not read, and FILES files of definitions, each with why it is refused, or None.
"""

import re
import sys
import tempfile
from itertools import zip_longest
from pathlib import Path

from building import ROOT

sys.path.insert(0, str(ROOT / "coq"))

from translate import Abbrev, Data, Reader, Record, Refused, Source, read_item, words  # noqa: E402

READ = {
    "a ++ b ++ c": "((a ++ b) ++ c)",
    "a ∷ b ++ c": "((a ∷ b) ++ c)",
    "a ++ b ∷ c": "(a ++ (b ∷ c))",
    "a - b + c": "((a - b) + c)",
    "a + b * c % d": "(a + ((b * c) % d))",
    "a * b / c % d": "(((a * b) / c) % d)",
    "a * b ^ c ^ d": "(a * (b ^ (c ^ d)))",
    "a && b || c && d": "((a && b) || (c && d))",
    "a == b && c == d": "((a == b) && (c == d))",
    "a + 1 == b": "((a + 1) == b)",
    "a && b ≡ c": "((a && b) ≡ c)",
    "A × B ⊎ C × D": "((A × B) ⊎ (C × D))",
    "A × B × C": "(A × (B × C))",
    "A ↔ B → C": "((A ↔ B) → C)",
    "(x : A) × B x → C": "(((x : A) × (B x)) → C)",
    "(x : A) → B × C": "((x : A) → (B × C))",
    "A × (x : B) × C": "(A × ((x : B) × C))",
    "if a then b else c ≡ d": "((if a then b else c) ≡ d)",
    "f r.g x": "(f r.g x)",
    "λ x. a ≡ b": "(λ x . (a ≡ b))",
}
REFUSED = [
    "n+n",
    "a +b",
    "a == b == c",
    "a < b < c",
    "a ≡ b ≡ c",
    "f {x = e}",
    "let x = a in b",
    "(a, b, c)",
    "A × (x : B) → C",
    "a && if b then c else d",
    "f λ x. a",
    "elim x [ ]",
    "a ∧ b",
    "record { a = record { b = c } . }",
    "a /b",
    "a ^b",
    'codes "é"',
    r'codes "\t"',
    "é",
    "aé",
    "f 007",
]
A, B = "abbrev pub A : ℕ\nA = 1\n", "abbrev pub B : ℕ\nB = 2\n"
D = "pub data D : Type 0 where\n  c : D\n"
FILES = [
    (f"use Rattle.x.specs.X.{{C, D}}\nuse Rattle.y.specs.Y.{{E}}\n{A}{B}", None),
    (f"{A}{B}{A}", "5: A twice"),
    (f"use Rattle.x.specs.X.{{B, A}}\n{A}", "2: A twice"),
    ("use Rattle.x.specs.X.{A, B, A}\n", "1: A twice"),
    ("use Rattle.x.specs.X.{A}\nuse Rattle.y.specs.Y.{A}\n", "2: A twice"),
    ("use Rattle.x.TheVariants as A\nuse Rattle.y.TheVariants as A\n", "2: A twice"),
    ("use Rattle.x.specs.X.{A}\nuse Rattle.y.TheVariants as A\n", "2: A twice"),
    ("use Rattle.x.specs.X.{A as B}\n", "1: A as B"),
    (f"{A}\tA\n", "3: a tab"),
    (f"  A = 1\n{A}", "1: an indented line first"),
    (f"{A}infix 5 A\n", "3: infix 5 A"),
    (f"{A}pub mod m\n", "3: pub mod m"),
    (f"{A}B = 2\n", "3: no definition: B = 2"),
    (f"{A}{D}", None),
    (f"{D}{D.replace('D', 'E')}", "3: c twice"),
    (f"use Rattle.x.specs.X.{{c}}\n{D}", "2: c twice"),
]


def binders(groups):
    """The groups as the file has them: names of one group have one and the same type."""
    shown = []
    for (name, kind, hidden), before in zip(groups, [None, *groups]):
        if before and kind is before[1]:
            shown[-1][0] += f" {name}"
        else:
            shown.append([name, f"{{%s : {of(kind)}}}" if hidden else f"(%s : {of(kind)})"])
    return " ".join(form % names for names, form in shown)


def of_record(e):
    base = f"{of(e[1])} " if e[1] else ""
    return f"record {base}{{ {' ; '.join(f'{n} = {of(t)}' for n, t in e[2].items())} }}"


def applied(e):
    found = []
    while e[0] == "app":
        found.insert(0, of(e[2]))
        e = e[1]
    return f"({' '.join([of(e), *found])})"


WRITERS = {
    "name": lambda e: e[1] + (" {0}" if e[1] == "Unit" else ""),
    "number": lambda e: str(e[1]),
    "string": lambda e: '"' + e[1].replace("\n", r"\n") + '"',
    "type": lambda e: "Type 0",
    "app": applied,
    "op": lambda e: f"({of(e[2])} {e[1]} {of(e[3])})",
    "bind": lambda e: f"({binders(e[2])} {e[1]} {of(e[3])})",
    "typed": lambda e: f"(λ {binders(e[1])} . {of(e[2])})",
    "lambda": lambda e: f"(λ {' '.join(e[1])} . {of(e[2])})",
    "if": lambda e: f"(if {of(e[1])} then {of(e[2])} else {of(e[3])})",
    "field": lambda e: f"{of(e[1])}.{e[2]}",
    "pair": lambda e: f"({of(e[1])} , {of(e[2])})",
    "record": of_record,
}


def of(e):
    """A term in the notation of the specs, with all parentheses."""
    return WRITERS[e[0]](e)


def texts_of(it, name):
    """The texts of a definition that was read, as its file has them one after the other."""
    if isinstance(it, Abbrev):
        yield f": {of(it.type)}"
        for patterns, term in it.clauses:
            yield f"{' '.join([name, *map(of, patterns)])} = {of(term)}"
    elif isinstance(it, Record):
        yield f"{binders(it.params)} : Type 0 where"
        yield from (f"pub {field} : {of(t)}" for field, t in it.fields)
    elif isinstance(it, Data):
        yield f"{binders(it.params)} : {of(it.index)} where"
        yield from (f"{name} : {of(t)}" for name, t in it.constructors)


def tokens(text):
    """The words of a text, but for parentheses and a sign after the last part."""
    found = [w.text for w in words(text, "here")]
    pairs = zip(found, [*found[1:], ""])
    found = [w for w, after in pairs if not (w in ",;" and after in ("}", ")"))]
    return [str(int(w, 0)) if w[0].isdigit() else w for w in found if w not in "()"]


def differs(source, name):
    """The first words at which a definition that was read differs from its file, or None."""
    item = source.items[name]
    file = tokens(" ".join([item.text, *(text for text, _ in item.clauses)]))
    back = tokens(" ".join(texts_of(read_item(item), name)))
    pairs = [*zip_longest(file, back)]
    at = next((n for n, (one, other) in enumerate(pairs) if one != other), None)
    return None if at is None else pairs[at : at + 6]


def lost(source, text):
    """The first words at which a file differs from the items that it was split into, or None."""
    rest = re.sub(r"(?m)^(?:pub )?use .*(?:\n[ }].*)*", "", text)
    split = [
        part
        for item in source.items.values()
        for part in (f"{item.kind} {item.name}{item.text}", *(it for it, _ in item.clauses))
    ]
    file, back = (re.sub("--.*", "", it).split() for it in (rest, "\n".join(split)))
    pairs = [*zip_longest(file, back)]
    at = next((n for n, (one, other) in enumerate(pairs) if one != other), None)
    return None if at is None else pairs[at : at + 6]


def lost_laws(source, text):
    """The words of a file of laws that its statements don't have, or None.

    A law states definitions, or each of its clauses a statement, which has its name and that of
    the law as its own, such as OneTextDecks.
    """
    rest = re.sub(r"(?m)//.*$|^ghost use [^;]*;$", "", text)
    stated = []
    for law, clauses in re.findall(r"(?ms)^fn (\w+)\(\)\n(.*?)^\{\}$", rest):
        rest = rest.replace(f"fn {law}()\n{clauses}{{}}", "", 1)
        for clause, statement in re.findall(r"(?s)ensures (?:(\w+) )?\{(.*?)\}", clauses):
            name = "".join(word.capitalize() for word in f"{law}_{clause}".split("_"))
            if not re.fullmatch(r"\w+", statement.strip()):
                stated.append(["abbrev", "pub", name, ":", "Type", "0", name, "=", *statement.split()])
            clauses = re.sub(r"(?s)ensures (?:(\w+) )?\{(.*?)\}", "", clauses, count=1)
        rest += clauses
    split = [
        f"{item.kind} {item.name}{item.text} {' '.join(it for it, _ in item.clauses)}".split()
        for item in source.items.values()
    ]
    return None if split == stated and not rest.strip() else (split, stated, rest)


def wrong_readings():
    """The texts of READ that are read otherwise, and those of REFUSED that are read."""
    for text, wanted in READ.items():
        reader = Reader(text, "here")
        found = of(reader.term())
        if found != wanted:
            yield text, found
    for text in REFUSED:
        try:
            reader = Reader(text, "here")
            found = of(reader.term())
            reader.end()
            yield text, found
        except Refused:
            pass


def wrong_files():
    """The files of FILES that are read or refused otherwise."""
    for text, wanted in FILES:
        with tempfile.TemporaryDirectory() as room:
            path = Path(room, "crates/c/specs/File.antt")
            path.parent.mkdir(parents=True)
            path.write_text(text)
            try:
                Source(room, "c", "File", (0,))
                found = None
            except Refused as why:
                found = str(why).removeprefix("crates/c/specs/File.antt:")
        if found != wanted:
            yield text, found
