"""What a law assumes can be, because another law or the contract of a call gives it.

A law says nothing if nothing meets its premises. So each notion that stands in a premise of a law
of chan_walk or chan_needs also has to stand where a law or a contract concludes: in the statement
itself, or in what a notion there is made of. What is on the left of an arrow counts the other way
round, and a predicate that is handed to a notion counts as that notion uses it. A notion is a
definition with parameters that says something of them.
"""

import re
import sys

sys.dont_write_bytecode = True

from building import ROOT
from running import text_of
from sources import CRATES

sys.path.insert(0, str(ROOT / "coq"))

from coq_terms import parts_of  # noqa: E402
from translate import Abbrev, Data, Record, Refused, Translation, parts, walk  # noqa: E402

LAWS_OF = ["chan_walk", "chan_needs"]
LAW = re.compile(r"ensures \{ (\w+) \}")
CLAUSE = re.compile(r"(?m)^ +ensures (?:\w+ )?\{ ((?:.|\n +)*?) \}$")

# which sign the first argument of these notions of the kit has; any other has both
OF_THE_KIT = {"AllByRecursion": {1}, "All": {1}}
BOTH = {1, -1}


def names_of(patterns):
    """The names that patterns bind; a constructor among them does no harm."""
    for pattern in patterns:
        if pattern[0] == "name":
            yield pattern[1]
        yield from names_of(parts(pattern))


def domains(kind):
    """What a function of this type takes."""
    while kind[0] == "bind" or kind[:2] == ("op", "→"):
        yield from [of for _, of, _ in kind[2]] if kind[0] == "bind" else [kind[2]]
        kind = kind[-1]


def result_of(kind):
    """What a function of this type gives."""
    while kind[0] == "bind" or kind[:2] == ("op", "→"):
        kind = kind[-1]
    return kind


def takes_predicate(item):
    """Whether a predicate is among the parameters of a definition."""
    some = domains(item.type) if isinstance(item, Abbrev) else [of for _, of, _ in item.params]
    return any(("type",) in walk(of) for of in some)


class Notions:
    """In which places each definition stands under the laws, and with which sign."""

    def __init__(self, translation):
        self.world, self.read = translation.world, translation.read
        # what names mean, by file, and the signs of predicates among parameters, as far as known
        self.known, self.signs = {}, {}
        self.learn()

    def key_of(self, name, source):
        """What a name of a file means, or None."""
        at = source.crate, source.name, name
        if at not in self.known:
            try:
                key = self.world.resolve(source, name, "")
            except Refused:
                key = None
            is_constructor = key and key[0] == "constructor"
            self.known[at] = ("spec", *key[1:4]) if is_constructor else key
        return self.known[at]

    def handed_signs(self, head, count, source, bound):
        """For each argument of a notion the signs with which the notion uses it."""
        key = None if head[0] != "name" or head[1] in bound else self.key_of(head[1], source)
        if key and key[0] == "library" and head[1] in OF_THE_KIT:
            return [OF_THE_KIT[head[1]]] + [BOTH] * count
        if key and key[0] == "spec":
            return [self.signs.get((key, at), set()) for at in range(count)]
        return [BOTH] * count

    def occurrences(self, term, sign, source, bound):
        """The names in a term, those that are bound by themselves, each with its sign."""
        kind = term[0]
        if kind == "name":
            yield (term[1] if term[1] in bound else self.key_of(term[1], source)), sign
        elif kind == "app":
            head, handed = parts_of(term)
            yield from self.occurrences(head, sign, source, bound)
            for one, signs in zip(handed, self.handed_signs(head, len(handed), source, bound)):
                for other in signs:
                    yield from self.occurrences(one, sign * other, source, bound)
        elif kind in ("bind", "typed"):
            for name, of, _ in term[-2]:
                there = -sign if term[1] == "→" else sign
                yield from self.occurrences(of, there, source, bound)
                bound = bound - {name}
            yield from self.occurrences(term[-1], sign, source, bound)
        elif kind == "lambda":
            yield from self.occurrences(term[2], sign, source, bound - {*term[1]})
        elif kind == "op" and term[1] in ("→", "×", "⊎"):
            left = -sign if term[1] == "→" else sign
            yield from self.occurrences(term[2], left, source, bound)
            yield from self.occurrences(term[3], sign, source, bound)
        else:
            for part in parts(term):
                for other in BOTH:
                    yield from self.occurrences(part, other, source, bound)

    def bodies(self, key):
        """What a definition is made of, with its parameters: which each name belongs to."""
        item = self.read[key]
        if isinstance(item, Abbrev):
            for patterns, term in item.clauses:
                some = enumerate(patterns)
                yield {name: at for at, one in some for name in names_of([one])}, term
        else:
            names = {name: at for at, (name, _, _) in enumerate(item.params)}
            for _, term in item.fields if isinstance(item, Record) else item.constructors:
                yield names, term

    def learn(self):
        """Finds with which signs predicates are used: until nothing new is found."""
        some = [key for key in self.read if key[0] == "spec" and takes_predicate(self.read[key])]
        before = None
        while before != self.signs:
            before = {at: {*signs} for at, signs in self.signs.items()}
            for key in some:
                for names, term in self.bodies(key):
                    for name, sign in self.under(key, names, term, 1):
                        if isinstance(name, str):
                            self.signs.setdefault((key, names[name]), set()).add(sign)

    def under(self, key, names, term, sign):
        """The names in a body. What a constructor takes counts as the whole does."""
        source = self.world.source(key[1], key[2])
        if isinstance(self.read[key], Data):
            for one in domains(term):
                yield from self.occurrences(one, sign, source, {*names})
        else:
            yield from self.occurrences(term, sign, source, {*names})

    def places(self, statements):
        """The signs with which each definition stands under these statements."""
        found, new = {}, [(self.world.named(name), 1) for name in statements]
        while new:
            key, sign = new.pop()
            if not key or key[0] != "spec" or sign in found.setdefault(key, set()):
                continue
            found[key].add(sign)
            for names, term in self.bodies(key):
                for other, its in self.under(key, names, term, sign):
                    if not isinstance(other, str):
                        new.append((other, its))
        return found

    def says_something(self, key):
        """Whether it is a notion: it has parameters, and what it gives is a statement."""
        item = self.read[key]
        if isinstance(item, Abbrev):
            return bool(item.clauses[0][0]) and result_of(item.type) == ("type",)
        return bool(item.params)


    def only_assumed(self, statements):
        """The notions that stand in premises alone."""
        for key, signs in sorted(self.places(statements).items()):
            if signs == {-1} and self.says_something(key):
                yield key[3]


def concluded(names):
    """Those of these definitions with which a clause of a contract ends."""
    for crate in LAWS_OF:
        for path in sorted((CRATES / crate / "src").rglob("*.rt")):
            for clause in CLAUSE.findall(text_of(path)):
                yield from names & {*re.findall(r"\w+", clause.rpartition("→")[2])}


def laws():
    return [law for it in LAWS_OF for law in LAW.findall(text_of(CRATES / it / "src/laws.rt"))]


def check(checks, _built):
    translation = Translation(ROOT, text_of(ROOT / "coq/LAWS").split())
    contracts = {*concluded({key[3] for key in translation.read if key[0] == "spec"})}
    notions, statements = Notions(translation), [*laws(), *sorted(contracts)]
    checks.expect_that("there are laws", len(laws()) > 50, laws())
    checks.expect("what nothing shows to be possible", [], [*notions.only_assumed(statements)])
    for law, shows in (("SeekIsFree", "CarriesOutCcw"), ("CanBeSupervised", "GoesOnBeside")):
        found = [*notions.only_assumed([it for it in statements if it != law])]
        checks.expect_that(f"{law} alone shows {shows}", shows in found, found)
