"""Compares definitions that were read with the Coq text for them, part by part, for coq_written.

What was read is as translate.py of coq/ has it, and the text as `coq_text` reads it. A variable is
compared by what binds it, so that a name which something else binds in between is noticed.
"""

from typing import NamedTuple

from coq_meanings import OF_COQ

SIGNS = {"≡": "=", "≤": "<=", "∷": "::", "==": "=?", "%": "mod", "→": "->"}
TESTS = {"<?": "nat_lt", "<=?": "nat_le", "=?": "nat_eq"}


class Differs(Exception):
    """A part of a definition and what is written for it."""


class Bound(NamedTuple):
    """What binds the names: in the file and in the text, each by its number."""

    file: dict
    text: dict
    count: int

    def both(self, name, written):
        """A name of the file and a name of the text for the same."""
        file = self.file if name is None else {**self.file, name: self.count}
        return Bound(file, {**self.text, written: self.count}, self.count + 1)


def parts_of(term):
    """The head of an application, and what it is applied to."""
    args = []
    while term[0] == "app":
        args.insert(0, term[2])
        term = term[1]
    return term, args


class Comparison:
    """Compares terms of a file of definitions with terms of the text."""

    def __init__(self, names):
        self.names, self.variables = names, set()

    def wrong(self, read, written):
        raise Differs(f"{read} is written as {written}")

    def want(self, is_so, read, written):
        if not is_so:
            self.wrong(read, written)

    def same(self, read, written, bound):
        if written[0] == "name" and isinstance(bound.text.get(written[1]), tuple):
            # the rest of a list that a pattern has taken apart: what the pattern bound there
            pattern, names = bound.text[written[1]]
            return self.same(read, pattern, bound._replace(text=names))
        if read[0] == "field" or read[0] == "record":
            return getattr(self, f"same_{read[0]}")(read, written, bound)
        if read[0] == "app" and written[0] == "op":
            return self.same_test(read, written, bound)
        self.want(read[0] in PARTS, read, written)
        return PARTS[read[0]](self, read, written, bound)

    def same_name(self, read, written, bound):
        if read[1] in bound.file:
            self.want(written[0] == "name", read, written)
            self.want(bound.text.get(written[1]) == bound.file[read[1]], read, written)
        else:
            self.means(self.names.file.meaning(read[1]), read, written, bound)

    def means(self, meaning, read, written, bound):
        """What is written has this meaning, and nothing binds it."""
        if meaning and meaning[0] == "number":
            return self.want(written == meaning, read, written)
        self.want(meaning and written[0] == "name", read, written)
        self.want(written[1] not in bound.text, read, written)
        return self.want(self.names.means.get(written[1]) == meaning, read, written)

    def is_written(self, library, written, bound):
        """Whether a name of Coq stands there, and nothing binds it."""
        return written == ("name", library) and library not in bound.text

    def same_leaf(self, read, written, _bound):
        self.want(read == written, read, written)

    def same_type(self, read, written, bound):
        self.want(self.is_written("Type", written, bound), read, written)

    def same_op(self, read, written, bound):
        sign = SIGNS.get(read[1], read[1])
        self.want(written[:2] == ("op", sign), read, written)
        if read[1] not in "→×":
            meaning = self.names.file.meaning(f"◌{read[1]}◌")
            self.want(meaning == ("library", f"◌{read[1]}◌"), read, written)
        self.same(read[2], written[2], bound)
        self.same(read[3], written[3], bound)

    def same_test(self, read, written, bound):
        """nat_lt and its like are written as operators."""
        head, args = parts_of(read)
        test = TESTS.get(written[1])
        is_test = head == ("name", test) and test not in bound.file and len(args) == 2
        self.want(is_test, read, written)
        self.want(self.names.file.meaning(test) == ("library", test), read, written)
        self.same(args[0], written[2], bound)
        self.same(args[1], written[3], bound)

    def same_parts(self, read, written, bound):
        """The same form, with the same parts."""
        self.want(written[0] == read[0] and len(written) == len(read), read, written)
        for one, other in zip(read[1:], written[1:]):
            self.same(one, other, bound)

    def same_lambda(self, read, written, bound):
        self.want(written[0] == "fun" and len(written[1]) == len(read[1]), read, written)
        for name, (written_name, kind) in zip(read[1], written[1]):
            self.want(kind is None, read, written)
            bound = bound.both(name, written_name)
        self.same(read[2], written[2], bound)

    def same_typed(self, read, written, bound):
        self.want(written[0] == "fun" and len(written[1]) == len(read[1]), read, written)
        for (name, kind, _), (written_name, written_kind) in zip(read[1], written[1]):
            self.want(written_kind is not None, read, written)
            self.same(kind, written_kind, bound)
            bound = bound.both(name, written_name)
        self.same(read[2], written[2], bound)

    def same_bind(self, read, written, bound):
        if read[1] == "→":
            self.want(written[0] == "forall" and len(written[1]) == len(read[2]), read, written)
            return self.same(read[3], written[2], self.same_groups(read[2], written[1], bound))
        for name, kind, _ in read[2]:
            self.want(written[0] == "sig", read, written)
            self.same(kind, written[2], bound)
            bound, written = bound.both(name, written[1]), written[3]
        return self.same(read[3], written, bound)

    def same_groups(self, groups, written, bound):
        for (name, kind, hidden), (written_name, written_kind, implicit) in zip(groups, written):
            self.want(hidden == implicit, groups, written)
            self.same(kind, written_kind, bound)
            bound = bound.both(name, written_name)
        return bound

    def same_field(self, read, written, bound):
        _, e, field = read
        if e[0] == "name" and e[1] not in bound.file and e[1] in self.names.file.aliases:
            return self.means(self.names.file.variant(e[1], field), read, written, bound)
        if field == "now":
            return self.same(e, written, bound)
        self.want(written[0] == "app", read, written)
        if field in ("0", "1"):
            name = ("fst", "snd")[int(field)]
            self.want(self.is_written(name, written[1], bound), read, written)
        else:
            self.is_projection(field, written[1], bound, read)
        return self.same(e, written[2], bound)

    def is_projection(self, field, written, bound, read):
        """A projection to this field, with a blank for each parameter of its record."""
        head, args = parts_of(written)
        self.want(head[0] == "name" and head[1] not in bound.text, read, written)
        found = self.names.projections.get(head[1])
        self.want(found == (field, len(args)), read, written)
        self.want(all(it == ("name", "_") for it in args), read, written)

    def same_record(self, read, written, bound):
        _, base, given = read
        if base and base[0] == "field" and {*given} == {"now"}:
            return self.same(given["now"], written, bound)
        head, args = parts_of(written)
        self.want(head[0] == "name" and head[1] not in bound.text, read, written)
        fields = self.names.makers.get(head[1])
        self.want(fields and len(fields) == len(args) and {*given} <= {*fields}, read, written)
        for field, arg in zip(fields, args):
            if field in given:
                self.same(given[field], arg, bound)
            else:
                self.want(base, read, written)
                self.same_field(("field", base, field), arg, bound)
        return None


PARTS = {
    "name": Comparison.same_name,
    "number": Comparison.same_leaf,
    "string": Comparison.same_leaf,
    "type": Comparison.same_type,
    "op": Comparison.same_op,
    "app": Comparison.same_parts,
    "pair": Comparison.same_parts,
    "if": Comparison.same_parts,
    "lambda": Comparison.same_lambda,
    "typed": Comparison.same_typed,
    "bind": Comparison.same_bind,
}


class Clauses(Comparison):
    """Compares definitions of a file with those of the text."""

    def same_abbrev(self, read, item):
        bound, columns, rest = Bound({}, {}, 0), [], read.type
        for name, kind, implicit in item.params:
            own, rest = argument(rest)
            self.want(own and own[2] == implicit, read.type, item.params)
            self.same(own[1], kind, bound)
            if not implicit:
                columns.append((name, bound.count))
            bound = bound.both(own[0], name)
        self.same(rest, item.type, bound)
        # in a clause only what its patterns bind has a name
        self.same_clauses(read.clauses, item.body, columns, bound._replace(file={}))

    def same_clauses(self, clauses, body, columns, bound):
        matched, rows = [], [([], body)]
        if body[0] == "match":
            matched, rows = [bound.text.get(it[1], it) for it in body[1]], body[2]
        numbers = [number for _, number in columns]
        self.want([it for it in numbers if it in matched] == matched, clauses, body)
        self.want(len(clauses) == len(rows), clauses, body)
        for (patterns, term), (row, written) in zip(clauses, rows):
            self.want(len(patterns) == len(numbers) and len(row) == len(matched), patterns, row)
            inner, row = bound, [*row]
            for pattern, number in zip(patterns, numbers):
                if number in matched:
                    inner = self.same_pattern(pattern, row.pop(0), inner)
                else:
                    self.want(self.is_variable(pattern) and pattern[1] != "_", pattern, number)
                    self.want(pattern[1] not in inner.file, pattern, number)
                    inner = inner._replace(file={**inner.file, pattern[1]: number})
            self.same(term, written, inner)

    def is_variable(self, pattern):
        return pattern[0] == "name" and not self.names.file.is_constructor(pattern[1])

    def same_pattern(self, read, written, bound):
        if written[0] == "as":
            inner = self.same_pattern(read, written[1], bound)
            rest = (written[1], inner.text)
            return inner._replace(text={**inner.text, written[2]: rest})
        if self.is_variable(read):
            return self.same_variable(read, written, bound)
        if read[0] in ("name", "field"):
            self.same(read, written, bound._replace(file={}, text={}))
            return bound
        if read[0] == "op":
            self.want(read[1] == "∷" and written[:2] == ("op", "::"), read, written)
        else:
            self.want(read[0] == written[0] and read[0] in ("app", "pair"), read, written)
        if read[0] == "app":
            # a head binds nothing
            self.want(not self.is_variable(read[1]), read, written)
        bound = self.same_pattern(read[-2], written[-2], bound)
        return self.same_pattern(read[-1], written[-1], bound)

    def same_variable(self, read, written, bound):
        self.want(written[0] == "name", read, written)
        name = written[1]
        if "_" in (read[1], name):
            self.want(read[1] == name, read, written)
            return bound
        # Coq takes the name of a constructor for the constructor
        self.want(name not in self.names.means and name not in OF_COQ, read, written)
        self.want(read[1] not in bound.file, read, written)
        self.variables.add(name)
        return bound.both(read[1], name)

    def same_rows(self, read, item):
        """Records: their parameters, and their fields in order."""
        bound = self.same_groups(read.params, item.params, Bound({}, {}, 0))
        self.want(len(read.params) == len(item.params), read.params, item.params)
        self.want(len(read.fields) == len(item.fields), read.fields, item.fields)
        for (name, kind), (written, written_kind) in zip(read.fields, item.fields):
            self.want(written == f"{item.name}_{name}", name, written)
            self.same(kind, written_kind, bound)
            bound = bound.both(name, written)

    def same_data(self, read, item):
        bound = self.same_groups(read.params, item.params, Bound({}, {}, 0))
        self.want(len(read.params) == len(item.params), read.params, item.params)
        self.same(read.index, item.index, bound)
        self.want(len(read.constructors) == len(item.constructors), read, item)
        for (name, kind), (written, params, written_kind) in zip(
            read.constructors, item.constructors
        ):
            plain = name.replace("-", "_")
            self.want(written in (plain, f"{item.name}_{plain}") and not params, name, written)
            self.same(kind, written_kind, bound)


def argument(kind):
    """The first argument of a type, as (name or None, type, implicit), and the rest."""
    if kind[:2] == ("op", "→"):
        return (None, kind[2], False), kind[3]
    if kind[:2] == ("bind", "→"):
        first, *more = kind[2]
        return first, ("bind", "→", more, kind[3]) if more else kind[3]
    return None, kind
