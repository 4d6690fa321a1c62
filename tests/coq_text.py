"""Reads the Coq text that translate.py of coq/ writes, for the test coq_written.

The text is read by Coq's own levels, which LEVELS has from Coq's manual, and not by anything of the
script. What Coq could group in two ways is refused, such as two operators of a level that don't
belong together. A term is a tuple: ('name', x) ('number', n) ('string', s) ('app', f, x)
('op', sign, a, b) ('fun', [(name, type or None)], body) ('forall', [(name, type, implicit)], body)
('sig', name, type, body) ('if', a, b, c) ('pair', a, b) ('as', pattern, name)
('match', [term], [([pattern], term)]).
"""

import re
from typing import NamedTuple

# sign -> (level, side): a lower level binds tighter
LEVELS = {
    "^": (30, "right"),
    **dict.fromkeys(["*", "/", "&&"], (40, "left")),
    "mod": (40, None),
    **dict.fromkeys(["+", "-", "||"], (50, "left")),
    **dict.fromkeys(["::", "++"], (60, "right")),
    **dict.fromkeys(["=", "≢", "<", "<=", "<?", "<=?", "=?"], (70, None)),
    "×": (80, "right"),
    "⊎": (85, "right"),
    "↔": (95, None),
    "->": (99, "right"),
}
TOGETHER = [{"+", "-"}, {"::", "++"}]
LOOSEST = 200

WORD = re.compile(
    r"""(?P<space>\s+)|(?P<heading>\(\*.*?\*\))|(?P<string>"[^"]*"%string)|(?P<number>\d+)
 |(?P<name>[A-Za-z_][\w']*(?:\.[A-Za-z_][\w']*)*)
 |(?P<sign>->|=>|:=|<=\?|<\?|=\?|<=|::|\+\+|&&|\|\||\[\]|[×⊎↔≢+*/^<=(){}\[\],:;.|&-])""",
    re.X | re.S | re.A,
)
OPENS = {"fun", "forall", "if"}
CLOSES = {"then", "else", "with", "end", "as", "mod", "match", "return", *OPENS}


class Unread(Exception):
    """A text that isn't read, and where."""


class Definition(NamedTuple):
    """`Definition` or `Fixpoint`: params are (name, type, implicit)."""

    name: str
    is_recursive: bool
    params: list
    type: tuple
    body: tuple


class Record(NamedTuple):
    """`Record`: fields are (name, type)."""

    name: str
    params: list
    maker: str
    fields: list


class Inductive(NamedTuple):
    """`Inductive`: constructors are (name, params, type or None)."""

    name: str
    params: list
    index: tuple
    constructors: list


class Words:
    """The words of a text, and how far they are read."""

    def __init__(self, text):
        self.words, self.i, at = [], 0, 0
        while at < len(text):
            found = WORD.match(text, at)
            if not found:
                raise Unread(f"unread: {text[at : at + 40]!r}")
            if found.lastgroup != "space":
                self.words.append((found.lastgroup, found[0]))
            at = found.end()

    def peek(self):
        return self.words[self.i][1] if self.i < len(self.words) else None

    def kind(self):
        return self.words[self.i][0] if self.i < len(self.words) else None

    def take(self, *wanted):
        word = self.peek()
        if word is None or (wanted and word not in wanted):
            near = " ".join(it[1] for it in self.words[max(0, self.i - 12) : self.i + 6])
            raise Unread(f"{wanted or 'more'} wanted, {word} found, near: {near}")
        self.i += 1
        return word

    def passes(self, word):
        """Takes the word if it comes next."""
        if self.peek() != word:
            return False
        self.i += 1
        return True


class Terms(Words):
    """Reads terms."""

    def term(self, most=LOOSEST):
        if self.peek() not in OPENS:
            return self.operators(most)
        if most < LOOSEST:
            raise Unread(f"{self.peek()} under an operator")
        return getattr(self, f"read_{self.take()}")()

    def read_fun(self):
        bound = []
        while self.peek() != "=>":
            bound += self.group() if self.peek() == "(" else [(self.take(), None, False)]
        self.take("=>")
        return ("fun", [(name, kind) for name, kind, _ in bound], self.term())

    def read_forall(self):
        bound = self.groups()
        self.take(",")
        return ("forall", bound, self.term())

    def read_if(self):
        test = self.term()
        self.take("then")
        yes = self.term()
        self.take("else")
        return ("if", test, yes, self.term())

    def groups(self):
        """Groups such as (a b : T) {x : U}."""
        found = []
        while self.peek() in ("(", "{"):
            found += self.group()
        return found

    def group(self):
        closing = {"(": ")", "{": "}"}[self.take("(", "{")]
        names = []
        while self.peek() != ":":
            names.append(self.take())
        self.take(":")
        kind = self.term()
        self.take(closing)
        return [(name, kind, closing == "}") for name in names]

    def operators(self, most):
        left, own, last = self.application(), 0, None
        while self.peek() in LEVELS and LEVELS[self.peek()][0] <= most:
            sign = self.take()
            level, side = LEVELS[sign]
            if own > level or (own == level and not (side == "left" and agree(last, sign))):
                raise Unread(f"{last} beside {sign}")
            inner = LOOSEST if sign == "->" else level if side == "right" else level - 1
            right = self.term(inner)
            if side == "right" and sign != "->" and level_of(right) == level:
                if not agree(sign, right[1]):
                    raise Unread(f"{sign} beside {right[1]}")
            left, own, last = ("op", sign, bare(left), bare(right)), level, sign
        return left

    def application(self):
        head = self.atom()
        while self.kind() in ("name", "number", "string") or self.peek() in ("(", "[]", "{"):
            if self.peek() in CLOSES:
                return head
            head = ("app", bare(head), bare(self.atom()))
        if self.peek() == "match":
            raise Unread("match without parentheses")
        return head

    def atom(self):
        kind, word = self.kind(), self.take()
        if kind == "number":
            return ("number", int(word))
        if kind == "string":
            return ("string", word.removesuffix("%string")[1:-1])
        if word == "match":
            return self.read_match()
        if word == "(":
            return self.in_parentheses()
        if word == "{":
            name = self.take()
            self.take(":")
            of = self.term()
            self.take("&")
            body = self.term()
            self.take("}")
            return ("sig", name, bare(of), bare(body))
        if word == "[]" or (kind == "name" and word not in CLOSES):
            return ("name", word)
        raise Unread(f"{word} at the head of a term")

    def in_parentheses(self):
        inner = self.term()
        if self.passes(","):
            inner = ("pair", bare(inner), bare(self.term()))
        elif self.passes("as"):
            inner = ("as", bare(inner), self.take())
        self.take(")")
        return ("closed", bare(inner))

    def read_match(self):
        asked = [self.term()]
        while self.passes(","):
            asked.append(self.term())
        self.take("with")
        rows = []
        while self.passes("|"):
            patterns = [bare(self.term())]
            while self.passes(","):
                patterns.append(bare(self.term()))
            self.take("=>")
            rows.append((patterns, bare(self.term())))
        self.take("end")
        return ("match", [bare(it) for it in asked], rows)


def agree(one, other):
    """Whether two signs of a level group to its side together."""
    return one == other or {one, other} in TOGETHER


def level_of(term):
    return LEVELS[term[1]][0] if term[0] == "op" else 0


def bare(term):
    """The term without the parentheses that closed it."""
    while isinstance(term, tuple) and term[:1] == ("closed",):
        term = term[1]
    return deep(term)


def deep(it):
    """The same of all its parts."""
    if isinstance(it, tuple) and it[:1] == ("closed",):
        return bare(it)
    if isinstance(it, (tuple, list)):
        return type(it)(deep(part) for part in it)
    return it


class Items(Terms):
    """Reads the items of a file, and the headings between them."""

    def items(self):
        while self.peek() is not None:
            if self.kind() == "heading":
                yield self.take()
            elif self.peek() == "Goal":
                while self.take() != "Abort":
                    pass
                self.take(".")
            elif self.peek() == "From":
                while self.take() != ".":
                    pass
            else:
                yield self.item()

    def item(self):
        word = self.take("Definition", "Fixpoint", "Record", "Inductive")
        name, params = self.take(), self.groups()
        self.take(":")
        kind = bare(self.term())
        self.take(":=")
        params = deep(params)
        if word == "Record":
            found = self.record(name, params, kind)
        elif word == "Inductive":
            found = Inductive(name, params, kind, [*self.constructors()])
        else:
            found = Definition(name, word == "Fixpoint", params, kind, bare(self.term()))
        self.take(".")
        return found

    def record(self, name, params, kind):
        if kind != ("name", "Type"):
            raise Unread(f"the type of {name}")
        maker, fields = self.take(), []
        self.take("{")
        while not self.passes("}"):
            field = self.take()
            self.take(":")
            fields.append((field, bare(self.term())))
            if self.peek() != "}":
                self.take(";")
        return Record(name, params, maker, fields)

    def constructors(self):
        while self.passes("|"):
            name, params = self.take(), deep(self.groups())
            yield name, params, bare(self.term()) if self.passes(":") else None
