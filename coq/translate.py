#!/usr/bin/env python3
"""Translates definitions of the specs, and the structs and enums that they name, into Coq.

    translate.py ROOT NAME.. > Defs.v      ROOT is a checkout, NAME a definition, as YesIsSafe

A law may state more than the name of a definition: OneTextDecks is what the clause `decks` of the law
`one_text` states, in src/laws.rt of its crate.

What is translated is the closure: the names, and all that they rest on, down to the kit's library,
which Prelude.v defines by hand. Whatever this script doesn't read it refuses, with file and line.
How it reads is fixed by the kit: FIXITY is compared with the kit's sources by kit.py.
"""
import re
import sys
from collections import namedtuple
from pathlib import Path

# operator -> (strength, side), as the kit declares them; → × λ and the binders are built in
FIXITY = {'↔': (0, None), '⊎': (1, 'right'), '×': (2, 'right'), '≡': (4, None), '≢': (4, None), '||': (30, 'left'),
          '&&': (35, 'left'), '==': (40, None), '<': (50, None), '≤': (50, None), '+': (65, 'left'),
          '-': (65, 'left'), '++': (65, 'left'), '∷': (67, 'right'), '*': (70, 'left'), '%': (70, 'left'),
          '/': (70, 'left'), '^': (75, 'right')}
IF = 5
# what the kit's library has, and what Prelude.v or Coq has in its place
LIBRARY = {
    'ℕ': 'nat', 'zero': '0', 'suc': 'S', 'Bool': 'bool', 'true': 'true', 'false': 'false', 'not': 'negb',
    'List': 'list', '[]': '[]', 'map': 'map', 'length': 'length', 'take': 'firstn', 'min': 'Nat.min',
    'Option': 'option', 'Some': 'Some', 'None': 'None', 'option_map': 'option_map', 'option_or': 'option_or',
    'is_some': 'is_some', 'is_none': 'is_none', 'nat_le': 'Nat.leb', 'nat_lt': 'Nat.ltb', 'nat_eq': 'Nat.eqb',
    'bit_and': 'Nat.land', 'slice_index': 'slice_index', 'range_with_len': 'range_with_len', 'codes': 'codes',
    'list_any': 'existsb', 'list_all': 'forallb', 'AllByRecursion': 'AllByRecursion', 'if◌then◌else◌': None,
    'IsStrictlyIncreasing': 'IsStrictlyIncreasing', 'All': 'All', 'AllWithin': 'AllWithin', 'HoldsAt': 'HoldsAt',
    'IsSome': 'IsSome', 'drop': 'skipn', 'reverse': 'rev', 'flat_map': 'flat_map',
    'MatchBool': 'MatchBool', 'on': 'on', 'eq_of_both': 'eq_of_both', 'pointwise': 'pointwise',
    'bytes_high_first': 'bytes_high_first', 'to_be_bytes': 'to_be_bytes', 'w32': 'w32',
    'encode_upper': 'encode_upper', 'decimal': 'decimal', **{f'◌{op}◌': None for op in FIXITY}}
LIBRARY_MODULES = {'std.specs.Prelude', 'std.specs.List', 'std.specs.Option', 'std.specs.List.Sorted', 'std.specs.Int',
                   'std.specs.Fmt', 'std.specs.Ordering', 'std.specs.Cmp.Lexicographic', 'hex.specs.Hex'}
CONSTRUCTORS = {'zero', 'suc', 'true', 'false', '[]', 'Some', 'None'}
# words of Coq, names that are written below, and constructors, which a pattern would match. That no
# constructor is missing here, Coq checks over the lines that `patterns` writes.
RESERVED = set('''
 as at by cofix else end exists exists2 fix for forall fun if in let match mod return then using
 where with Type Set Prop SProp IF Axiom CoFixpoint Definition Fixpoint Hypothesis Parameter
 Theorem Variable Search Check Print Eval app fst snd unit Empty prod sum sigT O S true false tt
 inl inr pair nil cons Some None left right inleft inright I conj or_introl or_intror ex_intro
 ex_intro2 eq_refl inhabits exist exist2 existT existT2 Eq Lt Gt String EmptyString
 Ascii'''.split())
COQ = {'<': ('<', 70), '≤': ('<=', 70), '≡': ('=', 70), '≢': ('≢', 70), '+': ('+', 50), '-': ('-', 50), '*': ('*', 40), '%': ('mod', 40),
       '/': ('/', 40), '^': ('^', 30),
       '∷': ('::', 60), '++': ('++', 60), '==': ('=?', 70), '&&': ('&&', 40), '||': ('||', 50),
       '×': ('×', 80), '⊎': ('⊎', 85), '↔': ('↔', 95), '→': ('->', 99)}


class Refused(Exception):
    pass


# ---- words
# a text holds signs of ASCII: of others the kit counts characters, and Coq bytes
WORD = re.compile(r'''(?P<space>[ \n]+)|(?P<comment>--[^\n]*)|(?P<string>"(?:[ !#-[\]-~]|\\n)*")
 |(?P<number>0x[0-9A-Fa-f]+|\d+)|(?P<name>[A-Za-z_][\w'-]*)
 |(?P<op>→|λ|≡|≢|∷|\+\+|\+|-|\*|%|/|\^|<|≤|==|&&|\|\||×|⊎|↔)|(?P<sign>⊥|ℕ|\[\]|[.,(){}=:;])''',
                  re.X | re.A)
Token = namedtuple('Token', 'kind text at spaced')


def words(text, where):
    out, i, spaced = [], 0, True
    while i < len(text):
        m = WORD.match(text, i)
        if not m: raise Refused(f'{where}: unread: {text[i:i + 30]!r}')
        kind = m.lastgroup
        if kind not in ('space', 'comment'):
            out.append(Token(kind, m[0], i, spaced))
        # in the kit's language n+n is one name: an operator stands between spaces
        if kind == 'op' and m[0] != 'λ' and not (re.match(r'\s', text[i - 1:i]) and re.match(r'\s', text[m.end():m.end() + 1])):
            raise Refused(f'{where}: no spaces around {m[0]}: {text[max(0, i - 20):i + 20]!r}')
        if kind == 'number' and re.match(r"[\w'-]", text[m.end():m.end() + 1]):
            raise Refused(f'{where}: a name that begins with a digit: {text[i:i + 20]!r}')
        if re.match('0[0-9]', m[0]):
            raise Refused(f'{where}: a number that begins with 0: {m[0]}')
        spaced = kind in ('space', 'comment')
        i = m.end()
    return out


# ---- terms: ('name', x) ('number', n) ('string', s) ('app', f, x) ('op', o, a, b) ('bind', o, [(name, type, implicit)], body)
# ('lambda', names, body) ('typed', [(name, type, implicit)], body) ('if', c, a, b) ('record', base, {..}) ('field', e, f) ('pair', a, b) ('type',)
class Reader:
    def __init__(self, text, where):
        self.where, self.words, self.i = where, words(text, where), 0

    def peek(self, k=0):
        return self.words[self.i + k].text if self.i + k < len(self.words) else None

    def kind(self, k=0):
        return self.words[self.i + k].kind if self.i + k < len(self.words) else None

    def fail(self, why):
        near = ' '.join(w.text for w in self.words[max(0, self.i - 8):self.i + 6])
        raise Refused(f'{self.where}: {why}, near: {near}')

    def take(self):
        if self.i >= len(self.words):
            self.fail('the text ends')
        self.i += 1
        return self.words[self.i - 1].text

    def want(self, text):
        if self.peek() != text:
            self.fail(f'{text} wanted, {self.peek()} found')
        self.i += 1

    def end(self):
        if self.i != len(self.words):
            self.fail('not all is read')

    def binders(self):
        """Groups as (a b : A) {x : B}, if such stand here."""
        found = []
        while self.peek() in ('(', '{'):
            j = 1
            while self.kind(j) == 'name':
                j += 1
            if j == 1 or self.peek(j) != ':':
                break
            implicit, names = self.take() == '{', []
            while self.peek() != ':':
                names.append(self.take())
            self.want(':')
            kind = self.term()
            self.want('}' if implicit else ')')
            found += [(name, kind, implicit) for name in names]
        return found

    def term(self):
        """A whole term: an arrow, or anything tighter."""
        left = self.level(0)
        if self.peek() == '→':
            self.take()
            return ('op', '→', left, self.term())
        return left

    def level(self, least):
        left = self.prefix(least)
        while True:
            op = self.peek()
            if op not in FIXITY or FIXITY[op][0] < least:
                return left
            strength, side = FIXITY[op]
            self.take()
            right = self.level(strength if side == 'right' else strength + 1)
            left = ('op', op, left, right)
            if side is None and self.peek() in FIXITY and FIXITY[self.peek()][0] == strength:
                self.fail(f'{op} beside {self.peek()}')

    def prefix(self, least):
        groups = self.binders()
        if groups:
            op = self.peek()
            if op == '→':
                if least > 0:
                    self.fail('an arrow under an operator')
                self.take()
                return ('bind', '→', groups, self.term())
            if op == '×':
                if least > FIXITY['×'][0]:
                    self.fail('a pair type under a tighter operator')
                if any(implicit for _, _, implicit in groups):
                    self.fail('an implicit component')
                self.take()
                return ('bind', '×', groups, self.level(FIXITY['×'][0]))
            self.fail('a binder without → or ×')
        if self.peek() == 'if':
            if least > IF:
                self.fail('if under an operator')
            self.take()
            test = self.term()
            self.want('then')
            yes = self.term()
            self.want('else')
            return ('if', test, yes, self.level(IF))
        if self.peek() == 'λ':
            if least > 0:
                self.fail('λ under an operator')
            self.take()
            groups = self.binders()
            if any(implicit for _, _, implicit in groups):
                self.fail('an implicit argument of λ')
            if groups:
                self.want('.')
                return ('typed', groups, self.term())
            names = []
            while self.kind() == 'name':
                names.append(self.take())
            if not names:
                self.fail('λ without a name')
            self.want('.')
            return ('lambda', names, self.term())
        return self.application()

    def application(self):
        head = self.atom()
        while True:
            if self.peek() == '{':
                if head in (('name', 'Unit'),) and self.kind(1) == 'number':
                    self.take(), self.take(), self.want('}')
                    continue
                self.fail('an implicit argument')
            if self.kind() in ('name', 'number', 'string') and self.peek() not in ('then', 'else', 'in') or self.peek() in ('(', '[]', 'ℕ', '⊥'):
                head = ('app', head, self.atom())
            else:
                return head

    def atom(self):
        kind, text = self.kind(), self.take()
        if kind == 'number':
            return ('number', int(text, 0))
        if kind == 'string':
            return ('string', text[1:-1].replace('\\n', '\n'))
        if text in ('let', 'elim', 'where', 'open', 'do', 'with'):
            self.fail(f'the word {text}')
        if text == 'record':
            base = None if self.peek() == '{' else self.atom()
            self.want('{')
            fields = {}
            while self.peek() != '}':
                name = self.take()
                self.want('=')
                if name in fields:
                    self.fail('a field twice')
                fields[name] = self.term()
                if self.peek() != '}':
                    self.want(';')
            self.want('}')
            return ('record', base, fields)
        if text == 'Type':
            if self.kind() != 'number':
                self.fail('a level')
            self.take()
            return ('type',)
        if text == '(':
            inner = self.term()
            if self.peek() == ',':
                self.take()
                inner = ('pair', inner, self.term())
                if self.peek() == ',' and self.peek(1) == ')':
                    self.take()
                if self.peek() == ',':
                    self.fail('more than a pair')
            self.want(')')
            return self.fields(inner)
        if kind == 'name':
            return self.fields(('name', text))
        if text in ('[]', 'ℕ', '⊥'):
            return ('name', text)
        self.fail(f'{text} at the head of a term')

    def fields(self, e):
        while self.peek() == '.' and not self.words[self.i].spaced and self.i + 1 < len(self.words) and not self.words[self.i + 1].spaced:
            self.take()
            e = ('field', e, self.take())
        return e


# ---- sources
Item = namedtuple('Item', 'kind name text clauses where order')
HEAD = re.compile(r"(abbrev pub|unfoldable pub|abbrev|unfoldable|pub record|pub data|pub) ([^\s:({]+)")


# laws that are stated beside their names, in src/laws.rt, count as definitions of a file of this name
LAWS = 'laws'
LAW = re.compile(r"""(?P<use>ghost\ (?P<what>use\ [^;]*);\n)|(?P<blank>\n|//[^\n]*\n)
 |fn\ (?P<law>\w+)\(\)\n(?P<clauses>(?:\ {4}ensures(?:\ \w+)?\ \{[^{}]*\}\n)+)\{\}\n""", re.X)
# what a law states, unless it is a definition
CLAUSE = re.compile(r'    ensures(?: (\w+))? \{ ([^{}]*[^{}\w][^{}]*) \}\n')


def path_of(crate, name):
    return f'crates/{crate}/src/laws.rt' if name == LAWS else f'crates/{crate}/specs/{name}.antt'


def statement_name(law, clause):
    """The name of what a law states, or a clause of it: OneTextDecks for the clause decks of one_text."""
    return ''.join(word.capitalize() for word in f'{law}_{clause or ""}'.split('_'))


def blocks_of(text, path):
    """Each item of a file, and each clause: where it begins, and its lines."""
    blocks = []
    for number, line in enumerate(text.split('\n'), 1):
        if not line.strip() or line.startswith('--'):
            continue
        if '\t' in line: raise Refused(f'{path}:{number}: a tab')
        if line[0].isspace() or line[0] == '}':
            if not blocks: raise Refused(f'{path}:{number}: an indented line first')
            blocks[-1][1].append(line)
        else:
            blocks.append((f'{path}:{number}', [line]))
    return blocks


def blocks_of_laws(text, path):
    """The laws of a file of the code as blocks of definitions."""
    blocks, at = [], 0
    while at < len(text):
        where, m = f'{path}:{text[:at].count(chr(10)) + 1}', LAW.match(text, at)
        if not m: raise Refused(f'{where}: no law: {text[at:at + 40]!r}')
        if m['use']:
            blocks.append((where, [m['what']]))
        for clause, statement in CLAUSE.findall(m['clauses'] or ''):
            name = statement_name(m['law'], clause)
            blocks += [(where, [f'abbrev pub {name} : Type 0']), (where, [f'{name} = {statement}'])]
        at = m.end()
    return blocks


class Source:
    """A file of definitions: its items, and where it takes each name from."""

    def __init__(self, root, crate, name, order):
        self.crate, self.name, self.items, self.uses, self.aliases = crate, name, {}, {}, {}
        path = path_of(crate, name)
        text = (Path(root) / path).read_text()
        last = None
        for where, lines in (blocks_of_laws if name == LAWS else blocks_of)(text, path):
            text = '\n'.join(lines)
            if lines[0].startswith(('use ', 'pub use ')):
                self.use(text, where)
                continue
            if lines[0].startswith('pub mod ') or lines[0].startswith('infix'): raise Refused(f'{where}: {lines[0]}')
            # a clause of the last signature begins with its name and holds no colon of its own level
            if last and re.match(re.escape(last.name) + r'(\s|$)', lines[0]):
                last.clauses.append((text, where))
                continue
            m = HEAD.match(lines[0])
            if not m: raise Refused(f'{where}: no definition: {lines[0]}')
            if m[2] in self.items or m[2] in self.uses: raise Refused(f'{where}: {m[2]} twice')
            last = self.items[m[2]] = Item(m[1], m[2], text[m.end():], [], where, (*order, len(self.items)))
        self.constructors = {}
        for item in self.items.values():
            if item.kind == 'pub data':
                for name in re.findall(r'^  (\w+) :', item.text, re.M):
                    if name in {**self.constructors, **self.items, **self.uses}:
                        raise Refused(f'{item.where}: {name} twice')
                    self.constructors[name] = item

    def use(self, text, where):
        if m := re.fullmatch(r'use Rattle\.([\w.]+\.TheVariants) as (\w+)', text):
            if m[2] in self.aliases or m[2] in self.uses or m[2] in self.items: raise Refused(f'{where}: {m[2]} twice')
            self.aliases[m[2]] = m[1]
            return
        m = re.fullmatch(r'use Rattle\.([\w.]+)\.\{([^{}]*)\}', text, re.S)
        if not m:
            return  # other forms name modules or the prover's words; a name of theirs stays unknown
        for name in m[2].split(','):
            name = name.strip()
            if ' as ' in name: raise Refused(f'{where}: {name}')
            if name in self.uses: raise Refused(f'{where}: {name} twice')
            self.uses[name] = m[1]


# ---- the structs and enums of the code
def rust_types(text):
    """Pairs of a name and ('struct', [(field, type)]) or ('enum', [(variant, [(field, type)])]); of
    a name and the type of its Model; of a constant's name and its value."""
    text = re.sub(r'//[^\n]*|#\[[^\]]*\]', '', text)
    found, models, constants = [], [], []
    def fields(body):
        out = []
        for part in re.split(r',\s*(?![^()<>]*[)>])', body):
            part = ' '.join(part.split())
            if not part or part.startswith('pub ghost'):
                continue
            m = re.fullmatch(r'(?:pub(?:\([^)]*\))? )?(\w+): (.*)', part)
            if not m: raise Refused(f'a field: {part}')
            out.append((m[1], m[2]))
        return out
    def variants(body):
        out, rest = [], body.strip()
        while rest:
            m = re.match(r'(\w+)\s*(?:\{([^{}]*)\}|\(([^()]*)\))?\s*(?:,\s*|$)', rest)
            if not m: raise Refused(f'a variant: {rest[:40]}')
            places = [(str(n), kind.strip()) for n, kind in enumerate((m[3] or '').split(',')) if kind.strip()]
            out.append((m[1], fields(m[2] or '') + places))
            rest = rest[m.end():]
        return out
    for m in re.finditer(r"\bstruct (\w+)(?:<'\w+>)? \{(.*?)\n\}", text, re.S):
        # a ghost field may hold braces and commas: it says what is true, and is no data
        found.append((m[1], ('struct', fields(re.sub(r'pub ghost [^\n]*\n', '\n', m[2])))))
    for m in re.finditer(r'\benum (\w+) \{(.*?)\n\}', text, re.S):
        found.append((m[1], ('enum', variants(m[2]))))
    model = (r'\bimpl(?:<[^>]*>)? Model for (\w+)(?:<[^>]*>)? \{'
             r'(?:(?!\bimpl\b).)*?ghost Value = \{([^}]*)\}')
    for m in re.finditer(model, text, re.S):
        models.append((m[1], m[2].strip()))
    for m in re.finditer(r'\bpub const (\w+): \w+ = ([\d_]+|0x[0-9A-Fa-f_]+);', text):
        constants.append((m[1], int(m[2].replace('_', ''), 0)))
    return found, models, constants


class Code:
    """The structs, enums, models and constants of all crates, and where each is declared."""

    def __init__(self, root):
        self.types, self.models, self.constants, self.declared = {}, {}, {}, {}
        for path in sorted(Path(root).glob('crates/*/src/*.rt')):
            crate, module, text = path.parts[-3], path.stem, path.read_text()
            self.note(crate, module, text)
            try:
                found, models, constants = rust_types(text)
            except Refused:
                continue  # a type that is named below is then unknown
            self.types |= {(crate, name): it for name, it in found}
            self.models |= {(crate, name): it for name, it in models}
            self.constants |= {(crate, module, name): it for name, it in constants}

    def note(self, crate, module, text):
        """Notes each declaration of a file: what is read of a name holds only if it has one."""
        for number, line in enumerate(text.split('\n'), 1):
            at = f'crates/{crate}/src/{module}.rt:{number}'
            for m in re.finditer(r'\b(struct|enum|Model for|const) (\w+)', line.partition('//')[0]):
                key = (crate, m[2]) if m[1] != 'const' else (crate, module, m[2])
                kind = 'type' if m[1] in ('struct', 'enum') else m[1]
                self.declared.setdefault((kind, *key), []).append((module, at))

    def want_one(self, kind, key, where, module=None):
        """Refuses a name that a crate declares twice, or not in the file that is named."""
        found = self.declared.get((kind, *key), [])
        files = ', '.join(at for _, at in found)
        if len(found) > 1: raise Refused(f'{where}: {key[-1]} is declared twice: {files}')
        if module and [m for m, _ in found] != [module]:
            raise Refused(f'{where}: {key[-1]} is not declared in {module}: {files}')

    def crate_of(self, name, here):
        owners = [c for c, n in {**self.types, **{k: 0 for k in self.models}} if n == name]
        owner = here if here in owners else owners[0] if len(set(owners)) == 1 else None
        if owner is None: raise Refused(f'the type {name} of the code: {owners}')
        self.want_one('type', (owner, name), f'crates/{here}/src')
        self.want_one('Model for', (owner, name), f'crates/{here}/src')
        return owner

    def type_of(self, rust, here):
        """A type of the code as a term of the specs."""
        rust = rust.strip()
        if rust in ('u8', 'u16', 'u32', 'u64', 'usize'):
            return ('name', 'ℕ')
        if rust == 'bool':
            return ('name', 'Bool')
        if rust == 'str':
            return ('app', ('name', 'List'), ('name', 'ℕ'))
        if m := re.fullmatch(r"&'\w+ (.*)", rust):
            return ('ref', self.type_of(m[1], here))
        # the length of an array is dropped, as invariants are
        if m := re.fullmatch(r'\[(.*?)(?:; \d+)?\]', rust):
            return ('app', ('name', 'List'), self.type_of(m[1], here))
        if m := re.fullmatch(r'Option<(.*)>', rust):
            return ('app', ('name', 'Option'), self.type_of(m[1], here))
        name = re.sub(r"<'\w+>", '', rust)
        if not re.fullmatch(r'\w+', name): raise Refused(f'a type of the code: {rust}')
        crate = self.crate_of(name, here)
        if (crate, name) in self.models:
            return Reader(self.models[crate, name], name).term()
        return ('code', crate, name)


# ---- names
class World:
    def __init__(self, root):
        self.root, self.code, self.sources = root, Code(root), {}
        order = [l.split(':')[0] for l in (Path(root) / 'crates.txt').read_text().split('\n') if l and not l.startswith('#')]
        self.order = [entry.split()[0] for entry in order]
        for a, crate in enumerate(self.order):
            index = Path(root) / f'crates/{crate}/specs/Lib.antt'
            names = re.findall(r'^pub mod (\w+)', index.read_text(), re.M) if index.is_file() else []
            names += [LAWS] if (Path(root) / path_of(crate, LAWS)).is_file() else []
            for b, name in enumerate(names):
                self.sources[crate, name] = (a, b)
        self.read = {}

    def source(self, crate, name):
        if (crate, name) not in self.sources: raise Refused(f'no file {crate}/{name} of definitions')
        if (crate, name) not in self.read:
            self.read[crate, name] = Source(self.root, crate, name, self.sources[crate, name])
        return self.read[crate, name]

    def named(self, name):
        """The definition of this name, in whichever file it is."""
        found = [file for file in self.sources if self.defines(*file, name)]
        if len(found) != 1: raise Refused(f'{name} is defined in {found}')
        return ('spec', *found[0], name)

    def defines(self, crate, file, name):
        text = (Path(self.root) / path_of(crate, file)).read_text()
        if file == LAWS:
            laws = [(m['law'], m['clauses']) for m in LAW.finditer(text) if m['law']]
            return name in [statement_name(law, clause) for law, clauses in laws for clause, _ in CLAUSE.findall(clauses)]
        return re.search(rf"^(?:abbrev|unfoldable|pub)[\w ]* {re.escape(name)}\b", text, re.M)

    def resolve(self, source, name, where):
        """What a free name of a file means: ('spec', crate, file, name) ('constructor', ..) ('code', crate, type)
        ('variant', crate, type, name) ('constant', n) ('library', name)"""
        if name in ('Unit', '⊥', 'tt'):
            return ('library', name)
        if name in source.items:
            return ('spec', source.crate, source.name, name)
        if name in source.constructors:
            return ('constructor', source.crate, source.name, source.constructors[name].name, name)
        if '.' in name:
            alias, _, variant = name.partition('.')
            if m := re.fullmatch(r'(\w+)\.specs\.declared\.(\w+)\.(\w+)\.TheVariants', source.aliases[alias]):
                self.code.want_one('type', (m[1], m[3]), where, m[2])
                return ('variant', m[1], m[3], variant)
            raise Refused(f'{where}: {name}')
        if name not in source.uses: raise Refused(f'{where}: {name} is neither defined nor taken by use')
        path = source.uses[name]
        if path in LIBRARY_MODULES:
            if name not in LIBRARY: raise Refused(f'{where}: {name} of the library has no counterpart')
            return ('library', name)
        if m := re.fullmatch(r'(\w+)\.specs\.declared\.(\w+)\.(\w+)\.TheVariants', path):
            self.code.want_one('type', (m[1], m[3]), where, m[2])
            return ('variant', m[1], m[3], name)
        if m := re.fullmatch(r'(\w+)\.specs\.declared\.(\w+)\.TheConstants', path):
            self.code.want_one('const', (*m.groups(), name), where, m[2])
            value = self.code.constants.get((*m.groups(), name))
            if value is None: raise Refused(f'{where}: the constant {name}')
            return ('constant', value)
        if m := re.fullmatch(r'(\w+)\.specs\.declared\.(\w+)\.(\w+)', path):
            if m[3] != name: raise Refused(f'{where}: {path}.{name}')
            self.code.want_one('type', (m[1], name), where, m[2])
            return ('code', m[1], name)
        if m := re.fullmatch(r'(\w+)\.specs\.(\w+)', path):
            other = self.source(m[1], m[2])
            if name in other.items:
                return ('spec', m[1], m[2], name)
            if name in other.constructors:
                return ('constructor', m[1], m[2], other.constructors[name].name, name)
        raise Refused(f'{where}: {path}.{name} is unknown')


def parts(e):
    if isinstance(e, tuple):
        for x in e[1:]:
            yield from parts_of(x)


def parts_of(x):
    if isinstance(x, tuple) and x and isinstance(x[0], str):
        yield x
    elif isinstance(x, (list, tuple)):
        for y in x:
            yield from parts_of(y)
    elif isinstance(x, dict):
        for y in x.values():
            yield from parts_of(y)


def free(e, bound=frozenset()):
    """The names of a term that no binder of its own binds, and its operators as ◌op◌."""
    kind = e[0]
    if kind == 'name':
        return set() if e[1] in bound else {e[1]}
    if kind in ('bind', 'typed'):
        out, inner = {f'◌{e[1]}◌'} if kind == 'bind' else set(), set(bound)
        for name, t, _ in e[-2]:
            out |= free(t, frozenset(inner))
            inner.add(name)
        return out | free(e[-1], frozenset(inner))
    if kind == 'lambda':
        return free(e[2], bound | set(e[1]))
    out = {f'◌{e[1]}◌'} if kind == 'op' else {'if◌then◌else◌'} if kind == 'if' else set()
    for part in parts(e):
        out |= free(part, bound)
    return out


# ---- definitions, read
Abbrev = namedtuple('Abbrev', 'type clauses')          # clauses: [(patterns, term)]
Record = namedtuple('Record', 'params fields')         # [(name, type, implicit)], [(name, type)]
Data = namedtuple('Data', 'params index constructors')  # constructors: [(name, type)]


def read_rows(item, begins):
    """What stands before `where`, to be read, and the name and type of each row behind it."""
    head, sep, body = item.text.partition('where\n')
    pieces = re.split(begins, body, flags=re.M)
    if not sep or pieces[0].strip(): raise Refused(f'{item.where}: no rows behind where: {pieces[0]}')
    rows = []
    for piece in pieces[1:]:
        name, _, kind = piece.partition(' :')
        r = Reader(kind, item.where)
        rows.append((name.strip(), r.term()))
        r.end()
    return Reader(head, item.where), rows


def read_item(item):
    if item.kind == 'pub record':
        r, fields = read_rows(item, r'^  pub (?=\S+ :)')
        params = r.binders()
        r.want(':'), r.want('Type'), r.take(), r.end()
        return Record(params, fields)
    if item.kind == 'pub data':
        r, constructors = read_rows(item, r'^  (?=\S+ :)')
        params = r.binders()
        r.want(':')
        index = r.term()
        r.end()
        return Data(params, index, constructors)
    if item.kind == 'pub': raise Refused(f'{item.where}: {item.name} is a lemma or stays folded')
    r = Reader(item.text, item.where)
    r.want(':')
    kind = r.term()
    r.end()
    clauses = []
    for text, where in item.clauses:
        r = Reader(text, where)
        r.take()
        patterns = []
        while r.peek() != '=':
            patterns.append(r.atom())
        r.want('=')
        term = r.term()
        r.end()
        clauses.append((patterns, term))
    if not clauses or len({len(p) for p, _ in clauses}) != 1: raise Refused(f'{item.where}: the clauses of {item.name}')
    return Abbrev(kind, clauses)


HEAD_OF_FILE = ["(* Written by translate.py from the definitions of chanv. Don't edit. *)",
                'From Chanv Require Import Prelude.']


class Translation:
    def __init__(self, root, names):
        self.world = World(root)
        self.read, self.keys, self.in_patterns = {}, [], set()
        self.asked = [self.world.named(name) for name in names]
        for key in self.asked:
            self.visit(key)
        self.name_all()

    # the closure
    def visit(self, key):
        if key[0] == 'constructor':
            key = ('spec', *key[1:4])
        if key[0] == 'variant':
            key = ('code', *key[1:3])
        if key[0] in ('library', 'constant') or key in self.read:
            return
        self.read[key] = None
        if key[0] == 'code':
            it = self.world.code.types.get(key[1:])
            if it is None: raise Refused(f'no type {key[2]} in the code of {key[1]}')
            self.read[key] = it
            rows = it[1] if it[0] == 'struct' else [f for _, fs in it[1] for f in fs]
            for _, rust in rows:
                for part in self.code_parts(self.world.code.type_of(rust, key[1])):
                    self.visit(part)
            return
        source = self.world.source(key[1], key[2])
        item = source.items[key[3]]
        self.read[key] = self.qualified(read_item(item), source, item.where)
        for name in self.free_of(self.read[key], source, key[3]):
            if name not in ('◌→◌', '◌×◌'):
                self.visit(self.world.resolve(source, name, item.where))

    def qualified(self, it, source, where):
        """The item with q.V read as a name where q stands for the variants of a type."""
        def go(e):
            if isinstance(e, tuple) and e[:1] == ('field',) and e[1][0] == 'name' and e[1][1] in source.aliases:
                return ('name', f'{e[1][1]}.{e[2]}')
            if e in [('name', a) for a in source.aliases]: raise Refused(f'{where}: {e[1]} alone')
            if isinstance(e, tuple) and hasattr(e, '_fields'):
                return type(e)(*[go(x) for x in e])
            if isinstance(e, tuple):
                return tuple(go(x) for x in e)
            if isinstance(e, list):
                return [go(x) for x in e]
            if isinstance(e, dict):
                return {k: go(v) for k, v in e.items()}
            return e
        if not source.aliases:
            return it
        for e in walk_all(it):
            twice = bound_by(e) & set(source.aliases)
            if twice: raise Refused(f'{where}: {twice} stand for variants too')
        return go(it)

    def code_parts(self, t):
        if t[0] == 'code':
            yield t
        for p in parts(t):
            yield from self.code_parts(p)

    def is_constructor(self, source, name, where):
        """Whether a bare name in a pattern is a constructor in scope."""
        if '.' in name or name in CONSTRUCTORS and name in source.uses:
            return True
        if name in source.constructors:
            return True
        if name in source.uses:
            return self.world.resolve(source, name, where)[0] in ('constructor', 'variant')
        return False

    def pattern_names(self, p, source, where):
        """Variables, and free names, of a pattern."""
        if p[0] == 'name':
            return (set(), {p[1]}) if self.is_constructor(source, p[1], where) else ({p[1]}, set())
        if p[0] == 'app':
            f = p
            args = []
            while f[0] == 'app':
                args.append(f[2])
                f = f[1]
            if f[0] != 'name' or not self.is_constructor(source, f[1], where): raise Refused(f'{where}: a pattern with the head {f}')
            bound, out = set(), {f[1]}
            for a in args:
                b, o = self.pattern_names(a, source, where)
                bound |= b
                out |= o
            return bound, out
        if p[0] == 'pair' or p[:2] == ('op', '∷'):
            b1, o1 = self.pattern_names(p[-2], source, where)
            b2, o2 = self.pattern_names(p[-1], source, where)
            if b1 & b2 - {'_'}: raise Refused(f'{where}: a variable twice in a pattern')
            return b1 | b2, o1 | o2 | ({'◌∷◌'} if p[0] == 'op' else set())
        raise Refused(f'{where}: a pattern {p}')

    def free_of(self, it, source, name):
        where = source.items[name].where
        if isinstance(it, Abbrev):
            out = free(it.type)
            for patterns, term in it.clauses:
                bound = set()
                for p in patterns:
                    b, o = self.pattern_names(p, source, where)
                    if bound & b - {'_'}: raise Refused(f'{where}: a variable twice in a clause')
                    bound |= b
                    out |= o
                out |= free(term, frozenset(bound))
            return out
        out, bound = set(), set()
        for n, t, _ in it.params:
            out |= free(t, frozenset(bound))
            bound.add(n)
        if isinstance(it, Record):
            for n, t in it.fields:
                out |= free(t, frozenset(bound))
                bound.add(n)
        else:
            out |= free(it.index, frozenset(bound))
            for _, t in it.constructors:
                out |= free(t, frozenset(bound))
        return out

    def place(self, key, done, above):
        """Puts a definition after those that it rests on, whichever file comes first."""
        if key in above: raise Refused(f'{key} rests on itself by {above}')
        if key in done:
            return
        source = self.world.source(key[1], key[2])
        names = sorted(self.free_of(self.read[key], source, key[3]) - {'◌→◌', '◌×◌'})
        below = [self.world.resolve(source, n, '') for n in names]
        below = [('spec', *k[1:4]) if k[0] == 'constructor' else k for k in below]
        below = sorted((k for k in below if k[0] == 'spec' and k != key), key=lambda k: self.world.source(k[1], k[2]).items[k[3]].order)
        for k in below:
            self.place(k, done, (*above, key))
        done.add(key)
        self.keys.append(key)

    # Coq's names
    def name_all(self):
        self.keys = sorted((k for k in self.read if k[0] == 'code'), key=lambda k: (self.code_rank(k), k))
        specs = sorted((k for k in self.read if k[0] == 'spec'), key=lambda k: self.world.source(k[1], k[2]).items[k[3]].order)
        done = set()
        for k in specs:
            self.place(k, done, ())
        rows = []  # (key, plain name, name with its type or file)
        for key in self.keys:
            it = self.read[key]
            if key[0] == 'code':
                rows.append((key, key[2], None))
                if it[0] == 'enum':
                    rows += [(('variant', *key[1:], v), v, f'{key[2]}_{v}') for v, _ in it[1]]
            else:
                rows.append((key, key[3], f'{key[2]}_{key[3]}'))
                if isinstance(it, Data):
                    rows += [(('constructor', *key[1:], c), c, f'{key[3]}_{c}') for c, _ in it.constructors]
        taken = {v for v in LIBRARY.values() if v} | RESERVED | {'unit', 'Empty', 'prod', 'sum', 'sigT'}
        plain = {}
        for key, name, longer in rows:
            plain.setdefault(self.coq_name(name), []).append((key, longer))
        self.names = {}
        for name, some in plain.items():
            keep = [k for k, longer in some if longer is None] or ([some[0][0]] if len(some) == 1 and name not in taken else [])
            # a name that is asked for stays plain, and otherwise the first of several constructors has it
            keep = keep or [k for k, _ in some if k in self.asked and name not in taken]
            keep = keep or [k for k, _ in some if k[0] == 'constructor'][:1]
            # of variants in two crates that of the lower crate keeps the plain name
            if not keep and name not in taken and all(k[0] == 'variant' for k, _ in some):
                ranks = sorted((self.world.order.index(k[1]), k) for k, _ in some)
                keep = [ranks[0][1]] if ranks[0][0] < ranks[1][0] else []
            if len(keep) > 1 or name in taken and keep and some[0][1] is None: raise Refused(f'{name} names {keep}')
            for key, longer in some:
                self.names[key] = name if keep == [key] and name not in taken else self.coq_name(longer)
        if len(set(self.names.values())) != len(self.names): raise Refused('two definitions have one name')
        self.globals = set(self.names.values()) | taken
        # records, by name: fields with their types
        self.records = {}
        for key in self.keys:
            it = self.read[key]
            if isinstance(it, Record):
                self.records[key] = dict(it.fields)
            elif key[0] == 'code' and it[0] == 'struct':
                self.records[key] = {f: self.world.code.type_of(t, key[1]) for f, t in it[1]}
        for key, fields in self.records.items():
            self.globals |= {f'mk{self.names[key]}', *(f'{self.names[key]}_{f}' for f in fields)}

    def code_rank(self, key):
        """Types of the code stand after those that they name."""
        it = self.read[key]
        rows = it[1] if it[0] == 'struct' else [f for _, fs in it[1] for f in fs]
        below = [p for _, rust in rows for p in self.code_parts(self.world.code.type_of(rust, key[1]))]
        return 1 + max([self.code_rank(p) for p in below], default=0)

    @staticmethod
    def coq_name(name):
        return re.sub('-', '_', name)

    def variable(self, name):
        name = self.coq_name(name)
        # x1, x2 .. are what a definition matches, and tail1, tail2 .. rests of lists
        while name in self.globals or name in RESERVED or re.fullmatch(r'(x|tail)\d+', name):
            name += '_'
        return name

    # ---- types, where they are plain: they only help to choose the record of a field
    def type_key(self, t, source):
        while t and t[0] in ('app', 'ref'):
            t = t[1]
        if t and t[0] == 'code':
            return t
        if t and t[0] == 'name' and source and (t[1] in source.items or t[1] in source.uses):
            return self.world.resolve(source, t[1], '')
        return None

    def signature(self, name, scope):
        """The type of a free name, and the file to read it in."""
        key = self.world.resolve(scope.source, name, scope.where)
        if key[0] == 'spec' and isinstance(self.read.get(key), Abbrev):
            return self.read[key].type, self.world.source(key[1], key[2])
        return None, None

    def infer(self, e, scope):
        if e[0] == 'name':
            if e[1] in scope.types:
                return scope.types[e[1]]
            if e[1] in scope.bound:
                return None, None
            return self.signature(e[1], scope)
        if e[0] == 'app':
            n, f = 0, e
            while f[0] == 'app':
                n, f = n + 1, f[1]
            t, source = self.infer(f, scope)
            while t and n:
                if t[0] == 'op' and t[1] == '→':
                    t, n = t[3], n - 1
                elif t[0] == 'bind' and t[1] == '→':
                    n -= sum(not i for _, _, i in t[2])
                    t = t[3]
                else:
                    return None, None
            return (t, source) if n == 0 else (None, None)
        if e[0] == 'field':
            t, source = self.infer(e[1], scope)
            key = self.type_key(t, source) if t else None
            if t and t[0] == 'ref' and e[2] == 'now':
                return t[1], source
            if key in self.records and e[2] in self.records[key]:
                return self.records[key][e[2]], self.world.source(key[1], key[2]) if key[0] == 'spec' else None
        return None, None

    def record_of(self, e, field, scope):
        t, source = self.infer(e, scope)
        key = self.type_key(t, source) if t else None
        if key in self.records:
            if field not in self.records[key]: raise Refused(f'{scope.where}: {key} has no field {field}')
            return key
        # the type isn't plain: the only record that has all the fields taken of this variable. A wrong
        # choice is a type error in Coq.
        wanted = {field}
        if e[0] == 'name':
            wanted |= {x[2] for x in walk(scope.whole) if x[0] == 'field' and x[1] == e}
        some = [k for k, fields in self.records.items() if wanted <= set(fields)]
        if len(some) > 1:
            some = [k for k in some if not isinstance(self.read[k], Record) or not self.read[k].params] or some
        if len(some) > 1:
            # among several, those that this file takes
            inside = {self.world.resolve(scope.source, n, '') for n in scope.source.uses if n in {k[-1] for k in some}}
            some = [k for k in some if k in inside or k[1:3] == (scope.source.crate, scope.source.name)]
        if len(some) != 1: raise Refused(f'{scope.where}: the field {field} of {e} may be one of {some}')
        return some[0]

    # ---- Coq's text
    def show(self, e, scope, level=200):
        """A term at a place that takes operators up to a level of Coq's."""
        kind = e[0]
        def wrap(text, own):
            return text if own <= level else f'({text})'
        if kind == 'name':
            return self.show_name(e[1], scope)
        if kind == 'number':
            return str(e[1])
        if kind == 'string':
            return f'"{e[1]}"%string'
        if kind == 'type':
            return 'Type'
        if kind == 'code':
            return self.names[e]
        if kind == 'ref':
            return self.show(e[1], scope, level)
        if kind == 'app':
            words_, f = [], e
            while f[0] == 'app':
                words_.insert(0, f[2])
                f = f[1]
            # nat_lt a b and its like as operators
            if f[0] == 'name' and f[1] in ('nat_lt', 'nat_le', 'nat_eq') and len(words_) == 2 and f[1] not in scope.bound:
                self.show_name(f[1], scope)
                sign = {'nat_lt': '<?', 'nat_le': '<=?', 'nat_eq': '=?'}[f[1]]
                return wrap(f'{self.show(words_[0], scope, 60)} {sign} {self.show(words_[1], scope, 60)}', 70)
            shown = [self.show(f, scope, 9)]
            for x, t in zip(words_, self.explicit_types(f, scope) + [None] * len(words_)):
                shown.append(self.show_lambda(x, scope, t, 9) if x[0] == 'lambda' else self.show(x, scope, 9))
            return wrap(' '.join(shown), 10)
        if kind == 'field':
            if e[2] in ('0', '1'):
                return wrap(f'{("fst", "snd")[int(e[2])]} {self.show(e[1], scope, 9)}', 10)
            if e[2] == 'now':
                t, _ = self.infer(e[1], scope)
                if not t or t[0] != 'ref':
                    if t is None or self.type_key(t, scope.source) in self.records or e[1][0] != 'field':
                        raise Refused(f'{scope.where}: .now of {e[1]}')
                return self.show(e[1], scope, level)
            key = self.record_of(e[1], e[2], scope)
            # a projection of Coq takes the parameters of its record too
            blanks = ' _' * (len(self.read[key].params) if isinstance(self.read[key], Record) else 0)
            return wrap(f'{self.names[key]}_{e[2]}{blanks} {self.show(e[1], scope, 9)}', 10)
        if kind == 'pair':
            return f'({self.show(e[1], scope)}, {self.show(e[2], scope)})'
        if kind == 'if':
            self.operator('if◌then◌else◌', scope)
            return wrap(f'if {self.show(e[1], scope)} then {self.show(e[2], scope)} else {self.show(e[3], scope)}', 200)
        if kind == 'lambda':
            return self.show_lambda(e, scope, None, level)
        if kind == 'typed':
            inner, shown = scope, ''
            for n, t, _ in e[1]:
                text = self.show(t, inner)
                inner = inner.under([(n, (t, scope.source))], self)
                shown += f' ({inner.bound[n]} : {text})'
            return wrap(f'fun{shown} => {self.show(e[2], inner)}', 200)
        if kind == 'bind':
            inner, shown = scope, []
            for n, t, implicit in e[2]:
                text = inner_text = self.show(t, inner)
                inner = inner.under([(n, (t, scope.source))], self)
                shown.append((inner.bound[n], text, implicit))
            body = self.show(e[3], inner, 200 if e[1] == '→' else 99)
            if e[1] == '→':
                groups = ' '.join(f'{{{n} : {t}}}' if i else f'({n} : {t})' for n, t, i in shown)
                return wrap(f'forall {groups}, {body}', 200)
            for n, t, _ in reversed(shown):
                body = f'{{{n} : {t} & {body}}}'
            return body
        if kind == 'record':
            # of what a reference leads to, and its value, only the value is there: the reference that
            # leads to another value is that value
            if e[1] is not None and e[1][0] == 'field' and set(e[2]) == {'now'}:
                t, _ = self.infer(e[1], scope)
                if not t or t[0] != 'ref': raise Refused(f'{scope.where}: now of {e[1]}')
                return self.show(e[2]['now'], scope, level)
            if e[1] is not None:
                key = self.record_base(e, scope)
                parts_ = [self.show(e[2][f], scope, 9) if f in e[2] else
                          f'({self.names[key]}_{f} {self.show(e[1], scope, 9)})' for f in self.records[key]]
            else:
                some = [k for k, fields in self.records.items() if set(fields) == set(e[2])]
                # of several, where the record is all that the definition gives, the one of its type
                if len(some) > 1 and e == scope.whole and '\0result' in scope.types:
                    some = [k for k in some if k == self.type_key(*scope.types['\0result'])]
                if len(some) != 1: raise Refused(f'{scope.where}: a record with the fields {list(e[2])}')
                key = some[0]
                parts_ = [self.show(e[2][f], scope, 9) for f in self.records[key]]
            return wrap(f'mk{self.names[key]} {" ".join(parts_)}', 10)
        if kind == 'op':
            op = e[1]
            if op not in ('→', '×'):
                self.operator(f'◌{op}◌', scope)
            sign, own = COQ[op]
            left, right = own - 1, own - 1
            side = 'right' if op == '→' else FIXITY[op][1]
            # Coq groups these to the same side as the kit, all but ++, whose left nesting gets parentheses
            if side == 'left' and op != '++':
                left = own
            if side == 'right':
                right = own
            if op in ('&&', '||'):
                # Coq has these at the levels of * and +
                left = own if e[2][0] == 'op' and e[2][1] == op else 10
                right = 10
            if op in ('*', '%', '/'):
                left = own if e[2][0] == 'op' and e[2][1] == op == '*' else 10
            if op == '^':
                left = right = 10
            if op == '→':
                right = 200
            return wrap(f'{self.show(e[2], scope, left)} {sign} {self.show(e[3], scope, right)}', own if op != '→' else 99)
        raise Refused(f'{scope.where}: {kind}')

    def show_lambda(self, e, scope, t, level):
        """A function; t is its type, where it is plain, and the file to read that in."""
        pairs, (kind, source) = [], t or (None, None)
        for n in e[1]:
            plain = kind and kind[0] == 'op' and kind[1] == '→'
            pairs.append((n, (kind[2], source) if plain else None))
            kind = kind[3] if plain else None
        inner = scope.under(pairs, self)
        text = f'fun {" ".join(inner.bound[n] for n in e[1])} => {self.show(e[2], inner)}'
        return text if level >= 200 else f'({text})'

    def explicit_types(self, f, scope):
        """The types of the explicit arguments of a name."""
        if f[0] != 'name' or f[1] in scope.bound:
            return []
        key = self.world.resolve(scope.source, f[1], scope.where)
        if key[0] != 'spec':
            return []
        it, source, out = self.read[key], self.world.source(key[1], key[2]), []
        if not isinstance(it, Abbrev):
            return [(t, source) for _, t, implicit in it.params if not implicit]
        t = it.type
        while t[0] == 'bind' and t[1] == '→' or t[0] == 'op' and t[1] == '→':
            out += [(t[2], source)] if t[0] == 'op' else [(k, source) for _, k, i in t[2] if not i]
            t = t[3]
        return out

    def record_base(self, e, scope):
        t, source = self.infer(e[1], scope)
        key = self.type_key(t, source) if t else None
        if key not in self.records or not set(e[2]) <= set(self.records[key]):
            raise Refused(f'{scope.where}: the record that is changed in {list(e[2])}')
        return key

    def operator(self, name, scope):
        if name not in scope.source.uses or scope.source.uses[name] not in LIBRARY_MODULES:
            raise Refused(f'{scope.where}: {name} is not taken from the library')

    def show_name(self, name, scope):
        if name in scope.bound:
            return scope.bound[name]
        key = self.world.resolve(scope.source, name, scope.where)
        if key[0] == 'library':
            return {'Unit': 'unit', '⊥': 'Empty', 'tt': 'tt'}.get(name) or LIBRARY[name]
        if key[0] == 'constant':
            return str(key[1])
        return self.names[key]

    # ---- definitions
    def emit(self, key):
        it = self.read[key]
        if key[0] == 'code':
            if it[0] == 'struct':
                rows = ';\n'.join(f'  {key[2]}_{f} : {self.show(self.world.code.type_of(t, key[1]), LIBRARY_SCOPE)}' for f, t in it[1])
                return f'Record {key[2]} : Type := mk{key[2]} {{\n{rows}\n}}.\n'
            rows = []
            for v, fs in it[1]:
                args = ''.join(f' ({"x" * f.isdigit()}{f}_ : {self.show(self.world.code.type_of(t, key[1]), LIBRARY_SCOPE)})' for f, t in fs)
                rows.append(f'  | {self.names[("variant", *key[1:], v)]}{args}')
            return f'Inductive {key[2]} : Type :=\n' + '\n'.join(rows) + '.\n'
        source = self.world.source(key[1], key[2])
        item = source.items[key[3]]
        scope = Scope(source, item.where, {}, {}, None)
        name = self.names[key]
        if isinstance(it, Record):
            params, scope = self.params(it.params, scope)
            rows = []
            for f, t in it.fields:
                scope = scope._replace(whole=t)
                rows.append(f'  {name}_{f} : {self.show(t, scope)}')
                scope = scope._replace(bound={**scope.bound, f: f'{name}_{f}'}, types={**scope.types, f: (t, source)})
            return f'Record {name}{params} : Type := mk{name} {{\n' + ';\n'.join(rows) + '\n}.\n'
        if isinstance(it, Data):
            params, scope = self.params(it.params, scope)
            index = self.show(it.index, scope._replace(whole=it.index))
            rows = [f'  | {self.names[("constructor", *key[1:], c)]} : {self.show(t, scope._replace(whole=t))}' for c, t in it.constructors]
            return f'Inductive {name}{params} : {index} :=\n' + '\n'.join(rows) + '.\n'
        return self.emit_abbrev(key, it, source, item, name, scope)

    def params(self, params, scope):
        out = ''
        for n, t, implicit in params:
            text = self.show(t, scope._replace(whole=t))
            scope = scope.under([(n, (t, scope.source))], self)
            out += f' {{{scope.bound[n]} : {text}}}' if implicit else f' ({scope.bound[n]} : {text})'
        return out, scope

    def emit_abbrev(self, key, it, source, item, name, scope):
        count = len(it.clauses[0][0])
        args, rest = [], it.type    # (name or None, type, implicit)
        while sum(not i for _, _, i in args) < count or rest[0] == 'bind' and rest[1] == '→' and all(i for _, _, i in rest[2]):
            if rest[0] == 'op' and rest[1] == '→':
                args.append((None, rest[2], False))
                rest = rest[3]
            elif rest[0] == 'bind' and rest[1] == '→':
                args += rest[2]
                rest = rest[3]
            else:
                raise Refused(f'{item.where}: more patterns than arrows')
        if sum(not i for _, _, i in args) != count: raise Refused(f'{item.where}: patterns and arguments')
        columns = list(zip(*[p for p, _ in it.clauses])) if count else []
        is_variable = lambda p: p[0] == 'name' and not self.is_constructor(source, p[1], item.where)
        # a column of one and the same variable is a parameter; any other is matched
        fixed = [all(is_variable(p) for p in c) and len({p[1] for p in c}) == 1 and c[0][1] != '_' for c in columns]
        params, matched, k = '', [], 0
        outer = scope
        for n, t, implicit in args:
            text = self.show(t, scope._replace(whole=t))
            if implicit:
                scope = scope.under([(n, (t, source))], self)
                params += f' {{{scope.bound[n]} : {text}}}'
                continue
            if fixed[k]:
                v = columns[k][0][1]
                scope = scope.under([(v, (t, source))], self)
                params += f' ({scope.bound[v]} : {text})'
            else:
                params += f' (x{k + 1} : {text})'
                matched.append((k, t))
            if n is not None:    # a dependent argument: its name in the rest of the type
                scope = scope._replace(bound={**scope.bound, n: scope.bound[columns[k][0][1]] if fixed[k] else f'x{k + 1}'},
                                       types={**scope.types, n: (t, source)})
            k += 1
        if len({v for c, f in zip(columns, fixed) if f for v in [c[0][1]]}) != sum(fixed): raise Refused(f'{item.where}: a variable twice')
        result = self.show(rest, scope._replace(whole=rest))
        scope = scope._replace(types={**scope.types, '\0result': (rest, source)})
        recursive = any(('name', key[3]) in list(walk(term)) for _, term in it.clauses)
        head = f'{"Fixpoint" if recursive else "Definition"} {name}{params} : {result} :='
        if not matched:
            if len(it.clauses) != 1: raise Refused(f'{item.where}: clauses that are never reached')
            return f'{head}\n  {self.show(it.clauses[0][1], scope._replace(whole=it.clauses[0][1]))}.\n'
        rows = []
        for patterns, term in it.clauses:
            inner, shown, tails = scope, [], []
            for k, t in matched:
                text, inner = self.show_pattern(patterns[k], (t, source), inner, tails)
                shown.append(text)
            # a recursion on the rest of a list that a pattern takes apart again goes by Coq's as
            for sub, alias in tails:
                term = replace(term, sub, ('coq', alias), free(sub))
            rows.append(f'  | {", ".join(shown)} => {self.show_with_tails(term, inner._replace(whole=term))}')
        return f'{head}\n  match {", ".join(f"x{k + 1}" for k, _ in matched)} with\n' + '\n'.join(rows) + '\n  end.\n'

    def show_with_tails(self, term, scope):
        return self.show(replace_coq(term, scope), scope._replace(bound={**scope.bound, **{f'\0{a}': a for a in coq_names(term)}}))

    def show_pattern(self, p, t, scope, tails):
        """Coq's text of a pattern, and the scope under it. t is its type and the file to read that in."""
        if p[0] == 'name':
            if self.is_constructor(scope.source, p[1], scope.where):
                return self.show_name(p[1], scope._replace(bound={})), scope
            if p[1] == '_':
                return '_', scope
            scope = scope.under([(p[1], t)], self)
            self.in_patterns.add(scope.bound[p[1]])
            return scope.bound[p[1]], scope
        if p[0] == 'op':
            item = (t[0][2], t[1]) if t and t[0][0] == 'app' else None
            first, scope = self.show_pattern(p[2], item, scope, tails)
            rest, scope = self.show_pattern(p[3], t, scope, tails)
            if p[3][0] == 'op':
                alias = f'tail{len(tails) + 1}'
                tails.append((p[3], alias))
                rest = f'({rest} as {alias})'
            return f'({first} :: {rest})', scope
        if p[0] == 'pair':
            a, b = ((t[0][2], t[1]), (t[0][3], t[1])) if t and t[0][0] == 'op' and t[0][1] == '×' else (None, None)
            first, scope = self.show_pattern(p[1], a, scope, tails)
            second, scope = self.show_pattern(p[2], b, scope, tails)
            return f'({first}, {second})', scope
        f, args = p, []
        while f[0] == 'app':
            args.insert(0, f[2])
            f = f[1]
        kinds = self.argument_types(f[1], t, scope)
        texts = [self.show_name(f[1], scope._replace(bound={}))]
        if kinds and len(kinds) != len(args): raise Refused(f'{scope.where}: the arguments of {f[1]}')
        for a, k in zip(args, kinds or [None] * len(args)):
            text, scope = self.show_pattern(a, k, scope, tails)
            texts.append(text)
        return f'({" ".join(texts)})', scope

    def argument_types(self, name, t, scope):
        if name == 'Some' and t and t[0][0] == 'app':
            return [(t[0][2], t[1])]
        if name == 'suc':
            return [(('name', 'ℕ'), None)]
        key = self.world.resolve(scope.source, name, scope.where)
        if key[0] == 'constructor':
            out, t, source = [], dict(self.read['spec', *key[1:4]].constructors)[name], self.world.source(key[1], key[2])
            while t[0] == 'bind' or t[0] == 'op' and t[1] == '→':
                if t[0] == 'op':
                    out.append((t[2], source))
                    t = t[3]
                else:
                    out += [(k, source) for _, k, i in t[2] if not i]
                    t = t[3]
            return out
        if key[0] == 'variant':
            fields = dict(self.read['code', *key[1:3]][1])[key[3]]
            return [(self.world.code.type_of(r, key[1]), None) for _, r in fields]
        return None

    def text(self):
        out, last = [], None
        for key in self.keys:
            where = f'{key[1]}, of the code' if key[0] == 'code' else path_of(*key[1:3]).removeprefix('crates/')
            if where != last:
                out.append(f'\n(* ---- {where} *)\n')
                last = where
            out.append(self.emit(key))
        return '\n'.join([*HEAD_OF_FILE, self.patterns(), *out])

    def patterns(self):
        """Lines over which Coq fails if it takes a variable of a pattern for a constructor."""
        tried = [f'match t with {name} => tt end;' for name in sorted(self.in_patterns)]
        tried = '\n'.join(' '.join(tried[i:i + 3]) for i in range(0, len(tried), 3))
        return f'''
(* what a pattern below binds is no constructor of Coq: each of these names matches anything *)
Goal forall (T : Type) (t : T), list unit.
intros T t. exact [
{tried} tt].
Abort.
'''


def walk(e):
    yield e
    for p in parts(e):
        yield from walk(p)


def walk_all(it):
    for e in parts_of(list(it)):
        yield from walk(e)


def replace(e, a, b, names=frozenset()):
    """The term with b for a, but not under a binder of these names: where a means another thing."""
    if e == a:
        return b
    if isinstance(e, tuple) and names & bound_by(e):
        return e
    if isinstance(e, tuple):
        return tuple(replace(x, a, b, names) for x in e)
    if isinstance(e, list):
        return [replace(x, a, b, names) for x in e]
    if isinstance(e, dict):
        return {k: replace(v, a, b, names) for k, v in e.items()}
    return e


def bound_by(e):
    """The names that a term itself binds in its parts."""
    if e[:1] in (('bind',), ('typed',)):
        return {name for name, _, _ in e[-2]}
    return {*e[1]} if e[:1] == ('lambda',) else set()


def coq_names(e):
    return {x[1] for x in walk(e) if x[0] == 'coq'}


def replace_coq(e, scope):
    for a in coq_names(e):
        e = replace(e, ('coq', a), ('name', f'\0{a}'))
    return e


class Scope(namedtuple('Scope', 'source where bound types whole')):
    """Where a term stands: its file, the bound names with Coq's names for them, and their types."""

    def under(self, names, translation):
        bound, types = dict(self.bound), dict(self.types)
        for n, t in names:
            v = translation.variable(n)
            while v in bound.values() and bound.get(n) != v:
                v += '_'
            bound[n] = v
            types.pop(n, None)
            if t:
                types[n] = t
        return self._replace(bound=bound, types=types)


class Library:
    """The scope of the types of the code: the library's names alone."""
    crate = name = ''
    items, constructors, aliases = {}, {}, {}
    uses = {name: 'std.specs.Prelude' for name in LIBRARY}


LIBRARY_SCOPE = Scope(Library, 'the code', {}, {}, None)

if __name__ == '__main__':
    if len(sys.argv) < 3:
        sys.exit(__doc__)
    try:
        translation = Translation(sys.argv[1], sys.argv[2:])
        text = translation.text()
    except Refused as why:
        sys.exit(f'translate.py: {why}')
    print(text)
    specs = [k for k in translation.keys if k[0] == 'spec']
    print(f'{len(specs)} definitions of {len({k[1:3] for k in specs})} files, {len(translation.keys) - len(specs)} types of the code', file=sys.stderr)
