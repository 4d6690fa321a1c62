"""The structs and enums of the sources in Rust as Coq has to declare them, for coq_written."""

import re
from functools import cache

from coq_text import Record

NUMBERS = {"u8", "u16", "u32", "u64", "usize"}
OPENING, CLOSING = "({[<", ")}]>"
MODEL = r"\bghost Value = \{([^}]*)\}"
LEFT_OUT = re.compile(r"//[^\n]*|#\[[^\]]*\]|pub ghost [^\n]*\n")


@cache
def code_of(root, crate):
    """All sources of a crate without comments, attributes and ghost fields."""
    paths = sorted((root / f"crates/{crate}/src").glob("*.rt"))
    return "\n".join(LEFT_OUT.sub("\n", path.read_text()) for path in paths)


def parts_of(body):
    """What commas divide, outside of all brackets."""
    found, depth = [""], 0
    for sign in body:
        depth += (sign in OPENING) - (sign in CLOSING)
        if sign == "," and depth == 0:
            found.append("")
        else:
            found[-1] += sign
    return [" ".join(it.split()) for it in found if it.strip()]


def within(text, at):
    """What the bracket at this place holds."""
    depth = 0
    for end in range(at, len(text)):
        depth += (text[end] in "({[") - (text[end] in ")}]")
        if depth == 0:
            return text[at + 1 : end]
    return None


def members(root, crate, name):
    """The members of the one type of this name: ('struct' or 'enum', their texts)."""
    text = code_of(root, crate)
    [found] = re.finditer(rf"\b(struct|enum) {name}\b(?:<'\w+>)?\s*(?=\{{)", text)
    return found[1], parts_of(within(text, found.end()))


def fields_of(member, numbered):
    """The fields of a struct, or of a variant: (name, type)."""
    if numbered:
        return [(str(n), kind) for n, kind in enumerate(parts_of(member))]
    pairs = [re.fullmatch(r"(?:pub(?:\([^)]*\))? )?(\w+): (.*)", it) for it in parts_of(member)]
    return [(it[1], it[2]) for it in pairs]


def variant_of(member):
    """The name of a variant, and its fields."""
    name = re.match(r"\w+", member)[0]
    rest = member[len(name) :].strip()
    return name, fields_of(rest[1:-1], rest[0] == "(") if rest else []


class Types:
    """Compares types of the code with items of the text; `means` has what Coq's names mean."""

    def __init__(self, root, means):
        self.root, self.means = root, means

    def is_type(self, rust, written, crate):
        """Whether a type of Coq has the values of a type of Rust, as the definitions see them."""
        rust = re.sub(r"^&(?:'\w+ )?", "", rust.strip())
        if rust in NUMBERS or rust == "bool":
            return written == ("name", "bool" if rust == "bool" else "nat")
        if rust == "str":
            return written == ("app", ("name", "list"), ("name", "nat"))
        list_of = re.fullmatch(r"\[(.*?)(?:; \d+)?\]", rust)
        for form, found in (("list", list_of), ("option", re.fullmatch(r"Option<(.*)>", rust))):
            if found:
                is_form = written[0] == "app" and written[1] == ("name", form)
                return is_form and self.is_type(found[1], written[2], crate)
        name = re.sub(r"<'\w+>", "", rust)
        model = self.model(name, crate)
        if model:
            return as_model(written) == model
        meaning = self.means.get(written[1]) if written[0] == "name" else None
        return meaning is not None and meaning[0] == "type" and meaning[2] == name

    def model(self, name, crate):
        """The words of the type that the definitions see for a type of the code, or None."""
        for one in [crate, *(path.name for path in sorted((self.root / "crates").iterdir()))]:
            text = code_of(self.root, one) if (self.root / "crates" / one / "src").is_dir() else ""
            found = re.search(rf"(?s)\bModel for {name}\b(?:(?!\bimpl\b).)*?{MODEL}", text)
            if found or re.search(rf"\b(?:struct|enum) {name}\b", text):
                return re.findall(r"\w+|[ℕ×]", found[1]) if found else None
        return None

    def is_declared(self, item, crate, name):
        """Whether an item of the text has the members of the type of the code, in their order."""
        kind, found = members(self.root, crate, name)
        if isinstance(item, Record):
            fields = fields_of(", ".join(found), False)
            return kind == "struct" and self.are_fields(item.fields, fields, f"{name}_", "", crate)
        variants = [variant_of(it) for it in found]
        return kind == "enum" and len(variants) == len(item.constructors) and all(
            written in (variant, f"{name}_{variant}")
            and kind is None
            and self.are_fields([it[:2] for it in params], fields, "", "_", crate)
            for (variant, fields), (written, params, kind) in zip(variants, item.constructors)
        )

    def are_fields(self, written, fields, before, behind, crate):
        return len(written) == len(fields) and all(
            one == f"{before}{'x' * (name.isdigit() and not before)}{name}{behind}"
            and self.is_type(rust, kind, crate)
            for (one, kind), (name, rust) in zip(written, fields)
        )


def as_model(written):
    """The words of a type of Coq in the notation of the specs."""
    kinds = {"nat": "ℕ", "bool": "Bool", "list": "List", "option": "Option"}
    if written[0] == "name":
        return [kinds.get(written[1], written[1])]
    if written[0] == "app":
        return [*as_model(written[1]), *as_model(written[2])]
    if written[:2] == ("op", "×"):
        return [*as_model(written[2]), "×", *as_model(written[3])]
    return []
