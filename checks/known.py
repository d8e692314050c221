"""What the crates define, by name: enums, structs, constants, functions and their types.

It is taken from the sources as text. If several functions or fields share a name, those of the same
crate count; if these have different types, none counts.
"""
import re
from collections import defaultdict, namedtuple
from functools import cache

from items import QUOTED, files_of, holder_of, without_comments

ENUM = re.compile(r"^(?:pub )?enum (\w+).*?\{\n(.*?)^\}", re.MULTILINE | re.DOTALL)
STRUCT = re.compile(r"^(?:pub )?struct (\w+)[^;{(]*?\{\n(.*?)^\}", re.MULTILINE | re.DOTALL)
FIELD = re.compile(r"^    (?:pub(?:\(crate\))? )?(\w+): (.*),$", re.MULTILINE)
CONSTANT = re.compile(r"^( *)(?:pub(?:\(crate\))? )?const ([A-Z]\w*): (.*?) =", re.MULTILINE)
FUNCTION = re.compile(
    r"^( *)(?:pub(?:\(crate\))? )?(?:(?:final|const|unsafe|extern \"C\") )*fn (\w+)(?:<[^(]*>)?"
    r"\(([^)]*)\)(?:\s*-> ([^\n{;]+))?",
    re.MULTILINE,
)
# A function that only passes its parameters to another one.
FORWARDS = re.compile(
    r"\bfn (\w+)\([^)]*\)[^{}]*?(?:ensures \{[^;]*?\}\n)?\{\n    (\w+)\([\w, ]*\)\n\}"
)
# A function or a method: its place, whether it takes `self`, the types of its other parameters, and
# its result type.
Function = namedtuple("Function", "file holder takes_self types result")
# Methods and macros of std that have the same signature.
ALIKE = "first last|min max|next next_back|is_some is_none|is_ok is_err|starts_with ends_with"
ALIKE += "|strip_prefix strip_suffix|trim_start trim_end|checked_add checked_sub|all any"
ALIKE += "|split_first split_last"
ALIKE = {
    one: other for pair in ALIKE.split("|") for one, other in [pair.split(), pair.split()[::-1]]
}
INTEGER = re.compile(r"[ui](?:8|16|32|64|128|size)")
FIXED = {"bool": "false", "&str": '""', "&'a str": '""', "&[u8]": 'b""', "char": "'零'"}


def split(words):
    """The parts of a text between commas, except those in brackets."""
    parts, depth = [""], 0
    for sign in re.findall(rf"{QUOTED}|=>|->|.", words, re.DOTALL):
        depth += (sign in ("(", "[", "{")) - (sign in (")", "]", "}"))
        if sign == "," and depth == 0:
            parts.append("")
        else:
            parts[-1] += sign
    return parts if parts[-1].strip() else parts[:-1]


def parameters(words):
    """The names of a function's parameters with their types."""
    pairs = (it.partition(":") for it in split(words) if ":" in it)
    return {
        name.removeprefix("mut ").strip(): " ".join(kind.split())
        for name, _, kind in ((one.strip(), sign, kind) for one, sign, kind in pairs)
    }


class Known:
    """The definitions of all crates. A place is CRATE/FILE."""

    def __init__(self, crates):
        self.variants, self.values = {}, defaultdict(dict)
        self.functions, self.fields = defaultdict(list), defaultdict(list)
        self.constants, self.imports, self.defined = {}, {}, defaultdict(set)
        self.forwarded = set()
        for crate in sorted(crates):
            for file, text in files_of(crate):
                self.read(f"{crate.name}/{file}", without_comments(text))

    def read(self, file, text):
        for name, block in ENUM.findall(text):
            self.read_enum(name, re.sub(r"#\[[^\n]*\]", "", block))
        for name, block in STRUCT.findall(text):
            for field, kind in FIELD.findall(block):
                same = [it for it, other in FIELD.findall(block) if other == kind]
                self.fields[field].append((file, kind, next_of(field, same)))
            self.defined[file].add(name)
        for both in FORWARDS.findall(text):
            self.forwarded |= {both, both[::-1]}
        holders = [(0, None)]
        for line in re.finditer(r"^(?:impl|pub trait|trait)\b.*", text, re.MULTILINE):
            holder = holder_of(line[0], line.start(), [], {})
            holders.append((line.start(), holder and holder.name))
        for it in CONSTANT.finditer(text):
            holder = holders_at(holders, it) if it[1] else None
            self.constants.setdefault(holder, []).append((it[2], it[3]))
            self.defined[file] |= set() if holder else {it[2]}
        for it in FUNCTION.finditer(text):
            holder = holders_at(holders, it) if it[1] else None
            types = tuple(parameters(it[3]).values())
            takes_self = bool(re.match(r"\s*(?:&(?:'\w+ )?)?(?:mut )?self\b", it[3]))
            result = " ".join((it[4] or "()").split())
            self.functions[it[2]].append(Function(file, holder, takes_self, types, result))
            self.defined[file] |= set() if holder else {it[2]}
        self.imports[file] = set(
            re.findall(r"\w+", " ".join(re.findall(r"^use ([^;]*);", text, re.M)))
        )

    def read_enum(self, name, block):
        kinds = re.findall(r"^    (\w+) *((?:\([^;]*?\)| \{.*?\n?.*?\})?),\n", block, re.M)
        for variant, shape in kinds:
            same = [it for it, other in kinds if other == shape]
            self.variants[name, variant] = next_of(variant, same)
            if not shape:
                self.values[name][f"{name}::{variant}"] = None

    @cache
    def of(self, name, crate):
        """The functions of a name, if all that count have the same types."""
        own = own_of(self.functions.get(name, []), crate)
        return own if len({(it.types, it.result) for it in own}) == 1 else []

    @cache
    def field(self, name, crate):
        """The type of a field, and another field of this type in its struct."""
        own = own_of(self.fields.get(name, []), crate)
        return own[0][1:] if len({it[1:] for it in own}) == 1 else (None, None)

    @cache
    def fixed(self, kind, place):
        """Fixed values of a type that the code of a file can name."""
        if INTEGER.fullmatch(kind):
            return ["0"]
        if kind in FIXED:
            return [FIXED[kind]]
        if kind.startswith("Option<"):
            return ["None"]
        constants = self.constants.get(kind, [])
        names = [f"{kind}::{it}" for it, its in constants if its in (kind, "Self")]
        return [*names, *self.values.get(kind, {})][:2] if kind in self.visible(place) else []

    @cache
    def visible(self, place):
        """The names that a file imports or defines."""
        return self.imports[place] | self.defined[place]

    @cache
    def other_function(self, name, place, is_method):
        """A function with the same signature that can be called in the same place."""
        if name in ALIKE:
            return ALIKE[name]
        found = self.of(name, place.partition("/")[0])
        if not found or found[0].takes_self != is_method:
            return None
        one, visible = found[0], self.visible(place)
        alike = [
            other
            for other, its in self.functions.items()
            if its[0][1:] == one[1:]
            and (its[0].file == one.file if is_method else other in visible)
            and (name, other) not in self.forwarded
        ]
        return next_of(name, alike)

    @cache
    def other_constant(self, name, holder, place):
        """A constant of the same type that can be named in the same place."""
        both, visible = self.constants.get(holder, []), self.visible(place)
        both = [it for it in both if holder or it[0] in visible]
        kinds = {its for it, its in both if it == name}
        return next_of(name, [it for it, its in both if its in kinds]) if len(kinds) == 1 else None


def own_of(found, crate):
    """Those of a crate, or all if it has none."""
    return [it for it in found if it[0].startswith(f"{crate}/")] or found


def next_of(one, alike):
    """The next one in a list of alternatives, or None."""
    alike = list(dict.fromkeys(alike))
    other = alike[(alike.index(one) + 1) % len(alike)] if one in alike else one
    return None if other == one else other


def holders_at(holders, found):
    return [name for at, name in holders if at <= found.start()][-1]
