"""The mutants of a crate: each changes one value of a function or a constant.

Contracts, ghost items, tests and everything outside bodies stay as they are. So does a function
without a contract, such as `main`, which only tests can check. A literal or an operator becomes its
opposite or neighbor; other values become a fixed value of their type, a neighboring field, constant
or variant, or a variable or function of the same type. An early return or a guard is dropped, two
arguments of the same type are exchanged, and a table that is returned becomes empty. In a table,
and in literals of patterns that have their own lines, one entry is changed for each kind of value,
drawn at random with the table's name as seed. The value that fills an array, as in `[0; N]`, stays.
"""
import random
import re
from collections import namedtuple
from functools import cache

from items import QUOTED, files_of, items_of
from known import INTEGER, Known, parameters, split
from planting import CRATES

# The item that it changes, the functions that it can make wrong, the range of the file that is
# replaced, and the new text. The name is `old → new`, and is unique in its item.
Mutant = namedtuple("Mutant", "name item owners begin end new")

PATH = r"(?:\w+(?:::|\.))*"
CALL = re.compile(rf"(?<![\w!])({PATH}\w+)(?:::<[^<>()]*>)?\(")

SWAPPED = {"<": "<=", ">": ">=", "==": "!=", "+": "-", "*": "/", "<<": ">>", "&": "|", "&&": "||"}
SWAPPED |= {other: one for one, other in SWAPPED.items()} | {"%": "/"}
SWAPPED |= {"+=": "-=", "-=": "+=", "*=": "/=", "/=": "*=", "..": "..=", "..=": ".."}
# A value that is changed alone. Binary operators have blanks around them.
VALUE = re.compile(
    rf"(?P<text>{QUOTED})|(?<![\w.])(?P<number>0x[\da-fA-F_]+|\d+(?:_\d+)*)"
    r"|(?<=[ \n])(?P<operator><<|>>|<=|>=|==|!=|&&|\|\||[-+*/]=|[-+*/%<>&|])(?=[ \n])"
    r"|(?<=[\w)])(?P<range>\.\.=?)(?=[\w(])|(?P<word>\b(?:true|false)\b)"
    r"|(?<![\w:])(?P<path>(?:\w+::)+[A-Z]\w*)\b|(?<![\w!])(?P<not>!)(?=[\w(])"
    r"|(?<=[\w)\]])\.(?P<field>[a-z_]\w*)\b(?![(!])|(?<![\w:.])(?P<constant>[A-Z][A-Z\d_]+)\b(?!:)",
    re.DOTALL,
)
# An early return; the guard of an arm; a call of which only the error is used; a line of a pattern
# that has only literals; an array filled with one value; a table that is returned; patterns.
RETURN = re.compile(r"^( +)if (?:[^\n{]|\n\1 )*?(?: |\n\1)\{\n\1    return [^;]*;\n\1\}\n", re.M)
GUARD = re.compile(r"(?<=[\w)}]) if [^\n]*?(?= =>)")
TRIED = re.compile(r"(?m)^ *([\w&][^\n=;{}]*)\?;$")
ENTRY = re.compile(rf" *(?:\| )?(?:{QUOTED}|\d+)(?:$|,| \||\.\.=| =>)")
FILLED = re.compile(r"(?<!!)\[([^\[\];]*); [^\[\]]*\]")
TABLE = re.compile(r"^ +(&[A-Z][A-Z_\d]*(?:\[\.\.\d+\])?)$", re.MULTILINE)
PATTERN = re.compile(r"\blet [^=;]*? =(?!=)|^ *[^\n]*?(?= if | =>)|^ *\|.*$", re.MULTILINE)
LITERAL = re.compile(rf"(?:{QUOTED}|\d[\d_]*|0x[\da-fA-F_]+|true|false)")
LOCAL = re.compile(r"\blet (?:mut )?(\w+)(?:: ([^=;]+?))? = ([^;{]*)")
STRUCT = re.compile(r"(?<![\w.>] )\b(?:\w+::)*([A-Z]\w*) \{")
INDEX = re.compile(r"(?<=[\w)\]])\[")


def other_text(text, body):
    """A literal in which the first character that is not part of an escape or a placeholder is
    replaced by a neighbor that the body does not use."""
    if escape := re.fullmatch(r"'\\u\{(\w+)\}'", text):
        return rf"'\u{{{int(escape[1], 16) + 1:x}}}'"
    if escape := re.fullmatch(r"(b?['\"])\\.(['\"])", text, re.DOTALL):
        return rf"{escape[1]}\t{escape[2]}"
    place = re.match(r"b?['\"](?:\\u\{\w+\}|\\.|\{[^}]*\}|\s)*([^'\"\\{}])", text, re.DOTALL)
    if not place:
        return None
    code = ord(place[1]) + 1
    while chr(code) in body + "{}\"'\\":
        code += 1
    return text[: place.start(1)] + chr(code) + text[place.end(1) :]


class Body:
    """The body of an item, and what is known about its values."""

    def __init__(self, item, known, crate):
        self.item, self.known, self.place = item, known, f"{crate}/{item.file}"
        self.crate = crate
        self.text = item.text[item.begin : item.end]
        self.holder = item.holder.name if item.holder else None
        self.patterns = [it.span() for it in PATTERN.finditer(self.text)]
        self.filled = [it.span(1) for it in FILLED.finditer(self.text)]
        self.variables = self.typed_variables() if item.kind == "fn" else {}

    def is_in(self, spans, at):
        return any(begin <= at < end for begin, end in spans)

    def typed_variables(self):
        """The variables with known types, and these types."""
        head = self.item.text[self.item.start : self.item.begin]
        inner = re.match(r"[^(]*\(([^)]*)\)", head)
        found = parameters(inner[1]) if inner else {}
        for name, kind, value in LOCAL.findall(self.text):
            kind = kind or self.type_of(value.strip())
            if found.setdefault(name, kind) != kind:
                found[name] = None
        return {name: kind for name, kind in found.items() if kind}

    def type_of(self, value):
        """The type of a value, if it is a call of a known function."""
        call = CALL.match(value)
        if not call or closing(value, call.end()) not in (len(value) - 1, len(value) - 2):
            return None
        functions = self.known.of(name_of(call[1]), self.crate)
        kind = functions[0].result if functions else None
        if kind and value.endswith("?"):
            inner = re.fullmatch(r"(?:Option|Result)<(.*?)(?:, \w+)?>", kind)
            kind = inner[1] if inner else None
        return self.holder if kind == "Self" else kind

    def values(self):
        """The values that are changed alone: kind, range and new text of each."""
        start = self.text.find("=") % len(self.text) if self.item.kind in ("static", "const") else 0
        for found in VALUE.finditer(self.text, start):
            kind = found.lastgroup
            for new in self.other_values(kind, found[kind], found):
                yield kind, found.start(kind), found.end(kind), new

    def other_values(self, kind, value, found):
        if kind == "text":
            return [it for it in [other_text(value, self.text)] if it]
        if kind == "number":
            number, form = int(value, 0), hex if value.startswith("0x") else str
            return [form(number + 1)] + ([form(number - 1)] if number else [])
        if kind == "word":
            return ["false" if value == "true" else "true"]
        if kind == "not":
            return [""]
        if kind == "field":
            other = self.known.field(value, self.crate)[1]
            return [other] if other else []
        if kind in ("path", "constant"):
            return self.other_name(value)
        line = self.text[
            self.text.rfind("\n", 0, found.start()) + 1 : self.text.find("\n", found.end())
        ]
        is_pattern = value == "|" and ("=>" in line or "'" in line or "::" in line)
        return [SWAPPED[value]] if value in SWAPPED and not is_pattern else []

    def other_name(self, value):
        """Another constant or variant of the same type or enum."""
        *prefix, last = value.split("::")
        holder = prefix[-1] if prefix else None
        holder = self.holder if holder == "Self" else holder
        other = self.known.variants.get((holder, last))
        if not other and last.isupper():
            other = self.known.other_constant(last, holder, self.place)
        return ["::".join([*prefix, other])] if other else []

    def calls(self):
        """The calls, each with the range of its arguments."""
        for call in CALL.finditer(self.text):
            if not self.is_in(self.patterns, call.start()):
                begin, end = call.end(), closing(self.text, call.end())
                yield call, begin, end

    def arguments(self, begin, end):
        """The range of each part between commas, without the blanks around it, and its text."""
        for part in split(self.text[begin:end]):
            inner = part.strip()
            first = begin + len(part) - len(part.lstrip())
            yield first, first + len(inner), inner
            begin += len(part) + 1

    def typed_places(self):
        """The ranges and types of values with known types: arguments, receivers, fields,
        indexes."""
        for call, begin, end in self.calls():
            functions = self.known.of(name_of(call[1]), self.crate)
            types = functions[0].types if functions else ()
            arguments = list(self.arguments(begin, end))
            types = types if len(types) == len(arguments) else [None] * len(arguments)
            for (first, last, value), kind in zip(arguments, types):
                yield first, last, kind or self.variables.get(value)
            receiver, dot, _ = call[1].partition(".")
            if dot and receiver in self.variables:
                yield call.start(1), call.start(1) + len(receiver), self.variables[receiver]
        for name, kind in self.variables.items():
            for found in re.finditer(rf"(?:= |=> |return |!\()({name})(?=[;,])", self.text):
                if not self.is_in(self.patterns, found.start(1)):
                    yield *found.span(1), kind
        yield from self.fields_written()
        for index in INDEX.finditer(self.text):
            end = closing(self.text, index.end(), "[]")
            for found in re.finditer(r"[^.]+(?:\.(?!\.)[^.]+)*", self.text[index.end() : end]):
                yield index.end() + found.start(), index.end() + found.end(), "usize"

    def fields_written(self):
        """The values of fields in a struct expression or an assignment."""
        for struct in STRUCT.finditer(self.text):
            end = closing(self.text, struct.end(), "{}")
            is_pattern = re.match(r"\}+\)* (?:=>|=|\||if )", self.text[end:])
            if is_pattern or self.is_in(self.patterns, struct.start()):
                continue
            for first, last, value in self.arguments(struct.end(), end):
                name = re.match(r"(\w+)(?:: |$)", value)
                if name:
                    first += name.end() if name.end() < len(value) else 0
                    yield first, last, self.known.field(name[1], self.crate)[0]
        for found in re.finditer(r"\.(\w+) = ([^;\n]+);", self.text):
            yield *found.span(2), self.known.field(found[1], self.crate)[0]

    def fixed(self):
        """A fixed value, or another variable of its type, instead of a value."""
        for begin, end, kind in self.typed_places():
            value = self.text[begin:end]
            if not kind or self.is_in(self.filled, begin) or LITERAL.fullmatch(value):
                continue
            kind = self.holder if kind == "Self" and self.holder else kind
            # A field with the same name as the variable is written once.
            is_field = re.search(r"\{[\w, \n]*\Z", self.text[:begin]) and self.text[end] in ", \n"
            name = f"{value}: " if is_field else ""
            for fixed in [it for it in self.known.fixed(kind, self.place) if it != value][:1]:
                yield "fixed", begin, end, name + fixed
            for other in self.others(value, kind, begin):
                yield "variable", begin, end, name + other

    def others(self, value, kind, at):
        """Another variable of the type that is declared before an offset, if there is one."""
        same = [it for it, its in self.variables.items() if its == kind]
        other = same[(same.index(value) + 1) % len(same)] if value in same else value
        return [other] if other != value and self.is_declared(other, at) else []

    def is_declared(self, name, at):
        local = re.search(rf"\blet (?:mut )?{name}\b", self.text)
        return not local or local.end() < at

    def functions(self):
        """Another function with the same signature instead of the one that is called."""
        for call, _, _ in self.calls():
            name = name_of(call[1])
            is_method = call[1].endswith(f".{name}") or call[1].startswith("Self::")
            if "::" in call[1] and not is_method:
                continue
            if self.text[call.start() - 1 : call.start()] == "." and "." not in call[1]:
                is_method = True
            other = self.known.other_function(name, self.place, is_method)
            if other and other != self.item.name:
                end = call.start(1) + len(call[1])
                yield "function", end - len(name), end, other
        for found in re.finditer(r"\b(writeln)!", self.text):
            yield "function", *found.span(1), "write"

    def exchanged(self):
        """Two arguments of the same type, exchanged."""
        for call, begin, end in self.calls():
            functions = self.known.of(name_of(call[1]), self.crate)
            words = split(self.text[begin:end])
            types = functions[0].types if functions else ()
            for one, other in pairs_of_one_type(types) if len(types) == len(words) else ():
                if words[one].strip() != words[other].strip():
                    both = list(words)
                    both[one], both[other] = words[other].strip(), words[one].strip()
                    yield "arguments", begin, end, ", ".join(it.strip() for it in both)

    def dropped(self):
        """An early return, a guard, or the error test of a call, dropped; a table emptied."""
        for found in RETURN.finditer(self.text):
            yield "return", found.start(), found.end(), ""
        for found in GUARD.finditer(self.text):
            yield "guard", found.start(), found.end(), ""
        for found in TRIED.finditer(self.text):
            yield "return", found.start(1), found.end(), f"let _ = {found[1]};"
        for found in TABLE.finditer(self.text):
            yield "table", *found.span(1), "&[]"

    def turned(self):
        """All changes of the body: kind, range and new text of each."""
        found = list(self.values())
        if self.item.kind == "fn":
            for more in (self.dropped, self.exchanged, self.fixed, self.functions):
                found += more()
        return [it for it in dict.fromkeys(found) if not self.is_in(self.filled, it[1])]


def name_of(path):
    return re.split(r"::|\.", path)[-1]


def pairs_of_one_type(types):
    """Each index with the next index of the same type."""
    for one, kind in enumerate(types):
        if kind in types[one + 1 :]:
            yield one, types.index(kind, one + 1)


def closing(body, at, signs="()"):
    """The offset of the bracket that closes the one opened before an offset."""
    depth = 1
    for sign in re.compile(rf"{QUOTED}|[{re.escape(signs)}]", re.DOTALL).finditer(body, at):
        depth += (sign[0] == signs[0]) - (sign[0] == signs[1])
        if depth == 0:
            return sign.start()
    return at


def is_entry(kind, body, begin):
    """Whether a range is one of many similar ones: an entry of an array, or a literal of a
    pattern."""
    line = body[body.rfind("\n", 0, begin) + 1 :].split("\n")[0]
    return kind in ("text", "number") and bool(ENTRY.match(line))


@cache
def all_known():
    return Known([it.parent for it in CRATES.glob("*/src")])


def promises(item):
    """Whether a function has a contract, its own or that of its trait."""
    head = item.text[item.start : item.begin]
    return item.kind == "fn" and bool(
        "ensures" in head or item.holder and item.holder.is_trait_impl
    )


def mutants_of(crate):
    known, items = all_known(), list(items_of(crate))
    functions = {it.path for it in items if it.kind == "fn"}
    promising = {it.path for it in items if promises(it)}
    for item in items:
        owners = (item.path,) if item.kind == "fn" else citing(item, items)
        if functions & set(owners) and not promising & set(owners):
            continue
        body = Body(item, known, crate.name)
        is_long = body.text.count("\n") > 2 or body.text.count(",") > 8
        found, tables, names = [], {}, []
        for kind, begin, end, new in body.turned():
            is_table = item.kind != "fn" and is_long or is_entry(kind, body.text, begin)
            is_up = kind == "number" and int(new, 0) > int(body.text[begin:end], 0)
            entries = tables.setdefault((kind, is_up), []) if is_table else found
            entries.append((begin, end, new))
        for (kind, is_up), entries in tables.items():
            key = f"{item.path} {kind}{'+' if is_up else ''}"
            found.append(random.Random(key).choice(entries))
        for begin, end, new in sorted(set(found)):
            names.append(name := named(body.text[begin:end], new))
            name += f" #{names.count(name)}" if names.count(name) > 1 else ""
            yield Mutant(name, item, owners, item.begin + begin, item.begin + end, new)


def named(old, new):
    """The name of a mutant; long values are cut, and a dropped part becomes `nothing`."""
    words = [" ".join(it.split()) for it in (old, new)]
    if words[0].startswith("if ") and not words[1]:
        words[0] = re.sub(r" \{ .*", "", words[0])
    old, new = (it if len(it) <= 48 else it[:45] + ".." for it in words)
    return f"{old} → {new or 'nothing'}"


def citing(item, items):
    """The functions that cite a constant, directly or through other constants, and the constant
    itself."""
    found, names = [item], [item.name]
    for name in names:
        for other in items:
            text = other.text[other.begin : other.end]
            # A constant with the same name, for example of another type, does not cite it.
            if other.name != name and re.search(rf"\b{name}\b", text):
                found.append(other)
                names += [other.name] if other.kind != "fn" and other.name not in names else []
    return tuple(sorted({it.path for it in found}))
