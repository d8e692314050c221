"""The definitions that a function's contract depends on, and a digest of them.

A digest covers the text of an item with its contract, without comments and layout; the names of
its mutants; and each definition that these cite, directly or indirectly: those of `specs/`, and
types, traits and constants of the sources. It does not cover definitions of the toolchain's
library, nor the contracts of functions that are called: if one of them becomes too weak, the
caller's proof fails.
"""
import hashlib
import re
from collections import defaultdict
from functools import cache

from items import files_of, module_of, without_comments

# An import in a source or in `specs/`, without `ghost use`, `pub use` or `use`.
IMPORT = re.compile(
    r"^ *(?:ghost |pub )?use (Rattle\.[\w.]+?)(?:\.\{([^}]*)\})?(?: as (\w+))?;?$", re.MULTILINE
)
WORDS = re.compile(r"^(?:(?:abbrev|pub|unfoldable|data|record|opaque|mutual|syntax)\s+)*(.*)")
NAME = re.compile(r"[^\s(){}\[\];,.:λ⟦⟧<>]+")
BLOCK = re.compile(
    r"^(?:pub(?:\(crate\))? )?(?:struct|enum|trait|const|static|macro_rules!|type) (\w+)"
    r"|^impl(?:<.*?>)? Model for (\w+)|^    (?:pub(?:\(crate\))? )?const (\w+)",
    re.MULTILINE,
)
GHOST = re.compile(r"^    ghost (?:[^\n]*;\n|.*?^    \}[^\n]*\n)", re.MULTILINE | re.DOTALL)
COMMENT = re.compile(r'("(?:\\.|[^"\\\n])*")|--[^\n]*')
USED = re.compile(r"^ *(?:pub )?use (\w+)(::[^;]*);", re.MULTILINE)
MIXFIX = "◌"


class File:
    """The definitions of a source or of a file in `specs/`, by name, and its imports."""

    def __init__(self, crate, text, definitions):
        self.crate, self.definitions, self.imports = crate, definitions, {}
        # The crate from which a source imports a name.
        self.used = {
            name: root for root, rest in USED.findall(text) for name in re.findall(r"\w+", rest)
        }
        for module, names, alias in IMPORT.findall(text):
            for word in names.split(",") if names else ():
                name, _, other = (it.strip() for it in word.partition(" as "))
                self.imports[other or name] = (module, name)
            if not names:
                self.imports[alias or module.split(".")[-1]] = (module, None)


def definitions_of_specs(text):
    """The definitions of a file in `specs/`: each with its type and clauses."""
    found, name = defaultdict(list), None
    for line in COMMENT.sub(lambda it: it[1] or "", text).split("\n"):
        if re.match(r"(?:pub )?(?:use|mod) ", line):
            name = None
        elif line[:1].strip() and line[0] not in "})":
            name = named_by(line, found)
        if name:
            found[name].append(line)
    return {name: "\n".join(lines) for name, lines in found.items()}


def named_by(line, found):
    """The name that a line defines, or that it is a clause of."""
    words = WORDS.match(line)[1].split()
    signs = [it for it in words if it.startswith(MIXFIX) or it.endswith(MIXFIX)]
    if (
        words
        and words[0] not in found
        and not signs
        and not re.match(r"\S+ *[:({]", " ".join(words))
    ):
        clause = next((it for it in found if it.strip(MIXFIX) in words), None)
        return clause or words[0]
    return words[0] if words else None


def definitions_of_source(text):
    """The types, traits and constants of a source; a type includes its model."""
    text, found = without_comments(text), defaultdict(str)
    for head in BLOCK.finditer(text):
        found[head[1] or head[2] or head[3]] += block_at(text, head.start())
    return dict(found)


def block_at(text, start):
    """The item that begins at an offset: to the `;` of its line, or to its closing bracket."""
    indent, is_open, at = re.match(r" *", text[start:])[0], False, start
    for line in text[start:].splitlines(keepends=True):
        at += len(line)
        stripped = line.rstrip()
        if (
            is_open
            and re.match(rf"{indent}[)}}\]]", line)
            and not stripped.endswith(("{", "[", "("))
        ):
            break
        if not is_open and stripped.endswith((";", "}")):
            break
        is_open |= stripped.endswith(("{", "[", "("))
    return text[start:at]


def constructs(text, name):
    """Whether a definition has a constructor or a field with this name."""
    return re.search(rf"^  +(?:pub )?{re.escape(name)} :", text, re.MULTILINE) is not None


class Definitions:
    """All definitions that contracts and functions can cite."""

    def __init__(self, crates):
        self.files, self.aliases, self.types = {}, {}, defaultdict(list)
        for crate in sorted(crates):
            for path in sorted(crate.glob("specs/**/*.antt")):
                parts = path.relative_to(crate / "specs").with_suffix("").parts
                self.read_specs(crate.name, parts, path.read_text(encoding="utf-8"))
            for file, text in files_of(crate):
                own = File(crate.name, without_comments(text), definitions_of_source(text))
                self.files[f"{crate.name}/{file}"] = own
                for name in own.definitions:
                    self.types[name].append(f"{crate.name}/{file}")

    def read_specs(self, crate, parts, text):
        module = ".".join(["Rattle", crate, "specs", *parts])
        self.files[module] = File(crate, text, definitions_of_specs(text))
        if parts == ("Lib",):
            for other, _, alias in re.findall(
                r"^pub use (Rattle\.([\w.]+?))(?: as (\w+))?$", text, re.M
            ):
                self.aliases[f"Rattle.{crate}.specs.{alias or other.split('.')[-1]}"] = other

    def places(self, file, name, rest=None, seen=()):
        """Where a name in a file is defined: each file with the name there. `rest` is what follows
        the name of a module."""
        own = self.files[file]
        if name in own.definitions:
            return {(file, name)}
        if name in own.imports and (file, name) not in seen:
            module, original = own.imports[name]
            return self.exported(module, original or rest or name, (*seen, (file, name)))
        if "/" not in file:
            return {(file, it) for it, text in own.definitions.items() if constructs(text, name)}
        crate = {"crate": own.crate, "super": own.crate}.get(own.used.get(name), own.used.get(name))
        return (
            self.of_source(name, crate or own.crate, bool(crate)) if name in self.types else set()
        )

    def exported(self, module, name, seen):
        """Where a name of a module is defined, also if the module re-exports it."""
        while module in self.aliases:
            module = self.aliases[module]
        if ".specs.declared." in module:
            parts = module.split(".")
            kind = next((it for it in reversed(parts) if it in self.types), name)
            return self.of_source(kind, parts[1], True)
        return self.places(module, name, None, seen) if module in self.files else set()

    def of_source(self, name, crate, is_used):
        """The types, traits or constants with this name: those of the crate, or all if it
        re-exports them."""
        files = self.types.get(name, [])
        own = [it for it in files if it.startswith(f"{crate}/")] or files * is_used
        return {(it, name) for it in own}

    def cited(self, file, text):
        """The definitions that a text of a file cites."""
        names = [it for it in re.split(r"[\s(){}\[\];,:λ⟦⟧<>&]+", text) if it]
        found = set()
        for word in names:
            parts = [it for it in word.split(".") if it] or [word]
            for at, part in enumerate(parts):
                found |= self.places(file, part, parts[at + 1] if at + 1 < len(parts) else None)
        found |= self.mixfix(file, set(names))
        return found

    def mixfix(self, file, words):
        """The definitions of operators such as `◌≡◌` whose parts are cited."""
        names = [*self.files[file].imports, *self.files[file].definitions]
        signs = [it for it in names if MIXFIX in it and set(it.split(MIXFIX)) - {""} <= words]
        return set().union(*(self.places(file, name) for name in signs))

    @cache
    def cited_by(self, place):
        file, name = place
        return self.cited(file, self.files[file].definitions[name])

    def closure(self, places):
        """Definitions, and all that they cite directly or indirectly."""
        found, waiting = set(places), [*places]
        while waiting:
            new = self.cited_by(waiting.pop()) - found
            found |= new
            waiting += new
        return found

    def text(self, place):
        file, name = place
        return f"{file} {name} {' '.join(self.files[file].definitions[name].split())}"

    def rests_on(self, file, text):
        """All definitions that a text in a file depends on."""
        return self.closure(self.cited(file, text))


def digest(definitions, crate, item, heads, names):
    """The digest of an item; `heads` are the heads of functions that a constant can make wrong."""
    file, text = f"{crate.name}/{item.file}", item.text[item.start : item.end]
    if item.holder:  # add its trait and its ghost items
        block = block_at(item.text, item.holder.start)
        text = block.partition("\n")[0] + "".join(GHOST.findall(block)) + text
    parts, found = [" ".join(text.split()), *names], definitions.rests_on(file, text)
    for place, head in heads:
        parts.append(" ".join(head.split()))
        found |= definitions.rests_on(place, head)
    parts += sorted(definitions.text(it) for it in found)
    return hashlib.sha256("\n".join(parts).encode()).hexdigest()[:12]
