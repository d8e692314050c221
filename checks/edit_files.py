"""Edits that make bodies wrong, as text.

The edits of a crate are in its file `wrong-bodies`, each below its name, with empty lines between
them. A few are files `must-fail/NAME.edit`, which `rt ci` tries; there `rt` ignores the lines that
begin with `# `. An edit has a line `file:`, a line `refused:` with the functions that the check
must refuse, and pairs of lines `old:` and `new:`. A `new:` that changes the shape of the code is
followed by a line `twin:`, the same shape with the right value.
"""
from collections import namedtuple

Edit = namedtuple("Edit", "name file refused changes")
Change = namedtuple("Change", "old new twin")


def crates_with_edits(crates):
    """The folders of the crates that have edits."""
    files = [*crates.glob("*/wrong-bodies"), *crates.glob("*/must-fail/*.edit")]
    return sorted({crates / file.relative_to(crates).parts[0] for file in files})


def wrong_bodies_of(crate):
    """The edits of a crate in its file `wrong-bodies`."""
    file = crate / "wrong-bodies"
    text = file.read_text(encoding="utf-8").strip("\n") if file.exists() else ""
    blocks = (block.partition("\n") for block in text.split("\n\n") if block)
    return [read(name, text) for name, _, text in blocks]


def edits_of(crate):
    """All edits of a crate."""
    files = sorted((crate / "must-fail").glob("*.edit"))
    found = [read(it.stem, it.read_text(encoding="utf-8").rstrip("\n")) for it in files]
    return wrong_bodies_of(crate) + found


def read(name, text):
    """The edit whose text this is, below its name."""
    file, refused, changes, old = None, (), [], None
    for line in text.split("\n"):
        word, _, value = line.removeprefix("# ").partition(": ")
        if word == "file" and file is None:
            file = value
        elif word == "refused":
            refused = tuple(value.split(", "))
        elif word == "old":
            old = value
        elif word.rstrip(":") == "new" and old is not None:
            changes.append(Change(old, value, None))
        elif word == "twin" and changes:
            changes[-1] = changes[-1]._replace(twin=value)
        else:
            raise ValueError(f"{name}: unknown line: {line!r}")
    if file is None or not refused or not changes:
        raise ValueError(f"{name}: there is no line file:, refused:, old: or new:")
    return Edit(name, file, refused, changes)


def has_twin(edit):
    return any(change.twin is not None for change in edit.changes)


def applied(edit, text, twin=False):
    """The text of the edit's file after the edit, or after its twin."""
    for old, new, right in edit.changes:
        if text.count(old) != 1:
            raise ValueError(f"{old!r} occurs {text.count(old)} times in {edit.file}")
        text = text.replace(old, right if twin and right is not None else new)
    return text
