"""The mutants of a small crate, the digests of its functions, and the comments that list
mutants."""
import sys

import pytest

from running import TOP, write

sys.path.insert(0, str(TOP / "checks"))

SOURCE = """\
ghost use Rattle.std.specs.Prelude.{◌≡◌};
ghost use Rattle.digits.specs.Digits.{next_of};

const GREATEST: u8 = 9;

/// The next digit.
// Same answer (== → !=): this is a test of comments.
pub fn next(digit: u8, other: u8) -> u8
    ensures { result ≡ next_of digit }
{
    if digit == GREATEST {
        return 0;
    }
    digit + 1
}

pub fn buffer() -> [u8; 4]
    ensures { length result ≡ GREATEST }
{
    [7; 4]
}

pub fn main() {
    next(1, 2);
}

pub fn twice(first: u8, second: u8) -> u8
    ensures { result ≡ 4 }
{
    next(first, second)
}
"""
SPECS = """\
use Rattle.std.specs.Prelude.{◌+◌, ℕ}

abbrev pub one : ℕ
one = 1

abbrev pub next_of : ℕ → ℕ
next_of digit = digit + one

abbrev pub unused : ℕ
unused = 2
"""


@pytest.fixture
def crate(tmp_path, monkeypatch):
    import mutate

    write(tmp_path / "crates/digits/src/lib.rt", SOURCE)
    write(tmp_path / "crates/digits/specs/Digits.antt", SPECS)
    monkeypatch.setattr(mutate, "CRATES", tmp_path / "crates")
    mutate.all_known.cache_clear()
    yield tmp_path / "crates/digits"
    mutate.all_known.cache_clear()


def mutants_of(crate):
    import mutate

    found = {}
    for it in mutate.mutants_of(crate):
        found.setdefault(it.item.path, []).append(it.name)
    return found


def digests_of(crate):
    import digests
    import items

    definitions = digests.Definitions([crate])
    return {it.path: digests.digest(definitions, crate, it, [], []) for it in items.items_of(crate)}


def changed(crate, file, old, new):
    """The functions whose digests change with a text of a file."""
    before, path = digests_of(crate), crate / file
    text = path.read_text(encoding="utf-8")
    assert text.count(old) == 1
    write(path, text.replace(old, new))
    return {path for path, digest in digests_of(crate).items() if digest != before[path]}


def test_each_value_is_changed(crate):
    found = mutants_of(crate)
    assert found["GREATEST"] == ["9 → 10", "9 → 8"]
    assert "== → !=" in found["next"]
    assert "if digit == GREATEST → nothing" in found["next"]
    assert "+ → -" in found["next"]
    assert {"first → 0", "first → second", "first, second → second, first"} <= set(found["twice"])


def test_what_fills_an_array_is_no_value(crate):
    assert mutants_of(crate)["buffer"] == ["4 → 3", "4 → 5"]


def test_what_promises_nothing_has_no_mutants(crate):
    assert "main" not in mutants_of(crate)


def test_a_weaker_definition_changes_what_cites_it(crate):
    assert changed(crate, "specs/Digits.antt", "one = 1", "one = one") == {"next"}


def test_a_weaker_contract_changes_its_function(crate):
    assert changed(crate, "src/lib.rt", "    ensures { result ≡ 4 }\n", "") == {"twice"}


def test_a_body_changes_its_function(crate):
    assert changed(crate, "src/lib.rt", "digit + 1", "digit + 2") == {"next"}


@pytest.mark.parametrize(
    "file, old, new",
    [
        ("src/lib.rt", "/// The next digit.", "/// The digit after this one."),
        ("src/lib.rt", "    digit + 1\n", "    // A comment.\n    digit + 1\n"),
        ("specs/Digits.antt", "unused = 2", "unused = 3"),
    ],
    ids=["a comment", "a comment in a body", "a definition that nothing cites"],
)
def test_nothing_else_changes_a_digest(crate, file, old, new):
    assert changed(crate, file, old, new) == set()


def test_comments_list_mutants(crate):
    import items
    import survivors

    item, *_ = [it for it in items.items_of(crate) if it.path == "next"]
    names, comment = mutants_of(crate)["next"], survivors.comment_of(item, SOURCE)
    assert survivors.listed(comment, names) == ({"== → !=": "s"}, [])
    left_open = comment.replace("Same answer", "Left open")
    assert survivors.listed(left_open, names) == ({"== → !=": "o"}, [])
    assert len(survivors.listed(comment.replace("==", "9"), names)[1]) == 1
    item, *_ = [it for it in items.items_of(crate) if it.path == "twice"]
    assert survivors.comment_of(item, SOURCE) == ""


TRAIT = """\
ghost use Rattle.digits.specs.Passed.{next_digit};

pub trait Steps {
    type Value;

    fn step(digit: u8) -> u8
        ensures { result ≡ next_digit digit };
}

struct Ten;

impl Steps for Ten {
    type Value = u8;

    fn step(digit: u8) -> u8 {
        digit + 1
    }

    ghost most = { 9 };
}
"""


@pytest.mark.parametrize(
    "file, old, new",
    [
        ("src/steps.rt", "ensures { result ≡ next_digit digit }", "ensures { result ≡ digit }"),
        ("src/steps.rt", "ghost most = { 9 };", "ghost most = { 10 };"),
        ("specs/Digits.antt", "one = 1", "one = one"),
        ("specs/Digits.antt", 'if sign "--all" then digit + one', 'if sign "--all" then digit'),
    ],
    ids=["the trait", "a ghost item after a method", "a name passed on", "dashes in a string"],
)
def test_methods_rest_on_their_trait(crate, file, old, new):
    write(crate / "src/steps.rt", TRAIT)
    text = SPECS.replace("= digit + one", '= if sign "--all" then digit + one else digit')
    write(crate / "specs/Digits.antt", text)
    write(
        crate / "specs/Passed.antt", "pub use Rattle.digits.specs.Digits.{next_of as next_digit}\n"
    )
    assert "steps::TenSteps::step" in changed(crate, file, old, new)
