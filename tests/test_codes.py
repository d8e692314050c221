"""`bindings/codes.py --check` reports a wrong code, limit or text in each language, and one of the
definitions that it reads. It accepts the repository."""
import sys

import pytest

from running import TOP

# A file, and what is there once with what replaces it.
WRONG = {
    "C": ("bindings/c/chinese_number.h", "CN_WAN = 4,", "CN_WAN = 5,"),
    "text of C": ("bindings/c/chinese_number.h", '"number is too large"', '"too large"'),
    "C++": ("bindings/c/chinese_number.hpp", "wan = CN_WAN,", "wan = CN_YI,"),
    "Rust": ("bindings/rust/src/codes.rs", "pub const DONE: u32 = 0;", "pub const DONE: u32 = 1;"),
    "Go": ("bindings/go/codes.go", "Incorrect Status = 2\n", "Incorrect Status = 3\n"),
    "Python": ("bindings/python/chinese_number/_codes.py", "\nABOUT = 4\n", "\nABOUT = 8\n"),
    "JavaScript": ("bindings/web/chinese-number.mjs", "const MOST_BYTES = 234n", "MOST_BYTES = 1n"),
    "types": ("bindings/web/chinese-number.d.mts", "'upper', 'lower',", "'lower', 'upper',"),
    "version": ("bindings/rust/Cargo.toml", '\nversion = "0.1.0"', '\nversion = "0.1.1"'),
    "authors": ("bindings/web/package.json", '"author": "The authors', '"author": "Authors'),
    "longest text": ("docs/DIFFERENCES.md", "4,293,918,720", "4,293,918,721"),
    "constant": ("crates/cn_c/specs/Codes.antt", "CN_ABOUT = 4", "CN_ABOUT = 3"),
    "list": ("crates/cn_c/specs/Codes.antt", "Upper ∷ Lower ∷", "Lower ∷ Upper ∷"),
    "function": ("crates/cn_c/specs/Explains.antt", "code Weight = 13\n", "code Weight = 14\n"),
    "one more": ("crates/cn_c/src/status.rt", "NONE: u32 = 10;", "NONE: u32 = 10;\nCN_MORE = 13"),
    "one less": ("crates/cn_c/specs/Codes.antt", "\nCN_ABOUT = 4\n", "\n"),
    "limit": ("crates/cn_c/src/date.rt", "≤ 39", "≤ 40"),
    "text": ("crates/cn_date/specs/ErrorText.antt", '"there is no such', '"there is not such'),
}


@pytest.fixture
def check(monkeypatch):
    """Runs `codes.py --check`, in which a file has another text."""
    monkeypatch.syspath_prepend(TOP / "bindings")
    monkeypatch.setattr(sys, "dont_write_bytecode", True)
    import codes

    def call(file, old, new):
        text = codes.read(TOP / file)
        assert text.count(old) == 1 or old == new
        read = (
            lambda path: text.replace(old, new) if path == TOP / file else path.read_text("utf-8")
        )
        monkeypatch.setattr(codes, "read", read)
        monkeypatch.setattr(sys, "argv", ["codes.py", "--check"])
        codes.main()

    return call


def test_right(check):
    check("LICENSE", "", "")


@pytest.mark.parametrize("what", WRONG)
def test_wrong(check, what):
    """What is wrong in a language is reported with its file."""
    with pytest.raises(SystemExit) as ended:
        check(*WRONG[what])
    file = WRONG[what][0]
    assert file in str(ended.value) or file.startswith("crates/") and "codes" in str(ended.value)
