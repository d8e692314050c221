"""The Rust crate: its tests, examples and documentation, with the archive and with the C source,
without a network. A warning is a failure."""
import re
import shutil

import pytest

from questions import wrong_answers
from running import TOP, fail, needs, run

BOTH = "number-to-chinese,chinese-to-number"
FEATURES = ("", "std", "number-to-chinese", "chinese-to-number", BOTH)
NOT_COPIED = shutil.ignore_patterns("target", "Cargo.lock")


@pytest.fixture(scope="module")
def cargo(tmp_path_factory):
    """Runs cargo in a copy of the crate, with the library in a folder."""
    needs("cargo 1.82")
    top = tmp_path_factory.mktemp("rust")
    crate = shutil.copytree(TOP / "bindings/rust", top / "bindings/rust", ignore=NOT_COPIED)
    shutil.copytree(TOP / "tests/rows", top / "tests/rows")

    def call(library, *words, **more):
        own = {"RUSTFLAGS": "-D warnings", "RUSTDOCFLAGS": "-D warnings"}
        own["CHINESE_NUMBER_LIB"] = str(library)
        return run("cargo", *words, "--offline", cwd=crate, **own, **more)

    return call


def test_no_library(cargo):
    if "archive.sh" not in cargo("/nowhere", "check", fails=True):
        fail("without the archive, the message does not say how to make it")


@pytest.mark.parametrize("features", FEATURES)
def test_features(cargo, of_c_source, features):
    cargo(of_c_source, "check", "--no-default-features", "--features", features)


def test_documents(cargo, of_c_source):
    cargo(of_c_source, "doc")


def test_crate(cargo, library):
    """The unit tests (there are none), the tests of each file, and the examples in comments."""
    said = cargo(library, "test")
    passed = re.findall(r"ok\. (\d+) passed; 0 failed; 0 ignored", said)
    tests = [
        path.read_text("utf-8").count("#[test]") for path in TOP.glob("bindings/rust/tests/*.rs")
    ]
    examples = int(passed[-1])
    assert examples and sorted(map(int, passed)) == sorted([0, *tests, examples]), said


def test_answers(cargo, library):
    words = ("run", "--quiet", "--example", "answers")
    assert wrong_answers(lambda asked: cargo(library, *words, stdin=asked)) == []
