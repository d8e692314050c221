"""Checks that `bench` and the plain Rust with which docs/SPEED.md compares it do the same work."""
import itertools

import pytest

from running import TOP, needs, run


@pytest.fixture(scope="module")
def lean(tmp_path_factory):
    needs("rustc")
    made = tmp_path_factory.mktemp("lean")
    run("rustc", "--edition", "2021", "-O", TOP / "checks/lean.rs", "-o", "lean", cwd=made)
    return made / "lean"


@pytest.mark.parametrize("words", itertools.product(["print", "read"], ["u64", "u128"]))
def test_sums(bench, lean, words):
    assert bench(*words, "ten_thousand", "1")[:2] == (0, run(lean, *words, "1", cwd=TOP).encode())
