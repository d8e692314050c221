"""The Go module with its copy of the C source and without a network: its format, its tests and
examples (also with the race detector, and for other systems and processors), and its answers."""
import re

import pytest

from installing import NATIVE, OF_GO
from questions import wrong_answers
from running import TOP, leave_out, needs, of_wine, once, run

MODULE = TOP / "bindings/go"
RACES = ("x86_64", "aarch64")  # the processors on which Go has a race detector
# The compiler of the tests for another system or processor, and what runs them here.
OTHERS = {
    "linux/arm": ("arm-linux-gnueabihf-gcc", "qemu-arm|qemu-arm-static"),
    "linux/s390x": ("s390x-linux-gnu-gcc", "qemu-s390x|qemu-s390x-static"),
    "windows/amd64": ("x86_64-w64-mingw32-gcc", "wine|wine64|/usr/lib/wine/wine64"),
}


@pytest.fixture(scope="module")
def go(tmp_path_factory):
    """Runs go in the module, whose C source is compiled."""
    needs("cc", "go 1.19")
    call = lambda *words, **more: run("go", *words, cwd=MODULE, **{**OF_GO, **more})
    once(tmp_path_factory, "go", lambda _: call("build", "."))
    return call


def count_of(kind):
    """The number of tests or examples."""
    texts = [path.read_text("utf-8") for path in MODULE.glob("*_test.go")]
    return len(re.findall(rf"^func {kind}", "".join(texts), re.M))


def test_layout():
    needs("gofmt")
    run("gofmt", "-l", ".", cwd=MODULE, wanted="")


def test_vet(go):
    go("vet", "./...")


def test_no_cgo(go):
    said = go("build", ".", fails=True, CGO_ENABLED="0")
    assert "install_a_C_compiler" in said, said


def test_module(go):
    said = go("test", "-count=1", "-v", ".")
    for kind in ("Test", "Example"):
        assert len(re.findall(rf"^--- PASS: {kind}", said, re.M)) == count_of(kind) > 0, said


def test_races(go):
    if NATIVE not in RACES:
        leave_out(f"Go has no race detector for {NATIVE}")
    go("test", "-count=1", "-race", ".")


@pytest.mark.parametrize("name", OTHERS)
def test_elsewhere(go, tmp_path, name):
    (compiler, runner), (system, processor) = OTHERS[name], name.split("/")
    runner, program = needs(compiler, runner), tmp_path / "tests.exe"
    own = {"GOOS": system, "GOARCH": processor, "CC": compiler}
    go("test", "-c", "-ldflags=-extldflags=-static", "-o", program, ".", **own)
    run(runner, program, cwd=MODULE, **of_wine(tmp_path))


def test_answers(go):
    assert wrong_answers(lambda asked: go("run", "./answers", stdin=asked)) == []
