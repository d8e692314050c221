"""Fixtures: the programs that the gate has built, the library, and its packages."""
import shutil
import subprocess
import sys
from pathlib import Path

import pytest

from running import (
    HEADER,
    PYTHON,
    SANITIZERS,
    TOP,
    Program,
    leave_out,
    needs,
    needs_compiler,
    needs_rt,
    once,
    run,
)


def pytest_addoption(parser):
    parser.addoption("--fuzz", help="the cases of tests/fuzz.c, or seconds with `s`")
    parser.addoption("--seed", default="1", help="the seed of tests/fuzz.c")
    parser.addoption("--library", type=Path, help="a folder that bindings/archive.sh has filled")
    parser.addoption("--packages", type=Path, help="a folder that bindings/packages.sh has filled")
    parser.addoption("--pictures", type=Path, help="a folder for pictures of the page")


def made(request, tmp_path_factory, option, *words):
    """The folder that an option names, or a new folder filled by a script of bindings/."""
    if folder := request.config.getoption(option):
        return folder.resolve()
    needs_rt()
    make = lambda made: subprocess.run(["bash", *words, made], cwd=TOP / "bindings", check=True)
    return once(tmp_path_factory, option.strip("-"), make)


@pytest.fixture(scope="session")
def archive(request, tmp_path_factory):
    """The folder of the proved archive and its shared object."""
    return made(request, tmp_path_factory, "--library", "archive.sh")


@pytest.fixture(scope="session")
def packages(request, tmp_path_factory):
    """The folder of the packages, all made from proved code."""
    return made(request, tmp_path_factory, "--packages", "packages.sh", "--draft")


@pytest.fixture(scope="session")
def of_c_source(tmp_path_factory):
    """A folder with an archive and a shared object that a compiler makes from the C source."""
    needs("cc")

    def make(lib):
        words = ("cc", "-O2", "-fPIC", "-fvisibility=hidden", "-c", TOP / "dist/chinese_number.c")
        run(*words, cwd=lib)
        run("ar", "crs", "libchinese_number.a", "chinese_number.o", cwd=lib)
        run("cc", "-shared", "chinese_number.o", "-o", "libchinese_number.so", cwd=lib)

    return once(tmp_path_factory, "of_c_source", make)


@pytest.fixture(scope="session")
def sanitized(tmp_path_factory):
    """The object that clang makes from the C source with its sanitizers for addresses and undefined
    behaviour, without optimization, which costs more time than it saves."""
    needs_compiler(tmp_path_factory.mktemp("clang"), "clang", *SANITIZERS)
    words = ("clang", "-O0", *SANITIZERS, "-c", TOP / "dist/chinese_number.c")
    make = lambda folder: run(*words, "-o", "chinese_number.o", cwd=folder)
    return once(tmp_path_factory, "sanitized", make) / "chinese_number.o"


@pytest.fixture(scope="session", params=["archive", "of_c_source"])
def library(request):
    """The tests of a language run with each of the two."""
    return request.getfixturevalue(request.param)


@pytest.fixture(scope="session")
def native(library, tmp_path_factory):
    """A folder with the Python package and its extension module, linked with the library."""
    needs("cc")
    if not HEADER.is_file():
        leave_out("there is no Python.h")
    folder = tmp_path_factory.mktemp("native")
    package, files = folder / "chinese_number", shutil.ignore_patterns("*.so", "__pycache__")
    shutil.copytree(PYTHON / "chinese_number", package, ignore=files)
    shutil.copy(PYTHON / "answers.py", folder)
    shutil.copy(library / "libchinese_number.a", package)
    run("bash", PYTHON / "native.sh", package, cwd=TOP, PYTHON=sys.executable)
    return folder


@pytest.fixture(scope="session", params=["by ctypes", "by native"])
def of_python(request, library):
    """The environment in which Python finds the package and calls the library in one of two
    ways."""
    if request.param == "by ctypes":
        return {"PYTHONPATH": str(PYTHON), "CHINESE_NUMBER_LIB": str(library)}
    return {"PYTHONPATH": str(request.getfixturevalue("native")), "CHINESE_NUMBER_LIB": ""}


@pytest.fixture(scope="session")
def refuse_growth(tmp_path_factory):
    """A library that refuses memory requests of the program that loads it."""
    needs("cc")
    made = tmp_path_factory.mktemp("refuse") / "refuse_growth.so"
    source = TOP / "tests/refuse_growth.c"
    run("cc", "-O1", "-shared", "-fPIC", "-o", made, source, "-ldl", cwd=TOP)
    return made


# The fixtures that need what `rt` builds.
BUILT = {"archive", "library", "numeral", "cheque", "numbers", "bench", "examples_tests"}


def program(name):
    """A fixture for the program of a crate, or for that of its tests."""

    @pytest.fixture(scope="session", name=name)
    def give(refuse_growth):
        path = TOP / f"crates/{name.removesuffix('_tests')}/out/{name}"
        if not path.is_file():
            leave_out(f"there is no {path.relative_to(TOP)}; `rt ci` builds it")
        return Program(path, refuse_growth)

    return give


numeral, cheque, numbers = map(program, ("numeral", "cheque", "numbers"))
bench, examples_tests = map(program, ("bench", "examples_tests"))


@pytest.fixture(scope="session")
def numeral_in_c(refuse_growth, tmp_path_factory):
    """The program that a user compiles from `dist/`, without the toolchain."""
    needs("cc")

    def make(folder):
        sources = TOP / "dist/numeral.c", TOP / "dist/chinese_number.c"
        run("cc", "-O2", *sources, "-o", "numeral", cwd=folder)

    return Program(once(tmp_path_factory, "numeral_in_c", make) / "numeral", refuse_growth)


def pytest_collection_modifyitems(items):
    """Marks the tests that need something built by `rt`, and those that need the packages."""
    for item in items:
        names = set(item.fixturenames)
        if "packages" in names:
            item.add_marker("packages")
        elif names & BUILT:
            item.add_marker("built")
