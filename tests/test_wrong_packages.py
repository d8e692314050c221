"""Packages with one fault each, whose sums and RECORD are right: `test_packages.py` fails. Run it by
hand when that test changes."""
import base64
import re
import shutil
import sys
import tarfile

import pytest

from installing import NATIVE, listed
from running import TOP, run
from test_checks import replaced


@pytest.fixture
def packing(monkeypatch):
    """The script that makes the packages."""
    monkeypatch.syspath_prepend(TOP / "bindings")
    import packages

    return packages


def a_byte(data):
    """The data with the hundredth byte from the end changed."""
    return data[:-100] + bytes([data[-100] ^ 1]) + data[-99:]


def module_inside(change):
    """JavaScript with another module inside."""
    encoded = lambda found: base64.b64encode(change(base64.b64decode(found[0])))
    return lambda data: re.sub(rb"(?m)(?<=^const base64 = ').*(?=';$)", encoded, data)


WHEEL, BY_CTYPES = (f"*-{it}-*_{NATIVE}.whl" for it in ("cp310-abi3", "py3-none"))
OF_C = f"chinese-number-*-{NATIVE}.tar.gz"
NPM, SDIST, SOURCE = "*.tgz", "chinese_number_proved-*.tar.gz", "*-source.tar.gz"
NO_FILE = "is none of the files"
TYPE = b"export function toNumber(string: string, options?: ReadOptions): %b;"
OTHER_TYPE = replaced(TYPE % b"number", TYPE % b"bigint")
NO_MODULE = replaced(b"./chinese-number.node.mjs", b"./chinese.mjs")
OTHER_PREFIX = replaced(b"${pcfiledir}/../..", b"/usr/local")
JAR, OTHER_DATE = "*-proved-*[0-9].jar", replaced(b"// 1409.50\n", b"// 1409.05\n")
OTHER_ANSWER = replaced(b"\n140950\n", b"\n140951\n")
OTHER_MODULE, OTHER_BYTE = module_inside(lambda _: b"\0asm\1\0\0\0"), module_inside(a_byte)


def other_soname(data):
    return data.replace(b".so.0.1", b".so.0.2")


# What is wrong: the package, the suffix of the file's name, the change (None removes the file), the
# test that fails, and a part of the first line of its message.
WRONG = {
    "a byte of the wheel's library": (WHEEL, ".so", a_byte, "sums", NO_FILE),
    "another library in the other one": (BY_CTYPES, ".so", lambda _: b"\x7fELF", "sums", NO_FILE),
    "a byte of that for Windows": ("*-win_amd64.whl", ".dll", a_byte, "sums", NO_FILE),
    "no py.typed": (WHEEL, "py.typed", None, "types_of_wheel", "mypy"),
    "another answer in a README": (WHEEL, "METADATA", OTHER_ANSWER, "test_wheel", "doctest"),
    "types that say bigint": (NPM, ".d.mts", OTHER_TYPE, "types_of_npm", "typed.mts"),
    "exports to a missing file": (NPM, "package.json", NO_MODULE, "test_npm", "node"),
    "another module inside": (NPM, "package/compiled.mjs", OTHER_MODULE, "sums", NO_FILE),
    "a byte of it": (NPM, "package/compiled.mjs", OTHER_BYTE, "sums", NO_FILE),
    "a byte for require": (NPM, "package/chinese-number.cjs", OTHER_BYTE, "sums", NO_FILE),
    "another prefix in the .pc": (OF_C, ".pc", OTHER_PREFIX, "pkg_config", "pkg-config"),
    "another soname": (OF_C, "number-config.cmake", other_soname, "cmake", "cmake"),
    "no PROVENANCE.json": (OF_C, "PROVENANCE.json", None, "sums", "has no PROVENANCE.json"),
    "a byte of the C source": (SOURCE, "/chinese_number.c", a_byte, "sums", NO_FILE),
    "other C source in the crate": ("*.crate", "/chinese_number.c", a_byte, "sums", NO_FILE),
    "no licence of wabt": (SDIST, "LICENSE-wabt", None, "sums", "has no LICENSE-wabt"),
    "another answer": (SDIST, "PKG-INFO", OTHER_ANSWER, "python_source", "doctest"),
    "another answer of Java": (JAR, "README.md", OTHER_DATE, "test_jar", "Example.java"),
    "a jar without its licence": (JAR, "LICENSE", None, "sums", "has no PROVENANCE.json or no L"),
    "a class less": (JAR, "r/Core3.class", None, "test_jar", "Example.java"),
    "a class for Java 9 less": (JAR, "module-info.class", None, "module_of_jar", "java"),
}


def unpacked(path):
    """The files of a package in order, without the RECORD of a wheel; a link is a str."""
    if path.suffix == ".whl":
        return {it: data for it, data in listed(path).items() if not it.endswith("RECORD")}
    if path.suffix == ".jar":
        return listed(path)
    with tarfile.open(path) as packed:
        return {
            it.name: it.linkname if it.issym() else packed.extractfile(it).read() for it in packed
        }


def pack(packing, path, files):
    if path.suffix == ".whl":
        info = next(name for name in files if name.endswith("METADATA")).partition("/")[0]
        packing.build_wheel.write_wheel(path, info, files)
        return
    if path.suffix == ".jar":
        packing.build_jar.pack(path, files)
        return
    top = next(iter(files)).partition("/")[0]
    packing.write_tar(path, top, {name[len(top) + 1 :]: data for name, data in files.items()})


def made_wrong(files, end, change):
    (name,) = (it for it, data in files.items() if it.endswith(end) and isinstance(data, bytes))
    before = files.pop(name)
    if change:
        files[name] = change(before)
        assert files[name] != before
    return files


@pytest.mark.by_hand
@pytest.mark.parametrize("pattern, end, change, test, why", WRONG.values(), ids=WRONG)
def test_wrong_package(packages, packing, tmp_path, pattern, end, change, test, why):
    copy = shutil.copytree(packages, tmp_path / "out")
    path = next(copy.glob(pattern))
    pack(packing, path, made_wrong(unpacked(path), end, change))
    packing.write_sums(copy)
    words = ("-m", "pytest", "-q", "tests/test_packages.py", "-k", test, "--packages", copy)
    said = run(sys.executable, *words, cwd=TOP, fails=True, CI="", PYTHONDONTWRITEBYTECODE="1")
    messages = re.findall(r"^_{3,} .* _{3,}\n(.*)$", said, re.MULTILINE)
    assert any(why in it for it in messages), said[-3000:]
