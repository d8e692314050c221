"""The C source of `dist/`: compiled by each compiler, it answers as the archive does.

`same.c` prints one sum over the results of the calls. `columns.c` compares the rows of columns
under sanitizers. No compiler warns about the source. The symbols of the object are checked. CMake
builds it as a part of a user's project and installs it with both headers. test_packages.py follows
the page of its package.
"""
import re

import pytest

from running import SANITIZERS, TOP, WINE, needs, needs_compiler, of_wine, run, write
from test_c import EACH_WARNING, FIRST_STEPS, FIRST_STEPS_OF_CPP

DIST, EXAMPLE = TOP / "dist", TOP / "bindings/c/example.c"
COLUMNS, ROWS = EXAMPLE.with_name("columns.c"), 2000
THREADS = ("-DTHREADS", "-pthread")
MINGW = ("x86_64-w64-mingw32-gcc", "-O2", "-static")
EMULATED = ("-O2", "-static")
CHECKED = ("-O1", "-fno-sanitize-recover=all")
# The compiler, and what runs the program if this machine cannot: the first one that is there. Four
# threads would take four times as long where it is emulated or checked, so there is one.
BUILDS = {
    "gcc": (("gcc", "-O2", *THREADS), None),
    "gcc, freestanding": (("gcc", "-O2", "-ffreestanding"), None),
    "clang": (("clang", "-O2", *THREADS), None),
    "threads": (("clang", *CHECKED, "-fsanitize=thread", *THREADS), None),
    "memory": (("clang", *CHECKED, "-fsanitize=memory"), None),
    "musl": (("musl-gcc", "-O2", "-static", *THREADS), None),
    "aarch64": (("aarch64-linux-gnu-gcc", *EMULATED), "qemu-aarch64|qemu-aarch64-static"),
    "arm": (("arm-linux-gnueabihf-gcc", *EMULATED), "qemu-arm|qemu-arm-static"),
    "s390x": (("s390x-linux-gnu-gcc", *EMULATED), "qemu-s390x|qemu-s390x-static"),
    "windows": (MINGW, WINE),
}
# Each memory request is refused. There are no threads, which would make requests themselves.
REFUSING = {"REFUSE": "1", "MORE": "1000000000"}
ASKED = {"abort", "memcpy", "memmove", "memset"}


def sum_of(folder, words, library, runner=(), **more):
    """The sum that `same.c` prints for a library."""
    program = folder / "same.exe"
    run(*words, "-I", DIST, TOP / "bindings/source/same.c", library, "-o", program, cwd=folder)
    said = run(*runner, program, cwd=folder, **of_wine(folder), **more)
    (found,) = set(re.findall(r"sum ([0-9a-f]{16})", said))
    return found


@pytest.fixture(scope="module")
def of_archive(archive, tmp_path_factory):
    needs("cc")
    folder = tmp_path_factory.mktemp("same")
    return sum_of(folder, ("cc", "-O2", *THREADS), archive / "libchinese_number.a")


@pytest.mark.parametrize("name", BUILDS)
def test_sum(of_archive, tmp_path, name):
    words, runner = BUILDS[name]
    needs_compiler(tmp_path, *words)
    runner = [needs(runner)] if runner else []
    assert sum_of(tmp_path, words, DIST / "chinese_number.c", runner) == of_archive


def test_sum_sanitized(of_archive, sanitized, tmp_path):
    assert sum_of(tmp_path, ("clang", *SANITIZERS), sanitized) == of_archive


def test_columns_sanitized(sanitized, tmp_path):
    """Each row of columns is answered as by the call for one value."""
    words = ("clang", "-std=c99", *SANITIZERS, "-I", DIST, COLUMNS, sanitized, "-o", "columns")
    run(*words, cwd=tmp_path)
    run("./columns", ROWS, cwd=tmp_path, wanted="")


def test_sum_without_memory(of_archive, refuse_growth, tmp_path):
    needs("gcc")
    own = {"LD_PRELOAD": str(refuse_growth), **REFUSING}
    assert sum_of(tmp_path, ("gcc", "-Os"), DIST / "chinese_number.c", **own) == of_archive


@pytest.mark.parametrize("compiler", ["gcc", "clang"])
def test_no_warning(compiler, tmp_path):
    needs(compiler)
    words = ("-std=c99", *EACH_WARNING[compiler].split(), "-Werror", "-O1")
    run(compiler, *words, "-c", DIST / "chinese_number.c", cwd=tmp_path, wanted="")


def test_object(tmp_path):
    """It exports only the header's calls, imports four names, and has no writable data."""
    needs("cc", "nm", "size")
    # What compilers add on some systems would import more.
    plain = ("-fno-stack-protector", "-U_FORTIFY_SOURCE", "-O2", "-fvisibility=hidden")
    run("cc", *plain, "-c", DIST / "chinese_number.c", cwd=tmp_path)
    header = (DIST / "chinese_number.h").read_text(encoding="utf-8")
    names = run("nm", "-g", "chinese_number.o", cwd=tmp_path)
    shown, asked = (set(re.findall(rf" {it} (\S+)$", names, re.M)) for it in ("[^U]", "U"))
    assert shown == set(re.findall(r"^uint32_t (chinese_\w+)\(", header, re.M))
    assert asked <= ASKED
    sizes = run("size", "-A", "chinese_number.o", cwd=tmp_path)
    assert not re.findall(r"^\.t?(?:data|bss)(?!\.rel\.ro)\S* +[1-9]\d*", sizes, re.M)


def test_shared_by_cmake(tmp_path):
    """CMake builds it as a shared library with a program, in a user's project."""
    needs("cc", "cmake")
    project = (TOP / "tests/users/part.cmake").read_text(encoding="utf-8")
    write(tmp_path / "CMakeLists.txt", project)
    where = (f"-DDIST={DIST}", f"-DSOURCE={EXAMPLE}", "-DBUILD_SHARED_LIBS=ON")
    run("cmake", "-S", ".", "-B", "build", *where, "-DCMAKE_BUILD_TYPE=Debug", cwd=tmp_path)
    run("cmake", "--build", "build", cwd=tmp_path)
    assert list(tmp_path.rglob("libchinese_number.so*"))
    run("build/user", cwd=tmp_path, wanted=FIRST_STEPS)


def test_installed_by_cmake(tmp_path):
    """A C++ program can use what CMake installs, with its header and pkg-config."""
    needs("g++", "cmake", "pkg-config")
    run("cmake", "-S", DIST, "-B", "build", "-DCMAKE_INSTALL_LIBDIR=lib", cwd=tmp_path)
    run("cmake", "--build", "build", cwd=tmp_path)
    run("cmake", "--install", "build", "--prefix", tmp_path / "installed", cwd=tmp_path)
    own = {"PKG_CONFIG_PATH": f"{tmp_path}/installed/lib/pkgconfig"}
    words = run("pkg-config", "--cflags", "--libs", "chinese-number", cwd=tmp_path, **own).split()
    run("g++", "-std=c++17", EXAMPLE.with_suffix(".cpp"), *words, "-o", "user", cwd=tmp_path)
    run("./user", cwd=tmp_path, wanted=FIRST_STEPS_OF_CPP)
