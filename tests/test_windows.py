"""Under wine: the Windows files, which are made from the module that the toolchain makes for Linux.

The archive of the crate and the library of the wheel give the same sum of `same.c` as the archive
for Linux. A program loads the library as Python does, and cargo builds a program with the crate.
There is no Python for Windows here, so nothing installs the wheel. `windows.py` refuses words and
lines that it does not know.
"""
import shutil
import sys

import pytest

from installing import USERS, listed, package, unpacked, user
from running import TOP, WINE, needs, of_wine, run, write
from test_c_source import DIST, MINGW, sum_of
from test_freestanding import PROGRAM, built

sys.path.insert(0, str(TOP / "bindings"))
import windows

TARGET, ARCHIVE, DLL = "x86_64-pc-windows-gnu", "libchinese_number.a", "libchinese_number.dll"


@pytest.fixture(scope="module")
def wheel(packages):
    return package(packages, "*-win_amd64.whl", "Windows")


@pytest.fixture(scope="module")
def crate(packages):
    return package(packages, "*.crate", "Rust")


@pytest.fixture(scope="module")
def folder(wheel, crate, tmp_path_factory):
    """A folder with the Windows files of the packages, and with its own Windows."""
    needs(MINGW[0], WINE)
    made = tmp_path_factory.mktemp("windows")
    take(wheel, f"/{DLL}", made)
    take(crate, f"/windows-x86_64/{ARCHIVE}", made)
    run(needs(WINE), "cmd", "/c", "exit", cwd=made, **of_wine(made))
    return made


def take(package, end, folder):
    """A file of a package, written to a folder."""
    (data,) = (data for name, data in listed(package).items() if name.endswith(end))
    path = folder / end.rpartition("/")[2]
    path.write_bytes(data)
    return path


@pytest.fixture(scope="module")
def of_linux(crate, tmp_path_factory):
    """The sum over the archive for Linux."""
    needs("cc")
    made = tmp_path_factory.mktemp("linux")
    return sum_of(made, ("cc", "-O2"), take(crate, f"/linux-x86_64/{ARCHIVE}", made))


@pytest.mark.parametrize("name", [ARCHIVE, DLL])
def test_sum(folder, of_linux, name):
    assert sum_of(folder, MINGW, folder / name, [needs(WINE)]) == of_linux


def test_library_is_loaded(folder):
    run(*MINGW, USERS / "load.c", f"-I{DIST}", "-o", "load.exe", cwd=folder)
    run(needs(WINE), "load.exe", DLL, cwd=folder, wanted="壹拾伍元整", **of_wine(folder))


def test_crate(crate, folder, tmp_path):
    """cargo calls no C compiler for it, except to link."""
    needs("cargo 1.82")
    project = shutil.copytree(PROGRAM, tmp_path / "project")
    unpacked(crate, tmp_path).rename(project / "crate")
    made = built(project, TARGET, MINGW[0], CC="/nowhere")
    answers = user("freestanding/answers.txt")
    run(needs(WINE), made / "freestanding.exe", cwd=project, wanted=answers, **of_wine(folder))


LAYOUT = "p270:32:32-p271:32:32-p272:64:64-i64:64-i128:128-f80:128-n8:16:32:64-S128"
MODULE = rf"""; ModuleID = 'module.bc'
source_filename = "rattle"
target datalayout = "e-m:e-{LAYOUT}"
target triple = "x86_64-unknown-linux-gnu"

@static.0 = private unnamed_addr constant [2 x i8] c"\00\22", align 1

; Function Attrs: nounwind
define internal noundef i64 @"cn_c::first"(ptr noundef %a0) #0 {{
start:
  %r0 = load i64, ptr %a0, align 8, !noundef !1
  ret i64 %r0
}}

define noundef i32 @chinese_first(ptr noundef %a0, i64 noundef %a1) #0 {{
start:
  %r0 = call i64 @"cn_c::first"(ptr %a0)
  %r1 = trunc i64 %r0 to i32
  ret i32 %r1
}}

declare void @llvm.trap() #1

attributes #0 = {{ nounwind "target-cpu"="x86-64" }}
attributes #1 = {{ cold noreturn nounwind }}

!1 = !{{}}
"""
EMPTY = f'target datalayout = "e-m:w-{LAYOUT}"\ntarget triple = "{TARGET}"\n'
# A text in a module, and its replacement: each may mean something else on Windows.
WRONG = (
    ("-unknown-linux-gnu", "-unknown-freebsd"),
    ("i128:128", "i128:64"),
    ("source_filename", 'module asm "nop"\nsource_filename'),
    ("@static.0 = private unnamed_addr", "@static.0 = private thread_local"),
    ("unnamed_addr constant", "unnamed_addr global"),
    ("define internal noundef", "define internal x86_64_sysvcc noundef"),
    ('@"cn_c::first"(ptr noundef %a0)', '@"cn_c::first"(ptr sret(i64) %a0)'),
    ("define noundef i32", "define { i64, i64 }"),
    ("define noundef i32", "define x86_64_sysvcc noundef i32"),
    ("i64 noundef %a1", "i128 noundef %a1"),
    ("i64 noundef %a1", "ptr byval({ i64, i64 }) %a1"),
    ("i64 noundef %a1", "i64 noundef %a1, ..."),
    ("chinese_first", "first"),
    ('call i64 @"cn_c::first"(ptr %a0)', 'call i64 asm "nop", "=r"()'),
    ('call i64 @"', 'call x86_64_sysvcc i64 @"'),
    ("load i64, ptr %a0", "load i64, ptr addrspace(257) %a0"),
    ("%r1 = trunc i64 %r0 to i32", "%r1 = va_arg ptr %a0, i32"),
    ("void @llvm.trap()", "i32 @puts(ptr)"),
    ("void @llvm.trap()", "void @llvm.va_start.p0(ptr)"),
    ('nounwind "target-cpu"', 'naked nounwind "target-cpu"'),
    ("!1 =", "!llvm.linker.options ="),
)


def test_known_module():
    text = windows.for_windows(MODULE, EMPTY)
    assert text.startswith(EMPTY) and "linux" not in text
    assert 'attributes #0 = { uwtable nounwind "target-cpu"' in text
    assert "attributes #1 = { cold noreturn nounwind }" in text


@pytest.mark.parametrize("old, new", WRONG)
def test_wrong_module(old, new):
    assert MODULE.count(old) == 1
    with pytest.raises(SystemExit, match="windows: the module "):
        windows.for_windows(MODULE.replace(old, new), EMPTY)


KNOWN_WORDS = (*windows.FIRST, "--sysroot=/nowhere", *windows.SHARED, *windows.LAST)


@pytest.mark.parametrize("words", [KNOWN_WORDS[1:], (*KNOWN_WORDS, "-g"), KNOWN_WORDS[::-1]])
def test_wrong_words(tmp_path, words):
    call = (sys.executable, TOP / "bindings/windows.py", "/nowhere/clang", TARGET)
    said = run(*call, *words, cwd=tmp_path, fails=True)
    assert said.startswith("windows: clang is called in a way that is not known")
