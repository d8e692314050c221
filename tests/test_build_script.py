"""The build script of the Rust crate: the archive that it uses and the tools that it calls, for
many targets.

It runs as in cargo, with the configuration that rustc prints for the target. It finds only tools
that print how they were called, so no compiler for a target is needed.
"""
import re
import subprocess

import pytest

from running import TOP, needs, run, write

LINUX, ARM = "x86_64-unknown-linux-gnu", "aarch64-unknown-linux-gnu"
INTEL_MAC, MAC = "x86_64-apple-darwin", "aarch64-apple-darwin"
MICROSOFT, WEB, BARE = "x86_64-pc-windows-msvc", "wasm32-unknown-unknown", "thumbv8m.main-none-eabi"
MINGW = "x86_64-pc-windows-gnu"
OF_WEB, OF_BARE = "CC_wasm32_unknown_unknown", "CC_thumbv8m_main_none_eabi"
# A target, the host, variables, and the compiler and the archiver that are called; or the variable
# that the script requests.
ROWS = (
    (LINUX, LINUX, {}, "cc, ar"),
    (ARM, ARM, {}, "cc, ar"),
    (MICROSOFT, MICROSOFT, {}, "cl.exe, lib.exe"),
    (MAC, MAC, {}, "cc -arch arm64, ar"),
    (INTEL_MAC, MAC, {}, "cc -arch x86_64, ar"),
    (ARM, LINUX, {}, "aarch64-linux-gnu-gcc, aarch64-linux-gnu-ar"),
    (LINUX, MAC, {}, "x86_64-linux-gnu-gcc, x86_64-linux-gnu-ar"),
    ("armv7-unknown-linux-gnueabihf", LINUX, {}, "arm-linux-gnueabihf-gcc, arm-linux-gnueabihf-ar"),
    ("riscv64gc-unknown-linux-gnu", LINUX, {}, "riscv64-linux-gnu-gcc, riscv64-linux-gnu-ar"),
    ("s390x-unknown-linux-gnu", LINUX, {}, "s390x-linux-gnu-gcc, s390x-linux-gnu-ar"),
    (MINGW, LINUX, {}, "x86_64-w64-mingw32-gcc, x86_64-w64-mingw32-ar"),
    (WEB, LINUX, {}, OF_WEB),
    (WEB, MAC, {}, OF_WEB),
    (BARE, LINUX, {}, OF_BARE),
    ("thumbv7em-none-eabihf", LINUX, {}, "CC_thumbv7em_none_eabihf"),
    ("riscv32imac-unknown-none-elf", LINUX, {}, "CC_riscv32imac_unknown_none_elf"),
    ("x86_64-unknown-none", LINUX, {}, "CC_x86_64_unknown_none"),
    ("aarch64-unknown-none", LINUX, {}, "CC_aarch64_unknown_none"),
    ("x86_64-unknown-freebsd", LINUX, {}, "CC_x86_64_unknown_freebsd"),
    ("aarch64-linux-android", LINUX, {}, "CC_aarch64_linux_android"),
    ("armv4t-unknown-linux-gnueabi", LINUX, {}, "CC_armv4t_unknown_linux_gnueabi"),
    ("arm-unknown-linux-gnueabihf", LINUX, {}, "CC_arm_unknown_linux_gnueabihf"),
    (MAC, LINUX, {}, "CC_aarch64_apple_darwin"),
    (MICROSOFT, LINUX, {}, "CC_x86_64_pc_windows_msvc"),
    ("i686-pc-windows-msvc", MICROSOFT, {}, "CC_i686_pc_windows_msvc"),
    # Tools named by variables, which precede the usual tool and tools named for more targets.
    (WEB, LINUX, {"CC": "", "AR": "llvm-ar"}, OF_WEB),
    (WEB, LINUX, {"CC": "clang --target=wasm32"}, "clang --target=wasm32, ar"),
    (LINUX, LINUX, {"CC": "clang", "AR": "llvm-ar"}, "clang, llvm-ar"),
    (MICROSOFT, LINUX, {"CC": "clang-cl", "AR": "llvm-lib"}, "clang-cl, llvm-lib"),
    (BARE, LINUX, {"TARGET_CC": "clang", "CC": "cc"}, "clang, ar"),
    (BARE, LINUX, {OF_BARE: "clang", "TARGET_CC": "cc"}, "clang, ar"),
    (BARE, LINUX, {f"CC_{BARE}": "clang", OF_BARE: "cc"}, "clang, ar"),
)
# A target, and the archive of the package that it gets, if any.
ARCHIVES = (
    (LINUX, "linux-x86_64"),
    ("x86_64-unknown-linux-musl", "linux-x86_64"),
    ("x86_64-unknown-linux-gnux32", None),
    (ARM, "linux-aarch64"),
    ("aarch64_be-unknown-linux-gnu", None),
    (MINGW, "windows-x86_64"),
    ("i686-pc-windows-gnu", None),
    (MICROSOFT, None),
    (MAC, None),
)
TOOL = '#!/bin/sh\necho "called ${0##*/} $*"\n'


@pytest.fixture(scope="module")
def script(tmp_path_factory):
    """The script in a folder with C source and each tool that a row names."""
    needs("rustc")
    folder = tmp_path_factory.mktemp("script")
    write(folder / "source/chinese_number.c", "")
    for name in {call.split()[0] for *_, wanted in ROWS for call in wanted.split(", ")}:
        write(folder / "tools" / name, TOOL).chmod(0o755)
    source = TOP / "bindings/rust/build.rs"
    run("rustc", "--edition=2021", "-Dwarnings", source, "-o", folder / "build", cwd=folder)
    return folder / "build"


def of_target(target):
    """What cargo passes to a build script for a target, from rustc's own output."""
    said = run("rustc", "--print", "cfg", "--target", target, cwd=TOP)
    found = re.findall(r'^(target_\w+)="(.*)"$', said, re.M)
    return {f"CARGO_CFG_{name.upper()}": value for name, value in found}


def end_of(script, folder, target, host, **variables):
    """The result of the script for the package in a folder."""
    told = {"TARGET": target, "HOST": host, "CARGO_MANIFEST_DIR": folder, "OUT_DIR": folder}
    told |= {"PATH": f"{script.parent}/tools", **of_target(target), **variables}
    return subprocess.run([script], env=told, capture_output=True, text=True)


def outcome(script, target, host, variables):
    """The calls of tools, up to the words that the script appends, or the variable it requests."""
    ended = end_of(script, script.parent, target, host, **variables)
    calls = re.findall(r"^called (.*?) (?:-O2|crs|/nologo) ", ended.stdout, re.M)
    asked = re.search(r" Set (\S+) to a compiler\.$", ended.stderr.strip())
    if ended.returncode == 1 and asked and not calls:
        return asked[1]
    return ", ".join(calls) if ended.returncode == 0 else ended.stderr


@pytest.mark.parametrize("target, host, variables, wanted", ROWS)
def test_tools(script, target, host, variables, wanted):
    assert outcome(script, target, host, variables) == wanted


@pytest.mark.parametrize("target, wanted", ARCHIVES)
def test_archives(script, tmp_path, target, wanted):
    """If there is no archive for a target, the C source is compiled."""
    write(tmp_path / "source/chinese_number.c", "")
    for name in {name for _, name in ARCHIVES if name}:
        write(tmp_path / "lib" / name / "libchinese_number.a", "")
    said = end_of(script, tmp_path, target, target, CC="cc", AR="ar").stdout
    found = re.findall(r"^cargo:rustc-link-search=native=.*/lib/(.*)$", said, re.M)
    assert found == ([wanted] if wanted else []) and ("called cc" in said) != bool(wanted)
