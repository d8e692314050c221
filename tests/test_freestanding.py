"""The Rust crate over the C source for machines without an operating system, and what it answers.

`users/freestanding` is a program over the crate, which cargo builds without a network: for
wasm32-unknown-unknown, which node runs and which imports nothing, and for thumbv7em-none-eabi,
which qemu runs as a Cortex-M4. It has to say what the rules say. The first rustc on the path serves
that has `core` and `alloc` for the target, or the source to compile them of.
"""
import os
import shutil
import subprocess
from pathlib import Path

import pytest

from installing import USERS, user
from running import ENVIRONMENT, TOP, leave_out, needs, run

PROGRAM = USERS / "freestanding"
MACHINE = "-M mps2-an386 -display none -semihosting-config enable=on,target=native -kernel"
# For each target: its linker with arguments, what runs the program, and the program's file.
TARGETS = {
    "wasm32-unknown-unknown": (
        ("wasm-ld", "--no-entry", "--export=answers"),
        ("node", PROGRAM / "run.cjs"),
        "freestanding.wasm",
    ),
    "thumbv7em-none-eabi": (
        ("ld.lld", f"--script={PROGRAM}/layout.ld"),
        ("qemu-system-arm", *MACHINE.split()),
        "freestanding",
    ),
}


def asked(rustc, *words):
    said = subprocess.run([rustc, *words], capture_output=True, text=True, check=True)
    return said.stdout.strip()


def library(target):
    """A rustc, and the cargo arguments that provide `core` and `alloc` for a target."""
    for folder in os.get_exec_path(ENVIRONMENT):
        rustc = Path(folder) / "rustc"
        if not rustc.is_file():
            continue
        try:
            built = Path(asked(rustc, "--print", "target-libdir", "--target", target))
        except subprocess.CalledProcessError:  # a wrapper around something that is not installed
            continue
        if any(built.glob("libcore-*.rlib")):
            return rustc, []
        source = Path(asked(rustc, "--print", "sysroot"), "lib/rustlib/src/rust/library")
        if (source / "compiler-builtins").is_dir() and (source / "vendor").is_dir():
            own = f"source.own.directory='{source}/vendor'", "source.crates-io.replace-with='own'"
            return rustc, ["-Zbuild-std=core,alloc", *(f"--config={it}" for it in own)]
    return leave_out("rustc has no core and alloc for bare targets, nor their source")


def built(project, target, linker, *words, **own):
    """The folder in which cargo builds the program for a target; its crate is next to it."""
    rustc, more = library(target)
    own.update(RUSTC=str(rustc), CARGO_TARGET_DIR=str(project / "target"))
    of_target = f"CARGO_TARGET_{target.upper().replace('-', '_')}_"
    own[f"{of_target}LINKER"] = linker
    own[f"{of_target}RUSTFLAGS"] = " ".join(f"-Clink-arg={it}" for it in words)
    if more:
        own["RUSTC_BOOTSTRAP"] = "1"
    run("cargo", "build", "--release", "--offline", "--target", target, *more, cwd=project, **own)
    return project / "target" / target / "release"


@pytest.mark.parametrize("target", TARGETS)
def test_answers(tmp_path, target):
    linker, runner, program = TARGETS[target]
    needs("cargo 1.82", "clang", linker[0], runner[0])
    project = shutil.copytree(PROGRAM, tmp_path / "project")
    ignored = shutil.ignore_patterns("target", "lib")
    shutil.copytree(TOP / "bindings/rust", project / "crate", ignore=ignored)
    compiler = {f"CC_{target.replace('-', '_')}": f"clang --target={target}"}
    made = built(project, target, *linker, **compiler)
    run(*runner, made / program, cwd=project, wanted=user("freestanding/answers.txt"))
