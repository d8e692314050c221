"""The npm package of a clone, `bindings/web` unchanged, without `rt` and without a network.

npm links a copy of the folder, or copies it with --install-links. Each time, programs that import
and require it give the same answers, the command answers, tsc accepts both in TypeScript, and
esbuild bundles them for browsers. The files that `npm pack` includes are listed below.
"""
import json
import re
import shutil

import pytest

from installing import USERS, npm
from running import TOP, needs, run, write

NAME = "chinese-number-proved"
PACKED = {
    "LICENSE",
    "README.md",
    "README.zh.md",
    "chinese-number.cjs",
    "chinese-number.d.cts",
    "chinese-number.d.mts",
    "chinese-number.mjs",
    "chinese-number.node.mjs",
    "command.mjs",
    "compiled.mjs",
    "files/chinese-number.32.wasm",
    "files/chinese-number.64.wasm",
    "files/chinese-number.mjs",
    "files/compiled.mjs",
    "package.json",
    "table.mjs",
}
# Each program begins by importing everything that the package exports.
PROGRAMS = ("import.mjs", "files.mjs", "require.cjs")
TSC = ("tsc", "--strict", "--target", "es2020", "--lib", "es2020,dom", "--module", "nodenext")
DECLARE = ("--allowJs", "--checkJs", "--declaration", "--emitDeclarationOnly", "--outDir", "types")
BUNDLE = (
    "esbuild --bundle --format=iife --platform=browser --log-level=warning --outfile=bundle.cjs"
)


@pytest.fixture
def web(tmp_path):
    """A copy of the folder, in which npm must leave no other file."""
    needs("node 20", "npm")
    copy = shutil.copytree(TOP / "bindings/web", tmp_path / "bindings/web")
    before = sorted(copy.rglob("*"))
    yield copy
    assert sorted(copy.rglob("*")) == before


@pytest.fixture(params=[(), ("--install-links",)], ids=["linked", "copied"])
def project(request, web, tmp_path):
    """A project in which the package is installed and later removed."""
    made = write(tmp_path / "project/package.json", '{ "private": true }\n').parent
    for path in USERS.glob("*.?[jt]s"):
        shutil.copy(path, made)
    npm("install", *request.param, web, cwd=made)
    npm("ls", *request.param, cwd=made)
    yield made
    npm("uninstall", NAME, cwd=made)


def test_packed(web):
    listed = json.loads(npm("pack", "--dry-run", "--json", cwd=web))[0]["files"]
    assert {it["path"] for it in listed} == PACKED


def test_programs(project):
    """They give the same answers."""
    (answer,) = {run("node", name, cwd=project) for name in PROGRAMS}
    assert "findNumbers" in answer and answer.endswith(" 105000 一百二十\n")
    run("node", "user.mjs", cwd=project, wanted="")
    run("node", "both.mjs", cwd=project, wanted="true\n")


def test_command(project):
    run("npx", "chinese-number", "read", "一百二", cwd=project, wanted="120\n")


def comments(path):
    """The comments of a file, regardless of line breaks."""
    found = re.findall(r"/\*\*.*?\*/", path.read_text(encoding="utf-8"), re.S)
    return {" ".join(it.replace("\n", " ").replace(" * ", " ").split()) for it in found}


def test_types(project, web, tmp_path):
    """The types compile in a user's program and match the JavaScript, including the comments."""
    needs("tsc")
    for name in ("chinese-number.mjs", "compiled.mjs"):
        write(tmp_path / "sources" / name, (web / name).read_text(encoding="utf-8"))
    run(*TSC, *DECLARE, "sources/chinese-number.mjs", cwd=tmp_path)
    run(*TSC, "--noEmit", "typed.mts", "typed.cts", "same.mts", cwd=project)
    typed, written = (comments(web / f"chinese-number.{it}") for it in ("d.mts", "mjs"))
    assert typed and typed - written == set()


@pytest.mark.parametrize("name", ["import.mjs", "require.cjs"])
def test_bundle(project, name):
    needs("esbuild")
    run(*BUNDLE.split(), name, cwd=project, wanted="")
    run("node", "bundle.cjs", cwd=project, wanted=run("node", name, cwd=project))
