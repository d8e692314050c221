"""The JavaScript under node, with each module of `bindings/web/files`."""
import re
import shutil
import subprocess

import pytest

from questions import wrong_answers
from running import ENVIRONMENT, TOP, leave_out, needs, run, write

WEB = TOP / "bindings/web"
VALID = "process.exit(WebAssembly.validate(require('fs').readFileSync(process.argv[1])) ? 0 : 1)"


@pytest.fixture(scope="module", params=["64", "32"])
def folder(request, tmp_path_factory):
    """The binding with this module alone, under both names, whichever the host would choose."""
    made = tmp_path_factory.mktemp(request.param)
    header = TOP / "bindings/c/chinese_number.h"
    for path in (WEB / "answers.mjs", header, *(TOP / "tests/web").glob("*.mjs")):
        shutil.copy(path, made)
    shutil.copytree(TOP / "tests/rows", made / "rows")
    shutil.copytree(WEB / "files", made / "files")
    write(made / "chinese-number.mjs", "export * from './files/chinese-number.mjs';\n")
    for bits in ("64", "32"):
        name = f"chinese-number.{request.param}.wasm"
        shutil.copy(WEB / "files" / name, made / f"files/chinese-number.{bits}.wasm")
    return made


@pytest.fixture(scope="module")
def node(folder):
    """The command for node. Version 20 needs a flag for 64-bit memories, which later versions may
    not know."""
    needs("node 20")
    flag = "--experimental-wasm-memory64"
    asked = ["node", flag, "-e", VALID, folder / "files/chinese-number.64.wasm"]
    for words in (asked, [it for it in asked if it != flag]):
        if not subprocess.run(words, env=ENVIRONMENT, capture_output=True).returncode:
            return words[: words.index("-e")]
    return leave_out("node has no 64-bit memories")


def test_answers(node, folder):
    assert wrong_answers(lambda asked: run(*node, "answers.mjs", cwd=folder, stdin=asked)) == []


def test_face(node, folder, numeral):
    run(*node, "face_test.mjs", numeral.path, cwd=folder)


def test_columns(node, folder):
    run(*node, "columns_test.mjs", cwd=folder)


def test_messages(tmp_path):
    """Of the sources, which `files` has copies of."""
    needs("node 20")
    for path in (WEB / "chinese-number.mjs", WEB / "compiled.mjs", TOP / "tests/web/messages.mjs"):
        shutil.copy(path, tmp_path)
    run("node", "messages.mjs", cwd=tmp_path, wanted="")


def test_other_version(node, folder, tmp_path):
    """A module of another version, which a page may have cached, is refused."""
    files = shutil.copytree(folder / "files", tmp_path / "files")
    face = files / "chinese-number.mjs"
    write(face, re.sub("(?<=VERSION = ')[0-9]+", "2000", face.read_text(encoding="utf-8")))
    said = run(*node, face, cwd=files, fails=True)
    assert re.search("Error: the module has version [0-9]+, not 2000[0-9]{6}", said)
