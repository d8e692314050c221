"""The Java binding: its answers, its limits, the same sum as the C source, and its translator, by
which random modules answer as in node. It is compiled once, without Maven."""
import os
import re
import subprocess
import sys
from pathlib import Path

import pytest

from questions import lines, wrong_answers
from running import ENVIRONMENT, TOP, fail, needs, once, run, write

JAVA, OWN = TOP / "bindings/java", TOP / "tests/java"
sys.path.insert(0, str(JAVA))
sys.path.insert(0, str(OWN))
import build_jar
import core
import modules
import wasm

HEADER = (TOP / "bindings/c/chinese_number.h").read_text(encoding="utf-8")
MODULE = (TOP / "dist/chinese-number.32.wasm").read_bytes()
# How the virtual machine runs the code: with both compilers, with the first one, and with none; and
# how many rounds of threads there are.
MODES = {
    "as usual": ("8",),
    "C1": ("2", "-XX:TieredStopAtLevel=1"),
    "no compiler": ("1", "-Xint"),
}
BRIEF = ("-XX:TieredStopAtLevel=1", "-XX:+UseSerialGC", "-Dfile.encoding=UTF-8")


@pytest.fixture(scope="module")
def classes(tmp_path_factory):
    """A folder with the classes, and those of the programs of the tests."""
    needs("javac 9", "java")

    def make(folder):
        build_jar.compiled(folder / "classes")
        own = [OWN / f"{it}.java" for it in ("Limits", "Columns", "Same")]
        own.append(JAVA / "answers/Answers.java")
        words = ("javac", *build_jar.BRIEF, "-Xlint:all,-options", "-Werror", "-encoding", "UTF-8")
        run(*words, "-cp", "classes", "-d", "classes", *own, cwd=folder)

    return once(tmp_path_factory, "java", make) / "classes"


def java(classes, name, *words, mode=BRIEF, stdin="", **more):
    return run("java", *mode, "-cp", classes, name, *words, cwd=OWN, stdin=stdin, **more)


def test_answers(classes):
    assert wrong_answers(lambda asked: java(classes, "Answers", stdin=asked)) == []


def test_lines(classes):
    rows = list(lines())
    asked = "".join(f"{line}\n" for _, line, _ in rows)
    assert java(classes, "Limits", "lines", stdin=asked).splitlines() == [it[2] for it in rows]


@pytest.mark.parametrize("mode", MODES)
def test_limits(classes, mode):
    rounds, *words = MODES[mode]
    java(classes, "Limits", rounds, mode=("-Xmx300m", *words), wanted="")


def test_columns(classes):
    java(classes, "Columns", wanted="")


# An example in a comment, and its value; and one in the comment of the class, in a line.
IN_LINE = re.compile(r"^ \* ([a-z]\w*\(.*\)) {2,}()(\S+)$", re.M)
EXAMPLE = re.compile(
    r"\{@code ((?:[^{}]|\{[^}]*\})*)\} is (?:\{@code ([^}]*)\}|([^\s,;]+?)[.,]?(?: |$))", re.M
)
EXAMPLES = """\
import static chinesenumber.ChineseColumns.*;
import static chinesenumber.ChineseNumbers.*;
import chinesenumber.*;
import java.math.*;
import java.time.*;
import java.util.*;
import java.util.stream.*;
class Examples {{
    public static void main(String[] words) {{
{}
    }}
}}
"""


def test_examples(classes, tmp_path):
    """Each call has an example in its comment, with its value; the classes have more."""
    folder = JAVA / "src/main/java/chinesenumber"
    text, columns, *others = [
        (folder / f"{it}.java").read_text("utf-8")
        for it in ("ChineseNumbers", "ChineseColumns", "Quantity", "Repair")
    ]
    comment = re.compile(r"/\*\*((?:(?!\*/).)*)\*/\s+public static (?!final)", re.S)
    comments = comment.findall(text + columns)
    found = [EXAMPLE.search(re.sub(r"\s+\*? *", " ", it)) for it in comments]
    assert None not in found and len(found) > 50
    more = EXAMPLE.finditer(re.sub(r"\s+\*? *", " ", "".join(others)))
    found += [*IN_LINE.finditer(text), *more]
    assert len(found) == len(comments) + 7 + 6
    calls = "".join(f"        System.out.println({it[1]});\n" for it in found)
    write(tmp_path / "Examples.java", EXAMPLES.format(calls))
    words = ("javac", *build_jar.BRIEF, "-encoding", "UTF-8", "-cp", classes, "-d", tmp_path)
    run(*words, "Examples.java", cwd=tmp_path)
    assert java(f"{classes}:{tmp_path}", "Examples") == "".join(
        f"{it[2] or it[3]}\n" for it in found
    )


FROM_KOTLIN = """\
(120, 十万五千)
壹佰貳拾
壹仟肆佰零玖元伍角整
15:30
占百分之十二点五
INCORRECT 3 第3个字“贰”前缺“零”。
text
"""


@pytest.mark.by_hand
def test_kotlin(classes, tmp_path):
    needs("kotlinc")
    words = ("-cp", classes, OWN / "Use.kt", "-include-runtime", "-d", "use.jar")
    run("kotlinc", *words, cwd=tmp_path)
    assert java(f"{classes}:{tmp_path}/use.jar", "UseKt") == FROM_KOTLIN


# The parameters of the calls, and how many of what a pointer leads to there are.
CALL = re.compile(r"^uint32_t (chinese_\w+)\(([^)]*)\);", re.M)
COUNT = re.compile(r"size_t (\w*length|most)$")


def shim_of(name, parameters):
    """A call of the header in C, which hands its arguments on."""
    parameters = [it.strip() for it in parameters.replace("\n", " ").split(",")]
    given = []
    for it, after in zip(parameters, [*parameters[1:], ""]):
        own = it.split()[-1]
        count = COUNT.match(after) if "*" in it else None
        size = f"sizeof {own}" + (f" * {count[1]}" if count else "")
        bytes_ = f"(void *)(uintptr_t){own.lstrip('*')}"
        given.append(f"{{{size}, {bytes_}}}" if "*" in it else f"{{(uint64_t){own}, NULL}}")
    if parameters == ["void"]:
        return f'uint32_t {name}(void) {{ return ask("{name}", NULL, 0); }}\n'
    words = f"const argument all[] = {{{', '.join(given)}}};"
    call = f'return ask("{name}", all, sizeof all / sizeof *all);'
    return f"uint32_t {name}({', '.join(parameters)}) {{ {words} {call} }}\n"


def same_in_java(classes, folder, count):
    """What same.c prints if each call is made in Java."""
    calls = (OWN / "calls.c").read_text(encoding="utf-8")
    calls += "".join(shim_of(*found) for found in CALL.findall(HEADER))
    source, include = write(folder / "calls.c", calls), TOP / "bindings/c"
    words = ("-I", include, TOP / "bindings/source/same.c", source, "-o", folder / "same")
    run("cc", "-O1", *words, cwd=folder)
    ends = [*os.pipe(), *os.pipe()]
    words = ["java", "-XX:+UseSerialGC", "-cp", str(classes), "chinesenumber.Same"]
    machine = subprocess.Popen(words, stdin=ends[0], stdout=ends[3], env=ENVIRONMENT)
    text = f'exec "$0" {count} 3<&{ends[2]} 4>&{ends[1]}'
    asked = subprocess.Popen(
        ["bash", "-c", text, folder / "same"], stdout=subprocess.PIPE, pass_fds=ends[1:3], text=True
    )
    for it in ends:
        os.close(it)
    said = asked.communicate(timeout=900)[0]
    if asked.returncode or machine.wait(timeout=60):
        fail(f"same.c over Java has said {said!r}")
    return said


def test_same(classes, of_c_source, tmp_path):
    """The sum of same.c over Java is that over the C source. With 1000 in place of 10 it is the one
    that dist/PROVENANCE.json names."""
    program, library = tmp_path / "of_c", of_c_source / "libchinese_number.a"
    words = ("-I", TOP / "bindings/c", TOP / "bindings/source/same.c", library, "-o", program)
    run("cc", "-O1", *words, cwd=tmp_path)
    assert same_in_java(classes, tmp_path, 10) == run(program, 10, cwd=tmp_path)


# The translator.


def test_stack():
    """The module takes as much of its stack as source.py finds."""
    text = (TOP / "dist/chinese_number.c").read_text(encoding="utf-8")
    (wanted,) = re.findall(r"^#define STACK_BYTES UINT64_C\((\d+)\)", text, re.M)
    assert wasm.stack_of(wasm.Module(MODULE)) == int(wanted)


def module_of(folder, text):
    """A module of a text for wabt."""
    source = write(folder / "module.wat", text)
    run("wat2wasm", source, "-o", folder / "module.wasm", cwd=folder)
    return (folder / "module.wasm").read_bytes()


REFUSED = {
    "(func (result i32) (if (result i32) (i32.const 1) (then (i32.const 2)) (else (i32.const 3))))":
        "the instruction 0x4 is not known",
    "(func (result f32) (f32.const 1))": "a value of the type 0x7d",
    "(func (result i32) (block (result i32) (i32.const 1)))": "a block has a result",
    "(func (drop (memory.grow (i32.const 1))))": "the instruction 0x40 is not known",
    '(func (import "a" "b"))': "a section of the kind 2 is not known",
    "(table 1 funcref)": "a section of the kind 4 is not known",
    "(func (result i32 i32) (i32.const 1) (i32.const 2))": "a function has several results",
    "(func $f (global.set 0 (i64.sub (global.get 0) (i64.const 8))) (call $f))": "calls itself",
    "(func $f (call $g)) (func $g (call $f))": "is called by a function that it calls",
    "(func (drop (i64.mul (global.get 0) (i64.const 8))))": "uses the stack in an unknown way",
}  # fmt: skip
AROUND = """(module {} (memory 1) (global (mut i64) (i64.const 65536))
 (global (export "__heap_base") i64 (i64.const 66000)) (data (i32.const 65536) "a"))"""


@pytest.mark.parametrize("text", REFUSED)
def test_refused(tmp_path, text):
    needs("wat2wasm")
    with pytest.raises(SystemExit, match=REFUSED[text]):
        core.classes(module_of(tmp_path, AROUND.format(text)))


def test_unknown_refused():
    """Each instruction and each section that is not known is refused; each that is known is written."""
    for code in {*range(256), *range(0xFC00, 0xFC20)} - {0xFC, *wasm.NAMES}:
        data = bytes([code] if code < 256 else [0xFC, code & 0xFF])
        with pytest.raises(SystemExit, match=f"the instruction {code:#x} is not known"):
            wasm.nodes_of(wasm.Bytes(data + b"\x0b"))
    for kind in {*range(256)} - {*wasm.Module.SECTIONS}:
        with pytest.raises(SystemExit, match=f"a section of the kind {kind} is not known"):
            wasm.Module(MODULE[:8] + bytes([kind, 0]))
    writers, families = core.Method.WRITERS, core.Method.FAMILIES
    for name in {*wasm.NAMES.values()} - {"end", *writers}:
        assert core.FAMILY.match(name)[1] in families


def test_large_method_refused(tmp_path):
    needs("javac 9")
    steps = "".join(f"n += n * {number};" for number in range(1200))
    write(tmp_path / "Large.java", f"class Large {{ int f(int n) {{ {steps} return n; }} }}")
    run("javac", *build_jar.BRIEF, "Large.java", cwd=tmp_path)
    with pytest.raises(SystemExit, match="Large.f has .* bytes of code"):
        build_jar.refuse_large(tmp_path)


ALL = "public class All {{ public static void main(String[] words) throws Exception {{ {} }} }}"


def answers_of_java(folder, jobs):
    """What the functions of modules answer in Java, given the classes of each module."""
    calls = []
    for number, texts in enumerate(jobs):
        package, own = f"package m{number};", folder / f"m{number}"
        texts["Words"] = (JAVA / "src/main/java/chinesenumber/Words.java").read_text("utf-8")
        texts["Driver"] = (OWN / "Driver.java.in").read_text("utf-8")
        for name, text in texts.items():
            text = text.replace("package chinesenumber;", package)
            write(own / f"{name}.java", text.replace("package @PACKAGE@;", package))
        calls.append(f"m{number}.Driver.print({number}, System.out);")
    write(folder / "All.java", ALL.format(" ".join(calls)))
    run(
        "javac",
        *build_jar.BRIEF,
        "-d",
        "classes",
        "All.java",
        *folder.glob("m*/*.java"),
        cwd=folder,
    )
    return java(folder / "classes", "All")


def answers_of_node(folder, binaries):
    paths = [folder / f"{number}.wasm" for number, _ in enumerate(binaries)]
    for path, binary in zip(paths, binaries):
        path.write_bytes(binary)
    return run("node", OWN / "driver.mjs", *paths, cwd=folder)


def binaries_of(folder, count):
    needs("javac 9", "java", "wat2wasm", "node 20")
    return [module_of(folder, modules.module(seed)) for seed in range(count)]


# For random modules, so that their functions have parts and are in several classes.
SMALL = {"MOST_OF_METHOD": 400, "MOST_OF_PART": 400, "LEAST_OF_PART": 40, "MOST_OF_CLASS": 2000}


def translator(old="", new=""):
    """The translator with small parts, and a fault."""
    text = Path(core.__file__).read_text(encoding="utf-8")
    assert text.count(old) == 1 or not old, old
    names = {"__name__": "core", "__file__": core.__file__}
    exec(compile(text.replace(old, new) if old else text, core.__file__, "exec"), names)
    names.update(SMALL)
    return names["classes"]


def test_random_modules(tmp_path):
    binaries, translate = binaries_of(tmp_path, 6), translator()
    in_java = answers_of_java(tmp_path, map(translate, binaries))
    assert in_java == answers_of_node(tmp_path, binaries)
    assert in_java.count("\n") == 6 * 6 * modules.FUNCTIONS


FAULTS = {
    '"shr_u": ">>>"': '"shr_u": ">>"',
    "half = 1 << BITS[value.kind] - 1": "half = 0",
    "if not all(map(is_same, self.stack[-2:])):": "if False:",
    'def statement(self, *texts):\n        self.keep()': "def statement(self, *texts):",
    '8: " & 0xff",': '8: " & 0x7f",',
    "in enumerate(writes))\n        body": "in enumerate(writes[1:]))\n        body",
    "in enumerate(part.exits, 1):": "in enumerate(part.exits[::-1], 1):",
    "count, other, to = self.pop()": "other, count, to = self.pop()",
    "Integer.rotateLeft(": "Integer.rotateRight(",
    '"(int) (byte) {}"': '"(int) (short) {}"',
    '"{} & 0xffffffffL", "long"': '"(long) {}", "long"',
    "Value(f\"{self} ? 1 : 0\", \"int\")": "Value(f\"{self} ? 2 : 0\", \"int\")",
}  # fmt: skip


@pytest.mark.by_hand
def test_faults(tmp_path):
    """Each fault in the translator changes an answer of a few random modules."""
    binaries, jobs = binaries_of(tmp_path, 12), []
    for fault in FAULTS.items():
        jobs += map(translator(*fault), binaries)
    wanted = answers_of_node(tmp_path, binaries * len(FAULTS)).splitlines()
    found = answers_of_java(tmp_path, jobs).splitlines()
    each, missed = len(wanted) // len(FAULTS), []
    for at, fault in enumerate(FAULTS):
        own = slice(at * each, (at + 1) * each)
        missed += [] if found[own] != wanted[own] else [fault]
    assert missed == []
