#!/usr/bin/env python3
"""Makes `dist/`, from which the library is installed without its toolchain, and compares it with its
sources.

Usage: dist.py make | copies | check | again ARCHIVE

make builds cn_c for WebAssembly, and C source from that, and writes `dist/` and the copies of its
files where the tools of other languages look. It needs the toolchain, a C compiler, wasm-opt of
binaryen, and wasm2c of wabt 1.0.32.

copies makes again what is made of the files in `dist/`: the copies, JavaScript and Java. It needs
only Python.

check verifies that `dist/` was made from the sources that are here, that its files have the checksums
in its PROVENANCE.json, and that each copy equals its original. It needs only Python 3.8 or later.

again makes the files again, and compares each byte. If the tools differ from those that
PROVENANCE.json names, or the toolchain is another one with the same logic, bytes may differ. Then it
compares the output of source/same.c with the C source and with the archive in the folder ARCHIVE,
which archive.sh fills.
"""
import base64
import json
import re
import shutil
import subprocess
import sys
import tempfile
from pathlib import Path

sys.path.append(str(Path(__file__).resolve().parent / "java"))
import core
from provenance import first_line, logic_of, sum_of, verdict
from sources import TOP, read, sum_of_sources

HERE, PROVENANCE = TOP / "bindings", "dist/PROVENANCE.json"
TARGET, ARCHIVE = "wasm64-unknown-unknown", "libchinese_number.a"
REMEDY = "run `python3 bindings/dist.py make`, which takes the toolchain"
MADE = ("chinese_number.c", "chinese-number.32.wasm", "chinese-number.64.wasm")
# The C source: its files, and their originals.
C_SOURCE = {
    "chinese_number.c": "dist/chinese_number.c",
    "chinese_number.h": "bindings/c/chinese_number.h",
    "LICENSE-wabt": "bindings/source/LICENSE-wabt",
}
# Each copy, and its original. A new file of dist/ also needs a line in .gitattributes, and a script
# that makes it a line in SCRIPTS of sources.py. Python, Rust and Go have the C source in their own
# folders: pip before 21.3, `cargo vendor` and `go mod vendor` take a package's folder alone.
COPIES = {
    "dist/CMakeLists.txt": "bindings/source/CMakeLists.txt",
    "dist/LICENSE": "LICENSE",
    "dist/LICENSE-wabt": "bindings/source/LICENSE-wabt",
    "dist/chinese_number.h": "bindings/c/chinese_number.h",
    "dist/chinese_number.hpp": "bindings/c/chinese_number.hpp",
    "dist/numeral.c": "bindings/source/numeral.c",
    **{f"bindings/{it}/LICENSE": "LICENSE" for it in ("go", "java", "python", "rust", "web")},
    **{f"bindings/go/{name}": original for name, original in C_SOURCE.items()},
    **{f"bindings/python/source/{name}": original for name, original in C_SOURCE.items()},
    **{f"bindings/rust/source/{name}": original for name, original in C_SOURCE.items()},
    "bindings/web/chinese-number.d.cts": "bindings/web/chinese-number.d.mts",
    "bindings/web/files/chinese-number.32.wasm": "dist/chinese-number.32.wasm",
    "bindings/web/files/chinese-number.64.wasm": "dist/chinese-number.64.wasm",
    "bindings/web/files/chinese-number.mjs": "bindings/web/chinese-number.mjs",
}
COMPILED = """\
// The module chinese-number.32.wasm, compiled; made by bindings/dist.py.
const base64 = '{}';
const bytes = Uint8Array.from(atob(base64), (it) => it.charCodeAt(0));
export const compiled = new WebAssembly.Module(bytes);
"""
IMPORT = "import { compiled } from './compiled.mjs';\n"
# The classes of Java that contain the module are made of it by the translator.
JAVA, MODULE = "bindings/java/src/main/java/chinesenumber", "dist/chinese-number.32.wasm"
TRANSLATOR = [f"bindings/java/{it}" for it in ("core.py", "wasm.py", "State.java.in")]
COUNT = "1000"
WHAT = (
    "The library cn_c as modules for WebAssembly and as C source. `verdict` is the toolchain's own "
    "line over the module with a 64-bit memory, built of proved code: of the sources whose sum "
    "bindings/sources.py prints. The other files are made of that module. `answers` is what "
    f"`same {COUNT}` of bindings/source/same.c shows over the C source, and over an archive of the "
    "same sources. `java` is one checksum of the classes of Java with the module, and of what makes "
    "them. bindings/dist.py makes and compares all this. This file is not signed."
)


def stop(why):
    sys.exit(f"dist: {why}")


def said(*words):
    """The output of a command. Stops if the command fails."""
    words, how = [str(word) for word in words], {"stderr": subprocess.STDOUT, "encoding": "utf-8"}
    ended = subprocess.run(words, stdout=subprocess.PIPE, **how)
    if ended.returncode:
        stop(f"{' '.join(words)}: status {ended.returncode}\n{ended.stdout[-2000:]}")
    return ended.stdout


def tools():
    """The tools that make these files. Stops if there is no toolchain."""
    if subprocess.run(["bash", HERE / "toolchain.sh"]).returncode:
        sys.exit(1)
    return {
        "toolchain": said("rt", "version").strip(),
        "the module with a 32-bit memory": first_line("wasm-opt"),
        "C source of that module": first_line("wasm2c"),
    }


def answers(library):
    """The output of source/same.c with a library, which is an archive or C source."""
    with tempfile.TemporaryDirectory() as scratch:
        program = Path(scratch) / "same"
        said("cc", "-O1", "-I", HERE / "c", HERE / "source/same.c", library, "-o", program)
        return said(program, COUNT).strip()


def common_js(compiled, face):
    """Combines two modules into one CommonJS module, for `require`."""
    names = re.findall(r"^export \w+ (\w+)", face, re.MULTILINE)
    both = re.sub(r"^export ", "", compiled + face.replace(IMPORT, ""), flags=re.MULTILINE)
    return f"'use strict';\n{both}\nmodule.exports = {{ {', '.join(names)} }};\n"


def of_javascript(module):
    """The files that contain the module, by path."""
    compiled = COMPILED.format(base64.b64encode(module).decode())
    face = read(HERE / "web/chinese-number.mjs").decode()
    return {
        "bindings/web/compiled.mjs": compiled.encode(),
        "bindings/web/chinese-number.cjs": common_js(compiled, face).encode(),
    }


def of_java(module):
    """The classes that contain the module, by path."""
    return {f"{JAVA}/{name}.java": it.encode() for name, it in core.classes(module).items()}


def files_of(made):
    """The files except PROVENANCE.json and those of Java, by path, made from the files that are built,
    by name."""
    files = {f"dist/{name}": made[name] for name in MADE}
    for path, original in COPIES.items():
        files[path] = files[original] if original in files else read(TOP / original)
    return {**files, **of_javascript(made["chinese-number.32.wasm"])}


def all_files_of(made):
    return {**files_of(made), **of_java(made["chinese-number.32.wasm"])}


def sum_of_java(files):
    """One checksum of the classes among the files, and of what makes them."""
    made = {path: data for path, data in files.items() if path.startswith(JAVA)}
    of = {path: read(TOP / path) for path in TRANSLATOR}
    of[MODULE] = files.get(MODULE) or found(MODULE)
    lines = [f"{sum_of(data)}  {path}" for path, data in sorted({**of, **made}.items())]
    return sum_of("\n".join(lines).encode())


def sums_of(files):
    """The checksums of the files in `dist/`, by name."""
    in_dist = {path: data for path, data in files.items() if path.startswith("dist/")}
    return {Path(path).name: sum_of(data) for path, data in in_dist.items()}


def built(archive, by):
    """All files, by path, built from the sources here. The archive must have the same output."""
    sources = sum_of_sources()
    with tempfile.TemporaryDirectory() as scratch:
        folder = Path(scratch)
        log = said("bash", HERE / "web/build.sh", folder)
        said(sys.executable, HERE / "source/source.py", folder / "chinese-number.32.wasm", folder)
        files = all_files_of({name: (folder / name).read_bytes() for name in MADE})
        shown, of_archive = answers(folder / "chinese_number.c"), answers(archive)
    if shown != of_archive:
        stop(f"the C source shows {shown}, and the archive {of_archive}")
    record = {
        "what": WHAT,
        "sources": sources,
        "tools": by,
        **verdict(log, TARGET, logic_of(by["toolchain"])),
        "answers": shown,
        "sha256": sums_of(files),
    }
    return {**files, PROVENANCE: provenance_of(record, files)}


def provenance_of(record, files):
    """The bytes of PROVENANCE.json."""
    record = {**record, "what": WHAT, "java": sum_of_java(files)}
    return f"{json.dumps(record, ensure_ascii=False, indent=2)}\n".encode()


def make():
    by = tools()
    for tool, package in (("wasm-opt", "binaryen"), ("wasm2c", "wabt")):
        if not shutil.which(tool):
            stop(f"there is no {tool}: install {package}, which has it")
    with tempfile.TemporaryDirectory() as scratch:
        said("bash", HERE / "archive.sh", scratch)
        files = built(Path(scratch) / ARCHIVE, by)
    write(files)


def write(files):
    for path, data in files.items():
        (TOP / path).parent.mkdir(parents=True, exist_ok=True)
        (TOP / path).write_bytes(data)
    print(f"dist: made {len(files)} files")


def found(path):
    """The bytes of a file, or none if it does not exist."""
    return (TOP / path).read_bytes() if (TOP / path).is_file() else b""


def made_here():
    """The files of dist/ that are built, by name."""
    return {name: found(f"dist/{name}") for name in MADE}


def classes_here():
    """The classes of Java that contain the module, by path."""
    paths = [*sorted((TOP / JAVA).glob("Core*.java")), TOP / JAVA / "State.java"]
    return {path.relative_to(TOP).as_posix(): found(path) for path in paths}


def provenance():
    """The contents of PROVENANCE.json. Stops if there are none."""
    try:
        return json.loads(found(PROVENANCE))
    except ValueError:
        return stop(f"{PROVENANCE} is missing, or no JSON: {REMEDY}")


def copies():
    files = all_files_of(made_here())
    for path in classes_here().keys() - files:
        (TOP / path).unlink()
    write({**files, PROVENANCE: provenance_of(provenance(), files)})


def faults(record):
    if record.get("sources") != sum_of_sources():
        yield "the sources are not those that dist/ was made of"
    files = files_of(made_here())
    named = record.get("sha256", {})
    for name, it in sums_of({path: found(path) for path in files}).items():
        if it != named.get(name):
            yield f"dist/{name} has not the sum that {PROVENANCE} names"
    for path, data in files.items():
        if found(path) != data:
            yield f"{path} is not as made of {COPIES.get(path, 'its originals')}"
    if record.get("java") != sum_of_java(classes_here()):
        yield f"{JAVA} has other classes than dist.py made by core.py: run `dist.py copies`"


def check():
    """The contents of PROVENANCE.json. Stops if a check fails."""
    record = provenance()
    wrong = list(faults(record))
    if wrong:
        stop("\ndist: ".join([*wrong, REMEDY]))
    print(f"dist: made of the sources {record['sources']}, and as {PROVENANCE} names it")
    return record


def compare_bytes(files):
    others = [path for path, data in files.items() if found(path) != data]
    if others:
        stop(f"made again, there are other bytes in {', '.join(others)}: {REMEDY}")
    print("dist: made again, each byte is the same")


def compare_answers(archive, record, why):
    for library in (archive, TOP / "dist/chinese_number.c"):
        shown = answers(library)
        if shown != record["answers"]:
            stop(f"{library} shows {shown}, and {PROVENANCE} names {record['answers']}: {REMEDY}")
    print(f"dist: not made again, since {why}; the archive and the C source show {shown}")


def again(archive):
    record, by = check(), tools()
    named = record["tools"]
    if not archive.is_file():
        stop(f"there is no {archive}: `bash bindings/archive.sh {archive.parent}` makes it")
    if logic_of(by["toolchain"]) != logic_of(named["toolchain"]):
        stop(f"it was made by {named['toolchain']}, and here is {by['toolchain']}: {REMEDY}")
    others = [
        f"{named[it]} made it, and here is {by[it] or 'none'}" for it in by if by[it] != named[it]
    ]
    if others:
        compare_answers(archive, record, "; ".join(others))
    else:
        compare_bytes(built(archive, by))


def main():
    words = sys.argv[1:]
    if words == ["make"]:
        make()
    elif words == ["copies"]:
        copies()
    elif words == ["check"]:
        check()
    elif len(words) == 2 and words[0] == "again":
        again(Path(words[1]) / ARCHIVE)
    else:
        sys.exit(__doc__)


if __name__ == "__main__":
    main()
