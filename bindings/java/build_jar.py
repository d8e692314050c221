#!/usr/bin/env python3
"""Makes the jar of this folder, without a network, and with --all those of the sources and the
documentation, and the file for Maven.

Usage: build_jar.py [--all] OUT

It needs a JDK from 9 on, which compiles for Java 8; two classes are for Java from 9 on. The jars
are the same, byte for byte, where the JDK is the same. A method of more than 8,000 bytes is
refused, since the virtual machine would leave it to its interpreter.
"""
import re
import struct
import subprocess
import sys
import tempfile
import zipfile
from pathlib import Path

HERE = Path(__file__).resolve().parent
SOURCES, NEWER = HERE / "src/main/java", HERE / "src/main/java9"
NAME, MODULE = "chinese-number-proved", "chinesenumber"
MOST_OF_METHOD = 8000
# The compiler runs for a few seconds, in which compiling itself well does not pay off.
BRIEF = ("-J-XX:TieredStopAtLevel=1", "-J-XX:+UseSerialGC")
DOCUMENTED = ("-quiet", "-notimestamp", "-Xdoclint:all,-missing", "-encoding", "UTF-8")
DATE = (1980, 1, 1, 0, 0, 0)
MANIFEST = """\
Manifest-Version: 1.0
Multi-Release: true
Implementation-Title: {name}
Implementation-Version: {version}

"""


def stop(why):
    sys.exit(f"build_jar: {why}")


def version():
    return re.search(r"^  <version>(.*)</version>", (HERE / "pom.xml").read_text("utf-8"), re.M)[1]


def run(*words):
    words = [str(word) for word in words]
    try:
        subprocess.run(words, check=True)
    except FileNotFoundError:
        stop(f"there is no {words[0]}: install a JDK from 9 on")
    except subprocess.CalledProcessError as error:
        stop(f"{words[0]} has ended with status {error.returncode}")


def javac(release, out, *words):
    own = ("javac", *BRIEF, "--release", release, "-encoding", "UTF-8", "-g:source,lines")
    run(*own, "-Xlint:all,-options,-cast", "-Werror", "-d", out, *words)


# The parts of a class file that have other sizes than three bytes, by their first byte.
SIZES = {1: None, 7: 3, 8: 3, 16: 3, 19: 3, 20: 3, 15: 4, 5: 9, 6: 9}


class ClassFile:
    """A class file, of which only the sizes of the methods are read."""

    def __init__(self, data):
        self.data, self.at, self.names = data, 8, {}
        self.read_pool()
        self.at += 6
        interfaces = self.number(2)
        self.at += 2 * interfaces
        self.methods(is_code=False)
        self.sizes = self.methods(is_code=True)

    def number(self, size):
        self.at += size
        return int.from_bytes(self.data[self.at - size : self.at], "big")

    def read_pool(self):
        index, count = 1, self.number(2)
        while index < count:
            tag, begins = self.number(1), self.at
            if tag == 1:
                length = self.number(2)
                self.names[index] = self.data[self.at : self.at + length].decode(errors="replace")
                self.at += length
            else:
                self.at = begins - 1 + SIZES.get(tag, 5)
            index += 2 if tag in (5, 6) else 1

    def methods(self, is_code):
        """The fields or the methods: the name of each, and the size of its code."""
        found = []
        for _ in range(self.number(2)):
            self.at += 2
            name = self.names[self.number(2)]
            self.at += 2
            sizes = [self.attribute() for _ in range(self.number(2))]
            found.append((name, max(sizes, default=0)))
        return found if is_code else []

    def attribute(self):
        name, length = self.names[self.number(2)], self.number(4)
        size = struct.unpack_from(">I", self.data, self.at + 4)[0] if name == "Code" else 0
        self.at += length
        return size


def refuse_large(folder):
    for path in folder.rglob("*.class"):
        for name, size in ClassFile(path.read_bytes()).sizes:
            if size > MOST_OF_METHOD:
                stop(f"{path.stem}.{name} has {size} bytes of code; core.py has to part it further")


def compiled(folder):
    """Compiles the classes into a folder, as they are in the jar."""
    javac("8", folder, *sorted(SOURCES.rglob("*.java")))
    refuse_large(folder)
    around = ("--patch-module", f"{MODULE}={folder}")
    javac("9", folder / "META-INF/versions/9", *around, *sorted(NEWER.rglob("*.java")))


def documented(folder):
    public = [it for it in sorted(SOURCES.rglob("*.java")) if not it.stem.startswith("Core")]
    words = ("-d", folder, "-sourcepath", SOURCES, "-windowtitle", NAME, "-doctitle", NAME)
    run("javadoc", *BRIEF, *DOCUMENTED, *words, *public)


def files_below(folder):
    return {
        it.relative_to(folder).as_posix(): it.read_bytes()
        for it in folder.rglob("*")
        if it.is_file()
    }


def pack(path, files):
    manifest = MANIFEST.format(name=NAME, version=version()).replace("\n", "\r\n").encode()
    files = {"META-INF/MANIFEST.MF": manifest, **dict(sorted(files.items()))}
    with zipfile.ZipFile(path, "w") as jar:
        for name, data in files.items():
            entry = zipfile.ZipInfo(name, DATE)
            entry.external_attr = 0o644 << 16
            jar.writestr(entry, data, zipfile.ZIP_DEFLATED, 9)


def make_jar(top, about):
    """Makes the jar whose path begins like this; `about` has further files for it, by name."""
    with tempfile.TemporaryDirectory() as scratch:
        compiled(Path(scratch))
        pack(Path(f"{top}.jar"), {**files_below(Path(scratch)), **about})


def make_others(top, about):
    sources = {f"META-INF/versions/9/{name}": data for name, data in files_below(NEWER).items()}
    pack(Path(f"{top}-sources.jar"), {**files_below(SOURCES), **sources, **about})
    with tempfile.TemporaryDirectory() as scratch:
        documented(Path(scratch))
        pack(Path(f"{top}-javadoc.jar"), {**files_below(Path(scratch)), **about})
    Path(f"{top}.pom").write_bytes((HERE / "pom.xml").read_bytes())


def make(out, about, is_all):
    out.mkdir(parents=True, exist_ok=True)
    top, own = out / f"{NAME}-{version()}", {f"META-INF/{name}": it for name, it in about.items()}
    make_jar(top, own)
    if is_all:
        make_others(top, own)


def main():
    words = sys.argv[1:]
    is_all = "--all" in words[:1]
    if len(words) != 1 + is_all or words[-1].startswith("-"):
        sys.exit(__doc__)
    make(Path(words[-1]), {"LICENSE": (HERE / "LICENSE").read_bytes()}, is_all)


if __name__ == "__main__":
    main()
