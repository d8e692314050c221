"""The packages of `bindings/packages.sh`, installed as by their users, without `rt` on the path.

In an empty folder, the install command of each package's README is run, and then its example, which
answers as its comments say. The types are checked, packages are uninstalled if possible, PyPy and
musl are tried, and aarch64 runs under qemu. A wheel, a library, and the crate without its archives
are built from the C source.
"""
import base64
import csv
import hashlib
import json
import re
import shutil
import subprocess
import sys
import tarfile
import textwrap
from pathlib import Path

import pytest

from installing import MANIFEST, NATIVE, PYTHONS, USERS, Readme, commands, listed, npm, of_rust
from installing import package, packages_in, unpacked, user, virtual_environment
from questions import wrong_answers
from running import ENVIRONMENT, TOP, fail, needs, run, write
from test_c import EXAMPLES

NAME = "chinese-number-proved"


def sha256(data):
    return hashlib.sha256(data).hexdigest()


def test_sums(packages):
    """The sums next to the packages, and in each package the sums of what was built for its
    processor."""
    for line in (packages / "SHA256SUMS").read_text(encoding="utf-8").splitlines():
        digest, name = line.split("  ")
        if sha256((packages / name).read_bytes()) != digest:
            fail(f"{name} has another sum than SHA256SUMS says")
    provenance = (packages / "PROVENANCE.json").read_bytes()
    builds = json.loads(provenance)["builds"]
    for path in packages_in(packages):
        files = listed(path)
        names = {name.rpartition("/")[2] for name in files}
        if provenance not in files.values() or "LICENSE" not in names:
            fail(f"{path.name} has no PROVENANCE.json or no LICENSE")
        if "chinese_number.c" in names and "LICENSE-wabt" not in names:
            fail(f"{path.name} has no LICENSE-wabt, and C source that wasm2c wrote")
        if any(name.endswith(".cargo_vcs_info.json") for name in files):
            fail(f"{path.name} names a commit of its own")
        of_builds(path.name, files, builds)


def of_builds(package_name, files, builds):
    """Each built file is one of those that PROVENANCE.json names."""
    for name, data in files.items():
        if name in ("package/compiled.mjs", "package/chinese-number.cjs"):
            data = base64.b64decode(re.search(rb"^const base64 = '(.*)';$", data, re.M)[1])
        elif not re.search(r"\.(a|dll|so|wasm)(\.[\d.]+)?$|/chinese_number\.c$", name):
            continue
        whole = f"{package_name}/{name}".replace("win_amd64", "windows-x86_64")
        build = next((it for it in builds if of_build(it, whole)), "dist")
        if sha256(data) not in builds[build]["sha256"].values():
            fail(f"{whole} is none of the files that PROVENANCE.json names for {build}")


def of_build(build, name):
    """Whether a name contains both the system and the processor of a build."""
    return all(it in name for it in build.split("-"))


BY_CTYPES, BY_MODULE = f"*-py3-none-*_{NATIVE}.whl", f"*-cp310-abi3-*_{NATIVE}.whl"


@pytest.mark.parametrize("program", PYTHONS.values(), ids=PYTHONS)
def test_wheel(packages, tmp_path, program):
    """pip chooses the wheel that fits."""
    package(packages, BY_CTYPES, NATIVE)
    wheel = package(packages, BY_MODULE, "the extension module")
    by_pip(packages, tmp_path, Readme(wheel, "METADATA", "python"), program)


def test_wheel_by_ctypes(packages, tmp_path):
    """It also works where the other wheel would."""
    wheel = package(packages, BY_CTYPES, NATIVE)
    own = virtual_environment(sys.executable, tmp_path / "venv")
    run("pip", "install", wheel, cwd=tmp_path, **own)
    print_number = "from chinese_number import *; print(to_chinese(120), type(to_chinese).__name__)"
    run("python", "-Ic", print_number, cwd=tmp_path, wanted="一百二十 function\n", **own)


def test_library_of_wheel_by_musl(packages, of_c, tmp_path):
    """Debian has no Python for musl, so a program for musl loads the library as Python does."""
    needs("musl-gcc")
    files = listed(package(packages, BY_CTYPES, NATIVE))
    (tmp_path / "library.so").write_bytes(files["chinese_number/libchinese_number.so"])
    words = (USERS / "load.c", f"-I{of_c.prefix}/include", "-o", "load")
    run("musl-gcc", *words, cwd=tmp_path)
    run("./load", "./library.so", cwd=tmp_path, wanted="壹拾伍元整")


@pytest.mark.parametrize("program", [sys.executable, "pypy3"], ids=["python3", "pypy3"])
def test_python_source(packages, tmp_path, program):
    needs("cc")
    sdist = package(packages, "chinese_number_proved-*.tar.gz", "the C source")
    by_pip(packages, tmp_path, Readme(sdist, "PKG-INFO", "python"), program, which=2)


# Whether the extension module is used if and only if this Python supports it.
IS_RIGHT_FACE = """\
import sys, chinese_number
takes = sys.implementation.name == "cpython" and sys.version_info >= (3, 10)
print(takes == (type(chinese_number.to_number).__name__ != "function"))
"""


def by_pip(packages, scratch, readme, program, which=1):
    """Installs with one of the README's commands, tries the result, and uninstalls it."""
    own = virtual_environment(program, scratch / "venv")
    where = "import sysconfig; print(sysconfig.get_path('purelib'))"
    site = Path(run("python", "-Ic", where, cwd=scratch, **own).strip())
    before = set(site.iterdir())
    readme.follow(packages, scratch / "python", which, **own)
    compare_record(site)
    # It runs in another folder, without modules of the repository next to it.
    answers = shutil.copy(TOP / "bindings/python/answers.py", scratch)
    wrong = wrong_answers(lambda asked: run("python", answers, cwd=scratch, stdin=asked, **own))
    assert wrong == []
    example, program = write(scratch / "user/example.txt", readme.example), USERS / "user.py"
    run("python", "-Ic", IS_RIGHT_FACE, cwd=scratch, wanted="True\n", **own)
    run("python", USERS / "doctests.py", example, cwd=scratch, wanted="0 True 0 True\n", **own)
    run("python", program, cwd=scratch, wanted=user("user.py.txt"), **own)
    run("chinese-number", "read", "一百二", cwd=scratch, wanted="120\n", **own)
    run("pip", "uninstall", "--yes", NAME, cwd=scratch, **own)
    if set(site.iterdir()) != before:
        fail(f"pip uninstall left {set(site.iterdir()) - before}")


def compare_record(site):
    """Each installed file has the sum and the size of the wheel's RECORD."""
    record = next(site.glob("chinese_number_proved-*.dist-info")) / "RECORD"
    for name, digest, size in csv.reader(record.read_text(encoding="utf-8").splitlines()):
        data = (site / name).read_bytes()
        found = base64.urlsafe_b64encode(hashlib.sha256(data).digest()).rstrip(b"=").decode()
        if digest and (digest, size) != (f"sha256={found}", str(len(data))):
            fail(f"RECORD: {name}")


def test_types_of_wheel(packages, tmp_path):
    needs("mypy")
    own = virtual_environment(sys.executable, tmp_path / "venv")
    wheel = package(packages, BY_MODULE, "the extension module")
    Readme(wheel, "METADATA", "python").follow(packages, tmp_path / "python", **own)
    strict = ("mypy", "--strict", "--python-executable", tmp_path / "venv/bin/python")
    for words in ([USERS / "user.py", USERS / "typed.py"], ["-p", "chinese_number"]):
        run(*strict, *words, cwd=tmp_path)


VENDORED = """\
[source.crates-io]
replace-with = "vendored"

[source.vendored]
directory = "vendor"
"""


@pytest.fixture
def crate(packages):
    needs("cargo 1.82")
    return package(packages, "*.crate", "Rust")


@pytest.fixture
def of_cargo(tmp_path):
    own = {"CARGO_TARGET_DIR": str(tmp_path / "target"), "CARGO_NET_OFFLINE": "true"}
    return dict(own, RUSTFLAGS="-D warnings", RUSTDOCFLAGS="-D warnings")


def test_crate(packages, crate, of_cargo, tmp_path):
    readme = Readme(crate, "/README.md", "rust")
    project = of_rust(tmp_path / "project", readme)
    readme.follow(packages, project, **of_cargo)
    run("cargo", "run", "--quiet", cwd=project, wanted="", **of_cargo)
    inside = project / crate.stem
    run("cargo", "test", "--doc", cwd=inside, **of_cargo)
    run("cargo", "doc", "--no-deps", cwd=inside, **of_cargo)
    # The files that cargo would pack: with the archives, or it would not link.
    run("cargo", "package", "--allow-dirty", cwd=inside, **of_cargo)


def test_crate_vendored(crate, of_cargo, tmp_path):
    """The crate as from a registry: by its version and its sum."""
    project = of_rust(tmp_path / "project", Readme(crate, "/README.md", "rust"))
    version = re.search(r"-([\d.]+)\.crate$", crate.name)[1]
    write(project / "Cargo.toml", f'{MANIFEST}{NAME} = "{version}"\n')
    write(project / ".cargo/config.toml", VENDORED)
    with tarfile.open(crate) as packed:
        packed.extractall(project / "vendor")
    inside = next((project / "vendor").iterdir())
    told = {"files": {}, "package": sha256(crate.read_bytes())}
    write(inside / ".cargo-checksum.json", json.dumps(told))
    run("cargo", "run", "--quiet", cwd=project, wanted="", **of_cargo)


def test_crate_without_archives(packages, crate, of_cargo, tmp_path):
    """cargo compiles the crate's C source if there is no archive, and says so if it cannot."""
    readme = Readme(crate, "/README.md", "rust")
    project = of_rust(tmp_path / "project", readme)
    readme.follow(packages, project, **of_cargo)
    shutil.rmtree(next(project.glob("*/lib")))
    said = run("cargo", "run", "--quiet", cwd=project, fails=True, CC="/nowhere", **of_cargo)
    if "CC_<target> names the tool" not in said:
        fail("without a compiler, cargo does not say what names one")
    run("cargo", "run", "--quiet", cwd=project, wanted="", **of_cargo)


TSC = ("tsc", "--strict", "--target", "es2020", "--module", "nodenext", "--lib", "es2020,dom")
BUNDLES = (("browser", "esm"), ("browser", "iife"), ("node", "cjs"), ("neutral", "esm"))


@pytest.fixture
def readme_of_npm(packages):
    needs("node 20", "npm")
    return Readme(package(packages, "*.tgz", "JavaScript"), "package/README.md", "js")


@pytest.fixture
def project(packages, readme_of_npm, tmp_path):
    """A JavaScript project in which the package is installed."""
    made = write(tmp_path / "project/package.json", '{ "private": true }\n').parent
    own = {"HOME": str(tmp_path), "npm_config_cache": str(tmp_path / "npm")}
    own.update(npm_config_offline="true", npm_config_audit="false", npm_config_fund="false")
    readme_of_npm.follow(packages, made, **own)
    return made


def test_npm(readme_of_npm, project):
    write(project / "example.mjs", readme_of_npm.example)
    flag = "--experimental-wasm-memory64"
    known = not subprocess.run(["node", flag, "-e", ""], env=ENVIRONMENT).returncode
    answers = {"example.mjs": readme_of_npm.answer, "user.mjs": "", "user.cjs": "1n\n"}
    for name, wanted in answers.items():
        if name.startswith("user"):
            shutil.copy(USERS / name, project)
        for flags in ([], [flag])[: 1 + known]:
            run("node", *flags, name, cwd=project, wanted=wanted)
    npm("uninstall", NAME, cwd=project)
    if (project / "node_modules" / NAME).exists():
        fail("npm uninstall left the package")


def test_types_of_npm(project, tmp_path):
    """The types compile in a user's program and match the JavaScript, including the comments."""
    needs("tsc")
    here = project / "node_modules" / NAME
    # In another folder, because tsc ignores JavaScript in node_modules.
    for name in ("chinese-number.mjs", "compiled.mjs"):
        write(tmp_path / "sources" / name, (here / "files" / name).read_text(encoding="utf-8"))
    made = ("--declaration", "--emitDeclarationOnly", "--allowJs", "--checkJs", "--outDir", "types")
    run(*TSC, *made, "sources/chinese-number.mjs", cwd=tmp_path)
    for name in ("typed.mts", "same.mts"):
        run(*TSC, "--noEmit", shutil.copy(USERS / name, project), cwd=project)
    packed, written = (
        {" ".join(it.split()) for it in re.findall(r"/\*\*.*?\*/", path.read_text("utf-8"), re.S)}
        for path in (here / "chinese-number.d.mts", here / "chinese-number.mjs")
    )
    assert packed - written == set()


@pytest.mark.parametrize("target, form", BUNDLES)
def test_bundle(readme_of_npm, project, tmp_path, target, form):
    needs("esbuild")
    write(project / "bundle.mjs", readme_of_npm.example)
    bundle = tmp_path / f"bundle.{'mjs' if form == 'esm' else 'cjs'}"
    words = ("--bundle", "--minify", f"--format={form}", f"--platform={target}")
    silent = ("--log-level=warning", f"--outfile={bundle}")
    run("esbuild", *words, *silent, "bundle.mjs", cwd=project, wanted="")
    run("node", bundle, cwd=tmp_path, wanted=readme_of_npm.answer)


@pytest.fixture
def jar(packages):
    needs("javac 11", "java")
    return package(packages, "*-proved-*[0-9].jar", "Java")


def test_jar(packages, jar, tmp_path):
    """The example of the page, and the answers with the classes for Java from 9 on."""
    readme = Readme(jar, "META-INF/README.md", "java")
    write(tmp_path / "user/Example.java", readme.example)
    readme.follow(packages, tmp_path / "user")
    own = ("java", "-Dfile.encoding=UTF-8", "-cp", jar, "Example.java")
    run(*own, cwd=tmp_path / "user", wanted=readme.answer)
    answers = TOP / "bindings/java/answers/Answers.java"
    run("javac", "-encoding", "UTF-8", "-cp", jar, "-d", tmp_path, answers, cwd=tmp_path)
    words = ("java", "-cp", f"{jar}:{tmp_path}", "Answers")
    assert wrong_answers(lambda asked: run(*words, cwd=tmp_path, stdin=asked)) == []


def test_module_of_jar(jar, tmp_path):
    said = run("java", "-p", jar, "--describe-module", "chinesenumber", cwd=tmp_path)
    assert "exports chinesenumber" in said and "requires java.base mandated" in said, said


def test_other_jars(packages, jar):
    """The sources are those of the clone; the documentation has no class that is not public."""
    own = TOP / "bindings/java/src/main/java"
    sources = listed(packages / f"{jar.stem}-sources.jar")
    for path in own.rglob("*.java"):
        assert sources[path.relative_to(own).as_posix()] == path.read_bytes()
    pages = listed(packages / f"{jar.stem}-javadoc.jar")
    assert "chinesenumber/ChineseNumbers.html" in pages and "chinesenumber/Core.html" not in pages
    assert f"<version>{jar.stem.split('-')[-1]}</version>" in (
        packages / f"{jar.stem}.pom"
    ).read_text(encoding="utf-8")


STRICT = (
    "-Wall -Wextra -Werror -pedantic -Wconversion -Wsign-conversion -Wshadow -Wundef -Wcast-qual"
)
NATIVE_C = f"chinese-number-*-{NATIVE}.tar.gz"
COMPILERS = (
    "cc -std=c99",
    "gcc -std=c2x",
    "clang -std=c11",
    "musl-gcc -std=c99",
    "musl-gcc -std=c99 -static",
    "g++ -x c++ -std=c++11",
    "clang++ -x c++ -std=c++11",
)


class OfC:
    """A package for C: its page, its files, and two programs that use it, with their
    answers."""

    def __init__(self, packages, scratch, pattern, processor):
        tarball = package(packages, pattern, processor)
        self.page, self.scratch = Readme(tarball, "README.md", "c"), scratch
        self.prefix = unpacked(tarball, scratch)
        write(scratch / "example_of_page.h", textwrap.indent(self.page.example, "    "))
        self.example = self.prefix / "share/doc/chinese-number/example.c"
        self.programs = {USERS / "main.c": self.page.answer, self.example: EXAMPLES["example.c"]}
        self.lib = f"{self.prefix}/lib"

    def compile(self, compiler, *words, runner=()):
        """Each program is compiled with each of the two files, and gives its answers."""
        own, output = {"LD_LIBRARY_PATH": self.lib}, ("-o", "program")
        for source, answer in self.programs.items():
            first = [compiler, *words, *STRICT.split(), f"-I{self.prefix}/include", "-I."]
            first += [source, *(["-x", "none"] if "-x" in words else [])]
            for library in (
                [f"-L{self.lib}", "-lchinese_number"],
                [f"{self.lib}/libchinese_number.a"],
            ):
                run(*first, *library, *output, cwd=self.scratch)
                self.answers(*runner, "./program", wanted=answer, **own)

    def answers(self, *words, wanted=EXAMPLES["example.c"], **own):
        run(*words, cwd=self.scratch, wanted=wanted, **own)


@pytest.fixture
def of_c(packages, tmp_path):
    return OfC(packages, tmp_path, NATIVE_C, NATIVE)


def test_c(packages, of_c, tmp_path):
    needs("cc")
    of_c.page.follow(packages, tmp_path / "c", which=2)
    of_c.answers(next(tmp_path.glob("c/*/a.out")))


@pytest.mark.parametrize("call", COMPILERS)
def test_c_by_compiler(of_c, call):
    compiler, *words = call.split()
    needs(compiler)
    of_c.compile(compiler, *words)


def test_cpp(packages, of_c):
    """The example of the C++ header answers as the page says; the page has a part of it."""
    needs("g++")
    page = Readme(package(packages, NATIVE_C, NATIVE), "README.md", "cpp")
    assert page.answer in EXAMPLES["example.cpp"]
    words = ("-std=c++17", *STRICT.split(), f"-I{of_c.prefix}/include", "-o", "program")
    example, archive = of_c.example.with_suffix(".cpp"), f"{of_c.lib}/libchinese_number.a"
    run("g++", *words, example, archive, cwd=of_c.scratch)
    of_c.answers("./program", wanted=EXAMPLES["example.cpp"])


def test_c_by_pkg_config(of_c):
    needs("cc", "pkg-config")
    own = {"PKG_CONFIG_PATH": f"{of_c.lib}/pkgconfig", "LD_LIBRARY_PATH": of_c.lib}
    words = "$(pkg-config --cflags --libs 'chinese-number >= 0.1.0')"
    call = ("bash", "-euc", f'eval cc "$1" -I. -o user {words}', "", USERS / "main.c")
    run(*call, cwd=of_c.scratch, **own)
    of_c.answers("./user", wanted=of_c.page.answer, **own)


def test_c_by_cmake(of_c, tmp_path):
    needs("cc", "cmake")
    write(tmp_path / "CMakeLists.txt", user("found.cmake"))
    source, prefix = f"-DSOURCE={of_c.example}", f"-DCMAKE_PREFIX_PATH={of_c.prefix}"
    run("cmake", "-S", ".", "-B", "build", source, prefix, cwd=tmp_path)
    run("cmake", "--build", "build", cwd=tmp_path)
    for name in ("user", "static"):
        of_c.answers(f"build/{name}")


def test_c_for_aarch64(packages, tmp_path):
    needs("aarch64-linux-gnu-gcc", "qemu-aarch64")
    other = OfC(packages, tmp_path, "chinese-number-*-aarch64.tar.gz", "aarch64")
    runner = ("qemu-aarch64", "-L", "/usr/aarch64-linux-gnu")
    other.compile("aarch64-linux-gnu-gcc", "-std=c99", runner=runner)


def test_c_source(packages, of_c, tmp_path):
    """With the commands of the page: the compiler alone, and CMake, which installs it."""
    needs("cc", "cmake")
    tarball = package(packages, "chinese-number-*-source.tar.gz", "the C source")
    folder = unpacked(tarball, tmp_path / "source")
    by_compiler, of_lines, by_cmake = commands((folder / "README.md").read_text(encoding="utf-8"))
    run("bash", "-euc", by_compiler, cwd=folder)
    run("bash", "-euc", of_lines, cwd=folder)
    line = "print u128 naive traditional lower 123\n"
    run("./numeral", cwd=folder, stdin=line, wanted="ok 一二三\n")
    run("bash", "-euc", by_cmake, cwd=folder, DESTDIR=str(tmp_path / "installed"))
    header, library = (next((tmp_path / "installed").rglob(it)) for it in ("*.h", "*.a"))
    run("cc", of_c.example, "-I", header.parent, library, "-o", "program", cwd=tmp_path)
    of_c.answers("./program")
