"""The library, installed from a clone as the pages of `bindings/` describe and in further ways of
pip, cargo, CMake and cc, without `rt` on the path and without a network.

The clones have the files that are here, each in a folder with a blank in its name. Each
installation is followed by a use of what was installed; then the clone must have only the expected
new files.
"""
import shutil
import subprocess
import sys
import textwrap
from pathlib import Path

import pytest

from installing import CPYTHONS, OF_GO, Page, of_rust, user, virtual_environment
from running import ENVIRONMENT, HEADER, TOP, fail, leave_out, needs, run, write
from test_c import EXAMPLES

sys.path.insert(0, str(TOP / "bindings"))
import dist

NOT_CLONED = shutil.ignore_patterns(".git", "out", "target", "__pycache__")
OF_GIT = ("-c", "user.name=clone", "-c", "user.email=", "-c", "init.defaultBranch=main")
OFFLINE = ("unshare", "--map-root-user", "--net")


def page_of(folder, language=None):
    """A page of `bindings/` and its example in a language, by default that of the folder's name."""
    name = f"bindings/{folder}/README.md"
    return Page((TOP / name).read_text(encoding="utf-8"), name, language or folder)


def by_page(page, which=0):
    """The commands that a page has for a clone."""
    return textwrap.dedent(page.installs[which])


@pytest.fixture(scope="module")
def first(tmp_path_factory):
    """The first clone, with all files that are here."""
    needs("git")
    folder = tmp_path_factory.mktemp("clone") / "first"
    shutil.copytree(TOP, folder, ignore=NOT_CLONED)
    for words in (("init", "-q"), ("add", "."), ("commit", "-qm", "All files")):
        run("git", *OF_GIT, *words, cwd=folder)
    return folder


@pytest.fixture(scope="module")
def begin():
    """The beginning of a command that runs it without a network."""
    tried = subprocess.run([*OFFLINE, "true"], env=ENVIRONMENT, capture_output=True)
    return () if tried.returncode else OFFLINE


@pytest.fixture
def follow(first, begin, tmp_path):
    """Runs commands in their own folder, with a clone in which they may leave one file or none."""
    own = tmp_path / "user"
    own.mkdir()

    def call(text, wanted="", left="", **more):
        clone = tmp_path / "a clone"
        run("git", "clone", "-q", first, clone, cwd=tmp_path)
        more.update(CLONE=str(clone), HOME=str(Path.home()), PYTHONDONTWRITEBYTECODE="1")
        said = run(*begin, "bash", "-euo", "pipefail", "-c", text, cwd=own, **more)
        if not said.endswith(wanted):
            fail(f"it says\n{said[-2000:]}")
        status = ("status", "--porcelain", "--ignored", "--untracked-files=all")
        run("git", *status, cwd=clone, wanted=f"!! {left}\n" if left else "")

    call.folder = own
    return call


def test_there_is_no_network(begin):
    if not begin:
        pytest.skip("unshare may not, so the network is there")


def test_attributes(first):
    """git keeps the bytes of each file that dist.py makes, and marks it as generated."""
    paths = [*dist.files_of(dist.made_here()), *dist.classes_here(), dist.PROVENANCE]
    said = run("git", "check-attr", "text", "linguist-generated", "--", *paths, cwd=first)
    others = [
        it for it in said.splitlines() if not it.endswith((": text: unset", "-generated: set"))
    ]
    assert others == [] and said.count("\n") == 2 * len(paths)


NUMBER, URL = "十万五千\n", "file://${CLONE// /%20}"
USE = 'python -c "from chinese_number import to_chinese; print(to_chinese(105_000))"\n'
BY_PAGE = f'{by_page(page_of("python"))}{USE}'
EDITABLE = f'pip install -e "$CLONE/bindings/python"\n{USE}'
# pip before 21.3 copies the folder alone, and builds there.
ALONE = f'cp -r "$CLONE/bindings/python" alone\npip install ./alone\n{USE}'
BY_GIT = f'pip install "git+{URL}#subdirectory=bindings/python"\n{USE}'
LIBRARY = "_native.abi3.so" if HEADER.is_file() else "libchinese_number.so"
BESIDE_MODULE = f"bindings/python/chinese_number/{LIBRARY}"
WITHOUT_COMPILER = """\
if CC=/nowhere pip install "$CLONE/bindings/python" > said 2>&1; then exit 1; fi
if grep Traceback said; then exit 1; fi
grep -o 'install a C compiler' said
"""
# Each way of pip, what it must print at the end, and what it leaves in the clone.
OF_PIP = {
    "editable": (EDITABLE, NUMBER, BESIDE_MODULE),
    "alone": (ALONE, NUMBER, ""),
    "by git": (BY_GIT, NUMBER, ""),
    "without a compiler": (WITHOUT_COMPILER, "install a C compiler\n", ""),
}


@pytest.mark.parametrize("program", CPYTHONS.values(), ids=CPYTHONS)
def test_pip(follow, program):
    needs("cc")
    follow(BY_PAGE, NUMBER, **virtual_environment(program, follow.folder / "environment"))


@pytest.mark.parametrize("way", OF_PIP)
def test_pip_otherwise(follow, way):
    needs("cc")
    own = virtual_environment(sys.executable, follow.folder / "environment")
    follow(*OF_PIP[way], **own)


# `cargo vendor --quiet` prints no configuration. Offline, cargo cannot clone again instead.
VENDORED = f"""\
cargo add --quiet --git "{URL}" chinese-number-proved
cargo run --quiet
mkdir .cargo
cargo vendor vendored > .cargo/config.toml
export CARGO_HOME=$PWD/other CARGO_TARGET_DIR=$PWD/other
cargo run --quiet --offline
"""
RUST = page_of("rust")
OF_CARGO = {
    "by path": f"{by_page(RUST)}cargo run --quiet\n",
    "by git, and vendored": VENDORED,
    "packed": 'cd "$CLONE/bindings/rust"\ncargo package --quiet\n',
}


@pytest.mark.parametrize("way", OF_CARGO)
def test_cargo(follow, way):
    needs("cc", "cargo 1.82")
    user = of_rust(follow.folder, RUST)
    own = {"CARGO_HOME": str(user / "cargo"), "CARGO_TARGET_DIR": str(user / "target")}
    follow(OF_CARGO[way], **own)


# The file in which go lists vendored modules does not allow a blank in a path.
BY_LINK = """\
ln -s "$CLONE" clone
go mod edit -replace chinese-number-proved/chinesenumber=./clone/bindings/go
go get -d .
go mod vendor
rm clone
"""
OF_MODULES = {"by path": by_page(page_of("go")), "vendored": BY_LINK}


@pytest.mark.parametrize("way", OF_MODULES)
def test_go(follow, way):
    needs("cc", "go 1.19")
    write(follow.folder / "main.go", user("main.go"))
    follow(f"go mod init user\n{OF_MODULES[way]}go run .\n", NUMBER, **OF_GO)


def test_java(follow):
    needs("javac 11", "java")
    page = page_of("java")
    write(follow.folder / "Example.java", page.example)
    follow(by_page(page) + by_page(page, 1), page.answer)


# Maven with Debian's plugins. The repository is a folder of links, since Maven writes there too.
PLUGINS = Path("/usr/share/maven-repo")
BY_MAVEN = """\
cp -r "$CLONE/bindings/java" own
cp -rs "$PLUGINS" repository
mvn -o -q -B -Dmaven.repo.local="$PWD/repository" -f own/pom.xml package > log
java -Dfile.encoding=UTF-8 -cp own/target/chinese-number-proved-*.jar Example.java
"""


def test_maven(follow):
    needs("javac 11", "java", "mvn")
    if not (PLUGINS / "org/apache/maven/plugins/maven-jar-plugin").is_dir():
        leave_out("there are no plugins of Maven")
    page = page_of("java")
    write(follow.folder / "Example.java", page.example)
    own = {"MAVEN_OPTS": "-XX:TieredStopAtLevel=1", "PLUGINS": str(PLUGINS)}
    follow(BY_MAVEN, page.answer, **own)


# As a subproject it builds as the user's project does, and installs nothing itself.
AS_PART = """\
cmake -S . -B build -DDIST="$CLONE/dist" -DSOURCE="$CLONE/bindings/c/example.c" > log
cmake --build build >> log
cmake --install build --prefix installed >> log
[ "$(find installed -type f)" = installed/bin/user ]
grep -qx CMAKE_BUILD_TYPE:STRING= build/CMakeCache.txt
build/user
"""
INSTALLED = """\
at=$PWD/installed
lib=lib/$(cc -print-multiarch)
cmake -S "$CLONE/dist" -B made -DCMAKE_INSTALL_LIBDIR="$lib" -DBUILD_SHARED_LIBS=$SHARED > log
cmake --build made >> log
cmake --install made --prefix "$at" >> log
cmake -S . -B build -DCMAKE_PREFIX_PATH="$at" -DSOURCE="$CLONE/bindings/c/example.c" >> log
cmake --build build >> log
build/user > by_cmake
export PKG_CONFIG_PATH=$at/$lib/pkgconfig LD_LIBRARY_PATH=$at/$lib
words=$(pkg-config --cflags --libs 'chinese-number >= 0.1.0')
eval cc '"$CLONE/bindings/c/example.c"' "$words" -o user
./user
./user | cmp - by_cmake
"""


@pytest.mark.parametrize("which, language", enumerate(("c", "cpp")))
def test_cc(follow, which, language):
    """The example answers as the page says; the page has a part of it."""
    needs("cc", "c++")
    page, answers = page_of("c", language), EXAMPLES[f"example.{language}"]
    assert page.answer in answers
    follow(by_page(page, which), answers)


def test_cmake_part(follow):
    needs("cc", "cmake")
    write(follow.folder / "CMakeLists.txt", user("part.cmake"))
    follow(AS_PART, EXAMPLES["example.c"])


@pytest.mark.parametrize("shared", ["OFF", "ON"])
def test_cmake_installed(follow, shared):
    needs("cc", "cmake", "pkg-config")
    write(follow.folder / "CMakeLists.txt", user("found.cmake"))
    follow(INSTALLED, EXAMPLES["example.c"], SHARED=shared)
