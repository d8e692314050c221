"""Shared by the tests of installation: the pages with the instructions, the packages, and the
environments of pip and cargo."""
import json
import platform
import re
import shutil
import sys
import tarfile
import zipfile
from pathlib import Path

from running import PATH, TOP, fail, leave_out, needs, numbers_of, run, write

USERS = TOP / "tests/users"
NATIVE = platform.machine()
MANIFEST = """\
[package]
name = "user"
version = "0.0.0"
edition = "2021"

[workspace]

[dependencies]
"""
# Go with its usual settings, with a C compiler and without a network.
OF_GO = {"CGO_ENABLED": "1", "GOPROXY": "off", "GOTOOLCHAIN": "local", "GOWORK": "off"}


def user(name):
    """The text of a user's program."""
    return (USERS / name).read_text(encoding="utf-8")


def listed(path):
    """The files of a package: each name with its bytes."""
    if path.suffix in (".whl", ".jar"):
        with zipfile.ZipFile(path) as packed:
            return {name: packed.read(name) for name in packed.namelist()}
    with tarfile.open(path) as packed:
        return {it.name: packed.extractfile(it).read() for it in packed if it.isfile()}


def commands(text):
    """The commands in the indented lines of a page, outside its examples."""
    return re.findall(r"(?:^    .*\n)+", re.sub(r"^```.*?^```$", "", text, flags=re.M | re.S), re.M)


class Page:
    """The install commands of a page, those for a clone first, and its example in a language, with
    the answers from its comments."""

    def __init__(self, text, name, language):
        blocks = re.findall(rf"^```{language}\n(.*?)^```$", text, re.M | re.S)
        if len(blocks) != 1:
            fail(f"{name} has {len(blocks)} blocks of {language}")
        self.example = blocks[0]
        self.installs = commands(text)
        answers = re.findall(r"(?://|/\*) (.*?)(?: \*/)?$", self.example, re.M)
        self.answer = "".join(f"{it}\n" for it in answers)


class Readme(Page):
    """The README of a package."""

    def __init__(self, package, name, language):
        text = next(data for it, data in listed(package).items() if it.endswith(name)).decode()
        super().__init__(text, f"the README of {package.name}", language)

    def follow(self, packages, folder, which=1, **more):
        """Runs install commands of the page (by default the second ones) in a folder that has the
        packages."""
        folder.mkdir(exist_ok=True)
        for package in packages_in(packages):
            shutil.copy(package, folder)
        run("bash", "-euc", self.installs[which], cwd=folder, **more)


def packages_in(folder):
    kinds = (".whl", ".gz", ".tgz", ".crate", ".jar")
    return sorted(path for path in folder.iterdir() if path.suffix in kinds)


def package(packages, pattern, what):
    """The one package with this name. If PROVENANCE.json says that it was left out, the test is
    skipped."""
    found = list(packages.glob(pattern))
    if len(found) != 1:
        provenance = json.loads((packages / "PROVENANCE.json").read_bytes())
        if found or not any(it.startswith(f"left out: {what}") for it in provenance["draft"]):
            fail(f"{packages} has {len(found)} files {pattern}")
        leave_out(f"there is no package for {what}")
    return found[0]


def unpacked(tarball, folder):
    """A folder with the files of a tarball; its place does not matter."""
    with tarfile.open(tarball) as packed:
        packed.extractall(folder / "first")
    return next((folder / "first").iterdir()).rename(folder / "a folder")


def pythons(least):
    """The Pythons of pyenv from a version on, if there are any, and this one."""
    programs = Path.home().glob(".pyenv/versions/3.*/bin/python3")
    found = sorted((numbers_of(it.parent.parent.name), str(it)) for it in programs)
    found = [it for it in found if it[0] >= least] + [(sys.version_info[:3], sys.executable)]
    return {".".join(map(str, it)): program for it, program in found}


def ends(found):
    """The first, the last but one, and the last of them."""
    names = [*found]
    return {name: found[name] for name in dict.fromkeys(names[:1] + names[-2:])}


CPYTHONS = ends(pythons((3, 8)))
BY_NATIVE = pythons((3, 10))  # those that support the extension module
PYTHONS = {**CPYTHONS, "pypy3": "pypy3"}


def virtual_environment(program, folder):
    """Creates a virtual environment of a Python in which pip uses no index; returns the environment
    variables that select it."""
    needs(program)
    run(program, "-m", "venv", "--clear", folder, cwd=folder.parent)
    quiet = {"PIP_DISABLE_PIP_VERSION_CHECK": "1", "PIP_QUIET": "1", "PIP_NO_CACHE_DIR": "1"}
    quiet.update(PIP_NO_INDEX="1", PYTHONIOENCODING="utf-8")
    return dict(quiet, PATH=f"{folder}/bin:{PATH}")


def of_rust(project, page):
    """A Rust project whose program is the example of a page."""
    write(project / "src/main.rs", f"fn main() {{\n{page.example}}}\n")
    return write(project / "Cargo.toml", MANIFEST).parent


def npm(*words, cwd):
    """The output of npm, without user settings, and with a registry address where nothing
    listens."""
    settings = {"cache": cwd.parent / "npm", "registry": "http://127.0.0.1:9/", "offline": "true"}
    settings.update(userconfig="/dev/null", audit="false", fund="false", update_notifier="false")
    own = {f"npm_config_{name}": str(value) for name, value in settings.items()}
    return run("npm", *words, cwd=cwd, **own)
