"""How all tests run programs. Only this file refuses a program memory or disk space, talks to it
line by line, and skips a test for which a tool is missing."""
import fcntl
import importlib.util
import os
import re
import resource
import select
import shutil
import subprocess
import sys
import sysconfig
import tempfile
from pathlib import Path

import pytest

TOP = Path(__file__).resolve().parent.parent
PYTHON = TOP / "bindings/python"
HEADER = Path(sysconfig.get_path("include"), "Python.h")
SECONDS = 10  # the limit for an answer in a dialogue
WINE = "wine|wine64|/usr/lib/wine/wine64"
SANITIZERS = ("-fsanitize=address,undefined", "-fno-sanitize-recover=all", "-g")


def leave_out(why):
    """Skips a test. In CI, where every tool must be installed, the test fails."""
    if os.environ.get("CI"):
        fail(f"skipped, which is an error in CI: {why}")
    pytest.skip(f"{os.environ['PYTEST_CURRENT_TEST'].split('::')[0]}: {why}")


def needs(*tools):
    """Skips a test if one of these tools is missing. `|` separates alternatives, and a least
    version may follow after a blank. Returns the last tool."""
    for tool in tools:
        names, _, least = tool.partition(" ")
        found = next((it for it in names.split("|") if shutil.which(it, path=PATH)), None)
        if not found:
            leave_out(f"there is no {names.replace('|', ' and no ')}")
        if least and version_of(found) < numbers_of(least):
            leave_out(f"{found} is older than {least}")
    return found


def needs_modules(*names):
    """Skips a test if this Python has no module of one of these names."""
    for name in names:
        if not importlib.util.find_spec(name):
            leave_out(f"{sys.executable} has no {name}")


def needs_rt():
    if not shutil.which("rt"):
        leave_out("there is no rt")


def needs_compiler(folder, *words):
    """Skips a test if the compiler does not accept these arguments."""
    needs(words[0])
    source = write(folder / "empty.c", "int main(void) { return 0; }\n")
    words = [*words, source, "-o", folder / "empty.exe"]
    if subprocess.run(words, env=ENVIRONMENT, capture_output=True).returncode:
        leave_out(f"{words[0]} does not accept {' '.join(words[1:-3])}")


def numbers_of(text):
    return tuple(map(int, re.search(r"\d+(\.\d+)*", text)[0].split(".")))


def version_of(tool):
    return numbers_of(run(tool, "version" if tool == "go" else "--version", cwd=TOP))


def outside():
    """The environment of a user who has neither the toolchain nor this repository."""
    path = [it for it in os.environ["PATH"].split(os.pathsep) if it]
    path = [it for it in path if not os.access(Path(it) / "rt", os.X_OK)]
    ours = re.compile("PYTHON|PYTEST|CHINESE|CARGO_TARGET|RUSTFLAGS|VIRTUAL|npm_")
    left = {name: value for name, value in os.environ.items() if not ours.match(name)}
    return dict(left, PATH=os.pathsep.join(path))


ENVIRONMENT = outside()
PATH = ENVIRONMENT["PATH"]


def fail(why):
    pytest.fail(why, pytrace=False)


def run(*words, cwd, wanted=None, stdin="", fails=False, **more):
    """The output of a user's command, which must succeed, or fail with `fails`. `wanted` is the
    whole output that it must print."""
    words = [str(word) for word in words]
    pipes = {"stdout": subprocess.PIPE, "stderr": subprocess.STDOUT, "encoding": "utf-8"}
    own = {"input": stdin, "cwd": cwd, "env": dict(ENVIRONMENT, **more), "errors": "replace"}
    ended = subprocess.run(words, timeout=900, **own, **pipes)
    if bool(ended.returncode) != fails or (wanted is not None and ended.stdout != wanted):
        fail(f"{' '.join(words)}: status {ended.returncode}\n{ended.stdout[-4000:]}")
    return ended.stdout


def of_wine(folder):
    """The environment in which wine uses its own Windows in a folder, without parts that offer
    downloads or make menus."""
    own = {"HOME": str(folder), "WINEPREFIX": str(folder / "wine"), "WINEDEBUG": "-all"}
    return {**own, "WINEDLLOVERRIDES": "mscoree,mshtml,winemenubuilder.exe="}


def write(path, text):
    path.parent.mkdir(parents=True, exist_ok=True)
    path.write_text(text, encoding="utf-8")
    return path


def once(tmp_path_factory, name, make):
    """A folder that `make` fills once, for all workers of pytest-xdist."""
    top = tmp_path_factory.getbasetemp()
    top = top.parent if "PYTEST_XDIST_WORKER" in os.environ else top
    folder = top / name
    with open(top / f"{name}.lock", "w", encoding="utf-8") as lock:
        fcntl.flock(lock, fcntl.LOCK_EX)
        if not folder.exists():
            make(made := Path(tempfile.mkdtemp(dir=top)))
            made.rename(folder)
    return folder


class Program:
    """A program that the gate has built, and the library that refuses its memory requests."""

    def __init__(self, path, refuse_growth):
        self.path, self.refuse_growth = path, refuse_growth

    def __call__(self, *words, data=b"", megabytes=None, **more):
        """The status, standard output and standard error of a run."""
        limit = (megabytes << 20 if megabytes else resource.RLIM_INFINITY,) * 2
        more.setdefault("stdout", subprocess.PIPE)
        more.setdefault("stderr", subprocess.PIPE)
        if "stdin" not in more:
            more["input"] = data
        ended = subprocess.run(
            [self.path, *words],
            timeout=60,
            preexec_fn=lambda: resource.setrlimit(resource.RLIMIT_AS, limit),
            **more,
        )
        return ended.returncode, ended.stdout, ended.stderr

    def with_refused(self, first, *words, more=0, data=b""):
        """The same, with one memory request refused, counted from 1, and `more` after it. The data
        is in a file, which each run reads in the same pieces."""
        own = {"LD_PRELOAD": str(self.refuse_growth), "REFUSE": str(first), "MORE": str(more)}
        with tempfile.TemporaryFile() as asked:
            asked.write(data)
            asked.seek(0)
            return self(*words, stdin=asked, env={**os.environ, **own, "SIZES": "1"})

    def each_growth_refused(self, *words, data=b""):
        """The outputs of runs in which each memory request is refused in turn. The status must be 2
        each time; a run in which the refused request is not made must succeed."""
        written = []
        while True:
            status, output, error = self.with_refused(len(written) + 1, *words, data=data)
            if not error:
                assert (status, output) == self(*words, data=data)[:2]
                return written
            assert (status, error[:8], error.count(b"\n")) == (2, b"refused ", 1), error
            written.append(output)

    def onto_a_full_disk(self, *words, data=b""):
        """The status and standard error if nothing can be written."""
        with open("/dev/full", "wb") as full:
            status, _, error = self(*words, data=data, stdout=full)
        return status, error

    def of_no_file(self, *words):
        """The result of a call whose input is a folder and cannot be read."""
        folder = os.open("/", os.O_RDONLY)
        try:
            return self(*words, stdin=folder)
        finally:
            os.close(folder)

    def dialogue(self, *words):
        return Dialogue(self.path, *words)


class Dialogue:
    """A program that gets a line at a time, and must answer before the next line is sent."""

    def __init__(self, *words):
        pipes = {"stdin": subprocess.PIPE, "stdout": subprocess.PIPE, "bufsize": 0}
        self.process = subprocess.Popen(words, **pipes)

    def __enter__(self):
        return self

    def ask(self, line):
        """The one answer to a line."""
        self.process.stdin.write(line.encode() + b"\n")
        answer = b""
        while not answer.endswith(b"\n"):
            ready, _, _ = select.select([self.process.stdout], [], [], SECONDS)
            got = os.read(self.process.stdout.fileno(), 4096) if ready else b""
            assert got, f"no answer to {line!r}"
            answer += got
        assert answer.count(b"\n") == 1, f"more than one answer to {line!r}"
        return answer.decode()[:-1]

    def __exit__(self, failed, *_):
        """At the end of its input the program must succeed, without a further byte."""
        self.process.stdin.close()
        if failed:
            self.process.kill()
        rest, status = self.process.stdout.read(), self.process.wait(SECONDS)
        assert failed or (rest, status) == (b"", 0)
