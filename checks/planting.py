"""Plants wrong bodies in a copy of a crate, checks it, and reads the result for each function."""
import os
import re
import shutil
import subprocess
import sys
import tempfile
from collections import namedtuple
from pathlib import Path

CRATES = Path(__file__).resolve().parent.parent / "crates"
MEMORY = 2_500_000_000  # the bytes that a check may use

# A check prints the errors in proof files, and then for each item its open goals and a line.
FAULT = re.compile(r"^\./(proofs(?:/\S+)?)/\w+\.antt:\d+:\d+: error: (.*(?:\n  .*)*)", re.MULTILINE)
GOAL = re.compile(r"note: src/\S+: (?:it is not proved|`search` found no proof)")
LINE = re.compile(r"(?:fn|impl|struct|enum|trait) (\S+): (.*)")
WAITS = re.compile(
    r"(?:no proof|not proved)(?:[:;] it (?:calls|passes the block|waits for) [^;]*)+"
)
LIMIT = re.compile(r"gave up at one of its limits|stopped at its own limit|ran out of")
GONE = re.compile(r"has no field|is not in scope|has no `")
DEPENDS = re.compile(r"was not admitted|that depends on")
UNREAD = re.compile(r"^(?:\./)?((?:src|specs)/\S+?):(\d+):\d+: error\b.*", re.MULTILINE)
# What a check says of a closure that is proved.
CLOSURE_PROVED = "proved where its callers give what it asks"
# The kinds of verdict on a function.
PROVED, REFUSED = "it is proved", "it is refused"
AT_LIMIT = "it is refused at a limit of the search"
BY_LEMMA = "it is refused for a lemma"
ONLY_GONE = "it is refused only because a proof names what is gone"
WAITING = "it calls what is not proved"
UNCLEAR = "it is not proved"

Verdict = namedtuple("Verdict", "kind words")
# A check that has ended: its status, its output, and its processor time.
Ran = namedtuple("Ran", "status said seconds")


def lay_out(crate, copy, plants):
    """Copies the crate to a folder and plants changes: for each a file, the range in it that is
    replaced, and the new text."""
    for part in ("src", "specs", "proofs"):
        shutil.rmtree(copy / part, ignore_errors=True)
        if (crate / part).is_dir():
            shutil.copytree(crate / part, copy / part)
    for name, begin, end, new in sorted(plants, reverse=True):
        file = copy / name
        text = file.read_text(encoding="utf-8")
        file.write_text(text[:begin] + new + text[end:], encoding="utf-8")


def listed(name):
    """The libraries of a crate, and whether it is a static library, from crates.txt."""
    for line in (CRATES.parent / "crates.txt").read_text(encoding="utf-8").split("\n"):
        head, _, libraries = line.partition(":")
        if head.split()[:1] == [name]:
            return libraries.split(), head.endswith(" staticlib")
    raise ValueError(f"crates.txt has no {name}")


def check(name, copy, group, *more, only=(), most=None):
    """Checks the crate in a folder, or only these functions of it and what they call, in at most
    this many seconds of processor time."""
    kit = Path(shutil.which("rt")).resolve().parent.parent
    libraries, is_static = listed(name)
    root = "src/main.rt" if (copy / "src/main.rt").exists() else "src/lib.rt"
    words = [f"{kit}/bin/rattle", "check", "--crate-name", name, root, "--jobs", "1"]
    words += ["--antt-project", f"{kit}/rattle/logic/antt-project.json"]
    words += ["--logic-built", f"{kit}/logic_built", "--links", f"{name}=", "--incremental", "kept"]
    words += ["--extern", f"std={kit}/rlibs/std.rlib", "-L", f"dependency={kit}/rlibs"]
    for it in libraries:
        words += ["--extern", f"{it}={CRATES}/{it}/out/rlib/{it}.rlib"]
    for it in CRATES.glob("*/out/rlib"):
        words += ["-L", f"dependency={it}"]
    words += ["--crate-type", "staticlib"] if is_static else []
    words += more
    for it in sorted(only):
        words += ["--only", it]
    if most:
        words = ["prlimit", f"--cpu={most}", *words]
    with open(copy / "said", "wb") as to:
        how = {"stdout": to, "stderr": subprocess.STDOUT, "process_group": group}
        _, status, used = os.wait4(subprocess.Popen(words, cwd=copy, **how).pid, 0)
    said = (copy / "said").read_text(encoding="utf-8", errors="replace")
    return Ran(os.waitstatus_to_exitcode(status), said, used.ru_utime + used.ru_stime)


def kind_of(words, goals, faults, lemmas):
    """The kind of verdict on a function, from the words of its line, its open goals, the errors in
    its own proof, and those in lemmas."""
    if words in ("proved", CLOSURE_PROVED):
        return PROVED
    own = [it for it in faults if not GONE.search(it) and not DEPENDS.search(it)]
    if not own and any(GONE.search(it) for it in faults):
        return ONLY_GONE
    if own + goals:
        return AT_LIMIT if all(LIMIT.search(it) for it in own + goals) else REFUSED
    if faults:
        return BY_LEMMA if lemmas and not any(GONE.search(it) for it in lemmas) else ONLY_GONE
    if words.startswith("could not tell"):
        return AT_LIMIT
    return WAITING if WAITS.fullmatch(words) else UNCLEAR


def verdicts_of(name, said):
    """The verdict of a check on each function of the crate, by path."""
    faults, found, goals = FAULT.findall(said), {}, []
    lemmas = [it for place, it in faults if place == "proofs" and not DEPENDS.search(it)]
    for line in said.split("\n"):
        if GOAL.match(line):
            goals.append(line)
        elif head := LINE.match(line):
            path, words = head[1].removeprefix(f"{name}::"), head[2]
            own = [it for place, it in faults if place == f"proofs/{path}".replace("::", "/")]
            kind = kind_of(words, goals, own, lemmas)
            # A closure counts as its function.
            path = re.sub(r"(^|::)fn::(\w+)::.*", r"\1\2", path)
            if path not in found or found[path].kind in (PROVED, WAITING):
                found[path] = Verdict(kind, "; ".join([words, *own, *goals])[:400])
            goals = []
    return found


def at_once_by_default():
    """The number of crates to check at once, limited by processors and memory."""
    memory = Path("/proc/meminfo").read_text(encoding="utf-8")
    free = 1024 * int(re.search(r"MemAvailable: +(\d+)", memory)[1])
    return max(1, min(len(os.sched_getaffinity(0)), free // MEMORY))


def scratch_folder():
    """A folder, and a process that removes it however this process ends. It leads a group of
    processes, and ends the others first."""
    scratch = tempfile.mkdtemp(prefix="planting-")
    # Its input ends when this process ends.
    words = ["sh", "-c", 'trap "" TERM; cat; kill -TERM 0; rm -rf "$0"', scratch]
    return Path(scratch), subprocess.Popen(words, stdin=subprocess.PIPE, process_group=0)
