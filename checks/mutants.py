#!/usr/bin/env python3
"""Shows what the contracts accept: for each function, which mutants of its body are proved.

Usage: mutants.py [--built] [--at-once N] [--minutes N] [--gate | --compare] [CRATE ..]

mutate.py describes a mutant. A verdict is a line of `crates/NAME/verdicts`: the digest of a
function (digests.py), a letter for each of its mutants in order, and the path of the function.

    r   refused by a goal of the function, or by a lemma
    f   refused only because a hand-written proof names something that the mutant removed
    l   refused, but not decided: the search or the check stopped at a limit
    s   proved, because it gives the same answer; a comment above the function gives the reason:
        // Same answer (2 → 3, len → 0): the reason.
    o   proved, because the contract leaves the answer open: // Left open (text → ""): the reason.
    -   it does not compile
    .   waiting: not tried yet

A verdict is valid as long as its digest is the same. So a change of a function, contract or
definition tries exactly the functions that depend on it again, before any others that wait. Without
CRATE all crates are tried, without --minutes all that waits; a run that is stopped keeps its
verdicts. Mutants are planted in a copy of a crate, in rounds. One check judges a round: it checks
the functions that the mutants can make wrong and the functions that these call, and continues from
the results of `rt check` in the crate's folder. `rt lib` first builds the libraries below; with
--built the existing ones are used.

The script fails if a mutant is proved and no comment lists it, if a comment lists a mutant that is
refused or does not exist, or if all mutants of a public function are tried and none is `r` or `l`,
unless an edit of `wrong-bodies` or `must-fail/` is refused in it, or it has no contract and a
comment above it says why: `// No contract: the reason.` With --gate no file is changed, and such
faults of mutants that had waited are only reported. --compare tries nothing. A release is made only
if nothing waits. --minutes limits the processor time: a round begins only if 2.5 minutes, the usual
time of a round, are left.
"""
import argparse
import os
import re
import shutil
import signal
import subprocess
import sys
from collections import Counter, defaultdict, namedtuple
from concurrent.futures import ThreadPoolExecutor
from threading import Lock

import digests
import edit_files
import mutate
import planting
import survivors
from planting import AT_LIMIT, BY_LEMMA, CRATES, ONLY_GONE, PROVED, REFUSED, UNCLEAR, WAITING

UNREAD, ENDLESS = "it does not compile", "its check does not end"
LETTERS = {REFUSED: "r", BY_LEMMA: "r", ONLY_GONE: "f", AT_LIMIT: "l", UNCLEAR: "l", ENDLESS: "l"}
LETTERS |= {PROVED: "s", UNREAD: "-"}
# The most serious first.
KINDS = [REFUSED, BY_LEMMA, AT_LIMIT, UNCLEAR, ONLY_GONE, WAITING, PROVED]
# How a mutant is planted: with any others; with others that also only call an unproved function; or
# alone, if it was not clear what it makes wrong.
WITH_ANY, WITH_WAITING, ALONE = range(3)
# The limit of processor time of a check, and for each planted mutant, in seconds; the usual time of
# a round; how many mutants are planted in copies, and how many in place.
SECONDS, USUAL, IN_COPIES, IN_PLACES = (120, 40), 150, 12, 30

# A planted mutant, or None for an unchanged copy: the functions that it can make wrong, the range
# of its file that is replaced, the new text, and the offset of the mutant in it.
Plant = namedtuple("Plant", "mutant item owners begin end new at")


def in_place(mutant):
    return Plant(mutant, mutant.item, mutant.owners, mutant.begin, mutant.end, mutant.new, 0)


def in_copy(item, number, mutant=None):
    """A copy of a function, placed after it, with a mutant in it."""
    text, name = item.text, f"{item.name}_turn_{number}"
    start = re.search(r"(?:^ *#\[[^\n]*\]\n)*\Z", text[: item.start], re.MULTILINE).start()
    head = text[start : item.begin].replace("#[unsafe(no_mangle)]\n", "")
    head = re.sub(rf"\bfn {item.name}\b", f"fn {name}", head)
    begin, end, new = (mutant.begin, mutant.end, mutant.new) if mutant else [item.begin] * 2 + [""]
    head += text[item.begin : begin]
    path = "::".join([*item.path.split("::")[:-1], name])
    new = head + new + text[end : item.end]
    return Plant(mutant, item, (path,), item.end, item.end, new, len(head))


def is_copied(item):
    """Whether a copy of a function under another name can be planted."""
    is_of_trait = item.holder and (
        item.holder.is_trait_impl
        or item.holder.path[-1] == item.holder.name
        and re.match(r"(?:pub )?trait", item.text[item.holder.start :])
    )
    calls_itself = re.search(rf"\b{item.name}(?:::<.*>)?\(", item.text[item.begin : item.end])
    return item.kind == "fn" and not calls_itself and not is_of_trait


def is_unproved(item, text):
    """Whether a function has no contract, and a comment above it gives the reason."""
    return not mutate.promises(item) and "No contract: " in survivors.comment_of(item, text)


class Function:
    """A function or constant of a crate, its mutants, and the letter of each."""

    def __init__(self, item, mutants, digest, committed, original):
        self.item, self.mutants, self.digest = item, mutants, digest
        old, letters = committed or (None, "")
        self.is_new = digest != old or len(letters) != len(mutants)
        self.known = "." * len(mutants) if self.is_new else letters
        comment = survivors.comment_of(item, original)
        self.comments = len(survivors.WORDS.findall(comment))
        self.listed, self.faults = survivors.listed(comment, [it.name for it in mutants])
        self.letters = [self.letter(mutant, it) for mutant, it in zip(mutants, self.known)]

    def letter(self, mutant, letter):
        """The letter of a verdict; a comment says in which way a mutant is proved."""
        return self.listed.get(mutant.name, letter) if letter == "s" else letter

    def line(self):
        return f"{self.digest} {''.join(self.letters)} {self.item.path}"


def verdicts_of(crate):
    """The committed verdicts of a crate, by path."""
    file, found = crate / "verdicts", {}
    for line in file.read_text(encoding="utf-8").splitlines() if file.exists() else ():
        digest, letters, path = line.split(" ")
        found[path] = digest, letters
    return found


class Crate:
    """The functions of a crate, and how their waiting mutants are planted."""

    def __init__(self, name, definitions):
        self.name, self.folder, self.lock = name, CRATES / name, Lock()
        committed, texts = verdicts_of(self.folder), dict(mutate.files_of(self.folder))
        mutants, items = defaultdict(list), list(mutate.items_of(self.folder))
        by_path = {it.path: it for it in items}
        for mutant in mutate.mutants_of(self.folder):
            mutants[mutant.item.path].append(mutant)
        self.functions = {}
        for path, own in mutants.items():
            item = own[0].item
            heads = [by_path[it] for it in own[0].owners if it != path and it in by_path]
            heads = [(f"{name}/{it.file}", it.text[it.start : it.begin]) for it in heads]
            digest = digests.digest(definitions, self.folder, item, heads, [it.name for it in own])
            one = Function(item, own, digest, committed.get(path), texts[item.file])
            self.functions[path] = one
        self.waiting = {
            mutant: WITH_ANY
            for it in self.functions.values()
            for mutant, letter in zip(it.mutants, it.letters)
            if letter == "."
        }
        self.copied = {path for path, it in self.functions.items() if is_copied(it.item)}
        self.with_copies = set()  # functions of which an unchanged copy was proved
        self.paths = {it.path for it in items if it.kind == "fn"}
        self.public = [
            it
            for it in items
            if it.is_public and it.kind == "fn" and not is_unproved(it, texts[it.file])
        ]

    def is_new(self, mutant):
        return self.functions[mutant.item.path].is_new

    def unshown(self):
        """The functions without a refused mutant so far."""
        functions = (it for it in self.functions.values() if it.item.kind == "fn")
        return {it.item.path for it in functions if not {"r", "l"} & set(it.letters)}

    def rank(self):
        """The priority of a round of this crate: changed functions first, then functions without a
        refused mutant, then the crate with most mutants."""
        with self.lock:
            waiting = {it.item.path for it in self.waiting}
            is_new = any(map(self.is_new, self.waiting))
            return is_new, len(waiting & self.unshown()), len(waiting)

    def next_round(self):
        """The next mutants and how they are planted; they no longer wait."""
        with self.lock:
            level, planted, taken = min(self.waiting.values(), default=ALONE), [], set()
            waiting = [it for it, its_level in self.waiting.items() if its_level == level]
            waiting = [it for it in waiting if self.is_new(it)] or waiting
            # A constant needs a check for each function that cites it.
            waiting = [it for it in waiting if it.item.kind == "fn"] or waiting
            unshown = self.unshown()  # these come first
            waiting.sort(key=lambda it: it.item.path not in unshown)
            is_fresh = bool(waiting) and waiting[0].item.path in unshown
            counts = Counter(it.item.path for it in waiting if it.item.path in self.copied)
            copied = [it for it in waiting if counts[it.item.path] > 2 and level == WITH_ANY]
            copied = [] if is_fresh else copied[:IN_COPIES]
            planted += [in_copy(it.item, number, it) for number, it in enumerate(copied, 1)]
            items = {it.item.path: it.item for it in copied if it.item.path not in self.with_copies}
            planted += [in_copy(it, 0) for it in items.values()]
            for mutant in [] if copied else waiting:
                full = len(planted) == IN_PLACES or level == ALONE and planted
                if not taken & set(mutant.owners) and not full:
                    planted.append(in_place(mutant))
                    taken.update(mutant.owners)
            for it in planted:
                self.waiting.pop(it.mutant, None)
            return level, planted

    def note(self, came):
        """Stores the verdicts of a round; mutants without a verdict wait again."""
        with self.lock:
            for mutant, (kind, words) in came.items():
                if kind is None:
                    self.waiting[mutant] = words
                    continue
                one = self.functions[mutant.item.path]
                one.letters[one.mutants.index(mutant)] = one.letter(mutant, LETTERS[kind])

    def write(self):
        with self.lock:
            lines = [f"{it.line()}\n" for it in self.functions.values()]
            if lines:
                (self.folder / "verdicts").write_text("".join(lines), encoding="utf-8")

    def unread_comments(self):
        """The comments that list mutants for something that has none."""
        counts = Counter()
        for it in self.functions.values():
            counts[it.item.file] += it.comments
        for file, text in mutate.files_of(self.folder):
            if len(survivors.WORDS.findall(text)) != counts[file]:
                yield f"{file}: a comment lists mutants where there are none"

    def faults(self, is_gate):
        """The faults, and those that the gate only reports: of mutants that had waited."""
        faults, reports = list(self.unread_comments()), []
        for path, it in self.functions.items():
            faults += [f"{path}: {fault}" for fault in it.faults]
            for mutant, letter, old in zip(it.mutants, it.letters, it.known):
                if fault := fault_of(letter, it.listed.get(mutant.name)):
                    found = reports if is_gate and old == "." and not it.is_new else faults
                    found.append(f"{path}: {fault}: {mutant.name}")
        edited = {it for edit in edit_files.edits_of(self.folder) for it in edit.refused}
        for item in self.public:
            one = self.functions.get(item.path)
            if not (one and {"r", "l", "."} & set(one.letters) or item.path in edited):
                is_report = is_gate and one and not one.is_new and "." in one.known
                found = reports if is_report else faults
                found.append(f"{item.path}: it is public, and no mutant or edit of it is refused")
        return [[f"{self.name} {it}" for it in both] for both in (faults, reports)]


def fault_of(letter, listed):
    """What is wrong with the verdict on a mutant, if anything, given the letter in a comment."""
    if letter in "so" and letter != listed:
        return "it is proved, and no comment says why"
    return "a comment lists it, and it is not proved" if letter in "rfl-" and listed else None


def lay_out(crate, copy, planted):
    places = [(it.item.file, it.begin, it.end, it.new) for it in planted]
    planting.lay_out(crate.folder, copy, places)
    for it in planted:
        own, other = (f"proofs::{path}".split("::") for path in (it.item.path, it.owners[0]))
        if it.begin == it.item.end and copy.joinpath(*own).is_dir():
            shutil.copytree(copy.joinpath(*own), copy.joinpath(*other))
            for file in copy.joinpath(*other).iterdir():
                text = file.read_text(encoding="utf-8")
                text = text.replace(f".{'.'.join(own)}.", f".{'.'.join(other)}.")
                file.write_text(text, encoding="utf-8")
    shutil.rmtree(copy / "kept", ignore_errors=True)
    (crate.folder / "out/incremental").mkdir(parents=True, exist_ok=True)
    shutil.copytree(crate.folder / "out/incremental", copy / "kept", copy_function=linked)


def linked(one, other):
    """Links a kept result if possible, because a check replaces the file; copies it otherwise."""
    try:
        return os.link(one, other) if str(one).endswith(".oantt") else shutil.copy2(one, other)
    except OSError:
        return shutil.copy2(one, other)


def distance(plant, planted, line):
    """The distance from a line of a planted file to a plant, and to the mutant in it."""
    text = plant.item.text
    first = text.count("\n", 0, plant.begin) + 1
    for it in planted:
        if it.item.file == plant.item.file and (it.begin, it.new) < (plant.begin, plant.new):
            first += it.new.count("\n") - text.count("\n", it.begin, it.end)
    last, at = (first + plant.new.count("\n", 0, end) for end in (None, plant.at))
    return max(first - line, line - last, 0), abs(at - line)


def unread(crate, planted, said):
    """The plants that do not compile: for each error the nearest plant in its file, and plants that
    close a cycle of calls."""
    for file, line in planting.UNREAD.findall(said):
        near = [it for it in planted if it.item.file == file]
        if near:
            yield min(near, key=lambda it: distance(it, planted, int(line)))
    _, _, cycles = said.partition("error[unnamed-cycle]")
    names = set(re.findall(rf"`{crate.name}::(\S+?)`", cycles))
    for it in planted:
        if (
            it.mutant
            and names & set(it.owners)
            and it.mutant.new in {mutate.name_of(one) for one in names}
        ):
            yield it


def judged(crate, planted, level, ran):
    """The verdict on each mutant from the output of a check; or None, and how to plant it again."""
    found, is_alone = planting.verdicts_of(crate.name, ran.said), len(planted) == 1
    owned = {path for plant in planted for path in plant.owners}
    others = [
        f"{path}: {words}"
        for path, (kind, words) in found.items()
        if path not in owned and kind not in (PROVED, WAITING)
    ]
    # A lemma may fail because of a constant, whichever function needs it.
    is_lemma = not is_alone and any(kind == BY_LEMMA for kind, _ in found.values())
    for plant in planted:
        verdicts = [found[it] for it in plant.owners if it in found]
        nothing = (UNCLEAR if plant.item.kind == "fn" else PROVED, "nothing cites it")
        kind, words = min(verdicts, key=lambda it: KINDS.index(it.kind), default=nothing)
        if is_lemma and (kind == BY_LEMMA or kind == PROVED and plant.item.kind != "fn"):
            kind, words = None, ALONE
        elif kind == PROVED and level != ALONE and is_seen_elsewhere(plant.item):
            kind, words = None, ALONE
        elif kind in (PROVED, WAITING) and others:
            kind, words = (REFUSED, others[0]) if is_alone else (None, ALONE)
        elif kind == WAITING:
            kind, words = (UNCLEAR, words) if is_alone else (None, min(level + 1, ALONE))
        yield plant, (kind, words)


def is_seen_elsewhere(item):
    """Whether the proof of something else can fail because of an item, such as facts of a trait."""
    return item.kind != "fn" or item.holder and item.holder.is_trait_impl


def judged_unended(crate, planted, level, ran):
    """The same for a check that did not end: mutants that it did not reach are planted alone."""
    reached = set(re.findall(rf"^checked (?:{crate.name}::)?(\S+),", ran.said, re.MULTILINE))
    is_ended = [reached.issuperset(it.owners) for it in planted]
    for plant, is_reached in zip(planted, is_ended):
        if level == ALONE and ran.status < 0:
            yield plant, (ENDLESS, ran.said[-300:])
        elif level == ALONE and "rattle: error[" in ran.said:
            yield plant, (UNREAD, ran.said[-300:])
        elif level == ALONE:  # it waits for another run
            print(f"{crate.name}: a check has no verdict: {ran.said[-1000:]}", flush=True)
        else:
            yield plant, (None, level if is_reached and not all(is_ended) else ALONE)


def try_round(crate, copy, group):
    """Plants the next mutants of a crate, without those that do not compile, and judges them;
    returns the processor time used."""
    level, planted = crate.next_round()
    came, seconds = {}, 0
    while planted:
        lay_out(crate, copy, planted)
        most = SECONDS[0] + SECONDS[1] * len(planted)
        only = {path for it in planted for path in it.owners} & crate.paths
        only |= {it.owners[0] for it in planted if it.begin == it.item.end}
        only = only if level != ALONE else ()
        ran = planting.check(crate.name, copy, group, "--progress", only=only, most=most)
        seconds += ran.seconds
        bad = dict.fromkeys(unread(crate, planted, ran.said), (UNREAD, ""))
        came |= bad
        planted = [it for it in planted if it not in bad]
        if not bad:
            is_ended = planting.verdicts_of(crate.name, ran.said)
            came |= (judged if is_ended else judged_unended)(crate, planted, level, ran)
            break
    # If an unchanged copy of a function was not proved, copies of it show nothing.
    controls = {it.item.path: kind for it, (kind, _) in came.items() if not it.mutant}
    wrong = {path for path, kind in controls.items() if kind != PROVED}
    crate.copied -= wrong
    crate.with_copies |= controls.keys() - wrong
    came = {
        it.mutant: (None, level) if it.item.path in wrong else verdict
        for it, verdict in came.items()
        if it.mutant
    }
    crate.note(came)
    kinds = Counter(kind or "it is planted again" for kind, _ in came.values())
    summary = ", ".join(f"{count} {kind}" for kind, count in kinds.items())
    print(f"{crate.name}, {seconds:.0f} s: {summary}; {len(crate.waiting)} left", flush=True)
    return seconds


class Budget:
    """The processor time that rounds may use, in seconds, and what they used."""

    def __init__(self, most):
        self.most, self.used, self.lock = most, 0, Lock()

    def begin(self):
        """Whether there is time for a round; until it ends, it counts with the usual time."""
        with self.lock:
            is_left = self.most is None or self.used + USUAL <= self.most
            self.used += USUAL * is_left
            return is_left

    def end(self, seconds):
        with self.lock:
            self.used += seconds - USUAL


def work(crates, copy, group, budget, keeps):
    """Tries rounds as long as mutants wait and time is left."""
    while (crate := max(crates, key=Crate.rank)).waiting and budget.begin():
        budget.end(try_round(crate, copy, group))
        if keeps:
            crate.write()


def try_all(crates, given, budget):
    scratch, watch = planting.scratch_folder()
    with ThreadPoolExecutor(given.at_once) as pool:
        copies = [scratch / str(number) for number in range(given.at_once)]
        words = (watch.pid, budget, not given.gate)
        for done in [pool.submit(work, crates, copy, *words) for copy in copies]:
            done.result()
    watch.communicate()


def report(crates, seconds):
    """Counts the verdicts on all mutants, and how many wait."""
    kinds, waiting = Counter(), Counter()
    for crate in crates:
        for path, it in crate.functions.items():
            kinds.update(it.letters)
            waiting[crate.name, path] = sum(
                letter == "." or letter == "s" and mutant.name not in it.listed
                for letter, mutant in zip(it.letters, it.mutants)
            )
    words = "{r} refused, {f} only for their form, {l} not decided, {s} give the same answer"
    words += ", {o} give another one that the contract leaves open"
    letters = {it: kinds[it] for it in "rflso"}
    print(f"mutants: {words.format(**letters)}; {seconds:.0f} s of processor time in this run")
    left = +waiting
    print(f"waiting: {left.total()} in {len(left)} of {len(waiting)} functions", flush=True)


def arguments():
    words = argparse.ArgumentParser(usage=__doc__.split("\n\n")[1].removeprefix("Usage: "))
    words.add_argument("--built", action="store_true")
    words.add_argument("--at-once", type=int, default=planting.at_once_by_default())
    words.add_argument("--minutes", type=float)
    how = words.add_mutually_exclusive_group()
    for name in ("--gate", "--compare"):
        how.add_argument(name, action="store_true")
    words.add_argument("crates", nargs="*", metavar="CRATE")
    return words.parse_args()


def main():
    given = arguments()
    names = given.crates or sorted(it.parent.name for it in CRATES.glob("*/src"))
    for name in dict.fromkeys(it for name in names for it in planting.listed(name)[0]):
        if not given.built and not given.compare:
            subprocess.run(["rt", "lib"], cwd=CRATES / name, check=True, stdout=sys.stderr)
    signal.signal(signal.SIGINT, signal.SIG_DFL)
    definitions = digests.Definitions([it.parent for it in CRATES.glob("*/src")])
    crates = [Crate(name, definitions) for name in names]
    budget = Budget(given.minutes and 60 * given.minutes)
    if not given.compare:
        try_all(crates, given, budget)
    for crate in crates if not given.compare and not given.gate else ():
        crate.write()
    faults, reports = (sum(its, []) for its in zip(*(it.faults(given.gate) for it in crates)))
    print(*reports, sep="\n", end="\n" * bool(reports))
    report(crates, budget.used)
    if faults:
        sys.exit("mutants:\n" + "\n".join(faults))


if __name__ == "__main__":
    main()
