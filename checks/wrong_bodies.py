#!/usr/bin/env python3
"""Checks that the function of each wrong body is refused, and that each twin is proved.

Usage: wrong_bodies.py [--built] [--at-once N] [CRATE ..]     (no CRATE: all that have any)

The edits of a crate (edit_files.py describes them) are planted in a copy, in rounds, at most one
in each function. One check judges a round: it checks the functions that the edits name and the
functions that these call. Each function that an edit names must be refused for goals of its own.
Each other function must be proved, unless it only calls one that is not. The functions of a twin
must be proved. So an edit fails if its text is not found, if it does not compile or is proved, or
if it is refused only because a proof names something that is gone. If the search gave up at a
limit, the goal may be true: these edits are counted separately.

A round continues from the results of the round before, the first from those of `rt check` in the
crate's folder. `rt lib` first builds the libraries below; with --built those of `rt ci` are used.
"""
import argparse
import os
import re
import shutil
import signal
import subprocess
import sys
from collections import namedtuple
from concurrent.futures import ThreadPoolExecutor, as_completed

import edit_files
import planting
from planting import AT_LIMIT, BY_LEMMA, CRATES, PROVED, REFUSED, WAITING

# The beginning of an item; a constant or a table of a module has its name here.
HEAD = re.compile(
    r"^(?:(?:pub(?:\(crate\))? )?(?:const|static) (\w+):| *[\w\"() ]*\b(?:fn|const) \w+)",
    re.MULTILINE,
)

# An edit or a twin: the range in its file's source that is replaced, and the new text.
Plant = namedtuple("Plant", "edit label is_twin source begin end text")
Judgement = namedtuple("Judgement", "faults at_limit again")


def plants_of(crate, edits):
    """The edits, and after them their twins."""
    for is_twin in (False, True):
        for edit in edits:
            if is_twin and not edit_files.has_twin(edit):
                continue
            source = (crate / edit.file).read_text(encoding="utf-8")
            try:
                made = edit_files.applied(edit, source, is_twin)
            except ValueError as error:
                raise ValueError(f"{edit.name}: {error}") from error
            begin = len(os.path.commonprefix([source, made]))
            same = len(os.path.commonprefix([source[begin:][::-1], made[begin:][::-1]]))
            end, text = len(source) - same, made[begin : len(made) - same]
            label = f"the twin of {edit.name}" if is_twin else edit.name
            yield Plant(edit, label, is_twin, source, begin, end, text)


def is_cited(plant, other):
    """Whether a plant changes a constant that the other one's file cites."""
    constants = HEAD.findall(plant.source, 0, plant.begin)
    return constants and constants[-1] and re.search(rf"\b{constants[-1]}\b", other.source)


def are_apart(one, other):
    """Whether two plants can be in the same round."""
    is_one_file = one.edit.file == other.edit.file
    overlap = is_one_file and one.begin < other.end and other.begin < one.end
    meet = set(one.edit.refused) & set(other.edit.refused)
    return not (overlap or meet or is_cited(one, other) or is_cited(other, one))


def rounds_of(plants):
    """The plants in rounds: each in the first round that can take it."""
    rounds = []
    for plant in plants:
        fit = (it for it in rounds if all(are_apart(plant, other) for other in it))
        one = next(fit, None)
        if one is None:
            rounds.append(one := [])
        one.append(plant)
    return rounds


def judged(name, plants, ran):
    """The result of a round: the faults, the edits that were refused at a limit, and the twins that
    must be planted again, because they call what was not proved."""
    found = planting.verdicts_of(name, ran.said)
    unread = [it[0] for it in planting.UNREAD.finditer(ran.said)]
    if ran.status not in (0, 1, 3) or unread or not found:
        errors = unread or re.findall(r".*\berror\b.*", ran.said) or ran.said.split("\n")
        labels = ", ".join(plant.label for plant in plants)
        fault = f"no verdict on {labels} (status {ran.status}): {' / '.join(errors[:5])}"
        return Judgement([fault], [], [])
    faults, at_limit, again, by_lemma = [], [], [], []
    for plant in plants:
        verdicts = [
            found.get(it, planting.Verdict("there is none", "")) for it in plant.edit.refused
        ]
        kinds = {it.kind for it in verdicts}
        if plant.is_twin and WAITING in kinds and not all(it.is_twin for it in plants):
            again.append(plant)
            continue
        wanted = (PROVED,) if plant.is_twin else (REFUSED, AT_LIMIT, BY_LEMMA)
        for path, (kind, words) in zip(plant.edit.refused, verdicts):
            if kind not in wanted:
                faults.append(f"{plant.label}: {path}: {kind}: {words}")
        at_limit += [plant.label] if kinds == {AT_LIMIT} else []
        by_lemma += [plant.label] if kinds == {BY_LEMMA} else []
    planted = {path for plant in plants for path in plant.edit.refused}
    for path, (kind, words) in found.items():
        if path not in planted and kind not in (PROVED, WAITING):
            faults.append(f"{path}: {kind}, although nothing is planted there: {words}")
    if len(by_lemma) > 1:
        faults.append(f"a lemma is refused for only one of these: {', '.join(by_lemma)}")
    return Judgement(faults, at_limit, again)


def try_crate(name, scratch, group):
    """The edits of a crate, and the result of each round."""
    crate, copy, judgements = CRATES / name, scratch / name, []
    edits = edit_files.wrong_bodies_of(crate)
    rounds = rounds_of(plants_of(crate, edits))
    kept = crate / "out/incremental"
    if kept.is_dir():
        shutil.copytree(kept, copy / "kept")
    (copy / "kept").mkdir(parents=True, exist_ok=True)
    for plants in rounds:
        places = [(it.edit.file, it.begin, it.end, it.text) for it in plants]
        planting.lay_out(crate, copy, places)
        only = {path for plant in plants for path in plant.edit.refused}
        judgements.append(judged(name, plants, planting.check(name, copy, group, only=only)))
        if judgements[-1].again:
            rounds.append(judgements[-1].again)
    shutil.rmtree(copy)
    return edits, judgements


def faults_of(name, judgements):
    """The faults of a crate's edits."""
    for number, judgement in enumerate(judgements, 1):
        yield from (f"{name}, round {number}: {it}" for it in judgement.faults)


def try_crates(names, at_once, scratch, group):
    """Tries the edits of these crates; returns the faults and a summary of the others."""
    faults, counts = [], [0, 0, 0]
    with ThreadPoolExecutor(at_once) as pool:
        tried = {pool.submit(try_crate, name, scratch, group): name for name in names}
        for done in as_completed(tried):
            name = tried[done]
            try:
                edits, judgements = done.result()
            except ValueError as error:
                faults.append(f"{name}: {error}")
                continue
            twins = sum(map(edit_files.has_twin, edits))
            at_limit = [it for judgement in judgements for it in judgement.at_limit]
            limits = f"; at a limit: {' '.join(at_limit)}" if at_limit else ""
            summary = f"{len(edits)} edits and {twins} twins in {len(judgements)} rounds{limits}"
            print(f"{name}: {summary}", flush=True)
            faults += faults_of(name, judgements)
            more = len(edits), len(at_limit), twins
            counts = [one + other for one, other in zip(counts, more)]
    return faults, "{} refused, {} of them at a limit; {} twins proved".format(*counts)


def main():
    words = argparse.ArgumentParser(usage=__doc__.split("\n\n")[1].removeprefix("Usage: "))
    words.add_argument("--built", action="store_true")
    words.add_argument("--at-once", type=int, default=planting.at_once_by_default())
    words.add_argument("crates", nargs="*", metavar="CRATE")
    given = words.parse_args()
    names = given.crates or [it.parent.name for it in CRATES.glob("*/wrong-bodies")]
    # The crates with most edits first.
    names.sort(key=lambda it: -len(edit_files.wrong_bodies_of(CRATES / it)))
    for name in dict.fromkeys(it for name in names for it in planting.listed(name)[0]):
        if not given.built:
            subprocess.run(["rt", "lib"], cwd=CRATES / name, check=True, stdout=sys.stderr)
    signal.signal(signal.SIGINT, signal.SIG_DFL)
    scratch, watch = planting.scratch_folder()
    faults, summary = try_crates(names, given.at_once, scratch, watch.pid)
    watch.communicate()
    if faults:
        sys.exit("wrong_bodies:\n" + "\n".join(faults))
    print(f"wrong bodies: {summary}")


main()
