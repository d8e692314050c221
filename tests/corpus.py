"""Measures how well numbers and phrases are found and rewritten in ordinary sentences.

`corpus.tsv` has a sentence in each row, with these columns: the writer (`other`: somebody who had
seen neither the rules nor the code); the genre; `D` if the sentence has a date, a time or a sum of
money, which may stay unchanged; the sentence; what an editor makes of it (alternatives separated by
`|`, where `=` is the unchanged sentence); and the values that a reader understands
(`EXPRESSION=VALUE`, where `?` means no value).

`phrases.tsv` has sentences with dates, times, durations, ranges and scores, and `money.tsv` sentences
with sums of money, in the same columns but without `D`. A value has its unit; a date is 2026-01-05 or
????-01-05, and a time 15:30, or ?3:30 if it is not known in which half of the day it is.

`speech.tsv` has sentences with codes and texts as they are spoken: the writer, the direction, the
genre, the sentence and what an editor makes of it. The direction is F or R, in figures with codes,
of a text and of recognised speech; or S or T, to speech in simplified or traditional characters.
"""
import re
from collections import Counter
from difflib import SequenceMatcher
from fractions import Fraction
from itertools import chain, repeat
from pathlib import Path

FOLDER = Path(__file__).resolve().parent
# For all sentences in figures, and for those by others: the least percentage of right sentences, and
# the greatest percentage of wrong ones. quantities_to_figures is asked for those of corpus.tsv alone.
BARS = {
    "quantities_to_figures": {"all": (92, 4), "other": (88, 6)},
    "text_to_figures": {"all": (94, 2), "other": (91, 3)},
    "text_to_figures with codes": {"all": (91, 2), "other": (89, 3)},
    "text_to_speech": {"all": (95, 2), "other": (93, 2)},
}
COUNT_OF_BARS = sum(map(len, BARS.values()))
KINDS = ("right", "part", "left", "wrong")
WITH_PHRASES = ("phrases", "money")
# What is asked for a sentence of speech.tsv, and under which name of BARS it is counted.
DIRECTIONS = {
    "F": (("text_to_figures", "codes"), "text_to_figures with codes"),
    "R": (("text_to_figures", "codes"), "text_to_figures with codes"),
    "S": (("text_to_speech", "simplified"), "text_to_speech"),
    "T": (("text_to_speech", "traditional"), "text_to_speech"),
}
FORMS = {"percent": "%", "fraction": "/"}
# A phrase in an answer: its kind, its state, its text and its value.
PHRASE = re.compile(r"(\w+) (\w+) (.+?) (\S+(?: =\S+)?)")
NUMBER = re.compile("-?[0-9.]+%?")
UNITS = ("h", "min", "s")


def sentences(name="corpus"):
    lines = (FOLDER / f"{name}.tsv").read_text(encoding="utf-8").splitlines()
    return [line.split("\t") for line in lines if not line.startswith("# ")]


def questions():
    """The questions for each sentence: the text in figures, without phrases and with them, its
    quantities and their doubts; for a sentence with phrases the text in figures and its phrases; for
    one of speech what is made of it in its direction."""
    for _, _, _, sentence, _, _ in sentences():
        yield ["quantities_to_figures", "none", sentence]
        yield ["text_to_figures", "none", sentence]
        yield ["find_quantities", sentence]
        yield ["doubts", sentence]
    for _, _, sentence, _, _ in chain.from_iterable(map(sentences, WITH_PHRASES)):
        yield ["text_to_figures", "none", sentence]
        yield ["phrases", sentence]
    for _, direction, _, sentence, _ in sentences("speech"):
        yield [*DIRECTIONS[direction][0], sentence]


def is_part(sentence, answer, made):
    """Whether some of the changes that lead from a sentence to an answer were made, and no others."""
    steps = SequenceMatcher(None, sentence, answer, autojunk=False).get_opcodes()
    either = (f"(?:{re.escape(sentence[a:b])}|{re.escape(answer[c:d])})" for _, a, b, c, d in steps)
    return re.fullmatch("".join(either), made) is not None


def judged(sentence, edited, mark, made):
    """Whether the new sentence is right, right in part, unchanged (left) or wrong."""
    answers = [sentence if it == "=" else it for it in edited.split("|")]
    if made in answers or (mark == "D" and made == sentence):
        return "right"
    if made == sentence:
        return "left"
    return "part" if any(is_part(sentence, it, made) for it in answers) else "wrong"


def value_of(word):
    """A value of the corpus, or of an answer such as `ok 125/1000 percent`."""
    word = word.split(" ")[1] if word.startswith("ok ") else word
    return Fraction(word[:-1]) / 100 if word.endswith("%") else Fraction(word)


def found_in(sentence, answer):
    """The text and the answer of each expression that `answer` has in brackets."""
    between = re.split(r"\[([^\[\]]*)\]", answer)
    pattern = "(.+?)".join(map(re.escape, between[::2]))
    match = re.fullmatch(pattern, sentence)
    return list(zip(match.groups(), between[1::2])) if match else []


def judged_values(sentence, values, quantities, doubts):
    """For each value of a sentence: right, left (doubtful or not found) or wrong."""
    found = {text: answer for text, answer in found_in(sentence, quantities)}
    doubtful = {text for text, doubt in found_in(sentence, doubts) if doubt != "none"}
    for word in [] if values == "-" else values.split(";"):
        text, _, value = word.rpartition("=")
        answer = found.get(text, "err")
        is_left = text in doubtful or not answer.startswith("ok ")
        if value == "?":
            yield "right" if is_left else "wrong"
        else:
            yield "left" if is_left else "right" if value_of(answer) == value_of(value) else "wrong"


def in_words(kind, value):
    """The value of a phrase that is no decimal and no range, as the sentences have it."""
    parts = value.split("-" if kind == "date" else ":")
    if kind == "date":
        widths = zip(parts, (4, 2, 2))
        full = "-".join("?" * width if it == "?" else it.zfill(width) for it, width in widths)
        return re.sub(r"(-\?\?)+$", "", full)
    if kind == "time":
        second, of_day = parts[2].split(" =")
        hour = f"?{parts[0]}" if of_day == "?" else of_day.zfill(2)
        return f"{hour}:{parts[1].zfill(2)}" + (f":{second.zfill(2)}" if second != "0" else "")
    if kind == "duration":
        return "".join(it + unit for it, unit in zip(parts, UNITS) if it != "0")
    before = {"months": "????-", "days": "????-??-"}.get(kind, "")
    return "..".join(before + it.zfill(2) if before else it for it in value.split(".."))


def is_meant(kind, value, meant):
    """Whether the value of a phrase is that of a sentence, whose unit is not compared for numbers."""
    if kind not in ("half", "length", "range", "money"):
        return in_words(kind, value) == meant
    numbers = [NUMBER.match(it) for it in meant.split("..")]
    return [it and value_of(it[0]) for it in numbers] == [Fraction(it) for it in value.split("..")]


def judged_phrases(values, answer):
    """For each value of a sentence: right, left (not found as a phrase that is certain) or wrong."""
    found = [PHRASE.fullmatch(it).groups() for it in answer.split("\t") if it]
    for word in [] if values == "-" else values.split(";"):
        text, _, meant = word.rpartition("=")
        # A range in a sentence has a measure after it.
        fits = [it for it in found if it[1] == "certain" and text.startswith(it[2])]
        if not fits:
            yield "left"
        else:
            kind, _, _, value = max(fits, key=lambda it: len(it[2]))
            yield "right" if is_meant(kind, value, meant) else "wrong"


def rate(counts):
    total = sum(counts.values())
    parts = (f"{100 * counts[it] / total:.1f} % {it}" for it in KINDS if counts[it])
    return f"{', '.join(parts)} of {total}"


def count_texts(rows):
    """The counts of right, unchanged and wrong sentences by genre, by writer and in all. Each row has
    a sentence's columns up to what an editor makes of it, and what was made of it."""
    texts = {}
    for hand, genre, mark, sentence, edited, made in rows:
        kind = judged(sentence, edited, mark, made)
        needs_change = judged(sentence, edited, mark, sentence) == "left"
        for group in (genre, hand, *([f"{hand}, if a change is needed"] * needs_change), "all"):
            texts.setdefault(group, Counter())[kind] += 1
    return texts


def missed(name, texts):
    """The bars that are missed."""
    for group, (right, wrong) in BARS[name].items():
        counts = texts[group]
        total = sum(counts.values())
        if 100 * counts["right"] < right * total or 100 * counts["wrong"] > wrong * total:
            yield f"{name}, {group}: at least {right} % must be right, and at most {wrong} % wrong"


def report(said):
    """The lines of the report, by genre and in total, and the bars that are missed. `said` has an
    answer for each question."""
    answers = chain((line[3:] if line.startswith("ok ") else "" for line in said), repeat(""))
    rows, values = {name: [] for name in BARS}, {it: Counter() for it in ("corpus", *WITH_PHRASES)}
    without, with_phrases = rows["quantities_to_figures"], rows["text_to_figures"]
    for *row, meant in sentences():
        without.append((*row, next(answers)))
        with_phrases.append((*row[:2], "-", *row[3:], next(answers)))
        values["corpus"].update(judged_values(row[3], meant, next(answers), next(answers)))
    for name in WITH_PHRASES:
        for hand, genre, *row, meant in sentences(name):
            with_phrases.append((hand, genre, "-", *row, next(answers)))
            values[name].update(judged_phrases(meant, next(answers)))
    for hand, direction, genre, sentence, edited in sentences("speech"):
        name = DIRECTIONS[direction][1]
        rows[name].append((hand, genre, "-", sentence, edited, next(answers)))
    texts = {name: count_texts(its) for name, its in rows.items()}
    lines = [f"    {name}, {it}: {rate(texts[name][it])}" for name in texts for it in texts[name]]
    lines += [f"    {name}.tsv, values: {rate(its)}" for name, its in values.items()]
    return lines, [it for name in texts for it in missed(name, texts[name])]
