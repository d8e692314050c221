"""The comments that list proved mutants, with the reason: they give the same answer, or another one
that the contract leaves open.

    // Same answer (2 → 3, len → 0): the reason.
    // Left open (text → ""): the reason.
"""
import re

LETTERS = {"Same answer (": "s", "Left open (": "o"}
WORDS = re.compile("|".join(map(re.escape, LETTERS)))
ABOVE = re.compile(r"(?:^[ \t]*(?://|#\[)[^\n]*\n)*\Z", re.MULTILINE)
LINE = re.compile(r"^[ \t]*//(?!/) ?(.*)$", re.MULTILINE)


def comment_of(item, text):
    """The words of the comment above an item."""
    return " ".join(LINE.findall(ABOVE.search(text[: item.start])[0]))


def listed(words, names):
    """The named mutants that a comment lists, with their letters, and what is wrong with it."""
    found, faults = {}, []
    for start in WORDS.finditer(words):
        at, is_last = start.end(), False
        while not is_last:
            fit = [it for it in names if re.match(r", |\): \S", words[at + len(it) :])]
            fit = [it for it in fit if words.startswith(it, at)]
            if not fit:
                faults.append(f"its comment lists no mutant at: {words[at : at + 60]}")
                break
            name = max(fit, key=len)
            found[name] = LETTERS[start[0]]
            is_last = words[at + len(name)] == ")"
            at += len(name) + 2
    return found, faults
