"""The questions for the library in all languages: the rows of `tests/rows`, the worked rows in the
tables of the pages, and the worked examples of docs/RULES.md.

A row of a page that begins with two cells in code is a question to a program: to `numeral` if the
second cell is `ok ..`, `err ..` or `bad line`, otherwise to `cheque`. An example of RULES is
`ASKED`→`ANSWER`, with refusals in short form; its heading decides which program or call answers.
test.py needs this file, which runs with Python 3.8 or later.
"""
import re
from pathlib import Path

TOP = Path(__file__).resolve().parent.parent
PAGES = ("README.md", "README.zh.md", "docs/*.md")
RULES = "docs/RULES.md"
ROW = re.compile(r"^\| `([^`]*)` \| `([^`]*)` \|", re.MULTILINE)
EXAMPLE = re.compile(r"`([^`]+)`→`([^`]+)`")
OF_NUMERAL = re.compile(r"(?:ok|err) .*|bad line")
# The short forms of refusals in examples, besides `at POSITION`.
REFUSALS = {
    "empty": "err a chinese number cannot be empty",
    "unfinished": "err the {} is not finished",
    "too large": "err number is too large",
    "too small": "err number is too small",
    "bad line": "bad line",
}
# The headings of RULES under which `cheque` answers, and those under which a call of the libraries
# answers, with the first words of its question. Under all others `numeral` answers.
OF_CHEQUE = ("Amounts of money", "Amounts in figures", "Dates on bills")
OF_CALLS = {
    "Numbers in a text": ["find"],
    "Flags of a found number": ["flags"],
    "Either way": ["read", "i64", "any"],
    "Written either way": ["print", "i64", "any", "simple", "lower"],
    "Quantities": ["read_quantity", "ten_thousand"],
    "Misread numerals": ["read_quantity", "ten_thousand"],
    "Quantities written": ["print_quantity", "ten_thousand", "simple", "lower"],
    "Quantities in figures": ["quantity_figures"],
    "Doubt": ["quantities_to_figures", "none"],
    "Expressions replaced": ["quantities_to_figures", "none"],
    "The new text": ["quantities_to_figures", "none"],
    "Whole, or not at all": ["quantities_to_figures", "none"],
    "Values of phrases": ["phrases"],
    "Sums of money": ["text_to_figures", "none"],
    "Phrases in figures": ["text_to_figures", "none"],
    "Codes in a text": ["text_to_figures", "codes"],
    "A text as it is spoken": ["text_to_speech", "simplified"],
    "From recognised speech": ["text_to_figures", "codes"],
    "Amounts below zero": ["read_signed_amount"],
    "Amounts as typed": ["read_typed_amount"],
}
# The ASCII characters of figures; ¥ and commas are dropped.
PLAIN = str.maketrans("０１２３４５６７８９．", "0123456789.", "¥￥,，")
# The files of `tests/rows` for the libraries alone, and not for a program.
OF_LIBRARIES = (
    "any",
    "forms",
    "signed",
    "typed",
    "figures",
    "flags",
    "quantities",
    "doubts",
    "written",
    "replaced",
    "phrases",
    "expected",
    "repairs",
    "faults",
    "messages",
)
# The number of words in a line of `numeral`; the last word may have spaces in it.
WORDS = {"read": 4, "print": 6}


def table(name):
    """The rows of a file of `tests/rows`: the cells of each line."""
    text = (TOP / "tests/rows" / (name + ".tsv")).read_text(encoding="utf-8")
    return [line.split("\t") for line in text.splitlines() if not line.startswith("# ")]


def of_files(names=("numbers", "amounts", "dates")):
    """The rows of files of `tests/rows`: the words of each question, and the answer. A row with
    several ways gives a question for each."""
    for name in names:
        for row in table(name):
            # The answer to `phrases` has a cell for each phrase.
            count = 2 if row[0] == "phrases" else len(row) - 1
            words, answer = row[:count], "\t".join(row[count:])
            ways = words[2].split(" ") if name == "numbers" else [None]
            for way in ways:
                yield (words[:2] + [way] + words[3:] if way else words), answer


def pages():
    for path in (path for it in PAGES for path in sorted(TOP.glob(it))):
        yield path.name, path.read_text(encoding="utf-8")


def in_full(answer, what):
    """The full answer for the short answer of an example; `what` names what is read."""
    if re.fullmatch(r"at \d+", answer):
        return f"err the {what} is incorrect (position: {answer[3:]})"
    of_numbers = re.compile(r"(?<=\[)(at )?\d+(?=\])")
    told = of_numbers.sub(lambda number: in_full(number[0], what), answer)
    return REFUSALS.get(answer, f"ok {told}").format(what)


def examples():
    """The heading, the question and the answer of each example of RULES."""
    text = (TOP / RULES).read_text(encoding="utf-8")
    for part in re.split("^#+ ", text, flags=re.MULTILINE)[1:]:
        heading, _, its = part.partition("\n")
        capitals = "date" if heading.startswith("Dates") else "amount"
        what = capitals if re.match("Amounts|Dates", heading) else "chinese number"
        for asked, answer in EXAMPLE.findall(re.sub("\n *", " ", its)):
            yield heading, asked, in_full(answer, what)


def of_phrase(asked, answer):
    """The full answer on a phrase for an example: its kind, and its value or `refused`."""
    kind, value = answer.split(" ", 2)[1:]
    state, value = ("refused", "-") if value == "refused" else ("certain", value)
    return f"ok {kind} {state} {asked} {value}"


def line_of(asked):
    """The line for `numeral`. Anything else is a text, read as an `i64` with `ten_thousand`."""
    return asked if re.match("(read|print) ", asked) else f"read i64 ten_thousand {asked}"


def of_numeral():
    """The page, the line and the answer of each row and example for `numeral`."""
    for page, text in pages():
        for asked, answer in ROW.findall(text):
            if OF_NUMERAL.fullmatch(answer):
                yield page, line_of(asked), answer
    for heading, asked, answer in examples():
        if heading not in OF_CHEQUE and heading not in OF_CALLS:
            yield RULES, line_of(asked), answer


def lines():
    """The page, the line and the answer of each row and example for `numeral`, also of the rows of
    `tests/rows` that can be a line."""
    yield from of_numeral()
    for words, answer in of_files():
        if words[0] in WORDS:
            yield "tests/rows", " ".join(words), answer


def of_cheque():
    """The word and the answer of each row and example for `cheque`."""
    for _, text in pages():
        for asked, answer in ROW.findall(text):
            if not OF_NUMERAL.fullmatch(answer):
                yield asked, answer
    for heading, asked, answer in examples():
        if heading in OF_CHEQUE:
            yield asked, answer.partition(" ")[2]


def begins_figures(text):
    """Whether `cheque` takes a text for figures, by its first character."""
    return text[:1].isascii() or re.match("[¥￥０-９]", text) is not None


def value(figures):
    """The argument or result of a call for figures: the fen of an amount, or the date unchanged."""
    yuan, _, places = figures.translate(PLAIN).partition(".")
    return figures if "-" in figures else str(int(yuan + places[:2].ljust(2, "0")))


def questions_on_capitals(word, answer):
    """The questions for a row of `cheque`: figures are written, and the result is read back.
    Figures of an amount are also read, by a call that differs only in accepting a minus."""
    what = "date" if re.search("-|年", word) else "amount"
    if begins_figures(word):
        is_refused = begins_figures(answer)
        if what == "amount":
            yield ["yuan_to_fen", word], f"err {answer}" if is_refused else f"ok {value(word)}"
        if not is_refused:
            yield [f"print_{what}", "simple", value(word)], f"ok {answer}"
            yield [f"read_{what}", answer], f"ok {value(word)}"
    else:
        is_read = re.match("[0-9]", answer)
        yield [f"read_{what}", word], f"ok {value(answer)}" if is_read else f"err {answer}"


def questions():
    """The questions for the calls of the library, in the form of test.py: the words of a question,
    of which the first names the call, and the answer."""
    yield from of_files()
    yield from of_files(OF_LIBRARIES)
    for _, line, answer in of_numeral():
        if answer != "bad line":
            yield line.split(" ", WORDS[line.split(" ")[0]] - 1), answer
    for word, answer in of_cheque():
        yield from questions_on_capitals(word, answer)
    for heading, asked, answer in examples():
        if heading in OF_CALLS:
            words = OF_CALLS[heading]
            yield [*words, asked], of_phrase(asked, answer) if words == ["phrases"] else answer


def wrong_answers(ask):
    """The questions with wrong answers, each with its answer and the right one. `ask` returns the
    answers to questions, a line each."""
    rows = list(questions())
    said = ask("".join("\t".join(question) + "\n" for question, _ in rows)).splitlines()
    said += ["nothing"] * (len(rows) - len(said))
    return [
        (" ".join(question), found, wanted)
        for (question, wanted), found in zip(rows, said)
        if found != wanted
    ]
