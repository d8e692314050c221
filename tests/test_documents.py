"""Compares the documents, the comments and `tests/rows` with programs and definitions.

- `numeral`, `cheque` and `numbers` answer the worked rows of the pages, the examples of
  docs/RULES.md and the rows of `tests/rows`.
- The lists of characters in RULES, and its scales, are those of the definitions.
- Pages that also exist in Chinese have the same rows and the same code in both languages; the
  Chinese page may have more rows.
- The example in the comment of each of the 96 calls by name is tested, with its type and method.
- Each block of Rust in docs/RATTLE.md is, line by line, in a source of a program of `crates/`.
- Each folder of `crates/` and `bindings/` has a row in docs/DESIGN.md.
- The documents name one toolchain, with the logic that `rt version` prints.
"""
import re
import subprocess

import pytest
import questions
from running import TOP, needs_rt

# The pages with a Chinese page, README.zh.md, in the same folder.
IN_CHINESE_TOO = (
    "README.md",
    "bindings/java/README.md",
    "bindings/python/README.md",
    "bindings/web/README.md",
)
CODE = re.compile(r"^```\w*\n(.*?)^```$|^((?:    [^\n]*\n)+)", re.MULTILINE | re.DOTALL)
# The definitions whose lists of characters are in RULES, each as one word.
LISTED = (
    "cn_core/specs/FigureCharacters.antt",
    "cn_find/specs/Belongs.antt",
    "cn_find/specs/Flags.antt",
    "cn_find/specs/Expressions.antt",
    "cn_quantity/specs/Characters.antt",
    "cn_amount/specs/Typed.antt",
)
WRITTEN = re.compile("^    (Traditional|Simple) (Upper|Lower) +(.*)$", re.MULTILINE)
EXPONENT = re.compile(r"^exponent (\w+) rank = if nat_le rank 4 then rank else (.*)$", re.MULTILINE)
# What `numbers` prints for a line: the column, the text and the answer.
FOUND = re.compile(r"^1:(\d+) (.+?) (err .*|[-\d/]+)$", re.MULTILINE)
CALL = re.compile(r"((?:^///.*\n)+)pub fn (from_\w+)", re.MULTILINE)
READ = re.compile(r"^/// Reads .*: `(\S+)` is (-?[\d_]+)\.$", re.MULTILINE)
PRINTED = re.compile(r"^/// Writes .*: (-?[\d_]+) is `(\S+)`\n/// in traditional", re.MULTILINE)
NAME = re.compile(r"from_(?:chinese_to_)?([iu](?:\d+|size))(?:_to_chinese)?_?(\w*)")


def text_of(path):
    return path.read_text(encoding="utf-8")


def rules(heading):
    """The text of RULES under a heading."""
    return text_of(TOP / questions.RULES).split(f"# {heading}\n")[1].split("\n#")[0]


def characters(path, name=""):
    """The lists of characters of a file of definitions, in order, or those of one definition."""
    text = text_of(TOP / "crates" / path)
    text = re.search(f"^{name} =(.*\n)((?:  .*\n)*)", text, re.MULTILINE)[0] if name else text
    return [it.replace("\\\\", "\\") for it in re.findall('codes "([^"]+)"', text)]


def test_digits():
    digits = characters("cn_core/specs/Characters.antt", "digit_rows")
    assert f"\n    {' '.join(digits)}\n" in rules("Characters")


def test_units():
    """Each unit has its characters and the exponents of its scales, if these fit."""
    scales = text_of(TOP / "crates/cn_core/specs/Scale.antt")
    most = int(re.search(r"^scale_fits method rank = .*\) (\d+)$", scales, re.MULTILINE)[1])
    powers = dict(EXPONENT.findall(scales))
    methods = ["TenThousand", "Middle", "High"]
    wanted = [["unit", *methods]]
    for rank, unit in enumerate(characters("cn_core/specs/Characters.antt", "unit_rows")):
        formulas = (powers[it].replace("^", "**") if rank > 4 else "rank" for it in methods)
        exponents = [eval(formula, {"rank": rank}) for formula in formulas]
        wanted.append([unit, *(str(it) for it in exponents if it <= most)])
    table = rules("Characters").partition("    unit ")[1:]
    assert [row.split() for row in "".join(table).split("\n\n")[0].splitlines()] == wanted


def test_written_characters():
    path, told = "cn_core/specs/Characters.antt", WRITTEN.findall(rules("Characters"))
    assert len(told) == 4
    for script, case, words in told:
        names = (f"printed_digits (?:variant|{script}) {case}", f"printed_units {script} {case}")
        lists = [*names, f"minus_char {script}"]
        assert words.split() == [it for name in lists for it in characters(path, name)]


def test_lists():
    """Each list of two or more characters is in RULES, in any order."""
    words = {frozenset(it) for it in re.findall(r"[^\s`]+", text_of(TOP / questions.RULES))}
    lists = [it for path in LISTED for it in characters(path) if len(it) > 1 and " " not in it]
    assert [it for it in lists if not it[0].isdecimal() and frozenset(it) not in words] == []


@pytest.mark.parametrize("kind", ["amount", "date"])
def test_capitals(kind):
    capitals = characters(f"cn_{kind}/specs/Reading.antt", "capital_rows")
    told = rules("Characters of amounts and dates")
    assert re.search(f"^    {kind}s +(.*)$", told, re.MULTILINE)[1].split() == capitals


def test_arrows():
    """Each arrow in RULES belongs to an example."""
    assert text_of(TOP / questions.RULES).count("→") == len(list(questions.examples()))


def shown(path):
    """The code in each row of the tables of a page, and the lines of its other code except
    comments."""
    text = text_of(path)
    rows = [re.findall("`[^`]+`", row) for row in re.findall(r"^\|.*\|$", text, re.MULTILINE)]
    lines = "\n".join(map("".join, CODE.findall(text))).splitlines()
    code = [it.strip() for it in lines if it.strip() and not re.match(" *(#|//)", it)]
    return sorted(filter(None, rows)), sorted(code)


@pytest.mark.parametrize("page", IN_CHINESE_TOO)
def test_two_languages(page):
    """The page in Chinese has the rows and the code of the other page, and may have more rows of
    two cells in code, which are questions to programs."""
    path = TOP / page
    (rows, code), (in_chinese, alike) = shown(path), shown(path.with_name("README.zh.md"))
    assert alike == code and [it for it in in_chinese if it in rows] == rows
    assert [it for it in in_chinese if it not in rows and len(it) != 2] == []


def examples():
    """The questions and answers of the comments of the 96 calls."""
    sources = TOP.glob("crates/cn_calls/src/*.rt")
    for source in sorted(sources):
        for comment, name in CALL.findall(text_of(source)):
            integer, method = NAME.fullmatch(name).groups()
            way = f"{integer} {method or 'low'}"
            for text, number in READ.findall(comment):
                yield name, f"read {way} {text}", f"ok {int(number)}"
            for number, text in PRINTED.findall(comment):
                yield name, f"print {way} traditional lower {int(number)}", f"ok {text}"


def test_numeral(numeral):
    """`numeral` gives the answer of each row and each example."""
    commented = list(examples())
    assert len({name for name, _, _ in commented}) == 96
    asked = [*questions.lines(), *commented]
    lines = "".join(question + "\n" for _, question, _ in asked)
    told = numeral(data=lines.encode())[1].decode().split("\n")
    found = [(where, line, answer) for (where, line, _), answer in zip(asked, told)]
    assert found == asked and len(told) == len(asked) + 1


def words_of_files():
    """The rows of `tests/rows` on capitals, except those that `cheque` understands differently:
    texts of dates without 年, and texts that begin like figures. It writes simplified script."""
    for (call, *words), answer in questions.of_files():
        word, is_read = words[-1], call.startswith("read_")
        value, is_amount = answer.partition(" ")[2], call.endswith("_amount")
        if call == "print_amount":
            word = figures(word)
        elif call == "read_amount" and answer.startswith("ok "):
            value = figures(value)
        if words[0] != "traditional" and not (is_read and questions.begins_figures(word)):
            if is_amount or "年" in answer + word:
                yield word, value


def figures(fen):
    return f"{int(fen) // 100}.{int(fen) % 100:02}"


def test_cheque(cheque):
    """`cheque` gives the answer of each row on amounts and dates."""
    for word, wanted in [*questions.of_cheque(), *words_of_files()]:
        _, output, error = cheque(word)
        assert (word, (output + error).decode()) == (word, f"{wanted}\n")


def in_brackets(numbers, text, tell, *options):
    """The text with the result of `tell` in brackets instead of each number that is found."""
    done, end = "", 0
    answers = numbers(*options, data=text.encode())[1].decode()
    for column, found, answer in FOUND.findall(answers):
        start = int(column) - 1
        done += f"{text[end:start]}[{tell(found, answer)}]"
        end = start + len(found)
        assert text[start:end] == found
    return done + text[end:]


def test_numbers(numbers):
    """The numbers in the texts of RULES have their answers, and the expressions their places."""
    for heading, text, answer in questions.examples():
        if heading == "Numbers in a text":
            found = in_brackets(
                numbers, text, lambda _, it: it if it.startswith("err ") else f"ok {it}"
            )
            assert f"ok {found}" == answer
    bracketed = re.findall(r"`([^`]*\[[^`]*)`", rules("Expressions in a text"))
    assert bracketed
    for text in bracketed:
        bare = re.sub(r"[\[\]]", "", text)
        assert in_brackets(numbers, bare, lambda it, _: it, "--exact") == text


def test_blocks():
    """The Rust of RATTLE.md is in sources."""
    texts = [text_of(path) for path in TOP.glob("crates/*/src/*.rt")]
    blocks = re.findall(r"^```rust\n(.*?)^```$", text_of(TOP / "docs/RATTLE.md"), re.M | re.S)
    assert blocks and [it for it in blocks if not any(it in text for text in texts)] == []


def test_folders():
    """Each folder has a row in DESIGN."""
    design = text_of(TOP / "docs/DESIGN.md")
    folders = [path.parent.name for path in TOP.glob("crates/*/src")]
    folders += [f"bindings/{path.name}" for path in TOP.glob("bindings/[a-z]*") if path.is_dir()]
    assert [name for name in folders if f"\n| `{name}` | " not in design] == []


def test_toolchain():
    """The documents name one toolchain, whose logic is that of rt."""
    needs_rt()
    said = subprocess.run(["rt", "version"], capture_output=True, text=True, check=True).stdout
    pages = [page for it in ("*.md", "docs/*.md", "bindings/**/*.md") for page in TOP.glob(it)]
    named = set(re.findall(r"rattle-kit-\w+|logic [0-9a-f]{16}\b", "".join(map(text_of, pages))))
    logics = {it for it in named if it.startswith("logic ")}
    assert len(named) == 2 and logics == {said.strip()[-len("logic ") - 16 :]}
