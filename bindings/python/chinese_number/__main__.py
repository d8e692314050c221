"""The command chinese-number. It writes and reads amounts, dates and numerals, finds the quantities
or the numbers of a text, replaces quantities, answers lines, and converts the amounts in a table.

Results go to standard output, and refusals, which name what is refused, to standard error. The
status is 0 if everything was converted, 1 if something was refused or could not be read or written,
and 2 if the command line is not valid. Texts are UTF-8, whatever the locale is.
"""

from __future__ import annotations

import os
import re
import sys
from datetime import date
from functools import partial
from typing import Any, Callable, Dict, Iterable, Iterator, List, Optional, TextIO, Tuple

from . import AmountError, DateError, Found, FoundQuantity, Kind, Language, NumeralError, Status
from . import Way, __version__, chinese_to_amount, chinese_to_amount_as_typed, chinese_to_date
from . import chinese_to_signed_amount, chinese_to_signed_amount_as_typed, date_to_chinese
from . import find_numbers, find_quantities, quantities_to_figures, signed_amount_to_chinese
from . import _library, text_to_figures, text_to_speech, to_chinese, to_number, yuan_to_fen
from ._tables import Misuse, Refused, Table, shown, write_table


class _Matching:
    """The words that match a pattern, with a description of them."""

    def __init__(self, pattern: str, meaning: str) -> None:
        self._pattern, self._meaning = re.compile(pattern), meaning

    def __iter__(self) -> Iterator[str]:
        return iter([self._meaning])

    def __contains__(self, word: object) -> bool:
        return isinstance(word, str) and self._pattern.fullmatch(word) is not None


_Options = Dict[str, Any]
_FLAG: List[Any] = [None]
_TRADITIONAL: _Options = {"--traditional": _FLAG}
_KIND: _Options = {"--kind": [it.value for it in Kind]}
_WAY: _Options = {"--way": [it.value for it in Way]}
_METHOD: _Options = {"--method": [it.value for it in Way if it is not Way.DIGITS]}
_REPLACED: _Options = {
    f"--{it}": _FLAG
    for it in (
        *("phrases", "about", "one-character", "doubtful"),
        *("expanded", "canonical", "compact", "codes"),
    )
}
_LANGUAGE: _Options = {"--language": [it.value for it in Language]}
_FORM: _Options = {"--currency": _FLAG, "--yuan": ["元", "圆"], "--closing": ["整", "正"]}
_READER: _Options = {"--signed": _FLAG, "--typed": _FLAG, "--bracketed-sign": _FLAG}
_TABLE: _Options = {
    "--column": _Matching("(?s).+", "a column's number or name"),
    "--header": _FLAG,
    "--name": _Matching("(?s).+", "a text that is not empty"),
    "--delimiter": _Matching(r'[^"\r\n]', "a character other than a quote or a line end"),
}
# The keywords of a flag whose name is not itself a keyword of the call.
_MEANINGS: Dict[str, Dict[str, Any]] = {
    "--traditional": {"script": "traditional"},
    "--upper": {"case": "upper"},
    "--all": {"upper": True, "greatest": "ji"},
    "--one-character": {"one_character": True},
    "--bracketed-sign": {"bracketed_sign": True},
}
# The reasons for refusals that the library does not give, in each language.
_BELOW_ZERO = {
    "en": "An amount below zero needs --signed.",
    "zh-Hans": "负数金额要加选项 --signed。",
    "zh-Hant": "負數金額要加選項 --signed。",
}
_NO_DATE = {
    "en": "Character {place}, “{there}”, is not allowed here. Write it like this: 2026-01-15.",
    "zh-Hans": "第{place}个字“{there}”不能写在这里。写法如：2026-01-15。",
    "zh-Hant": "第{place}個字「{there}」不能寫在這裡。寫法如：2026-01-15。",
}
_NO_DAY = {
    "en": "Month {month} of {year} has no day {day}.",
    "zh-Hans": "{year}年{month}月没有{day}日。",
    "zh-Hant": "{year}年{month}月沒有{day}日。",
}
USAGE = """\
usage: chinese-number amount [--traditional] [--currency] [--yuan 圆] [--closing 正] [--typed]
                             [--signed [--bracketed-sign]] [--language en] WORD...
       chinese-number amount ... --column N [--header [--name TEXT]] [--delimiter ,]
       chinese-number amount ... --column NAME [--name TEXT] [--delimiter ,]
       chinese-number date [--traditional] [--language en] WORD...
       chinese-number read [--kind i128] [--way any] [--language en] WORD...
       chinese-number print [--traditional] [--upper] [--kind i128] [--way any] [--language en]
                            NUMBER...
       chinese-number find [--all] [--method any]
       chinese-number find --numbers [--all] [--kind u128] [--way any]
       chinese-number replace [--phrases] [--all] [--method any] [--about] [--one-character]
                              [--doubtful] [--expanded] [--canonical] [--compact] [--codes]
                              [WORD...]
       chinese-number speak [--traditional] [--method any] [--yao] [WORD...]
       chinese-number lines
       chinese-number --help | --version

amount   converts yuan to capitals, 1409.50 to 壹仟肆佰零玖元伍角整, and capitals to yuan
   --currency       writes the prefix 人民币
   --yuan 圆        writes 圆 instead of 元
   --closing 正     writes 正 instead of 整
   --signed         also converts amounts below zero, -15 to 负壹拾伍元整; otherwise they are refused
   --bracketed-sign writes （负数）壹拾伍元整 instead of 负壹拾伍元整
   --typed          also reads amounts as typed, such as ⊗ 人民币：壹拾 伍元整
   --column N       reads a CSV table in UTF-8 from standard input, and appends a cell to each row:
                    the result for its Nth cell, or an empty cell if that is refused. Refused rows
                    go to standard error, with the row's number, which counts the header and blank
                    lines, and the reason
   --column NAME    converts the column that has this name in the header. A number from 1 to
                    999999999 is always N, even if a column has it as its name
   --header         says that the first row is a header
   --name TEXT      is the name of the new column; by default it is the column's name and _converted
   --delimiter ,    is the character between cells; $'\\t' is a tab
date     converts dates to capitals, 2026-01-15 to 贰零贰陆年零壹月壹拾伍日, and capitals to dates. Dates
         in figures can also be written 2026-1-15, 2026/1/15 or 2026年1月15日
read     reads numerals, 一百二 as 120
print    writes whole numbers as numerals, -120 as 负一百二十
   --upper          writes 壹佰贰拾 instead of 一百二十
find     writes LINE:CHARACTER TEXT NUMBER for each quantity in standard input, such as 3.5万, -5,
         12.5% and 三分之一, or err and the reason if it is refused. LINE and CHARACTER count from 1.
         NUMBER is exact, such as 125/1000
   --numbers        finds whole numbers instead: 3 and 5万 in 3.5万
replace  writes the arguments, or standard input, with their numerals in figures, 市值三点五亿元 as
         市值3.5亿元
   --phrases        includes dates, times, durations, ranges, scores, lengths and sums of money:
                    一月五日下午三点半，三块五 becomes 1月5日下午3点半，3块5
   --about          includes approximate numbers, as in 三百多
   --one-character  includes numbers of one Chinese character, as in 一般
   --doubtful       includes numbers that may mean something else, as 五一
   --expanded       writes out 万, 亿 and so on: 三点五亿 becomes 350000000
   --canonical      removes commas and leading zeros from figures: 1,280 becomes 1280
   --compact        writes dates, times and halves as short as possible, 2026-01-05, 15:30 and 1.5小时;
                    --phrases is not needed then
   --codes          also writes codes, such as telephone numbers: 打幺幺零 becomes 打110; --phrases is
                    not needed then
speak    writes the arguments, or standard input, as they are spoken: 15:30到，共2.5kg as
         十五点三十分到，共二点五千克
   --yao            says 幺 for 1 in codes, such as telephone numbers
lines    answers each line of standard input: read u64 ten_thousand 一百二 with ok 120,
         print u128 naive traditional lower 123 with ok 一二三, and what is no question with bad line

Options of several commands:
   --traditional    writes traditional characters
   --all            also finds cheque characters and units above 兆
   --kind i128      is the integer type that a number must fit: u8, u16, u32, u64, u128, i8, i16,
                    i32, i64 or i128
   --way any        is how a number is written: digits, as 一二三; with units, as 一百二十三, by the scale
                    low, ten_thousand, middle or high, which differ in the units above 万; or any,
                    which reads digits and ten_thousand
   --method any     is any way except digits
   --language en    is the language of the reasons for refusals: en, zh-Hans or zh-Hant
Arguments after -- are not options.

A refusal names the word, line or row and says why; its position counts characters from 1. The exit
status is 0 if everything was converted, 1 if something was refused or could not be read or written,
and 2 if the command line is not valid or the table has no such column. Refusals that find writes do
not change its status."""


def _not_one_of(name: str, choices: Iterable[str], given: str) -> Misuse:
    wanted = re.sub(", ([^,]*)$", r" or \1", ", ".join(choices))
    return Misuse(f"{name} must be {wanted}" + (f", not {given}" if given else ""))


# The first characters of a word that is treated as figures, also if it is refused. A minus is one
# only with --signed: otherwise the reader of capitals refuses it.
_SIGNED_FIGURES = {*map(chr, range(128)), *"−¥￥０１２３４５６７８９"} - {"("}
_FIGURES = _SIGNED_FIGURES - {*"-−"}
# A date in figures, and a prefix of one.
_NUMBER = "(?:[0-9]{1,2})"
_DATE = re.compile("[0-9]{4}(?:-D-D|/D/D|年D月D日)".replace("D", _NUMBER))
_PREFIX_OF_DATE = re.compile(
    "[0-9]{4}(?:-(?:D(?:-D?)?)?|/(?:D(?:/D?)?)?|年(?:D(?:月(?:D日?)?)?)?)?|[0-9]{0,3}".replace(
        "D", _NUMBER
    )
)
_COLUMN_NUMBER = re.compile("[1-9][0-9]{0,8}")
# The call that reads capitals, for --signed and --typed.
_READERS: Dict[Tuple[bool, bool], Callable[[str], int]] = {
    (False, False): chinese_to_amount,
    (True, False): chinese_to_signed_amount,
    (False, True): chinese_to_amount_as_typed,
    (True, True): chinese_to_signed_amount_as_typed,
}


def _figures(fen: int) -> str:
    yuan, places = divmod(abs(fen), 100)
    return f"{'-' if fen < 0 else ''}{yuan}.{places:02}"


def _amounts(*, signed: bool = False, typed: bool = False, **form: Any) -> Callable[[str], str]:
    """The call that converts amounts, in capitals to figures and in figures to capitals."""
    read, write = _READERS[signed, typed], partial(signed_amount_to_chinese, **form)
    figures = _SIGNED_FIGURES if signed else _FIGURES

    def convert(word: str) -> str:
        try:
            if word.lstrip()[:1] not in figures:
                return _figures(read(word))
            return write(yuan_to_fen(word))
        except AmountError:
            if signed or not _is_signed(word, typed):
                raise
            raise Refused(_BELOW_ZERO) from None

    return convert


def _is_signed(word: str, typed: bool) -> bool:
    """Whether --signed converts a word."""
    try:
        _amounts(signed=True, typed=typed)(word)
    except AmountError:
        return False
    return True


def _amount(word: str, **options: Any) -> str:
    return _amounts(**options)(word)


def _table(options: Dict[str, Any]) -> int:
    """Converts the amounts in a column of standard input."""
    column, name = options.pop("column"), options.pop("name", None)
    is_number = _COLUMN_NUMBER.fullmatch(column)
    has_header = options.pop("header", False) or not is_number
    if name is not None and not has_header:
        raise Misuse("--name needs --header, or --column with a name")
    delimiter = options.pop("delimiter", ",")
    language = options.pop("language", Language.ENGLISH)
    table = Table(int(column) if is_number else column, has_header, delimiter, name, language)
    return write_table(table, _amounts(**options))


def _date(word: str, **options: Any) -> str:
    """Converts a date in capitals to figures, or figures to capitals."""
    if word and not word[0].isascii():
        return chinese_to_date(word).isoformat()
    if not _DATE.fullmatch(word):
        rest = _PREFIX_OF_DATE.sub("", word, count=1)
        if rest:
            raise Refused(_NO_DATE, place=len(word) - len(rest) + 1, there=shown(rest[0]))
        raise DateError(Status.UNFINISHED)
    year, month, day = map(int, re.findall("[0-9]+", word))
    try:
        return date_to_chinese(date(year, month, day), **options)
    except ValueError:
        if year and 0 < month < 13:
            raise Refused(_NO_DAY, year=year, month=month, day=day) from None
    raise DateError(Status.NOT_A_DATE)


def _number(word: str) -> int:
    if not re.fullmatch("-?[0-9]+", word):
        raise _not_one_of("a number", ["digits with an optional leading -"], word)
    digits = word.lstrip("-").lstrip("0")
    # No kind has numbers of 40 digits, and Python does not convert more than 4,300 digits.
    magnitude = int(digits[:40] or "0")
    return -magnitude if word.startswith("-") else magnitude


def _number_of(found: Found, **options: Any) -> str:
    chosen: _Options = {"kind": Kind.U128, **options}
    return str(found.number(**chosen))


def _quantity_of(found: FoundQuantity, **options: Any) -> str:
    quantity = found.quantity(**options)
    below = "" if quantity.denominator == 1 else f"/{quantity.denominator}"
    return f"{quantity.numerator}{below}"


def _answers(line: bytes, find: Callable[[str], Any], answer: Callable[..., str]) -> Iterator[str]:
    """The column, the text and the result of each run that is found in a line."""
    try:
        text = line.decode()
    except UnicodeDecodeError:
        yield "1 bad line"
        return
    for found in find(text):
        try:
            answered = answer(found)
        except NumeralError as error:
            answered = f"err {error}"
        yield f"{found.start + 1} {found.text} {answered}"


def _find(options: Dict[str, Any]) -> int:
    search: Callable[..., Any] = find_quantities
    answer: Callable[..., str] = _quantity_of
    if options.pop("numbers", False):
        search, answer = find_numbers, _number_of
    wanted = {it: options.pop(it) for it in ("upper", "greatest") if it in options}
    find, answered_by = partial(search, **wanted), partial(answer, **options)
    with open(0, "rb", closefd=False) as lines:
        for count, line in enumerate(lines, 1):
            for answered in _answers(line, find, answered_by):
                print(f"{count}:{answered}")
    return 0


def _in_figures(
    text: str,
    *,
    phrases: bool = False,
    compact: bool = False,
    codes: bool = False,
    **options: Any,
) -> str:
    if phrases or compact or codes:
        return text_to_figures(text, compact=compact, codes=codes, **options)
    return quantities_to_figures(text, **options)


def _each_line(anew: Callable[..., str], options: Dict[str, Any]) -> int:
    """Rewrites standard input line by line. A line that is not UTF-8 stays, and is reported."""
    status = 0
    output = sys.stdout.buffer
    with open(0, "rb", closefd=False) as lines:
        for count, line in enumerate(lines, 1):
            try:
                line = anew(line.decode(), **options).encode()
            except UnicodeDecodeError:
                text = shown(line.decode(errors="replace").rstrip("\r\n"))
                print(f"line {count}: {text}: the line is not UTF-8", file=sys.stderr)
                status = 1
            output.write(line)
            output.flush()
    return status


def _lines(options: Dict[str, Any]) -> int:
    """Answers the lines of standard input, as the program `numeral` does."""
    with open(0, "rb", closefd=False) as lines:
        for line in lines:
            status, answer = _library.answer_line(line[:-1] if line.endswith(b"\n") else line)
            if status:
                raise OverflowError("the line is too long")
            print(answer)
    return 0


# For each command: the function that converts an argument, how it parses the argument, its options.
_COMMANDS: Dict[str, Tuple[Callable[..., Any], Callable[[str], Any], _Options]] = {
    "amount": (_amount, str, {**_TRADITIONAL, **_FORM, **_READER, **_TABLE, **_LANGUAGE}),
    "date": (_date, str, {**_TRADITIONAL, **_LANGUAGE}),
    "read": (to_number, str, {**_KIND, **_WAY, **_LANGUAGE}),
    "print": (
        to_chinese,
        _number,
        {**_TRADITIONAL, "--upper": _FLAG, **_KIND, **_WAY, **_LANGUAGE},
    ),
    "find": (_find, str, {"--numbers": _FLAG, "--all": _FLAG, **_KIND, **_WAY, **_METHOD}),
    "replace": (_in_figures, str, {"--all": _FLAG, **_METHOD, **_REPLACED}),
    "speak": (text_to_speech, str, {**_TRADITIONAL, **_METHOD, "--yao": _FLAG}),
    "lines": (_lines, str, {}),
}


def _parted(words: List[str], known: _Options) -> Tuple[List[str], Dict[str, Any]]:
    """The words that are not options, and the keywords of the options."""
    others: List[str] = []
    options: Dict[str, Any] = {}
    rest = iter(words)
    for word in rest:
        if word == "--":
            others += rest
        elif not re.match("-[^0-9.¥￥０-９]", word):
            others.append(word)
        else:
            name, equals, value = word.partition("=")
            if name not in known:
                raise Misuse(f"this command has no option {name}")
            allowed = known[name]
            chosen = value if equals else None if allowed is _FLAG else next(rest, "")
            if allowed is _FLAG and equals:
                raise Misuse(f"{name} does not take a value")
            if chosen not in allowed:
                raise _not_one_of(name, allowed, chosen or "")
            options.update(_MEANINGS.get(name, {name[2:]: allowed is _FLAG or chosen}))
    return others, options


def _refuse_misfits(first: str, options: Dict[str, Any]) -> None:
    """Refuses options that do not fit together, or need another one."""
    given = options.keys()
    if "bracketed_sign" in given and "signed" not in given:
        raise Misuse("--bracketed-sign needs --signed")
    if "column" not in given and given & {"header", "name", "delimiter"}:
        raise Misuse("--header, --name and --delimiter need --column")
    if given >= {"numbers", "method"}:
        raise Misuse("--numbers and --method cannot be used together")
    if first == "find" and "numbers" not in given and given & {"kind", "way"}:
        raise Misuse("--kind and --way need --numbers")


def _answered(
    call: Callable[..., object], of_word: Callable[[str], Any], words: List[str], options: _Options
) -> int:
    """Prints the result of each word on a line of its own, and returns the status. The words are
    first converted to arguments."""
    status, language = 0, options.pop("language", Language.ENGLISH)
    for word, argument in zip(words, [*map(of_word, words)]):
        try:
            print(call(argument, **options))
        except (NumeralError, AmountError, DateError, Refused) as error:
            print(f"{shown(word)}: {error.message_in(language)}", file=sys.stderr)
            status = 1
    return status


def _of_input(
    first: str, others: List[str], options: Dict[str, Any]
) -> Optional[Callable[[Dict[str, Any]], int]]:
    """The function that converts standard input, if the command reads it."""
    if first in ("replace", "speak"):
        return None if others else partial(_each_line, _COMMANDS[first][0])
    if first == "lines":
        return _lines
    return _find if first == "find" else _table if "column" in options else None


def _run(words: List[str]) -> int:
    """Runs the command line, and returns the status."""
    first = words[0] if words else ""
    if first in ("--help", "--version"):
        print(USAGE if first == "--help" else f"chinese-number {__version__}")
        return 0
    if first not in _COMMANDS:
        raise _not_one_of("the command", _COMMANDS, first)
    call, of_word, known = _COMMANDS[first]
    others, options = _parted(words[1:], {"--help": _FLAG, **known})
    if "help" in options:
        return _run(["--help"])
    of_input = _of_input(first, others, options)
    if bool(of_input) == bool(others):
        raise Misuse(
            "standard input is read, so no argument is expected"
            if others
            else "an argument is expected"
        )
    _refuse_misfits(first, options)
    return of_input(options) if of_input else _answered(call, of_word, others, options)


def _stream(number: int) -> TextIO:
    return open(
        number, "w", buffering=1, encoding="utf-8", errors="replace", newline="\n", closefd=False
    )


def main() -> int:
    """Runs the command, and returns the status."""
    try:
        sys.stderr, sys.stdout = _stream(2), _stream(1)
        return _run([os.fsencode(it).decode(errors="replace") for it in sys.argv[1:]])
    except Misuse as error:
        print(f"chinese-number: {error} (see --help)", file=sys.stderr)
        return 2
    except KeyboardInterrupt:
        return 130
    except OSError as error:
        # The rest of the output is discarded; otherwise Python would try to write it again at exit.
        os.dup2(os.open(os.devnull, os.O_WRONLY), 1)
        if not isinstance(error, BrokenPipeError):
            print(f"chinese-number: {error.strerror}", file=sys.stderr)
        return 1


if __name__ == "__main__":
    sys.exit(main())
