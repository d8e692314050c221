"""Compares the library with the models of numerals, quantities, amounts, dates and their refusals.

Usage: python3 tests/models/compare_numbers.py COUNT [--seed SEED]

It needs the Python module, as `pip install ./bindings/python` installs it, or PYTHONPATH with the
folder bindings/python and CHINESE_NUMBER_LIB with the folder of the library. A text is made of
characters of the tables, or it is what a model writes, with up to three edits: a character is left
out, doubled, exchanged with the next one, replaced or inserted. Each difference is printed, with the
text made as short as it can be while it still differs.
"""

import argparse
import random
import sys
from datetime import date
from typing import Any, Callable, Dict, Iterator, List, NamedTuple, Tuple

import amounts
import dates
import forms
import numerals
import quantities
import refusals
import repairs
import text as of_texts

WAYS = ("digits", "low", "ten_thousand", "middle", "high", "any")
SCRIPTS, CASES = ("traditional", "simplified"), ("upper", "lower")
QUANTITY_FORMS = ("whole", "decimal", "percent", "fraction")
UNITS = "ge shi bai qian wan yi zhao jing gai zi rang gou jian zheng zai ji".split()

SPACES, OTHERS = " \t\u3000\u200b", "x。元·"
NUMERALS = "".join(numerals.DIGITS) + "".join(numerals.RANKS) * 2 + "".join(numerals.SIGNS)
EVERYDAY = "零一二三四五六七八九十百千万亿两個"
IN_QUANTITIES = "点點.．,，%％‰廿卅+-−－＋¥￥下又个"
IN_FIGURES = "0123456789" * 2 + "０５９" + "万亿千百零个.,"
CAPITALS = "零壹贰貳叁參叄肆伍陆陸柒捌玖拾佰仟万萬亿億元圆圓角分整正人民币幣年月日"
TYPED = "负負⊗ⓧ（）()大写寫数數：:"
LOOKALIKES = "一二〇○百千弍参叄块圓毛号两付"
FIGURES = "0123456789" * 2 + ",.-−－¥￥０５，．"
# The pieces of which texts are made, and those that an edit may insert.
POOLS: Dict[str, List[str]] = {
    "numerals": list(NUMERALS + SPACES + OTHERS),
    "everyday": list(EVERYDAY),
    "quantities": [*(NUMERALS + IN_QUANTITIES * 3 + SPACES + OTHERS), *["分之"] * 8],
    "figures_with_units": list(IN_FIGURES),
    "ratios": [*(EVERYDAY + "点.%又又" + "012"), *["分之"] * 5],
    "capitals": list(CAPITALS + TYPED + LOOKALIKES + SPACES + OTHERS),
    "figures": list(FIGURES + SPACES + OTHERS),
    "sentences": list(NUMERALS + "几多余来好出头個個兆兆_.,点廿赫字节位的人在，。a"),
}


class Case(NamedTuple):
    """A question: who asks it, the text or the number, and the choices."""

    name: str
    asked: Any
    choices: Tuple


# ---- Answers ---------------------------------------------------------------------------------


def answer_of(call: Callable[..., Any], *words: Any, **choices: Any) -> Tuple:
    """What a call returns, or its refusal, as the models have them."""
    try:
        return ("ok", call(*words, **choices))
    except ValueError as error:
        its = error.status.name.lower()
        return (its,) if error.char_index is None else (its, error.char_index)


def value_of(member: Any) -> Any:
    return member and member.value


def read_number(library: Any, string: str, kind: str, way: str) -> Tuple[Any, Any]:
    fault = value_of(library.explain_number(string, kind=kind, way=way))
    left = answer_of(library.to_number, string, kind=kind, way=way), fault
    return left, (numerals.read(string, kind, way), refusals.of_number(string, kind, way))


def write_number(library: Any, number: int, way: str, script: str, case: str) -> Tuple[Any, Any]:
    kind = "u128" if number > numerals.KINDS["i128"][1] else "i128"
    chosen = {"kind": kind, "way": way, "script": script, "case": case}
    left = answer_of(library.to_chinese, number, **chosen)
    return left, numerals.write(number, way, script, case)


def plain(quantity: Any) -> Tuple:
    return quantity.numerator, quantity.denominator, quantity.form.value


def read_quantity(library: Any, string: str, method: str) -> Tuple[Any, Any]:
    answer = answer_of(library.to_quantity, string, method=method)
    answer = ("ok", *plain(answer[1])) if answer[0] == "ok" else answer
    fault = value_of(library.explain_quantity(string, method=method))
    right = quantities.read(string, method), refusals.of_quantity(string, method)
    return (answer, fault), right


def write_quantity(
    library: Any, parts: Tuple, method: str, script: str, case: str
) -> Tuple[Any, Any]:
    quantity = library.Quantity(*parts)
    text = answer_of(quantity.to_chinese, method=method, script=script, case=case)
    right = quantities.write(parts, method, script, case), quantities.figures_of(*parts)
    return (text, quantity.to_figures()), right


def write_amount(library: Any, fen: int, signed: bool, script: str, form: Tuple) -> Tuple[Any, Any]:
    form = amounts.Form(*form)
    chosen = {"currency": form.has_currency, "yuan": form.yuan, "closing": form.closing}
    call = library.signed_amount_to_chinese if signed else library.amount_to_chinese
    if signed:
        chosen["bracketed_sign"] = form.sign != "负"
    least = 1 - amounts.FIRST_NOT_WRITTEN if signed else 0
    return answer_of(call, fen, script=script, **chosen), amounts.write(fen, script, form, least)


def write_date(library: Any, day: date, script: str) -> Tuple[Any, Any]:
    right = dates.write(day.year, day.month, day.day, script)
    return library.date_to_chinese(day, script=script), right


def call_of(library: Any, of: str) -> Callable[[str], Any]:
    calls = {
        "amount": library.chinese_to_amount,
        "signed_amount": library.chinese_to_signed_amount,
        "typed_amount": library.chinese_to_amount_as_typed,
        "typed_signed_amount": library.chinese_to_signed_amount_as_typed,
        "date": library.chinese_to_date,
        "figures": library.yuan_to_fen,
    }
    return calls[of]


def read_by_model(of: str, string: str) -> Tuple:
    if of == "date":
        return dates.read(string)
    if of == "figures":
        return amounts.read_figures(string)
    return amounts.read(repairs.LANGUAGES[of], string)


def read_input(library: Any, string: str, of: str) -> Tuple[Any, Any]:
    """The answer of a reader, what may come next, whether there is a message, and a change that may
    not be proposed."""
    answer = answer_of(call_of(library, of), string)
    if of == "date" and answer[0] == "ok":
        answer = ("ok", answer[1].year, answer[1].month, answer[1].day)
    right = read_by_model(of, string)
    it = library.input_expected(string, of)
    following = it.char_index, it.may_end, it.white_space, frozenset(it.characters)
    language = repairs.LANGUAGES[of]
    has_message = bool(library.input_message(string, of))
    left = answer, following, has_message, wrong_repair(library, string, of)
    return left, (right, forms.expected(language, string), right[0] != "ok", None)


def wrong_repair(library: Any, string: str, of: str) -> Any:
    """What is proposed, or "nothing", if RULES does not allow it."""
    it, language = library.input_repair(string, of), repairs.LANGUAGES[of]
    inserted = repairs.inserted(of, string)
    if it is None:
        return "nothing" if inserted else None
    repair = repairs.Repair(it.change.value, it.char_index, it.character)
    is_allowed = repairs.is_repair(of, string, repair)
    if not language.has_white_space:
        is_allowed = is_allowed and repairs.is_listed(of, string, repair)
    return None if is_allowed and inserted in (None, repair) else repair


def find_numbers(
    library: Any, string: str, upper: bool, greatest: str, method: str
) -> Tuple[Any, Any]:
    """The numbers of a text with their flags, and what a reader answers to each."""
    left = [
        (it.start, it.end, it.is_plain, it.stands_alone, it.is_about, it.is_one_character)
        + (answer_of(it.number, kind="i64", way=method),)
        for it in library.find_numbers(string, upper=upper, greatest=greatest)
    ]
    right = []
    for it in of_texts.find_numbers(string, (UNITS.index(greatest), upper)):
        is_plain = all(map(numerals.is_digit, it.text))
        units = "ten_thousand" if method == "any" else method
        number = numerals.read(it.text, "i64", "digits" if is_plain else units)
        flags = is_plain, it.stands_alone, it.is_about, it.is_one_character
        right.append((it.start, it.end, *flags, number))
    return left, right


ASKED: Dict[str, Callable[..., Tuple[Any, Any]]] = {
    it.__name__: it
    for it in (
        read_number,
        write_number,
        read_quantity,
        write_quantity,
        read_input,
        write_amount,
        write_date,
        find_numbers,
    )
}

# ---- Cases -----------------------------------------------------------------------------------


def some_number(source: random.Random, most: int) -> int:
    """A number up to a power of ten, often a round one or one with many zeros."""
    places = source.randrange(1, most + 1)
    chosen = source.random()
    if chosen < 0.2:
        return int("".join(source.choice("0005") for _ in range(places)))
    if chosen < 0.4:
        return 10 ** (places - 1) * source.randrange(1, 10)
    return source.randrange(10**places)


def some_text(source: random.Random, pool: str) -> str:
    length = source.randrange(40) if source.random() < 0.05 else source.randrange(10)
    return "".join(source.choice(POOLS[pool]) for _ in range(length))


def edited(source: random.Random, text: str, pool: str) -> str:
    characters = list(text)
    for _ in range(source.randrange(4)):
        i = source.randrange(len(characters) + 1)
        edit = source.choice(("leave out", "double", "exchange", "replace", "insert", "cut"))
        if edit == "insert":
            characters.insert(i, source.choice(POOLS[pool]))
        elif edit == "leave out":
            del characters[i : i + 1]
        elif edit == "double":
            characters[i:i] = characters[i : i + 1]
        elif edit == "exchange":
            characters[i : i + 2] = reversed(characters[i : i + 2])
        elif edit == "replace":
            characters[i : i + 1] = [source.choice(POOLS[pool])]
        elif source.random() < 0.3:
            del characters[i:]
    return "".join(characters)


def limit_of(source: random.Random) -> int:
    """A limit of a type, or the number beside it."""
    return source.choice(source.choice(list(numerals.KINDS.values()))) + source.randrange(-1, 2)


def number_text(source: random.Random) -> str:
    if source.random() < 0.5:
        return some_text(source, source.choice(("numerals", "everyday")))
    number = limit_of(source) if source.random() < 0.3 else some_number(source, 38)
    way, script = source.choice(WAYS), source.choice(SCRIPTS)
    answer = numerals.write(number, way, script, source.choice(CASES))
    return edited(source, answer[1] if answer[0] == "ok" else "", "numerals")


def some_quantity(source: random.Random) -> Tuple[int, int, str]:
    denominator = source.choice((1, 100, 10 ** source.randrange(8), 1 + some_number(source, 37)))
    numerator = some_number(source, 37) * source.choice((1, -1))
    return numerator, denominator, source.choice(QUANTITY_FORMS)


def whole_text(source: random.Random) -> str:
    answer = numerals.write(some_number(source, 14), "any", "simplified", "lower")
    return answer[1]


def quantity_text(source: random.Random) -> str:
    chosen = source.random()
    if chosen < 0.5:
        pool = source.choice(("quantities", "everyday", "figures_with_units", "ratios"))
        return some_text(source, pool)
    if chosen < 0.6:
        return edited(source, quantities.figures_of(*some_quantity(source)), "figures_with_units")
    if chosen < 0.7:
        parts = [whole_text(source) for _ in range(3)]
        return edited(source, f"{parts[0]}又{parts[1]}分之{parts[2]}", "ratios")
    method, script = source.choice(WAYS[1:]), source.choice(SCRIPTS)
    answer = quantities.write(some_quantity(source), method, script, source.choice(CASES))
    return edited(source, answer[1] if answer[0] == "ok" else "", "quantities")


def some_day(source: random.Random) -> date:
    return date.fromordinal(source.randrange(1, date.max.toordinal() + 1))


def some_form(source: random.Random) -> Tuple:
    sign = source.choice(("负", "（负数）"))
    return source.random() < 0.3, source.choice("元圆"), source.choice("整正"), sign


def some_fen(source: random.Random) -> int:
    return some_number(source, 18) * source.choice((1, 10, 100, 1000)) * source.choice((1, 1, -1))


def input_text(source: random.Random, of: str) -> str:
    if of == "figures":
        fen = some_number(source, 19)
        shapes = str(fen), f"{fen:,}", f"{fen // 100:,}.{fen % 100:02}", f"-¥{fen}.50"
        return edited(source, source.choice(shapes), "figures")
    if source.random() < 0.1:
        return some_text(source, "capitals")
    script = source.choice(SCRIPTS)
    if of == "date":
        day = some_day(source)
        return edited(source, dates.write(day.year, day.month, day.day, script), "capitals")
    form = amounts.Form(*some_form(source))
    answer = amounts.write(some_fen(source), script, form, -amounts.FIRST_NOT_WRITTEN)
    return edited(source, answer[1] if answer[0] == "ok" else "", "capitals")


def some_case(source: random.Random) -> Case:
    name = source.choice(list(ASKED))
    way, script, case = source.choice(WAYS), source.choice(SCRIPTS), source.choice(CASES)
    method = source.choice(WAYS[1:])
    if name == "read_number":
        return Case(name, number_text(source), (source.choice(list(numerals.KINDS)), way))
    if name == "write_number":
        number = some_number(source, 38) * source.choice((1, -1))
        if source.random() < 0.1:
            number = source.choice(source.choice(list(numerals.KINDS.values())))
        return Case(name, number, (way, script, case))
    if name == "read_quantity":
        return Case(name, quantity_text(source), (method,))
    if name == "write_quantity":
        return Case(name, some_quantity(source), (method, script, case))
    if name == "read_input":
        of = source.choice(list(repairs.LANGUAGES))
        return Case(name, input_text(source, of), (of,))
    if name == "write_amount":
        return Case(name, some_fen(source), (source.random() < 0.5, script, some_form(source)))
    if name == "write_date":
        return Case(name, some_day(source), (script,))
    string = some_text(source, "sentences")
    return Case(name, string, (source.random() < 0.5, source.choice(UNITS), method))


# ---- Differences -----------------------------------------------------------------------------


def answers(library: Any, case: Case) -> Tuple[Any, Any]:
    return ASKED[case.name](library, case.asked, *case.choices)


def differs(library: Any, case: Case) -> bool:
    left, right = answers(library, case)
    return left != right


def shortened(library: Any, case: Case) -> Case:
    """The case with characters left out of its text, as long as it differs."""
    if not isinstance(case.asked, str):
        return case
    for i in range(len(case.asked)):
        less = case._replace(asked=case.asked[:i] + case.asked[i + 1 :])
        if differs(library, less):
            return shortened(library, less)
    return case


def differences(library: Any, count: int, source: random.Random) -> Iterator[str]:
    for _ in range(count):
        case = some_case(source)
        if differs(library, case):
            case = shortened(library, case)
            left, right = answers(library, case)
            yield f"{case.name} {case.asked!r} {case.choices}\n  library {left}\n  model   {right}"


def main() -> None:
    import chinese_number

    parser = argparse.ArgumentParser(description=__doc__.split("\n")[0])
    parser.add_argument("count", type=int)
    parser.add_argument("--seed", type=int, default=1)
    words = parser.parse_args()
    found = 0
    for it in differences(chinese_number, words.count, random.Random(words.seed)):
        found += 1
        print(it, flush=True)
    print(f"{words.count} cases, {found} differences")
    sys.exit(1 if found else 0)


if __name__ == "__main__":
    main()
