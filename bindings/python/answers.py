"""Answers the questions of test.py, which says what they are, a line each."""
import re
import sys
from datetime import date, time, timedelta

from chinese_number import Phrase, PhraseKind, Quantity, QuantityForm, amount_to_chinese
from chinese_number import chinese_to_amount, chinese_to_amount_as_typed, chinese_to_date
from chinese_number import chinese_to_signed_amount, chinese_to_signed_amount_as_typed
from chinese_number import date_to_chinese, explain_number, explain_quantity, find_numbers
from chinese_number import find_phrases, find_quantities, input_expected, input_message
from chinese_number import input_repair, number_message, quantities_to_figures, quantity_message
from chinese_number import find_unspoken, replace_quantities, signed_amount_to_chinese
from chinese_number import text_to_figures, text_to_speech, to_chinese, to_number, to_quantity
from chinese_number import yuan_to_fen

# Words of the questions for which this package has other words.
OTHERS = {"naive": "digits", "simple": "simplified"}
FORMS = {
    "plain": {},
    "currency": {"currency": True},
    "round_yuan": {"yuan": "圆"},
    "upright_closing": {"closing": "正"},
    "bracketed_sign": {"bracketed_sign": True},
}
# The flags of a result, with their names in questions and in this package.
FLAGS = {
    "plain": "is_plain",
    "alone": "stands_alone",
    "about": "is_about",
    "one": "is_one_character",
}
# What may be before the hour of a time and has a number in it.
WEEKDAY = re.compile("^(周|週|星期|[礼禮]拜).")
OPTIONS = {
    "none": {},
    "about": {"about": True},
    "one": {"one_character": True},
    "doubtful": {"doubtful": True},
    "expanded": {"expanded": True},
    "canonical": {"canonical": True},
    "compact": {"compact": True},
    "codes": {"codes": True},
}


def told(call, *words):
    try:
        return f"ok {call(*words)}"
    except ValueError as error:
        return f"err {error}"


def read(kind, way, text):
    return to_number(text, kind=kind, way=OTHERS.get(way, way))


def write(kind, way, script, case, number):
    words = {"way": OTHERS.get(way, way), "script": OTHERS.get(script, script)}
    return to_chinese(int(number), kind=kind, case=case, **words)


def write_amount(script, fen):
    return write_amount_as(script, "plain", fen)


def write_amount_as(script, form, fen, write=amount_to_chinese):
    words = {"script": OTHERS.get(script, script)}
    for word in form.split("+"):
        words.update(FORMS[word])
    return write(int(fen), **words)


def write_signed_amount(script, fen):
    return write_signed_amount_as(script, "plain", fen)


def write_signed_amount_as(script, form, fen):
    return write_amount_as(script, form, fen, signed_amount_to_chinese)


def write_date(script, day):
    return date_to_chinese(date.fromisoformat(day), script=OTHERS.get(script, script))


def over(quantity):
    return f"{quantity.numerator}/{quantity.denominator}"


def shown(quantity):
    return f"{over(quantity)} {quantity.form.value}"


def quantity_of(words):
    numbers, form = words.split(" ")
    return Quantity(*map(int, numbers.split("/")), form)


def read_quantity(method, text):
    return shown(to_quantity(text, method=method))


def write_quantity(method, script, case, words):
    script = OTHERS.get(script, script)
    return quantity_of(words).to_chinese(method=method, script=script, case=case)


def options(words):
    return {name: it for word in words.split("+") for name, it in OPTIONS[word].items()}


def replace_with_figures(words, text):
    return quantities_to_figures(text, **options(words))


def write_in_figures(words, text):
    return text_to_figures(text, **options(words))


def speak(script, text):
    return text_to_speech(text, script=OTHERS.get(script, script))


def in_numerals(found):
    quantity = found.quantity()
    return None if quantity.form is QuantityForm.FRACTION else quantity.to_chinese()


def replace_with_numerals(words, text):
    return replace_quantities(text, in_numerals, **options(words))


def flags(found):
    return " ".join(word for word, name in FLAGS.items() if getattr(found, name))


def in_place(text, all_found, tell):
    """The text with each run replaced by its description, in brackets."""
    done, at = "", 0
    for found in all_found:
        done += f"{text[at:found.start]}[{tell(found)}]"
        at = found.end
    return done + text[at:]


def find(text):
    return in_place(text, find_numbers(text), lambda found: told(found.number))


def find_flags(text):
    return in_place(text, find_numbers(text), flags)


def find_expressions(text):
    answer = lambda found: told(lambda: shown(found.quantity()))
    return in_place(text, find_quantities(text), answer)


def find_doubts(text):
    answer = lambda found: found.doubt.value if found.doubt else "none"
    return in_place(text, find_quantities(text), answer)


def unspoken(text):
    return in_place(text, find_unspoken(text), lambda found: found.text)


def pair_of(phrase):
    return "..".join(map(str, phrase.value))


def decimal_of(phrase):
    return over(Quantity.of(phrase.value))


def day_of(phrase):
    parts = phrase.value.year, phrase.value.month, phrase.value.day
    return "-".join("?" if part is None else str(part) for part in parts)


def time_of(phrase):
    """The time with its hour as it is written, which a datetime.time does not have."""
    it = phrase.value
    of_day = it.hour if isinstance(it, time) else it.hour_of_day
    hour = next(find_numbers(WEEKDAY.sub("", phrase.text))).number()
    return f"{hour}:{it.minute}:{it.second} ={'?' if of_day is None else of_day}"


def duration_of(phrase):
    minutes, seconds = divmod(phrase.value // timedelta(seconds=1), 60)
    return f"{minutes // 60}:{minutes % 60}:{seconds}"


VALUES = {
    PhraseKind.DATE: day_of,
    PhraseKind.YEARS: pair_of,
    PhraseKind.MONTHS: pair_of,
    PhraseKind.DAYS: pair_of,
    PhraseKind.TIME: time_of,
    PhraseKind.DURATION: duration_of,
    PhraseKind.HALF: decimal_of,
    PhraseKind.LENGTH: decimal_of,
    PhraseKind.MONEY: decimal_of,
    PhraseKind.SCORE: lambda phrase: ":".join(map(str, phrase.value)),
    PhraseKind.RANGE: lambda phrase: "..".join(map(over, phrase.value)),
}


def phrases(text):
    """The phrases of a text, with a tab between them."""
    found = [it for it in find_phrases(text) if isinstance(it, Phrase)]
    values = ["-" if it.value is None else VALUES[it.kind](it) for it in found]
    words = [(it.kind.value, it.state.value, it.text, value) for it, value in zip(found, values)]
    return "\t".join(map(" ".join, words))


def expected(of, text):
    it = input_expected(text, of)
    words = str(it.char_index), "end" if it.may_end else "-", "space" if it.white_space else "-"
    return " ".join([*words, *filter(None, [it.characters])])


def repair(of, text):
    it = input_repair(text, of)
    return f"{it.change.value} {it.char_index} {it.character or ''}".rstrip() if it else "none"


def explain(kind, way, text):
    fault = explain_number(text, kind=kind, way=OTHERS.get(way, way))
    return fault.value if fault else "none"


def explain_refused_quantity(method, text):
    fault = explain_quantity(text, method=method)
    return fault.value if fault else "none"


def message_of_number(language, kind, way, text):
    return number_message(text, kind=kind, way=OTHERS.get(way, way), language=language)


CALLS = {
    "read": read,
    "print": write,
    "read_amount": chinese_to_amount,
    "print_amount": write_amount,
    "print_amount_as": write_amount_as,
    "read_signed_amount": chinese_to_signed_amount,
    "print_signed_amount": write_signed_amount,
    "print_signed_amount_as": write_signed_amount_as,
    "read_typed_amount": chinese_to_amount_as_typed,
    "read_typed_signed_amount": chinese_to_signed_amount_as_typed,
    "yuan_to_fen": yuan_to_fen,
    "read_date": chinese_to_date,
    "print_date": write_date,
    "find": find,
    "flags": find_flags,
    "read_quantity": read_quantity,
    "find_quantities": find_expressions,
    "doubts": find_doubts,
    "print_quantity": write_quantity,
    "quantity_figures": lambda words: quantity_of(words).to_figures(),
    "trim_quantity": lambda words: shown(quantity_of(words).trimmed()),
    "quantities_to_figures": replace_with_figures,
    "replace_quantities": replace_with_numerals,
    "text_to_figures": write_in_figures,
    "text_to_speech": speak,
    "find_unspoken": unspoken,
    "phrases": phrases,
    "expected": expected,
    "repair": repair,
    "explain": explain,
    "explain_quantity": explain_refused_quantity,
    "input_message": lambda language, of, text: input_message(text, of, language=language),
    "number_message": message_of_number,
    "quantity_message": lambda language, method, text: quantity_message(
        text, method=method, language=language
    ),
}

for line in sys.stdin:
    name, *words = line.rstrip("\n").split("\t")
    print(told(CALLS[name], *words))
