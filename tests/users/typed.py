"""Calls that mypy --strict must reject. Where it accepts one, it reports an unused comment."""
from array import array
from datetime import date, datetime
from typing import List, Optional, Union

from chinese_number import AmountError, ArrowColumn, Fault, FoundQuantity, Input, Kind, Language
from chinese_number import NumeralError, Phrase, PhraseKind, Quantity, Script, Status, Unit, Way
from chinese_number import amount_to_chinese, amount_to_chinese_column, date_to_chinese
from chinese_number import date_to_chinese_column, explain_number, find_numbers
from chinese_number import find_phrases, find_quantities, input_expected, input_message
from chinese_number import input_repair, quantities_to_figures, quantity_message
from chinese_number import replace_quantities, signed_amount_to_chinese, status_message
from chinese_number import text_to_figures, to_chinese, to_chinese_column, to_number
from chinese_number import to_number_column, to_quantity


def of_words(word: str, day: Union[date, datetime]) -> None:
    to_number("一", kind=word)  # type: ignore[arg-type]
    to_number("一", kind=Kind(word))
    to_number("一", kind="u7")  # type: ignore[arg-type]
    to_number("一", kind=Way.LOW)  # type: ignore[arg-type]
    to_number("一", way="anyy")  # type: ignore[arg-type]
    to_number("一", way=Kind.U8)  # type: ignore[arg-type]
    to_chinese(1, kind="U8")  # type: ignore[arg-type]
    to_chinese(1, way="naive")  # type: ignore[arg-type]
    to_chinese(1, script="simple")  # type: ignore[arg-type]
    to_chinese(1, case="uper")  # type: ignore[arg-type]
    to_chinese(1, case=Script.SIMPLIFIED)  # type: ignore[arg-type]
    amount_to_chinese(1, script=word)  # type: ignore[arg-type]
    amount_to_chinese(1, currency="yes")  # type: ignore[arg-type]
    amount_to_chinese(1, yuan="块")  # type: ignore[arg-type]
    amount_to_chinese(1, closing="")  # type: ignore[arg-type]
    signed_amount_to_chinese(1, yuan="圓")  # type: ignore[arg-type]
    signed_amount_to_chinese(1, closing=word)  # type: ignore[arg-type]
    date_to_chinese(date(2026, 1, 15), script="Simplified")  # type: ignore[arg-type]
    date_to_chinese(datetime.now())  # type: ignore[arg-type]
    date_to_chinese(datetime.now().date())
    date_to_chinese(day)  # type: ignore[arg-type]
    date_to_chinese("2026-01-15")  # type: ignore[arg-type]


def of_columns(rows: List[Optional[int]], lent: ArrowColumn) -> None:
    to_chinese_column(rows, kind="u8", errors="none", arrow=True, threads=4)
    to_chinese_column(array("q", [1]), errors="ignore")  # type: ignore[arg-type]
    to_chinese_column(["一"])  # type: ignore[list-item]
    amount_to_chinese_column([1, None, 1.5])  # type: ignore[list-item]
    amount_to_chinese_column(5)  # type: ignore[arg-type]
    to_number_column(lent)
    to_number_column(rows)  # type: ignore[arg-type]
    to_number_column(["一"], kind="u7")  # type: ignore[arg-type]
    date_to_chinese_column([date(2026, 1, 15), None])
    date_to_chinese_column([datetime.now()])  # type: ignore[list-item]


def of_texts(found: FoundQuantity, way: Way) -> None:
    next(find_numbers("一", greatest="ZHAO")).value(kind=Kind.U8)  # type: ignore[arg-type]
    next(find_numbers("一", greatest=Unit.YI)).number(way="tens")  # type: ignore[arg-type]
    next(find_numbers("一", greatest="yi")).value(kind="int")  # type: ignore[arg-type]
    next(find_quantities("一", greatest=1))  # type: ignore[arg-type]
    Quantity(1, 2, "half")  # type: ignore[arg-type]
    Quantity(1, 2, "fraction").to_chinese(method="digits")  # type: ignore[arg-type]
    to_quantity("一", method=Way.DIGITS)  # type: ignore[arg-type]
    to_quantity("一", method=way)  # type: ignore[arg-type]
    if way is not Way.DIGITS:
        to_quantity("一", method=way)
    found.quantity(method="tens")  # type: ignore[arg-type]
    found.value(method="digits")  # type: ignore[arg-type]
    FoundQuantity(0, 1, "一", True, True, False, True, "none")  # type: ignore[arg-type]
    quantities_to_figures("一", method="digits")  # type: ignore[arg-type]
    quantities_to_figures("一", greatest="wan", canonical=1)  # type: ignore[arg-type]
    replace_quantities("一", lambda it: it.text, greatest="Wan")  # type: ignore[arg-type]
    replace_quantities("一", lambda it: 1)  # type: ignore[arg-type, return-value]


def of_phrases(found: Phrase) -> None:
    next(find_phrases("一", greatest="ZHAO"))  # type: ignore[arg-type]
    next(find_phrases("一")).value  # a value, or the method of an expression
    next(find_phrases("一")).kind  # type: ignore[union-attr]
    text_to_figures("一", method="digits")  # type: ignore[arg-type]
    text_to_figures("一", greatest="wan", doubtful="yes")  # type: ignore[arg-type]
    found.value.year  # type: ignore[union-attr]
    if isinstance(found.value, date):
        date_to_chinese(found.value)
    Phrase(0, 1, "一", "date", found.state, None)  # type: ignore[arg-type]
    Phrase(0, 1, "一", PhraseKind.DATE, found.state, None)


def of_refusals(word: str, amount: AmountError, number: NumeralError) -> Optional[Fault]:
    signed_amount_to_chinese(1, bracketed_sign="yes")  # type: ignore[arg-type]
    amount_to_chinese(1, bracketed_sign=True)  # type: ignore[call-arg]
    input_expected("壹", word)  # type: ignore[arg-type]
    input_expected("壹", Input(word)).characters.index("佰")
    input_repair("壹", "yuan")  # type: ignore[arg-type]
    input_repair("壹", "amount").character  # type: ignore[union-attr]
    input_message("壹", "date", language="zh")  # type: ignore[arg-type]
    input_message("壹", "date", language=Language.TRADITIONAL_CHINESE)
    quantity_message("一", method="digits")  # type: ignore[arg-type]
    status_message(11)  # type: ignore[arg-type]
    status_message(Status.NOT_A_DATE, language="en").upper()
    amount.message_in("zh-Hans").upper()
    amount.message_in("zh_Hans")  # type: ignore[arg-type]
    amount.expected.may_end  # type: ignore[union-attr]
    amount.fault  # type: ignore[attr-defined]
    number.repair  # type: ignore[attr-defined]
    explain_number("一", way="naive")  # type: ignore[arg-type]
    return number.fault
