from datetime import date, time
from decimal import Decimal
from typing import List, Optional

from chinese_number import AmountError, ClockTime, DateError, Doubt, Found, FoundQuantity, Kind
from chinese_number import NumeralError, PartialDate, Phrase, PhraseKind, PhraseState, Quantity
from chinese_number import QuantityForm, Script, Status, Unit, Way, __version__, amount_to_chinese
from chinese_number import chinese_to_amount, chinese_to_amount_as_typed, chinese_to_date
from chinese_number import chinese_to_signed_amount, date_to_chinese, find_numbers, find_phrases
from chinese_number import find_quantities, quantities_to_figures, replace_quantities
from chinese_number import signed_amount_to_chinese, text_to_figures, to_chinese, to_number
from chinese_number import to_quantity, yuan_to_fen


def chapter(text: str) -> Optional[int]:
    try:
        return to_number(text, kind=Kind.U16)
    except NumeralError as error:
        place: Optional[int] = error.char_index
        status: Status = error.status
        kind: Kind = error.kind
        print(status.name, kind.name, place)
        return None


def fen(text: str) -> Optional[int]:
    try:
        return chinese_to_amount(text)
    except AmountError as error:
        place: Optional[int] = error.char_index
        status: Status = error.status
        print(status.name, place)
        return None


def day(text: str) -> Optional[date]:
    try:
        return chinese_to_date(text)
    except DateError as error:
        place: Optional[int] = error.char_index
        print(error, place)
        return None


def cheque(yuan: Decimal, day: date) -> List[str]:
    amount = amount_to_chinese(yuan_to_fen(yuan), currency=True, yuan="圆", closing="正")
    return [amount, date_to_chinese(day, script=Script.TRADITIONAL)]


def invoice(yuan: Decimal, typed: str) -> List[int]:
    text = signed_amount_to_chinese(yuan_to_fen(yuan), closing="正", script=Script.SIMPLIFIED)
    return [chinese_to_signed_amount(text), yuan_to_fen(15), chinese_to_amount_as_typed(typed)]


def years(text: str) -> List[str]:
    found: List[Found] = [it for it in find_numbers(text, greatest=Unit.YI) if it.is_plain]
    return [to_chinese(it.number(kind="u32"), way=Way.DIGITS) for it in found]


def percentages(text: str) -> List[Optional[int]]:
    return [it.value(way="any") for it in find_numbers(text, greatest="yi")]


def quantities(text: str) -> List[Optional[Quantity]]:
    found: List[FoundQuantity] = [it for it in find_quantities(text, greatest=Unit.YI)]
    return [it.value(method=Way.LOW) for it in found if it.stands_alone]


def doubts(text: str) -> List[Optional[Doubt]]:
    return [it.doubt for it in find_quantities(text)]


def values(text: str) -> List[object]:
    it: Quantity = to_quantity(text)
    whole: Optional[int] = it.trimmed().to_whole()
    decimal: Decimal = it.to_decimal()
    return [whole, decimal, it.to_fraction(), it == Quantity(it.numerator, it.denominator, it.form)]


def in_numerals(found: FoundQuantity) -> Optional[str]:
    it = found.quantity(method="low")
    return None if it.form is QuantityForm.FRACTION else it.to_chinese(script="traditional")


def phrases(text: str) -> List[Phrase]:
    return [it for it in find_phrases(text, greatest=Unit.YI) if isinstance(it, Phrase)]


def when(text: str) -> List[object]:
    shown: List[object] = []
    for it in phrases(text):
        kind: PhraseKind = it.kind
        state: PhraseState = it.state
        if isinstance(it.value, (date, time)):
            shown.append(it.value.isoformat())
        elif isinstance(it.value, PartialDate):
            shown += [it.value.year, it.value.month, it.value.day]
        elif isinstance(it.value, ClockTime):
            shown += [it.value.hour, it.value.hour_of_day]
        else:
            shown += [kind.name, state.name, it.text]
    return shown


if __name__ == "__main__":
    print(chapter("二十三"), chapter("二十十"), years("二〇二五年十一月"), len(__version__.split(".")))
    print(percentages("百分之五十的人"))
    print(fen("壹佰元整"), fen("壹佰贰元整"), fen("壹佰元"), day("伍年叁月零壹日"), day("伍年拾月"))
    print(cheque(Decimal("12805.00"), date(2026, 1, 15)))
    print(invoice(Decimal("-15.0000"), "⊗壹拾 伍元整"))
    print(quantities("共3.5亿，版本1.2.3"))
    print(values("3.5万"), Quantity.of(Decimal("-0.5")).to_figures(), Quantity.of_percent(5).form)
    print(replace_quantities("占12.5%，剩3分之1", in_numerals, about=True))
    print(quantities_to_figures("共三点五万，十几人", about=True, one_character=True))
    print(when("二零二六年一月五日下午三点半"), when("二月三日三点半，三比二，二月三十日"))
    print(text_to_figures("二零二六年一月五日下午三点半，三到五万元，五到八折", doubtful=True))
    print(doubts("五一，二十"), quantities_to_figures("五一，3.5万", doubtful=True, expanded=True))
