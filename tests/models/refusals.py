"""A reference model of why a text is refused: the fault that explain_number and explain_quantity name.

It was written from docs/RULES.md, without a look at the code, like numerals.py and quantities.py. The
faults have the names of bindings/codes.txt; the answer for a text that is read is None.
"""

from typing import Optional

import numerals
import quantities
from numerals import Answer

# By the rules 2 to 6 of numerals; rule 1 is broken by a character that breaks none of these.
OF_NUMERALS = {0: "start", 2: "character", 3: "digits", 4: "units", 5: "ge", 6: "groups"}
OF_MISREAD = {
    1: "bare_ten",
    2: "repeated_ten",
    3: "after_zero",
    4: "weight",
    5: "two_readings",
    6: "left_out_zero",
}


def without_place(answer: Answer) -> Optional[str]:
    """The fault of a refusal that has no place."""
    return None if answer[0] == "ok" else answer[0]


def of_number(string: str, kind: str, way: str) -> Optional[str]:
    """Why a reader of numbers refuses a string."""
    answer = numerals.read(string, kind, way)
    if answer[0] != "incorrect":
        return without_place(answer)
    text = numerals.text_of(string, numerals.SIGNS if numerals.KINDS[kind][0] else {})
    if numerals.way_of(text.characters, way) == "digits":
        return "character"
    return of_numeral(text.characters, text.indices.index(answer[1]))


def of_numeral(text: str, place: int) -> str:
    return OF_NUMERALS[numerals.broken_rule(text, place)]


def of_whole(text: str, place: int) -> str:
    """Why a part is refused that is read as a whole number by itself."""
    first = quantities.first_misread(text)
    if first is None:
        return of_numeral(text, place)
    if place == first:
        return OF_MISREAD[quantities.misread_rules(text, first)[0]]
    if not quantities.is_read_in_two(text, first):
        return of_numeral(text, place)
    if place < first:
        return of_numeral(text[:first], place)
    return of_numeral(text[first:], place - first)


def of_part(text: str, place: int, method: str) -> str:
    decimal = quantities.CHINESE_DECIMAL.fullmatch(text)
    is_decimal = decimal and quantities.read_chinese_decimal(text, method)
    return of_whole(decimal[1] if is_decimal else text, place)


def of_quantity(string: str, method: str) -> Optional[str]:
    """Why a string is not a quantity."""
    method = "ten_thousand" if method == "any" else method
    answer = quantities.read(string, method)
    if answer[0] != "incorrect":
        return without_place(answer)
    text, _ = quantities.unsigned_part(string)
    place = text.indices.index(answer[1])
    fraction = quantities.parts_of_fraction(text.characters, text.sign != "")
    if fraction:
        below, _, start = fraction
        if place >= start:
            return of_part(text.characters[start:], place - start, method)
        is_read = quantities.read_part(below, method)[0] == "ok"
        return "denominator" if is_read else of_part(below, place, method)
    is_share = quantities.read_share(text.characters, method)
    return of_part(text.characters[:-1] if is_share else text.characters, place, method)
