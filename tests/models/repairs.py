"""A reference model of the change that is proposed for a refused amount, date or figures.

It was written from docs/RULES.md, without a look at the code. RULES decides what a repair is, which
changes there are, and when 零 or 壹 is inserted, and not which characters people type for another one.
So a proposed change has to be a repair of the list; that one is proposed is modelled for 零 and 壹.
"""

import re
from typing import Iterator, NamedTuple, Optional

import amounts
import dates
from forms import Language, Start, follow
from numerals import DIGITS

LANGUAGES = {
    "amount": amounts.AMOUNT,
    "signed_amount": amounts.SIGNED_AMOUNT,
    "typed_amount": amounts.TYPED_AMOUNT,
    "typed_signed_amount": amounts.TYPED_SIGNED_AMOUNT,
    "date": dates.DATE,
    "figures": amounts.FIGURES,
}
DIGITS_OF_FORMS = amounts.DIGITS[1:]
OF_AMOUNTS = "零拾佰仟万亿元角分整人民币" + DIGITS_OF_FORMS
# The characters of the forms, of those read alike just one.
CHARACTERS = {
    "amount": OF_AMOUNTS,
    "signed_amount": OF_AMOUNTS + "负負",
    "date": "零拾年月日" + DIGITS_OF_FORMS,
}


class Repair(NamedTuple):
    change: str  # insert, replace or delete
    place: int
    character: Optional[str] = None


def changed(text: str, repair: Repair) -> str:
    after = text[repair.place + (repair.change != "insert") :]
    return text[: repair.place] + (repair.character or "") + after


def is_right(language: Language, text: str) -> bool:
    start = follow(language, text)
    return start.count == len(text) and bool(start.values)


def is_of_forms(of: str, character: str) -> bool:
    """A form has the character; only of amounts and dates that are not as typed."""
    its = LANGUAGES[of].same.get(character, character)
    return its != "" and its in CHARACTERS.get(of, "")


def is_repair(of: str, text: str, repair: Repair) -> bool:
    """After the change, the text begins a form past the wrong character; and past the next one too, if
    there is one that a form has, unless a character is deleted before the wrong one. An unfinished
    text becomes a form."""
    language, new = LANGUAGES[of], changed(text, repair)
    wrong = follow(language, text).count
    if wrong == len(text):
        return is_right(language, new)
    count = follow(language, new).count
    if repair.change == "delete":
        return count > (wrong if repair.place == wrong else wrong - 1) or count == len(new)
    past = wrong + (repair.change == "insert")
    after = new[past + 1 : past + 2]
    return count > past + is_of_forms(of, after)


def is_listed(of: str, text: str, repair: Repair) -> bool:
    """The change is one of the list: where it may be, and of which character."""
    language = LANGUAGES[of]
    start = follow(language, text)
    wrong = text[start.count :][:1]
    before = start.count - repair.place  # how many characters before the wrong one it is
    if repair.change == "replace":
        return before == 0
    if repair.change == "insert":
        return is_inserted(start, wrong, before, repair.character or "")
    gone = language.same.get(text[repair.place], text[repair.place])
    if before == 0:
        return gone in "零〇" or gone not in DIGITS
    return gone in "零整" and (1 <= before <= 2 or (before == 3 and gone == "零"))


def is_inserted(start: Start, wrong: str, before: int, character: str) -> bool:
    if character == "零":
        return 0 <= before <= 2
    if before or not character:
        return False
    is_named = (wrong, character) in (("拾", "壹"), ("整", "元"), ("正", "元"), ("", "整"))
    return is_named or (start.characters == {character} and character not in DIGITS)


def insertions(of: str, text: str) -> Iterator[Repair]:
    """The changes of the rules 2 and 3, which insert 零 or 壹."""
    wrong = follow(LANGUAGES[of], text).count
    for place in (wrong - 1, wrong, wrong - 2):
        is_31st = re.search("月[叁參]拾壹日$", text) and place + 4 == len(text)
        if place >= 0 and not (of == "date" and is_31st):
            yield Repair("insert", place, "零")
    if text[wrong] == "拾":
        yield Repair("insert", wrong, "壹")


def inserted(of: str, text: str) -> Optional[Repair]:
    """The first change of the rules 2 and 3 that is a repair; None if the wrong character is none of the
    forms, and so may be typed for another one."""
    wrong = text[follow(LANGUAGES[of], text).count :][:1]
    if not is_of_forms(of, wrong):
        return None
    return next((it for it in insertions(of, text) if is_repair(of, text, it)), None)
