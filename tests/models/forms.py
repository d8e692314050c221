"""Which texts are forms of an amount, of figures or of a date: the start of a text that begins a form,
and what may come next.

A language is given by its steps: from each state, texts that may be written, each with the next state
and with a value that it adds. A form is what is written from the start to the end.
"""

from functools import lru_cache
from typing import Callable, Dict, FrozenSet, List, NamedTuple, Tuple

from numerals import WHITE_SPACE

END = "end"
Values = Tuple[int, ...]
Step = Tuple[str, object, Values]


class Language(NamedTuple):
    start: object
    steps: Callable[[object], List[Step]]
    same: Dict[str, str]  # the characters that are read as another one
    has_white_space: bool = False  # it is left out


class Start(NamedTuple):
    """The longest start of a text that begins a form."""

    count: int  # its characters
    values: FrozenSet[Values]  # those of the forms that it is
    characters: FrozenSet[str]  # with which a form can go on, of those read alike just one


@lru_cache(maxsize=None)
def first_steps(steps: Callable[[object], List[Step]], state: object) -> Dict[str, List[Step]]:
    """The ways to go on from a state, by the first character; under "" is the end."""
    ways: Dict[str, List[Step]] = {}
    if state == END:
        return {"": [("", END, ())]}
    for text, after, values in steps(state):
        if text:
            ways.setdefault(text[0], []).append((text[1:], after, values))
            continue
        for first, later in first_steps(steps, after).items():
            its = [(rest, end, values + more) for rest, end, more in later]
            ways.setdefault(first, []).extend(its)
    return ways


def go_on(language: Language, ways: List[Step], character: str) -> List[Step]:
    """The ways after one more character; each is the text that has to follow, the state after that and
    the values so far."""
    after = []
    for pending, state, values in ways:
        if pending:
            if pending[0] == character:
                after.append((pending[1:], state, values))
        else:
            for rest, end, more in first_steps(language.steps, state).get(character, ()):
                after.append((rest, end, values + more))
    return after


def follow(language: Language, text: str) -> Start:
    ways: List[Step] = [("", language.start, ())]
    count = 0
    for character in text:
        if not (language.has_white_space and character in WHITE_SPACE):
            after = go_on(language, ways, language.same.get(character, character))
            if not after:
                break
            ways = after
        count += 1
    values, characters = set(), set()
    for pending, state, so_far in ways:
        if pending:
            characters.add(pending[0])
            continue
        for first, steps in first_steps(language.steps, state).items():
            characters.add(first)
            values.update(so_far + more for _, _, more in steps if not first)
    return Start(count, frozenset(values), frozenset(characters - {""}))


def expected(language: Language, text: str) -> Tuple[int, bool, bool, FrozenSet[str]]:
    """How many characters the longest start has, whether it is a form, whether white space may come
    next, and all characters with which a form can go on."""
    count, values, characters = follow(language, text)
    alike = {it for it, word in language.same.items() if word in characters}
    return count, bool(values), language.has_white_space, frozenset(characters | alike)
