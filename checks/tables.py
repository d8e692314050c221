#!/usr/bin/env python3
"""Prints or checks the tables in which a character is looked up directly, each entry at its slot.

Usage: tables.py CRATES [--check]

MARKS of `cn_judge` has each digit and unit of three bytes with its meaning in `characters_read.rt`
of `cn_core`. CAPITALS of `cn_amount` and of `cn_date` have the characters of `capital_rows`, for
amounts and for dates. Without --check the script prints the tables as they must be in the crates
below CRATES. If two characters share a slot, it first prints the least multiplier, from the current
one on, that separates all characters. Write this multiplier here, where the crate computes the
slot, and in `proofs/MarkTable.antt` or `proofs/CapitalTable.antt`; the same places have the number
of slots. With --check the script fails if a table or the expression for its slot differs.
"""
import re
import sys
from dataclasses import dataclass
from functools import partial
from pathlib import Path
from typing import Callable

FILLER = "無"
UNITS = re.compile(r"^        ('.*') => Some\((?:Unit::)?(\w+)\),$", re.MULTILINE)
CAPITALS = re.compile(r'\(codes "(\w+)", (\w+)(?: (\d))?\)')
CAPITAL_SLOT = "CAPITALS[(character as u32 * {multiplier} / {divisor} % {slots}) as usize]"


@dataclass
class Table:
    """A table, the file that has it, and how its entries and slots are written there."""

    name: str
    place: str
    kind: str
    entries: Callable[[Path], dict]
    row: Callable[[str, dict], str]
    key: Callable[[str], int]
    slot: str
    multiplier: int
    divisor: int
    slots: int

    def slot_text(self, multiplier):
        text = f"{multiplier:_}" if multiplier > 9999 else str(multiplier)
        return self.slot.format(multiplier=text, divisor=self.divisor, slots=self.slots)

    def placed(self, chars):
        """The least multiplier that gives each character its own slot, and the slots."""
        period = self.slots * self.divisor  # the slots repeat with this period
        for multiplier in range(self.multiplier, self.multiplier + period, 2):
            slots = {
                self.key(char) * multiplier // self.divisor % self.slots: char for char in chars
            }
            if len(slots) == len(chars):
                return multiplier, slots
        sys.exit(f"tables: no multiplier separates the characters of {self.name}: add slots")

    def written(self, found, placed):
        rows = "".join(
            f"    {self.row(placed.get(slot, FILLER), found)}\n" for slot in range(self.slots)
        )
        return f"static {self.name}: [{self.kind}; {self.slots}] = [\n{rows}];\n"


def text_of(path):
    return path.read_text(encoding="utf-8")


def key_of(char):
    return int.from_bytes(char.encode(), "little")


def marks(crates):
    """The mark of each digit and unit of three bytes."""
    text = text_of(crates / "cn_core/src/characters_read.rt")
    found = {}
    for function, mark in (("digit_of", "Mark::Digit({})"), ("unit_of", "Mark::Unit(Unit::{})")):
        body = text.split(f"pub fn {function}(")[1].split("\n}\n")[0]
        for chars, name in UNITS.findall(body):
            read = (char for char in re.findall("'(.)'", chars) if len(char.encode()) == 3)
            found.update((char, mark.format(name)) for char in read)
    return found


def mark_row(char, found):
    return f"(0x{key_of(char):x}, {found.get(char, 'Mark::Other')}), // {char}"


def capitals_of(crate, crates):
    """The capital that each character of an amount or of a date is read as."""
    text = text_of(crates / crate / "specs/Reading.antt")
    rows = text.split("\ncapital_rows =\n")[1].split("\n\n")[0]
    return {
        char: f"Some(Capital::{name}({value}))" if value else f"Some(Capital::{name})"
        for chars, name, value in CAPITALS.findall(rows)
        for char in chars
    }


def capital_row(char, found):
    return f"('{char}', {found.get(char, 'None')}),"


TABLES = [
    Table(
        "MARKS",
        "cn_judge/src/mark.rt",
        "(u32, Mark)",
        marks,
        mark_row,
        key_of,
        "MARKS[(key as u64 * {multiplier} / {divisor:_} % {slots}) as usize]",
        953_497,
        33_554_432,
        128,
    ),
    Table(
        "CAPITALS",
        "cn_amount/src/capital.rt",
        "(char, Option<Capital>)",
        partial(capitals_of, "cn_amount"),
        capital_row,
        ord,
        CAPITAL_SLOT,
        3227,
        1024,
        64,
    ),
    Table(
        "CAPITALS",
        "cn_date/src/capital.rt",
        "(char, Option<Capital>)",
        partial(capitals_of, "cn_date"),
        capital_row,
        ord,
        CAPITAL_SLOT,
        69,
        16,
        32,
    ),
]


def main():
    arguments = sys.argv[1:]
    if not arguments or arguments[0].startswith("-") or arguments[1:] not in ([], ["--check"]):
        sys.exit(__doc__)
    crates = Path(arguments[0])
    for table in TABLES:
        found = table.entries(crates)
        if not found or FILLER in found:
            sys.exit(
                f"tables: there are no characters for {table.name}, or {FILLER} is one of them"
            )
        multiplier, placed = table.placed(found)
        written = table.written(found, placed)
        if len(arguments) == 1:
            if multiplier != table.multiplier:
                print(
                    f"the new multiplier of {table.name}, here and in {table.place}: {multiplier:_}"
                )
            print(written, end="")
            continue
        there = text_of(crates / table.place)
        if there.count(table.slot_text(multiplier)) != 1:
            sys.exit(
                f"tables: {table.place} does not compute a slot as {table.slot_text(multiplier)}"
            )
        if there.count(written) != 1:
            sys.exit(
                f"tables: {table.name} of {table.place} differs; without --check this prints it"
            )
        crate = table.place.split("/")[0]
        print(f"tables: {table.name} of {crate} has {len(found)} characters, each at its slot")


if __name__ == "__main__":
    main()
