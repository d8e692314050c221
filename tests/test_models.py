"""Compares numbers, quantities, amounts and dates with the models of the rules in tests/models, which
were written from docs/RULES.md alone: what is read and written, each refusal with its reason and
position, and what may come next. `python3 tests/models/compare_numbers.py 2000000 --seed 5` tries more
cases."""
import random

from test_text import library, models

COUNT, SEED = 100_000, 20261130


def test_models(library, models):
    import compare_numbers

    differences = compare_numbers.differences(library, COUNT, random.Random(SEED))
    assert "\n".join(differences) == ""
