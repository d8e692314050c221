"""Convert one column of a table: with pandas, and with the workers of a Dask cluster.

Usage: columns.py TABLE FOLDER [SCHEDULER]

TABLE is a CSV file, or a pattern that matches CSV files. Its column `amount` has amounts in
capitals, which are converted to fen. The rows are written with the results to files in FOLDER, in
order. The work is done by the workers of the scheduler at the given address, such as
tcp://10.0.0.1:8786, or else by processes on this machine.
"""
import sys

import dask.dataframe
import pandas
from distributed import Client

from chinese_number import chinese_to_amount

# Cells are read as texts, not as numbers, and only an empty cell is a missing one.
AS_IT_STANDS = {"dtype": "string", "keep_default_na": False, "na_values": [""]}


def answer(cell, call):
    """Converts a cell with a call. Returns the result, the reason if the call refuses the cell, and
    the position of the wrong character; each is None if there is none."""
    if pandas.isna(cell):
        return None, None, None
    try:
        return call(cell), None, None
    except (TypeError, ValueError) as error:
        return None, str(error), getattr(error, "char_index", None)


def answered(table, column, call, dtype):
    """Returns the table with three more columns: the result, the reason for a refusal and the position
    of the wrong character, for each cell of a column. The dtype is that of the results. A missing cell
    has none of the three."""
    rows = [answer(cell, call) for cell in table[column]]
    own = {"answer": dtype, "refusal": "string", "char_index": "Int64"}
    more = pandas.DataFrame(rows, table.index, [*own], dtype=object).astype(own)
    return pandas.concat([table, more.add_prefix(f"{column}_")], axis=1)


def main(files, folder, *scheduler):
    with Client(*scheduler):
        table = dask.dataframe.read_csv(files, **AS_IT_STANDS)
        table = table.map_partitions(answered, "amount", chinese_to_amount, "Int64")
        table.to_csv(folder, index=False)


if __name__ == "__main__":
    main(*sys.argv[1:])
