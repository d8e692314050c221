"""Columns of a table, with the user's program `tests/users/columns.py`.

Each cell gets the answer or the refusal of `tests/rows`. The workers of a Dask cluster write the
same as one process, also if one of them is killed at its work.
"""
import importlib
import os
import re
import signal
import subprocess
import sys
import time
from concurrent.futures import ThreadPoolExecutor
from contextlib import ExitStack, contextmanager
from itertools import cycle, islice

import pytest

from installing import USERS
from questions import of_files
from running import ENVIRONMENT, PYTHON, fail, needs_modules, run
from test_python import module_over

# The rows of a column: their file and first words; the call that answers them; and the dtype of its
# answers.
LARGE = {"kind": "u128", "way": "ten_thousand"}
COLUMNS = [
    ("amounts", ["read_amount"], "chinese_to_amount", {}, "Int64"),
    ("amounts", ["print_amount", "simple"], "amount_to_chinese", {}, "string"),
    ("figures", ["yuan_to_fen"], "yuan_to_fen", {}, "Int64"),
    ("any", ["read", "i64", "any"], "to_number", {"kind": "i64"}, "Int64"),
    ("numbers", ["read", "u128", "ten_thousand"], "to_number", LARGE, object),
]
FILES, ROWS_OF_EACH, WORKERS = 40, 2500, 3
PROGRAM = (sys.executable, "-B", USERS / "columns.py")


@pytest.fixture(scope="module")
def columns(of_c_source):
    """The user's program, as a module."""
    needs_modules("pandas", "dask", "distributed")
    with module_over(of_c_source), pytest.MonkeyPatch.context() as path:
        path.syspath_prepend(USERS)
        yield importlib.import_module("columns")


@pytest.fixture(scope="module")
def own(of_c_source):
    """The environment in which each process finds the library."""
    return {"PYTHONPATH": str(PYTHON), "CHINESE_NUMBER_LIB": str(of_c_source)}


def rows_of(file, front):
    """What follows these words in a file of `tests/rows`, and the answers."""
    rows = [(words[-1], answer) for words, answer in of_files([file]) if words[:-1] == front]
    return zip(*rows)


def cells_behind(answer):
    """The texts that are written after a cell with this answer."""
    kind, _, text = answer.partition(" ")
    place = re.search(r"position: (\d+)", text)
    return [text, None, None] if kind == "ok" else [None, text, place and place[1]]


@pytest.mark.parametrize("file, front, name, words, dtype", COLUMNS)
def test_rows(columns, file, front, name, words, dtype):
    """A missing cell stays missing, and rows keep their order, also if all have the same index
    label."""
    pandas, function = columns.pandas, getattr(sys.modules["chinese_number"], name)
    texts, answers = rows_of(file, front)
    cells = [int(it) for it in texts] if name == "amount_to_chinese" else texts
    missing = [None, float("nan"), pandas.NA]
    column = pandas.Series([*missing, *cells], [0] * (3 + len(cells)), object, "cell")
    table = columns.answered(column.to_frame(), "cell", lambda it: function(it, **words), dtype)
    assert table["cell"].tolist() == column.tolist() and table.index.equals(column.index)
    behind = table.iloc[:, 1:].itertuples(index=False)
    found = [[None if pandas.isna(it) else str(it) for it in row] for row in behind]
    assert found == [[None] * 3] * 3 + [cells_behind(it) for it in answers]


@pytest.fixture(scope="module")
def files(columns, tmp_path_factory):
    """A CSV table in more files than there are workers."""
    folder, (texts, _) = tmp_path_factory.mktemp("table"), rows_of("amounts", ["read_amount"])
    rows = enumerate(islice(cycle(texts), FILES * ROWS_OF_EACH))
    table = columns.pandas.DataFrame(rows, columns=["number", "amount"])
    for first in range(0, len(table), ROWS_OF_EACH):
        part = table[first : first + ROWS_OF_EACH]
        part.to_csv(folder / f"{first:06}.csv", index=False)
    return folder / "*.csv"


def of_one_process(columns, files):
    """The lines that pandas alone makes from the files."""
    parts = [
        columns.pandas.read_csv(it, **columns.AS_IT_STANDS) for it in sorted(files.parent.iterdir())
    ]
    call = sys.modules["chinese_number"].chinese_to_amount
    table = columns.answered(columns.pandas.concat(parts), "amount", call, "Int64")
    return table.to_csv(index=False).splitlines()


def written(folder):
    """The lines of the parts in a folder; only the header of the first part is kept."""
    parts = [it.read_text(encoding="utf-8").splitlines() for it in sorted(folder.iterdir())]
    assert len(parts) == FILES
    return parts[0][:1] + [line for part in parts for line in part[1:]]


def test_one_machine(columns, own, files, tmp_path):
    run(*PROGRAM, files, "answered", cwd=tmp_path, **own)
    assert written(tmp_path / "answered") == of_one_process(columns, files)


@contextmanager
def started(*words, log, **own):
    """A process that runs until it is no longer needed."""
    pipes = {"stdout": log, "stderr": log, "stdin": subprocess.DEVNULL}
    process = subprocess.Popen(words, env=dict(ENVIRONMENT, **own), **pipes)
    try:
        yield
    finally:
        process.kill()
        process.wait()


@pytest.fixture
def client(columns, own, tmp_path):
    """A cluster started as on several machines; each worker does one part at a time."""
    from distributed import Client

    file = tmp_path / "scheduler.json"
    common = ("--no-dashboard", "--host", "127.0.0.1", "--scheduler-file", file)
    worker = ("worker", "--nthreads", "1", "--no-nanny", "--local-directory", tmp_path)
    with ExitStack() as stack:
        log = stack.enter_context(open(tmp_path / "log", "wb"))
        for name, *words in [("scheduler", "--port", "0")] + [worker] * WORKERS:
            module = ("-B", "-m", f"distributed.cli.dask_{name}")
            stack.enter_context(started(sys.executable, *module, *words, *common, log=log, **own))
        client = stack.enter_context(Client(scheduler_file=str(file)))
        client.wait_for_workers(WORKERS)
        yield client


def kill_at_work(client, answering):
    """Kills a worker process that has finished some parts and has others to do."""
    processes = client.run(os.getpid)
    while not answering.done():
        done, to_do = client.has_what(), client.processing()
        for worker, process in processes.items():
            if done.get(worker) and to_do.get(worker):
                os.kill(process, signal.SIGKILL)
                return
        time.sleep(0.01)
    fail("no worker was killed at its work")


@pytest.mark.filterwarnings("ignore:make_current")  # of tornado, with which a client listens
def test_killed(columns, own, client, files, tmp_path):
    """The other workers do the parts of the killed worker, also those that it had finished."""
    address = client.scheduler.address
    with ThreadPoolExecutor() as pool:
        answering = pool.submit(run, *PROGRAM, files, "answered", address, cwd=tmp_path, **own)
        kill_at_work(client, answering)
        answering.result()
    assert len(client.run(os.getpid)) == WORKERS - 1
    assert written(tmp_path / "answered") == of_one_process(columns, files)
