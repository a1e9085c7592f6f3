#!/usr/bin/env python3
"""Refuses the program memory: each of its allocations in turn, alone or with all that follow. It calls the C library's
malloc and realloc, which refuse.c stands before; what is allocated before main began is left alone. The answer is the
whole one, or fault 28 behind the first whole rows of it, none where the run hadn't begun.

A part of outside.py, which builds the program; run by itself it takes the program as it was built last.
"""

from __future__ import annotations

import os
import sqlite3
import subprocess
import sys
import tempfile
from pathlib import Path
from random import Random

from oracle import Reader, header_line
from program import Run, Tally, fault_line, rows_of, run
from recipes import fill, make_file, random_text
from statements import line

SOURCE = Path(__file__).resolve().parent / "refuse.c"
NO_MEMORY = fault_line(28)
# Statements whose rows are computed, and leave no choice: values that are made, an order, groups, windows, compounds, and joins, of
# which some hold the rows of a table.
COMPUTED = (
    "SELECT DISTINCT a || '!', length(a) FROM item ORDER BY 2 DESC, 1 LIMIT 2 OFFSET 1",
    "SELECT c0 % 3, count(*), sum(c1), min(c2) FROM sale GROUP BY c0 % 3 HAVING count(*) > 2 ORDER BY 1",
    "SELECT id FROM item UNION SELECT c0 FROM sale WHERE c0 < 9 EXCEPT SELECT 2 ORDER BY id DESC",
    "SELECT id, sum(id) OVER (ORDER BY id ROWS 1 PRECEDING), lag(hex(b)) OVER (ORDER BY id) FROM item WHERE length(b) < 99 ORDER BY id",
    "SELECT c0, item.a, y.id FROM sale LEFT JOIN item ON item.id = c0 AND c1 < 1 JOIN item AS y ON y.id > c0 ORDER BY c0, y.id",
    "SELECT item.id, c0 FROM item FULL JOIN sale ON c0 = id * 2 WHERE id IS NOT NULL OR c0 > 87 ORDER BY c0, id",
)


def build_library(folder: Path) -> Path:
    """Builds the library that is loaded before the program."""
    library = folder / "refuse.so"
    words = ["gcc", "-O1", "-Wall", "-fno-builtin", "-shared", "-fPIC", "-o", str(library), str(SOURCE), "-ldl"]
    subprocess.run(words, check=True)
    return library


def long_rows(connection: sqlite3.Connection, rng: Random) -> None:
    """Two tables of a few rows, some of which go on in many overflow pages."""
    connection.execute("CREATE TABLE item(id INTEGER PRIMARY KEY, a TEXT NOT NULL, b BLOB) STRICT")
    sizes = (0, 3, 3000, 20000, 12, 900)
    fill(connection, "item", ((row, random_text(rng, 9) + "a" * size, bytes(size)) for row, size in enumerate(sizes)))
    columns = ", ".join(f"c{place} INT" for place in range(9))
    connection.execute(f"CREATE TABLE sale({columns}) STRICT")
    fill(connection, "sale", ((row, *range(8)) for row in range(90)))


def refused_run(library: Path, folder: Path, words: list[object], at: int, further: bool) -> tuple[Run, int]:
    """A run whose allocation of this number fails, with all further ones where that is asked; and how many there were."""
    count = folder / "count"
    count.unlink(missing_ok=True)
    environment = {**os.environ, "LD_PRELOAD": str(library), "REFUSE_COUNT": str(count), "REFUSE_AT": str(at)}
    if further:
        environment["REFUSE_ALL"] = "1"
    answer = run(*words, env=environment)
    return answer, int(count.read_text()) if count.exists() else -1


def memory_problem(answer: Run, whole: Run) -> str:
    """What is wrong with an answer that has to be whole, or fault 28 behind the first whole rows."""
    if answer == whole:
        return ""
    begins = rows_of(answer.out) is not None and whole.out.startswith(answer.out)
    stopped = answer.status == 1 and answer.err == NO_MEMORY and begins
    return "" if stopped else f"{answer}; wanted {NO_MEMORY!r} or the answer: {whole}"


def try_words(tally: Tally, library: Path, folder: Path, words: list[object], whole: Run) -> None:
    """Refuses each allocation of one command line, up to the last that it makes."""
    answer, most = refused_run(library, folder, words, 0, False)
    tally.add(f"nothing refused of {most} allocations, {words}", "" if answer == whole and most > 10 else str(answer))
    for further in (False, True):
        for at in range(1, most + 1):
            answer, met = refused_run(library, folder, words, at, further)
            problem = memory_problem(answer, whole) or ("" if met >= at else f"{met} allocations were counted")
            what = "and each further one" if further else "alone"
            tally.add(f"allocation {at} of {most} refused {what}, {words}", problem)


def try_memory(tally: Tally, folder: Path) -> None:
    """Refuses memory to some runs over a small file with long rows, and to the help and the refusal of a command line."""
    library, path = build_library(folder), folder / "memory.db"
    make_file(path, long_rows, 512, Random(0))
    with Reader(path) as reader:
        items = b"".join(reader.lines("item", ["id", "a", "b"]).elements())
        some = header_line(["c7", "c0"]) + b"".join(reader.lines("sale", ["c7", "c0"]).elements())
    try_words(tally, library, folder, [path, "SELECT * FROM item"], Run(0, items, b""))
    try_words(tally, library, folder, ["--header", "--cache", "1", path, "SELECT c7, c0 FROM sale"], Run(0, some, b""))
    nested = "WITH w AS (SELECT id, a FROM item WHERE id IN (SELECT c0 FROM sale WHERE c0 < 3)) SELECT id FROM w WHERE EXISTS (SELECT b FROM item)"
    try_words(tally, library, folder, [path, nested], Run(0, b"0\n1\n2\n", b""))
    with sqlite3.connect(path) as connection:
        for sql in COMPUTED:
            rows = b"".join(map(line, connection.execute(sql)))
            try_words(tally, library, folder, [path, sql], Run(0, rows, b""))
    try_words(tally, library, folder, [path, "SELECT a FROM nowhere"], Run(1, b"", fault_line(31)))
    for words in (["--help"], ["--cache", "0", path, "SELECT * FROM item"]):
        try_words(tally, library, folder, words, run(*words))


def main() -> int:
    """Tries the program as it was built last."""
    tally = Tally()
    with tempfile.TemporaryDirectory() as folder:
        try_memory(tally, Path(folder))
    return tally.finish()


if __name__ == "__main__":
    sys.exit(main())
