"""Joins of two tables that no index serves, which are measured beside `sqlite3`, of as many rows and of a few, and the peak of memory
that they have. Opening is included: a file has the two tables alone."""

from __future__ import annotations

import subprocess
from dataclasses import dataclass
from pathlib import Path

from costs import Command, measure_all, met, peak_of, seleq, sqlite

# The texts by which rows are joined have so many bytes.
TEXT = 20
# How many times fewer rows a table of a few has, and the most bytes of memory for a join of a million rows by one number.
FEWER, MEMORY_TARGET = 100, 50 << 20


@dataclass(frozen=True)
class Join:
    """What is joined, its SELECT, and the most of the time of `sqlite3` that it may take, if a target is set."""

    what: str
    sql: str
    target: float | None = 0.6


JOINS = [
    Join("numbers", "SELECT count(*) FROM p JOIN q ON p.a = q.a"),
    Join("texts", "SELECT count(*) FROM p JOIN q ON p.s = q.s"),
    Join("numbers, LEFT", "SELECT count(q.a) FROM p LEFT JOIN q ON p.a = q.a"),
    Join("the keys of both tables", "SELECT count(*) FROM p JOIN q ON p.id = q.id", None),
]
FEW_JOINS = [Join("numbers, with a hundredth of the rows", "SELECT count(*) FROM p JOIN few ON p.a = few.a", 2.0)]
# The joins whose peak of memory is told. Their rows are written, which begins when all that is held is there.
ONE_NUMBER = "rows of one number"
HELD = {
    ONE_NUMBER: "SELECT p.b FROM p JOIN q ON p.a = q.a",
    "rows of one text": "SELECT p.b FROM p JOIN q ON p.s = q.s",
    "rows of two numbers and a text": "SELECT q.b, q.s FROM p JOIN q ON p.a = q.a",
}


def make_tables(path: Path, rows: int, other: str, count: int) -> None:
    """Has sqlite3 make a new file of two tables of a key, two numbers and a text, the first of so many rows, each of which has another
    number and text, and the other of so many of them in another order."""
    script = "".join(
        f"""CREATE TABLE {name}(id INTEGER PRIMARY KEY, a INT NOT NULL, b INT NOT NULL, s TEXT NOT NULL) STRICT;
        WITH RECURSIVE n(i) AS (SELECT 1 UNION ALL SELECT i + 1 FROM n WHERE i < {most}), numbers(i, a) AS (SELECT i, i * {step} % {rows + 1} FROM n)
        INSERT INTO {name} SELECT i, a, i * 31, substr(printf('%d of all the rows there are', a), 1, {TEXT}) FROM numbers;"""
        for name, step, most in (("p", 7919, rows), (other, 104729, count))
    )
    path.unlink(missing_ok=True)
    subprocess.run(["sqlite3", "-bail", str(path)], input=script.encode(), check=True)


def commands(path: Path, it: Join) -> list[Command]:
    """A join, as both programs are asked."""
    return [Command(it.what, seleq(path, it.sql)), Command(f"sqlite {it.what}", sqlite(path, it.sql))]


def lines_of(path: Path, joins: list[Join], rows: int, runs: int) -> list[str]:
    """The lines of these joins on a file of so many rows."""
    lines, costs = [], measure_all([command for it in joins for command in commands(path, it)], runs)
    for it in joins:
        own, other = costs[it.what].processor, costs[f"sqlite {it.what}"].processor
        wanted = "" if it.target is None else f"at most {it.target}: {met(own <= it.target * other)}"
        lines.append(f"| {it.what} | {rows} | {own:.3f} | {other:.3f} | {own / max(other, 1e-6):.2f} | {wanted} |")
    return lines


def joined_lines(folder: Path, sizes: list[int], runs: int) -> list[str]:
    """The lines of the table of joins on tables of these many rows, and of that of the peaks of memory on the longest."""
    lines, path = ["| Joined by | Rows | seleq, s | sqlite3, s | Ratio | Target |", "|" + "---|" * 6], folder / "joined.db"
    make_tables(path, sizes[0], "few", sizes[0] // FEWER)
    lines += lines_of(path, FEW_JOINS, sizes[0], runs)
    for rows in sizes:
        make_tables(path, rows, "q", rows)
        lines += lines_of(path, JOINS, rows, runs)
    return [*lines, "", *held_lines(path, sizes[-1])]


def held_lines(path: Path, rows: int) -> list[str]:
    """The lines of the table of peaks of memory."""
    lines = [f"| Held of {rows} rows | seleq, MB | sqlite3, MB | Target |", "|" + "---|" * 4]
    for what, sql in HELD.items():
        own, other = (peak_of(Command(what, words)) for words in (seleq(path, sql), sqlite(path, sql)))
        wanted = f"at most {MEMORY_TARGET >> 20} MB: {met(own <= MEMORY_TARGET)}" if what == ONE_NUMBER else ""
        lines.append(f"| {what} | {own / 2**20:.1f} | {other / 2**20:.1f} | {wanted} |")
    return lines
