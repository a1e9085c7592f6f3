#!/usr/bin/env python3
"""Compares what the program answers to random joins of two to five sources, of each kind, by ON, by USING or by neither, with what
SQLite answers. Many of them have rows that are kept in memory, derived tables and the tables of RIGHT and FULL joins, and conditions
that want columns of both sides to be equal, so that the kept rows are looked up; the tables have rows enough for that, many of them
with the same values, and NULLs. After them come joins of tables of some thousand rows, which `large.py` makes, and joins by keys of one
bucket, which `buckets.py` makes.

Run from any folder. The last line is 'N passed, M failed'. `--seed S --only N` makes one statement anew and prints it; of the large
tables `large.py` does.
"""

from __future__ import annotations

import sqlite3
import sys
from pathlib import Path
from random import Random

from buckets import try_buckets
from large import try_large
from program import Tally
from recipes import fill
from statements import Statement, ask_each, small_value
from tried import Kinds, read_words, try_statements

# How many statements are tried, and how many where few are asked for.
STATEMENTS, FEW = 3000, 200
KINDS = {"a": "INT", "b": "TEXT", "c": "INT"}
JOINS = ("JOIN", "INNER JOIN", "LEFT JOIN", "LEFT OUTER JOIN", "RIGHT JOIN", "FULL JOIN", ",", "CROSS JOIN")
# The table with few rows, which stands third and later.
SMALL_TABLE = "v"


def table_of_many(connection: sqlite3.Connection, name: str, rng: Random) -> Kinds:
    """Makes a table of none or many rows, or of few."""
    connection.execute(f"CREATE TABLE {name}({', '.join(map(' '.join, KINDS.items()))}) STRICT")
    count = rng.choice((0, 2, 5, 9) if name == SMALL_TABLE else (0, 7, 8, 20, 60))
    fill(connection, name, (tuple(small_value(rng, kind) for kind in KINDS.values()) for _ in range(count)))
    return KINDS


def random_source(rng: Random, table: str, called: str) -> str:
    """A table, or a query of its rows."""
    if rng.random() < 0.3:
        return f"{table} AS {called}"
    distinct = rng.choice(("", "", "DISTINCT "))
    where = rng.choice(("", "", " WHERE c > 0", " WHERE b IS NOT NULL", " GROUP BY a, b, c"))
    return f"(SELECT {distinct}a, b, c FROM {table}{where}) AS {called}"


def random_condition(rng: Random, before: list[str], called: str) -> str:
    """An equality of a column of a source before and one of this, either way round, and perhaps more."""
    column = rng.choice(("a", "a", "b", "c"))
    sides = [f"{rng.choice(before)}.{column}", f"{called}.{'a' if column == 'c' else column}"]
    rng.shuffle(sides)
    more = rng.choice(("", "", f" AND {before[0]}.c <= {called}.c", f" AND {called}.c IS NOT NULL", f" AND {before[-1]}.b = {called}.b"))
    return " = ".join(sides) + more


def random_sources(rng: Random, tables: list[str]) -> dict[str, str]:
    """Two to five sources, by what they are called."""
    called = ["x", "y", "z", "p", "q"][: rng.choice((2, 2, 3, 4, 5))]
    return {name: random_source(rng, rng.choice(tables) if place < 2 else SMALL_TABLE, name) for place, name in enumerate(called)}


def joined_by_conditions(rng: Random, tables: list[str]) -> Statement:
    """A join by ON, or by WHERE behind commas and CROSS JOIN."""
    sources = random_sources(rng, tables)
    called, where = list(sources), []
    text = sources["x"]
    for place, name in enumerate(called[1:], 1):
        word, condition = rng.choice(JOINS), random_condition(rng, called[:place], name)
        if word in (",", "CROSS JOIN"):
            where.append(condition)
            text += f"{word if word == ',' else ' ' + word} {sources[name]}"
        else:
            text += f" {word} {sources[name]} ON {condition}"
    columns = ", ".join(f"{name}.{rng.choice('abc')}" for name in called for _ in range(2))
    behind = f" WHERE {' AND '.join(where)}" if where else ""
    return Statement(f"SELECT {columns} FROM {text}{behind}", (), False, None, 0)


def joined_by_names(rng: Random, tables: list[str]) -> Statement:
    """A join by USING, whose column is named alone: that of the side that has a row."""
    sources = random_sources(rng, tables)
    words = [rng.choice(JOINS[:6]) for _ in sources]
    text = "".join(f" {word} {source} USING (a)" if place else source for place, (word, source) in enumerate(zip(words, sources.values())))
    columns = ", ".join(f"{name}.{rng.choice('bc')}" for name in sources)
    behind = rng.choice(("", "", " WHERE a > 0", " WHERE a IS NULL OR a < 5"))
    return Statement(f"SELECT a, {columns} FROM {text}{behind}", (), False, None, 0)


def try_file(tally: Tally, path: Path, seed: int, numbers: range, is_shown: bool) -> None:
    """Makes a file, and asks it these statements of this seed."""

    def make(number: int, tables: dict[str, Kinds]) -> tuple[Statement, Statement]:
        rng = Random(f"{seed} {number} join")
        statement = rng.choice((joined_by_conditions, joined_by_conditions, joined_by_names))(rng, list(tables))
        return statement, statement

    ask_each(tally, path, seed, numbers, is_shown, make, table_of_many)


def try_more(tally: Tally, path: Path, seed: int) -> None:
    """Joins of large tables, and joins by keys that were chosen for one bucket."""
    try_large(tally, path, seed)
    try_buckets(tally, path)


if __name__ == "__main__":
    sys.exit(try_statements(read_words("Compares random joins with SQLite.", STATEMENTS, FEW), try_file, try_more))
