"""Sound files: each row of each table has to come out as SQLite gives it."""

from __future__ import annotations

import re
import shlex
import sqlite3
from collections import Counter
from collections.abc import Iterator
from pathlib import Path
from random import Random

from oracle import Reader, header_line, named
from program import Run, Tally, fault_line, refusal_problem, rows_of, run
from recipes import EITHER, RECIPES, SPELLINGS, Make, fill, make_file, random_tables
from witness import Reading

BARE = re.compile(r"[A-Za-z_][A-Za-z_0-9]*")
RESERVED = {"from", "select", "table"}


def swapped(name: str) -> str:
    """A name with the case of its ASCII letters swapped."""
    return "".join(character.swapcase() if character.isascii() else character for character in name)


def spelt(name: str, rng: Random) -> str:
    """A name in one of its spellings in a SELECT."""
    name = rng.choice((name, swapped(name)))
    spellings = [named(name), f"`{name}`"]
    if "]" not in name:
        spellings.append(f"[{name}]")
    if BARE.fullmatch(name) and name.lower() not in RESERVED:
        spellings += [name] * 3
    return rng.choice(spellings)


def answer_problem(answer: Run, wanted: Counter[bytes], first: bytes = b"") -> str:
    """What is wrong with an answer that has to be this first line and these rows in some order."""
    rows = rows_of(answer.out[len(first) :])
    if answer.status == 0 and answer.err == b"" and answer.out.startswith(first) and rows is not None:
        found = Counter(rows)
        if found == wanted:
            return ""
        missing, extra = list((wanted - found).elements()), list((found - wanted).elements())
        return f"{len(missing)} rows missing {missing[:1]!r:.300}, {len(extra)} too many {extra[:1]!r:.300}"
    return str(answer)


def try_table(tally: Tally, what: str, path: Path, table: str, rng: Random) -> None:
    """Compares what the program answers of one table: all columns, some columns in other spellings, and the header."""
    with Reader(path) as reader:
        columns = reader.columns(table)
        some = rng.choices(columns, k=rng.randint(1, min(6, len(columns))))
        all_lines, some_lines = reader.lines(table, columns), reader.lines(table, some)
    from_all = f"SELECT * FROM {spelt(table, rng)}"
    from_some = f"sElect {', '.join(spelt(column, rng) for column in some)}\nfroM {spelt(table, rng)} ;"
    for words, wanted, first in (
        ([path, from_all], all_lines, b""),
        (["--cache", "1", path, from_all], all_lines, b""),
        ([path, from_some], some_lines, b""),
        (["--header", "--cache", str(rng.randint(2, 20)), path, from_some], some_lines, header_line(some)),
    ):
        tally.add(f"{what}, {shlex.join(map(str, words))}", answer_problem(run(*words), wanted, first))


def try_file(tally: Tally, what: str, path: Path, make: Make, size: int, seed: str) -> None:
    """Makes a file, in which the reading that witnesses faults finds none, and compares what the program answers of each of its tables,
    and of one that it doesn't have."""
    make_file(path, make, size, Random(seed))
    before = path.read_bytes()
    reading = Reading(before)
    told = "" if reading.is_known and not reading.found else f"{sorted(reading.lines())[:9]}, known: {reading.is_known}"
    tally.add(f"{what}, the reading", told)
    rng = Random(seed)
    with Reader(path) as reader:
        tables = reader.tables()
    for table in tables if len(tables) < 10 else rng.sample(tables, 10):
        try_table(tally, what, path, table, rng)
    tally.add(f"{what}, no such table", refusal_problem(run(path, "SELECT * FROM nowhere"), fault_line(31)))
    tally.add(f"{what}, the file afterwards", "" if path.read_bytes() == before else "it was changed")


def spelling(text: str) -> Make:
    """The recipe of a file whose table has this CREATE TABLE."""

    def make(connection: sqlite3.Connection, rng: Random) -> None:
        connection.execute(text)
        (name,) = connection.execute("SELECT name FROM sqlite_schema").fetchone()
        fill(connection, named(name), ((number, f"row {number}") for number in range(rng.randint(1, 20))))

    return make


def try_either(tally: Tally, path: Path, text: str) -> None:
    """Tries a file that may be served or refused: it is served as SQLite gives it, or its table's text is."""
    make_file(path, spelling(text), 1024, Random(text))
    with Reader(path) as reader:
        (table,) = reader.tables()
        wanted = reader.lines(table, reader.columns(table))
    answer = run(path, f"SELECT * FROM {named(table)}")
    refused = refusal_problem(answer, fault_line(21, table), fault_line(22, table))
    tally.add(f"the table {text!r}", refused and answer_problem(answer, wanted))


def sound_files(seed: int, rounds: int) -> Iterator[tuple[str, Make, int]]:
    """The files that are tried: a name, the recipe and the page size. The spellings of CREATE TABLE are told by number."""
    for recipe in RECIPES:
        for size in recipe.sizes:
            yield f"{recipe.name}/{size}", recipe.make, size
    for number, text in enumerate(SPELLINGS):
        yield f"spelling/{number}", spelling(text), 1024
    for number in range(rounds):
        # The schema of three wide tables needs more than 512 bytes.
        yield f"random/{number}", random_tables, 1024 << Random(f"{seed}/{number}").randint(0, 6)


def try_sound(tally: Tally, folder: Path, seed: int, rounds: int, only: str | None) -> None:
    """Tries each recipe at its page sizes, the spellings of CREATE TABLE, and so many files of random tables; or one of
    these files alone."""
    path = folder / "sound.db"
    for name, make, size in sound_files(seed, rounds):
        if only in (None, name):
            try_file(tally, f"--seed {seed} --only {name}", path, make, size, f"{seed}/{name}")
    if only is None:
        for text in EITHER:
            try_either(tally, path, text)
