"""How the scripts that make random statements are called: a file for each few of them, and all of one seed or a single one."""

from __future__ import annotations

import argparse
import os
import sqlite3
import tempfile
from collections.abc import Callable
from pathlib import Path
from random import Random

from program import Tally, build
from recipes import make_file

# A table's columns, with their types.
Kinds = dict[str, str]

# How many statements are asked of one file.
FOR_A_FILE = 50

# What tries the statements of a file: its path, the seed, their numbers, and whether they are shown.
TryFile = Callable[[Tally, Path, int, range, bool], None]


def read_words(description: str, count: int, few: int) -> argparse.Namespace:
    """The command line, where so many statements are tried, or a few."""
    parser = argparse.ArgumentParser(description=description)
    parser.add_argument("--seed", type=int, default=1, help="what all random choices follow from (1)")
    parser.add_argument("--count", type=int, default=how_many(count, few), help="how many statements")
    parser.add_argument("--only", type=int, help="this one statement alone")
    parser.add_argument("--keep", type=Path, help="leave the last file in this folder")
    return parser.parse_args()


def how_many(count: int, few: int) -> int:
    """How many statements are tried of so many, or of a few."""
    return few if os.environ.get("SMALL") else count


def try_files(tally: Tally, path: Path, seed: int, numbers: range, try_file: TryFile, is_shown: bool = False) -> None:
    """Has the statements of these numbers tried, some of each file."""
    for first in range(numbers.start - numbers.start % FOR_A_FILE, numbers.stop, FOR_A_FILE):
        try_file(tally, path, seed, range(max(first, numbers.start), min(first + FOR_A_FILE, numbers.stop)), is_shown)


def try_statements(words: argparse.Namespace, try_file: TryFile, try_more: Callable[[Tally, Path, int], None] | None = None) -> int:
    """Builds the program, and has all statements tried, or the one that is asked for; and after all of them what there is more, of this
    seed."""
    tally = Tally()
    build()
    with tempfile.TemporaryDirectory() as made:
        path = Path(words.keep or made, "statements.db")
        is_one = words.only is not None
        try_files(tally, path, words.seed, range(words.only, words.only + 1) if is_one else range(words.count), try_file, is_one)
        if try_more is not None and not is_one:
            try_more(tally, path, words.seed)
    return tally.finish()


def random_file(
    path: Path, seed: int, numbers: range, random_table: Callable[[sqlite3.Connection, str, Random], Kinds]
) -> tuple[sqlite3.Connection, dict[str, Kinds]]:
    """Makes the file of these statements, of three tables, and answers what asks SQLite of it, and the tables."""
    tables: dict[str, Kinds] = {}
    rng = Random(f"{seed} {numbers.start // FOR_A_FILE}")
    make_file(path, lambda connection, rng: tables.update({name: random_table(connection, name, rng) for name in ("t", "u", "v")}), 512, rng)
    return sqlite3.connect(path), tables
