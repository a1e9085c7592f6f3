#!/usr/bin/env python3
"""Tries the program from outside: has SQLite make files, and compares what the program answers with SQLite's own values;
damages them; refuses it memory; and gives it paths and outputs that fail. docs/FAULTS.md says what a refusal has to be.

Run from any folder. The last line is 'N passed, M failed'. Each line before it is a failure, with what it takes to see it
again: `--seed S --damage N --keep FOLDER` makes one damaged file anew and leaves it in the folder, `--only NAME` does so
with one of the sound files.
"""

from __future__ import annotations

import argparse
import sqlite3
import sys
import tempfile
from pathlib import Path

from damage import try_damage
from devices import try_devices
from memory import try_memory
from program import Tally, build, give_up
from refusals import try_refusals
from sound import try_sound

# The rounds of a run that nobody told how long it may be, and of a long one.
ROUNDS, LONG_ROUNDS = 1000, 50_000
# How many rounds of damage go with one file of random tables.
DAMAGES_FOR_A_FILE = 50


def read_words() -> argparse.Namespace:
    """The command line."""
    parser = argparse.ArgumentParser(description="Tries the program seleq from outside.")
    parser.add_argument("--seed", type=int, default=1, help="what all random choices follow from (1)")
    parser.add_argument("--rounds", type=int, default=ROUNDS, help=f"how many damaged files ({ROUNDS})")
    parser.add_argument("--long", action="store_true", help=f"{LONG_ROUNDS} damaged files")
    parser.add_argument("--damage", type=int, help="this one damaged file alone")
    parser.add_argument("--only", help="this one sound file alone, as deep_tree/512")
    parser.add_argument("--keep", type=Path, help="leave the last files in this folder, which must be empty")
    parser.add_argument("--built", action="store_true", help="take the program as it was built last")
    return parser.parse_args()


def try_all(words: argparse.Namespace, tally: Tally, folder: Path) -> None:
    """Tries what the command line asks for."""
    if words.damage is not None:
        try_damage(tally, folder, words.seed, range(words.damage, words.damage + 1))
        return
    rounds = LONG_ROUNDS if words.long else words.rounds
    try_sound(tally, folder, words.seed, rounds // DAMAGES_FOR_A_FILE, words.only)
    if words.only is not None:
        return
    try_refusals(tally, folder)
    try_devices(tally, folder)
    try_memory(tally, folder)
    try_damage(tally, folder, words.seed, range(rounds))


def main() -> int:
    """Builds the program, and tries it."""
    words = read_words()
    if sqlite3.sqlite_version_info < (3, 37):
        give_up(f"Python's module sqlite3 has SQLite {sqlite3.sqlite_version}; STRICT tables need 3.37")
    if not words.built:
        build()
    tally = Tally()
    if words.keep:
        words.keep.mkdir(parents=True, exist_ok=True)
        try_all(words, tally, words.keep)
    else:
        with tempfile.TemporaryDirectory() as folder:
            try_all(words, tally, Path(folder))
    return tally.finish()


if __name__ == "__main__":
    sys.exit(main())
