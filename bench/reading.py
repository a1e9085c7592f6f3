"""How the reading of a text grows with its length: counts the instructions that the program takes, by `valgrind`."""

from __future__ import annotations

import os
import re
import shutil
import subprocess
from collections.abc import Iterator
from itertools import combinations
from pathlib import Path

from program import PROGRAM, TOP, give_up

IMAGE = TOP / "crates" / "seleq" / "data" / "shop.db"
# Bytes of a text, up to the most that may be.
LENGTHS = [1 << 13, 1 << 14, 1 << 15, 1 << 16]
# How many times as many instructions a byte of a longer text may take as one of a shorter.
LINEAR_TARGET = 1.25

COUNT = re.compile(rb"Collected : ([0-9]+)")


def padded(front: str, item: str, behind: str, length: int) -> str:
    """A text of so many bytes with as many items in its middle as there is room for."""
    room = length - len(front) - len(behind)
    return front + item * (room // len(item)) + " " * (room % len(item)) + behind


# How deep tables are derived from one another, and how many SELECTs stand in a chain: each is a level, of which there are at most 100.
DEPTH = 90

# What is read: a front, a middle that is repeated as often as there is room, and an end. There are too many result columns
# and too many sources.
FORMS = {
    "a condition with a list": ("SELECT id FROM item WHERE id IN (1", ",1", ")"),
    "result columns": ("SELECT id", ",id", " FROM item"),
    "texts with quotes": ("SELECT id FROM item WHERE id IN ('a'", ",'it''s'", ")"),
    "comments": ("SELECT id", "/* a */", " FROM item"),
    "names and functions": ("SELECT id FROM item WHERE id IN (1", ",abs(item.id)", ")"),
    "a chain of JOIN": ("SELECT id FROM item", " JOIN item ON a = b", ""),
}


def listed(front: str, length: int) -> str:
    """A SELECT of about so many bytes with a list, which is one level however long it is."""
    return f"{front} IN (1{',1' * max(0, (length - len(front) - len(' IN (1)')) // 2)})"


def derived(length: int) -> str:
    """A text of so many bytes of tables that are derived from one another, each with as long a list as there is room for."""
    text = "SELECT a"
    for _ in range(DEPTH - 1):
        text = f"SELECT a FROM ({text}) AS t WHERE {listed('a', length // DEPTH - len('SELECT a FROM () AS t WHERE '))}"
    return text.ljust(length)


def chained(length: int) -> str:
    """A text of so many bytes of SELECTs that UNION ALL joins, each with as long a list as there is room for."""
    arm = listed("SELECT id FROM item WHERE id", length // DEPTH - len(" UNION ALL "))
    return " UNION ALL ".join([arm] * DEPTH).ljust(length)


def texts() -> Iterator[tuple[str, list[str]]]:
    """What is read, and the texts of growing length."""
    for what, (front, item, behind) in FORMS.items():
        yield what, [padded(front, item, behind, length) for length in LENGTHS]
    yield "a chain of UNION ALL", [chained(length) for length in LENGTHS]
    yield "tables derived from tables", [derived(length) for length in LENGTHS]


def instructions(text: str) -> int:
    """How many instructions the program takes for a text, opening a small image included."""
    words = ["valgrind", "--tool=callgrind", f"--callgrind-out-file={os.devnull}", str(PROGRAM), str(IMAGE), text]
    run = subprocess.run(words, stdin=subprocess.DEVNULL, capture_output=True, check=False)
    found = COUNT.search(run.stderr)
    if found is None or run.returncode not in (0, 1):
        give_up(f"valgrind counted nothing: {run.stderr[-300:]!r}")
    return int(found[1])


def reading_lines() -> list[str]:
    """The lines of a table: instructions for each byte of texts of growing length, without those of a short one."""
    if shutil.which("valgrind") is None:
        return ["Not measured: the program valgrind isn't there."]
    least = instructions("SELECT id FROM item")
    lines = [f"| Text of | {' | '.join(f'{length} bytes' for length in LENGTHS)} | Target |", "|---" * (len(LENGTHS) + 2) + "|"]
    for what, lengths in texts():
        each = [(instructions(text) - least) / len(text) for text in lengths]
        growth = max(longer / shorter for shorter, longer in combinations(each, 2))
        linear = "met" if growth <= LINEAR_TARGET else "missed"
        numbers = " | ".join(f"{number:.0f}" for number in each)
        lines.append(f"| {what} | {numbers} | grows at most {LINEAR_TARGET} times: {linear} |")
    return lines
