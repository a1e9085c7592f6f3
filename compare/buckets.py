#!/usr/bin/env python3
"""Joins tables whose keys the hash of `row_lookups` sends to one bucket, as the writer of a file can choose them: twenty thousand whole
numbers that differ by numbers whose products leave the places alone which tell a bucket; pairs of whole numbers and texts that all
have one hash. Each join takes at most eight times the time of the processor that it takes with other keys of the same form.

A part of joins.py; run by itself it makes these joins alone. The last line is 'N passed, M failed'.
"""

from __future__ import annotations

import os
import resource
import sqlite3
import subprocess
import sys
import tempfile
from itertools import islice, product
from pathlib import Path
from random import Random

from program import PROGRAM, Tally, build
from recipes import fill, make_file

# How many keys a table has; one key more is made.
ROWS = 20_000
COUNT = ROWS + 1
# How many times as long a join may take, and how often each is made at most, of which the least time is taken.
MOST_TIMES, RUNS = 8, 3
# More seconds of the processor than any of them takes.
MOST_SECONDS = 2

# `FoldHasher` of the kit: its first state, the multiplier, and numbers of 64 bits.
FIRST, MULTIPLIER, WORD = 0x243F6A8885A308D3, 0x9E3779B97F4A7C15, 2**64 - 1
# The bucket is told by as many low places of both halves of the hash as the number of buckets has, a power of 2.
BUCKETS = 2**15
# Multiples of 2^15 whose products with the multiplier of eight bytes have none of the 15 low places of each 32, or all of them: where
# one is added to a whole number, its bucket stays mostly.
STEPS = (
    0x33C6EFECCC8000, 0x1B944A92B4110000, 0x7FD4BCC7C8610000, 0x9254B9088108000, 0x1BC81182A0DD8000,
    0x6440723514500000, 0x640CAB4527838000, 0x959128074DD0000, 0x6D65BDC59C608000, 0x123B38123F340000,
)

Key = tuple[int | str, ...]


def multiplied(one: int, other: int) -> int:
    """The two halves of a product of numbers of 64 bits, joined by xor."""
    return (one * other & WORD) ^ (one * other >> 64)


def written(state: int, number: int) -> int:
    """The state after a number of eight bytes."""
    return multiplied(state ^ (number & WORD), MULTIPLIER ^ 16)


def bucket(state: int) -> int:
    """The bucket of what has been hashed."""
    return (state ^ state >> 32) % BUCKETS


def signed(number: int) -> int:
    """The whole number of 64 bits that is stored as this one."""
    return number - 2**64 if number >> 63 else number


def numbers(rng: Random) -> list[Key]:
    """Whole numbers of one bucket."""
    begun = written(FIRST, 1)
    found = {rng.getrandbits(64): None}
    wanted = bucket(written(begun, next(iter(found))))
    left = list(found)
    while len(found) < COUNT:
        here = left.pop() ^ begun
        for step in STEPS:
            for there in ((here + step & WORD) ^ begun, (here - step & WORD) ^ begun):
                if there not in found and bucket(written(begun, there)) == wanted:
                    found[there] = None
                    left.append(there)
    return [(signed(number),) for number in islice(found, COUNT)]


def pairs(rng: Random) -> list[Key]:
    """Pairs of whole numbers of one hash: the second takes back what the first did to the state."""
    firsts = (rng.getrandbits(64) for _ in range(COUNT))
    return [(signed(first), signed(written(written(written(FIRST, 1), first), 1))) for first in firsts]


def texts(_: Random) -> list[Key]:
    """Texts of 32 bytes of one hash. The first half leaves a state of which few places differ, and the third quarter takes it back."""
    begun = written(FIRST, 2) + 32 & WORD
    factor = MULTIPLIER ^ (2**39 + 2**63)
    base, found = None, []
    for letters in product(b"@BDFHJLN", repeat=6):
        first = int.from_bytes(bytes(letters) + b"@@", "little")
        state = multiplied(first ^ begun, factor ^ MULTIPLIER)
        base = state if base is None else base
        third = (state ^ base ^ int.from_bytes(b"@" * 8, "little")).to_bytes(8, "little")
        if all(0 < byte < 128 for byte in third):
            found.append(((first.to_bytes(8, "little") + factor.to_bytes(8, "little") + third + b"the same").decode(),))
        if len(found) == COUNT:
            return found
    return found


def other_texts(rng: Random) -> list[Key]:
    """Texts as long as those."""
    return [(f"{rng.getrandbits(128):032x}",) for _ in range(COUNT)]


def other_numbers(rng: Random) -> list[Key]:
    """Whole numbers."""
    return [(signed(rng.getrandbits(64)),) for _ in range(COUNT)]


def other_pairs(rng: Random) -> list[Key]:
    """Pairs of whole numbers."""
    return [(signed(rng.getrandbits(64)), signed(rng.getrandbits(64))) for _ in range(COUNT)]


# The forms of keys: the columns, the keys that are chosen, and others.
FORMS = {
    "whole numbers": ("k INT", numbers, other_numbers),
    "pairs of whole numbers": ("k INT, l INT", pairs, other_pairs),
    "texts": ("k TEXT", texts, other_texts),
}
# How two tables are joined, of which the second has the keys of the first in another order, or as often one key that the first doesn't
# have; and how many rows come.
JOINS = {
    "{p} AS p JOIN {q} AS q ON {on}": ROWS,
    "{p} AS p LEFT JOIN {q} AS q ON {on}": ROWS,
    "{p} AS p RIGHT JOIN {q} AS q ON {on}": ROWS,
    "{p} AS p JOIN (SELECT DISTINCT * FROM {q}) AS q ON {on}": ROWS,
    "{p} AS p JOIN {one} AS q ON {on}": 0,
    "{one} AS p LEFT JOIN {q} AS q ON {on}": ROWS,
}


def make_tables(connection: sqlite3.Connection, rng: Random, columns: str, kinds: dict[str, list[Key]]) -> None:
    """For each kind of keys a table of them, one of them in another order, and one of one more key, as often."""
    for kind, keys in kinds.items():
        one, *others = keys
        for name, rows in (("p", others), ("q", rng.sample(others, len(others))), ("one", [one] * len(others))):
            connection.execute(f"CREATE TABLE {kind}_{name}({columns}) STRICT")
            fill(connection, f"{kind}_{name}", rows)


def limit_time() -> None:
    """Holds the child within its time of the processor, in whole seconds."""
    resource.setrlimit(resource.RLIMIT_CPU, (MOST_SECONDS, MOST_SECONDS))


def seconds_of(path: Path, sql: str, wanted: bytes) -> float:
    """The time of the processor that a statement takes, endless where it takes too long or answers something else."""
    words = [str(PROGRAM), str(path), sql]
    with subprocess.Popen(words, preexec_fn=limit_time, stdin=subprocess.DEVNULL, stdout=subprocess.PIPE) as child:
        out = child.stdout.read()
        _, status, usage = os.wait4(child.pid, 0)
        child.returncode = os.waitstatus_to_exitcode(status)
    return usage.ru_utime + usage.ru_stime if (child.returncode, out) == (0, wanted) else float("inf")


def time_problem(path: Path, chosen: str, other: str, wanted: bytes) -> str:
    """What is wrong with the time of a join with chosen keys, which is made in turn with the one with others."""
    one = least = float("inf")
    for _ in range(RUNS):
        least = min(least, seconds_of(path, other, wanted))
        one = min(one, seconds_of(path, chosen, wanted))
        if one <= MOST_TIMES * least < float("inf"):
            return ""
    return f"{one:.3f} s, and {least:.3f} s with other keys"


def try_buckets(tally: Tally, path: Path) -> None:
    """Makes each join with chosen keys and with others."""
    for form, (columns, chosen, other) in FORMS.items():
        rng = Random(form)
        kinds = {"chosen": chosen(rng), "other": other(rng)}
        make_file(path, lambda connection, rng: make_tables(connection, rng, columns, kinds), 4096, rng)
        on = " AND ".join(f"p.{column} = q.{column}" for column in ("k", "l") if f"{column} " in columns)
        for join, rows in JOINS.items():
            texts = [f"SELECT count(*) FROM {join}".format(on=on, **{name: f"{kind}_{name}" for name in ("p", "q", "one")}) for kind in kinds]
            tally.add(f"{form}, {texts[0]}", time_problem(path, *texts, b"%d\n" % rows))


def main() -> int:
    """Builds the program, and makes the joins."""
    build()
    tally = Tally()
    with tempfile.TemporaryDirectory() as folder:
        try_buckets(tally, Path(folder) / "buckets.db")
    return tally.finish()


if __name__ == "__main__":
    sys.exit(main())
