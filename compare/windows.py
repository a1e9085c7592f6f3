#!/usr/bin/env python3
"""Compares what the program answers to random statements with windows over random tables with what SQLite answers: each function, with
frames of ROWS, RANGE and GROUPS, every edge and every EXCLUDE, over one table, joined tables or groups.

A window puts rows that its ORDER BY doesn't tell apart in the order of all their values. SQLite leaves them in some order, so that it
is asked for that one by further terms of ORDER BY, in its own text alone where these change nothing else, elsewhere in both. Where they
would change what a frame is, functions that see the order stand over an ORDER BY that leaves no choice. The rows of each table differ.

SQLite is wrong about `min` and `max` with a FILTER where a frame loses rows on its way: there they stand without one.

Run from any folder. The last line is 'N passed, M failed'. `--seed S --only N` makes one statement anew and prints it.
"""

from __future__ import annotations

import sqlite3
import sys
from dataclasses import dataclass, field, replace
from pathlib import Path
from random import Random

from expressions import KINDS, Columns, Maker
from program import Tally
from recipes import fill
from statements import Statement, ask_each, choices, equal_columns, random_aggregate, random_limit, small_value
from tried import Kinds, read_words, try_statements

# How many statements are tried, and how many where few are asked for.
STATEMENTS, FEW = 3000, 300
UNITS = ("ROWS", "RANGE", "GROUPS", "rows", "range", "groups")
# Where an edge stands, and what a frame leaves out.
EDGES = ("UNBOUNDED PRECEDING", "{} PRECEDING", "CURRENT ROW", "{} FOLLOWING", "UNBOUNDED FOLLOWING")
EXCLUDED = ("", "", "", " EXCLUDE NO OTHERS", " EXCLUDE CURRENT ROW", " EXCLUDE GROUP", " EXCLUDE TIES", " exclude ties")
ENDINGS = ("", "", " ASC", " DESC", " NULLS FIRST", " NULLS LAST", " DESC NULLS FIRST", " desc nulls last")


def random_table(connection: sqlite3.Connection, name: str, rng: Random) -> Kinds:
    """Makes a table of some rows, each with another id, with rowids or without: its columns and their types."""
    kinds = {f"c{place}": rng.choice(KINDS) for place in range(rng.randint(1, 3))}
    kinds = dict(rng.sample([*kinds.items(), ("id", "INT")], len(kinds) + 1))
    key, options = rng.choice((("id INTEGER PRIMARY KEY", "STRICT"), ("id INT PRIMARY KEY", "STRICT, WITHOUT ROWID")))
    columns = ", ".join(key if column == "id" else f"{column} {kind}" for column, kind in kinds.items())
    connection.execute(f"CREATE TABLE {name}({columns}) {options}")
    count = rng.choice((0, 1, 6, 15, 40))
    ids = rng.sample(range(-20, 60), count)
    fill(connection, name, [tuple(ids[row] if column == "id" else small_value(rng, kind) for column, kind in kinds.items()) for row in range(count)])
    return kinds


@dataclass
class Taken:
    """The rows that windows take: what stands behind the result columns; what makes expressions over them; the columns that tell them
    apart, in their order; the one number that does, if one does; and what may leave 64 bits below them."""

    text: str
    maker: Maker
    order: list[str]
    number: str = ""
    risky: list[str] = field(default_factory=list)


def from_rows(rng: Random, tables: dict[str, Kinds]) -> tuple[Taken, str]:
    """The rows of one table, or of two that are joined, that WHERE keeps; and the tables side by side."""
    chosen = [rng.choice(list(tables)) for _ in range(rng.choice((1, 1, 1, 2)))]
    maker, text, pairs = Maker(rng, Columns({})), "", []
    for place, table in enumerate(chosen):
        called, kinds = f"{table}{place}", tables[table]
        maker.columns.names.update({f"{called}.{column}": kind for column, kind in kinds.items()})
        pairs.append(choices(table, called, kinds))
        word = rng.choice((",", " JOIN", " LEFT JOIN", " FULL JOIN")) if place else " FROM"
        text += f"{word} {table} AS {called}" + (f" ON {equal_columns(rng, maker, called, kinds)}" if "JOIN" in word else "")
    text += f" WHERE {maker.make('INT', 2)}" if rng.random() < 0.3 else ""
    number = f"{chosen[0]}0.id" if len(chosen) == 1 else ""
    return Taken(text, maker, list(maker.columns.names), number), f" FROM {', '.join(pairs)}"


def group_rows(rng: Random, rows: Taken) -> Taken:
    """The rows of groups of these."""
    keys = dict(rng.sample(list(rows.maker.columns.names.items()), min(len(rows.order), rng.choice((0, 1, 1, 2)))))
    aggregates = dict(random_aggregate(rng, rows.maker) for _ in range(rng.randint(1, 2)))
    maker = Maker(rng, Columns({**keys, **aggregates}))
    text = rows.text + (f" GROUP BY {', '.join(keys)}" if keys else "")
    if keys and rng.random() < 0.3:
        text += f" HAVING {maker.make('INT', 1)}"
    sums = [f"{aggregate} AS x{text}" for aggregate in aggregates if aggregate.startswith("sum")]
    return Taken(text, maker, list(keys), risky=sums)


@dataclass
class Frame:
    """A frame as it is written; whether the order of all rows tells what is in it, whether it asks which rows ORDER BY doesn't tell apart,
    and whether it has distances of keys; and whether it only grows along the rows."""

    text: str
    sees_order: bool
    sees_peers: bool
    has_distances: bool
    grows: bool


# Where none is written, a frame ends with the rows that ORDER BY doesn't tell apart.
NO_FRAME = Frame("", False, True, False, True)


def random_frame(rng: Random, has_order: bool) -> Frame:
    """A frame behind an ORDER BY, or behind none."""
    unit = rng.choice(UNITS if has_order else ("ROWS", "rows"))
    start = rng.randint(0, 3)
    end = rng.randint(max(start, 1), 4)
    text = f"BETWEEN {EDGES[start]} AND {EDGES[end]}"
    if start < 3 and rng.random() < 0.3:
        end, text = 2, EDGES[start]
    while "{}" in text:
        text = text.replace("{}", str(rng.choice((0, 1, 1, 2, 3, 50))), 1)
    excluded = rng.choice(EXCLUDED)
    has_places = unit.upper() == "ROWS"
    sees_peers = not has_places or excluded.upper().endswith(("GROUP", "TIES"))
    has_distances = unit.upper() == "RANGE" and bool({start, end} & {1, 3})
    return Frame(f" {unit} {text}{excluded}", has_places, sees_peers, has_distances, start == 0 and not excluded)


@dataclass
class Call:
    """A call over a window as the program is asked for it and as SQLite is, and its type."""

    asked: str
    told: str
    kind: str


@dataclass
class Windows:
    """Calls over these rows, and the windows behind WINDOW, in both texts."""

    rng: Random
    rows: Taken
    named: list[tuple[str, str]] = field(default_factory=list)

    def value(self, kind: str) -> str:
        """A value of this type."""
        return self.rows.maker.make(kind, self.rng.randint(0, 2))

    def call(self) -> Call:
        """A call over a window."""
        kind, has_order = self.rng.choice(KINDS), self.rng.random() < 0.85
        frame = random_frame(self.rng, has_order) if self.rng.random() < 0.8 else NO_FRAME
        form = self.rng.randint(0, 11)
        if form < 4:
            text, kind = random_aggregate(self.rng, self.rows.maker)
            if "FILTER" in text and text[:3].lower() in ("min", "max") and not frame.grows:
                frame = NO_FRAME
            return self.over(text, kind, frame, frame.sees_order, frame.sees_peers, has_order)
        if form < 7:
            text = self.rng.choice(("row_number()", "rank()", "dense_rank()", f"ntile({self.rng.randint(1, 5)})", "Rank()"))
            is_rank = text.lower().endswith("rank()")
            return self.over(text, "INT", NO_FRAME, not is_rank, is_rank, has_order)
        if form < 9:
            more = self.rng.choice(("", f", {self.rng.choice((0, 1, 2, 9))}", f", {self.rng.randint(0, 3)}, {self.value(kind)}"))
            return self.over(f"{self.rng.choice(('lag', 'lead'))}({self.value(kind)}{more})", kind, NO_FRAME, True, False, has_order)
        x = self.value(kind)
        text = self.rng.choice((f"first_value({x})", f"last_value({x})", f"nth_value({x}, {self.rng.randint(1, 4)})"))
        return self.over(text, kind, frame, True, frame.sees_peers, has_order)

    def keys(self, frame: Frame, is_whole: bool) -> str:
        """Terms of ORDER BY. Where they are whole, they leave no choice."""
        if frame.has_distances:
            return (self.rows.number if is_whole else self.rows.maker.make("INT", self.rng.randint(0, 1))) + self.rng.choice(ENDINGS)
        keys = [self.rows.maker.make(self.rng.choice(KINDS), self.rng.randint(0, 1)) for _ in range(self.rng.randint(1, 2))]
        return ", ".join(key + self.rng.choice(ENDINGS) for key in keys + (self.rows.order if is_whole else []))

    def over(self, function: str, kind: str, frame: Frame, sees_order: bool, sees_peers: bool, has_order: bool) -> Call:
        """A call of a function that sees the order of all rows, or which of them ORDER BY doesn't tell apart, or both."""
        is_whole = sees_order and sees_peers
        if is_whole and frame.has_distances and not self.rows.number:
            frame = NO_FRAME
        asked = self.keys(frame, is_whole) if has_order or is_whole else ""
        more = ", ".join(self.rows.order) if sees_order and not sees_peers else ""
        told = f"{asked}, {more}" if asked and more else asked or more
        parts = [self.rows.maker.make(self.rng.choice(KINDS), self.rng.randint(0, 1)) for _ in range(self.rng.choice((0, 0, 1, 1, 2)))]
        partition = f"PARTITION BY {', '.join(parts)}" if parts else ""
        return self.written(function, kind, partition, [(f" ORDER BY {keys}" if keys else "") + frame.text for keys in (asked, told)])

    def written(self, function: str, kind: str, partition: str, ends: list[str]) -> Call:
        """The call over a window that stands in its parentheses, or behind WINDOW."""
        name = f"w{len(self.named)}"
        if self.rng.random() < 0.3:
            self.named.append((f"{name} AS ({partition}{ends[0]})", f"{name} AS ({partition}{ends[1]})"))
            return Call(f"{function} OVER {name}", f"{function} OVER {name}", kind)
        return Call(f"{function} OVER ({partition}{ends[0]})", f"{function} OVER ({partition}{ends[1]})", kind)


def random_windowed(rng: Random, tables: dict[str, Kinds]) -> tuple[Statement, Statement]:
    """A statement as the program is asked for it, and as SQLite is."""
    rows, pairs = from_rows(rng, tables)
    below = rows
    if rng.random() < 0.3:
        rows = group_rows(rng, below)
    windows = Windows(rng, rows)
    calls = {f"<{place}>": windows.call() for place in range(rng.randint(1, 3))}
    shown = Maker(rng, Columns({**rows.maker.columns.names, **{place: call.kind for place, call in calls.items()}}))
    items = [*calls, *(shown.make(rng.choice(KINDS), rng.randint(0, 2)) for _ in range(rng.randint(0, 2)))]
    items += rows.order if rng.random() < 0.5 else []
    is_ordered = rng.random() < 0.5
    end = " ORDER BY " + ", ".join(str(place + 1) + rng.choice(ENDINGS) for place in range(len(items))) if is_ordered else ""
    limit, offset = random_limit(rng)
    word = rng.choice(("", "", "", "DISTINCT "))

    def written(text: str, at: int) -> str:
        for place, call in calls.items():
            text = text.replace(place, (call.asked, call.told)[at])
        return text

    named = [f" WINDOW {', '.join(window[at] for window in windows.named)}" if windows.named else "" for at in (0, 1)]
    texts = [written(f"SELECT {word}{', '.join(items)}{rows.text}", at) + named[at] + end for at in (0, 1)]
    risky = [f"{operation} AS x{pairs}" for operation in below.maker.risky] + rows.risky
    if rows is not below:
        risky += [f"{operation} AS x{rows.text}" for operation in rows.maker.risky]
    sums = [place for place, call in calls.items() if call.told.startswith("sum")]
    risky += [f"{written(operation, 1)} AS x{rows.text}{named[1]}" for operation in [*sums, *shown.risky]]
    told = Statement(texts[1], tuple(risky), is_ordered, limit, offset)
    return replace(told, text=texts[0]), told


def try_file(tally: Tally, path: Path, seed: int, numbers: range, is_shown: bool) -> None:
    """Makes a file, and asks it these statements of this seed."""

    def make(number: int, tables: dict[str, Kinds]) -> tuple[Statement, Statement]:
        return random_windowed(Random(f"{seed} {number} windows"), tables)

    ask_each(tally, path, seed, numbers, is_shown, make, random_table)


if __name__ == "__main__":
    sys.exit(try_statements(read_words("Compares random statements with windows with SQLite.", STATEMENTS, FEW), try_file))
