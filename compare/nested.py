#!/usr/bin/env python3
"""Compares what the program answers to random statements with queries in them with what SQLite answers: derived tables in FROM, WITH
and its mentions, IN and NOT IN over a query, EXISTS. What the queries are, and what is around them, `statements.py` makes.

Run from any folder. The last line is 'N passed, M failed'. `--seed S --only N` makes one statement anew and prints it.
"""

from __future__ import annotations

import sys
from dataclasses import dataclass, field, replace
from functools import partial
from pathlib import Path
from random import Random

from expressions import KINDS
from program import Tally
from statements import OPERATORS, Statement, ask_each, random_core, random_statement, random_table
from tried import Kinds, read_words, try_statements

# How many statements are tried, and how many where few are asked for.
STATEMENTS, FEW = 2000, 200
# How many rows a table has at most: queries of joins are joined again.
MOST_ROWS = 5


@dataclass
class Queries:
    """The tables and queries that a FROM may name, each with its columns' types; those that IN and EXISTS may ask; and what may leave
    64 bits in them."""

    rng: Random
    sources: dict[str, Kinds]
    asked: list[tuple[str, str]] = field(default_factory=list)
    risky: list[str] = field(default_factory=list)

    def query(self, kinds: list[str]) -> str:
        """A query of columns of these types, which are called x0, x1 and so on."""
        cores = [random_core(self.rng, self.sources, kinds, self.asked) for _ in range(self.rng.choice((1, 1, 1, 2)))]
        self.risky += [risky for core in cores for risky in core.risky()]
        return cores[0].text + "".join(f" {self.rng.choice(OPERATORS)} {core.text}" for core in cores[1:])

    def kinds(self) -> list[str]:
        """The types of some columns."""
        return [self.rng.choice(KINDS) for _ in range(self.rng.choice((1, 2, 2, 3)))]

    def item(self, name: str) -> str:
        """An item of a WITH, which those behind it may name."""
        kinds = self.kinds()
        text = self.query(kinds)
        columns = [f"x{place}" for place in range(len(kinds))]
        if self.rng.random() < 0.3:
            columns = [f"y{place}" for place in range(len(kinds))]
        self.sources[name] = dict(zip(columns, kinds))
        written = f"({', '.join(columns)})" if columns[0] == "y0" else ""
        return f"{name}{written} AS ({text})"

    def derive(self) -> None:
        """A query in the place of a table."""
        kinds = self.kinds()
        self.sources[f"({self.query(kinds)})"] = {f"x{place}": kind for place, kind in enumerate(kinds)}

    def ask(self) -> None:
        """A query that IN and EXISTS may ask."""
        kind = self.rng.choice(KINDS)
        self.asked.append((self.query([kind]), kind))


def random_nested(rng: Random, tables: dict[str, Kinds]) -> Statement:
    """A statement with queries in it, mostly."""
    queries = Queries(rng, dict(tables))
    items = []
    for place in range(rng.choice((0, 0, 1, 2))):
        items.append(queries.item(rng.choice((f"w{place}", f'"W{place}"', f"[w {place}]")) if rng.random() < 0.3 else f"w{place}"))
    for _ in range(rng.choice((0, 1, 1, 2))):
        rng.choice((queries.derive, queries.derive, queries.ask))()
    for _ in range(rng.choice((0, 0, 1))):
        queries.ask()
    new = [name for name in queries.sources if name not in tables]
    chosen = {name: queries.sources[name] for name in [*new, *rng.sample(list(tables), 1 if new else 3)]}
    statement = random_statement(rng, chosen, queries.asked)
    names = f"WITH {', '.join(items)} " if items else ""
    return replace(statement, risky=(*queries.risky, *statement.risky), names=names)


def try_file(tally: Tally, path: Path, seed: int, numbers: range, is_shown: bool) -> None:
    """Makes a file, and asks it these statements of this seed."""

    def make(number: int, tables: dict[str, Kinds]) -> tuple[Statement, Statement]:
        statement = random_nested(Random(f"{seed} {number} nested"), tables)
        return statement, statement

    ask_each(tally, path, seed, numbers, is_shown, make, partial(random_table, most=MOST_ROWS))


if __name__ == "__main__":
    sys.exit(try_statements(read_words("Compares random statements with queries in them with SQLite.", STATEMENTS, FEW), try_file))
