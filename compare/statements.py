#!/usr/bin/env python3
"""Compares what the program answers to random statements over random tables with what SQLite answers: expressions, WHERE,
GROUP BY, HAVING, aggregates with FILTER, DISTINCT, ORDER BY, LIMIT and OFFSET over one table, with rowids or without, over tables
that are joined by joins of each kind, or over none, some over the table of the schema's rows; and several of these that UNION,
UNION ALL, INTERSECT and EXCEPT join. A third of them have one table at most and no groups, and a third groups or operators. An operation or a total that leaves 64 bits is `fault 50: Overflow`, where SQLite goes on with a
floating-point number or stops; such statements are asked for that fault, or for any answer where it isn't reached.

Run from any folder. The last line is 'N passed, M failed'. `--seed S --only N` makes one statement anew and prints it.
"""

from __future__ import annotations

import sqlite3
import sys
from collections import Counter
from collections.abc import Callable
from dataclasses import dataclass
from enum import Enum
from pathlib import Path
from random import Random

from expressions import KINDS, Columns, Maker, Queries
from program import Run, Tally, fault_line, rows_of, run
from recipes import fill, random_value
from tried import random_file, read_words, try_statements

OVERFLOW = fault_line(50)
# How many statements are tried, a third of each form, and how many where few are asked for.
STATEMENTS, FEW = 9000, 450
# The names of the table of the schema's rows, and its columns with their types.
SCHEMA_NAMES = ("sqlite_schema", "sqlite_master", "SQLite_Schema")
SCHEMA_KINDS = {"type": "TEXT", "name": "TEXT", "tbl_name": "TEXT", "rootpage": "INT", "sql": "TEXT"}
# What joins a table with ON or USING.
JOINS = (
    *("JOIN", "INNER JOIN", "inner  join", "LEFT JOIN", "LEFT OUTER JOIN", "left  join"),
    *("RIGHT JOIN", "right OUTER  join", "FULL JOIN", "FULL OUTER JOIN"),
)
# What joins SELECTs.
OPERATORS = ("UNION", "UNION ALL", "INTERSECT", "EXCEPT", "union  all", "except")


class Form(Enum):
    """What a statement has: one SELECT over one table at most, without groups; anything; or groups, or several SELECTs."""

    PLAIN = 0
    ANY = 1
    GATHERED = 2


def literal(value: int | str | bytes | float | None) -> bytes:
    """A value as the program prints it."""
    if value is None:
        return b"NULL"
    if isinstance(value, str):
        return b"'" + value.replace("'", "''").encode() + b"'"
    return f"X'{value.hex().upper()}'".encode() if isinstance(value, bytes) else str(value).encode()


def line(values: tuple) -> bytes:
    """The line of a row."""
    return b",".join(map(literal, values)) + b"\n"


@dataclass(frozen=True)
class Statement:
    """A SELECT without LIMIT; what may leave 64 bits in it, each as it stands over its sources side by side or over its groups; and
    its LIMIT. `is_ordered` tells that ORDER BY leaves no choice; `names` is a WITH before it."""

    text: str
    risky: tuple[str, ...]
    is_ordered: bool
    limit: int | None
    offset: int
    names: str = ""

    def rows(self) -> str:
        """The statement without its LIMIT."""
        return self.names + self.text

    def whole(self) -> str:
        """The statement."""
        limit = "" if self.limit is None else f" LIMIT {self.limit}"
        return self.rows() + limit + (f" OFFSET {self.offset}" if limit and self.offset else "")

    def kept(self, count: int) -> slice:
        """Which rows of so many LIMIT and OFFSET leave."""
        first = max(self.offset, 0) if self.limit is not None else 0
        return slice(first, count if self.limit is None or self.limit < 0 else first + self.limit)


def random_table(connection: sqlite3.Connection, name: str, rng: Random, most: int = 40) -> dict[str, str]:
    """Makes a table of some rows, with rowids or without: its columns and their types."""
    kinds = {f"c{place}": rng.choice(KINDS) for place in range(rng.randint(1, 5))}
    columns = [f"{column} {kind}" for column, kind in kinds.items()]
    options = "STRICT"
    if rng.random() < 0.3:
        key = rng.sample(list(kinds), rng.randint(1, min(3, len(kinds))))
        if rng.random() < 0.5:
            kinds["id"] = "INT"
            columns.append("id INT")
            key.insert(rng.randint(0, len(key)), "id")
        columns.append(f"PRIMARY KEY ({', '.join(key)})")
        options = "STRICT, WITHOUT ROWID"
    elif rng.random() < 0.6:
        kinds["id"] = "INT"
        columns.append("id INTEGER PRIMARY KEY")
    connection.execute(f"CREATE TABLE {name}({', '.join(columns)}) {options}")
    rows = (tuple(small_value(rng, kind) for kind in kinds.values()) for _ in range(min(most, rng.choice((0, 1, 5, 12, 40)))))
    fill(connection, name, rows)
    return kinds


def small_value(rng: Random, kind: str) -> int | str | bytes | None:
    """A value of this type, mostly one of few, so that rows are often equal."""
    if rng.random() < 0.05:
        value = random_value(rng, kind, 12)
        return value.replace("\0", "") if isinstance(value, str) else value
    if rng.random() < 0.15:
        return None
    if kind == "INT":
        return rng.randint(-9, 12)
    return rng.choice(("bolt", "nut", "Cap", "", "it's", "\u00e4b")) if kind == "TEXT" else rng.choice((b"", b"\0", b"ab", b"\xff"))


@dataclass
class Source:
    """FROM as it is written, and with each choice of rows side by side; what makes expressions over its columns; how many columns
    `*` has, and `.*` behind each name."""

    text: str
    pairs: str
    maker: Maker
    width: int
    widths: dict[str, int]


def no_source(rng: Random, queries: Queries) -> Source:
    """No FROM."""
    return Source("", "", Maker(rng, Columns({}), queries=queries), 0, {})


def one_source(rng: Random, table: str, kinds: dict[str, str], queries: Queries) -> Source:
    """One table behind FROM. That of the schema's rows has another name, since by its own SQLite finds no column of it; and so has a
    query."""
    called = rng.choice((table, "a", "Other") if table.isalnum() else ("a", "Other"))
    written = table if called == table else f"{table} {rng.choice(('AS ', ''))}{called}"
    ways = [lambda c: c, lambda c: c.upper(), lambda c: f"{called}.{c}", lambda c: f'"{c}"', lambda c: f"[{called}] . `{c}`"]
    columns = Columns({rng.choice(ways)(column): kind for column, kind in kinds.items()})
    return Source(f" FROM {written}", f" FROM {written}", Maker(rng, columns, queries=queries), len(kinds), {called: len(kinds)})


def joined_source(rng: Random, tables: dict[str, dict[str, str]], queries: Queries) -> Source:
    """Two or three tables behind FROM, some of them the same, whose columns are written with their names before them. USING stands
    where no RIGHT or FULL join does, since beside one SQLite takes `t.c` for what `c` alone is; `worked.py` has rows of these."""
    chosen = [rng.choice(list(tables)) for _ in range(rng.choice((2, 2, 2, 3)))]
    names = [f"{table if table.isalnum() else 'd'}{place}" for place, table in enumerate(chosen)]
    maker, text, width, pairs = Maker(rng, Columns({}), queries=queries), "", 0, []
    words = [rng.choice(JOINS) for _ in chosen]
    for place, (table, called) in enumerate(zip(chosen, names)):
        kinds = tables[table]
        maker.columns.names.update({f"{called}.{column}": kind for column, kind in kinds.items()})
        same = [column for column, kind in kinds.items() if tables[chosen[0]].get(column) == kind]
        width += len(kinds)
        joined, word = f"{table} {rng.choice(('AS ', ''))}{called}", words[place]
        if place == 0:
            text = f" FROM {joined}"
        elif place == 1 and same and not any(map(pads_left, words[1:])) and rng.random() < 0.25:
            using = rng.sample(same, rng.randint(1, min(2, len(same))))
            text += f" {word} {joined} USING ({', '.join(using)})"
            width -= len(using)
        elif rng.random() < 0.6:
            is_plain = is_inner(word) and any(map(pads_left, words[place + 1 :]))
            text += f" {word} {joined} ON {equal_columns(rng, maker, called, kinds) if is_plain else random_condition(rng, maker, called, kinds)}"
        else:
            text += f"{rng.choice((',', ' CROSS JOIN', ' JOIN'))} {joined}"
        pairs.append(choices(table, called, kinds))
    widths = {called: len(tables[table]) for table, called in zip(chosen, names)}
    return Source(text, f" FROM {', '.join(pairs)}", maker, width, widths)


def is_inner(word: str) -> bool:
    """Whether this joins tables by an inner join."""
    return word.split()[0].upper() in ("JOIN", "INNER")


def pads_left(word: str) -> bool:
    """Whether this is a RIGHT or FULL join. Left of one SQLite 3.40.1 is wrong about an inner join with a condition that is never
    true, and gives no row: so ON of such joins is an equality of columns, and `worked.py` has a row of the other."""
    return word.split()[0].upper() in ("RIGHT", "FULL")


def choices(table: str, called: str, kinds: dict[str, str]) -> str:
    """The rows of a table, and NULLs as they stand where none of them does."""
    return f"(SELECT * FROM {table} UNION ALL SELECT {', '.join(['NULL'] * len(kinds))}) AS {called}"


def equal_columns(rng: Random, maker: Maker, called: str, kinds: dict[str, str]) -> str:
    """That a column of the table is one of those before it, or where none has its type, one of its own."""
    column, kind = rng.choice(list(kinds.items()))
    others = [name for name in maker.columns.of(kind) if not name.startswith(f"{called}.")]
    return f"{rng.choice(others or [f'{called}.{column}'])} = {called}.{column}"


def random_condition(rng: Random, maker: Maker, called: str, kinds: dict[str, str]) -> str:
    """An ON: mostly that a column of the table is one of those before it, and sometimes anything."""
    equal = equal_columns(rng, maker, called, kinds)
    return rng.choice((equal, equal, f"{equal} AND {maker.make('INT', 1)}", maker.make("INT", 2)))


def random_keys(rng: Random, maker: Maker, width: int, is_final: bool, is_distinct: bool) -> str:
    """Terms of ORDER BY. Where they are final, all result columns stand behind them; behind DISTINCT there are no others. None has
    an AND: SQLite's parser makes the number 0 of `x AND 0`, and takes that for the place of a result column."""
    keys = []
    for _ in range(rng.randint(0 if is_final else 1, 2)):
        named = [f"{maker.make(rng.choice(KINDS), 1)}" for _ in range(9)]
        columns = [key for key in named if key.startswith("(") and "AND" not in key and any(name in key for name in maker.columns.names)]
        keys.append(rng.choice(columns) if columns and not is_distinct and rng.random() < 0.6 else str(rng.randint(1, width)))
    keys += [str(place) for place in range(1, width + 1)] if is_final else []
    endings = ("", "", " ASC", " DESC", " NULLS FIRST", " NULLS LAST", " DESC NULLS FIRST", " asc nulls last")
    return " ORDER BY " + ", ".join(key + rng.choice(endings) for key in keys)


@dataclass
class Shown:
    """The result columns of a SELECT, what stands behind its WHERE, and what makes expressions over its rows, or its groups."""

    items: list[str]
    width: int
    behind: str
    maker: Maker


def typed_columns(rng: Random, source: Source, kinds: list[str]) -> Shown:
    """Result columns of these types over the rows of FROM, each with a name."""
    items = [f"{source.maker.make(kind, rng.randint(0, 2))} AS x{place}" for place, kind in enumerate(kinds)]
    return Shown(items, len(items), "", source.maker)


def plain_columns(rng: Random, source: Source) -> Shown:
    """Result columns over the rows of FROM."""
    items, width = [], 0
    for _ in range(rng.randint(1, 4)):
        if source.text and rng.random() < 0.15:
            called = rng.choice(("", *source.widths))
            items.append(f"{called}.*" if called else "*")
            width += source.widths[called] if called else source.width
            continue
        alias = rng.choice(("", "", f" AS x{width}", f" x{width}"))
        items.append(source.maker.make(rng.choice(KINDS), rng.randint(0, 3)) + alias)
        width += 1
    return Shown(items, width, "", source.maker)


def random_group_key(rng: Random, maker: Maker) -> tuple[str, str] | None:
    """A column or another expression over columns, and its type. It has no AND, for the reason that `random_keys` tells."""
    if not maker.columns.names or rng.random() < 0.6:
        return rng.choice(list(maker.columns.names.items())) if maker.columns.names else None
    kind = rng.choice(KINDS)
    key = maker.make(kind, 2)
    return (key, kind) if key.startswith("(") and "AND" not in key and any(name in key for name in maker.columns.names) else None


def random_aggregate(rng: Random, maker: Maker, wanted: str = "") -> tuple[str, str]:
    """An aggregate, and its type, which is the one that is wanted, if one is."""
    functions = ("count", "sum", "sum", "min", "max", "MAX") if wanted in ("", "INT") else ("min", "max", "MAX")
    function, kind = rng.choice(functions), wanted or rng.choice(KINDS)
    kind = "INT" if function == "sum" else rng.choice(KINDS) if function == "count" else kind
    argument = "*" if function == "count" and rng.random() < 0.5 else maker.make(kind, rng.randint(0, 2))
    ending = f" FILTER (WHERE {maker.make('INT', rng.randint(1, 2))})" if rng.random() < 0.25 else ""
    return f"{function}({argument}){ending}", "INT" if function == "count" else kind


def group_columns(rng: Random, source: Source, kinds: list[str] | None = None) -> Shown:
    """Result columns over groups, of these types where they are given, and then with names. Keys and aggregates stand for columns;
    where there are types, or no keys, the first result column is an aggregate."""
    keys = dict(filter(None, (random_group_key(rng, source.maker) for _ in range(rng.choice((0, 1, 1, 2))))))
    first = [random_aggregate(rng, source.maker, kinds[0])] if kinds else []
    aggregates = dict(first + [random_aggregate(rng, source.maker) for _ in range(rng.randint(1, 3))])
    maker = Maker(rng, Columns({**keys, **aggregates}), queries=source.maker.queries)
    maker.risky += [aggregate for aggregate in aggregates if aggregate.startswith("sum")]
    items = [first[0][0] if first else rng.choice(list(keys or aggregates))]
    others = kinds[1:] if kinds else [rng.choice(KINDS) for _ in range(rng.randint(0, 3))]
    items += [maker.make(kind, rng.randint(0, 2)) for kind in others]
    behind = f" GROUP BY {', '.join(keys)}" if keys else ""
    items = [item + (f" AS x{place}" if kinds else rng.choice(("", "", f" AS x{place}"))) for place, item in enumerate(items)]
    return Shown(items, len(items), behind, maker)


@dataclass
class Core:
    """A SELECT without ORDER BY and LIMIT, with what it shows and what may leave 64 bits in it."""

    text: str
    shown: Shown
    is_distinct: bool
    source: Source
    rows: str
    is_grouped: bool

    def risky(self) -> list[str]:
        """What may leave 64 bits, each as it stands over the sources side by side or over the groups."""
        risky = [f"{operation} AS x{self.source.pairs}" for operation in self.source.maker.risky]
        return risky + ([f"{operation} AS x{self.rows}" for operation in self.shown.maker.risky] if self.is_grouped else [])


def random_core(
    rng: Random, tables: dict[str, dict[str, str]], kinds: list[str] | None = None, queries: Queries = (), form: Form = Form.ANY
) -> Core:
    """A SELECT over one of these tables, over several that are joined, or over none, with result columns of these types, if any are
    given, whose expressions may ask these queries."""
    share, table = rng.random(), rng.choice(list(tables))
    if share < 0.1:
        source = no_source(rng, queries)
    else:
        is_joined = share < 0.4 and form is not Form.PLAIN
        source = joined_source(rng, tables, queries) if is_joined else one_source(rng, table, tables[table], queries)
    is_grouped = form is Form.GATHERED or (form is Form.ANY and rng.random() < (0.25 if kinds else 0.4))
    if is_grouped:
        shown = group_columns(rng, source, kinds)
    else:
        shown = typed_columns(rng, source, kinds) if kinds else plain_columns(rng, source)
    is_distinct = rng.random() < 0.3
    text = f"SELECT {'DISTINCT ' if is_distinct else rng.choice(('', '', 'ALL '))}{', '.join(shown.items)}"
    rows = source.text + (f" WHERE {source.maker.make('INT', rng.randint(1, 3))}" if rng.random() < 0.6 else "") + shown.behind
    text += rows
    if shown.behind and rng.random() < 0.4:
        text += f" HAVING {shown.maker.make('INT', rng.randint(1, 2))}"
    return Core(text, shown, is_distinct, source, rows, is_grouped)


def random_limit(rng: Random) -> tuple[int | None, int]:
    """LIMIT, if there is one, and OFFSET."""
    limit = rng.randint(-2, 15) if rng.random() < 0.4 else None
    return limit, rng.randint(-2, 6) if rng.random() < 0.5 else 0


def random_alone(rng: Random, tables: dict[str, dict[str, str]], queries: Queries, form: Form) -> Statement:
    """One SELECT."""
    core = random_core(rng, tables, queries=queries, form=form)
    is_ordered, text = rng.random() < 0.5, core.text
    if is_ordered:
        text += random_keys(rng, core.shown.maker, core.shown.width, is_final=True, is_distinct=core.is_distinct)
    limit, offset = random_limit(rng)
    return Statement(text, tuple(core.risky()), is_ordered, limit, offset)


def random_compound(rng: Random, tables: dict[str, dict[str, str]], queries: Queries) -> Statement:
    """SELECTs that operators join from the left. ORDER BY names result columns, by their places or by the names of the first SELECT's,
    and where it stands names all of them, so that it leaves no choice."""
    kinds = [rng.choice(KINDS) for _ in range(rng.choice((1, 1, 2, 3)))]
    cores = [random_core(rng, tables, kinds, queries) for _ in range(rng.choice((2, 2, 2, 3, 4)))]
    text = cores[0].text + "".join(f" {rng.choice(OPERATORS)} {core.text}" for core in cores[1:])
    is_ordered = rng.random() < 0.5
    if is_ordered:
        places = rng.sample(range(len(kinds)), len(kinds))
        endings = ("", "", " ASC", " DESC", " NULLS FIRST", " NULLS LAST", " DESC NULLS FIRST", " asc nulls last")
        text += " ORDER BY " + ", ".join(rng.choice((str(place + 1), f"x{place}", f"X{place}")) + rng.choice(endings) for place in places)
    limit, offset = random_limit(rng)
    return Statement(text, tuple(risky for core in cores for risky in core.risky()), is_ordered, limit, offset)


def random_statement(rng: Random, tables: dict[str, dict[str, str]], queries: Queries = (), form: Form = Form.ANY) -> Statement:
    """A statement of one SELECT, or of several that are joined, whose expressions may ask these queries."""
    shares = {Form.PLAIN: 0.0, Form.ANY: 0.25, Form.GATHERED: 0.5}
    return random_compound(rng, tables, queries) if rng.random() < shares[form] else random_alone(rng, tables, queries, form)


def leaves_64_bits(connection: sqlite3.Connection, statement: Statement) -> bool:
    """Whether an operation of the statement is a floating-point number on some row, or stops SQLite."""
    for risky in statement.risky:
        try:
            if connection.execute(f"{statement.names}SELECT count(*) FROM (SELECT {risky}) WHERE typeof(x) = 'real'").fetchone()[0]:
                return True
        except sqlite3.OperationalError as error:
            if "overflow" not in str(error):
                raise
            return True
    return False


def rows_problem(statement: Statement, found: list[bytes], all_rows: list[bytes]) -> str:
    """What is wrong with these lines, where these are all rows before LIMIT."""
    wanted = all_rows[statement.kept(len(all_rows))]
    if statement.is_ordered:
        return "" if found == wanted else f"{found[:5]}, and not {wanted[:5]}"
    if len(found) != len(wanted):
        return f"{len(found)} rows, and not {len(wanted)}"
    strange = Counter(found) - Counter(all_rows)
    return f"rows that aren't there: {list(strange)[:3]}" if strange else ""


def answer_problem(connection: sqlite3.Connection, statement: Statement, answer: Run) -> str:
    """What is wrong with an answer."""
    if leaves_64_bits(connection, statement):
        is_well = (answer.status == 0 and not answer.err) or (answer.status == 1 and answer.err == OVERFLOW)
        return "" if is_well else str(answer)
    found = rows_of(answer.out)
    if answer.status or answer.err or found is None:
        return str(answer)
    return rows_problem(statement, found, [line(row) for row in connection.execute(statement.rows())])


def ask_each(
    tally: Tally, path: Path, seed: int, numbers: range, is_shown: bool, make: Callable[[int, dict], tuple[Statement, Statement]], make_table: Callable
) -> None:
    """Makes a file of such tables, and asks it these statements of this seed: for each number what the program is asked, and what SQLite
    is in its place."""
    connection, tables = random_file(path, seed, numbers, make_table)
    for number in numbers:
        asked, told = make(number, tables)
        if is_shown:
            print(asked.whole(), told.whole(), sep="\n")
        cache = ("--cache", "1") if number % 5 == 0 else ()
        answer = run(*cache, path, asked.whole())
        problem = "" if is_too_large(asked.whole(), answer) else answer_problem(connection, told, answer)
        tally.add(f"--seed {seed} --only {number}: {asked.whole()}", problem)
    connection.close()


def is_too_large(text: str, answer: Run) -> bool:
    """Whether a statement was refused for its size. It has at most 64 sources; each stands behind FROM, JOIN or a comma."""
    return answer.err == fault_line(38) and text.count("FROM") + text.count("JOIN") + text.count(",") > 64


def try_file(tally: Tally, path: Path, seed: int, numbers: range, is_shown: bool) -> None:
    """Makes a file, and asks it these statements of this seed."""

    def make(number: int, tables: dict[str, dict[str, str]]) -> tuple[Statement, Statement]:
        rng = Random(f"{seed} {number}")
        known = {**tables, rng.choice(SCHEMA_NAMES): SCHEMA_KINDS} if rng.random() < 0.4 else tables
        statement = random_statement(rng, known, form=Form(number % len(Form)))
        return statement, statement

    ask_each(tally, path, seed, numbers, is_shown, make, random_table)


if __name__ == "__main__":
    sys.exit(try_statements(read_words("Compares random statements with SQLite.", STATEMENTS, FEW), try_file))
