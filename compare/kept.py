#!/usr/bin/env python3
"""The images that lie beside the programs for tests, written byte by byte: a shop with indexes, a table without rowids, and rows that
are older than columns; the same shop beside a table of 201 pages; values that a page keeps whole or not; an index of three pages; an
image of few pages of each kind; tables with indexes of three levels. And those of `agreement.py`: tables that a text makes, once with
few rows on a page and once with each tree on one page.

    kept.py     writes them again
"""

from __future__ import annotations

import sqlite3
import sys
from pathlib import Path

from shop import SHOP
from writer import Writer, record

CRATES = Path(__file__).resolve().parent.parent / "crates"
# The tables of `second_engine` as a text, and their images by name, each with the size of its pages, the bytes that lie unused before each
# cell, and how many rows or entries a leaf has and how many children a page.
TABLES = CRATES / "second_engine" / "data" / "tables.sql"
SHAPES = {"deep": (512, 3, 3, 4), "flat": (4096, 0, 1000, 1000)}

# A table without rowids, with indexes.
TAG = """
    CREATE TABLE tag(item INT, label TEXT, w INT, PRIMARY KEY (label, item)) STRICT, WITHOUT ROWID;
    INSERT INTO tag VALUES (1, 'a', 5), (2, 'a', 6), (1, 'b', 7);
    CREATE INDEX tag_w ON tag(w DESC); CREATE INDEX tag_item ON tag(item);"""
# What the shop of `engines` has beside the shop's tables.
MORE = f"CREATE INDEX item_up ON item(qty); CREATE INDEX item_down ON item(qty DESC); {TAG}"
# A table whose first three rows are older than its last columns.
OLD = "CREATE TABLE old(id INTEGER PRIMARY KEY, name TEXT NOT NULL, qty INT, tag TEXT DEFAULT 'none', lot INT) STRICT"
OLD_ROWS = [(None, "bolt", 40), (None, "nut", None), (None, "cap", 7), (None, "nut", 7, "x"), (None, "cap", 1, None)]
OLD_ENTRIES = [(None, 5), ("none", 1), ("none", 2), ("none", 3), ("x", 4)]
# The same with blanks, where a few other bytes make another table.
AGED = OLD.replace(" old(", " aged(").replace("'none'", "'none'  ").replace("lot INT", "lot INT" + 9 * " ")
NOTE = "CREATE TABLE note(id INTEGER PRIMARY KEY, body TEXT NOT NULL, n INT, flag INT NOT NULL) STRICT"
BIG = "CREATE TABLE big(id INTEGER PRIMARY KEY, qty INT, pad TEXT NOT NULL) STRICT"

# Tables whose trees have several levels where a page has five rows or entries, and an interior one four children.
SEARCHED = """
    CREATE TABLE item(id INTEGER PRIMARY KEY, name TEXT NOT NULL, qty INT, mark BLOB, code INT UNIQUE) STRICT;
    WITH n(i) AS (SELECT 0 UNION ALL SELECT i + 1 FROM n WHERE i < 58)
    INSERT INTO item SELECT 3 * i - 60, substr('boltnutscapsrodspins', i % 5 * 4 + 1, 4), iif(i % 9 = 4, NULL, i * 37 % 23 - 5), iif(i % 4, NULL, x'00ff'),
    iif(i % 10 = 9, NULL, 100 - i) FROM n;
    CREATE INDEX by_qty ON item(qty); CREATE INDEX by_qty_down ON item(qty DESC, name); CREATE INDEX some ON item(name) WHERE qty > 10;
    CREATE TABLE part(maker TEXT NOT NULL, number INT NOT NULL, name TEXT, code INT, PRIMARY KEY (number, maker)) STRICT, WITHOUT ROWID;
    WITH n(i) AS (SELECT 0 UNION ALL SELECT i + 1 FROM n WHERE i < 55)
    INSERT INTO part SELECT substr('acmebrixcorp', i % 3 * 4 + 1, 4), i / 3, iif(i % 6 = 5, NULL, substr('geartrimwash', i / 4 % 3 * 4 + 1, 4)),
    iif(i % 8 = 7, NULL, 2 * i) FROM n;
    CREATE INDEX by_name ON part(name DESC); CREATE UNIQUE INDEX by_code ON part(code); CREATE INDEX by_maker ON part(maker, name)"""


def entries_of(connection: sqlite3.Connection, table: str, index: str) -> list[bytes]:
    """The entries of an index in its order, as records; of a table without rowids those of its primary key are its rows."""
    select = "SELECT coalesce(name, 'rowid'), desc FROM pragma_index_xinfo(?) ORDER BY seqno"
    columns = connection.execute(select, (index,)).fetchall()
    names = ", ".join(name for name, _ in columns)
    order = ", ".join(f"{name} DESC" if descends else name for name, descends in columns)
    sql = connection.execute("SELECT coalesce(max(sql), '') FROM sqlite_schema WHERE name = ?", (index,)).fetchone()[0]
    condition = sql.partition(" WHERE ")[2] or "1"
    return [record(row) for row in connection.execute(f"SELECT {names} FROM {table} WHERE {condition} ORDER BY {order}")]


def rows_of(connection: sqlite3.Connection, table: str) -> list[tuple[int, bytes]]:
    """The rows of a table with rowids. An INTEGER PRIMARY KEY is NULL in its record."""
    select = "SELECT type = 'INTEGER' AND pk = 1 FROM pragma_table_info(?) ORDER BY cid"
    aliases = [is_alias for (is_alias,) in connection.execute(select, (table,))]
    rows = connection.execute(f"SELECT rowid, * FROM {table} ORDER BY rowid")
    return [(rowid, record(None if is_alias else value for value, is_alias in zip(row, aliases))) for rowid, *row in rows]


def primary_key_of(connection: sqlite3.Connection, table: str) -> str | None:
    """The index that a table without rowids is; none of another."""
    select = "SELECT name FROM pragma_index_list(?1) WHERE origin = 'pk' AND (SELECT wr FROM pragma_table_list WHERE name = ?1)"
    found = connection.execute(select, (table,)).fetchone()
    return found and found[0]


def write_tables(writer: Writer, text: str, leaf: int = 1000, fan: int = 1000) -> None:
    """Writes the tables and indexes that a text makes, at most this many rows or entries on a leaf and children under a page."""
    connection, shape = sqlite3.connect(":memory:"), {"leaf": leaf, "fan": fan}
    connection.executescript(text)
    objects = "SELECT type, name, tbl_name, sql FROM sqlite_schema ORDER BY rowid"
    for kind, name, table, sql in connection.execute(objects).fetchall():
        key = primary_key_of(connection, table)
        if kind == "index":
            writer.index(name, table, sql, entries_of(connection, table, name), **shape)
        elif key:
            writer.rowless(name, sql, entries_of(connection, table, key), **shape)
        else:
            writer.table(name, sql, rows_of(connection, table), **shape)
    connection.close()


def agreed(size: int, gap: int, leaf: int, fan: int) -> bytes:
    """An image of the tables of `second_engine`."""
    writer = Writer(size, gap=gap)
    write_tables(writer, TABLES.read_text(), leaf, fan)
    return bytes(writer.image(leaf))


def stepped() -> bytes:
    """The shop of `engines`."""
    writer = Writer(1024)
    write_tables(writer, SHOP + MORE)
    writer.table("old", OLD, [(rowid, record(row)) for rowid, row in enumerate(OLD_ROWS, 1)])
    writer.index("old_tag", "old", "CREATE INDEX old_tag ON old(tag)", [record(entry) for entry in OLD_ENTRIES])
    return bytes(writer.image(4))


def stocked() -> bytes:
    """The shop beside a table of 200 leaves under one root, which has an index of 20 leaves."""
    writer = Writer(4096)
    write_tables(writer, SHOP)
    counts = {row: row % 500 if row <= 1500 else None for row in range(1, 2001)}
    rows = [(row, record([None, count, "x" * 380])) for row, count in counts.items()]
    big = writer.table("big", BIG, rows, leaf=10, fan=200)
    entries = sorted((count, row) for row, count in counts.items() if count is not None)
    text = "CREATE INDEX big_qty ON big(qty) WHERE qty IS NOT NULL"
    index = writer.index("big_qty", "big", text, [record(entry) for entry in entries], leaf=75, fan=20)
    assert [len(level) for level in (*big.levels, *index.levels)] == [1, 200, 1, 20]
    return bytes(writer.image())


def sized(size: int) -> bytes:
    """The record of a blob, of this size."""
    whole = record([bytes(size - 3)])
    assert len(whole) == size
    return whole


def sizes() -> bytes:
    """Payloads of pages of 512 bytes: on a leaf of a table one that goes on in one overflow page, and one in four; on a leaf of an index
    the longest that is kept whole, and one that goes on in one."""
    writer = Writer(512)
    rows = writer.table("t", "CREATE TABLE t(body BLOB) STRICT", [(1, sized(478)), (2, sized(2002))])
    keyed = writer.rowless("k", "CREATE TABLE k(key BLOB PRIMARY KEY) STRICT, WITHOUT ROWID", [sized(102), sized(103)])
    assert [len(chain) for chain in (*rows.chains, *keyed.chains)] == [1, 4, 1]
    # The page that is asked for last when the image is opened is kept: it is of neither.
    writer.rowless("last", "CREATE TABLE last(a INT PRIMARY KEY) STRICT, WITHOUT ROWID", [])
    return bytes(writer.image())


def parts() -> bytes:
    """Few pages of each kind, of which a few other bytes break one condition or another: a table of two levels whose last row goes on
    in an overflow page, with a unique index; rows that are older than columns, with an index; a table without rowids, with two; and a
    freelist."""
    writer = Writer(1024)
    rows = [[None, "long " * 260 if row == 7 else f"note {row}", 2**60 + row, 1] for row in range(1, 8)]
    writer.table("note", NOTE, [(row, record(values)) for row, values in enumerate(rows, 1)], leaf=3, fan=4)
    entries = [record([values[2], row]) for row, values in enumerate(rows, 1)]
    writer.index("by_n", "note", "CREATE UNIQUE INDEX by_n ON note(n)", entries, leaf=3, fan=4)
    writer.table("aged", AGED, [(row, record(values)) for row, values in enumerate(OLD_ROWS, 1)])
    writer.index("by_tag", "aged", "CREATE INDEX by_tag ON aged(tag)", [record(entry) for entry in OLD_ENTRIES])
    write_tables(writer, TAG)
    writer.freelist(1)
    return bytes(writer.image())


def three_pages() -> bytes:
    """An index with one entry on the page above two leaves of one, at page 5, of a table of three rows."""
    writer = Writer(512)
    writer.table("t", "CREATE TABLE t(a INT) STRICT", [(1, record([5])), (2, record([9])), (3, record([7]))])
    entries = [record(entry) for entry in ((5, 1), (7, 3), (9, 2))]
    assert writer.index("i", "t", "CREATE INDEX i ON t(a)", entries, leaf=1, fan=2).root == 5
    return bytes(writer.image())


def searched() -> bytes:
    """The tables and indexes whose ranges `images` searches."""
    writer = Writer(1024)
    write_tables(writer, SEARCHED, leaf=5, fan=4)
    return bytes(writer.image(3))


def kept() -> dict[Path, bytes]:
    """The files that are written here, each with its bytes."""
    return {
        CRATES / "engines" / "data" / "shop.db": stepped(),
        CRATES / "engines" / "data" / "big.db": stocked(),
        CRATES / "engines" / "data" / "sizes.db": sizes(),
        CRATES / "images" / "data" / "worked.db": searched(),
        CRATES / "images" / "data" / "index.db": three_pages(),
        CRATES / "images" / "data" / "parts.db": parts(),
    }


def main() -> int:
    """Writes the files."""
    for file, whole in kept().items():
        file.write_bytes(whole)
    return 0


if __name__ == "__main__":
    sys.exit(main())
