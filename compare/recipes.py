"""Recipes of files that SQLite makes and that the program has to serve."""

from __future__ import annotations

import sqlite3
from collections.abc import Callable, Iterable
from dataclasses import dataclass
from pathlib import Path
from random import Random

Value = int | str | bytes | None
Make = Callable[[sqlite3.Connection, Random], None]

ALL_SIZES = (512, 1024, 2048, 4096, 8192, 16384, 32768, 65536)
LETTERS = "ab'\",; \n\r\tZ0%\x01\x7fäß\u20ac\U0001f600"
EDGES = [0, 1, *(2**bits for bits in (7, 8, 15, 16, 23, 24, 31, 32, 47, 48, 62)), 2**63 - 1]


@dataclass(frozen=True)
class Recipe:
    """How a file is made, and at which page sizes."""

    name: str
    make: Make
    sizes: tuple[int, ...] = (512, 4096)


def make_file(path: Path, make: Make, size: int, rng: Random) -> None:
    """Makes a new file by a recipe."""
    for old in (path, Path(f"{path}-journal"), Path(f"{path}-wal")):
        old.unlink(missing_ok=True)
    connection = sqlite3.connect(path, isolation_level=None)
    try:
        connection.executescript(f"PRAGMA page_size = {size}; PRAGMA synchronous = OFF; PRAGMA journal_mode = MEMORY;")
        make(connection, rng)
    finally:
        connection.close()


def fill(connection: sqlite3.Connection, table: str, rows: Iterable[tuple[Value, ...]]) -> None:
    """Inserts rows; one that breaks a condition of its table, as a rowid that is taken does, is left out."""
    connection.execute("BEGIN")
    for row in rows:
        marks = ", ".join("?" * len(row))
        connection.execute(f"INSERT OR IGNORE INTO {table} VALUES ({marks})", row)
    connection.execute("COMMIT")


def random_int(rng: Random) -> int:
    """A number of 64 bits, often one at an edge of the stored sizes."""
    if rng.random() < 0.4:
        number = rng.choice(EDGES) + rng.randint(-1, 1)
    else:
        number = rng.getrandbits(rng.randint(1, 63))
    number = -number if rng.random() < 0.5 else number
    return max(-(2**63), min(number, 2**63 - 1))


def random_text(rng: Random, most: int) -> str:
    """A text of quotes, line feeds and characters of one to four bytes."""
    return "".join(rng.choices(LETTERS, k=rng.randint(0, most)))


def random_value(rng: Random, kind: str, most: int) -> Value:
    """A value of a column of this type, or NULL."""
    if rng.random() < 0.1:
        return None
    if kind in ("INT", "INTEGER"):
        return random_int(rng)
    return random_text(rng, most) if kind == "TEXT" else rng.randbytes(rng.randint(0, most))


def random_tables(connection: sqlite3.Connection, rng: Random) -> None:
    """Some tables of random columns and rows, of which some rows are deleted again."""
    for number in range(rng.randint(1, 3)):
        kinds = rng.choices(("INT", "INTEGER", "TEXT", "BLOB"), k=rng.randint(1, 12))
        key = rng.choice([place for place, kind in enumerate(kinds) if kind == "INTEGER"] or [-1])
        columns = [f"c{place} {kind}" for place, kind in enumerate(kinds)]
        if rng.random() < 0.6 and key >= 0:
            columns[key] += " PRIMARY KEY"
        columns[-1] += rng.choice(("", " NOT NULL"))
        connection.execute(f"CREATE TABLE t{number}({', '.join(columns)}) STRICT")
        most = rng.choice((10, 10, 100, 1000, 5000))
        rows = rng.randint(0, 40000 // (most + 100))
        fill(connection, f"t{number}", (tuple(random_value(rng, kind, most) for kind in kinds) for _ in range(rows)))
        if rng.random() < 0.3:
            connection.execute(f"DELETE FROM t{number} WHERE abs(rowid % 7) < {rng.randint(1, 7)}")


def deep_tree(connection: sqlite3.Connection, rng: Random) -> None:
    """A tree of four levels where a page has 512 bytes, whose keys take nine bytes."""
    connection.execute("CREATE TABLE deep(id INTEGER PRIMARY KEY, n INT, note TEXT NOT NULL) STRICT")
    keys = rng.sample(range(2**62, 2**63 - 1, 2**47 + 1), 3000)
    fill(connection, "deep", ((key, key % 1000, f"note {key} " * rng.randint(6, 8)) for key in keys))


def long_values(connection: sqlite3.Connection, rng: Random) -> None:
    """Payloads from one byte to a megabyte, short ones among them."""
    connection.execute("CREATE TABLE long(b TEXT, id INTEGER PRIMARY KEY, c BLOB, d INT) STRICT")
    sizes = [1, 400, 470, 480, 500, 980, 2000, 4000, 4050, 4090, 4100, 9000, 33000, 65500, 66000, 140000, 1000000]
    for size in sizes:
        text = random_text(rng, 50) * (size // 25 + 1)
        fill(connection, "long", [(text[:size], None, rng.randbytes(size // 3), size), ("short", None, None, -size)])


def far_rowids(connection: sqlite3.Connection, rng: Random) -> None:
    """Rowids from the least to the greatest, with a column for them and without."""
    connection.execute("CREATE TABLE far(a TEXT, id INTEGER PRIMARY KEY, b INT) STRICT")
    edges = [sign * edge for edge in EDGES for sign in (1, -1)] + [-(2**63)]
    fill(connection, "far", ((f"row {key}", key, key) for key in edges))
    fill(connection, "far", ((None, random_int(rng), random_int(rng)) for _ in range(800)))
    connection.execute("CREATE TABLE hidden(a INT NOT NULL) STRICT")
    connection.execute("INSERT INTO hidden(rowid, a) SELECT id, b FROM far")


def whole_numbers(connection: sqlite3.Connection, _: Random) -> None:
    """Numbers about each edge of the stored sizes, as INT and as INTEGER."""
    connection.execute("CREATE TABLE n(a INT, b INTEGER NOT NULL) STRICT")
    edges = {max(-(2**63), min(sign * edge + by, 2**63 - 1)) for edge in EDGES for by in (-1, 0, 1) for sign in (1, -1)}
    fill(connection, "n", ((edge, -edge - 1) for edge in sorted(edges)))


def odd_texts(connection: sqlite3.Connection, rng: Random) -> None:
    """Texts with quotes, line feeds and NULs, and empty ones."""
    connection.execute("CREATE TABLE odd(a TEXT, b BLOB NOT NULL, c TEXT NOT NULL) STRICT")
    texts = ["", "'", "''", "\n", "\r\n", "it's\n'", "\0", "a\0b'\0", "\ufeff", "\U0010ffff", "\ud7ff\ue000", "NULL", "X'00'"]
    texts += [random_text(rng, 60) for _ in range(300)]
    fill(connection, "odd", ((text, text.encode(), text[::-1]) for text in texts))


def no_rows(connection: sqlite3.Connection, _: Random) -> None:
    """Tables that never had a row, and one whose rows are gone."""
    connection.execute("CREATE TABLE a(a INT) STRICT")
    connection.execute("CREATE TABLE b(a INTEGER PRIMARY KEY, b TEXT NOT NULL, c BLOB) STRICT")
    fill(connection, "b", ((key, "text" * 30, None) for key in range(2000)))
    connection.execute("DELETE FROM b")


def hundred_columns(connection: sqlite3.Connection, rng: Random) -> None:
    """A table of a hundred columns. Where a page has 512 bytes, the schema's row goes on in overflow pages."""
    kinds = [("INT", "TEXT", "BLOB", "INTEGER")[place % 4] for place in range(100)]
    columns = [f"column_{place} {kind}" for place, kind in enumerate(kinds)]
    connection.execute(f"CREATE TABLE wide({', '.join(columns)}) STRICT")
    fill(connection, "wide", (tuple(random_value(rng, kind, 12) for kind in kinds) for _ in range(60)))


def indexes(connection: sqlite3.Connection, rng: Random) -> None:
    """Indexes of ascending and descending columns, of texts that go on in overflow pages, unique ones with NULLs, one on a
    column that rows got later, one of a table without a column for its rowid, and an empty one; rows were deleted and
    changed, and an index was dropped."""
    connection.execute("CREATE TABLE i(id INTEGER PRIMARY KEY, a INT, b TEXT, c BLOB) STRICT")
    for name, columns in (("by_a", "a"), ("by_b", "b DESC, a"), ("by_c", "c, b, a DESC"), ("by_key", "id"), ("dropped", "b")):
        connection.execute(f"CREATE INDEX {name} ON i({columns})")
    connection.execute("CREATE UNIQUE INDEX once ON i(a, id DESC)")
    rows = ((random_int(rng), random_int(rng), random_text(rng, rng.choice((9, 9, 900))), rng.randbytes(3)) for _ in range(700))
    fill(connection, "i", (tuple(None if rng.random() < 0.1 and place else one for place, one in enumerate(row)) for row in rows))
    connection.execute("DELETE FROM i WHERE abs(id % 7) < 2")
    connection.execute("UPDATE i SET b = b || 'x', a = a / 2 WHERE abs(id % 5) = 1")
    connection.execute("DROP INDEX dropped")
    connection.execute("ALTER TABLE i ADD COLUMN tag TEXT DEFAULT 'none'")
    connection.execute("CREATE INDEX by_tag ON i(tag DESC, a)")
    connection.execute("CREATE TABLE hidden(a INT, b TEXT) STRICT")
    connection.execute("CREATE UNIQUE INDEX hidden_b ON hidden(b)")
    fill(connection, "hidden", ((row % 9, None if row % 3 else f"row {row}") for row in range(200)))
    connection.execute("CREATE TABLE empty(a INT) STRICT")
    connection.execute("CREATE INDEX of_empty ON empty(a)")


def partial_indexes(connection: sqlite3.Connection, rng: Random) -> None:
    """Indexes of some rows of their table, by conditions of each form: one of all rows and of none, unique ones among rows that
    agree in the columns; some rows were deleted, and some changed so that they went in or out."""
    connection.execute("CREATE TABLE p(id INTEGER PRIMARY KEY, a INT, b TEXT, c BLOB, d INT NOT NULL) STRICT")
    conditions = {
        "positive": ("a", "a > 0"),
        "known": ("b DESC, a", "b IS NOT NULL AND a NOTNULL"),
        "few": ("c, d", "d IN (1, 2, -3) OR p.b < 'm'"),
        "far": ("a DESC", "NOT a BETWEEN -1000 AND 1000"),
        "none": ("b", "d > 9"),
        "every": ("d, a", "id OR NOT id"),
        "flagged": ("b", "d"),
    }
    for name, (columns, condition) in conditions.items():
        connection.execute(f"CREATE INDEX {name} ON p({columns}) WHERE {condition}")
    connection.execute("CREATE UNIQUE INDEX once ON p(a) WHERE d = 0 AND a <> 7")
    kinds = (("INT", 8), ("TEXT", rng.choice((9, 900))), ("BLOB", 5))
    rows = ((*(random_value(rng, kind, most) for kind, most in kinds), rng.randint(-9, 9)) for _ in range(700))
    fill(connection, "p", ((row, *values) for row, values in enumerate(rows)))
    connection.execute("DELETE FROM p WHERE id % 7 < 2")
    connection.execute("UPDATE OR IGNORE p SET a = -a, d = -d WHERE id % 5 = 1 AND a > -9223372036854775808")


def keys(connection: sqlite3.Connection, rng: Random) -> None:
    """Tables with keys, for which SQLite makes indexes: at a column and behind all, of one column and of several, with and
    without NULLs; some rows were deleted and changed."""
    connection.execute("CREATE TABLE coded(code TEXT PRIMARY KEY, a INT UNIQUE, b BLOB, UNIQUE (b, a)) STRICT")
    connection.execute("CREATE TABLE paired(a INT, b INTEGER, c TEXT UNIQUE, PRIMARY KEY (b, a)) STRICT")
    connection.execute("CREATE TABLE aliased(id INTEGER PRIMARY KEY, a TEXT, CONSTRAINT once UNIQUE (a, id)) STRICT")
    fill(connection, "coded", ((f"{row} {random_text(rng, 40)}", random_int(rng), rng.randbytes(4)) for row in range(600)))
    fill(connection, "paired", ((row % 7, row, None if row % 4 else random_text(rng, 600)) for row in range(400)))
    fill(connection, "aliased", ((random_int(rng), random_text(rng, 5)) for _ in range(300)))
    connection.execute("DELETE FROM coded WHERE abs(a % 5) = 2")
    connection.execute("UPDATE paired SET a = a + 100, b = -b WHERE b % 3 = 0")


def rowless_keys(connection: sqlite3.Connection, rng: Random) -> None:
    """Tables without rowids, by keys of one column and of several that stand in another order than the table's, of numbers, texts
    and blobs; with indexes that ascend, descend, are unique or partial; some rows were deleted and changed, and one table lost all."""
    connection.execute("CREATE TABLE one(a INTEGER PRIMARY KEY, b TEXT) STRICT, WITHOUT ROWID")
    connection.execute("CREATE TABLE back(a INT, b TEXT, c BLOB, d INT, PRIMARY KEY (d, b, a)) STRICT, WITHOUT ROWID")
    connection.execute("CREATE TABLE blobs(n INT NOT NULL, c BLOB PRIMARY KEY, b TEXT) STRICT, WITHOUT ROWID")
    connection.execute("CREATE TABLE whole(a TEXT, b INT, PRIMARY KEY (b, a)) STRICT, WITHOUT ROWID")
    connection.execute("CREATE TABLE gone(a INT, b TEXT PRIMARY KEY) STRICT, WITHOUT ROWID")
    for name, columns in (("by_c", "c DESC, a"), ("by_key", "a, d DESC, b"), ("by_part", "b"), ("by_all", "c, b DESC, d, a")):
        connection.execute(f"CREATE INDEX {name} ON back({columns})")
    connection.execute("CREATE INDEX some ON back(c) WHERE d > 0 AND a IS NOT NULL")
    connection.execute("CREATE UNIQUE INDEX once ON blobs(n DESC, b)")
    fill(connection, "one", ((random_int(rng), random_text(rng, 40)) for _ in range(600)))
    rows = ((random_int(rng), random_text(rng, 9), random_value(rng, "BLOB", 30), rng.randint(-5, 5)) for _ in range(900))
    fill(connection, "back", rows)
    fill(connection, "blobs", ((rng.randint(-99, 99), rng.randbytes(rng.randint(0, 6)), random_value(rng, "TEXT", 20)) for _ in range(400)))
    fill(connection, "whole", ((random_text(rng, 12), rng.randint(-9, 9)) for _ in range(500)))
    fill(connection, "gone", ((row, f"row {row}") for row in range(900)))
    connection.execute("DELETE FROM back WHERE abs(a % 7) < 2")
    connection.execute("UPDATE OR IGNORE back SET d = -d, c = NULL WHERE abs(a % 5) = 1")
    connection.execute("DELETE FROM gone")


def rowless_chains(connection: sqlite3.Connection, rng: Random) -> None:
    """Tables without rowids whose rows go on in overflow pages, on leaves and on the pages above them: texts behind the key, and
    texts of the key itself; and one of some levels, whose keys take nine bytes."""
    connection.execute("CREATE TABLE long(note TEXT, id INT PRIMARY KEY, c BLOB) STRICT, WITHOUT ROWID")
    connection.execute("CREATE TABLE named(n INT, name TEXT, kind BLOB, PRIMARY KEY (name, kind)) STRICT, WITHOUT ROWID")
    connection.execute("CREATE TABLE deep(note TEXT, n INT, id INT PRIMARY KEY) STRICT, WITHOUT ROWID")
    connection.execute("CREATE INDEX by_note ON long(note)")
    connection.execute("CREATE INDEX by_n ON named(n DESC)")
    sizes = [1, 30, 90, 100, 110, 120, 400, 470, 500, 980, 2000, 4050, 9000, 33000, 66000]
    fill(connection, "long", ((random_text(rng, rng.choice(sizes)), row, rng.randbytes(rng.choice(sizes) // 3)) for row in range(90)))
    fill(connection, "named", ((row, f"{random_text(rng, rng.choice(sizes[:10]))}{row}", rng.randbytes(3)) for row in range(200)))
    keys = rng.sample(range(2**62, 2**63 - 1, 2**47 + 1), 1500)
    fill(connection, "deep", ((f"note {key} " * rng.randint(1, 4), key % 1000, key) for key in keys))


def rowless_altered(connection: sqlite3.Connection, _: Random) -> None:
    """Tables without rowids that were renamed, lost a column, or got some, before their first row, behind it, or before an update."""
    connection.executescript("""
        CREATE TABLE short(a INT, b TEXT, c INT, PRIMARY KEY (c, a)) STRICT, WITHOUT ROWID;
        INSERT INTO short VALUES (1, 'x', 9), (2, NULL, 3);
        ALTER TABLE short ADD COLUMN d TEXT DEFAULT 'it''s'; ALTER TABLE short ADD COLUMN e INT;
        INSERT INTO short VALUES (3, 'y', 7, NULL, 5); ALTER TABLE short ADD COLUMN f INT NOT NULL DEFAULT -5;
        INSERT INTO short VALUES (4, 'w', 2, 'd', NULL, 8);
        ALTER TABLE short ADD COLUMN g BLOB DEFAULT x'00ff'; INSERT INTO short VALUES (4, 'z', 1, 'd', NULL, 8, NULL);
        UPDATE short SET b = 'changed' WHERE c = 9; CREATE INDEX by_g ON short(g DESC, d);
        CREATE TABLE early(a INT PRIMARY KEY) STRICT, WITHOUT ROWID; ALTER TABLE early ADD COLUMN b TEXT;
        INSERT INTO early VALUES (1, 'x'), (2, NULL);
        CREATE TABLE old(a INT, gone BLOB, b TEXT, c INT, PRIMARY KEY (b, a)) STRICT, WITHOUT ROWID;
        INSERT INTO old VALUES (1, x'00', 'y', 5), (2, NULL, 'a', 6), (1, NULL, 'a', NULL);
        ALTER TABLE old RENAME TO "the new"; ALTER TABLE "the new" RENAME COLUMN b TO "b'c";
        ALTER TABLE "the new" DROP COLUMN gone;""")


def rowless_random(connection: sqlite3.Connection, rng: Random) -> None:
    """Tables without rowids of random columns, keys and rows, each beside one with rowids of the same columns and rows."""
    for number in range(3):
        kinds = rng.choices(("INT", "INTEGER", "TEXT", "BLOB"), k=rng.randint(1, 10))
        columns = [f"c{place} {kind}" for place, kind in enumerate(kinds)]
        key = rng.sample(range(len(kinds)), rng.randint(1, min(3, len(kinds))))
        named = ", ".join(f"c{place}" for place in key)
        connection.execute(f"CREATE TABLE t{number}({', '.join(columns)}, PRIMARY KEY ({named})) STRICT, WITHOUT ROWID")
        connection.execute(f"CREATE TABLE u{number}({', '.join(columns)}) STRICT")
        most = rng.choice((10, 10, 100, 1000))
        rows = [tuple(random_value(rng, kind, most) for kind in kinds) for _ in range(20000 // (most + 100))]
        for table in ("t", "u"):
            fill(connection, f"{table}{number}", rows)
        if rng.random() < 0.5:
            connection.execute(f"CREATE INDEX i{number} ON t{number}(c0 DESC)")
        if rng.random() < 0.3:
            connection.execute(f"DELETE FROM t{number} WHERE length(c{rng.choice(key)}) % 3 = 0")


def many_tables(connection: sqlite3.Connection, rng: Random) -> None:
    """A hundred tables, whose schema has many leaves where a page is short."""
    for number in range(100):
        connection.execute(f"CREATE TABLE many_{number}(a INT, b TEXT) STRICT")
        fill(connection, f"many_{number}", ((row, random_text(rng, 20)) for row in range(number % 5)))


def free_pages(connection: sqlite3.Connection, rng: Random) -> None:
    """A freelist of rows, long texts and a table that are gone, and new rows among the old."""
    for table in ("kept", "gone"):
        connection.execute(f"CREATE TABLE {table}(a INTEGER PRIMARY KEY, b TEXT, c BLOB) STRICT")
        rows = ((key, "b" * rng.randint(0, 300), rng.randbytes(rng.choice((5, 2000)))) for key in range(700))
        fill(connection, table, rows)
    connection.execute("DROP TABLE gone")
    connection.execute("DELETE FROM kept WHERE a % 3 > 0 OR a BETWEEN 100 AND 300")
    fill(connection, "kept", ((key, "new", None) for key in range(50, 150)))


def vacuumed(connection: sqlite3.Connection, rng: Random) -> None:
    """The same, made anew by VACUUM."""
    free_pages(connection, rng)
    connection.execute("VACUUM")


def altered(connection: sqlite3.Connection, _: Random) -> None:
    """Tables that were renamed, lost a column, or got some, before their first row, behind it, or before an update."""
    connection.executescript("""
        CREATE TABLE early(a INT) STRICT; ALTER TABLE early ADD COLUMN b TEXT; INSERT INTO early VALUES (1, 'x');
        CREATE TABLE late(a INT) STRICT; INSERT INTO late VALUES (1), (2); ALTER TABLE late ADD COLUMN b INT;
        UPDATE late SET b = a * a;
        CREATE TABLE short(a INTEGER PRIMARY KEY, b TEXT) STRICT; INSERT INTO short VALUES (1, 'x'), (2, NULL);
        ALTER TABLE short ADD COLUMN c INT; ALTER TABLE short ADD COLUMN d TEXT DEFAULT 'it''s';
        INSERT INTO short VALUES (3, 'y', 7, NULL); ALTER TABLE short ADD COLUMN e INT NOT NULL DEFAULT -5;
        ALTER TABLE short ADD COLUMN f BLOB DEFAULT x'00ff'; INSERT INTO short VALUES (4, 'z', NULL, 'd', 8, NULL);
        CREATE TABLE old(a INT, gone BLOB, b TEXT) STRICT; INSERT INTO old VALUES (1, x'00', 'y'), (2, NULL, NULL);
        ALTER TABLE old RENAME TO "the new"; ALTER TABLE "the new" RENAME COLUMN b TO "b'c";
        ALTER TABLE "the new" DROP COLUMN gone;""")


def triggered(connection: sqlite3.Connection, _: Random) -> None:
    """Tables with triggers, which wrote some of their rows."""
    connection.executescript("""
        CREATE TABLE kept(a INTEGER PRIMARY KEY, b TEXT) STRICT; CREATE TABLE log(what TEXT NOT NULL, a INT) STRICT;
        CREATE TRIGGER log AFTER INSERT ON kept BEGIN INSERT INTO log VALUES ('in', NEW.a); END;
        CREATE TRIGGER r BEFORE DELETE ON kept WHEN OLD.a > 3 BEGIN INSERT INTO log VALUES ('out', OLD.a); END;
        INSERT INTO kept(b) VALUES ('x'), ('y'), (NULL), ('z'), ('it''s'), (''); DELETE FROM kept WHERE a % 2 = 0;""")


def no_tables(connection: sqlite3.Connection, _: Random) -> None:
    """A file whose one table is gone."""
    connection.executescript("CREATE TABLE a(a INT) STRICT; DROP TABLE a")


RECIPES = [
    Recipe("deep_tree", deep_tree),
    Recipe("long_values", long_values, ALL_SIZES),
    Recipe("far_rowids", far_rowids, ALL_SIZES),
    Recipe("whole_numbers", whole_numbers),
    Recipe("odd_texts", odd_texts, (512, 1024, 65536)),
    Recipe("no_rows", no_rows, ALL_SIZES),
    Recipe("hundred_columns", hundred_columns, (512, 1024, 8192)),
    Recipe("many_tables", many_tables, ALL_SIZES),
    Recipe("free_pages", free_pages, (512, 2048, 65536)),
    Recipe("vacuumed", vacuumed),
    Recipe("altered", altered),
    Recipe("triggered", triggered),
    Recipe("indexes", indexes, (512, 1024, 4096, 65536)),
    Recipe("partial_indexes", partial_indexes, (512, 4096)),
    Recipe("keys", keys, (512, 2048)),
    Recipe("rowless_keys", rowless_keys, (512, 1024, 4096, 65536)),
    Recipe("rowless_chains", rowless_chains, (512, 1024, 4096, 65536)),
    Recipe("rowless_altered", rowless_altered),
    Recipe("rowless_random", rowless_random, (1024, 4096)),
    Recipe("no_tables", no_tables, ALL_SIZES),
]

# Spellings of CREATE TABLE that SQLite takes, of a table with a whole number and a text.
SPELLINGS = [
    "CREATE TABLE t(a INT,b TEXT)STRICT",
    "create table T(A int, B tExT not null) strict",
    "CREATE TABLE IF NOT EXISTS main.t (a INTEGER PRIMARY KEY, b TEXT) STRICT",
    "CREATE  TABLE\n\tt\r\n(\f a\nINTEGER\tNOT  NULL\nPRIMARY\nKEY , b TEXT)\n\n STRICT ;",
    "CREATE TABLE t(a INTEGER PRIMARY KEY NOT NULL NOT NULL, b TEXT NOT NULL NOT NULL) STRICT",
    'CREATE TABLE "t t"("a ""b""" INT, "it\'s" TEXT) STRICT',
    "CREATE TABLE [t t]([a \"b] INT, `b]c` TEXT) STRICT",
    'CREATE TABLE "table"("select" INT, "from" TEXT) STRICT',
    'CREATE TABLE "a;b"("," INT, "--" TEXT) STRICT',
    'CREATE TABLE "new\nline"("(" INT, ")" TEXT) STRICT',
    "CREATE TABLE t/* ) STRICT */(a/**/INT--x, y\n,b--\n TEXT/* * / */) /*z*/ STRICT",
    "CREATE TABLE t(--'\na INT, /*\"*/ b TEXT)--\nSTRICT",
    "CREATE TABLE täßle(größe INT, \u20ac TEXT) STRICT",
    "CREATE TABLE _t9(_ INT, _9 TEXT) STRICT",
    "CREATE TABLE t(rowid INT, oid TEXT) STRICT",
    "CREATE TABLE t(int INT, text TEXT) STRICT",
    "CREATE TABLE t(a INT CONSTRAINT x NOT NULL, b TEXT) STRICT",
    "CREATE TABLE t(a INTEGER CONSTRAINT k PRIMARY KEY ASC, b TEXT) STRICT",
    "CREATE TABLE t(a INT DEFAULT -1 CHECK (1 OR (a > 0)), b TEXT DEFAULT 'x' COLLATE binary) STRICT",
    "CREATE TABLE t(a INT REFERENCES u(x) ON DELETE SET NULL, b TEXT DEFAULT (1 || ')')) STRICT",
    "CREATE TABLE t(a INT, b TEXT, CHECK (a > 0 OR (1))) STRICT",
    "CREATE TABLE t(a INTEGER, b TEXT, CONSTRAINT k PRIMARY KEY (A ASC)) STRICT",
    "CREATE TABLE t(a INT, b TEXT, CONSTRAINT c FOREIGN KEY (b, A) REFERENCES u(x, y) ON UPDATE CASCADE) STRICT",
    "CREATE TABLE t(a INT PRIMARY KEY, b TEXT) WITHOUT ROWID, STRICT",
    "CREATE TABLE t(a INTEGER PRIMARY KEY, b TEXT) strict,without rowid",
    "CREATE TABLE t(a INT, b TEXT, CONSTRAINT k PRIMARY KEY (B, a)) STRICT, WITHOUT /* no */ ROWID",
]

# Spellings that SQLite takes too, which the program may refuse.
EITHER = [
    "CREATE TABLE t(a INT, `b``c` TEXT) STRICT",
    "CREATE TABLE 't'(a INT, b TEXT) STRICT",
    "CREATE TABLE t('a' INT, b TEXT) STRICT",
    'CREATE TABLE t(a "INT", b TEXT) STRICT',
    "CREATE TABLE t(a [INTEGER] PRIMARY KEY, b TEXT) STRICT",
    "CREATE TABLE t(a$b INT, b$ TEXT) STRICT",
    "CREATE TABLE t(key INT, action TEXT) STRICT",
    "CREATE TABLE t(first INT, last TEXT) STRICT",
    "CREATE TABLE t(a INT NULL, b TEXT) STRICT",
    "CREATE TABLE t(a INT NOT NULL ON CONFLICT FAIL, b TEXT) STRICT",
    "CREATE TABLE t(a INT, b TEXT) STRICT, STRICT",
    "CREATE TABLE t(a INT, \"\" TEXT) STRICT",
    "CREATE TABLE t(a INT, b /* \ufeff */ TEXT) STRICT",
]
