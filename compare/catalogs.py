"""Has sqlite3 read CREATE texts, and compares the tables, columns and indexes that its pragmas tell with the catalog that our
crate reads from the same rows of the schema. Run from the top of the repository; the last line is 'N passed, M failed'."""

from __future__ import annotations

import os
import sqlite3
import subprocess
import sys

from program import TOP, Tally, fault_line, give_up

CRATE = TOP / "crates" / "texts"
CLASSES = {"INT": "int", "INTEGER": "int", "TEXT": "text", "BLOB": "blob"}

# Tables that are served, by what stands in the parentheses of `CREATE TABLE t(..) STRICT`.
COLUMNS = [
    *("a INT", "a INTEGER", "a TEXT", "a BLOB", "a INT NOT NULL", "a integer primary key", "id INTEGER PRIMARY KEY NOT NULL"),
    *("a INT PRIMARY KEY", "a TEXT PRIMARY KEY", "a BLOB PRIMARY KEY NOT NULL", "a INT UNIQUE", "a TEXT NOT NULL UNIQUE"),
    *("a INTEGER UNIQUE", "a INT UNIQUE, b TEXT UNIQUE", "a INT UNIQUE, id INTEGER PRIMARY KEY, b INT UNIQUE"),
    *("id INTEGER PRIMARY KEY, a INT, UNIQUE (a)", "a INT, b INT, UNIQUE (a, b)", "a INT, b INT, UNIQUE (b, a)"),
    *("a INT, b INT, UNIQUE (a, b), UNIQUE (b, a)", "a INT, b INT, UNIQUE (a), UNIQUE (a, b), UNIQUE (b)"),
    *("a INT, b INT, PRIMARY KEY (a, b)", "a INT, b INT, PRIMARY KEY (b, a), UNIQUE (a)", "a INTEGER, b INT, PRIMARY KEY (a, b)"),
    *("a INT, PRIMARY KEY (a)", "a INTEGER, PRIMARY KEY (a)", "a INT, id INTEGER, PRIMARY KEY (ID)", "a INT, PRIMARY KEY (A)"),
    *("a TEXT UNIQUE, id INTEGER, PRIMARY KEY (id)", "a TEXT COLLATE BINARY UNIQUE", "a TEXT, UNIQUE (a COLLATE binary ASC)"),
    *("a INT CHECK (a > 0) UNIQUE", "a INT DEFAULT 7 UNIQUE, b TEXT DEFAULT 'x'", "a INT DEFAULT (1 + 1) PRIMARY KEY"),
    *("a INT CONSTRAINT one UNIQUE CONSTRAINT two NOT NULL", "a INT, CONSTRAINT k PRIMARY KEY (a), CONSTRAINT c CHECK (a)"),
    *("a INT REFERENCES u(x) ON DELETE CASCADE UNIQUE", "a INT, b INT, FOREIGN KEY (a, b) REFERENCES u, UNIQUE (b)"),
    *('"a b" INT UNIQUE, [c] TEXT, `d` BLOB, UNIQUE ("c", [D])', "a INT, b INT, c INT, UNIQUE (c, a, b), PRIMARY KEY (b, c)"),
    *("id INTEGER PRIMARY KEY ASC, a INT UNIQUE", "a INT UNIQUE, b INT UNIQUE, c INT UNIQUE, d INT UNIQUE, e INT PRIMARY KEY"),
    "a INT /* no */ UNIQUE, b INT",
]

# Tables without rowids, by what stands in the parentheses of `CREATE TABLE t(..) STRICT, WITHOUT ROWID`.
ROWLESS = [
    *("a INT PRIMARY KEY", "a INTEGER PRIMARY KEY", "a TEXT NOT NULL PRIMARY KEY, b INT", "a INT, b TEXT, PRIMARY KEY (b)"),
    *("a INT, b TEXT, c BLOB, PRIMARY KEY (a, b)", "a INT, b TEXT, c BLOB, PRIMARY KEY (c, a)", "a INT, b INT, PRIMARY KEY (B, A)"),
    *("a INTEGER, PRIMARY KEY (a)", "a INT, b INTEGER NOT NULL, c INT DEFAULT 7, d INT, PRIMARY KEY (d, b, a)"),
]

# Tables by their whole texts, and tables with indexes of their own.
TEXTS = [
    ['CREATE TABLE "Two words"(a INT UNIQUE) STRICT'],
    ["CREATE TABLE [t_1](a INT UNIQUE) STRICT", "CREATE TABLE t(b TEXT UNIQUE, c INT UNIQUE) STRICT"],
    ["create table T(a int primary key) strict"],
    ["CREATE TABLE t(a INT, b TEXT) STRICT", "CREATE INDEX i ON t(b, a DESC)"],
    ["CREATE TABLE t(a INT UNIQUE, b TEXT) STRICT", "CREATE UNIQUE INDEX i ON t(B)", "CREATE INDEX j ON t(a) WHERE a > 1"],
    ["CREATE TABLE t(a INT UNIQUE) STRICT", "CREATE TRIGGER r AFTER INSERT ON t BEGIN DELETE FROM t; END"],
    ["CREATE TABLE t(a INT UNIQUE, b INT) STRICT", "ALTER TABLE t RENAME TO other"],
    ["CREATE TABLE t(a INT UNIQUE, b INT) STRICT", "ALTER TABLE t RENAME COLUMN a TO z"],
    ["CREATE TABLE t(a INT UNIQUE) STRICT", "ALTER TABLE t ADD COLUMN b TEXT DEFAULT 'x'"],
    ["create table t(a int primary key) without rowid, strict", "CREATE INDEX i ON t(a)", "CREATE INDEX j ON t(a DESC)"],
    [
        "CREATE TABLE tag(item INT, label TEXT, w INT, PRIMARY KEY (label, item)) STRICT, WITHOUT ROWID",
        *("CREATE INDEX tag_w ON tag(w DESC)", "CREATE INDEX tag_item ON tag(item)", "CREATE UNIQUE INDEX tag_key ON tag(item, label)"),
        *("CREATE INDEX tag_label ON tag(w, LABEL) WHERE w > 5", "CREATE TABLE other(a INT UNIQUE, b INT) STRICT"),
        "CREATE INDEX other_b ON other(b, a)",
    ],
    ["CREATE TABLE t(a INTEGER PRIMARY KEY, b INT) STRICT, WITHOUT ROWID", "ALTER TABLE t ADD COLUMN c INT", "CREATE INDEX i ON t(c)"],
]

# Texts that sqlite3 takes and the catalog leaves out, by the fault's line.
LEFT_OUT = {
    fault_line(22, "t"): [
        *(f"CREATE TABLE t({columns}) STRICT" for columns in (
            *("a TEXT PRIMARY KEY DESC", "a INT, UNIQUE (a DESC)", "a TEXT, UNIQUE (a COLLATE NOCASE)", "a INT UNIQUE UNIQUE"),
            *("id INTEGER PRIMARY KEY UNIQUE", "a INT, b INT, UNIQUE (a, b), UNIQUE (A, B)", "a INT, UNIQUE (a, a)"),
            "a TEXT COLLATE NOCASE UNIQUE",
        )),
        "CREATE TABLE t(a INT UNIQUE)",
        *(f"CREATE TABLE t({columns}) STRICT, WITHOUT ROWID" for columns in (
            *("a INT PRIMARY KEY, b INT UNIQUE", "a INT, b INT, PRIMARY KEY (a, b), UNIQUE (b, a)", "a INT PRIMARY KEY DESC"),
            "a INT, b INT, PRIMARY KEY (a, b, a)",
        )),
        "CREATE TABLE t(a INT PRIMARY KEY) WITHOUT ROWID",
    ],
}


def quoted(name: str) -> str:
    return '"' + name.replace('"', '""') + '"'


def missing(default: str | None) -> str:
    """What rows that are older than a column have in it, by its DEFAULT as the pragma tells it, where that isn't NULL."""
    if default is None:
        return ""
    return f" or {default}" if default.startswith("'") or default.lstrip("-").isdigit() else " or refused"


def table_lines(database: sqlite3.Connection, name: str, root: int) -> str:
    """A table with its columns, as the pragmas tell them."""
    columns = database.execute(f"PRAGMA table_xinfo({quoted(name)})").fetchall()
    keys = sorted((column[5], place) for place, column in enumerate(columns) if column[5])
    key = ""
    if database.execute(f"PRAGMA table_list({quoted(name)})").fetchone()[4]:
        key = " key" + "".join(f" {place}" for _, place in keys)
    elif len(keys) == 1 and columns[keys[0][1]][2].upper() == "INTEGER":
        key = f" rowid {keys[0][1]}"
    lines = [f"    column {column[1]} {CLASSES[column[2].upper()]}{' not null' if column[3] else ''}{missing(column[4])}\n" for column in columns]
    return f"table {name} {root}{key}\n" + "".join(lines)


def index_line(database: sqlite3.Connection, name: str, table: str, root: int) -> str:
    """An index with its columns, as the pragmas tell them."""
    listed = {row[1]: row for row in database.execute(f"PRAGMA index_list({quoted(table)})")}
    kind = listed[name]
    columns = database.execute(f"PRAGMA index_xinfo({quoted(name)})").fetchall()
    places = "".join(f" {row[1]}{'-' if row[3] else ''}" for row in columns if row[5])
    others = "".join(f" {row[1]}" for row in columns if not row[5] and row[1] >= 0)
    if others:
        places += " with" + others
    return f"index {name} {table} {root}{' unique' if kind[2] else ''}{' partial' if kind[4] else ''}{places}\n"


def made(texts: list[str]) -> tuple[sqlite3.Connection, list[tuple], str]:
    """The database that sqlite3 makes of these texts, with the rows of its schema, and these as lines."""
    database = sqlite3.connect(":memory:")
    for text in texts:
        database.execute(text)
    rows = database.execute("SELECT type, name, tbl_name, rootpage, sql FROM sqlite_schema ORDER BY rowid").fetchall()
    lines = ["row " + "\t".join("" if value is None else str(value) for value in row) + "\n" for row in rows]
    return database, rows, "".join(lines)


def read(texts: list[str]) -> tuple[str, str]:
    """The lines of these texts, and the catalog that the pragmas of sqlite3 tell."""
    database, rows, lines = made(texts)
    tables = [table_lines(database, row[1], row[3]) for row in rows if row[0] == "table"]
    indexes = [index_line(database, row[1], row[2], row[3]) for row in rows if row[0] == "index"]
    database.close()
    return lines, "".join(tables) + "".join(indexes)


def answers(schemas: list[str]) -> list[str]:
    """What our program answers for these rows of schemas."""
    command = [str(CRATE / "out" / "texts")] if os.environ.get("BUILT") else ["rt", "run"]
    given = "".join(schema + "catalog\n" for schema in schemas)
    run = subprocess.run(command, cwd=CRATE, input=given, capture_output=True, text=True, check=False)
    if run.returncode != 0:
        sys.stdout.write(run.stdout + run.stderr)
        give_up("the program isn't built")
    return run.stdout.split("\n\n")


def main() -> int:
    """Compares each of the catalogs."""
    wanted = []
    served = [f"CREATE TABLE t({columns}) STRICT" for columns in COLUMNS]
    served.extend(f"CREATE TABLE t({columns}) STRICT, WITHOUT ROWID" for columns in ROWLESS)
    for texts in [*([text] for text in served), *TEXTS]:
        rows, catalog = read(texts)
        wanted.append((texts, rows, catalog))
    for line, left_out in LEFT_OUT.items():
        wanted.extend(([text], made([text])[2], line.decode()) for text in left_out)
    tally = Tally()
    found = answers([rows for _, rows, _ in wanted])
    for (texts, _, catalog), answer in zip(wanted, found):
        problem = "" if answer + "\n" == catalog else f"{answer!r}; wanted {catalog!r}"
        tally.add("; ".join(texts), problem)
    tally.add("answers", "" if len(found) == len(wanted) + 1 else f"{len(found) - 1} of {len(wanted)}")
    return tally.finish()


if __name__ == "__main__":
    sys.exit(main())
