"""What SQLite says of a file: its tables, and their rows as the program has to print them."""

from __future__ import annotations

import sqlite3
from collections import Counter
from pathlib import Path
from urllib.parse import quote


def named(name: str) -> str:
    """A name in double quotes."""
    return '"' + name.replace('"', '""') + '"'


def literal(column: str) -> str:
    """The expression that gives a column's literal: `quote`, which ends a text at its first NUL, so that such a text is
    quoted by `replace`."""
    name = named(column)
    whole = f"'''' || replace({name}, '''', '''''') || ''''"
    return f"CASE WHEN typeof({name}) = 'text' AND instr({name}, char(0)) > 0 THEN {whole} ELSE quote({name}) END"


class Reader:
    """A connection that reads a file and never locks or changes it."""

    def __init__(self, path: Path) -> None:
        self.connection = sqlite3.connect(f"file:{quote(str(path))}?mode=ro&immutable=1", uri=True)
        self.connection.text_factory = bytes

    def __enter__(self) -> Reader:
        return self

    def __exit__(self, *_: object) -> None:
        self.connection.close()

    def tables(self) -> list[str]:
        """The names of the tables."""
        names = self.connection.execute("SELECT name FROM sqlite_schema WHERE type = 'table' ORDER BY rowid")
        return [name.decode() for (name,) in names]

    def columns(self, table: str) -> list[str]:
        """The names of a table's columns."""
        return [row[1].decode() for row in self.connection.execute(f"PRAGMA table_info({named(table)})")]

    def lines(self, table: str, columns: list[str]) -> Counter[bytes]:
        """The rows of a table, each as the line of these columns, and how often each comes."""
        shown = ", ".join(literal(column) for column in columns)
        rows = self.connection.execute(f"SELECT {shown} FROM {named(table)}")
        return Counter(b",".join(row) + b"\n" for row in rows)

    def is_sound(self) -> bool:
        """Whether SQLite's own check finds nothing."""
        return self.connection.execute("PRAGMA integrity_check(1)").fetchone() == (b"ok",)


def header_line(columns: list[str]) -> bytes:
    """The line of the column names."""
    return ",".join("'" + column.replace("'", "''") + "'" for column in columns).encode() + b"\n"
