"""Statements that are measured beside `sqlite3`, on a table of a million rows, and opening with indexes beside its check."""

from __future__ import annotations

from dataclasses import dataclass


@dataclass(frozen=True)
class Statement:
    """A statement over the table `item`, and the most of the time of `sqlite3` that it may take; `apart` where opening is taken off
    the times of both."""

    what: str
    sql: str
    target: float
    apart: bool = False


PLAIN = [
    Statement("a condition that keeps one row in a hundred", "SELECT id, name FROM item WHERE a % 100 = 7", 1.0),
    Statement("an expression over each row", "SELECT a * 2 + b % 7 FROM item", 0.8),
    Statement("ORDER BY", "SELECT id FROM item ORDER BY a", 0.5),
    Statement("ORDER BY with LIMIT 10", "SELECT id, name FROM item ORDER BY b DESC, a LIMIT 10", 0.6),
    Statement("DISTINCT with a thousand values", "SELECT DISTINCT a % 1000 FROM item", 0.5),
    Statement("count and sum of all rows", "SELECT count(*), sum(a) FROM item", 0.6, apart=True),
    Statement("GROUP BY with a thousand keys", "SELECT a % 1000, count(*), sum(b) FROM item GROUP BY a % 1000", 0.5, apart=True),
    Statement("GROUP BY with a million keys", "SELECT a, count(*), max(b) FROM item GROUP BY a", 0.5, apart=True),
    Statement("IN a query of a thousand values", "SELECT id FROM item WHERE a IN (SELECT id FROM item WHERE id <= 1000)", 1.0),
    Statement("UNION of two halves", "SELECT a FROM item WHERE id % 2 = 0 UNION SELECT a FROM item WHERE id % 2 = 1", 0.5),
]

# These are measured on each table, so that how they grow is told too.
WINDOWS = [
    Statement("a running sum", "SELECT sum(a) OVER (ORDER BY id) FROM item", 0.5, apart=True),
    Statement("a sliding sum of a hundred rows", "SELECT sum(a) OVER (ORDER BY id ROWS 99 PRECEDING) FROM item", 0.5, apart=True),
    Statement("rank in a thousand partitions", "SELECT rank() OVER (PARTITION BY a % 1000 ORDER BY b) FROM item", 0.5, apart=True),
    Statement("min over a sliding frame", "SELECT min(b) OVER (ORDER BY id ROWS 99 PRECEDING) FROM item", 0.5, apart=True),
]

STATEMENTS = [*PLAIN, *WINDOWS]

# The items of WITH and the SELECT that joins each row to a thousand rows that are kept, by a way of joining.
KEPT = "WITH k AS (SELECT id AS i, name AS n FROM item WHERE id <= 1000) SELECT item.id, k.n FROM item {} JOIN k ON item.a = k.i"

# Statements that are measured once, since they take long.
JOINS = [
    Statement("a join with a thousand kept rows", KEPT.format("INNER"), 1.0),
    Statement("a RIGHT JOIN of a thousand kept rows", KEPT.format("RIGHT"), 1.0),
    Statement("a FULL JOIN of a thousand kept rows", KEPT.format("FULL"), 1.0),
]

# What is kept in memory while it is computed.
GATHERED = ["ORDER BY", "DISTINCT with a thousand values", "a RIGHT JOIN of a thousand kept rows"]

# Two indexes of the table, and the most of the time of `PRAGMA integrity_check` that opening may take.
INDEXES = "CREATE INDEX item_a ON item (a); CREATE INDEX item_name ON item (name DESC, b);"
INDEXED_TARGET = 0.2
