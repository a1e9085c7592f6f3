"""Worked images with indexes: trees of each kind, and each condition of an index broken alone."""

from __future__ import annotations

from collections.abc import Iterator
from typing import TYPE_CHECKING

from program import fault_line
from witness import Reading
from writer import Value, Writer, record

if TYPE_CHECKING:
    from worked import Trial

ITEM = "CREATE TABLE item(id INTEGER PRIMARY KEY, name TEXT NOT NULL, qty INT) STRICT"
ITEMS: list[tuple[Value, ...]] = [("bolt", 40), ("nut", None), ("cap", 7), ("nut", 7)]
ANSWERS = {"SELECT * FROM item": "1,'bolt',40\n2,'nut',NULL\n3,'cap',7\n4,'nut',7\n"}
BY_QTY = "CREATE INDEX i ON item(qty)"
IN_ORDER: list[tuple[Value, ...]] = [(None, 2), (7, 3), (7, 4), (40, 1)]

# Indexes on the columns of the four rows, and their entries: NULL comes first, a number before a text; a column that descends
# turns this round; the rowid stands last, and ascends.
SOUND: dict[str, list[tuple[Value, ...]]] = {
    BY_QTY: IN_ORDER,
    "CREATE INDEX i ON item(qty DESC)": [(40, 1), (7, 3), (7, 4), (None, 2)],
    "CREATE INDEX i ON item(name, qty DESC)": [("bolt", 40, 1), ("cap", 7, 3), ("nut", 7, 4), ("nut", None, 2)],
    "CREATE INDEX i ON item(name DESC, qty)": [("nut", None, 2), ("nut", 7, 4), ("cap", 7, 3), ("bolt", 40, 1)],
    "CREATE INDEX i ON item(id)": [(1, 1), (2, 2), (3, 3), (4, 4)],
    "CREATE UNIQUE INDEX i ON item(qty, id DESC)": [(None, 2, 2), (7, 4, 4), (7, 3, 3), (40, 1, 1)],
    "CREATE UNIQUE INDEX i ON item(qty, name)": [(None, "nut", 2), (7, "cap", 3), (7, "nut", 4), (40, "bolt", 1)],
    # Entries of those rows alone of which a condition is true, also where it has no value for the others; a column that isn't
    # indexed, and the rowid; rows that would agree with one that is left out.
    "CREATE INDEX i ON item(qty) WHERE qty > 7": [(40, 1)],
    "CREATE INDEX i ON item(qty) WHERE NOT qty > 7": [(7, 3), (7, 4)],
    "CREATE INDEX i ON item(name DESC) WHERE qty IS NOT NULL": [("nut", 4), ("cap", 3), ("bolt", 1)],
    "CREATE INDEX i ON item(qty) WHERE item.qty ISNULL OR name IN ('cap', 'pin')": [(None, 2), (7, 3)],
    "CREATE INDEX i ON item(name, qty DESC) WHERE id BETWEEN 2 AND 3 AND qty <> -7": [("cap", 7, 3)],
    "CREATE INDEX i ON item(qty) WHERE id > 4": [],
    "CREATE INDEX i ON item(qty) WHERE id": IN_ORDER,
    "CREATE UNIQUE INDEX i ON item(name) WHERE qty NOTNULL": [("bolt", 1), ("cap", 3), ("nut", 4)],
    "CREATE UNIQUE INDEX i ON item(qty) WHERE name >= 'cat' OR qty = 40": [(None, 2), (7, 4), (40, 1)],
}

# Entries of the index by `qty` that are none, and the number of the fault: one lacks; one is too many; another rowid; another
# value; the value of the row in the place of its rowid; out of order; twice; more values, and fewer; a value of none.
BROKEN: list[tuple[list[tuple[Value, ...]], bytes]] = [
    (IN_ORDER[:3], fault_line(24, "i")),
    ([], fault_line(24, "i")),
    ([*IN_ORDER, (41, 5)], fault_line(24, "i")),
    ([(None, 2), (7, 3), (7, 5), (40, 1)], fault_line(24, "i")),
    ([(None, 2), (7, 3), (8, 4), (40, 1)], fault_line(24, "i")),
    ([(None, 2), (7, 3), (7, 4), (40, None)], fault_line(24, "i")),
    ([(None, 2), (7, 3), (7, 4), ("40", 1)], fault_line(24, "i")),
    ([(7, 3), (None, 2), (7, 4), (40, 1)], fault_line(15, 3)),
    ([(None, 2), (7, 4), (7, 3), (40, 1)], fault_line(15, 3)),
    ([(None, 2), (7, 3), (7, 3), (40, 1)], fault_line(15, 3)),
    ([(None, 2), (7, 3), (7, 4, 1), (40, 1)], fault_line(17, 3)),
    ([(None, 2), (7, 3), (7,), (40, 1)], fault_line(17, 3)),
    ([(None, 2), (7, 3), (), (40, 1)], fault_line(17, 3)),
]

# The index by `qty` of the two rows of which a condition is true, and entries that aren't just theirs: a row that is kept has
# none; rows that are left out have theirs too, one for which the condition has no value among them; one that is left out has
# its entry in the place of one that is kept; no row has.
FEW = "CREATE INDEX i ON item(qty) WHERE qty < 10"
LEFT_OUT: list[list[tuple[Value, ...]]] = [
    [(7, 3)],
    IN_ORDER,
    [(7, 3), (7, 4), (40, 1)],
    [(None, 2), (7, 3), (7, 4)],
    [(7, 3), (40, 1)],
    [(None, 2), (7, 4)],
    [(40, 1)],
    [],
]

# A table that got two columns when it had its first four rows, the second of them when it had its fifth; its records; and statements
# over it. What a row lacks it has by the literal DEFAULT, or NULL.
AGED = f"{ITEM.removesuffix(') STRICT')}, tag TEXT DEFAULT 'none', lot INT) STRICT"
AGED_ROWS: list[tuple[Value, ...]] = [*ITEMS, ("pin", 3, "x"), ("cog", 4, None, 6), ("rod", 7, "none", None)]
AGED_ANSWERS = {
    "SELECT id FROM item WHERE tag = 'none' ORDER BY id": "1\n2\n3\n4\n7\n",
    "SELECT id, tag FROM item WHERE tag > 'a' ORDER BY id DESC": "7,'none'\n5,'x'\n4,'none'\n3,'none'\n2,'none'\n1,'none'\n",
    "SELECT id FROM item WHERE tag = 'x'": "5\n",
    "SELECT id FROM item WHERE tag IS NULL": "6\n",
    "SELECT id FROM item WHERE tag = 'none' AND qty = 7 ORDER BY id": "3\n4\n7\n",
    "SELECT id FROM item WHERE lot IS NULL ORDER BY id": "1\n2\n3\n4\n5\n7\n",
    "SELECT id, tag FROM item WHERE lot = 6": "6,NULL\n",
}

# Indexes on these columns, their entries, and such that aren't: the older rows have none, or some have none; they have NULL in the
# place of their DEFAULT, or the DEFAULT in the place of a NULL that is stored.
BY_TAG, BY_LOT = "CREATE INDEX i ON item(tag)", "CREATE INDEX i ON item(lot)"
NONES: list[tuple[Value, ...]] = [("none", 1), ("none", 2), ("none", 3), ("none", 4)]
AGED_SOUND: dict[str, list[tuple[Value, ...]]] = {
    BY_TAG: [(None, 6), *NONES, ("none", 7), ("x", 5)],
    "CREATE INDEX i ON item(tag DESC, qty)": [
        *(("x", 3, 5), ("none", None, 2), ("none", 7, 3), ("none", 7, 4), ("none", 7, 7), ("none", 40, 1), (None, 4, 6)),
    ],
    BY_LOT: [(None, 1), (None, 2), (None, 3), (None, 4), (None, 5), (None, 7), (6, 6)],
    "CREATE UNIQUE INDEX i ON item(lot)": [(None, 1), (None, 2), (None, 3), (None, 4), (None, 5), (None, 7), (6, 6)],
    "CREATE UNIQUE INDEX i ON item(tag, id)": [(None, 6, 6), *(("none", row, row) for row in (1, 2, 3, 4, 7)), ("x", 5, 5)],
    "CREATE INDEX i ON item(qty) WHERE tag = 'none'": [(None, 2), (7, 3), (7, 4), (7, 7), (40, 1)],
    "CREATE INDEX i ON item(qty) WHERE lot NOTNULL": [(4, 6)],
    "CREATE INDEX i ON item(tag) WHERE lot ISNULL": [*NONES, ("none", 7), ("x", 5)],
}
AGED_BROKEN: list[tuple[str, list[tuple[Value, ...]], bytes]] = [
    *((BY_TAG, [(None, 6), *NONES[:count], ("none", 7), ("x", 5)], fault_line(24, "i")) for count in range(4)),
    (BY_TAG, [(None, 1), (None, 2), (None, 3), (None, 4), (None, 6), ("none", 7), ("x", 5)], fault_line(24, "i")),
    (BY_TAG, [*NONES, ("none", 6), ("none", 7), ("x", 5)], fault_line(24, "i")),
    (BY_TAG, [("none", 7), ("x", 5)], fault_line(24, "i")),
    (BY_LOT, [(6, 6)], fault_line(24, "i")),
    (BY_LOT, [(None, 5), (None, 7), (6, 6)], fault_line(24, "i")),
    ("CREATE INDEX i ON item(qty) WHERE tag = 'none'", [(7, 7)], fault_line(24, "i")),
    ("CREATE INDEX i ON item(qty) WHERE tag ISNULL", [(None, 2), (4, 6), (7, 3), (7, 4), (40, 1)], fault_line(24, "i")),
    ("CREATE UNIQUE INDEX i ON item(tag)", [(None, 6), *NONES, ("none", 7), ("x", 5)], fault_line(25, "i")),
]

# Lengths of payloads of an index on pages of 512 bytes: how many bytes stand in the cell, and how many overflow pages have the rest.
PARTS = {
    **{101: (101, 0), 102: (102, 0), 103: (39, 1), 546: (39, 1), 547: (39, 1), 548: (40, 1), 610: (102, 1), 611: (39, 2)},
    **{1055: (39, 2), 1056: (40, 2), 1118: (102, 2), 1119: (39, 3)},
}

# Unique indexes over the rows: two agree in all columns, or have a NULL there.
REPEATED = {
    "CREATE UNIQUE INDEX i ON item(qty)": IN_ORDER,
    "CREATE UNIQUE INDEX i ON item(name)": [("bolt", 1), ("cap", 3), ("nut", 2), ("nut", 4)],
    "CREATE UNIQUE INDEX i ON item(qty) WHERE id > 1": [(None, 2), (7, 3), (7, 4)],
}


def items(rows: list[tuple[Value, ...]] | None = None, leaf: int = 4, sql: str = ITEM) -> Writer:
    """An image of the table alone, so many rows on a leaf; its root is page 2 where it has one page."""
    writer = Writer()
    records = [(rowid, record([None, *row])) for rowid, row in enumerate(ITEMS if rows is None else rows, 1)]
    writer.table("item", sql, records, leaf=leaf)
    return writer


def indexed(sql: str, entries: list[tuple[Value, ...]], writer: Writer | None = None, **shape: int) -> bytes:
    """The same with an index, whose root is page 3 where it has one page."""
    writer = items() if writer is None else writer
    writer.index("i", "item", sql, [record(entry) for entry in entries], **shape)
    return bytes(writer.image())


def with_nulls() -> tuple[Writer, list[tuple[Value, ...]]]:
    """Rows whose `qty` is NULL, and their entries."""
    return items([("a", None), ("b", None), ("c", 1)]), [(None, 1), (None, 2), (1, 3)]


def long_texts(count: int, leaf: int, fan: int) -> bytes:
    """An index of texts from two bytes to some thousand, whose entries go on in overflow pages, of some levels."""
    texts = [chr(97 + number // 26) + chr(97 + number % 26) + "x" * (number * number) for number in range(count)]
    writer = items([(text, None) for text in texts], 1)
    entries: list[tuple[Value, ...]] = [(text, rowid) for rowid, text in enumerate(texts, 1)]
    return indexed("CREATE INDEX i ON item(name)", entries, writer, leaf=leaf, fan=fan)


def try_aged(trial: Trial) -> None:
    """Indexes on columns that rows are older than, also of a table without rowids: with the entries of these rows, and without."""
    for sql, entries in AGED_SOUND.items():
        for leaf in (9, 3):
            image = indexed(sql, entries, items(AGED_ROWS, leaf, AGED), leaf=leaf)
            trial.sound(f"older rows, {sql}, {leaf} on a leaf", image, AGED_ANSWERS)
    for sql, entries, line in AGED_BROKEN:
        trial.refused(f"older rows, {sql}, the entries {entries}", indexed(sql, entries, items(AGED_ROWS, 9, AGED)), line)
    table = "CREATE TABLE item(id INT, name TEXT, tag TEXT DEFAULT 'none', PRIMARY KEY (name, id)) STRICT, WITHOUT ROWID"
    for line, entries in (
        ("", [(None, "nut", 4), ("none", "bolt", 1), ("none", "cap", 3), ("x", "nut", 2)]),
        (fault_line(24, "i"), [(None, "nut", 4), ("x", "nut", 2)]),
        (fault_line(24, "i"), [(None, "bolt", 1), (None, "cap", 3), (None, "nut", 4), ("x", "nut", 2)]),
    ):
        writer = Writer()
        writer.rowless("item", table, [record(row) for row in (("bolt", 1), ("cap", 3), ("nut", 2, "x"), ("nut", 4, None))])
        image = indexed(BY_TAG, entries, writer)
        if line:
            trial.refused(f"older rows without rowids, the entries {entries}", image, line)
        else:
            trial.sound("older rows without rowids", image, {"SELECT id FROM item WHERE tag = 'none' ORDER BY id": "1\n3\n"})


def try_sizes(trial: Trial) -> None:
    """Entries whose payloads are about as long as they may be without one overflow page more, on leaves and between them."""
    for size, parts in PARTS.items():
        # Beside a text its record has 4 bytes of the header and, but for rowid 1, one of the rowid.
        texts = [letter.ljust(size - (4 if rowid == 1 else 5), "x") for rowid, letter in enumerate("abc", 1)]
        image = indexed(
            "CREATE INDEX i ON item(name)",
            [(text, rowid) for rowid, text in enumerate(texts, 1)],
            items([(text, rowid * 7) for rowid, text in enumerate(texts, 1)], 1),
            leaf=1,
            fan=2,
        )
        what, cells = f"entries of {size} bytes", Reading(image).tree("i").cells
        found = [(cell.size, (cell.local, len(cell.chain))) for cell in cells]
        trial.tally.add(f"{what}, their parts", "" if found == [(size, parts)] * 3 else str(found))
        lines = [f"{rowid},'{text}',{rowid * 7}\n" for rowid, text in enumerate(texts, 1)]
        answers = {f"SELECT * FROM item WHERE name = '{text}'": line for text, line in zip(texts, lines)}
        trial.sound(what, image, {"SELECT * FROM item": "".join(lines), **answers})


def broken_images() -> Iterator[tuple[str, bytes, bytes]]:
    """Images of which one condition of an index is broken: what it is, the image, and the fault's line."""
    for entries, line in BROKEN:
        yield f"the entries {entries}", indexed(BY_QTY, entries), line
    for sql, entries in REPEATED.items():
        yield sql, indexed(sql, entries), fault_line(25, "i")
    descending = "CREATE INDEX i ON item(qty DESC)"
    yield f"{descending}, in the order of one that ascends", indexed(descending, IN_ORDER), fault_line(15, 3)
    for entries in LEFT_OUT:
        yield f"{FEW}, the entries {entries}", indexed(FEW, entries), fault_line(24, "i")
    for root, line in ((2, fault_line(13, 2)), (4, fault_line(11, 4))):
        writer = items()
        writer.index("i", "item", BY_QTY, [record(entry) for entry in IN_ORDER])
        if root == 4:
            writer.table("t", "CREATE TABLE t(a INT) STRICT", [])
            writer.objects.pop()
        writer.objects[1] = record(["index", "i", "item", root, BY_QTY])
        yield f"an index whose root is page {root}", bytes(writer.image()), line
    writer = items()
    writer.index("i", "item", BY_QTY, [record(entry) for entry in IN_ORDER])
    writer.objects.append(record(["index", "j", "item", 3, "CREATE INDEX j ON item(qty)"]))
    yield "two indexes of one root", bytes(writer.image()), fault_line(13, 3)


def try_indexes(trial: Trial) -> None:
    """Sound indexes of each order and shape, and broken ones."""
    for sql, entries in SOUND.items():
        trial.sound(sql, indexed(sql, entries), ANSWERS)
    for count, leaf, fan in ((63, 1, 2), (53, 1, 3), (47, 2, 2)):
        rows = [(f"row {rowid}", rowid % 9) for rowid in range(1, count + 1)]
        entries = sorted((qty, rowid) for rowid, (_, qty) in enumerate(rows, 1))
        image = indexed(BY_QTY, entries, items(rows), leaf=leaf, fan=fan)
        lines = "".join(f"{rowid},'{name}',{qty}\n" for rowid, (name, qty) in enumerate(rows, 1))
        trial.sound(f"an index of many levels, {leaf} on a leaf", image, {"SELECT * FROM item": lines})
    for count, leaf, fan in ((31, 1, 2), (35, 3, 3)):
        trial.sound(f"an index of {count} long texts", long_texts(count, leaf, fan), {"SELECT qty FROM item": "NULL\n" * count})
    writer, entries = with_nulls()
    image = indexed("CREATE UNIQUE INDEX i ON item(qty)", entries, writer)
    trial.sound("a unique index with NULLs", image, {"SELECT name FROM item": "'a'\n'b'\n'c'\n"})
    trial.sound("an index of no rows", indexed(BY_QTY, [], items([])), {"SELECT * FROM item": ""})
    try_aged(trial)
    try_sizes(trial)
    for what, image, line in broken_images():
        trial.refused(what, image, line)
