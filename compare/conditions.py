#!/usr/bin/env python3
"""Breaks each of the conditions 1 to 25 of docs/FAULTS.md in one sound image, alone and two at once. That a condition is broken alone,
and no other with it, a reading of the image by other code says, SQLite's check, or the header's bytes; the program has to tell it, with
its page or name. Of two that are broken it tells one: the lesser where that is one of the header.

Run from any folder; with `--pairs N` so many pairs of each two numbers are tried. The last line is 'N passed, M failed'.
"""

from __future__ import annotations

import argparse
import os
import struct
import sys
import tempfile
from collections import Counter
from collections.abc import Iterator
from dataclasses import dataclass, replace
from itertools import combinations_with_replacement, product
from pathlib import Path
from random import Random
from typing import TypeVar

from damage import UNREADABLE, header_fault
from oracle import Reader
from pages import INDEX_INTERIOR, INDEX_LEAF, INTERIOR, LEAF, cell_places, number_at, page_start
from program import Run, Tally, build, fault_line, refusal_problem, run
from sound import answer_problem
from witness import WITNESSED, Cell, Reading, Row, read_types
from writer import Field, Value, Writer, record, varint

SIZE = 512
# How many pairs are tried of each two numbers, and how many at least.
PAIRS, FEW_PAIRS = 12, 1
# The number of no page, whatever is added to the image.
FAR_PAGE = 100_000
# The longest image, and a place behind it.
MOST_BYTES, FAR_PLACE = 1 << 30, 1 << 40

# Other bytes by the places at which they stand.
Pieces = dict[int, bytes]
Found = TypeVar("Found")

# The pages that have records, by what they are: the tree, and whether they are leaves.
KINDS = {
    "a leaf of a table": ("note", True),
    "a leaf of an index": ("by_name", True),
    "an interior page of an index": ("by_name", False),
    "a leaf without rowids": ("pair", True),
    "an interior page without rowids": ("pair", False),
    "a leaf of the schema": ("sqlite_schema", True),
}
# Which value of the records of each tree is a number of eight bytes or may be one, and which is a text.
NUMBER_AT = {"note": 4, "by_name": 1, "pair": 2, "sqlite_schema": 3}
TEXT_AT = {"note": 1, "by_name": 0, "pair": 1, "sqlite_schema": 4}

NOTE = "CREATE TABLE note(id INTEGER PRIMARY KEY, body TEXT NOT NULL, n INT, flag INT NOT NULL, far INT, more BLOB) STRICT"
ITEM = "CREATE TABLE item(name TEXT NOT NULL, qty INT, low INT, top INT, code INT UNIQUE, kind TEXT, rank INT, far INT) STRICT"
PAIR = "CREATE TABLE pair(a INT, b TEXT, c BLOB, d INT, e INT, f INT NOT NULL, g INT, PRIMARY KEY (d, b)) STRICT, WITHOUT ROWID"
OLD = "CREATE TABLE old(id INTEGER PRIMARY KEY, tag TEXT DEFAULT 'none') STRICT"
TRIGGER = "CREATE TRIGGER r AFTER INSERT ON item BEGIN SELECT 1; END"
AUTOMATIC = "sqlite_autoindex_item_1"


def word(number: int) -> bytes:
    """A number in four bytes."""
    return struct.pack(">I", number % 2**32)


def said(number: int, *pages: object) -> tuple[bytes, ...]:
    """The lines of a fault that carries one of these pages or names, or of one that carries none."""
    return tuple(fault_line(number, page) for page in pages) or (fault_line(number),)


@dataclass(frozen=True)
class Switch:
    """A condition that is broken: its number, how, the bytes that are others, the lines of which one tells it (where none is stated,
    those that the reading says), the length of the image where it is another, and the places between which the bytes have to stay."""

    number: int
    what: str
    pieces: Pieces
    lines: tuple[bytes, ...] = ()
    length: int | None = None
    held: tuple[int, int] = (0, 0)

    def ranges(self, length: int) -> list[tuple[int, int]]:
        """Between which places of an image of this length it needs the bytes for itself."""
        ends = [] if self.length is None else [(length, FAR_PLACE)]
        return [*((place, place + len(piece)) for place, piece in self.pieces.items()), self.held, *ends]

    def meets(self, other: Switch, length: int) -> bool:
        """Whether another one needs some of the same bytes."""
        return any(a < d and c < b for (a, b), (c, d) in product(self.ranges(length), other.ranges(length)))


def put(path: Path, image: bytes, *switches: Switch) -> None:
    """Writes the image with these conditions broken."""
    changed = bytearray(image)
    for switch in switches:
        for place, piece in switch.pieces.items():
            changed[place : place + len(piece)] = piece
    path.write_bytes(changed)
    for switch in switches:
        if switch.length is not None:
            os.truncate(path, switch.length)


class Base:
    """A sound image with trees of each kind and of some levels, overflow pages, and a freelist of two trunk pages, the first of which
    is full; and where all of this stands."""

    def __init__(self) -> None:
        self.writer = Writer(SIZE)
        self.add_notes()
        self.add_items()
        self.add_pairs()
        self.add_small()
        self.trunks = self.writer.freelist((SIZE - 8) // 4 - 1, 3)
        self.image = bytes(self.writer.image(leaf=2))
        self.reading = Reading(self.image)
        self.count = self.reading.count
        self.free = number_at(self.image, 36, 4)
        self.asked: Counter[tuple[str, bool, bool]] = Counter()

    def add_notes(self) -> None:
        """A table without an index, the last rows of which go on in overflow pages, two of them with one text."""
        rows = []
        for rowid in range(1, 28):
            body = f"note {min(rowid, 26)} ".ljust(60, "n") * (20 if rowid > 18 else 1)
            rows.append((rowid, record([None, body, rowid + 1, 1, 2**60 + rowid, None])))
        self.writer.table("note", NOTE, rows, leaf=2, fan=3)

    def add_items(self) -> None:
        """A table with indexes: one for a key, one with entries that go on in overflow pages, one that descends, a partial one and a
        unique one."""
        rows: dict[int, Row] = {}
        for rowid in range(1, 32):
            name = f"{chr(97 + rowid * 7 % 26)}{rowid:02} ".ljust(700 if rowid % 4 == 0 else 20, "m")
            numbers = rowid * 7 % 31 + 2, rowid + 40, rowid + 41, 2 * rowid + 10
            rows[rowid] = [name, *numbers, "abc"[rowid % 3], rowid + 50, 2**60 + rowid]
        self.writer.table("item", ITEM, [(rowid, record(row)) for rowid, row in rows.items()], leaf=3, fan=4)

        def entries(*columns: int) -> list[Row]:
            return sorted([*(row[column] for column in columns), rowid] for rowid, row in rows.items())

        automatic = self.writer.entry_tree([record(entry) for entry in entries(4)], 6, 3)
        self.writer.object("index", AUTOMATIC, "item", automatic.root, None)
        for name, on, wanted in (
            ("by_name", "item(name, far)", entries(0, 7)),
            ("by_qty", "item(qty DESC)", entries(1)[::-1]),
            ("by_low", "item(low)", entries(2)),
            ("few", "item(qty) WHERE qty < 10", [entry for entry in entries(1) if entry[0] in range(10)]),
            ("once", "item(kind, rank)", entries(5, 6)),
        ):
            sql = f"CREATE {'UNIQUE ' if name == 'once' else ''}INDEX {name} ON {on}"
            self.writer.index(name, "item", sql, [record(entry) for entry in wanted], leaf=2, fan=4)

    def add_pairs(self) -> None:
        """A table without rowids, rows of which go on in overflow pages, on leaves and between them; with an index and a unique one."""
        rows = []
        for row in range(26):
            blob = b"\1\2" * (550 if row % 4 == 3 else 1)
            rows.append([row // 2 + 2, f"b{row:02} ".ljust(50, "b"), 2**60 + row, blob, row * 5 % 26 + 2, 1, row + 30])
        self.writer.rowless("pair", PAIR, [record(row) for row in rows], leaf=2, fan=3)
        for name, at in (("by_e", 4), ("sole", 6)):
            sql = "CREATE INDEX by_e ON pair(e)" if at == 4 else "CREATE UNIQUE INDEX sole ON pair(g)"
            entries = sorted([row[at], row[0], row[1]] for row in rows)
            self.writer.index(name, "pair", sql, [record(entry) for entry in entries], leaf=3, fan=4)

    def add_small(self) -> None:
        """Tables and indexes of one page: rows that are older than a column, and trees that get more levels; two tables of the same
        rows; a row of the schema that goes on in overflow pages; and a trigger."""
        writer, rows = self.writer, [(rowid, record([rowid])) for rowid in (1, 2, 3)]
        writer.table("old", OLD, [(1, record([None])), (2, record([None])), (3, record([None, "x"]))])
        tags = [record(["none", 1]), record(["none", 2]), record(["x", 3])]
        writer.index("by_tag", "old", "CREATE INDEX by_tag ON old(tag)", tags)
        writer.table("deep", "CREATE TABLE deep(a INT) STRICT", rows)
        writer.index("deeper", "deep", "CREATE INDEX deeper ON deep(a)", [record([a, a]) for a in (1, 2, 3)])
        keyed = [record([a, "deep"]) for a in (1, 2, 3)]
        writer.rowless("deepest", "CREATE TABLE deepest(a INT PRIMARY KEY, b TEXT) STRICT, WITHOUT ROWID", keyed)
        for name in ("twin", "twig"):
            writer.table(name, f"CREATE TABLE {name}(a INT) STRICT", rows)
        writer.table("wide", f"CREATE TABLE wide(a INT, {'wide' * 400} INT) STRICT", [])
        writer.object("trigger", "r", "item", 0, TRIGGER)

    def root(self, name: str) -> int:
        """The root of a tree."""
        return self.reading.tree(name).root

    def is_leaf(self, page: int) -> bool:
        """Whether a page of a tree has no children."""
        return self.image[page_start(self.image, page)] in (LEAF, INDEX_LEAF)

    def cells(self, name: str, page: int) -> list[Cell]:
        """The cells of a page of a tree, in their order."""
        read = self.reading.read_page(self.reading.tree(name), page)
        return read[1] if read else []

    def interiors(self, name: str) -> list[int]:
        """The pages of a tree that have children, from the root down, but for those on its right edge."""
        found = [] if self.is_leaf(self.root(name)) else [self.root(name)]
        for page in found:
            found += [cell.child for cell in self.cells(name, page) if not self.is_leaf(cell.child)]
        return found

    def leaf(self, name: str) -> int:
        """A leaf of a tree that has more than one cell, and none that goes on in overflow pages: another one each time."""
        cells = self.reading.tree(name).cells
        counts, chained = Counter(cell.page for cell in cells), {cell.page for cell in cells if cell.chain}
        pages = [page for page, count in counts.items() if self.is_leaf(page) and count > 1 and page not in chained]
        return self.another(pages, "leaf", name)

    def take(self, name: str, is_leaf: bool = True, is_chained: bool = False) -> Cell:
        """A cell of a tree that stands on a leaf or not, and goes on in overflow pages or not: another one each time."""
        cells = [cell for cell in self.reading.tree(name).cells if self.is_leaf(cell.page) == is_leaf and bool(cell.chain) == is_chained]
        return self.another(cells, "cell", name, is_leaf, is_chained)

    def another(self, found: list[Found], *asked: object) -> Found:
        """The next one of those that were found, and the first behind the last."""
        self.asked[asked] += 1
        return found[self.asked[asked] % len(found)]

    def payload(self, cell: Cell) -> bytes:
        """What stands of a payload in its cell."""
        return self.image[cell.place : cell.link]

    def links(self, cell: Cell) -> list[int]:
        """Where a cell names the first of its overflow pages, and where each of these names the next."""
        return [cell.link, *((page - 1) * SIZE for page in cell.chain)]

    def type_place(self, cell: Cell, at: int) -> int:
        """Where a record says the type of a value."""
        types, end = read_types(self.payload(cell)) or ([], 0)
        return cell.place + end - sum(len(varint(kind)) for kind in types[at:])

    def with_cell(self, name: str, cell: Cell, raw: bytes) -> Pieces:
        """The page of a cell, which has these bytes behind its child, if it has one."""
        start, is_leaf = (cell.page - 1) * SIZE, self.is_leaf(cell.page)
        head = self.image[start : start + 1] + (b"" if is_leaf else self.image[start + 8 : start + 12])
        child = b"" if is_leaf else self.image[cell.start : cell.start + 4]
        raws = [child + raw if one.start == cell.start else self.image[one.start : one.end] for one in self.cells(name, cell.page)]
        return {start: self.writer.page(head, raws)}

    def with_payload(self, name: str, cell: Cell, payload: bytes, size: int | None = None) -> Pieces:
        """The page of a cell that has this payload, and may say that it is of another size."""
        key = varint(cell.rowid) if self.reading.tree(name).is_table else b""
        return self.with_cell(name, cell, varint(len(payload) if size is None else size) + key + payload)

    def with_value(self, name: str, cell: Cell, at: int, value: Field | Value) -> Pieces:
        """The page of a cell whose record has this value."""
        return self.with_values(name, cell, {at: value})

    def with_values(self, name: str, cell: Cell, changes: dict[int, Field | Value]) -> Pieces:
        """The page of a cell whose record has these values."""
        return self.with_payload(name, cell, record(changes.get(at, value) for at, value in enumerate(cell.values)))

    def schema_row(self, name: str) -> Cell:
        """The row of the schema that has this name."""
        return next(cell for cell in self.reading.trees[0].cells if cell.values[1] == name)

    def with_row(self, name: str, /, **changes: Value) -> Pieces:
        """The page of the schema on which the row of an object has another kind, name, owner, root or sql."""
        cell = self.schema_row(name)
        values = {**dict(zip(("kind", "name", "owner", "root", "sql"), cell.values)), **changes}
        return self.with_payload("sqlite_schema", cell, record(values.values()))

    def respelt(self, name: str, old: str, new: str) -> tuple[str, Pieces]:
        """The text of an object with other letters, and the page of the schema that has it."""
        sql = str(self.schema_row(name).values[4])
        assert old in sql, f"{old!r} isn't in {sql!r}"
        return sql.replace(old, new), self.with_row(name, sql=sql.replace(old, new))

    def with_fewer(self, name: str) -> tuple[int, Pieces]:
        """A leaf of a tree that says that it has one cell less, and what it is then."""
        page = self.leaf(name)
        place = page_start(self.image, page) + 3
        return page, {place: struct.pack(">H", number_at(self.image, place, 2) - 1)}

    def with_free(self, pages: list[int]) -> Pieces:
        """The freelist with these numbers too, at its end."""
        place = (self.trunks[1] - 1) * SIZE + 4
        count = number_at(self.image, place, 4)
        numbers = b"".join(map(word, pages))
        return {place: word(count + len(pages)), 36: word(self.free + len(pages)), place + 4 + 4 * count: numbers}

    def with_pages(self, *pages: bytes) -> Pieces:
        """The image with further pages."""
        return {28: word(self.count + len(pages)), len(self.image): b"".join(pages)}

    def above(self, name: str, child: int) -> bytes:
        """A page of a tree whose only child this is."""
        flag = INTERIOR if self.reading.tree(name).is_table else INDEX_INTERIOR
        return self.writer.page(bytes([flag]) + word(child), [])

    def deepened(self, name: str, levels: int) -> Pieces:
        """A tree of one page, its root, whose cells stand on a leaf so many levels below it, each page with one child."""
        start = (self.root(name) - 1) * SIZE
        pages = [self.above(name, self.count + level) for level in range(1, levels + 1)]
        return {start: pages[0], **self.with_pages(*pages[1:], self.image[start : start + SIZE])}


def header_switches(base: Base) -> Iterator[Switch]:
    """The conditions of the header."""
    for length in (0, 99):
        yield Switch(1, f"{length} bytes", {}, said(1), length)
    pieces: list[tuple[int, int, bytes]] = [
        *((2, place, piece) for place, piece in ((0, b"s"), (15, b"\1"))),
        *((3, 16, piece) for piece in (b"\0\0", b"\x01\0", b"\x02\x01", b"\x80\x01", b"\0\x02")),
        *((3, 20, piece) for piece in (b"\x21", b"\xff")),
        *((4, place, piece) for place in (18, 19) for piece in (b"\0", b"\x03", b"\xff")),
        *((4, place, piece) for place in (21, 22, 23) for piece in (b"\0", b"\x21", b"\xff")),
        *((5, place, b"\2") for place in (18, 19)),
        *((6, 56, word(number)) for number in (0, 2, 3, 2**24 + 1)),
        *((7, place, word(number)) for place in (52, 64) for number in (1, 2**24)),
        *((8, 44, word(number)) for number in (0, 1, 3, 5, 2**24 + 4)),
        *((9, 28, word(number)) for number in (0, 1, base.count - 1, base.count + 1, base.count + 2**31)),
        *((9, place, word(number)) for place, numbers in ((24, (0, 2, 2**24 + 1)), (92, (3, 5, 2**24 + 2))) for number in numbers),
    ]
    for number, place, piece in pieces:
        yield Switch(number, f"{piece.hex()} at {place}", {place: piece}, said(number))
    for more in (1, -1, SIZE, -SIZE):
        yield Switch(9, f"{more} bytes more", {}, said(9), len(base.image) + more)
    length = MOST_BYTES + SIZE
    yield Switch(10, f"{length} bytes", {28: word(length // SIZE)}, said(10), length)


def page_switches(base: Base) -> Iterator[Switch]:
    """Pages that are none of their trees."""
    for name in ("note", "by_name", "pair", "sqlite_schema"):
        table, index = (LEAF, INTERIOR), (INDEX_LEAF, INDEX_INTERIOR)
        others = index if base.reading.tree(name).is_table else table
        for page in (base.leaf(name), *base.interiors(name)[:2]):
            head, places = page_start(base.image, page), cell_places(base.image, page)
            first, last = places[0], places[-1]
            broken: list[tuple[str, int, bytes]] = [
                *((f"has the flag {flag}", head, bytes([flag])) for flag in (*others, 0, 1, 255)),
                *(("has too many cells", head + 3, struct.pack(">H", count)) for count in (SIZE // 2, 0xFFFF)),
                *(("has a cell in its header", place, struct.pack(">H", head % SIZE)) for place in (first, last)),
                ("has a cell among the places", first, struct.pack(">H", last % SIZE + 1)),
                *(("has a cell behind it", last, struct.pack(">H", at)) for at in (SIZE - 1, SIZE, 0xFFFF)),
            ]
            if base.is_leaf(page):
                broken.append(("has no cell", head + 3, b"\0\0"))
            else:
                cells = base.cells(name, page)
                links = {head + 8, cells[0].start, cells[-1].start}
                broken += [(f"has the child {child}", link, word(child)) for link in sorted(links) for child in (0, FAR_PAGE, -1)]
            for how, place, piece in broken:
                yield Switch(11, f"{name}, page {page} {how}, {piece.hex()} at {place}", {place: piece}, said(11, page))
    for what, (name, is_leaf) in KINDS.items():
        for size in (-1, -(2**63), len(base.image) + FAR_PAGE * SIZE, 2**40):
            cell = base.take(name, is_leaf)
            pieces = base.with_payload(name, cell, base.payload(cell)[:9], size)
            yield Switch(11, f"{what}, a payload of {size} bytes", pieces, said(11, cell.page))
        # The first cell stands at the end of its page.
        cell = base.cells(name, base.take(name, is_leaf).page)[0]
        pieces = base.with_payload(name, cell, base.payload(cell)[:-1], cell.size)
        yield Switch(11, f"{what}, a cell that leaves its page", pieces, said(11, cell.page))


def chain_switches(base: Base) -> Iterator[Switch]:
    """Chains that go on behind their payload, and such that end before it does or leave the image, whose other pages are free."""
    for what, (name, is_leaf) in KINDS.items():
        cell = base.take(name, is_leaf, True)
        for after in (1, cell.chain[0], cell.chain[-1], FAR_PAGE):
            yield Switch(12, f"{what}, a chain that goes on at page {after}", {base.links(cell)[-1]: word(after)}, said(12, cell.page))
        for place, after in product(range(len(cell.chain)), (0, FAR_PAGE, -1)):
            pieces = {base.links(cell)[place]: word(after), **base.with_free(cell.chain[place:])}
            yield Switch(12, f"{what}, page {after} behind {place} of a chain", pieces, said(12, cell.page))


def use_switches(base: Base) -> Iterator[Switch]:
    """Pages that nothing uses, and such that two places do."""
    yield Switch(13, "a page that nothing uses", base.with_pages(bytes(SIZE)), said(13, base.count + 1))
    first, last = base.trunks
    used = (base.leaf("note"), base.root("by_name"), base.leaf("pair"), base.take("pair", False, True).chain[-1])
    for trunk in base.trunks:
        place = (trunk - 1) * SIZE + 4
        count = number_at(base.image, place, 4)
        left = number_at(base.image, place + 4 * count, 4)
        fewer = {place: word(count - 1), 36: word(base.free - 1)}
        yield Switch(13, f"the freelist forgets page {left}", fewer, said(13, left))
        for page in (1, *used, first, last, last + 1, first + count - 1):
            pieces = {place + 4 * count: word(page)}
            yield Switch(13, f"the freelist names page {page}, not {left}", pieces, said(13, page, left))
    root, other = base.root("twin"), base.root("twig")
    yield Switch(13, "two tables of one root", base.with_row("twig", root=root), said(13, root, other))
    one, two = (cell for cell in base.reading.tree("note").cells if cell.rowid in (26, 27))
    for place, link in enumerate(base.links(two)[:-1]):
        doubled = said(13, *one.chain[place:], *two.chain[place:])
        yield Switch(13, f"a chain that goes on as another does, behind {place}", {link: word(one.chain[place])}, doubled)


def free_switches(base: Base) -> Iterator[Switch]:
    """The freelist."""
    first, last = ((trunk - 1) * SIZE for trunk in base.trunks)
    for count in (0, 1, base.free - 1, base.free + 1, -1):
        yield Switch(14, f"{count} free pages, not {base.free}", {36: word(count)}, said(14))
    for place, after in (*product((32, first), (0, FAR_PAGE, -1)), (last, FAR_PAGE), (last, -1)):
        yield Switch(14, f"the freelist goes on at page {after}, at {place}", {place: word(after)}, said(14))
    for page in (0, FAR_PAGE, -1):
        yield Switch(14, f"the freelist names page {page} too", base.with_free([page]), said(14))
        yield Switch(14, f"the freelist names page {page} for another", {last + 8: word(page)}, said(14))
    # A trunk page says that it names more pages than it has room for, and the header agrees.
    count = number_at(base.image, first + 4, 4)
    for more in (1, 2, 2**20, 2**32 - 1 - count):
        pieces = {first + 4: word(count + more), 36: word(base.free + more)}
        yield Switch(14, f"{count + more} pages in a trunk page", pieces, said(14))


def order_switches(base: Base) -> Iterator[Switch]:
    """Keys that descend or are equal, and such that break the bounds of the pages above them."""

    def swapped(page: int) -> Pieces:
        places = cell_places(base.image, page)
        return {places[0]: base.image[places[1] : places[1] + 2], places[1]: base.image[places[0] : places[0] + 2]}

    names = ("note", "item", AUTOMATIC, "by_name", "by_qty", "few", "once", "pair", "by_e", "sqlite_schema", "deep", "deeper", "deepest")
    for name in names:
        page = base.leaf(name)
        yield Switch(15, f"{name}, cells of leaf {page} swapped", swapped(page), said(15, page))
        for page in base.interiors(name):
            if len(base.cells(name, page)) > 1:
                yield Switch(15, f"{name}, cells of page {page} swapped", swapped(page))
    for page in base.interiors("note"):
        cell = base.cells("note", page)[0]
        for key in (cell.rowid - 1, cell.rowid + 1):
            yield Switch(15, f"note, the key {key} for {cell.rowid} on page {page}", {cell.start + 4: bytes([key])})
    for rowid in (0, 100):
        cell = base.cells("note", base.leaf("note"))[1]
        yield Switch(15, f"note, the row {rowid} for {cell.rowid}", {cell.place - 1: bytes([rowid])}, said(15, cell.page))
    for name in ("note", "deep"):
        one, two = base.cells(name, base.leaf(name))[:2]
        yield Switch(15, f"{name}, the row {one.rowid} twice", {two.place - 1: bytes([one.rowid])}, said(15, one.page))
    cell = base.reading.tree("deepest").cells[-1]
    yield Switch(15, "deepest, a key twice", base.with_value("deepest", cell, 0, 2), said(15, cell.page))


def depth_switches(base: Base) -> Iterator[Switch]:
    """Leaves at two depths, and pages that stand too deep."""
    for name in ("note", "item", AUTOMATIC, "by_name", "by_qty", "once", "pair", "sole", "sqlite_schema"):
        cells = (cell for page in base.interiors(name) for cell in base.cells(name, page))
        for cell in [cell for cell in cells if base.is_leaf(cell.child)][:2]:
            pieces = {cell.start: word(base.count + 1), **base.with_pages(base.above(name, cell.child))}
            yield Switch(16, f"{name}, a page above leaf {cell.child} alone", pieces, said(16, base.root(name)))
    for name in ("deep", "deeper", "deepest"):
        for levels in (20, 21, 40):
            yield Switch(16, f"{name}, a leaf with {levels} levels above it", base.deepened(name, levels), said(16, base.root(name)))


def bad_records(values: Row, fewest: int) -> list[tuple[str, bytes]]:
    """Bytes that aren't a record of the tree of this one: it is cut, goes on, has another header, a type that is reserved or below
    zero, a value too many, or one less than it has to have."""
    whole = record(values)
    return [
        ("no byte", b""),
        ("a byte too few", whole[:-1]),
        ("a byte too many", whole + b"\0"),
        *((f"{what} header", varint(length) + whole[1:]) for what, length in (
            *(("no", 0), ("a shorter", whole[0] - 1), ("a longer", whole[0] + 1), ("too long a", len(whole) + 1)),
            *(("an endless", 2**63 - 1), ("a negative", -1)),
        )),
        *((f"the type {kind}", record([*values[:-1], (kind, b"")])) for kind in (10, 11, -1, -(2**63), 2**63 - 1)),
        ("a value too many", record([*values, None])),
        *(("a value too few", record(values[: fewest - 1])) for _ in range(min(1, fewest))),
    ]  # fmt: skip


def record_switches(base: Base) -> Iterator[Switch]:
    """Bytes that are no record of their tree."""
    for what, (name, is_leaf) in KINDS.items():
        fewest = base.reading.tree(name).least
        for place, (how, _) in enumerate(bad_records(base.take(name, is_leaf).values, fewest)):
            cell = base.take(name, is_leaf)
            payload = bad_records(cell.values, fewest)[place][1]
            yield Switch(17, f"{what}, {how}", base.with_payload(name, cell, payload), said(17, cell.page))
        cell = base.take(name, is_leaf, True)
        place = base.type_place(cell, len(cell.values) - 1)
        held = cell.start, place
        yield Switch(17, f"{what}, a reserved type and overflow pages", {place: b"\x0a"}, said(17, cell.page), held=held)
    _, pieces = base.respelt("old", "'none'", "('none')")
    yield Switch(17, "rows older than a DEFAULT in parentheses", pieces, said(17, base.root("old")))


def text_switches(base: Base) -> Iterator[Switch]:
    """Floats, and texts that aren't UTF-8."""
    for what, (name, is_leaf) in KINDS.items():
        pieces = base.with_value(name, base.take(name, is_leaf), NUMBER_AT[name], (7, b"\x3f\xe0" + bytes(6)))
        yield Switch(18, f"{what}, a float", pieces, said(18))
        for end in (b"\xff", b"\xc3", b"\x80", b"\xed\xa0\x80", b"\xc0\xaf", b"\xf4\x90\x80\x80"):
            cell = base.take(name, is_leaf)
            text = str(cell.values[TEXT_AT[name]]).encode()[: -len(end)] + end
            pieces = base.with_value(name, cell, TEXT_AT[name], (13 + 2 * len(text), text))
            yield Switch(19, f"{what}, a text that ends with {end.hex()}", pieces, said(19))
        cell = base.take(name, is_leaf, True)
        held = cell.start, cell.place
        yield Switch(19, f"{what}, a byte of a text in an overflow page", {base.links(cell)[1] + 4: b"\xff"}, said(19), held=held)
    for name, is_leaf in (("note", True), ("pair", True), ("pair", False)):
        cell = base.take(name, is_leaf, True)
        place = base.type_place(cell, NUMBER_AT[name])
        yield Switch(18, f"{name}, {is_leaf}, a float and overflow pages", {place: b"\7"}, said(18), held=(cell.start, place))


def schema_switches(base: Base) -> Iterator[Switch]:
    """Rows of the schema that aren't as SQLite writes them."""
    for name, changes in (
        *(("twin", {"kind": kind}) for kind in ("thing", "Table", None)),
        *(("twin", {column: None}) for column in ("name", "owner", "root", "sql")),
        *(("twin", {"name": "twist"}), ("twin", {"owner": "old"}), ("twin", {"sql": "CREATE TABLE twist(a INT) STRICT"})),
        *(("twig", {"root": root}) for root in (0, 1, -2, FAR_PAGE, 2**32 + 2)),
        ("twig", {"name": "TWIN", "owner": "Twin", "sql": "CREATE TABLE twin(a INT) STRICT"}),
        *(("by_tag", {"root": root}) for root in (None, 0, 1, FAR_PAGE)),
        *(("by_tag", {"name": "by_tags"}), ("by_tag", {"owner": "deep"}), ("by_tag", {"sql": "CREATE INDEX by_tag ON gone(tag)"})),
        *(("by_tag", {"owner": "gone", "sql": "CREATE INDEX by_tag ON gone(tag)"}), ("by_low", {"sql": None})),
        *(("by_low", {"name": "Item", "sql": "CREATE INDEX item ON item(low)"}), ("by_low", {"name": "by_E"})),
        *((AUTOMATIC, {"name": "sqlite_autoindex_item_2"}), (AUTOMATIC, {"owner": "pair"})),
        *((AUTOMATIC, {"kind": "trigger", "sql": TRIGGER}), ("item", {"sql": ITEM.replace(" UNIQUE", "")})),
        *(("twin", {"sql": "CREATE TABLE twin(a INT UNIQUE) STRICT"}), ("r", {"sql": None}), ("r", {"kind": "rule"})),
    ):
        yield Switch(20, f"{name} with {changes}", base.with_row(name, **changes), said(20))


def spelling_switches(base: Base) -> Iterator[Switch]:
    """Texts of the schema that can't be read, and such that have what is left out."""
    for number, name, old, news in (
        (21, "twin", "CREATE", ["CREATF", ""]),
        (21, "twin", "TABLE", ["INDEX"]),
        (21, "twin", " twin", [" 'twin'", " IF NOT EXISTS twin", " main.twin", ""]),
        (21, "twin", "(", ["[", "(("]),
        (21, "twin", "a INT", ["a INT,", "", "a INT AS (1)", "a INT \0", "a INT) STRICT, (b INT"]),
        (21, "twin", "STRICT", ["STRICT,", "STRICT STRICT"]),
        (21, "pair", "(d, b)", ["()", "", "(d, b"]),
        (21, "by_e", "CREATE ", [""]),
        (21, "by_e", "INDEX", ["TABLE"]),
        (21, "by_e", "(e)", ["", "()", "(e + 1)", "(e", "(e) WHERE", "(e),", "(e) WHERE e >"]),
        (22, "twin", "a INT", ["a REAL", "a ANY", "a", "a INT(9)", "a INT, A INT", "a TEXT COLLATE NOCASE", "a INT, UNIQUE (a DESC)"]),
        (22, "twin", "a INT", ["a INTEGER PRIMARY KEY AUTOINCREMENT", "a INTEGER PRIMARY KEY DESC", "a INT, FOREIGN KEY (b) REFERENCES u"]),
        (22, "twin", " STRICT", ["", " STRICT, STRICT"]),
        (22, "pair", "STRICT, ", [""]),
        (22, "pair", "g INT", ["g INT UNIQUE"]),
        (22, "pair", "(d, b)", ["(d DESC, b)", "(d, d)", "(d, z)"]),
        (22, "old", "DEFAULT 'none'", ["PRIMARY KEY"]),
        (22, "by_e", "(e)", ["(z)", "(e, E)", "(e COLLATE NOCASE)", "(e) WHERE abs(e) > 1", "(e) WHERE b", "(e) WHERE z"]),
    ):
        for new in news:
            text, pieces = base.respelt(name, old, new)
            yield Switch(number, text, pieces, said(number, name))
    pieces = base.with_row("twig", kind="view", root=0, sql="CREATE VIEW twig AS SELECT 1")
    yield Switch(22, "a view", pieces, said(22, "twig"))


def value_switches(base: Base) -> Iterator[Switch]:
    """Values that aren't of their columns."""
    for name, is_leaf, values in (
        ("note", True, ((1, 7), (1, b"x"), (1, None), (2, "7"), (2, b""), (3, None), (3, "1"), (4, b"far"), (5, 7), (5, "x"))),
        *(("pair", is_leaf, ((2, "a"), (2, b""), (3, "c"), (3, 7), (5, None), (5, b"f"))) for is_leaf in (True, False)),
        ("deepest", True, ((0, None), (0, "a"))),
    ):
        for at, value in values:
            # A NULL in the place of the first key, and a text in that of the last, leave these in order.
            ends = base.reading.tree(name).cells[0 if value is None else -1]
            cell = ends if name == "deepest" else base.take(name, is_leaf)
            yield Switch(23, f"{name}, {is_leaf}, {value!r} at {at} of a record", base.with_value(name, cell, at, value), said(23, name))
    for name, is_leaf, at in (("note", True, 3), ("pair", True, 5), ("pair", False, 5)):
        cell = base.take(name, is_leaf, True)
        place = base.type_place(cell, at)
        yield Switch(23, f"{name}, {is_leaf}, NULL and overflow pages", {place: b"\0"}, said(23, name), held=(cell.start, place))
    yield Switch(23, "a text for a root in the schema", base.with_row("twig", root="twig"), said(23, "sqlite_schema"))


def entry_switches(base: Base) -> Iterator[Switch]:
    """Indexes that haven't just the entries that their tables want."""
    for name in (AUTOMATIC, "by_name", "by_qty", "by_low", "few", "once", "by_e", "sole", "by_tag", "deeper"):
        page, pieces = base.with_fewer(name)
        yield Switch(24, f"{name}, an entry less on page {page}", pieces, said(24, name))
    for name, indexes in (("pair", ("by_e", "sole")), ("deep", ("deeper",)), ("old", ("by_tag",))):
        page, pieces = base.with_fewer(name)
        yield Switch(24, f"{name}, a row less on page {page}", pieces, said(24, *indexes))
    lasts = {"by_low": (1, 90), "by_qty": (1, 90), "once": (2, None), "sole": (2, "c"), "deeper": (1, 9), "by_tag": (0, "y")}
    for name, (at, value) in lasts.items():
        pieces = base.with_value(name, base.reading.tree(name).cells[-1], at, value)
        yield Switch(24, f"{name}, {value!r} at {at} of the last entry", pieces, said(24, name))
    for name, at, value, indexes in (
        *(("item", at, value, ("by_qty", "few")) for at, value in ((1, None), (1, 127), (1, 0))),
        *(("item", 2, None, ("by_low",)), ("item", 4, None, (AUTOMATIC,)), ("item", 5, "z", ("once",)), ("item", 6, 0, ("once",))),
        *(("item", 7, 0, ("by_name",)), ("item", 0, "name", ("by_name",)), ("pair", 4, None, ("by_e",)), ("pair", 6, 0, ("sole",))),
        *(("deep", 0, None, ("deeper",)), ("old", 1, "y", ("by_tag",))),
    ):
        cell = base.reading.tree(name).cells[-1] if name == "old" else base.take(name)
        pieces = base.with_value(name, cell, at, value)
        yield Switch(24, f"{name}, {value!r} at {at} of a row", pieces, said(24, *indexes))
    for name, old, news, index in (
        *(("few", "< 10", ["< 12", "< 3", "< 10 AND rank <> 55"], "few"), ("few", " WHERE qty < 10", [""], "few")),
        *(("by_low", "(low)", ["(top)", "(low) WHERE rank <> 60"], "by_low"), ("by_e", "(e)", ["(e) WHERE NOT e = 7"], "by_e")),
        *(("sole", "(g)", ["(g) WHERE a NOTNULL AND c > x'01' AND g > 40"], "sole"), ("old", "'none'", ["'nome'", "NULL"], "by_tag")),
    ):
        for new in news:
            text, pieces = base.respelt(name, old, new)
            yield Switch(24, text, pieces, said(24, index))


def unique_switches(base: Base) -> Iterator[Switch]:
    """Unique indexes with two entries that agree in all columns, as their rows do."""
    _, pieces = base.respelt("by_tag", "INDEX", "UNIQUE INDEX")
    yield Switch(25, "by_tag is unique", pieces, said(25, "by_tag"))
    for name, table, columns in ((AUTOMATIC, "item", (4,)), ("once", "item", (5, 6)), ("sole", "pair", (6,))):
        rows = {tuple(cell.values[at] for at in columns): cell for cell in base.reading.tree(table).cells}
        entries = sorted(base.reading.tree(name).cells, key=lambda cell: cell.values)
        for entry, after in list(zip(entries, entries[1:]))[::4]:
            width = len(columns)
            key, row = after.values[:width], rows[tuple(entry.values[:width])]
            # The entry stays before the next one, which it agrees with.
            if not row.chain and entry.values[width:] < after.values[width:]:
                pieces = base.with_values(table, row, dict(zip(columns, key)))
                pieces |= base.with_values(name, entry, dict(enumerate(key)))
                yield Switch(25, f"{name}, {key} twice", pieces, said(25, name))


BREAKS = (
    *(header_switches, page_switches, chain_switches, use_switches, free_switches, order_switches, depth_switches, record_switches),
    *(text_switches, schema_switches, spelling_switches, value_switches, entry_switches, unique_switches),
)


def broken_alone(path: Path, switch: Switch) -> str:
    """What is wrong with the image that was written with this condition broken: nothing where it is, and no other is."""
    if switch.number <= 10:
        found = 10 if switch.number == 10 else header_fault(path.read_bytes())
        return "" if found == switch.number else f"the header breaks condition {found}"
    reading = Reading(path.read_bytes())
    numbers = {number for number, _ in reading.found}
    if switch.number in WITNESSED:
        return "" if numbers == {switch.number} and reading.lines() & set(switch.lines) else f"the reading finds {sorted(reading.found)}"
    # The reading takes a text for what SQLite makes of it, and SQLite takes texts that are left out.
    if switch.number in (21, 22):
        return ""
    if numbers:
        return "" if reading.lines() == set(switch.lines) else f"the reading finds {sorted(reading.found)}"
    return "SQLite's check finds nothing" if is_sound(path) else ""


def is_sound(path: Path) -> bool:
    """Whether SQLite's own check finds nothing."""
    try:
        with Reader(path) as reader:
            return reader.is_sound()
    except UNREADABLE:
        return False


def switches_of(path: Path, base: Base) -> list[Switch]:
    """All switches. Where none of its lines is stated, it has those that the reading says."""
    switches = [switch for make in BREAKS for switch in make(base)]
    for place, switch in enumerate(switches):
        if not switch.lines:
            put(path, base.image, switch)
            switches[place] = replace(switch, lines=tuple(Reading(path.read_bytes()).lines()))
    return switches


def try_base(tally: Tally, path: Path, base: Base) -> None:
    """The image is sound, and the program answers the rows of each of its tables."""
    put(path, base.image)
    tally.add("the image", "" if is_sound(path) and not base.reading.found else f"it isn't sound: {base.reading.found}")
    with Reader(path) as reader:
        for table in reader.tables():
            answer = run(path, f"SELECT * FROM {table}")
            tally.add(f"the image, {table}", answer_problem(answer, reader.lines(table, reader.columns(table))))


def try_edges(tally: Tally, path: Path, base: Base) -> None:
    """Images that are next to having a condition broken: trees of 20 levels, and one as long as may be, most of which nothing uses."""
    for name, sql in (("deep", "SELECT a FROM deep"), ("deeper", "SELECT a FROM deep WHERE a > 0"), ("deepest", "SELECT a FROM deepest")):
        put(path, base.image, Switch(0, name, base.deepened(name, 19)))
        answer = run(path, sql)
        tally.add(f"{name}, 20 levels", "" if answer == Run(0, b"1\n2\n3\n", b"") else str(answer))
    put(path, base.image, Switch(0, "", {28: word(MOST_BYTES // SIZE)}, (), MOST_BYTES))
    tally.add(f"{MOST_BYTES} bytes", refusal_problem(run(path, "SELECT 1"), fault_line(13, base.count + 1)))


def try_alone(tally: Tally, path: Path, base: Base, switches: list[Switch]) -> None:
    """Each condition is broken, as it alone is, and the program tells it."""
    for switch in switches:
        put(path, base.image, switch)
        what = f"{switch.number}: {switch.what}"
        tally.add(f"{what}, alone", broken_alone(path, switch))
        tally.add(what, refusal_problem(run(path, "SELECT 1"), *switch.lines))


def try_pairs(tally: Tally, path: Path, base: Base, switches: list[Switch], most: int) -> None:
    """Of each two numbers so many pairs: the program tells one of them, the lesser where that is one of the header."""
    by_number = {number: [switch for switch in switches if switch.number == number] for number in range(1, 26)}
    for lesser, greater in combinations_with_replacement(by_number, 2):
        pairs = [(one, two) for one, two in product(by_number[lesser], by_number[greater]) if not one.meets(two, len(base.image))]
        for one, two in Random(f"{lesser} {greater}").sample(pairs, min(most, len(pairs))):
            put(path, base.image, one, two)
            lines = one.lines if lesser <= 10 else (*one.lines, *two.lines)
            tally.add(f"{lesser} and {greater}: {one.what}; {two.what}", refusal_problem(run(path, "SELECT 1"), *lines))


def read_words() -> argparse.Namespace:
    """The command line."""
    parser = argparse.ArgumentParser(description="Breaks each condition of an image, alone and in pairs.")
    few = FEW_PAIRS if os.environ.get("SMALL") else PAIRS
    parser.add_argument("--pairs", type=int, default=few, help=f"how many pairs of each two conditions ({few})")
    return parser.parse_args()


def main() -> int:
    """Builds the program, and breaks the image."""
    words = read_words()
    build()
    tally, base = Tally(), Base()
    with tempfile.TemporaryDirectory() as folder:
        path = Path(folder, "broken.db")
        switches = switches_of(path, base)
        try_base(tally, path, base)
        try_edges(tally, path, base)
        try_alone(tally, path, base, switches)
        try_pairs(tally, path, base, switches, words.pairs)
    return tally.finish()


if __name__ == "__main__":
    sys.exit(main())
