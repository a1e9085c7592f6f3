"""Writes images byte by byte, so that a page may have what SQLite never writes. (Database File Format, sections 1.3, 1.5,
1.6 and 2.1)"""

from __future__ import annotations

import struct
from collections.abc import Iterable
from dataclasses import dataclass, field

from pages import INDEX_INTERIOR, INDEX_LEAF, INTERIOR, LEAF, set_number

# The serial type of a value, and its bytes.
Field = tuple[int, bytes]
Value = int | str | bytes | None

WIDTHS = {1: 1, 2: 2, 3: 3, 4: 4, 5: 6, 6: 8}


def varint(number: int, least: int = 1) -> bytes:
    """A number of 64 bits as a varint of at least so many bytes."""
    number &= 2**64 - 1
    if least == 9 or number >= 1 << 56:
        return bytes(128 | number >> shift & 127 for shift in range(57, 7, -7)) + bytes([number & 255])
    width = max(least, -(-number.bit_length() // 7), 1)
    groups = [number >> 7 * place & 127 for place in reversed(range(width))]
    return bytes([*(128 | group for group in groups[:-1]), groups[-1]])


def stored(value: Value) -> Field:
    """A value in as few bytes as may be."""
    if value is None:
        return 0, b""
    if isinstance(value, str):
        return 13 + 2 * len(value.encode()), value.encode()
    if isinstance(value, bytes):
        return 12 + 2 * len(value), value
    if value in (0, 1):
        return 8 + value, b""
    return next(integer(value, kind) for kind, width in WIDTHS.items() if -1 << 8 * width - 1 <= value < 1 << 8 * width - 1)


def integer(number: int, kind: int) -> Field:
    """A number in as many bytes as its serial type says."""
    return kind, number.to_bytes(WIDTHS[kind], "big", signed=True)


def record(fields: Iterable[Field | Value]) -> bytes:
    """The record of some values."""
    pairs = [one if isinstance(one, tuple) else stored(one) for one in fields]
    types = b"".join(varint(kind) for kind, _ in pairs)
    length = len(types) + 1 if len(types) < 127 else len(types) + 2
    return varint(length) + types + b"".join(body for _, body in pairs)


@dataclass
class Tree:
    """Where the pages of a table or an index stand: the levels from the root down, and the overflow pages of each row or
    entry that has some."""

    levels: list[list[int]]
    chains: list[list[int]] = field(default_factory=list)

    @property
    def root(self) -> int:
        return self.levels[0][0]

    @property
    def leaves(self) -> list[int]:
        return self.levels[-1]


class Writer:
    """An image in the making. So many bytes are reserved at each page's end, and so many lie unused before each cell, as
    deleted rows leave them."""

    def __init__(self, size: int = 512, reserved: int = 0, gap: int = 0) -> None:
        self.size, self.reserved, self.gap = size, reserved, gap
        self.usable = size - reserved
        self.pages: list[bytes] = [b""]
        self.objects: list[bytes] = []
        self.schema = Tree([[1]])
        self.trunks: list[int] = []
        self.free_count = 0

    def add(self, page: bytes) -> int:
        """Adds a page, and tells its number."""
        self.pages.append(page)
        return len(self.pages)

    def page(self, head: bytes, cells: list[bytes], first: int = 0) -> bytes:
        """A page of a tree: its flag and, where it has one, its right child; its cells from the end on, each with the gap
        before it: a freeblock, or up to three fragmented bytes."""
        page, end, freeblock, fragments = bytearray(self.size), self.usable, 0, 0
        place = first + len(head) + 7
        assert place + sum(len(cell) + self.gap + 2 for cell in cells) <= end, "the cells don't fit"
        for cell in cells:
            end -= len(cell)
            page[end : end + len(cell)] = cell
            page[place : place + 2] = struct.pack(">H", end)
            place += 2
            end -= self.gap
            if self.gap >= 4:
                page[end : end + 4] = struct.pack(">HH", freeblock, self.gap)
                freeblock = end
            fragments += self.gap if self.gap < 4 else 0
        page[first : first + 8] = head[:1] + struct.pack(">HHHB", freeblock, len(cells), end % 65536, fragments)
        page[first + 8 : first + 7 + len(head)] = head[1:]
        return bytes(page)

    def cell(self, rowid: int, payload: bytes, chains: list[list[int]], least: int = 1) -> bytes:
        """The cell of a row. What the page doesn't keep of the payload goes on in overflow pages."""
        return varint(len(payload), least) + varint(rowid, least) + self.kept(payload, self.usable - 35, chains)

    def entry(self, payload: bytes, chains: list[list[int]]) -> bytes:
        """The cell of an entry of an index."""
        return varint(len(payload)) + self.kept(payload, (self.usable - 12) * 64 // 255 - 23, chains)

    def kept(self, payload: bytes, most: int, chains: list[list[int]]) -> bytes:
        """What a page keeps of a payload, at most so many bytes, and the first of the overflow pages, which are added."""
        fewest, room = (self.usable - 12) * 32 // 255 - 23, self.usable - 4
        if len(payload) <= most:
            return payload
        local = fewest + (len(payload) - fewest) % room
        local = local if local <= most else fewest
        rest = [payload[place : place + room] for place in range(local, len(payload), room)]
        numbers = list(range(len(self.pages) + 1, len(self.pages) + 1 + len(rest)))
        for piece, after in zip(rest, [*numbers[1:], 0]):
            self.add(struct.pack(">I", after) + piece + bytes(room - len(piece) + self.reserved))
        chains.append(numbers)
        return payload[:local] + struct.pack(">I", numbers[0])

    def table(
        self, name: str, sql: str, rows: list[tuple[int, bytes]], *, leaf: int = 1000, fan: int = 1000, least: int = 1
    ) -> Tree:
        """Adds a table of these rows (rowid and record), so many on a leaf, so many children under a page, and varints of
        at least so many bytes."""
        chains: list[list[int]] = []
        groups = [rows[place : place + leaf] for place in range(0, len(rows), leaf)] or [[]]
        level = []
        for group in groups:
            cells = [self.cell(rowid, payload, chains, least) for rowid, payload in group]
            level.append((self.add(self.page(bytes([LEAF]), cells)), group[-1][0] if group else 0))
        levels = [[number for number, _ in level]]
        while len(level) > 1:
            level = [self.parent(level[place : place + fan], least) for place in range(0, len(level), fan)]
            levels.insert(0, [number for number, _ in level])
        self.object("table", name, name, levels[0][0], sql)
        return Tree(levels, chains)

    def parent(self, children: list[tuple[int, int]], least: int) -> tuple[int, int]:
        """Adds the page above some pages, each told with its greatest rowid."""
        cells = [struct.pack(">I", number) + varint(key, least) for number, key in children[:-1]]
        right, last = children[-1]
        return self.add(self.page(bytes([INTERIOR]) + struct.pack(">I", right), cells)), last

    def index(self, name: str, table: str, sql: str, entries: list[bytes], *, leaf: int = 1000, fan: int = 1000) -> Tree:
        """Adds an index of these entries, which are records in their order, so many on a leaf, and so many children under a
        page. Between two pages one entry stands on the page above them."""
        tree = self.entry_tree(entries, leaf, fan)
        self.object("index", name, table, tree.root, sql)
        return tree

    def rowless(self, name: str, sql: str, rows: list[bytes], *, leaf: int = 1000, fan: int = 1000) -> Tree:
        """Adds a table without rowids of these rows, which are records in the order of the key, as an index of them."""
        tree = self.entry_tree(rows, leaf, fan)
        self.object("table", name, name, tree.root, sql)
        return tree

    def entry_tree(self, entries: list[bytes], leaf: int, fan: int) -> Tree:
        """Adds the tree of these entries."""
        chains: list[list[int]] = []
        cells = [self.entry(payload, chains) for payload in entries]
        between = cells[leaf :: leaf + 1]
        groups = [cells[place : place + leaf] for place in range(0, len(cells), leaf + 1)] or [[]]
        assert len(between) == len(groups) - 1, "the last leaf has no entry"
        level = [self.add(self.page(bytes([INDEX_LEAF]), group)) for group in groups]
        levels = [level]
        while len(level) > 1:
            starts = range(0, len(level), fan)
            groups = [self.entries_above(level[start : start + fan], between[start : start + fan - 1]) for start in starts]
            level, between = groups, between[fan - 1 :: fan]
            levels.insert(0, level)
        return Tree(levels, chains)

    def entries_above(self, children: list[int], between: list[bytes]) -> int:
        """Adds the page above some pages of an index, with the entries between them."""
        cells = [struct.pack(">I", number) + cell for number, cell in zip(children, between)]
        return self.add(self.page(bytes([INDEX_INTERIOR]) + struct.pack(">I", children[-1]), cells))

    def freelist(self, *counts: int) -> list[int]:
        """Adds a freelist of trunk pages that name so many pages each, which stand behind them, and tells the trunk pages."""
        for place, count in enumerate(counts):
            number = len(self.pages) + 1
            after = number + count + 1 if place + 1 < len(counts) else 0
            leaves = struct.pack(f">{count}I", *range(number + 1, number + count + 1))
            self.trunks.append(self.add((struct.pack(">II", after, count) + leaves).ljust(self.size, b"\0")))
            for _ in range(count):
                self.add(bytes(self.size))
        self.free_count = sum(counts) + len(counts)
        return self.trunks

    def object(self, *values: Field | Value) -> None:
        """Adds a row of the schema."""
        self.objects.append(record(values))

    def first_page(self, leaf: int) -> bytes:
        """Page 1: a leaf of the schema's rows, or the root above leaves of so many rows each."""
        rows = enumerate(self.objects, 1)
        cells = [self.cell(rowid, payload, self.schema.chains) for rowid, payload in rows]
        if len(cells) <= leaf:
            return self.page(bytes([LEAF]), cells, 100)
        groups = [cells[place : place + leaf] for place in range(0, len(cells), leaf)]
        leaves = [self.add(self.page(bytes([LEAF]), group)) for group in groups]
        self.schema.levels.append(leaves)
        keys = [struct.pack(">I", number) + varint(place * leaf, 1) for place, number in enumerate(leaves[:-1], 1)]
        return self.page(bytes([INTERIOR]) + struct.pack(">I", leaves[-1]), keys, 100)

    def image(self, leaf: int = 1000) -> bytearray:
        """The image, whose header says what its pages are, with so many rows of the schema on a leaf."""
        first = self.first_page(leaf)
        whole = bytearray(first + b"".join(self.pages[1:]))
        whole[:16] = b"SQLite format 3\0"
        whole[16:24] = struct.pack(">H6B", 1 if self.size == 65536 else self.size, 1, 1, self.reserved, 64, 32, 32)
        for place, number in ((32, self.trunks[0] if self.trunks else 0), (36, self.free_count)):
            set_number(whole, place, 4, number)
        for place, number in ((24, 1), (28, len(self.pages)), (40, 1), (44, 4), (56, 1), (92, 1), (96, 3040001)):
            set_number(whole, place, 4, number)
        return whole
