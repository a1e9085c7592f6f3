"""Reads an image by code of its own, and tells each of the conditions 11 to 20 of docs/FAULTS.md that it finds broken, and 23 of the
schema's rows, so that what the program tells of an image has a witness. What columns the texts of a schema declare it asks of SQLite,
on an empty database.
(Database File Format, sections 1.5 to 1.7 and 2; The Schema Table)"""

from __future__ import annotations

import re
import sqlite3
from collections import Counter
from collections.abc import Iterator
from dataclasses import dataclass, field
from itertools import accumulate

from pages import INDEX_INTERIOR, INDEX_LEAF, INTERIOR, LEAF, number_at, page_count, size_of_page
from program import fault_line
from searches import comes_before
from writer import WIDTHS, Value

Row = list[Value]

# The conditions that are looked for.
WITNESSED = range(11, 21)
MOST_LEVELS = 20
# The pieces of a text of the schema: blanks and comments, quoted names and texts, words, and single characters.
BLANK, QUOTED = r"[ \t\n\f\r]+|--[^\n]*|/\*.*?\*/", r"""\"(?:[^"]|"")*"|`(?:[^`]|``)*`|'(?:[^']|'')*'|\[[^]]*\]"""
WORD = r"[A-Za-z_\x80-\U0010ffff][0-9A-Za-z_$\x80-\U0010ffff]*"
PIECE = re.compile(f"(?s){BLANK}|{QUOTED}|{WORD}|.")
NAME = re.compile(r"""(?s)["`[A-Za-z_\x80-\U0010ffff].*""")


@dataclass
class Cell:
    """A cell of a page: where it begins in the image, its child, its rowid, how long its payload is and where that begins, how many
    bytes of it stand in the cell, its overflow pages, whether it is a record of its tree, and the values of that."""

    page: int
    start: int
    child: int = 0
    rowid: int = 0
    size: int = 0
    place: int = 0
    local: int = 0
    chain: list[int] = field(default_factory=list)
    is_record: bool = False
    values: Row = field(default_factory=list)

    @property
    def link(self) -> int:
        """Where the part of the payload ends that stands in the cell, and the first overflow page is named where there is one."""
        return self.place + self.local

    @property
    def end(self) -> int:
        """Where the cell ends."""
        return self.link + (4 if self.local < self.size else 0)


@dataclass
class Tree:
    """A tree of the image: the root, whether its keys are rowids, how few and how many values its records have, which columns of the
    key ascend and which descend, and the cells with a payload that were met."""

    name: str
    root: int
    is_table: bool
    least: int
    most: int
    signs: str = "+"
    cells: list[Cell] = field(default_factory=list)

    def key(self, cell: Cell) -> Row | None:
        """The key of a cell, where it is known."""
        if self.is_table:
            return [cell.rowid]
        return cell.values[: len(self.signs)] if cell.is_record else None


def read_varint(data: bytes, place: int, end: int) -> tuple[int, int] | None:
    """A number of 64 bits, and where it ends; None where the bytes end before it does."""
    number = 0
    for passed, byte in enumerate(data[place : min(place + 9, end)]):
        if passed == 8:
            number = number << 8 | byte
            return (number - (1 << 64) if number >> 63 else number), place + 9
        number = number << 7 | byte & 127
        if byte < 128:
            return number, place + passed + 1
    return None


def read_types(payload: bytes) -> tuple[list[int], int] | None:
    """The types of a record, and where its header ends; None where the header is none."""
    head = read_varint(payload, 0, len(payload))
    if head is None or not head[1] <= head[0] <= len(payload):
        return None
    end, place = head
    types = []
    while place < end:
        read = read_varint(payload, place, end)
        if read is None:
            return None
        types.append(read[0])
        place = read[1]
    return types, end


def read_record(payload: bytes) -> tuple[Row, set[int]]:
    """The values of a record, and the conditions of a record that these bytes break."""
    header = read_types(payload)
    if header is None:
        return [], {17}
    types, place = header
    values: Row = []
    broken = set()
    for kind in types:
        width = 8 if kind == 7 else WIDTHS.get(kind, max(0, (kind - 12) // 2))
        body = payload[place : place + width]
        if kind == 7:
            broken.add(18)
        elif kind < 0 or kind in (10, 11) or len(body) < width:
            return values, {*broken, 17}
        try:
            values.append(value_of(kind, body))
        except UnicodeDecodeError:
            broken.add(19)
        place += width
    return values, broken if place == len(payload) else {*broken, 17}


def value_of(kind: int, body: bytes) -> Value:
    """The value of a type with this body."""
    if kind in (8, 9):
        return kind - 8
    if kind in WIDTHS:
        return int.from_bytes(body, "big", signed=True)
    if kind < 12:
        return None
    return body if kind % 2 == 0 else body.decode()


def pieces(text: str) -> list[str]:
    """The words and signs of a text of the schema."""
    found = PIECE.findall(text)
    return [piece for piece in found if piece.strip(" \t\n\f\r") and not piece.startswith(("--", "/*"))]


def plain(name: str) -> str:
    """A name without its quotes."""
    quote = name[:1]
    if quote == "[":
        return name[1:-1]
    return name[1:-1].replace(quote * 2, quote) if quote in ('"', "`") else name


def folded(name: str) -> bytes:
    """A name by which others are found that are the same but for the case of ASCII letters."""
    return name.encode(errors="surrogatepass").lower()


def names_of(kind: str, text: str) -> tuple[str, str] | None:
    """The names that a CREATE text gives to its table or index, and to its table; None where it begins otherwise."""
    words = [*pieces(text), *"      "]
    words = [words[0], *words[2:]] if words[1].upper() == "UNIQUE" and kind == "index" else words
    name, owner = words[2], words[4 if kind == "index" else 2]
    front = [words[place].upper() for place in ((0, 1, 3, 5) if kind == "index" else (0, 1, 3))]
    is_said = front == (["CREATE", "INDEX", "ON", "("] if kind == "index" else ["CREATE", "TABLE", "("])
    return (plain(name), plain(owner)) if is_said and NAME.fullmatch(name) and NAME.fullmatch(owner) else None


def computed_columns(text: str) -> Iterator[bool]:
    """Of each column of a CREATE TABLE, and each constraint behind them, whether its last DEFAULT stands in parentheses."""
    depth, is_default, is_computed = 0, False, False
    for word in pieces(text):
        if depth == 1 and is_default:
            is_computed = word == "("
        is_default = depth == 1 and word.upper() == "DEFAULT"
        depth += (word == "(") - (word == ")")
        if depth == 1 and word == ",":
            yield is_computed
            is_computed = False
    yield is_computed


class Reading:
    """What an image holds whose header is sound, and what of it is broken: pairs of a fault's number and of the page or name that it
    carries, or 0. It is known where each text of the schema can be read, and whole where each of its pages could be."""

    def __init__(self, image: bytes | bytearray) -> None:
        self.image = bytes(image)
        self.size, self.count = size_of_page(image), page_count(image)
        self.usable = self.size - self.image[20]
        self.found: set[tuple[int, int | str]] = set()
        self.uses: Counter[int] = Counter()
        self.walked: set[int] = set()
        self.is_known = self.is_whole = True
        self.trees = [Tree("sqlite_schema", 1, True, 5, 5)]
        self.read_tree(self.trees[0])
        if self.found:
            return
        self.trees += self.trees_of([cell.values for cell in self.trees[0].cells])
        for tree in self.trees[1:]:
            self.read_tree(tree)
        self.read_freelist()
        if self.is_known and self.is_whole:
            self.found |= {(13, page) for page in range(1, self.count + 1) if not self.uses[page]}

    def lines(self) -> set[bytes]:
        """The lines of the faults whose conditions are broken."""
        return {fault_line(number, carried) for number, carried in self.found}

    def tree(self, name: str) -> Tree:
        """The tree of a table or an index."""
        return next(tree for tree in self.trees if tree.name == name)

    def tell(self, number: int, carried: int | str = 0) -> None:
        """A condition is broken. Behind what can't be read, pages may stay that seem unused."""
        self.found.add((number, carried))
        self.is_whole = self.is_whole and number not in (11, 12, 14, 16, 20, 23)

    def use(self, page: int) -> None:
        """A place names this page."""
        self.uses[page] += 1
        if self.uses[page] > 1:
            self.tell(13, page)

    def read_tree(self, tree: Tree) -> None:
        """Reads a tree, whose leaves have to stand at one depth."""
        if len(set(self.walk(tree, tree.root, 1, None, None))) > 1:
            self.tell(16, tree.root)

    def walk(self, tree: Tree, page: int, depth: int, low: Row | None, high: Row | None) -> Iterator[int]:
        """Reads a page and those below it, whose keys stand between two of the pages above it. Tells the depth of each leaf."""
        self.use(page)
        if page in self.walked:
            return
        self.walked.add(page)
        if depth > MOST_LEVELS:
            self.tell(16, tree.root)
            return
        read = self.read_page(tree, page)
        if read is None:
            self.tell(11, page)
            return
        is_leaf, cells, children = read
        if is_leaf or not tree.is_table:
            for cell in cells:
                self.read_payload(tree, cell)
        keys = [tree.key(cell) for cell in cells]
        self.test_order(tree, page, keys, low, high)
        if is_leaf:
            yield depth
        lows = list(accumulate([low, *keys], lambda held, key: held if key is None else key))
        highs = list(accumulate([high, *reversed(keys)], lambda held, key: held if key is None else key))[::-1]
        for child, above, below in zip(children, lows, highs):
            if 1 <= child <= self.count:
                yield from self.walk(tree, child, depth + 1, above, below)
            else:
                self.tell(11, page)

    def read_page(self, tree: Tree, page: int) -> tuple[bool, list[Cell], list[int]] | None:
        """Whether a page of a tree is a leaf, its cells and its children, whatever numbers these have; None where it is no such page."""
        start = (page - 1) * self.size
        head, end = start + (100 if page == 1 else 0), start + self.usable
        leaf, interior = (LEAF, INTERIOR) if tree.is_table else (INDEX_LEAF, INDEX_INTERIOR)
        is_leaf, count = self.image[head] == leaf, number_at(self.image, head + 3, 2)
        first = head + (8 if is_leaf else 12)
        behind = first + 2 * count
        if self.image[head] not in (leaf, interior) or behind > end or (is_leaf and count == 0 and page != tree.root):
            return None
        starts = [start + number_at(self.image, place, 2) for place in range(first, behind, 2)]
        cells = [self.read_cell(tree, Cell(page, at), is_leaf, end) for at in starts if at >= behind]
        found = [cell for cell in cells if cell is not None]
        right = [] if is_leaf else [number_at(self.image, head + 8, 4)]
        return (is_leaf, found, [*(cell.child for cell in found if right), *right]) if len(found) == count else None

    def read_cell(self, tree: Tree, cell: Cell, is_leaf: bool, end: int) -> Cell | None:
        """Reads what stands in a cell before its payload, and how much of that; None where it leaves the page."""
        place = cell.start
        if not is_leaf:
            cell.child, place = number_at(self.image, place, 4), place + 4
        for name in ("size",) * (is_leaf or not tree.is_table) + ("rowid",) * tree.is_table:
            read = read_varint(self.image, place, end)
            if read is None:
                return None
            setattr(cell, name, read[0])
            place = read[1]
        if not 0 <= cell.size <= len(self.image):
            return None
        cell.place, cell.local = place, self.local_part(tree, cell.size)
        return cell if cell.end <= end else None

    def local_part(self, tree: Tree, size: int) -> int:
        """How many bytes of a payload stand in its cell."""
        most = self.usable - 35 if tree.is_table else (self.usable - 12) * 64 // 255 - 23
        least = (self.usable - 12) * 32 // 255 - 23
        part = least + (size - least) % (self.usable - 4)
        return size if size <= most else part if part <= most else least

    def read_payload(self, tree: Tree, cell: Cell) -> None:
        """Reads the record of a cell, with its overflow pages."""
        tree.cells.append(cell)
        payload = self.image[cell.place : cell.link]
        after = number_at(self.image, cell.link, 4) if cell.local < cell.size else 0
        while len(payload) < cell.size and 1 <= after <= self.count:
            self.use(after)
            cell.chain.append(after)
            start, taken = (after - 1) * self.size, min(cell.size - len(payload), self.usable - 4)
            payload += self.image[start + 4 : start + 4 + taken]
            after = number_at(self.image, start, 4)
        if len(payload) < cell.size or after:
            self.tell(12, cell.page)
            return
        values, broken = read_record(payload)
        if not broken and not tree.least <= len(values) <= tree.most:
            broken = {17}
        for number in broken:
            self.tell(number, cell.page if number == 17 else 0)
        cell.is_record, cell.values = not broken, values

    def test_order(self, tree: Tree, page: int, keys: list[Row | None], low: Row | None, high: Row | None) -> None:
        """The keys of a page ascend, above the one bound and, those of rows, at most at the other, those of entries before it."""
        for key in keys:
            if key is None:
                continue
            above = low is None or comes_before(low, key, tree.signs, False)
            if not above or not (high is None or comes_before(key, high, tree.signs, tree.is_table)):
                self.tell(15, page)
            low = key

    def read_freelist(self) -> None:
        """Reads the freelist, up to its end or to a trunk page that can't be read or was met."""
        trunk, total, met = number_at(self.image, 32, 4), 0, set()
        while 1 <= trunk <= self.count:
            self.use(trunk)
            start = (trunk - 1) * self.size
            count = number_at(self.image, start + 4, 4)
            if trunk in met or 8 + 4 * count > self.usable:
                break
            met.add(trunk)
            total += 1 + count
            for place in range(start + 8, start + 8 + 4 * count, 4):
                leaf = number_at(self.image, place, 4)
                if 1 <= leaf <= self.count:
                    self.use(leaf)
                else:
                    self.tell(14)
            trunk = number_at(self.image, start, 4)
        if trunk or total != number_at(self.image, 36, 4):
            self.tell(14)

    def trees_of(self, rows: list[Row]) -> list[Tree]:
        """The trees that the rows of the schema say; none where one of them can't be read, or isn't as SQLite writes it."""
        kinds = (str, str, str, int, str)
        if not all(value is None or isinstance(value, kind) for row in rows for value, kind in zip(row, kinds)):
            self.tell(23, "sqlite_schema")
            return []
        if not all(self.is_written(row, rows) for row in rows):
            self.tell(20)
            return []
        database = sqlite3.connect(":memory:")
        try:
            return self.declared(database, rows)
        except (sqlite3.Error, sqlite3.Warning, UnicodeError, ValueError, TypeError):
            self.is_known = False
            return []
        finally:
            database.close()

    def is_written(self, row: Row, rows: list[Row]) -> bool:
        """Whether a row of the schema is as SQLite writes it, but for the indexes that keys want."""
        kind, name, owner, root, sql = row
        if kind not in ("table", "index", "view", "trigger") or not isinstance(name, str) or not isinstance(owner, str):
            return False
        if kind in ("view", "trigger"):
            return kind == "view" or sql is not None
        if not isinstance(root, int) or not 2 <= root <= self.count or (kind == "table" and sql is None):
            return False
        others = [(other[0], folded(other[1])) for other in rows if other is not row and isinstance(other[1], str)]
        if any(other in (("table", folded(name)), ("index", folded(name))) for other in others):
            return False
        if kind == "index" and ("table", folded(owner)) not in others:
            return False
        said = names_of(kind, sql) if isinstance(sql, str) else None
        return said is None or [folded(one) for one in said] == [folded(name), folded(owner)]

    def declared(self, database: sqlite3.Connection, rows: list[Row]) -> list[Tree]:
        """The trees of tables and indexes, as SQLite reads their texts. Each index that a key wants has a row without a text."""
        tables = [row for row in rows if row[0] == "table"]
        indexes = [row for row in rows if row[0] == "index"]
        self.is_known = self.is_known and all(row[0] != "view" for row in rows)
        for row in (*tables, *(row for row in indexes if row[4] is not None)):
            if names_of(row[0], row[4]) is None:
                raise ValueError("a text that begins as none of a table or an index")
            database.execute(row[4])
        wanted = {
            (folded(name), folded(row[1]))
            for row in tables
            if not is_rowless(database, row[1])
            for (name,) in database.execute("SELECT name FROM pragma_index_list(?) WHERE origin <> 'c'", (row[1],))
        }
        if wanted != {(folded(row[1]), folded(row[2])) for row in indexes if row[4] is None}:
            self.tell(20)
            return []
        return [*(table_tree(database, *row[1:]) for row in tables), *(index_tree(database, row[1], row[3]) for row in indexes)]


def is_rowless(database: sqlite3.Connection, name: str) -> bool:
    """Whether a table has no rowids."""
    return database.execute("SELECT wr FROM pragma_table_list(?)", (name,)).fetchone()[0] == 1


def index_tree(database: sqlite3.Connection, name: str, root: int) -> Tree:
    """The tree of an index, whose entries are keys as a whole."""
    descends = [row[0] for row in database.execute('SELECT "desc" FROM pragma_index_xinfo(?) ORDER BY seqno', (name,))]
    return Tree(name, root, False, len(descends), len(descends), "".join("-" if one else "+" for one in descends))


def table_tree(database: sqlite3.Connection, name: str, _: str, root: int, sql: str) -> Tree:
    """The tree of a table. A record may lack the values of its last columns whose DEFAULT is a literal, or that have none."""
    columns = [row[0] for row in database.execute("SELECT cid FROM pragma_table_info(?) ORDER BY cid", (name,))]
    key = 0
    if is_rowless(database, name):
        (index,) = database.execute("SELECT name FROM pragma_index_list(?) WHERE origin = 'pk'", (name,)).fetchone()
        order = list(database.execute("SELECT cid, key FROM pragma_index_xinfo(?) ORDER BY seqno", (index,)))
        columns, key = [cid for cid, _ in order], sum(is_key for _, is_key in order)
    computed = list(computed_columns(sql))
    least = max([key, *(place for place, cid in enumerate(columns, 1) if computed[cid])])
    return Tree(name, root, key == 0, least, len(columns), "+" * max(1, key))
