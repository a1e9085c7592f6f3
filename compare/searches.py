"""Has sqlite3 make tables with indexes at several page sizes, and compares the entries that our cursor lists of each index, where
its searches of indexes and of tables end, at a key and after it, and the one entry or row that is found by a key, with the
order that sqlite3 gives. Each search of an index asks for no more pages than the tree has levels, and so does each that finds one
cell; a search of a table for a row that is there neither, and else for one less than twice as many. Run from the top of the
repository; the last line is 'N passed, M failed'."""

from __future__ import annotations

import os
import sqlite3
import subprocess
import sys
import tempfile
from bisect import bisect_left
from dataclasses import dataclass
from pathlib import Path
from random import Random

from oracle import Reader
from program import TOP, Tally, give_up
from writer import Writer, record

PROGRAM = TOP / "crates" / "images" / "out" / "images"
SIZES = (512, 4096) if os.environ.get("SMALL") else (512, 1024, 4096, 65536)
ROWS = 3000
KEYS = 100 if os.environ.get("SMALL") else 1000
# How many levels the indexes of long texts have where a page has 512 bytes.
MOST_LEVELS = 5

Value = int | str | bytes | None
# The first columns of entries, and how they are sought: by a search that ends at the entries that have these or after them, or as
# the first of these alone.
Sought = tuple[list[Value], str]
WAYS = ("at", "after", "find")
# How the rowid of the row that is answered stands to the one that is sought.
RELATIONS = {"at": ">=", "after": ">", "find": "="}


@dataclass(frozen=True)
class Index:
    """An index: its table, its columns, and the sign of each: whether it ascends."""

    name: str
    table: str
    columns: tuple[str, ...]
    signs: str

    def ordering(self) -> str:
        """Its columns, as they are written in an ORDER BY."""
        return ", ".join(f"{column}{' DESC' if sign == '-' else ''}" for column, sign in zip(self.columns, self.signs))


INDEXES = [
    *(Index("i0", "t", ("a",), "+"), Index("i1", "t", ("a",), "-"), Index("i2", "t", ("b", "a"), "+-"), Index("i3", "t", ("b", "c"), "-+")),
    *(Index("i4", "t", ("c", "b", "a"), "++-"), Index("far", "long", ("text",), "+"), Index("further", "long", ("n", "text"), "-+")),
]


def random_value(random: Random, column: str) -> Value:
    """A value of a column: whole numbers of each length, texts and blobs of up to 700 bytes, which pages of 512 bytes hold in
    chains, few of which are long; long texts all of which such a page holds, and small numbers; and NULL."""
    if random.random() < 0.1:
        return None
    if column == "n":
        return random.getrandbits(5)
    if column == "text":
        return "".join(random.choice("ab é") for _ in range(random.randint(60, 80)))
    if column == "a":
        return random.choice([1, -1]) * (random.getrandbits(random.choice([2, 7, 15, 31, 62])))
    length = random.choice([0, 1, 3, 8, 30, 90] if random.random() < 0.95 else [200, 700])
    text = "".join(random.choice("ab é") for _ in range(length))
    return text if column == "b" else text.replace(" ", "\t").encode()


def random_rowid(random: Random) -> int:
    """A rowid of each length, the least and the greatest too."""
    if random.random() < 0.02:
        return random.choice([-(2**63), 2**63 - 1])
    return random.choice([1, -1]) * random.getrandbits(random.choice([4, 10, 12, 20, 40, 63]))


def rank(value: Value) -> tuple:
    """A value by its place in the order of values: NULL, numbers, texts, blobs."""
    if value is None:
        return (0,)
    if isinstance(value, int):
        return (1, value)
    return (2, value.encode()) if isinstance(value, str) else (3, value)


def comes_before(entry: list[Value], key: list[Value], signs: str, is_behind: bool) -> bool:
    """Whether an entry comes before what is sought, by the columns of the key alone."""
    for mine, other, sign in zip(entry, key, signs + "+"):
        if rank(mine) != rank(other):
            return (rank(mine) < rank(other)) == (sign == "+")
    return is_behind


def is_answer(entry: list[Value], key: list[Value], way: str) -> bool:
    """Whether the first entry that doesn't come before what is sought is the answer: one that is found has the key's values."""
    return way != "find" or list(map(rank, entry[: len(key)])) == list(map(rank, key))


def literal(value: Value) -> str:
    """A value as the program prints it."""
    if value is None:
        return "NULL"
    if isinstance(value, bytes):
        return f"X'{value.hex().upper()}'"
    return str(value) if isinstance(value, int) else "'" + value.replace("'", "''") + "'"


def key_line(key: list[Value], way: str) -> str:
    """A key as the program reads it."""
    written = []
    for value in key:
        if value is None:
            written.append("n")
        elif isinstance(value, int):
            written.append(f"i{value}")
        else:
            written.append(f"t{value}" if isinstance(value, str) else f"b{value.decode()}")
    return "\t".join([way, *written]) + "\n"


def make(path: Path, size: int, random: Random) -> sqlite3.Connection:
    """A file of a table with these indexes."""
    path.unlink(missing_ok=True)
    database = sqlite3.connect(path, isolation_level=None)
    database.execute(f"PRAGMA page_size = {size}")
    database.execute("CREATE TABLE t(a INT, b TEXT, c BLOB) STRICT")
    rows = [tuple(random_value(random, column) for column in "abc") for _ in range(ROWS)]
    database.execute("BEGIN")
    database.executemany("INSERT INTO t VALUES (?, ?, ?)", rows)
    database.execute("CREATE TABLE k(id INTEGER PRIMARY KEY, name TEXT NOT NULL) STRICT")
    ids = {random_rowid(random) for _ in range(ROWS)}
    database.executemany("INSERT INTO k VALUES (?, ?)", [(rowid, f"n{rowid % 1000}") for rowid in ids])
    database.execute("CREATE TABLE long(n INT, text TEXT) STRICT")
    texts = [(random_value(random, "n"), random_value(random, "text")) for _ in range(ROWS)]
    database.executemany("INSERT INTO long VALUES (?, ?)", texts)
    database.execute("COMMIT")
    for index in INDEXES:
        database.execute(f"CREATE INDEX {index.name} ON {index.table}({index.ordering()})")
    return database


def sought_keys(random: Random, entries: list[list[Value]], columns: tuple[str, ...]) -> list[Sought]:
    """Keys of some of the first columns or of a whole entry, half of them those of entries, each sought in each way. A blob with a
    tab can't be written in a line."""
    found: list[Sought] = []
    while len(found) < len(WAYS) * KEYS:
        whole = random.choice(entries) if random.random() < 0.5 else [random_value(random, column) for column in columns]
        key = whole[: random.randint(0, len(whole))]
        if not any(isinstance(value, bytes) and b"\t" in value for value in key):
            found += [(key, way) for way in WAYS]
    return found


def listed(path: Path, root: int, signs: str, keys: list[Sought]) -> tuple[list[str], bytes]:
    """What our program lists of the index with this root and these signs, or of a table where there are none, and of searches for
    these keys; and what it says of a fault."""
    tree = f"index\t{path}\t{root}\t{signs}\n" if signs else f"table\t{path}\t{root}\n"
    given = tree + "".join(key_line(*key) for key in keys)
    run = subprocess.run([PROGRAM], input=given.encode(), capture_output=True, check=False)
    return run.stdout.decode().split("\n")[:-1], run.stderr[:200]


def compare_entries(
    tally: Tally, what: str, path: Path, root: int, signs: str, entries: list[list[Value]], keys: list[Sought], levels: int
) -> None:
    """Compares what is listed of an index with its entries, which are in their order, and where searches end."""
    lines, said = listed(path, root, signs, keys)
    wanted = [",".join(map(literal, entry)) for entry in entries]
    if lines[: len(wanted)] != wanted or len(lines) != len(wanted) + len(keys):
        tally.add(what, f"{len(lines)} lines, {said!r}")
        return
    tally.add(what, "")
    for (key, way), line in zip(keys, lines[len(wanted) :]):
        place = bisect_left(entries, True, key=lambda entry: not comes_before(entry, key, signs, way == "after"))
        found, _, asked = line.rpartition(",")
        stands = wanted[place] if place < len(wanted) and is_answer(entries[place], key, way) else ""
        problem = "" if found == stands and int(asked) <= levels else f"{line}; wanted {stands}, {levels} levels"
        tally.add(f"{what} {way} {key}", problem)


def compare(tally: Tally, path: Path, database: sqlite3.Connection, index: Index, random: Random) -> None:
    """Compares one index."""
    root = root_of(database, index.name)
    shown = ", ".join([*index.columns, "rowid"])
    rows = database.execute(f"SELECT {shown} FROM {index.table} ORDER BY {index.ordering()}, rowid")
    entries = [list(row) for row in rows]
    levels = levels_of(database, index.name)
    what = f"{path.name}: {index.ordering()}"
    if index.table == "long" and path.name == "512.db":
        tally.add(f"{what}, levels", "" if levels == MOST_LEVELS else f"{levels}, not {MOST_LEVELS}")
    compare_entries(tally, what, path, root, index.signs, entries, sought_keys(random, entries, index.columns), levels)


def compare_worked(tally: Tally, path: Path) -> None:
    """Compares an index of three entries, whose root has the middle one."""
    writer = Writer()
    writer.table("t", "CREATE TABLE t(a INT) STRICT", [(1, record([5])), (2, record([9])), (3, record([7]))])
    entries: list[list[Value]] = [[5, 1], [7, 3], [9, 2]]
    tree = writer.index("i", "t", "CREATE INDEX i ON t(a)", [record(entry) for entry in entries], leaf=1, fan=2)
    path.write_bytes(writer.image())
    with Reader(path) as reader:
        tally.add("three entries, SQLite's check", "" if reader.is_sound() and len(tree.leaves) == 2 else "it finds something")
    keys: list[list[Value]] = [[], [None], *([number] for number in range(4, 11))]
    keys += [[number, rowid] for number in (5, 7, 9) for rowid in range(5)]
    sought = [(key, way) for key in keys for way in WAYS]
    compare_entries(tally, "three entries", path, tree.root, "+", entries, sought, 2)
    lines, _ = listed(path, tree.root, "+", [([7], "at")])
    tally.add("three entries, at 7", "" if lines[3:] in (["7,3,1"], ["7,3,2"]) else str(lines[3:]))


def root_of(database: sqlite3.Connection, name: str) -> int:
    """The root of a table or an index."""
    return database.execute("SELECT rootpage FROM sqlite_schema WHERE name = ?", (name,)).fetchone()[0]


def levels_of(database: sqlite3.Connection, name: str) -> int:
    """How many levels the tree of a table or an index has: a page's path has a slash for each."""
    depth = database.execute("SELECT max(length(path) - length(replace(path, '/', ''))) FROM dbstat WHERE name = ?", (name,))
    return depth.fetchone()[0]


def compare_rows(tally: Tally, path: Path, database: sqlite3.Connection, random: Random) -> None:
    """Compares where searches for rows end, at a rowid and after it, and the rows that are found, half of them rows that there are."""
    rows = dict(database.execute("SELECT id, name FROM k"))
    there = sorted(rows)
    found = [random.choice(there) if random.random() < 0.5 else random_rowid(random) for _ in range(KEYS)]
    keys = [(rowid, way) for rowid in found for way in WAYS]
    lines, said = listed(path, root_of(database, "k"), "", [([rowid], way) for rowid, way in keys])
    if len(lines) != len(keys):
        tally.add(f"{path.name}: rows", f"{len(lines)} lines, {said!r}")
        return
    levels = levels_of(database, "k")
    for (rowid, way), line in zip(keys, lines):
        relation = RELATIONS[way]
        query = f"SELECT id || ',NULL,' || quote(name) || ',' FROM k WHERE id {relation} ? ORDER BY id LIMIT 1"
        row = database.execute(query, (rowid,)).fetchone()
        wanted = row[0] if row else ""
        most = levels if way == "find" or (rowid in rows and way == "at") else 2 * levels - 1
        asked = line.removeprefix(wanted)
        problem = "" if wanted + asked == line and asked.isdigit() and int(asked) <= most else f"{line}; {levels} levels"
        tally.add(f"{path.name}: rowid {way} {rowid}", problem)


def main() -> int:
    """Compares an index of few entries, and the indexes and the searches of a table at each page size."""
    if not PROGRAM.exists():
        give_up("the program isn't built")
    tally, random = Tally(), Random(7)
    with tempfile.TemporaryDirectory() as folder:
        compare_worked(tally, Path(folder, "worked.db"))
        for size in SIZES:
            path = Path(folder, f"{size}.db")
            database = make(path, size, random)
            for index in INDEXES:
                compare(tally, path, database, index, random)
            compare_rows(tally, path, database, random)
            database.close()
    return tally.finish()


if __name__ == "__main__":
    sys.exit(main())
