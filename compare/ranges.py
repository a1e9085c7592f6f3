"""Has sqlite3 make tables with indexes of each kind at several page sizes, and compares the rows that our searches of them give by
ranges of values with those that sqlite3 gives, in the order of the tree that is searched. A search of a tree of d levels asks for
no page where a bound is NULL, else for at most d pages to be opened, or 2d - 1 of a table by its rowids, where the row with a
rowid that is sought itself isn't there; then for each row for at most one less than d, and as many as the table's tree has
levels where the row is looked up there. Run from the top of the repository; the last line is 'N passed, M failed'."""

from __future__ import annotations

import re
import sqlite3
import subprocess
import sys
import tempfile
from dataclasses import dataclass
from pathlib import Path
from random import Random

from program import TOP, Tally, give_up
from searches import KEYS, SIZES, Value, levels_of, random_rowid, random_value

PROGRAM = TOP / "crates" / "images" / "out" / "images"
ROWS = 1000
TEXT = """
    CREATE TABLE t(id INTEGER PRIMARY KEY, a INT, b TEXT, c BLOB, u INT UNIQUE) STRICT;
    CREATE INDEX t_a ON t(a); CREATE INDEX t_a_down ON t(a DESC); CREATE INDEX t_b_a ON t(b, a DESC);
    CREATE INDEX t_c_b ON t(c DESC, b); CREATE INDEX t_a_b_c ON t(a, b DESC, c);
    CREATE UNIQUE INDEX t_u_a ON t(u DESC, a);
    CREATE INDEX t_some ON t(b, a) WHERE a > 0 AND c IS NOT NULL; CREATE INDEX t_none ON t(a) WHERE b = 'never there';
    CREATE TABLE r(a INT, n INT) STRICT;
    CREATE INDEX r_n ON r(n); CREATE INDEX r_n_a ON r(n DESC, a);
    CREATE TABLE k(n INT NOT NULL, b TEXT NOT NULL, a INT, c BLOB, PRIMARY KEY (b, n)) STRICT, WITHOUT ROWID;
    CREATE INDEX k_a ON k(a DESC); CREATE INDEX k_n_a ON k(n, a); CREATE INDEX k_c_n ON k(c, n DESC);
    CREATE UNIQUE INDEX k_n_b ON k(n, b); CREATE UNIQUE INDEX k_a_b_n ON k(a, b DESC, n); CREATE INDEX k_some ON k(a) WHERE n <= 12"""
# The signs of the bounds of a column that isn't to be equal to a value.
SIDES = ((">",), (">=",), ("<",), ("<=",), (">", "<"), (">=", "<="), (">", "<="), ("<", ">="))
COUNTS = re.compile(r"(\d+) (\d+) pages")


@dataclass(frozen=True)
class Tree:
    """What is searched: its name, its table, the columns of its entries, which of them descend, and on what condition a row is in it."""

    name: str
    table: str
    columns: tuple[str, ...]
    descends: tuple[bool, ...] = ()
    condition: str = "1"

    def is_by_rowid(self) -> bool:
        """Whether it is a table that is searched by its rowids."""
        return self.columns == ("rowid",)

    def ordering(self) -> str:
        """The order of its entries, as an ORDER BY says it."""
        descends = (*self.descends, *(False for _ in self.columns))
        return ", ".join(f"{column}{' DESC' if down else ''}" for column, down in zip(self.columns, descends))


# The tables, each with the columns that are shown of its rows and those by which its own tree is in order.
SHOWN = {"t": ("id", "a", "b", "c", "u"), "r": ("a", "n"), "k": ("n", "b", "a", "c")}
OWN = {"t": ("rowid",), "r": ("rowid",), "k": ("b", "n")}


@dataclass(frozen=True)
class Search:
    """A search of a tree: a sign and a value for each bound, those of the first columns before those of the next."""

    tree: Tree
    bounds: tuple[tuple[str, Value], ...]

    def line(self) -> str:
        """The search as the program reads it."""
        return "\t".join(["range", self.tree.name, *(word for sign, value in self.bounds for word in (sign, written(value)))]) + "\n"

    def query(self) -> str:
        """The same as a query. A column is written with a sign, so that no value is converted to its type."""
        equal = [sign for sign, _ in self.bounds].count("=")
        tests = [f"+{self.tree.columns[min(at, equal)]} {sign} ?" for at, (sign, _) in enumerate(self.bounds)]
        shown = " || ',' || ".join(f"quote({column})" for column in SHOWN[self.tree.table])
        return f"SELECT {shown} FROM {self.tree.table} WHERE {' AND '.join([self.tree.condition, *tests])} ORDER BY {self.tree.ordering()}"

    def values(self) -> list[Value]:
        """The values of its bounds."""
        return [value for _, value in self.bounds]


def written(value: Value) -> str:
    """A value of a bound as the program reads it."""
    if value is None:
        return "n"
    if isinstance(value, bytes):
        return f"b{value.decode()}"
    return f"i{value}" if isinstance(value, int) else f"t{value}"


def make(path: Path, size: int, random: Random) -> sqlite3.Connection:
    """A file of these tables and indexes, to which rows were added before and after the indexes."""
    path.unlink(missing_ok=True)
    database = sqlite3.connect(path, isolation_level=None)
    database.execute(f"PRAGMA page_size = {size}")
    database.executescript(TEXT)
    database.execute("BEGIN")
    ids, few = list({random_rowid(random) for _ in range(ROWS)}), [random_value(random, "b") for _ in range(ROWS // 4)]
    unique = random.sample(range(-ROWS, ROWS), len(ids))
    for at, rowid in enumerate(ids):
        row = (rowid, random_value(random, "a"), random.choice(few), random_value(random, "c"), unique[at] if at % 7 else None)
        database.execute("INSERT INTO t VALUES (?, ?, ?, ?, ?)", row)
        database.execute("INSERT INTO r VALUES (?, ?)", (random_value(random, "a"), random_value(random, "n")))
        row = (random.getrandbits(5), random.choice(few) or "", random_value(random, "a"), random_value(random, "c"))
        database.execute("INSERT OR IGNORE INTO k VALUES (?, ?, ?, ?)", row)
    database.execute("COMMIT")
    return database


def trees_of(database: sqlite3.Connection) -> list[Tree]:
    """The tables, and their indexes; an entry of one has its columns, and after them those that it needs to find its row."""
    trees = [Tree(table, table, OWN[table]) for table in SHOWN]
    indexes = "SELECT name, tbl_name, sql FROM sqlite_schema WHERE type = 'index' AND rootpage ORDER BY rowid"
    for name, table, sql in database.execute(indexes).fetchall():
        select = "SELECT coalesce(name, 'rowid'), desc FROM pragma_index_xinfo(?) ORDER BY seqno"
        columns = database.execute(select, (name,)).fetchall()
        condition = sql.partition(" WHERE ")[2] if sql else ""
        trees.append(Tree(name, table, tuple(one for one, _ in columns), tuple(bool(down) for _, down in columns), condition or "1"))
    return trees


def random_bound(random: Random, column: str, there: Value) -> Value:
    """A value that a column is compared with: mostly that of a row, or one like it, sometimes one of another type."""
    chance = random.random()
    if chance < 0.6:
        return there
    if chance < 0.63:
        return None
    if chance < 0.68:
        column = random.choice("abcn")
    if column in ("id", "rowid", "u"):
        return random_rowid(random)
    return random_value(random, column)


def random_search(random: Random, tree: Tree, rows: list[tuple[Value, ...]]) -> Search:
    """A search by equal values of some of the first columns, and by bounds of the next, if there is one."""
    row = random.choice(rows) if rows else (None,) * len(tree.columns)
    equal = random.randint(0, min(len(tree.columns), 3))
    bounds = [("=", random_bound(random, tree.columns[at], row[at])) for at in range(equal)]
    if equal < len(tree.columns) and (not equal or random.random() < 0.6):
        for sign in random.choice(SIDES):
            there = random.choice(rows)[equal] if rows else None
            bounds.append((sign, random_bound(random, tree.columns[equal], there)))
    return Search(tree, tuple(bounds))


def searches_of(random: Random, database: sqlite3.Connection, tree: Tree) -> list[Search]:
    """Searches of a tree. A value with a tab or a line feed can't be written in a line."""
    columns = ", ".join(tree.columns)
    rows = database.execute(f"SELECT {columns} FROM {tree.table} WHERE {tree.condition}").fetchall()
    found: list[Search] = []
    while len(found) < KEYS // 5:
        search = random_search(random, tree, rows)
        if not any(isinstance(value, bytes) and b"\t" in value for value in search.values()):
            found.append(search)
    return found


def answers(path: Path, searches: list[Search]) -> tuple[list[tuple[list[str], int, int]], bytes]:
    """What the program says of each search: the rows, and how many pages the opening and the rows asked for; and of a fault."""
    given = f"image\t{path}\n" + "".join(search.line() for search in searches)
    run = subprocess.run([str(PROGRAM)], input=given.encode(), capture_output=True, check=False)
    found, rows = [], []
    for line in run.stdout.decode().split("\n")[:-1]:
        if counts := COUNTS.fullmatch(line):
            found.append((rows, int(counts[1]), int(counts[2])))
            rows = []
        else:
            rows.append(line)
    return found, run.stderr[:200]


def most_pages(search: Search, levels: int, fetched: int, rows: int) -> tuple[int, int]:
    """How many pages the opening of a search may ask for, and its rows; of a tree of so many levels, where each row is looked up in one
    of so many."""
    if None in search.values():
        return 0, 0
    is_direct = not search.tree.is_by_rowid() or (rows and search.bounds[0][0] == "=")
    return levels if is_direct else 2 * levels - 1, rows * (levels - 1 + fetched)


def compare(tally: Tally, path: Path, database: sqlite3.Connection, tree: Tree, random: Random) -> None:
    """Compares searches of one tree."""
    searches = searches_of(random, database, tree)
    found, said = answers(path, searches)
    if len(found) != len(searches):
        tally.add(f"{path.name}: {tree.name}", f"{len(found)} searches, {said!r}")
        return
    levels = levels_of(database, tree.name)
    fetched = levels_of(database, tree.table) if tree.name != tree.table else 0
    for search, (rows, opening, more) in zip(searches, found):
        wanted = [row for (row,) in database.execute(search.query(), search.values())]
        most = most_pages(search, levels, fetched, len(wanted))
        problem = "" if rows == wanted else f"{len(rows)} rows, not {len(wanted)}"
        if opening > most[0] or more > most[1]:
            problem += f"; {opening} and {more} pages, at most {most}"
        tally.add(f"{path.name}: {tree.name} {search.bounds}", problem)


def main() -> int:
    """Compares searches of each tree at each page size."""
    if not PROGRAM.exists():
        give_up("the program isn't built")
    tally, random = Tally(), Random(11)
    with tempfile.TemporaryDirectory() as folder:
        for size in SIZES:
            path = Path(folder, f"{size}.db")
            database = make(path, size, random)
            for tree in trees_of(database):
                compare(tally, path, database, tree, random)
            database.close()
    return tally.finish()


if __name__ == "__main__":
    sys.exit(main())
