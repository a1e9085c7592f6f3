"""Searches that are measured beside `sqlite3`: a million of them, for rows by their numbers and for entries of an index, each for a
key that is there, in random order. The searches are those of the program `images`, which writes what it finds."""

from __future__ import annotations

import random
import sqlite3
import subprocess
from pathlib import Path

from costs import Command, measure_all
from program import TOP

IMAGES = TOP / "crates" / "images" / "out" / "images"
# At most the time that sqlite3 takes for a join with a list of the keys.
LOOKUP_TARGET = 1.0


def write_keys(folder: Path, name: str, tree: str, keys: list[int]) -> tuple[Path, Path, Path]:
    """Writes keys in random order: as lines that `images` reads, after one that names the tree, which is written alone too, and as a
    table of an image of their own."""
    random.Random(7).shuffle(keys)
    lines, alone, image = folder / f"{name}.txt", folder / f"{name}.alone.txt", folder / f"{name}.db"
    lines.write_text(tree + "".join(f"at\ti{key}\n" for key in keys))
    alone.write_text(tree)
    with sqlite3.connect(image) as database:
        database.execute("CREATE TABLE probe(k INT) STRICT")
        database.executemany("INSERT INTO probe VALUES (?)", ((key,) for key in keys))
    database.close()
    return lines, alone, image


def lookup_line(what: str, own: float, other: float) -> str:
    """A line of the table."""
    verdict = "met" if own / other <= LOOKUP_TARGET else "missed"
    return f"| {what} | {own:.3f} | {other:.3f} | {own / other:.2f} | at most {LOOKUP_TARGET}: {verdict} |"


def lookup_lines(path: Path, folder: Path, pages: int, runs: int) -> list[str]:
    """The lines of the table of searches on a file whose table `item` has an index on `a`. What both write without a search, the
    entries of the index here and the keys there, is taken off."""
    database = sqlite3.connect(path)
    roots = dict(database.execute("SELECT name, rootpage FROM sqlite_schema WHERE name IN ('item', 'item_a')"))
    lines = ["| A million searches | seleq, s | sqlite3, s | Ratio | Target |", "|" + "---|" * 5]
    for what, name, column, shown, tree in (
        ("for rows by their numbers", "item", "id", "item.id, item.a, item.b, item.name", f"table\t{path}\t{roots['item']}\t{pages}\n"),
        ("for entries of an index", "item_a", "a", "item.a, item.id", f"index\t{path}\t{roots['item_a']}\t+\t{pages}\n"),
    ):
        found = [key for (key,) in database.execute(f"SELECT {column} FROM item")]
        keys, alone, probe = write_keys(folder, name, tree, found)
        other = ["sqlite3", "-batch", "-readonly", "-quote", "-cmd", f"ATTACH '{probe}' AS p", str(path)]
        join = f"SELECT {shown} FROM p.probe CROSS JOIN item ON item.{column} = probe.k"
        costs = measure_all(
            [
                Command("own", [str(IMAGES)], given=str(keys)),
                Command("own begin", [str(IMAGES)], given=str(alone)),
                Command("other", [*other, join]),
                Command("other begin", [*other, "SELECT k FROM p.probe"]),
            ],
            runs,
        )
        mine, theirs = (costs[name].processor - costs[f"{name} begin"].processor for name in ("own", "other"))
        lines.append(lookup_line(what, mine, theirs))
    database.close()
    return lines


def build_images() -> None:
    """Proves and builds the program, and runs it once."""
    subprocess.run(["rt", "run"], cwd=IMAGES.parent.parent, stdin=subprocess.DEVNULL, stdout=subprocess.DEVNULL, check=True)
