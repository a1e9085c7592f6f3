#!/usr/bin/env python3
"""Measures the program beside the `sqlite3` program, on files of growing tables, and writes RESULTS.md.

Each command is run five times, all of them in turn, and the least of each is taken: the time on the clock, and the time of
the processor (user and system). Both write to /dev/null then. The peak of memory is taken in one run more, whose output is
read: what `wait4` tells of it begins with what the script itself has, so that the kernel's count for the running process is
read with each piece of its output. Run it on a machine that is else idle.
"""

from __future__ import annotations

import argparse
import math
import shutil
import subprocess
import sys
import tempfile
import textwrap
from pathlib import Path

FOLDER = Path(__file__).resolve().parent
TOP = FOLDER.parent
sys.path.insert(0, str(TOP / "compare"))

from costs import CACHE, Command, Cost, measure_all, met, peak_of, seleq, sqlite  # noqa: E402
from joined import joined_lines  # noqa: E402
from lookups import build_images, lookup_lines  # noqa: E402
from measured import GATHERED, INDEXED_TARGET, INDEXES, JOINS, STATEMENTS, WINDOWS, Statement  # noqa: E402
from program import build, give_up  # noqa: E402
from reading import reading_lines  # noqa: E402

ROWS = 1_000_000
RUNS = 5
PAGE = 4096
TEXT = 40
# The longest payload of the table: a header, two numbers and the text.
PAYLOAD = 5 + 2 * 8 + TEXT

# What is refused once the file is open, and what sqlite3 answers without reading a table.
OPENED, NOTHING = "SELECT * FROM nowhere", "SELECT 1"

# The targets: parts of the time that sqlite3's SELECT takes alone; bytes; and how much more than its part of the rows a
# longer table may take.
ALL_TARGET, ONE_TARGET = 0.5, 0.8
MEMORY_TARGET = (16 << 20) + CACHE * PAGE + 2 * PAYLOAD
GROWTH_TARGET = 1.25


def make_table(path: Path, rows: int) -> None:
    """Has sqlite3 make a table of a key, two numbers and a text of 40 bytes."""
    script = f"""PRAGMA page_size = {PAGE};
        CREATE TABLE item(id INTEGER PRIMARY KEY, a INT NOT NULL, b INT NOT NULL, name TEXT NOT NULL) STRICT;
        WITH RECURSIVE n(i) AS (SELECT 1 UNION ALL SELECT i + 1 FROM n WHERE i < {rows})
        INSERT INTO item SELECT i, i * 7919 % 1000003, i * i * 31,
            substr(printf('the name of item %d, filled with letters up to forty', i), 1, {TEXT}) FROM n;"""
    subprocess.run(["sqlite3", "-bail", str(path)], input=script.encode(), check=True)


def commands_for(path: Path) -> list[Command]:
    """What is measured on one file."""
    one, everything, check = "SELECT name FROM item", "SELECT * FROM item", "PRAGMA integrity_check"
    return [
        Command("open", seleq(path, OPENED), 1),
        Command("one", seleq(path, one)),
        Command("all", seleq(path, everything)),
        Command("sqlite check", sqlite(path, check)),
        Command("sqlite open", sqlite(path, NOTHING)),
        Command("sqlite one", sqlite(path, one)),
        Command("sqlite check one", sqlite(path, check, one)),
        Command("sqlite all", sqlite(path, everything)),
        Command("sqlite check all", sqlite(path, check, everything)),
    ]


def statement_commands(path: Path, statements: list[Statement]) -> list[Command]:
    """The statements, as both programs are asked."""
    own = [Command(it.what, seleq(path, it.sql)) for it in statements]
    return [*own, *(Command(f"sqlite {it.what}", sqlite(path, it.sql)) for it in statements)]


def indexed_commands(path: Path) -> list[Command]:
    """Opening a file whose table has indexes, and the check of sqlite3."""
    return [Command("open", seleq(path, OPENED), 1), Command("sqlite check", sqlite(path, "PRAGMA integrity_check"))]


def time_rows(costs: dict[str, Cost]) -> list[str]:
    """The lines of the table of times."""
    lines = ["| What | Beside | seleq, s | sqlite3, s | Ratio | Ratio by the clock | Target |", "|" + "---|" * 7]
    for what, own, beside, other, target in (
        ("opening", "open", "the check", "sqlite check", None),
        ("opening, one column", "one", "the check and the SELECT", "sqlite check one", None),
        ("opening, one column", "one", "the SELECT alone", "sqlite one", ONE_TARGET),
        ("opening, all columns", "all", "the check and the SELECT", "sqlite check all", None),
        ("opening, all columns", "all", "the SELECT alone", "sqlite all", ALL_TARGET),
    ):
        ratio = costs[own].processor / max(costs[other].processor, 1e-6)
        clock = costs[own].clock / costs[other].clock
        wanted = "" if target is None else f"at most {target}: {met(ratio <= target)}"
        times = f"{costs[own].processor:.3f} | {costs[other].processor:.3f}"
        lines.append(f"| {what} | {beside} | {times} | {ratio:.2f} | {clock:.2f} | {wanted} |")
    return lines


def parts_of(costs: dict[str, Cost], it: Statement) -> tuple[float, float]:
    """The seconds of the processor that a statement takes of both programs."""
    own, other = costs[it.what].processor, costs[f"sqlite {it.what}"].processor
    if it.apart:
        own, other = own - costs["open"].processor, other - costs["sqlite open"].processor
    return max(own, 0.0), max(other, 1e-6)


def statement_rows(costs: dict[str, Cost]) -> list[str]:
    """The lines of the table of statements."""
    lines = ["| What | Opening | seleq, s | sqlite3, s | Ratio | Target |", "|" + "---|" * 6]
    for it in [*STATEMENTS, *JOINS]:
        own, other = parts_of(costs, it)
        opening = "taken off both" if it.apart else "included"
        wanted = f"at most {it.target}: {met(own / other <= it.target)}"
        lines.append(f"| {it.what} | {opening} | {own:.3f} | {other:.3f} | {own / other:.2f} | {wanted} |")
    return lines


def indexed_lines(costs: dict[str, Cost]) -> list[str]:
    """The lines that tell how long opening takes where the table has two indexes."""
    own, other = costs["open"].processor, costs["sqlite check"].processor
    return [
        f"Where the table has two indexes, opening takes {own:.2f} s and `PRAGMA integrity_check` {other:.2f} s, a ratio of",
        f"{own / other:.2f}; the target is at most {INDEXED_TARGET}: {met(own / other <= INDEXED_TARGET)}.",
    ]


def indexed_memory(path: Path) -> list[str]:
    """The lines that tell the peak of memory where the table has two indexes."""
    own = peak_of(Command("all", seleq(path, "SELECT * FROM item")))
    return [f"Where the table has two indexes, seleq has at most {own / 2**20:.1f} MB: {met(own <= MEMORY_TARGET)}."]


def memory_lines(path: Path) -> list[str]:
    """The lines that tell the peaks of memory on one file."""
    wanted = ("one", "all", "sqlite all")
    peaks = {command.name: peak_of(command) for command in commands_for(path) if command.name in wanted}
    own = max(peaks["one"], peaks["all"])
    return [
        f"seleq has at most {own / 2**20:.1f} MB, sqlite3 {peaks['sqlite all'] / 2**20:.1f} MB. The target is 16 MB, the cache",
        f"and twice the longest payload, {MEMORY_TARGET / 2**20:.1f} MB: {met(own <= MEMORY_TARGET)}.",
    ]


def gathered_lines(path: Path) -> list[str]:
    """The lines of the table of what statements have in memory that keep rows."""
    lines = ["", "| What | seleq, MB | sqlite3, MB |", "|---|---|---|"]
    for it in [*STATEMENTS, *JOINS]:
        if it.what in GATHERED:
            own, other = (peak_of(command) / 2**20 for command in statement_commands(path, [it]))
            lines.append(f"| {it.what} | {own:.1f} | {other:.1f} |")
    return lines


def growth_lines(sizes: list[int], all_costs: list[dict[str, Cost]]) -> list[str]:
    """The lines of the table of growth, and whether it is linear between the shortest table and the others."""
    lines = ["| Rows | opening, s | one column, s | all columns, s | sqlite3, all columns, s |", "|---|---|---|---|---|"]
    for rows, costs in zip(sizes, all_costs):
        times = " | ".join(f"{costs[name].processor:.4f}" for name in ("open", "one", "all", "sqlite all"))
        lines.append(f"| {rows} | {times} |")
    first, second, last = (costs["all"].processor for costs in all_costs)
    by_rows = (sizes[2] - sizes[0]) / (sizes[1] - sizes[0])
    growth = (last - first) / max(second - first, 1e-6)
    linear = met(growth <= GROWTH_TARGET * by_rows)
    return [
        *lines,
        "",
        f"From the first table to the third all columns take {growth:.1f} times as much more as from the first to the",
        f"second, with {by_rows:.1f} times as many more rows; the target is at most {GROWTH_TARGET} times that: {linear}.",
    ]


def window_growth_lines(sizes: list[int], all_costs: list[dict[str, Cost]]) -> list[str]:
    """The lines of the table of how windows grow with the rows: in `n log n`, or by less."""
    lines = [f"| What | {' | '.join(f'{rows} rows, s' for rows in sizes)} | Beside `n log n` |", "|---|" + "---|" * (len(sizes) + 1)]
    by_rows = sizes[-1] * math.log(sizes[-1]) / (sizes[-2] * math.log(sizes[-2]))
    for it in WINDOWS:
        own = [parts_of(costs, it)[0] for costs in all_costs]
        growth = own[-1] / max(own[-2], 1e-6) / by_rows
        wanted = f"{growth:.2f} times that growth; at most {GROWTH_TARGET}: {met(growth <= GROWTH_TARGET)}"
        lines.append(f"| {it.what} | {' | '.join(f'{time:.4f}' for time in own)} | {wanted} |")
    return lines


def report(
    sizes: list[int],
    all_costs: list[dict[str, Cost]],
    indexed: list[str],
    joined: list[str],
    lookups: list[str],
    memory: list[str],
    runs: int,
) -> str:
    """The text of RESULTS.md."""
    version = subprocess.run(["sqlite3", "--version"], capture_output=True, check=True).stdout.decode().split()[0]
    how = f"""Written by `bench/bench.py`. The table has an integer key, two integers and a text of {TEXT} bytes, in pages of
        {PAGE} bytes. Each time is the least of {runs} runs, all commands in turn; both programs write to /dev/null. seleq
        keeps {CACHE} pages; `sqlite3` {version} answers in `.mode quote`. Seconds are those of the processor, user and
        system."""
    opening = "Each run of seleq opens the file, which checks it whole, before it answers."
    parts = [
        "# Time and memory beside `sqlite3`",
        *(textwrap.fill(" ".join(text.split()), 120, break_on_hyphens=False) for text in (how, opening)),
        f"## {sizes[-1]} rows",
        "\n".join(time_rows(all_costs[-1])),
        "\n".join(indexed),
        "## Statements",
        "\n".join(statement_rows(all_costs[-1])),
        "## Joins without an index",
        "\n".join(joined),
        "## Searches",
        "\n".join(lookups),
        "## The peak of memory",
        "\n".join(memory),
        "## Growth",
        "\n".join(growth_lines(sizes, all_costs)),
        "\n".join(window_growth_lines(sizes, all_costs)),
        "## Reading a text",
        "Instructions for each byte of a text, those for a short one taken off, as `valgrind` counts them.",
        "\n".join(reading_lines()),
    ]
    return "\n\n".join(parts) + "\n"


def main() -> int:
    """Measures, and writes the results."""
    parser = argparse.ArgumentParser(description="Measures the program seleq beside sqlite3.")
    parser.add_argument("--rows", type=int, default=ROWS, help=f"rows of the longest table ({ROWS})")
    parser.add_argument("--runs", type=int, default=RUNS, help=f"runs of each command ({RUNS})")
    parser.add_argument("--out", type=Path, default=FOLDER / "RESULTS.md", help="the file of the results")
    parser.add_argument("--built", action="store_true", help="take the programs as they were built last")
    words = parser.parse_args()
    if shutil.which("sqlite3") is None:
        give_up("the program sqlite3 is not on the PATH")
    if not words.built:
        build()
        build_images()
    sizes = [max(1, words.rows // 100), max(2, words.rows // 10), words.rows]
    with tempfile.TemporaryDirectory() as folder:
        all_costs = []
        for rows in sizes:
            path = Path(folder) / f"{rows}.db"
            make_table(path, rows)
            more = statement_commands(path, STATEMENTS if rows == sizes[-1] else WINDOWS)
            all_costs.append(measure_all([*commands_for(path), *more], words.runs))
        # A join takes long, and is run once.
        all_costs[-1] |= measure_all(statement_commands(path, JOINS), 1)
        memory, gathered = memory_lines(path), gathered_lines(path)
        subprocess.run(["sqlite3", "-bail", str(path), INDEXES], check=True)
        memory += [*indexed_memory(path), *gathered]
        indexed = indexed_lines(measure_all(indexed_commands(path), words.runs))
        joined = joined_lines(Path(folder), sizes[1:], words.runs)
        lookups = lookup_lines(path, Path(folder), CACHE, words.runs)
    words.out.write_text(report(sizes, all_costs, indexed, joined, lookups, memory, words.runs))
    return 0


if __name__ == "__main__":
    sys.exit(main())
