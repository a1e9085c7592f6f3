#!/usr/bin/env python3
"""Steps three statements of a session over one engine that keeps one page, in schedules that are written here: each gets the replies
that it gets alone, step by step and where all steps are made by one call. Each read of a schedule fails in turn: the statement that
was stepped says so and has ended, and the others are whole. Each allocation is refused in turn: a reply says so, or none does. A
statement that gathers its rows is opened, stepped once and closed 2,000 times within the memory of 400 times, and one that has ended
keeps none of it, though it isn't closed.

Run from any folder. The last line is 'N passed, M failed'.
"""

from __future__ import annotations

import os
import re
import sqlite3
import subprocess
import sys
import tempfile
from dataclasses import dataclass, field
from itertools import permutations
from pathlib import Path
from random import Random

from memory import build_library
from program import MOST_SECONDS, TOP, Tally, fault_line, give_up, limit_child
from recipes import fill, make_file

CRATE = TOP / "crates" / "engines"
PROGRAM = CRATE / "out" / "engines"

# More reads than any schedule makes.
MOST_READS = 5000
# How many bytes more a run may have where memory is given back. Linux counts the pages of a process by batches on each
# processor, so that its peak is right to some hundred kB; sixteen statements that kept their rows would have 16 MB more.
MORE_MEMORY = 1 << 20

READ_FAILED, NO_MEMORY, FINISHED = (fault_line(number).decode() for number in (27, 28, 53))
NO_STATEMENT, TAKEN = fault_line(54).decode(), fault_line(55).decode()

STATEMENTS = (
    "SELECT id, qty FROM big WHERE id < 9",
    "SELECT item.id, sale.n FROM item RIGHT JOIN sale ON item.id = sale.item ORDER BY sale.n",
    "SELECT id FROM big WHERE qty = 7 UNION SELECT count(*) FROM item ORDER BY id",
)
# Steps of one slot, and of one that there isn't, with what each replies.
WORKED = (
    ("next\t0", NO_STATEMENT),
    ("open\t16\tSELECT 1", TAKEN),
    ("open\t0\tSELECT 1", "opened 1\n"),
    ("open\t0\tSELECT 1", TAKEN),
    ("next\t0", "1\n"),
    ("next\t0", "end\n"),
    ("next\t0", FINISHED),
    ("open\t0\tSELECT 1", TAKEN),
    ("close\t0", "closed\n"),
    ("close\t0", NO_STATEMENT),
    ("close\t16", NO_STATEMENT),
)
# What each statement replies alone, between the step that opens it and the one that closes it.
ALONE = (
    ["opened id qty\n", *(f"{number},{number}\n" for number in range(1, 9)), "end\n", FINISHED],
    ["opened id n\n", "NULL,1\n", "3,2\n", "1,5\n", "3,9\n", "end\n", FINISHED],
    ["opened id\n", "end\n", FINISHED],
)


def shop(connection: sqlite3.Connection, rng: Random) -> None:
    """Two tables of four rows, and one of many pages."""
    connection.execute("CREATE TABLE item(id INTEGER PRIMARY KEY, name TEXT NOT NULL, qty INT) STRICT")
    fill(connection, "item", [(1, "bolt", 40), (2, "nut", None), (3, "cap", 7), (4, "nut", 7)])
    connection.execute("CREATE TABLE sale(item INT, n INT) STRICT")
    fill(connection, "sale", [(1, 5), (3, 2), (3, 9), (9, 1)])
    connection.execute("CREATE TABLE big(id INTEGER PRIMARY KEY, qty INT, pad TEXT NOT NULL) STRICT")
    fill(connection, "big", ((row, row % 500 if row <= 1500 else None, "x" * 380) for row in range(1, 2001)))


@dataclass
class Schedule:
    """Steps, each with the slot that it is made on, and the replies that its slot alone would get."""

    lines: list[str] = field(default_factory=list)
    slots: list[int] = field(default_factory=list)
    wanted: list[str] = field(default_factory=list)

    def add(self, line: str, slot: int, wanted: str) -> None:
        self.lines.append(line)
        self.slots.append(slot)
        self.wanted.append(wanted)


def given(path: Path, lines: list[str], how: str = "session", read: int = 0) -> list[str]:
    """The lines that ask for these steps over an image, of which a read may fail."""
    return [f"{how}\t{path}\t{read}", *lines]


def run_lines(lines: list[str], **more: str) -> tuple[int, list[str], str]:
    """The status of a run that is given these lines, the lines that it writes, and what it writes on standard error."""
    ran = subprocess.run(
        [PROGRAM], input="".join(f"{line}\n" for line in lines), env={**os.environ, **more}, preexec_fn=limit_child,
        capture_output=True, text=True, timeout=6 * MOST_SECONDS, check=False,
    )
    return ran.returncode, ran.stdout.splitlines(keepends=True), ran.stderr


def run(path: Path, lines: list[str], how: str = "session", read: int = 0, **more: str) -> tuple[int, list[str], str]:
    """The same of a run that makes these steps."""
    return run_lines(given(path, lines, how, read), **more)


def steps_of(slot: int, which: int, wanted: list[str]) -> list[tuple[str, int, str]]:
    """The steps of a statement in a slot: it is opened, stepped to its end and once more, and closed."""
    opened, *rest = wanted
    nexts = [(f"next\t{slot}", slot, reply) for reply in rest]
    return [(f"open\t{slot}\t{STATEMENTS[which]}", slot, opened), *nexts, (f"close\t{slot}", slot, "closed\n")]


def schedules(alone: list[list[str]]) -> list[Schedule]:
    """Each order of the three statements: one after the other, in turn, two steps at a time, and each closed and opened again midway."""
    made = []
    for order in permutations(range(3)):
        for width in (100, 1, 2, 3):
            schedule = Schedule()
            left = [steps_of(slot, which, alone[which]) for slot, which in zip((0, 7, 15), order)]
            if width == 3:
                left = [[*steps[:2], (f"close\t{steps[0][1]}", steps[0][1], "closed\n"), *steps] for steps in left]
            while any(left):
                for steps in left:
                    for line, slot, wanted in steps[:width]:
                        schedule.add(line, slot, wanted)
                    del steps[:width]
            made.append(schedule)
    return made


def differing(wanted: list[str], replies: list[str]) -> str:
    """Where replies aren't as wanted."""
    if wanted == replies:
        return ""
    places = [place for place, (want, reply) in enumerate(zip(wanted, replies)) if want != reply]
    place = places[0] if places else min(len(wanted), len(replies))
    return f"{len(replies)} replies for {len(wanted)}; at {place}: {replies[place:place + 3]}, wanted {wanted[place:place + 3]}"


def failing_problem(schedule: Schedule, replies: list[str], fault: str) -> str:
    """What is wrong with replies of which one may be this fault: after it its statement has ended until it is closed, and all others are
    as they are alone."""
    if len(replies) != len(schedule.wanted):
        return f"{len(replies)} replies for {len(schedule.wanted)}"
    failed, ended, was_opened = 0, None, False
    for line, slot, wanted, reply in zip(schedule.lines, schedule.slots, schedule.wanted, replies):
        if slot == ended:
            if line.startswith("close"):
                wanted = "closed\n" if was_opened else NO_STATEMENT
                ended = None
            else:
                wanted = FINISHED if was_opened else NO_STATEMENT
        elif reply == fault and not line.startswith("close"):
            failed += 1
            was_opened = line.startswith("next")
            ended, wanted = slot, fault
        if reply != wanted:
            return f"{line!r} replies {reply!r}, wanted {wanted!r}"
    return "" if failed <= 1 else f"{failed} faults"


def try_lines(tally: Tally, path: Path, name: str, lines: list[str], wanted: list[str]) -> None:
    """Makes steps one by one, and all of them by one call."""
    for called, how in (("by steps", "session"), ("by one call", "replay")):
        status, replies, errors = run(path, lines, how)
        tally.add(f"{name} {called}", differing(wanted, replies) or (errors if status else ""))


def try_schedules(tally: Tally, path: Path) -> None:
    """Makes the worked steps, and each schedule."""
    try_lines(tally, path, "worked steps", [line for line, _ in WORKED], [reply for _, reply in WORKED])
    for number, schedule in enumerate(schedules([list(wanted) for wanted in ALONE])):
        try_lines(tally, path, f"schedule {number}", schedule.lines, schedule.wanted)


def try_reads(tally: Tally, path: Path, schedule: Schedule) -> None:
    """Each read fails in turn, up to one after the last. Those of opening end the program."""
    opened = False
    for read in range(1, MOST_READS):
        status, replies, errors = run(path, schedule.lines, read=read)
        if status:
            tally.add(f"read {read} of opening", "" if not opened and "ReadFailed" in errors and not replies else f"{errors}, {replies}")
            continue
        opened = True
        tally.add(f"read {read}", failing_problem(schedule, replies, READ_FAILED))
        if READ_FAILED not in replies:
            return
    tally.add("reads", "there is no last one")


def try_memory(tally: Tally, path: Path, folder: Path, schedule: Schedule) -> None:
    """Each allocation is refused in turn. Where the program goes on, one reply says so at most."""
    library, count = build_library(folder), folder / "count"
    at, most = 0, 1
    while at <= most:
        more = {"LD_PRELOAD": str(library), "REFUSE_COUNT": str(count), "REFUSE_AT": str(at)}
        status, replies, errors = run(path, schedule.lines, **more)
        if at == 0:
            most = int(count.read_text())
        problem = "" if status else failing_problem(schedule, replies, NO_MEMORY)
        tally.add(f"allocation {at} of {most}", problem or ("" if status in (0, 1) else f"status {status}, {errors}"))
        at += 1


def peak_of(path: Path, lines: list[str]) -> int:
    """The most memory that a run which makes these steps had when it wrote its replies, of which a pipe holds back a page."""
    steps, peak = path.with_suffix(".steps"), 0
    steps.write_text("".join(f"{line}\n" for line in given(path, lines)))
    with open(steps) as lines_given, subprocess.Popen([PROGRAM], stdin=lines_given, stdout=subprocess.PIPE, pipesize=4096) as child:
        while child.stdout.read1():
            told = re.search(r"VmHWM:\s+([0-9]+) kB", Path(f"/proc/{child.pid}/status").read_text())
            peak = max(peak, int(told[1]) * 1024 if told else 0)
    return peak


def try_again(tally: Tally, path: Path) -> None:
    """A statement that gathers its rows, many times in one slot, and one in each slot that has ended and isn't closed."""
    steps = ["open\t3\tSELECT id FROM big ORDER BY pad, id", "next\t3", "close\t3"]
    status, replies, errors = run(path, steps * 2000)
    tally.add("2,000 times", differing(["opened id\n", "1\n", "closed\n"] * 2000, replies) or (errors if status else ""))
    behind = ["next\t0"] * 1000
    few, many = peak_of(path, steps * 400 + behind), peak_of(path, steps * 2000 + behind)
    tally.add("memory of 2,000 times", "" if many < few + MORE_MEMORY else f"{many} bytes, {few} of 400 times")
    for gathered in (
        "SELECT count(*) FROM (SELECT DISTINCT pad, id FROM big)",
        "SELECT count(*) FROM item JOIN big ON item.id = big.id AND big.pad > ''",
    ):
        ended = [[f"open\t{slot}\t{gathered}", f"next\t{slot}", f"next\t{slot}"] for slot in range(16)]
        one, each = peak_of(path, ended[0] + behind), peak_of(path, [step for steps in ended for step in steps] + behind)
        tally.add(f"memory of ended statements, {gathered}", "" if each < one + MORE_MEMORY else f"{each} bytes, {one} of one")


def build() -> None:
    """Proves and builds the program, unless BUILT tells that this was just done."""
    command = ["true"] if os.environ.get("BUILT") else ["rt", "run"]
    built = subprocess.run(command, cwd=CRATE, stdin=subprocess.DEVNULL, capture_output=True, check=False)
    if built.returncode != 0:
        sys.stdout.write(built.stdout.decode(errors="replace") + built.stderr.decode(errors="replace"))
        give_up("the program isn't built")


def main() -> int:
    """Builds the program, and tries the schedules."""
    build()
    tally = Tally()
    with tempfile.TemporaryDirectory() as folder:
        path, small = Path(folder) / "shop.db", Path(folder) / "small.db"
        make_file(path, shop, 4096, Random(0))
        with sqlite3.connect(path) as connection:
            ALONE[2][1:1] = [f"{row}\n" for (row,) in connection.execute(STATEMENTS[2])]
        try_schedules(tally, path)
        try_again(tally, path)
        make_file(small, lambda connection, rng: (shop(connection, rng), connection.execute("DELETE FROM big WHERE id > 20"), connection.execute("VACUUM")), 512, Random(0))
        few = schedules([ALONE[0], ALONE[1], ["opened id\n", "4\n", "7\n", "end\n", FINISHED]])
        for schedule in (few[1], few[7]):
            try_reads(tally, small, schedule)
        try_memory(tally, small, Path(folder), few[1])
    return tally.finish()


if __name__ == "__main__":
    sys.exit(main())
