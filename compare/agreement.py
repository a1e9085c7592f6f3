#!/usr/bin/env python3
"""Compares our answers with those of a second engine that was written apart from ours, the kit's `sqlite` over tables in memory: what
the program `second_engine` stores for its statements has to be what `engines` answers, over two images of the same tables, by runs and
by the steps of a session that has sixteen statements open and asks each for a row in turn. Where ORDER BY leaves no choice answers are
compared as lists, else as bags.

Run from any folder. The last line is 'N passed, M failed'.
"""

from __future__ import annotations

import sys
import tempfile
from dataclasses import dataclass
from pathlib import Path

from kept import SHAPES, agreed
from program import TOP, Tally
from sessions import build, run_lines

SECOND = TOP / "crates" / "second_engine"
SLOTS = 16
# More pages than a run asks for.
MOST = 2**64 - 1


@dataclass(frozen=True)
class Trial:
    """A statement, and its answer as the second engine gives it."""

    sql: str
    is_ordered: bool
    answer: list[str]

    def problem(self, answer: list[str]) -> str:
        """What is wrong with an answer of ours."""
        same = answer == self.answer if self.is_ordered else sorted(answer) == sorted(self.answer)
        return "" if same else f"{answer[:5]}, the second engine {self.answer[:5]}"


def trials() -> list[Trial]:
    """The statements of the second engine's lines, with its answers: for each the number of its rows, and the rows."""
    given = (SECOND / "stdin").read_text().splitlines()
    stored, found = iter((SECOND / "stdout").read_text().splitlines(keepends=True)), []
    for line in given:
        order, sql, *_ = line.split("\t")
        found.append(Trial(sql, order == "list", [next(stored) for _ in range(int(next(stored)))]))
    assert next(stored, None) is None
    return found


def try_runs(tally: Tally, path: Path, name: str) -> None:
    """Runs each statement over an image, by an engine that keeps one page."""
    tried = trials()
    status, lines, errors = run_lines([f"run\t{path}\t1\t{MOST}\t{trial.sql}" for trial in tried])
    tally.add(f"{name}, runs", errors if status else "")
    end, at = f"at most {MOST} pages\n", 0
    for trial in tried:
        last = lines.index(end, at) if end in lines[at:] else len(lines)
        tally.add(f"{name}, run, {trial.sql}", trial.problem(lines[at:last]))
        at = last + 1


def turns(few: list[Trial]) -> list[tuple[str, int]]:
    """The steps of at most sixteen statements by turns, each with the place of its statement: a row of each that has a further one, or
    its end."""
    steps = [(f"open\t{slot}\t{trial.sql}", slot) for slot, trial in enumerate(few)]
    for turn in range(1 + max(len(trial.answer) for trial in few)):
        steps += [(f"next\t{slot}", slot) for slot, trial in enumerate(few) if turn <= len(trial.answer)]
    return steps + [(f"close\t{slot}", slot) for slot in range(len(few))]


def try_steps(tally: Tally, path: Path, name: str) -> None:
    """Steps the statements over an image, sixteen at a time."""
    tried = trials()
    for first in range(0, len(tried), SLOTS):
        few = tried[first : first + SLOTS]
        steps = turns(few)
        status, replies, errors = run_lines([f"session\t{path}", *(line for line, _ in steps)])
        tally.add(f"{name}, steps from statement {first} on", errors if status else "" if len(replies) == len(steps) else f"{len(replies)} replies")
        for slot, trial in enumerate(few):
            opened, *rows, end, closed = [reply for (_, at), reply in zip(steps, replies) if at == slot] or [""] * 3
            is_whole = opened.startswith("opened ") and (end, closed) == ("end\n", "closed\n")
            tally.add(f"{name}, steps, {trial.sql}", trial.problem(rows) if is_whole else f"{opened!r}, {end!r}, {closed!r}")


def main() -> int:
    """Builds `engines`, and compares over each image."""
    build()
    tally = Tally()
    with tempfile.TemporaryDirectory() as folder:
        for name, shape in SHAPES.items():
            path = Path(folder, f"{name}.db")
            path.write_bytes(agreed(*shape))
            try_runs(tally, path, name)
            try_steps(tally, path, name)
    return tally.finish()


if __name__ == "__main__":
    sys.exit(main())
