"""Files and outputs that fail: the program says so by the fault that docs/FAULTS.md gives, and ends."""

from __future__ import annotations

import os
import select
import sqlite3
import subprocess
from collections.abc import Callable
from pathlib import Path
from random import Random

from oracle import Reader
from program import MOST_SECONDS, PROGRAM, Run, Tally, fault_line, limit_child, refusal_problem, rows_of, run
from recipes import fill, make_file
from refusals import ITEM, SELECT, from_script

READ_FAILED, CHANGED, WRITE_FAILED = fault_line(27), fault_line(51), fault_line(52)
PAGE = 4096


def try_paths(tally: Tally, folder: Path) -> None:
    """Tries paths that aren't those of a file that can be read."""
    fifo, loop, closed = folder / "fifo", folder / "loop", folder / "closed.db"
    os.mkfifo(fifo)
    loop.symlink_to(loop)
    from_script(closed, ITEM)
    closed.chmod(0)
    paths = [folder, folder / "nothing.db", closed / "below", fifo, loop, "", "x" * 5000, "/dev/null", "/dev/zero"]
    if os.geteuid() != 0:
        paths.append(closed)
    for path in paths:
        tally.add(f"the path {str(path)[:80]!r}", refusal_problem(run(path, SELECT), READ_FAILED))
    link = folder / "link.db"
    closed.chmod(0o600)
    link.symlink_to(closed)
    answer = run(link, SELECT)
    tally.add("a link to a file", "" if answer.status == 0 and answer.out == b"1,'bolt'\n2,'nut'\n" else str(answer))


def stopped_problem(answer: Run, line: bytes) -> str:
    """What is wrong with an answer that could not be written whole."""
    return "" if (answer.status, answer.err) == (1, line) else f"{answer}; wanted status 1 and {line!r}"


def try_outputs(tally: Tally, path: Path) -> None:
    """Tries outputs that take nothing: a full device, a pipe that nobody reads, one that is closed."""
    from_script(path, ITEM)
    image = path.read_bytes()
    for words in ([path, SELECT], ["--header", path, SELECT]):
        with open("/dev/full", "wb") as full:
            tally.add(f"a full device, {words}", stopped_problem(run(*words, stdout=full), WRITE_FAILED))
        reading, writing = os.pipe()
        os.close(reading)
        tally.add(f"a pipe without a reader, {words}", stopped_problem(run(*words, stdout=writing), WRITE_FAILED))
        os.close(writing)
    with open("/dev/full", "wb") as full:
        answer = run(path, "SELECT * FROM nowhere", stderr=full)
        tally.add("standard error on a full device", "" if answer.status == 1 and answer.out == b"" else str(answer))
    with open("/dev/full", "wb") as full:
        tally.add("the help on a full device", stopped_problem(run("--help", stdout=full), WRITE_FAILED))
    shell = ["/bin/sh", "-c", '"$0" "$@" >&-', str(PROGRAM), str(path), SELECT]
    closed = subprocess.run(shell, capture_output=True, timeout=MOST_SECONDS, check=False)
    problem = "" if closed.returncode in (0, 1) and closed.stdout == b"" else str(closed)
    tally.add("standard output closed", problem or ("" if path.read_bytes() == image else "the image was changed"))


def long_table(connection: sqlite3.Connection, _: Random) -> None:
    """An answer that is many times as long as what a pipe and the program hold back."""
    connection.execute("CREATE TABLE item(id INTEGER PRIMARY KEY, text TEXT NOT NULL) STRICT")
    fill(connection, "item", ((row, f"row {row} " * 10) for row in range(20000)))


def interrupted(path: Path, change: Callable[[], None], *words: str) -> Run:
    """A run whose file is changed when its first bytes are there, before any of them is read: the answer is so long that
    the program then waits for its reader."""
    command = [str(PROGRAM), *words, str(path), SELECT]
    pipes = {"stdout": subprocess.PIPE, "stderr": subprocess.PIPE, "pipesize": 4096}
    with subprocess.Popen(command, preexec_fn=limit_child, **pipes) as child:
        select.select([child.stdout], [], [], MOST_SECONDS)
        change()
        try:
            out, err = child.communicate(timeout=MOST_SECONDS)
        except subprocess.TimeoutExpired:
            child.kill()
            out, err = child.communicate()
            return Run(None, out, err)
    return Run(child.returncode, out, err)


def abandoned(path: Path) -> Run:
    """A run whose reader takes the first row and goes."""
    with subprocess.Popen([str(PROGRAM), str(path), SELECT], stdout=subprocess.PIPE, stderr=subprocess.PIPE) as child:
        first = child.stdout.readline()
        child.stdout.close()
        try:
            err = child.stderr.read() if child.wait(MOST_SECONDS) is not None else b""
        except subprocess.TimeoutExpired:
            child.kill()
            return Run(None, first, b"")
    return Run(child.returncode, first, err)


def begins_problem(answer: Run, wanted: list[bytes], line: bytes) -> str:
    """What is wrong with an answer that has to stop behind the first whole rows of this one."""
    rows = rows_of(answer.out)
    if rows is None or rows != wanted[: len(rows)] or len(rows) == len(wanted):
        return f"{answer}; wanted the first whole rows of the answer"
    return stopped_problem(answer, line)


def try_changes(tally: Tally, path: Path) -> None:
    """Changes a file while its rows are written: it is cut, its pages are zeroed, its bytes are as they were."""
    make_file(path, long_table, PAGE, Random(0))
    image = path.read_bytes()
    with Reader(path) as reader:
        wanted = list(reader.lines("item", reader.columns("item")))

    def zero_pages() -> None:
        path.write_bytes(image[:PAGE] + bytes(len(image) - PAGE))

    for words in ([], ["--cache", "1"]):
        for what, change, line in (
            ("cut to a page", lambda: os.truncate(path, PAGE), READ_FAILED),
            ("cut to nothing", lambda: os.truncate(path, 0), READ_FAILED),
            ("filled with zeros", zero_pages, CHANGED),
        ):
            path.write_bytes(image)
            tally.add(f"a file {what}, {words}", begins_problem(interrupted(path, change, *words), wanted, line))
    path.write_bytes(image)
    tally.add("a reader that goes", begins_problem(abandoned(path), wanted, WRITE_FAILED))
    answer = interrupted(path, path.unlink)
    whole = answer.status == 0 and rows_of(answer.out) == wanted
    tally.add("a file whose name is gone", "" if whole else str(answer))


def try_devices(tally: Tally, folder: Path) -> None:
    """Tries paths, outputs and files that fail."""
    for name in ("paths", "outputs", "changes"):
        (folder / name).mkdir()
    try_paths(tally, folder / "paths")
    try_outputs(tally, folder / "outputs" / "item.db")
    try_changes(tally, folder / "changes" / "item.db")
