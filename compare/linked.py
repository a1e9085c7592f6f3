#!/usr/bin/env python3
"""Links the examples with the library for C, and runs them beside the program: `examples/rows.c` and `rows.py` have to print its
answers, `audit.c` its faults. `handles.c` calls the library out of order, steps sixteen statements by turns, and has each allocation
refused. All of it is run again under valgrind, where that is there, which may find neither an error nor a leak.

Run from any folder. The last line is 'N passed, M failed'.
"""

from __future__ import annotations

import os
import shutil
import subprocess
import sys
import tempfile
from dataclasses import dataclass
from pathlib import Path
from random import Random

from program import TOP, Run, Tally, build, give_up, run
from recipes import long_values, make_file
from refusals import from_script
from shop import ANSWERS, SHOP
from tried import how_many

OUT = TOP / "crates" / "seleq_c" / "out"
ARCHIVE, SHARED = OUT / "libseleq.a", OUT / "libseleq.so"
# What one run may take in seconds; valgrind makes it some thirty times as long.
SECONDS = 600
VALGRIND = ["valgrind", "-q", "--leak-check=full", "--error-exitcode=99"]
# How many statements Python answers too, how many are run under valgrind, and of how many allocations one is refused natively and
# there.
BY_PYTHON, WATCHED, STRIDE, WATCHED_STRIDE = how_many(40, 6), how_many(12, 3), how_many(1, 7), how_many(3, 97)

# Sixteen statements whose rows are numbers, texts without quotes and NULL: those that are stepped by turns.
BY_TURNS = (
    "SELECT name FROM item",
    "SELECT qty, id FROM item",
    "SELECT n, item FROM sale ORDER BY n",
    "SELECT item.name, sale.n FROM item JOIN sale ON item.id = sale.item ORDER BY sale.n",
    "SELECT item.id, sale.n FROM item FULL JOIN sale ON item.id = sale.item ORDER BY 1, 2",
    "SELECT item.id, sale.n FROM item RIGHT JOIN sale ON item.id = sale.item ORDER BY sale.n",
    "SELECT item, count(*), sum(n) FROM sale GROUP BY item ORDER BY 1",
    "SELECT id, sum(qty) OVER (ORDER BY qty) FROM item ORDER BY id",
    "WITH sold(id) AS (SELECT item FROM sale) SELECT id FROM item WHERE id NOT IN (SELECT id FROM sold) ORDER BY 1",
    "SELECT id FROM item UNION SELECT item FROM sale ORDER BY 1",
    "SELECT DISTINCT qty FROM item ORDER BY 1 DESC",
    "SELECT id FROM item ORDER BY qty NULLS LAST, 1 DESC LIMIT 3 OFFSET 1",
    "SELECT 'one', 1, NULL",
    "SELECT item FROM gift",
    "SELECT count(*) FROM sale AS a, sale AS b, sale AS c",
    "SELECT a.id, b.id FROM item AS a, item AS b WHERE a.id < b.id ORDER BY 1, 2",
)


@dataclass(frozen=True)
class Linked:
    """The programs that were linked."""

    rows: Path
    audit: Path
    handles: Path

    @staticmethod
    def in_folder(folder: Path) -> Linked:
        """Compiles and links them, without a warning."""
        sources = {"rows": "examples/rows.c", "audit": "examples/audit.c", "handles": "compare/handles.c"}
        wrapped = [f"-Wl,--wrap={name}" for name in ("malloc", "realloc", "free")]
        for name, source in sources.items():
            words = ["gcc", "-std=c99", "-O1", "-g", "-Wall", "-Wextra", "-Werror", "-o", folder / name, TOP / source, ARCHIVE]
            built = subprocess.run(words + (wrapped if name == "handles" else []), capture_output=True, text=True, check=False)
            if built.returncode:
                give_up(f"{source} isn't linked: {built.stderr[-2000:]}")
        return Linked(*(folder / name for name in sources))


def started(*words: object, **more: str) -> Run:
    """Runs a command."""
    command = [str(word) for word in words]
    ran = subprocess.run(command, stdin=subprocess.DEVNULL, capture_output=True, timeout=SECONDS, env={**os.environ, **more}, check=False)
    return Run(ran.returncode, ran.stdout, ran.stderr)


def watched(*words: object, **more: str) -> Run:
    """Runs a command under valgrind, whose own lines are then on standard error and whose status is 99 where it found something."""
    return started(*VALGRIND, *words, **more)


def same_problem(answer: Run, wanted: Run) -> str:
    """What is wrong with an answer that has to be another's."""
    return "" if answer == wanted else f"{answer}; wanted {wanted}"


def try_statement(tally: Tally, linked: Linked, image: Path, sql: str, by_python: bool, is_watched: bool) -> None:
    """Asks one statement of the program and of the examples. The one in C doesn't print what a fault carries."""
    whole = run(image, sql)
    name = whole.err[:-1].split(b" ")[:3]
    short = Run(whole.status, whole.out, b" ".join(name) + b"\n" if whole.err else b"")
    tally.add(f"rows.c, {sql!r}", same_problem(started(linked.rows, image, sql), short))
    if is_watched:
        tally.add(f"rows.c under valgrind, {sql!r}", same_problem(watched(linked.rows, image, sql), short))
    if by_python:
        words = [sys.executable, TOP / "examples" / "rows.py", SHARED, image, sql]
        tally.add(f"rows.py, {sql!r}", same_problem(started(*words), whole))


def try_examples(tally: Tally, linked: Linked, image: Path, folder: Path, has_valgrind: bool) -> None:
    """The answers of a shop and of long values, statements that are refused, and files that are."""
    refused = ("SELECT", "SELECT name FROM nowhere", "SELECT name + 1 FROM item", "SELECT 9223372036854775807 + 1", "SELECT 1;;", "")
    for place, sql in enumerate([*refused, *BY_TURNS, *ANSWERS]):
        try_statement(tally, linked, image, sql, place < BY_PYTHON, has_valgrind and place < WATCHED)
    long = folder / "long.db"
    make_file(long, long_values, 512, Random(1))
    try_statement(tally, linked, long, "SELECT * FROM long", True, has_valgrind)
    try_statement(tally, linked, TOP / "README.md", "SELECT 1", True, has_valgrind)


def damaged(image: Path, folder: Path) -> list[Path]:
    """Copies of an image with one byte changed, and one beside which a journal lies."""
    whole, paths = image.read_bytes(), []
    for place in (*range(0, 110, 5), *range(110, len(whole), len(whole) // 40)):
        paths.append(folder / f"damaged-{place}.db")
        paths[-1].write_bytes(whole[:place] + bytes([whole[place] ^ 0x55]) + whole[place + 1 :])
    paths.append(folder / "recover.db")
    paths[-1].write_bytes(whole)
    Path(f"{paths[-1]}-wal").write_bytes(b"?")
    return paths


def try_audit(tally: Tally, linked: Linked, image: Path, folder: Path, has_valgrind: bool) -> None:
    """The audit of a list says of each file that it reads what the program says."""
    absent = {folder / "nothing.db": b"it can't be read\n", folder: b"it can't be read\n"}
    journal = {folder / "recover.db": b"a journal lies beside it\n"}
    paths = [image, *damaged(image, folder), *absent]
    wanted = b""
    for path in paths:
        answer, own = run(path, "SELECT 1"), {**absent, **journal}.get(path)
        wanted += f"{path}: ".encode() + (own or (b"ok\n" if answer.status == 0 else answer.err))
    runs = [("audit.c", started)] + [("audit.c under valgrind", watched)] * has_valgrind
    for what, how in runs:
        tally.add(what, same_problem(how(linked.audit, *paths), Run(1, wanted, b"")))


def try_python(tally: Tally, image: Path, sql: str) -> None:
    """One statement by Python under valgrind, which finds errors of Python's own: none of what it says may be of the library."""
    words = [*VALGRIND[:-1], sys.executable, TOP / "examples" / "rows.py", SHARED, image, sql]
    answer, wanted = started(*words, PYTHONMALLOC="malloc"), run(image, sql)
    is_blamed = b"libseleq" in answer.err
    tally.add(f"rows.py under valgrind, {sql!r}", "" if answer.out == wanted.out and not is_blamed else f"{answer.out!r} {answer.err[-2000:]!r}")


def try_turns(tally: Tally, answer: Run, image: Path, what: str) -> None:
    """Each of sixteen statements gave its slot what it gives alone."""
    tally.add(what, "" if answer.status == 0 else str(answer))
    for slot, sql in enumerate(BY_TURNS):
        mark = f"{slot}\t".encode()
        rows = b"".join(line[len(mark) :] + b"\n" for line in answer.out.split(b"\n") if line.startswith(mark))
        tally.add(f"{what}, slot {slot}, {sql!r}", same_problem(Run(0, rows, b""), run(image, sql)))


def try_handles(tally: Tally, linked: Linked, image: Path, has_valgrind: bool) -> None:
    """Calls out of order, statements by turns, and refused memory, natively and under valgrind."""
    for what, how, stride in [("", started, STRIDE)] + [(" under valgrind", watched, WATCHED_STRIDE)] * has_valgrind:
        answer = how(linked.handles, "order", image)
        tally.add(f"calls out of order{what}", same_problem(answer, Run(0, b"", b"")))
        try_turns(tally, how(linked.handles, "turns", image, *BY_TURNS), image, f"by turns{what}")
        for sql in (BY_TURNS[3], BY_TURNS[8], "SELECT name || '!' FROM item GROUP BY name"):
            answer = how(linked.handles, "refused", image, sql, stride)
            print(f"refused{what}, {sql!r}: {answer.out.decode(errors='replace').strip()[-300:]}", flush=True)
            tally.add(f"refused{what}, {sql!r}", "" if answer.status == 0 and not answer.err else str(answer))


def main() -> int:
    """Links what is there, and runs all."""
    tally, has_valgrind = Tally(), bool(shutil.which("valgrind"))
    build()
    for library in (ARCHIVE, SHARED):
        if not library.exists():
            give_up(f"there is no {library}: ./seleq --library builds it")
    if not has_valgrind:
        print("there is no valgrind: what it would find is not looked for")
    with tempfile.TemporaryDirectory() as room:
        folder, image = Path(room), Path(room, "shop.db")
        from_script(image, SHOP)
        linked = Linked.in_folder(folder)
        try_examples(tally, linked, image, folder, has_valgrind)
        try_audit(tally, linked, image, folder, has_valgrind)
        try_handles(tally, linked, image, has_valgrind)
        if has_valgrind:
            try_python(tally, image, BY_TURNS[3])
    return tally.finish()


if __name__ == "__main__":
    sys.exit(main())
