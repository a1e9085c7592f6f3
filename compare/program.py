"""How the Python scripts of this folder build and run the program `seleq`, and count what passed."""

from __future__ import annotations

import os
import re
import resource
import subprocess
import sys
from dataclasses import dataclass
from pathlib import Path

TOP = Path(__file__).resolve().parent.parent
CRATE = TOP / "crates" / "seleq"
PROGRAM = CRATE / "out" / "seleq"

# What one run may take: seconds, and bytes of address space.
MOST_SECONDS = 20
MOST_MEMORY = 512 << 20

FAULT_LINE = re.compile(rb"fault ([0-9]+): ([A-Za-z0-9]+)( [^\x00-\x1f\x7f]+)?\n")
FAULT_ROW = re.compile(r"\| ([0-9]+)\*? \| ([A-Za-z0-9]+)( [a-z]+)? \|")


def read_faults() -> dict[int, tuple[str, bool]]:
    """The faults of docs/FAULTS.md by number: the name, and whether the line carries a page, a name or a place."""
    rows = FAULT_ROW.findall((TOP / "docs" / "FAULTS.md").read_text())
    return {int(number): (name, carried != "") for number, name, carried in rows}


FAULTS = read_faults()


def fault_line(number: int, carried: object = "") -> bytes:
    """The line of a fault, as `fault 17: BadRecord 2`."""
    name, carries = FAULTS[number]
    return f"fault {number}: {name}{f' {carried}' if carries else ''}\n".encode()


@dataclass(frozen=True)
class Run:
    """What a run gave. The status is None where the time was over, and less than 0 after a signal."""

    status: int | None
    out: bytes
    err: bytes

    def fault(self) -> int:
        """The number of the fault's line, where standard error has exactly one that docs/FAULTS.md knows; else 0."""
        match = FAULT_LINE.fullmatch(self.err)
        if match is None or self.status != 1:
            return 0
        number = int(match[1])
        known = FAULTS.get(number)
        return number if known == (match[2].decode(), match[3] is not None) else 0

    def __str__(self) -> str:
        return f"status {self.status}, {len(self.out)} bytes {self.out[:60]!r}, on standard error {self.err[:200]!r}"


def limit_child() -> None:
    """Holds the child within its memory, and leaves no core file."""
    resource.setrlimit(resource.RLIMIT_AS, (MOST_MEMORY, MOST_MEMORY))
    resource.setrlimit(resource.RLIMIT_CORE, (0, 0))


def run(*words: object, **options: object) -> Run:
    """Runs the program on these words."""
    command = [str(PROGRAM), *(word if isinstance(word, bytes) else str(word) for word in words)]
    settings = {"stdin": subprocess.DEVNULL, "stdout": subprocess.PIPE, "stderr": subprocess.PIPE, **options}
    with subprocess.Popen(command, preexec_fn=limit_child, **settings) as child:
        try:
            out, err = child.communicate(timeout=MOST_SECONDS)
        except subprocess.TimeoutExpired:
            child.kill()
            out, err = child.communicate()
            return Run(None, out or b"", err or b"")
    return Run(child.returncode, out or b"", err or b"")


def rows_of(output: bytes) -> list[bytes] | None:
    """The rows of an output, each with its line feed; None where the last one isn't whole. A text may have line feeds."""
    rows, held = [], []
    inside = False
    for line in output.split(b"\n")[:-1]:
        held.append(line)
        inside ^= line.count(b"'") % 2 == 1
        if not inside:
            rows.append(b"\n".join(held) + b"\n")
            held = []
    return rows if not held and output[-1:] in (b"", b"\n") else None


def build() -> None:
    """Proves and builds the program, unless BUILT tells that this was just done, and runs it once. Where that fails, nothing
    is compared."""
    command = [str(PROGRAM)] if os.environ.get("BUILT") else ["rt", "run", "--"]
    words = [*command, "data/shop.db", "SELECT name FROM item"]
    built = subprocess.run(words, cwd=CRATE, stdin=subprocess.DEVNULL, capture_output=True, check=False)
    if built.returncode != 0:
        sys.stdout.write(built.stdout.decode(errors="replace") + built.stderr.decode(errors="replace"))
        give_up("the program isn't built")


def give_up(reason: str) -> None:
    """Ends the script where nothing can be compared."""
    print(reason)
    print("0 passed, 1 failed")
    sys.exit(1)


class Tally:
    """What passed and what failed."""

    def __init__(self) -> None:
        self.passed = 0
        self.failed = 0

    def add(self, what: str, problem: str) -> None:
        """Counts one comparison. An empty problem is none; each other is printed with what has it."""
        if problem:
            self.failed += 1
            print(f"{what}: {problem}", flush=True)
        else:
            self.passed += 1

    def finish(self) -> int:
        """Prints the last line, and answers the exit status."""
        print(f"{self.passed} passed, {self.failed} failed")
        return 1 if self.failed else 0


def refusal_problem(answer: Run, *wanted: bytes) -> str:
    """What is wrong with a refusal that has to be one of these lines, with nothing on standard output."""
    if answer.status == 1 and answer.out == b"" and answer.err in wanted:
        return ""
    return f"{answer}; wanted {b' or '.join(wanted)!r}"
