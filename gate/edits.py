#!/usr/bin/env python3
"""Tries the must-fail edits, several in one check where each can be told apart, and several checks side by side.

Run at the top of the repository, after its crates were proved and built, with the names of crates or none for all. Each
edit has a line; the last line is 'N passed, M failed'.

An edit passes where the prover refuses it. Edits of the bodies of different functions are written into one copy of the
crate, and the check is asked for these functions alone. Such an edit counts as refused only where a goal of this very
function's contract isn't proved: one that says what holds when it returns. A function that is blamed for another goal or
for a function that it calls is tried again in a further check. What is left, what stands in no body, and all edits of a
check that ended in another way, are tried one at a time on a fresh copy by the kit's own judgement of an edit.

The first check of a crate leaves the work of its definitions and lemmas for the others. Its other functions are proved
again only where an edit is tried alone, since that judgement is one of the whole crate; that it is proved as it stands
is what `rt ci` has found before.

Where a time is given, no check begins behind it: edits that were not tried by then neither pass nor fail.
"""

from __future__ import annotations

import argparse
import os
import re
import shutil
import subprocess
import sys
import tempfile
import threading
import time
from concurrent.futures import ThreadPoolExecutor
from dataclasses import dataclass
from itertools import takewhile
from pathlib import Path

from kit import rt
from sources import functions_of, path_of
from turns import Turn, turn_of

# How many edits one check takes. More save little, since each one's own failing proof remains.
MOST_IN_ONE = 8
# What says that a proof names what an edit took away, which says little of the contract.
NAMES = re.compile(r"has no field|is not in scope|has no `|was not admitted")


@dataclass(frozen=True)
class Edit:
    """An edit, the last file that it changes, and the function in whose body all of it stands, by its names from that of its file
    on: a method's are the file's, its type's (for an impl of a trait, those of both) and its own."""

    file: str
    source: str
    function: tuple[str, ...] | None
    is_method: bool = False

    @property
    def name(self) -> str:
        return os.path.basename(self.file)

    @property
    def word(self) -> str:
        """The end of the name that the prover has for the function: that of a method begins with the file of its type."""
        return "::".join(self.function[-2:] if self.is_method else self.function)


@dataclass(frozen=True)
class Outcome:
    """What came of an edit: whether it was refused, the line that says so, and whether it was tried at all."""

    refused: bool
    line: str
    was_tried: bool = True

    @staticmethod
    def judged(verdict: str | bool, line: str) -> Outcome:
        """The kit's own verdict, which is a word, or of some kits whether the edit is refused."""
        return Outcome(verdict in [getattr(rt, word, True) for word in ("REFUSED", "AT_LIMIT")], line)


class Room:
    """A copy of a crate with the work that its check kept, for one check. A kept file that the check writes is a new one,
    so that hard links serve."""

    def __init__(self, crate, kept: Path) -> None:
        self.crate = crate
        self.folder = Path(tempfile.mkdtemp(prefix="edits-", dir=os.environ.get("EDITS_ROOM")))
        self.kept = self.folder / "kept"
        for part in rt.rtlib.PARTS:
            if os.path.isdir(f"{crate.folder}/{part}"):
                shutil.copytree(f"{crate.folder}/{part}", self.folder / part)
        self.kept.mkdir()
        if kept.exists():
            subprocess.run(["cp", "-al", f"{kept}/.", self.kept], check=True)

    def __enter__(self) -> Room:
        return self

    def __exit__(self, *_: object) -> None:
        shutil.rmtree(self.folder, ignore_errors=True)

    def check(self, functions: list[str]) -> tuple[int, list[str]]:
        """Checks these functions, or all where there are none: the exit status, and what the prover says."""
        words = [rt.rtlib.RATTLE, "check", *self.crate.words(["--jobs", "1"], keeps=False), "--incremental", str(self.kept)]
        for function in functions:
            words += ["--only", function]
        how = {"cwd": self.folder, "stdin": subprocess.DEVNULL, "stdout": subprocess.PIPE, "stderr": subprocess.STDOUT}
        ran = subprocess.run([*rt.rtlib.guarded(), *words], errors="replace", check=False, **how)
        return ran.returncode, ran.stdout.rstrip("\n").split("\n")


def edit_of(edit: str, folder: str) -> Edit:
    """An edit with the function in whose body all of it stands."""
    file, found = "", set()
    for line in Path(edit).read_text(encoding="utf-8").split("\n"):
        if line.startswith("file: "):
            file = line.removeprefix("file: ").strip()
        elif line.startswith("old: "):
            found.add(function_around(folder, file, line.removeprefix("old: ")))
    return Edit(edit, file, *(found.pop() if len(found) == 1 else (None, False)))


def function_around(folder: str, file: str, old: str) -> tuple[tuple[str, ...] | None, bool]:
    """The function in whose body a text of a file stands, if there is one, and whether it is a method."""
    text = Path(folder, file).read_text(encoding="utf-8") if file.startswith("src/") else ""
    first = text.find(old)
    around = [it for it in functions_of(text) if it.body <= first and first + len(old) < it.end]
    if not around or around[-1].is_const:
        return None, False
    return tuple(path_of(around[-1], file)), bool(around[-1].owner)


def own_refusal(edit: Edit, room: Room, lines: list[str]) -> str | None:
    """The prover's line that a goal of the contract of the edit's function isn't proved."""
    blamed = re.compile(rf"fn {re.escape(room.crate.name)}::((?:.*::)?{re.escape(edit.word)}): (?:no proof|not proved)")
    names = [found[1] for line in lines if (found := blamed.match(line))]
    if len(names) != 1:
        return None
    in_proof = re.compile(rf"\./proofs/{re.escape(names[0].replace('::', '/'))}/\S+: error: `returns[^`]*`: ")
    in_source = re.compile(r"note: (?P<file>src/\S+?):(?P<line>\d+):\d+: it is not proved that what the function ensures holds")
    for at, line in enumerate(lines):
        proof, source = in_proof.match(line), in_source.match(line)
        if proof and not NAMES.search(whole_message(lines, at)):
            return line
        if source and function_at(room, source["file"], int(source["line"])) == edit.function:
            return line
    return None


def whole_message(lines: list[str], at: int) -> str:
    """The message that begins at a line, with the indented lines after it, on which its end may be."""
    return " ".join([lines[at], *(it.strip() for it in takewhile(lambda it: it.startswith(" "), lines[at + 1 :]))])


def function_at(room: Room, file: str, line: int) -> tuple[str, ...] | None:
    """The names of the innermost function that stands at the line."""
    text = (room.folder / file).read_text(encoding="utf-8")
    around = [it for it in functions_of(text) if text.count("\n", 0, it.start) < line <= text.count("\n", 0, it.end) + 1]
    return tuple(path_of(around[-1], file)) if around else None


class Trial:
    """The edits of one crate, which take a slot for each check."""

    def __init__(self, crate, edits: list[Edit], slots: threading.Semaphore, kept: Path | None, until: float) -> None:
        self.crate, self.slots, self.began, self.until = crate, slots, time.time(), until
        self.edits = edits
        # What the checks begin with, and whether it has the proofs of all functions.
        self.kept = kept or Path(tempfile.mkdtemp(prefix="kept-", dir=os.environ.get("EDITS_ROOM")))
        self.is_lent = self.is_whole = kept is not None
        self.proving = threading.Lock()

    def run(self) -> list[Outcome]:
        """Tries all edits, and answers what came of each."""
        refused = self.try_together([it for it in self.edits if it.function])
        left = [it for it in self.edits if it.name not in refused]
        with ThreadPoolExecutor(len(left) or 1) as pool:
            outcomes = dict(zip([it.name for it in left], pool.map(self.try_alone, left)))
        if not self.is_lent:
            shutil.rmtree(self.kept, ignore_errors=True)
        print(f"{self.crate.name}: {len(self.edits)} edits, {len(left)} alone, {time.time() - self.began:.0f} s", flush=True)
        return [outcomes.get(it.name) or Outcome(True, self.told(it, refused[it.name])) for it in self.edits]

    def told(self, edit: Edit, why: str) -> str:
        return f"must-fail {self.crate.name}/{edit.name}: refused, as it must be: {why[:160]}"

    def is_late(self) -> bool:
        """Whether no further check begins."""
        return time.time() >= self.until

    def keep(self, room: Room) -> None:
        """Has the further checks begin with what this one kept."""
        if not self.is_lent:
            shutil.rmtree(self.kept)
            room.kept.rename(self.kept)

    def prove_whole(self) -> bool:
        """Sees to it that what the checks begin with has all proofs of the crate as it stands."""
        with self.proving:
            if not self.is_whole:
                with self.slots, Room(self.crate, self.kept) as room:
                    self.is_whole = room.check([])[0] == 0
                    self.keep(room)
            return self.is_whole

    def try_together(self, edits: list[Edit]) -> dict[str, str]:
        """Tries edits several at a time, as long as that refuses some: the reasons of those that were refused."""
        refused: dict[str, str] = {}
        is_first = not self.is_lent
        while edits:
            batches, edits = in_batches(edits), []
            tried = [self.try_batch(batches[0], is_kept=True)] if is_first else []
            with ThreadPoolExecutor(len(batches)) as pool:
                tried += pool.map(self.try_batch, batches[len(tried) :])
            is_first = False
            for batch, found in zip(batches, tried):
                refused |= found
                edits += [it for it in batch if it.name not in found] if found else []
        return refused

    def try_batch(self, batch: list[Edit], is_kept: bool = False) -> dict[str, str]:
        """Tries edits in one check: the reasons of those that were refused by goals of their own contracts."""
        if not batch:
            return {}
        with self.slots, Room(self.crate, self.kept) as room:
            if self.is_late():
                return {}
            changed = {}
            for edit in batch:
                texts, why = rt.read_edit(edit.file, room.folder)
                if why:
                    return {}
                for path, text in texts.items():
                    (room.folder / path).write_text(text, encoding="utf-8")
                    changed[path] = text
            status, lines = room.check([it.word for it in batch])
            is_read = status == 1 and re.fullmatch(r"only=\d+ proved=\d+", lines[-1]) and not any(rt.unread(it, changed) for it in lines)
            reasons = {it.name: own_refusal(it, room, lines) for it in batch} if is_read else {}
            if is_kept:
                self.keep(room)
        unknown = [it for it in batch if any(f"`{it.word}`" in line for line in lines if line.startswith("rattle: error"))]
        if unknown:
            return self.try_batch([it for it in batch if it not in unknown], is_kept)
        return {name: why for name, why in reasons.items() if why}

    def try_alone(self, edit: Edit) -> Outcome:
        """Tries one edit by the kit's own judgement: over kept work, and from nothing where it isn't refused so."""
        if not self.is_late() and not self.prove_whole():
            return Outcome(False, f"must-fail {self.crate.name}/{edit.name}: NOT TRIED: the crate itself isn't proved")
        with self.slots:
            if self.is_late():
                return Outcome(True, f"must-fail {self.crate.name}/{edit.name}: left, as the time was up", was_tried=False)
            with Room(self.crate, self.kept) as room:
                outcome = Outcome.judged(*rt.must_fail(self.crate, edit.file, ["--jobs", "1"], str(room.kept)))
            return outcome if outcome.refused else Outcome.judged(*rt.must_fail(self.crate, edit.file, ["--jobs", "1"]))


def in_batches(edits: list[Edit]) -> list[list[Edit]]:
    """The edits in batches, of each function one at most."""
    batches: list[list[Edit]] = []
    for edit in edits:
        for batch in batches:
            if len(batch) < MOST_IN_ONE and all(it.function != edit.function for it in batch):
                batch.append(edit)
                break
        else:
            batches.append([edit])
    return batches


def kept_work(crate) -> Path:
    """What the crate's own checks kept, once the libraries below it are built."""
    if any(below.build_rlib(["--jobs", "1"], anew=False) for below in crate.below()):
        sys.exit(f"{crate.name}: the libraries below it aren't proved")
    return Path(crate.folder, "out", "incremental")


def read_words() -> argparse.Namespace:
    """The command line."""
    parser = argparse.ArgumentParser(description="Tries the must-fail edits.")
    parser.add_argument("crates", nargs="*", help="the crates whose edits are tried (all)")
    parser.add_argument("--lanes", type=int, default=rt.processors(), help="how many checks run side by side")
    parser.add_argument("--kept", action="store_true", help="over what the crates' own checks kept: no verdict of the gate")
    parser.add_argument("--changed-in", type=Path, help="not all: those that concern what differs in this repository")
    parser.add_argument("--turn", help="with these those that are always tried and a third of the others, which this word chooses")
    parser.add_argument("--until", type=float, default=float("inf"), help="begin no check behind this time, in seconds of the epoch")
    return parser.parse_args()


def main() -> int:
    """Tries the edits that the command line asks for."""
    words = read_words()
    crates = [it for it in rt.rtlib.crates_below(os.getcwd()) if not words.crates or it.name in words.crates]
    found = {it: rt.edits_of(it) for it in crates}
    for file in (file for _, bad in found.values() for file in bad):
        print(f"{file}: no edit, by its name or its place")
    turn = turn_of(words.changed_in, words.turn) if words.changed_in else Turn(None, None)
    edits = {crate: [edit_of(it, crate.folder) for it in good] for crate, (good, _) in found.items()}
    chosen = {crate: [it for it in edits[crate] if turn.takes(crate, it)] for crate in crates}
    # What changed comes first, since the time may end the turn; and a large crate takes the longest, so that it begins first.
    order = sorted((it for it in crates if chosen[it]), key=lambda it: (not turn.concern(it, chosen[it]), -it.count(rb"\n")))
    slots = threading.Semaphore(words.lanes)
    trials = [Trial(it, chosen[it], slots, kept_work(it) if words.kept else None, words.until) for it in order]
    # A crate's kept work stays on the disk until its last edit is tried: few crates are begun at once, as many as the slots need.
    with ThreadPoolExecutor(words.lanes + 2) as pool:
        outcomes = [it for tried in pool.map(Trial.run, trials) for it in tried]
    # What failed stands at the end, where it is seen first.
    for it in sorted(outcomes, key=lambda it: not it.refused):
        print(it.line)
    tried, known = [it for it in outcomes if it.was_tried], sum(len(good) for good, _ in found.values())
    passed = sum(it.refused for it in tried)
    failed = len(tried) - passed + sum(len(bad) for _, bad in found.values())
    print(f"{len(tried)} of {known} edits were tried")
    print(f"{passed} passed, {failed} failed")
    return 1 if failed else 0


if __name__ == "__main__":
    sys.exit(main())
