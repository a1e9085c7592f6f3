"""Which must-fail edits are tried by turns.

Always those that `always.txt` names, and those that what differs from the commit in the file `passed` concerns, which is one on
which the whole gate passed: an edit that differs; one of a function whose body or proofs differ; one in a source that cites
definitions, contracts or lemmas that differ (`citations.py`). Of the others those of a third of the modules, which the word of
the turn chooses: the hash of the commit that is tried. A module is a crate, or a folder of its sources; whole ones are chosen, since
the first edit of a crate costs the most. Where git or that commit isn't there, all are tried.
"""

from __future__ import annotations

import hashlib
import re
import subprocess
from pathlib import Path

from citations import House, text_of

FOLDER = Path(__file__).resolve().parent


def passed() -> str:
    """The commit on which the gate passed."""
    return (FOLDER / "passed").read_text(encoding="utf-8").strip()


def changed_files(top: Path) -> set[str] | None:
    """The files of a repository that differ from those on which the gate passed; None where that can't be told."""
    files: set[str] = set()
    for words in (["diff", "--name-only", "--no-renames", passed(), "--"], ["ls-files", "--others", "--exclude-standard"]):
        ran = subprocess.run(["git", "-C", str(top), *words], capture_output=True, text=True, check=False)
        if ran.returncode:
            return None
        files.update(ran.stdout.split("\n"))
    return files - {""}


def changed_crates(top: Path) -> set[str] | None:
    """The names of the crates in which files differ."""
    files = changed_files(top)
    return None if files is None else {found[1] for it in files if (found := re.match(r"crates/([^/]+)/", it))}


class Changes:
    """What differs in a repository from the commit on which the gate passed, and what it concerns."""

    def __init__(self, top: Path, files: set[str]) -> None:
        self.house, self.files = House(top), files
        # The functions whose bodies differ, by their sources, and the files of which all that cite them are concerned.
        self.bodies: dict[str, set[tuple[str, ...]]] = {}
        differing = {it for it in files if it in self.house.texts and self.differs(top, it)}
        self.concerned = self.house.concerned(differing)

    def differs(self, top: Path, file: str) -> bool:
        """Whether what others see of a file differs. Notes the functions whose bodies do."""
        ran = subprocess.run(["git", "-C", str(top), "show", f"{passed()}:{file}"], capture_output=True, check=False)
        old, new = text_of(file, ran.stdout.decode(errors="replace")), self.house.texts[file]
        self.bodies[file] = {name for name in new.bodies.keys() | old.bodies.keys() if new.bodies.get(name) != old.bodies.get(name)}
        return bool(ran.returncode) or old.seen != new.seen

    def concern(self, crate, edit) -> bool:
        """Whether an edit of a crate is to be tried again."""
        top = f"crates/{crate.name}"
        source, bodies = f"{top}/{edit.source}", self.bodies.get(f"{top}/{edit.source}", set())
        is_own = edit.function in bodies if edit.function else bool(bodies)
        cited = {source, *self.house.citations.get(source, (set(), set()))[1], *self.proofs_of(top, edit)}
        return is_own or f"{top}/must-fail/{edit.name}" in self.files or not cited.isdisjoint(self.concerned)

    def proofs_of(self, top: str, edit) -> set[str]:
        """The files of proofs of an edit's function, of the cycles of its source too; of the whole source where it is in none."""
        folder = edit.source.replace("src/", f"{top}/proofs/", 1).removesuffix(".rt") + "/"
        if edit.source in ("src/lib.rt", "src/main.rt"):
            folder = f"{top}/proofs/"
        own = {edit.function[-1]} if edit.function else set()
        found = (it for it in self.house.texts if it.startswith(folder))
        return {it for it in found if not own or any(part in own or part.startswith("+") for part in it.split("/"))}


class Turn:
    """A turn, by its word and what differs: without a word what that concerns alone, and every edit where that can't be told."""

    def __init__(self, word: str | None, changes: Changes | None) -> None:
        lines = (FOLDER / "always.txt").read_text(encoding="utf-8").split("\n")
        self.word, self.changes = word, changes
        self.always = {line.strip() for line in lines if line.strip() and not line.startswith("#")}

    def takes(self, crate, edit) -> bool:
        """Whether this turn tries the edit."""
        if self.concern(crate, [edit]):
            return True
        if self.word is None:
            return False
        chosen = hashlib.sha256(f"{self.word} {module_of(crate, edit)}".encode()).digest()
        return edit.name.removesuffix(".edit") in self.always or chosen[0] % 3 == 0

    def concern(self, crate, edits: list) -> bool:
        """Whether what differs concerns one of these edits."""
        return self.changes is None or any(self.changes.concern(crate, it) for it in edits)


def turn_of(top: Path, word: str | None) -> Turn:
    """The turn of this word in a repository."""
    files = changed_files(top)
    return Turn(word, None if files is None else Changes(top, files))


def module_of(crate, edit) -> str:
    """The module of which all edits are chosen together: a crate's, or that of a folder of its sources."""
    first = edit.source.split("/")[1].removesuffix(".rt") if edit.source.startswith("src/") else ""
    return f"{crate.name}/{first}" if Path(crate.folder, "src", first).is_dir() and first else crate.name
