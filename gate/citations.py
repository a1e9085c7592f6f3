"""Which files of the crates cite which, and what a change of some of them concerns.

Of a source others see its interface alone: types, contracts and imports. A file whose interface, definitions or lemmas differ
concerns all that cite it, and these what cites them where they do so in what others see of them; the body of a function that
differs concerns that function alone. Names stand for what they may mean: a name that two files of a crate declare cites both.
"""

from __future__ import annotations

import re
from collections import defaultdict
from collections.abc import Iterable
from dataclasses import dataclass, field
from functools import cached_property
from pathlib import Path

from sources import functions_of, path_of

# Comments, and strings, in which their signs may stand.
COMMENT = {".rt": re.compile(r'(b?"(?:\\.|[^"\\])*")|//[^\n]*'), ".antt": re.compile(r'("[^"\n]*")|(?<!\S)--(?!\S)[^\n]*')}
# What leads to definitions and proofs: `Rattle.NAME.specs.FILE.{..}`, and `NAME::specs::FILE::..` in an attribute.
LOGIC = re.compile(r"\bRattle\.(\w+)\.(specs|proofs)((?:\.[\w'+-]+)*)(?:\.\{([^}]*)\})?(?: as (\w+))?")
IN_ATTRIBUTE = re.compile(r"\b(\w+)::(specs|proofs)((?:::[\w'+-]+)*)()()")
# A path that begins with a crate's name, to its end or to the end of its braces.
PATH = re.compile(r"(?<![\w:.])(\w+)(?:::([\w:]*(?:\{[^;]*\})?)| as (\w+))")
DECLARED = re.compile(r"\b(?:fn|struct|enum|trait|type|const|static|union)\s+(\w+)|\bimpl\b([^{;]*)\{")
USE = re.compile(r"\buse\s[^;]+;")
# What the kit makes of a crate's types and contracts, which stand in its sources.
MADE = ("declared", "contracts")


@dataclass(frozen=True)
class Text:
    """What a file says: what others see of it, and the bodies of its functions by their names."""

    seen: str
    bodies: dict[tuple[str, ...], str] = field(default_factory=dict)


def text_of(file: str, text: str) -> Text:
    """What a file of this path says, without comments."""
    text = COMMENT[Path(file).suffix].sub(lambda found: found[1] or "", text)
    if file.endswith(".antt"):
        return Text(" ".join(text.split()))
    source, bodies, seen, place = file.partition("/src/")[2], {}, [], 0
    for function in functions_of(text):
        bodies[tuple(path_of(function, f"src/{source}"))] = " ".join(text[function.body : function.end].split())
        if function.body >= place:
            seen.append(text[place : function.body])
            place = function.end
    return Text(" ".join("".join([*seen, text[place:]]).split()), bodies)


class House:
    """The files of the crates of a repository, by their paths from its top."""

    def __init__(self, top: Path) -> None:
        found = (it for part in ("src", "specs", "proofs") for it in top.glob(f"crates/*/{part}/**/*") if it.suffix in COMMENT)
        files = {file.relative_to(top).as_posix(): file.read_text(encoding="utf-8") for file in found}
        self.texts = {file: text_of(file, text) for file, text in files.items()}

    @cached_property
    def declared(self) -> dict[tuple[str, str], set[str]]:
        """The sources of a crate that declare an item, or have an impl of it, by the crate and the item's name."""
        files = defaultdict(set)
        for file, text in self.texts.items():
            if file.endswith(".rt"):
                crate = file.split("/")[1]
                files[crate, ""].add(file)
                for found in DECLARED.finditer(text.seen):
                    for name in [found[1]] if found[1] else re.findall(r"\w+", re.sub(r"<[^<>]*>", " ", found[2])):
                        files[crate, name].add(file)
        return files

    def cited(self, file: str, text: str) -> Iterable[tuple[set[str], set[str]]]:
        """The names under which a text of a file cites files of the house, with these files."""
        own, is_source = file.split("/")[1], file.endswith(".rt")
        for found in (it for form in (LOGIC, IN_ATTRIBUTE)[: 1 + is_source] for it in form.finditer(text)):
            owner, segments = own if found[1] == "crate" else found[1], re.findall(r"[\w'+-]+", found[3])
            names = {it.split(" as ")[-1].strip() for it in found[4].split(",")} if found[4] else {found[5] or (segments or [""])[-1]}
            yield names, self.logic_file(owner, found[2], segments)
        for found in PATH.finditer(text) if is_source else ():
            owner, path = own if found[1] == "crate" else found[1], found[2] or ""
            if (owner, "") in self.declared and not path.startswith(("specs", "proofs")):
                names = set(re.findall(r"\w+", path))
                files = {it for name in names for it in self.declared.get((owner, name), ())}
                yield names | ({found[3]} if found[3] else set()), files or self.declared[owner, ""]

    def logic_file(self, crate: str, part: str, segments: list[str]) -> set[str]:
        """The file that a path of definitions or proofs leads to: none where that is what the kit makes of a function."""
        is_made = segments[:1] and segments[0] in MADE
        root, suffix, segments = (f"crates/{crate}/src", ".rt", segments[1:]) if is_made else (f"crates/{crate}/{part}", ".antt", segments)
        for count in range(len(segments), 0, -1):
            file = f"{root}/{'/'.join(segments[:count])}{suffix}"
            if file in self.texts:
                return {file}
        return {f"{root}/lib.rt"} & set(self.texts) if is_made else set()

    def cites(self, file: str) -> tuple[set[str], set[str]]:
        """The files that a file cites in what others see of it, and all that it cites."""
        text = self.texts[file]
        imports = USE.findall(text.seen) if file.endswith(".rt") else []
        rest = USE.sub(" ", text.seen) if imports else text.seen
        words = set(re.findall(r"[\w']+", rest)) if imports else set()
        seen = {it for _, files in self.cited(file, rest) for it in files}
        whole = seen | {it for _, files in self.cited(file, " ".join(text.bodies.values())) for it in files}
        for names, files in self.cited(file, " ".join(imports)):
            whole |= files
            seen |= files if any(it in words or not re.fullmatch(r"[\w']*", it) for it in names) else set()
        return seen - {file}, whole - {file}

    @cached_property
    def citations(self) -> dict[str, tuple[set[str], set[str]]]:
        return {file: self.cites(file) for file in self.texts}

    def concerned(self, files: Iterable[str]) -> set[str]:
        """These files, and those that are seen to cite them, or what cites them so."""
        above = defaultdict(set)
        for file, (seen, _) in self.citations.items():
            for it in seen:
                above[it].add(file)
        found, left = set(), list(files)
        while left:
            file = left.pop()
            if file not in found:
                found.add(file)
                left += above[file]
        return found
