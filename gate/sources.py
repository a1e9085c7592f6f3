"""Finds the functions of a Rattle source: where each stands and where its body does."""

from __future__ import annotations

import re
from dataclasses import dataclass

IGNORED = re.compile(r'//[^\n]*|/\*.*?\*/|b?"(?:\\.|[^"\\])*"|b?\'(?:\\.|[^\'\\])\'', re.DOTALL)
OWNER = re.compile(r"\bimpl\b[^{};]*\{|\btrait\s+\w+[^{};]*\{")
HEAD = re.compile(r"\b((?:const\s+|unsafe\s+)*)fn\s+(\w+)")
BRACE = re.compile(r"[{}]")
CLAUSE = re.compile(r"\b(requires|ensures|ghost|decreases)\b[^{}]*$")


@dataclass(frozen=True)
class Function:
    """A function with a body. The places are those of characters: from `start` on stand its attributes and its head, from
    `body` on what is between its braces, and the closing brace stands before `end`."""

    name: str
    owner: str
    start: int
    body: int
    end: int
    is_const: bool


def functions_of(text: str) -> list[Function]:
    """The functions of a source in their order, those inside of others too."""
    plain = IGNORED.sub(lambda found: re.sub(r"[^\n]", " ", found[0]), text)
    owners = [(found[0], found.end(), closing(plain, found.end())) for found in OWNER.finditer(plain)]
    functions = []
    for head in HEAD.finditer(plain):
        body = body_behind(plain, head.end())
        if body is None:
            continue
        around = [owner for owner, first, last in owners if first <= head.start() < last]
        start = 1 + max(plain.rfind(sign, 0, head.start()) for sign in "{};")
        owner = around[-1] if around else ""
        functions.append(Function(head[2], owner, start, body, closing(plain, body), "const" in head[1]))
    return functions


def closing(text: str, place: int) -> int:
    """The place behind the brace that closes the one before this place."""
    depth = 1
    for brace in BRACE.finditer(text, place):
        depth += 1 if brace[0] == "{" else -1
        if not depth:
            return brace.end()
    return len(text)


def body_behind(text: str, place: int) -> int | None:
    """Where the body of the function begins whose name ends here: behind the first brace that opens no clause."""
    while True:
        brace, end = text.find("{", place), text.find(";", place)
        if brace < 0 or 0 <= end < brace:
            return None
        if not CLAUSE.search(text, place, brace):
            return brace + 1
        place = closing(text, brace + 1)


def path_of(function: Function, file: str) -> list[str]:
    """The names by which the prover may call a function of this file of src/, without the crate's: the module's, the
    type's (for an impl of a trait, those of both), and its own."""
    module = [name for name in file.removeprefix("src/").removesuffix(".rt").split("/") if name not in ("lib", "main", "mod")]
    plain = re.sub(r"\bwhere\b.*", " ", function.owner, flags=re.DOTALL)
    while re.search(r"<[^<>]*>", plain):
        plain = re.sub(r"<[^<>]*>", " ", plain)
    words = re.findall(r"\w+", plain)[1:]
    if "for" in words:
        place = words.index("for")
        owner = ["".join(words[place + 1 : place + 2] + words[place - 1 : place])]
    else:
        owner = words[-1:]
    return [*module, *owner, function.name]
