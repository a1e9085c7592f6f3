"""The kit's command `rt` as a module: how it reads a must-fail edit, calls the prover, and judges one edit."""

from __future__ import annotations

import importlib.machinery
import importlib.util
import os
import shutil
import sys
import tempfile
import threading
from collections.abc import Iterator
from contextlib import contextmanager
from types import ModuleType


def load() -> ModuleType:
    """The command, which is a Python script, with the module `rtlib` beside it."""
    sys.dont_write_bytecode = True
    found = shutil.which("rt")
    if found is None:
        sys.exit("the kit's command rt is not on the PATH")
    loader = importlib.machinery.SourceFileLoader("kit_rt", os.path.realpath(found))
    module = importlib.util.module_from_spec(importlib.util.spec_from_loader("kit_rt", loader))
    loader.exec_module(module)
    # Its first call sets a signal's handler, which only the main thread may.
    module.rtlib.guarded()
    sum_once(module.rtlib.Crate)
    list_once(module.rtlib.Crate)
    compile_static(module)
    return module


# The sums of crates that one sum, or one look at several crates, has made so far.
SUMS = threading.local()


@contextmanager
def with_one_sum() -> Iterator[None]:
    """Has the sum of each crate's sources be made once in what follows, in which no source may change."""
    SUMS.held = {}
    try:
        yield
    finally:
        SUMS.held = None


def sum_once(crates: type) -> None:
    """Has one sum of a crate's sources take that of each crate below it once. By itself the command makes it anew on each way down
    to that crate, and with each crate of a chain there are twice as many ways."""
    whole = crates.stamp

    def stamp(crate) -> str:
        sums = getattr(SUMS, "held", None)
        if sums is None:
            with with_one_sum():
                return stamp(crate)
        if crate.folder not in sums:
            sums[crate.folder] = whole(crate)
        return sums[crate.folder]

    crates.stamp = stamp


def list_once(crates: type) -> None:
    """Has a crate list those below it once. By itself the command lists them anew on each way down, of which there are as many as
    above."""
    whole = crates.below

    def below(crate) -> list:
        held = crate.__dict__.get("held_below")
        if held is None or held[0] != len(crate.deps):
            held = crate.held_below = (len(crate.deps), whole(crate))
        return list(held[1])

    crates.below = below


def compile_static(module: ModuleType) -> None:
    """Has the gate compile a static library of what its check proved, as it compiles a program. By itself the command only checks it,
    and a build after that would prove it once more."""
    crates, rattle, kit = module.Crate, module.rtlib.RATTLE, module.KIT
    whole = crates.ci

    def ci(crate, flags: list[str], tests: bool) -> int:
        if tests or not crate.is_static:
            return whole(crate, flags, tests)
        words = crate.words(flags, keeps=False)
        with tempfile.TemporaryDirectory(prefix="static-") as room:
            status = crate.prove(["check", *words, "-o", f"{room}/checked"])
            for flag in ("--logic-built", "--jobs"):
                at = words.index(flag)
                words = [*words[:at], *words[at + 2 :]]
            words += ["--crate-checked", f"{room}/checked", "--toolchain", f"{kit}/toolchain", "--backend", "llvm"]
            return status or crate.call(rattle, "build", *words, "-o", f"out/lib{crate.name}.a")

    crates.ci = ci


rt = load()
