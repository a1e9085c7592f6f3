"""What commands take, as the scripts of this folder measure it."""

from __future__ import annotations

import os
import re
import subprocess
import time
from dataclasses import dataclass
from pathlib import Path

from program import PROGRAM, give_up

# How many pages seleq keeps.
CACHE = 256


@dataclass(frozen=True)
class Cost:
    """The least of what some runs took: seconds on the clock and of the processor."""

    clock: float = float("inf")
    processor: float = float("inf")

    def least(self, other: Cost) -> Cost:
        """The less of each."""
        return Cost(min(self.clock, other.clock), min(self.processor, other.processor))


@dataclass(frozen=True)
class Command:
    """A command that is measured, the status that it has to end with, and the file of its standard input, if it has one."""

    name: str
    words: list[str]
    status: int = 0
    given: str = os.devnull


def measure(command: Command) -> Cost:
    """Runs a command once."""
    with open(command.given, "rb") as given, open(os.devnull, "wb") as nothing:
        began = time.perf_counter()
        child = subprocess.Popen(command.words, stdin=given, stdout=nothing, stderr=nothing)
        _, status, usage = os.wait4(child.pid, 0)
        clock = time.perf_counter() - began
        child.returncode = os.waitstatus_to_exitcode(status)
    if child.returncode != command.status:
        give_up(f"{command.words} ended with status {child.returncode}")
    return Cost(clock, usage.ru_utime + usage.ru_stime)


def measure_all(commands: list[Command], runs: int) -> dict[str, Cost]:
    """Runs all commands in turn, so often, and answers the least cost of each."""
    costs = {command.name: Cost() for command in commands}
    for _ in range(runs):
        for command in commands:
            costs[command.name] = costs[command.name].least(measure(command))
    return costs


def peak_of(command: Command) -> int:
    """The most bytes of memory that a command had when it wrote its output, of which a pipe holds back a page."""
    peak = 0
    with subprocess.Popen(command.words, stdin=subprocess.DEVNULL, stdout=subprocess.PIPE, pipesize=4096) as child:
        while child.stdout.read1():
            told = re.search(r"VmHWM:\s+([0-9]+) kB", Path(f"/proc/{child.pid}/status").read_text())
            peak = max(peak, int(told[1]) * 1024 if told else 0)
    return peak


def sqlite(path: Path, *texts: str) -> list[str]:
    """The words that have sqlite3 answer texts over a file."""
    return ["sqlite3", "-batch", "-readonly", "-quote", str(path), *texts]


def seleq(path: Path, text: str) -> list[str]:
    """The words that have seleq answer a text over a file."""
    return [str(PROGRAM), "--cache", str(CACHE), str(path), text]


def met(holds: bool) -> str:
    """Whether a target is met, as a word."""
    return "met" if holds else "missed"
