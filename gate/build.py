#!/usr/bin/env python3
"""Proves and builds crates and what is below them, over what earlier checks kept, several side by side.

    python3 gate/build.py [--jobs N] [--memory GB] [CRATE ..]     the crates named and all below them; without names all
    python3 gate/build.py --proved CRATE ..     static libraries, of what `rt ci` proved

What is built and of which no source differs is left alone. Of what waits for nothing those crates come first that stand at
the foot of the longest chain, as many at once as there are jobs and as their likely memory leaves room for; where fewer
are ready than jobs are idle, the first of them gets the rest. What comes of it is what `rt lib` and `rt run` leave, which find it built; but
there is no pass over all sources at once before it, for which they take more memory than for any proof.

On a terminal standard error has one line that tells how far the build is, elsewhere a line for each crate. It may be ended
at any time, and goes on from there: what was proved is kept in each crate's out/. The status is 1 where a crate isn't proved.
"""

from __future__ import annotations

import argparse
import copy
import os
import shutil
import signal
import subprocess
import sys
import tempfile
import threading
import time
from collections.abc import Callable
from dataclasses import dataclass
from functools import cache
from pathlib import Path

from kit import rt, with_one_sum

TOP = Path(__file__).resolve().parent.parent
# What the build of a crate takes from nothing with one job, in seconds of a processor and in megabytes: fitted to builds of today's
# crates, so that little depends on it.
SECONDS, SECONDS_A_FUNCTION = 25.0, 4.5
MEGABYTES, MEGABYTES_A_SECOND, MEGABYTES_A_KILOBYTE_BELOW = 460.0, 3.3, 0.33
# The share of the seconds that a crate takes of which an earlier build kept work, and that of the memory which a further job takes.
KEPT_SHARE, JOB_SHARE = 0.2, 0.5


@dataclass
class Task:
    """A crate that isn't built: what its build is likely to take, in seconds of a processor and in megabytes, and the seconds
    of the longest chain of tasks that begins with it."""

    crate: object
    seconds: float
    memory: float
    chain: float = 0.0
    state: str = "waits"
    jobs: int = 0
    said: str = ""

    @property
    def name(self) -> str:
        return self.crate.name

    def memory_with(self, jobs: int) -> float:
        """The likely memory of a build with so many jobs."""
        return self.memory * (1 + JOB_SHARE * (jobs - 1))


@cache
def kilobytes(folder: str) -> float:
    """The size of a crate's sources, definitions and proofs."""
    return sum(os.path.getsize(file) for file in rt.rtlib.files_of(folder)) / 1000


def task_of(crate) -> Task:
    """The task of building a crate."""
    seconds = SECONDS + SECONDS_A_FUNCTION * crate.count(rb"\bfn \w")
    below = sum(kilobytes(it.folder) for it in crate.below())
    memory = MEGABYTES + MEGABYTES_A_SECOND * seconds + MEGABYTES_A_KILOBYTE_BELOW * below
    return Task(crate, seconds * (KEPT_SHARE if crate.has_kept() else 1.0), memory)


def not_built(crates: list) -> list:
    """The crates of these that aren't built."""
    with with_one_sum():
        return [it for it in crates if not is_built(it)]


def tasks_of(crates: list) -> list[Task]:
    """The tasks of building crates, in their order, in which each stands after those below it."""
    tasks = {it.name: task_of(it) for it in crates}
    for task in reversed(tasks.values()):
        task.chain += task.seconds
        for dep in task.crate.deps:
            if dep.name in tasks:
                tasks[dep.name].chain = max(tasks[dep.name].chain, task.chain)
    return list(tasks.values())


class Schedule:
    """Which tasks wait, run and are done, with so many jobs and megabytes."""

    def __init__(self, tasks: list[Task], jobs: int, memory: float) -> None:
        self.tasks, self.jobs, self.memory = {it.name: it for it in tasks}, jobs, memory
        self.began, self.spent = time.time(), 0.0

    def those(self, state: str) -> list[Task]:
        return [it for it in self.tasks.values() if it.state == state]

    def ready(self) -> list[Task]:
        """The tasks that wait for no other, those with the longest chain first."""
        undone = {it.name for it in self.tasks.values() if it.state != "done"}
        ready = [it for it in self.those("waits") if not any(dep.name in undone for dep in it.crate.deps)]
        return sorted(ready, key=lambda it: -it.chain)

    def take(self) -> Task | None:
        """The next task, with its jobs; none where none is ready for which there is room."""
        ready, running = self.ready(), self.those("runs")
        idle, room = self.jobs - sum(it.jobs for it in running), self.memory - sum(it.memory_with(it.jobs) for it in running)
        fitting = [it for it in ready if it.memory <= room or not running]
        if idle <= 0 or not fitting:
            return None
        task, spare = fitting[0], max(idle - len(fitting), 0)
        while spare and task.memory_with(1 + spare) > room:
            spare -= 1
        task.state, task.jobs = "runs", 1 + spare
        return task

    def end(self, task: Task, is_well: bool, seconds: float) -> None:
        """Notes that a task has ended."""
        task.state = "done" if is_well else "failed"
        self.spent += seconds * task.jobs

    def is_over(self) -> bool:
        """Whether nothing runs and nothing more can."""
        return not self.those("runs") and not self.ready()

    def seconds_left(self) -> float:
        """How long the rest is likely to take, at the pace of what is done."""
        done, left = self.those("done"), self.those("waits") + self.those("runs")
        pace = self.spent / sum(it.seconds for it in done) if done else 1.0
        return pace * max(max((it.chain for it in left), default=0.0), sum(it.seconds for it in left) / self.jobs)


class Builder:
    """Builds the tasks of a schedule, and tells how far it is."""

    def __init__(self, schedule: Schedule, whole: int) -> None:
        self.schedule, self.whole, self.changed = schedule, whole, threading.Condition()
        self.is_terminal = sys.stderr.isatty()

    def run(self) -> bool:
        """Whether all tasks ended well."""
        lanes = [threading.Thread(target=self.work, daemon=True) for _ in range(self.schedule.jobs)]
        for it in lanes:
            it.start()
        while alive := [it for it in lanes if it.is_alive()]:
            self.show("")
            alive[0].join(1)
        self.end_line()
        return len(self.schedule.those("done")) == len(self.schedule.tasks)

    def work(self) -> None:
        """Builds one crate after the other."""
        while task := self.take():
            began, is_well = time.time(), False
            try:
                is_well = build_one(task)
            finally:
                with self.changed:
                    self.schedule.end(task, is_well, time.time() - began)
                    self.show(f"{task.name}: {task.state} after {time.time() - began:.0f} s")
                    self.changed.notify_all()

    def take(self) -> Task | None:
        """The next task, once there is one, or none where nothing more can be done."""
        with self.changed:
            while not (task := self.schedule.take()):
                if self.schedule.is_over():
                    return None
                self.changed.wait()
            return task

    def show(self, of_crate: str) -> None:
        """Tells how far the build is: always on a terminal, elsewhere with what is told of a crate."""
        done = self.whole - len(self.schedule.tasks) + len(self.schedule.those("done"))
        gone, left = time.time() - self.schedule.began, self.schedule.seconds_left()
        line = f"{done} of {self.whole} crates are built, {gone / 60:.0f} min gone, about {left / 60:.0f} min left"
        if self.is_terminal:
            print(f"\r\033[K{line}", end="", file=sys.stderr, flush=True)
        elif of_crate:
            print(f"{of_crate}; {line}", file=sys.stderr, flush=True)

    def end_line(self) -> None:
        if self.is_terminal:
            print("\r\033[K", end="", file=sys.stderr, flush=True)


def build_one(task: Task) -> bool:
    """Whether the task's crate is proved and built."""
    crate = task.crate
    return is_done(task, build_program if crate.is_program else build_static if crate.is_static else build_library)


def is_done(task: Task, build: Callable[..., int]) -> bool:
    """Whether a task's crate was built so. What the prover says is kept where it wasn't."""
    crate = copy.copy(task.crate)
    os.makedirs(f"{crate.folder}/out", exist_ok=True)
    with tempfile.TemporaryFile("w+", errors="replace") as crate.out:
        status = build(crate, ["--jobs", str(task.jobs)])
        crate.out.seek(0)
        task.said = crate.out.read() if status else ""
    return not status


def build_library(crate, flags: list[str]) -> int:
    return crate.build_rlib(flags, anew=False)


def build_static(crate, flags: list[str]) -> int:
    """Proves and compiles a static library, and makes of it one archive that needs no other and one shared library."""
    made, stamp, sources = made_by(crate), stamp_of(crate), crate.stamp()
    stamp.unlink(missing_ok=True)
    status = crate.compile(flags, alone_by(crate)) or join_archives(crate, made)
    if not status and sources == crate.stamp():
        stamp.write_text(sources + rt.rtlib.sum_of(f"{crate.folder}/{made}"), encoding="utf-8")
    return status


def build_checked(crate, flags: list[str]) -> int:
    """The same of what `rt ci` compiled. Where it took the proof of an earlier run, and compiled nothing, that is done here."""
    is_compiled = Path(crate.folder, alone_by(crate)).exists()
    return (0 if is_compiled else crate.compile(flags, alone_by(crate))) or join_archives(crate, made_by(crate))


def join_archives(crate, made: str) -> int:
    """Puts the kit's archives of C functions beside a static library's own, and links all into a shared one of its exports."""
    alone, shared = alone_by(crate), f"{made[:-2]}.so"
    Path(crate.folder, made).unlink(missing_ok=True)
    parts = [alone, *(f"{rt.KIT}/c/{name}.a" for name in ("liblibc_c", "libos_c"))]
    words = [f"create {made}", *(f"addlib {part}" for part in parts), "save", "end"]
    how = {"cwd": crate.folder, "stdout": crate.out, "stderr": subprocess.STDOUT, "text": True, "check": False}
    status = subprocess.run([f"{rt.KIT}/toolchain/bin/llvm-ar", "-M"], input="\n".join(words) + "\n", **how).returncode
    if status or not shutil.which("cc"):
        return status
    exports = f"{{ global: {crate.name.removesuffix('_c')}_*; local: *; }};\n"
    Path(crate.folder, "out", "exports").write_text(exports, encoding="utf-8")
    words = ["cc", "-shared", "-o", shared, "-Wl,--version-script=out/exports", "-Wl,--whole-archive", alone, "-Wl,--no-whole-archive"]
    return subprocess.run([*words, *parts[1:]], **how).returncode


def build_program(crate, flags: list[str]) -> int:
    """Proves, compiles and links a program as `rt run` does, with the stamp by which that finds it built."""
    made, stamp, sources = made_by(crate), stamp_of(crate), crate.stamp()
    stamp.unlink(missing_ok=True)
    words = ["--target", "x86_64-unknown-linux-gnu", "--toolchain", f"{rt.KIT}/toolchain", "-o", made, f"{made}.o"]
    words += [f"{rt.KIT}/c/libos_c.a", f"{rt.KIT}/c/liblibc_c.a"]
    status = crate.compile(flags, f"{made}.o") or crate.call(f"{rt.KIT}/bin/rattle-link", *words)
    if not status and sources == crate.stamp():
        stamp.write_text(sources + rt.rtlib.sum_of(f"{crate.folder}/{made}"), encoding="utf-8")
    return status


def made_by(crate) -> str:
    """What the build of a program or a static library makes: `seleq_c` is the library `seleq` of C."""
    return f"out/lib{crate.name.removesuffix('_c')}.a" if crate.is_static else f"out/{crate.name}"


def alone_by(crate) -> str:
    """What the kit makes of a static library: an archive of its own code."""
    return f"out/lib{crate.name}.a"


def stamp_of(crate) -> Path:
    """Where it stands of which sources and of which bytes a built program or static library is."""
    return Path(crate.folder, "out", f"{crate.name}.stamp")


def is_built(crate) -> bool:
    """Whether a crate is built of the sources that stand there."""
    if not crate.is_program and not crate.is_static:
        return crate.is_built()
    return rt.rtlib.text_of(str(stamp_of(crate))) == crate.stamp() + rt.rtlib.sum_of(f"{crate.folder}/{made_by(crate)}")


def build(names: list[str], jobs: int, memory: float) -> bool:
    """Whether the crates of these names, or all, and what is below them are built, now or before."""
    crates = rt.rtlib.crates_below(str(TOP))
    unknown = set(names) - {it.name for it in crates}
    if unknown:
        sys.exit(f"no crate has the name {' or '.join(sorted(unknown))}")
    wanted = {below.name for it in crates if it.name in names or not names for below in [it, *it.below()]}
    crates = [it for it in crates if it.name in wanted]
    if not not_built(crates):
        return True
    # Another build may end meanwhile, and leave less to do.
    held = rt.rtlib.lock(crates)
    builder = Builder(Schedule(tasks_of(not_built(crates)), jobs, memory), len(crates))
    is_well = builder.run()
    tell_of(builder.schedule.those("failed"))
    for it in held:
        os.close(it)
    return is_well


def build_over_proved(names: list[str], jobs: int) -> bool:
    """Whether the static libraries are made that `rt ci` proved, over the crates below them, for which it writes no stamps."""
    tasks = [Task(it, 0.0, 0.0, jobs=jobs) for it in rt.rtlib.crates_below(str(TOP)) if it.name in names]
    failed = [it for it in tasks if not is_done(it, build_checked)]
    tell_of(failed)
    return not failed


def tell_of(failed: list[Task]) -> None:
    """Shows what the prover says of crates that it doesn't prove."""
    for task in failed:
        print(f"{told_of(task.said)}\n{task.name} isn't proved", file=sys.stderr)


def told_of(said: str) -> str:
    """What the prover says of a crate that it doesn't prove: its first errors, or its last lines where it names none."""
    lines = said.rstrip("\n").split("\n")
    errors = [it for it in lines if "error" in it or ": not proved" in it]
    return "\n".join(it[:400] for it in errors[:20] or lines[-20:])


def stop(*_: object) -> None:
    """Ends the build, and with it the provers: the kit's guard sees to that."""
    print("\nended; what is proved is kept, and the next build goes on from there", file=sys.stderr, flush=True)
    os._exit(130)


def free_memory() -> float:
    """The megabytes that the machine has to give."""
    return (rt.rtlib.number_in("/proc/meminfo", r"MemAvailable:\s+(\d+)") or 8_000_000) / 1024


def read_words() -> argparse.Namespace:
    """The command line."""
    parser = argparse.ArgumentParser(description="Proves and builds crates and what is below them.")
    parser.add_argument("crates", nargs="*", help="the crates that are built, with what is below them (all)")
    parser.add_argument("--jobs", type=int, default=rt.processors(), help="how many provers run side by side")
    parser.add_argument("--memory", type=float, default=8.0, help="how many gigabytes they may take together (8)")
    parser.add_argument("--proved", action="store_true", help="make these static libraries of what `rt ci` proved")
    return parser.parse_args()


def main() -> int:
    """Builds what the command line asks for."""
    words = read_words()
    signal.signal(signal.SIGINT, stop)
    if words.proved:
        return 0 if build_over_proved(words.crates, words.jobs) else 1
    return 0 if build(words.crates, words.jobs, min(1000 * words.memory, free_memory())) else 1


if __name__ == "__main__":
    sys.exit(main())
