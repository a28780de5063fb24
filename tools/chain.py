#!/usr/bin/env python3
# SPDX-License-Identifier: Apache-2.0
"""Proves crates side by side, lowest first, and keeps what passed for the gate of this machine.

    tools/chain.py [NAME ..]        proves these crates, or all, and those below them
    tools/chain.py --edits [NAME ..]  tries their edits of must-fail/ too
    tools/chain.py --runs [NAME ..]   plays their programs too, as both compilers made them, against their stdout, as the gate does last

It works on a copy of the sources as they stand when it starts. What `rt ci` proves of a crate, with its checks of the text, is done here by the
same functions; how many side by side is decided here: a proof gets up to four jobs, first those with the longest chain of others above them, and as
many proofs run as memory holds. Edits take what processors are left. What an earlier run passed is taken over, so a chain that was cut off goes
on from there. Above a crate that failed nothing is started. It prints a line as each crate ends; a folder, named at the start, has a log of each."""
import contextlib
import io
import os
import signal
import subprocess
import sys
import tempfile
import threading
import time
from collections.abc import Callable, Sequence
from concurrent.futures import FIRST_COMPLETED, Future, wait
from dataclasses import dataclass, field
from types import ModuleType

import kit
from processes import memory_below
from sources import TOP, copy_crates, crates_named, edits_of

MOST_JOBS = 4
# What a job more takes: this share of the memory of a check by one, and at most this many bytes, as the kit's texts have it.
SHARE_OF_A_JOB, MOST_OF_A_JOB = 0.6, 1_500_000_000
# The share of the free memory that is given out.
SHARE = 0.9
# How long the first check waits for memory that others hold, and how often that is looked at, in seconds.
PATIENCE, PAUSE = 120, 5
Key = tuple


class Logs(io.TextIOBase):
    """What is printed, by the crate that the printing thread works for."""

    def __init__(self, folder: str) -> None:
        super().__init__()
        self.folder, self.thread, self.texts = folder, threading.local(), {}

    def write(self, text: str) -> int:
        name = getattr(self.thread, "crate", "rt")
        self.texts[name] = self.texts.get(name, "") + text
        with open(os.path.join(self.folder, f"{name}.log"), "a", encoding="utf-8") as file:
            file.write(text)
        return len(text)


@dataclass
class Running:
    """A task that runs: what it is, since when, with how many jobs, and the memory that it may come to take."""

    key: Key
    began: float
    jobs: int
    memory: float


def memory_of(check: float, jobs: int) -> float:
    """The bytes that a check may come to take with this many jobs, of what it takes with one."""
    return check + (jobs - 1) * min(SHARE_OF_A_JOB * check, MOST_OF_A_JOB)


def is_filling(key: Key) -> bool:
    """Whether a task takes what the proofs leave free: one that tries edits."""
    return key[1] not in ("proof", "tests")


def lines_above(tasks: dict[Key, tuple]) -> dict[Key, int]:
    """Of each task its lines with those of the longest chain that waits for it. A task comes after those that it waits for."""
    above = dict.fromkeys(tasks, 0)
    for key in reversed([*tasks]):
        above[key] += tasks[key][1]
        for below in tasks[key][0]:
            above[below] = max(above[below], above[key])
    return above


@dataclass
class Lanes:
    """Runs the kit's tasks in place of its own `in_lanes`: each is what it waits for, its lines, its memory in bytes, and a call."""

    kit: ModuleType
    logs: Logs
    tell: Callable[[Key, object, float, int], None]
    idle_since: float = field(default_factory=time.monotonic)

    def __call__(self, tasks: dict[Key, tuple]) -> dict[Key, object]:
        """Runs all, each once those that it waits for have ended, and returns what each gave."""
        above, running, given = lines_above(tasks), {}, {}
        left = sorted(tasks, key=lambda key: (is_filling(key), -above[key]))
        with self.kit.ending():
            while left or running:
                self.start(tasks, left, running, given)
                if not running:
                    time.sleep(PAUSE)
                for future in wait(running, timeout=PAUSE, return_when=FIRST_COMPLETED).done:
                    ran = running.pop(future)
                    given[ran.key] = future.result()
                    self.idle_since = time.monotonic()
                    self.tell(ran.key, given[ran.key], self.idle_since - ran.began, ran.jobs)
        return given

    def start(self, tasks: dict[Key, tuple], left: list[Key], running: dict[Future, Running], given: dict[Key, object]) -> None:
        """Starts what is ready, as far as processors and memory reach. Where a proof waits for memory, nothing that comes later takes it."""
        for key in [key for key in left if all(below in given for below in tasks[key][0])]:
            _, lines, memory, call = tasks[key]
            is_empty = key[1] == "tests" and not lines
            jobs = 1 if is_empty else self.jobs_for(key, memory, running)
            if jobs:
                left.remove(key)
                much = 0 if is_empty else memory_of(memory, jobs)
                future = self.begin(key, call, given, jobs, self.niceness(key, left, running))
                running[future] = Running(key, time.monotonic(), jobs, much)
            elif not is_filling(key):
                return

    def niceness(self, key: Key, left: list[Key], running: dict[Future, Running]) -> int:
        """How far a task stands back: edits after all proofs, and a proof after those that began before it."""
        proofs = [other for other in [*left, *(ran.key for ran in running.values())] if other[1] == "proof"]
        return 5 * bool(proofs) if is_filling(key) else 2 * bool(running)

    def jobs_for(self, key: Key, memory: float, running: dict[Future, Running]) -> int:
        """How many jobs a task gets now, or 0 if it has to wait."""
        processors, checks = self.kit.processors(), [ran for ran in running.values() if ran.memory]
        if len(checks) >= processors:
            return 0
        to_come = max(0, sum(ran.memory for ran in checks) - memory_below(os.getpid()))
        room = SHARE * self.kit.free() - to_come
        most = min(MOST_JOBS, processors) if key[1] in ("proof", "seed") else 1
        fitting = [jobs for jobs in range(1, most + 1) if memory_of(memory, jobs) <= room]
        # what others hold may never come free, so the first check begins after a while
        has_waited = not checks and time.monotonic() - self.idle_since > PATIENCE
        return max(fitting, default=1 if has_waited else 0)

    def begin(self, key: Key, call: Callable, given: dict[Key, object], jobs: int, nice: int) -> Future:
        """Starts a task in a thread of its own, whose processes have this niceness more."""
        future: Future = Future()

        def work() -> None:
            self.logs.thread.crate = key[0]
            os.nice(nice)
            try:
                future.set_result(call(given, jobs))
            except BaseException as error:
                future.set_exception(error)

        threading.Thread(target=work, daemon=True).start()
        return future


@dataclass
class Teller:
    """Prints a line as each crate and each edit ends."""

    logs: Logs
    crates: int
    say: Callable[[str], None]
    done: int = 0

    def __call__(self, key: Key, gave: object, seconds: float, jobs: int) -> None:
        crate, part = key[:2]
        if part == "proof":
            self.done += 1
            is_kept = "is kept:" in self.logs.texts.get(crate, "")
            passed = "is kept" if is_kept else f"proved in {seconds:.0f} s by {jobs} jobs"
            self.say(f"{self.done} of {self.crates}: {crate} {passed if gave else f'NOT PROVED: {self.logs.folder}/{crate}.log'}")
        elif part == "edits" and gave:
            self.say(str(gave[1]))


def prove(room: str, crates: int, say: Callable[[str], None], runs: bool = True, otherwise: Sequence[str] = ("ci",)) -> tuple[int, str]:
    """Proves all crates of a copy, tries the edits in their must-fail/, and runs the programs if that is wanted. Returns the status and what
    `rt` printed at the end. If the kit has another form, `rt` is run with the words `otherwise`."""
    module = kit.load()
    if module is None:
        return by_command([*otherwise], room)
    folder = tempfile.mkdtemp(prefix="mserve-chain-")
    say(f"logs are in {folder}")
    logs, place = Logs(folder), os.getcwd()
    module.in_lanes = Lanes(module, logs, Teller(logs, crates, say))
    if not runs:
        module.run = lambda *_: True
    os.chdir(room)
    try:
        with tempfile.TemporaryDirectory(prefix="mserve-aside-") as aside, contextlib.redirect_stdout(logs):
            status = module.ci_over(aside, False, (), TOP)
    finally:
        os.chdir(place)
    return status, logs.texts.get("rt", "")


def is_kept() -> bool:
    """Whether what a chain passes is there for `rt ci` afterwards: the kit has the form that is known, and keeps what it proves, and the disk has room."""
    module = kit.load()
    return module is not None and module.Kept([]).has_room()


def by_command(words: list[str], room: str) -> tuple[int, str]:
    """Runs `rt` with these words in a copy, hands its output on, and returns its status and what it printed."""
    said = []
    how = {"stdin": subprocess.DEVNULL, "stdout": subprocess.PIPE, "stderr": subprocess.STDOUT, "text": True, "errors": "replace"}
    with subprocess.Popen([kit.command(), *words], cwd=room, **how) as ran:
        for line in ran.stdout:
            said.append(line)
            print(line, end="", flush=True)
    return ran.returncode, "".join(said)


def end_in_order() -> None:
    """Has a script that is stopped by SIGTERM remove its copies."""
    signal.signal(signal.SIGTERM, lambda *_: sys.exit(1))


def say(text: str) -> None:
    # while the kit's functions run, what is printed goes to the logs
    print(f"chain: {text}", file=sys.__stdout__, flush=True)


def main(words: list[str]) -> int:
    """Proves the crates that are named. The status is 0 if all passed, and 2 for words that it does not know."""
    names = [word for word in words if word not in ("--edits", "--runs")]
    crates = crates_named(names, "chain", __doc__)
    if crates is None:
        return 2
    with tempfile.TemporaryDirectory(prefix="mserve-chain-copy-") as room:
        copy_crates(crates, room, {crate: edits_of(crate, "must-fail") for crate in crates} if "--edits" in words else {})
        status, closing = prove(room, len(crates), say, runs="--runs" in words)
    faults = [line for line in closing.splitlines() if line.startswith("rt: FAILED") or "NOT REFUSED" in line]
    for line in faults:
        say(line.removeprefix("rt: "))
    say(f"{len(crates)} crates passed" if not status else "not all crates passed")
    return 1 if status else 0


if __name__ == "__main__":
    if {"-h", "--help"} & {*sys.argv[1:]}:
        print(__doc__)
        sys.exit(0)
    end_in_order()
    sys.exit(main(sys.argv[1:]))
