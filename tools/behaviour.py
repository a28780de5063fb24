#!/usr/bin/env python3
# SPDX-License-Identifier: Apache-2.0
"""Runs the tests of behaviour, those of tests/, clients/, front/ and packaging/, over the built program, in two stages: first tests that measure a time
or that others would notice, one after another. Then all others side by side: a pytest process for each file of the front, one for tests of tests/ that
wait more than they compute, one for the package, one for each file of the clients, and two for each processor. Those of the front wait for timers most of
their time, and fail on a machine that is too busy: so of them as many run at once as there are processors, each counts as half a processor, and the others
have the rest.

    tools/behaviour.py [--quick] [--count N] [WORD ..]    draws N times as many cases; hands words on to pytest, as `-k isolation`
    tools/behaviour.py --packages                         runs nothing: says whether a package is missing

`--quick` leaves out cases that are marked `long`. Each case that pytest finds has to be run once, so a mark that hides one from all stages, or puts
it into two, is a failure.

A case that failed is run again at the very end, alone, if time may have been why: a process has a part in it, and it is not one of those that compute.
If it passes then, it counts as passed, and is printed with why it failed. More than three such cases are a failure.

It needs Debian's own python3 with python3-pytest and python3-hypothesis; the clients' tests and tools/python_rules.py need more packages, and the command
that installs them is printed if one is missing. Of each process it says what it took by the clock and of a processor; at the end stands how many cases each
file has and how long they took; the last line is 'N passed, M failed'."""
import argparse
import os
import re
import shutil
import signal
import subprocess
import sys
import tempfile
import time
import xml.etree.ElementTree as ElementTree
from collections import Counter, defaultdict
from collections.abc import Collection
from concurrent.futures import FIRST_COMPLETED, Future, ThreadPoolExecutor, wait
from dataclasses import dataclass, field
from pathlib import Path

from running import TOP

# Another python3 may come first on the path; this one sees the packages.
PYTHON = "/usr/bin/python3"
MODULES = {"pytest": "python3-pytest", "hypothesis": "python3-hypothesis", "prompt_toolkit": "python3-prompt-toolkit", "rich": "python3-rich",
           "aiohttp": "python3-aiohttp", "argon2": "python3-argon2", "crc32c": "python3-crc32c", "flake8": "flake8", "mypy": "mypy"}
INSTALL = ("apt-get install python3-pytest python3-hypothesis python3-prompt-toolkit python3-rich fis-gtm groff-base gcc python3-aiohttp python3-argon2 "
           "python3-crc32c python3-psycopg postgresql flake8 mypy "
           "python3-selenium chromium chromium-driver python3-seccomp lintian systemd openssl curl iproute2")
SLOWEST = 10
# The folders of tests; each but the first has a `pytest.ini` of its own, beside it.
TESTS, CLIENTS, FRONT, PACKAGING = SUITES = ("tests", "clients/tests", "front/tests", "packaging/tests")
# Those that draw their cases.
COUNTED = (TESTS, CLIENTS, FRONT)
# Files that take long begin first, so that none of them is left alone at the end. Nothing rests on that but the time.
FIRST = {CLIENTS: ("shell", "globals", "routines", "gtm"), FRONT: ("matrix", "table", "standby", "replay", "sign_on", "hostile", "page", "machines")}
# This many parts the cases of tests/ that compute have for each processor, so that no part is much longer than another.
PARTS = 2
# Halves of processors that a part takes: one if it waits most of its time.
WAITS, COMPUTES = 1, 2
# pytest ends with this status if no case is left by its words.
NO_CASE = 5
# What tools/started.py says of a case: by which word it is run, and that a process has a part in it.
NODE, PROCESS = "node", "process"
# This many cases may need a second try, and this many that failed are given one: where more did, it is no matter of time.
MOST_AGAIN, MOST_TRIED = 3, 10


def pytest_words(suite: str) -> list[str]:
    """The words that run pytest with the settings of a folder of tests."""
    config = os.path.join(os.path.dirname(suite), "pytest.ini")
    return [PYTHON, "-m", "pytest", "-q", "-c", config, "--rootdir", TOP, "-p", "no:cacheprovider", "-p", "tools.started"]


@dataclass
class Part:
    """A pytest process: its name, the folder of its tests, what it is given, where it writes, how many halves of processors it takes, and whether its cases
    compute alone, whatever the time; once it has ended, its status, and the seconds that it took by the clock and, with all that it started,
    of a processor."""
    name: str
    suite: str
    words: list[str]
    folder: str
    halves: int
    computes: bool = False
    status: int = field(default=0, init=False)
    clock: float = field(default=0, init=False)
    processor: float = field(default=0, init=False)

    def path(self, kind: str) -> str:
        """The path of one of its files."""
        return os.path.join(self.folder, f"{self.name}.{kind}")

    def run(self) -> None:
        """Runs it to its end; what it prints goes to a file."""
        began = time.monotonic()
        words = [*pytest_words(self.suite), f"--junitxml={self.path('xml')}", *self.words]
        with open(self.path("log"), "wb") as log:
            process = subprocess.Popen(words, cwd=TOP, env=environment(self.folder), stdin=subprocess.DEVNULL, stdout=log, stderr=subprocess.STDOUT)
            _, status, used = os.wait4(process.pid, 0)
        process.returncode = self.status = os.waitstatus_to_exitcode(status)
        self.clock, self.processor = time.monotonic() - began, used.ru_utime + used.ru_stime


def environment(folder: str) -> dict[str, str]:
    """The variables of a pytest process: what it and the commands that it starts import is compiled once for all of them, into this folder, so that
    nothing is left in the tree, even if the variables had each start compile it again."""
    kept = {name: value for name, value in os.environ.items() if name != "PYTHONDONTWRITEBYTECODE"}
    return {"PYTHONPYCACHEPREFIX": os.path.join(folder, "compiled"), **kept}


@dataclass
class Stage:
    """Parts that are yet to run, side by side as far as this many halves of processors go."""
    parts: list[Part]
    halves: int

    def next(self, running: Collection[Part]) -> Part | None:
        """The part that begins beside those that run, if one does."""
        free = self.halves - sum(part.halves for part in running)
        is_full = sum(part.suite == FRONT for part in running) >= self.halves // COMPUTES
        return next((part for part in self.parts if part.halves <= free and not (is_full and part.suite == FRONT)), None)


@dataclass(frozen=True)
class Failed:
    """A case that failed, and may pass at a second try: the folder of its tests, the word by which pytest runs it, and why it failed."""
    suite: str
    node: str
    why: str


@dataclass
class Totals:
    """What all parts found: how many cases ended in which way, how many each file has, and the seconds of each case by its name; the parts; and the cases
    that failed and may be tried again."""
    ended: Counter[str] = field(default_factory=Counter)
    files: Counter[str] = field(default_factory=Counter)
    seconds: dict[str, float] = field(default_factory=dict)
    parts: list[Part] = field(default_factory=list)
    failed: list[Failed] = field(default_factory=list)

    def read(self, part: Part) -> None:
        """Adds the cases that a part wrote down."""
        for case in ElementTree.parse(part.path("xml")).iter("testcase"):
            kinds = {child.tag for child in case}
            self.ended["failed" if kinds & {"failure", "error"} else "skipped" if "skipped" in kinds else "passed"] += 1
            about = {one.get("name"): one.get("value") for one in case.iter("property")}
            if kinds & {"failure", "error"} and PROCESS in about and not part.computes:
                self.failed.append(Failed(part.suite, about[NODE], "\n".join(one.text or "" for one in case if one.tag in ("failure", "error"))))
            file = f"{case.get('classname', '').replace('.', '/')}.py"
            self.files[file] += 1
            name = f"{file}::{case.get('name')}"
            self.seconds[name] = self.seconds.get(name, 0) + float(case.get("time") or 0)


def missing() -> list[str]:
    """The packages that are not there: what python3 does not have, and a compiler for the libraries that refuse calls."""
    tried = ((package, subprocess.run([PYTHON, "-c", f"import {name}"], capture_output=True)) for name, package in MODULES.items())
    return [package for package, ran in tried if ran.returncode] + ([] if shutil.which("cc") else ["gcc"])


def chosen(marks: str, is_quick: bool) -> list[str]:
    """The words that choose cases by their marks."""
    return ["-m", " and ".join(filter(None, (marks, "not long" if is_quick else "")))]


def names_of(suite: str) -> list[str]:
    """The names of a folder's files of tests, without `test_` and the ending, in the order in which they begin."""
    names, first = sorted(path.stem.removeprefix("test_") for path in Path(TOP, suite).glob("test_*.py")), FIRST[suite]
    return sorted(names, key=lambda name: first.index(name) if name in first else len(first))


def stages(folder: str, is_quick: bool, more: list[str]) -> list[Stage]:
    """What runs, stage by stage; further words go to each pytest."""
    processors = len(os.sched_getaffinity(0))

    def part(name: str, suite: str, marks: str, halves: int, *words: str, computes: bool = False) -> Part:
        return Part(name, suite, [*(words or (suite,)), *chosen(marks, is_quick), *more_of(suite, more)], folder, halves, computes)

    def files(suite: str, marks: str, halves: int) -> list[Part]:
        return [part(f"{suite.partition('/')[0]} {name}", suite, marks, halves, f"{suite}/test_{name}.py") for name in names_of(suite)]
    measuring = [part(f"alone {suite.partition('/')[0]}", suite, "alone", COMPUTES) for suite in (TESTS, FRONT)]
    count = PARTS * processors
    computing = [part(f"part {number}", TESTS, "not waits and not alone", COMPUTES, TESTS, f"--part={number}/{count}", computes=True)
                 for number in range(1, count + 1)]
    waiting = [*files(FRONT, "not alone", WAITS), part("waiting", TESTS, "waits", WAITS), part("packaging", PACKAGING, "", WAITS)]
    return [Stage(measuring, COMPUTES), Stage([*waiting, *files(CLIENTS, "", COMPUTES), *computing], COMPUTES * processors)]


def more_of(suite: str, more: list[str]) -> list[str]:
    """Further words as the tests of a folder know them: `--count` is none of those that draw nothing."""
    return [word for word in more if suite in COUNTED or not word.startswith("--count=")]


@dataclass
class Collected:
    """What pytest finds: how many cases each file has, and how many are left out by their marks and by words."""
    files: Counter[str] = field(default_factory=Counter)
    left_out: int = 0


def collected(folder: str, is_quick: bool, more: list[str]) -> Collected:
    """What pytest finds in all folders of tests, whatever stage it is for."""
    def texts(suite: str) -> str:
        words = [*pytest_words(suite), "--collect-only", suite, *chosen("", is_quick), *more_of(suite, more)]
        return subprocess.run(words, cwd=TOP, env=environment(folder), stdin=subprocess.DEVNULL, stdout=subprocess.PIPE, encoding="utf-8",
                              errors="replace").stdout
    found = Collected()
    with ThreadPoolExecutor() as pool:
        for text in pool.map(texts, SUITES):
            found.files.update(line.partition("::")[0] for line in text.partition("\n\n")[0].splitlines() if "::" in line)
            found.left_out += sum(map(int, re.findall(r"\((\d+) deselected\)", text)))
    return found


def show(part: Part) -> None:
    """Prints what a part that has ended printed, and how long it took."""
    with open(part.path("log"), encoding="utf-8", errors="replace") as log:
        text = re.sub(r"^[.sFE]+ +\[ *\d+%\]\n", "", log.read(), flags=re.MULTILINE)
    print(f"---- {part.name}: {part.clock:.1f} s by the clock, {part.processor:.1f} s of a processor\n{text}", end="", flush=True)


def conclude(part: Part, totals: Totals) -> None:
    """Prints what a part that has ended printed, and adds up its cases. One that ended badly without a failed case counts as a failure."""
    before = totals.ended["failed"]
    show(part)
    totals.parts.append(part)
    if os.path.exists(part.path("xml")):
        totals.read(part)
    if part.status not in (0, NO_CASE) and totals.ended["failed"] == before:
        print(f"behaviour: {part.name} ended with status {part.status}")
        totals.ended["failed"] += 1


def run_stage(stage: Stage, totals: Totals) -> None:
    """Runs the parts of a stage, and tells of each as it ends."""
    running: dict[Future[None], Part] = {}
    with ThreadPoolExecutor(len(stage.parts)) as pool:
        while stage.parts or running:
            while part := stage.next(running.values()):
                stage.parts.remove(part)
                running[pool.submit(part.run)] = part
            for ended in wait(running, return_when=FIRST_COMPLETED).done:
                ended.result()
                conclude(running.pop(ended), totals)


def try_again(folder: str, more: list[str], totals: Totals) -> None:
    """Runs each case that failed, and may pass when the machine is less busy, again by itself. What passes then counts as passed, and each is printed with
    why it failed; where these are too many, that is a failure."""
    passed = 0
    for number, case in enumerate(totals.failed[:MOST_TRIED], 1):
        part = Part(f"second try {number}", case.suite, [case.node, *more_of(case.suite, more)], folder, COMPUTES)
        part.run()
        if part.status:
            show(part)
            print(f"behaviour: failed at the second try too: {case.node}", flush=True)
            continue
        passed += 1
        totals.ended.update(passed=1, failed=-1)
        print(f"{case.why}\nbehaviour: passed at the second try: {case.node} (why it failed before stands above)", flush=True)
    if passed:
        print(f"behaviour: {passed} passed at the second try, of {MOST_AGAIN} that may")
    if passed > MOST_AGAIN:
        totals.ended["failed"] += 1


def compare(found: Collected, totals: Totals) -> None:
    """Each file whose cases were not run once each counts as a failure."""
    for file in sorted(found.files | totals.files):
        if found.files[file] != totals.files[file]:
            print(f"behaviour: {file}: pytest finds {found.files[file]} cases, the stages ran {totals.files[file]}: a mark hides some, or puts some into two")
            totals.ended["failed"] += 1


def print_times(totals: Totals) -> None:
    """The cases and the seconds of each file, and the slowest cases."""
    by_file: dict[str, list[float]] = defaultdict(list)
    for name, seconds in totals.seconds.items():
        by_file[name.partition("::")[0]].append(seconds)
    for file, found in sorted(by_file.items(), key=lambda item: -sum(item[1])):
        print(f"behaviour: {file}: {len(found)} cases, {sum(found):.1f} s")
    for name, seconds in sorted(totals.seconds.items(), key=lambda item: -item[1])[:SLOWEST]:
        print(f"behaviour: {seconds:6.1f} s {name}")


def reader() -> argparse.ArgumentParser:
    """The reader of the words."""
    words = argparse.ArgumentParser(description="Runs the tests of behaviour over the built program; words that it does not know go to pytest.")
    words.add_argument("--quick", action="store_true", help="leave out cases that are marked `long`")
    words.add_argument("--count", type=int, default=1, metavar="N", help="draw N times as many cases")
    words.add_argument("--packages", action="store_true", help="run nothing: say whether a package is missing")
    return words


def run(is_quick: bool, more: list[str]) -> Totals:
    """Runs all stages, and prints what they found."""
    start, totals = time.monotonic(), Totals()
    # A command that a test left may compile something yet when the folder is removed.
    with tempfile.TemporaryDirectory(prefix="mserve-tests-", ignore_cleanup_errors=True) as folder:
        found = collected(folder, is_quick, more)
        for stage in stages(folder, is_quick, more):
            run_stage(stage, totals)
        try_again(folder, more, totals)
    print_times(totals)
    compare(found, totals)
    left_out = f", {found.left_out} left out" if found.left_out else ""
    of_processors = sum(part.processor for part in totals.parts)
    print(f"behaviour: {time.monotonic() - start:.0f} s by the clock, {of_processors:.0f} s of processors, {totals.ended['skipped']} skipped{left_out}")
    return totals


def main() -> int:
    """Runs all parts."""
    given, more = reader().parse_known_args()
    if lacking := missing():
        print(f"behaviour: {', '.join(lacking)} missing: {INSTALL}" + ("" if given.packages else "\n0 passed, 1 failed"))
        return 1
    if given.packages:
        return 0
    # In the background a shell has interrupts ignored, also by all that the tests start; some of these are interrupted.
    signal.signal(signal.SIGINT, signal.default_int_handler)
    totals = run(given.quick, [f"--count={given.count}", *more])
    if totals.ended["passed"] == 0:
        totals.ended["failed"] += 1
    print(f"{totals.ended['passed']} passed, {totals.ended['failed']} failed")
    return 1 if totals.ended["failed"] else 0


if __name__ == "__main__":
    sys.exit(main())
