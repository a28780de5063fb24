#!/usr/bin/env python3
# SPDX-License-Identifier: Apache-2.0
"""Times the workloads of tools/benchmarks/workloads.txt over the built program, with a store in memory and
one in a file, and prints a table of ratios: the time of an operation beside that of a turn of a loop
of Python's own, which runs in the same pass. GT.M (Debian's `fis-gtm`) and SQLite's shell (`sqlite3`)
do the same work beside it if they are installed.

    tools/bench.py [NAME ..]        times all workloads, or those whose names have one of these words
        --passes 5                  how often each is timed; the best counts, the median is beside it
        --growth                    times ten times the lines too, and tells by what each time grew
        --write                     puts the table into docs/PERFORMANCE.md
        --workloads FILE            reads others
        --twins                     times the workloads that have a twin, and the twins (tools/benchmarks/twins.txt), over a
                                    store in memory and GT.M alone, and prints GT.M's time beside the program's of both;
                                    and what ten times as much takes
                                    (a pass goes over all of them, so that a slow minute of the machine meets all)

Workloads that call functions are left out, and named, as long as the program refuses functions.

The loop is the reference since it is there wherever the script runs, asks for no memory, and is bound
as the program is: by the clock of the processor and the branches of an interpreter. Python's version
is printed, since the loop's speed depends on it.

What is timed begins with the reply to the last line of the set-up, and ends with that to the last
line; all timed lines are written to a pipe at once. Status 1 says that the replies of two of them
differ, or have another checksum than the file of workloads says."""
import argparse
import itertools
import os
import platform
import re
import shutil
import statistics
import subprocess
import sys
import tempfile
import textwrap
import threading
import time
import zlib
from collections.abc import Iterable, Iterator
from dataclasses import dataclass, field
from typing import IO

from running import OF_LANGUAGE, TOP, require_program, run, run_words

WORKLOADS = os.path.join(TOP, "tools", "benchmarks", "workloads.txt")
TWINS = os.path.join(TOP, "tools", "benchmarks", "twins.txt")
PAGE = os.path.join(TOP, "docs", "PERFORMANCE.md")
BEGIN, TWINS_BEGIN, END = "<!-- bench.py -->\n", "<!-- bench.py --twins -->\n", "<!-- end -->\n"
ACCOUNTS = 1000
TURNS = 2_000_000
GROWTH = 10
# Ten times as much is timed less often.
PASSES_OF_GROWTH = 4
# The floor of a row: what the store's calls of the workload took alone, in their order and over the store as the program has it, and what all of
# an operation took, in microseconds. It was computed once, by a program that is gone, over the release and on the machine of that day.
FLOORS = {
    "new nodes": (6.24, 6.72),
    "nodes walked and read": (3.67, 4.57),
    "nodes read": (3.31, 3.99),
    "naked references and $DATA": (2.40, 2.90),
}
FLOORS_OF = "2026-11-27, 16:22"
ONE_ACCOUNT, MANY_ACCOUNTS = "equal lines", "lines of 1000 accounts"
READY, DONE = "READY", "DONE"
# This many bytes at most are read at once, and a pipe holds.
CHUNK = 1 << 20
PARTS = ("m", "m timed", "sql", "sql timed")
STORES = ("memory", "file")
GTM, SQLITE = "GT.M", "SQLite"
# GT.M reads the lines that the program reads, cuts the terminal off, and runs the rest.
GTM_LOOP = 'bench ;\n f  r %line q:$zeof  x $p(%line," ",2,9999) w:$x !\n q\n'
ROUTINE_LINE = re.compile(r'^1: 1 S \^ROUTINE\("(\w+)",\d+\)="(.*)"$')


@dataclass
class Workload:
    """A workload: its name, the unit of its operations and their count, the checksum of its replies, the language of
    its accounts, and its lines with their counts: those of the set-up and the timed ones, for M and for SQLite."""
    name: str
    unit: str
    operations: int
    checksum: int
    language: int = 0
    lines: dict[str, list[str]] = field(default_factory=lambda: {part: [] for part in PARTS})

    def calls_functions(self) -> bool:
        """Whether a line of it has a function's call."""
        return any("$$" in form for form in [*self.lines["m"], *self.lines["m timed"]])

    def text(self, part: str, scale: int) -> bytes:
        """The lines of a part, those that stand more than once that many times more often."""
        return "".join(f"{line}\n" for form in self.lines[part] for line in copies(form, scale)).encode("ascii")


@dataclass
class Measured:
    """What a subject took for a workload, in seconds a pass, beside the reference, in seconds a turn;
    what it wrote; and how much memory it had at most, in megabytes."""
    passes: list[float] = field(default_factory=list)
    reference: list[float] = field(default_factory=list)
    replies: bytes = b""
    memory: float = 0.0

    def take(self, once: "Measured") -> None:
        """Adds what further passes took."""
        self.passes += once.passes
        self.reference += once.reference
        self.replies, self.memory = once.replies, max(self.memory, once.memory)

    def ratios(self, operations: int) -> list[float]:
        """How many turns of the reference an operation took, in each pass."""
        return [taken / operations / turn for taken, turn in zip(self.passes, self.reference)]


def copies(form: str, scale: int) -> Iterator[str]:
    """The lines of a form `COUNT: LINE`."""
    count, _, line = form.partition(": ")
    for n in range(int(count) * (scale if int(count) > 1 else 1)):
        yield line.replace("{n}", str(n)).replace("{m}", str(n + 1)).replace("{k}", str(n % ACCOUNTS + 1))


def workloads(path: str = WORKLOADS) -> Iterator[Workload]:
    """The workloads of a file, in their order."""
    with open(path, encoding="ascii") as file:
        blocks = file.read().split("\n\n")
    for header, *lines in (block.strip("\n").split("\n") for block in blocks if block.startswith("== ")):
        name, unit, operations, checksum, *language = header.removeprefix("== ").split(" | ")
        made = Workload(name, unit, int(operations), int(checksum, 16), int(*language))
        part = {"m": "m", "sql": "sql"}
        for line in lines:
            kind = "sql" if line.startswith("sql ") else "m"
            line = line.removeprefix("sql ")
            if line == "ready":
                part[kind] += " timed"
            else:
                made.lines[part[kind]].append(line)
        yield made


def reference() -> float:
    """The seconds that a turn of the loop takes."""
    start, total = time.perf_counter(), 0
    for i in range(TURNS):
        total = (total * 7 + i) % 9973
    return (time.perf_counter() - start) / TURNS


def read_until(stream: IO[bytes], word: str) -> bytes:
    """What a stream gives up to the line that ends with a word. It is read as it comes and not line by line, which would
    take longer than a short line does."""
    end, written, chunk = f"{word}\n".encode(), bytearray(), b""
    while end not in written[-len(chunk) - len(end):]:
        chunk = os.read(stream.fileno(), CHUNK)
        if not chunk:
            sys.exit(f"bench: there was no reply with {word}")
        written += chunk
    return bytes(written[:written.rfind(b"\n", 0, written.rindex(end)) + 1])


def timed(words: list[str], setup: bytes, work: bytes, **more) -> Measured:
    """The seconds from the answer to a set-up to the end of what follows, what was written in between, and the memory.
    Both end by a line whose answer has the word that the reader wants."""
    with subprocess.Popen(words, stdin=subprocess.PIPE, stdout=subprocess.PIPE, bufsize=0, pipesize=CHUNK, **more) as ran:
        feeder = threading.Thread(target=feed, args=(ran.stdin, setup))
        feeder.start()
        read_until(ran.stdout, READY)
        feeder.join()
        feeder = threading.Thread(target=feed, args=(ran.stdin, work))
        start = time.perf_counter()
        feeder.start()
        written = read_until(ran.stdout, DONE)
        taken = time.perf_counter() - start
        feeder.join()
        with open(f"/proc/{ran.pid}/status", encoding="ascii") as status:
            most = int(re.search(r"^VmHWM:\s+(\d+) kB$", status.read(), re.MULTILINE)[1])
        ran.stdin.close()
        while os.read(ran.stdout.fileno(), CHUNK):
            pass
    return Measured([taken], [], written, most / 1024)


def feed(stream: IO[bytes], lines: bytes) -> None:
    """Writes lines to a pipe, whole."""
    rest = memoryview(lines)
    while rest:
        rest = rest[os.write(stream.fileno(), rest):]


def plain(replies: bytes) -> bytes:
    """What the lines wrote, without the form of the wire, as GT.M writes it."""
    return b"".join(line + b"\n" for line in re.findall(rb"^\d+[-:!](.+)$", replies, re.MULTILINE))


class Subjects:
    """What is timed, with its files in a folder that goes in the end."""

    def __init__(self, folder: str) -> None:
        self.folder = folder
        self.settings = [self.settings_made(language) for language in OF_LANGUAGE]
        self.dist = gtm_folder()
        self.sqlite = shutil.which("sqlite3")
        missing = [name for name, found in ((GTM, self.dist), (SQLITE, self.sqlite)) if not found]
        for name in missing:
            print(f"bench: {name} is not installed, and left out", file=sys.stderr)
        self.names = [*STORES, *(name for name in (GTM, SQLITE) if name not in missing)]
        self.beside_reference = True

    def settings_made(self, language: int) -> str:
        """A file of settings of many accounts that have a language."""
        path = os.path.join(self.folder, f"language-{language}.toml")
        with open(path, "w", encoding="ascii") as file:
            for terminal in range(1, ACCOUNTS + 1):
                file.write(f'[[account]]\nname = "A{terminal}"\nterminals = [{terminal}]\nsteps = 1000000\nlanguage = {language}\n')
        return path

    def take(self, work: Workload) -> bool:
        """Whether the program has all that a workload needs; it is named if not. A function that is not there is M13 where there are functions."""
        if not work.calls_functions() or run(b"1 W $$F^NONE\n", self.settings[work.language])[1] == b"1!M13\n":
            return True
        print(f"bench: the program calls no functions, and {work.name} is left out", file=sys.stderr)
        return False

    def run(self, subject: str, work: Workload, scale: int) -> Measured:
        """What a subject takes for a workload once."""
        for name in os.listdir(self.folder):
            if name.startswith("bench."):
                os.remove(os.path.join(self.folder, name))
        if subject == SQLITE:
            return self.run_sqlite(work, scale)
        setup = work.text("m", scale) + f'1 W "{READY}"\n'.encode()
        timed_lines = work.text("m timed", scale) + f'1 W "{DONE}"\n'.encode()
        if subject == GTM:
            words = [os.path.join(self.dist, "mumps"), "-run", "bench"]
            return timed(words, setup, timed_lines, cwd=self.folder, env=self.gtm_made(work))
        store = subject if subject == "memory" else os.path.join(self.folder, "bench.db")
        once = timed(run_words(self.settings[work.language], store), setup, timed_lines)
        once.replies = plain(once.replies)
        return once

    def run_sqlite(self, work: Workload, scale: int) -> Measured:
        """The same by SQLite's shell over a database in memory; it writes line by line, as the program does."""
        setup = work.text("sql", scale) + f"SELECT '{READY}';\n".encode()
        timed_lines = work.text("sql timed", scale) + f"SELECT '{DONE}';\n".encode()
        once = timed(["stdbuf", "-oL", self.sqlite, "-batch", ":memory:"], setup, timed_lines)
        once.replies = b""
        return once

    def gtm_made(self, work: Workload) -> dict[str, str]:
        """What GT.M is run with: a new database, and the routines that the set-up stores, as files."""
        files = {"bench": GTM_LOOP}
        for form in work.lines["m"]:
            if found := ROUTINE_LINE.match(form):
                files[found[1]] = files.get(found[1], "") + found[2] + "\n"
        for name, text in files.items():
            with open(os.path.join(self.folder, f"{name}.m"), "w", encoding="ascii") as file:
                file.write(text)
        env = {**os.environ, "gtm_dist": self.dist, "gtmgbldir": os.path.join(self.folder, "bench.gld"),
               "gtmroutines": f"{self.folder} {self.dist}/libgtmutil.so", "gtm_chset": "M",
               "gtm_tmp": self.folder, "HOME": self.folder}
        # the file's name comes last, since it goes on to the end of the line
        made = f"change -segment DEFAULT -allocation=20000 -lock_space=65536 -file={self.folder}/bench.dat\nexit\n".encode()
        quiet = {"env": env, "cwd": self.folder, "capture_output": True, "check": True}
        subprocess.run([os.path.join(self.dist, "mumps"), "-run", "GDE"], input=made, **quiet)
        subprocess.run([os.path.join(self.dist, "mupip"), "create"], **quiet)
        return env


def gtm_folder() -> str | None:
    """The folder of GT.M's program, if it is installed."""
    for top, _, files in os.walk("/usr/lib/x86_64-linux-gnu/fis-gtm"):
        if "mumps" in files and not top.endswith("utf8"):
            return top
    return None


def measured(subjects: Subjects, work: Workload, passes: int, scale: int) -> dict[str, Measured]:
    """What each subject took, pass by pass, the subjects in turn."""
    found: dict[str, Measured] = {}
    for _, subject in itertools.product(range(passes), subjects.names):
        if subject == SQLITE and not work.lines["sql timed"]:
            continue
        one = found.setdefault(subject, Measured())
        if subjects.beside_reference:
            one.reference.append(reference())
        one.take(subjects.run(subject, work, scale))
    return found


@dataclass(frozen=True)
class Job:
    """Passes of a workload, some times as large, by the subjects of these names."""
    work: Workload
    names: tuple[str, ...]
    scale: int
    passes: int


def in_rounds(subjects: Subjects, jobs: dict[str, Job]) -> dict[str, dict[str, Measured]]:
    """What each job's subjects took. A round makes one pass of each job, so that a slow minute of the machine meets all of them."""
    found: dict[str, dict[str, Measured]] = {name: {} for name in jobs}
    for done in range(max(job.passes for job in jobs.values())):
        for name, job in ((name, job) for name, job in jobs.items() if done < job.passes):
            subjects.names = list(job.names)
            for subject, once in measured(subjects, job.work, 1, job.scale).items():
                found[name].setdefault(subject, Measured()).take(once)
    return found


def faults(work: Workload, found: dict[str, Measured], scale: int) -> Iterable[str]:
    """What is wrong with the replies."""
    replies = found["memory"].replies
    if scale == 1 and zlib.crc32(replies) != work.checksum:
        yield f"{work.name}: the replies have the checksum {zlib.crc32(replies):08x}, not {work.checksum:08x}"
    for subject in ("file", GTM):
        if subject in found and found[subject].replies != replies:
            yield f"{work.name}: {subject} answers otherwise: {found[subject].replies[-60:]!r}, not {replies[-60:]!r}"


def cell(one: Measured | None, more: Measured | None, operations: int) -> str:
    """The best ratio, with the median; and by what ten times the lines made the time grow."""
    if one is None:
        return ""
    ratios = one.ratios(operations)
    told = f"{min(ratios):.2f} ({statistics.median(ratios):.2f})"
    if more is None:
        return told
    return f"{told}, {min(more.ratios(operations)) / min(ratios):.1f} times"


def speeds(found: dict[str, Measured]) -> str:
    """GT.M's time beside the program's over a store in memory: of the best passes, and of the medians."""
    gtm, ours = found[GTM].passes, found["memory"].passes
    return f"{min(gtm) / min(ours):.2f} ({statistics.median(gtm) / statistics.median(ours):.2f})"


def grown(own: Measured, larger: Measured) -> str:
    """By what an operation takes longer where there is ten times as much, and the memory of both."""
    longer = min(larger.passes) / GROWTH / min(own.passes)
    return f"{longer:.2f}, {own.memory:.0f} and {larger.memory:.0f} MB"


def floors_told() -> str:
    """The floors of rows, as they were computed once."""
    told = "; ".join(f"{name} {floor:.2f} of {whole:.2f} µs" for name, (floor, whole) in FLOORS.items())
    return textwrap.fill(f"Floors, computed once (release of {FLOORS_OF}), what the store's calls alone took of an operation: {told}.", 100)


def twin_rows(subjects: Subjects, asked: argparse.Namespace) -> Iterator[tuple[str, list[str]]]:
    """A row of the table of twins for each workload that has one, and what is wrong with the replies; and one for the
    lines of many accounts."""
    subjects.beside_reference = False
    twins = {twin.name: twin for twin in workloads(TWINS)}
    wanted = asked_workloads(subjects, asked)
    jobs: dict[str, Job] = {}
    for work in wanted:
        if twin := twins.get(work.name):
            jobs[work.name] = Job(work, ("memory", GTM), 1, asked.passes)
            jobs[f"twin of {work.name}"] = Job(twin, ("memory", GTM), 1, asked.passes)
            jobs[f"more of {work.name}"] = Job(work, ("memory",), GROWTH, PASSES_OF_GROWTH)
        elif work.name == MANY_ACCOUNTS:
            jobs[work.name] = Job(work, ("memory",), 1, asked.passes)
    found = in_rounds(subjects, jobs)
    for work in wanted:
        if work.name not in jobs:
            continue
        own = found[work.name]
        if twin := twins.get(work.name):
            other, larger = found[f"twin of {work.name}"], found[f"more of {work.name}"]
            cells = [work.name, speeds(own), speeds(other), grown(own["memory"], larger["memory"])]
            yield f"| {' | '.join(cells)} |", [*faults(work, own, 1), *faults(twin, other, 1)]
        elif ONE_ACCOUNT in found:
            many, of_one = own["memory"], found[ONE_ACCOUNT]["memory"]
            longer = min(many.passes) / min(of_one.passes)
            yield f"| {work.name} |  |  | {longer:.2f}, {of_one.memory:.0f} and {many.memory:.0f} MB |", [*faults(work, own, 1)]


def write_page(begin: str, table: str) -> None:
    """Puts a table between its marks."""
    with open(PAGE, encoding="utf-8") as file:
        page = file.read()
    if begin not in page:
        sys.exit("bench: docs/PERFORMANCE.md has no place for the table")
    place = re.escape(begin) + ".*?" + re.escape(END)
    made = re.sub(place, lambda _: begin + table + END, page, count=1, flags=re.DOTALL)
    with open(PAGE, "w", encoding="utf-8") as file:
        file.write(made)


def asked_for() -> argparse.Namespace:
    """The words of the command line."""
    read = argparse.ArgumentParser(description=__doc__.split("\n\n", maxsplit=1)[0])
    read.add_argument("names", nargs="*")
    read.add_argument("--passes", type=int, default=5)
    read.add_argument("--growth", action="store_true")
    read.add_argument("--write", action="store_true")
    read.add_argument("--workloads", default=WORKLOADS)
    read.add_argument("--twins", action="store_true")
    return read.parse_args()


def asked_workloads(subjects: Subjects, asked: argparse.Namespace) -> list[Workload]:
    """The workloads that are asked for, and that the program can run."""
    wanted = [work for work in workloads(asked.workloads) if not asked.names or any(name in work.name for name in asked.names)]
    return [work for work in wanted if subjects.take(work)]


def rows(subjects: Subjects, asked: argparse.Namespace) -> Iterator[tuple[str, list[str]]]:
    """A row of the table for each workload, and what is wrong with the replies."""
    for work in asked_workloads(subjects, asked):
        found = measured(subjects, work, asked.passes, 1)
        wrong = [*faults(work, found, 1)]
        larger: dict[str, Measured] = {}
        if asked.growth:
            larger = measured(subjects, work, asked.passes, GROWTH)
            wrong += faults(work, larger, GROWTH)
        cells = [cell(found.get(name), larger.get(name), work.operations) for name in subjects.names]
        yield f"| {work.name}, {work.unit} | {' | '.join(cells)} |", wrong


def main() -> int:
    """Times, prints the table, and tells what is wrong with the replies."""
    asked = asked_for()
    require_program()
    wrong: list[str] = []
    with tempfile.TemporaryDirectory() as folder:
        subjects = Subjects(folder)
        if asked.twins and not subjects.dist:
            sys.exit("bench: twins are compared with GT.M, which is not installed")
        names = ["GT.M's time / the program's", "of its twin", "ten times as much"] if asked.twins else subjects.names
        first = "Workload" if asked.twins else "Workload, an operation"
        table = [f"| {first} | {' | '.join(names)} |", "|---" * (len(names) + 1) + "|"]
        for row, told in (twin_rows if asked.twins else rows)(subjects, asked):
            wrong += told
            table.append(row)
            print(row, file=sys.stderr, flush=True)
    turns = "" if asked.twins else f", turns of Python {platform.python_version()}"
    table += ["", f"{time.strftime('%Y-%m-%d')}, {os.cpu_count()} processors, {asked.passes} passes{turns}."]
    table += ["", floors_told()] if asked.twins else []
    text = "\n".join(table) + "\n"
    print(text, end="")
    if asked.write:
        write_page(TWINS_BEGIN if asked.twins else BEGIN, text)
    for told in wrong[:20]:
        print(f"bench: {told}", file=sys.stderr)
    return 1 if wrong else 0


if __name__ == "__main__":
    sys.exit(main())
