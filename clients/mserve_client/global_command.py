# SPDX-License-Identifier: Apache-2.0
"""The command `mglobal`: an account's globals, between a server or a store file and extracts."""
from __future__ import annotations

import argparse
import os
import sys
from collections.abc import Iterator
from contextlib import contextmanager
from itertools import groupby, islice
from typing import IO

from . import extracts, keys, options
from .extracts import FORMATS, Entry, Form, Problem, Unreadable, shown_node
from .options import FOUND, counted
from .progress import Progress
from .store_file import BadStore, StoreFile
from .terminal_way import ImportStopped, TerminalWay
from .walk import AnsweredByCode
from .wire import ClientError, Connection, ServerGone

NAME = "mglobal"
ABOUT = """An account's globals, in and out of files: ZWR and GO as GT.M and YottaDB have them, and JSON lines.

Through a terminal, while the server runs (the globals are named, since no line of the language lists them):
  mglobal 9000 1 export ^PATIENT ^VISIT --to clinic.zwr
  mglobal 9000 1 import clinic.zwr

Straight to a store file, while no server has it (all the account's globals, if none is named):
  mglobal clinic.db CLINIC export --to clinic.zwr
  mglobal clinic.db CLINIC import clinic.zwr --dry-run"""
SHOWN_PROBLEMS = 1000
# Rows that are put at once; a multiple of the nodes after which progress is shown.
BATCH = 2000


class NotWanted(ClientError):
    """What was asked for cannot be done; nothing was."""


def words(arguments: list[str] | None = None) -> argparse.ArgumentParser:
    """The reader of the command's words."""
    reader = options.parser(NAME, ABOUT)
    if not options.is_fronted(arguments):
        reader.add_argument("where", metavar="PORT|FILE", help="the server's port, or a store file (./9000, if its name is a number)")
        reader.add_argument("who", metavar="TERMINAL|ACCOUNT", help="a terminal of the account; of a store file the account itself")
    acts = reader.add_subparsers(dest="act", required=True, metavar="COMMAND")
    export = acts.add_parser("export", help="write nodes to a file")
    export.add_argument("globals", nargs="*", metavar="^GLOBAL", help="a global, or a node with what is below it: ^X, '^X(1,\"a\")'")
    export.add_argument("--to", metavar="FILE", help="the file; the standard output, if none is given")
    export.add_argument("--format", choices=FORMATS, default="zwr", help="zwr (default), go or json")
    take = acts.add_parser("import", help="set the nodes of a file; what is there already and not in the file stays")
    take.add_argument("file", metavar="FILE", help="an extract")
    take.add_argument("--skip", action="store_true", help="leave out what cannot come in, and take the rest")
    take.add_argument("--dry-run", action="store_true", help="only say what cannot come in")
    compare = acts.add_parser("compare", help="say which nodes differ from a file's; status 1 if any does")
    compare.add_argument("file", metavar="FILE", help="an extract, in the order in which export writes")
    for act in (take, compare):
        act.add_argument("--format", choices=FORMATS, help="the file's form, if its first lines do not show it")
    for act in (take, compare, export):
        act.add_argument("--null-subscript", default="", metavar="TEXT", help="the subscript of a node that stands for an empty one in the file")
    count = acts.add_parser("count", help="count nodes, global by global")
    count.add_argument("globals", nargs="*", metavar="^GLOBAL")
    for act in (take, compare, export, count):
        act.add_argument("--settings", metavar="FILE", help="of a store file: the server's settings, which name its accounts")
        act.add_argument("--new-account", action="store_true", help="of a store file: take an account that neither it nor the settings name")
    return reader


def run(chosen: argparse.Namespace) -> int:
    """Does what the words ask for."""
    try:
        if chosen.act == "import" and chosen.dry_run:
            return rehearse(chosen)
        if chosen.act == "import":
            os.stat(chosen.file)
        with way(chosen) as found:
            return ACTS[chosen.act](found, chosen)
    except (NotWanted, BadStore, ImportStopped, AnsweredByCode, extracts.BadExtract) as error:
        options.tell(NAME, str(error))
        return FOUND


Way = TerminalWay | StoreFile


@contextmanager
def way(chosen: argparse.Namespace) -> Iterator[Way]:
    """The way to the nodes that the words ask for."""
    if chosen.front is not None:
        with options.connected(chosen) as connection:
            chosen.text = "utf-8" if connection.in_utf_8 else chosen.text
            yield TerminalWay(connection)
        return
    if not chosen.where.isdigit():
        known = is_named(chosen)
        with StoreFile(chosen.where, chosen.who, make=chosen.act == "import" and known) as file:
            if not known and not file.has_account():
                raise NotWanted(no_account(chosen.where, chosen.who, file.accounts()))
            yield file
        return
    try:
        port, terminal = options.port(chosen.where), options.terminal(chosen.who)
    except argparse.ArgumentTypeError as error:
        raise NotWanted(f"{error}; a store file with such a name is ./{chosen.where}") from error
    with Connection(port, terminal, host=chosen.host, timeout=chosen.timeout or None) as connection:
        yield TerminalWay(connection)


def is_named(chosen: argparse.Namespace) -> bool:
    """Whether the words or the settings name the account of a store file. NotWanted, if mserve refuses the settings."""
    if chosen.new_account or chosen.settings is None:
        return bool(chosen.new_account)
    # Most imports and exports have no settings, and start without their reader.
    from . import settings_file
    try:
        return chosen.who in settings_file.read(chosen.settings).names
    except settings_file.BadSettings as error:
        raise NotWanted(str(error)) from error


def no_account(path: str, name: str, there: list[str]) -> str:
    """What is said of an account that nobody has."""
    has = f"it has those of {', '.join(there[:20])}{' ..' if there[20:] else ''}" if there else "it is empty"
    return f"{path} has no node of an account {name}: {has}. If that is its name, --settings FILE has it from the server's settings, and --new-account " \
           "takes it as it is"


def form(chosen: argparse.Namespace, name: str | None) -> Form:
    """How the file that the words name is written."""
    if chosen.null_subscript and (fault := extracts.subscripts_fault((chosen.null_subscript,))):
        raise NotWanted(f"--null-subscript: {fault}")
    return Form(name, chosen.null_subscript, chosen.text == "utf-8")


def places(found: Way, texts: list[str]) -> list[tuple[str, keys.Subscripts]]:
    """The globals or nodes that are named; all of a store file, if none is."""
    if not texts:
        if isinstance(found, TerminalWay):
            raise NotWanted("name the globals: through a terminal no line of the language lists them")
        return [(name, ()) for name in found.names()]
    return [place(text) for text in texts]


def place(text: str) -> tuple[str, keys.Subscripts]:
    """A global or a node by its text."""
    try:
        name, subscripts, end = extracts.parsed_node(text, 0)
    except Unreadable as error:
        raise NotWanted(f"{text}: {error.reason}; a global is ^NAME, and a node ^NAME(1,\"a\")") from error
    fault = extracts.subscripts_fault(subscripts) if keys.is_name(name) and end == len(text) else "no global"
    if fault:
        raise NotWanted(f"{text}: {fault}")
    return name, subscripts


def export(found: Way, chosen: argparse.Namespace) -> int:
    """Writes nodes to a file, which is there whole or not at all."""
    wanted = places(found, chosen.globals)
    left, missing, far = 0, 0, Far(found, wanted)
    with output(chosen.to) as file, Progress("export", far.part) as progress:
        how = form(chosen, chosen.format)
        file.write(extracts.header(how))
        for name, start in wanted:
            before = progress.count + left
            for subscripts, text in far.followed(start, found.nodes(name, start)):
                try:
                    file.write(extracts.written(how, name, subscripts, text))
                    progress.step()
                except Unreadable as error:
                    left += 1
                    options.tell(NAME, f"left out: {error.reason}")
            if progress.count + left == before:
                missing += 1
                options.tell(NAME, f"{shown_node(name, start)}: there is no such node")
    options.tell(NAME, f"{counted(progress.count, 'node')} exported" + (f", {left:,} left out" if left else "") + progress.shown_rate)
    return FOUND if left or missing else 0


class Far:
    """How far an export through a terminal is, for a person: by the children of its globals, which are counted first."""

    def __init__(self, found: Way, wanted: list[tuple[str, keys.Subscripts]]) -> None:
        self._total = sum(found.children(*place) for place in wanted) if isinstance(found, TerminalWay) and sys.stderr.isatty() else 0
        self._seen = 0

    def part(self) -> float:
        """The part of the nodes that is written, 0 to 1; 0 if that is not known."""
        return min(self._seen / self._total, 1.0) if self._total else 0.0

    def followed(self, start: keys.Subscripts, nodes: Iterator[tuple[keys.Subscripts, str]]) -> Iterator[tuple[keys.Subscripts, str]]:
        """The nodes at and below a place; it is counted how many children of the place they pass."""
        return self._counted(len(start), nodes) if self._total else nodes

    def _counted(self, place: int, nodes: Iterator[tuple[keys.Subscripts, str]]) -> Iterator[tuple[keys.Subscripts, str]]:
        before = ""
        for subscripts, text in nodes:
            if len(subscripts) > place and subscripts[place] != before:
                before = subscripts[place]
                self._seen += 1
            yield subscripts, text


@contextmanager
def output(path: str | None) -> Iterator[IO[str]]:
    """The file that is written, beside its place until it is whole; the standard output if there is no path."""
    if path is None:
        yield sys.stdout
        return
    part = path + ".part"
    try:
        with open(part, "w", encoding="utf-8", newline="\n") as file:
            yield file
        os.replace(part, path)
    finally:
        if os.path.exists(part):
            os.unlink(part)


class Reading:
    """A file that is read: its nodes, and the problems that were found on the way."""

    def __init__(self, file: IO[bytes], chosen: argparse.Namespace) -> None:
        self._file, self._size = file, max(os.fstat(file.fileno()).st_size, 1)
        self._form = form(chosen, chosen.format)
        self.problems = 0

    def part(self) -> float:
        """The part of the file that is read, 0 to 1; 0 if that is not known. A file that was read to its end is closed: replies are still due."""
        if self._file.closed:
            return 1.0
        return self._file.tell() / self._size if self._file.seekable() else 0.0

    def entries(self, is_strict: bool) -> Iterator[Entry]:
        """The nodes. Problems are written to the standard error; a strict reading ends at the first."""
        for found in extracts.read(self._file, self._form):
            if isinstance(found, Entry):
                yield found
                continue
            self.tell(found)
            if is_strict:
                return

    def rows(self, account: str) -> Iterator[tuple[bytes, bytes]]:
        """The nodes as rows of a store. Problems are written to the standard error."""
        return extracts.rows(self._file, self._form, account, self.tell)

    def tell(self, problem: Problem) -> None:
        """Counts a line that cannot come in, and tells it."""
        self.problems += 1
        if self.problems <= SHOWN_PROBLEMS:
            options.tell(NAME, f"line {problem.line}: {problem.reason}")
        elif self.problems == SHOWN_PROBLEMS + 1:
            options.tell(NAME, "further lines that cannot come in are only counted")


@contextmanager
def reading(chosen: argparse.Namespace) -> Iterator[Reading]:
    """The file that the words name."""
    with open(chosen.file, "rb", buffering=1 << 20) as file:
        yield Reading(file, chosen)


def rehearse(chosen: argparse.Namespace) -> int:
    """Only says what cannot come in."""
    with reading(chosen) as source, Progress("dry run", source.part) as progress:
        for _ in source.entries(is_strict=False):
            progress.step()
    print(f"{counted(progress.count, 'node')} can come in, {counted(source.problems, 'line')} cannot; nothing was changed")
    return FOUND if source.problems else 0


def take(found: Way, chosen: argparse.Namespace) -> int:
    """Sets the nodes of a file."""
    with reading(chosen) as source, Progress("import", source.part) as progress:
        if isinstance(found, StoreFile):
            took = take_straight(found, source, progress, chosen.skip)
        else:
            took = take_through(found, source, progress, chosen.skip)
    is_straight = isinstance(found, StoreFile)
    count = progress.count if took or not is_straight else 0
    stands = "nothing was changed" if is_straight else "it stopped there, and the nodes before that line stand"
    stopped = f"; {stands}: --skip leaves such lines out, --dry-run lists them"
    print(f"{counted(count, 'node')} imported" + (f", {counted(source.problems, 'line')} cannot come in" if source.problems else "")
          + ("" if took else stopped) + progress.shown_rate)
    return FOUND if source.problems else 0


def take_through(found: TerminalWay, source: Reading, progress: Progress, skip: bool) -> bool:
    """Sets the nodes of a file through a terminal. False if it stopped at one that cannot come in."""
    try:
        found.put(source.entries(not skip), progress.step)
    except KeyboardInterrupt as error:
        error.add_note(f"{progress.count:,} nodes stand, and maybe some that were on their way")
        raise
    except ServerGone as error:
        raise ServerGone(f"{error}; {progress.count:,} nodes stand, and maybe some of these") from error
    return skip or not source.problems


class GiveUp(Exception):
    """A transaction is not wanted."""


def take_straight(store: StoreFile, source: Reading, progress: Progress, skip: bool) -> bool:
    """Sets the nodes of a file in one transaction. False, with nothing changed, if some cannot come in and that is not allowed."""
    rows = source.rows(store.account)
    try:
        with store.change():
            while batch := list(islice(rows, BATCH)):
                store.put(batch)
                progress.step(len(batch))
            if source.problems and not skip:
                raise GiveUp
    except GiveUp:
        return False
    return True


def compare(found: Way, chosen: argparse.Namespace) -> int:
    """Says which nodes differ from those of a file."""
    different = 0
    with reading(chosen) as source, Progress("compare", source.part) as progress:
        for text in differences(found, source.entries(is_strict=False), progress):
            different += 1
            print(text)
    print(f"{counted(progress.count, 'node')} compared: {counted(different, 'node')} different" if different
          else f"{counted(progress.count, 'node')} compared: all equal")
    return FOUND if different or source.problems else 0


def differences(found: Way, entries: Iterator[Entry], progress: Progress) -> Iterator[str]:
    """What differs, node by node, in their order; globals that the file has not at the end."""
    seen = set()
    for name, group in groupby(entries, lambda entry: entry.name):
        if name in seen:
            raise NotWanted(f"^{name} stands in two places of the file: compare wants the order of an export")
        seen.add(name)
        yield from merged(name, group, found.nodes(name), progress)
    for name in found.names() if isinstance(found, StoreFile) else ():
        if name not in seen:
            yield f"only in the store: ^{name}, {counted(sum(1 for _ in found.nodes(name)), 'node')}"


def merged(name: str, entries: Iterator[Entry], nodes: Iterator[tuple[keys.Subscripts, str]], progress: Progress) -> Iterator[str]:
    """What differs between the nodes of one global in a file and in the store."""
    here, before = next(nodes, None), b""
    for entry in entries:
        progress.step()
        at = keys.key("A", name, entry.subscripts)
        if at <= before:
            raise NotWanted(f"line {entry.line}: {shown_node(name, entry.subscripts)} does not come after the node before it: "
                            "compare wants the order of an export")
        before = at
        while here is not None and keys.key("A", name, here[0]) < at:
            yield f"only in the store: {shown_node(name, here[0])}"
            here = next(nodes, None)
        if here is None or here[0] != entry.subscripts:
            yield f"only in the file: {shown_node(name, entry.subscripts)}"
            continue
        if here[1] != entry.text:
            yield f"different: {shown_node(name, entry.subscripts)}"
        here = next(nodes, None)
    while here is not None:
        yield f"only in the store: {shown_node(name, here[0])}"
        here = next(nodes, None)


def count(found: Way, chosen: argparse.Namespace) -> int:
    """Counts nodes, global by global."""
    for name, start in places(found, chosen.globals):
        print(f"{shown_node(name, start)}: {counted(sum(1 for _ in found.nodes(name, start)), 'node')}")
    return 0


ACTS = {"export": export, "import": take, "compare": compare, "count": count}
main = options.command(NAME, words, run)
