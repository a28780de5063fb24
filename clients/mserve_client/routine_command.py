# SPDX-License-Identifier: Apache-2.0
"""The command `mroutine`: routines between files and an account's global ^ROUTINE."""
from __future__ import annotations

import argparse
import difflib
import os
import sys
from collections.abc import Callable

from . import options, routines, unit_tests
from .checking import Finding, Kind, findings
from .grammar import LANGUAGES
from .options import FOUND, counted
from .routine_files import BadFile, Source, file_name, file_text, refuse_over, sources, stored_source, with_tabs_of
from .wire import ClientError, Connected

NAME = "mroutine"
Act = Callable[[Connected, list[Source], argparse.Namespace], int]
ABOUT = """Routines between files and the account of a terminal.

  mroutine 9000 1 check clinic/        says what is not in the language, and what to write instead
  mroutine 9000 1 load clinic/ ADD.m   replaces routines by files NAME.m, each whole
  mroutine 9000 1 list                 names the account's routines
  mroutine 9000 1 save ADD --to FOLDER writes routines to files
  mroutine 9000 1 diff clinic/         compares files with the account's routines
  mroutine 9000 1 delete ADD           deletes routines
  mroutine 9000 1 test tests/          runs unit tests, labels T.. of routines T.., with a report in TAP
  mroutine --front https://front.example:8443 --user ada load clinic/

The file NAME.m has the routine NAME, and _NAME.m has %NAME; its first line is ^ROUTINE("NAME",1)."""


def words(arguments: list[str] | None = None) -> argparse.ArgumentParser:
    """The reader of the command's words."""
    reader = options.parser(NAME, ABOUT)
    options.add_place(reader, arguments, "a terminal of the account")
    acts = reader.add_subparsers(dest="act", required=True, metavar="COMMAND")
    for name, about in (("check", "say what is not in the language; nothing is run and nothing changes"),
                        ("load", "replace routines by files, each whole or not at all"),
                        ("diff", "compare files with the account's routines; status 1 if they differ")):
        acts.add_parser(name, help=about, description=about).add_argument("paths", nargs="+", metavar="FILE.m|FOLDER")
    acts.choices["load"].add_argument("--check", action="store_true", help="load nothing if a line of any file is not in the language")
    acts.choices["check"].add_argument("--language", type=int, choices=sorted(LANGUAGES), metavar="NUMBER",
                                       help="the language of the verdicts: 0, the profile, or 1 (default: the account's, as the server tells it)")
    acts.add_parser("list", help="name the account's routines, each with its count of lines")
    save = acts.add_parser("save", help="write routines to files")
    save.add_argument("routines", nargs="*", metavar="ROUTINE", help="all, if none is named")
    save.add_argument("--to", default=".", metavar="FOLDER", help="where the files go (default: here); - for the standard output")
    save.add_argument("--force", action="store_true", help="write over files that are there")
    about = "run unit tests: the labels T.. of routines T.., each in a new session; a report in TAP, status 1 if one fails"
    tests = acts.add_parser("test", help=about, description=f"{about}. The routines are put back then as they were.")
    tests.add_argument("paths", nargs="+", metavar="FILE.m|FOLDER")
    delete = acts.add_parser("delete", help="delete routines")
    delete.add_argument("routines", nargs="+", metavar="ROUTINE")
    return reader


def run(chosen: argparse.Namespace) -> int:
    """Does what the words ask for."""
    try:
        files = sources(chosen.paths) if "paths" in chosen else []
        with options.connected(chosen) as connection:
            files = [stored_source(source) for source in files] if connection.in_utf_8 else files
            return ACTS[chosen.act](connection, files, chosen)
    except (BadFile, routines.NoRoutine, routines.LoadFailed, routines.Deploying) as error:
        options.tell(NAME, str(error))
        return FOUND


def check(connection: Connected, files: list[Source], chosen: argparse.Namespace) -> int:
    """Says what is not in the language, which labels and routines are not there, and what means something else in M."""
    kinds = [finding.kind for finding in show_findings(connection, files, chosen.language)]
    told = [f"{counted(len(files), 'file')}, {counted(sum(len(source.lines) for source in files), 'line')}: "
            + (f"{counted(kinds.count(Kind.REFUSED), 'line')} not in the language" if Kind.REFUSED in kinds else "all in the language")]
    if Kind.MISSING in kinds:
        told.append(f"{kinds.count(Kind.MISSING):,} of what a DO or a GOTO names is not there")
    if Kind.WARNING in kinds:
        told.append(counted(kinds.count(Kind.WARNING), "warning"))
    print("; ".join(told))
    return FOUND if {Kind.REFUSED, Kind.MISSING} & set(kinds) else 0


def show_findings(connection: Connected, files: list[Source], number: int | None = None) -> list[Finding]:
    """Prints what is to be said of files' lines by a language, the account's if no other is named, and gives it."""
    shown: list[Finding] = []
    for source, found in findings(connection, files, number):
        for finding in found:
            print(f"{source.path}:{finding.line}:{finding.column}: {finding.message}")
            if finding.advice:
                print(f"    {finding.advice}")
        shown += found
    return shown


def load(connection: Connected, files: list[Source], chosen: argparse.Namespace) -> int:
    """Replaces routines by files."""
    refuse_over(files)
    if chosen.check and any(finding.kind is Kind.REFUSED for finding in show_findings(connection, files)):
        options.tell(NAME, "nothing was loaded")
        return FOUND
    with routines.deploying(connection):
        load_all(connection, files)
    return 0


def load_all(connection: Connected, files: list[Source]) -> None:
    """Replaces routines by files, each whole."""
    for number, source in enumerate(files):
        try:
            others = routines.load(connection, source.name, source.texts())
        except ClientError as error:
            left = ", ".join(file.name for file in files[number:])
            raise routines.LoadFailed(f"{source.path}: {error}; {counted(number, 'routine')} loaded before it, not loaded: {left}") from error
        print(f"{source.name}: {counted(len(source.lines), 'line')} from {source.path}")
        if others:
            options.tell(NAME, f'{source.name}: {counted(len(others), "node")} of ^ROUTINE("{source.name}") that were no lines are gone with the old routine')


def diff(connection: Connected, files: list[Source], _: argparse.Namespace) -> int:
    """Compares files with the account's routines."""
    different = 0
    for source in files:
        there = [node[1] for node in routines.nodes_of(connection, source.name) if routines.is_line(node)]
        lines = list(difflib.unified_diff(there, source.texts(), f"^{source.name}", source.path, lineterm=""))
        different += bool(lines)
        for line in lines:
            print(line)
    return FOUND if different else 0


def names(connection: Connected, *_: object) -> int:
    """Names the account's routines."""
    for name, texts in routines.all_routines(connection):
        print(f"{name}: {counted(len(texts), 'line')}")
    return 0


def save(connection: Connected, _: list[Source], chosen: argparse.Namespace) -> int:
    """Writes routines to files."""
    wanted = [(name, routines.texts_of(connection, name)) for name in chosen.routines] if chosen.routines else routines.all_routines(connection)
    for name, texts in wanted:
        text = file_text(name, texts, connection.in_utf_8)
        if chosen.to == "-":
            sys.stdout.write(text)
            continue
        os.makedirs(chosen.to, exist_ok=True)
        path = os.path.join(chosen.to, file_name(name))
        if os.path.exists(path):
            if not chosen.force:
                raise BadFile(f"{path} is there already: --force writes over it")
            text = with_tabs_of(path, text)
        write_whole(path, text)
        print(f"{name}: {path}")
    return 0


def write_whole(path: str, text: str) -> None:
    """Writes a file so that it is there whole, or as it was."""
    part = path + ".part"
    try:
        with open(part, "w", encoding="utf-8", errors="surrogateescape", newline="\n") as file:
            file.write(text)
        os.replace(part, path)
    finally:
        if os.path.exists(part):
            os.unlink(part)


def delete(connection: Connected, _: list[Source], chosen: argparse.Namespace) -> int:
    """Deletes routines."""
    with routines.deploying(connection):
        for name in chosen.routines:
            routines.delete(connection, name)
            print(f"{name}: deleted")
    return 0


def test(connection: Connected, files: list[Source], _: argparse.Namespace) -> int:
    """Runs the unit tests of routines."""
    refuse_over(files)
    report = unit_tests.Report()
    with routines.deploying(connection), unit_tests.loaded(connection, files):
        for line in unit_tests.run(connection, files, report):
            print(line, flush=True)
    if not report.points:
        options.tell(NAME, "no routine has a test: a label T.. in a routine T..")
    return FOUND if report.failed or not report.points else 0


ACTS: dict[str, Act] = {"check": check, "load": load, "diff": diff, "list": names, "save": save, "delete": delete, "test": test}
main = options.command(NAME, words, run)
