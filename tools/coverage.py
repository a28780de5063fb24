#!/usr/bin/env python3
# SPDX-License-Identifier: Apache-2.0
"""Tells how much of other people's M the language takes: of all files .m in a folder and below, and of the rest the first cause.

    tools/coverage.py FOLDER                      # by language 0, the profile
    tools/coverage.py FOLDER --apart 2000         # routines of more lines, as programs write them, in a table of their own
    tools/coverage.py FOLDER --language 1

Files with the same content count once. A line is taken if a server reads it by settings whose account has that language; it is asked by the
clients' check: nothing is run.
The loaders of routines turn tabs outside strings and comments into spaces, so each table has both: what is taken of the lines as they
are, and as they are loaded. A line with code is one that is more than a label and a comment. The causes are those that the check tells,
of lines as they are loaded; of a line the first one counts."""
from __future__ import annotations

import argparse
import contextlib
import os
import re
import subprocess
import sys
from collections import Counter
from collections.abc import Iterator
from dataclasses import dataclass

from running import OF_LANGUAGE, TOP, connected, free_port, require_program, serve_words

sys.path.append(os.path.join(TOP, "clients"))
from mserve_client import checking  # noqa: E402
from mserve_client.routine_files import SourceLine, file_lines, source_line  # noqa: E402
from mserve_client.wire import Connection  # noqa: E402

TERMINAL = 1
# What a line has after its label that is a label and a comment alone.
NO_CODE = re.compile(r"[ \t]*(?:;.*)?", re.DOTALL)


@dataclass(frozen=True, slots=True)
class Read:
    """A line as it is read: whether it is more than label and comment, whether the loaders change it, and why it is refused, or nothing."""

    is_code: bool
    has_tabs: bool
    cause: str


@contextlib.contextmanager
def connection(language: int) -> Iterator[Connection]:
    """A connection to a server over a new store in memory, whose account has a language."""
    port = free_port()
    with subprocess.Popen(serve_words(port, 2, settings=OF_LANGUAGE[language]), stdin=subprocess.DEVNULL) as server:
        try:
            connected(port).close()
            with Connection(port, TERMINAL) as made:
                yield made
        finally:
            server.kill()


def routines(folder: str) -> list[list[str]]:
    """The lines of each file .m in a folder and below, each content once."""
    paths = sorted(os.path.join(top, name) for top, _, names in os.walk(folder) for name in names if name.endswith(".m"))
    return [list(lines) for lines in dict.fromkeys(tuple(file_lines(path)) for path in paths)]


def is_code(line: SourceLine) -> bool:
    """Whether a line is more than label and comment."""
    return NO_CODE.fullmatch(line.rest) is None


def read(asked: Connection, texts: list[str]) -> list[Read]:
    """The lines of a routine, as the account's language reads them."""
    lines = [source_line(text) for text in texts]
    refused = {found.line: found.cause for found in checking.check(asked, lines) if found.kind is checking.Kind.REFUSED}
    return [Read(is_code(line), text != line.text, refused.get(place, "")) for place, (text, line) in enumerate(zip(texts, lines, strict=True), 1)]


def share(part: int, whole: int) -> str:
    """A part of a whole, in percent."""
    return f"{100 * part / whole:.1f} %" if whole else "-"


def row(title: str, lines: list[Read]) -> str:
    """A row of the first table: how many of these lines are taken."""
    taken = [line for line in lines if not line.cause]
    return f"| {title} of {len(lines):,} | {share(sum(not line.has_tabs for line in taken), len(lines))} | {share(len(taken), len(lines))} |"


def table(found: list[list[Read]]) -> Iterator[str]:
    """How much is taken of some routines, and the first causes of the rest."""
    lines = [line for routine in found for line in routine]
    whole = [routine for routine in found if not any(line.cause for line in routine)]
    yield f"| | as they are | as they are loaded |\n|---|---|---|\n| routines of {len(found):,}, whole | " \
          f"{sum(not any(line.has_tabs for line in routine) for routine in whole):,} | {len(whole):,} |"
    yield row("lines", lines)
    yield row("lines with code", [line for line in lines if line.is_code])
    yield "\n| first cause | lines | routines |\n|---|---|---|"
    causes = Counter(line.cause for line in lines if line.cause)
    within = Counter(cause for routine in found for cause in {line.cause for line in routine})
    for cause, count in sorted(causes.items(), key=lambda one: (-one[1], one[0])):
        yield f"| {cause} | {count:,} | {within[cause]:,} |"


def main() -> int:
    """Reads all routines of a folder, and prints the tables."""
    reader = argparse.ArgumentParser(description=__doc__.split("\n\n", maxsplit=1)[0])
    reader.add_argument("folder", metavar="FOLDER")
    reader.add_argument("--language", type=int, choices=sorted(OF_LANGUAGE), default=0, metavar="NUMBER",
                        help="the language that reads (default %(default)s, the profile)")
    reader.add_argument("--apart", type=int, default=sys.maxsize, metavar="LINES", help="routines of more lines are counted in a table of their own")
    asked = reader.parse_args()
    require_program()
    found = routines(asked.folder)
    if not found:
        sys.exit(f"coverage: {asked.folder} has no file .m")
    with connection(asked.language) as made:
        all_read = [read(made, texts) for texts in found]
    groups = ("routines", [one for one in all_read if len(one) <= asked.apart]), ("longer routines", [one for one in all_read if len(one) > asked.apart])
    for title, group in groups:
        if group:
            print(f"\n{title}, language {asked.language}\n", *table(group), sep="\n", flush=True)
    return 0


if __name__ == "__main__":
    sys.exit(main())
