# SPDX-License-Identifier: Apache-2.0
"""Routines as files: what a `.m` file has, line by line, and which routine it is."""
from __future__ import annotations

import difflib
import os
import re
from dataclasses import dataclass

from . import escape, keys
from .wire import ClientError

SUFFIX = ".m"
HEAD = re.compile(r"(?:([A-Za-z%][A-Za-z0-9]*)(\([A-Za-z0-9%,]*\))?)?([ \t][ \t.]*)?(.*)", re.ASCII | re.DOTALL)
# A string or a comment, whose tabs are its own; or a tab, which M reads as a space.
TAB = re.compile(r'("(?:[^"]|"")*"?|;.*)|\t', re.DOTALL)


class BadFile(ClientError):
    """A file that is no routine."""


@dataclass(frozen=True, slots=True)
class SourceLine:
    """A line of a routine: its label or nothing, what is in brackets right after it and may be a formal list, the spaces and dots after
    both, and the rest, which is a line of M."""

    label: str
    formals: str
    level: str
    rest: str

    @property
    def text(self) -> str:
        """The line as the routine has it."""
        return self.label + self.formals + self.level + self.rest


@dataclass(frozen=True, slots=True)
class Source:
    """A file's routine: its name, and its lines."""

    path: str
    name: str
    lines: list[SourceLine]

    def texts(self) -> list[str]:
        """The lines as the routine has them."""
        return [line.text for line in self.lines]


def source_line(text: str) -> SourceLine:
    """A line of a file cut into its parts. Tabs become spaces, but for those of strings and comments."""
    found = HEAD.fullmatch(text)
    assert found is not None, "each part may be empty"
    label, formals, level, rest = found.groups(default="")
    return SourceLine(label, formals, level.replace("\t", " "), TAB.sub(lambda found: found[1] or " ", rest))


def routine_name(path: str) -> str:
    """The routine of a file: NAME of NAME.m, and %NAME of _NAME.m."""
    stem, suffix = os.path.splitext(os.path.basename(path))
    name = "%" + stem[1:] if stem.startswith("_") else stem
    if suffix != SUFFIX or not keys.is_name(name):
        raise BadFile(f"{path}: no name of a routine: a file is NAME.m, or _NAME.m for %NAME, with at most 31 letters and digits")
    return name


def file_name(name: str) -> str:
    """The file of a routine."""
    return name.replace("%", "_") + SUFFIX


def read_source(path: str) -> Source:
    """The routine of a file. BadFile, with the place, if it has a line that is too long."""
    name, lines = routine_name(path), file_lines(path)
    for number, text in enumerate(lines, 1):
        if len(text) > keys.MAX_TEXT:
            raise BadFile(f"{path}:{number}: {len(text):,} characters: a line has at most {keys.MAX_TEXT:,}")
    return Source(path, name, list(map(source_line, lines)))


def file_lines(path: str) -> list[str]:
    """The lines that a file has, as they are there."""
    with open(path, "rb") as file:
        data = file.read()
    lines = [line.removesuffix(b"\r").decode("utf-8", "surrogateescape") for line in data.split(b"\n")]
    return lines if lines[-1] else lines[:-1]


def with_tabs_of(path: str, text: str) -> str:
    """What the file of a routine is to have, with the tabs that it has now: a line that differs from one of the file by tabs alone stays as the
    file has it."""
    lines, before = text.split("\n"), file_lines(path)
    alike = difflib.SequenceMatcher(None, [source_line(line).text for line in before], lines, autojunk=False)
    for block in alike.get_matching_blocks():
        lines[block.b:block.b + block.size] = before[block.a:block.a + block.size]
    return "\n".join(lines)


def refuse_over(found: list[Source]) -> None:
    """BadFile, with the place, if a line of a routine has a character over 127."""
    for source in found:
        for number, line in enumerate(source.lines, 1):
            if over := re.search(r"[^\x00-\x7f]", line.text):
                raise BadFile(f"{source.path}:{number}:{over.start() + 1}: the character {over[0]!r} is over 127: values and lines are ASCII, comments too")


def sources(paths: list[str]) -> list[Source]:
    """The routines of files and of the files NAME.m in folders."""
    found: list[Source] = []
    for path in paths:
        found += map(read_source, _files(path))
    names = [source.name for source in found]
    twice = next((name for name in names if names.count(name) > 1), None)
    if twice is not None:
        raise BadFile(f"the routine {twice} is given by {' and by '.join(source.path for source in found if source.name == twice)}")
    return found


def _files(path: str) -> list[str]:
    if not os.path.isdir(path):
        return [path]
    files = [os.path.join(path, name) for name in sorted(os.listdir(path)) if name.endswith(SUFFIX)]
    if not files:
        raise BadFile(f"{path}: the folder has no file NAME.m")
    return files


def stored_source(source: Source) -> Source:
    """The routine of a file with an escape for each character over 127. BadFile, with the place, if it has bytes that are no UTF-8."""
    lines = []
    for number, line in enumerate(source.lines, 1):
        try:
            lines.append(source_line(escape.stored(line.text)))
        except escape.NotText as error:
            raise BadFile(f"{source.path}:{number}: {error}") from error
    return Source(source.path, source.name, lines)


def file_text(name: str, texts: list[str], in_utf_8: bool = False) -> str:
    """What the file of a routine has, with the characters for which escapes stand if that is wanted. BadFile if a line of the routine cannot be
    a line of a file."""
    for number, text in enumerate(texts, 1):
        if "\n" in text or text.endswith("\r"):
            raise BadFile(f"{name}: its line {number} has a line feed, or ends by a carriage return: no file can have it as one line")
    return "".join((escape.shown(text) if in_utf_8 else text) + "\n" for text in texts)
