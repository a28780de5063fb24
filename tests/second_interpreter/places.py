# SPDX-License-Identifier: Apache-2.0
"""Lines of routines: which one an entry means, and the text of one."""
from __future__ import annotations

import re
from dataclasses import dataclass, field

from . import reader
from .decimals import Stop, is_canonical, value, whole
from .listings import Listings
from .scopes import Tree


@dataclass
class Level:
    """A level: the lines that it keeps and the routine that they are of, as an entry names it after its `^`; at which it is, how many dots its lines
    have, and whether a value is wanted.

    For its faults: the line that was begun last and its command, or what text it runs."""

    lines: list[str] = field(default_factory=list)
    routine: str = ""
    at: int | None = None
    dots: int = 0
    wants_value: bool = False
    text: str = ""
    line: int = 0
    command: int = 0


@dataclass
class Entry:
    """An entry that is evaluated: a label or nothing, how many lines after it or None, a routine or None, and the account that it is of if that is named."""

    label: str
    offset: int | None
    routine: str | None
    owner: str | None = None


class Places(Listings):
    """Finds lines for a level."""

    level: Level

    def entry(self, label: str | tuple, offset: tuple | None, routine: str | tuple | None) -> Entry:
        """The parts of an entry, evaluated from left to right."""
        found = self.named(label, reader.label_pattern(self.account.language)) if isinstance(label, tuple) else label
        number = None if offset is None else whole(self.value(offset))
        if isinstance(routine, tuple) and routine[0] == "of":
            return Entry(found, number, routine[2], owner=routine[1])
        return Entry(found, number, self.named(routine, reader.NAME) if isinstance(routine, tuple) else routine)

    def named(self, part: tuple, pattern: re.Pattern[str]) -> str:
        """The text of an indirection, which is a label or a routine's name, and nothing more: ZSYNTAX."""
        text = self.value(part[1])
        self.free_level(is_indirection=True)
        if not pattern.fullmatch(text) or len(text) > 31:
            raise Stop("ZSYNTAX")
        return text

    def seek(self, entry: Entry, dots: int) -> tuple[list[str], str, int]:
        """The lines, their routine and the place that an entry means: M12 before its label, ZGRANT if another account's ROUTINE may not be read, M13 if
        there is none, ZLEVEL if it has other dots."""
        if entry.offset is not None and entry.offset < 0:
            raise Stop("M12")
        lines, name = self.lines_of(entry)
        at = self.place_of(lines, entry.label)
        if at is None or at + (entry.offset or 0) >= len(lines):
            raise Stop("M13")
        at += entry.offset or 0
        if reader.dots_of(lines[at], self.account.language) != dots:
            raise Stop("ZLEVEL")
        return lines, name, at

    def place_of(self, lines: list[str], label: str) -> int | None:
        """Where the first line with a label stands, or the first line if none is given."""
        return next((place for place, text in enumerate(lines) if not label or reader.label_of(text, self.account.language) == label), None)

    def lines_of(self, entry: Entry) -> tuple[list[str], str]:
        """The lines of the routine that an entry names, or those of the level, and its name, with its account if that is another. ZGRANT if that one does
        not let it be read."""
        if entry.routine is None:
            return self.level.lines, self.level.routine
        owner = self.account.name if entry.owner is None else entry.owner
        if not self.may_read(owner, "ROUTINE"):
            raise Stop("ZGRANT")
        return self.routine(owner, entry.routine), entry.routine if owner == self.account.name else f'|"{owner}"|{entry.routine}'

    def routine(self, owner: str, name: str) -> list[str]:
        """The lines of a routine of an account."""
        tree = self.store.get((owner, "ROUTINE")) or Tree()
        found = [(value(subscripts[1]), text) for subscripts, text in tree.texts.items()
                 if len(subscripts) == 2 and subscripts[0] == name and is_canonical(subscripts[1])]
        return [text for _, text in sorted(found)]

    def value_of_line(self, *parts: object) -> str:
        self.charge()
        return self.text_of_line(*parts)

    def text_of_line(self, label: str | tuple, offset: tuple | None, routine: str | tuple | None) -> str:
        """$TEXT: the text of a line, or nothing if there is none; `+0` is the name of the routine, if it has lines. M5 for an offset below 0."""
        entry = self.entry(label, offset, routine)
        if entry.offset is not None and entry.offset < 0:
            raise Stop("M5")
        lines, name = self.lines_of(entry)
        if label == "" and entry.offset == 0:
            return name.rpartition("|")[2] if lines else ""
        at = self.place_of(lines, entry.label)
        # lines that no label counts from are counted from 1
        after = (1 if entry.offset is None else entry.offset) - 1 if label == "" else entry.offset or 0
        return lines[at + after] if at is not None and at + after < len(lines) else ""

    def value_of_line_by(self, operand: tuple) -> str:
        self.charge()
        return self.text_of_line_by(operand)

    def text_of_line_by(self, operand: tuple) -> str:
        """$TEXT of what a text says, in which no function is called."""
        text = self.value(operand)
        self.free_level(is_indirection=True)
        kind, *parts = reader.line_named(text, self.account.language)
        with self.within_indirection(), self.without_calls():
            return self.text_of_line(*parts) if kind == "line" else self.text_of_line_by(*parts)
