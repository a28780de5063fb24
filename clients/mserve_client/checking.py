# SPDX-License-Identifier: Apache-2.0
"""Checks lines of routines, without running any: whether each is in the language, and what else a reader should know of it.

language.py says where and why a line is not. The server has the last word: a line's label and dots are taken off, and the rest is sent after
`Q  `, where it is read whole and never reached. A rest that is too long for that is put together in a local variable that the session does
not have, and run by XECUTE, after `Q  ` too; then that local is killed. The language is the account's, which the server tells in the same way:
by whether it takes a line that is new in a language."""
from __future__ import annotations

import re
from collections.abc import Iterator
from contextlib import suppress
from dataclasses import dataclass, replace
from enum import Enum

from . import grammar, keys, language
from .grammar import LANGUAGES
from .mtext import is_barred, set_lines
from .routine_files import Source, SourceLine, source_line
from .routines import is_line, nodes_of
from .walk import AnsweredByCode, asked, free_local
from .wire import LONGEST_LINE, ClientError, Connected

GUARD = "Q  "
LONGEST_REST = keys.MAX_TEXT - len(GUARD)
_TIMEOUT = re.compile(r".*:(.*)", re.DOTALL)
# What is wrong before the first command of a line, with its parts in the braces.
OVER_127 = "the character {} is over 127: values and lines are ASCII, comments too"
LONG_LABEL = "the label {} has {} characters"
PARAMETERS = f"the label {{}} has parameters, which need language {grammar.PARAMETERS_SINCE} of the account's settings"
NO_FORMALS = "after the label {} stands no formal list"
NO_BEGIN = "the line begins with {}"
LONG_LINE = "the line has {} characters, too many to check"
CUT = "Cut it in two: {} after label and dots can be checked."
WAITS = "In M this waits until the lock is free; here the line ends with ZLOCKED at once: write L +A:0 E  .., and send the line again."
NO_WAIT = "In M this waits so many seconds; here the timeout plays no part, and $TEST says at once whether the lock was taken."


class Kind(Enum):
    """What a finding is: a line that is not in the language, a label or a routine that is not there, or a line that means something else in M."""

    REFUSED = "not in the language"
    MISSING = "not there"
    WARNING = "a warning"


@dataclass(frozen=True, slots=True)
class Finding:
    """What is to be said of a line: its number and the column, both from 1, what it is, what to do about it, and why it is refused, in a few
    words that do not depend on the line."""

    line: int
    column: int
    message: str
    advice: str = ""
    kind: Kind = Kind.REFUSED
    cause: str = ""


@dataclass(frozen=True, slots=True)
class Entry:
    """What a DO or a GOTO names: a label or nothing, a routine or nothing, with its account if that is named, and where that stands."""

    line: int
    column: int
    label: str
    routine: str


def language_of(connection: Connected) -> int:
    """The language of the terminal's account: the newest one that the server takes a new line of."""
    replies = connection.pipeline(GUARD + line for line in grammar.NEW_LINES.values())
    taken = [number for (number, line), reply in zip(grammar.NEW_LINES.items(), replies, strict=True) if _is_accepted(line, reply.code)]
    return max(taken, default=language.PROFILE)


def fault_of(connection: Connected, text: str) -> language.LineFault | None:
    """Why the server has refused a line. It is asked for the account's language only if the verdicts of several leave that open."""
    told = {number: language.fault(text, number) for number in LANGUAGES}
    refusing = {number: fault for number, fault in told.items() if fault is not None}
    if len(set(refusing.values())) < 2:
        return next(iter(refusing.values()), None)
    return told[language_of(connection)]


def check(connection: Connected, lines: list[SourceLine], number: int | None = None) -> list[Finding]:
    """What is not in a language, the account's if no other is named, line by line, and what means something else in M."""
    own = language_of(connection)
    number = own if number is None else number
    found = []
    plain = [line.rest if line.rest.isascii() else "" for line in lines]
    for place, accepted in enumerate(accepted_rests(connection, plain)):
        line = lines[place]
        finding = _of_form(line, number) or _refused(line, accepted if number == own else None, number)
        found += [replace(one, line=place + 1) for one in ([finding] if finding is not None else _locks(line, number))]
    return found


def accepted_rests(connection: Connected, rests: list[str]) -> Iterator[bool]:
    """Whether the server takes each of these lines of M."""
    replies = connection.pipeline(GUARD + rest for rest in rests if _is_short(rest))
    answer = iter([reply.code for reply in replies])
    for rest in rests:
        yield _is_accepted(rest, next(answer) if _is_short(rest) else _long_answer(connection, rest))


def _is_short(rest: str) -> bool:
    """Whether a line of the wire can have it."""
    return len(GUARD + rest) <= LONGEST_LINE and not is_barred(rest)


def _is_accepted(line: str, code: str | None) -> bool:
    if code is not None and code != "ZSYNTAX":
        raise AnsweredByCode(line, code)
    return code is None


def _long_answer(connection: Connected, rest: str) -> str | None:
    """The code that a line is answered which is too long for the wire."""
    if len(rest) > LONGEST_REST:
        return "ZSYNTAX"
    local = free_local(connection)
    try:
        for line in set_lines(local, GUARD + rest):
            asked(connection, line)
        return connection.send(f"X {local}").code
    finally:
        with suppress(ClientError):
            connection.send(f"K {local}")


def _of_form(line: SourceLine, number: int) -> Finding | None:
    """What is wrong with a line before its first command in a language, or with its characters."""
    if (over := language.OVER_PLACE.search(line.text)) is not None:
        return Finding(0, over.start() + 1, OVER_127.format(repr(over[0])), language.OVER.advice,
                       cause=language.OVER.name)
    if len(line.label) > keys.MAX_NAME:
        return Finding(0, 1, LONG_LABEL.format(line.label, len(line.label)), language.NO_LABEL, cause=f"a label of more than {keys.MAX_NAME} characters")
    has_brackets = bool(line.label) and (line.formals or not line.level and line.rest.startswith("("))
    if has_brackets and number < grammar.PARAMETERS_SINCE:
        return Finding(0, len(line.label) + 1, PARAMETERS.format(line.label), language.LABEL_PARAMETERS, cause=language.PARAMETERS)
    if has_brackets and not is_formal_list(line.formals):
        return Finding(0, len(line.label) + 1, NO_FORMALS.format(line.label), language.FORMALS, cause="brackets after a label that are no formal list")
    if not line.level and line.rest and not line.rest.startswith(";"):
        return Finding(0, before(line) + 1, NO_BEGIN.format(repr((line.label + line.formals + line.rest)[:20])), language.NO_LABEL,
                       cause="what begins the line is no label")
    if len(line.rest) > LONGEST_REST:
        return Finding(0, 1, LONG_LINE.format(f"{len(line.text):,}"), CUT.format(f"{LONGEST_REST:,}"), cause="a line that is too long")
    return None


def _refused(line: SourceLine, accepted: bool | None, number: int) -> Finding | None:
    """Why a line is not in a language; None if it is. Of the account's own language the server has the last word: whether it has accepted it."""
    if accepted:
        return None
    found = language.fault(line.rest, number)
    if found is None:
        return None if accepted is None else Finding(0, before(line) + 1, f"not in the language: {line.rest[:60]}", "The server refuses it.",
                                                     cause="another cause")
    return Finding(0, before(line) + found.place + 1, f"not in the language: {line.rest[found.command:][:60]}: {found.name}", found.advice,
                   cause=found.name)


def is_formal_list(text: str) -> bool:
    """Whether what is in brackets after a label is a formal list: names, each once, or none."""
    names = text[1:-1].split(",")
    return text == "()" or bool(text) and all(map(keys.is_name, names)) and len(set(names)) == len(names)


def before(line: SourceLine) -> int:
    """How many characters come before a line's first command."""
    return len(line.label) + len(line.formals) + len(line.level)


def _locks(line: SourceLine, number: int) -> Iterator[Finding]:
    """The arguments of LOCK that would wait in M."""
    if "L" not in line.rest.upper():
        return
    for name, start, end in language.reader(number).read(line.rest).marks:
        text = line.rest[start:end]
        if name != "lock" or text.startswith(("-", "@")):
            continue
        timeout = _TIMEOUT.fullmatch(language.blanked(text))
        if timeout is None:
            yield Finding(0, before(line) + start + 1, f"LOCK {text[:60]} does not wait", WAITS, Kind.WARNING)
        elif timeout[1] != "0":
            yield Finding(0, before(line) + start + 1, f"LOCK {text[:60]} does not wait", NO_WAIT, Kind.WARNING)


def entries(lines: list[SourceLine], number: int) -> Iterator[Entry]:
    """What the DOs, the GOTOs and the calls of functions of a routine name. What is in strings, or after an @, is not looked at."""
    for place, line in enumerate(lines, 1):
        for name, start, end in language.reader(number).read(line.rest).marks if _may_call(line) else ():
            if name == "entry":
                label, _, routine = line.rest[start:end].partition("^")
                yield Entry(place, before(line) + start + 1, label, routine)


def _may_call(line: SourceLine) -> bool:
    """Whether a line may have a DO, a GOTO or a call of a function."""
    return line.rest.isascii() and re.search(r"(?:^|[ ])(?:D|DO|G|GOTO)[ :]|\$\$", line.rest, re.IGNORECASE) is not None


class Labels:
    """The labels of routines: of those that are checked, and of those that the account has."""

    def __init__(self, connection: Connected, checked: list[Source]) -> None:
        self._connection = connection
        self._known: dict[str, set[str] | None] = {source.name: {line.label for line in source.lines if line.label} for source in checked}

    def of(self, routine: str) -> set[str] | None:
        """The labels of a routine; None if there is no such routine."""
        if routine not in self._known:
            texts = [node[1] for node in nodes_of(self._connection, routine) if is_line(node)]
            self._known[routine] = {source_line(text).label for text in texts} if texts else None
        return self._known[routine]

    def missing(self, source: Source, number: int) -> Iterator[Finding]:
        """The labels and routines that a routine names and that are not there. Those of an account that is named are not looked for."""
        for entry in entries(source.lines, number):
            if entry.routine.startswith("|"):
                continue
            labels = self.of(entry.routine or source.name)
            if labels is None:
                yield Finding(entry.line, entry.column, f"there is no routine {entry.routine}", "Neither these files nor the account have it: M13.",
                              Kind.MISSING)
            elif entry.label and entry.label not in labels:
                yield Finding(entry.line, entry.column, f"the routine {entry.routine or source.name} has no label {entry.label}",
                              "A label begins its line, and its case of letters counts: M13.", Kind.MISSING)


def findings(connection: Connected, checked: list[Source], number: int | None = None) -> Iterator[tuple[Source, list[Finding]]]:
    """What is to be said of each of some routines, line by line, by a language, the account's if no other is named."""
    number = language_of(connection) if number is None else number
    labels = Labels(connection, checked)
    for source in checked:
        found = check(connection, source.lines, number)
        yield source, sorted([*found, *labels.missing(source, number)], key=lambda one: (one.line, one.column))
