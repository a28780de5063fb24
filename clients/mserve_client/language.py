# SPDX-License-Identifier: Apache-2.0
"""Where a line leaves the language, why, and what to write instead: for the shell, for `check` and, by the same tables, for the page.

The server alone decides whether a line is in the language. This agrees with it on drawn texts and on every line of GT.M's routines
(clients/tests/test_language.py). Each verdict is of a language, by its number: an account has the one that the settings give it, and
checking.py asks the server which one that is. 0 is the profile."""
from __future__ import annotations

import re
from dataclasses import dataclass
from functools import cache

from .causes import CAUSES, END, Cause
from .grammar import LANGUAGES, PARAMETERS_SINCE, Outcome, Reader

PROFILE, NEWEST = 0, max(LANGUAGES)
NO_LABEL = "a label begins with a letter or %, and has at most 31 letters and digits; a line without one begins with a space"
PARAMETERS = f"a label with parameters, which needs language {PARAMETERS_SINCE} of the account's settings"
LABEL_PARAMETERS = "Without it: the caller SETs the variables, and the line begins with LABEL and a space."
FORMALS = "A formal list is names with commas between, each once, right after the label: LABEL(A,B)."
OVER = Cause("a character over 127", "Values and lines are ASCII, comments too: write another character.", "")
STRING = re.compile(r'"(?:[^"]|"")*"?')
OVER_PLACE = re.compile(r"[^\x00-\x7f]")
# The word of a command with its condition, and the space after it.
HEAD = re.compile(r"[A-Za-z]+(?::\S+)? ")


@dataclass(frozen=True, slots=True)
class LineFault:
    """Why a line is not in the language: the code that it is answered, the place from 0, where its command begins, the cause, and what to
    write instead."""

    code: str
    place: int
    command: int
    name: str
    advice: str


@cache
def reader(language: int) -> Reader:
    """The reader of a language. ValueError if there is none of this number."""
    if language not in LANGUAGES:
        raise ValueError(f"there is no language {language}: mserve has {', '.join(map(str, LANGUAGES))}")
    return Reader(LANGUAGES[language])


def fault(text: str, language: int = PROFILE) -> LineFault | None:
    """Why a line, without label and dots, is not in a language; None if it is. A line's length is not looked at."""
    if found := OVER_PLACE.search(text):
        return LineFault("ZCHAR", found.start(), found.start(), OVER.name, OVER.advice)
    outcome = reader(language).read(text)
    if outcome.end >= 0:
        return None
    blank = blanked(text)
    cause = next(cause for cause in CAUSES if _fits(cause, blank, outcome, language))
    place = argument_place(blank, outcome) - 1 if cause.reads == "argument" else max(outcome.place - cause.back, 0)
    command = place if cause.wanted == "command" and not cause.back else outcome.command
    return LineFault("ZSYNTAX", place, command, cause.name, cause.advice)


def _fits(cause: Cause, blank: str, outcome: Outcome, language: int) -> bool:
    """Whether a cause is that of a fault. What a language has is none in it."""
    if cause.since is not None and language >= cause.since:
        return False
    if cause.wanted and not any(wanted.startswith(cause.wanted) for wanted in outcome.wanted):
        return False
    if not _pattern(cause.here).match(blank, outcome.place) or not _pattern(cause.command).match(blank, outcome.command):
        return False
    if cause.before and not _pattern(f"(?:{cause.before}){END}").search(blank[:outcome.place]):
        return False
    return not cause.reads or _reads(cause.reads, blank, outcome, language)


def _reads(where: str, blank: str, outcome: Outcome, language: int) -> bool:
    """Whether a command can be read at the place of a fault, or at the argument of the command that it is in."""
    at = argument_place(blank, outcome) if where == "argument" else outcome.place
    return reader(language).read(blank, "command", at).end >= 0


def argument_place(blank: str, outcome: Outcome) -> int:
    """Where the first argument of the command stands that a fault is in; the command's own place if it has none."""
    head = HEAD.match(blank, outcome.command)
    return head.end() if head else outcome.command


@cache
def _pattern(pattern: str) -> re.Pattern[str]:
    return re.compile(pattern, re.IGNORECASE | re.ASCII)


def blanked(text: str) -> str:
    """The text with what is in its strings blanked out, and without its comment; places stay the same."""
    text = STRING.sub(lambda found: '"' + "." * (len(found[0]) - 2) + '"' if len(found[0]) > 1 else '"', text)
    return text.partition(";")[0]


def pointed(text: str, found: LineFault) -> list[str]:
    """The lines that show a fault to a person: the text, and below it the place with the cause, and what to write instead."""
    plain = text.replace("\t", " ")
    told = f"{' ' * found.place}^ {found.code}: {found.name}"
    return [plain, told, *([f"{' ' * found.place}  {found.advice}"] if found.advice else [])]
