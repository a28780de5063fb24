# SPDX-License-Identifier: Apache-2.0
"""The second interpreter (tests/second_interpreter), written from the rules, beside the program. What is coming is in tests/test_coming.py."""
from __future__ import annotations

import re
from collections.abc import Callable
from random import Random

import pytest
from against_gtm import replies
from blocks import SERVED, Block, blocks
from drawn_calls import actuals_of_do
from drawn_forms import PARAMETERS as FORMS, ROUTINES, quoted, session, session_of
from drawn_libraries import CLINIC, LIB, SHARED, Sent, beginning, functions_of, session as session_of_libraries, stored as stored_by
from second_interpreter.world import LONGEST_LINE, World, deep
from support import ACCOUNT, content, replies as program_replies
from test_coming import CALLED, FUNCTIONS, PARAMETERS

# A session of this many lines each; some 2,000 lines.
SESSIONS = 120
# Sessions of a stream, of five lines each, that hand something over.
HANDED = 50
# Sessions that call libraries, of some thirty lines each.
CALLING = 40
PLAYED = [block for block in blocks() if block.kind in SERVED]


def stream(lines: list[str]) -> bytes:
    """Lines of terminal 1 on the wire."""
    return "".join(f"1 {line}\n" for line in lines).encode("ascii")


def stored(routines: dict[str, list[str]]) -> list[str]:
    """Lines that store routines."""
    return [f"S ^ROUTINE({quoted(name)},{number})={quoted(text)}" for name, lines in routines.items() for number, text in enumerate(lines, 1)]


def interpreted(given: bytes, settings: str) -> bytes:
    """What the second interpreter replies to a stream."""
    return deep(lambda: World(content(settings).decode("ascii")).replies(given))


def part_of(block: Block) -> bytes:
    """The block's replies by the second interpreter."""
    return interpreted(block.stream(), SERVED[block.kind])


@pytest.mark.parametrize("file", sorted({block.file for block in PLAYED}))
def test_transcripts(file: str) -> None:
    """Each block of lines gives what the transcript has."""
    for block in (block for block in PLAYED if block.file == file):
        assert (block.name, part_of(block)) == (block.name, block.replies())


@pytest.mark.parametrize("steps", [2000, 60])
@pytest.mark.parametrize(("language", "forms"), [(0, 0), (1, 1), (0, 1)], ids=["language 0", "language 1", "forms of language 1 at language 0"])
def test_drawn_sessions_beside_the_program(count: int, language: int, forms: int, steps: int, written: Callable[[str], str]) -> None:
    """Sessions of all forms of a language are answered alike, byte for byte, also where their lines run out of steps."""
    drawn, settings = Random(steps), written(f"{ACCOUNT.format(1, steps)}language = {language}\n")
    for _ in range((3 if language == forms else 1) * count):
        lines = [*stored(ROUTINES), *(line for _ in range(SESSIONS // 6) for line in session(drawn, forms))]
        given = stream(lines)
        ours, programs = interpreted(given, settings), program_replies(given, settings=settings)
        assert len(list(replies(programs.decode("ascii")))) == len(lines)
        for line, one, other in zip(lines, replies(ours.decode("ascii")), replies(programs.decode("ascii")), strict=True):
            assert (line, one) == (line, other)


@pytest.mark.long
@pytest.mark.parametrize("steps", [2000, 60])
def test_drawn_lines_that_hand_something_over(count: int, steps: int, written: Callable[[str], str]) -> None:
    """1,250 lines with actuals, and `--count` times as many, by each allowance of steps: the lesser one ends half of them."""
    drawn, settings = Random(steps), written(f"{ACCOUNT.format(1, steps)}language = 1\n")
    for _ in range(5 * count):
        given = stream([*stored(ROUTINES), *(line for _ in range(HANDED) for line in session_of(drawn, FORMS))])
        ours, programs = (list(replies(one.decode("ascii"))) for one in (interpreted(given, settings), program_replies(given, settings=settings)))
        for line, one, other in zip(given.decode("ascii").splitlines(), ours, programs, strict=True):
            assert (line, one) == (line, other)


def sent(lines: list[Sent]) -> bytes:
    """Lines of several terminals on the wire."""
    return "".join(f"{terminal} {line}\n" for terminal, line in lines).encode("ascii")


def by_line(lines: list[Sent], *answers: bytes) -> list[tuple]:
    """Each line with its reply of each answer. Terminals have numbers of one digit."""
    return list(zip(lines, *(replies(answer.decode("ascii")) for answer in answers), strict=True))


@pytest.mark.parametrize("language", [0, 1])
@pytest.mark.parametrize("steps", [5000, 60])
def test_drawn_sessions_with_libraries_beside_the_program(count: int, language: int, steps: int, written: Callable[[str], str]) -> None:
    """Lines of several accounts that have routines of one another run, and change them. With the profile most are no lines."""
    drawn, settings = Random(steps), content(SERVED["libraries"]).decode("ascii")
    settings = written(settings.replace("steps = 5000", f"steps = {steps}").replace("language = 1", f"language = {language}"))
    for _ in range(count):
        lines = [*beginning(), *(line for _ in range(CALLING) for line in session_of_libraries(drawn))]
        for line, ours, programs in by_line(lines, interpreted(sent(lines), settings), program_replies(sent(lines), settings=settings)):
            assert (line, ours) == (line, programs)


def as_own(line: str) -> str:
    """A line without the environments of its entries."""
    return re.sub(r'\|"+LIB"+\|', "", line)


def test_library_does_what_the_same_lines_do_as_ones_own(count: int) -> None:
    """If two accounts have the same routines, then with an environment and without: by the second interpreter, and by the program. A variable that
    holds an entry is another text then, so those lines are left out."""
    drawn, settings = Random(81), SERVED["libraries"]
    begun = [line for terminal in (LIB, CLINIC) for line in stored_by(terminal, SHARED)]
    for _ in range(count):
        drawn_lines = [line for _ in range(5 * CALLING) for form in (actuals_of_do, functions_of)
                       for line in form(drawn, lambda: drawn.choice(['|"LIB"|', '|"LIB"|', ""]))]
        shared = [*begun, *((CLINIC, line) for line in drawn_lines if len(line) <= LONGEST_LINE and "@D" not in line)]
        own = [(terminal, as_own(line)) for terminal, line in shared]
        answers = interpreted(sent(shared), settings), *(program_replies(sent(lines), settings=settings) for lines in (own, shared))
        for line, ours, without, programs in by_line(shared, *answers):
            assert (line, ours, programs) == (line, without, without)


@pytest.mark.parametrize("language", [0, 1])
def test_lines_with_actuals_beside_the_program(language: int, written: Callable[[str], str]) -> None:
    """Each line that hands something over or calls a function, after the same beginning. With the profile most are no lines, and with language 1 those
    with functions where none is called."""
    settings = written(f"{ACCOUNT.format(1, 100_000)}language = {language}\n")
    lines = [*stored(CALLED), *(line for one in [*PARAMETERS, *FUNCTIONS] for line in ("K  K ^A W !", one))]
    ours, programs = interpreted(stream(lines), settings), program_replies(stream(lines), settings=settings)
    for line, one, other in zip(lines, replies(ours.decode("ascii")), replies(programs.decode("ascii")), strict=True):
        assert (line, one) == (line, other)
