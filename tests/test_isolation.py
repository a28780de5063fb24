# SPDX-License-Identifier: Apache-2.0
"""Drawn settings of three to five accounts and drawn streams of all their lines, hostile ones among them, over a store in memory, over one in a
file, and over one in a file by two runs, of which the second has the second half of the lines.

For each account three outputs are equal: the replies at its terminals if all lines are run, the output of `--only` over all lines, and the
replies at its terminals if there is nothing but the accounts that reach it: the settings cut to them, with their lines alone. An account
reaches another if a chain of grants leads there; a grant to write leads both ways.

In each of the settings accounts of language 0 and of language 1 share the host. A line with a form of language 1 ends by ZSYNTAX where the account
has language 0, with nothing written before it, and by ZSYNTAX never where it has language 1.

In some of them most grants are of routines, and half of the lines have routines of others run. A line that begins with one of an account that does not
let it be read is answered ZGRANT, and nothing else.

That the streams would show a leak is tested too: for some accounts the replies are others if their own lines are run alone, since they depend
on a grant, and in some settings if all accounts have all grants.

Hypothesis draws, so that a difference is shown of the fewest lines that have it."""
from __future__ import annotations

from collections import Counter
from collections.abc import Callable, Iterator

import pytest
from drawn_settings import LINES, Account, Case, Line, Runs, Setting, for_cases, later_lines, library_lines, runs_over, sent_by, told
from running import run
from second_interpreter.world import World, deep
from support import Grant, accounts_of, reaching, shown_to

# This many settings are drawn, of each kind of store, and of those with libraries.
SETTINGS = {"memory": 100, "file": 200, "file, two runs": 50, "memory, libraries": 200}
# An account of language 0 and one of language 1, who may write each other's routines and X; and one of language 1 who has no tie to them.
TIED: list[Grant] = [(giver, taker, name, "write") for giver, taker in (("ALICE", "BOB"), ("BOB", "ALICE")) for name in ("ROUTINE", "X")]
SHARED = Setting({"ALICE": Account([1], 2000, 0), "BOB": Account([2], 2000, 1), "CAROL": Account([3], 2000, 1)}, TIED)
# Lines with their replies, by the rules: a text is read in the language of the account whose line runs it, and who wrote it plays no part.
SHARED_LINES = [
    ('2 S ^|"ALICE"|ROUTINE("R",1)="R W $X,2**3 Q",^|"ALICE"|ROUTINE("R",2)="S W 1 Q"', '2.'),
    ('1 D S^R', '1-1\n1.'),
    ('1 D R^R', '1!ZSYNTAX'),
    ('1 S ^|"BOB"|ROUTINE("R",1)="R W !?2,2**3,$X Q"', '1.'),
    ('2 D R^R', '2:\n2-  83\n2.'),
    ('3 W "ab",!#,$X,$Y', '3:ab\n3-\\0C00\n3.'),
    ('1 W $X', '1!ZSYNTAX'),
    ('2 W $X,",",$Y,",",$J', '2-4,1,2\n2.'),
    ('1 S ^X="abc",^|"BOB"|X="W ?12,$FN(1234,"",""),*65"', '1.'),
    ('2 S $E(^|"ALICE"|X,2)="-" X ^X', '2-   1,234A\n2.'),
    ('1 W ^X X ^|"BOB"|X', '1-a-c\n1!ZSYNTAX'),
    ('1 S A="^X?@""3E""" W @A', '1!ZSYNTAX'),
    ('2 S A="3E" W ^X?@A,^|"ALICE"|X?@A', '2-01\n2.'),
    ('1 H 1', '1!ZSYNTAX'),
    ('2 H 1 W $X', '2-20\n2.'),
    ('2 H', '2.'),
    ('2 W $X,$Y', '2-00\n2.'),
    ('3 W $X,$Y S $P(^X,",",2,3)="x" W ^X', '3-20,x\n3.'),
    ('1 S ^|"BOB"|ROUTINE("F",1)="F(A,B) S B=A_$QUIT Q",^X="D F^F(7,.Y) W Y"', '1.'),
    ('1 X ^X', '1!ZSYNTAX'),
    ('2 X ^|"ALICE"|X', '2-70\n2.'),
    ('2 S ^|"ALICE"|ROUTINE("F",1)="F(A) W 1 Q",^|"ALICE"|ROUTINE("F",2)="G W 2 Q A" D F^F(,.^X)', '2!ZSYNTAX'),
    ('2 S ^|"ALICE"|ROUTINE("F",1)="F(A) W 1 Q",^|"ALICE"|ROUTINE("F",2)="G W 2 Q A"', '2.'),
    ('1 D F^F', '1!M13'),
    ('1 D ^F', '1!ZSYNTAX'),
    ('1 D G^F', '1!ZSYNTAX'),
    ('2 D S^|"ALICE"|R,F^|"ALICE"|F(5)', '2-11\n2.'),
    ('2 D R^|"ALICE"|R W !', '2:68\n2.'),
    ('2 D R^|"CAROL"|R', '2!ZGRANT'),
    ('1 D S^|"ALICE"|R', '1!ZSYNTAX'),
    ('3 D S^|"ALICE"|R', '3!ZGRANT'),
    ('3 D ^|"CAROL"|R', '3!M13'),
]


def judge(runs: Runs, setting: Setting, parts: list[list[Line]]) -> Iterator[str]:
    """Compares the three outputs of each account, of lines in one run or in two; gives a word for each account that nobody else reaches, for each that
    depends on a grant, and for each that would on others."""
    def answered(cut: Setting, members: set[str]) -> list[bytes]:
        return runs.answered(cut, *(sent_by(setting, members, part) for part in parts))
    answer = runs.answered(setting, *parts)
    lines = [line for part in parts for line in part]
    yield from judged_by_language(setting, lines, answer)
    yield from judged_by_grants(setting, lines, answer)
    other = runs.answered(setting.with_all_grants(), *parts)
    for account in setting.accounts:
        among_all = told(setting, account, answer)
        members = reaching(account, setting.grants)
        if members == {account}:
            yield "reached by nobody"
        alone, own = setting.cut(members), setting.cut({account})
        assert told(alone, account, answered(alone, members)) == among_all, f"{account} alone with {sorted(members)}"
        assert runs.answered(setting, *parts, only=account) == among_all, f"--only {account}"
        if told(own, account, answered(own, {account})) != among_all:
            yield "tied"
        if told(setting, account, other) != among_all:
            yield "open to all"


def judged_by_language(setting: Setting, lines: list[Line], answer: list[bytes]) -> Iterator[str]:
    """Looks at the lines with a form of language 1; gives a word for each that language 0 refuses, and for each that language 1 takes to its end."""
    for language, reply in later_lines(setting, lines, answer):
        is_refused = reply.endswith(b"!ZSYNTAX\n")
        assert is_refused == (language == 0) and (not is_refused or reply.count(b"\n") == 1), (language, reply)
        if is_refused or reply.endswith(b".\n"):
            yield "refused by language 0" if is_refused else "taken by language 1"


def judged_by_grants(setting: Setting, lines: list[Line], answer: list[bytes]) -> Iterator[str]:
    """Looks at the lines that begin with a routine of another account; gives a word for each that is not granted, and for each that runs to its end."""
    for may_call, reply in library_lines(setting, lines, answer):
        if not may_call:
            assert reply.endswith(b"!ZGRANT\n") and reply.count(b"\n") == 1, reply
            yield "library not granted"
        elif reply.endswith(b".\n"):
            yield "library run"


@pytest.mark.parametrize("kind", [pytest.param(kind, marks=() if kind == "memory" else pytest.mark.long) for kind in SETTINGS])
def test_each_account_is_shown_the_same(kind: str, count: int) -> None:
    seen: Counter[str] = Counter()
    draws, with_libraries = count * SETTINGS[kind], kind.endswith("libraries")

    @for_cases(draws, with_libraries)
    def isolated(case: Case) -> None:
        setting, lines = case
        half = len(lines) // 2
        with runs_over(kind.partition(",")[0]) as runs:
            seen.update(judge(runs, setting, [lines[:half], lines[half:]] if kind.endswith("two runs") else [lines]))
        seen.update({"accounts": len(setting.accounts), "lines": len(lines)})

    isolated()
    print(dict(seen))
    assert seen["reached by nobody"] > 0 and seen["tied"] > 0 and seen["open to all"] > 0
    assert seen["refused by language 0"] > draws / 2 and seen["taken by language 1"] > draws / 2
    # the first cases that are drawn are the shortest, which counts where few are
    assert seen["accounts"] >= 3 * draws and seen["lines"] >= 0.75 * draws * LINES
    assert min(seen["library not granted"], seen["library run"]) >= draws / 2 * with_libraries


def test_two_languages_with_grants_share_a_host(written: Callable[[str], str]) -> None:
    """Lines of an account of language 0 and of ones of language 1: what each is answered, among all and shown alone, and by the second interpreter."""
    stream, replies = ("".join(f"{text}\n" for text in column).encode("ascii") for column in zip(*SHARED_LINES, strict=True))
    settings = written(SHARED.document())
    assert run(stream, settings) == (0, replies, b"")
    assert deep(lambda: World(SHARED.document()).replies(stream)) == replies
    for name, terminals in accounts_of(settings).items():
        assert run(stream, settings, only=name) == (0, shown_to(replies, terminals), b"")
