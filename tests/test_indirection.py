# SPDX-License-Identifier: Apache-2.0
"""Lines in two forms, with indirection and without: all replies must be the same.

A line is drawn from parts, each of which is a pair: its plain text, and a text with indirection that means the same. Before each line stand
lines that assign the texts which its second form refers to, and after it a routine is done that writes what all variables hold; they are the
same in both runs. Hypothesis draws, so that a difference is shown of the shortest lines that have it."""
from __future__ import annotations

from collections import Counter
from random import Random

import pytest
from drawn_lines import Draw, quoted
from hypothesis import given, settings
from hypothesis import strategies as st
from running import OF_LANGUAGE
from support import replies_of_lines

# This many streams are drawn, of this many lines each.
STREAMS, LINES = 500, 5
LONGEST = 250
TRIES = 20
ROUTINES = [
    'S ^ROUTINE("R",1)="R S N=$G(N)+1 Q",^ROUTINE("R",2)="P S N=$G(N)+10 I N>20 Q",^ROUTINE("R",3)=" S N=N+100"',
    'S ^ROUTINE("G",1)="G W ""g"" Q",^ROUTINE("G",2)="H W ""h"",$G(I) Q"',
    'S ^ROUTINE("C",1)="A(A,X) S A=$G(A)_1,N=$G(N)+1 Q",^ROUTINE("C",2)="K(B,A) K B S A=3 Q",^ROUTINE("C",3)="N(C) N A S C=$G(C)_2,A=5 Q"',
    'S ^ROUTINE("C",4)="G(A,B) F N=1:1:2 G H:N=2",^ROUTINE("C",5)=" Q",^ROUTINE("C",6)="H S B=$G(A) Q"',
    'S ^ROUTINE("DUMP",1)="DUMP W $T,""|"",$G(N),""|"",$G(I),""|"",$G(A),""|"",$G(B),""|"",$G(C),""|"",$G(^A),""|"",$G(^B),""|"""',
    'S ^ROUTINE("DUMP",2)=" N X S X="""" F  S X=$O(A(X)) Q:X=""""  W X,""="",$G(A(X)),"":"",$D(A(X)),"";"""',
    'S ^ROUTINE("DUMP",3)=" S X="""" F  S X=$O(B(X)) Q:X=""""  W X,""="",$G(B(X)),"":"",$D(B(X)),"";"""',
    'S ^ROUTINE("DUMP",4)=" S X="""" F  S X=$O(^A(X)) Q:X=""""  W X,""="",$G(^A(X)),"":"",$D(^A(X)),"";"""',
    'S ^ROUTINE("DUMP",5)=" S X="""" F  S X=$O(^B(X)) Q:X=""""  W X,""="",$G(^B(X)),"":"",$D(^B(X)),"";"""',
]
BEGIN = [
    "K  K ^A,^B",
    'S A=3,B="xyxy",C=0,N=0,I=2,A(1)=4,A(2)="b",A("x",1)=6,B(1)=1,B(2,2)="two",^A=1,^A(1)=2,^A(2)="q",^B(1)="xy",^B(1,2)=5',
]


def drawn_line(drawn: Random, language: int) -> tuple[list[str], str, str]:
    """A line that is short enough: the lines before it, and its two forms. One that is not is drawn again, with fewer parts at last."""
    for _ in range(TRIES):
        draw = Draw(drawn, language)
        plain, other = draw.line()
        before = [f"S {name}={quoted(text)}" for name, text in draw.texts]
        if max(map(len, [plain, other, *before])) <= LONGEST:
            return [*before, "S ^A(0)=0"], plain, other
    return ["S ^A(0)=0"], "W A", 'W @"A"'


def runs(lines: list[tuple[list[str], str, str]]) -> tuple[list[str], list[str], list[int]]:
    """The lines of both runs, and at which places they are others."""
    plain_run, other_run, places = [*ROUTINES, *BEGIN], [*ROUTINES, *BEGIN], []
    for before, plain, other in lines:
        for run, line in (plain_run, plain), (other_run, other):
            run += [*before, line, "D ^DUMP"]
        if plain != other:
            places.append(len(plain_run) - 2)
    return plain_run, other_run, places


@pytest.mark.long
@pytest.mark.parametrize("language", OF_LANGUAGE)
def test_lines_with_indirection_and_without(count: int, language: int) -> None:
    """Most lines have indirection and end without a code, so that the test shows something. Of the later language half as many."""
    ends: Counter[str] = Counter()
    streams = count * STREAMS // (1 + language)

    @settings(max_examples=streams)
    @given(st.randoms(use_true_random=False))
    def alike(drawn: Random) -> None:
        plain_run, other_run, places = runs([drawn_line(drawn, language) for _ in range(LINES)])
        plain, other = (replies_of_lines(run, settings=OF_LANGUAGE[language]) for run in (plain_run, other_run))
        ends["lines with a form of language 1"] += sum(any(form in line.lower() for form in ("$re", "$ql", "$qs")) for line in other_run)
        for line, other_line, reply, other_reply in zip(plain_run, other_run, plain, other):
            assert (line, reply) == (line, other_reply), other_line
        ends.update(other[place][-1] for place in places)

    alike()
    print(ends)
    assert (ends.pop("lines with a form of language 1") >= streams) == (language == 1)
    assert not set(ends) & {"1!ZSYNTAX", "1!ZDEPTH", "1!ZSTEPS", "1!ZLINE"}
    assert ends.total() >= 0.8 * streams * LINES
    assert 2 * ends["1."] >= ends.total()
