# SPDX-License-Identifier: Apache-2.0
"""The lock of one name is counted up to a million, by lists of a thousand names, and down again. The replies are worked out by the rule that a
name is held 1,000,000 times at most, and that a list is taken whole or not at all."""
from __future__ import annotations

import pytest
from support import replies_of_lines

TAKE = 'F I=1:1:500 L @U'
GIVE_BACK = 'F I=1:1:500 L @V'
CASES = [
    ('S T="A" F I=1:1:10 S T=T_","_T', ["1."]),
    ('S U=$P(T,",",1,1000),V="-("_U_")",U="+("_U_")" W $L(U),$L(V)', ["1-20022002", "1."]),
    (TAKE, ["1."]),
    ("F I=1:1:499 L @U", ["1."]),
    # 999,999 at last: there is room for one, and not for two
    ('L @("+("_$P(T,",",1,999)_")") L +(A,A):0 W $T L +A:0 W $T L +A:0 W $T', ["1-010", "1."]),
    ("L +A", ["1!ZLOCKED"]),
    ("L +(B,A):0 W $T L +B:0 W $T L -A,+A W 2 L +A:0 W $T", ["1-0120", "1."]),
    (GIVE_BACK, ["1."]),
    (TAKE, ["1."]),
    ("L +A:0 W $T L  L +A:0 W $T", ["1-01", "1."]),
    (GIVE_BACK, ["1."]),
]


pytestmark = pytest.mark.together


@pytest.fixture(scope="module")
def found() -> list[list[str]]:
    """The replies to the lines, one after another."""
    return replies_of_lines([line for line, _ in CASES])


@pytest.mark.parametrize(("place", "reply"), enumerate(reply for _, reply in CASES), ids=[f"{place}: {line}" for place, (line, _) in enumerate(CASES)])
def test_line(found: list[list[str]], place: int, reply: list[str]) -> None:
    assert found[place] == reply
