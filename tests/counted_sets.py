# SPDX-License-Identifier: Apache-2.0
"""SETs that tests send one after another over a store in a file, and which of them a store holds."""
from __future__ import annotations

from running import run

# Counts the nodes, and those that have not their own text.
COUNT = b'1 S N=0,B=0,X="" F  S X=$O(^K(X)) Q:X=""  S N=N+1 S:^K(X)\'=(X_":"_$J(X,200)) B=B+1\n1 W N,",",B,",",$O(^K(""),-1)\n'


def set_line(number: int) -> bytes:
    """The SET of a number, whose value is made of it."""
    return b'1 S ^K(%d)="%d:"_$J(%d,200)\n' % (number, number, number)


def found(settings: str, store: str) -> int | None:
    """How many SETs a store holds: those from 1 on, without a gap, each with its own text; None if it holds anything else, or is refused."""
    status, output, told = run(COUNT, settings, store)
    if (status, told) != (0, b"") or not output.startswith(b"1.\n1-"):
        return None
    nodes, wrong, last = output.split(b"\n")[1][2:].split(b",")
    return int(nodes) if (wrong, int(last or b"0")) == (b"0", int(nodes)) else None


def held(settings: str, store: str) -> int:
    """The same, of a store that holds SETs alone."""
    count = found(settings, store)
    assert count is not None
    return count
