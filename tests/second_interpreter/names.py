# SPDX-License-Identifier: Apache-2.0
"""Names of nodes as texts: how one is written, and how it is taken apart."""
from __future__ import annotations

import re

from .decimals import Stop, is_canonical, whole
from .languages import SINCE
from .texts import checked

STRING = r'"(?:[^"]|"")*"'
_NAME = re.compile(rf"(?:(\^)(?:\|({STRING})\|)?)?([A-Za-z%][A-Za-z0-9]{{0,30}})(?:\((.*)\))?", re.ASCII | re.DOTALL)
_SUBSCRIPT = re.compile(rf"({STRING}|[^\",()]+)(,|$)", re.ASCII | re.DOTALL)


def quoted(text: str) -> str:
    """A text as a string of M."""
    return '"' + text.replace('"', '""') + '"'


def unquoted(text: str) -> str:
    """What a string of M stands for."""
    return text[1:-1].replace('""', '"')


def name_text(own: str, account: str | None, name: str, subscripts: tuple[str, ...]) -> str:
    """The name of a node. ZLONG."""
    return checked(whole_name(own, account, name, subscripts))


def whole_name(own: str, account: str | None, name: str, subscripts: tuple[str, ...]) -> str:
    """The name of a node, of any length: of a local, of a global of one's own account, or of another one's, which its environment tells."""
    front = "" if account is None else "^" if account == own else f"^|{quoted(account)}|"
    listed = ",".join(one if is_canonical(one) else quoted(one) for one in subscripts)
    return f"{front}{name}({listed})" if subscripts else front + name


def taken_apart(text: str) -> tuple[str, str, list[str]]:
    """The environment of a name, or nothing; its name, with `^` of a global; its subscripts, which are strings or canonical numbers. M90."""
    found = _NAME.fullmatch(text)
    if not found:
        raise Stop("M90")
    caret, environment, name, listed = found.groups()
    subscripts, at, more = [], 0, listed is not None
    while more:
        one = _SUBSCRIPT.match(listed, at)
        if not one or not (one[1].startswith('"') or is_canonical(one[1])):
            raise Stop("M90")
        subscripts.append(unquoted(one[1]) if one[1].startswith('"') else one[1])
        at, more = one.end(), one[2] == ","
    return unquoted(environment or '""'), (caret or "") + name, subscripts


def count_of_subscripts(text: str) -> str:
    return str(len(taken_apart(text)[2]))


def part_of_name(text: str, number: str) -> str:
    """$QSUBSCRIPT: a subscript, or nothing if there is none; 0 is the name, -1 the environment. ZARG below -1, and then M90."""
    place = whole(number)
    if place < -1:
        raise Stop("ZARG")
    environment, name, subscripts = taken_apart(text)
    return [environment, name, *subscripts][place + 1] if place <= len(subscripts) else ""


FUNCTIONS = [("QL", "QLENGTH", 1, 1, SINCE["$QLENGTH"], count_of_subscripts), ("QS", "QSUBSCRIPT", 2, 2, SINCE["$QSUBSCRIPT"], part_of_name)]
