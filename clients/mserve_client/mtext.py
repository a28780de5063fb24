# SPDX-License-Identifier: Apache-2.0
"""Texts of M: how a text, a subscript and a node are written in a line, and how a long text is put together by lines."""
from __future__ import annotations

import re
from collections.abc import Iterator
from functools import lru_cache

from . import keys
from .wire import LONGEST_LINE

_BARRED = re.compile(r"[\x00\n\r]")
_CONTROLS = re.compile(r"[\x00-\x1f\x7f]+")
REFERENCE = re.compile(r"(?:\^(?:\|[^|]+\|)?)?[A-Za-z%][A-Za-z0-9]{0,30}(?:\((.*)\))?", re.ASCII | re.DOTALL)


def quoted(text: str) -> str:
    """The text as an expression that fits into a line: what no line can have, or none through a front, by $C with its code."""
    text = text.replace('"', '""')
    return '"' + (_BARRED.sub(lambda found: f'"_$C({ord(found[0])})_"', text) if _BARRED.search(text) else text) + '"'


def is_barred(text: str) -> bool:
    """Whether a text has a character that no line can have, or none through a front."""
    return _BARRED.search(text) is not None


def written(text: str) -> str:
    """The text as people read it: a number bare, another text in quotes, and controls by $C with their codes."""
    return text if keys.units(text) is not None else in_quotes(text)


def in_quotes(text: str) -> str:
    """The text in quotes, with controls by $C with their codes, as in a ZWR extract."""
    if text.isprintable() or not _CONTROLS.search(text):
        return '"' + text.replace('"', '""') + '"'
    parts, at = [], 0
    for found in _CONTROLS.finditer(text):
        if found.start() > at:
            parts.append('"' + text[at:found.start()].replace('"', '""') + '"')
        parts.append("$C(" + ",".join(str(ord(code)) for code in found[0]) + ")")
        at = found.end()
    if at < len(text):
        parts.append('"' + text[at:].replace('"', '""') + '"')
    return "_".join(parts)


def written_node(name: str, subscripts: keys.Subscripts) -> str:
    """A node as people read it."""
    return f"{name}({','.join(map(written, subscripts))})" if subscripts else name


def arguments(text: str) -> list[str]:
    """The arguments that a text has between commas, outside of strings and brackets."""
    parts, start, depth, is_string = [], 0, 0, False
    for place, code in enumerate(text):
        is_string ^= code == '"'
        if not is_string:
            depth += (code == "(") - (code == ")")
            if code == "," and depth == 0:
                parts.append(text[start:place])
                start = place + 1
    return [*parts, text[start:]]


@lru_cache(1 << 13)
def subscript(text: str) -> str:
    """A subscript as it is written in a line."""
    return quoted(text) if keys.units(text) is None else text


def reference(name: str, subscripts: keys.Subscripts = ()) -> str:
    """A node as it is written in a line: the name, with `^` for a global, and its subscripts."""
    return f"{name}({','.join(map(subscript, subscripts))})" if subscripts else name


def is_reference(text: str) -> bool:
    """Whether the text looks like a variable with a name, alone or with subscripts: a naked reference and `@` do not."""
    return REFERENCE.fullmatch(text) is not None


def set_lines(target: str, text: str, longest: int = LONGEST_LINE) -> Iterator[str]:
    """Lines that set the target to the text: one, or several that put it together. ValueError if no line has room for a part."""
    first, more = f"S {target}=", f"S {target}={target}_"
    parts = cut(text, longest - len(first), longest - len(more))
    for number, part in enumerate(parts):
        yield (more if number else first) + part


def cut(text: str, room: int, further: int) -> Iterator[str]:
    """The text as quoted parts: the first has `room` characters at most, and the others `further` each."""
    whole = quoted(text)
    if len(whole) <= room:
        yield whole
        return
    if min(room, further) < 12:
        raise ValueError("no room for a text")
    while text:
        taken = _fitting(text, room)
        yield quoted(text[:taken])
        text, room = text[taken:], further


def _fitting(text: str, room: int) -> int:
    """How many characters of the text fit, quoted, into the room."""
    least, most = 1, min(len(text), room - 2)
    while least < most:
        middle = (least + most + 1) // 2
        if len(quoted(text[:middle])) <= room:
            least = middle
        else:
            most = middle - 1
    return least
