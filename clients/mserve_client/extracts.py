# SPDX-License-Identifier: Apache-2.0
"""Files of nodes: ZWR and GO, as GT.M and YottaDB write them, and JSON lines. Each is read and written node by node.

What a file has and a store cannot take is a Problem, in its place among the nodes."""
from __future__ import annotations

import io
import json
import re
import time
from collections.abc import Callable, Iterable, Iterator
from dataclasses import dataclass
from functools import lru_cache
from itertools import chain, islice
from typing import IO, NamedTuple

from . import escape, keys, mtext
from .wire import ClientError

FORMATS = ("zwr", "go", "json")
TITLE = "mserve mglobal export"
_NAME = r"\^(%?[A-Za-z][A-Za-z0-9]*|%)"
# Subscripts as most lines have them: without quotes and codes in their texts.
_PLAIN = r'(?:-?[0-9.]+|"[^"]+")'
_PLAIN_NODE = re.compile(rf"{_NAME}(?:\(({_PLAIN}(?:,{_PLAIN})*))?", re.ASCII)
_PLAIN_LAST = re.compile(rf"({_PLAIN})\)", re.ASCII)
_NODE_HEAD = re.compile(_NAME, re.ASCII)
_TOKEN = re.compile(r'"((?:[^"]|"")*)"|\$(?:C|CHAR|ZCH|ZCHAR)\((\d+(?:,\d+)*)\)|(-?(?:\d+(?:\.\d+)?|\.\d+)(?:E[+-]?\d+)?)', re.ASCII | re.IGNORECASE)
_PARTS = re.compile(r'"[^"]*"|[^,]+')
_OVER = re.compile(r"[^\x00-\x7f]")


class BadExtract(ClientError):
    """A file that is in no form that can be read."""


class Entry(NamedTuple):
    """A node of a file: the number of its line, its name, its subscripts and its text."""

    line: int
    name: str
    subscripts: keys.Subscripts
    text: str


class Problem(NamedTuple):
    """A line of a file that cannot come in, and why."""

    line: int
    reason: str


Record = Entry | Problem


@dataclass(frozen=True, slots=True)
class Form:
    """How a file is written: `zwr`, `go` or `json`, or None to find that out; what stands for an empty subscript, if any does; and whether the
    file is UTF-8, so that escapes stand for its characters over 127."""

    name: str | None = None
    null: str = ""
    in_utf_8: bool = False

    @property
    def encoding(self) -> str:
        """The encoding of the file."""
        return "utf-8" if self.in_utf_8 else "latin1"

    def is_plain(self, line: str) -> bool:
        """Whether the texts of a line are those of the node as they stand."""
        return line.isascii() and not (self.in_utf_8 and "~" in line)

    def taken(self, text: str) -> str:
        """A text of the file as the node has it. Unreadable if it has bytes that are no UTF-8."""
        try:
            return escape.stored(text) if self.in_utf_8 else text
        except escape.NotText as error:
            raise Unreadable(str(error)) from error

    def taken_subscripts(self, subscripts: keys.Subscripts) -> keys.Subscripts:
        """The subscripts of the file as the node has them."""
        return tuple(self.taken(text) or self.null for text in subscripts)

    def given(self, subscripts: keys.Subscripts, text: str) -> tuple[keys.Subscripts, str]:
        """The subscripts and the text of a node as the file has them."""
        if self.null:
            subscripts = tuple("" if part == self.null else part for part in subscripts)
        return (tuple(map(escape.shown, subscripts)), escape.shown(text)) if self.in_utf_8 else (subscripts, text)


@dataclass(frozen=True, slots=True)
class Unreadable(Exception):
    """A node that is not written as the form asks, or that no store can take."""

    reason: str


def subscripts_fault(subscripts: keys.Subscripts) -> str:
    """Why no node can have these subscripts; empty if one can."""
    if len(subscripts) > keys.MAX_SUBSCRIPTS:
        return f"{len(subscripts)} subscripts: a node has at most {keys.MAX_SUBSCRIPTS}"
    for number, text in enumerate(subscripts, 1):
        if not text:
            return f"its subscript {number} is empty"
        if len(text) > keys.MAX_SUBSCRIPT:
            return f"its subscript {number} has {len(text):,} characters: at most {keys.MAX_SUBSCRIPT}"
        if found := _OVER.search(text):
            return f"its subscript {number} has the code {ord(found[0])}: a text has the codes 0 to 127"
    return ""


def text_fault(text: str) -> str:
    """Why no node can have this text; empty if one can."""
    if len(text) > keys.MAX_TEXT:
        return f"its text has {len(text):,} characters: at most {keys.MAX_TEXT:,}"
    found = _OVER.search(text)
    return f"its text has the code {ord(found[0])}: a text has the codes 0 to 127" if found else ""


def record(form: Form, line: int, name: str, subscripts: keys.Subscripts, text: str) -> Record:
    """The node, or why it cannot come in."""
    try:
        subscripts, text = form.taken_subscripts(subscripts), form.taken(text)
    except Unreadable as error:
        return Problem(line, f"{shown_node(name, subscripts)}: {error.reason}")
    if not keys.is_name(name):
        return Problem(line, f"^{name[:40]}: a name has at most 31 letters and digits, and begins with a letter or %")
    fault = subscripts_fault(subscripts) or text_fault(text)
    return Problem(line, f"{shown_node(name, subscripts)}: {fault}") if fault else Entry(line, name, subscripts, text)


def shown_node(name: str, subscripts: keys.Subscripts) -> str:
    """A node for a message, cut where it is long."""
    text = mtext.written_node(f"^{name}", subscripts)
    return text if len(text) <= 80 else text[:77] + "..."


def read(file: IO[bytes], form: Form = Form()) -> Iterator[Record]:
    """The nodes of a file, and what cannot come in. The form is found by the first lines if it is not given."""
    name, lines = numbered(file, form)
    return READERS[name](lines, form)


def rows(file: IO[bytes], form: Form, account: str, tell: Callable[[Problem], None]) -> Iterator[tuple[bytes, bytes]]:
    """The keys and the texts of a file's nodes in an account; `tell` gets what cannot come in."""
    name, lines = numbered(file, form)
    for found in _zwr_rows(lines, account, form) if name == "zwr" else READERS[name](lines, form):
        if isinstance(found, Problem):
            tell(found)
        elif isinstance(found, Entry):
            yield keys.key(account, found.name, found.subscripts), found.text.encode("ascii")
        else:
            yield found


def numbered(file: IO[bytes], form: Form) -> tuple[str, Iterator[tuple[int, str]]]:
    """The name of a file's form, and its lines with their numbers."""
    lines = io.TextIOWrapper(file, encoding=form.encoding, errors="surrogateescape" if form.in_utf_8 else "strict", newline="\n")
    first = list(islice(lines, 3))
    return form.name or form_of(first), enumerate(chain(first, lines), 1)


def form_of(first: list[str]) -> str:
    """The form of a file with these first lines."""
    if first and first[0].startswith("{"):
        return "json"
    if first and first[0].startswith("^") and '="' in first[0] or len(first) > 1 and first[1].rstrip().endswith("ZWR"):
        return "zwr"
    if len(first) > 2 and is_node_alone(first[2]):
        return "go"
    if len(first) == 2 or not first:
        return "zwr"
    raise BadExtract("this is no ZWR or GO extract and no JSON lines: the second line of an extract ends with ZWR, or the third one is a node; "
                     "--format says which form it has")


def is_node_alone(line: str) -> bool:
    """Whether a line is a node and nothing more, as those of a GO extract are."""
    node = line.rstrip("\r\n")
    try:
        return parsed_node(node, 0)[2] == len(node)
    except Unreadable:
        return False


def read_zwr(lines: Iterable[tuple[int, str]], form: Form) -> Iterator[Record]:
    """The nodes of a ZWR extract."""
    for number, line in lines:
        found = _plain_entry(form, number, line) or _full_record(form, number, line)
        if found is not None:
            yield found


def _zwr_rows(lines: Iterable[tuple[int, str]], account: str, form: Form) -> Iterator[tuple[bytes, bytes] | Record]:
    """The nodes of a ZWR extract, the plain ones as the rows of a store."""
    for number, line in lines:
        found: tuple[bytes, bytes] | Record | None = None
        if plain := _plain_parts(form, line):
            above, last = _plain_above(account, plain[0]), _plain_last_bytes(plain[1])
            found = (above + last, plain[2].encode("ascii")) if above and last else None
        found = found or _full_record(form, number, line)
        if found is not None:
            yield found


def _full_record(form: Form, number: int, line: str) -> Record | None:
    """What a line of ZWR has, read in full; None for one of the head, or an empty one."""
    if not line.strip() or number <= 2 and not line.startswith("^"):
        return None
    try:
        return record(form, number, *parsed_line(line.rstrip("\r\n")))
    except Unreadable as error:
        return Problem(number, error.reason)


def _plain_parts(form: Form, line: str) -> tuple[str, str, str] | None:
    """The node above, the last subscript and the text of a line whose text has no quotes and no codes; None if it has to be read in full."""
    node, _, rest = line.partition('="')
    text = rest[:-2]
    if rest[-2:] != '"\n' or '"' in text or len(text) > keys.MAX_TEXT or not form.is_plain(line):
        return None
    above, comma, last = node.rpartition(",")
    if not comma:
        above, _, last = node.partition("(")
    return above, last, text


def _plain_entry(form: Form, number: int, line: str) -> Entry | None:
    """The node of a plain line; None if it has to be read in full."""
    if plain := _plain_parts(form, line):
        parent, subscript = _plain_parent(plain[0]), _plain_last(plain[1])
        if parent is not None and subscript is not None:
            return Entry(number, parent[0], (*parent[1], subscript), plain[2])
    return None


@lru_cache(1 << 10)
def _plain_above(account: str, text: str) -> bytes | None:
    """The key of the node above, as _plain_parent reads it."""
    parent = _plain_parent(text)
    return None if parent is None else keys.key(account, *parent)


@lru_cache(1 << 13)
def _plain_last_bytes(text: str) -> bytes | None:
    """The last subscript in a key, as _plain_last reads it."""
    subscript = _plain_last(text)
    return None if subscript is None else keys.subscript_bytes(subscript)


@lru_cache(1 << 10)
def _plain_parent(text: str) -> tuple[str, keys.Subscripts] | None:
    """The name and the subscripts of a node without its last one; None if they have to be read in full."""
    found = _PLAIN_NODE.fullmatch(text)
    if found is None or not keys.is_name(found[1]):
        return None
    read = [_plain_last(part + ")") for part in _PARTS.findall(found[2] or "")]
    parts = tuple(part for part in read if part is not None)
    return None if len(parts) < len(read) or len(parts) >= keys.MAX_SUBSCRIPTS else (found[1], parts)


@lru_cache(1 << 13)
def _plain_last(text: str) -> str | None:
    """The subscript that is written before a bracket; None if it has to be read in full."""
    found = _PLAIN_LAST.fullmatch(text)
    if found is None or len(text) > keys.MAX_SUBSCRIPT or text[0] != '"' and keys.units(found[1]) is None:
        return None
    return found[1].strip('"')


def parsed_line(line: str) -> tuple[str, keys.Subscripts, str]:
    """The name, the subscripts and the text of a line of ZWR."""
    name, subscripts, at = parsed_node(line, 0)
    if line[at:at + 1] != "=":
        raise Unreadable(f"no = after the node: {line[:60]!r}")
    text, end, _ = _parsed_text(line, at + 1)
    if end != len(line):
        raise Unreadable(f"more after the text: {line[end:end + 40]!r}")
    return name, subscripts, text


def parsed_node(line: str, at: int) -> tuple[str, keys.Subscripts, int]:
    """The name and the subscripts of the node that begins at a place, and the place after it."""
    found = _NODE_HEAD.match(line, at)
    if found is None:
        raise Unreadable(f"no node: {line[at:at + 60]!r}")
    at, subscripts = found.end(), []
    if line[at:at + 1] != "(":
        return found[1], (), at
    while line[at:at + 1] in ("(", ","):
        text, at, is_number = _parsed_text(line, at + 1)
        if is_number and keys.units(text) is None:
            raise Unreadable(f"^{found[1]}: the number {text[:60]} is no number here: at most {keys.MAX_DIGITS} digits, below 10^18, and 18 places after the "
                             "point; as a text it would stand elsewhere")
        subscripts.append(text)
    if line[at:at + 1] != ")":
        raise Unreadable(f"no ) after the subscripts: {line[at:at + 40]!r}")
    return found[1], tuple(subscripts), at + 1


def _parsed_text(line: str, at: int) -> tuple[str, int, bool]:
    """The text that is written from a place on, the place after it, and whether it is a bare number."""
    parts: list[str] = []
    while True:
        found = _TOKEN.match(line, at)
        if found is None:
            raise Unreadable(f"no text: {line[at:at + 40]!r}")
        at = found.end()
        if found[3] is not None and not parts:
            return found[3], at, True
        parts.append(_part(found))
        if line[at:at + 1] != "_":
            return "".join(parts), at, False
        at += 1


def _part(found: re.Match[str]) -> str:
    if found[1] is not None:
        return found[1].replace('""', '"')
    if found[2] is None:
        raise Unreadable(f"a number in a text: {found[0]!r}")
    codes = [int(code) for code in found[2].split(",")]
    if max(codes) > 0x10FFFF:
        raise Unreadable(f"the code {max(codes)}: a text has the codes 0 to 127")
    return "".join(map(chr, codes))


def read_go(lines: Iterable[tuple[int, str]], form: Form) -> Iterator[Record]:
    """The nodes of a GO extract: a line with the node, and one with its text."""
    pairs = iter(lines)
    for number, line in pairs:
        if number <= 2 and not line.startswith("^") or not line.strip():
            continue
        node = line.rstrip("\r\n")
        try:
            name, subscripts, end = parsed_node(node, 0)
            if end != len(node):
                raise Unreadable(f"more after the node: {node[end:end + 40]!r}")
        except Unreadable as error:
            is_node = node.startswith("^") and next(pairs, None) is not None
            yield Problem(number, error.reason + ("" if is_node else ": in GO no text can have a line feed"))
            continue
        _, text = next(pairs, (0, None))
        yield Problem(number, f"{shown_node(name, subscripts)}: the file ends before its text") if text is None else record(
            form, number, name, subscripts, text.removesuffix("\n"))


def read_json(lines: Iterable[tuple[int, str]], form: Form) -> Iterator[Record]:
    """The nodes of JSON lines: {"global": "X", "subscripts": ["1", "a"], "text": "t"}."""
    for number, line in lines:
        if not line.strip():
            continue
        try:
            found = json.loads(line.encode(form.encoding, "surrogateescape"))
        except (ValueError, RecursionError) as error:
            yield Problem(number, f"no JSON: {error}")
            continue
        if _is_entry(found):
            yield record(form, number, found["global"], tuple(found["subscripts"]), found["text"])
        else:
            yield Problem(number, 'no node: it is {"global": "X", "subscripts": ["1", "a"], "text": "t"}, all of them texts')


def _is_entry(found: object) -> bool:
    if not isinstance(found, dict) or set(found) != {"global", "subscripts", "text"} or not isinstance(found["subscripts"], list):
        return False
    return all(isinstance(text, str) for text in [found["global"], found["text"], *found["subscripts"]])


def header(how: Form) -> str:
    """The lines that a file begins with. The first one says UTF-8 for those who read it, as GT.M's do."""
    form = how.name
    if form == "json":
        return ""
    now = time.strftime("%d-%b-%Y  %H:%M:%S", time.gmtime()).upper()
    return f"{TITLE}{' UTF-8' if how.in_utf_8 else ''}\n{now}{' ZWR' if form == 'zwr' else ''}\n"


def written(how: Form, name: str, subscripts: keys.Subscripts, text: str) -> str:
    """The line or the lines of a node. Unreadable if the form cannot have it."""
    form = how.name
    subscripts, text = how.given(subscripts, text)
    if form == "json":
        return json.dumps({"global": name, "subscripts": list(subscripts), "text": text}, ensure_ascii=not how.in_utf_8) + "\n"
    node = f"^{name}({','.join(map(_subscript, subscripts))})" if subscripts else f"^{name}"
    if form == "zwr":
        return f"{node}={mtext.in_quotes(text)}\n"
    if "\n" in text:
        raise Unreadable(f"{shown_node(name, subscripts)}: its text has a line feed, which GO cannot have: use zwr or json")
    return f"{node}\n{text}\n"


@lru_cache(1 << 13)
def _subscript(text: str) -> str:
    return text if keys.units(text) is not None else mtext.in_quotes(text)


READERS = {"zwr": read_zwr, "go": read_go, "json": read_json}
