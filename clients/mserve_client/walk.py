# SPDX-License-Identifier: Apache-2.0
"""Walks over what a terminal's session can see, by $ORDER: the nodes of a subtree, and the account's routines.

One line asks for many children of a node, and the lines for the nodes below them are sent in one pipeline, so that a
walk goes as fast as the server reads. Its lines use the local variables %i and %t, which NEW hides. Subscripts that are
too long for a line are in a local that the session does not have, which is killed afterwards. The session's naked
indicator moves."""
from __future__ import annotations

from collections.abc import Iterator
from contextlib import contextmanager
from dataclasses import dataclass
from itertools import count

from . import keys
from .codes import in_words
from .mtext import quoted, reference, set_lines
from .wire import LONGEST_LINE, ClientError, Connected, Reply, ServerGone, TimedOut

# Local variables of the lines, which NEW hides; others, if one of these is walked over.
INDEX, TURN = "%i", "%t"
OTHERS = "%j", "%u"
# How a local begins that holds what is too long for a line.
LOCAL = "%m"
# How many children one line asks for, and how many nodes' children are asked for in one pipeline.
BATCH = 50
GROUP = 50
# How many children one line counts, a dozen steps each.
COUNTED = 150
ROUTINE = "^ROUTINE"
# The room that a reference may take in a line, and the longest subscript, as a line has it, that a walk goes on after.
ROOM = 100
LONGEST_START = LONGEST_LINE - 200
# What a line does with each child: writes its status, its subscript and its text; or a 1, and the subscript of the last one.
READING = 'W $D({again})," ",{index},! W:$D({again})#10 {again},!'
COUNTING = "W 1 W:{turn}={most} !,{index}"


class AnsweredByCode(ClientError):
    """A line of the client itself was answered by a code."""

    def __init__(self, line: str, code: str) -> None:
        super().__init__(f"{line[:120]}\n  was answered {in_words(code)}")
        self.line, self.code = line, code


@dataclass(frozen=True, slots=True)
class Child:
    """A node below another one: its last subscript, its text or None, and whether there are nodes below it."""

    subscript: str
    text: str | None
    has_more: bool


@dataclass(frozen=True, slots=True)
class Children:
    """Some children of a node, in their order, and whether these are the last ones."""

    found: list[Child]
    is_end: bool


Node = tuple[keys.Subscripts, str]


def asked(connection: Connected, line: str) -> Reply:
    """The reply of a line that must not be answered by a code."""
    reply = connection.send(line)
    if reply.code is not None:
        raise AnsweredByCode(line, reply.code)
    return reply


def free_local(connection: Connected) -> str:
    """The name of a local variable that the session does not have. Who uses it kills it afterwards: a line's own level is too short for NEW."""
    names = (f"{LOCAL}{number or ''}" for number in count())
    return next(name for name in names if asked(connection, f"W $D({name})").rest == "0")


def long_reference(name: str, subscripts: keys.Subscripts, local: str) -> tuple[list[str], str]:
    """A node by subscripts that are in a local variable, and the lines that set these."""
    before = [f"K {local}"]
    for number, part in enumerate(subscripts, 1):
        before += set_lines(f"{local}({number})", part)
    return before, f"{name}({','.join(f'{local}({number})' for number in range(1, len(subscripts) + 1))})"


class Walker:
    """Reads the nodes of one variable: `name` is as it is written in a line, `^X`, `X` or `^|"LAB"|X`."""

    def __init__(self, connection: Connected, name: str) -> None:
        self._connection, self._name = connection, name
        self._index, self._turn = OTHERS if name in (INDEX, TURN) else (INDEX, TURN)
        self._count = BATCH
        # the local that holds long subscripts, once one is needed
        self._local = ""

    def nodes(self, start: keys.Subscripts = ()) -> Iterator[Node]:
        """The nodes at and below a place that have a text, in the order of the store: their subscripts, and the text."""
        with self._local_killed():
            before, place = self._reference(start, ROOM)
            for line in before:
                asked(self._connection, line)
            reply = asked(self._connection, f"W $D({place}),! W:$D({place})#10 {place},!")
            status = int(reply.lines[0])
            if status % 10:
                yield start, reply.lines[1]
            if status >= 10:
                yield from self._below(start, self._asked([(start, "")])[0])

    def children(self, place: keys.Subscripts = ()) -> Iterator[Child]:
        """The children of a node, in their order."""
        last, is_end = "", False
        with self._local_killed():
            while not is_end:
                [batch] = self._asked([(place, last)])
                yield from batch.found
                is_end = batch.is_end
                last = batch.found[-1].subscript if batch.found else last

    def count(self, place: keys.Subscripts = ()) -> int:
        """How many children a node has: found much sooner than by reading them."""
        found, last, most = 0, "", COUNTED
        with self._local_killed():
            while True:
                *before, line = self._lines(place, last, COUNTING, most)
                for each in before:
                    asked(self._connection, each)
                reply = self._connection.send(line)
                if reply.code == "ZSTEPS" and most > 1:
                    most //= 2
                elif reply.code is not None:
                    raise AnsweredByCode(line, reply.code)
                elif not reply.lines:
                    return found + len(reply.rest)
                else:
                    found, last = found + most, reply.rest

    @contextmanager
    def _local_killed(self) -> Iterator[None]:
        """Kills the local for long subscripts after the block, if it was used and the server is there."""
        try:
            yield
        except (ServerGone, TimedOut):
            self._local = ""
            raise
        finally:
            local, self._local = self._local, ""
            if local:
                self._connection.send(f"K {local}")

    def _reference(self, place: keys.Subscripts, room: int) -> tuple[list[str], str]:
        """A node as it is written in `room` characters, and the lines that set the local variable which that takes, if any."""
        text = reference(self._name, place)
        return ([], text) if len(text) <= room else long_reference(self._name, place, self._free())

    def _free(self) -> str:
        """The local for long subscripts, which is chosen when it is first needed."""
        if not self._local:
            self._local = free_local(self._connection)
        return self._local

    def _below(self, place: keys.Subscripts, batch: Children) -> Iterator[Node]:
        """The nodes below a place, whose first children are known."""
        while True:
            for start in range(0, len(batch.found), GROUP):
                yield from self._subtrees(place, batch.found[start:start + GROUP])
            if batch.is_end:
                return
            [batch] = self._asked([(place, batch.found[-1].subscript)])

    def _subtrees(self, place: keys.Subscripts, children: list[Child]) -> Iterator[Node]:
        """The nodes at and below some children of a place."""
        batches = iter(self._asked([(place + (child.subscript,), "") for child in children if child.has_more]))
        for child in children:
            if child.text is not None:
                yield place + (child.subscript,), child.text
            if child.has_more:
                yield from self._below(place + (child.subscript,), next(batches))

    def _asked(self, places: list[tuple[keys.Subscripts, str]]) -> list[Children]:
        """The children of each place that come after a subscript, asked for in one pipeline."""
        lines: list[str] = []
        wanted = set()
        for place, after in places:
            lines += self._lines(place, after, READING, self._count)
            wanted.add(len(lines) - 1)
        count, found, short = self._count, [], False
        for number, reply in enumerate(self._connection.pipeline(lines)):
            if number in wanted:
                found.append(children_of(reply, count, lines[number]))
                short = short or reply.code is not None
            elif reply.code is not None:
                raise AnsweredByCode(lines[number], reply.code)
        if short:
            self._count = max(1, count // 2)
        return found

    def _lines(self, place: keys.Subscripts, after: str, what: str, most: int) -> list[str]:
        """The lines that go over children of a place, `most` of them; the last one does with each what is given."""
        is_global, index = self._name.startswith("^"), self._index
        before, parent = self._reference(place, ROOM if is_global else 25)
        child = f"{parent[:-1]},{index})" if place else f"{parent}({index})"
        if before and not is_global:
            before.append(f"S {self._local}={quoted(parent)}")
            child = f"@{self._local}@({index})"
        again = f"^({index})" if is_global else child
        start = quoted(after)
        if len(start) > LONGEST_START:
            before += set_lines(f"{self._free()}(0)", after)
            start = f"{self._local}(0)"
        return [*before, f"N {index},{self._turn} S {index}={start} F {self._turn}=1:1:{most} S {index}=$O({child}) Q:{index}=\"\"  "
                         + what.format(again=again, index=index, turn=self._turn, most=most)]


def children_of(reply: Reply, count: int, line: str) -> Children:
    """The children that a reply writes, of which up to `count` were asked for. A line whose steps were used up has written some first ones."""
    if reply.code is not None and reply.code != "ZSTEPS":
        raise AnsweredByCode(line, reply.code)
    found, lines = [], iter(reply.lines)
    for head in lines:
        status, _, subscript = head.partition(" ")
        text = next(lines, None) if status in ("1", "11") else None
        if status != "10" and text is None:
            break
        found.append(Child(subscript, text, status in ("10", "11")))
    if reply.code and not found:
        raise AnsweredByCode(line, reply.code)
    return Children(found, reply.code is None and len(found) < count)


def routine_names(connection: Connected) -> list[str]:
    """The names of the account's routines."""
    return [child.subscript for child in Walker(connection, ROUTINE).children() if child.has_more and keys.is_name(child.subscript)]
