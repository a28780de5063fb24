# SPDX-License-Identifier: Apache-2.0
"""Nodes of an account through one of its terminals, while the server runs."""
from __future__ import annotations

from collections import deque
from collections.abc import Callable, Iterable, Iterator
from dataclasses import dataclass
from typing import NamedTuple

from . import keys
from .codes import in_words
from .extracts import Entry, shown_node
from .mtext import quoted, reference, set_lines
from .walk import Walker, free_local, long_reference
from .wire import LONGEST_LINE, ClientError, Connected

# The room that a reference may take in a line that sets a part of a text.
ROOM = 100
# How many nodes one line sets at most.
MOST = 40


class ImportStopped(ClientError):
    """A node was refused; the text says which, and which nodes stand."""


@dataclass(slots=True)
class Tally:
    """What is known of the nodes that were sent: how many stand, and how many of them were sent after one that was refused."""

    stand: int = 0
    after: int = 0
    last: Entry | None = None
    refused: Entry | None = None
    code: str = ""

    def count(self, held: list[Entry], step: Callable[[], None]) -> None:
        """Counts nodes that stand."""
        for entry in held if held[0] is not self.refused else ():
            self.stand += 1
            self.after += self.refused is not None
            self.last = entry if self.refused is None else self.last
            step()

    def refuse(self, entry: Entry, code: str) -> None:
        """Keeps the first node that was answered by a code."""
        if self.refused is None:
            self.refused, self.code = entry, code


class Sent(NamedTuple):
    """A node that was sent, and whether it stands."""

    entry: Entry
    stands: bool


class TerminalWay:
    """The nodes that a terminal sees."""

    def __init__(self, connection: Connected) -> None:
        self._connection = connection

    def nodes(self, name: str, subscripts: keys.Subscripts = ()) -> Iterator[tuple[keys.Subscripts, str]]:
        """A node and those below it that have a text, in their order."""
        return Walker(self._connection, f"^{name}").nodes(subscripts)

    def children(self, name: str, subscripts: keys.Subscripts = ()) -> int:
        """How many children a node has."""
        return Walker(self._connection, f"^{name}").count(subscripts)

    def put(self, entries: Iterable[Entry], step: Callable[[], None]) -> None:
        """Sets nodes, several by one line where it has room. The nodes of a line that is answered by a code, and those that were sent after it, are
        set again, each by a line of its own; it stops at the first node whose own line is answered by a code: ImportStopped."""
        source, tally, most = iter(entries), Tally(), MOST
        while True:
            code, again = self._put(source, most, tally, step)
            if not again:
                break
            most = max(1, most // 2) if code == "ZSTEPS" else most
            stood = {id(sent.entry) for sent in again if sent.stands}
            self._put(passed(again, stood), 1, tally, step, to_end=tally.refused is not None)
            if tally.refused is not None:
                tally.stand += len(stood)
                tally.after += len(stood)
                break
        if tally.refused is not None:
            raise ImportStopped(stopped_text(tally))

    def _put(self, source: Iterator[Entry], most: int, tally: Tally, step: Callable[[], None], to_end: bool = False) -> tuple[str | None, list[Sent]]:
        """Sets nodes, at most this many by one line, up to the first code or `to_end`. The first code of a line of several, and what is to be set
        again then: nobody knows which of its nodes stand."""
        due: deque[tuple[list[Entry], bool]] = deque()
        again: list[Sent] = []
        code, local, uses_local = None, free_local(self._connection), False

        def lines() -> Iterator[str]:
            nonlocal uses_local
            for texts, held in grouped(source, most, local):
                uses_local = uses_local or texts[0] == f"K {local}"
                for number, line in enumerate(texts, 1):
                    due.append((held, number == len(texts)))
                    yield line
                if not to_end and (again or tally.refused is not None):
                    return

        for reply in self._connection.pipeline(lines()):
            held, is_last = due.popleft()
            if len(held) > 1 and reply.code is not None and not again:
                code = reply.code
                again += [Sent(entry, False) for entry in held]
            elif again:
                again += [Sent(entry, reply.code is None) for entry in held if is_last]
            elif reply.code is not None:
                tally.refuse(held[0], reply.code)
            elif is_last:
                tally.count(held, step)
        if uses_local:
            self._connection.send(f"K {local}")
        return code, again


def passed(again: list[Sent], stood: set[int]) -> Iterator[Entry]:
    """The nodes that are set again; those that stood are taken out of the set as they come."""
    for sent in again:
        stood.discard(id(sent.entry))
        yield sent.entry


def grouped(source: Iterator[Entry], most: int, local: str) -> Iterator[tuple[list[str], list[Entry]]]:
    """Lines that set nodes, with these nodes: one line for several of them, at most this many, or several lines for one."""
    held: list[Entry] = []
    line = ""
    for entry in source:
        part = f"{reference(f'^{entry.name}', entry.subscripts)}={quoted(entry.text)}"
        if held and (len(line) + 1 + len(part) > LONGEST_LINE or len(held) >= most):
            yield [line], held
            held = []
        if len(part) + 2 > LONGEST_LINE:
            yield entry_lines(entry, local), [entry]
            continue
        line = f"{line},{part}" if held else f"S {part}"
        held.append(entry)
    if held:
        yield [line], held


def entry_lines(entry: Entry, local: str) -> list[str]:
    """The lines that set a node: one, if that has room for it. Subscripts that are too long are in the local variable."""
    target = reference(f"^{entry.name}", entry.subscripts)
    line = f"S {target}={quoted(entry.text)}"
    if len(line) <= LONGEST_LINE:
        return [line]
    before, target = ([], target) if len(target) <= ROOM else long_reference(f"^{entry.name}", entry.subscripts, local)
    return [*before, *set_lines(target, entry.text)]


def stopped_text(tally: Tally) -> str:
    """Where an import stopped, and what stands."""
    entry = tally.refused
    assert entry is not None, "it stopped at one"
    text = f"line {entry.line}: {shown_node(entry.name, entry.subscripts)} was answered {in_words(tally.code)}; {tally.stand:,} nodes stand"
    if tally.last is not None:
        text += f", those up to line {tally.last.line}"
    if tally.after:
        text += f", and {tally.after:,} of the lines after it that were on their way already"
    return text
