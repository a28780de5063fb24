# SPDX-License-Identifier: Apache-2.0
"""Routines in the account's global ^ROUTINE: read, replaced whole, and deleted."""
from __future__ import annotations

import signal
from collections.abc import Iterable, Iterator
from contextlib import contextmanager, suppress

from . import keys
from .codes import in_words
from .mtext import reference, set_lines
from .walk import ROUTINE, Node, Walker, asked, routine_names
from .wire import ClientError, Connected, ServerGone


class NoRoutine(ClientError):
    """The account has no such routine."""


class LoadFailed(ClientError):
    """A routine was not replaced; the text says at which line, and whether the old one is back."""


class Deploying(ClientError):
    """Somebody else is changing the account's routines."""


class Stopped(Exception):
    """A line that sets a node was answered by a code."""

    def __init__(self, node: keys.Subscripts, code: str) -> None:
        super().__init__(code)
        self.node, self.code = node, code


@contextmanager
def deploying(connection: Connected) -> Iterator[None]:
    """Holds the lock ^ROUTINE for the block, which all who change routines by these clients take. Deploying if another terminal has it."""
    code = connection.send(f"L +{ROUTINE}").code
    if code == "ZLOCKED":
        raise Deploying("another terminal of the account holds the lock ^ROUTINE, as who loads or deletes routines does: nothing was changed; try again. "
                        "If nobody does, a client was killed there: LOCK at that terminal releases it")
    if code is not None:
        raise Deploying(f"L +{ROUTINE}: {in_words(code)}")
    try:
        yield
    finally:
        with suppress(ClientError):
            connection.send(f"L -{ROUTINE}")


def nodes_of(connection: Connected, name: str) -> list[Node]:
    """All nodes of ^ROUTINE("name"), in their order; empty if there is none."""
    return list(Walker(connection, ROUTINE).nodes((name,)))


def is_line(node: Node) -> bool:
    """Whether a node of ^ROUTINE is a line of a routine."""
    return len(node[0]) == 2 and keys.units(node[0][1]) is not None


def all_routines(connection: Connected) -> list[tuple[str, list[str]]]:
    """The account's routines, and their lines."""
    found = [(name, [node[1] for node in nodes_of(connection, name) if is_line(node)]) for name in routine_names(connection)]
    return [(name, texts) for name, texts in found if texts]


def texts_of(connection: Connected, name: str) -> list[str]:
    """The lines of a routine. NoRoutine if there are none."""
    texts = [node[1] for node in nodes_of(connection, name) if is_line(node)]
    if not texts:
        raise NoRoutine(f'the account has no routine {name}: ^ROUTINE("{name}") has no lines; `list` and `.routines` name those that are there')
    return texts


def load(connection: Connected, name: str, texts: list[str]) -> list[Node]:
    """Replaces a routine by these lines, whole, or puts the old one back and raises LoadFailed. The nodes that were there and were no lines."""
    old = nodes_of(connection, name)
    try:
        replace(connection, name, [((name, str(number)), text) for number, text in enumerate(texts, 1)])
    except Stopped as stop:
        at = f"its line {stop.node[1]}" if len(stop.node) > 1 else "KILL of the old lines"
        raise LoadFailed(f"{name}: {at} was answered {in_words(stop.code)}; {_put_back(connection, name, old)}") from stop
    except ServerGone as error:
        raise LoadFailed(f"{name}: {error}; the routine may be there in part: load it again") from error
    except KeyboardInterrupt as error:
        error.add_note(f"{name}: {_put_back(connection, name, old)}")
        raise
    return [node for node in old if not is_line(node)]


def replace(connection: Connected, name: str, nodes: Iterable[Node]) -> None:
    """Kills ^ROUTINE("name") and sets these nodes. Stopped, with the node, at the first line that is answered by a code: what is sent already
    is run yet."""
    sent: list[keys.Subscripts] = []
    stop: Stopped | None = None

    def lines() -> Iterator[str]:
        sent.append((name,))
        yield f"K {reference(ROUTINE, (name,))}"
        for subscripts, text in nodes:
            for line in set_lines(reference(ROUTINE, subscripts), text):
                if stop is not None:
                    return
                sent.append(subscripts)
                yield line

    for number, reply in enumerate(connection.pipeline(lines())):
        if reply.code is not None and stop is None:
            stop = Stopped(sent[number], reply.code)
    if stop is not None:
        raise stop


def _put_back(connection: Connected, name: str, old: list[Node]) -> str:
    """Puts the nodes back that a routine had; says how that ended."""
    with interrupts_later():
        try:
            replace(connection, name, old)
        except Stopped as stop:
            return f"the old routine could not be put back: {reference(ROUTINE, stop.node)} was answered {in_words(stop.code)}: load it again"
        except ClientError as error:
            return f"the old routine could not be put back: {error}"
    return "the old routine is back" if old else "there was none before, and there is none now"


@contextmanager
def interrupts_later() -> Iterator[None]:
    """Holds interrupts back until the block has ended."""
    held: list[int] = []
    before = signal.signal(signal.SIGINT, lambda number, _: held.append(number))
    try:
        yield
    finally:
        signal.signal(signal.SIGINT, before)
    if held:
        raise KeyboardInterrupt


def delete(connection: Connected, name: str) -> None:
    """Deletes a routine with all that is below ^ROUTINE("name"). NoRoutine if there is none."""
    texts_of(connection, name)
    asked(connection, f"K {reference(ROUTINE, (name,))}")
