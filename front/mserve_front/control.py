# SPDX-License-Identifier: Apache-2.0
"""The socket for operators: a request is a line of JSON, and so is its answer. It is in a folder of the front's own, of mode 0600."""
from __future__ import annotations

import asyncio
import contextlib
import json
import os
import socket
from collections.abc import Awaitable, Callable, Iterator
from pathlib import Path
from typing import Any

# An answer, as JSON has it.
Answered = dict[str, Any]
Handler = Callable[[dict[str, object]], Awaitable[Answered]]
LONGEST = 65_536
# Seconds for a peer to send its request.
PATIENCE = 20.0


class ControlError(Exception):
    """A request cannot be done; the text says why."""


@contextlib.contextmanager
def reached(path: Path) -> Iterator[str]:
    """A short name of a path: a socket's has 107 bytes at most."""
    folder = os.open(path.parent, os.O_RDONLY | os.O_DIRECTORY)
    try:
        yield f"/proc/self/fd/{folder}/{path.name}"
    finally:
        os.close(folder)


def bound(path: Path) -> socket.socket:
    """A socket that listens at a path, of mode 0600, in place of one that was left there. Raises OSError."""
    listener = socket.socket(socket.AF_UNIX)
    before = os.umask(0o177)
    try:
        path.unlink(missing_ok=True)
        with reached(path) as place:
            listener.bind(place)
        listener.listen()
    except BaseException:
        listener.close()
        raise
    finally:
        os.umask(before)
    return listener


class Control:
    """Answers requests of operators."""

    def __init__(self, path: Path, handlers: dict[str, Handler]) -> None:
        self._path = path
        self._handlers = handlers
        self._server: asyncio.Server | None = None

    def answer(self, ask: str, handler: Handler) -> None:
        """Answers one more kind of request."""
        self._handlers[ask] = handler

    async def listen(self) -> None:
        """Listens. Raises OSError."""
        self._server = await asyncio.start_unix_server(self._serve, sock=bound(self._path), limit=LONGEST)

    def close(self) -> None:
        """Listens no more."""
        if self._server is not None:
            self._server.close()
            self._path.unlink(missing_ok=True)
            self._server = None

    async def _serve(self, reader: asyncio.StreamReader, writer: asyncio.StreamWriter) -> None:
        answer: Answered = {"error": "the front had a fault: its operator finds it in the log"}
        try:
            async with asyncio.timeout(PATIENCE):
                found = json.loads(await reader.readline())
            handler = self._handlers.get(str(found.get("ask"))) if isinstance(found, dict) else None
            answer = {"error": "there is no such request here"} if handler is None else await handler(found)
        except ControlError as error:
            answer = {"error": str(error)}
        except (ValueError, TimeoutError) as error:
            answer = {"error": f"this is no request: {error}"}
        finally:
            with contextlib.suppress(ConnectionError):
                writer.write(json.dumps(answer).encode() + b"\n")
                await writer.drain()
            writer.close()


def asked(path: Path, request: dict[str, object], timeout: float | None) -> Answered:
    """The answer of a front to a request. Raises `ControlError` if there is none, or it is an error."""
    try:
        with socket.socket(socket.AF_UNIX) as peer:
            peer.settimeout(timeout)
            with reached(path) as place:
                peer.connect(place)
            peer.sendall(json.dumps(request).encode() + b"\n")
            with peer.makefile("rb") as answers:
                line = answers.readline()
    except TimeoutError as error:
        raise ControlError(f"{path}: no answer in time") from error
    except OSError as error:
        raise ControlError(f"{path}: no front that keeps a journal is there: {error.strerror}") from error
    if not line:
        raise ControlError(f"{path}: the front ended before it answered")
    answer: Answered = json.loads(line)
    if "error" in answer:
        raise ControlError(str(answer["error"]))
    return answer
