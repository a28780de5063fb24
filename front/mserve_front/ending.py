# SPDX-License-Identifier: Apache-2.0
"""How a command of the front ends: what it says, and its status."""
from __future__ import annotations

import argparse
import asyncio
import signal
import sys
from collections.abc import Callable, Coroutine, Mapping
from typing import TypeVar

Result = TypeVar("Result")

# Where the front's settings are, unless the words say otherwise.
DEFAULT = "/etc/mserve/front.toml"
FOUND, USAGE, FAILED, INTERRUPTED = 1, 2, 3, 130


def say(command: str, text: str) -> None:
    """Writes a line to the standard error."""
    print(f"{command}: {text}", file=sys.stderr, flush=True)


def hear(number: signal.Signals, act: Callable[..., object], *given: object) -> None:
    """Has the running loop do an act when a signal comes, until `run` ends. Signals that come before it is done are answered by that one time: many of them
    do not hold the loop up."""
    loop, due = asyncio.get_running_loop(), False

    def acts() -> None:
        nonlocal due
        due = False
        act(*given)

    def heard(*_: object) -> None:
        nonlocal due
        if not due:
            due = True
            loop.call_soon_threadsafe(acts)
    signal.signal(number, heard)


def run(work: Coroutine[object, object, Result]) -> Result:
    """Runs a service to its end. What it heard is ignored from then on: a loop that closes gives its own handlers (`add_signal_handler`) up to the system's,
    so that a second SIGTERM would kill a service that was stopped well, and change its status. A reload before it is heard of ends nothing."""
    signal.signal(signal.SIGHUP, signal.SIG_IGN)

    async def whole() -> Result:
        try:
            return await work
        finally:
            for number in signal.valid_signals():
                if callable(signal.getsignal(number)):
                    signal.signal(number, signal.SIG_IGN)
    return asyncio.run(whole())


def ended(command: str, options: argparse.Namespace, statuses: Mapping[type[Exception], int]) -> int:
    """Does what the words ask for; the status: of a fault that was reported, the one that it has."""
    act: Callable[[argparse.Namespace], int | None] = options.act
    try:
        return act(options) or 0
    except tuple(statuses) as error:
        say(command, str(error))
        return next(status for kind, status in statuses.items() if isinstance(error, kind))
    except BrokenPipeError:
        # Nobody reads any more, and Python would complain of it at its end.
        sys.stderr.close()
        return FOUND
    except OSError as error:
        say(command, f"{f'{error.filename}: ' if error.filename else ''}{error.strerror or error}")
        return FAILED
    except KeyboardInterrupt:
        say(command, "interrupted")
        return INTERRUPTED
