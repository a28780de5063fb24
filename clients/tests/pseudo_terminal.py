# SPDX-License-Identifier: Apache-2.0
"""A command on a terminal of the system, as a person has it."""
from __future__ import annotations

import os
import pty
import re
import select
import subprocess
import sys
import time
from collections.abc import Iterator
from contextlib import contextmanager
from pathlib import Path

CLIENTS = Path(__file__).resolve().parent.parent


class Terminal:
    """What is shown there, and what is typed."""

    def __init__(self, process: subprocess.Popen[bytes], end: int) -> None:
        self.process, self._end, self.seen = process, end, ""

    def type(self, text: str) -> None:
        """Types a text."""
        os.write(self._end, text.encode())

    def wait(self, text: str, seconds: float = 60) -> str:
        """What was shown up to a text that has to come."""
        limit = time.monotonic() + seconds
        while text not in self.seen:
            ready = select.select([self._end], [], [], max(0.0, limit - time.monotonic()))[0]
            assert ready, f"{text!r} does not come; shown was {self.seen!r}"
            self.seen += re.sub(r"\x1b\[[0-9;?]*[A-Za-z]|\x1b[=>]", "", os.read(self._end, 65536).decode())
        found, _, self.seen = self.seen.partition(text)
        return found

    def answers(self, line: str, text: str) -> str:
        """Types a line at the next prompt; what is shown then up to a text that has to come."""
        self.wait(">")
        self.type(line + "\r")
        return self.wait(text)

    def leave(self) -> None:
        """Ends the input at the next prompt, and with it the shell."""
        self.wait(">")
        self.type("\x04")
        assert self.process.wait(60) == 0


@contextmanager
def opened(*words: str, rows: int = 24, without: str = "", **variables: str) -> Iterator[Terminal]:
    """A shell with these words at a prompt; `without` names a module that is not to be found."""
    near, far = pty.openpty()
    hook = f"import sys; sys.modules[{without!r}] = None; " if without else "import sys; "
    start = hook + (f"import fcntl, termios; fcntl.ioctl(0, termios.TIOCSCTTY, 0); sys.path.insert(0, {str(CLIENTS)!r}); "
                    "from mserve_client.shell import main; sys.exit(main())")
    process = subprocess.Popen([sys.executable, "-c", start, *words], stdin=far, stdout=far, stderr=far, start_new_session=True,
                               env={**os.environ, "TERM": "xterm", "LINES": str(rows), "COLUMNS": "200", "PROMPT_TOOLKIT_NO_CPR": "1", **variables})
    os.close(far)
    try:
        yield Terminal(process, near)
    finally:
        process.kill()
        process.wait()
        os.close(near)
