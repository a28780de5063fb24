# SPDX-License-Identifier: Apache-2.0
"""What a person sees: colour by rich if it is installed, pages, and a prompt by prompt_toolkit, readline or neither."""
from __future__ import annotations

import os
import shutil
import sys
from collections.abc import Callable, Iterable, Iterator
from types import ModuleType

STYLES = {"code": "bold red", "place": "dim", "note": "cyan", "name": "green", "rest": ""}
Completer = Callable[[str], tuple[int, list[str]]]


class Screen:
    """Writes to the standard output, in colour if it is wanted and rich is installed."""

    def __init__(self, colour: bool) -> None:
        self._rich = rich() if colour else None
        self._console = self._rich.console.Console(highlight=False, soft_wrap=True, markup=False) if self._rich else None

    def show(self, text: str, style: str = "rest") -> None:
        """Writes a line."""
        if self._rich is None or not STYLES[style]:
            print(text, flush=True)
        else:
            self._console.print(self._rich.text.Text(text, STYLES[style]))

    def show_reply(self, lines: Iterable[str]) -> None:
        """Writes the output of a line as it is."""
        for line in lines:
            print(line, flush=True)


def rich() -> ModuleType | None:
    """The module for colours, if it is there. It is read for a person alone, since its start is as long as the shell's."""
    try:
        import rich.console
        import rich.text
    except ImportError:
        return None
    return rich


def is_person() -> bool:
    """Whether a person types and reads."""
    return sys.stdin.isatty() and sys.stdout.isatty()


def pages(lines: Iterable[str], ask: Callable[[str], str]) -> Iterator[str]:
    """The lines, with a question after each screenful: any answer but an empty one ends them."""
    height = max(shutil.get_terminal_size().lines - 2, 5)
    for count, line in enumerate(lines, 1):
        yield line
        if count % height == 0 and ask("-- Enter for more, q to stop -- "):
            return


def history_file() -> str:
    """Where lines are kept between runs, by default."""
    folder = os.environ.get("XDG_STATE_HOME") or os.path.expanduser("~/.local/state")
    return os.path.join(folder, "mserve", "history")


def prompt(history: str | None, complete: Completer) -> Callable[[str], str]:
    """What asks a person for a line, with editing, history and completion as far as the system has them. It raises EOFError at the end of
    the input, and KeyboardInterrupt at an interrupt."""
    if history is not None:
        os.makedirs(os.path.dirname(os.path.abspath(history)), mode=0o700, exist_ok=True)
    try:
        return _with_toolkit(history, complete)
    except ImportError:
        pass
    try:
        return _with_readline(history, complete)
    except ImportError:
        return input


def _with_toolkit(history: str | None, complete: Completer) -> Callable[[str], str]:
    from prompt_toolkit import PromptSession
    from prompt_toolkit.completion import Completer as Base
    from prompt_toolkit.completion import Completion
    from prompt_toolkit.document import Document
    from prompt_toolkit.history import FileHistory, InMemoryHistory

    class Words(Base):
        def get_completions(self, document: Document, event: object) -> Iterator[Completion]:
            length, words = complete(document.text_before_cursor)
            return (Completion(word, -length) for word in words)

    session: PromptSession[str] = PromptSession(history=FileHistory(history) if history else InMemoryHistory(), completer=Words(), complete_while_typing=False)
    return session.prompt


def _with_readline(history: str | None, complete: Completer) -> Callable[[str], str]:
    import readline

    def word(_: str, number: int) -> str | None:
        before = readline.get_line_buffer()[:readline.get_endidx()]
        length, words = complete(before)
        kept = before[readline.get_begidx():len(before) - length] if length <= len(before) else ""
        return kept + words[number] if number < len(words) else None

    def asked(text: str) -> str:
        line = input(text)
        if history and line:
            readline.append_history_file(1, history)
        return line

    readline.set_completer(word)
    readline.set_completer_delims(" ")
    readline.parse_and_bind("tab: complete")
    if history:
        open(history, "a", encoding="utf-8").close()
        os.chmod(history, 0o600)
        readline.read_history_file(history)
    return asked
