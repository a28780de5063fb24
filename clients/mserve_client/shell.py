# SPDX-License-Identifier: Apache-2.0
"""The command `mshell`: a direct mode for a person, and plain lines in and replies out from a pipe."""
from __future__ import annotations

import argparse
import glob
import os
import re
import shlex
import shutil
import subprocess
import sys
import tempfile
import threading
import time
from collections.abc import Callable, Iterable, Iterator
from contextlib import contextmanager
from types import TracebackType
from typing import Self

from . import checking, escape, keys, language, mtext, options, reference, routines
from .codes import CODES, in_words, place
from .options import FOUND, counted
from .routine_command import write_whole
from .routine_files import Source, file_name, file_text, refuse_over, sources, stored_source
from .screen import Screen, history_file, is_person, pages, prompt
from .walk import AnsweredByCode, Walker, asked, routine_names
from .wire import ClientError, Connected, NoServer, Reply, ServerGone, TimedOut

NAME = "mshell"
ABOUT = """Runs lines of M as a terminal, and shows their replies.

At a prompt: editing, history, completion with Tab, and commands that begin with a point; .help names them.
From a pipe it is plain: each line's output as written, and a code in words; status 1 if there was one:

  echo 'W 2/3' | mshell 9000 1"""
PROMPT = "> "
# What a person may type who does not know the shell yet.
HINTS = {**dict.fromkeys(("help", "?"), ".help lists what can be typed here; .help M7 says what a code means"),
         **dict.fromkeys(("exit", "quit", "bye"), ".quit leaves, and so does Ctrl-D; HALT ends the terminal's session")}
DEEPEST_RUN = 8
# Seconds from one attempt to connect to the next.
PAUSE = 0.5
# Seconds in which a server answers that is at nobody else's connection.
AT_ONCE = 0.3
# The code of a terminal that no account has.
NOBODYS = "ZTERM"
_GLOBAL = re.compile(r"\^(?:\|[^|]*\|)?(%?[A-Za-z][A-Za-z0-9]*|%)")
_CONTROL = re.compile(r"[\x00-\x08\x0a-\x1f\x7f]")


class Trouble(ClientError):
    """A command of the shell cannot do what was asked."""


class Shell:
    """Lines and commands of one terminal, and what they show."""

    def __init__(self, connection: Connected, screen: Screen, person: bool, connect: Callable[[], Connected] | None = None) -> None:
        """`connect` makes a connection again, once the server that went away is back."""
        self._connection, self._screen, self._person, self._connect = connection, screen, person, connect
        self._names = {"ROUTINE"}
        self._has_read_routines = False
        self._timing = False
        self._depth = 0
        self.failed = False
        self._commands: dict[str, Callable[[str], None]] = {
            ".help": self._help, ".globals": self._globals, ".routines": self._routines, ".show": self._show, ".load": self._load,
            ".save": self._save, ".list": self._list, ".edit": self._edit, ".check": self._check, ".run": self._run, ".time": self._time,
        }

    def __enter__(self) -> Self:
        return self

    def __exit__(self, kind: type[BaseException] | None, error: BaseException | None, trace: TracebackType | None) -> None:
        self._connection.__exit__(kind, error, trace)

    def has_account(self) -> bool:
        """Whether the terminal is an account's; that it is not is shown. It asks by a line without a text, which does nothing. A server that is at
        somebody else's connection answers that later: then True, and the first line is answered as it is."""
        patience, self._connection.timeout = self._connection.timeout, AT_ONCE
        try:
            reply = self._connection.send("")
        except TimedOut:
            return True
        finally:
            self._connection.timeout = patience
        if reply.code == NOBODYS:
            self._complain(f"{self._connection.terminal}: {in_words(NOBODYS)}. {CODES[NOBODYS].advice}")
        return reply.code != NOBODYS

    def obey(self, line: str) -> bool:
        """Does a line: a command of the shell, or a line of M. False if it leaves the shell."""
        word, _, rest = line.strip().partition(" ")
        if self._person and not self._depth and line.strip().lower() in HINTS:
            self._screen.show(HINTS[line.strip().lower()], "note")
        elif not word.startswith("."):
            self._connected_again(self._send, line)
        elif word in (".quit", ".exit"):
            return False
        elif word in self._commands:
            self._connected_again(self._guarded, self._commands[word], rest.strip())
        else:
            self._complain(f"{word}: no such command; .help names them")
        return True

    def _connected_again(self, act: Callable[..., None], *given: object) -> None:
        """Does something; if the server goes away meanwhile, a person is connected again once it is back, and hears what was lost."""
        try:
            act(*given)
        except ServerGone as error:
            if not self._person or self._connect is None:
                raise
            self._complain(str(error))
            self._come_back(self._connect)

    def _come_back(self, connect: Callable[[], Connected]) -> None:
        """Connects again, as soon as there is a server."""
        before = self._connection
        before.close()
        self._screen.show("waiting for the server; Ctrl-C leaves", "note")
        while True:
            try:
                self._connection = connect()
                break
            except NoServer:
                time.sleep(PAUSE)
        is_new = before.is_new_server()
        lost = "the terminal's variables and locks are gone, and with a store in memory all globals" if is_new else \
            "the server is the one of before: the terminal's variables and locks are as they were" if is_new is False else \
            "the terminal's variables and locks may be gone: W $D(A) says whether A is there"
        self._screen.show(f"connected again, as terminal {self._connection.terminal}; {lost}", "note")

    def learn(self, line: str) -> None:
        """Keeps the names of globals that a line has, for .globals and completion."""
        self._names.update(_GLOBAL.findall(line))

    def _guarded(self, act: Callable[[str], None], words: str) -> None:
        """Does a command; what keeps it from its end is shown, and the shell goes on if the server is there."""
        try:
            act(words)
        except ServerGone:
            raise
        except ClientError as error:
            self._complain(str(error))
        except OSError as error:
            self._complain(f"{error.filename}: {error.strerror}" if error.filename else str(error))

    def _complain(self, text: str) -> None:
        self.failed = True
        self._screen.show(text, "code")

    def _send(self, line: str) -> None:
        """Runs a line of M and shows its reply."""
        if not line.strip():
            return
        self.learn(line)
        try:
            line = escape.stored_line(line) if self._connection.in_utf_8 else line
        except escape.NotText as error:
            self._complain(f"{error}: the line was not sent")
            return
        began = time.monotonic()
        with self._patient():
            reply = self._connection.send(line)
        took = time.monotonic() - began
        self._show_reply(reply, line)
        if self._timing:
            self._screen.show(f"{took * 1000:.1f} ms", "note")

    @contextmanager
    def _patient(self) -> Iterator[None]:
        """Says to a person what a long wait may come from."""
        if not self._person:
            yield
            return
        note = threading.Timer(2, lambda: options.tell(NAME, f"waiting: {self._connection.why_it_waits()}; Ctrl-C gives up"))
        note.start()
        try:
            yield
        finally:
            note.cancel()

    def _show_reply(self, reply: Reply, line: str) -> None:
        self._screen.show_reply(map(self._visible, reply.output))
        self.failed = self.failed or reply.code is not None
        line = escape.shown_line(line) if self._connection.in_utf_8 else line
        fault = checking.fault_of(self._connection, as_read(line, self._connection.in_utf_8)) if reply.code in ("ZSYNTAX", "ZCHAR") else None
        if fault is None and reply.note:
            self._screen.show(reply.note, "note")
        if fault is not None and self._person:
            for text in language.pointed(_CONTROL.sub(" ", line), fault):
                self._screen.show(f"  {text}", "code")
        elif fault is not None and reply.code is not None:
            self._screen.show(f"{in_words(reply.code)}: column {fault.place + 1}: {fault.name}", "code")
        elif reply.code is not None:
            where = f"  ({place(reply.code)})" if self._person and place(reply.code) else ""
            self._screen.show(in_words(reply.code) + where, "code")

    def _visible(self, text: str) -> str:
        """The text as it is written; controls, which a screen would obey, as they are on the wire."""
        text = escape.shown(text) if self._connection.in_utf_8 else text
        return _CONTROL.sub(lambda found: f"\\{ord(found[0]):02X}", text) if self._person else text

    def _help(self, word: str) -> None:
        lines = reference.explained(word) if word else reference.overview()
        if not lines:
            raise Trouble(f"{word}: no command, function or code; .help lists them")
        for line in lines:
            self._screen.show(line)

    def _globals(self, words: str) -> None:
        """The globals that are there, among the names that are known: no line of the language lists them."""
        self.learn(" ".join(f"^{word.lstrip('^')}" for word in words.split()))
        self._read_routines()
        for name in self._there():
            self._screen.show(f"^{name}", "name")
        self._note("of the names that routines and lines of this session have; give others: .globals ^NAME ..")

    def _read_routines(self) -> None:
        """Learns the names that the account's routines have."""
        for name in routine_names(self._connection):
            for _, text in routines.nodes_of(self._connection, name):
                self.learn(text)
        self._has_read_routines = True

    def _there(self) -> list[str]:
        """The globals that have a text or nodes, of the names that are known."""
        names = sorted(name for name in self._names if keys.is_name(name))
        replies = list(self._connection.pipeline(f"W $D(^{name})" for name in names))
        return [name for name, reply in zip(names, replies) if reply.rest not in ("", "0")]

    def _note(self, text: str) -> None:
        if self._person:
            self._screen.show(text, "note")

    def _routines(self, _: str) -> None:
        for name in routine_names(self._connection):
            self._screen.show(name, "name")

    def _show(self, words: str) -> None:
        name, subscripts = self._place(words)
        shown = 0
        for line in self._paged(self._node_lines(name, subscripts)):
            self._screen.show(line)
            shown += 1
        if not shown:
            raise Trouble(f"{words} has no text, and there is none below it")

    def _place(self, words: str) -> tuple[str, keys.Subscripts]:
        """The variable and the values of the subscripts of a reference."""
        if not words or not mtext.is_reference(words):
            raise Trouble(".show wants a variable by its name, as .show ^X(1), .show X, or .show ^|\"LAB\"|X")
        name, bracket, rest = words.partition("(")
        if not bracket:
            return name, ()
        asked(self._connection, f"W $D({words})")
        return name, tuple(asked(self._connection, f'W ""_({expression})').rest for expression in mtext.arguments(rest[:-1]))

    def _node_lines(self, name: str, subscripts: keys.Subscripts) -> Iterator[str]:
        for found, text in Walker(self._connection, name).nodes(subscripts):
            node = f"{mtext.written_node(name, found)}={mtext.written(text)}"
            yield escape.shown(node) if self._connection.in_utf_8 else node
        self.learn(name)

    def _paged(self, lines: Iterable[str]) -> Iterable[str]:
        return pages(lines, input) if self._person else lines

    def _load(self, words: str) -> None:
        found = self._ascii(sources(words.split() or [""]))
        refuse_over(found)
        with routines.deploying(self._connection):
            for source in found:
                others = routines.load(self._connection, source.name, source.texts())
                self._screen.show(f"{source.name}: {counted(len(source.lines), 'line')} from {source.path}")
                if others:
                    self._screen.show(f"{counted(len(others), 'node')} of it that were no lines are gone with the old routine", "note")

    def _ascii(self, found: list[Source]) -> list[Source]:
        """The routines of files, with escapes for characters over 127 if that is wanted."""
        return [stored_source(source) for source in found] if self._connection.in_utf_8 else found

    def _list(self, name: str) -> None:
        """The lines of a routine, each with its number."""
        texts = routines.texts_of(self._connection, name)
        for line in self._paged(f"{number:>5}  {self._visible(text)}" for number, text in enumerate(texts, 1)):
            self._screen.show(line)

    def _edit(self, name: str) -> None:
        """Opens a routine, or a new one, in the editor of the variable EDITOR; loads what was changed."""
        if not keys.is_name(name):
            raise Trouble(".edit wants the name of a routine, as .edit ADD")
        before = file_text(name, [node[1] for node in routines.nodes_of(self._connection, name) if routines.is_line(node)], self._connection.in_utf_8)
        with tempfile.TemporaryDirectory(prefix="mshell-") as folder:
            path = os.path.join(folder, file_name(name))
            write_whole(path, before)
            if subprocess.call([*shlex.split(os.environ.get("VISUAL") or os.environ.get("EDITOR") or "vi"), path]):
                raise Trouble("the editor ended with a fault: nothing was loaded")
            with open(path, encoding="utf-8", errors="surrogateescape") as file:
                if file.read() == before:
                    self._note(f"{name}: not changed")
                    return
            kept = f"{file_name(name)}.edited"
            try:
                self._check(path)
                self._load(path)
            except ClientError:
                shutil.copy(path, kept)
                self._screen.show(f"what was edited is in {kept}", "note")
                raise

    def _save(self, words: str) -> None:
        name, _, path = words.partition(" ")
        text = file_text(name, routines.texts_of(self._connection, name), self._connection.in_utf_8)
        path = path.strip() or file_name(name)
        if os.path.exists(path):
            raise Trouble(f"{path} is there already: give another file, .save {name} FILE")
        write_whole(path, text)
        self._screen.show(f"{name}: {path}")

    def _check(self, words: str) -> None:
        for source, found in checking.findings(self._connection, self._ascii(sources(words.split() or [""]))):
            for finding in found:
                self.failed = self.failed or finding.kind is not checking.Kind.WARNING
                self._screen.show(f"{source.path}:{finding.line}:{finding.column}: {finding.message}", "code")
                self._screen.show(f"    {finding.advice}")
            if not any(finding.kind is checking.Kind.REFUSED for finding in found):
                self._screen.show(f"{source.path}: {counted(len(source.lines), 'line')}, all in the language")

    def _run(self, words: str) -> None:
        path, _, how = words.partition(" ")
        if self._depth >= DEEPEST_RUN or how not in ("", "all"):
            raise Trouble(".run FILE [all]; files that run one another are at most 8 deep")
        with open(path, encoding="utf-8", errors="surrogateescape", newline="\n") as file:
            lines = file.read().split("\n")
        before, self._depth = self.failed, self._depth + 1
        for number, line in enumerate(lines, 1):
            self.failed = False
            self.obey(line.removesuffix("\r"))
            if self.failed and not how:
                self._complain(f"{path}:{number}: stopped here; `.run {path} all` goes on")
                break
            before = before or self.failed
        self.failed, self._depth = before or self.failed, self._depth - 1

    def _time(self, line: str) -> None:
        if not line:
            self._timing = not self._timing
            self._screen.show("each line is timed" if self._timing else "lines are timed no more", "note")
            return
        before, self._timing = self._timing, True
        self.obey(line)
        self._timing = before

    def complete(self, before: str) -> tuple[int, list[str]]:
        """How many characters before the cursor are to be replaced, and by what."""
        if before.startswith("."):
            word, space, rest = before.partition(" ")
            if not space:
                return len(word), [name for name in reference.DOT_COMMANDS if name.startswith(word)]
            if word in (".load", ".run", ".check"):
                return len(rest), sorted(glob.glob(glob.escape(rest) + "*"))
            if word in (".save", ".list", ".edit"):
                return len(rest), [name for name in self._routine_names() if name.startswith(rest)]
        return self._complete_line(before)

    def _complete_line(self, before: str) -> tuple[int, list[str]]:
        found = re.search(r"(?:\$|\^%?|)[A-Za-z0-9]*$", before)
        token = found[0] if found else ""
        if token.startswith("$"):
            return len(token), [name for name in reference.FUNCTIONS if name.startswith(token.upper())]
        if token.startswith("^"):
            is_entry = re.search(r"(?:^| )(?:D|DO|G|GOTO)(?::\S+)? \S*$", before, re.IGNORECASE)
            names = self._routine_names() if is_entry else self._global_names()
            return len(token), [f"^{name}" for name in names if name.startswith(token[1:])]
        if re.search(r"(?:^| )[A-Za-z]*$", before):
            return len(token), [name for name in reference.COMMANDS if name.startswith(token.upper())]
        return 0, []

    def _routine_names(self) -> list[str]:
        try:
            return routine_names(self._connection)
        except (TimedOut, AnsweredByCode):
            return []

    def _global_names(self) -> list[str]:
        """The globals that are there, for completion: routines are read at the first one alone, since there may be many."""
        try:
            if not self._has_read_routines:
                self._read_routines()
            return self._there()
        except (TimedOut, AnsweredByCode):
            return []


def as_read(line: str, in_utf_8: bool) -> str:
    """A line with its places kept, as the language reads it: a character that a string may have by an escape counts as one of ASCII."""
    return re.sub(r'"(?:[^"]|"")*"?', lambda found: re.sub(r"[^\x00-\x7f]", "x", found[0]), line) if in_utf_8 else line


def words(arguments: list[str] | None = None) -> argparse.ArgumentParser:
    """The reader of the command's words."""
    reader = options.parser(NAME, ABOUT)
    options.add_place(reader, arguments, "the terminal that the lines are of")
    reader.add_argument("--history", default=history_file(), metavar="FILE", help="where lines are kept between runs (default %(default)s)")
    reader.add_argument("--no-history", dest="history", action="store_const", const=None, help="keep no lines")
    reader.add_argument("--plain", action="store_true", help="no prompt, no colour, no pages: as from a pipe")
    return reader


def run(chosen: argparse.Namespace) -> int:
    """Runs lines until they end."""
    person = is_person() and not chosen.plain
    known = options.secret(chosen) if chosen.front is not None and (chosen.user or chosen.token) else None
    with Shell(options.connected(chosen, known), Screen(person), person, lambda: options.connected(chosen, known)) as shell:
        # A front gives a terminal of the user's account by itself.
        if person and chosen.front is None and not shell.has_account():
            return FOUND
        if person:
            converse(shell, prompt(chosen.history, shell.complete))
            return 0
        for line in sys.stdin.buffer:
            text = line.removesuffix(b"\n").removesuffix(b"\r").decode("utf-8", "surrogateescape")
            if not shell.obey(text):
                break
        return FOUND if shell.failed else 0


def converse(shell: Shell, ask: Callable[[str], str]) -> None:
    """Asks a person for lines until there are no more."""
    while True:
        try:
            line = ask(PROMPT)
        except KeyboardInterrupt:
            continue
        except EOFError:
            return
        if not shell.obey(line):
            return


main = options.command(NAME, words, run)
