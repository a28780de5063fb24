# SPDX-License-Identifier: Apache-2.0
"""Helpers of the tests that are no fixtures: a line with its reply, refusals, the replies of a list of lines, and servers."""
from __future__ import annotations

import contextlib
import functools
import os
import resource
import select
import shutil
import signal
import socket
import subprocess
import threading
import tomllib
from collections.abc import Callable, Iterator, Sequence
from dataclasses import dataclass
from typing import IO

from mserve_client.settings_file import MAX_STEPS, Account
from running import ONE_ACCOUNT, PROGRAM, connected, free_port, run_words, serve_words

LINE = b"1 WRITE 1+2*3\n"
REPLY = b"1-9\n1.\n"
Ended = tuple[int, bytes, bytes]
# A grant: from, to, global, mode.
Grant = tuple[str, str, str, str]
# Settings of an account with one terminal.
ACCOUNT = '[[account]]\nname = "A{0}"\nterminals = [{0}]\nsteps = {1}\n'
# Settings of one account, whose lines may use as many steps as settings can give.
MOST_STEPS = str(Account("ALICE", (1,), MAX_STEPS))
# Lines of which each leaves its number, in a local variable and in a global.
COUNTED = [(b"1 S A=%d,^A=A W A\n" % number, b"1-%d\n1.\n" % number) for number in (1, 2, 3)]


def refused(status: int, part: str, fault: str) -> Ended:
    """How a run ends that is refused for the fault of a part: its status, no output, and what is said."""
    return status, b"", f"mserve: {part}: {fault}\n".encode()


def reaching(account: str, grants: list[Grant]) -> set[str]:
    """The accounts that reach this one: by a chain of grants, of which those to write lead both ways."""
    links = [(giver, taker) for giver, taker, _, _ in grants]
    links += [(taker, giver) for giver, taker, _, mode in grants if mode == "write"]
    found, left = {account}, [account]
    while left:
        to = left.pop()
        more = {giver for giver, taker in links if taker == to} - found
        found |= more
        left += more
    return found


@functools.cache
def accounts_of(settings: str) -> dict[str, list[int]]:
    """The accounts of a file of settings, with their terminals."""
    return {account["name"]: account["terminals"] for account in tomllib.loads(content(settings).decode("ascii"))["account"]}


@functools.cache
def grants_of(settings: str) -> list[Grant]:
    """The grants of a file of settings."""
    found = tomllib.loads(content(settings).decode("ascii")).get("grant", [])
    return [(grant["from"], grant["to"], grant["global"], grant["mode"]) for grant in found]


def shown_to(output: bytes, terminals: Sequence[int]) -> bytes:
    """The lines of replies at these terminals."""
    marks = tuple(b"%d%c" % (terminal, mark) for terminal in terminals for mark in b":-.!")
    return b"".join(line for line in output.splitlines(True) if marks and line.startswith(marks))


def steps_played(texts: Sequence[tuple[bytes, int]]) -> tuple[str, bytes]:
    """Settings, and lines: each text twice, at terminals of two accounts. Those of 1, 3, .. may use as many steps as it needs, and those of 2, 4, ..
    one fewer, but one step at least."""
    accounts, stream = "", b""
    for place, (text, steps) in enumerate(texts):
        for terminal, most in ((2 * place + 1, steps), (2 * place + 2, steps - 1)):
            accounts += ACCOUNT.format(terminal, max(most, 1))
            stream += b"%d %s\n" % (terminal, text)
    return accounts, stream


def content(path: str) -> bytes:
    """The bytes of a file."""
    with open(path, "rb") as file:
        return file.read()


def full_after(size: int) -> Callable[[], None]:
    """Lets no file of a process grow past a size, as a disk that is full."""
    def limit() -> None:
        signal.signal(signal.SIGXFSZ, signal.SIG_IGN)
        resource.setrlimit(resource.RLIMIT_FSIZE, (size, size))
    return limit


def run_as_nobody(folder: str, settings: str, store: str) -> Ended:
    """A run without a superuser's rights, to whom no file is closed, by a copy of the program in a folder that all may enter."""
    program = os.path.join(folder, "mserve")
    shutil.copy2(PROGRAM, program)
    os.chmod(program, 0o755)
    nobody = {"user": 65534, "group": 65534, "extra_groups": []} if os.geteuid() == 0 else {}
    words = [program, "run", "--settings", settings, "--store", store]
    ran = subprocess.run(words, input=LINE, capture_output=True, timeout=60, **nobody)
    return ran.returncode, ran.stdout, ran.stderr


def replies(stream: bytes, store: str = "memory", settings: str | None = None) -> bytes:
    """What the program writes to a stream, which must not end it."""
    words = run_words(store=store) if settings is None else run_words(settings, store)
    ran = subprocess.run(words, input=stream, capture_output=True, timeout=600)
    assert (ran.returncode, ran.stderr) == (0, b"")
    return ran.stdout


def replies_of_lines(lines: list[str], store: str = "memory", settings: str | None = None) -> list[list[str]]:
    """The reply to each of the lines, which are of terminal 1, by its own lines."""
    written = replies("".join(f"1 {line}\n" for line in lines).encode("ascii"), store, settings).decode("ascii")
    found: list[list[str]] = []
    reply: list[str] = []
    for line in written.splitlines():
        reply.append(line)
        if line == "1." or line.startswith(("1!", "?!")):
            found.append(reply)
            reply = []
    assert (len(found), reply) == (len(lines), [])
    return found


def read_in_time(pipe: IO[bytes], size: int) -> bytes:
    """This many bytes of a pipe, or what came before a minute of silence or the end."""
    got = b""
    while len(got) < size and select.select([pipe], [], [], 60)[0]:
        piece = os.read(pipe.fileno(), size - len(got))
        if not piece:
            break
        got += piece
    return got


def answered_in_turn(pairs: Sequence[tuple[bytes, bytes]], settings: str = ONE_ACCOUNT) -> None:
    """Sends each line when the ones before it are answered, each with the reply beside it; a line that no line feed ends is answered at the end."""
    with subprocess.Popen(run_words(settings), stdin=subprocess.PIPE, stdout=subprocess.PIPE, stderr=subprocess.PIPE, bufsize=0) as program:
        try:
            for line, reply in pairs:
                program.stdin.write(line)
                wanted = reply if line.endswith(b"\n") else b""
                assert (line, read_in_time(program.stdout, len(wanted))) == (line, wanted)
            output, told = program.communicate(timeout=60)
        finally:
            program.kill()
    rest = b"".join(reply for line, reply in pairs if not line.endswith(b"\n"))
    assert (program.returncode, told, output) == (0, b"", rest)


def give(pieces: Sequence[bytes], descriptor: int) -> None:
    """Writes the pieces to a pipe, and closes it."""
    with os.fdopen(descriptor, "wb", buffering=0) as pipe:
        for piece in pieces:
            pipe.write(piece)


def run_in_pieces(stream: bytes, size: int, settings: str, only: str | None) -> Ended:
    """What `run` gives if each read of the program gives this many bytes at most: a pipe of packets hands on each write by itself."""
    reading, writing = os.pipe2(os.O_DIRECT | os.O_CLOEXEC)
    pieces = [stream[i:i + size] for i in range(0, len(stream), size)]
    with subprocess.Popen(run_words(settings, only=only), stdin=reading, stdout=subprocess.PIPE, stderr=subprocess.PIPE) as program:
        os.close(reading)
        giver = threading.Thread(target=give, args=(pieces, writing))
        giver.start()
        output, told = program.communicate(timeout=60)
        giver.join()
    return program.returncode, output, told


@dataclass
class Server:
    """A server: its process, its port, and, once it has ended, what it said."""
    process: subprocess.Popen[bytes]
    port: int
    told: bytes = b""

    def ended(self) -> tuple[int, bytes]:
        """Its status, and what it said."""
        return self.process.returncode, self.told


@contextlib.contextmanager
def server(connections: int, store: str = "memory", settings: str = ONE_ACCOUNT, pass_fds: tuple[int, ...] = (), **variables: str) -> Iterator[Server]:
    """A server for this many connections, with these variables in its environment and these descriptors. After the block it has ended, and has
    written nothing."""
    port = free_port()
    words = serve_words(port, connections, store, settings)
    with subprocess.Popen(words, stdin=subprocess.DEVNULL, stdout=subprocess.PIPE, stderr=subprocess.PIPE, pass_fds=pass_fds,
                          env={**os.environ, **variables}) as process:
        found = Server(process, port)
        try:
            yield found
            output, found.told = process.communicate(timeout=60)
            assert output == b""
        finally:
            process.kill()


def asked(port: int, stream: bytes) -> bytes:
    """What a connection answers to a stream; if it broke, what came before."""
    got = b""
    with connected(port) as client:
        try:
            client.sendall(stream)
            client.shutdown(socket.SHUT_WR)
            while piece := client.recv(65536):
                got += piece
        except TimeoutError:
            raise
        except OSError:
            pass
    return got
