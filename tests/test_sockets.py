# SPDX-License-Identifier: Apache-2.0
"""`mserve serve` over real sockets on loopback: connections one after another, streams in pieces, peers that go away, a port that is taken, a server
that is ended by a signal."""
from __future__ import annotations

import contextlib
import signal
import socket
import struct
import subprocess
import threading
from pathlib import Path

import pytest
from running import ONE_ACCOUNT, connected, run, serve_words
from support import server

pytestmark = pytest.mark.waits
# Lines, and their replies: of blank lines, unreadable ones, lines that are too long, escapes, a CR before the LF, and no line end at the end.
STREAMS = {
    "fates": (b'\nx W 1\n9 W 1\n1 W "a\\",$C(10)\r\n1 W 2', b"?!ZWIRE\n9!ZTERM\n1-a\\5C\\0A\n1.\n1-2\n1.\n"),
    "lengths": (b"1 " + b";" * 255 + b"\n1 " + b";" * 256 + b"\n" + b"1" * 261 + b"\n1 \n1\n01 W 1\n1 W \"\xc3\xa9\"\n",
                b"1.\n1!ZLINE\n?!ZLINE\n1.\n?!ZWIRE\n?!ZWIRE\n1!ZCHAR\n"),
}
CONNECTIONS, LINES = 1_000, 100_000


def read_all(client: socket.socket) -> bytes:
    """The replies to the end of a connection that sends no more."""
    got = b""
    while piece := client.recv(65536):
        got += piece
    return got


def send(client: socket.socket, stream: bytes, size: int) -> None:
    """Sends a stream in pieces of a size, and no more."""
    for at in range(0, len(stream), size):
        client.sendall(stream[at:at + size])
    client.shutdown(socket.SHUT_WR)


def asked(port: int, stream: bytes, size: int = 0) -> bytes:
    """The replies to a stream, which is sent in pieces of this size, or at once."""
    with connected(port) as client:
        client.setsockopt(socket.IPPROTO_TCP, socket.TCP_NODELAY, 1)
        sender = threading.Thread(target=send, args=(client, stream, size or max(len(stream), 1)))
        sender.start()
        got = read_all(client)
        sender.join()
        return got


def abort(client: socket.socket) -> None:
    """Ends a connection at once, as if a peer's machine goes away."""
    client.setsockopt(socket.SOL_SOCKET, socket.SO_LINGER, struct.pack("ii", 1, 0))
    client.close()


def fill(client: socket.socket, line: bytes, server: int) -> None:
    """Sends lines and reads no reply, until the server waits for its replies to be read: it takes no more, and sleeps. One that a busy machine holds up
    takes no more for a while either."""
    data, at = line * 100, 0
    client.settimeout(1)
    while True:
        try:
            at = (at + client.send(data[at:])) % len(data)
        except TimeoutError:
            if Path(f"/proc/{server}/stat").read_text(encoding="ascii").rpartition(")")[2].split()[0] == "S":
                return


def test_connections_in_turn() -> None:
    """Sessions last over connections, and each is served to its end before the next one."""
    with server(3) as running:
        first, second = connected(running.port), connected(running.port)
        second.sendall(b"1 W A\n")
        second.shutdown(socket.SHUT_WR)
        first.sendall(b"1 S A=1\n")
        assert first.recv(100) == b"1.\n"
        first.close()
        assert read_all(second) == b"1-1\n1.\n"
        second.close()
        assert asked(running.port, b"") == b""
    assert running.ended() == (0, b"")


def test_many_connections() -> None:
    with server(CONNECTIONS) as running:
        got = [asked(running.port, b"1 S N=$G(N)+1 W N\n") for _ in range(CONNECTIONS)]
    assert got == [b"1-%d\n1.\n" % number for number in range(1, CONNECTIONS + 1)]
    assert running.ended() == (0, b"")


def test_many_lines() -> None:
    with server(1) as running:
        got = asked(running.port, b"1 S N=$G(N)+1\n" * LINES + b"1 W N\n")
    assert got == b"1.\n" * LINES + b"1-%d\n1.\n" % LINES
    assert running.ended() == (0, b"")


@pytest.mark.parametrize("size", [1, 2, 7])
@pytest.mark.parametrize(("stream", "replies"), STREAMS.values(), ids=STREAMS.keys())
def test_in_pieces(stream: bytes, replies: bytes, size: int) -> None:
    with server(1) as running:
        assert asked(running.port, stream, size) == replies
    assert running.ended() == (0, b"")


def test_peers_that_go_away() -> None:
    with server(5) as running:
        client = connected(running.port)
        client.sendall(b"1 S A=1\n1 S A=2")
        assert client.recv(100) == b"1.\n"
        abort(client)
        assert asked(running.port, b"1 W A\n") == b"1-1\n1.\n"
        for number in (3, 4):
            client = connected(running.port)
            fill(client, b"1 S A=A+1 W $J(A,4000)\n", running.process.pid)
            abort(client) if number == 3 else client.close()
        assert asked(running.port, b"1 W A>1\n") == b"1-1\n1.\n"
    assert running.ended() == (0, b"mserve: connection 1: Read\nmserve: connection 3: Write\nmserve: connection 4: Write\n")


@pytest.mark.long
def test_a_peer_that_stays() -> None:
    """A peer that never reads, and stays, keeps the others waiting; then its connection ends with a report, and the next one is served. A write
    ends after a minute, with the bytes for which the system found room or else with the fault, so this takes two or three minutes."""
    with server(2) as running, connected(running.port) as client:
        fill(client, b"1 S A=$G(A)+1 W $J(A,4000)\n", running.process.pid)
        with connected(running.port) as other:
            other.settimeout(400)
            other.sendall(b"1 W A>1\n")
            other.shutdown(socket.SHUT_WR)
            assert read_all(other) == b"1-1\n1.\n"
    assert running.ended() == (0, b"mserve: connection 1: Write\n")


@pytest.mark.parametrize(("part", "fault", "status", "store_there", "settings_there"), [
    ("wire", "Listen", 5, True, True), ("store", "Store", 4, False, True), ("settings", "Read", 3, False, False),
], ids=["a port that is taken", "and no store", "and no settings"])
def test_a_port_that_is_taken(part: str, fault: str, status: int, store_there: bool, settings_there: bool, tmp_path: Path) -> None:
    """It is reported after the faults of the settings and of the store."""
    with socket.create_server(("127.0.0.1", 0)) as listener:
        words = serve_words(listener.getsockname()[1], 1, "memory" if store_there else str(tmp_path), ONE_ACCOUNT if settings_there else str(tmp_path))
        ran = subprocess.run(words, capture_output=True, timeout=60)
    assert (ran.returncode, ran.stdout, ran.stderr) == (status, b"", f"mserve: {part}: {fault}\n".encode())


def send_sets(client: socket.socket) -> None:
    """Sends SETs until nobody takes them."""
    with contextlib.suppress(OSError):
        for number in range(1, 100_000):
            client.sendall(b"1 S ^K(%d)=%d\n" % (number, number))


def answered_before(number: signal.Signals, store: str) -> int:
    """How many SETs a server answers that is ended by this signal in the middle."""
    with server(1, store) as running:
        client = connected(running.port)
        sender = threading.Thread(target=send_sets, args=(client,))
        sender.start()
        got = b""
        while got.count(b"\n") < 50:
            got += client.recv(64)
        running.process.send_signal(number)
        with contextlib.suppress(ConnectionError):
            got += read_all(client)
        client.close()
        sender.join()
    assert running.process.returncode == -number
    return got.count(b"1.\n")


@pytest.mark.parametrize("number", [signal.SIGKILL, signal.SIGTERM, signal.SIGINT], ids=lambda number: number.name)
def test_ended_by_a_signal(number: signal.Signals, store: str) -> None:
    """Each SET that was answered is in the store, which is served again."""
    answered = answered_before(number, store)
    status, output, told = run(b'1 W +$O(^K(""),-1)\n', store=store)
    assert (status, told) == (0, b"")
    assert int(output.split(b"\n")[0][2:]) >= answered
    with server(1, store) as running:
        assert asked(running.port, b"1 W ^K(1)\n") == b"1-1\n1.\n"
