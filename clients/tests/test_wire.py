# SPDX-License-Identifier: Apache-2.0
"""The wire module: replies as records, pipelines, time-outs, and connections that break."""
from __future__ import annotations

import socket
import threading
from collections.abc import Iterator

import pytest
from conftest import ALICE, SHORT, Server
from hypothesis import given
from hypothesis import strategies as st
from mserve_client import BadLine, BadReply, Connection, NoServer, Reply, ServerGone, TimedOut
from mserve_client.wire import ReplyReader, line_bytes


@pytest.mark.parametrize(("line", "reply"), [
    ("W 1+2*3", Reply(rest="9")),
    ('S A="x" W A_1,!,A-1*2', Reply(("x1",), "-2")),
    ("S A=1", Reply()),
    ("W 1,!,!,2,!", Reply(("1", "", "2"))),
    ("W 5,!,B", Reply(("5",), "", "M6")),
    ("W 1/0", Reply(code="M9")),
    ("F  S Z=1", Reply(code="ZSTEPS")),
    ("HELLO", Reply(code="ZSYNTAX")),
    ('W $C(10,13,0,127)_"\\5C"', Reply(rest="\n\r\0\x7f\\5C")),
    ("W \"\t\r\"", Reply(rest="\t\r")),
    (";\r", Reply()),
    ("", Reply()),
    ("W \"é\"", Reply(code="ZCHAR")),
    ("W " + "1" * 253, Reply(code="ZOVER")),
    ("W " + "1" * 254, Reply(code="ZLINE")),
    ("W " + "1" * 500, Reply(code="ZLINE")),
], ids=lambda value: None if isinstance(value, Reply) else repr(value[:20]))
def test_reply_of_a_line(server: Server, line: str, reply: Reply) -> None:
    with server.connection() as connection:
        assert connection.send(line) == reply


def test_output_and_ok() -> None:
    assert Reply(("a",), "b").output == ["a", "b"]
    assert Reply(("a",)).output == ["a"]
    assert Reply().ok and not Reply(code="M6").ok


def test_terminal_that_is_not_in_the_settings(server: Server) -> None:
    with server.connection(9) as connection:
        assert connection.send("W 1").code == "ZTERM"


def test_sessions_last_over_connections(server: Server) -> None:
    with server.connection() as connection:
        connection.send("S A=5")
    with server.connection() as connection:
        assert connection.send("W A").rest == "5"


def test_pipeline_has_each_reply_in_its_order(server: Server) -> None:
    with server.connection() as connection:
        replies = list(connection.pipeline((f"S N=$G(N)+1 W N,!,{number}" for number in range(1, 61)), window=7))
    assert replies == [Reply((str(number),), str(number)) for number in range(1, 61)]


def test_pipeline_of_large_replies_does_not_stand_still() -> None:
    """A peer reads a line only once the reply of the one before it is taken, and neither fits into the buffers of the system."""
    count, size = 200, 100_000

    def serve(listener: socket.socket) -> None:
        peer, _ = listener.accept()
        lines = peer.makefile("rb")
        for _ in range(count):
            lines.readline()
            peer.sendall(b"1-" + b"x" * size + b"\n1.\n")

    with socket.create_server(("127.0.0.1", 0)) as listener:
        threading.Thread(target=serve, args=(listener,), daemon=True).start()
        with Connection(listener.getsockname()[1], 1, timeout=60) as connection:
            line = "W " + "1" * 40_000
            assert [len(reply.rest) for reply in connection.pipeline([line] * count)] == [size] * count


def test_pipeline_stops_where_its_lines_end(server: Server) -> None:
    codes: list[str | None] = []

    def lines() -> Iterator[str]:
        for number in range(1, 100):
            if any(codes):
                return
            yield "W 1/0" if number == 10 else f"S ^X({number})=1"

    with server.connection() as connection:
        for reply in connection.pipeline(lines(), window=5):
            codes.append(reply.code)
        assert codes.index("M9") == 9
        # The tenth line sets nothing, and is the last one if no further line was on its way.
        assert connection.send('W $O(^X(""),-1)').rest == str(len(codes) if len(codes) > 10 else 9)
        assert len(codes) < 20


def test_pipeline_that_is_left_does_not_mix_up_replies(server: Server) -> None:
    with server.connection() as connection:
        for reply in connection.pipeline(f"W {number}" for number in range(20)):
            if reply.rest == "5":
                break
        assert connection.send('W "next"').rest == "next"


def test_line_feed_is_refused(server: Server) -> None:
    with server.connection() as connection:
        with pytest.raises(BadLine, match=r"\$CHAR\(10\)"):
            connection.send("W 1\nW 2")
        assert connection.send("W 3").rest == "3"


def test_no_server() -> None:
    with socket.socket() as place:
        place.bind(("127.0.0.1", 0))
        port = place.getsockname()[1]
        with pytest.raises(NoServer, match="mserve serve"):
            Connection(port, 1)


def test_server_that_goes_away(own_server: Server) -> None:
    with own_server.connection() as connection:
        connection.send("W 1")
        own_server.process.kill()
        with pytest.raises(ServerGone, match="went away"):
            connection.send("W 2")


def test_time_out_while_another_client_is_served_and_after_it(server: Server) -> None:
    with server.connection() as first, server.connection(timeout=0.2) as second:
        first.send("S A=1")
        with pytest.raises(TimedOut, match="another client may be connected"):
            second.send("W A+1")
        first.close()
        # It is served now, and takes what time it needs.
        second.timeout = 60
        assert second.send("W A+2").rest == "3"


def test_end_of_a_session(server: Server) -> None:
    with server.connection() as connection:
        connection.send("S A=1 L +^X")
        assert connection.end_session() == Reply()
        assert connection.send("W A").code == "M6"


def test_interrupt_ends_the_session(server: Server) -> None:
    with pytest.raises(KeyboardInterrupt), server.connection() as connection:
        for number, _ in enumerate(connection.pipeline(f"S A={number}" for number in range(100))):
            if number == 10:
                raise KeyboardInterrupt
    with server.connection() as connection:
        assert connection.send("W A").code == "M6"


def test_line_that_is_cut_off_is_not_run(server: Server) -> None:
    """A closed connection takes a half sent line along: as an unfinished last line it would be run."""
    connection = server.connection()
    connection.send("S A=1")
    connection._out += b"1 S A=12345"
    connection._write()
    connection.close()
    with server.connection() as later:
        assert later.send("W A").rest == "1"


def test_steps_of_a_short_account(server: Server) -> None:
    with server.connection(SHORT) as connection:
        assert connection.send("F I=1:1:100 S X=I").code == "ZSTEPS"


@pytest.mark.parametrize("data", [b"HTTP/1.1 400 Bad Request\n", b"2.\n", b"\n", b"1?\n"])
def test_what_is_no_reply(data: bytes) -> None:
    with pytest.raises(BadReply, match="is it mserve's port"):
        ReplyReader(1).feed(data)


def test_peer_that_is_no_server() -> None:
    with socket.create_server(("127.0.0.1", 0)) as listener:
        threading.Thread(target=lambda: listener.accept()[0].sendall(b"SSH-2.0-OpenSSH\r\n")).start()
        with Connection(listener.getsockname()[1], ALICE) as connection, pytest.raises(BadReply):
            connection.send("W 1")


def on_the_wire(text: str) -> str:
    """A line of output as docs/FORMATS.md has it."""
    return "".join(f"\\{ord(code):02X}" if ord(code) < 32 or code in "\x7f\\" else code for code in text)


ASCII = st.text(st.characters(max_codepoint=127), max_size=20)
REPLIES = st.builds(Reply, st.lists(ASCII, max_size=4).map(tuple), ASCII, st.sampled_from([None, "M6", "ZSTEPS"]))


@given(st.lists(REPLIES, max_size=5), st.integers(1, 40))
def test_replies_however_their_bytes_are_cut(replies: list[Reply], size: int) -> None:
    data = b""
    for reply in replies:
        lines = [f"1:{on_the_wire(line)}" for line in reply.lines] + ([f"1-{on_the_wire(reply.rest)}"] if reply.rest else [])
        data += "".join(line + "\n" for line in [*lines, f"1!{reply.code}" if reply.code else "1."]).encode()
    reader, found = ReplyReader(1), []
    for start in range(0, len(data), size):
        found += reader.feed(data[start:start + size])
    assert found == replies


@pytest.mark.parametrize(("text", "data"), [("W 1", b"7 W 1\n"), ("", b"7 \n"), ("W \r", b"7 W \r\r\n"), (b"W \xff", b"7 W \xff\n"), ("\udcff", b"7 \xff\n")])
def test_bytes_of_a_line(text: str | bytes, data: bytes) -> None:
    assert line_bytes(7, text) == data
