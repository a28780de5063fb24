# SPDX-License-Identifier: Apache-2.0
"""The built program with each of its reads, writes and accepts refused in turn, by the library tests/refuse_io.c in front of it, over streams of
lines whose replies are known: some of its own, and each block of lines of transcripts/wire.txt.

- Each read failing, by reads of 1, 2 and 7 bytes at most: status 5, `mserve: wire: Read`, and the output is the replies of the lines of which
  the line feed was read. Each write failing, and each taking nothing, by writes of 1, 3 and 4,096 bytes at most: status 5,
  `mserve: wire: Write`, and the output is the front of the replies that was taken. With all of these sizes and no failure: all replies.
- The input is a file, and how far it was read is seen by its offset: to the end of the line whose reply is under way, and not at all if the
  words, the settings or the store are refused.
- Over a store in a file a second run sees which lines were run: the one whose write failed, and none after it; none of which no line feed came.
- Through a pipe that is kept open each line is sent only when the one before is answered.
- With `--only` all is read before a reply is written: a read that fails leaves no line run and no reply written, and a write that fails leaves
  all lines run, over a file too.
- `serve`: each accept, read and write failing. A connection that broke is reported, and the next one finds what the lines before did.

Refused by it are wrong programs: one that reads all its input before it writes a reply, one that runs several lines before it writes the
reply of the first, and one that answers every line ZMEM. The contracts refuse the first two only as far as a device fails, and the third
hardly, since they do not say when memory suffices.

Streams of more than 2,000 bytes are read by 7 bytes at most, and not by 1 and 2."""
from __future__ import annotations

import itertools
import os
import subprocess
from collections.abc import Iterator
from dataclasses import dataclass
from pathlib import Path

import pytest
from blocks import blocks, given_bytes, line_bytes
from mserve_client.settings_file import Account
from running import ONE_ACCOUNT, PROGRAM, free_port, run, run_words, serve_words
from support import COUNTED, answered_in_turn, asked

READ = (5, b"mserve: wire: Read\n")
WRITE = (5, b"mserve: wire: Write\n")
ACCEPT = (5, b"mserve: wire: Accept\n")
ENDED = (0, b"")
READ_SIZES, WRITE_SIZES = (1, 2, 7), (1, 3, 4096)
LONG = 2000
LITTLE = {"READ_MOST": 1, "WRITE_MOST": 1}
Pairs = list[tuple[bytes, bytes]]
# A run with refusals: its status, what it said, its output, and how far its input was read.
Seen = tuple[int, bytes, bytes, int]
# Lines with their replies, where terminal 1 alone is of an account.
FATES = [
    (b"hello\n", b"?!ZWIRE\n"), (b"2 W 1\r\n", b"2!ZTERM\n"), (b"\n", b""), (b"01 W 1\n", b"?!ZWIRE\n"), (b"1 W \xc3\xbc\n", b"1!ZCHAR\n"),
    (b"9 W 1", b"9!ZTERM\n"),
]
UNFINISHED = [
    (b"\n", b""), (b"x W 1\n", b"?!ZWIRE\n"), (b"9 W 1\r\n", b"9!ZTERM\n"), (b"1 \n", b"1.\n"), (b"01 W 1\n", b"?!ZWIRE\n"), (b"3  W 2", b"3!ZTERM\n"),
]
TERMINAL_TWICE = "".join(str(Account(name, (1,), 2000)) for name in ("ALICE", "BOB"))
STREAMS = {
    "lines of each fate": FATES, "an unfinished last line": UNFINISHED, "numbers": COUNTED,
    **{block.name: [(line_bytes(case), given_bytes(given)) for case, given in block.cases]
       for block in blocks() if (block.file, block.kind) == ("wire.txt", "lines")},
}
EACH_STREAM = pytest.mark.parametrize("pairs", STREAMS.values(), ids=STREAMS.keys())
# A long stream is read by the largest size alone.
READ_BY = [(name, most) for name, pairs in STREAMS.items() for most in READ_SIZES
           if most == READ_SIZES[-1] or sum(len(line) for line, _ in pairs) <= LONG]


def stream_of(pairs: Pairs) -> bytes:
    """The lines of pairs."""
    return b"".join(line for line, _ in pairs)


def replies_of(pairs: Pairs) -> bytes:
    """The replies of pairs."""
    return b"".join(reply for _, reply in pairs)


def finished(pairs: Pairs, count: int) -> int:
    """How many lines have their line feed among the first `count` bytes of their stream."""
    ends = itertools.accumulate(len(line) for line, _ in pairs)
    return sum(end <= count and line.endswith(b"\n") for end, (line, _) in zip(ends, pairs))


def fronts(pairs: Pairs, most: int) -> Iterator[tuple[int, int]]:
    """Of each write, of `most` bytes at most: how many bytes went out before it, and which line it answers, from 1."""
    before = 0
    for number, (_, reply) in enumerate(pairs, 1):
        yield from ((before + start, number) for start in range(0, len(reply), most))
        before += len(reply)


@dataclass
class Trials:
    """Runs of the program with refusals, and the folder of their files."""
    library: str
    folder: Path
    names: Iterator[int]

    def path(self) -> str:
        """A path at which nothing is."""
        return str(self.folder / str(next(self.names)))

    def file(self, data: bytes) -> str:
        """The path of a new file."""
        path = self.path()
        Path(path).write_bytes(data)
        return path

    def environment(self, refusals: dict[str, int]) -> dict[str, str]:
        """The environment of a run with these refusals."""
        return {**os.environ, "LD_PRELOAD": self.library, **{f"REFUSE_{name}": str(number) for name, number in refusals.items()}}

    def ran(self, path: str, refusals: dict[str, int], words: list[str] | None = None) -> Seen:
        """A run whose input is the file at a path."""
        place = os.open(path, os.O_RDONLY)
        try:
            ran = subprocess.run(words or run_words(), stdin=place, capture_output=True, timeout=60, env=self.environment(refusals))
            return ran.returncode, ran.stderr, ran.stdout, os.lseek(place, 0, os.SEEK_CUR)
        finally:
            os.close(place)

    def served(self, streams: list[bytes], refusals: dict[str, int], connections: int, store: str = "memory") -> tuple[int, bytes, bytes, list[bytes]]:
        """The status of a server, what it said, its output, and the answers to streams that come one after another."""
        port = free_port()
        words = serve_words(port, connections, store)
        with subprocess.Popen(words, stdin=subprocess.DEVNULL, stdout=subprocess.PIPE, stderr=subprocess.PIPE, env=self.environment(refusals)) as process:
            try:
                answers = [asked(port, stream) for stream in streams]
                output, told = process.communicate(timeout=60)
            finally:
                process.kill()
        return process.returncode, told, output, answers


@pytest.fixture
def trials(io_library: str, tmp_path: Path) -> Trials:
    """Runs with refusals, in a folder of the test."""
    return Trials(io_library, tmp_path, itertools.count(1))


def left(store: str) -> int:
    """What the lines of COUNTED left in a store: the number in ^A, 0 for nothing."""
    status, output, told = run(b"1 W +$G(^A)\n", store=store)
    assert (status, told) == ENDED
    return int(output.removeprefix(b"1-").split(b"\n")[0])


@pytest.mark.parametrize(("name", "most"), READ_BY, ids=[f"{name}-{most}" for name, most in READ_BY])
def test_failing_reads(trials: Trials, name: str, most: int) -> None:
    """Each read of a stream fails in turn."""
    pairs, stream = STREAMS[name], stream_of(STREAMS[name])
    path = trials.file(stream)
    for nth in range(1, -(-len(stream) // most) + 2):
        count = min(len(stream), most * (nth - 1))
        replies = replies_of(pairs[: finished(pairs, count)])
        assert (nth, trials.ran(path, {"READ": nth, "READ_MOST": most})) == (nth, (*READ, replies, count))


@pytest.mark.parametrize("kind", ["WRITE", "STALL"])
@pytest.mark.parametrize("most", WRITE_SIZES)
@EACH_STREAM
def test_failing_writes(trials: Trials, pairs: Pairs, most: int, kind: str) -> None:
    """Each write of the replies fails in turn, or takes nothing. The input is read byte by byte, so that its offset is a line's end."""
    path, replies = trials.file(stream_of(pairs)), replies_of(pairs)
    for nth, (count, number) in enumerate(fronts(pairs, most), 1):
        got = trials.ran(path, {kind: nth, "WRITE_MOST": most, "READ_MOST": 1})
        assert (nth, got) == (nth, (*WRITE, replies[:count], len(stream_of(pairs[:number]))))


@EACH_STREAM
def test_little_at_a_time(trials: Trials, pairs: Pairs) -> None:
    path = trials.file(stream_of(pairs))
    for reads, writes in itertools.product((0, *READ_SIZES), (0, *WRITE_SIZES)):
        got = trials.ran(path, {"READ_MOST": reads, "WRITE_MOST": writes})
        assert (reads, writes, got) == (reads, writes, (*ENDED, replies_of(pairs), len(stream_of(pairs))))


@EACH_STREAM
def test_answered_in_turn(pairs: Pairs) -> None:
    answered_in_turn(pairs)


@pytest.mark.parametrize("kind", ["WRITE", "STALL"])
@pytest.mark.parametrize("most", [1, 4096])
def test_lines_run_over_a_file(trials: Trials, most: int, kind: str) -> None:
    """None after the one whose reply could not go out is run."""
    path, stream, replies = trials.file(stream_of(COUNTED)), stream_of(COUNTED), replies_of(COUNTED)
    for nth, (count, number) in enumerate(fronts(COUNTED, most), 1):
        store = trials.path()
        got = trials.ran(path, {kind: nth, "WRITE_MOST": most}, run_words(store=store))
        assert (nth, got, left(store)) == (nth, (*WRITE, replies[:count], len(stream)), number)


def test_lines_read_in_part_over_a_file(trials: Trials) -> None:
    """None that was read in part is run."""
    path = trials.file(stream_of(COUNTED))
    for nth in range(1, len(stream_of(COUNTED)) + 2):
        store, number = trials.path(), finished(COUNTED, nth - 1)
        got = trials.ran(path, {"READ": nth, "READ_MOST": 1}, run_words(store=store))
        assert (nth, got, left(store)) == (nth, (*READ, replies_of(COUNTED[:number]), nth - 1), number)


def only_over_a_file(trials: Trials, refusals: dict[str, int]) -> tuple[Seen, int]:
    """A run with `--only`, and what its lines left."""
    store = trials.path()
    got = trials.ran(trials.file(stream_of(COUNTED)), {**refusals, **LITTLE}, run_words(store=store, only="ALICE"))
    return got, left(store)


def test_only_with_failing_reads(trials: Trials) -> None:
    for nth in range(1, len(stream_of(COUNTED)) + 2):
        assert (nth, only_over_a_file(trials, {"READ": nth})) == (nth, ((*READ, b"", nth - 1), 0))


@pytest.mark.parametrize("kind", ["WRITE", "STALL"])
def test_only_with_failing_writes(trials: Trials, kind: str) -> None:
    stream, replies = stream_of(COUNTED), replies_of(COUNTED)
    for nth in range(1, len(replies) + 1):
        assert (nth, only_over_a_file(trials, {kind: nth})) == (nth, ((*WRITE, replies[: nth - 1], len(stream)), len(COUNTED)))


def test_only_a_little_at_a_time(trials: Trials) -> None:
    assert only_over_a_file(trials, {}) == ((*ENDED, replies_of(COUNTED), len(stream_of(COUNTED))), len(COUNTED))


@pytest.mark.parametrize("refusals", [{}, {"READ": 1}], ids=["reads", "no read"])
@pytest.mark.parametrize(("words", "status", "told"), [
    ([PROGRAM, "walk"], 2, b"error: unrecognized subcommand 'walk'"),
    (run_words(settings="TWICE"), 3, b"mserve: settings: Terminal"),
    (run_words(settings="TWICE", store="FOLDER"), 3, b"mserve: settings: Terminal"),
    (run_words(only="BOB"), 3, b"mserve: settings: Only"),
    (run_words(settings=ONE_ACCOUNT, store="FOLDER"), 4, b"mserve: store: Store"),
], ids=["words", "settings", "settings and a store", "only", "a store"])
def test_input_left_alone(trials: Trials, words: list[str], status: int, told: bytes, refusals: dict[str, int]) -> None:
    """Nothing is read if the words, the settings or the store are refused, though the input's first read would fail too."""
    places = {"TWICE": trials.file(TERMINAL_TWICE.encode()), "FOLDER": str(trials.folder)}
    got = trials.ran(trials.file(b"1 W 1\n"), refusals, [places.get(word, word) for word in words])
    assert (got[0], got[1].split(b"\n")[0], *got[2:]) == (status, told, b"", 0)


@pytest.mark.parametrize("nth", [1, 2, 3])
def test_failing_accepts(trials: Trials, nth: int) -> None:
    """The connections before the accept that fails are served, and what they wrote is in the store."""
    store, before = trials.path(), COUNTED[: nth - 1]
    got = trials.served([line for line, _ in before], {"ACCEPT": nth}, 3, store)
    assert got == (*ACCEPT, b"", [reply for _, reply in before])
    assert left(store) == nth - 1


def broken(kind: str) -> Iterator[tuple[bytes, int, int]]:
    """Of each read or write of a connection: the fault that is reported, which one it is, and how many lines were run."""
    if kind == "READ":
        yield from ((b"Read", nth, finished(COUNTED, nth - 1)) for nth in range(1, len(stream_of(COUNTED)) + 2))
    else:
        yield from ((b"Write", nth, number) for nth, (_, number) in enumerate(fronts(COUNTED, 1), 1))


@pytest.mark.parametrize("kind", ["READ", "WRITE", "STALL"])
def test_broken_connections(trials: Trials, kind: str) -> None:
    """A read or a write of the first connection fails; the second one finds what the lines before it did. What the first one got may have been lost
    on its way, as if a peer is gone."""
    for told, nth, number in broken(kind):
        *end, (first, second) = trials.served([stream_of(COUNTED), b"1 W +$G(A)\n"], {kind: nth, **LITTLE}, 2)
        assert (nth, *end, second) == (nth, 0, b"mserve: connection 1: " + told + b"\n", b"", b"1-%d\n1.\n" % number)
        assert replies_of(COUNTED).startswith(first)


def test_a_connection_a_little_at_a_time(trials: Trials) -> None:
    assert trials.served([stream_of(COUNTED)], LITTLE, 1) == (*ENDED, b"", [replies_of(COUNTED)])
