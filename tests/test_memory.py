# SPDX-License-Identifier: Apache-2.0
"""The built program on each block of transcripts/ that it can play, with each of its requests for memory refused in turn by the library
tests/refuse_memory.c: on those of lines, on those of which one account is shown its replies, on those that count steps, on those over a file, and
on those of connections.

With one request refused in a line, the replies are the transcript's as far as the first ZMEM, or as far as `mserve: wire: Memory` with
status 5; what comes after ZMEM is replies in form. Over a file, what was answered is there in the next run.

The requests before the first line, as many as a run without a line makes, are the same for each block over memory, so they are refused once,
over the first. They are reported by `mserve: Memory` with status 2, `mserve: settings: Memory` with status 3, or `mserve: store: Memory` with
status 4, and no reply; each of the three must come.

Some requests may go by unreported, with all replies as they are: std asks for the words of the command line in advance, and the database, the
cache of trees and the copies of routines for what only saves time; and one account is not shown another's line that fails. They are at
most half of all requests of a block."""
from __future__ import annotations

import contextlib
import os
import re
import shutil
import subprocess
import sys
from collections import Counter
from collections.abc import Callable, Sequence
from dataclasses import dataclass
from pathlib import Path

import pytest
from blocks import OF_SEVERAL, ONLY, SERVED, Block, blocks, given_bytes, line_bytes, text_bytes
from running import ONE_ACCOUNT, run, run_words
from support import COUNTED, Server, accounts_of, asked, grants_of, reaching, server, shown_to, steps_played

REPLY = re.compile(rb"(\d+[:-].*|\d+\.|\d+![A-Z]+\d*|\?!Z(LINE|WIRE))\n")
OF_TERMINAL = re.compile(rb"(\d+)[:\-.!]")
# How a request that is refused before the first line is reported.
STARTS = [(b"mserve: Memory\n", 2), (b"mserve: settings: Memory\n", 3), (b"mserve: store: Memory\n", 4)]
# How one is reported that a reply's bytes wanted.
OF_REPLY = (b"mserve: wire: Memory\n", 5)
BLOCKS = [block for block in blocks() if block.kind in (*SERVED, "only")]
# Of the requests of a block of several accounts this many are refused, and of another block all; of one by `--only` this many, of one that counts
# steps, and of a run over a file.
MOST, MOST_SHOWN, MOST_STEPS, MOST_OVER_A_FILE = 5000, 250, 1000, 100
# Those of several accounts, and one of them in which BOB locks.
SEVERAL = [block for block in BLOCKS if block.kind in OF_SEVERAL]
LOCKS = "locks between terminals"
# Each of the former with each account that no other reaches, and that has a terminal.
APART = [(block, name) for block in SEVERAL for name, terminals in accounts_of(SERVED[block.kind]).items()
         if terminals and reaching(name, grants_of(SERVED[block.kind])) == {name}]
# Those that are played otherwise than as one stream over memory.
STEPS, REOPENED, CONNECTIONS = ([block for block in blocks() if block.kind == kind] for kind in ("steps", "reopened", "connections"))
# Blocks with more requests than can be refused in a short time.
LONG = {"six hundred subscripts and three hundred names of locals, read and walked both ways", "texts of 4,095 characters", "levels and indirections together",
        "the code of a level comes before those of its text, and behind that of the operand", "256 levels and no more", "256 levels", "a routine of many lines",
        "locals and the naked indicator go with the world, and globals stay", "levels within a library count to the caller"}
# The lines of a connection, and the replies to its first lines: none, one, and so on.
STREAM = b"".join(line for line, _ in COUNTED)
# What the next connection asks: which line was the last to set A.
ASKING = b"1 W +$G(A)\n"
COUNTED_REPLIES = [b"".join(reply for _, reply in COUNTED[:count]) for count in range(len(COUNTED) + 1)]


@dataclass(frozen=True)
class Ran:
    """A run of which a request was refused: its output, what it said, its status, and which request."""
    output: bytes
    told: bytes
    status: int
    request: int


Judge = Callable[[bytes, Ran], str | None]


@dataclass(frozen=True)
class Row:
    """The lines of a block, the words of a run that plays them, and what it gives."""
    words: list[str]
    stream: bytes
    wanted: bytes


def row_of(block: Block) -> Row:
    """A block whose lines are one stream."""
    words = run_words(ONLY[0], only=ONLY[1]) if block.kind == "only" else run_words(SERVED[block.kind])
    return Row(words, block.stream(), block.replies())


def case_of(block: Block, name: str) -> object:
    """A case of a test, by its block."""
    return pytest.param(block, id=name, marks=[pytest.mark.long] if block.name in LONG else [])


def refusing(library: str, words: list[str], stream: bytes, nth: int) -> tuple[Ran, int]:
    """A run over a stream with this request refused, or none if it is 0, and how many requests it made."""
    read, write = os.pipe()
    environment = {**os.environ, "LD_PRELOAD": library, "REFUSE": str(nth), "REFUSE_TOLD": str(write)}
    try:
        ran = subprocess.run(words, input=stream, capture_output=True, env=environment, pass_fds=[write], timeout=60)
    finally:
        os.close(write)
        told = os.read(read, 32)
        os.close(read)
    return Ran(ran.stdout, ran.stderr, ran.returncode, nth), int(told or b"0")


def fault(wanted: bytes, ran: Ran) -> str | None:
    """What is wrong with a run of which a request was refused in a line; None if all is well, and "" if that is not reported."""
    lines = ran.output.splitlines(True)
    lost = next((i for i, line in enumerate(lines) if line.endswith(b"!ZMEM\n")), None)
    if lost is not None:
        if not wanted.startswith(b"".join(lines[:lost])):
            return "other replies before ZMEM"
        if not all(REPLY.fullmatch(line) for line in lines[lost:]):
            return "no replies after ZMEM"
        return None if (ran.status, ran.told) == (0, b"") else f"status {ran.status}, {ran.told!r}"
    if not wanted.startswith(ran.output):
        return "other replies"
    if (ran.told, ran.status) == OF_REPLY:
        return None
    return "" if (ran.status, ran.told, ran.output) == (0, b"", wanted) else f"status {ran.status}, {ran.told!r}"


def terminal_of(line: bytes) -> int | None:
    """The terminal of a line of a reply; None of a line that nobody could be found for."""
    found = OF_TERMINAL.match(line)
    return int(found[1]) if found else None


def shown_otherwise(block: Block, ran: Ran) -> list[str]:
    """The accounts that a line which ended by ZMEM does not reach, by its account, and that are shown something else than the block has."""
    settings = SERVED[block.kind]
    lost = next((terminal_of(line) for line in ran.output.splitlines() if line.endswith(b"!ZMEM")), None)
    if lost is None:
        return []
    accounts = accounts_of(settings)
    sender = next(name for name, terminals in accounts.items() if lost in terminals)
    apart = [name for name in accounts if sender not in reaching(name, grants_of(settings))]
    texts = block.replies(), ran.output
    shown = {name: [[line for line in text.splitlines() if terminal_of(line) in accounts[name]] for text in texts] for name in apart}
    return [name for name, (wanted, got) in shown.items() if wanted != got]


def fault_at_start(wanted: bytes, ran: Ran) -> str | None:
    """The same of a request before the first line."""
    if (ran.told, ran.status) in STARTS and ran.output == b"":
        return None
    return "" if (ran.output, ran.told, ran.status) == (wanted, b"", 0) else f"status {ran.status}, {ran.told!r}"


def each_refused(library: str, row: Row, folder: Path, most: int) -> list[Ran]:
    """The run over a row without a refusal, and then, of each request of its lines, the run in which it is refused: in a copy of the process,
    which tests/refuse_memory.c makes. Of more requests than `most` some are refused, as far apart as one from another."""
    start, end = (refusing(library, row.words, stream, 0)[1] for stream in (b"", row.stream))
    every = apart(end - start, most)
    (folder / "lines").write_bytes(row.stream)
    names = ("lines", "rb"), ("0.out", "wb"), ("0.err", "wb")
    variables = {"LD_PRELOAD": library, "REFUSE_AFTER": str(start), "REFUSE_EVERY": str(every), "REFUSE_FOLDER": str(folder)}
    with contextlib.ExitStack() as files:
        lines, output, errors = (files.enter_context(open(folder / name, mode)) for name, mode in names)
        ran = subprocess.run(row.words, stdin=lines, stdout=output, stderr=errors, env={**os.environ, **variables}, timeout=600)
    (folder / "0.status").write_text(str(ran.returncode))
    return [found(folder, number) for number in (0, *range(start + 1, end + 1, every))]


def apart(count: int, most: int) -> int:
    """How far from one another requests are refused, of this many."""
    return -(-count // most) or 1


def found(folder: Path, number: int) -> Ran:
    """What a run left in its files."""
    output, errors, status = ((folder / f"{number}.{end}").read_bytes() for end in ("out", "err", "status"))
    return Ran(output, errors, int(status), number)


def judged(wanted: bytes, ran: list[Ran], judge: Judge) -> int:
    """How many of the runs over a row, each with a request refused, are not reported. None goes wrong."""
    unreported = 0
    for one in ran:
        fault = judge(wanted, one)
        assert not fault, f"request {one.request}: {fault}"
        unreported += fault == ""
    return unreported


def mostly_reported(wanted: bytes, ran: list[Ran], judge: Judge) -> None:
    """The same, and at most half are not reported."""
    unreported = judged(wanted, ran, judge)
    assert 2 * unreported <= len(ran), f"{unreported} of {len(ran)} requests are not reported"


def test_before_the_first_line(memory_library: str) -> None:
    """The settings are being read meanwhile, so each request is refused in a run of its own."""
    row = row_of(BLOCKS[0])
    count = refusing(memory_library, row.words, b"", 0)[1]
    ran = [refusing(memory_library, row.words, row.stream, nth)[0] for nth in range(1, count + 1)]
    mostly_reported(row.wanted, ran, fault_at_start)
    assert {(one.told, one.status) for one in ran} >= set(STARTS)


def served(library: str, streams: list[bytes], nth: int, settings: str = ONE_ACCOUNT) -> tuple[Server, list[bytes], int]:
    """A server with this request refused, the answers to connections with these streams, and how many requests there were."""
    read, write = os.pipe()
    variables = {"LD_PRELOAD": library, "REFUSE": str(nth), "REFUSE_TOLD": str(write)}
    try:
        with server(len(streams), settings=settings, pass_fds=(write,), **variables) as running:
            answers = [asked(running.port, stream) for stream in streams]
    finally:
        os.close(write)
        told = os.read(read, 32)
        os.close(read)
    return running, answers, int(told or b"0")


def judge_connection(running: Server, answers: list[bytes]) -> str:
    """How a refused request of the first connection was reported."""
    first, second = answers
    left = int(second.removeprefix(b"1-").split(b"\n")[0])
    assert second == b"1-%d\n1.\n" % left
    if running.ended() == (0, b"mserve: connection 1: Memory\n"):
        whole = [count for count in range(len(COUNTED) + 1) if first == COUNTED_REPLIES[count]]
        assert whole and left in (whole[0], whole[0] + 1), (first, left)
        return "connection"
    assert running.ended() == (0, b"")
    if b"1!ZMEM\n" in first:
        assert COUNTED_REPLIES[-1].startswith(first.split(b"1!ZMEM\n")[0])
        return "ZMEM"
    assert (first, left) == (COUNTED_REPLIES[-1], len(COUNTED))
    return "nothing"


def in_the_lines(library: str, block: Block, folder: Path, most: int) -> list[Ran]:
    """The runs over a block, each with a request of its lines refused, of which none goes wrong."""
    row = row_of(block)
    ample, *ran = each_refused(library, row, folder, most)
    assert (ample.output, ample.told, ample.status) == (row.wanted, b"", 0)
    mostly_reported(row.wanted, ran, fault)
    all_refused = not ran or ran[-1].request - ran[0].request < len(ran)
    assert any((one.told, one.status) == OF_REPLY for one in ran) or not (ran and all_refused)
    # a reply asks once; a text that is run asks more often
    assert any(b"!ZMEM\n" in one.output for one in ran) or len(ran) <= 2
    return ran


@pytest.mark.parametrize("block", [case_of(block, f"{block.kind}: {block.name}") for block in BLOCKS])
def test_in_the_lines(block: Block, memory_library: str, folder_in_memory: Path, count: int) -> None:
    """If the settings have several accounts, those that the account of the refused request does not reach are shown what the block has."""
    ran = in_the_lines(memory_library, block, folder_in_memory, count * MOST if block in SEVERAL else sys.maxsize)
    if block in SEVERAL:
        assert [(one.request, shown_otherwise(block, one)) for one in ran if shown_otherwise(block, one)] == []


def test_some_accounts_are_apart(memory_library: str, folder_in_memory: Path) -> None:
    """The check of what others are shown has cases: in a block with locks BOB, who reaches nobody, has lines that end by ZMEM."""
    ran = in_the_lines(memory_library, next(block for block in SEVERAL if block.name == LOCKS), folder_in_memory, sys.maxsize)
    assert any(b"3!ZMEM\n" in one.output for one in ran) and any(b"1!ZMEM\n" in one.output for one in ran)


@pytest.mark.parametrize(("block", "name"), APART, ids=[f"{block.name}: {name}" for block, name in APART])
def test_one_account_shown(block: Block, name: str, memory_library: str, folder_in_memory: Path, count: int) -> None:
    """An account that no other reaches is shown its replies alone: the block's, up to a line of its own that ends by ZMEM. Of a refusal in
    another's line it sees nothing."""
    settings = SERVED[block.kind]
    row = Row(run_words(settings, only=name), block.stream(), shown_to(block.replies(), accounts_of(settings)[name]))
    ample, *ran = each_refused(memory_library, row, folder_in_memory, count * MOST_SHOWN)
    assert (ample.output, ample.told, ample.status) == (row.wanted, b"", 0)
    assert judged(row.wanted, ran, fault) < max(len(ran), 1)


@pytest.mark.parametrize("block", STEPS, ids=[block.name for block in STEPS])
def test_in_lines_of_many_accounts(block: Block, memory_library: str, written: Callable[[str], str], folder_in_memory: Path, count: int) -> None:
    """Each line is of an account of its own, and none reaches another: where a request of one is refused all others are answered the same."""
    accounts, stream = steps_played([(text_bytes(case), int(steps)) for case, (steps,) in block.cases])
    row = Row(run_words(written(accounts)), stream, b"")
    ample, *ran = each_refused(memory_library, row, folder_in_memory, count * MOST_STEPS)
    assert (ample.told, ample.status) == (b"", 0)
    mostly_reported(ample.output, ran, fault)
    terminals = range(1, 2 * len(block.cases) + 1)
    wanted = {terminal: shown_to(ample.output, [terminal]) for terminal in terminals}
    for one in ran:
        if one.status == 0:
            others = [terminal for terminal in terminals if b"\n%d!ZMEM\n" % terminal not in b"\n" + one.output]
            assert len(others) >= len(terminals) - 1
            assert [terminal for terminal in others if shown_to(one.output, [terminal]) != wanted[terminal]] == [], one.request


def copied(store: Path, to: Path) -> str:
    """A copy of a store's file, and of its log if it has one."""
    for end in ("", "-wal"):
        (to.parent / (to.name + end)).unlink(missing_ok=True)
        if (store.parent / (store.name + end)).exists():
            shutil.copyfile(f"{store}{end}", f"{to}{end}")
    return str(to)


def fault_over_a_file(wanted: bytes, ran: Ran) -> str | None:
    """What is wrong with a run over a file of which a request was refused, before its line or in it."""
    return fault_at_start(wanted, ran) if ran.output == b"" and ran.status in (2, 3, 4) else fault(wanted, ran)


@pytest.mark.parametrize("block", [case_of(block, block.name) for block in REOPENED])
def test_over_a_file(block: Block, memory_library: str, folder_in_memory: Path, count: int) -> None:
    """Each line is a run of its own over the same file, of which requests are refused in a copy of it. The next line finds what was answered, and a
    line that was not answered leaves a store that is opened."""
    store, copy = folder_in_memory / "store", folder_in_memory / "copy"
    statuses: Counter[int] = Counter()
    for (case, given), (following, _) in zip(block.cases, [*block.cases[1:], ("1 W 1", [])]):
        line, wanted = line_bytes(case), given_bytes(given)
        requests = refusing(memory_library, run_words(ONE_ACCOUNT, copied(store, copy)), line, 0)[1]
        after = run(line_bytes(following), ONE_ACCOUNT, str(copy))
        for nth in range(1, requests + 1, apart(requests, count * MOST_OVER_A_FILE)):
            ran = refusing(memory_library, run_words(ONE_ACCOUNT, copied(store, copy)), line, nth)[0]
            assert (nth, fault_over_a_file(wanted, ran) or "") == (nth, "")
            statuses[ran.status] += 1
            found_after = run(line_bytes(following), ONE_ACCOUNT, str(copy))
            assert (nth, found_after) == (nth, after) if ran.output == wanted else found_after[0] == 0
        assert run(line, ONE_ACCOUNT, str(store)) == (0, wanted, b"")
    assert set(statuses) >= {0, 3, 4}, statuses


def judge_connections(wanted: Sequence[bytes], answers: Sequence[bytes], ended: tuple[int, bytes]) -> str:
    """How a refused request of a server was reported. Up to the first answer with ZMEM, or to a connection that ended out of memory, all
    replies are those that are wanted."""
    told = re.fullmatch(rb"(?:mserve: connection (\d+): Memory\n)?", ended[1])
    assert ended[0] == 0 and told, ended
    for number, (right, answer) in enumerate(zip(wanted, answers, strict=True), 1):
        if b"!ZMEM\n" in answer:
            assert right.startswith(re.split(rb"\d+!ZMEM\n", answer)[0])
            return "ZMEM"
        if told[1] == b"%d" % number:
            assert right.startswith(answer)
            return "connection"
        assert answer == right
    return "nothing"


@pytest.mark.waits
@pytest.mark.parametrize("block", CONNECTIONS, ids=[block.name for block in CONNECTIONS])
def test_in_connections(block: Block, memory_library: str) -> None:
    """Each request of a server is refused that it makes for the connections of a block, in which two accounts ask, and one locks."""
    streams = [text_bytes(case) for case, _ in block.cases]
    # the last line says what comes if one more is to be accepted: here none is
    wanted = [given_bytes([line for line in given if not line.startswith("then ")]) for _, given in block.cases]
    by = {"settings": SERVED["terminals"]}
    start, end = (served(memory_library, some, 0, **by)[2] for some in (len(streams) * [b""], streams))
    assert start < end
    ended: Counter[str] = Counter()
    for nth in range(start + 1, end + 1):
        running, answers, _ = served(memory_library, streams, nth, **by)
        ended[judge_connections(wanted, answers, running.ended())] += 1
    assert set(ended) >= {"ZMEM", "connection"}, ended


@pytest.mark.waits
def test_in_a_connection(memory_library: str) -> None:
    """Each request of a server is refused that it makes for the lines of its first connection: the line ends by ZMEM, or the connection ends with a
    report and the replies so far, or nothing is seen. The next connection finds what the lines did."""
    start, end = (served(memory_library, [stream, b""], 0)[2] for stream in (b"", STREAM))
    assert start < end
    ended = Counter(judge_connection(*served(memory_library, [STREAM, ASKING], nth)[:2]) for nth in range(start + 1, end + 1))
    assert set(ended) >= {"ZMEM", "connection"}, ended
