# SPDX-License-Identifier: Apache-2.0
"""The blocks of transcripts/ that are lines of the wire, on the built program, and those that count steps.

The lines of a block are one stream: over a store in memory, read whole, in pieces of 1, 2 and 7 bytes, and line by line, each sent once all
lines before it are answered; and over a store in a file. That of lines of each fate ("wire stream") is cut after each of its bytes too.
Of a block of the kind `only` one account is shown its replies, and of those of several accounts each account in turn. Each line of a block of
the kind `reopened` is a run of its own over the same file, and each case of the kind `files` what is done to one file."""
from __future__ import annotations

import contextlib
import re
import sqlite3
import subprocess
from collections.abc import Callable
from pathlib import Path

import pytest
from blocks import OF_SEVERAL, ONLY, SERVED, Block, blocks, given_bytes, line_bytes, text_bytes
from running import ONE_ACCOUNT, TOP, run, run_words
from support import accounts_of, answered_in_turn, content, read_in_time, run_in_pieces, shown_to, steps_played

PIECES = (1, 2, 7)
KINDS = (*SERVED, "only", "reopened", "files", "steps")
PLAYED = [block for block in blocks() if block.kind in KINDS]
NOTHING = (0, b"", b"")
EMPTY = (b"\n", b"\r\n")
# The last line of a reply.
ENDING = re.compile(r"\d+\.|(\d+|\?)!\w+")
# Each block of several accounts, with each account of its settings.
ONE_SHOWN = [(block, name) for block in PLAYED if block.kind in OF_SEVERAL for name in accounts_of(SERVED[block.kind])]


def each_block(*kinds: str, where: str = "") -> pytest.MarkDecorator:
    """A case for each block of these kinds, and of these words in its name, if there are any."""
    found = [block for block in PLAYED if block.kind in kinds and where in block.name]
    return pytest.mark.parametrize("block", found, ids=[f"{block.file.removesuffix('.txt')}: {block.name}" for block in found])


def by(block: Block) -> tuple[str, str | None]:
    """The settings that serve a block, and the account that alone is shown its replies, if there is one."""
    return ONLY if block.kind == "only" else (SERVED[block.kind], None)


@pytest.mark.parametrize("kind", KINDS)
def test_there_is_a_block(kind: str) -> None:
    assert any(block.kind == kind for block in PLAYED)


@each_block(*SERVED, "only")
def test_over_memory(block: Block) -> None:
    settings, only = by(block)
    assert run(block.stream(), settings, only=only) == (0, block.replies(), b"")


@each_block(*SERVED, "only")
def test_over_a_file(block: Block, store_in_memory: str) -> None:
    """The first run makes the file, and the others open what is there."""
    store = store_in_memory
    settings, only = by(block)
    assert run(b"", settings, store) == NOTHING
    assert run(block.stream(), settings, store, only) == (0, block.replies(), b"")
    assert run(b"", settings, store) == NOTHING


@pytest.mark.parametrize("size", PIECES)
@each_block(*SERVED, "only")
def test_in_pieces(block: Block, size: int) -> None:
    assert run_in_pieces(block.stream(), size, *by(block)) == (0, block.replies(), b"")


@each_block(*SERVED)
def test_line_by_line(block: Block) -> None:
    """Each case is answered with what is below it, one reply for a line that is not empty, before the next one is sent."""
    for case, given in block.cases:
        ends = [place for place, line in enumerate(given) if ENDING.fullmatch(line)]
        assert (case, ends) == (case, [] if line_bytes(case) in EMPTY else [len(given) - 1])
    answered_in_turn([(line_bytes(case), given_bytes(given)) for case, given in block.cases], SERVED[block.kind])


@each_block(*SERVED, where="wire stream")
def test_cut_after_each_byte(block: Block) -> None:
    """What is written is the replies of the whole lines, and of what came of the next: those that it has if its end comes too."""
    settings, _ = by(block)
    stream = block.stream()
    for end in range(len(stream) + 1):
        part = stream[:end]
        whole = b"".join(given_bytes(given) for _, given in block.cases[:part.count(b"\n")])
        status, output, told = run(part, settings)
        assert (part, status, told) == (part, 0, b"") and output.startswith(whole)
        assert (part, output) == (part, run(part + b"\r\n", settings)[1])


@pytest.mark.parametrize(("block", "name"), ONE_SHOWN, ids=[f"{block.name}: {name}" for block, name in ONE_SHOWN])
def test_only(block: Block, name: str) -> None:
    """Each account in turn is shown its replies alone: the transcript's at its terminals."""
    settings = SERVED[block.kind]
    own = shown_to(block.replies(), accounts_of(settings)[name])
    assert run(block.stream(), settings, only=name) == (0, own, b"")


def test_only_as_told() -> None:
    """Where no call of the store fails, BOB is shown the same replies as in the players, which say too whether they are whole."""
    told = [block for block in blocks() if block.kind == "told" and not any(case.startswith("cache ") for case, _ in block.cases)]
    assert told
    for block in told:
        shown = block.replies().removesuffix(b"whole\n")
        assert (block.name, run(block.stream(), SERVED["terminals"], only="BOB")) == (block.name, (0, shown, b""))


def test_as_the_gate_runs_it() -> None:
    """The stream of many blocks that the gate runs the program on, as two compilers build it."""
    crate = Path(TOP, "crates", "mserve")
    assert run(content(str(crate / "stdin")), SERVED["terminals"]) == (0, content(str(crate / "stdout")), b"")


@each_block("reopened")
def test_reopened(block: Block, store_in_memory: str) -> None:
    """Each line is a run of its own over the same file."""
    for case, given in block.cases:
        assert (case, run(line_bytes(case), ONE_ACCOUNT, store_in_memory)) == (case, (0, given_bytes(given), b""))


def put_unclosed(store: str, subscript: str, text: str) -> None:
    """Puts a text at a node, and kills the program once that is answered."""
    with subprocess.Popen(run_words(store=store), stdin=subprocess.PIPE, stdout=subprocess.PIPE, bufsize=0) as program:
        program.stdin.write(f'1 S ^D({subscript})="{text}"\n'.encode())
        reply = read_in_time(program.stdout, len(b"1.\n"))
        program.kill()
    assert reply == b"1.\n"


def add_row(store: str, key: str, value: str) -> None:
    """Writes a row of any bytes into the table of a store, which is made if it is not there."""
    assert run(b"", ONE_ACCOUNT, store) == NOTHING
    with contextlib.closing(sqlite3.connect(store)) as database, database:
        database.execute("INSERT INTO node (k, v) VALUES (?, ?)", (bytes.fromhex(key), bytes.fromhex(value)))


def open_again(store: str) -> list[str]:
    """Whether the store is taken, or by which fault it is refused, and then whether its bytes are as they were."""
    before = content(store)
    status, output, told = run(b"", ONE_ACCOUNT, store)
    if (status, output, told) == NOTHING:
        return ["taken"]
    assert (status, output) == (4, b"")
    return [told.decode("ascii").removeprefix("mserve: store: ").rstrip("\n"), "unchanged" if content(store) == before else "CHANGED"]


def done_to(store: str, words: list[str]) -> list[str]:
    """Carries out a case of the kind `files`, and gives what it shows."""
    match words:
        case ["bytes", text]:
            Path(store).write_text(text, encoding="ascii")
        case ["sql", *text]:
            with contextlib.closing(sqlite3.connect(store)) as database, database:
                database.execute(" ".join(text))
        case ["row", key, value]:
            add_row(store, key, value)
        case ["put", subscript, text]:
            put_unclosed(store, subscript, text)
        case ["get", subscript]:
            status, output, told = run(f'1 W $G(^D({subscript}),"none")\n'.encode(), ONE_ACCOUNT, store)
            assert (status, told) == (0, b"")
            return [output.decode("ascii").removeprefix("1-").removesuffix("\n1.\n")]
        case ["open"]:
            return open_again(store)
        case _:
            pytest.fail(f"no case of files: {words}")
    return []


@each_block("files")
def test_files(block: Block, store_in_memory: str) -> None:
    """What is done to one file, which is not there at first, and what the program makes of it."""
    for case, given in block.cases:
        assert (case, done_to(store_in_memory, case.split(" "))) == (case, given)


@each_block("steps")
def test_steps(block: Block, written: Callable[[str], str]) -> None:
    """By settings that allow as many steps as a text needs it does not end by ZSTEPS, and with one fewer it does.

    Settings allow one step at least, so of a text that needs none or one only the first is seen."""
    needed = [int(steps) for _, (steps,) in block.cases]
    accounts, stream = steps_played([(text_bytes(case), steps) for (case, _), steps in zip(block.cases, needed)])
    status, output, told = run(stream, written(accounts))
    assert (status, told) == (0, b"")
    exhausted = {int(line.split(b"!")[0]) for line in output.splitlines() if line.endswith(b"!ZSTEPS")}
    for i, (case, _) in enumerate(block.cases):
        seen = 2 * i + 1 in exhausted, 2 * i + 2 in exhausted
        assert (case, seen) == (case, (False, needed[i] > 1))
