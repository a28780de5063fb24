# SPDX-License-Identifier: Apache-2.0
"""Stores of version 1, whose numbers kept fifteen digits: the first open moves each node to the key that it has now, or refuses the store and leaves it
as it was. tests/old_stores.py makes them, and says what they are to hold then."""
from __future__ import annotations

import contextlib
import os
import shutil
import subprocess
import time
from collections.abc import Callable
from pathlib import Path
from random import Random

import pytest
from old_stores import NEW, OLD, Node, Row, after, before, drawn_nodes, held, key, make, moving
from running import ONE_ACCOUNT, run, run_words
from support import LINE, MOST_STEPS, REPLY, content, full_after, refused

# Each of this many stores has this many nodes.
STORES, NODES = 6, 1000
MANY = 100_000
# A store of a few nodes, of which each open that is refused or stopped begins with a copy.
FEW = drawn_nodes(Random(7), 12)
THREE: dict[Node, str] = {("ALICE", "LONG", (text,)): f"at {text}" for text in ("1234567890123456", "9", "A")}
STOPPED = 97
LONGER = ("ALICE", "X", ("1234567890123456",))
# Rows that a store of version 1 may not have.
BAD_ROWS: dict[str, Row] = {
    "a key that ends early": (b"\x42\0", b"a"),
    "the key that a longer number has now": (key(LONGER, NEW), b"a"),
    "a key that is a text": (key(LONGER, OLD).decode("latin-1"), b"a"),
    "a value that is a text": (key(LONGER, OLD), "a"),
    "a value with a byte over 127": (key(LONGER, OLD), b"\x80"),
    "a value of 4,096 bytes": (key(LONGER, OLD), b"a" * 4096),
}


def literal(text: str) -> str:
    """A text as an expression of M."""
    return "$C(127)" if text == "\x7f" else '"' + text.replace('"', '""') + '"'


def reference(node: Node) -> str:
    """A node as M names it."""
    _, name, subscripts = node
    return f"^{name}" + ("(" + ",".join(map(literal, subscripts)) + ")" if subscripts else "")


def questions(nodes: dict[Node, str]) -> bytes:
    """Lines that ask for each text, and for all first subscripts in order, there and back."""
    walks = [f'1 S X="" F  S X=$O(^{name}(X),{way}) Q:X=""  W X,!' for name in ("A", "%B", "LONG") for way in (1, -1)]
    return "".join(f"{line}\n" for line in [*walks, *(f"1 W {reference(node)}" for node in nodes)]).encode("ascii")


def settings_with_steps(written: Callable[[str], str]) -> str:
    """Settings by which a line may walk over all nodes."""
    return written(MOST_STEPS)


def answers_as_anew(nodes: dict[Node, str], store: str, settings: str) -> None:
    """Twice a run over the store replies what a new store does in which each node was set."""
    asked = questions(nodes)
    sets = "".join(f"1 S {reference(node)}={literal(text)}\n" for node, text in nodes.items()).encode("ascii")
    done = b"1.\n" * len(nodes)
    status, output, told = run(sets + asked, settings)
    assert (status, told, output[:len(done)]) == (0, b"", done)
    for _ in range(2):
        assert run(asked, settings, store) == (0, output[len(done):], b"")
        assert held(store) == after(nodes)


@pytest.mark.parametrize("number", range(STORES))
def test_drawn_nodes(number: int, written: Callable[[str], str], store: str, count: int) -> None:
    settings = settings_with_steps(written)
    for turn in range(count):
        nodes = drawn_nodes(Random(f"{number} {turn}"), NODES)
        assert 0 < moving(nodes) < NODES
        answers_as_anew(nodes, make(f"{store}{turn}", nodes), settings)


@pytest.mark.parametrize("nodes", [{}, THREE, FEW], ids=["none", "three", "a few"])
def test_few_nodes(nodes: dict[Node, str], written: Callable[[str], str], store: str) -> None:
    answers_as_anew(nodes, make(store, nodes), settings_with_steps(written))


def test_this_version_stays(store: str) -> None:
    """The file of a store of this version is the same byte for byte, though by fifteen digits some of its keys would be others."""
    nodes = drawn_nodes(Random(3), NODES)
    bytes_before = content(make(store, nodes, 2, kept=NEW))
    assert run(LINE, store=store) == (0, REPLY, b"")
    assert (held(store), content(store)) == (after(nodes), bytes_before)


@pytest.mark.parametrize("row", BAD_ROWS.values(), ids=BAD_ROWS.keys())
def test_a_row_that_is_no_nodes(row: Row, store: str) -> None:
    """The file is the same byte for byte, and its version with it."""
    bytes_before = content(make(store, THREE, more=(row,)))
    for _ in range(2):
        assert run(LINE, ONE_ACCOUNT, store) == refused(4, "store", "BadKey")
        assert content(store) == bytes_before


@pytest.mark.parametrize("version", [0, 3, -1, 1.5, "one", None])
def test_another_version(version: object, store: str) -> None:
    bytes_before = content(make(store, THREE, version))
    assert run(LINE, ONE_ACCOUNT, store) == refused(4, "store", "BadVersion")
    assert content(store) == bytes_before


def test_a_full_disk(store: str) -> None:
    """However little room there is, the store is refused as it was, until there is enough."""
    nodes = drawn_nodes(Random(5), 300)
    make(store, nodes)
    ended = refused(4, "store", "Store")
    for size in range(0, 1_000_000, 4096):
        was_refused = run(LINE, store=store, preexec_fn=full_after(size))
        if was_refused != ended:
            break
        assert held(store) == before(nodes)
    assert (size > 4096, was_refused) == (True, (0, REPLY, b""))
    assert held(store) == after(nodes)


def cost_of(store: str) -> tuple[float, int]:
    """The seconds that a run takes over a store until it answers a line, and the kilobytes of memory that it has had by then at most. What a child is
    said to have used (`ru_maxrss`) begins with the memory of the process that started it, which is larger here."""
    begun = time.monotonic()
    with subprocess.Popen(run_words(store=store), stdin=subprocess.PIPE, stdout=subprocess.PIPE) as program:
        assert program.stdin and program.stdout
        program.stdin.write(b"1 S X=1\n")
        program.stdin.flush()
        assert program.stdout.readline() == b"1.\n"
        elapsed = time.monotonic() - begun
        status = Path(f"/proc/{program.pid}/status").read_text(encoding="ascii")
        program.stdin.close()
        assert program.wait() == 0
    return elapsed, int(status.split("VmHWM:")[1].split()[0])


@pytest.mark.long
@pytest.mark.alone
def test_what_it_costs(tmp_path: Path, count: int) -> None:
    """Of a store of which one node in a thousand moves the first open takes at most four times the time that it takes of the same store in this
    version, and twice the memory: its rows are all read at once, and those of this version one by one. `--count 10` has a million nodes."""
    numbers = [str(1234567890123456 + place if place % 1000 == 0 else place) for place in range(count * MANY)]
    nodes: dict[Node, str] = {("ALICE", "BIG", (number,)): f"the text of {number}" for number in numbers}
    stores = [make(str(tmp_path / name), nodes, version, kept=kept) for name, version, kept in (("old", 1, OLD), ("new", 2, NEW))]
    old, new = ([cost_of(copied(store, tmp_path, "copy")) for _ in range(3)] for store in stores)
    (old_time, old_memory), (new_time, new_memory) = (tuple(map(min, zip(*costs))) for costs in (old, new))
    print(f"{len(nodes)} nodes: {old_time:.2f} s and {old_memory} KB, beside {new_time:.2f} s and {new_memory} KB")
    assert old_time <= 4 * new_time and old_memory <= 2 * new_memory


def opened(store: str, library: str, **variables: int) -> tuple[int, bytes, bytes]:
    """How a run without a line ends that is made with a library in front of the program."""
    environment = {**os.environ, "LD_PRELOAD": library, **{name: str(value) for name, value in variables.items()}}
    ran = subprocess.run(run_words(store=store), input=b"", capture_output=True, timeout=60, env=environment)
    return ran.returncode, ran.stdout, ran.stderr


def calls_of(store: str, library: str, variable: str) -> int:
    """How many calls a library counts in a run without a line."""
    read, write = os.pipe()
    environment = {**os.environ, "LD_PRELOAD": library, variable: str(write)}
    try:
        subprocess.run(run_words(store=store), input=b"", capture_output=True, timeout=60, env=environment, pass_fds=[write])
    finally:
        os.close(write)
        told = os.read(read, 32)
        os.close(read)
    return int(told)


def remove(store: str) -> None:
    """Takes the files of a store away, and of its copy."""
    for end in ("", "-wal", "-copy", "-copy-wal", "-copy-shm"):
        with contextlib.suppress(FileNotFoundError):
            os.remove(store + end)


def copied(made: str, folder: Path, name: str) -> str:
    """A copy of a store in a file."""
    path = str(folder / name)
    remove(path)
    shutil.copy(made, path)
    return path


def is_new(store: str, nodes: dict[Node, str]) -> bool:
    """The store is the old one or the new one, and an open makes it the new one. Tells whether it was that before."""
    seen = held(store)
    assert seen in (before(nodes), after(nodes))
    assert run(LINE, store=store) == (0, REPLY, b"")
    assert held(store) == after(nodes)
    return seen == after(nodes)


@pytest.mark.long
def test_each_request_for_memory_refused(memory_library: str, folder_in_memory: Path) -> None:
    """An open that is refused out of memory leaves the old store, and the next one makes the new one of it. Refused in turn are the requests from
    the first one after the settings are read to the first one that is reported once the store is the new one; some requests only save time."""
    made = make(str(folder_in_memory / "made"), FEW)
    count = calls_of(copied(made, folder_in_memory, "ample"), memory_library, "REFUSE_TOLD")
    begun = calls_of(str(folder_in_memory / "missing" / "store"), memory_library, "REFUSE_TOLD")
    ended = set()
    for nth in range(begun + 1, count + 1):
        store = copied(made, folder_in_memory, f"{nth}")
        status, output, told = opened(store, memory_library, REFUSE=nth)
        assert (status, output, told) in ((0, b"", b""), refused(4, "store", "Memory")), nth
        ended.add((status, is_new(store, FEW)))
        remove(store)
        if (4, True) in ended:
            break
    assert (4, False) in ended and ended & {(0, True), (4, True)}
    assert ended <= {(0, True), (4, False), (4, True)}


@pytest.mark.parametrize("half", [0, 1], ids=["before it", "in the middle of it"])
def test_stopped_at_each_call_of_a_file(half: int, disk_library: str, folder_in_memory: Path) -> None:
    """A process that ends at a call leaves the old store or the new one."""
    nodes = drawn_nodes(Random(9), 200)
    made = make(str(folder_in_memory / "made"), nodes)
    count = calls_of(copied(made, folder_in_memory, "whole"), disk_library, "STOP_TOLD")
    ended = []
    for nth in range(1, count + 1):
        store = copied(made, folder_in_memory, str(nth))
        assert opened(store, disk_library, STOP=nth, STOP_HALF=half) == (STOPPED, b"", b"")
        ended.append(is_new(store, nodes))
        remove(store)
    assert set(ended) == {False, True} and ended == sorted(ended)
