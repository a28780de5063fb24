# SPDX-License-Identifier: Apache-2.0
"""A disk that lies: one read of a store's two files, each in turn, is answered with other bytes than the file holds, and with no fault (the library
tests/lie_disk.c): bytes that are drawn, one bit turned, what stood there earlier, or zeros; once, or at each later read of these bytes too, until
they are written. A session with known replies is played, and then a second run reads all nodes over the honest files.

A run is right if all replies are; refused, if the open was refused by name, or a line was answered ZSTORE and no reply is wrong; and deceived if a
reply is wrong. Then all replies are those over the store before its last changes (`earlier`), or they are not (`false`). After it the store is
`whole` if the honest run finds each node as the replies left it, and no other.

- After the open nobody is deceived, and the store is whole: over a small store, with sums on its pages and without; over one of more pages than the
  program keeps; and over one whose log is copied into the file meanwhile.
- During the open lies are taken for the truth: of the log, since what follows its first damaged frame counts for nothing, and of the file, if what
  they say is a store too. How many is counted, by kind (docs/PROOFS.md), and is to be no more than it was. Over a file without sums, as the program
  makes it, an open that is refused loses nothing."""
from __future__ import annotations

import itertools
from collections import Counter
from collections.abc import Callable, Iterable, Iterator
from pathlib import Path

import pytest
from lying_disk import KINDS, Lie, Scene, Seen, large_scene, reads, seen, sets, small_scene

# The page of a node so far on takes the place of this one's among those that the program keeps. Each 16th node is in the log.
APART = 3434
PAGES = [step for low in range(17, 1000, 96) for step in (
    *reads([low, low + APART]), *sets([low], "last"), *reads([low + APART + 1, low + 1, low + 5, low + 9, low + 20, low + 24]))]
COPYING = [step for low in range(20, 1000, 50) for step in (*sets([low], "last"), *reads([low + 1]))]
SCENES: dict[str, Callable[[Path], Scene]] = {
    "small": lambda folder: small_scene(folder, has_sums=False),
    "small with sums": lambda folder: small_scene(folder, has_sums=True),
    "pages": lambda folder: large_scene(folder, 100, PAGES),
    "copying": lambda folder: large_scene(folder, 985, COPYING),
}
# Which of the reads that a scene's lines make, and of those that its end makes: one of this many. In a short case, and in a long one.
SOME = {"small": (1, 1), "small with sums": (1, 1), "pages": (17, 100), "copying": (71, 3)}
EVERY = {"small": (1, 1), "small with sums": (1, 1), "pages": (1, 10), "copying": (8, 1)}
OPENED = ["small", "small with sums"]
# How a lie ends that the open has written into the log before it refused it.
SPOILT = ("refused by the open", "refused")
# This many bits are turned at each read of the open, one after another.
BITS = 3
# Of the lies of the open, over which store, of which file, and whether they last: how many of each kind at most have
#   the last changes taken for what never was,
#   a text shown that was not the last, or
#   the store refused from then on.
# A program that reads the files in another way has other counts, which are to be measured again, here and in docs/PROOFS.md.
MOST = {
    ("small", "d", False): ((0, 0, 0, 0), (0, 0, 0, 0), (0, 0, 0, 0)),
    ("small", "d", True): ((0, 0, 0, 0), (0, 6, 2, 0), (0, 0, 0, 0)),
    ("small", "w", False): ((48, 144, 48, 48), (0, 0, 0, 0), (0, 0, 0, 0)),
    ("small", "w", True): ((73, 219, 74, 73), (0, 3, 1, 0), (0, 0, 0, 0)),
    ("small with sums", "d", False): ((0, 0, 0, 0), (0, 0, 2, 0), (0, 0, 0, 0)),
    ("small with sums", "d", True): ((0, 0, 0, 0), (0, 0, 4, 0), (0, 0, 0, 0)),
    ("small with sums", "w", False): ((72, 216, 73, 72), (0, 5, 1, 0), (2, 0, 0, 0)),
    ("small with sums", "w", True): ((123, 369, 126, 125), (0, 0, 1, 0), (0, 0, 0, 0)),
}


class Trials:
    """Runs over a scene by a disk that lies, each over a new copy of its store."""

    def __init__(self, library: str, folder: Path, scene: str) -> None:
        """Prepares the scene, and plays it without a lie."""
        self.library, self.work, self.has_sums = library, folder / "work", scene.endswith("sums")
        for part in ("scene", "work"):
            (folder / part).mkdir()
        self.scene = SCENES[scene](folder / "scene")
        self.honest = self.played(None)
        assert (self.honest.told, self.honest.verdict, self.honest.after) == (0, "right", "whole")

    def played(self, lie: Lie | None) -> Seen:
        """A run with a lie, or with none."""
        return seen(self.library, self.scene, self.work, lie)

    def told(self, lies: Iterable[Lie]) -> Iterator[tuple[Lie, Seen]]:
        """Runs with these lies: those in which other bytes than the file's were read."""
        return ((lie, found) for lie, found in ((lie, self.played(lie)) for lie in lies) if found.told)

    def after_open(self, every: tuple[int, int]) -> list[int]:
        """Of the reads that lines make, and of those that the end makes, one of this many."""
        return [*range(self.honest.of_open + 1, self.honest.of_lines + 1, every[0]), *range(self.honest.of_lines + 1, self.honest.of_all + 1, every[1])]

    def of_open(self, every: int = 1) -> list[int]:
        """Of the reads that the open makes, one of this many."""
        return list(range(1, self.honest.of_open + 1, every))


@pytest.fixture
def trials(lie_library: str, folder_in_memory: Path) -> Callable[[str], Trials]:
    """Prepares the trials of a scene."""
    return lambda scene: Trials(lie_library, folder_in_memory, scene)


def each_kind_in_turn(places: Iterable[int]) -> Iterator[Lie]:
    """A lie at each of these reads, of each kind in turn, once and lasting."""
    forms = itertools.cycle(itertools.product(KINDS, (False, True)))
    return (Lie(at, kind, lasts) for at, (kind, lasts) in zip(places, forms))


def deceives_nobody(found: Iterable[tuple[Lie, Seen]]) -> Counter[str]:
    """Of lies after the open: counts them by file and verdict. One that is noticed once refuses one line at most, and the others are right."""
    counts: Counter[str] = Counter()
    for lie, run in found:
        assert run.verdict in ("right", "refused by a line") and run.after == "whole", f"{lie}: {run}"
        assert run.refused <= 1 or lie.lasts, f"{lie}: {run}"
        counts.update([f"{run.file} {run.verdict}"])
    print(dict(counts))
    return counts


@pytest.mark.parametrize("scene", SCENES)
def test_some_reads_after_the_open(scene: str, trials: Callable[[str], Trials]) -> None:
    over = trials(scene)
    counts = deceives_nobody(over.told(each_kind_in_turn(over.after_open(SOME[scene]))))
    assert counts.total() >= 5


@pytest.mark.long
@pytest.mark.parametrize("kind", KINDS)
@pytest.mark.parametrize("scene", SCENES)
def test_each_read_after_the_open(scene: str, kind: str, trials: Callable[[str], Trials], count: int) -> None:
    """Each read of lines, but for the copying of the log, of which it is one of some."""
    over = trials(scene)
    lies = [Lie(at, kind, lasts, seed) for at in over.after_open(EVERY[scene]) for lasts in (False, True) for seed in range(count)]
    counts = deceives_nobody(over.told(lies))
    assert counts.total() >= (0.3 if kind == "older bytes" else 0.9) * len(lies)
    if scene not in OPENED:
        assert counts["d refused by a line"] > 0 and counts["w refused by a line"] > 0


def of_open(over: Trials, found: Iterable[tuple[Lie, Seen]]) -> Counter[tuple[str, str, str]]:
    """Of lies of the open: counts them by file, verdict and what the store is after them. Over a file without sums a refused open loses nothing, and
    a text is false only if the lie lasts."""
    counts: Counter[tuple[str, str, str]] = Counter()
    for lie, run in found:
        assert run.verdict in ("right", "refused by the open", "earlier", "false"), f"{lie}: {run}"
        assert run.after == "whole" or run.verdict == "false" or (run.verdict, run.after) == SPOILT, f"{lie}: {run}"
        assert over.has_sums or (run.verdict, run.after) != SPOILT and (run.verdict != "false" or lie.lasts), f"{lie}: {run}"
        counts.update([(run.file, run.verdict, run.after)])
    print(", ".join(f"{' '.join(name)}: {number}" for name, number in sorted(counts.items())))
    return counts


@pytest.mark.parametrize("scene", OPENED)
def test_some_reads_of_the_open(scene: str, trials: Callable[[str], Trials]) -> None:
    over = trials(scene)
    counts = of_open(over, over.told(each_kind_in_turn(over.of_open(every=4))))
    assert counts["w", "earlier", "whole"] > 0 and any(verdict == "refused by the open" for _, verdict, _ in counts)


@pytest.mark.long
@pytest.mark.parametrize("lasts", [False, True], ids=["once", "lasting"])
@pytest.mark.parametrize("kind", KINDS)
@pytest.mark.parametrize("scene", OPENED)
def test_each_read_of_the_open(scene: str, kind: str, lasts: bool, trials: Callable[[str], Trials]) -> None:
    over = trials(scene)
    counts = of_open(over, over.told(Lie(at, kind, lasts, seed) for at in over.of_open() for seed in range(BITS if kind == "one bit" else 1)))
    for file in "dw":
        false = sum(number for (of, verdict, _), number in counts.items() if (of, verdict) == (file, "false"))
        most = [numbers[KINDS.index(kind)] for numbers in MOST[scene, file, lasts]]
        assert counts[file, "earlier", "whole"] <= most[0] and false <= most[1] and counts[file, *SPOILT] <= most[2]
