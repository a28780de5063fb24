# SPDX-License-Identifier: Apache-2.0
"""What tools/libraries.py puts into a clone: the libraries that are kept of crates with the same sources, and none above a crate that differs."""
from __future__ import annotations

from dataclasses import dataclass, field
from pathlib import Path

import libraries


@dataclass
class Crate:
    """A crate as the kit has it, with the names of those below it."""

    name: str
    folder: str
    lower: list[Crate] = field(default_factory=list)

    def below(self) -> list[Crate]:
        return self.lower


@dataclass
class Kept:
    """What is kept: the sums of crates, each of the crate's name and of the libraries below it as they were placed."""

    sums: list[str]
    built: list[str] = field(default_factory=list)

    def key(self, crate: Crate) -> str:
        return " ".join([crate.name, *(below.name for below in crate.below() if below.name in self.built)])

    def give(self, crate: Crate, tests: bool, key: str) -> bool:
        if key not in self.sums:
            return False
        Path(crate.folder, "out", "rlib").mkdir(parents=True)
        return True

    def is_built(self, crate: Crate) -> None:
        self.built.append(crate.name)


def crates_in(folder: Path) -> list[Crate]:
    """Three crates, each over those before it, and a fourth beside the upper two."""
    low = Crate("low", str(folder / "low"))
    middle = Crate("middle", str(folder / "middle"), [low])
    return [low, middle, Crate("beside", str(folder / "beside"), [low]), Crate("top", str(folder / "top"), [low, middle])]


def stamp_of(crate: Crate) -> str:
    return f"stamp of {crate.name}"


def test_all_that_is_kept_is_placed_with_its_stamp(tmp_path: Path) -> None:
    kept = Kept(["low", "middle low", "beside low", "top low middle"])
    placed, missing = libraries.place(crates_in(tmp_path), kept, stamp_of)
    assert placed == ["low", "middle", "beside", "top"] and missing == []
    assert (tmp_path / "top" / "out" / "rlib" / "stamp").read_text() == "stamp of top"


def test_nothing_is_placed_above_a_crate_that_differs(tmp_path: Path) -> None:
    kept = Kept(["low", "beside low", "top low", "top low middle"])
    placed, missing = libraries.place(crates_in(tmp_path), kept, stamp_of)
    assert placed == ["low", "beside"] and missing == ["middle", "top"]
    assert not (tmp_path / "middle" / "out").exists() and not (tmp_path / "top" / "out").exists()


def test_a_library_of_other_sources_goes(tmp_path: Path) -> None:
    """`rt check` would refuse to mix it with those that are placed; what it keeps of its own work stays."""
    stale = tmp_path / "middle" / "out" / "rlib" / "stamp"
    work = tmp_path / "middle" / "out" / "incremental" / "work"
    for file in (stale, work):
        file.parent.mkdir(parents=True)
        file.write_text("of other sources")
    libraries.place(crates_in(tmp_path), Kept(["low"]), stamp_of)
    assert not stale.exists() and work.exists()


def test_words_that_name_no_crate_are_refused(capsys) -> None:
    assert libraries.main(["--help-me"]) == 2
    assert "--help-me is no crate of crates.txt" in capsys.readouterr().err
