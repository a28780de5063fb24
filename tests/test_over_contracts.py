# SPDX-License-Identifier: Apache-2.0
"""What tools/over_contracts.py checks a crate over: all that the crates below it state, and a hole for each proof of a function."""
from __future__ import annotations

from pathlib import Path

import over_contracts

FILES = {
    "src/lib.rt": "fn f() {}",
    "specs/Words.antt": "words",
    "proofs/Lib.antt": "mod Laws",
    "proofs/Laws.antt": "laws",
    "proofs/part/f/Answers.antt": "answers",
    "proofs/part/f/Invariants.antt": "invariants",
    "proofs/part/+both/Answers.antt": "answers",
    "out/rlib/stamp": "stamp",
}


def crate_at(folder: Path) -> str:
    for path, text in FILES.items():
        (folder / path).parent.mkdir(parents=True, exist_ok=True)
        (folder / path).write_text(text, encoding="utf-8")
    return str(folder)


def test_proofs_become_holes_and_all_else_stays(tmp_path: Path) -> None:
    texts = over_contracts.contract_files("low", crate_at(tmp_path))
    assert {path: text for path, text in texts.items() if "Proof" not in path} == {path: FILES[path] for path in [*FILES][:4]}
    function, cycle = texts["proofs/part/f/Proof.antt"], texts["proofs/part/+both/Proof.antt"]
    assert function.startswith("use Rattle.low.proofs.part.f.Statement.{statement}\n") and function.endswith("\nf_spec = ?\n")
    assert cycle.startswith("use Rattle.low.proofs.part.+both.{statement}\n") and cycle.endswith("\n+both_spec = ?\n")


def test_copy_holds_these_files_alone_and_leaves_what_is_the_same(tmp_path: Path) -> None:
    over_contracts.write_files(str(tmp_path), {"src/a.rt": "a", "src/b.rt": "b"})
    before = (tmp_path / "src" / "a.rt").stat().st_mtime_ns
    over_contracts.write_files(str(tmp_path), {"src/a.rt": "a", "src/c.rt": "c"})
    assert sorted(path.name for path in (tmp_path / "src").iterdir()) == ["a.rt", "c.rt"]
    assert (tmp_path / "src" / "a.rt").stat().st_mtime_ns == before
