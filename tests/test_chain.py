# SPDX-License-Identifier: Apache-2.0
"""How tools/chain.py runs the kit's tasks side by side: in which order, with how many jobs, and as memory allows. The tasks are made up."""
from __future__ import annotations

import contextlib
import subprocess
import sys
import threading
import types
from pathlib import Path

import build
import chain
import kit
import pytest
import sources

GIGABYTE = 1_000_000_000


class Kit(types.ModuleType):
    """What the lanes ask of the kit, on a machine of four processors with this much free memory."""

    def __init__(self, free: float = 100 * GIGABYTE) -> None:
        super().__init__("rt")
        self.memory = free
        self.ending = contextlib.nullcontext

    def free(self) -> float:
        return self.memory

    def processors(self) -> int:
        return 4


class Tasks(dict):
    """Tasks as the kit makes them, with a record of what was begun and with how many jobs."""

    def __init__(self) -> None:
        super().__init__()
        self.begun: list[tuple[chain.Key, int]] = []
        self.at_once = self.most_at_once = 0
        self.lock = threading.Lock()

    def add(self, crate: str, below: tuple[str, ...] = (), part: str = "proof", lines: int = 100, memory: float = GIGABYTE, gives: object = True) -> None:
        def call(given: dict, jobs: int) -> object:
            with self.lock:
                self.begun.append(((crate, part), jobs))
                self.at_once += 1
                self.most_at_once = max(self.most_at_once, self.at_once)
            threading.Event().wait(0.05)
            with self.lock:
                self.at_once -= 1
            return gives if all(given[name, "proof"] for name in below) else False

        self[crate, part] = ([(name, "proof") for name in below], lines, memory, call)


def run(tasks: Tasks, tmp_path: Path, kit_of: Kit | None = None) -> tuple[dict, list[str]]:
    """What the tasks gave, and the lines that were printed."""
    said: list[str] = []
    logs = chain.Logs(str(tmp_path))
    lanes = chain.Lanes(kit_of or Kit(), logs, chain.Teller(logs, len(tasks), said.append))
    return lanes(tasks), said


def test_lowest_first_and_the_longest_chain_before_others(tmp_path: Path, monkeypatch: pytest.MonkeyPatch) -> None:
    """Memory is for one at a time: which of two threads notes first that it has begun would be chance."""
    monkeypatch.setattr(chain, "PAUSE", 0.01)
    tasks = Tasks()
    tasks.add("low", memory=6 * GIGABYTE)
    tasks.add("leaf", ("low",), lines=300, memory=6 * GIGABYTE)
    tasks.add("long", ("low",), lines=200, memory=6 * GIGABYTE)
    tasks.add("above", ("long",), lines=200, memory=6 * GIGABYTE)
    given, said = run(tasks, tmp_path, Kit(free=8 * GIGABYTE))
    names = [key[0] for key, _ in tasks.begun]
    assert names.index("low") == 0 and names.index("long") < names.index("leaf") and names.index("above") > names.index("long")
    assert all(given.values()) and len(said) == 4 and said[0].startswith("1 of 4: low proved in ")


def test_four_jobs_if_memory_allows(tmp_path: Path) -> None:
    tasks = Tasks()
    tasks.add("one")
    run(tasks, tmp_path)
    assert tasks.begun == [(("one", "proof"), 4)]


def test_fewer_jobs_in_less_memory(tmp_path: Path) -> None:
    tasks = Tasks()
    tasks.add("one", memory=4 * GIGABYTE)
    run(tasks, tmp_path, Kit(free=7 * GIGABYTE))
    assert tasks.begun == [(("one", "proof"), 2)]


def test_one_after_another_where_memory_is_for_one(tmp_path: Path, monkeypatch: pytest.MonkeyPatch) -> None:
    monkeypatch.setattr(chain, "PAUSE", 0.01)
    tasks = Tasks()
    for name in ("one", "two", "three"):
        tasks.add(name, memory=6 * GIGABYTE)
    run(tasks, tmp_path, Kit(free=8 * GIGABYTE))
    assert len(tasks.begun) == 3 and tasks.most_at_once == 1


def test_the_first_check_begins_though_memory_is_short(tmp_path: Path, monkeypatch: pytest.MonkeyPatch) -> None:
    monkeypatch.setattr(chain, "PAUSE", 0.01)
    monkeypatch.setattr(chain, "PATIENCE", 0.2)
    tasks = Tasks()
    tasks.add("one", memory=6 * GIGABYTE)
    run(tasks, tmp_path, Kit(free=GIGABYTE))
    assert tasks.begun == [(("one", "proof"), 1)]


def test_no_more_checks_than_processors(tmp_path: Path) -> None:
    tasks, four, at_once = Tasks(), threading.Barrier(4, timeout=60), []

    def call(given: dict, jobs: int) -> bool:
        at_once.append(four.n_waiting)
        four.wait()
        return True

    for number in range(12):
        tasks[f"crate{number}", "proof"] = ([], 1, GIGABYTE, call)
    given, _ = run(tasks, tmp_path)
    assert len(given) == 12 and max(at_once) < 4


def test_a_crate_that_failed_is_told(tmp_path: Path) -> None:
    tasks = Tasks()
    tasks.add("low", gives=False)
    tasks.add("above", ("low",))
    given, said = run(tasks, tmp_path)
    assert not given["low", "proof"] and not given["above", "proof"]
    assert said[0] == f"1 of 2: low NOT PROVED: {tmp_path}/low.log"


def test_edits_come_after_proofs(tmp_path: Path, monkeypatch: pytest.MonkeyPatch) -> None:
    monkeypatch.setattr(Kit, "processors", lambda _: 1)
    tasks = Tasks()
    tasks.add("one", part="edits", gives=("refused", "must-fail one/wrong.edit: refused, as it must be: x"))
    tasks.add("two")
    _, said = run(tasks, tmp_path)
    assert [key[0] for key, _ in tasks.begun] == ["two", "one"]


def test_what_a_call_raises_is_raised(tmp_path: Path) -> None:
    tasks = Tasks()
    tasks["one", "proof"] = ([], 1, 0, lambda given, jobs: 1 // 0)
    with pytest.raises(ZeroDivisionError):
        run(tasks, tmp_path)


def test_a_log_for_each_crate(tmp_path: Path) -> None:
    tasks = Tasks()
    logs = chain.Logs(str(tmp_path))
    for name in ("one", "two"):
        tasks[name, "proof"] = ([], 1, GIGABYTE, lambda given, jobs, name=name: print(f"rt: {name} is kept: by an earlier run", file=logs) or True)
    said: list[str] = []
    chain.Lanes(Kit(), logs, chain.Teller(logs, 2, said.append))(tasks)
    assert (tmp_path / "one.log").read_text(encoding="utf-8") == "rt: one is kept: by an earlier run\n"
    assert sorted(line.partition(": ")[2] for line in said) == ["one is kept", "two is kept"]


def test_a_kit_of_another_form() -> None:
    known = types.ModuleType("rt")
    for name, parameters in kit.FUNCTIONS.items():
        exec(f"def {name}({', '.join(parameters)}): pass", known.__dict__)
    assert kit.lacking(known, kit.FUNCTIONS) == []
    known.in_lanes = lambda tasks, jobs: None
    del known.free
    assert kit.lacking(known, kit.FUNCTIONS) == ["in_lanes", "free"]


def test_a_copy_has_what_is_proved_and_its_edits(tmp_path: Path) -> None:
    crates = sources.crates_with_below(["mvalue"])
    sources.copy_crates(crates, str(tmp_path), {"mvalue": sources.edits_of("mvalue", "edits")})
    assert [*crates] == ["mspec", "mnum", "mvalue"]
    assert (tmp_path / "crates.txt").read_text(encoding="utf-8").startswith("mspec:\nmnum: mspec")
    assert (tmp_path / "crates/mvalue/must-fail/bytes_lost.edit").exists() and not (tmp_path / "crates/mnum/must-fail").exists()
    assert (tmp_path / "crates/mnum/src/lib.rt").exists() and not (tmp_path / "crates/mkey").exists()


def test_a_word_that_is_no_crate(capsys: pytest.CaptureFixture[str]) -> None:
    for word in ("mnothing", "--anything"):
        assert chain.main([word]) == 2
        assert f"{word} is no crate of crates.txt" in capsys.readouterr().err


def test_a_build_takes_no_words() -> None:
    with pytest.raises(SystemExit, match="takes no words"):
        build.main(["mserve"])
    ran = subprocess.run([sys.executable, Path(sources.TOP, "tools", "build.py"), "--help"], capture_output=True, text=True, timeout=60)
    assert ran.returncode == 0 and ran.stdout.startswith("Proves and builds")
