# SPDX-License-Identifier: Apache-2.0
"""How tools/behaviour.py runs tests in stages, over a small tree of tests with all marks: each case once, and without the long ones by `--quick`; and which
cases that failed have a second try."""
from __future__ import annotations

import shutil
import signal
from collections import Counter
from pathlib import Path

import behaviour
import pytest

CASES = """import pytest
def test_plain(): pass
@pytest.mark.parametrize("number", [1, pytest.param(2, marks=pytest.mark.long)])
def test_numbers(number): pass
@pytest.mark.long
def test_long(): pass
"""
MARKED = "@pytest.mark.{0}\ndef test_{0}(): pass\n"
# Of each file how many cases there are, and how many of them are long.
FILES = {"tests/test_all.py": (6, 2), "clients/tests/test_some.py": (4, 2), "front/tests/test_table.py": (4, 2), "front/tests/test_some.py": (5, 2),
         "packaging/tests/test_some.py": (4, 2)}


@pytest.fixture
def top(tmp_path: Path, monkeypatch: pytest.MonkeyPatch) -> Path:
    """A tree with tests, the settings of pytest, and what the tests' own conftest.py depends on."""
    real = Path(behaviour.TOP)
    for file in FILES:
        folder = (tmp_path / file).parent
        folder.mkdir(parents=True, exist_ok=True)
        (tmp_path / file).write_text(CASES)
        (folder / "conftest.py").write_text("def pytest_addoption(parser):\n    parser.addoption('--count', type=int, default=1)\n")
        shutil.copy(real / folder.relative_to(tmp_path).parent / "pytest.ini", folder.parent)
    # A package declares no such option.
    (tmp_path / "packaging" / "tests" / "conftest.py").unlink()
    shutil.copy(real / "tests" / "conftest.py", tmp_path / "tests")
    (tmp_path / "tools").symlink_to(real / "tools")
    append(tmp_path / "tests" / "test_all.py", MARKED.format("waits") + MARKED.format("alone"))
    append(tmp_path / "front" / "tests" / "test_some.py", MARKED.format("alone"))
    monkeypatch.setattr(behaviour, "TOP", str(tmp_path))
    # Two are parts enough for cases to be dealt out; each is a process, whose start is all that it does.
    monkeypatch.setattr(behaviour.os, "sched_getaffinity", lambda _: {0, 1})
    monkeypatch.setattr(behaviour, "PARTS", 1)
    return tmp_path


def append(path: Path, text: str) -> None:
    """Adds cases to a file."""
    with path.open("a", encoding="utf-8") as file:
        file.write(text)


def test_each_case_is_run_once(top: Path, capfd: pytest.CaptureFixture[str]) -> None:
    totals = behaviour.run(False, ["--count=1"])
    assert totals.files == {file: count for file, (count, _) in FILES.items()}, capfd.readouterr()
    assert totals.ended == {"passed": sum(count for count, _ in FILES.values())}
    assert "left out" not in capfd.readouterr().out
    assert not [path for file in FILES for path in (top / file).parent.rglob("__pycache__")]
    assert all(part.clock > 0 and part.processor > 0 for part in totals.parts)


def test_quick_leaves_out_long_cases_and_a_case_of_two_stages_is_told(top: Path, capfd: pytest.CaptureFixture[str]) -> None:
    append(top / "tests" / "test_all.py", "@pytest.mark.waits\n@pytest.mark.alone\ndef test_both(): pass\n")
    totals = behaviour.run(True, ["--count=1"])
    quick = Counter({file: count - long for file, (count, long) in FILES.items()})
    assert totals.files == quick + Counter({"tests/test_all.py": 2}), capfd.readouterr()
    assert totals.ended == {"passed": quick.total() + 2, "failed": 1}
    told = capfd.readouterr().out
    assert "behaviour: tests/test_all.py: pytest finds 5 cases, the stages ran 6: a mark hides some, or puts some into two\n" in told
    assert f"skipped, {sum(long for _, long in FILES.values())} left out\n" in told


# A case that fails the first time, and one that always does. A process is started for them, by themselves or by a fixture, or none is.
FAILS = """
import pathlib, pytest, subprocess
@pytest.fixture(scope="module")
def server(): subprocess.run(["true"])
def fails(name, always=False):
    place = pathlib.Path(__file__).with_name(name)
    was_there = place.exists()
    place.touch()
    assert was_there and not always, f"why {name} failed"
"""
ONCE = "def test_{0}(): subprocess.run(['true']); fails('{0}')\n"
ALWAYS = "def test_always(): subprocess.run(['true']); fails('always', True)\n"
BY_A_FIXTURE = "def test_by_a_fixture(server): fails('by_a_fixture')\n"
WITHOUT = "def test_without_a_process(): fails('without')\n"


def test_a_case_that_fails_once_has_a_second_try_and_one_that_time_is_no_matter_for_has_none(top: Path, capfd: pytest.CaptureFixture[str]) -> None:
    """It is run alone. What fails at each try, has no process, or computes is a failure."""
    append(top / "front" / "tests" / "test_some.py", FAILS + ONCE.format("once") + BY_A_FIXTURE + ALWAYS + WITHOUT)
    append(top / "tests" / "test_all.py", FAILS + ONCE.format("computing") + "@pytest.mark.waits\n" + ONCE.format("waiting"))
    totals = behaviour.run(False, ["--count=1"])
    told = capfd.readouterr().out
    assert totals.ended == {"passed": sum(count for count, _ in FILES.values()) + 3, "failed": 3}, told
    again = {line.split(": ")[2].split(" (")[0] for line in told.splitlines() if line.startswith("behaviour: passed at the second try: ")}
    assert again == {"front/tests/test_some.py::test_once", "front/tests/test_some.py::test_by_a_fixture", "tests/test_all.py::test_waiting"}
    assert "behaviour: failed at the second try too: front/tests/test_some.py::test_always\n" in told
    assert "behaviour: 3 passed at the second try, of 3 that may\n" in told
    # Why each failed stands where it failed, and with its second try.
    assert [told.count(f"E   AssertionError: why {name} failed\n") + told.count(f"E       AssertionError: why {name} failed\n")
            for name in ("once", "by_a_fixture", "always")] == [2] * 3


def test_more_cases_than_may_need_a_second_try_are_a_failure(top: Path, monkeypatch: pytest.MonkeyPatch, capfd: pytest.CaptureFixture[str]) -> None:
    append(top / "front" / "tests" / "test_some.py", FAILS + "".join(ONCE.format(f"once{number}") for number in range(4)))
    folder, stages = str(top), behaviour.stages
    [part] = [part for part in stages(folder, True, [])[1].parts if part.name == "front some"]
    monkeypatch.setattr(behaviour, "stages", lambda *_: [behaviour.Stage([part], behaviour.COMPUTES)])
    monkeypatch.setattr(behaviour, "collected", lambda *_: behaviour.Collected(Counter({"front/tests/test_some.py": 6})))
    totals = behaviour.run(True, [])
    assert totals.ended == {"passed": 6, "failed": 1}, capfd.readouterr()
    assert "behaviour: 4 passed at the second try, of 3 that may\n" in capfd.readouterr().out


def at_once(stage: behaviour.Stage) -> list[str]:
    """The folders of the parts that a stage begins with."""
    begun: list[behaviour.Part] = []
    while part := stage.next(begun):
        stage.parts.remove(part)
        begun.append(part)
    return [part.suite for part in begun]


@pytest.mark.parametrize(("processors", "front", "others"), [(1, 1, 1), (2, 2, 2), (4, 4, 3), (16, 16, 9)])
def test_parts_that_run_at_once(monkeypatch: pytest.MonkeyPatch, processors: int, front: int, others: int) -> None:
    """Those that measure run alone. Of the front's as many run as there are processors, and of the others as many as the other half takes, two of which
    wait; once the front's have ended, one that computes for each processor."""
    monkeypatch.setattr(behaviour.os, "sched_getaffinity", lambda _: set(range(processors)))
    measuring, all_others = behaviour.stages("no folder", True, [])
    computing = behaviour.Stage([part for part in all_others.parts if part.halves == behaviour.COMPUTES], all_others.halves)
    assert (len(at_once(measuring)), len(at_once(computing))) == (1, processors)
    found = Counter(suite == behaviour.FRONT for suite in at_once(all_others))
    assert (found[True], found[False]) == (front, others)


def test_interrupts_reach_what_tests_start(monkeypatch: pytest.MonkeyPatch) -> None:
    """A job in the background of a shell ignores them, and so would all that it starts."""
    seen: list[object] = []
    monkeypatch.setattr(behaviour.sys, "argv", ["behaviour.py"])
    monkeypatch.setattr(behaviour, "missing", lambda: [])
    monkeypatch.setattr(behaviour, "run", lambda *_: seen.append(signal.getsignal(signal.SIGINT)) or behaviour.Totals())
    before = signal.signal(signal.SIGINT, signal.SIG_IGN)
    try:
        assert behaviour.main() == 1
    finally:
        signal.signal(signal.SIGINT, before)
    assert seen == [signal.default_int_handler]


@pytest.mark.parametrize(("found", "ran", "failed"), [
    ({"a.py": 2}, {"a.py": 2}, 0), ({"a.py": 2, "b.py": 1}, {"a.py": 2}, 1), ({"a.py": 2}, {"a.py": 1, "b.py": 1}, 2), ({}, {}, 0),
])
def test_cases_that_no_stage_runs(found: dict[str, int], ran: dict[str, int], failed: int) -> None:
    totals = behaviour.Totals(files=Counter(ran))
    behaviour.compare(behaviour.Collected(Counter(found)), totals)
    assert totals.ended["failed"] == failed


@pytest.mark.parametrize("suite", behaviour.FIRST)
def test_files_that_take_long_begin_first(suite: str) -> None:
    names, first = behaviour.names_of(suite), behaviour.FIRST[suite]
    assert tuple(names[:len(first)]) == first
    assert sorted(f"test_{name}.py" for name in names) == sorted(path.name for path in Path(behaviour.TOP, suite).glob("test_*.py"))
