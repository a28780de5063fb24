# SPDX-License-Identifier: Apache-2.0
"""What the tests depend on: the built program, its settings and stores, and libraries that refuse its calls.

The programs are those that tools/running.py names. Helpers that are no fixtures are in tests/support.py."""
from __future__ import annotations

import os
import subprocess
import tempfile
from collections.abc import Callable, Iterator
from pathlib import Path

import hypothesis
import pytest
import running

TESTS = Path(__file__).resolve().parent

# The same cases in each run, and no deadline: the machine may be busy. A case is a run of the program, so none is too slow or too large.
hypothesis.settings.register_profile("tests", deadline=None, derandomize=True, database=None,
                                     suppress_health_check=[hypothesis.HealthCheck.too_slow, hypothesis.HealthCheck.data_too_large])
hypothesis.settings.load_profile("tests")


def pytest_addoption(parser: pytest.Parser) -> None:
    """`--count N`: tests that draw their cases draw N times as many. `--part K/N`: of all cases every Nth, from the Kth on."""
    parser.addoption("--count", type=int, default=1, metavar="N", help="draw N times as many cases")
    parser.addoption("--part", default="1/1", metavar="K/N", help="of all cases every Nth, from the Kth on")


def group_of(item: pytest.Item) -> str:
    """What runs in one process: the cases of a file that share what takes long to make, else a case by itself."""
    return item.nodeid.partition("::")[0] if item.get_closest_marker("together") else item.nodeid


@pytest.hookimpl(trylast=True)
def pytest_collection_modifyitems(config: pytest.Config, items: list[pytest.Item]) -> None:
    """Leaves the cases of a part, which runs beside the other parts (tools/behaviour.py). Of those that marks and words leave, long ones are dealt out
    first, so that each part has as many of them."""
    place, parts = map(int, config.getoption("--part").split("/"))
    long_first = sorted(items, key=lambda item: item.get_closest_marker("long") is None)
    groups = {group: number for number, group in enumerate(dict.fromkeys(map(group_of, long_first)))}
    chosen = [item for item in items if groups[group_of(item)] % parts == place - 1]
    config.hook.pytest_deselected(items=[item for item in items if groups[group_of(item)] % parts != place - 1])
    items[:] = chosen


def pytest_configure() -> None:
    """Ends the run if there is no program to test, and has the clients take the one for islands from where it is."""
    if not os.path.exists(running.PROGRAM) or not os.path.exists(running.ISLANDS):
        pytest.exit("tests: a program is missing: run ./mserve --help, or name the programs by the variables MSERVE and MISLANDS", returncode=3)
    os.environ["MISLANDS"] = running.ISLANDS


@pytest.fixture(scope="session")
def count(request: pytest.FixtureRequest) -> int:
    """How many times as many cases are to be drawn."""
    return request.config.getoption("--count")


@pytest.fixture
def store(tmp_path: Path) -> str:
    """The path of a store in a file, which is not there yet."""
    return str(tmp_path / "store")


@pytest.fixture
def open_folder() -> Iterator[str]:
    """A folder that another user may enter, as pytest's own may not be."""
    with tempfile.TemporaryDirectory() as folder:
        os.chmod(folder, 0o755)
        yield folder


@pytest.fixture
def store_in_memory(folder_in_memory: Path) -> str:
    """The same, in a folder that waits for no disk."""
    return str(folder_in_memory / "store")


@pytest.fixture
def folder_in_memory() -> Iterator[Path]:
    """A folder for many files, none of which has to outlast the test."""
    with tempfile.TemporaryDirectory(dir=running.IN_MEMORY) as folder:
        yield Path(folder)


@pytest.fixture
def written(tmp_path: Path) -> Callable[[str | bytes], str]:
    """Writes a file, as one of settings, and gives its path; the next call writes it again."""
    def write(content: str | bytes) -> str:
        path = tmp_path / "written"
        path.write_bytes(content.encode("ascii") if isinstance(content, str) else content)
        return str(path)
    return write


def compiled(source: str, folder: Path) -> str:
    """The path of a library that is loaded in front of the program, made from a source of this folder."""
    library = folder / source.replace(".c", ".so")
    subprocess.run(["cc", "-shared", "-fPIC", "-O1", "-o", library, TESTS / source], check=True)
    return str(library)


def library(source: str) -> Callable[[pytest.TempPathFactory], str]:
    """A fixture: the path of such a library, which is made once."""
    def made(tmp_path_factory: pytest.TempPathFactory) -> str:
        return compiled(source, tmp_path_factory.mktemp("library"))
    return pytest.fixture(scope="session")(made)


# It refuses reads, writes and accepts.
io_library = library("refuse_io.c")
# It refuses requests for memory.
memory_library = library("refuse_memory.c")
# It ends the program at a call that changes a file.
disk_library = library("stop_disk.c")
# The power goes at such a call.
power_library = library("lose_power.c")
# One read of a file is answered with other bytes.
lie_library = library("lie_disk.c")
