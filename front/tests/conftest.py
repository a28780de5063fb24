# SPDX-License-Identifier: Apache-2.0
"""The fixtures: a certificate, and fronts. The program is the one that tools/running.py names."""
from __future__ import annotations

import os
import subprocess
from collections.abc import Callable, Iterator
from pathlib import Path

import front
import pytest
import running

Starter = Callable[..., front.Front]


def pytest_configure(config: pytest.Config) -> None:
    """Takes the patience that is given, and ends the run if there is no program to test."""
    front.Patience.seconds = config.getoption("--patience")
    if not os.path.exists(running.PROGRAM):
        pytest.exit("front/tests: there is no program: run ./mserve --help, or name one by the variable MSERVE", returncode=3)


def pytest_addoption(parser: pytest.Parser) -> None:
    """`--count N`: tests that draw their cases draw N times as many. `--patience S`: something is missed after S seconds."""
    parser.addoption("--count", type=int, default=1, metavar="N", help="draw N times as many cases")
    parser.addoption("--patience", type=float, default=front.PATIENT, metavar="S", help=f"miss something after so many seconds (default {front.PATIENT:.0f})")


@pytest.fixture(scope="session")
def count(request: pytest.FixtureRequest) -> int:
    """How many times as many cases are to be drawn."""
    return request.config.getoption("--count")


@pytest.fixture(scope="session")
def certificate(tmp_path_factory: pytest.TempPathFactory) -> tuple[Path, Path]:
    """A certificate of this run for localhost, and its key."""
    folder = tmp_path_factory.mktemp("certificate")
    subprocess.run(["openssl", "req", "-x509", "-newkey", "ec", "-pkeyopt", "ec_paramgen_curve:prime256v1", "-nodes", "-days", "2", "-subj",
                    "/CN=localhost", "-addext", "subjectAltName=DNS:localhost,IP:127.0.0.1", "-keyout", folder / "key.pem", "-out",
                    folder / "certificate.pem"], check=True, capture_output=True)
    return folder / "certificate.pem", folder / "key.pem"


@pytest.fixture
def start(certificate: tuple[Path, Path], tmp_path: Path) -> Iterator[Starter]:
    """Starts fronts, and stops them after the test."""
    fronts: list[front.Front] = []

    def started(tls: bool = True, **more: object) -> front.Front:
        folder = tmp_path / f"front{len(fronts)}"
        folder.mkdir()
        fronts.append(front.Front(folder, certificate if tls else None, **more))
        return fronts[-1]
    yield started
    for one in fronts:
        one.stop()


@pytest.fixture(scope="session")
def lasting(certificate: tuple[Path, Path], tmp_path_factory: pytest.TempPathFactory) -> Iterator[front.Front]:
    """A front over a store in memory for tests that leave it as it was, but for what they store."""
    one = front.Front(tmp_path_factory.mktemp("front"), certificate)
    yield one
    one.stop()
