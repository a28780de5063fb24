# SPDX-License-Identifier: Apache-2.0
"""The examples of clients/README.md, run as they are there."""
from __future__ import annotations

import os
import re
import subprocess
from pathlib import Path

from conftest import CLIENTS, Server

PLACE = re.compile(r"  \(docs/LANGUAGE\.md, \"[A-Za-z ]+\"\)$", re.MULTILINE)
SAMPLE = "ADD(A,B) ; sum\n Q A+B\n"


def examples() -> list[tuple[str, str, str]]:
    """Each command of the page, the lines that are typed at its prompt, and what is to come."""
    found = []
    for block in re.findall(r"^```console\n(.*?)^```$", (CLIENTS / "README.md").read_text(encoding="utf-8"), re.MULTILINE | re.DOTALL):
        for part in re.split(r"^\$ ", block, flags=re.MULTILINE)[1:]:
            command, *lines = part.splitlines()
            typed = [line.removeprefix("> ") for line in lines if line.startswith("> ")]
            found.append((command, "\n".join(typed), "".join(line + "\n" for line in lines if not line.startswith("> "))))
    return found


def test_examples_of_the_page(server: Server, tmp_path: Path) -> None:
    """They are run in their order; at a prompt, lines are typed from a pipe, which leaves out the place of a code."""
    (tmp_path / "clients").symlink_to(CLIENTS)
    (tmp_path / "examples").symlink_to(CLIENTS.parent / "examples")
    (tmp_path / "ADD.m").write_text(SAMPLE)
    assert len(examples()) >= 6
    for command, typed, output in examples():
        words = command.replace(" 9000 1", f" {server.port} 3")
        done = subprocess.run(["bash", "-c", words], input=typed.encode(), capture_output=True, timeout=60, cwd=tmp_path,
                              env={**os.environ, "HOME": str(tmp_path)})
        assert (done.stdout.decode(), done.stderr) == (PLACE.sub("", output), b""), command
