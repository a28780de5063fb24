# SPDX-License-Identifier: Apache-2.0
"""The scenes of the crate `host_cases`, which the gate plays over surroundings in memory, played over the system: the built program, files, a port with
peers, and the standard streams. All that both wrote is the same: the status, the output, what is reported, and what each peer is answered."""
from __future__ import annotations

import socket
import subprocess
from collections.abc import Iterator
from dataclasses import dataclass, field
from pathlib import Path

import pytest
from blocks import Block, block_of, text_bytes
from running import PROGRAM, TOP, connected, free_port

SCENES = Path(TOP, "crates", "host_cases", "stdout")
# The scenes of which a case needs a peer who does not come: the system's port waits for one.
NOT_OF_THE_SYSTEM = ("a port that is taken, and a peer who does not come",)
DOCUMENT, PORT = "settings.toml", "9000"


def scenes() -> Iterator[Block]:
    """The scenes."""
    for text in SCENES.read_text(encoding="ascii").strip("\n").split("\n\n"):
        yield block_of(SCENES.name, text)


@dataclass
class Scene:
    """What is around the program: a folder, what its document holds at the next readings, what the input holds, and what the peers send."""
    folder: Path
    texts: list[bytes] = field(default_factory=list)
    stream: bytes = b""
    waiting: list[bytes] = field(default_factory=list)

    def play(self, case: str) -> list[str] | None:
        """What comes of a run of the program; nothing of a case that says what is there."""
        word, _, text = case.partition(" ")
        if word == "settings":
            self.texts.append(text_bytes(text))
        elif word == "input":
            self.stream = text_bytes(text)
        elif word == "waits":
            self.waiting.append(text_bytes(text))
        else:
            return self.run(case.split(" "))
        return None

    def run(self, words: list[str]) -> list[str]:
        """Runs the program with these words: the lines of its status, its output and its report, and of what each peer is answered."""
        document = self.folder / DOCUMENT
        document.unlink(missing_ok=True)
        read = words[words.index("--settings") + 1] == DOCUMENT
        if self.texts:
            document.write_bytes(self.texts.pop(0) if read else self.texts[0])
        port = free_port()
        with subprocess.Popen([PROGRAM, *(str(port) if word == PORT else word for word in words)], cwd=self.folder,
                              stdin=subprocess.PIPE, stdout=subprocess.PIPE, stderr=subprocess.PIPE) as process:
            answers = [answered(port, sent) for sent in self.waiting]
            output, report = process.communicate(self.stream, timeout=60)
        self.stream, self.waiting = b"", []
        lines = [f"status {process.returncode}", *output.decode("ascii").splitlines(), *report.decode("ascii").splitlines()]
        for answer in answers:
            lines += ["peer", *answer.decode("ascii").splitlines()]
        return lines


def answered(port: int, sent: bytes) -> bytes:
    """What a peer is answered."""
    with connected(port) as client:
        client.sendall(sent)
        client.shutdown(socket.SHUT_WR)
        got = b""
        while piece := client.recv(65536):
            got += piece
        return got


@pytest.mark.parametrize("scene", [scene for scene in scenes() if scene.name not in NOT_OF_THE_SYSTEM], ids=lambda scene: scene.name)
def test_a_scene_over_the_system(scene: Block, tmp_path: Path) -> None:
    around = Scene(tmp_path)
    for case, given in scene.cases:
        came = around.play(case)
        assert (came or []) == given
        assert (came is None) == (given == [])
