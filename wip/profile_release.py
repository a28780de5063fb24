#!/usr/bin/env python3
# SPDX-License-Identifier: Apache-2.0
"""Counts the instructions of a program that has no symbols, such as a release, function by function: what stands in the history as `release/mserve.xz` is what
the chain built.

    git show COMMIT:release/mserve.xz | xz -d > mserve; chmod +x mserve
    wip/profile_release.py mserve settings.toml < lines            the functions by what they take themselves, and how often each is entered
    wip/profile_release.py mserve settings.toml 0x1c3bc0 < lines   what one calls, with all that is below, as a tree
    wip/profile_release.py mserve settings.toml 0x1c3bc0 - < lines its instructions, each with how often it was done

A function begins where a call leads, or after the padding of the one before. It is known by what it does: compare two releases, and count how often
each is entered for a turn of the line. A script of a session, not a tool: no test holds it."""
import bisect
import collections
import re
import subprocess
import sys
import tempfile
from pathlib import Path

LINE = re.compile(r"\s+([0-9a-f]+):\t(.*)")


class Profile:
    """The counts of a run: by address, and by call."""

    def __init__(self, program: str, settings: str) -> None:
        """Runs the lines of the standard input over a store in memory."""
        self.program = str(Path(program).resolve())
        self.cost: collections.Counter[int] = collections.Counter()
        self.calls: collections.Counter[tuple[int, int]] = collections.Counter()
        self.within: collections.Counter[tuple[int, int]] = collections.Counter()
        self.code: list[tuple[int, str]] = []
        with tempfile.NamedTemporaryFile("r") as out:
            words = ["valgrind", "--tool=callgrind", "--dump-instr=yes", "--compress-pos=no", "--compress-strings=no", f"--callgrind-out-file={out.name}"]
            run = [self.program, "run", "--settings", settings, "--store", "memory"]
            subprocess.run([*words, *run], stdin=sys.stdin, capture_output=True, check=True)
            self.read(out.read().splitlines())
        self.starts = self.found_starts()

    def read(self, lines: list[str]) -> None:
        """Takes the counts of the program's own code from callgrind's file."""
        own, called = False, None
        for line in lines:
            if line.startswith("ob="):
                own = line[3:].strip() == self.program
            elif line.startswith("calls="):
                words = line[6:].split()
                called = (int(words[0]), int(words[1], 16))
            elif line.startswith("0x"):
                at, count = int(line.split()[0], 16), int(line.split()[-1])
                if called and own:
                    self.calls[at, called[1]] += called[0]
                    self.within[at, called[1]] += count
                elif own:
                    self.cost[at] += count
                called = None

    def found_starts(self) -> list[int]:
        """Where functions begin."""
        text = subprocess.run(["objdump", "-d", "--no-show-raw-insn", self.program], capture_output=True, text=True, check=True).stdout
        starts, padded = set(), False
        for line in text.splitlines():
            found = LINE.match(line)
            if not found:
                continue
            at, what = int(found[1], 16), found[2]
            self.code.append((at, what))
            target = re.match(r"call\s+([0-9a-f]+)\b", what)
            if target:
                starts.add(int(target[1], 16))
            if padded and not what.startswith("int3") and at % 16 == 0:
                starts.add(at)
            padded = what.startswith("int3")
        return sorted(starts)

    def function(self, at: int) -> int:
        """The beginning of the function that an address is in."""
        return self.starts[max(bisect.bisect_right(self.starts, at) - 1, 0)]

    def functions(self) -> None:
        """Prints them, the dearest first."""
        own: collections.Counter[int] = collections.Counter()
        for at, count in self.cost.items():
            own[self.function(at)] += count
        for at, count in own.most_common(60):
            entered = self.cost[at]
            print(f"{at:#x} {count:12} entered {entered:9} each {count / max(entered, 1):8.1f}")

    def below(self, start: int, depth: int = 0) -> None:
        """Prints what a function calls."""
        mine = {key: count for key, count in self.within.items() if self.function(key[0]) == start}
        for (at, target), count in sorted(mine.items(), key=lambda pair: -pair[1]):
            if count * 100 > sum(self.cost.values()) and depth < 6:
                print(f"{'  ' * depth}{target:#x} {self.calls[at, target]:9} times, {count:12} with all below")
                self.below(self.function(target), depth + 1)

    def instructions(self, start: int) -> None:
        """Prints what was done of a function."""
        for at, what in self.code:
            if self.function(at) == start and self.cost[at]:
                print(f"{self.cost[at]:10} {at:x}: {what}")


def main(program: str, settings: str, start: str = "", how: str = "") -> None:
    """Counts once, and prints."""
    profile = Profile(program, settings)
    if not start:
        profile.functions()
    elif how:
        profile.instructions(int(start, 16))
    else:
        profile.below(int(start, 16))


if __name__ == "__main__":
    if not sys.argv[2:]:
        sys.exit(__doc__)
    main(*sys.argv[1:])
