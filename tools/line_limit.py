#!/usr/bin/env python3
# SPDX-License-Identifier: Apache-2.0
"""Times lines over the built program beside tools/line_limit.c, a C program that reads lines and gives
each a reply by one write, before it takes the next one: what a line costs that is not run.

    tools/line_limit.py [--passes 5] [--lines 1000000]

Both read the lines from a file and write to /dev/null, in turn. What is printed is the processor time of a
line, the program's and the system's part together, of the best pass, and the ratio; that of a program
that reads one line is taken off. It needs a C compiler (`cc`)."""
import argparse
import os
import subprocess
import sys
import tempfile
from collections.abc import Callable

from running import TOP, require_program, run_words

FORMS: dict[str, Callable[[int], str]] = {
    "equal, `1 W 1`": lambda n: "1 W 1\n",
    "different, `1 W 0`, `1 W 1` ..": lambda n: f"1 W {n}\n",
}


def seconds(words: list[str], path: str) -> float:
    """The processor time of a program that reads this file."""
    with open(path, "rb") as lines:
        ran = subprocess.Popen(words, stdin=lines, stdout=subprocess.DEVNULL)
        _, status, used = os.wait4(ran.pid, 0)
    if status:
        sys.exit(f"line_limit: {words[0]} ended with status {status}")
    return used.ru_utime + used.ru_stime


def best(words: dict[str, list[str]], path: str, passes: int) -> dict[str, float]:
    """The least time of each program, the programs in turn."""
    found: dict[str, float] = {}
    for _ in range(passes):
        for name, command in words.items():
            found[name] = min(found.get(name, float("inf")), seconds(command, path))
    return found


def main() -> int:
    """Builds the C program, times both, and prints a row for each form of lines."""
    read = argparse.ArgumentParser(description=__doc__.split("\n\n", maxsplit=1)[0])
    read.add_argument("--passes", type=int, default=5)
    read.add_argument("--lines", type=int, default=1_000_000)
    asked = read.parse_args()
    require_program()
    print("| Lines | C, ns a line | program, ns a line | ratio |\n|---|---|---|---|")
    with tempfile.TemporaryDirectory() as folder:
        limit, path = (os.path.join(folder, name) for name in ("limit", "lines"))
        subprocess.run(["cc", "-O2", "-o", limit, os.path.join(TOP, "tools", "line_limit.c")], check=True)
        words = {"C": [limit], "program": run_words()}
        for form, line in FORMS.items():
            taken = []
            for count in (1, asked.lines + 1):
                with open(path, "w", encoding="ascii") as file:
                    file.writelines(map(line, range(count)))
                taken.append(best(words, path, asked.passes))
            limit_takes, ours = ((taken[1][name] - taken[0][name]) / asked.lines * 1e9 for name in words)
            print(f"| {form} | {limit_takes:.0f} | {ours:.0f} | {ours / limit_takes:.2f} |", flush=True)
    return 0


if __name__ == "__main__":
    sys.exit(main())
