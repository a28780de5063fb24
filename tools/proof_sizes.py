#!/usr/bin/env python3
# SPDX-License-Identifier: Apache-2.0
"""Where a crate's proof costs, without a run: the sizes of what `rt check` kept of it, by kinds of modules and by functions.

    tools/proof_sizes.py CRATE.. [--top FOLDER] [--most 30] [--waits]

A check of the crate must have passed there. A megabyte kept took 1.1 to 1.5 s of a processor to prove in the low crates, and 1.7 to 2.1 in
those on top of many others, which first load these. Unlike a time, a size is the same on a busy machine.

With --waits it prints, in place of the functions, the modules before which the check was silent longest, in seconds by the clock: what takes
time and keeps little, such as a function tied to its code over a type with large parameters. It tells something of a check from nothing alone."""
import argparse
import os
import re
from collections import Counter
from typing import Iterator

TOP = os.path.realpath(os.path.join(os.path.dirname(os.path.abspath(__file__)), ".."))
MEGABYTE = 1_000_000
# what is made for a function: its code and the states that it goes through, its goals and answers, and the proof that joins them
MADE = re.compile(
    r"\.(Lts|Proof|Tie|Goals|Answers|Code|Kinds|Carried|Met|Named|Layout|Reads|Statement|Symbol|TheImpl|TheLink|TheLaws|Given|Invariants)\b"
)


def modules_of(top: str, crate: str) -> Iterator[tuple[str, int]]:
    """The modules that a check of the crate kept, and their sizes in bytes."""
    kept = os.path.join(top, "crates", crate, "out", "incremental")
    for folder in os.listdir(kept):
        for name in os.listdir(os.path.join(kept, folder)):
            if name.endswith(".oantt"):
                yield name.removesuffix(".oantt"), os.path.getsize(os.path.join(kept, folder, name))


def kind_of(module: str) -> str:
    """What a module is for, as `Lts` for the states of a function's code."""
    found = MADE.search(module)
    return found.group(1) if found else "other"


def function_of(crate: str, module: str) -> str:
    """The function, the cycle of calls or the file of lemmas that a module was made for."""
    inner = re.sub(rf"^Rattle-{crate}(-proofs|-specs)?\.", "", module)
    return MADE.split(inner)[0]


def shown(counts: Counter, most: int) -> None:
    """Prints the largest of these sizes."""
    for name, size in counts.most_common(most):
        print(f"{size / MEGABYTE:9.1f} {name}")


def show(top: str, crate: str, most: int) -> None:
    """Prints what a check of the crate kept."""
    modules = list(modules_of(top, crate))
    kinds, functions = Counter(), Counter()
    for module, size in modules:
        kinds[kind_of(module)] += size
        functions[function_of(crate, module)] += size
    dropped = sum(size for module, size in modules if "Destruct" in module or "-drop." in module)
    total = sum(size for _, size in modules)
    print(f"{crate}: {total / MEGABYTE:.0f} MB in {len(modules)} modules, {dropped / MEGABYTE:.0f} of them for letting values go")
    shown(kinds, 8)
    print()
    shown(functions, most)


def waits(top: str, crate: str, most: int) -> None:
    """Prints how long nothing was kept before a module was, the longest first."""
    kept = os.path.join(top, "crates", crate, "out", "incremental")
    files = [entry for folder in os.scandir(kept) for entry in os.scandir(folder) if entry.name.endswith(".oantt")]
    files.sort(key=lambda entry: entry.stat().st_mtime)
    silent = [(late.stat().st_mtime - early.stat().st_mtime, late.name.removesuffix(".oantt")) for early, late in zip(files, files[1:])]
    for seconds, module in sorted(silent, reverse=True)[:most]:
        print(f"{seconds:9.1f} {module}")


def main() -> None:
    """Prints the sizes of each crate that is asked for."""
    read = argparse.ArgumentParser(description=__doc__.split("\n", maxsplit=1)[0])
    read.add_argument("crates", nargs="+", metavar="CRATE")
    read.add_argument("--top", default=TOP)
    read.add_argument("--most", type=int, default=30)
    read.add_argument("--waits", action="store_true")
    asked = read.parse_args()
    for crate in asked.crates:
        (waits if asked.waits else show)(asked.top, crate, asked.most)


if __name__ == "__main__":
    main()
