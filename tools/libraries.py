#!/usr/bin/env python3
# SPDX-License-Identifier: Apache-2.0
"""Puts the libraries that `rt ci` proved on this machine into this clone, so that `rt check` of a crate begins there.

    tools/libraries.py            those of all crates
    tools/libraries.py [NAME ..]  those of these crates, and of the crates below them

`rt ci` and the chain keep what they prove for the gate alone: in a clone that has just been made, `rt check` of a high crate would prove all crates
below it a second time, an hour's work. A crate whose sources differ from what was kept, and each above it, gets none: `rt check` proves these. What
is in a crate's `out/rlib` is replaced, and what `rt check` keeps beside it stays. The status is 0, also if some crates got none."""
import functools
import os
import shutil
import sys
from collections.abc import Callable, Sequence

import kit
from sources import TOP, crates_named


def place(crates: Sequence, kept, stamp_of: Callable[[object], str]) -> tuple[list[str], list[str]]:
    """Puts what is kept of each crate, lowest first, into its folder. Returns the names of those that got it, and of those that did not."""
    placed: list[str] = []
    missing: list[str] = []
    for crate in crates:
        shutil.rmtree(os.path.join(crate.folder, "out", "rlib"), ignore_errors=True)
        is_ready = all(below.name in placed for below in crate.below())
        if is_ready and kept.give(crate, False, kept.key(crate)):
            kept.is_built(crate)
            with open(os.path.join(crate.folder, "out", "rlib", "stamp"), "w", encoding="utf-8") as file:
                file.write(stamp_of(crate))
            placed.append(crate.name)
        else:
            missing.append(crate.name)
    return placed, missing


def main(words: list[str]) -> int:
    """Places the libraries of the crates that are named. The status is 2 for words that it does not know, and 1 if this kit keeps nothing."""
    names = crates_named(words, "libraries", __doc__)
    if names is None:
        return 2
    module = kit.load("no library is placed")
    if module is None:
        return 1
    os.chdir(TOP)
    module.Crate.allowed = module.handles_of(TOP)
    module.rtlib.guarded()
    crates = [crate for crate in module.rtlib.crates_below(TOP) if crate.name in names and not crate.is_program]
    crates.sort(key=lambda crate: len(crate.below()))
    # each stamp reads those of all crates below, so each is computed once
    module.rtlib.Crate.stamp = functools.cache(module.rtlib.Crate.stamp)
    placed, missing = place(crates, module.Kept(crates), lambda crate: crate.stamp())
    print(f"libraries: {len(placed)} placed" + (f"; none was kept of {' '.join(missing)}" if missing else ""))
    return 0


if __name__ == "__main__":
    if {"-h", "--help"} & {*sys.argv[1:]}:
        print(__doc__)
        sys.exit(0)
    sys.exit(main(sys.argv[1:]))
