# SPDX-License-Identifier: Apache-2.0
"""Edits, tried over the libraries that the gate has just proved in this tree.

A kit whose `rt ci` keeps nothing leaves the libraries that it proved in `crates/NAME/out`, as statements that none of its other commands takes. Its
`rt must-fail` would prove all crates below a second time, which takes as long as the gate. So its own trial is called here, as the gate calls it."""
import contextlib
import os
from collections.abc import Mapping, Sequence

import kit
from sources import TOP, sources_digest

# What the gate proved: the digest of the sources. `rt ci` clears the folder when it starts.
NOTE = os.path.join("crates", "mserve", "out", "gate-proved")


def note(digest: str) -> None:
    """Notes that the gate passed over the sources with this digest."""
    with open(os.path.join(TOP, NOTE), "w", encoding="ascii") as file:
        file.write(digest)


def are_there() -> bool:
    """Whether the gate's libraries are those of the sources as they stand."""
    try:
        with open(os.path.join(TOP, NOTE), encoding="ascii") as file:
            return file.read() == sources_digest()
    except OSError:
        return False


def tried(edits: Mapping[str, Sequence[str]]) -> str | None:
    """What the kit prints of these edits, by crate; None if the kit has another form than is known."""
    module = kit.load_older()
    if module is None:
        return None
    told, place = [], os.getcwd()
    library = module.rtlib
    library.stop, library.Crate = module.stop, module.Crate
    module.Crate.cuts_libraries = True
    os.chdir(TOP)
    try:
        module.Crate.allowed = module.handles_of(TOP)
        library.guarded()
        with open(os.devnull, "w", encoding="utf-8") as nothing, contextlib.redirect_stdout(nothing):
            for crate in library.crates_below(TOP):
                paths = [os.path.join(TOP, path) for path in edits.get(crate.name, ())]
                told += [f"rt: {text}" for _, text in module.must_fail_all(crate, paths, ["--jobs", "2"])]
    finally:
        os.chdir(place)
    return "\n".join(told)
