#!/usr/bin/env python3
# SPDX-License-Identifier: Apache-2.0
"""Proves and builds the programs, unless they were built from what is there: `tools/build.py` writes crates/mserve/out/mserve and
crates/mislands/out/mislands. It takes no words.

The crates that they depend on are copied to a temporary folder, without their edits, and proved there side by side (tools/chain.py). What passes is
kept by the kit, so a build that was cut off goes on from there, a later one proves only the crates that changed and those above them, and
`./test` takes it over. A digest of what was copied is kept beside each program, so that a change made during the build is seen by the next call."""
import os
import shutil
import sys
import tempfile

import chain
from sources import PROGRAMS, TOP, copy_crates, program_crates, sources_digest

# How long a build from nothing takes on four processors. README.md and docs/INSTALL.md say the same, which tools/documents.py sees to.
FIRST_TIME = "an hour or more"


def path_of(program: str, top: str = TOP) -> str:
    """Where a program is built."""
    return os.path.join(top, "crates", program, "out", program)


def note_of(program: str) -> str:
    """The file with the digest of what a program was built from."""
    return f"{path_of(program)}.built"


def noted(program: str) -> str:
    """The digest of what a program was built from; empty if it is not noted."""
    try:
        with open(note_of(program), encoding="ascii") as file:
            return file.read()
    except OSError:
        return ""


def is_built(digest: str) -> bool:
    """Whether all programs are there, built from sources with this digest."""
    return all(noted(program) == digest and os.path.exists(path_of(program)) for program in PROGRAMS)


def say(text: str) -> None:
    print(f"mserve: {text}", file=sys.stderr, flush=True)


def prove(crates: dict[str, str], room: str) -> None:
    """Proves and builds the copy, and says which crates are done."""
    status, closing = chain.prove(room, len(crates), say)
    if status:
        sys.exit("\n".join(closing.splitlines()[-60:]) + "\nmserve: the programs were not built")


def build(digest: str) -> None:
    """Proves and builds the programs from the sources, whose digest this is."""
    crates = program_crates()
    with tempfile.TemporaryDirectory(prefix="mserve-build-") as room:
        copy_crates(crates, room)
        if sources_digest() != digest:
            sys.exit("mserve: the sources changed while they were copied: start again")
        prove(crates, room)
        for program in PROGRAMS:
            os.makedirs(os.path.dirname(path_of(program)), exist_ok=True)
            shutil.copy2(path_of(program, room), f"{path_of(program)}.new")
    for program in PROGRAMS:
        os.replace(f"{path_of(program)}.new", path_of(program))
        with open(note_of(program), "w", encoding="ascii") as file:
            file.write(digest)
    say("built")


def main(words: list[str]) -> None:
    if {"-h", "--help"} & {*words}:
        print(__doc__)
    elif words:
        sys.exit(f"build: {words[0]} means nothing here: tools/build.py takes no words")
    else:
        digest = sources_digest()
        if not is_built(digest):
            build(digest)


if __name__ == "__main__":
    chain.end_in_order()
    main(sys.argv[1:])
