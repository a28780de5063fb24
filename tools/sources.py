# SPDX-License-Identifier: Apache-2.0
"""What the programs are built from: their crates, the files of these, one digest of them all, and copies of crates to prove.

The digest covers crates.txt and, of each crate that a program depends on, the folders src/, specs/ and proofs/. A change to a document,
a tool, a test or another crate's files leaves it as it is."""
import hashlib
import os
import shutil
import sys
from collections.abc import Iterator, Mapping, Sequence

TOP = os.path.realpath(os.path.join(os.path.dirname(os.path.abspath(__file__)), ".."))
CRATES = "crates.txt"
# The programs, each of the crate of its name.
PROGRAMS = ("mserve", "mislands")
PARTS = ("src", "specs", "proofs")
# What the gate runs a program on once it is built.
RUN = ("args", "stdin", "stdout", "status", "data")


def crates_with_below(names: Sequence[str] = ()) -> dict[str, str]:
    """These crates, or all if none is named, and those that they depend on, each with its line of crates.txt, in the order of that file.
    Raises KeyError with the name of one that is none."""
    with open(os.path.join(TOP, CRATES), encoding="utf-8") as file:
        lines = [line.strip() for line in file if line.strip() and not line.startswith("#")]
    lines_by_crate = {line.partition(":")[0]: line for line in lines}
    wanted, left = set(), [*(names or lines_by_crate)]
    for name in left:
        if name not in lines_by_crate:
            raise KeyError(name)
    while left:
        crate = left.pop()
        if crate in lines_by_crate and crate not in wanted:
            wanted.add(crate)
            left += lines_by_crate[crate].partition(":")[2].split()
    return {crate: line for crate, line in lines_by_crate.items() if crate in wanted}


def crates_named(words: Sequence[str], script: str, page: str | None) -> dict[str, str] | None:
    """The crates that a script's words name, with those below them. None if one is no crate: then that is said, with the script's page."""
    try:
        return crates_with_below(words)
    except KeyError as lacking:
        print(f"{script}: {lacking.args[0]} is no crate of crates.txt\n\n{page}", file=sys.stderr)
        return None


def program_crates() -> dict[str, str]:
    """The crates that the programs depend on, themselves among them."""
    return crates_with_below(PROGRAMS)


def edits_of(crate: str, folder: str) -> list[str]:
    """The wrong bodies in a crate's folder `must-fail` or `edits`, by their paths relative to the top."""
    place = os.path.join("crates", crate, folder)
    found = os.listdir(os.path.join(TOP, place)) if os.path.isdir(os.path.join(TOP, place)) else []
    return [os.path.join(place, name) for name in sorted(found)]


def copy_path(path: str, room: str) -> None:
    """Copies a file or a folder of the tree, if it exists, to the same place below the room."""
    source, copy = os.path.join(TOP, path), os.path.join(room, path)
    if os.path.isdir(source):
        shutil.copytree(source, copy)
    elif os.path.exists(source):
        os.makedirs(os.path.dirname(copy), exist_ok=True)
        shutil.copyfile(source, copy)


def copy_crates(crates: Mapping[str, str], room: str, edits: Mapping[str, Sequence[str]] = {}) -> None:
    """Copies what is proved and run of these crates, each given with its line of crates.txt, and puts these edits into their must-fail/."""
    for crate in crates:
        for part in (*PARTS, *RUN):
            copy_path(os.path.join("crates", crate, part), room)
    for crate, paths in edits.items():
        folder = os.path.join(room, "crates", crate, "must-fail")
        os.makedirs(folder)
        for path in paths:
            shutil.copy(os.path.join(TOP, path), folder)
    copy_path("HANDLES", room)
    # the kit takes the top of a repository for one
    os.mkdir(os.path.join(room, ".git"))
    with open(os.path.join(room, CRATES), "w", encoding="utf-8") as file:
        file.writelines(f"{line}\n" for line in crates.values())


def folders_of(crate: str) -> list[str]:
    """The folders of a crate that the digest covers, relative to the top."""
    folders = [os.path.join("crates", crate, part) for part in PARTS]
    return [folder for folder in folders if os.path.isdir(os.path.join(TOP, folder))]


def files_of(crate: str) -> Iterator[str]:
    """The files of a crate that the digest covers, relative to the top."""
    for covered in folders_of(crate):
        for folder, _, names in os.walk(os.path.join(TOP, covered)):
            yield from (os.path.relpath(os.path.join(folder, name), TOP) for name in names)


def sum_of(data: bytes) -> str:
    return hashlib.sha256(data).hexdigest()


def content(path: str) -> bytes:
    """The bytes of a file, whose path is absolute or relative to the top."""
    with open(os.path.join(TOP, path), "rb") as file:
        return file.read()


def sources_digest() -> str:
    """The SHA-256, in hexadecimal, of what `sha256sum` prints of these files, sorted by the bytes of their paths."""
    paths = sorted([CRATES, *(path for crate in program_crates() for path in files_of(crate))], key=os.fsencode)
    return sum_of("".join(f"{sum_of(content(path))}  {path}\n" for path in paths).encode())
