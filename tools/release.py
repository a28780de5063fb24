#!/usr/bin/env python3
# SPDX-License-Identifier: Apache-2.0
"""The released programs, under release/: `mserve.xz` and `mislands.xz`, and `record`, which says what they are and what they were built from.

    tools/release.py check    whether the release is of this version and of these sources, and whole; less than a second
    tools/release.py make     makes the release from the programs that were built of these sources (tools/build.py builds them if need be)
    tools/release.py compare  whether the programs that were built of these sources are the released ones, byte for byte

The programs are stripped (`strip` of binutils). If they were built by another kit than the release, their bytes may be others, and `compare`
says so and compares nothing."""
import lzma
import os
import subprocess
import sys
import tempfile
from dataclasses import astuple, dataclass, fields

import build
from sources import PROGRAMS, TOP, content, sources_digest, sum_of

RECORD = os.path.join("release", "record")
UNPACKED = os.path.join("release", "unpacked")


class Damaged(Exception):
    """The files under release/ don't fit one another."""


@dataclass(frozen=True)
class Record:
    """What release/record says, a line for each: `version 0.1.0`, and so on."""

    version: str
    system: str
    mserve: str  # the SHA-256 of each program, unpacked
    mislands: str
    sources: str  # the digest of the sources (tools/sources.py)
    kit: str  # what `rt version` printed


def packed(program: str) -> str:
    """The file of a released program, relative to the top."""
    return os.path.join("release", f"{program}.xz")


def read_record() -> Record | None:
    """The record; None if there is no release."""
    try:
        text = content(RECORD).decode("ascii")
    except FileNotFoundError:
        return None
    said = dict(line.split(" ", 1) for line in text.splitlines())
    try:
        return Record(**said)
    except TypeError:
        raise Damaged(f"{RECORD} does not have the lines of a release") from None


def write_record(record: Record) -> None:
    lines = [f"{field.name} {value}\n" for field, value in zip(fields(record), astuple(record))]
    with open(os.path.join(TOP, RECORD), "w", encoding="ascii") as file:
        file.writelines(lines)


def released_bytes(record: Record, program: str) -> bytes:
    """A released program, if it is the one that the record names."""
    try:
        data = lzma.decompress(content(packed(program)))
    except (OSError, lzma.LZMAError) as error:
        raise Damaged(f"{packed(program)} cannot be unpacked: {error}") from None
    if sum_of(data) != getattr(record, program):
        raise Damaged(f"{packed(program)} is not the program that {RECORD} names")
    return data


def unpack_folder() -> str:
    """Where the programs are unpacked: beside the release, or in the user's cache if the tree is read-only."""
    if os.access(os.path.join(TOP, "release"), os.W_OK):
        return os.path.join(TOP, UNPACKED)
    cache = os.environ.get("XDG_CACHE_HOME") or os.path.expanduser("~/.cache")
    return os.path.join(cache, "mserve")


def unpack(record: Record) -> dict[str, str]:
    """The path of each released program. One that is not there yet, or is another, is unpacked."""
    return {program: unpacked(record, program) for program in PROGRAMS}


def unpacked(record: Record, program: str) -> str:
    """The path of a released program, which is unpacked if need be."""
    folder = unpack_folder()
    path = os.path.join(folder, program)
    if os.access(path, os.X_OK) and sum_of(content(path)) == getattr(record, program):
        return path
    os.makedirs(folder, mode=0o700, exist_ok=True)
    new = f"{path}.{os.getpid()}"
    with open(new, "wb") as file:
        file.write(released_bytes(record, program))
    os.chmod(new, 0o755)
    os.replace(new, path)
    return path


def version() -> str:
    return content("VERSION").decode("ascii").strip()


def kit() -> str:
    """What `rt version` prints."""
    return subprocess.run(["rt", "version"], check=True, capture_output=True, text=True).stdout.strip()


def stripped(path: str) -> bytes:
    """The bytes of a program without its symbols."""
    with tempfile.TemporaryDirectory() as folder:
        copy = os.path.join(folder, "stripped")
        subprocess.run(["strip", "--strip-all", "-o", copy, path], check=True)
        with open(copy, "rb") as file:
            return file.read()


def check() -> str | None:
    """What is wrong with the release; None if it is of these sources, and whole."""
    record = read_record()
    if record is None:
        return "there is no release: run tools/release.py make"
    if record.version != version():
        return f"the release is of version {record.version}, and VERSION says {version()}: run tools/release.py make"
    if record.sources != sources_digest():
        return "the release was built from other sources than these: run tools/release.py make"
    for program in PROGRAMS:
        released_bytes(record, program)
    return None


def make() -> str | None:
    digest = sources_digest()
    if not build.is_built(digest):
        build.build(digest)
    programs = {program: stripped(build.path_of(program)) for program in PROGRAMS}
    os.makedirs(os.path.join(TOP, "release"), exist_ok=True)
    for program, data in programs.items():
        with open(os.path.join(TOP, packed(program)), "wb") as file:
            file.write(lzma.compress(data, preset=9 | lzma.PRESET_EXTREME))
    sums = {program: sum_of(data) for program, data in programs.items()}
    write_record(Record(version=version(), system="x86_64 Linux", sources=digest, kit=kit(), **sums))
    return None


def compare() -> str | None:
    """What differs between the programs that were built and the released ones."""
    record = read_record()
    if record is None:
        return "there is no release"
    if record.kit != kit():
        print(f"release: not compared: the release was built by {record.kit}, and this kit is {kit()}")
        return None
    for program in PROGRAMS:
        if not os.path.exists(build.path_of(program)):
            return f"{build.path_of(program)} was not built"
        if stripped(build.path_of(program)) != released_bytes(record, program):
            return f"{program}, built from these sources, is not the released one"
    print(f"release: {' and '.join(PROGRAMS)}, built from these sources, are the released ones, byte for byte")
    return None


def main() -> None:
    tasks = {"check": check, "make": make, "compare": compare}
    if len(sys.argv) != 2 or sys.argv[1] not in tasks:
        sys.exit(__doc__)
    try:
        fault = tasks[sys.argv[1]]()
    except (OSError, Damaged, subprocess.CalledProcessError) as error:
        fault = str(error)
    if fault is not None:
        sys.exit(f"release: {fault}")


if __name__ == "__main__":
    main()
