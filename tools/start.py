#!/usr/bin/env python3
# SPDX-License-Identifier: Apache-2.0
"""What `./mserve` and `./mislands` start if they can't take their quick way: finds the program, or has it built, and runs it with the words given.

    tools/start.py PROGRAM [WORD ..]

The released program (release/) is taken if it was built from these sources. It is unpacked once; `release/unpacked/paths` then lists what was
compared, so that the scripts see by the times of these files alone whether it still is. Otherwise the programs are built from the sources by the
Rattle kit (tools/build.py). `./mserve --version` prints the version, the digest of the sources and which of the two it runs."""
import os
import platform
import shutil
import sys
import time

import build
import release
from sources import CRATES, PROGRAMS, TOP, folders_of, program_crates, sources_digest

STATUS = 1


def fail(text: str) -> None:
    """Ends the start with one line."""
    print(f"mserve: {text}", file=sys.stderr)
    sys.exit(STATUS)


def require_system() -> None:
    """The program, and the kit that builds it, are for x86-64 Linux."""
    if (platform.system(), platform.machine()) != ("Linux", "x86_64"):
        fail(f"it runs on x86-64 Linux, and this is {platform.machine()} {platform.system()}: use a machine, a container or a virtual machine of that kind "
             "(docs/INSTALL.md)")


def note_compared(start: int) -> None:
    """Lists, for the quick way of `./mserve`, what the release was compared with at the time `start`, in nanoseconds. A read-only tree has no such way."""
    if release.unpack_folder() != os.path.join(TOP, release.UNPACKED):
        return
    watched = [CRATES, *map(release.packed, PROGRAMS), release.RECORD, *(folder for crate in program_crates() for folder in folders_of(crate))]
    new = os.path.join(TOP, release.UNPACKED, f"paths.{os.getpid()}")
    with open(new, "w", encoding="utf-8") as file:
        file.write("".join(f"{path}\n" for path in watched))
    os.utime(new, ns=(start, start))
    os.replace(new, os.path.join(TOP, release.UNPACKED, "paths"))


def released_program(program: str, digest: str, start: int) -> str | None:
    """The path of a released program, unpacked; None if there is no release of these sources."""
    record = release.read_record()
    if record is None or record.sources != digest:
        return None
    paths = release.unpack(record)
    note_compared(start)
    return paths[program]


def built_program(program: str, digest: str) -> str:
    """The path of a program that is built from these sources, now if it must be."""
    if not build.is_built(digest):
        reason = "there is no release" if release.read_record() is None else "the sources are not those of the release"
        if shutil.which("rt") is None:
            fail(f"{reason}, and the Rattle kit (`rt`) that builds {program} is not on the path: see docs/INSTALL.md")
        print(f"mserve: {reason}, so the programs are proved and built from them: {build.FIRST_TIME} the first time", file=sys.stderr, flush=True)
        build.build(digest)
    return build.path_of(program)


def print_version(digest: str) -> None:
    record = release.read_record()
    with open(os.path.join(TOP, "VERSION"), encoding="ascii") as file:
        version = file.read().strip()
    if record is not None and record.sources == digest:
        origin = f"the released program, proved and built by {record.kit}"
    elif build.is_built(digest):
        origin = "a program built from these sources on this machine"
    else:
        origin = "none yet: no release is of these sources; the next start builds one"
    print(f"mserve {version}\nsources {digest}\nprogram {origin}")


def main() -> None:
    if sys.argv[1:2] not in [[name] for name in PROGRAMS]:
        sys.exit(__doc__)
    name, *words = sys.argv[1:]
    start = time.time_ns()
    require_system()
    digest = sources_digest()
    if words == ["--version"]:
        print_version(digest)
        return
    program = released_program(name, digest, start) or built_program(name, digest)
    os.execv(program, [program, *words])


if __name__ == "__main__":
    try:
        main()
    except (OSError, release.Damaged) as error:
        fail(str(error))
