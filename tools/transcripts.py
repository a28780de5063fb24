#!/usr/bin/env python3
# SPDX-License-Identifier: Apache-2.0
"""Makes what the gate runs two programs on, each built by two compilers:

- `transcripts`, which plays the transcripts that lines on standard input do not show: `stdin`, the cases of transcripts/*.txt without what
  they give, `stdout`, the transcripts themselves, and in its folder `data` the settings that its lines are served by;
- `mserve`: the blocks of lines that settings of three terminals can serve one after another, as one stream, and what it answers.

With --write the files are written. Without it they are compared, and status 1 says that they are others,
or that no reply ends with one of the codes. The two that ample memory and room keep away are shown by
tests/test_memory.py (ZMEM) and tests/test_stores.py (ZSTORE)."""
import os
import re
import sys

from blocks import INDENT, SERVED, blocks
from running import TOP

CRATE, MSERVE = (os.path.join(TOP, "crates", name) for name in ("transcripts", "mserve"))
# The kinds that tests/test_transcripts.py plays over the built program.
OF_THE_PROGRAM = (*SERVED, "only", "reopened", "files", "steps")
# The kinds of settings that lines of the crate are served by.
OF_THE_CRATE = ("lines", "terminals")
CODES = ("M1 M2 M4 M6 M7 M9 M10 M11 M13 M15 M16 M17 M19 M20 M28 M58 M90 M94 "
         "ZLONG ZSYNTAX ZOVER ZARG ZSUB ZGRANT ZLOCKED ZSTEPS ZDEPTH ZLEVEL ZCHAR ZLINE ZTERM").split()


# The terminals of mserve's settings, and of each account one; a line at another terminal than 1, which those of `lines` do not have; a global.
TERMINALS, OWNERS = (1, 2, 3), (1, 3)
ELSEWHERE = re.compile(rb"^[2-9]", re.MULTILINE)
GLOBAL = re.compile(rb"\^(?:\|[^|]*\|)?([A-Za-z%][A-Za-z0-9]*)")


def cases(text):
    """The cases alone, with the comments."""
    return "".join(line for line in text.splitlines(True) if not line.startswith(INDENT))


def forgotten(block):
    """Lines that leave nothing of a block: each terminal halts, and what globals it names are killed. Each is answered by its end alone."""
    names = sorted(set(GLOBAL.findall(block.stream())))
    yield from (b"%d H\n" % terminal for terminal in TERMINALS)
    yield from (b"%d K ^%s\n" % (terminal, name) for terminal in OWNERS for name in names)


def joined():
    """A stream of the blocks that such settings serve, and the replies. One whose last line does not end comes last."""
    served = [block for block in blocks() if block.kind == "terminals" or block.kind == "lines" and not ELSEWHERE.search(block.stream())]
    whole = [block for block in served if block.stream().endswith(b"\n")]
    last = next(block for block in served if block.kind == "terminals" and block not in whole)
    stream, replies = b"", b""
    for block in whole:
        stream += block.stream()
        replies += block.replies()
        for line in forgotten(block):
            stream += line
            replies += line.split()[0] + b".\n"
    return stream + last.stream(), replies + last.replies()


def files():
    """Each file that is made, with its bytes."""
    text = "\n\n".join(block.text for block in blocks() if block.kind not in OF_THE_PROGRAM) + "\n"
    yield os.path.join(CRATE, "stdin"), cases(text).encode("ascii")
    yield os.path.join(CRATE, "stdout"), text.encode("ascii")
    for settings in (SERVED[kind] for kind in OF_THE_CRATE):
        yield os.path.join(CRATE, "data", os.path.basename(settings)), content(settings)
    stream, replies = joined()
    yield os.path.join(MSERVE, "stdin"), stream
    yield os.path.join(MSERVE, "stdout"), replies
    yield os.path.join(MSERVE, "data", "settings.toml"), content(SERVED["terminals"])


def content(path):
    """The bytes of a file; none if it is not there."""
    if not os.path.exists(path):
        return None
    with open(path, "rb") as file:
        return file.read()


def codes_not_shown():
    """The codes with which no reply to a line ends."""
    replies = b"".join(block.replies() for block in blocks() if block.kind in SERVED)
    shown = set(re.findall(rb"^\d+!(\w+)$", replies, re.MULTILINE))
    return [code for code in CODES if code.encode() not in shown]


def main():
    for path, wanted in files():
        if "--write" in sys.argv:
            os.makedirs(os.path.dirname(path), exist_ok=True)
            with open(path, "wb") as file:
                file.write(wanted)
        elif content(path) != wanted:
            sys.exit(f"transcripts: {os.path.relpath(path, TOP)} is not what transcripts/ has: run tools/transcripts.py --write")
    if missing := codes_not_shown():
        sys.exit(f"transcripts: no reply ends with {' or '.join(missing)}")


main()
