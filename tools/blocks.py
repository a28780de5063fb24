# SPDX-License-Identifier: Apache-2.0
"""The blocks of transcripts/, as scripts play them: docs/TESTING.md says what a block and a case are."""
import os
import re
from dataclasses import dataclass

from running import TOP

FOLDER = os.path.join(TOP, "transcripts")
SETTINGS = os.path.join(TOP, "tests", "settings")
# The kinds of blocks of which each case is a line of the wire, and the settings that they are served by.
SERVED = {
    "lines": os.path.join(SETTINGS, "one_account.toml"),
    "terminals": os.path.join(SETTINGS, "three_terminals.toml"),
    "accounts": os.path.join(SETTINGS, "four_accounts.toml"),
    "languages": os.path.join(SETTINGS, "two_languages.toml"),
    "libraries": os.path.join(SETTINGS, "libraries.toml"),
}
# Those by settings of several accounts.
OF_SEVERAL = [kind for kind in SERVED if kind != "lines"]
# The settings of the blocks of which one account alone is shown its part, and that account.
ONLY = SERVED["terminals"], "ALICE"
ESCAPE = re.compile(r"\{(?:(\d+)\*([^}]*)|([0-9a-f]{2}))?\}")
INDENT = "    "


@dataclass
class Block:
    """A block: the name of its file, its kind, its name, its text as it is there, and each case with the lines that it gives."""
    file: str
    kind: str
    name: str
    text: str
    cases: list

    def stream(self):
        """The bytes of all its lines of the wire."""
        return b"".join(line_bytes(case) for case, _ in self.cases)

    def replies(self):
        """The bytes of all that its cases give."""
        return b"".join(given_bytes(given) for _, given in self.cases)


def blocks():
    """All blocks of all files, in their order."""
    for name in sorted(os.listdir(FOLDER)):
        with open(os.path.join(FOLDER, name), encoding="ascii", newline="\n") as file:
            for text in file.read().strip("\n").split("\n\n"):
                yield block_of(name, text)


def block_of(file, text):
    """The block of a file with this text. A line after `# ` is a comment, and one that is indented is given by the case above it, or by an empty case where
    there is none."""
    header, *lines = text.split("\n")
    kind, _, name = header.removeprefix("== ").partition(": ")
    cases = []
    for line in lines:
        if line.startswith(INDENT):
            cases = cases or [("", [])]
            cases[-1][1].append(line.removeprefix(INDENT))
        elif not line.startswith("# "):
            cases.append((line, []))
    return Block(file, kind, name, text, cases)


def text_bytes(case):
    """The bytes that a case stands for: `{}` for none, `{9*ab}` for `ab` nine times, `{0d}` for the byte 13."""
    def plain(found):
        return found[2] * int(found[1]) if found[1] else chr(int(found[3], 16)) if found[3] else ""
    return ESCAPE.sub(plain, case).encode("latin1")


def line_bytes(case):
    """The bytes of a line of the wire: a line feed ends it, but where `{end}` is at its end."""
    unfinished = case.endswith("{end}")
    return text_bytes(case.removesuffix("{end}")) + (b"" if unfinished else b"\n")


def given_bytes(given):
    """The bytes that a case gives."""
    return "".join(line + "\n" for line in given).encode("ascii")
