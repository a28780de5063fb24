# SPDX-License-Identifier: Apache-2.0
"""Command lines that are refused: status 2, usage on the standard error, and nothing is read or written. Words that are not UTF-8 are refused
without a text, since none could name them."""
from __future__ import annotations

import subprocess

import pytest
from running import PROGRAM, run, run_words
from support import LINE, REPLY

RUN = ["run", "--settings", "a", "--store"]
SERVE = ["serve", "--settings", "a", "--store", "memory"]
# Words that are refused, and the first line of what is said.
WORDS = [
    ([], "error: 'mserve' requires a subcommand but one was not provided"),
    (["walk"], "error: unrecognized subcommand 'walk'"),
    (["RUN"], "error: unrecognized subcommand 'RUN'"),
    (["run"], "error: the following required arguments were not provided:"),
    (["run", "--settings", "a"], "error: the following required arguments were not provided:"),
    (RUN, "error: a value is required for '--store <memory|FILE>' but none was supplied"),
    ([*RUN, "memory", "more"], "error: unexpected argument 'more' found"),
    ([*RUN, "memory", "--only"], "error: a value is required for '--only <ACCOUNT>' but none was supplied"),
    ([*RUN, "memory", "--port", "1"], "error: unexpected argument '--port' found"),
    ([*RUN, "memory", "--store", "b"], "error: the argument '--store <memory|FILE>' cannot be used multiple times"),
    ([*SERVE, "--port", "1"], "error: the following required arguments were not provided:"),
    ([*SERVE, "--port", "0", "--connections", "1"], "error: invalid value '0' for '--port <PORT>': 0 is not in 1..=65535"),
    ([*SERVE, "--port", "65536", "--connections", "1"], "error: invalid value '65536' for '--port <PORT>': 65536 is not in 1..=65535"),
    ([*SERVE, "--port", "x", "--connections", "1"], "error: invalid value 'x' for '--port <PORT>': invalid digit found in string"),
    ([*SERVE, "--port", "1", "--connections", "0"], "error: invalid value '0' for '--connections <COUNT>': 0 is not in 1..=1000000"),
    ([*SERVE, "--port", "1", "--connections", "1000001"], "error: invalid value '1000001' for '--connections <COUNT>': 1000001 is not in 1..=1000000"),
    ([*SERVE, "--only", "A", "--port", "1", "--connections", "1"], "error: unexpected argument '--only' found"),
    (["--help"], "A shared M server with isolated accounts"),
    (["help", "run"], "Answers the lines of the standard input on the standard output"),
]
NOT_UTF_8 = [[b"\xff"], [b"run", b"\xff"], [b"ru\xffn"], [b"\xff", b"run"], [b"run\x80"], [*run_words()[1:], b"\xff"]]


def ended(words: list[str] | list[bytes]) -> tuple[int, bytes, bytes]:
    """The status, the output and the errors of a run by these words."""
    ran = subprocess.run([PROGRAM, *words], input=LINE, capture_output=True, timeout=60)
    return ran.returncode, ran.stdout, ran.stderr


@pytest.mark.parametrize(("words", "first"), WORDS, ids=[" ".join(words) or "none" for words, _ in WORDS])
def test_refused_words(words: list[str], first: str) -> None:
    status, output, errors = ended(words)
    assert (status, output, errors.decode().split("\n")[0].rstrip()) == (2, b"", first)


@pytest.mark.parametrize("words", NOT_UTF_8, ids=map(str, range(len(NOT_UTF_8))))
def test_words_that_are_not_utf_8(words: list[bytes]) -> None:
    assert ended(words) == (2, b"", b"")


def test_words_that_are_taken() -> None:
    """The program is seen to run."""
    assert run(LINE) == (0, REPLY, b"")
