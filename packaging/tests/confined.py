# SPDX-License-Identifier: Apache-2.0
"""Runs a unit's command under what the unit allows, as far as that can be had without systemd: `confined.py UNIT WORDS..`.

The calls of SystemCallFilter with the groups that systemd has, the families of RestrictAddressFamilies, and MemoryDenyWriteExecute. It has no
rights any more when it starts, and `no_new_privs` is set."""
from __future__ import annotations

import ctypes
import errno
import os
import re
import socket
import subprocess
import sys

import seccomp

PR_SET_MDWE, REFUSE_EXEC_GAIN = 65, 1


def calls_of(word: str) -> set[str]:
    """The calls of a word of SystemCallFilter: a call, or a group with those that it has."""
    if not word.startswith("@"):
        return {word}
    listed = subprocess.run(["systemd-analyze", "--no-pager", "syscall-filter", word], capture_output=True, text=True, check=True).stdout.splitlines()[1:]
    parts = [line.strip() for line in listed if line.strip() and not line.strip().startswith("#")]
    return set().union(*map(calls_of, parts))


def allowed_calls(lines: list[str]) -> set[str]:
    """The calls that the lines of SystemCallFilter allow, in their order."""
    allowed: set[str] = set()
    for line in lines:
        named = set().union(*map(calls_of, line.removeprefix("~").split()))
        allowed = allowed - named if line.startswith("~") else allowed | named
    return allowed


def confine(text: str) -> None:
    """Applies what a unit's text says to this process, for good."""
    keys = re.findall(r"^(\w+)=(.*)$", text, re.MULTILINE)
    if ("MemoryDenyWriteExecute", "yes") in keys and ctypes.CDLL(None, use_errno=True).prctl(PR_SET_MDWE, REFUSE_EXEC_GAIN, 0, 0, 0):
        raise OSError(ctypes.get_errno(), "prctl(PR_SET_MDWE)")
    rules = seccomp.SyscallFilter(defaction=seccomp.ERRNO(errno.EPERM))
    for call in allowed_calls([value for key, value in keys if key == "SystemCallFilter"]) - {"socket"}:
        try:
            rules.add_rule(seccomp.ALLOW, call)
        except (RuntimeError, ValueError):
            # A call of other machines.
            continue
    for family in " ".join(value for key, value in keys if key == "RestrictAddressFamilies").split():
        rules.add_rule(seccomp.ALLOW, "socket", seccomp.Arg(0, seccomp.EQ, int(getattr(socket, family))))
    rules.load()


if __name__ == "__main__":
    with open(sys.argv[1], encoding="utf-8") as file:
        confine(file.read())
    os.execvp(sys.argv[2], sys.argv[2:])
