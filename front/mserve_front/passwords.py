# SPDX-License-Identifier: Apache-2.0
"""Which passwords are taken: long ones that are not the first that somebody would try."""
from __future__ import annotations

LEAST, MOST = 12, 1024
# Characters that differ, and those besides a name or a common word.
DIFFERENT, BESIDES = 5, 6
COMMON = ("password", "passwort", "qwertyuiop", "qwertzuiop", "letmein", "welcome", "iloveyou", "administrator", "changeme", "mserve", "hospital")


def fault_of(password: str, name: str) -> str:
    """Why a password is not taken for a user; empty if it is."""
    lower = password.lower()
    if not LEAST <= len(password) <= MOST:
        return f"a password has {LEAST} to {MOST} characters, and this one has {len(password)}"
    if len(set(lower)) < DIFFERENT:
        return f"a password has {DIFFERENT} different characters or more"
    if _steps(lower) * 3 >= 2 * (len(lower) - 1):
        return "the password is a row of characters that follow one another: choose several words"
    for word in (name.lower(), *COMMON):
        if len(word) > 2 and word in lower and len(lower.replace(word, "")) < BESIDES:
            return "the password is a name or a common word with little besides: choose several words"
    return ""


def _steps(text: str) -> int:
    """How many characters are the one before, the next or the last in the order of characters; 0 follows 9."""
    return sum(ord(after) - ord(before) in (-1, 0, 1) or before + after in ("90", "09") for before, after in zip(text, text[1:], strict=False))
