# SPDX-License-Identifier: Apache-2.0
"""Texts that are not ASCII, as ASCII: each character over 127 is one escape, `~e9;`, its code in small hexadecimal digits.

Each text of ASCII has one shown form, and each text of Unicode one stored form: `shown` and `stored` are each other's inverse, both ways. An
escape that is in a text by itself gets a `~7e;` for its `~` (`~7e;e9;`), and one that has some gets one more. Whatever is no whole escape is
itself: `~`, `~e`, `~E9;`, `~09;`.

The front takes it from here."""
from __future__ import annotations

import re

# The code of a character over 127, without zeros in front: no surrogate, and none over 10FFFF.
_CODE = r"(?:[89a-f][0-9a-f]|[1-9a-f][0-9a-f]{2}|(?:[1-9abcef][0-9a-f]|d[0-7])[0-9a-f]{2}|[1-9a-f][0-9a-f]{4}|10[0-9a-f]{4})"
_ESCAPE = re.compile(rf"~((?:7e;)*)({_CODE});")
_SHOWN = re.compile(rf"[^\x00-\x7f]|~(?=(?:7e;)*{_CODE};)")
_LITERAL = re.compile(r'"(?:[^"]|"")*"?')
_OVER = re.compile(r"[^\x00-\x7f]")


class NotText(ValueError):
    """A text that has bytes which are no UTF-8."""


def stored(text: str) -> str:
    """The ASCII that stands for a text of Unicode. NotText if it has a surrogate, as bytes that are no UTF-8 leave."""
    def escape(found: re.Match[str]) -> str:
        code = ord(found[0])
        if 0xD800 <= code < 0xE000:
            raise NotText(f"the character at place {found.start() + 1} is no UTF-8")
        return f"~{code:x};"
    return _SHOWN.sub(escape, text) if "~" in text or not text.isascii() else text


def shown(text: str) -> str:
    """The text of Unicode that ASCII stands for."""
    return _ESCAPE.sub(lambda found: f"~{found[1][3:]}{found[2]};" if found[1] else chr(int(found[2], 16)), text) if "~" in text else text


def stored_line(line: str) -> str:
    """A line of M of which the strings are put into their stored form. What is outside of strings is as it was."""
    return _LITERAL.sub(lambda found: stored(found[0]), line) if "~" in line or not line.isascii() else line


def shown_line(line: str) -> str:
    """A line of M of which the strings are put into their shown form."""
    return _LITERAL.sub(lambda found: shown(found[0]), line) if "~" in line else line
