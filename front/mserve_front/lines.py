# SPDX-License-Identifier: Apache-2.0
"""One line of M, as it may be sent.

The server tells users apart by the terminal that a line begins with, so no user's text may end one line and begin another. `Line` cannot be
made of a text that could, and nothing but a `Line` is ever sent."""
from __future__ import annotations

import re
from dataclasses import dataclass

from mserve_client.escape import NotText, stored_line

LONGEST = 255
_PLAIN = re.compile(rb"[\x01-\x09\x0b\x0c\x0e-\x7f]*")


class LineRefused(Exception):
    """The text is not sent: `code` is the code that the server has for such a line, `why` says it in words."""

    def __init__(self, code: str, why: str) -> None:
        super().__init__(f"{code}: {why}")
        self.code = code
        self.why = why


@dataclass(frozen=True, slots=True)
class Line:
    """The bytes of one line: at most 255, each from 1 to 127, and no line feed or carriage return. Raises `LineRefused` for any other."""

    data: bytes

    def __post_init__(self) -> None:
        if len(self.data) > LONGEST:
            raise LineRefused("ZLINE", f"a line has at most {LONGEST} characters, and this one has {len(self.data)}")
        if not _PLAIN.fullmatch(self.data):
            raise LineRefused("ZCHAR", "a line has ASCII characters alone, and no line feed, carriage return or NUL: write $CHAR(10) for one")

    @classmethod
    def of(cls, text: str) -> Line:
        """The line of a text. A character over 127 counts as the bytes that it has in UTF-8."""
        return cls(text.encode("utf-8", "surrogatepass"))

    @classmethod
    def in_utf_8(cls, data: bytes) -> Line:
        """The line of bytes of UTF-8: each character over 127 within a string becomes an escape of ASCII. Raises `LineRefused` for other bytes too."""
        try:
            return cls(stored_line(data.decode()).encode())
        except (UnicodeDecodeError, NotText):
            raise LineRefused("ZCHAR", "the line has bytes that are no UTF-8") from None

    def sent_by(self, terminal: int) -> bytes:
        """What goes to the server."""
        return b"%d %s\n" % (terminal, self.data)


HALT = Line(b"H")
