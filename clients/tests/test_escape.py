# SPDX-License-Identifier: Apache-2.0
"""The stored and the shown form of texts are each other's inverse, both ways; the codes are those of all characters over 127."""
from __future__ import annotations

import re
from random import Random

import pytest
from hypothesis import given
from hypothesis import strategies as st
from mserve_client import escape
from mserve_client.escape import NotText, shown, shown_line, stored, stored_line

PARTS = ["~", "7e;", "~7e;", "e9;", "~e9;", "~7e;e9;", ";", "e", "9", "7", "f", "10ffff;", "~d800;", "~dfff;", "~d7ff;", "~80;", "~7f;", "~110000;", "~E9;",
         "~0e9;", '"', " "]


@pytest.mark.parametrize(("text", "kept"), [
    ("Müller", "M~fc;ller"), ("陈伟", "~9648;~4f1f;"), ("\U0001f600", "~1f600;"), ("~e9;", "~7e;e9;"), ("~7e;e9;", "~7e;7e;e9;"), ("~", "~"), ("~e", "~e"),
    ("~E9;", "~E9;"),
    ("~~é", "~~~e9;"), ("\x80", "~80;"), ("\x7f", "\x7f"), ("~7e;", "~7e;"), ("", ""),
])
def test_forms_of_a_text(text: str, kept: str) -> None:
    assert (stored(text), shown(kept)) == (kept, text)


def test_drawn_texts_come_back(times: int) -> None:
    draw = Random(74)
    for _ in range(20_000 * times):
        kept = "".join(draw.choices(PARTS, k=draw.randint(0, 8)))
        assert stored(shown(kept)) == kept
        text = "".join(draw.choices([*PARTS, "é", "\u4e2d", "\U0010ffff"], k=draw.randint(0, 8)))
        assert stored(text).isascii() and shown(stored(text)) == text


@given(st.text())
def test_any_text_comes_back(text: str) -> None:
    assert stored(text).isascii() and shown(stored(text)) == text


def test_codes_are_those_of_characters() -> None:
    code = re.compile(escape._CODE)
    for number in [*range(0x3000), *range(0xD000, 0xE100), *range(0xFFF0, 0x10100), *range(0x10FF00, 0x110100)]:
        is_character = 0x80 <= number < 0x110000 and not 0xD800 <= number < 0xE000
        assert (code.fullmatch(f"{number:x}") is not None) == is_character


@given(st.lists(st.sampled_from(["S X=", '"a é"', '"~e9;"', '"q""ü"', "_", " ;é", ' ;"é', "~e9;", "W "])).map("".join))
def test_lines_come_back(line: str) -> None:
    """Only strings are changed, and places of quotes stay."""
    assert shown_line(stored_line(line)) == line
    assert re.sub(r'"(?:[^"]|"")*"?', "", stored_line(line)) == re.sub(r'"(?:[^"]|"")*"?', "", line)


def test_bytes_that_are_no_utf_8() -> None:
    with pytest.raises(NotText, match="at place 2"):
        stored("a\udce9")


def test_figures_of_the_page() -> None:
    """What docs/TEXT.md says of lengths and places."""
    kept = stored("Müller")
    assert (len(kept), kept[1], kept[1:5], len(stored("\U0010ffff"))) == (9, "~", "~fc;", 8)
