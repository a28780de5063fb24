# SPDX-License-Identifier: Apache-2.0
"""Keys of nodes, beside those of tools/key_vectors.py, which were written apart from this."""
from __future__ import annotations

import random

import key_vectors
import pytest
from hypothesis import given
from hypothesis import strategies as st
from mserve_client import keys

VECTORS = [(account.decode(), name.decode(), tuple(text.decode() for text in subscripts)) for account, name, subscripts in
           key_vectors.nodes(random.Random(127))]


@pytest.mark.parametrize("node", VECTORS, ids=range(len(VECTORS)))
def test_key_there_and_back(node: tuple[str, str, keys.Subscripts]) -> None:
    account, name, subscripts = node
    data = key_vectors.key(account.encode(), name.encode(), [text.encode() for text in subscripts])
    assert keys.key(*node) == data
    assert keys.node(data) == node


# The table of docs/FORMATS.md.
@pytest.mark.parametrize(("subscript", "data"), [
    ("1", "01 8000000000000000 0de0b6b3a7640000"), (".5", "01 8000000000000000 06f05b59d3b20000"), ("-1", "01 7fffffffffffffff f21f494c589c0000"),
    ("A", "02 42 00"), ("01", "02 31 32 00"),
])
def test_key_of_the_documents(subscript: str, data: str) -> None:
    assert keys.key("A", "B", (subscript,)).hex() == "42004300" + data.replace(" ", "")


@given(st.text("0123456789.-", max_size=24) | st.decimals(-10**19, 10**19).map(str))
def test_canonical_numbers_as_the_vectors_have_them(text: str) -> None:
    assert keys.units(text) == key_vectors.units(text.encode())


@given(st.integers(-(10**18 - 1), 10**18 - 1), st.integers(0, 18))
def test_text_of_a_number(number: int, places: int) -> None:
    units = number * 10**18 // 10**places
    if units % 10**(18 - places) == 0:
        assert keys.units(keys.number_text(units)) in (units, None)


CHANGED = keys.key("A1", "%B", ("1", "x.5", "-.5", "007"))


@pytest.mark.parametrize("place", range(len(CHANGED)))
def test_bytes_that_are_no_key(place: int) -> None:
    """A key of which one byte is another is read as tools/key_vectors.py reads it."""
    for code in range(256):
        data = CHANGED[:place] + bytes([code]) + CHANGED[place + 1:]
        wanted = key_vectors.read(data)
        if wanted is None:
            with pytest.raises(ValueError):
                keys.node(data)
        else:
            assert keys.node(data) == (wanted[0].decode(), wanted[1].decode(), tuple(text.decode() for text in wanted[2]))


@pytest.mark.parametrize("text", ["", "1", "A1234567890123456789012345678901", "A_B", "é", "^A"])
def test_what_is_no_name(text: str) -> None:
    assert not keys.is_name(text)


@pytest.mark.parametrize("text", ["A", "%", "%A1", "Z123456789012345678901234567890"])
def test_names(text: str) -> None:
    assert keys.is_name(text)
