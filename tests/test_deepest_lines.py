# SPDX-License-Identifier: Apache-2.0
"""The deepest lines that the limits allow, of each way to nest, with 4 MB of stack: half of what systems give. tools/deepest_lines.py says
what the lines are, and measures how much stack they need."""
from __future__ import annotations

import pytest
from deepest_lines import STACK, WAYS, lines_of, wanted_of, written


@pytest.mark.parametrize("way", WAYS)
def test_deepest_line(way: str) -> None:
    lines, value = lines_of(way)
    assert written(lines, STACK) == wanted_of(lines, value)
