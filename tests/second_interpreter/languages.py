# SPDX-License-Identifier: Apache-2.0
"""Which forms each language has. A form that the program takes up moves from COMING to the language that has it."""
from __future__ import annotations

# No account's language: the rules that language 1 is to have besides, which the program does not have yet. They are compared with GT.M alone.
COMING = 2
SINCE = {
    "$FNUMBER": 1, "$JUSTIFY of three": 1, "$REVERSE": 1, "pattern alternation": 1,
    "pattern indirection": 1, "pages of WRITE": 1, "$X and $Y": 1, "formats of WRITE": 1,
    "codes of WRITE": 1, "SET $EXTRACT": 1, "SET $PIECE of several": 1, "HANG": 1, "special variables of terminals": 1, "**": 1,
    "$INCREMENT": 1, "$NAME": 1, "$QLENGTH": 1, "$QSUBSCRIPT": 1, "$QUERY": 1, "MERGE": 1,
    "$TEXT": COMING, "indirection of entries": COMING, "labels of digits": COMING, "offsets of entries": COMING,
    "names of globals": COMING,
    "functions": 1, "libraries": 1, "parameters": 1, "special variables": 1, "values of QUIT": 1,
}


def has(language: int, form: str) -> bool:
    """Whether a language has a form."""
    return SINCE[form] <= language
