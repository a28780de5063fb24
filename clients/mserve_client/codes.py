# SPDX-License-Identifier: Apache-2.0
"""The codes that end a line, in words, with the section of docs/LANGUAGE.md that has the rule."""
from __future__ import annotations

from dataclasses import dataclass

PAGE = "docs/LANGUAGE.md"


@dataclass(frozen=True, slots=True)
class Code:
    """What a code means, the section of the page, and what to do about it."""

    words: str
    section: str
    advice: str


CODES = {
    "M1": Code("naked indicator undefined", "Variables", "Name the global: ^X(2) for ^(2)."),
    "M2": Code("format of $FNUMBER in conflict", "Languages", "P has brackets in the place of a sign: leave out +, - and T beside it."),
    "M4": Code("no true condition in $SELECT", "Functions", "End the list with 1:value."),
    "M6": Code("undefined local variable", "Variables", "SET it before, or read it by $GET(A). A session that ended took its variables along."),
    "M7": Code("undefined global variable", "Variables", "SET it before, or read it by $GET(^X(1)). $DATA(^X(1)) says whether there is a value."),
    "M9": Code("divide by zero", "Numbers", "Look at the divisor of / \\ or # first."),
    "M10": Code("pattern range n.m with n above m", "Expressions", "Write the lesser count first: 1.3N."),
    "M11": Code("line with parameters reached, but not by DO or as a function", "Languages", "End the lines above it by QUIT, and enter it by DO."),
    "M13": Code("line not found", "Routines, and texts that are run",
                "`.routines` lists what is there. A label alone is sought in the running routine only."),
    "M15": Code("undefined index of FOR", "Commands", "The body of the loop killed its index."),
    "M16": Code("QUIT with a value that nothing wants", "Languages",
                "Call it as a function, S X=$$F(1); in a FOR, a block or an XECUTE set a variable, and QUIT with it after that."),
    "M17": Code("function that ends without a value", "Languages", "Each way through it ends by a QUIT with a value."),
    "M19": Code("MERGE of a node with one above or below it", "Languages", "Copy by way of another variable: M X=A(1) K A M A=X."),
    "M20": Code("actuals, but no formal list", "Languages", "The label needs its list: F(A,B), right after the name and without a space."),
    "M28": Code("exponent with a fraction", "Languages", "The exponent of ** is a whole number: X**(N\\1)."),
    "M58": Code("more actuals than formal parameters", "Languages", "Look at the list after the label."),
    "M90": Code("a text that is no name of a node", "Languages", 'A name is as A(1,"x") or ^|"LAB"|P(1): strings and canonical numbers alone.'),
    "M94": Code("zero to the power zero", "Languages", "Look at both operands of ** first."),
    "ZARG": Code("argument out of its range", "Functions",
                 "$ORDER wants a subscript and the direction 1 or -1; SET $PIECE a delimiter and a place of 1 to 500; WRITE ?n a column of at most 4,095."),
    "ZCHAR": Code("character over 127", "Values", "Values and lines are ASCII: write another character."),
    "ZDEPTH": Code("too many levels", "Routines, and texts that are run",
                   "At most 256 levels of DO, XECUTE and indirection, 32 of them indirections. A DO of itself without end?"),
    "ZGRANT": Code("not granted", "Variables", "The settings have to grant the global (ROUTINE for routines); SET, KILL and LOCK need a grant to write."),
    "ZLEVEL": Code("line of another level of dots", "Routines, and texts that are run",
                   "GOTO a line with as many dots as the level, and DO a line without dots."),
    "ZLINE": Code("line too long", "Codes", "A line has at most 255 characters: cut it in two, or put it into a routine."),
    "ZLOCKED": Code("locked by another terminal", "LOCK", "Give a timeout, as LOCK +^X:0, and look at $TEST."),
    "ZLONG": Code("text too long", "Functions", "A text has at most 4,095 characters."),
    "ZMEM": Code("out of memory: the session is gone", "Codes", "Locals and locks of the terminal are gone; some of the line's writes may stand."),
    "ZOVER": Code("number too large", "Numbers", "Numbers are below 10^18 in size."),
    "ZSTEPS": Code("steps used up", "Codes", "What the line did stands. Do less on a line, or have the account's steps raised in the settings."),
    "ZSTORE": Code("the store failed: the session is gone", "Codes", "Locals and locks of the terminal are gone; look at the disk of the store."),
    "ZSUB": Code("subscript refused", "Variables", "A subscript has 1 to 255 characters, and a variable at most 15."),
    "ZSYNTAX": Code("not in the language", "Lines", "Nothing of the line was run."),
    "ZTERM": Code("terminal not in the settings", "Codes", "Use a terminal that the settings give to an account."),
    "ZWIRE": Code("no readable terminal", "Codes", "A terminal is 1 to 9999."),
}


def in_words(code: str) -> str:
    """The code with what it means: `M6: undefined local variable`."""
    known = CODES.get(code)
    return f"{code}: {known.words if known else 'unknown code'}"


def place(code: str) -> str:
    """The place of the rule: `docs/LANGUAGE.md, "Variables"`; empty if the code is unknown."""
    known = CODES.get(code)
    return f'{PAGE}, "{known.section}"' if known else ""
