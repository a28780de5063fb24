# SPDX-License-Identifier: Apache-2.0
"""The commands and functions of the language, in a line each, for help and completion; docs/LANGUAGE.md has them whole."""
from __future__ import annotations

import re

from .codes import CODES, PAGE, in_words, place

COMMANDS = {
    "SET": "SET X=1,^A(1)=X        S: gives variables texts; SET (X,Y)=1; SET $PIECE(X,\",\",2)=\"b\"",
    "KILL": "KILL X,^A(1)           K: takes a node away with all below it; KILL (X) all locals but X; KILL all locals",
    "NEW": "NEW X,Y                N: hides locals until the line, DO or XECUTE ends; NEW (X) all but X; NEW all",
    "IF": "IF X>1                 I: sets $TEST, and skips the rest of the line if it is 0",
    "ELSE": "ELSE  W 1              E: skips the rest of the line if $TEST is 1; two spaces follow it",
    "FOR": "FOR I=1:1:10 W I       F: runs the rest of the line in turns; FOR  turns until QUIT",
    "QUIT": "QUIT:X>9               Q: ends the innermost FOR, else the DO, the XECUTE or the line; of language 1 QUIT X gives the value of $$F(Y)",
    "WRITE": "WRITE X,!,\"text\"       W: writes into the reply; ! ends a line; of language 1 # begins a page, ?20 goes to a column, *65 is A",
    "DO": "DO ADD^R               D: runs lines of a routine; DO ^R; of language 1 DO F(X,.Y) and DO F^|\"LIB\"|R; DO alone runs the dotted lines below",
    "GOTO": "GOTO ADD^R             G: goes on at a line of a routine",
    "XECUTE": "XECUTE \"S X=1\"         X: runs a text as a line",
    "LOCK": "LOCK +^A(1):0          L: takes names that other terminals cannot take then; LOCK -^A(1); LOCK gives all back",
    "MERGE": "MERGE ^A=^B            M: copies a node with all below it to another one; of language 1",
    "HALT": "HALT                   H: ends the session: its locals are gone and its locks given back",
    "HANG": "HANG 5                 H: waits for nothing here; of language 1",
}
FUNCTIONS = {
    "$ASCII": "$A(text[,place])       the code of a character, or -1",
    "$CHAR": "$C(code,..)            the characters of codes, 0 to 127",
    "$DATA": "$D(variable)           0 nothing, 1 a text, 10 nodes below, 11 both",
    "$EXTRACT": "$E(text[,from[,to]])   characters by place; of language 1 SET $E(variable,3)=text too",
    "$FIND": "$F(text,part[,from])   the place after a part, or 0",
    "$FNUMBER": "$FN(number,format[,places])  a number with commas, signs, brackets and places; of language 1",
    "$GET": "$G(variable[,default]) the text, or the default if there is none",
    "$INCREMENT": "$I(variable[,number])  adds the number, or 1, to the variable, and gives what it then has; of language 1",
    "$JUSTIFY": "$J(text,width)         the text after spaces; of language 1 $J(number,width,places) too",
    "$LENGTH": "$L(text[,delimiter])   how many characters, or pieces",
    "$NAME": "$NA(variable[,count]) its name as a text, with as many subscripts as are said; of language 1",
    "$ORDER": "$O(variable[,-1])      the next subscript at the last place, or the one before; \"\" begins and ends",
    "$PIECE": "$P(text,delimiter[,from[,to]])  pieces between delimiters; SET of several needs language 1",
    "$QLENGTH": "$QL(name)              how many subscripts the name of a node has; of language 1",
    "$QSUBSCRIPT": "$QS(name,place)        a subscript of the name of a node; 0 its name, -1 its account; of language 1",
    "$QUERY": "$Q(variable[,-1])      the name of the next node that has a text, or of the one before; of language 1",
    "$REVERSE": "$RE(text)              the characters, the last one first; of language 1",
    "$SELECT": "$S(condition:value,..) the value of the first true condition",
    "$TRANSLATE": "$TR(text,from[,to])    the text with characters exchanged, or taken out",
    "$IO": "$I                     the terminal's number; of language 1",
    "$JOB": "$J                     the terminal's number; of language 1",
    "$PRINCIPAL": "$P                     the terminal's number; of language 1",
    "$QUIT": "$Q                     1 if a value is wanted of the level, else 0; of language 1",
    "$STORAGE": "$S                     how many characters a text may have, 4095; of language 1",
    "$X": "$X                     how many characters the line of output has so far; of language 1",
    "$Y": "$Y                     how many lines its page has before that one; of language 1",
    "$TEST": "$T                     1 or 0: what the last IF, or LOCK with a timeout, gave",
}
DOT_COMMANDS = {
    ".help": ".help [WORD]           this list, or what a command, a function or a code means: .help $ORDER, .help M7",
    ".globals": ".globals [^NAME ..]    the globals that are there, of those that routines and lines of this session name",
    ".routines": ".routines              the account's routines",
    ".show": ".show ^X(1)            a node and all below it, one page at a time; a local too",
    ".list": ".list ROUTINE          the lines of a routine, each with its number",
    ".edit": ".edit ROUTINE          a routine, or a new one, in $VISUAL or $EDITOR; what was changed is checked and loaded",
    ".load": ".load FILE.m ..        replaces routines by files, or by those of a folder",
    ".save": ".save ROUTINE [FILE]   writes a routine to ROUTINE.m, or to the file; one that is there is not written over",
    ".check": ".check FILE.m ..       what is not in the language, and what to write instead",
    ".run": ".run FILE [all]        the lines of a file; it stops at the first code, with `all` it goes on",
    ".time": ".time [LINE]           runs a line and says how long it took; alone: says so of each line, or no more",
    ".quit": ".quit                  leaves the shell, as the end of the input does; the terminal's session stays, HALT ends it",
}


def overview() -> list[str]:
    """The lines of `.help`."""
    return [*DOT_COMMANDS.values(), "", *COMMANDS.values(), "", *FUNCTIONS.values(), "", f"Operators, patterns and all else: {PAGE}"]


def explained(word: str) -> list[str]:
    """What is known of a word: a command, a function, a code or a command of the shell; empty if nothing is."""
    upper = word.upper()
    code = CODES.get(upper)
    if code is not None:
        return [in_words(upper), f"  {code.advice}", f"  {place(upper)}"]
    lists = {**COMMANDS, **FUNCTIONS, **DOT_COMMANDS}
    if word.lower() in DOT_COMMANDS or upper in lists:
        return [lists.get(word.lower()) or lists[upper]]
    return [text for name, text in {**COMMANDS, **FUNCTIONS}.items() if abbreviation(name, text) == upper]


def abbreviation(name: str, text: str) -> str:
    """The short word of a command or function."""
    found = re.match(r"(\$[A-Z]+)", text) if name.startswith("$") else re.search(r"\s([A-Z]): ", text)
    return found[1] if found else name
