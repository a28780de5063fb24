# SPDX-License-Identifier: Apache-2.0
"""Lines that have routines of other accounts run, drawn for the accounts of tests/settings/libraries.toml.

LIB lets CLINIC, OLD and FEW read its routines and BANK write them, OLD lets CLINIC read its own, OLD has language 0, and OTHER may read a global of LIB
that is none of routines. Each of LIB, CLINIC and OLD has a routine L of its own, whose lines call one another and those of the other accounts."""
from __future__ import annotations

import re
from collections.abc import Callable
from random import Random

from drawn_calls import CALLED, DO_LABELS, LONGEST, actuals_of_do, functions, handed
from drawn_forms import BEGIN, ROUTINES, SHOW
from drawn_lines import quoted

# A line with its terminal.
Sent = tuple[int, str]
LIB, CLINIC, CLINIC_TOO, BANK, OLD, OTHER, FEW = range(1, 8)
OWN_NAMES = {LIB: "LIB", CLINIC: "CLINIC", CLINIC_TOO: "CLINIC", BANK: "BANK", OLD: "OLD", OTHER: "OTHER", FEW: "FEW"}
STRANGE = ["BANK", "OTHER", "NOBODY", "no name", "", 'L""IB', "lib"]
# The routines that all may have: those whose functions stand where language 1 has them.
SHARED = {name: ROUTINES[name] for name in ("R", "G", "T", "V")} | {name: CALLED[name] for name in ("P", "J", "C", "S")}
# Lines of a routine L, each of which goes on for itself: those of the library, and those of who calls it.
OF_LIBRARY = ['L D T,T^L W "l" Q', 'T S N=$G(N)+1 W "t" Q', 'O D T^|"LIB"|L Q', 'X X "D T W 1" X "G T" Q', 'E S E="T,T^L,U^|""LIB""|L(2)" D @E Q', "G G T^L",
              "D(X) D:$G(X)>0 D(X-1) S N=$G(N)+1 Q", "Y(X) D:$G(X)>0 Y^L(X-1) W $G(X) Q", "H(A) D I(.A) Q", 'I(B) S B=$G(B)_"i" D:$L(B)<4 H^L(.B) Q',
              "U(X) S ^A(1)=$G(^A(1))+$G(X) W ^A(1) Q", 'F F I=1:1:3 D T G:I=2 T', "B D  Q", ' . W "dot" D T Q', 'N N A S A="n" D T W $D(^ROUTINE("L"))', " Q",
              'W S ^|"LIB"|ROUTINE("L",2)="T W ""w"" Q" D T Q', 'K K ^|"LIB"|ROUTINE("L",2) D T Q', 'C L +^A:0 W $T L  Q', "Q Q 5",
              "M D NONE^L(1)", "A F  S A=1", "FI(X) Q:$G(X)<1 $G(N) Q $$FI(X-1)_\"f\"", 'FE(A) S A=$G(A)_"e" Q:$L(A)>3 A Q $$FE^L(.A)',
              'FO() Q $$FN^|"LIB"|L', "FN() S N=$G(N)+1 Q N_$T", "FT(X) I $G(X) Q $$FI^L(1)", ' Q $D(^ROUTINE("L"))', "FQ() Q", 'FX(X) X "S X=$$FN" Q X',
              "Z . W 5"]
OF_CALLER = ['L D T,T^|"LIB"|L W "c" Q', 'T S N=$G(N)+10 W "T" Q', 'O D O^|"LIB"|L,T Q', 'X X "D T^|""LIB""|L D T" Q', 'E S E="T^|""LIB""|L:0,T" D @E Q',
             'G G T^|"LIB"|L', "D(X) D:$G(X)>0 D(X-2) W $G(X) Q", 'Y(X) D:$G(X)>0 Y^|"LIB"|L(X-1) W "y" Q', 'H(B) D I^|"LIB"|L(.B) Q', 'I(A) S A=$G(A)_"I" Q',
             'F F I=1:1:3 D T^|"LIB"|L G:I=2 T^|"LIB"|L', 'B D  W "b" Q', ' . D T^|"LIB"|L D T', 'N N A S A="N" D N^|"LIB"|L W $G(A) Q', "U(X) W 7 Q",
             'FI(X) Q:$G(X)<1 $G(N) Q $$FI^|"LIB"|L(X-1)_"F"', 'FE(A) S A=$G(A)_"E" Q $$FE^|"LIB"|L(.A)_A', "FO() Q $$FN^L", 'FN() S N=$G(N)+10 Q N_"n"',
             'FT(X) I $$FN^|"LIB"|L Q $T', "FQ(X) Q $G(X)", 'FX(X) X "S X=$$FN^|""LIB""|L" Q $G(X)']
LABELS = "L T O X E G D Y H I U F B N W K C Q M A Z NO".split()
FUNCTIONS = "FI FI FE FE FO FN FT FQ FX FX D T NO".split()


def stored(terminal: int, routines: dict[str, list[str]]) -> list[Sent]:
    """Lines that store routines."""
    return [(terminal, f"S ^ROUTINE({quoted(name)},{number})={quoted(text)}") for name, lines in routines.items() for number, text in enumerate(lines, 1)]


def beginning() -> list[Sent]:
    """What is there before the first session: the routines of three accounts."""
    return [*stored(LIB, {**SHARED, "L": OF_LIBRARY}), *stored(CLINIC, {"G": ROUTINES["G"], "L": OF_CALLER, "J": CALLED["J"], "S": CALLED["S"]}),
            *stored(OLD, {"P": CALLED["P"], "L": OF_LIBRARY})]


def environment(drawn: Random, terminal: int) -> str:
    """What comes before a routine's name: mostly the library, or nothing; now and then an account that is not there, or that lets nobody read."""
    name = drawn.choice(["LIB"] * 12 + [None] * 4 + ["OLD"] * 3 + [OWN_NAMES[terminal]] * 2 + [drawn.choice(STRANGE)])
    return "" if name is None else f'|"{name}"|'


def entries(drawn: Random, owner: Callable[[], str]) -> list[str]:
    """DO and GOTO of labels with formal lists and without, in lines, in texts that are run, and in texts of an @."""
    def entry(may_hand: bool = True) -> str:
        label, routine = drawn.choice([*[(name, "L") for name in LABELS], *[(name, "P") for name in DO_LABELS], ("", "L"), ("", "G"), ("H", "G"), ("P", "R"),
                                       ("T", "T"), ("L", "T"), ("V", "V"), ("", "NONE")])
        return f"{label}^{owner()}{routine}{handed(drawn) if may_hand and routine in 'LP' and drawn.randrange(2) else ''}"
    one, other, plain = entry(), entry(), entry(may_hand=False)
    shown = 'W "|",$G(A),"|",$G(B),"|",$G(N),"|",$T,$D(^A),$D(^ROUTINE)'
    return [drawn.choice([f"D {one} {shown}", f"D {one} {shown}", f"D {one},{other} {shown}", f"D {one}:$D(A),{other} {shown}", f"G {plain}",
                          f"G {plain}:$G(N)>3 D {one}", f"X {quoted('D ' + one)} {shown}", f"X {quoted('G ' + plain)} {shown}",
                          f"S E={quoted(one + ',' + other)} D @E {shown}", f"S E={quoted(plain)} G @E", f"F I=1:1:2 D {one} W I",
                          f"F I=1:1:3 G:I=2 {plain} W I", f"N A S A=1 D {one} {shown}", f"D {one} D T {shown}", f"I 1 D {one} E  W 0"])]


def values(drawn: Random, owner: Callable[[], str]) -> list[str]:
    """Functions of labels of routine L, in what commands evaluate, in actuals, in conditions and in texts."""
    def call() -> str:
        return f"$${drawn.choice(FUNCTIONS)}^{owner()}L{handed(drawn) if drawn.randrange(3) else ''}"
    one, other = call(), call()
    shown = 'W "|",$G(A),"|",$G(B),"|",$G(N),"|",$T,$QUIT,$D(^A)'
    return [drawn.choice([f"W {one} {shown}", f"S C={one}_{other} {shown}", f"I {one} {shown}", f"W:{one} 1 {shown}", f"X {quoted(f'S A={one}')} {shown}",
                          f"S E={quoted(one)} W @E {shown}", f"D D^{owner()}L({one}) {shown}", f"F I=1:1:2 S B={one} {shown}", f"N A S A=1,B={one} {shown}",
                          f"K A W {one},{other} {shown}", f"D U^{owner()}L($G(A)):{one} {shown}", f"W $L({one}),({other}) {shown}", f"Q:{one}  {shown}"])]


def with_owners(line: str, owner: Callable[[], str]) -> str:
    """The line, and the routines C, P and S of its entries with environments before them; not those in strings."""
    parts = line.split('"')
    parts[::2] = [re.sub(r"\^(?=[CPS]\b)", lambda found: found[0] + owner(), part) for part in parts[::2]]
    return '"'.join(parts)


def functions_of(drawn: Random, owner: Callable[[], str]) -> list[str]:
    """Lines with functions of the drawn routines and of those with the rules, in a library."""
    return [line if len(line) <= LONGEST else "W 1" for line in (with_owners(one, owner) for one in functions(drawn))]


def changes(drawn: Random) -> list[Sent]:
    """A line that changes a routine of the library, by its owner, by who may, or by who may not; also before it is called."""
    lines = drawn.choice([OF_LIBRARY, OF_CALLER])
    place = f"({quoted('L')},{drawn.choice([drawn.randint(1, len(OF_LIBRARY)), 2, 1.5])})"
    terminal = drawn.choice([LIB, LIB, BANK, BANK, CLINIC])
    given = drawn.choice([f"S ^|{quoted('LIB')}|ROUTINE{place}={quoted(drawn.choice(lines))}"] * 3 + [f"K ^|{quoted('LIB')}|ROUTINE{place}"])
    # all of it is there again before long
    again = stored(LIB, {"L": OF_LIBRARY}) if drawn.randrange(3) == 0 else []
    return [(terminal, given + drawn.choice(["", "", f" D {drawn.choice(LABELS)}^|{quoted('LIB')}|L"])), *again]


def session(drawn: Random) -> list[Sent]:
    """The lines of a session of one terminal, with lines of others that change the library between them."""
    terminal = drawn.choice([CLINIC] * 6 + [BANK, CLINIC_TOO, LIB, FEW, OTHER, OLD])

    def owner() -> str:
        return environment(drawn, terminal)
    found: list[Sent] = [(terminal, line) for line in BEGIN]
    for _ in range(5):
        form = drawn.choice([entries, entries, values, values, actuals_of_do, functions_of])
        found += [*(changes(drawn) if drawn.randrange(4) == 0 else []), *((terminal, line) for line in form(drawn, owner))]
    return [*found, *((terminal, line) for line in SHOW)]
