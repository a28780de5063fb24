# SPDX-License-Identifier: Apache-2.0
"""Lines that are wrong in one place: right lines are drawn, and one thing of each is changed. The program never ends, each line that is not empty
has exactly one reply, from the terminal that it names, and the replies are the same if the input comes in pieces of 1, 2 and 7 bytes.

What is changed: a bracket too many, a byte over 127 or under 32, a name of 32 characters, 41 brackets or operands of `@` one within the other,
256 levels, a count of 10^19, groups of patterns as deep, with counts from 0 to 9999 and reversed ones, actuals and formal lists that are too many,
too deep or none, a character left out, doubled or in place of another, a cut, and the terminal. Of one long line every cut is tried. Half of the
lines have forms of language 1, and all are played by language 0 and by language 1."""
from __future__ import annotations

import re
from collections import Counter
from random import Random

import pytest
from drawn_lines import Draw, quoted
from hypothesis import given, note, settings
from hypothesis import strategies as st
from running import OF_LANGUAGE, run
from support import run_in_pieces

# This many streams are drawn, of this many lines each, of which some are left out.
STREAMS, LINES = 400, 75
SEEDS = 2**24
LONGEST = 260
PIECES = (1, 2, 7)
WIRE = re.compile(rb"([1-9][0-9]{0,3}) ")
ENDING = re.compile(rb"(?:(\d+|\?)!(Z?[A-Z]+\d*)|(\d+)\.)")
MARKS = "()\"@^|,:;=$'?_.!# +-*/\\<>[]&%AZaz019"
BIG = "1" + 19 * "0"


def groups(count: str, depth: int, last: str) -> str:
    """A pattern with groups one within the other, each with this count."""
    return depth * f"{count}(" + last + depth * ")"


def labelled(text: str, line: str) -> str:
    """A line that stores this one as the first of routine R, and runs another."""
    return f"S ^ROUTINE({quoted('R')},1)={quoted(text)} {line}"


# What is in place of a line, or of a part of it.
NESTED = [
    "W " + 41 * "(" + "1" + 41 * ")", 'S A="A" W ' + 41 * "@" + "A", "W " + 41 * "-(" + "1" + 41 * ")", 'S X="X X" X X', 'S X="D X^R" X X',
    'S A="@A" W @A', "F  F  F  F  X \"F  \"", 255 * "(", 255 * "@", 255 * '"',
    'S ^ROUTINE("R",9)="X D X^R" D X^R', 'W ?' + BIG, f'W "A"?{BIG}A', f'W "A"?.{BIG}A', f"W $P(A,B,{BIG})", f'W $J("",{BIG})', f"F I=1:{BIG} W I",
    f"F I={BIG}:1:2 W I", f"S $P(A,B,{BIG})=1", f"W {BIG}*{BIG}", f"S A({BIG})=1", f"W $E(A,-{BIG},{BIG})", f'L +^A({BIG}):{BIG}',
    "W " + 41 * "$RE(" + "1" + 41 * ")", 'S X="X $RE($RE(X))" X X', 'W $RE($J("",200))?.E.E.E.E1"x"', 'S B="x" F  S B=$RE(B_B)', f"W $RE({BIG})", "W $RE(",
    "W $RE", "S $RE(A)=1",
    f"W ?{BIG}", f"W !?-{BIG}", f"W ?{BIG}E{BIG}", "W ?4095,?4095,?4096", "W " + 60 * "?9," + "#", "W ?" + 41 * "(" + "1" + 41 * ")", "W ?" + 41 * "@" + "A",
    "W " + 60 * "?", "W #?*1",
    'S A="?9,@A" W @A', "F  W ?4095,!", "F  W !?$X+$Y", "W !?$X**99", "S $X=1", "K $Y", "W $X(1)", "N $X", "W @$X", "W $XY", "W ?$X?1N",
    "W " + 200 * "#", "W " + 99 * "!#", f"W *{BIG}", f"W *-{BIG}", "W " + 60 * "*7," + "#", "W *" + 41 * "(" + "1" + 41 * ")", "W " + 60 * "*", "W #*1",
    'S A="*A,@A" W @A',
    f"W $J({BIG},1,1)", f"W $J(1,{BIG},1)", f"W $J(1,1,{BIG})", "W $J(1,0,999999999999999999)", "W $J(1,4095,4094)", "W $J(1,5,-1)", "W $J(1,2,3,4)",
    f"S $E(A,{BIG})=1", f"S $E(A,1,{BIG})=1", f"S $E(A,-{BIG},2)=1", "S $E(A,4096)=1", "S $E(A,999999999999999999)=1", "S $E(", "S $E(A,1,2,3)=1",
    "S $E(A,2,1)=1", "S " + 41 * "$E(",
    f'S $P(A,"x",1,{BIG})=1', f'S $P(A,"x",{BIG},2)=1', 'S $P(A,"",1,2)=1', 'S $P(A,"x",500,501)=1,A=A', 'S $P(A,"xxxxxxxxxx",500,501)=1',
    "S ($E(A),$P(A,1,1,1))=A",
    f'W $FN({BIG},",",1)', f'W $FN(1,"{BIG}")', f'W $FN(1,"",{BIG})', 'W $FN(1,"",999999999999999999)', 'W $FN(1,"P+T-")', 'W $FN(1,"",-1)', "W $FN(1)",
    "W $FN(1,2,3,4)",
    'W $FN(1,$J("",4095))', "W " + 41 * "$FN(1," + "1" + 41 * ")", 40 * "$FN(",
    f'W $QL("A({BIG})")', f'W $QS("A({BIG})",{BIG})', f'W $QS("A",-{BIG})', 'W $QL("A("_$J("",4000)_")")', 'S B="A(1" F  S B=B_",1" W $QL(B_")")',
    "W $QL(1,2)", "W $QS(1)", 'W $QL($TR($J("",2000)," ","("))', "W " + 41 * "$QL(" + "1" + 41 * ")", 40 * "$QS(", "S $QS(A,1)=1",
    f"W $NA(A({BIG}),{BIG})", f"W $NA(A,-{BIG})", "W $NA(A(1),1,2)", "W $NA(1)", "W $NA()", "S $NA(A)=1", 'W $NA(A($J("",4095)))', "W $NA(^(1))",
    'S B="A" F  S B=$NA(@B@("""")),C=$NA(@B@($J("",250)))', "W " + 40 * "$NA(A(" + "1" + 40 * "))", 40 * "$NA(A(", "W $NA(" + 41 * "@" + "A)",
    f"W $Q(A({BIG}),{BIG})", f"W $Q(A,-{BIG})", "W $Q(A(1),1,2)", "W $Q(1)", "W $Q()", "S $Q(A)=1", 'W $Q(A($J("",4095)))', "W $Q(^(1))", "W $Q(A,2)",
    'S B="A" F  S B=$Q(@B@("")),C=$Q(@B@($J("",250)),-1)', 'F I=1:1:40 S A($J("",255),$J("",255),I)=1 W $Q(A(""),-1)', 'W $Q(A("",1))',
    "W " + 40 * "$Q(A(" + "1" + 40 * "))", 40 * "$Q(A(", "W $Q(" + 41 * "@" + "A)",
    f"W $I(A({BIG}),{BIG})", f"W $I(A,-{BIG})", "W $I(A(1),1,2)", "W $I(1)", "W $I()", "S $I(A)=1", 'W $I(A($J("",4095)))', "W $I(^(1))", "W $I",
    'W $I(A,"1E46")', 'F  S A=$I(B,9E45)', 'F  S A=$I(^A(I),I)', "W " + 40 * "$I(A(" + "1" + 40 * "))", 40 * "$I(A(", "W $I(" + 41 * "@" + "A)",
    "W $I(A," + 39 * "$I(A," + "1" + 40 * ")", 'W $I(A(""))', 'S B="A(" F I=1:1:30 S B=B_I_"," W $I(@(B_"1)"))',
    f"M A({BIG})=B", "M A=A(1)", "M A(1)=A", "M A=A", "M", "M A", "M A=", "M A=1", "M =A", "M 1=A", "M (A,B)=C", "M A=B=C", "M A=$G(B)", "M ^(1)=A", "M A=^(1)",
    'M A("")=B', 'M A=B("")', 'M A($J("",4095))=B', "M @" + 41 * "@" + "A=B", "M A=" + 41 * "@" + "B", 'S B="A=B" M @B', 'S B="M @B" X B',
    'F I=1:1:30 S A(I)=I M A(I,I)=A', 'S A=1 F I=1:1 M ^A(I)=A,A(I)=^A', 'F I=1:1:40 S A($J("",255),$J("",255),I)=1 M B($J("",255),$J("",255))=A',
    'S A(1,2,3,4,5,6,7,8,9)=1 M B(1,2,3,4,5,6,7,8,9,10,11,12,13,14,15,16,17,18,19,20,21,22,23,24,25)=A', "M " + ",".join(200 * ["A=B"]), "M A=B,@",
    f"W {BIG}**2", f"W 2**{BIG}", f"W 2**-{BIG}", "W 1**1E17", "W .1**-999", "W 9**99", "F  S A=1**1E17", "W 0**0", "W 0**-1", "W 2**.5", "W 2***3", "W 2**",
    'S A="2**" W @A',
    "W 2" + 120 * "**2", "W " + 40 * "(2**" + "1" + 40 * ")", "W " + 41 * "$J(1,1," + "1" + 41 * ")", "W 1?" + 41 * "@" + "A", 'W $J("",200)?@".E.E.E.E1""x"""',
    f'W 1?@"{BIG}N"', 'S P="?@P" W 1?@P', "W 1?@", 'W 1?@""', "W $RE(1,2)", "W $RE()", 40 * "$RE(", 'W $J("",$S)_$J', "F I=1:1:$S W I", "F  W $J,$IO,$P",
    f"W 1?{groups('1', 40, '1N')}", f"W 1?{groups('1', 41, '1N')}", f"W (1?{groups('1', 40, '1N')})", "W 1?" + 99 * "1(", "W 1?" + 60 * "1(1N",
    f"W $J(1,200)?{groups('.', 40, '.E')}", f'W ""?{groups("9999", 39, "1N")}', f'W ""?{groups("0", 40, "1N")}', f'W ""?{groups("0", 40, "2.1N")}',
    f'W ""?{groups(".", 40, "0A")}', f"W 1?{BIG}(1N)", "W 1?9999(9999(1N))", "W 1?10000(1N)", "W 1?0(3.1N)", "W 1?9.1(9.1(9.1N))", "W 1?.(0A)1.(0A)",
    'W $J(1,200)?.(.E,.E.E,.E1"x",2" ",1" ",200" ")', "W 1?1(" + 80 * "1N," + "1A)", "W $J(1,200)?" + 45 * ".(1P)", "W 1?1(1N)(1N)", "W 1?1(1?1N)", "W 1?1(@A)",
    'S P="1(" F I=1:1:9 S P=P_P W:I=9 1?@P', 'S P=".(1P)" F I=1:1:9 S P=P_P W:I=9 ""?@P,1?@P', 'S P="1(1N)" F  S P=P_P W 1?@P', "F  W 1?.(.(1N,.(.A)))",
    'S P="," F I=1:1:9 S P=P_"200"" ""," W:I=9 $J(1,200)?@(".(.E"_P_".E)")', 'S A="1(1N" W 1?@A', f"W 1?{groups('1', 40, '1N')}?{groups('1', 40, '1N')}",
    "W $I(1)", "W $J(1", "S $IO=1", "K $J", "W " + 40 * "-" + "$S", "W @$J", "W $STORAGEX",
    f"H {BIG}", "H -1,.5,A", "HANG", "H  H 1", "F  H $S", "H @A", 'S A="H @A" X A', "HANG:$J 1:1", f"H {BIG}E{BIG}", "HALT 1", f'W $G(@"A($RE({BIG}))")',
    "D R^R(" + 40 * "(" + "1" + 40 * ")" + ")", "D R^R(" + 39 * "(" + "1" + 39 * ")" + ")", "D R^R(.@" + 39 * "@" + "A)", "D R^R(.@" + 40 * "@" + "A)",
    "D R^R(" + 200 * "," + ")", "D R^R(" + 60 * ".A," + ".A)", "D R^R(" + 99 * "(", "D R^R(" + 99 * ".@", "D R^R(.A(1))", "D R^R(.^A)", "D R^R(..A)",
    "D R^R(.)",
    "D R^R(.1A)", f"D R^R({BIG})", f"D R^R(.{BIG},.@{BIG})", f"D R^R(.A{BIG}{BIG})", "D R^R(A:1)", "D R^R((.A))", "D R^R(.A)(.B)", "D R^R()()", "D (A)", "D ()",
    "D ^(A)", "G R^R(1)", "G R^R()", "Q 1,2", "Q " + 41 * "(" + "1" + 41 * ")", "Q @" + 41 * "@" + "A", "Q:", "Q .A", f"Q {BIG}", "Q:1 Q", "F  Q 1",
    "F  D R^R(.A)",
    'X "Q 1"', "W $QUIT(1)", "S $Q=1", "N $QUIT", "K $Q", "W " + 60 * "-" + "$Q", "W $QUITX", "W $$R^R(1)", "D R^R($$R)", "W $$", "S A=$$(1)",
    'S A="$$R^R" W @A',
    labelled("R(A) D R^R(A)", "D R^R(1)"), labelled("R(A) D R^R(.A)", "D R^R(.A)"), labelled("R(A,B) D R^R(.B,.A)", "S A=1 D R^R(.A,.A) W A"),
    labelled("R(A) D R^R(A_A)", 'D R^R("x")'), labelled("R(A) N A D R^R(.A)", "D R^R(.A)"), labelled("R(A) N  D R^R(.A)", "D R^R(.A)"),
    labelled("R(A) X " + quoted("D R^R(.A)"), "D R^R(.A)"), labelled("R(A) F  D R^R(.A)", "D R^R(.A)"), labelled("R(A) K  D R^R(.A)", "D R^R(.A)"),
    labelled("R(A) G R", "D R^R(.A)"), labelled("R() D  Q", "F  D R^R()"), labelled("R(A) Q A", "D R^R(1)"), labelled("R(A) H", "D R^R(.A)"),
    labelled("R(A) S A=A+1 D:A<250 R^R(.A)", "S A=0 D R^R(.A) W A"), labelled("R(A) S B=A+1 D:B<250 R^R(B)", "D R^R(0) W $D(B)"),
    labelled("R(A) S A(A)=1 K A(A-5) S A=A+1 D R^R(.A)", "S A=0 D R^R(.A)"), labelled("R(A,A) Q", "D R^R(1)"), labelled("R(A,A) Q", "D R^R"),
    labelled("R(", "D R^R(1)"), labelled("R(A", "D R^R(1)"), labelled("R(A) ", "D R^R(1)"), labelled("R(A)Q", "D R^R(1)"), labelled("R(1) Q", "D R^R(1)"),
    labelled("R(A,) Q", "D R^R(1)"), labelled("R(,A) Q", "D R^R(1)"), labelled("R(%,%A) Q", "D R^R(.%,.%A,.%B)"), labelled("R (A) Q", "D R^R(1)"),
    labelled("R(" + 31 * "A" + ") Q", "D R^R(.A)"), labelled("R(" + 32 * "A" + ") Q", "D R^R(.A)"), labelled("R(A);x", "D R^R(.A)"),
    labelled("R(A) . Q", "D R^R(.A)"),
    labelled("R(" + ",".join(f"A{number}" for number in range(25)) + ") Q", "D R^R(" + 24 * ".A," + ".A)"), labelled("(A) Q", "D ^R(1)"),
    labelled("R(A) Q", "D ^R(1,2)"),
    labelled("R(.A) Q", "D R^R(.A)"), labelled("R(A:B) Q", "D R^R(.A)"), labelled("R()() Q", "D R^R()"), labelled("R(A)(B) Q", "D R^R(1)"),
    'D R^|"ALICE"|R', 'G R^|"ALICE"|R', 'D R^|"NOBODY"|R', 'D ^|""|R', 'D ^|"ALICE"|', 'D ^|"ALICE"R', "D ^|ALICE|R", 'D ^|"ALICE"|(1)', "D ^||R",
    'D ^|"A"||"A"|R', 'G ^|"ALICE"|R(1)', 'D R^|"ALICE"|@A', 'D ^|"' + 200 * "A" + '"|R', 'D ^|"' + 99 * '""' + '"|R', "D ^|" + 99 * '"', "D ^" + 99 * "|",
    'D ^|"^|""A""|R"|R', "D ^|" + 41 * "(" + '"A"' + 41 * ")" + "|R", 'W $$R^|"ALICE"|R', 'S A="R^|""ALICE""|R" D @A', "D " + 20 * '^|"ALICE"|R,' + "R",
    f'D R^|"ALICE"|R({BIG})', 'F  D R^|"NOBODY"|R', 'F  D:0 R^|"NOBODY"|R', 'D ^|"ALICE"|' + 31 * "R", 'D ^|"ALICE"|' + 32 * "R",
    labelled('R D R^|"ALICE"|R', "D ^R"), labelled('R(A) D R^|"ALICE"|R(.A)', 'D R^|"ALICE"|R(.A)'), labelled('R G R^|"ALICE"|R', 'G ^|"ALICE"|R'),
    labelled('R X "D R^|""ALICE""|R"', "D ^R"), labelled('R(A) S A=A+1 D:A<250 R^|"ALICE"|R(.A)', "S A=0 D R^R(.A) W A"),
    labelled('R K ^|"ALICE"|ROUTINE G R', 'D ^|"ALICE"|R'),
    f'W $O(A({BIG}),{BIG})', f"W {BIG}E{BIG}", f"W .{BIG}", "S B=\"x\" F  S B=B_B", 'W $J("",200)?.E.E.E.E1"x"', 'K  K ^A,^B N  L', "H", "Q", "G", "D",
]
# One with forms of language 0, and the same with forms of language 1 in it.
LONG = (
    'S:1=1 A(1,"x")=$P(^A(1),"y",1,2),B=-$L(@"A"),$P(C,",",2)=\'(1<2)!(A]]"q") F I=1:1:2 W:I#2=1 $S(I:$J(I,3),1:"no"),! X "W I" '
    'I $D(B) D P^R,@"R^R":I K (A,B) L +(^A,B):0 N I W $O(^A("")),$TR("ab","a","b"),$E("abc",2),$G(^|"ALICE"|A(1)),$C(65),A?1.N ; end'
)
LONGS = {0: LONG, 1: LONG.replace('$TR("ab","a","b")', "$RE($J(1.5,6,2))").replace('"no"', '$FN(I,",")').replace("I $D(B)", "H 1,$S I $J").replace(
    "-$L", "2**$L").replace("$P(C,\",\",2)", "$P(C,9,2,3)").replace("A?1.N", 'A?@"1.N"').replace('$E("abc",2),', "").replace(',! X', ",!?$X X").replace(
    'D P^R,@"R^R":I', "D P^R(.I,,A):I")}
each_language = pytest.mark.parametrize("language", OF_LANGUAGE)


def with_bracket(drawn: Random, text: str) -> str:
    """A bracket too many."""
    place = drawn.randint(0, len(text))
    return text[:place] + drawn.choice("()") + text[place:]


def with_byte(drawn: Random, text: str) -> str:
    """A byte that no line may have, or a carriage return."""
    place = drawn.randint(0, len(text))
    return text[:place] + chr(drawn.choice([0, 9, 11, 13, 27, 31, 127, 128, 160, 200, 255])) + text[place:]


def with_long_name(drawn: Random, text: str) -> str:
    """A name of 32 characters or more."""
    places = [place for place, letter in enumerate(text) if letter.isupper()]
    place = drawn.choice(places) + 1 if places else 0
    return text[:place] + 31 * "A" + text[place:]


def with_one_left_out(drawn: Random, text: str) -> str:
    """A character left out."""
    place = drawn.randint(0, max(len(text) - 1, 0))
    return text[:place] + text[place + 1:]


def with_one_doubled(drawn: Random, text: str) -> str:
    """A character twice."""
    place = drawn.randint(0, max(len(text) - 1, 0))
    return text[:place] + text[place:place + 1] + text[place:]


def with_another(drawn: Random, text: str) -> str:
    """Another character in place of one."""
    place = drawn.randint(0, max(len(text) - 1, 0))
    return text[:place] + drawn.choice(MARKS) + text[place + 1:]


def with_count(drawn: Random, text: str) -> str:
    """A number of the line is 10^19."""
    numbers = list(re.finditer(r"\d+", text))
    if not numbers:
        return text + BIG
    found = drawn.choice(numbers)
    return text[:found.start()] + BIG + text[found.end():]


def cut(drawn: Random, text: str) -> str:
    """The front of it."""
    return text[:drawn.randint(0, len(text))]


def nested(drawn: Random, text: str) -> str:
    """A line that nests or counts too far."""
    return drawn.choice(NESTED)


def with_groups(drawn: Random, text: str) -> str:
    """A match of a pattern with groups, as deep and with such counts as nobody writes; of a text if it is written so."""
    pattern = drawn.choice(["1N", "0A", ".E", '2"x"', '.1""', "2.1N", "1A.N"])
    counts = drawn.choice([["1", "."], ["1", ".", "0", "2.", ".3", "9999"], [".", "1.", "9999", "99999", "3.1"]])
    others = drawn.choice([[""], ["", ",1A", ",.E", ",.(1N)"]])
    for _ in range(drawn.choice([1, 2, 3, 4, 38, 40, 41])):
        pattern = f"{drawn.choice(counts)}({pattern}{drawn.choice(others)})" + drawn.choice(["", "", "", "1E"])
    value = drawn.choice(['""', "1", "12", "A", '"x"', "$J(1,200)", '$J("",4095)'])
    return drawn.choice([f"W {value}?{pattern}", f"W {value}'?{pattern} {text}", f"S P={quoted(pattern)} W {value}?@P", f"F  W {value}?{pattern}"])


def with_actuals(drawn: Random, text: str) -> str:
    """A routine's line whose formal list may be none, and a DO that hands over more or less than it has, as deep as nobody writes."""
    names = drawn.choice([["A"], ["A", "B"], ["B", "A", "C"], ["A", "A"], [""], ["A", ""], ["1"], [32 * "A"], []])
    rest = drawn.choice(["S A=$G(A)_1 Q", "K A Q", "N A S A=1 Q", "K (A) Q", "D R^R(.A)", 'X "D R^R(.B,.A)"',
                         "Q $G(A)", "Q:$D(A)>9 A", "G R", "F B=1:1:3 D R^R(.B)"])
    given = drawn.choice([".A", ".B", "A", "1", "", ".@C", '.@"A"', ".A(1)", ".", ".^A", "$$R^R",
                          39 * "(" + "1" + 39 * ")", 41 * "(" + "1" + 41 * ")", ".@" + 40 * "@" + "A"])
    handed = ",".join(drawn.choice([given, ".A", "A", ""]) for _ in range(drawn.choice([0, 1, 1, 2, 3, 20])))
    line = drawn.choice([f"D R^R({handed})", f"D R^R({handed}) {text}", f"F I=1:1:3 D R^R({handed}):I=2",
                         f"X {quoted(f'D R^R({handed})')} Q A", f"D R^R({handed}"])
    return labelled(f"R({','.join(names)}){drawn.choice([' ', ' ', ' ', ' . ', '', ';'])}{rest}", line)


def with_rest(drawn: Random, text: str) -> str:
    """One that is too long, or that just is not."""
    return text + " ;" + drawn.randint(0, LONGEST) * "x"


def right(drawn: Random, text: str) -> str:
    """Nothing is changed."""
    return text


CHANGES = [right, with_bracket, with_byte, with_long_name, with_one_left_out, with_one_doubled, with_another, with_count, cut, nested, with_groups,
           with_actuals, with_rest]
TERMINALS = ["1"] * 30 + ["2", "9999", "10000", "0", "01", "", "x", "-1", "1\t"]


def drawn_line(drawn: Random) -> bytes:
    """A line of the wire, with its line feed; or nothing."""
    if drawn.randrange(12) == 0:
        return b""
    # the right line is drawn apart, by a seed: a difference shrinks to one change of one line all the same
    draw = Draw(Random(drawn.randrange(SEEDS)), drawn.randrange(2))
    plain, other = draw.line()
    texts = [f"S {name}={quoted(text)}" for name, text in draw.texts]
    text = drawn.choice(CHANGES)(drawn, drawn.choice([plain, other, *texts]))
    return f"{drawn.choice(TERMINALS)} {text}".encode("latin1") + drawn.choice([b"\n", b"\n", b"\n", b"\r\n"])


def wanted_endings(stream: bytes) -> list[bytes | None]:
    """Whose replies are to come: a terminal's; or what is answered to a line that is none of the wire."""
    wanted = []
    for line in stream.split(b"\n")[:-1]:
        line = line.removesuffix(b"\r")
        terminal = WIRE.match(line)
        if len(line) > LONGEST:
            wanted.append(b"?!ZLINE")
        elif line:
            wanted.append(terminal[1] if terminal else b"?!ZWIRE")
    return wanted


def endings(output: bytes) -> list[tuple[bytes, bytes]]:
    """The last line of each reply: whose it is, and the line."""
    found = ((ENDING.fullmatch(line), line) for line in output.split(b"\n"))
    return [(match[1] or match[3], line) for match, line in found if match]


def judge(stream: bytes, language: int) -> list[bytes]:
    """The last lines of the replies to a stream by a language, which are as they should be, however it is cut."""
    status, output, told = run(stream, OF_LANGUAGE[language])
    assert (status, told) == (0, b"")
    assert not output or output.endswith(b"\n")
    ends = endings(output)
    assert [line if whose == b"?" else whose for whose, line in ends] == wanted_endings(stream)
    for size in PIECES:
        assert (size, run_in_pieces(stream, size, OF_LANGUAGE[language], None)) == (size, (0, output, b""))
    return [line for _, line in ends]


@pytest.mark.parametrize("form", ["1 {}\n", "{}\n", "1 {}"], ids=["a line", "without a terminal", "without a line feed"])
@each_language
def test_each_cut_of_a_long_line(form: str, language: int) -> None:
    long = LONGS[language]
    cuts = [form.format(long[:place]).encode("ascii") for place in range(len(long) + 1)]
    if form.endswith("\n"):
        judge(b"".join(cuts), language)
        return
    for line in cuts:
        status, output, told = run(line, OF_LANGUAGE[language])
        assert (line, status, told, [whose for whose, _ in endings(output)]) == (line, 0, b"", [b"1"])


@pytest.mark.parametrize("text", NESTED, ids=range(len(NESTED)))
@each_language
def test_a_line_that_nests_or_counts(text: str, language: int) -> None:
    judge(f"1 {text}\n1 W 1\n".encode("ascii"), language)


@pytest.mark.long
@each_language
def test_drawn_lines(count: int, language: int) -> None:
    """They end in many ways, none of them out of memory or room."""
    codes: Counter[bytes] = Counter()
    streams = count * STREAMS // 2

    @settings(max_examples=streams)
    @given(st.randoms(use_true_random=False))
    def answered(drawn: Random) -> None:
        stream = b"".join(drawn_line(drawn) for _ in range(LINES))
        note("\n".join(map(repr, stream.split(b"\n"))))
        codes.update(line.rpartition(b"!")[2] for line in judge(stream, language))

    answered()
    print(codes.total(), codes)
    assert codes.total() >= 0.75 * streams * LINES
    assert not set(codes) & {b"ZMEM", b"ZSTORE"}
    assert set(codes) >= {b"1.", b"ZSYNTAX", b"ZWIRE", b"ZLINE", b"ZTERM", b"ZCHAR", b"ZDEPTH", b"ZSTEPS", b"ZOVER", b"M6", b"M13"}
