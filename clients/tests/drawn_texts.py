# SPDX-License-Identifier: Apache-2.0
"""Texts that look like lines of M, drawn at random: rows of its parts, right ones and wrong ones, and lines of routines with a fault put in."""
from __future__ import annotations

from random import Random

PARTS = [
    "S ", "SET ", "W ", "I ", "E  ", "F ", "F  ", "Q", "Q  ", "Q:", "D ", "D  ", "K ", "N ", "X ", "L ", "G ", "H", "h ", "set ", "zz", "SE",
    "A", "B1", "%X", "A(1)", "^A", "^B(1)", "^(1)", '^|"X"|A', "@A", "@A@(1)", "@", "^R", "A^R", "A" * 31, "A" * 32, "(", ")", "(1)", "(A,B)", ",", ":", "=",
    '"a"', '"a""b"', '"', "1", ".5", "1.5E3", "1E", "1e3", ".", "..", "{", "+", "-", "'", "*", "/", "\\", "#", "_", "<", ">", "[", "]", "]]", "&", "!", "?1N",
    '?.A1"x"', "?1(1N,.A)", "'?.(", "?", "?5.", "?12345N", "'?", "?@A", "$T", "$TEST", "$t", "$L(A)", '$P(A,",",2)', "$P(", "$O(^A(1),-1)", "$D(A)",
    "$D(1)", "$S(A:1,1:2)", "$S(",
    "$E(A,1)", "$J(1,2)", "$C(65)", '$TR(A,"a","b")', "$G(A,1)", "$RE(A)", "$reverse(", "$RE(1,2)", "$J(1,2,3)", "$J", "$IO", "$p", "$STORAGE", "$X", "$y",
    "$X(", "?A", "!?5,", "#?", "H 1", "HANG A:", "H", "HALT", "**", "2**3", "$FN(A,1)", "$fnumber(", "$E(A,1,2)=", "S $E(A)=1", "$P(A,1,2,3)=", "$$F",
    "$$F(", "$$^R(.B,", "$$A^R", "@$$A", "$S($$A:", "$H",
    "$", " ", "  ", ";x", "\t", "L +A:0", "!!", "W !,", "S A=", "S (A,B)=", "K (A)", "N (A)",
    "(.A", "(.@A)", "(,.B)", "()", "D A(", "D ^R()",
    '^|"X"|R', 'A^|"X"|R', 'D ^|"', '|"A""B"|', "|A|",
    "Q A", "$Q", "$quit", ".A", "D A^R:A,^B", "I A=1 ", "F I=1:1:3 ", "X @A:1", "D @A", "L +(A,^B)", "(" * 39,
    "@" * 20,
]

# Lines with forms of later languages.
LATER = ["W $RE(A)", 'S A=$RE("ab")_1,B=$reverse(A) Q:B=""  W $L($RE(B_$RE(A)))', "I $RE(A)=A,$RE(A)]B W -$RE(A)+1", "F I=1:1:$RE(21) S ^A($RE(I))=I",
         "K @$RE(A),^A($RE(1))", "W #,A,!#!!,*65,*A+1,!", "W ?5,!?$X+2,A,#!?A(1)*2,B?1N,!!", 'W:$X ?A,*$Y+65,?@A,! S A=$X_$y,B=$x-1 I $X<$Y W ?-1,@A',
         "W 12?1(1\"A\",2N),A'?.(.aU3\"(\",1.2(1N,0(.1A)))1E=1", "I (A?1(1N,1A))=(B'?3(2.P).C) S A(A?.1(1N,1(1U)2L))=$S(B?1(1E):1,1:2)",
         "W:A *$A(B),#", "W A?@B,A'?@B(1)", "I A?@A_1?@@B@(1) W $S(A'?@($RE(B)):1,1:A?1N)", "W $J(A,8,2),$JUSTIFY(1,2,3)",
         'S A=$J(B_1,5,$RE(20))+1 I $J(A,1,0)=A W $J(A,2),$J(A,$J(1,1,0),1)',
         "S ^TMP($J,$IO)=$STORAGE,$P(A,$P)=$S W $J($J,$I),$principal_$job", "H 5 HANG:B A,$J W 1 H:A .5,-A", "H:$J  HALT:$I  H @A,1 W 2",
         "D A(1,.B,,.@C,.@(D_1)),B^R(),^R(A(1),.%X):C N A Q:B A_1", 'D:$Q A($D(A),"x",.5,-.5)  Q:$QUIT  D @A(1),@A,A(,) Q $RE(A)',
         "F I=1:1:3 D A^R(I,.I,) Q:I=2  W $quit Q I**2",
         'D A^|"LIB"|R(1,.B):C,^|"LIB"|R,^|""|%R():A G:B A^|"A ""B"""|R:A,^|"LIB"|R', 'X "D A^|""LIB""|R" D A^|"^(|"|R,@A,B G ^|"B"|R',
         "W $$A,-$$A(1)+$$^R(.B,,$$B),($$A_1),$L($$A) D A($$B,.@$$C):$$A G A:$$B", "S A(1)=$$A,(B,C)=$$A**2 I $$A,'$$A X $$A:$$B H $$A Q:$$B  Q $$A($$A(1))",
         'W ?$$A,*$$A,$$A^|"LIB"|R(1) F I=1:1 S A=$$B(I) Q:$$A=A',
         'W A($$B(1),^C($$D)),$G(A($$B),$$C)_$O(^|$$A|B($$C),-$$D),$S($$A:B,@$$C@(1):$$D) I @$$A=1,A?@$$B X @$$A:$$B Q:$D(A(@B($$C)))  Q ^($$A)',
         "S A($$B)=1,(A,^B($$C,$$D))=2,$P(A($$B),$$C,$$D)=3,$E(@$$A,$$B)=4 K A($$B),^($$C),@$$D L +(A($$B),@$$C):$$D,-A:$$B",
         "F I=$$A,$$B:$$C,$$D:1:$$E W @$$A,@$$B_1 D @$$A,@B I @$$A,@$$B X @$$A,@$$B:$$C N @$$A,B G @$$A",
         "W 2**3,A**-B**(1+C)", "S A=2**B*2 I A**2>B,-A**2 S ^A(A**2)=A*B**2",
         'W $FN(A,","),$FNUMBER(A,"P",2)', 'S A=$FN(B_1,$RE("T,"),$J(1,1,0))_"x" I $FN(A,"")=A W $L($FN($FN(A,"-"),B))',
         'W $QL(A),$QS("A(1)",$QL(B)),$qlength("A"_$qsubscript(A,-1)) S A($QL(A))=$QS(A,B)_1',
         'W $NA(A),$NAME(^(1,A),$NA(B)),$na(@A@(1),2) S A($NA(^|"X"|A(B)))=$L($NA(@$NA(A(1)),0))_1',
         "W $NA(A($$B)),$NA(^($$C,A),$$B),$na(^|$$A|B(1),-$$C) I $NA(@$$A@(1))=A",
         'W $Q(A),$QUERY(^(1,A),-$Q(B)),$q(@A@(""),-1) S A($Q(^|"X"|A(B)))=$L($Q(@$Q(A(1)),1))_1',
         "W $Q(A($$B)),$Q(^($$C,A),$$B),$q(^|$$A|B(1),-$$C) I $Q(@$$A@(1))=A",
         'W $I(A),$INCREMENT(^(1,A),-$I),$i(@A@(1),$I(B)) S A($I(^|"X"|A(B)))=$L($I(@$NA(A(1)),.5))_$I',
         "W $I(A($$B)),$I(^($$C,A),$$B),$i(^|$$A|B(1),-$$C) I $I(@$$A@(1))=A",
         'M A=B,^A(1)=^(2,A),@A@(1)=@B,^|"X"|C=^|D|E($I(F)) MERGE:A @A,@B@(2)=@A,@(C_D)  ;x', 'M:$I(A)>1 ^A($I(B))=C(1,@D) merge ^(1)=^(2) Q',
         "M A($$B)=^C($$D,1),@$$E@(1)=@$$F,^($$G)=^|$$H|I M @$$A,@A@(1)=B(@$$C) MERGE:$$D A=B($I(C,$$E))",
         'S $E(A)=1,$EXTRACT(^A(1),2)="b",($E(A,2,3),$e(@A,$E(A)))=B', 'S $P(A,",",2,3)=1,($P(^A,"x",1,2),B)=$P(A,",",2,3) W A']


def drawn_texts(draw: Random, lines: list[str], count: int) -> list[str]:
    """This many texts that fit into a line of the wire after `Q  `."""
    found = []
    while len(found) < count:
        text = row(draw) if draw.random() < .5 or not lines else changed(draw, draw.choice(lines))
        if len(text) <= 250 and not set(text) & set("\n\r\0"):
            found.append(text)
    return found


def row(draw: Random) -> str:
    """Parts in a row."""
    return "".join(draw.choice(PARTS) for _ in range(draw.randint(0, 9)))


def changed(draw: Random, line: str) -> str:
    """A line with a part put in, or in the place of some characters; or as it is."""
    if draw.random() < .3:
        return line
    place = draw.randint(0, len(line))
    return line[:place] + draw.choice(PARTS) + line[place + draw.randint(0, 2):]
