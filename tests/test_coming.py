# SPDX-License-Identifier: Apache-2.0
"""What is coming and the program does not have yet: the second interpreter (tests/second_interpreter) beside GT.M. So it is for $TEXT, and for entries with
labels of digits, offsets and indirection. Lines with parameters, functions, names and MERGE, which came before, are played here too.

What GT.M answers otherwise has its reason in tools/gtm_differences.toml, in rows with `coming`."""
from __future__ import annotations

import os
from pathlib import Path
from random import Random

import against_gtm
import pytest
from against_gtm import Reply, alike, replies
from drawn_forms import quoted, session
from gtm import Gtm, gtm_folder
from running import OF_LANGUAGE, ONE_ACCOUNT
from second_interpreter.languages import COMING
from second_interpreter.world import World, deep
from support import content

needs_gtm = pytest.mark.skipif(gtm_folder() is None and not os.environ.get("CI"), reason="GT.M is not there: apt-get install fis-gtm")
# A session of this many lines each; some 2,000 lines.
SESSIONS = 120
# Routines, and lines over them: what GT.M answers to each, this interpreter has to. What is answered otherwise is a row of tools/gtm_differences.toml.
CALLED = {"F": '''F(X,Y) S X=X+1,Z=$G(Y,"none") Q
V(X) S X=X*2 Q X
E() Q 7
N Q
N7 Q 7
NV(X) Q
T(X) I X
 Q X+1
FAC(N) Q:N<2 1 Q N*$$FAC(N-1)
FIB(N) I N<2 Q N
 Q $$FIB(N-1)+$$FIB(N-2)
SW(B,A) N T S T=A,A=B,B=T Q
K(X) K X Q
KS(X) K X S X=3 Q
KA(X) K  Q
KE(X) K (X) Q
KE2(X,Y) K (Y) W $D(X),$D(Y),$D(A),$D(B),$D(C) S X=9 Q
KE3(X) K (A) W $D(X),$D(B) Q
KN(X) K X(1) W $D(X),$D(A) S X(2)=4 W $D(A(2)) Q
NW(X) N X S X=9 Q
NA(X) N A S A=5 W X Q
NE(X) N (X) S X=8 Q
NE2(X) N (A) W $D(X) S X=1,A=2 Q
NN(X) N
 S A=5 Q A
N1(X) N  S X=3 D N2(.X) W X Q
N2(Y) S Y=Y+1 N (Y) S Y=Y+1,X=88 Q
DEEP(X) S X=X+1 D NW(.X) Q
REC(X,N) I N=0 S X=X_"end" Q
 D REC(.X,N-1) S X=X_N Q
NREC(X,N) N A Q:N=0  S A=N D NREC(.A,N-1) S X=X_A Q
TW(X,Y) S X=1 W Y S Y=2 W X Q
TW2(X,Y) N X S X=5,Y=6 D TW3(.X,.Y) Q
TW3(A,X) S A=A+1,X=X+1 W A,X N A S A=99 W $D(X) Q
XEN(X) X "N X S X=100 D K^F(.X)" Q $G(X,"no")
FK(X) F I=1,2 K X
 Q $D(X)
FX(X) N I F I=1:1:3 D  Q:X>5
 . S X=X+I
 Q X
FI(X) F I=1:1:3 Q:I=2 5
 Q 1
GO(X) G TO
 Q 0
TO Q X
GF(X) F I=1:1:3 G TI:I=2
 Q 0
TI Q I
GX(X) X "G TO" Q X
DB(X) D  Q X
 . S X=X+1
 . I 0
 Q
DV() D  Q 3
 . Q 5
 Q
DQ() D  Q R
 . S R=$QUIT
 Q
DD(X) D  D  Q X
 . N X S X=100 D  Q
 . . S X=X+1 W X
 . S X=X_"!"
 Q
Q(X) Q:$QUIT X Q
QF() F I=1:1:2 S R=$QUIT
 Q R
SA() S A=A_"a" Q A
SI(X) S X=$G(X)+1 Q X
W(X) W "<",X,">" Q X
NAK(X) S ^A(9,9)=X Q X
ERR(X) I 0
 Q X_NOPE
ST(X) I X S Z=$$ST(X-1)
 Q $T
D3(X,Y,Z) Q $D(X)_$D(Y)_$D(Z)
IND(X) Q @X
INS(X) S @X=5 Q
FALL W 1
IN(X) W 2 Q
DUP(X,X) Q
OPEN(X
NUM(1) Q
SP (X) Q
NEAR(X)Q
DOT(X) . W 1
 Q
DE(N) Q:N=0 0 Q $$DE(N-1)+1
PC(%,%A) W %,%A Q
DN(N) D:N=0 NONE(NOTHERE) D:N DN(N-1) Q
DM(N) D:N=0 NONE(1) D:N DM(N-1) Q
HF() S A=1 H
MA(X) M X(1)=A Q
MB(X) M X=A W $NA(X(1)),$Q(X) Q
MC(X,Y) M X(1)=Y Q'''.split("\n"), "ONE": ["ONE(X) Q X_1", "L Q"], "P": '''P W "p" Q
 W "p1" Q
1 W "one" Q
01 W "zero one" Q
2(X) W $G(X,"two") Q
T W $T(+0),"|",$T(+1),"|",$T(1),"|",$T(T+0),"|",$T(NONE) X "W $T(+0),$T(01)" Q
L D 1+1,1,@"01" G P+1
X X "W $T(+0) G 01" W "x" Q
G G @"1"+1
D D  W $T(D+1) Q
 . W $T(D+1)
 . G 1:0
 . W "d"'''.split("\n")}
PARAMETERS = '''S A=1 D F^F(.A,2) W A,Z
S A=1 D F^F(A) W A,Z
S A=1 D F^F(.A,) W A,Z
D F^F W $G(X),Z
D N^F()
D N^F(1)
D NV^F(1) W 1
D E^F(1)
D F^F(1,2,3)
D NONE^F(1)
D NONE^F($$W^F(1))
D N^F($$W^F(1))
D NV^F($$W^F(1),$$W^F(2))
D F^F(1,NOTHERE,3)
D NV^F(,)
D NV^F(.5) W 1
D NV^F(..5) W 1
D NV^F(.A+1) W 1
D NV^F(.A(1))
D NV^F(.^A)
D NV^F( A)
D NV^F(A )
D NV^F (A)
D ^ONE(1)
D DOT^F(1)
G F^F(1)
I 1 D T^F(0) W $T
S A=1,B=2 D SW^F(.A,.B) W A,B
S A=1,A(1)=2 D K^F(.A) W $D(A)
S A=1 D KS^F(.A) W A
S A=1,B=2 D KA^F(.A) W $D(A),$D(B)
S A=1,B=2 D KE^F(.A) W $D(A),$D(B)
S A=1,B=2,C=3 D KE2^F(.A,.B) W A,B,$D(C)
S A=1,B=2,C=3 D KE2^F(.A,.A) W A,$D(B)
S A=1,B=2,C=3 D KE2^F(A,.B) W $D(A),B
S A=1,B=2 D KE3^F(.A) W $D(A),$D(B)
S A=1,B=2 D KE3^F(.B) W $D(A),$D(B)
S A=1,A(1)=2,A(1,1)=3 D KN^F(.A) W $D(A),$D(A(1)),$D(A(2))
S A=1 D NW^F(.A) W A
S A=1 D NA^F(.A) W A
S A=1,B=2 D NE^F(.A) W A,B
S A=1,B=2 D NE2^F(.A) W $D(A),$D(B),A
S A=1,B=2 D NE2^F(.B) W A,B
S A=1,B=2 W $$NN^F(.A),A,B
S A=1 D N1^F(.A) W A,$D(X)
S A=3 D DEEP^F(.A) W A
S A="p" D REC^F(.A,4) W A
S A="p" D NREC^F(.A,3) W A
S A=0 D TW^F(.A,.A) W A
S A=1,B=2 D TW2^F(.A,.B) W A,B
S A=1 D TW2^F(.A,.A) W A
S A=1,B=2,X=7 D TW2^F(.X,.B) W A,B,X
K A D K^F(.A) W $D(A)
K A D KS^F(.A) W A
S B="A",A=1 D K^F(.@B) W $D(A)
S A(1)="B",B=1 D K^F(.@A(1)) W $D(B)
S B="A(1)" D K^F(.@B)
S B="^A" D K^F(.@B)
S B="5" D K^F(.@B)
S B="" D K^F(.@B)
S X="Y" D INS^F(.X) W X,$G(Y)
S X="X" D INS^F("X") W X
S A="K^F(.B),K^F(.C)",B=1,C=2 D @A W $D(B),$D(C)
D PC^F(1,2)
D FALL^F
D DUP^F(1,2)
D DUP^F W 3
D OPEN^F(1)
D OPEN^F
D NUM^F(1)
D NUM^F
D SP^F(1)
D SP^F
D NEAR^F(1)
Q 5
F I=1:1:2 Q 3
X "Q 4"
D E^F
D N7^F
S A=2 W $$XEN^F(.A),A
S A=1 W $$FK^F(.A),$D(A)'''.split("\n")
FUNCTIONS = '''W $$V^F(4)
S A=4 W $$V^F(A),A
S A=4 W $$V^F(.A),A
W $$E^F()
W $$E^F
W $$N^F()
W $$N^F
W $$N7^F
W $$NV^F(1)
W $$NONE^F($$W^F(1))
W $$NV^F($$W^F(1),$$W^F(2))
W $$^ONE(4)
W $$ E^F
W $$E^F ()
W $$
I 1 S X=$$T^F(0) W $T,X
I 1 W $$ST^F(2),$T
I 1 W $$DB^F(1),$T
I 1 S X=$$ERR^F(3)
W $$FAC^F(6)
W $$FIB^F(9)
W $$Q^F(3)
D Q^F(3) W 1
W $$QF^F(),$$DQ^F(),$QUIT
W $$FI^F(1)
W $$DV^F()
W $$DD^F(1)
S A=0 W $$FX^F(.A),A
W $$GO^F(3),$$GF^F(1)
W $$GX^F(3)
S A="x" W A_$$SA^F()_A
W $$D3^F,$$D3^F(),$$D3^F(1),$$D3^F(,1),$$D3^F(,,1)
S B(1)=1 W $$D3^F(.A,.B)
W $$V^F($$V^F(3))
S A(1)=2 W $$V^F(A(1))
W $S($$E^F()=7:1,1:0)
S A($$E^F())=3 W A(7)
X "W $$V^F(2)"
S A="$$V^F(5)" W @A
S A="B=$$V^F(2)" S @A W B
S A="$$V^F(2)=4" I @A W "y"
S A="$$V^F(5)" W @A+1
S A="$$V^F(5)" W $G(@A)
S A="B",@A@($$V^F(2))=3 W B(4)
S A="B" S B=4 W $$IND^F(A),$$IND^F(.A)
W @$$W^F("A")
S @$$W^F("A")=3 W A
W $$DE^F(20)
S A=1 W $$SI^F(.A)_$$SI^F(.A)_A
S A=1 W A+$$SI^F(.A)+A
S A=1,A(1)=5,A(2)=6 W A(A)_A($$SI^F(.A))_A(A)
S A=1 S A(A)=$$SI^F(.A) W $D(A(1)),$D(A(2))
S A=1 S (A,B)=$$SI^F(.A) W A,B
S A=1 S $P(A,",",A+1)=$$SI^F(.A) W A
S A=1 S @("A("_A_")")=$$SI^F(.A) W $D(A(1)),$D(A(2))
S A=0 W A&$$SI^F(.A),A
S A=1 W $$D3^F(.A,$$SI^F(.A),A)
S A=1 F I=A:$$SI^F(.A):A+5 W I,","
S A=1 F I=A,$$SI^F(.A),A W I,","
S A=1 W:$$SI^F(.A)=2 A
S A=1 X "W A":$$SI^F(.A)=2
S A=1 L +^A(A):$$SI^F(.A) W A L
W *$$W^F(65)
S A=1 W A?@($$SI^F(.A)_"N"),A
I $$W^F(1),$$W^F(0),$$W^F(1) W 1
S ^A(1)=3 W $$V^F(^A(1)),^(1)
S ^A(1)=2,^A(9)=4 W $$NAK^F(^A(1)),$D(^(9)),^(9)
S ^A(1)=2 W $G(^A(1),$$NAK^F(3)),^(9)
S ^A(1,1)=5 S ^A(9)=1 S ^(4)=$$V^F(^A(1,1)) W $D(^A(4)),$D(^A(1,4))'''.split("\n")
OUTPUT = '''W $RE("abc")
W $J(2.345,8,2),$J(-.5,8,2),$J(1,0,3),$J(.999,5,2),$J(12,1,0)
W $FN(1234567.891,",",2),$FN(123,","),$FN(1234,",")
W $FN(-5,"P"),$FN(5,"P")
W $FN(-5,"T"),$FN(5,"+"),$FN(5,"T+"),$FN(-5,"-"),$FN(5,"T")
W $FN(1,"P+")
W $FN(1,"PT")
S A="abcdef",$E(A,2,3)="X" W A
S A="ab",$E(A,5)="q" W A
S A="abc",$E(A,2)="" W A
S A="abc",$E(A,3,1)="z" W A
K A S $E(A,2)="x" W A
S A="a,b,c,d",$P(A,",",2,3)="X" W A
S A="a",$P(A,",",3,4)="X" W A
S A=2 W A**3,A**0,A**-1
W 10**17
S A="abc" W A?1(2A,3A),A?1(1N,1"a").E,A?.(1A,1N)
S A="1A",B="2" W B?@"1N",B?@A
W "ab",?5,"c"
W !,"abc",$X,?2,"d",$X
W !,!!,?3,1
W *65,*66
W !?3,1
W !,$X'''.split("\n")
NAMES = r'''W $NA(A(1,2.50,"2.50","a""b",-.5,"")),$NAME(^A(1),0),$na(A(1,2),1),$NA(A(1,2),5),$NA(A(1,2),"x"),$NA(A,1)
W $NA(A(1,2),-1)
W $NA(A(NO))
S A="B(1)" W $NA(@A),$NA(@A@(2)),$NA(@A@(2),1),$D(@$NA(A(1)))
W $D(^A(1,2)),$NA(^(5)),$NA(^B(7,8,9)),$NA(^(5),1)
W $D(^A),$NA(^(5),1)
W $NA(^|"E"|A(1))
W $QL("A(1,-2,.5,""x,y"","""")"),$QL("%A1"),$QL("^|""E""|A(1,2)"),$QLENGTH("^A")
W $QL("A(1")
W $QL("")
W $QL("A(01)")
W $QL("A(B)")
W $QL("A(1)(2)")
W $QL("^(1)")
W $QS("^A(1,""a""""b"")",0),$QS("^A(1,""a""""b"")",2),$QSUBSCRIPT("A",1),$QS("A(7)",1.9),$QS("A",-1),$QS("^|""E""|A",-1)
W $QS("A(",-2)
W $QS("A(",1)
S A=1,A(1)=2,A(1,2)=3,A("x")=4 W $Q(A),$Q(A(1)),$Q(A(1,2)),$Q(A("x")),$Q(A("")),$Q(A(1,"")),$Q(A(0)),$Q(NO),$QUERY(A(3))
S ^A=1,^A(1)=2,^A(1,2)=3,^A("x",1)=4 W $Q(^A),$Q(^A(1)),$Q(^A(1,2)),$D(^(1)),$Q(^(0)),$NA(^(3))
S A(1,2)=3,A("x")=4,X="A" F  S X=$Q(@X) Q:X=""  W X,"=",@X,";"
W $I(A),A,$INCREMENT(A,-2.5),A,$i(A(1)),A(1)
S A="2abc" W $I(A,"3x"),A,$I(A(1,2,3),.5)
W $I(^A(1),$D(^B(2))),$NA(^(3)),^A(1)
W $I(A,NO)
W $I(A(NO),NO2)
S A=$I(A)+$I(A) W A,$I(A,$I(A)),A
S A=1,A(1)=2,A(1,2)=3 M B=A(1),^A=A,A(5)=A(1) W B,B(2),^A(1,2),A(5),A(5,2)
S A=1 M A(1)=A
S A(1)=1 M A=A(1)
S ^A(1)=1 M ^A=^A(1)
S ^A=1 M ^A(1)=^A
S A(1)=1 M A=A,A(2)=A(1) W A(1),A(2),$D(A)
M A=NO,^A(1)=NO W $D(A),$D(^A)
S A=1,A(1)=2,B(1)=5,B(2)=6 M A=B W A,A(1),A(2)
S ^A(1)=1,^A(1,2)=2 M ^B(3,4)=^A(1) W $NA(^(9)) M A=^A(1,2) W $NA(^(9)) K ^B
S ^A(1,2)=2,A=$D(^A(1,2)) M ^A(9)=^(2),^(8)=A W $NA(^(5)),$D(^(9)),$D(^(8))
S ^A(1,2)=2,^A(3)=3,A=$D(^A(1,2)) M ^(4)=^A(3) W $NA(^(9)),$D(^A(4))
M A(NO)=B(NO2)
M C($I(A))=D($I(A)) W A
S A="B=C",C(1)=2 M @A W $D(B),B(1) M:0 A=NO(NO)
S A="C",C(1)=2 M D=@A@(1),@"B"@(3)=@A W D,B(3,1)
S A=1 D MA^F(.A)
S A=1 D MB^F(.A)
S A=1 D MC^F(.A,.A)'''.split("\n")
PLACES = r'''W $T(+0^F),"|",$T(+1^F),"|",$T(V^F),"|",$T(V+1^F),"|",$TEXT(^F),"|",$text(E+1.9^F)
W $T(+999^F),$T(F+999^F),$T(NONE^F),$T(+1^NONE),$T(+0^NONE),$T(^NONE),$T(NONE)
W $T(1^P),"|",$T(01^P),"|",$T(1+1^P),"|",$T(001^P),"|",$T(2^P)
S A="V",B="F",C="V+1^F" W $T(@A^F),"|",$T(@A+1^@B),"|",$T(V^@B),"|",$T(@C),"|",$T(@"^F"),"|",$T(+1^@B),"|",$T(@"@C")
W $T(V+NO^F)
W $T(NONE+NO^F)
W $T(V+"1x"^F),$T(V+$L("ab")^F),$T(V+(1+1)*2^F)
S A="$T(V^F)" W @A,$L($T(E^F)),$P($T(E^F)," ",2)
F I=1:1 S A=$T(+I^P) Q:A=""  W I,"=",$L(A),";"
D 1^P,01^P,2^P
D 2^P(5),1+1^P
D P+1^P
D P+99^P
D NONE+1^P
D 1+NO^P
D NONE+NO^P
D P+1.9^P,P+"1x"^P
D 1+1^P:0 W 3 D 1+1^P:1
D L^P
D G^P
D X^P
D T^P
D T
G 1+1^P
G 1+99^P
S A=1,B="P" D @A^P,@A^@B,1^@B,@A+1^@B,@"1+1^P",@"1^P,01^P"
S A="2",B="P" D @A^P(7),@A^P(B)
S A="1+1" D @A^P
S A="1",B=0 D @A^P:B W 4 G @A^P:0,@A+1^P
S A="V",B="F" W $$@A^F(4),$$V^@(B)(5)
D @NO^P
D 1^@NO
D NONE^P(1)
X "D 1^P G 01^P" W 6
D 1,1^P
D D^P
S A="@B",B="1" D @A^P
S A="1 " D @A^P'''.split("\n")


def stream(lines: list[str]) -> bytes:
    """Lines of terminal 1 on the wire."""
    return "".join(f"1 {line}\n" for line in lines).encode("ascii")


def world(steps: int = 100_000) -> World:
    """The second interpreter, with all that is coming, over the routines; a line has this many steps."""
    found = World('[[account]]\nname = "A"\nterminals = [1]\nsteps = 100000\n', COMING)
    for name, texts in CALLED.items():
        for number, text in enumerate(texts, 1):
            assert found.line(1, f"S ^ROUTINE({quoted(name)},{number})={quoted(text)}") == ("", "")
    found.accounts[1].steps = steps
    return found


def interpreted(lines: list[str], steps: int = 100_000) -> list[Reply]:
    """What it replies to lines."""
    return list(replies(deep(lambda: world(steps).replies(stream(lines))).decode("ascii")))


def on_second(sessions: list[list[str]]) -> list[list[Reply]]:
    """The second interpreter's replies to sessions over the drawn routines."""
    given = against_gtm.stream(sessions)
    return against_gtm.by_session(sessions, deep(lambda: World(content(ONE_ACCOUNT).decode("ascii"), COMING).replies(given)))


def ended(line: str, steps: int = 100_000) -> str:
    """A line's output, with the code that ends it after a `!`."""
    return deep(lambda: "!".join(filter(None, world(steps).line(1, line))))


@needs_gtm
@pytest.mark.parametrize("lines", [PARAMETERS, FUNCTIONS, OUTPUT, NAMES, PLACES], ids=["parameters", "functions", "output", "names", "places"])
def test_lines_beside_gtm(lines: list[str], tmp_path: Path) -> None:
    """Each line, after the same beginning."""
    played = [line for one in lines for line in ("K  K ^A W !", one)]
    answers = list(zip(played, interpreted(played), Gtm(tmp_path, CALLED).play(played), strict=True))[1::2]
    assert [(line, ours, theirs) for line, ours, theirs in answers if not alike(ours, theirs)] == []


@needs_gtm
def test_each_difference_is_one() -> None:
    coming = [one for one in against_gtm.differences(coming=True) if one.is_coming]
    assert coming
    assert [fault.told() for fault in against_gtm.faults_of_rows(coming, on_second)] == []


@needs_gtm
def test_drawn_sessions_beside_gtm(count: int) -> None:
    """Sessions of what is coming, among lines of all other forms."""
    drawn, known = Random(70), against_gtm.differences(coming=True)
    played = list(against_gtm.on_both([session(drawn, COMING) for _ in range(SESSIONS * count)], on_second))
    assert [fault.told() for fault in (against_gtm.first_fault(*one, known) for one in played) if fault] == []
    assert len(played) >= 0.9 * SESSIONS * count


def test_levels() -> None:
    """A function's level is one of 256, and the next one is ZDEPTH, after its actuals are evaluated."""
    assert ended("W $$DE^F(255)") == "255"
    assert ended("W $$DE^F(256)") == "ZDEPTH"
    assert ended("S A=0 W $$DE^F(256+$$SI^F(.A))") == "ZDEPTH"
    assert (ended("D DN^F(254)"), ended("D DM^F(254)"), ended("D DN^F(255)"), ended("D DM^F(255)")) == ("M6", "M13", "M6", "ZDEPTH")
    assert interpreted(["S A=0 X \"W $$DE^F(255)\"", "W $$DE^F(254)", "D NV^F($$DE^F(255)) W 1"]) == [Reply("", "ZDEPTH"), Reply("254"), Reply("1")]


@pytest.mark.parametrize(("line", "answer", "steps"), [
    ("W $$E^F()", "7", 5),              # WRITE, the primary, the line, QUIT with its number
    ("W $$V^F(4)", "8", 9),
    ("D NV^F(1) W 1", "1", 6),
    ("D NV^F(.A) W 1", "1", 5),         # a name is no primary
    ("D NV^F() W 1", "1", 5),
    ("S A=$$DV^F()", "M16", 7),         # the value too, before M16
])
def test_steps(line: str, answer: str, steps: int) -> None:
    """A line needs just this many steps."""
    assert (ended(line, steps), ended(line, steps - 1)[-6:]) == (answer, "ZSTEPS")


def test_text_of_a_name_calls_nothing() -> None:
    """A function in it is ZSYNTAX once it is reached, before its actuals are evaluated; its operand and the subscripts after it may have some."""
    lines = ['S A="B($$W^F(1))",C=@A', 'S A="B(NO,$$W^F(1))",C=@A', 'S A="B($$W^F(1),NO)",C=@A', 'S A="B(@C)",C="D($$E^F())",C=@A',
             'S A="B",B(7)=3 W @A@($$E^F())', "W @$$W^F(\"A\")"]
    assert interpreted(lines) == [Reply("", "ZSYNTAX"), Reply("", "M6"), Reply("", "ZSYNTAX"), Reply("", "ZSYNTAX"), Reply("3"), Reply("<A>B")]


def test_queries_backward_are_those_forward_turned_round() -> None:
    """GT.M V7.0-005 has $QUERY forward alone."""
    drawn = Random(69)
    for name in ("A", "^A") * 20:
        nodes = [f"{name}({','.join(drawn.choice(['1', '-1', '.5', '10', quoted('x'), quoted('ab')]) for _ in range(drawn.randint(1, 3)))})" for _ in range(8)]
        lines = ["K  K ^A", f"S {name}=1", *(f"S {node}=1" for node in nodes),
                 f'S X=$NA({name}) F  W X,";" S X=$Q(@X) Q:X=""', f'S X=$Q({name}(""),-1) F  W X,";" S X=$Q(@X,-1) Q:X=""']
        forward, backward = [reply.text for reply in interpreted(lines)][-2:]
        assert forward.split(";")[:-1] == backward.split(";")[-2::-1] and forward.count(";") == len(set(nodes)) + 1


def test_merge_that_is_cut_short_leaves_a_first_part() -> None:
    """Each node costs a step, and is assigned in the order of the nodes."""
    lines = [*(f"S A({number})={number}" for number in range(1, 9)), "M ^A=A", 'W $O(^A(""),-1)']
    for steps in range(5, 10):
        *_, merged, last = interpreted(lines, steps)
        assert (merged.code, last.text) == ("ZSTEPS" if steps < 9 else "", str(steps - 1))


def test_halt_within_a_function_ends_the_session() -> None:
    assert interpreted(["S B=1", "W 2,$$HF^F(),3", "W $D(A),$D(B)"]) == [Reply(""), Reply("2"), Reply("00")]


@pytest.mark.parametrize("line", ["W A,$T(V^F)", "S A=$TEXT(+1)", "D 1^P", "D P+1^P", "G P+1", "D @A^P", 'X "W $T(+0)"'])
def test_no_such_form_before_it_comes(line: str) -> None:
    """By language 1 these are no lines."""
    world = World(content(ONE_ACCOUNT).decode("ascii"), max(OF_LANGUAGE))
    assert world.line(1, line) == ("", "ZSYNTAX")
