# SPDX-License-Identifier: Apache-2.0
"""What is coming and GT.M does not have, in the second interpreter alone: names of globals and routines, and faults that say where.

The rules are those of wip/names-of-globals.md, whose rows are played too."""
from __future__ import annotations

import re
from pathlib import Path
from random import Random

import pytest
from against_gtm import replies
from drawn_forms import quoted
from mserve_client.settings_file import Account, Grant, Settings
from running import TOP
from second_interpreter.languages import COMING
from second_interpreter.world import World, deep

GRANTED = (("X", "read"), ("X", "write"), ("NONE", "write"), ("Z", "read"), ("ROUTINE", "read"))
TWO = str(Settings((Account("A", (1,), 900), Account("B", (2,), 60)), tuple(Grant("B", "A", name, mode) for name, mode in GRANTED)))
STORED = ["1 S ^A=1,^B(1,2)=3,^ROUTINE(\"R\",1)=\"R Q\",^ROUTINE(\"a b\",1)=1,^ROUTINE(7,1)=1,^ROUTINE(\"T\",2)=\" Q\"",
          "2 S ^A=1,^X(1)=2,^Z=3,^ROUTINE(\"L\",1)=\"L Q\",^(\"x-\")=1"]
LISTED = [
    ('W $O(^$GLOBAL("")),$O(^$G("^A")),$o(^$global("^B")),$O(^$G("^ROUTINE")),"|"', "^A^B^ROUTINE|"),
    ('W $O(^$G(""),-1),$O(^$G("^B"),-1),$O(^$G("^A"),-1),"|"', "^ROUTINE^A|"),
    ('W $O(^$G("A")),$O(^$G("^AB")),$O(^$G("^B(1)")),$O(^$G(9)),$O(^$G("zz")),"|"', "^A^B^ROUTINE^A|"),
    ('W $D(^$G("^A")),$D(^$G("^B")),$D(^$G("A")),$D(^$G("^C")),$D(^$G("^A(1)"))', "11000"),
    ('W $O(^$R("")),$O(^$ROUTINE("R")),$O(^$R("T")),"|",$O(^$R(""),-1)', "RT|T"),
    ('W $D(^$R("R")),$D(^$R("a b")),$D(^$R(7)),$D(^$R("L"))', "1000"),
    ('W $O(^$|"A"|G("")),$D(^$|"A"|G("^B"))', "^A1"),
    ('W $O(^$|"B"|G("")),$O(^$|"B"|G("^X")),$O(^$|"B"|G("^ROUTINE")),$O(^$|"B"|G("^Z")),"|"', "^ROUTINE^Z^X|"),
    ('W $D(^$|"B"|G("^X")),$D(^$|"B"|G("^NONE")),$D(^$|"B"|G("^A"))', "100"),
    ('W $O(^$|"NOBODY"|G("")),$D(^$|"NOBODY"|G("^X")),$O(^$|"B"|R("")),$D(^$|"B"|R("L")),$D(^$|"B"|R("R"))', "0L10"),
    ('I $D(^A),$O(^$G(""))="^A" W $NA(^(5))', "!M1"),
    ('W $D(^B(1)),$O(^$G("")),$NA(^(5))', "10^A^B(5)"),
    ('W $D(^$G(""))', "!ZSUB"),
    ('W $O(^$G($J("",256)))', "!ZSUB"),
    ('W $O(^$G(""),2)', "!ZARG"),
    ('W $O(^$|NO|G(NO2))', "!M6"),
    ('W $O(^$G(""),NO)', "!M6"),
    ('W ^$G("")', "!ZSYNTAX"),
    ('W $G(^$G("^A"))', "!ZSYNTAX"),
    ('W $O(^$G("",1))', "!ZSYNTAX"),
    ('W $O(^$G)', "!ZSYNTAX"),
    ('S X="^$G("""")" W $O(@X)', "!ZSYNTAX"),
    ('W $O(^$JOB(""))', "!ZSYNTAX"),
]


def answered(lines: list[str], detail: bool = False) -> list[str]:
    """What each line is answered, in one text: what it writes, and after a `!` its code."""
    given = "".join(f"{line}\n" for line in lines).encode("ascii")
    output = deep(lambda: World(TWO, COMING, detail).replies(given)).decode("ascii")
    return [reply.text + (f"!{reply.code}" if reply.code else "") for reply in replies(output)]


@pytest.mark.parametrize(("line", "answer"), LISTED)
def test_names_of_globals_and_routines(line: str, answer: str) -> None:
    assert answered([*STORED, f"1 {line}"]) == ["", "", answer]


def test_each_granted_name_that_is_asked_costs_a_step() -> None:
    """From NONE on: NONE is asked, which is not there, then ROUTINE; of one's own names the first is found at once."""
    for line, steps in (('W $O(^$|"B"|G(""))', 4 + 2), ('W $O(^$|"B"|G("^NONE"))', 4 + 1), ('W $O(^$G(""))', 3), ('W $O(^$R(""))', 3 + 1),
                        ('W $O(^$R("R"))', 3), ('W $O(^$R("T"))', 3 + 1)):
        for given, is_enough in ((steps - 1, False), (steps, True)):
            world = World(TWO, COMING)
            for stored in STORED:
                world.replies(f"{stored}\n".encode("ascii"))
            world.accounts[1].steps = given
            assert (line, given, b"ZSTEPS" not in world.replies(f"1 {line}\n".encode("ascii"))) == (line, given, is_enough)


def test_a_name_that_no_grant_lets_through_changes_no_answer() -> None:
    """What B has besides its granted globals is not seen by A, whatever A asks for."""
    drawn = Random(69)
    for _ in range(60):
        asked = [f'1 W ${drawn.choice("OD")}(^$|"{drawn.choice(["B", "NOBODY"])}"|{drawn.choice("GR")}'
                 f'("{drawn.choice(["^A", "^X", "^Y", "^", "L", "^ROUTINE", "^NONE", "^XA"])}"))'
                 for _ in range(8)]
        hidden = [f"2 S ^{drawn.choice(['A', 'Y', 'XA', 'XX', 'C'])}({number})=1" for number in range(3)]
        assert answered([*STORED, *hidden, *asked])[-8:] == answered([*STORED, *asked])[-8:]


NOTE = Path(TOP, "wip", "names-of-globals.md")
LONG = "S234567890123456789012345678901"
INVOICES = {
    "INV": ["INV ;", "BILL S N=2", " S M=3", " D TOTAL^STOCK(N)", 'TEXT X "S A=1 W B(A)"', 'BAD X "W 1)" Q', "ST S N(1)=1 W", "VALUE Q 5", "LOOP F I=1:1:3 K I",
            "DIRECT D NONE W 1", "DOT D  Q", " . S Y=1 D PRICE+1^STOCK"],
    "STOCK": [' W "first"', "TOTAL(N) S X=N", ' W ""', ' S X=X+1 I X>N  S X(1)=1 W X(1,"a b")', "PRICE ;", ' W ^P("x",1) Q', "F(N) W:N>5 1/0 Q N", "G(N) Q:N=0",
              " Q $$G(N-1)", "SYN W )", "DEEP S D=$G(D)+1 D DEEP:D<12 W NO"],
    LONG: [LONG, *[" ;"] * 9, f" S D=$G(D)+1 D {LONG}+10:D<12 W @X"],
}
DETAILS = [
    ("D BILL^INV", '!M6 TOTAL+2^STOCK,4 X(1,"a b") < BILL+2^INV < *'),
    ("S A=1   W A W A,B(A)", "11!M6 *,3 B(1)"),
    ("S A=1 ZZ", "!ZSYNTAX @6"),
    ("S A=1  W A)", "!ZSYNTAX @7"),
    ("S A=1W A", "!ZSYNTAX @0"),
    ("D ST^INV", "!ZSYNTAX ST^INV < *"),
    ("D TEXT^INV", "!M6 X,2 B(1) < TEXT^INV < *"),
    ("D BAD^INV", "!ZSYNTAX BAD^INV,1 < *"),
    ('X "W 1)"', "!ZSYNTAX *,1"),
    ('S A="B(" W @A', "!ZSYNTAX *,2"),
    ("D DOT^INV", '!M7 PRICE+1^STOCK,1 ^P("x",1) < DOT+1^INV < DOT^INV < *'),
    ('W ^P("b"_$C(9),"c\\",2)', r'!M7 *,1 ^P("b\09","c\5C",2)'),
    ('W ^|"B"|X(7)', '!M7 *,1 ^|"B"|X(7)'),
    ('W ^|"B"|Y(1)', "!ZGRANT *,1"),
    ("W $$F^STOCK(3)+$$F^STOCK(7)", "!M9 F^STOCK,1 < *"),
    ("W $$G^STOCK(2)", "!M17 G^STOCK,1 < G+1^STOCK < G+1^STOCK < *"),
    ("D VALUE^INV", "!M16 VALUE^INV,1 < *"),
    ("Q 5", "!M16 *,1"),
    ("F I=1:1:3 Q:I=2 5", "!M16 *,2"),
    ("W 1 D LOOP^INV", "1!M15 LOOP^INV,1 < *"),
    ("D DIRECT^INV", "!M13 DIRECT^INV,1 < *"),
    ("I 1 D NONE+2^INV", "!M13 *,2"),
    ("D ^STOCK", "first!M11 TOTAL^STOCK < *"),
    ("G ^STOCK", "first!M11 TOTAL^STOCK"),
    ("D PRICE^STOCK(1)", "!M20 *,1"),
    ("D F^STOCK(1,2)", "!M58 *,1"),
    ("G SYN^STOCK", "!ZSYNTAX SYN^STOCK"),
    ('X "X ""W NO"""', "!M6 X,1 NO < X < *"),
    ('S X="X X" X X', "!ZDEPTH X,1 < X < X < X < X < X < X < X < X < .."),
    ("D DEEP^STOCK", "!M6 DEEP^STOCK,3 NO" + " < DEEP^STOCK" * 8 + " < .."),
    ("L +(A,^B(1)) W NO", "!M6 *,2 NO +2"),
    ('W NO(1,"a < b^c",1)', '!M6 *,1 NO(1,"a < b^c",1)'),
    (f'W NO("{"a" * 70}")', f'!M6 *,1 NO("{"a" * 56}'),
    ("F  S A=1", "!ZSTEPS *,2"),
    ("W 1/0", "!M9 *,1"),
    ("W 1 H", "1"),
]


def in_store() -> list[str]:
    """Lines that store the routines."""
    return [f"1 S ^ROUTINE({quoted(name)},{number})={quoted(text)}" for name, lines in INVOICES.items() for number, text in enumerate(lines, 1)]


@pytest.mark.parametrize(("line", "answer"), DETAILS)
def test_a_fault_says_where(line: str, answer: str) -> None:
    given = [*in_store(), f"1 {line}"]
    assert answered(given, detail=True)[-1] == answer
    # without details the reply is as it was: what comes before the first space after the code
    assert answered(given)[-1] == re.sub(r"(![A-Z][A-Z0-9]*) .*", r"\1", answer)


# For each code a command that ends by it, with what is said after its place.
CODES = [
    ("M1", "S A=$D(^A),A=^(1)"), ("M2", 'W $FN(1,"P+")'), ("M4", "W $S(0:1)"), ("M5", "W $T(L+-1)"), ("M6 NO", "W NO"), ('M7 ^NO("x")', 'W ^NO("x")'),
    ("M9", "W 1/0"), ("M10", "W 1?2.1N"), ("M12", "D L+-1^C"), ("M13", "D NONE^C"), ("M13", "G ^NONE"), ("M15", "F I=1:1:3 K I"), ("M17", "W $$V^C()"),
    ("M19", "M A=A(1)"), ("M20", "D N^C(1)"), ("M28", "W 2**.5"), ("M58", "D P^C(1,2)"), ("M90", 'W $QL("(")'), ("M94", "W 0**0"), ("ZARG", "W $O(A)"),
    ("ZCHAR", "W $C(200)"), ("ZGRANT", 'W ^|"B"|Y'), ("ZLEVEL", "D DOT^C"), ("ZLONG", 'S A=$J("",5000)'), ("ZOVER", 'W "1E18"+0'), ("ZSUB", 'S A("")=1'),
    ("ZSYNTAX", 'W @"("'), ("ZSYNTAX", 'X "("'),
]


@pytest.mark.parametrize(("told", "command"), CODES)
def test_each_code_has_its_place(told: str, command: str) -> None:
    """In a terminal's line, a routine, an XECUTE in a routine, and a function: as the second command, after one that is done."""
    code, _, name = told.partition(" ")
    lines = ["C Q", "N Q", "V() Q", "P(X) Q", "DOT . Q", f"L S B=1 {command}", "Q", f"X S B=1 X {quoted('S C=1 ' + command)}", f"F() S B=1 {command}", " Q 1"]
    stored = [f"1 S ^ROUTINE(\"C\",{number})={quoted(text)}" for number, text in enumerate(lines, 1)]
    given = [f"1 S B=1 {command}", "1 D L^C", "1 I 1 D X^C", "1 W $$F^C()"]
    within = "V^C,1 < " if code == "M17" else ""
    places = [(f"{within}*", ""), (f"{within}L^C", " < *"), (f"{within}X", " < X^C < *"), (f"{within}F^C", " < *")]
    wanted = [f"!{code} {place if within else place + ',2'}{f' {name}' if name else ''}{outward}" for place, outward in places]
    assert answered([*stored, *given], detail=True)[-4:] == wanted


def test_a_reply_with_details_has_800_bytes_at_most() -> None:
    """Places that do not fit are left out whole; what is held locked is named all the same."""
    names = ",".join(f"L{number}" for number in range(12))
    lines = [*in_store(), f"1 L +({names})", '1 S X="NO("""_$TR($J("",70)," ",$C(1))_""")"', f"1 D {LONG}+10^{LONG}"]
    last = deep(lambda: World(TWO, COMING, detail=True).replies("".join(f"{line}\n" for line in lines).encode("ascii"))).decode("ascii").splitlines()[-1]
    place = f" < {LONG}+10^{LONG}"
    assert len(last) <= 800 < len(last + place) and last.endswith(f"{place} < .. +12") and last.count(place) == 7


@pytest.mark.skipif(not NOTE.exists(), reason="its rules are in the documents by now")
def test_rows_of_the_note() -> None:
    """Each line of its tables, in the order of the note: of names with the answer or the code, of faults with the reply's last line."""
    rows = [(line.replace("\\|", "|"), answer.replace("\\|", "|")) for line, answer
            in re.findall(r"^\| `([^`]* [^`]*)` \| `([^`]*)` \|", NOTE.read_text(encoding="ascii"), re.MULTILINE)]
    assert len(rows) >= 45
    for line, answer in rows:
        lines = [*STORED, *in_store(), f"1 {line}"] if answer.startswith("1!") else [*STORED, f"1 {line}"]
        last = deep(lambda: World(TWO, COMING, answer.startswith("1!")).replies("".join(f"{one}\n" for one in lines).encode("ascii"))).decode("ascii")
        found = last.splitlines()[-1] if answer.startswith("1!") else answered(lines)[-1].removeprefix("!")
        assert (line, found) == (line, answer)
