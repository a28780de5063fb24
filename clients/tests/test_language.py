# SPDX-License-Identifier: Apache-2.0
"""Where a line leaves the language, why, and what to write instead; and that the verdicts are the server's."""
from __future__ import annotations

import glob
import os
import re
from pathlib import Path
from random import Random

import pytest
import running
from conftest import ALICE, CAROL, CLIENTS, SETTINGS, Command, Server
from drawn_texts import LATER, drawn_texts
from mserve_client import language
from mserve_client.causes import CAUSES, Cause
from mserve_client.checking import GUARD, Kind, check, fault_of, findings, language_of
from mserve_client.grammar import LANGUAGES, NEW_LINES
from mserve_client.routine_files import Source, source_line

GTM = sorted(glob.glob("/usr/lib/*/fis-gtm/V*"))
# The lines of the examples, and of the clinic's routines.
OWN = [path.read_text() for path in sorted((CLIENTS.parent / "examples").rglob("*")) if path.suffix in (".m", ".txt")]
# This many characters of a text fit into a line of the wire with what is put before it.
ROOM = 255 - len(GUARD)
# This many lines go to one run of the program.
AT_ONCE = 2000
# A terminal of an account with each language.
TERMINALS = {0: ALICE, 1: CAROL}
FORMALS = "brackets after a label that are no formal list"
NEEDS = ", which needs language 1 of the account's settings"
NO_ACCOUNT = "an account that is no string between two |"
each_language = pytest.mark.parametrize("number", LANGUAGES)


def rests(texts: list[str]) -> list[str]:
    """The lines of routines without labels and dots, each once, of those that a line of the wire has room for and that are ASCII."""
    found = {source_line(line.removesuffix("\r")).rest for text in texts for line in text.split("\n")}
    return sorted(line for line in found if line.isascii() and len(line) <= ROOM and not set(line) & set("\r\0"))


def served(lines: list[str], number: int) -> list[bool]:
    """Whether the server takes each of these lines of an account with a language: it reads it, and stops before it."""
    terminal = TERMINALS[number]
    answers: list[str] = []
    for start in range(0, len(lines), AT_ONCE):
        status, output, told = running.run("".join(f"{terminal} {GUARD}{line}\n" for line in lines[start:start + AT_ONCE]).encode(), SETTINGS)
        assert (status, told) == (0, b"")
        answers += output.decode().splitlines()
    assert len(answers) == len(lines) and set(answers) <= {f"{terminal}.", f"{terminal}!ZSYNTAX"}
    return [answer == f"{terminal}." for answer in answers]


def disagreed(lines: list[str], number: int) -> list[str]:
    """The lines of which the module says another thing than the server, by a language."""
    return [line for line, taken in zip(lines, served(lines, number), strict=True) if (language.fault(line, number) is None) is not taken]


@each_language
def test_drawn_texts_have_the_servers_verdicts(times: int, number: int) -> None:
    """A thousand, and with `--count 20` twenty thousand; a sixth of them at least is in the language, and a fifth is not. Of a later language some
    are not in the one before."""
    lines = drawn_texts(Random(71), [*rests(OWN), *LATER * 20 * number], 1000 * times)
    assert disagreed(lines, number) == []
    taken = [line for line in lines if language.fault(line, number) is None]
    assert len(lines) / 6 < len(taken) < len(lines) * 4 / 5
    assert number == 0 or sum(language.fault(line, number - 1) is not None for line in taken) > len(lines) / 20


@pytest.mark.skipif(not GTM and not os.environ.get("CI"), reason="GT.M is not there: apt-get install fis-gtm")
@each_language
def test_lines_of_gtms_routines_have_the_servers_verdicts(times: int, number: int) -> None:
    """All lines; of the two routines of 48,072 lines every fiftieth, and with `--count 20` all."""
    texts = [Path(path).read_bytes().decode("latin1") for path in sorted(glob.glob(f"{GTM[-1]}/*.m") + glob.glob(f"{GTM[-1]}/*/*.m"))]
    lines = rests([text for text in texts if text.count("\n") < 2000])
    large = rests([text for text in texts if text.count("\n") >= 2000])[::1 if times >= 20 else 50]
    assert len(lines) > 3000 and len(large) > 500
    assert disagreed(lines + large, number) == []


@pytest.mark.parametrize("cause", CAUSES, ids=[f"{cause.name}-{number}" for number, cause in enumerate(CAUSES)])
def test_each_cause_is_told_of_its_example(cause: Cause) -> None:
    """The server refuses the example, and the cause has its own name."""
    found = language.fault(cause.example)
    assert found is not None and (found.name, found.advice) == (cause.name, cause.advice)


@each_language
def test_the_server_refuses_each_example(number: int) -> None:
    """But for those of a later language, to whose accounts it is none."""
    taken = [cause.since is not None and cause.since <= number for cause in CAUSES]
    assert served([cause.example for cause in CAUSES], number) == taken
    assert [language.fault(cause.example, number) is None for cause in CAUSES] == taken
    assert sum(taken) == sum(cause.since is not None for cause in CAUSES) * (number == max(LANGUAGES))


@pytest.mark.parametrize("cause", [cause for cause in CAUSES if cause.since is not None], ids=lambda cause: cause.example)
def test_form_of_a_later_language_is_told_as_such(cause: Cause) -> None:
    found = language.fault(cause.example, cause.since - 1)
    assert found is not None
    assert found.name.endswith(f", which needs language {cause.since} of the account's settings") and found.advice.startswith("Without it: ")


@pytest.mark.parametrize("number", NEW_LINES)
def test_new_line_of_a_language(number: int) -> None:
    """It takes it, and none before it does."""
    line = NEW_LINES[number]
    assert [language.fault(line, one) is None for one in LANGUAGES] == [
        served([line], one) == [True] for one in LANGUAGES] == [one >= number for one in LANGUAGES]


@pytest.mark.parametrize(("line", "marked", "name"), [
    ("W 1 2", "W 1^ 2", "two expressions need a comma, or two commands one space"), ("D F(1)", "D F^(1)", f"parameters{NEEDS}"),
    ("W $$F(1)", "W ^$$F(1)", f"an extrinsic function{NEEDS}"), ("S A=B($$F)", "S A=B(^$$F)", f"an extrinsic function{NEEDS}"),
    ("S B($$F)=A", "S B(^$$F)=A", f"an extrinsic function{NEEDS}"), ("W @$$F", "W @^$$F", f"an extrinsic function{NEEDS}"),
    ("S @B@($$F)=A", "S @B@(^$$F)=A", f"an extrinsic function{NEEDS}"), ("F I=@B@($$F):1:2 W I", "F I=@B@(^$$F):1:2 W I", f"an extrinsic function{NEEDS}"),
    ("K $$F", "K ^$$F", "a variable is wanted"), ("D $$F", "D ^$$F", "no label or routine"),
    ('write "hello', 'write ^"hello', "a string without its closing quote"),
    ("foo", "^foo", "no command has this name"), ("W $HOROLOG", "W ^$HOROLOG", "$HOROLOG"), ("MERGE A=B", "^MERGE A=B", f"MERGE{NEEDS}"),
    ("ZWRITE", "^ZWRITE", "a Z command"), ("S X=1 R X", "S X=1 ^R X", "READ"), ("D LAB^", "D LAB^^", "a name is missing"),
    ("K ^A(1", "K ^A(1^", "a ) is missing"), ('Q:X="" W X', 'Q:X=""^ W X', "two spaces follow a command without arguments"),
    ('F I=1:1:3 Q:I=2 W "x"', 'F I=1:1:3 Q:I=2^ W "x"', "two spaces follow a command without arguments"), ("Q X", "Q ^X", f"QUIT with a value{NEEDS}"),
    ('s yy=$zd($h,"YEAR")', 's yy=^$zd($h,"YEAR")', "a $Z function or variable"), ("S A=1,B=$F($ZV,1)", "S A=1,B=$F(^$ZV,1)", "a $Z function or variable"),
    ('set x=$translate($zconvert(x,"U"),"L")', 'set x=$translate(^$zconvert(x,"U"),"L")', "a $Z function or variable"),
    ("S A=$H,$X=0", "S A=^$H,$X=0", "$HOROLOG"), ("S A=1,$X=0", "S A=1,^$X=0", "SET of a special variable"),
    ("I A(1, 2)=3", "I A(1,^ 2)=3", "a space within an argument"), ("W 1 W", "W 1 W^", "an argument is missing"),
    ('W "a b $$" W $$X', 'W "a b $$" W ^$$X', f"an extrinsic function{NEEDS}"), ("S X=1\tW X", "S X=1^\tW X", "a tab"),
    ("W Müller", "W M^üller", "a character over 127"), ("B=2", "^B=2", "a SET without its word"), ("W 1  Q 5", "W 1  Q ^5", f"QUIT with a value{NEEDS}"),
    ("F I=1:1 Q:I>3  H 5", "F I=1:1 Q:I>3  H ^5", f"HANG{NEEDS}"), ("G F(1)", "G F^(1)", "parameters of GOTO"),
    ("Q A,B", "Q ^A,B", "several values of QUIT"), ("W $Q", "W ^$Q", f"$QUIT{NEEDS}"),
    ('D A,B^|"LIB"|R(1):C', 'D A,B^^|"LIB"|R(1):C', f"a routine of another account{NEEDS}"),
    ('G ^|"B"|R', 'G ^^|"B"|R', f"a routine of another account{NEEDS}"),
    ("D A^|B|R", "D A^^|B|R", NO_ACCOUNT), ('D ^"B"|R', 'D ^^"B"|R', NO_ACCOUNT), ('W 1 D ^|"A"_B|R', 'W 1 D ^^|"A"_B|R', NO_ACCOUNT),
])
def test_place_and_cause(line: str, marked: str, name: str) -> None:
    """The place is that of the fault, which the second text has marked by a ^ of its own."""
    found = language.fault(line)
    assert found is not None
    assert (line[:found.place] + "^" + line[found.place:], found.name) == (marked, name)


def test_fault_as_a_person_sees_it() -> None:
    found = language.fault("W 1 2")
    assert found is not None and language.pointed("W 1 2", found) == ["W 1 2", "   ^ ZSYNTAX: two expressions need a comma, or two commands one space"]


def test_language_that_is_not_there() -> None:
    with pytest.raises(ValueError, match="there is no language 2: mserve has 0, 1"):
        language.fault("W 1", 2)


def test_language_of_an_account(server: Server) -> None:
    """The server tells it, by lines that do nothing."""
    for number, terminal in TERMINALS.items():
        with server.connection(terminal) as connection:
            connection.send("S A=1")
            assert (language_of(connection), connection.send("W A").rest) == (number, "1")


@pytest.mark.parametrize(("line", "names"), [
    ("W 1", [None, None]), ("W $RE(A)", [f"$REVERSE{NEEDS}", None]),
    ("W $RE(A) R X", [f"$REVERSE{NEEDS}", "READ"]),
    ("W $RE(A,1)", [f"$REVERSE{NEEDS}", "more arguments than the function takes"]),
    ("W $J(A,8,2)", [f"$JUSTIFY with three arguments{NEEDS}", None]),
    ("W $J(1,2,3,4)", [f"$JUSTIFY with three arguments{NEEDS}", "more arguments than the function takes"]),
    ("H 5", [f"HANG{NEEDS}", None]),
    ("HALT 5", ["an argument where none is taken", "an argument where none is taken"]),
    ("W $J", [f"$IO, $JOB, $PRINCIPAL or $STORAGE{NEEDS}", None]),
    ("W $Y", [f"$X or $Y{NEEDS}", None]),
    ("W A,?5", [f"WRITE ?n{NEEDS}", None]),
    ("W !?5,", [f"WRITE ?n{NEEDS}", "an operand is missing"]),
    ("D F(1,.X):C", [f"parameters{NEEDS}", None]), ("D F(.^X)", [f"parameters{NEEDS}", "a name is missing"]),
    ("D F(.X(1))", [f"parameters{NEEDS}", "a bracket where none is taken"]), ("D F(1", [f"parameters{NEEDS}", "a ) is missing"]),
    ("G F(1)", ["parameters of GOTO", "parameters of GOTO"]), ("Q X+1", [f"QUIT with a value{NEEDS}", None]),
    ("Q A,B", ["several values of QUIT", "several values of QUIT"]), ("Q $QUIT", [f"QUIT with a value{NEEDS}", None]),
    ("W $Q", [f"$QUIT{NEEDS}", None]), ("W $$F(.X)", [f"an extrinsic function{NEEDS}", None]),
    ("D F($$G(1))", [f"parameters{NEEDS}", None]), ("W A($$F)", [f"an extrinsic function{NEEDS}", None]), ("K A($$F)", [f"an extrinsic function{NEEDS}", None]),
    ("Q:$G(A,$$F)", [f"an extrinsic function{NEEDS}", None]), ("W $S($$F:1)", [f"an extrinsic function{NEEDS}", None]),
    ("W @$$F", [f"an extrinsic function{NEEDS}", None]), ("I A,@$$F", [f"an extrinsic function{NEEDS}", None]),
    ("F A=1:1:$$F", [f"an extrinsic function{NEEDS}", None]), ("L -(A,B($$F)):$$G", [f"an extrinsic function{NEEDS}", None]),
    ("S $P(A($$F),$$F)=1", [f"an extrinsic function{NEEDS}", None]),
    ("W @A@($$F)", [f"an extrinsic function{NEEDS}", None]), ("W @$$F@(1)", [f"an extrinsic function{NEEDS}", None]),
    ("W $$", [f"an extrinsic function{NEEDS}", "no label or routine"]),
    ("W $$F(1", [f"an extrinsic function{NEEDS}", "a ) is missing"]), ("Q W 1", ["two spaces follow a command without arguments"] * 2),
    ("R X", ["READ", "READ"]), ("W $re(", [f"$REVERSE{NEEDS}", "an operand is missing"]),
    ('D A^|"LIB"|R(1,.X):C', [f"a routine of another account{NEEDS}", None]), ('G:X ^|"A""B"|R:X,A', [f"a routine of another account{NEEDS}", None]),
    ("D ^|A|R", [NO_ACCOUNT, NO_ACCOUNT]), ('D A^|"LIB"R', [NO_ACCOUNT, NO_ACCOUNT]),
    ('D ^|"LIB"|', [f"a routine of another account{NEEDS}", "a name is missing"]),
    ('D A^|"LIB"|@R', [f"a routine of another account{NEEDS}", "indirection of a label or a routine alone"]),
    ('G A^|"LIB"|R(1)', [f"a routine of another account{NEEDS}", "parameters of GOTO"]),
    ('D A^|"LIB"|R+1', [f"a routine of another account{NEEDS}", "an offset from a label"]),
    ('W $$A^|"LIB"|R(1)', [f"an extrinsic function{NEEDS}", None]),
])
def test_cause_by_the_language_of_the_account(server: Server, line: str, names: list[str | None]) -> None:
    """What is said of a line that the server has refused, and of a routine's line."""
    for (number, terminal), name in zip(TERMINALS.items(), names, strict=True):
        with server.connection(terminal) as connection:
            found = language.fault(line, number)
            assert (found and found.name, [finding.cause for finding in check(connection, [source_line(f" {line}")])]) == (name, [name] if name else [])
            assert name is None or fault_of(connection, line) == found


def test_language_of_a_check(server: Server, command: Command, tmp_path: Path) -> None:
    """It is the account's, if no other is named."""
    (tmp_path / "A.m").write_text("A W $RE(1)\n Q\n")
    refused = "A.m:1:5: not in the language: W $RE(1): $REVERSE, which needs language 1 of the account's settings\n"
    for words, terminal, is_taken in (((), ALICE, False), ((), CAROL, True), (("--language", 0), CAROL, False), (("--language", 1), ALICE, True)):
        ran = command("mroutine", server.port, terminal, "check", *words, "A.m")
        assert (ran.status, ran.told) == (0 if is_taken else 1, "")
        assert ran.output.startswith("1 file, 2 lines: all in the language" if is_taken else refused)
    assert "invalid choice: 2" in command("mroutine", server.port, 1, "check", "--language", "2", "A.m").told
    assert command("mroutine", server.port, ALICE, "load", "--check", "A.m").told.endswith("nothing was loaded\n")
    assert command("mroutine", server.port, CAROL, "load", "--check", "A.m").output == "A: 2 lines from A.m\n"


@pytest.mark.parametrize(("line", "column", "cause"), [
    ("A(B,C) S X=B Q", None, None), ("A()", None, None), ("A(B);x", None, None), ("A(%)\t. Q", None, None), ("A(B,B) Q", 2, FORMALS), ("A(B,) Q", 2, FORMALS),
    ("A(1) Q", 2, FORMALS), ("A(" + "B" * 32 + ") Q", 2, FORMALS), ("A(B", 2, FORMALS), ("A(.B) Q", 2, FORMALS),
    ("A(B)Q", 5, "what begins the line is no label"),
    ("A(B) W $$A(1)", None, None), ("A(B) K @A@($$A)", None, None),
    ("A (B) Q", 3, "a value without a command"), ("(B) Q", 1, "what begins the line is no label"),
])
def test_formal_lists(server: Server, line: str, column: int | None, cause: str | None) -> None:
    """At language 1 those that are none are found, with their place. At language 0 all are, but what has no label before it."""
    for number, terminal in TERMINALS.items():
        with server.connection(terminal) as connection:
            found = [(finding.column, finding.cause) for finding in check(connection, [source_line(line)])]
            wanted = [] if cause is None else [(column, cause)]
            assert found == (wanted if number or line[1] != "(" else [(2, language.PARAMETERS)])


def source(name: str, *lines: str) -> Source:
    """A routine of these lines."""
    return Source(f"{name}.m", name, [source_line(line) for line in lines])


def told(server: Server, *sources: Source) -> list[tuple[str, int, int, Kind]]:
    """What is found in routines: the name, the line, the column and the kind."""
    with server.connection() as connection:
        return [(one.name, finding.line, finding.column, finding.kind) for one, found in findings(connection, list(sources)) for finding in found]


def test_labels_and_routines_that_are_not_there(server: Server) -> None:
    with server.connection() as connection:
        connection.send('S ^ROUTINE("THERE",1)="ADD Q",^ROUTINE("THERE",2)=" Q"')
    checked = source("A", "A D ONE,TWO,ADD^THERE,SUB^THERE,^THERE,^NOWHERE", "ONE G TWO:X", " D:X ADD^B,NO^B,^A,a^A", ' X "D THREE" D @X', " . D FOUR ;D FIVE",
                     " D SIX W 1 2")
    assert told(server, checked, source("B", "B Q", "ADD Q")) == [
        ("A", 1, 9, Kind.MISSING), ("A", 1, 23, Kind.MISSING), ("A", 1, 40, Kind.MISSING), ("A", 2, 7, Kind.MISSING), ("A", 3, 12, Kind.MISSING),
        ("A", 3, 20, Kind.MISSING), ("A", 5, 6, Kind.MISSING), ("A", 6, 4, Kind.MISSING), ("A", 6, 11, Kind.REFUSED)]


def test_labels_of_another_accounts_routines_are_not_looked_for(server: Server) -> None:
    """Nor is whether it has the routine: a client has no more than its own account's."""
    checked = source("A", 'A D ONE^|"LIB"|NONE,TWO,^|"A^B"|NONE(1) G THREE^|"LIB"|A:X,FOUR', ' D ^|"LIB"|NONE,^NONE')
    with server.connection() as connection:
        (_, found), = findings(connection, [checked], 1)
    assert [(one.line, one.column, one.kind) for one in found] == [(1, 21, Kind.MISSING), (1, 60, Kind.MISSING), (2, 17, Kind.MISSING)]


@pytest.mark.parametrize(("line", "columns"), [
    (" L +^A", [4]), (" L ^A,B", [4, 7]), (" L +(^A,B)", [4]), (" L +^A:5", [4]), (" L +^A:T,-^A", [4]), (" L +^A:0", []), (" L -^A", []), (" L", []),
    (" L @A", []), (" W 1 ;L +^A", []), (' W "L +^A"', []), (" LOCK +^A(1):0  E  Q", []), (' L +^A(":")', [4]),
])
def test_locks_that_wait_in_m(server: Server, line: str, columns: list[int]) -> None:
    with server.connection() as connection:
        assert [(finding.column, finding.kind) for finding in check(connection, [source_line(line)])] == [(column, Kind.WARNING) for column in columns]


def test_check_tells_all_kinds_at_once(server: Server, command: Command, tmp_path: Path) -> None:
    """A character over 127 is one finding among others, and warnings alone leave the status as it is."""
    (tmp_path / "A.m").write_bytes("A ; Ärger\n D NONE W 1 2\n L +^X\n D NONE\n".encode() + b" ;\xe9\n")
    (tmp_path / "B.m").write_text("B L +^X\n")
    ran = command("mroutine", server.port, 1, "check", "A.m", "B.m")
    lines = ran.output.encode("latin1").decode().splitlines()
    assert [re.match(r"\w\.m:\d+:\d+", line)[0] for line in lines if line[0] != " " and ":" in line[:4]] == [
        "A.m:1:5", "A.m:2:4", "A.m:2:12", "A.m:3:4", "A.m:4:4", "A.m:5:3", "B.m:1:5"]
    assert lines[-1] == "2 files, 6 lines: 3 lines not in the language; 2 of what a DO or a GOTO names is not there; 2 warnings"
    ran = command("mroutine", server.port, 1, "check", "B.m")
    assert (ran.output.splitlines()[-1], ran.status) == ("1 file, 1 line: all in the language; 1 warning", 0)
