# SPDX-License-Identifier: Apache-2.0
"""Routines between files and an account: load, save, list, check, diff, delete."""
from __future__ import annotations

import signal
from pathlib import Path

import pytest
from conftest import ALICE, BOB, SHORT, Command, Server
from mserve_client import language, routines
from mserve_client.causes import CAUSES
from mserve_client.checking import check
from mserve_client.routine_files import SourceLine, file_name, routine_name, source_line
from mserve_client.walk import Walker


def nodes(server: Server, terminal: int = ALICE) -> dict[tuple[str, ...], str]:
    """All nodes of ^ROUTINE."""
    with server.connection(terminal) as connection:
        return dict(Walker(connection, "^ROUTINE").nodes())


@pytest.mark.parametrize(("text", "parts"), [
    ("\tS X=1", ("", "", " ", "S X=1")), ("LABEL\tS X=1", ("LABEL", "", " ", "S X=1")), ("LABEL \t\t; note\there", ("LABEL", "", "   ", "; note\there")),
    ("\t.\t. S X=1\tY", ("", "", " . . ", "S X=1 Y")), ("", ("", "", "", "")), ("%A1", ("%A1", "", "", "")), (";x", ("", "", "", ";x")),
    ("A;x", ("A", "", "", ";x")), ("A(B) Q", ("A", "(B)", " ", "Q")), ("1 Q", ("", "", "", "1 Q")), ('\tW "\t"', ("", "", " ", 'W "\t"')),
    ("A\tQ:B\t\tW \"a\t\"\"\t\",1\t; to\tday \"\t", ("A", "", " ", "Q:B  W \"a\t\"\"\t\",1 ; to\tday \"\t")), ("A(B,C)\tQ", ("A", "(B,C)", " ", "Q")),
    ('\tW "open\t;\t', ("", "", " ", 'W "open\t;\t')), ("A();x", ("A", "()", "", ";x")), ("A(,B)\t. Q", ("A", "(,B)", " . ", "Q")),
    ("A (B) Q", ("A", "", " ", "(B) Q")), ("(B) Q", ("", "", "", "(B) Q")), ("A(B", ("A", "", "", "(B")), ("A(B-1) Q", ("A", "", "", "(B-1) Q")),
])
def test_parts_of_a_line(text: str, parts: tuple[str, str, str, str]) -> None:
    assert source_line(text) == SourceLine(*parts)


@pytest.mark.parametrize(("path", "name"), [("A.m", "A"), ("/x/y/_UP.m", "%UP"), ("a1.m", "a1"), ("_.m", "%")])
def test_name_of_a_file(path: str, name: str) -> None:
    assert routine_name(path) == name
    assert path.endswith(file_name(name))


def test_load_and_run(server: Server, command: Command, tmp_path: Path) -> None:
    (tmp_path / "SQ.m").write_bytes(b"SQ\tW N*N D SHOW\r\n\tQ\r\n\r\nSHOW\t;\ttext\r\n\tF I=1:1:2 D\r\n\t. W \" \"\"\",I\r\n")
    (tmp_path / "_UP.m").write_text("%UP\tS N=N+1 Q")
    ran = command("mroutine", server.port, 1, "load", "SQ.m", "_UP.m")
    assert (ran.output, ran.told, ran.status) == ("SQ: 6 lines from SQ.m\n%UP: 1 line from _UP.m\n", "", 0)
    assert nodes(server) == {("SQ", "1"): "SQ W N*N D SHOW", ("SQ", "2"): " Q", ("SQ", "3"): "", ("SQ", "4"): "SHOW ;\ttext", ("SQ", "5"): " F I=1:1:2 D",
                             ("SQ", "6"): ' . W " """,I', ("%UP", "1"): "%UP S N=N+1 Q"}
    with server.connection() as connection:
        assert connection.send("S N=6 D ^%UP,^SQ").rest == '49 "1 "2'
        assert connection.send("W $D(%m)").rest == "0"


def test_folder_is_loaded_saved_and_equal(server: Server, command: Command, tmp_path: Path) -> None:
    (tmp_path / "in").mkdir()
    texts = {"A.m": "A ;\n Q\n", "B.m": "B W \"" + "b" * 600 + "\"\n . W 1\n", "_C.m": "%C ;" + '"' * 300 + "\n", "note.txt": "no routine"}
    for name, text in texts.items():
        (tmp_path / "in" / name).write_text(text)
    assert command("mroutine", server.port, 1, "load", "in").status == 0
    assert command("mroutine", server.port, 1, "list").output == "%C: 1 line\nA: 2 lines\nB: 2 lines\n"
    (tmp_path / "out").mkdir()
    ran = command("mroutine", server.port, 1, "save", "--to", "out")
    assert (ran.output, ran.status) == ("%C: out/_C.m\nA: out/A.m\nB: out/B.m\n", 0)
    assert {path.name: path.read_text() for path in (tmp_path / "out").iterdir()} == {name: text for name, text in texts.items() if name.endswith(".m")}
    ran = command("mroutine", server.port, 1, "diff", "in")
    assert (ran.output, ran.status) == ("", 0)


def test_load_replaces_a_routine_whole(server: Server, command: Command, tmp_path: Path) -> None:
    with server.connection() as connection:
        connection.send('S ^ROUTINE("R",1)="R",^ROUTINE("R",1.5)=" W 1",^ROUTINE("R",-2)=" '
                        'Q",^ROUTINE("R","note")="x",^ROUTINE("R",7,1)="y",^ROUTINE("S",1)="S"')
    (tmp_path / "R.m").write_text("R W 2\n")
    ran = command("mroutine", server.port, 1, "load", "R.m")
    assert (ran.output, ran.status) == ("R: 1 line from R.m\n", 0)
    assert ran.told == 'mroutine: R: 2 nodes of ^ROUTINE("R") that were no lines are gone with the old routine\n'
    assert nodes(server) == {("R", "1"): "R W 2", ("S", "1"): "S"}


def test_load_that_stops_puts_the_old_routine_back(server: Server, command: Command, tmp_path: Path) -> None:
    """With 40 steps a line that joins its text out of many parts ends by ZSTEPS."""
    with server.connection(SHORT) as connection:
        connection.send('S ^ROUTINE("R",1)="R",^ROUTINE("R",1.5)=" W 1",^ROUTINE("R","note")="x"')
    before = nodes(server, SHORT)
    (tmp_path / "A.m").write_text("A\n")
    (tmp_path / "R.m").write_text("R\n Q\n W 1\n")
    with server.connection(SHORT) as connection:
        with pytest.raises(routines.LoadFailed) as error:
            routines.load(connection, "R", ["R", " Q", "\n" * 30, " W 1"])
        assert str(error.value) == "R: its line 3 was answered ZSTEPS: steps used up; the old routine is back"
        with pytest.raises(routines.LoadFailed, match="there was none before, and there is none now"):
            routines.load(connection, "NEW", ["NEW", "\n" * 30])
    assert nodes(server, SHORT) == before


def test_interrupt_of_a_load(server: Server, monkeypatch: pytest.MonkeyPatch) -> None:
    with server.connection() as connection:
        routines.load(connection, "R", ["R W 1"])

    def texts() -> list[str]:
        return [f" S X={number}" for number in range(60)]

    with pytest.raises(KeyboardInterrupt), server.connection() as connection:
        connection.send("S A=1")
        taken = connection._reader.feed
        count = 0

        def feed(data: bytes) -> list[object]:
            """Is interrupted once it has ten lines: the old routine has been read, and some of the new one's lines are set. How many pieces they come
            in depends on how fast the server is."""
            nonlocal count
            before, count = count, count + data.count(b"\n")
            if before < 10 <= count:
                signal.raise_signal(signal.SIGINT)
            return taken(data)

        monkeypatch.setattr(connection, "_reader", type("Reader", (), {"feed": staticmethod(feed)}))
        routines.load(connection, "R", texts())
    assert nodes(server) == {("R", "1"): "R W 1"}
    with server.connection() as connection:
        assert connection.send("W A").code == "M6"


@pytest.mark.parametrize(("name", "data", "told"), [
    ("A B.m", b"", "A B.m: no name of a routine: a file is NAME.m"), ("1.m", b"", "1.m: no name of a routine"), ("A.txt", b"", "A.txt: no name of a routine"),
    ("A.m", b"A\n ; caf\xc3\xa9\n", "A.m:2:7: the character '\xc3\xa9' is over 127"),
    ("A.m", b"A ;" + b"x" * 4093, "A.m:1: 4,096 characters: a line has at most 4,095"),
    ("NONE.m", None, "NONE.m: No such file or directory"),
])
def test_files_that_are_no_routines(server: Server, command: Command, tmp_path: Path, name: str, data: bytes | None, told: str) -> None:
    if data is not None:
        (tmp_path / name).write_bytes(data)
    for act in ("load", "check", "diff"):
        ran = command("mroutine", server.port, 1, act, name)
        assert ran.status == 1 and (act == "diff" or told in (ran.told + ran.output).encode("latin1").decode().replace("é", "\xc3\xa9"))
    assert nodes(server) == {}


def test_folder_without_routines_and_a_routine_twice(server: Server, command: Command, tmp_path: Path) -> None:
    (tmp_path / "empty").mkdir()
    assert "empty: the folder has no file NAME.m" in command("mroutine", server.port, 1, "load", "empty").told
    for folder in ("x", "y"):
        (tmp_path / folder).mkdir()
        (tmp_path / folder / "A.m").write_text("A\n")
    ran = command("mroutine", server.port, 1, "load", "x", "y")
    assert ran.status == 1 and "the routine A is given by x/A.m and by y/A.m" in ran.told


def test_save_does_not_write_over_a_file(server: Server, command: Command, tmp_path: Path) -> None:
    with server.connection() as connection:
        routines.load(connection, "A", ["A", " Q"])
    (tmp_path / "A.m").write_text("mine\n")
    ran = command("mroutine", server.port, 1, "save", "A")
    assert (ran.status, ran.told) == (1, "mroutine: ./A.m is there already: --force writes over it\n")
    assert command("mroutine", server.port, 1, "save", "A", "--to", "-").output == "A\n Q\n"
    assert command("mroutine", server.port, 1, "save", "A", "--force").status == 0
    assert (tmp_path / "A.m").read_text() == "A\n Q\n"


def test_save_leaves_the_tabs_of_a_file(server: Server, command: Command, tmp_path: Path) -> None:
    """Lines that are the stored ones but for tabs stay as they are, also after lines that are new, changed or gone."""
    (tmp_path / "A.m").write_text('A\tS X=1\tS Y="\t"\t;\tone\n\tQ:X\t\tW 2\n\t. \tW 3\n\tQ\n')
    assert command("mroutine", server.port, 1, "load", "A.m").status == 0
    before = nodes(server)
    assert before == {("A", "1"): 'A S X=1 S Y="\t" ;\tone', ("A", "2"): " Q:X  W 2", ("A", "3"): " .  W 3", ("A", "4"): " Q"}
    assert command("mroutine", server.port, 1, "save", "A", "--force").status == 0
    assert (tmp_path / "A.m").read_text() == 'A\tS X=1\tS Y="\t"\t;\tone\n\tQ:X\t\tW 2\n\t. \tW 3\n\tQ\n'
    with server.connection() as connection:
        connection.send('S ^ROUTINE("A",.5)="; new",^ROUTINE("A",2)=" Q:Y  W 2" K ^ROUTINE("A",3)')
    assert command("mroutine", server.port, 1, "save", "A", "--force").status == 0
    assert (tmp_path / "A.m").read_text() == '; new\nA\tS X=1\tS Y="\t"\t;\tone\n Q:Y  W 2\n\tQ\n'


def test_save_of_what_no_file_can_have(server: Server, command: Command) -> None:
    with server.connection() as connection:
        routines.load(connection, "A", ["A", " ;1\n;2"])
    ran = command("mroutine", server.port, 1, "save", "A")
    assert ran.status == 1 and "A: its line 2 has a line feed" in ran.told


def test_diff(server: Server, command: Command, tmp_path: Path) -> None:
    with server.connection() as connection:
        routines.load(connection, "A", ["A", " W 1", " Q"])
    (tmp_path / "A.m").write_text("A\n\tW 2\n\tQ\n")
    ran = command("mroutine", server.port, 1, "diff", "A.m")
    assert (ran.output, ran.status) == ("--- ^A\n+++ A.m\n@@ -1,3 +1,3 @@\n A\n- W 1\n+ W 2\n  Q\n", 1)


def test_delete(server: Server, command: Command) -> None:
    with server.connection() as connection:
        routines.load(connection, "A", ["A"])
        routines.load(connection, "B", ["B"])
    ran = command("mroutine", server.port, 1, "delete", "A")
    assert (ran.output, ran.status) == ("A: deleted\n", 0)
    assert nodes(server) == {("B", "1"): "B"}
    ran = command("mroutine", server.port, 1, "delete", "A")
    assert ran.status == 1 and "the account has no routine A" in ran.told


def test_another_account_has_its_own(server: Server, command: Command, tmp_path: Path) -> None:
    (tmp_path / "A.m").write_text("A\n")
    assert command("mroutine", server.port, BOB, "load", "A.m").status == 0
    assert nodes(server) == {} and nodes(server, BOB) == {("A", "1"): "A"}


def test_check_of_files(server: Server, command: Command, tmp_path: Path) -> None:
    (tmp_path / "BAD.m").write_text("BAD(A,B) ; sum\n\tN X S X=$$ADD^R(A)\n\t. Q X+1\n\tW \"$$fine\" ;$$fine\n1 Q\n\tF I=1:1:3 W I R X\n")
    (tmp_path / "GOOD.m").write_text("GOOD\t; it is\n\tI A=1 D\n\t. W 1\n\tE  W 2\n\n;\n")
    ran = command("mroutine", server.port, 1, "check", "BAD.m", "GOOD.m")
    assert ran.output.splitlines() == [
        "BAD.m:1:4: the label BAD has parameters, which need language 1 of the account's settings", f"    {language.LABEL_PARAMETERS}",
        f"BAD.m:2:10: not in the language: S X=$$ADD^R(A): {FUNCTION}", f"    {advice(FUNCTION)}",
        f"BAD.m:3:6: not in the language: Q X+1: {VALUE}", f"    {advice(VALUE)}",
        "BAD.m:5:1: the line begins with '1 Q'", f"    {language.NO_LABEL}",
        "BAD.m:6:16: not in the language: R X: READ", f"    {advice('READ')}",
        "2 files, 12 lines: 5 lines not in the language"]
    assert ran.status == 1 and nodes(server) == {}
    ran = command("mroutine", server.port, 1, "check", "GOOD.m")
    assert (ran.output, ran.status) == ("1 file, 6 lines: all in the language\n", 0)
    ran = command("mroutine", server.port, 1, "load", "--check", "BAD.m", "GOOD.m")
    assert ran.status == 1 and "nothing was loaded" in ran.told and nodes(server) == {}


VALUE = "QUIT with a value, which needs language 1 of the account's settings"
FUNCTION = "an extrinsic function, which needs language 1 of the account's settings"


def advice(name: str) -> str:
    """What is advised for something that is missing."""
    return next(cause.advice for cause in CAUSES if cause.name == name)


def test_check_runs_nothing_and_leaves_the_session(server: Server) -> None:
    long = "S ^X=1 " * 50 + "K  "
    with server.connection() as connection:
        connection.send("S A=1,%m=2,%m1(1)=3 I 1")
        found = check(connection, [source_line(text) for text in (" S ^X=1 K", f" {long}", " H", f" {long} W $$X")])
        assert [(finding.line, finding.column) for finding in found] == [(4, 358)]
        assert connection.send("W A,$T,$D(^X),%m,%m1(1),$D(%m2)").rest == "110230"


@pytest.mark.parametrize("text", ["", ";", " ;x", " Q", " Q:A  W 1", "L S (A,B)=$P(X,\",\",2) ;x", " F I=1:1:3 W I,! Q:I=2", " . . D A^B:X>1,^C",
                                  " L +(A,^B(1)):0",
                                  "%", " W \"" + "x" * 4080 + "\"", " ;" + "x" * 4089], ids=lambda text: text[:20])
def test_lines_in_the_language(server: Server, text: str) -> None:
    with server.connection() as connection:
        assert check(connection, [source_line(text)]) == []


@pytest.mark.parametrize(("text", "place"), [
    ("S A=1 W $H", 8), ("W 1 F  R X", 7), ('W "a b $$" W $$X', 13), ("I A(1, 2)=3", 6), ("F I=1:1 Q:I>3  H 5", 17), ("S X=", 4), ("W 1  Q 5", 7), ("D  U 0", 3),
    ("W 1 W", 5),
])
def test_place_of_what_is_refused(server: Server, text: str, place: int) -> None:
    """The column is that of the fault, counted from 1 in the line with the space before it."""
    with server.connection() as connection:
        [finding] = check(connection, [source_line(f" {text}")])
    assert finding.message.startswith("not in the language") and finding.column == place + 2


def test_line_that_is_too_long_to_check(server: Server) -> None:
    with server.connection() as connection:
        [finding] = check(connection, [source_line(" ;" + "x" * 4092)])
    assert "4,094 characters, too many to check" in finding.message


def test_refused_label(server: Server) -> None:
    with server.connection() as connection:
        [finding] = check(connection, [source_line("L" * 32 + " Q")])
    assert "has 32 characters" in finding.message


@pytest.mark.parametrize("words", [(), ("load",), ("nothing",), ("delete",), ("check",)])
def test_words_that_are_wrong(command: Command, words: tuple[str, ...]) -> None:
    ran = command("mroutine", 9000, 1, *words)
    assert ran.status == 2 and "usage: mroutine" in ran.told


def test_no_server(command: Command, tmp_path: Path) -> None:
    (tmp_path / "A.m").write_text("A\n")
    ran = command("mroutine", 1, 1, "load", "A.m")
    assert ran.status == 3 and "no server at 127.0.0.1 port 1" in ran.told


def test_folder_of_a_save_is_made(server: Server, command: Command, tmp_path: Path) -> None:
    with server.connection() as connection:
        routines.load(connection, "A", ["A", " Q"])
    assert command("mroutine", server.port, 1, "save", "--to", "new/folder").status == 0
    assert (tmp_path / "new" / "folder" / "A.m").read_text() == "A\n Q\n"


def test_two_who_deploy(server: Server, command: Command, tmp_path: Path) -> None:
    """Who loads or deletes holds ^ROUTINE meanwhile, and gives it back; who comes then is refused, and nothing of theirs is loaded."""
    (tmp_path / "A.m").write_text("A\n")
    with server.connection(2) as other:
        with routines.deploying(other):
            pass
    assert command("mroutine", server.port, 1, "load", "A.m").status == 0
    with server.connection(2) as other:
        other.send("L +^ROUTINE(1)")
    for words in (("load", "A.m"), ("delete", "A"), ("test", "A.m")):
        ran = command("mroutine", server.port, 1, *words)
        assert ran.status == 1 and "another terminal of the account holds the lock ^ROUTINE" in ran.told
    ran = command("mshell", server.port, 1, stdin="I 1\n.load A.m\nW $T\n")
    assert "holds the lock ^ROUTINE" in ran.output and ran.output.endswith("\n1\n")
    with server.connection(2) as other:
        other.send("L")
    assert command("mroutine", server.port, 1, "delete", "A").status == 0
    with server.connection(2) as other:
        assert other.send("L +^ROUTINE:0 W $T").rest == "1"


TESTS = """TCALC ; tests of CALC
TSUM S A=1,B=2 D SUM^CALC
 S %GOT=C,%WANT=3,%NAME="1 and 2" D EQ^%TEST
 S %OK=C>2,%NAME="above two" D OK^%TEST
 Q
TWRONG W "a note",! S %GOT=1,%WANT=2,%NAME="one" D EQ^%TEST Q
TFAULT W NOTHERE Q
TNONE S LEFT=1 L +^X Q
TLEFT S %OK='$D(LEFT),%NAME="no variable is left" D OK^%TEST Q
OTHER Q
"""


def test_unit_tests(server: Server, command: Command, tmp_path: Path) -> None:
    (tmp_path / "t").mkdir()
    (tmp_path / "t" / "TCALC.m").write_text(TESTS)
    (tmp_path / "t" / "CALC.m").write_text("CALC Q\nSUM S C=A+B Q\n")
    with server.connection() as connection:
        routines.load(connection, "CALC", ["CALC ; of before"])
    before = nodes(server)
    ran = command("mroutine", server.port, 1, "test", "t")
    assert ran.output.splitlines() == [
        "TAP version 13", "ok 1 - TSUM^TCALC: 1 and 2", "ok 2 - TSUM^TCALC: above two", "# a note", "not ok 3 - TWRONG^TCALC: one", "# got:  1", "# want: 2",
        "not ok 4 - TFAULT^TCALC: M6: undefined local variable", "not ok 5 - TNONE^TCALC: it made no check: D OK^%TEST or EQ^%TEST",
        "ok 6 - TLEFT^TCALC: no variable is left", "1..6"]
    assert (ran.status, ran.told) == (1, "") and nodes(server) == before
    (tmp_path / "t" / "TCALC.m").write_text("TCALC ;\n" + "\n".join(TESTS.splitlines()[1:5]) + "\n")
    assert command("mroutine", server.port, 1, "test", "t").status == 0
    (tmp_path / "t" / "TCALC.m").unlink()
    ran = command("mroutine", server.port, 1, "test", "t")
    assert ran.status == 1 and "no routine has a test" in ran.told and nodes(server) == before


def test_routines_in_utf_8(server: Server, command: Command, tmp_path: Path) -> None:
    """Comments and strings come back byte for byte, and a string is shown as it was written; a name outside of strings is refused."""
    text = 'GRUSS ; Grüße, ~e9;\n W "Müller",! ;é\n Q\n'
    (tmp_path / "GRUSS.m").write_text(text)
    assert command("mroutine", "--text", "utf-8", server.port, 1, "load", "--check", "GRUSS.m").status == 0
    assert nodes(server)["GRUSS", "2"] == ' W "M~fc;ller",! ;~e9;'
    assert command("mroutine", "--text", "utf-8", server.port, 1, "save", "GRUSS", "--to", "out").status == 0
    assert (tmp_path / "out" / "GRUSS.m").read_text() == text
    ran = command("mshell", "--text", "utf-8", server.port, 1, stdin='D ^GRUSS S ^X="Ærø",^X("ü")=1 W ^X\n.show ^X\nW "ü"_~fc;\nW ü\n.list GRUSS\n')
    lines = ran.output.encode("latin1").decode().splitlines()
    assert lines[:4] == ["Müller", "Ærø", '^X="Ærø"', '^X("ü")=1'] and lines[-2] == '    2   W "Müller",! ;é'
    assert "column 3: a character over 127" in lines[5]
    assert command("mshell", server.port, 1, stdin="W ^X\n").output == "~c6;r~f8;\n"


def test_edit(server: Server, command: Command, tmp_path: Path) -> None:
    """The editor of EDITOR gets the routine as a file; what it leaves is checked and loaded, and what was not changed is left."""
    (tmp_path / "editor").write_text("#!/bin/sh\ncat \"$1\" >>seen\nif [ -e fail ]; then exit 1; fi\nif [ -e keep ]; then exit 0; fi\necho \" W 1 2\" "
                                     ">>\"$1\"\n")
    (tmp_path / "editor").chmod(0o755)
    with server.connection() as connection:
        routines.load(connection, "A", ["A", " Q"])
    ran = command("mshell", server.port, 1, stdin=".edit A\n", EDITOR="./editor", VISUAL="")
    assert "A.m:3:5: not in the language: W 1 2: two expressions" in ran.output and "A: 3 lines from" in ran.output
    assert (tmp_path / "seen").read_text() == "A\n Q\n" and nodes(server)["A", "3"] == " W 1 2"
    (tmp_path / "keep").touch()
    assert command("mshell", server.port, 1, stdin=".edit A\n", EDITOR="./editor", VISUAL="").output == ""
    (tmp_path / "fail").touch()
    assert "the editor ended with a fault: nothing was loaded" in command("mshell", server.port, 1, stdin=".edit NEW\n.edit 1\n", EDITOR="./editor",
                                                                          VISUAL="").output
    assert set(name for name, _ in nodes(server)) == {"A"}


def test_list_of_a_routine(server: Server, command: Command) -> None:
    with server.connection() as connection:
        routines.load(connection, "A", ["A ; \"x\"", " Q"])
    assert command("mshell", server.port, 1, stdin=".list A\n").output == '    1  A ; "x"\n    2   Q\n'
