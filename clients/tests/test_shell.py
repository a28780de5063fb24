# SPDX-License-Identifier: Apache-2.0
"""The shell: plain from a pipe, its commands, and a prompt on a terminal of the system."""
from __future__ import annotations

import os
import re
from collections.abc import Iterator
from contextlib import contextmanager
from pathlib import Path

import pytest
from conftest import ALICE, BOB, CAROL, Command, Server, start_at
from mserve_client import ServerGone
from mserve_client.screen import Screen
from mserve_client.shell import Shell
from pseudo_terminal import Terminal, opened


def test_lines_from_a_pipe(server: Server, command: Command) -> None:
    ran = command("mshell", server.port, 1, stdin='W 1,!,"a\\",!,$C(65)\nW B\nW 1/0\n')
    assert (ran.output, ran.told, ran.status) == ("1\na\\\nA\nM6: undefined local variable\nM9: divide by zero\n", "", 1)


@pytest.mark.parametrize(("lines", "output"), [
    ("", ""), ("\n\r\n", ""), ("S A=1\nW A", "1\n"), ("S A=1\r\nW A\r\n", "1\n"), ("W $C(27,9,10),1\n", "\x1b\t\n1\n"), ("W \"a\",!,!,\"b\"", "a\n\nb\n"),
    (".quit\nW 1\n", ""), ("W 1\n.exit\nW 2\n", "1\n"),
])
def test_lines_that_no_code_answers(server: Server, command: Command, lines: str, output: str) -> None:
    ran = command("mshell", server.port, ALICE, stdin=lines)
    assert (ran.output, ran.told, ran.status) == (output, "", 0)


@pytest.mark.parametrize(("line", "output"), [
    ("W \"é\"", "ZCHAR: character over 127: column 4: a character over 127\n"), ("W " + "1" * 300, "ZLINE: line too long\n"),
    ("HELLO", "ZSYNTAX: not in the language: column 1: no command has this name\n"),
    ("F  S Z=1", "ZSTEPS: steps used up\n"), ("W 5,!,B", "5\nM6: undefined local variable\n"), ("L +^X", "ZLOCKED: locked by another terminal\n"),
    (".nothing", ".nothing: no such command; .help names them\n"), (".help NOTHING", "NOTHING: no command, function or code; .help lists them\n"),
    (".show", ".show wants a variable by its name, as .show ^X(1), .show X, or .show ^|\"LAB\"|X\n"),
    (".show ^(1)", ".show wants a variable by its name, as .show ^X(1), .show X, or .show ^|\"LAB\"|X\n"),
    (".show ^NONE(1)", "^NONE(1) has no text, and there is none below it\n"), (".load none.m", "none.m: No such file or directory\n"),
    (".run none", "none: No such file or directory\n"),
    (".save NONE", "the account has no routine NONE: ^ROUTINE(\"NONE\") has no lines; `list` and `.routines` name those that are there\n"),
    (".show ^X(B)", "W $D(^X(B))\n  was answered M6: undefined local variable\n"), (".show ^X(", None),
], ids=lambda value: None if value is None else value[:14])
def test_lines_with_a_code(server: Server, command: Command, line: str, output: str | None) -> None:
    with server.connection(2) as other:
        other.send("L +^X")
    ran = command("mshell", server.port, ALICE, stdin=line + "\n")
    assert ran.status == 1 and ran.told == ""
    assert output is None or ran.output.encode("latin1").decode() == output


def test_lines_of_a_later_language(server: Server, command: Command) -> None:
    """The cause is by the language that the server says the account has."""
    lines = "W $RE(12)\nW $RE(1) R X\n"
    name = "ZSYNTAX: not in the language: column 3: $REVERSE, which needs language 1 of the account's settings\n"
    ran = command("mshell", server.port, ALICE, stdin=lines)
    assert (ran.output, ran.told, ran.status) == (name + name, "", 1)
    ran = command("mshell", server.port, CAROL, stdin=lines)
    assert (ran.output, ran.told, ran.status) == ("21\nZSYNTAX: not in the language: column 10: READ\n", "", 1)


def test_no_server(command: Command) -> None:
    ran = command("mshell", 1, 1, stdin="W 1\n")
    assert (ran.output, ran.status) == ("", 3)
    assert ran.told.startswith("mshell: no server at 127.0.0.1 port 1 (Connection refused): start one with ./mserve serve")


def test_time_out(server: Server, command: Command) -> None:
    with server.connection() as other:
        other.send("W 1")
        ran = command("mshell", server.port, 1, "--timeout", "0.3", stdin="W 1\n")
    assert ran.status == 3 and f"(process {os.getpid()}) has it, or the line runs long" in ran.told


@pytest.mark.parametrize("words", [("0", "1"), ("9000", "10000"), ("9000",), ("a", "1"), ("9000", "1", "--timeout", "-1"), ("9000", "01x")])
def test_words_that_are_wrong(command: Command, words: tuple[str, ...]) -> None:
    ran = command("mshell", *words)
    assert ran.status == 2 and "usage: mshell" in ran.told


@pytest.mark.parametrize("name", ["mshell", "mroutine", "mglobal"])
def test_help_of_the_commands(command: Command, name: str) -> None:
    ran = command(name, "--help")
    assert ran.status == 0 and ran.output.startswith(f"usage: {name}") and "Status: 0" in ran.output


def test_show(server: Server, command: Command) -> None:
    lines = ['S ^X="root",^X(2)=2,^X(-1.5)="neg",^X("b","c",1)=$C(10)_"x""y",^X("01")=""', 'S A(1)="one",A("k",2)="two",K="b",A=0']
    wanted = {
        ".show ^X": '^X="root"\n^X(-1.5)="neg"\n^X(2)=2\n^X("01")=""\n^X("b","c",1)=$C(10)_"x""y"\n',
        ".show ^X(2)": "^X(2)=2\n", '.show ^X("b")': '^X("b","c",1)=$C(10)_"x""y"\n', ".show ^X(K)": '^X("b","c",1)=$C(10)_"x""y"\n',
        ".show ^X(4-2)": "^X(2)=2\n", ".show A": 'A=0\nA(1)="one"\nA("k",2)="two"\n', '.show A("k")': 'A("k",2)="two"\n',
        '.show ^|"ALICE"|X(2)': '^|"ALICE"|X(2)=2\n', '.show ^X($P("a,2",",",2))': "^X(2)=2\n",
    }
    ran = command("mshell", server.port, ALICE, stdin="\n".join([*lines, *wanted, "W K", ".time"]))
    assert ran.output == "".join(wanted.values()) + "b\neach line is timed\n" and ran.status == 0


def test_show_of_another_account(server: Server, command: Command) -> None:
    command("mshell", server.port, ALICE, stdin='S ^X(1)="a",^X(1,2)="b",^Y=1')
    ran = command("mshell", server.port, BOB, stdin='.show ^|"ALICE"|X\n.show ^|"ALICE"|Y')
    assert ran.output == ('^|"ALICE"|X(1)="a"\n^|"ALICE"|X(1,2)="b"\nW $D(^|"ALICE"|Y),! W:$D(^|"ALICE"|Y)#10 ^|"ALICE"|Y,!\n'
                          "  was answered ZGRANT: not granted\n")


def test_globals_and_routines(server: Server, command: Command) -> None:
    lines = ['S ^ROUTINE("R",1)="R W ^INR S ^NOTYET=1",^INR=1,^HERE(1)=2,^%P=3,^UNSEEN=4', ".globals", ".routines", ".globals ^UNSEEN NOTHERE"]
    ran = command("mshell", server.port, 1, stdin="\n".join(lines))
    assert ran.output == "^%P\n^HERE\n^INR\n^ROUTINE\n^UNSEEN\nR\n^%P\n^HERE\n^INR\n^ROUTINE\n^UNSEEN\n"
    ran = command("mshell", server.port, 1, stdin=".globals\n.globals ^UNSEEN NOTHERE")
    assert ran.output == "^INR\n^ROUTINE\n^INR\n^ROUTINE\n^UNSEEN\n"


def test_load_save_check_and_run(server: Server, command: Command, tmp_path: Path) -> None:
    (tmp_path / "SQ.m").write_text("SQ\tW N*N\n\tQ\n")
    (tmp_path / "BAD.m").write_text("BAD\tW $H\n")
    (tmp_path / "lines").write_text("S N=3 D ^SQ\nW B\nW 4\n")
    typed = [".load SQ.m", "S N=5 D ^SQ", ".save SQ COPY.m", ".save SQ", ".check SQ.m", ".check BAD.m", ".run lines", ".run lines all", ".run lines twice"]
    ran = command("mshell", server.port, 1, stdin="\n".join(typed))
    assert ran.output.splitlines() == [
        "SQ: 2 lines from SQ.m", "25", "SQ: COPY.m", "SQ.m is there already: give another file, .save SQ FILE", "SQ.m: 2 lines, all in the language",
        "BAD.m:1:7: not in the language: W $H: $HOROLOG", '    The server has no clock: the client sends the time: S NOW="67530,43200".',
        "9", "M6: undefined local variable", "lines:2: stopped here; `.run lines all` goes on", "9", "M6: undefined local variable", "4",
        ".run FILE [all]; files that run one another are at most 8 deep"]
    assert ran.status == 1 and (tmp_path / "COPY.m").read_text() == "SQ W N*N\n Q\n"


def test_run_of_itself(server: Server, command: Command, tmp_path: Path) -> None:
    (tmp_path / "again").write_text("W 1\n.run again\n")
    ran = command("mshell", server.port, 1, stdin=".run again\n")
    assert ran.output.count("1\n") >= 8 and "at most 8 deep" in ran.output and ran.status == 1


def test_time(server: Server, command: Command) -> None:
    ran = command("mshell", server.port, 1, stdin=".time W 7\nW 8\n.time\nW 9\n.time\n")
    assert re.fullmatch(r"7\n\d+\.\d ms\n8\neach line is timed\n9\n\d+\.\d ms\nlines are timed no more\n", ran.output)


@pytest.mark.parametrize(("word", "text"), [("$ORDER", "the next subscript"), ("$o", "the next subscript"), ("set", "gives variables texts"),
                                            ("S", "gives variables"),
                                            ("M7", "undefined global variable"), ("m7", 'docs/LANGUAGE.md, "Variables"'), (".show", "and all below it"),
                                            ("$TR", "exchanged")])
def test_help_of_a_word(server: Server, command: Command, word: str, text: str) -> None:
    ran = command("mshell", server.port, 1, stdin=f".help {word}\n")
    assert text in ran.output and ran.status == 0


def test_the_session_keeps_what_the_commands_do_not_touch(server: Server, command: Command) -> None:
    lines = ["S A=1,%i=2,%t=3 I 1", ".show A", ".show ^X", ".routines", ".globals", "W A,%i,%t,$T", "K  W $D(%m)"]
    ran = command("mshell", server.port, 1, stdin="S ^X(1)=1\n" + "\n".join(lines))
    assert ran.output == "A=1\n^X(1)=1\n^X\n1231\n0\n"


@pytest.mark.parametrize(("before", "length", "words"), [
    ("", 0, {"SET", "WRITE"}), ("WR", 2, {"WRITE"}), ("S X=1 w", 1, {"WRITE"}), ("W $O", 2, {"$ORDER"}), ("W $", 1, {"$TEST", "$GET"}), (".he", 3, {".help"}),
    ("D ^", 1, {"^SQ", "^%UP"}), ("S X=1 DO ^S", 2, {"^SQ"}), ("W ^", 1, {"^ROUTINE", "^DATA", "^INR"}), ("W ^DA", 3, {"^DATA"}), ("W ^NOT", 4, set()),
    (".save S", 1, {"SQ"}),
    (".show ^D", 2, {"^DATA"}), ("W 1+1", 0, set()),
])
def test_completion(server: Server, before: str, length: int, words: set[str]) -> None:
    with server.connection() as connection:
        connection.send('S ^ROUTINE("SQ",1)="SQ W N*N,^INR(1),^NOTYET",^ROUTINE("%UP",1)=" Q",^INR(1)=1')
        shell = Shell(connection, Screen(False), False)
        shell.obey("S ^DATA=1 I $D(^NOTYET)")
        found = shell.complete(before)
        assert "^NOTYET" not in found[1]
        assert found[0] == length and words <= set(found[1]) and (words or not found[1])


def test_completion_of_files(server: Server, tmp_path: Path) -> None:
    (tmp_path / "AB.m").write_text("")
    with server.connection() as connection:
        assert Shell(connection, Screen(False), False).complete(f".load {tmp_path}/A") == (len(f"{tmp_path}/A"), [f"{tmp_path}/AB.m"])


@contextmanager
def terminal(server: Server, folder: Path, *words: str, rows: int = 24, without: str = "") -> Iterator[Terminal]:
    """A shell at a prompt; `without` names a module that is not to be found."""
    with opened(str(server.port), "1", "--history", str(folder / "state" / "history"), *words, rows=rows, without=without) as shell:
        yield shell


WITHOUT = pytest.mark.parametrize("without", ["", "prompt_toolkit", "rich"])


@WITHOUT
def test_prompt(server: Server, tmp_path: Path, without: str) -> None:
    with terminal(server, tmp_path, without=without) as shell:
        shell.answers("W 2/3", ".666666666666666667")
        shell.answers("W B", 'M6: undefined local variable  (docs/LANGUAGE.md, "Variables")')
        shell.answers("W $C(27)_1", "\\1B1")
        shell.leave()
    assert "W 2/3" in (tmp_path / "state" / "history").read_text()


@WITHOUT
def test_history_is_kept_between_runs(server: Server, tmp_path: Path, without: str) -> None:
    with terminal(server, tmp_path, without=without) as shell:
        shell.answers("W 700+7", "707")
        shell.leave()
    with terminal(server, tmp_path, without=without) as shell:
        shell.answers("\x1b[A", "707")


@pytest.mark.parametrize("without", ["", "prompt_toolkit"])
def test_completion_at_the_prompt(server: Server, tmp_path: Path, without: str) -> None:
    with terminal(server, tmp_path, without=without) as shell:
        shell.wait(">")
        shell.type("WRI\t")
        shell.wait("WRITE")
        shell.type(" 5*5\r")
        shell.wait("25")


def test_pages(server: Server, tmp_path: Path) -> None:
    with server.connection() as connection:
        connection.send("F I=1:1:100 S ^X(I)=I")
    with terminal(server, tmp_path, rows=12) as shell:
        assert "^X(10)=10" in shell.answers(".show ^X", "-- Enter for more, q to stop -- ")
        shell.type("\r")
        shell.wait("^X(20)=20")
        shell.wait("-- Enter for more, q to stop -- ")
        shell.type("q\r")
        assert "^X(21)" not in shell.wait(">")


def test_interrupt_at_the_prompt(server: Server, tmp_path: Path) -> None:
    with terminal(server, tmp_path) as shell:
        shell.wait(">")
        shell.type("W 1\x03")
        shell.answers("W 6*7", "42")


def test_interrupt_while_a_reply_is_waited_for(server: Server, tmp_path: Path) -> None:
    with server.connection() as other:
        other.send("S A=1")
        with terminal(server, tmp_path) as shell:
            shell.answers("W A", "Ctrl-C gives up")
            shell.type("\x03")
            shell.wait("mshell: interrupted; the terminal's session could not be ended")
            assert shell.process.wait(60) == 130


def test_waiting_is_told(server: Server, tmp_path: Path) -> None:
    with server.connection() as other:
        other.send("S A=1")
        with terminal(server, tmp_path) as shell:
            shell.answers("W 6*7", "Ctrl-C gives up")
            other.close()
            shell.wait("42")


def test_terminal_that_nobody_has(server: Server, tmp_path: Path) -> None:
    """It is said before a prompt comes, and the shell ends; lines from a pipe are answered one by one."""
    with opened(str(server.port), "77", "--no-history") as shell:
        shell.wait("77: ZTERM: terminal not in the settings. Use a terminal that the settings give to an account.")
        assert shell.process.wait(60) == 1 and ">" not in shell.seen


def test_terminal_that_nobody_has_while_another_has_the_server(server: Server, tmp_path: Path) -> None:
    """Nobody waits for the prompt, and the first line is answered as it is."""
    with server.connection() as other:
        other.send("S A=1")
        with opened(str(server.port), "77", "--no-history") as shell:
            shell.wait(">")
            shell.type("W 6*7\r")
            other.close()
            shell.wait("ZTERM: terminal not in the settings  (docs")
            shell.leave()


def test_server_that_goes_away(own_server: Server) -> None:
    with own_server.connection() as connection:
        shell = Shell(connection, Screen(False), False)
        shell.obey("W 1")
        own_server.process.kill()
        with pytest.raises(ServerGone):
            shell.obey("W 2")


def test_fault_is_shown_with_its_place(server: Server, tmp_path: Path) -> None:
    with terminal(server, tmp_path) as shell:
        shell.answers("W 1 2", "     ^ ZSYNTAX: two expressions need a comma, or two commands one space")
        shell.answers("D F(1)", "     ^ ZSYNTAX: parameters, which needs language 1 of the account's settings")
        shell.wait("SET variables before the DO")
        shell.answers("W Müller", "     ^ ZCHAR: a character over 127")


@pytest.mark.parametrize(("line", "text"),
                         [("help", ".help lists what can be typed here"), ("?", ".help lists"), ("exit", ".quit leaves"), ("QUIT", ".quit leaves")])
def test_words_of_a_person_who_does_not_know_the_shell(server: Server, tmp_path: Path, line: str, text: str) -> None:
    with terminal(server, tmp_path) as shell:
        shell.answers(line, text)
        shell.answers("W 6*7", "42")


def test_the_process_that_has_the_server_is_told(server: Server, tmp_path: Path) -> None:
    """It is the test's own, which a shell on the same machine may see."""
    with server.connection() as other, terminal(server, tmp_path) as shell:
        other.send("S A=1")
        shell.answers("W 6*7", f"(process {os.getpid()}) has it; Ctrl-C gives up")
        other.close()
        shell.wait("42")


def test_shell_connects_again(own_server: Server, tmp_path: Path) -> None:
    """After a kill of the server it waits for the next one, says what was lost, and goes on."""
    with terminal(own_server, tmp_path) as shell:
        # Answers that are not in what is typed, which is shown too.
        shell.answers("S A=41,^X=2 W A+1", "42")
        own_server.process.kill()
        own_server.process.wait()
        shell.answers("W A", "went away; 1 lines that were sent have no reply, and may have been run or not")
        shell.wait("waiting for the server; Ctrl-C leaves")
        own_server.process = start_at(own_server.store, own_server.port)
        shell.wait("connected again, as terminal 1; the terminal's variables and locks are gone, and with a store in memory all globals")
        shell.answers("W $D(A)", "0")
        shell.answers("W $G(^X,8)+70", "78" if own_server.store == "memory" else "72")
        own_server.process.kill()
        own_server.process.wait()
        shell.answers(".routines", "waiting for the server")
        shell.type("\x03")
        assert shell.process.wait(60) == 130
