# SPDX-License-Identifier: Apache-2.0
"""What tools/try_edits.py makes of what the kit says of an edit, and its turns; the bound of the edits that each gate tries.

The kit is not run: its lines are made up, after those that it prints."""
from __future__ import annotations

import os
import sys
from pathlib import Path
from types import SimpleNamespace

import edits
import gate_libraries
import pytest
import try_edits
from edits import Row
from try_edits import Note, Refusal, Refuser

REFUSED = "refused, as it must be: "
HOLDS = "it is not proved that what the function ensures holds when it returns"


def line_of(crate: str, path: str, text: str) -> int:
    """The number of the line of a crate's source that begins with this text."""
    lines = Path(try_edits.TOP, "crates", crate, path).read_text(encoding="utf-8").split("\n")
    return next(number for number, line in enumerate(lines, 1) if line.strip().startswith(text))


def fault(crate: str, refusers: str, told: str) -> str | None:
    """What is wrong with an edit whose row has these refusers, if the kit says this of it."""
    return try_edits.fault_of([Row(crate, "`call`", "`wrong`", refusers)], crate, "wrong", told)


def test_place_of_an_answer() -> None:
    place = try_edits.place_of("mvalue", "./proofs/value/Value/number/Answers.antt:7:23: error: `returns-in-Number`: as printed, the two types differ")
    assert place == Refusal("Value", "number", "returns-in-Number")


def test_place_of_an_answer_of_a_cycle() -> None:
    place = try_edits.place_of("meval", "./proofs/eval/Eval/+eval/Answers.antt:7:23: error: `with_tails-returns-in_err-tail`: as printed")
    assert place == Refusal("Eval", "with_tails", "returns-in_err-tail")


def test_place_in_the_code() -> None:
    line = line_of("mvalue", "src/value.rt", "pub fn of_bytes")
    place = try_edits.place_of("mvalue", f"note: src/value.rt:{line + 5}:5: {HOLDS} (`returns`); the facts known there")
    assert place == Refusal("Value", "of_bytes", "returns")


def test_place_of_a_function_with_attributes() -> None:
    line = line_of("mnum", "src/whole.rt", "pub fn is_true")
    assert try_edits.place_of("mnum", f"note: src/whole.rt:{line - 2}:5: {HOLDS} (`returns`)") == Refusal("Num", "is_true", "returns")


def test_a_line_that_was_cut_off() -> None:
    line = line_of("mvalue", "src/value.rt", "pub fn of_bytes")
    assert try_edits.place_of("mvalue", f"note: src/value.rt:{line}:5: {HOLDS} (`returns-in-So") == Refusal("Value", "of_bytes", "returns-in-So")


@pytest.mark.parametrize("refusers, goal", [
    ("`Value::number`", "returns-in-Number"),
    ("`Value::number`: `ok`, `does`", "returns-in-Some-clause-does"),
    ("`Value::number`: `does`", "returns-clause-does-2"),
    ("`Value::number`: `does`", "loop-rest-preserved"),
    ("`Value::number`, by the invariant of its type", "invariant_of-result"),
    ("`Value::number`, by the condition of `push`", "push-requires"),
])
def test_refused_as_the_row_says(refusers: str, goal: str) -> None:
    assert fault("mvalue", refusers, f"{REFUSED}./proofs/value/Value/number/Answers.antt:7:23: error: `{goal}`: as printed") is None


@pytest.mark.parametrize("refusers, goal", [
    ("`Value::write`", "returns-in-Number"),
    ("`Shown::number`", "returns"),
    ("`Value::number`: `ok`", "returns-clause-does"),
    ("`Value::number`", "push-requires"),
    ("`Value::number`: `near`", "with_zeros-requires-clause-near"),
    ("`Value::number`, by the invariant of its type", "returns"),
    ("`Value::number`", "overflow_add-result"),
])
def test_refused_by_another_clause(refusers: str, goal: str) -> None:
    told = f"{REFUSED}./proofs/value/Value/number/Answers.antt:7:23: error: `{goal}`: as printed"
    assert "of `Value::number`, and docs/TESTING.md names" in str(fault("mvalue", refusers, told))


@pytest.mark.parametrize("told", [
    "NOT REFUSED: the crate is still proved with this edit (one that means the same as before cannot be refused: remove it)",
    "BAD EDIT: an 'old:' text is in src/value.rt 0 times, and not once",
    "BAD EDIT: the prover cannot read the edited text, so no contract was tried: src/value.rt:3:1: error: expected the end",
    "NOT TRIED: its check was killed, most likely for memory, so nothing is known of it: run this again",
    "refused, as it must be (only because a proof file names what the edit took away, so this says little of the contract): proofs/a.antt:1:1: error",
    "refused, as it must be (only by a limit of the prover, which gave no verdict, so this says less of the contract): src/value.rt:3:1: error",
])
def test_no_refusal_by_a_clause(told: str) -> None:
    assert fault("mvalue", "`Value::number`", told) == told


def test_an_edit_of_which_nothing_was_said() -> None:
    assert str(try_edits.fault_of([], "mvalue", "wrong", None)).startswith("NOT TRIED")


def test_a_refusal_at_no_function() -> None:
    assert str(fault("mvalue", "`Value::number`", f"{REFUSED}src/lib.rt:1:1: error: something else")).startswith("refused at no answer")


def test_parts_of_a_row_with_two_edits() -> None:
    rows = [Row("mgrant", "`Settings::reaches`", "`first`, `second`", "`spread`: `reached`; `edges_of`")]
    assert try_edits.refusers_of(rows, "mgrant", "first") == [Refuser("spread", ("reached",))]
    assert try_edits.refusers_of(rows, "mgrant", "second") == [Refuser("edges_of")]


def test_each_row_of_the_page_says_what_refuses() -> None:
    rows = edits.rows_of(Path(try_edits.TOP, edits.PAGE).read_text(encoding="utf-8"))[0]
    for row in rows:
        for stem in edits.WORD.findall(row.edits):
            assert try_edits.refusers_of([row], row.crate, stem), row


def test_lines_of_the_kit() -> None:
    said = "rt: must-fail mvalue/bytes_lost.edit: refused, as it must be: note: src/value.rt:118:5\nrt: mvalue ran\nmust-fail mnum/a-b.edit: NOT REFUSED: x\n"
    assert try_edits.TOLD.findall(said) == [("mvalue", "bytes_lost", "refused, as it must be: note: src/value.rt:118:5"), ("mnum", "a-b", "NOT REFUSED: x")]


def note(edits_of_it: int, seconds: int, base: int) -> Note:
    return Note(edits_of_it, seconds, base, "2026-11-28", "0123abcd")


def test_turns_keep_their_bound() -> None:
    every = {"low": ["a", "b"], "next": ["c"], "dear": ["d", "e", "f", "g"], "unknown": ["h", "i"], "last": ["j"]}
    notes = {"low": note(2, 200, 100), "next": note(1, 100, 0), "dear": note(4, 1600, 400), "last": note(1, 100, 0)}
    turns = try_edits.turns_of(every, notes)
    dear = [{"dear": [name]} for name in "defg"]
    assert turns == [{"low": ["a", "b"], "next": ["c"]}, *dear, {"unknown": ["h", "i"]}, {"last": ["j"]}]


def test_turns_have_each_edit_once() -> None:
    every = {crate: paths for crate in try_edits.crates_with_below() if (paths := try_edits.edits_of(crate, "edits"))}
    notes = try_edits.notes_of(Path(try_edits.TOP, edits.PAGE).read_text(encoding="utf-8"))
    turns = try_edits.turns_of(every, notes)
    assert sorted(path for turn in turns for paths in turn.values() for path in paths) == sorted(path for paths in every.values() for path in paths)
    assert all(len(turn) <= 2 for turn in turns)


def test_the_table_is_read_as_it_was_written() -> None:
    notes = {"mnum": note(9, 300, 150), "mvalue": Note(6, None, None, "2026-11-28", "0123abcd")}
    page = try_edits.written(f"before\n{try_edits.BEGIN}{try_edits.END}\nafter\n", notes)
    assert try_edits.notes_of(page) == notes
    assert page.startswith("before\n") and page.endswith("\nafter\n")


def test_a_word_that_is_no_crate(capsys: pytest.CaptureFixture[str]) -> None:
    assert try_edits.main(["mnothing"]) == 2
    assert "mnothing is no crate" in capsys.readouterr().err


def test_bound_of_what_each_gate_tries() -> None:
    assert edits.bound_faults({"one": ["a"] * 45}) == []
    assert "46 edits in must-fail/" in edits.bound_faults({"one": ["a"] * 46})[0]
    assert "15 crates" in edits.bound_faults({str(number): ["a"] for number in range(15)})[0]


def test_an_edit_that_cannot_be_applied(tmp_path: Path) -> None:
    source, folder = tmp_path / "src", tmp_path / "edits"
    source.mkdir(), folder.mkdir()
    (source / "lib.rt").write_text("one two two\n", encoding="utf-8")
    edit = folder / "wrong.edit"
    for text, why in [("file: src/lib.rt\nold: one\nnew: three\n", ""), ("file: src/lib.rt\nold: two\nnew: three\n", "stands 2 times"),
                      ("file: src/other.rt\nold: one\nnew: three\n", "there is no file"), ("file: src/lib.rt\nold: one\nnew: one\n", "it changes nothing"),
                      ("file: out/lib.rt\nold: one\nnew: three\n", "is not below")]:
        edit.write_text(text, encoding="utf-8")
        assert why in edits.unfit(edit) and bool(why) == bool(edits.unfit(edit))


# What the kit said of the edits of mvalue (rattle-kit-13f), shortened.
ANSWERED = {
    "every_number_is_one": "./proofs/value/Value/number/Answers.antt:7:23: error: `returns-in-Number`: as printed",
    "number_is_the_empty_text": "./proofs/value/Value/is_empty/Answers.antt:11:5: error: `returns-in-Number`: computed as far as they go",
    "opposite_numbers_equal": "./proofs/value/Value/equals/Answers.antt:12:48: error: `returns-in-Number-Number`: as printed",
    "text_without_the_fraction": "./proofs/value/Value/append_to/Answers.antt:8:82: error: `append-requires`: as printed",
}


def run_over(said: str, tmp_path: Path, monkeypatch: pytest.MonkeyPatch, capsys: pytest.CaptureFixture[str]) -> tuple[int, list[str]]:
    """The status and the lines of `./test edits mvalue`, with a kit of another form, which prints this and has the edits in must-fail/."""
    (tmp_path / "said").write_text(f"{said}\n", encoding="utf-8")
    rt = tmp_path / "rt"
    rt.write_text(f'#!/bin/sh\n[ "$*" = "must-fail mvalue" ] || exit 2\n[ -e crates/mvalue/must-fail/bytes_lost.edit ] && cat {tmp_path}/said\n',
                  encoding="utf-8")
    rt.chmod(0o755)
    monkeypatch.setenv("PATH", f"{tmp_path}:/usr/bin:/bin")
    monkeypatch.setattr(sys, "__stdout__", sys.stdout)
    status = try_edits.main(["mvalue"])
    return status, capsys.readouterr().out.splitlines()


def lines_for_mvalue() -> list[str]:
    """What the kit says if all is well: two edits are refused in the code, at a function's place."""
    placed = {stem: f"note: src/value.rt:{line_of('mvalue', 'src/value.rt', f'pub fn {name}')}:5: {HOLDS} (`returns`)"
              for stem, name in (("bytes_lost", "of_bytes"), ("number_kept_negated", "of_number"))}
    return [f"rt: must-fail mvalue/{stem}.edit: {REFUSED}{where}" for stem, where in sorted({**ANSWERED, **placed}.items())]


def test_all_refused_as_their_rows_say(tmp_path: Path, monkeypatch: pytest.MonkeyPatch, capsys: pytest.CaptureFixture[str]) -> None:
    status, said = run_over("\n".join(lines_for_mvalue()), tmp_path, monkeypatch, capsys)
    assert (status, said[-1]) == (0, "6 passed, 0 failed")


def test_one_let_through_and_one_that_was_not_tried(tmp_path: Path, monkeypatch: pytest.MonkeyPatch, capsys: pytest.CaptureFixture[str]) -> None:
    first, *others = lines_for_mvalue()[1:]
    through = f"{first.partition(REFUSED)[0]}NOT REFUSED: the crate is still proved with this edit"
    status, said = run_over("\n".join([through, *others]), tmp_path, monkeypatch, capsys)
    assert (status, said[-1]) == (1, "4 passed, 2 failed")
    assert [line for line in said if "FAILED" in line] == [
        "edits: FAILED: mvalue/bytes_lost.edit: NOT TRIED: its crate, or one below, is not proved",
        "edits: FAILED: mvalue/every_number_is_one.edit: NOT REFUSED: the crate is still proved with this edit",
    ]


class OlderKit:
    """A kit whose `rt ci` keeps nothing: it says of each edit that it was refused, and notes where it was asked."""

    class Crate:
        cuts_libraries = False
        allowed: tuple[str, ...] = ()

    def __init__(self) -> None:
        self.asked: list[tuple[str, list[str], str]] = []
        crates = [SimpleNamespace(name=name) for name in ("mspec", "mvalue")]
        self.rtlib = SimpleNamespace(guarded=lambda: [], crates_below=lambda top: crates)

    def stop(self, why: str) -> None:
        raise AssertionError(why)

    def handles_of(self, root: str) -> tuple[str, ...]:
        return ("Net",)

    def must_fail_all(self, crate: SimpleNamespace, edits: list[str], flags: list[str]) -> list[tuple[bool, str]]:
        self.asked.append((crate.name, edits, os.getcwd()))
        print("rt: chose --jobs 1")
        return [(True, f"must-fail {crate.name}/{Path(edit).name}: {REFUSED}src/value.rt:1:1") for edit in edits]


def test_edits_over_the_gates_libraries(monkeypatch: pytest.MonkeyPatch, capsys: pytest.CaptureFixture[str]) -> None:
    older, here = OlderKit(), os.getcwd()
    monkeypatch.setattr(gate_libraries.kit, "load_older", lambda: older)
    edit = "crates/mvalue/edits/bytes_lost.edit"
    told = gate_libraries.tried({"mvalue": [edit]})
    assert told == f"rt: must-fail mvalue/bytes_lost.edit: {REFUSED}src/value.rt:1:1"
    assert older.asked == [("mspec", [], try_edits.TOP), ("mvalue", [f"{try_edits.TOP}/{edit}"], try_edits.TOP)]
    assert older.Crate.cuts_libraries and older.Crate.allowed == ("Net",)
    assert os.getcwd() == here and capsys.readouterr().out == ""


def test_the_gates_libraries_are_those_of_the_sources(monkeypatch: pytest.MonkeyPatch, tmp_path: Path) -> None:
    monkeypatch.setattr(gate_libraries, "TOP", str(tmp_path))
    monkeypatch.setattr(gate_libraries, "sources_digest", lambda: "now")
    assert not gate_libraries.are_there()
    (tmp_path / gate_libraries.NOTE).parent.mkdir(parents=True)
    gate_libraries.note("before")
    assert not gate_libraries.are_there()
    gate_libraries.note("now")
    assert gate_libraries.are_there()


def test_a_turn_without_what_the_gate_proved_fails(monkeypatch: pytest.MonkeyPatch, capsys: pytest.CaptureFixture[str]) -> None:
    monkeypatch.setattr(try_edits.chain, "is_kept", lambda: False)
    monkeypatch.setattr(gate_libraries, "are_there", lambda: False)
    assert try_edits.main(["--turn"]) == 1
    assert capsys.readouterr().out.endswith("0 passed, 1 failed\n")
