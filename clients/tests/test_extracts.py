# SPDX-License-Identifier: Apache-2.0
"""Extracts: what lines of ZWR, GO and JSON are, and what cannot come in."""
from __future__ import annotations

import io

import pytest
from hypothesis import given
from hypothesis import strategies as st
from mserve_client import escape, extracts
from mserve_client.extracts import BadExtract, Entry, Form, Problem, Record

ZWR = b"GT.M MUPIP EXTRACT\n26-NOV-2026  01:45:37 ZWR\n"
GO = b"GT.M MUPIP EXTRACT\n26-NOV-2026  01:45:37\n"


def read(data: bytes, form: str | None = None) -> list[Record]:
    """What a file with these bytes has."""
    return list(extracts.read(io.BytesIO(data), Form(form)))


# The lines are those that GT.M V7.0-005 wrote, or are after its manual.
@pytest.mark.parametrize(("line", "name", "subscripts", "text"), [
    ('^Y="root"', "Y", (), "root"),
    ('^X(-1)="5"', "X", ("-1",), "5"),
    ('^X(.000000000000000001)="3"', "X", (".000000000000000001",), "3"),
    ('^X(1.5)="q""uote"', "X", ("1.5",), 'q"uote'),
    ('^X("-0")="1"', "X", ("-0",), "1"),
    ('^X("01")=$C(10,13)_"x"_$C(0)', "X", ("01",), "\n\rx\0"),
    ('^X("a",$C(9))="1000"', "X", ("a", "\t"), "1000"),
    ('^X("a""b")=$C(1)', "X", ('a"b',), "\1"),
    ('^X("a"_$C(9)_"b",2)=""', "X", ("a\tb", "2"), ""),
    ('^X("a,b","c)=d")="e=""f"""', "X", ("a,b", "c)=d"), 'e="f"'),
    ('^X("a=")="t"', "X", ("a=",), "t"),
    ('^X(1,"b,""c",3)="x,y"', "X", ("1", 'b,"c', "3"), "x,y"),
    ('^%ZIS("C")=5', "%ZIS", ("C",), "5"),
    ('^X("1")="text that is a number"', "X", ("1",), "text that is a number"),
    ('^X(1)="a\tb"', "X", ("1",), "a\tb"),
    ("^X($ZCH(65))=$CHAR(66)", "X", ("A",), "B"),
    ('^X(999999999999999999)="7"', "X", ("999999999999999999",), "7"),
    ('^A2345678901234567890123456789012345="x"'.replace("2345=", "="), "A234567890123456789012345678901", (), "x"),
])
def test_line_of_zwr(line: str, name: str, subscripts: tuple[str, ...], text: str) -> None:
    assert read(ZWR + line.encode() + b"\n") == [Entry(3, name, subscripts, text)]
    assert read(ZWR + line.encode() + b"\r\n") == [Entry(3, name, subscripts, text)]
    assert read(ZWR + line.encode()) == [Entry(3, name, subscripts, text)]


NODES_15 = ",".join(map(str, range(15)))


@pytest.mark.parametrize(("line", "reason"), [
    (b'^X(1)="' + b"a" * 4096 + b'"', "its text has 4,096 characters: at most 4,095"),
    (b'^X("\xc3\xa9")="a"', "its subscript 1 has the code 195"),
    (b'^X(1)="\xe9"', "its text has the code 233"),
    (b"^X(1)=$C(200)", "its text has the code 200"),
    (b"^X(1)=$ZCH(255)", "its text has the code 255"),
    (b"^X(1)=$C(1114112)", "the code 1114112"),
    (b'^X("' + b"s" * 256 + b'")="a"', "its subscript 1 has 256 characters: at most 255"),
    (b"^X(" + NODES_15.encode() + b',15)="a"', "16 subscripts: a node has at most 15"),
    (b'^X("")="a"', "its subscript 1 is empty"),
    (b'^X(1,"")="a"', "its subscript 2 is empty"),
    (b'^X(1000000000000000000)="8"', "the number 1000000000000000000 is no number here"),
    (b'^X(1E20)="8"', "the number 1E20 is no number here"),
    (b'^X(.0000000000000000001)="8"', "is no number here"),
    (b'^X(01)="8"', "the number 01 is no number here"),
    (b'^A2345678901234567890123456789012="a"', "a name has at most 31"),
    (b'X(1)="a"', "no node: 'X(1)"),
    (b'^X(1="a"', "no ) after the subscripts"),
    (b'^X(1)"a"', "no = after the node"),
    (b'^X(1)="a" ', "more after the text"),
    (b'^X(1)="a', "no text"),
    (b'^X(1)=', "no text"),
    (b'^X(A)="a"', "no text: 'A)"),
    (b'^X(1)="a"_5', "a number in a text"),
])
def test_line_of_zwr_that_cannot_come_in(line: bytes, reason: str) -> None:
    [before, problem, after] = read(ZWR + b'^A="1"\n' + line + b'\n^Z="2"\n')
    assert (before, after) == (Entry(3, "A", (), "1"), Entry(5, "Z", (), "2"))
    assert isinstance(problem, Problem) and problem.line == 4 and reason in problem.reason


def test_the_longest_that_can_come_in() -> None:
    text, subscript = "t" * 4095, "s" * 255
    line = f'^X({NODES_15[:-3]},"{subscript}")="{text}"\n'
    assert read(ZWR + line.encode()) == [Entry(3, "X", (*NODES_15[:-3].split(","), subscript), text)]


def test_go() -> None:
    data = GO + b'^X(1)\na "quoted" text\n^X("a",$C(9))\n1000\r\n^Y\n\n^X("a""b")\n^A is no node here\n'
    assert read(data) == [Entry(3, "X", ("1",), 'a "quoted" text'), Entry(5, "X", ("a", "\t"), "1000\r"), Entry(7, "Y", (), ""),
                          Entry(9, "X", ('a"b',), "^A is no node here")]


def test_go_with_a_line_feed_in_a_text_and_without_the_last_text() -> None:
    found = read(GO + b"^X(1)\nfirst\nsecond\n^X(1000000000000000000)\n8\n^X(2)\nx\n^X(3)\n")
    assert [record.line for record in found] == [3, 5, 6, 8, 10]
    assert [record.reason.partition(": ")[2] for record in found if isinstance(record, Problem)] == [
        "'second': in GO no text can have a line feed",
        "the number 1000000000000000000 is no number here: at most 18 digits, below 10^18, and 18 places after the point; as a text it would stand elsewhere",
        "the file ends before its text"]


def test_json_lines() -> None:
    data = b'{"global": "X", "subscripts": ["1", "a\\"b"], "text": "\\n"}\n\n{"global": "Y", "subscripts": [], "text": ""}\n'
    assert read(data) == [Entry(1, "X", ("1", 'a"b'), "\n"), Entry(3, "Y", (), "")]


@pytest.mark.parametrize(("line", "reason"), [
    (b"{", "no JSON"), (b"[]", "no node"), (b'{"global": "X", "subscripts": [1], "text": ""}', "no node"),
    (b'{"global": "X", "subscripts": [], "text": "\\u00e9"}', "the code 233"),
    (b'{"global": "1X", "subscripts": [], "text": ""}', "a name has at most 31"),
    (b'{"global": "X", "subscripts": [""], "text": ""}', "is empty"),
])
def test_json_line_that_cannot_come_in(line: bytes, reason: str) -> None:
    [problem] = read(line, "json")
    assert isinstance(problem, Problem) and reason in problem.reason


@pytest.mark.parametrize(("data", "form"), [
    (ZWR + b'^X="1"\n', "zwr"), (GO + b"^X\n1\n", "go"), (b'^X(1)="a"\n', "zwr"), (b"", "zwr"), (ZWR, "zwr"), (b'{"global": "X"}\n', "json"),
    (b"YottaDB MUPIP EXTRACT UTF-8\n01-JAN-2025  00:00:00 ZWR\n", "zwr"), (GO + b'^%PCT(1,"%",";",",",")(","=")\n1\n', "go"),
])
def test_form_of_a_file(data: bytes, form: str) -> None:
    assert extracts.form_of(data.decode().splitlines(True)[:3]) == form


def test_file_that_is_no_extract() -> None:
    with pytest.raises(BadExtract, match="--format"):
        read(b"#!/bin/sh\nexit\n\n")


NODES = st.tuples(st.sampled_from(["X", "%Z9"]),
                  st.lists(st.text(st.characters(max_codepoint=127), min_size=1, max_size=6) | st.integers().map(str), max_size=4)
                  .map(tuple), st.text(st.characters(max_codepoint=127), max_size=30))


@pytest.mark.parametrize("form", ["zwr", "json", "go"])
@given(nodes=st.lists(NODES, max_size=5))
def test_what_is_written_is_read_back(form: str, nodes: list[tuple[str, tuple[str, ...], str]]) -> None:
    kept = [node for node in nodes if form != "go" or "\n" not in node[2]]
    data = extracts.header(Form(form)) + "".join(extracts.written(Form(form), *node) for node in kept)
    assert [tuple(record[1:]) for record in read(data.encode(), form)] == kept


def test_go_cannot_have_a_line_feed() -> None:
    with pytest.raises(extracts.Unreadable) as error:
        extracts.written(Form("go"), "X", ("1",), "a\nb")
    assert "^X(1): its text has a line feed" in error.value.reason


def test_null_subscripts_are_mapped_there_and_back() -> None:
    form = Form("zwr", null="(none)")
    data = ZWR + b'^X("")="a"\n^X(1,"",2)="b"\n'
    found = list(extracts.read(io.BytesIO(data), form))
    assert found == [Entry(3, "X", ("(none)",), "a"), Entry(4, "X", ("1", "(none)", "2"), "b")]
    assert "".join(extracts.written(form, *entry[1:]) for entry in found).encode() == data[len(ZWR):]


def test_bytes_that_are_no_utf_8() -> None:
    [problem] = extracts.read(io.BytesIO(ZWR + b'^X(1)="\xe9"\n'), Form("zwr", in_utf_8=True))
    assert isinstance(problem, Problem) and problem.reason == "^X(1): the character at place 1 is no UTF-8"


@pytest.mark.parametrize("form", ["zwr", "json", "go"])
@given(nodes=st.lists(st.tuples(st.just("X"), st.lists(st.text("~7e;9é\u4e2d\U0001f600", min_size=1, max_size=6), max_size=2).map(tuple),
                                st.text("~7e;9\"é\u4e2d\U0001f600", max_size=12)), max_size=4))
def test_what_is_written_in_utf_8_is_read_back(form: str, nodes: list[tuple[str, tuple[str, ...], str]]) -> None:
    """Nodes of any stored texts: those that drawn texts stand for."""
    how = Form(form, in_utf_8=True)
    kept = [(name, tuple(map(escape.stored, subscripts)), escape.stored(text)) for name, subscripts, text in nodes]
    data = extracts.header(how) + "".join(extracts.written(how, *node) for node in kept)
    assert [tuple(record[1:]) for record in extracts.read(io.BytesIO(data.encode()), how)] == kept
