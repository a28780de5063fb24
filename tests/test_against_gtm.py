# SPDX-License-Identifier: Apache-2.0
"""Lines beside GT.M: the examples of docs/LANGUAGE.md and 2,000 drawn lines are answered alike, but for the differences that the page has.

GT.M is Debian's `fis-gtm`. If it is not installed these tests are skipped; with the variable CI set that is a failure."""
from __future__ import annotations

import os
from collections import Counter
from random import Random

import against_gtm
import pytest
from against_gtm import Difference, Reply, alike, compared, differences, faults_of_drawn, faults_of_examples, faults_of_rows, first_fault
from drawn_forms import BEGIN, FORMS, PARAMETERS, SHOW, session, session_of
from gtm import gtm_folder
from running import OF_LANGUAGE

# Sessions that have 2,500 lines with actuals.
HANDED = 500
needs_gtm = pytest.mark.skipif(gtm_folder() is None and not os.environ.get("CI"), reason="GT.M is not there: apt-get install fis-gtm")


@needs_gtm
@pytest.mark.parametrize("language", OF_LANGUAGE)
def test_drawn_lines(count: int, language: int) -> None:
    """2,000 lines, and `--count` times as many; of a later language, most of them of its own forms, half as many."""
    sessions, least = ((against_gtm.SESSIONS, 2000), (200, 1000))[language]
    lines, faults = faults_of_drawn(differences(), sessions * count, 68, language)
    assert [fault.told() for fault in faults] == []
    assert lines >= least * count


@needs_gtm
@pytest.mark.long
def test_drawn_lines_that_hand_something_over(count: int) -> None:
    """2,500 lines with actuals and functions, and `--count` times as many; between them what GT.M wants (drawn_calls.AGAIN)."""
    drawn, known = Random(71), differences()
    lines, faults = compared([session_of(drawn, PARAMETERS) for _ in range(HANDED * count)], known)
    assert [fault.told() for fault in faults] == []
    assert lines >= 4500 * count


@needs_gtm
def test_examples_of_the_page() -> None:
    assert len(against_gtm.examples()) >= 30
    assert [fault.told() for fault in faults_of_examples(differences())] == []


@needs_gtm
def test_each_difference_is_one() -> None:
    assert [fault.told() for fault in faults_of_rows(differences())] == []


@needs_gtm
def test_difference_without_a_reason_is_told() -> None:
    """Without the rows their lines are faults."""
    known = differences()
    played = list(against_gtm.on_both([[*BEGIN, one.line] for one in known], endless=()))
    assert [fault is not None for fault in (first_fault(*one, []) for one in played)] == [not alike(here[-1], there[-1]) for _, here, there in played]
    assert sum(first_fault(*one, []) is not None for one in played) >= len(known) - 1


def test_table_of_the_page_is_the_file_of_differences() -> None:
    """python3 tools/against_gtm.py --write makes it so."""
    assert against_gtm.LANGUAGE_PAGE.read_text(encoding="ascii") == against_gtm.page_with(differences())


def test_codes_that_are_alike() -> None:
    assert alike(Reply("1"), Reply("1")) and alike(Reply("1", "M6"), Reply("1", "M6")) and alike(Reply("", "ZARG"), Reply("", "Z150376010"))
    assert not alike(Reply("1"), Reply("2")) and not alike(Reply("", "M6"), Reply("", "M7"))
    assert not alike(Reply("", "ZARG"), Reply("")) and not alike(Reply(""), Reply("", "Z1"))


def test_replies_as_rows_have_them() -> None:
    """Controls as on the wire, many spaces by their count, and of a code of GT.M's own the Z alone."""
    given = [Reply("a\n\x0cb"), Reply(4096 * " ", "M6"), Reply("a  b"), Reply("1", "Z150376010"), Reply("", "ZARG")]
    assert [against_gtm.shown(one) for one in given] == ["a\\0A\\0Cb", "(4096 spaces)!M6", "a  b", "1!Z", "!ZARG"]


def test_what_a_row_explains() -> None:
    row: Difference = differences()[0]
    assert row.explains("W A!B", Reply("", "M6"), Reply("1"))
    assert not row.explains("W A+B", Reply("", "M6"), Reply("1")) and not row.explains("W A!B", Reply("", "M6"), Reply("", "M9"))


def test_each_form_is_drawn() -> None:
    """Each form gives lines of its own, each language has some, and sessions have what they begin with and what shows their end."""
    kinds = Counter(form.name for form in FORMS)
    assert max(kinds.values()) == 1 and all(form.draw(Random(1)) for form in FORMS)
    assert {form.since for form in FORMS} > set(OF_LANGUAGE)
    for language in OF_LANGUAGE:
        drawn = session(Random(2), language)
        assert drawn[:len(BEGIN)] == BEGIN and drawn[-len(SHOW):] == SHOW and len(drawn) >= len(BEGIN) + len(SHOW) + 5
    played = ["".join(line for seed in range(50) for line in session(Random(seed), language)) for language in OF_LANGUAGE]
    assert ["$RE" in lines for lines in played] == [False, True]
