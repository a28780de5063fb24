# SPDX-License-Identifier: Apache-2.0
"""What the clients say of the language is what docs/LANGUAGE.md says, and the man pages have what the commands take."""
from __future__ import annotations

import os
import re
import shutil
import subprocess

import pytest
from conftest import CLIENTS, Command
from mserve_client import CODES, in_words, place
from mserve_client.reference import COMMANDS, DOT_COMMANDS, FUNCTIONS, explained, overview

PAGE = (CLIENTS.parent / "docs" / "LANGUAGE.md").read_text(encoding="utf-8")


def test_each_code_of_the_page_is_known() -> None:
    codes = set(re.findall(r"^\| `(M\d+|Z[A-Z]+)` \|", PAGE, re.MULTILINE))
    assert codes and codes | {"ZWIRE"} == set(CODES)


@pytest.mark.parametrize("code", sorted(CODES))
def test_place_of_a_code(code: str) -> None:
    assert place(code) == f'docs/LANGUAGE.md, "{CODES[code].section}"'
    assert re.search(rf"^## {re.escape(CODES[code].section)}$", PAGE, re.MULTILINE)


def test_unknown_code() -> None:
    assert (in_words("Z9"), place("Z9")) == ("Z9: unknown code", "")


def test_each_command_and_function_of_the_page_has_help() -> None:
    commands = set(re.findall(r"^\| `([A-Z]+)`, `[A-Z]` \|", PAGE, re.MULTILINE))
    # a form of a command that was there before is written with its one letter
    later_commands = set(re.findall(r"^\| [1-9] \| `([A-Z]{2,}) ", PAGE, re.MULTILINE))
    assert later_commands and commands | later_commands == set(COMMANDS)
    functions = {"$" + short + more for short, more in re.findall(r"^\| `\$([A-Z]+)\[([A-Z]+)\]\(", PAGE, re.MULTILINE)}
    later = set(re.findall(r"^\| [1-9] \| `(\$[A-Z]+)\(", PAGE, re.MULTILINE))
    cells = re.findall(r"^\| [1-9] \| (`\$[A-Z]+`[^|]*) \|", PAGE, re.MULTILINE)
    specials = {word for cell in cells for word in re.findall(r"`(\$[A-Z]+)`(?:, `\$[A-Z]`)?", cell)}
    assert later and specials and functions | later | specials | {"$TEST"} == set(FUNCTIONS)


@pytest.mark.parametrize("word", [*COMMANDS, *FUNCTIONS, *CODES])
def test_help_of_each_word(word: str) -> None:
    assert explained(word) and explained(word.lower())


def test_overview_has_each_word() -> None:
    text = "\n".join(overview())
    assert all(word in text for word in COMMANDS)
    assert all(FUNCTIONS[word] in text for word in FUNCTIONS)


COMMAND_PAGES = ("mshell", "mroutine", "mglobal", "misland", "msettings")


@pytest.mark.parametrize("name", COMMAND_PAGES)
def test_page_of_a_command_has_each_option_and_word(command: Command, name: str) -> None:
    """The man page has each option and each word that `--help` has."""
    page = (CLIENTS / "man" / f"{name}.1").read_text(encoding="utf-8").replace("\\-", "-")
    helped = command(name, "--help").output
    acts = re.findall(r"^    (load|check|diff|list|save|delete|test|export|import|compare|count|split|join)\b", helped, re.MULTILINE)
    for act in acts:
        helped += command(name, *([] if name == "misland" else [1, 1]), act, "--help").output
        assert re.search(rf"^\.B[RI]? {act}\b", page, re.MULTILINE)
    assert len(acts) == {"mshell": 0, "mroutine": 7, "mglobal": 4, "misland": 3, "msettings": 0}[name]
    options = set(re.findall(r"--[a-z-]+", helped)) - {"--help"}
    assert options and all(option in page for option in options)


def test_page_of_the_shell_has_each_of_its_commands() -> None:
    page = (CLIENTS / "man" / "mshell.1").read_text(encoding="utf-8")
    assert all(re.search(rf"^\.BI?R? {re.escape(word)}\b", page, re.MULTILINE) for word in DOT_COMMANDS)


@pytest.mark.skipif(shutil.which("groff") is None and not os.environ.get("CI"), reason="groff is not there: apt-get install groff-base")
@pytest.mark.parametrize("name", COMMAND_PAGES)
def test_page_is_set_without_a_warning(name: str) -> None:
    done = subprocess.run(["groff", "-man", "-ww", "-z", "-Tutf8", CLIENTS / "man" / f"{name}.1"], capture_output=True, timeout=60)
    assert (done.returncode, done.stderr) == (0, b"")
