#!/usr/bin/env python3
# SPDX-License-Identifier: Apache-2.0
"""What the page of the front end says of the language, made from what the clients say, so that it is said once: front/page/codes.js.
Without a word it compares, and has status 1 if the file is another; `--write` writes it. It needs no program."""
import dataclasses
import json
import os
import re
import sys
import textwrap

TOP = os.path.realpath(os.path.join(os.path.dirname(os.path.abspath(__file__)), ".."))
sys.path.insert(0, os.path.join(TOP, "clients"))

from mserve_client import causes, checking, codes, grammar, keys, language, mtext, reference, routine_files, walk, wire  # noqa: E402

MADE = os.path.join(TOP, "front", "page", "codes.js")
HEAD = ("// SPDX-License-Identifier: Apache-2.0\n"
        "// Made by tools/page_words.py from clients/mserve_client: change it there, and run `python3 tools/page_words.py --write`.\n")


PATTERNS = {"name": keys.NAME, "number": keys.NUMBER, "reference": mtext.REFERENCE, "line": routine_files.HEAD, "tab": routine_files.TAB,
            "string": language.STRING, "over": language.OVER_PLACE, "command": language.HEAD}
FAULTS = {"over": checking.OVER_127, "label": checking.LONG_LABEL, "parameters": checking.PARAMETERS, "formals": checking.NO_FORMALS,
          "begin": checking.NO_BEGIN, "line": checking.LONG_LINE, "cut": checking.CUT}


def pattern_of(pattern: re.Pattern[str]) -> str:
    """A regular expression as JavaScript has it, where a point is never a line end."""
    return pattern.pattern.replace(".*", "[^]*") if pattern.flags & re.DOTALL else pattern.pattern


def exported() -> dict[str, tuple[str, object]]:
    """Each name of the module: what it is, and its value."""
    return {
        "CODES": ("The codes that end a line: what each means, the section that has the rule, and what to do.",
                  {name: {"words": code.words, "section": code.section, "advice": code.advice} for name, code in codes.CODES.items()}),
        "COMMANDS": ("The commands of the language, in a line each.", reference.COMMANDS),
        "FUNCTIONS": ("The functions of the language, in a line each.", reference.FUNCTIONS),
        "RULES": ("The grammar of lines of language 0, as clients/mserve_client/grammar.py has it: kinds of steps, and rules of them.", grammar.LANGUAGES[0]),
        "LATER_RULES": ("The rules of each later language that are others.", {number: others(rules) for number, rules in grammar.LANGUAGES.items() if number}),
        "NEW_LINES": ("A line that a language takes, and none before it.", grammar.NEW_LINES),
        "DEPTH": ("How many brackets and operands of @ may be open at a place.", grammar.DEPTH),
        "CAUSES": ("Why a line is not in the language: how that is known, its name, and what to write instead. The first that fits counts.",
                   [cause_words(cause) for cause in causes.CAUSES]),
        "OVER": ("What is said of a character over 127.", {"name": language.OVER.name, "advice": language.OVER.advice}),
        "NO_LABEL": ("What is said of a line that begins with no label and no space.", language.NO_LABEL),
        "LABEL_PARAMETERS": ("What is said of a label with parameters.", language.LABEL_PARAMETERS),
        "FORMALS": ("What is said of brackets after a label that are no formal list.", language.FORMALS),
        "PARAMETERS_SINCE": ("The language that has formal lists.", grammar.PARAMETERS_SINCE),
        "LONGEST_LINE": ("How many characters a line has at most.", wire.LONGEST_LINE),
        "LONGEST_TEXT": ("How many characters a text has at most.", keys.MAX_TEXT),
        "LONGEST_SUBSCRIPT": ("How many characters a subscript has at most.", keys.MAX_SUBSCRIPT),
        "MOST_SUBSCRIPTS": ("How many subscripts a node has at most.", keys.MAX_SUBSCRIPTS),
        "DIGITS": ("How many significant digits a number has at most, and how many places after its point.", keys.MAX_DIGITS),
        "BATCH": ("How many children of a node one line asks for.", walk.BATCH),
        "LONGEST_NAME": ("How many characters a name of a variable, a label or a routine has at most.", keys.MAX_NAME),
        "GUARD": ("What a line is sent after to be read and not run.", checking.GUARD),
        "ROUTINE": ("The global that has the account's routines.", walk.ROUTINE),
        "LOCAL": ("How a local begins that holds what is too long for a line.", walk.LOCAL),
        "ROOM": ("The room that a reference may take in a line.", walk.ROOM),
        "LONGEST_START": ("The longest subscript, as a line has it, that a walk goes on after.", walk.LONGEST_START),
        "PATTERNS": ("Parts of texts, as regular expressions.", {name: pattern_of(pattern) for name, pattern in PATTERNS.items()}),
        "FAULTS": ("What is wrong before the first command of a line, with its parts in the braces.", FAULTS),
        "FILE_ENDING": ("What the name of a routine's file ends in.", routine_files.SUFFIX),
    }


def others(rules: dict[str, grammar.Step]) -> dict[str, grammar.Step]:
    """The rules of a language that are not those of language 0."""
    return {name: step for name, step in rules.items() if step != grammar.LANGUAGES[0].get(name)}


def advice_of(advice: str) -> str:
    """Advice as the page gives it. A browser has no docs/LANGUAGE.md: Help leads to the page that is made of it."""
    return advice.replace("docs/LANGUAGE.md", "the page of the language, by Help")


def cause_words(cause: causes.Cause) -> dict[str, object]:
    """A cause without its example, and without what it leaves open."""
    found = dataclasses.asdict(cause)
    found["advice"] = advice_of(cause.advice)
    return {name: value for name, value in found.items() if value not in ("", 0, None) and name != "example" or name == "advice"}


def key_of(name: str) -> str:
    """A key as JavaScript has it, in quotes if it is no name."""
    return name if re.fullmatch("[A-Za-z_$][A-Za-z0-9_$]*", name) else json.dumps(name)


def written(value: object) -> str:
    """A value as JavaScript has it: a key that is a name or a number stands without quotes, and a rule or a cause in one line."""
    if isinstance(value, list):
        return "[\n" + "".join(f"  {json.dumps(one)},\n" for one in value) + "]"
    if isinstance(value, dict) and value and all(isinstance(step, list) for step in value.values()):
        return "{\n" + "".join(f"  {key_of(name)}: {json.dumps(step)},\n" for name, step in value.items()) + "}"
    if isinstance(value, dict) and value and all(isinstance(name, int) and isinstance(one, dict) for name, one in value.items()):
        return "{\n" + "".join(f"{textwrap.indent(f'{number}: {written(one)}', '  ')},\n" for number, one in value.items()) + "}"
    return re.sub(r'^( *)"([A-Za-z_$][A-Za-z0-9_$]*|[0-9]+)":', r"\1\2:", json.dumps(value, indent=2), flags=re.MULTILINE)


def module() -> str:
    """The text of the module."""
    parts = [f"/** {about} */\nexport const {name} = {written(value)};\n" for name, (about, value) in exported().items()]
    return "\n".join([HEAD, *parts])


def main() -> int:
    """Compares or writes; the status."""
    text = module()
    if sys.argv[1:] == ["--write"]:
        with open(MADE, "w", encoding="ascii") as file:
            file.write(text)
        return 0
    with open(MADE, encoding="ascii") as file:
        if file.read() == text:
            return 0
    print("page_words: front/page/codes.js is not what the clients say: run python3 tools/page_words.py --write")
    return 1


if __name__ == "__main__":
    sys.exit(main())
