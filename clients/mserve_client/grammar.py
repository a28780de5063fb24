# SPDX-License-Identifier: Apache-2.0
"""The grammar of lines as a table, and a reader that says where a text leaves it.

docs/LANGUAGE.md has the grammar in words. The table is read here and, written out by tools/page_words.py, by the page; both read it in
the same few kinds of steps:

    ["text", PATTERN, WANTED]  what the pattern finds at this place; WANTED is what a fault there says was wanted, or empty
    ["all", STEP, ..]          each step after the one before
    ["any", STEP, ..]          the first step that goes on
    ["many", STEP]             the step as often as it goes on, or never
    ["rule", NAME]             the rule of this name
    ["inner", NAME]            the same, one bracket deeper
    ["mark", NAME, STEP]       the step, with its place kept under a name

A text is in the grammar if the rule `line` reaches its end. The place that was reached at most is that of the fault: what comes before
it begins some line of the grammar, and what follows does not go on with it."""
from __future__ import annotations

import re
from collections.abc import Callable
from dataclasses import dataclass

Step = list[object]
# How many brackets and operands of `@` may be open at a place.
DEPTH = 40
END = r"(?![\s\S])"
NAME = "[A-Za-z%][A-Za-z0-9]{0,30}(?![A-Za-z0-9])"
# The functions of values: how many at least, and at most.
OF_VALUES = {"A ASCII": (1, 2), "C CHAR": (1, 255), "E EXTRACT": (1, 3), "F FIND": (2, 3), "J JUSTIFY": (2, 2), "L LENGTH": (1, 2), "P PIECE": (2, 4),
             "TR TRANSLATE": (2, 3)}
# Those that a later language has, or has with other counts.
OF_VALUES_SINCE = {1: {"FN FNUMBER": (2, 3), "J JUSTIFY": (2, 3), "QL QLENGTH": (1, 1), "QS QSUBSCRIPT": (2, 2), "RE REVERSE": (1, 1)}}
# The special variables, and those that a later language has.
SPECIALS, SPECIALS_SINCE = ["T TEST"], {1: ["I IO", "J JOB", "P PRINCIPAL", "Q QUIT", "S STORAGE", "X", "Y"]}
# The language that has HANG, whose letter is that of HALT too; the one that has MERGE; the one that has formal lists, actuals of DO, and values of QUIT;
# the one that has routines of other accounts; and the one that has functions of one's own.
HANG_SINCE = 1
MERGE_SINCE = 1
PARAMETERS_SINCE = 1
LIBRARIES_SINCE = 1
FUNCTIONS_SINCE = 1
# The functions that SET may assign to: how many values at least and at most after the variable.
TARGETS = {"P PIECE": (1, 2)}
TARGETS_SINCE = {1: {"P PIECE": (1, 3), "E EXTRACT": (0, 2)}}
# A line that a language takes, and none before it.
NEW_LINES = {1: "W $RE(1)"}
# The functions of a variable: how many values at most after it; and those that a later language has.
OF_VARIABLE, OF_VARIABLE_SINCE = {"D DATA": 0, "G GET": 1, "O ORDER": 1}, {1: {"I INCREMENT": 1, "NA NAME": 1, "Q QUERY": 1}}


def text(pattern: str, wanted: str = "") -> Step:
    """What a pattern finds."""
    return ["text", pattern, wanted]


def rule(name: str) -> Step:
    """A rule."""
    return ["rule", name]


def inner(name: str) -> Step:
    """A rule, one bracket deeper."""
    return ["inner", name]


def all_of(*steps: Step) -> Step:
    """Each step after the one before."""
    return ["all", *steps]


def any_of(*steps: Step) -> Step:
    """The first step that goes on."""
    return ["any", *steps]


def perhaps(step: Step) -> Step:
    """The step, or nothing."""
    return any_of(step, text(""))


def mark(name: str, step: Step) -> Step:
    """The step, with its place kept."""
    return ["mark", name, step]


def listed(step: Step) -> Step:
    """One or more, with commas between."""
    return all_of(step, ["many", all_of(text(",", "more"), step)])


def word(letters: str) -> str:
    """The pattern of a word in any case of letters."""
    return "".join(f"[{letter.upper()}{letter.lower()}]" for letter in letters)


def either(words: str) -> str:
    """The pattern of a word, whole or short: `S SET`."""
    return "(?:" + "|".join(map(word, reversed(words.split()))) + ")"


def command(words: str, argument: Step | None, is_bare: bool, is_conditioned: bool = True) -> Step:
    """A command: its words, its argument or None, whether it may stand without one, and whether a condition may follow the word."""
    begun: list[Step] = [mark("command", text(f"{either(words)}(?![A-Za-z])", "command"))]
    if is_conditioned:
        begun.append(rule("condition"))
    ways = []
    if argument is not None:
        ways.append(all_of(text(" (?=[^ ;])", "" if is_bare else "argument"), mark("arguments", argument), text(f" *(?=;|{END})| +", "after")))
    elif is_bare:
        ways.append(all_of(text(" (?=[^ ;])"), text("(?!)", "gap")))
    if is_bare:
        ways.append(text(f"(?! [^ ;])(?: *(?=;|{END})|  +)", "gap"))
    return all_of(*begun, any_of(*ways))


def function(words: str, *inside: Step) -> Step:
    """A function, its bracket, and what is in it."""
    whole = words.split()[-1]
    return all_of(text(rf"\${either(words)}\(", "operand"), *inside, text(r"\)", f"close ${whole}"))


def values(least: int, most: int) -> list[Step]:
    """This many expressions."""
    value = inner("expression")
    needed = [value, *[all_of(text(",", "comma"), value)] * (least - 1)]
    further: Step | None = None
    if most > 10:
        return [*needed, ["many", all_of(text(",", "more"), value)]]
    for _ in range(most - least):
        further = perhaps(all_of(text(",", "more"), value, *([further] if further else [])))
    return [*needed, *([further] if further else [])]


def bracketed(step: Step) -> Step:
    """A list in brackets."""
    return all_of(text(r"\("), listed(step), text(r"\)", "close"))


CONDITION = all_of(text(":"), rule("expression"))
# The operand of an indirection of arguments.
OPERAND = all_of(text("@"), inner("primary"))
OPERATOR = r"[+\-*/\\#_=<>&!\[]|\]\]?|'(?:[=<>&!\[]|\]\]?)"
COUNT = r"(?:[0-9]{1,4}(?![0-9.])|[0-9]{0,4}\.[0-9]{0,4}(?![0-9]))"
# What comes before the name of another account's routine.
ENVIRONMENT = r'\|"(?:[^"]|"")*"\|'


def entry(language: int) -> Step:
    """A label, a label with its routine, or a routine, which from language 1 on may be another account's."""
    name = text(NAME, "name")
    routine = any_of(all_of(text(ENVIRONMENT), name), name) if language >= LIBRARIES_SINCE else name
    return mark("entry", any_of(all_of(text(r"\^"), routine), all_of(text(NAME, "entry"), perhaps(all_of(text(r"\^", "more"), routine)))))


def further(language: int) -> Step:
    """An operator and its operand, or a pattern."""
    operator = text(OPERATOR if language < 1 else rf"\*\*|{OPERATOR}", "operator")
    return any_of(all_of(operator, rule("operand")), all_of(text(r"'?\?"), rule("pattern")))


def of_values(language: int) -> dict[str, tuple[int, int]]:
    """The functions of values that a language has."""
    found = dict(OF_VALUES)
    for since, more in OF_VALUES_SINCE.items():
        found.update(more if since <= language else {})
    return found


def of_variable(language: int) -> dict[str, int]:
    """The functions of a variable that a language has."""
    found = dict(OF_VARIABLE)
    for since, more in OF_VARIABLE_SINCE.items():
        found.update(more if since <= language else {})
    return found


def specials(language: int) -> list[str]:
    """The special variables that a language has."""
    return [*SPECIALS, *[words for since, more in SPECIALS_SINCE.items() if since <= language for words in more]]


def halts(language: int) -> list[Step]:
    """HALT, and HANG if the language has it."""
    if language < HANG_SINCE:
        return [command("H HALT", None, True)]
    seconds = listed(rule("expression"))
    return [command("H", seconds, True), command("HALT", None, True), command("HANG", seconds, False)]


def merges(language: int) -> list[Step]:
    """MERGE, if the language has it."""
    copied = all_of(rule("variable"), text("=", "equals"), rule("variable"))
    given = all_of(OPERAND, text(f"(?=[ ,;]|{END})"))
    return [command("M MERGE", listed(any_of(copied, given)), False)] if language >= MERGE_SINCE else []


def entering(language: int) -> list[Step]:
    """DO, whose entry may have actuals from language 1 on, GOTO, and QUIT, which then may have a value."""
    has_parameters = language >= PARAMETERS_SINCE
    handed = [HANDED] if has_parameters else []
    return [command("D DO", listed(any_of(all_of(entry(language), *handed, rule("condition")), OPERAND)), True),
            command("G GOTO", listed(any_of(all_of(entry(language), rule("condition")), OPERAND)), False),
            command("Q QUIT", rule("expression") if has_parameters else None, True)]


def actual() -> dict[str, Step]:
    """What is handed over: the name of a local variable, or an operand whose value is one; a value; nothing."""
    name = any_of(text(NAME, "name"), all_of(text("@"), inner("primary")))
    return {"actual": any_of(all_of(text(r"\.(?![0-9])"), name), rule("expression"), text("(?=[,)])"))}


def target(words: str, least: int, most: int) -> Step:
    """A function of a variable that SET assigns to, with this many values after the variable."""
    further: list[Step] = []
    for _ in range(most - least):
        further = [perhaps(all_of(text(","), inner("expression"), *further))]
    return all_of(text(rf"\${either(words)}\(", "target"), inner("variable"), *[text(",", "comma"), inner("expression")] * least, *further,
                  text(r"\)", f"close ${words.split()[-1]} of SET"))


def targets(language: int) -> Step:
    """What SET assigns to: a part of a variable, or a variable."""
    found = dict(TARGETS)
    for since, more in TARGETS_SINCE.items():
        found.update(more if since <= language else {})
    return any_of(*[target(words, *counts) for words, counts in found.items()], rule("variable"))


def atom(language: int) -> Step:
    """An atom of a pattern: a count, and what it counts, which from language 1 on may be a group of patterns."""
    plain = text('[ACELNPUacelnpu]+|"(?:[^"]|"")*"(?!")', "pattern")
    return all_of(text(COUNT, "pattern"), any_of(plain, bracketed(inner("atoms"))) if language >= 1 else plain)


def called(language: int) -> list[Step]:
    """A call of a function, if the language has any."""
    return [all_of(text(r"\$\$", "operand"), entry(language), HANDED)] if language >= FUNCTIONS_SINCE else []


def variables() -> dict[str, Step]:
    """The rules of variables."""
    value, subscripts = inner("expression"), rule("subscripts")
    return {"variable": any_of(
                all_of(text(NAME, "variable"), subscripts),
                all_of(text(r"\^(?!\()", "variable"), perhaps(all_of(text(r"\|"), value, text(r"\|", "bar"))), text(NAME, "name"), subscripts),
                all_of(text(r"\^(?=\()"), subscripts),
                all_of(text("@"), inner("primary"), perhaps(all_of(text(r"@(?=\()"), subscripts)))),
            "subscripts": perhaps(all_of(text(r"\("), listed(value), text(r"\)", "close")))}


def expressions(language: int) -> dict[str, Step]:
    """The rules of values."""
    value, variable = inner("expression"), rule("variable")
    return {"expression": all_of(rule("operand"), ["many", further(language)]),
            "pattern": any_of(all_of(text("@"), inner("primary")), rule("atoms")) if language else rule("atoms"),
            "operand": all_of(text(r"[+\-']*"), rule("primary")),
            "primary": any_of(
                text(r"(?:[0-9]+(?:\.[0-9]+)?|\.[0-9]+)(?:E[+-]?[0-9]+)?", "operand"),
                text('"(?:[^"]|"")*"(?!")', "operand"),
                variable,
                all_of(text(r"\("), value, text(r"\)", "close")),
                all_of(text(r"(?=\$)"), rule("dollar"))),
            "dollar": any_of(
                *[text(rf"\${either(words)}(?![A-Za-z(])", "operand") for words in specials(language)],
                *[function(words, *values(*counts)) for words, counts in of_values(language).items()],
                *[function(words, inner("variable"), *([perhaps(all_of(text(",", "more"), value))] if most else []))
                  for words, most in of_variable(language).items()],
                function("S SELECT", listed(all_of(value, text(":", "colon"), value))), *called(language))}


def rules(language: int) -> dict[str, Step]:
    """The rules of a language."""
    column = all_of(text(r"\?"), rule("expression"))
    formats = [all_of(text("[!#]+"), perhaps(column)), column, all_of(text(r"\*"), rule("expression"))] if language >= 1 else [text("!+")]
    return {**SHARED, **(actual() if language >= PARAMETERS_SINCE else {}),
            "command": any_of(*COMMANDS, *merges(language), *entering(language), *halts(language)), "target": targets(language),
            "written": any_of(*formats, rule("expression")), "atom": atom(language),
            **variables(), **expressions(language)}


# Actuals, or no list of them.
HANDED = perhaps(bracketed(inner("actual")))
# The commands that all languages have alike.
COMMANDS = [
    command("S SET", listed(rule("assignment")), False),
    command("W WRITE", listed(rule("written")), False),
    command("I IF", listed(rule("expression")), True, False),
    command("F FOR", all_of(text(NAME, "name"), text("=", "equals"), listed(rule("parameter"))), True, False),
    command("K KILL", listed(any_of(bracketed(text(NAME, "name")), rule("variable"))), True),
    command("N NEW", listed(any_of(bracketed(text(NAME, "name")), text(NAME, "name"), OPERAND)), True),
    command("E ELSE", None, True, False),
    command("X XECUTE", listed(all_of(rule("expression"), rule("condition"))), False),
    command("L LOCK", listed(mark("lock", rule("locked"))), True)]
# The rules that all languages have alike.
SHARED: dict[str, Step] = {
    "line": all_of(text(" *"), ["many", rule("command")], text(f"(?:;[\\x00-\\x7f]*)?{END}", "command")),
    "condition": perhaps(CONDITION),
    "assignment": any_of(all_of(any_of(all_of(text(r"\("), listed(inner("target")), text(r"\)", "close")), rule("target")), text("=", "equals"),
                                rule("expression")),
                         all_of(OPERAND, text(f"(?=[ ,;]|{END})"))),
    "parameter": all_of(rule("expression"), perhaps(all_of(
        text(":", "more"), rule("expression"), perhaps(all_of(text(":", "more"), rule("expression")))))),
    "locked": all_of(text("[+-]?"), any_of(all_of(text(r"\("), listed(inner("lockable")), text(r"\)", "close")), rule("lockable")),
                     perhaps(all_of(text(":"), rule("expression")))),
    "lockable": all_of(text(r"(?!\^\()", "lockable"), rule("variable")),
    "atoms": all_of(rule("atom"), ["many", rule("atom")]),
}
# The tables of all languages that an account can have.
LANGUAGES: dict[int, dict[str, Step]] = {language: rules(language) for language in (0, *OF_VALUES_SINCE)}
Mark = tuple[str, int, int]


@dataclass(slots=True)
class Outcome:
    """How far a text was read: where it ends, which is -1 if it is not in the grammar; the place of the fault, what was wanted there; where
    the command before it begins; and the marks."""

    end: int = -1
    place: int = 0
    wanted: frozenset[str] = frozenset()
    command: int = 0
    marks: tuple[Mark, ...] = ()


class Reader:
    """Reads texts by a table. Each step becomes a function from a place and a depth to the place after it, or -1."""

    def __init__(self, rules: dict[str, Step]) -> None:
        self._line = ""
        self._place, self._wanted = 0, set[str]()
        self._marks: list[Mark] = []
        self._begun: set[int] = set()
        self._made: dict[str, Callable[[int, int], int]] = {}
        for name, step in rules.items():
            self._made[name] = self._step(step)

    def read(self, line: str, name: str = "line", at: int = 0) -> Outcome:
        """What a rule makes of a text from a place on."""
        self._line, self._place, self._wanted, self._marks, self._begun = line, at, set(), [], {at}
        end = self._made[name](at, DEPTH)
        before = max((place for place in self._begun if place <= self._place), default=at)
        return Outcome(end, self._place, frozenset(self._wanted), before, tuple(self._marks))

    def _step(self, step: Step) -> Callable[[int, int], int]:
        kind, *parts = step
        made: Callable[[int, int], int] = getattr(self, f"_{kind}")(*parts)
        return made

    def _text(self, pattern: str, wanted: str) -> Callable[[int, int], int]:
        match = re.compile(pattern, re.ASCII).match

        def run(at: int, _: int) -> int:
            found = match(self._line, at)
            if found is not None:
                return found.end()
            self._missed(at, wanted)
            return -1
        return run

    def _missed(self, at: int, wanted: str) -> None:
        """Notes what was wanted, if no place further on was reached."""
        if at > self._place:
            self._place, self._wanted = at, set()
        if at == self._place and wanted:
            self._wanted.add(wanted)

    def _all(self, *steps: Step) -> Callable[[int, int], int]:
        made = [self._step(step) for step in steps]

        def run(at: int, depth: int) -> int:
            for step in made:
                at = step(at, depth)
                if at < 0:
                    return -1
            return at
        return run

    def _any(self, *steps: Step) -> Callable[[int, int], int]:
        made = [self._step(step) for step in steps]

        def run(at: int, depth: int) -> int:
            count = len(self._marks)
            for step in made:
                end = step(at, depth)
                if end >= 0:
                    return end
                del self._marks[count:]
            return -1
        return run

    def _many(self, step: Step) -> Callable[[int, int], int]:
        made = self._step(step)

        def run(at: int, depth: int) -> int:
            while True:
                count = len(self._marks)
                end = made(at, depth)
                if end < 0:
                    del self._marks[count:]
                    return at
                at = end
        return run

    def _rule(self, name: str) -> Callable[[int, int], int]:
        return lambda at, depth: self._made[name](at, depth)

    def _inner(self, name: str) -> Callable[[int, int], int]:
        def run(at: int, depth: int) -> int:
            if depth == 0:
                self._missed(at, "depth")
                return -1
            return self._made[name](at, depth - 1)
        return run

    def _mark(self, name: str, step: Step) -> Callable[[int, int], int]:
        made = self._step(step)

        def run(at: int, depth: int) -> int:
            end = made(at, depth)
            if end >= 0:
                self._marks.append((name, at, end))
                if name == "command":
                    self._begun.add(at)
            return end
        return run
