# SPDX-License-Identifier: Apache-2.0
"""The grammar: texts to trees, which are tuples with their kind in front. A reader has a language; a form of a later one is no syntax."""
from __future__ import annotations

import re
from collections.abc import Callable
from functools import cache

from . import names, texts
from .decimals import Stop
from .languages import has
from .texts import Atom

Tree = tuple
NAME = re.compile(r"[A-Za-z%][A-Za-z0-9]*", re.ASCII)
LABEL = re.compile(r"[A-Za-z%][A-Za-z0-9]*|[0-9]+", re.ASCII)
NUMBER = re.compile(r"(?:[0-9]+(?:\.[0-9]+)?|\.[0-9]+)(?:E[+-]?[0-9]+)?", re.ASCII)
STRING = re.compile(r'"((?:[^"]|"")*)"(?!")', re.ASCII)
OPERATOR = re.compile(r"\*\*|'?(?:\]\]|[=<>\[\]&!])|[-+*/\\#_]", re.ASCII)
FORMALS = re.compile(rf"\(({NAME.pattern}(?:,{NAME.pattern})*|)\)", re.ASCII)
COUNT = re.compile(r"([0-9]*)(\.?)([0-9]*)", re.ASCII)
DEPTH = 40
COMMANDS = {"S": "SET", "K": "KILL", "N": "NEW", "D": "DO", "G": "GOTO", "I": "IF", "E": "ELSE", "F": "FOR", "Q": "QUIT", "X": "XECUTE", "W": "WRITE",
            "L": "LOCK", "H": "HALT", "HANG": "HANG", "M": "MERGE"}
# Which need arguments, which may have some, and which take a condition.
NEEDS = ("SET", "XECUTE", "WRITE", "GOTO", "HANG", "MERGE")
NONE = ("ELSE", "HALT", "QUIT")
NO_CONDITION = ("IF", "ELSE", "FOR")
INDIRECT = ("SET", "KILL", "NEW", "DO", "GOTO", "IF", "XECUTE", "WRITE", "LOCK", "HANG", "MERGE")
# Commands, and functions of variables, that a language may not have.
OF_LATER = ("HANG", "MERGE")
OF_VARIABLE = {"D": ("DATA", 0), "G": ("GET", 1), "O": ("ORDER", 1), "I": ("INCREMENT", 1), "NA": ("NAME", 1), "Q": ("QUERY", 1)}
FUNCTIONS = [*texts.FUNCTIONS, *names.FUNCTIONS]
LISTINGS = {"G": "global", "GLOBAL": "global", "R": "routine", "ROUTINE": "routine"}
SPECIALS = {"$X and $Y": {"X": "X", "Y": "Y"}, "special variables": {"QUIT": "Q", "Q": "Q"},
            "special variables of terminals": {**dict.fromkeys(["I", "IO", "J", "JOB", "P", "PRINCIPAL"], "T"), "S": "S", "STORAGE": "S"}}


def label_pattern(language: int) -> re.Pattern[str]:
    """What a label is in a language."""
    return LABEL if has(language, "labels of digits") else NAME


def label_of(text: str, language: int) -> str:
    """The label of a routine's line; empty if it has none."""
    found = label_pattern(language).match(text)
    ends = " ;(" if has(language, "parameters") else " ;"
    return found[0] if found and len(found[0]) <= 31 and (found.end() == len(text) or text[found.end()] in ends) else ""


def formals_of(text: str, language: int) -> tuple[list[str] | None, str]:
    """The names of the formal list after a line's label, or None, and what comes after both. What is no list stays there, as one with two equal names."""
    label = label_of(text, language)
    rest = text[len(label):]
    found = FORMALS.match(rest) if label and has(language, "parameters") else None
    if not found:
        return None, rest
    names = found[1].split(",") if found[1] else []
    if len(set(names)) < len(names) or any(len(name) > 31 for name in names):
        return None, rest
    return names, rest[found.end():]


def dots_of(text: str, language: int) -> int:
    """How many dots come before a line's commands."""
    rest = formals_of(text, language)[1]
    return re.match(r"[ .]*", rest)[0].count(".") if rest.startswith(" ") else 0


@cache
def routine_line(text: str, language: int) -> Tree:
    """The commands of a routine's line."""
    rest = formals_of(text, language)[1]
    if not rest or rest.startswith(";"):
        return ()
    if not rest.startswith(" "):
        raise Stop("ZSYNTAX")
    return line(re.sub(r"^[ .]*", "", rest), language)


@cache
def line(text: str, language: int) -> Tree:
    """The commands of a line."""
    return Reader(text, language).line()


def fault_at(text: str, language: int) -> int:
    """How many characters come before the first command of a line that is not in the grammar."""
    reader = Reader(text, language)
    try:
        reader.line()
    except Stop:
        pass
    return reader.begun


@cache
def reference(text: str, language: int) -> Tree:
    """A variable, whole and alone. A function in it is refused once it is reached."""
    reader = Reader(text, language)
    return reader.whole(reader.reference())


@cache
def arguments(text: str, command: str, language: int) -> list[Tree]:
    """A list of a command's arguments."""
    reader = Reader(text, language)
    return reader.whole(reader.arguments(command))


@cache
def line_named(text: str, language: int) -> Tree:
    """What the brackets of $TEXT may have, whole and alone."""
    reader = Reader(text, language)
    return reader.whole(reader.line_argument())


class Reader:
    """Reads a text from its front."""

    def __init__(self, text: str, language: int) -> None:
        self.text, self.language = text, language
        self.at, self.depth, self.begun = 0, 0, 0

    def has(self, form: str) -> bool:
        """Whether the language has a form."""
        return has(self.language, form)

    def refuse(self) -> None:
        raise Stop("ZSYNTAX")

    def next(self) -> str:
        return self.text[self.at:self.at + 1]

    def takes(self, text: str) -> bool:
        """Goes past a text, if it stands here."""
        if self.text.startswith(text, self.at):
            self.at += len(text)
            return True
        return False

    def wants(self, text: str) -> None:
        if not self.takes(text):
            self.refuse()

    def found(self, pattern: re.Pattern[str]) -> str:
        """What a pattern finds here; it has to find something."""
        found = pattern.match(self.text, self.at)
        if not found or not found[0]:
            self.refuse()
        self.at = found.end()
        return found[0]

    def whole(self, tree: Tree) -> Tree:
        return tree if self.at == len(self.text) else self.refuse()

    def inside(self, read: Callable[[], Tree]) -> Tree:
        """What is read one bracket deeper."""
        self.depth += 1
        if self.depth > DEPTH:
            self.refuse()
        tree = read()
        self.depth -= 1
        return tree

    def listed(self, read: Callable[[], Tree]) -> list[Tree]:
        found = [read()]
        while self.takes(","):
            found.append(read())
        return found

    def bracketed(self, read: Callable[[], Tree]) -> list[Tree]:
        """A list in brackets, of which the first is read already."""
        found = self.inside(lambda: self.listed(read))
        self.wants(")")
        return found

    def name(self, pattern: re.Pattern[str] = NAME) -> str:
        name = self.found(pattern)
        return name if len(name) <= 31 else self.refuse()

    def label(self) -> str | Tree:
        """A label, or the operand that gives it."""
        return self.operand_of_entry() or self.name(label_pattern(self.language))

    def routine(self) -> str | Tree:
        """A routine's name, or the operand that gives it."""
        return self.operand_of_entry() or self.name()

    def operand_of_entry(self) -> Tree | None:
        return ("by", self.inside(self.primary)) if self.has("indirection of entries") and self.takes("@") else None

    # lines and commands

    def spaces(self) -> int:
        count = len(self.text[self.at:]) - len(self.text[self.at:].lstrip(" "))
        self.at += count
        return count

    def at_end(self) -> bool:
        return self.next() in ("", ";")

    def line(self) -> Tree:
        self.spaces()
        commands, gap = [], 1
        while not self.at_end():
            if not gap:
                self.refuse()
            self.begun = self.at
            commands.append(self.command())
            gap = self.spaces() - (commands[-1][2] is None)
            if gap < 1 and not self.at_end():
                self.refuse()
        return tuple(commands)

    def command(self) -> Tree:
        """A command: its name, its condition or None, its arguments or None."""
        word = self.found(re.compile("[A-Za-z]+")).upper()
        name = COMMANDS.get(word, word if word in COMMANDS.values() else "")
        if not name:
            self.refuse()
        condition = None
        if name not in NO_CONDITION and self.takes(":"):
            condition = self.expression()
        follows = self.text[self.at + 1:self.at + 2]
        has_arguments = self.next() == " " and follows not in ("", " ", ";")
        if word == "H" and has_arguments:
            name = "HANG"
        if name in OF_LATER and not self.has(name):
            self.refuse()
        if (name in NONE and has_arguments and not (name == "QUIT" and self.has("values of QUIT"))) or (name in NEEDS and not has_arguments):
            self.refuse()
        if not has_arguments:
            return name, condition, None
        self.at += 1
        return name, condition, self.arguments(name)

    def arguments(self, command: str) -> list[Tree]:
        if command in ("FOR", "QUIT"):
            return [self.argument(command)]
        return self.listed(lambda: self.argument(command))

    def argument(self, command: str) -> Tree:
        """An argument; `@` with its operand and nothing more is an indirection of arguments."""
        if command in INDIRECT and self.next() == "@":
            begun = self.at
            self.at += 1
            operand = self.inside(self.primary)
            if self.next() in ("", ",", " ", ";") and not self.text.startswith("@(", self.at):
                return "indirect arguments", operand
            self.at = begun
        return getattr(self, "argument_of_" + command.lower())()

    def argument_of_set(self) -> Tree:
        targets = self.bracketed(self.target) if self.takes("(") else [self.target()]
        self.wants("=")
        return "set", targets, self.expression()

    def argument_of_merge(self) -> Tree:
        target = self.reference()
        self.wants("=")
        return "merge", target, self.reference()

    def target(self) -> Tree:
        word = re.compile(r"\$([A-Za-z]+)\(").match(self.text, self.at)
        if not word:
            return "variable", self.reference()
        kind = {"P": "piece", "PIECE": "piece", "E": "extract", "EXTRACT": "extract"}.get(word[1].upper())
        if not kind or (kind == "extract" and not self.has("SET $EXTRACT")):
            self.refuse()
        self.at = word.end()

        def parts() -> Tree:
            found = [self.reference()]
            most = 4 if kind == "piece" and self.has("SET $PIECE of several") else 3
            while len(found) < most and self.takes(","):
                found.append(self.expression())
            return found
        found = self.inside(parts)
        self.wants(")")
        if kind == "piece" and len(found) < 2:
            self.refuse()
        return kind, found[0], found[1:]

    def argument_of_kill(self) -> Tree:
        return ("names", self.bracketed(self.name)) if self.takes("(") else ("variable", self.reference())

    def argument_of_new(self) -> Tree:
        return ("names", self.bracketed(self.name)) if self.takes("(") else ("name", self.name())

    def argument_of_do(self) -> Tree:
        entry = self.entry_with_actuals()
        return "entry", entry, self.expression() if self.takes(":") else None

    def argument_of_goto(self) -> Tree:
        entry = self.entry()
        return "entry", entry, self.expression() if self.takes(":") else None

    def entry(self, may_count: bool = True) -> Tree:
        """An entry: label or empty, how many lines after the label or None, routine or None."""
        label = "" if self.next() == "^" else self.label()
        offset = self.expression() if label and may_count and self.has("offsets of entries") and self.takes("+") else None
        if not self.takes("^"):
            return label, offset, None
        return label, offset, self.library() if self.has("libraries") and self.takes("|") else self.routine()

    def library(self) -> Tree:
        """A routine of an account: the account, which is a string, and the routine's name."""
        account = self.string()
        self.wants("|")
        return "of", account, self.name()

    def entry_with_actuals(self, may_count: bool = True) -> Tree:
        """An entry with its actuals, or None. Lines that are counted take none."""
        label, offset, routine = self.entry(may_count)
        return label, offset, routine, self.actuals() if offset is None and self.has("parameters") and self.takes("(") else None

    def line_argument(self) -> Tree:
        """What the brackets of $TEXT have: a label, `+` and a number, or both, and a routine; or an operand that gives all that."""
        label = "" if self.next() in ("^", "+") else self.label()
        if isinstance(label, tuple) and self.next() in ("", ")"):
            return "line by", label[1]
        offset = self.expression() if self.takes("+") else None
        return "line", label, offset, self.routine() if self.takes("^") else None

    def actuals(self) -> list[Tree]:
        """What is handed over: values, names, nothing. One that is missing, alone in its brackets, is none."""
        found = self.bracketed(self.actual)
        return [] if found == [("missing",)] else found

    def actual(self) -> Tree:
        if self.next() in (",", ")"):
            return ("missing",)
        if self.next() == "." and not self.text[self.at + 1:self.at + 2].isdigit():
            self.at += 1
            return ("named by", self.inside(self.primary)) if self.takes("@") else ("name", self.name())
        return "value", self.expression()

    def argument_of_xecute(self) -> Tree:
        text = self.expression()
        return "text", text, self.expression() if self.takes(":") else None

    def argument_of_if(self) -> Tree:
        return "condition", self.expression()

    def argument_of_hang(self) -> Tree:
        return "seconds", self.expression()

    def argument_of_quit(self) -> Tree:
        return "value", self.expression()

    def argument_of_for(self) -> Tree:
        name = self.name()
        self.wants("=")
        return "for", name, self.listed(self.parameter)

    def parameter(self) -> Tree:
        parts = [self.expression()]
        while len(parts) < 3 and self.takes(":"):
            parts.append(self.expression())
        return tuple(parts)

    def argument_of_write(self) -> Tree:
        has_more = self.has("formats of WRITE")
        if has_more and self.takes("*"):
            return "character", self.expression()
        forms = self.text[self.at:len(self.text)]
        forms = re.match("[!#]*" if has_more else "!*", forms)[0]
        self.at += len(forms)
        column = self.expression() if has_more and self.takes("?") else None
        if forms or column:
            return "format", forms, column
        return "value", self.expression()

    def argument_of_lock(self) -> Tree:
        sign = "+" if self.takes("+") else "-" if self.takes("-") else ""
        names = self.bracketed(self.lockable) if self.takes("(") else [self.lockable()]
        return "lock", sign, names, self.expression() if self.takes(":") else None

    def lockable(self) -> Tree:
        tree = self.reference()
        return tree if tree[0] != "naked" else self.refuse()

    # expressions

    def expression(self) -> Tree:
        tree = self.operand()
        while True:
            begun = self.at
            if self.takes("?") or self.takes("'?"):
                tree = "match", self.text[begun] == "'", tree, self.pattern()
                continue
            found = OPERATOR.match(self.text, self.at)
            if not found:
                return tree
            operator = found[0] if found[0] != "**" or self.has("**") else "*"
            self.at += len(operator)
            tree = "binary", operator, tree, self.operand()

    def string(self) -> str:
        """What a string stands for."""
        return self.found(STRING)[1:-1].replace('""', '"')

    def operand(self) -> Tree:
        signs = re.compile("[-+']*").match(self.text, self.at)[0]
        self.at += len(signs)
        primary = self.primary()
        return ("unary", signs, primary) if signs else primary

    def primary(self) -> Tree:
        letter = self.next()
        if letter == "(":
            self.at += 1
            tree = self.inside(self.expression)
            self.wants(")")
            return "bracket", tree
        if letter == '"':
            return "text", self.string()
        if letter.isdigit() or letter == ".":
            return "number", self.found(NUMBER)
        return self.dollar() if letter == "$" else ("variable", self.reference())

    def dollar(self) -> Tree:
        self.at += 1
        if self.has("functions") and self.takes("$"):
            *meant, actuals = self.entry_with_actuals(may_count=False)
            return "function", (*meant, actuals or [])
        word = self.found(re.compile("[A-Za-z]+")).upper()
        if not self.takes("("):
            if word in ("T", "TEST"):
                return ("test",)
            known = {word: name for form, words in SPECIALS.items() if self.has(form) for word, name in words.items()}
            return ("special", known[word]) if word in known else self.refuse()
        tree = self.inside(lambda: self.call(word))
        self.wants(")")
        return tree

    def call(self, word: str) -> Tree:
        """A function's arguments."""
        if word in ("T", "TEXT") and self.has("$TEXT"):
            return self.line_argument()
        if word in ("S", "SELECT"):
            return "select", self.listed(self.choice)
        for short, (long, most) in OF_VARIABLE.items():
            if word in (short, long) and (long in ("DATA", "GET", "ORDER") or self.has("$" + long)):
                if long in ("ORDER", "DATA") and self.has("names of globals") and self.takes("^$"):
                    return f"{long.lower()} names", *self.listing(), *([self.expression() if self.takes(",") else None] if most else [])
                variable = self.reference()
                return long.lower(), variable, self.expression() if most and self.takes(",") else None
        found = self.listed(self.expression)
        for short, long, least, most, since, function in FUNCTIONS:
            if word in (short, long) and least <= len(found) <= most and since <= self.language:
                return "call", function, found
        return self.refuse()

    def listing(self) -> Tree:
        """What comes after `^$`: which names, whose, if that is said, and from where."""
        environment = None
        if self.takes("|"):
            environment = self.inside(self.expression)
            self.wants("|")
        kind = LISTINGS.get(self.found(re.compile("[A-Za-z]+")).upper()) or self.refuse()
        self.wants("(")
        subscript = self.inside(self.expression)
        self.wants(")")
        return kind, environment, subscript

    def choice(self) -> Tree:
        condition = self.expression()
        self.wants(":")
        return condition, self.expression()

    def pattern(self) -> Tree:
        if self.has("pattern indirection") and self.takes("@"):
            return "pattern by", self.inside(self.primary)
        return "pattern", self.atoms()

    def atoms(self) -> tuple[Atom, ...]:
        found = [self.atom()]
        while self.next().isdigit() or self.next() == ".":
            found.append(self.atom())
        return tuple(found)

    def atom(self) -> Atom:
        least, point, most = COUNT.match(self.text, self.at).groups()
        self.at += len(least + point + most)
        if not least + point or len(least) > 4 or len(most) > 4:
            self.refuse()
        bounds = (int(least or "0"), int(most) if most else None) if point else (int(least), int(least))
        if self.next() == '"':
            return Atom(*bounds, text=self.string())
        if self.has("pattern alternation") and self.takes("("):
            return Atom(*bounds, choices=tuple(self.bracketed(self.atoms)))
        return Atom(*bounds, classes=self.found(re.compile("[ACELNPUacelnpu]+")))

    # variables

    def reference(self) -> Tree:
        """A variable: its kind, and its name, its environment or its operand, with its subscripts or None."""
        if self.takes("@"):
            operand = self.inside(self.primary)
            more = self.text.startswith("@(", self.at) and self.takes("@")
            return "indirect", operand, self.subscripts() if more else None
        if not self.takes("^"):
            return "local", self.name(), self.subscripts()
        if self.next() == "(":
            return "naked", self.subscripts()
        if self.takes("|"):
            environment = self.inside(self.expression)
            self.wants("|")
            return "extended", environment, self.name(), self.subscripts()
        return "global", self.name(), self.subscripts()

    def subscripts(self) -> list[Tree] | None:
        return self.bracketed(self.expression) if self.takes("(") else None
