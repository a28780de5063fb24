#!/usr/bin/env python3
# SPDX-License-Identifier: Apache-2.0
"""Puts variables with two names to GT.M: the blocks of transcripts/locals.txt that open a level with formal parameters, call by call, and
drawn sessions of SET, KILL, NEW and DO with actuals, beside the definitions of crates/mspec/specs/Scopes.antt, written here again.

    tools/drawn_links.py [--seed N] [--sessions N]
"""
from __future__ import annotations

import argparse
import random
import sys
import tempfile
from dataclasses import dataclass, field
from pathlib import Path

from gtm import Gtm

NAMES = "ABCD"
TRANSCRIPT = Path(__file__).resolve().parent.parent / "transcripts" / "locals.txt"
Subscripts = tuple[str, ...]
Tree = dict[Subscripts, str]


# ---- the definitions, by their names there; a stack of scopes has its top first


@dataclass(slots=True)
class Scope:
    """A scope as Scopes.antt has it."""

    names: list[str] = field(default_factory=list)
    others: list[str] | None = None
    trees: dict[str, Tree] = field(default_factory=dict)
    links: list[tuple[str, str]] = field(default_factory=list)

    def has(self, name: str) -> bool:
        return name in self.names or (self.others is not None and name not in self.others)

    def linked(self, name: str) -> str:
        return next((below for above, below in self.links if above == name), name)


def home(scopes: list[Scope], name: str) -> tuple[Scope, str]:
    """The scope of a name's variable, and the name that it has there. The scope at the bottom has every name."""
    for scope in scopes:
        if scope.has(name):
            return scope, name
        name = scope.linked(name)
    raise ValueError(name)


def tree_of(scopes: list[Scope], name: str) -> Tree:
    scope, there = home(scopes, name)
    return scope.trees.get(there, {})


def assigned(scopes: list[Scope], name: str, subscripts: Subscripts, text: str) -> None:
    scope, there = home(scopes, name)
    scope.trees.setdefault(there, {})[subscripts] = text


def killed(scopes: list[Scope], name: str, subscripts: Subscripts) -> None:
    scope, there = home(scopes, name)
    scope.trees[there] = {node: text for node, text in scope.trees.get(there, {}).items() if node[: len(subscripts)] != subscripts}


def leads_to(target: str, above: list[Scope], name: str) -> bool:
    for scope in above:
        if scope.has(name):
            return False
        name = scope.linked(name)
    return name == target


def stays(names: list[str], above: list[Scope], target: str) -> bool:
    ways = [target, *(name for scope in above for name, _ in scope.links)]
    return any(leads_to(target, above, name) for name in names) or not any(leads_to(target, above, name) for name in ways)


def killed_except(names: list[str], scopes: list[Scope]) -> None:
    for place, scope in enumerate(scopes):
        scope.trees = {name: tree for name, tree in scope.trees.items() if stays(names, scopes[:place], name)}


def newed(names: list[str], top: Scope) -> None:
    top.names += [name for name in names if not top.has(name)]
    top.trees = {name: tree for name, tree in top.trees.items() if name not in names}


def newed_except(names: list[str], top: Scope) -> None:
    top.others = [name for name in names if top.others is None or name in top.others]
    top.trees = {name: tree for name, tree in top.trees.items() if name in names}


def bind(top: Scope, name: str, actual: str) -> None:
    """An actual is `.NAME`, a text in quotes, or nothing."""
    if actual.startswith("."):
        top.links.append((name, actual[1:]))
        return
    top.names.append(name)
    if actual:
        top.trees[name] = {(): actual.strip('"')}


# ---- routines of GT.M


class Routine:
    """A routine whose levels are labels with formal lists, each entered where the one before it stands."""

    def __init__(self) -> None:
        self.labels = [["TOP ;", " k "]]
        self.open = [0]

    def do(self, command: str) -> None:
        self.labels[self.open[-1]].append(f" {command}")

    def enter(self, formals: list[str], actuals: list[str]) -> None:
        place = len(self.labels)
        self.do(f"d L{place}({','.join(actuals)})")
        self.labels.append([f"L{place}({','.join(formals)}) ;"])
        self.open.append(place)

    def leave(self) -> None:
        self.do("q")
        self.open.pop()

    def lines(self) -> list[str]:
        for place in self.open:
            self.labels[place].append(" q")
        return ["T ;", " q", *(line for label in self.labels for line in label)]


def bracketed(names: list[str]) -> str:
    return f"({','.join(names)})" if names else " "


def reference(words: list[str]) -> str:
    name, *subscripts = words
    return name + (f"({','.join(quoted('' if word == '-' else word) for word in subscripts)})" if subscripts else "")


def quoted(text: str) -> str:
    return f'"{text}"'


# ---- blocks of the transcript


def actual_of(word: str) -> tuple[str, str]:
    if "=" in word:
        name, text = word.split("=", 1)
        return name, quoted(text)
    name, dot, other = word.partition(".")
    return name, dot + other


def carry(routine: Routine, line: str) -> None:
    """A call of the transcript as commands of M."""
    match line.split():
        case ["enter-bound", *words]:
            bindings = [actual_of(word) for word in words]
            routine.enter([name for name, _ in bindings], [actual for _, actual in bindings])
        case ["leave"]:
            routine.leave()
        case ["new", *names]:
            routine.do(f"n {','.join(names)}")
        case ["new-all-but", *names]:
            routine.do(f"n {bracketed(names)}")
        case ["kill-all-but", *names]:
            routine.do(f"k {bracketed(names)}")
        case ["kill", *words]:
            routine.do(f"k {reference(words)}")
        case ["set", *words, "=", text]:
            routine.do(f"s {reference(words)}={quoted(text)}")
        case ["get", *words]:
            routine.do(f'w $g({reference(words)},"none"),!')
        case ["data", *words]:
            routine.do(f"w $d({reference(words)}),!")
        case ["next", *words]:
            routine.do(f"w $o({reference(words)}),!")
        case _:
            raise ValueError(line)


def blocks() -> list[tuple[str, Routine, str]]:
    """Each block with formal parameters: its title, its routine, and what it gives."""
    found = []
    for part in TRANSCRIPT.read_text().split("== locals: ")[1:]:
        title, *lines = part.split("\n\n")[0].splitlines()
        if any(line.startswith("enter-bound") for line in lines):
            routine = Routine()
            for line in lines:
                if not line.startswith(" "):
                    carry(routine, line)
            found.append((title, routine, "".join(f"{line.strip()}\n" for line in lines if line.startswith(" "))))
    return found


# ---- drawn sessions


def drawn_call(drawn: random.Random, routine: Routine, scopes: list[Scope]) -> None:
    name, subscripts = drawn.choice(NAMES), drawn.choice([(), (), (), ("1",), ("2",)])
    words, few = [name, *subscripts], drawn.sample(NAMES, drawn.randint(0, 3))
    match drawn.choices(["set", "kill", "kill but", "new", "new but", "enter", "leave"], [25, 7, 10, 10, 8, 22, 18])[0]:
        case "set":
            text = str(drawn.randint(1, 99))
            routine.do(f"s {reference(words)}={quoted(text)}")
            assigned(scopes, name, subscripts, text)
        case "kill":
            routine.do(f"k {reference(words)}")
            killed(scopes, name, subscripts)
        case "kill but":
            routine.do(f"k {bracketed(few)}")
            killed_except(few, scopes)
        case "new" if few:
            routine.do(f"n {','.join(few)}")
            newed(few, scopes[0])
        case "new but":
            routine.do(f"n {bracketed(few)}")
            newed_except(few, scopes[0])
        case "enter" if len(scopes) < 6:
            actuals = [drawn.choice([f".{drawn.choice(NAMES)}", f".{drawn.choice(NAMES)}", quoted(str(drawn.randint(1, 99))), ""]) for _ in few]
            routine.enter(few, actuals)
            scopes.insert(0, Scope())
            for formal, actual in zip(few, actuals, strict=True):
                bind(scopes[0], formal, actual)
        case "leave" if len(scopes) > 1:
            routine.leave()
            scopes.pop(0)


def session(drawn: random.Random) -> tuple[Routine, str]:
    """Calls, after each of which all variables are looked at, and what the definitions show."""
    routine, scopes, shown = Routine(), [Scope(others=[])], ""
    for _ in range(drawn.randint(15, 40)):
        drawn_call(drawn, routine, scopes)
        for name in NAMES:
            routine.do(f'w $g({name},"-"),$g({name}(1),"-"),$g({name}(2),"-")," "')
            tree = tree_of(scopes, name)
            shown += "".join(tree.get(node, "-") for node in ((), ("1",), ("2",))) + " "
    return routine, shown


def main() -> int:
    parser = argparse.ArgumentParser(description=__doc__, formatter_class=argparse.RawDescriptionHelpFormatter)
    parser.add_argument("--seed", type=int, default=1)
    parser.add_argument("--sessions", type=int, default=500)
    options = parser.parse_args()
    drawn = random.Random(options.seed)
    cases = [*blocks(), *((f"session {place}", *session(drawn)) for place in range(options.sessions))]
    with tempfile.TemporaryDirectory() as folder:
        gtm = Gtm(Path(folder), {f"T{place}": [f"T{place} ;", *routine.lines()[1:]] for place, (_, routine, _) in enumerate(cases)})
        replies = gtm.play([f"d TOP^T{place}" for place in range(len(cases))])
    others = [title for place, (title, _, wanted) in enumerate(cases) if place >= len(replies) or replies[place].code or replies[place].text != wanted]
    print(f"{len(cases)} cases, {len(others)} that GT.M answers otherwise", *others[:10], sep="\n")
    return 1 if others else 0


if __name__ == "__main__":
    sys.exit(main())
