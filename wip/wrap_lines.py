#!/usr/bin/env python3
# SPDX-License-Identifier: Apache-2.0
"""Breaks lines of antt files that are over 160 columns: a signature before arrows that stand in no bracket, a definition after its `=`, and what it is
defined as before brackets that stand in none. Where a line has none of these it stays. Imports are several of the same module already.

    wip/wrap_lines.py FILE ..     then `rt fmt` in the crate, `rt check`, and `tools/house_rules.py --lower`

A term that `elim` or `grind` begins, and whose cases follow in `[`, is to be looked at: the word may stand alone."""
import sys
from collections.abc import Iterator
from pathlib import Path

WIDEST, DEEPER = 160, 4
OPENING, CLOSING = "([{", ")]}"
PASSED = ("use ", "pub use", "--", "ghost")


def outside(line: str, token: str) -> list[int]:
    """The places of a token that stand in no bracket."""
    depth, places = 0, []
    for place, character in enumerate(line):
        if character in CLOSING:
            depth -= 1
        if depth == 0 and line.startswith(token, place):
            places.append(place)
        if character in OPENING:
            depth += 1
    return places


def filled(line: str, cuts: list[int], indent: str) -> list[str]:
    """The line, broken at some of these places, so that each part is as wide as it may be."""
    parts = [line[begin:end] for begin, end in zip([0, *cuts], [*cuts, len(line)])]
    lines = [parts[0]]
    for part in parts[1:]:
        if len(lines[-1]) + len(part) <= WIDEST:
            lines[-1] += part
        else:
            lines.append(indent + part.lstrip())
    return lines


def signature(line: str, colon: int, indent: str) -> list[str]:
    """One that is broken before its arrows, if none of them is that of a function that is written there."""
    arrows = [place for place in outside(line, " → ") if place > colon]
    lambdas = outside(line, "λ")
    if not arrows or lambdas and lambdas[0] < arrows[-1]:
        return [line]
    return filled(line, arrows, indent)


def definition(line: str, equals: int, indent: str) -> list[str]:
    """One that goes on below its `=`."""
    head, rest = line[:equals + 2], line[equals + 3:]
    if len(head) > WIDEST or line.lstrip().startswith("let ") or rest.startswith(("record {", "let ")):
        return [line]
    body = indent + rest
    brackets = [] if "λ" in rest and outside(body, "λ") else [place for place in outside(body, " (") if place > len(indent)]
    return [head, *(filled(body, brackets, indent) if len(body) > WIDEST else [body])]


def wrapped(line: str) -> list[str]:
    """The line, or those that stand in place of it."""
    bare = line.lstrip()
    if len(line) <= WIDEST or bare.startswith(PASSED):
        return [line]
    indent = " " * (len(line) - len(bare) + DEEPER)
    colons, equals = outside(line, " : "), outside(line, " = ")
    if colons and (not equals or colons[0] < equals[0]):
        return signature(line, colons[0], indent)
    return definition(line, equals[0], indent) if equals else [line]


def changed(paths: list[str]) -> Iterator[str]:
    """Writes the files that change."""
    for path in paths:
        text = Path(path).read_text(encoding="utf-8")
        broken = "\n".join(part for line in text.split("\n") for part in wrapped(line))
        if broken != text:
            Path(path).write_text(broken, encoding="utf-8")
            yield path


if __name__ == "__main__":
    print(f"wrap_lines: {len([*changed(sys.argv[1:])])} files")
