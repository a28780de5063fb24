# SPDX-License-Identifier: Apache-2.0
"""Functions of values, and patterns."""
from __future__ import annotations

import re
from collections.abc import Callable
from dataclasses import dataclass
from fractions import Fraction
from functools import cache

from .decimals import Stop, collation, rounded, value, whole, written
from .languages import SINCE

LONGEST = 4095
CLASSES = {"A": "A-Za-z", "U": "A-Z", "L": "a-z", "N": "0-9", "C": r"\x00-\x1f\x7f", "P": r" -/:-@\[-`{-~", "E": r"\x00-\x7f"}


def checked(text: str) -> str:
    """The text. ZLONG if it is too long."""
    if len(text) > LONGEST:
        raise Stop("ZLONG")
    return text


@dataclass(frozen=True)
class Atom:
    """An atom of a pattern: how many copies at least and at most, and of what: classes, a text, or one of some patterns."""

    least: int
    most: int | None
    classes: str = ""
    text: str = ""
    choices: tuple[tuple[Atom, ...], ...] = ()

    def check(self) -> None:
        """M10 if the least count is above the greatest, here or in a choice."""
        if self.most is not None and self.least > self.most:
            raise Stop("M10")
        for atom in (atom for atoms in self.choices for atom in atoms):
            atom.check()

    def turns(self, characters: int) -> int:
        """How many turns a group takes at most of this many characters, with those of the atoms in it. Other atoms take none."""
        if not self.choices:
            return 0
        own = self.least + characters
        own = own if self.most is None else min(self.most, own)
        return own * (1 + sum(atom.turns(characters) for atoms in self.choices for atom in atoms))

    def ends(self, text: str, place: int) -> set[int]:
        """Where a copy ends that begins at a place."""
        if self.choices:
            return {end for atoms in self.choices for end in ends_of(atoms, text, {place})}
        if self.classes:
            return {place + 1} if place < len(text) and text[place] in letters_of(self.classes.upper()) else set()
        return {place + len(self.text)} if text.startswith(self.text, place) else set()

    def all_ends(self, text: str, places: set[int]) -> set[int]:
        """Where all copies end that begin at some places."""
        found = set(places) if self.least == 0 else set()
        count = 0
        while places and (self.most is None or count < self.most):
            places, count = {end for place in places for end in self.ends(text, place)}, count + 1
            if count >= self.least:
                places -= found
                found |= places
        return found


@cache
def letters_of(classes: str) -> frozenset[str]:
    """The characters of some classes."""
    return frozenset(re.findall("[" + "".join(CLASSES[letter] for letter in classes) + "]", "".join(map(chr, range(128)))))


def ends_of(atoms: tuple[Atom, ...], text: str, places: set[int]) -> set[int]:
    """Where a pattern ends that begins at some places."""
    for atom in atoms:
        places = atom.all_ends(text, places)
    return places


def matches(text: str, atoms: tuple[Atom, ...], charge: Callable[[], None]) -> bool:
    """Whether a text matches a pattern. The turns that its groups take at most are charged first."""
    for atom in atoms:
        atom.check()
    for _turn in range(sum(atom.turns(len(text)) for atom in atoms)):
        charge()
    return len(text) in ends_of(atoms, text, {0})


def bounds(first: list[str]) -> tuple[int, int]:
    """From where to where: from the first, if nothing is said, and to the same."""
    numbers = [whole(text) for text in first]
    begin = numbers[0] if numbers else 1
    return max(begin, 1), numbers[1] if len(numbers) > 1 else begin


def ascii_code(text: str, *place: str) -> str:
    at = whole(place[0]) if place else 1
    return str(ord(text[at - 1])) if 1 <= at <= len(text) else "-1"


def characters(*codes: str) -> str:
    numbers = [whole(code) for code in codes]
    if any(number > 127 for number in numbers):
        raise Stop("ZCHAR")
    return checked("".join(chr(number) for number in numbers if number >= 0))


def extract(text: str, *places: str) -> str:
    begin, end = bounds(list(places))
    return text[begin - 1:end] if end >= begin else ""


def find(text: str, part: str, *begin: str) -> str:
    at = max(whole(begin[0]) if begin else 1, 1)
    if not part:
        return written(at)
    found = text.find(part, at - 1)
    return "0" if found < 0 else str(found + len(part) + 1)


def justify(text: str, *sizes: str) -> str:
    numbers = [whole(size) for size in sizes]
    if len(numbers) == 2:
        text = fixed(text, numbers[1])
    if numbers[0] > LONGEST:
        raise Stop("ZLONG")
    return checked(text.rjust(max(numbers[0], 0)))


def fixed(text: str, places: int) -> str:
    """A number with this many digits after its point, and one before it."""
    number = value(text)
    if not 0 <= places <= LONGEST:
        raise Stop("ZARG" if places < 0 else "ZLONG")
    scaled = abs(Fraction(number)) * 10**places
    count = (2 * scaled.numerator + scaled.denominator) // (2 * scaled.denominator)
    digits = str(count).rjust(places + 1, "0")
    shown = digits[:len(digits) - places] + ("." + digits[-places:] if places else "")
    return ("-" if number < 0 and count else "") + shown


def length(text: str, *delimiter: str) -> str:
    if not delimiter:
        return str(len(text))
    return str(len(text.split(delimiter[0]))) if delimiter[0] else "0"


def piece(text: str, delimiter: str, *places: str) -> str:
    begin, end = bounds(list(places))
    return delimiter.join(text.split(delimiter)[begin - 1:end]) if delimiter and end >= begin else ""


def translate(text: str, old: str, new: str = "") -> str:
    table = {letter: new[place] if place < len(new) else "" for place, letter in reversed(list(enumerate(old)))}
    return "".join(table.get(letter, letter) for letter in text)


def reverse(text: str) -> str:
    return text[::-1]


def form_number(text: str, letters: str, *places: str) -> str:
    """$FNUMBER: `,` parts thousands, `+` shows a plus, `-` no minus, `T` puts the sign after, `P` a negative number in brackets.

    ZARG for places below 0, and for a character that is none of these; M2 if they conflict; ZLONG."""
    number = value(text)
    count = whole(places[0]) if places else 0
    letters = letters.upper()
    if count < 0 or set(letters) - set(",+-TP"):
        raise Stop("ZARG")
    if "P" in letters and set(letters) & set("+-T"):
        raise Stop("M2")
    shown = fixed(text, count) if places else written(rounded(number))
    is_below, is_zero = shown.startswith("-"), not set(shown) & set("123456789")
    before, point, after = shown.lstrip("-").partition(".")
    if "," in letters:
        before = re.sub(r"(?<=\d)(?=(?:\d{3})+$)", ",", before)
    shown = before + point + after
    sign = "-" if is_below and "-" not in letters else "+" if not is_below and not is_zero and "+" in letters else ""
    if "P" in letters:
        return checked(f"({shown})" if is_below else f" {shown} ")
    return checked(shown + (sign or " ") if "T" in letters else sign + shown)


def set_piece(text: str, delimiter: str, place: int, new: str) -> str:
    """A text with another piece. ZARG for a place below 1."""
    if place < 1:
        raise Stop("ZARG")
    return set_pieces(text, delimiter, place, place, new)


def set_pieces(text: str, delimiter: str, first: int, last: int, new: str) -> str:
    """A text with another piece in place of some. ZARG for a first place above 500, or no delimiter."""
    if first > 500 or not delimiter:
        raise Stop("ZARG")
    pieces = text.split(delimiter)
    pieces += [""] * (first - len(pieces))
    return checked(delimiter.join([*pieces[:first - 1], new, *pieces[last:]]))


def set_extract(text: str, first: int, last: int, new: str) -> str:
    """A text with other characters at some places; spaces fill up."""
    begin = first - 1
    if begin > LONGEST:
        raise Stop("ZLONG")
    return checked(text[:begin].ljust(begin) + new + text[last:])


def compared(left: str, operator: str, right: str) -> bool:
    """An operator on texts."""
    if operator == "=":
        return left == right
    if operator == "[":
        return right in left
    if operator == "]":
        return left > right
    return collation(left) > collation(right)


# The functions of values: short word, whole word, how many arguments at least and at most, since which language, and what they give.
FUNCTIONS = [("A", "ASCII", 1, 2, 0, ascii_code), ("C", "CHAR", 1, 255, 0, characters), ("E", "EXTRACT", 1, 3, 0, extract), ("F", "FIND", 2, 3, 0, find),
             ("J", "JUSTIFY", 2, 2, 0, justify), ("J", "JUSTIFY", 3, 3, SINCE["$JUSTIFY of three"], justify), ("L", "LENGTH", 1, 2, 0, length),
             ("P", "PIECE", 2, 4, 0, piece), ("TR", "TRANSLATE", 2, 3, 0, translate), ("RE", "REVERSE", 1, 1, SINCE["$REVERSE"], reverse),
             ("FN", "FNUMBER", 2, 3, SINCE["$FNUMBER"], form_number)]
