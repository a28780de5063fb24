# SPDX-License-Identifier: Apache-2.0
"""Numbers: whole counts of units of 10^-18, below 10^18, of 18 significant digits, rounded once, ties away from zero."""
from __future__ import annotations

import re
from collections.abc import Callable
from fractions import Fraction

DIGITS = 18
LIMIT = 10**18
_VALUE = re.compile(r"([+-]*)(?:(\d*)(?:(?<=\d)\.(\d+)|(?<!\d)\.(\d+))?(?:(?<=\d)E([+-]?\d+))?)", re.ASCII)
_CANONICAL = re.compile(r"0|-?(?:[1-9][0-9]*(?:\.[0-9]*[1-9])?|\.[0-9]*[1-9])", re.ASCII)
Number = Fraction | int


class Stop(Exception):
    """A line ends by a code, perhaps for a variable's name; the places are those of the levels, innermost first."""

    def __init__(self, code: str, name: str = "") -> None:
        super().__init__(code)
        self.code, self.name = code, name
        self.places: list[str] = []


def rounded(exact: Number) -> Number:
    """The number nearest to an exact value. ZOVER if it is too large."""
    if abs(exact) >= LIMIT:
        raise Stop("ZOVER")
    if isinstance(exact, int):
        return exact
    if exact.denominator == 1:
        return exact.numerator
    size, places = abs(exact), DIGITS
    while places > 0 and size >= 10**(DIGITS - places):
        places -= 1
    scaled = size * 10**places
    count = (2 * scaled.numerator + scaled.denominator) // (2 * scaled.denominator)
    found = Fraction(count, 10**places)
    if found >= LIMIT:
        raise Stop("ZOVER")
    return found if exact > 0 else -found


def value(text: str) -> Number:
    """The numeric value of a text. ZOVER if it is too large."""
    signs, whole, after, alone, exponent = _VALUE.match(text).groups(default="")
    part = after or alone
    digits = int((whole + part) or "0")
    if digits == 0:
        return 0
    power = int(exponent or "0") - len(part)
    size = len(str(digits)) + power
    if size > DIGITS:
        raise Stop("ZOVER")
    if size < -DIGITS:
        return 0
    exact = digits * 10**power if power >= 0 else Fraction(digits, 10**-power)
    return rounded(-exact if signs.count("-") % 2 else exact)


def written(number: Number) -> str:
    """The canonical text of a number."""
    if number == 0:
        return "0"
    units = abs(number) * LIMIT
    whole, part = divmod(int(units), LIMIT)
    text = (str(whole) if whole else "") + (f".{part:018}".rstrip("0") if part else "")
    return "-" + text if number < 0 else text


def is_canonical(text: str) -> bool:
    """Whether a text is the canonical one of a number."""
    if not _CANONICAL.fullmatch(text):
        return False
    whole, _, part = text.lstrip("-").partition(".")
    return len(whole) <= DIGITS and len(part) <= DIGITS and len((whole + part).lstrip("0")) <= DIGITS


def collation(text: str) -> tuple[int, Number | str]:
    """What subscripts are ordered by: the empty text, numbers by value, other texts by character codes."""
    if text == "":
        return 0, ""
    return (1, value(text)) if is_canonical(text) else (2, text)


def whole(text: str) -> int:
    """The numeric value of a text without its fraction."""
    number = value(text)
    return int(number)


def divided(left: Number, right: Number, operator: str) -> Number:
    """A quotient, one without its fraction, or a remainder. M9 for a zero divisor."""
    if right == 0:
        raise Stop("M9")
    exact = Fraction(left) / Fraction(right)
    if operator == "/":
        return rounded(exact)
    if operator == "\\":
        return rounded(int(exact))
    return rounded(Fraction(left) - Fraction(right) * (exact.numerator // exact.denominator))


def power(base: Number, exponent: Number, charge: Callable[[], None]) -> Number:
    """A power with a whole exponent: 1, multiplied by the base so often, or divided by it if the exponent is below zero; each result is rounded,
    after a step. M28 for another exponent, M94 for zero to zero."""
    if exponent != int(exponent):
        raise Stop("M28")
    if base == 0 and exponent == 0:
        raise Stop("M94")
    found: Number = 1
    for _ in range(abs(int(exponent))):
        charge()
        found = rounded(found * base) if exponent > 0 else divided(found, base, "/")
    return found
