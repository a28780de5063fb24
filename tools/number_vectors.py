#!/usr/bin/env python3
# SPDX-License-Identifier: Apache-2.0
"""Prints transcripts/numbers-computed.txt: what the operators of numbers give, by Python's own fractions.

A case is `operator left right`, or `number text`, with its result below; `over` and `zero` stand for the two refusals. Texts
have no spaces. The rules restated here: a number has eighteen significant digits and a unit of 10^-18; results are exact, then
rounded once, ties away from zero; nothing reaches 10^18.
"""
import random
import re
from fractions import Fraction

UNIT = Fraction(1, 10**18)
END = Fraction(10**18)


def rounded(exact):
    if exact == 0:
        return Fraction(0)
    if abs(exact) >= END:
        return None
    digits = 0
    while abs(exact) >= Fraction(10) ** digits:
        digits += 1
    while abs(exact) < Fraction(10) ** (digits - 1):
        digits -= 1
    step = max(UNIT, Fraction(10) ** (digits - 18))
    whole, rest = divmod(abs(exact), step)
    size = (whole + (1 if 2 * rest >= step else 0)) * step
    if size >= END:
        return None
    return size if exact > 0 else -size


def text_of(number):
    if number is None:
        return "over"
    units = abs(number) * 10**18
    assert units.denominator == 1
    whole, part = divmod(units.numerator, 10**18)
    text = str(whole) if whole else ""
    if part:
        text += "." + str(part).rjust(18, "0").rstrip("0")
    return ("-" if number < 0 else "") + (text or "0")


LITERAL = re.compile(r"(\d+(\.\d+)?|\.\d+)(E[+-]?\d+)?")


def value(text):
    signs = re.match(r"[+-]*", text).group()
    head = LITERAL.match(text[len(signs):])
    if not head:
        return Fraction(0)
    mantissa, _, power = head.group().partition("E")
    power = int(power or 0)
    if abs(power) > 10_000:
        power = 10_000 if power > 0 else -10_000
    exact = Fraction("0" + mantissa) * Fraction(10) ** power
    return rounded(-exact if signs.count("-") % 2 else exact)


def floor_remainder(left, right):
    return left - right * (left // right)


def truncated(left, right):
    quotient = abs(left) // abs(right)
    return Fraction(quotient if (left < 0) == (right < 0) else -quotient)


OPERATORS = {
    "add": lambda a, b: rounded(a + b),
    "sub": lambda a, b: rounded(a - b),
    "mul": lambda a, b: rounded(a * b),
    "div": lambda a, b: "zero" if b == 0 else rounded(a / b),
    "quot": lambda a, b: "zero" if b == 0 else rounded(truncated(a, b)),
    "rem": lambda a, b: "zero" if b == 0 else rounded(floor_remainder(a, b)),
}


def operand(chance):
    kind = chance.randrange(6)
    if kind == 0:
        exact = Fraction(chance.randrange(-30, 31))
    elif kind == 1:
        exact = Fraction(chance.randrange(-99999, 100000), 10 ** chance.randrange(5))
    elif kind == 2:
        exact = Fraction(chance.randrange(-(10**18), 10**18), 10 ** chance.randrange(19))
    elif kind == 3:
        exact = Fraction(chance.randrange(-999, 1000), 10 ** chance.randrange(12, 19))
    elif kind == 4:
        exact = Fraction(chance.randrange(-999, 1000) * 10 ** chance.randrange(16))
    else:
        exact = chance.choice([1, -1]) * Fraction(10**18 - 1, 10 ** chance.randrange(19))
    return rounded(exact)


def literal(chance):
    text = "".join(chance.choice("+-") for _ in range(chance.randrange(3)))
    text += "".join(chance.choice("0123456789") for _ in range(chance.randrange(22)))
    if chance.randrange(2):
        text += "." + "".join(chance.choice("0123456789") for _ in range(chance.randrange(22)))
    if chance.randrange(2):
        text += "E" + chance.choice(["", "+", "-"]) + "".join(chance.choice("0123456789") for _ in range(chance.randrange(4)))
    return text + chance.choice(["", "", "X", "E", ".", "-1", "e5"])


def show(case, result):
    print(f"{case}\n    {result}")


def main():
    chance = random.Random(18)
    print("== numbers: computed by tools/number_vectors.py")
    for symbol, operator in OPERATORS.items():
        for _ in range(40):
            left, right = operand(chance), operand(chance)
            result = operator(left, right)
            show(f"{symbol} {text_of(left)} {text_of(right)}", result if result == "zero" else text_of(result))
        result = operator(Fraction(5), Fraction(0))
        show(f"{symbol} 5 0", result if result == "zero" else text_of(result))
    for _ in range(40):
        left, right = operand(chance), operand(chance)
        show(f"cmp {text_of(left)} {text_of(right)}", (left > right) - (left < right))
    for _ in range(60):
        text = literal(chance) or "0"
        show(f"number {text}", text_of(value(text)))


if __name__ == "__main__":
    main()
