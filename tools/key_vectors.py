#!/usr/bin/env python3
# SPDX-License-Identifier: Apache-2.0
"""Prints transcripts/keys-computed.txt: keys of nodes, and what is left of a key that is changed.

A case `key account name subscripts` is a node, with the bytes of its key below it in hexadecimal. A case `changed bytes` says how
many of the beginnings of a key, and of the keys with one byte changed, are the key of a node. The rules restated here: a name's bytes are raised by one and end
with 00; a canonical number is 01 and its units raised by 2^127 in sixteen bytes; any other subscript is 02 and its bytes raised by one, ended by 00.
"""
import random
import re

from number_vectors import text_of, value

MAX_SUBSCRIPTS = 15
MAX_CHARACTERS = 255


def units(text):
    """The number of which the text is the canonical text, in units of 10^-18; None where it is no such text."""
    if not re.fullmatch(rb"[-.0-9]+", text):
        return None
    number = value(text.decode())
    return int(number * 10**18) if number is not None and text_of(number).encode() == text else None


def ended(text):
    return bytes(code + 1 for code in text) + b"\0"


def subscript(text):
    number = units(text)
    return b"\2" + ended(text) if number is None else b"\1" + (number + 2**127).to_bytes(16, "big")


def key(account, name, subscripts):
    return ended(account) + ended(name) + b"".join(subscript(text) for text in subscripts)


def read(data):
    """The node whose key the bytes are, or None: found by cutting the bytes up, and by writing the key again."""
    parts = data.split(b"\0", 2)
    if len(parts) < 3 or 0 in (len(parts[0]), len(parts[1])):
        return None
    account, name = (bytes(code - 1 for code in part) for part in parts[:2])
    if not re.fullmatch(rb"[A-Za-z0-9]{1,16}", account) or not re.fullmatch(rb"[A-Za-z%][A-Za-z0-9]{0,30}", name):
        return None
    rest, subscripts = parts[2], []
    while rest:
        if rest[0] == 1 and len(rest) >= 17:
            number = int.from_bytes(rest[1:17], "big") - 2**127
            sign, size = ("-" if number < 0 else ""), abs(number)
            digits = str(size).rjust(19, "0")
            text = (digits[:-18].lstrip("0") + "." + digits[-18:].rstrip("0")).rstrip(".") or "0"
            subscripts.append((sign + text).encode())
            rest = rest[17:]
        elif rest[0] == 2 and 0 in rest[1:]:
            end = rest.index(0, 1)
            subscripts.append(bytes(code - 1 for code in rest[1:end]))
            rest = rest[end + 1:]
        else:
            return None
    if len(subscripts) > MAX_SUBSCRIPTS:
        return None
    if any(not 1 <= len(text) <= MAX_CHARACTERS or max(text) > 127 for text in subscripts):
        return None
    return (account, name, subscripts) if key(account, name, subscripts) == data else None


PLAIN = b"ABCDEFGHIJKLMNOPQRSTUVWXYZabcdefghijklmnopqrstuvwxyz0123456789.%+,-"


def word(text):
    """A text as a word of a case: `-` stands for the empty text, long runs of one character and what is not plain in escapes."""
    run = re.fullmatch(rb"([A-Z])\1{7,}", text)
    if run:
        return "{%d*%s}" % (len(text), text[:1].decode())
    plain = b"" if text == b"-" else PLAIN
    return "".join(chr(code) if code in plain else "{%02x}" % code for code in text) or "-"


def nodes(chance):
    """The nodes of the table."""
    alone = ["1", ".5", "-1", "A", "01", "0", "-.5", "2.5", "10", "-10", "9", "a", "%", " ", "E", "-", ".", "+", "--1", "1E5", "1e5"]
    alone += ["1.0", "1.", "0.5", ".50", "+1", "-0", "00", "-01", "1 ", " 1", "1A", "1,5", ".", "-.", "..5", "5..", "1.2.3"]
    alone += ["999999999999999999", "-999999999999999999", ".000000000000000001", "-.000000000000000001"]
    alone += ["1000000000000000000", "1234567890123456789", "123456789.123456789", "123456789.1234567891", ".0000000000000000001"]
    alone += ["100000000000000000", "-100000000000000000.5", "99999999999999999.9", "\0", "\x7f", "\0A", "A\0", "\x7f\x7f"]
    for text in alone:
        yield b"A", b"B", [text.encode()]
    yield b"A", b"B", []
    yield b"ALICE", b"%", [b"1", b"x"]
    yield b"0123456789abcdef", b"%234567890123456789012345678901", [b"7"]
    yield b"A", b"B", [bytes([65 + i]) * 255 for i in range(15)]
    yield b"A", b"B", [b"\0" * 255, b"\x7f" * 255]
    yield b"A", b"B", [str(i).encode() for i in range(-7, 8)]
    for _ in range(60):
        subscripts = []
        for _ in range(chance.randrange(1, 6)):
            number = chance.randrange(-(10**18), 10**18) // 10 ** chance.randrange(18)
            text = text_of(value(f"{number}E-{chance.randrange(19)}"))
            letters = "".join(chance.choice("aZ%.-+0159 \x7f\0") for _ in range(chance.randrange(1, 9)))
            subscripts.append((text if chance.randrange(2) else letters).encode())
        yield b"BOB", b"X1", subscripts


def changed(data):
    prefixes = sum(read(data[:length]) is not None for length in range(len(data) + 1))
    changes = sum(
        read(data[:place] + bytes([code]) + data[place + 1:]) is not None
        for place in range(len(data))
        for code in range(256)
        if code != data[place]
    )
    print(f"changed {data.hex()}\n    {prefixes} beginnings, {changes} changes")


def main():
    print("== keys: computed by tools/key_vectors.py")
    for account, name, subscripts in nodes(random.Random(127)):
        made = key(account, name, subscripts)
        assert read(made) == (account, name, subscripts)
        print(" ".join(["key", account.decode(), name.decode(), *map(word, subscripts)]))
        print(f"    {made.hex()}")
    changed(key(b"A1", b"%B", [b"1", b"x.5", b"-.5", b"007"]))
    changed(key(b"A", b"B", [b"-12.25"]))


if __name__ == "__main__":
    main()
