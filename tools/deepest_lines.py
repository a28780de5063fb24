#!/usr/bin/env python3
# SPDX-License-Identifier: Apache-2.0
"""Measures how much stack the deepest lines need that the limits allow: 256 levels, 32 of them indirections, and in each text 40 brackets and
operands of `@` one within the other. It is found by halving, under ever smaller bounds of the stack.

Levels are frames in memory; the evaluation of an expression, and of what a text of name indirection names, takes the machine's stack. So of each way to nest
there is a line whose 32 texts nest it as deep as a text may, each within the one before; that with brackets is below 224 levels. What takes two steps
each time is nested in turn with brackets, so that the steps of a line suffice.

tests/test_deepest_lines.py runs these lines with 4 MB of stack, half of what systems give. Status 1 if a reply is another than the values
say even with all of a system's stack."""
import resource
import subprocess
import sys

from running import COMMAND, require_program

# The ways to nest: what opens and closes one, and what a text has around them, so that its value is that of its middle.
WAYS = {
    "brackets": ("(", ")", "A(%s)", "1"),
    "subscripts": ("A(", ")", "A(%s)", "1"),
    "$LENGTH": ("$L(", ")", "A(%s)", "1"),
    "$EXTRACT and brackets": ("$E((", "),1)", "A(%s)", "1"),
    "$TRANSLATE and brackets": ("$TR((", "),2)", "A(%s)", "1"),
    "$SELECT and brackets": ("$S(1:(", "))", "A(%s)", "1"),
    "$GET": ("$G(Z,", ")", "A(%s)", "1"),
    "$GET of a node": ("$G(A(", "))", "A(%s)", "1"),
    "environments": ("^|", "|E", "%s", "^E"),
    "operands": ("@", "", "%s", "X"),
}
# This many kilobytes of stack have to do; that many systems give.
STACK = 4096
MOST_STACK = 8192
NESTED = 40
TEXTS = 32
LEVELS = 256
SETTING = ['S A(1)=1,^E="ALICE",X="X"']


def text_of(way: str, inner: str, inner_nests: int) -> str:
    """A text that nests its way as often as it may around a middle, which nests so often itself."""
    opens, closes, around, _ = WAYS[way]
    times = (NESTED - inner_nests - (around != "%s")) // (opens.count("(") + opens.count("|") + opens.count("@"))
    return around % (times * opens + inner + times * closes)


def texts_of(way: str) -> list[str]:
    """The texts of a line, the outermost first."""
    middle = WAYS[way][3]
    texts = ["X" if way == "operands" else text_of(way, middle, 0)]
    for number in range(TEXTS, 1, -1):
        texts.append(text_of(way, f"@T{number}", 1))
    return texts[::-1]


def value_of(way: str) -> str:
    return {"environments": "ALICE", "operands": "X"}.get(way, "1")


def lines_of(way: str) -> tuple[list[str], str]:
    """Lines that assign the texts, the line that is as deep as may be, and what it writes."""
    lines = [f'S T{number}="%s"' % text.replace('"', '""') for number, text in enumerate(texts_of(way), 1)]
    if way != "brackets":
        return [*SETTING, *lines, "W @T1_1"], f"1-{value_of(way)}1"
    levels = LEVELS - TEXTS
    lines.append(f'F I=1:1:{levels - 1} S L(I)="X L("_(I+1)_")"')
    lines.append(f'S L({levels})="W @T1_1"')
    return [*SETTING, *lines, "X L(1)"], f"1-{value_of(way)}1"


def written(lines: list[str], stack: int) -> list[str] | None:
    """What the program writes to lines, with this many kilobytes of stack at most; None where it does not end well."""
    def bound() -> None:
        resource.setrlimit(resource.RLIMIT_STACK, (stack * 1024, stack * 1024))
    stream = "".join(f"1 {line}\n" for line in lines).encode("ascii")
    ran = subprocess.run(COMMAND, input=stream, capture_output=True, preexec_fn=bound)
    return None if ran.returncode else ran.stdout.decode("ascii").splitlines()


def least_stack(lines: list[str], wanted: list[str]) -> int:
    """With how many kilobytes of stack the lines are answered as they should be, and with fewer not."""
    low, high = 0, MOST_STACK
    while high - low > 4:
        middle = (low + high) // 2
        if written(lines, middle) == wanted:
            high = middle
        else:
            low = middle
    return high


def wanted_of(lines: list[str], value: str) -> list[str]:
    """What the program writes to lines of which the last one writes this."""
    return ["1."] * (len(lines) - 1) + [value, "1."]


def main() -> int:
    require_program()
    print(f"deepest_lines: a line that writes 1: {least_stack(['W 1'], ['1-1', '1.'])} KB")
    faults = 0
    for way in WAYS:
        lines, value = lines_of(way)
        wanted = wanted_of(lines, value)
        got = written(lines, MOST_STACK)
        if got == wanted:
            print(f"deepest_lines: {way}: {least_stack(lines, wanted)} KB")
        else:
            faults += 1
            print(f"deepest_lines: {way}: {(got or ['no end'])[-2:]}")
    return 1 if faults else 0


if __name__ == "__main__":
    sys.exit(main())
