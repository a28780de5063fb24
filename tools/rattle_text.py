# SPDX-License-Identifier: Apache-2.0
"""Files of Rattle read as text: the functions of code, how deep their blocks are within one another, and the statements of proofs. It knows the layout
of `rt fmt` and no more of the language than it needs."""
import re
from collections.abc import Iterator
from dataclasses import dataclass

TOKEN = re.compile(r"//[^\n]*|/\*.*?\*/|b?\"(?:\\.|[^\"\\])*\"|b?'(?:\\[^\n]{1,8}?|[^'\\\n])'|[A-Za-z_]\w*|=>|[^\w\s]|\d\w*", re.DOTALL)
# The words before a clause, whose braces are no block of the code.
CLAUSES = ("requires", "ensures", "decreases", "invariant", "measure")
LOOPS = ("while", "for", "loop")
# What has a block after it; what comes before the brace of another one.
CONTROLS = (*LOOPS, "if", "match", "else")
BEFORE_A_BLOCK = ("=>", "|", ";", "}", "{")
# A statement of proofs: its name, at the left edge, and its type, up to the next line at that edge.
STATEMENT = re.compile(r"^(?:(?:pub|abbrev|unfoldable) )*([^\s:(){}.]+) : (.*(?:\n[ \t]+.*)*)", re.MULTILINE)
# Names that a telescope or a λ binds.
BOUND = re.compile(r"[({]((?:[^\s(){}:.]+ )+): |λ ((?:[^\s(){}:.]+ ?)+)\.")
# What makes a type a statement: a relation, or a word that names one.
RELATION = re.compile(r"[≡≢≤<↔]|\b(?:Is|Are|Fits|Has|All|On|If)[A-Z]\w*")


@dataclass(frozen=True)
class Function:
    """A function of code: where it stands, how many lines its body has, how deep blocks are within one another, the body being the first, and how many
    loops it has."""
    name: str
    line: int
    lines: int
    depth: int
    loops: int


class Tokens:
    """The tokens of a file without its comments, each with its place."""

    def __init__(self, text: str):
        found = [(match[0], match.start()) for match in TOKEN.finditer(text) if not match[0].startswith(("//", "/*"))]
        self.words, self.places = [word for word, _ in found], [place for _, place in found]

    def after_braces(self, at: int) -> int:
        """The place after the brace that closes the one at a place."""
        depth = 0
        while at < len(self.words):
            depth += {"{": 1, "}": -1}.get(self.words[at], 0)
            at += 1
            if depth == 0:
                break
        return at

    def body_of(self, at: int) -> int | None:
        """The place of the brace that opens the body of the function whose `fn` is at a place, if it has one."""
        inner, clause = 0, False
        while at < len(self.words):
            word = self.words[at]
            inner += {"(": 1, "[": 1, ")": -1, "]": -1}.get(word, 0)
            clause = clause or word in CLAUSES
            if word == ";" and not inner:
                return None
            if word == "{" and not clause:
                return at
            at, clause = (self.after_braces(at), False) if word == "{" else (at + 1, clause)
        return None


def depth_of(words: list[str]) -> int:
    """How many blocks of a body are within one another at most, the body among them. An arm of a match is one, and so is the match; the braces of a
    value are none."""
    open_blocks: list[bool] = []
    deepest, control = 0, False
    for at, word in enumerate(words):
        control = control or word in CONTROLS and words[at + 1] != "<"
        if word == "{":
            open_blocks.append(control or at == 0 or words[at - 1] in BEFORE_A_BLOCK)
            deepest, control = max(deepest, sum(open_blocks)), False
        elif word == "}":
            open_blocks.pop()
    return deepest


def functions(text: str) -> Iterator[Function]:
    """The functions of a file of code that have a body."""
    tokens, at = Tokens(text), 0
    while at < len(tokens.words):
        body = tokens.body_of(at) if tokens.words[at] == "fn" else None
        if body is None:
            at += 1
            continue
        end = tokens.after_braces(body)
        words = tokens.words[body:end]
        lines = text.count("\n", tokens.places[body], tokens.places[end - 1]) - 1
        loops = sum(word in LOOPS and words[place + 1] != "<" for place, word in enumerate(words))
        yield Function(tokens.words[at + 1], text.count("\n", 0, tokens.places[at]) + 1, lines, depth_of(words), loops)
        at = end


# A public item: one that other crates may have, or other modules of its own.
PUBLIC = re.compile(r"^ *pub (?:(?:const|unsafe) (?=fn))?(?:fn|struct|enum|trait|const|type|static) (\w+)", re.MULTILINE)
# A name that code gives: of an item, a variable or a parameter.
GIVEN = re.compile(r"\b(?:fn|struct|enum|trait|const|type|mod|let(?: mut)?) (\w+)|\b(?:mut )?([a-z_]\w*): (?!:)")


def without_comment(text: str) -> Iterator[tuple[str, int]]:
    """The public items of a file of code without a doc comment, each with its line. Attributes are between the two."""
    for match in PUBLIC.finditer(text):
        above = [line.strip() for line in text[:match.start()].splitlines()]
        while above and above[-1].startswith("#["):
            above.pop()
        if not above or not above[-1].startswith("///"):
            yield match[1], text.count("\n", 0, match.start()) + 1


def names(text: str) -> Iterator[tuple[str, int]]:
    """The names that a file of code gives, each with its line, without those in comments."""
    for number, line in enumerate(text.splitlines(), 1):
        yield from ((match[1] or match[2], number) for match in GIVEN.finditer(line.partition("//")[0]))


def alike(statement: str) -> str:
    """A statement whose white space is one space, and whose bound names are numbered, so that two that say the same are equal."""
    statement = " ".join(statement.split())
    for name in dict.fromkeys(name for groups in BOUND.findall(statement) for group in groups for name in group.split()):
        statement = re.sub(rf"(?<![\w.'-]){re.escape(name)}(?![\w'-])", f"#{len(re.findall('#', statement))}", statement)
    return statement


def statements(text: str) -> Iterator[tuple[str, int, str]]:
    """What a file of proofs states outside of modules with parameters: the name, the line, and the statement."""
    for match in STATEMENT.finditer(text):
        if RELATION.search(match[2]):
            yield match[1], text.count("\n", 0, match.start()) + 1, match[2]
