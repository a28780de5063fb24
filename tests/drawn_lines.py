# SPDX-License-Identifier: Apache-2.0
"""Lines of M that are drawn at random, in two forms: one without indirection, and one with it that means the same."""
from __future__ import annotations

from collections.abc import Callable
from random import Random

# A text, and one with indirection that means the same.
Pair = tuple[str, str]


def quoted(text: str) -> str:
    """A text as a literal of M."""
    return '"' + text.replace('"', '""') + '"'


def joined(parts: list[str | Pair], between: str = "") -> Pair:
    """The pair of a list of pairs and texts."""
    pairs = [(part, part) if isinstance(part, str) else part for part in parts]
    return between.join(plain for plain, _ in pairs), between.join(other for _, other in pairs)


class Draw:
    """One line that is drawn: its parts, and the texts that its second form refers to."""

    def __init__(self, drawn: Random, language: int = 0) -> None:
        """A line of a language by what this draws."""
        self.drawn, self.language = drawn, language
        self.texts: list[tuple[str, str]] = []

    def held(self, text: str) -> str:
        """A variable that is to hold this text."""
        name = self.drawn.choice(["T%d", "T(%d)", 'U("t",%d)']) % len(self.texts)
        self.texts.append((name, text))
        return name

    def operand(self, text: str) -> str:
        """An operand of `@` with this value."""
        form = self.drawn.randrange(6)
        if form == 0:
            return quoted(text)
        if form == 1:
            place = self.drawn.randint(0, len(text))
            return f"({quoted(text[:place])}_{quoted(text[place:])})"
        if form == 2:
            return "@" + self.held(self.held(text))
        if form == 3:
            return f"$G({self.held(text)})"
        return self.held(text)

    def reference(self, depth: int, least: int = 0) -> Pair:
        """A variable with this many subscripts at least."""
        name = self.drawn.choice(["A", "B", "C", "^A", "^B"] * 3 + ['^|"ALICE"|A'] * 2 + ["^"])
        count = max(self.drawn.choice([0, 0, 1, 1, 1, 2]), least, name == "^")
        subscripts = [self.expression(depth - 1) for _ in range(count)]
        plain, other = self.subscripted(name, subscripts)
        form = self.drawn.randrange(6)
        if form == 0:
            return plain, other
        if form == 1:
            return plain, "@" + self.operand("@" + self.operand(other))
        kept = self.drawn.randint(name == "^", count)
        if form <= 3 and kept < count:
            front = self.operand(self.subscripted(name, subscripts[:kept])[1])
            # after two `@` the subscripts would be those of the inner one
            front = f"({front})" if front.startswith("@") else front
            return plain, self.subscripted(f"@{front}@", subscripts[kept:])[1]
        return plain, "@" + self.operand(other)

    @staticmethod
    def subscripted(name: str, subscripts: list[Pair]) -> Pair:
        """A variable with these subscripts."""
        return joined([name, "(", joined(subscripts, ","), ")"]) if subscripts else (name, name)

    def later(self, depth: int) -> Pair:
        """An expression of a later language, whose own nest this deep at most."""
        special = self.drawn.choice(["$I", "$IO", "$J", "$JOB", "$P", "$PRINCIPAL", "$S", "$STORAGE", "$j", "$io", "$X", "$x", "$Y"])
        return self.drawn.choice([
            lambda: (special, special),
            lambda: joined(["(", self.expression(depth), self.drawn.choice(["**2)", "**3)", "**-1)", "**0)"])]),
            lambda: joined(["$FN(", self.expression(depth), self.drawn.choice([',""', ',","', ',"T"', ',"P,"', ",I"]),
                            self.drawn.choice([")", ",0)", ",2)", ",I)"])]),
            lambda: joined(["$J(", self.expression(depth), self.drawn.choice([",1", ",5", ",I"]), self.drawn.choice([",0)", ",2)", ",I)"])]),
            lambda: joined([self.drawn.choice(['$QL("A("_', '$QL("^A(1,"_', "$qlength("]), self.expression(depth), self.drawn.choice(['_")")', "_1)", ")"])]),
            lambda: joined(['$QS("^|""E""|A("_', self.expression(depth), self.drawn.choice(['_")",0)', '_",2)",1)', '_")",-1)', '_")",I)'])]),
            lambda: joined([self.drawn.choice(["$NA(A(", "$NAME(^A(1,", "$na(^("]), self.expression(depth), self.drawn.choice(["))", "),0)", "),1)", "),I)"])]),
            lambda: joined([self.drawn.choice(["$Q(A(", "$QUERY(^A(1,", "$q(^("]), self.expression(depth), self.drawn.choice(["))", "),1)", "),-1)", "),I)"])]),
            lambda: joined([self.drawn.choice(["$I(A(", "$INCREMENT(^A(1,", "$i(^("]), self.expression(depth),
                            self.drawn.choice(["))", "),2)", "),-1)", "),I)"])]),
            lambda: joined([self.drawn.choice(["$RE(", "$REVERSE(", "$re("]), self.expression(depth), ")"]),
        ])()

    def expression(self, depth: int) -> Pair:
        """An expression that nests this deep at most."""
        if self.language and depth > 0 and self.drawn.randrange(4) == 0:
            if self.drawn.randrange(3) == 0:
                question, pattern = self.drawn.choice(["?", "'?"]), self.drawn.choice(["1N", ".E", "1.A.N", '1"x".E', ".(1N,1A)", '1.2(.A1N,.2(1"x",1L)).E'])
                return joined(["(", self.expression(depth - 1), (question + pattern, f"{question}@{self.operand(pattern)}"), ")"])
            return self.later(depth - 1)
        form = self.drawn.randrange(14) if depth > 0 else 0
        if form <= 3:
            text = self.drawn.choice(["1", "2", "1", "2", "0", "5", '"x"', '"xy"', "I", "N", ".5"])
            return text, text
        if form <= 6:
            return joined(["$G(", self.reference(depth), ",", self.expression(depth - 1), ")"])
        if form == 7:
            return joined(["$O(", self.reference(depth, least=1), ")"])
        if form == 8:
            return joined([self.drawn.choice(["", "-", "'"]), self.reference(depth)])
        if form == 9:
            return joined(["$S(", self.expression(depth - 1), ":", self.expression(depth - 1), ",1:", self.expression(depth - 1), ")"])
        if form == 10:
            return joined(["$D(", self.reference(depth), ")"])
        operator = self.drawn.choice(["+", "-", "_", "=", "<", "'>", "[", "]]", "&", "!", "*"])
        return joined(["(", self.expression(depth - 1), operator, self.expression(depth - 1), ")"])

    def arguments(self, pairs: list[Pair]) -> Pair:
        """A list of arguments, of which some may be in a text."""
        plain, other = joined(pairs, ",")
        form = self.drawn.randrange(4)
        if form == 0:
            return plain, other
        if form == 1:
            return plain, "@" + self.operand("@" + self.operand(other))
        place = self.drawn.randrange(len(pairs))
        front = [other for _, other in pairs[:place]]
        behind = joined(pairs[place:], ",")[1]
        return plain, ",".join(front + ["@" + self.operand(behind)])

    def some(self, draw: Callable[[], Pair]) -> list[Pair]:
        """One to three of a kind."""
        return [draw() for _ in range(self.drawn.choice([1, 1, 2, 3]))]

    def part(self) -> Pair:
        """A part of a variable, as SET takes it in language 1."""
        places = [",", self.drawn.choice(["1", "2", "3", "0", "N"]), ",", self.drawn.choice(["1", "2", "4", "-1", "I"]), ")"]
        return joined(["$E(", self.reference(1), *places] if self.drawn.randrange(2) else ["$P(", self.reference(1), ",", quoted("y"), *places])

    def assignment(self) -> Pair:
        """An argument of SET."""
        if self.language and self.drawn.randrange(4) == 0:
            return joined([self.part(), "=", self.expression(2)])
        form = self.drawn.randrange(6)
        if form == 0:
            target = joined(["$P(", self.reference(1), ",", quoted("y"), ",", self.drawn.choice(["1", "2", "3"]), ")"])
        elif form == 1:
            target = joined(["(", joined([self.reference(1), self.reference(1)], ","), ")"])
        else:
            target = self.reference(2)
        return joined([target, "=", self.expression(2)])

    def written(self) -> Pair:
        """An argument of WRITE."""
        if self.language and self.drawn.randrange(4) == 0:
            formats = self.drawn.choice(["?", "!?", "#!?", "?", "*", "!#"])
            return joined([formats, self.expression(2)]) if formats[-1] in "?*" else (formats, formats)
        return self.expression(3)

    def entry(self) -> Pair:
        """An argument of DO or GOTO."""
        libraries = ['P^|"ALICE"|R', '^|"ALICE"|R', 'H^|"ALICE"|G'] if self.language else []
        name = self.drawn.choice(["R^R", "P^R", "^R", "G^G", "H^G", "^G", *libraries])
        return joined([name, ":", self.expression(2)]) if self.drawn.randrange(3) == 0 else (name, name)

    def entry_of_do(self) -> Pair:
        """An argument of DO, which in language 1 may hand something over."""
        if not self.language or self.drawn.randrange(3):
            return self.entry()
        label = self.drawn.choice(["A^C", "K^C", "N^C", "G^C", 'A^|"ALICE"|C', 'N^|"ALICE"|C'])
        actuals = [self.actual() for _ in range(self.drawn.choice([0, 1, 2, 2]))]
        return joined([label, "(", joined(actuals, ","), ")", *([":", self.expression(2)] if self.drawn.randrange(3) == 0 else [])])

    def actual(self) -> Pair:
        """What is handed over: a value, a name, or nothing."""
        name = self.drawn.choice(["A", "B", "C", "N"])
        return self.drawn.choice([lambda: self.expression(1), lambda: ("." + name, "." + name), lambda: ("." + name, ".@" + self.operand(name)),
                                  lambda: ("", "")])()

    def text_to_run(self) -> Pair:
        """An argument of XECUTE."""
        plain, other = self.command(inner=True)
        return quoted(plain), quoted(other)

    def word(self, words: list[str]) -> Pair:
        """A command's word, with a condition or none."""
        word = self.drawn.choice(words)
        return joined([word, ":", self.expression(2)]) if self.drawn.randrange(4) == 0 else (word, word)

    def command(self, inner: bool = False) -> Pair:
        """A command with its arguments."""
        form = self.drawn.randrange(8 if inner else 9)
        if form <= 2:
            return joined([self.word(["S", "SET"]), " ", self.arguments(self.some(self.assignment))])
        if form <= 4:
            return joined([self.word(["W", "WRITE"]), " ", self.arguments(self.some(self.written))])
        if form == 5:
            return joined([self.word(["K", "KILL"]), " ", self.arguments(self.some(lambda: self.reference(2)))])
        if form == 6:
            return joined([self.word(["D", "DO"]), " ", self.arguments(self.some(self.entry_of_do))])
        if form == 7:
            names = self.drawn.sample(["A", "B", "C"], self.drawn.randint(1, 2))
            return joined([self.word(["N", "NEW"]), " ", self.arguments([(name, name) for name in names])])
        return joined([self.word(["X", "XECUTE"]), " ", self.arguments(self.some(self.text_to_run))])

    def opening(self) -> Pair:
        """What a line begins with: a FOR, an IF, or nothing."""
        form = self.drawn.randrange(5)
        if form == 0:
            bounds = joined([self.expression(2), "#3:1:", self.expression(2), "#4"])
            return joined(["F I=", joined([bounds, self.expression(2)], ","), " "])
        if form == 1:
            return joined(["I ", self.arguments(self.some(lambda: self.expression(2))), " "])
        return "", ""

    def ending(self) -> Pair:
        """What a line ends with: a GOTO, what takes all variables but some, or nothing."""
        form = self.drawn.randrange(12)
        if form == 0:
            return joined([" G ", self.arguments(self.some(self.entry))])
        if form == 1:
            # after it the texts are gone, so no turn of a FOR may follow
            word = self.drawn.choice([" K ", " N "])
            return word + "(A,N,I) Q", word + "@" + self.operand("(A,N,I)") + " Q"
        return "", ""

    def line(self) -> Pair:
        """A whole line."""
        commands = joined([self.command() for _ in range(self.drawn.choice([1, 1, 2, 3]))], " ")
        return joined([self.opening(), commands, self.ending()])
