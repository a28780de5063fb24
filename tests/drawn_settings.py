# SPDX-License-Identifier: Apache-2.0
"""Drawn settings of several accounts, of which some have language 0 and some language 1, and drawn lines of all their terminals, hostile ones among
them, and runs of them over new stores."""
from __future__ import annotations

import itertools
import os
import re
import tempfile
from collections.abc import Callable, Iterator
from contextlib import contextmanager
from dataclasses import dataclass
from random import Random
from typing import NamedTuple

from hypothesis import given, note, settings
from hypothesis import strategies as st
from running import IN_MEMORY, run
from support import Grant

NAMES = ["ALICE", "BOB", "CAROL", "DAVE", "EVE"]
GLOBALS = ["X", "Y", "ROUTINE"]
# This many lines are drawn, of which every twentieth is left out.
LINES = 46
REPLY = re.compile(rb"(\d+)[:\-.!]")
# A line with its terminal, and with none if it is not a line of the wire.
Line = tuple[int | None, bytes]

# Lines of M: {g} is a global, {o} an account or none, {i} a subscript, {v} a value.
TEXTS = [
    # stored, read and walked through, of one's own and of others
    'S ^{g}({i})="{v}"', 'S ^{g}({i},1)="{v}",^(2)="{v}"', 'S ^|"{o}"|{g}({i})="{v}"', 'K ^{g}', 'K ^|"{o}"|{g}({i})',
    'W $D(^{g}),$G(^{g}({i}),"-")', 'W $D(^|"{o}"|{g}({i}))', 'W ^|"{o}"|{g}({i})', 'W ^({i})', 'S ^{g}({i})=^|"{o}"|{g}({i})',
    'S S="" F  S S=$O(^{g}(S)) Q:S=""  W S,"=",$G(^{g}(S)),!', 'S S="" F  S S=$O(^|"{o}"|{g}(S)) Q:S=""  W S,","',
    'S S="" F  S S=$O(^|"{o}"|{g}(S),-1) Q:S=""  S ^Y(S)=^|"{o}"|{g}(S)',
    # locked, by name and by list
    'L +^{g}({i}):0 W $T', 'L +^|"{o}"|{g}:0 W $T', 'L +^|"{o}"|{g}({i})', 'L +^{g}', 'L -^{g}({i})', 'L +{g}:0 W $T', 'L (^{g},^|"{o}"|Y)', 'L',
    # kept by the terminal, and given up
    'S A="{v}" W A', 'W A,$D(B)', 'K', 'N A S A=1 W A', 'I $D(^{g}) W "some"', 'W $T', 'H',
    # routines, texts that are run, and names that are looked up
    'S ^ROUTINE("R",1)="A S ^{g}({i})=""{v}"" W ^{g}({i}) Q"', 'D A^R', 'D ^R', 'X "S ^{g}({i})=""{v}"" W ^(9)"',
    'S A="^{g}({i})",@A="{v}" W @A', 'S A="^|""{o}""|{g}({i})" W @A', 'S A="{g}({i})" L +@A:0 W $T',
    # hostile: without end, too long, too deep, refused
    'F  S B=1', 'F I=1:1 S ^{g}(I)=I', 'F I=1:1 L +^{g}(I)', 'S B="x" F  S B=B_B', 'F I=1:1 S ^{g}("x"_I)=$J("",4000)', 'S B="X B" X B',
    'S ^{g}({i})=1 W 1/0', 'W "', 'S ^{g}("")=1', 'W $C(200)', 'W "é"', ";" + "x" * 255, 'ZZ', '', 'D NO^R', 'W @"^|"',
    # of language 1, in a routine's line
    'S ^ROUTINE("R",2)="B S ^{g}({i})=$REVERSE(""{v}"") W ^{g}({i}) Q"', 'D B^R', 'D B^R',
    'S ^|"{o}"|ROUTINE("R",2)="B W !?{i},$X,^{g}({i})?@""1N"" Q"',
    # of language 1, in the line, in a text that it runs, and in names that it looks up
    'W $RE("{v}")', 'S ^{g}({i})=$RE({v}_$G(^{g}({i})))', 'W $L($RE(^|"{o}"|{g}({i})))', 'X "S A=$RE({v}) W A"', 'S A="$RE({v})" W @A',
    'W $J,$IO,$P', 'S ^{g}($J)={v} W $G(^|"{o}"|{g}($J))', 'H {v} W $RE({v})', 'S A="{v}" H @A W $RE(A)',
    'S A="^{g}($RE({i}))" W $G(@A,"-")', 'W $J($RE({v}),6,2)', 'W ^{g}({i})?@$RE("N.")', 'W $RE("{v}")?@($L($G(^{g}({i})))_"E")',
    'S ^{g}({i})=$RE({v})**{i} W ^{g}({i})**-1', 'X "W 2**$RE({v})"', 'S ^{g}({i})=$J($RE({v})/7,9,3) W ^{g}({i})',
    'W !?{i},$X,",",$Y,$RE({v})', 'S ^{g}({i})=$X_","_$Y_$RE({v}) W ^{g}({i})', 'W #,?{v},*{v}+40,$RE("{g}"),!#', 'X "W ?{i},$RE({v})" W $X',
    'W ^|"{o}"|{g}($X),$RE({v})',
    'W $QL("^|""{o}""|{g}({i})"),$RE({v})', 'S ^{g}($QL("A({i},1)"))=$QS("A({v},1)",1) W $RE({v})', 'W $QS("^|""{o}""|{g}({i})",-1),$RE({v})',
    'W $NA(^|"{o}"|{g}({i})),$RE({v})', 'W $NA(^{g}({i})),$D(^|"{o}"|{g}({i})),$NA(^({v}),{i}),$NA(^|"{o}"|{g}(^({i})))',
    'S A=$NA(^|"{o}"|{g}({i})) S @A=$RE({v})', 'S ^{g}({i})=$NA(A({i},"x"),1)_$RE({v})',
    'W $Q(^|"{o}"|{g}({i})),$RE({v})', 'W $Q(^{g}(""),-1),$D(^({i})),$Q(^|"{o}"|{g}(""),1),$D(^(1)),$RE({v})', 'W $Q(A),$Q(^({i}),-1),$RE({v})',
    'S A=$Q(^|"{o}"|{g}),A=$S(A="":"A",1:A) S @A=$RE({v})', 'S ^{g}({i})=$Q(A({i},"x"),-1)_$RE({v})',
    'W $I(^|"{o}"|{g}({i})),$RE({v})', 'W $I(^{g}({i}),$RE({v})),$D(^({i}))', 'S ^{g}({i})=$I(A,{i})_$RE({v})', 'W $I(^|"{o}"|{g}),$I(^(1)),$RE({v})',
    'M A=^|"{o}"|{g} W $D(A),$RE({v})', 'M ^|"{o}"|{g}({i})=A W $RE({v})', 'S A=1,A({i})={v} M ^{g}({i})=A W $D(^({i})),$RE({v})',
    'M ^{g}(1)=^|"{o}"|{g}({i}) W $Q(^(1)),$RE({v})', 'M ^{g}=^{g}({i}) W $RE({v})', 'M A=^{g}({i}),^(2)=A W $D(^(1)),$RE({v})',
    'W $FN($RE({v}_1234),",T",2)', 'S ^{g}({i})=$FN($RE({v})*7777,"P,") W ^{g}({i})',
    'S ^ROUTINE("P",1)="A(X,Y) S X=$G(X)_{v},^{g}({i})=X W X,$QUIT Q"', 'S ^ROUTINE("P",2)="B(X) K X S X=$G(^{g}({i})) D A(.X) Q"',
    'D A^P(.A,$RE({v})) W A', 'D B^P(.A),A^P($RE({v}),.A) W $G(A)', 'D A^P(^|"{o}"|{g}({i}),$RE({v}))', 'W {v} Q $RE({v})',
    'S A="A" D A^P(.@A,$RE({v})),B^P(.A):A>1 W A',
    'S ^ROUTINE("P",3)="V(X) S ^{g}({i})=$G(X)_{v} Q ^{g}({i})_$QUIT"', 'S ^ROUTINE("P",4)="W(X) Q:$G(X)<1 {v} Q $$W(X-1)_$$V(.X)"',
    'W $$V^P({v}),$RE({v})', 'S ^{g}({i})=$$W^P($RE({v}),1) W ^{g}({i})', 'W:$$V^P(.A)[$RE({v}) $$W^P(2),A', 'D A^P(.A,$$V^P($RE({v}))) W A',
    'W $RE({v}) X "W $$V^P($G(^{g}({i})))"', 'S A=$$V^P(^|"{o}"|{g}({i}))_$RE({v}) W A',
    'W ^{g}($$V^P({i})),$RE({v})', 'W $G(^|"{o}"|{g}($$V^P(.A)),$$W^P(1)),$RE({v})', 'S A=$S($$V^P({v})[{i}:$RE({v}),1:^|"{o}"|{g}({i})) W A',
    'W $G(@("^|""{o}""|{g}("_$L($$V^P({v}))_")"),$RE({v}))', 'W $O(^|"{o}"|{g}($$W^P({i}))),$D(^($$V^P(.A))),$RE({v})',
    'S $E(^{g}({i}),2,3)=$RE({v}) W ^{g}({i})', 'S $P(^|"{o}"|{g}({i}),",",2,3)=$RE({v})', 'S $E(^|"{o}"|{g}({i}),0)=$RE({v}) W $D(^({i}))',
]
# Lines that have routines of others run, and that store routines whose lines do so. These have DO as a whole word: in D and G a line is known that
# does it itself.
LIBRARY_TEXTS = [
    *['D A^|"{o}"|R', 'D ^|"{o}"|R', 'D C^|"{o}"|L({v},.A) W A', 'D E^|"{o}"|L', 'D D^|"{o}"|L'] * 2, 'D B^|"{o}"|R W $X', 'G A^|"{o}"|R', 'G E^|"{o}"|L',
    'W $$V^|"{o}"|L({v})', 'S A=$$K^|"{o}"|L(.A) W A', 'S ^ROUTINE("L",9)="K(X) S X={v},^{g}({i})=X Q $$V(X)"', *['D C^|"{o}"|L($$V^|"{o}"|L,.A)'] * 2,
    'W $G(^{g}($$V^|"{o}"|L({v}))),$S($$K^|"{o}"|L(.A):A,1:2)', 'W $D(^|"{o}"|{g}($$V^|"{o}"|L,{i})),$RE({v})',
    'D A^|"{o}"|R:1,E^|"{o}"|L:0', 'X "D E^|""{o}""|L"', 'D A^|"{o}"|P(.A,{v}) W A', 'D B^|"{o}"|P(.A),E^|"{o}"|L', 'D NO^|"{o}"|R', 'D A^|"{o}"|NONE',
    'D E^|"no name"|L', 'D E^|""|L', 'S E="E^|""{o}""|L" D @E', 'D F^|"{o}"|L', 'D G^|"{o}"|L', 'D H^|"{o}"|L', 'D I^|"{o}"|L', 'D E^|"{o}"|L W $D(^{g}),$T',
    'S ^ROUTINE("L",1)="C(X,Y) S Y=X,^{g}({i})=X D E W ^{g}({i}) Q"', 'S ^ROUTINE("L",2)="D DO A^R Q"', 'S ^ROUTINE("L",2)="D DO E^|""{o}""|L Q"',
    'S ^ROUTINE("L",3)="E W ""{v}"" Q"', 'S ^ROUTINE("L",3)="E W ^{g}({i}) Q"', 'S ^|"{o}"|ROUTINE("L",3)="E W ""{v}"",$D(^{g}) Q"', 'K ^ROUTINE("L",3)',
    'S ^ROUTINE("L",4)="F L +^{g}({i}):0 W $T Q"', 'S ^ROUTINE("L",5)="G F  S B=1"', 'K ^|"{o}"|ROUTINE("L",{i})', 'S ^ROUTINE("R",1)="A W {v} Q"',
    'S ^ROUTINE("L",6)="H S ^|""{o}""|ROUTINE(""L"",3)=""E W {v} Q"" D E Q"', 'S ^ROUTINE("L",7)="I DO E,A^R,^|""{o}""|R Q"',
]
# What each account has stored before them.
LIBRARY = (r'S ^ROUTINE("L",8)="V(X) Q $G(X)_$D(^X)",'
           r'^ROUTINE("L",1)="C(X,Y) S Y=X D E Q",^ROUTINE("L",3)="E W ""{v}"" Q",^ROUTINE("L",4)="F W $D(^X),$D(^Y) Q",^ROUTINE("R",1)="A W {v},$D(^X) Q"')
# What a line has that is in language 1 alone: where it is reached, language 0 ends by ZSYNTAX.
LATER = re.compile(rb'\$RE\(|\b[DG] \w*\^\|"')
# What a line begins with that has a routine of an account run.
CALLS = re.compile(rb'(\d+) [DG] \w*\^\|"([^"]*)"\|')


class Account(NamedTuple):
    """An account: its terminals, the steps of its lines, and its language."""
    terminals: list[int]
    steps: int
    language: int


@dataclass(frozen=True)
class Setting:
    """Accounts, and grants."""
    accounts: dict[str, Account]
    grants: list[Grant]

    def document(self) -> str:
        """It as a file of settings has it."""
        tables = [f'[[account]]\nname = "{name}"\nterminals = {terminals}\nsteps = {steps}\nlanguage = {language}\n'
                  for name, (terminals, steps, language) in self.accounts.items()]
        tables += [f'[[grant]]\nfrom = "{giver}"\nto = "{taker}"\nglobal = "{name}"\nmode = "{mode}"\n' for giver, taker, name, mode in self.grants]
        return "\n".join(tables)

    def cut(self, members: set[str]) -> Setting:
        """Some accounts alone, with the grants between them."""
        accounts = {name: account for name, account in self.accounts.items() if name in members}
        return Setting(accounts, [grant for grant in self.grants if grant[0] in members and grant[1] in members])

    def with_all_grants(self) -> Setting:
        """The same accounts, with all grants that there could be."""
        return Setting(self.accounts, [(a, b, name, "write") for a in self.accounts for b in self.accounts if a != b for name in GLOBALS])

    def terminals(self, members: set[str]) -> set[int]:
        """The terminals of some accounts."""
        return {terminal for name in members for terminal in self.accounts[name].terminals}

    def by_terminal(self) -> dict[int, str]:
        """The account of each terminal."""
        return {terminal: name for name, account in self.accounts.items() for terminal in account.terminals}

    def may_call(self, caller: str, owner: str) -> bool:
        """Whether an account may have the routines of an owner run."""
        return caller == owner or any((owner, caller, "ROUTINE", mode) in self.grants for mode in ("read", "write"))


def drawn_setting(drawn: Random, with_libraries: bool = False) -> Setting:
    """Three to five accounts of two terminals each, at least one of each language, and at least one grant. With libraries most grants are of routines."""
    names = drawn.sample(NAMES, drawn.randint(3, 5))
    languages = drawn.sample([0, 1, *drawn.choices([0, 1], k=len(names) - 2)], len(names))
    accounts = {name: Account([2 * place + 1, 2 * place + 2], drawn.choice([60, 400, 2000]), languages[place]) for place, name in enumerate(names)}
    pairs = [(giver, taker) for giver in names for taker in names if giver != taker]
    granted = drawn.sample(pairs, drawn.randint(1, len(names) - 1 + 2 * with_libraries))
    given = GLOBALS + ["ROUTINE"] * 5 * with_libraries
    return Setting(accounts, [(giver, taker, drawn.choice(given), drawn.choice(["read", "read", "write"])) for giver, taker in granted])


def drawn_lines(drawn: Random, setting: Setting, with_libraries: bool = False) -> list[Line]:
    """Some lines of all terminals, in their order. With libraries half of them call some, which are stored first."""
    texts = TEXTS + LIBRARY_TEXTS * 2 * with_libraries
    first = [account.terminals[0] for account in setting.accounts.values()] if with_libraries else []
    stored = [(terminal, f"{terminal} {LIBRARY.format(v=drawn.randint(1, 99))}\n".encode()) for terminal in first]
    return stored + [line for line in (drawn_line(drawn, setting, texts) for _ in range(LINES)) if line is not None]


def drawn_line(drawn: Random, setting: Setting, texts: list[str]) -> Line | None:
    """A line of one of all terminals or of one that nobody has; or one that is not a line of the wire; or none."""
    kind = drawn.randrange(20)
    if kind == 0:
        return None
    if kind == 1:
        return None, drawn.choice([b"\n", b"x W 1\n", b"01 W 1\n", b"1" * 300 + b"\n"])
    names = sorted(setting.accounts)
    terminal = drawn.choice(sorted(setting.terminals(set(names))) + [99])
    text = drawn.choice(texts).format(g=drawn.choice(GLOBALS), o=drawn.choice([*names, "NOBODY"]), i=drawn.randint(1, 3), v=drawn.randint(1, 99))
    return terminal, f"{terminal} {text}".encode() + drawn.choice([b"\n", b"\n", b"\r\n"])


Case = tuple[Setting, list[Line]]


@st.composite
def cases(draw: st.DrawFn, with_libraries: bool) -> Case:
    """Settings and lines of all their terminals, which a failure shows."""
    drawn = draw(st.randoms(use_true_random=False))
    setting = drawn_setting(drawn, with_libraries)
    lines = drawn_lines(drawn, setting, with_libraries)
    note(setting.document() + "\n" + "".join(repr(line) + "\n" for _, line in lines))
    return setting, lines


def for_cases(times: int, with_libraries: bool = False) -> Callable[[Callable[[Case], None]], Callable[[], None]]:
    """Has a function called with this many of them."""
    return lambda check: settings(max_examples=times)(given(cases(with_libraries))(check))


class Runs:
    """Runs over new stores of a kind, in a folder."""

    def __init__(self, kind: str, folder: str) -> None:
        """Over memory or files, in a folder."""
        self.kind, self.folder, self.numbers = kind, folder, itertools.count(1)

    def answered(self, setting: Setting, *parts: list[Line], only: str | None = None) -> list[bytes]:
        """What is answered, line by line, of lines by settings; of several parts, if each is a run of its own over the store that is left."""
        place = os.path.join(self.folder, str(next(self.numbers)))
        with open(f"{place}.toml", "w", encoding="ascii") as file:
            file.write(setting.document())
        store, answer = "memory" if self.kind == "memory" else place, []
        for lines in parts:
            status, output, told = run(b"".join(line for _, line in lines), f"{place}.toml", store, only)
            assert (status, told) == (0, b"")
            answer += output.splitlines(True)
        return answer


@contextmanager
def runs_over(kind: str) -> Iterator[Runs]:
    """Runs in a folder that is gone then."""
    with tempfile.TemporaryDirectory(dir=IN_MEMORY) as folder:
        yield Runs(kind, folder)


def told(setting: Setting, account: str, answer: list[bytes]) -> list[bytes]:
    """Of an answer, what goes to an account's terminals."""
    own = setting.terminals({account})
    return [line for line in answer if (found := REPLY.match(line)) and int(found[1]) in own]


def later_lines(setting: Setting, lines: list[Line], answer: list[bytes]) -> Iterator[tuple[int, bytes]]:
    """Of lines that were answered, those with a form of language 1: the account's language, and the reply."""
    languages = {terminal: setting.accounts[name].language for terminal, name in setting.by_terminal().items()}
    for (terminal, line), reply in answered_lines(lines, answer):
        if terminal in languages and LATER.search(line):
            yield languages[terminal], reply


def answered_lines(lines: list[Line], answer: list[bytes]) -> Iterator[tuple[Line, bytes]]:
    """Each line that is not empty, with its reply."""
    answered = list(whole_replies(answer))
    sent = [line for line in lines if line[1].strip(b"\r\n")]
    assert len(answered) == len(sent)
    yield from zip(sent, answered, strict=True)


def library_lines(setting: Setting, lines: list[Line], answer: list[bytes]) -> Iterator[tuple[bool, bytes]]:
    """Of lines of language 1 that were answered, those that begin by calling a routine of an account: whether they may, and the reply."""
    accounts = setting.by_terminal()
    for (terminal, line), reply in answered_lines(lines, answer):
        found = CALLS.match(line)
        if found and terminal in accounts and setting.accounts[accounts[terminal]].language >= 1:
            yield setting.may_call(accounts[terminal], found[2].decode()), reply


def whole_replies(answer: list[bytes]) -> Iterator[bytes]:
    """The replies of an answer, each with all its lines."""
    reply = b""
    for line in answer:
        reply += line
        if line.startswith(b"?") or REPLY.match(line)[0][-1:] in b".!":
            yield reply
            reply = b""
    assert reply == b""


def sent_by(setting: Setting, members: set[str], lines: list[Line]) -> list[Line]:
    """The lines of some accounts."""
    terminals = setting.terminals(members)
    return [line for line in lines if line[0] in terminals]
