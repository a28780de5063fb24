# SPDX-License-Identifier: Apache-2.0
"""Values of expressions, and what references lead to."""
from __future__ import annotations

from collections.abc import Iterator
from contextlib import contextmanager
from dataclasses import dataclass, field

from . import decimals, reader, texts
from .decimals import Stop, rounded, value, written
from .names import name_text, whole_name
from .scopes import Locals, Subscripts, Tree

LEVELS, INDIRECTIONS = 256, 32
# A place: the account of a global or None of a local, the name, and the subscripts.
Place = tuple[str | None, str, Subscripts]


@dataclass
class Session:
    """What a terminal keeps from line to line."""

    locals: Locals = field(default_factory=Locals)
    naked: Place | None = None
    test: bool = False
    column: int = 0
    row: int = 0


@dataclass
class Account:
    """An account: its name, its language, and how many steps a line may use."""

    name: str
    steps: int
    language: int = 0


class Evaluator:
    """Evaluates for a line. The machine says what a function's call gives."""

    def __init__(self, account: Account, session: Session, store: dict[tuple[str, str], Tree], grants: set[tuple[str, str, str, str]], terminal: int) -> None:
        self.account, self.session, self.store, self.grants, self.terminal = account, session, store, grants, terminal
        self.steps, self.levels, self.indirections = account.steps, 0, 0
        self.may_call, self.wants_value = True, False

    def charge(self) -> None:
        """Uses a step."""
        if self.steps == 0:
            raise Stop("ZSTEPS")
        self.steps -= 1

    def free_level(self, is_indirection: bool = False) -> None:
        """ZDEPTH if no level is left."""
        if self.levels >= LEVELS or (is_indirection and self.indirections >= INDIRECTIONS):
            raise Stop("ZDEPTH")

    # values

    def value(self, tree: tuple) -> str:
        """The value of an expression."""
        return getattr(self, "value_of_" + tree[0].replace(" ", "_"))(*tree[1:])

    def value_of_binary(self, operator: str, left: tuple, right: tuple) -> str:
        first, second = self.value(left), self.value(right)
        negated, operator = operator.startswith("'"), operator.lstrip("'")
        if operator == "_":
            return texts.checked(first + second)
        if operator == "**":
            return written(decimals.power(value(first), value(second), self.charge))
        if operator in ("=", "[", "]", "]]"):
            return str(int(texts.compared(first, operator, second) is not negated))
        return self.of_numbers(value(first), operator, value(second), negated)

    @staticmethod
    def of_numbers(first: decimals.Number, operator: str, second: decimals.Number, negated: bool) -> str:
        """An operator on numbers."""
        truths = {"<": lambda: first < second, ">": lambda: first > second, "&": lambda: bool(first and second), "!": lambda: bool(first or second)}
        if operator in truths:
            return str(int(truths[operator]() is not negated))
        sums = {"+": lambda: decimals.rounded(first + second), "-": lambda: decimals.rounded(first - second), "*": lambda: decimals.rounded(first * second)}
        return written(sums[operator]() if operator in sums else decimals.divided(first, second, operator))

    def value_of_match(self, negated: bool, left: tuple, pattern: tuple) -> str:
        text = self.value(left)
        atoms = pattern[1] if pattern[0] == "pattern" else self.pattern_of(self.value(pattern[1]))
        return str(int(texts.matches(text, atoms, self.charge) is not negated))

    def pattern_of(self, text: str) -> tuple[texts.Atom, ...]:
        self.free_level(is_indirection=True)
        found = reader.Reader(text, self.account.language)
        return found.whole(found.atoms())

    def value_of_unary(self, signs: str, primary: tuple) -> str:
        found = self.value(primary)
        for sign in reversed(signs):
            number = value(found)
            found = str(int(not number)) if sign == "'" else written(-number if sign == "-" else number)
        return found

    def value_of_bracket(self, tree: tuple) -> str:
        self.charge()
        return self.value(tree)

    def value_of_text(self, text: str) -> str:
        self.charge()
        return text

    def value_of_number(self, text: str) -> str:
        self.charge()
        return written(value(text))

    def value_of_test(self) -> str:
        self.charge()
        return str(int(self.session.test))

    def value_of_special(self, name: str) -> str:
        self.charge()
        return str({"X": self.session.column, "Y": self.session.row, "Q": int(self.wants_value), "T": self.terminal, "S": texts.LONGEST}[name])

    def value_of_variable(self, tree: tuple) -> str:
        self.charge()
        place = self.place(tree, "read")
        found = self.text_at(place)
        if found is None:
            raise Stop("M6" if place[0] is None else "M7", whole_name(self.account.name, *place))
        return found

    def value_of_call(self, function: object, trees: list[tuple]) -> str:
        self.charge()
        return function(*[self.value(tree) for tree in trees])

    def value_of_select(self, choices: list[tuple]) -> str:
        self.charge()
        for condition, tree in choices:
            if value(self.value(condition)):
                return self.value(tree)
        raise Stop("M4")

    def value_of_data(self, tree: tuple, _: None) -> str:
        self.charge()
        place = self.place(tree, "read")
        return self.tree_of(place).data(place[2])

    def value_of_get(self, tree: tuple, default: tuple | None) -> str:
        self.charge()
        place = self.place(tree, "read")
        other = "" if default is None else self.value(default)
        found = self.text_at(place)
        return other if found is None else found

    def value_of_order(self, tree: tuple, direction: tuple | None) -> str:
        self.charge()
        place = self.finished(self.evaluated(tree), "read", is_walk=True, least=1)
        is_forward = self.is_forward(direction)
        return self.tree_of(place).order(place[2], is_forward)

    def is_forward(self, direction: tuple | None) -> bool:
        """Whether a walk goes forward. ZARG if it goes neither way."""
        way = 1 if direction is None else decimals.whole(self.value(direction))
        if way not in (1, -1):
            raise Stop("ZARG")
        return way == 1

    def value_of_query(self, tree: tuple, direction: tuple | None) -> str:
        """The name of the next node that has a text, or of the one before, and empty if there is none. The argument is what naked references go by."""
        self.charge()
        place = self.finished(self.evaluated(tree), "read", is_walk=True)
        is_forward = self.is_forward(direction)
        found = self.tree_of(place).following(place[2], is_forward)
        return "" if found is None else name_text(self.account.name, *place[:2], found)

    def value_of_name(self, tree: tuple, count: tuple | None) -> str:
        """The name of a node, with this many subscripts at most. Nothing is looked at, and nothing remembered."""
        self.charge()
        evaluated = self.evaluated(tree)
        most = None if count is None else decimals.whole(self.value(count))
        account, name, subscripts = self.resolved(evaluated)
        if most is not None and most < 0:
            raise Stop("ZARG")
        return name_text(self.account.name, account, name, subscripts[:most])

    def value_of_increment(self, tree: tuple, number: tuple | None) -> str:
        """What a node has once a number is added; one that is undefined counts as 0. The node is referred to after the number, as a target of SET is."""
        self.charge()
        evaluated = self.evaluated(tree)
        more = 1 if number is None else value(self.value(number))
        place = self.finished(evaluated, "write")
        found = written(rounded(value(self.text_at(place) or "") + more))
        self.put(place, found)
        return found

    def value_of_function(self, entry: tuple) -> str:
        self.charge()
        if not self.may_call:
            raise Stop("ZSYNTAX")
        return self.called(entry)

    def called(self, entry: tuple) -> str:
        """The value that a function gives: the machine has it."""
        raise NotImplementedError

    # places

    def place(self, tree: tuple, mode: str) -> Place:
        """Where a reference leads, once all is evaluated and checked."""
        return self.finished(self.evaluated(tree), mode)

    def evaluated(self, tree: tuple) -> tuple:
        """A reference with its environment and subscripts evaluated: its account or None of a local or `naked`, its name, its subscripts."""
        kind, *parts = tree
        if kind == "indirect":
            return self.of_indirection(*parts)
        account = {"local": None, "global": self.account.name, "naked": "naked"}.get(kind)
        if kind == "extended":
            account = "=" + self.value(parts.pop(0))
        trees = parts[-1] or []
        return account, "" if kind == "naked" else parts[0], tuple(self.value(one) for one in trees)

    def of_indirection(self, operand: tuple, more: list[tuple] | None) -> tuple:
        text = self.value(operand)
        self.free_level(is_indirection=True)
        tree = reader.reference(text, self.account.language)
        with self.within_indirection():
            with self.without_calls():
                account, name, subscripts = self.evaluated(tree)
            return account, name, subscripts + tuple(self.value(one) for one in more or [])

    @contextmanager
    def within_indirection(self) -> Iterator[None]:
        """A block that is a level of indirection."""
        self.levels += 1
        self.indirections += 1
        try:
            yield
        finally:
            self.levels -= 1
            self.indirections -= 1

    @contextmanager
    def without_calls(self) -> Iterator[None]:
        """A block in which no function may be called."""
        before, self.may_call = self.may_call, False
        try:
            yield
        finally:
            self.may_call = before

    def resolved(self, evaluated: tuple) -> Place:
        """The place of what was evaluated, a naked reference beside what was referred to last: M1."""
        account, name, subscripts = evaluated
        if account == "naked":
            if self.session.naked is None or not self.session.naked[2]:
                raise Stop("M1")
            account, name, front = self.session.naked
            subscripts = front[:-1] + subscripts
        return account.removeprefix("=") if account is not None else None, name, subscripts

    def finished(self, evaluated: tuple, mode: str, is_walk: bool = False, least: int = 0) -> Place:
        """The place of what was evaluated, after its checks: M1, ZGRANT, ZSUB, ZARG. A global is then what naked references go by."""
        account, name, subscripts = self.resolved(evaluated)
        if account not in (None, self.account.name) and not self.is_granted(account, name, mode):
            raise Stop("ZGRANT")
        self.check(subscripts[:-1] if is_walk else subscripts, subscripts)
        if len(subscripts) < least:
            raise Stop("ZARG")
        if account is not None:
            self.session.naked = (account, name, subscripts)
        return account, name, subscripts

    @staticmethod
    def check(filled: Subscripts, subscripts: Subscripts) -> None:
        """ZSUB if there are too many subscripts, if one is too long, or one is empty of those that may not be."""
        if len(subscripts) > 15 or any(not one for one in filled) or any(len(one) > 255 for one in subscripts):
            raise Stop("ZSUB")

    def is_granted(self, account: str, name: str, mode: str) -> bool:
        """Whether a global of another account may be used so."""
        modes = ("write",) if mode == "write" else ("read", "write")
        return any((account, self.account.name, name, one) in self.grants for one in modes)

    def tree_of(self, place: Place) -> Tree:
        """The variable of a place."""
        if place[0] is None:
            return self.session.locals.table.get(place[1]) or Tree()
        return self.store.get((place[0], place[1])) or Tree()

    def text_at(self, place: Place) -> str | None:
        return self.tree_of(place).texts.get(place[2])

    def put(self, place: Place, text: str) -> None:
        """Assigns to a place."""
        tree = self.session.locals.tree(place[1]) if place[0] is None else self.store.setdefault((place[0], place[1]), Tree())
        tree.put(place[2], text)
