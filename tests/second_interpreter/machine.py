# SPDX-License-Identifier: Apache-2.0
"""Commands, lines and levels."""
from __future__ import annotations

from . import faults, reader, texts
from .decimals import Stop, rounded, value, whole, written
from .expressions import Account, Session
from .locking import Locks
from .places import Level, Places
from .scopes import Tree

BREAK = "\xff"
FURTHEST_COLUMN = 4095


class Halted(Exception):
    """The session ends."""


# How commands end: they go on, skip the rest of the line, quit, go to a line, or quit with a value.
GOES_ON, SKIPS, QUITS = ("goes on",), ("skips",), ("quits",)


class Machine(Places):
    """Runs a line of a terminal."""

    def __init__(self, account: Account, session: Session, store: dict, grants: set, locks: Locks, terminal: int) -> None:
        super().__init__(account, session, store, grants, terminal)
        self.locks = locks
        self.out: list[str] = []
        self.level = Level(text=faults.SENT)
        self.stack = [self.level]

    def run(self, text: str) -> None:
        """Runs a terminal's line as a level of its own. Stop if it ends by a code, Halted if the session ends."""
        try:
            commands = reader.line(text, self.account.language)
        except Stop as stop:
            stop.places = [f"@{reader.fault_at(text, self.account.language)}"]
            raise
        self.session.locals.enter()
        try:
            self.finish(self.in_level(self.commands(commands)))
        except Stop as stop:
            self.tell_places(stop)
            raise
        finally:
            self.session.locals.leave()

    # levels

    def in_level(self, completion: tuple) -> tuple:
        """Goes on with lines while the level is led to some; how it ends."""
        while completion[0] == "goes to":
            self.level.lines, self.level.routine, self.level.at = completion[1:]
            self.level.text = ""
            completion = self.lines(self.level.at, is_entered=False)
        return completion

    def finish(self, completion: tuple) -> tuple:
        """How a level ends. M16 if it is left with a value that nobody wants, M17 if one is missing."""
        if (completion[0] == "returns") is not self.level.wants_value:
            raise Stop("M17" if self.level.wants_value else "M16")
        return completion

    def tell_places(self, stop: Stop) -> None:
        """Has a fault say where it was, if no level within has done so."""
        stop.places = stop.places or faults.places_of(self.stack, self.account.language)

    def lines(self, start: int, is_entered: bool) -> tuple:
        """Runs the level's lines from one on. A line with a formal list is entered by DO and functions alone."""
        for place in range(start, len(self.level.lines)):
            text, language = self.level.lines[place], self.account.language
            self.level.line, self.level.command = place, 0
            dots = reader.dots_of(text, language)
            if dots < self.level.dots:
                return QUITS
            self.charge()
            if dots > self.level.dots:
                continue
            if reader.formals_of(text, language)[0] is not None and not (is_entered and place == start):
                raise Stop("M11")
            self.level.at = place
            completion = self.commands(reader.routine_line(text, language))
            if completion[0] not in ("goes on", "skips"):
                return completion
        return QUITS

    def opened(self, level: Level, bound: list[tuple[str, Tree]], start: int | None, commands: tuple = (), is_entered: bool = False) -> tuple:
        """Runs commands, or lines from one on, in a new level; how it ends. The first line of a block has no formal list."""
        outer, wanted = self.level, self.wants_value
        self.level, self.wants_value = level, level.wants_value
        self.stack.append(level)
        self.levels += 1
        self.session.locals.enter()
        try:
            self.session.locals.bind(bound)
            return self.finish(self.in_level(self.commands(commands) if start is None else self.lines(start, is_entered)))
        except Stop as stop:
            self.tell_places(stop)
            raise
        finally:
            self.stack.pop()
            self.session.locals.leave()
            self.levels -= 1
            self.level, self.wants_value = outer, wanted

    def entered(self, entry: tuple, wants_value: bool) -> tuple:
        """DO of an entry, or a function: its parts, actuals, ZDEPTH, the line, and the formals; how the level ends."""
        *parts, given = entry
        meant = self.entry(*parts)
        actuals = None if given is None else [self.handed(actual) for actual in given]
        self.free_level()
        lines, name, at = self.seek(meant, 0)
        formals = reader.formals_of(lines[at], self.account.language)[0]
        if actuals is not None and formals is None:
            raise Stop("M20")
        if formals is not None and len(actuals or []) > len(formals):
            raise Stop("M58")
        handed = [*(actuals or []), *[None] * len(formals or [])]
        bound = [(name, tree or Tree()) for name, tree in zip(formals or [], handed)]
        return self.opened(Level(lines, name, at, 0, wants_value), bound, at, is_entered=True)

    def handed(self, actual: tuple) -> Tree | None:
        """What an actual hands over: a new variable with a value, one of the caller, or nothing."""
        kind = actual[0]
        if kind == "missing":
            return None
        if kind == "value":
            tree = Tree()
            tree.put((), self.value(actual[1]))
            return tree
        name = actual[1]
        if kind == "named by":
            name = self.value(actual[1])
            self.free_level(is_indirection=True)
            tree = reader.reference(name, self.account.language)
            if tree[0] != "local" or tree[2] is not None:
                raise Stop("ZSYNTAX")
        return self.session.locals.tree(name)

    def called(self, entry: tuple) -> str:
        """The value that a function gives. $TEST is again what it was."""
        test = self.session.test
        found = self.entered(entry, wants_value=True)[1]
        self.session.test = test
        return found

    # commands

    def commands(self, commands: tuple, first: int = 0) -> tuple:
        """Runs commands one after another, but for the first ones; how they end."""
        for place, (name, condition, arguments) in enumerate(commands[first:], first + 1):
            self.level.command = place
            self.charge()
            if condition is not None and not value(self.value(condition)):
                continue
            if name == "FOR":
                return self.loop(arguments, (commands, place))
            completion = self.command(name, arguments)
            if completion != GOES_ON:
                return completion
        return GOES_ON

    def command(self, name: str, arguments: list[tuple] | None) -> tuple:
        if arguments is None:
            return getattr(self, f"{name.lower()}_alone")() or GOES_ON
        return self.each(name, arguments)

    def each(self, name: str, arguments: list[tuple]) -> tuple:
        """Does the arguments in turn, as if each stood in a command of its own."""
        for argument in arguments:
            if argument[0] == "indirect arguments":
                text = self.value(argument[1])
                self.free_level(is_indirection=True)
                found = reader.arguments(text, name, self.account.language)
                with self.within_indirection():
                    completion = self.each(name, found)
            else:
                completion = getattr(self, f"do_{name.lower()}")(*argument) or GOES_ON
            if completion != GOES_ON:
                return completion
        return GOES_ON

    # SET, KILL, NEW

    def do_set(self, _: str, targets: list[tuple], tree: tuple) -> None:
        ready = [(target[0], self.evaluated(target[1]), [self.value(one) for one in target[2]] if len(target) > 2 else []) for target in targets]
        text = self.value(tree)
        for kind, evaluated, parts in ready:
            if kind == "variable":
                self.put(self.finished(evaluated, "write"), text)
            elif kind == "piece" and len(parts) < 3:
                place = self.finished(evaluated, "write")
                number = whole(parts[1]) if len(parts) > 1 else 1
                self.put(place, texts.set_piece(self.text_at(place) or "", parts[0], number, text))
            else:
                self.set_places(kind, evaluated, parts, text)

    def set_places(self, kind: str, evaluated: tuple, parts: list[str], new: str) -> None:
        """Gives several places a text. A variable whose places are none is not referred to."""
        numbers = [whole(part) for part in parts[kind == "piece":]]
        first, last = (numbers * 2)[:2] if numbers else (1, 1)
        if last < max(first, 1):
            return
        place = self.finished(evaluated, "write")
        old = self.text_at(place) or ""
        self.put(place, texts.set_pieces(old, parts[0], max(first, 1), last, new) if kind == "piece" else texts.set_extract(old, max(first, 1), last, new))

    def do_merge(self, _: str, target: tuple, source: tuple) -> None:
        """Copies the texts at and below a node, one after another in their order, a step each. M19 if one node is above the other: then the target is
        not referred to."""
        evaluated, other = self.evaluated(target), self.evaluated(source)
        origin = self.finished(other, "read")
        last, place = self.session.naked, self.finished(evaluated, "write")
        front, depth = place[2], len(origin[2])
        if self.is_same_variable(origin, place):
            shared = min(depth, len(front))
            if origin[2] == front:
                return
            if origin[2][:shared] == front[:shared]:
                self.session.naked = last
                raise Stop("M19")
        tree = self.tree_of(origin)
        node = origin[2] if origin[2] in tree.texts else tree.following(origin[2], forward=True)
        while node is not None and node[:depth] == origin[2]:
            self.charge()
            subscripts = front + node[depth:]
            self.check(subscripts, subscripts)
            self.put((*place[:2], subscripts), tree.texts[node])
            node = tree.following(node, forward=True)

    def is_same_variable(self, one: tuple, other: tuple) -> bool:
        """Whether two places are of one variable, by whatever names."""
        table = self.session.locals.table
        return one[:2] == other[:2] or (one[0] is None and other[0] is None and table.get(one[1]) is not None and table.get(one[1]) is table.get(other[1]))

    def do_kill(self, kind: str, what: object) -> None:
        if kind == "names":
            self.session.locals.kill_except(what)
        else:
            place = self.place(what, "write")
            self.tree_of(place).kill(place[2])

    def kill_alone(self) -> None:
        self.session.locals.kill_except([])

    def do_new(self, kind: str, what: object) -> None:
        if kind == "names":
            self.session.locals.new_except(what)
        else:
            self.session.locals.new([what])

    def new_alone(self) -> None:
        self.session.locals.new_except([])

    # IF, ELSE, FOR, QUIT, HALT, HANG

    def do_if(self, _: str, tree: tuple) -> tuple:
        self.session.test = bool(value(self.value(tree)))
        return GOES_ON if self.session.test else SKIPS

    def if_alone(self) -> tuple:
        return GOES_ON if self.session.test else SKIPS

    def else_alone(self) -> tuple:
        return SKIPS if self.session.test else GOES_ON

    def quit_alone(self) -> tuple:
        return QUITS

    def do_quit(self, _: str, tree: tuple) -> tuple:
        return "returns", self.value(tree)

    def halt_alone(self) -> None:
        raise Halted

    def do_hang(self, _: str, tree: tuple) -> None:
        """Nothing waits, but the seconds are a number."""
        value(self.value(tree))

    def loop(self, arguments: list[tuple] | None, body: tuple) -> tuple:
        """FOR, with the rest of the line: its commands, and how many of them come before."""
        if arguments is None:
            while (completion := self.turn(body)) is None:
                pass
            return completion
        _, name, parameters = arguments[0]
        for parameter in parameters:
            completion = self.single(name, parameter[0], body) if len(parameter) == 1 else self.range(name, parameter, body)
            if completion is not None:
                return completion
        return GOES_ON

    def turn(self, body: tuple) -> tuple | None:
        """A turn: how the FOR ends, or None if it goes on."""
        self.charge()
        completion = self.commands(*body)
        if completion[0] == "returns":
            raise Stop("M16")
        self.level.command = body[1]
        return GOES_ON if completion == QUITS else completion if completion[0] == "goes to" else None

    def single(self, name: str, tree: tuple, body: tuple) -> tuple | None:
        self.put((None, name, ()), self.value(tree))
        return self.turn(body)

    def range(self, name: str, parameter: tuple, body: tuple) -> tuple | None:
        numbers = [value(self.value(tree)) for tree in parameter]
        begin, step, limit = [*numbers, None][:3]
        index = (None, name, ())

        def is_past(number: object) -> bool:
            return limit is not None and (number > limit if step >= 0 else number < limit)
        self.put(index, written(begin))
        if is_past(begin):
            return None
        while True:
            completion = self.turn(body)
            if completion is not None:
                return completion
            text = self.text_at(index)
            if text is None:
                raise Stop("M15")
            exact = value(text) + step
            if is_past(exact):
                return None
            self.put(index, written(rounded(exact)))

    # DO, GOTO, XECUTE

    def do_do(self, _: str, entry: tuple, condition: tuple | None) -> None:
        if condition is None or value(self.value(condition)):
            self.entered(entry, wants_value=False)

    def do_alone(self) -> None:
        """The lines after this one that have one dot more."""
        self.free_level()
        test, here = self.session.test, self.level
        start = len(here.lines) if here.at is None else here.at + 1
        self.opened(Level(here.lines, here.routine, here.at, here.dots + 1), [], start)
        self.session.test = test

    def do_goto(self, _: str, entry: tuple, condition: tuple | None) -> tuple:
        if condition is not None and not value(self.value(condition)):
            return GOES_ON
        return "goes to", *self.seek(self.entry(*entry), self.level.dots)

    def do_xecute(self, _: str, tree: tuple, condition: tuple | None) -> None:
        if condition is not None and not value(self.value(condition)):
            return
        text = self.value(tree)
        self.free_level()
        self.opened(Level(self.level.lines, self.level.routine, text=faults.RUN), [], None, reader.line(text, self.account.language))

    # WRITE, LOCK

    def do_write(self, kind: str, *what: object) -> None:
        if kind == "value":
            self.write(self.value(what[0]))
        elif kind == "character":
            code = self.value(what[0])
            if whole(code) < 0:
                raise Stop("ZCHAR")
            self.write(texts.characters(code))
        else:
            forms, column = what
            for form in forms:
                self.session.row, self.session.column = (self.session.row + 1 if form == "!" else 0), 0
                self.out.append(BREAK if form == "!" else "\f")
            if column is not None:
                self.move_to(whole(self.value(column)))

    def move_to(self, column: int) -> None:
        """Spaces up to a column. ZARG past the furthest."""
        if column > FURTHEST_COLUMN:
            raise Stop("ZARG")
        self.write(" " * max(column - self.session.column, 0))

    def write(self, text: str) -> None:
        self.out.append(text)
        self.session.column += len(text)

    def do_lock(self, _: str, sign: str, names: list[tuple], timeout: tuple | None) -> None:
        found = [self.lock_name(name) for name in names]
        if timeout is not None:
            self.value(timeout)
        if sign == "-":
            for name in found:
                self.locks.give_back(self.terminal, name)
            taken = True
        else:
            if not sign:
                self.locks.release(self.terminal)
            taken = self.locks.take(self.terminal, found)
        if timeout is not None:
            self.session.test = taken
        elif not taken:
            raise Stop("ZLOCKED")

    def lock_name(self, tree: tuple) -> tuple:
        """The name of a lock, after its checks; naked references go by what they did before it."""
        evaluated = self.evaluated(tree)
        if evaluated[0] == "naked":
            raise Stop("ZSYNTAX")
        naked = self.session.naked
        account, name, subscripts = self.finished(evaluated, "write")
        self.session.naked = naked
        return account is not None, account or self.account.name, name, subscripts

    def lock_alone(self) -> None:
        self.locks.release(self.terminal)
