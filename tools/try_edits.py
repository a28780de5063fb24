#!/usr/bin/env python3
# SPDX-License-Identifier: Apache-2.0
"""Tries the edits of crates/NAME/edits/, the wrong bodies that the gate does not try. `./test edits` calls it.

    tools/try_edits.py [NAME ..]          tries those of these crates, or of all
    tools/try_edits.py --write [NAME ..]  notes in docs/TESTING.md too, of each crate whose edits all passed, when and on which commit
    tools/try_edits.py --gate [NAME ..]   tries those of must-fail/ in their place: the gate does too, but does not look at the clause
    tools/try_edits.py --turn             tries those whose turn it is by the number of commits: of one or two crates, at most 12 processor minutes
    tools/try_edits.py --turns            prints the turns

In a copy of the crates these edits lie in must-fail/, and the kit tries them as it tries those of the gate. An edit fails that was let through, could
not be applied, compiled or tried, or was refused by another function or clause than its row in docs/TESTING.md names. What was tried on the same
sources on this machine is not tried again. The last line is 'N passed, M failed'."""
import os
import re
import subprocess
import sys
import tempfile
from collections.abc import Iterator
from dataclasses import dataclass
from datetime import date

import chain
import gate_libraries
from edits import BLOCK, FUNCTION, PAGE, WORD, Row, bare, rows_of
from processes import Watch
from sources import TOP, copy_crates, crates_with_below, edits_of

MOST_SECONDS = 12 * 60
MOST_CRATES = 2
BEGIN, END = "<!-- try_edits.py -->\n", "<!-- end -->"
HEAD = "| Crate | Edits | Processor seconds | of them without an edit | Tried | Commit |\n|---|---|---|---|---|---|\n"
NOTE = re.compile(r"^\| `(\w+)` \| (\d+) \| (\d*) \| (\d*) \| ([\d-]*) \| (\w*) \|$", re.M)

TOLD = re.compile(r"^(?:rt: )?must-fail (\w+)/([\w.-]+)\.edit: (.*)$", re.M)
TRIED_EARLIER = re.compile(r"^rt: (\w+): (\d+) of its \d+ must-fail edits were tried by an earlier run", re.M)
REFUSED = "refused, as it must be: "
ANSWER = re.compile(r"(?:\./)?proofs/(\S+)/\w+\.antt:\d+:\d+: error: `([^`]+)`")
IN_CODE = re.compile(r"(?:note: )?(?:\./)?(src/\S+\.rt):(\d+):\d+: .*\(`([^`)]+)")
PART = re.compile(r"`([\w:]+)`(?:: ((?:`\w+`(?:, )?)+))?(?:, by the (\w+) of .*)?$")


@dataclass(frozen=True)
class Refuser:
    """What a row says refuses an edit: a function, with the names of its clauses, or with `invariant`, `condition` or `clause` of something else."""

    function: str
    clauses: tuple[str, ...] = ()
    other: str = ""


@dataclass(frozen=True)
class Refusal:
    """Where the prover refused an edit: the type and the name of a function, and the answer that failed."""

    owner: str
    function: str
    goal: str


@dataclass(frozen=True)
class Note:
    """What the page says of a crate's edits: how many, the seconds that they took together, those of them that the crate takes without an
    edit, when they were tried last, and on which commit."""

    edits: int
    seconds: int | None
    base: int | None
    day: str
    commit: str


# ---- what refused an edit, and what should

def refusers_of(rows: list[Row], crate: str, stem: str) -> list[Refuser]:
    """What the rows of an edit name. If a row has several edits, its parts are theirs in turn."""
    found = []
    for row in (row for row in rows if row.crate == crate and stem in WORD.findall(row.edits)):
        parts, named = [part.strip() for part in row.refusers.split(";")], WORD.findall(row.edits)
        for part in [parts[named.index(stem)]] if len(parts) == len(named) else parts:
            if said := PART.match(part):
                found.append(Refuser(said[1], tuple(re.findall(r"\w+", said[2] or "")), said[3] or ""))
    return found


def function_at(path: str, line: int) -> tuple[str, str]:
    """The type and the name of the function in which a line of a source stands, or whose attributes begin there. An edit moves no line."""
    owner = function = ""
    with open(path, encoding="utf-8") as file:
        lines = file.read().split("\n")
    while line < len(lines) and lines[line - 1].strip().startswith("#["):
        line += 1
    for text in lines[:line]:
        if block := BLOCK.match(text):
            owner = bare(block[2]).rpartition(" for ")[2]
        elif text.startswith("}"):
            owner = ""
        elif found := FUNCTION.match(text):
            function = found[3]
    return owner, function


def place_of(crate: str, told: str) -> Refusal | None:
    """Where the prover refused, by the first line of what it said; None if that says no place."""
    if found := ANSWER.search(told):
        *above, name = found[1].split("/")
        goal = found[2]
        if name.startswith("+"):
            # the answers of a cycle of calls begin with the function's name
            name, _, goal = goal.partition("-")
        return Refusal(above[-1] if above else "", name, goal)
    if found := IN_CODE.search(told):
        return Refusal(*function_at(os.path.join(TOP, "crates", crate, found[1]), int(found[2])), found[3])
    return None


def is_by(refuser: Refuser, place: Refusal) -> bool:
    """Whether a row's refuser is the one that refused. A loop's invariant carries the clauses of its function."""
    owner, _, name = refuser.function.rpartition("::")
    if place.function != name or not place.owner.startswith(owner):
        return False
    is_condition = "-requires" in place.goal
    if refuser.other:
        return {"invariant": "invariant" in place.goal, "condition": is_condition}.get(refuser.other, True)
    if is_condition:
        return False
    clause = re.search(r"clause-(\w+?)(?:-\d+)?$", place.goal)
    if clause and refuser.clauses:
        return clause[1] in refuser.clauses
    return "returns" in place.goal or place.goal.startswith("loop") or "-loop-" in place.goal


def fault_of(rows: list[Row], crate: str, stem: str, told: str | None) -> str | None:
    """Why an edit fails, by what the kit said of it; None if it was refused as its row says."""
    if told is None:
        return "NOT TRIED: its crate, or one below, is not proved"
    if not told.startswith(REFUSED):
        return told
    place = place_of(crate, told.removeprefix(REFUSED))
    named = refusers_of(rows, crate, stem)
    if place is None:
        return f"refused at no answer of a function: {told.removeprefix(REFUSED)}"
    if any(is_by(refuser, place) for refuser in named):
        return None
    where = f"{place.owner}::{place.function}" if place.owner else place.function
    return f"refused at `{place.goal}` of `{where}`, and {PAGE} names {', '.join(refuser.function for refuser in named) or 'nothing'}"


# ---- turns

def notes_of(page: str) -> dict[str, Note]:
    """What the page says of each crate's edits."""
    rows = page.partition(BEGIN)[2].partition(END)[0]

    def number(text: str) -> int | None:
        return int(text) if text else None
    return {it[1]: Note(int(it[2]), number(it[3]), number(it[4]), it[5], it[6]) for it in NOTE.finditer(rows)}


def cost(note: Note | None, edits: int) -> float:
    """The processor seconds that this many of a crate's edits take; the most of a turn if they were not measured."""
    if note is None or note.seconds is None or not note.edits:
        return MOST_SECONDS
    base = note.base or 0
    return base + (note.seconds - base) * edits / note.edits


def pieces_of(paths: list[str], note: Note | None) -> list[list[str]]:
    """A crate's edits in as few pieces as keep the bound of a turn."""
    for count in range(1, len(paths)):
        size = -(-len(paths) // count)
        if note is None or note.seconds is None or cost(note, size) <= MOST_SECONDS:
            return [paths[at:at + size] for at in range(0, len(paths), size)]
    return [[path] for path in paths]


def turns_of(edits: dict[str, list[str]], notes: dict[str, Note]) -> list[dict[str, list[str]]]:
    """The turns: each has edits of one or two crates, which take at most the bound together, if a single edit does not take more."""
    turns: list[dict[str, list[str]]] = []
    left = 0.0
    for crate, paths in edits.items():
        for piece in pieces_of(paths, notes.get(crate)):
            seconds = cost(notes.get(crate), len(piece))
            if turns and crate not in turns[-1] and len(turns[-1]) < MOST_CRATES and seconds <= left:
                turns[-1][crate] = piece
                left -= seconds
            else:
                turns.append({crate: piece})
                left = MOST_SECONDS - seconds
    return turns


def git(*words: str) -> str:
    """What git prints of this tree, or nothing if it has no history."""
    try:
        ran = subprocess.run(["git", *words], cwd=TOP, capture_output=True, text=True)
    except OSError:
        return ""
    return ran.stdout.strip() if not ran.returncode else ""


def commits() -> int:
    """The number of commits; 0 in a clone without its history."""
    whole = git("rev-parse", "--is-shallow-repository") == "false"
    return int(git("rev-list", "--count", "HEAD") or 0) if whole else 0


# ---- trying and writing

def say(text: str) -> None:
    # while the kit's functions run, what is printed goes to the logs
    print(f"edits: {text}", file=sys.__stdout__, flush=True)


def tried(edits: dict[str, list[str]]) -> tuple[dict[tuple[str, str], str], Watch, set[str]]:
    """What the kit says of each of these edits, the times that it took, and the crates of which an earlier run had tried some."""
    watch = Watch(os.getpid())
    watch.start()
    closing = gate_libraries.tried(edits) if not chain.is_kept() and gate_libraries.are_there() else None
    if closing is None:
        crates = crates_with_below([*edits])
        with tempfile.TemporaryDirectory(prefix="mserve-edits-") as room:
            copy_crates(crates, room, edits)
            _, closing = chain.prove(room, len(crates), say, runs=False, otherwise=["must-fail", *edits])
    watch.end()
    return {(crate, stem): told for crate, stem, told in TOLD.findall(closing)}, watch, {crate for crate, _ in TRIED_EARLIER.findall(closing)}


def stems(edits: dict[str, list[str]]) -> Iterator[tuple[str, str]]:
    return ((crate, os.path.basename(path).removesuffix(".edit")) for crate, paths in edits.items() for path in paths)


def written(page: str, notes: dict[str, Note]) -> str:
    """The page with these notes in its table."""
    def blank(number: int | None) -> str:
        return "" if number is None else str(number)
    rows = "".join(f"| `{crate}` | {note.edits} | {blank(note.seconds)} | {blank(note.base)} | {note.day} | {note.commit} |\n" for crate, note in notes.items())
    before, _, rest = page.partition(BEGIN)
    return f"{before}{BEGIN}{HEAD}{rows}{END}{rest.partition(END)[2]}"


def write(edits: dict[str, list[str]], failed: set[str], watch: Watch, earlier: set[str]) -> None:
    """Notes in the page the crates whose edits all passed; seconds only where all were tried now."""
    path = os.path.join(TOP, PAGE)
    with open(path, encoding="utf-8") as file:
        page = file.read()
    notes, (spent, _) = notes_of(page), watch.spent()
    day, commit = date.today().isoformat(), git("rev-parse", "--short=8", "HEAD")
    for crate in [crate for crate in edits if crate not in failed]:
        old, now = notes.get(crate), spent[crate]
        seconds, base = (round(now["seed"] + now["edits"]), round(now["seed"])) if crate not in earlier else (old.seconds, old.base) if old else (None, None)
        notes[crate] = Note(len(edits[crate]), seconds, base, day, commit)
    everything = {crate: notes[crate] for crate in crates_with_below() if crate in notes and edits_of(crate, "edits")}
    with open(path, "w", encoding="utf-8") as file:
        file.write(written(page, everything))


def chosen(words: list[str], page: str) -> dict[str, list[str]]:
    """The edits to try, by crate. Raises KeyError with a word that is no crate."""
    every = {crate: paths for crate in crates_with_below() if (paths := edits_of(crate, "edits"))}
    if "--turn" in words or "--turns" in words:
        turns = turns_of(every, notes_of(page))
        at = commits() % max(len(turns), 1)
        if "--turns" in words:
            for number, turn in enumerate(turns):
                say(f"turn {number + 1}: {', '.join(f'{len(paths)} of {crate}' for crate, paths in turn.items())}{' (this one)' if number == at else ''}")
            return {}
        turn = turns[at] if turns else {}
        say(f"turn {at + 1} of {len(turns)}: {', '.join(f'{len(paths)} of the {len(every[crate])} of {crate}' for crate, paths in turn.items())}")
        return turn
    names = [word for word in words if word not in ("--write", "--gate")]
    crates_with_below(names)
    if "--gate" in words:
        every = {crate: paths for crate in crates_with_below() if (paths := edits_of(crate, "must-fail"))}
    return {crate: paths for crate, paths in every.items() if not names or crate in names}


def main(words: list[str]) -> int:
    """Tries the edits that the words name, and returns the status."""
    with open(os.path.join(TOP, PAGE), encoding="utf-8") as file:
        page = file.read()
    try:
        edits = chosen(words, page)
    except KeyError as lacking:
        print(f"edits: {lacking.args[0]} is no crate of crates.txt\n\n{__doc__}", file=sys.stderr)
        return 2
    if {"--write", "--gate"} <= {*words}:
        print("edits: --write is for the edits that the gate does not try", file=sys.stderr)
        return 2
    if "--write" in words and git("status", "--porcelain", "crates"):
        print("edits: crates/ has changes that no commit has: commit them first, since the page names the commit", file=sys.stderr)
        return 2
    if "--turns" in words:
        return 0
    if "--turn" in words and not (chain.is_kept() or gate_libraries.are_there()):
        say("FAILED: this kit keeps nothing, and the gate has not passed over these sources in this tree")
        print("0 passed, 1 failed")
        return 1
    told, watch, earlier = tried(edits) if edits else ({}, Watch(os.getpid()), set())
    rows, failed, passed = rows_of(page)[0], set(), 0
    for crate, stem in stems(edits):
        fault = fault_of(rows, crate, stem, told.get((crate, stem)))
        passed += fault is None
        if fault:
            failed.add(crate)
            say(f"FAILED: {crate}/{stem}.edit: {fault}")
    if "--write" in words:
        write(edits, failed, watch, earlier)
    total = sum(map(len, edits.values()))
    print(f"{passed} passed, {total - passed} failed")
    return 1 if passed < total else 0


if __name__ == "__main__":
    if {"-h", "--help"} & {*sys.argv[1:]}:
        print(__doc__)
        sys.exit(0)
    chain.end_in_order()
    sys.exit(main(sys.argv[1:]))
