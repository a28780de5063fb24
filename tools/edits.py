#!/usr/bin/env python3
# SPDX-License-Identifier: Apache-2.0
"""Checks the tables of must-fail edits in docs/TESTING.md against the edits and the sources.

    tools/edits.py           prints each fault with its file, or one line with the counts
    tools/edits.py --counts  prints how many edits each crate has, in must-fail/ and in edits/

Each row names an edit that exists, each edit has a row and can be applied, each call of a row is a function of its crate,
each clause is one of a function beside it, and each exported function of a crate that has edits has a row.
The gate tries those of must-fail/, so these are few, in few crates."""
import re
import sys
from dataclasses import dataclass, field
from pathlib import Path

from sources import PARTS, edits_of

TOP = Path(__file__).resolve().parent.parent
PAGE = "docs/TESTING.md"
# The folders of a crate with edits: those that each gate tries, and those that `./test edits` tries.
OF_THE_GATE, OF_TURNS = "must-fail", "edits"
# The most that each gate tries, and in how many crates: a crate with several is proved again for them.
MOST_EDITS, MOST_CRATES = 45, 14

# Exported functions without a row, each with the reason.
EXCEPTIONS = {
    "mkey::keys_are_read": "a law: its contract says all, its body is empty, and no edit can turn it",
    "mprogram::calls_have_programs": "the same",
    "mprogram::conditions_have_programs": "the same",
    "mprogram::conditions_have_steps": "the same",
    "mprogram::parameters_have_programs": "the same",
    "mprogram::programs_have_steps": "the same",
    "mstore::new_files_are_empty": "the same",
    "mstore::tables_are_found": "the same",
    "mwire::events_have_stream": "the same",
    "mwire::lines_have_answers": "the same",
    "mwire::normal_answers_are_served": "the same",
    "mwire::normal_streams_are_served": "the same",
    "mhost::serve_connections": "hands on to mwire's serve_each, over a port of the system, of which no contract tells who comes",
    "mglobal::RoutineCache::get": "hands on to the store, with the store's contract",
    "mglobal::RoutineCache::next": "the same",
    "mglobal::RoutineCache::prev": "the same",
    "mcache::Cached::next": "the same",
    "mcache::Cached::prev": "the same",
    "mcache::Cached::kept_routine": "the same",
    "mcache::Cached::keep_routine": "the same",
    "mnodes::Failing::get": "the same, but for the call that fails",
    "mnodes::Failing::kill": "the same",
    "mnodes::Failing::next": "the same",
    "mnodes::Failing::prev": "the same",
    "mnodes::Failing::kept_routine": "the same",
    "mnodes::Failing::keep_routine": "the same",
    "meval::Pending::into_own": "copies names: a wrong body would have to make another name, and there is none at hand",
}

WORD = re.compile(r"`([A-Za-z_][A-Za-z_0-9]*(?:::[A-Za-z_][A-Za-z_0-9]*)*)`")
FUNCTION = re.compile(r"( *)(pub(?:\(crate\))? )?(?:const )?fn ([a-z_0-9]+)")
BLOCK = re.compile(r"(?:pub(?:\(crate\))? )?(impl|trait)\b(.*)")
CLAUSE = re.compile(r" *(?:ensures|requires) ([a-z_0-9]+) \{")
HEADING = re.compile(r"### `([a-z_0-9]+)`")


@dataclass
class Source:
    """A crate's functions by the names that a row may give them, with their clauses, and what it exports."""

    functions: dict[str, set[str]] = field(default_factory=dict)
    exported: set[str] = field(default_factory=set)
    traits: set[str] = field(default_factory=set)


@dataclass
class Row:
    """A row of a crate's table: the cells as they stand."""

    crate: str
    calls: str
    edits: str
    refusers: str


def bare(header: str) -> str:
    """The header of a block without its type parameters, as `NodeStore for Plain`."""
    shorter = re.sub(r"<[^<>]*>", "", header)
    return bare(shorter) if shorter != header else header.split(" where")[0].strip(" {")


def exports(root: str) -> tuple[set[str], set[str]]:
    """The modules that a library's root hands out whole, and the names that it hands out one by one."""
    own = re.findall(r"^(?:pub )?mod ([a-z_0-9]+);", root, re.M)
    listed = re.findall(r"^pub use ([a-z_0-9]+)(?:::[a-z_0-9]+)*::(\{[^}]*\}|\w+);", root, re.M)
    return set(re.findall(r"^pub mod ([a-z_0-9]+);", root, re.M)), {name for module, names in listed if module in own for name in re.findall(r"\w+", names)}


def clauses_behind(lines: list[str], at: int) -> set[str]:
    """The names of the clauses of the function that begins in this line: its body's brace, or a semicolon, ends them."""
    end = next((i for i in range(at, len(lines))
                if lines[i].strip() in ("{", "{}") or lines[i].endswith(";") or lines[i].endswith(" {") and " { " not in lines[i]), len(lines))
    return {found[1] for line in lines[at:end + 1] if (found := CLAUSE.match(line))}


def read_source(crate: str, traits: set[str]) -> Source:
    """What a crate's sources declare. `traits` are those of the repository whose methods are public calls of a type."""
    source, folder = Source(), TOP / "crates" / crate / "src"
    root = folder / "lib.rt"
    whole, named = exports(root.read_text(encoding="utf-8") if root.exists() else "")
    for path in sorted(folder.rglob("*.rt")):
        lines, kind, owner = path.read_text(encoding="utf-8").split("\n"), "", ""
        for at, line in enumerate(lines):
            if block := BLOCK.match(line):
                kind, owner = block[1], bare(block[2])
                if kind == "trait":
                    owner = re.split(r"[:\s]", owner)[0]
                    source.traits |= {owner} if owner in named or path.stem in whole else set()
            elif line == "}":
                kind, owner = "", ""
            elif (found := FUNCTION.match(line)) and len(found[1]) == (4 if kind else 0):
                trait, _, of = owner.rpartition(" for ")
                full = f"{of}::{found[3]}" if kind else found[3]
                for name in (full, found[3]):
                    source.functions.setdefault(name, set()).update(clauses_behind(lines, at))
                is_call = kind != "trait" and (trait in traits if trait else found[2] == "pub ")
                if is_call and (path.stem in whole or (of if kind else found[3]) in named):
                    source.exported.add(full)
    return source


def rows_of(page: str) -> tuple[list[Row], list[str]]:
    """The rows of the crates' tables, and the faults of lines that are none."""
    rows: list[Row] = []
    faults, crate = [], ""
    for line in page.split("\n"):
        if line.startswith("#"):
            heading = HEADING.fullmatch(line)
            crate = heading[1] if heading else ""
        elif crate and line.startswith("|"):
            cells = [cell.strip() for cell in line.strip("|").split("|")]
            if len(cells) != 3:
                faults.append(f"{PAGE}: {crate}: a row has {len(cells)} cells, and not three: {line}")
            elif not cells[0].startswith("---") and cells[0] != "Call or wrong body":
                rows.append(Row(crate, *cells))
    return rows, faults


def calls_of(cell: str) -> list[tuple[str, str]]:
    """The calls of a cell, each as it is and with the type of the one before it."""
    calls, owner = [], ""
    for word in WORD.findall(cell):
        prefix, _, name = word.rpartition("::")
        owner = prefix or owner
        calls.append((word, f"{owner}::{name}" if owner else name))
    return calls


def unfit(edit: Path) -> str:
    """Why an edit cannot be applied, or nothing."""
    crate, path, old = edit.parent.parent, "", ""
    texts: dict[str, str] = {}
    if not re.fullmatch(r"\w[\w.-]*\.edit", edit.name):
        return "an edit is a file whose name ends in .edit"
    for line in edit.read_text(encoding="utf-8").split("\n"):
        if line.startswith("file: "):
            path = line.removeprefix("file: ").strip()
            if path.partition("/")[0] not in PARTS:
                return f"{path} is not below src/, specs/ or proofs/"
            if not (crate / path).is_file():
                return f"there is no file {path}"
            texts.setdefault(path, (crate / path).read_text(encoding="utf-8"))
        elif line.startswith("old: "):
            old = line.removeprefix("old: ")
        elif line.startswith("new:"):
            if not path or not old:
                return "a line 'new:' stands before any 'file:' or 'old:'"
            if texts[path].count(old) != 1:
                return f"'{old.strip()}' stands {texts[path].count(old)} times in {path}, and not once"
            texts[path], old = texts[path].replace(old, line.removeprefix("new:").removeprefix(" ")), ""
    same = all(text == (crate / path).read_text(encoding="utf-8") for path, text in texts.items())
    return "it changes nothing" if same else ""


def row_faults(row: Row, own: list[str], sources: dict[str, Source]) -> list[str]:
    """What is wrong with a row of a crate with these edits: an edit, a call, or what refuses."""
    named = WORD.findall(row.edits)
    faults = [f"there is no edit {stem}" for stem in named if stem not in own]
    functions = sources[row.crate].functions if row.crate in sources else {}
    # a word of the first cell that is an edit's name is a wrong body, and no call
    calls = [(word, full) for word, full in calls_of(row.calls) if word not in own]
    faults += [f"there is no function {word}" for word, full in calls if full not in functions and word not in functions]
    everywhere = [source.functions for source in sources.values()]
    words = [word for word, _ in calls_of(row.refusers)]
    refusers = [word for word in words if any(word in known for known in everywhere)]
    # a method of a trait has its clauses there
    names = {name for word in refusers for name in (word, word.rpartition("::")[2])}
    clauses = {clause for name in names for known in everywhere for clause in known.get(name, set())}
    faults += [f"{word} is neither a function nor a clause of one beside it" for word in words if word not in refusers and word not in clauses]
    faults += [] if named and refusers else [f"the row of {row.calls} names no edit, or no function that refuses it"]
    return [f"{PAGE}: {row.crate}: {fault}" for fault in faults]


def crate_faults(crate: str, paths: list[str], rows: list[Row], source: Source) -> list[str]:
    """What the rows of a crate leave out, and which of its edits cannot be applied or have another's name."""
    cited = {stem for row in rows for stem in WORD.findall(row.edits)}
    called = {name for row in rows for pair in calls_of(row.calls) for name in pair}
    names = [stem_of(path) for path in paths]
    faults = [f"{path}: no row cites it" for path, stem in zip(paths, names) if stem not in cited]
    faults += [f"{path}: another edit of the crate has this name" for path, stem in zip(paths, names) if names.count(stem) > 1]
    faults += [f"{path}: {why}" for path in paths if (why := unfit(TOP / path))]
    return faults + [f"{PAGE}: {crate}: {call} has no row" for call in sorted(source.exported - called) if f"{crate}::{call}" not in EXCEPTIONS]


def stem_of(path: str) -> str:
    """The name of an edit."""
    return Path(path).name.removesuffix(".edit")


def bound_faults(gate: dict[str, list[str]]) -> list[str]:
    """Whether the gate tries too much."""
    count, crates = sum(map(len, gate.values())), sum(map(bool, gate.values()))
    faults = [f"crates: {count} edits in must-fail/, and at most {MOST_EDITS} are wanted: the others go to edits/"] if count > MOST_EDITS else []
    return faults + ([f"crates: {crates} crates have edits in must-fail/, and at most {MOST_CRATES} are wanted"] if crates > MOST_CRATES else [])


def counts(gate: dict[str, list[str]], turns: dict[str, list[str]]) -> str:
    """The table of how many edits each crate has."""
    rows = [(f"`{crate}`", len(gate[crate]), len(turns[crate])) for crate in gate if gate[crate] or turns[crate]]
    rows.append(("all", sum(row[1] for row in rows), sum(row[2] for row in rows)))
    return "\n".join(["| Crate | `must-fail/` | `edits/` |", "|---|---|---|", *(f"| {name} | {first} | {second} |" for name, first, second in rows)])


def main() -> int:
    """Checks all, or prints the counts."""
    crates = sorted(path.parent.name for path in TOP.glob("crates/*/src"))
    gate, turns = ({crate: edits_of(crate, folder) for crate in crates} for folder in (OF_THE_GATE, OF_TURNS))
    if "--counts" in sys.argv[1:]:
        print(counts(gate, turns))
        return 0
    traits = {trait for crate in crates for trait in read_source(crate, set()).traits}
    sources = {crate: read_source(crate, traits) for crate in crates}
    rows, faults = rows_of((TOP / PAGE).read_text(encoding="utf-8"))
    edits = {crate: gate[crate] + turns[crate] for crate in crates if gate[crate] or turns[crate]}
    for row in rows:
        faults += row_faults(row, [stem_of(path) for path in edits.get(row.crate, [])], sources)
    for crate, paths in edits.items():
        faults += crate_faults(crate, paths, [row for row in rows if row.crate == crate], sources[crate])
    faults += bound_faults(gate)
    total = [sum(map(len, folder.values())) for folder in (gate, turns)]
    print("\n".join(faults) if faults else f"edits: {total[0]} that each gate tries and {total[1]} others, in {len(edits)} crates, {len(rows)} rows")
    return 1 if faults else 0


if __name__ == "__main__":
    sys.exit(main())
