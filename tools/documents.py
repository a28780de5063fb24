#!/usr/bin/env python3
# SPDX-License-Identifier: Apache-2.0
"""Checks the documents against the tree: links and names of files exist; calls, contracts, definitions and edits that they name exist; counts
agree; lines, cells and phrases are as docs/CONTRIBUTING.md has them. It needs no kit and no program. Status 1 with a line for each fault."""
import os
import re
import sys
from collections.abc import Callable, Iterator
from dataclasses import dataclass, field

from build import FIRST_TIME
from sources import TOP, program_crates

CODE = (".rt", ".antt", ".edit", ".py", ".c", ".h", ".toml")
LONGEST_LINE = 100
LONGEST_CELL = 200
LONGEST_SUBJECT = 72
PHRASES = [
    "want of memory", "so many", "behind", "hangs? on", "drawn in", "drawn into", "(?:is|are) told", "waited for", "stands whole", "farewell",
    "whose the terminals are", "where there is none", "meant on", "are no lines of", "beside read", "by turns", "turns? the code's meaning",
    "equal ones tie", "do to a world", "anew", "whoever", "lets go of", "letting go of",
]
PHRASE = re.compile(r"\b(?:" + "|".join(PHRASES) + r")\b", re.IGNORECASE)
SPAN = re.compile(r"`([^`\n]+)`")
PATH = re.compile(r"^[\w./*-]+\.(?:rt|antt|edit|py|c|h|md|txt|toml|service|bash|1)$|^(?:[A-Za-z][\w.-]*/)+[\w.-]*$")
NAME = re.compile(r"^[A-Za-z_]\w*(?:::[A-Za-z_]\w*)*(?:\(\))?$")
# A test, with its file.
TEST = re.compile(r"`((?:[a-z]+/)*)(test_\w+\.py)::(\w+)`")
# What git puts around the two sides of a conflict.
MERGE_MARKS = ("<" * 7 + " ", ">" * 7 + " ")
# `<!-- gate_times.py -->` and `<!-- end -->`: what is between is written by that script.
MARK = re.compile(r"^<!-- (end|\w+\.py) -->$")
LINK = re.compile(r"\[[^\]]*\]\(([^)\s]+)\)")
# What claims that isolation is proved, and what is beside it then.
ENTRY = re.compile(r"\s*(?:[-*]|\d+\.) ")
PROVED, ISOLATED = re.compile(r"\b(?:is|are|was|has been) proved\b|\bproves\b"), re.compile(r"\bisolat\w+|\baccount can learn\b|\bend to end\b", re.IGNORECASE)
PREMISE = re.compile(r"\bmemory\b|\bdisk\b|\bdoubt\b|\bpremise\b|\bnot\s+proved\b")
# Pages that say how it is proved, and not that it is.
OF_PROOFS = ("docs/ARCHITECTURE.md", "docs/CONTRIBUTING.md", "docs/DECISIONS.md", "docs/RECIPES.md", "docs/RULES.md", "docs/TESTING.md")
# Pages whose names of edits and wrong bodies another script checks, some of which only a test refuses: tools/edits.py.
TABLES_OF_EDITS = {"docs/TESTING.md"}
# Names that are not this tree's.
FOREIGN = {"journal_mode", "OperationInterrupted"}
# Files that are made, or that are examples of names.
NOT_IN_THE_TREE = re.compile(r"^(?:crates/[\w*]+/out\b.*|release/?.*|/.*|\.git/.*|.*(?:NAME|MODULE|FILE)\b.*|.*\.toml|lines\.txt|lab\.db)$")


@dataclass
class Page:
    """A page: its path below the top, its lines, which of them are in a fenced block, and which a script puts between its marks."""
    path: str
    lines: list[str]
    fenced: set[int] = field(default_factory=set)
    made: set[int] = field(default_factory=set)

    def plain(self) -> Iterator[tuple[int, str]]:
        """The lines outside of fenced blocks, counted from 1."""
        return ((n, line) for n, line in enumerate(self.lines, 1) if n not in self.fenced)

    def spans(self) -> Iterator[tuple[int, str]]:
        """Each text between backticks."""
        return ((n, span) for n, line in self.plain() for span in SPAN.findall(line))


faults: list[str] = []


def fault(page: Page, number: int, text: str) -> None:
    """Notes a fault of a line."""
    faults.append(f"{page.path}:{number}: {text}")


def read(path: str) -> str:
    """A file of the tree."""
    with open(os.path.join(TOP, path), encoding="utf-8", errors="replace") as file:
        return file.read()


def is_shown(page: Page, number: int) -> bool:
    """Whether an indented line is text that is shown as it is, and does not go on with an entry of a list."""
    return number == 1 or not page.lines[number - 2].strip() or number - 1 in page.fenced


def page_of(path: str) -> Page:
    """The page at a path."""
    page, inside, made = Page(path, read(path).split("\n")), False, False
    for number, line in enumerate(page.lines, 1):
        if mark := MARK.match(line):
            made = mark[1] != "end"
        elif made:
            page.made.add(number)
        if line.lstrip().startswith("```"):
            inside = not inside
            page.fenced.add(number)
        elif inside or is_shown(page, number) and line.startswith("    ") and not line.lstrip().startswith(("-", "*", "|")):
            page.fenced.add(number)
    return page


def pages() -> list[Page]:
    """All pages, in order."""
    found = [name for name in os.listdir(TOP) if name.endswith(".md")]
    found += [f"docs/{name}" for name in os.listdir(os.path.join(TOP, "docs")) if name.endswith(".md")]
    found += [f"crates/{name}/README.md" for name in os.listdir(os.path.join(TOP, "crates"))] + ["clients/README.md", "front/README.md"]
    return [page_of(path) for path in sorted(found) if os.path.exists(os.path.join(TOP, path))]


def drafts() -> list[Page]:
    """The pages of work that is under way, if there are any."""
    folder = os.path.join(TOP, "wip")
    return [page_of(f"wip/{name}") for name in sorted(os.listdir(folder)) if name.endswith(".md")] if os.path.isdir(folder) else []


def tree() -> dict[str, list[str]]:
    """The paths of all files of the tree, by their last names; what is built and what git keeps are not of it."""
    found: dict[str, list[str]] = {}
    for folder, folders, names in os.walk(TOP):
        folders[:] = [name for name in folders if name not in (".git", "out", "__pycache__")]
        for name in [*names, *folders]:
            found.setdefault(name, []).append(os.path.relpath(os.path.join(folder, name), TOP))
    return found


def words_of(files: dict[str, list[str]]) -> set[str]:
    """Each word of the code, the definitions, the proofs and the scripts, and the name of each file and folder without its ending."""
    words = {name.partition(".")[0] for name in files}
    for paths in files.values():
        for path in paths:
            if path.endswith(CODE) and os.path.isfile(os.path.join(TOP, path)):
                words.update(re.findall(r"\w+", read(path)))
    return words


# ---- links and names

def anchor_of(heading: str) -> str:
    """The anchor of a heading, as GitHub makes it."""
    return re.sub(r"[^\w\- ]", "", heading.strip("# ").lower()).replace(" ", "-")


def check_links(page: Page) -> None:
    """Each link within the tree leads somewhere."""
    for number, line in page.plain():
        for target in LINK.findall(SPAN.sub("", line)):
            path, _, anchor = target.partition("#")
            if re.match(r"\w+:", path):
                continue
            place = os.path.normpath(os.path.join(os.path.dirname(page.path), path)) if path else page.path
            if not os.path.exists(os.path.join(TOP, place)):
                fault(page, number, f"no file {target}")
            elif anchor and anchor not in {anchor_of(found) for found in read(place).split("\n") if found.startswith("#")}:
                fault(page, number, f"no heading {target}")


def is_there(page: Page, path: str, files: dict[str, list[str]]) -> bool:
    """Whether a path that a page names is one of the tree: from the top, from the page's folder, in crates, or by the end of a path."""
    if NOT_IN_THE_TREE.match(path):
        return True
    path = path.rstrip("/")
    starts = ("", os.path.dirname(page.path), "crates", "docs")
    if any(os.path.exists(os.path.join(TOP, start, path)) for start in starts):
        return True
    name = os.path.basename(path)
    if "*" in path:
        return any(re.fullmatch(re.escape(name).replace(r"\*", ".*"), found) for found in files)
    return any(found == path or found.endswith("/" + path) for found in files.get(name, []))


def check_names(page: Page, files: dict[str, list[str]], words: set[str]) -> None:
    """Each file that is named exists, and each name of code is a word of the tree."""
    for number, span in page.spans():
        if PATH.match(span):
            if not is_there(page, span, files):
                fault(page, number, f"no file `{span}`")
        elif page.path not in TABLES_OF_EDITS and NAME.match(span) and ("_" in span or "::" in span or re.search(r"[a-z][A-Z]", span)):
            if not words | FOREIGN >= set(span.removesuffix("()").split("::")):
                fault(page, number, f"no name `{span}`")


def check_tests(page: Page) -> None:
    """Each test that is named with its file is there; without a folder the file is one of the front's."""
    for number, line in enumerate(page.lines, 1):
        for folder, path, name in TEST.findall(line):
            place = (folder or "front/tests/") + path
            if not os.path.exists(os.path.join(TOP, place)) or not re.search(rf"^ *(?:async )?def {name}\(", read(place), re.MULTILINE):
                fault(page, number, f"no test `{place}::{name}`")


def check_section(page: Page, number: int, told: str, head: str) -> None:
    """`PAGE, SECTION` is a heading of docs/PAGE.md, `SECTION` one of docs/LANGUAGE.md, and in a table with another head `PAGE` a page."""
    name, _, section = told.rpartition(", ")
    if not name:
        name, section = ("LANGUAGE", section) if head == "In LANGUAGE" else (section, "")
    path = f"docs/{name}.md"
    lines = read(path).split("\n") if os.path.exists(os.path.join(TOP, path)) else []
    if not any(line.startswith("#") and line.lstrip("# ").startswith(section) for line in lines):
        fault(page, number, f"no section '{section}' of {path}")


def check_rules(page: Page) -> None:
    """Each section is there, and of `file`: `name`, `name` each name is in the file."""
    for head, number, cells in rows_of(page):
        if head[0] == "Rule":
            check_section(page, number, cells[1], head[1])
    for number, line in page.plain():
        for path, names in re.findall(r"`([\w/]+\.(?:rt|antt))`: ((?:`\w+`(?:, )?)+)", line):
            place = os.path.join("crates", path)
            text = read(place) if os.path.exists(os.path.join(TOP, place)) else ""
            for name in (name for name in SPAN.findall(names) if not re.search(rf"\b{name}\b", text)):
                fault(page, number, f"no `{name}` in `{path}`")


# ---- tables

def tables(page: Page) -> Iterator[tuple[list[str], list[tuple[int, list[str]]]]]:
    """Each table: the cells of its head, and of each row with its line."""
    rows: list[tuple[int, list[str]]] = []
    for number, line in [*page.plain(), (0, "")]:
        if line.startswith("|"):
            rows.append((number, [cell.strip() for cell in re.split(r"(?<!\\)\|", line.strip("|"))]))
        elif rows:
            yield rows[0][1], rows[2:]
            rows = []


def rows_of(page: Page) -> Iterator[tuple[list[str], int, list[str]]]:
    """Each row of each table: the cells of the head, the line, and the cells."""
    return ((head, number, cells) for head, rows in tables(page) for number, cells in rows)


def source_of(crate: str) -> str:
    """The code of a crate."""
    folder = os.path.join("crates", crate, "src")
    found = []
    for at, _, names in os.walk(os.path.join(TOP, folder)):
        found += [read(os.path.relpath(os.path.join(at, name), TOP)) for name in sorted(names)]
    return "\n".join(found)


def is_defined(name: str, source: str) -> bool:
    """Whether the code has an item of this name, or hands one on."""
    return bool(re.search(rf"\b(?:fn|struct|enum|trait|const|type) {name}\b|\bpub use [^;]*\b{name}\b", source))


def check_calls(page: Page, everything: str) -> None:
    """Each public call in a table of a crate is one of that crate's, and each contract that carries a law is a function's."""
    crate = page.path.split("/")[1] if page.path.startswith("crates/") else None
    source = source_of(crate) if crate else ""
    for head, number, cells in rows_of(page):
        names = SPAN.findall(cells[0]) if crate and head[0].startswith("Public call") else []
        places = [(name, source) for name in names]
        if "By the contract of" in head[-1]:
            places = [(name, everything) for name in SPAN.findall(cells[-1]) if NAME.match(name)]
        for name, code in places:
            last = name.split("::")[-1]
            if NAME.match(name) and last[0].islower() and not is_defined(last, code) and not re.search(rf"\bensures {last}\b", code):
                fault(page, number, f"no call `{name}`")


def check_cells(page: Page) -> None:
    """No cell is too long, and each row has as many cells as the head."""
    for head, number, cells in rows_of(page):
        if len(cells) != len(head):
            fault(page, number, f"{len(cells)} cells below a head of {len(head)}")
        for cell in (cell for cell in cells if len(cell) > LONGEST_CELL):
            fault(page, number, f"a cell of {len(cell)} characters: {cell[:40]}..")


# ---- wording

def check_lines(page: Page) -> None:
    """No line of prose is too long that a person wrote; on the front page no line at all. Two pages have a length. No merge is unfinished."""
    front = page.path == "README.md"
    for number, line in enumerate(page.lines, 1):
        if line.startswith(MERGE_MARKS):
            fault(page, number, f"a merge that was not finished: {line}")
        prose = number not in page.fenced | page.made and not line.startswith("|")
        if (front or prose) and len(line) > LONGEST_LINE and " " in line.strip()[:LONGEST_LINE]:
            fault(page, number, f"a line of {len(line)} characters")
    most = {"README.md": 150, "docs/PERFORMANCE.md": 350}.get(page.path)
    if most and len(page.lines) > most + 1:
        fault(page, len(page.lines), f"more than {most} lines")


def check_phrases(page: Page) -> None:
    """None of the phrases that docs/CONTRIBUTING.md rules out."""
    for number, line in page.plain():
        if found := PHRASE.search(SPAN.sub("", line)):
            fault(page, number, f"'{found[0]}'")


def check_order(page: Page) -> None:
    """The words of a glossary's first table follow the alphabet."""
    heads = ((head, rows) for head, rows in tables(page) if head[0] == "Word here")
    for _, rows in heads:
        words = [(number, re.sub(r"[`*]", "", cells[0]).lower()) for number, cells in rows]
        for (_, above), (number, word) in zip(words, words[1:]):
            if word < above:
                fault(page, number, f"'{word}' stands below '{above}'")


def claims(page: Page) -> Iterator[tuple[int, str]]:
    """The paragraphs and the entries of lists that say of isolation, or of the program from end to end, that it is proved."""
    begun = 0
    for number, line in [*page.plain(), (len(page.lines) + 1, "")]:
        if begun and (not line.strip() or line.startswith(("|", "#")) or ENTRY.match(line)):
            text = " ".join(page.lines[begun - 1:number - 1])
            plain = SPAN.sub("", text)
            if PROVED.search(plain) and ISOLATED.search(plain):
                yield begun, text
            begun = 0
        if not begun and line.strip() and not line.startswith(("|", "#")):
            begun = number


def check_premises(page: Page) -> None:
    """Beside each such claim stands its premise: which store it is of, or that another part is not proved."""
    for number, text in claims(page):
        if not PREMISE.search(text):
            fault(page, number, "says that isolation is proved, and not over which store")


# ---- counts

def cases(file: str, kind: str) -> int:
    """How many cases the blocks of a kind have in a file of transcripts."""
    blocks = read(f"transcripts/{file}").strip("\n").split("\n\n")
    lines = [line for block in blocks if block.startswith(f"== {kind}:") for line in block.split("\n")[1:]]
    return sum(not line.startswith(("    ", "# ")) for line in lines)


def rattle_files(part: str, crates: tuple[str, ...]) -> Iterator[str]:
    """The paths of the files of code, definitions and proofs in a part of crates."""
    for crate in crates:
        for folder, _, names in os.walk(os.path.join(TOP, "crates", crate, part)):
            yield from (os.path.relpath(os.path.join(folder, name), TOP) for name in names if name.endswith((".rt", ".antt")))


def size(part: str, crates: tuple[str, ...] = ()) -> int:
    """The lines of a part of crates, or of all crates, without blank lines and comments."""
    count = 0
    for path in rattle_files(part, crates or tuple(os.listdir(os.path.join(TOP, "crates")))):
        count += sum(bool(line.strip()) and not line.lstrip().startswith(("//", "--")) for line in read(path).split("\n"))
    return count


DEFINITIONS = ("mspec", "mgrammar", "mmeaning", "misolation")
# A page, what stands around the count there, the count of the tree, and by which part of it the page may be off.
COUNTS: list[tuple[str, str, Callable[[], int], float]] = [
    ("crates/mgrammar/README.md", r"([\d,]+) texts and", lambda: cases("grammar.txt", "texts"), 0),
    ("crates/mgrammar/README.md", r"and ([\d,]+) lines of routines", lambda: cases("grammar.txt", "routine_lines"), 0),
    ("crates/mnum/README.md", r"([\d,]+) cases that", lambda: cases("numbers-computed.txt", "numbers"), 0),
    ("docs/PROOFS.md", r"some ([\d,]+) lines of them", lambda: size("specs", DEFINITIONS), 0.1),
    ("docs/PROOFS.md", r"([\d,]+) lines of code", lambda: size("src"), 0.1),
    ("docs/PROOFS.md", r"([\d,]+) lines of definitions", lambda: size("specs"), 0.1),
    ("docs/PROOFS.md", r"([\d,]+) lines of proofs", lambda: size("proofs"), 0.1),
]


def check_counts(page: Page) -> None:
    """Counts on the page are the tree's."""
    text = re.sub(r"\s+", " ", "\n".join(page.lines))
    for path, pattern, counted, slack in COUNTS:
        if path == page.path:
            found = re.search(pattern, text)
            count = counted()
            if found is None or abs(int(found[1].replace(",", "")) - count) > slack * count:
                fault(page, 0, f"'{found[0] if found else pattern}', and the tree has {count:,}")


# ---- crates and the manual page

def check_crates(by_path: dict[str, Page]) -> None:
    """Each crate has a page, and each of the program a row in PROOFS and on the map; no row names another."""
    wanted = set(program_crates())
    listed = [name.partition(":")[0].split()[0] for name in read("crates.txt").splitlines() if ":" in name and not name.startswith("#")]
    faults.extend(f"crates/{crate}: no README.md" for crate in listed if f"crates/{crate}/README.md" not in by_path)
    for path in ("docs/PROOFS.md", "docs/ARCHITECTURE.md"):
        rows = [row for head, rows in tables(by_path[path]) if head[0] == "Crate" for row in rows]
        named = {name for _, cells in rows for name in re.findall(r"\[(\w+)\]|`(\w+)`", cells[0]) for name in name if name}
        faults.extend(f"{path}: no row for {crate}" for crate in sorted(wanted - named))
        faults.extend(f"{path}: a row for {crate}, which is no crate of the program" for crate in sorted(named - wanted))


def check_manual() -> None:
    """The manual page has the text of each option's help."""
    manual = re.sub(r"\s+", " ", re.sub(r"^\.\w+ ?|\\f.|\\&", "", read("docs/mserve.1"), flags=re.MULTILINE).replace("\\-", "-"))
    for text in re.findall(r'"([^"\n]* [^"\n]*)"', read("crates/mjob/src/options.rt")):
        if re.sub(r"\s+", " ", text) not in manual:
            faults.append(f"docs/mserve.1: without '{text}', which --help has")


def check_completion() -> None:
    """The manual page and the completion have each command and each option of the command line."""
    source = read("crates/mjob/src/options.rt")
    words = re.findall(r'Command::new\(alloc, "(\w+)"\)', source) + [f"--{name}" for name in re.findall(r'_option\(\s*alloc,\s*"(\w+)"', source)]
    if len(words) < 5:
        faults.append("crates/mjob/src/options.rt: no commands or options are found in it")
    for path in ("docs/mserve.1", "packaging/mserve.bash"):
        text = read(path).replace("\\-", "-")
        faults.extend(f"{path}: without {word}, which the command line has" for word in words if not re.search(rf"(?<![\w-]){word}(?![\w-])", text))


def check_limits() -> None:
    """Each limit of the code is a figure in LANGUAGE's table of limits; the rest of a name follows from a name."""
    section = read("docs/LANGUAGE.md").split("\n## Limits\n")[1].split("\n## ")[0]
    figures = set(re.findall(r"\d+", section.replace(",", "")))
    limits = re.findall(r"pub const (MAX_\w+)(?<!_REST): \w+ = ([\d_]+);", read("crates/mspec/src/limits.rt"))
    if not limits:
        faults.append("crates/mspec/src/limits.rt: no limits are found in it")
    faults.extend(f"docs/LANGUAGE.md: its table of limits is without {name}" for name, value in limits if value.replace("_", "") not in figures)


def check_versions(found: list[Page]) -> None:
    """The pages name one kit, that of the release if there is one, and the version of the file VERSION if there is one."""
    kit = re.compile(r"rattle-kit-\S+ logic \w+")
    record = read("release/record") if os.path.exists(os.path.join(TOP, "release", "record")) else ""
    kits = {name for page in found for name in kit.findall("\n".join(page.lines))} | set(kit.findall(record))
    if len(kits) != 1:
        faults.append(f"the pages and the release name {len(kits)} kits: {sorted(kits)}")
    if os.path.exists(os.path.join(TOP, "VERSION")):
        version = read("VERSION").strip()
        for path in ("README.md", "CHANGELOG.md", "docs/mserve.1"):
            if version not in read(path):
                faults.append(f"{path}: without version {version}")


def check_build_time() -> None:
    """The pages say of a build what `./mserve` says before it."""
    for path in ("README.md", "docs/INSTALL.md"):
        if FIRST_TIME not in re.sub(r"\s+", " ", read(path)):
            faults.append(f"{path}: without '{FIRST_TIME}', the time of a build that tools/build.py has")


def main() -> int:
    """Checks all pages, and prints the faults."""
    files = tree()
    words = words_of(files)
    everything = "\n".join(source_of(crate) for crate in sorted(os.listdir(os.path.join(TOP, "crates"))))
    found = pages()
    for page in found:
        check_links(page)
        check_calls(page, everything)
        check_counts(page)
        if page.path == "docs/RULES.md":
            check_rules(page)
        check_names(page, files, words)
        check_lines(page)
        check_cells(page)
        check_phrases(page)
        check_order(page)
        if page.path not in OF_PROOFS and not page.path.startswith("crates/"):
            check_premises(page)
    for page in [*found, *drafts()]:
        check_tests(page)
    check_crates({page.path: page for page in found})
    check_manual()
    check_completion()
    check_limits()
    check_versions(found)
    check_build_time()
    for text in faults:
        print(f"documents: {text}")
    print(f"documents: {len(found)} pages, {len(faults)} faults")
    return 1 if faults else 0


if __name__ == "__main__":
    sys.exit(main())
