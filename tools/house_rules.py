#!/usr/bin/env python3
# SPDX-License-Identifier: Apache-2.0
"""Whether the tree keeps those rules of docs/CONTRIBUTING.md that no other script holds, Rattle's files included.

    tools/house_rules.py                       says where the tree has more breaches than tools/house_rules.toml counts, or fewer; status 1 then
    tools/house_rules.py --list [RULE [PATH]]  the breaches themselves: of a rule, and below a path
    tools/house_rules.py --lower               writes the counts that fell into the table

The table is a ratchet: it has the breaches that were there when a rule began to be held, by rule and folder. A folder without a row keeps the rule. A count
that grew is a breach; one that fell is to be written down, so that it cannot grow again. Who has to raise one writes it by hand, with the reason beside it.
"""
import ast
import io
import os
import re
import subprocess
import sys
import tokenize
import tomllib
from collections import Counter
from collections.abc import Callable, Iterable, Iterator
from dataclasses import dataclass

from documents import LONGEST_SUBJECT, PHRASE, SPAN
from licence_lines import PASSED_OVER
from rattle_text import alike, functions, names, statements, without_comment
from script_text import functions_of_page, functions_of_python, names_of_page, names_of_python, without_docstring
from sources import TOP, crates_with_below

TABLE = "tools/house_rules.toml"
LONGEST_FILE = 600
LONGEST_FUNCTION = 40
WIDEST_LINE = 160
DEEPEST_BLOCK, DEEPEST_OF_SCRIPTS = 3, 4
MOST_LOOPS = 1
CODE, PROOFS, PYTHON, PAGE = ".rt", ".antt", ".py", ".js"
ENDINGS = (CODE, PROOFS, PYTHON, ".js", ".css", ".c", ".h", ".sh")
# What begins a comment, up to the end of the line.
COMMENTS = {PROOFS: "--", ".sh": "#"}
SLASHES, BLOCK = re.compile(r"//(.*)"), re.compile(r"/\*.*?\*/", re.DOTALL)
# Parts of names that are no whole words. Those that a language, the standard of M or a library has are not here, as `str`, `prev`, `env`, `ref`, `expr`.
CUT_SHORT = frozenset("""acc addr attr btn buf calc cb cfg cnt conf ctx cur curr decl def dest dst elem elt err evt fmt func hdl idx impl info iter lang lst lvl
    mgr mod msg nxt obj op opts param params pkg pred priv proc prop ptr pub pwd qty rec recv repl req resp ret sel seq src stmt sym tbl tmp tok txt usr util
    utils val vals var""".split())
# Names that a library has us give, as pytest's fixtures, std's variant and its name for what is read into.
OF_LIBRARIES = frozenset({"tmp_path", "tmp_path_factory", "__iter__", "Err", "buf"})
WORD = re.compile(r"[a-z0-9]+|[A-Z][a-z0-9]*")
# The packages of Python whose public functions and classes have docstrings; those of scripts and tests are said by their module's.
PACKAGES = ("front/mserve_front/", "clients/mserve_client/")
# Files of proofs that state what the prover asks for, and nothing of their own.
ANSWERS = ("Answers.antt", "Invariants.antt")
CITES = re.compile(r"\b(?:issue|finding|paper)s? #?\d+\b|/work/\w+", re.IGNORECASE)
MADE = "Made by tools/"


@dataclass(frozen=True)
class Breach:
    """What breaks a rule, and where."""
    path: str
    line: int
    what: str

    def folder(self) -> str:
        """The folder that the table counts it in: a crate's, or the first one of its path."""
        return "/".join(self.path.split("/")[:2 if self.path.startswith("crates/") else 1])

    def __str__(self) -> str:
        return f"{self.path}:{self.line}: {self.what}"


@dataclass(frozen=True)
class File:
    """A file of the tree: its path from the top, what kind it is, and its text."""
    path: str
    kind: str
    text: str

    def lines(self) -> list[str]:
        return self.text.splitlines()

    def is_proof(self) -> bool:
        return self.kind == PROOFS and "/proofs/" in self.path


def kind_of(name: str, text: str) -> str:
    """The ending of a file, or what a script without one is written in."""
    first = text.partition("\n")[0]
    if name.endswith(ENDINGS) or not first.startswith("#!"):
        return os.path.splitext(name)[1]
    return PYTHON if "python3" in first else ".sh"


def files() -> Iterator[File]:
    """The files of code, proofs, scripts and the page that people wrote, and the documents."""
    for folder, folders, found_names in os.walk(TOP):
        folders[:] = sorted(set(folders) - PASSED_OVER)
        for name in sorted(found_names):
            if "." in name and not name.endswith((*ENDINGS, ".md")):
                continue
            with open(os.path.join(folder, name), encoding="utf-8", errors="replace") as file:
                text = file.read()
            kind = kind_of(name, text)
            if kind in (*ENDINGS, ".md") and MADE not in text[:300]:
                yield File(os.path.relpath(os.path.join(folder, name), TOP), kind, text)


# ---- the rules, each from the files to what breaks it

def long_files(found: list[File]) -> Iterator[Breach]:
    """Files of more than 600 lines."""
    for file in found:
        count = len(file.lines())
        if count > LONGEST_FILE and file.kind != ".md":
            yield Breach(file.path, count, f"{count} lines")


MEASURES = {CODE: functions, PYTHON: functions_of_python, PAGE: functions_of_page}


def long_functions(found: list[File]) -> Iterator[Breach]:
    """Functions of Rattle, Python and the page whose body has more than forty lines."""
    for file in (file for file in found if file.kind in MEASURES):
        measured = MEASURES[file.kind](file.text)
        yield from (Breach(file.path, one.line, f"{one.name}: {one.lines} lines") for one in measured if one.lines > LONGEST_FUNCTION)


def nesting(found: list[File]) -> Iterator[Breach]:
    """Functions with more than three blocks within one another, the body being the first; of Python and the page with more than four."""
    for file in (file for file in found if file.kind in MEASURES):
        deepest = DEEPEST_BLOCK if file.kind == CODE else DEEPEST_OF_SCRIPTS
        measured = MEASURES[file.kind](file.text)
        yield from (Breach(file.path, one.line, f"{one.name}: {one.depth} blocks deep") for one in measured if one.depth > deepest)


def loops(found: list[File]) -> Iterator[Breach]:
    """Functions of Rattle with more than one loop."""
    for file in (file for file in found if file.kind == CODE):
        yield from (Breach(file.path, one.line, f"{one.name}: {one.loops} loops") for one in functions(file.text) if one.loops > MOST_LOOPS)


def width(found: list[File]) -> Iterator[Breach]:
    """Lines of more than 160 characters. Those of Python are flake8's, those of documents are tools/documents.py's."""
    for file in (file for file in found if file.kind not in (PYTHON, ".md")):
        yield from (Breach(file.path, number, f"{len(line)} characters") for number, line in enumerate(file.lines(), 1) if len(line) > WIDEST_LINE)


def repeats(found: list[File]) -> Iterator[Breach]:
    """Statements that a file proves although one before it does, or one of a crate below, by whatever name."""
    first: dict[str, str] = {}
    order = {crate: number for number, crate in enumerate(crates_with_below())}
    proofs = [file for file in found if file.is_proof() and not file.path.endswith(ANSWERS)]
    for file in sorted(proofs, key=lambda file: (order.get(file.path.split("/")[1], 0), file.path)):
        for name, line, statement in statements(file.text):
            place = first.setdefault(alike(statement), f"{name} of {file.path}")
            if place != f"{name} of {file.path}":
                yield Breach(file.path, line, f"{name} states what {place} does")


def comments(file: File) -> Iterator[tuple[int, str]]:
    """The comments of a file, each with its first line: docstrings too, and texts of several lines as one."""
    if file.kind == PYTHON:
        yield from comments_of_python(file.text)
    elif file.kind in COMMENTS:
        for number, line in enumerate(file.lines(), 1):
            _, begun, rest = f" {line}".partition(f" {COMMENTS[file.kind]}")
            if begun:
                yield number, rest
    elif file.kind != ".md":
        for pattern in (SLASHES, BLOCK):
            yield from ((file.text.count("\n", 0, match.start()) + 1, match[0]) for match in pattern.finditer(file.text))


def comments_of_python(text: str) -> Iterator[tuple[int, str]]:
    """The comments and the docstrings of a file of Python."""
    for token in tokenize.generate_tokens(io.StringIO(text).readline):
        if token.type == tokenize.COMMENT:
            yield token.start[0], token.string
    for node in ast.walk(ast.parse(text)):
        if isinstance(node, ast.Module | ast.ClassDef | ast.FunctionDef | ast.AsyncFunctionDef) and (told := ast.get_docstring(node)):
            yield node.body[0].lineno, told


def phrases(found: list[File]) -> Iterator[Breach]:
    """Comments with a phrase that documents may not have."""
    for file in found:
        for number, comment in comments(file):
            plain = SPAN.sub("", comment)
            yield from (Breach(file.path, number + plain.count("\n", 0, match.start()), f"'{match[0]}'") for match in PHRASE.finditer(plain))


def undocumented(found: list[File]) -> Iterator[Breach]:
    """Public items of Rattle without a doc comment, and public functions and classes of the packages of Python without a docstring."""
    for file in found:
        lacking = list(without_comment(file.text)) if file.kind == CODE else []
        lacking += without_docstring(file.text) if file.kind == PYTHON and file.path.startswith(PACKAGES) else []
        yield from (Breach(file.path, line, f"{name}: no doc comment") for name, line in lacking)


GIVEN = {CODE: names, PYTHON: names_of_python, PAGE: names_of_page}


def cut_names(found: list[File]) -> Iterator[Breach]:
    """Names with a part that is no whole word."""
    for file in (file for file in found if file.kind in GIVEN):
        given = {name: line for name, line in GIVEN[file.kind](file.text) if name not in OF_LIBRARIES}
        cut = {name: line for name, line in given.items() if CUT_SHORT.intersection(map(str.lower, WORD.findall(name)))}
        yield from (Breach(file.path, line, f"the name {name}") for name, line in cut.items())


def cites(found: list[File]) -> Iterator[Breach]:
    """Numbers of papers, and folders of one machine: the repository stands alone."""
    for file in found:
        for number, line in enumerate(file.lines(), 1):
            yield from (Breach(file.path, number, f"'{match[0]}'") for match in CITES.finditer(line))


RULES: dict[str, Callable[[list[File]], Iterable[Breach]]] = {
    "files": long_files, "functions": long_functions, "nesting": nesting, "loops": loops,
    "width": width, "repeats": repeats, "phrases": phrases, "cites": cites, "comments": undocumented, "names": cut_names,
}


def commits(since: str, top: str = TOP) -> Iterator[tuple[str, str, str]]:
    """The commits since one, if the clone has it: name, subject and body. Merges have those that git gives them."""
    done = subprocess.run(["git", "log", "--no-merges", "-z", "--format=%h%n%s%n%b", f"{since}..HEAD"], cwd=top, capture_output=True, encoding="utf-8")
    for commit in filter(None, done.stdout.split("\0")):
        name, subject, body = commit.split("\n", 2)
        yield name, subject, body.strip()


def of_commits(since: str, bodies_since: str, top: str = TOP) -> list[str]:
    """What is wrong with the subjects of the commits since one, and with the bodies of those since another."""
    long = [(name, subject) for name, subject, _ in commits(since, top) if len(subject) > LONGEST_SUBJECT]
    said = [f"commit {name}: a subject of {len(subject)} characters" for name, subject in long]
    return said + [f"commit {name}: no body that says why" for name, _, body in commits(bodies_since, top) if not body]


# ---- the table

Table = dict[str, dict[str, int]]


def counted(breaches: dict[str, list[Breach]]) -> Table:
    """How many breaches of each rule each folder has."""
    return {rule: dict(sorted(Counter(breach.folder() for breach in found).items())) for rule, found in breaches.items()}


def compared(counts: Table, table: Table) -> Iterator[str]:
    """Where the tree is not as the table says."""
    for rule in sorted(counts.keys() | table.keys()):
        here, there = counts.get(rule, {}), table.get(rule, {})
        for folder in sorted(here.keys() | there.keys()):
            now, most = here.get(folder, 0), there.get(folder, 0)
            if now > most:
                yield f"{rule} in {folder}: {now} breaches, and the table has {most}: tools/house_rules.py --list {rule} {folder} names them"
            if now < most:
                yield f"{rule} in {folder}: {now} breaches, and the table has {most}: tools/house_rules.py --lower writes that down"


def lowered(text: str, counts: Table) -> str:
    """The table's text with the counts that fell. A row that came to nothing goes; whatever is beside a row stays."""
    rule, lines = "", []
    for line in text.splitlines():
        rule = found[1] if (found := re.match(r"\[(\w+)\]", line)) else rule
        row = re.match(r'"?([\w./]+)"? = (\d+)', line)
        now = counts.get(rule, {}).get(row[1], 0) if row else 0
        if row and now < int(row[2]):
            line = line.replace(f"= {row[2]}", f"= {now}", 1) if now else None
        lines += [line] if line is not None else []
    return "\n".join(lines) + "\n"


def listed(breaches: dict[str, list[Breach]], rule: str = "", path: str = "") -> list[str]:
    """The breaches of a rule, or of all, below a path."""
    return [f"{name}: {breach}" for name, found in breaches.items() if rule in ("", name) for breach in found
            if breach.path == path or breach.path.startswith(f"{path.rstrip('/')}/" if path else "")]


def main(words: list[str]) -> int:
    """Compares, lists or lowers; the status."""
    found = list(files())
    breaches = {rule: list(broken(found)) for rule, broken in RULES.items()}
    if words[:1] == ["--list"]:
        print("\n".join(listed(breaches, *words[1:3])))
        return 0
    with open(os.path.join(TOP, TABLE), encoding="utf-8") as file:
        text = file.read()
    table = tomllib.loads(text)
    if words == ["--lower"]:
        with open(os.path.join(TOP, TABLE), "w", encoding="utf-8") as file:
            file.write(lowered(text, counted(breaches)))
        return 0
    since = table.pop("commits")
    said = [*compared(counted(breaches), table), *of_commits(since["subjects"], since["bodies"])]
    for line in said:
        print(f"house_rules: {line}")
    return 1 if said else 0


if __name__ == "__main__":
    sys.exit(main(sys.argv[1:]))
