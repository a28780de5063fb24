# SPDX-License-Identifier: Apache-2.0
"""Each rule that tools/documents.py holds of the documents is broken once, and said; what keeps it is let through."""
from collections.abc import Callable

import documents
import pytest
from documents import LONGEST_CELL, LONGEST_LINE, Page

AGAIN = "an" + "ew"
FILES = {"README.md": ["README.md"], "numbers.rt": ["crates/mnum/src/numbers.rt"]}
WORDS = {"World", "line", "some_name"}
CELL = "x" * (LONGEST_CELL + 1)


@pytest.fixture(autouse=True)
def faults(monkeypatch: pytest.MonkeyPatch) -> list[str]:
    """The faults that are found, of this test alone."""
    found: list[str] = []
    monkeypatch.setattr(documents, "faults", found)
    return found


def page(text: str, path: str = "docs/SOME.md") -> Page:
    """A page with this text, whose indented and fenced lines are found as in a file."""
    documents_read, documents.read = documents.read, lambda _: text
    try:
        return documents.page_of(path)
    finally:
        documents.read = documents_read


def table(head: str, *rows: str) -> str:
    """A table: its head, and its rows, with bars between cells alone."""
    return "\n".join(f"| {row} |" for row in (head, " | ".join("---" for _ in head.split("|")), *rows))


def names(found: Page) -> None:
    documents.check_names(found, FILES, WORDS)


def calls(found: Page) -> None:
    documents.check_calls(found, "pub fn some_law() {}")


# What checks a page, the page's path, a text that breaks its rule once, and one that keeps it.
RULES: list[tuple[Callable[[Page], None], str, str, str]] = [
    (documents.check_links, "docs/SOME.md", "[it](NOWHERE.md)", "[it](GUIDE.md), [there](https://localhost/) and `[it](NOWHERE.md)`"),
    (documents.check_links, "README.md", "[it](docs/GUIDE.md#no-such-part)", "[it](docs/GUIDE.md)"),
    (names, "docs/SOME.md", "`crates/mnum/src/nothing.rt`", "`numbers.rt`, `src/numbers.rt`, `crates/NAME/src/MODULE.rt`"),
    (names, "docs/SOME.md", "the call `no_such_name`", "the call `World::line`, `some_name()` and a `word`"),
    (documents.check_rules, "docs/RULES.md", table("Rule | In LANGUAGE", "one | No such section"), table("Rule | In LANGUAGE", "one | Limits")),
    (documents.check_rules, "docs/RULES.md", "`mspec/specs/Limits.antt`: `no_such_limit`", "`mspec/src/limits.rt`: `limits_are_defined`"),
    (calls, "crates/mvalue/README.md", table("Public call | what", "`nothing_like_it` | x"), table("Public call | what", "`Value::of_number` | x")),
    (calls, "docs/SOME.md", table("Law | By the contract of", "x | `no_law`"), table("Law | By the contract of", "x | `some_law`")),
    (documents.check_cells, "docs/SOME.md", table("a | b", f"x | {CELL}"), table("a | b", f"x | {CELL[1:]}")),
    (documents.check_cells, "docs/SOME.md", table("a | b", "x | y | z"), table("a | b", "x \\| y | z")),
    (documents.check_lines, "docs/SOME.md", f"a {'x' * LONGEST_LINE}", f"a {'x' * (LONGEST_LINE - 2)}\n\n```\n{'a ' * LONGEST_LINE}\n```"),
    (documents.check_lines, "README.md", "a\n" * 151, "a\n" * 150),
    (documents.check_lines, "docs/SOME.md", f"{'<' * 7} HEAD", f"{'=' * 7}\n<<a>>"),
    (documents.check_phrases, "docs/SOME.md", f"It is done {AGAIN}.", f"`{AGAIN}`\n\n    it is done {AGAIN}"),
    (documents.check_order, "docs/GLOSSARY.md", table("Word here | Means", "`b` | x", "A | y"), table("Word here | Means", "A | y", "`b` | x")),
    (documents.check_premises, "README.md", "That accounts are\nisolated is proved.",
     "That accounts are isolated is proved over a store in memory.\n\nWhat `isolated_replies` leaves is proved."),
    (documents.check_premises, "README.md", "- No account can learn that: it is proved.\n- A disk lies.",
     "- Isolation is proved, if the disk\n  is honest.\n- x"),
    (documents.check_counts, "crates/mnum/README.md", "It has 3 cases that it reads.", ""),
]


@pytest.mark.parametrize("number", range(len(RULES)))
def test_a_breach_is_said(number: int, faults: list[str]) -> None:
    check, path, text, _ = RULES[number]
    check(page(text, path))
    assert len(faults) == 1 and faults[0].startswith(f"{path}:"), faults


@pytest.mark.parametrize("number", range(len(RULES) - 1))
def test_what_keeps_a_rule_is_let_through(number: int, faults: list[str]) -> None:
    check, path, _, text = RULES[number]
    check(page(text, path))
    assert faults == []


def test_a_count_is_the_trees(faults: list[str]) -> None:
    count = documents.cases("numbers-computed.txt", "numbers")
    documents.check_counts(page(f"It has {count:,} cases that it reads.", "crates/mnum/README.md"))
    assert faults == []


def test_pages_of_crates(faults: list[str]) -> None:
    """A crate of the program without a row, and a row of another."""
    crates = documents.program_crates()
    rows = [f"`{name}` | x" for name in crates]
    pages = {f"crates/{name.partition(':')[0]}/README.md": page("") for name in documents.read("crates.txt").splitlines() if not name.startswith("#")}
    whole = page(table("Crate | Its job", *rows))
    documents.check_crates({**pages, "docs/PROOFS.md": whole, "docs/ARCHITECTURE.md": whole})
    assert faults == []
    wrong = page(table("Crate | Its job", *rows[1:], "`mother` | x"))
    del pages["crates/mserve/README.md"]
    documents.check_crates({**pages, "docs/PROOFS.md": whole, "docs/ARCHITECTURE.md": wrong})
    assert faults == ["crates/mserve: no README.md", f"docs/ARCHITECTURE.md: no row for {next(iter(crates))}",
                      "docs/ARCHITECTURE.md: a row for mother, which is no crate of the program"]


# What checks the tree as it stands, the file that is changed, what is replaced in it and by what, and what the fault begins with.
TREE: list[tuple[Callable[[], None], str, str, str, str]] = [
    (documents.check_manual, "docs/mserve.1", "connections", "links", "docs/mserve.1: without"),
    (documents.check_completion, "packaging/mserve.bash", "--port", "--gate", "packaging/mserve.bash: without --port"),
    (documents.check_limits, "docs/LANGUAGE.md", "255", "256", "docs/LANGUAGE.md: its table of limits is without"),
    (documents.check_build_time, "README.md", documents.FIRST_TIME, "soon", "README.md: without"),
]


@pytest.mark.parametrize("number", range(len(TREE)))
def test_a_page_that_differs_from_the_tree(number: int, faults: list[str], monkeypatch: pytest.MonkeyPatch) -> None:
    check, changed, old, new, said = TREE[number]
    check()
    assert faults == []
    read = documents.read
    monkeypatch.setattr(documents, "read", lambda path: read(path).replace(old, new) if path == changed else read(path))
    check()
    assert faults and all(fault.startswith(said) for fault in faults), faults


def test_two_kits(faults: list[str]) -> None:
    """All pages and the release name one kit."""
    kit = documents.read("release/record")
    documents.check_versions([page(kit)])
    assert faults == []
    documents.check_versions([page(kit), page("rattle-kit-0 logic 0")])
    assert len(faults) == 1 and "name 2 kits" in faults[0]
