# SPDX-License-Identifier: Apache-2.0
"""Each rule that tools/house_rules.py holds is broken once, and said; the table is a ratchet."""
import subprocess
from pathlib import Path

import house_rules
import pytest
import rattle_text
import script_text
from house_rules import Breach, File

CONTRACT = "    requires { (λ x. x) ≡ match }\n    ensures a { if b then c else { d } }\n"


def code(*lines: str) -> str:
    """A function of Rattle with a contract and these lines as its body."""
    return "".join(["fn wrong<'a>(alloc: Global) -> [u8; 2]\n", CONTRACT, "{\n", *(f"    {line}\n" for line in lines), "}\n"])


def python(lines: int) -> str:
    return "def wrong():\n" + "    pass\n" * lines


def page(*lines: str) -> str:
    """A method of the page with these lines as its body."""
    return "".join(["class A {\n", "  async #wrong(a) {\n", *(f"    {line}\n" for line in lines), "  }\n}\n"])


def nested(*heads: str, end: str = "") -> list[str]:
    """Blocks within one another, each by its head, and the innermost statement."""
    opened = [f"{'  ' * at}{head}" for at, head in enumerate(heads)]
    return [*opened, f"{'  ' * len(heads)}pass", *(f"{'  ' * at}{end}" for at in reversed(range(len(heads))) if end)]


DEEP_PYTHON = """def wrong():
    if a:
        pass
    elif b:
        for c in d:
            with e:
                while f:
                    pass
"""
NOT_DEEP = DEEP_PYTHON.replace("while f:\n                    pass", "pass")
DEEP = code("match a {", "    Some(x) => {", "        if x { y(); }", "    }", "}")
TWO_LOOPS = code("for a in b {", "}", "while c {", "}")
PROVED = "pub less : (o : Ordering) → is_lt o ≡ true →\n  o ≡ Less\nless Less e = refl\n"
PROVED_TOO = "smaller : (p : Ordering) → is_lt p ≡ true → p ≡ Less\nsmaller Less e = refl\n"
OTHERS = "pub equal : (o : Ordering) → is_eq o ≡ true → o ≡ Equal\nequal Equal e = refl\n"
AGAIN = "an" + "ew"
PAPER = f"iss{'ue'} 7"

BREACHES = {
    "files": [("a.py", "pass\n" * 601)],
    "functions": [("a.py", python(41)), ("a.rt", code(*["a();"] * 41)), ("a.js", page(*["a();"] * 41))],
    "nesting": [("a.rt", DEEP), ("a.py", DEEP_PYTHON), ("a.js", page(*nested("if (a) {", "for (const b of c) {", "if (d) {", "if (e) {", end="}")))],
    "loops": [("a.rt", TWO_LOOPS)],
    "width": [("a.antt", "x" * 161), ("a.js", "x" * 161)],
    "phrases": [("a.antt", f"x = y -- {AGAIN}"), ("a.rt", f"a(); // it is done\n// {AGAIN}"), ("a.py", f'"""It is done\n{AGAIN}."""\n'),
                ("a.css", f"/* a\n{AGAIN} */")],
    "cites": [("a.md", f"as {PAPER} has it"), ("a.rt", f"// {PAPER}")],
    "comments": [("a.rt", "// Not for other crates.\n#[inline]\npub fn wrong() {}\n"), ("a.rt", "pub struct Wrong {\n}\n")],
    "names": [("a.rt", "fn a(idx: u8) {}\n"), ("a.rt", "let mut msg = b;\n"), ("a.py", "def a(*, theMsg): pass\n"), ("a.py", "tmp = 1\n"),
              ("a.py", "class Mgr: pass\n"), ("a.js", "const { a, req } = b;\n"), ("a.js", "function getCfg() {\n}\n")],
}
KEPT = {
    "files": [("a.py", "pass\n" * 600), ("a.md", "x\n" * 601)],
    "functions": [("a.py", python(40)), ("a.rt", code(*["a();"] * 40)), ("a.js", page(*["a();"] * 40))],
    "nesting": [("a.rt", code("while a {", "    if b { c(Point { x: { 1 } }); }", "}")), ("a.py", NOT_DEEP),
                ("a.py", "def a():\n    if b:\n        def c():\n            for d in e:\n                with f:\n                    pass\n"),
                ("a.js", page(*nested("if (a) {", "for (const b of c) {", "if (d) {", end="}")))],
    "loops": [("a.rt", code("for a in b {", "}") + code("for a in b {", "}")), ("a.rt", code("let a: impl for<'b> Fn(&'b u8) = b;", "loop {", "}"))],
    "width": [("a.antt", "x" * 160), ("a.py", "x" * 161), ("a.md", "x" * 161)],
    "phrases": [("a.antt", f"{AGAIN} = y"), ("a.rt", f"// `{AGAIN}`"), ("a.py", f"{AGAIN} = '{AGAIN}'\n")],
    "cites": [("a.md", "four issues, row 7 and paper")],
    "comments": [("a.rt", "/// What it is.\n#[inline]\npub fn kept() {}\npub(crate) fn own() {}\npub use a::b;\n"), ("a.py", "def a(): pass\n")],
    "names": [("a.rt", "// idx: no name\nfn prev(value: &str) -> Result<u8, Err> {\n    let expression = 1;\n}\n"),
              ("a.py", "def test(tmp_path): idx.msg = 1\n"), ("a.js", "const { string, values } = request;\n")],
}


def of_files(given: list[tuple[str, str]]) -> list[File]:
    return [File(f"crates/mspec/proofs/{name}", Path(name).suffix, text) for name, text in given]


@pytest.mark.parametrize("rule", BREACHES)
def test_a_breach_is_said(rule: str) -> None:
    for one in BREACHES[rule]:
        assert len(list(house_rules.RULES[rule](of_files([one])))) == 1, one


@pytest.mark.parametrize("rule", KEPT)
def test_what_keeps_a_rule_is_let_through(rule: str) -> None:
    assert list(house_rules.RULES[rule](of_files(KEPT[rule]))) == []


def test_a_statement_under_two_names() -> None:
    """Whatever its bound names and its line breaks; in modules with parameters the same words may say another thing, and answers are the prover's."""
    within = f"module _ (o : Ordering) where\n  {PROVED}"
    [breach] = house_rules.repeats(of_files([("A.antt", PROVED + OTHERS), ("B.antt", PROVED_TOO), ("C.antt", within), ("some/Answers.antt", PROVED)]))
    assert str(breach) == "crates/mspec/proofs/B.antt:1: smaller states what less of crates/mspec/proofs/A.antt does"


def test_functions_of_rattle() -> None:
    """Contracts, comments and texts are no part of a body, and a declaration has none."""
    text = code('let a = b"{"; // {', "if a { b(); }") + "trait A {\n    fn declared(&self) -> u8\n        ensures { { x } };\n}\n" + code()
    assert list(rattle_text.functions(text)) == [rattle_text.Function("wrong", 1, 2, 2, 0), rattle_text.Function("wrong", 12, 0, 1, 0)]


def test_the_line_of_a_phrase() -> None:
    """Also in a docstring of several lines, below what is in backticks."""
    [breach] = house_rules.phrases(of_files([("a.py", f'def a():\n    """Of `some`\n    `thing`.\n\n    It is done {AGAIN}."""\n')]))
    assert breach.line == 5


def test_docstrings_of_the_packages() -> None:
    """Of public functions and classes, and of public methods of these; forms of one overloaded name have that of the last."""
    text = "class A:\n    def b(self): pass\n    def _c(self): pass\nclass _D:\n    def e(self): pass\ndef f():\n    'It gives.'\n@overload\ndef g(): pass\n"
    assert sorted(script_text.without_docstring(text)) == [("A", 1), ("b", 2)]
    files = [File(f"{folder}a.py", ".py", text) for folder in ("front/mserve_front/", "clients/mserve_client/", "tools/", "front/tests/")]
    assert len(list(house_rules.undocumented(files))) == 4


def test_functions_of_the_page() -> None:
    """Methods and functions, whatever their commas and braces; calls, conditions and arrows are none."""
    text = page("if (a) {", "  b({", "    c: 1,", "  });", "}") + "export async function some(a, { b } = {}) {\n  a(() => {\n    b();\n  });\n}\ncall(a);\n"
    assert list(script_text.functions_of_page(text)) == [script_text.Function("#wrong", 2, 5, 3), script_text.Function("some", 10, 3, 2)]


def test_commits(tmp_path: Path) -> None:
    """A subject that is too long, and a commit without a body, each since the commit that the table names."""
    def git(*words: str) -> str:
        named = ["git", "-c", "user.name=x", "-c", "user.email=x@x", *words]
        return subprocess.run(named, cwd=tmp_path, check=True, capture_output=True, encoding="utf-8").stdout.strip()

    git("init", "-q")
    first, second = (git("commit", "-q", "--allow-empty", "-m", "x" * 73) or git("rev-parse", "--short", "HEAD") for _ in range(2))
    git("commit", "-q", "--allow-empty", "-m", "y" * 72, "-m", "Why, in\ntwo lines.")
    assert house_rules.of_commits(first, second, str(tmp_path)) == [f"commit {second}: a subject of 73 characters"]
    assert house_rules.of_commits(second, first, str(tmp_path)) == [f"commit {second}: no body that says why"]


def test_where_breaches_stand() -> None:
    assert [Breach(path, 1, "").folder() for path in ("crates/mspec/src/a.rt", "front/page/a.js", "mserve")] == ["crates/mspec", "front", "mserve"]


def test_the_table_is_a_ratchet() -> None:
    """More breaches than it counts are said, and fewer too; lowering writes down those that are fewer, and raises none."""
    table = {"width": {"crates/a": 2, "crates/b": 2, "front": 1}}
    counts = {"width": {"crates/a": 3, "crates/b": 1}, "loops": {"front": 1}}
    said = list(house_rules.compared(counts, table))
    assert [line.partition(" breaches")[0] for line in said] == ["loops in front: 1", "width in crates/a: 3", "width in crates/b: 1", "width in front: 0"]
    text = '# a\n[width]\n"crates/a" = 2  # why\n"crates/b" = 2  # why\nfront = 1\n'
    assert house_rules.lowered(text, counts) == '# a\n[width]\n"crates/a" = 2  # why\n"crates/b" = 1  # why\n'
    assert list(house_rules.compared(table, table)) == []


def test_breaches_below_a_path() -> None:
    breaches = {"width": [Breach("crates/a/src/a.rt", 1, "x"), Breach("crates/ab/src/a.rt", 2, "y")], "loops": [Breach("crates/a/src/a.rt", 3, "z")]}
    assert house_rules.listed(breaches, "width", "crates/a") == ["width: crates/a/src/a.rt:1: x"]
    assert len(house_rules.listed(breaches, "", "crates/a")) == 2 and len(house_rules.listed(breaches)) == 3
