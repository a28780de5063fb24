# SPDX-License-Identifier: Apache-2.0
"""The page's modules give what the clients give: on the cases of the clients' own tests, and on drawn ones."""
from __future__ import annotations

import dataclasses
import json
import random
import subprocess
import sys
from collections.abc import Iterator
from pathlib import Path

import drawn_texts
import page_driver
import pytest
import running
from front import FRONT, MIXED, PASSWORD, Front
from mserve_client import CODES, Connection, in_words, keys, language, mtext, routine_files
from mserve_client.causes import CAUSES
from mserve_client.checking import check, fault_of
from mserve_client.extracts import Entry
from mserve_client.terminal_way import TerminalWay
from mserve_client.walk import Walker
from page_driver import PAGE, Browser, page_front  # noqa: F401
from page_words import advice_of

TOP = FRONT.parent

TERMINAL, LATER_TERMINAL = 1, 1001
# The lists of cases that the clients' tests have, by the name of the test.
CASES = """
import json, sys
sys.path[:0] = sys.argv[1:]
import test_routines as tests
names = ("test_parts_of_a_line", "test_lines_in_the_language", "test_place_of_what_is_refused")
print(json.dumps({name: getattr(tests, name).pytestmark[0].args[1] for name in names}))
"""


@pytest.fixture(scope="module")
def cases() -> dict[str, list]:
    """The cases of clients/tests/test_routines.py."""
    words = [sys.executable, "-c", CASES, *(str(TOP / folder) for folder in ("clients", "clients/tests", "tools"))]
    return json.loads(subprocess.run(words, check=True, capture_output=True, timeout=60).stdout)


def signed_on(front: Front, user: str) -> Iterator[Browser]:
    """A browser with a terminal of the page's own making."""
    made = Browser()
    try:
        made.driver.get(front.origin)
        made.module("""const { Terminal, signOn } = await import("/page/service.js");
                       window.own = new Terminal(await signOn(given[0], given[1]), () => {});""", user, PASSWORD)
        yield made
    finally:
        page_driver.left(made)
        made.driver.quit()


@pytest.fixture(scope="module")
def browser(page_front: Front) -> Iterator[Browser]:  # noqa: F811
    """One at a terminal of an account with language 0."""
    yield from signed_on(page_front, "ada")


@pytest.fixture(scope="module")
def later_browser(page_front: Front) -> Iterator[Browser]:  # noqa: F811
    """One at a terminal of an account with language 1."""
    yield from signed_on(page_front, "cleo")


def connected(folder: Path, terminal: int) -> Iterator[Connection]:
    """A connection of the clients to a server of its own by the same settings, since a server has one at a time."""
    (folder / "mixed.toml").write_text(MIXED)
    port = running.free_port()
    process = subprocess.Popen(running.serve_words(port, 10, "memory", str(folder / "mixed.toml")), stdin=subprocess.DEVNULL)
    running.connected(port).close()
    try:
        with Connection(port, terminal) as made:
            yield made
    finally:
        process.terminate()
        process.wait(30)


@pytest.fixture(scope="module")
def connection(tmp_path_factory: pytest.TempPathFactory) -> Iterator[Connection]:
    """One of an account with language 0."""
    yield from connected(tmp_path_factory.mktemp("server"), TERMINAL)


@pytest.fixture(scope="module")
def later_connection(tmp_path_factory: pytest.TempPathFactory) -> Iterator[Connection]:
    """One of an account with language 1."""
    yield from connected(tmp_path_factory.mktemp("server"), LATER_TERMINAL)


def test_words_of_the_page_are_the_clients() -> None:
    done = subprocess.run([sys.executable, TOP / "tools" / "page_words.py"], capture_output=True, timeout=60)
    assert (done.returncode, done.stdout) == (0, b"")


def test_codes_in_words(browser: Browser) -> None:
    names = [*CODES, "Z9"]
    given = browser.module("const { inWords } = await import('/page/language.js'); return given[0].map(inWords);", names)
    assert given == [in_words(name) for name in names]


def test_parts_of_a_line(browser: Browser, cases: dict[str, list]) -> None:
    texts, parts = zip(*cases["test_parts_of_a_line"])
    given = browser.module("const { sourceLine } = await import('/page/routines.js'); return given[0].map(sourceLine);", list(texts))
    assert [[line["label"], line["formals"], line["level"], line["rest"]] for line in given] == list(parts)


CHECK = """const [{ check }, { sourceLine }] = [await import("/page/checking.js"), await import("/page/routines.js")];
           const found = [];
           for (const text of given[0]) {
             found.push((await window.own.alone((own) => check(own, [sourceLine(text)]))).map((one) => [one.column, one.message, one.advice]));
           }
           return found;"""


def checked(connection: Connection, text: str) -> list[list]:
    """What the clients say of a line."""
    return [[found.column, found.message, advice_of(found.advice)] for found in check(connection, [routine_files.source_line(text)])]


def test_lines_in_the_language(browser: Browser, cases: dict[str, list]) -> None:
    texts = cases["test_lines_in_the_language"]
    assert len(texts) > 10 and browser.module(CHECK, texts) == [[] for _ in texts]


def test_what_is_said_of_other_systems_lines(browser: Browser, connection: Connection, cases: dict[str, list]) -> None:
    """Each is refused for the same reason, at the same place, with the same advice."""
    texts = [f" {cause.example}" for cause in CAUSES if "\t" not in cause.example] + [f" {text}" for text, _ in cases["test_place_of_what_is_refused"]]
    texts += ["BAD(A,B) ; sum", " ; Ärger", " W \"ü\"", "1 Q", "L" * 32 + " Q", " ;" + "x" * 4092, " S A=1 W " + '"x"' * 100 + " W $H", " W 1 \tW $H"]
    given = browser.module(CHECK, texts)
    assert len(texts) > 50
    for text, found in zip(texts, given, strict=True):
        assert found and found == checked(connection, text), text


def as_told(found: language.LineFault) -> dict[str, object]:
    """A fault as the page has it."""
    return dataclasses.asdict(dataclasses.replace(found, advice=advice_of(found.advice)))


@pytest.mark.parametrize("number", language.LANGUAGES)
def test_verdicts_and_causes_of_drawn_texts(browser: Browser, request: pytest.FixtureRequest, number: int) -> None:
    """The page reads the grammars and the causes as the clients do: 1,000 texts, and `--count` times as many."""
    texts = drawn_texts.drawn_texts(random.Random(72), [*(cause.example for cause in CAUSES), *drawn_texts.LATER * 5],
                                    1000 * request.config.getoption("--count", 1))
    given = browser.module("""const { fault, pointed } = await import("/page/language.js");
                              return given[0].map((text) => { const found = fault(text, given[1]); return found && [found, pointed(text, found)]; });""",
                           texts, number)
    for text, found in zip(texts, given, strict=True):
        wanted = language.fault(text, number)
        assert found == (wanted and [as_told(wanted), language.pointed(text, dataclasses.replace(wanted, advice=advice_of(wanted.advice)))]), text


FAULT = """const [{ faultOf }, { languageOf }] = [await import("/page/language.js"), await import("/page/checking.js")];
           const found = [];
           for (const text of given[0]) {
             found.push(await faultOf(text, () => window.own.alone(languageOf)));
           }
           return found;"""


@pytest.mark.parametrize("number", language.LANGUAGES)
def test_language_of_the_account(request: pytest.FixtureRequest, number: int) -> None:
    """Lines are checked by it, and the cause of one that was refused is the one of the account's language."""
    own, asked = (request.getfixturevalue(name) for name in (("browser", "connection"), ("later_browser", "later_connection"))[number])
    taken, refused = ["W $RE(A)", "S $E(A,2)=1,$P(A,1,2,3)=B", "W !?5,$X,?$Y", "D F(1,.X,):$Q Q:A B",
                      "S A=$$F(1)_$$^R D F($$G):$$H", "W A($$F),$S($$F:1,1:@$$G@(2))", "S $P(A($$F),1)=1 K A($$F)",
                      "F I=1:$$F:$$G L -A($$F):$$G W @$$F"], [
        "W ?5!", "W !?", "S $P(A,1,2,3,4)=1", "W $RE(A) R X", "W $RE(A,1)", "W $re(", "R X", "D F(.1X)", "D F(1", "G F(1)", "Q A,B", "K @A@($$F)", "W $$",
        "D $$F", "W @A@(B($$F))"]
    assert own.module(CHECK, [f" {text}" for text in taken + refused]) == [checked(asked, f" {text}") for text in taken + refused]
    assert [checked(asked, f" {text}") == [] for text in taken] == [number == 1] * len(taken)
    lists = ["A(B,C) Q", "A()", "A(B,B) Q", "A(B,) Q", "A(1) Q", "A(B", "A(B)Q", "A(B) W $$A(1)", "A(B) K @B@($$A(1))", "A(B)\t. S X=B W $H", "(B) Q",
             "A (B) Q"]
    assert own.module(CHECK, lists) == [checked(asked, text) for text in lists]
    refused += taken * (number == 0)
    assert own.module(FAULT, refused) == [as_told(fault_of(asked, text)) for text in refused]


def test_check_runs_nothing_and_leaves_the_session(browser: Browser) -> None:
    long = "S ^X=1 " * 50 + "K  "
    browser.module(CHECK, [" S ^X=1 K", f" {long}", " H", f" {long} W $$X"])
    rest = browser.module("""await window.own.line("S A=1,%m=2,%m1(1)=3 I 1"); const { check } = await import("/page/checking.js");
                             await window.own.alone((own) => check(own, [{ label: "", formals: "", level: " ", rest: "S ^X=1 K  H" }]));
                             return (await window.own.line("W A,$T,$D(^X),%m,%m1(1),$D(%m2)")).rest;""")
    assert rest == "110230"


def drawn(count: int, characters: str, longest: int) -> list[str]:
    """Texts of these characters, the same in each run."""
    draw = random.Random(1)
    return ["".join(draw.choices(characters, k=draw.randint(0, longest))) for _ in range(count)]


ASCII = "".join(map(chr, range(128)))
NUMBERS = ["0", "-0", "-", "", ".5", "0.5", "-.5", "1.50", "007", "1E3", "12", "-12", "123456789012345678", "1234567890123456789", "123456789012345678000",
           ".000000000000000001", ".0000000000000000001", "1.000000000000000001", "99999999999999999.5", "+1", "1.", " 1", "1\n"]


def test_numbers_and_names(browser: Browser) -> None:
    texts = NUMBERS + drawn(400, "0123456789.-", 6) + drawn(50, "A1%z", 33)
    given = browser.module("const { isNumber, isName } = await import('/page/mtext.js'); return given[0].map((text) => [isNumber(text), isName(text)]);", texts)
    assert given == [[keys.units(text) is not None, keys.is_name(text)] for text in texts]


def test_texts_as_people_read_them(browser: Browser) -> None:
    texts = NUMBERS[:-1] + drawn(300, ASCII, 30)
    given = browser.module("""const { written, quoted, unquoted } = await import("/page/mtext.js");
                              return given[0].map((text) => [written(text), unquoted(quoted(text))]);""", texts)
    assert given == [[mtext.written(text), text] for text in texts]


def test_arguments_and_references(browser: Browser) -> None:
    texts = ['1,"a,b",(2,3)', "", "1", '"a""b",2', "^X", "^X(1)", '^|"LAB"|X(1)', "^(1)", "@A", "X(", "1", "^1", '^X("a)",1)'] + drawn(200, '(),"1^X', 9)
    given = browser.module("const m = await import('/page/mtext.js'); return given[0].map((text) => [m.argumentsOf(text), m.isReference(text)]);", texts)
    assert given == [[mtext.arguments(text), mtext.is_reference(text)] for text in texts]


def test_lines_that_set_a_text_set_that_text(browser: Browser, connection: Connection) -> None:
    """Each line can be sent through the front, and the server then has the text."""
    texts = [*drawn(60, ASCII, 300), *drawn(20, '"', 400), *drawn(20, "\r\n\0", 90), "x" * 4095]
    given = browser.module("const { setLines } = await import('/page/mtext.js'); return given[0].map((text) => setLines('X', text));", texts)
    for text, lines in zip(texts, given, strict=True):
        assert all(len(line) <= 255 and not set(line) & set("\r\n\0") for line in lines)
        assert all(connection.send(line).ok for line in lines)
        reply = connection.send("W X")
        assert "\n".join(reply.lines) + reply.rest == text


def test_walk_gives_what_the_clients_walk_gives(browser: Browser, connection: Connection) -> None:
    draw = random.Random(2)
    nodes = {tuple(draw.choices(["1", "-2.5", "10", "a", "B c", '"', "x" * 200, "y" * 255, "\n"], k=draw.randint(1, 4))): str(number) for number in range(180)}
    script = """const [walk, { setLines }] = [await import("/page/walk.js"), await import("/page/mtext.js")];
                for (const [place, text] of given[0]) {
                  await window.own.alone((own) => walk.withReference(own, "^WALK", place, (target) => walk.askedAll(own, setLines(target, text))));
                }
                return window.own.alone((own) => walk.nodes(own, "^WALK"));"""
    given = browser.module(script, [[list(place), text] for place, text in nodes.items()])
    TerminalWay(connection).put((Entry(1, "WALK", place, text) for place, text in nodes.items()), lambda: None)
    assert [(tuple(place), text) for place, text in given] == list(Walker(connection, "^WALK").nodes())
    assert len(given) == len(nodes)


def test_sources_have_no_way_to_make_markup() -> None:
    """No module gives the browser a text as markup or as code, and the page has no script, style or address of its own in it."""
    barred = ("innerHTML", "outerHTML", "insertAdjacentHTML", "document.write", "eval(", "new Function", "DOMParser", "createContextualFragment", "srcdoc")
    for path in PAGE.glob("*.js"):
        text = path.read_text(encoding="utf-8")
        assert not [word for word in barred if word in text], path
        assert "http://" not in text and "https://" not in text, path
    html = (PAGE / "index.html").read_text(encoding="utf-8")
    assert "<style" not in html and " style=" not in html and " on" + "click" not in html and html.count("<script") == 1 and "://" not in html
    assert "url(" not in (PAGE / "style.css").read_text(encoding="utf-8")
