# SPDX-License-Identifier: Apache-2.0
"""The page of the language: made of docs/LANGUAGE.md, whole, and with no markup but the front's own."""
from __future__ import annotations

import re
import urllib.request
from html.parser import HTMLParser

import pytest
from front import Front
from mserve_front.document import LANGUAGE, anchor, page_of

# What the page may have: no script, no style of its own, no form.
TAGS = {"html", "head", "meta", "title", "link", "body", "main", "h1", "h2", "h3", "p", "ul", "li", "div", "table", "tr", "th", "td", "code", "strong", "em",
        "a"}
ATTRIBUTES = {"lang", "charset", "name", "content", "rel", "href", "type", "class", "id", "tabindex", "scope"}
EMPTY = {"meta", "link"}


class Seen(HTMLParser):
    """What a browser makes of a page: its elements, its texts, its ids and where its links lead."""

    def __init__(self, page: str) -> None:
        super().__init__()
        self.tags: list[str] = []
        self.attributes: list[tuple[str, str | None]] = []
        self.texts: list[str] = []
        self.open: list[str] = []
        self.feed(page)
        self.close()
        assert self.open == []

    def handle_starttag(self, tag: str, attributes: list[tuple[str, str | None]]) -> None:
        self.tags.append(tag)
        self.attributes += attributes
        if tag not in EMPTY:
            self.open.append(tag)

    def handle_endtag(self, tag: str) -> None:
        assert self.open.pop() == tag

    def handle_data(self, data: str) -> None:
        self.texts.append(data)

    def of(self, name: str) -> list[str]:
        """The values of an attribute."""
        return [str(value) for key, value in self.attributes if key == name]


def test_the_page_has_all_that_the_document_has() -> None:
    text = LANGUAGE.read_text(encoding="utf-8")
    seen = Seen(page_of(text))
    headings = re.findall(r"^#+ (.+)$", text, re.MULTILINE)
    assert seen.of("id") == [anchor(one) for one in headings] and len(headings) > 15
    links = [place for place in seen.of("href") if place.startswith("#")]
    assert len(links) > 15 and {place[1:] for place in links} <= set(seen.of("id"))
    rows = [line for line in text.splitlines() if line.startswith("|") and not line.startswith("|---")]
    assert seen.tags.count("tr") == len(rows) > 100
    assert seen.tags.count("li") == len(re.findall(r"^- ", text, re.MULTILINE))
    shown = "".join(seen.texts)
    for words in ("`", "|---", "<!--", "-->", "](#"):
        assert words not in shown
    for words in ("S A(\"\")=1", "$A[SCII](text[,place])", "D L^|\"LIB\"|R", "1(1A,1N)"):
        assert words in shown


def test_every_text_is_escaped() -> None:
    harm = "<script>alert(1)</script> <img src=x onerror=y> &amp; \"'"
    page = page_of(f"# {harm}\n\n{harm}\n\n- {harm}\n\n| {harm} |\n|---|\n| `{harm}` |\n\n**{harm}** *{harm}* [{harm}](#there) [x](javascript:alert(1))\n")
    seen = Seen(page)
    assert set(seen.tags) <= TAGS and {name for name, _ in seen.attributes} <= ATTRIBUTES
    assert "".join(seen.texts).count(harm) == 9 and "[x](javascript:alert(1))" in "".join(seen.texts)
    assert all(place.startswith("#") or place in ("icon.svg", "style.css") for place in seen.of("href"))


def test_it_is_served_to_all_as_the_page_is(plain_front: Front) -> None:
    with urllib.request.urlopen(f"{plain_front.origin}/page/language.html", timeout=60) as answer:
        page = answer.read().decode()
        assert answer.status == 200 and answer.headers["Content-Type"] == "text/html; charset=utf-8"
        assert "default-src 'self'" in answer.headers["Content-Security-Policy"] and answer.headers["Cache-Control"] == "no-cache"
    assert page == page_of(LANGUAGE.read_text(encoding="utf-8")) and "<script" not in page


@pytest.fixture
def plain_front(start) -> Front:
    """A front without TLS."""
    return start(tls=False)
