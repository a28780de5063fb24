# SPDX-License-Identifier: Apache-2.0
"""The page of the language, for browsers: docs/LANGUAGE.md as HTML. All texts are escaped, and of Markdown there is what that document uses: headings,
paragraphs, lists, tables, code, emphasis, and links to its own headings."""
from __future__ import annotations

import html
import itertools
import re
from collections.abc import Iterator
from pathlib import Path

# In a checkout and in the package it is beside the front's folder.
LANGUAGE = Path(__file__).resolve().parents[2] / "docs" / "LANGUAGE.md"
HEAD = """<!doctype html>
<html lang="en">
<head>
<meta charset="utf-8">
<meta name="viewport" content="width=device-width, initial-scale=1">
<meta name="color-scheme" content="light dark">
<meta name="referrer" content="no-referrer">
<title>{title}</title>
<link rel="icon" href="icon.svg" type="image/svg+xml">
<link rel="stylesheet" href="style.css">
</head>
<body class="document">
<main>
"""
END = "</main>\n</body>\n</html>\n"
HEADING = re.compile(r"(#{1,3}) (.+)")
COMMENT = re.compile(r"<!--.*-->")
RULE = re.compile(r"\|(?:-+\|)+")
# Where a cell ends: a `\|` is a character of its text.
BAR = re.compile(r"(?<!\\)\|")
SPAN = re.compile(r"`([^`]+)`|\*\*(.+?)\*\*|\*(.+?)\*|\[([^\]]+)\]\(#([\w-]+)\)")
TAGS = {1: "code", 2: "strong", 3: "em"}


def language_page() -> str | None:
    """The page of the language; None where its document is not installed."""
    return page_of(LANGUAGE.read_text(encoding="utf-8")) if LANGUAGE.is_file() else None


def page_of(text: str) -> str:
    """The page of a document."""
    parts = list(_parts(text))
    title = html.escape(parts[0].partition(" ")[2]) if parts and parts[0].startswith("# ") else "mserve"
    made: list[str] = []
    for is_list, some in itertools.groupby(parts, lambda part: part.startswith("- ")):
        made += ["<ul>\n", *map(_part, some), "</ul>\n"] if is_list else map(_part, some)
    return HEAD.format(title=title) + "".join(made) + END


def _parts(text: str) -> Iterator[str]:
    """What is between empty lines, without comments; a heading, and each entry of a list, is a part of its own."""
    lines: list[str] = []
    for line in [*text.splitlines(), ""]:
        if lines and (not line or HEADING.fullmatch(line) or line.startswith("- ")):
            yield "\n".join(lines)
            lines = []
        if line and not COMMENT.fullmatch(line):
            lines.append(line)


def _part(part: str) -> str:
    """A part as HTML."""
    if heading := HEADING.fullmatch(part):
        level = len(heading[1])
        return f'<h{level} id="{anchor(heading[2])}">{_inline(heading[2])}</h{level}>\n'
    if part.startswith("- "):
        return f"<li>{_inline(_joined(part[2:]))}</li>\n"
    if part.startswith("|"):
        return _table(part.split("\n"))
    return f"<p>{_inline(_joined(part))}</p>\n"


def _joined(text: str) -> str:
    """Lines as one."""
    return " ".join(line.strip() for line in text.split("\n"))


def _table(lines: list[str]) -> str:
    """A table, which may be wider than a phone."""
    head = len(lines) > 1 and RULE.fullmatch(lines[1]) is not None
    rows = [_row(line, "th" if head and place == 0 else "td") for place, line in enumerate(lines) if not RULE.fullmatch(line)]
    return f'<div class="scrolls" tabindex="0"><table>\n{"".join(rows)}</table></div>\n'


def _row(line: str, tag: str) -> str:
    cells = (cell.strip().replace(r"\|", "|") for cell in BAR.split(line.strip().removeprefix("|").removesuffix("|")))
    start = '<th scope="col">' if tag == "th" else "<td>"
    return "<tr>" + "".join(f"{start}{_inline(cell)}</{tag}>" for cell in cells) + "</tr>\n"


def _inline(text: str) -> str:
    """A text with its code, emphasis and links; all else is escaped."""
    made, at = [], 0
    for found in SPAN.finditer(text):
        made.append(html.escape(text[at:found.start()]))
        at = found.end()
        if found[4] is not None:
            made.append(f'<a href="#{found[5]}">{_inline(found[4])}</a>')
        else:
            kind = next(kind for kind in TAGS if found[kind] is not None)
            inner = html.escape(found[kind]) if kind == 1 else _inline(found[kind])
            made.append(f"<{TAGS[kind]}>{inner}</{TAGS[kind]}>")
    return "".join(made) + html.escape(text[at:])


def anchor(heading: str) -> str:
    """The name of a heading, as links have it."""
    return re.sub(r"[^\w\- ]", "", heading.lower()).strip().replace(" ", "-")
