"""Links and paragraphs of the pages in docs/, for docs/tools/trace."""
from __future__ import annotations

import re
import textwrap

WIDTH = 120


def wrapped(text: str, indent: str = "") -> str:
    """A paragraph, or an item of a list. No word is broken, and so no target of a link."""
    return textwrap.fill(text, WIDTH, subsequent_indent=indent, break_long_words=False, break_on_hyphens=False)


def anchor(heading: str) -> str:
    """The name by which a link finds a heading of a page."""
    return re.sub(r"[^\w\- ]", "", heading.lower()).replace(" ", "-")


def link(text: str, file: str, heading: str = "") -> str:
    """A link from a page of docs/ to a file of the project, or to a heading of another page."""
    target = file.removeprefix("docs/") if file.startswith("docs/") else f"../{file}"
    return f"[{text}]({target}{'#' + anchor(heading) if heading else ''})"
