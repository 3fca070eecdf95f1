"""How a text of a file is shown in a line of a report."""
from __future__ import annotations

MOST = 200


def shown(text: str) -> str:
    """The text, in quotes if it is more than one plain word, and not all of it if it is long."""
    if len(text) > MOST:
        text = text[:MOST] + "..."
    return text if text.isprintable() and text and not set(text) & set(" '\"") else repr(text)


def word_of(text: str) -> str:
    """The text as one word of a remark: each blank, and what cannot be printed, is an underscore."""
    return "".join(it if it.isprintable() and it != " " else "_" for it in text[:MOST])
