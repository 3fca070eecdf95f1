"""What the lines of a control port say."""
from __future__ import annotations

import re
from typing import NamedTuple

ANSWERS = ("handle", "done", "value", "refused")


def forms() -> dict[str, re.Pattern[str]]:
    """What follows each first word of an answer or an indication, by docs/SCRIPT.md."""
    number, data, place = "(?:0|[1-9][0-9]{0,9})", "(?:-|(?:[0-9a-f]{2})+)", r"[0-9.]{7,15}:[0-9]{1,5}"
    name, session = "[A-Z][A-Za-z0-9]*", "[0-9a-f]{8}(?:-[0-9a-f]{4}){3}-[0-9a-f]{12}"
    message = f"{number} {data} {data} {data}"
    forms = {
        "handle": number, "done": "", "value": f"(?:Never|Valid|Silent) {number} {data}", "refused": name,
        "silent": number, "alive": number, "overrun": number, "notified": f"{number} {place} {message}",
        "asked": f"{number} {number} {session} {place} {message}",
        "replied": f"{number} {place} (?:Mp|Mq|Me) -?{number} {number} {data}",
        "confirmed": f"{number} -?{number}", "closed": f"{number} {name}",
    }
    return {word: re.compile(f"{word} {form}" if form else word) for word, form in forms.items()}


FORMS = forms()
SLOT_LINE = re.compile("(0|[1-9][0-9]{0,4}) (([a-z]+)(?: .*)?)")


class Said(NamedTuple):
    """What a line of a control port says: which slot, and the words of an answer or an indication."""

    slot: int
    words: list[str]


def read_line(line: str) -> Said | None:
    """An answer or an indication of a slot; None of any other line. Raises ValueError where a line begins as one, and
    isn't one."""
    found = SLOT_LINE.fullmatch(line)
    form = FORMS.get(found[3]) if found else None
    if found is None or form is None:
        return None
    if not form.fullmatch(found[2]):
        raise ValueError(line)
    return Said(int(found[1]), found[2].split(" "))


def read_line_or_none(line: str) -> Said | None:
    """What a line says, where it is an answer or an indication."""
    try:
        return read_line(line)
    except ValueError:
        return None


def line_of(data: bytes) -> str:
    """The line in a datagram of the daemon, without its end."""
    return data.decode("ascii", "replace").rstrip("\n")
