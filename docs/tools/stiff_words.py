"""Stiff English that a search can find, for docs/tools/check_sentences: the patterns, and how often each page may still
have each of them.

sentence_allowances.toml beside this file has these numbers, one line for each page and pattern. A page or a pattern
that is not in it may have none. The numbers only fall: `lower` writes lower ones and never a higher one. If text moves
to another page, or a page gets another name, move its numbers in the file by hand.
"""
from __future__ import annotations

import re
import sys
from collections import Counter
from collections.abc import Collection, Iterator
from pathlib import Path
from typing import NamedTuple

Counts = dict[tuple[str, str], int]
ALLOWANCES = Path(__file__).with_name("sentence_allowances.toml")
ALLOWANCE = re.compile(r'"([^"]+)"\.(\w+) = ([1-9]\d*)')
HEAD = "# How often each page may have stiff words. docs/tools/check_sentences reads this; its --lower writes it.\n"
NUMBER = (r"(?:\d[\d,.]*|half|two|three|four|five|six|seven|eight|nine|ten|eleven|twelve|fifteen|sixteen|twenty|thirty"
          r"|forty|fifty|sixty|ninety|dozen|hundred|thousand|million)\b")
# What may stand before more and is no noun: two or more, a little more, five more, a third more.
NO_NOUN = rf"(?:and|or|bit|few|little|lot|times?|third|quarter|fifth|sixth|eighth|tenth|{NUMBER})"
# Each pattern by its name: the words, and what to write instead. A space stands for any space, and for a line's end.
STIFF = {
    "alone": (r"(?:[\w'-]+,? ){0,2}\balone\b", "write 'only', before what it limits"),
    "hand_tell_hear_want": (
        r"(?<!by\s)\bhand(?:s|ed|ing)? (?:\w+ )?(?:in|out|on|over|back)\b|\b(?:tells?|told|telling)\b"
        r"|\b(?:hears?|heard|hearing)\b|\bwant(?:s|ed|ing)?\b",
        "write 'pass', 'return', 'report', 'print', 'notify', 'receive' or 'need'"),
    "headless": (r"\b(?:those of|that of|(?<!the\s)one that|another one|(?:each|every) other one)\b",
                 "repeat the noun"),
    "in_place_of": (r"\bin place of\b", "write 'instead of'"),
    "noun_more": (
        rf"\b(?:an?|one|several|some|{NUMBER}) (?!{NO_NOUN}\b)[a-z]\w* (?:more|less)\b(?! (?:than|often|\w+ly)\b)",
        "write 'one more line', or 'one retry fewer'"),
    "some_number": (rf"\bsome {NUMBER}", "write 'about'"),
}
# Words of a pattern that are no fault. The first two lines are terms of the promise: a slot receives what it would
# receive alone. The others are what anyone would say.
ALLOWED = (
    r"\b(?:receives?|gets?|does|ends?|runs?|as if) alone\b",
    r"\bslot alone,? and (?:in )?its view\b|\balone in its view\b|\bat s alone\b|\"alone\"|\| alone \||/alone\.antt",
    r"\b(?:comes|holds|let) alone\b|\bleaves? the \w+ alone\b",
    r"\b(?:tells?|told|telling) (?:\w+ ){0,2}apart\b|\byou want\b",
    # A fault already, by another rule of check_sentences.
    r"\bwant of memory\b",
)


def pattern_of(words: str) -> re.Pattern[str]:
    """A pattern in whose words a space stands for any space."""
    return re.compile(words.replace(" ", r"\s+"), re.IGNORECASE)


PATTERNS = {name: pattern_of(words) for name, (words, _) in STIFF.items()}
NO_FAULT = pattern_of("|".join(ALLOWED))


class Stiff(NamedTuple):
    """A place where a pattern was found: its page and its name, the line, and the words."""

    key: tuple[str, str]
    line: int
    words: str


def stiff_words(page: str, number: int, text: str) -> Iterator[Stiff]:
    """The places of all patterns in a paragraph that begins at this line of the page."""
    left = NO_FAULT.sub(lambda allowed: re.sub(r"\S", "_", allowed[0]), text)
    for name, pattern in PATTERNS.items():
        for found in pattern.finditer(left):
            yield Stiff((page, name), number + left.count("\n", 0, found.end()), " ".join(found[0].split()))


def allowances() -> Counts:
    """How often each page may have each pattern, as the file says. A line that cannot be read ends the program."""
    counts: Counts = {}
    for at, line in enumerate(ALLOWANCES.read_text().splitlines(), 1):
        read = ALLOWANCE.fullmatch(line)
        if read and (read[1], read[2]) not in counts:
            counts[read[1], read[2]] = int(read[3])
        elif not line.startswith("#"):
            sys.exit(f'{ALLOWANCES}:{at}: not a line such as "README.md".alone = 1, or a second one for this pattern')
    return counts


def lower(pages: Collection[str], found: list[Stiff]) -> None:
    """Writes what was found in these pages into the file, where that is less than the file allows."""
    real = Counter(it.key for it in found)
    counts = {key: min(most, real[key]) if key[0] in pages else most for key, most in allowances().items()}
    lines = [f'"{page}".{name} = {most}\n' for (page, name), most in sorted(counts.items()) if most]
    ALLOWANCES.write_text(HEAD + "".join(lines))


def stiff_faults(pages: Collection[str], found: list[Stiff]) -> Iterator[str]:
    """A line for each place of a pattern that its page has too often, and one for each number that can be lowered."""
    counts, real = allowances(), Counter(it.key for it in found)
    for (page, name), line, words in found:
        count, most = real[page, name], counts.get((page, name), 0)
        if count > most:
            yield f"{page}:{line}: {name}, {count} found and {most} allowed: '{words}': {STIFF[name][1]}"
    for (page, name), most in counts.items():
        count = real[page, name]
        if page in pages and count < most:
            yield f"{page}: {name}, {count} found and {most} allowed: run docs/tools/check_sentences --lower"
