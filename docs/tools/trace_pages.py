"""The rules that docs/PROFILE.md and docs/SCRIPT.md name, for docs/tools/trace."""
from __future__ import annotations

import dataclasses
import pathlib
import re

PAGES = ("docs/PROFILE.md", "docs/SCRIPT.md")
# A rule has its definitions behind it: `publisher.cycle` (`next_due`)
RULE = re.compile(r"`([a-z]+\.[a-z]+)`(?:\*\*)? \(((?:`[^`\s]+`(?:, )?)+)\)(?:\. \*\*(.*?)\*\*|: ([^;]*))?")
HEADING = re.compile(r"##+ (.*)")
# Each topic: its heading, and the promises that its rules serve (docs/PROOFS.md has the five).
TOPICS = {
    "text": ("Texts", "rule"),
    "time": ("Time", "rule"),
    "telegram": ("Telegrams, read and written", "rule"),
    "topology": ("Topology counters", "rule"),
    "role": ("Redundancy groups", "rule"),
    "filter": ("Receive filters", "rule"),
    "slot": ("Slots, handles, quotas", "alone"),
    "publisher": ("Publishers", "rule"),
    "requester": ("Requesters", "rule"),
    "subscription": ("Subscriptions", "rule, network"),
    "delivery": ("Delivery", "rule, shared"),
    "listener": ("Listeners", "rule"),
    "notification": ("Notifications", "rule, network"),
    "message": ("Messages", "rule"),
    "caller": ("Callers", "rule, network"),
    "confirmation": ("Confirmations", "rule, network"),
    "replier": ("Repliers", "rule, network"),
    "session": ("Sessions", "rule"),
    "dataset": ("Datasets", "rule"),
    "line": ("Lines of a script", "rule"),
    "event": ("Events of the node", "rule"),
    "call": ("Calls of an application", "rule"),
    "out": ("What comes out", "rule"),
    "refusal": ("Refusals", "returns"),
    "control": ("Lines at control ports", "rule"),
    "run": ("How a script ends", "rule"),
}
# Rules that serve other promises than their topic.
PROMISES = {
    "caller.refusal": "returns", "caller.retries": "returns", "confirmation.refusal": "returns",
    "event.fault": "returns", "notification.refusal": "returns", "replier.error": "returns",
    "replier.status": "returns", "run.fault": "returns", "run.status": "returns", "slot.full": "returns",
    "slot.share": "alone, shared", "time.order": "rule, shared",
}


@dataclasses.dataclass
class Rule:
    """A rule: its name, the page that says it, the heading and the line there, the definitions that the page names,
    and the rule's words, if they follow there."""

    name: str
    page: str
    heading: str
    line: int
    definitions: list[str]
    words: str

    @property
    def topic(self) -> str:
        """What it is about."""
        return self.name.split(".")[0]

    @property
    def promise(self) -> str:
        """The promises that it serves."""
        return PROMISES.get(self.name, TOPICS[self.topic][1])


def rules(top: pathlib.Path) -> tuple[list[Rule], list[str]]:
    """The rules in the order of the pages, and what is wrong with them."""
    found: dict[str, Rule] = {}
    faults = []
    for page in PAGES:
        heading, line = "", 1
        for part in re.split(r"\n(?=- |\n)", (top / page).read_text()):
            heading = next((head[1] for it in part.splitlines() if (head := HEADING.match(it))), heading)
            for name, definitions, bold, plain in RULE.findall(" ".join(part.split())):
                if name in found or name.split(".")[0] not in TOPICS:
                    faults.append(f"{page}: {name}: is said twice, or is of no topic")
                place = line + part[:part.index(f"`{name}`")].count("\n")
                found[name] = Rule(name, page, heading, place, re.findall(r"`([^`]+)`", definitions), bold or plain)
            line += part.count("\n") + 1
    faults += [f"docs/tools/trace_pages.py: {name}: no page has this rule" for name in PROMISES if name not in found]
    return list(found.values()), faults
