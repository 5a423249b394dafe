"""Ten questions of newcomers, each answered from README.md by at most two links.

A way is the links that somebody follows, each of which has to be on the page before it. The answer is words of the section to which the
last one leads, or of README.md itself. The words come from what the programs print, from the service's commands, and from the standards."""
from __future__ import annotations

import os
import re
from collections.abc import Callable

from walks.steps import TOP, Walk, true

MOST_LINKS = 2
LINK = re.compile(r"\]\(([^)\s]+)\)")
# the question, the way from README.md, and what the answer has to say
QUESTIONS = [
    ("Does it read my meter?", ["#you-have-meters"],
     ["security mode 5 or 7", "refused mode FOUND WANTED", "ask its maker for mode 5 or 7"]),
    ("How do I get my own meter's values?", ["docs/GUIDE.md#the-page-of-your-own-meter-in-ten-minutes"],
     ["apt-get install", "meter_name ABC 40301210 01 04", "wmbus-service add", "wmbus-service check"]),
    ("A meter isn't read: what now?", ["docs/GUIDE.md#my-meter-isnt-there"], ["key probably wrong", "wmbus-service correct", "silent for"]),
    ("How do its values get into Home Assistant?", ["docs/SERVICE.md#mqtt-and-home-assistant"],
     ["homeassistant/sensor/wmbus_ADDRESS", "wmbus/meter/ADDRESS"]),
    ("It says `refused stale`: what does that mean?", ["docs/FORMATS.md#report"], ["`stale GOT LAST`"]),
    ("What is proved, and what do I have to trust?", ["docs/PROVED.md"], ["## What is trusted", "The toolchain", "## What isn't claimed"]),
    ("What is lost when the power fails?", ["docs/README.md", "SERVICE.md#in-which-order-it-works"], ["power cut", "COMMIT"]),
    ("What is a slot, a world, a book?", ["docs/README.md", "#glossary"], ["**slot**", "**world**", "**book**", "**stale**"]),
    ("How do I add a format that a receiver prints?", ["CONTRIBUTING.md", "docs/PROGRAMS.md#a-new-format-of-a-receiver"],
     ["line_feed", "src/printings.rt", "check_line_feed"]),
    ("How is a format's version raised, and what may readers rely on?",
     ["docs/README.md", "../CONTRIBUTING.md#how-a-formats-version-is-raised"], ["wmbus-report 1", "reads", "database"]),
]


def anchor(heading: str) -> str:
    """What a link to a heading ends with."""
    return re.sub(r"[^\w -]", "", heading.lower()).replace(" ", "-")


def section(text: str, part: str) -> str:
    """A page from the heading of this name to the next one of its level or above; the whole page where no part is named."""
    if not part:
        return text
    heads = [(found.start(), len(found[1]), found[2]) for found in re.finditer(r"^(#+) (.*)$", text, re.M)]
    for place, (begin, level, heading) in enumerate(heads):
        if anchor(heading) == part:
            ends = [other for other, depth, _ in heads[place + 1:] if depth <= level]
            return text[begin:ends[0] if ends else len(text)]
    return ""


def answered(way: list[str]) -> str:
    """What somebody reads at the end of a way from README.md."""
    page, text = "README.md", (TOP / "README.md").read_text(encoding="utf-8")
    for link in way:
        true(f"{page} has no link {link}", link in LINK.findall((TOP / page).read_text(encoding="utf-8")))
        other, _, part = link.partition("#")
        page = os.path.normpath(os.path.join(os.path.dirname(page), other)) if other else page
        text = section((TOP / page).read_text(encoding="utf-8"), part)
        true(f"the link {link} leads to no heading", text)
    return text


def step_of(question: str, way: list[str], words: list[str]) -> Callable[[Walk], None]:
    """The step that asks a question."""
    def asked(_: Walk) -> None:
        true(f"it takes {len(way)} links", len(way) <= MOST_LINKS)
        text = answered(way)
        missing = [it for it in words if it not in text]
        true(f"the answer, by {' and '.join(way)}, doesn't say {missing}", not missing)
    asked.__name__ = question
    return asked


STEPS = [step_of(*row) for row in QUESTIONS]
