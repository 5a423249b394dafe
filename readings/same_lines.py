"""Which reports are of the same lines: a receiver's file that was heard twice, once perhaps further than before.

A report has no lines, but it has the place of each step's line and the step's meter. Of two reports the one that has all steps of the
other's receivers covers it, and of two that have the same ones the later does. What a covered report says beside its readings is said
twice, and so isn't counted."""
from __future__ import annotations

import sqlite3
import zlib
from collections.abc import Iterable

# a step: its line, its meter's address and its words
Step = tuple[int, str, str]
# so many steps of two or more meters in the same lines are no chance
SURE_STEPS = 16
# a receiver's first step stands within so many bytes of its blob
FIRST_BYTES = 1 << 10


def packed(steps: Iterable[Step]) -> bytes:
    """The steps of a receiver as a blob: each its line, its address and its words, for a stored one its counter and its moment."""
    return zlib.compress("\n".join(f"{line} {address} {words}" for line, address, words in sorted(steps)).encode("ascii"))


def unpacked(blob: bytes) -> dict[str, str]:
    """The words of each step by its line and address."""
    texts = (text.split(" ", 2) for text in zlib.decompress(blob).decode("ascii").split("\n"))
    return {f"{line} {address}": words for line, address, words in texts}


def first_words(begun: bytes) -> str | None:
    """The words of a receiver's first step, by what its blob begins with; none where that isn't enough."""
    reader = zlib.decompressobj()
    text, is_whole, _ = reader.decompress(begun, FIRST_BYTES).decode("ascii").partition("\n")
    return text.split(" ", 2)[2] if is_whole or reader.eof else None


def are_other(some: str, words: str | None) -> bool:
    """Whether the words of a step say of a line that another message was stored there."""
    return words is not None and some.startswith("stored ") and words.startswith("stored ") and some != words


def are_same(some: dict[str, str], all_of: dict[str, str]) -> bool:
    """Whether the steps of a receiver are among those of another one, so that both are of the same lines; another roster may have more of
    them."""
    if not some.keys() <= all_of.keys():
        return False
    stored = [at for at in some if some[at].startswith("stored ") and all_of[at].startswith("stored ")]
    if stored:
        return all(some[at] == all_of[at] for at in stored)
    return some == all_of or len(some) >= SURE_STEPS and len({at.split(" ")[1] for at in some}) > 1


def covers(one: list[dict[str, str]], other: list[dict[str, str]]) -> bool:
    """Whether a report's receivers have all that those of another one have."""
    return all(any(are_same(steps, more) for more in one) for steps in other)


def firsts_of(steps: Iterable[Step]) -> str:
    """Of each meter its first step: the line and the address, in the order of the lines."""
    found: dict[str, str] = {}
    for line, address, _ in sorted(steps):
        found.setdefault(address, f"{line} {address}")
    return "\n".join(found.values())


def report_of(heard: tuple[int, list[dict[str, str]]]) -> int:
    """By what reports are sorted: the number of each."""
    return heard[0]


def put_heard(database: sqlite3.Connection, number: int, heard: dict[int, list[Step]]) -> None:
    """Puts the steps of a report's receivers, and finds the reports that it covers, or one that covers it."""
    rows = [(number, receiver, firsts_of(steps), packed(steps)) for receiver, steps in heard.items()]
    database.executemany("INSERT INTO heard VALUES (?, ?, ?, ?)", rows)
    find_same(database, number)


def find_same(database: sqlite3.Connection, number: int) -> None:
    """Finds the reports that a report covers, or one that covers it."""
    own = heard_of(database, number)
    begins = [text.partition("\n")[0] for text, in database.execute("SELECT first FROM heard WHERE report = ?", (number,))]
    near = set()
    others = database.execute("SELECT report, first, substr(steps, 1, ?) FROM heard WHERE report <> ?", (FIRST_BYTES, number))
    for report, text, begun in others:
        # only these can be of the same lines
        firsts = text.split("\n")
        told = [steps[firsts[0]] for steps in own if firsts[0] in steps]
        words = first_words(begun) if told else None
        if not all(are_other(it, words) for it in told) or any(begin in firsts[1:] for begin in begins):
            near.add(report)
    for report in sorted(near):
        (earlier, some), (later, more) = sorted([(report, heard_of(database, report)), (number, own)], key=report_of)
        if covers(more, some):
            database.execute("INSERT OR REPLACE INTO covered VALUES (?, ?)", (earlier, later))
        elif covers(some, more):
            database.execute("INSERT OR REPLACE INTO covered VALUES (?, ?)", (later, earlier))


def heard_of(database: sqlite3.Connection, number: int) -> list[dict[str, str]]:
    """The steps of a report's receivers, each by its line and address."""
    return [unpacked(blob) for blob, in database.execute("SELECT steps FROM heard WHERE report = ?", (number,))]
