"""Whose messages are taken next: each gateway has its turn, and one that sends more than others wait for has no more than its part of a
batch."""
from __future__ import annotations

from collections import Counter
from collections.abc import Sequence
from dataclasses import dataclass

from .messages import Message

# where more waits than one transaction takes a gateway has so many lines and messages of it
LINES, MESSAGES = 1000, 100


@dataclass(frozen=True)
class Held:
    """A message in hand: its area's queue, its tag there, its gateway, and what it is, or else why it is none."""

    area: str
    tag: int
    gateway: str
    message: Message | None
    what: str = ""

    def lines(self) -> int:
        """How many lines it has."""
        return len(self.message.lines) if self.message else 0


@dataclass(frozen=True)
class Batch:
    """What is taken now, and what is left, to be asked for again later."""

    taken: list[Held]
    left: list[Held]


def next_batch(held: Sequence[Held], messages: int, lines: int, is_full: bool, room: int) -> Batch:
    """Of the messages in hand the first ones of each gateway, then the second ones, and so on, so many messages and lines at most, one at
    least; each gateway's in their order. Of a gateway that has more than its part so many wait as there is room for in each area; those
    behind them are left, as a gateway's messages can be asked for again and the others' have to come through."""
    turn: Counter[str] = Counter()
    order = []
    for place, it in enumerate(held):
        order.append((turn[it.gateway], place))
        turn[it.gateway] += 1
    taken: set[int] = set()
    of_lines, of_messages, over, total = Counter[str](), Counter[str](), set[str](), 0
    for _, place in sorted(order):
        it = held[place]
        if it.gateway in over:
            continue
        if taken and (total + it.lines() > lines or len(taken) == messages):
            break
        if is_full and of_messages[it.gateway] and (of_lines[it.gateway] + it.lines() > LINES or of_messages[it.gateway] == MESSAGES):
            over.add(it.gateway)
            continue
        taken.add(place)
        total += it.lines()
        of_lines[it.gateway] += it.lines()
        of_messages[it.gateway] += 1
    waiting: Counter[str] = Counter()
    left = []
    for place, it in enumerate(held):
        if place not in taken and it.gateway in over:
            waiting[it.area] += 1
            if waiting[it.area] > room:
                left.append(it)
    return Batch([it for place, it in enumerate(held) if place in taken], left)
