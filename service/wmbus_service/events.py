"""The lines of a session, in their order: what operators asked for, then receivers' lines by their moments, with each meter's tick
where it was due."""
from __future__ import annotations

import sqlite3
from collections.abc import Sequence
from typing import NamedTuple

from .config import Config, Ticks, words_of
from .merging import merged, moment_in
from .spool import Spool, Spooled


class Event(NamedTuple):
    """A line of a session: of a receiver, for a command (by its id), or a meter's tick, with the moment at which it was due."""

    text: str
    spooled: Spooled | None = None
    command: str | None = None
    ticked: str | None = None
    due: float | None = None


def gather(config: Config, database: sqlite3.Connection, spools: Sequence[Spool], now: float, most: int) -> list[Event]:
    """What is to be heard now, so many lines at most. While lines are left for a later session, no tick stands behind those that are
    taken: it would overtake what was heard before it was due."""
    asked = asked_for(database)[:most]
    room = most - len(asked)
    heard = merged([spool.take(database, room) for spool in spools], words_of(config.programs.line_merge))[:room]
    events = with_ticks(heard, due_ticks(config.ticks, database, now)[:room])
    while events and events[-1].ticked and len(heard) == room:
        events.pop()
    # (a line that is left out here is taken by a later session: its place isn't committed)
    return (asked + events)[:most]


def asked_for(database: sqlite3.Connection) -> list[Event]:
    """The lines for what operators asked for and no session has heard yet, the oldest first."""
    # (by the index of those that are open: all that ever were stay)
    rows = database.execute("select id, address, kind, payload, number, state from command where state in ('waiting', 'queued', 'sent')"
                            " and (state = 'waiting' or wish = 'cancel') order by rowid")
    return [Event(order_line(*row), command=ident) for ident, *row in rows]


def order_line(address: str, kind: str, payload: str, number: int | None, state: str) -> str:
    """The line by which a command, as its row has it, is put, or cancelled once the program has it."""
    if state != "waiting":
        return f"X {address} {number}"
    return f"Q {address} {payload}" if kind == "send" else f"K {address} {payload}"


def due_ticks(ticks: Ticks, database: sqlite3.Connection, now: float) -> list[tuple[float, str]]:
    """The meters whose tick is due, and since when. None is due later than it can be, unless the clock was set back: then it comes in
    time all the same, also where its meter isn't heard any more."""
    latest = now + max(ticks.window, ticks.fragments)
    rows = database.execute("select due, address from meter where due <= ? or due > ? order by due, address", (now, latest)).fetchall()
    database.executemany("update meter set due = ? where address = ?", [(latest, address) for due, address in rows if due > latest])
    return [(due, address) for due, address in rows if due <= now]


def with_ticks(heard: Sequence[Spooled], ticks: Sequence[tuple[float, str]]) -> list[Event]:
    """Each tick stands in front of what was heard later than it was due."""
    if not ticks:
        return [Event(line.text, line) for line in heard]
    events: list[Event] = []
    waiting, moment = list(ticks), 0
    for line in heard:
        moment = moment_in(line.text, moment)
        while waiting and waiting[0][0] < moment:
            events.append(_tick(*waiting.pop(0)))
        events.append(Event(line.text, spooled=line))
    return events + [_tick(due, address) for due, address in waiting]


def _tick(due: float, address: str) -> Event:
    """A meter's tick."""
    return Event(f"T {address}", ticked=address, due=due)
