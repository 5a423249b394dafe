"""The service, which dies by chance in front of or behind each of its steps, and which may do them in a wrong order; as a process of
its own, forked off."""
from __future__ import annotations

import os
import random
import signal
import sqlite3
from collections.abc import Callable
from dataclasses import dataclass
from typing import Any

from wmbus_service import broker, downlinks, events, service, session, spool, store, writing
from wmbus_service.config import Config

from .stand_in import stand_in

# the steps in front of and behind which it may die: (whose name it is, the name)
PLACES: list[tuple[Any, str]] = [
    (spool, "sync"), (events, "gather"), (session, "run_steps"), (session, "put_places"), (writing, "put_due"), (writing.Writing, "write"),
    (store, "commit"), (spool.Spool, "clear"), (downlinks, "write_downlink"), (downlinks, "mark_sent"), (broker, "publish"),
    (broker, "mark_published"),
]


# so many lines a session, and messages at once, so that there are many of both
MOST, AT_ONCE = 20, 5


class Dying:
    """Ends the process by chance; at one place alone where one is named, and there where a death tells something of what the step got."""

    def __init__(self, chance: float, log: str, only: str = "", tells: Callable[..., object] = lambda *_: True) -> None:
        self.chance, self.log, self.only, self.tells, self.draw = chance, log, only, tells, random.Random()

    def at(self, place: str, *words: Any) -> None:
        """Dies here, by chance."""
        if (not self.only or place == self.only) and self.draw.random() < self.chance and self.tells(*words):
            with open(self.log, "a", encoding="ascii") as file:
                file.write(f"{place}\n")
            os.kill(os.getpid(), signal.SIGKILL)

    def around(self, owner: Any, name: str) -> None:
        """Has a step end the process at times."""
        step: Callable[..., Any] = getattr(owner, name)

        def tried(*words: Any, **named: Any) -> Any:
            self.at(f"before {name}", *words)
            done = step(*words, **named)
            self.at(f"behind {name}", *words)
            return done
        setattr(owner, name, tried)


def place_first() -> None:
    """The lines' places are committed before a session has heard them."""
    gather = events.gather

    def gathered(told: Any, database: sqlite3.Connection, *words: Any) -> Any:
        batch = gather(told, database, *words)
        spool.put_places(database, [event.spooled for event in batch if event.spooled])
        store.commit(database)
        database.execute("begin immediate")
        return batch
    setattr(events, "gather", gathered)


def downlinks_first() -> None:
    """Downlinks go out before the session that made them is committed."""
    write = writing.Writing.write

    def written(self: writing.Writing, *words: Any) -> None:
        write(self, *words)
        for receiver, frame in self.database.execute("select receiver, frame from outbox where made = ?", (self.now,)).fetchall():
            downlinks.write_downlink(self.config.receivers[receiver].downlinks, frame)
    setattr(writing.Writing, "write", written)


def no_fence() -> None:
    """How far the lines are taken is known to the process alone."""
    places: dict[tuple[str, str], int] = {}

    def put(_database: sqlite3.Connection, lines: list[spool.Spooled]) -> None:
        places.update({(line.receiver, line.file): line.behind for line in lines})
    setattr(session, "put_places", put)
    spool.place_of = lambda _database, receiver, file: places.get((receiver, file), 0)


def marked_first() -> None:
    """Messages are taken away before the broker has acknowledged them."""
    publish, mark = broker.publish, broker.mark_published
    waiting: list[sqlite3.Connection] = []
    open_store = store.open_store

    def opened(*words: Any, **named: Any) -> sqlite3.Connection:
        waiting[:] = [open_store(*words, **named)]
        return waiting[0]

    def published(client: Any, rows: Any) -> None:
        mark(waiting[0], rows)
        publish(client, rows)
    store.open_store, broker.publish = opened, published


def ticks_apart() -> None:
    """When the next tick is due is written by itself, behind the session's commit."""
    put, commit = writing.put_due, store.commit
    waiting: list[Any] = []
    writing.put_due = lambda *words: waiting.append(words)

    def committed(database: sqlite3.Connection) -> None:
        commit(database)
        while waiting:
            put(*waiting.pop(0))
    store.commit = committed


def has(query: str) -> Callable[[sqlite3.Connection], bool]:
    """Whether the database has such a row."""
    return lambda database, *_: database.execute(f"select exists ({query})").fetchone()[0] == 1


@dataclass(frozen=True)
class Wrong:
    """A wrong order: how it is worked in, where the service dies then, each time that the step's words make the death tell of it, and what
    is to be seen of it."""

    work_in: Callable[[], None]
    place: str
    tells: Callable[..., object]
    sign: str


WRONG: dict[str, Wrong] = {
    # (the lines that are given to the session are lost with it)
    "place first": Wrong(place_first, "before run_steps", lambda _program, _state, lines: any(it.startswith("A ") for it in lines),
                         "lines of"),
    "downlinks first": Wrong(downlinks_first, "before commit", has("select 1 from outbox where sent is null"), "downlinks: "),
    "no fence": Wrong(no_fence, "behind commit", has("select 1 from line where receiver is not null"), "doubled"),
    "marked first": Wrong(marked_first, "before publish", lambda _client, rows: any("/meter/" in topic for _, topic, *_ in rows),
                          "messages: "),
    # (a tick was committed, and is due as before)
    "ticks apart": Wrong(ticks_apart, "before put_due",
                         has("select 1 from line join meter on line.text = 'T ' || meter.address and line.due = meter.due"), "ticks: "),
}


def run(config: Config, chance: float, deaths: str, wrong: str) -> None:
    """Runs the service, in a wrong order where one is named."""
    told = WRONG.get(wrong)
    dying = Dying(chance, deaths, told.place, told.tells) if told else Dying(chance, deaths)
    if not config.programs.steps:
        setattr(session, "run_steps", stand_in)
    for owner, name in PLACES:
        dying.around(owner, name)
    if told:
        told.work_in()
    for owner, name, value in ((session, "MOST", MOST), (service, "MOST", MOST), (broker, "AT_ONCE", AT_ONCE)):
        setattr(owner, name, value)
    service.run(config)
