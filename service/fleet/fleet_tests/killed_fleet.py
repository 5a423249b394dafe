"""The fleet's processes, which die by chance in front of or behind each of their steps, and which may do them in a wrong order; each
forked off."""
from __future__ import annotations

import time
from collections.abc import Callable, Iterator
from contextlib import ExitStack, contextmanager
from dataclasses import dataclass
from pathlib import Path
from typing import Any

from tests.killed_service import Dying
from tests.stand_in import stand_in
from wmbus_fleet import asking, broker, downlinks, gateway, intake, sessions, store, writing
from wmbus_fleet.config import Config, Gateway
from wmbus_fleet.messages import Down, down_body
from wmbus_service import spool
from wmbus_service import store as gateway_store
from wmbus_service.config import Config as ServiceConfig
from wmbus_service.ending import Ending

# the steps in front of and behind which each process may die: (whose name it is, the name)
PLACES: dict[str, list[tuple[Any, str]]] = {
    "gateway": [(spool, "sync"), (gateway.Agent, "_make"), (gateway, "put_places"), (gateway_store, "commit"), (broker, "publish"),
                (gateway, "mark_acknowledged"), (gateway, "write_downlink"), (gateway, "arm"), (gateway.Agent, "send_again")],
    "intake": [(intake, "accept"), (intake, "put_lines"), (intake, "put_fences"), (store, "commit"), (intake, "acknowledge"),
               (asking, "ask")],
    "sessions": [(sessions, "take"), (sessions, "run_steps"), (sessions, "write"), (store, "commit")],
    "downlinks": [(broker, "publish"), (downlinks, "mark_sent")],
}
# so many lines a session, a message and a batch, so that there are many of each
MOST = 25


def place_first(_config: Config) -> None:
    """A gateway commits how far it has taken lines before the message that holds them."""
    take = spool.Spool.take

    def taken(self: spool.Spool, database: Any, most: int) -> list[spool.Spooled]:
        lines = take(self, database, most)
        spool.put_places(database, lines)
        gateway_store.commit(database)
        database.execute("begin immediate")
        return lines
    setattr(spool.Spool, "take", taken)


def no_fence(_config: Config) -> None:
    """How far messages are taken is known to the intake's process alone."""
    known: dict[str, tuple[int, int]] = {}
    fences = intake.Intake._fences

    def own(self: intake.Intake, names: set[str]) -> dict[str, tuple[int, int]]:
        return {name: known.get(name, (0, 0)) for name in fences(self, names)}

    def put(_database: store.Database, moved: Any, _until: Any) -> None:
        known.update(moved)
    setattr(intake.Intake, "_fences", own)
    setattr(intake, "put_fences", put)


def acknowledged_first(_config: Config) -> None:
    """Messages are acknowledged as they come."""
    hold = intake.Consuming._hold

    def held(self: intake.Consuming, channel: Any, method: Any, properties: Any, body: bytes) -> None:
        channel.basic_ack(method.delivery_tag)
        hold(self, channel, method, properties, body)
    setattr(intake.Consuming, "_hold", held)
    setattr(intake, "acknowledge", lambda _channel, _tag: None)


def downlinks_first(config: Config) -> None:
    """Downlinks go out before the session that made them is committed."""
    write = writing.write

    def written(database: store.Database, *words: Any) -> None:
        write(database, *words)
        rows = database.execute("select gateway, address, down, frame from outbox where made = %s order by id", (words[-1],)).fetchall()
        if rows:
            with broker.connected(config.broker) as connection:
                for name, address, down, frame in rows:
                    broker.publish(broker.opened(connection), "", broker.gateway_queue(name), down_body(Down(address, down, frame, 1000)))
    setattr(sessions, "write", written)


def marked_first(_config: Config) -> None:
    """Downlinks are marked before the broker has them."""
    sent, mark = downlinks._sent, downlinks.mark_sent
    waiting: list[Any] = []

    def marked(database: store.Database, *words: Any) -> None:
        pass

    send = downlinks.send

    def sending(config: Config, database: store.Database, *words: Any) -> int:
        waiting[:] = [database]
        return send(config, database, *words)

    def first(channel: Any, name: str, downlink: Down) -> str | None:
        (ident,) = store._row(waiting[0].execute("select id from outbox where address = %s and down = %s",
                                                 (downlink.address, downlink.down)))
        mark(waiting[0], ident, time.time())
        return sent(channel, name, downlink)
    setattr(downlinks, "send", sending)
    setattr(downlinks, "_sent", first)
    setattr(downlinks, "mark_sent", marked)


def has(query: str) -> Callable[[store.Database], bool]:
    """Whether the database has such a row."""
    return lambda database, *_: bool(store.one(database, f"select exists ({query})"))


@dataclass(frozen=True)
class Wrong:
    """A wrong order: how it is worked in, where its process dies then, each time that the step's words make the death tell of it, and what
    is to be seen of it."""

    work_in: Callable[[Config], None]
    place: str
    tells: Callable[..., object]
    sign: str


WRONG: dict[str, Wrong] = {
    "place first": Wrong(place_first, "gateway: before put_places", lambda _database, lines: bool(lines), "lost"),
    "no fence": Wrong(no_fence, "intake: behind commit", has("select 1 from inbox union all select 1 from line where gateway is not null"),
                      "doubled"),
    # (the transaction that is lost has made a downlink)
    "downlinks first": Wrong(downlinks_first, "sessions: before commit",
                             has("select 1 from outbox where xmin::text = pg_current_xact_id_if_assigned()::xid::text"), "downlinks: "),
    "marked first": Wrong(marked_first, "downlinks: before publish", lambda *_: True, "marked and never came"),
}
# a wrong order that is healed: what is lost by it is asked for again
HEALED = Wrong(acknowledged_first, "intake: before commit", has("select 1 from inbox where xmin::text ="
                                                                " pg_current_xact_id_if_assigned()::xid::text"), "")


@dataclass(frozen=True, eq=False)
class Part:
    """A process of the fleet: its kind, and of a gateway what it is told."""

    kind: str
    name: str
    told: Gateway | None = None
    service: ServiceConfig | None = None


def run(config: Config, part: Part, chance: float, deaths: str, wrong: Wrong | None, place: str) -> None:
    """Runs a part; it dies at one place alone, where one is named. A gateway keeps each downlink that came to it in a file of its own."""
    if part.kind == "gateway":
        keep_what_comes(Path(deaths).with_name(f"{part.name}.came"))
    kind, _, only = place.partition(": ")
    likely, log = chance if not place or kind == part.kind else 0.0, f"{deaths}.{part.kind}"
    dying = Dying(likely, log, only, wrong.tells) if wrong else Dying(likely, log, only)
    for owner, name in PLACES[part.kind]:
        if name != "run_steps" or config.programs.steps:
            dying.around(owner, name)
    if not config.programs.steps:
        setattr(sessions, "run_steps", around_stand_in(dying))
    if wrong:
        wrong.work_in(config)
    for owner, name, value in ((sessions, "MOST", MOST), (intake, "MOST", MOST), (gateway, "MOST", 5), (gateway, "PAUSE", 0.2),
                               (intake, "PAUSE", 0.2), (sessions, "PAUSE", 0.2), (downlinks, "PAUSE", 0.2), (intake, "ASKED_SECONDS", 0.5)):
        setattr(owner, name, value)
    ending = Ending()
    if part.kind == "gateway":
        assert part.told and part.service
        gateway.run(config, part.told, part.service, ending)
    elif part.kind == "intake":
        intake.run(config, [], part.name, ending)
    elif part.kind == "sessions":
        sessions.run(config, ending)
    else:
        downlinks.run(config, ending)


def keep_what_comes(path: Path) -> None:
    """Has a gateway tell of each downlink that it has."""
    arm = gateway.arm

    def armed(database: Any, told: Down, now: float) -> None:
        arm(database, told, now)
        with open(path, "a", encoding="ascii") as file:
            file.write(f"{told.address} {told.down}\n")
    setattr(gateway, "arm", armed)


def around_stand_in(dying: Dying) -> Callable[..., Any]:
    """The second implementation of sessions in the program's place, in this process."""
    def tried(*words: Any) -> Any:
        dying.at("before run_steps")
        told = stand_in(*words)
        dying.at("behind run_steps")
        return told
    return tried


@contextmanager
def ended(parts: list[Any]) -> Iterator[None]:
    """Parts that are ended with the block."""
    with ExitStack() as held:
        for part in parts:
            held.callback(part.end)
        yield
