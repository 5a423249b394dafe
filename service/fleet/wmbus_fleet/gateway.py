"""A gateway's agent: a receiver's spooled lines go out as numbered messages, and are sent again from where they are asked for; downlinks
wait armed until their meter is heard."""
from __future__ import annotations

import fcntl
import logging
import os
import random
import sqlite3
import time
from collections.abc import Sequence
from contextlib import closing
from dataclasses import replace
from pathlib import Path
from typing import Any

from wmbus_service import store
from wmbus_service.config import NAME, words_of
from wmbus_service.config import Config as ServiceConfig
from wmbus_service.downlinks import write_downlink
from wmbus_service.ending import Ending
from wmbus_service.service import lock
from wmbus_service.spool import Spool, Spooled, put_places
from wmbus_service.steps import ProgramFailed
from wmbus_service.trouble import Trouble

from . import broker
from .config import Config, Gateway
from .messages import EPOCH_AHEAD, LAST, MOST, Again, Begin, Down, is_far, lines_body, new_epoch, read_order
from .programs import addresses_of

log = logging.getLogger("wmbus")

# messages that are made, and published, in one go
ROOM = 20
LOOK, PAUSE = 0.05, 1.0
HOUR, DAY = 3600.0, 86_400.0
TABLES = """
create table if not exists numbering (one integer primary key check (one = 1), epoch integer not null, last integer not null);
create table if not exists source (receiver text, file text, taken integer not null, primary key (receiver, file)) without rowid;
-- each message as it was numbered, before it is published for the first time, and until when all that was heard stands in it or in those
-- before it
create table if not exists message (
    number integer primary key, lines blob not null, until integer not null, made real not null, acknowledged integer not null default 0);
create index if not exists message_open on message (number) where not acknowledged;
create index if not exists message_by_age on message (made) where acknowledged;
-- of each meter the last downlink, until when it counts, and when it was given to the radio
create table if not exists armed (address text primary key, down integer not null, frame text not null, until real not null, sent real)
    without rowid;
"""


def open_gateway(path: Path, now: float) -> sqlite3.Connection:
    """The gateway's own database, which is made first where it isn't there; its creation begins an epoch."""
    before = os.umask(0o077)
    try:
        database = store.connect(path)
    finally:
        os.umask(before)
    # (in one commit: whoever looks into it finds all of it)
    database.executescript(f"begin immediate;{TABLES}insert or ignore into numbering values (1, {new_epoch(now)}, 0);commit;")
    return database


class Agent:
    """What a gateway does, one thing after the other."""

    def __init__(self, config: Config, told: Gateway, service: ServiceConfig, database: sqlite3.Connection) -> None:
        self.config, self.told, self.database = config, told, database
        self.spool = Spool(service.spool, told.receiver)
        self.radio = service.receivers[told.receiver].downlinks
        self.numbered_at = self.said_at = 0.0
        # what went wrong last, as long as nothing went well behind it
        self.trouble = ""
        # when it was said last that the broker lacks messages
        self.told_waiting = -DAY
        # of a meter the counter of the downlink that the radio got last
        self.written: dict[str, int] = {}

    # ---- lines

    def number(self, now: float) -> int:
        """Makes messages of what was heard, and commits what each of them holds; how many lines there were."""
        is_listening = bool(self.database.execute("select 1 from armed where sent is null and until > ? limit 1", (now,)).fetchone())
        # (a clock that is set back doesn't hold it up)
        if 0 <= now - self.numbered_at < self.told.interval and not is_listening or self._is_used_up(now):
            return 0
        with store.transaction(self.database):
            lines = self.spool.take(self.database, MOST * ROOM)
            if is_listening:
                self._send_armed(lines, now)
            for start in range(0, len(lines), MOST):
                self._make(lines[start:start + MOST], now, start + MOST >= len(lines) and len(lines) < MOST * ROOM)
            if not lines and not 0 <= now - self.said_at <= self.told.silence:
                # (so that a loss at the end shows too)
                self._make([], now, True)
            put_places(self.database, lines)
        self.numbered_at = now if len(lines) < MOST * ROOM else 0.0
        self.spool.clear(self.database)
        return len(lines)

    def _make(self, lines: Sequence[Spooled], now: float, is_all: bool) -> None:
        """The next message; whether all that was heard until now stands in it or in those before it."""
        _, last = self.numbering()
        told = self.database.execute("select until from message where number = ?", (last,)).fetchone()
        # (what was told by a clock that was ahead isn't told again)
        until = told[0] if told and told[0] <= now else 0
        text = "".join(f"{line.text}\n" for line in lines).encode("latin-1")
        self.database.execute("insert into message (number, lines, until, made) values (?, ?, ?, ?)",
                              (last + 1, text, int(now) if is_all else until, now))
        self.database.execute("update numbering set last = ?", (last + 1,))
        self.said_at = now

    def _is_used_up(self, now: float) -> bool:
        """Whether the epoch has no more numbers and its messages aren't all out yet; once they are, another one begins."""
        epoch, last = self.numbering()
        if last <= LAST - ROOM - 1:
            return False
        if self.database.execute("select 1 from message where not acknowledged limit 1").fetchone():
            return True
        with store.transaction(self.database):
            self._begin(max(epoch + 1, new_epoch(now)), last + 1)
        return False

    def numbering(self) -> tuple[int, int]:
        """The epoch, and its last number."""
        epoch, last = self.database.execute("select epoch, last from numbering").fetchone()
        return int(epoch), int(last)

    def publish(self, channel: Any) -> int:
        """Publishes what isn't acknowledged, in order, and marks it behind the acknowledgements; how many messages."""
        epoch, _ = self.numbering()
        rows = self.database.execute("select number, until, lines from message where not acknowledged order by number limit ?",
                                     (ROOM,)).fetchall()
        for number, until, lines in rows:
            broker.publish(channel, broker.EXCHANGE, broker.up_key(self.told.area, self.told.name), lines_body(epoch, number, until, lines))
        mark_acknowledged(self.database, [number for number, _, _ in rows])
        return len(rows)

    def forget(self, now: float) -> None:
        """Old messages go; none that isn't acknowledged, and none at all where they are kept for ever."""
        if self.told.keep:
            self.database.execute("delete from message where acknowledged and made < ?", (now - self.told.keep * DAY,))

    # ---- what it is told

    def hear(self, body: bytes, now: float, published: int | None = None) -> None:
        """What the fleet says to the gateway."""
        order = read_order(self.told.name, body)
        if isinstance(order, Again):
            self.send_again(order, now, published)
        elif isinstance(order, Begin):
            self.begin_anew(order, now, published)
        elif isinstance(order, Down):
            arm(self.database, left_of(order, now, published), now)
        else:
            log.error("%s: the fleet said something that isn't understood", self.told.name)

    def send_again(self, asked: Again, now: float, published: int | None = None) -> None:
        """Sends all messages from one on again; those of a new epoch where that one isn't kept any more. Asked for a later epoch than its own,
        which somebody else began in its name or it itself before its file was set back, it sends its last message: by that the fleet says how
        far its own epoch was taken."""
        if self._is_too_far(asked.epoch, now, published):
            return
        with store.transaction(self.database):
            epoch, last = self.numbering()
            if asked.epoch > epoch:
                self.database.execute("update message set acknowledged = 0 where number = ?", (last,))
                return
            number = asked.number if asked.epoch == epoch else 1
            if number > last:
                return
            if self.database.execute("select 1 from message where number = ?", (number,)).fetchone():
                self.database.execute("update message set acknowledged = 0 where number >= ?", (number,))
            else:
                self._begin(max(epoch + 1, new_epoch(now)), number)

    def begin_anew(self, asked: Begin, now: float, published: int | None = None) -> None:
        """Begins the epoch that the fleet names with what it hasn't taken; one that was begun already is left as it is."""
        if self._is_too_far(asked.epoch, now, published):
            return
        with store.transaction(self.database):
            if self.numbering()[0] == asked.own:
                self._begin(asked.epoch, asked.last + 1)

    def _is_too_far(self, epoch: int, now: float, published: int | None) -> bool:
        """Whether an epoch is so far above now, by this machine's clock and by that of who asks, that none could begin behind it."""
        if not is_far(epoch, max(now, published or 0) + EPOCH_AHEAD):
            return False
        log.error("%s: the fleet asks for epoch %d, which is far above now, and isn't heeded: `wmbus-fleet gateways AREA %s --files FOLDER`"
                  " there sets right which epoch it knows", self.told.name, epoch, self.told.name)
        return True

    def _begin(self, epoch: int, first: int) -> None:
        """Begins an epoch with the messages from this one on that are kept. (Each stays where it is: a week of them has no room in the
        memory of a small machine.)"""
        self.database.execute("delete from message where number < ?", (first,))
        kept = self.database.execute("select number from message order by number").fetchall()
        self.database.executemany("update message set number = ?, acknowledged = 0 where number = ?",
                                  [(place, number) for place, (number,) in enumerate(kept, 1)])
        self.database.execute("update numbering set epoch = ?, last = ?", (epoch, len(kept)))
        log.warning("%s: an epoch begins with %d messages that are kept", self.told.name, len(kept))

    # ---- downlinks

    def _send_armed(self, lines: Sequence[Spooled], now: float) -> None:
        """Gives the radio the downlinks of the meters that were just heard."""
        try:
            addresses = set(addresses_of(words_of(self.config.programs.address_list), [line.text for line in lines]))
        except (ProgramFailed, Trouble) as fault:
            # (what was heard goes out all the same)
            log.error("%s: no downlink can be sent: %s", self.told.name, fault)
            return
        rows = self.database.execute("select address, down, frame from armed where sent is null and until > ?", (now,)).fetchall()
        for address, down, frame in rows:
            if address not in addresses:
                continue
            try:
                # (where the commit failed behind it, as on a full disk, it isn't sent anew with each try)
                if self.written.get(address) != down:
                    write_downlink(self.radio, frame)
            except OSError as fault:
                why = fault.strerror if self.radio else "the receiver's configuration names no `downlinks`"
                log.warning("%s: the downlink %d of meter %s can't be sent: %s", self.told.name, down, address, why)
                continue
            self.written[address] = down
            self.database.execute("update armed set sent = ? where address = ?", (now, address))

    # ---- without end

    def run(self, ending: Ending) -> None:
        """Goes on until it is told to end; without the broker it numbers lines and sends what is armed."""
        unnumbered = ""
        while not ending.is_set():
            try:
                with broker.connected(self.config.broker) as connection:
                    self._serve(connection, ending)
            except (*broker.FAULTS, ProgramFailed, Trouble, sqlite3.Error) as fault:
                told = f"{self.told.name}: {type(fault).__name__}: {told_of(fault)}"
                if told != self.trouble:
                    log.error("%s", told)
                self.trouble = told
            limit = time.monotonic() + PAUSE
            while time.monotonic() < limit and not ending.is_set():
                try:
                    self.number(time.time())
                    self._tell_waiting(time.time())
                    unnumbered = ""
                except (ProgramFailed, Trouble, OSError, sqlite3.Error) as fault:
                    if told_of(fault) != unnumbered:
                        log.error("%s: %s", self.told.name, told_of(fault))
                    unnumbered = told_of(fault)
                ending.wait(LOOK)

    def _tell_waiting(self, now: float) -> None:
        """Says once a day that messages wait for the broker: they stay until it has them, however full the disk gets."""
        if time.monotonic() < self.told_waiting + DAY:
            return
        oldest = self.database.execute("select made from message where not acknowledged order by number limit 1").fetchone()
        if oldest and now - oldest[0] > HOUR:
            (count,) = self.database.execute("select count(*) from message where not acknowledged").fetchone()
            log.warning("%s: %d messages wait for the broker, the oldest for %d hours; they stay until it has them, and need room on the disk",
                        self.told.name, count, (now - oldest[0]) // HOUR)
            self.told_waiting = time.monotonic()

    def _serve(self, connection: Any, ending: Ending) -> None:
        """Goes on as long as the connection stands."""
        is_taken = broker.find_gateway(connection, self.told.name) or not broker.hold_gateway(connection, self.told.name)
        # (one of an earlier release doesn't hold it: two that come in the same moment, as behind a start of the broker, don't ask in the same
        # one again)
        ending.wait(random.uniform(0, PAUSE))
        if is_taken or broker.find_gateway(connection, self.told.name):
            # (both would number messages of their own under one name, and of each number one is taken)
            raise Trouble(f"gateway {self.told.name}", "another one with this name is connected, or its connection isn't closed yet",
                          f"where it stays so, give each its own name, unless the broker reads nothing of it, since {broker.SHORT}")

        def told(_channel: Any, method: Any, properties: Any, body: bytes) -> None:
            self.hear(body, time.time(), properties.timestamp)
            channel.basic_ack(method.delivery_tag)

        channel = broker.opened(connection)
        broker.consume(channel, broker.gateway_queue(self.told.name), told)
        while not ending.is_set():
            now = time.time()
            count = self.number(now) + self.publish(channel)
            if count:
                self.trouble = ""
            else:
                self.forget(now)
            connection.process_data_events(0 if count else LOOK)


def mark_acknowledged(database: sqlite3.Connection, numbers: Sequence[int]) -> None:
    """The broker has these messages."""
    if numbers:
        with store.transaction(database):
            database.executemany("update message set acknowledged = 1 where number = ?", [(number,) for number in numbers])


def left_of(told: Down, now: float, published: int | None) -> Down:
    """A downlink with what is left of its time behind its way through the queue, which drops it once that is over: where nothing would be
    left a clock is wrong."""
    age = 0 if published is None else int(now) - published
    return replace(told, seconds=told.seconds - age) if 0 < age < told.seconds else told


def arm(database: sqlite3.Connection, told: Down, now: float) -> None:
    """A downlink waits for its meter, in the place of one with a lower counter; one that came before is left out."""
    database.execute("insert into armed (address, down, frame, until) values (?, ?, ?, ?) on conflict (address) do update"
                     " set down = excluded.down, frame = excluded.frame, until = excluded.until, sent = null"
                     " where excluded.down > armed.down", (told.address, told.down, told.frame, now + told.seconds))


def run(config: Config, told: Gateway, service: ServiceConfig, ending: Ending) -> None:
    """Runs a gateway over the folder of its machine's service."""
    for what, name in (("name", told.name), ("area", told.area)):
        # (the broker takes any, and of such a one no message is in form)
        if not NAME.fullmatch(name):
            raise Trouble(f"gateway.{what} {name}", "a name has 1 to 64 of a-z, 0-9, _ and -", "write it as `wmbus-fleet gateways` has it")
    if told.receiver not in service.receivers:
        raise Trouble("gateway.receiver", f"the service's configuration has no receiver {told.receiver}", f"see {told.service}")
    store.prepare_folder(service.folder)
    # (the service on one machine would take its lines away; gateways of other receivers don't)
    held = lock(service.folder, fcntl.LOCK_SH)
    try:
        with closing(_opened(service.folder / f"gateway.{told.name}.db")) as database:
            Agent(config, told, service, database).run(ending)
    finally:
        os.close(held)


def _opened(path: Path) -> sqlite3.Connection:
    """A gateway's database; what is wrong with it in words."""
    try:
        return open_gateway(path, time.time())
    except sqlite3.Error as fault:
        raise Trouble(path, told_of(fault)) from None


def told_of(fault: Exception) -> str:
    """What is the matter; of the gateway's database also what to do."""
    if not isinstance(fault, sqlite3.Error):
        return str(fault)
    is_damaged = str(getattr(fault, "sqlite_errorname", "")).startswith(("SQLITE_CORRUPT", "SQLITE_NOTADB"))
    return f"the gateway's database: {fault}; " + ("take it away, and the receiver's lines in the spool with it" if is_damaged
                                                   else "look at its disk, its owner and its rights")
