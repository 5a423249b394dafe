"""Downlinks: from committed rows to the gateway that heard the meter, in the order of the outbox, marked behind the broker's
acknowledgement."""
from __future__ import annotations

import logging
import time
from typing import Any

import psycopg
from wmbus_service.ending import Ending
from wmbus_service.trouble import Trouble

from . import broker, mark, store
from .config import Config
from .messages import Down, down_body
from .store import Database

log = logging.getLogger("wmbus")

AT_ONCE, PAUSE = 100, 0.5
# a gateway whose queue refuses a downlink gets none for so many seconds
PASSED_SECONDS = 10.0


class Passed:
    """Gateways whose queues refused a downlink a moment ago: the others' go out meanwhile."""

    def __init__(self) -> None:
        self.until: dict[str, float] = {}
        self.told: set[str] = set()

    def names(self) -> list[str]:
        """Who is passed over now."""
        return [name for name, until in self.until.items() if time.monotonic() < until]

    def put(self, gateway: str, fault: Exception) -> None:
        """A gateway's queue refused one."""
        if gateway not in self.told:
            log.error("downlinks: gateway %s is passed over, whose downlinks wait: %s", gateway, fault)
        self.told.add(gateway)
        self.until[gateway] = time.monotonic() + PASSED_SECONDS

    def forget(self, gateway: str) -> None:
        """Its queue took one."""
        self.told.discard(gateway)


def send(config: Config, database: Database, channel: Any, now: float, passed: Passed | None = None) -> int:
    """Sends what is committed and not sent yet, the oldest first; how many rows it saw.

    One that went out just before the sender was killed goes out again: its gateway, or else its meter, leaves the copy."""
    passed = passed or Passed()
    rows = database.execute("select id, gateway, address, down, frame, made from outbox where sent is null and missed is null"
                            " and (not gateway = any(%s) or made < %s) order by id limit %s",
                            (passed.names(), now - config.ticks.window, AT_ONCE)).fetchall()
    if rows:
        mark.grow(database, channel)
    for ident, gateway, address, down, frame, made in rows:
        # (one that was made while a clock was ahead counts for no longer either, and the broker refuses what would count for many years)
        left = int(min(made, now) + config.ticks.window - now)
        if left >= 1 and gateway in passed.names():
            continue
        try:
            fault = "it is too late: the meter's window is closed" if left < 1 else _sent(channel, gateway, Down(address, down, frame, left))
        except broker.QueueRefuses as refused:
            passed.put(gateway, refused)
            continue
        if fault is None:
            mark_sent(database, ident, time.time())
            passed.forget(gateway)
        else:
            log.warning("the downlink %d of meter %s wasn't sent: %s", down, address, fault)
            database.execute("update outbox set missed = %s where id = %s", (fault, ident))
    return len(rows)


def _sent(channel: Any, gateway: str, downlink: Down) -> str | None:
    """Gives a downlink to the gateway's queue; else why that can't be."""
    try:
        broker.publish(channel, "", broker.gateway_queue(gateway), down_body(downlink), downlink.seconds * 1000)
    except broker.NoQueue:
        return f"the gateway {gateway or '(none)'} has no queue"
    return None


def mark_sent(database: Database, ident: int, now: float) -> None:
    """A downlink is on its way, and so its command is sent, where nothing later is known of it."""
    database.execute("with gone as (update outbox set sent = %s where id = %s returning address, command) update command c"
                     " set state = 'sent', changed = %s from gone where c.address = gone.address and c.number = gone.command"
                     " and c.state = 'queued'", (now, ident, now))


def run(config: Config, ending: Ending) -> None:
    """Sends without end; one process at a time does, and others wait until it is gone."""
    trouble = ""
    while not ending.is_set():
        try:
            with store.connect(config.database) as database:
                while not store.one(database, "select pg_try_advisory_lock(%s, 0)", (store.SENDER,)):
                    if ending.wait(PAUSE):
                        return
                with broker.connected(config.broker) as connection:
                    channel, passed = broker.opened(connection), Passed()
                    mark.judge(database, channel)
                    while not ending.is_set():
                        count = send(config, database, channel, time.time(), passed)
                        trouble = ""
                        if not count:
                            connection.process_data_events(config.interval)
        except (psycopg.Error, Trouble, *broker.FAULTS) as fault:
            told = f"downlinks: {store.told_of(fault)}"
            if told != trouble:
                log.error("%s", told)
            trouble = told
            ending.wait(PAUSE)
