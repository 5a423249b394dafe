"""Downlinks: from committed rows to the radio of the receiver that heard the meter, while the meter may still listen."""
from __future__ import annotations

import errno
import logging
import os
import sqlite3
import stat

from .config import Config
from .publications import Publications
from .store import transaction

log = logging.getLogger("wmbus")


def send_downlinks(config: Config, database: sqlite3.Connection, now: float) -> int:
    """Sends what is committed and not sent yet, the oldest first; how many went out.

    One that went out just before the service was killed goes out again: its meter refuses the copy."""
    rows = database.execute("select id, receiver, address, down, frame, command, made from outbox where sent is null and missed is null"
                            " order by id").fetchall()
    count = 0
    for ident, receiver, address, down, frame, command, made in rows:
        fault = _too_late(config, made, now) or _written(config, receiver, frame)
        if fault is None:
            count += 1
            mark_sent(config, database, ident, address, command, now)
        else:
            log.warning("the downlink %d of meter %s wasn't sent by receiver %s: %s", down, address, receiver or "(none)", fault)
            database.execute("update outbox set missed = ? where id = ?", (fault, ident))
    return count


def _too_late(config: Config, made: float, now: float) -> str | None:
    """Whether a meter has long ceased to listen."""
    return None if now - made <= config.downlink_seconds else "it is too late: the meter doesn't listen any more"


def _written(config: Config, receiver: str, frame: str) -> str | None:
    """Gives a frame to a receiver's radio; else why that can't be."""
    told = config.receivers.get(receiver)
    if told is None or not told.downlinks:
        return "it can't send: its configuration names no `downlinks`"
    try:
        write_downlink(told.downlinks, frame)
    except OSError as fault:
        if fault.errno == errno.ENXIO:
            return f"its radio isn't there: nothing reads {told.downlinks}"
        return f"{told.downlinks}: {fault.strerror}"
    return None


def write_downlink(path: str, frame: str) -> None:
    """Writes a downlink whole, into a file or to what reads from a pipe."""
    opened = os.open(path, os.O_WRONLY | os.O_APPEND | os.O_CREAT | os.O_NONBLOCK | os.O_CLOEXEC, 0o600)
    line = f"D {frame}\n".encode()
    try:
        before = os.fstat(opened)
        is_file = stat.S_ISREG(before.st_mode)
        if os.write(opened, line) != len(line):
            if is_file:
                # (else the next one would stand behind it in its line)
                os.ftruncate(opened, before.st_size)
            raise OSError(errno.ENOSPC, "a downlink was written in part")
        if is_file:
            os.fsync(opened)
    finally:
        os.close(opened)


def mark_sent(config: Config, database: sqlite3.Connection, ident: int, address: str, command: int, now: float) -> None:
    """A downlink was written, and so its command is sent, where nothing later is known of it."""
    with transaction(database):
        database.execute("update outbox set sent = ? where id = ?", (now, ident))
        changed = database.execute("update command set state = 'sent', changed = ? where address = ? and number = ? and state = 'queued'"
                                   " returning id",
                                   (now, address, command)).fetchall()
        for (name,) in changed:
            Publications(config.mqtt, database).command(name)
