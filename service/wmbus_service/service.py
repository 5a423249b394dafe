"""The service itself: sessions without end, downlinks behind each, and what tells of it."""
from __future__ import annotations

import fcntl
import logging
import os
import socket
import sqlite3
import time
from contextlib import suppress
from pathlib import Path

from . import begun, meters, retention, store
from .config import Config, unproved_words
from .downlinks import send_downlinks
from .ending import Ending
from .memory_files import leave_no_core
from .publications import announce_anew
from .session import MOST, Sessions
from .trouble import Trouble
from .troubles import Troubles
from .watching import Watch

log = logging.getLogger("wmbus")

# after trouble it is tried again, less and less often
LEAST_PAUSE, MOST_PAUSE = 1.0, 60.0
LOCK_TRIES, LOCK_PAUSE = 5, 0.1
# so much of its time a session leaves to others who write, where the next one follows at once; SQLite tries again each tenth of a second
LEFT, MOST_LEFT = 0.05, 0.11
# so often it is told that it lives where nobody says how often
ALIVE = 60.0
# so often it is looked for what is kept no longer
LET_GO = 3600.0
# so often it is noted that sessions go on, and behind so long a time without a note it is told that they don't
NOTED, STILL = 60.0, 600.0


def lock(folder: Path, kind: int = fcntl.LOCK_EX) -> int:
    """Keeps other services away from a folder, as long as this process lives; shared, it keeps away those alone that don't share it."""
    try:
        opened = os.open(folder / "lock", os.O_RDWR | os.O_CREAT | os.O_CLOEXEC, 0o600)
    except OSError as fault:
        raise Trouble(folder / "lock", f"it can't be opened: {fault.strerror}",
                      store.READ_ONLY if store.is_read_only(folder)
                      else "have it writable, and look at the owner and the rights of the folder") from None
    for _ in range(LOCK_TRIES):
        try:
            fcntl.flock(opened, kind | fcntl.LOCK_NB)
            return opened
        except BlockingIOError:
            # (`status` holds it for a moment, to see whether there is a service)
            time.sleep(LOCK_PAUSE)
    os.close(opened)
    raise Trouble(folder, "another service works on this folder", "end it first")


def is_locked(folder: Path) -> bool:
    """Whether a service works on a folder, of which nothing is written: a disk that failed takes nothing more."""
    try:
        opened = os.open(folder / "lock", os.O_RDONLY | os.O_CLOEXEC)
    except FileNotFoundError:
        return False
    try:
        fcntl.flock(opened, fcntl.LOCK_SH | fcntl.LOCK_NB)
    except BlockingIOError:
        return True
    finally:
        os.close(opened)
    return False


def note_session(folder: Path) -> None:
    """Notes that sessions go on, for who looks at the folder alone: by the time of the lock, which a full disk takes too."""
    with suppress(OSError):
        os.utime(folder / "lock")


def still_seconds(folder: Path, now: float) -> float:
    """For how long the service that runs has had no session, where that is long."""
    try:
        told = (folder / "lock").stat()
    except FileNotFoundError:
        return 0.0
    # (one that was started before an upgrade may note nothing)
    return now - told.st_mtime if told.st_size and now - told.st_mtime > STILL else 0.0


def notify(text: str) -> None:
    """Tells systemd, where it asked for it and hears it."""
    path = os.environ.get("NOTIFY_SOCKET")
    if path:
        with socket.socket(socket.AF_UNIX, socket.SOCK_DGRAM) as told, suppress(OSError):
            told.sendto(text.encode(), f"\0{path[1:]}" if path.startswith("@") else path)


def alive_seconds() -> float:
    """So often systemd is told that the service lives: twice in the time after which it would end it."""
    told = os.environ.get("WATCHDOG_USEC", "")
    return int(told) / 2e6 if told.isdecimal() and int(told) else ALIVE


class Service:
    """A service over a folder, until it is told to end."""

    def __init__(self, config: Config, database: sqlite3.Connection, troubles: Troubles | None = None) -> None:
        self.config, self.database = config, database
        self.troubles = troubles or Troubles(config.folder)
        self.sessions = Sessions(config, database)
        self.ending = Ending()
        # (by the clock that nobody sets)
        self.session_made = time.monotonic()
        self.trouble = ""
        self.let_go_at = 0.0
        self.noted_at = 0.0
        self.ages = retention.Ages(database)
        self.file = begun.identity(config.database)

    def run(self) -> None:
        """Sessions one after the other; after trouble the same lines come again."""
        pause, watch = LEAST_PAUSE, Watch(self.config.spool)
        while not self.ending.is_set():
            watch.forget()
            watched, began = None, time.monotonic()
            try:
                count = self.turn()
                if self.trouble:
                    log.info("sessions go on")
                    self.troubles.over("sessions")
                pause, self.trouble = LEAST_PAUSE, ""
                left = min(LEFT * (time.monotonic() - began), MOST_LEFT)
                wait = left if count >= MOST // 2 or count >= self.sessions.most else self.config.interval
                # (behind a session the next one waits for the interval, so that lines that come one by one are heard together)
                watched = None if count else watch.opened
            except (Trouble, OSError, sqlite3.Error) as fault:
                self._tell(fault)
                wait, pause = pause, min(2 * pause, MOST_PAUSE)
            self._wait(wait, watched)

    def _wait(self, seconds: float, watched: int | None) -> None:
        """Waits for the next session, and tells meanwhile that it lives."""
        limit, alive = time.monotonic() + seconds, alive_seconds()
        while True:
            notify("WATCHDOG=1")
            until = min(limit, time.monotonic() + alive)
            # (where it ends before its time there is something to hear)
            if self.ending.wait(until - time.monotonic(), watched) or time.monotonic() < until or until == limit:
                return

    def turn(self) -> int:
        """What is committed goes out, then a session, then what it says to be sent; how many lines it took."""
        if begun.identity(self.config.database) != self.file:
            # (what is written into a file without a name is gone with this process)
            raise begun.Lost(self.config.database, "the database was taken away or replaced while the service runs", begun.REMEDY_RUNNING)
        send_downlinks(self.config, self.database, time.time())
        count = self.sessions.next(time.time())
        send_downlinks(self.config, self.database, time.time())
        self.session_made = time.monotonic()
        # (by the clock by which it is looked at)
        if abs(time.time() - self.noted_at) >= NOTED:
            note_session(self.config.folder)
            self.noted_at = time.time()
        self._let_go(1 + count // retention.PIECE)
        return count

    def _let_go(self, pieces: int) -> None:
        """Lets go what is kept no longer; with each session more than it had lines, since in a large house no session may have none."""
        for _ in range(pieces):
            if time.monotonic() > self.let_go_at:
                now = time.time()
                moment = self.ages.moment(now)
                if moment is None or not retention.let_go(self.database, self.config.keep, moment, now):
                    self.let_go_at = time.monotonic() + LET_GO

    def _tell(self, fault: Exception) -> None:
        """Says what is the matter, once as long as it is the same."""
        told = store.trouble_of(self.config.database, fault) if isinstance(fault, sqlite3.Error) else fault
        if str(told) != self.trouble:
            log.error("%s", told)
            self.trouble = str(told)
            self.troubles.tell("sessions", self.trouble)


def run(config: Config) -> None:
    """Runs the service until it gets SIGTERM or SIGINT."""
    os.umask(0o077)
    leave_no_core()
    store.prepare_folder(config.folder)
    held = lock(config.folder)
    with suppress(OSError):
        os.pwrite(held, b"its time is that of the last session\n", 0)
    note_session(config.folder)
    troubles = Troubles(config.folder)
    try:
        service = begun_service(config, troubles)
        notify("READY=1")
        if words := unproved_words(config.programs.steps):
            log.warning("%s", words)
        log.info("begun with %d meters and %d receivers", meters.count(service.database), len(config.receivers))
        service.run()
        notify("STOPPING=1")
        log.info("ended")
    except (Trouble, OSError, sqlite3.Error) as fault:
        troubles.tell("start", str(fault))
        raise
    finally:
        os.close(held)


def begun_service(config: Config, troubles: Troubles) -> Service:
    """A service over the folder, with what goes beside it."""
    database = store.open_store(config.database, is_new=True)
    # (a downlink mustn't go out whose counter is free again after a power cut)
    store.stand_on_disk(database)
    service = Service(config, database, troubles)
    if config.roster:
        meters.take_roster(config, database, meters.read_roster(Path(config.roster)), config.roster)
    service.ending.heed_signals()
    start_beside(config, service)
    return service


def start_beside(config: Config, service: Service) -> None:
    """Starts what publishes and what shows the metrics, where they are asked for."""
    if config.mqtt:
        from .broker import Broker
        announce_anew(config.mqtt, service.database)
        Broker(config, config.mqtt, service.ending, service.troubles).start()
    if config.metrics:
        from .metrics import serve
        serve(config, config.metrics, service)
