"""The database: a file that its owner alone may read, of this version's tables, every commit of which stands on the disk."""
from __future__ import annotations

import fcntl
import logging
import os
import pwd
import sqlite3
import stat
import time
from collections.abc import Iterator
from contextlib import contextmanager, suppress
from pathlib import Path

from . import begun, schema
from .trouble import Trouble

log = logging.getLogger("wmbus")

PATIENCE = 30.0
# so often it is said that a step of a new version goes on, and after so many of SQLite's own steps it is looked for
TOLD_EACH, STEPS = 30.0, 1_000_000
READ_ONLY = "the file system is read-only: see why (dmesg), and mount it writable"
# what a session leaves for which there is no room
SESSION_UNDONE = "nothing of the session was kept, and its lines stay in the spool"


def act_as_owner(folder: Path, user: str = "wmbus") -> None:
    """Where root asks, the rest is done as the service's user, to whom the folder belongs: a file of root's would be in its way."""
    if os.geteuid():
        return
    with suppress(KeyError):
        if not folder.exists():
            known = pwd.getpwnam(user)
            folder.mkdir(mode=0o700)
            os.chown(folder, known.pw_uid, known.pw_gid)
        owner = pwd.getpwuid(folder.stat().st_uid)
        if owner.pw_uid:
            os.initgroups(owner.pw_name, owner.pw_gid)
            os.setgid(owner.pw_gid)
            os.setuid(owner.pw_uid)


def prepare_folder(folder: Path) -> None:
    """Makes the service's folders, which are its owner's alone; others' rights on them are an error."""
    for path in (folder, folder / "spool"):
        try:
            path.mkdir(mode=0o700, exist_ok=True)
            look_at_rights(path, 0o700)
        except OSError as fault:
            raise Trouble(path, f"the folder can't be made: {fault.strerror}", "make it, with the service's user as its owner") from None


def look_at_rights(path: Path, wanted: int) -> None:
    """Nobody but this user may have a right on a file or a folder, since keys stand there."""
    told = path.stat()
    if told.st_uid != os.geteuid():
        raise Trouble(path, f"it belongs to the user {told.st_uid}, and this is {os.geteuid()}",
                      "start it as the service's user, or use chown")
    if stat.S_IMODE(told.st_mode) & 0o077:
        raise Trouble(path, "others have rights on it, and keys stand in it", f"chmod {wanted:o} {path}")


def open_store(path: Path, is_new: bool = False, is_lost: bool = False) -> sqlite3.Connection:
    """Opens the database, which is made first where that is asked for and it isn't there; in the place of one that is gone only where that
    was said."""
    begun.judge_lost(path, not is_lost and (not path.exists() or not path.stat().st_size))
    if not path.exists() and not is_new:
        raise Trouble(path, "there is no database yet", "`wmbus-service add` or `wmbus-service run` makes it")
    before = os.umask(0o077)
    try:
        if path.exists():
            look_at_rights(path, 0o600)
        database = connect(path)
        with closed_on_fault(database):
            _migrate(path, database, is_lost)
        begun.look_for_mark(path)
    except sqlite3.Error as fault:
        raise trouble_of(path, fault) from None
    finally:
        os.umask(before)
    return database


def connect(path: Path) -> sqlite3.Connection:
    """A connection to a database, every commit of which stands on the disk."""
    database = sqlite3.connect(path, timeout=PATIENCE, isolation_level=None)
    with closed_on_fault(database):
        for words in ("journal_mode = wal", "synchronous = full", "foreign_keys = on", "secure_delete = on"):
            database.execute(f"pragma {words}")
    return database


@contextmanager
def closed_on_fault(database: sqlite3.Connection) -> Iterator[None]:
    """A connection that isn't of use ends at once."""
    try:
        yield
    except BaseException:
        database.close()
        raise


def trouble_of(path: object, fault: sqlite3.Error, undone: str = SESSION_UNDONE) -> Trouble:
    """A fault of SQLite in words, with what it left undone where the disk is full."""
    remedies = {
        "full": f"make room on its disk; {undone}",
        "readonly": "the file system or the file is read-only: mount it writable, and look at the owner",
        "locked": "another program holds the database for long: end it",
        "busy": "another program holds the database for long: end it",
        "cantopen": "look at the folder's owner and rights",
        "ioerr": "look at the disk, and at the room that is left on it",
        "notadb": "put the last backup in its place: wmbus-service restore",
        "corrupt": "put the last backup in its place: wmbus-service restore",
    }
    name = (getattr(fault, "sqlite_errorname", "") or "").removeprefix("SQLITE_").lower().replace("_", "")
    remedy = next((words for begin, words in remedies.items() if name.startswith(begin)), "")
    if isinstance(path, Path) and name.startswith(("cantopen", "readonly", "ioerr")) and is_read_only(path.parent):
        remedy = READ_ONLY
    return Trouble(path, f"the database: {fault}", remedy)


def is_read_only(folder: Path) -> bool:
    """Whether nothing can be written into a folder's file system, as where the kernel saw a fault of the disk."""
    try:
        return bool(os.statvfs(folder).f_flag & os.ST_RDONLY)
    except OSError:
        return False


def _migrate(path: Path, database: sqlite3.Connection, is_lost: bool) -> None:
    """Brings the tables to this version, all steps in one transaction."""
    version, application = (database.execute(f"pragma {name}").fetchone()[0] for name in ("user_version", "application_id"))
    if version == schema.VERSION and application == schema.APPLICATION:
        return
    if application == schema.APPLICATION:
        with only_one(path):
            _bring_on(path, database, is_lost)
    else:
        _bring_on(path, database, is_lost)


def _bring_on(path: Path, database: sqlite3.Connection, is_lost: bool) -> None:
    """Does the steps that are lacking, and says how far it is, since a great database takes its time."""
    version, application = (database.execute(f"pragma {name}").fetchone()[0] for name in ("user_version", "application_id"))
    if version > schema.VERSION and application == schema.APPLICATION:
        raise Trouble(path, f"the database is of version {version}, and this program knows {schema.VERSION}",
                      "install the later release again")
    with transaction(database):
        version, application = (database.execute(f"pragma {name}").fetchone()[0] for name in ("user_version", "application_id"))
        begun.judge_lost(path, not is_lost and not begun.has_tables(database))
        if application != schema.APPLICATION and (version or begun.has_tables(database)):
            raise Trouble(path, "it is another program's database", "name another folder in the configuration")
        for number, text in enumerate(schema.MIGRATIONS[version:], version + 1):
            if version:
                log.info("%s: the database is brought to version %d: step %d of %d", path, schema.VERSION, number - version,
                         schema.VERSION - version)
            for statement in _statements(text):
                with told_meanwhile(path, database):
                    database.execute(statement)
        database.execute(f"pragma application_id = {schema.APPLICATION}")
        database.execute(f"pragma user_version = {schema.VERSION}")


@contextmanager
def only_one(path: Path) -> Iterator[None]:
    """Lets one process alone bring a database to this version: others say so, and don't wait for it."""
    # (a lock on the folder writes nothing; one on the file itself would end SQLite's own)
    opened = os.open(path.parent, os.O_RDONLY | os.O_CLOEXEC)
    try:
        fcntl.flock(opened, fcntl.LOCK_EX | fcntl.LOCK_NB)
        yield
    except BlockingIOError:
        raise Trouble(path, "another process brings the database to this version", "wait: its log (journalctl -u wmbus) tells how far it is"
                      ) from None
    finally:
        os.close(opened)


@contextmanager
def told_meanwhile(path: Path, database: sqlite3.Connection) -> Iterator[None]:
    """Says from time to time that a statement goes on."""
    first = told = time.monotonic()

    def tell() -> None:
        nonlocal told
        if time.monotonic() - told >= TOLD_EACH:
            told = time.monotonic()
            log.info("%s: the step goes on since %.0f s", path, told - first)
    database.set_progress_handler(tell, STEPS)
    try:
        yield
    finally:
        database.set_progress_handler(None, 0)


def _statements(text: str) -> Iterator[str]:
    """The statements of a text, one after the other."""
    gathered = ""
    for line in text.splitlines():
        gathered += line + "\n"
        if sqlite3.complete_statement(gathered):
            yield gathered
            gathered = ""


@contextmanager
def transaction(database: sqlite3.Connection) -> Iterator[None]:
    """What is done within is committed whole, or nothing of it."""
    database.execute("begin immediate")
    try:
        yield
        commit(database)
    finally:
        if database.in_transaction:
            database.execute("rollback")


def commit(database: sqlite3.Connection) -> None:
    """From here on what was written counts."""
    database.execute("commit")


def stand_on_disk(database: sqlite3.Connection) -> None:
    """Has all that can be read stand on the disk: what a process that was killed committed may stand in memory alone, and a power cut would
    take it."""
    with transaction(database):
        set_setting(database, "started", str(time.time()))


def add_total(database: sqlite3.Connection, name: str, count: int) -> None:
    """Counts something on, over all starts."""
    if count:
        database.execute("insert into total values (?, ?) on conflict (name) do update set value = value + excluded.value", (name, count))


def setting(database: sqlite3.Connection, name: str) -> str | None:
    """A setting that stands in the database."""
    row = database.execute("select value from setting where name = ?", (name,)).fetchone()
    return row[0] if row else None


def set_setting(database: sqlite3.Connection, name: str, value: str) -> None:
    """Puts a setting into the database."""
    database.execute("insert into setting values (?, ?) on conflict (name) do update set value = excluded.value", (name, value))
