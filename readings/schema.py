"""The database of readings that bin/keep_readings fills and bin/report_page shows: a SQLite file. That of wmbus-service is shown by
the same tables (service_tables.py).

What a report says of stored steps is kept for ever, each step once. What it says beside that (refusals, commands that wait, strangers,
how its receivers ended) is kept for each report, and goes with it when a later report takes its place."""
from __future__ import annotations

import contextlib
import errno
import io
import os
import sqlite3
import sys
from collections.abc import Callable

from readings import service_tables

APPLICATION = 0x6D627573
VERSION = 2
# the tables of this version had the words of the profile alone; bin/keep_readings makes them anew of the payloads that are kept
EARLIER = 1
PAGE_WAIT = 60
# faults of an output that takes nothing; where a script has another one, a program couldn't be started
NO_OUTPUT = {errno.ENOSPC, errno.EDQUOT, errno.EFBIG, errno.EIO, errno.EBADF}

READINGS = """
CREATE TABLE reading (
    id INTEGER PRIMARY KEY,
    address TEXT NOT NULL,     -- the meter's sixteen digits
    counter INTEGER NOT NULL,  -- the counter (mode 7) or the access number (mode 5)
    moment BLOB NOT NULL,      -- an INTEGER, as the receiver's line has it; from 2^63 on TEXT of twenty digits
    payload BLOB NOT NULL,     -- the decrypted bytes
    receiver INTEGER NOT NULL, -- the receiver and its line in the report from which it was kept
    line INTEGER NOT NULL,
    UNIQUE (address, counter, moment, payload)
);
"""

# what the readings' payloads say
RECORDS = """
CREATE TABLE register (
    id INTEGER PRIMARY KEY,
    name TEXT NOT NULL,        -- the quantity with its qualifiers, and the function where it isn't instantaneous, as `power maximum`
    function TEXT NOT NULL,
    storage INTEGER NOT NULL,
    tariff INTEGER NOT NULL,
    subunit INTEGER NOT NULL,
    quantity TEXT NOT NULL,
    unit TEXT NOT NULL,
    qualifiers TEXT NOT NULL,  -- words with spaces between them, without `unset`
    modifiers TEXT NOT NULL,   -- the bytes of the qualifiers, in hexadecimal
    UNIQUE (function, storage, tariff, subunit, quantity, unit, qualifiers, modifiers)
);
CREATE TABLE record (
    reading INTEGER NOT NULL REFERENCES reading (id) ON DELETE CASCADE,
    place INTEGER NOT NULL,    -- its place in the payload, from 1
    register INTEGER NOT NULL REFERENCES register (id),
    value TEXT NOT NULL,       -- an exact decimal number, a date, a moment, bits, a text, or raw, withheld, -
    number REAL,               -- the number that it counts, if it does
    unset INTEGER NOT NULL,    -- 1 where the data stand for no value
    type TEXT NOT NULL,        -- the type of the data
    raw TEXT NOT NULL,         -- the data as sent, in hexadecimal
    PRIMARY KEY (reading, place)
) WITHOUT ROWID;
CREATE VIEW series AS
    SELECT address, moment, counter, receiver, line, place AS record, name, function, storage, tariff, subunit, quantity, unit,
        qualifiers, value, number, unset, type, modifiers, raw
    FROM reading JOIN record ON record.reading = reading.id JOIN register ON register.id = record.register;
"""

REPORTS = """
CREATE TABLE report (
    id INTEGER PRIMARY KEY,
    name TEXT NOT NULL UNIQUE, -- the path of its file
    sha256 TEXT NOT NULL UNIQUE,
    kept TEXT NOT NULL         -- when it was kept, in UTC
);
CREATE TABLE receiver (
    report INTEGER NOT NULL REFERENCES report (id) ON DELETE CASCADE,
    number INTEGER NOT NULL,
    lines INTEGER NOT NULL,
    own INTEGER NOT NULL,
    strangers INTEGER NOT NULL,
    unframed INTEGER NOT NULL,
    bad INTEGER NOT NULL,
    ended TEXT NOT NULL,
    PRIMARY KEY (report, number)
) WITHOUT ROWID;
CREATE TABLE meter (
    report INTEGER NOT NULL REFERENCES report (id) ON DELETE CASCADE,
    address TEXT NOT NULL,
    mode INTEGER NOT NULL,
    last INTEGER,              -- its last stored counter or access number
    down INTEGER NOT NULL,     -- the counter of its last downlink
    steps INTEGER NOT NULL,
    readings INTEGER NOT NULL,
    fault TEXT,                -- the words of the fault that ends its last reading's records
    PRIMARY KEY (report, address)
) WITHOUT ROWID;
CREATE TABLE refusal (
    report INTEGER NOT NULL REFERENCES report (id) ON DELETE CASCADE,
    address TEXT NOT NULL,
    reason TEXT NOT NULL,      -- the words without what varies, as `stale`
    count INTEGER NOT NULL,
    last TEXT NOT NULL,        -- the words of the last one, as `stale 41 42`
    PRIMARY KEY (report, address, reason)
) WITHOUT ROWID;
CREATE TABLE pending (
    report INTEGER NOT NULL REFERENCES report (id) ON DELETE CASCADE,
    address TEXT NOT NULL,
    command INTEGER NOT NULL,
    tries INTEGER NOT NULL,
    PRIMARY KEY (report, address, command)
) WITHOUT ROWID;
CREATE TABLE stranger (
    report INTEGER NOT NULL REFERENCES report (id) ON DELETE CASCADE,
    address TEXT NOT NULL,
    count INTEGER NOT NULL,    -- how often it stands in the ring of the last strangers
    PRIMARY KEY (report, address)
) WITHOUT ROWID;
"""

# which reports are of the same lines; databases that were made without these tables are given them
SAME_LINES = """
CREATE TABLE IF NOT EXISTS heard (
    report INTEGER NOT NULL REFERENCES report (id) ON DELETE CASCADE,
    receiver INTEGER NOT NULL,
    first TEXT NOT NULL,       -- of each of its meters the line of the first step, and the address
    steps BLOB NOT NULL,       -- its steps, as same_lines.py packs them
    PRIMARY KEY (report, receiver)
) WITHOUT ROWID;
CREATE TABLE IF NOT EXISTS covered (
    report INTEGER PRIMARY KEY REFERENCES report (id) ON DELETE CASCADE,
    by INTEGER NOT NULL REFERENCES report (id) ON DELETE CASCADE
);
CREATE INDEX IF NOT EXISTS covered_by ON covered (by);
"""


class NoDatabase(Exception):
    """Why a file isn't used as a database of readings."""


def open_database(path: str, create: bool) -> sqlite3.Connection:
    """The database in this file; where there is none it is made, if `create` says so."""
    if not create and not os.path.isfile(path):
        raise NoDatabase(f"{path}: there is no such file; bin/keep_readings makes one")
    database = None
    # (a new one is its owner's alone)
    before = os.umask(0o077)
    try:
        # (SQLite keeps what is called :memory: alone nowhere)
        database = sqlite3.connect(os.path.join(".", path), timeout=PAGE_WAIT, isolation_level=None)
        database.execute("PRAGMA foreign_keys = ON")
        database.execute("PRAGMA synchronous = FULL")
        if create:
            make_tables(database)
        check_tables(database, path, create)
        if create:
            run_all(database, SAME_LINES)
        if is_of_service(database):
            service_tables.put_views(database)
        return database
    except (sqlite3.Error, NoDatabase) as error:
        if database is not None:
            database.close()
        raise error if isinstance(error, NoDatabase) else NoDatabase(f"{path}: {error}")
    finally:
        os.umask(before)


def marks(database: sqlite3.Connection) -> list[int]:
    """Whose database it is, and of which version."""
    return [database.execute(f"PRAGMA {name}").fetchone()[0] for name in ("application_id", "user_version")]


def has_table(database: sqlite3.Connection, name: str) -> bool:
    """Whether a database has a table of this name."""
    (count,) = database.execute("SELECT count(*) FROM sqlite_master WHERE type = 'table' AND name = ?", (name,)).fetchone()
    return bool(count == 1)


def run_all(database: sqlite3.Connection, statements: str) -> None:
    """Runs statements one after another."""
    for statement in statements.split(";\n"):
        database.execute(statement)


def is_empty(database: sqlite3.Connection) -> bool:
    """Whether nothing is in a database yet."""
    return marks(database) == [0, 0] and bool(database.execute("SELECT count(*) FROM sqlite_master").fetchone()[0] == 0)


def make_tables(database: sqlite3.Connection) -> None:
    """Makes the tables of an empty database, all of them or none."""
    if not is_empty(database):
        return
    database.execute("BEGIN IMMEDIATE")
    if is_empty(database):
        run_all(database, READINGS)
        run_all(database, RECORDS)
        run_all(database, REPORTS)
        database.execute(f"PRAGMA application_id = {APPLICATION}")
        database.execute(f"PRAGMA user_version = {VERSION}")
    database.execute("COMMIT")


def is_of_service(database: sqlite3.Connection) -> bool:
    """Whether this is the database of wmbus-service."""
    return marks(database)[0] == service_tables.APPLICATION


def is_earlier(database: sqlite3.Connection) -> bool:
    """Whether the tables of records are those of an earlier version."""
    return marks(database)[1] == EARLIER


def empty_records(database: sqlite3.Connection) -> None:
    """Makes the tables of records anew, with nothing in them, in the midst of a transaction."""
    for statement in ("DROP VIEW series", "DROP TABLE record", "DROP TABLE register"):
        database.execute(statement)
    run_all(database, RECORDS)
    database.execute(f"PRAGMA user_version = {VERSION}")


def check_tables(database: sqlite3.Connection, path: str, create: bool) -> None:
    """Refuses what is no database of readings, or one of another version."""
    application, version = marks(database)
    if is_of_service(database) and create:
        raise NoDatabase(f"{path}: this is the database of wmbus-service, which keeps its readings itself")
    if is_of_service(database) and 1 <= version <= service_tables.VERSION:
        return
    if application not in (APPLICATION, service_tables.APPLICATION):
        raise NoDatabase(f"{path}: this is no database of readings")
    if version == EARLIER and create:
        return
    if version == EARLIER and application == APPLICATION:
        raise NoDatabase(f"{path}: it was made by an earlier version: keep a report in it once more, and its records are read anew")
    known = service_tables.VERSION if is_of_service(database) else VERSION
    if version != known:
        raise NoDatabase(f"{path}: it was made by another version: its tables are of version {version}, these tools know {known}")


def fail(name: str, words: str) -> None:
    """Says why a script ends early, and that the reports that were kept are kept."""
    print(f"{name}: {words}; what was kept so far stands", file=sys.stderr)


def ended(name: str, main: Callable[[], int]) -> int:
    """Runs a script, and answers its exit status. An interruption, an output that nobody takes, and want of memory or of files end it in
    words."""
    if sys.stdout is None:
        sys.stdout = open(os.devnull, "w", encoding="utf-8")
    # (a file's name may have what the standard output can't tell)
    if isinstance(sys.stdout, io.TextIOWrapper):
        sys.stdout.reconfigure(errors="backslashreplace")
    try:
        status = main()
        sys.stdout.flush()
        return status
    except KeyboardInterrupt:
        fail(name, "stopped")
        return 130
    except MemoryError:
        fail(name, "there is no memory")
    except OSError as fault:
        # (what is still to be said goes nowhere, so that the interpreter's end says nothing of it)
        with contextlib.suppress(OSError):
            os.dup2(os.open(os.devnull, os.O_WRONLY), sys.stdout.fileno())
        if isinstance(fault, BrokenPipeError):
            fail(name, "nobody reads the standard output any more")
        elif fault.errno in NO_OUTPUT:
            fail(name, f"the standard output can't be written: {fault.strerror}")
        else:
            fail(name, f"no other program can be started: {fault.strerror}")
    return 1
