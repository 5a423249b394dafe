"""PostgreSQL, which has the truth: every commit of it stands."""
from __future__ import annotations

import json
import secrets
from collections.abc import Iterator, Mapping, Sequence
from contextlib import contextmanager, suppress
from typing import Any

import psycopg
from psycopg.conninfo import make_conninfo
from wmbus_service.trouble import Trouble

from . import page_tables, schema

Database = psycopg.Connection[tuple[Any, ...]]
# advisory locks: of a shard's sessions, of the sender, of a change of the tables, of the mark, of the
# sums
SESSIONS, SENDER, TABLES, MARK, SUMS = 7101, 7102, 7103, 7104, 7105
# a server that says nothing for so long is gone, and so is a worker that its server hears nothing of, or that stands still in the middle of
# a transaction: what it locks is another one's then, and its own commit fails (a program may take 60 seconds of a transaction)
ALIVE = {"keepalives_idle": 10, "keepalives_interval": 5, "keepalives_count": 4, "tcp_user_timeout": 30_000}
SERVER_ALIVE = ("tcp_keepalives_idle = 10", "tcp_keepalives_interval = 5", "tcp_keepalives_count = 4", "tcp_user_timeout = 30000",
                "idle_in_transaction_session_timeout = 120000")


def connect(words: str, is_restored: bool = True) -> Database:
    """A connection to the fleet's database, the tables of which are there, and, where a copy was put into it, its counters raised."""
    database = psycopg.connect(make_conninfo(words, **ALIVE), autocommit=True, connect_timeout=5)
    # (each commit stands before it is acknowledged, whatever the server's configuration says)
    database.execute("; ".join(f"set {setting}" for setting in ("synchronous_commit = on", *SERVER_ALIVE)))
    version = _version(database)
    if version != schema.VERSION:
        database.close()
        raise _of_another(version)
    if is_restored and one(database, "select to_regclass('restoring') is not null"):
        database.close()
        raise Trouble("the database", "a copy is put into it, and `wmbus-fleet restore` hasn't ended: its counters may be those of before",
                      "wait, or where it was ended name a new, empty one in the configuration, and restore the copy again")
    return database


def told_of(fault: Exception) -> str:
    """What is the matter, without the rows that PostgreSQL tells of behind it, in which payloads stand."""
    said = fault.diag.message_primary if isinstance(fault, psycopg.Error) else None
    return f"{type(fault).__name__}: {(said or str(fault)).strip()}"


def init(words: str) -> None:
    """Makes the tables, or of those of an earlier release this one's, all in one transaction."""
    from . import allowing
    with psycopg.connect(words, autocommit=True, connect_timeout=5) as database:
        with transaction(database):
            database.execute("select pg_advisory_xact_lock(%s, 0)", (TABLES,))
            version = _version(database)
            if version is None:
                look_at_encoding(database)
                database.execute(schema.TABLES + schema.INBOXES + page_tables.VIEWS)
            elif version != schema.VERSION:
                if not 0 < version < schema.VERSION:
                    raise _of_another(version)
                # (all that the page asks is made anew; of the first version there is nothing yet)
                database.execute("".join(["drop schema if exists page cascade;", *schema.CHANGES[version - 1:], page_tables.VIEWS]))
            set_setting(database, "version", str(schema.VERSION))
            database.execute("insert into setting values ('fleet', %s) on conflict do nothing", (secrets.token_hex(8),))
            allowing.allow_again(database)


def look_at_encoding(database: Database) -> None:
    """A database whose texts can't be all that a fleet's are; one without an encoding gives bytes in place of texts."""
    encoding = database.info.parameter_status("server_encoding")
    if encoding != "UTF8":
        raise Trouble("the database", f"its encoding is {encoding}, and a fleet's is UTF8", "`createdb -E UTF8 -T template0` makes one")


def _of_another(version: int | None) -> Trouble:
    """What is wrong where the tables aren't this release's."""
    if version is None:
        return Trouble("the database", "it hasn't the fleet's tables", "`wmbus-fleet init` makes them")
    return Trouble("the database", f"its tables are of version {version}, and this program knows {schema.VERSION}",
                   "`wmbus-fleet init` makes them" if 0 < version < schema.VERSION else "install the release that fits")


def _version(database: Database) -> int | None:
    """The version of the tables, where there are any."""
    # (who needs no key reads no setting; of an earlier release there is no such view)
    if one(database, "select to_regclass('page.release') is not null"):
        return int(one(database, "select max(version) from page.release") or 0)
    if one(database, "select to_regclass('setting') is null"):
        return None
    return int(setting(database, "version") or 0)


def _row(asked: psycopg.Cursor[tuple[Any, ...]]) -> tuple[Any, ...]:
    """The one row of a question that always has one."""
    row = asked.fetchone()
    assert row is not None
    return row


def one(database: Database, query: str, values: Sequence[Any] = ()) -> Any:
    """The one value of a question that always has one."""
    return _row(database.execute(query, values))[0]


def pairs(database: Database, query: str, values: Sequence[Any] = ()) -> dict[Any, Any]:
    """The rows of a question for two columns, by the first of them."""
    return {key: value for key, value in database.execute(query, values).fetchall()}


@contextmanager
def transaction(database: Database) -> Iterator[None]:
    """What is done within is committed whole, or nothing of it."""
    database.execute("begin")
    try:
        yield
        commit(database)
    finally:
        if not database.closed and database.info.transaction_status != psycopg.pq.TransactionStatus.IDLE:
            with suppress(psycopg.Error):
                database.execute("rollback")


def commit(database: Database) -> None:
    """From here on what was written counts."""
    database.execute("commit")


def copy_rows(database: Database, target: str, rows: Sequence[Sequence[Any]]) -> None:
    """Adds rows to a table, whose columns are named."""
    if rows:
        with database.cursor() as cursor, cursor.copy(f"copy {target} from stdin") as out:
            out.write("".join(map(_copied, rows)))


NULL = "\\N"
ESCAPES = str.maketrans({"\\": "\\\\", "\t": "\\t", "\n": "\\n", "\r": "\\r"})


def _copied(row: Sequence[Any]) -> str:
    """A row as COPY reads it. (Most have nothing to escape, and this is where the time of large batches went.)"""
    text = "\t".join([NULL if value is None else str(value) for value in row])
    if "\n" in text or "\r" in text or text.count("\t") != len(row) - 1 or text.count("\\") != row.count(None):
        text = "\t".join([NULL if value is None else str(value).translate(ESCAPES) for value in row])
    return text + "\n"


def setting(database: Database, name: str) -> str | None:
    """A setting that stands in the database."""
    row = database.execute("select value from setting where name = %s", (name,)).fetchone()
    return row[0] if row else None


def set_setting(database: Database, name: str, value: str) -> None:
    """Puts a setting into the database."""
    database.execute("insert into setting values (%s, %s) on conflict (name) do update set value = excluded.value", (name, value))


def add_totals(database: Database, worker: str, counts: Mapping[str, int]) -> None:
    """Counts on, over all starts; each worker has rows of its own, so that none waits for another."""
    told = {name: count for name, count in counts.items() if count}
    database.execute("insert into total select %s, key, value::bigint from json_each_text(%s) order by key on conflict (worker, name)"
                     " do update set value = total.value + excluded.value", (worker, json.dumps(told)))
