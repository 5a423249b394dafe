"""Copies of the fleet's database, made while it works, and put back into an empty one."""
from __future__ import annotations

import os
import subprocess
import time
from collections.abc import Sequence
from pathlib import Path

import psycopg
from psycopg.conninfo import conninfo_to_dict, make_conninfo
from wmbus_service.backup import HIGHEST, put_in_place, raised_by_program
from wmbus_service.commands import OPEN
from wmbus_service.config import words_of
from wmbus_service.trouble import Trouble

from . import mark, store
from .config import Config
from .schema import SHARDS
from .store import Database

PIECE = 4096
# what stands in the list of a copy of a fleet's database
INBOX = " TABLE public inbox "


def back_up(config: Config, target: Path) -> None:
    """Copies the database as it is at one moment, by pg_dump, into a file of its owner's."""
    if target.exists():
        raise Trouble(target, "it is there already", "name a new file")
    # (it has its name once it is whole)
    beside = target.with_name(f"{target.name}.making")
    beside.unlink(missing_ok=True)
    os.close(os.open(beside, os.O_WRONLY | os.O_CREAT | os.O_EXCL, 0o600))
    try:
        _done(["pg_dump", "--format=custom", f"--file={beside}"], config.database)
        listed = _done(["pg_restore", "--list", str(beside)], config.database)
        if INBOX not in listed or " TABLE public restoring " in listed:
            raise Trouble("the database", "it isn't a fleet's, or `wmbus-fleet restore` hasn't ended: a copy of it couldn't be put back",
                          "look at `database` in the configuration")
        put_in_place(beside, target)
    finally:
        # (where it failed: a part of a copy has keys, and takes room)
        beside.unlink(missing_ok=True)


def restore(config: Config, source: Path, margin: int) -> int:
    """Puts a copy into an empty database, before any part of the fleet is started. Downlink counters go on above all that were sent since,
    and open commands are cancelled, since some of them may have been executed. How many meters there are."""
    if not source.is_file():
        raise Trouble(source, "there is no such copy")
    if not 0 <= margin <= HIGHEST:
        raise Trouble("the margin", "it isn't a number from 0 to 2^32 - 1", "docs/FLEET.md says how large it has to be")
    if INBOX not in _done(["pg_restore", "--list", str(source)], config.database):
        raise Trouble(source, "it is no copy of a fleet's database", "name a file that `wmbus-fleet backup` made")
    with psycopg.connect(config.database, autocommit=True) as database:
        if store.one(database, "select to_regclass('setting')") is not None:
            raise Trouble("the database", "it has tables already", "name a new, empty one in the configuration")
        store.look_at_encoding(database)
        # (as long as this table is there no part works over the copy)
        database.execute("create table if not exists restoring ()")
    _done(["pg_restore", "--single-transaction", "--no-owner", "--exit-on-error", str(source)], config.database)
    # (a copy of an earlier release)
    store.init(config.database)
    with store.connect(config.database, is_restored=False) as database, store.transaction(database):
        count = raise_counters(config, database, margin)
        _give_up(database, time.time())
        mark.renew(database)
        # (a copy has no figures of its tables, and without them each question goes the long way until PostgreSQL takes some)
        database.execute("analyze")
        database.execute("drop table restoring")
    return count


def set_back(config: Config, margin: int) -> int:
    """Does with a database that was set back what `restore` does with a copy; how many meters there are. Sessions that are at work end
    before."""
    if not 0 <= margin <= HIGHEST:
        raise Trouble("the margin", "it isn't a number from 0 to 2^32 - 1", "docs/FLEET.md says how large it has to be")
    with store.connect(config.database) as database, store.transaction(database):
        for shard in range(SHARDS):
            database.execute("select pg_advisory_xact_lock(%s, %s)", (store.SESSIONS, shard))
        count = raise_counters(config, database, margin)
        _give_up(database, time.time())
        mark.renew(database)
    return count


def raise_counters(config: Config, database: Database, margin: int) -> int:
    """Raises the last downlink counter of each meter, as `state_raise` does; how many there are."""
    own, names = store.setting(database, "own") or "", [name for (name,) in database.execute("select address from meter order by address")]
    for start in range(0, len(names), PIECE):
        rows = database.execute("select address, block from meter where address = any(%s) order by address",
                                (names[start:start + PIECE],)).fetchall()
        raised = raised_by_program(words_of(config.programs.state_raise), own, [block for _, block in rows], margin)
        if len(raised) != len(rows):
            raise Trouble(config.programs.state_raise, "what it wrote isn't whole")
        database.execute("update meter m set block = n.block from unnest(%s::text[], %s::text[]) as n (address, block)"
                         " where m.address = n.address", ([name for name, _ in rows], raised))
    return len(names)


def _give_up(database: Database, now: float) -> None:
    """What was open when the copy was made isn't done again."""
    database.execute("update command set state = 'cancelled', reason = 'restored', changed = %s,"
                     " payload = case kind when 'rekey' then '' else payload end where state = 'waiting'", (now,))
    database.execute("update command set wish = 'cancel', reason = 'restored', changed = %s where state = any(%s)", (now, list(OPEN)))
    database.execute("update outbox set missed = 'restored' where sent is null and missed is null")


def _done(words: Sequence[str], database: str) -> str:
    """Runs a program of PostgreSQL's over a database; what it says. (A password is no argument, which everybody on the machine sees.)"""
    told = conninfo_to_dict(database)
    secret = {"PGPASSWORD": str(told.pop("password"))} if "password" in told else {}
    reached = f"--dbname={make_conninfo(**told)}"
    try:
        done = subprocess.run([words[0], reached, *words[1:]], stdin=subprocess.DEVNULL, capture_output=True, text=True, check=False,
                              env=os.environ | secret)
    except OSError as fault:
        raise Trouble(words[0], f"the program can't be started: {fault.strerror}", "apt-get install postgresql-client") from None
    if done.returncode:
        raise Trouble(words[0], f"status {done.returncode}: {done.stderr.strip()[:300]}")
    return done.stdout
