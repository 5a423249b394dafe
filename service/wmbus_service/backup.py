"""Copies of the database: made while the service runs, and put back once it has ended."""
from __future__ import annotations

import os
import re
import sqlite3
import subprocess
import time
from collections.abc import Sequence
from contextlib import closing, suppress
from pathlib import Path

from . import begun, schema, store
from .begun import HIGHEST as HIGHEST
from .commands import OPEN
from .config import Config, words_of
from .memory_files import memory_files, path_of
from .meters import DOWN_PLACE
from .publications import Publications
from .spool import sync
from .steps import MOST_METERS, ProgramFailed, run_steps, state_text
from .trouble import Trouble

SMALLER = "take a smaller margin"


def back_up(config: Config, target: Path) -> int:
    """Copies the database as it is at one moment, also while it is written; how many bytes the copy has."""
    if target.exists():
        raise Trouble(target, "it is there already", "name a new file")
    beside = target.with_name(f"{target.name}.making")
    beside.unlink(missing_ok=True)
    os.close(os.open(beside, os.O_WRONLY | os.O_CREAT | os.O_EXCL, 0o600))
    try:
        with closing(store.open_store(config.database)) as database, closing(sqlite3.connect(beside, isolation_level=None)) as copy:
            database.backup(copy)
            look_over(copy, config.database)
            copy.execute("pragma journal_mode = delete")
        put_in_place(beside, target)
    finally:
        # (where it failed: a part of a copy has keys, and takes room)
        beside.unlink(missing_ok=True)
    return target.stat().st_size


def look_over(database: sqlite3.Connection, place: Path) -> None:
    """A copy has to be whole."""
    try:
        (said,) = database.execute("pragma integrity_check").fetchone()
    except sqlite3.DatabaseError as fault:
        said = str(fault)
    if said != "ok":
        raise Trouble(place, f"the database isn't whole: {said}", "take an earlier copy")


def put_in_place(made: Path, target: Path) -> None:
    """Gives a file that stands on the disk its name."""
    for path, flags in ((made, os.O_RDWR), (target.parent, os.O_RDONLY)):
        opened = os.open(path, flags)
        try:
            sync(opened)
            if path == made:
                os.rename(made, target)
        finally:
            os.close(opened)


def restore(config: Config, source: Path, margin: int) -> int:
    """Puts a copy in the place of the database, whose service has ended. Downlink counters go on above all that were sent since, and
    open commands are cancelled, since some of them may have been executed. How many meters there are."""
    if not source.is_file():
        raise Trouble(source, "there is no such copy")
    beside = config.folder / "restored.db"
    if beside.exists() and beside.samefile(source):
        raise Trouble(source, "a restore makes its own file there", "give the copy another name")
    beside.unlink(missing_ok=True)
    os.close(os.open(beside, os.O_WRONLY | os.O_CREAT | os.O_EXCL, 0o600))
    try:
        return _restore_over(config, source, beside, margin)
    finally:
        # (where it isn't put back)
        for name in ("restored.db", "restored.db-wal", "restored.db-shm", "restored.db.begun"):
            (config.folder / name).unlink(missing_ok=True)


def _restore_over(config: Config, source: Path, beside: Path, margin: int) -> int:
    """Has a file beside the database have what the copy has, as it may go on, and puts it in its place."""
    with closing(sqlite3.connect(f"{source.absolute().as_uri()}?mode=ro", uri=True)) as copied, closing(sqlite3.connect(beside)) as made:
        look_over(copied, source)
        if copied.execute("pragma application_id").fetchone()[0] != schema.APPLICATION:
            raise Trouble(source, "it is no copy of the service's database", "name a file that `wmbus-service backup` made")
        copied.backup(made)
    with closing(store.open_store(beside)) as database:
        with store.transaction(database):
            count = raise_counters(config, database, margin)
            raise_floor(config.database, database, margin)
            _give_up(config, database, time.time())
        _judge(config, database)
        database.execute("pragma journal_mode = delete")
    _gather_commits(config.database)
    for name in ("wmbus.db-wal", "wmbus.db-shm"):
        (config.folder / name).unlink(missing_ok=True)
    put_in_place(beside, config.database)
    return count


def _gather_commits(path: Path) -> None:
    """Has a database's own file have all that was committed, as far as it can be read: it stays one until another takes its place."""
    if path.exists():
        with suppress(sqlite3.Error), closing(sqlite3.connect(path)) as database:
            database.execute("pragma wal_checkpoint(truncate)")


def raise_counters(config: Config, database: sqlite3.Connection, margin: int) -> int:
    """Raises the last downlink counter of each meter; how many there are."""
    rows = database.execute("select address, block from meter order by place").fetchall()
    for start in range(0, len(rows), MOST_METERS):
        blocks = [block for _, block in rows[start:start + MOST_METERS]]
        if config.programs.state_raise:
            raised = raised_by_program(words_of(config.programs.state_raise), store.setting(database, "own") or "", blocks, margin)
        else:
            raised = [raised_by(it, margin) for it in blocks]
        database.executemany("update meter set block = ? where address = ?",
                             [(block, address) for block, (address, _) in zip(raised, rows[start:start + MOST_METERS], strict=True)])
    return len(rows)


def raise_floor(path: Path, database: sqlite3.Connection, margin: int) -> None:
    """Has meters that are added from now on begin above the counters that may have been used since the copy, or under a database that was
    lost: one that isn't known any more may be added again."""
    floor = max(begun.floor_of(path), int(store.setting(database, "floor") or 0)) + margin
    begun.put_mark(path, floor)
    store.set_setting(database, "floor", str(floor))


def begin_lost(config: Config, margin: int) -> None:
    """Begins a database in the place of one that was lost, whose meters' counters begin above all that may have been used."""
    if not begun.mark_of(config.database).exists():
        raise Trouble(config.folder, "there was no database here", "`wmbus-service add` or `wmbus-service run` makes one")
    try:
        store.open_store(config.database).close()
    except begun.Lost:
        pass
    else:
        raise Trouble(config.database, "the database is there, and goes on", "where it is to be replaced, take `wmbus-service restore`")
    begun.put_away(config.database)
    # (first the mark: whatever happens, the next one begins above it)
    floor = begun.floor_of(config.database) + margin
    begun.put_mark(config.database, floor)
    with closing(store.open_store(config.database, is_new=True, is_lost=True)) as database:
        store.set_setting(database, "floor", str(floor))


def raised_by(block: str, margin: int) -> str:
    """A meter's block with a higher counter."""
    line, _, rest = block.partition("\n")
    fields = line.split(" ")
    fields[DOWN_PLACE] = str(begun.raised(int(fields[DOWN_PLACE]), margin, f"meter {fields[1]}"))
    return f"{' '.join(fields)}\n{rest}"


def raised_by_program(program: Sequence[str], own: str, blocks: Sequence[str], margin: int) -> list[str]:
    """Meters' blocks with higher counters, as `state_raise` writes them."""
    text = state_text(own, blocks).encode("latin-1")
    with memory_files([text, b""]) as (given, made):
        words = [*program, path_of(given), str(margin), path_of(made)]
        try:
            done = subprocess.run(words, stdin=subprocess.DEVNULL, capture_output=True, pass_fds=(given, made), check=False)
        except OSError as fault:
            raise Trouble(words[0], f"the program can't be started: {fault.strerror}",
                          "name it in the configuration under [programs]") from None
        if done.returncode:
            said = done.stderr.decode("utf-8", "replace").strip()[:300]
            raise Trouble(words[0], f"status {done.returncode}: {said}", SMALLER)
        written = os.pread(made, os.fstat(made).st_size, 0).decode("latin-1")
    _, *found = re.split("^(?=meter )", written.removesuffix("end\n"), flags=re.MULTILINE)
    if not written.endswith("\nend\n") or len(found) != len(blocks):
        raise Trouble(words[0], "what it wrote isn't the state of all meters", "look at its release")
    return found


def _give_up(config: Config, database: sqlite3.Connection, now: float) -> None:
    """What was open when the copy was made isn't done again."""
    cancelled = database.execute("update command set state = 'cancelled', reason = 'restored', changed = ?,"
                                 " payload = case kind when 'rekey' then '' else payload end where state = 'waiting' returning id",
                                 (now,)).fetchall()
    marks = ", ".join("?" * len(OPEN))
    database.execute(f"update command set wish = 'cancel', reason = 'restored', changed = ? where state in ({marks})", (now, *OPEN))
    database.execute("update outbox set missed = 'restored' where sent is null and missed is null")
    # (the broker has later messages than the copy's; sensors are announced anew)
    database.execute("delete from publication")
    database.execute("update announced set told = 0")
    for (ident,) in cancelled:
        Publications(config.mqtt, database).command(ident)


def _judge(config: Config, database: sqlite3.Connection) -> None:
    """The program has to take what is known of all meters."""
    own = store.setting(database, "own")
    blocks = [block for (block,) in database.execute("select block from meter order by place")]
    try:
        for start in range(0, len(blocks) if own else 0, MOST_METERS):
            run_steps(words_of(config.programs.steps), state_text(own or "", blocks[start:start + MOST_METERS]), [])
    except ProgramFailed as failed:
        raise Trouble(config.folder / "restored.db", f"the program doesn't take what the copy knows of the meters: {failed}",
                      "take an earlier copy") from None
