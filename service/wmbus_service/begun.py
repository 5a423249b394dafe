"""The mark that a folder has a database: where that is gone it isn't taken for a new folder, in which each downlink counter would begin
anew and go out with a second frame."""
from __future__ import annotations

import os
import sqlite3
import time
from contextlib import suppress
from pathlib import Path

from .trouble import Trouble

HIGHEST = (1 << 32) - 1
REMEDY = ("put a copy back (`wmbus-service restore FILE`), or, where there is none, begin with counters above all that were used"
          " (`wmbus-service begin --lost`)")

REMEDY_RUNNING = f"end the service, and {REMEDY}; lines stay in the spool meanwhile"


class Lost(Trouble):
    """There was a database, and it is gone."""


def mark_of(path: Path) -> Path:
    """The mark of a database."""
    return path.with_name(f"{path.name}.begun")


def floor_of(path: Path) -> int:
    """So much higher than in a new folder downlink counters begin here."""
    try:
        words = mark_of(path).read_text("ascii").split()
        return int(words[1])
    except FileNotFoundError:
        return 0
    except (ValueError, IndexError):
        raise Trouble(mark_of(path), "it can't be read, and says from where on downlink counters are free",
                      "write `counters N` into it, N above the number of all downlinks that one meter ever got") from None


def put_mark(path: Path, floor: int) -> None:
    """Marks that there is a database, and from where on counters are free; it stands on the disk."""
    mark = mark_of(path)
    beside = mark.with_name(f"{mark.name}.making")
    opened = os.open(beside, os.O_WRONLY | os.O_CREAT | os.O_TRUNC | os.O_CLOEXEC, 0o600)
    try:
        os.write(opened, f"counters {floor}\n".encode())
        os.fsync(opened)
    finally:
        os.close(opened)
    os.rename(beside, mark)
    folder = os.open(path.parent, os.O_RDONLY)
    try:
        os.fsync(folder)
    finally:
        os.close(folder)


def look_for_mark(path: Path) -> None:
    """Marks a database of an earlier release, where that may be."""
    if not mark_of(path).exists():
        with suppress(OSError):
            put_mark(path, 0)


def judge_lost(path: Path, is_empty: bool) -> None:
    """A database that is gone, or has nothing, where there was one."""
    if is_empty and mark_of(path).exists():
        raise Lost(path, "the database is gone or empty, and there was one here", REMEDY)


def identity(path: Path) -> tuple[int, int] | None:
    """By what it is seen that a file is still the same; none where it is gone."""
    try:
        told = path.stat()
    except FileNotFoundError:
        return None
    return told.st_dev, told.st_ino


def raised(down: int, floor: int, place: object) -> int:
    """A downlink counter that begins above those that may be used."""
    if down + floor > HIGHEST:
        raise Trouble(place, f"its downlink counter would pass {HIGHEST}, and no command would reach it any more", "take a smaller margin")
    return down + floor


def put_away(path: Path) -> None:
    """What is there of a database that was lost gets another name, and takes no part in the new one."""
    for name in (path.name, f"{path.name}-wal", f"{path.name}-shm"):
        with suppress(FileNotFoundError):
            path.with_name(name).rename(path.with_name(f"{name}.lost-{int(time.time())}"))


def has_tables(database: sqlite3.Connection) -> bool:
    """Whether anything stands in a database."""
    return bool(database.execute("select count(*) from sqlite_master").fetchone()[0])
