"""The lines that a receiver's feed appended: files RECEIVER.NUMBER.MADE.lines, the last of which still grows. The place up to which a
file is taken is committed with the session that took it."""
from __future__ import annotations

import errno
import fcntl
import logging
import os
import re
import sqlite3
import stat
from contextlib import suppress
from dataclasses import dataclass
from itertools import accumulate
from pathlib import Path
from typing import BinaryIO

from .asking import Database

log = logging.getLogger("wmbus")

# a line of the grammar has 1,024 bytes at most; of a longer one so many are kept, and the program calls it bad
LONGEST = 1_100
CHUNK = 1 << 20
# the name of a receiver's file: the receiver's, which a configuration takes, a number, and when it was made
FILE = re.compile(r"([a-z0-9_-]{1,64})\.[0-9]+\.[0-9]+\.lines", re.ASCII)
# places of so many files that are gone are kept, so that one that comes back isn't heard again
KEPT_PLACES = 100


@dataclass(frozen=True)
class Spooled:
    """A whole line of a receiver's file, and the place behind it."""

    receiver: str
    file: str
    behind: int
    text: str


class Spool:
    """A receiver's files."""

    def __init__(self, folder: Path, receiver: str) -> None:
        self.folder, self.receiver = folder, receiver
        self.synced: set[str] = set()
        # what couldn't be read, with the words that the log has of it
        self.told: dict[str, str] = {}

    def files(self) -> list[Path]:
        """The files, the oldest first."""
        return files_of(self.folder, self.receiver)

    def take(self, database: sqlite3.Connection, most: int) -> list[Spooled]:
        """At most so many whole lines behind the committed places, all of which stand on the disk."""
        taken: list[Spooled] = []
        for path in self.files():
            if len(taken) >= most:
                break
            place = place_of(database, self.receiver, path.name)
            # (a receiver takes its own file away where it heard nothing; long lines are read in several pieces, and those of the next
            # file stand behind all of them)
            try:
                while len(taken) < most and (found := self._take_of(path, place, most - len(taken))):
                    taken += found
                    place = found[-1].behind
                self.told.pop(path.name, None)
            except FileNotFoundError:
                pass
            except OSError as fault:
                # (it alone stands still, until it can be read)
                self._tell(path, fault)
        return taken

    def _tell(self, path: Path, fault: OSError) -> None:
        """Says once what can't be read."""
        words = unread_words(path, fault)
        if self.told.get(path.name) != words:
            self.told[path.name] = words
            log.error("%s", words)

    def _take_of(self, path: Path, start: int, most: int) -> list[Spooled]:
        """The lines of a file from a place on."""
        with open_lines(path) as file:
            if not has_more(file, start):
                return []
            self._sync(path, file.fileno())
            file.seek(start)
            content = file.read(most * LONGEST + CHUNK)
        whole = content.split(b"\n", most)
        rest = whole.pop()
        lengths = [len(line) + 1 for line in whole]
        if len(whole) < most and len(rest) >= CHUNK:
            # (what is far too long for a line counts as one)
            whole.append(rest[:CHUNK])
            lengths.append(CHUNK)
        receiver, name = self.receiver, path.name
        return [Spooled(receiver, name, start + behind, line[:LONGEST].decode("latin-1"))
                for line, behind in zip(whole, accumulate(lengths), strict=True)]

    def _sync(self, path: Path, opened: int) -> None:
        """A place is never committed beyond what stands on the disk."""
        sync(opened)
        if path.name not in self.synced:
            sync_names(self.folder)
            self.synced.add(path.name)

    def clear(self, database: sqlite3.Connection) -> None:
        """Takes away files that are taken to their end and that nothing writes any more; the newest stays, so that numbers rise."""
        files = self.files()
        for path in files[:-1]:
            # (a receiver takes its own file away where it heard nothing, and what can't be read isn't finished)
            with suppress(OSError):
                if is_finished(path, place_of(database, self.receiver, path.name)):
                    path.unlink()
        names = {path.name for path in files}
        self.synced &= names
        told = database.execute("select file from source where receiver = ? order by file", (self.receiver,)).fetchall()
        gone = [(self.receiver, name) for (name,) in told if name not in names]
        if gone := gone[:max(0, len(gone) - KEPT_PLACES)]:
            # (a place is forgotten once it stands on the disk that its file went, so that no file comes back behind it)
            sync_names(self.folder)
            database.executemany("delete from source where receiver = ? and file = ?", gone)


def receiver_of(name: str) -> str | None:
    """The receiver whose file has this name; none where it is no name of one."""
    found = FILE.fullmatch(name)
    return found[1] if found else None


def files_of(folder: Path, receiver: str) -> list[Path]:
    """A receiver's files, the oldest first."""
    return sorted(path for path in folder.glob("*.lines") if receiver_of(path.name) == receiver)


def has_more(file: BinaryIO, taken: int) -> bool:
    """Whether a file has something behind its place; one that was cut is a fault, as nobody knows which of its lines were heard."""
    size = os.fstat(file.fileno()).st_size
    if size < taken:
        raise OSError(errno.EIO, "it is shorter than what was taken of it")
    return size > taken


def open_lines(path: Path) -> BinaryIO:
    """A file of lines, opened; what is none, as a folder or a pipe, which would be waited for, or a link, whose lines may be heard under
    another name too, is a fault."""
    opened = os.open(path, os.O_RDONLY | os.O_NONBLOCK | os.O_NOFOLLOW | os.O_CLOEXEC)
    if not stat.S_ISREG(os.fstat(opened).st_mode):
        os.close(opened)
        raise OSError(errno.EINVAL, "it is no file")
    return os.fdopen(opened, "rb")


def unread_words(path: Path, fault: OSError) -> str:
    """What is said of an entry of the spool that can't be read."""
    why = "it is a link" if fault.errno == errno.ELOOP else fault.strerror
    # (a name may have any sign)
    name = "".join(sign if sign.isprintable() else ascii(sign)[1:-1] for sign in str(path))
    return f"{name}: it can't be read, and its lines aren't heard: {why}; look at it and at the disk, or move it away"


def misnamed(folder: Path) -> list[str]:
    """What is said of files of lines whose name is none of a receiver's file."""
    fault = OSError(errno.EINVAL, "its name isn't RECEIVER.NUMBER.MADE.lines")
    return [unread_words(path, fault) for path in sorted(folder.glob("*.lines")) if receiver_of(path.name) is None]


def unread(folder: Path, database: Database) -> list[str]:
    """What in the spool can't be read now."""
    found = misnamed(folder)
    for path in sorted(folder.glob("*.lines")):
        if (receiver := receiver_of(path.name)) is None:
            continue
        try:
            with open_lines(path) as file:
                has_more(file, place_of(database, receiver, path.name))
                file.read(1)
        except FileNotFoundError:
            continue
        except OSError as fault:
            found.append(unread_words(path, fault))
    return found


def size_of(path: Path) -> int:
    """How many bytes a file has; none where a session took it away meanwhile, or it is none."""
    try:
        return path.stat().st_size
    except OSError:
        return 0


def written_at(path: Path) -> float:
    """When something was written into a file last; 0 where a session took it away meanwhile."""
    try:
        return path.stat().st_mtime
    except OSError:
        return 0.0


def sync(opened: int) -> None:
    """Has a file stand on the disk."""
    os.fsync(opened)


def sync_names(folder: Path) -> None:
    """Has the names in a folder stand on the disk."""
    opened = os.open(folder, os.O_RDONLY)
    try:
        sync(opened)
    finally:
        os.close(opened)


def place_of(database: Database, receiver: str, file: str) -> int:
    """Up to which byte a file is taken."""
    row = database.execute("select taken from source where receiver = ? and file = ?", (receiver, file)).fetchone()
    return int(row[0]) if row else 0


def put_places(database: sqlite3.Connection, lines: list[Spooled]) -> None:
    """These lines are taken, in the transaction in which they are heard."""
    places = {(line.receiver, line.file): line.behind for line in lines}
    database.executemany("insert into source values (?, ?, ?) on conflict (receiver, file) do update set taken = excluded.taken",
                         [(receiver, file, behind) for (receiver, file), behind in places.items()])


def is_finished(path: Path, taken: int) -> bool:
    """Whether no line comes into a file any more and none is left: its writer, which holds a lock on it, has ended. A line that was
    cut off at its end is dropped."""
    with open_lines(path) as file:
        has_more(file, taken)
        try:
            fcntl.flock(file, fcntl.LOCK_EX | fcntl.LOCK_NB)
        except BlockingIOError:
            return False
        file.seek(taken)
        rest = file.read(CHUNK)
        # (so much without an end is a line that is far too long, behind which others may stand)
        return b"\n" not in rest and len(rest) < CHUNK
