"""The receivers: how many lines come of each, since when none does, and which share of them is whole."""
from __future__ import annotations

from collections.abc import Iterator
from dataclasses import dataclass

from ..asking import Database
from ..config import Config
from .shared import GRACE, counted

# the last lines, over all receivers, of which each receiver's are counted, and as many of one receiver whose frames are looked at
LAST_LINES, LAST_FRAMES = 10_000, 300
HOUR, DAY = 3600.0, 86_400.0
# without a line for so long a receiver is called silent
SILENCE = HOUR
LAST_OF = "select made from line where receiver = ? and made <= ? order by number desc limit 1"
# receivers that heard something once, also where none of their lines is kept any more
ONCE_HEARD = "select receiver from source union select receiver from meter union select receiver from stranger"
# the generator of the check sums of EN 13757-4
POLYNOMIAL = 0x3D65


@dataclass(frozen=True)
class Radio:
    """A receiver: its last line, its lines a minute over the last hour, and the share of its last frames whose check sums are right."""

    name: str
    was_heard: bool
    heard: float | None
    per_minute: float
    framed: float | None
    is_configured: bool


def silence(seconds: float) -> str:
    """For how long nothing was heard."""
    if seconds >= 2 * DAY:
        return f"silent for {counted(int(seconds // DAY), 'day', 'days')}"
    return f"silent for {counted(int(seconds // HOUR), 'hour', 'hours')}"


def receivers(config: Config, database: Database, now: float, with_frames: bool = False) -> list[Radio]:
    """All receivers that are configured or were heard, by name."""
    # (lines that were written while the clock was ahead tell nothing of this hour, nor that their receiver still hears something)
    soon = now + GRACE
    rows = database.execute("select receiver, max(made), min(made), sum(made > ?), count(*) from"
                            " (select receiver, made from line where made <= ? order by number desc limit ?) group by receiver",
                            (now - HOUR, soon, LAST_LINES)).fetchall()
    # (where so many lines don't reach back an hour, it is told over less)
    is_full = sum(row[4] for row in rows) == LAST_LINES
    seconds = min(HOUR, max(1.0, now - min(row[2] for row in rows))) if is_full else HOUR
    heard = {name: (last, count) for name, last, _, count, _ in rows if name is not None}
    known = {name for (name,) in database.execute(ONCE_HEARD) if name is not None} | heard.keys()
    found = []
    for name in sorted(known | config.receivers.keys()):
        last, count = heard.get(name, (None, 0))
        if last is None:
            last = next((made for (made,) in database.execute(LAST_OF, (name, soon))), None)
        framed = _framed(database, name) if with_frames and last is not None else None
        found.append(Radio(name, name in known, last, round(60 * count / seconds, 1), framed, name in config.receivers))
    return found


def _framed(database: Database, name: str) -> float | None:
    """Which share of a receiver's last frames is whole."""
    rows = database.execute("select text from (select receiver, text from line order by number desc limit ?)"
                            " where receiver = ? and substr(text, 1, 2) in ('A ', 'B ') limit ?", (LAST_LINES, name, LAST_FRAMES))
    judged = [is_framed(text) for (text,) in rows]
    return sum(judged) / len(judged) if judged else None


def is_framed(line: str) -> bool:
    """Whether a line has a whole frame: as many bytes as its first one says, and right check sums (EN 13757-4, frame formats A and B)."""
    fields = line.split(" ")
    try:
        frame = bytes.fromhex(fields[2]) if len(fields) == 3 else b""
    except ValueError:
        return False
    if len(frame) < 12:
        return False
    blocks = list(_blocks_a(frame) if fields[0] == "A" else _blocks_b(frame))
    return sum(map(len, blocks)) == len(frame) and all(_check_sum(block[:-2]) == block[-2:] for block in blocks)


def _blocks_a(frame: bytes) -> Iterator[bytes]:
    """The blocks of a frame of format A, each with its check sum: ten bytes, then sixteen each."""
    left = frame[0] + 1
    size = min(left, 10)
    place = 0
    while left > 0:
        yield frame[place:place + size + 2]
        place, left = place + size + 2, left - size
        size = min(left, 16)


def _blocks_b(frame: bytes) -> Iterator[bytes]:
    """The blocks of a frame of format B: the first check sum is over up to 126 bytes, the second over what is left."""
    length = frame[0] + 1
    yield frame[:min(length, 128)]
    if length > 128:
        yield frame[128:length]


def _divided(byte: int) -> int:
    register = byte << 8
    for _ in range(8):
        register = (register << 1) ^ (POLYNOMIAL if register & 0x8000 else 0)
    return register & 0xFFFF


TABLE = [_divided(byte) for byte in range(256)]


def _check_sum(block: bytes) -> bytes:
    register = 0
    for byte in block:
        register = register << 8 & 0xFF00 ^ TABLE[register >> 8 ^ byte]
    return (register ^ 0xFFFF).to_bytes(2, "big")
