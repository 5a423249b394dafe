"""A receiver's lines (docs/FORMATS.md, "Lines of a receiver")."""
import re
from collections.abc import Callable, Iterator
from dataclasses import dataclass
from typing import TypeVar

from reference.frames import telegram_a, telegram_b
from reference.reasons import Reason
from reference.roster import ADDRESS, KEY, WORD, number_of, unhex

LONGEST, MOST_LINES, MOST_BYTES = 1024, 131_072, 67_108_864
MOMENTS = 1 << 64
MOST_PAYLOAD = 94
DIGITS = re.compile(rb"(?:[0-9a-fA-F]{2})*")
Value = TypeVar("Value")


class BadLine(Reason):
    """What of a line is outside the grammar, the first of `long`, `word`, `fields`, `number`, `address`, `hex`, `payload`, `key`."""


@dataclass(frozen=True)
class Heard:
    """The telegram in a frame, and its moment."""

    moment: int
    telegram: bytes


@dataclass(frozen=True)
class Order:
    """A line `T`, `Q`, `X` or `K` for a meter, with the payload, the id or the key."""

    letter: str
    address: bytes
    content: bytes = b""
    number: int = 0


def _or_bad(value: Value | None, words: str) -> Value:
    """What a field says, or what is wrong with it."""
    if value is None:
        raise BadLine(words)
    return value


def _heard_of(letter: bytes, moment_text: bytes, digits: bytes) -> Heard:
    """What a line `A` or `B` says."""
    moment = _or_bad(number_of(moment_text, MOMENTS), "number")
    frame = _or_bad(unhex(DIGITS, digits), "hex")
    return Heard(moment, (telegram_a if letter == b"A" else telegram_b)(frame))


def _order_of(letter: str, address_text: bytes, text: bytes) -> Order:
    """What a line `Q`, `X` or `K` says."""
    number = _or_bad(number_of(text, WORD), "number") if letter == "X" else 0
    address = _or_bad(unhex(ADDRESS, address_text), "address")
    if letter == "X":
        return Order(letter, address, number=number)
    if letter == "K":
        return Order(letter, address, _or_bad(unhex(KEY, text), "key"))
    payload = _or_bad(unhex(DIGITS, text), "hex")
    if not 1 <= len(payload) <= MOST_PAYLOAD:
        raise BadLine("payload", len(payload))
    return Order(letter, address, payload)


def line_of(line: bytes) -> Heard | Order:
    """`line_of`: what a line says, or its first fault: that of the line, or of its frame."""
    fields = line.split(b" ")
    if len(line) > LONGEST:
        raise BadLine("long")
    if fields[0] not in (b"A", b"B", b"T", b"Q", b"X", b"K"):
        raise BadLine("word")
    if len(fields) != (2 if fields[0] == b"T" else 3):
        raise BadLine("fields")
    if fields[0] in (b"A", b"B"):
        return _heard_of(fields[0], fields[1], fields[2])
    if fields[0] == b"T":
        return Order("T", _or_bad(unhex(ADDRESS, fields[1]), "address"))
    return _order_of(fields[0].decode(), fields[1], fields[2])


@dataclass
class Feed:
    """A receiver's lines within the limits (`whole_lines`), and whether something stands behind them (`is_over`).

    A line that the limit of bytes cuts isn't heard."""

    read: Callable[[], bytes]
    is_over: bool = False

    def __iter__(self) -> Iterator[bytes]:
        """Each line as soon as it was read; `read` gives the next bytes, none at the end."""
        rest, left, count = b"", MOST_BYTES, 0
        while piece := self.read():
            self.is_over, piece = len(piece) > left, piece[:left]
            left -= len(piece)
            *ended, rest = (rest + piece).split(b"\n")
            for line in ended[:MOST_LINES - count]:
                yield line.removesuffix(b"\r")
            count += len(ended)
            self.is_over |= count > MOST_LINES or (count == MOST_LINES and bool(rest))
            if self.is_over:
                return
            # (of a line that is too long no more is kept than shows it)
            rest = rest[:LONGEST + 2]
        if rest:
            yield rest


def heard_lines(text: bytes) -> tuple[list[bytes], bool]:
    """A receiver's lines within the limits, and whether something stands behind them."""
    feed = Feed(iter((text, b"")).__next__)
    return list(feed), feed.is_over
