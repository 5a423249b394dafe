"""What gateways and the fleet say to each other (docs/FLEET.md, "Messages")."""
from __future__ import annotations

import hashlib
import re
import secrets
from collections.abc import Sequence
from dataclasses import dataclass

from wmbus_service.config import NAME
from wmbus_service.spool import LONGEST as LONGEST_LINE

# so many lines a message at most, the numbers that an epoch has, and so many bytes a message
MOST = 100
LAST = (1 << 32) - 1
LONGEST = 1 << 18
HEAD = re.compile(r"wmbus-lines 1 (0|[1-9][0-9]{0,17}) ([1-9][0-9]{0,9}) (0|[1-9][0-9]{0,17})")
AGAIN = re.compile(r"wmbus-again 1 (0|[1-9][0-9]{0,17}) ([1-9][0-9]{0,9})")
BEGIN = re.compile(r"wmbus-begin 1 ([1-9][0-9]{0,17}) (0|[1-9][0-9]{0,17}) (0|[1-9][0-9]{0,9})")
DOWN = re.compile(r"wmbus-down 1 ([0-9a-f]{16}) (0|[1-9][0-9]{0,9}) ([0-9a-f]{2,600}) ([1-9][0-9]{0,8})")
FRAMES = ("A ", "B ")
# An epoch is the second in which it begins, and behind that eight digits that are drawn. (Those of an earlier release are the second alone; a
# clock that was never set tells so few seconds that they would be taken for one of these.)
DRAWN, SECONDS_ALONE = 10 ** 8, 10 ** 12
# so many seconds above now an epoch may be: a clock may be wrong by hours, and one that is far above would leave no room for those behind it
EPOCH_AHEAD = 86_400
# (RabbitMQ itself takes any name; of one that is too long so much is kept that it still is)
LONGEST_NAME = 64
UNNAMED = re.compile("[^a-z0-9_-]")


@dataclass(frozen=True)
class Message:
    """A gateway's numbered message, and the moment up to which all that it heard stands in this one and those before it."""

    gateway: str
    epoch: int
    number: int
    until: int
    lines: tuple[str, ...]

    def digest(self) -> int:
        """By which one is known that comes again under its number: 64 bits of what it holds."""
        text = "\n".join([str(self.until), *self.lines])
        return int.from_bytes(hashlib.blake2b(text.encode("latin-1"), digest_size=8).digest(), "big", signed=True)


@dataclass(frozen=True)
class Again:
    """A gateway is to send its messages of an epoch from this number on."""

    gateway: str
    epoch: int
    number: int


@dataclass(frozen=True)
class Begin:
    """A gateway is to begin this epoch with what stands behind a message of its own epoch, up to which all is taken."""

    gateway: str
    epoch: int
    own: int
    last: int


@dataclass(frozen=True)
class Down:
    """A downlink for a meter that the gateway heard, with its counter, and for how many seconds it counts."""

    address: str
    down: int
    frame: str
    seconds: int


def new_epoch(now: float) -> int:
    """An epoch that begins now: two that begin in one second are two."""
    return max(int(now), SECONDS_ALONE // DRAWN) * DRAWN + secrets.randbelow(DRAWN)


def second_of(epoch: int) -> int:
    """The second in which an epoch began, by the clock of who began it."""
    return epoch // DRAWN if epoch >= SECONDS_ALONE else epoch


def is_far(epoch: int, now: float) -> bool:
    """Whether an epoch is so far above now that none may begin there."""
    return second_of(epoch) > now + EPOCH_AHEAD


def lines_body(epoch: int, number: int, until: int, lines: bytes) -> bytes:
    """A numbered message, whose lines end with newlines."""
    return f"wmbus-lines 1 {epoch} {number} {until}\n".encode() + lines


def gateway_in(key: str | bytes) -> str:
    """Whose message one is, by its key, `up.AREA.GATEWAY`, which RabbitMQ lets its own user alone use; in letters of names. (A key that is
    no text comes as bytes.)"""
    key = key if isinstance(key, str) else key.decode("latin-1")
    return UNNAMED.sub("?", key.split(".")[-1][:LONGEST_NAME + 1])


def area_in(key: str | bytes) -> str:
    """The area that the key of a message names."""
    key = key if isinstance(key, str) else key.decode("latin-1")
    return ".".join(key.split(".")[1:-1])


def read_lines(key: str | bytes, body: bytes) -> Message | None:
    """A message by its key, `up.AREA.GATEWAY`, and its body; none where it is out of form."""
    if len(body) > LONGEST:
        return None
    head, *lines = body.decode("latin-1").split("\n")
    found = HEAD.fullmatch(head)
    if found is None or int(found[2]) > LAST or not NAME.fullmatch(gateway_in(key)) or len(lines) > MOST + 1 or lines[-1:] != [""]:
        return None
    return Message(gateway_in(key), int(found[1]), int(found[2]), int(found[3]), tuple(lines[:-1]))


def frames_in(lines: Sequence[str]) -> list[tuple[int, str]]:
    """The lines of frames with their places, from 1: whatever else stands there, a gateway says what it heard alone, and puts no command
    and no key. Of a line that is far too long so much is kept as of a receiver's."""
    return [(place, line[:LONGEST_LINE].replace("\0", "?")) for place, line in enumerate(lines, 1) if line.startswith(FRAMES)]


def asked_body(asked: Again | Begin) -> bytes:
    """What a gateway is asked for."""
    if isinstance(asked, Begin):
        return f"wmbus-begin 1 {asked.epoch} {asked.own} {asked.last}".encode()
    return f"wmbus-again 1 {asked.epoch} {asked.number}".encode()


def down_body(downlink: Down) -> bytes:
    """A downlink on its way to a gateway."""
    return f"wmbus-down 1 {downlink.address} {downlink.down} {downlink.frame} {downlink.seconds}".encode()


def read_order(gateway: str, body: bytes) -> Again | Begin | Down | None:
    """What the fleet says to a gateway; none where it is out of form."""
    text = body.decode("latin-1")
    if found := AGAIN.fullmatch(text):
        return Again(gateway, int(found[1]), int(found[2]))
    if found := BEGIN.fullmatch(text):
        return Begin(gateway, int(found[1]), int(found[2]), int(found[3]))
    if found := DOWN.fullmatch(text):
        return Down(found[1], int(found[2]), found[3], int(found[4]))
    return None
