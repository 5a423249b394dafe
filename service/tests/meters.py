"""Meters of both security modes, and what they send: whole messages, fragments, responses, with and without an access window."""
from __future__ import annotations

import random
from dataclasses import dataclass, field

from telegrams import messages
from telegrams.frames import format_a

OWN = "9315010000000131"
SECONDARY = bytes.fromhex("0c2b75230000") * 8


@dataclass
class Meter:
    """A meter, and how far it has counted."""

    address: bytes
    mode: int
    key: bytes
    other: bytes | None
    counter: int = 0
    # counters of messages of which a fragment was never heard
    lost: set[int] = field(default_factory=set)

    @property
    def name(self) -> str:
        """Its address in hexadecimal."""
        return self.address.hex()

    def line(self) -> str:
        """Its line of a roster."""
        other = "-" if self.other is None else self.other.hex()
        return f"meter {self.name} {self.mode} {self.key.hex()} {other} - 0 0\n"


def some_meters(draw: random.Random, count: int) -> list[Meter]:
    """Meters of which every third is of mode 5."""
    found = []
    for number in range(1, count + 1):
        address = bytes.fromhex("9315") + bytes.fromhex(f"{number:08d}")[::-1] + b"\x01\x07"
        mode = 5 if number % 3 == 0 else 7
        found.append(Meter(address, mode, draw.randbytes(16), draw.randbytes(16) if mode == 7 and number % 2 else None))
    return found


def roster_of(meters: list[Meter]) -> str:
    """A roster of these meters."""
    return f"wmbus-roster 2\nown {OWN}\n" + "".join(meter.line() for meter in meters)


def payload_of(counter: int) -> bytes:
    """A volume that grows."""
    return b"\x2f\x2f\x0c\x13" + bytes.fromhex(f"{counter:08d}")[::-1]


def next_telegrams(draw: random.Random, meter: Meter) -> list[bytes]:
    """What a meter sends for its next counter."""
    meter.counter += 1
    control = draw.choice([0x44, 0x44, 0x44, 0x46, 0x44, 0x08, 0x18])
    if meter.mode == 5:
        return [messages.whole_5(meter.key, meter.address, meter.counter % 256, payload_of(meter.counter), control, draw.random() < 0.7)]
    if draw.random() < 0.25:
        made: list[bytes] = messages.fragments(meter.key, meter.address, meter.counter, payload_of(meter.counter) + SECONDARY,
                                               draw.randrange(2, 4))
        if draw.random() < 0.3:
            meter.lost.add(meter.counter)
            del made[draw.randrange(len(made))]
        return made
    access = draw.choice([None, 0x80, 0x84, 0x84])
    return [messages.whole(meter.key, meter.address, meter.counter, payload_of(meter.counter), control, access)]


def line_of(telegram: bytes, moment: int) -> str:
    """A receiver's line of a telegram."""
    return f"A {moment} {format_a(telegram).hex()}\n"
