"""A made building of twelve meters and a neighbour's: what they would send over the time, encrypted with keys of its own.

The payloads are of the public forms of EN 13757-3, the messages of OMS Volume 2. What is used follows the year and the day: it is no
measurement."""
from __future__ import annotations

import math
import random
from collections.abc import Iterator
from dataclasses import dataclass
from datetime import datetime

from . import tool_modules  # noqa: F401  (the way to the modules below)

from telegrams import frames  # isort: skip
from telegrams import messages  # isort: skip

OWN = "4304000000010131"
HOUR, DAY = 3600, 86_400
YEAR = 365.25 * DAY
# the hours between two readings, and those of the last days
FAR_HOURS, NEAR_HOURS, NEAR_DAYS = 6, 1, 3
HEAT, COLD_WATER, WARM_WATER, GAS, POWER = 0x04, 0x07, 0x06, 0x03, 0x02
MAKER, NEIGHBOUR = bytes.fromhex("4304"), bytes.fromhex("3a63")
# for so long the silent meter has sent nothing, and for so long the neighbour's meter has been there
SILENT_DAYS, NEIGHBOUR_DAYS = 9, 14
LISTENS, RESPONSE = 0x84, 0x08


@dataclass
class MadeMeter:
    """A meter: its name, key and mode, how much it reads in a year (kWh or m³), and how far it has counted."""

    name: str
    address: bytes
    mode: int
    key: bytes
    in_a_year: float
    total: float
    counter: int = 0
    heard: float = 0.0
    # the total at the last change of the month
    due_total: float = 0.0

    @property
    def kind(self) -> int:
        """Its device type."""
        return self.address[7]

    def line(self) -> str:
        """Its line of a roster."""
        return f"meter {self.address.hex()} {self.mode} {self.key.hex()} - - 0 0\n"


def address_of(maker: bytes, identification: int, kind: int) -> bytes:
    """A meter's address."""
    return maker + bytes.fromhex(f"{identification:08d}")[::-1] + bytes([1, kind])


MADE = (
    ("Heat, whole building", HEAT, 7, 62_000), ("Heat, ground floor", HEAT, 7, 19_000), ("Heat, first floor", HEAT, 7, 16_500),
    ("Heat, attic", HEAT, 5, 14_000), ("Cold water, whole building", COLD_WATER, 7, 310),
    ("Cold water, ground floor", COLD_WATER, 5, 96), ("Cold water, garden", COLD_WATER, 7, 40),
    ("Warm water, ground floor", WARM_WATER, 7, 38), ("Warm water, first floor", WARM_WATER, 7, 31),
    ("Gas, boiler", GAS, 5, 7_100), ("Power, whole building", POWER, 7, 9_800), ("Power, lift", POWER, 7, 640),
)
SILENT, WRONG_KEY = "Warm water, first floor", "Cold water, garden"
CONFIRMED, GIVEN_UP, WAITING = "Heat, whole building", "Warm water, ground floor", "Power, whole building"


class Building:
    """The meters, and what they send up to a moment."""

    def __init__(self, end: int, days: int) -> None:
        draw = random.Random("the made building of wmbus-service demo")
        self.end, self.begin = end, end - days * DAY
        self.meters = [MadeMeter(name, address_of(MAKER, 40_301_210 + 37 * place, kind), mode, draw.randbytes(16), in_a_year,
                                 in_a_year * draw.uniform(0.6, 4), heard=self.begin - FAR_HOURS * HOUR)
                       for place, (name, kind, mode, in_a_year) in enumerate(MADE)]
        self.neighbour = MadeMeter("", address_of(NEIGHBOUR, 71_188_040, HEAT), 7, draw.randbytes(16), 15_000, 21_400)
        self.wrong = draw.randbytes(16)

    def named(self, name: str) -> MadeMeter:
        """The meter of this name."""
        return next(meter for meter in self.meters if meter.name == name)

    def roster(self) -> str:
        """Its roster, in which one meter has another's key."""
        lines = (meter.line().replace(meter.key.hex(), self.wrong.hex() if meter.name == WRONG_KEY else meter.key.hex())
                 for meter in self.meters)
        return f"wmbus-roster 2\nown {OWN}\n" + "".join(lines)

    def history(self) -> Iterator[str]:
        """The lines of a receiver over all days, in their order."""
        for moment in self._hours():
            for place, meter in enumerate(self.meters):
                if meter.name != SILENT or moment < self.end - SILENT_DAYS * DAY:
                    yield self.sent(meter, moment + 97 * place)
            if moment > self.end - NEIGHBOUR_DAYS * DAY:
                yield self.sent(self.neighbour, moment + 1800)

    def _hours(self) -> Iterator[int]:
        """The moments of rounds of readings."""
        moment = self.begin
        while moment <= self.end - HOUR:
            yield moment
            moment += HOUR * (NEAR_HOURS if moment > self.end - NEAR_DAYS * DAY else FAR_HOURS)

    def answers(self) -> Iterator[str]:
        """The lines in which one command is confirmed, another one is sent three times without an answer, and a third one waits."""
        moment = self.end - HOUR // 2
        yield self.sent(self.named(CONFIRMED), moment, access=LISTENS)
        yield self.sent(self.named(CONFIRMED), moment + 5, control=RESPONSE, access=LISTENS)
        for number in range(1, 4):
            yield self.sent(self.named(GIVEN_UP), moment + 120 * number, access=LISTENS)
            yield f"T {self.named(GIVEN_UP).address.hex()}\n"

    def now(self, turn: int, moment: int) -> str:
        """What the next meter sends at a moment, as a line."""
        heard = [meter for meter in self.meters if meter.name != SILENT] + [self.neighbour]
        return self.sent(heard[turn % len(heard)], moment)

    def sent(self, meter: MadeMeter, moment: int, control: int = 0x44, access: int | None = None) -> str:
        """A meter's next telegram at a moment, as a receiver's line."""
        rate = rate_of(meter, (meter.heard + moment) / 2 if meter.heard else moment)
        before, meter.heard, meter.counter = meter.heard or moment, moment, meter.counter + 1
        meter.total += rate * (moment - before) / YEAR
        if datetime.fromtimestamp(before).month != datetime.fromtimestamp(moment).month:
            meter.due_total = meter.total
        payload = payload_of(meter, rate, moment)
        if meter.mode == 5:
            told = messages.whole_5(meter.key, meter.address, meter.counter % 256, payload, control)
        else:
            told = messages.whole(meter.key, meter.address, meter.counter, payload, control, access)
        return f"A {moment} {frames.format_a(told).hex()}\n"


def outside(moment: float) -> float:
    """How warm it is outside, in degrees."""
    day = moment / DAY
    weather = 3 * math.sin(day / 2.9) + 2 * math.sin(day / 7.3 + 1)
    return 9.5 - 10 * math.cos(2 * math.pi * (moment % YEAR / YEAR - 0.055)) - 3 * math.cos(2 * math.pi * (day % 1 - 0.1)) + weather


def rate_of(meter: MadeMeter, moment: float) -> float:
    """How much would be read in a year if it were always as at this moment."""
    hour = moment / HOUR % 24
    if meter.kind in (HEAT, GAS):
        return meter.in_a_year * max(0.05, (17 - outside(moment)) / 7.6) * (0.75 if hour < 5 else 1.08)
    busy = 0.15 if hour < 5 else 1 + 0.9 * math.exp(-(hour - 7) ** 2 / 4) + 0.8 * math.exp(-(hour - 19) ** 2 / 6)
    return meter.in_a_year * busy * (0.75 + 0.08 * math.sin(moment / DAY / 1.7))


def bcd(number: float, size: int) -> bytes:
    """A number of so many bytes in BCD, low byte first."""
    return bytes.fromhex(f"{int(number) % 100 ** size:0{2 * size}d}")[::-1]


def date(moment: float) -> bytes:
    """A date (type G)."""
    day = datetime.fromtimestamp(moment)
    year = day.year % 100
    return bytes([day.day | (year & 7) << 5, day.month | (year & 0x78) << 1])


def payload_of(meter: MadeMeter, rate: float, moment: int) -> bytes:
    """A meter's data records: total, what flows now, and where it has them temperatures or the total of the last month's end."""
    hourly = rate / YEAR * HOUR
    records: tuple[bytes, ...]
    if meter.kind == HEAT:
        flow = hourly / 1.16 / 20
        supply, back = 38 + max(0, 18 - outside(moment)) * 1.3, 33 + max(0, 18 - outside(moment)) * 0.6
        records = (b"\x0c\x06" + bcd(meter.total, 4), b"\x0c\x14" + bcd(100 * meter.total / 1.16 / 20, 4),
                   b"\x0b\x2d" + bcd(10 * hourly, 3), b"\x0b\x3b" + bcd(1000 * flow, 3),
                   b"\x0a\x5a" + bcd(10 * supply, 2), b"\x0a\x5e" + bcd(10 * back, 2))
    elif meter.kind == POWER:
        records = (b"\x0c\x04" + bcd(100 * meter.total, 4), b"\x0b\x2b" + bcd(1000 * hourly, 3))
    elif meter.kind == GAS:
        records = (b"\x0c\x14" + bcd(100 * meter.total, 4),)
    else:
        first = datetime.fromtimestamp(moment).replace(day=1).timestamp()
        records = (b"\x0c\x13" + bcd(1000 * meter.total, 4), b"\x0b\x3b" + bcd(1000 * hourly, 3),
                   b"\x4c\x13" + bcd(1000 * meter.due_total, 4), b"\x42\x6c" + date(first))
    return b"\x2f\x2f" + b"".join(records)
