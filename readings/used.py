"""What was used by hour, day and month: the differences of a register that only rises."""
from __future__ import annotations

import datetime
import functools
import time
from collections.abc import Sequence
from dataclasses import dataclass
from decimal import Decimal
from itertools import pairwise
from typing import Any

from readings.page_texts import is_number, is_time

# year, month, day and hour
Hour = tuple[int, int, int, int]
# quantities whose main registers only rise, but for a meter that is reset or replaced
RISING = {"energy", "volume", "mass", "hca"}


@dataclass
class Used:
    """What was used in an hour, a day or a month, from the last reading before it, whose moment is `since`; the first hour of its
    readings."""
    since: int
    first: Hour
    amount: Decimal = Decimal(0)
    fell: bool = False

    def is_longer(self) -> bool:
        """Whether the reading before lies further back than the day before its first one."""
        return (datetime.date(*self.first[:3]) - datetime.date(*hour_of(self.since)[:3])).days > 1


# (as many as a register has in a year where it is heard every ten minutes; a page that is served lives long)
@functools.lru_cache(maxsize=1 << 16)
def hour_of(moment: int) -> Hour:
    """The hour of a moment in this machine's zone: year, month, day and hour."""
    now = time.localtime(moment)
    return now.tm_year, now.tm_mon, now.tm_mday, now.tm_hour


def rising_points(points: Sequence[tuple[int, Any, str]]) -> list[tuple[int, Decimal]]:
    """The numbers at moments that are times, without each that alone stands out between one and a next that isn't less: it was misread."""
    found = [(moment, Decimal(value)) for moment, _, value in points if is_time(moment) and is_number(value)]
    kept = found[:1]
    for point, behind in pairwise(found[1:]):
        low, high = kept[-1][1], behind[1]
        if low > high or low <= point[1] <= high:
            kept.append(point)
    return kept + found[1:][-1:]


def used_of(points: Sequence[tuple[int, Decimal]], parts: int) -> dict[tuple[int, ...], Used]:
    """What was used by hour (of 4 parts), day (of 3) or month (of 2), in their order, of rising points. Where the register fell the
    meter was reset or replaced, and nothing is counted."""
    used: dict[tuple[int, ...], Used] = {}
    for (before, old), (moment, new) in pairwise(points):
        hour = hour_of(moment)
        entry = used.setdefault(hour[:parts], Used(before, hour))
        if new < old:
            entry.fell = True
        else:
            entry.amount += new - old
    return used
