"""What was used by hour, day and month, and curves: of a register the last value of each stretch of time."""
from __future__ import annotations

import time
from dataclasses import dataclass, replace
from decimal import Decimal

from ..asking import Database
from .reading import Value, points_of
from .shared import Register, Used, curve_words, is_time, line_of, rising_points, time_text, used_notes, used_of

# how many parts of a moment name a period, and how many periods are shown
PERIODS = {"hour": (4, 48), "day": (3, 31), "month": (2, 13)}
# a reading in front of the first period is looked for so far back
DAY = 86_400
BACK = 62 * DAY
SPANS = {"day": 1, "week": 7, "month": 31, "year": 366}
CURVE_POINTS = 160
MOST_CURVES = 6
MOST_DIGITS = 300


@dataclass(frozen=True)
class Row:
    """What was used in a period."""

    period: str
    amount: str
    unit: str
    text: str
    note: str


@dataclass(frozen=True)
class Curve:
    """A register's numbers over time, drawn over 600 by 120."""

    name: str
    line: str
    least: str
    most: str
    begin: str
    end: str
    count: int

    @property
    def told(self) -> str:
        """What it shows, for those who don't see it."""
        return str(curve_words(self.name, self.count, self.least, self.most, self.begin, self.end))


def bounds_of(by: str, now: float) -> list[int]:
    """The moments at which the hours or days of the last periods begin, in this machine's zone, and one behind now."""
    year, month, day, _, minute, second = time.localtime(now)[:6]
    _, count = PERIODS[by]
    if by == "hour":
        found = [int(now) - 60 * minute - second - 3600 * back for back in range(count)]
    else:
        first = (year, month - count + 1, 1) if by == "month" else (year, month, day - count + 1)
        # (rounded, since an hour is missing where summer time began)
        days = range(1 + round((_midnight(year, month, day) - _midnight(*first)) / DAY))
        found = [_midnight(year, month, day - back) for back in days]
    return sorted(found) + [int(now) + 1]


def _midnight(year: int, month: int, day: int) -> int:
    """The moment at which a day begins."""
    return int(time.mktime((year, month, day, 0, 0, 0, 0, 0, -1)))


def used_tables(database: Database, address: str, register: Register, now: float) -> dict[str, list[Row]]:
    """What was used in the last hours, days and months, the last one first, all in the unit that the greatest of these takes."""
    found = {by: _used(database, address, register, by, now) for by in PERIODS}
    greatest = max((it.amount for used in found.values() for _, it in used), default=0)
    return {by: [_row(register, by, period, it, greatest) for period, it in used] for by, used in found.items()}


def _used(database: Database, address: str, register: Register, by: str, now: float) -> list[tuple[tuple[int, ...], Used]]:
    """What was used in the last periods, the last one first."""
    bounds = bounds_of(by, now)
    # (the last reading in front of them is what the first difference is taken from)
    # (of days whose readings are gone no hour is known)
    points = points_of(database, address, register, [bounds[0] - BACK, *bounds], with_days=by != "hour")
    return list(used_of(rising_points(points), PERIODS[by][0]).items())[:-PERIODS[by][1] - 1:-1]


def _row(register: Register, by: str, period: tuple[int, ...], used: Used, greatest: Decimal | int) -> Row:
    """A period's row."""
    is_longer = used.since < _begin_of_hour(used.first) - 3600 if by == "hour" else used.is_longer()
    amount, text = register.used_text(used.amount, greatest)
    return Row(_period_text(period), amount, register.unit, text, ", ".join(used_notes(used, is_longer)))


def _begin_of_hour(hour: tuple[int, ...]) -> float:
    """The moment at which an hour begins."""
    return time.mktime((hour[0], hour[1], hour[2], hour[3], 0, 0, 0, 0, -1))


def _period_text(period: tuple[int, ...]) -> str:
    """A period's name: 2026-11, 2026-11-29, or 2026-11-29 17:00."""
    day = "-".join(f"{part:02d}" for part in period[:3])
    return f"{day} {period[3]:02d}:00" if len(period) > 3 else day


def curves_of(database: Database, address: str, values: list[Value], span: str, now: float) -> list[Curve]:
    """The curves of a meter's first registers."""
    end = int(now) + 1
    width = SPANS[span] * DAY
    bounds = [end - width + width * place // CURVE_POINTS for place in range(CURVE_POINTS + 1)]
    drawn = [it.register for it in values if it.register.is_curve][:MOST_CURVES]
    found = (_curve(register, list(points_of(database, address, register, bounds))) for register in drawn)
    return [curve for curve in found if curve]


def _curve(register: Register, points: list[tuple[int, None, str]]) -> Curve | None:
    """A register's curve, where it has two points or more."""
    shown = [(moment, float(number), number) for moment, _, number in points if is_time(moment) and len(number) < MOST_DIGITS]
    if len(shown) < 2:
        return None
    low, high = min(shown, key=lambda it: it[1]), max(shown, key=lambda it: it[1])
    line = line_of(*zip(*[(moment, number) for moment, number, _ in shown], strict=True))
    ends = [Value(register, number, "", 0) for _, _, number in (low, high)]
    least, most = (replace(it, greatest=max(end.size for end in ends)).text for it in ends)
    return Curve(register.title, line, least, most, time_text(shown[0][0]), time_text(shown[-1][0]), len(shown))
