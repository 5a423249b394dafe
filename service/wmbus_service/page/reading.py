"""What the pages show, out of the database, which is only read, and of which what has keys can't be read at all."""
from __future__ import annotations

import json
import sqlite3
from collections.abc import Iterator, Sequence
from dataclasses import dataclass, replace
from decimal import Decimal
from pathlib import Path
from typing import Any

from .. import begun, store
from ..asking import Database
from ..days import IS_TIMED
from ..sensors import NUMBER
from ..trouble import Trouble
from .shared import FIRST_TIME, GRACE, NAMES, PREFIXED, Register, is_number, is_time, label_of, maker_of, prefix_for, type_of

# columns that have keys or what was made with them, and such as have new keys beside what is shown, which these views leave out
KEYED = {("meter", "block"), ("outbox", "frame"), ("aside", "text")}
VIEWED = {("line", "text"): "line", ("command", "payload"): "command"}
VIEWS = (
    "create temp view line as select number, receiver, case when substr(text, 1, 2) in ('A ', 'B ') then text else '' end as text, due, made"
    " from main.line",
    "create temp view command as select rowid, id, address, kind, case kind when 'send' then payload else '' end as payload, state, number,"
    " tries, reason, wish, made, changed from main.command",
)
PATIENCE = 2.0
# in so many of a meter's last readings its registers are looked for, and so many values of these
MOST_READINGS, MOST_VALUES = 200, 20_000
# readings are looked through for the last value of overviews
FEW_READINGS = 5
# the rank of what says most of a meter: no other value says more
MOST_SAID = (False, 0)
# no store keeps more strangers
KEPT_STRANGERS = 10_000
# powers of ten by which a number is shown with all its digits
MOST_POWER = 60
FIRST_ALWAYS = "function = 'instantaneous' and storage = 0 and tariff = 0 and subunit = 0"


def open_reading(path: Path) -> sqlite3.Connection:
    """Opens the database for reading alone."""
    begun.judge_lost(path, not path.exists())
    if not path.exists():
        raise Trouble(path, "there is no database yet", "`wmbus-service add` or `wmbus-service run` makes it")
    store.look_at_rights(path, 0o600)
    database = sqlite3.connect(path, timeout=PATIENCE, isolation_level=None, check_same_thread=False)
    for view in VIEWS:
        database.execute(view)
    database.execute("pragma query_only = on")
    database.set_authorizer(_allowed)
    return database


def _allowed(action: int, first: str | None, second: str | None, base: str | None, inner: str | None) -> int:
    is_keyed = (first, second) in KEYED or base == "main" and inner != VIEWED.get((first or "", second or ""), inner)
    return sqlite3.SQLITE_DENY if action == sqlite3.SQLITE_READ and is_keyed else sqlite3.SQLITE_OK


@dataclass(frozen=True)
class Value:
    """A register's value, when it was heard, and the number by which its unit's prefix is chosen."""

    register: Register
    number: str
    raw: str
    heard: float
    greatest: Decimal | None = None

    @property
    def rank(self) -> tuple[bool, int]:
        """Its register's place among those of a meter."""
        is_other, place = self.register.rank
        return bool(is_other), int(place)

    @property
    def size(self) -> Decimal:
        """How great it is, where it is a number whose unit takes prefixes."""
        return abs(Decimal(self.number)) if self.register.unit in PREFIXED and is_number(self.number) else Decimal(0)

    @property
    def text(self) -> str:
        """As a person reads it."""
        prefix = prefix_for(self.size if self.greatest is None else self.greatest) if self.size else ("", 0)
        return str(self.register.text(self.number, prefix, self.raw))


@dataclass(frozen=True)
class Meter:
    """A meter: its name, its last reading, and what says most of it."""

    address: str
    name: str
    receiver: str | None
    heard: float | None
    counter: int | None
    main: Value | None
    # since when it is out of service
    retired: float | None = None

    @property
    def title(self) -> str:
        """What it is called: its name, else its label."""
        return self.name or str(label_of(self.address))

    @property
    def about(self) -> str:
        """Its label, where it has a name, and its device type."""
        return ", ".join([str(label_of(self.address))] * bool(self.name) + [str(type_of(self.address))])


def maker(address: str) -> str:
    """The three letters of a meter's maker, where it has such."""
    return str(maker_of(address) or "unknown")


def heard_at(moment: int, made: float, now: float) -> float:
    """When a reading was heard: by its receiver's clock, where that one has a time that isn't after now; else when it was written."""
    return moment if is_time(moment) and moment <= now + GRACE else made


def exact(value: str, exponent: int) -> str:
    """A value with its power of ten, with all its digits; one with too many zeros has the power behind it."""
    if not NUMBER.fullmatch(value):
        return value
    if abs(exponent) > MOST_POWER:
        return f"{value} × 10^{exponent}"
    return f"{Decimal(f'{value}E{exponent}'):f}"


def told_raw(quantity: str, raw: str) -> str:
    """What was sent, where everybody may see it: access codes, passwords and keys of a meter are among the unknown quantities."""
    return "" if quantity == "unknown" else raw


LAST_OF_EACH = ("select address, name, receiver, retired,"
                " (select id from reading where reading.address = meter.address and moment >= ? and moment <= ?"
                "  order by moment desc, id desc limit 1) as timed,"
                " (select max(id) from reading where reading.address = meter.address and moment < ?) as counted,"
                " exists (select 1 from reading where reading.address = meter.address) from meter order by place")


def all_meters(database: Database, now: float) -> list[Meter]:
    """All meters, in the order in which they were added, each with when it was heard and without its values: so many are asked for at
    once."""
    rows = database.execute(LAST_OF_EACH, (FIRST_TIME, int(now) + GRACE, FIRST_TIME)).fetchall()
    lasts = [max(row[4] or 0, row[5] or 0) if not (row[4] and row[5]) else 0 for row in rows]
    told = {ident: (moment, made, counter) for ident, moment, made, counter in database.execute(
        "select id, moment, made, counter from reading where id in (select value from json_each(?))", (json.dumps(lasts),))}
    found = []
    for (address, name, receiver, retired, _, _, is_heard), ident in zip(rows, lasts, strict=True):
        if ident:
            moment, made, counter = told[ident]
            found.append(Meter(address, name, receiver, heard_at(moment, made, now), counter, None, retired))
        elif not is_heard:
            found.append(Meter(address, name, receiver, None, None, None, retired))
        else:
            # (by clocks of several kinds, or ahead alone: these are few)
            meter = _meter(database, (address, name, receiver), now)
            found.append(replace(meter, main=None, retired=retired))
    return found


def with_values(database: Database, meters: Sequence[Meter], now: float) -> list[Meter]:
    """These meters with what says most of each."""
    return [replace(_meter(database, (it.address, it.name, it.receiver), now), retired=it.retired) for it in meters]


def meters_of(database: Database, rows: Sequence[tuple[str, str, str | None]], now: float) -> list[Meter]:
    """The meters of these rows."""
    return [_meter(database, row, now) for row in rows]


def one_meter(database: Database, address: str, now: float) -> Meter | None:
    """The meter of an address, if it is known."""
    row = database.execute("select address, name, receiver from meter where address = ?", (address.lower(),)).fetchone()
    return _meter(database, row, now) if row else None


def _meter(database: Database, row: tuple[str, str, str | None], now: float) -> Meter:
    last = _last_readings(database, row[0], now, FEW_READINGS)
    if not last:
        return Meter(*row, heard=None, counter=None, main=None)
    _, moment, made, counter = last[0]
    return Meter(*row, heard=heard_at(moment, made, now), counter=counter, main=_main_value(database, last, now))


LAST = "select id, moment, made, counter from reading where"
Last = list[tuple[int, int, float, int]]


def _last_readings(database: Database, address: str, now: float, most: int) -> Last:
    """A meter's last readings, the last one first; those of a clock that is ahead only where there are no others."""
    limit = int(now) + GRACE
    query = f"{LAST} address = ? and moment >= ? and moment <= ? order by moment desc, id desc limit ?"
    found: Last = database.execute(query, (address, FIRST_TIME, limit, most)).fetchall()
    # (of moments that count from a receiver's start the last one is that which was written last)
    counts = database.execute(f"{LAST} id in (select id from reading where address = ? and moment < ? order by id desc limit ?)"
                              " order by id desc", (address, FIRST_TIME, most)).fetchall()
    if counts:
        found = sorted(found + counts, key=lambda it: (heard_at(it[1], it[2], now), it[0]), reverse=True)[:most]
    if not found:
        found = database.execute(query, (address, limit + 1, (1 << 63) - 1, most)).fetchall()
    return found


def _main_value(database: Database, readings: Last, now: float) -> Value | None:
    """Of the values of a meter's last readings the one that says most, as the last of these has it."""
    best: Value | None = None
    for ident, moment, made, _ in readings:
        rows = database.execute(f"select quantity, unit, modifiers, exponent, value, raw from record where reading = ? and {FIRST_ALWAYS}"
                                " order by place limit 100", (ident,))
        found = [Value(Register(quantity, unit, modifiers=modifiers), exact(value, exponent), raw, heard_at(moment, made, now))
                 for quantity, unit, modifiers, exponent, value, raw in rows if quantity not in NAMES and NUMBER.fullmatch(value)]
        first = min(found, key=lambda it: it.rank, default=None)
        if first is not None and (best is None or first.rank < best.rank):
            best = first
        if best is not None and best.rank == MOST_SAID:
            break
    return best


def last_values(database: Database, address: str, now: float) -> list[Value]:
    """The last value of each of a meter's registers, the main ones first."""
    # (by columns: thousands of registers are compared in a moment so)
    found: dict[tuple[Any, ...], Value] = {}
    count = 0
    for ident, moment, made, _ in _last_readings(database, address, now, MOST_READINGS):
        rows = database.execute("select quantity, unit, function, storage, tariff, subunit, modifiers, exponent, value, raw from record"
                                " where reading = ? order by place limit ?", (ident, MOST_VALUES)).fetchall()
        for row in rows:
            if (kind := row[:7]) not in found:
                register = Register(*kind[:6], modifiers=kind[6])
                found[kind] = Value(register, exact(row[8], row[7]), told_raw(row[0], row[9]), heard_at(moment, made, now))
        count += len(rows)
        if count > MOST_VALUES:
            break
    greatest: dict[str, Decimal] = {}
    for it in found.values():
        greatest[it.register.unit] = max(greatest.get(it.register.unit, Decimal(0)), it.size)
    shown = [replace(it, greatest=greatest[it.register.unit]) for it in found.values()]
    return sorted(shown, key=lambda it: (*it.rank, it.register.storage))


POINT = ("select moment, exponent, value from reading cross join record on record.reading = reading.id"
         " where address = ? and moment >= ? and moment < ? and quantity = ? and unit = ? and function = ? and storage = ?"
         f" and tariff = ? and subunit = ? and modifiers = ? and {IS_TIMED} order by moment desc, reading.id desc, record.place limit 1")
# a value at a moment, and its power of ten
Point = tuple[int, int, str]


def points_of(database: Database, address: str, register: Register, bounds: Sequence[int],
              with_days: bool = False) -> Iterator[tuple[int, None, str]]:
    """The last value in each stretch between bounds, where there is one; also of days whose readings are gone, where that is asked for."""
    kind = (register.quantity, register.unit, register.function, register.storage, register.tariff, register.subunit, register.modifiers)
    days = _day_points(database, address, register, bounds[0], bounds[-1]) if with_days else []
    for begin, end in zip(bounds, bounds[1:], strict=False):
        row: Point | None = database.execute(POINT, (address, begin, end, *kind)).fetchone()
        while days and days[-1][0] < end:
            day = days.pop()
            row = day if row is None or day[0] > row[0] else row
        if row and NUMBER.fullmatch(row[2]) and abs(row[1]) <= MOST_POWER:
            yield row[0], None, exact(row[2], row[1])


def _day_points(database: Database, address: str, register: Register, begin: int, end: int) -> list[Point]:
    """The last values of days whose readings are gone, the last day first. (A store that keeps none has no modifiers there.)"""
    rows = rows_of(database, "select * from daily where address = ? and quantity = ? and unit = ? and function = ? and storage = ?"
                             " and tariff = ? and subunit = ?",
                   (address, register.quantity, register.unit, register.function, register.storage, register.tariff, register.subunit))
    found = [(row["moment"], row["exponent"], row["value"]) for row in rows if row.get("modifiers", "") == register.modifiers]
    return sorted((it for it in found if it[0] is not None and begin <= it[0] < end), reverse=True)


def rows_of(database: Database, query: str, given: Sequence[object] = ()) -> list[dict[str, Any]]:
    """Rows with the names of their columns."""
    asked = database.execute(query, given)
    names = [column[0] for column in asked.description]
    return [dict(zip(names, row, strict=True)) for row in asked]


def commands_of(database: Database, address: str, most: int = 50) -> list[dict[str, Any]]:
    """A meter's commands, the open ones first, and of these and of the others the last ones; those of new keys without the key."""
    return rows_of(database, "select id, address, kind, case kind when 'send' then payload else '' end as payload, state, number, tries,"
                             " reason, wish, made, changed from command where address = ?"
                             " order by state in ('waiting', 'queued', 'sent') desc, rowid desc limit ?", (address, most))


def count_commands(database: Database, address: str) -> int:
    """How many commands a meter has."""
    (count,) = database.execute("select count(*) from command where address = ?", (address,)).fetchone()
    return int(count)


def refusals_of(database: Database, address: str) -> list[dict[str, Any]]:
    """Why telegrams of a meter were refused, what came last first."""
    return rows_of(database, "select address, reason, words, times, last_made from refusal where address = ? order by last_made desc",
                   (address,))


def strangers(database: Database, most: int = KEPT_STRANGERS, since: float = 0) -> list[dict[str, Any]]:
    """Meters that aren't known: those that were heard since a moment first, and of these those that were heard most."""
    found = rows_of(database, "select address, times, receiver, last_made from stranger where not exists"
                              " (select 1 from meter where meter.address = stranger.address)"
                              " order by last_made > ? desc, times desc, address limit ?", (since, most))
    return [row | {"label": label_of(row["address"]), "maker": maker(row["address"]), "type": type_of(row["address"])} for row in found]
