"""Each page's contents as data, from which its HTML and its JSON are made."""
from __future__ import annotations

import csv
import io
from collections.abc import Callable, Iterator
from dataclasses import asdict, replace
from typing import Any

from ..asking import Database
from ..config import Config
from ..exporting import HEAD, name_cell
from . import looks, periods, radios
from .finding import number_of, wanted
from .reading import (
    Meter, Value, all_meters, commands_of, count_commands, exact, last_values, one_meter, refusals_of, rows_of, strangers,
    with_values,
)

MOST_LOOKS, MOST_SHOWN = 100, 200
# of meters on a page, and of what needs a person
MOST_METERS, MOST_TOLD = 200, 1000


def meter_data(meter: Meter) -> dict[str, Any]:
    """A meter as data."""
    told = {"address": meter.address, "name": meter.name, "title": meter.title, "about": meter.about, "receiver": meter.receiver,
            "heard": meter.heard, "counter": meter.counter, "retired": meter.retired}
    return told | {"main": value_data(meter.main) if meter.main else None}


def register_data(register: Any) -> dict[str, Any]:
    """A register as data: what the database has of it."""
    return {name: getattr(register, name) for name in ("quantity", "unit", "function", "storage", "tariff", "subunit", "modifiers")}


def value_data(value: Value) -> dict[str, Any]:
    """A register's value as data, its number exactly as text."""
    register = value.register
    return register_data(register) | {"value": value.number, "raw": value.raw, "heard": value.heard, "text": value.text,
                                      "title": register.name, "of_what": register.of_what}


def overview(config: Config, database: Database, now: float, number: int = 1) -> dict[str, Any]:
    """What needs a person first, then a page of all meters, those out of service apart."""
    meters = all_meters(database, now)
    found = looks.all_looks(config, database, meters, radios.receivers(config, database, now), now)
    totals = dict(database.execute("select name, value from total").fetchall())
    (waiting,) = database.execute("select count(*) from command where state in ('waiting', 'queued', 'sent')").fetchone()
    kinds = _kinds_of(found)
    pages = {name: _page_of(database, [it for it in meters if (it.retired is not None) is is_retired], number, kinds, now)
             for name, is_retired in (("meters", False), ("retired", True))}
    return {"now": now, "sqlite": f"{config.database.absolute().as_uri()}?mode=ro",
            "looks": [vars(look) for look in found[:MOST_TOLD]], "looks_count": len(found),
            **{name: rows for name, (rows, _) in pages.items()}, "counts": {name: count for name, (_, count) in pages.items()},
            "page": number, "most": MOST_METERS,
            "totals": {"lines": totals.get("lines", 0), "stored": totals.get("stored", 0), "commands": waiting,
                       "read": sum(it.heard is not None and it.retired is None for it in meters)}}


def _kinds_of(found: list[looks.Look]) -> dict[str, tuple[str, str]]:
    """Of each meter at which somebody should look the worst kind, and what it is."""
    kinds: dict[str, tuple[str, str]] = {}
    for look in reversed(found):
        if look.link.startswith("/meters/"):
            kinds[look.link.removeprefix("/meters/")] = look.kind, look.what
    return kinds


def _page_of(database: Database, meters: list[Meter], number: int, kinds: dict[str, tuple[str, str]],
             now: float) -> tuple[list[dict[str, Any]], int]:
    """A page of meters, each with its values and its look, and how many meters there are."""
    begin = (number - 1) * MOST_METERS
    shown = with_values(database, meters[begin:begin + MOST_METERS], now)
    return [meter_data(meter) | {"look": kinds.get(meter.address)} for meter in shown], len(meters)


# how the list of meters may be sorted, but for the order in which they were added
ORDERS: dict[str, Callable[[Meter], Any]] = {
    "name": lambda it: it.title.casefold(), "number": lambda it: number_of(it.address), "silence": lambda it: it.heard or 0.0,
}


def meters_page(config: Config, database: Database, now: float, asked: dict[str, str], is_retired: bool = False,
                number: int = 1) -> dict[str, Any]:
    """The meters that somebody looks for, in some order, page by page; where nobody looks for one those in service, or those out of it."""
    meters = all_meters(database, now)
    kinds = _kinds_of(looks.all_looks(config, database, meters, [], now))
    found = [it for it in meters if (it.retired is not None) is is_retired]
    if asked["q"]:
        looked_for = wanted(asked["q"])
        # (those in service first)
        found = [it for it in sorted(meters, key=lambda it: it.retired is not None)
                 if looked_for.finds(it.address, it.name, it.retired is None)]
    if order := ORDERS.get(asked["order"]):
        found = sorted(found, key=order)
    rows, count = _page_of(database, found, number, kinds, now)
    return {"now": now, "asked": asked, "orders": list(ORDERS), "meters": rows, "count": count, "page": number, "most": MOST_METERS}


def meter_page(database: Database, address: str, span: str, now: float, retired: float | None = None) -> dict[str, Any] | None:
    """All of a meter, if it is known; it may be out of service since some moment."""
    known = one_meter(database, address, now)
    if known is None:
        return None
    meter = replace(known, retired=retired)
    values = last_values(database, meter.address, now)
    refusals = refusals_of(database, meter.address)
    used = []
    for register in [it.register for it in values if it.register.rises][:4]:
        tables = periods.used_tables(database, meter.address, register, now)
        rows = {by: [asdict(row) for row in table] for by, table in tables.items()}
        if any(rows.values()):
            used.append({"register": register_data(register), "title": register.title, "by": rows})
    drawn = periods.curves_of(database, meter.address, values, span, now)
    return {"now": now, "meter": meter_data(meter), "looks": [asdict(it) for it in looks.meter_looks(meter, refusals, now)],
            "values": [value_data(it) for it in values], "used": used, "span": span,
            "curves": [asdict(it) | {"told": it.told} for it in drawn],
            "refusals": [row | asdict(looks.explained(row["words"])) for row in refusals],
            "commands": [row | {"words": looks.STATES[row["state"]]} for row in commands_of(database, meter.address)],
            "commands_count": count_commands(database, meter.address)}


def receivers_page(config: Config, database: Database, now: float) -> dict[str, Any]:
    """The receivers, and the lines that were set aside."""
    found = radios.receivers(config, database, now, with_frames=True)
    told = [asdict(it) | {"looks": [asdict(look) for look in looks.radio_looks(it, now)]} for it in found]
    totals = dict(database.execute("select name, value from total").fetchall())
    aside = rows_of(database, "select id, receiver, said, made from aside order by id desc limit 100")
    return {"now": now, "receivers": told, "totals": totals, "aside": aside}


def strangers_page(database: Database, now: float) -> dict[str, Any]:
    """The meters that aren't known."""
    return {"now": now, "strangers": strangers(database, since=now - looks.METER_SILENCE)}


# readings that are taken at once: between two such pieces nothing of the database is held, however long who asks reads on nothing
PIECE = 200
LAST_OF_PIECE = ("select moment, id from reading where address = ? and moment >= ? and moment <= ? and (moment, id) > (?, ?)"
                 " order by moment, id limit ?")
READINGS = ("select moment, reading.address, meter.name, counter, quantity, value, exponent, unit, function, storage, tariff, subunit,"
            " reading.receiver, modifiers from reading cross join record on record.reading = reading.id"
            " left join meter on meter.address = reading.address where reading.address = ? and moment >= ? and moment <= ?"
            " and (moment, reading.id) > (?, ?) and (moment, reading.id) <= (?, ?) order by moment, reading.id, record.place")


# up to which reading a piece goes, by its moment and id, and its rows
Piece = tuple[tuple[int, int], list[tuple[Any, ...]]]


def readings_csv(addresses: list[str], begin: int, piece_of: Callable[[str, tuple[int, int]], Piece | None]) -> Iterator[str]:
    """The values of some meters' readings from a moment on, as lines of CSV, piece by piece."""
    yield _csv_line(HEAD)
    for address in addresses:
        behind = begin, 0
        while piece := piece_of(address, behind):
            behind, rows = piece
            for moment, meter, name, counter, quantity, value, exponent, *rest in rows:
                yield _csv_line((moment, meter, name_cell(name or ""), counter, quantity, exact(value, exponent), *rest))


def piece_of_readings(database: Database, end: int, address: str, behind: tuple[int, int]) -> Piece | None:
    """The values of a meter's next readings up to a moment; none where there are no further ones."""
    piece = database.execute(LAST_OF_PIECE, (address, behind[0], end, *behind, PIECE)).fetchall()
    if not piece:
        return None
    return piece[-1], database.execute(READINGS, (address, behind[0], end, *behind, *piece[-1])).fetchall()


def _csv_line(fields: tuple[object, ...]) -> str:
    text = io.StringIO()
    csv.writer(text, lineterminator="\n").writerow(fields)
    return text.getvalue()
