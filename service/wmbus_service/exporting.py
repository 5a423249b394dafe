"""Readings, lines and states out of the database, as texts."""
from __future__ import annotations

import csv
import io
import json
import re
import sqlite3
from collections.abc import Iterable, Iterator

from . import store
from .status import shown
from .steps import MOST_METERS, state_text
from .trouble import Trouble

HEAD = ("moment", "address", "name", "counter", "quantity", "value", "unit", "function", "storage", "tariff", "subunit", "receiver",
        "modifiers")
# how a spreadsheet's formula begins, and numbers that begin so
FORMULA, NUMBER = re.compile(r"[=+@\t\r-]"), re.compile(r"[+-][0-9][0-9., ]*")
# readings that are taken at once: between two such pieces nothing of the database is held, however long who asks reads on nothing
PIECE = 200
LAST_OF_PIECE = ("select max(id) from (select id from reading where address = coalesce(?, address) and moment >= ? and id > ?"
                 " order by id limit ?)")
QUERY = ("select moment, reading.address, meter.name, counter, quantity, value, exponent, unit, function, storage, tariff, subunit,"
         " reading.receiver, modifiers from reading cross join record on record.reading = reading.id"
         " left join meter on meter.address = reading.address where reading.address = coalesce(?, reading.address) and moment >= ?"
         " and reading.id > ? and reading.id <= ? order by reading.id, record.place")


def values(database: sqlite3.Connection, address: str | None, since: int) -> Iterator[dict[str, object]]:
    """The values of all readings, or those of a meter, from a moment on, piece by piece."""
    behind = 0
    while last := database.execute(LAST_OF_PIECE, (address, since, behind, PIECE)).fetchone()[0]:
        rows = database.execute(QUERY, (address, since, behind, last)).fetchall()
        for moment, meter, name, counter, quantity, value, exponent, unit, *rest in rows:
            yield dict(zip(HEAD, (moment, meter, name or "", counter, quantity, shown(value, exponent), unit, *rest), strict=True))
        behind = last


def name_cell(name: str) -> str:
    """A name as spreadsheets take it for a text: one that isn't a number and begins as a formula gets the sign that says so."""
    return f"'{name}" if FORMULA.match(name) and not NUMBER.fullmatch(name) else name


def as_csv(database: sqlite3.Connection, address: str | None, since: int) -> Iterator[str]:
    """The values as lines of CSV."""
    yield _csv_line(HEAD)
    for row in values(database, address, since):
        yield _csv_line((row | {"name": name_cell(str(row["name"]))}).values())


def _csv_line(fields: Iterable[object]) -> str:
    """A line of CSV."""
    text = io.StringIO()
    csv.writer(text, lineterminator="\n").writerow(fields)
    return text.getvalue()


def as_json(database: sqlite3.Connection, address: str | None, since: int) -> Iterator[str]:
    """The values as JSON objects, one a line."""
    for row in values(database, address, since):
        yield json.dumps(row) + "\n"


def states(database: sqlite3.Connection) -> list[str]:
    """What is known of all meters, as the programs read it, with their keys: one state, or several of more meters than one has."""
    own = store.setting(database, "own")
    if own is None:
        raise Trouble("the database", "no meter is known yet")
    blocks = [block for (block,) in database.execute("select block from meter order by place")]
    return [state_text(own, blocks[start:start + MOST_METERS]) for start in range(0, max(len(blocks), 1), MOST_METERS)]


def lines(database: sqlite3.Connection) -> Iterator[str]:
    """All lines that are kept, in the order in which they were committed. Those of new keys have keys."""
    for (text,) in database.execute("select text from line order by number"):
        yield f"{text}\n"
