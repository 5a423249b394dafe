"""The tables of readings/schema.py over the database of wmbus-service (docs/SERVICE.md), so that bin/report_page makes its page of either:
views that go with their connection.

What the service heard is two reports in them: up to each meter's last reading, and what was refused since, where that went on for LATE
seconds. Receivers have their names in place of numbers, and commands their ids."""
from __future__ import annotations

import sqlite3
from decimal import Decimal

from readings.page_texts import is_number

APPLICATION = 0x776D6275
# (the tables that are read here are the same in all versions up to this one)
VERSION = 9
# a value with a greater power of ten has it behind it
MOST_POWER = 60
LATE = 6 * 3600

VIEWS = f"""
CREATE TEMP VIEW report AS SELECT 2 AS id, 'the database' AS name, strftime('%Y-%m-%dT%H:%M:%SZ', 'now') AS kept;
CREATE TEMP VIEW receiver AS
    SELECT 2 AS report, receiver AS number, (SELECT count(*) FROM main.line WHERE line.receiver = source.receiver) AS lines,
        -- (which lines say nothing the service counts over all receivers alone)
        0 AS unframed, 0 AS bad
    FROM (SELECT DISTINCT receiver FROM main.source) AS source;
CREATE TEMP VIEW reading AS SELECT id, address, counter, moment, receiver, line FROM main.reading;
CREATE TEMP TABLE register AS
    SELECT row_number() OVER () AS id, *, '' AS qualifiers
    FROM (SELECT DISTINCT quantity, unit, function, storage, tariff, subunit, modifiers FROM main.record);
CREATE INDEX temp.register_key ON register (quantity, unit, function, storage, tariff, subunit, modifiers);
CREATE TEMP VIEW record AS
    SELECT reading, place, register.id AS register, exact(value, exponent) AS value, 0 AS unset, 'number' AS type,
        -- (access codes, passwords and keys of a meter are among the unknown quantities)
        iif(quantity = 'unknown', '', raw) AS raw
    FROM main.record AS kept JOIN temp.register USING (quantity, unit, function, storage, tariff, subunit, modifiers);
CREATE TEMP VIEW refusal AS
    SELECT iif(last_made > {LATE} + (SELECT coalesce(max(made), 0) FROM main.reading WHERE reading.address = kept.address), 2, 1) AS report,
        address, reason, times AS count, words AS last
    FROM main.refusal AS kept;
CREATE TEMP VIEW meter AS
    SELECT report, address, substr(block, 24, 1) AS mode,
        iif(report = 1, stored, 0) + (SELECT coalesce(sum(count), 0) FROM temp.refusal
            WHERE refusal.address = kept.address AND refusal.report = parts.report) AS steps,
        iif(report = 1, stored, 0) AS readings,
        iif(report = 1, (SELECT fault FROM main.reading WHERE reading.address = kept.address ORDER BY id DESC LIMIT 1), NULL) AS fault
    FROM (SELECT address, block,
            (SELECT count(*) FROM main.reading WHERE reading.address = meter.address) AS stored FROM main.meter) AS kept
        CROSS JOIN (SELECT 1 AS report UNION ALL SELECT 2) AS parts;
CREATE TEMP VIEW pending AS
    SELECT 2 AS report, address, id AS command, tries FROM main.command WHERE state IN ('waiting', 'queued', 'sent');
CREATE TEMP VIEW stranger AS
    SELECT 2 AS report, address, times AS count FROM main.stranger WHERE address NOT IN (SELECT address FROM main.meter);
"""


def exact(value: str, exponent: int) -> str:
    """A value with its power of ten, with all its digits."""
    if not is_number(value):
        return value
    return f"{Decimal(f'{value}E{exponent}'):f}" if abs(exponent) <= MOST_POWER else f"{value} × 10^{exponent}"


def put_views(database: sqlite3.Connection) -> None:
    """Puts the views over a database of the service."""
    database.create_function("exact", 2, exact, deterministic=True)
    for statement in VIEWS.split(";\n"):
        database.execute(statement)


def names_of(database: sqlite3.Connection) -> dict[str, str]:
    """What the service calls its meters."""
    return dict(database.execute("SELECT address, name FROM main.meter WHERE name <> ''"))
