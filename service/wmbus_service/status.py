"""What the service has done, and what somebody should look at, in words."""
from __future__ import annotations

import json
import sqlite3
import time
from collections.abc import Iterator
from decimal import Decimal
from typing import Any

from . import service, store
from .asking import Database
from .config import Config
from .days import HEARD
from .meters import day_of
from .page import radios
from .retention import DAY, seconds_behind, went_forward
from .sensors import NUMBER
from .spool import files_of, place_of, receiver_of, size_of, unread, written_at
from .troubles import troubles_of

LAST = 10
PARTS = {"sessions": "its sessions", "MQTT": "the MQTT broker", "start": "its start"}
# (looked for in the index alone, since a meter has many)
LAST_READING = f"select id, {HEARD}, counter from reading where id = (select max(id) from reading where address = ?)"


def figures(config: Config, database: sqlite3.Connection) -> dict[str, Any]:
    """All that is told, as data."""
    now = time.time()
    meters = database.execute("select address, name, waits, holds, receiver from meter where retired is null order by place").fetchall()
    is_running = service.is_locked(config.folder)
    return {
        "running": is_running,
        "troubles": [vars(it) for it in troubles_of(config.folder)],
        "no_session_seconds": round(service.still_seconds(config.folder, now)) if is_running else 0,
        # (where it doesn't run nothing is let go, and no clock does harm)
        "clock_went_forward": round(seconds_behind(database, now)) if is_running else 0,
        "receivers": receivers(config, database, now),
        "totals": dict(database.execute("select name, value from total order by name").fetchall()),
        "meters": [meter(database, row, now) for row in meters],
        "retired": _rows(database, f"select address, name, retired, (select {HEARD} from reading where id ="
                                   " (select max(id) from reading where reading.address = meter.address)) as heard"
                                   " from meter where retired is not null order by place"),
        "commands": _rows(database, "select id, address, kind, state, tries, reason, asked_by from command"
                                    " where state in ('waiting', 'queued', 'sent') order by rowid"),
        "downlinks_missed": _rows(database, "select address, receiver, down, missed from outbox where missed is not null"
                                            f" order by id desc limit {LAST}"),
        "refusals": _rows(database, f"select address, words, times from refusal order by last_made desc limit {LAST}"),
        "strangers": _rows(database, "select address, times, receiver from stranger where address not in (select address from meter)"
                                     f" order by times desc limit {LAST}"),
        "aside": _rows(database, f"select id, receiver, text, said from aside order by id desc limit {LAST}"),
        "messages_aside": _rows(database, "select topic, length(payload) as length, said from publication_aside order by id desc"
                                          f" limit {LAST}"),
        "publications_waiting": database.execute("select count(*) from publication").fetchone()[0],
        "publications_oldest_seconds": round(oldest_publication(database, now)),
        "spool_unread": unread(config.spool, database),
        "spooled_bytes": waiting_bytes(config, database),
    }


def receivers(config: Config, database: sqlite3.Connection, now: float) -> list[dict[str, Any]]:
    """How long ago each receiver of the configuration was heard, also by lines that no session has taken yet."""
    found = []
    for radio in radios.receivers(config, database, now):
        if radio.is_configured:
            waiting = [path for path in files_of(config.spool, radio.name)
                       if size_of(path) > place_of(database, radio.name, path.name)]
            heard = max([radio.heard or 0.0, *map(written_at, waiting)])
            found.append({"name": radio.name, "age": max(0, round(now - heard)) if heard else None, "was_heard": radio.was_heard})
    return found


def _rows(database: sqlite3.Connection, query: str) -> list[dict[str, Any]]:
    """Rows with the names of their columns."""
    asked = database.execute(query)
    names = [column[0] for column in asked.description]
    return [dict(zip(names, row, strict=True)) for row in asked.fetchall()]


def meter(database: sqlite3.Connection, row: tuple[Any, ...], now: float) -> dict[str, Any]:
    """A meter and its last reading."""
    told = dict(zip(("address", "name", "waits", "holds", "receiver"), row, strict=True))
    last = database.execute(LAST_READING, (row[0],)).fetchone()
    if last is None:
        return told | {"age": None, "counter": None, "values": []}
    return told | {"age": max(0, round(now - last[1])), "counter": last[2], "values": values_of(database, last[0])}


def values_of(database: sqlite3.Connection, reading: int) -> list[str]:
    """A reading's values of now in words; one with qualifiers, as what flowed backward, is another quantity than the plain one."""
    rows = database.execute("select quantity || case modifiers when '' then '' else '_modifiers' || modifiers end, value, exponent, unit"
                            " from record where reading = ? and function = 'instantaneous'"
                            " and storage = 0 and tariff = 0 and subunit = 0 order by place", (reading,)).fetchall()
    return [" ".join([quantity, shown(value, exponent), *([unit] if unit != "-" else [])]) for quantity, value, exponent, unit in rows]


def shown(value: str, exponent: int) -> str:
    """A value with its power of ten, and all its digits."""
    return f"{Decimal(f'{value}E{exponent}'):f}" if NUMBER.fullmatch(value) else value


def oldest_publication(database: Database, now: float) -> float:
    """For how many seconds the message for the broker that waits longest has waited."""
    row = database.execute("select made from publication order by id limit 1").fetchone()
    return max(0.0, now - float(row[0])) if row and row[0] is not None else 0.0


def waiting_bytes(config: Config, database: Database) -> int:
    """How many bytes of lines no session has taken yet."""
    taken = dict(database.execute("select file, taken from source").fetchall())
    return sum(max(0, size_of(path) - taken.get(path.name, 0)) for path in config.spool.glob("*.lines") if receiver_of(path.name))


def service_words(told: dict[str, Any]) -> Iterator[str]:
    """Whether the service runs, and what the matter with it is."""
    yield "the service runs" if told["running"] else "the service doesn't run: systemctl start wmbus"
    for it in told["troubles"]:
        yield f"trouble with {PARTS.get(it['part'], it['part'])} since {day_and_time(it['since'])}: {it['words']}"
    if told["no_session_seconds"]:
        yield f"it has had no session for {told['no_session_seconds'] // 60} minutes: journalctl -u wmbus says why"
    if told["clock_went_forward"] > DAY:
        yield went_forward(told["clock_went_forward"])


def in_words(told: dict[str, Any]) -> Iterator[str]:
    """The figures line by line."""
    yield from service_words(told)
    totals = told["totals"]
    yield f"{totals.get('lines', 0)} lines heard, {totals.get('stored', 0)} readings; {told['spooled_bytes']} bytes wait in the spool"
    yield from told["spool_unread"]
    for it in told["receivers"]:
        yield receiver_words(it)
    for it in told["meters"]:
        name = f"{it['address']} {it['name']}".strip()
        if it["age"] is None:
            yield f"meter {name}: no reading yet"
        else:
            yield f"meter {name}: {', '.join(it['values']) or 'no values'} ({it['age']} s ago, by {it['receiver'] or 'nobody'})"
    if retired := told["retired"]:
        yield f"{len(retired)} {'meter is' if len(retired) == 1 else 'meters are'} out of service"
    for it in retired:
        if it["heard"] is not None and it["heard"] > it["retired"]:
            yield (f"meter {it['address']} {it['name']}".strip() + f" was heard though it is out of service since {day_of(it['retired'])}"
                   f" (`wmbus-service retire --back {it['address']}` puts it back)")
    for it in told["commands"]:
        yield (f"command {it['id']} for {it['address']}: {it['state']}, sent {it['tries']} times; who asked for it:"
               f" {it['asked_by'] or 'unknown'}")
    for it in told["downlinks_missed"]:
        yield f"downlink {it['down']} for {it['address']} wasn't sent by receiver {it['receiver'] or '(none)'}: {it['missed']}"
    for it in told["refusals"]:
        yield f"refused {it['times']} times for {it['address']}: {it['words']} (docs/FORMATS.md says what to do)"
    for it in told["strangers"]:
        yield f"heard {it['times']} times, and not known: {it['address']} (`wmbus-service add {it['address']}` adds it)"
    for it in told["aside"]:
        yield f"set aside, since the program fails at it: line {it['id']} of {it['receiver'] or 'the service'}: {it['said']}"
    for it in told["messages_aside"]:
        yield f"message of {it['length']} signs for {it['topic']} was set aside: {it['said']}"
    if told["publications_waiting"]:
        yield (f"{told['publications_waiting']} messages wait for the MQTT broker, the oldest for"
               f" {told['publications_oldest_seconds'] // 3600} hours")
    if left_out := totals.get("publications_left_out"):
        yield f"{left_out} messages weren't published, since too many waited for the MQTT broker, later ones of their topics among them"


def day_and_time(moment: float) -> str:
    """A moment, in this machine's zone."""
    return time.strftime("%Y-%m-%d %H:%M", time.localtime(moment))


def receiver_words(told: dict[str, Any]) -> str:
    """When a receiver was heard; of one that stands still what to do."""
    name, age = told["name"], told["age"]
    if age is not None and age <= radios.SILENCE:
        return f"receiver {name}: heard {age} s ago"
    what = radios.silence(age) if age is not None else "silent for long" if told["was_heard"] else "heard nothing"
    return f"receiver {name}: {what}: is it plugged in, and does its unit run (journalctl -u wmbus-receiver@{name})?"


def status(config: Config, is_json: bool) -> str:
    """What is told, as a text."""
    database = store.open_store(config.database)
    try:
        told = figures(config, database)
    finally:
        database.close()
    return json.dumps(told, indent=1) if is_json else "\n".join(in_words(told))
