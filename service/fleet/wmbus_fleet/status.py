"""What the fleet has done, and what somebody should look at, in words."""
from __future__ import annotations

import json
import time
from collections.abc import Iterator
from typing import Any

from psycopg.rows import dict_row
from wmbus_service.commands import OPEN
from wmbus_service.page.shared import counted

from . import store, sums
from .oddities import remedy_of
from .retiring import heard_words
from .store import Database
from .sums import LAST

MOST = 50
SILENT = 600
# a gateway that sends more lines a second is told of
BUSY = 100


IS_SILENT = f"g.seen is null or g.seen < now() - interval '{SILENT} seconds'"
# for how many seconds the oldest one of what waits does, also by the views of the page
AGE = "select greatest(0, extract(epoch from now()) - min({}))::bigint from"
AGES = {
    "lines": f"{AGE.format('heard')} page.waiting where heard <= extract(epoch from now())",
    "downlinks": f"{AGE.format('made')} outbox where sent is null and missed is null",
    "commands": f"{AGE.format('made')} command where state in ('waiting', 'queued', 'sent')",
}
# how many seconds most gateways' clocks, more than half of them, are ahead of the database server's at least
AHEAD = """with told as (select percentile_disc(0.5) within group (order by until - seen) as low,
        percentile_disc(0.5) within group (order by until - seen desc) as high
        from page.gateway where not gone and seen > extract(epoch from now()) - 3600)
    select case when low > 0 then low when high < 0 then high else 0 end::bigint from told"""
# parts without which nothing is heard
UNITS = {"intake": "wmbus-intake@0", "sessions": "wmbus-sessions@0", "downlinks": "wmbus-downlinks"}
PARTS = tuple(UNITS)


def figures(database: Database) -> dict[str, Any]:
    """All that is told, as data."""
    now, totals = time.time(), "select name, sum(value)::bigint from total group by name order by name"
    return {
        "totals": store.pairs(database, totals),
        "workers": store.pairs(database, "select name, count from page.worker order by name"),
        "areas": _rows(database, f"""
            select a.name, count(g.name) as gateways, count(g.name) filter (where {IS_SILENT}) as silent
            from area a left join gateway g on g.area = a.name and g.gone is null group by a.name order by a.name"""),
        "refusals_by_area": sums.of(database, "refusals", now),
        **sums.of(database, "meters", now)[0],
        "inbox": store.one(database, "select count(*) from inbox"),
        "downlinks_waiting": store.one(database, "select count(*) from outbox where sent is null and missed is null"),
        "ages": {name: store.one(database, query) for name, query in AGES.items()},
        "ticks_late": sums.of(database, "late", now)[0]["count"],
        "commands": store.pairs(database, "select state, count(*) from command group by state order by state"),
        "ahead": store.one(database, AHEAD),
        "clocks": _rows(database, "select name, (until - extract(epoch from seen))::bigint as ahead from gateway where seen > now()"
                                  f" - interval '{SILENT} seconds' and abs(until - extract(epoch from seen)) > {SILENT}"
                                  f" and gone is null order by name limit {MOST}"),
        # (one that goes on behind a gap is asked again and again)
        "asked": _rows(database, "select name, epoch, number + 1 as number from gateway where gone is null and asked is not null"
                                 " and (seen is null or seen <= asked and seen < now() - interval '60 seconds') order by name"),
        "oddities": _rows(database, f"select gateway, what, times from oddity order by last_made desc limit {LAST}"),
        "gateways": _rows(database, "select name, area, epoch, number, extract(epoch from now() - seen)::bigint as age from gateway"
                                    f" g where gone is null and ({IS_SILENT}) order by name limit {MOST}"),
        "busy": _rows(database, f"select name, area, rate, strangers from page.gateway where rate > {BUSY} or strangers > 0"
                                f" order by rate desc, name limit {LAST}"),
        "missing": _rows(database, f"select gateway, epoch, number from missing order by made desc limit {LAST}"),
        "downlinks_missed": _rows(database, "select address, gateway, down, missed from outbox where missed is not null"
                                            f" order by id desc limit {LAST}"),
        "refusals": sums.of(database, "last", now),
        "strangers": _rows(database, "select address, times, gateway from stranger s where not exists"
                                     f" (select 1 from meter m where m.address = s.address) order by times desc limit {LAST}"),
        "aside": _rows(database, f"select id, gateway, text, said from aside order by id desc limit {LAST}"),
    }


def _rows(database: Database, query: str) -> list[dict[str, Any]]:
    """Rows with the names of their columns."""
    return database.cursor(row_factory=dict_row).execute(query).fetchall()


def in_words(told: dict[str, Any]) -> Iterator[str]:
    """The figures line by line."""
    totals = told["totals"]
    taken, heard, stored = (totals.get(name, 0) for name in ("lines", "heard", "stored"))
    retired = f", {told['retired']} of them out of service" if told["retired"] else ""
    yield f"{told['meters']} meters{retired}; {taken} lines taken, {heard} heard, {stored} readings"
    ages, waiting = told["ages"], told["downlinks_waiting"]
    yield (f"{told['inbox']} lines wait for a session" + (f", the oldest for {ages['lines']} s" if told["inbox"] else "")
           + f"; {waiting} downlinks for the broker" + (f", the oldest for {ages['downlinks']} s" if waiting else ""))
    runs = {part: sum(count for name, count in told["workers"].items() if name == f"wmbus {part}") for part in PARTS}
    yield "at work: " + ", ".join(f"{count} {part}" for part, count in runs.items())
    for part, count in runs.items():
        if not count:
            yield f"no {part} works: systemctl start {UNITS[part]}, whose log says why it ended"
    for it in told["areas"]:
        yield f"area {it['name']}: {it['gateways']} gateways, {it['silent']} of them silent"
    if told["ticks_late"]:
        yield f"{told['ticks_late']} ticks are late: no sessions run, or too few"
    if told["commands"]:
        yield ("commands: " + ", ".join(f"{count} {state}" for state, count in told["commands"].items())
               + (f"; the oldest open one for {ages['commands']} s" if {*OPEN, "waiting"} & told["commands"].keys() else ""))
    for it in told["gateways"]:
        yield f"gateway {it['name']} in {it['area']}: " + ("never heard" if it["age"] is None else f"not heard for {it['age']} s")
    if abs(told["ahead"]) > SILENT:
        yield (f"most gateways tell a moment {abs(told['ahead'])} s {'ahead' if told['ahead'] > 0 else 'behind'}: look at this server's clock"
               " first (timedatectl), unless they were cut off and send what they kept; nothing goes that is young by the clock behind")
    for it in told["clocks"]:
        yield f"gateway {it['name']} tells a moment {abs(it['ahead'])} s " + (
            "ahead: its clock is wrong" if it["ahead"] > 0 else "behind: its clock is wrong, or it was cut off and sends what it kept")
    for it in told["asked"]:
        yield f"gateway {it['name']} was asked for message {it['number']} of epoch {it['epoch']} and hasn't sent it"
    for it in told["oddities"]:
        yield f"{it['gateway']} sent {it['times']} times {it['what']}, which is left{remedy_of(it['gateway'], it['what'])}"
    for it in told["busy"]:
        yield (f"gateway {it['name']} in {it['area']} sends {it['rate']:.1f} lines a second"
               + (f"; {it['strangers']} lines of meters that aren't known were counted and not kept" if it["strangers"] else ""))
    for it in told["missing"]:
        yield f"gateway {it['gateway']} began a new epoch behind message {it['number']} of {it['epoch']}: its later ones may be gone"
    for it in told["downlinks_missed"]:
        yield f"downlink {it['down']} for {it['address']} wasn't sent: {it['missed']}"
    if told["retired_heard"]:
        yield f"{heard_words(told['retired_heard'])}, first {told['retired_first']}: `wmbus-fleet retire --back METER` puts one back"
    if told["set_back"]:
        yield (f"{counted(told['set_back'], 'meter has a counter', 'meters have counters')} below the last stored one, first"
               f" {told['set_back_first']}: all that comes is refused as stale. Was it exchanged or set back? `wmbus-fleet correct METER --anew`"
               " takes its new key")
    for it in told["refusals_by_area"]:
        yield f"refused in {it['area'] or 'no area'}: {it['times']} times {it['reason']}, of {it['meters']} meters"
    for it in told["refusals"]:
        yield f"refused {it['times']} times for {it['address']}: {it['words']} (docs/FORMATS.md says what to do)"
    for it in told["strangers"]:
        yield f"heard {it['times']} times, and not known: {it['address']}"
    for it in told["aside"]:
        yield f"set aside, since the program fails at it: line {it['id']} of {it['gateway'] or 'the fleet'}: {it['said']}"


def status(database: Database, is_json: bool) -> str:
    """What is told, as a text."""
    told = figures(database)
    return json.dumps(told, ensure_ascii=False, indent=1) if is_json else "\n".join(in_words(told))


def gateway_words(database: Database) -> Iterator[str]:
    """Each gateway, and when it was heard."""
    for name, area, epoch, number, age, is_gone, rate in database.execute(
            "select name, area, epoch, number, (extract(epoch from now()) - seen)::bigint, gone, rate from page.gateway order by name"):
        heard = "never heard" if age is None else f"message {number} of {epoch}, {age} s ago, {rate:.1f} lines a second"
        yield f"gateway {name} in {area}: {'taken away, ' if is_gone else ''}{heard}"


def command_words(database: Database, address: str | None) -> Iterator[str]:
    """What became of the last commands, the last one first."""
    for ident, meter, kind, state, tries, reason in database.execute(
            "select id, address, kind, state, tries, reason from command where address = coalesce(%s, address) order by place desc limit %s",
            (address and address.lower(), MOST)):
        yield f"{ident} for {meter}, {kind}: {state}, sent {tries} times" + (f" ({reason})" if reason else "")
