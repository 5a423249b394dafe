"""Sums over all meters. Of a large fleet they are kept, made anew each minute, so that who looks at it doesn't go over its meters; of a small
one they are made as somebody looks."""
from __future__ import annotations

import json
import logging
import threading
import time
from collections.abc import Callable
from typing import Any

import psycopg
from psycopg.conninfo import make_conninfo
from wmbus_service.ending import Ending
from wmbus_service.page.looks import LATE, METER_SILENCE
from wmbus_service.page.shared import REPEATS
from wmbus_service.trouble import Trouble

from . import store
from .retiring import IS_HEARD
from .store import Database

log = logging.getLogger("wmbus")

# of so many meters sums are kept, each for so many seconds; those that are older than that, as where no sessions work, don't count
FROM, EVERY, OLD = 50_000, 60.0, 600.0
# so many of the last refusals are told
LAST = 10
# of a meter that several gateways hear the copies are refused all the time, and nobody has to look at it
IS_REPEAT = f"r.reason in ({', '.join(map(repr, sorted(REPEATS)))})"
# of a meter m in service: it is heard, and its counter is below the last stored one (as the page of the service tells it)
IS_SET_BACK = f"""m.retired is null and coalesce(m.heard, 0) < extract(epoch from now()) - {LATE}
    and exists (select 1 from refusal r where r.address = m.address and r.reason = 'stale'
    and r.last_made > greatest(coalesce(m.heard, 0) + {LATE}, extract(epoch from now()) - {METER_SILENCE})
    and case when r.words ~ '^stale [0-9]+ [0-9]+$' then split_part(r.words, ' ', 2)::numeric < split_part(r.words, ' ', 3)::numeric end)"""
# (as a list by itself these are found by a join, and not by looking at the refusals of each of a million meters)
BACK = f"with back as (select m.address from meter m where {IS_SET_BACK})"
QUERIES: dict[str, str] = {
    "meters": f"""{BACK}
        select count(*) as meters, count(retired) as retired, count(heard) filter (where retired is null) as read,
            count(*) filter (where heard < {{silent}} and retired is null and back.address is null) as silent_meters,
            count(back.address) as set_back, min(back.address) as set_back_first,
            count(*) filter (where heard is null and retired is null) as unheard_meters,
            count(*) filter (where {IS_HEARD}) as retired_heard, min(m.address) filter (where {IS_HEARD}) as retired_first
        from meter m left join back on back.address = m.address""",
    # (what another gateway, or a repeater, brought once more is no trouble of an area's)
    "areas": f"""{BACK},
        heard as (select g.area, count(*) as meters, count(*) filter (where m.heard < {{silent}} and back.address is null) as silent_meters
            from meter m join gateway g on g.name = m.gateway left join back on back.address = m.address where m.retired is null
            group by g.area),
        refused as (select g.area, sum(r.times)::bigint as refused from refusal r left join meter m on m.address = r.address
            join gateway g on g.name = coalesce(r.gateway, m.gateway) where not {IS_REPEAT} group by g.area)
        select a.name, coalesce(meters, 0) as meters, coalesce(silent_meters, 0) as silent_meters, coalesce(refused, 0) as refused
        from area a left join heard on heard.area = a.name left join refused on refused.area = a.name order by a.name""",
    # (by the gateway that brought the last of them)
    "refusals": """select coalesce(g.area, '') as area, r.reason, sum(r.times)::bigint as times, count(*) as meters
        from refusal r left join meter m on m.address = r.address left join gateway g on g.name = coalesce(r.gateway, m.gateway)
        group by 1, 2 order by 1, 3 desc, 2""",
    "last": f"select address, words, times from refusal r where not {IS_REPEAT} order by last_made desc limit {LAST}",
    "gateways": "select gateway, count(*) as meters from meter where gateway is not null and retired is null group by gateway",
    # (others wait for what a gateway that is cut off heard before they were due)
    "late": "select count from page.late",
}


def of(database: Any, name: str, now: float) -> list[dict[str, Any]]:
    """The rows of a sum: those that are kept, or else as they are."""
    row = database.execute("select value::text, made from kept where name = '" + name + "'").fetchone()
    if row is not None and abs(now - row[1]) < OLD:
        kept: list[dict[str, Any]] = json.loads(row[0])
        return kept
    return _made(database, name, now)


def _made(database: Any, name: str, now: float) -> list[dict[str, Any]]:
    """The rows of a sum as they are."""
    # (no value is given, and so % has no meaning)
    asked = database.execute(_formatted(name, now))
    names = [column[0] for column in asked.description]
    return [dict(zip(names, row, strict=True)) for row in asked.fetchall()]


def _formatted(name: str, now: float) -> str:
    return QUERIES[name].replace("{silent}", repr(float(now - METER_SILENCE)))


def keep(database: Database, now: float) -> bool:
    """Makes the sums of a large fleet anew where it is time; whether it was. One process at a time does."""
    with store.transaction(database):
        if not store.one(database, "select pg_try_advisory_xact_lock(%s, 0)", (store.SUMS,)):
            return False
        if not store.one(database, "select count(*) > %s from (select 1 from meter limit %s) m", (FROM, FROM + 1)):
            database.execute("delete from kept")
            return False
        last = store.one(database, "select min(made) from kept")
        if last is not None and 0 <= now - last < EVERY:
            return False
        for name in QUERIES:
            database.execute("insert into kept values (%s, %s, %s) on conflict (name) do update set value = excluded.value, made = excluded.made",
                             (name, json.dumps(_made(database, name, now)), now))
    return True


class Keeping:
    """Keeps sums beside sessions, over a connection of its own: they don't wait for it."""

    def __init__(self, words: str, ending: Ending, connect: Callable[[str], Database] = store.connect) -> None:
        self.words, self.ending, self.connect = make_conninfo(words, application_name="wmbus sums"), ending, connect
        self.thread = threading.Thread(target=self._run, daemon=True)
        self.thread.start()

    def _run(self) -> None:
        """Looks now and then."""
        while not self.ending.wait(EVERY / 4):
            try:
                with self.connect(self.words) as database:
                    keep(database, time.time())
            except (psycopg.Error, Trouble) as fault:
                # (sessions say the same)
                log.debug("sums: %s", store.told_of(fault))
