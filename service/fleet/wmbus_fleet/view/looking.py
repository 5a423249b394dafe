"""What the fleet's own pages show: the overview, areas, gateways, and the meters that somebody looks for."""
from __future__ import annotations

from collections.abc import Iterator
from dataclasses import asdict
from typing import Any

from wmbus_service.asking import Database
from wmbus_service.page.finding import pattern_of, wanted
from wmbus_service.page.looks import METER_SILENCE, OFTEN, RECENT, Look, explained
from wmbus_service.page.radios import silence
from wmbus_service.page.reading import meters_of, rows_of, strangers
from wmbus_service.page.shared import counted, times
from wmbus_service.page.views import meter_data

from ..retiring import IS_HEARD, heard_words
from .. import sums
from ..status import PARTS, SILENT, UNITS
from ..sums import IS_REPEAT, IS_SET_BACK

# the state of meters that are out of service and were heard since
RETIRED_HEARD = "retired-heard"
PUT_BACK = "`wmbus-fleet retire --back METER` puts one back that works after all."
# so many rows a page, so many things to look at of a kind
MOST, FEW = 100, 10
DAY = 86_400.0
LAG = 300
# (of some locales, as C, PostgreSQL's own lower() knows the letters of ASCII alone; for these it takes a third of the time)
LETTERS = {True: 'collate "C"', False: 'collate "und-x-icu"'}
# what is told of commands that came to nothing
OF_COMMANDS = {
    "expired": ("command given up", "it was sent three times without an answer. Queue it again once the meter is in reach"),
    "refused": ("command refused", "it wasn't taken"),
    "unsure": ("command unsure", "the response that would confirm it was heard before its downlink went out, as a copy of an earlier one that"
                                 " came late. The meter's readings tell whether it was executed"),
}
COUNTS = {
    "inbox": "select count(*) from inbox",
    "commands": "select count(*) from command where state in ('waiting', 'queued', 'sent')",
    "downlinks_waiting": "select count(*) from outbox where sent is null and missed is null",
}
SENDING = """
select a.name, count(g.name) as gateways, count(g.name) filter (where seen is null or seen < ?) as silent_gateways
from area a left join gateway g on g.area = a.name and not g.gone group by a.name order by a.name"""
REFUSALS = f"""
select r.reason, max(r.words) as words, sum(r.times) as times, count(*) as meters, max(r.last_made) as last_made
from refusal r left join meter m on m.address = r.address join gateway g on g.name = coalesce(r.gateway, m.gateway) where g.area = ?
group by r.reason order by {IS_REPEAT}, times desc, r.reason"""
GATEWAYS = """
select g.name, g.area, g.seen, g.until, g.epoch, g.number, g.gone from gateway g
where g.area = coalesce(?, g.area) and (not ? or not gone and (seen is null or seen < ?)) and g.name > ?
order by g.name limit ?"""


def counts(database: Database, now: float) -> dict[str, Any]:
    """How much there is, and how far behind it is."""
    found: dict[str, Any] = sums.of(database, "meters", now)[0]
    found |= {name: database.execute(query).fetchone()[0] for name, query in COUNTS.items()}
    found |= dict(database.execute("select name, value from total").fetchall())
    found["lag"] = lag(database, now)
    found["gateways"], found["silent_gateways"] = database.execute(
        "select count(*), count(*) filter (where seen is null or seen < ?) from gateway where not gone", (now - SILENT,)).fetchone()
    return found


def lag(database: Database, now: float) -> float:
    """How long ago the oldest line that waits for a session was heard, by its receiver's clock; 0 where none waits."""
    heard = [moment for (moment,) in database.execute("select heard from waiting").fetchall() if moment is not None]
    return max([0.0, *(float(now - moment) for moment in heard if moment <= now)])


def workers(database: Database) -> dict[str, int]:
    """How many processes of each part have a connection."""
    found = {name.removeprefix("wmbus "): count for name, count in database.execute("select name, count from worker").fetchall()}
    return {part: found.get(part, 0) for part in PARTS}


def overview(database: Database, now: float) -> dict[str, Any]:
    """What needs a person first, then areas."""
    told = counts(database, now)
    running = workers(database)
    found = [*_of_parts(running, told, now), *_of_gateways(database, told, now), *_of_rows(database, now)]
    return {"now": now, "counts": told, "workers": running, "looks": [asdict(it) for it in sorted(found, key=lambda it: it.kind != "bad")],
            "areas": areas(database, now)}


def areas(database: Database, now: float) -> list[dict[str, Any]]:
    """Areas with their gateways, meters and refusals."""
    known = {row["name"]: row for row in sums.of(database, "areas", now)}
    return [{"meters": 0, "silent_meters": 0, "refused": 0} | known.get(row["name"], {}) | row
            for row in rows_of(database, SENDING, (now - SILENT,))]


def _of_parts(running: dict[str, int], told: dict[str, Any], _now: float) -> Iterator[Look]:
    """Parts that don't work, and what waits for them."""
    for part, count in running.items():
        if not count:
            yield Look("bad", "stands still", f"No {part}", "/",
                       f"None is connected: systemctl start {UNITS[part]}. Its log says why it ended.")
    if told["lag"] > LAG:
        yield Look("look", f"lags by {int(told['lag'] // 60)} min", "Sessions", "/",
                   f"{counted(told['inbox'], 'line waits', 'lines wait')}. Start another wmbus-sessions@N, or wait where a gateway was cut"
                   " off.")
    silent = told["silent_meters"]
    if silent:
        yield Look("look", "silent", counted(silent, "meter", "meters"), "/meters?state=stopped",
                   "Each had a reading, and none for two days.")
    if told["set_back"]:
        yield Look("bad", "counter set back", counted(told["set_back"], "meter", "meters"), "/meters?state=set-back",
                   "Each is heard, and nothing of it is stored, as its counter is below the last stored one. Its page says what to do.")
    if told["retired_heard"]:
        yield Look("look", "out of service", heard_words(told["retired_heard"]), f"/meters?state={RETIRED_HEARD}", PUT_BACK)


def _of_gateways(database: Database, told: dict[str, Any], now: float) -> Iterator[Look]:
    """Silent gateways, the first of them by name, and gaps."""
    for row in gateways(database, now, None, True, "", FEW)["gateways"]:
        what = "never heard" if row["seen"] is None else _silence(now - row["seen"])
        yield Look("bad", what, f"Gateway {row['name']} in {row['area']}", f"/gateways?area={row['area']}",
                   "Has it power and a network? Its own log says whether the broker takes its name.")
    if (more := told["silent_gateways"] - FEW) > 0:
        yield Look("bad", "silent", counted(more, "more gateway", "more gateways"), "/gateways?silent=1",
                   "Where many are it at once, look at the broker, the network and the intakes first.")
    for row in rows_of(database, f"select gateway, epoch, number, made from missing where made > ? order by made desc limit {FEW}",
                       (now - RECENT,)):
        yield Look("look", "began anew", f"Gateway {row['gateway']}", "/gateways",
                   f"Behind message {row['number']} of {row['epoch']}: what came later of it and wasn't sent may be gone.")


def _silence(seconds: float) -> str:
    """For how long nothing was heard."""
    return str(silence(seconds)) if seconds >= 7200 else f"silent for {counted(int(seconds // 60), 'minute', 'minutes')}"


def _of_rows(database: Database, now: float) -> Iterator[Look]:
    """Lines that were set aside, commands and downlinks that came to nothing, strangers that are heard often."""
    for row in rows_of(database, f"select id, receiver, said from aside order by id desc limit {FEW}"):
        yield Look("bad", "line set aside", f"Line {row['id']} of {row['receiver'] or 'the fleet'}", "/gateways",
                   f"The program failed at it: {row['said'][:200]}. Tell the makers of this program.")
    for row in rows_of(database, "select id, address, state, reason from command where state in ('expired', 'refused', 'unsure') and changed > ?"
                                 f" order by changed desc limit {FEW}", (now - RECENT,)):
        what, why = OF_COMMANDS[row["state"]]
        yield Look("look", what, row["address"], f"/meters/{row['address']}", f"Command {row['id']}: {row['reason'] or why}.")
    for row in rows_of(database, "select address, receiver, missed from outbox where missed is not null and made > ?"
                                 f" order by id desc limit {FEW}", (now - DAY,)):
        yield Look("look", "not sent", row["address"], f"/meters/{row['address']}",
                   f"A downlink by gateway {row['receiver'] or '(none)'} wasn't sent: {row['missed']}.")
    for row in strangers(database, FEW, now - METER_SILENCE):
        if row["times"] >= OFTEN and row["last_made"] > now - METER_SILENCE:
            yield Look("look", f"heard {times(row['times'])}", row["label"], f"/strangers#{row['address']}",
                       f"It isn't known ({row['type']}, maker {row['maker']}). Is it one of the fleet's? Then commission it.")


def gateways(database: Database, now: float, area: str | None, is_silent: bool, after: str, most: int = MOST) -> dict[str, Any]:
    """Gateways by name, of an area or all, the silent ones or all, behind a name."""
    rows = rows_of(database, GATEWAYS, (area, is_silent, now - SILENT, after, most + 1))
    heard = {row["gateway"]: row["meters"] for row in sums.of(database, "gateways", now)} if rows else {}
    for row in rows:
        row["meters"] = heard.get(row["name"], 0)
        row["is_silent"] = not row["gone"] and (row["seen"] is None or row["seen"] < now - SILENT)
    return {"now": now, "area": area, "silent": is_silent, "gateways": rows[:most],
            "after": rows[most - 1]["name"] if len(rows) > most else None}


def area_page(database: Database, now: float, area: str) -> dict[str, Any] | None:
    """An area: why lines of it are refused, and its gateways."""
    if not database.execute("select 1 from area where name = ?", (area,)).fetchone():
        return None
    refused = [row | asdict(explained(row["words"])) for row in rows_of(database, REFUSALS, (area,))]
    return {"refusals": refused, **gateways(database, now, area, False, "")}


# (of meters in service, but for the last two)
STATES = {
    "": "", "silent": f" and (m.heard is null or m.heard < {{moment}} and not ({IS_SET_BACK}))",
    "stopped": f" and m.heard < {{moment}} and not ({IS_SET_BACK})", "unread": " and m.heard is null",
    "read": " and m.heard >= {moment}",
    "refused": " and exists (select 1 from refusal r where r.address = m.address and r.last_made > coalesce(m.heard, 0)"
               f" and not {IS_REPEAT})",
    "set-back": f" and {IS_SET_BACK}", "retired": " and m.retired is not null", RETIRED_HEARD: f" and {IS_HEARD}",
}


def meters(database: Database, now: float, asked: dict[str, str]) -> dict[str, Any]:
    """The meters that somebody looks for, in the order of their addresses, behind one of them."""
    where, values, order = ["m.address > ?"], [asked["after"]], "m.address"
    is_in_service = asked["state"] not in ("retired", RETIRED_HEARD)
    if is_in_service and (asked["state"] or not asked["q"]):
        where.append("m.retired is null")
    if asked["q"]:
        # (by the index of addresses all meters are fetched one by one, where few are so: PostgreSQL can't know how many have a text)
        order = "m.address || ''"
        condition, given = _looked_for(asked["q"], is_in_service)
        where.append(condition)
        values += given
    if asked["gateway"]:
        where.append("m.gateway = ?")
        values.append(asked["gateway"])
    if asked["area"]:
        where.append("m.gateway in (select name from gateway where area = ?)")
        values.append(asked["area"])
    query = (f"select m.address, m.name, m.receiver, m.retired from meter m where {' and '.join(where)}"
             f"{STATES[asked['state']].format(moment=now - METER_SILENCE)} order by {order} limit {MOST + 1}")
    rows = database.execute(query, values).fetchall()
    known = meters_of(database, [row[:3] for row in rows[:MOST]], now)
    found = [meter_data(it) | {"retired": row[3]} for it, row in zip(known, rows)]
    return {"now": now, "asked": asked, "meters": found, "states": list(STATES), "after": rows[MOST - 1][0] if len(rows) > MOST else None,
            "areas": [name for (name,) in database.execute("select name from area order by name").fetchall()]}


def _looked_for(text: str, is_in_service: bool) -> tuple[str, list[Any]]:
    """How a meter is looked for: by a part of its name, the first digits of its address, or the last ones of the number on its label. By
    its name one that is out of service is found among such alone: the one in its place may have the same name."""
    letters, told = LETTERS[text.isascii()], wanted(text)
    conditions: list[str] = [f"position(lower(?::text {letters}) in lower(m.name {letters})) > 0"
                             f"{' and m.retired is null' if is_in_service else ''}"]
    values: list[Any] = [text]
    if told.address:
        conditions.append("left(m.address, ?) = ?")
        values += [len(told.address), told.address]
    if told.number:
        conditions.append("m.address like ?")
        values.append(pattern_of(told.number))
    return f"({' or '.join(conditions)})", values


def put_service(database: Database, told: dict[str, Any]) -> dict[str, Any]:
    """What a meter's page tells, with since when the meter is out of service: nothing of it is missed then."""
    address = told["meter"]["address"]
    retired, is_heard = database.execute(f"select retired, {IS_HEARD} from meter m where address = ?", (address,)).fetchone()
    if retired is not None:
        heard = Look("look", "out of service", heard_words(1), f"/meters/{address}", PUT_BACK)
        told["looks"] = [asdict(heard)] if is_heard else []
    return told | {"retired": retired}
