"""Writes a session's rows into PostgreSQL, within the session's transaction."""
from __future__ import annotations

import json
from collections.abc import Mapping, Sequence

from wmbus_service.events import Event
from wmbus_service.steps import Block, Told
from wmbus_service.writing import next_due

from . import store
from .config import Ticks
from .rows import Change, Rows
from .store import Database


def write(database: Database, ticks: Ticks, shard: int, batch: Sequence[Event], told: Told, now: float) -> None:
    """All that a session said. A meter's lines get rising numbers, since its shard's sessions are one after the other."""
    rows = Rows(now)
    rows.gather(numbers_for(database, len(batch)), batch, told)
    store.copy_rows(database, "line (number, address, gateway, epoch, message, place, text, due, made)", rows.lines)
    store.copy_rows(database, "reading (line, address, gateway, counter, moment, payload, fault, more, records, made)", rows.readings)
    store.copy_rows(database, "outbox (gateway, address, down, frame, command, made)", [(*row, now) for row in rows.downlinks])
    for change in rows.changes:
        change_command(database, change, now)
    put_refusals(database, rows)
    put_blocks(database, ticks, rows, told.blocks)
    store.add_totals(database, f"shard {shard}", rows.counts)


# a command is confirmed by what was heard once one of its downlinks was out, else nobody knows whether its meter had it
IS_SURE = ("case when exists (select 1 from outbox o where o.address = command.address and o.command = command.number and o.sent <= %(heard)s"
           " + 1) then 'confirmed' else 'unsure' end")


def numbers_for(database: Database, count: int) -> list[int]:
    """The numbers of lines among all."""
    told = store.one(database, "select string_agg(nextval('line_number')::text, ' ') from generate_series(1, %s)", (count,))
    return [int(number) for number in told.split(" ")]


def change_command(database: Database, change: Change, now: float) -> None:
    """What becomes of a command; what an operator wished of it is done or can't be."""
    wanted = "id = %(id)s" if "id" in change else "address = %(address)s and number = %(number)s"
    if "tries" in change:
        database.execute(f"update command set tries = tries + 1 where {wanted}", change)
        return
    database.execute(
        f"update command set state = {IS_SURE if 'heard' in change else 'coalesce(%(state)s, state)'}, number = coalesce(%(given)s, number),"
        " reason = coalesce(%(reason)s, reason), payload = case when kind = 'rekey' and %(state)s = 'refused' then '' else"
        " coalesce(%(payload)s, payload) end, wish = null, changed = %(now)s"
        f" where {wanted}",
        {"state": None, "given": None, "reason": None, "payload": None, "now": now} | change)


def put_refusals(database: Database, rows: Rows) -> None:
    """Refusals by meter and reason, and meters that aren't known."""
    if rows.refusals:
        put_all(database, "insert into refusal select address, reason, words, times, line, made, gateway from {} on conflict"
                          " (address, reason) do update set words = excluded.words, times = refusal.times + excluded.times,"
                          " last_line = excluded.last_line, last_made = excluded.last_made,"
                          " gateway = coalesce(excluded.gateway, refusal.gateway)",
                {"address": "text", "reason": "text", "words": "text", "times": "bigint", "line": "bigint", "made": "double precision",
                 "gateway": "text"},
                [(*key, words, times, line, rows.now, gateway) for key, (words, times, line, gateway) in rows.refusals.items()])
    if rows.strangers:
        put_all(database, "insert into stranger select address, times, gateway, made from {} on conflict (address) do update"
                          " set times = stranger.times + excluded.times, gateway = excluded.gateway, last_made = excluded.last_made",
                {"address": "text", "times": "bigint", "gateway": "text", "made": "double precision"},
                [(address, times, gateway, rows.now) for address, (times, gateway) in sorted(rows.strangers.items())])


def put_all(database: Database, query: str, columns: Mapping[str, str], rows: Sequence[Sequence[object]]) -> int:
    """Does something with rows, which stand in the query's braces: in one go, as one text (a value each takes much longer); how many
    rows of the table it did it to."""
    told = json.dumps([dict(zip(columns, row, strict=True)) for row in rows])
    types = ", ".join(f"{name} {kind}" for name, kind in columns.items())
    return database.execute(query.format(f"json_to_recordset(%s::json) as n ({types})"), (told,)).rowcount


def put_blocks(database: Database, ticks: Ticks, rows: Rows, blocks: Mapping[str, Block]) -> None:
    """What is known of the meters now, and when their ticks are due."""
    if not blocks:
        return
    names = [name for name, block in blocks.items() if block.waits is not None or block.holds]
    due = store.pairs(database, "select address, due from meter where address = any(%s)", (names,)) if names else {}
    anew = rows.opened | rows.ticked
    told = [(name, block.text, block.waits, block.holds,
             next_due(ticks, rows.now, block, None if name in anew else due.get(name)), rows.gateways.get(name),
             rows.now if name in rows.read else None)
            for name, block in blocks.items()]
    written = put_all(
        database, "update meter m set block = n.block, waits = n.waits, holds = n.holds, due = n.due,"
                  " gateway = coalesce(n.gateway, m.gateway), heard = coalesce(n.heard, m.heard) from {} where m.address = n.address",
        {"address": "text", "block": "text", "waits": "bigint", "holds": "integer", "due": "double precision", "gateway": "text",
         "heard": "double precision"}, told)
    assert written == len(blocks), "a meter's row is gone"
