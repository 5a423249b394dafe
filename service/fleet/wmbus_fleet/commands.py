"""What operators ask for: commands to meters, their cancellation, new second keys; areas, gateways and meters."""
from __future__ import annotations

import logging
from collections.abc import Iterator, Sequence
from itertools import islice
from pathlib import Path

from wmbus_service.commands import OPEN, judge_ident, key_of, payload_of
from wmbus_service.config import NAME, words_of
from wmbus_service.importing import ADDRESS
from wmbus_service.meters import (
    PIECE, counted_anew, judge_former, judge_roster, judge_waiting_key, keys_name, meters_in, name_of, pieces_of, read_roster, with_key,
    with_mode, with_noted,
)
from wmbus_service.trouble import Trouble

from . import broker, retiring, store
from .config import Config
from .schema import SHARDS
from .store import Database

log = logging.getLogger("wmbus")


def put_command(database: Database, ident: str, address: str, payload: str, now: float) -> bool:
    """Takes a command for a meter, whose payload goes to it as it is; whether its id is new."""
    return _put(database, ident, address.lower(), "send", payload_of(ident, payload), now)


def put_key(database: Database, ident: str, address: str, key: str, now: float) -> bool:
    """Takes a meter's new second key; whether its id is new."""
    key, place, address = key_of(f"command {ident}", key), f"meter {address}", address.lower()
    with store.transaction(database):
        _wait_for_sessions(database, address)
        told = store.setting(database, keys_name(address))
        judge_former(told, key, place)
        # (the second key that it has may be replaced)
        store.set_setting(database, keys_name(address), with_noted(told, block_of(database, address, f"command {ident}")))
        return _put(database, ident, address, "rekey", key, now)


def correct_key(config: Config, database: Database, address: str, key: str, mode: str | None = None, is_anew: bool = False) -> None:
    """Gives a meter another key in the place of its own, which was wrong, and another mode where one is named; it may count anew. All else
    that is known of it stays, its downlink counter first. What was refused under those before is told no more."""
    place, address = f"meter {address}", address.lower()
    key = key_of(place, key)
    with store.transaction(database):
        _wait_for_sessions(database, address)
        block = block_of(database, address, place)
        told = with_noted(store.setting(database, keys_name(address)), block)
        judge_former(told, key, place)
        if is_anew:
            waiting = database.execute("select id from command where address = %s and kind = 'rekey' and state = 'waiting'", (address,))
            judge_waiting_key([ident for (ident,) in waiting.fetchall()], "wmbus-fleet", place)
            told, block = counted_anew(told, block, key, place)
        store.set_setting(database, keys_name(address), told)
        block = with_mode(block, mode, place) if mode else block
        block = with_key(words_of(config.programs.steps), store.setting(database, "own") or "", block, key, place)
        database.execute("update meter set block = %s where address = %s", (block, address))
        database.execute("delete from refusal where address = %s", (address,))


def _wait_for_sessions(database: Database, address: str) -> None:
    """A session that has the meter in hand ends before, and who else changes its keys is done."""
    database.execute("select pg_advisory_xact_lock(%s, shard_of(%s))", (store.SESSIONS, address))


def block_of(database: Database, address: str, place: str) -> str:
    """What is known of a meter."""
    row = database.execute("select block from meter where address = %s", (address,)).fetchone()
    if row is None:
        raise Trouble(place, f"there is no meter {address}", "`wmbus-fleet commission ROSTER` adds meters")
    return str(row[0])


def _put(database: Database, ident: str, address: str, kind: str, payload: str, now: float) -> bool:
    judge_ident(ident)
    block_of(database, address, f"command {ident}")
    if kind == "send" and _is_retired(database, address, ident):
        raise Trouble(f"command {ident}", f"meter {address} is out of service, and so this one isn't taken",
                      f"`wmbus-fleet retire --back {address}` puts it back")
    added = database.execute("insert into command (id, address, kind, payload, made, changed) values (%s, %s, %s, %s, %s, %s)"
                             " on conflict do nothing", (ident, address, kind, payload, now, now))
    if added.rowcount:
        return True
    # (of a new key that is done, or was refused, nothing is kept)
    if not database.execute("select 1 from command where id = %s and address = %s and kind = %s and (payload = %s or kind = 'rekey')",
                            (ident, address, kind, payload)).fetchone():
        raise Trouble(f"command {ident}", "another command has this id, and so this one isn't taken", "give it an id of its own")
    return False


def _is_retired(database: Database, address: str, ident: str) -> bool:
    """Whether a command would be a new one to a meter that is out of service."""
    return bool(store.one(database, "select exists (select 1 from meter where address = %s and retired is not null)"
                                    " and not exists (select 1 from command where id = %s)", (address, ident)))


def cancel_command(database: Database, ident: str, now: float) -> str:
    """Has a command not be sent any more: at once where no session has it yet, else by the next one; the state that it has now."""
    with store.transaction(database):
        row = database.execute("select state from command where id = %s for update", (ident,)).fetchone()
        if row is None:
            raise Trouble(f"command {ident}", "there is no command with this id")
        if row[0] == "waiting":
            database.execute("update command set state = 'cancelled', changed = %s,"
                             " payload = case kind when 'rekey' then '' else payload end where id = %s", (now, ident))
            return "cancelled"
        if row[0] in OPEN:
            database.execute("update command set wish = 'cancel', changed = %s where id = %s", (now, ident))
        return str(row[0])


def add_area(config: Config, database: Database, name: str) -> None:
    """Makes an area, with its queue."""
    _judge_name(name)
    database.execute("insert into area values (%s) on conflict do nothing", (name,))
    with broker.connected(config.broker) as connection:
        broker.declare_area(broker.opened(connection), name)


def add_gateway(config: Config, database: Database, area: str, name: str) -> bool:
    """Makes a gateway known, with its queue, or moves it to another area; whether it is new."""
    judge_gateway(database, area, name)
    is_new = database.execute("select 1 from gateway where name = %s", (name,)).fetchone() is None
    database.execute("insert into gateway (name, area) values (%s, %s) on conflict (name) do update set area = excluded.area", (name, area))
    with broker.connected(config.broker) as connection:
        broker.declare_gateway(broker.opened(connection), name)
    return is_new


def judge_gateway(database: Database, area: str, name: str) -> None:
    """Whether a gateway may have this name, and be in this area."""
    _judge_name(name)
    if not database.execute("select 1 from area where name = %s", (area,)).fetchone():
        raise Trouble(f"area {area}", "there is no such area", f"`wmbus-fleet area {area}` makes it")


def _judge_name(name: str) -> None:
    """Names stand in the names of queues."""
    if not NAME.fullmatch(name):
        raise Trouble(f"the name {name}", "a name has 1 to 64 of a-z, 0-9, _ and -")


def commission(config: Config, database: Database, path: Path) -> tuple[int, int]:
    """Adds the new meters of a roster's file, which nobody else may read. How many are new, and how many came back into service."""
    return take_roster(config, database, read_roster(path), path)


def take_roster(config: Config, database: Database, text: str, path: object) -> tuple[int, int]:
    """Adds a roster's new meters; what is known of the others stays, and those that are out of service are put back. How many are new, and
    how many came back. A roster may have any number of meters."""
    first = _last_line(database)
    for number, piece in enumerate(pieces_of(text)):
        # (what is said of a line counts from the piece's first one)
        judge_roster(words_of(config.programs.steps), piece, f"{path}, behind its first {number * PIECE} meters" if number else path)
    added = back = 0
    for piece in pieces_of(text):
        own, meters = meters_in(piece)
        with store.transaction(database):
            known = store.setting(database, "own")
            if known not in (None, own):
                raise Trouble(path, f"the collector's own address is {own}, and the database has {known}",
                              "write that of the database there")
            store.set_setting(database, "own", own)
            added += len(_hear_again(database, _new_among(database, meters), meters, first))
            back += retiring.mark(database, [fields[1].lower() for fields in meters], None)
    return added, back


def _last_line(database: Database) -> int:
    """The number of the last line that a session has heard; each that is at work ends before."""
    with store.transaction(database):
        for shard in range(SHARDS):
            database.execute("select pg_advisory_xact_lock(%s, %s)", (store.SESSIONS, shard))
        return int(store.one(database, "select case when is_called then last_value else 0 end from line_number"))


def _new_among(database: Database, meters: Sequence[Sequence[str]]) -> list[str]:
    """Within a transaction: those of a roster's meters that aren't known; no session has any of them in hand until it ends."""
    new = [address for (address,) in database.execute(
        "select n.address from unnest(%s::text[]) as n (address) where not exists (select 1 from meter m where m.address = n.address)",
        ([fields[1].lower() for fields in meters],)).fetchall()]
    # (what a session has heard of them by now it has heard as a stranger's, and committed)
    for (shard,) in database.execute("select distinct shard_of(address) from unnest(%s::text[]) as n (address) order by 1", (new,)).fetchall():
        database.execute("select pg_advisory_xact_lock(%s, %s)", (store.SESSIONS, shard))
    return new


def _hear_again(database: Database, new: list[str], meters: Sequence[Sequence[str]], first: int) -> list[str]:
    """Adds a roster's meters; lines of the new ones that were heard as a stranger's behind a number are heard again."""
    _add_meters(database, meters)
    database.execute("with gone as (delete from line where number > %s and gateway is not null and address = any(%s) returning *)"
                     " insert into inbox (address, gateway, epoch, message, place, text) select address, gateway, epoch, message, place, text"
                     " from gone order by number", (first, new))
    return new


def _add_meters(database: Database, meters: Sequence[Sequence[str]]) -> int:
    """New meters by their roster's fields."""
    rows = [(fields[1].lower(), " ".join(fields).lower() + "\n") for fields in meters]
    added = database.execute("insert into meter (address, block) select address, block from unnest(%s::text[], %s::text[])"
                             " as n (address, block) on conflict do nothing", ([it for it, _ in rows], [block for _, block in rows]))
    return added.rowcount


def put_names(database: Database, path: Path) -> int:
    """Names meters, as a file's lines say, all of them or none; how many. Of meters that aren't known it says so."""
    try:
        # (some editors put a sign in front of the first line)
        lines = path.read_text(encoding="utf-8-sig").splitlines()
    except (OSError, UnicodeDecodeError) as fault:
        raise Trouble(path, f"the names can't be read: {fault}") from None
    named, unknown = 0, []
    with store.transaction(database):
        # (a million names take a gigabyte of memory at once)
        told = _names_in(lines, path)
        while piece := list(islice(told, PIECE)):
            known = {address for (address,) in database.execute(
                "update meter m set name = n.name from unnest(%s::text[], %s::text[]) as n (address, name) where m.address = n.address"
                " returning m.address", ([address for _, address, _ in piece], [name for *_, name in piece])).fetchall()}
            named += len(known)
            unknown += [number for number, address, _ in piece if address not in known]
    if unknown:
        log.warning("%s: %d names are of meters that aren't known, first that of line %d", path, len(unknown), unknown[0])
    return named


def _names_in(lines: Sequence[str], path: Path) -> Iterator[tuple[int, str, str]]:
    """The names of a file's lines: each line's number, the address and the name."""
    for number, line in enumerate(lines, 1):
        address, _, name = line.partition(" ")
        if line.strip():
            if not name.strip() or not ADDRESS.fullmatch(address.lower()):
                raise Trouble(f"{path}, line {number}", "it isn't an address, a space and a name",
                              "an address has sixteen hexadecimal digits, as in the roster")
            yield number, address.lower(), name_of(name.strip())
