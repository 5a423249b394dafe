"""What operators ask for: commands to meters, their cancellation, new second keys. Each has an id of the operator's and is taken once."""
from __future__ import annotations

import re
import sqlite3

from . import store
from .meters import judge_former, judge_in_service, judge_known, keys_name, with_noted
from .publications import Publications
from .store import transaction
from .trouble import Trouble

IDENT = re.compile(r"[A-Za-z0-9_.:-]{1,64}")
PAYLOAD = re.compile(r"(?:[0-9a-f]{2}){1,94}")
KEY = re.compile(r"[0-9a-f]{32}")
OPEN = ("queued", "sent")


def put_command(database: sqlite3.Connection, ident: str, address: str, payload: str, now: float, asked_by: str = "") -> bool:
    """Takes a command for a meter, whose payload goes to it as it is, and notes who asked for it; whether its id is new."""
    return _put(database, ident, address.lower(), "send", payload_of(ident, payload), now, asked_by)


def put_key(database: sqlite3.Connection, ident: str, address: str, key: str, now: float, asked_by: str = "") -> bool:
    """Takes a meter's new second key, and notes who asked for it; whether its id is new."""
    key, place, address = key_of(f"command {ident}", key), f"meter {address}", address.lower()
    # (who has the meter count anew meanwhile is done before, and this key judged by what was noted then)
    with transaction(database):
        told = store.setting(database, keys_name(address))
        row = database.execute("select block from meter where address = ?", (address,)).fetchone()
        judge_former(told, key, place)
        if row:
            # (the second key that it has may be replaced)
            store.set_setting(database, keys_name(address), with_noted(told, row[0]))
        return _put(database, ident, address, "rekey", key, now, asked_by)


def payload_of(ident: str, payload: str) -> str:
    """A command's payload, in lower case."""
    if not PAYLOAD.fullmatch(payload.lower()):
        raise Trouble(f"command {ident}", "its payload isn't 1 to 94 bytes in hexadecimal")
    return payload.lower()


def joined(text: str) -> str:
    """Hexadecimal digits as people have them of labels, mails and lists: in groups, with 0x in front, in large letters."""
    return re.sub(r"[\s:_-]", "", text).lower().removeprefix("0x")


def key_of(place: str, key: str) -> str:
    """A new key, in lower case."""
    if not KEY.fullmatch(key.lower()):
        raise Trouble(place, "the key isn't 32 hexadecimal digits")
    return key.lower()


def judge_ident(ident: str) -> None:
    """An id that can't be one."""
    if not IDENT.fullmatch(ident):
        raise Trouble("the command", "its id isn't 1 to 64 letters, digits and _ . : -")


def _put(database: sqlite3.Connection, ident: str, address: str, kind: str, payload: str, now: float, asked_by: str) -> bool:
    judge_ident(ident)
    judge_known(database, address, f"command {ident}")
    # (a key goes to no meter, and a command that was taken before isn't taken anew)
    if kind == "send" and not database.execute("select 1 from command where id = ?", (ident,)).fetchone():
        judge_in_service(database, address, f"command {ident}")
    added = database.execute("insert or ignore into command (id, address, kind, payload, made, changed, asked_by)"
                             " values (?, ?, ?, ?, ?, ?, ?)", (ident, address, kind, payload, now, now, asked_by))
    if not added.rowcount:
        _judge_same(database, ident, address, kind, payload)
    return bool(added.rowcount)


def _judge_same(database: sqlite3.Connection, ident: str, address: str, kind: str, payload: str) -> None:
    """An id that was used is taken again for the same command alone, which isn't sent twice. (Of a key that was taken nothing is kept.)"""
    told = database.execute("select address, kind, payload from command where id = ?", (ident,)).fetchone()
    if told[:2] != (address, kind) or told[2] != payload and told[2]:
        raise Trouble(f"command {ident}", "its id was used for another command, and it isn't sent", "give it an id of its own")


def waiting_commands(database: sqlite3.Connection, address: str) -> int:
    """How many commands wait for a meter, and aren't to be cancelled."""
    (count,) = database.execute("select count(*) from command where address = ? and kind = 'send' and wish is null"
                                " and state in ('waiting', 'queued', 'sent')", (address,)).fetchone()
    return int(count)


def waiting_words(count: int) -> str:
    """What is said of commands that wait for a meter which went out of service."""
    return f"; {count} {'command of it still waits: cancel it' if count == 1 else 'commands of it still wait: cancel them'}" * bool(count)


def cancel_command(database: sqlite3.Connection, ident: str, now: float, publications: Publications | None = None) -> str:
    """Has a command not be sent any more: at once where no session has it yet, else by the next one; the state that it has now."""
    with transaction(database):
        row = database.execute("select state from command where id = ?", (ident,)).fetchone()
        if row is None:
            raise Trouble(f"command {ident}", "there is no command with this id")
        if row[0] == "waiting":
            database.execute("update command set state = 'cancelled', changed = ?,"
                             " payload = case kind when 'rekey' then '' else payload end where id = ?", (now, ident))
            if publications:
                publications.command(ident)
            return "cancelled"
        if row[0] in OPEN:
            database.execute("update command set wish = 'cancel', changed = ? where id = ?", (now, ident))
        return str(row[0])
