"""The meters that the service knows: how they come into the database, and their line of a roster."""
from __future__ import annotations

import hashlib
import json
import logging
import sqlite3
import time
from collections.abc import Iterator, Sequence
from pathlib import Path

from . import begun, store
from .asking import Database
from .config import Config, words_of
from .steps import ProgramFailed, run_steps
from .trouble import Trouble

log = logging.getLogger("wmbus")

MODE_PLACE, KEY_PLACE, OTHER_PLACE, LAST_PLACE, DOWN_PLACE = 2, 3, 4, 5, 6
MODES = ("5", "7")
MOST_NAME = 80
# a roster that the program judges has so many meters at most
PIECE = 4096
# how a state begins, which the program takes in the place of a roster
STATE = "wmbus-state 1"


def count(database: sqlite3.Connection) -> int:
    """How many meters there are."""
    (number,) = database.execute("select count(*) from meter").fetchone()
    return int(number)


def judge_known(database: sqlite3.Connection, address: str, place: object) -> None:
    """A meter that isn't known."""
    if not database.execute("select 1 from meter where address = ?", (address,)).fetchone():
        raise Trouble(place, f"there is no meter {address}", "`wmbus-service status` lists the meters")


def retired_since(database: Database, address: str) -> float | None:
    """Since when a meter is out of service; none while it is in service, and of one that isn't known."""
    row = database.execute("select retired from meter where address = ?", (address,)).fetchone()
    return row[0] if row else None


def judge_in_service(database: sqlite3.Connection, address: str, place: object) -> None:
    """A meter that is out of service."""
    since = retired_since(database, address)
    if since is not None:
        raise Trouble(place, f"the meter {address} is out of service since {day_of(since)}",
                      f"`wmbus-service retire --back {address}` puts it back")


def day_of(moment: float) -> str:
    """A moment's day, in this machine's zone."""
    return time.strftime("%Y-%m-%d", time.localtime(moment))


def retire(database: sqlite3.Connection, addresses: Sequence[str], now: float) -> None:
    """Says that meters are out of service from now on, all of them or none; of those that are so already the first moment stays."""
    _mark(database, addresses, "retired = ? where retired is null", (now,))


def bring_back(database: sqlite3.Connection, addresses: Sequence[str]) -> int:
    """Puts meters back into service, all of them or none; how many of them were out of it."""
    return _mark(database, addresses, "retired = null where retired is not null", ())


def _mark(database: sqlite3.Connection, addresses: Sequence[str], words: str, given: tuple[float, ...]) -> int:
    """Changes since when meters are out of service; how many were changed. (One statement: it is done whole, also amid a session.)"""
    for address in addresses:
        judge_known(database, address, f"meter {address}")
    return database.execute(f"update meter set {words} and address in (select value from json_each(?))",
                            (*given, json.dumps(addresses))).rowcount


def judge_own(database: sqlite3.Connection, own: str, place: object) -> None:
    """The collector's own address stays what it is: meters know it by their downlinks."""
    known = store.setting(database, "own")
    if known is not None and known != own:
        raise Trouble(place, f"the collector's own address is {own}, and the database has {known}", "write that of the database there")


def set_own(database: sqlite3.Connection, own: str, place: object) -> None:
    """The collector's own address."""
    judge_own(database, own, place)
    store.set_setting(database, "own", own)


def name_of(text: str) -> str:
    """What a meter may be called: signs of one line that can be shown."""
    return "".join(letter for letter in text if letter.isprintable())[:MOST_NAME]


def add_meter(database: sqlite3.Connection, fields: list[str], name: str = "") -> bool:
    """Adds a meter by the fields of its line of a roster of version 2; a known one stays as it is. Whether it is new."""
    (place,) = database.execute("select coalesce(max(place), 0) + 1 from meter").fetchone()
    address = fields[1].lower()
    if floor := int(store.setting(database, "floor") or 0):
        # (a meter of this address may have been known to a database that was lost)
        fields = [*fields[:DOWN_PLACE], str(begun.raised(int(fields[DOWN_PLACE]), floor, f"meter {address}")), *fields[DOWN_PLACE + 1:]]
    line = " ".join(field.lower() for field in fields)
    added = database.execute("insert or ignore into meter (address, place, name, block) values (?, ?, ?, ?)",
                             (address, place, name, f"{line}\n"))
    return bool(added.rowcount)


def fields_of(line: str) -> list[str]:
    """The fields of a meter's line of either version, as those of version 2."""
    fields = line.split(" ")
    return fields if len(fields) == 8 else [*fields[:OTHER_PLACE], "-", *fields[OTHER_PLACE:]]


def lines_of(text: str) -> list[str]:
    """The lines of a roster but those that are passed over."""
    return [line for line in (it.removesuffix("\r") for it in text.split("\n")) if line and not line.startswith("#")]


def meters_in(text: str) -> tuple[str, list[list[str]]]:
    """The own address and the fields of each meter's line of a roster that the program takes."""
    told = lines_of(text)
    return told[1].split(" ")[1].lower(), [fields_of(line) for line in told[2:]]


def pieces_of(text: str) -> Iterator[str]:
    """A roster of any number of meters as rosters that the program judges, of which the first one has all where they aren't too many."""
    lines = lines_of(text)
    if len(lines) <= PIECE + 2:
        yield text
        return
    for start in range(2, len(lines), PIECE):
        yield "\n".join([*lines[:2], *lines[start:start + PIECE]]) + "\n"


def judge_roster(program: Sequence[str], text: str, place: object) -> None:
    """Has the program judge a roster; it names the first faulty line."""
    if lines_of(text)[:1] == [STATE]:
        raise Trouble(place, "it is a state, and no roster",
                      "name a file of `wmbus-roster 2` and, below it, the state's lines `own` and `meter` alone")
    try:
        run_steps(program, text, [])
    except UnicodeEncodeError:
        raise Trouble(place, "an address or a key of it has a sign that none has, which may not be seen",
                      "type it, where it was copied out of a document") from None
    except ProgramFailed as failed:
        raise Trouble(place, f"the program doesn't take the roster: {failed}",
                      "`input_check` names all faulty lines, and says what to do") from None


def read_roster(path: Path) -> str:
    """A roster's text, which nobody else may read."""
    try:
        store.look_at_rights(path, 0o600)
        return path.read_text(encoding="latin-1")
    except OSError as fault:
        raise Trouble(path, f"the roster can't be read: {fault.strerror}", "look at its name, and who may read it") from None


def take_roster(config: Config, database: sqlite3.Connection, text: str, place: object, name: str = "") -> int:
    """Adds a roster's new meters, where it is of a single one with its name; what is known of the others stays. How many are new."""
    for piece in pieces_of(text):
        judge_roster(words_of(config.programs.steps), piece, place)
    own, told = meters_in(text)
    with store.transaction(database):
        set_own(database, own, place)
        added = [fields[1].lower() for fields in told if add_meter(database, fields, name)]
        if own in added:
            raise Trouble(place, f"the collector's own address {own} is that of a meter", "name one that no meter has")
    if added:
        log.info("%d new meters of %s", len(added), place)
    return len(added)


def with_key(program: Sequence[str], own: str, block: str, key: str, place: object) -> str:
    """A meter's block with another key in the place of its own, which the program has to take. All else stays, its counters first."""
    line, _, rest = block.partition("\n")
    fields = line.split(" ")
    fields[KEY_PLACE] = key
    line = " ".join(fields)
    judge_roster(program, f"wmbus-roster 2\nown {own}\n{line}\n", place)
    return f"{line}\n{rest}"


def with_mode(block: str, mode: str, place: object) -> str:
    """A meter's block with another security mode, in which the numbers of the one before count nothing. All else stays, its downlink
    counter first."""
    line, _, rest = block.partition("\n")
    fields = line.split(" ")
    if fields[MODE_PLACE] == mode:
        return block
    if fields[MODE_PLACE] == "7" and fields[LAST_PLACE] != "-":
        # (back in mode 7, under the same key, all that it ever sent could come again)
        raise Trouble(place, "messages of mode 7 were stored of it, and it stays in this mode", "leave out --mode")
    fields[MODE_PLACE], fields[OTHER_PLACE], fields[LAST_PLACE] = mode, "-", "-"
    return f"{' '.join(fields)}\n{rest}"


def keys_name(address: str) -> str:
    """The setting that has the digests of the keys that a meter had: `former` of those under which it counted before it counted anew, and
    `since` of those behind them."""
    return f"keys {address}"


def with_noted(told: str | None, block: str) -> str:
    """These digests with those of a block's keys."""
    noted, fields = _noted(told), block.partition("\n")[0].split(" ")
    keys = (key for key in (fields[KEY_PLACE], fields[OTHER_PLACE]) if key != "-")
    return json.dumps({**noted, "since": list(dict.fromkeys([*noted["since"], *map(_digest, keys)]))})


def judge_former(told: str | None, key: str, place: object) -> None:
    """A key under which a meter counted before it counted anew is taken no more: what it sent under it could come again."""
    if _digest(key) in _noted(told)["former"]:
        raise Trouble(place, "it had this key before it counted anew, and what it sent under it could come again", "give it the one of now")


def counted_anew(told: str, block: str, key: str, place: object) -> tuple[str, str]:
    """The digests, and a meter's block without the last number, as where its electronics were exchanged; under a key that it never had, since
    under another one all that it ever sent could come again. All else stays, its downlink counter first."""
    noted = _noted(told)
    if _digest(key) in noted["since"]:
        raise Trouble(place, "where it counts anew its key is one that it never had, and this one it has or had",
                      "ask for the key of its new electronics, or leave out --anew")
    line, _, rest = block.partition("\n")
    fields = line.split(" ")
    fields[OTHER_PLACE] = fields[LAST_PLACE] = "-"
    return json.dumps({"former": [*noted["former"], *noted["since"]], "since": []}), f"{' '.join(fields)}\n{rest}"


def judge_waiting_key(idents: Sequence[str], program: str, place: object) -> None:
    """A second key that no session took yet, where a meter is to count anew: it is one of the electronics of before, and what they sent under
    it could come again."""
    if idents:
        raise Trouble(place, f"a second key of it, {idents[0]}, still waits for a session",
                      f"try again behind that session, or `{program} command --cancel {idents[0]}`")


def _noted(told: str | None) -> dict[str, list[str]]:
    found: dict[str, list[str]] = json.loads(told) if told else {"former": [], "since": []}
    return found


def _digest(key: str) -> str:
    return hashlib.sha256(key.encode()).hexdigest()


def correct_key(config: Config, database: sqlite3.Connection, address: str, key: str, mode: str | None = None,
                is_anew: bool = False) -> None:
    """Gives a meter another key, and another mode where one is named; it may count anew. What was refused under those before is told no
    more."""
    place = f"meter {address}"
    with store.transaction(database):
        judge_known(database, address, place)
        (block,) = database.execute("select block from meter where address = ?", (address,)).fetchone()
        told = with_noted(store.setting(database, keys_name(address)), block)
        judge_former(told, key, place)
        if is_anew:
            waiting = database.execute("select id from command where address = ? and kind = 'rekey' and state = 'waiting'", (address,))
            judge_waiting_key([ident for (ident,) in waiting], "wmbus-service", place)
            told, block = counted_anew(told, block, key, place)
        store.set_setting(database, keys_name(address), told)
        block = with_mode(block, mode, place) if mode else block
        block = with_key(words_of(config.programs.steps), store.setting(database, "own") or "", block, key, place)
        database.execute("update meter set block = ? where address = ?", (block, address))
        database.execute("delete from refusal where address = ?", (address,))
