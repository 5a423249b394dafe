"""Meters that were taken down or replaced. A mark says that they are out of service; all else that is known of them stays, since a downlink
counter that began anew would be refused, and what was stored could be stored again."""
from __future__ import annotations

from collections.abc import Mapping, Sequence

from wmbus_service.commands import OPEN
from wmbus_service.importing import ADDRESS
from wmbus_service.page.shared import FIRST_TIME, counted
from wmbus_service.trouble import Trouble

from . import store
from .store import Database

# of a meter m: a reading was heard since, by its receiver's clock where that has a time (what a gateway that was cut off kept of before,
# and sent later, is no sign of it)
IS_HEARD = ("m.retired is not null and m.heard > m.retired and exists (select 1 from reading r where r.address = m.address"
            f" and r.made > m.retired and (r.moment > m.retired::numeric or r.moment < {FIRST_TIME}))")


def heard_words(count: int) -> str:
    """That so many meters were heard since."""
    return str(counted(count, "meter was heard though it is out of service", "meters were heard though they are out of service"))


def lines_in(text: str) -> dict[str, str]:
    """The addresses of a text's lines, each with the place where it stands first. (In a wrong text may be keys, which no place has.)"""
    given: dict[str, str] = {}
    for number, line in enumerate(text.splitlines(), 1):
        if line.strip():
            given.setdefault(line.strip().lower(), f"the standard input, line {number}")
    return given


def retire(database: Database, given: Mapping[str, str], moment: float | None) -> tuple[int, int]:
    """Takes meters, each named with the place of its address, out of service at a moment, or puts them back where there is none: all of
    them or none. How many weren't so before, and how many of all have commands that wait."""
    addresses = [address for address in given if ADDRESS.fullmatch(address)]
    with store.transaction(database):
        known = {address for (address,) in database.execute("select address from meter where address = any(%s)", (addresses,)).fetchall()}
        unknown = [address for address in given if address not in known]
        if unknown:
            what = f"there is no meter {unknown[0]}" if ADDRESS.fullmatch(unknown[0]) else "an address has sixteen hexadecimal digits"
            raise Trouble(given[unknown[0]], f"{what}, and {len(unknown)} of {len(given)} addresses are of no meter: nothing was changed",
                          "`wmbus-fleet commission ROSTER` adds meters")
        changed = mark(database, addresses, moment)
        waiting = store.one(database, "select count(distinct address) from command where address = any(%s) and state = any(%s)",
                            (addresses, ["waiting", *OPEN]))
    return changed, waiting


def mark(database: Database, addresses: Sequence[str], moment: float | None) -> int:
    """Within a transaction: takes meters out of service, or puts them back; those that are so already stay as they are. How many
    weren't."""
    which, values = "address = any(%s) and (retired is null) = %s", (list(addresses), moment is not None)
    # (sessions write their meters in an order of their own, and so those that have some in hand end before: neither waits for the other)
    for (shard,) in database.execute(f"select distinct shard_of(address) from meter where {which} order by 1", values).fetchall():
        database.execute("select pg_advisory_xact_lock(%s, %s)", (store.SESSIONS, shard))
    return database.execute(f"update meter set retired = %s where {which}", (moment, *values)).rowcount
