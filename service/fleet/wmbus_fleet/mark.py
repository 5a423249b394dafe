"""A mark that grows before downlinks go out, kept in the database and with the broker: where the database's is the lower one, the database was
set back behind downlinks that went out, and a counter of a meter could get a second frame."""
from __future__ import annotations

from collections.abc import Iterator
from contextlib import contextmanager
from typing import Any

from wmbus_service.trouble import Trouble

from . import broker, store
from .store import Database

NAME, FLEET = "mark", "fleet"
# the database may be any of those that the broker knows of: it was said that it was set back, and what has to be done by that is done
ANEW = "anew"


def renew(database: Database) -> None:
    """Within a transaction: the database takes the broker's mark as its own, once."""
    store.set_setting(database, NAME, ANEW)


def grow(database: Database, channel: Any) -> None:
    """Before downlinks go out: both marks grow, the database's first."""
    with _alone(database):
        told = store.setting(database, NAME) or "0"
        value = 1 + (broker.highest_mark(channel, _queue(database)) if told == ANEW else int(told))
        store.set_setting(database, NAME, str(value))
        broker.put_mark(channel, _queue(database), value)


def judge(database: Database, channel: Any) -> None:
    """Refuses a database that was set back."""
    with _alone(database):
        told, known = store.setting(database, NAME) or "0", broker.highest_mark(channel, _queue(database))
        if told == ANEW:
            store.set_setting(database, NAME, str(known))
        elif int(told) < known:
            raise Trouble("the database", f"it was set back, as by a snapshot, a recovery or a standby: its mark is {told}, and the broker knows of"
                                          f" {known}; counters of downlinks could come twice",
                          "end all parts, say `wmbus-fleet set-back --margin N`, and start them (docs/FLEET.md, \"Copies\")")


def _queue(database: Database) -> str:
    """The queue that has the fleet's mark; there may be several fleets with one broker."""
    return f"fleet.{store.setting(database, FLEET)}.mark"


@contextmanager
def _alone(database: Database) -> Iterator[None]:
    """One process at a time looks at the broker's mark."""
    database.execute("select pg_advisory_lock(%s, 0)", (store.MARK,))
    try:
        yield
    finally:
        if not database.closed:
            database.execute("select pg_advisory_unlock(%s, 0)", (store.MARK,))
