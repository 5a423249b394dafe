"""The fleet's database behind the page: asked as the service's is, over the views of its tables."""
from __future__ import annotations

from collections.abc import Sequence
from contextlib import suppress
from typing import Any

import psycopg
from psycopg.types.numeric import IntLoader
from wmbus_service.trouble import Trouble

from .. import commands, store
from ..config import Config

# (only what the page's role may read is found, none of it is changed, and no question is asked for long)
OPTIONS = "-c search_path=page -c default_transaction_read_only=on -c statement_timeout=20000"


class Asked:
    """A connection that takes questions in SQLite's words."""

    def __init__(self, words: str) -> None:
        self.database = psycopg.connect(words, autocommit=True, connect_timeout=5, options=OPTIONS, application_name="wmbus page")
        # (moments are whole numbers, of any size)
        self.database.adapters.register_loader("numeric", IntLoader)

    def execute(self, query: str, values: Sequence[Any] = (), /) -> psycopg.Cursor[tuple[Any, ...]]:
        """Asks something. Of a join's order PostgreSQL decides itself."""
        return self.database.execute(query.replace("cross join", "join").replace("?", "%s"), values or None)

    def close(self) -> None:
        """Ends it."""
        self.database.close()


class FleetDoor:
    """The fleet's database."""

    links = (("/", "Overview"), ("/meters", "Meters"), ("/gateways", "Gateways"), ("/strangers", "Strangers"))
    adding = "wmbus-fleet commission, with a roster that has"
    faults = psycopg.Error

    def __init__(self, config: Config) -> None:
        self.config = config

    def opened(self) -> Asked:
        """The database, for reading alone."""
        asked = Asked(self.config.database)
        with suppress(psycopg.Error):
            # (the last column that this release brought)
            if asked.execute("select 1 from pg_attribute where attrelid = to_regclass('page.meter') and attname = 'retired'").fetchall():
                return asked
        asked.close()
        raise Trouble("the database", "it hasn't the fleet's tables of this release", "`wmbus-fleet init` makes them")

    def trouble_of(self, fault: Exception) -> Trouble:
        """What went wrong, in words."""
        return Trouble("the database", str(fault).strip().split("\n")[0], "look whether PostgreSQL runs, and how `database` reaches it")

    def put_command(self, address: str, ident: str, payload: str, now: float) -> bool:
        """Takes a command; whether its id is new."""
        with store.connect(self.config.database) as database:
            return commands.put_command(database, ident, address, payload, now)

    def cancel_command(self, address: str, ident: str, now: float) -> str | None:
        """Cancels a meter's command; the state that it has, none where there is no such command."""
        if "\0" in address + ident:
            # (PostgreSQL has no such texts)
            return None
        with store.connect(self.config.database) as database:
            if not database.execute("select 1 from command where id = %s and address = %s", (ident, address)).fetchone():
                return None
            return commands.cancel_command(database, ident, now)

    def add_meter(self, address: str, mode: str, key: str, name: str) -> bool:
        """Adds a meter; whether it is new."""
        line = f"meter {address} {mode} {key} - - 0 0"
        with store.connect(self.config.database) as database:
            own = store.setting(database, "own")
            if own is None:
                raise Trouble("the meter", "the collector's own address isn't known", "`wmbus-fleet commission ROSTER` gives it")
            # (one that is out of service isn't put back by what is refused)
            if database.execute("select 1 from meter where address = %s", (address,)).fetchone():
                return False
            commands.take_roster(self.config, database, f"wmbus-roster 2\nown {own}\n{line}\n", f"meter {address}")
            database.execute("update meter set name = %s where address = %s", (name, address))
            return True
