"""The store behind the page, and what is done to it: a small door, of which the service's database has one and others may have theirs."""
from __future__ import annotations

import sqlite3
from collections.abc import Sequence
from contextlib import closing
from typing import Protocol, runtime_checkable

from .. import meters, store
from ..asking import Database
from ..commands import cancel_command, put_command, waiting_commands
from ..config import Config
from ..publications import Publications
from ..trouble import Trouble
from .reading import open_reading


class Door(Protocol):
    """A store of meters, and what may be done to it."""

    @property
    def links(self) -> Sequence[tuple[str, str]]:
        """The pages that it has, as address and words."""

    @property
    def adding(self) -> str:
        """By which command a stranger becomes a meter."""

    @property
    def faults(self) -> type[Exception]:
        """What may go wrong with the database."""

    def trouble_of(self, fault: Exception) -> Trouble:
        """What went wrong, in words."""

    def put_command(self, address: str, ident: str, payload: str, now: float) -> bool:
        """Takes a command; whether its id is new."""

    def cancel_command(self, address: str, ident: str, now: float) -> str | None:
        """Cancels a meter's command; the state that it has, none where there is no such command."""

    def add_meter(self, address: str, mode: str, key: str, name: str) -> bool:
        """Adds a meter; whether it is new."""


@runtime_checkable
class Opening(Protocol):
    """A door whose database can be opened here. What it opens has the service's tables, as far as the page reads them."""

    def opened(self) -> Database:
        """The database, for reading alone."""


@runtime_checkable
class Retiring(Protocol):
    """A store whose meters may be out of service, which not each one tells."""

    def retire(self, address: str, now: float) -> int:
        """Says that a meter is out of service; how many commands still wait for it."""

    def bring_back(self, address: str) -> bool:
        """Puts a meter back into service; whether it was out of it."""


class HouseDoor:
    """The service's own database."""

    links = (("/", "Overview"), ("/meters", "Meters"), ("/receivers", "Receivers"), ("/strangers", "Strangers"))
    adding = "wmbus-service add"
    faults = sqlite3.Error

    def __init__(self, config: Config) -> None:
        self.config = config

    def opened(self) -> Database:
        """The database, for reading alone."""
        return open_reading(self.config.database)

    def trouble_of(self, fault: Exception) -> Trouble:
        """What went wrong, in words."""
        assert isinstance(fault, sqlite3.Error)
        return store.trouble_of(self.config.database, fault)

    def _writing(self) -> closing[sqlite3.Connection]:
        return closing(store.open_store(self.config.database))

    def put_command(self, address: str, ident: str, payload: str, now: float) -> bool:
        """Takes a command; whether its id is new."""
        with self._writing() as database:
            return put_command(database, ident, address, payload, now, "the page")

    def cancel_command(self, address: str, ident: str, now: float) -> str | None:
        """Cancels a meter's command; the state that it has, none where there is no such command."""
        with self._writing() as database:
            if not database.execute("select 1 from command where id = ? and address = ?", (ident, address)).fetchone():
                return None
            return cancel_command(database, ident, now, Publications(self.config.mqtt, database))

    def add_meter(self, address: str, mode: str, key: str, name: str) -> bool:
        """Adds a meter; whether it is new."""
        line = f"meter {address} {mode} {key} - - 0 0"
        with self._writing() as database:
            own = store.setting(database, "own")
            if own is None:
                raise Trouble("the meter", "the collector's own address isn't known", "add the first meter by `wmbus-service add --own`")
            if not meters.take_roster(self.config, database, f"wmbus-roster 2\nown {own}\n{line}\n", f"meter {address}"):
                return False
            database.execute("update meter set name = ? where address = ?", (name, address))
            return True

    def retire(self, address: str, now: float) -> int:
        """Says that a meter is out of service; how many commands still wait for it."""
        with self._writing() as database:
            meters.retire(database, [address], now)
            return waiting_commands(database, address)

    def bring_back(self, address: str) -> bool:
        """Puts a meter back into service; whether it was out of it."""
        with self._writing() as database:
            return bool(meters.bring_back(database, [address]))
