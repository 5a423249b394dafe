"""What the page asks of a store: each question with its answer as data, which holds no key."""
from __future__ import annotations

from collections.abc import Callable
from dataclasses import dataclass
from typing import Any

from ..asking import Database
from ..config import Config
from ..meters import retired_since
from . import reading, views
from .house import Door, Retiring


@dataclass(frozen=True)
class Asked:
    """Of whom something is asked, and when: a store's database for reading, and of a house its configuration."""

    door: Door
    database: Database
    now: float
    config: Config | None = None

    @property
    def house(self) -> Config:
        """The house's configuration."""
        assert self.config is not None
        return self.config


def overview(of: Asked, number: int) -> dict[str, Any]:
    """What needs a person, and a page of all meters."""
    return views.overview(of.house, of.database, of.now, number)


def meters(of: Asked, asked: dict[str, str], is_retired: bool, number: int) -> dict[str, Any]:
    """The meters that somebody looks for."""
    return views.meters_page(of.house, of.database, of.now, asked, is_retired, number)


def meter(of: Asked, address: str, span: str) -> dict[str, Any] | None:
    """All of a meter, if it is known."""
    retired = retired_since(of.database, address) if isinstance(of.door, Retiring) else None
    return views.meter_page(of.database, address, span, of.now, retired)


def receivers(of: Asked) -> dict[str, Any]:
    """The receivers."""
    return views.receivers_page(of.house, of.database, of.now)


def strangers(of: Asked) -> dict[str, Any]:
    """The meters that aren't known."""
    return views.strangers_page(of.database, of.now)


def addresses(of: Asked) -> list[str]:
    """The addresses of all meters."""
    return [address for (address,) in of.database.execute("select address from meter order by place")]


def known(of: Asked, address: str) -> str | None:
    """A meter's address as the store has it, if it is known."""
    found = reading.one_meter(of.database, address, of.now)
    return found.address if found else None


def readings(of: Asked, address: str, end: int, behind: tuple[int, int]) -> views.Piece | None:
    """The values of a meter's next readings."""
    return views.piece_of_readings(of.database, end, address, behind)


QUESTIONS: dict[str, Callable[..., Any]] = {
    "overview": overview, "meters": meters, "meter": meter, "receivers": receivers, "strangers": strangers, "addresses": addresses,
    "known": known, "readings": readings}
