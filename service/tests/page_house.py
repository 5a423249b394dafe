"""A house whose readings are written by the tests, and the page over it."""
from __future__ import annotations

import re
import socket
import tempfile
import threading
import time
from collections.abc import Iterator
from contextlib import ExitStack, contextmanager
from pathlib import Path
from typing import Any

import pytest
from flask import Flask
from flask.testing import FlaskClient
from wmbus_service.days import zone_now
from wmbus_service.ending import Ending
from wmbus_service.page.answering import Answering, listen_at, serve
from wmbus_service.page.apart import FarDoor
from wmbus_service.page.app import create_apart, create_app
from wmbus_service.page.tokens import Guard

from readings.used import hour_of
from .processes import PATIENCE
from .test_sessions import NOW, House

TOKEN = "a-token-of-the-tests-0123456789"
HOUR, DAY = 3600, 86_400


class PageHouse:
    """The house's database, and the page at a moment."""

    def __init__(self, house: House) -> None:
        self.house, self.lines = house, 0
        self.addresses = [meter.name for meter in house.meters]
        self.app = self.page()

    def page(self, token: str | None = None, is_elsewhere: bool = False) -> Flask:
        """The page at the moment of the tests."""
        app = create_app(self.house.config, token, is_elsewhere)
        app.config.update(CLOCK=lambda: NOW, TESTING=False)
        return app

    def guard(self, app: Flask) -> Guard:
        """Who judges a page's tokens."""
        found = app.config["GUARD"]
        assert isinstance(found, Guard)
        return found

    def client(self) -> FlaskClient:
        """Who asks the page from this machine."""
        return self.app.test_client()

    def read(self, address: str, moment: float, *records: tuple[Any, ...], made: float | None = None) -> None:
        """A reading: of each record quantity, unit, power of ten and value, and where it isn't the main one function, storage and modifiers."""
        self.lines += 1
        self.write("begin")
        number = self.house.database.execute(
            "insert into reading (line, address, counter, moment, receiver, payload, more, made) values (?, ?, ?, ?, 'attic', '', 0, ?)",
            (self.lines, address, self.lines, int(moment), moment if made is None else made)).lastrowid
        for place, (quantity, unit, exponent, value, *rest) in enumerate(records):
            function, storage, modifiers = list(rest) + ["instantaneous", 0, ""][len(rest):]
            self.house.database.execute("insert into record values (?, ?, ?, ?, ?, ?, ?, ?, 0, 0, ?, ?)",
                                        (number, place, quantity, unit, exponent, value, function, storage, modifiers, "00ff"))
        self.write("commit")

    def volume(self, address: str, moment: float, litres: int, made: float | None = None) -> None:
        """A reading of a volume."""
        self.read(address, moment, ("volume", "m3", -3, str(litres)), made=made)

    def day(self, address: str, day: str, litres: str) -> None:
        """The last value of a day whose readings are gone, of its last second."""
        moment = int(time.mktime((*time.strptime(day, "%Y-%m-%d")[:3], 23, 59, 59, 0, 0, -1)))
        self.write("insert into daily values (?, ?, 'volume', 'm3', -3, ?, 'instantaneous', 0, 0, 0, '', ?, ?)", address, day, litres,
                   zone_now(), moment)

    def write(self, query: str, *given: object) -> None:
        """Changes the database."""
        self.house.database.execute(query, given)


class ApartHouse(PageHouse):
    """The same, whose page is that of a user who can't read the database."""

    def __init__(self, house: House, held: ExitStack) -> None:
        self.held, self.guards = held, dict[Flask, Guard]()
        super().__init__(house)

    def page(self, token: str | None = None, is_elsewhere: bool = False) -> Flask:
        """The page at the moment of the tests."""
        answering = Answering(self.house.config)
        answering.guard, answering.is_elsewhere = Guard(token), is_elsewhere
        door = FarDoor(self.held.enter_context(answered(answering)))
        door.has_token = token is not None
        app = create_apart(door, is_elsewhere)
        answering.clock = lambda: float(app.config["CLOCK"]())
        app.config.update(CLOCK=lambda: NOW, TESTING=False)
        self.guards[app] = answering.guard
        return app

    def guard(self, app: Flask) -> Guard:
        """Who judges a page's tokens."""
        return self.guards[app]


@contextmanager
def answered(answering: Answering) -> Iterator[Path]:
    """A socket at which a page's questions are answered. (A socket's path isn't long.)"""
    ending = Ending()
    with tempfile.TemporaryDirectory() as folder, socket.socket(socket.AF_UNIX) as listening:
        path = Path(folder) / "door"
        listen_at(listening, path)
        serving = threading.Thread(target=serve, args=(ending, listening, answering))
        serving.start()
        try:
            yield path
        finally:
            ending.set()
            serving.join(PATIENCE)


def forms_word(page: str) -> str:
    """The word that a page's forms bring."""
    found = re.search(r'name="forms" value="([^"]+)"', page)
    assert found, page
    return found[1]


def entered(app: Flask) -> tuple[FlaskClient, str]:
    """Who has given the token, and the word of the forms."""
    client = app.test_client()
    word = forms_word(client.get("/enter").text)
    assert client.post("/enter", data={"forms": word, "token": TOKEN}).status_code == 303
    return client, word


def zoned(monkeypatch: pytest.MonkeyPatch, zone: str) -> None:
    """This machine is in a zone."""
    monkeypatch.setenv("TZ", zone)
    time.tzset()
    hour_of.cache_clear()


@pytest.fixture(name="page")
def page_fixture(house: House, monkeypatch: pytest.MonkeyPatch) -> Iterator[PageHouse]:
    """A house with a page."""
    zoned(monkeypatch, "UTC")
    yield PageHouse(house)
    # (the tests behind it aren't in the zone of this one)
    zoned(monkeypatch, "UTC")


@pytest.fixture(name="page", params=["of the service's user", "of a user of its own"])
def each_page_fixture(request: pytest.FixtureRequest, house: House, monkeypatch: pytest.MonkeyPatch) -> Iterator[PageHouse]:
    """A house with a page, which the service's user serves, or one that can't read the database."""
    zoned(monkeypatch, "UTC")
    with ExitStack() as held:
        yield PageHouse(house) if request.param == "of the service's user" else ApartHouse(house, held)
    zoned(monkeypatch, "UTC")
