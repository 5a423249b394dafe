"""The demo: what a made building sent is what the service reads of it, and its page is there and goes without a trace."""
from __future__ import annotations

import os
import re
import signal
import urllib.request
from decimal import Decimal
from pathlib import Path

import pytest
from wmbus_service.config import Programs
from wmbus_service.demo import COMMANDS, demo
from wmbus_service.demo import run as run_demo
from wmbus_service.ending import Ending
from wmbus_service.made_building import GAS, HEAT, POWER, SILENT, WRONG_KEY

from .kill import PYTHON, TOP
from .processes import PATIENCE, started, until
from .stand_in import use_stand_in

STEPS = f"{TOP}/tests/reference/steps"
DAYS = 12
# of each kind of meter the quantity, into how many parts of a kWh or m³ it counts, and how great one is in Wh or m³
READS = {HEAT: ("energy", 1, "1000"), POWER: ("energy", 100, "10"), GAS: ("volume", 100, "0.01")}
WATER = ("volume", 1000, "0.001")


def test_what_is_read_is_what_was_made(monkeypatch: pytest.MonkeyPatch) -> None:
    """Each meter's last register is its total, but for the meter whose key is wrong; commands end as their meters answered them."""
    use_stand_in(monkeypatch)
    told: list[str] = []
    with demo(Programs(steps=STEPS), DAYS, 0) as made:
        made.hear(told.append)
        rows = made.database.execute("select address, quantity, value, exponent from reading join record on reading = reading.id"
                                     " where storage = 0 and quantity in ('energy', 'volume') order by reading.id, place desc")
        last = {address: (quantity, Decimal(f"{value}e{exponent}")) for address, quantity, value, exponent in rows}
        for meter in made.building.meters:
            quantity, parts, size = READS.get(meter.kind, WATER)
            wanted = None if meter.name == WRONG_KEY else (quantity, int(meter.total * parts) * Decimal(size))
            assert last.get(meter.address.hex()) == wanted, meter.name
        assert made.database.execute("select distinct address, reason from refusal").fetchall() == [
            (made.building.named(WRONG_KEY).address.hex(), "mac")]
        assert dict(made.database.execute("select id, state from command").fetchall()) == dict(
            zip(COMMANDS, ("confirmed", "expired", "queued"), strict=True))
        assert made.database.execute("select address from stranger").fetchall() == [(made.building.neighbour.address.hex(),)]
        silent = made.building.named(SILENT).address.hex()
        (heard,) = made.database.execute("select max(moment) from reading where address = ?", (silent,)).fetchone()
        assert made.building.end - heard > 9 * 86_400
        folder = made.config.folder
    assert not folder.exists() and "isn't proved" not in told[0]


@pytest.mark.parametrize("port", [None, 0])
def test_an_end_before_all_is_heard(monkeypatch: pytest.MonkeyPatch, port: int | None) -> None:
    """Ctrl-C while the days are heard ends it: neither what was read of a part of them is said, nor the address of a page that ends."""
    use_stand_in(monkeypatch)
    monkeypatch.setattr(Ending, "heed_signals", Ending.set)
    told: list[str] = []
    run_demo(Programs(steps=STEPS), DAYS, port, told.append)
    assert len(told) == 1 and "isn't proved" in told[0]


def test_its_page(tmp_path: Path) -> None:
    """The page is served once all days are heard, says what is wrong with three meters, and ends with its folder."""
    words = [PYTHON, "-m", "wmbus_service", "demo", "--days", str(DAYS), "--port", "0", "--steps", STEPS]
    env = os.environ | {"PYTHONPATH": str(TOP / "service"), "PYTHONUNBUFFERED": "1"}
    log, home = tmp_path / "log", tmp_path / "home"
    home.mkdir()
    with open(log, "wb") as opened, started(words, stdout=opened, stderr=opened, env=env | {"TMPDIR": str(home)}) as served:
        until(lambda: "Ctrl-C" in log.read_text() or served.poll() is not None)
        said = log.read_text()
        assert "isn't proved" in said
        found = re.search(r"^the page: (http://127\.0\.0\.1:\d+/)$", said, re.MULTILINE)
        assert found, said
        with urllib.request.urlopen(found[1], timeout=PATIENCE) as given:
            page = given.read().decode()
        for told in ("key probably wrong", "silent for 9 days", "command given up", "11 of 12", "Heat, attic"):
            assert told in page
        assert list(home.iterdir())
        served.send_signal(signal.SIGTERM)
        until(lambda: served.poll() is not None)
        assert served.returncode == 0, log.read_text()
    assert not list(home.iterdir())
