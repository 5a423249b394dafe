"""What was used stays the same when readings are gathered into days, in any zone."""
from __future__ import annotations

import random
import time
from typing import Any

import pytest
from wmbus_service import retention
from wmbus_service.config import Keep

from . import stand_in
from .page_house import DAY, HOUR, PageHouse, page_fixture, zoned  # noqa: F401
from .test_sessions import House, house_fixture  # noqa: F401

hypothesis = pytest.importorskip("hypothesis", reason="python3-hypothesis isn't there")
some = pytest.importorskip("hypothesis.strategies")

BERLIN = "CET-1CEST,M3.5.0,M10.5.0/3"
# also half hours of summer time, quarters of an hour, and the first and the last zones of the day
ZONES = ["UTC", BERLIN, "<+1030>-10:30<+11>-11,M10.1.0,M4.1.0", "<+0545>-5:45", "<+14>-14", "<-11>11", "NST3:30NDT,M3.2.0,M11.1.0"]
# 00:30 of the first of January, March, April and November 2026 in Berlin, summer time's first and last days, and the end of a leap day
TURNS = [1_767_223_800, 1_772_321_400, 1_774_744_200, 1_774_996_200, 1_777_588_200, 1_792_892_800, 1_793_489_400, 1_709_247_599]


def used(page: PageHouse, now: float) -> dict[str, list[Any]]:
    """What was used by day and month of the first register."""
    page.app.config.update(CLOCK=lambda: now)
    told = page.client().get(f"/api/meters/{page.addresses[0]}").json
    assert told and told["used"], told
    by: dict[str, list[Any]] = told["used"][0]["by"]
    return {name: by[name] for name in ("day", "month")}


def gather(page: PageHouse, days: int, now: float) -> None:
    """Lets readings go that are older than so many days."""
    while retention.let_go(page.house.database, Keep(0, 0, days), now):
        pass


def test_months_at_the_turn_in_berlin(page: PageHouse, monkeypatch: pytest.MonkeyPatch) -> None:
    """A reading of half an hour after a month's begin in Berlin, where it is still the month before in UTC, is of the month of Berlin."""
    zoned(monkeypatch, BERLIN)
    for day, litres in (("2025-11-30 12:00", 0), ("2025-12-31 23:30", 100), ("2026-01-01 00:30", 150), ("2026-01-31 23:30", 300),
                        ("2026-02-01 00:30", 350), ("2026-02-28 23:30", 400)):
        page.volume(page.addresses[0], time.mktime(time.strptime(day, "%Y-%m-%d %H:%M")), litres)
    now = time.mktime(time.strptime("2026-03-01 12:00", "%Y-%m-%d %H:%M"))
    page.volume(page.addresses[0], now, 400)
    months = [("2026-03", "0.000"), ("2026-02", "0.100"), ("2026-01", "0.200"), ("2025-12", "0.100")]
    for days in (0, 1):
        if days:
            gather(page, days, now + DAY)
            assert len(page.house.all("select id from reading")) == 1
        assert [(row["period"], row["amount"]) for row in used(page, now)["month"]] == months


def stays(folders: pytest.TempPathFactory, zone: str, turn: int, days: int, piece: int, seed: int) -> None:
    """What was used by day and month is the same before readings are gathered and after it, all of them or a part; also where some were
    heard long after their moment, were misread, or have no time."""
    draw = random.Random(seed)
    with pytest.MonkeyPatch.context() as patches:
        zoned(patches, zone)
        patches.setattr(retention, "PIECE", piece)
        page = PageHouse(House(folders.mktemp("days")))
        moments = sorted(turn + draw.choice([-400, -64, -31, -1, 0, 0, 1]) * DAY + draw.randrange(-2 * HOUR, 26 * HOUR) for _ in range(40))
        for number, moment in enumerate(moments):
            litres = 10 * number if draw.random() < 0.9 else draw.randrange(1000)
            late = draw.choice([0, 0, 0, 5 * HOUR, 3 * DAY])
            page.volume(page.addresses[0], moment if draw.random() < 0.95 else draw.choice([100, moment + 900 * DAY]), litres,
                           moment + late)
        now = float(moments[-1] + 4 * DAY)
        page.volume(page.addresses[0], now, 500)
        before = used(page, now)
        for kept in (days, 1):
            gather(page, kept, now)
            assert used(page, now) == before
        page.house.database.close()
    zoned(patches, "UTC")


def test_used_stays(tmp_path_factory: pytest.TempPathFactory, monkeypatch: pytest.MonkeyPatch) -> None:
    """Whatever the zone, the day and the hour."""
    stand_in.use_stand_in(monkeypatch)
    tried = hypothesis.given(some.just(tmp_path_factory), some.sampled_from(ZONES), some.sampled_from(TURNS), some.integers(1, 420),
                             some.sampled_from([1, 3, 1000]), some.integers(0, 1 << 30))(stays)
    hypothesis.settings(max_examples=40, deadline=None, derandomize=True, database=None)(tried)()


@pytest.mark.parametrize("moment, made", [((1 << 63) - 1, 1000.0), (253_402_300_800, 1000.0), (0, 1000.0), (-1, 1000.0),
                                          (1_767_000_000, 1000.0)])
def test_a_moment_that_is_no_time(page: PageHouse, moment: int, made: float) -> None:
    """Whatever a receiver's clock and this machine's said, also where neither was set, its reading is gathered, and the others with it."""
    page.volume(page.addresses[0], moment, 10, made)
    page.volume(page.addresses[0], 1_772_319_600, 20)
    gather(page, 1, 1_772_319_600 + 9 * DAY)
    assert page.house.all("select value from daily order by value") == ["10", "20"]


def test_two_zones(page: PageHouse, monkeypatch: pytest.MonkeyPatch) -> None:
    """Where a machine is in another zone later, a day's value of there takes none away that was kept here."""
    page.volume(page.addresses[0], 1_772_319_600 - 3 * HOUR, 10)
    gather(page, 1, 1_772_319_600 + 9 * DAY)
    zoned(monkeypatch, "<+0545>-5:45")
    page.volume(page.addresses[0], 1_772_319_600 - 2 * HOUR, 20)
    gather(page, 1, 1_772_319_600 + 9 * DAY)
    assert page.house.all("select day, value from daily order by zone") == [("2026-03-01", "20"), ("2026-02-28", "10")]
