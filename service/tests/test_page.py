"""The page: what it says of meters, receivers, strangers and commands is what the database has."""
from __future__ import annotations

import csv
import html
import io
import json
import os
import re
import sqlite3
import subprocess
import tracemalloc
from contextlib import closing, suppress
from functools import partial
from pathlib import Path
from typing import Any

import pytest
from wmbus_service import exporting, retention, schema, sensors, store
from wmbus_service.config import Keep
from wmbus_service.page import looks, radios, reading, views
from wmbus_service.page.house import HouseDoor
from wmbus_service.status import figures, status

from telegrams import frames
from telegrams import messages
from readings import service_tables
from readings.used import hour_of
from .kill import TOP
from .page_house import DAY, HOUR, TOKEN, PageHouse, each_page_fixture, entered, zoned  # noqa: F401
from .processes import run
from .test_sessions import NOW, house_fixture  # noqa: F401

# NOW is the 15th of January 2027, 08:00 in UTC
BERLIN = "CET-1CEST,M3.5.0,M10.5.0/3"
# there the last hour of a day comes twice in October, since the clocks are set back at midnight
BEIRUT = "EET-2EEST,M3.5.0/0,M10.5.0/0"


def test_overview(page: PageHouse) -> None:
    """What needs a person stands first, with what to do, then each meter with its last value and when it was heard."""
    first, second, third = page.addresses
    page.write("update meter set name = 'Cellar' where address = ?", first)
    page.volume(first, NOW - 7200, 12_345)
    page.volume(second, NOW - 5 * DAY, 1)
    page.write("insert into refusal values (?, 'mac', 'mac', 9, 1, ?)", third, NOW - 60)
    page.write("insert into stranger values ('2d2c785634121b16', 50, 'attic', ?)", NOW - 60)
    page.write("insert into aside (receiver, text, said, made) values ('attic', 'A 1 00', 'status 10: no memory', ?)", NOW)
    page.write("insert into command (id, address, kind, payload, state, made, changed) values ('c1', ?, 'send', '00', 'expired', 1, ?)",
               first, NOW - 60)
    page.write("insert into line (receiver, text, made) values ('attic', 'A 1 00', ?), ('roof', 'A 1 00', ?)", NOW - 60, NOW - 3 * HOUR)
    told = page.client().get("/api/overview").json
    assert told
    assert [(look["what"], look["title"]) for look in told["looks"]] == [
        ("stands still", "The service"), ("line set aside", "Line 1 of attic"), ("silent for 3 hours", "Receiver roof"),
        ("key probably wrong", "ELS 00000003 01 07"), ("silent for 5 days", "ELS 00000002 01 07"), ("command given up", "Cellar"),
        ("heard 50 times", "KAM 12345678 1b 16")]
    text = page.client().get("/").text
    assert text.index("To look at") < text.index("All meters")
    for words in ("Cellar", "12.345 m³", "2 hours ago", "Get this meter&#39;s right key", "no memory", "2 of 3"):
        assert words in text
    # (the line itself, which may be long, is told elsewhere)
    assert "<code>wmbus-service status --json</code> shows the lines" in page.client().get("/receivers").text
    assert [it["text"] for it in json.loads(status(page.house.config, True))["aside"]] == ["A 1 00"]


def test_meters_out_of_service(page: PageHouse) -> None:
    """Nothing of them is missed: the list leaves them out and leads to them, and their pages and files have their readings as before. One
    that is heard all the same is to be looked at."""
    first, second, third = page.addresses
    page.volume(first, NOW - 60, 12_345)
    page.volume(second, NOW - 9 * DAY, 54_321)
    page.write("insert into refusal values (?, 'mac', 'mac', 9, 1, ?)", third, NOW - 60)
    page.write("insert into command (id, address, kind, payload, state, made, changed) values ('c1', ?, 'send', '00', 'expired', 1, ?)",
               second, NOW - 60)

    def looks() -> list[tuple[str, str]]:
        told = page.client().get("/api/overview").json or {}
        return [(it["link"], it["what"]) for it in told["looks"] if it["link"].startswith("/meters/")]
    exported = page.client().get("/readings.csv").text
    assert looks() == [(f"/meters/{third}", "key probably wrong"), (f"/meters/{second}", "silent for 9 days"),
                       (f"/meters/{second}", "command given up")]
    page.write("update meter set retired = ? where address <> ?", NOW - 5 * DAY, first)
    assert looks() == [] and page.client().get("/readings.csv").text == exported
    served, others = page.client().get("/").text, page.client().get("/?retired=1").text
    for text in (served, others):
        assert "1 of 1</b>" in text and (first in text) == (text == served) and (second in text) == (text == others)
    assert '<a href="/?retired=1">2 meters are out of service</a>' in served and "out of service since 2027-01-10" in others
    for query, wanted in (("", [first]), ("?retired=1", [second, third])):
        assert [it["address"] for it in (page.client().get(f"/api/meters{query}").json or {})["meters"]] == wanted
    own = page.client().get(f"/meters/{second}").text
    assert "out of service since 2027-01-10" in own and "54.321 m³" in own and "silent" not in own
    page.volume(second, NOW - 60, 54_322)
    (look,) = [it for it in (page.client().get("/api/overview").json or {})["looks"] if it["link"] == f"/meters/{second}"]
    assert look["to_do"].startswith("It was heard though it is out of service since 2027-01-10")
    assert f"`wmbus-service retire --back {second}`" in look["to_do"]
    assert "heard out of service" in page.client().get(f"/meters/{second}").text


def test_a_meter_whose_counter_was_set_back(page: PageHouse) -> None:
    """It is heard, and each of its messages is refused as stale, with a counter below the last one that was stored: it isn't silent. One that
    repeats the last one, and one of which copies come, aren't so."""
    first, second, third = page.addresses
    page.volume(first, NOW - 3 * DAY, 1)
    page.volume(second, NOW - 3 * DAY, 1)
    page.volume(third, NOW - 120, 1)
    page.write("insert into refusal values (?, 'stale', 'stale 3 900', 9, 1, ?), (?, 'stale', 'stale 900 900', 9, 1, ?),"
               " (?, 'stale', 'stale 899 900', 9, 1, ?)", first, NOW - 60, second, NOW - 60, third, NOW - 60)

    def looks() -> list[tuple[str, str]]:
        told = page.client().get("/api/overview").json or {}
        return [(it["link"], it["what"]) for it in told["looks"] if it["link"].startswith("/meters/")]
    assert looks() == [(f"/meters/{first}", "counter set back"), (f"/meters/{second}", "silent for 3 days")]
    assert "stale 3 900" in page.client().get(f"/meters/{first}").text.partition("<h2>To look at</h2>")[2].partition("<h2>")[0]
    # (a meter that was last heard so long ago is silent, whatever it sent)
    page.write("update refusal set last_made = ? where address = ?", NOW - 2.5 * DAY, first)
    assert looks()[0] == (f"/meters/{first}", "silent for 3 days")


def found(page: PageHouse, **asked: str) -> list[int]:
    """Which of the meters the page of meters has, in its order."""
    text = page.client().get("/meters", query_string=asked).text
    listed = re.findall(r'<th scope="row"><a href="/meters/([0-9a-f]{16})">', text)
    assert listed == [it["address"] for it in (page.client().get("/api/meters", query_string=asked).json or {})["meters"]]
    assert ("No meter is so." in text) == (not listed)
    return [page.addresses.index(it) for it in listed]


@pytest.mark.parametrize("wanted, places", [
    ("12345678", [0]), ("1234 5678", [0]), ("12.34.56.78", [0]), ("ELS 12345678 01 07", [0]), ("els12345678", [0]), ("8 ELS 01 12345678", [0]),
    ("5678", [0, 1]), ("45 678", [0]), ("678", [0, 1]), ("78", []), ("93157856", [0, 1]), ("9315785634120107", [0]), ("5612", []),
    ("küche", [0]), ("KÜCHE, wohnung 7", [0]), ("wohnung", [0, 2]), ("%", []), ("_", []), (" ", [0, 1, 2]), ("\0", [0, 1, 2])])
def test_meters_that_are_looked_for(page: PageHouse, wanted: str, places: list[int]) -> None:
    """By the number on the label as it is printed, its last digits from three on, the first digits of the address, and a part of the name."""
    names = "Küche, Wohnung 7", "", "Wohnung 8"
    for place, (number, name) in enumerate(zip(("78563412", "78562211", "11111111"), names)):
        page.write("update meter set address = ?, name = ? where address = ?", f"9315{number}0107", name, page.addresses[place])
        page.addresses[place] = f"9315{number}0107"
    assert found(page, q=wanted) == places


def test_meters_in_an_order(page: PageHouse) -> None:
    """As they were added, by name, by the number on the label, or those first that were silent for longest; others are told in words."""
    for place, (number, name, ago) in enumerate((("03000044", "b", 60), ("01000044", "", 0), ("02000044", "A", 3 * DAY))):
        page.write("update meter set address = ?, name = ? where address = ?", f"9315{number}0107", name, page.addresses[place])
        page.addresses[place] = f"9315{number}0107"
        if ago:
            page.volume(page.addresses[place], NOW - ago, 1)
    orders = {order: found(page, order=order) for order in ("", "name", "number", "silence")}
    assert orders == {"": [0, 1, 2], "name": [2, 0, 1], "number": [1, 2, 0], "silence": [1, 2, 0]}
    assert found(page, q="a", order="name") == [2]
    answer = page.client().get("/meters?order=size")
    assert answer.status_code == 400 and "An order is one of name, number, silence." in answer.text


def test_meters_out_of_service_that_are_looked_for(page: PageHouse) -> None:
    """One is found by its number and its address, and says so; by its name those in service alone, one of which may be in its place."""
    page.write("update meter set name = 'Gas', retired = ? where address = ?", NOW - DAY, page.addresses[0])
    page.write("update meter set name = 'Gas' where address = ?", page.addresses[1])
    assert found(page) == [1, 2] and found(page, q="gas") == [1]
    assert found(page, q="00000001") == found(page, q=page.addresses[0]) == [0]
    assert "out of service since 2027-01-14" in page.client().get("/meters?q=00000001").text
    (form,) = re.findall('<form method="get" action="/meters".*?</form>', page.client().get("/").text, re.DOTALL)
    assert "A meter by its number, address or name" in form and "<button>Search</button>" in form


def test_nothing_to_look_at(page: PageHouse, monkeypatch: pytest.MonkeyPatch) -> None:
    """Where all is well it says so."""
    monkeypatch.setattr("wmbus_service.page.looks.is_locked", lambda folder: True)
    for address in page.addresses:
        page.volume(address, NOW - 60, 1)
    page.write("insert into line (receiver, text, made) values ('attic', 'A 1 00', ?), ('roof', 'A 1 00', ?)", NOW, NOW)
    assert "Nothing: every meter was heard" in page.client().get("/").text


def test_consumption(page: PageHouse) -> None:
    """By hour, day and month: differences of the register, each in the period in which it was read; a meter that was reset, and a reading
    alone that was misread, count nothing."""
    address = page.addresses[0]
    # the last of November: 1,000 litres; to the 31st of December 300 more; then 20 a day at noon, and the last hours
    page.volume(address, NOW - 46 * DAY, 1000)
    page.volume(address, NOW - 15 * DAY, 1300)
    for day in range(14, 0, -1):
        page.volume(address, NOW - day * DAY + 4 * HOUR, 1300 + 20 * (15 - day))
    page.volume(address, NOW - 2 * HOUR, 1590)
    page.volume(address, NOW - HOUR, 999_999)
    page.volume(address, NOW - 60, 1597)
    told = page.client().get(f"/api/meters/{address}").json
    assert told
    (used,) = told["used"]
    rows = {by: [(row["period"], row["amount"], row["note"]) for row in found] for by, found in used["by"].items()}
    assert rows["month"] == [("2027-01", "0.297", ""), ("2026-12", "0.300", "from 2026-11-30 08:00 UTC")]
    assert rows["day"][:3] == [("2027-01-15", "0.017", ""), ("2027-01-14", "0.020", ""), ("2027-01-13", "0.020", "")]
    assert rows["hour"][:2] == [("2027-01-15 07:00", "0.007", ""), ("2027-01-15 06:00", "0.010", "from 2027-01-14 12:00 UTC")]
    text = page.client().get(f"/meters/{address}").text
    assert "0.297 m³" in text and "2026-12" in text


def test_one_unit(page: PageHouse) -> None:
    """What was used in an hour, a day and a month is told in one unit, that of the greatest."""
    address = page.addresses[0]
    for back, kilowatt_hours in ((20, 1000), (2, 1400), (1, 1420), (0, 1425)):
        page.read(address, NOW - back * DAY - 60, ("energy", "Wh", 3, str(kilowatt_hours)))
    told = page.client().get(f"/api/meters/{address}").json
    assert told
    assert {by: rows[0]["text"] for by, rows in told["used"][0]["by"].items()} == {"hour": "5 kWh", "day": "5 kWh", "month": "425 kWh"}


def test_memory_of_moments() -> None:
    """However long the page runs, and whatever it is asked for, what it remembers of moments takes no more than a small machine has."""
    hour_of.cache_clear()
    tracemalloc.start()
    for moment in range(0, 60 * 200_000, 60):
        hour_of(moment)
    taken = tracemalloc.get_traced_memory()[0]
    tracemalloc.stop()
    hour_of.cache_clear()
    assert taken < 32 << 20


def test_hours_of_other_zones(page: PageHouse, monkeypatch: pytest.MonkeyPatch) -> None:
    """What was used in an hour is the difference of the last readings of each hour, also where hours begin at the half ones of UTC."""
    zoned(monkeypatch, "IST-5:30")
    address = page.addresses[0]
    # NOW is 13:30 there: readings at ten minutes to 11, at 20 past 11, at ten minutes to 12, at 20 past 12, and at ten minutes to 13
    for minutes, litres in ((160, 100), (130, 107), (100, 120), (70, 126), (40, 150)):
        page.volume(address, NOW - 60 * minutes, litres)
    told = page.client().get(f"/api/meters/{address}").json
    assert told
    assert [(row["period"], row["amount"]) for row in told["used"][0]["by"]["hour"]] == [
        ("2027-01-15 12:00", "0.030"), ("2027-01-15 11:00", "0.020")]


def test_replaced_meter(page: PageHouse) -> None:
    """A register that falls is said to be reset or replaced, and what it fell by isn't counted."""
    address = page.addresses[0]
    for back, litres in ((5, 9000), (4, 9100), (3, 5), (2, 25), (1, 30)):
        page.volume(address, NOW - back * DAY, litres)
    told = page.client().get(f"/api/meters/{address}").json
    assert told
    assert [(row["period"], row["amount"], row["note"]) for row in told["used"][0]["by"]["day"]] == [
        ("2027-01-14", "0.005", ""), ("2027-01-13", "0.020", ""), ("2027-01-12", "0", "reset or replaced"), ("2027-01-11", "0.100", "")]


def test_what_commands_cost(page: PageHouse) -> None:
    """What the overview and status say of commands and downlinks costs no more the more of them are done: these stay for ever."""
    database, steps = page.house.database, list[None]()
    with store.transaction(database):
        for number in range(20_000):
            database.execute("insert into command (id, address, kind, payload, state, made, changed)"
                             " values (?, ?, 'send', '', 'confirmed', 0, ?)", (f"a{number}", page.addresses[0], NOW))
            database.execute("insert into outbox (receiver, address, down, frame, command, made, sent) values ('', ?, ?, '', 1, ?, 1)",
                             (page.addresses[0], number, NOW))
    database.set_progress_handler(lambda: steps.append(None), 100)
    assert len(looks.all_looks(page.house.config, database, [], [], NOW)) == 1 and not figures(page.house.config, database)["commands"]
    database.set_progress_handler(None, 0)
    assert len(steps) * 100 < 20_000


def many_meters(page: PageHouse, count: int) -> None:
    """So many more meters with a reading each, but for each tenth."""
    with store.transaction(page.house.database):
        for number in range(count):
            address = f"9315{number:08d}0107"
            page.house.database.execute("insert into meter (address, place, name, block) values (?, ?, ?, '')",
                                        (address, 100 + number, f"flat {number}"))
            if number % 10:
                page.house.database.execute("insert into reading (id, line, address, counter, moment, more, made)"
                                            " values (?, ?, ?, 1, ?, 0, ?)", (number, number, address, NOW - 60, NOW - 60))
                page.house.database.execute("insert into record values (?, 0, 'volume', 'm3', -3, '7', 'instantaneous', 0, 0, 0, '', '')",
                                            (number,))


def test_many_meters(page: PageHouse, monkeypatch: pytest.MonkeyPatch) -> None:
    """The meters of a great house stand on several pages, each as cheap as one of few meters; all of them are found, counted, looked at."""
    many_meters(page, 3000)
    statements: list[str] = []
    opened = HouseDoor.opened

    def counted(door: HouseDoor) -> Any:
        database = opened(door)
        assert isinstance(database, sqlite3.Connection)
        database.set_trace_callback(statements.append)
        return database
    monkeypatch.setattr(HouseDoor, "opened", counted)
    client, titles = page.client(), []
    for number in range(1, 18):
        text = client.get(f"/?page={number}").text
        titles += re.findall(r'<th scope="row"><a href="/meters/([0-9a-f]{16})"', text)
        assert len(text) < 300_000
        assert (">further meters</a>" in text) is (number < 16) and ("Earlier meters" in text) is (1 < number < 17)
    assert titles == page.house.all("select address from meter order by place")
    assert "There are no further meters" in text and "2700 of 3003" in text and "And 206 more" in text
    assert len(statements) < 17 * 200 * 6
    # (one of ten and those of the house weren't heard, nor were two receivers, and the service doesn't run)
    told = client.get("/api/overview?page=16").json
    assert told and (len(told["meters"]), told["counts"]["meters"], told["looks_count"]) == (3, 3003, 306)
    by_silence = client.get("/meters?q=flat&order=silence&page=2").text
    assert by_silence.count("not heard") == 100 and "q=flat" in by_silence and "order=silence" in by_silence
    for wrong in ("0", "-1", "x", "1" * 9, "٣"):
        assert client.get(f"/?page={wrong}").status_code == 400


def test_months_of_days_alone(page: PageHouse) -> None:
    """Months whose readings are gone are counted by the last values of their days."""
    address = page.addresses[0]
    for day, litres in (("2026-09-30", 100), ("2026-10-15", 150), ("2026-10-31", 190), ("2026-11-30", 260)):
        page.day(address, day, str(litres))
    page.volume(address, NOW - 60, 400)
    told = page.client().get(f"/api/meters/{address}").json
    assert told
    assert [(row["period"], row["amount"]) for row in told["used"][0]["by"]["month"]] == [
        ("2027-01", "0.140"), ("2026-11", "0.070"), ("2026-10", "0.090")]


@pytest.mark.parametrize("zone", [BERLIN, "NST3:30", "NZST-12NZDT,M9.5.0,M4.1.0/3"])
def test_months_of_days_in_zones(page: PageHouse, monkeypatch: pytest.MonkeyPatch, zone: str) -> None:
    """A day that is kept counts in its month, wherever the page is."""
    zoned(monkeypatch, zone)
    test_months_of_days_alone(page)


def test_first_month_when_summer_time_began(page: PageHouse, monkeypatch: pytest.MonkeyPatch) -> None:
    """The first month that is shown is whole, also in the first hour of a day that has summer time where that month's first day has none."""
    zoned(monkeypatch, BERLIN)
    # 00:30 of the 30th of March 2027 in Berlin; ten litres a day at noon in UTC for 410 days up to the day before
    now = 1806359400
    page.app.config.update(CLOCK=lambda: now)
    for back in range(410):
        page.volume(page.addresses[0], now - 37_800 - back * DAY, 10_000 - 10 * back)
    told = page.client().get(f"/api/meters/{page.addresses[0]}").json
    assert told
    months = told["used"][0]["by"]["month"]
    assert [(row["period"], row["amount"]) for row in (months[0], months[-1])] == [("2027-03", "0.290"), ("2026-03", "0.310")]


def test_days_at_any_hour(page: PageHouse) -> None:
    """The same days are shown in the evening as in the morning, also where nothing was heard on one of them."""
    for back in range(40):
        if back != 3:
            page.volume(page.addresses[0], NOW - HOUR - back * DAY, 10_000 - 10 * back)
    for hours in (0, 10):
        page.app.config.update(CLOCK=lambda: NOW + hours * HOUR)
        told = page.client().get(f"/api/meters/{page.addresses[0]}").json
        assert told
        days = told["used"][0]["by"]["day"]
        assert (len(days), days[-1]["period"]) == (30, "2026-12-16")


def test_months_of_readings_that_went(page: PageHouse) -> None:
    """Months are counted alike once their readings are gone; of a register that a reading has twice the first value counts, and what flowed
    backward is another one, sent in front of it or alone."""
    address, backward = page.addresses[0], ("volume", "m3", -3, "7", "instantaneous", 0, "3c")
    for back, litres in ((80, 1000), (50, 1600), (46, 1650), (20, 2100), (1, 2400)):
        page.read(address, NOW - back * DAY, backward, ("volume", "m3", -3, str(litres)), ("volume", "m3", -3, "7"))
        page.read(address, NOW - back * DAY + 60, backward)

    def months() -> list[tuple[str, str]]:
        told = page.client().get(f"/api/meters/{address}").json
        assert told
        return [(row["period"], row["amount"]) for row in told["used"][0]["by"]["month"]]
    wanted = [("2027-01", "0.300"), ("2026-12", "0.450"), ("2026-11", "0.650")]
    assert months() == wanted
    while retention.let_go(page.house.database, Keep(readings=10), NOW):
        pass
    assert page.house.all("select count(*) from reading") == [2]
    assert months() == wanted


def test_registers_and_curves(page: PageHouse) -> None:
    """Each register has its last value, also one that the last message didn't bring; a curve of two readings or more."""
    address = page.addresses[0]
    page.read(address, NOW - 2 * HOUR, ("energy", "Wh", 3, "120"), ("energy", "Wh", 3, "90", "instantaneous", 1),
              ("flowtemperature", "C", -1, "713"), ("date", "-", 0, "2026-12-31"))
    page.read(address, NOW - HOUR, ("energy", "Wh", 3, "123"))
    told = page.client().get(f"/api/meters/{address}?span=day").json
    assert told
    assert [(it["title"], it["of_what"], it["text"]) for it in told["values"]] == [
        ("energy", "", "123 kWh"), ("flow temperature", "", "71.3 °C"), ("date", "", "2026-12-31"), ("energy", "storage 1", "90 kWh")]
    assert [(curve["name"], curve["least"], curve["most"], curve["count"], curve["line"]) for curve in told["curves"]] == [
        ("energy", "120 kWh", "123 kWh", 2, "0,110 600,10")]
    text = page.client().get(f"/meters/{address}?span=day").text
    assert 'role="img"' in text and "storage 1" in text


def test_what_says_most(page: PageHouse) -> None:
    """Beside a meter stands what says most of it, also where telegrams of two kinds take turns, as long as one of the last five has it."""
    address = page.addresses[0]
    page.read(address, NOW - HOUR, ("volume", "m3", -3, "1000"), ("energy", "Wh", 3, "120"))
    page.read(address, NOW - HOUR + 1, ("flowtemperature", "C", -1, "713"), ("energy", "Wh", 3, "123"))
    for number, wanted in enumerate(["123 kWh"] * 4 + ["20 °C"], 2):
        page.read(address, NOW - HOUR + number, ("flowtemperature", "C", 0, "20"))
        told = page.client().get("/api/meters").json or {}
        assert (told["meters"][0]["main"]["text"], told["meters"][0]["counter"]) == (wanted, number + 1)


def test_how_much_stands_there(page: PageHouse) -> None:
    """Of many registers so many are drawn and counted as docs/PAGE.md says; what none of the last 200 readings has stands in the CSV."""
    address = page.addresses[0]
    kinds = (("energy", "Wh", 3), ("volume", "m3", -3), ("hca", "-", 0), ("mass", "kg", 0), ("power", "W", 0), ("flow", "m3/h", -3))
    page.read(address, NOW - 3 * DAY, ("pressure", "bar", 0, "1"))
    for first, last, registers in ((0, 199, 8), (199, 200, 7)):
        for number in range(first, last):
            page.read(address, NOW - DAY + 60 * number, *((*kind, str(number)) for kind in kinds),
                      ("volume", "m3", -3, str(number), "instantaneous", 0, "3c"))
        told = page.client().get(f"/api/meters/{address}").json or {}
        assert (len(told["used"]), len(told["curves"]), len(told["values"])) == (4, 6, registers)
    assert ",pressure," in page.client().get(f"/meters/{address}/readings.csv").text


def test_registers_with_modifiers(page: PageHouse) -> None:
    """What modifiers make of a quantity is another one (docs/FORMATS.md): a volume, and what flowed backward, sent in front of it or alone."""
    address = page.addresses[0]
    for back, litres, backward in ((3 * DAY, 1000, 7), (2 * DAY, 1300, 7), (DAY, None, 9), (HOUR, 1700, 9), (60, None, 11)):
        volume = [("volume", "m3", -3, str(litres))] if litres else []
        page.read(address, NOW - back, ("volume", "m3", -3, str(backward), "instantaneous", 0, "3c"), *volume)
    told = page.client().get(f"/api/meters/{address}?span=week").json
    assert told
    assert [(it["title"], it["of_what"], it["modifiers"], it["text"]) for it in told["values"]] == [
        ("volume", "", "", "1.700 m³"), ("volume", "modifiers 3c", "3c", "0.011 m³")]
    assert told["meter"]["main"]["text"] == "1.700 m³"
    assert [[(row["period"], row["amount"]) for row in it["by"]["day"]] for it in told["used"]] == [
        [("2027-01-15", "0.400"), ("2027-01-13", "0.300")],
        [("2027-01-15", "0.002"), ("2027-01-14", "0.002"), ("2027-01-13", "0.000")]]
    assert [(it["name"], it["least"], it["most"]) for it in told["curves"]] == [
        ("volume", "1.000 m³", "1.700 m³"), ("volume, modifiers 3c", "0.007 m³", "0.011 m³")]


def test_refusals_and_commands_in_words(page: PageHouse) -> None:
    """A refusal says what it means and what to do, a command its state; a second key isn't shown."""
    address = page.addresses[0]
    page.write("insert into refusal values (?, 'mode', 'mode 5 7', 3, 1, ?)", address, NOW - 60)
    for ident, kind, payload, state in (("a", "send", "0102", "queued"), ("b", "rekey", "5e" * 16, "waiting"),
                                        ("c", "send", "03", "expired")):
        page.write("insert into command (id, address, kind, payload, state, made, changed) values (?, ?, ?, ?, ?, 1, ?)",
                   ident, address, kind, payload, state, NOW)
    text = page.client().get(f"/meters/{address}").text
    for words in ("3 times", "sends in another security mode than the roster says", "What to do: write the mode", "mode 5 7",
                  "waits until the meter listens", "waits for the next session", "given up", "0102"):
        assert words in text, words
    assert "5e5e" not in text and "5e5e" not in page.client().get(f"/api/meters/{address}").text


def test_clocks(page: PageHouse) -> None:
    """A moment that is no time, and one of a clock that is ahead, isn't when the reading was heard."""
    first, second, third = page.addresses
    page.read(first, 100, ("volume", "m3", -3, "1"), made=NOW - 2 * HOUR)
    page.read(second, (1 << 63) - 1, ("volume", "m3", -3, "1"), made=NOW - 3 * HOUR)
    page.read(third, NOW + 40 * DAY, ("volume", "m3", -3, "7"), made=NOW - 5 * HOUR)
    page.volume(third, NOW - 4 * HOUR, 8)
    told = page.client().get("/api/meters").json
    assert told
    assert [(meter["heard"], meter["main"]["text"]) for meter in told["meters"]] == [
        (NOW - 2 * HOUR, "0.001 m³"), (NOW - 3 * HOUR, "0.001 m³"), (NOW - 4 * HOUR, "0.008 m³")]


def test_a_clock_that_begins_anew(page: PageHouse) -> None:
    """Where a receiver counts seconds from its start, the last reading is the one that was written last, not that of its longest run; also
    where another one with a clock heard the meter before."""
    first, second, third = page.addresses
    page.read(first, 8_000_000, ("volume", "m3", -3, "7"), made=NOW - 90 * DAY)
    page.volume(second, NOW - 40 * DAY, 7)
    page.read(third, 8_000_000, ("volume", "m3", -3, "7"), made=NOW - 40 * DAY)
    page.volume(third, NOW - 60, 9)
    for address in (first, second):
        page.read(address, 50, ("volume", "m3", -3, "8"), made=NOW - 120)
        page.read(address, 110, ("volume", "m3", -3, "9"), made=NOW - 60)
    told = page.client().get("/api/overview").json
    assert told
    assert [(meter["heard"], meter["main"]["text"]) for meter in told["meters"]] == [(NOW - 60, "0.009 m³")] * 3
    assert not [look for look in told["looks"] if look["link"].startswith("/meters/")]
    for address in page.addresses:
        values = page.client().get(f"/api/meters/{address}").json
        assert values and [it["text"] for it in values["values"]] == ["0.009 m³"]


def test_receivers(page: PageHouse) -> None:
    """Lines a minute, since when there are none, and the share of whole frames."""
    meter = page.house.meters[0]
    whole = frames.format_a(messages.whole(meter.key, meter.address, 1, b"\x2f\x2f", 0x44, None)).hex()
    for number in range(90):
        text = f"A 1 {whole}" if number % 3 else f"A 1 {whole[:-2]}00"
        page.write("insert into line (receiver, text, made) values ('attic', ?, ?)", text, NOW - number)
    page.write("insert into line (receiver, text, made) values ('old', 'A 1 00', ?)", NOW - 2 * DAY)
    told = page.client().get("/api/receivers").json
    assert told
    shown = {it["name"]: (it["per_minute"], it["heard"], it["framed"], [look["what"] for look in it["looks"]]) for it in told["receivers"]}
    assert shown == {"attic": (1.5, NOW, 2 / 3, []), "old": (0.0, NOW - 2 * DAY, 0.0, []), "roof": (0.0, None, None, ["heard nothing"])}
    text = page.client().get("/receivers").text
    assert "67 %" in text and "heard nothing" in text and "not in the configuration" in text


def test_receivers_and_a_wrong_clock(page: PageHouse) -> None:
    """A receiver that fell silent is told of also where lines of it were written while the clock was a month ahead."""
    query = "insert into line (receiver, text, made) values (?, 'A 1 00', ?)"
    for name, made in [("attic", NOW - 3 * HOUR), *[("attic", NOW + 30 * DAY)] * 50, ("attic", NOW - 2 * HOUR)]:
        page.write(query, name, made)
    for number in range(60):
        page.write(query, "roof", NOW - number)
    told = (page.client().get("/api/receivers").json or {})["receivers"]
    assert [(it["name"], it["per_minute"], it["heard"], [look["what"] for look in it["looks"]]) for it in told] == [
        ("attic", 0.0, NOW - 2 * HOUR, ["silent for 2 hours"]), ("roof", 1.0, NOW, [])]


def test_a_receiver_whose_lines_are_gone(page: PageHouse) -> None:
    """One that heard something once, and none of whose lines is kept any more, is silent; it isn't said to have heard nothing ever."""
    page.write("update meter set receiver = 'roof' where address = ?", page.addresses[0])
    told = (page.client().get("/api/receivers").json or {})["receivers"]
    assert [(it["name"], [look["what"] for look in it["looks"]]) for it in told] == [
        ("attic", ["heard nothing"]), ("roof", ["silent for long"])]
    assert page.client().get("/receivers").text.count("never") == 1


def test_frames_of_both_formats() -> None:
    """What is whole, in formats A and B of all lengths; one bit that is other isn't."""
    for length in (*range(11, 60), 126, 129, 250):
        telegram = bytes([length - 1]) + bytes(range(1, length))
        for kind, frame in (("A", frames.format_a(telegram)), ("B", frames.format_b(telegram))):
            assert radios.is_framed(f"{kind} 1 {frame.hex()}"), (kind, length)
            assert not radios.is_framed(f"{kind} 1 {frame[:-1].hex()}")
            broken = bytes([*frame[:-4], frame[-4] ^ 1, *frame[-3:]])
            assert not radios.is_framed(f"{kind} 1 {broken.hex()}")
    assert not any(map(radios.is_framed, ("", "A", "A 1 zz", "A 1", "B 1 00", "T 1 2 3")))


def test_strangers(page: PageHouse) -> None:
    """Strangers have maker, label and device type, those that were heard most first; a known one is none."""
    page.write("insert into stranger values ('4304123040010404', 3, 'attic', ?), ('2d2c785634121b16', 70, 'roof', ?), (?, 9, 'roof', ?)",
               NOW - 60, NOW - 120, page.addresses[0], NOW)
    told = page.client().get("/api/strangers").json
    assert told
    assert [(it["label"], it["maker"], it["times"]) for it in told["strangers"]] == [
        ("KAM 12345678 1b 16", "KAM", 70), ("ABC 01403012 04 04", "ABC", 3)]
    text = page.client().get("/strangers").text
    assert "KAM 12345678 1b 16" in text and "cold water" in text and "wmbus-service add 2d2c785634121b16" in text
    assert page.addresses[0] not in text


def test_csv(page: PageHouse) -> None:
    """Readings of a span, numbers exactly as the database has them."""
    first, second, _ = page.addresses
    page.write("update meter set name = 'a, \"b\"' where address = ?", first)
    for back, litres in ((3, 10), (2, 20), (1, 30)):
        page.volume(first, NOW - back * DAY, litres)
    page.volume(second, NOW - DAY, 5)

    def rows(path: str) -> list[list[str]]:
        given = page.client().get(path)
        assert given.status_code == 200 and given.mimetype == "text/csv"
        return list(csv.reader(io.StringIO(given.text)))
    head, *found = rows(f"/meters/{first}/readings.csv")
    assert head == ["moment", "address", "name", "counter", "quantity", "value", "unit", "function", "storage", "tariff", "subunit",
                    "receiver", "modifiers"]
    assert [row[2] for row in found] == ['a, "b"'] * 3 and [row[5] for row in found] == ["0.010", "0.020", "0.030"]
    assert [row[5] for row in rows(f"/meters/{first}/readings.csv?from=2027-01-13&to=2027-01-13")[1:]] == ["0.020"]
    assert [row[5] for row in rows(f"/meters/{first}/readings.csv?from={int(NOW) - 2 * DAY}")[1:]] == ["0.020", "0.030"]
    assert [row[5] for row in rows("/readings.csv?from=2027-01-14")[1:]] == ["0.030", "0.005"]
    assert page.client().get(f"/meters/{first}/readings.csv?from=yesterday").status_code == 400


def test_names_that_a_spreadsheet_would_reckon(page: PageHouse) -> None:
    """A name that a spreadsheet would take for a formula (OWASP, "CSV Injection") has the sign in front by which it is a text there; other
    names, numbers among them, are as they were typed, and so are values, and all of it in JSON."""
    address = page.addresses[0]
    page.read(address, NOW - 60, ("volume", "m3", -3, "-5"))
    for name, wanted in (('=HYPERLINK("http://a.example", "b")', None), ("@SUM(A1)", None), ("+cmd|' /C calc'!A0", None), ("-2+3", None),
                         ("-", None), ("\t=1", None), ("-12,5", "-12,5"), ("+49 170", "+49 170"), ("-7", "-7"), ("", ""),
                         ("Flat 2 = left", "Flat 2 = left")):
        page.write("update meter set name = ? where address = ?", name, address)
        exported = "".join(exporting.as_csv(page.house.database, address, 0))
        for text in (page.client().get(f"/meters/{address}/readings.csv").text, page.client().get("/readings.csv").text, exported):
            (row,) = csv.DictReader(io.StringIO(text))
            assert (row["name"], row["value"]) == (f"'{name}" if wanted is None else wanted, "-0.005")
        assert json.loads(next(iter(exporting.as_json(page.house.database, address, 0))))["name"] == name


def test_a_csv_that_nobody_reads_on(page: PageHouse, monkeypatch: pytest.MonkeyPatch) -> None:
    """A download that stands still, as that of a machine that sleeps, holds nothing of the database: what is written meanwhile goes from its
    log into its file, which would grow until the disk is full. Read on, it has each value once and in order, also readings of one moment."""
    address, other = page.addresses[:2]
    moments = [NOW - 50, NOW - 40, NOW - 40, NOW - 40, NOW - 30, NOW - 20, NOW - 10]
    for place, moment in enumerate(moments):
        page.read(address, moment, *[("volume", "m3", -3, str(place))] * (place != 1), ("power", "W", 0, str(place)))
    page.read(address, NOW - 5)
    with closing(reading.open_reading(page.house.config.database)) as opened:
        for piece in (200, 1, 2, 3):
            monkeypatch.setattr(views, "PIECE", piece, raising=False)
            rows = views.readings_csv([address], int(moments[0]), partial(views.piece_of_readings, opened, int(NOW)))
            told = [next(rows) for _ in range(3)]
            page.volume(other, NOW - piece, 1)
            _, logged, done = page.house.database.execute("pragma wal_checkpoint(passive)").fetchone()
            assert done == logged
            found = [tuple(row.split(",")[place] for place in (0, 4, 5)) for row in (told + list(rows))[1:]]
            assert found == [(str(int(moment)), quantity, f"0.00{place}" if quantity == "volume" else str(place))
                             for place, moment in enumerate(moments) for quantity in ["volume"] * (place != 1) + ["power"]]


def test_csv_of_what_flowed_backward(page: PageHouse) -> None:
    """What flowed backward isn't taken for the volume by who reads the CSV of the page, or of `wmbus-service export`."""
    address = page.addresses[0]
    page.read(address, NOW - 60, ("volume", "m3", -3, "5000"), ("volume", "m3", -3, "7", "instantaneous", 0, "3c"))
    exported = "".join(exporting.as_csv(page.house.database, address, 0))
    for text in (page.client().get(f"/meters/{address}/readings.csv").text, page.client().get("/readings.csv").text, exported):
        rows = list(csv.DictReader(io.StringIO(text)))
        assert [(row["quantity"], row["value"], row["modifiers"]) for row in rows] == [("volume", "5.000", ""), ("volume", "0.007", "3c")]


def test_csv_of_days_of_other_lengths(page: PageHouse, monkeypatch: pytest.MonkeyPatch) -> None:
    """A day of a span is whole, and none of the next one's, on days on which the clocks are set."""
    zoned(monkeypatch, BERLIN)
    address = page.addresses[0]
    # 23:30 in Berlin on the 28th of March and 00:30 on the 29th, and 23:30 on the 25th of October and 00:30 on the 26th, of 2026
    for litres, moment in enumerate((1774737000, 1774740600, 1792967400, 1792971000)):
        page.volume(address, moment, litres)
    page.volume(address, 1774821600 + 1800, 9)

    def values(day: str) -> list[str]:
        given = page.client().get(f"/meters/{address}/readings.csv?from={day}&to={day}").text
        return [row[5] for row in csv.reader(io.StringIO(given))][1:]
    assert (values("2026-03-29"), values("2026-10-25"), values("2026-10-26")) == (["0.001"], ["0.002"], ["0.003"])
    zoned(monkeypatch, BEIRUT)
    # 23:30 in Beirut on the 24th of October, the same an hour later, and 00:30 on the 25th, of 2026
    for litres, moment in ((11, 1792873800), (12, 1792877400), (13, 1792881000)):
        page.volume(address, moment, litres)
    assert (values("2026-10-24"), values("2026-10-25")[0]) == (["0.011", "0.012"], "0.013")


def test_commands_given_up_among_many(page: PageHouse) -> None:
    """A command that was given up is told of also where many others came after it, as where each meter of a building gets one."""
    first, second, _ = page.addresses
    query = "insert into command (id, address, kind, payload, state, made, changed) values (?, ?, 'send', '00', ?, ?, ?)"
    page.write(query, "old", first, "expired", NOW - 30 * DAY, NOW - 20 * DAY)
    page.write(query, "valve", first, "expired", NOW - 2 * DAY, NOW - DAY)
    for number in range(60):
        page.write(query, f"c{number}", second, "confirmed", NOW - DAY, NOW - DAY + number)
    told = [look["to_do"] for look in (page.client().get("/api/overview").json or {})["looks"] if look["what"] == "command given up"]
    assert len(told) == 1 and told[0].startswith("Command valve: ")


def test_commands_of_a_meter_among_many(page: PageHouse) -> None:
    """A command that waits for its meter stands on the page, and can be cancelled there, also where many came after it."""
    address = page.addresses[0]
    for number in range(70):
        page.write("insert into command (id, address, kind, payload, state, made, changed) values (?, ?, 'send', '00', ?, ?, ?)",
                   f"c{number}", address, "queued" if number == 3 else "confirmed", NOW - DAY + number, NOW - DAY + number)
    client, _ = entered(page.page(TOKEN))
    text = client.get(f"/meters/{address}").text
    assert "Cancel c3" in text and "And 20 earlier ones." in text
    told = client.get(f"/api/meters/{address}").json or {}
    assert ([it["id"] for it in told["commands"]], told["commands_count"]) == (["c3", *(f"c{number}" for number in range(69, 20, -1))], 70)


def test_strangers_among_many(page: PageHouse) -> None:
    """A stranger that is heard often now is told of though others were heard more often before, and none is left out without a word."""
    query = "insert into stranger values (?, ?, 'attic', ?)"
    for number in range(1250):
        page.write(query, f"4304{number:08d}0407", 5000, NOW - 30 * DAY)
    page.write(query, "2d2c785634121b16", 50, NOW - 60)
    looks = (page.client().get("/api/overview").json or {})["looks"]
    assert [look["link"] for look in looks if look["what"] == "heard 50 times"] == ["/strangers#2d2c785634121b16"]
    text = page.client().get("/strangers").text
    assert "And 1051 more" in text and 'id="2d2c785634121b16"' in text
    told = (page.client().get("/api/strangers").json or {})["strangers"]
    assert len(told) == 1251 and told[0]["address"] == "2d2c785634121b16"


def test_all_digits(page: PageHouse) -> None:
    """A number has all its digits in the page's CSV, in what `wmbus-service export` gives, and in messages; an integer has up to 37."""
    address, digits = page.addresses[0], "123456789012345678901234567890123456"
    page.read(address, NOW - 60, ("energy", "Wh", -3, digits))
    assert f",{digits[:-3]}.{digits[-3:]},Wh," in page.client().get(f"/meters/{address}/readings.csv").text
    (row,) = exporting.values(page.house.database, address, 0)
    assert row["value"] == f"{digits[:-3]}.{digits[-3:]}"
    record = {"quantity": "energy", "unit": "Wh", "value": digits, "exponent": -3}
    assert sensors.shown(record, sensors.KINDS["energy"]["Wh"]) == f"{digits[:-6]}.{digits[-6:]}"


def test_json_is_the_page(page: PageHouse) -> None:
    """What stands in the JSON of a page stands on the page, meter for meter, and in that order."""
    first, second, third = page.addresses
    page.write("update meter set name = 'Cellar' where address = ?", first)
    for back in range(4, 0, -1):
        page.volume(first, NOW - back * DAY, 2000 - 30 * back)
    page.read(second, NOW - 5 * DAY, ("energy", "Wh", 3, "12345"), ("flowtemperature", "C", -1, "713"))
    page.write("insert into refusal values (?, 'mac', 'mac', 9, 1, ?), (?, 'stale', 'stale 4 9', 2, 1, ?)", third, NOW - 60, first, NOW)
    page.write("insert into stranger values ('2d2c785634121b16', 50, 'attic', ?), ('4304123040010404', 3, 'roof', ?)", NOW - 60, NOW)
    page.write("insert into line (receiver, text, made) values ('attic', 'A 1 00', ?)", NOW - 60)
    page.write("insert into command (id, address, kind, payload, state, made, changed) values ('c1', ?, 'send', '00', 'expired', 1, ?)",
               first, NOW - 60)
    parts = {"": ("looks.what looks.title looks.to_do", "meters.title meters.about"),
             "/receivers": ("receivers.name receivers.per_minute",), "/strangers": ("strangers.label strangers.type strangers.address",),
             f"/meters/{first}": ("values.title values.text", "commands.id commands.words", "curves.most curves.least curves.count")}
    told = {path: page.client().get(f"/api{path or '/overview'}").json or {} for path in parts}
    for path, lists in parts.items():
        given = re.sub(r"\s+", " ", html.unescape(re.sub("<[^>]*>", " ", page.client().get(path or "/").text)))
        for fields in lists:
            name, wanted = fields.split(".")[0], [field.split(".")[1] for field in fields.split()]
            assert told[path][name]
            place = 0
            for row in told[path][name]:
                for field in wanted:
                    place = given.find(str(row[field]), place)
                    assert place >= 0, (path, name, field, row[field])
    rows = told[f"/meters/{first}"]["used"][0]["by"]["day"]
    assert rows and all(f"{row['period']} {row['text']}" in given or row["note"] for row in rows)


def test_where_viewers_find_it(page: PageHouse) -> None:
    """The overview names the database so that a viewer of SQLite opens it, for reading alone."""
    page.volume(page.addresses[0], NOW - 60, 7)
    place = (page.client().get("/api/overview").json or {})["sqlite"]
    assert place in html.unescape(page.client().get("/").text)
    with closing(sqlite3.connect(place, uri=True)) as viewer:
        assert viewer.execute("select address, value from reading join record on reading = id").fetchall() == [(page.addresses[0], "7")]
        with pytest.raises(sqlite3.OperationalError, match="readonly"):
            viewer.execute("delete from reading")


def test_no_key_can_be_read(page: PageHouse) -> None:
    """What the page opens doesn't give out keys, whatever is asked."""
    database = reading.open_reading(page.house.config.database)
    for query in ("select block from meter", "select * from meter", "select address from meter where block like '%0%'",
                  "select frame from outbox"):
        with pytest.raises(Exception, match="prohibited"):
            database.execute(query)
    with pytest.raises(Exception, match="readonly"):
        database.execute("delete from meter")
    # a new second key stands among the lines, in its command while that waits, and in a line that was set aside
    line = f"K {page.addresses[0]} {'5e' * 16}"
    page.write("insert into line (text, made) values (?, 1), ('A 1 00', 1)", line)
    page.write("insert into aside (receiver, text, said, made) values ('attic', ?, 'status 10', 1)", line)
    page.write("insert into command (id, address, kind, payload, made, changed) values ('b', ?, 'rekey', ?, 1, 1)", page.addresses[0], "5e" * 16)
    for table in ("line", "command", "aside"):
        for query in (f"select * from {table}", f"select * from main.{table}"):
            told = ""
            with suppress(sqlite3.DatabaseError):
                told = str(database.execute(query).fetchall())
            assert "5e5e" not in told, query
    assert database.execute("select text from line where text <> ''").fetchall() == [("A 1 00",)]
    database.close()


def test_no_code_of_a_meter_is_shown(page: PageHouse, tmp_path: Path) -> None:
    """Among the quantities that a session calls unknown are access codes, passwords and keys: what was sent of these stands on no page."""
    address = page.addresses[0]
    # the bytes 00ff were sent of each
    page.read(address, NOW - 60, ("unknown", "-", 0, "raw"), ("unknown", "-", 0, "raw", "maximum", 1))
    file = tmp_path / "page.html"
    run([f"{TOP}/bin/report_page", "--now", str(int(NOW)), str(page.house.config.database), str(file)])
    shown = [page.client().get(path).text for path in (f"/meters/{address}", f"/api/meters/{address}")]
    for text in (*shown, file.read_text()):
        assert "unknown" in text and "00ff" not in text


def test_texts_of_a_meter(page: PageHouse, tmp_path: Path) -> None:
    """Of a text, which the service stores as its bytes, what was sent stands on the page, and not the word for it alone."""
    page.read(page.addresses[0], NOW - 60, ("fabrication", "-", 0, "text"))
    file = tmp_path / "page.html"
    run([f"{TOP}/bin/report_page", "--now", str(int(NOW)), str(page.house.config.database), str(file)])
    for text in (page.client().get(f"/meters/{page.addresses[0]}").text, file.read_text()):
        assert "text 00ff" in text and "“text”" not in text


def test_page_as_a_file(page: PageHouse, tmp_path: Path) -> None:
    """bin/report_page makes of the service's database a file that says what the served page does."""
    first, second, third = page.addresses
    page.write("update meter set name = 'Cellar' where address = ?", first)
    for back in range(5, 0, -1):
        page.volume(first, NOW - back * DAY, 100_000 - 250 * back)
    page.read(second, NOW - 9 * DAY, ("energy", "Wh", 3, "1200"))
    page.write("insert into refusal values (?, 'mac', 'mac', 7, 1, ?), (?, 'stale', 'stale 4 9', 2, 1, ?)", third, NOW, first, NOW)
    page.write("insert into command (id, address, kind, payload, state, tries, made, changed)"
               " values ('a1', ?, 'send', '01', 'sent', 2, 1, 1)", first)
    page.write("insert into stranger values ('2d2c785634121b16', 99, 'attic', ?)", NOW)
    page.write("insert into source values ('attic', 'attic.1.1.lines', 10)")
    page.write("insert into line (receiver, text, made) values ('attic', 'A 1 00', ?)", NOW)
    file = tmp_path / "page.html"
    words = [f"{TOP}/bin/report_page", "--now", str(int(NOW)), str(page.house.config.database), str(file)]
    done = run(words, check=False)
    assert (done.returncode, done.stderr) == (0, "")
    told = re.sub(r"\s+", " ", re.sub("<[^>]*>", " ", file.read_text()))
    for wanted in ("99.750 m³", "1200 kWh", "silent for 9 days", "key probably wrong", "Cellar", "Command a1: sent 2 times", "attic",
                   "As of 2027-01-15", "KAM 12345678 1b 16"):
        assert wanted in told, wanted
    assert 'aria-label="volume: 5 values from 98.750 m³ to 99.750 m³' in file.read_text()
    served = re.sub(r"\s+", " ", re.sub("<[^>]*>", " ", page.client().get(f"/meters/{first}?span=month").text))
    # what was used in each of the days with a reading before it
    for day in ("2027-01-14", "2027-01-13", "2027-01-12"):
        assert f"{day} 0.250 m³" in told and f"{day} 0.250 m³" in served
    assert "Reports" not in told and page.house.all("select count(*) from sqlite_master where type = 'view'") == [0]
    refused = run([f"{TOP}/bin/keep_readings", words[3], file], check=False, env=os.environ | {"READING_LIST": "/bin/true"})
    assert refused.returncode == 1 and "which keeps its readings itself" in refused.stderr
    assert (service_tables.APPLICATION, service_tables.VERSION) == (schema.APPLICATION, schema.VERSION)
    # a copy of an earlier version is shown too
    page.write("pragma user_version = 1")
    assert run(words).returncode == 0


def test_words_of_the_guide() -> None:
    """What docs/GUIDE.md says that stands on the page, where a meter isn't there, is what the page says."""
    chapter = (TOP / "docs/GUIDE.md").read_text().partition("### My meter isn't there")[2].partition("\n## ")[0]
    words = [it for it in re.findall(r"\*\*(.+?)\*\*", chapter) if not it.endswith(("?", "."))]
    package = TOP / "service/wmbus_service/page"
    said = " ".join(path.read_text() for path in [package / "looks.py", *sorted((package / "templates").iterdir())])
    assert len(set(words)) > 10 and not [it for it in words if it not in said]
