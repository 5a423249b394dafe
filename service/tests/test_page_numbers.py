"""The page's numbers are those that `hear` printed: stored sessions are committed by the service, and page, JSON, CSV and database are
compared with the reports that stand beside the sessions."""
from __future__ import annotations

import csv
import html
import io
import re
import time
from collections import Counter
from decimal import Decimal
from pathlib import Path

import pytest
from flask.testing import FlaskClient
from wmbus_service import store
from wmbus_service.config import Config, Programs, Receiver, Ticks
from wmbus_service.meters import take_roster
from wmbus_service.page.app import create_app
from wmbus_service.session import Sessions

from .kill import TOP, steps_words

NOW = 1_800_000_000.0
EXAMPLES = [TOP / "examples" / name for name in ("fragments", "gas", "heat", "keys", "power", "water")]
SESSIONS = [TOP / "tests/cases/sessions" / name for name in ("hostile", "made_014", "made_042", "made_057", "made_064", "made_071", "made_112",
                                                       "not_read", "spoiled_assembly")]
# how a person reads a unit, as the database has it, and how many of it a prefix is
UNITS = {"m³": "m3", "m³/h": "m3/h", "m³/min": "m3/min", "m³/s": "m3/s", "°C": "C"}
PREFIXES = {"": 0, "k": 3, "M": 6, "G": 9, "T": 12}
NUMBER = re.compile(r"(-?[0-9 \u2009\u202f,]+(?:\.[0-9]+)?) (.+)")

REGISTER = ("function", "storage", "tariff", "subunit", "quantity", "unit", "modifiers")
# a value: function, storage, tariff, subunit, quantity, unit, modifiers, and its number or word
Told = tuple[str, int, int, int, str, str, str, str]


class Heard:
    """What a report says: of each meter its readings, its refusals and its last values; the strangers and the lines."""

    def __init__(self, text: str) -> None:
        self.readings: dict[str, list[tuple[str, str]]] = {}
        self.refusals: dict[str, Counter[str]] = {}
        self.values: dict[str, list[Told]] = {}
        self.strangers = 0
        self.totals: dict[str, int] = {}
        address = ""
        for line in text.splitlines():
            word, *rest = line.split(" ")
            if word == "receiver":
                self.totals = dict(zip(rest[1::2], map(int, rest[2::2]), strict=False))
            elif word == "meter":
                address = rest[0]
                self.readings[address], self.refusals[address], self.values[address] = [], Counter(), []
            elif word == "step" and rest[2] == "stored":
                self.readings[address].append((rest[3], rest[4]))
            elif word == "step" and rest[2] == "refused":
                self.refusals[address][rest[3]] += 1
            elif word == "record":
                function, storage, tariff, subunit, quantity, unit, exponent, modifiers, value, *_ = rest
                self.values[address].append((function, int(storage), int(tariff), int(subunit), quantity, unit, modifiers.replace("-", ""),
                                             number_text(value, int(exponent))))
            elif word == "stranger":
                self.strangers += 1


class Committed:
    """The service's database of a session, and who asks its page."""

    def __init__(self, folder: Path, roster: str, lines: bytes) -> None:
        # (no ticks but those of the lines)
        config = Config(folder=folder / "wmbus", receivers={"attic": Receiver()}, ticks=Ticks(1e12, 1e12),
                        programs=Programs(steps=steps_words()))
        store.prepare_folder(config.folder)
        self.database = store.open_store(config.database, is_new=True)
        take_roster(config, self.database, roster, "roster")
        (config.spool / "attic.00000001.1.lines").write_bytes(lines + b"\n" * (not lines.endswith(b"\n")))
        sessions = Sessions(config, self.database)
        for _ in range(100):
            if not sessions.next(NOW):
                break
        app = create_app(config)
        app.config.update(CLOCK=lambda: NOW)
        self.client: FlaskClient = app.test_client()

    def values(self, reading: int) -> list[Told]:
        """A reading's values, as the database has them."""
        rows = self.database.execute("select function, storage, tariff, subunit, quantity, unit, modifiers, value, exponent from record"
                                     " where reading = ? order by place", (reading,))
        return [(function, storage, tariff, subunit, quantity, unit, modifiers, number_text(value, exponent))
                for function, storage, tariff, subunit, quantity, unit, modifiers, value, exponent in rows]


def number_text(value: str, exponent: int) -> str:
    """A number with its power of ten, all its digits; a word as it is."""
    return f"{Decimal(value).scaleb(exponent):f}" if re.fullmatch("-?[0-9]+", value) else value


def files_of(place: Path) -> tuple[Path, Path, Path]:
    """A session's roster, lines and report."""
    if place.is_dir():
        return place / "roster", place / "rx", place / "report"
    return place.with_suffix(".roster"), place.with_suffix(".rx"), place.with_suffix(".report")


def number_of(text: str, unit: str) -> Decimal | None:
    """The number that a person reads, in the database's unit."""
    found = NUMBER.fullmatch(text)
    if not found:
        return None
    shown = UNITS.get(found[2], found[2])
    prefix = shown.removesuffix(unit) if shown.endswith(unit) else "?"
    return Decimal(re.sub("[ \u2009\u202f,]", "", found[1])).scaleb(PREFIXES[prefix]) if prefix in PREFIXES else None


def last_of(values: list[Told]) -> dict[tuple[object, ...], str]:
    """Of each register the value that stands first in a reading."""
    found: dict[tuple[object, ...], str] = {}
    for *kind, number in values:
        found.setdefault(tuple(kind), number)
    return found


def look_at_meter(made: Committed, heard: Heard, address: str) -> None:
    """A meter's page, JSON and CSV are what the report says."""
    given = made.client.get(f"/api/meters/{address}").json
    assert given
    shown = {tuple(it[name] for name in REGISTER): it["value"] for it in given["values"]}
    # (a register that only earlier readings have stands there with the last of these)
    readings = made.database.execute("select id from reading where address = ? order by moment desc, id desc", (address,)).fetchall()
    earlier = [row for (ident,) in readings for row in made.values(ident)]
    assert shown == last_of(heard.values[address] + earlier)
    refused: Counter[str] = Counter()
    for row in given["refusals"]:
        refused[row["reason"].split()[0]] += row["times"]
    assert refused == heard.refusals[address]
    text = html.unescape(made.client.get(f"/meters/{address}").text)
    rows = re.findall(r'<td class="text">(.*?)(?:<br>|</td>)', text)
    assert rows == [it["text"] for it in given["values"]][:200]
    for it in given["values"]:
        if it["unit"] != "-" and re.fullmatch(r"-?[0-9]+(\.[0-9]+)?", it["value"]):
            assert number_of(it["text"], it["unit"]) == Decimal(it["value"]), it
    for times in refused.values():
        assert re.search(rf"<b>(once|twice|{times} times)</b>", text)
    head, *read = csv.reader(io.StringIO(made.client.get(f"/meters/{address}/readings.csv").text))
    place = {name: head.index(name) for name in head}
    told = dict.fromkeys((row[place["counter"]], row[place["moment"]]) for row in read)
    bare = made.database.execute("select counter, moment from reading where address = ? and id not in (select reading from record)",
                                 (address,)).fetchall()
    assert sorted([*told, *((str(counter), str(moment)) for counter, moment in bare)]) == sorted(heard.readings[address])
    if heard.readings[address]:
        counter, moment = heard.readings[address][-1]
        # (which has no modifiers)
        assert [tuple(row[place[name]] for name in (*REGISTER[:-1], "value"))
                for row in read if (row[place["counter"]], row[place["moment"]]) == (counter, moment)] == [
                    (*map(str, value[:-2]), value[-1]) for value in heard.values[address]]


@pytest.mark.parametrize("place", EXAMPLES + SESSIONS, ids=[place.name for place in EXAMPLES + SESSIONS])
def test_numbers_are_those_of_the_report(place: Path, tmp_path: Path, monkeypatch: pytest.MonkeyPatch) -> None:
    """Values, readings, refusals, strangers and lines are those of the report; so are the database's."""
    monkeypatch.setenv("TZ", "UTC")
    time.tzset()
    roster, lines, report = files_of(place)
    heard = Heard(report.read_text(encoding="ascii"))
    made = Committed(tmp_path, roster.read_text(encoding="ascii"), lines.read_bytes())
    assert made.database.execute("select count(*) from reading").fetchone() == (sum(map(len, heard.readings.values())),)
    for address in heard.readings:
        look_at_meter(made, heard, address)
    strangers = made.client.get("/api/strangers").json
    assert strangers and sum(it["times"] for it in strangers["strangers"]) == heard.strangers
    told = made.client.get("/api/receivers").json
    assert told and {name: told["totals"].get(name, 0) for name in ("lines", "strangers", "unframed", "bad")} == {
        name: heard.totals[name] for name in ("lines", "strangers", "unframed", "bad")}
    overview = made.client.get("/api/overview").json
    assert overview and overview["totals"]["stored"] == sum(map(len, heard.readings.values()))
    assert [it["heard"] is not None for it in overview["meters"]] == [bool(heard.readings[it["address"]]) for it in overview["meters"]]
    made.database.close()
