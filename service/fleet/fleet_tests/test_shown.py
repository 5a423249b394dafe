"""What the fleet shows over a made town: the demo, the page with its search, silent gateways, refusals by area, and the metrics."""
from __future__ import annotations

import json
import re
import time
from collections.abc import Iterator
from dataclasses import dataclass, replace
from decimal import Decimal
from pathlib import Path
from typing import Any

import psycopg
import pytest
from flask.testing import FlaskClient
from prometheus_client import CollectorRegistry, generate_latest
from prometheus_client.parser import text_string_to_metric_families
from tests.page_house import entered, forms_word
from wmbus_fleet import allowing, demo, metrics, store
from wmbus_fleet.config import Broker
from wmbus_fleet.demo import COMMAND, Demo
from wmbus_fleet.made_town import LISTENING
from wmbus_fleet.view.app import create_app
from wmbus_service.ending import Ending

from .servers import Both

COUNT, SPACE, LIMIT = 40, 60.0, 240.0
TOKEN = "a-token-of-the-tests-0123456789"
DASHBOARD = Path(__file__).parents[1] / "dashboard.json"
# of each kind of meter what it counts, into how many parts of a kWh or m³, and how great one is in Wh or m³ (by the VIF of EN 13757-3)
READS = {0x04: ("energy", 1, "1000"), 0x02: ("energy", 100, "10"), 0x03: ("volume", 100, "0.01")}
WATER = ("volume", 1000, "0.001")


@dataclass
class Shown:
    """A demo that has heard two rounds of its town, and its page."""

    made: Demo
    both: Both

    def client(self) -> FlaskClient:
        """Who asks the page from this machine."""
        return create_app(self.made.config).test_client()

    def data(self, path: str) -> Any:
        """What a page has, as data."""
        return self.client().get(path).get_json()


@pytest.fixture(scope="module", name="shown")
def shown_fixture(both: Both, tmp_path_factory: pytest.TempPathFactory) -> Iterator[Shown]:
    """A demo, with a command whose meter answers."""
    made = Demo(both, tmp_path_factory.mktemp("demo"), "shown", COUNT, SPACE)
    try:
        made.start()
        made.command()
        told: list[str] = []
        lines = sum(made.send_round(int(time.time()) - ago) for ago in (1800, 60))
        made.wait(lines, Ending(), told.append)
        # (the downlink was armed behind the first round, and goes out behind this one)
        limit = time.monotonic() + LIMIT
        while not made.answer():
            assert time.monotonic() < limit
            lines += made.send_round(int(time.time()))
            made.wait(lines, Ending(), told.append)
        made.wait(lines + 1, Ending(), told.append)
        yield Shown(made, both)
    finally:
        made.end()


def test_what_is_read_is_what_was_made(shown: Shown) -> None:
    """Each meter's last register is its total, but for the meter whose key is wrong; the command is confirmed; nothing came twice."""
    made = shown.made
    with store.connect(made.config.database) as database:
        for meter in made.town.meters:
            quantity, parts, size = READS.get(meter.kind, WATER)
            rows = database.execute("select records from reading where address = %s order by counter desc limit 1",
                                    (meter.address.hex(),)).fetchall()
            if meter is made.town.wrong:
                assert not rows
                continue
            record = next(it for it in rows[0][0] if it["quantity"] == quantity and it["storage"] == 0)
            assert Decimal(f"{record['value']}e{record['exponent']}") == int(meter.total * parts) * Decimal(size), meter.name
        assert database.execute("select id, state from command").fetchall() == [(COMMAND, "confirmed")]
        sent = COUNT + 1
        assert store.one(database, "select count(*) from line where gateway is not null") % sent == 1
        assert store.one(database, "select count(distinct (gateway, epoch, message, place)) from line where gateway is not null") == \
            store.one(database, "select count(*) from line where gateway is not null")
    assert all(part.poll() is None for part in made.parts)


def test_the_overview(shown: Shown) -> None:
    """It counts meters and gateways, names the silent gateway and what is refused, and has no part that stands still."""
    told = shown.data("/api/overview")
    counts = told["counts"]
    assert (counts["meters"], counts["read"], counts["gateways"], counts["silent_gateways"]) == (40, 39, 5, 1)
    assert told["workers"] == {"intake": 1, "sessions": 2, "downlinks": 1}
    assert [(it["what"], it["title"]) for it in told["looks"]] == [("never heard", "Gateway shown-south-3 in shown-south")]
    # (each fourth meter is heard by one of four gateways; the wrong meter's one is in the south)
    assert [(it["name"], it["gateways"], it["silent_gateways"], it["meters"], it["refused"] > 0) for it in told["areas"]] == [
        # (the meter whose key is wrong is of none: nobody authenticated what came of it)
        ("shown-north", 2, 0, 20, False), ("shown-south", 3, 1, 19, True)]
    page = shown.client().get("/").text
    assert "39 of 40" in page and "never heard" in page and "shown-south" in page


@pytest.mark.parametrize("asked, wanted", [
    ("q=50000007", [7]), ("q=50000099", []), ("q=gas, flat 2", [9]), ("q=43040700", [7]), ("gateway=shown-north-2", list(range(1, 40, 4))),
    ("area=shown-south&q=flat 1", [2, 3]), ("state=refused", [39]), ("state=silent", [39]), ("q=power, flat 1&state=read", [3]),
    ("q=%25", []), ("q=%00", list(range(40))), ("area=nowhere", [])])
def test_search(shown: Shown, asked: str, wanted: list[int]) -> None:
    """Meters by the number on the label, the address, a part of the name, gateway, area and state."""
    found = shown.data(f"/api/meters?{asked}")["meters"]
    places = {meter.address.hex(): place for place, meter in enumerate(shown.made.town.meters)}
    assert sorted(places[it["address"]] for it in found) == wanted


def test_pages_of_many(shown: Shown, monkeypatch: pytest.MonkeyPatch) -> None:
    """What doesn't stand on one page stands on the next ones, each once."""
    monkeypatch.setattr("wmbus_fleet.view.looking.MOST", 15)
    found, after = [], ""
    for _ in range(3):
        told = shown.data(f"/api/meters?after={after}")
        found += [it["address"] for it in told["meters"]]
        after = told["after"]
    assert after is None and found == sorted(meter.address.hex() for meter in shown.made.town.meters)


def test_a_meters_page(shown: Shown) -> None:
    """It is that of the service, over the fleet's database: registers, curves, consumption, refusals with what to do, commands."""
    meter = shown.made.town.meters[LISTENING]
    page = shown.client().get(f"/meters/{meter.address.hex()}?span=day").text
    assert "Heat, flat 1" in page and "by shown-north-1" in page and "confirmed by the meter" in page and "<polyline" in page
    wrong = shown.client().get(f"/meters/{shown.made.town.wrong.address.hex()}").text
    assert "key probably wrong" in wrong and "What to do" in wrong
    csv = shown.client().get(f"/meters/{meter.address.hex()}/readings.csv").text.splitlines()
    assert len(csv) > 6 and all("shown-north-1" in line for line in csv[1:])
    assert shown.client().get("/meters/0000000000000000").status_code == 404


def test_gateways_areas_strangers(shown: Shown) -> None:
    """Who is silent, what an area's lines are refused for, and the neighbour."""
    rows = {it["name"]: it for it in shown.data("/api/gateways")["gateways"]}
    assert [name for name, it in rows.items() if it["is_silent"]] == ["shown-south-3"]
    assert [it["name"] for it in shown.data("/api/gateways?silent=1")["gateways"]] == ["shown-south-3"]
    assert {name: it["meters"] for name, it in rows.items()} == {**{name: 10 for name in rows}, "shown-south-2": 9, "shown-south-3": 0}
    refused = shown.data("/api/areas/shown-south")["refusals"]
    assert [(it["reason"], it["meters"]) for it in refused] == [("check", 1)] and refused[0]["to_do"]
    assert shown.data("/api/areas/shown-north")["refusals"] == []
    assert [it["address"] for it in shown.data("/api/strangers")["strangers"]] == [shown.made.town.neighbour.address.hex()]
    for path in ("/gateways", "/gateways?area=shown-north&after=a", "/areas/shown-south", "/strangers", "/meters?q=x", "/meters"):
        assert shown.client().get(path).status_code == 200, path
    for path in ("/areas/nowhere", "/receivers", "/api/areas/%00"):
        assert shown.client().get(path).status_code == 404, path
    assert shown.client().get("/meters?state=dead").status_code == 400


def test_forms_need_the_token(shown: Shown) -> None:
    """Without it nothing is changed; with it a command is queued and cancelled, and a stranger becomes a meter."""
    made, meter = shown.made, shown.made.town.meters[1].address.hex()
    assert shown.client().post(f"/meters/{meter}/commands", data={"payload": "01"}).status_code == 403
    client, _ = entered(create_app(made.config, TOKEN))
    word = forms_word(client.get(f"/meters/{meter}").text)
    assert client.post(f"/meters/{meter}/commands", data={"forms": word, "payload": "01", "id": "p1"}).status_code == 303
    assert client.post(f"/meters/{meter}/commands/cancel", data={"forms": word, "id": "p1"}).status_code == 303
    other = shown.made.town.meters[2].address.hex()
    for address, ident in ((other, "p1"), (meter, "p1\0"), (f"{meter}%00", "p1")):
        assert client.post(f"/meters/{address}/commands/cancel", data={"forms": word, "id": ident}).status_code == 400
    neighbour = made.town.neighbour
    asked = {"forms": word, "address": neighbour.address.hex(), "mode": "7", "key": neighbour.key.hex(), "name": "Next door"}
    assert client.post("/strangers/add", data=asked).status_code == 303
    try:
        assert shown.data("/api/strangers")["strangers"] == []
        assert shown.data("/api/meters?q=next door")["meters"][0]["address"] == neighbour.address.hex()
    finally:
        with store.connect(made.config.database) as database:
            database.execute("delete from meter where address = %s", (neighbour.address.hex(),))
            database.execute("delete from command where id = 'p1'")


def test_the_pages_role_reads_no_key(shown: Shown) -> None:
    """A role of the server's own for the page reads what the page shows, and neither keys nor frames, and changes nothing."""
    with psycopg.connect(shown.made.config.database, autocommit=True) as database:
        database.execute(f"create role looker login password '{shown.both.postgres.password}'")
    with store.connect(shown.made.config.database) as own:
        allowing.allow(own, "page", "looker")
    words = shown.both.postgres.words("shown", "looker")
    app = create_app(type(shown.made.config)(database=words)).test_client()
    for path in ("/", "/meters", f"/meters/{shown.made.town.meters[0].address.hex()}", "/gateways", "/areas/shown-south", "/strangers"):
        assert app.get(path).status_code == 200, path
    told: Any = app.get("/api/overview").get_json()
    assert told["workers"]["sessions"] == 2 == metrics.take(replace(shown.made.config, database=words)).labelled["workers"]["sessions"]
    with psycopg.connect(words, autocommit=True) as database:
        for query in ("select block from meter", "select frame from outbox", "select payload from command", "select text from line",
                      "delete from page.meter", "update page.gateway set area = 'x'"):
            with pytest.raises(psycopg.errors.InsufficientPrivilege):
                database.execute(query)
        columns = database.execute("select column_name from information_schema.columns where table_schema = 'page'").fetchall()
        assert columns and not {"block", "frame", "text"} & {name for (name,) in columns}


def families(shown: Shown) -> dict[str, Any]:
    """The metrics as Prometheus' own parser reads them."""
    figures, registry = metrics.Figures(), CollectorRegistry()
    figures.taken = metrics.take(shown.made.config)
    registry.register(figures)
    parse: Any = text_string_to_metric_families
    return {it.name: it for it in parse(generate_latest(registry).decode())}


def test_metrics(shown: Shown) -> None:
    """They say what the database has, by area, part and state."""
    found = families(shown)

    def of(name: str, **labels: str) -> Any:
        return next(it.value for it in found[f"wmbus_fleet_{name}"].samples if it.labels == labels)
    with store.connect(shown.made.config.database) as database:
        lines = store.one(database, "select count(*) from line where gateway is not null")
        readings = store.one(database, "select count(*) from reading")
    assert (of("heard"), of("lines"), of("stored"), of("inbox_lines"), of("lag_seconds")) == (lines, lines, readings, 0, 0)
    assert (of("meters"), of("meters_unheard"), of("broker_up")) == (40, 1, 1)
    assert [of("gateways_silent", area=f"shown-{it}") for it in ("north", "south")] == [0, 1]
    assert of("area_refusals", area="shown-south") == of("refused") > 0 == of("area_refusals", area="shown-north")
    assert of("queue_messages", area="shown-north") == 0
    assert [of("workers", part=it) for it in ("intake", "sessions", "downlinks")] == [1, 2, 1]
    assert of("commands", state="confirmed") == 1 and of("table_bytes", table="reading") > 8192


def test_metrics_without_a_broker(shown: Shown) -> None:
    """They say that it is gone, and the rest all the same."""
    taken = metrics.take(type(shown.made.config)(database=shown.made.config.database, broker=Broker(port=1)))
    assert taken.gauges["broker_up"] == 0.0 and taken.gauges["meters"] == 40.0 and "queue_messages" not in taken.labelled


def test_the_dashboard_names_metrics_that_are_there(shown: Shown) -> None:
    """Each query of the dashboard's, and each of its labels."""
    found = families(shown)
    samples = {sample.name: set(sample.labels) for it in found.values() for sample in it.samples}
    told = json.loads(DASHBOARD.read_text(encoding="utf-8"))
    queries = [target["expr"] for panel in told["panels"] for target in panel["targets"]]
    assert len(queries) >= 12
    for query in queries:
        names = re.findall(r"\bwmbus_\w+", query)
        assert names and set(names) <= samples.keys(), query
        for label in re.findall(r"by \((\w+)\)", query):
            assert all(label in samples[name] for name in names), query
    assert {name for query in queries for name in re.findall(r"wmbus_\w+", query)} >= {
        "wmbus_fleet_lag_seconds", "wmbus_fleet_gateways_silent", "wmbus_fleet_queue_messages", "wmbus_fleet_area_refusals"}


def test_the_demo_wants_sense(tmp_path: Path) -> None:
    """No meters, or more than it can make, are refused in words before anything is started."""
    for count, seconds in ((0, 1.0), (100_001, 1.0), (5, 0.0)):
        with pytest.raises(Exception, match="1 to 100,000"):
            demo.run(count, seconds, None, Ending(), print)
