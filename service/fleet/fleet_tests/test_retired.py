"""Meters that are out of service: they are missed nowhere, and heard as before."""
from __future__ import annotations

import io
import json
import random
import time
from dataclasses import dataclass
from pathlib import Path
from typing import Any

import pytest
from tests.meters import line_of, next_telegrams, roster_of
from tests.stand_in import stand_in
from wmbus_fleet import commandline, metrics, sessions, store
from wmbus_fleet.status import figures, in_words
from wmbus_fleet.view.app import create_app

from .test_parts import DAY, Fleet, fleet

__all__ = ["fleet"]

RECORD = {"quantity": "volume", "unit": "m3", "exponent": 0, "value": "7", "function": "instantaneous", "storage": 0, "tariff": 0,
          "subunit": 0, "modifiers": "", "raw": "07"}


def page(fleet: Fleet, path: str, **asked: str) -> Any:
    """What a page answers."""
    return create_app(fleet.config).test_client().get(path, query_string=asked or None)


def found(fleet: Fleet, **asked: str) -> list[str]:
    """The meters that somebody finds."""
    return [it["address"] for it in page(fleet, "/api/meters", **asked).get_json()["meters"]]


@dataclass
class Desk:
    """Who says words to a fleet."""

    fleet: Fleet
    folder: Path
    patches: pytest.MonkeyPatch
    capsys: pytest.CaptureFixture[str]

    def say(self, *words: str, given: str = "") -> tuple[int, str]:
        """What the command line says, and its exit status."""
        path, told = self.folder / "fleet.toml", self.fleet.config.programs
        steps = told.steps or f"{Path(__file__).parents[3]}/tests/reference/steps"
        path.write_text(f'database = "{self.fleet.config.database}"\n[programs]\nsteps = "{steps}"\n')
        self.patches.setattr("sys.stdin", io.TextIOWrapper(io.BytesIO(given.encode())))
        status = commandline.main(["--config", str(path), *words])
        said = self.capsys.readouterr()
        return status, (said.out + said.err).strip()

    def retired(self) -> dict[str, float]:
        """Since when meters are out of service."""
        return store.pairs(self.fleet.database, "select address, retired from meter where retired is not null")


@pytest.fixture
def desk(fleet: Fleet, tmp_path: Path, monkeypatch: pytest.MonkeyPatch, capsys: pytest.CaptureFixture[str]) -> Desk:
    """Who says words to the fleet."""
    return Desk(fleet, tmp_path, monkeypatch, capsys)


def test_a_retired_meter_is_missed_nowhere(fleet: Fleet, desk: Desk) -> None:
    """One that stopped and one that was never read: overview, areas, gateways, metrics, lists and their own pages miss neither; they are
    found by state, number and address, and by name no more."""
    now = time.time()
    read, stopped, unread = (meter.name for meter in fleet.meters)
    fleet.database.execute("update meter set name = 'Gas', gateway = %s, heard = case address when %s then %s when %s then %s end",
                           (fleet.gateway, read, now - 60, stopped, now - 3 * DAY))
    fleet.database.execute("insert into reading values (5, %s, 'gw', 1, %s, '', null, false, %s, %s)",
                           (stopped, int(now - 3 * DAY), json.dumps([RECORD]), now - 3 * DAY))
    assert desk.say("retire", stopped, unread.upper()) == (0, "2 meters were taken out of service")
    told = page(fleet, "/api/overview").get_json()
    counts = told["counts"]
    assert [counts[it] for it in ("meters", "retired", "read", "silent_meters", "unheard_meters", "retired_heard")] == [3, 2, 1, 0, 0, 0]
    assert not [it for it in told["looks"] if "meter" in it["title"]]
    assert [(it["meters"], it["silent_meters"]) for it in told["areas"]] == [(1, 0)]
    assert [it["meters"] for it in page(fleet, "/api/gateways").get_json()["gateways"]] == [1]
    assert "1 of 1" in page(fleet, "/").text
    gauges = metrics.take(fleet.config).gauges
    assert [gauges[f"meters{it}"] for it in ("", "_retired", "_silent", "_unheard")] == [3, 2, 0, 0]
    assert [line for line in in_words(figures(fleet.database)) if "service" in line] == [
        "3 meters, 2 of them out of service; 0 lines taken, 0 heard, 0 readings"]
    assert [found(fleet, state=it) for it in ("silent", "stopped", "unread", "", "retired-heard")] == [[], [], [], [read], []]
    assert found(fleet, q="gas") == found(fleet, area=fleet.area) == [read]
    assert found(fleet, state="retired") == found(fleet, state="retired", q="gas") == sorted([stopped, unread])
    number = "".join(stopped[place:place + 2] for place in (10, 8, 6, 4))
    assert found(fleet, q=stopped) == found(fleet, q=number) == [stopped] and found(fleet, q=stopped, state="silent") == []
    assert "out of service" in page(fleet, "/meters", q=number).text.split("<tbody>")[1]
    for address in (stopped, unread):
        assert page(fleet, f"/api/meters/{address}").get_json()["looks"] == []
        assert f"out of service since {time.strftime('%Y-%m-%d', time.localtime(now))}" in page(fleet, f"/meters/{address}").text
    assert "out of service" not in page(fleet, f"/meters/{read}").text
    assert ",7," in page(fleet, f"/meters/{stopped}/readings.csv").text


def test_a_retired_meter_is_heard(fleet: Fleet, desk: Desk, monkeypatch: pytest.MonkeyPatch) -> None:
    """Its readings are stored as before. Of one that was heard since it was retired overview and status tell, with it behind their link;
    what a gateway kept of before, and sent later, is no sign of it."""
    monkeypatch.setattr(sessions, "run_steps", stand_in)
    meter, draw, now = fleet.meters[2], random.Random(5), time.time()
    assert desk.say("retire", meter.name)[0] == 0
    fleet.database.execute("update meter set retired = %s where address = %s", (now - 100, meter.name))

    def heard(moment: float) -> list[Any]:
        (telegram,) = next_telegrams(draw, meter)
        store.copy_rows(fleet.database, "inbox (address, gateway, epoch, message, place, text)",
                        [(meter.name, fleet.gateway, 1, meter.counter, 1, line_of(telegram, int(moment)).strip())])
        fleet.database.execute("delete from reading")
        sessions.Sessions(fleet.config, fleet.database).turn(time.time())
        assert store.one(fleet.database, "select count(*) from reading") == 1
        looks = [it for it in page(fleet, "/api/overview").get_json()["looks"] if "meter" in it["title"]]
        assert bool(looks) == any("1 meter was heard though" in line for line in in_words(figures(fleet.database)))
        return looks
    assert heard(now - 200) == []
    # (5 is the moment of a receiver that has no time)
    for moment in (now - 50, 5):
        (look,) = heard(moment)
        assert look["title"] == "1 meter was heard though it is out of service" and "retire --back" in look["to_do"]
        assert [it["address"] for it in page(fleet, f"/api{look['link']}").get_json()["meters"]] == [meter.name]
        assert "was heard though" in page(fleet, f"/meters/{meter.name}").text
    assert desk.retired() == {meter.name: now - 100}
    assert desk.say("retire", "--back", meter.name) == (0, "1 meter was put back into service")
    assert not [it for it in page(fleet, "/api/overview").get_json()["looks"] if "meter" in it["title"]]
    assert "out of service" not in page(fleet, f"/meters/{meter.name}").text


def test_all_are_retired_or_none(fleet: Fleet, desk: Desk) -> None:
    """The first of those that aren't meters is named, and how many there are; what is said twice keeps its first moment. What stands in a
    wrong list isn't told, since it may be a key."""
    first, second, third = (meter.name for meter in fleet.meters)
    unknown, key = "0" * 16, "c" * 32
    for words, given, told in (
            ((first, unknown, "50000007"), "", f"meter {unknown}: there is no meter {unknown}, and 2 of 3 addresses are of no meter"),
            ((first, "50000007\x01"), "", "meter 50000007\x01: an address has sixteen hexadecimal digits, and 1 of 2 addresses"),
            (("-",), f"\ufeff{first}\r\n\n{second} {key}\n\0\n{unknown}\n", "the standard input, line 3: an address has sixteen hexadecimal"
                                                                           " digits, and 3 of 4")):
        status, said = desk.say("retire", *words, given=given)
        assert status == 1 and told in said and key not in said and desk.retired() == {}
    assert desk.say("retire", "-", given=f"\ufeff{first.upper()}\r\n\n{first}\n{second}") == (0, "2 meters were taken out of service")
    before = desk.retired()
    assert before.keys() == {first, second} and all(abs(time.time() - moment) < 60 for moment in before.values())
    assert desk.say("retire", first, third) == (0, "1 meter was taken out of service, 1 was so before")
    assert desk.retired() == before | {third: desk.retired()[third]}
    assert desk.say("retire", "--back", first, unknown)[0] == 1 and len(desk.retired()) == 3
    assert desk.say("retire", "--back", "-", given=f"{first}\n{second}\n") == (0, "2 meters were put back into service")
    assert desk.say("retire", "--back", first) == (0, "0 meters were put back into service, 1 was so before")
    assert desk.retired().keys() == {third}


def test_what_is_asked_of_a_retired_meter(fleet: Fleet, desk: Desk) -> None:
    """Open commands are left, and told of; a new one is refused; keys are given as before. A roster that names it puts it back, with what
    is known of it."""
    first, second, _ = (meter.name for meter in fleet.meters)
    assert desk.say("command", first, "0102", "--id", "c1") == (0, "c1")
    assert desk.say("retire", first, second) == (0, "2 meters were taken out of service\n1 of them still has commands that wait:"
                                                    " `wmbus-fleet commands METER` names them")
    status, said = desk.say("command", first, "03", "--id", "c2")
    assert status == 1 and f"meter {first} is out of service" in said and f"retire --back {first}" in said
    assert desk.say("command", first, "0102", "--id", "c1") == (0, "c1: it was taken before")
    assert store.pairs(fleet.database, "select id, state from command") == {"c1": "waiting"}
    assert desk.say("rekey", first, given="f" * 32 + "\n")[0] == desk.say("correct", first, given="e" * 32 + "\n")[0] == 0
    blocks = store.pairs(fleet.database, "select address, block from meter")
    assert "e" * 32 in blocks[first] and desk.retired().keys() == {first, second}
    assert desk.say("commission", "-", given=roster_of(fleet.meters[1:])) == (0, "0 new meters\n1 meter was put back into service")
    assert desk.say("commission", "-", given=roster_of(fleet.meters)) == (0, "0 new meters\n1 meter was put back into service")
    assert desk.retired() == {} and store.pairs(fleet.database, "select address, block from meter") == blocks
    assert desk.say("command", first, "03", "--id", "c2") == (0, "c2")
