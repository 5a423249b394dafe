"""What those who run a fleet meet: meters that many gateways hear, searches, tables of a year, words that are mistyped."""
from __future__ import annotations

import re
import subprocess
import threading
import time
import tracemalloc
from collections.abc import Iterator
from contextlib import contextmanager
from dataclasses import replace
from pathlib import Path
from typing import Any

import pytest
from telegrams.messages import whole
from tests.kill import PYTHON
from tests.meters import Meter, line_of, payload_of
from wmbus_fleet import broker, commandline, commands, metrics, sessions, store
from wmbus_fleet.messages import lines_body
from wmbus_fleet.own_servers import RABBIT
from wmbus_fleet.status import figures, in_words
from wmbus_fleet.view.app import create_app
from wmbus_service import meters
from wmbus_service.trouble import Trouble

from .test_parts import DAY, NOW, Fleet, fleet
from .test_retired import Desk, desk

__all__ = ["desk", "fleet"]


def data(fleet: Fleet, path: str, **asked: str) -> Any:
    """What a page has, as data."""
    return create_app(fleet.config).test_client().get(path, query_string=asked or None).get_json()


@pytest.mark.parametrize("repeat", ["stale", "access"])
def test_a_meter_that_two_gateways_hear(fleet: Fleet, repeat: str) -> None:
    """Its copies are no trouble: only the meter whose key is wrong is found as refused, counted in its area, and named by `status`."""
    now = time.time()
    read, wrong = fleet.meters[0].name, fleet.meters[1].name
    fleet.database.execute("update meter set gateway = %s", (fleet.gateway,))
    fleet.database.execute("update meter set heard = %s where address = %s", (now - 60, read))
    store.copy_rows(fleet.database, "refusal (address, reason, words, times, last_line, last_made)",
                    [(read, repeat, f"{repeat} 5 5", 1000, 2, now - 59), (wrong, "mac", "mac", 3, 1, now - 600)])
    assert [it["address"] for it in data(fleet, "/api/meters", state="refused")["meters"]] == [wrong]
    assert [it["refused"] for it in data(fleet, "/api/overview")["areas"]] == [3]
    assert [it["reason"] for it in data(fleet, f"/api/areas/{fleet.area}")["refusals"]] == ["mac", repeat]
    assert [line for line in in_words(figures(fleet.database)) if line.startswith("refused ") and " for " in line] == [
        f"refused 3 times for {wrong}: mac (docs/FORMATS.md says what to do)"]
    assert metrics.take(fleet.config).labelled["area_refusals"] == {fleet.area: 3.0}


def test_a_meter_whose_counter_was_set_back(fleet: Fleet, desk: Desk) -> None:
    """It is heard, and each of its messages is refused as stale: it is told as that, by `status`, overview, lists, metrics and its own page,
    and not as silent. One that repeats the last message that was stored, and one of which copies come, aren't so."""
    now, meter = time.time(), fleet.meters[1]
    back, repeating, copied = meter.name, fleet.meters[0].name, fleet.meters[2].name
    hear(fleet, meter, 900)
    hear(fleet, meter, 3)
    for line, address, words in ((7, repeating, "stale 900 900"), (8, copied, "stale 899 900")):
        fleet.database.execute("insert into refusal values (%s, 'stale', %s, 5, 1, 1)", (address, words))
        fleet.database.execute("insert into reading values (%s, %s, 'gw', 900, 1, '', null, false, '[]', 1)", (line, address))
    fleet.database.execute("update refusal set last_made = %s", (now - 60,))
    fleet.database.execute("update reading set made = case address when %s then %s else %s end", (copied, now - 120, now - 3 * DAY))
    fleet.database.execute("update meter m set gateway = %s, heard = (select made from reading r where r.address = m.address)", (fleet.gateway,))
    told = data(fleet, "/api/overview")
    assert [(it["what"], it["title"], it["link"]) for it in told["looks"] if "meter" in it["link"]] == [
        ("counter set back", "1 meter", "/meters?state=set-back"), ("silent", "1 meter", "/meters?state=stopped")]
    assert [it["silent_meters"] for it in told["areas"]] == [1]
    found = {state: [it["address"] for it in data(fleet, "/api/meters", state=state)["meters"]]
             for state in ("set-back", "silent", "stopped", "refused", "unread")}
    assert found == {"set-back": [back], "silent": [repeating], "stopped": [repeating], "refused": [], "unread": []}
    assert [metrics.take(fleet.config).gauges[f"meters_{it}"] for it in ("set_back", "silent")] == [1, 1]
    said = [line for line in desk.say("status")[1].splitlines() if "set back" in line]
    assert len(said) == 1 and said[0].startswith(f"1 meter has a counter below the last stored one, first {back}: ")
    looks = {address: [it["what"] for it in data(fleet, f"/api/meters/{address}")["looks"]] for address in (back, repeating, copied)}
    assert looks == {back: ["counter set back"], repeating: ["silent for 3 days"], copied: []}
    # (as of copies that a gateway which was cut off sent later: it is silent again)
    fleet.database.execute("update refusal set last_made = %s where address = %s", (now - 2.5 * DAY, back))
    assert sorted(it["address"] for it in data(fleet, "/api/meters", state="stopped")["meters"]) == sorted([back, repeating])
    fleet.database.execute("update refusal set last_made = %s", (now - 60,))
    fleet.database.execute("update meter set retired = %s", (now,))
    assert not data(fleet, "/api/meters", state="set-back")["meters"] and "set back" not in desk.say("status")[1]
    assert data(fleet, "/api/overview")["counts"]["set_back"] == 0 and not data(fleet, f"/api/meters/{back}")["looks"]


@pytest.mark.parametrize("wanted", ["02000002", "0200 0002", "02.00.00.02", "ABC 02000002", "abc02000002", "ELS 02000002 01 07", "02000002 01 07",
                                    "2000002", "2 000 002", "8 ELS 01 02000002"])
def test_a_label_as_it_is_written(fleet: Fleet, wanted: str) -> None:
    """A meter is found by what its label has, and by what the page itself writes of it."""
    fleet.database.execute("update meter set address = '9315' || '02000002' || '0107' where address = %s", (fleet.meters[0].name,))
    (found,) = data(fleet, "/api/meters", q=wanted)["meters"]
    assert found["address"] == "9315020000020107" and "02000002 01 07" in found["title"]


@pytest.mark.parametrize("wanted", ["haus 5", "HAUS 5, WOHNUNG", "große", "GROßE"])
def test_a_part_of_a_name(fleet: Fleet, wanted: str) -> None:
    """In large and small letters, those of ASCII alone and others, page by page in the order of addresses."""
    fleet.database.execute("update meter set name = 'Große Gasse, Haus 5, Wohnung ' || address")
    names = sorted(meter.name for meter in fleet.meters)
    assert [it["address"] for it in data(fleet, "/api/meters", q=wanted)["meters"]] == names
    assert [it["address"] for it in data(fleet, "/api/meters", q=wanted, after=names[0])["meters"]] == names[1:]


def said(fleet: Fleet, folder: Path, capsys: pytest.CaptureFixture[str], *words: str) -> tuple[int, str]:
    """What the command line says to some words, and its exit status."""
    path = folder / "fleet.toml"
    path.write_text(f'database = "{fleet.config.database}"\n')
    status = commandline.main(["--config", str(path), *words])
    told = capsys.readouterr()
    return status, told.out + told.err


def test_an_id_of_another_command(fleet: Fleet) -> None:
    """Who gives a command the id of another one learns that it isn't taken; the same command once more is no trouble, as from a script."""
    first, second = fleet.meters[0].name, fleet.meters[1].name
    assert commands.put_command(fleet.database, "c1", first, "0102", 1) and not commands.put_command(fleet.database, "c1", first, "0102", 2)
    commands.put_key(fleet.database, "k1", first, 32 * "a", 1)
    fleet.database.execute("update command set state = 'done', payload = '' where id = 'k1'")
    assert not commands.put_key(fleet.database, "k1", first, 32 * "a", 2)
    for ident, address, payload in (("c1", second, "0102"), ("c1", first, "03"), ("k1", first, "03")):
        with pytest.raises(Trouble, match="another command has this id"):
            commands.put_command(fleet.database, ident, address, payload, 3)
    assert store.pairs(fleet.database, "select id, made from command") == {"c1": 1, "k1": 1}


def hear(fleet: Fleet, meter: Meter, number: int) -> None:
    """A session hears a meter's message of mode 7 with this counter."""
    text = line_of(whole(meter.key, meter.address, number, payload_of(number), 0x44, None), int(NOW)).rstrip()
    store.copy_rows(fleet.database, "inbox (address, gateway, epoch, message, place, text)", [(meter.name, fleet.gateway, 1, number, 1, text)])
    shard = store.one(fleet.database, "select shard_of(%s)", (meter.name,))
    assert sessions.Sessions(fleet.config, fleet.database).session(shard, NOW)


def test_a_mode_that_is_corrected(fleet: Fleet, desk: Desk) -> None:
    """A meter that was commissioned in mode 5 and sends in mode 7 is read from then on where its mode is corrected; and one of which messages
    of mode 7 were stored stays in it, since no counter would keep them from coming again."""
    meter = fleet.meters[1]
    as_five = meter.line().replace(" 7 ", " 5 ")
    fleet.database.execute("update meter set block = %s where address = %s", (as_five, meter.name))
    hear(fleet, meter, 1)
    assert fleet.database.execute("select address, words from refusal").fetchall() == [(meter.name, "mode 7 5")]
    key = f"{meter.key.hex()}\n"
    assert desk.say("correct", meter.name.upper(), "--mode", "7", given=key) == (0, f"meter {meter.name} has another key, in mode 7")
    assert store.one(fleet.database, "select count(*) from refusal") == 0
    hear(fleet, meter, 2)
    assert fleet.database.execute("select address, counter from reading").fetchall() == [(meter.name, 2)]
    status, told = desk.say("correct", meter.name, "--mode", "5", given=key)
    assert status == 1 and "stays in this mode" in told
    assert desk.say("correct", meter.name, "--mode", "7", given=key)[0] == desk.say("correct", meter.name, given=key)[0] == 0
    assert store.one(fleet.database, "select block from meter where address = %s", (meter.name,)).startswith(
        f"meter {meter.name} 7 {meter.key.hex()} - 2 0 ")


def test_a_meter_that_counts_anew(fleet: Fleet, desk: Desk) -> None:
    """As one whose electronics were exchanged: under its new key its messages are stored again from the first one on, and under a key that it
    had before it is taken neither then nor later."""
    meter = fleet.meters[1]
    before, after = f"{meter.key.hex()}\n", f"{'e' * 32}\n"
    exchanged = replace(meter, key=bytes.fromhex("e" * 32))
    for number in (900, 3):
        hear(fleet, meter, number)
    for second in ("c", "d"):
        assert desk.say("rekey", meter.name, given=f"{second * 32}\n")[0] == 0
        hear(fleet, meter, 900)
    for known in (before, f"{'c' * 32}\n", f"{'d' * 32}\n"):
        status, told = desk.say("correct", meter.name, "--anew", given=known)
        assert status == 1 and "one that it never had" in told
    # (behind it this one would be the second key of the new electronics)
    ident = desk.say("rekey", meter.name, given=f"{'b' * 32}\n")[1]
    status, told = desk.say("correct", meter.name, "--anew", given=after)
    assert status == 1 and f"a second key of it, {ident}, still waits for a session" in told
    assert desk.say("command", "--cancel", ident) == (0, f"{ident}: cancelled")
    assert desk.say("correct", meter.name, "--anew", given=after) == (0, f"meter {meter.name} has another key, and counts anew")
    assert store.one(fleet.database, "select count(*) from refusal") == 0
    for spoken, number in ((exchanged, 5), (meter, 901), (exchanged, 6), (exchanged, 5)):
        hear(fleet, spoken, number)
    assert fleet.database.execute("select counter from reading order by line").fetchall() == [(900,), (5,), (6,)]
    for words in (("correct", meter.name), ("correct", meter.name, "--anew"), ("rekey", meter.name.upper())):
        status, told = desk.say(*words, given=before)
        assert status == 1 and "it had this key before" in told
    assert desk.say("correct", meter.name, given=f"{'f' * 32}\n")[0] == 0


def test_a_second_key_while_a_meter_begins_to_count_anew(fleet: Fleet, monkeypatch: pytest.MonkeyPatch) -> None:
    """Two people at once: the second key is judged by all keys that the meter had before it counted anew, and these stay noted."""
    meter = fleet.meters[1]
    said: list[str] = []

    def rekey() -> None:
        with store.connect(fleet.config.database) as database:
            try:
                commands.put_key(database, "key", meter.name, meter.key.hex(), NOW)
            except Trouble as trouble:
                said.append(str(trouble))
    other = threading.Thread(target=rekey)

    def with_key(*words: Any) -> str:
        other.start()
        other.join(0.5)
        return meters.with_key(*words)
    monkeypatch.setattr(commands, "with_key", with_key)
    commands.correct_key(fleet.config, fleet.database, meter.name, "e" * 32, None, True)
    other.join()
    assert len(said) == 1 and "it had this key before" in said[0]
    with pytest.raises(Trouble, match="it had this key before"):
        commands.put_key(fleet.database, "again", meter.name, meter.key.hex(), NOW)


def test_commands_of_a_meter_that_there_is_none_of(fleet: Fleet, tmp_path: Path, capsys: pytest.CaptureFixture[str]) -> None:
    """As where it is mistyped: that is said, in place of nothing, which means that it had no commands."""
    assert said(fleet, tmp_path, capsys, "commands", fleet.meters[0].name.upper()) == (0, "")
    assert said(fleet, tmp_path, capsys, "commands", "50000007") == (
        1, "wmbus-fleet: meter 50000007: there is no meter 50000007; `wmbus-fleet commission ROSTER` adds meters\n")


def test_a_command_and_a_cancellation_at_once(fleet: Fleet, tmp_path: Path, capsys: pytest.CaptureFixture[str]) -> None:
    """Neither is done: of one of them nothing would be said."""
    meter = fleet.meters[0].name
    commands.put_command(fleet.database, "c1", meter, "0102", 1)
    for words in ((meter, "03", "--cancel", "c1"), (meter, "--cancel", "c1"), ("--cancel", "c1", "--id", "c2")):
        status, told = said(fleet, tmp_path, capsys, "command", *words)
        assert status == 1 and "--cancel ID alone" in told
    assert store.pairs(fleet.database, "select id, state from command") == {"c1": "waiting"}


def controlled(fleet: Fleet, *words: str) -> None:
    """What rabbitmqctl does."""
    subprocess.run([str(RABBIT.with_name("rabbitmqctl")), *words], env=fleet.both.rabbit.environment, stdout=subprocess.DEVNULL, check=True)


@contextmanager
def short_memory(fleet: Fleet) -> Iterator[None]:
    """RabbitMQ thinks that its memory is short."""
    controlled(fleet, "set_vm_memory_high_watermark", "0.00001")
    try:
        yield
    finally:
        controlled(fleet, "set_vm_memory_high_watermark", "0.4")


@contextmanager
def full_queue(fleet: Fleet) -> Iterator[None]:
    """An area's queue takes no message."""
    controlled(fleet, "set_policy", "full", f"^area.{fleet.area}$", '{"max-length": 0, "overflow": "reject-publish"}', "--apply-to", "queues")
    try:
        yield
    finally:
        controlled(fleet, "clear_policy", "full")


@pytest.mark.parametrize("lacking, words", [(short_memory, "its memory or its disk is short"), (full_queue, "at a limit")])
def test_a_broker_that_takes_nothing(fleet: Fleet, lacking: Any, words: str) -> None:
    """A gateway says what is the matter with it, and its messages are taken once it has room again."""
    def publish(number: int) -> None:
        with broker.connected(fleet.config.broker) as connection:
            broker.publish(broker.opened(connection), broker.EXCHANGE, broker.up_key(fleet.area, fleet.gateway), lines_body(5, number, 9, b""))
    with lacking(fleet), pytest.raises(broker.FAULTS, match=words):
        for number in range(1, 9):
            publish(number)
    publish(9)


def test_names_of_meters_that_arent_known(fleet: Fleet, tmp_path: Path, caplog: pytest.LogCaptureFixture) -> None:
    """How many there are of them is said, and which is the first one; the others get their names."""
    path = tmp_path / "names"
    first, second = fleet.meters[0].name, fleet.meters[1].name
    path.write_text(f"{first} House 1\n\n{16 * 'f'} House 2\n{second.upper()} House 3\n{16 * 'e'} House 4\n")
    assert commands.put_names(fleet.database, path) == 2
    assert "2 names are of meters that aren't known, first that of line 3" in caplog.text
    named = store.pairs(fleet.database, "select address, name from meter")
    assert (named[first], named[second]) == ("House 1", "House 3")


@pytest.mark.parametrize("line", ["50000007 House 2", "{};House 2", "{}\tHouse 2", "House 2"])
def test_a_name_without_an_address(fleet: Fleet, tmp_path: Path, line: str) -> None:
    """A line with a label's number, or with another sign between, is named, and no meter gets a name."""
    path = tmp_path / "names"
    path.write_text(f"{fleet.meters[0].name} House 1\n" + line.format(fleet.meters[1].name) + "\n")
    with pytest.raises(Trouble, match="line 2: it isn't an address, a space and a name"):
        commands.put_names(fleet.database, path)
    assert set(store.pairs(fleet.database, "select address, name from meter").values()) == {""}


def linked(fleet: Fleet, path: str, words: str) -> str:
    """Where a link of a page leads to, by its words."""
    found = re.search(f'<a href="([^"]*)">(?:<[^>]*>)?{words}', create_app(fleet.config).test_client().get(path).text)
    assert found, words
    return found[1].replace("&amp;", "&")


def test_silent_meters_beside_those_that_arent_installed_yet(fleet: Fleet) -> None:
    """What the overview counts is what its links lead to: meters that are silent, and those that were never read."""
    now = time.time()
    stopped, read, unread = (meter.name for meter in fleet.meters)
    fleet.database.execute("update meter set heard = case address when %s then %s when %s then %s end", (stopped, now - 3 * 86_400, read, now))
    for words, wanted in (("1 meter</a>", stopped), ("1 meter was never read", unread)):
        path = linked(fleet, "/", words)
        assert [it["address"] for it in data(fleet, f"/api{path}")["meters"]] == [wanted], words
    assert sorted(it["address"] for it in data(fleet, "/api/meters", state="silent")["meters"]) == sorted([stopped, unread])


def test_silent_gateways_of_an_area(fleet: Fleet) -> None:
    """Who looks at an area's gateways, and then at the silent ones, stays in the area; so do the data."""
    commands.add_area(fleet.config, fleet.database, f"{fleet.area}-other")
    commands.add_gateway(fleet.config, fleet.database, f"{fleet.area}-other", f"{fleet.gateway}-other")
    path = linked(fleet, f"/gateways?area={fleet.area}", "silent ones alone")
    for asked in (f"/api{path}", linked(fleet, path, "as JSON")):
        told = data(fleet, asked)
        assert (told["area"], told["silent"], [it["name"] for it in told["gateways"]]) == (fleet.area, True, [fleet.gateway])
    assert linked(fleet, path, "all gateways") == f"/gateways?area={fleet.area}"
    assert linked(fleet, "/gateways?silent=1", "all gateways") == "/gateways"


def test_words_that_nobody_reads(fleet: Fleet, tmp_path: Path) -> None:
    """Where the standard output is closed, as some timers start it, a command is taken as always."""
    path = tmp_path / "fleet.toml"
    path.write_text(f'database = "{fleet.config.database}"\n')
    words = [PYTHON, str(Path(__file__).parents[1] / "wmbus-fleet"), "--config", str(path), "command", fleet.meters[0].name, "01"]
    done = subprocess.run(["/bin/sh", "-c", 'exec "$@" >&-', "sh", *words], stderr=subprocess.PIPE, check=False)
    assert (done.returncode, done.stderr) == (0, b"")
    assert store.one(fleet.database, "select count(*) from command") == 1


def test_many_names_take_little_memory(fleet: Fleet, tmp_path: Path) -> None:
    """A million of them are no matter of gigabytes; the last one counts as the first does."""
    path, count = tmp_path / "names", 50_000
    path.write_text("".join(f"{place:016x} House {place}\n" for place in range(count)) + f"{fleet.meters[0].name} House\n")
    tracemalloc.start()
    try:
        assert commands.put_names(fleet.database, path) == 1
        assert tracemalloc.get_traced_memory()[1] < 300 * count
    finally:
        tracemalloc.stop()
    assert store.pairs(fleet.database, "select address, name from meter")[fleet.meters[0].name] == "House"


@pytest.mark.parametrize("more, wanted", [(9, []), (10, ["1 more gateway"]), (21, ["12 more gateways"])])
def test_many_silent_gateways(fleet: Fleet, more: int, wanted: list[str]) -> None:
    """Ten are named, and how many there are beside them is said, with all of them behind it."""
    store.copy_rows(fleet.database, "gateway (name, area)", [(f"{fleet.gateway}-{place}", fleet.area) for place in range(more)])
    looks = [it for it in data(fleet, "/api/overview")["looks"] if "gateway" in it["title"].lower()]
    assert len([it for it in looks if it["title"].startswith("Gateway ")]) == 10
    assert [it["title"] for it in looks if "more" in it["title"]] == wanted
    if wanted:
        assert len(data(fleet, f"/api{looks[-1]['link']}")["gateways"]) == more + 1
