"""What comes at a bad moment: a cancellation in the middle of a session, a clock that is set back, a full disk, a gateway that goes,
messages that no gateway of ours sends."""
from __future__ import annotations

import io
import itertools
import json
import os
import random
import re
import socket
import sqlite3
import subprocess
import threading
import time
import tracemalloc
import urllib.request
from collections.abc import Callable
from configparser import ConfigParser
from contextlib import closing
from dataclasses import replace
from pathlib import Path
from tempfile import TemporaryDirectory
from types import SimpleNamespace
from typing import Any

import psycopg
import pytest
from psycopg.conninfo import conninfo_to_dict, make_conninfo
from tests.kill import PYTHON
from telegrams.messages import whole
from tests.meters import line_of, next_telegrams, payload_of, roster_of, some_meters
from tests.processes import run, started, until
from tests.stand_in import stand_in
from wmbus_fleet import (
    backup, broker, commandline, commands, demo, downlinks, gateway, gateways, intake, lifeline, metrics, own_servers, sessions, store,
)
from wmbus_fleet.administration import Administration
from wmbus_fleet.arrived import arrived
from wmbus_fleet.config import Broker, Config, Gateway, Keep, Metrics, Ticks, read_config
from wmbus_fleet.demo import Demo
from wmbus_fleet.gateway import Agent, arm, open_gateway
from wmbus_fleet.intake import Consuming, Intake
from wmbus_fleet.messages import LAST, Again, Down, Message, down_body, frames_in, lines_body, read_lines, second_of
from wmbus_fleet.retention import Retention
from wmbus_fleet.status import figures, in_words
from wmbus_fleet.view.app import create_app
from wmbus_service import metrics as of_service
from wmbus_service import store as service_store
from wmbus_service.config import Config as ServiceConfig
from wmbus_service.config import Receiver
from wmbus_service.ending import Ending
from wmbus_service.service import lock
from wmbus_service.spool import LONGEST
from wmbus_service.steps import ProgramFailed, run_steps
from wmbus_service.store import prepare_folder
from wmbus_service.trouble import Trouble

from .servers import Both
from .test_parts import DAY, NOW, Fleet, House, fleet, house, set_back

__all__ = ["fleet", "house"]
LIMIT = 60


@pytest.mark.parametrize("kind, payload, states", [("send", "01", ["queued", "cancelled"]), ("rekey", 32 * "0", ["done", "done"])])
def test_cancelled_while_a_session_has_it(fleet: Fleet, monkeypatch: pytest.MonkeyPatch, kind: str, payload: str, states: list[str]
                                          ) -> None:
    """What was said to be cancelled isn't sent: where a session has it in hand, the state behind that one's commit is told, and the next
    session cancels it."""
    meter, said = fleet.meters[0].name, []
    shard = store.one(fleet.database, "select shard_of(%s)", (meter,))
    fleet.database.execute("insert into command (id, address, kind, payload, made, changed) values ('c1', %s, %s, %s, 1, 1)",
                           (meter, kind, payload))
    hearing = sessions.Sessions(fleet.config, fleet.database)
    with store.connect(fleet.config.database) as other:
        cancelling = threading.Thread(target=lambda: said.append(commands.cancel_command(other, "c1", NOW)))

        def run(words: Any, state: str, lines: list[str]) -> Any:
            monkeypatch.setattr(sessions, "run_steps", stand_in)
            cancelling.start()
            cancelling.join(1)
            return stand_in(words, state, lines)
        monkeypatch.setattr(sessions, "run_steps", run)
        assert hearing.session(shard, NOW) == 1
        cancelling.join(LIMIT)
    hearing.session(shard, NOW)
    assert [*said, store.one(fleet.database, "select state from command")] == states


def test_a_key_that_is_corrected(fleet: Fleet, monkeypatch: pytest.MonkeyPatch) -> None:
    """Also while a session has the meter in hand, which writes what it knows of it at its end: what comes then is read."""
    meter = fleet.meters[0]
    shard = store.one(fleet.database, "select shard_of(%s)", (meter.name,))
    fleet.database.execute("update meter set block = replace(block, %s, %s) where address = %s", (meter.key.hex(), 32 * "5", meter.name))
    hearing = sessions.Sessions(fleet.config, fleet.database)

    def hear(number: int) -> None:
        text = line_of(whole(meter.key, meter.address, number, payload_of(number), 0x44, None), int(NOW)).rstrip()
        store.copy_rows(fleet.database, "inbox (address, gateway, epoch, message, place, text)",
                        [(meter.name, fleet.gateway, 1, number, 1, text)])
        assert hearing.session(shard, NOW) == 1

    with store.connect(fleet.config.database) as other:
        correcting = threading.Thread(target=commands.correct_key, args=(fleet.config, other, meter.name.upper(), meter.key.hex().upper()))
        with monkeypatch.context() as patched:
            def run(*words: Any) -> Any:
                correcting.start()
                correcting.join(1)
                return run_steps(*words)
            patched.setattr(sessions, "run_steps", run)
            hear(1)
        correcting.join(LIMIT)
    assert store.one(fleet.database, "select count(*) from refusal") == 0
    hear(2)
    assert fleet.database.execute("select address, counter from reading").fetchall() == [(meter.name, 2)]
    for address, key, words in ((16 * "0", 32 * "0", "there is no meter"), (meter.name, "00", "isn't 32 hexadecimal digits")):
        with pytest.raises(Trouble, match=words):
            commands.correct_key(fleet.config, fleet.database, address, key)


def test_a_tick_waits_for_its_meters_own_lines(fleet: Fleet) -> None:
    """Also where those of another gateway, which were heard later, came in front of them, as behind a gateway that was cut off."""
    meter, other = fleet.meters[0].name, "another-gateway"
    shard = store.one(fleet.database, "select shard_of(%s)", (meter,))
    fleet.database.execute("update meter set due = 500, gateway = %s where address = %s", (fleet.gateway, meter))
    fleet.database.execute("update gateway set until = 700")
    beside = next(it for it in map("{:016x}".format, range(1000)) if store.one(fleet.database, "select shard_of(%s)", (it,)) == shard)
    rows = [(beside, other, 1, 1, 1, "A 600 00"), (meter, fleet.gateway, 1, 1, 1, "A 400 00"), (meter, fleet.gateway, 1, 1, 2, "A 650 00")]
    store.copy_rows(fleet.database, "inbox (address, gateway, epoch, message, place, text)", rows)
    with store.transaction(fleet.database):
        heard = [event.text for event in sessions.gather(fleet.database, Ticks(10.0, 10.0, 1000.0), shard, 701, 10)]
        fleet.database.execute("rollback; begin")
        few = [event.text for event in sessions.gather(fleet.database, Ticks(10.0, 10.0, 1000.0), shard, 701, 2)]
    assert heard == ["A 600 00", "A 400 00", f"T {meter}", "A 650 00"]
    assert few == ["A 600 00"]


def test_what_is_kept_no_longer_goes_while_lines_come(fleet: Fleet, monkeypatch: pytest.MonkeyPatch) -> None:
    """Of a large fleet each turn of the sessions has some lines."""
    ending, turns = Ending(), 0

    def turn(_self: object, _now: float) -> int:
        nonlocal turns
        turns += 1
        if turns == 5:
            ending.set()
        return 1
    monkeypatch.setattr(sessions.Sessions, "turn", turn)
    fleet.tell(time.time())
    store.copy_rows(fleet.database, "line (number, address, text, made)", [(1, "m", "A 1 00", time.time() - 9 * DAY)])
    sessions.run(replace(fleet.config, interval=0.01), ending)
    assert store.one(fleet.database, "select count(*) from line") == 0


def test_a_gateways_clock_that_is_set_back(house: House) -> None:
    """What is heard goes out all the same, and silence is told."""
    house.hear(["A 5 00"])
    assert house.agent.number(NOW + DAY) == 1
    house.hear(["A 6 00"])
    assert house.agent.number(NOW + 60) == 1
    house.hear(["A 7 00"])
    house.agent.number(NOW + DAY)
    house.agent.number(NOW + 90)
    assert [lines for lines, _ in house.messages().values()][3:] == [b"A 5 00\n", b"A 6 00\n", b"A 7 00\n", b""]


def test_no_line_of_before_a_wrong_clock_is_told_of(house: House) -> None:
    """While it was far ahead a message told of a moment that is still to come: messages that don't hold all that was heard tell no such."""
    house.hear(["A 5 00"])
    house.agent.number(NOW + 1000 * DAY)
    house.hear([f"A {number} 00" for number in range(2500)])
    house.agent.number(NOW + 60)
    untils = [until for (until,) in house.database.execute("select until from message where number > 4 order by number")]
    assert len(untils) == 20 and max(untils) <= NOW + 60


def test_nothing_is_searched_in_a_gateways_messages(house: House) -> None:
    """A week of them are 300,000, and 20 times a second it looks for those that are too old: no step goes over all of them."""
    rows = [(number, 60 * b"A 1 00\n", NOW, NOW, 1) for number in range(4, 20_004)]
    house.database.execute("begin")
    house.database.executemany("insert into message (number, lines, until, made, acknowledged) values (?, ?, ?, ?, ?)", rows)
    house.database.execute("update numbering set last = 20003")
    house.database.execute("commit")
    house.hear(["A 5 00"])
    steps = 0

    def step() -> None:
        nonlocal steps
        steps += 1
    house.database.set_progress_handler(step, 100)
    assert house.agent.number(NOW + 40) == 1
    house.agent.forget(NOW + 50)
    house.database.set_progress_handler(None, 0)
    assert steps < 20


def test_an_epoch_without_numbers(house: House) -> None:
    """Nothing is numbered until the broker has all of its messages; then another one begins."""
    house.database.execute("update numbering set last = ?", (LAST,))
    house.database.execute("update message set acknowledged = 0 where number = 3")
    house.hear(["A 9 00"])
    assert house.agent.number(NOW + 40) == 0 and house.agent.numbering() == (house.epoch, LAST)
    house.database.execute("update message set acknowledged = 1")
    assert house.agent.number(NOW + 40) == 1
    epoch, last = house.agent.numbering()
    assert (second_of(epoch), last) == (NOW + 40, 1)
    assert house.messages() == {1: (b"A 9 00\n", False)}


def test_an_epoch_that_begins_with_many_messages(house: House) -> None:
    """As behind a fleet's copy that is older than a week, of which a gateway may have more than its machine has memory."""
    rows = [(number, 100_000 * b"0", NOW, NOW) for number in range(5, 205)]
    house.database.executemany("insert into message (number, lines, until, made) values (?, ?, ?, ?)", rows)
    house.database.execute("delete from message where number < 3")
    house.database.execute("update numbering set last = 204")
    del rows
    tracemalloc.start()
    house.agent.send_again(Again("gw1", house.epoch, 2), NOW + 30)
    (_, most) = tracemalloc.get_traced_memory()
    tracemalloc.stop()
    assert most < 1_000_000
    epoch, last = house.agent.numbering()
    assert (second_of(epoch), last) == (NOW + 30, 201)
    assert [(number, len(lines), is_done) for number, (lines, is_done) in house.messages().items()][:3] == [
        (1, 7, False), (2, 100_000, False), (3, 100_000, False)]


def test_a_full_disk_has_a_downlink_go_out_once(house: House) -> None:
    """What can't be committed is tried again and again, and the radio doesn't send with it."""
    draw = random.Random(1)
    meter = some_meters(draw, 1)[0]
    arm(house.database, Down(meter.name, 5, "05", 1000), NOW + 30)
    (pages,) = house.database.execute("pragma page_count").fetchone()
    house.database.execute(f"pragma max_page_count = {pages}")
    house.hear([line_of(next_telegrams(draw, meter)[0], 1).strip(), *(f"A {number} {400 * '0'}" for number in range(50))])
    for moment in range(3):
        with pytest.raises(sqlite3.OperationalError, match="full"):
            house.agent.number(NOW + 40 + 5 * moment)
    assert house.sent() == ["D", "05"]
    house.database.execute("pragma max_page_count = 1000000")
    assert house.agent.number(NOW + 60) == 51
    assert house.sent() == ["D", "05"] and house.database.execute("select sent from armed").fetchone() == (NOW + 60,)


def test_what_fails_again_is_said_once(house: House, monkeypatch: pytest.MonkeyPatch, caplog: pytest.LogCaptureFixture) -> None:
    """A gateway whose disk is full mustn't fill it with that."""
    ending = Ending()
    house.agent.config = Config(broker=Broker(port=1))

    def full(_now: float) -> int:
        raise sqlite3.OperationalError("database or disk is full")
    monkeypatch.setattr(house.agent, "number", full)
    stopping = threading.Timer(3.0, ending.set)
    stopping.start()
    house.agent.run(ending)
    stopping.join()
    assert len([it for it in caplog.records if "full" in it.getMessage()]) == 1


def test_a_broker_that_doesnt_come_back(house: House, monkeypatch: pytest.MonkeyPatch, caplog: pytest.LogCaptureFixture) -> None:
    """What waits for it stays, and the gateway's log says each day how much it is, and since when."""
    clock = NOW
    monkeypatch.setattr(gateway, "time", SimpleNamespace(time=lambda: clock, monotonic=lambda: clock))
    house.agent.config = Config(broker=Broker(port=1))
    house.database.execute("update message set acknowledged = 0 where number > 1")
    for hours in range(60):
        clock, ending = NOW + 3600 * hours + 20, Ending()
        monkeypatch.setattr(house.agent, "number", lambda _now, ending=ending: ending.set())
        house.agent.run(ending)
    said = [it.getMessage() for it in caplog.records if "wait for the broker" in it.getMessage()]
    assert [re.findall("[0-9]+", it)[1:] for it in said] == [["2", "1"], ["2", "25"], ["2", "49"]]
    assert len(house.messages()) == 3


def test_a_gateways_file_that_its_disk_damages(house: House, monkeypatch: pytest.MonkeyPatch, caplog: pytest.LogCaptureFixture) -> None:
    """While it works: its log says what to do about it, as where it can't begin."""
    ending, fault = Ending(), sqlite3.DatabaseError("database disk image is malformed")
    fault.sqlite_errorname = "SQLITE_CORRUPT_INDEX"
    house.agent.config = Config(broker=Broker(port=1))

    def damaged(_now: float) -> int:
        ending.set()
        raise fault
    monkeypatch.setattr(house.agent, "number", damaged)
    house.agent.run(ending)
    assert [it.getMessage() for it in caplog.records if "malformed" in it.getMessage() and "take it away" in it.getMessage()]


@pytest.mark.parametrize("part", ["intake", "sessions", "downlinks", "gateway"])
def test_what_fails_anew_is_said_anew(fleet: Fleet, tmp_path: Path, monkeypatch: pytest.MonkeyPatch, caplog: pytest.LogCaptureFixture,
                                      part: str) -> None:
    """Where a part worked meanwhile, as between two failures of the network with months between them, its log has the second one too."""
    ending, turns = Ending(), 0

    def turn(*_: Any) -> int:
        nonlocal turns
        turns += 1
        if turns in (1, 2, 4):
            raise Trouble("the test", "it fails")
        if turns == 5:
            ending.set()
        return 1
    service = ServiceConfig(tmp_path / "service", receivers={"radio": Receiver()})
    prepare_folder(service.folder)
    monkeypatch.setattr(Consuming, "turn", turn)
    monkeypatch.setattr(sessions.Sessions, "turn", turn)
    monkeypatch.setattr(downlinks, "send", turn)
    monkeypatch.setattr(Agent, "publish", turn)
    work: dict[str, Callable[[], None]] = {
        "intake": lambda: intake.run(fleet.config, [fleet.area], "test", ending), "sessions": lambda: sessions.run(fleet.config, ending),
        "downlinks": lambda: downlinks.run(fleet.config, ending),
        "gateway": lambda: gateway.run(fleet.config, Gateway(fleet.gateway, fleet.area, "radio"), service, ending)}
    work[part]()
    assert len([it for it in caplog.records if "it fails" in it.getMessage()]) == 2


def test_a_gateway_that_was_taken_away(fleet: Fleet) -> None:
    """What it sent before and is taken behind that holds up no tick, and nothing is wanted of it any more."""
    meter = fleet.meters[0].name
    shard, now = store.one(fleet.database, "select shard_of(%s)", (meter,)), time.time()
    fleet.database.execute("update meter set due = %s, gateway = %s where address = %s", (now - 10, fleet.gateway, meter))
    intake = Intake(fleet.config, fleet.database, "test")
    intake.take([Message(fleet.gateway, 5, 1, int(now) - 20, ()), Message(fleet.gateway, 5, 9, int(now), ())])
    fleet.database.execute("update gateway set seen = seen - interval '65 seconds', asked = asked - interval '65 seconds'")
    gateways.remove(fleet.config, fleet.database, fleet.gateway)
    assert [line for line in in_words(figures(fleet.database)) if fleet.gateway in line] == []
    intake.take([Message(fleet.gateway, 5, 2, int(now) - 15, ())])
    assert [address for _, address in sessions.due_ticks(fleet.database, Ticks(), shard, now, 10)] == [meter]


def test_what_is_too_large_costs_no_memory() -> None:
    """A message may be as large as RabbitMQ takes them, 128 MB: it is left before it is cut into lines."""
    body = (4 << 20) * b"\n"
    tracemalloc.start()
    assert read_lines("up.north.gw1", body) is None
    (_, most) = tracemalloc.get_traced_memory()
    tracemalloc.stop()
    assert most < len(body)


@pytest.mark.parametrize("most, given", [(4, 4), (1, 2)])
def test_a_batch_of_many_areas(fleet: Fleet, monkeypatch: pytest.MonkeyPatch, most: int, given: int) -> None:
    """All areas together give an intake no more messages than it has in hand, or one each where there are more areas, however many wait of
    each; no batch has more either, since the program takes 131,072 lines at most (docs/FORMATS.md, "Exit statuses"). It doesn't wait for more
    of an area that gives none before some are acknowledged."""
    monkeypatch.setattr("wmbus_fleet.intake.PREFETCH", most)
    areas = [fleet.area, f"{fleet.area}2"]
    commands.add_area(fleet.config, fleet.database, areas[1])
    with broker.connected(fleet.config.broker) as connection:
        publishing = broker.opened(connection)
        for area, numbers in zip(areas, ((1, 2, 3, 4, 5, 6), (1, 2)), strict=True):
            for number in numbers:
                broker.publish(publishing, broker.EXCHANGE, broker.up_key(area, f"{fleet.gateway}{area[-1]}"), lines_body(5, number, 9, b""))
        told = replace(fleet.config, interval=3600.0)
        consuming = Consuming(Intake(told, fleet.database, "test"), connection, areas)
        limit = time.monotonic() + 2
        while time.monotonic() < limit:
            connection.process_data_events(0.05)
        assert len(consuming.held) == given
        counts: list[int] = []

        def are_taken() -> bool:
            counts.append(consuming.turn())
            return sum(counts) == 8
        until(are_taken)
    assert max(counts) <= most


def test_a_number_that_no_message_has(fleet: Fleet) -> None:
    """Its message is left, and counted by the gateway's name."""
    assert read_lines("up.north.gw1", b"wmbus-lines 1 5 4294967295 9\n") == Message("gw1", 5, 4294967295, 9, ())
    with broker.connected(fleet.config.broker) as connection:
        consuming, channel = Consuming(Intake(fleet.config, fleet.database, "test"), connection, [fleet.area]), broker.opened(connection)
        for number in (1, 1 << 32, 2):
            broker.publish(channel, broker.EXCHANGE, broker.up_key(fleet.area, fleet.gateway), lines_body(5, number, 9, b""))

        def is_taken() -> bool:
            consuming.turn()
            return fleet.fence() == (5, 2)
        until(is_taken)
    assert f"{fleet.gateway} sent 1 times a message that is out of form, which is left" in in_words(figures(fleet.database))


def test_a_key_that_is_no_text(fleet: Fleet) -> None:
    """Its message is left, and the others of the area are taken."""
    with broker.connected(fleet.config.broker) as connection:
        consuming, channel = Consuming(Intake(fleet.config, fleet.database, "test"), connection, [fleet.area]), broker.opened(connection)
        keys: list[Any] = [f"up.{fleet.area}.".encode() + b"\xff\xfe", broker.up_key(fleet.area, fleet.gateway)]
        for key in keys:
            broker.publish(channel, broker.EXCHANGE, key, lines_body(5, 1, 9, b""))

        def is_taken() -> bool:
            consuming.turn()
            return fleet.fence() == (5, 1)
        until(is_taken)
    assert store.one(fleet.database, "select gateway from oddity") == "??"


@pytest.fixture
def restored(fleet: Fleet, tmp_path: Path, monkeypatch: pytest.MonkeyPatch) -> Config:
    """A copy of a fleet is there, and an empty database for it."""
    monkeypatch.setenv("PATH", "/usr/lib/postgresql/15/bin:/usr/bin:/bin")
    return replace(fleet.config, database=fleet.both.postgres.make(f"{fleet.area.split('-')[0]}b"))


def test_a_restore_that_was_killed(fleet: Fleet, restored: Config, tmp_path: Path, monkeypatch: pytest.MonkeyPatch) -> None:
    """Nothing works over a copy whose counters weren't raised, as they may have been used since."""
    def killed(*_: Any) -> int:
        raise KeyboardInterrupt
    backup.back_up(fleet.config, tmp_path / "copy")
    with monkeypatch.context() as patches:
        patches.setattr(backup, "raise_counters", killed)
        with pytest.raises(KeyboardInterrupt):
            backup.restore(restored, tmp_path / "copy", 50)
    with pytest.raises(Trouble, match="restore"):
        store.connect(restored.database)
    with pytest.raises(Trouble):
        backup.restore(restored, tmp_path / "copy", 50)


def test_a_copy_of_the_release_before(fleet: Fleet, restored: Config, tmp_path: Path) -> None:
    """Its counters are raised too, and its tables made this release's."""
    set_back(fleet, 1)
    backup.back_up(fleet.config, tmp_path / "copy")
    assert backup.restore(restored, tmp_path / "copy", 50) == 3
    with store.connect(restored.database) as database:
        assert {block.split(" ")[6] for (block,) in database.execute("select block from meter")} == {"50"}


def test_what_postgresql_knows_of_a_restored_copy(fleet: Fleet, restored: Config, tmp_path: Path) -> None:
    """How many rows its tables have, and which values, before any part works over it: else questions go the long way until it looks itself."""
    fleet.database.execute("insert into line (number, address, text, made) select n, 'a' || n % 7, 'A 1 00', 1 from generate_series(1, 500) n")
    backup.back_up(fleet.config, tmp_path / "copy")
    backup.restore(restored, tmp_path / "copy", 50)
    with store.connect(restored.database) as database:
        counts = store.pairs(database, "select relname, reltuples from pg_class where relnamespace = 'public'::regnamespace"
                                       " and relkind in ('r', 'p')")
        assert counts["line"] == 500 and counts["meter"] == 3 and min(counts.values()) == 0
        assert store.one(database, "select n_distinct from pg_stats where tablename = 'line' and attname = 'address'") == 7


def stand_ins(folder: Path, **programs: str) -> str:
    """Programs of PostgreSQL's that do something else; the path that finds them first."""
    for name, does in programs.items():
        (folder / name).write_text(f"#!/bin/sh\n{does}\n")
        (folder / name).chmod(0o700)
    return f"{folder}:/usr/bin:/bin"


def test_no_password_is_an_argument(tmp_path: Path, monkeypatch: pytest.MonkeyPatch) -> None:
    """Every user of the machine sees a program's words."""
    seen = tmp_path / "seen"
    does = f'echo "$@" >>{seen}\necho "$PGPASSWORD" >>{tmp_path}/password\necho "{backup.INBOX}"'
    monkeypatch.setenv("PATH", stand_ins(tmp_path, pg_dump=does, pg_restore=does))
    backup.back_up(Config(database="host=db dbname=wmbus user=wmbus password='very secret'"), tmp_path / "copy")
    assert "secret" not in seen.read_text() and "dbname=wmbus" in seen.read_text()
    assert set((tmp_path / "password").read_text().splitlines()) == {"very secret"}


@pytest.mark.parametrize("listed", ["; no table", "1; TABLE public inbox wmbus\n2; TABLE public restoring wmbus"])
def test_a_copy_that_could_never_be_put_back(tmp_path: Path, monkeypatch: pytest.MonkeyPatch, listed: str) -> None:
    """As of a database without a fleet's tables, by a slip of the pen in the configuration, or of one into which a copy is just put: that is
    said when it is made, and not when it is wanted."""
    (tmp_path / "listed").write_text(listed)
    monkeypatch.setenv("PATH", stand_ins(tmp_path, pg_dump="", pg_restore=f"cat {tmp_path}/listed"))
    with pytest.raises(Trouble, match="couldn't be put back"):
        backup.back_up(Config(), tmp_path / "copy")
    assert not list(tmp_path.glob("copy*"))


def test_a_copy_stands_on_the_disk(tmp_path: Path, monkeypatch: pytest.MonkeyPatch) -> None:
    """Where the machine's power goes behind it, it is there, under its name."""
    synced: list[str] = []
    monkeypatch.setattr("wmbus_service.backup.sync", lambda opened: synced.append(os.readlink(f"/proc/self/fd/{opened}")))
    monkeypatch.setenv("PATH", stand_ins(tmp_path, pg_dump="", pg_restore=f"echo '{backup.INBOX}'"))
    backup.back_up(Config(), tmp_path / "copy")
    assert synced == [f"{tmp_path}/copy.making", str(tmp_path)]


def test_a_copy_that_is_ended(tmp_path: Path) -> None:
    """As by a timer whose time is over: no part of it is left, which has keys."""
    path = stand_ins(tmp_path, pg_dump=f"touch {tmp_path}/begun; exec sleep 600")
    (tmp_path / "fleet.toml").touch()
    command = [PYTHON, str(Path(__file__).parents[1] / "wmbus-fleet"), "--config", str(tmp_path / "fleet.toml"), "backup", f"{tmp_path}/copy"]
    with started(command, env=os.environ | {"PATH": path}, stderr=subprocess.PIPE, text=True) as process:
        until((tmp_path / "begun").exists)
        process.terminate()
        assert process.wait(LIMIT) == 1 and process.stderr and "interrupted" in process.stderr.read()
    assert not list(tmp_path.glob("copy*"))


def test_a_command_that_is_interrupted(tmp_path: Path, monkeypatch: pytest.MonkeyPatch, capsys: pytest.CaptureFixture[str]) -> None:
    """By Ctrl-C: its status doesn't say that all is done."""
    def interrupted(*_: Any) -> int:
        raise KeyboardInterrupt
    monkeypatch.setattr(backup, "restore", interrupted)
    (tmp_path / "fleet.toml").touch()
    assert commandline.main(["--config", str(tmp_path / "fleet.toml"), "restore", "copy"]) == 1
    assert "interrupted" in capsys.readouterr().err


def test_an_area_that_is_made_while_an_intake_works(fleet: Fleet, tmp_path: Path) -> None:
    """An intake of all areas takes its messages too."""
    told, path, area, name = fleet.config.programs, tmp_path / "fleet.toml", f"{fleet.area}-new", f"{fleet.gateway}-new"
    path.write_text(f'database = "{fleet.config.database}"\n[broker]\nport = {fleet.config.broker.port}\n[programs]\n'
                    f'line_accept = "{told.line_accept}"\naddress_list = "{told.address_list}"\n')
    command = [PYTHON, str(Path(__file__).parents[1] / "wmbus-fleet"), "--config", str(path), "intake"]
    with started(command), broker.connected(fleet.config.broker) as connection:
        channel = broker.opened(connection)

        def is_taken(area: str, name: str) -> None:
            broker.publish(channel, broker.EXCHANGE, broker.up_key(area, name), lines_body(5, 1, 9, b""))
            until(lambda: store.pairs(fleet.database, "select name, number from gateway")[name] == 1)
        is_taken(fleet.area, fleet.gateway)
        commands.add_area(fleet.config, fleet.database, area)
        commands.add_gateway(fleet.config, fleet.database, area, name)
        is_taken(area, name)


def test_a_gateway_whose_queue_was_made_anew(fleet: Fleet, tmp_path: Path) -> None:
    """As where it was taken away and came back while it stayed connected: it connects again, in place of hearing nothing for ever."""
    service, ending, turns = ServiceConfig(tmp_path / "service", receivers={"radio": Receiver()}), Ending(), 0
    prepare_folder(service.folder)

    class Turning(Agent):
        """A gateway whose queue is made anew in its first turn, and that ends behind some turns."""

        def publish(self, channel: Any) -> int:
            nonlocal turns
            turns += 1
            if turns == 1:
                broker.delete_gateway(channel, fleet.gateway)
                broker.declare_gateway(channel, fleet.gateway)
            if turns == 1000:
                ending.set()
            return 0
    with closing(open_gateway(tmp_path / "gateway.db", time.time())) as database, broker.connected(fleet.config.broker) as connection:
        agent = Turning(fleet.config, Gateway(fleet.gateway, fleet.area, "radio"), service, database)
        with pytest.raises(broker.FAULTS, match="went"):
            agent._serve(connection, ending)


def test_ticks_that_wait_for_a_gateway_arent_late(fleet: Fleet) -> None:
    """They wait until what it heard has come: more sessions wouldn't help."""
    now = time.time()
    fleet.database.execute("update meter set due = %s, gateway = %s where address = %s", (now - 300, fleet.gateway, fleet.meters[0].name))

    def late() -> list[str]:
        return [line for line in in_words(figures(fleet.database)) if "late" in line]
    fleet.database.execute("update gateway set until = %s", (int(now) - 400,))
    assert late() == []
    fleet.database.execute("update gateway set until = %s", (int(now),))
    assert late() == ["1 ticks are late: no sessions run, or too few"]


def test_how_long_something_waits(fleet: Fleet) -> None:
    """Of lines, downlinks and commands the oldest one tells, in `status` and in the metrics; what is done waits no more."""
    now, meter = time.time(), fleet.meters[0].name
    store.copy_rows(fleet.database, "inbox (address, gateway, epoch, message, place, text)",
                    [(meter, fleet.gateway, 1, 1, place, f"A {int(now) - age} 00") for place, age in ((1, 300), (2, 100))])
    store.copy_rows(fleet.database, "outbox (gateway, address, down, frame, command, made, sent)",
                    [("gw", meter, 1, "01", 1, now - 900, now), ("gw", meter, 2, "02", 1, now - 200, None)])
    store.copy_rows(fleet.database, "command (id, address, kind, payload, state, made, changed)",
                    [(state, meter, "send", "01", state, now - age, now) for state, age in (("confirmed", 900), ("sent", 400), ("waiting", 5))])
    said = [re.sub(r"(?<=for )(\d+)(?= s)", lambda found: str(int(found[1]) // 100 * 100), line) for line in in_words(figures(fleet.database))]
    assert "2 lines wait for a session, the oldest for 300 s; 1 downlinks for the broker, the oldest for 200 s" in said
    assert "commands: 1 confirmed, 1 sent, 1 waiting; the oldest open one for 400 s" in said
    gauges = metrics.take(fleet.config).gauges
    for name, least in (("lag_seconds", 300), ("downlinks_waiting_seconds", 200), ("commands_open_seconds", 400)):
        assert least - 2 <= gauges[name] < least + LIMIT, name


def test_late_ticks_of_the_metrics(fleet: Fleet) -> None:
    """They are those that `status` tells of, also over the tables of a release that counted all of them."""
    now = time.time()
    set_back(fleet, 2)
    fleet.database.execute("create or replace view page.late as select count(*) as count, min(due) as since from public.meter")
    store.init(fleet.config.database)
    fleet.database.execute("update meter set due = %s, gateway = %s where address = %s", (now - 300, fleet.gateway, fleet.meters[0].name))
    for until, count in ((int(now) - 400, 0.0), (int(now), 1.0)):
        fleet.database.execute("update gateway set until = %s", (until,))
        assert metrics.take(fleet.config).gauges["ticks_late"] == count == figures(fleet.database)["ticks_late"]


def test_no_code_of_a_meter_can_be_read(fleet: Fleet) -> None:
    """Access codes, passwords and keys are among the unknown quantities: what was sent of these stands in no view of the page's, nor in those
    of a release that showed it."""
    now = store.one(fleet.database, "select pg_get_viewdef('page.record'::regclass)")
    before = re.sub("CASE .* END AS raw", "(e.it ->> 'raw'::text) AS raw", now, flags=re.DOTALL)
    set_back(fleet, 2)
    fleet.database.execute(f"create view page.record as {before}")
    store.init(fleet.config.database)
    told = {"unit": "-", "exponent": 0, "function": "instantaneous", "storage": 0, "tariff": 0, "subunit": 0, "modifiers": "", "raw": "00ff"}
    records = [{"quantity": "unknown", "value": "raw"} | told, {"quantity": "volume", "value": "65280"} | told]
    store.copy_rows(fleet.database, "reading (line, address, counter, moment, payload, more, records, made)",
                    [(1, fleet.meters[0].name, 1, 1, "", False, json.dumps(records), NOW)])
    assert store.pairs(fleet.database, "select quantity, raw from page.record") == {"unknown": "", "volume": "00ff"}


def test_which_queue_went(fleet: Fleet) -> None:
    """Of several that a process listens to the one is named."""
    with broker.connected(fleet.config.broker) as connection:
        channel, queues = broker.opened(connection), [broker.area_queue(fleet.area), broker.gateway_queue(fleet.gateway)]
        for queue in queues:
            broker.consume(channel, queue, lambda *_: None)
        broker.delete_gateway(broker.opened(connection), fleet.gateway)
        with pytest.raises(broker.FAULTS, match=f"the queue {queues[1]} went"):
            connection.process_data_events(10)


def test_a_downlink_that_waited_for_its_gateway(fleet: Fleet, tmp_path: Path) -> None:
    """It is armed for what is left of its time, and not for all of it anew."""
    service, ending = ServiceConfig(tmp_path / "service", receivers={"radio": Receiver()}), Ending()
    prepare_folder(service.folder)
    made = time.time()
    store.copy_rows(fleet.database, "outbox (gateway, address, down, frame, command, made)",
                    [(fleet.gateway, fleet.meters[0].name, 1, "01", 1, made)])

    class Armed(Agent):
        """A gateway that ends once it has a downlink."""

        def hear(self, body: bytes, now: float, published: int | None = None) -> None:
            super().hear(body, now, published)
            ending.set()
    with closing(open_gateway(tmp_path / "gateway.db", made)) as database, broker.connected(fleet.config.broker) as connection:
        assert downlinks.send(fleet.config, fleet.database, broker.opened(connection), made) == 1
        sent = time.time()
        time.sleep(4)
        stopping = threading.Timer(LIMIT, ending.set)
        stopping.start()
        Armed(fleet.config, Gateway(fleet.gateway, fleet.area, "radio"), service, database)._serve(connection, ending)
        stopping.cancel()
        (until,) = database.execute("select until from armed").fetchone()
    assert made + 890 < until < sent + 902


@pytest.mark.parametrize("age, left", [(0, 100), (40, 60), (99, 1), (9000, 100), (-9000, 100), (None, 100)])
def test_how_long_a_downlink_waited(house: House, age: int | None, left: int) -> None:
    """That is told by the clocks of both; where it would have been dropped by then one of them is wrong, and it counts for all of its
    time."""
    house.agent.hear(down_body(Down("9315010203040107", 3, "01", 100)), NOW, None if age is None else int(NOW) - age)
    assert house.database.execute("select until from armed").fetchone() == (NOW + left,)


def test_epochs_that_begin_again_and_again(fleet: Fleet) -> None:
    """Of a gateway that loses its disk with each start what is kept is bounded, and the last ones are told."""
    rows = [("gw", epoch, 1, float(epoch)) for epoch in range(10_005)]
    store.copy_rows(fleet.database, "missing (gateway, epoch, number, made)", rows)
    Retention(fleet.database, Keep()).let_go(NOW)
    assert fleet.database.execute("select count(*), min(epoch), max(epoch) from missing").fetchone() == (10_000, 5, 10_004)


@pytest.mark.parametrize("days, left", [(365, ["c2", "c3", "c4", 3, 4]), (0, ["c1", "c2", "c3", "c4", 1, 2, 3, 4])])
def test_commands_that_are_done_go_after_a_time(fleet: Fleet, days: int, left: list[object]) -> None:
    """With their downlinks, and no sooner; what is open stays, however old it is."""
    fleet.tell(NOW)
    old, meter = NOW - 366 * DAY, fleet.meters[0].name
    told = (("confirmed", old), ("waiting", old), ("sent", old), ("expired", NOW - 364 * DAY))
    store.copy_rows(fleet.database, "command (id, address, kind, payload, state, made, changed)",
                    [(f"c{place}", meter, "send", "01", state, old, changed) for place, (state, changed) in enumerate(told, 1)])
    store.copy_rows(fleet.database, "outbox (gateway, address, down, frame, command, made, sent, missed)", [
        ("gw", meter, 1, "01", 1, old, old, None), ("gw", meter, 2, "02", 1, old, None, "it is too late"),
        ("gw", meter, 3, "03", 1, old, None, None), ("gw", meter, 4, "04", 1, NOW - 364 * DAY, NOW, None)])
    Retention(fleet.database, Keep(commands=days)).let_go(NOW)
    assert [*(ident for (ident,) in fleet.database.execute("select id from command order by id")),
            *(down for (down,) in fleet.database.execute("select down from outbox order by down"))] == left


def test_many_lines_that_were_set_aside(fleet: Fleet) -> None:
    """What is kept of them is bounded, and the last ones are told."""
    store.copy_rows(fleet.database, "aside (gateway, text, said, made)", [("gw", "A 1 00", "no", NOW) for _ in range(10_005)])
    Retention(fleet.database, Keep()).let_go(NOW)
    assert fleet.database.execute("select count(*), min(id) from aside").fetchone() == (10_000, 6)


def test_a_line_that_is_far_too_long() -> None:
    """So much is kept of it as of a receiver's, which the program calls bad: a session takes 4,000 lines at once."""
    assert frames_in(["A 1 00", "A 1 " + 200_000 * "0"]) == [(1, "A 1 00"), (2, ("A 1 " + 200_000 * "0")[:LONGEST])]


def test_a_stranger_that_was_commissioned(fleet: Fleet) -> None:
    """It is known, however often it was heard before."""
    rows = [(fleet.meters[0].name, 30, "gw", NOW), (16 * "0", 2, "gw", NOW)]
    store.copy_rows(fleet.database, "stranger (address, times, gateway, last_made)", rows)
    told = [line for line in in_words(figures(fleet.database)) if "not known" in line]
    assert told == [f"heard 2 times, and not known: {16 * '0'}"]


@pytest.mark.parametrize("asked", ["überlingen", "Überlingen", "ÜBERL"])
def test_a_search_for_other_letters(fleet: Fleet, asked: str) -> None:
    """Large or small, whatever the locale of the database; this one has that of C, which knows the letters of ASCII alone."""
    fleet.database.execute("update meter set name = 'Überlingen, Haus 5' where address = %s", (fleet.meters[1].name,))
    found: Any = create_app(fleet.config).test_client().get("/api/meters", query_string={"q": asked}).get_json()
    assert [it["address"] for it in found["meters"]] == [fleet.meters[1].name]


def test_who_gets_into_a_postgresql_of_ones_own(both: Both) -> None:
    """No other user of the machine: its superuser has programs started in the name of who started it."""
    told = {name: value for name, value in conninfo_to_dict(both.postgres.words("postgres")).items() if name != "password"}
    with pytest.raises(psycopg.OperationalError, match="password"):
        psycopg.connect(make_conninfo(**told)).close()


def test_a_postgresql_that_cant_be_made(monkeypatch: pytest.MonkeyPatch) -> None:
    """As where the disk is full: it is said in words, without a trace."""
    with TemporaryDirectory() as place:
        folder = Path(place)
        folder.chmod(0o711)
        stand_ins(folder, initdb="echo 'initdb: error: No space left on device' >&2; exit 1")
        (folder / "initdb").chmod(0o755)
        monkeypatch.setattr(own_servers, "POSTGRES", folder)
        with pytest.raises(Trouble, match="No space left"):
            own_servers.Postgres(folder)


def test_a_gateway_without_a_radio_that_sends(house: House, caplog: pytest.LogCaptureFixture) -> None:
    """Its log says why a downlink doesn't go out."""
    draw = random.Random(1)
    meter = some_meters(draw, 1)[0]
    house.agent.radio = ""
    arm(house.database, Down(meter.name, 5, "05", 100), NOW + 30)
    house.hear([line_of(next_telegrams(draw, meter)[0], 1).strip()])
    assert house.agent.number(NOW + 40) == 1
    assert [it.getMessage() for it in caplog.records if "names no `downlinks`" in it.getMessage()]


@pytest.mark.parametrize("said, lacking", [((1, 3, 4), 2), ((2, 3), 1)])
def test_a_gap_behind_which_a_gateway_goes_on(fleet: Fleet, said: tuple[int, ...], lacking: int) -> None:
    """It is asked again with each message that it sends, and named all the same."""
    taking, now = Intake(fleet.config, fleet.database, "test"), int(time.time())
    for number in said:
        fleet.database.execute("update gateway set seen = seen - interval '65 seconds', asked = asked - interval '5 seconds'")
        asked = taking.take([Message(fleet.gateway, 5, number, now, ())])
    assert [it.number for it in asked if isinstance(it, Again)] == [lacking]
    assert [it["number"] for it in figures(fleet.database)["asked"]] == [lacking]
    taking.take([Message(fleet.gateway, 5, number, now, ()) for number in (lacking, *said)])
    assert figures(fleet.database)["asked"] == []


@pytest.mark.parametrize("is_failing", [False, True])
def test_a_key_that_is_refused_isnt_kept(fleet: Fleet, monkeypatch: pytest.MonkeyPatch, is_failing: bool) -> None:
    """Nobody needs it any more, neither where the meter is of a mode without one nor where the program fails at it."""
    meter = next(it for it in fleet.meters if it.mode == 5)

    def run(words: Any, state: str, lines: list[str]) -> Any:
        if lines and is_failing:
            raise ProgramFailed(101, "no")
        return stand_in(words, state, lines)
    monkeypatch.setattr(sessions, "run_steps", run)
    commands.put_key(fleet.database, "k1", meter.name, 32 * "a", NOW)
    hearing = sessions.Sessions(fleet.config, fleet.database)
    for _ in range(3):
        hearing.turn(NOW)
    assert fleet.database.execute("select state, payload from command").fetchall() == [("refused", "")]


def test_a_copy_of_something_else(fleet: Fleet, restored: Config, tmp_path: Path) -> None:
    """A copy that another program's database is in is none of a fleet, and isn't said to be restored."""
    other = fleet.both.postgres.make(f"{fleet.area.split('-')[0]}c")
    with psycopg.connect(other, autocommit=True) as database:
        database.execute("create table customer (name text)")
    backup._done(["pg_dump", "--format=custom", f"--file={tmp_path / 'copy'}"], other)
    with pytest.raises(Trouble, match="no copy of a fleet"):
        backup.restore(restored, tmp_path / "copy", 50)


def test_a_database_of_another_encoding(fleet: Fleet, restored: Config, tmp_path: Path) -> None:
    """As `createdb` alone makes it on a machine without a locale: that is said before anything is put into it, which nobody could work over."""
    name = f"{fleet.area.split('-')[0]}d"
    with psycopg.connect(fleet.config.database, autocommit=True) as database:
        database.execute(f"create database {name} encoding 'SQL_ASCII' template template0")
    told = replace(restored, database=fleet.both.postgres.words(name))
    backup.back_up(fleet.config, tmp_path / "copy")
    with pytest.raises(Trouble, match="SQL_ASCII.*UTF8"):
        store.init(told.database)
    with pytest.raises(Trouble, match="SQL_ASCII.*UTF8"):
        backup.restore(told, tmp_path / "copy", 50)
    with psycopg.connect(told.database) as database:
        assert database.execute("select count(*) from pg_tables where schemaname = 'public'").fetchone() == (0,)


def test_a_margin_that_cant_be(fleet: Fleet, restored: Config, tmp_path: Path) -> None:
    """It is named before anything is put into the database, which takes long and wants another empty one behind it."""
    backup.back_up(fleet.config, tmp_path / "copy")
    for margin in (-1, 1 << 32):
        with pytest.raises(Trouble, match="margin"):
            backup.restore(restored, tmp_path / "copy", margin)
    assert backup.restore(restored, tmp_path / "copy", 50) == 3


def test_a_copy_that_comes_to_nothing(fleet: Fleet, tmp_path: Path, monkeypatch: pytest.MonkeyPatch) -> None:
    """No file that is none stands under the name of the copy, and it may be made under that name once the fault is gone."""
    monkeypatch.setenv("PATH", "/usr/lib/postgresql/15/bin:/usr/bin:/bin")
    with pytest.raises(Trouble, match="pg_dump"):
        backup.back_up(replace(fleet.config, database=f"{fleet.config.database}-that-isnt-there"), tmp_path / "copy")
    assert list(tmp_path.iterdir()) == []

    def interrupted(*_: Any) -> str:
        raise KeyboardInterrupt
    with monkeypatch.context() as patches:
        patches.setattr(backup, "_done", interrupted)
        with pytest.raises(KeyboardInterrupt):
            backup.back_up(fleet.config, tmp_path / "copy")
    assert list(tmp_path.iterdir()) == []
    backup.back_up(fleet.config, tmp_path / "copy")
    assert [it.name for it in tmp_path.iterdir()] == ["copy"]


@pytest.mark.parametrize("work", [lambda config, ending: intake.run(config, [], "test", ending), downlinks.run, sessions.run])
def test_a_part_that_is_started_too_early(fleet: Fleet, work: Any) -> None:
    """As while a copy is put back: it waits, and works once that has ended, in place of ending itself, and for good once it did so five
    times in ten seconds."""
    ending, is_at_work = Ending(), False
    fleet.database.execute("create table restoring ()")

    def later() -> None:
        nonlocal is_at_work
        with store.connect(fleet.config.database, is_restored=False) as database:
            time.sleep(2)
            database.execute("drop table restoring")
            connected = "select count(*) from pg_stat_activity where datname = current_database()"
            for _ in range(100):
                # (the test itself has two)
                is_at_work = is_at_work or store.one(database, connected) > 2
                time.sleep(0 if is_at_work else 0.1)
        ending.set()
    waiting = threading.Thread(target=later)
    waiting.start()
    try:
        work(fleet.config, ending)
    finally:
        waiting.join()
    assert is_at_work


@pytest.mark.parametrize("told, words", [
    (Broker(port=1), "127.0.0.1.*refused"), (Broker(host="house..net"), "broker.host"), (Broker(host=70 * "a"), "broker.host")])
def test_a_broker_that_cant_be_reached(told: Broker, words: str) -> None:
    """The log says why, and nothing ends by it."""
    with pytest.raises((*broker.FAULTS, Trouble), match=words), broker.connected(told):
        pass


def test_a_password_that_is_no_text(tmp_path: Path) -> None:
    """As a file in another encoding."""
    (tmp_path / "password").write_bytes("geheimnis-\xe4".encode("latin-1"))
    with pytest.raises(Trouble, match="password can't be read"):
        broker.password_of(Broker(password_file=str(tmp_path / "password")))


@pytest.mark.parametrize("is_whole", [False, True])
def test_a_gateways_file_that_cant_be_opened(tmp_path: Path, is_whole: bool) -> None:
    """It is named, with what to do; it is taken away, and what wasn't sent with it, where it isn't whole alone."""
    service = ServiceConfig(tmp_path / "service", receivers={"radio": Receiver()})
    prepare_folder(service.folder)
    path = service.folder / "gateway.gw1.db"
    if is_whole:
        path.mkdir()
    else:
        path.write_bytes(1000 * b"no database")
    with pytest.raises(Trouble, match="gateway.gw1.db.*" + ("owner" if is_whole else "take it away")) as told:
        gateway.run(Config(), Gateway("gw1", "north", "radio"), service, Ending())
    assert ("take it away" in str(told.value)) is not is_whole


def test_a_servers_clock_that_is_set_back(fleet: Fleet) -> None:
    """A tick comes in time all the same, also where its meter isn't heard any more: else a window would stay open for as long as the clock
    was ahead."""
    meter, ticks = fleet.meters[0].name, Ticks(10.0, 20.0, 1000.0)
    shard = store.one(fleet.database, "select shard_of(%s)", (meter,))
    fleet.database.execute("update meter set due = %s where address = %s", (NOW + 1000 * DAY, meter))
    assert [sessions.due_ticks(fleet.database, ticks, shard, moment, 10) for moment in (NOW, NOW + 19)] == [[], []]
    assert [address for _, address in sessions.due_ticks(fleet.database, ticks, shard, NOW + 21, 10)] == [meter]


def test_a_gap_behind_a_servers_clock_that_is_set_back(fleet: Fleet) -> None:
    """Its gateway is asked all the same, in place of nothing of it being taken any more for as long as the clock was ahead."""
    taking, now = Intake(fleet.config, fleet.database, "test"), int(time.time())
    taking.take([Message(fleet.gateway, 5, 1, now, ())])
    fleet.database.execute("update gateway set asked = now() + interval '300 days'")
    assert taking.take([Message(fleet.gateway, 5, 3, now, ())]) == [Again(fleet.gateway, 5, 2)]
    assert taking.take([Message(fleet.gateway, 5, 4, now, ())]) == [], "it was just asked"


def test_a_downlink_of_a_servers_clock_that_is_set_back(fleet: Fleet) -> None:
    """It goes out, and counts for a window and no longer; the broker takes nothing that counts for many years, and all others would wait
    behind it."""
    now, meter = time.time(), fleet.meters[0].name
    store.copy_rows(fleet.database, "outbox (gateway, address, down, frame, command, made)",
                    [(fleet.gateway, meter, 1, "01", 1, now + 20_000 * DAY), (fleet.gateway, meter, 2, "02", 1, now)])
    with broker.connected(fleet.config.broker) as connection:
        channel = broker.opened(connection)
        assert downlinks.send(fleet.config, fleet.database, channel, now) == 2
        bodies = [next(channel.consume(broker.gateway_queue(fleet.gateway), auto_ack=True, inactivity_timeout=10))[2] for _ in range(2)]
    assert bodies == [down_body(Down(meter, 1, "01", 900)), down_body(Down(meter, 2, "02", 900))]


def test_what_was_written_while_a_servers_clock_was_ahead(fleet: Fleet, monkeypatch: pytest.MonkeyPatch) -> None:
    """It holds up nothing that is kept no longer, however much it is."""
    monkeypatch.setattr("wmbus_fleet.retention.STEP", 3)
    fleet.tell(NOW)
    made = [*[NOW + 900 * DAY] * 4, *[NOW - 9 * DAY] * 5, NOW - DAY]
    store.copy_rows(fleet.database, "line (number, address, text, made)", [(place, "m", "A 1 00", it) for place, it in enumerate(made)])
    assert [Retention(fleet.database, Keep()).let_go(NOW) for _ in range(3)] == [True, True, False]
    assert store.one(fleet.database, "select array_agg(number order by number) from line") == [0, 1, 2, 3, 9]


def put_readings(fleet: Fleet, told: list[tuple[float, float]]) -> None:
    """Readings that were written at moments of the server's, and told of moments of a gateway's, by their numbers."""
    store.copy_rows(fleet.database, "reading (line, address, counter, moment, payload, more, records, made)",
                    [(line, fleet.meters[0].name, line, moment, "", False, "[]", made) for line, (made, moment) in enumerate(told, 1)])


def readings_left(fleet: Fleet) -> list[int]:
    """The numbers of the readings that are there."""
    return [line for (line,) in fleet.database.execute("select line from reading order by line")]


def test_a_servers_clock_that_is_far_ahead(fleet: Fleet, caplog: pytest.LogCaptureFixture) -> None:
    """It lets no reading go that is young by most gateways' clocks, and none at all while it hears of no gateway, as just behind the moment
    at which it was set so. That is said once."""
    now, keep = int(time.time()), Keep(readings=365)
    put_readings(fleet, [(now - 366 * DAY, now - 366 * DAY), (now - 364 * DAY, now - 364 * DAY), (now - DAY, now - DAY)])
    retaining = Retention(fleet.database, keep)
    assert not retaining.let_go(now + 400 * DAY) and readings_left(fleet) == [1, 2, 3]
    commands.add_gateway(fleet.config, fleet.database, fleet.area, f"{fleet.gateway}2")
    commands.add_gateway(fleet.config, fleet.database, fleet.area, f"{fleet.gateway}3")
    untils = {f"{fleet.gateway}": now - 100, f"{fleet.gateway}2": now - 30, f"{fleet.gateway}3": now + 4000 * int(DAY)}
    for name, until_moment in untils.items():
        fleet.database.execute("update gateway set until = %s, seen = now() where name = %s", (until_moment, name))
    for _ in range(3):
        retaining.let_go(now + 400 * DAY)
    assert readings_left(fleet) == [2, 3]
    assert len([it for it in caplog.records if "400 days" in it.getMessage() and "clock" in it.getMessage()]) == 1
    for _ in range(3):
        assert not retaining.let_go(now - 30 * DAY) and readings_left(fleet) == [2, 3]
    assert len([it for it in caplog.records if "30 days behind" in it.getMessage() and "clock" in it.getMessage()]) == 1
    fleet.database.execute("update gateway set until = until - %s where until < %s", (int(400 * DAY), now))
    assert not retaining.let_go(now) and readings_left(fleet) == [2, 3], "gateways' clocks that are behind let nothing go"
    assert metrics.take(fleet.config).gauges["gateways_clock_seconds"] == pytest.approx(-400 * DAY, abs=LIMIT)
    assert [line for line in in_words(figures(fleet.database)) if "most gateways tell a moment 345600" in line and "s behind" in line]


def test_what_was_written_while_a_servers_clock_was_behind(fleet: Fleet) -> None:
    """As before it had the time, behind a start: a reading that its gateway heard a day ago stays; where that one's clock was wrong the
    server's alone counts."""
    fleet.tell(NOW)
    put_readings(fleet, [(5.0, NOW - DAY), (5.0, NOW - 9 * DAY), (NOW - 9 * DAY, NOW + 4000 * DAY), (NOW - 9 * DAY, 0), (NOW - DAY, 0)])
    Retention(fleet.database, Keep(readings=7)).let_go(NOW)
    assert readings_left(fleet) == [1, 5]


def test_a_tick_behind_another_gateways_later_line(fleet: Fleet) -> None:
    """Where that one came in front of what the meter's own gateway heard before the tick was due, the tick waits for this all the same."""
    meter = fleet.meters[0].name
    heard = [arrived(meter, gateway, 1, 1, place, text) for place, (gateway, text) in enumerate(
        [("gw2", "A 600 00"), ("gw1", "A 400 00"), ("gw2", "A 610 00")], 1)]
    assert [event.text for event in sessions.with_ticks(heard, [(500.0, meter)])] == ["A 600 00", "A 400 00", f"T {meter}", "A 610 00"]


def test_a_tick_at_which_the_program_fails(fleet: Fleet, monkeypatch: pytest.MonkeyPatch) -> None:
    """It is found and set aside also while lines of other meters keep coming, and overtakes none of its own meter."""
    meter = fleet.meters[0].name
    shard = store.one(fleet.database, "select shard_of(%s)", (meter,))
    beside = next(it for it in map("{:016x}".format, range(1000)) if store.one(fleet.database, "select shard_of(%s)", (it,)) == shard)
    fleet.database.execute("update meter set due = %s, gateway = %s where address = %s", (NOW - 100, fleet.gateway, meter))
    fleet.database.execute("update gateway set until = %s", (int(NOW),))

    def run(words: Any, state: str, lines: list[str]) -> Any:
        if f"T {meter}" in lines:
            raise ProgramFailed(101, "no")
        return stand_in(words, state, lines)
    monkeypatch.setattr(sessions, "run_steps", run)
    hearing, count = sessions.Sessions(fleet.config, fleet.database), 0
    for turn in range(60):
        # (so many that the next session never takes all of them)
        rows = [(meter if place == 90 and not turn else beside, fleet.gateway, 1, turn, place, f"A {int(NOW) - 200} 00")
                for place in range(100)]
        store.copy_rows(fleet.database, "inbox (address, gateway, epoch, message, place, text)", rows)
        count += hearing.session(shard, NOW)
    assert fleet.database.execute("select text from aside").fetchall() == [(f"T {meter}",)]
    assert store.one(fleet.database, "select count(*) from line where message = 0 and place = 90") == 1


@pytest.mark.parametrize("status", [-9, 10])
def test_a_program_that_is_ended_again_and_again(fleet: Fleet, monkeypatch: pytest.MonkeyPatch, caplog: pytest.LogCaptureFixture, status: int
                                                 ) -> None:
    """As where the machine's memory is short: that is said once, as what it is, and counted, and no line is set aside for it, also where it
    comes while the program is looked at without one that it failed at twice."""
    meter, ends = fleet.meters[0].name, [*[status] * 9, 101, 101, status]
    shard = store.one(fleet.database, "select shard_of(%s)", (meter,))

    def run(words: Any, state: str, lines: list[str]) -> Any:
        if ends:
            raise ProgramFailed(ends.pop(0), "no")
        return stand_in(words, state, lines)
    monkeypatch.setattr(sessions, "run_steps", run)
    rows = [(meter, fleet.gateway, 1, 1, place, f"A {place} 00") for place in (1, 2, 3)]
    store.copy_rows(fleet.database, "inbox (address, gateway, epoch, message, place, text)", rows)
    hearing = sessions.Sessions(fleet.config, fleet.database)
    assert [hearing.session(shard, NOW) for _ in range(9)] == 9 * [0], "it waits, and doesn't go on at once"
    said = [it.getMessage() for it in caplog.records]
    assert len(said) == 1 and "ended from outside" in said[0] and "memory" in said[0]
    for _ in range(5):
        hearing.session(shard, NOW)
    assert [place for (place,) in fleet.database.execute("select place from line order by number")] == [1, 2, 3]
    assert store.one(fleet.database, "select count(*) from aside") == 0
    assert metrics.take(fleet.config).counters["ended"] == 10.0


def test_two_gateways_in_the_same_moment(fleet: Fleet, tmp_path: Path, monkeypatch: pytest.MonkeyPatch) -> None:
    """As behind a start of the broker: another one of the name that listens just behind the question whether there is one is seen."""
    service, ending = ServiceConfig(tmp_path / "service", receivers={"radio": Receiver()}), Ending()
    prepare_folder(service.folder)
    with broker.connected(fleet.config.broker) as first, broker.connected(fleet.config.broker) as second, \
            closing(open_gateway(tmp_path / "gateway.db", time.time())) as database:
        beside, find = broker.opened(first), broker.find_gateway

        def found(connection: Any, name: str) -> int:
            count = find(connection, name)
            if not beside.consumer_tags:
                broker.consume(beside, broker.gateway_queue(name), lambda *_: None)
            return count
        monkeypatch.setattr(broker, "find_gateway", found)
        stopping = threading.Timer(5, ending.set)
        stopping.start()
        with pytest.raises(Trouble, match="another one with this name"):
            Agent(fleet.config, Gateway(fleet.gateway, fleet.area, "radio"), service, database)._serve(second, ending)
        stopping.cancel()


def test_two_gateways_within_a_millisecond(fleet: Fleet, tmp_path: Path, monkeypatch: pytest.MonkeyPatch) -> None:
    """Of two that both were told that nobody listens one alone is taken. The broker itself takes the second one as well, and tells of one that
    listens."""
    service, ending, consume, taken = ServiceConfig(tmp_path / "service", receivers={"radio": Receiver()}), Ending(), broker.consume, []
    prepare_folder(service.folder)
    ending.set()
    with broker.connected(fleet.config.broker) as first, broker.connected(fleet.config.broker) as second, \
            closing(open_gateway(tmp_path / "gateway.db", time.time())) as database:
        agent = Agent(fleet.config, Gateway(fleet.gateway, fleet.area, "radio"), service, database)

        def serve(connection: Any) -> int:
            try:
                agent._serve(connection, ending)
                taken.append(connection)
            except Trouble as trouble:
                assert "another one with this name" in str(trouble)
            return len(taken)

        def consumed(*words: Any) -> None:
            monkeypatch.setattr(broker, "consume", consume)
            serve(second)
            consume(*words)
        monkeypatch.setattr(broker, "consume", consumed)
        assert serve(first) == 1
        taken[0].close()
        until(lambda: serve(second if taken[0] is first else first) == 2)


@pytest.mark.parametrize("words", [
    ["gateways", "north", "\udcff"], ["commands", "\udcff"], ["command", "--cancel", "\udcff"], ["rekey", 16 * "0"]])
def test_words_that_are_no_text(fleet: Fleet, tmp_path: Path, monkeypatch: pytest.MonkeyPatch, capsys: pytest.CaptureFixture[str],
                                words: list[str]) -> None:
    """As of a terminal or a file in another encoding: that is said in words, without a trace, in which a key could stand."""
    (tmp_path / "fleet.toml").write_text(f'database = "{fleet.config.database}"\n')
    monkeypatch.setattr("sys.stdin", io.TextIOWrapper(io.BytesIO(b"wmbus-roster 2\xff\n"), encoding="utf-8"))
    assert commandline.main(["--config", str(tmp_path / "fleet.toml"), *words]) == 1
    assert "UTF-8" in capsys.readouterr().err


def test_no_proxy_has_the_administrators_password(monkeypatch: pytest.MonkeyPatch) -> None:
    """Whatever the environment names for the way to others."""
    monkeypatch.setattr("wmbus_fleet.administration.PATIENCE", 2.0)
    for name in ("no_proxy", "NO_PROXY"):
        monkeypatch.delenv(name, raising=False)
    with socket.create_server(("127.0.0.1", 0)) as proxy:
        monkeypatch.setenv("http_proxy", f"http://127.0.0.1:{proxy.getsockname()[1]}")
        with pytest.raises(Trouble, match="management"):
            Administration(Broker(management="http://127.0.0.1:1")).depths()
        proxy.setblocking(False)
        with pytest.raises(BlockingIOError):
            proxy.accept()


def test_something_else_at_the_address_of_the_management() -> None:
    """It is named, without a trace."""
    with socket.create_server(("127.0.0.1", 0)) as server:
        def answer() -> None:
            with server.accept()[0] as asked:
                asked.recv(1 << 16)
                asked.sendall(b"HTTP/1.0 200 OK\r\n\r\n<html>")
        threading.Thread(target=answer, daemon=True).start()
        with pytest.raises(Trouble, match="management"):
            Administration(Broker(management=f"http://127.0.0.1:{server.getsockname()[1]}")).depths()


@pytest.mark.parametrize("address", ["http://127.0.0.1:port", "http://a b:15672", "http://[::1", "http://house..net:15672"])
def test_an_address_of_the_management_that_cant_be(address: str) -> None:
    """It is named, without a trace."""
    with pytest.raises(Trouble, match="management"):
        Administration(Broker(management=address)).depths()


@pytest.mark.parametrize("unit", sorted((Path(__file__).parents[1] / "systemd").iterdir()), ids=lambda path: str(path.name))
def test_a_part_that_ends_again_and_again(unit: Path) -> None:
    """As a gateway whose disk is full: systemd starts it for as long as that takes, where else it would leave it for good once it ended five
    times within ten seconds (systemd.unit(5), StartLimitIntervalSec)."""
    told = ConfigParser(interpolation=None)
    told.read(unit)
    assert told["Service"]["Restart"] == "always" and told["Unit"].get("StartLimitIntervalSec") == "0"


def test_who_reads_the_configuration(tmp_path: Path) -> None:
    """Its user has to, whom the folder lets in: as that of the package, what `install` puts there may be read."""
    for folder in ("usr/lib/wmbus/wmbus_service", "usr/bin", "lib/systemd/system", "etc/wmbus"):
        (tmp_path / folder).mkdir(parents=True)
    subprocess.run([Path(__file__).parents[1] / "install", tmp_path], check=True, stdout=subprocess.DEVNULL)
    assert (tmp_path / "etc/wmbus/fleet.toml").stat().st_mode & 0o777 == 0o644


def test_an_installation_under_a_strict_umask(tmp_path: Path) -> None:
    """Whatever the umask of who installs is, as 077 of root's on many machines, the user of the parts can read all and start the programs."""
    for folder in ("usr/lib/wmbus/wmbus_service", "usr/bin", "lib/systemd/system", "etc/wmbus"):
        (tmp_path / folder).mkdir(parents=True)
    run(["sh", "-c", f"umask 077; exec sh {Path(__file__).parents[1]}/install {tmp_path}"])
    package = tmp_path / "usr/lib/wmbus/wmbus_fleet"
    found = [package, *package.rglob("*"), *(it for it in tmp_path.rglob("*") if it.is_file())]
    assert len(found) > 40
    for path in found:
        wanted = 0o755 if path.is_dir() or os.access(path, os.X_OK) else 0o644
        assert path.stat().st_mode & 0o777 == wanted, path


def of_the_package(folder: Path, name: str) -> Path:
    """What Debian's package manager starts for a package, over a folder of the test's own in the place of the system's."""
    text = (Path(__file__).parents[1] / "debian" / name).read_text(encoding="utf-8")
    for place in ("/etc/systemd/system", "/usr/lib/wmbus", "/run/systemd/system"):
        text = text.replace(place, f"{folder}{place}")
    (folder / "script").write_text(text)
    return folder / "script"


@pytest.mark.parametrize("package, gone", [
    ("gateway", ["wmbus-gateway"]),
    ("server", ["wmbus-intake@0", "wmbus-intake@1", "wmbus-sessions@0", "wmbus-downlinks", "wmbus-fleet-page", "wmbus-fleet-metrics"])])
def test_a_purge_and_units(tmp_path: Path, package: str, gone: list[str]) -> None:
    """What `systemctl enable` made goes too, so that what is installed anew starts nothing; other packages' units stay."""
    wants = tmp_path / "etc/systemd/system/multi-user.target.wants"
    wants.mkdir(parents=True)
    for name in ("wmbus", "ssh", *gone):
        (wants / f"{name}.service").symlink_to(f"/lib/systemd/system/{name}.service")
    run(["sh", of_the_package(tmp_path, f"{package}/postrm"), "purge"])
    assert {path.stem for path in wants.iterdir()} == {"wmbus", "ssh"}


@pytest.mark.parametrize("is_there", [True, False])
def test_a_removal(tmp_path: Path, is_there: bool) -> None:
    """The package can be removed also where somebody took its folder away before; what Python made of its files goes."""
    if is_there:
        (tmp_path / "usr/lib/wmbus/wmbus_fleet/view/__pycache__").mkdir(parents=True)
    run(["sh", of_the_package(tmp_path, "fleet/prerm"), "remove"])
    assert not list(tmp_path.rglob("__pycache__"))


def test_a_queue_that_is_gone(fleet: Fleet) -> None:
    """The metrics have those of the other areas, and don't say that the broker is down."""
    taken, areas = metrics.Taken(), ["an-area-without", fleet.area]
    metrics._take_queues(fleet.config, taken, areas)
    assert taken.labelled["queue_messages"] == {fleet.area: 0.0} and taken.gauges["broker_up"] == 1.0


def test_metrics_without_the_brokers_password(fleet: Fleet) -> None:
    """What the database says is told all the same."""
    taken = metrics.take(replace(fleet.config, broker=replace(fleet.config.broker, password_file="/nowhere/broker.password")))
    assert taken.gauges["meters"] == 3.0 and taken.gauges["broker_up"] == 0.0


def test_a_demo_on_a_slow_machine(monkeypatch: pytest.MonkeyPatch) -> None:
    """It is waited as long as telegrams are heard, however long all of them take."""
    heard, clock = itertools.count(), itertools.count(0, 50)
    monkeypatch.setattr(Demo, "heard", lambda _self: next(heard))
    monkeypatch.setattr(Demo, "look_at_parts", lambda _self: None)
    monkeypatch.setattr(demo, "time", SimpleNamespace(monotonic=lambda: next(clock)))
    monkeypatch.setattr(Ending, "wait", lambda *_: False)
    object.__new__(Demo).wait(9, Ending(), lambda _words: None)


def test_a_demo_in_a_folder_with_modules(tmp_path: Path, monkeypatch: pytest.MonkeyPatch) -> None:
    """What lies where it is started, under the name of a module of Python's, is none of its parts'."""
    started_with: list[Any] = []
    monkeypatch.setattr(lifeline, "started", lambda *words: started_with.extend(words))
    (tmp_path / "random.py").write_text("raise SystemExit(7)")
    made = object.__new__(Demo)
    vars(made).update(folder=tmp_path, parts=[])
    made._start(tmp_path / "fleet.toml", "intake")
    words, _, environment = started_with
    assert run([*words, "--help"], cwd=tmp_path, env=environment, check=False).returncode == 0


def test_a_demo_that_lags(monkeypatch: pytest.MonkeyPatch) -> None:
    """What has long been due is sent no further once it is told to end."""
    made, ending, sent = object.__new__(Demo), Ending(), []

    def spool(_self: Demo, lines: Any) -> None:
        sent.append(lines)
        assert len(sent) < 9
        ending.set()
    monkeypatch.setattr(Demo, "_spool", spool)
    monkeypatch.setattr(Demo, "answer", lambda _self: True)
    monkeypatch.setattr(Demo, "look_at_parts", lambda _self: None)
    vars(made).update(seconds=1e-9, town=SimpleNamespace(meters=[0], sent=lambda *_: ()))
    made.go_on(ending)
    assert len(sent) == 1


@pytest.mark.parametrize("seconds, port", [(float("nan"), 9103), (30.0, 70_000), (30.0, -1)])
def test_words_of_a_demo_that_cant_be(monkeypatch: pytest.MonkeyPatch, seconds: float, port: int) -> None:
    """They are named before servers start."""
    def starts() -> None:
        raise AssertionError("servers start")
    monkeypatch.setattr(demo, "own_folder", starts)
    with pytest.raises(Trouble):
        demo.run(10, seconds, port, Ending(), print)


def test_a_large_roster_with_a_fault(fleet: Fleet, monkeypatch: pytest.MonkeyPatch) -> None:
    """None of its meters is added, as of a short one, and it is said where the fault is."""
    for module in ("wmbus_service.meters", "wmbus_fleet.commands"):
        monkeypatch.setattr(f"{module}.PIECE", 2)
    *lines, last = roster_of(some_meters(random.Random(4), 5)).splitlines()
    with pytest.raises(Trouble, match="the roster, behind its first 4 meters: .*line 3"):
        commands.take_roster(fleet.config, fleet.database, "\n".join([*lines, f"{last}x"]), "the roster")
    assert store.one(fleet.database, "select count(*) from meter") == 3


def test_a_roster_from_the_standard_input(fleet: Fleet, tmp_path: Path, monkeypatch: pytest.MonkeyPatch) -> None:
    """It is taken as the same file is, whatever signs stand in its comments."""
    told, roster = tmp_path / "fleet.toml", roster_of(some_meters(random.Random(3), 5))
    text = f"# K\u00e4ltez\u00e4hler, 5 \u20ac\n{roster}".encode() + b"# \xe4\n"
    steps = fleet.config.programs.steps or f"{Path(__file__).parents[3]}/tests/reference/steps"
    told.write_text(f'database = "{fleet.config.database}"\n[programs]\nsteps = "{steps}"\n')
    monkeypatch.setattr("sys.stdin", io.TextIOWrapper(io.BytesIO(text), encoding="utf-8"))
    assert commandline.main(["--config", str(told), "commission", "-"]) == 0
    assert store.one(fleet.database, "select count(*) from meter") == 5


@pytest.mark.parametrize("given, status", [("00112233445566778899AABBCCDDEEFF", 0), (" 00 11 22 33 44 55 66 77 88 99 aa bb cc dd ee ff\r", 0),
                                           ("", 1), ("0011", 1)])
@pytest.mark.parametrize("is_terminal", [False, True])
def test_how_a_new_key_is_given(fleet: Fleet, tmp_path: Path, monkeypatch: pytest.MonkeyPatch, given: str, status: int,
                                is_terminal: bool) -> None:
    """As to the service: as it stands on a delivery note too, with blanks; a terminal's end is no key."""
    def asked(_prompt: str) -> str:
        if not given:
            raise EOFError
        return given
    (tmp_path / "fleet.toml").write_text(f'database = "{fleet.config.database}"\n')
    given_in = io.StringIO(f"{given}\n")
    monkeypatch.setattr(given_in, "isatty", lambda: is_terminal)
    monkeypatch.setattr("sys.stdin", given_in)
    monkeypatch.setattr("getpass.getpass", asked)
    assert commandline.main(["--config", str(tmp_path / "fleet.toml"), "rekey", fleet.meters[0].name]) == status
    assert store.pairs(fleet.database, "select kind, payload from command") == (
        {} if status else {"rekey": "00112233445566778899aabbccddeeff"})


@pytest.mark.parametrize("told", [Metrics(port=70_000), Metrics(host="house..net")])
def test_where_no_metrics_can_be(told: Metrics) -> None:
    """It is named, without a trace."""
    with pytest.raises(Trouble, match="metrics"):
        metrics.run(Config(metrics=told), Ending())


def test_silent_and_slow_connections_to_the_metrics(monkeypatch: pytest.MonkeyPatch) -> None:
    """Who connects and says nothing, or a byte now and then, as anybody may who reaches the port, holds nothing for longer than a moment, and
    however many do, the metrics are had meanwhile."""
    monkeypatch.setattr(of_service, "SILENCE", 1.0)
    monkeypatch.setattr(metrics, "take", lambda _config: metrics.Taken(counters={"heard": 5.0}))
    ending, port = Ending(), own_servers.free_port()
    serving = threading.Thread(target=metrics.run, args=(Config(metrics=Metrics(port=port)), ending))
    serving.start()
    try:
        until(lambda: own_servers._listens(port))
        threads = threading.active_count()
        slow, *silent = [socket.create_connection(("127.0.0.1", port)) for _ in range(100)]
        with closing(urllib.request.urlopen(f"http://127.0.0.1:{port}/metrics", timeout=LIMIT)) as answer:
            assert b"wmbus_fleet_heard_total 5.0" in answer.read()
        assert threading.active_count() <= threads + 40
        with pytest.raises(ConnectionError):
            for _ in range(20 * LIMIT):
                slow.send(b"G")
                time.sleep(0.05)
        for opened in silent:
            opened.settimeout(LIMIT)
            assert opened.recv(1) == b""
        until(lambda: threading.active_count() <= threads)
    finally:
        ending.set()
        serving.join(LIMIT)


def test_what_metrics_lack_is_said_once(fleet: Fleet, monkeypatch: pytest.MonkeyPatch, caplog: pytest.LogCaptureFixture) -> None:
    """And anew once it was there meanwhile: they are taken four times a minute, over a weekend without a database too."""
    ending, turns, nowhere = Ending(), 0, Broker(port=1)
    take = metrics.take

    def taken(_config: Config) -> metrics.Taken:
        nonlocal turns
        turns += 1
        if turns == 8:
            ending.set()
        if turns in (1, 2):
            raise psycopg.OperationalError("no database")
        return take(fleet.config if turns in (5, 6) else replace(fleet.config, broker=nowhere))
    monkeypatch.setattr(metrics, "take", taken)
    monkeypatch.setattr(metrics, "INTERVAL", 0.01)
    monkeypatch.setattr(metrics, "serve_figures", lambda *_: None)
    metrics.run(fleet.config, ending)
    said = [it.getMessage() for it in caplog.records if it.getMessage().startswith("the metrics: ")]
    assert ["no database" in it for it in said] == [True, False, False] and all("port 1" in it for it in said[1:])


def test_metrics_before_any_were_taken() -> None:
    """No counter is 0 for a moment, as behind a start of the process: what comes next would be taken for a rise of all that ever was."""
    (told,) = [it for it in metrics.Figures().collect() if it.samples]
    assert told.name == "wmbus_fleet_figures_age_seconds" and told.samples[0].value < LIMIT


@pytest.mark.parametrize("text, words", [
    ('[programs]\nsteps = "/opt/tim\'s/wmbus steps"', "programs.steps isn't a command"),
    ('[programs]\naddress_list = ""', "programs.address_list is empty"),
    ('database = "host=db password=very secret"', "database isn't in libpq's words"),
    ('database = "postgresql://wmbus:se%cret@db/wmbus"', "database isn't in libpq's words")])
def test_a_setting_that_cant_be(tmp_path: Path, text: str, words: str) -> None:
    """It is named, without what may be a part of a password."""
    (tmp_path / "fleet.toml").write_text(text)
    with pytest.raises(Trouble, match=words) as told:
        read_config(tmp_path / "fleet.toml")
    assert "cret" not in str(told.value)


@pytest.mark.parametrize("host", ["node1 node2:5672x", "node1:", "::1"])
def test_a_port_of_a_node_that_cant_be(host: str) -> None:
    """It is named, and no other port is taken in its place."""
    with pytest.raises(Trouble, match="no port"), broker.connected(Broker(host)):
        pass


@pytest.mark.parametrize("content", ["a secret", "a secret\n", "a secret\r\n"])
def test_the_brokers_password(tmp_path: Path, content: str) -> None:
    """It is what stands in its file, however an editor ends a line."""
    (tmp_path / "broker.password").write_text(content, newline="")
    assert broker.password_of(Broker(password_file=str(tmp_path / "broker.password"))) == "a secret"


def test_no_core_file(tmp_path: Path) -> None:
    """Where a part dies of a fault none is left, in which keys would stand: neither as a file, of which the limit is 0, nor by what takes core
    files through a pipe, which that doesn't hold (core(5)), and which gets none of a process that can't be dumped (prctl(2))."""
    text = ("import ctypes, resource\nfrom wmbus_fleet.commandline import _ending\n_ending()\n"
            "print(resource.getrlimit(resource.RLIMIT_CORE), ctypes.CDLL(None).prctl(3, 0, 0, 0, 0))")
    folders = Path(__file__).parents[1:3]
    ran = run([PYTHON, "-c", text], env=os.environ | {"PYTHONPATH": ":".join(map(str, folders))}, cwd=tmp_path)
    assert ran.stdout == "(0, 0) 0\n"


def test_names_of_a_file_of_another_system(fleet: Fleet, tmp_path: Path) -> None:
    """A sign that some editors put in front of the first line is none of its address."""
    path = tmp_path / "names"
    path.write_text("".join(f"{meter.name} Flat {place}\n" for place, meter in enumerate(fleet.meters)), encoding="utf-8-sig")
    assert commands.put_names(fleet.database, path) == 3


@pytest.mark.parametrize("name, area, words", [
    ("Cellar-12", "north", "gateway.name"), ("a/b", "north", "gateway.name"), ("gw1", "North", "gateway.area")])
def test_a_gateways_name_that_none_can_have(tmp_path: Path, name: str, area: str, words: str) -> None:
    """It is named at once: the broker would take all that it sends, and each intake leave it, for good."""
    service, ending = ServiceConfig(tmp_path / "service", receivers={"radio": Receiver()}), Ending()
    ending.set()
    with pytest.raises(Trouble, match=words):
        gateway.run(Config(), Gateway(name, area, "radio"), service, ending)


def test_a_gateway_beside_the_service_of_one_machine(tmp_path: Path, monkeypatch: pytest.MonkeyPatch) -> None:
    """Each would take lines from the other: whichever comes second says so. Gateways of several receivers are beside each other."""
    service, ending, begun = ServiceConfig(tmp_path / "service", receivers={"radio": Receiver()}), Ending(), 0
    ending.set()
    prepare_folder(service.folder)

    def begin(name: str) -> None:
        gateway.run(Config(), Gateway(name, "north", "radio"), service, ending)
    held = lock(service.folder)
    with pytest.raises(Trouble, match="another service"):
        begin("gw1")
    os.close(held)

    def run(_self: Agent, _ending: Ending) -> None:
        nonlocal begun
        begun += 1
        with pytest.raises(Trouble, match="another service"):
            lock(service.folder)
        if begun == 1:
            begin("gw2")
    monkeypatch.setattr(Agent, "run", run)
    begin("gw1")
    assert begun == 2


def test_an_intake_of_an_area_that_there_is_none_of(fleet: Fleet, caplog: pytest.LogCaptureFixture) -> None:
    """As by a slip of the pen: it says so, in place of waiting at a queue of its own while the messages of the area wait in theirs."""
    ending = Ending()
    stopping = threading.Timer(3, ending.set)
    stopping.start()
    intake.run(fleet.config, [fleet.area, f"{fleet.area}x"], "test", ending)
    stopping.join()
    assert [it.getMessage() for it in caplog.records if f"area {fleet.area}x" in it.getMessage() and "no such area" in it.getMessage()]
    with broker.connected(fleet.config.broker) as connection, pytest.raises(broker.FAULTS, match="no queue"):
        broker.depth(broker.opened(connection), broker.area_queue(f"{fleet.area}x"))


def test_a_gateway_with_the_name_of_the_fleets_own_user(fleet: Fleet, tmp_path: Path, monkeypatch: pytest.MonkeyPatch) -> None:
    """That one would get a gateway's password and rights, or be taken away, and all parts be shut out."""
    asked: list[Any] = []
    monkeypatch.setattr(Administration, "_ask", lambda _self, *words, **_more: asked.append(words))
    name = fleet.config.broker.user
    with pytest.raises(Trouble, match="own user"):
        gateways.add(fleet.config, fleet.database, fleet.area, name, tmp_path)
    commands.add_gateway(fleet.config, fleet.database, fleet.area, name)
    with pytest.raises(Trouble, match="own user"):
        gateways.add(fleet.config, fleet.database, fleet.area, name, None)
    with pytest.raises(Trouble, match="own user"):
        gateways.remove(fleet.config, fleet.database, name)
    assert asked == [] and list(tmp_path.iterdir()) == []


def test_many_ticks_of_which_the_program_fails_at_one(fleet: Fleet, monkeypatch: pytest.MonkeyPatch) -> None:
    """The others are heard many at a time behind it: while they are, lines wait."""
    shard, meters = 3, some_meters(random.Random(3), 1500)
    commands._add_meters(fleet.database, [meter.line().split() for meter in meters])
    fleet.database.execute("update meter set due = %s where shard_of(address) = %s", (NOW - 100, shard))
    failing = store.one(fleet.database, "select min(address) from meter where due is not null")

    def run(words: Any, state: str, lines: list[str]) -> Any:
        if f"T {failing}" in lines:
            raise ProgramFailed(101, "no")
        return stand_in(words, state, lines)
    monkeypatch.setattr(sessions, "run_steps", run)
    hearing = sessions.Sessions(fleet.config, fleet.database)
    for _ in range(25):
        hearing.session(shard, NOW)
    assert fleet.database.execute("select text from aside").fetchall() == [(f"T {failing}",)]
    assert store.one(fleet.database, "select count(*) from meter where due is not null") == 0


@pytest.mark.parametrize("text", ["", "no certificate"])
def test_an_authority_that_cant_be_read(tmp_path: Path, text: str) -> None:
    """Its file is named."""
    path = tmp_path / "authority.pem"
    if text:
        path.write_text(text)
    told = Broker(tls=True, authority=str(path), management="https://127.0.0.1:15671")
    with pytest.raises(Trouble, match="authority.pem"), broker.connected(told):
        pass
    with pytest.raises(Trouble, match="authority.pem"):
        Administration(told)


def test_a_gateways_file_is_made_at_once(tmp_path: Path, monkeypatch: pytest.MonkeyPatch) -> None:
    """Whoever looks into it finds all of it: tables without their one row told of no epoch."""
    path, connect, seen = tmp_path / "gateway.db", service_store.connect, set[tuple[int]]()

    def look(_statement: str) -> None:
        with closing(sqlite3.connect(path)) as other:
            if other.execute("select 1 from sqlite_master where name = 'numbering'").fetchone():
                seen.add(other.execute("select epoch from numbering").fetchone())

    def connected(place: Path) -> sqlite3.Connection:
        database = connect(place)
        database.set_trace_callback(look)
        return database
    monkeypatch.setattr(service_store, "connect", connected)
    open_gateway(path, NOW).close()
    look("")
    ((epoch,),) = seen
    assert second_of(epoch) == NOW
