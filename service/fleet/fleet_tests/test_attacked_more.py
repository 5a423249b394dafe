"""What else was attacked: a database that comes back as it was, a broker that is short of room, roles without keys, and what it costs to look
at a fleet."""
from __future__ import annotations

import logging
import random
import threading
import time
from collections.abc import Callable
from dataclasses import replace
from pathlib import Path
from typing import Any

import psycopg
import pytest
from tests.meters import line_of, next_telegrams, roster_of, some_meters
from tests.processes import until
from tests.stand_in import stand_in
from wmbus_fleet import allowing, backup, broker, commandline, commands, downlinks, intake, mark, metrics, sessions, store, sums
from wmbus_fleet.config import Config
from wmbus_fleet.intake import Consuming, Intake
from wmbus_fleet.messages import Message, lines_body
from wmbus_fleet.status import figures, in_words
from wmbus_fleet.view import looking
from wmbus_fleet.view.door import FleetDoor
from wmbus_service.ending import Ending
from wmbus_service import meters
from wmbus_service.trouble import Trouble

from .test_operated import short_memory
from .test_parts import DAY, NOW, Fleet, fleet
from .test_rights import written

__all__ = ["fleet"]
LINE = "A 1 00"
# seconds for which a part may say nothing
LIMIT = 20


def row_to_send(fleet: Fleet, down: int) -> None:
    """A downlink is committed."""
    store.copy_rows(fleet.database, "outbox (gateway, address, down, frame, command, made)",
                    [(fleet.gateway, fleet.meters[0].name, down, "00", 1, time.time())])


def copied(fleet: Fleet, name: str) -> Config:
    """The database as it is now, in another one, as a snapshot has it."""
    words = fleet.both.postgres.make(name)
    own = fleet.database.info.dbname
    with psycopg.connect(fleet.both.postgres.words("postgres"), autocommit=True) as server:
        server.execute(f"drop database {name}")
        fleet.database.close()
        server.execute(f"create database {name} template {own}")
    fleet.database = store.connect(fleet.config.database)
    return replace(fleet.config, database=words)


def test_a_database_that_was_set_back(fleet: Fleet, tmp_path: Path, capsys: pytest.CaptureFixture[str]) -> None:
    """Neither sessions nor a sender work over a snapshot behind which downlinks went out, until its counters are raised and what was open is
    cancelled; over one behind which none did they work. Two that look at the broker's mark at once both see it."""
    meter = fleet.meters[0].name
    with broker.connected(fleet.config.broker) as connection, broker.connected(fleet.config.broker) as beside:
        channel = broker.opened(connection)
        for down in (1, 2):
            row_to_send(fleet, down)
            assert downlinks.send(fleet.config, fleet.database, channel, time.time()) == 1
        commands.put_command(fleet.database, "c1", meter, "0102", NOW)
        config = copied(fleet, f"{fleet.database.info.dbname}old")
        with store.connect(config.database) as database:
            mark.judge(database, channel)
        row_to_send(fleet, 3)
        downlinks.send(fleet.config, fleet.database, channel, time.time())
        mark.judge(fleet.database, channel)
        for work in (sessions.run, downlinks.run):
            assert "it was set back" in said_by(work, config)
        with store.connect(config.database) as database:
            for it in (channel, broker.opened(beside), channel):
                with pytest.raises(Trouble, match="set back.*wmbus-fleet set-back --margin N"):
                    mark.judge(database, it)
        path = written(fleet, tmp_path / "fleet.toml")
        path.write_text(path.read_text().replace(fleet.config.database, config.database).replace(
            "[programs]\n", f'[programs]\nstate_raise = "{fleet.config.programs.state_raise}"\n'))
        assert commandline.main(["--config", str(path), "set-back", "--margin", "40"]) == 0
        assert capsys.readouterr().out == "set back, with 3 meters\n"
        with store.connect(config.database) as database:
            assert {block.split(" ")[6] for (block,) in database.execute("select block from meter")} == {"40"}
            assert store.pairs(database, "select id, state from command") == {"c1": "cancelled"}
            mark.judge(database, channel)
            mark.grow(database, channel)
            mark.judge(database, channel)
        with pytest.raises(Trouble, match="set back"):
            mark.judge(fleet.database, channel)


def said_by(work: object, config: Config) -> str:
    """What a part says that can't work."""
    said: list[str] = []
    ending = Ending()

    class Hearing(logging.Handler):
        """Keeps what is said, and ends the part."""

        def emit(self, record: logging.LogRecord) -> None:
            said.append(record.getMessage())
            ending.set()
    hearing, late = Hearing(), threading.Timer(LIMIT, ending.set)
    logging.getLogger("wmbus").addHandler(hearing)
    late.start()
    try:
        assert callable(work)
        work(config, ending)
    finally:
        late.cancel()
        logging.getLogger("wmbus").removeHandler(hearing)
    return "\n".join(said)


def test_a_restored_copy_takes_the_brokers_mark(fleet: Fleet, tmp_path: Path, monkeypatch: pytest.MonkeyPatch) -> None:
    """What was raised by `restore` may work."""
    monkeypatch.setenv("PATH", "/usr/lib/postgresql/15/bin:/usr/bin:/bin")
    backup.back_up(fleet.config, tmp_path / "copy")
    with broker.connected(fleet.config.broker) as connection:
        channel = broker.opened(connection)
        row_to_send(fleet, 1)
        downlinks.send(fleet.config, fleet.database, channel, time.time())
        config = replace(fleet.config, database=fleet.both.postgres.make(f"{fleet.database.info.dbname}new"))
        backup.restore(config, tmp_path / "copy", 10)
        with store.connect(config.database) as database:
            mark.judge(database, channel)


def test_a_broker_that_takes_no_questions(fleet: Fleet) -> None:
    """Where its memory or its disk is short it reads nothing more of a connection that publishes: what comes is taken and acknowledged all the
    same, and the question goes out once there is room."""
    other = f"{fleet.gateway}2"
    commands.add_gateway(fleet.config, fleet.database, fleet.area, other)
    with broker.connected(fleet.config.broker) as publishing, broker.connected(fleet.config.broker) as connection:
        channel, beside = broker.opened(publishing), broker.opened(connection)
        for number in (1, 9):
            broker.publish(channel, broker.EXCHANGE, broker.up_key(fleet.area, fleet.gateway), lines_body(5, number, 9, b""))
        for number in range(1, 30):
            broker.publish(channel, broker.EXCHANGE, broker.up_key(fleet.area, other), lines_body(5, number, 9, b""))
        consuming = Consuming(Intake(fleet.config, fleet.database, "test"), connection, [fleet.area])
        with short_memory(fleet):
            begun = time.monotonic()
            # (each batch asks)
            intake.ASKED_SECONDS, before = 0, intake.ASKED_SECONDS

            def is_taken() -> bool:
                consuming.turn()
                return bool(store.one(fleet.database, "select number from gateway where name = %s", (other,)) == 29)
            until(is_taken)
            assert time.monotonic() - begun < broker.BLOCKED
            until(lambda: (consuming.turn(), broker.depth(beside, broker.area_queue(fleet.area)) == 0)[1])
            assert consuming.asking.is_blocked
        intake.ASKED_SECONDS = before

        def is_asked() -> bool:
            consuming.turn()
            return broker.depth(beside, broker.gateway_queue(fleet.gateway)) > 0
        until(is_asked)
        consuming.asking.close()


def as_role(fleet: Fleet, role: str) -> str:
    """How the database is reached by a role of its own."""
    with psycopg.connect(fleet.both.postgres.words("postgres"), autocommit=True) as server:
        server.execute(f"create role {role} login password 'x'")
    return f"host=127.0.0.1 port={fleet.both.postgres.port} user={role} password=x dbname={fleet.database.info.dbname}"


def test_the_page_is_not_everybodys(fleet: Fleet) -> None:
    """A role sees nothing of it until it is allowed to, also behind a change of the tables; by that it sees no key."""
    role = f"{fleet.database.info.dbname}page"
    words = as_role(fleet, role)
    told = replace(fleet.config, database=words)
    with pytest.raises(Trouble):
        FleetDoor(told).opened()
    with pytest.raises(Trouble, match="no such role"):
        allowing.allow(fleet.database, "page", f"{role}x")
    allowing.allow(fleet.database, "page", role)
    for _ in range(2):
        door = FleetDoor(told).opened()
        assert len(door.execute("select address from meter").fetchall()) == 3
        for table in ("meter", "setting", "line", "command", "inbox"):
            with pytest.raises(psycopg.errors.InsufficientPrivilege):
                door.execute(f"select * from public.{table}")
        door.close()
        store.set_setting(fleet.database, "version", "3")
        for change in ("drop table digest", "drop table ended", "drop table kept cascade", "alter table refusal drop column gateway cascade", "alter table gateway drop column digests,"
                       " drop column lines cascade, drop column rate cascade, drop column strangers cascade", "drop schema page cascade"):
            fleet.database.execute(change)
        store.init(fleet.config.database)


def test_an_intake_has_no_key(fleet: Fleet) -> None:
    """It works with a role that may write what gateways say, and reads no block, key, setting, line or command."""
    role = f"{fleet.database.info.dbname}intake"
    words = as_role(fleet, role)
    allowing.allow(fleet.database, "intake", role)
    config, other = replace(fleet.config, database=words), ("A 2 2e449315010203040107",) * 60
    with store.connect(words) as database:
        taking = Intake(config, database, "test")
        taking.take([Message(fleet.gateway, 5, 1, 9, (LINE,)), Message(fleet.gateway, 5, 2, 9, other), Message(fleet.gateway, 6, 1, 9, ()),
                     Message(fleet.gateway, 6, 7, 9, ()), Message(fleet.gateway, 4, 1, 9, ())])
        assert fleet.fence() == (6, 1)
        for table in ("setting", "line", "command", "inbox", "reading", "outbox"):
            with pytest.raises(psycopg.errors.InsufficientPrivilege):
                database.execute(f"select * from public.{table}")
        with pytest.raises(psycopg.errors.InsufficientPrivilege):
            database.execute("select block from meter")


def test_lines_while_a_roster_is_commissioned(fleet: Fleet, monkeypatch: pytest.MonkeyPatch) -> None:
    """What a session hears of its meters as a stranger's, between the judging of the roster and its commit, is heard again; what is older
    isn't."""
    monkeypatch.setattr(sessions, "run_steps", stand_in)
    draw = random.Random(3)
    new = some_meters(draw, 6)[5]
    lines = [line_of(next_telegrams(draw, new)[0], moment).strip() for moment in (5, 6)]
    judge = meters.judge_roster
    hearing = sessions.Sessions(fleet.config, fleet.database)

    def meanwhile(*words: Any) -> None:
        judge(*words)
        rows = [(new.name, fleet.gateway, 1, place, 1, text) for place, text in enumerate(lines, 1)]
        store.copy_rows(fleet.database, "inbox (address, gateway, epoch, message, place, text)", rows)
        hearing.turn(NOW)
    monkeypatch.setattr(commands, "judge_roster", meanwhile)
    fleet.database.execute("select setval('line_number', 500000)")
    store.copy_rows(fleet.database, "line (number, address, gateway, epoch, message, place, text, made)",
                    [(7, new.name, fleet.gateway, 1, 0, 1, lines[0], NOW)])
    commands.take_roster(fleet.config, fleet.database, roster_of([new]), "a roster")
    assert store.one(fleet.database, "select count(*) from inbox") == 2
    hearing.turn(NOW)
    assert store.one(fleet.database, "select array_agg(message order by number) from line where gateway is not null") == [0, 1, 2]
    assert store.one(fleet.database, "select count(*) from reading where address = %s", (new.name,)) == 2


@pytest.mark.parametrize("hours", [13, 20, 38, 9999])
def test_a_gateway_that_was_silent_for_half_a_day(fleet: Fleet, hours: int) -> None:
    """Its rate is none: `status`, the page and the metrics say so, and what it sends next is taken."""
    taking = Intake(fleet.config, fleet.database, "test")
    taking.take([Message(fleet.gateway, 5, 1, 9, (LINE,) * 60)])
    fleet.database.execute("update gateway set seen = seen - %s * interval '1 hour'", (hours,))
    assert [line for line in in_words(figures(fleet.database)) if line.startswith(f"gateway {fleet.gateway} in {fleet.area}: not heard for ")]
    assert metrics.take(fleet.config).labelled["gateway_lines_per_second"][fleet.gateway] < 1e-9
    door = FleetDoor(fleet.config).opened()
    assert looking.overview(door, time.time())
    door.close()
    taking.take([Message(fleet.gateway, 5, 2, 9, (LINE,) * 60)])
    assert fleet.fence() == (5, 2) and store.one(fleet.database, "select round(rate::numeric, 6) from gateway") == 1


def read_of_meters(database: Any, work: Callable[[], object]) -> int:
    """How many rows of meters and refusals PostgreSQL reads for something."""
    def so_far() -> int:
        return int(database.execute("select sum(seq_tup_read + coalesce(idx_tup_fetch, 0))::bigint from pg_stat_xact_user_tables"
                                    " where relname in ('meter', 'refusal', 'gateway')").fetchone()[0])
    database.execute("begin")
    try:
        before = so_far()
        work()
        return so_far() - before
    finally:
        database.execute("rollback")


def test_what_it_costs_to_look(fleet: Fleet, monkeypatch: pytest.MonkeyPatch) -> None:
    """Overview, metrics and `status` of a large fleet tell the same as of a small one, and read no row more of ten times as many meters; a
    sum that nobody kept for long doesn't count."""
    monkeypatch.setattr(sums, "FROM", 1000)
    now, read, door = time.time(), [], FleetDoor(fleet.config).opened()
    assert not sums.keep(fleet.database, now)
    for first, count in ((0, 3000), (3000, 27_000)):
        fleet.database.execute(
            "insert into meter (address, block, gateway, heard, retired) select lpad(to_hex(n), 16, '0'), '', %s, case n %% 5 when 0 then null else"
            " %s::double precision end, case n %% 50 when 0 then 1 end from generate_series(%s::integer, %s::integer) n", (fleet.gateway, now - 3 * DAY, first, first + count - 1))
        fleet.database.execute("insert into refusal select lpad(to_hex(n), 16, '0'), 'check', 'check', 2, 1, 1, %s from generate_series(%s::integer, %s::integer) n"
                               " where n %% 7 = 0", (fleet.gateway, first, first + count - 1))
        fleet.database.execute("delete from kept")
        live = [figures(fleet.database), looking.overview(door, now)]
        assert sums.keep(fleet.database, now) and not sums.keep(fleet.database, now + 1)
        kept = [figures(fleet.database), looking.overview(door, now)]
        assert live[0]["meters"] == first + count + 3
        for it in (*live, *kept):
            it.pop("ages", None)
        assert kept == live
        assert [line for line in in_words(figures(fleet.database)) if f"{first + count + 3} meters" in line]
        read.append([read_of_meters(fleet.database, lambda: figures(fleet.database)), read_of_meters(door, lambda: looking.overview(door, now))])
    assert read[0] == read[1] and max(read[0]) < 100, read
    assert sums.of(fleet.database, "meters", now + 700)[0]["meters"] == 30_003
    assert read_of_meters(fleet.database, lambda: sums.of(fleet.database, "meters", now + 700)) > 30_000
    assert metrics.take(fleet.config).gauges["meters"] == 30_003
    door.close()
