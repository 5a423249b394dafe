"""What the parts of the fleet do, each alone: messages, gateways, the intake, sessions that fail, commands, copies."""
from __future__ import annotations

import random
import sqlite3
import subprocess
import time
from collections.abc import Iterator
from contextlib import closing
from dataclasses import replace
from functools import partial
from pathlib import Path
from typing import Any

from telegrams import messages
import psycopg
import pytest
from tests.kill import PYTHON, program, steps_words
from tests.meters import OWN, Meter, line_of, next_telegrams, payload_of, roster_of, some_meters
from tests.processes import until
from tests.stand_in import stand_in
from wmbus_fleet import backup, broker, commandline, commands, downlinks, sessions, store
from wmbus_fleet.config import Config, Gateway, Programs, Ticks
from wmbus_fleet.gateway import Agent, arm, open_gateway
from wmbus_fleet.intake import Consuming, Intake
from wmbus_fleet.messages import Again, Begin, Down, Message, asked_body, down_body, frames_in, gateway_in, lines_body, read_lines, read_order, second_of
from wmbus_service.config import Config as ServiceConfig
from wmbus_service.config import Receiver
from wmbus_service.steps import ProgramFailed
from wmbus_service.store import prepare_folder

from .servers import Both

NOW = 1_000_000.0
DAY = 86_400.0


def programs() -> Programs:
    """The proved programs."""
    return Programs(steps_words(), program("line_accept"), program("address_list"), program("state_raise"))


# ---- messages

@pytest.mark.parametrize("body", [
    b"", b"wmbus-lines 1 5 1\n", b"wmbus-lines 2 5 1 9\n", b"wmbus-lines 1 5 0 9\n", b"wmbus-lines 1 -5 1 9\n", b"wmbus-lines 1 5 1 9",
    b"wmbus-lines 1 1000000000000000000 1 9\n", b"wmbus-lines 1 5 1 9\nA 1 00", b"wmbus-lines 1 5 1 9\n" + 101 * b"A 1 00\n",
    b"wmbus-lines 1 5 1 9\n" + (1 << 18) * b"0" + b"\n"])
def test_a_message_out_of_form(body: bytes) -> None:
    """What isn't a numbered message of at most 100 whole lines is none."""
    assert read_lines("up.north.gw1", body) is None


@pytest.mark.parametrize("key, name", [("up.north.GW1", "??1"), ("up.north.a\0b", "a?b"), ("up.north.", ""), ("up.north." + 99 * "a", 65 * "a")])
def test_a_gateway_without_a_name(key: str, name: str) -> None:
    """A message under a name that no gateway can have is none."""
    assert gateway_in(key) == name and read_lines(key, lines_body(5, 7, 9, b"")) is None


def test_messages_are_read_back() -> None:
    """What is written is read."""
    assert read_lines("up.north.gw1", lines_body(5, 7, 9, b"A 1 00\nB 2 01\n")) == Message("gw1", 5, 7, 9, ("A 1 00", "B 2 01"))
    assert read_lines("up.north.gw1", lines_body(5, 7, 9, b"")) == Message("gw1", 5, 7, 9, ())
    asked, downlink = Again("gw1", 5, 1 << 32), Down("9315010203040107", 3, "00ff", 900)
    assert read_order("gw1", asked_body(asked)) == asked
    assert read_order("gw1", down_body(downlink)) == downlink
    assert read_order("gw1", b"wmbus-down 1 9315010203040107 3 00ff") is None


def test_a_gateway_says_what_it_heard_alone() -> None:
    """Lines of commands, keys and ticks, which a gateway has no right to, are left out."""
    lines = ["A 1 00", "K 9315010203040107 " + 32 * "0", "Q 9315010203040107 00", "T 9315010203040107", "B 2 0\0"]
    assert frames_in(lines) == [(1, "A 1 00"), (5, "B 2 0?")]


# ---- gateways

class House:
    """A gateway's agent without a broker."""

    def __init__(self, folder: Path) -> None:
        self.service = ServiceConfig(folder / "service", receivers={"radio": Receiver(downlinks=str(folder / "sent"))})
        self.told = Gateway("gw1", "north", "radio")
        self.sent_path = folder / "sent"
        prepare_folder(self.service.folder)
        self.database = open_gateway(folder / "gateway.db", NOW)
        (self.epoch,) = self.database.execute("select epoch from numbering").fetchone()
        self.agent = Agent(Config(programs=programs()), self.told, self.service, self.database)

    def hear(self, lines: list[str]) -> None:
        """The receiver hears lines."""
        with open(self.service.spool / "radio.00000001.1.lines", "a", encoding="ascii") as file:
            file.write("".join(f"{line}\n" for line in lines))

    def messages(self) -> dict[int, tuple[bytes, bool]]:
        """The messages that are kept, and which of them the broker has."""
        return {number: (lines, bool(done)) for number, lines, done in
                self.database.execute("select number, lines, acknowledged from message order by number")}

    def sent(self) -> list[str]:
        """What the radio sent."""
        return self.sent_path.read_text().split() if self.sent_path.exists() else []


@pytest.fixture
def house(tmp_path: Path) -> Iterator[House]:
    """A house with a gateway that has three messages, all of which the broker has."""
    house = House(tmp_path)
    for number in range(3):
        house.hear([f"A {number} 00"])
        house.agent.number(NOW + 10 * number)
    house.database.execute("update message set acknowledged = 1")
    with closing(house.database):
        yield house


@pytest.mark.parametrize("ahead, number, open_numbers", [
    (0, 2, [2, 3]), (0, 4, []), (None, 1, [1, 2, 3]), (-77, 9, [1, 2, 3]), (10 ** 10, 9, [3]), (10 ** 10, 1, [3])])
def test_sent_again(house: House, ahead: int | None, number: int, open_numbers: list[int]) -> None:
    """From the number that is asked for; of an earlier epoch from its first; of a later one than its own the last message alone, by which the
    fleet says how far that is taken."""
    before = [lines for lines, _ in house.messages().values()]
    house.agent.send_again(Again("gw1", 0 if ahead is None else house.epoch + ahead, number), NOW + 30)
    assert house.agent.numbering() == (house.epoch, 3)
    assert [number for number, (_, is_done) in house.messages().items() if not is_done] == open_numbers
    assert [lines for lines, _ in house.messages().values()] == before


def test_what_is_no_longer_kept_begins_an_epoch(house: House) -> None:
    """With the messages behind the one that was asked for, which weren't taken."""
    house.agent.forget(NOW + 7 * DAY + 15)
    assert list(house.messages()) == [3]
    house.agent.send_again(Again("gw1", house.epoch, 2), NOW + 8 * DAY)
    epoch, last = house.agent.numbering()
    assert (second_of(epoch), last) == (NOW + 8 * DAY, 1)
    assert house.messages() == {1: (b"A 2 00\n", False)}


def test_what_is_kept_for_ever(house: House) -> None:
    """0 days are no limit, as in [keep]: what the fleet asks for is sent again, and no epoch begins."""
    house.agent.told = replace(house.told, keep=0)
    house.agent.forget(NOW + 9999 * DAY)
    house.agent.send_again(Again("gw1", house.epoch, 2), NOW + 9999 * DAY)
    assert house.agent.numbering() == (house.epoch, 3)
    assert [(number, is_done) for number, (_, is_done) in house.messages().items()] == [(1, True), (2, False), (3, False)]


def test_what_the_broker_hasnt_stays(house: House) -> None:
    """However old it is."""
    house.database.execute("update message set acknowledged = 0 where number = 1")
    house.agent.forget(NOW + 99 * DAY)
    assert list(house.messages()) == [1]


def test_silence_is_told(house: House) -> None:
    """After so much silence an empty message goes out, once."""
    for moment in (70.0, 90.0, 100.0):
        house.agent.number(NOW + moment)
    assert house.messages()[4] == (b"", False)
    assert len(house.messages()) == 4


def test_armed_until_its_meter_is_heard(house: House) -> None:
    """A downlink goes out at its own meter's next line, once; the later one of two; none that came again or whose time is over."""
    draw = random.Random(1)
    one, other, third = some_meters(draw, 3)
    for meter, down, frame, seconds in ((one, 5, "05", 100), (one, 4, "04", 100), (one, 6, "06", 100), (third, 1, "01", 5)):
        arm(house.database, Down(meter.name, down, frame, seconds), NOW + 30)
    steps: list[tuple[Meter, list[str]]] = [(other, []), (third, []), (one, ["D", "06"]), (one, ["D", "06"])]
    for moment, (meter, sent) in enumerate(steps):
        house.hear([line_of(next_telegrams(draw, meter)[0], moment).strip()])
        house.agent.number(NOW + 40 + 5 * moment)
        assert house.sent() == sent
    arm(house.database, Down(one.name, 6, "06", 100), NOW + 70)
    house.hear([line_of(next_telegrams(draw, one)[0], 9).strip()])
    house.agent.number(NOW + 80)
    assert house.sent() == ["D", "06"]


def test_lines_go_out_without_the_program(house: House) -> None:
    """Where it can't be said which meter was heard no downlink goes out, and all lines do."""
    house.agent.config = Config(programs=Programs("", "", "/nowhere/address_list", ""))
    arm(house.database, Down("9315010203040107", 1, "01", 100), NOW + 30)
    house.hear(["A 9 00"])
    assert house.agent.number(NOW + 40) == 1
    assert house.messages()[4] == (b"A 9 00\n", False)


# ---- the intake, sessions, commands, copies

class Fleet:
    """A fleet without processes."""

    def __init__(self, both: Both, folder: Path, name: str) -> None:
        self.both = both
        self.meters = some_meters(random.Random(3), 3)
        self.config = Config(database=both.postgres.make(name), broker=both.rabbit.told, programs=programs())
        self.area, self.gateway = f"{name}-area", f"{name}-gateway"
        store.init(self.config.database)
        self.database = store.connect(self.config.database)
        commands.add_area(self.config, self.database, self.area)
        assert commands.add_gateway(self.config, self.database, self.area, self.gateway)
        store.set_setting(self.database, "own", OWN)
        commands._add_meters(self.database, [meter.line().split() for meter in self.meters])

    def fence(self) -> tuple[int, int]:
        """Up to where the gateway's messages are taken."""
        row = self.database.execute("select epoch, number from gateway").fetchone()
        assert row
        return row[0], row[1]

    def tell(self, moment: float) -> None:
        """The gateway was just heard, and told of this moment."""
        self.database.execute("update gateway set until = %s, seen = now()", (int(moment),))


@pytest.fixture
def fleet(both: Both, tmp_path: Path, request: pytest.FixtureRequest) -> Iterator[Fleet]:
    """A fleet with an area, a gateway and three meters."""
    name = "parts" + str(abs(hash(request.node.name)) % 10 ** 8)
    fleet = Fleet(both, tmp_path, name)
    with fleet.database:
        yield fleet


def set_back(fleet: Fleet, version: int) -> None:
    """Has a fleet's tables be those of an earlier version."""
    fleet.database.execute("drop schema page cascade; create schema page; create view page.release as select value::integer as version"
                           " from public.setting where name = 'version'")
    fleet.database.execute("drop table digest; alter table ended drop column others")
    if version < 4:
        set_back_to_third(fleet, version)
    store.set_setting(fleet.database, "version", str(version))


def set_back_to_third(fleet: Fleet, version: int) -> None:
    """Has them be those of the third version or of one before."""
    for change in ("drop schema page cascade", "drop table ended", "drop table kept", "alter table refusal drop column gateway",
                   "alter table gateway drop column digests, drop column lines, drop column rate, drop column strangers"):
        fleet.database.execute(change)
    if version < 3:
        fleet.database.execute("alter table meter drop column retired")
    if version < 2:
        for change in ("drop table oddity", "alter table gateway drop column gone", "alter table meter drop column heard",
                       "create index line_by_age on line (made)", "create index reading_by_age on reading (made)"):
            fleet.database.execute(change)
    else:
        fleet.database.execute("create schema page; create view page.meter as select address, name, gateway from public.meter")


def test_the_very_next_is_taken(fleet: Fleet) -> None:
    """Of a gateway's messages the very next one is taken, others come again or are asked for; an unknown gateway's are left; where an
    epoch began it is told."""
    intake = Intake(fleet.config, fleet.database, "test")
    name = fleet.gateway
    line = "A 1 00"
    assert intake.take([Message(name, 5, 1, 9, (line,)), Message(name, 5, 1, 9, (line,)), Message("nobody", 5, 1, 9, (line,))]) == []
    assert fleet.fence() == (5, 1)
    assert intake.take([Message(name, 5, 3, 9, (line,))]) == [Again(name, 5, 2)]
    assert intake.take([Message(name, 5, 4, 9, (line,))]) == [], "it was just asked"
    assert intake.take([Message(name, 6, 1, 9, (line, "K " + line)), Message(name, 4, 1, 9, (line,))]) == []
    assert fleet.fence() == (6, 1)
    assert store.one(fleet.database, "select until from gateway") == 9
    rows = fleet.database.execute("select gateway, epoch, message, place, text, address from inbox order by id").fetchall()
    assert rows == [(name, 5, 1, 1, line, "-"), (name, 6, 1, 1, line, "-")]
    assert fleet.database.execute("select gateway, epoch, number from missing").fetchall() == [(name, 5, 1)]


def test_all_that_the_broker_gives_is_taken_at_once(fleet: Fleet, monkeypatch: pytest.MonkeyPatch) -> None:
    """It gives no more before some are acknowledged: an intake that gathers on would hold up all gateways."""
    monkeypatch.setattr("wmbus_fleet.intake.PREFETCH", 3)
    with broker.connected(fleet.config.broker) as connection:
        consuming = Consuming(Intake(replace(fleet.config, interval=3600.0), fleet.database, "test"), connection, [fleet.area])
        # (as behind a batch)
        consuming.since = time.monotonic()
        channel = broker.opened(connection)
        for number in range(1, 6):
            broker.publish(channel, broker.EXCHANGE, broker.up_key(fleet.area, fleet.gateway), lines_body(5, number, 9, b""))

        def is_taken() -> bool:
            consuming.turn()
            return fleet.fence() == (5, 3)

        until(is_taken)


def test_a_gateway_whose_epoch_is_behind_is_told(fleet: Fleet) -> None:
    """Else all that it says would be left for ever."""
    intake = Intake(fleet.config, fleet.database, "test")
    intake.take([Message(fleet.gateway, 9, 1, 9, ())])
    asked, again = intake.take([Message(fleet.gateway, 5, 1, 9, ())])
    assert isinstance(asked, Begin) and (asked.own, asked.last, again) == (5, 0, Again(fleet.gateway, 9, 2))
    assert second_of(asked.epoch) == pytest.approx(time.time(), abs=60)


def test_a_line_at_which_the_program_fails(fleet: Fleet, monkeypatch: pytest.MonkeyPatch) -> None:
    """It is found by halving and set aside, and all others are heard."""
    draw = random.Random(5)
    meter = fleet.meters[0]
    lines = [line_of(next_telegrams(draw, meter)[0], moment).strip() for moment in range(7)]
    lines[4] = "A 666 00"

    def failing(words: Any, state: str, heard: list[str]) -> Any:
        if "A 666 00" in heard:
            raise ProgramFailed(101, "no")
        return stand_in(words, state, heard)
    monkeypatch.setattr(sessions, "run_steps", failing)
    rows = [(meter.name, fleet.gateway, 1, 1, place, line) for place, line in enumerate(lines, 1)]
    store.copy_rows(fleet.database, "inbox (address, gateway, epoch, message, place, text)", rows)
    hearing = sessions.Sessions(fleet.config, fleet.database)
    for _ in range(20):
        hearing.turn(time.time())
    assert fleet.database.execute("select gateway, text from aside").fetchall() == [(fleet.gateway, "A 666 00")]
    assert [text for (text,) in fleet.database.execute("select text from line order by number")] == lines[:4] + lines[5:]


def test_a_line_that_another_process_had_meanwhile(fleet: Fleet, monkeypatch: pytest.MonkeyPatch) -> None:
    """Between the program's failure in one process and its setting aside of a command, a line or a tick, another one's session has it:
    nothing is set aside, neither it nor what came since."""
    meter, failing = fleet.meters[0].name, True
    shard = store.one(fleet.database, "select shard_of(%s)", (meter,))

    def run(words: Any, state: str, heard: list[str]) -> Any:
        if heard and failing:
            raise ProgramFailed(101, "no")
        return stand_in(words, state, heard)
    monkeypatch.setattr(sessions, "run_steps", run)

    def arrives(message: int) -> None:
        store.copy_rows(fleet.database, "inbox (address, gateway, epoch, message, place, text)",
                        [(meter, fleet.gateway, 1, message, 1, f"A {message} 00")])
    hearing = sessions.Sessions(fleet.config, fleet.database)
    with store.connect(fleet.config.database) as second:
        def meanwhile(_batch: Any) -> None:
            nonlocal failing
            failing = False
            assert sessions.Sessions(fleet.config, second).session(shard, NOW) == 1
            arrives(message + 1)
        monkeypatch.setattr(hearing, "_look_without_lines", meanwhile)
        for message, query in ((1, "insert into command (id, address, kind, payload, made, changed) values ('c1', %s, 'send', '01', 1, 1)"),
                               (3, ""), (5, "update meter set due = 5 where address = %s")):
            failing = True
            if query:
                fleet.database.execute(query, (meter,))
            else:
                arrives(message)
            assert [hearing.session(shard, NOW), hearing.session(shard, NOW)] == [1, 1]
            assert fleet.database.execute("select message from inbox").fetchall() == [(message + 1,)]
            assert sessions.Sessions(fleet.config, second).session(shard, NOW) == 1
    assert store.one(fleet.database, "select count(*) from aside") == 0
    assert store.pairs(fleet.database, "select id, state from command") == {"c1": "queued"}
    assert [message for (message,) in fleet.database.execute("select message from line where gateway is not null order by number")] == [2, 3, 4, 6]


@pytest.mark.parametrize("status", [-15, 10, 101])
def test_a_program_that_fails_once(fleet: Fleet, monkeypatch: pytest.MonkeyPatch, status: int) -> None:
    """Where it is ended from outside, lacks memory, or fails otherwise for a moment, its only line is heard again."""
    meter, failures = fleet.meters[0], [status]

    def failing(words: Any, state: str, heard: list[str]) -> Any:
        if heard and failures:
            raise ProgramFailed(failures.pop(), "no")
        return stand_in(words, state, heard)
    monkeypatch.setattr(sessions, "run_steps", failing)
    store.copy_rows(fleet.database, "inbox (address, gateway, epoch, message, place, text)", [(meter.name, fleet.gateway, 1, 1, 1, "A 1 00")])
    hearing = sessions.Sessions(fleet.config, fleet.database)
    assert [hearing.turn(NOW), hearing.turn(NOW), hearing.turn(NOW)] == [int(status == 101), 1, 0]
    assert store.one(fleet.database, "select count(*) from aside") == 0


def test_ticks_wait_for_what_was_heard_before(fleet: Fleet) -> None:
    """A tick is due once its gateway has said all that it heard until then, or is cut off for very long; and while lines wait that no
    session has taken, no tick overtakes them."""
    meter, ticks = fleet.meters[0].name, Ticks(10.0, 10.0, 1000.0)
    shard = store.one(fleet.database, "select shard_of(%s)", (meter,))
    fleet.database.execute("update meter set due = 500, gateway = %s where address = %s", (fleet.gateway, meter))
    for until, now, wanted in ((0, 499, []), (0, 501, []), (500, 501, []), (501, 501, [(500.0, meter)]), (0, 1501, [(500.0, meter)])):
        fleet.database.execute("update gateway set until = %s", (until,))
        assert sessions.due_ticks(fleet.database, ticks, shard, now, 10) == wanted
    rows = [(meter, fleet.gateway, 1, 1, place, f"A {moment} 00") for place, moment in enumerate((1, 2, 600, 3), 1)]
    store.copy_rows(fleet.database, "inbox (address, gateway, epoch, message, place, text)", rows)
    heard = []
    for most in (3, 2, 2):
        heard.append([event.text for event in sessions.gather(fleet.database, ticks, shard, 1501, most)])
    assert heard == [["A 1 00", "A 2 00"], [f"T {meter}", "A 600 00"], ["A 3 00"]]
    assert [event.text for event in sessions.gather(fleet.database, ticks, shard, 1501, 2)] == [f"T {meter}"]


def test_two_sessions_of_a_shard(fleet: Fleet, monkeypatch: pytest.MonkeyPatch) -> None:
    """A shard is one process's at a time."""
    monkeypatch.setattr(sessions, "run_steps", stand_in)
    meter = fleet.meters[0].name
    shard = store.one(fleet.database, "select shard_of(%s)", (meter,))
    rows = [(meter, fleet.gateway, 1, 1, 1, f"T {meter}")]
    store.copy_rows(fleet.database, "inbox (address, gateway, epoch, message, place, text)", rows)
    hearing = sessions.Sessions(fleet.config, fleet.database)
    with store.connect(fleet.config.database) as other, store.transaction(other):
        assert sessions.lock(other, shard)
        assert hearing.session(shard, NOW) == 0
    assert hearing.session(shard, NOW) == 1


def test_a_counter_gets_one_frame(fleet: Fleet) -> None:
    """The database itself refuses a second frame of a meter's counter."""
    row = ("gw", fleet.meters[0].name, 7, "00", 1, NOW)
    store.copy_rows(fleet.database, "outbox (gateway, address, down, frame, command, made)", [row])
    with pytest.raises(psycopg.errors.UniqueViolation):
        store.copy_rows(fleet.database, "outbox (gateway, address, down, frame, command, made)", [row])


def test_downlinks_that_are_late_or_have_no_gateway(fleet: Fleet) -> None:
    """They are missed, and said to be."""
    now = time.time()
    rows = [(fleet.gateway, fleet.meters[0].name, 1, "01", 1, now - 1000), ("nobody", fleet.meters[0].name, 2, "02", 1, now),
            (fleet.gateway, fleet.meters[0].name, 3, "03", 1, now)]
    store.copy_rows(fleet.database, "outbox (gateway, address, down, frame, command, made)", rows)
    with broker.connected(fleet.config.broker) as connection:
        channel = broker.opened(connection)
        assert downlinks.send(fleet.config, fleet.database, channel, now) == 3
        _, _, body = next(channel.consume(broker.gateway_queue(fleet.gateway), auto_ack=True, inactivity_timeout=10))
    assert body == down_body(Down(fleet.meters[0].name, 3, "03", 900))
    told = fleet.database.execute("select down, sent is not null, missed is not null from outbox order by down").fetchall()
    assert told == [(1, False, True), (2, False, True), (3, True, False)]


def test_the_command_line(fleet: Fleet, tmp_path: Path, capsys: pytest.CaptureFixture[str], monkeypatch: pytest.MonkeyPatch) -> None:
    """Areas, gateways, commissioning, commands, status, a copy, and the copy put back with higher counters."""
    port = fleet.config.broker.port
    names = [fleet.config.database, fleet.both.postgres.make(f"{fleet.area.split('-')[0]}b")]
    paths = [tmp_path / "fleet.toml", tmp_path / "restored.toml"]
    told = fleet.config.programs
    steps = told.steps or f"{Path(__file__).parents[3]}/tests/reference/steps"
    for path, words in zip(paths, names, strict=True):
        path.write_text(f'database = "{words}"\n[broker]\nport = {port}\n[programs]\nsteps = "{steps}"\n'
                        f'state_raise = "{told.state_raise}"\n')

    def fleet_command(path: Path, *words: str) -> tuple[int, str]:
        status = commandline.main(["--config", str(path), *words])
        said = capsys.readouterr()
        return status, (said.out + said.err).strip()

    monkeypatch.setenv("PATH", "/usr/lib/postgresql/15/bin:/usr/bin:/bin")
    roster = tmp_path / "roster"
    roster.write_text(roster_of(some_meters(random.Random(3), 6)))
    roster.chmod(0o600)
    meter = fleet.meters[0].name
    assert fleet_command(paths[0], "area", f"{fleet.area}2") == (0, "")
    assert fleet_command(paths[0], "gateways", f"{fleet.area}2", fleet.gateway, f"{fleet.gateway}2") == (0, "1 new gateways")
    assert store.one(fleet.database, "select array_agg(area) from gateway") == [f"{fleet.area}2", f"{fleet.area}2"]
    assert fleet_command(paths[0], "gateways", "nowhere", "gw")[0] == 1
    assert fleet_command(paths[0], "commission", str(roster)) == (0, "3 new meters")
    assert fleet_command(paths[0], "command", meter, "0102", "--id", "a1") == (0, "a1")
    assert fleet_command(paths[0], "command", meter, "0102", "--id", "a1") == (0, "a1: it was taken before")
    assert fleet_command(paths[0], "command", meter, "01", "--id", "a2") == (0, "a2")
    assert fleet_command(paths[0], "command", "--cancel", "a2") == (0, "a2: cancelled")
    assert fleet_command(paths[0], "command", "0" * 16, "01")[0] == 1
    status, said = fleet_command(paths[0], "status")
    assert status == 0 and said.startswith("6 meters; 0 lines taken")
    assert fleet_command(paths[0], "retire", meter)[0] == 0
    assert "commands: 1 cancelled, 1 waiting" in said and "never heard" in said
    copy = tmp_path / "copy"
    assert fleet_command(paths[0], "backup", str(copy)) == (0, "")
    assert copy.stat().st_mode & 0o777 == 0o600
    assert fleet_command(paths[0], "restore", str(copy))[0] == 1, "a database that has tables isn't written over"
    assert fleet_command(paths[1], "restore", str(copy), "--margin", "50") == (0, "restored, with 6 meters")
    with store.connect(names[1]) as restored:
        downs = {block.split(" ")[6] for (block,) in restored.execute("select block from meter")}
        assert downs == {"50"}
        assert restored.execute("select address from meter where retired is not null").fetchall() == [(meter,)]
        assert store.pairs(restored, "select id, reason from command") == {"a1": "restored", "a2": None}


def armed(path: Path) -> list[tuple[str, int]]:
    """The downlinks that a gateway has."""
    with closing(sqlite3.connect(path)) as database:
        return database.execute("select address, down from armed").fetchall()


def test_all_parts_as_processes(fleet: Fleet, tmp_path: Path) -> None:
    """From a gateway's spool to readings, and from a command to the gateway's radio; each part ends by SIGTERM with status 0."""
    service, path, told = tmp_path / "config.toml", tmp_path / "fleet.toml", fleet.config.programs
    service.write_text(f'folder = "{tmp_path}/service"\n[receivers.radio]\ndownlinks = "{tmp_path}/sent"\n')
    steps = told.steps or f"{Path(__file__).parents[3]}/tests/reference/steps"
    path.write_text(f'database = "{fleet.config.database}"\n[broker]\nport = {fleet.config.broker.port}\n[programs]\nsteps = "{steps}"\n'
                    f'line_accept = "{told.line_accept}"\naddress_list = "{told.address_list}"\n[gateway]\nname = "{fleet.gateway}"\n'
                    f'area = "{fleet.area}"\nreceiver = "radio"\nservice = "{service}"\ninterval = 0.1\n')
    meter = fleet.meters[1]
    commands.put_command(fleet.database, "c1", meter.name, "0102", time.time())
    command = Path(__file__).parents[1] / "wmbus-fleet"

    def has_readings(count: int) -> bool:
        return bool(store.one(fleet.database, "select count(*) from reading") == count)
    running = [subprocess.Popen([PYTHON, command, "--config", path, part]) for part in ("gateway", "intake", "sessions", "downlinks")]
    try:
        spool = tmp_path / "service/spool/radio.00000001.1.lines"
        until(spool.parent.exists)
        for number in (1, 2):
            with open(spool, "a", encoding="ascii") as file:
                text = messages.whole(meter.key, meter.address, number, payload_of(number), 0x44, 0x84)
                file.write(line_of(text, number))
            until(partial(has_readings, number))
            # (the gateway has what the queue has a moment later)
            until(lambda: armed(tmp_path / f"service/gateway.{fleet.gateway}.db") == fleet.database.execute(
                "select address, down from outbox order by id").fetchall())
        until((tmp_path / "sent").exists)
    finally:
        for process in running:
            process.terminate()
        statuses = [process.wait(30) for process in running]
    assert statuses == [0, 0, 0, 0]
    frames = [frame for (frame,) in fleet.database.execute("select frame from outbox order by id")]
    assert (tmp_path / "sent").read_text() == f"D {frames[0]}\n"
    assert fleet.database.execute("select state, tries from command").fetchall() == [("sent", 1)]


def test_restoring_needs_the_raising_program(fleet: Fleet) -> None:
    """Counters are raised by the program alone."""
    with pytest.raises(Exception, match="can't be started"):
        backup.raise_counters(Config(database=fleet.config.database, programs=Programs("", "", "", "/nowhere/state_raise")),
                              fleet.database, 5)


def test_another_version_is_refused(fleet: Fleet) -> None:
    """Tables of a later release aren't touched, and nothing says that they were made this one's."""
    store.set_setting(fleet.database, "version", "99")
    with pytest.raises(Exception, match="version 99"):
        store.connect(fleet.config.database)
    with pytest.raises(Exception, match="version 99"):
        store.init(fleet.config.database)


def test_the_gateways_file_is_its_owners(tmp_path: Path) -> None:
    """It holds what was heard."""
    open_gateway(tmp_path / "gateway.db", NOW).close()
    with closing(sqlite3.connect(tmp_path / "gateway.db")) as database:
        assert database.execute("pragma journal_mode").fetchone() == ("wal",)
    assert (tmp_path / "gateway.db").stat().st_mode & 0o077 == 0
