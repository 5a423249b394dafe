"""What somebody does who has a gateway, or its name and password: each message, flood and file of theirs, and that the others' lines come
all the same."""
from __future__ import annotations

import random
import struct
import time
from collections.abc import Callable, Iterator
from contextlib import closing, suppress
from dataclasses import replace
from pathlib import Path
from typing import Any

import pika
import psycopg
import pytest
from tests.meters import line_of, next_telegrams
from tests.processes import until
from tests.stand_in import stand_in
from wmbus_fleet import administration, broker, commands, downlinks, fences, gateways, intake, metrics, sessions, store, turns
from wmbus_fleet.asking import Asking
from wmbus_fleet.config import Config, Gateway, Keep
from wmbus_fleet.gateway import Agent, open_gateway
from wmbus_fleet.intake import Consuming, Intake
from wmbus_fleet.messages import Again, Begin, Message, asked_body, is_far, lines_body, new_epoch, read_lines, read_order, second_of
from wmbus_fleet.retention import Retention
from wmbus_fleet.status import figures, gateway_words, in_words
from wmbus_service.config import Config as ServiceConfig
from wmbus_service.config import Receiver
from wmbus_service.store import prepare_folder
from wmbus_service.trouble import Trouble

from . import test_rights
from .test_parts import DAY, NOW, Fleet, House, fleet, house, set_back
from .test_rights import as_gateway, refused

__all__ = ["fleet", "house"]
LINE = "A 1 00"
FAR = 999_999_999_999_999_999
with_users = test_rights.fleet


def told_of(fleet: Fleet) -> list[str]:
    """What `status` says of the gateway."""
    return [line for line in in_words(figures(fleet.database)) if line.startswith(f"{fleet.gateway} sent")]


def nested(depth: int) -> bytes:
    """A header's table in a table in a table .."""
    value = b""
    for _ in range(depth):
        item = b"\x01xF" + struct.pack(">I", len(value)) + value
        value = item
    return struct.pack(">I", len(value)) + value


class Raw(pika.BasicProperties):  # type: ignore[misc]
    """Headers as they are given, which this library wouldn't write."""

    def __init__(self, table: bytes) -> None:
        super().__init__()
        self.table = table

    def encode(self) -> list[bytes]:
        """Nothing but headers."""
        return [struct.pack(">H", pika.BasicProperties.FLAG_HEADERS), self.table]


MOMENT = b"\x01xT" + struct.pack(">Q", (1 << 63) - 1)
HEADERS = {"a moment without a year": struct.pack(">I", len(MOMENT)) + MOMENT, "tables without end": nested(1500)}


@pytest.mark.parametrize("which", HEADERS)
def test_headers_that_nobody_can_read(fleet: Fleet, which: str) -> None:
    """Their message is left and counted by its gateway's name; what comes behind it is taken, and so is what the gateway sends again."""
    with broker.connected(fleet.config.broker) as connection, broker.connected(fleet.config.broker) as publishing:
        channel, key = broker.opened(publishing), broker.up_key(fleet.area, fleet.gateway)
        consuming = Consuming(Intake(fleet.config, fleet.database, "test"), connection, [fleet.area])
        channel.basic_publish(broker.EXCHANGE, key, lines_body(5, 1, 9, b""), Raw(HEADERS[which]))
        for number in (1, 2):
            broker.publish(channel, broker.EXCHANGE, key, lines_body(5, number, 9, b""))

        def is_taken() -> bool:
            consuming.turn()
            return fleet.fence() == (5, 2)
        until(is_taken)
    assert told_of(fleet) == [f"{fleet.gateway} sent 1 times a message whose headers can't be read, which is left"]


def test_areas_stop_alone(fleet: Fleet) -> None:
    """One whose queue goes, or can't be made, is said by its name; the others go on, and it does so too once it can."""
    other, name = f"{fleet.area}2", f"{fleet.gateway}2"
    commands.add_area(fleet.config, fleet.database, other)
    commands.add_gateway(fleet.config, fleet.database, other, name)
    with broker.connected(fleet.config.broker) as connection, broker.connected(fleet.config.broker) as beside:
        channel = broker.opened(beside)
        consuming = Consuming(Intake(fleet.config, fleet.database, "test"), connection, [fleet.area, other])
        channel.queue_delete(broker.area_queue(fleet.area))
        # (one with other words, which the intake can't have made)
        channel.queue_declare(broker.area_queue(fleet.area), durable=True, arguments={"x-queue-type": "classic"})

        def taken(gateway: str, area: str, number: int) -> Callable[[], bool]:
            def is_so() -> bool:
                consuming.turn()
                return bool(store.one(fleet.database, "select number from gateway where name = %s", (gateway,)) == number)
            broker.publish(channel, broker.EXCHANGE, broker.up_key(area, gateway), lines_body(5, number, 9, b""))
            return is_so
        until(taken(name, other, 1))
        limit = time.monotonic() + 1.5
        while time.monotonic() < limit:
            consuming.turn()
        assert consuming.areas[fleet.area].trouble
        until(taken(name, other, 2))
        channel.queue_delete(broker.area_queue(fleet.area))
        until(lambda: (consuming.turn(), consuming.areas[fleet.area].is_open())[1])
        until(taken(fleet.gateway, fleet.area, 1))


@pytest.mark.parametrize("what", ["exchange", "binding"])
def test_what_went_of_an_area_is_made_again(fleet: Fleet, monkeypatch: pytest.MonkeyPatch, what: str) -> None:
    """While an intake works the exchange or a queue's binding is deleted: a moment later gateways' messages come as before."""
    monkeypatch.setattr(intake, "LOOKED", 0.5)
    key = broker.up_key(fleet.area, fleet.gateway)
    with broker.connected(fleet.config.broker) as connection, broker.connected(fleet.config.broker) as beside:
        consuming = Consuming(Intake(fleet.config, fleet.database, "test"), connection, [fleet.area])
        channel = broker.opened(beside)
        if what == "exchange":
            channel.exchange_delete(broker.EXCHANGE)
        else:
            channel.queue_unbind(broker.area_queue(fleet.area), broker.EXCHANGE, broker.up_key(fleet.area, "*"))
        with pytest.raises(broker.FAULTS):
            broker.publish(channel, broker.EXCHANGE, key, lines_body(5, 1, 9, b""))

        def is_taken() -> bool:
            consuming.turn()
            with suppress(*broker.FAULTS):
                broker.publish(broker.opened(beside), broker.EXCHANGE, key, lines_body(5, 1, 9, b""))
            return fleet.fence() == (5, 1)
        until(is_taken)


def test_a_message_at_which_the_intake_fails(fleet: Fleet, monkeypatch: pytest.MonkeyPatch) -> None:
    """It is found and left, and all others of its batch are taken; where the servers lack something nothing is left."""
    put = intake.put_lines

    def failing(config: Any, database: Any, taken: Any) -> int:
        if any(it.lines == ("A 666 00",) for it in taken):
            raise fault
        return put(config, database, taken)
    monkeypatch.setattr(intake, "put_lines", failing)
    others = [f"{fleet.gateway}{number}" for number in range(6)]
    for name in others:
        commands.add_gateway(fleet.config, fleet.database, fleet.area, name)
    batch = [turns.Held(fleet.area, tag, name, Message(name, 5, 1, 9, (LINE,))) for tag, name in enumerate(others)]
    batch.insert(3, turns.Held(fleet.area, 99, fleet.gateway, Message(fleet.gateway, 5, 1, 9, ("A 666 00",))))
    with broker.connected(fleet.config.broker) as connection:
        consuming = Consuming(Intake(fleet.config, fleet.database, "test"), connection, [fleet.area])
        fault: Exception = psycopg.OperationalError("gone")
        with pytest.raises(psycopg.OperationalError):
            consuming._take(batch)
        fault = ValueError("no")
        consuming._take(batch)
    assert store.pairs(fleet.database, "select name, number from gateway") == {fleet.gateway: 0} | dict.fromkeys(others, 1)
    assert told_of(fleet) == [f"{fleet.gateway} sent 1 times a message at which the intake fails, which is left"]


# ---- epochs

def test_an_epoch_is_a_moment_and_what_is_drawn() -> None:
    """Two that begin in one second are two; each is behind those of an earlier release, and can be read for centuries."""
    now = 1_800_000_000.0
    assert len({new_epoch(now) for _ in range(100)}) > 90
    assert all(1_800_000_000 < new_epoch(now) < new_epoch(now + 1) and second_of(new_epoch(now)) == now for _ in range(20))
    assert second_of(1_800_000_000) == now and not is_far(new_epoch(now + 3600), now) and is_far(new_epoch(now + 2 * DAY), now)
    assert is_far(FAR, now) and not is_far(new_epoch(0), now) and second_of(new_epoch(7)) < now
    assert read_lines("up.a.gw", lines_body(new_epoch(9_999_999_998.0), 1, 9, b"")) is not None


def test_orders_are_read_back() -> None:
    """What an intake asks for is what a gateway reads."""
    orders: list[Again | Begin] = [Again("gw1", 5, 1 << 32), Begin("gw1", new_epoch(NOW), 5, 30), Begin("gw1", 7, 0, 0)]
    for asked in orders:
        assert read_order("gw1", asked_body(asked)) == asked


def test_an_epoch_far_above_now(fleet: Fleet) -> None:
    """It moves no fence: the gateway's own messages are taken as before. A gateway whose clock was wrong is told by which epoch it goes on;
    messages of an epoch that began when that was taken still are."""
    taking, now = Intake(fleet.config, fleet.database, "test"), time.time()
    own = new_epoch(now)
    assert taking.take([Message(fleet.gateway, own, 1, 9, (LINE,)), Message(fleet.gateway, FAR, 1, 9, (LINE,)),
                        Message(fleet.gateway, own, 2, 9, (LINE,))])[:0] == []
    assert fleet.fence() == (own, 2)
    assert [it for it in told_of(fleet) if "sent 1 times a message of an epoch that is far above now" in it]
    fleet.database.execute("update gateway set asked = null")
    later = new_epoch(now + 9 * DAY)
    (asked,) = taking.take([Message(fleet.gateway, later, 1, 9, (LINE,))])
    assert isinstance(asked, Begin) and (asked.own, asked.last) == (later, 0) and own < asked.epoch and not is_far(asked.epoch, now)
    assert taking.take([Message(fleet.gateway, asked.epoch, 1, 9, (LINE,))]) == [] and fleet.fence() == (asked.epoch, 1)
    fleet.database.execute("update gateway set epoch = %s, number = 7", (later,))
    taking.take([Message(fleet.gateway, later, 8, 9, (LINE,))])
    assert fleet.fence() == (later, 8)


def test_a_gateway_heeds_no_epoch_that_nobody_reads(house: House) -> None:
    """What it is asked for is far above now by both clocks: it goes on as before. By a clock that was never set alone it isn't."""
    own = house.agent.numbering()
    orders: list[Again | Begin] = [Again("gw1", FAR, 2), Begin("gw1", FAR, own[0], 0)]
    for asked in orders:
        house.agent.hear(asked_body(asked), NOW + 30, int(NOW) + 30)
        assert house.agent.numbering() == own
    late = new_epoch(NOW + 900 * DAY)
    house.agent.hear(asked_body(Begin("gw1", late, own[0], 2)), NOW + 30, int(NOW + 900 * DAY))
    assert house.agent.numbering() == (late, 1)


def test_its_files_anew_put_a_fence_in_its_place(fleet: Fleet) -> None:
    """One that somebody pushed far above now goes back to where the last epoch before it ended: nothing that was taken is taken again, and
    what comes next is."""
    own, now = new_epoch(time.time()), time.time()
    taking = Intake(fleet.config, fleet.database, "test")
    taking.take([Message(fleet.gateway, own, number, 9, (LINE,)) for number in (1, 2, 3)])
    # (as an intake of an earlier release took it)
    fences.put_end(fleet.database, fleet.gateway, own, 3, now)
    fleet.database.execute("update gateway set epoch = %s, number = 1", (FAR,))
    assert taking.take([Message(fleet.gateway, own, 4, 9, (LINE,))]) == []
    fences.put_in_place(fleet.database, fleet.gateway, now)
    assert fleet.fence() == (own, 3)
    taking.take([Message(fleet.gateway, own, number, 9, (LINE,)) for number in (3, 4)])
    assert fleet.fence() == (own, 4) and store.one(fleet.database, "select count(*) from inbox") == 4
    fences.put_in_place(fleet.database, fleet.gateway, now)
    assert fleet.fence() == (own, 4)


class Answering:
    """A gateway with a file of its own, and an intake, without a broker between them."""

    def __init__(self, fleet: Fleet, folder: Path, name: str = "") -> None:
        folder.mkdir(exist_ok=True)
        self.fleet, self.name, self.taking = fleet, name or fleet.gateway, Intake(fleet.config, fleet.database, "test")
        self.service = ServiceConfig(folder / "service", receivers={"radio": Receiver()})
        prepare_folder(self.service.folder)
        self.path, self.now, self.heard, self.file = folder / "gateway.db", time.time(), 0, 1
        self.begin()

    def begin(self) -> None:
        """Opens its file."""
        self.database = open_gateway(self.path, self.now)
        self.agent = Agent(self.fleet.config, Gateway(self.name, self.fleet.area, "radio"), self.service, self.database)

    def hear(self, count: int) -> None:
        """Its radio hears lines, of which each message has one."""
        for _ in range(count):
            self.heard += 1
            self.now += 3
            with open(self.service.spool / f"radio.{self.file:08d}.1.lines", "a", encoding="ascii") as file:
                file.write(f"A {self.heard} 00\n")
            assert self.agent.number(self.now) == 1

    def sends(self) -> None:
        """What the broker hasn't goes to the intake, and what that asks for is heeded, until nothing more comes of it."""
        for _ in range(4):
            epoch, _ = self.agent.numbering()
            rows = self.database.execute("select number, until, lines from message where not acknowledged order by number").fetchall()
            sent = [read_lines(f"up.a.{self.name}", lines_body(epoch, *row)) for row in rows]
            self.database.execute("update message set acknowledged = 1")
            self.fleet.database.execute("update gateway set asked = null")
            asked = self.taking.take([it for it in sent if it])
            for it in asked:
                self.agent.hear(asked_body(it), self.now, int(self.now))

    def inbox(self) -> list[int]:
        """Which lines were taken, by the order in which they were heard."""
        rows = self.fleet.database.execute("select text from inbox order by id").fetchall()
        return [int(text.split(" ")[1]) for (text,) in rows]


@pytest.fixture
def answering(fleet: Fleet, tmp_path: Path) -> Iterator[Answering]:
    """A gateway of which 30 lines were taken."""
    it = Answering(fleet, tmp_path)
    it.hear(30)
    it.sends()
    assert it.inbox() == [*range(1, 31)]
    yield it
    it.database.close()


def test_what_was_taken_in_an_earlier_epoch_is_not_taken_again(fleet: Fleet, answering: Answering) -> None:
    """Somebody else begins epoch upon epoch in a gateway's name: each time it goes on in one behind that, with what wasn't taken alone."""
    for time_of in range(4):
        fence, _ = fleet.fence()
        answering.taking.take([Message(fleet.gateway, fence + 5, 1, 9, ("A 0 00",))])
        answering.hear(5)
        answering.sends()
        assert [it for it in answering.inbox() if it] == [*range(1, 36 + 5 * time_of)]


def test_a_gap_in_somebody_elses_epoch(fleet: Fleet, answering: Answering) -> None:
    """What is asked for of it comes to the gateway too: it sends nothing anew that was taken in its own epoch, and goes on with the rest."""
    fence, _ = fleet.fence()
    (asked,) = answering.taking.take([Message(fleet.gateway, fence + 5, number, 9, ("A 0 00",)) for number in (1, 3)])
    assert asked == Again(fleet.gateway, fence + 5, 2)
    answering.agent.hear(asked_body(asked), answering.now, int(answering.now))
    answering.sends()
    answering.hear(5)
    answering.sends()
    assert [it for it in answering.inbox() if it] == [*range(1, 36)]


def test_many_epochs_in_a_gateways_name(fleet: Fleet, answering: Answering, monkeypatch: pytest.MonkeyPatch) -> None:
    """Somebody else begins more of them than ends are kept: that of the gateway's own, which is longer, still is, and nothing is taken twice."""
    monkeypatch.setattr(fences, "ENDS", 20)
    fence, _ = fleet.fence()
    for above in range(1, 30):
        answering.taking.take([Message(fleet.gateway, fence + above, number, 9, ("A 0 00",)) for number in (1, 2)])
    answering.hear(5)
    answering.sends()
    assert [it for it in answering.inbox() if it] == [*range(1, 36)]
    assert store.one(fleet.database, "select count(*) from ended") == 20


def test_one_of_an_earlier_release_is_asked_in_its_words(fleet: Fleet) -> None:
    """It begins an epoch with all that it keeps, as it did; nothing stands still."""
    taking = Intake(fleet.config, fleet.database, "test")
    taking.take([Message(fleet.gateway, 9, 1, 9, ())])
    asked = taking.take([Message(fleet.gateway, 5, 1, 9, ())])
    assert asked[1:] == [Again(fleet.gateway, 9, 2)] and isinstance(asked[0], Begin)


@pytest.mark.parametrize("back", [1, 5, 20])
def test_a_file_that_was_set_back_by_seconds(fleet: Fleet, answering: Answering, back: int) -> None:
    """As behind a power cut on a disk that lies: what it then sends under numbers that were taken is known to be something else, and comes
    under others. Nothing that was heard is lost."""
    saved = answering.path.with_name("saved.db")
    with closing(answering.database):
        answering.database.execute("pragma wal_checkpoint(truncate)")
        saved.write_bytes(answering.path.read_bytes())
    answering.begin()
    answering.hear(back)
    answering.sends()
    answering.database.close()
    for path in answering.path.parent.glob("gateway.db*"):
        path.unlink()
    saved.rename(answering.path)
    # (the receiver's file of lines is as it was, and is read on from where the older file says)
    taken, answering.heard = answering.heard, answering.heard
    answering.begin()
    answering.agent.spool.clear(answering.database)
    for _ in range(12):
        answering.now += 3
        with open(answering.service.spool / "radio.00000001.1.lines", "a", encoding="ascii") as file:
            answering.heard += 1
            file.write(f"A {answering.heard} 00\n")
        answering.agent.number(answering.now)
        answering.sends()
    assert {*answering.inbox()} == {*range(1, taken + 13)}
    assert any("another message under a number" in line or "of later moments" in line for line in told_of(fleet))


class Copy:
    """A gateway's file as it was once, as on a disk that lies, or in a machine that begins from one image each time."""

    def __init__(self, answering: Answering) -> None:
        self.answering, self.path = answering, answering.path.with_name("saved.db")
        answering.database.execute("pragma wal_checkpoint(truncate)")
        self.path.write_bytes(answering.path.read_bytes())

    def put(self) -> None:
        """It is the file again; the receiver begins a new file of lines."""
        it = self.answering
        it.database.close()
        for path in [*it.path.parent.glob("gateway.db*"), *it.service.spool.glob("*.lines")]:
            path.unlink()
        it.path.write_bytes(self.path.read_bytes())
        it.file += 1
        it.begin()


@pytest.mark.parametrize("back", [1, 5, 64, 200])
def test_a_file_that_is_set_back_again_and_again(fleet: Fleet, answering: Answering, monkeypatch: pytest.MonkeyPatch, back: int) -> None:
    """To one copy, also by more messages than stand beside the fence: each time nothing of what is heard since is lost, and nothing that was
    heard comes twice."""
    monkeypatch.setattr(intake, "STRANGERS", 1000)
    copy = Copy(answering)
    for _ in range(3):
        answering.hear(back)
        answering.sends()
        copy.put()
        answering.hear(1)
        answering.sends()
    answering.hear(back)
    answering.sends()
    assert answering.inbox() == [*range(1, 30 + 4 * back + 4)]


def test_much_that_waits_in_a_file_that_was_set_back(fleet: Fleet, answering: Answering) -> None:
    """It is sent in one go, under numbers that were taken and behind these: none of it is taken before the gateway begins again, and so all of
    it once, whether it comes at once or one by one."""
    copy = Copy(answering)
    for at_once in (True, False):
        answering.hear(4)
        answering.sends()
        copy.put()
        answering.hear(20)
        if not at_once:
            epoch, _ = answering.agent.numbering()
            for row in answering.database.execute("select number, until, lines from message order by number").fetchall():
                answering.taking.take([read_lines(f"up.a.{fleet.gateway}", lines_body(epoch, *row)) or pytest.fail("out of form")])
        answering.sends()
    assert sorted(answering.inbox()) == [*range(1, 79)]


def test_numbers_that_somebody_else_used_up(fleet: Fleet, answering: Answering) -> None:
    """What the gateway sends under them is known to be something else, comes under others, and `status` says so."""
    epoch, number = fleet.fence()
    far = int(answering.now) + 80_000
    for first in range(1, 301, 100):
        answering.taking.take([Message(fleet.gateway, epoch, number + it, far, ("A 0 00",)) for it in range(first, first + 100)])
    answering.hear(10)
    answering.sends()
    assert [it for it in answering.inbox() if it] == [*range(1, 41)]
    assert any("another message under a number that was taken before" in line for line in told_of(fleet))


def test_how_many_digests_are_kept(fleet: Fleet, answering: Answering, monkeypatch: pytest.MonkeyPatch) -> None:
    """So many parts of 64, the last ones, and of the ends of epochs the longest: many short epochs drive none of them out."""
    monkeypatch.setattr(fences, "PARTS", 3)
    answering.hear(370)
    answering.sends()
    fence, _ = fleet.fence()
    for above in range(1, 9):
        answering.taking.take([Message(fleet.gateway, fence + above, 1, 9, ())])
    rows = fleet.database.execute("select epoch - %s, part, cardinality(digests) from digest order by 1, 2", (fence,)).fetchall()
    assert [(part, count) for epoch, part, count in rows if epoch == 0] == [(3, 64), (4, 64), (5, 64), (6, 16)]
    assert [count for epoch, _, count in rows if epoch] == [1, 1]


# ---- the broker's rights, for gateways with users of their own

def rows_of_downlinks(fleet: Fleet, names: list[str]) -> None:
    """A downlink of each gateway is committed."""
    rows = [(name, fleet.meters[place].name, 7, "00", 1, time.time()) for place, name in enumerate(names)]
    store.copy_rows(fleet.database, "outbox (gateway, address, down, frame, command, made)", rows)


def test_a_queue_that_refuses_is_passed_over(fleet: Fleet, caplog: pytest.LogCaptureFixture) -> None:
    """As one that was made with a limit of nothing: the others' downlinks go out, its own once it takes them. The intake asks the others."""
    other = f"{fleet.gateway}2"
    commands.add_gateway(fleet.config, fleet.database, fleet.area, other)
    rows_of_downlinks(fleet, [fleet.gateway, other])
    with broker.connected(fleet.config.broker) as connection, broker.connected(fleet.config.broker) as beside:
        channel, passed = broker.opened(connection), downlinks.Passed()
        queue = broker.gateway_queue(fleet.gateway)
        channel.queue_delete(queue)
        channel.queue_declare(queue, durable=True, arguments={"x-max-length": 0, "x-overflow": "reject-publish"})
        sent = "select array_agg(gateway) from outbox where sent is not null"
        for _ in range(3):
            downlinks.send(fleet.config, fleet.database, channel, time.time(), passed)
        assert store.one(fleet.database, sent) == [other]
        assert [it.getMessage().startswith(f"downlinks: gateway {fleet.gateway} is passed over") for it in caplog.records] == [True]
        with Asking(fleet.config) as asking:
            for name in (fleet.gateway, other):
                asking.ask(Again(name, 5, 2))
            until(lambda: broker.depth(broker.opened(beside), broker.gateway_queue(other)) == 2)
        channel.queue_delete(queue)
        broker.declare_gateway(channel, fleet.gateway)
        passed.until.clear()
        downlinks.send(fleet.config, fleet.database, channel, time.time(), passed)
    assert sorted(store.one(fleet.database, sent)) == sorted([fleet.gateway, other])


def test_few_connections_and_channels(with_users: Fleet, tmp_path: Path) -> None:
    """A gateway's user has so many, and no more; the others' work all the same."""
    name = f"{with_users.area}-a"
    told, held = as_gateway(with_users, tmp_path, name), []
    try:
        with pytest.raises(broker.FAULTS, match="limit"):
            for _ in range(administration.LIMITS["max-connections"] + 1):
                held.append(broker.connected(told))
                held[-1].__enter__()
        with broker.connected(as_gateway(with_users, tmp_path, f"{with_users.area}-b")) as other:
            with pytest.raises(broker.FAULTS, match="limit"):
                for _ in range(administration.LIMITS["max-channels"] + 1):
                    other.channel()
    finally:
        for it in held[:-1]:
            it.__exit__(None, None, None)


def test_a_gateway_with_its_rights_alone_works(with_users: Fleet, tmp_path: Path) -> None:
    """It makes no queue: it finds its own, holds its name, of which a second one says so, publishes and hears what it is told."""
    name = f"{with_users.area}-a"
    told = as_gateway(with_users, tmp_path, name)
    with broker.connected(told) as first, broker.connected(told) as second:
        assert broker.find_gateway(first, name) == 0 and broker.hold_gateway(first, name)
        assert not broker.hold_gateway(second, name)
        assert refused(told, lambda channel: channel.queue_declare(broker.held_queue(name), durable=True, arguments=broker.HELD)) is not None
    with broker.connected(told) as second:
        until(lambda: broker.hold_gateway(second, name))


def test_copies_into_another_area(with_users: Fleet, tmp_path: Path) -> None:
    """The broker judges no right for the keys of the headers CC and BCC: what came by one into another area's queue is left there, and
    counted; in its own area the message is taken once."""
    fleet, name, other = with_users, f"{with_users.area}-a", f"{with_users.area}2"
    with broker.connected(as_gateway(fleet, tmp_path, name)) as connection, broker.connected(fleet.config.broker) as taking:
        channel = broker.opened(connection)
        for number, header in enumerate(("CC", "BCC"), 1):
            told = pika.BasicProperties(headers={header: [broker.up_key(other, name), broker.up_key(other, f"{fleet.area}-c")]})
            channel.basic_publish(broker.EXCHANGE, broker.up_key(fleet.area, name), lines_body(5, number, 9, b"A 1 00\n"), told)
        consuming = Consuming(Intake(fleet.config, fleet.database, "test"), taking, [other])

        def are_left() -> bool:
            consuming.turn()
            return bool(store.one(fleet.database, "select coalesce(sum(times), 0) from oddity") == 2)
        until(are_left)
        assert fleet.database.execute("select gateway, what from oddity").fetchall() == [(name, "a message that came into another area's queue")]
        assert store.one(fleet.database, "select count(*) from inbox") == 0
        own = Consuming(Intake(fleet.config, fleet.database, "test"), taking, [fleet.area])
        until(lambda: (own.turn(), store.one(fleet.database, "select number from gateway where name = %s", (name,)) == 2)[1])


def test_what_a_passive_declare_tells(with_users: Fleet, tmp_path: Path) -> None:
    """RabbitMQ judges no right for it: any gateway's user learns whether a queue is there and how many messages wait in it, as
    docs/FLEET.md says."""
    told = as_gateway(with_users, tmp_path, f"{with_users.area}-a")
    other = broker.gateway_queue(f"{with_users.area}-b")
    with broker.connected(told) as connection:
        assert broker.depth(broker.opened(connection), other) == 0
    assert "passive" in (Path(__file__).parents[3] / "docs/FLEET.md").read_text()


def test_a_gateway_was_stolen(with_users: Fleet, tmp_path: Path) -> None:
    """docs/FLEET.md, "A gateway was stolen", step by step: its open connections end, its password is over, what it said moves nothing for
    good, and the machine in its place is heard from its first line on."""
    fleet, name = with_users, f"{with_users.area}-a"
    thief, key = as_gateway(fleet, tmp_path, name), broker.up_key(fleet.area, f"{with_users.area}-a")
    saved = Path(thief.password_file).read_text()
    (tmp_path / "stolen").write_text(saved)
    thief = replace(thief, password_file=str(tmp_path / "stolen"))
    taking, own = Intake(fleet.config, fleet.database, "test"), new_epoch(time.time())
    taking.take([Message(name, own, number, 9, (LINE,)) for number in (1, 2, 3)])
    with broker.connected(thief) as stolen:
        channel = broker.opened(stolen)
        for epoch in (FAR, own + 10 ** 8):
            broker.publish(channel, broker.EXCHANGE, key, lines_body(epoch, 1, 9, b""))
        assert not gateways.add(fleet.config, fleet.database, fleet.area, name, tmp_path / "files")
        with pytest.raises(broker.FAULTS):
            for _ in range(50):
                broker.publish(channel, broker.EXCHANGE, key, lines_body(own + 2 * 10 ** 8, 1, 9, b""))
                time.sleep(0.1)
    with pytest.raises(broker.FAULTS), broker.connected(thief):
        pass
    house = Answering(fleet, tmp_path / "anew", name)
    house.hear(24)
    with broker.connected(fleet.config.broker) as connection, broker.connected(as_gateway(fleet, tmp_path, name)) as new, \
            Asking(fleet.config) as asking:
        consuming = Consuming(taking, connection, [fleet.area], asking)
        channel = broker.opened(new)

        def hears(_channel: Any, method: Any, told: Any, body: bytes) -> None:
            house.agent.hear(body, time.time(), told.timestamp)
            channel.basic_ack(method.delivery_tag)
        broker.consume(channel, broker.gateway_queue(name), hears)

        def are_taken() -> bool:
            fleet.database.execute("update gateway set asked = null where asked < now() - interval '0.3 seconds'")
            house.agent.publish(channel)
            new.process_data_events(0.05)
            consuming.turn()
            return [*range(1, 25)] == [it for it in house.inbox() if it > 0][3:]
        until(are_taken)
    house.database.close()


# ---- commands, meters and keys

def heard_by(fleet: Fleet, gateway: str, message: int, texts: list[str]) -> None:
    """Lines of a meter wait for a session."""
    rows = [(fleet.meters[0].name, gateway, 1, message, place, text) for place, text in enumerate(texts, 1)]
    store.copy_rows(fleet.database, "inbox (address, gateway, epoch, message, place, text)", rows)


@pytest.mark.parametrize("sent, heard, state", [
    (-60, -30, "confirmed"), (-30, -60, "unsure"), (None, -5, "unsure"), (-60, None, "confirmed"), (None, None, "unsure"),
    (-60, 30, "confirmed"), (-60, 3600, "unsure")])
def test_what_was_heard_before_a_downlink_went_out_confirms_nothing(fleet: Fleet, monkeypatch: pytest.MonkeyPatch, sent: int | None,
                                                                    heard: int | None, state: str) -> None:
    """A late copy of an earlier response, by another gateway: the command is unsure, and somebody is told so; also where that gateway's clock is
    far ahead, so that nobody knows when it was heard. Where the line has no moment what counts is that the downlink is out."""
    now, meter = time.time(), fleet.meters[0]
    text = line_of(next_telegrams(random.Random(7), meter)[0], 0 if heard is None else int(now + heard)).strip()

    def confirming(words: Any, block: str, lines: list[str]) -> Any:
        told = stand_in(words, block, lines)
        for it in told.lines:
            it["confirmed"] = 4
        return told
    monkeypatch.setattr(sessions, "run_steps", confirming)
    fleet.database.execute("insert into command (id, address, kind, payload, state, number, made, changed)"
                           " values ('c1', %s, 'send', '01', 'sent', 4, %s, %s)", (meter.name, now - 90, now - 90))
    fleet.database.execute("insert into outbox (gateway, address, down, frame, command, made, sent) values (%s, %s, 1, '00', 4, %s, %s)",
                           (fleet.gateway, meter.name, now - 70, None if sent is None else now + sent))
    heard_by(fleet, fleet.gateway, 1, [text])
    sessions.Sessions(fleet.config, fleet.database).turn(now)
    assert store.pairs(fleet.database, "select id, state from command") == {"c1": state}
    assert f"commands: 1 {state}" in [*in_words(figures(fleet.database))]


def test_what_nobody_authenticated_moves_no_meter(fleet: Fleet, monkeypatch: pytest.MonkeyPatch) -> None:
    """Frames in a meter's name by another gateway are refused and counted under that one; the meter stays where its readings come from, and
    so do its ticks and downlinks."""
    monkeypatch.setattr(sessions, "run_steps", stand_in)
    thief, meter, draw = f"{fleet.gateway}2", fleet.meters[0], random.Random(7)
    commands.add_gateway(fleet.config, fleet.database, fleet.area, thief)
    good = line_of(next_telegrams(draw, meter)[0], 5).strip()
    heard_by(fleet, fleet.gateway, 1, [good])
    hearing = sessions.Sessions(fleet.config, fleet.database)
    hearing.turn(NOW)
    asked = "select gateway from meter where address = %s"
    assert store.one(fleet.database, asked, (meter.name,)) == fleet.gateway
    forged = line_of(next_telegrams(draw, replace_key(meter))[0], 6).strip()
    heard_by(fleet, thief, 2, [forged, good])
    hearing.turn(NOW)
    assert store.one(fleet.database, asked, (meter.name,)) == fleet.gateway
    assert {gateway for (gateway,) in fleet.database.execute("select gateway from refusal").fetchall()} == {thief}


def replace_key(meter: Any) -> Any:
    """The meter as somebody has it who doesn't know its key."""
    return replace(meter, key=bytes(16))


def test_second_keys_stand_in_no_line(fleet: Fleet, monkeypatch: pytest.MonkeyPatch) -> None:
    """A new one is heard, and what is kept of its line is the meter alone; those that an earlier release kept are emptied, some lines a
    step."""
    monkeypatch.setattr(sessions, "run_steps", stand_in)
    meter, key = fleet.meters[0].name, "0badc0de" * 4
    commands.put_key(fleet.database, "k1", meter, key, NOW)
    sessions.Sessions(fleet.config, fleet.database).turn(NOW)
    assert [text for (text,) in fleet.database.execute("select text from line").fetchall()] == [f"K {meter}"]
    assert key not in "".join(str(row) for row in fleet.database.execute("select * from line, command").fetchall())
    rows = [(number, meter, f"K {meter} {key}" if number % 2 else LINE, NOW) for number in (900_001, 750_000, 690_001)]
    store.copy_rows(fleet.database, "line (number, address, text, made)", rows)
    set_back(fleet, 3)
    store.init(fleet.config.database)
    retention = Retention(fleet.database, Keep(0, 0, 0))
    assert [retention.let_go(NOW), retention.let_go(NOW)] == [True, True]
    assert store.one(fleet.database, "select count(*) from line where text = %s", (rows[2][2],)) == 1
    until(lambda: not retention.let_go(NOW))
    assert sorted(text for (text,) in fleet.database.execute("select text from line").fetchall()) == [LINE] + [f"K {meter}"] * 3


# ---- floods

def held(gateway: str, number: int, lines: int, area: str = "north") -> turns.Held:
    """A message in hand."""
    return turns.Held(area, number, gateway, Message(gateway, 5, number, 9, (LINE,) * lines))


def test_each_gateway_has_its_turn() -> None:
    """One that sends far more than the others wait for has its part of a batch; so many of its messages wait, and those behind them are left.
    The others' come all, each gateway's in their order; without others' need nothing is left."""
    flood = [held("thief", number, 100) for number in range(1, 701)]
    others = [held(f"gw{number % 20}", 1000 + number, 7) for number in range(100)]
    batch = turns.next_batch([*flood, *others], 800, 4000, True, 50)
    assert [it for it in batch.taken if it.gateway != "thief"] == others
    assert [it.tag for it in batch.taken if it.gateway == "thief"] == [*range(1, 11)]
    assert [it.tag for it in batch.left] == [*range(61, 701)]
    few = turns.next_batch(flood[:30], 800, 4000, False, 50)
    assert few.left == [] and [it.tag for it in few.taken] == [*range(1, 31)]
    assert len(turns.next_batch([held("gw1", 1, 5000)], 800, 4000, True, 50).taken) == 1
    empty = [held("thief", number, 0) for number in range(1, 801)]
    assert len(turns.next_batch(empty, 800, 4000, True, 50).taken) == turns.MESSAGES


def test_a_flood_stands_in_nobodys_way(fleet: Fleet) -> None:
    """Of 1,500 messages of strangers' lines that one gateway sends in front of the others', and that an attacker sends no more than once, the
    others' come through within seconds; the strangers' lines are counted, and few of them kept; the gateway is asked for what was left."""
    others = [f"{fleet.gateway}{number}" for number in range(5)]
    for name in others:
        commands.add_gateway(fleet.config, fleet.database, fleet.area, name)
    lines = b"".join(b"A 1 2e449315%08x0107\n" % number for number in range(100))
    with broker.connected(fleet.config.broker) as connection, broker.connected(fleet.config.broker) as publishing:
        channel = publishing.channel()
        for number in range(1, 1501):
            channel.basic_publish(broker.EXCHANGE, broker.up_key(fleet.area, fleet.gateway), lines_body(5, number, 9, lines))
        for name in others:
            broker.publish(broker.opened(publishing), broker.EXCHANGE, broker.up_key(fleet.area, name), lines_body(5, 1, 9, b"A 1 00\n"))
        consuming, begun = Consuming(Intake(fleet.config, fleet.database, "test"), connection, [fleet.area]), time.monotonic()

        def are_taken() -> bool:
            consuming.turn()
            return bool(store.one(fleet.database, "select count(*) from gateway where name = any(%s) and number = 1", (others,)) == 5)
        until(are_taken)
        took = time.monotonic() - begun
    taken, strangers = fleet.database.execute("select number, strangers from gateway where name = %s", (fleet.gateway,)).fetchone() or (0, 0)
    kept = store.one(fleet.database, "select count(*) from inbox where gateway = %s", (fleet.gateway,))
    assert taken < 1000 and kept + strangers == 100 * taken and kept <= strangers / 5, (taken, kept, strangers)
    assert took < 30, f"{took:.0f} s"
    told = [*in_words(figures(fleet.database))]
    assert any("a message more than its part while others waited" in line for line in told)
    assert any(line.startswith(f"gateway {fleet.gateway} in {fleet.area} sends ") and "counted and not kept" in line for line in told)
    assert metrics.take(fleet.config).labelled["gateway_strangers"][fleet.gateway] == strangers


def test_the_rate_of_a_gateway(fleet: Fleet) -> None:
    """`status --gateways` has the lines a second of the last minute, which fall once it is silent."""
    Intake(fleet.config, fleet.database, "test").take([Message(fleet.gateway, 5, 1, 9, (LINE,) * 60)])
    (line,) = gateway_words(fleet.database)
    assert line.endswith(" 1.0 lines a second")
    fleet.database.execute("update gateway set seen = seen - interval '10 minutes'")
    (line,) = gateway_words(fleet.database)
    assert line.endswith(" 0.0 lines a second")
