"""Gateways that are faulty, and processes that are thought dead and still work: each is named, none stops the others, and nothing comes
twice."""
from __future__ import annotations

import re
import threading
import time
from pathlib import Path
from typing import Any

from telegrams import messages
import psycopg
import pytest
from tests.meters import line_of, payload_of
from tests.processes import run
from tests.stand_in import stand_in
from wmbus_fleet import broker, intake, sessions, store
from wmbus_fleet.config import Gateway, Keep
from wmbus_fleet.gateway import Agent, open_gateway
from wmbus_fleet.intake import Intake
from wmbus_fleet.messages import Again, Message, new_epoch
from wmbus_fleet.oddities import FORM
from wmbus_fleet.retention import Retention
from wmbus_fleet.status import figures, in_words
from wmbus_service.config import Config as ServiceConfig
from wmbus_service.config import Receiver
from wmbus_service.ending import Ending
from wmbus_service.store import prepare_folder
from wmbus_service.trouble import Trouble

from .servers import Both
from .test_parts import Fleet, fleet

__all__ = ["fleet"]
LINE = "A 1 00"
LIMIT = 120


def one_line(name: str, epoch: int, number: int, until: int) -> Message:
    """A message of a gateway."""
    return Message(name, epoch, number, until, (LINE,))


@pytest.mark.parametrize("said, rubbish, words", [
    # its clock: what it tells until is far from when it is told
    ([(5, 1, 5000, LINE)], 0, " s ahead: its clock is wrong"),
    ([(5, 1, -5000, LINE)], 0, " s behind: its clock is wrong, or it was cut off"),
    # it lost its disk
    ([(5, 1, 0, LINE), (6, 1, 0, LINE)], 0, "began a new epoch behind message 1 of 5"),
    # rubbish: messages out of form, lines that are no frames, and what stands in no frame
    ([], 2, "sent 2 times a message that is out of form"),
    ([(5, 1, 0, "K 9315010203040107 00"), (5, 2, 0, "\x00\xff rubbish")], 0, "sent 2 times a line that is no frame"),
    ([(5, 1, 0, "A x zz"), (5, 2, 0, "B 18446744073709551616 00")], 0, ""),
    # another's numbers: an epoch that is over, and a gap that it doesn't fill
    ([(5, 1, 0, LINE), (4, 8, 0, LINE)], 0, "sent 1 times a message of an epoch that is over"),
    # its file was set back, as by a copy of its disk; what comes again for another reason is named by nobody
    ([(5, 1, -450, LINE), (5, 2, -440, LINE), (5, 1, -30, LINE)], 0, "sent 1 times another message under a number that was taken before"),
    ([(5, 1, -40, LINE), (5, 2, -50, LINE), (5, 1, -40, LINE), (5, 2, -50, LINE)], 0, ""),
    ([(5, 1, 0, LINE), (5, 9, 0, LINE)], 0, "was asked for message 2 of epoch 5 and hasn't sent it"),
])
def test_a_faulty_gateway_is_named(fleet: Fleet, said: list[tuple[int, int, int, str]], rubbish: int, words: str) -> None:
    """In `status`, by its name; another gateway's messages of the same batch are all taken."""
    good, taking, now = f"{fleet.gateway}-good", Intake(fleet.config, fleet.database, "test"), int(time.time())
    fleet.database.execute("insert into gateway (name, area) values (%s, %s)", (good, fleet.area))
    faulty = [Message(fleet.gateway, epoch, number, now + ahead, (text,)) for epoch, number, ahead, text in said]
    beside = [one_line(good, 7, number, now) for number in (1, 2, 3)]
    taking.take([beside[0], *faulty, *beside[1:]], [(fleet.gateway, FORM)] * rubbish)
    # (that it was asked is told after a minute)
    fleet.database.execute("update gateway set seen = seen - interval '65 seconds', asked = asked - interval '65 seconds'"
                           " where asked is not null")
    all_told = [*in_words(figures(fleet.database))]
    # (one whose file was set back is told to begin anew, too)
    told = [line for line in all_told if fleet.gateway in line and good not in line and "never heard" not in line
            and not any(it in line and it not in words for it in ("was asked", "began a new epoch"))]
    assert [words in line for line in told] == ([True] if words else []), told
    assert not [line for line in all_told if "most gateways" in line], "it isn't most of them"
    assert store.pairs(fleet.database, "select gateway, count(*) from inbox group by gateway").get(good) == 3


def test_a_gateway_that_was_set_back(fleet: Fleet, tmp_path: Path, caplog: pytest.LogCaptureFixture) -> None:
    """By more than is known of it: `status` and the log say by which commands it is taken again; what it then has begins an epoch, of which
    all is taken."""
    taking, now = Intake(fleet.config, fleet.database, "test"), int(time.time())
    own, new = new_epoch(now - 99), new_epoch(now + 9)
    taking.take([one_line(fleet.gateway, own, number, moment) for number, moment in ((1, now - 450), (2, now - 440))])
    fleet.database.execute("update gateway set digests = '{}'")
    taking.take([one_line(fleet.gateway, own, 1, now - 30)])
    (told,) = [line for line in in_words(figures(fleet.database)) if line.startswith(f"{fleet.gateway} sent")]
    (logged,) = [it.getMessage() for it in caplog.records if "taken before" in it.getMessage()]
    spool, gone = tmp_path / "spool", [f"gateway.{fleet.gateway}.db", f"gateway.{fleet.gateway}.db-wal", "spool/radio.00000007.5.lines"]
    stays = [f"gateway.{fleet.gateway}2.db", "service.db", "spool/radio2.00000007.5.lines"]
    for text in (told, logged):
        spool.mkdir(exist_ok=True)
        for name in (*gone, *stays):
            (tmp_path / name).touch()
        found = re.search("as root: systemctl stop wmbus-gateway wmbus-receiver@RECEIVER; (rm .*); systemctl start"
                          " wmbus-receiver@RECEIVER wmbus-gateway$", text)
        assert found, text
        run(["sh", "-c", found[1].replace("RECEIVER", "radio").replace("/var/lib/wmbus", str(tmp_path))])
        assert sorted(str(it.relative_to(tmp_path)) for it in tmp_path.rglob("*") if it.is_file()) == sorted(stays)
    taking.take([one_line(fleet.gateway, new, 1, now)])
    assert fleet.fence() == (new, 1)


def test_a_gateway_that_isnt_known(fleet: Fleet) -> None:
    """Nothing of it is taken, and it is named."""
    Intake(fleet.config, fleet.database, "test").take([one_line("nobody", 5, number, 9) for number in (1, 2)])
    assert store.one(fleet.database, "select count(*) from inbox") == 0
    told = [line for line in in_words(figures(fleet.database)) if line.startswith("nobody ")]
    assert told == ["nobody sent 2 times a message, though no such gateway is known, which is left"]


def test_two_gateways_of_one_name(fleet: Fleet, tmp_path: Path) -> None:
    """The second one says so and sends nothing as long as the first one is connected; then it is served."""
    service = ServiceConfig(tmp_path / "service", receivers={"radio": Receiver()})
    prepare_folder(service.folder)
    database = open_gateway(tmp_path / "gateway.db", time.time())
    agent = Agent(fleet.config, Gateway(fleet.gateway, fleet.area, "radio"), service, database)
    ending = Ending()
    ending.set()
    with broker.connected(fleet.config.broker) as second:
        with broker.connected(fleet.config.broker) as first:
            channel = broker.opened(first)
            assert broker.declare_gateway(channel, fleet.gateway) == 0
            broker.consume(channel, broker.gateway_queue(fleet.gateway), lambda *_: None)
            with pytest.raises(Trouble, match=f"{fleet.gateway}.*another one with this name"):
                agent._serve(second, ending)
        limit = time.monotonic() + LIMIT
        while True:
            try:
                agent._serve(second, ending)
                break
            except Trouble:
                assert time.monotonic() < limit
                time.sleep(0.05)
    database.close()


def test_an_intake_that_is_thought_dead(fleet: Fleet, monkeypatch: pytest.MonkeyPatch) -> None:
    """While one has a batch in hand another one gets the same messages: it waits for the fence, and finds it moved."""
    batch = [one_line(fleet.gateway, 5, number, 9) for number in (1, 2, 3)]
    entered, waiting = threading.Event(), threading.Event()
    put = intake.put_lines

    def slow(*words: Any) -> int:
        entered.set()
        assert waiting.wait(LIMIT)
        return put(*words)
    first = Intake(fleet.config, fleet.database, "first")
    told: list[object] = []
    with store.connect(fleet.config.database) as other, store.connect(fleet.config.database) as looking:
        monkeypatch.setattr(intake, "put_lines", slow)
        threads = [threading.Thread(target=lambda: told.append(first.take(batch)))]
        threads[0].start()
        assert entered.wait(LIMIT)
        monkeypatch.setattr(intake, "put_lines", put)
        threads.append(threading.Thread(target=lambda: told.append(Intake(fleet.config, other, "second").take(batch))))
        threads[1].start()
        limit = time.monotonic() + LIMIT
        while not store.one(looking, "select count(*) from pg_stat_activity where wait_event_type = 'Lock' and datname ="
                                     " current_database()"):
            assert time.monotonic() < limit, "the second one doesn't wait for the fence"
            time.sleep(0.02)
        waiting.set()
        for thread in threads:
            thread.join(LIMIT)
    assert told == [[], []]
    assert fleet.fence() == (5, 3)
    assert store.one(fleet.database, "select array_agg(message order by id) from inbox") == [1, 2, 3]
    assert store.pairs(fleet.database, "select name, sum(value)::integer from total where name in ('take', 'again') group by name") == {
        "take": 3, "again": 3}


def test_sessions_that_are_thought_dead(fleet: Fleet, monkeypatch: pytest.MonkeyPatch) -> None:
    """The database ends a worker's connection while the program runs, another worker hears the same lines, and then the first one goes on:
    it commits nothing."""
    meter = fleet.meters[0]
    lines = [line_of(messages.whole(meter.key, meter.address, number, payload_of(number)), number).strip() for number in (1, 2, 3)]
    rows = [(meter.name, fleet.gateway, 1, 1, place, line) for place, line in enumerate(lines, 1)]
    store.copy_rows(fleet.database, "inbox (address, gateway, epoch, message, place, text)", rows)
    shard = store.one(fleet.database, "select shard_of(%s)", (meter.name,))
    heard: list[int] = []
    with store.connect(fleet.config.database) as first, store.connect(fleet.config.database) as second:
        pid = store.one(first, "select pg_backend_pid()")

        def frozen(words: Any, state: str, texts: list[str]) -> Any:
            monkeypatch.setattr(sessions, "run_steps", stand_in)
            fleet.database.execute("select pg_terminate_backend(%s, 10000)", (pid,))
            heard.append(sessions.Sessions(fleet.config, second).session(shard, time.time()))
            return stand_in(words, state, texts)
        monkeypatch.setattr(sessions, "run_steps", frozen)
        with pytest.raises(psycopg.Error):
            sessions.Sessions(fleet.config, first).session(shard, time.time())
    assert heard == [3]
    assert [text for (text,) in fleet.database.execute("select text from line order by number")] == lines
    assert [counter for (counter,) in fleet.database.execute("select counter from reading order by line")] == [1, 2, 3]


def test_a_worker_that_stands_still_is_given_up(fleet: Fleet) -> None:
    """The server ends a transaction in which nothing happens, in longer than a program may take, and sees that a machine is gone."""
    wanted = {"idle_in_transaction_session_timeout": "2min", "tcp_keepalives_idle": "10", "tcp_keepalives_interval": "5",
              "tcp_keepalives_count": "4", "tcp_user_timeout": "30000", "synchronous_commit": "on"}
    assert {name: store.one(fleet.database, f"show {name}") for name in wanted} == wanted


def test_what_is_told_has_no_rows(fleet: Fleet, both: Both) -> None:
    """Where the database refuses a row, neither it nor we tell what stands in it."""
    payload = "0badc0de0badc0de"
    fleet.database.execute(f"alter database {fleet.database.info.dbname} set log_error_verbosity = terse")
    with store.connect(fleet.config.database) as database:
        with pytest.raises(psycopg.Error) as told:
            store.copy_rows(database, "outbox (gateway, address, down, frame, command, made)", [("g", "a", None, payload, 1, 1.0)])
    assert payload in str(told.value), "PostgreSQL tells the row"
    words = 'null value in column "down"'
    assert payload not in store.told_of(told.value) and words in store.told_of(told.value)
    log = both.postgres.log.read_text()
    assert words in log and payload not in log


@pytest.mark.parametrize("keep, lines, readings", [(Keep(7, 0), [3, 4], [1, 2, 3]), (Keep(0, 5), [1, 2, 3, 4], [2, 3]), (Keep(2, 2), [4], [3])])
def test_what_is_kept_no_longer(fleet: Fleet, keep: Keep, lines: list[int], readings: list[int]) -> None:
    """Lines and readings go by their age, in days, each by its own; nothing else does."""
    day, now = 86_400.0, time.time()
    made = [("m", None, None, None, None, LINE, None, now - days * day) for days in (9, 8, 6, 1)]
    store.copy_rows(fleet.database, "line (number, address, gateway, epoch, message, place, text, due, made)",
                    [(number, *row) for number, row in enumerate(made, 1)])
    store.copy_rows(fleet.database, "reading (line, address, gateway, counter, moment, payload, fault, more, records, made)",
                    [(number, "m", "g", number, 0, "00", None, False, "[]", now - days * day) for number, days in ((1, 6), (2, 4), (3, 1))])
    fleet.tell(now)
    assert Retention(fleet.database, keep).let_go(now) is (len(lines) + len(readings) < 7)
    assert not Retention(fleet.database, keep).let_go(now)
    assert store.one(fleet.database, "select array_agg(number order by number) from line") == lines
    assert store.one(fleet.database, "select array_agg(line order by line) from reading") == readings
