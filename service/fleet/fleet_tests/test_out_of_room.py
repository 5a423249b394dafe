"""Servers that have no room: PostgreSQL without disk and without connections, queues that are full and then emptied; and TLS as
docs/FLEET.md has it. Nothing is lost, nothing comes twice, and what is the matter is said."""
from __future__ import annotations

import logging
import re
import subprocess
import threading
from collections.abc import Iterator
from contextlib import ExitStack, suppress
from dataclasses import replace
from pathlib import Path
from typing import Any

import psycopg
import pytest
from telegrams.messages import whole
from tests.meters import line_of, payload_of
from tests.processes import until
from wmbus_fleet import broker, commands, gateways, own_servers, sessions, store
from wmbus_fleet.commandline import main
from wmbus_fleet.config import Config, Gateway, read_config
from wmbus_fleet.gateway import Agent, open_gateway
from wmbus_fleet.intake import Intake
from wmbus_fleet.messages import Again, Message, lines_body, read_lines
from wmbus_service.config import Config as ServiceConfig
from wmbus_service.config import Receiver
from wmbus_service.ending import Ending
from wmbus_service.store import prepare_folder

from .servers import Both, Postgres, Rabbit
from .test_operated import controlled
from .test_parts import NOW, Fleet, fleet, programs
from .test_rights import certificate

__all__ = ["fleet"]
OWN = "9315010000000131"
TOP = Path(__file__).resolve().parents[3]


@pytest.fixture
def small(tmp_path: Path) -> Iterator[Postgres]:
    """A PostgreSQL of few connections, on a disk of its own."""
    if own_servers.missing():
        pytest.skip(f"{', '.join(own_servers.missing())} isn't there")
    for path in (tmp_path.parent.parent, tmp_path.parent, tmp_path):
        path.chmod(0o755)
    disk = tmp_path / "disk"
    disk.mkdir()
    if subprocess.run(["mount", "-t", "tmpfs", "-o", "size=120m,mode=755", "none", disk], capture_output=True, check=False).returncode:
        pytest.skip("no file system can be mounted here")
    server = Postgres(disk)
    with open(server.folder / "postgresql.conf", "a", encoding="ascii") as conf:
        conf.write("max_connections = 6\nsuperuser_reserved_connections = 0\nmax_wal_senders = 0\nmin_wal_size = 32MB\nmax_wal_size = 32MB\n"
                   "autovacuum = off\n")
    try:
        server.start()
        yield server
    finally:
        server.kill()
        subprocess.run(["umount", "-l", disk], check=True)


def made_fleet(server: Postgres) -> Config:
    """A fleet of one gateway over it."""
    config = Config(database=server.make("fleet"), programs=programs())
    store.init(config.database)
    with store.connect(config.database) as database:
        store.set_setting(database, "own", OWN)
        database.execute("insert into area values ('north')")
        database.execute("insert into gateway (name, area) values ('gw1', 'north')")
    return config


def test_postgres_without_disk(small: Postgres, monkeypatch: pytest.MonkeyPatch) -> None:
    """Where its disk is full the intake takes no message and acknowledges none, whatever PostgreSQL does then; with room again, and where
    it ended started again, each message that comes again is taken once."""
    # (each line is kept, though it is no known meter's)
    monkeypatch.setattr("wmbus_fleet.intake.STRANGERS", 1 << 20)
    config, disk = made_fleet(small), small.folder.parent
    line = "A 1 " + "00" * 200
    messages = [Message("gw1", 5, number, 9, (line,) * 200) for number in range(1, 200)]
    taken = 0
    with store.connect(config.database) as database:
        assert Intake(config, database, "test").take(messages[:10]) == []
    with suppress(OSError), open(disk / "rest", "wb", buffering=0) as rest:
        while True:
            rest.write(bytes(1 << 16))
    with pytest.raises(psycopg.Error), store.connect(config.database) as database:
        intake = Intake(config, database, "test")
        for taken in range(10, len(messages), 10):
            intake.take(messages[taken:taken + 10])
    (disk / "rest").unlink()
    small.start()
    with store.connect(config.database) as database:
        # (where the commit's answer was lost the fence says how far it came)
        fence = store.one(database, "select number from gateway")
        assert taken <= fence <= taken + 10 < len(messages)
        assert Intake(config, database, "test").take(messages[taken:]) == []
        assert store.one(database, "select count(*) from inbox") == 200 * len(messages)
        assert store.one(database, "select count(distinct (epoch, message, place)) from inbox") == 200 * len(messages)


def test_postgres_without_connections(small: Postgres, both: Both, tmp_path: Path, caplog: pytest.LogCaptureFixture,
                                      capsys: pytest.CaptureFixture[str]) -> None:
    """Where others hold all of its connections a command says so, and what works without end says so once, and goes on once there is one."""
    config, path, ending = made_fleet(small), tmp_path / "fleet.toml", Ending()
    path.write_text(f'database = "{config.database}"\n')
    caplog.set_level(logging.ERROR, "wmbus")
    with ExitStack() as held:
        with suppress(psycopg.OperationalError):
            while True:
                held.enter_context(psycopg.connect(config.database))
        assert main(["--config", str(path), "status"]) == 1
        told = capsys.readouterr().err
        assert "too many clients already" in told and "Traceback" not in told
        assert re.search("password=[0-9a-f]", told) is None
        working = threading.Thread(target=sessions.run, args=(replace(config, interval=0.05, broker=both.rabbit.told), ending))
        working.start()
        until(lambda: "too many clients already" in caplog.text)
        held.close()
    try:
        with store.connect(config.database) as database:
            store.copy_rows(database, "inbox (address, gateway, epoch, message, place, text)", [("f" * 16, "gw1", 5, 1, 1, "A 1 00")])
            until(lambda: store.one(database, "select count(*) from inbox") == 0)
    finally:
        ending.set()
        working.join(60)
    assert caplog.text.count("too many clients already") == 1


def test_a_full_queue_that_is_emptied(fleet: Fleet, tmp_path: Path) -> None:
    """An area's queue takes no more, and then somebody empties it, with messages that gateways know as acknowledged: these are asked for,
    and sent again, and each line is there once."""
    service = ServiceConfig(tmp_path / "service", receivers={"radio": Receiver(downlinks=str(tmp_path / "sent"))})
    prepare_folder(service.folder)
    database = open_gateway(tmp_path / "gateway.db", NOW)
    agent = Agent(fleet.config, Gateway(fleet.gateway, fleet.area, "radio"), service, database)
    meter = fleet.meters[0]
    for number in range(1, 31):
        with open(service.spool / "radio.00000001.1.lines", "a", encoding="ascii") as file:
            file.write(line_of(whole(meter.key, meter.address, number, payload_of(number), 0x44, None), int(NOW)))
        agent.number(NOW + 10 * number)
    queue = broker.area_queue(fleet.area)
    controlled(fleet, "set_policy", "few", f"^{queue}$", '{"max-length": 5, "overflow": "reject-publish"}', "--apply-to", "queues")
    try:
        with broker.connected(fleet.config.broker) as connection, pytest.raises(broker.FAULTS, match="at a limit"):
            channel = broker.opened(connection)
            while agent.publish(channel):
                pass
    finally:
        controlled(fleet, "clear_policy", "few")
    with broker.connected(fleet.config.broker) as connection:
        channel = broker.opened(connection)
        assert channel.queue_purge(queue).method.message_count >= 5
        # (what the broker had acknowledged to the gateway before it was refused is gone with it)
        database.execute("update message set acknowledged = 1 where number <= 5")
        intake = Intake(fleet.config, fleet.database, "test")
        asked = drained(agent, channel, queue, intake)
        assert [(it.gateway, it.number) for it in asked] == [(fleet.gateway, 1)]
        agent.send_again(asked[0], NOW + 400)
        assert drained(agent, channel, queue, intake) == []
    database.close()
    shard = store.one(fleet.database, "select shard_of(%s)", (meter.name,))
    assert sessions.Sessions(fleet.config, fleet.database).session(shard, NOW) == 30
    assert [row for (row,) in fleet.database.execute("select counter from reading order by counter").fetchall()] == list(range(1, 31))


def drained(agent: Agent, channel: Any, queue: str, intake: Intake) -> list[Again]:
    """Whom the intake asks behind all that a gateway has to say."""
    while agent.publish(channel):
        pass
    messages = []
    for method, _, body in channel.consume(queue, auto_ack=True, inactivity_timeout=2):
        if method is None:
            break
        message = read_lines(method.routing_key, body)
        assert isinstance(message, Message)
        messages.append(message)
    channel.cancel()
    return [order for order in intake.take(messages) if isinstance(order, Again)]


def blocks_of_tls() -> list[str]:
    """The files' lines that docs/FLEET.md has for TLS: RabbitMQ's, and the server's."""
    _, _, told = (TOP / "docs/FLEET.md").read_text().partition("**TLS.** ")
    told, _, _ = told.partition("**Meters.**")
    return [re.sub("(?m)^    ", "", block) for block in re.findall("(?m)(?:^    .*\n)+", told)]


class Literal(Rabbit):
    """A RabbitMQ whose configuration is that of docs/FLEET.md, but for its folder and its ports."""

    def _settings(self) -> list[str]:
        own = super()._settings()
        text = blocks_of_tls()[0].replace("/etc/rabbitmq/", f"{self.folder.parent}/").replace("5671", str(self.tls_port))
        return [*text.replace(":5672", f":{self.port}").splitlines(), *(line for line in own if line.startswith(("management.", "disk_", "log.")))]


def test_tls_by_the_letter(fleet: Fleet, tmp_path: Path) -> None:
    """With the lines of docs/FLEET.md a gateway's files, as `gateways --files` writes them, lead it to the broker over TLS, where it publishes;
    with another authority's file, or over the port without TLS, which is this machine's alone, it doesn't get in."""
    signer = certificate(tmp_path, "authority", None)
    certificate(tmp_path, "server", signer)
    certificate(tmp_path, "stranger", None)
    rabbit = Literal(tmp_path)
    try:
        rabbit.begin()
        until(lambda: broker_answers(rabbit))
        path = tmp_path / "fleet.toml"
        path.write_text(f'database = "{fleet.config.database}"\n[broker]\nport = {rabbit.port}\nmanagement = "{rabbit.told.management}"\n'
                        + blocks_of_tls()[1].replace("broker.example", "127.0.0.1").replace("/etc/wmbus/", f"{tmp_path}/"))
        config = read_config(path)
        commands.add_area(config, fleet.database, "by-the-letter")
        assert gateways.add(config, fleet.database, "by-the-letter", "gw-tls", tmp_path / "files")
        told = tmp_path / "files/gw-tls" / gateways.SETTINGS
        text = told.read_text()
        assert "tls = true" in text and f'authority = "{tmp_path}/authority.pem"' in text
        told.write_text(text.replace("/etc/wmbus/broker.password", str(told.parent / gateways.PASSWORD)))
        settings = replace(read_config(told).broker, port=rabbit.tls_port)
        with broker.connected(settings) as connection:
            broker.publish(broker.opened(connection), broker.EXCHANGE, broker.up_key("by-the-letter", "gw-tls"), lines_body(1, 1, 1, b""))
        for wrong in (replace(settings, authority=str(tmp_path / "stranger.pem")), replace(settings, port=rabbit.port)):
            with pytest.raises(broker.FAULTS), broker.connected(wrong):
                pass
    finally:
        rabbit.end()


def broker_answers(rabbit: Rabbit) -> bool:
    """Whether a broker is there, with its management."""
    with suppress(*broker.FAULTS):
        return rabbit._answers()
    return False
