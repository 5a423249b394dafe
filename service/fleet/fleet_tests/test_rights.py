"""What a gateway's user may do in RabbitMQ, and what not; TLS; how gateways come, move and go; what operators say to the fleet."""
from __future__ import annotations

import io
import os
import random
import re
import subprocess

from collections.abc import Callable, Iterator
from dataclasses import replace
from datetime import datetime, timedelta, timezone
from functools import partial
from pathlib import Path
from typing import Any

import pika
import pytest
from cryptography import x509
from cryptography.hazmat.primitives import hashes, serialization
from cryptography.hazmat.primitives.asymmetric import ec
from cryptography.x509.oid import NameOID
from tests.kill import PYTHON
from tests.meters import roster_of, some_meters
from tests.processes import until
from wmbus_fleet import administration, broker, commandline, commands, gateways, store
from wmbus_fleet.config import Broker, read_config
from wmbus_fleet.messages import lines_body
from wmbus_fleet.view.door import FleetDoor
from wmbus_service.trouble import Trouble

from .servers import Both, Rabbit, Secured
from .test_parts import Fleet, set_back

LIVES = 60_000


@pytest.fixture
def fleet(both: Both, tmp_path: Path, request: pytest.FixtureRequest) -> Iterator[Fleet]:
    """A fleet with two gateways in one area and one in another, each with a user of its own."""
    fleet = Fleet(both, tmp_path, "rights" + str(abs(hash(request.node.name)) % 10 ** 8))
    commands.add_area(fleet.config, fleet.database, f"{fleet.area}2")
    for name, area in (("a", fleet.area), ("b", fleet.area), ("c", f"{fleet.area}2")):
        assert gateways.add(fleet.config, fleet.database, area, f"{fleet.area}-{name}", tmp_path / "files")
    with fleet.database:
        yield fleet


def as_gateway(fleet: Fleet, folder: Path, name: str) -> Broker:
    """RabbitMQ as a gateway reaches it, by the files that were made for it."""
    place = folder / "files" / name
    told = read_config(place / gateways.SETTINGS).broker
    return replace(told, password_file=str(place / gateways.PASSWORD), host=fleet.config.broker.host, port=fleet.config.broker.port, tls=False)


def refused(told: Broker, work: Callable[[Any], object]) -> str | None:
    """Why RabbitMQ refuses what somebody does; none where it doesn't."""
    with broker.connected(told) as connection:
        try:
            work(broker.opened(connection))
        except pika.exceptions.ChannelClosedByBroker as fault:
            return f"{fault.reply_code} {fault.reply_text}"
    return None


def test_a_gateway_has_its_own_queue_and_name_alone(fleet: Fleet, tmp_path: Path) -> None:
    """It publishes under its own name and reads its own queue. It reads no other one's downlinks, publishes under no other name and area,
    puts nothing into another's queue past the exchange, and makes, binds, empties and deletes nothing else."""
    own, other, area = f"{fleet.area}-a", f"{fleet.area}-b", fleet.area
    told, queue = as_gateway(fleet, tmp_path, own), broker.gateway_queue(other)
    body = lines_body(1, 1, 1, b"")

    def published(exchange: str, key: str) -> Callable[[Any], object]:
        return lambda channel: broker.publish(channel, exchange, key, body, LIVES)
    allowed: dict[str, Callable[[Any], object]] = {
        "its own name": published(broker.EXCHANGE, broker.up_key(area, own)),
        "its own queue": lambda channel: next(channel.consume(broker.gateway_queue(own), inactivity_timeout=0.1)),
        "finding its queue": lambda channel: channel.queue_declare(broker.gateway_queue(own), passive=True),
        "holding its name": lambda channel: channel.basic_consume(broker.held_queue(own), lambda *_: None, exclusive=True),
    }
    forbidden: dict[str, Callable[[Any], object]] = {
        "another's name": published(broker.EXCHANGE, broker.up_key(area, other)),
        "another area": published(broker.EXCHANGE, broker.up_key(f"{area}2", own)),
        "a longer name": published(broker.EXCHANGE, broker.up_key(area, own) + "x"),
        "a name with a newline": published(broker.EXCHANGE, broker.up_key(area, own) + "\n"),
        "past the exchange": published("", queue),
        "reading another's downlinks": lambda channel: next(channel.consume(queue, inactivity_timeout=1)),
        "getting one of them": lambda channel: channel.basic_get(queue),
        "reading an area": lambda channel: next(channel.consume(broker.area_queue(area), inactivity_timeout=1)),
        "binding its queue": lambda channel: channel.queue_bind(broker.gateway_queue(own), broker.EXCHANGE, "up.#"),
        "a queue of its own": lambda channel: channel.queue_declare("", exclusive=True),
        "holding another's name": lambda channel: channel.basic_consume(broker.held_queue(other), lambda *_: None),
        "making its queue": lambda channel: broker.declare_gateway(channel, own),
        "making it anew": lambda channel: channel.queue_delete(broker.gateway_queue(own)),
        "emptying": lambda channel: channel.queue_purge(queue),
        "deleting": lambda channel: channel.queue_delete(queue),
        "deleting the exchange": lambda channel: channel.exchange_delete(broker.EXCHANGE),
    }
    assert {name: refused(told, work) for name, work in allowed.items()} == dict.fromkeys(allowed)
    said = {name: refused(told, work) for name, work in forbidden.items()}
    assert {name for name, words in said.items() if words is None or "ACCESS_REFUSED" not in words} == set(), said
    # (who may do all of it is refused none of these: it is for the gateway's rights that they are)
    tried = forbidden.keys() - {"getting one of them", "deleting the exchange"}
    assert {name: refused(fleet.config.broker, forbidden[name]) for name in forbidden if name in tried} == dict.fromkeys(tried)


def test_it_administers_nothing(fleet: Fleet, tmp_path: Path) -> None:
    """Its user is nobody to the management plugin."""
    told = replace(as_gateway(fleet, tmp_path, f"{fleet.area}-a"), management=fleet.config.broker.management)
    with pytest.raises(Trouble, match="40[13].*administrator"):
        administration.Administration(told).depths()


def test_it_moves_and_goes(fleet: Fleet, tmp_path: Path) -> None:
    """In another area it publishes there and no longer here. Taken away, it can't connect, its queue is gone, its fence stays; it comes back
    with a new password."""
    name, body = f"{fleet.area}-a", lines_body(1, 1, 1, b"")
    old, new = (broker.up_key(it, name) for it in (fleet.area, f"{fleet.area}2"))
    told = as_gateway(fleet, tmp_path, name)
    assert not gateways.add(fleet.config, fleet.database, f"{fleet.area}2", name, None)

    def why(key: str) -> str | None:
        return refused(told, lambda channel: broker.publish(channel, broker.EXCHANGE, key, body))
    assert "ACCESS_REFUSED" in str(why(old)) and why(new) is None
    fleet.database.execute("update gateway set epoch = 7, number = 9 where name = %s", (name,))
    before = administration.Administration(fleet.config.broker).depths()
    gateways.remove(fleet.config, fleet.database, name)
    with pytest.raises(pika.exceptions.AMQPError), broker.connected(told):
        pass
    assert before.keys() - administration.Administration(fleet.config.broker).depths().keys() == {
        broker.gateway_queue(name), broker.held_queue(name)}
    with pytest.raises(Trouble, match="--files"):
        gateways.add(fleet.config, fleet.database, fleet.area, name, None)
    assert gateways.add(fleet.config, fleet.database, fleet.area, name, tmp_path / "files")
    assert refused(as_gateway(fleet, tmp_path, name), lambda channel: broker.publish(channel, broker.EXCHANGE, old, body)) is None
    assert fleet.database.execute("select epoch, number, gone, until < 1e12 from gateway where name = %s", (name,)).fetchone() == \
        (7, 9, None, True)


def test_a_gateway_whose_user_went(fleet: Fleet, tmp_path: Path) -> None:
    """As where RabbitMQ was set up anew: who moves it is told that it gets a new password, and nothing is moved before."""
    name = f"{fleet.area}-a"
    administration.Administration(fleet.config.broker).remove(name)
    with pytest.raises(Trouble, match="--files"):
        gateways.add(fleet.config, fleet.database, f"{fleet.area}2", name, None)
    assert store.one(fleet.database, "select area from gateway where name = %s", (name,)) == fleet.area
    assert not gateways.add(fleet.config, fleet.database, f"{fleet.area}2", name, tmp_path / "files")
    assert refused(as_gateway(fleet, tmp_path, name), lambda channel: next(channel.consume(broker.gateway_queue(name), inactivity_timeout=0.1))) is None


def test_its_files_are_its_owners(fleet: Fleet, tmp_path: Path) -> None:
    """Others read no password, and RabbitMQ gets no more than its hash."""
    place = tmp_path / "files" / f"{fleet.area}-a"
    assert [(it.name, it.stat().st_mode & 0o777) for it in sorted(place.iterdir())] == [("broker.password", 0o600), ("fleet.toml", 0o600)]
    assert place.stat().st_mode & 0o777 == 0o700
    assert not any("password" in line and "_file" not in line for line in (place / "fleet.toml").read_text().splitlines())
    # (RabbitMQ's documentation has this password with this salt)
    assert administration.hash_of("test12", bytes.fromhex("908dc60a")) == "kI3GCqW5JLMJa4iX1lo7X4D6XbYqlLgxIs30+P6tENUV2POR"


@pytest.mark.parametrize("lines, host, port, tls, authority", [
    ("", "", 5671, True, ""), ('host = "localhost 127.0.0.2"\nport = 5673', "", 5671, True, ""),
    ('host = "node1 node2"\nport = 5673\ntls = true\nauthority = "/a.pem"', "node1 node2", 5673, True, "/a.pem"),
    ('host = "127.0.0.1"\n[broker.outside]\nhost = "broker.example"\nauthority = "/a.pem"', "broker.example", 5671, True, "/a.pem"),
    ('host = "node1"\ntls = true\n[broker.outside]\nhost = "10.0.0.1"\nport = 5672\ntls = false', "10.0.0.1", 5672, False, "")])
def test_where_a_gateway_finds_the_broker(tmp_path: Path, lines: str, host: str, port: int, tls: bool, authority: str) -> None:
    """As the configuration says for those outside, else as the server does; of one that has it on its own machine none of that is a
    gateway's, which says that the name lacks."""
    (tmp_path / "fleet.toml").write_text(f"[broker]\n{lines}\n")
    gateways.put_files(read_config(tmp_path / "fleet.toml"), tmp_path, "north", "gw1")
    told = read_config(tmp_path / "gw1" / gateways.SETTINGS).broker
    assert (told.host, told.port, told.tls, told.authority, told.user) == (host, port, tls, authority, "gw1")
    if not host:
        with pytest.raises(Trouble, match="broker.host.*names no node.*name by which"), broker.connected(told):
            pass


def certificate(folder: Path, name: str, signer: tuple[Any, Any] | None) -> tuple[Any, Any]:
    """A certificate for 127.0.0.1 in the folder, signed by an authority or by itself."""
    import ipaddress
    key = ec.generate_private_key(ec.SECP256R1())
    told = x509.Name([x509.NameAttribute(NameOID.COMMON_NAME, name)])
    now = datetime.now(timezone.utc)
    builder = x509.CertificateBuilder().subject_name(told).issuer_name(signer[0].subject if signer else told).public_key(key.public_key()) \
        .serial_number(x509.random_serial_number()).not_valid_before(now - timedelta(days=1)).not_valid_after(now + timedelta(days=2)) \
        .add_extension(x509.BasicConstraints(ca=signer is None, path_length=None), critical=True) \
        .add_extension(x509.SubjectAlternativeName([x509.IPAddress(ipaddress.ip_address("127.0.0.1"))]), critical=False)
    made = builder.sign(signer[1] if signer else key, hashes.SHA256())
    (folder / f"{name}.pem").write_bytes(made.public_bytes(serialization.Encoding.PEM))
    (folder / f"{name}.key").write_bytes(key.private_bytes(serialization.Encoding.PEM, serialization.PrivateFormat.PKCS8,
                                                           serialization.NoEncryption()))
    return made, key


def test_tls(tmp_path: Path, both: Both) -> None:
    """Over TLS a gateway takes a broker whose certificate its authority signed, and no other one; nothing goes to a port without TLS."""
    del both
    signer = certificate(tmp_path, "authority", None)
    certificate(tmp_path, "server", signer)
    certificate(tmp_path, "stranger", None)
    rabbit = Rabbit(tmp_path, Secured(*(tmp_path / name for name in ("authority.pem", "server.pem", "server.key"))))
    try:
        rabbit.begin()
        rabbit.wait()
        told = Broker(port=rabbit.tls_port, tls=True, authority=str(tmp_path / "authority.pem"))
        with broker.connected(told) as connection:
            assert connection.is_open
        for wrong in (replace(told, authority=str(tmp_path / "stranger.pem")), replace(told, authority=""), replace(told, port=rabbit.port)):
            with pytest.raises(broker.FAULTS), broker.connected(wrong):
                pass
    finally:
        rabbit.end()


def written(fleet: Fleet, path: Path, management: bool = True) -> Path:
    """The fleet's configuration as a file."""
    told = fleet.config.programs
    steps = told.steps or f"{Path(__file__).parents[3]}/tests/reference/steps"
    line = f'management = "{fleet.config.broker.management}"\n' if management else ""
    path.write_text(f'database = "{fleet.config.database}"\n[broker]\nport = {fleet.config.broker.port}\n{line}[programs]\n'
                    f'steps = "{steps}"\nline_accept = "{told.line_accept}"\naddress_list = "{told.address_list}"\n')
    return path


def test_the_words(fleet: Fleet, tmp_path: Path, capsys: pytest.CaptureFixture[str], monkeypatch: pytest.MonkeyPatch) -> None:
    """Gateways with files and without, taken away, named; a roster from the standard input, names; what became of commands; faults in
    words. Each word has its help, and no key stands in anything that is said."""
    path, bare = written(fleet, tmp_path / "fleet.toml"), written(fleet, tmp_path / "bare.toml", False)
    area, said_all = fleet.area, ""

    def said(*words: str, config: Path = path) -> tuple[int, str]:
        nonlocal said_all
        status = commandline.main(["--config", str(config), *words])
        told = capsys.readouterr()
        said_all += told.out + told.err
        return status, (told.out + told.err).strip()

    meters = some_meters(random.Random(3), 5)
    monkeypatch.setattr("sys.stdin", io.TextIOWrapper(io.BytesIO(roster_of(meters).encode())))
    names = tmp_path / "names"
    names.write_text(f"{meters[4].name} Boiler, house 7\n\n{'0' * 16} Nobody\n")
    assert said("commission", "-", "--names", str(names)) == (0, "2 new meters\n1 names")
    assert store.one(fleet.database, "select name from meter where address = %s", (meters[4].name,)) == "Boiler, house 7"
    monkeypatch.setattr("sys.stdin", io.TextIOWrapper(io.BytesIO(roster_of(meters).replace(" 7 ", " 9 ").encode())))
    assert "input_check" in said("commission", "-")[1]
    names.write_text("nothing\n")
    assert "line 1" in said("commission", "/dev/null", "--names", str(names))[1] or said("commission", "/dev/null")[0] == 1
    assert said("gateways", area, "new1")[0] == 1 and "--files" in said("gateways", area, "new1")[1]
    status, told = said("gateways", area, "new1", "--files", str(tmp_path / "out"))
    assert status == 0 and re.fullmatch("1 new gateways\n.*broker.outside.*", told), told
    assert "management" in said("gateways", area, "new2", "--files", str(tmp_path / "out"), config=bare)[1]
    assert said("gateways", area, "new2", config=bare) == (0, "1 new gateways")
    assert said("remove", "new1", "new2")[0] == 0
    assert "no such gateway" in said("remove", "nobody")[1]
    each = said("status", "--gateways")[1].splitlines()
    assert f"gateway new1 in {area}: taken away, never heard" in each and f"gateway {area}-a in {area}: never heard" in each
    assert "new1" not in said("status")[1] and f"area {area}: 3 gateways, 3 of them silent" in said("status")[1]
    assert "no sessions works: systemctl start" in said("status")[1]
    assert said("command", meters[0].name, "0102", "--id", "c1") == (0, "c1")
    monkeypatch.setattr("sys.stdin", io.StringIO("f" * 32 + "\n"))
    assert said("rekey", meters[0].name)[0] == 0
    lines = said("commands", meters[0].name)[1].splitlines()
    assert len(lines) == 2 and lines[1] == f"c1 for {meters[0].name}, send: waiting, sent 0 times"
    assert said("commands", meters[1].name) == (0, "")
    assert not any(key in said_all for key in ["f" * 32, *(meter.key.hex() for meter in meters)])


def test_gateways_of_which_one_is_wrong(fleet: Fleet, tmp_path: Path, capsys: pytest.CaptureFixture[str]) -> None:
    """All that are named are made or taken away, or none: neither in the database nor with RabbitMQ, and no file is written."""
    path, names = written(fleet, tmp_path / "fleet.toml"), (f"{fleet.area}-x", f"{fleet.area}-y")
    out, file = tmp_path / "out", tmp_path / "file"
    file.write_text("")

    def said(*words: str) -> tuple[int, str]:
        status = commandline.main(["--config", str(path), *words])
        told = capsys.readouterr()
        return status, (told.out + told.err).strip()

    def known() -> dict[str, bool]:
        return store.pairs(fleet.database, "select name, gone is null from gateway where name = any(%s)", (list(names),))
    asked = administration.Administration(fleet.config.broker)
    for words, wanted in (((fleet.area, names[0], "BAD"), "the name BAD"), ((fleet.area, names[0], "guest"), "the fleet's own user"),
                          (("nowhere", *names), "no such area")):
        status, told = said("gateways", *words, "--files", str(out))
        assert status == 1 and wanted in told and not known() and not out.exists() and not asked.knows(names[0])
    status, told = said("gateways", fleet.area, *names, "--files", str(file / "out"))
    assert status == 1 and f"{file}/out: " in told and not known() and not asked.knows(names[0])
    assert said("gateways", fleet.area, *names, names[0], "--files", str(out))[1].startswith("2 new gateways")
    status, told = said("remove", names[0], "nobody", names[1])
    assert status == 1 and "gateway nobody: there is no such gateway" in told
    assert known() == dict.fromkeys(names, True) and all(asked.knows(name) for name in names)
    assert said("remove", *names)[0] == 0 and known() == dict.fromkeys(names, False) and not any(asked.knows(name) for name in names)


def test_each_word_has_its_help(capsys: pytest.CaptureFixture[str]) -> None:
    """What the command takes stands in its help, which says what the exit statuses mean."""
    with pytest.raises(SystemExit):
        commandline.main(["--help"])
    words = [line.split()[0] for line in capsys.readouterr().out.splitlines() if line.startswith("    ") and line[4] != " "]
    assert {"gateway", "intake", "sessions", "downlinks", "page", "metrics", "demo", "init", "area", "gateways", "remove", "commission",
            "allow", "command", "commands", "correct", "rekey", "retire", "set-back", "status", "backup", "restore"} == set(words)
    for word in words:
        with pytest.raises(SystemExit) as ended:
            commandline.main([word, "--help"])
        told = capsys.readouterr().out
        assert ended.value.code == 0 and "exit status" in told and len(told.split("\n\n")[1]) > 20, word


@pytest.mark.parametrize("version", [1, 2, 3, 4, 5])
def test_tables_of_the_release_before(fleet: Fleet, version: int) -> None:
    """`init` makes of them this one's; a page and parts refuse them until then."""
    set_back(fleet, version)
    fleet.database.execute("insert into reading values (5, %s, 'gw', 1, 77, '', null, false, '[]', 1234)", (fleet.meters[0].name,))
    if version > 1:
        fleet.database.execute("update meter set heard = 1234 where address = %s", (fleet.meters[0].name,))
    with pytest.raises(Trouble, match="init"):
        store.connect(fleet.config.database)
    with pytest.raises(Trouble, match="init"):
        FleetDoor(fleet.config).opened()
    for _ in range(2):
        store.init(fleet.config.database)
    with store.connect(fleet.config.database) as database:
        assert store.pairs(database, "select address, heard from page.meter where retired is null")[fleet.meters[0].name] == 1234
        assert not store.one(database, "select has_table_privilege('public', 'page.meter', 'select')")


def test_a_worker_more_and_less(fleet: Fleet, tmp_path: Path) -> None:
    """While lines come another process of sessions is started, and the first one ended: all is heard once, and `status` counts both."""
    path = written(fleet, tmp_path / "fleet.toml")
    command = [PYTHON, str(Path(__file__).parents[1] / "wmbus-fleet"), "--config", str(path), "sessions"]
    names = [f"9315{number:08d}0107" for number in range(60)]
    sent = 0

    def feed() -> bool:
        nonlocal sent
        sent += 1
        rows = [(name, f"{fleet.area}-a", 1, sent, 1, f"A {sent} 00") for name in names]
        store.copy_rows(fleet.database, "inbox (address, gateway, epoch, message, place, text)", rows)
        return True

    def has_workers(count: int) -> bool:
        """Feeds on, until so many processes are connected."""
        return feed() and store.one(fleet.database, "select coalesce(sum(count), 0) from page.worker where name = 'wmbus sessions'") == count
    running: list[subprocess.Popen[bytes]] = []
    environment = {name: value for name, value in os.environ.items() if name != "PGAPPNAME"}
    try:
        for count in (1, 2):
            running.append(subprocess.Popen(command, env=environment))
            until(partial(has_workers, count))
        running[0].terminate()
        assert running[0].wait(60) == 0
        until(partial(has_workers, 1))
        until(lambda: store.one(fleet.database, "select count(*) from inbox") == 0)
    finally:
        for process in running:
            process.terminate()
        statuses = [process.wait(60) for process in running]
    assert statuses == [0, 0]
    assert fleet.database.execute("select count(*), count(distinct (address, text)) from (select address, text from line) l"
                                  ).fetchone() == (60 * sent, sent)


