"""MQTT against a real broker, Home Assistant's discovery, metrics, and where keys stand."""
from __future__ import annotations

import functools
import json
import os
import re
import shutil
import signal
import socket
import struct
import threading
import time
import urllib.request
from collections.abc import Iterator
from contextlib import closing, suppress
from dataclasses import replace
from pathlib import Path
from typing import Any

import pytest
from wmbus_service import broker, metrics, service, session, status, steps, store
from wmbus_service.checking import broker_words
from wmbus_service.commands import put_command
from wmbus_service.config import Config, Metrics, Mqtt, Programs
from wmbus_service.ending import Ending
from wmbus_service.page import looks
from wmbus_service.publications import announce_anew, template_of
from wmbus_service.sensors import KINDS, kind_of, shown
from wmbus_service.trouble import Trouble

from telegrams import messages
from . import servers
from .kill import TOP, Child
from .meters import line_of
from .processes import PATIENCE, certificate_of, free_port, run, until
from .servers import Listener, Mosquitto
from .test_sessions import House, house_fixture  # noqa: F401

pytestmark = pytest.mark.skipif(bool(servers.missing()), reason=f"{', '.join(servers.missing())} isn't there")

# developers.home-assistant.io, "Sensor entity": device classes, their units and their state classes, as far as meters of this kind have
# them
DOCUMENTED: dict[str, tuple[set[str | None], set[str | None]]] = {
    "energy": ({"J", "kJ", "MJ", "GJ", "mWh", "Wh", "kWh", "MWh", "GWh", "TWh", "cal", "kcal", "Mcal", "Gcal"},
               {"total", "total_increasing"}),
    "water": ({"L", "gal", "m³", "ft³", "CCF", "MCF"}, {"total", "total_increasing"}),
    "gas": ({"L", "m³", "ft³", "CCF", "MCF"}, {"total", "total_increasing"}),
    "volume": ({"L", "mL", "gal", "fl. oz.", "m³", "ft³", "CCF", "MCF"}, {"total", "total_increasing"}),
    "weight": ({"kg", "g", "mg", "µg", "oz", "lb", "st"}, {"measurement", "total", "total_increasing"}),
    "power": ({"mW", "W", "kW", "MW", "GW", "TW"}, {"measurement"}),
    "volume_flow_rate": ({"m³/h", "m³/min", "m³/s", "ft³/min", "L/h", "L/min", "L/s", "gal/min", "mL/s"}, {"measurement"}),
    "temperature": ({"°C", "°F", "K"}, {"measurement"}),
    "pressure": ({"Pa", "kPa", "hPa", "bar", "cbar", "mbar", "mmHg", "inHg", "psi"}, {"measurement"}),
    "voltage": ({"V", "mV", "µV", "kV", "MV"}, {"measurement"}),
    "current": ({"A", "mA"}, {"measurement"}),
    "duration": ({"d", "h", "min", "s", "ms", "µs"}, {"measurement", "total", "total_increasing"}),
    "date": ({None}, {None}),
}
# "MQTT Sensor", configuration variables
MEMBERS = {"availability_topic", "device", "device_class", "enabled_by_default", "name", "object_id", "origin", "state_class",
           "state_topic", "unique_id",
           "unit_of_measurement", "value_template"}


RUNNING: list["Served"] = []


@pytest.fixture(name="mosquitto")
def mosquitto_fixture(tmp_path: Path, monkeypatch: pytest.MonkeyPatch) -> Iterator[Mosquitto]:
    """A broker; what ran over it is ended, however the test does."""
    started = Mosquitto(tmp_path / "broker")
    monkeypatch.setattr(broker, "MOST_PAUSE", 0.5)
    yield started
    while RUNNING:
        RUNNING[-1].child.end()
        RUNNING.pop().listener.end()
    started.end()


class Served:
    """A house whose service runs in a process of its own, and a client that hears what it publishes."""

    def __init__(self, house: House, mosquitto: Mosquitto, config: Config | None = None) -> None:
        self.house, self.mosquitto = house, mosquitto
        self.config = config or replace(house.config, interval=0.05, mqtt=Mqtt(port=mosquitto.port, commands=True),
                                        metrics=Metrics(port=free_port()))
        self.listener = Listener(mosquitto.port, ["wmbus/#", "homeassistant/#"])
        house.database.close()
        self.log = house.config.folder / "log"
        self.child = Child(self.log, lambda: service.run(self.config))
        house.database = store.open_store(house.config.database)
        RUNNING.append(self)

    def heard(self, topic: str) -> list[dict[str, object]]:
        """What was published under a topic, without what the broker had retained."""
        return [json.loads(text) for name, text, is_retained in self.listener.heard if name == topic and not is_retained]

    def end(self) -> None:
        """Ends it as systemd does."""
        assert self.child.end(signal.SIGTERM) == 0, self.log.read_text()
        assert "Traceback" not in self.log.read_text()


def test_readings_and_commands(house: House, mosquitto: Mosquitto) -> None:
    """Readings come retained, sensors once; a command comes in once, its states go back; what can't be taken is answered; a broker
    that was away gets all, and one that was killed what it hasn't acknowledged."""
    served, meter = Served(house, mosquitto), house.meters[0]
    until(lambda: ("wmbus/status", "online", False) in served.listener.heard)
    send = served.listener.client.publish
    send(f"wmbus/command/{meter.name}", json.dumps({"id": "a", "payload": "0102"}), 1)
    send(f"wmbus/command/{meter.name}", json.dumps({"id": "a", "payload": "0304"}), 1)
    for text in ("", "{", "[]", '{"id": "b"}', '{"id": "b", "payload": "x"}', '{"id": "' + "b" * 70 + '", "payload": "01"}'):
        send(f"wmbus/command/{meter.name}", text, 1)
    answers = f"wmbus/commands/{meter.name}"
    # (the same command once more is taken, and isn't sent twice)
    send(f"wmbus/command/{meter.name}", json.dumps({"id": "a", "payload": "0102"}), 1)
    send(f"wmbus/command/{house.meters[1].name}", json.dumps({"id": "a", "payload": "0102"}), 1)
    until(lambda: len(served.heard(answers)) >= 8 and served.heard(f"wmbus/commands/{house.meters[1].name}"))
    assert house.all("select id, payload, asked_by from command") == [("a", "0102", "MQTT")]
    assert sum("error" in it for it in served.heard(answers)) == 7
    (told,) = served.heard(f"wmbus/commands/{house.meters[1].name}")
    assert "command a: its id was used for another command" in str(told["error"])
    house.spool(house.whole(meter, access=0x84) + house.whole(meter, 0x08))
    until(lambda: any(it.get("state") == "confirmed" for it in served.heard(answers)))
    assert [it["state"] for it in served.heard(answers) if "state" in it][0] == "queued"
    mosquitto.end()
    house.spool("".join(house.whole(meter) for _ in range(5)))
    until(lambda: len(house.all("select id from reading")) == 7)
    assert len(house.all("select id from publication")) >= 5
    mosquitto.start()
    until(lambda: [it["counter"] for it in served.heard(f"wmbus/meter/{meter.name}")][-5:] == [3, 4, 5, 6, 7])
    mosquitto.end(is_killed=True)
    house.spool("".join(house.whole(meter) for _ in range(3)))
    until(lambda: len(house.all("select id from reading")) == 10)
    mosquitto.start()
    until(lambda: not house.all("select id from publication"))
    retained = run(["mosquitto_sub", "-h", "127.0.0.1", "-p", str(mosquitto.port), "-t", f"wmbus/meter/{meter.name}", "-C", "1",
                    "-W", "30"]) if shutil.which("mosquitto_sub") else None
    assert retained is None or json.loads(retained.stdout)["volume"] == 0.010
    assert {name for name, _, _ in served.listener.heard
            if name.startswith("homeassistant/")} == {f"homeassistant/sensor/wmbus_{meter.name}/volume/config"}
    served.end()


def test_messages_of_any_form(house: House, mosquitto: Mosquitto) -> None:
    """Whatever a message is it is answered under a topic that can be one (MQTT 3.1.1, 1.5.3: 65,535 bytes), and all that comes later goes
    its way."""
    served, meter = Served(house, mosquitto), house.meters[0]
    until(lambda: ("wmbus/status", "online", False) in served.listener.heard)
    send = served.listener.client.publish
    send(f"wmbus/command/{meter.name}", "[" * 100_000, 1)
    send(f"wmbus/cancel/{meter.name}", '{"id": ' + "[" * 900 + "]" * 900 + "}", 1)
    send("wmbus/command/".ljust(65_535, "a"), '{"id": "a", "payload": "01"}', 1)
    house.spool(house.whole(meter))
    until(lambda: served.heard(f"wmbus/meter/{meter.name}"))
    until(lambda: sum(name.startswith("wmbus/commands/") and "error" in text for name, text, _ in served.listener.heard) == 3)
    served.end()


def test_a_cancellation_under_another_meter(house: House) -> None:
    """A command is cancelled under its own meter alone, as on the page: a broker may let somebody write for one meter and for no other."""
    meter, other = (it.name for it in house.meters[:2])
    put_command(house.database, "a", meter, "01", time.time())
    for address, state in ((other, "waiting"), (meter.upper(), "cancelled")):
        broker.take_message(Mqtt(commands=True), house.database, f"wmbus/cancel/{address}", b'{"id": "a"}')
        assert house.all("select state from command") == [state]
    told = house.all("select topic, payload from publication order by id")
    assert told[0][0] == f"wmbus/commands/{other}" and "error" in json.loads(told[0][1])
    assert told[1][0] == f"wmbus/commands/{meter}" and json.loads(told[1][1])["state"] == "cancelled"


def test_a_command_to_a_meter_out_of_service(house: House) -> None:
    """It is answered in words, and not taken."""
    meter = house.meters[0].name
    house.database.execute("update meter set retired = 1800000000")
    broker.take_message(Mqtt(commands=True), house.database, f"wmbus/command/{meter}", b'{"id": "a", "payload": "01"}')
    assert not house.all("select id from command")
    (told,) = house.all("select payload from publication")
    assert f"the meter {meter} is out of service since 2027-01-1" in json.loads(told)["error"]


@pytest.mark.parametrize("text", ["null", "true", "[]", "1.5"])
def test_an_id_that_is_none(house: House, text: str) -> None:
    """A command under an id that is neither a text nor a number, as a template gives null for what it hasn't, is answered, and not taken:
    the next such one would be taken for the same."""
    broker.take_message(Mqtt(commands=True), house.database, f"wmbus/command/{house.meters[0].name}", f'{{"id": {text}, "payload": "01"}}'.encode())
    assert not house.all("select id from command")
    assert ["error" in json.loads(it) for it in house.all("select payload from publication")] == [True]


@pytest.mark.parametrize("topic", ["house", "wmbus/house"])
def test_a_command_under_an_earlier_topic(house: House, topic: str) -> None:
    """A broker goes on to send what was subscribed under the topic of an earlier configuration (MQTT 3.1.1, 4.1): a command there isn't
    one, and cancels none."""
    meter = house.meters[0].name
    put_command(house.database, "a", meter, "01", time.time())
    for ident in ("a", "b"):
        broker.take_message(Mqtt(commands=True), house.database, f"{topic}/command/{meter}", json.dumps({"id": ident, "payload": "01"}).encode())
    assert house.all("select id, state from command") == [("a", "waiting")]
    assert not house.all("select topic from publication")


def test_a_connection_that_is_reset() -> None:
    """Where the broker resets the connection just before a message, as one does that is killed while it has unread ones, the connection
    is lost, as at any other moment: the next one follows."""
    import paho.mqtt.client as mqtt
    with socket.create_server(("127.0.0.1", 0)) as server:
        def serve() -> None:
            opened, _ = server.accept()
            opened.recv(1000)
            # CONNACK, and then a reset
            opened.sendall(bytes([0x20, 2, 0, 0]))
            opened.setsockopt(socket.SOL_SOCKET, socket.SO_LINGER, struct.pack("ii", 1, 0))
            is_known.wait(PATIENCE)
            opened.close()
        is_known = threading.Event()
        serving = threading.Thread(target=serve)
        serving.start()
        client = mqtt.Client(client_id="wmbus")
        broker._connect(Mqtt(port=server.getsockname()[1]), client)
        is_known.set()
        serving.join()
        with pytest.raises((broker.Lost, OSError)):
            broker.publish(client, [(number, "wmbus/meter/a", "{}", 1) for number in range(3)])


def test_a_connection_that_is_reset_at_once(house: House, monkeypatch: pytest.MonkeyPatch, caplog: pytest.LogCaptureFixture) -> None:
    """Where what listens at the broker's port resets a connection before a word was said, as what stands in front of a broker does that is
    down, the next one follows."""
    came: list[int] = []
    turn, connect = threading.Barrier(2, timeout=PATIENCE), socket.create_connection
    with socket.create_server(("127.0.0.1", 0)) as server:
        def serve() -> None:
            with suppress(OSError, threading.BrokenBarrierError):
                while True:
                    opened, _ = server.accept()
                    turn.wait()
                    opened.setsockopt(socket.SOL_SOCKET, socket.SO_LINGER, struct.pack("ii", 1, 0))
                    opened.close()
                    came.append(1)
                    turn.wait()

        def connected(*words: Any, **more: Any) -> socket.socket:
            opened = connect(*words, **more)
            # (it is there, and then it is reset)
            turn.wait()
            turn.wait()
            return opened
        monkeypatch.setattr(socket, "create_connection", connected)
        threading.Thread(target=serve, daemon=True).start()
        ending = Ending()
        connecting = broker.Broker(house.config, Mqtt(port=server.getsockname()[1], commands=True), ending)
        connecting.start()
        until(lambda: not connecting.is_alive() or len(came) > 1)
        assert connecting.is_alive() and "it is tried again" in caplog.text
        ending.set()
        connecting.join(PATIENCE)


@pytest.mark.parametrize("fault, has_trace", [(broker.Lost("gone"), False), (TimeoutError("gone"), False), (KeyError("gone"), True)])
def test_what_a_connection_ends_by(house: House, monkeypatch: pytest.MonkeyPatch, caplog: pytest.LogCaptureFixture, fault: Exception,
                                   has_trace: bool) -> None:
    """Whatever that is, the next one follows; the log has where a fault came from that isn't one of the connection, the database or words."""
    tried: list[int] = []

    def connect(*_words: object) -> None:
        tried.append(1)
        raise fault
    monkeypatch.setattr(broker, "_connect", connect)
    ending = Ending()
    connecting = broker.Broker(house.config, Mqtt(), ending)
    connecting.start()
    until(lambda: not connecting.is_alive() or len(tried) > 1)
    assert connecting.is_alive()
    ending.set()
    connecting.join(PATIENCE)
    assert "gone" in caplog.text and ("Traceback" in caplog.text) == has_trace


def test_a_slow_way_to_the_broker(monkeypatch: pytest.MonkeyPatch) -> None:
    """Messages are given up where no answer comes for long, and not where each of many takes its time: else all of them would go out
    again and again."""
    import paho.mqtt.client as mqtt
    monkeypatch.setattr(broker, "PATIENCE", 4.0)
    with socket.create_server(("127.0.0.1", 0)) as server:
        def serve() -> None:
            opened, _ = server.accept()
            with opened, opened.makefile("rb") as file:
                file.read(file.read(2)[1])
                opened.sendall(bytes([0x20, 2, 0, 0]))
                while head := file.read(2):
                    # (a PUBLISH at QoS 1: the topic's length, the topic, its number)
                    body = file.read(head[1])
                    if head[0] & 0xF0 == 0x30:
                        time.sleep(0.4)
                        at = 2 + int.from_bytes(body[:2], "big")
                        opened.sendall(bytes([0x40, 2]) + body[at:at + 2])
        threading.Thread(target=serve, daemon=True).start()
        client = mqtt.Client(client_id="wmbus")
        broker._connect(Mqtt(port=server.getsockname()[1]), client)
        broker.publish(client, [(number, "wmbus/meter/a", "{}", 1) for number in range(12)])
        client.disconnect()


def test_a_broker_that_lets_nothing_be_subscribed(house: House, caplog: pytest.LogCaptureFixture) -> None:
    """Where the broker refuses a subscription (MQTT 3.1.1, 3.9.3), as its rights may have it, that is said: no command would come."""
    with socket.create_server(("127.0.0.1", 0)) as server:
        def serve() -> None:
            opened, _ = server.accept()
            with opened, opened.makefile("rb") as file:
                file.read(file.read(2)[1])
                opened.sendall(bytes([0x20, 2, 0, 0]))
                while head := file.read(2):
                    body = file.read(head[1])
                    if head[0] & 0xF0 == 0x80:
                        opened.sendall(bytes([0x90, 4]) + body[:2] + bytes([0x80, 0x80]))
        threading.Thread(target=serve, daemon=True).start()
        ending = Ending()
        connecting = broker.Broker(house.config, Mqtt(port=server.getsockname()[1], commands=True), ending)
        connecting.start()
        with suppress(AssertionError):
            until(lambda: "subscribe" in caplog.text, 5)
        ending.set()
        connecting.join(PATIENCE)
    assert "no commands come" in caplog.text


@pytest.mark.parametrize("topic, words", [(b"wmbus/command/\xff", "isn't in UTF-8"), (b"wmbus/command/+", "can be none"),
                                          (b"wmbus/cancel/a/#", "can be none"), (b"wmbus/command/a\0", "can be none")])
def test_a_topic_that_can_be_none(house: House, topic: bytes, words: str, caplog: pytest.LogCaptureFixture) -> None:
    """What a broker passes on under a topic that can be none (MQTT 3.1.1, 1.5.3 and 4.7.1) is left, since nothing can be answered under
    it, and what comes behind it is taken."""
    meter = house.meters[0].name
    sent = b""
    for topic, payload in ((topic, b"a"), (f"wmbus/command/{meter}".encode(), b'{"id": "a", "payload": "01"}')):
        # (a PUBLISH at QoS 0: its topic's length, the topic, the payload)
        body = len(topic).to_bytes(2, "big") + topic + payload
        sent += bytes([0x30, len(body)]) + body
    with socket.create_server(("127.0.0.1", 0)) as server:
        def serve() -> None:
            opened, _ = server.accept()
            with opened:
                opened.recv(1000)
                opened.sendall(bytes([0x20, 2, 0, 0]) + sent)
                is_judged.wait(PATIENCE)
        is_judged = threading.Event()
        threading.Thread(target=serve, daemon=True).start()
        ending = Ending()
        connecting = broker.Broker(house.config, Mqtt(port=server.getsockname()[1], commands=True), ending)
        connecting.start()
        until(lambda: not connecting.is_alive() or house.all("select id from command"))
        is_judged.set()
        assert connecting.is_alive() and words in caplog.text
        assert not house.all("select topic from publication")
        ending.set()
        connecting.join(PATIENCE)


@pytest.mark.parametrize("sent", [bytes([0x30, 0]), bytes([0x32, 2, 0, 9]), bytes([0x90, 0])])
def test_a_packet_that_is_none(house: House, sent: bytes, caplog: pytest.LogCaptureFixture) -> None:
    """What comes from the broker's port and is no packet of MQTT, as one that is shorter than its own fields, ends that connection alone,
    and the next one follows."""
    came: list[int] = []
    with socket.create_server(("127.0.0.1", 0)) as server:
        def serve() -> None:
            with suppress(OSError):
                while True:
                    opened, _ = server.accept()
                    came.append(1)
                    with opened, suppress(OSError):
                        opened.recv(1000)
                        opened.sendall(bytes([0x20, 2, 0, 0]) + sent)
                        while opened.recv(1000):
                            pass
        threading.Thread(target=serve, daemon=True).start()
        ending = Ending()
        connecting = broker.Broker(house.config, Mqtt(port=server.getsockname()[1], commands=True), ending)
        connecting.start()
        until(lambda: not connecting.is_alive() or len(came) > 1)
        assert connecting.is_alive() and "it is tried again" in caplog.text
        ending.set()
        connecting.join(PATIENCE)


def test_discovery() -> None:
    """Each sensor has a unit and a state class that Home Assistant documents for its device class."""
    for address in ("9315010000000107", "9315010000000103", "9315010000000104"):
        for quantity, units in KINDS.items():
            for unit in units:
                kind = kind_of(address, {"quantity": quantity, "unit": unit})
                assert kind
                if kind.device:
                    assert kind.unit in DOCUMENTED[kind.device][0] and kind.state in DOCUMENTED[kind.device][1], (quantity, unit)
                assert kind.state or not kind.unit
    for record, wanted in (({"quantity": "energy", "unit": "Wh", "value": "12345", "exponent": 3}, "12345"),
                           ({"quantity": "energy", "unit": "J", "value": "-5", "exponent": 0}, "-0.000005"),
                           ({"quantity": "volume", "unit": "m3", "value": "2850427", "exponent": -2}, "28504.27"),
                           ({"quantity": "volume", "unit": "m3", "value": "12345678901234567890123456789012345", "exponent": -6},
                            "12345678901234567890123456789.012345"),
                           ({"quantity": "volume", "unit": "m3", "value": "raw", "exponent": -2}, None),
                           ({"quantity": "date", "unit": "-", "value": "2007-02-28", "exponent": 0}, '"2007-02-28"'),
                           # (docs/FORMATS.md: how many days the month has isn't asked; Home Assistant takes a day of ISO 8601 alone)
                           ({"quantity": "date", "unit": "-", "value": "2007-02-31", "exponent": 0}, None),
                           # (docs/FORMATS.md: a moment is followed by ! where the meter calls it invalid, and then by + in summer time)
                           ({"quantity": "datetime", "unit": "-", "value": "2026-03-29T01:59", "exponent": 0}, '"2026-03-29T01:59"'),
                           ({"quantity": "datetime", "unit": "-", "value": "2026-03-29T03:00+", "exponent": 0}, '"2026-03-29T03:00+"'),
                           ({"quantity": "datetime", "unit": "-", "value": "2026-03-29T03:00!+", "exponent": 0}, None)):
        kind = kind_of("9315010000000107", record)
        assert kind and shown(record, kind) == wanted


def test_long_numbers_in_words() -> None:
    """However many digits a number has, all are told."""
    assert status.shown("12345678901234567890123456789012345", -6) == "12345678901234567890123456789.012345"


def test_sensors_members(house: House, mosquitto: Mosquitto) -> None:
    """A sensor's configuration has documented members alone, and its state is where it says."""
    served, meter = Served(house, mosquitto), house.meters[0]
    house.spool(house.whole(meter))
    topic = f"homeassistant/sensor/wmbus_{meter.name}/volume/config"
    until(lambda: served.heard(topic) and served.heard(f"wmbus/meter/{meter.name}"))
    (told,) = served.heard(topic)
    assert told.keys() <= MEMBERS
    assert told["device_class"] == "water" and told["unit_of_measurement"] == "m³" and told["state_class"] == "total_increasing"
    assert told["state_topic"] == f"wmbus/meter/{meter.name}" and told["value_template"] == "{{ value_json.volume | default('') }}"
    assert served.heard(str(told["state_topic"]))[0]["volume"] == 0.001
    served.end()


@pytest.mark.parametrize("quantity, unit, value, wanted", [("volume", "m3", 7.5, ""), ("date", "-", "2026-01-31", "2025-12-31"),
                                                           ("errorflags", "-", "0", "2025-12-31")])
def test_messages_without_a_value(quantity: str, unit: str, value: object, wanted: str) -> None:
    """A meter that sends several kinds of messages by turns leaves the values of the others as they are: a number is empty there, which Home
    Assistant passes over, anything else is what it was, and no template has a name that isn't there."""
    jinja2 = pytest.importorskip("jinja2")
    kind = kind_of("9315010000000107", {"quantity": quantity, "unit": unit})
    assert kind
    template = jinja2.Environment(undefined=jinja2.StrictUndefined).from_string(template_of(quantity, kind))
    assert template.render(value_json={quantity: value}, this={"state": "2025-12-31"}) == str(value)
    assert template.render(value_json={"other": 1}, this={"state": "2025-12-31"}) == wanted


def test_a_meter_that_changes_its_unit(house: House) -> None:
    """A sensor has one unit for ever: a value in another one has a sensor of its own, also in the same message, after a start with other
    topics, and where a database of before doesn't know in which unit it told of the first one."""
    meter, place = house.meters[0], f"homeassistant/sensor/wmbus_{house.meters[0].name}"
    house.database.execute("insert into announced (address, name) values (?, 'energy')", (meter.name,))
    told: list[tuple[str, Any, Any]] = []
    for counter, payload in enumerate(("040607000000", "040e19000000", "040608000000" "040e1d000000", "040e20000000"), 1):
        text = b"\x2f\x2f" + bytes.fromhex(payload)
        house.spool(line_of(messages.whole(meter.key, meter.address, counter, text, 0x44, None), 100))
        mqtt = Mqtt(topic="wmbus" if counter < 4 else "other")
        announce_anew(mqtt, house.database)
        session.Sessions(replace(house.config, mqtt=mqtt), house.database).next(1000.0)
        for topic, it in [(topic, json.loads(it)) for topic, it in house.all("select topic, payload from publication order by id")]:
            told += [(topic, it["unit_of_measurement"], it["value_template"])] if topic.endswith("config") else [
                (topic, it.get("energy"), it.get("energy_MJ"))]
        house.database.execute("delete from publication")
    energy = (f"{place}/energy/config", "kWh", "{{ value_json.energy | default('') }}")
    joules = (f"{place}/energy_MJ/config", "MJ", "{{ value_json.energy_MJ | default('') }}")
    topic = f"wmbus/meter/{meter.name}"
    assert told == [energy, (topic, 7, None), joules, (topic, None, 25), (topic, 8, 29), joules, (topic.replace("wmbus", "other", 1), None, 32)]


def test_sensors_at_another_broker_or_topic(house: House, tmp_path: Path) -> None:
    """Once the broker is another one in the configuration, which knows no sensor yet, or the topics are, sensors are told of there, and
    otherwise once over all starts."""
    house.database.close()
    seen = []
    first, second = free_port(), free_port()
    brokers = (Mqtt(port=first), Mqtt(port=first), Mqtt(port=first, topic="house"), Mqtt(port=first, topic="house", discovery="ha"),
               Mqtt(port=second, topic="house", discovery="ha"), Mqtt("127.0.0.2", second, topic="house", discovery="ha"))
    for number, told in enumerate(brokers, 1):
        config = replace(house.config, mqtt=told)
        house.spool(house.whole(house.meters[0]))
        child = Child(tmp_path / f"log {number}", functools.partial(service.run, config))
        with closing(store.open_store(house.config.database)) as database:
            until(lambda: database.execute("select count(*) from reading").fetchone() == (number,))  # noqa: B023
            assert child.end(signal.SIGTERM) == 0
            seen += [(name.split("/")[0], json.loads(text)["state_topic"].split("/")[0])
                     for name, text in database.execute("select topic, payload from publication where topic like '%/config'").fetchall()]
            database.execute("delete from publication")
    assert seen == [("homeassistant", "wmbus"), ("homeassistant", "house"), *[("ha", "house")] * 3]


def test_password_and_tls(tmp_path: Path, house: House) -> None:
    """A broker that wants a user, a password and TLS; a wrong password is said in words."""
    if not shutil.which("openssl") or not shutil.which("mosquitto_passwd"):
        pytest.skip("openssl or mosquitto_passwd isn't there")
    files = tmp_path / "tls"
    files.mkdir()
    certificate, key = certificate_of(files)
    run(["mosquitto_passwd", "-b", "-c", files / "users", "house", "secret"])
    mosquitto = Mosquitto(tmp_path / "broker",
                          f"certfile {certificate}\nkeyfile {key}\nallow_anonymous false\npassword_file {files}/users\n")
    # (as an editor on Windows writes it)
    (files / "password").write_bytes(b"\xef\xbb\xbfsecret\r\n")
    (files / "password").chmod(0o600)
    told = Mqtt(port=mosquitto.port, user="house", password_file=str(files / "password"), tls=True,
                authority=str(certificate))
    broker.try_connection(told)
    with pytest.raises(Trouble, match="can't be used"):
        broker.try_connection(replace(told, authority=""))
    (files / "password").write_text("other\n")
    with pytest.raises(Trouble, match="refuse"):
        broker.try_connection(told)
    mosquitto.end()
    with pytest.raises(Trouble, match="can't be used"):
        broker.try_connection(told)


def test_a_broker_that_refuses_the_user(tmp_path: Path, house: House) -> None:
    """Where the broker lets a user not in, `check` says that it is for its rights, and not that nobody listens at its port."""
    mosquitto = Mosquitto(tmp_path / "broker", "allow_anonymous false\n")
    try:
        with pytest.raises(Trouble, match="the broker refuses the connection: not authorised; look at its"):
            broker.try_connection(Mqtt(port=mosquitto.port))
    finally:
        mosquitto.end()


def test_password_in_another_encoding(tmp_path: Path, house: House) -> None:
    """A password that isn't in UTF-8 is said to be so, without a sign of it, and what connects tries on, so that a right one is found."""
    (tmp_path / "password").write_bytes("sch\u00f6n".encode("latin-1"))
    (tmp_path / "password").chmod(0o600)
    told = Mqtt(port=free_port(), user="house", password_file=str(tmp_path / "password"))
    with pytest.raises(Trouble, match="password: .*UTF-8"):
        broker.try_connection(told)
    ending = Ending()
    connecting = broker.Broker(house.config, told, ending)
    connecting.start()
    connecting.join(1)
    assert connecting.is_alive()
    ending.set()
    connecting.join(PATIENCE)


def test_a_password_without_a_user(mosquitto: Mosquitto) -> None:
    """It isn't sent (MQTT 3.1.1, 3.1.2.9), and `check` says so, also where the broker takes everybody."""
    with pytest.raises(Trouble, match="mqtt.password_file: "):
        broker.try_connection(Mqtt(port=mosquitto.port, password_file="/etc/wmbus/mqtt.password"))


def test_a_password_that_others_may_read(tmp_path: Path) -> None:
    """Its file is its owner's alone, as that of a token; `check` says so, and where it goes to another machine in the clear."""
    path = tmp_path / "password"
    with pytest.raises(Trouble, match=f"{path}: there is no such file"):
        broker.try_connection(Mqtt(port=free_port(), user="house", password_file=str(path)))
    path.write_text("secret")
    for rights in (0o644, 0o640, 0o604):
        path.chmod(rights)
        with pytest.raises(Trouble, match=f"{path}: others have rights on it.*chmod 600"):
            broker.try_connection(Mqtt(port=free_port(), user="house", password_file=str(path)))
    told = Mqtt("broker.example", user="house", password_file=str(path))
    assert "password goes in the clear to broker.example" in broker_words(told)
    for safe in (replace(told, tls=True), replace(told, host="127.0.0.1"), replace(told, password_file="")):
        assert not broker_words(safe)


def test_commands_that_are_turned_off(house: House, mosquitto: Mosquitto) -> None:
    """Where nobody turned them on no command comes by MQTT, also none that the broker kept from when they were on."""
    off = replace(house.config, interval=0.05, mqtt=Mqtt(port=mosquitto.port))
    on = replace(off, mqtt=Mqtt(port=mosquitto.port, commands=True))
    topic, listener = f"wmbus/command/{house.meters[0].name}", Listener(mosquitto.port, ["wmbus/status"])
    for number, (config, is_taken) in enumerate(((off, False), (on, True), (off, False), (off, False))):
        house.database.close()
        child = Child(house.config.folder / "log", lambda config=config: service.run(config))  # type: ignore[misc]
        house.database = store.open_store(house.config.database)
        try:
            until(lambda number=number: len([it for it in listener.heard if it[1] == "online"]) == number + 1)  # type: ignore[misc]
            listener.client.publish(topic, json.dumps({"id": f"a{number}", "payload": "01"}), 1)
            listener.hear_all()
            until(lambda: not is_taken or house.all("select id from command"))
        finally:
            assert child.end(signal.SIGTERM) == 0
        # (the broker keeps it for a session that has subscribed)
        listener.client.publish(topic, json.dumps({"id": f"between {number}", "payload": "01"}), 1)
        listener.hear_all()
    listener.end()
    assert house.all("select id, asked_by from command") == [("a1", "MQTT")]
    assert "commands by MQTT are off (mqtt.commands)" in (house.config.folder / "log").read_text()


def test_garbage_that_the_broker_retains(house: House, mosquitto: Mosquitto) -> None:
    """What somebody had the broker retain under the service's topics, of any form and size, does nothing at any of its connections: no
    command is taken from it, nothing is answered without end, and what comes besides is taken."""
    meter, path = house.meters[0].name, f"wmbus/command/{house.meters[0].name}"
    listener = Listener(mosquitto.port, ["wmbus/commands/#", "wmbus/status"])
    for topic, payload in ((path, '{"id": "old", "payload": "01"}'), ("wmbus/command/x", "\0" * 1000), ("wmbus/command/" + "y" * 60_000, "{}"),
                           ("wmbus/cancel/z", "[" * 100_000), (f"wmbus/cancel/{meter}", "x" * 5_000_000), ("wmbus/command/" + "a/b" * 50, ""),
                           (f"wmbus/meter/{meter}", "garbage"), ("wmbus/status", "garbage"), (f"wmbus/commands/{meter}", "garbage")):
        listener.client.publish(topic, payload, 1, True)
    listener.hear_all()
    config = replace(house.config, interval=0.05, mqtt=Mqtt(port=mosquitto.port, commands=True))
    for number in range(3):
        house.database.close()
        child = Child(house.config.folder / "log", lambda: service.run(config))
        house.database = store.open_store(house.config.database)
        try:
            until(lambda number=number: len([it for it in listener.heard if it[1] == "online"]) == number + 1)  # type: ignore[misc]
            listener.client.publish(path, json.dumps({"id": f"new-{number}", "payload": "01"}), 1)
            until(lambda number=number: len(house.all("select id from command")) == number + 1)  # type: ignore[misc]
        finally:
            assert child.end(signal.SIGTERM) == 0
    listener.hear_all()
    listener.end()
    assert house.all("select id from command") == ["new-0", "new-1", "new-2"]
    log = (house.config.folder / "log").read_text()
    assert "Traceback" not in log and log.count("what the broker retains under") == 3 * 5
    assert not any("error" in text for _, text, _ in listener.heard)
    assert ("wmbus/status", "offline", False) in listener.heard


def test_rights_at_the_broker(house: House, tmp_path: Path) -> None:
    """With the rights that docs/SERVICE.md has for Mosquitto the service and Home Assistant do what they have to, and others read alone."""
    text = (TOP / "docs/SERVICE.md").read_text()
    files = tmp_path / "acl"
    files.mkdir()
    (files / "acl").write_text("".join(f"{line}\n" for line in re.findall("^    ((?:user|topic) .*)$", text, re.MULTILINE)))
    for user in ("wmbus", "homeassistant", "guest"):
        run(["mosquitto_passwd", "-b", *["-c"] * (user == "wmbus"), files / "users", user, "secret"])
    (files / "password").write_text("secret")
    (files / "password").chmod(0o600)
    mosquitto = Mosquitto(tmp_path / "rights", f"allow_anonymous false\npassword_file {files}/users\nacl_file {files}/acl\n")
    told = Mqtt(port=mosquitto.port, user="wmbus", password_file=str(files / "password"), commands=True)
    house.database.close()
    child = Child(house.config.folder / "log", lambda: service.run(replace(house.config, interval=0.05, mqtt=told)))
    house.database = store.open_store(house.config.database)
    meter = house.meters[0].name
    try:
        readers = {user: Listener(mosquitto.port, ["wmbus/#", "homeassistant/#"], user) for user in ("homeassistant", "guest")}
        house.spool(house.whole(house.meters[0]))
        until(lambda: not house.all("select id from publication") and house.all("select id from reading"))
        for user, reader in readers.items():
            reader.client.publish(f"wmbus/command/{meter}", json.dumps({"id": user, "payload": "01"}), 1)
            reader.client.publish(f"wmbus/meter/{meter}", "{}", 1, True)
        until(lambda: house.all("select id from command"))
        until(lambda: all(any(it[0] == f"wmbus/meter/{meter}" for it in reader.heard) for reader in readers.values()))
        until(lambda: any("/config" in it[0] for it in readers["homeassistant"].heard))
        assert not any("/config" in it[0] or "command" in it[0] for it in readers["guest"].heard)
        assert house.all("select id from command") == ["homeassistant"]
        assert not any(it[1] == "{}" for it in readers["homeassistant"].heard)
    finally:
        for reader in readers.values():
            reader.end()
        assert child.end(signal.SIGTERM) == 0
        mosquitto.end()


def test_a_message_that_the_broker_does_not_take(house: House, tmp_path: Path, monkeypatch: pytest.MonkeyPatch) -> None:
    """One over which the broker ends the connection, as over one that is too large for it, is set aside by its topic, is told, and holds
    up no other one."""
    monkeypatch.setattr(broker, "MOST_PAUSE", 0.1)
    # (a sensor's message has some 500 bytes, that of a meter some 100)
    mosquitto = Mosquitto(tmp_path / "small", "allow_anonymous true\nmax_packet_size 300\n")
    served, meter = Served(house, mosquitto), house.meters[0].name
    try:
        house.spool("".join(house.whole(house.meters[0]) for _ in range(5)))
        until(lambda: len(served.heard(f"wmbus/meter/{meter}")) >= 5)
        until(lambda: house.all("select id from publication_aside"))
        assert [it["counter"] for it in served.heard(f"wmbus/meter/{meter}")][-1] == 5
        topics = house.all("select topic from publication_aside")
        assert topics == [f"homeassistant/sensor/wmbus_{meter}/volume/config"]
        told = status.status(served.config, False)
        assert f"for {topics[0]} was set aside: the broker ended 3 connections over it" in told
        assert topics[0] in served.log.read_text()
    finally:
        served.child.end()
        mosquitto.end()


@pytest.mark.parametrize("text", [None, "no certificate"])
def test_an_authority_that_is_none(tmp_path: Path, text: str | None) -> None:
    """A CA's file that isn't there, or has no certificate, is named."""
    path = tmp_path / "ca.pem"
    if text:
        path.write_text(text)
    with pytest.raises(Trouble, match=f"{path}: the authority's certificate"):
        broker.try_connection(Mqtt(port=free_port(), tls=True, authority=str(path)))


@pytest.mark.parametrize("told", [Mqtt(port=0), Mqtt(port=70_000), Mqtt(host="")])
def test_place_where_no_broker_can_be(house: House, told: Mqtt, caplog: pytest.LogCaptureFixture) -> None:
    """A place that can be none is named by `check` and in the log."""
    with pytest.raises(Trouble, match=f"mqtt {told.host}:{told.port}: .*look at its host, port"):
        broker.try_connection(told)
    ending = Ending()
    connecting = broker.Broker(house.config, told, ending)
    connecting.start()
    until(lambda: not connecting.is_alive() or f"{told.host}:{told.port}" in caplog.text)
    assert connecting.is_alive()
    ending.set()
    connecting.join(PATIENCE)


@pytest.mark.parametrize("name, text", [("topic", "wmbus/#"), ("topic", "+/wmbus"), ("discovery", "homeassistant/#"), ("client", ""),
                                        ("authority", "/etc/ssl/cert.pem")])
def test_settings_with_which_nothing_goes(house: House, mosquitto: Mosquitto, name: str, text: str,
                                          caplog: pytest.LogCaptureFixture) -> None:
    """A topic with signs of a filter (MQTT 3.1.1, 3.3.2.1), an empty client name (3.1.3.1), and an authority without TLS, where all would go
    in the clear, are named by `check` and in the log, and what connects tries on."""
    told = replace(Mqtt(port=mosquitto.port), **{name: text})
    with pytest.raises(Trouble, match=f"mqtt.{name}: "):
        broker.try_connection(told)
    house.database.execute("insert into publication (topic, payload, retain) values (?, '{}', 1)", (f"{told.discovery}/sensor/a",))
    ending = Ending()
    connecting = broker.Broker(house.config, told, ending)
    connecting.start()
    until(lambda: not connecting.is_alive() or f"mqtt.{name}" in caplog.text)
    assert connecting.is_alive()
    ending.set()
    connecting.join(PATIENCE)


def test_a_broker_that_never_returns(house: House, monkeypatch: pytest.MonkeyPatch, caplog: pytest.LogCaptureFixture) -> None:
    """Of the messages in front of the last ones, which all wait, the last one of each topic alone waits, so that a broker that is away for
    years is told of each sensor and each last value, and the disk isn't filled; log, status and page say so."""
    config = replace(house.config, mqtt=Mqtt(waiting=10))
    sessions, clock = session.Sessions(config, house.database), [100_000.0]
    monkeypatch.setattr("time.time", lambda: clock[0])
    for number in range(60):
        house.spool("".join(house.whole(house.meters[0]) for _ in range(3)) + (house.whole(house.meters[1]) if number < 2 else ""))
        sessions.next(clock[0])
        clock[0] += 3600
        assert len(house.all("select id from publication")) <= 10 + 4 + 4
    told = house.all("select topic, payload from publication order by id")
    first, second = (meter.name for meter in house.meters[:2])
    assert [topic for topic, _ in told[:3]] == [*(f"homeassistant/sensor/wmbus_{it}/volume/config" for it in (first, second)),
                                                f"wmbus/meter/{second}"]
    assert [json.loads(text)["counter"] for _, text in told[2:]] == [2, *range(171, 181)]
    assert len(house.all("select id from reading")) == 182 and caplog.text.count("more than mqtt.waiting") == 1
    words = status.status(config, False)
    assert "13 messages wait for the MQTT broker, the oldest for 60 hours\n171 messages weren't published" in words, words
    assert [it.what for it in looks.all_looks(config, house.database, [], [], clock[0])] == ["stands still", "messages wait"]
    figures = {it.name: it.samples[0].value for it in metrics.Figures(config, service.Service(config, house.database)).collect()}
    assert [figures[f"wmbus_publications_{name}"] for name in ("waiting", "oldest_seconds", "left_out")] == [13, 60 * 3600, 171]
    house.database.execute("delete from publication")
    assert "messages wait" not in status.status(config, False)


def test_metrics(house: House, mosquitto: Mosquitto) -> None:
    """The client library's parser reads the metrics, and they are what was heard."""
    from prometheus_client.parser import text_string_to_metric_families
    served, meter = Served(house, mosquitto), house.meters[0]
    house.database.execute("update meter set retired = 1 where address = ?", (house.meters[1].name,))
    house.spool(house.whole(meter) + "bad\n" + line_of_nobody())
    until(lambda: len(house.all("select number from line")) == 3)
    assert served.config.metrics
    with closing(urllib.request.urlopen(f"http://127.0.0.1:{served.config.metrics.port}/metrics", timeout=PATIENCE)) as answer:
        text = answer.read().decode()
    found = {sample.name: sample.value for family in text_string_to_metric_families(text)  # type: ignore[no-untyped-call]
             for sample in family.samples}
    wanted = {"wmbus_lines_total": 3, "wmbus_stored_total": 1, "wmbus_bad_total": 1, "wmbus_strangers_total": 1, "wmbus_meters": 2,
              "wmbus_meters_retired": 1, "wmbus_trouble": 0}
    assert {name: found[name] for name in wanted} == wanted
    served.end()


@pytest.mark.parametrize("host, name, is_told", [("127.0.0.1", "127.0.0.1:9101", True), ("127.0.0.1", "localhost", True),
                                                 ("::1", "[::1]:9101", True), ("127.0.0.1", "evil.example:9101", False),
                                                 ("127.0.0.1", "", False), ("0.0.0.0", "house.example", True)])
def test_the_name_under_which_metrics_are_asked(host: str, name: str, is_told: bool) -> None:
    """On this machine the metrics are told under its own names alone: no site whose name leads here has a browser read them."""
    begun: list[str] = []
    app = metrics.under_own_names(Metrics(host=host), lambda _environ, begin: begin("200 OK", []) or [b"all"])
    content = b"".join(app({"HTTP_HOST": name}, lambda status, _headers: begun.append(status)))
    assert (begun[0], content == b"all") == (("200 OK", True) if is_told else ("400 Bad Request", False))


def test_silent_and_slow_connections_to_the_metrics(house: House, monkeypatch: pytest.MonkeyPatch) -> None:
    """Who connects and says nothing, or a byte now and then, as anybody on the machine may, has no metrics wait, and takes neither threads nor
    open files that sessions need."""
    monkeypatch.setattr(metrics, "SILENCE", 1.0)
    port = free_port()
    metrics.serve(house.config, Metrics(port=port), service.Service(house.config, house.database))
    threads = threading.active_count()
    slow, *silent = [socket.create_connection(("127.0.0.1", port)) for _ in range(100)]

    def send_slowly() -> None:
        with suppress(OSError):
            while True:
                slow.send(b"G")
                time.sleep(0.05)
    sending = threading.Thread(target=send_slowly, daemon=True)
    sending.start()
    with closing(urllib.request.urlopen(f"http://127.0.0.1:{port}/metrics", timeout=10)) as answer:
        assert b"wmbus_trouble 0" in answer.read()
    assert threading.active_count() <= threads + 40
    sending.join(PATIENCE)
    assert not sending.is_alive()
    for opened in silent:
        opened.settimeout(PATIENCE)
        assert opened.recv(1) == b""
    until(lambda: threading.active_count() <= threads)


def test_metrics_port_that_is_taken(house: House) -> None:
    """Where the metrics' port is another's, or none, it is said which one, and what to do."""
    with socket.create_server(("127.0.0.1", 0)) as taken:
        for port in (taken.getsockname()[1], 70_000):
            with pytest.raises(Trouble, match=rf"127\.0\.0\.1:{port}: .*\[metrics\]"):
                metrics.serve(house.config, Metrics(port=port), service.Service(house.config, house.database))
    with pytest.raises(Trouble, match=r"radio\.\.house:9101: .*\[metrics\]"):
        metrics.serve(house.config, Metrics(host="radio..house"), service.Service(house.config, house.database))


def test_a_session_and_a_wrong_clock(house: House, monkeypatch: pytest.MonkeyPatch) -> None:
    """How long ago lines were looked for is told right also where the clock was set since then."""
    from wmbus_service.metrics import Figures
    served = service.Service(house.config, house.database)
    served.turn()
    now = time.time()
    for wrong in (now - 86_400, now + 86_400):
        monkeypatch.setattr(time, "time", lambda: wrong)  # noqa: B023
        found = {it.name: it.samples[0].value for it in Figures(house.config, served).collect()}
        assert 0 <= found["wmbus_session_age_seconds"] < PATIENCE


def line_of_nobody() -> str:
    """A telegram of a meter that isn't known."""
    from .meters import line_of
    from telegrams import messages
    return line_of(messages.telegram(0x44, bytes.fromhex("9315999999990107"), bytes.fromhex("7a00000000")), 1)


def test_no_key_is_told(house: House, mosquitto: Mosquitto, tmp_path: Path, monkeypatch: pytest.MonkeyPatch) -> None:
    """No key stands in the log, in metrics, in messages, in a list of processes or in a file beside the database, while sessions run."""
    monkeypatch.setattr(session, "run_steps", steps.run_steps)
    slow = tmp_path / "slow"
    slow.write_text(f'#!/bin/sh\nsleep 0.5\nexec {TOP}/tests/reference/steps "$@"\n')
    slow.chmod(0o755)
    config = replace(house.config, interval=0.05, mqtt=Mqtt(port=mosquitto.port, commands=True), metrics=Metrics(port=free_port()),
                     programs=Programs(steps=str(slow)))
    served = Served(house, mosquitto, config)
    meter = house.meters[0]
    assert meter.other
    from wmbus_service.commands import put_key
    put_key(house.database, "key", meter.name, meter.other.hex(), time.time())
    put_command(house.database, "a", meter.name, "01", time.time())
    house.spool(house.whole(meter, access=0x84) + "A 1 bad\n")
    seen: list[str] = []

    def look() -> bool:
        for process in Path("/proc").glob("[0-9]*"):
            try:
                if str(slow) in (told := (process / "cmdline").read_bytes().decode("latin-1")):
                    seen.append(told + (process / "environ").read_bytes().decode("latin-1"))
            except OSError:
                continue
        return bool(house.all("select id from reading")) and not house.all("select id from publication")
    until(look)
    assert served.config.metrics
    with closing(urllib.request.urlopen(f"http://127.0.0.1:{served.config.metrics.port}/metrics", timeout=PATIENCE)) as answer:
        texts = [answer.read().decode(), served.log.read_text(), *seen, *(name + text for name, text, _ in served.listener.heard)]
    assert seen
    texts += [path.read_text("latin-1") for path in house.config.folder.rglob("*") if path.is_file()
              and not path.name.startswith("wmbus.db")]
    for known in house.meters:
        for key in (known.key, known.other):
            assert key is None or not any(key.hex() in text or key.hex().upper() in text or key.decode("latin-1") in text
                                          for text in texts)
    assert house.all("select payload from command where id = 'key'") == [""]
    served.end()
