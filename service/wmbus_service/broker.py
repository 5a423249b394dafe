"""MQTT: what is committed is published, and taken away once the broker has acknowledged it; commands come in, and are committed before
they are acknowledged.

One thread does both, over one connection after the other: what a lost connection had on its way is published again by the next, in its
order."""
from __future__ import annotations

import json
import logging
import socket
import sqlite3
import struct
import threading
import time
from collections.abc import Callable, Iterator
from contextlib import closing, contextmanager
from pathlib import Path
from typing import Any

import paho.mqtt.client as mqtt

from . import store
from .commands import cancel_command, put_command
from .config import Config, Mqtt
from .ending import Ending
from .publications import Publications
from .trouble import Trouble
from .troubles import Troubles

log = logging.getLogger("wmbus")

AT_ONCE, PATIENCE, IDLE = 100, 20.0, 0.2
LEAST_PAUSE, MOST_PAUSE = 0.5, 30.0
MOST_MESSAGE = 10_000
# what is answered to a subscription that isn't taken (MQTT 3.1.1, 3.9.3)
REFUSED = 0x80
# signs of an address that are told again
MOST_ADDRESS = 64
Row = tuple[int, str, str, int]


# after so many connections that ended over one message alone it is set aside, and so many of these are kept
ENDED, MOST_ASIDE = 3, 1000


class Lost(Exception):
    """The connection to the broker is no more, and why."""


class Silent(Lost):
    """The broker doesn't answer."""


# by what a connection ends; of anything else the log has also where it came from
FORESEEN = (Lost, OSError, sqlite3.Error, Trouble)


class Broker(threading.Thread):
    """What goes to the broker and comes from it, whatever a connection ends by."""

    def __init__(self, config: Config, told: Mqtt, ending: Ending, troubles: Troubles | None = None) -> None:
        super().__init__(name="mqtt", daemon=True)
        self.config, self.told, self.ending = config, told, ending
        self.is_connected = False
        self.suspect = Suspect()
        self.troubles = troubles or Troubles(config.folder)

    def run(self) -> None:
        """Connections, one after the other."""
        pause, said = LEAST_PAUSE, ""
        while not self.ending.is_set():
            began = time.monotonic()
            try:
                with closing(store.open_store(self.config.database)) as database:
                    client = self._client(database)
                    try:
                        self._begin(client)
                        self._serve(client, database)
                    finally:
                        opened = client.socket()
                        if isinstance(opened, socket.socket):
                            opened.close()
            except Exception as fault:
                if str(fault) != said:
                    log.warning("MQTT: %s:%d: %s; it is tried again", self.told.host, self.told.port, fault,
                                exc_info=not isinstance(fault, FORESEEN))
                    said = str(fault)
                self.troubles.tell("MQTT", f"{self.told.host}:{self.told.port}: {fault}")
            self.is_connected = False
            pause = LEAST_PAUSE if time.monotonic() - began > PATIENCE else min(2 * pause, MOST_PAUSE)
            self.ending.wait(pause)

    def _client(self, database: sqlite3.Connection) -> mqtt.Client:
        """A client under the service's name, so that the broker keeps the commands that come while there is no connection."""
        told = self.told
        look_at_settings(told)

        def heard(_client: Any, _data: Any, message: mqtt.MQTTMessage) -> None:
            try:
                topic = message.topic
            except UnicodeDecodeError:
                # (not each broker refuses one)
                log.warning("MQTT: a message isn't taken, whose topic isn't in UTF-8")
                return
            take_message(told, database, topic, message.payload, bool(message.retain))

        client = mqtt.Client(client_id=told.client, clean_session=False)
        client.on_message, client.on_subscribe = heard, subscribed
        client.will_set(f"{told.topic}/status", "offline", 1, True)
        return client

    def _begin(self, client: mqtt.Client) -> None:
        """Connects, and waits until the broker has taken `online`."""
        told = self.told
        _connect(told, client)
        topics = [f"{told.topic}/command/+", f"{told.topic}/cancel/+"]
        if told.commands:
            client.subscribe([(topic, 1) for topic in topics])
        else:
            # (the broker keeps what was subscribed when they were turned on)
            client.unsubscribe(topics)
        online = client.publish(f"{told.topic}/status", "online", 1, True)
        _until(client, online.is_published, 1)
        self.is_connected = True
        self.troubles.over("MQTT")
        log.info("MQTT: connected with %s:%d", told.host, told.port)

    def _serve(self, client: mqtt.Client, database: sqlite3.Connection) -> None:
        """Publishes what waits, and takes what comes, as long as the connection lives."""
        while not self.ending.is_set():
            rows = database.execute("select id, topic, payload, retain from publication order by id limit ?",
                                    (self.suspect.at_once,)).fetchall()
            if rows:
                with self.suspect.judged(database, rows):
                    publish(client, rows)
                mark_published(database, rows)
            else:
                _turn(client, IDLE)
        client.publish(f"{self.told.topic}/status", "offline", 1, True)
        _turn(client, IDLE)
        client.disconnect()


class Suspect:
    """The message over which a broker, which took the connection and `online`, ends it: it is found by halves, and set aside."""

    def __init__(self) -> None:
        self.at_once, self.ident, self.times = AT_ONCE, 0, 0

    @contextmanager
    def judged(self, database: sqlite3.Connection, rows: list[Row]) -> Iterator[None]:
        """Looks how it goes with some messages."""
        try:
            yield
            self.at_once, self.times = min(AT_ONCE, 2 * self.at_once), 0
        except Silent:
            raise
        except (Lost, OSError) as fault:
            self._ended(database, rows, fault)
            raise

    def _ended(self, database: sqlite3.Connection, rows: list[Row], fault: Exception) -> None:
        if len(rows) > 1:
            self.at_once = len(rows) // 2
            return
        ident, topic, payload, _ = rows[0]
        self.ident, self.times = ident, self.times + 1 if ident == self.ident else 1
        if self.times < ENDED:
            return
        said = f"the broker ended {ENDED} connections over it ({fault}): look at its log, and at what it takes at most"
        with store.transaction(database):
            database.execute("insert into publication_aside (topic, payload, said, made) values (?, ?, ?, ?)",
                             (topic, payload, said, time.time()))
            database.execute("delete from publication_aside where id <= (select max(id) from publication_aside) - ?", (MOST_ASIDE,))
            database.execute("delete from publication where id = ?", (ident,))
        log.error("MQTT: the message of %d signs under %s is set aside (`wmbus-service status` shows it): %s", len(payload), topic, said)


def subscribed(_client: Any, _data: Any, _number: int, granted: tuple[int, ...]) -> None:
    """Says so where the broker lets no commands come."""
    if any(it >= REFUSED for it in granted):
        log.warning("MQTT: the broker doesn't let this user subscribe, and no commands come: look at its rights")


def _connect(told: Mqtt, client: mqtt.Client) -> None:
    """Connects a client, and waits for the broker's answer."""
    if told.user:
        client.username_pw_set(told.user, _password_of(told.password_file) if told.password_file else None)
    if told.tls:
        try:
            client.tls_set(ca_certs=told.authority or None)
        except OSError as fault:
            raise Trouble(told.authority or "mqtt.tls", f"the authority's certificate can't be read: {fault.strerror or fault}",
                          "name the CA's file, in PEM, as mqtt.authority") from None
    answers: list[int] = []

    def connected(_client: Any, _data: Any, _flags: Any, answer: int) -> None:
        answers.append(answer)

    client.on_connect = connected
    try:
        status = client.connect(told.host, told.port, keepalive=30)
    except (ValueError, OverflowError) as fault:
        raise Lost(str(fault)) from None
    if status != mqtt.MQTT_ERR_SUCCESS:
        # (it was reset at once, as by what stands in front of a broker that is down)
        raise Lost(mqtt.error_string(status))
    # (else each small message waits for the answer to the one before it)
    client.socket().setsockopt(socket.IPPROTO_TCP, socket.TCP_NODELAY, 1)
    try:
        _until(client, lambda: len(answers), 1)
    except Lost:
        # (of a refusal the client itself says no more than that there was one)
        if not any(answers):
            raise
    if answers[0]:
        why = mqtt.connack_string(answers[0]).removeprefix("Connection Refused: ").rstrip(".")
        raise Lost(f"the broker refuses the connection: {why}")


def _password_of(path: str) -> str:
    """The password that stands in a file."""
    try:
        # (editors on Windows put a mark in front)
        store.look_at_rights(Path(path), 0o600)
        return Path(path).read_text(encoding="utf-8-sig").strip()
    except FileNotFoundError:
        raise Trouble(path, "there is no such file", "write the password into it, or leave out mqtt.password_file") from None
    except UnicodeDecodeError:
        raise Trouble(path, "the password isn't in UTF-8", "write it into the file anew") from None


def look_at_settings(told: Mqtt) -> None:
    """Names under which nothing can be published, or kept by the broker, and an authority without that for which it is."""
    for name, topic in (("topic", told.topic), ("discovery", told.discovery)):
        if set(topic) & set("+#"):
            raise Trouble(f"mqtt.{name}", "it has + or #, and nothing can be published under it", "name a topic without these signs")
    if not told.client:
        raise Trouble("mqtt.client", "it is empty, and the broker keeps under it what comes while there is no connection",
                      "give it a name, or leave it out")
    if told.authority and not told.tls:
        raise Trouble("mqtt.authority", "without `tls` all goes in the clear, the password too", "write tls = true, or leave it out")


def try_connection(told: Mqtt) -> None:
    """Connects under another name, and leaves again."""
    look_at_settings(told)
    if told.password_file and not told.user:
        raise Trouble("mqtt.password_file", "without `user` no password is sent (MQTT 3.1.1, 3.1.2.9)", "name the user, or leave it out")
    try:
        client = mqtt.Client(client_id="")
        _connect(told, client)
        client.disconnect()
    except (Lost, OSError) as fault:
        raise Trouble(f"mqtt {told.host}:{told.port}", f"the broker can't be used: {fault}",
                      "look at its host, port, user, password_file and tls") from None


def publish(client: mqtt.Client, rows: list[Row]) -> None:
    """Publishes messages in their order; all of them are acknowledged when it returns."""
    sent = [client.publish(topic, payload, qos=1, retain=bool(retain)) for _, topic, payload, retain in rows]
    for message in sent:
        # (asked whether such a message is published paho raises a RuntimeError)
        if message.rc != mqtt.MQTT_ERR_SUCCESS:
            raise Lost(mqtt.error_string(message.rc))
    _until(client, lambda: sum(message.is_published() for message in sent), len(sent))


def mark_published(database: sqlite3.Connection, rows: list[Row]) -> None:
    """Takes away what was published."""
    database.execute("delete from publication where id <= ?", (rows[-1][0],))


def _until(client: mqtt.Client, answered: Callable[[], int], wanted: int) -> None:
    """Waits for so many answers of the broker, as long as one comes after the other, however slow the way to it is."""
    limit, before = time.monotonic() + PATIENCE, 0
    while (count := answered()) < wanted:
        if count > before:
            limit, before = time.monotonic() + PATIENCE, count
        _turn(client, IDLE)
        if time.monotonic() > limit:
            raise Silent("the broker doesn't answer")


def _turn(client: mqtt.Client, seconds: float) -> None:
    """Lets the connection go on for a moment."""
    try:
        answer = client.loop(seconds)
    except struct.error:
        raise Lost("what came is no packet of MQTT") from None
    if answer != mqtt.MQTT_ERR_SUCCESS:
        raise Lost(mqtt.error_string(answer))


def take_message(told: Mqtt, database: sqlite3.Connection, topic: str, payload: bytes, is_retained: bool = False) -> None:
    """Takes a command or a cancellation; what can't be taken is answered in words. Only what is committed is acknowledged."""
    kind, _, address = topic.removeprefix(f"{told.topic}/").partition("/")
    if not topic.startswith(f"{told.topic}/") or kind not in ("command", "cancel"):
        # (the broker keeps what was subscribed under the topic of an earlier configuration)
        log.warning("MQTT: a message under %.100r isn't taken: the topic is %s", topic, told.topic)
        return
    if not told.commands:
        log.warning("MQTT: a message under %.100r isn't taken: commands by MQTT are off (mqtt.commands)", topic)
        return
    if set(address) & set("+#\0"):
        # (not each broker refuses one, and nothing can be published under it)
        log.warning("MQTT: a message under %.100r isn't taken: this topic can be none", topic)
        return
    if is_retained:
        # (it would come again with each connection, for years, and not only now is a command meant)
        log.warning("MQTT: what the broker retains under %.100r isn't taken: a command is published without `retain`; take it away there",
                    topic)
        return
    # (the answer's topic is longer than this one, and no meter has so long an address)
    address = address[:MOST_ADDRESS]
    publications = Publications(told, database)
    try:
        said = json.loads(payload[:MOST_MESSAGE])
        if kind == "command":
            put_command(database, word_of(said["id"]), address, word_of(said["payload"]), time.time(), "MQTT")
        else:
            cancel_of(database, address, word_of(said["id"]), publications)
    except (ValueError, KeyError, TypeError, RecursionError):
        publications.refuse(address, f'a {kind} is JSON as {{"id": "a1", "payload": "0102"}}')
    except Trouble as fault:
        publications.refuse(address, str(fault))


def cancel_of(database: sqlite3.Connection, address: str, ident: str, publications: Publications) -> None:
    """Cancels a command of the meter that the topic names: who may write there may not write for another one."""
    if not database.execute("select 1 from command where id = ? and address = ?", (ident, address.lower())).fetchone():
        raise Trouble(f"command {ident}", f"the meter {address} has no command with this id")
    cancel_command(database, ident, time.time(), publications)


def word_of(said: object) -> str:
    """A text, or a number as one; what is neither, as null, names nothing."""
    if isinstance(said, bool) or not isinstance(said, (str, int)):
        raise TypeError
    return str(said)
