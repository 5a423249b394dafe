"""Messages for MQTT, as rows that a session commits with what they say; they are published behind the commit."""
from __future__ import annotations

import json
import logging
import sqlite3
import time
from typing import Any

from .config import Mqtt
from .sensors import Kind, kind_of, name_in_unit, name_of, shown
from .store import add_total, set_setting, setting, transaction

log = logging.getLogger("wmbus")

# a hundredth more than may be waits at times, so that not each session looks
SHARE = 100
# rises where sensors are told of in another way
TOLD = 2


class Publications:
    """The rows of messages; none where there is no broker."""

    def __init__(self, mqtt: Mqtt | None, database: sqlite3.Connection) -> None:
        self.mqtt, self.database = mqtt, database
        # of this session: the units of sensors that were looked up
        self.units: dict[tuple[str, str], str] = {}

    def reading(self, line: int, said: dict[str, Any]) -> None:
        """A meter's values of now, and once for each value the sensor that shows it."""
        if self.mqtt is None:
            return
        values: dict[str, str] = {}
        for record in said["records"]:
            kind = kind_of(said["address"], record)
            text = shown(record, kind) if kind else None
            if kind is not None and text is not None:
                values.setdefault(self._sensor_of(said["address"], record, kind), text)
        members = [f'"moment":{said["at"]}', f'"counter":{said["counter"]}', f'"line":{line}']
        members += [f'"{name}":{text}' for name, text in values.items()]
        self._put(f"{self.mqtt.topic}/meter/{said['address']}", "{" + ",".join(members) + "}", True)

    def command(self, ident: str) -> None:
        """A command's state."""
        if self.mqtt is None:
            return
        row = self.database.execute("select address, state, tries, reason from command where id = ?", (ident,)).fetchone()
        told = dict(zip(("address", "state", "tries", "reason"), row, strict=True)) | {"id": ident}
        self._put(f"{self.mqtt.topic}/commands/{row[0]}", json.dumps(told, sort_keys=True), False)

    def refuse(self, address: str, words: str) -> None:
        """Why a message that came in can't be taken."""
        if self.mqtt is not None:
            self._put(f"{self.mqtt.topic}/commands/{address}", json.dumps({"error": words}), False)

    def _sensor_of(self, address: str, record: dict[str, Any], kind: Kind) -> str:
        """The name of the sensor that shows a value: it has the unit of the first value of its name, and each other unit has another."""
        name = name_of(record)
        if self._unit_of(address, name, record, kind) != (kind.unit or ""):
            name = name_in_unit(name, kind)
            self._unit_of(address, name, record, kind)
        return name

    def _unit_of(self, address: str, name: str, record: dict[str, Any], kind: Kind) -> str:
        """The unit of a sensor, of which Home Assistant is told once."""
        if (known := self.units.get((address, name))) is not None:
            return known
        unit = kind.unit or ""
        row = self.database.execute("select unit, told from announced where address = ? and name = ?", (address, name)).fetchone()
        if row and row[0] not in (None, unit):
            # (it is told of with a value in its own unit)
            return str(row[0])
        if row != (unit, 1):
            self.database.execute("insert into announced (address, name, unit) values (?, ?, ?) on conflict (address, name)"
                                  " do update set unit = excluded.unit, told = 1", (address, name, unit))
            self._announce(address, name, record, kind)
        self.units[address, name] = unit
        return unit

    def _announce(self, address: str, name: str, record: dict[str, Any], kind: Kind) -> None:
        """Tells Home Assistant of a sensor."""
        assert self.mqtt is not None
        (label,) = self.database.execute("select name from meter where address = ?", (address,)).fetchone()
        self._put(f"{self.mqtt.discovery}/sensor/wmbus_{address}/{name}/config",
                  json.dumps(sensor(self.mqtt, address, label or address, name, record, kind), sort_keys=True, ensure_ascii=False), True)

    def _put(self, topic: str, payload: str, retain: bool) -> None:
        self.database.execute("insert into publication (topic, payload, retain, made) values (?, ?, ?, ?)",
                              (topic, payload, retain, time.time()))


class Waiting:
    """What waits for a broker that is away: the last messages, and of those before the last of each topic alone. So each sensor and each
    meter's last value is there when it returns, and the disk isn't filled."""

    def __init__(self, mqtt: Mqtt | None, database: sqlite3.Connection) -> None:
        self.most, self.database = mqtt.waiting if mqtt else 0, database
        self.looked, self.is_told = 0, False

    def bound(self) -> None:
        """Leaves out what is too much, within a session's transaction."""
        first, last = self.database.execute("select (select min(id) from publication), (select max(id) from publication)").fetchone()
        if not self.most or last is None or last - first < self.most:
            self.is_told = False
            return
        if last - self.looked < self.most // SHARE:
            return
        self.looked = last
        count = self.database.execute("delete from publication where id <= ? and exists (select 1 from publication as later"
                                      " where later.topic = publication.topic and later.id > publication.id)", (last - self.most,)).rowcount
        add_total(self.database, "publications_left_out", count)
        if count and not self.is_told:
            log.warning("MQTT: more than mqtt.waiting, %d messages, wait for the broker: of those before them the last one of each topic alone"
                        " stays, and all readings in the database", self.most)
            self.is_told = True


def announce_anew(mqtt: Mqtt, database: sqlite3.Connection) -> None:
    """Where the broker or the topics aren't those of the last start sensors are told of once more: another broker knows none, and those of
    other topics look where nothing comes any more. The same where a release tells otherwise of them."""
    with transaction(database):
        told = json.dumps([mqtt.host, mqtt.port, mqtt.topic, mqtt.discovery, TOLD])
        if setting(database, "topics") != told:
            database.execute("update announced set told = 0")
            set_setting(database, "topics", told)


def template_of(name: str, kind: Kind) -> str:
    """Where a message of the meter has no such value, as where it sends several kinds by turns, the sensor stays as it is: Home Assistant
    passes over an empty number, and nothing else that is empty ("MQTT", "Value templates")."""
    return "{{ value_json." + name + " | default(" + ("''" if kind.state else "this.state") + ") }}"


def sensor(mqtt: Mqtt, address: str, label: str, name: str, record: dict[str, Any], kind: Kind) -> dict[str, Any]:
    """A sensor as Home Assistant's MQTT discovery takes it."""
    told: dict[str, Any] = {
        "name": name.replace("_", " "), "unique_id": f"wmbus_{address}_{name}", "object_id": f"wmbus_{address}_{name}",
        "state_topic": f"{mqtt.topic}/meter/{address}", "value_template": template_of(name, kind),
        "availability_topic": f"{mqtt.topic}/status",
        "device": {"identifiers": [f"wmbus_{address}"], "name": label, "serial_number": address},
        "origin": {"name": "wmbus"},
    }
    members = {"unit_of_measurement": kind.unit, "device_class": kind.device, "state_class": kind.state}
    told |= {member: value for member, value in members.items() if value is not None}
    if name_of(record) != record["quantity"]:
        told["enabled_by_default"] = False
    return told
