"""What Home Assistant is told of a value: its unit there, its device class and its state class (developers.home-assistant.io, "Sensor
entity")."""
from __future__ import annotations

import re
from contextlib import suppress
from dataclasses import dataclass
from datetime import date
from decimal import Decimal
from typing import Any

NUMBER = re.compile(r"-?[0-9]+")
# (in summer time with a + behind it)
MOMENT = re.compile(r"[0-9]{4}-[0-9]{2}-[0-9]{2}T[0-9]{2}:[0-9]{2}\+?")
MEASUREMENT, TOTAL = "measurement", "total_increasing"
# device types of EN 13757-3, the last byte of an address
GAS, WATER = ("03",), ("06", "07", "15", "16")


@dataclass(frozen=True)
class Kind:
    """A unit of Home Assistant, by how many powers of ten the value is to be moved for it, and the classes."""

    unit: str | None
    power: int = 0
    device: str | None = None
    state: str | None = MEASUREMENT


DURATION = {unit: Kind(unit, device="duration") for unit in ("s", "min", "h", "d")}
RUNNING = {unit: Kind(unit, device="duration", state=TOTAL) for unit in ("s", "min", "h", "d")}
CELSIUS = {"C": Kind("°C", device="temperature")}
KINDS: dict[str, dict[str, Kind]] = {
    "energy": {"Wh": Kind("kWh", -3, "energy", TOTAL), "J": Kind("MJ", -6, "energy", TOTAL), "MWh": Kind("MWh", 0, "energy", TOTAL),
               "GJ": Kind("GJ", 0, "energy", TOTAL)},
    "volume": {"m3": Kind("m³", device="volume", state=TOTAL)},
    "mass": {"kg": Kind("kg", device="weight", state=TOTAL)},
    "power": {"W": Kind("W", device="power"), "J/h": Kind("J/h")},
    "flow": {"m3/h": Kind("m³/h", device="volume_flow_rate"), "m3/min": Kind("m³/min"), "m3/s": Kind("m³/s")},
    "massflow": {"kg/h": Kind("kg/h")},
    "flowtemperature": CELSIUS, "returntemperature": CELSIUS, "externaltemperature": CELSIUS,
    "temperaturedifference": {"K": Kind("K")},
    "pressure": {"bar": Kind("bar", device="pressure")},
    "voltage": {"V": Kind("V", device="voltage")},
    "current": {"A": Kind("A", device="current")},
    "ontime": RUNNING, "operatingtime": RUNNING, "averagingduration": DURATION, "actualityduration": DURATION,
    "hca": {"-": Kind(None, state=TOTAL)},
    "date": {"-": Kind(None, device="date", state=None)},
    "datetime": {"-": Kind(None, state=None)},
    "errorflags": {"-": Kind(None, state=None)},
}


def kind_of(address: str, record: dict[str, Any]) -> Kind | None:
    """How a record's value is shown, if it is."""
    kind = KINDS.get(record.get("quantity", ""), {}).get(record.get("unit", ""))
    if kind and record["quantity"] == "volume" and address[-2:] in GAS + WATER:
        return Kind(kind.unit, kind.power, "gas" if address[-2:] in GAS else "water", kind.state)
    return kind


def shown(record: dict[str, Any], kind: Kind) -> str | None:
    """A value as a JSON text: a number exactly as it was sent, in the unit of Home Assistant; a day or a moment in quotes."""
    value = record["value"]
    if NUMBER.fullmatch(value):
        exponent = record["exponent"] + kind.power
        return f"{Decimal(f'{value}E{exponent}'):f}"
    is_told = is_day(value) if record["quantity"] == "date" else MOMENT.fullmatch(value)
    return f'"{value}"' if is_told and kind.state is None else None


def is_day(text: str) -> bool:
    """Whether a text is a day that there is: a meter may send the 31st of February."""
    with suppress(ValueError):
        return date.fromisoformat(text).isoformat() == text
    return False


def name_of(record: dict[str, Any]) -> str:
    """A value's name among those of its meter: its quantity, and what sets it apart from the value of now."""
    parts = [record["quantity"]]
    if record["modifiers"]:
        parts.append(f"modifiers{record['modifiers']}")
    if record["function"] != "instantaneous":
        parts.append(record["function"])
    return "_".join(parts + [f"{word}{record[word]}" for word in ("storage", "tariff", "subunit") if record[word]])


def name_in_unit(name: str, kind: Kind) -> str:
    """The name of a value whose unit isn't that of the sensor of its name: letters and digits, as topics and templates have them."""
    return f"{name}_{re.sub('[^A-Za-z0-9]', '', (kind.unit or 'number').replace('³', '3'))}"
