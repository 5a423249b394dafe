"""What rtl_433 reads of the data records of a payload: it is given a frame as bits, and what it prints is put into the words used here."""
import json
import os
import re
import shutil
import sys
from collections.abc import Iterable
from dataclasses import dataclass
from fractions import Fraction

import running
from telegrams.frames import format_a, format_b

TOP = os.path.dirname(os.path.dirname(os.path.dirname(os.path.realpath(__file__))))
VERSION, PACKAGE = "22.11", "rtl-433"
# what stands in front of a frame in mode C; a gas meter's plain message: C field, address, a short header without encryption
SYNC_A, SYNC_B, PLAIN = bytes.fromhex("543d54cd"), bytes.fromhex("543d543d"), bytes.fromhex("449315785634123303" "7a2a000000")
# what it prints of a frame beside its records
HEADER = frozenset("time model mode M id version type type_string C data_length data mic CI AC ST CW payload_encrypted".split())
# members without a value: a record that it doesn't know, and whether the contact of one maker is closed (FD 1b)
NO_VALUE = ("unknown", "switch")
FUNCTIONS = {"inst": "instantaneous", "max": "maximum", "min": "minimum", "err": "error"}
MEMBER = re.compile(f"({'|'.join(FUNCTIONS)})_([a-z_]+)_([0-9]+)")
COUNTER = re.compile("counter_[0-9]+")
# of relative humidity it has a name for each function and the lowest two bits of a storage number
HUMIDITIES = {
    "instantaneous": ("humidity", "average_humidity_1h", "average_humidity_24h", "error_04"),
    "maximum": ("maximum_humidity_1h", "maximum_humidity_24h", "error_13", "error_14"),
    "minimum": ("minimum_humidity_1h", "minimum_humidity_24h", "error_23", "error_24"),
    "error": ("error_31", "error_32", "error_33", "error_34"),
}
HUMIDITY_NAMES = {name: (function, storage) for function, names in HUMIDITIES.items() for storage, name in enumerate(names)}
NUMBER = re.compile(r"-?[0-9]+(\.[0-9]+)?")
# (a prefix counts the unit as it stands: `mm3` are thousandths of a cubic metre)
PREFIXES = {"u": -6, "m": -3, "": 0, "k": 3, "M": 6, "G": 9}
# its name of a quantity and the unit that it prints; the quantity and the unit here, and the power of ten between both units
NAMES = {
    "energy_wh": ("Wh", "energy", "Wh", 0), "energy_j": ("J", "energy", "J", 0), "volume": ("m3", "volume", "m3", 0),
    "mass": ("kg", "mass", "kg", 0), "power_w": ("W", "power", "W", 0), "power_jh": ("J/h", "power", "J/h", 0),
    "volume_flow_h": ("m3/h", "flow", "m3/h", 0), "volume_flow_min": ("m3/min", "flow", "m3/min", 0),
    "volume_flow_s": ("l/s", "flow", "m3/s", -3), "mass_flow": ("kg/h", "massflow", "kg/h", 0),
    "temperature_flow": ("C", "flowtemperature", "C", 0), "temperature_return": ("C", "returntemperature", "C", 0),
    "temperature_diff": ("K", "temperaturedifference", "K", 0), "temperature_ext": ("C", "externaltemperature", "C", 0),
    "pressure": ("bar", "pressure", "bar", 0), "hca": ("", "hca", "-", 0),
    "date": ("", "date", "-", 0), "timedate": ("", "datetime", "-", 0),
    "ontime_s": ("s", "ontime", "s", 0), "ontime_m": ("min", "ontime", "min", 0),
    "ontime_h": ("hours", "ontime", "h", 0), "ontime_d": ("days", "ontime", "d", 0),
    "opertime_s": ("s", "operatingtime", "s", 0), "opertime_m": ("min", "operatingtime", "min", 0),
    "opertime_h": ("hours", "operatingtime", "h", 0), "opertime_d": ("days", "operatingtime", "d", 0),
}


@dataclass(frozen=True)
class Reading:
    """What a record says: a number as it is, and all else as text."""

    function: str
    storage: int
    quantity: str
    unit: str
    value: Fraction | str

    def __str__(self) -> str:
        value = f"{float(self.value):.15g}" if isinstance(self.value, Fraction) else self.value
        return f"{self.function} {self.storage} {self.quantity} {value} {self.unit}"


def in_words(readings: Iterable[Reading] | None) -> str:
    return "no frame" if readings is None else ", ".join(map(str, readings)) or "nothing"


def valued(text: str) -> Fraction | str:
    return Fraction(text) if NUMBER.fullmatch(text) else text


def program(path: str | None) -> str | None:
    """rtl_433 under this path, or installed where that may be done; where it isn't there or is of another version this is said by name."""
    found = shutil.which(path or "rtl_433")
    if not path and not found:
        sys.path.insert(0, f"{TOP}/service")
        # (of service/, whose name a folder of tests/ has too)
        from checks import install  # type: ignore[attr-defined]
        install([PACKAGE])
        found = shutil.which("rtl_433")
    lacking = None if found else f"{path or 'the package ' + PACKAGE} isn't there"
    if found:
        told = running.run([found, "-V"]).told
        if f"rtl_433 version {VERSION} " not in told:
            lacking = f"{found} isn't of version {VERSION}, by which its faults are known"
    if lacking:
        print(f"{os.path.basename(sys.argv[0])}: {lacking}: nothing is compared with rtl_433")
    return None if lacking else found


def _read(name: str, said: str) -> Reading:
    """A member that it prints of a record."""
    if name in HUMIDITY_NAMES:
        return Reading(*HUMIDITY_NAMES[name], "relativehumidity", "%", valued(said))
    if COUNTER.fullmatch(name):
        return Reading("instantaneous", 0, "dimensionless", "-", valued(said))
    found, (number, _, printed) = MEMBER.fullmatch(name), said.partition(" ")
    base, quantity, unit, power = NAMES.get(found[2] if found else "", ("", name, printed, 0))
    prefix, value = printed.removesuffix(base), valued(number)
    if found is None or prefix not in PREFIXES:
        return Reading("-", 0, name, printed, value)
    if isinstance(value, Fraction):
        value *= Fraction(10) ** (PREFIXES[prefix] + power)
    return Reading(FUNCTIONS[found[1]], int(found[3]), quantity, unit, value)


def heard(path: str, payload: bytes, is_b: bool = False) -> list[Reading] | None:
    """What rtl_433 reads of the records of a payload, in their order, in a frame of format A or B; none where it takes it for no frame."""
    telegram = bytes([len(PLAIN) + len(payload)]) + PLAIN + payload
    bits = (SYNC_B + format_b(telegram) if is_b else SYNC_A + format_a(telegram)).hex()
    words = [path, "-c", os.devnull, "-R", "104", "-F", "json", "-y", f"{{{4 * len(bits)}}}{bits}"]
    ran = running.run(words)
    # (two records may have one name)
    frames = [json.loads(line, object_pairs_hook=list, parse_int=str, parse_float=str) for line in ran.lines]
    if len(frames) != 1:
        return None
    return [_read(name, said) for name, said in frames[0] if name not in HEADER and name not in NO_VALUE]
