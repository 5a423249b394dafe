"""The texts of the page of meters: pieces of HTML, in which every text is escaped, and values, moments and labels as a person reads
them."""
from __future__ import annotations

import datetime
import functools
import os
import re
import struct
import time
from collections.abc import Iterable, Sequence
from decimal import Context, Decimal
from html import escape
from typing import TypeGuard

from readings.explained import CODE, device_types

# moments in this range are shown as seconds since 1970, others as plain numbers
FIRST_TIME, LAST_TIME = 100_000_000, 253_402_300_799
QUANTITIES = {
    "devicetype": "device type",
    "manufacturercode": "manufacturer's code",
    "parameterset": "parameter set",
    "modelversion": "model or version",
    "hardwareversion": "hardware version",
    "firmwareversion": "firmware version",
    "softwareversion": "software version",
    "customerlocation": "customer's location",
    "useraccesscode": "user's access code",
    "operatoraccesscode": "operator's access code",
    "systemoperatoraccesscode": "system operator's access code",
    "developeraccesscode": "developer's access code",
    "errormask": "error mask",
    "securitykey": "security key",
    "digitaloutput": "digital outputs",
    "digitalinput": "digital inputs",
    "baudrate": "baud rate",
    "responsedelay": "response delay",
    "remotecontrol": "remote control",
    "firststorage": "first storage number",
    "laststorage": "last storage number",
    "storageblocksize": "size of a storage block",
    "tariffdescriptor": "tariff and subunit",
    "storageinterval": "storage interval",
    "operatordata": "operator's data",
    "timepointsecond": "second of the time point",
    "readoutage": "time since the last readout",
    "tariffstart": "start of the tariff",
    "tariffduration": "duration of the tariff",
    "tariffperiod": "period of the tariff",
    "dimensionless": "count",
    "radiocontainer": "wireless M-Bus data",
    "transmissionperiod": "time between transmissions",
    "resetcounter": "resets",
    "cumulationcounter": "cumulations",
    "controlsignal": "control signal",
    "dayofweek": "day of the week",
    "weeknumber": "week",
    "daychangetime": "time of the day's change",
    "parameteractivation": "parameter activation",
    "supplierinformation": "supplier's information",
    "cumulationage": "time since the last cumulation",
    "batteryoperatingtime": "battery's operating time",
    "batterychange": "change of the battery",
    "radiolevel": "radio level",
    "daylightsaving": "daylight saving",
    "listeningwindow": "listening window",
    "remainingbatterylife": "remaining battery life",
    "stopcount": "stops",
    "manufacturercontainer": "manufacturer's container",
    "reactiveenergy": "reactive energy",
    "apparentenergy": "apparent energy",
    "reactivepower": "reactive power",
    "relativehumidity": "relative humidity",
    "voltagephase": "phase between voltages",
    "currentphase": "phase of voltage to current",
    "apparentpower": "apparent power",
    "temperaturelimit": "temperature limit",
    "cumulatedmaximumpower": "sum of the greatest powers",
    "ontime": "on time",
    "operatingtime": "operating time",
    "massflow": "mass flow",
    "flowtemperature": "flow temperature",
    "returntemperature": "return temperature",
    "temperaturedifference": "temperature difference",
    "externaltemperature": "external temperature",
    "datetime": "the meter's clock",
    "hca": "heat cost units",
    "averagingduration": "averaging duration",
    "actualityduration": "time since",
    "fabrication": "fabrication number",
    "accessnumber": "access number",
    "errorflags": "error flags",
    "plain": "plain text unit",
    "manufacturer": "manufacturer's data",
    "unknown": "unknown quantity",
}
# the words of qualifiers, as a person reads them
QUALIFIERS = {words.replace(" ", ""): words for words in (
    "too many difes", "storage not implemented", "unit not implemented", "tariff not implemented", "function not implemented",
    "data class not implemented", "data size not implemented", "too many vifes", "illegal vif group", "illegal vif exponent",
    "action not implemented", "inverse compact profile", "relative deviation", "no data", "data overflow", "data underflow",
    "data error", "premature end", "standard conform", "numbered compact profile", "compact profile", "per second", "per minute",
    "per hour", "per day", "per week", "per month", "per year", "per revolution", "per input pulse 0", "per input pulse 1",
    "per output pulse 0", "per output pulse 1", "per litre", "per cubic metre", "per kilogram", "per kelvin", "per kilowatt hour",
    "per gigajoule", "per kilowatt", "per kelvin litre", "per volt", "per ampere", "times second", "times second per volt",
    "times second per ampere", "start of", "non metric", "at base conditions", "obis declaration", "lower limit", "lower exceeds",
    "first lower exceed begin", "first lower exceed end", "last lower exceed begin", "last lower exceed end", "upper limit",
    "upper exceeds", "first upper exceed begin", "first upper exceed end", "last upper exceed begin", "last upper exceed end",
    "first lower exceed duration", "last lower exceed duration", "first upper exceed duration", "last upper exceed duration",
    "first duration", "last duration", "during lower exceed", "first begin", "first end", "during upper exceed", "last begin",
    "last end", "makers own",
)}
UNITS = {"m3": "m³", "m3/h": "m³/h", "m3/min": "m³/min", "m3/s": "m³/s", "C": "°C", "-": "", "ft3": "ft³", "deg": "°", "bit": "bit times",
         "month": "months",
         "year": "years", "currency": "of the local currency", "nonmetric": "(not metric)"}
# quantities whose numbers name something: they are no counts
NAMES = {"identification", "fabrication", "address", "accessnumber", "errorflags", "errormask", "digitaloutput", "digitalinput",
         "devicetype", "manufacturercode", "parameterset", "modelversion", "hardwareversion", "firmwareversion", "softwareversion",
         "customerlocation", "customer", "remotecontrol", "firststorage", "laststorage", "tariffdescriptor", "operatordata",
         "timepointsecond", "controlsignal", "dayofweek", "weeknumber", "daychangetime", "parameteractivation", "supplierinformation"}
# units that are shown with a prefix
PREFIXED = {"Wh", "J", "W"}
PREFIXES = (("G", 9), ("M", 6), ("k", 3))


# refusals that are no trouble, and such as a wrong key has
REPEATS = {"stale", "access"}
WRONG_KEY = {"mac", "check"}
# moments that are by more than this after now are those of a wrong clock
GRACE = 3600


class Html(str):
    """Text that is HTML already; any other text is escaped where it comes into a tag."""


def joined(parts: Iterable[object]) -> Html:
    """Parts one after another; what isn't HTML is escaped."""
    return Html("".join([part if isinstance(part, Html) else escape(str(part)) for part in parts]))


def tag(name: str, *inside: object, **attributes: object) -> Html:
    """An element. An attribute's name may end with _, and has - for each other _; one without a value is left out,
    and True stands for its name alone."""
    told = ""
    for key, value in attributes.items():
        if value:
            told += f" {key.rstrip('_').replace('_', '-')}" + ("" if value is True else f'="{escape(str(value))}"')
    return Html(f"<{name}{told}>{joined(inside)}</{name}>")


LINE_BREAK = Html("<br>")


def soft(*inside: object) -> Html:
    """What is said beside something."""
    return tag("span", *inside, class_="soft small")


def listed(items: Sequence[object], class_: str = "plain") -> Html:
    """A list, or nothing where there is nothing in it."""
    return tag("ul", *items, class_=class_) if items else Html()


def table(heads: Iterable[str], rows: Iterable[object]) -> Html:
    """A table; a head that begins with # is one of numbers."""
    cells = [tag("th", head.lstrip("#"), scope="col", class_=head.startswith("#") and "number") for head in heads]
    return tag("table", tag("thead", tag("tr", *cells)), tag("tbody", *rows))


def number_cell(*inside: object) -> Html:
    """A cell of a number."""
    return tag("td", *inside, class_="number")


def text_cell(*inside: object) -> Html:
    """A cell of what is no number, which may be long and without a space."""
    return tag("td", *inside, class_="text")


def words_of_page(text: str) -> Html:
    """Words of the page of formats, which are in Markdown there."""
    parts: list[str] = []
    end = 0
    for found in CODE.finditer(text):
        parts += [text[end:found.start()], tag("code", (found.group(1) or found.group(2)).strip())]
        end = found.end()
    return joined([*parts, text[end:]])


def is_address(text: str) -> bool:
    """Whether a text is a meter's address."""
    return re.fullmatch("[0-9a-f]{16}", text) is not None


def maker_of(address: str) -> str | None:
    """The three letters of the manufacturer, if they are such (EN 13757-3)."""
    if not is_address(address):
        return None
    number = int(address[2:4] + address[:2], 16)
    places = [number >> 10 & 31, number >> 5 & 31, number & 31]
    return "".join(chr(64 + place) for place in places) if number < 1 << 15 and all(1 <= place <= 26 for place in places) else None


def label_of(address: str) -> str:
    """What stands on the meter's label; where the maker has no letters, the address."""
    maker = maker_of(address)
    identification = "".join(address[place:place + 2] for place in (10, 8, 6, 4))
    return f"{maker} {identification} {address[12:14]} {address[14:]}" if maker else address


def type_of(address: str) -> str:
    """A meter's device type in words, by the last byte of its address."""
    kind, types = int(address[14:], 16) if is_address(address) else len(device_types()), device_types()
    return types[kind] if kind < len(types) else "reserved"


def is_time(moment: int | None) -> TypeGuard[int]:
    """Whether a moment is a time, as that of a receiver whose clock was set."""
    return moment is not None and FIRST_TIME <= moment <= LAST_TIME


def time_text(moment: int | None) -> str:
    """A moment as a person reads it."""
    if moment is None:
        return "never"
    if is_time(moment):
        return time.strftime("%Y-%m-%d %H:%M %Z", time.localtime(moment))
    return f"moment {moment}"


def kept_moment(when: str) -> int | None:
    """The moment at which a report was kept, which the database has as a text."""
    try:
        return int(datetime.datetime.strptime(when, "%Y-%m-%dT%H:%M:%S%z").timestamp())
    except ValueError:
        return None


def kept_text(when: str) -> str:
    """When a report was kept, as a person reads it."""
    moment = kept_moment(when)
    return when if moment is None else time_text(moment)


def zone_text() -> str:
    """What the zone of this machine, or of TZ, is called."""
    names = " and ".join(dict.fromkeys(time.tzname if time.daylight else time.tzname[:1]))
    given = os.environ.get("TZ", "")
    return f"{names} ({given})" if given not in ("", names) else names


def grouped(digits: object) -> str:
    """A decimal number of five digits or more with its thousands apart."""
    whole, point, rest = str(digits).partition(".")
    return re.sub(r"(?<=\d)(?=(?:\d{3})+$)", "\u202f", whole) + point + rest if len(whole.lstrip("-")) > 4 else str(digits)


def counted(count: int, one: str, many: str) -> str:
    """A number of things, in words."""
    return f"{grouped(count)} {one if count == 1 else many}"


def times(count: int) -> str:
    """How often, in words."""
    return "once" if count == 1 else f"{grouped(count)} times"


DECIMAL = re.compile(r"-?[0-9]+(?:\.[0-9]+)?")


def is_number(value: str) -> bool:
    """Whether a value is a decimal number."""
    return DECIMAL.fullmatch(value) is not None


@functools.lru_cache(maxsize=None)
def shortest(value: str) -> str:
    """The shortest decimal that reads back as the real number of 32 bits that this one is exactly; another one stays as it is."""
    number = float(value)
    try:
        word = struct.pack("<f", number)
    except OverflowError:
        return value
    if Decimal(struct.unpack("<f", word)[0]) != Decimal(value):
        return value
    texts = (f"{number:.{digits}g}" for digits in range(1, 10))
    return next((format(Decimal(text), "f") for text in texts if struct.pack("<f", float(text)) == word), value)


def prefix_for(most: float | Decimal) -> tuple[str, int]:
    """The prefix, with its power of ten, with which a number is best read: the largest one that leaves three digits before the point."""
    return next(((prefix, power) for prefix, power in PREFIXES if most >= 100 * 10 ** power), ("", 0))


def value_text(quantity: str, unit: str, value: str, prefix: tuple[str, int], raw: str | None = None) -> str:
    """A value as a person reads it, with its unit."""
    if is_number(value) and quantity in NAMES:
        return value
    if is_number(value):
        letter, power = prefix
        # a prefix is an exact shift of the point, behind which no zeros are left
        exact = Context(prec=len(value) + power)
        shown = format(Decimal(value).scaleb(-power, exact).normalize(exact), "f") if power else value
        return f"{grouped(shown)} {letter}{UNITS.get(unit, unit)}".rstrip()
    if re.match(r"[0-9]{4}-[0-9]{2}-[0-9]{2}", value):
        marks = (" (the meter calls it invalid)" if "!" in value else "") + (" (summer time)" if "+" in value else "")
        return value.rstrip("!+").replace("T", " ") + marks
    # (of what isn't read, and of a text that the service stored, what was sent is told)
    if value in ("raw", "text"):
        return f"{value} {raw}" if raw else value
    return "no value" if value == "-" else value
