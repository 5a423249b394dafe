"""Every data record of EN 13757-3 (2018), read from the standard's tables alone: clause 6 and annex A.

What a record says is given in the words of `reading_list`, and numbers exactly."""
import math
import struct
from dataclasses import dataclass, field, replace
from fractions import Fraction

from reference.records import AFTER_FB, AFTER_FD, VARIABLE, MakerData, Record

Unit = tuple[str, str, int]
TIME, LONG_TIME = ("s", "min", "h", "d"), ("h", "d", "month", "year")


def _run(first: int, count: int, quantity: str, unit: str, least: int) -> dict[int, Unit]:
    """Codes whose power of ten rises by one."""
    return {first + step: (quantity, unit, least + step) for step in range(count)}


def _units(first: int, quantity: str, units: tuple[str, ...]) -> dict[int, Unit]:
    """Codes that count in one unit after another."""
    return {first + step: (quantity, unit, 0) for step, unit in enumerate(units)}


def _bare(words: dict[int, str]) -> dict[int, Unit]:
    """Codes of quantities without a unit."""
    return {code: (word, "-", 0) for code, word in words.items()}


PRIMARY = (
    _run(0x00, 8, "energy", "Wh", -3) | _run(0x08, 8, "energy", "J", 0) | _run(0x10, 8, "volume", "m3", -6)
    | _run(0x18, 8, "mass", "kg", -3) | _units(0x20, "ontime", TIME) | _units(0x24, "operatingtime", TIME)
    | _run(0x28, 8, "power", "W", -3) | _run(0x30, 8, "power", "J/h", 0) | _run(0x38, 8, "flow", "m3/h", -6)
    | _run(0x40, 8, "flow", "m3/min", -7) | _run(0x48, 8, "flow", "m3/s", -9) | _run(0x50, 8, "massflow", "kg/h", -3)
    | _run(0x58, 4, "flowtemperature", "C", -3) | _run(0x5C, 4, "returntemperature", "C", -3)
    | _run(0x60, 4, "temperaturedifference", "K", -3) | _run(0x64, 4, "externaltemperature", "C", -3)
    | _run(0x68, 4, "pressure", "bar", -3)
    | _units(0x70, "averagingduration", TIME) | _units(0x74, "actualityduration", TIME)
    | _bare({0x6C: "date", 0x6D: "datetime", 0x6E: "hca", 0x78: "fabrication", 0x79: "identification", 0x7A: "address",
             0x7C: "plain", 0x7E: "any", 0x7F: "manufacturer"})
)
FD = (
    _run(0x00, 4, "credit", "currency", -3) | _run(0x04, 4, "debit", "currency", -3)
    | _bare({0x08: "accessnumber", 0x09: "devicetype", 0x0A: "manufacturercode", 0x0B: "parameterset", 0x0C: "modelversion",
             0x0D: "hardwareversion", 0x0E: "firmwareversion", 0x0F: "softwareversion", 0x10: "customerlocation",
             0x11: "customer", 0x12: "useraccesscode", 0x13: "operatoraccesscode", 0x14: "systemoperatoraccesscode",
             0x15: "developeraccesscode", 0x16: "password", 0x17: "errorflags", 0x18: "errormask", 0x19: "securitykey",
             0x1A: "digitaloutput", 0x1B: "digitalinput"})
    | {0x1C: ("baudrate", "Bd", 0), 0x1D: ("responsedelay", "bit", 0)}
    | _bare({0x1E: "retries", 0x1F: "remotecontrol", 0x20: "firststorage", 0x21: "laststorage", 0x22: "storageblocksize",
             0x23: "tariffdescriptor"})
    | _units(0x24, "storageinterval", (*TIME, "month", "year"))
    | _bare({0x2A: "operatordata", 0x2B: "timepointsecond"}) | _units(0x2C, "readoutage", TIME)
    | _bare({0x30: "tariffstart"}) | _units(0x31, "tariffduration", TIME[1:])
    | _units(0x34, "tariffperiod", (*TIME, "month", "year"))
    | _bare({0x3A: "dimensionless", 0x3B: "radiocontainer"}) | _units(0x3C, "transmissionperiod", TIME)
    | _run(0x40, 16, "voltage", "V", -9) | _run(0x50, 16, "current", "A", -12)
    | _bare({0x60: "resetcounter", 0x61: "cumulationcounter", 0x62: "controlsignal", 0x63: "dayofweek", 0x64: "weeknumber",
             0x65: "daychangetime", 0x66: "parameteractivation", 0x67: "supplierinformation"})
    | _units(0x68, "cumulationage", LONG_TIME) | _units(0x6C, "batteryoperatingtime", LONG_TIME)
    | _bare({0x70: "batterychange"}) | {0x71: ("radiolevel", "dBm", 0)}
    | _bare({0x72: "daylightsaving", 0x73: "listeningwindow"}) | {0x74: ("remainingbatterylife", "d", 0)}
    | _bare({0x75: "stopcount", 0x76: "manufacturercontainer"})
)
FB = (
    _run(0x00, 2, "energy", "MWh", -1) | _run(0x02, 2, "reactiveenergy", "kvarh", 0)
    | _run(0x04, 2, "apparentenergy", "kVAh", 0) | _run(0x08, 2, "energy", "GJ", -1) | _run(0x0C, 4, "energy", "Mcal", -1)
    | _run(0x10, 2, "volume", "m3", 2) | _run(0x14, 4, "reactivepower", "kvar", -3) | _run(0x18, 2, "mass", "t", 2)
    | _run(0x1A, 2, "relativehumidity", "%", -1) | {0x20: ("volume", "ft3", 0), 0x21: ("volume", "ft3", -1)}
    | _run(0x28, 2, "power", "MW", -1) | {0x2A: ("voltagephase", "deg", -1), 0x2B: ("currentphase", "deg", -1)}
    | _run(0x2C, 4, "frequency", "Hz", -3) | _run(0x30, 2, "power", "GJ/h", -1)
    | _run(0x34, 4, "apparentpower", "kVA", -3) | _run(0x74, 4, "temperaturelimit", "C", -3)
    | _run(0x78, 8, "cumulatedmaximumpower", "W", -3)
)
UNKNOWN: Unit = ("unknown", "-", 0)

# What the meter reports of a record, and the fixed combinable codes.
_WORDS = {
    0x01: "toomanydifes", 0x02: "storagenotimplemented", 0x03: "unitnotimplemented", 0x04: "tariffnotimplemented",
    0x05: "functionnotimplemented", 0x06: "dataclassnotimplemented", 0x07: "datasizenotimplemented", 0x0B: "toomanyvifes",
    0x0C: "illegalvifgroup", 0x0D: "illegalvifexponent", 0x0E: "vifdifmismatch", 0x0F: "actionnotimplemented",
    0x12: "average", 0x13: "inversecompactprofile", 0x14: "relativedeviation", 0x15: "nodata", 0x16: "dataoverflow", 0x17: "dataunderflow", 0x18: "dataerror",
    0x1C: "prematureend", 0x1D: "standardconform", 0x1E: "numberedcompactprofile", 0x1F: "compactprofile",
    0x20: "persecond", 0x21: "perminute", 0x22: "perhour", 0x23: "perday", 0x24: "perweek", 0x25: "permonth", 0x26: "peryear",
    0x27: "perrevolution", 0x28: "perinputpulse0", 0x29: "perinputpulse1", 0x2A: "peroutputpulse0", 0x2B: "peroutputpulse1",
    0x2C: "perlitre", 0x2D: "percubicmetre", 0x2E: "perkilogram", 0x2F: "perkelvin", 0x30: "perkilowatthour",
    0x31: "pergigajoule", 0x32: "perkilowatt", 0x33: "perkelvinlitre", 0x34: "pervolt", 0x35: "perampere",
    0x36: "timessecond", 0x37: "timessecondpervolt", 0x38: "timessecondperampere", 0x39: "startof", 0x3A: "uncorrected",
    0x3B: "forward", 0x3C: "backward", 0x3D: "nonmetric", 0x3E: "atbaseconditions", 0x3F: "obisdeclaration",
    0x69: "leakage", 0x6D: "overflow", 0x7C: "extension", 0x7E: "future", 0x7F: "makersown",
}
_SIDE, _WHICH, _EDGE = ("lower", "upper"), ("first", "last"), ("begin", "end")
BITS = frozenset(("errorflags", "errormask", "digitaloutput", "digitalinput"))
WITHHELD = frozenset(("useraccesscode", "operatoraccesscode", "systemoperatoraccesscode", "developeraccesscode", "password",
                      "securitykey"))
MOMENTS = frozenset(("date", "datetime", "tariffstart", "batterychange"))
OPAQUE = {"unknown": "-", "manufacturer": "-", "radiocontainer": "-", "manufacturercontainer": "-", "daylightsaving": "K",
          "listeningwindow": "L"}


@dataclass
class Qualifier:
    """A further VIFE: its code, its word, and what it does to how the data are read or to the number."""

    code: int
    word: str
    reads: str | None = None
    unit: str | None = None
    scales: int | None = None
    adds: int | None = None


@dataclass
class FullRecord:
    """What a record says. `type` is the letter of annex A, a word for texts and for what nobody is to see, or a dash."""

    quantity: str
    unit: str
    exponent: int
    value: str
    type: str
    qualifiers: list[str] = field(default_factory=list)
    unset: bool = False
    number: str | None = None
    plain: str | None = None


def _limit_qualifier(code: int) -> Qualifier | None:
    """E100 and E101: limits, how often and when and how long they were exceeded; u is bit 3, f bit 2."""
    side, which, edge = _SIDE[code >> 3 & 1], _WHICH[code >> 2 & 1], _EDGE[code & 1]
    if code in range(0x50, 0x60):
        return Qualifier(code, f"{which}{side}exceedduration", "number", TIME[code & 3])
    if code in (0x40, 0x48):
        return Qualifier(code, f"{side}limit")
    if code in (0x41, 0x49):
        return Qualifier(code, f"{side}exceeds", "number", "-")
    if code in range(0x40, 0x50) and code & 2:
        return Qualifier(code, f"{which}{side}exceed{edge}", "moment")
    return None


def _duration_qualifier(code: int) -> Qualifier | None:
    """E110: durations and moments of what the record is of; values during an exceed."""
    which, edge = _WHICH[code >> 2 & 1], _EDGE[code & 1]
    if code in range(0x60, 0x68):
        return Qualifier(code, f"{which}duration", "number", TIME[code & 3])
    if code in (0x68, 0x6C):
        return Qualifier(code, f"during{_SIDE[code >> 2 & 1]}exceed")
    if code in (0x6A, 0x6B, 0x6E, 0x6F):
        return Qualifier(code, f"{which}{edge}", "moment")
    return None


def qualifier_of(code: int) -> Qualifier:
    """A combinable VIFE, or what the meter reports; one that isn't there is kept."""
    if 0x70 <= code <= 0x77:
        return Qualifier(code, "factor", scales=code - 0x76)
    if 0x78 <= code <= 0x7B:
        return Qualifier(code, "constant", adds=code - 0x7B)
    if code == 0x7D:
        return Qualifier(code, "factor", scales=3)
    found = _limit_qualifier(code) or _duration_qualifier(code)
    if found:
        return found
    if code in (0x13, 0x1E, 0x1F, 0x3F, 0x7F):
        return Qualifier(code, _WORDS[code], "raw")
    if code == 0x3D:
        return Qualifier(code, _WORDS[code], unit="nonmetric")
    if code == 0x39:
        return Qualifier(code, _WORDS[code], "moment")
    return Qualifier(code, _WORDS.get(code, "kept"))


def qualifiers_of(vif: int, vifes: bytes) -> list[Qualifier]:
    """Behind 7C stands a code of the combinable extension, behind 7F the maker's own, as behind the VIF 7F; the VIF 6F has a
    table of its own."""
    found, own, extended = [], vif & 0x7F in (0x6F, 0x7F), False
    for vife in vifes:
        code = vife & 0x7F
        if own:
            found.append(Qualifier(code, "kept"))
        elif extended:
            found.append(Qualifier(code, "extended"))
            extended = False
        else:
            found.append(qualifier_of(code))
            own, extended = code == 0x7F, code == 0x7C
    return found


def _named(value: int, every: int, least: int, most: int, digits: int) -> str | None:
    """A field of a date or a time: its digits, `*` for every one, or none where there is no such number."""
    if value == every:
        return "*"
    return f"{value:0{digits}d}" if least <= value <= most else None


def _year(year: int, hundreds: int = 0) -> str | None:
    """Seven bits; without hundreds the years to 80 are those from 2000 on."""
    if year == 127:
        return "*"
    if year > 99:
        return None
    return str(2000 + year if hundreds == 0 and year <= 80 else 1900 + 100 * hundreds + year)


def _joined(separator: str, *parts: str | None) -> str | None:
    known = [part for part in parts if part is not None]
    return separator.join(known) if len(known) == len(parts) else None


def _bits(word: int, first: int, count: int) -> int:
    return word >> first & (1 << count) - 1


def _day(word: int, at: int, hundreds: int = 0) -> str | None:
    """The sixteen bits of type G, which types F and I have at another place."""
    year = _bits(word, at + 5, 3) | _bits(word, at + 12, 4) << 3
    return _joined("-", _year(year, hundreds), _named(_bits(word, at + 8, 4), 15, 1, 12, 2),
                   _named(_bits(word, at, 5), 0, 1, 31, 2))


def _moment(width: int, word: int) -> tuple[str | None, str]:
    """Types G (two bytes), J (three), F (four) and I (six)."""
    if width == 2:
        return _day(word, 0), "G"
    if width == 3:
        return _joined(":", _named(_bits(word, 16, 5), 31, 0, 23, 2), _named(_bits(word, 8, 6), 63, 0, 59, 2),
                       _named(_bits(word, 0, 6), 63, 0, 59, 2)), "J"
    if width == 4:
        day = _day(word, 16, _bits(word, 13, 2))
        time = _joined(":", _named(_bits(word, 8, 5), 31, 0, 23, 2), _named(_bits(word, 0, 6), 63, 0, 59, 2))
        said, marks = _joined("T", day, time), "!" * _bits(word, 7, 1) + "+" * _bits(word, 15, 1)
        return (said and said + marks), "F"
    time = _joined(":", _named(_bits(word, 16, 5), 31, 0, 23, 2), _named(_bits(word, 8, 6), 63, 0, 59, 2),
                   _named(_bits(word, 0, 6), 63, 0, 59, 2))
    said = _joined("T", _day(word, 24), time)
    marks = "!" * _bits(word, 15, 1) + "+" * _bits(word, 6, 1)
    return (said and said + marks), "I"


def decimal_text(digits: int, exponent: int) -> str:
    """The exact decimal: as many places as the power of ten has."""
    if exponent >= 0:
        return str(digits * 10 ** exponent)
    text = str(abs(digits)).rjust(1 - exponent, "0")
    return "-" * (digits < 0) + text[:exponent] + "." + text[exponent:]


def real_text(bits: int, scale: int) -> str:
    """The exact decimal of a binary32 times a power of ten; raw where its own digits have more than 127 bits."""
    value = struct.unpack(">f", bits.to_bytes(4, "big"))[0]
    if math.isnan(value):
        return "NaN"
    if math.isinf(value):
        return "-inf" if value < 0 else "inf"
    exact, places = Fraction(value), 0
    while (exact * 10 ** places).denominator != 1:
        places += 1
    if places > MOST_PLACES or abs(exact) >= 1 << 125:
        return "raw"
    return decimal_text(int(exact * 10 ** places), scale - places)


MOST_PLACES = 44
LIMIT = 1 << 127


def _calculated(digits: int, exponent: int, qualifiers: list[Qualifier]) -> tuple[int, int] | None:
    """Factors and constants, one after another; none where the exact number has more than 128 bits."""
    for qualifier in qualifiers:
        if qualifier.scales is not None:
            exponent += qualifier.scales
        if qualifier.adds is not None:
            least = min(exponent, qualifier.adds)
            digits, exponent = digits * 10 ** (exponent - least) + 10 ** (qualifier.adds - least), least
            if not -LIMIT <= digits < LIMIT:
                return None
    return digits, exponent


def _bcd(raw: bytes, signed: bool, negative: bool) -> int | None:
    """Type A: digits, the low byte first; F in the first place is a minus, where it may be one."""
    text = raw[::-1].hex()
    if signed and text.startswith("f"):
        text, negative = text[1:], True
    if text and not text.isdecimal():
        return None
    return -int(text or "0") if negative else int(text or "0")


# Characters of a text that stand for themselves.
PLAIN = frozenset(map(chr, range(0x20, 0x7F))) - frozenset('"\\,%')


def _kind_of(record: Record) -> str:
    """How a number's data are coded: the data field, or the LVAR."""
    data_field = record.dif & 15
    if data_field == VARIABLE:
        assert record.lvar is not None
        return ("text", "A", "-A", "B", "long")[max(0, (record.lvar >> 4) - 0xB)]
    return {0: "none", 5: "H"}.get(data_field, "B" if data_field < 8 else "sA")


def _counted(digits: int, text: str, unset: bool) -> str | None:
    """The number that a decimal counts, as text: of at most fifteen digits without the zeros of its power of ten."""
    return text if abs(digits) < 10 ** 15 and not unset else None


def _number(record: Record, exponent: int, bits: bool, qualifiers: list[Qualifier]) -> tuple[str, str, bool, str | None]:
    """The value as text, the type, whether the number stands for none, and the number that it counts."""
    kind, raw = _kind_of(record), record.raw
    digits: int | None
    if kind in ("none", "long"):
        return "raw" if raw else "-", "-", False, None
    if kind == "text":
        return "".join(chr(byte) if chr(byte) in PLAIN else f"%{byte:02x}" for byte in raw[::-1]), "text", False, None
    if kind == "H":
        if any(q.adds is not None for q in qualifiers):
            return "raw", "H", False, None
        scale = exponent + sum(q.scales or 0 for q in qualifiers)
        text = real_text(int.from_bytes(raw, "little"), scale)
        return text, "H", False, None if text in ("raw", "NaN", "inf", "-inf") else text
    if kind == "B":
        if bits:
            return f"0x{raw[::-1].hex()}", "D", False, None
        digits = int.from_bytes(raw, "little", signed=True)
        unset = len(raw) > 0 and digits == -(1 << 8 * len(raw) - 1)
    else:
        digits, unset = _bcd(raw, kind == "sA", kind == "-A"), len(raw) > 0 and set(raw) == {0xFF}
    exact = None if digits is None else _calculated(digits, exponent, qualifiers)
    if exact is None:
        return "raw", kind[-1], unset, None
    text = decimal_text(*exact)
    return text, kind[-1], unset, _counted(exact[0], text, unset)


def _dated(record: Record) -> tuple[str, str, bool]:
    """A date or a time, by the width of a binary data field; type M by an LVAR isn't taken apart."""
    raw, data_field = record.raw, record.dif & 15
    if data_field == VARIABLE:
        return ("raw", "M", False) if raw else ("-", "-", False)
    if not raw:
        return "-", "-", False
    if data_field not in (2, 3, 4, 6):
        return "raw", "-", False
    said, kind = _moment(len(raw), int.from_bytes(raw, "little"))
    return said or "raw", kind, set(raw) == {0xFF}


def _plain(record: Record, words: list[str]) -> str | None:
    """What the VIF alone makes of data that are the manufacturer's own, if it makes something of them: the value and its unit."""
    if "makersown" not in words:
        return None
    alone = read_in_full(replace(record, modifiers=b""))
    if alone.type != "text" and alone.value in ("-", "raw", "withheld"):
        return None if alone.type != "H" else f"{alone.value} {alone.unit}"
    return f"{alone.value} {alone.unit}"


def read_in_full(record: Record | MakerData) -> FullRecord:
    """A data record, or manufacturer data."""
    if isinstance(record, MakerData):
        return FullRecord("manufacturer", "-", 0, "raw" if record.raw else "-", "-")
    table = {AFTER_FB: FB, AFTER_FD: FD}.get(record.vif[0], PRIMARY) if len(record.vif) > 1 else PRIMARY
    quantity, unit, exponent = table.get(record.vif[-1] & 0x7F, UNKNOWN)
    qualifiers = qualifiers_of(record.vif[0], record.modifiers)
    reads = "raw" if quantity in OPAQUE else "moment" if quantity in MOMENTS else "withheld" if quantity in WITHHELD else "number"
    bits, kind = quantity in BITS, OPAQUE.get(quantity, "-")
    for qualifier in qualifiers if reads != "withheld" else ():
        if qualifier.reads:
            reads, bits, kind = qualifier.reads, False, "-"
            unit, exponent = (qualifier.unit or "-"), 0
        elif qualifier.unit:
            unit = qualifier.unit
    number = None
    words = [q.word if q.word not in ("kept", "extended", "factor", "constant") else f"{q.word}-{q.code:02x}" for q in qualifiers]
    if reads == "withheld":
        value, kind, unset = ("withheld", "withheld", False) if record.raw else ("-", "-", False)
    elif reads == "raw":
        value, kind, unset = ("raw", kind, False) if record.raw else ("-", "-", False)
    elif reads == "moment":
        value, kind, unset = _dated(record)
    else:
        value, kind, unset, number = _number(record, exponent, bits, qualifiers)
    return FullRecord(quantity, unit, exponent, value, kind, words, unset, number, _plain(record, words))
