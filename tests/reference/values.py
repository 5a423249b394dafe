"""Units and values of data records (EN 13757-3, 6.3, 6.4, annex A; `primary`, `after_fd`, `after_fb`, `value`)."""
from dataclasses import dataclass

from reference.records import AFTER_FB, AFTER_FD, Record

FUNCTIONS = ("instantaneous", "maximum", "minimum", "error")
BCD_FIELDS, REAL = frozenset((9, 10, 11, 12, 14)), 5
DURATIONS = ("s", "min", "h", "d")
VALUELESS = frozenset(("unknown", "manufacturer", "date", "datetime"))


@dataclass(frozen=True)
class Unit:
    """What a record's value counts: the value times 10^exponent in the unit."""

    quantity: str
    unit: str = "-"
    exponent: int = 0


# The first code of each run, the number of its codes, quantity, unit, and the exponent of the first one.
_PRIMARY = (
    (0x00, 8, "energy", "Wh", -3), (0x08, 8, "energy", "J", 0), (0x10, 8, "volume", "m3", -6),
    (0x18, 8, "mass", "kg", -3), (0x28, 8, "power", "W", -3), (0x30, 8, "power", "J/h", 0),
    (0x38, 8, "flow", "m3/h", -6),
    (0x40, 8, "flow", "m3/min", -7), (0x48, 8, "flow", "m3/s", -9), (0x50, 8, "massflow", "kg/h", -3),
    (0x58, 4, "flowtemperature", "C", -3), (0x5C, 4, "returntemperature", "C", -3),
    (0x60, 4, "temperaturedifference", "K", -3), (0x64, 4, "externaltemperature", "C", -3),
    (0x68, 4, "pressure", "bar", -3),
)
_TIMES = ((0x20, "ontime"), (0x24, "operatingtime"), (0x70, "averagingduration"), (0x74, "actualityduration"))
_PLAIN = (
    (0x6C, "date"), (0x6D, "datetime"), (0x6E, "hca"), (0x78, "fabrication"), (0x79, "identification"),
    (0x7A, "address"), (0x7C, "plain"), (0x7E, "any"), (0x7F, "manufacturer"),
)
_FD = ((0x40, 16, "voltage", "V", -9), (0x50, 16, "current", "A", -12))
_FB = ((0x00, 2, "energy", "MWh", -1), (0x08, 2, "energy", "GJ", -1))


def _rows(runs: tuple[tuple[int, int, str, str, int], ...]) -> dict[int, Unit]:
    """The units of runs of codes, whose exponents rise by one."""
    units: dict[int, Unit] = {}
    for first, count, quantity, unit, least in runs:
        units |= {first + step: Unit(quantity, unit, least + step) for step in range(count)}
    return units


_DURATIONS = {first + step: Unit(name, unit) for first, name in _TIMES for step, unit in enumerate(DURATIONS)}
PRIMARY = _rows(_PRIMARY) | _DURATIONS | {code: Unit(name) for code, name in _PLAIN}
FD = _rows(_FD) | {0x08: Unit("accessnumber"), 0x17: Unit("errorflags")}
FB = _rows(_FB)
TABLES = {AFTER_FB: FB, AFTER_FD: FD}


def unit_of(record: Record) -> Unit:
    """`unit`: by the VIF, or by the one behind FB or FD."""
    table = TABLES.get(record.vif[0], PRIMARY) if len(record.vif) > 1 else PRIMARY
    return table.get(record.vif[-1] & 0x7F, Unit("unknown"))


def _bcd(raw: bytes, signed: bool) -> str:
    """Annex A, type A: digits, low byte first; where it is signed a first digit F is a minus."""
    digits, minus = raw[::-1].hex(), False
    if signed and digits.startswith("f"):
        digits, minus = digits[1:], True
    if not digits.isdecimal():
        return "raw" if digits else "0"
    return str(-int(digits) if minus else int(digits))


def _integer(raw: bytes) -> str:
    """Annex A, type B: two's complement, low byte first."""
    return str(int.from_bytes(raw, "little", signed=True))


def _day(day: int, month: int, year: int) -> str | None:
    """A day, if day and month are in the ranges of annex A; the length of the month isn't asked."""
    if not 1 <= month <= 12 or day == 0:
        return None
    return f"{year:04d}-{month:02d}-{day:02d}"


def _year(low: int, high: int) -> int | None:
    """The year of seven bits: up to 80 in 20xx, up to 99 in 19xx."""
    year = low >> 5 | high >> 4 << 3
    if year > 99:
        return None
    return year + (2000 if year <= 80 else 1900)


def _date(raw: bytes) -> str:
    """Annex A, type G."""
    year = _year(raw[0], raw[1])
    return (year and _day(raw[0] & 31, raw[1] & 15, year)) or "raw"


def _moment(raw: bytes) -> str:
    """Annex A, type F, with the bit of an invalid time and that of summer time."""
    year, minute, hour = _year(raw[2], raw[3]), raw[0] & 63, raw[1] & 31
    century = raw[1] >> 5 & 3
    if year is not None and century:
        year = 1900 + 100 * century + year % 100
    day = year and _day(raw[2] & 31, raw[3] & 15, year)
    if not day or minute > 59 or hour > 23:
        return "raw"
    return f"{day}T{hour:02d}:{minute:02d}" + ("!" if raw[0] & 0x80 else "") + ("+" if raw[1] & 0x80 else "")


def _variable(record: Record, lvar: int) -> str:
    """Data of variable length by their length byte: a text, BCD without a sign or below zero, or an integer."""
    kind = lvar >> 4
    if kind < 0xC:
        return "text"
    if kind == 0xE:
        return _integer(record.raw)
    digits = _bcd(record.raw, False)
    return f"-{digits}" if kind == 0xD and digits not in ("raw", "0") else digits


def value_of(record: Record) -> str:
    """`value`: the report's VALUE."""
    code, quantity = record.dif & 15, unit_of(record).quantity
    if code == 0 or (quantity in VALUELESS and not record.raw):
        return "-"
    if quantity in VALUELESS:
        if code == 2 and quantity == "date":
            return _date(record.raw)
        return _moment(record.raw) if code == 4 and quantity == "datetime" else "raw"
    if code == REAL:
        return "raw"
    if record.lvar is not None:
        return _variable(record, record.lvar)
    return _bcd(record.raw, True) if code in BCD_FIELDS else _integer(record.raw)
