"""Data records of a payload (EN 13757-3, clause 6; `IsRecord`, `EndsBy`, `IsListing`)."""
from dataclasses import dataclass, field

MOST_LISTED, MOST_EXTENSIONS = 256, 10
FILLER, MAKER = 0x2F, (0x0F, 0x1F)
SIZES = {0: 0, 1: 1, 2: 2, 3: 3, 4: 4, 5: 4, 6: 6, 7: 8, 9: 1, 10: 2, 11: 3, 12: 4, 14: 6}
# What an LVAR announces that stands for a long binary number (EN 13757-3, 6.3), which the profile doesn't read.
LONG_SIZES = {0xF0: 16, 0xF1: 20, 0xF2: 24, 0xF3: 28, 0xF4: 32, 0xF5: 48, 0xF6: 64}
SELECTION, VARIABLE, SPECIAL = 8, 13, 15
PLAIN_TEXT, AFTER_FB, AFTER_FD = 0x7C, 0xFB, 0xFD


class RecordFault(Exception):
    """Why bytes are no record, in the report's words behind `fault`."""


@dataclass(frozen=True)
class Record:
    """A data record; `vif` has two bytes behind FB and FD, and `lvar` is the length byte, where there is one."""

    dif: int
    storage: int
    tariff: int
    subunit: int
    vif: tuple[int, ...]
    modifiers: bytes
    lvar: int | None
    raw: bytes


@dataclass(frozen=True)
class MakerData:
    """Manufacturer data, up to the payload's end."""

    dif: int
    raw: bytes


@dataclass
class Listing:
    """The first 256 records, the fault behind them, whether more follow (`listed`, `fault_behind`, `more_behind`)."""

    items: list[Record | MakerData] = field(default_factory=list)
    fault: str | None = None
    more: bool = False


class _Reader:
    """Reads a payload from a place on; `start` is that of the record's DIF, and `long` whether long numbers are records."""

    def __init__(self, payload: bytes, long: bool) -> None:
        self.payload, self.place, self.start, self.long = payload, 0, 0, long

    def take(self, count: int) -> bytes:
        """The next bytes, or the fault `truncated`."""
        part = self.payload[self.place:self.place + count]
        if len(part) < count:
            raise RecordFault(f"truncated {self.start}")
        self.place += count
        return part

    def extensions(self, first: int) -> bytes:
        """The extensions of a byte: as long as bit 7 is set another one follows, and an eleventh is a fault."""
        found, last = b"", first
        while last & 0x80:
            last = self.take(1)[0]
            if len(found) == MOST_EXTENSIONS:
                raise RecordFault(f"extensions {self.start}")
            found += bytes([last])
        return found


def _register(dif: int, extensions: bytes) -> tuple[int, int, int]:
    """The storage number, tariff and subunit of a DIF and its extensions (EN 13757-3, 6.3)."""
    storage, tariff, subunit = dif >> 6 & 1, 0, 0
    for place, byte in enumerate(extensions):
        storage |= (byte & 15) << (1 + 4 * place)
        tariff |= (byte >> 4 & 3) << (2 * place)
        subunit |= (byte >> 6 & 1) << place
    return storage, tariff, subunit


def _variable_size(lvar: int, long: bool) -> int:
    """How many bytes stand behind the length byte of data of variable length (EN 13757-3, 6.3.3)."""
    if long and lvar in LONG_SIZES:
        return LONG_SIZES[lvar]
    if lvar < 0xC0:
        return lvar
    if lvar & 15 > 9 and lvar < 0xE0 or lvar > 0xEF:
        raise RecordFault(f"lvar {lvar:02x}")
    return lvar & 15


def _read_record(reader: _Reader) -> Record | MakerData:
    """`IsRecord`: the record at the reader's place."""
    reader.start = reader.place
    dif = reader.take(1)[0]
    if dif in MAKER:
        return MakerData(dif, reader.take(len(reader.payload) - reader.place))
    if dif & 15 == SPECIAL:
        raise RecordFault(f"special {dif:02x}")
    if dif & 15 == SELECTION:
        raise RecordFault(f"selection {reader.start}")
    register = _register(dif, reader.extensions(dif))
    first = reader.take(1)[0]
    if first & 0x7F == PLAIN_TEXT:
        reader.take(reader.take(1)[0])
    extensions = reader.extensions(first)
    has_table = first in (AFTER_FB, AFTER_FD)
    vif, modifiers = (first, *extensions[:has_table]), extensions[has_table:]
    if dif & 15 == VARIABLE:
        lvar = reader.take(1)[0]
        return Record(dif, *register, vif, modifiers, lvar, reader.take(_variable_size(lvar, reader.long)))
    return Record(dif, *register, vif, modifiers, None, reader.take(SIZES[dif & 15]))


def all_records(payload: bytes) -> list[Record | MakerData]:
    """All records up to the payload's end or its first fault, however many, and long numbers too."""
    found: list[Record | MakerData] = []
    reader = _Reader(payload, True)
    try:
        while True:
            while payload[reader.place:reader.place + 1] == bytes([FILLER]):
                reader.place += 1
            if reader.place == len(payload):
                return found
            found.append(_read_record(reader))
    except RecordFault:
        return found


def listing_of(payload: bytes, long: bool = False) -> Listing:
    """`listed`: the records up to the payload's end or its first fault, with long numbers or not; idle fillers are passed over."""
    reader, listing = _Reader(payload, long), Listing()
    try:
        while True:
            while payload[reader.place:reader.place + 1] == bytes([FILLER]):
                reader.place += 1
            if reader.place == len(payload):
                return listing
            if len(listing.items) == MOST_LISTED:
                listing.more = True
                return listing
            listing.items.append(_read_record(reader))
    except RecordFault as fault:
        listing.fault = str(fault)
        return listing
