"""Payloads of data records (EN 13757-3): those of tests/full_records with what they say, and made ones; and reports that store payloads."""
import os
import random
from collections.abc import Iterable

TOP = os.path.dirname(os.path.dirname(os.path.dirname(os.path.realpath(__file__))))
METER = "meter 9315785634123303 ELS mode 5 last 42 down 0 steps 1 readings 1\n"


def _lines(name: str) -> list[str]:
    with open(f"{TOP}/tests/full_records/{name}", encoding="utf-8") as file:
        return file.read().splitlines()


def published() -> list[tuple[str, bytes, list[str]]]:
    """A meter, its payload, and the readings that its publisher names."""
    rows = [line.split("\t") for line in _lines("published.tsv")[1:]]
    return [(meter, bytes.fromhex(payload), readings.split("; ")) for meter, payload, readings in rows]


def by_hand() -> list[tuple[bytes, str]]:
    """A payload, and what its first record says."""
    rows = [line.split(" ", 1) for line in _lines("by_hand")]
    return [(bytes.fromhex(payload), wanted) for payload, wanted in rows]


def listed() -> list[tuple[bytes, str]]:
    """A published payload's record alone, or one worked out by hand, and what it says: as `by_hand` has it, and its type behind that."""
    rows = [line.split(" ", 1) for line in _lines("listed")]
    return [(bytes.fromhex(payload), wanted) for payload, wanted in rows]


def as_plain() -> list[tuple[bytes, str | None]]:
    """A record, and what its VIF alone makes of data that are the manufacturer's own, worked out by hand; a dash where it makes nothing."""
    rows = [line.split(" ", 1) for line in _lines("as_plain")]
    return [(bytes.fromhex(payload), None if wanted == "-" else wanted) for payload, wanted in rows]


def report_of(payloads: Iterable[bytes]) -> str:
    """A report of one meter, whose steps are of the lines from 1 on."""
    steps = "".join(f"step 1 {number} stored 42 100 {payload.hex() or '-'}\n" for number, payload in enumerate(payloads, 1))
    return f"wmbus-report 1\n{METER}{steps}end\n"


def chained(codes: Iterable[int]) -> bytes:
    """A byte and its extensions: each says by bit 7 that another one follows."""
    *front, last = codes
    return bytes([*(code | 0x80 for code in front), last])


def data_information(field: int, function: int = 0, storage: int = 0, tariff: int = 0, subunit: int = 0) -> bytes:
    """A DIF with as many DIFEs as its numbers take."""
    extensions, dif = [], field | function << 4 | (storage & 1) << 6
    storage >>= 1
    while storage or tariff or subunit:
        extensions.append(storage & 15 | (tariff & 3) << 4 | (subunit & 1) << 6)
        storage, tariff, subunit = storage >> 4, tariff >> 2, subunit >> 1
    return chained([dif, *extensions])


def drawn_moment(draw: random.Random, size: int) -> bytes:
    """A date of type G (two bytes), a moment of type F (four) or I (six)."""
    year = draw.randrange(100)
    word = draw.randint(1, 31) | (year & 7) << 5 | draw.randint(1, 12) << 8 | year >> 3 << 12
    minute, hour, summer = draw.randrange(60), draw.randrange(24), draw.randrange(2)
    if size == 4:
        word = word << 16 | summer << 15 | draw.randrange(4) << 13 | hour << 8 | minute
    if size == 6:
        word = word << 24 | hour << 16 | minute << 8 | summer << 6 | draw.randrange(60)
    return word.to_bytes(size, "little")
