"""Rosters of versions 1 and 2, read with their first faulty line, and written (docs/FORMATS.md, "Roster")."""
import re
from dataclasses import dataclass

LIMIT, MOST_METERS = 1_048_576, 4096
WORD, BYTE = 1 << 32, 256
ADDRESS = re.compile(rb"[0-9a-fA-F]{16}")
KEY = re.compile(rb"[0-9a-fA-F]{32}")
NUMBER = re.compile(rb"0|[1-9][0-9]*")
HEADS = {b"wmbus-roster 1": 7, b"wmbus-roster 2": 8}


class RosterFault(Exception):
    """The first faulty line of a roster and its cause."""

    kind = "roster"

    def __init__(self, line: int, cause: str) -> None:
        super().__init__(f"{self.kind} line {line} {cause}")


@dataclass
class Commission:
    """What is commissioned of a meter."""

    address: bytes
    mode: int
    key: bytes
    other: bytes | None
    last: int | None
    down: int
    ids: int


@dataclass
class Roster:
    """The collector's own address and its meters in their order."""

    own: bytes
    meters: list[Commission]


def lines_of(text: bytes) -> list[bytes]:
    """`lines`: one carriage return before a newline is dropped; no empty line stands at the end."""
    *ended, rest = text.split(b"\n")
    lines = [line[:-1] if line.endswith(b"\r") else line for line in ended]
    return lines + [rest] if rest else lines


def number_of(text: bytes, limit: int) -> int | None:
    """`number_of`: the number that plain decimal digits write, below a limit."""
    if not NUMBER.fullmatch(text) or len(text) > 20:
        return None
    number = int(text)
    return number if number < limit else None


def unhex(pattern: re.Pattern[bytes], text: bytes) -> bytes | None:
    """The bytes that digits of this pattern spell."""
    return bytes.fromhex(text.decode()) if pattern.fullmatch(text) else None


def told_of(lines: list[bytes]) -> list[tuple[int, bytes]]:
    """The lines that aren't passed over, with their numbers."""
    return [(number, line) for number, line in enumerate(lines, 1) if line and not line.startswith(b"#")]


def meter_of(fields: list[bytes], wanted: int) -> Commission | str:
    """What a meter's line commissions, or the cause why it doesn't, the first of the table's."""
    if fields[0] != b"meter":
        return "kind"
    if len(fields) != wanted:
        return "fields"
    address, mode, key = unhex(ADDRESS, fields[1]), fields[2], unhex(KEY, fields[3])
    other_text = fields[4] if wanted == 8 else b"-"
    other = unhex(KEY, other_text)
    last_text, down, ids = fields[-3], number_of(fields[-2], WORD), number_of(fields[-1], WORD)
    last = number_of(last_text, WORD if mode == b"7" else BYTE)
    if address is None:
        return "address"
    if mode not in (b"5", b"7"):
        return "mode"
    if key is None:
        return "key"
    if other_text != b"-" and (other is None or mode == b"5"):
        return "other"
    if last is None and last_text != b"-":
        return "last"
    if down is None:
        return "down"
    if ids is None:
        return "ids"
    return Commission(address, int(mode), key, other, last, down, ids)


def own_of(line: bytes) -> bytes | None:
    """The collector's own address."""
    word, _, digits = line.partition(b" ")
    return unhex(ADDRESS, digits) if word == b"own" else None


def read_roster(text: bytes) -> Roster:
    """`roster_of`: the roster of a text, or its first faulty line and cause."""
    if len(text) > LIMIT:
        raise RosterFault(0, "toolong")
    lines = lines_of(text)
    told = told_of(lines)
    if told and told[0][1] not in HEADS:
        raise RosterFault(told[0][0], "head")
    own = own_of(told[1][1]) if len(told) > 1 else None
    if len(told) < 2:
        raise RosterFault(len(lines) + 1, "missing")
    if own is None:
        raise RosterFault(told[1][0], "own")
    meters: dict[bytes, Commission] = {}
    for number, line in told[2:]:
        meter = meter_of(line.split(b" "), HEADS[told[0][1]])
        if isinstance(meter, Commission) and meter.address in meters:
            meter = "same"
        if isinstance(meter, Commission) and len(meters) == MOST_METERS:
            meter = "toomany"
        if isinstance(meter, str):
            raise RosterFault(number, meter)
        meters[meter.address] = meter
    return Roster(own, list(meters.values()))


def own_line(own: bytes) -> str:
    """`own_text`."""
    return f"own {own.hex()}"


def meter_line(it: Commission) -> str:
    """`meter_text`: a meter's line in version 2."""
    other, last = it.other.hex() if it.other else "-", "-" if it.last is None else it.last
    return f"meter {it.address.hex()} {it.mode} {it.key.hex()} {other} {last} {it.down} {it.ids}"


def roster_text(roster: Roster) -> str:
    """`roster_text`: the text of a roster, in version 2."""
    lines = ["wmbus-roster 2", own_line(roster.own), *map(meter_line, roster.meters)]
    return "".join(f"{line}\n" for line in lines)
