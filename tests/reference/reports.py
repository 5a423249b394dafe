"""The report's text (docs/FORMATS.md, "Report"; `report_text`, `records_text`)."""
from reference.commands import Command
from reference.records import MakerData, Record, listing_of
from reference.slots import Slot
from reference.values import FUNCTIONS, unit_of, value_of

RING = 256


def hex_or_dash(content: bytes) -> str:
    """`-` stands for empty hexadecimal."""
    return content.hex() or "-"


def letters_of(manufacturer: bytes) -> str:
    """`letters_of` (EN 13757-3): three letters, or a dash."""
    number = int.from_bytes(manufacturer, "little")
    codes = [number >> shift & 31 for shift in (10, 5, 0)]
    if number >> 15 or not all(1 <= code <= 26 for code in codes):
        return "-"
    return "".join(chr(64 + code) for code in codes)


def record_line(item: Record | MakerData) -> str:
    """`record_line`."""
    if isinstance(item, MakerData):
        return f"maker {item.dif:02x} {hex_or_dash(item.raw)}"
    unit = unit_of(item)
    register = f"{FUNCTIONS[item.dif >> 4 & 3]} {item.storage} {item.tariff} {item.subunit}"
    measure = f"{unit.quantity} {unit.unit} {unit.exponent}"
    return f"record {register} {measure} {hex_or_dash(item.modifiers)} {value_of(item)} {hex_or_dash(item.raw)}"


def records_text(payload: bytes) -> list[str]:
    """`listing_text`: the lines of the first 256 records, then `more`, or the fault."""
    listing = listing_of(payload)
    lines = [record_line(item) for item in listing.items]
    if listing.more:
        lines.append("more")
    return lines + ([f"fault {listing.fault}"] if listing.fault else [])


def _pending(command: Command) -> str:
    return f"pending {command.ident} {command.tries}"


def meter_lines(slot: Slot, steps: list[tuple[int, int, str]]) -> list[str]:
    """`meter_text`: a meter's line, its steps, the records of the last reading stored here, the commands that wait."""
    it, commands = slot.known.commission, slot.known.commands
    last = "-" if it.last is None else it.last
    counted = f"last {last} down {commands.down} steps {len(steps)} readings {slot.readings}"
    lines = [f"meter {it.address.hex()} {letters_of(it.address[:2])} mode {it.mode} {counted}"]
    lines += [f"step {receiver} {line} {words}" for receiver, line, words in steps]
    if slot.last_stored:
        lines += records_text(slot.last_stored.payload)
    return lines + [_pending(command) for command in commands.waiting]


def strangers_lines(strangers: list[tuple[int, int, bytes]]) -> list[str]:
    """`strangers`, each of their lines, and the addresses of the last 256."""
    lines = [f"strangers {len(strangers)}"] + [f"stranger {receiver} {line}" for receiver, line, _ in strangers]
    return lines + [f"ring {address.hex()}" for _, _, address in strangers[-RING:]]
