"""What stands below a frame under the keys of a roster (`below_text`; docs/FORMATS.md, "Lines of `frame_inspect`")."""
from dataclasses import replace

from reference.answers import Refused, Stored
from reference.full_records import FullRecord, read_in_full
from reference.reasons import Reason
from reference.records import MakerData, Record, listing_of
from reference.reports import hex_or_dash
from reference.roster import Roster
from reference.slots import Slot, Telegram, event_of
from reference.states import fresh_start
from reference.values import FUNCTIONS


def _name(item: Record | MakerData, full: FullRecord) -> str:
    """The quantity and its qualifiers, and what tells the register from the plain one."""
    words = [full.quantity, *full.qualifiers] + ["unset"] * full.unset
    if isinstance(item, MakerData):
        return " ".join([*words, f"maker {item.dif:02x}"])
    function = FUNCTIONS[item.dif >> 4 & 3]
    words += [function] * (function != "instantaneous")
    register = (("storage", item.storage), ("tariff", item.tariff), ("subunit", item.subunit))
    return " ".join(words + [f"{word} {number}" for word, number in register if number])


def record_line(number: int, item: Record | MakerData) -> str:
    """A data record: its place, its data, its name, its value and its unit."""
    full = read_in_full(item)
    data = "-" if full.type == "withheld" else hex_or_dash(item.raw)
    unit = "" if full.unit == "-" else f" {full.unit}"
    return f"  {number} {data} {_name(item, full)}: {full.value}{unit}"


def records_lines(payload: bytes) -> list[str]:
    """The data records of a payload, and the fault behind them."""
    listing = listing_of(payload, long=True)
    lines = [record_line(number, item) for number, item in enumerate(listing.items, 1)]
    return lines + [f"  fault {listing.fault}"] * (listing.fault is not None)


def below(line: bytes, roster: Roster) -> list[str]:
    """What stands below the line of a frame: nothing was heard of its meter before, and its last number isn't known."""
    try:
        address, event = event_of(line)
    except Reason:
        return []
    if not isinstance(event, Telegram):
        return []
    meter = next((it for it in roster.meters if it.address == address), None)
    if meter is None:
        return [f"  no key for {address.hex()}"]
    answer = Slot(roster.own, fresh_start(replace(meter, last=None))).step(event)
    if isinstance(answer, Stored):
        return records_lines(answer.reading.payload)
    return [f"  {answer.words}"] if isinstance(answer, Refused) or answer.words == "part" else []
