"""The last readings as JSON (docs/FORMATS.md, "Readings as JSON"; `readings_text`)."""
import json

from reference.records import MakerData, Record, listing_of
from reference.states import Start
from reference.values import FUNCTIONS, unit_of, value_of


def compact_line(tree: dict[str, object]) -> str:
    """The compact text of a tree whose members stand in the order of their names, and a newline."""
    return json.dumps(tree, sort_keys=True, separators=(",", ":")) + "\n"


def _record_tree(item: Record | MakerData) -> dict[str, object]:
    """`record_tree`."""
    if isinstance(item, MakerData):
        return {"maker": f"{item.dif:02x}", "raw": item.raw.hex()}
    unit = unit_of(item)
    return {
        "exponent": unit.exponent, "function": FUNCTIONS[item.dif >> 4 & 3], "modifiers": item.modifiers.hex(),
        "quantity": unit.quantity, "raw": item.raw.hex(), "storage": item.storage, "subunit": item.subunit,
        "tariff": item.tariff, "unit": unit.unit, "value": value_of(item),
    }


def listing_tree(payload: bytes) -> dict[str, object]:
    """The members of a payload's listing: its records, the fault behind them, whether more follow."""
    listing = listing_of(payload)
    return {"fault": listing.fault, "more": listing.more, "records": [_record_tree(it) for it in listing.items]}


def _meter_tree(known: Start) -> dict[str, object]:
    """`meter_tree`."""
    reading = known.reading
    return {
        "address": known.commission.address.hex(), "at": reading and reading.moment,
        "counter": reading and reading.counter, "mode": known.commission.mode,
    } | listing_tree(reading.payload if reading else b"")


def readings_text(meters: list[Start]) -> str:
    """`readings_text`."""
    return compact_line({"meters": [_meter_tree(known) for known in meters]})
