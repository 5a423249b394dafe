"""What radio receivers print for telegrams, made of the telegrams alone, for scripts that make and read such lines."""
import json
from datetime import datetime, timezone

from telegrams.frames import format_a, format_b


def shown(moment: float) -> str:
    """A moment as a date and a time of day."""
    return datetime.fromtimestamp(moment, timezone.utc).strftime("%Y-%m-%d %H:%M:%S")


def cul(telegram: bytes, quality: bytes = b"\x80\xf4", b: bool = False) -> str:
    """culfw: the frame as it was received, and two bytes of link quality."""
    frame = format_b(telegram) if b else format_a(telegram)
    return ("bY" if b else "b") + (frame + quality).hex().upper()


def rtl_wmbus(telegram: bytes, moment: float, mode: str = "T1") -> str:
    """rtl_wmbus: eight columns, of a frame with right CRCs."""
    return f"{mode};1;1;{shown(moment)}.000;97;148;{telegram[7:3:-1].hex()};0x{telegram.hex()}"


def rtl_433(telegram: bytes, moment: float, data: bytes | None = None, **members: object) -> str:
    """rtl_433 22.11 of a frame of format A: an L that is two too low, and the CRC of the last block after the telegram."""
    if data is None:
        data = bytes([telegram[0] - 2]) + telegram[1:] + format_a(telegram)[-2:]
    printed: dict[str, object] = {"time": shown(moment), "model": "Wireless-MBus", "mode": "T", "M": "ELS",
                                  "id": int(telegram[7:3:-1].hex(), 16), "version": telegram[8], "type": telegram[9],
                                  "type_string": "Gas", "C": telegram[1], "data_length": len(telegram), "data": data.hex(), "mic": "CRC"}
    printed.update(members)
    return json.dumps({name: value for name, value in printed.items() if value is not None}, separators=(", ", " : "))


def hexadecimal(telegram: bytes) -> str:
    """A telegram in hexadecimal, its layers set apart."""
    text = telegram.hex()
    return f"|{text[:22]}|{text[22:]}|" if len(text) % 4 else f"{text[:20]}_{text[20:]}"
