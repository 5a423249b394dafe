"""Sessions of meters that are heard once each, with a message as long as one may be: 256 data records of four kinds, or as many fillers."""
from telegrams import messages
from telegrams.frames import format_a

FOUR_RECORDS = bytes.fromhex("0c1327048502" "046d32371f15" "0b3b123405" "02fd170000")
RECORDS = FOUR_RECORDS * 64
FILLERS = b"\x2f" * len(RECORDS)
ENCRYPTED, FRAGMENTS = 240, 8


def address(meter: int) -> bytes:
    return bytes.fromhex("9315") + bytes.fromhex(f"{meter + 1:08d}")[::-1] + b"\x01\x07"


def key(meter: int) -> bytes:
    return (meter + 1).to_bytes(4, "big") * 4


def message(own_key: bytes, own_address: bytes, counter: int, payload: bytes) -> tuple[bytes, bytes]:
    """A message of which fifteen blocks are encrypted, and the rest is plain; with its MAC."""
    hidden = messages.cbc(messages.derived(own_key, messages.METER_CIPHER, counter, own_address), payload[:ENCRYPTED])
    text = bytes([0x7A, counter % 256, 0, 0xF0, 7, 0x10]) + hidden + payload[ENCRYPTED:]
    counted = bytes([messages.MCL]) + counter.to_bytes(4, "little")
    return text, messages.cmac(messages.derived(own_key, messages.METER_MAC, counter, own_address), counted + text)[:8]


def write_session(folder: str, meters: int, payload: bytes) -> None:
    """Writes the roster of so many meters, and what one receiver hears of them, as the files `roster` and `rx` of a folder."""
    with open(f"{folder}/roster", "w", encoding="ascii") as file:
        file.write("wmbus-roster 1\nown 9315010000000131\n")
        file.writelines(f"meter {address(meter).hex()} 7 {key(meter).hex()} - 0 0\n" for meter in range(meters))
    with open(f"{folder}/rx", "w", encoding="ascii") as file:
        for meter in range(meters):
            text, mac = message(key(meter), address(meter), 1, payload)
            for telegram in messages.in_fragments(address(meter), 1, text, mac, FRAGMENTS):
                file.write(f"A {1795000000 + meter} {format_a(telegram).hex()}\n")
