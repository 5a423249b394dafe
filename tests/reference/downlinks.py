"""The frame of a downlink, layer by layer (`downlink`; docs/FORMATS.md, "Downlinks of a receiver")."""
from reference.ciphers import BLOCK, COLLECTOR_CIPHER, COLLECTOR_MAC, cbc_encrypted, cmac, derived
from reference.frames import frame_a

SEND_USER_DATA, HEADER_TO_METER = 0x43, 0x5B
MESSAGE_CONTROL = b"\x25"
AUTHENTICATION = bytes.fromhex("900f002c")
MODE_7, OMS_DERIVATION = 0x0700, b"\x10"
CHECK, FILLER = b"\x2f\x2f", b"\x2f"


def downlink(own: bytes, meter: bytes, key: bytes, counter: int, payload: bytes) -> bytes:
    """`downlink`: the frame of format A for a command's payload."""
    content = CHECK + payload
    content += FILLER * (-len(content) % BLOCK)
    identification, number = meter[2:6], counter.to_bytes(4, "little")
    configuration = (MODE_7 | len(content) // BLOCK << 4).to_bytes(2, "little")
    names = identification + meter[:2] + meter[6:]
    header = bytes([HEADER_TO_METER]) + names + number[:1] + b"\0" + configuration + OMS_DERIVATION
    cipher, mac = (derived(key, constant, counter, identification) for constant in (COLLECTOR_CIPHER, COLLECTOR_MAC))
    message = header + cbc_encrypted(cipher, bytes(BLOCK), content)
    authentication = cmac(mac, MESSAGE_CONTROL + number + message)[:8]
    body = bytes([SEND_USER_DATA]) + own + AUTHENTICATION + MESSAGE_CONTROL + number + authentication + message
    return frame_a(bytes([len(body)]) + body)
