"""Messages of security modes 5 and 7 (OMS Volume 2), for scripts that make sessions. The package cryptography is used where it is there,
since it is faster."""
from __future__ import annotations

try:
    from cryptography.hazmat.primitives.ciphers import Cipher, algorithms, modes
    from cryptography.hazmat.primitives.cmac import CMAC

    def cmac(key: bytes, message: bytes) -> bytes:
        """The CMAC of a message."""
        mac = CMAC(algorithms.AES(key))
        mac.update(message)
        return bytes(mac.finalize())

    def cbc(key: bytes, plain: bytes, start: bytes = bytes(16)) -> bytes:
        """Whole blocks, chained from a start."""
        return bytes(Cipher(algorithms.AES(key), modes.CBC(start)).encryptor().update(plain))
except ImportError:
    from telegrams.ciphers import cbc, cmac

METER_CIPHER, METER_MAC, PARTNER_CIPHER, PARTNER_MAC = 0x00, 0x01, 0x10, 0x11
MCL = 0x25


def derived(key: bytes, constant: int, counter: int, address: bytes) -> bytes:
    """A key that is derived from a meter's."""
    return cmac(key, bytes([constant]) + counter.to_bytes(4, "little") + address[2:6] + bytes([7]) * 7)


def message(key: bytes, address: bytes, counter: int, payload: bytes, key_id: int = 0) -> tuple[bytes, bytes]:
    """The transport header, which names the key, and the payload, all of it encrypted, and the MAC over it."""
    plain = payload + b"\x2f" * (-len(payload) % 16)
    text = bytes([0x7A, counter % 256, 0, len(plain) // 16 << 4, 7, 0x10 | key_id]) + cbc(derived(key, METER_CIPHER, counter, address),
                                                                                          plain)
    mac = cmac(derived(key, METER_MAC, counter, address), bytes([MCL]) + counter.to_bytes(4, "little") + text)[:8]
    return text, mac


def telegram(control: int, address: bytes, body: bytes) -> bytes:
    """A telegram of a meter."""
    return bytes([9 + len(body), control]) + address + body


def whole(key: bytes, address: bytes, counter: int, payload: bytes, control: int = 0x44, access: int | None = None,
          key_id: int = 0) -> bytes:
    """A telegram with a whole message, and with an extended link layer where `access` is its CC."""
    text, mac = message(key, address, counter, payload, key_id)
    ell = b"" if access is None else bytes([0x8C, access, counter % 256])
    return telegram(control, address, ell + bytes.fromhex("900f002c") + bytes([MCL]) + counter.to_bytes(4, "little") + mac + text)


def whole_5(key: bytes, address: bytes, access_number: int, payload: bytes, control: int = 0x44, is_listening: bool = False) -> bytes:
    """A telegram of mode 5, of a meter that listens behind it where that is said."""
    plain = payload + b"\x2f" * (-len(payload) % 16)
    header = bytes([0x7A, access_number, 0, len(plain) // 16 << 4, 0xC5 if is_listening else 0x05])
    return telegram(control, address, header + cbc(key, plain, address + bytes([access_number]) * 8))


def fragments(key: bytes, address: bytes, counter: int, payload: bytes, count: int, key_id: int = 0) -> list[bytes]:
    """The telegrams of a message in so many fragments."""
    return in_fragments(address, counter, *message(key, address, counter, payload, key_id), count)


def in_fragments(address: bytes, counter: int, text: bytes, mac: bytes, count: int) -> list[bytes]:
    """The telegrams of a message's text and its MAC."""
    size = -(-len(text) // count)
    made = []
    for fid in range(1, count + 1):
        fields = bytes([MCL]) + counter.to_bytes(4, "little") if fid == 1 else mac if fid == count else b""
        control = fid | (0 if fid == count else 0x4000) | (0x2800 if fid == 1 else 0x0400 if fid == count else 0)
        afl = bytes([0x90, 2 + len(fields)]) + control.to_bytes(2, "little") + fields
        made.append(telegram(0x44, address, afl + text[(fid - 1) * size:fid * size]))
    return made


def downlink(own: bytes, key: bytes, address: bytes, down: int, payload: bytes) -> bytes:
    """The telegram of a downlink to a meter, under its key and the counter `down`."""
    plain = b"\x2f\x2f" + payload
    plain += b"\x2f" * (-len(plain) % 16)
    header = bytes([0x5B]) + address[2:6] + address[:2] + address[6:] + bytes([down % 256, 0, len(plain) // 16 << 4, 7, 0x10])
    text = header + cbc(derived(key, PARTNER_CIPHER, down, address), plain)
    counted = bytes([MCL]) + down.to_bytes(4, "little")
    mac = cmac(derived(key, PARTNER_MAC, down, address), counted + text)[:8]
    return telegram(0x43, own, bytes.fromhex("900f002c") + counted + mac + text)
