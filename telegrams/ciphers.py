"""AES-128 encryption (FIPS 197), CBC with an IV (SP 800-38A) and CMAC (RFC 4493) in plain Python, for scripts that make messages."""
from __future__ import annotations

import struct
from functools import lru_cache


def doubled(byte: int) -> int:
    """Twice a number of GF(2^8)."""
    return byte << 1 ^ (0x11B if byte & 0x80 else 0)


def make_tables() -> tuple[list[int], list[list[int]]]:
    """The S-box, and for each place of a column the table that substitutes a byte and mixes it into its column."""
    powers, x = [], 1
    for _ in range(255):
        powers.append(x)
        x ^= doubled(x)
    box = []
    for byte in range(256):
        inverse = powers[-powers.index(byte) % 255] if byte else 0
        x = inverse * 0x101
        box.append((inverse ^ x >> 7 ^ x >> 6 ^ x >> 5 ^ x >> 4) & 0xFF ^ 0x63)
    mixed = [doubled(s) << 24 | s << 16 | s << 8 | doubled(s) ^ s for s in box]
    return box, [[(word >> 8 * n | word << 32 - 8 * n) & 0xFFFFFFFF for word in mixed] for n in range(4)]


BOX, (T0, T1, T2, T3) = make_tables()


@lru_cache(maxsize=1024)
def round_keys(key: bytes) -> list[int]:
    """The words of all round keys."""
    words: list[int] = list(struct.unpack(">4I", key))
    constant = 1
    while len(words) < 44:
        word = words[-1]
        if len(words) % 4 == 0:
            word = BOX[word >> 16 & 255] << 24 | BOX[word >> 8 & 255] << 16 | BOX[word & 255] << 8 | BOX[word >> 24]
            word ^= constant << 24
            constant = doubled(constant)
        words.append(words[-4] ^ word)
    return words


def encrypt(words: list[int], block: bytes) -> bytes:
    """A block under round keys."""
    a, b, c, d = struct.unpack(">4I", block)
    a, b, c, d = a ^ words[0], b ^ words[1], c ^ words[2], d ^ words[3]
    for k in range(4, 40, 4):
        a, b, c, d = (T0[a >> 24] ^ T1[b >> 16 & 255] ^ T2[c >> 8 & 255] ^ T3[d & 255] ^ words[k],
                      T0[b >> 24] ^ T1[c >> 16 & 255] ^ T2[d >> 8 & 255] ^ T3[a & 255] ^ words[k + 1],
                      T0[c >> 24] ^ T1[d >> 16 & 255] ^ T2[a >> 8 & 255] ^ T3[b & 255] ^ words[k + 2],
                      T0[d >> 24] ^ T1[a >> 16 & 255] ^ T2[b >> 8 & 255] ^ T3[c & 255] ^ words[k + 3])
    rows = ((a, b, c, d), (b, c, d, a), (c, d, a, b), (d, a, b, c))
    return struct.pack(">4I", *((BOX[w >> 24] << 24 | BOX[x >> 16 & 255] << 16 | BOX[y >> 8 & 255] << 8 | BOX[z & 255]) ^ key
                                for (w, x, y, z), key in zip(rows, words[40:])))


def xor(one: bytes, other: bytes) -> bytes:
    """Two blocks, bit by bit."""
    return (int.from_bytes(one, "big") ^ int.from_bytes(other, "big")).to_bytes(len(one), "big")


def cbc(key: bytes, plain: bytes, start: bytes = bytes(16)) -> bytes:
    """Whole blocks, chained from a start."""
    words = round_keys(key)
    made: list[bytes] = []
    for at in range(0, len(plain), 16):
        start = encrypt(words, xor(plain[at:at + 16], start))
        made.append(start)
    return b"".join(made)


@lru_cache(maxsize=1024)
def subkeys(key: bytes) -> list[bytes]:
    """The two subkeys of a CMAC."""
    found: list[bytes] = []
    value = int.from_bytes(encrypt(round_keys(key), bytes(16)), "big")
    for _ in range(2):
        value = value << 1 ^ (0x87 | 1 << 128 if value >> 127 else 0)
        found.append(value.to_bytes(16, "big"))
    return found


def cmac(key: bytes, message: bytes) -> bytes:
    """The CMAC of a message."""
    first, second = subkeys(key)
    at = max(len(message) - 1, 0) // 16 * 16
    last = message[at:]
    last = xor(last, first) if len(last) == 16 else xor(last + b"\x80" + bytes(15 - len(last)), second)
    return cbc(key, message[:at] + last)[-16:]
