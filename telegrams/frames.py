"""Frames of formats A and B (EN 13757-4), for scripts that make and read sessions."""
from __future__ import annotations


def divided(byte: int) -> int:
    """The remainder of a byte, for the table."""
    register = byte << 8
    for _ in range(8):
        register = (register << 1) ^ (0x3D65 if register & 0x8000 else 0)
    return register & 0xFFFF


TABLE = [divided(byte) for byte in range(256)]


def crc(block: bytes) -> bytes:
    """The CRC of a block."""
    register = 0
    for byte in block:
        register = register << 8 & 0xFF00 ^ TABLE[register >> 8 ^ byte]
    return (register ^ 0xFFFF).to_bytes(2, "big")


def format_a(telegram: bytes) -> bytes:
    """The frame of format A of a telegram."""
    blocks = [telegram[:10]] + [telegram[i:i + 16] for i in range(10, len(telegram), 16)]
    return b"".join(block + crc(block) for block in blocks)


def format_b(telegram: bytes) -> bytes:
    """The frame of a telegram whose first byte is its length less one; none of these has a length of 127 or 128."""
    long = len(telegram) > 126
    body = bytes([len(telegram) + (3 if long else 1)]) + telegram[1:]
    parts = [body[:126], body[126:]] if long else [body]
    return b"".join(part + crc(part) for part in parts)
