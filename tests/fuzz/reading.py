"""Reads a receiver's lines as docs/FORMATS.md says, without the program: which class each line is in, and for which address."""
import re

from telegrams.frames import format_a, format_b

NUMBER = re.compile(rb"(0|[1-9][0-9]*)\Z")
DIGITS = re.compile(rb"([0-9a-fA-F]{2})*\Z")
ADDRESS = re.compile(rb"[0-9a-fA-F]{16}\Z")
FIELDS = {b"A": 3, b"B": 3, b"T": 2, b"Q": 3, b"X": 3, b"K": 3}
MAC, ML, MCR, MCL, MORE, KI = 0x0400, 0x1000, 0x0800, 0x2000, 0x4000, 0x0200
SIZES = ((MCL, 1), (KI, 2), (MCR, 4), (MAC, 8), (ML, 2))


def lines_of(content: bytes) -> list[bytes]:
    """The lines of a file: each without its newline and the carriage return before it."""
    lines = content.split(b"\n")
    last = lines.pop()
    return [line[:-1] if line.endswith(b"\r") else line for line in lines] + ([last] if last else [])


def telegram_of(form: bytes, frame: bytes) -> bytes | None | None:
    """The telegram of a frame, or none where the bytes are no frame of this format."""
    if not frame:
        return None
    if form == b"A":
        if frame[0] < 10:
            return None
        blocks = [frame[:10]] + [frame[at:at + 16] for at in range(12, len(frame), 18)]
        telegram = b"".join(blocks)[:frame[0] + 1]
        return telegram if len(telegram) == frame[0] + 1 and format_a(telegram) == frame else None
    if not (12 <= frame[0] <= 127 or 130 <= frame[0]) or len(frame) != frame[0] + 1:
        return None
    body = frame[:-2] if frame[0] < 130 else frame[:126] + frame[128:-2]
    telegram = bytes([len(body) - 1]) + body[1:]
    return telegram if format_b(telegram) == frame else None


def target(telegram: bytes) -> bytes:
    """The address that a telegram is for: that of a long transport header where all layers can be read, else the link address."""
    link, rest = telegram[2:10], telegram[10:]
    if rest[:1] in (b"\x8c", b"\x8e"):
        size = 3 if rest[0] == 0x8C else 11
        if len(rest) < size:
            return link
        rest = rest[size:]
    if rest[:1] == b"\x90":
        if len(rest) < 4:
            return link
        control = int.from_bytes(rest[2:4], "little")
        named, number = {bit for bit, _ in SIZES if control & bit}, control & 0xFF
        fields = 2 + sum(size for bit, size in SIZES if bit in named)
        if len(rest) < 2 + fields or rest[1] != fields or control & MORE or number > 1:
            return link
        rest = rest[2 + fields:]
    if rest[:1] not in (b"\x72", b"\x8b") or len(rest) < 13 or (rest[12] & 0x1F == 7 and len(rest) < 14):
        return link
    return rest[5:7] + rest[1:5] + rest[7:9]


def address_of(line: bytes) -> str:
    """The address that a line is for, as sixteen digits; or `bad`, or `unframed`."""
    fields = line.split(b" ")
    word = fields[0]
    if len(line) > 1024 or len(fields) != FIELDS.get(word, 0):
        return "bad"
    if word in (b"A", b"B"):
        if not NUMBER.match(fields[1]) or int(fields[1]) >> 64 or not DIGITS.match(fields[2]):
            return "bad"
        telegram = telegram_of(word, bytes.fromhex(fields[2].decode()))
        return "unframed" if telegram is None else target(telegram).hex()
    if not ADDRESS.match(fields[1]):
        return "bad"
    return fields[1].decode().lower() if word == b"T" or is_right(word, fields[2]) else "bad"


def is_right(word: bytes, field: bytes) -> bool:
    """Whether the last field of a command, a cancellation or a new key is one."""
    if word == b"X":
        return bool(NUMBER.match(field)) and not int(field) >> 32
    return bool(DIGITS.match(field)) and (len(field) == 32 if word == b"K" else 1 <= len(field) // 2 <= 94)
