"""Frames of formats A and B and their CRCs (EN 13757-4; docs/FORMATS.md, "Lines of a receiver")."""
from reference.reasons import Reason

LEAST_A, LEAST_B = 10, 12
GAP_B = (128, 129)
FIRST_A, NEXT_A, FIRST_B = 10, 16, 126
POLYNOMIAL = 0x3D65


class FrameFault(Reason):
    """Why bytes are no frame, in the words of `frame_inspect` behind `unframed`."""


def _crc_row(byte: int) -> int:
    """The remainder of one byte times x^16."""
    rest = byte << 8
    for _ in range(8):
        rest = rest << 1 ^ (POLYNOMIAL if rest & 0x8000 else 0)
        rest &= 0xFFFF
    return rest


_ROWS = [_crc_row(byte) for byte in range(256)]


def crc(content: bytes) -> bytes:
    """`IsCrc`: the complement of the remainder of the bytes times x^16."""
    rest = 0
    for byte in content:
        rest = (rest << 8 & 0xFFFF) ^ _ROWS[rest >> 8 ^ byte]
    return (rest ^ 0xFFFF).to_bytes(2, "big")


def _joined(frame: bytes, sizes: list[int]) -> bytes:
    """The contents of blocks of these sizes, each followed by its CRC."""
    wanted = sum(sizes) + 2 * len(sizes)
    if len(frame) != wanted:
        raise FrameFault("length", wanted, len(frame))
    contents, place = [], 0
    for number, size in enumerate(sizes, 1):
        content = frame[place:place + size]
        if crc(content) != frame[place + size:place + size + 2]:
            raise FrameFault("crc", number)
        contents.append(content)
        place += size + 2
    return b"".join(contents)


def blocks_a(total: int) -> list[int]:
    """The sizes of the blocks of a telegram in format A."""
    rest = total - FIRST_A
    return [FIRST_A] + [min(NEXT_A, rest - start) for start in range(0, rest, NEXT_A)]


def _not_short(frame: bytes, least: int) -> None:
    """A frame has bytes, and its L is at least this."""
    if not frame:
        raise FrameFault("empty")
    if frame[0] < least:
        raise FrameFault("short", frame[0])


def telegram_a(frame: bytes) -> bytes:
    """`FrameA` read: the telegram in a frame of format A, or the first fault (`FaultA`)."""
    _not_short(frame, LEAST_A)
    return _joined(frame, blocks_a(frame[0] + 1))


def telegram_b(frame: bytes) -> bytes:
    """`FrameB` read: the telegram in a frame of format B, whose L counts the CRCs too, or the first fault (`FaultB`)."""
    _not_short(frame, LEAST_B)
    if frame[0] in GAP_B:
        raise FrameFault("gap", frame[0])
    total = frame[0] + 1
    sizes = [total - 2] if total <= FIRST_B + 2 else [FIRST_B, total - FIRST_B - 4]
    return _joined(frame, sizes)


def frame_a(telegram: bytes) -> bytes:
    """`FrameA`: the one frame of format A of a telegram."""
    parts, place = [], 0
    for size in blocks_a(len(telegram)):
        content = telegram[place:place + size]
        parts += [content, crc(content)]
        place += size
    return b"".join(parts)
