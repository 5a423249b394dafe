"""Hostile sessions, made of the examples by mutation at each layer: payloads, headers, authentication, fragments, frames, lines, order.

What stands above a mutation is made right again, encryption, MAC, length and CRCs alike, so that the layer below it is reached."""
import copy
import glob
import os
import re
import random
from collections.abc import Iterator

import ways
from telegrams.frames import format_a, format_b
from telegrams.messages import METER_CIPHER, METER_MAC, cbc, cmac, derived, telegram
from reading import KI, MAC, MCL, MCR, ML, MORE, SIZES, lines_of, telegram_of

EXAMPLES = os.path.join(ways.TOP, "examples")
UPLINKS = (0x44, 0x44, 0x44, 0x46, 0x47, 0x48, 0x08, 0x18, 0x28, 0x38)
OWN = "9315010000000131"
STORED = re.compile(r"^step \S+ \S+ stored \S+ \S+ ([0-9a-f]+)", re.M)


def content(pattern: str) -> Iterator[bytes]:
    for path in sorted(glob.glob(os.path.join(EXAMPLES, pattern))):
        with open(path, "rb") as file:
            yield file.read()


def examples() -> tuple[dict[str, tuple[int, bytes]], list[bytes], list[bytes]]:
    """The examples' meters by their addresses as (mode, key), their lines, and what their stored messages say."""
    meters: dict[str, tuple[int, bytes]] = {}
    for roster in content("*.roster"):
        for fields in (line.split() for line in lines_of(roster)):
            if fields[:1] == [b"meter"]:
                meters[fields[1].decode()] = int(fields[2]), bytes.fromhex(fields[3].decode())
    lines = sorted({line for rx in content("*.rx") for line in lines_of(rx)})
    payloads = sorted({bytes.fromhex(it) for report in content("*.report") for it in STORED.findall(report.decode())})
    return meters, lines, payloads


METERS, LINES, PAYLOADS = examples()


class Meter:
    """A meter of the roster, with what it has sent so far."""

    def __init__(self, draw: random.Random, address: str, mode: int, key: bytes) -> None:
        self.address, self.mode, self.key = bytes.fromhex(address), mode, key
        self.other = draw.randbytes(16) if mode == 7 and draw.random() < 0.5 else None
        self.counter = draw.choice([0, 0, 1, 250, 0xFFFFFFFF - 40]) if mode == 7 else draw.randrange(256)
        self.last = draw.choice(["-", "-", str(self.counter)])
        self.down, self.ids = (draw.choice([0, 0, 0, 7, 0xFFFFFFFE]) for _ in range(2))

    def roster_line(self) -> str:
        other = "-" if self.other is None else self.other.hex()
        return f"meter {self.address.hex()} {self.mode} {self.key.hex()} {other} {self.last} {self.down} {self.ids}\n"

    def count(self, draw: random.Random) -> int:
        """The counter or access number of the next message: mostly the next one, at times an old one, or one far ahead."""
        size = 32 if self.mode == 7 else 8
        chance = draw.random()
        if chance < 0.08:
            return max(0, self.counter - draw.randrange(3))
        if chance < 0.0505:
            return draw.choice([draw.getrandbits(size), 0, (1 << size) - 1])
        self.counter = (self.counter + (1 if chance < 0.98 else draw.randrange(1, 100))) % (1 << size)
        return self.counter


def bent(draw: random.Random, content: bytes, changes: int = 1) -> bytes:
    """Some bytes with one thing changed: a bit, a byte, a byte more or less, a cut, or a piece repeated."""
    made = bytearray(content)
    for _ in range(changes):
        at = draw.randrange(len(made) + 1)
        kind = draw.randrange(6)
        if kind == 0 and at < len(made):
            made[at] ^= 1 << draw.randrange(8)
        elif kind == 1 and at < len(made):
            made[at] = draw.choice([0, 1, 0x0F, 0x2F, 0x7F, 0x80, 0xFF, draw.randrange(256)])
        elif kind == 2:
            made.insert(at, draw.randrange(256))
        elif kind == 3:
            del made[at:at + 1]
        elif kind == 4:
            del made[at:]
        else:
            made[at:at] = made[at:at + draw.randrange(1, 20)]
    return bytes(made)


def records(draw: random.Random) -> bytes:
    """What a message says: an example's payload, changed or not, several of them, records by chance, or bytes by chance."""
    chance = draw.random()
    known = draw.choice(PAYLOADS)
    if chance < 0.4:
        return known
    if chance < 0.7:
        return b"\x2f\x2f" + bent(draw, known[2:], draw.randrange(1, 4))
    if chance < 0.8:
        return known + draw.choice(PAYLOADS)[2:]
    if chance < 0.95:
        heads = (bytes([draw.randrange(256), draw.choice([0x13, 0x14, 0x6C, 0x6D, 0x7C, 0xFB, 0xFD, 0xFF, draw.randrange(256)])])
                 for _ in range(draw.randrange(1, 20)))
        return b"\x2f\x2f" + b"".join(head + draw.randbytes(draw.randrange(9)) for head in heads)
    return draw.choice([b"\x2f\x2f", b"", b"\x2f\x2f" + draw.randbytes(draw.randrange(180)), b"\x2f\x2f"
                        + b"\x00\x13" * draw.randrange(90)])


class Message:
    """A message and the layers around it, each of which can be changed before those above it are made."""

    def __init__(self, draw: random.Random, meter: Meter) -> None:
        self.meter, self.number = meter, meter.count(draw)
        self.control = draw.choice(UPLINKS)
        self.extension = draw.choice([b"", b"", b"\x8c\x80", b"\x8c\x84", b"\x8c\x00"])
        self.extension += bytes([self.number & 0xFF]) if self.extension else b""
        self.address = meter.address
        self.long = draw.random() < 0.15
        self.indicator = draw.choice([0x72, 0x72, 0x8B] if self.long else [0x7A, 0x7A, 0x7A, 0x8A])
        self.mode, self.key_id = meter.mode, draw.choice([0, 0, 0, 1, 2])
        self.config = draw.choice([0, 0, 0x80, 0xC0, 0x40])
        self.derivation = 1
        payload = records(draw)[:180]
        # the rest isn't encrypted
        cut = len(payload) if draw.random() < 0.9 else draw.randrange(0, len(payload) + 1) // 16 * 16
        self.plain = payload[:cut] + b"\x2f" * (-cut % 16)
        self.rest = payload[cut:]
        self.blocks = len(self.plain) // 16
        self.fields = MCL | MCR | MAC
        self.mcl = 0x25
        # the length that the layer says, and the transport header, where they aren't the right ones
        self.length: int | None = None
        self.header: bytes | None = None

    def key(self) -> bytes:
        return self.meter.other if self.key_id == 1 and self.meter.other else self.meter.key

    def bend(self, draw: random.Random) -> None:
        """Changes one thing at one layer."""
        kind = draw.randrange(12)
        if kind == 0:
            self.control = draw.randrange(256)
        elif kind == 1:
            self.extension = draw.choice([b"\x8c", b"\x8c\x80", b"\x8d", b"\x8e" + draw.randbytes(draw.randrange(12)), b"\x8f\x00\x00",
                                          b"\x8c\x80\x00\x8c\x80\x00"])
        elif kind == 2:
            self.fields ^= 1 << draw.choice([8, 9, 10, 11, 12, 13, 14, 15])
        elif kind == 3:
            self.mcl = draw.choice([0x24, 0x20, 0x05, 0x65, 0xF5, draw.randrange(256)])
        elif kind == 4:
            self.length = draw.choice([0, 2, 14, 16, 255, draw.randrange(256)])
        elif kind == 5:
            self.mode = draw.choice([0, 5, 7, 8, 10, draw.randrange(32)])
        elif kind == 6:
            self.blocks = draw.choice([0, self.blocks + 1, 15, draw.randrange(16)])
        elif kind == 7:
            self.derivation = draw.choice([0, 2, 3])
        elif kind == 8:
            self.address = draw.choice([bytes.fromhex(draw.choice(list(METERS))), bytes.fromhex("9315999999990107"), draw.randbytes(8)])
            self.long, self.indicator = True, draw.choice([0x72, 0x8B])
        elif kind == 9:
            self.header = draw.choice([b"\x78", b"\x7a", b"\x72\x00\x00", b"\x8a\x01\x00\x00\x05", bytes([draw.randrange(256)]), b""])
        elif kind == 10:
            self.plain = b"\x2f\x2e" + self.plain[2:]
        else:
            self.rest += draw.randbytes(draw.randrange(1, 30))

    def text(self) -> bytes:
        """The transport header and what is after it, encrypted."""
        if self.header is not None:
            return self.header + self.rest
        config = self.blocks << 4 & 0xFF | (self.mode & 0x1F | self.config) << 8
        name = self.address[2:6] + self.address[:2] + self.address[6:] if self.long else b""
        made = bytes([self.indicator]) + name + bytes([self.number & 0xFF, 0]) + config.to_bytes(2, "little")
        if self.mode & 0x1F == 7:
            made += bytes([self.derivation << 4 | self.key_id])
        encrypted = self.blocks * 16
        if self.meter.mode == 5:
            return made + cbc(self.key(), self.plain[:encrypted], self.meter.address
                              + bytes([self.number & 0xFF]) * 8) + self.plain[encrypted:] + self.rest
        return made + cbc(derived(self.key(), METER_CIPHER, self.number & 0xFFFFFFFF, self.meter.address),
                          self.plain[:encrypted]) + self.plain[encrypted:] + self.rest

    def layer(self, text: bytes, number: int, more: bool, fields: int) -> bytes:
        """The authentication and fragmentation layer of a whole message (number 0) or of one of its fragments."""
        parts = {MCL: bytes([self.mcl]), KI: b"\0\0", MCR: self.number.to_bytes(4, "little"), ML: b"\0\0"}
        if fields & MAC:
            counted = parts[MCL] + parts[MCR] + (parts[ML] if self.fields & ML else b"")
            parts[MAC] = cmac(derived(self.key(), METER_MAC, self.number, self.meter.address), counted + text)[:8]
        content = b"".join(parts[bit] for bit, _ in SIZES if fields & bit)
        control = fields | number | (MORE if more else 0)
        size = len(content) + 2 if self.length is None else self.length
        return bytes([0x90, size]) + control.to_bytes(2, "little") + content

    def telegrams(self, draw: random.Random) -> list[bytes]:
        text = self.text()
        if self.meter.mode == 5:
            layer = draw.choice([b""] * 12 + [b"\x90\x02\x00\x00", b"\x90\x02\x01\x40", b"\x90\x02\x02\x00"])
            return [telegram(self.control, self.meter.address, (self.extension + layer + text)[:246])]
        if draw.random() < 0.75:
            return [telegram(self.control, self.meter.address, (self.extension + self.layer(text, 0, False, self.fields) + text)[:246])]
        return self.fragments(draw, text)

    def fragments(self, draw: random.Random, text: bytes) -> list[bytes]:
        """The message in fragments, at times with one missing, twice, changed, in another place, or under another number."""
        count = draw.choice([1, 2, 3, 4, 8, 16])
        size = -(-len(text) // count)
        made = []
        for place in range(count):
            last = place == count - 1
            fields = (self.fields & ~MAC if place == 0 else 0) | (self.fields & MAC if last else 0)
            number = place + 1 if draw.random() < 0.98 else draw.choice([0, 17, 255, draw.randrange(1, 17)])
            piece = text[place * size:(place + 1) * size]
            if draw.random() < 0.02:
                piece = bent(draw, piece)
            made.append(telegram(self.control, self.meter.address, (self.extension + self.layer(text, number, not last, fields)
                                                                    + piece)[:246]))
        for _ in range(draw.choice([0, 0, 0, 1, 2])):
            at = draw.randrange(len(made))
            made.insert(draw.randrange(len(made) + 1), made[at] if draw.random() < 0.5 or len(made) == 1 else made.pop(at))
        return made


def framed(draw: random.Random, moment: int, sent: bytes) -> bytes:
    """A line with a telegram, mostly of format A; its length and CRCs are right."""
    sent = bytes([len(sent) - 1]) + sent[1:]
    form, frame = "A", format_a(sent)
    if draw.random() < 0.3 and len(sent) >= 11 and len(sent) <= 252:
        form, frame = "B", format_b(sent)
    return f"{form} {moment} {frame.hex()}".encode()


def meter_lines(draw: random.Random, meter: Meter, moment: int) -> list[bytes]:
    """The lines of one message of a meter, changed at a layer or not, and at times the telegram changed after its MAC."""
    made = Message(draw, meter)
    while draw.random() < 0.3:
        made.bend(draw)
    sent = made.telegrams(draw)
    if draw.random() < 0.08:
        at = draw.randrange(len(sent))
        changed = sent[at][:10] + bent(draw, sent[at][10:])[:246]
        sent[at] = changed if draw.random() < 0.8 else sent[at][:draw.randrange(10, len(sent[at]) + 1)]
    return [framed(draw, moment, it) for it in sent if len(it) > 10]


def operator_line(draw: random.Random, meters: list[Meter]) -> bytes:
    name = draw.choice(meters).address.hex() if draw.random() < 0.95 else draw.randbytes(8).hex()
    kind = draw.randrange(9)
    if kind < 5:
        return f"T {name}".encode()
    if kind < 7:
        return f"Q {name} {draw.randbytes(draw.choice([0, 1, 2, 14, 15, 94, 95])).hex()}".encode()
    if kind < 8:
        return f"X {name} {draw.choice([0, 1, 2, 3, 8, 9, 0xFFFFFFFF, 1 << 32])}".encode()
    same = [meter.other for meter in meters if meter.address.hex() == name and meter.other]
    return f"K {name} {(same[0] if same else draw.randbytes(16)).hex()}".encode()


def stranger_line(draw: random.Random, moment: int) -> bytes:
    name = bytes.fromhex("9315") + draw.getrandbits(9).to_bytes(4, "little") + b"\x01\x07"
    return framed(draw, moment, telegram(0x44, name, draw.choice([b"\x7a\x01\x00\x00\x00", b"\x78",
                                                                  draw.randbytes(draw.randrange(1, 40))])))


def damaged(draw: random.Random, line: bytes) -> bytes:
    """A frame line whose frame is changed and not made right again."""
    fields = line.split(b" ")
    if len(fields) != 3 or fields[0] not in (b"A", b"B") or len(fields[2]) % 2:
        return line
    try:
        frame = bytes.fromhex(fields[2].decode())
    except ValueError:
        return line
    if draw.random() < 0.1:
        return b" ".join([b"B" if fields[0] == b"A" else b"A", *fields[1:]])
    return b" ".join([*fields[:2], bent(draw, frame).hex().encode()])


def misspelt(draw: random.Random, line: bytes) -> bytes:
    """A line of which the text is changed."""
    kind = draw.randrange(10)
    if kind == 0:
        return line.swapcase()
    if kind == 1:
        return line + draw.choice([b" ", b"\r", b"\r\r", b"\0", b" 00", b"0", b"\xff\xfe", b"\n", b"\r\n"])
    if kind == 2:
        return line.replace(b" ", draw.choice([b"  ", b"\t", b""]), 1)
    if kind == 3:
        number = draw.choice([b"00", b"+1", b"-1", b"18446744073709551615", b"18446744073709551616", b"4294967296", b"", b"1e3"])
        return b" ".join([*line.split(b" ")[:1], number, *line.split(b" ")[2:]])
    if kind == 4:
        return (line + b"0" * 2000)[:draw.choice([1023, 1024, 1025, 1026, 5000])]
    if kind == 5:
        return draw.choice([b"", b" ", b"\r", b"A", b"A 1", b"A 1 ", b"B 0 ", b"\0", b"#", draw.randbytes(draw.randrange(40))])
    return bent(draw, line, draw.randrange(1, 3))


def hostile_lines(draw: random.Random, meters: list[Meter], count: int) -> list[bytes]:
    """So many lines at least, for these meters and others."""
    made: list[bytes] = []
    while len(made) < count:
        chance = draw.random()
        old = draw.choice(made) if made else draw.choice(LINES)
        if chance < 0.55:
            made += meter_lines(draw, draw.choice(meters), len(made))
        elif chance < 0.70:
            made.append(operator_line(draw, meters))
        elif chance < 0.78:
            made.append(old)
        elif chance < 0.85:
            made.append(stranger_line(draw, len(made)))
        elif chance < 0.92:
            made.append(damaged(draw, old))
        elif chance < 0.98:
            made.append(misspelt(draw, old))
        else:
            known = draw.choice(LINES).split(b" ")
            telegram_known = telegram_of(known[0], bytes.fromhex(known[2].decode())) if known[0] in (b"A", b"B") else None
            made.append(b" ".join(known) if telegram_known is None else framed(draw, len(made), telegram_known[:10]
                                                                               + bent(draw, telegram_known[10:])[:240]))
    return made


def some_meters(draw: random.Random) -> list[Meter]:
    """The examples' meters, or some of them, with keys and counters of their own."""
    names = draw.sample(sorted(METERS), draw.randrange(1, len(METERS) + 1))
    return [Meter(draw, name, *METERS[name]) for name in names]


def recommissioned(draw: random.Random, meters: list[Meter]) -> list[Meter]:
    """Some of these meters, some of them with other counters and second keys; what they sent stays."""
    made = []
    for meter in draw.sample(meters, draw.randrange(1, len(meters) + 1)):
        meter = copy.copy(meter)
        meter.last = draw.choice(["-", meter.last, str(draw.randrange(256))])
        meter.down, meter.ids = (draw.choice([0, 5, 0xFFFFFFF0, 0xFFFFFFFF]) for _ in range(2))
        meter.other = draw.choice([meter.other, None])
        made.append(meter)
    return made


def roster_of(meters: list[Meter]) -> str:
    return f"wmbus-roster 2\nown {OWN}\n" + "".join(meter.roster_line() for meter in meters)


def file_of(draw: random.Random, lines: list[bytes]) -> bytes:
    """A receiver's file: most lines end with a newline, some with a carriage return before it; the last may have neither."""
    ends = [b"\r\n" if draw.random() < 0.02 else b"\n" for _ in lines]
    if lines and draw.random() < 0.2:
        ends[-1] = draw.choice([b"", b"\r"])
    return b"".join(line + end for line, end in zip(lines, ends))
