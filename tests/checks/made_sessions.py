"""Made sessions in which several receivers hear the same meters at once: whole messages, fragments, commands, cancellations, new keys,
ticks, strangers, broken frames and bad lines in all of them; some receivers end early."""
import random

from telegrams.frames import format_a
from telegrams.messages import fragments, telegram, whole

RECEIVERS = (2, 4, 8, 16)


class Meter:
    def __init__(self, draw: random.Random, number: int) -> None:
        self.address = bytes.fromhex("9315") + bytes.fromhex(f"{number + 1:08d}")[::-1] + b"\x01\x07"
        self.key = draw.randbytes(16)
        self.other = draw.choice([None, draw.randbytes(16)])

    def roster_line(self) -> str:
        other = "-" if self.other is None else self.other.hex()
        return f"meter {self.address.hex()} 7 {self.key.hex()} {other} - 0 0\n"


def payload(draw: random.Random, counter: int) -> bytes:
    records = bytes.fromhex("0c13") + bytes.fromhex(f"{counter % 10 ** 8:08d}")[::-1]
    return b"\x2f\x2f" + records + bytes.fromhex("0c2b75230000") * draw.randrange(4)


def heard(frame: bytes, moment: int) -> str:
    return f"A {moment} {frame.hex()}\n"


def messages(draw: random.Random, meter: Meter, counter: int) -> list[bytes]:
    """The frames of one message of a meter: whole, or in fragments, under its first key or its second, broken at times."""
    key_id = draw.randrange(2)
    key = meter.other if key_id and meter.other else meter.key
    if draw.random() < 0.25:
        made = fragments(key, meter.address, counter, payload(draw, counter) + bytes.fromhex("0c2b75230000") * 8, draw.randrange(2, 5),
                         key_id)
    else:
        control, access = draw.choice([(0x44, None), (0x44, 0x80), (0x44, 0x84), (0x46, 0x80), (0x08, None), (0x18, 0x80)])
        made = [whole(key, meter.address, counter, payload(draw, counter), control, access, key_id)]
    if draw.random() < 0.05:
        broken = bytearray(made[-1])
        broken[-1 - draw.randrange(8)] ^= 1 << draw.randrange(8)
        made[-1] = bytes(broken)
    return [format_a(it) for it in made]


def operator_line(draw: random.Random, meter: Meter) -> str:
    name = meter.address.hex()
    return draw.choice([f"Q {name} {draw.randbytes(draw.randrange(1, 30)).hex()}\n", f"X {name} {draw.randrange(1, 20)}\n", f"T {name}\n",
                        f"T {name}\n",
                        f"K {name} {(meter.other or meter.key).hex()}\n"])


def other_line(draw: random.Random, moment: int) -> str:
    kind = draw.randrange(4)
    if kind == 0:
        return heard(format_a(telegram(0x44, bytes.fromhex("931599999999") + bytes([draw.randrange(99), 7]), b"\x7a\x00\x00\x00\x00")),
                     moment)
    if kind == 1:
        return heard(draw.randbytes(draw.randrange(0, 60)), moment)
    return draw.choice(["nothing\n", "A 1\n", "\n", f"T {draw.randbytes(8).hex()}\n", "Q 1 2 3\n"])


def session(draw: random.Random, receivers: int, lines: int) -> tuple[str, list[list[str]]]:
    """The roster, and the lines of each receiver."""
    meters = [Meter(draw, number) for number in range(draw.randrange(1, 6))]
    counters = [0] * len(meters)
    on_air: list[str] = []
    while len(on_air) < lines:
        place = draw.randrange(len(meters))
        counters[place] += 1
        on_air += [heard(frame, len(on_air)) for frame in messages(draw, meters[place], counters[place])]
        if draw.random() < 0.3:
            on_air.append(operator_line(draw, draw.choice(meters)))
        if draw.random() < 0.1:
            on_air.append(other_line(draw, len(on_air)))
    streams = []
    for _ in range(receivers):
        stream = [line for line in on_air if draw.random() < 0.9]
        for _ in range(len(stream) // 10):
            a = draw.randrange(len(stream) - 1)
            stream[a], stream[a + 1] = stream[a + 1], stream[a]
        streams.append(stream[:draw.randrange(len(stream))] if draw.random() < 0.1 else stream)
    roster = "wmbus-roster 2\nown 9315010000000131\n" + "".join(meter.roster_line() for meter in meters)
    return roster, streams


def made(seed: str, number: int) -> tuple[str, list[list[str]], random.Random]:
    """The session of a number: its roster, the lines of each of its receivers (2, 4, 8 or 16 in turn), and what to draw from further on."""
    draw = random.Random(f"{seed} {number}")
    receivers = RECEIVERS[number % len(RECEIVERS)]
    return (*session(draw, receivers, draw.choice([40, 200, 600])), draw)
