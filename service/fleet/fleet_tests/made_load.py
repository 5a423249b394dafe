"""A made load: so many meters, of which each message is heard by two of many gateways, and what publishes it at its time."""
from __future__ import annotations

import hashlib
import multiprocessing
import os
import pickle
import random
import time
from collections import defaultdict
from collections.abc import Iterator
from ctypes import c_bool, c_double, c_longlong
from dataclasses import dataclass
from multiprocessing.sharedctypes import RawValue
from pathlib import Path
from typing import IO, Any

from telegrams import messages
import pika
from telegrams.frames import format_a
from tests.meters import payload_of
from wmbus_fleet import broker
from wmbus_fleet.config import Broker
from wmbus_fleet.messages import lines_body

# seconds of which a gateway puts the lines into one message; every so many meters' messages open an access window
GATHERED, LISTENING = 2.0, 10
EPOCH, COPIES, LONGEST = 1, 2, 100
# so many seconds are made before the first is published; so many messages of gateways are written to the file at once
AHEAD, FLUSHED = 60.0, 500


@dataclass(frozen=True)
class Load:
    """How much comes: so many lines a second, and between some seconds and others so many times as many."""

    meters: int
    gateways: int
    rate: int
    seconds: int
    peak: float = 5.0
    peaks: tuple[tuple[int, int], ...] = ()

    def messages_until(self, second: float) -> int:
        """How many messages of meters there are until a moment."""
        peak = sum(max(0.0, min(second, until) - begin) for begin, until in self.peaks)
        return int((second + peak * (self.peak - 1)) * self.rate / COPIES)

    @property
    def lines(self) -> int:
        """How many lines there are in all."""
        return COPIES * self.messages_until(int(self.seconds / GATHERED) * GATHERED)


def address_of(number: int) -> bytes:
    """A meter's address."""
    return bytes.fromhex("9315") + bytes.fromhex(f"{number:08d}")[::-1] + b"\x01\x07"


def key_of(number: int) -> bytes:
    """Its key."""
    return hashlib.sha256(f"meter {number}".encode()).digest()[:16]


def mode_of(number: int) -> int:
    """Every third meter is of mode 5."""
    return 5 if number % 3 == 0 else 7


def meter_rows(count: int) -> Iterator[tuple[str, str]]:
    """Each meter as commissioning makes it known."""
    for number in range(count):
        address = address_of(number).hex()
        yield address, f"meter {address} {mode_of(number)} {key_of(number).hex()} - - 0 0\n"


def frame_of(number: int, counter: int) -> str:
    """What a meter sends for a counter, as a receiver prints it."""
    address, listens = address_of(number), counter % LISTENING == 0
    if mode_of(number) == 5:
        made = messages.whole_5(key_of(number), address, counter % 256, payload_of(counter), 0x44, listens)
    else:
        made = messages.whole(key_of(number), address, counter, payload_of(counter), 0x44, 0x84 if listens else 0x80)
    return str(format_a(made).hex())


# what a gateway publishes: when, by whom, what, how many lines
Published = tuple[float, str, bytes, int]


def bodies(load: Load, part: int, parts: int, moment: int) -> Iterator[Published]:
    """What the gateways of one part publish, in the order of time.

    The meters send one after the other, from the first on again; message i is heard by the gateways i % n and i % n + 1 of its part."""
    own = range(part, load.gateways, parts)
    numbers: dict[int, int] = defaultdict(int)
    for step in range(int(load.seconds / GATHERED)):
        first, last = load.messages_until(step * GATHERED), load.messages_until((step + 1) * GATHERED)
        heard: dict[int, list[str]] = {gateway: [] for gateway in own}
        for message in range(first, last):
            if message % parts == part:
                line = f"A {moment + int((step + 1) * GATHERED)} {frame_of(message % load.meters, message // load.meters + 1)}\n"
                place = message // parts
                for copy in range(COPIES):
                    heard[own[(place + copy) % len(own)]].append(line)
        for place, (gateway, lines) in enumerate(heard.items()):
            due = (step + 1 + place / len(own)) * GATHERED
            for start in range(0, max(1, len(lines)), LONGEST):
                numbers[gateway] += 1
                piece = lines[start:start + LONGEST]
                body = lines_body(EPOCH, numbers[gateway], moment + int((step + 1) * GATHERED), "".join(piece).encode("ascii"))
                yield due, f"g{gateway}", body, len(piece)


class Publisher:
    """A process that makes a part of the load, in a file, and one that publishes it over one connection, acknowledged as it comes."""

    def __init__(self, told: Broker, load: Load, area: str, part: int, parts: int, moment: int, path: Path) -> None:
        self.begin, self.published = RawValue(c_double, 0.0), RawValue(c_longlong, 0)
        # how many messages are made, until which second, and whether these are all
        self.made, self.until, self.is_made = RawValue(c_longlong, 0), RawValue(c_double, 0.0), RawValue(c_bool, False)
        path.touch()
        self.processes = [multiprocessing.Process(target=self._make, args=(load, part, parts, moment, path), daemon=True),
                          multiprocessing.Process(target=self._work, args=(told, area, path), daemon=True)]
        for process in self.processes:
            process.start()

    def is_ready(self) -> bool:
        """Whether enough is made; it is made faster than it is published."""
        assert self.is_made.value or self.processes[0].is_alive(), "the load wasn't made"
        return bool(self.is_made.value) or self.until.value >= AHEAD

    def end(self) -> None:
        """Ends both."""
        for process in self.processes:
            process.kill()
            process.join()

    def _make(self, load: Load, part: int, parts: int, moment: int, path: Path) -> None:
        os.nice(10)
        with open(path, "wb") as file:
            for count, it in enumerate(bodies(load, part, parts, moment), 1):
                pickle.dump(it, file)
                if count % FLUSHED == 0:
                    file.flush()
                    self.made.value, self.until.value = count, it[0]
            file.flush()
            self.made.value = count
            self.is_made.value = True

    def _work(self, told: Broker, area: str, path: Path) -> None:
        while not self.begin.value:
            time.sleep(0.01)
        with open(path, "rb") as file, broker.connected(told) as connection:
            channel = connection.channel()
            # (each publishing waiting for its acknowledgement would hold this process up; what is lost shows at the end)
            channel._impl.confirm_delivery(lambda _frame: None)
            self._publish(connection, channel, area, self._read_back(file))

    def _read_back(self, file: IO[bytes]) -> Iterator[Published]:
        """What was made, one behind the other."""
        read = 0
        while not (self.is_made.value and read == self.made.value):
            if read == self.made.value:
                time.sleep(0.01)
            else:
                yield pickle.load(file)
                read += 1

    def _publish(self, connection: Any, channel: Any, area: str, made: Iterator[Published]) -> None:
        properties = pika.BasicProperties(delivery_mode=broker.PERSISTENT)
        for place, (due, gateway, body, count) in enumerate(made):
            while (wait := self.begin.value + due - time.time()) > 0:
                connection.process_data_events(wait)
            if place % 200 == 0:
                connection.process_data_events(0)
            channel.basic_publish(broker.EXCHANGE, broker.up_key(area, gateway), body, properties, mandatory=True)
            self.published.value += count
        connection.process_data_events(1.0)


def shuffled_messages(load: Load, count: int, start: int) -> Iterator[tuple[str, str]]:
    """So many lines of as many messages, each with its meter's address, from one on; in an order of their own."""
    order = list(range(start, start + count))
    random.Random(start).shuffle(order)
    for message in order:
        number = message % load.meters
        yield address_of(number).hex(), f"A {message} {frame_of(number, message // load.meters + 1)}"
