"""How fast the intake is, by hand: measure.py [LINES]

Fills the queue of an area with messages of ten gateways, has one intake take them, and prints lines a second and the processor's time of a
line, of the intake with its programs. The servers are its own, on loopback, and everything shares this machine."""
from __future__ import annotations

import os
import random
import resource
import sys
import time
from pathlib import Path

TOP = Path(__file__).resolve().parents[3]
sys.path[:0] = [str(TOP / "service/fleet"), str(TOP / "service"), str(TOP), str(TOP / "tests"), str(TOP / "tests/checks")]

from fleet_tests.servers import Both  # noqa: E402
from tests.kill import program  # noqa: E402
from tests.meters import OWN, line_of, next_telegrams, some_meters  # noqa: E402
from wmbus_fleet import broker, commands, intake, store  # noqa: E402
from wmbus_fleet.config import Config, Programs  # noqa: E402
from wmbus_fleet.messages import MOST, lines_body  # noqa: E402

GATEWAYS = 10


def main() -> int:
    """One measurement."""
    count = int((sys.argv[1:] or ["20000"])[0])
    both = Both()
    try:
        config = Config(database=both.postgres.make("measured"), broker=both.rabbit.told,
                        programs=Programs("", program("line_accept"), program("address_list"), ""))
        _fill(config, count)
        _take(config, count)
    finally:
        both.end()
    return 0


def _fill(config: Config, count: int) -> None:
    """Puts messages of 100 lines into an area's queue."""
    draw = random.Random(1)
    lines = [line_of(telegram, 1).encode() for meter in some_meters(draw, 200) for telegram in next_telegrams(draw, meter)]
    store.init(config.database)
    with store.connect(config.database) as database, broker.connected(config.broker) as connection:
        commands.add_area(config, database, "north")
        store.set_setting(database, "own", OWN)
        for number in range(GATEWAYS):
            commands.add_gateway(config, database, "north", f"g{number}")
        channel = broker.opened(connection)
        begun = time.monotonic()
        for number in range(count // MOST):
            body = lines_body(1, number // GATEWAYS + 1, 0, b"".join(draw.choices(lines, k=MOST)))
            broker.publish(channel, broker.EXCHANGE, broker.up_key("north", f"g{number % GATEWAYS}"), body)
        print(f"published {count // MOST / (time.monotonic() - begun):.0f} messages a second, each acknowledged, by one connection")


def _take(config: Config, count: int) -> None:
    """Has one intake take all."""
    with store.connect(config.database) as database, broker.connected(config.broker) as connection:
        consuming = intake.Consuming(intake.Intake(config, database, "measured"), connection, ["north"])
        begun, used = time.monotonic(), _used()
        while store.one(database, "select coalesce(sum(number), 0) from gateway") < count // MOST:
            consuming.turn()
        took = time.monotonic() - begun
        print(f"taken {count / took:.0f} lines a second, {(_used() - used) / count * 1e6:.0f} us of a processor a line;"
              f" load {os.getloadavg()[0]:.1f} on {os.cpu_count()} processors")


def _used() -> float:
    """The processor's time so far of this process and of the programs that it started."""
    told = [resource.getrusage(who) for who in (resource.RUSAGE_SELF, resource.RUSAGE_CHILDREN)]
    return sum(it.ru_utime + it.ru_stime for it in told)


if __name__ == "__main__":
    sys.exit(main())
