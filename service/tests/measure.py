"""What the service takes, by hand: measure.py NAME [SHARE]

NAME is latency (from a line to its commit at an interval of 0.1 s), meters (10,000 meters at 100 lines a second) or backlog (131,072 lines
that wait at the start). SHARE, as 0.01, measures so much of it. The service is a process of its own over a folder on the disk; its program
is the one that `wmbus-service check` names. A line's latency runs from its write until another connection to the database sees it
committed. With latency each meter has commands, whose downlinks are written into a file."""
from __future__ import annotations

import os
import random
import signal
import sqlite3
import subprocess
import sys
import tempfile
import threading
import time
from collections.abc import Iterator, Sequence
from contextlib import closing, suppress
from pathlib import Path

TOP = Path(__file__).resolve().parents[2]
sys.path[:0] = [str(TOP / "service"), str(TOP), str(TOP / "tests"), str(TOP / "tests/checks")]

from tests.processes import put_down  # noqa: E402
from tests.meters import OWN, Meter, line_of, next_telegrams, some_meters  # noqa: E402
from wmbus_service.commands import put_command  # noqa: E402
from wmbus_service.config import Config, Programs, Receiver, unproved_words  # noqa: E402
from wmbus_service.meters import add_meter, set_own  # noqa: E402
from wmbus_service.store import open_store, prepare_folder, transaction  # noqa: E402

PYTHON = "/usr/bin/python3"
# how long it waits for a commit, and how often it looks
PATIENCE, LOOK = 120.0, 0.001
TICKS = os.sysconf("SC_CLK_TCK")


class Measured:
    """A service over so many meters, and what it has committed."""

    def __init__(self, place: Path, meters: int, interval: float) -> None:
        self.draw = random.Random(1)
        self.meters: list[Meter] = some_meters(self.draw, meters)
        place.mkdir(exist_ok=True)
        self.config = Config(folder=place / "wmbus", interval=interval, receivers={"attic": Receiver()})
        prepare_folder(self.config.folder)
        with closing(open_store(self.config.database, is_new=True)) as database, transaction(database):
            set_own(database, OWN, "measure")
            for meter in self.meters:
                add_meter(database, meter.line().split())
        (place / "config.toml").write_text(f'folder = "{self.config.folder}"\ninterval = {interval}\n[receivers.attic]\ncommand = "cat"\n'
                                           f'format = "hex"\ndownlinks = "{place}/sent"\n')
        self.place, self.written, self.seen = place, list[float](), list[float]()
        self.spool = self.config.spool / "attic.00000001.1.lines"
        self.spool.touch()

    def command(self) -> None:
        """Puts some commands to each meter."""
        with closing(open_store(self.config.database)) as database:
            for number, meter in enumerate(4 * self.meters):
                put_command(database, f"c{number}", meter.name, "0102", time.time())

    def downlinks(self) -> str:
        """How long downlinks took from the beginning of their session to the radio, in words."""
        with closing(sqlite3.connect(self.config.database)) as database:
            count, longest = database.execute("select count(*), max(sent - made) from outbox where sent is not null").fetchone()
        return f"{count} downlinks, with the radio at most {1000 * (longest or 0):.0f} ms behind the beginning of their session"

    def lines(self, count: int) -> Iterator[str]:
        """So many lines, of one meter after another."""
        waiting: list[bytes] = []
        for number in range(count):
            while not waiting:
                waiting = next_telegrams(self.draw, self.meters[number % len(self.meters)])
            yield line_of(waiting.pop(0), int(time.time()))

    def start(self) -> subprocess.Popen[bytes]:
        """Starts the service, and waits until it has begun."""
        log = self.place / "log"
        with open(log, "wb") as file:
            words = [PYTHON, "-m", "wmbus_service", "--config", str(self.place / "config.toml"), "run"]
            started = subprocess.Popen(words, cwd=TOP / "service", stderr=file)
        limit = time.monotonic() + PATIENCE
        while "begun" not in log.read_text():
            if started.poll() is not None or time.monotonic() > limit:
                put_down(started)
                sys.exit(f"measure: the service doesn't begin: {log.read_text()}")
            time.sleep(LOOK)
        return started

    def write(self, lines: Sequence[str], pause: float) -> None:
        """Writes lines into the spool, each so long after the one before it."""
        due = time.monotonic()
        with open(self.spool, "a", encoding="ascii") as file:
            for line in lines:
                time.sleep(max(0.0, due - time.monotonic()))
                due += pause
                file.write(line)
                file.flush()
                self.written.append(time.monotonic())

    def watch(self, count: int) -> None:
        """Looks until so many lines are committed."""
        with closing(sqlite3.connect(self.config.database, isolation_level=None)) as database:
            limit = time.monotonic() + PATIENCE
            while len(self.seen) < count:
                # (the service's own ticks have lines too, and aren't counted)
                row = database.execute("select value from total where name = 'lines'").fetchone()
                now, fresh = time.monotonic(), (row[0] if row else 0) - len(self.seen)
                if fresh > 0:
                    self.seen += [now] * fresh
                    limit = now + PATIENCE
                elif now > limit:
                    sys.exit(f"measure: {len(self.seen)} of {count} lines were committed: {(self.place / 'log').read_text()[-500:]}")
                time.sleep(LOOK)

    def latencies(self) -> str:
        """From the write of a line to its commit, in words."""
        found = sorted(seen - written for written, seen in zip(self.written, self.seen, strict=True))
        at = (found[len(found) // 2], found[len(found) * 95 // 100], found[-1])
        return "latency median {:.0f} ms, 95 % {:.0f} ms, greatest {:.0f} ms".format(*(1000 * it for it in at))


def used_by(started: subprocess.Popen[bytes]) -> str:
    """The time on the processor of the service with what it started, and its greatest memory."""
    fields = Path(f"/proc/{started.pid}/stat").read_text().rsplit(")", 1)[1].split()
    own, others = (sum(map(int, fields[at:at + 2])) / TICKS for at in (11, 13))
    memory = next(line.split()[1] for line in Path(f"/proc/{started.pid}/status").read_text().splitlines() if line.startswith("VmHWM"))
    return f"processor: service {own:.1f} s, programs {others:.1f} s; memory {int(memory) // 1024} MiB"


def measured(name: str, share: float, place: Path) -> str:
    """A measure, in words."""
    meters, count, pause, interval = {"latency": (12, 300, 0.5, 0.1), "meters": (10_000, 6_000, 0.01, 2.0),
                                      "backlog": (300, 131_072, 0.0, 2.0)}[name]
    count = max(1, int(count * share))
    over = Measured(place, max(1, int(meters * share)) if name == "meters" else meters, interval)
    lines = list(over.lines(count))
    if name == "backlog":
        over.spool.write_text("".join(lines))
    if name == "latency":
        over.command()
    started = over.start()
    try:
        begun = time.monotonic()
        writer = threading.Thread(target=over.write, args=([] if name == "backlog" else lines, pause), daemon=True)
        writer.start()
        over.watch(count)
        writer.join(PATIENCE)
        seconds = over.seen[-1] - begun
        told = f"{count} lines of {len(over.meters)} meters in {seconds:.1f} s ({count / seconds:.0f} a second); {used_by(started)}"
        if name == "latency":
            told += f"; {over.downlinks()}"
        return told if name == "backlog" else f"{told}; {over.latencies()}"
    finally:
        started.send_signal(signal.SIGTERM)
        with suppress(subprocess.TimeoutExpired):
            started.wait(PATIENCE)
        put_down(started)


def main() -> int:
    """One measure."""
    words = sys.argv[1:]
    if not words or len(words) > 2 or words[0] not in ("latency", "meters", "backlog"):
        print(__doc__)
        return 2
    print(unproved_words(Programs().steps) or f"{Programs().steps} tells the sessions")
    with tempfile.TemporaryDirectory() as place:
        print(f"{words[0]}: {measured(words[0], float(words[1]) if len(words) > 1 else 1.0, Path(place))}")
    print(f"load {os.getloadavg()[0]:.1f} on {os.cpu_count()} processors")
    return 0


if __name__ == "__main__":
    sys.exit(main())
