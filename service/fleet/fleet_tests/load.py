"""How much the fleet carries, by hand: the load of many meters, published as gateways publish it, and what it costs.

load.py run      lines come at a rate, with peaks; prints lag, processors and memory by part, sizes of tables, bytes a reading
load.py drain    the inbox is filled, and one and two session workers after each other empty it; lines a second of each

Everything runs on this machine, with servers of its own in a folder that is taken away at the end, and shares it with what else runs."""
from __future__ import annotations

import argparse
import os
import shutil
import signal
import subprocess
import sys
import tempfile
import time
from collections import Counter
from collections.abc import Callable, Sequence
from dataclasses import dataclass
from pathlib import Path

TOP = Path(__file__).resolve().parents[3]
sys.path[:0] = [str(TOP / "service/fleet"), str(TOP / "service"), str(TOP), str(TOP / "tests"), str(TOP / "tests/checks")]

from fleet_tests.made_load import COPIES, EPOCH, Load, Publisher, meter_rows, shuffled_messages  # noqa: E402
from fleet_tests.servers import Postgres, Rabbit  # noqa: E402
from tests.kill import PYTHON, program, steps_words  # noqa: E402
from tests.meters import OWN  # noqa: E402
from wmbus_fleet import broker, commands, store  # noqa: E402
from wmbus_fleet.config import Config, Programs  # noqa: E402

AREA, PUBLISHERS, DRAIN_LIMIT = "north", 2, 600
# a peak is over where for so long (the second) no line waits for so many seconds (the first)
LOOK, SETTLED, CALM = 0.25, 3.0, 30.0
TABLES = ("meter", "line", "reading", "refusal", "inbox", "gateway", "total")
TUNED = """shared_buffers = 1GB
max_wal_size = 4GB
checkpoint_timeout = 5min
log_error_verbosity = terse
"""


def ticks_of(pid: int) -> tuple[float, float]:
    """Seconds of a processor that a process took, and those of the processes that it started and that have ended."""
    try:
        told = Path(f"/proc/{pid}/stat").read_text().rpartition(")")[2].split()
    except OSError:
        return 0.0, 0.0
    own, ended = int(told[11]) + int(told[12]), int(told[13]) + int(told[14])
    return own / os.sysconf("SC_CLK_TCK"), ended / os.sysconf("SC_CLK_TCK")


def processes_of(leader: int) -> list[int]:
    """A server with all that it started, of which PostgreSQL's have sessions of their own."""
    found = []
    for path in Path("/proc").glob("[0-9]*"):
        try:
            parent = int((path / "stat").read_text().rpartition(")")[2].split()[1])
            if leader in (parent, os.getsid(int(path.name))):
                found.append(int(path.name))
        except OSError:
            continue
    return found


def memory_of(pid: int) -> int:
    """Bytes of memory of a process, of what several have its share."""
    try:
        told = Path(f"/proc/{pid}/smaps_rollup").read_text()
    except OSError:
        return 0
    return sum(int(line.split()[1]) << 10 for line in told.splitlines() if line.startswith("Pss:"))


class Fleet:
    """Servers, a fleet of so many meters, and its processes."""

    def __init__(self, folder: Path, load: Load, wants_broker: bool) -> None:
        self.folder, self.load = folder, load
        folder.chmod(0o711)
        self.workers: list[tuple[str, subprocess.Popen[bytes]]] = []
        self.ended: Counter[str] = Counter()
        self.postgres = Postgres(folder)
        with open(self.postgres.folder / "postgresql.conf", "a", encoding="ascii") as conf:
            conf.write(TUNED)
        self.rabbit = Rabbit(folder) if wants_broker else None
        try:
            self._begin()
        except BaseException:
            self.end()
            raise

    def _begin(self) -> None:
        self.postgres.start()
        if self.rabbit:
            self.rabbit.begin()
            self.rabbit.wait()
        told = Programs(steps_words(), program("line_accept"), program("address_list"), program("state_raise"))
        self.config = Config(database=self.postgres.make("load"), programs=told)
        store.init(self.config.database)
        begun = time.monotonic()
        with store.connect(self.config.database) as database:
            store.set_setting(database, "own", OWN)
            store.copy_rows(database, "meter (address, block)", meter_rows(self.load.meters))  # type: ignore[arg-type]
            database.execute("insert into area values (%s)", (AREA,))
            if self.rabbit:
                self.config = Config(database=self.config.database, programs=told, broker=self.rabbit.told)
                with broker.connected(self.config.broker) as connection:
                    broker.declare_area(broker.opened(connection), AREA)
                names = [f"g{number}" for number in range(self.load.gateways)]
                database.execute("insert into gateway (name, area) select name, %s from unnest(%s::text[]) as n (name)", (AREA, names))
            database.execute("vacuum analyze meter")
        print(f"{self.load.meters} meters in {time.monotonic() - begun:.0f} s", flush=True)
        path = self.folder / "fleet.toml"
        path.write_text(f'database = "{self.config.database}"\n[broker]\nport = {self.config.broker.port}\n[programs]\n'
                        f'steps = "{told.steps}"\nline_accept = "{told.line_accept}"\naddress_list = "{told.address_list}"\n')

    def start(self, part: str) -> None:
        """Starts a process of a part."""
        log = open(self.folder / f"{part}.{len(self.workers)}.log", "ab")
        with log:
            words = [PYTHON, str(Path(__file__).parents[1] / "wmbus-fleet"), "--config", str(self.folder / "fleet.toml"), part]
            self.workers.append((part, subprocess.Popen(words, stdin=subprocess.DEVNULL, stdout=log, stderr=log)))

    def stop(self, part: str, number: signal.Signals) -> None:
        """Ends the oldest process of a part."""
        place = next(place for place, (name, _) in enumerate(self.workers) if name == part)
        _, process = self.workers.pop(place)
        own, programs = ticks_of(process.pid)
        self.ended.update({f"{part}: Python": int(own * 1e6), f"{part}: programs": int(programs * 1e6)})
        process.send_signal(number)
        try:
            process.wait(30)
        except subprocess.TimeoutExpired:
            process.kill()
            process.wait()

    def used(self) -> Counter[str]:
        """Microseconds of a processor by part."""
        found = Counter(self.ended)
        for part, process in self.workers:
            own, programs = ticks_of(process.pid)
            found.update({f"{part}: Python": int(own * 1e6), f"{part}: programs": int(programs * 1e6)})
        for name, leader in self._servers():
            found[name] += int(sum(sum(ticks_of(it)) for it in processes_of(leader)) * 1e6)
        return found

    def memory(self) -> Counter[str]:
        """Bytes of memory by part."""
        found: Counter[str] = Counter()
        for part, process in self.workers:
            found[part] += memory_of(process.pid)
        for name, leader in self._servers():
            found[name] += sum(memory_of(it) for it in processes_of(leader))
        return found

    def _servers(self) -> list[tuple[str, int]]:
        """The servers that run, with their first processes."""
        return [(name, server.process.pid) for name, server in (("PostgreSQL", self.postgres), ("RabbitMQ", self.rabbit))
                if server and server.process]

    def end(self) -> None:
        """Ends all."""
        for part in {part for part, _ in self.workers}:
            while any(part == it for it, _ in self.workers):
                self.stop(part, signal.SIGTERM)
        if self.rabbit:
            self.rabbit.end()
        self.postgres.kill(signal.SIGINT)


def sizes(database: store.Database, counts: bool = True) -> str:
    """How large the tables are, and how many rows they have."""
    told = []
    for table in TABLES:
        names = "(select inhrelid::regclass from pg_inherits where inhparent = %s::regclass union select %s::regclass)"
        size = store.one(database, f"select sum(pg_total_relation_size(oid)) from {names} as n (oid)", (table, table))
        count = store.one(database, f"select count(*) from {table}") if counts else 0
        told.append(f"{table} {int(size) / 1e6:.0f} MB" + (f", {count} rows, {int(size) / count:.0f} bytes each" if count else ""))
    return "; ".join(told)


class Watch:
    """What was published, taken in and heard over time; how far behind the published lines each is."""

    def __init__(self) -> None:
        self.published: list[tuple[float, int]] = [(0.0, 0)]
        self.lags: dict[str, list[tuple[float, float]]] = {"lines": [], "heard": []}

    def see(self, moment: float, published: int, totals: dict[str, int]) -> None:
        """At a moment of the load, so much of each."""
        self.published.append((moment, published))
        for name, lags in self.lags.items():
            done = totals.get(name, 0)
            reached = next((when for when, count in reversed(self.published) if count <= done), 0.0)
            lags.append((moment, moment - reached))

    def told(self, first: float, last: float, but: Sequence[tuple[float, float]] = ()) -> str:
        """The lag between two moments, without what lies between others: the mean, the 95th of a hundred, the worst."""
        found = []
        for name, words in (("lines", "in the inbox"), ("heard", "heard and committed")):
            lags = sorted(lag for moment, lag in self.lags[name]
                          if first <= moment < last and not any(begin <= moment < end for begin, end in but))
            if lags:
                found.append(f"{words}: mean {sum(lags) / len(lags):.2f} s, 95% within {lags[len(lags) * 95 // 100]:.2f} s,"
                             f" worst {lags[-1]:.2f} s")
        return "; ".join(found)

    def settled(self, begin: float) -> float:
        """When, behind a moment, a line had waited for long for the last time in half a minute."""
        late = begin
        for moment, lag in self.lags["heard"]:
            if lag > SETTLED and begin <= moment < late + CALM:
                late = moment
        return late


def run(asked: argparse.Namespace, folder: Path) -> None:
    """Lines come at a rate, with peaks at equal distances; a session worker is killed and another one is added."""
    begins = [asked.seconds * place // (asked.peaks + 1) for place in range(1, asked.peaks + 1)]
    peaks = tuple((begin, begin + asked.peak_seconds) for begin in begins)
    load = Load(asked.meters, asked.gateways, asked.rate, asked.seconds, asked.peak, peaks)
    fleet = Fleet(folder, load, True)
    publishers: list[Publisher] = []
    try:
        begun, moment = time.monotonic(), int(time.time())
        publishers += [Publisher(fleet.config.broker, load, AREA, part, PUBLISHERS, moment, folder / f"load.{part}")
                       for part in range(PUBLISHERS)]
        while not all(it.is_ready() for it in publishers):
            time.sleep(0.2)
        print(f"{load.lines} lines, the first of them made in {time.monotonic() - begun:.0f} s", flush=True)
        for part in ["intake"] * asked.intakes + ["sessions"] * asked.sessions:
            fleet.start(part)
        changes: list[tuple[float, Callable[[], None]]] = [
            (asked.seconds / 4, lambda: fleet.stop("sessions", signal.SIGKILL)), (asked.seconds / 4 + 5, lambda: fleet.start("sessions")),
            (asked.seconds / 2, lambda: fleet.start("sessions"))] if asked.change else []
        _watched(fleet, load, publishers, changes, asked.tell)
    finally:
        for it in publishers:
            it.end()
        fleet.end()


@dataclass(frozen=True)
class Moment:
    """How far the load was at a moment: seconds since it began, microseconds of a processor by part, lines that were heard."""

    second: float
    used: Counter[str]
    heard: int

    def since(self, before: Moment) -> str:
        """What each part took from another moment on."""
        seconds, heard = self.second - before.second, max(1, self.heard - before.heard)
        return "; ".join(f"{name} {micros / seconds / 1e6:.2f} processors, {micros / heard:.1f} us a line"
                         for name, micros in sorted((self.used - before.used).items()))


def _watched(fleet: Fleet, load: Load, publishers: Sequence[Publisher], changes: list[tuple[float, Callable[[], None]]], tell: int) -> None:
    """Has the load come, and prints what becomes of it, every so many seconds and at its end."""
    watch, begun = Watch(), Moment(0.0, fleet.used(), 0)
    with store.connect(fleet.config.database) as database:
        lsn = store.one(database, "select pg_current_wal_lsn()::text")
        start = time.time() + 0.5
        for it in publishers:
            it.begin.value = start
        limit, last, before = start + load.seconds + DRAIN_LIMIT, begun, begun
        while last.heard < load.lines and time.time() < limit:
            time.sleep(LOOK)
            now = time.time() - start
            totals = {name: int(value) for name, value in database.execute(
                "select name, sum(value)::bigint from total where name in ('lines', 'heard') group by name").fetchall()}
            watch.see(now, sum(it.published.value for it in publishers), totals)
            while changes and changes[0][0] <= now:
                changes.pop(0)[1]()
            last = Moment(now, begun.used, totals.get("heard", 0))
            if now >= before.second + tell:
                last = Moment(now, fleet.used(), last.heard)
                _tell(fleet, database, watch, before, last)
                before = last
        last = Moment(time.time() - start, fleet.used(), last.heard)
        _print(watch, load, begun, last)
        _judge(database, load.lines, lsn)


def _tell(fleet: Fleet, database: store.Database, watch: Watch, before: Moment, now: Moment) -> None:
    """A part of a long load."""
    print(f"{before.second:.0f} to {now.second:.0f} s: {now.heard - before.heard} lines heard; {watch.told(before.second, now.second)};"
          f" load {os.getloadavg()[0]:.1f}\n  {now.since(before)}\n  memory: "
          + "; ".join(f"{name} {size / 1e6:.0f} MB" for name, size in sorted(fleet.memory().items()))
          + f"\n  {sizes(database, False)}", flush=True)


def _print(watch: Watch, load: Load, begun: Moment, last: Moment) -> None:
    """Lag and processors of all of it."""
    print(f"load of this machine {os.getloadavg()[0]:.1f} on {os.cpu_count()} processors")
    busy = [(begin, watch.settled(until)) for begin, until in load.peaks]
    print(f"steady, {load.rate} lines/s: {watch.told(5, load.seconds, busy)}")
    for (begin, until), (_, settled) in zip(load.peaks, busy, strict=True):
        print(f"peak, {load.rate * load.peak:.0f} lines/s for {until - begin} s from second {begin} on: {watch.told(begin, settled)};"
              f" no line waited {SETTLED:.0f} s any more {settled - until:.0f} s behind it")
    print(f"all was heard {last.second - load.seconds:.1f} s after the last was due")
    print(f"  {last.since(begun)}")


def _judge(database: store.Database, count: int, lsn: str) -> None:
    """What stands in the tables, and how large they are."""
    database.execute("set work_mem = '1GB'")
    lines = store.one(database, "select count(*) from line")
    apart = store.one(database, "select count(*) from (select distinct gateway, epoch, message, place from line) as them")
    readings = store.one(database, "select count(*) from reading")
    asked = store.one(database, "select coalesce(sum(value), 0)::bigint from total where name = 'asked'")
    print(f"published {count}, committed {lines}: {count - apart} lost, {lines - apart} doubled; {readings} readings of {count // COPIES}"
          f" messages; asked to send again {asked} times")
    wal = store.one(database, "select pg_wal_lsn_diff(pg_current_wal_lsn(), %s)", (lsn,))
    print(f"write-ahead log: {int(wal) / max(1, lines):.0f} bytes a line")
    print(sizes(database), flush=True)


def drain(asked: argparse.Namespace, folder: Path) -> None:
    """The inbox is filled and emptied again and again, by one worker and by two in turn."""
    fleet = Fleet(folder, Load(asked.meters, 1, 1, 1), False)
    try:
        for turn, workers in enumerate((1, 2) * asked.turns):
            _fill(fleet, asked.lines, turn * asked.lines)
            before = fleet.used()
            begun = time.monotonic()
            for _ in range(workers):
                fleet.start("sessions")
            with store.connect(fleet.config.database) as database:
                first, last = _emptied(database)
            used = fleet.used() - before
            print(f"{workers} workers: {asked.lines / 2 / (last - first):.0f} lines/s over the second half of {asked.lines}, "
                  f"{last - begun:.1f} s in all; load {os.getloadavg()[0]:.1f}; us a line: "
                  + ", ".join(f"{name} {micros / asked.lines:.1f}" for name, micros in sorted(used.items())), flush=True)
            for _ in range(workers):
                fleet.stop("sessions", signal.SIGTERM)
    finally:
        fleet.end()


def _fill(fleet: Fleet, count: int, start: int) -> None:
    """Puts lines into the inbox, each message heard once."""
    rows = [(address, "g0", EPOCH, place // 100 + 1, place % 100 + 1, text)
            for place, (address, text) in enumerate(shuffled_messages(fleet.load, count, start), start)]
    with store.connect(fleet.config.database) as database:
        store.copy_rows(database, "inbox (address, gateway, epoch, message, place, text)", rows)
        database.execute("analyze inbox")


def _emptied(database: store.Database) -> tuple[float, float]:
    """When half of the inbox was heard, and when all was."""
    count, half = store.one(database, "select count(*) from inbox"), 0.0
    limit = time.monotonic() + DRAIN_LIMIT
    while (left := store.one(database, "select count(*) from inbox")) and time.monotonic() < limit:
        if not half and left <= count // 2:
            half = time.monotonic()
        time.sleep(0.05)
    assert not left, f"{left} lines are left"
    return half or time.monotonic(), time.monotonic()


def main() -> int:
    """One measurement."""
    parser = argparse.ArgumentParser(description=__doc__, formatter_class=argparse.RawDescriptionHelpFormatter)
    kinds = parser.add_subparsers(required=True)
    made = kinds.add_parser("run")
    made.set_defaults(work=run)
    for name, value in (("meters", 100_000), ("gateways", 2000), ("rate", 6700), ("seconds", 60), ("peaks", 1), ("peak_seconds", 10),
                        ("intakes", 1), ("sessions", 1), ("tell", 600)):
        made.add_argument(f"--{name.replace('_', '-')}", type=int, default=value)
    made.add_argument("--peak", type=float, default=5.0)
    made.add_argument("--change", action="store_true", help="a session worker is killed, one comes in its place, and one more")
    other = kinds.add_parser("drain")
    other.set_defaults(work=drain)
    for name, value in (("meters", 100_000), ("lines", 40_000), ("turns", 2)):
        other.add_argument(f"--{name}", type=int, default=value)
    for it in (made, other):
        it.add_argument("--folder", default="/var/tmp", help="where the servers' folder is made")
    asked = parser.parse_args()
    folder = Path(tempfile.mkdtemp(prefix="wmbus-load-", dir=asked.folder))
    try:
        asked.work(asked, folder)
    finally:
        shutil.rmtree(folder, ignore_errors=True)
    return 0


if __name__ == "__main__":
    sys.exit(main())
