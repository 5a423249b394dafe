"""What the page takes over a great database, by hand: measure_page.py [METERS READINGS]

METERS (500) have READINGS (20,000) each over a year, of two values each; besides there are a meter with sixty registers, one of which a
register is sent once a month, one that sends each minute, one with 3,000 registers, and a receiver that fell silent. The database lies in
a temporary folder, which goes again; 500 and 20,000 take some 4 GB there. The page is a process of its own. Of each address it prints what
the first answer took once the file was let go from memory, the median and the slowest of the next ones, and what is allowed; the exit
status is 1 where a median is above that."""
from __future__ import annotations

import json
import os
import random
import signal
import socket
import sqlite3
import statistics
import subprocess
import sys
import tempfile
import time
import urllib.request
from collections.abc import Iterator, Sequence
from contextlib import closing
from pathlib import Path

TOP = Path(__file__).resolve().parents[2]
sys.path[:0] = [str(TOP / "service"), str(TOP), str(TOP / "tests"), str(TOP / "tests/checks")]

from tests.meters import OWN, Meter, some_meters  # noqa: E402
from wmbus_service.meters import add_meter, set_own  # noqa: E402
from wmbus_service.store import open_store, prepare_folder, transaction  # noqa: E402

PYTHON = "/usr/bin/python3"
YEAR, DAY = 366 * 86_400, 86_400
# steps of time that are written at once, how often a page is asked for, and for how long the page is waited for
PIECE, TIMES, PATIENCE = 500, 15, 60.0
MOST_SECONDS = {"/": 0.15, "/api/overview": 0.15}
OTHERS_SECONDS = 0.3
MANY, SELDOM, MINUTELY, ALL_REGISTERS = range(4)

# the values of all readings; those of a meter with many registers besides; and those of a register that is sent seldom
KINDS = (("energy", "Wh", 3, 10_000, 1, 0), ("volume", "m3", -3, 500_000, 7, 0))
MORE = tuple(("volume", "m3", -3, storage, 1, storage) for storage in range(2, 60))
SELDOM_KINDS = (("flowtemperature", "C", -1, 200, 1, 0), ("mass", "kg", 0, 10, 3, 0))
READINGS = """
insert into reading select :first + row_number() over (order by step.number, place.number), :first + row_number() over
    (order by step.number, place.number), address, step.number, cast(:begin + :width * step.number + place.number as integer), 'attic',
    case when step.number >= :late then :payload end, null, 0, :begin + :width * step.number + place.number
from step cross join place where step.number >= :from and step.number < :to and place.number in (select value from json_each(:places))
order by step.number, place.number"""
RECORDS = """
insert into record select reading.id, json_extract(kind.value, '$[0]'), json_extract(kind.value, '$[1]'), json_extract(kind.value, '$[2]'),
    json_extract(kind.value, '$[3]'), json_extract(kind.value, '$[4]') + json_extract(kind.value, '$[5]') * counter, 'instantaneous',
    json_extract(kind.value, '$[6]'), 0, 0, '', '00000000'
from reading cross join json_each(:kinds) kind where reading.id > :first and reading.id <= :last and counter % :every = 0
    and (:address is null or address = :address) order by reading.id, kind.key"""


class Great:
    """A service's database of so many meters and readings, made in a folder."""

    def __init__(self, folder: Path, meters: int, readings: int) -> None:
        self.folder, self.path, self.now = folder / "wmbus", folder / "wmbus/wmbus.db", time.time()
        self.meters: list[Meter] = some_meters(random.Random(1), meters)
        self.readings, self.ident = readings, 0
        prepare_folder(self.folder)
        with closing(open_store(self.path, is_new=True)) as database:
            with transaction(database):
                set_own(database, OWN, "measure")
                for meter in self.meters:
                    add_meter(database, meter.line().split())
            for words in ("journal_mode = off", "synchronous = off", "cache_size = -1000000", "secure_delete = off"):
                database.execute(f"pragma {words}")
            self._fill(database)
            database.execute("pragma journal_mode = wal")
        (folder / "config.toml").write_text(f'folder = "{self.folder}"\n[receivers.attic]\ncommand = "cat"\nformat = "hex"\n'
                                            '[receivers.roof]\ncommand = "cat"\nformat = "hex"\n')

    def _fill(self, database: sqlite3.Connection) -> None:
        """Readings step by step, as they are heard, then what else a service has."""
        minutes = YEAR // 60 if self.readings > 2000 else self.readings
        database.execute("create temp table step (number integer primary key)")
        database.executemany("insert into step values (?)", ((number,) for number in range(max(minutes, self.readings))))
        database.execute("create temp table place (number integer primary key, address text)")
        database.executemany("insert into place values (?, ?)", ((place, meter.name) for place, meter in enumerate(self.meters)))
        everyone, seldom = list(range(len(self.meters))), max(1, self.readings // 12)
        for begin in range(0, self.readings, PIECE):
            last = self._read(database, begin, min(begin + PIECE, self.readings), YEAR / self.readings, everyone)
            self._record(database, last, MORE, MANY)
            self._record(database, last, SELDOM_KINDS, SELDOM, seldom)
        for begin in range(0, minutes, 50_000):
            self._read(database, begin, min(begin + 50_000, minutes), 60.0, [MINUTELY])
        with transaction(database):
            self._registers(database)
            self._beside(database)

    def _read(self, database: sqlite3.Connection, begin: int, end: int, width: float, places: list[int]) -> int:
        """Readings of some meters with their two values; behind which one they are."""
        first = self.ident
        given = {"first": first, "begin": self.now - YEAR, "width": width, "late": (YEAR - 60 * DAY) / width, "payload": "2f" * 40,
                 "from": begin, "to": end, "places": json.dumps(places)}
        with transaction(database):
            self.ident += database.execute(READINGS, given).rowcount
        self._record(database, first, KINDS)
        print(f"\r{self.ident} readings ", end="", flush=True, file=sys.stderr)
        return first

    def _record(self, database: sqlite3.Connection, first: int, kinds: Sequence[tuple[object, ...]], place: int | None = None,
                every: int = 1) -> None:
        """Values of the readings behind one, of all meters or of one alone."""
        told = json.dumps([[number + (place is not None) * len(KINDS), *kind] for number, kind in enumerate(kinds)])
        with transaction(database):
            database.execute(RECORDS, {"kinds": told, "first": first, "last": self.ident, "every": every,
                                       "address": None if place is None else self.meters[place].name})

    def _registers(self, database: sqlite3.Connection) -> None:
        """The last readings of the meter with thousands of registers."""
        for back in range(10, 0, -1):
            self.ident += 1
            database.execute("insert into reading values (?, ?, ?, ?, ?, 'attic', null, null, 0, ?)",
                             (self.ident, self.ident, self.meters[ALL_REGISTERS].name, self.readings - back, int(self.now) - 60 * back,
                              self.now - 60 * back))
            database.executemany("insert into record values (?, ?, 'volume', 'm3', -3, ?, 'instantaneous', ?, 0, 0, '', '00')",
                                 ((self.ident, place, str(place), place) for place in range(3000)))

    def _beside(self, database: sqlite3.Connection) -> None:
        """Lines of a week, of which the receiver `roof` has only the first ones, strangers, refusals, and commands."""
        count = max(1000, self.ident // 52)
        database.executemany("insert into line (receiver, text, made) values (?, ?, ?)",
                             (("roof" if number < 10 else "attic", f"A 1 {'5a' * 60}", self.now - 7 * DAY * (1 - number / count))
                              for number in range(count)))
        database.execute("insert into source values ('roof', 'roof.1.1.lines', 10), ('attic', 'attic.1.1.lines', 10)")
        database.executemany("insert into stranger values (?, ?, 'attic', ?)",
                             ((f"2d2c{number:08x}1b16", number, self.now - number) for number in range(5000)))
        database.executemany("insert into refusal values (?, 'stale', 'stale 4 9', 9, 1, ?)",
                             ((meter.name, self.now - 60) for meter in self.meters))
        database.executemany("insert into command (id, address, kind, payload, state, made, changed)"
                             " values (?, ?, 'send', '00', 'confirmed', 1, 1)",
                             ((f"c{number}", self.meters[number % len(self.meters)].name) for number in range(20_000)))

    def addresses(self) -> Iterator[tuple[str, str]]:
        """What is asked for, and its words."""
        yield "the overview", "/"
        yield "the overview as JSON", "/api/overview"
        for what, place in (("a meter", -1), ("sixty registers", MANY), ("a register once a month", SELDOM), ("each minute", MINUTELY),
                            ("3,000 registers", ALL_REGISTERS)):
            for span in ("month", "year"):
                yield f"{what}, {span}", f"/meters/{self.meters[place].name}?span={span}"
        yield "the receivers", "/receivers"
        yield "the strangers", "/strangers"
        yield "a day as CSV", f"/meters/{self.meters[-1].name}/readings.csv?from={int(self.now) - DAY}"


def let_go(path: Path) -> None:
    """Has the system forget what it has of a file in memory."""
    with open(path, "rb") as file:
        os.fsync(file.fileno())
        os.posix_fadvise(file.fileno(), 0, 0, os.POSIX_FADV_DONTNEED)


def asked(address: str) -> tuple[float, int]:
    """How long a page takes, and how many bytes it has."""
    began = time.monotonic()
    with urllib.request.urlopen(address, timeout=PATIENCE) as given:
        size = len(given.read())
    return time.monotonic() - began, size


def waited_for(address: str) -> None:
    """Waits until the page is served."""
    until = time.monotonic() + PATIENCE
    while True:
        try:
            asked(address)
            return
        except OSError:
            if time.monotonic() > until:
                raise
            time.sleep(0.1)


def processor(process: int) -> float:
    """The seconds that a process took of a processor."""
    told = Path(f"/proc/{process}/stat").read_text(encoding="ascii").rpartition(")")[2].split()
    return (int(told[11]) + int(told[12])) / os.sysconf("SC_CLK_TCK")


def measure(great: Great, base: str, served: int) -> int:
    """Asks for each page; how many are too slow."""
    slow = 0
    print(f"{'page':32} {'first':>8} {'median':>8} {'slowest':>8} {'processor':>9} {'allowed':>8} {'bytes':>9}")
    for what, path in great.addresses():
        let_go(great.path)
        first, size = asked(base + path)
        began = processor(served)
        found = sorted(asked(base + path)[0] for _ in range(TIMES))
        took = (processor(served) - began) / TIMES
        most, median = MOST_SECONDS.get(path, OTHERS_SECONDS), statistics.median(found)
        # (of a busy machine a page gets a share: judged is what it takes of a processor)
        slow += took > most
        print(f"{what:32} {1000 * first:5.0f} ms {1000 * median:5.0f} ms {1000 * found[-1]:5.0f} ms {1000 * took:6.0f} ms"
              f" {1000 * most:5.0f} ms {size:9}"
              f"{'  too slow' if took > most else ''}", flush=True)
    return slow


def main() -> int:
    """Makes the database, serves it, and asks for its pages."""
    if len(sys.argv) not in (1, 3) or not all(word.isdigit() for word in sys.argv[1:]):
        print(__doc__)
        return 2
    meters, readings = (int(word) for word in sys.argv[1:] or ("500", "20000"))
    with socket.socket() as free:
        free.bind(("127.0.0.1", 0))
        port = int(free.getsockname()[1])
    with tempfile.TemporaryDirectory(prefix="wmbus-measure-") as place:
        began = time.monotonic()
        great = Great(Path(place), meters, readings)
        with open(Path(place) / "config.toml", "a", encoding="utf-8") as file:
            file.write(f"[page]\nport = {port}\n")
        load = os.getloadavg()[0]
        size, seconds = great.path.stat().st_size / 1e9, time.monotonic() - began
        print(f"{great.ident} readings of {meters} meters, {size:.1f} GB, made in {seconds:.0f} s;"
              f" load {load:.0f} on {os.cpu_count()} processors")
        words = [PYTHON, "-m", "wmbus_service", "--config", f"{place}/config.toml", "page"]
        with subprocess.Popen(words, cwd=TOP / "service", stderr=subprocess.DEVNULL) as served:
            try:
                waited_for(f"http://127.0.0.1:{port}/strangers")
                return int(measure(great, f"http://127.0.0.1:{port}", served.pid) > 0)
            finally:
                served.send_signal(signal.SIGTERM)
                served.wait(PATIENCE)


if __name__ == "__main__":
    sys.exit(main())
