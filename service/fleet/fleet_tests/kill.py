"""Kills the fleet's processes and servers (-9) and judges what is left."""
from __future__ import annotations

import os
import random
import signal
import sqlite3
import tempfile
import time
from collections import Counter
from collections.abc import Sequence
from contextlib import closing, suppress
from dataclasses import dataclass, replace
from pathlib import Path

import psycopg
from psycopg.conninfo import make_conninfo
from tests.kill import Child, program, steps_words
from tests.meters import OWN, line_of, next_telegrams, roster_of, some_meters
from wmbus_fleet import broker, commands, store
from wmbus_fleet.config import Config, Gateway, Programs, Ticks
from wmbus_fleet.messages import Down, down_body
from wmbus_service.config import Config as ServiceConfig
from wmbus_service.config import Receiver
from wmbus_service.store import prepare_folder

from . import judged_fleet, killed_fleet
from .killed_fleet import Part, Wrong
from .servers import MEMORY, Both

# each place at which a process may die
EVERYWHERE = {f"{kind}: {when} {name}" for kind, places in killed_fleet.PLACES.items() for _, name in places for when in ("before", "behind")}
RADIO, EACH = "radio", "each"
# so many lines a file; seconds for what is left at the end
FILE, PATIENCE = 60, 60
# seconds for which a process that is thought dead stands still; so many digits are no accident
FROZEN, SHORTEST = 0.7, 10
# seconds for which it is waited that the broker has something, and that processes in a wrong order die
HELD, DYING = 2, 240
# a meter that there isn't
NOBODY = "0" * 16


@dataclass(frozen=True)
class Plan:
    """How much a trial has, and how it goes."""

    name: str
    meters: int = 12
    rounds: int = 10
    seconds: float = 10.0
    chance: float = 0.004
    window: float = 2.0
    # a wrong order, in which processes die so often, however long it takes
    wrong: Wrong | None = None
    deaths: int = 4
    # that each process dies at the next place of its kind, whenever it is started
    place: str = ""
    # how often each server is killed, and the queues are emptied
    rabbit: int = 0
    postgres: int = 0
    losses: int = 0
    # how often a process is thought dead: it stands still, the database ends its connections, others do its work, and then it goes on
    freezes: int = 0
    # that it goes on until processes died at each place, for so many seconds at most
    patience: float = 0.0
    workers: int = 2


class Station:
    """A gateway: its folder, what its radio heard and is to hear, and what it sent."""

    def __init__(self, folder: Path, name: str, area: str) -> None:
        self.told = Gateway(name, area, RADIO, interval=0.1, silence=0.5)
        self.sent_path = folder / f"{name}.sent"
        self.service = ServiceConfig(folder / name, receivers={RADIO: Receiver(downlinks=str(self.sent_path))})
        self.lines: list[str] = []
        # when each line was fed
        self.times: list[float] = []
        self.fed = 0
        prepare_folder(self.service.folder)

    def feed(self, until: int) -> None:
        """Appends lines to the spool, a new file from time to time."""
        while self.fed < min(until, len(self.lines)):
            number = self.fed // FILE
            piece = self.lines[self.fed:min(until, (number + 1) * FILE)]
            with open(self.service.spool / f"{RADIO}.{number + 1:08d}.1.lines", "ab") as file:
                file.write("".join(f"{line}\n" for line in piece).encode("latin-1"))
            self.fed += len(piece)
            self.times += [time.time()] * len(piece)

    def sent(self) -> list[str]:
        """What its radio sent."""
        return [line.split()[1] for line in self.sent_path.read_text().splitlines()] if self.sent_path.exists() else []

    def _opened(self) -> closing[sqlite3.Connection]:
        return closing(sqlite3.connect(self.service.folder / f"gateway.{self.told.name}.db", timeout=10))

    def came(self) -> set[tuple[str, int]]:
        """The downlinks that it got: each meter and its counter."""
        path = self.sent_path.with_suffix(".came")
        rows = [line.split() for line in path.read_text().splitlines()] if path.exists() else []
        return {(address, int(down)) for address, down in rows}

    def numbered(self) -> tuple[int, int] | None:
        """Its last message, once all lines of its spool stand in messages."""
        with self._opened() as database:
            places = dict(database.execute("select file, taken from source").fetchall())
            epoch, last = database.execute("select epoch, last from numbering").fetchone()
        files = list(self.service.spool.glob("*.lines"))
        return (epoch, last) if all(places.get(path.name) == path.stat().st_size for path in files) else None


class Trial:
    """A fleet whose parts are killed again and again while lines and commands come."""

    def __init__(self, both: Both, folder: Path, plan: Plan, seed: int) -> None:
        self.both, self.folder, self.plan, self.draw = both, folder, plan, random.Random(seed)
        self.name = f"{plan.name}{seed}"
        self.meters = some_meters(self.draw, plan.meters)
        self.shared = {meter.name for number, meter in enumerate(self.meters) if meter.mode == 7 and number % 2}
        self.config = Config(
            database=quiet(both.postgres.make(self.name), self.name), interval=0.05, broker=both.rabbit.told, ticks=Ticks(plan.window, plan.window / 2),
            programs=Programs(steps_words(), program("line_accept"), program("address_list"), program("state_raise")))
        areas = [f"{self.name}-north", f"{self.name}-south"]
        self.stations = [Station(folder, f"{self.name}-{number}", areas[number // 2]) for number in range(3)]
        self._commission(areas)
        self._hear()
        self.kills: Counter[str] = Counter()
        self.died: Counter[str] = Counter()
        self.commands = 0
        self.parts: dict[Part, Child] = {}

    def _commission(self, areas: list[str]) -> None:
        """Makes the fleet known to itself."""
        roster = self.folder / "roster"
        roster.write_text(roster_of(self.meters))
        roster.chmod(0o600)
        store.init(self.config.database)
        with store.connect(self.config.database) as database:
            for area in areas:
                commands.add_area(self.config, database, area)
            for station in self.stations:
                commands.add_gateway(self.config, database, station.told.area, station.told.name)
            store.set_setting(database, "own", OWN)
            commands._add_meters(database, [meter.line().split() for meter in self.meters])

    def _hear(self) -> None:
        """What each gateway hears: some meters of mode 7 are heard by several now and then, all others by one."""
        moment = int(time.time()) - self.plan.rounds * len(self.meters)
        for _ in range(self.plan.rounds):
            for meter in self.draw.sample(self.meters, len(self.meters)):
                moment += 1
                lines = [line_of(telegram, moment).rstrip("\n") for telegram in next_telegrams(self.draw, meter)]
                first = int(meter.name[4:6], 16) % len(self.stations)
                for number, station in enumerate(self.stations):
                    if number == first or meter.name in self.shared and self.draw.random() < 0.3:
                        station.lines += lines

    # ---- what runs

    def all_parts(self) -> list[Part]:
        """Each process."""
        workers = range(self.plan.workers)
        return [Part("gateway", station.told.name, station.told, station.service) for station in self.stations] \
            + [Part(kind, f"{kind} {number}") for kind in ("intake", "sessions", "downlinks") for number in workers]

    def start(self, part: Part, chance: float) -> None:
        """Starts a part."""
        place = self.plan.wrong.place if self.plan.wrong else self._next_place(part) if self.plan.place == EACH and chance else ""
        told = replace(self.config, database=make_conninfo(self.config.database, application_name=part.name))
        words = told, part, chance, str(self.folder / "deaths"), self.plan.wrong if chance else None, place

        def work() -> None:
            self.enter(part)
            killed_fleet.run(*words)
        self.parts[part] = Child(self.folder / f"{part.name}.log", work)

    def enter(self, part: Part) -> None:
        """What a part's process does first, where anything."""

    def share(self, passed: float) -> float:
        """Which share of their lines the radios have heard behind so many seconds."""
        return passed / (max(self.plan.seconds, self.plan.patience) * 0.9)

    def is_busy(self) -> bool:
        """Whether something of the trial isn't done yet."""
        return False

    def _next_place(self, part: Part) -> str:
        """A place of its kind, one at which none has died yet as long as there is one."""
        own = f"{part.kind}: "
        return self.draw.choice(sorted(it for it in self.places_left() if it.startswith(own))
                                or sorted(it for it in EVERYWHERE if it.startswith(own)))

    def operate(self) -> None:
        """An operator puts commands and keys, and thinks again of some; beside a wrong order of all, so that another session over the same
        lines has other commands."""
        now, again = time.time(), (1.0, 1.0) if self.plan.wrong else (0.5, 0.1)
        with suppress(psycopg.Error), store.connect(self.config.database) as database:
            for ident, state in database.execute("select id, state from command where state in ('waiting', 'queued', 'sent')"
                                                 " and kind = 'send' order by place").fetchall():
                if self.draw.random() < again[state != "waiting"]:
                    commands.cancel_command(database, ident, now)
            for meter in self.draw.sample(self.meters, max(1, len(self.meters) // (1 if self.plan.wrong else 3))):
                self.commands += 1
                if meter.other and self.draw.random() < 0.1:
                    commands.put_key(database, f"c{self.commands}", meter.name, meter.other.hex(), now)
                else:
                    commands.put_command(database, f"c{self.commands}", meter.name, self.draw.randbytes(8).hex(), now)

    # ---- the trial

    def run(self) -> list[str]:
        """Goes through the trial; what is wrong then."""
        try:
            self._die() if self.plan.wrong else self._live()
            self._drain()
            if not self.left:
                self.flush(0.0)
            for part in self.parts.values():
                part.end()
            return self.faults()
        finally:
            for part in self.parts.values():
                part.end()

    def _live(self) -> None:
        """Radios hear lines, operators ask, and everything is killed at random."""
        for part in self.all_parts():
            self.start(part, self.plan.chance)
        begun = time.monotonic()
        moments = sorted((self.draw.uniform(0.1, 0.9) * self.plan.seconds, kind) for kind, count in
                         (("rabbit", self.plan.rabbit), ("postgres", self.plan.postgres), ("loss", self.plan.losses),
                          ("freeze", self.plan.freezes)) for _ in range(count))
        # (on a busy machine it goes on until all that was planned came, and each kind of process died)
        kinds = {part.kind for part in self.parts}
        while ((passed := time.monotonic() - begun) < self.plan.seconds or moments or self.is_busy()
               or passed < 9 * self.plan.seconds and kinds - self.kills.keys() or passed < self.plan.patience and self.places_left()):
            for station in self.stations:
                station.feed(int(len(station.lines) * self.share(passed)) + 1)
            while moments and moments[0][0] < passed:
                self._strike(moments.pop(0)[1])
            if self.plan.patience and self.draw.random() < 0.1:
                self._strike("loss")
            self.operate()
            if self.draw.random() < 0.3:
                self._kill(self.draw.choice(list(self.parts)))
            self._again(self.plan.chance)
            time.sleep(self.draw.uniform(0.05, 0.3))
        for station in self.stations:
            station.feed(len(station.lines))

    def _die(self) -> None:
        """Processes die where it tells of their wrong order; what the radios hear goes on by these deaths, and not by time: a part behind
        each, and what is left once the gateways have what was sent to them."""
        self.operate()
        for part in self.all_parts():
            self.start(part, self.plan.chance)
        limit = time.monotonic() + DYING
        while (died := self.places().total()) < self.plan.deaths and time.monotonic() < limit:
            for station in self.stations:
                station.feed(len(station.lines) * (died + 1) // (self.plan.deaths + 2) + 1)
            if not all(child.is_running() for child in self.parts.values()):
                self.operate()
                self._again(self.plan.chance)
            time.sleep(0.05)
        self.flush(self.plan.chance)
        for station in self.stations:
            station.feed(len(station.lines))

    def flush(self, chance: float) -> None:
        """Waits until each gateway has all that is in its queue by now."""
        last = max((down for station in self.stations for address, down in station.came() if address == NOBODY), default=0) + 1
        with broker.connected(self.config.broker) as connection:
            channel, body = broker.opened(connection), down_body(Down(NOBODY, last, "00", 1))
            for station in self.stations:
                broker.publish(channel, "", broker.gateway_queue(station.told.name), body)
        limit = time.monotonic() + PATIENCE
        while not all((NOBODY, last) in station.came() for station in self.stations):
            assert time.monotonic() < limit, self.logs()
            self._again(chance)
            time.sleep(0.05)

    def _kill(self, part: Part) -> None:
        """Kills a process."""
        if self.parts[part].is_running():
            self.parts[part].end()
            self.kills[f"{part.kind} killed"] += 1

    def _again(self, chance: float) -> None:
        """Starts again what has ended."""
        for part, child in list(self.parts.items()):
            if not child.is_running():
                self.kills[part.kind] += 1
                self.start(part, chance)
        if not self.both.rabbit.is_running():
            # (the daemon that knows its runtime's name may hold it for a moment)
            self.kills["rabbit again"] += 1
            self.both.rabbit.begin()

    def _strike(self, kind: str) -> None:
        """Kills a server, or has the broker forget what it holds."""
        self.kills[kind] += 1
        if kind == "postgres":
            self.both.postgres.kill()
            self.both.postgres.start()
        elif kind == "rabbit":
            self.both.rabbit.kill()
            self.both.rabbit.begin()
        elif kind == "freeze":
            self._freeze(self.draw.choice([part for part in self.parts if part.kind != "gateway"]))
        else:
            self._lose()

    def _lose(self) -> None:
        """Has the broker forget what it acknowledged. (While intakes work it has next to nothing.)"""
        for part in list(self.parts):
            if part.kind == "intake":
                self._kill(part)
        limit = time.monotonic() + HELD
        with suppress(*broker.FAULTS), broker.connected(self.config.broker) as connection:
            channel, lost = connection.channel(), 0
            while not lost and time.monotonic() < limit:
                for station in self.stations:
                    station.feed(station.fed + 1)
                    lost += channel.queue_purge(broker.area_queue(station.told.area)).method.message_count
                time.sleep(0.05)
            self.kills["lost messages"] += lost

    def _freeze(self, part: Part) -> None:
        """Has a process stand still in the middle of what it does, until others have done its work."""
        child = self.parts[part]
        if not child.is_running():
            return
        os.kill(child.pid, signal.SIGSTOP)
        try:
            with suppress(psycopg.Error), psycopg.connect(self.config.database, autocommit=True) as database:
                database.execute("select pg_terminate_backend(pid) from pg_stat_activity where application_name = %s", (part.name,))
            time.sleep(FROZEN)
        finally:
            os.kill(child.pid, signal.SIGCONT)

    def places_left(self) -> set[str]:
        """Where no process has died yet."""
        return EVERYWHERE - self.places().keys()

    def _drain(self) -> None:
        """Lets the fleet take what is left, without dying."""
        for part, child in list(self.parts.items()):
            child.end()
            self.start(part, 0.0)
        self.left = self.drained()

    def drained(self) -> str:
        """What isn't done, though it was waited for: as long as it becomes less it may take its time."""
        limit, last, before = 0.0, time.monotonic() + 10 * PATIENCE, ""
        while (left := self._left()) and time.monotonic() < last:
            if left != before:
                limit, before = time.monotonic() + PATIENCE, left
            if time.monotonic() > limit:
                break
            self._again(0.0)
            time.sleep(0.1)
        return left

    def _left(self) -> str:
        """What isn't done yet. (What was lost for good is told by the faults.)"""
        told = {
            "inbox": "(select count(*) from inbox)",
            "commands": "(select count(*) from command where state = 'waiting' or wish is not null)",
            "downlinks": "(select count(*) from outbox where sent is null and missed is null)",
        }
        rows = {}
        try:
            with store.connect(self.config.database) as database:
                # (in the order in which lines go: what an intake takes between two of these questions is seen by the later one)
                for station in self.stations:
                    fence = database.execute("select epoch, number from gateway where name = %s", (station.told.name,)).fetchone()
                    # (a message of silence may be on its way)
                    rows[station.told.name] = int(fence != station.numbered())
                rows |= {name: store.one(database, f"select {query}") for name, query in told.items()}
        except (psycopg.Error, sqlite3.Error) as fault:
            return str(fault)
        return ", ".join(f"{name} {count}" for name, count in rows.items() if count > 0)

    def faults(self) -> list[str]:
        """What isn't as it has to be."""
        found = [f"left: {self.left}"] if self.left else []
        with store.connect(self.config.database) as database:
            found += [f"set aside: {text}, since {said}" for text, said in database.execute("select text, said from aside limit 3").fetchall()]
            for station in self.stations:
                found += judged_fleet.line_faults(database, station.told.name, station.lines)
                if self.plan.window > self.plan.seconds:
                    found += judged_fleet.armed_faults(database, station.told.name, station.came())
            for meter in self.meters:
                found += judged_fleet.meter_faults(database, program("wmbus"), meter, self.folder / "uncut")
            found += judged_fleet.reading_faults(database, self.meters, self.shared) + judged_fleet.twice_ticked(database)
            found += judged_fleet.radio_faults(database, [frame for station in self.stations for frame in station.sent()])
        return found + self.secrets_told()

    def secrets_told(self) -> list[str]:
        """No key and no payload stands in a log, of the fleet's processes and of the servers; and no frame, but for RabbitMQ's own log,
        which tells what a process of its own had in hand when it crashed (docs/FLEET.md, "From nothing to readings")."""
        with store.connect(self.config.database) as database:
            payloads, frames = ([text for (text,) in database.execute(query).fetchall() if len(text) >= SHORTEST] for query in (
                "select payload from command union select payload from reading", "select frame from outbox"))
        secrets = {"a key": [key.hex() for meter in self.meters for key in (meter.key, meter.other) if key], "a payload": payloads,
                   "a frame": frames + [line.split(" ")[2] for station in self.stations for line in station.lines]}
        own = [*self.both.folder.rglob("log/*.log"), *self.both.folder.glob("rabbit*.log"), *self.both.folder.glob("node*.log")]
        logs = [*self.folder.glob("*.log"), *self.both.folder.glob("*.log"), *own]
        told = {path: path.read_text(errors="replace").lower() for path in logs}
        return [f"{name} stands in {path.name}, in {self._around(text, them)}" for path, text in told.items()
                for name, them in secrets.items() if (name != "a frame" or path not in own) and any(it in text for it in them)]

    @staticmethod
    def _around(text: str, secrets: Sequence[str]) -> str:
        """Where in a log a secret stands, with its beginning alone."""
        at = min(text.index(it) for it in secrets if it in text)
        return repr(text[max(0, at - 1500):at + 8])

    def places(self) -> Counter[str]:
        """Where processes died of themselves, and how often."""
        return Counter(f"{path.suffix[1:]}: {line}" for path in self.folder.glob("deaths.*") for line in path.read_text().splitlines())

    def logs(self) -> str:
        """The last words of each process and of the servers."""
        paths = [*sorted(self.folder.glob("*.log")), self.both.rabbit.log, self.both.postgres.log]
        return "\n".join(f"{path.name}: {' | '.join(path.read_text().splitlines()[-4:])[-800:]}" for path in paths)

    def counts(self) -> str:
        """What was done, in words."""
        with store.connect(self.config.database) as database:
            tables = {name: store.one(database, f"select count(*) from {name}")
                      for name in ("line", "reading", "outbox", "command", "missing")}
            states = store.pairs(database, "select state, count(*) from command group by state")
            totals = store.pairs(database, "select name, sum(value)::bigint from total group by name")
            ticks = store.one(database, "select count(*) from line where due is not null")
        sent = sum(len(station.sent()) for station in self.stations)
        return (f"ended {dict(self.kills)} at {len(self.places())} places; {tables}, ticks {ticks}, sent by radios {sent},"
                f" commands {states}, totals {totals}")


def quiet(words: str, name: str) -> str:
    """Has PostgreSQL tell no rows in its log (docs/FLEET.md, "From nothing to readings")."""
    with psycopg.connect(words, autocommit=True) as database:
        database.execute(f"alter database {name} set log_error_verbosity = terse")
    return words


def tried(both: Both, plan: Plan, seed: int) -> tuple[Trial, list[str]]:
    """A trial in a folder of its own."""
    with tempfile.TemporaryDirectory(dir=MEMORY) as folder:
        trial = Trial(both, Path(folder), plan, seed)
        found = trial.run()
        trial.died = trial.places()
        print(plan.name, seed, trial.counts(), dict(trial.died), found[:3])
        if found and not plan.wrong:
            print(trial.logs())
        return trial, found
