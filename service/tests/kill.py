"""Kills the service and its receivers (-9) and judges what is left."""
from __future__ import annotations

import functools
import logging
import os
import random
import shutil
import signal
import sqlite3
import sys
import time
import traceback
from collections import Counter
from collections.abc import Callable
from contextlib import closing, suppress
from dataclasses import dataclass
from pathlib import Path

from readings import programs
from wmbus_service.commands import cancel_command, put_command, put_key
from wmbus_service.config import read_config
from wmbus_service.meters import add_meter, set_own
from wmbus_service.receiving import Receiving
from wmbus_service.store import open_store, prepare_folder

from . import judged, killed_service
from .meters import OWN, line_of, next_telegrams, roster_of, some_meters
from .processes import PATIENCE, run
from .processes import until as until
from .servers import Listener, Mosquitto

TOP = Path(__file__).resolve().parents[2]
PYTHON = "/usr/bin/python3"
RECEIVERS = ("cellar", "roof")
# a folder in memory, where there is one with room for a trial
MEMORY = "/dev/shm" if os.access("/dev/shm", os.W_OK) and shutil.disk_usage("/dev/shm").free > 256 << 20 else None
TICK = 0.4
# for so many seconds it is waited that a service in a wrong order dies
DYING = 240.0


@functools.cache
def program(name: str) -> str:
    """A program's path."""
    return str(programs.path(name))


@functools.cache
def steps_words() -> str:
    """The program whose sessions are taken; where `wmbus` doesn't know `steps` yet nothing, and the second implementation stands in
    its place."""
    known = run([program("wmbus"), "--help"], check=False).stdout
    return f"{program('wmbus')} steps" if "wmbus steps" in known else ""


class Child:
    """A process that is forked off, so that it needs no time to start, and whose output goes to a file."""

    def __init__(self, log: Path, work: Callable[[], None]) -> None:
        self.status: int | None = None
        log.touch()
        self.pid = os.fork()
        if not self.pid:
            self._work(log, work)

    def _work(self, log: Path, work: Callable[[], None]) -> None:
        status = 1
        try:
            with open(log, "a", encoding="utf-8") as file:
                os.dup2(file.fileno(), 1)
                os.dup2(file.fileno(), 2)
            sys.stdout, sys.stderr = (open(number, "w", buffering=1, encoding="utf-8", closefd=False) for number in (1, 2))
            logging.basicConfig(level=logging.INFO, format="%(levelname)s %(message)s", force=True)
            work()
            status = 0
        except Exception:
            traceback.print_exc()
        finally:
            os._exit(status)

    def is_running(self) -> bool:
        """Whether it hasn't ended."""
        if self.status is None:
            pid, status = os.waitpid(self.pid, os.WNOHANG)
            self.status = os.waitstatus_to_exitcode(status) if pid else None
        return self.status is None

    def end(self, number: int = signal.SIGKILL) -> int:
        """Ends it by a signal; its status."""
        if self.is_running():
            os.kill(self.pid, number)
        limit = time.monotonic() + PATIENCE
        while self.is_running():
            if time.monotonic() > limit:
                os.kill(self.pid, signal.SIGKILL)
            time.sleep(0.005)
        assert self.status is not None
        return self.status


@dataclass(frozen=True)
class Plan:
    """How much a trial has, and how it goes."""

    meters: int = 9
    rounds: int = 12
    seconds: float = 10.0
    chance: float = 0.02
    # a backlog's trial ends behind so many; one of a wrong order has so many, however long they take
    deaths: int = 2
    wrong: str = ""
    is_live: bool = True
    has_broker: bool = True


class Trial:
    """A service over a folder, which is killed again and again while lines and commands come."""

    def __init__(self, folder: Path, plan: Plan, seed: int) -> None:
        self.folder, self.plan, self.draw = folder, plan, random.Random(seed)
        self.meters = some_meters(self.draw, plan.meters)
        self.roster = roster_of(self.meters)
        self.deaths = self.commands = 0
        self.broker = Mosquitto(folder / "broker") if plan.has_broker else None
        self.listener = Listener(self.broker.port, ["wmbus/#", "homeassistant/#"]) if self.broker else None
        self.config_path = folder / "config.toml"
        self.config_path.write_text(self._config())
        self.config = read_config(self.config_path)
        prepare_folder(self.config.folder)
        with closing(open_store(self.config.database, is_new=True)) as database:
            set_own(database, OWN, "roster")
            for meter in self.meters:
                add_meter(database, meter.line().split())
        (folder / "kept").mkdir()
        self.telegrams = self._telegrams()
        self.service: Child | None = None
        self.receiving: dict[str, Child] = {}

    def _config(self) -> str:
        text = f'folder = "{self.folder}/service"\ninterval = 0.1\ndownlink_seconds = 1000\n'
        text += f'[programs]\nsteps = "{steps_words()}"\nline_feed = "{program("line_feed")}"\n'
        text += f"[ticks]\nwindow = {TICK}\nfragments = {TICK}\n"
        for name in RECEIVERS:
            feeder = f"{PYTHON} {TOP}/service/tests/feeder.py {self.folder}/{name}.telegrams {self.folder}/{name}.place {self._pause()}"
            text += f'[receivers.{name}]\ncommand = "{feeder}"\nformat = "hex"\ndownlinks = "{self.folder}/{name}.sent"\n'
        return text + (f"[mqtt]\ncommands = true\nport = {self.broker.port}\n" if self.broker else "")

    def _pause(self) -> float:
        return self.plan.seconds / (self.plan.meters * self.plan.rounds * 1.2)

    def _telegrams(self) -> dict[str, list[tuple[int, bytes]]]:
        """What each receiver hears and when: of mode 7 some both, of mode 5 one of them."""
        heard: dict[str, list[tuple[int, bytes]]] = {name: [] for name in RECEIVERS}
        moment = int(time.time()) - self.plan.rounds * len(self.meters)
        for _ in range(self.plan.rounds):
            for meter in self.draw.sample(self.meters, len(self.meters)):
                moment += 1
                telegrams = [(moment, telegram) for telegram in next_telegrams(self.draw, meter)]
                first = RECEIVERS[int(meter.name[4:6], 16) % 2]
                for name in RECEIVERS:
                    if name == first or meter.mode == 7 and self.draw.random() < 0.3:
                        heard[name] += telegrams
        return heard

    # ---- what runs

    def start_service(self, chance: float | None = None) -> None:
        """Starts the service."""
        likely, deaths = self.plan.chance if chance is None else chance, str(self.folder / "deaths")
        self.service = Child(self.folder / "log",
                             lambda: killed_service.run(self.config, likely, deaths, self.plan.wrong))

    def start_receiver(self, name: str) -> None:
        """Starts a receiver."""
        self.receiving[name] = Child(self.folder / "receivers.log", Receiving(self.config, name).run)

    def kill_receiver(self, name: str) -> None:
        """Kills a receiver with all that it started, as systemd does."""
        process = self.receiving[name]
        children = Path(f"/proc/{process.pid}/task/{process.pid}/children").read_text().split() if process.is_running() else []
        process.end()
        for child in children:
            with suppress(ProcessLookupError):
                os.killpg(int(child), signal.SIGKILL)

    def keep_links(self) -> None:
        """Keeps what receivers spool, also where the service takes it away."""
        for path in self.config.spool.glob("*.lines"):
            kept = self.folder / "kept" / path.name
            if not kept.exists():
                try:
                    os.link(path, kept)
                except FileNotFoundError:
                    pass

    def operate(self, is_down: bool = False) -> None:
        """An operator puts commands and keys, and thinks again of some that are on their way; while the service is down, of all that
        it hasn't heard."""
        now = time.time()
        with closing(open_store(self.config.database)) as database:
            query = "select id, state from command where state in ('waiting', 'queued', 'sent') and kind = 'send'"
            for ident, state in database.execute(query).fetchall():
                if self.draw.random() < ((1.0 if self.plan.wrong else 0.9) if is_down and state == "waiting" else 0.1):
                    cancel_command(database, ident, now)
            for meter in self.draw.sample(self.meters, len(self.meters) // (1 if is_down else 4)):
                self.commands += 1
                if meter.other and self.draw.random() < 0.1:
                    put_key(database, f"c{self.commands}", meter.name, meter.other.hex(), now)
                else:
                    put_command(database, f"c{self.commands}", meter.name, self.draw.randbytes(5).hex(), now)

    # ---- the trial

    def run(self) -> list[str]:
        """Goes through the trial; what is wrong then."""
        try:
            self._feed() if self.plan.is_live else self._backlog()
            self._drain()
            return self.faults()
        finally:
            self.end()

    def _feed(self) -> None:
        """Receivers hear telegrams, and all are killed at random."""
        for name in RECEIVERS:
            (self.folder / f"{name}.telegrams").write_text("\n".join(telegram.hex() for _, telegram in self.telegrams[name]))
            self.start_receiver(name)
        limit = time.monotonic() + 6 * self.plan.seconds
        self.start_service()
        while time.monotonic() < limit and not (self._is_fed() and self.deaths):
            time.sleep(self.draw.uniform(0.05, 0.5))
            self._turn()
            if self.service and self.draw.random() < 0.25:
                self.service.end()
            for name in RECEIVERS:
                if self.draw.random() < 0.03:
                    self.kill_receiver(name)
                    self.start_receiver(name)
        for name in RECEIVERS:
            self.kill_receiver(name)
        self.keep_links()

    def _is_fed(self) -> bool:
        """Whether all telegrams were printed."""
        places = [self.folder / f"{name}.place" for name in RECEIVERS]
        return all(place.exists() and int(place.read_text()) == len(self.telegrams[name]) for place,
                   name in zip(places, RECEIVERS, strict=True))

    def _turn(self) -> None:
        """Starts the service again where it died; an operator works meanwhile."""
        self.keep_links()
        is_dead = self.service is None or not self.service.is_running()
        if is_dead or self.draw.random() < 0.7:
            self.operate(is_dead)
        if is_dead:
            self.deaths += 1
            self.start_service()

    def _backlog(self) -> None:
        """All lines are there when the service is started; it dies again and again, until it has taken them."""
        for name in RECEIVERS:
            path = self.config.spool / f"{name}.00000001.1.lines"
            path.write_text("".join(line_of(telegram, moment) for moment, telegram in self.telegrams[name]))
        self.keep_links()
        self.operate(True)
        self.start_service()
        limit = time.monotonic() + (DYING if self.plan.wrong else self.plan.seconds)
        while time.monotonic() < limit and (self.deaths < self.plan.deaths or not self.plan.wrong and self._left()):
            time.sleep(0.02)
            if self.service is None or not self.service.is_running():
                self._turn()

    def _ticks(self) -> int:
        """How many ticks there were."""
        with closing(open_store(self.config.database)) as database:
            return int(database.execute("select count(*) from line where due is not null").fetchone()[0])

    def _drain(self) -> None:
        """Lets the service take what is left; as long as it becomes less it may take its time."""
        limit, before = 0.0, ""
        if self.service:
            self.service.end()
        self.start_service(0.0)
        while left := self._left():
            if left != before:
                limit, before = time.monotonic() + PATIENCE, left
            assert time.monotonic() < limit, f"{left}; {self._log()}"
            assert self.service and self.service.is_running(), self._log()
            time.sleep(0.05)

    def _log(self) -> str:
        return (self.folder / "log").read_text()[-2000:]

    def _left(self) -> str:
        """What isn't done yet."""
        with closing(open_store(self.config.database)) as database:
            places = dict(database.execute("select file, taken from source").fetchall())
            heard = database.execute("select count(*) from line where receiver is not null").fetchone()[0]
            waiting = database.execute("select count(*) from command where state = 'waiting' or wish is not null").fetchone()[0]
            unsent = database.execute("select count(*) from outbox where sent is null").fetchone()[0]
            messages = database.execute("select count(*) from publication").fetchone()[0] if self.broker else 0
        files = {path.name: path.read_bytes() for path in (self.folder / "kept").iterdir()}
        is_taken = all(places.get(name, 0) == text.rfind(b"\n") + 1 for name, text in files.items() if (self.config.spool / name).exists())
        lines = 0 if is_taken else max(0, sum(text.count(b"\n") for text in files.values()) - heard)
        if not (lines or waiting or unsent or messages):
            return ""
        return f"lines {lines}, commands {waiting}, downlinks {unsent}, messages {messages}"

    def faults(self) -> list[str]:
        """What isn't as it has to be."""
        if self.service:
            assert self.service.end(signal.SIGTERM) in (0, -signal.SIGTERM), self._log()
        with closing(sqlite3.connect(self.config.database)) as database:
            lines = [text for (text,) in database.execute("select text from line order by number")]
            found = self._line_faults(database)
            found += judged.differences(database, judged.Uncut(program("wmbus"), self.roster, lines, self.folder / "uncut"))
            sent = [line.split()[1] for name in RECEIVERS if (self.folder / f"{name}.sent").exists()
                    for line in (self.folder / f"{name}.sent").read_text().splitlines()]
            found += judged.radio_faults(database, sent) + judged.twice_ticked(database)
            if self.listener:
                self.listener.hear_all()
                found += judged.message_faults(database, self.listener.heard, "wmbus")
            return found + self._reading_faults(database) + self._keys_told()

    def _line_faults(self, database: sqlite3.Connection) -> list[str]:
        """Each receiver's whole lines were heard once and in their order."""
        found = []
        for name in RECEIVERS:
            content = [path.read_bytes() for path in sorted((self.folder / "kept").glob(f"{name}.*"))]
            wanted = [line.decode("latin-1") for it in content for line in it[:it.rfind(b"\n") + 1].split(b"\n")[:-1]]
            heard = [text for (text,) in database.execute("select text from line where receiver = ? order by number", (name,))]
            if wanted != heard:
                lost, more = Counter(wanted) - Counter(heard), Counter(heard) - Counter(wanted)
                found.append(f"lines of {name}: {lost.total()} lost, {more.total()} doubled, of {len(wanted)}")
        return found

    def _reading_faults(self, database: sqlite3.Connection) -> list[str]:
        """No message was stored twice; where no receiver was killed each was stored."""
        stored = Counter(database.execute("select address, counter from reading").fetchall())
        # (an access number of mode 5 comes again behind 256 messages)
        sent = Counter((meter.name, number if meter.mode == 7 else number % 256)
                       for meter in self.meters for number in range(1, meter.counter + 1))
        found = [f"readings: {count} of {it}" for it, count in stored.items() if count > sent[it]][:5]
        if not self.plan.is_live:
            lost = {(meter.name, number) for meter in self.meters for number in range(1, meter.counter + 1)
                    if number not in meter.lost} - stored.keys()
            found += [f"readings: {len(lost)} lost, as {sorted(lost)[0]}"] if lost else []
        return found

    def _keys_told(self) -> list[str]:
        """No key stands in a log."""
        keys = [key.hex() for meter in self.meters for key in (meter.key, meter.other) if key]
        texts = [path.read_text() for path in self.folder.glob("*log")]
        return ["a key stands in a log"] if any(key in text for key in keys for text in texts) else []

    def places(self) -> Counter[str]:
        """Where it died of itself, and how often."""
        path = self.folder / "deaths"
        return Counter(path.read_text().splitlines()) if path.exists() else Counter()

    def counts(self) -> str:
        """What was done, in words."""
        with closing(sqlite3.connect(self.config.database)) as database:
            tables = {name: database.execute(f"select count(*) from {name}").fetchone()[0]
                      for name in ("line", "reading", "outbox", "command")}
            states = dict(database.execute("select state, count(*) from command group by state").fetchall())
        return f"deaths {self.deaths} at {len(self.places())} places; {tables}, ticks {self._ticks()}, commands {states}"

    def end(self) -> None:
        """Ends all that it started."""
        for name in self.receiving:
            self.kill_receiver(name)
        if self.service:
            self.service.end()
        if self.listener:
            self.listener.end()
        if self.broker:
            self.broker.end()
