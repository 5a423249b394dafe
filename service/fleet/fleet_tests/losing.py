"""A fleet whose database is set back to a copy, and one of whose gateways loses its disk."""
from __future__ import annotations

import os
import signal
import subprocess
import time
from collections.abc import Iterator, Sequence
from contextlib import contextmanager
from dataclasses import replace
from pathlib import Path

from wmbus_fleet import backup, commands, store

from . import judged_fleet
from .kill import PATIENCE, Plan, Trial, quiet
from .killed_fleet import Part
from .servers import Both


class Losing(Trial):
    """A trial in which each step is waited for: the lines that were fed have been heard, and all that is open is done."""

    def __init__(self, both: Both, folder: Path, plan: Plan, seed: int) -> None:
        super().__init__(both, folder, plan, seed)
        self.halves = {station.told.name: len(station.lines) // 2 for station in self.stations}

    def start_all(self) -> None:
        """Starts each process, none of which dies of itself."""
        for part in self.all_parts():
            self.start(part, 0.0)

    def end_all(self) -> None:
        """Ends each."""
        for part in self.parts.values():
            part.end()

    def heard(self) -> None:
        """Waits until all that was fed is heard."""
        left = self.drained()
        assert not left, f"{left}\n{self.logs()}"

    def feed(self, is_all: bool) -> None:
        """Radios hear the first half of their lines, or all."""
        for station in self.stations:
            station.feed(len(station.lines) if is_all else self.halves[station.told.name])

    def ask(self, step: int) -> None:
        """A command for each meter, whose payload stands in no address of a frame: these the broker may have in its log."""
        with store.connect(self.config.database) as database:
            for number, meter in enumerate(self.meters):
                self.commands += 1
                commands.put_command(database, f"c{self.commands}", meter.name, f"c0ffee{step:02x}{number:08x}", time.time())


class SetBack(Losing):
    """PostgreSQL is lost behind the first half, and set back to a copy that was made before it."""

    def __init__(self, both: Both, folder: Path, plan: Plan, seed: int, margin: int) -> None:
        super().__init__(both, folder, plan, seed)
        self.margin = margin
        self.made_before: list[tuple[object, ...]] = []

    def run(self) -> list[str]:
        """What isn't as it has to be."""
        try:
            self.start_all()
            for station in self.stations:
                station.feed(len(station.lines) // 4)
            self.heard()
            backup.back_up(self.config, self.folder / "copy")
            self.ask(1)
            self.feed(False)
            self.heard()
            self.end_all()
            self._set_back()
            self.ask(2)
            self.start_all()
            self.feed(True)
            self.heard()
            self.end_all()
            return self.faults()
        finally:
            self.end_all()

    def _set_back(self) -> None:
        """The database is gone, and its copy stands in another one."""
        name = f"{self.name}copy"
        with store.connect(self.config.database) as database:
            self.made_before = database.execute("select address, down, frame from outbox").fetchall()
            self.heard_before = store.one(database, "select count(*) from line where gateway is not null")
        self.config = replace(self.config, database=quiet(self.both.postgres.make(name), name))
        assert backup.restore(self.config, self.folder / "copy", self.margin) == len(self.meters)
        with store.connect(self.config.database) as database:
            self.last_copied = store.one(database, "select coalesce(max(id), 0) from outbox")
            self.heard_copy = store.one(database, "select count(*) from line where gateway is not null")

    def faults(self) -> list[str]:
        """Each gateway's lines stand there once, no reading is lost or doubled, and no counter has two frames in both histories."""
        found: list[str] = []
        with store.connect(self.config.database) as database:
            for station in self.stations:
                found += judged_fleet.line_faults(database, station.told.name, station.lines)
            found += judged_fleet.reading_faults(database, self.meters, self.shared)
            made = {*self.made_before, *database.execute("select address, down, frame from outbox").fetchall()}
        twice = len(made) - len({(address, down) for address, down, _ in made})
        return found + ([f"downlinks: {twice} counters with two frames"] if twice else []) + self.secrets_told()


class InFlight(SetBack):
    """The same with commands in flight when the copy is made: some that no session has, a new key among them, some that the program has,
    some whose downlink waits for the sender, and some that were sent and are confirmed behind the copy."""

    def run(self) -> list[str]:
        """What isn't as it has to be."""
        try:
            self.start_all()
            self.ask(1)
            self._goes_on("select count(*) > 1 and count(distinct state) = 2 from command where state in ('queued', 'sent')")
            with self.stopped("downlinks"):
                self._goes_on("select count(*) > 1 from outbox where sent is null")
                with self.stopped("sessions"):
                    self.ask(2)
                    self._ask_for_key()
                    backup.back_up(self.config, self.folder / "copy")
                self.copied = self._copied()
            sent = [ident for ident, (state, *_) in self.copied.items() if state == "sent"]
            self.ask(3)
            self._goes_on("select count(*) > 0 from command where state in ('confirmed', 'unsure') and id = any(%s)", [sent])
            self.end_all()
            self._set_back()
            self.open_then = self.commands_now()
            self.start_all()
            self.heard()
            self.caught_up = self.commands_now()
            # (with ids that the copy doesn't know)
            self.commands -= len(self.meters)
            self.ask(4)
            self.feed(True)
            self.heard()
            self.flush(0.0)
            self.end_all()
            return self.faults()
        finally:
            self.end_all()

    def _ask_for_key(self) -> None:
        """A new second key for a meter that has one."""
        meter = next(it for it in self.meters if it.other)
        assert meter.other
        with store.connect(self.config.database) as database:
            commands.put_key(database, "key", meter.name, meter.other[::-1].hex(), time.time())

    def _goes_on(self, query: str, values: Sequence[object] = ()) -> None:
        """Radios hear line after line, until the database says so."""
        limit = time.monotonic() + PATIENCE
        while True:
            with store.connect(self.config.database) as database:
                if store.one(database, query, values):
                    return
            assert time.monotonic() < limit, f"{query}\n{self.logs()}"
            for station in self.stations:
                station.feed(station.fed + 1)
            time.sleep(0.2)

    @contextmanager
    def stopped(self, kind: str) -> Iterator[None]:
        """The processes of a kind stand still meanwhile."""
        pids = [child.pid for part, child in self.parts.items() if part.kind == kind]
        for pid in pids:
            os.kill(pid, signal.SIGSTOP)
        try:
            yield
        finally:
            for pid in pids:
                os.kill(pid, signal.SIGCONT)

    def _copied(self) -> dict[str, tuple[str, str, str | None, str]]:
        """The commands as the copy has them."""
        name = f"{self.name}seen"
        words = self.both.postgres.make(name)
        subprocess.run(["pg_restore", "--no-owner", f"--dbname={words}", str(self.folder / "copy")], check=True)
        return commands_in(words)

    def commands_now(self) -> dict[str, tuple[str, str, str | None, str]]:
        """The commands as they are."""
        return commands_in(self.config.database)

    def faults(self) -> list[str]:
        """Beside what has to hold of lines, readings and counters: each command of the copy ends as docs/FLEET.md has it ("Copies"), none
        of them is sent again, and radios sent what stands in one of the histories."""
        found = super().faults()
        with store.connect(self.config.database) as database:
            again = [frame for (frame,) in database.execute("select frame from outbox")]
            own = {ident for (ident,) in database.execute("select c.id from outbox o join command c on c.address = o.address"
                                                          " and c.number = o.command where o.id > %s", (self.last_copied,))}
            waiting = store.one(database, "select count(*) from command where wish is not null or state = 'waiting'")
        found += judged_fleet.frame_faults({*again, *(str(frame) for _, _, frame in self.made_before)},
                                           [frame for station in self.stations for frame in station.sent()])
        found += [f"commands: {waiting} are still open"] if waiting else []
        found += [f"commands: {sorted(own & self.copied.keys())} of the copy were sent again"] if own & self.copied.keys() else []
        now = self.commands_now()
        for ident, (state, kind, _, payload) in self.copied.items():
            wanted = ("cancelled", "restored") if state in IN_FLIGHT else (state, None)
            if (now[ident][0], now[ident][2]) != wanted or state not in IN_FLIGHT and self.open_then[ident] != self.copied[ident]:
                found.append(f"commands: {ident} was {state} in the copy and is {now[ident]}")
            if kind == "rekey" and now[ident][3]:
                found.append("commands: a key that wasn't taken is kept")
        return found


IN_FLIGHT = ("waiting", "queued", "sent")


def commands_in(words: str) -> dict[str, tuple[str, str, str | None, str]]:
    """State, kind, reason and payload of each command."""
    with store.connect(words) as database:
        return {ident: (state, kind, reason, payload) for ident, state, kind, reason, payload in
                database.execute("select id, state, kind, reason, payload from command").fetchall()}


class LostDisk(Losing):
    """A gateway loses its disk behind the first half, and begins anew."""

    def run(self) -> list[str]:
        """What isn't as it has to be."""
        try:
            self.start_all()
            self.feed(False)
            self.heard()
            lost = self.stations[0]
            part = next(it for it in self.parts if it.name == lost.told.name)
            self.parts[part].end()
            self._lose_disk(part)
            self.start(part, 0.0)
            self.feed(True)
            self._drain()
            self.end_all()
            return self.faults()
        finally:
            self.end_all()

    def _lose_disk(self, part: Part) -> None:
        """Nothing is left of its folder. (An epoch is the second in which the file was made.)"""
        epoch, _ = self.stations[0].numbered() or (0, 0)
        assert part.service and part.told
        for path in [*part.service.folder.glob("gateway.*"), *part.service.spool.glob("*.lines")]:
            path.unlink()
        limit = time.monotonic() + 5
        while int(time.time()) <= epoch and time.monotonic() < limit:
            time.sleep(0.05)
