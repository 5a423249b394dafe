"""A service over a made building of twelve meters for 400 days, and its page, in a folder that goes again: all without a radio."""
from __future__ import annotations

import os
import secrets
import tempfile
import threading
import time
from collections.abc import Callable, Iterator
from contextlib import contextmanager
from pathlib import Path

from . import meters, store
from .commands import put_command
from .config import Config, Page, Programs, Receiver, unproved_words
from .made_building import CONFIRMED, GIVEN_UP, WAITING, Building
from .service import Service, lock
from .session import MOST
from .status import figures, in_words

DAYS = 400
RECEIVER = "attic"
# behind the made days a telegram comes so often
LIVE_SECONDS = 10.0
# what the three commands say, and to which meter
COMMANDS = {"read-out": (CONFIRMED, "0b"), "valve": (GIVEN_UP, "0405"), "tariff": (WAITING, "0102")}

Say = Callable[[str], None]


class Demo:
    """A building, and the service over it."""

    def __init__(self, folder: Path, programs: Programs, days: int, port: int) -> None:
        self.building = Building(int(time.time()), days)
        self.config = Config(folder=folder / "wmbus", programs=programs, interval=1.0, page=Page(port=port),
                             receivers={RECEIVER: Receiver(downlinks=str(folder / "sent"))})
        store.prepare_folder(self.config.folder)
        self.database = store.open_store(self.config.database, is_new=True)
        # (what would be on the disk after a power cut is no matter here)
        self.database.execute("pragma synchronous = off")
        meters.take_roster(self.config, self.database, self.building.roster(), "the made building")
        for meter in self.building.meters:
            self.database.execute("update meter set name = ? where address = ?", (meter.name, meter.address.hex()))
        self.service = Service(self.config, self.database)
        self.lines = self.config.spool / f"{RECEIVER}.00000001.1.lines"

    def hear(self, say: Say) -> None:
        """Has the service hear all made days, then those lines in which commands go out."""
        lines = list(self.building.history())
        self._spool(*lines)
        heard = 0
        while count := self._turn():
            heard += count
            say(f"{heard} of {len(lines)} telegrams are heard")
        for ident, (name, payload) in COMMANDS.items():
            put_command(self.database, ident, self.building.named(name).address.hex(), payload, time.time())
        self._spool(*self.building.answers())
        while self._turn():
            pass

    def _turn(self) -> int:
        """A turn of the service; none once the process is to end."""
        return 0 if self.service.ending.is_set() else self.service.turn()

    def _spool(self, *lines: str) -> None:
        with open(self.lines, "a", encoding="ascii") as file:
            file.writelines(lines)

    def go_on(self) -> None:
        """Has a meter send from time to time, until this process is told to end."""
        turn, due = 0, time.monotonic()
        while not self.service.ending.wait(self.config.interval):
            if time.monotonic() > due:
                self._spool(self.building.now(turn, int(time.time())))
                turn, due = turn + 1, due + LIVE_SECONDS
            self.service.turn()

    def told(self) -> list[str]:
        """What the service says of its meters, its commands and its strangers."""
        return list(in_words(figures(self.config, self.database) | {"running": True}))[1:]


@contextmanager
def demo(programs: Programs, days: int, port: int) -> Iterator[Demo]:
    """A building whose days are heard, in a folder that goes with it."""
    with tempfile.TemporaryDirectory(prefix="wmbus-demo-") as place:
        made = Demo(Path(place), programs, days, port)
        held = lock(made.config.folder)
        try:
            yield made
        finally:
            made.database.close()
            os.close(held)


def run(programs: Programs, days: int, port: int | None, say: Say) -> None:
    """Has all days be heard, then serves the page until the process is told to end, while meters go on to send. Without a port it says what
    was read in place of a page."""
    with demo(programs, days, port or 0) as made:
        made.service.ending.heed_signals()
        served = None if port is None else Served(made.config)
        say(unproved_words(programs.steps) or f"{programs.steps} tells the sessions")
        made.hear(say)
        if made.service.ending.is_set():
            return
        if served is None:
            say("\n".join(made.told()))
            return
        say(f"the page: {served.address}\ntoken for its forms: {served.token}\nCtrl-C ends it, and all that it made goes")
        made.go_on()


class Served:
    """The page of a demo, served by a thread."""

    def __init__(self, config: Config) -> None:
        from .page import servers
        serving = servers(", or give --text")
        self.token = secrets.token_urlsafe(18)
        server = serving.plain_server(serving.create_app(config, self.token), config.page or Page())
        self.address = f"http://127.0.0.1:{server.effective_port}/"
        threading.Thread(target=server.run, daemon=True).start()
