"""A fleet on this machine: a RabbitMQ and a PostgreSQL of its own, gateways of a made town, intake, sessions, sender and page, in a folder
that goes again; all without a radio, and beside whatever else runs here."""
from __future__ import annotations

import fcntl
import os
import secrets
import shutil
import subprocess
import sys
import tempfile
import threading
import time
from collections.abc import Callable, Iterator
from contextlib import contextmanager, suppress
from pathlib import Path

from wmbus_service.config import unproved_words
from wmbus_service.ending import Ending
from wmbus_service.trouble import Trouble

from . import commands, gateways, lifeline, own_servers, store
from .config import Config, Page
from .made_town import LISTENING, Town
from .own_servers import Both
from .status import figures, in_words

AREAS = {"north": ("north-1", "north-2"), "south": ("south-1", "south-2")}
# made known, and never started
SILENT = "south-3"
PARTS = ("intake", "sessions", "sessions", "downlinks")
COMMAND, PAYLOAD = "read-out", "0b"
# so often the town's next meters send; so long the parts have to end, and to hear what came
STEP, ENDING, PATIENCE = 0.5, 20.0, 120.0
FIRST_SECONDS = 3600
FOLDER = "wmbus-fleet-demo-"

Say = Callable[[str], None]


class Demo:
    """A fleet over servers, with a town whose meters send all within so many seconds."""

    def __init__(self, both: Both, folder: Path, name: str, count: int, seconds: float) -> None:
        self.folder, self.seconds, self.name = folder, seconds, name
        self.gateways = [gateway for names in AREAS.values() for gateway in names]
        self.town = Town(count, len(self.gateways), int(time.time()) - FIRST_SECONDS)
        self.config = Config(database=both.postgres.make(name), broker=both.rabbit.told)
        self.parts: list[subprocess.Popen[bytes]] = []
        self._make()

    def _make(self) -> None:
        """Areas, gateways with users of their own, and the town's meters."""
        store.init(self.config.database)
        self._write("fleet.toml", f'database = "{self.config.database}"\n' + _broker_text(self.config, self.config.broker.user))
        with store.connect(self.config.database) as database:
            for area, names in AREAS.items():
                commands.add_area(self.config, database, self._named(area))
                for name in names + ((SILENT,) if SILENT.startswith(area) else ()):
                    self._make_gateway(database, area, name)
            commands.take_roster(self.config, database, self.town.roster(), "the made town")
            names_file = self._write("names", self.town.names())
            commands.put_names(database, names_file)

    def _make_gateway(self, database: store.Database, area: str, name: str) -> None:
        """A gateway, as an operator makes one, with the machine that it would run on."""
        gateways.add(self.config, database, self._named(area), self._named(name), self.folder)
        place = self.folder / self._named(name)
        self._write(f"{place.name}/config.toml", f'folder = "{place}/wmbus"\n[receivers.radio]\ndownlinks = "{place}/sent"\n')
        self._write(f"{place.name}/demo.toml", _broker_text(self.config, place.name, place / gateways.PASSWORD)
                    + f'[gateway]\nname = "{place.name}"\narea = "{self._named(area)}"\nreceiver = "radio"\n'
                      f'service = "{place}/config.toml"\ninterval = 0.5\nsilence = 5.0\n')
        (place / "wmbus/spool").mkdir(mode=0o700, parents=True)
        (place / "wmbus").chmod(0o700)

    def _named(self, name: str) -> str:
        """A name of this demo alone."""
        return f"{self.name}-{name}" if self.name != "wmbus" else name

    def _write(self, name: str, text: str) -> Path:
        path = self.folder / name
        path.write_text(text, encoding="utf-8")
        path.chmod(0o600)
        return path

    def start(self) -> None:
        """Starts all parts, each as a process of its own."""
        for part in PARTS:
            self._start(self.folder / "fleet.toml", part)
        for name in self.gateways:
            self._start(self.folder / self._named(name) / "demo.toml", "gateway")

    def _start(self, path: Path, part: str) -> None:
        # (of no module that lies in the folder where the demo is started)
        words = [sys.executable, "-P", "-m", "wmbus_fleet", "--config", str(path), part]
        environment = os.environ | {"PYTHONPATH": os.pathsep.join(it for it in sys.path if it), "PGAPPNAME": f"wmbus {part}"}
        self.parts.append(lifeline.started(words, self.folder / "parts.log", environment))

    def end(self) -> None:
        """Ends all parts, by their ids."""
        for part in self.parts:
            part.terminate()
        limit = time.monotonic() + ENDING
        for part in self.parts:
            try:
                part.wait(max(0.1, limit - time.monotonic()))
            except subprocess.TimeoutExpired:
                part.kill()
                part.wait()
            lifeline.put_down(part)

    # ---- the load

    def send_round(self, moment: int) -> int:
        """Has each meter send once; how many lines the gateways heard."""
        return self._spool(self.town.sent(0, len(self.town.meters), moment))

    def _spool(self, sent: Iterator[tuple[int, str]]) -> int:
        """Appends lines to the spools of the gateways that hear them."""
        texts: dict[int, list[str]] = {}
        for gateway, line in sent:
            texts.setdefault(gateway, []).append(line)
        for gateway, lines in texts.items():
            path = self.folder / self._named(self.gateways[gateway]) / "wmbus/spool/radio.00000001.1.lines"
            with open(path, "a", encoding="ascii") as file:
                file.writelines(lines)
        return sum(map(len, texts.values()))

    def command(self) -> None:
        """Queues a command for the meter that listens."""
        with store.connect(self.config.database) as database:
            commands.put_command(database, COMMAND, self.town.meters[LISTENING].address.hex(), PAYLOAD, time.time())

    def answer(self) -> bool:
        """The meter that listens answers once its gateway's radio has sent it the command; whether it has."""
        if not (self.folder / self._named(self.gateways[LISTENING]) / "sent").exists():
            return False
        self._spool(iter([self.town.answer(int(time.time()))]))
        return True

    def wait(self, count: int, ending: Ending, say: Say) -> None:
        """Waits until so many lines are heard, as long as some are."""
        limit, before = time.monotonic() + PATIENCE, 0
        while (heard := self.heard()) < count and not ending.is_set():
            self.look_at_parts()
            now = time.monotonic()
            if heard > before:
                limit, before = now + PATIENCE, heard
            if now > limit:
                raise Trouble("the demo", f"{heard} of {count} telegrams are heard, and none for {PATIENCE:.0f} s", self._last_words())
            say(f"{heard} of {count} telegrams are heard")
            ending.wait(1.0)

    def heard(self) -> int:
        """How many lines sessions have heard."""
        with store.connect(self.config.database) as database:
            return int(store.one(database, "select coalesce(sum(value), 0)::bigint from total where name = 'heard'"))

    def look_at_parts(self) -> None:
        """Says so where a part has ended."""
        if any(part.poll() is not None for part in self.parts):
            raise Trouble("the demo", "one of its parts ended", self._last_words())

    def _last_words(self) -> str:
        return (self.folder / "parts.log").read_text(encoding="utf-8", errors="replace")[-1000:]

    def go_on(self, ending: Ending) -> None:
        """Has the meters send, each once in so many seconds, until the process is told to end."""
        count, sent = len(self.town.meters), 0
        begun, is_answered = time.monotonic(), False
        while not ending.wait(STEP):
            due = int((time.monotonic() - begun) / self.seconds * count)
            while sent < due and not ending.is_set():
                place = sent % count
                step = min(due - sent, count - place)
                self._spool(self.town.sent(place, place + step, int(time.time())))
                sent += step
            is_answered = is_answered or self.answer()
            self.look_at_parts()

    def told(self) -> list[str]:
        """What the fleet says of itself."""
        with store.connect(self.config.database) as database:
            return list(in_words(figures(database)))


def _broker_text(config: Config, user: str, password: Path | None = None) -> str:
    """The configuration of the broker."""
    lines = [f'host = "{config.broker.host}"', f"port = {config.broker.port}", f'user = "{user}"']
    lines += [f'password_file = "{password}"'] if password else [f'management = "{config.broker.management}"']
    return "[broker]\n" + "".join(f"{line}\n" for line in lines)


@contextmanager
def servers(folder: Path) -> Iterator[Both]:
    """Servers that end with the block."""
    lacking = own_servers.missing()
    if lacking:
        raise Trouble("the demo", "it starts a RabbitMQ and a PostgreSQL of its own", f"apt-get install {' '.join(lacking)}")
    both = Both(folder)
    try:
        yield both
    finally:
        both.stop()


@contextmanager
def own_folder() -> Iterator[Path]:
    """A folder that goes with the block, and at the next start where the process is killed: it is locked as long as the process lives."""
    for left in Path(tempfile.gettempdir()).glob(f"{FOLDER}*"):
        with suppress(OSError, Trouble):
            if left.lstat().st_uid == os.geteuid():
                _locked(left)
                remove(left)
    # (it has its name, by which it is found, once it is locked)
    made = Path(tempfile.mkdtemp(prefix="wmbus-fleet-"))
    _locked(made)
    place = made.rename(made.with_name(made.name.replace("wmbus-fleet-", FOLDER)))
    try:
        yield place
    finally:
        remove(place)


def _locked(folder: Path) -> int:
    """Locks a folder, as long as this process lives; that another one has it is an error."""
    opened = os.open(folder, os.O_RDONLY | os.O_DIRECTORY | os.O_NOFOLLOW | os.O_CLOEXEC)
    try:
        fcntl.flock(opened, fcntl.LOCK_EX | fcntl.LOCK_NB)
    except OSError:
        os.close(opened)
        raise
    return opened


def remove(folder: Path) -> None:
    """Takes a folder away, also where servers that are ending still write into it."""
    limit = time.monotonic() + ENDING
    while folder.exists():
        shutil.rmtree(folder, ignore_errors=True)
        if time.monotonic() > limit:
            raise Trouble(folder, "it can't be taken away", f"rm -r {folder}")
        time.sleep(0.1)


def run(count: int, seconds: float, port: int | None, ending: Ending, say: Say) -> None:
    """Has a fleet hear a town until the process is told to end, and serves its page; without a port it says what was read, and ends."""
    if not 1 <= count <= 100_000 or not 0 < seconds < float("inf"):
        raise Trouble("the demo", "it takes 1 to 100,000 meters, which send within seconds above 0")
    if port is not None and not 0 <= port < 1 << 16:
        raise Trouble("the demo", "a port is a number from 0 to 65535", "name another one with --port")
    with own_folder() as place:
        say("RabbitMQ and PostgreSQL start, on this machine alone")
        with servers(place) as both, suppress(KeyboardInterrupt):
            served(both, place, count, seconds, port, ending, say)


def served(both: Both, folder: Path, count: int, seconds: float, port: int | None, ending: Ending, say: Say) -> None:
    """A demo over servers."""
    made = Demo(both, folder, "wmbus", count, seconds)
    say(unproved_words(made.config.programs.steps) or f"{made.config.programs.steps} tells the sessions")
    try:
        made.start()
        made.command()
        lines = sum(made.send_round(int(time.time()) - ago) for ago in (FIRST_SECONDS // 2, 0))
        page = None if port is None else served_page(made.config, port)
        if page:
            say(f"the page: {page[0]}\ntoken for its forms: {page[1]}")
        made.wait(lines, ending, say)
        if page is None:
            say("\n".join(made.told()))
            return
        say(f"{count} meters of {len(made.gateways)} gateways send, each every {seconds:g} s\nCtrl-C ends it, and all that it made goes")
        made.go_on(ending)
    finally:
        made.end()


def served_page(config: Config, port: int) -> tuple[str, str]:
    """The page, served by a thread; its address, and the token for its forms."""
    from wmbus_service.page.serving import plain_server

    from .view.app import create_app
    token = secrets.token_urlsafe(18)
    server = plain_server(create_app(config, token), Page(port=port))
    threading.Thread(target=server.run, daemon=True).start()
    return f"http://127.0.0.1:{server.effective_port}/", token
