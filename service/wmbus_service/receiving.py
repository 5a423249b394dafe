"""A receiver: what a radio prints goes through line_feed into a file of the spool, without the service's doing. It outlives the
service."""
from __future__ import annotations

import fcntl
import logging
import os
import re
import resource
import select
import shlex
import signal
import subprocess
import time
from contextlib import suppress
from pathlib import Path
from typing import BinaryIO, cast

from .config import Config, Receiver, words_of
from .ending import Ending
from .noise import Noise
from .recorded import Recorded
from .spool import size_of, sync_names
from .store import READ_ONLY, is_read_only, prepare_folder
from .trouble import Trouble

log = logging.getLogger("wmbus")

PAUSE, LOOK, GRACE = 2.0, 60.0, 5.0
# of each file's writer; in front of so much more as it may have to print then the next one begins a new file
MOST_BYTES, ROOM = 64 << 20, 1 << 20
CHUNK = 1 << 16
NUMBER = re.compile(r"\.(\d+)\.\d+\.lines$")
# of each profile: the command, and the format in which line_feed takes what it prints
PROFILES = {
    "rtl_433": ("rtl_433 -f 868.95M -s 1200k -R 104 -F json -M time:unix", "rtl_433"),
    "rtl_wmbus": ("rtl_sdr -f 868.95M -s 1600000 - | env TZ=UTC rtl_wmbus", "rtl_wmbus"),
    "cul": ("{python} -m wmbus_service.culfw {device}", "cul"),
    "tcp": ("{python} -m wmbus_service.tcp {host} {port}", "{format}"),
    "file": ("cat {file}; sleep infinity", "{format}"),
}


def feed_of(name: str, told: Receiver) -> tuple[str, str]:
    """The command and the format of a receiver."""
    command, form = told.command, told.format
    if told.profile:
        if told.profile not in PROFILES:
            raise Trouble(f"receivers.{name}.profile", f"{told.profile} is no profile", f"there are {', '.join(PROFILES)}")
        command, known = PROFILES[told.profile]
        named = {"device": told.device, "host": told.host, "port": str(told.port or ""), "file": told.file, "format": form}
        lacking = [word for word, value in named.items() if "{" + word + "}" in command + known and not value]
        if lacking:
            raise Trouble(f"receivers.{name}", f"the profile {told.profile} wants `{lacking[0]}`")
        quoted = {word: shlex.quote(value) for word, value in named.items()}
        command, form = command.format(python="/usr/bin/python3", **quoted), known.format(**named)
    if not command or not form:
        raise Trouble(f"receivers.{name}", "it has neither a profile nor a command with its format", "docs/SERVICE.md has examples")
    return command, form


def next_name(spool: Path, name: str) -> str:
    """The name of the receiver's next file."""
    numbers = [int(found[1]) for path in spool.glob(f"{name}.*.lines") if (found := NUMBER.search(path.name))]
    return f"{name}.{max(numbers, default=0) + 1:08d}.{time.time_ns()}.lines"


def new_file(spool: Path, name: str) -> int:
    """Makes the receiver's next file, whose writers hold a lock on it as long as one of them lives."""
    path = spool / next_name(spool, name)
    try:
        opened = os.open(path, os.O_WRONLY | os.O_CREAT | os.O_EXCL | os.O_APPEND | os.O_CLOEXEC, 0o600)
    except OSError as fault:
        raise Trouble(path, f"the receiver's next file can't be made, and nothing is heard: {fault.strerror}",
                      READ_ONLY if is_read_only(spool) else "look at the spool's owner and rights, and at the room on its disk") from None
    fcntl.flock(opened, fcntl.LOCK_EX | fcntl.LOCK_NB)
    sync_names(spool)
    return opened


def spooled_bytes(spool: Path) -> int:
    """How many bytes wait in the spool."""
    return sum(size_of(path) for path in spool.glob("*.lines"))


class Receiving:
    """A receiver's feed, which is started again where it ends."""

    def __init__(self, config: Config, name: str) -> None:
        self.config, self.name = config, name
        self.command, self.form = feed_of(name, config.receivers[name])
        self.running: list[subprocess.Popen[bytes]] = []
        self.noises: list[Noise] = []
        self.ending = Ending()

    def run(self) -> None:
        """Feeds the spool until it gets SIGTERM or SIGINT, or the terminal is closed at which somebody tries it."""
        # (who waits for the feed's end sees it then, and cleans up)
        self.ending.heed_signals(lambda: self._signal(signal.SIGTERM))
        prepare_folder(self.config.folder)
        told = self.config.receivers[self.name]
        # (a pipe is none that was recorded)
        if told.profile == "file" and (Path(told.file).is_file() or not Path(told.file).exists()):
            self._hear_recorded(Path(told.file))
            self.ending.wait()
        was_full = False
        while not self.ending.is_set():
            if spooled_bytes(self.config.spool) >= self.config.spool_bytes:
                if not was_full:
                    self._begin_file()
                    log.error("%s: the spool is full, and nothing is heard until sessions have taken lines from it", self.name)
                was_full = True
                self.ending.wait(LOOK)
                continue
            was_full = False
            log.info("%s: %s | line_feed %s", self.name, self.command, self.form)
            self._feed()
            if not self.ending.is_set():
                log.warning("%s: its feed ended, and is started again", self.name)
                self.ending.wait(PAUSE)

    def _hear_recorded(self, path: Path) -> None:
        """Has the lines of a recorded file come into the spool, where they didn't yet."""
        recorded = Recorded(self.config.spool, self.name, path)
        if recorded.is_heard():
            log.info("%s: %s was heard before", self.name, path)
            return
        log.info("%s: %s | line_feed %s", self.name, path, self.form)
        target = next_name(self.config.spool, self.name)
        try:
            with open(path, "rb") as given, open(recorded.making(target), "xb") as made:
                words = [*words_of(self.config.programs.line_feed), self.form]
                self.running = [subprocess.Popen(words, stdin=given, stdout=made, start_new_session=True)]
                status = self.running[0].wait()
            if self.ending.is_set():
                return
            if status:
                raise Trouble(f"receivers.{self.name}", f"line_feed ended with status {status} over {path}", "look at its format")
            recorded.count(target)
        except OSError as fault:
            raise Trouble(f"receivers.{self.name}", f"{path} can't be heard: {fault}", "look at the file, and at the room on the disk") from None
        finally:
            self.running = []
            recorded.making(target).unlink(missing_ok=True)

    def _begin_file(self) -> None:
        """Begins an empty file: of a receiver's files the newest isn't taken away, and so would fill the spool though it was heard."""
        with suppress(Trouble):
            os.close(new_file(self.config.spool, self.name))

    def _feed(self) -> None:
        """One feed to its end, into one file after the other."""
        rest: bytes | None = b""
        try:
            while rest is not None and not self.ending.is_set():
                opened = new_file(self.config.spool, self.name)
                path = Path(os.readlink(f"/proc/self/fd/{opened}"))
                try:
                    rest = self._feed_into(opened, rest)
                finally:
                    os.close(opened)
                    with suppress(FileNotFoundError):
                        # (where a stick isn't there, and no service takes files away, there would be more and more)
                        if not path.stat().st_size:
                            path.unlink()
                if spooled_bytes(self.config.spool) >= self.config.spool_bytes:
                    break
        finally:
            self._end_feed()

    def _feed_into(self, opened: int, begun: bytes) -> bytes | None:
        """Has line_feed fill an open file: first with what the radio printed behind the last one, and then on until it is great enough. What
        it printed behind this one; none once the feed ended."""
        words = [*words_of(self.config.programs.line_feed), self.form]
        try:
            if not self.running:
                self.running = [subprocess.Popen(["/bin/sh", "-c", self.command], stdin=subprocess.DEVNULL, stdout=subprocess.PIPE,
                                                 stderr=subprocess.PIPE, env=environment(), start_new_session=True)]
                self._listen(self.running[0])
            radio = self.running[0]
            feed = subprocess.Popen(words, stdin=subprocess.PIPE, stdout=opened, stderr=subprocess.PIPE, start_new_session=True,
                                    preexec_fn=limit_file)
            self._listen(feed)
        except OSError as fault:
            raise Trouble(f"receivers.{self.name}", f"line_feed can't be started: {fault.strerror}", "name it under [programs]") from None
        self.running = [radio, feed]
        assert radio.stdout is not None and feed.stdin is not None
        with suppress(BrokenPipeError):
            try:
                return self._pass_on(radio.stdout.fileno(), feed, opened, begun)
            finally:
                # (its last lines stand in the file by then)
                feed.stdin.close()
                if self.ending.is_set():
                    self._end_feed()
                feed.wait()
        return None

    def _listen(self, child: subprocess.Popen[bytes]) -> None:
        """Has what a program says in its log come into this one's, within bounds."""
        assert child.stderr is not None
        self.noises.append(Noise(self.name, cast(BinaryIO, child.stderr)))

    def _pass_on(self, printed: int, feed: subprocess.Popen[bytes], opened: int, content: bytes) -> bytes | None:
        """Passes on what the radio prints, until the file is great enough: then up to the end of a line. What is left; none once it ended."""
        assert feed.stdin is not None
        begun, size = b"", 0
        while not self.ending.is_set() and feed.poll() is None:
            told = os.fstat(opened)
            if not told.st_nlink or told.st_size < size:
                # (nobody finds what is written there; the line that was begun goes into the next one whole)
                log.warning("%s: its file of the spool was %s, and it begins another one", self.name, "cut" if told.st_nlink else "deleted")
                return begun + content
            size = told.st_size
            place = content.find(b"\n") + 1 if told.st_size >= MOST_BYTES - ROOM else 0
            put(feed.stdin.fileno(), content[:place] if place else content)
            if place:
                return content[place:]
            # (of what is far too long for a line nothing more is known)
            begun, content = (begun + content).rpartition(b"\n")[2][-CHUNK:], b""
            if select.select([printed], [], [], PAUSE)[0]:
                content = os.read(printed, CHUNK)
                if not content:
                    return None
        return None

    def _end_feed(self) -> None:
        """Ends what this receiver started."""
        self._signal(signal.SIGTERM)
        for child in self.running:
            end_group(child)
            if child.stdout:
                child.stdout.close()
        for noise in self.noises:
            noise.end()
        self.running, self.noises = [], []

    def _signal(self, number: int) -> None:
        """Sends a signal to all that still runs of the feed."""
        for child in self.running:
            if child.returncode is None:
                with suppress(ProcessLookupError):
                    os.killpg(child.pid, number)


def put(opened: int, content: bytes) -> None:
    """Writes all of it into a pipe, which a signal may come between."""
    while content:
        content = content[os.write(opened, content):]


def end_group(child: subprocess.Popen[bytes]) -> None:
    """Waits for a program and all that it started, and kills what doesn't end in time: it would keep the stick from the next start."""
    limit = time.monotonic() + GRACE
    with suppress(ProcessLookupError):
        while time.monotonic() < limit:
            child.poll()
            os.killpg(child.pid, 0)
            time.sleep(0.02)
        os.killpg(child.pid, signal.SIGKILL)
    child.wait()


def environment() -> dict[str, str]:
    """That of a radio's program: the profiles' own find this package, wherever it lies."""
    return os.environ | {"PYTHONPATH": str(Path(__file__).resolve().parents[1])}


def limit_file() -> None:
    """A file grows so far, and its writer then ends."""
    resource.setrlimit(resource.RLIMIT_FSIZE, (MOST_BYTES, MOST_BYTES))
