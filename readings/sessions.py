"""Rounds of `wmbus continue` over a folder, without a service: what receivers' files came in is heard, and a report, the last readings,
downlinks and the next state come of it. Whenever it is killed or the power fails, the next start goes on as if nothing had been;
docs/SESSIONS.md says what is in the folder."""
from __future__ import annotations

from readings import quiet

import argparse
import contextlib
import fcntl
import os
import re
import shutil
import subprocess
import sys
import threading
import time
from pathlib import Path

from readings import programs
from readings.version import ShowVersion

FAULTY_FOLDER, IN_USE, STOPPED = 1, 9, 130
# what may be read or written by others than a file's owner
BY_OTHERS = 0o077
RECEIVERS = 16
# RECEIVER, or RECEIVER.ANYTHING; other names are passed over, and such as the number of a round makes longer than a file's may be
NAME = re.compile(r"(?=.{1,200}$)[0-9A-Za-z_-]+(?:\.[0-9A-Za-z._-]+)?")
STATUSES = (f"exit status: 0 no file is left to be heard, {FAULTY_FOLDER} the folder isn't as it has to be, 2 faulty words, "
            f"{IN_USE} another one works on the folder, {STOPPED} it was interrupted (0 with --every), else that of wmbus")


class Stop(Exception):
    """Why no further round is made, and the exit status."""

    def __init__(self, status: int, words: str) -> None:
        super().__init__(words)
        self.status = status


def say(words: str) -> None:
    """Tells what was done; the round stands where that can't be told."""
    try:
        print(f"sessions: {words}", flush=True)
    except OSError as fault:
        # (what is still to be said goes nowhere, so that the interpreter's end says nothing of it)
        with contextlib.suppress(OSError):
            os.dup2(os.open(os.devnull, os.O_WRONLY), sys.stdout.fileno())
        raise Stop(FAULTY_FOLDER, f"the standard output can't be written: {fault.strerror}; the rounds up to now count") from None


def sync(path: Path) -> None:
    """Has what was written to a file, or the names in a folder, stand on the disk."""
    opened = os.open(path, os.O_RDONLY)
    try:
        os.fsync(opened)
    finally:
        os.close(opened)


def move(source: Path, target: Path) -> None:
    """Moves a file, unless that was done before."""
    if source.exists() and not target.exists():
        os.rename(source, target)


class Folder:
    """The folder of sessions, and the names in it."""

    def __init__(self, path: Path) -> None:
        self.path, self.state, self.next = path, path / "state", path / "next.tmp"
        self.last, self.readings = path / "last", path / "readings.json"
        # the outputs of a round: while they are made, and once all of them stand on the disk
        self.making, self.made = path / "round.tmp", path / "round"
        self.rx, self.tx, self.reports, self.heard = (path / name for name in ("rx", "tx", "reports", "heard"))

    def lock(self) -> int:
        """Keeps others away as long as this process lives, or a program that it started."""
        # (above the standard streams: in the place of a closed one it wouldn't be handed on)
        lock = fcntl.fcntl(os.open(self.path / "lock", os.O_RDWR | os.O_CREAT, 0o600), fcntl.F_DUPFD_CLOEXEC, 3)
        try:
            fcntl.flock(lock, fcntl.LOCK_EX | fcntl.LOCK_NB)
        except BlockingIOError:
            raise Stop(IN_USE, f"another one works on {self.path}, or a program that it started") from None
        return lock

    def prepare(self) -> None:
        """Makes the folders that are missing; the state has to be there."""
        for folder in (self.rx, self.tx, self.reports, self.heard):
            folder.mkdir(exist_ok=True)
        if not self.state.is_file():
            raise Stop(FAULTY_FOLDER, f"{self.state} isn't there: put a roster or a state there")
        if self.state.stat().st_mode & BY_OTHERS:
            with contextlib.suppress(OSError):
                print(f"sessions: {self.state} has keys, and others can read it: chmod 600 {self.state}", file=sys.stderr)

    def waiting(self) -> list[str]:
        """Of each receiver the first file by name, of at most sixteen receivers: those whose files have waited longest."""
        first: dict[str, str] = {}
        for name in sorted(os.listdir(self.rx)):
            if NAME.fullmatch(name) and (self.rx / name).is_file():
                first.setdefault(name.split(".")[0], name)
        return sorted(sorted(first.values(), key=lambda name: (self.rx / name).stat().st_mtime)[:RECEIVERS])

    def number(self) -> int:
        """The number of the next round, above those of all rounds of which something is there."""
        told = [self.last.read_text().strip()] if self.last.exists() else []
        told += [name.split(".")[0] for place in (self.reports, self.tx, self.heard) for name in os.listdir(place)]
        return 1 + max((int(it) for it in told if it.isdecimal()), default=0)


def throw_away(folder: Folder) -> None:
    """Takes away what a round made that doesn't count. The finished outputs go first: without NEXT beside them they would count."""
    if folder.made.exists():
        os.rename(folder.made, folder.making)
        sync(folder.path)
    if folder.making.exists():
        shutil.rmtree(folder.making)
    folder.next.unlink(missing_ok=True)


def hear(folder: Folder, program: str, names: list[str], lock: int) -> None:
    """Runs a session over these files, into names that don't count yet. The program keeps the lock too."""
    (folder.making / "tx").mkdir(parents=True)
    asked = [program, "continue", "state", folder.next.name, f"{folder.making.name}/readings.json"]
    asked += [word for name in names for word in (f"rx/{name}", f"{folder.making.name}/tx/{name}")]
    with open(folder.making / "report", "wb") as report:
        done = subprocess.run(asked, cwd=folder.path, stdin=subprocess.DEVNULL, stdout=report, pass_fds=[lock], check=False)
    if done.returncode:
        throw_away(folder)
        told = f"the session over {' '.join(names)} ended with status {done.returncode}"
        raise Stop(max(done.returncode, FAULTY_FOLDER), f"{told}; nothing of it counts, and its files stay in {folder.rx}")


def commit(folder: Folder) -> None:
    """Puts the outputs in place, and then NEXT in the state's: from that moment the round counts."""
    for file in [*sorted(folder.making.rglob("*")), folder.making, folder.next]:
        sync(file)
    os.rename(folder.making, folder.made)
    sync(folder.path)
    os.rename(folder.next, folder.state)
    sync(folder.path)


def hand_out(folder: Folder) -> str:
    """Gives away what a round made that counts, and takes the files that it heard out of the way; what was done before isn't done again."""
    number, *names = (folder.made / "names").read_text().split()
    downlinks = [name for name in names if (folder.made / "tx" / name).exists() and (folder.made / "tx" / name).stat().st_size]
    move(folder.made / "report", folder.reports / number)
    if (folder.made / "readings.json").exists():
        os.rename(folder.made / "readings.json", folder.readings)
    for name in downlinks:
        move(folder.made / "tx" / name, folder.tx / f"{number}.{name}")
    for name in names:
        move(folder.rx / name, folder.heard / f"{number}.{name}")
    told = folder.path / "last.tmp"
    told.write_text(f"{number}\n")
    sync(told)
    os.rename(told, folder.last)
    for place in (folder.reports, folder.tx, folder.heard, folder.rx, folder.path):
        sync(place)
    os.rename(folder.made, folder.making)
    sync(folder.path)
    # (the names go last: as long as they are there it is known that this round counts)
    shutil.rmtree(folder.making / "tx")
    shutil.rmtree(folder.making)
    return f"round {number}: heard {' '.join(names)}" + (f", downlinks of {' '.join(downlinks)}" if downlinks else "")


def recover(folder: Folder) -> None:
    """Goes on where the one before was stopped: a round counts where its outputs are in place and NEXT became the state."""
    if folder.made.exists() and not folder.next.exists():
        say(f"{hand_out(folder)} (the rest of a round that was stopped)")
    elif (folder.making / "names").exists() and not folder.next.exists():
        # (all of it was handed out)
        shutil.rmtree(folder.making)
    elif folder.made.exists() or folder.making.exists() or folder.next.exists():
        throw_away(folder)
        say("a round was stopped before it counted; its files are heard again")


def make_round(folder: Folder, program: str, lock: int) -> bool:
    """One round, if a file waits to be heard."""
    names = folder.waiting()
    if names:
        number = folder.number()
        hear(folder, program, names, lock)
        (folder.making / "names").write_text("".join(f"{word}\n" for word in [f"{number:06}", *names]))
        commit(folder)
        say(hand_out(folder))
    return bool(names)


def seconds(text: str) -> float:
    """A number of seconds above 0."""
    number = float(text)
    if not 0 < number < threading.TIMEOUT_MAX:
        raise ValueError
    return number


def words() -> argparse.Namespace:
    """The words behind the script's name."""
    parser = argparse.ArgumentParser(prog="bin/sessions", description=__doc__, epilog=STATUSES)
    parser.add_argument("--version", action=ShowVersion)
    parser.add_argument("folder", metavar="FOLDER", type=Path,
                        help="has the file state, a roster at first, and rx/, into which receivers' files are renamed")
    parser.add_argument("--every", metavar="SECONDS", type=seconds,
                        help="goes on, and looks for files so often; else it ends where none is left")
    parser.add_argument("--program", metavar="FILE", help="the program wmbus, where it isn't that of this repository")
    return parser.parse_args()


def run() -> int:
    """Makes rounds until no file is left, or for ever."""
    asked = words()
    try:
        folder = Folder(asked.folder.resolve(strict=True))
        program = os.path.realpath(asked.program) if asked.program else programs.path("wmbus")
        lock = folder.lock()
        folder.prepare()
        recover(folder)
        while make_round(folder, program, lock) or asked.every is not None:
            if not folder.waiting():
                time.sleep(asked.every or 0)
    except Stop as stop:
        print(f"sessions: {stop}", file=sys.stderr)
        return stop.status
    except subprocess.CalledProcessError as fault:
        print("sessions: there is no program wmbus that can be started, as is said above", file=sys.stderr)
        return fault.returncode
    except OSError as fault:
        print(f"sessions: {fault}", file=sys.stderr)
        return FAULTY_FOLDER
    except KeyboardInterrupt:
        # (by an interruption alone it ends where it is to go on for ever)
        if asked.every is None:
            print("sessions: stopped; the next start goes on", file=sys.stderr)
            return STOPPED
    return 0
