"""What a service's database, radios and messages have to be: those of one uncut session of the proved program over all lines as they
were committed."""
from __future__ import annotations

import json
import sqlite3
import subprocess
from collections import Counter
from collections.abc import Iterator
from pathlib import Path

from wmbus_service.steps import state_text

from .processes import PATIENCE


class Uncut:
    """One session of `wmbus continue` over all lines."""

    def __init__(self, wmbus: str, roster: str, lines: list[str], folder: Path) -> None:
        folder.mkdir(exist_ok=True)
        (folder / "roster").write_text(roster)
        (folder / "rx").write_bytes("".join(f"{line}\n" for line in lines).encode("latin-1"))
        names = [str(folder / name) for name in ("roster", "next", "readings", "rx", "tx")]
        done = subprocess.run([wmbus, "continue", *names], capture_output=True, check=True, timeout=PATIENCE)
        self.state, self.frames = (folder / "next").read_text(), [line.split()[1] for line in (folder / "tx").read_text().splitlines()]
        self.steps = list(steps_of(done.stdout.decode()))

    def readings(self) -> list[tuple[int, str, int, int, str]]:
        """What was stored: line, meter, counter, moment, payload."""
        return sorted((line, address, int(said[1]), int(said[2]), said[3]) for address, line, said in self.steps if said[0] == "stored")

    def refusals(self) -> Counter[tuple[str, str]]:
        """How often each meter's lines were refused, by the first word of the reason."""
        return Counter((address, said[1]) for address, _, said in self.steps if said[0] == "refused")

    def commands(self) -> dict[tuple[str, int], str]:
        """What became of each command."""
        found: dict[tuple[str, int], str] = {}
        windows: dict[str, list[int]] = {}
        for address, _, said in self.steps:
            waiting = windows.setdefault(address, [])
            if said[0] == "queued":
                waiting.append(int(said[1]))
                found[address, int(said[1])] = "queued"
            for word, state in (("confirmed", "confirmed"), ("expired", "expired"), ("cancelled", "cancelled")):
                if word in said:
                    ident = int(said[said.index(word) + 1])
                    waiting.remove(ident)
                    found[address, ident] = state
            if "sent" in said:
                # (the oldest command that waits is the one that is sent)
                found[address, waiting[0]] = "sent"
        return found


def steps_of(report: str) -> Iterator[tuple[str, int, list[str]]]:
    """A report's steps: meter, line, answer."""
    address = ""
    for line in report.split("\n"):
        word, _, rest = line.partition(" ")
        if word == "meter":
            address = rest.split(" ")[0]
        elif word == "step":
            _, number, *said = rest.split(" ")
            yield address, int(number), said


def differences(database: sqlite3.Connection, uncut: Uncut) -> list[str]:
    """Where the database isn't what the uncut session says."""
    own = database.execute("select value from setting where name = 'own'").fetchone()[0]
    stored = database.execute("select line, address, counter, moment, payload from reading order by line").fetchall()
    told = {
        "readings": (uncut.readings(), stored),
        "refusals": (uncut.refusals(), refusals_of(database)),
        "commands": (uncut.commands(), {(address, number): state for address, number, state in database.execute(
            "select address, number, state from command where number is not null")}),
        "downlinks": (sorted(uncut.frames), sorted(frame for (frame,) in database.execute("select frame from outbox"))),
        "state": (uncut.state, state_text(own, (block for (block,) in database.execute("select block from meter order by place")))),
    }
    return [f"{name}: {difference(wanted, found)}" for name, (wanted, found) in told.items() if wanted != found]


def difference(wanted: object, found: object) -> str:
    """Two values that should be one, where they differ."""
    if isinstance(wanted, dict) and isinstance(found, dict):
        return str([(key, wanted.get(key), found.get(key)) for key in {*wanted, *found} if wanted.get(key) != found.get(key)][:4])
    if isinstance(wanted, list) and isinstance(found, list):
        lacking, more = [it for it in wanted if it not in found][:2], [it for it in found if it not in wanted][:2]
        return f"{len(wanted)} wanted, {len(found)} found; lacking {lacking}, more {more}"
    return f"wanted {str(wanted)[-300:]}, found {str(found)[-300:]}"


def refusals_of(database: sqlite3.Connection) -> Counter[tuple[str, str]]:
    """How often each meter's lines were refused, as the database counts them."""
    found: Counter[tuple[str, str]] = Counter()
    for address, reason, times in database.execute("select address, reason, times from refusal"):
        found[address, reason.split(" ")[0]] += times
    return found


def twice_ticked(database: sqlite3.Connection) -> list[str]:
    """Ticks that came again for the same moment at which they were due."""
    rows = database.execute("select text, count(*) from line where due is not null group by text, due having count(*) > 1").fetchall()
    return [f"ticks: {text} came {count} times where it was due once" for text, count in rows]


def radio_faults(database: sqlite3.Connection, sent: list[str]) -> list[str]:
    """What the radios sent, and what was committed to be sent."""
    from reference.frames import telegram_a
    made = {frame: (address, down) for address, down, frame in database.execute("select address, down, frame from outbox")}
    waiting = database.execute("select count(*) from outbox where sent is null").fetchone()[0]
    frames: dict[bytes, set[str]] = {}
    for frame in sent:
        telegram = telegram_a(bytes.fromhex(frame))
        frames.setdefault(telegram[15:19] + telegram[28:36], set()).add(frame)
    found = [f"downlinks: {len(set(sent) - made.keys())} frames were sent that aren't committed"] if set(sent) - made.keys() else []
    found += [f"downlinks: {len(made.keys() - set(sent))} were never sent"] if made.keys() - set(sent) else []
    found += [f"downlinks: {waiting} aren't marked"] if waiting else []
    return found + [f"downlinks: a counter with {len(it)} frames" for it in frames.values() if len(it) > 1]


def message_faults(database: sqlite3.Connection, heard: list[tuple[str, str, bool]], topic: str) -> list[str]:
    """Each reading was published, and the last one of each meter last."""
    told: dict[str, list[int]] = {}
    for name, text, _ in heard:
        if name.startswith(f"{topic}/meter/"):
            told.setdefault(name.rsplit("/", 1)[1], []).append(json.loads(text)["line"])
    wanted: dict[str, list[int]] = {}
    for address, line in database.execute("select address, line from reading order by line"):
        wanted.setdefault(address, []).append(line)
    lacking = sum(len(set(lines) - set(told.get(address, []))) for address, lines in wanted.items())
    found = [f"messages: {lacking} readings weren't published"] if lacking else []
    return found + [f"messages: the last one of {address} isn't its last reading" for address, lines in wanted.items()
                    if told.get(address, [0])[-1] != lines[-1]]
