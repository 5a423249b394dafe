"""The rows of a session, as the program said them."""
from __future__ import annotations

import json
import logging
import sqlite3
from collections import Counter
from collections.abc import Sequence
from operator import itemgetter
from typing import Any

from . import store
from .config import Config, Ticks
from .events import Event
from .publications import Publications
from .steps import Block, Told

log = logging.getLogger("wmbus")

MOST_STRANGERS = 1000
RECORD = ("quantity", "unit", "exponent", "value", "function", "storage", "tariff", "subunit", "modifiers", "raw")
record_row = itemgetter(*RECORD)


class Writing:
    """Writes what a session said, within its transaction."""

    def __init__(self, config: Config, database: sqlite3.Connection, now: float) -> None:
        self.config, self.database, self.now = config, database, now
        self.publications = Publications(config.mqtt, database)
        self.counts: Counter[str] = Counter()
        # the receiver that heard a meter last, and what its last step but one changed of its window
        self.receivers: dict[str, str] = {}
        self.opened: set[str] = set()
        self.ticked: set[str] = set()
        self.outcomes = {"stored": self._stored, "queued": self._queued, "cancelled": self._cancelled, "refused": self._refused,
                         "rekeyed": self._rekeyed, "ticked": self._ticked}
        # rows that are written at the session's end
        self.lines: list[tuple[Any, ...]] = []
        (self.next_reading,) = database.execute("select coalesce(max(id), 0) + 1 from reading").fetchone()
        self.readings: list[tuple[Any, ...]] = []
        self.records: list[tuple[Any, ...]] = []
        self.refusals: dict[tuple[str, str], tuple[str, int, int]] = {}
        self.strangers: dict[str, tuple[int, str | None]] = {}

    def write(self, batch: Sequence[Event], told: Told) -> None:
        """All rows of a session."""
        row = self.database.execute("select seq from sqlite_sequence where name = 'line'").fetchone()
        for number, (event, said) in enumerate(zip(batch, told.lines, strict=True), row[0] + 1 if row else 1):
            self._line(event, number)
            if said["kind"] == "step":
                self._step(event, said, number)
            elif said["kind"] == "stranger":
                self._stranger(event, said)
            elif event.command:
                self._refuse(event.command, f"{said['kind']} {said['reason']}")
        self._gathered()
        self._blocks(told.blocks)
        self.counts["sessions"] += 1
        for kind in ("strangers", "unframed", "bad"):
            self.counts[kind] += told.counts[kind]
        for name, count in self.counts.items():
            store.add_total(self.database, name, count)

    def _line(self, event: Event, number: int) -> None:
        """The line itself, with its number among all lines."""
        receiver = event.spooled.receiver if event.spooled else None
        self.counts["lines" if event.spooled else "orders"] += 1
        self.lines.append((number, receiver, event.text, event.due, self.now))

    def _gathered(self) -> None:
        """The rows that were gathered, of each table at once."""
        self.database.executemany("insert into line (number, receiver, text, due, made) values (?, ?, ?, ?, ?)", self.lines)
        self.database.executemany(
            "insert into reading (id, line, address, counter, moment, receiver, payload, fault, more, made)"
            " values (?, ?, ?, ?, ?, ?, ?, ?, ?, ?)", self.readings)
        self.database.executemany(
            f"insert into record (reading, place, {', '.join(RECORD)}) values (?, ?{', ?' * len(RECORD)})", self.records)
        self.database.executemany(
            "insert into refusal values (?, ?, ?, ?, ?, ?) on conflict (address, reason) do update set words = excluded.words,"
            " times = times + excluded.times, last_line = excluded.last_line, last_made = excluded.last_made",
            [(*key, words, times, line, self.now) for key, (words, times, line) in self.refusals.items()])
        self.database.executemany(
            "insert into stranger values (?, ?, ?, ?) on conflict (address) do update set times = times + excluded.times,"
            " receiver = excluded.receiver, last_made = excluded.last_made",
            [(address, times, receiver, self.now) for address, (times, receiver) in self.strangers.items()])
        if self.strangers:
            self.database.execute("delete from stranger where address in"
                                  " (select address from stranger order by last_made desc limit -1 offset ?)", (MOST_STRANGERS,))

    def _step(self, event: Event, said: dict[str, Any], number: int) -> None:
        """A meter's step."""
        if event.spooled:
            self.receivers[said["address"]] = event.spooled.receiver
        self.counts[said["outcome"]] += 1
        write = self.outcomes.get(said["outcome"])
        if write:
            write(event, said, number)

    def _stored(self, event: Event, said: dict[str, Any], number: int) -> None:
        """A reading with its records, the command that it confirms, the downlink that is due."""
        address, receiver = said["address"], event.spooled.receiver if event.spooled else None
        ident = self.next_reading
        self.next_reading += 1
        self.readings.append((ident, number, address, said["counter"], _signed(said["at"]), receiver, said["payload"], said["fault"],
                              said["more"], self.now))
        self.records += [(ident, place, *record_row(record)) for place, record in enumerate(said["records"]) if "quantity" in record]
        self.publications.reading(number, said)
        if said["confirmed"] is not None:
            self._change(address, said["confirmed"], "confirmed")
        if said["sent"]:
            self._sent(address, receiver, said["sent"])

    def _sent(self, address: str, receiver: str | None, sent: dict[str, Any]) -> None:
        """A downlink for the radio of the receiver that heard the meter."""
        self.opened.add(address)
        self.counts["downlinks"] += 1
        self.database.execute("insert into outbox (receiver, address, down, frame, command, made) values (?, ?, ?, ?, ?, ?)",
                              (receiver or "", address, sent["down"], sent["frame"], sent["id"], self.now))
        self.database.execute("update command set tries = tries + 1 where address = ? and number = ?", (address, sent["id"]))

    def _queued(self, event: Event, said: dict[str, Any], number: int) -> None:
        """A command has its number; one that stands among a receiver's lines gets a row."""
        ident = event.command or f"line {number}"
        if event.command is None:
            payload = event.text.split(" ")[2].strip().lower()
            self.database.execute("insert into command (id, address, kind, payload, state, number, made, changed, asked_by)"
                                  " values (?, ?, 'send', ?, 'queued', ?, ?, ?, ?)",
                                  (ident, said["address"], payload, said["id"], self.now, self.now,
                                   f"a line of receiver {event.spooled.receiver if event.spooled else '(none)'}"))
        else:
            self.database.execute("update command set state = 'queued', number = ?, changed = ? where id = ?", (said["id"], self.now, ident))
        (asked_by,) = self.database.execute("select asked_by from command where id = ?", (ident,)).fetchone()
        log.info("command %s for meter %s is queued; who asked for it: %s", ident, said["address"], asked_by or "unknown")
        self.publications.command(ident)

    def _cancelled(self, event: Event, said: dict[str, Any], number: int) -> None:
        """A command isn't sent any more."""
        self._change(said["address"], said["id"], "cancelled")

    def _rekeyed(self, event: Event, said: dict[str, Any], number: int) -> None:
        """The meter has its new second key, which stands in its block."""
        if event.command:
            self.database.execute("update command set state = 'done', payload = '', changed = ? where id = ?", (self.now, event.command))
            self.publications.command(event.command)

    def _ticked(self, event: Event, said: dict[str, Any], number: int) -> None:
        """The meter's window is closed, its fragments are older, and a command may be given up."""
        self.ticked.add(said["address"])
        self.opened.discard(said["address"])
        if said["expired"] is not None:
            self._change(said["address"], said["expired"], "expired")

    def _refused(self, event: Event, said: dict[str, Any], number: int) -> None:
        """A refusal, counted by its reason."""
        words = " ".join([said["reason"], *(str(value) for value in said["values"])])
        key = said["address"], said["reason"]
        self.refusals[key] = words, self.refusals.get(key, ("", 0, 0))[1] + 1, number
        if event.command is None:
            return
        if said["event"] == "cancel":
            # it was confirmed or given up before
            self.database.execute("update command set wish = null, changed = ? where id = ?", (self.now, event.command))
            return
        self._refuse(event.command, words)

    def _refuse(self, ident: str, words: str) -> None:
        """A command that isn't taken, and why."""
        self.database.execute("update command set state = 'refused', reason = ?, wish = null, changed = ?,"
                              " payload = case kind when 'rekey' then '' else payload end where id = ?", (words, self.now, ident))
        self.publications.command(ident)

    def _change(self, address: str, number: int, state: str) -> None:
        """A command's new state, told by its number."""
        self.database.execute("update command set state = ?, wish = null, changed = ? where address = ? and number = ?",
                              (state, self.now, address, number))
        for (ident,) in self.database.execute("select id from command where address = ? and number = ?", (address, number)).fetchall():
            self.publications.command(ident)

    def _stranger(self, event: Event, said: dict[str, Any]) -> None:
        """A meter that isn't known; the last ones are kept."""
        receiver = event.spooled.receiver if event.spooled else None
        if event.command:
            self._refuse(event.command, "the meter is unknown")
        self.strangers[said["address"]] = self.strangers.get(said["address"], (0, None))[0] + 1, receiver

    def _blocks(self, blocks: dict[str, Block]) -> None:
        """What is known of the meters now, and when their ticks are due."""
        self.database.executemany("update meter set block = ?, waits = ?, holds = ?, receiver = coalesce(?, receiver) where address = ?",
                                  [(it.text, it.waits, it.holds, self.receivers.get(address), address) for address, it in blocks.items()])
        was_due = dict(self.database.execute("select address, due from meter where address in (select value from json_each(?))",
                                             (json.dumps(list(blocks)),)).fetchall())
        anew = self.opened | self.ticked
        due = {address: next_due(self.config.ticks, self.now, it, None if address in anew else was_due[address])
               for address, it in blocks.items()}
        put_due(self.database, [(moment, address) for address, moment in due.items() if moment != was_due[address]])


def next_due(ticks: Ticks, now: float, block: Block, due: float | None) -> float | None:
    """When a meter's next tick is due, where one was due then: a window is closed once its meter listens no more, and fragments that
    are held grow older from time to time."""
    if block.waits is None and not block.holds:
        return None
    if due is None:
        return now + (ticks.fragments if block.waits is None else ticks.window)
    # (where the clock was set back the tick still comes)
    return min(due, now + max(ticks.window, ticks.fragments))


def put_due(database: sqlite3.Connection, rows: Sequence[tuple[float | None, str]]) -> None:
    """When meters' ticks are due, in the transaction of the session that says so."""
    database.executemany("update meter set due = ? where address = ?", rows)


def _signed(moment: int) -> int:
    """A moment as SQLite holds it, which has no numbers from 2^63 on."""
    return min(moment, (1 << 63) - 1)

