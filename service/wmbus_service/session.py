"""Sessions, one after the other: what is there is heard by the proved program, and all that it says is committed in one transaction,
or nothing."""
from __future__ import annotations

import json
import logging
import sqlite3
from collections.abc import Collection, Sequence

from . import events, store
from .config import Config, words_of
from .events import Event
from .publications import Publications, Waiting
from .spool import Spool, misnamed, put_places, receiver_of
from .steps import ProgramFailed, Told, run_steps, state_text
from .trouble import Trouble
from .writing import Writing

log = logging.getLogger("wmbus")

# a state has 4,096 meters at most, and each line may name another one
MOST = 4000
# of each meter its place among all, and its part of the state
Blocks = dict[str, tuple[int, str]]


class Sessions:
    """What is heard, session by session."""

    def __init__(self, config: Config, database: sqlite3.Connection) -> None:
        self.config, self.database = config, database
        self.spools = [Spool(config.spool, name) for name in config.receivers]
        # of which files the log has it that their names are none of a receiver's
        self.misnamed: list[str] = []
        # how many lines the next session takes: fewer after one that the program failed at
        self.most = MOST
        # the line alone at which the program failed last
        self.suspect: Event | None = None
        self.waiting = Waiting(config.mqtt, database)

    def next(self, now: float) -> int:
        """One session over what is there; how many lines it took."""
        self._look_for_receivers()
        batch: list[Event] = []
        try:
            with store.transaction(self.database):
                batch = events.gather(self.config, self.database, self.spools, now, self.most)
                if batch:
                    self._hear(batch, now)
        except ProgramFailed as failed:
            return self._halve(batch, failed, now)
        self.most = min(MOST, self.most * 2)
        for spool in self.spools:
            spool.clear(self.database)
        return len(batch)

    def _look_for_receivers(self) -> None:
        """A receiver that has another name now, or is no more, may have left lines, and one that came into the configuration since then
        has some."""
        if not self.config.spool.is_dir():
            raise Trouble(self.config.spool, "the folder of receivers' lines is gone, and nothing is heard",
                          "start the receivers again (systemctl restart 'wmbus-receiver@*'): they make it")
        found = {name for path in self.config.spool.glob("*.lines") if (name := receiver_of(path.name))}
        self.spools += [Spool(self.config.spool, name) for name in sorted(found - {spool.receiver for spool in self.spools})]
        told, self.misnamed = self.misnamed, misnamed(self.config.spool)
        for words in self.misnamed:
            if words not in told:
                log.error("%s", words)

    def _hear(self, batch: Sequence[Event], now: float) -> None:
        """Has the program hear the lines, and writes what it said."""
        told = self._told(batch)
        put_places(self.database, [event.spooled for event in batch if event.spooled])
        Writing(self.config, self.database, now).write(batch, told)
        self.waiting.bound()

    def _told(self, batch: Sequence[Event]) -> Told:
        """What the program says, over the blocks of the meters for which it says that the lines are."""
        lines = [event.text for event in batch]
        blocks = blocks_of(self.database, {named_in(line) for line in lines})
        while True:
            told = self._run(blocks, lines)
            strangers = {said["address"] for said in told.lines if said["kind"] == "stranger"} - blocks.keys()
            others = blocks_of(self.database, strangers)
            if not others:
                return told
            # (a long header names another meter than the link address)
            blocks |= others

    def _run(self, blocks: Blocks, lines: Sequence[str]) -> Told:
        """A run of the program over some meters' blocks, in the meters' order."""
        own = store.setting(self.database, "own")
        if own is None:
            raise Trouble(self.config.database, "the collector's own address isn't known",
                          "write `own` into the roster, or use `wmbus-service add --own`")
        ordered = (block for _, block in sorted(blocks.values()))
        return run_steps(words_of(self.config.programs.steps), state_text(own, ordered), lines)

    def _halve(self, batch: Sequence[Event], failed: ProgramFailed, now: float) -> int:
        """After a failed session the next one takes half of its lines, until the line at which the program fails is found; that one is
        set aside where the program fails at it once more."""
        if not batch:
            raise Trouble(self.config.programs.line_merge, f"the program fails to merge the receivers' lines: {failed}",
                          "look at its release, or leave it out under [programs]: the service then merges them itself") from None
        if len(batch) > 1:
            log.error("the program failed over %d lines, and nothing of it counts: %s", len(batch), failed)
            self.most = len(batch) // 2
            return len(batch)
        if failed.is_ended():
            # (what a machine lacks, as memory, is no line's fault)
            raise Trouble(self.config.programs.steps, f"the program was ended from outside: {failed}",
                          "look at the machine's memory; the lines stay in the spool, and are heard again") from None
        if batch[0] != self.suspect:
            self.suspect = batch[0]
            log.warning("the program failed over a line, which is heard again: %s", failed)
            return 1
        self._look_without_lines(batch)
        with store.transaction(self.database):
            set_aside(self.config, self.database, batch[0], str(failed), now)
        log.error("the program fails at this line, which is set aside (`wmbus-service status` shows it): %s", failed)
        return 1

    def _look_without_lines(self, batch: Sequence[Event]) -> None:
        """Where the program fails without a line too, it isn't the line's fault."""
        try:
            self._run(blocks_of(self.database, {named_in(event.text) for event in batch}), [])
        except ProgramFailed as failed:
            raise Trouble(self.config.programs.steps, f"the program fails over what is known of the meter, without any line: {failed}",
                          "look at its release and at the meter's block (`wmbus-service export --state`)") from None


def named_in(line: str) -> str:
    """The address that stands in a line at its fixed place; which meter a line is for is said by the program."""
    fields = line.split(" ")
    if len(fields) < 2:
        return ""
    return (fields[2][4:20] if fields[0] in ("A", "B") and len(fields) == 3 else fields[1]).lower()


def blocks_of(database: sqlite3.Connection, addresses: Collection[str]) -> Blocks:
    """What is known of those of these meters that there are."""
    rows = database.execute("select address, place, block from meter where address in (select value from json_each(?))",
                            (json.dumps(list(addresses)),))
    return {address: (place, block) for address, place, block in rows}


def set_aside(config: Config, database: sqlite3.Connection, event: Event, said: str, now: float) -> None:
    """Keeps a line that the program fails at out of all later sessions."""
    if event.spooled:
        put_places(database, [event.spooled])
    if event.command:
        database.execute("update command set state = 'refused', reason = 'the program failed', wish = null, changed = ?,"
                         " payload = case kind when 'rekey' then '' else payload end where id = ?", (now, event.command))
        Publications(config.mqtt, database).command(event.command)
    if event.ticked:
        database.execute("update meter set due = null where address = ?", (event.ticked,))
    receiver = event.spooled.receiver if event.spooled else None
    text = "(a command; its row has it)" if event.command else event.text
    database.execute("insert into aside (receiver, text, said, made) values (?, ?, ?, ?)", (receiver, text, said, now))
    store.add_total(database, "aside", 1)
