"""Sessions of the fleet, a shard's one after the other: lines of the inbox, waiting commands and due ticks are heard by the proved
program over the blocks of just their meters, and all that it says is committed in one transaction, or nothing."""
from __future__ import annotations

import logging
import random
import time
from collections.abc import Collection, Sequence

import psycopg
from wmbus_service.config import words_of
from wmbus_service.ending import Ending
from wmbus_service.events import Event, order_line
from wmbus_service.merging import moment_in
from wmbus_service.steps import ProgramFailed, Told, run_steps, state_text
from wmbus_service.trouble import Trouble

from . import broker, mark, store
from .arrived import Arrived, arrived
from .config import Config, Ticks
from .programs import is_lack
from .retention import Retention
from .rows import arrived_of
from .schema import SHARDS
from .store import Database
from .sums import Keeping
from .writing import write

log = logging.getLogger("wmbus")

# a state has 4,096 meters at most, and each line may name another one
MOST = 4000
PAUSE, LET_GO = 0.5, 600.0


class Sessions:
    """Sessions over all shards; of each shard one process at a time has one."""

    def __init__(self, config: Config, database: Database) -> None:
        self.config, self.database = config, database
        # how many lines a shard's next session takes: fewer after one that the program failed at
        self.most = dict.fromkeys(range(SHARDS), MOST)
        # of a shard the line alone at which the program failed last
        self.suspects: dict[int, Event | None] = {}
        # shards in which the program failed over lines with ticks among them: these are heard apart, since there may always be lines, and
        # so many at most
        self.apart: dict[int, int] = {}
        # shards whose last run of the program was ended from outside, and how
        self.ended: dict[int, str] = {}

    def turn(self, now: float) -> int:
        """A session of each shard that has something to hear, from any shard on; the most lines that one took."""
        first = random.randrange(SHARDS)
        return max(self.session((first + place) % SHARDS, now) for place in range(SHARDS))

    def session(self, shard: int, now: float) -> int:
        """One session over what is there for a shard; how many lines it took."""
        batch: list[Event] = []
        try:
            with store.transaction(self.database):
                if not lock(self.database, shard):
                    return 0
                batch = self._gather(shard, now)
                if batch:
                    write(self.database, self.config.ticks, shard, batch, self._told(batch), now)
        except ProgramFailed as failed:
            return self._failed(shard, batch, failed, now)
        self.ended.pop(shard, None)
        most = self.apart if shard in self.apart else self.most
        most[shard] = min(MOST, most[shard] * 2)
        return len(batch)

    def _gather(self, shard: int, now: float) -> list[Event]:
        """What the shard's next session hears: ticks alone, as long as there are some that have to be heard apart."""
        if shard in self.apart:
            batch = ticks_alone(self.database, self.config.ticks, shard, now, self.apart[shard])
            if batch:
                return batch
            del self.apart[shard]
        return gather(self.database, self.config.ticks, shard, now, self.most[shard])

    def _told(self, batch: Sequence[Event]) -> Told:
        """What the program says, over the blocks of the meters that the lines are for."""
        return self._run({address_of(event) for event in batch}, [event.text for event in batch])

    def _run(self, addresses: Collection[str], lines: Sequence[str]) -> Told:
        """A run of the program over some meters' blocks."""
        own = store.setting(self.database, "own")
        if own is None:
            raise Trouble("the database", "the collector's own address isn't known", "`wmbus-fleet commission ROSTER` gives it")
        return run_steps(words_of(self.config.programs.steps), state_text(own, [blocks_of(self.database, addresses)]), lines)

    def _failed(self, shard: int, batch: Sequence[Event], failed: ProgramFailed, now: float) -> int:
        """What is done after a failed session, by why it failed."""
        try:
            return self._tell_end(shard, batch, failed) if is_lack(failed) else self._halve(shard, batch, failed, now)
        except ProgramFailed as ended:
            return self._tell_end(shard, batch, ended)

    def _tell_end(self, shard: int, batch: Sequence[Event], failed: ProgramFailed) -> int:
        """The program was ended from outside, or had no memory: that is no line's fault. The same lines are heard again a moment later,
        half as many at once, which take less of what may lack."""
        most = self.apart if shard in self.apart else self.most
        most[shard] = max(1, len(batch) // 2)
        if self.ended.get(shard) != str(failed):
            log.error("the program was ended from outside, or had no memory, over lines of shard %d, which are heard again: %s; look at the"
                      " machine's memory", shard, failed)
        self.ended[shard] = str(failed)
        store.add_totals(self.database, f"shard {shard}", {"ended": 1})
        return 0

    def _halve(self, shard: int, batch: Sequence[Event], failed: ProgramFailed, now: float) -> int:
        """After a failed session the shard's next one takes half of its lines, until the line at which the program fails is found; that
        one is set aside where the program fails at it once more."""
        if len(batch) > 1:
            log.error("the program failed over %d lines of shard %d, and nothing of it counts: %s", len(batch), shard, failed)
            most = self.apart if shard in self.apart else self.most
            most[shard] = len(batch) // 2
            if any(event.ticked for event in batch):
                self.apart.setdefault(shard, MOST)
            return len(batch)
        if batch[0] != self.suspects.get(shard):
            # (what a machine lacks for a moment, as time, is no line's fault)
            self.suspects[shard] = batch[0]
            log.warning("the program failed over a line, which is heard again: %s", failed)
            return 1
        self._look_without_lines(batch)
        with store.transaction(self.database):
            is_aside = lock(self.database, shard) and set_aside(self.database, batch[0], shard, str(failed), now)
        if is_aside:
            log.error("the program fails at this line, which is set aside (`wmbus-fleet status` shows it): %s", failed)
        return 1

    def _look_without_lines(self, batch: Sequence[Event]) -> None:
        """Where the program fails without a line too, it isn't the line's fault."""
        try:
            self._run({address_of(event) for event in batch}, [])
        except ProgramFailed as failed:
            if is_lack(failed):
                raise
            raise Trouble(self.config.programs.steps, f"the program fails over what is known of the meter, without any line: {failed}",
                          "look at its release and at the meter's block") from None


def lock(database: Database, shard: int) -> bool:
    """Keeps other sessions away from a shard until the transaction ends; whether that can be."""
    return bool(store.one(database, "select pg_try_advisory_xact_lock(%s, %s)", (store.SESSIONS, shard)))


def gather(database: Database, ticks: Ticks, shard: int, now: float, most: int) -> list[Event]:
    """What is to be heard of a shard: what operators asked for, then gateways' lines as they were taken, with each tick where it was
    due. While more lines wait, no tick stands behind them all."""
    # (who cancels a command that is taken here waits for the commit: what was said to be cancelled isn't sent)
    orders = [Event(order_line(*row), command=ident) for ident, *row in database.execute(
        "select id, address, kind, payload, number, state from command where (state = 'waiting' or wish is not null)"
        " and shard_of(address) = %s order by place limit %s for update", (shard, most)).fetchall()]
    due = due_ticks(database, ticks, shard, now, most - len(orders))
    room = most - len(orders) - len(due)
    heard = take(database, shard, room)
    events = with_ticks(heard, due)
    while events and events[-1].ticked and len(heard) == room:
        events.pop()
    return orders + events


def with_ticks(heard: Sequence[Arrived], due: Sequence[tuple[float, str]]) -> list[Event]:
    """Each tick stands in front of what was heard of its own meter later than it was due, or else behind all lines: what came of another
    gateway meanwhile doesn't say that all of the meter's lines of before are heard, and behind what was heard earlier it stands too where
    another gateway's later line came in front of that."""
    waiting = {address: moment for moment, address in due}
    before = {line.address: place for place, line in enumerate(heard)
              if line.address in waiting and moment_in(line.text, 0) <= waiting[line.address]}
    events: list[Event] = []
    for place, line in enumerate(heard):
        if line.address in waiting and waiting[line.address] < moment_in(line.text, 0) and before.get(line.address, -1) < place:
            events.append(_tick(waiting.pop(line.address), line.address))
        events.append(Event(line.text, spooled=line))
    return events + [_tick(moment, address) for address, moment in waiting.items()]


def ticks_alone(database: Database, ticks: Ticks, shard: int, now: float, most: int) -> list[Event]:
    """Due ticks of meters of which no line waits, which none of them would overtake."""
    due = due_ticks(database, ticks, shard, now, 2 * MOST)
    waiting = {address for (address,) in database.execute(f"select distinct address from inbox_{int(shard)}").fetchall()}
    return [_tick(moment, address) for moment, address in due if address not in waiting][:most]


def _tick(moment: float, address: str) -> Event:
    """A meter's tick."""
    return Event(f"T {address}", ticked=address, due=moment)


def due_ticks(database: Database, ticks: Ticks, shard: int, now: float, most: int) -> list[tuple[float, str]]:
    """The meters whose ticks are due, and since when: all that the gateway that heard such a meter last heard until then is in the inbox
    or was heard by a session, or else the gateway is cut off for very long. None is due later than it can be, unless the clock was set back:
    then it comes in time all the same."""
    latest = now + max(ticks.window, ticks.fragments)
    database.execute("update meter set due = %s where shard_of(address) = %s and due > %s", (latest, shard, latest))
    rows = database.execute(
        "select m.due, m.address from meter m left join gateway g on g.name = m.gateway where shard_of(m.address) = %s and m.due <= %s"
        " and (g.name is null or g.until > m.due or m.due < %s) order by m.due, m.address limit %s",
        (shard, now, now - ticks.patience, most // 2)).fetchall()
    return [(moment, address) for moment, address in rows]


def take(database: Database, shard: int, most: int) -> list[Arrived]:
    """The oldest lines of a shard, which are gone from the inbox with the commit."""
    # (as one text, which is read much faster than rows of values; a line has no newline, and what stands in front of it no tab)
    told = store.one(
        database, f"with old as (select id from inbox_{int(shard)} order by id limit %s), gone as (delete from inbox_{int(shard)} i"
        " using old where i.id = old.id returning i.*) select coalesce(string_agg(concat_ws(E'\\t', address, gateway, epoch, message,"
        " place, text), E'\\n' order by id), '') from gone", (most,))
    return [arrived_row(row) for row in told.split("\n")] if told else []


def arrived_row(row: str) -> Arrived:
    """A line by its row."""
    address, gateway, epoch, message, place, text = row.split("\t", 5)
    return arrived(address, gateway, int(epoch), int(message), int(place), text)


def address_of(event: Event) -> str:
    """The meter that an event is for: of a gateway's line as `address_list` said, of the others as they were made."""
    it = arrived_of(event)
    return it.address if it else event.text.split(" ")[1]


def blocks_of(database: Database, addresses: Collection[str]) -> str:
    """What is known of those of these meters that there are, one behind the other."""
    return str(store.one(database, "select coalesce(string_agg(block, '' order by address), '') from meter"
                                   " where address = any(string_to_array(%s, ' '))", (" ".join(sorted(addresses)),)))


def set_aside(database: Database, event: Event, shard: int, said: str, now: float) -> bool:
    """Keeps an event that the program fails at out of all later sessions; whether it was still there, and no other process's session had
    it meanwhile."""
    it = arrived_of(event)
    if it:
        gone = database.execute(f"delete from inbox_{int(shard)} where gateway = %s and epoch = %s and message = %s and place = %s",
                                (it.receiver, it.epoch, it.message, it.behind))
    elif event.command:
        gone = database.execute("update command set state = 'refused', reason = 'the program failed', wish = null, changed = %s,"
                                " payload = case kind when 'rekey' then '' else payload end"
                                " where id = %s and (state = 'waiting' or wish is not null)", (now, event.command))
    else:
        gone = database.execute("update meter set due = null where address = %s and due = %s", (event.ticked, event.due))
    if not gone.rowcount:
        return False
    text = "(a command; its row has it)" if event.command else event.text
    database.execute("insert into aside (gateway, text, said, made) values (%s, %s, %s, %s)",
                     (it.receiver if it else None, text, said, now))
    store.add_totals(database, f"shard {shard}", {"aside": 1})
    return True


def run(config: Config, ending: Ending) -> None:
    """Sessions without end; after trouble the same lines come again."""
    trouble = ""
    Keeping(config.database, ending)
    while not ending.is_set():
        try:
            with store.connect(config.database) as database:
                with broker.connected(config.broker) as connection:
                    mark.judge(database, broker.opened(connection))
                sessions, retention, let_go_at = Sessions(config, database), Retention(database, config.keep), time.monotonic()
                while not ending.is_set():
                    count = sessions.turn(time.time())
                    is_behind = count >= MOST // 2
                    # (of a large fleet each turn has lines)
                    if not is_behind and time.monotonic() > let_go_at and not retention.let_go(time.time()):
                        let_go_at = time.monotonic() + LET_GO
                    trouble = ""
                    ending.wait(0 if is_behind else config.interval)
        except (psycopg.Error, ProgramFailed, Trouble, *broker.FAULTS) as fault:
            told = f"sessions: {store.told_of(fault)}"
            if told != trouble:
                log.error("%s", told)
            trouble = told
            ending.wait(PAUSE)
