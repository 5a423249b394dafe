"""The intake: of gateways' messages the very next ones go into the inbox, and are acknowledged behind the commit; gaps are asked for."""
from __future__ import annotations

import logging
import time
from collections import Counter
from collections.abc import Collection, Sequence
from contextlib import ExitStack, suppress
from typing import Any

import psycopg
from wmbus_service.config import words_of
from wmbus_service.ending import Ending
from wmbus_service.steps import ProgramFailed
from wmbus_service.trouble import Trouble

from . import broker, fences, oddities, store
from .asking import Asking, ask
from .config import Config
from .fences import Known, put_fences
from .messages import Again, Begin, Message, area_in, frames_in, gateway_in, is_far, read_lines
from .oddities import DIFFERS, ELSEWHERE, FAILING, FAR_ANSWER, FORM, HEADERS, MANY, OTHER_ANSWER, SET_BACK, Oddities
from .programs import Fence, accept, addresses_of, is_lack
from .store import Database
from .turns import Held, next_batch

__all__ = ["Consuming", "Intake", "acknowledge", "ask", "run"]
log = logging.getLogger("wmbus")

# so many messages in hand (2,000 gateways send a thousand a second), so many lines a transaction
PREFETCH, MOST = 800, 4000
LOOK, PAUSE = 0.05, 0.5
# behind so many seconds what somebody deleted of an area is made again
LOOKED = 30.0
# a gateway is asked again where nothing came of it, for so much at once
ASKED_SECONDS, ORDERS = 2, 16
# of so many lines of meters that aren't known each is kept, of a gateway and a transaction; more are counted
STRANGERS = 50


class Intake:
    """What a batch of messages does to the database."""

    def __init__(self, config: Config, database: Database, name: str) -> None:
        self.config, self.database, self.worker = config, database, f"intake {name}"

    def take(self, messages: Sequence[Message], rubbish: Sequence[tuple[str, str]] = (), left: Sequence[Message] = ()) -> list[Again | Begin]:
        """One transaction over messages: what is taken of them, and how far; who has to be asked. Of gateways of which something else came it
        is counted what; what is left since others wait too is asked for."""
        counts: Counter[str] = Counter(messages=len(messages) + len(rubbish) + len(left), left=len(left))
        with store.transaction(self.database):
            known, now = self._fences({it.gateway for it in messages}), time.time()
            last = fences.known(self.database, sorted(known), messages)
            others = fences.others_among(last, messages)
            answers, moved = self._answers(known, messages, others)
            taken = [message for message, answer in zip(messages, answers, strict=True) if answer == "take"]
            counts["lines"] = put_lines(self.config, self.database, taken)
            strange = look_at(last, messages, answers, others)
            fences.end_others(last, others, moved, now)
            put_fences(self.database, moved, last)
            fences.put_ends(self.database, last, others, now)
            asked = self._asked(known | moved, messages, answers, left)
            odd = [*rubbish, *((it.gateway, MANY) for it in left)]
            oddities.put(self.database, oddities.of_answers(known, messages, answers, odd) + strange)
            counts.update(answer.split(" ")[0] for answer in answers)
            counts["asked"] = len({it.gateway for it in asked})
            store.add_totals(self.database, self.worker, counts)
        return asked

    def _fences(self, names: set[str]) -> dict[str, Fence]:
        """The fences of these gateways, locked in one order, so that two intakes never wait in a ring; a gateway's later lines can't come
        into the inbox before its earlier ones are committed."""
        rows = self.database.execute("select name, epoch, number from gateway where name = any(%s) order by name for update",
                                     (sorted(names),)).fetchall()
        return {name: (epoch, number) for name, epoch, number in rows}

    def _answers(self, known: dict[str, Fence], messages: Sequence[Message], others: Collection[tuple[str, int]]
                 ) -> tuple[list[str], dict[str, Fence]]:
        """What becomes of each message, and the fences that move: behind an epoch that is far above now none could ever begin, and of one under
        whose numbers others come nothing more is taken."""
        now, own = time.time(), dict[int, str]()
        for it in messages:
            epoch, _ = known.get(it.gateway, (it.epoch, 0))
            if it.epoch > epoch and is_far(it.epoch, now):
                own[id(it)] = FAR_ANSWER
            elif it.epoch == epoch and (it.gateway, epoch) in others:
                own[id(it)] = OTHER_ANSWER
        told = accept(words_of(self.config.programs.line_accept), known, [it for it in messages if id(it) not in own])
        answers = iter(told.answers)
        return [own.get(id(it)) or next(answers) for it in messages], told.fences

    def _asked(self, moved: dict[str, Fence], messages: Sequence[Message], answers: Sequence[str], left: Sequence[Message]
               ) -> list[Again | Begin]:
        """Whom to ask for what, each not too often: what stands in an epoch that is over first, since who has it sends nothing else that counts."""
        gaps: dict[str, Again] = {}
        over: dict[tuple[str, int], Message] = {}
        for message, answer in zip(messages, answers, strict=True):
            word, *rest = answer.split(" ")
            name = message.gateway
            if word == "ask":
                gaps[name] = Again(name, int(rest[0]), int(rest[1]))
            elif word == "take":
                gaps.pop(name, None)
            elif word == FAR_ANSWER or word in ("again", OTHER_ANSWER) and message.epoch < moved[name][0]:
                # (as where its clock or its state was set back: all that it says would be left for ever)
                over[name, message.epoch] = message
        for message in left:
            gaps.setdefault(message.gateway, Again(message.gateway, message.epoch, message.number))
        wanted: dict[str, list[Again | Begin]] = {}
        for (name, _), message in over.items():
            orders = wanted.setdefault(name, [])
            if len(orders) < ORDERS:
                orders += fences.begun_anew(self.database, moved[name], message, time.time())
        for name, again in gaps.items():
            wanted.setdefault(name, []).append(again)
        wanted = {name: orders for name, orders in wanted.items() if orders}
        if not wanted:
            return []
        # (a clock that is set back doesn't keep it from that)
        rows = self.database.execute("update gateway set asked = now() where name = any(%s) and (asked is null or"
                                     " abs(extract(epoch from now() - asked)) > %s) returning name",
                                     (sorted(wanted), ASKED_SECONDS)).fetchall()
        return [order for (name,) in rows for order in wanted[name]]


def look_at(last: dict[str, Known], messages: Sequence[Message], answers: Sequence[str], others: fences.Others) -> Oddities:
    """Goes on with what is known of gateways. Messages under numbers that were taken, though they are others, or tell of later moments than
    all that was: a gateway's file is an older one. Others that came beside each other in this batch are among them from now on."""
    strange = Oddities()
    for message, answer in zip(messages, answers, strict=True):
        if answer == "take":
            last[message.gateway].take(message)
        elif answer in ("again", OTHER_ANSWER):
            it = last[message.gateway]
            key, differs = (message.gateway, message.epoch), it.differs(message)
            if differs:
                others[key] = min(message.number, others.get(key, message.number))
            if differs:
                strange[message.gateway, DIFFERS] += 1
            elif answer == "again" and it.is_later(message):
                # (nothing is known of what had its number)
                strange[message.gateway, SET_BACK] += 1
    return strange


def put_lines(config: Config, database: Database, taken: Sequence[Message]) -> int:
    """Puts the lines of messages into the inbox in their order, each with the meter that it is for; how many these are."""
    lines = [(message, place, text) for message in taken for place, text in frames_in(message.lines)]
    addresses = addresses_of(words_of(config.programs.address_list), [text for _, _, text in lines])
    rows = [(address, it.gateway, it.epoch, it.number, place, text) for address, (it, place, text) in zip(addresses, lines, strict=True)]
    kept = without_strangers(database, rows)
    store.copy_rows(database, "inbox (address, gateway, epoch, message, place, text)", kept)
    return len(rows)


def without_strangers(database: Database, rows: Sequence[tuple[Any, ...]]) -> Sequence[tuple[Any, ...]]:
    """Rows of the inbox but for those of meters that aren't known, where a gateway has many: these are counted."""
    if max(Counter(gateway for _, gateway, *_ in rows).values(), default=0) <= STRANGERS:
        return rows
    found = database.execute("select address from meter where address = any(%s)", (sorted({row[0] for row in rows}),)).fetchall()
    known, strange = {address for (address,) in found}, Counter[str]()
    kept = []
    for row in rows:
        if row[0] not in known:
            strange[row[1]] += 1
            if strange[row[1]] > STRANGERS:
                continue
        kept.append(row)
    for gateway, count in sorted(strange.items()):
        if count > STRANGERS:
            database.execute("update gateway set strangers = strangers + %s where name = %s", (count - STRANGERS, gateway))
    return kept


class Area:
    """An area's messages, over a channel of their own, which may end alone."""

    def __init__(self, name: str) -> None:
        self.name = name
        self.channel: Any = None
        self.ended_at = -PAUSE
        self.trouble = ""

    def is_open(self) -> bool:
        """Whether messages come."""
        return self.channel is not None and bool(self.channel.is_open)


class Consuming:
    """Messages of some areas, as they come over a connection."""

    def __init__(self, intake: Intake, connection: Any, areas: Sequence[str], asking: Asking | None = None) -> None:
        self.intake, self.connection = intake, connection
        self.asking = asking or Asking(intake.config)
        # of each area the broker gives so many before some are acknowledged: all together have no more in hand than fit into memory
        self.share = max(1, PREFETCH // max(1, len(areas)))
        self.held: list[Held] = []
        self.since = 0.0
        self.areas = {name: Area(name) for name in areas}
        self.looked_at = time.monotonic()
        self._open()

    def _look(self) -> None:
        """Makes the exchange and the areas' queues and bindings again, where they went: gateways' messages come nowhere else, and a queue
        without a binding says nothing of it."""
        if time.monotonic() < self.looked_at + LOOKED:
            return
        self.looked_at = time.monotonic()
        for area in self.areas.values():
            if area.is_open():
                with suppress(*broker.CHANNEL_FAULTS):
                    broker.declare_area(area.channel, area.name)

    def _open(self) -> None:
        """Has messages of each area come that doesn't give any; what is wrong with one is no other one's trouble."""
        for area in self.areas.values():
            if area.is_open() or time.monotonic() < area.ended_at + PAUSE:
                continue
            # (they come again)
            self.held = [it for it in self.held if it.area != area.name]
            area.ended_at = time.monotonic()
            try:
                self._consume(area)
                area.trouble = ""
            except broker.CHANNEL_FAULTS as fault:
                area.channel = None
                if (told := store.told_of(fault)) != area.trouble:
                    log.error("intake: area %s: %s", area.name, told)
                area.trouble = told

    def _consume(self, area: Area) -> None:
        """Has an area's messages come."""
        area.channel = broker.opened(self.connection)
        area.channel.basic_qos(prefetch_count=self.share)
        broker.declare_area(area.channel, area.name)
        channel = area.channel

        def gone(_told: Any) -> None:
            log.error("intake: area %s: its queue went", area.name)
            area.channel = None
            self.connection.add_callback_threadsafe(lambda: channel.close() if channel.is_open else None)
        broker.consume(channel, broker.area_queue(area.name), self._hold, gone)

    def _hold(self, _channel: Any, method: Any, properties: Any, body: bytes) -> None:
        """A message is in hand."""
        if not self.held:
            self.since = time.monotonic()
        area = method.consumer_tag.removeprefix(broker.area_queue(""))
        message, what = read_lines(method.routing_key, body), FORM
        if getattr(properties, "unread", ""):
            message, what = None, HEADERS
        elif area_in(method.routing_key) != area:
            # (by a header CC or BCC, for which the broker judges no right)
            message, what = None, ELSEWHERE
        self.held.append(Held(area, method.delivery_tag, gateway_in(method.routing_key), message, what))

    def turn(self) -> int:
        """A batch, once it is due; how many messages it had."""
        self._look()
        self._open()
        is_full = self._is_full()
        is_due = time.monotonic() - self.since >= self.intake.config.interval or is_full
        self.connection.process_data_events(0 if self.held and is_due else LOOK)
        self.asking.turn()
        if not self.held or not is_due:
            return 0
        batch = next_batch(self.held, PREFETCH, MOST, is_full, self.share // 2)
        asked = self._take(batch.taken, [it.message for it in batch.left if it.message])
        self._done([*batch.taken, *batch.left])
        for it in asked:
            self.asking.ask(it)
        return len(batch.taken) + len(batch.left)

    def _take(self, batch: Sequence[Held], left: Sequence[Message] = ()) -> list[Again | Begin]:
        """Takes a batch; where that fails, and not for what the machine or the servers lack, its halves, until the message is found at which
        it does: that one is left, and counted."""
        try:
            return self.intake.take([it.message for it in batch if it.message], [(it.gateway, it.what) for it in batch if not it.message], left)
        except Exception as fault:
            if isinstance(fault, (psycopg.OperationalError, psycopg.InterfaceError, Trouble, OSError)) or is_lack(fault):
                raise
            if len(batch) > 1:
                half = len(batch) // 2
                return [*self._take(batch[:half], left), *self._take(batch[half:])]
            log.error("intake: it fails at a message of %s: %s", batch[0].gateway, store.told_of(fault))
            return self.intake.take([], [(batch[0].gateway, FAILING)], left)

    def _done(self, done: Sequence[Held]) -> None:
        """The broker needn't keep these messages; where all of an area are done it is told of the last one alone."""
        tags = {(it.area, it.tag) for it in done}
        self.held = [it for it in self.held if (it.area, it.tag) not in tags]
        for name, area in self.areas.items():
            own = [it.tag for it in done if it.area == name]
            first = min((it.tag for it in self.held if it.area == name), default=None)
            if not own or not area.is_open():
                continue
            front = [tag for tag in own if first is None or tag < first]
            if front:
                acknowledge(area.channel, max(front))
            for tag in own:
                if first is not None and tag > first:
                    area.channel.basic_ack(tag)

    def _is_full(self) -> bool:
        """Whether a transaction's lines are in hand, or all that the broker gives of an area."""
        of_areas = Counter(it.area for it in self.held)
        return sum(it.lines() for it in self.held) >= MOST or max(of_areas.values(), default=0) >= self.share


def acknowledge(channel: Any, tag: int) -> None:
    """The broker needn't keep the messages up to this one."""
    channel.basic_ack(tag, multiple=True)


def known_areas(database: Database, areas: Sequence[str]) -> Sequence[str]:
    """These areas, or all that there are; one that there isn't is an error."""
    known = [area for (area,) in database.execute("select name from area order by name").fetchall()]
    for area in areas:
        if area not in known:
            raise Trouble(f"area {area}", "there is no such area", f"`wmbus-fleet area {area}` makes it")
    return areas or known


def run(config: Config, areas: Sequence[str], name: str, ending: Ending) -> None:
    """Takes in the messages of these areas, or of all; after trouble those that weren't acknowledged come again."""
    trouble = ""
    while not ending.is_set():
        try:
            with ExitStack() as held:
                database = held.enter_context(store.connect(config.database))
                connection = held.enter_context(broker.connected(config.broker))
                asking = held.enter_context(Asking(config))
                known = known_areas(database, areas)
                consuming = Consuming(Intake(config, database, name), connection, known, asking)
                # (of all also those that were made since, among which what it has in hand is shared out anew)
                while not ending.is_set() and known == known_areas(database, areas):
                    if consuming.turn():
                        trouble = ""
        except (psycopg.Error, ProgramFailed, Trouble, *broker.FAULTS) as fault:
            told = f"intake: {store.told_of(fault)}"
            if told != trouble:
                log.error("%s", told)
            trouble = told
            ending.wait(PAUSE)
