"""How far each gateway's messages are taken: its fence, what is known of its last messages, where its earlier epochs ended."""
from __future__ import annotations

import logging
import time
from collections.abc import Mapping, Sequence
from dataclasses import dataclass, field

from .messages import Again, Begin, Message, is_far, new_epoch
from .oddities import SLACK
from .page_tables import FADED
from .programs import Fence
from .store import Database

log = logging.getLogger("wmbus")

# digests of so many of a gateway's last messages stand beside its fence, and of so many such parts of before elsewhere, whole ones and ends of
# epochs; the ends of so many of its epochs are kept
DIGESTS, PARTS, ENDS = 64, 64, 1000
# a gateway and its epoch, with the least number under which another message came than was taken
Others = dict[tuple[str, int], int]


def part_of(number: int) -> int:
    """Which part of an epoch's digests has a message's."""
    return (number - 1) // DIGESTS


@dataclass
class Known:
    """What is known of a gateway beside its fence: the digests of its last messages, the last one last, and until when it was heard."""

    epoch: int
    number: int
    until: int
    digests: list[int] = field(default_factory=list)
    lines: int = 0
    # digests of before that are looked at, by epoch and part, and which of these are new; epochs that ended, with their last messages
    parts: dict[tuple[int, int], list[int]] = field(default_factory=dict)
    new: list[tuple[int, int]] = field(default_factory=list)
    ended: list[tuple[int, int]] = field(default_factory=list)
    has_begun: bool = False

    def take(self, message: Message) -> None:
        """A message was taken."""
        if message.epoch != self.epoch:
            self.end()
        self.has_begun |= message.number == 1
        self.epoch, self.number, self.until = message.epoch, message.number, message.until
        self.digests = [*self.digests, message.digest()][-DIGESTS:]
        self.lines += len(message.lines)
        if self.number % DIGESTS == 0:
            self._keep()

    def end(self) -> None:
        """Nothing more of its epoch is taken."""
        if self.epoch > 0 and self.number > 0:
            self.ended.append((self.epoch, self.number))
            self._keep()
        self.digests = []

    def _keep(self) -> None:
        """The digests since a part began stand there too."""
        count = (self.number - 1) % DIGESTS + 1
        # (of those of an earlier release the first ones aren't known)
        if len(self.digests) >= count:
            self.parts[self.epoch, part_of(self.number)] = self.digests[-count:]
            self.new.append((self.epoch, part_of(self.number)))

    def has_near(self, message: Message) -> bool:
        """Whether the digest under a message's number is among the last ones."""
        return message.epoch == self.epoch and 0 <= self.number - message.number < len(self.digests)

    def differs(self, message: Message) -> bool:
        """Whether one that came under the number of a message of before is known to be another one."""
        if self.has_near(message):
            return self.digests[message.number - self.number - 1] != message.digest()
        part, place = self.parts.get((message.epoch, part_of(message.number)), []), (message.number - 1) % DIGESTS
        return place < len(part) and part[place] != message.digest()

    def is_later(self, message: Message) -> bool:
        """Whether one under a number that was taken tells of moments behind all that was taken."""
        return message.epoch == self.epoch and message.until > self.until + SLACK


def known(database: Database, names: Sequence[str], messages: Sequence[Message] = ()) -> dict[str, Known]:
    """What is known of gateways, whose fences are locked, and of what they sent under the numbers of messages."""
    rows = database.execute("select name, epoch, number, until, digests from gateway where name = any(%s)", (list(names),)).fetchall()
    told = {name: Known(epoch, number, until, digests) for name, epoch, number, until, digests in rows}
    old = {(it.gateway, it.epoch, part_of(it.number)) for it in messages if it.gateway in told and not told[it.gateway].has_near(it)
           and (it.epoch, it.number) <= (told[it.gateway].epoch, told[it.gateway].number)}
    if old:
        # (as behind a file that was set back, or messages that are sent again)
        for name, epoch, part, digests in database.execute(
                "select d.gateway, d.epoch, d.part, d.digests from digest d join unnest(%s::text[], %s::bigint[], %s::bigint[])"
                " as n (gateway, epoch, part) using (gateway, epoch, part)", tuple(list(column) for column in zip(*sorted(old), strict=True))):
            told[name].parts[epoch, part] = digests
    return told


def others_among(told: Mapping[str, Known], messages: Sequence[Message]) -> Others:
    """Of each epoch the least number under which another message came than was taken."""
    found: Others = {}
    for it in messages:
        if it.gateway in told and told[it.gateway].differs(it):
            found[it.gateway, it.epoch] = min(it.number, found.get((it.gateway, it.epoch), it.number))
    return found


def end_others(told: Mapping[str, Known], others: Others, moved: dict[str, Fence], now: float) -> None:
    """An epoch under whose numbers something else comes is over: what comes of it from now on is a mixture. The gateway begins the next one."""
    for name, epoch in others:
        it = told[name]
        if it.epoch == epoch:
            it.end()
            it.epoch, it.number = moved[name] = behind((epoch, it.number), now), 0


def put_fences(database: Database, moved: Mapping[str, Fence], told: Mapping[str, Known]) -> None:
    """How far each gateway's messages are taken, until when what it heard, and how many lines a second it sends, as in the last minute."""
    rows = [(name, epoch, number, told[name].until, "{" + ",".join(map(str, told[name].digests)) + "}", told[name].lines)
            for name, (epoch, number) in moved.items()]
    if rows:
        # (what comes behind its end of a gateway that was taken away holds up no tick)
        database.execute(
            "update gateway g set epoch = f.epoch, number = f.number, seen = now(), digests = f.digests::bigint[],"
            f" lines = g.lines + f.lines, rate = g.rate * {FADED.format(seen='g.seen')} + f.lines / 60.0,"
            " until = case when g.gone is null then f.until else g.until end from"
            " unnest(%s::text[], %s::bigint[], %s::bigint[], %s::bigint[], %s::text[], %s::bigint[])"
            " as f (name, epoch, number, until, digests, lines) where g.name = f.name", tuple(list(column) for column in zip(*rows, strict=True)))


def put_ends(database: Database, told: Mapping[str, Known], others: Others, now: float) -> None:
    """Where epochs ended, behind which a later one began, and what was taken of them."""
    for gateway, it in told.items():
        for epoch, number in it.ended:
            database.execute("insert into missing values (%s, %s, %s, %s)", (gateway, epoch, number, now))
            put_end(database, gateway, epoch, number, now)
            log.warning("%s: an epoch began behind message %d of the one before, whose later ones may be gone", gateway, number)
        for epoch, part in it.new:
            put_part(database, gateway, epoch, part, it.parts[epoch, part], now)
    begun = [name for name, it in told.items() if it.has_begun]
    if begun:
        # (what was left before it comes in the epoch that begins)
        database.execute("update ended set others = null where gateway = any(%s) and others is not null", (begun,))
    for (gateway, epoch), number in others.items():
        database.execute("update ended set others = least(others, %s) where gateway = %s and epoch = %s", (number, gateway, epoch))


def put_end(database: Database, gateway: str, epoch: int, number: int, now: float) -> None:
    """Keeps where an epoch of a gateway ended, in the place of its shortest one where there are many: somebody else can begin many short ones
    in its name."""
    database.execute("insert into ended (gateway, epoch, number, made) values (%s, %s, %s, %s) on conflict (gateway, epoch) do update"
                     " set number = greatest(ended.number, excluded.number), made = excluded.made", (gateway, epoch, number, now))
    database.execute("delete from ended where gateway = %s and epoch in (select epoch from ended where gateway = %s"
                     " order by number desc, made desc offset %s)", (gateway, gateway, ENDS))


def put_part(database: Database, gateway: str, epoch: int, part: int, digests: Sequence[int], now: float) -> None:
    """Keeps digests of an epoch, in the place of the gateway's oldest whole ones, or of the shortest ones of an end."""
    database.execute("insert into digest values (%s, %s, %s, %s, %s) on conflict (gateway, epoch, part) do update"
                     " set digests = excluded.digests, made = excluded.made", (gateway, epoch, part, list(digests), now))
    database.execute("delete from digest d using (select epoch, part, row_number() over (partition by cardinality(digests) = %s"
                     " order by cardinality(digests) desc, made desc, epoch desc, part desc) as place from digest where gateway = %s) n"
                     " where d.gateway = %s and d.epoch = n.epoch and d.part = n.part and n.place > %s", (DIGESTS, gateway, gateway, PARTS))


def put_in_place(database: Database, gateway: str, now: float) -> None:
    """A fence that is far above now, where no epoch can begin, goes back to where the last epoch before it ended: as behind somebody else
    who had the gateway's name."""
    row = database.execute("select epoch from gateway where name = %s for update", (gateway,)).fetchone()
    if row is None or not is_far(row[0], now):
        return
    ends = database.execute("select epoch, number from ended where gateway = %s order by epoch desc", (gateway,)).fetchall()
    epoch, number = next(((epoch, number) for epoch, number in ends if not is_far(epoch, now)), (0, 0))
    database.execute("update gateway set epoch = %s, number = %s, digests = '{}' where name = %s", (epoch, number, gateway))
    database.execute("delete from ended where gateway = %s and epoch >= %s", (gateway, epoch))
    log.warning("%s: its epoch %d is far above now; what it is asked for goes on behind message %d of epoch %d", gateway, row[0], number, epoch)


def behind(fence: Fence, now: float) -> int:
    """An epoch behind that of a fence."""
    return max(fence[0] + 1, new_epoch(now))


def begun_anew(database: Database, fence: Fence, message: Message, now: float) -> list[Again | Begin]:
    """What a gateway is asked for whose epoch isn't behind the fence's and can't be taken: a later one, with what wasn't taken of its own."""
    name, own = message.gateway, message.epoch
    epoch, number = fence
    if is_far(epoch, now):
        # (nothing can begin behind it: who gives the gateway its files anew puts the fence in its place)
        return []
    row = database.execute("select least(number, others - 1) from ended where gateway = %s and epoch = %s", (name, own)).fetchone()
    # (of one that has just begun there is nothing yet)
    begun = epoch if own < epoch and not number else behind(fence, now)
    asked: list[Again | Begin] = [Begin(name, begun, own, row[0] if row else 0)]
    # (one of an earlier release doesn't know that word; to one that has just begun anew this one says nothing new)
    return asked if is_far(own, now) else [*asked, Again(name, epoch, number + 1)]
