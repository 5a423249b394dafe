"""What is kept for how long: lines for days, payloads for weeks, values of each day for ever."""
from __future__ import annotations

import json
import logging
import sqlite3
import time

from .config import Keep
from .days import HEARD, IS_TIMED, LEAST, day_of, zone_now
from .store import set_setting, setting, transaction

log = logging.getLogger("wmbus")

DAY = 86_400.0
# so much faster than time the moment goes on from which ages are reckoned, where the clock went forward: a day an hour
CATCHES_UP = 24.0
# so often the moment is written down
NOTED = 600.0
# rows of a transaction, so that sessions wait for none of them long
PIECE = 1000
VALUES = "address, quantity, unit, exponent, value, function, storage, tariff, subunit, modifiers"
# of a day's values the one that was heard last stays, whichever goes first; one without a time where there is no other
LAST_STAYS = (" on conflict do update set exponent = excluded.exponent, value = excluded.value, moment = excluded.moment"
              " where coalesce(excluded.moment, 0) >= coalesce(daily.moment, 0)")


class Ages:
    """The moment from which it is reckoned how old something is. It goes on with the clock, but where that went forward by a day an hour at
    most: what a clock that is wrong for an hour takes with it would have gone on the day after."""

    def __init__(self, database: sqlite3.Connection) -> None:
        self.database, self.looked = database, time.monotonic()
        self.told: float | None = None
        self.is_behind = False

    def moment(self, now: float) -> float | None:
        """The moment; none where the clock isn't set."""
        if now < LEAST:
            return None
        passed = time.monotonic() - self.looked
        if self.told is None or passed >= NOTED:
            with transaction(self.database):
                before = setting(self.database, "ages") or self._last_reading() or now
                self.told = min(now, float(before) + CATCHES_UP * passed)
                set_setting(self.database, "ages", str(self.told))
            self.looked += passed
        self.told = min(now, self.told)
        was_behind, self.is_behind = self.is_behind, now - self.told > DAY
        if self.is_behind and not was_behind:
            log.warning("%s", went_forward(now - self.told))
        return self.told

    def _last_reading(self) -> float | None:
        """When the last reading was made by a clock that was set."""
        (made,) = self.database.execute("select max(made) from reading where made >= ?", (LEAST,)).fetchone()
        return None if made is None else float(made)


def seconds_behind(database: sqlite3.Connection, now: float) -> float:
    """By how much the clock is ahead of the moment from which ages are reckoned."""
    return max(0.0, now - float(setting(database, "ages") or now))


def went_forward(seconds: float) -> str:
    """What is said of it."""
    return (f"the clock of this machine went forward by {seconds // DAY:.0f} days: by it old lines and readings go only a day further each"
            " hour; where it is wrong, set it right")


def let_go(database: sqlite3.Connection, keep: Keep, now: float, clock: float | None = None) -> int:
    """Lets go what at a moment is older than it is kept, a piece of each; how many rows. The clock may be ahead of the moment."""
    count = 0
    if keep.lines:
        count += _forget_lines(database, now - keep.lines * DAY, clock or now)
    if keep.payloads:
        count += _forget_payloads(database, now - keep.payloads * DAY)
    if keep.readings:
        count += _gather_days(database, now - keep.readings * DAY)
    return count


def _forget_lines(database: sqlite3.Connection, before: float, now: float) -> int:
    """Deletes the oldest lines. They are the first ones, so that not all are looked through, unless the clock was ahead when these came."""
    with transaction(database):
        first = database.execute("select made from line order by number limit 1").fetchone()
        among = "line" if first and first[0] > now else f"(select number, made from line order by number limit {PIECE})"
        return database.execute(f"delete from line where number in (select number from {among} where made < ? order by number limit ?)",
                                (before, PIECE)).rowcount


def _forget_payloads(database: sqlite3.Connection, before: float) -> int:
    """Readings stay without what was sent. Up to which moment there are none with it is kept, so that not all are looked through."""
    with transaction(database):
        begin = float(setting(database, "payloads") or 0)
        # (where the clock was set back, or they are kept for longer now, they are looked through anew)
        rows = database.execute("select made, id from reading where made >= ? and made < ? and payload is not null order by made limit ?",
                                (begin if begin <= before else 0, before, PIECE)).fetchall()
        database.executemany("update reading set payload = null where id = ?", [(ident,) for _, ident in rows])
        set_setting(database, "payloads", str(rows[-1][0] if len(rows) == PIECE else before))
        return len(rows)


def _gather_days(database: sqlite3.Connection, before: float) -> int:
    """Of the oldest readings the last values of each day stay, as the page tells days and what comes last."""
    database.create_function("day_of", 1, day_of)
    with transaction(database):
        rows = database.execute("select id from reading where made < ? order by made, id limit ?", (before, PIECE)).fetchall()
        oldest = [ident for (ident,) in rows]
        # (what stays of several is written last: what stands first in the day's last reading)
        database.execute(f"insert into daily (day, zone, moment, {VALUES}) select day_of({HEARD}), ?, case when {IS_TIMED} then moment end,"
                         f" {VALUES} from (select value as ident from json_each(?)) cross join reading on reading.id = ident"
                         f" cross join record on record.reading = reading.id where true order by reading.id, record.place desc{LAST_STAYS}",
                         (zone_now(), json.dumps(oldest)))
        database.executemany("delete from reading where id = ?", [(ident,) for ident in oldest])
        return len(oldest)
