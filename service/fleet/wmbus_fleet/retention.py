"""What is kept no longer, let go in small steps. No clock alone lets anything go: neither the server's, which may be far ahead, nor a
gateway's."""
from __future__ import annotations

import logging

from . import store
from .config import Keep
from .store import Database

log = logging.getLogger("wmbus")

HOUR, DAY, STEP, KEYS = 3600, 86_400.0, 5000, 100_000
MOST_STRANGERS = MOST_MISSING = MOST_ASIDE = 10_000
# of each table its key, when a row was made, for which setting's days it is kept, which of the rows are looked at, and which of these are
# young in another way: a command that something may still become of and a downlink that isn't out stay however old they are, and a reading
# by its gateway's clock too, unless that was ahead
KEPT = (
    ("line", "number", "made", "lines", "true", "false"),
    ("reading", "line", "made", "readings", "true", "it.moment between %(before)s and %(now)s + 86400"),
    ("command", "place", "changed", "commands",
     "state in ('confirmed', 'expired', 'cancelled', 'refused', 'done', 'unsure') and wish is null", "false"),
    ("outbox", "id", "made", "commands", "(sent is not null or missed is not null)", "false"),
)
# the moment that most of the gateways tell that were heard lately
TOLD = f"""select percentile_disc(0.5) within group (order by until) from gateway
    where gone is null and seen > now() - interval '{HOUR} seconds'"""


class Retention:
    """Lets go what is old by the server's clock and by those of most gateways."""

    def __init__(self, database: Database, keep: Keep) -> None:
        self.database, self.keep = database, keep
        # what was said last of this machine's clock
        self.apart = ""

    def let_go(self, now: float) -> bool:
        """One step; whether there is more. A line that somebody else lets go is passed over."""
        self._let_go_few()
        if self._empty_keys():
            return True
        told = store.one(self.database, TOLD)
        if told is None:
            # (as just behind a moment at which the clock was set; where no gateway is heard nothing new comes either)
            return False
        self._tell(now - told)
        gone = 0
        for table, key, made, setting, which, young in KEPT:
            days = getattr(self.keep, setting)
            if days:
                gone += self._step(table, key, made, which, young, min(now, float(told)), days)
        return gone > 0

    def _empty_keys(self) -> bool:
        """Empties the second keys that an earlier release kept in lines, some lines a step, from the last one of that release backwards;
        whether there are more."""
        with store.transaction(self.database):
            until = self.database.execute("select value::bigint from setting where name = 'keys_until' for update skip locked").fetchone()
            if until is None:
                return False
            self.database.execute("update line set text = split_part(text, ' ', 1) || ' ' || split_part(text, ' ', 2) where number > %s"
                                  " and number <= %s and gateway is null and text like 'K %% %%'", (until[0] - KEYS, until[0]))
            first = store.one(self.database, "select coalesce(min(number), 0) from line")
            if until[0] - KEYS < first:
                self.database.execute("delete from setting where name = 'keys_until'")
                return False
            store.set_setting(self.database, "keys_until", str(until[0] - KEYS))
        return True

    def _step(self, table: str, key: str, made: str, which: str, young: str, now: float, days: int) -> int:
        """Looks at the first rows of a table; how many of them go."""
        with store.transaction(self.database):
            # (numbers rise with the moments, and so no index by age is needed; what was written while the clock was ahead is passed)
            return self.database.execute(
                f"with first as (select {key} from {table} where {made} <= %(now)s and {which} order by {key} limit %(step)s"
                f" for update skip locked) delete from {table} it using first where it.{key} = first.{key} and it.{made} < %(before)s"
                f" and not ({young})", {"now": now, "step": STEP, "before": now - days * DAY}).rowcount

    def _let_go_few(self) -> None:
        """Of what nobody asked for the last rows stay, whatever their age."""
        for table, key, order, most in (("stranger", "address", "last_made", MOST_STRANGERS), ("oddity", "ctid", "last_made", MOST_STRANGERS),
                                        ("missing", "ctid", "made", MOST_MISSING), ("aside", "id", "id", MOST_ASIDE)):
            self.database.execute(f"delete from {table} where {key} in (select {key} from {table} order by {order} desc offset %s)", (most,))

    def _tell(self, ahead: float) -> None:
        """Says once that this machine's clock or most gateways' clocks are far from right."""
        apart = "ahead of" if ahead > DAY else "behind" if ahead < -DAY else ""
        if apart and apart != self.apart:
            log.error("this server's clock is %d days %s most gateways' clocks: set right which is wrong (timedatectl); what is kept for some"
                      " days goes by the one that is behind meanwhile", round(abs(ahead) / DAY), apart)
        self.apart = apart
