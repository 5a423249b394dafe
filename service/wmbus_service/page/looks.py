"""What needs a person: what is wrong, with which meter, receiver or command, and what to do about it."""
from __future__ import annotations

import re
from collections.abc import Iterator
from dataclasses import dataclass
from typing import Any

from ..asking import Database
from ..config import Config
from ..service import is_locked, still_seconds
from ..spool import unread
from ..status import PARTS, oldest_publication, waiting_bytes
from ..troubles import troubles_of
from .radios import DAY, HOUR, SILENCE, Radio, silence
from .reading import Meter, rows_of, strangers
from .shared import REPEATS, WRONG_KEY, counted, row_of, time_text, times, words_of_page

# without a reading for so long a meter is called silent
METER_SILENCE = 2 * DAY
# after so long without a reading it counts that telegrams were refused since
LATE = 6 * HOUR
# what is older than this is told on its own page alone
RECENT = 14 * DAY
# a stranger that was heard so often may be one's own
OFTEN = 20
MOST = 100
WAITING_BYTES = 1 << 20
# for so long a message for the broker may wait
WAITING_SECONDS = HOUR
STALE = re.compile("stale ([0-9]+) ([0-9]+)")
STATES = {
    "waiting": "waits for the next session", "queued": "waits until the meter listens", "sent": "sent, and not confirmed yet",
    "confirmed": "confirmed by the meter", "expired": "given up: it was sent three times without an answer", "cancelled": "cancelled",
    "refused": "refused", "done": "done",
    "unsure": "unsure: the response that would confirm it was heard before its downlink went out",
}


@dataclass(frozen=True)
class Look:
    """What somebody should look at: how bad it is, what it is, of what (with the page that tells more), and what to do."""

    kind: str
    what: str
    title: str
    link: str
    to_do: str


@dataclass(frozen=True)
class Explained:
    """What docs/FORMATS.md says of words, as HTML."""

    meaning: str
    to_do: str


def explained(words: str) -> Explained:
    """What words of a refusal or a fault mean, and what to do."""
    row = row_of(words)
    if row is not None:
        return Explained(words_of_page(row.meaning), words_of_page(row.to_do))
    return Explained("words that the page of formats doesn't explain", "look at the telegram with <code>frame_inspect</code>")


def meter_looks(meter: Meter, refusals: list[dict[str, Any]], now: float) -> Iterator[Look]:
    """What is to be looked at of a meter, worst first."""
    link = f"/meters/{meter.address}"
    if meter.retired is not None:
        # (nothing of it is missed any more)
        if meter.heard is not None and meter.heard > meter.retired:
            yield Look("look", "heard out of service", meter.title, link,
                       f"It was heard though it is out of service since {time_text(int(meter.retired))}. `wmbus-service retire --back"
                       f" {meter.address}` puts it back.")
        return
    is_late = meter.heard is None or now - meter.heard > LATE
    later = [row for row in refusals if is_late and row["reason"] not in REPEATS and row["last_made"] > max(meter.heard or 0, now - RECENT)]
    wrong_key = [row for row in later if row["reason"] in WRONG_KEY]
    if wrong_key:
        yield Look("bad", "key probably wrong", meter.title, link,
                   f"Its telegrams are heard, and none could be opened {_since(meter)}. Get this meter's right key.")
    elif back := _set_back(meter, refusals, now):
        yield Look("bad", "counter set back", meter.title, link,
                   f"Its messages come, and none is stored, as their counters are below the last stored one ({back}). Its page says"
                   " what to do.")
    elif later:
        yield Look("bad", "nothing stored", meter.title, link,
                   f"What came last was refused ({later[0]['words']}). Its page says why, and what to do.")
    elif meter.heard is None:
        yield Look("bad", "not heard", meter.title, link, "Is it in reach, and is its address that of its label?")
    elif now - meter.heard > METER_SILENCE:
        yield Look("look", silence(now - meter.heard), meter.title, link, "Is it in reach, and has its battery run out?")


def _set_back(meter: Meter, refusals: list[dict[str, Any]], now: float) -> str:
    """How a meter's last message was refused, where it is heard and its counter is below the last stored one: long after its last reading,
    so that it is no copy of what was stored, and with another counter than the last one, which some meters repeat for days."""
    for row in refusals:
        told = STALE.fullmatch(row["words"])
        if told and int(told[1]) < int(told[2]) and row["last_made"] > max((meter.heard or 0) + LATE, now - METER_SILENCE):
            return str(row["words"])
    return ""


def _since(meter: Meter) -> str:
    return "yet" if meter.heard is None else f"since {time_text(int(meter.heard))}"


def radio_looks(radio: Radio, now: float) -> Iterator[Look]:
    """What is to be looked at of a receiver."""
    title, to_do = f"Receiver {radio.name}", "Is it plugged in, and does its unit run?"
    if not radio.is_configured:
        return
    if radio.heard is None and not radio.was_heard:
        yield Look("bad", "heard nothing", title, "/receivers", f"{to_do} `wmbus-service check` tells more.")
    elif radio.heard is None:
        yield Look("bad", "silent for long", title, "/receivers",
                   f"What it heard is kept no longer, or was written while the clock was ahead. {to_do}")
    elif now - radio.heard > SILENCE:
        yield Look("bad", silence(now - radio.heard), title, "/receivers", to_do)


def all_looks(config: Config, database: Database, meters: list[Meter], radios: list[Radio], now: float) -> list[Look]:
    """All that needs a person, what stands above all meters first."""
    found = list(_of_service(config, database, now))
    for radio in radios:
        found += radio_looks(radio, now)
    refusals: dict[str, list[dict[str, Any]]] = {}
    for row in rows_of(database, "select address, reason, words, times, last_made from refusal order by last_made desc"):
        refusals.setdefault(row["address"], []).append(row)
    titles = {meter.address: meter.title for meter in meters}
    for meter in meters:
        found += meter_looks(meter, refusals.get(meter.address, []), now)
    retired = {f"/meters/{meter.address}" for meter in meters if meter.retired is not None}
    # (no command can be queued again for one that is out of service)
    found += [it for it in _of_commands(database, titles, now) if it.link not in retired]
    found += _of_strangers(database, now)
    return sorted(found, key=lambda it: it.kind != "bad")


def _of_service(config: Config, database: Database, now: float) -> Iterator[Look]:
    """What keeps the whole service from its work."""
    if not is_locked(config.folder):
        yield Look("bad", "stands still", "The service", "/receivers", "It doesn't run: systemctl start wmbus. Its log says why it ended.")
    elif still := still_seconds(config.folder, now):
        yield Look("bad", "stands still", "The service", "/receivers",
                   f"It runs, and has had no session for {counted(int(still // 60), 'minute', 'minutes')}. Its log says why.")
    for told in troubles_of(config.folder):
        yield Look("bad" if told.part != "MQTT" else "look", "trouble", f"The service: {PARTS.get(told.part, told.part)}", "/receivers",
                   f"Since {time_text(int(told.since))}: {told.words}")
    for words in unread(config.spool, database)[:10]:
        yield Look("bad", "can't be read", "The spool", "/receivers", words)
    if waiting_bytes(config, database) > WAITING_BYTES:
        yield Look("look", "lags", "The service", "/receivers", "Many lines wait in the spool. Its log says whether sessions stand still.")
    if config.mqtt and oldest_publication(database, now) > WAITING_SECONDS:
        yield Look("look", "messages wait", "The MQTT broker", "/receivers",
                   f"Since {time_text(int(now - oldest_publication(database, now)))} it takes none. Its log and that of the service say why.")
    for row in rows_of(database, "select id, receiver, said, made from aside order by id desc limit 10"):
        yield Look("bad", "line set aside", f"Line {row['id']} of {row['receiver'] or 'the service'}", "/receivers",
                   f"The program failed at it: {row['said'][:200]}. Tell the makers of this program.")


def _of_commands(database: Database, titles: dict[str, str], now: float) -> Iterator[Look]:
    """Commands that were given up, and downlinks that didn't go out."""
    for row in rows_of(database, "select id, address, state, reason from command where state in ('expired', 'refused') and changed > ?"
                                 " order by changed desc limit ?", (now - RECENT, MOST)):
        words = "given up" if row["state"] == "expired" else "refused"
        yield Look("look", f"command {words}", titles.get(row["address"], row["address"]), f"/meters/{row['address']}",
                   f"Command {row['id']}: {row['reason'] or STATES[row['state']]}. Queue it again once the meter is in reach.")
    for row in rows_of(database, "select address, receiver, missed from outbox where missed is not null and made > ?"
                                 " order by id desc limit 10", (now - DAY,)):
        yield Look("look", "not sent", titles.get(row["address"], row["address"]), f"/meters/{row['address']}",
                   f"A downlink by receiver {row['receiver'] or '(none)'} wasn't sent: {row['missed']}.")


def _of_strangers(database: Database, now: float) -> Iterator[Look]:
    """Strangers that are heard often."""
    for row in strangers(database, 10, now - METER_SILENCE):
        if row["times"] >= OFTEN and row["last_made"] > now - METER_SILENCE:
            yield Look("look", f"heard {times(row['times'])}", row["label"], f"/strangers#{row['address']}",
                       f"It isn't known ({row['type']}, maker {row['maker']}). Is this yours? Then add it with its key.")
