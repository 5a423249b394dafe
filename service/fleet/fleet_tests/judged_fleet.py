"""What the fleet's database, gateways and radios have to be: of each meter what one uncut session of the proved program says of its own
lines alone, in the order in which they were committed; and each gateway's lines once and in its order."""
from __future__ import annotations

from collections import Counter
from pathlib import Path

from tests.judged import Uncut, difference
from tests.meters import OWN, Meter, roster_of
from wmbus_fleet.store import Database, one
from wmbus_service.steps import state_text


def meter_faults(database: Database, wmbus: str, meter: Meter, folder: Path) -> list[str]:
    """Where what is committed of a meter isn't what the uncut session over its own lines says."""
    lines = database.execute("select number, text from line where address = %s order by number", (meter.name,)).fetchall()
    # (a second key isn't kept in its line; each meter gets one alone)
    key = f" {meter.other.hex()}" if meter.other else ""
    uncut = Uncut(wmbus, roster_of([meter]), [text + key if text.startswith("K ") else text for _, text in lines], folder)
    numbers = [number for number, _ in lines]
    wanted_readings = [(numbers[line - 1], counter, moment, payload) for line, _, counter, moment, payload in uncut.readings()]
    readings = database.execute("select line, counter, moment, payload from reading where address = %s order by line",
                                (meter.name,)).fetchall()
    commands = database.execute("select number, case when state = 'queued' and tries > 0 then 'sent' when state = 'unsure' then 'confirmed'"
                                " else state end from command"
                                " where number is not null and address = %s", (meter.name,)).fetchall()
    refusals: Counter[str] = Counter()
    for reason, times in database.execute("select reason, times from refusal where address = %s", (meter.name,)):
        refusals[reason.split(" ")[0]] += times
    frames = database.execute("select frame from outbox where address = %s", (meter.name,)).fetchall()
    told: dict[str, tuple[object, object]] = {
        "readings": (wanted_readings, [(line, counter, int(moment), payload) for line, counter, moment, payload in readings]),
        "refusals": (Counter({reason: times for (_, reason), times in uncut.refusals().items()}), refusals),
        "commands": ({number: state for (_, number), state in uncut.commands().items()}, {number: state for number, state in commands}),
        "downlinks": (sorted(uncut.frames), sorted(frame for (frame,) in frames)),
        "state": (uncut.state, state_text(OWN, [one(database, "select block from meter where address = %s", (meter.name,))])),
    }
    return [f"{name} of {meter.name}: {difference(wanted, found)}" for name, (wanted, found) in told.items() if wanted != found]


def line_faults(database: Database, name: str, wanted: list[str]) -> list[str]:
    """A gateway's lines were heard once, and those of each meter in their order."""
    heard = [text for (text,) in database.execute("select text from line where gateway = %s order by epoch, message, place", (name,))]
    found = []
    if heard != wanted:
        lost, more = Counter(wanted) - Counter(heard), Counter(heard) - Counter(wanted)
        found.append(f"lines of {name}: {lost.total()} lost, {more.total()} doubled, of {len(wanted)}")
    turned = one(database, "select count(*) from (select (epoch, message, place) < lag((epoch, message, place)) over"
                           " (partition by address order by number) as turned from line where gateway = %s) x where turned", (name,))
    return found + ([f"lines of {name}: {turned} in another order"] if turned else [])


def reading_faults(database: Database, meters: list[Meter], shared: set[str]) -> list[str]:
    """Each message that was heard whole was stored once. Of a meter that several gateways hear, one that came behind a later one of
    another gateway is refused as stale."""
    stored = Counter((address, counter) for address, counter in database.execute("select address, counter from reading"))
    # (an access number of mode 5 comes again behind 256 messages)
    sent = Counter((meter.name, number if meter.mode == 7 else number % 256) for meter in meters for number in range(1, meter.counter + 1))
    found = [f"readings: {count} of {it}, doubled" for it, count in stored.items() if count > sent[it]][:5]
    lost = {(meter.name, number) for meter in meters if meter.name not in shared and (meter.counter < 256 or meter.mode == 7)
            for number in range(1, meter.counter + 1) if number not in meter.lost} - stored.keys()
    return found + ([f"readings: {len(lost)} lost, as {sorted(lost)[0]}"] if lost else [])


def radio_faults(database: Database, sent: list[str]) -> list[str]:
    """What the radios sent, and what was committed to be sent."""
    return frame_faults({frame for (frame,) in database.execute("select frame from outbox")}, sent)


def frame_faults(made: set[str], sent: list[str]) -> list[str]:
    """What the radios sent stands among what was committed, and no counter has two frames."""
    from reference.frames import telegram_a
    frames: dict[bytes, set[str]] = {}
    for frame in {*made, *sent}:
        telegram = telegram_a(bytes.fromhex(frame))
        frames.setdefault(telegram[15:19] + telegram[28:36], set()).add(frame)
    found = [f"downlinks: {len(set(sent) - made)} frames were sent that aren't committed"] if set(sent) - made else []
    return found + [f"downlinks: a counter with {len(it)} frames" for it in frames.values() if len(it) > 1]


def armed_faults(database: Database, name: str, came: set[tuple[str, int]]) -> list[str]:
    """A gateway got each downlink that is marked as sent to it."""
    rows = database.execute("select address, down from outbox where gateway = %s and sent is not null", (name,)).fetchall()
    lacking = {(address, down) for address, down in rows} - came
    return [f"downlinks: {len(lacking)} are marked and never came to {name}"] if lacking else []


def twice_ticked(database: Database) -> list[str]:
    """Ticks that came again for the same moment at which they were due."""
    rows = database.execute("select text, count(*) from line where due is not null group by text, due having count(*) > 1").fetchall()
    return [f"ticks: {text} came {count} times where it was due once" for text, count in rows]
