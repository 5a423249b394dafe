"""Makes one page of the readings that bin/keep_readings or wmbus-service keeps: a file that any browser shows, without a server and without anything from outside.

usage: bin/report_page [--names NAMES] [--now MOMENT] DB OUT.html
       bin/report_page --help | --version

The page has each meter with its last values, when it was heard last, a curve for each quantity, what was used by day and month, why
telegrams of it were refused, what commands wait, the receivers, and the strangers that were heard. OUT.html is written whole or not at all,
and keeps its owner and permissions where it was there, as far as this user may give them. What is no file, as a pipe, is written as it is.
Silence is measured against the clock, or against MOMENT, seconds since 1970. Times are local: those of the machine's zone, or of TZ.

NAMES is a text file with a line `ADDRESS NAME` for each meter that has a name: its sixteen digits, and what it is called, which the page shows first.
Empty lines in it, and such as begin with #, are for people.

  bin/report_page readings.db meters.html

exit status: 0 the page is written, 1 it isn't, 2 faulty words

DB is a file of bin/keep_readings, or a copy of the service's database (`wmbus-service backup`).

docs/FORMATS.md describes the tables of DB, and what each fault means."""
from readings import quiet

import contextlib
import fcntl
import gc
import glob
import os
import re
import sqlite3
import sys
import time
from collections import defaultdict
from dataclasses import dataclass, field
from decimal import Decimal

from readings.explained import TOP, row_of
from readings.page_texts import FIRST_TIME, GRACE, LINE_BREAK, NAMES, PREFIXED, REPEATS, WRONG_KEY
from readings.page_texts import Html, joined, listed, number_cell, soft, table, tag, text_cell
from readings.page_texts import counted, grouped, is_address, is_number, is_time, label_of, shortest
from readings.page_texts import kept_moment, kept_text, prefix_for, time_text, times, type_of, words_of_page, zone_text
from readings.registers import Register, curve_words, line_of, used_notes
from readings.schema import NoDatabase, ended, has_table, is_of_service, open_database
from readings.service_tables import names_of
from readings.used import rising_points, used_of
from readings.version import version

MOST_DIGITS = 300
MOST_MONTHS = 12
MOST_DAYS = 14
MOST_LOOKS = 100
MOST_REPORTS = 20
MOST_STRANGERS = 50
# as many meters are shown unfolded
OPEN_METERS = 6
DAY = 86400
# after so long a part of a page isn't one that has just begun
LEFT_SECONDS = 60
# after so many seconds without a reading a meter or a receiver is called silent
SILENCE = 2 * DAY


@dataclass
class Meter:
    """What the database has of a meter; each register's series has the moment, the reading and the value of each record, in the order of the moments."""
    address: str
    mode: int | None = None
    pending: list = field(default_factory=list)
    refusals: dict = field(default_factory=dict)
    recent: dict = field(default_factory=dict)
    fault: str | None = None
    # of the last report that heard it, and whether that is the last one that names it
    steps: int = 0
    stored: int = 0
    heard_last: bool = True
    # all that are kept
    readings: int = 0
    last: int | None = None
    counter: int | None = None
    # moments after now
    ahead: list = field(default_factory=list)
    series: dict = field(default_factory=lambda: defaultdict(list))


@dataclass
class Receiver:
    """What the database has of a receiver, which is known by its number in the reports: its last report, and the moments of what was stored of it."""
    number: int
    report: str | None = None
    lines: int = 0
    faulty: int = 0
    last: int | None = None
    ahead: list = field(default_factory=list)


class Kept:
    """What the page shows, loaded from the database."""

    def __init__(self, database, now, names):
        self.database, self.now = database, now
        self.is_of_service = is_of_service(database)
        self.names = {**names_of(database), **names} if self.is_of_service else names
        self.reports = database.execute("SELECT id, name, kept FROM report ORDER BY id DESC").fetchall()
        columns = "id, quantity, unit, function, storage, tariff, subunit, qualifiers, modifiers"
        self.registers = {row[0]: Register(*row[1:]) for row in database.execute(f"SELECT {columns} FROM register")}
        # reports of lines that another one has too: what they say beside readings isn't counted twice
        self.covered = dict(database.execute("SELECT report, by FROM covered")) if has_table(database, "covered") else {}
        self.meters, self.receivers = {}, {}
        self.load_receivers()
        self.load_state()
        self.load_readings()
        self.newest = max((meter.last for meter in self.meters.values() if is_time(meter.last)), default=None)

    def name_of(self, address):
        """What a meter is called: its name, else its label."""
        return self.names.get(address) or label_of(address)

    def about(self, address):
        """What stands below that: the label, where it has a name, and the device type."""
        return f"{label_of(address)}, {type_of(address)}" if address in self.names else type_of(address)

    def meter(self, address):
        if address not in self.meters:
            self.meters[address] = Meter(address)
        return self.meters[address]

    def rows_of(self, table, columns, order="report"):
        """Rows of a table of what reports say beside readings, without those of covered reports; the first column is the report."""
        for row in self.database.execute(f"SELECT report, {columns} FROM {table} ORDER BY {order}"):
            if row[0] not in self.covered:
                yield row

    def load_receivers(self):
        """The receivers of the reports that are shown."""
        names = {number: os.path.basename(name) for number, name, _ in self.reports[:MOST_REPORTS]}
        for report, number, lines, faulty in self.rows_of("receiver", "number, lines, unframed + bad", "number, report"):
            if report in names:
                self.receivers[number] = Receiver(number, names[report], lines, faulty)

    def load_state(self):
        """Of each meter what its last report says and what the last one that heard it does, and refusals of all reports."""
        latest, heard = {}, {}
        for report, address, mode, steps, stored, fault in self.rows_of("meter", "address, mode, steps, readings, fault"):
            meter = self.meter(address)
            meter.mode, meter.heard_last = mode, steps > 0
            latest[address] = report
            if steps:
                meter.steps, meter.stored = steps, stored
                heard[address] = report
            if stored or fault is not None:
                meter.fault = fault
        for report, address, reason, count, last in self.rows_of("refusal", "address, reason, count, last"):
            meter = self.meter(address)
            meter.refusals[reason] = meter.refusals.get(reason, (0, ""))[0] + count, last
            if report == heard.get(address):
                meter.recent[reason] = count
        for report, address, *command in self.rows_of("pending", "address, command, tries", "command"):
            if report == latest.get(address):
                self.meter(address).pending.append(command)

    def is_ahead(self, moment, with_times):
        """Whether a moment lies after now. Beside moments that are times all that are greater do; else one that is no time is a count, as those around it."""
        return moment > self.now + GRACE and (with_times or is_time(moment))

    def load_readings(self):
        """The readings with their records. Those whose moments lie after now are counted apart; their values are taken where a meter has no others."""
        query = "SELECT id, address, moment, counter, receiver FROM reading"
        rows = [(number, address, int(moment), *more) for number, address, moment, *more in self.database.execute(query)]
        with_times = any(FIRST_TIME <= row[2] <= self.now + GRACE for row in rows)
        timely = {row[1] for row in rows if not self.is_ahead(row[2], with_times)}
        of_reading = {}
        for number, address, moment, counter, place in rows:
            meter, receiver, ahead = self.meter(address), self.receivers.get(place, Receiver(place)), self.is_ahead(moment, with_times)
            meter.readings += 1
            if not ahead or address not in timely:
                of_reading[number] = meter.series, moment
            if ahead:
                meter.ahead.append(moment)
                receiver.ahead.append(moment)
                continue
            receiver.last = moment if receiver.last is None else max(moment, receiver.last)
            if meter.last is None or moment >= meter.last:
                meter.last, meter.counter = moment, counter
        query = "SELECT reading, register, value, unset, type FROM record ORDER BY reading, place"
        for number, register, value, unset, kind in self.database.execute(query):
            if number in of_reading:
                series, moment = of_reading[number]
                # (of a register that is twice in a reading the first value counts)
                if not series[register] or series[register][-1][1] != number:
                    series[register].append((moment, number, shown_value(value, unset, kind)))
        for meter in self.meters.values():
            for points in meter.series.values():
                points.sort()

    def last_records(self, meter):
        """Of each register's last value: the register, its moment, its reading, its place there, the value, and the data as sent."""
        sent = {}
        for reading in {points[-1][1] for points in meter.series.values()}:
            for place, register, raw in self.database.execute("SELECT place, register, raw FROM record WHERE reading = ? ORDER BY place", (reading,)):
                sent.setdefault((reading, register), (place, raw))
        for register, points in meter.series.items():
            moment, reading, value = points[-1]
            place, raw = sent[reading, register]
            yield self.registers[register], moment, reading, place, value, raw

    def prefixes(self, meter):
        """For each unit of a meter that takes prefixes the one in which its greatest last value is best read."""
        most = defaultdict(Decimal)
        for number, points in meter.series.items():
            unit, value = self.registers[number].unit, points[-1][2]
            if unit in PREFIXED and is_number(value):
                most[unit] = max(most[unit], abs(Decimal(value)))
        return {unit: prefix_for(value) for unit, value in most.items()}

    def main_value(self, meter):
        """The last value that says most of a meter."""
        found = []
        for number, points in meter.series.items():
            register = self.registers[number]
            if register.is_main() and register.quantity not in NAMES and is_number(points[-1][2]):
                found.append((register.rank, number))
        if not found:
            return ""
        number = min(found)[1]
        return text_of(self.registers[number], meter.series[number][-1][2], self.prefixes(meter))

    def explained(self, words):
        """What the page of formats says that words of a report mean, and what to do."""
        row = row_of(words)
        return (words_of_page(row.meaning), words_of_page(row.to_do)) if row else (words, "look for these words in docs/FORMATS.md")

    def unheard(self, meter):
        return "" if meter.heard_last else " The last report didn't hear it."

    def trouble(self, meter):
        """What keeps a meter from being read, if anything does: words for a chip, and what to do."""
        if not meter.readings and not meter.steps:
            return "bad", "not heard", "Is it in reach, and is its address that of its label?"
        if meter.steps and not meter.stored and WRONG_KEY & set(meter.recent):
            since = " since it was stored last" if meter.readings else ""
            return "bad", "key probably wrong", f"Nothing of it could be opened{since}. Get this meter's right key.{self.unheard(meter)}"
        if meter.steps and not meter.stored and set(meter.recent) - REPEATS:
            return "bad", "nothing stored", f"Its telegrams were refused: see below why.{self.unheard(meter)}"
        if meter.ahead and meter.last is None:
            return "look", "its clock is ahead", ahead_text(meter.ahead)
        silent = self.silent_days(meter.last)
        if silent is not None:
            others = "Others were heard since. Is it in reach, and has its battery run out?"
            none = "Nothing was heard of other meters either: does the receiver run, and were its reports kept?"
            return "look", silence_text(silent), others if self.newest - meter.last > SILENCE else none
        return None

    def silent_days(self, last):
        """For how many days nothing was stored, where those are many."""
        silence = self.now - last if is_time(last) else 0
        return silence // DAY if silence > SILENCE else None

    def receiver_looks(self, receiver):
        """What is to be looked at of a receiver, as that of meters."""
        found = []
        if receiver.lines == 0:
            found.append(("bad", "heard nothing", f"In {receiver.report} it has no line. Does it run?"))
        elif receiver.lines == receiver.faulty:
            to_do = "Are they a receiver's own output, which line_feed makes lines of? input_check says what is wrong with each."
            found.append(("bad", "every line is faulty", f"In {receiver.report} none says anything. {to_do}"))
        if receiver.ahead:
            found.append(("look", "its clock is ahead", f"{ahead_text(receiver.ahead)} Set its clock, or that of this machine, if it is behind."))
        silent = self.silent_days(receiver.last)
        if silent is not None:
            to_do = "Does it run, were its reports kept, and do others hear the same before it?"
            found.append(("bad", silence_text(silent), f"Nothing that it heard was stored since. {to_do}"))
        return found

    def looks(self, meter):
        """What is to be looked at, worst first: its kind, its words for a chip, and what to do."""
        trouble = self.trouble(meter)
        found = [trouble] if trouble else []
        if meter.fault is not None:
            found.append(("look", "not all readable", "Its last message has data that aren't read."))
        if meter.pending:
            found.append(("look", counted(len(meter.pending), "command waits", "commands wait"), "They are sent when the meter listens."))
        return found

    def ordered(self):
        """All meters, those that are to be looked at first."""
        ranks = {"bad": 0, "look": 1}
        return sorted(self.meters.values(), key=lambda meter: (min((ranks[kind] for kind, _, _ in self.looks(meter)), default=2), self.name_of(meter.address)))


def shown_value(value, unset, kind):
    """A value as it is shown: one that stands for none, or a text, is no number, and a real number is told by its shortest digits."""
    if unset:
        return f"not set ({value})"
    if kind == "text":
        return f"“{value}”"
    return shortest(value) if kind == "real" and is_number(value) else value


def text_of(register, value, prefixes, raw=None):
    """A register's value with the prefix that its unit has among those of its meter."""
    return register.text(value, prefixes.get(register.unit, ("", 0)), raw)


def silence_text(days):
    return f"silent for {counted(days, 'day', 'days')}"


def last_text(holder):
    """When something of a meter or a receiver was stored last."""
    return f"{time_text(max(holder.ahead))}, ahead of now" if holder.last is None and holder.ahead else time_text(holder.last)


def ahead_text(moments):
    told = counted(len(moments), "reading has a moment", "readings have moments")
    return f"{told} after now, up to {time_text(max(moments))}: kept, but taken for no time."


def numbers_of(points):
    """The points whose values are numbers: their moments, the numbers, and their texts. Beside moments that are times others have no place."""
    if is_time(points[-1][0]) and not is_time(points[0][0]):
        points = [point for point in points if is_time(point[0])]
    found = [(moment, float(value), value) for moment, _, value in points if is_number(value) and len(value) < MOST_DIGITS]
    return [list(part) for part in zip(*found)] if found else ([], [], [])


def ends(*texts):
    return tag("div", *(tag("span", text) for text in texts), class_="ends")


def used_table(register, points, head, parts, most):
    """What was used by day or month, the last ones first."""
    used = list(used_of(points, parts).items())
    greatest = max((it.amount for _, it in used), default=0)
    rows = []
    for period, it in used[:-most - 1:-1]:
        told = used_notes(it, it.is_longer() or period == used[0][0])
        name = "-".join(f"{part:02d}" for part in period)
        cell = number_cell(register.used_text(it.amount, greatest)[1])
        rows.append(tag("tr", tag("th", name, *[part for note in told for part in (LINE_BREAK, soft(note))], scope="row"), cell))
    return table([head, "#Used"], rows) if rows else Html()


def used_part(kept, meter, number):
    """What was used by month and day, of a register that only rises, where its moments count."""
    register = kept.registers[number]
    if not register.rises or meter.last is None:
        return Html()
    points = rising_points(meter.series[number])
    return joined([used_table(register, points, "Month", 2, MOST_MONTHS), used_table(register, points, "Day", 3, MOST_DAYS)])


def curve(register, points, prefixes, used):
    """A register's numbers over time, where there are two or more, and below them what was used."""
    moments, numbers, texts = numbers_of(points)
    if len(numbers) < 2:
        return Html()
    low, high = (text_of(register, texts[numbers.index(it)], prefixes) for it in (min(numbers), max(numbers)))
    start, end = time_text(moments[0]), time_text(moments[-1]) if moments[-1] > moments[0] else ""
    told = curve_words(register.title, len(numbers), low, high, start, end)
    line = tag("polyline", points=line_of(moments, numbers))
    drawn = tag("svg", line, viewBox="0 0 600 120", preserveAspectRatio="none", role="img", aria_label=told)
    return tag("figure", tag("figcaption", register.title), ends(f"most {high}"), drawn, ends(f"least {low}", counted(len(numbers), "value", "values")), ends(start, end), used)


def values_table(kept, meter, prefixes):
    """The last values, the main registers first, and older ones with their moment."""
    rows = []
    found = kept.last_records(meter)
    for register, moment, _, _, value, raw in sorted(found, key=lambda it: (not it[0].is_main(), it[0].storage, -it[2], it[3])):
        told = [LINE_BREAK, soft(register.of_what)] if register.of_what else []
        older = [LINE_BREAK, soft(f"of {time_text(moment)}")] if moment != meter.last else []
        cell = number_cell if is_number(value) else text_cell
        rows.append(tag("tr", tag("th", register.name, *told, scope="row"), cell(text_of(register, value, prefixes, raw), *older)))
    return table(["Quantity", "#Last value"], rows) if rows else tag("p", "Its messages have no records.", class_="soft")


def values_part(kept, meter):
    """The last values of a meter, and beside them its curves."""
    prefixes = kept.prefixes(meter)
    drawn = [number for number in meter.series if kept.registers[number].is_curve]
    drawn.sort(key=lambda number: not kept.registers[number].is_main())
    curves = joined([curve(kept.registers[number], meter.series[number], prefixes, used_part(kept, meter, number)) for number in drawn])
    parts = [tag("section", tag("h3", "Last values"), values_table(kept, meter, prefixes))]
    if curves:
        parts.append(tag("section", tag("h3", "Over time"), tag("div", curves, class_="curves")))
    return tag("div", *parts, class_="two")


def refusals_part(kept, meter):
    items = []
    for reason, (count, last) in sorted(meter.refusals.items(), key=lambda it: (it[0] in REPEATS, -it[1][0])):
        meaning, to_do = kept.explained(reason)
        of_last = [" ", soft("(the last one: ", tag("code", last), ")")] if last != reason else []
        items.append(tag("li", tag("b", times(count)), ": ", meaning, *of_last, LINE_BREAK, soft("What to do: ", to_do, ".")))
    return joined([tag("h3", "Refused"), listed(items)]) if items else Html()


def pending_part(meter):
    items = [tag("li", f"Command {command}: {f'sent {times(tries)}' if tries else 'not sent yet'}") for command, tries in meter.pending]
    return joined([tag("h3", "Commands that wait"), listed(items)]) if items else Html()


def fault_part(kept, meter):
    if meter.fault is None:
        return Html()
    meaning, to_do = kept.explained(meter.fault)
    return tag("p", tag("code", meter.fault), ": ", meaning, ". What to do: ", to_do, ".", class_="small")


def inside_of(kept, meter):
    told = [f", mode {meter.mode}"] if meter.mode is not None else []
    told += [f", last counter {meter.counter}"] if meter.counter is not None else []
    about = tag("p", "Address ", tag("code", meter.address), *told, f", {counted(meter.readings, 'reading', 'readings')} kept", class_="soft small")
    looks = [tag("p", to_do) for _, _, to_do in kept.looks(meter)]
    looks += [tag("p", ahead_text(meter.ahead))] if meter.ahead and meter.last is not None else []
    values = values_part(kept, meter) if meter.readings else ""
    return [about, *looks, fault_part(kept, meter), values, refusals_part(kept, meter), pending_part(meter)]


def chip(kind, words):
    return tag("span", words, class_=f"chip {kind}")


def meter_part(kept, meter, is_open):
    chips = [chip(kind, words) for kind, words, _ in kept.looks(meter)] or [chip("good", "heard")]
    summary = tag(
        "summary",
        tag("span", kept.name_of(meter.address), class_="name"),
        tag("span", kept.main_value(meter), class_="value"),
        tag("span", f"{kept.about(meter.address)}, last stored: {last_text(meter)}", class_="about soft small"),
        tag("span", joined([part for it in chips for part in (it, " ")]), class_="chips"),
    )
    return tag("details", summary, tag("div", *inside_of(kept, meter), class_="inside", id=f"m{meter.address}"), open=is_open)


def looks_part(kept, meters):
    items = []
    silent = kept.silent_days(kept_moment(kept.reports[0][2])) if kept.reports else None
    if silent is not None:
        to_do = tag("span", "None was kept since. Do the runs go on?", class_="soft")
        items.append(tag("li", chip("bad", f"no report for {counted(silent, 'day', 'days')}"), " ", to_do))
    for receiver in kept.receivers.values():
        for kind, words, to_do in kept.receiver_looks(receiver):
            items.append(tag("li", chip(kind, words), f" Receiver {receiver.number} ", tag("span", to_do, class_="soft")))
    for meter in meters:
        for kind, words, to_do in kept.looks(meter):
            link = tag("a", kept.name_of(meter.address), href=f"#m{meter.address}")
            items.append(tag("li", chip(kind, words), " ", link, " ", tag("span", f"{kept.about(meter.address)}. {to_do}", class_="soft")))
    if not meters:
        items.append(tag("li", "No report that is kept names a meter."))
    if not items:
        return tag("p", "Nothing: every meter was heard, and no trouble is known.")
    more = tag("p", f"And {len(items) - MOST_LOOKS} more, below.", class_="soft") if len(items) > MOST_LOOKS else ""
    return joined([listed(items[:MOST_LOOKS], "plain box"), more])


def receivers_part(kept):
    """The receivers of the last reports: when something that each heard was stored last, and what is to be looked at."""
    rows = []
    for receiver in kept.receivers.values():
        chips = [chip(kind, words) for kind, words, _ in kept.receiver_looks(receiver)] or [chip("good", "heard")]
        last = tag("td", last_text(receiver), LINE_BREAK, joined([part for it in chips for part in (it, " ")]))
        rows.append(tag("tr", tag("th", str(receiver.number), scope="row"), last, number_cell(grouped(receiver.lines))))
    words = "Those that the service heard." if kept.is_of_service else "Those of the last reports, by their numbers there."
    head = "#Lines that are kept" if kept.is_of_service else "#Lines in its last report"
    told, shown = tag("p", words, class_="soft"), table(["Receiver", "Last stored of it", head], rows)
    return joined([told, shown]) if rows else tag("p", "No report that is kept has one.")


def strangers_part(kept):
    counts = defaultdict(int)
    for _, address, count in kept.rows_of("stranger", "address, count"):
        if address not in kept.meters:
            counts[address] += count
    found = sorted(counts.items(), key=lambda it: (-it[1], it[0]))
    if not found:
        return tag("p", "None were heard.")
    rows = []
    for address, count in found[:MOST_STRANGERS]:
        about = soft(f"{kept.about(address)}, ", tag("code", address))
        rows.append(tag("tr", tag("th", kept.name_of(address), LINE_BREAK, about, scope="row"), number_cell(count)))
    told = tag("p", "Meters that aren't in the roster, as the reports have them: neighbours', or some that are to be commissioned.", class_="soft")
    more = tag("p", f"And {len(found) - MOST_STRANGERS} more.", class_="soft") if len(found) > MOST_STRANGERS else ""
    return joined([told, table(["Meter", "#Among the last heard"], rows), more])


def reports_part(kept):
    """The last reports, with their receivers, and which of these have faulty lines."""
    rows, notes, names = [], [], {number: os.path.basename(path) for number, path, _ in kept.reports}
    query = "SELECT number, lines, own, strangers, unframed, bad, ended FROM receiver WHERE report = ? ORDER BY number"
    for report, path, when in kept.reports[:MOST_REPORTS]:
        name = os.path.basename(path)
        other = names.get(kept.covered.get(report))
        same = [LINE_BREAK, soft(f"its lines are those of {other}, and are counted there")] if other else []
        for *numbers, ended in kept.database.execute(query, (report,)):
            heard = "to its end" if ended == "end" else kept.explained(ended)[0]
            rows.append(tag("tr", tag("th", name, *same, scope="row"), *map(number_cell, numbers), tag("td", heard), tag("td", kept_text(when))))
            faulty = numbers[4] + numbers[5]
            if faulty:
                told = f"{name}, receiver {numbers[0]}: {counted(faulty, 'line is faulty', 'lines are faulty')}; "
                notes.append(tag("li", told, tag("code", "bin/input_check ROSTER RX"), " says what is wrong with each."))
    shown = table(["Report", "#Receiver", "#Lines", "#Own", "#Strangers", "#Unframed", "#Bad", "Heard", "Kept"], rows)
    more = tag("p", f"And {len(kept.reports) - MOST_REPORTS} earlier reports.", class_="soft") if len(kept.reports) > MOST_REPORTS else ""
    return joined([tag("div", shown, class_="wide", tabindex="0", role="region", aria_label="Reports"), listed(notes, "plain small"), more])


def tiles_part(kept, meters):
    read = sum(1 for meter in meters if meter.readings)
    latest = kept.newest if kept.newest is not None else max((meter.last for meter in meters if meter.last is not None), default=None)
    tiles = [
        (f"{read} of {len(meters)}", "meters were read"),
        (grouped(sum(meter.readings for meter in meters)), "readings are kept"),
        ("ahead of now" if latest is None and read else time_text(latest), "the last reading"),
        (sum(len(meter.pending) for meter in meters), "commands wait"),
    ]
    return listed([tag("li", tag("b", number), soft(words)) for number, words in tiles], "tiles")


HEAD = """<!DOCTYPE html>
<html lang="en"><head><meta charset="utf-8"><meta name="viewport" content="width=device-width, initial-scale=1">
<meta http-equiv="Content-Security-Policy" content="default-src 'none'; style-src 'unsafe-inline'">
<title>Meters</title><style>
"""
STYLES = "page.css", "report_page.css"
FOOT = ("Moments are those of the receivers. Refusals are those of all reports that are kept; "
        "commands that wait are those of each meter's last one.")
SERVICE_FOOT = "Moments are those of the receivers."


def page_of(kept):
    """The page, piece by piece."""
    meters = kept.ordered()
    yield HEAD
    for name in STYLES:
        with open(f"{TOP}/readings/{name}", encoding="utf-8") as file:
            yield file.read()
    yield "</style></head><body>\n"
    as_of = f"As of {time_text(kept.now)}. Times are those of the zone {zone_text()}."
    yield tag("header", tag("h1", "Meters"), tag("p", as_of, class_="soft"), tiles_part(kept, meters))
    yield "\n<main>"
    yield joined([tag("h2", "To look at"), looks_part(kept, meters), "\n", tag("h2", "All meters"), "\n"])
    for meter in meters:
        yield meter_part(kept, meter, len(meters) <= OPEN_METERS) + "\n"
    yield joined([tag("h2", "Receivers"), receivers_part(kept), "\n"])
    yield joined([tag("h2", "Strangers"), strangers_part(kept), "\n"])
    if not kept.is_of_service:
        yield joined([tag("h2", "Reports"), reports_part(kept), "\n"])
    foot = SERVICE_FOOT if kept.is_of_service else FOOT
    yield f"</main>{tag('footer', f'{foot} wmbus {version()}.', class_='soft small')}</body></html>\n"


class Unfit(Exception):
    """Where a file isn't fit for what it is named for, and why."""

    def __init__(self, place, words):
        super().__init__(f"{place}: {words}")


def read_names(path):
    """The names of meters by their addresses."""
    names = {}
    try:
        with open(path, encoding="utf-8-sig") as file:
            lines = file.read().splitlines()
    except UnicodeDecodeError:
        raise Unfit(path, "this is no text in UTF-8") from None
    for number, line in enumerate(lines, 1):
        place, (address, name) = f"{path} line {number}", (*line.split(maxsplit=1), "", "")[:2]
        if not address or address.startswith("#"):
            continue
        if not is_address(address.lower()) or not name.strip():
            raise Unfit(place, "this is no address of sixteen digits with a name behind it")
        if address.lower() in names:
            raise Unfit(place, "this meter has a name above")
        names[address.lower()] = name.strip()
    return names


def words_given(words):
    """The moment of the page, the file of names, the database and the page's file, or none where the words are faulty."""
    given = {"--now": str(int(time.time())), "--names": None}
    while len(words) > 2 and words[0] in given:
        given[words[0]], words = words[1], words[2:]
    if len(words) != 2 or words[0].startswith("-") or not re.fullmatch("[0-9]{1,12}", given["--now"]):
        return None
    return int(given["--now"]), given["--names"], *words


def look_apart(page, *read):
    """What is read for the page mustn't be where it is written, since it would be gone."""
    for file in read:
        if file is not None and os.path.exists(page) and os.path.exists(file) and os.path.samefile(page, file):
            raise Unfit(page, "it is read for the page, which would take its place")


def keep_rights(part, there):
    """Gives an open file the owner and the rights of one that is there, as far as this user may: whom that one isn't for, neither is this one."""
    told = os.stat(there)
    for owner, group in ((told.st_uid, -1), (-1, told.st_gid)):
        with contextlib.suppress(PermissionError):
            os.chown(part, owner, group)
    of_group = 0o070 if os.stat(part).st_gid == told.st_gid else 0
    os.chmod(part, told.st_mode & (0o707 | of_group))


def remove_left(path):
    """Takes away what runs that were killed left beside a file: who still writes holds a lock, or has just begun."""
    for name in glob.glob(f"{glob.escape(path)}.*.part"):
        if re.fullmatch(r"[0-9]+", name[len(path) + 1:-len(".part")]):
            with contextlib.suppress(OSError):
                opened = os.open(name, os.O_RDONLY | os.O_NOFOLLOW | os.O_NONBLOCK)
                try:
                    fcntl.flock(opened, fcntl.LOCK_EX | fcntl.LOCK_NB)
                    if time.time() - os.fstat(opened).st_mtime > LEFT_SECONDS:
                        os.remove(name)
                finally:
                    os.close(opened)


def write_whole(path, texts):
    """Writes a file whole, or leaves what was there. What is no file, as a pipe or /dev/stdout, isn't replaced by one."""
    if os.path.exists(path) and not os.path.isfile(path):
        with open(path, "w", encoding="utf-8") as file:
            file.writelines(texts)
        return
    part = f"{path}.{os.getpid()}.part"
    remove_left(path)
    try:
        # (a new one is its owner's alone, as the database from which it is made)
        with open(part, "x", encoding="utf-8", opener=lambda name, flags: os.open(name, flags, 0o600)) as file:
            # (not every file system has locks)
            with contextlib.suppress(OSError):
                fcntl.flock(file, fcntl.LOCK_EX)
            if os.path.exists(path):
                keep_rights(file.fileno(), path)
            file.writelines(texts)
            # (else a power cut may leave the name with nothing behind it)
            file.flush()
            os.fsync(file.fileno())
        os.replace(part, path)
    except BaseException as fault:
        if os.path.exists(part):
            os.remove(part)
        if isinstance(fault, OSError) and fault.filename == part:
            fault.filename = path
        raise


def main():
    if sys.argv[1:] == ["--help"]:
        print(__doc__)
        return 0
    if sys.argv[1:] == ["--version"]:
        print(f"report_page {version()}")
        return 0
    given = words_given(sys.argv[1:])
    if given is None:
        print("report_page: give a database and the page's file; --help says more", file=sys.stderr)
        return 2
    now, names, path, page = given
    try:
        look_apart(page, path, names)
        names = read_names(names) if names is not None else {}
        database = open_database(path, create=False)
        # all that is loaded is kept until the end, so looking for what can be let go would only take time
        gc.disable()
        database.execute("BEGIN")
        write_whole(page, page_of(Kept(database, now, names)))
        return 0
    except (NoDatabase, Unfit, sqlite3.Error) as fault:
        print(f"report_page: {fault}", file=sys.stderr)
    except OSError as fault:
        print(f"report_page: {fault.filename or page}: {fault.strerror}", file=sys.stderr)
    return 1


def run():
    """The script's exit status."""
    return ended("report_page", main)
