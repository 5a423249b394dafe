"""Keeps the readings of reports in a SQLite file.

usage: bin/keep_readings DB REPORT..
       bin/keep_readings --help | --version

Each REPORT is a file that `wmbus hear` or `wmbus collect` wrote. DB is made where there is none. Each stored step is kept once,
with its data records, however often a report that has it is given: a step is known by its meter, counter, moment and payload.
What a report says beside its readings (refusals, commands that wait, strangers) is kept too, and replaced when a report
of the same name comes; a report with the very bytes of one that was kept changes nothing, and of two reports of the same lines
what they say beside readings counts once.

A database of an earlier version has its records read anew, of the payloads that it keeps.

A report is kept whole or not at all, also where this is killed in its midst. One that can't be kept is named with its line and
what is wrong, and the others are kept.

  bin/wmbus hear meters.roster a.rx >a.report && bin/keep_readings readings.db a.report
  sqlite3 -header readings.db "SELECT * FROM series WHERE quantity = 'volume'"

exit status: 0 all reports are kept, 1 some are not, 2 faulty words

READING_LIST names another program than bin/reading_list. docs/FORMATS.md describes the tables, and what each fault
means; bin/report_page makes a page of them."""
from __future__ import annotations

from readings import quiet

import datetime
import hashlib
import json
import operator
import os
import re
import sqlite3
import subprocess
import sys
import tempfile
from collections.abc import Iterator
from dataclasses import dataclass, field
from typing import Any, NoReturn

from readings.programs import path
from readings.same_lines import Step, find_same, put_heard
from readings.schema import NoDatabase, empty_records, ended, is_earlier, open_database
from readings.version import version

# a report is handed to reading_list in pieces of about so many bytes, so that their records fit into memory
PIECE_BYTES = 1 << 19
SQLITE_MOST = 2 ** 63
REGISTER = ("function", "storage", "tariff", "subunit", "quantity", "unit", "qualifiers", "modifiers")
register_of = operator.itemgetter(*REGISTER)
# a line that reading_list lists
Record = dict[str, Any]
# what a qualifier of these did is in the value already
CALCULATED = ("factor-", "constant-")


class Unkept(Exception):
    """Why a report isn't kept."""


class Faulty(Unkept):
    """The line of a report at which it is no report, and why."""

    def __init__(self, line: int, words: str) -> None:
        super().__init__(f"line {line}: {words}")


@dataclass(slots=True)
class Stored:
    """A stored step."""
    receiver: int
    line: int
    counter: int
    moment: int
    payload: bytes


@dataclass
class Meter:
    """What a report says of a meter."""
    address: str
    mode: int
    last: int | None
    down: int
    steps: int
    readings: int
    fault: str | None = None
    stored: list[Stored] = field(default_factory=list)
    refusals: dict[str, tuple[int, str]] = field(default_factory=dict)
    pending: list[tuple[int, int]] = field(default_factory=list)
    seen: int = 0


@dataclass
class Report:
    """What a report says, but for its records."""
    receivers: list[tuple[Any, ...]] = field(default_factory=list)
    meters: list[Meter] = field(default_factory=list)
    strangers: int = 0
    listed: int = 0
    ring: dict[str, int] = field(default_factory=dict)
    # of each receiver the steps: the line, the address, and the words
    heard: dict[int, list[Step]] = field(default_factory=dict)


# (a moment alone may be greater than SQLite's numbers)
NUMBER, MOMENT, ADDRESS = r"(0|[1-9][0-9]{0,17})", r"(0|[1-9][0-9]{0,19})", r"([0-9a-f]{16})"
RECEIVER = re.compile(rf"receiver {NUMBER} lines {NUMBER} own {NUMBER} strangers {NUMBER} unframed {NUMBER} bad {NUMBER} ([a-z]+)")
METER = re.compile(rf"meter {ADDRESS} (?:[A-Z]{{3}}|-) mode ([57]) last (-|{NUMBER}) down {NUMBER} steps {NUMBER} readings {NUMBER}")
STORED = re.compile(rf"step {NUMBER} {NUMBER} stored {NUMBER} {MOMENT} (-|(?:[0-9a-f][0-9a-f])+)"
                    rf"(?: confirmed {NUMBER})?(?: sent {NUMBER})?")
REFUSED = re.compile(rf"step {NUMBER} {NUMBER} refused ([a-z].*)")
STEP = re.compile(rf"step {NUMBER} {NUMBER} (?:part|rekeyed|ticked(?: expired {NUMBER})?|(?:queued|cancelled) {NUMBER})")
PENDING = re.compile(rf"pending {NUMBER} {NUMBER}")
STRANGERS = re.compile(rf"strangers {NUMBER}")
STRANGER = re.compile(rf"stranger {NUMBER} {NUMBER}")
RING = re.compile(rf"ring {ADDRESS}")


def reason_of(words: str) -> str:
    """The words of a refusal without what varies: `layers afl length 3 4` is `layers afl length`, and `stale 41 42` is `stale`."""
    parts = words.split(" ")
    return " ".join(parts[:{"layers": 3, "message": 2}.get(parts[0], 1)])


class ReportReader:
    """Reads the lines of a report one by one."""

    def __init__(self) -> None:
        self.report = Report()
        self.number = 0
        self.meter: Meter | None = None
        self.ended = False
        self.told: set[tuple[str, ...]] = set()

    def fail(self, words: str) -> NoReturn:
        """Says why the line at hand is no line of a report."""
        raise Faulty(self.number, words)

    def read(self, line: str) -> None:
        """Reads the next line."""
        self.number += 1
        if self.number == 1:
            return self.head(line)
        if self.ended:
            self.fail("something stands behind the report's last line, `end`")
        if line == "end":
            return self.end()
        word = line.split(" ", 1)[0]
        take = getattr(self, f"take_{word}", None) if word.isalpha() else None
        if take is None:
            self.fail(f"no line of a report begins so: {line[:40]!r}")
        take(line)

    def head(self, line: str) -> None:
        """Reads the first line."""
        if line != "wmbus-report 1":
            self.fail("this is no report: its first line isn't `wmbus-report 1`")

    def parts(self, pattern: re.Pattern[str], line: str) -> tuple[str, ...]:
        """What varies in a line."""
        found = pattern.fullmatch(line)
        if found is None:
            self.fail(f"the line isn't whole, or has something wrong in it: {line[:60]!r}")
        return found.groups()

    def once(self, *what: str) -> None:
        """What a report has one line of."""
        if what in self.told:
            self.fail("this line stands in the report twice")
        self.told.add(what)

    def of_meter(self) -> Meter:
        """The meter below whose line this one is."""
        if self.meter is None:
            self.fail("this line stands below no meter")
        return self.meter

    def take_receiver(self, line: str) -> None:
        *numbers, ended = self.parts(RECEIVER, line)
        self.once("receiver", numbers[0])
        self.report.receivers.append((*map(int, numbers), ended))

    def close_meter(self) -> None:
        """Compares what a meter's line counts with the lines below it."""
        meter = self.meter
        if meter is not None and (meter.steps, meter.readings) != (meter.seen, len(meter.stored)):
            said, found = f"{meter.steps} steps with {meter.readings} readings", f"{meter.seen} with {len(meter.stored)}"
            self.fail(f"meter {meter.address} has {said}, and {found} stand here: lines are missing")
        self.meter = None

    def take_meter(self, line: str) -> None:
        self.close_meter()
        address, mode, last, _, down, steps, readings = self.parts(METER, line)
        self.once("meter", address)
        self.meter = Meter(address, int(mode), None if last == "-" else int(last), int(down), int(steps), int(readings))
        self.report.meters.append(self.meter)

    def take_step(self, line: str) -> None:
        meter = self.of_meter()
        meter.seen += 1
        found = STORED.fullmatch(line)
        if found is not None:
            receiver, number, counter, moment, payload = found.groups()[:5]
            content = b"" if payload == "-" else bytes.fromhex(payload)
            meter.stored.append(Stored(int(receiver), int(number), int(counter), int(moment), content))
            return self.hear(receiver, number, f"stored {counter} {moment}")
        found = REFUSED.fullmatch(line)
        if found is not None:
            receiver, number, words = found.groups()
            count, _ = meter.refusals.get(reason_of(words), (0, ""))
            meter.refusals[reason_of(words)] = count + 1, words
            return self.hear(receiver, number, words)
        receiver, number = self.parts(STEP, line)[:2]
        return self.hear(receiver, number, line.split(" ", 3)[3])

    def hear(self, receiver: str, line: str, words: str) -> None:
        """Notes a step of a receiver."""
        self.report.heard.setdefault(int(receiver), []).append((int(line), self.of_meter().address, words))

    def take_record(self, _: str) -> None:
        self.of_meter()

    take_maker = take_more = take_record

    def take_fault(self, line: str) -> None:
        self.of_meter().fault = line.removeprefix("fault ")

    def take_pending(self, line: str) -> None:
        command, tries = self.parts(PENDING, line)
        self.once("pending", self.of_meter().address, command)
        self.of_meter().pending.append((int(command), int(tries)))

    def take_strangers(self, line: str) -> None:
        self.close_meter()
        self.report.strangers = int(self.parts(STRANGERS, line)[0])

    def take_stranger(self, line: str) -> None:
        self.parts(STRANGER, line)
        self.report.listed += 1

    def take_ring(self, line: str) -> None:
        address, = self.parts(RING, line)
        self.report.ring[address] = self.report.ring.get(address, 0) + 1

    def end(self) -> None:
        """Reads the last line."""
        self.close_meter()
        if self.report.strangers != self.report.listed:
            self.fail(f"{self.report.strangers} lines of strangers are counted, and {self.report.listed} stand here: lines are missing")
        self.ended = True

    def whole(self) -> Report:
        """The report, if it came to its end."""
        if self.number == 0:
            self.number = 1
            self.fail("the file is empty")
        if not self.ended:
            self.fail("the report ends here without its last line, `end`: it was cut short; make it again from what the receivers heard")
        return self.report


def lines_of(text: bytes) -> list[bytes]:
    """The lines of a report, numbered from 1 by their place; the last one has to end with a newline too."""
    lines = text.split(b"\n")
    if lines[-1]:
        raise Faulty(len(lines), "the last line has no newline: the report was cut short; make it again from what the receivers heard")
    return lines[:-1]


def read_report(lines: list[bytes]) -> Report:
    """The report of these lines."""
    reader = ReportReader()
    for line in lines:
        try:
            text = line.decode("ascii")
        except UnicodeDecodeError:
            raise Faulty(reader.number + 1, "there are bytes in it that no report has") from None
        reader.read(text)
    return reader.whole()


def pieces_of(lines: list[bytes]) -> Iterator[tuple[int, list[bytes], list[bytes]]]:
    """The report in pieces that reading_list reads: the place of the first line, the lines that are repeated in front of it (the head, and
    the heading of a meter that is cut), and its own lines, behind which each piece ends."""
    start, size = 0, 0
    meter: bytes | None = None
    front: list[bytes] = []
    for place, line in enumerate(lines):
        if place > start and size + len(line) >= PIECE_BYTES:
            yield start, front, lines[start:place] + [b"end"]
            front = [lines[0]] + ([meter] if meter is not None and not line.startswith(b"meter ") else [])
            start, size = place, 0
        if line.startswith(b"meter "):
            meter = line
        elif line.startswith(b"strangers "):
            meter = None
        size += len(line) + 1
    yield start, front, lines[start:]


def said_of(name: str, errors: str, offset: int) -> Iterator[str]:
    """What reading_list said of a piece, with the name and the lines of the report."""
    for line in errors.splitlines():
        words = line.removeprefix("reading_list: ")
        found = re.match(r"line ([0-9]+): ", words)
        if found is not None:
            words = f"line {int(found.group(1)) + offset}: {words[found.end():]}"
        yield f"{name} {words}"


def reading_list() -> str:
    """The path of the program reading_list."""
    if "READING_LIST" in os.environ:
        return os.environ["READING_LIST"]
    try:
        return path("reading_list")
    except subprocess.CalledProcessError:
        raise Unkept("without the program reading_list no readings can be kept") from None


def listed(program: str, text: bytes) -> tuple[int, bytes, str]:
    """What a program lists of a text: its exit status, its lines, and what it says of them. Only one of them is a pipe, so none waits for
    another."""
    try:
        with tempfile.TemporaryFile() as file, tempfile.TemporaryFile() as errors:
            file.write(text)
            file.seek(0)
            try:
                ran = subprocess.run([program, "/dev/stdin"], stdin=file, stdout=subprocess.PIPE, stderr=errors, check=False)
            except OSError as error:
                raise Unkept(f"can't start {program}: {error.strerror}") from None
            errors.seek(0)
            return ran.returncode, ran.stdout, errors.read().decode(errors="replace")
    except OSError as error:
        raise Unkept(f"no temporary file can be written for it: {error.strerror}") from None


def records_of(program: str, name: str, lines: list[bytes]) -> Iterator[Record]:
    """The data records of all stored steps, as reading_list lists them, in order."""
    for start, front, own in pieces_of(lines):
        status, found, errors = listed(program, b"\n".join(front + own) + b"\n")
        said = list(said_of(name, errors, start - len(front)))
        if status not in (0, 1):
            raise Unkept(f"reading_list ended with status {status}: {'; '.join(said)}")
        for line in said:
            print(f"keep_readings: {line}", file=sys.stderr)
        yield from json.loads(b"[" + found.rstrip(b"\n").replace(b"\n", b",") + b"]")


class Records:
    """The records of a report, handed out step by step."""

    def __init__(self, records: Iterator[Record]) -> None:
        self.records = records
        self.next = next(records, None)

    def of(self, address: str, step: Stored) -> list[Record]:
        """Those of a step."""
        found: list[Record] = []
        place = address, step.receiver, step.line
        while self.next is not None and (self.next["address"], self.next["receiver"], self.next["line"]) == place:
            record = self.next
            if (record["moment"], record["counter"], record["record"]) != (step.moment, step.counter, len(found) + 1):
                raise Unkept(f"reading_list's record of line {step.line} of receiver {step.receiver} isn't that of the step")
            found.append(record)
            self.next = next(self.records, None)
        return found

    def end(self) -> None:
        """Refuses one that is left."""
        if (left := self.next) is not None:
            raise Unkept(f"reading_list has a record of line {left['line']} of receiver {left['receiver']}, where no step is stored")


def name_of(record: Record) -> str:
    """What a register is called: its quantity, what its qualifiers make of it, and the function where that isn't instantaneous."""
    words = [record["quantity"], *(word for word in record["qualifiers"].split() if not word.startswith(CALCULATED))]
    return " ".join(words + ([record["function"]] if record["function"] != "instantaneous" else []))


def parted(record: Record) -> tuple[Record, bool]:
    """A record whose qualifiers are those of its register, and whether its data stand for no value."""
    words = record["qualifiers"].split()
    return {**record, "qualifiers": " ".join(word for word in words if word != "unset")}, "unset" in words


class Registers:
    """The numbers of registers in the database; new ones are added."""

    def __init__(self, database: sqlite3.Connection) -> None:
        self.database = database
        self.known = {row[1:]: row[0] for row in database.execute(f"SELECT id, {', '.join(REGISTER)} FROM register")}

    def number(self, record: Record) -> int:
        """The number of a record's register."""
        key = register_of(record)
        if key not in self.known:
            columns = ", ".join(("name", *REGISTER))
            row = name_of(record), *key
            self.known[key] = self.database.execute(f"INSERT INTO register ({columns}) VALUES (?, ?, ?, ?, ?, ?, ?, ?, ?)", row).lastrowid
        return int(self.known[key])


def put_records(database: sqlite3.Connection, registers: Registers, reading: int | None, records: list[Record]) -> None:
    """Puts the records of a reading."""
    rows = []
    for record in records:
        it, unset = parted(record)
        number = None if it["number"] is None else float(it["number"])
        rows.append((reading, it["record"], registers.number(it), it["value"], number, unset, it["type"], it["raw"]))
    database.executemany("INSERT INTO record VALUES (?, ?, ?, ?, ?, ?, ?, ?)", rows)


def kept_moment(moment: int) -> int | str:
    """A moment as the database has it."""
    return moment if moment < SQLITE_MOST else f"{moment:020d}"


def put_readings(database: sqlite3.Connection, report: Report, records: Records) -> int:
    """Puts the stored steps that aren't there yet, with their records, and answers how many those are."""
    registers, new = Registers(database), 0
    for meter in report.meters:
        for step in meter.stored:
            found = records.of(meter.address, step)
            row = meter.address, step.counter, kept_moment(step.moment), step.payload, step.receiver, step.line
            put = database.execute("INSERT OR IGNORE INTO reading (address, counter, moment, payload, receiver, line)"
                                   " VALUES (?, ?, ?, ?, ?, ?)", row)
            if put.rowcount == 1:
                new += 1
                put_records(database, registers, put.lastrowid, found)
    records.end()
    return new


def kept_steps(database: sqlite3.Connection) -> tuple[list[tuple[str, int, Stored]], list[bytes]]:
    """The readings that are kept, as the stored steps of a report, in which a reading's number stands for its line; and its lines."""
    steps, lines, last = [], [b"wmbus-report 1"], None
    kept = database.execute("SELECT id, address, counter, moment, payload FROM reading ORDER BY address, id")
    for number, address, counter, moment, payload in kept:
        if address != last:
            lines.append(f"meter {address}".encode())
            last = address
        step = Stored(number >> 31, number & (1 << 31) - 1, counter, int(moment), payload)
        steps.append((address, number, step))
        lines.append(f"step {step.receiver} {step.line} stored {counter} {step.moment} {payload.hex() or '-'}".encode())
    return steps, [*lines, b"end"]


def read_anew(database: sqlite3.Connection, program: str, name: str) -> None:
    """Makes the records of a database of an earlier version anew, of the payloads that it keeps: all of them, or none."""
    database.execute("BEGIN IMMEDIATE")
    try:
        if is_earlier(database):
            steps, lines = kept_steps(database)
            empty_records(database)
            registers, records = Registers(database), Records(records_of(program, name, lines))
            for address, number, step in steps:
                put_records(database, registers, number, records.of(address, step))
            records.end()
        database.execute("COMMIT")
    except BaseException:
        if database.in_transaction:
            database.execute("ROLLBACK")
        raise


def put_state(database: sqlite3.Connection, number: int, report: Report) -> None:
    """Puts what a report says beside its readings."""
    database.executemany("INSERT INTO receiver VALUES (?, ?, ?, ?, ?, ?, ?, ?)", [(number, *row) for row in report.receivers])
    database.executemany("INSERT INTO meter VALUES (?, ?, ?, ?, ?, ?, ?, ?)",
                         [(number, it.address, it.mode, it.last, it.down, it.steps, it.readings, it.fault) for it in report.meters])
    database.executemany("INSERT INTO refusal VALUES (?, ?, ?, ?, ?)",
                         [(number, it.address, reason, *found) for it in report.meters for reason, found in it.refusals.items()])
    database.executemany("INSERT INTO pending VALUES (?, ?, ?, ?)",
                         [(number, it.address, *row) for it in report.meters for row in it.pending])
    database.executemany("INSERT INTO stranger VALUES (?, ?, ?)", [(number, address, count) for address, count in report.ring.items()])


def put_report(database: sqlite3.Connection, program: str, name: str, digest: str, lines: list[bytes]) -> str:
    """Puts a report in the midst of a transaction, and answers what is to be said of it."""
    if database.execute("SELECT count(*) FROM report WHERE sha256 = ?", (digest,)).fetchone()[0]:
        return "was kept before"
    report = read_report(lines)
    # (a name may have bytes that are no text in UTF-8)
    place = os.path.realpath(name).encode(errors="backslashreplace").decode()
    left = database.execute("SELECT report FROM covered JOIN report ON id = by WHERE name = ?", (place,)).fetchall()
    database.execute("DELETE FROM report WHERE name = ?", (place,))
    now = datetime.datetime.now(datetime.timezone.utc).strftime("%Y-%m-%dT%H:%M:%SZ")
    number = database.execute("INSERT INTO report (name, sha256, kept) VALUES (?, ?, ?)", (place, digest, now)).lastrowid
    assert number is not None
    put_state(database, number, report)
    put_heard(database, number, report.heard)
    # (another one may cover what the report in this one's place covered)
    for covered, in left:
        find_same(database, covered)
    new = put_readings(database, report, Records(records_of(program, name, lines)))
    return f"{sum(len(it.stored) for it in report.meters)} readings, {new} of them new"


def keep(database: sqlite3.Connection, program: str, name: str) -> str:
    """Keeps a report in one transaction, or nothing of it."""
    try:
        with open(name, "rb") as file:
            text = file.read()
    except OSError as error:
        raise Unkept(f"can't be read: {error.strerror}") from None
    database.execute("BEGIN IMMEDIATE")
    try:
        said = put_report(database, program, name, hashlib.sha256(text).hexdigest(), lines_of(text))
        database.execute("COMMIT")
        return said
    except BaseException:
        if database.in_transaction:
            database.execute("ROLLBACK")
        raise


def main() -> int:
    """Keeps the reports that are named."""
    words = sys.argv[1:]
    if words == ["--help"]:
        print(__doc__)
        return 0
    if words == ["--version"]:
        print(f"keep_readings {version()}")
        return 0
    if len(words) < 2 or not words[0] or words[0].startswith("-"):
        print("keep_readings: give a database, and reports behind it; --help says more", file=sys.stderr)
        return 2
    try:
        program = reading_list()
        database = open_database(words[0], create=True)
        read_anew(database, program, words[0])
    except (Unkept, NoDatabase, sqlite3.Error) as fault:
        print(f"keep_readings: {fault}", file=sys.stderr)
        return 1
    unkept = 0
    for name in words[1:]:
        try:
            print(f"{name}: {keep(database, program, name)}")
        except (Unkept, sqlite3.Error, OverflowError, ValueError) as fault:
            unkept += 1
            print(f"keep_readings: {name}{' ' if isinstance(fault, Faulty) else ': '}{fault}", file=sys.stderr)
    if unkept:
        print(f"keep_readings: {unkept} of {len(words) - 1} reports aren't kept", file=sys.stderr)
    return 1 if unkept else 0


def run() -> int:
    """The script's exit status."""
    return ended("keep_readings", main)
