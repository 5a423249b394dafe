"""Sessions in this process: which lines they take, what they do where the program fails, and when ticks are due."""
from __future__ import annotations

import itertools
import json
import os
import random
import resource
import sqlite3
from collections.abc import Callable, Sequence
from dataclasses import replace
from pathlib import Path
from typing import Any

import pytest
from wmbus_service import events, merging, retention, session, spool, steps, store
from wmbus_service.commands import cancel_command, put_command, put_key
from wmbus_service.config import Config, Keep, Mqtt, Programs, Receiver, Ticks
from wmbus_service.downlinks import send_downlinks, write_downlink
from wmbus_service.meters import take_roster
from wmbus_service.receiving import new_file
from wmbus_service.session import Sessions
from wmbus_service.spool import CHUNK, Spool, Spooled, put_places
from wmbus_service.trouble import Trouble

from telegrams import messages
from readings import programs
from . import stand_in
from .meters import Meter, line_of, next_telegrams, payload_of, roster_of, some_meters

NOW = 1_800_000_000.0


class House:
    """A service's database and spool, with two receivers and three meters."""

    def __init__(self, folder: Path) -> None:
        self.sent = folder / "sent"
        radios = {"attic": Receiver(downlinks=str(self.sent)), "roof": Receiver()}
        self.config = Config(folder=folder / "wmbus", receivers=radios, ticks=Ticks(30, 60))
        store.prepare_folder(self.config.folder)
        self.database = store.open_store(self.config.database, is_new=True)
        self.meters = some_meters(random.Random(1), 3)
        take_roster(self.config, self.database, roster_of(self.meters), "roster")
        self.sessions = Sessions(self.config, self.database)
        self.draw, self.files = random.Random(2), 0

    def spool(self, text: str, receiver: str = "attic") -> Path:
        """A file of a receiver."""
        self.files += 1
        path = self.config.spool / f"{receiver}.{self.files:08d}.1.lines"
        path.write_bytes(text.encode("latin-1"))
        return path

    def hear(self, now: float = NOW) -> int:
        """Sessions until nothing is left; how many there were."""
        count = 0
        while self.sessions.next(now):
            count += 1
            assert count < 100
        return count

    def all(self, query: str) -> list[Any]:
        """Rows of the database; single values as they are."""
        return [row[0] if len(row) == 1 else row for row in self.database.execute(query).fetchall()]

    def whole(self, meter: Meter, control: int = 0x44, access: int | None = None, moment: int = 100) -> str:
        """The line of a meter's next message."""
        meter.counter += 1
        return line_of(messages.whole(meter.key, meter.address, meter.counter, payload_of(meter.counter), control, access), moment)


@pytest.fixture(name="house")
def house_fixture(tmp_path: Path, monkeypatch: pytest.MonkeyPatch) -> House:
    """A house."""
    stand_in.use_stand_in(monkeypatch)
    return House(tmp_path)


def failing(at: Callable[[Sequence[str]], bool]) -> Callable[..., steps.Told]:
    """A program that fails over some lines."""
    def run(program: Any, state: str, lines: Sequence[str]) -> steps.Told:
        if at(lines):
            raise steps.ProgramFailed(10, "wmbus: no memory")
        return stand_in.stand_in(program, state, lines)
    return run


def test_a_bad_line_is_set_aside(house: House, monkeypatch: pytest.MonkeyPatch, caplog: pytest.LogCaptureFixture) -> None:
    """A line over which the program fails is found by halves, set aside and named; all others are heard, each once."""
    lines = [house.whole(house.meters[0]) for _ in range(20)]
    lines[13] = "A 1 00poison\n"
    house.spool("".join(lines))
    monkeypatch.setattr(session, "run_steps", failing(lambda told: any("poison" in line for line in told)))
    house.hear()
    assert house.all("select text from aside") == ["A 1 00poison"]
    assert house.all("select text || char(10) from line order by number") == lines[:13] + lines[14:]
    assert len(house.all("select id from reading")) == 19
    assert "set aside" in caplog.text
    assert house.sessions.most > 1


def test_a_bad_command_is_refused(house: House, monkeypatch: pytest.MonkeyPatch) -> None:
    """A command over which the program fails is given up, and so are no others."""
    put_command(house.database, "good", house.meters[0].name, "01", NOW)
    put_command(house.database, "bad", house.meters[0].name, "ee", NOW)
    put_key(house.database, "key", house.meters[0].name, "00" * 16, NOW)
    monkeypatch.setattr(session, "run_steps", failing(lambda told: any(line.endswith(" ee") for line in told)))
    house.hear()
    wanted = [("bad", "refused", "ee"), ("good", "queued", "01"), ("key", "done", "")]
    assert house.all("select id, state, payload from command order by id") == wanted
    assert "ee" not in house.all("select text from aside")[0]


def test_a_key_that_is_refused(house: House, monkeypatch: pytest.MonkeyPatch) -> None:
    """No new key stays among the commands once it was taken, refused, cancelled or set aside; `line` has those that were heard."""
    keys = [f"{number:032x}" for number in range(1, 5)]
    put_key(house.database, "refused", house.meters[2].name, keys[0], NOW)
    put_key(house.database, "taken", house.meters[0].name, keys[1], NOW)
    house.hear()
    put_key(house.database, "cancelled", house.meters[0].name, keys[2], NOW)
    cancel_command(house.database, "cancelled", NOW)
    put_key(house.database, "aside", house.meters[0].name, keys[3], NOW)
    monkeypatch.setattr(session, "run_steps", failing(bool))
    house.hear()
    assert house.all("select id, state, payload from command order by id") == [
        ("aside", "refused", ""), ("cancelled", "cancelled", ""), ("refused", "refused", ""), ("taken", "done", "")]


def test_each_change_of_a_command_is_told(house: House, monkeypatch: pytest.MonkeyPatch) -> None:
    """Also that a new key was taken, that a command among a receiver's lines is queued, and that one was set aside, is a message for the
    broker."""
    config = replace(house.config, mqtt=Mqtt())
    sessions = Sessions(config, house.database)
    house.spool(f"Q {house.meters[0].name} 01\n")
    put_key(house.database, "key", house.meters[0].name, "00" * 16, NOW)
    sessions.next(NOW)
    put_command(house.database, "bad", house.meters[0].name, "ee", NOW)
    monkeypatch.setattr(session, "run_steps", failing(bool))
    for _ in range(2):
        sessions.next(NOW)
    told = [(topic, json.loads(text)) for topic, text in house.all("select topic, payload from publication order by id")]
    assert [topic for topic, _ in told] == [f"wmbus/commands/{house.meters[0].name}"] * 3
    assert [(it["id"], it["state"]) for _, it in told] == [("key", "done"), ("line 2", "queued"), ("bad", "refused")]


def test_a_value_with_a_qualifier(house: House) -> None:
    """What flowed backward is another quantity than the volume (docs/FORMATS.md), for the broker and among the values of a day."""
    meter = house.meters[0]
    sessions = Sessions(replace(house.config, mqtt=Mqtt()), house.database)
    for counter, payload in ((1, "0c933c05000000" "0c1307000000"), (2, "0c1308000000" "0c933c06000000")):
        text = b"\x2f\x2f" + bytes.fromhex(payload)
        house.spool(line_of(messages.whole(meter.key, meter.address, counter, text, 0x44, None), 100))
        sessions.next(NOW)
    told = [json.loads(text) for text in house.all("select payload from publication where topic like 'wmbus/meter/%' order by id")]
    assert [it["volume"] for it in told] == [0.007, 0.008]
    assert [sorted(it.values())[:2] for it in told] == [[0.005, 0.007], [0.006, 0.008]]
    retention.let_go(house.database, Keep(readings=1), NOW + 2 * 86_400)
    assert house.all("select value, modifiers from daily order by value") == [("6", "3c"), ("8", "")]


def test_a_program_that_always_fails(house: House, monkeypatch: pytest.MonkeyPatch) -> None:
    """Where it isn't the lines' fault none is set aside, and all come again."""
    house.spool("".join(house.whole(house.meters[0]) for _ in range(5)))
    with monkeypatch.context() as within:
        within.setattr(session, "run_steps", failing(lambda told: True))
        with pytest.raises(Trouble, match="without any line"):
            house.hear()
        within.setattr(session, "run_steps", steps.run_steps)
        within.setattr(house.sessions, "config", replace(house.config, programs=Programs(steps="/nonexistent/wmbus steps")))
        with pytest.raises(Trouble, match="can't be started"):
            house.hear()
    assert not house.all("select id from aside")
    house.hear()
    assert len(house.all("select id from reading")) == 5


@pytest.mark.parametrize("word", ["kill $$", "exit 10"])
def test_a_program_that_fails_once(house: House, monkeypatch: pytest.MonkeyPatch, word: str) -> None:
    """Where the program is ended from outside, as when a machine is shut down, or lacks memory for a moment, its only line is heard
    again; the former is trouble, as sessions stand still for as long as it is so."""
    house.spool(house.whole(house.meters[0]))
    failures = [word]

    def failing_once(_words: Sequence[str], _state: str, lines: Sequence[str]) -> steps.Told:
        steps.output_of(["sh", "-c", failures.pop() if lines and failures else "true"], lines)
        return steps.Told([], {})
    with monkeypatch.context() as within:
        within.setattr(session, "run_steps", failing_once)
        if word == "exit 10":
            assert house.sessions.next(NOW) == 1
        else:
            with pytest.raises(Trouble, match="ended from outside"):
                house.sessions.next(NOW)
    assert not house.all("select id from aside")
    house.hear()
    assert len(house.all("select id from reading")) == 1


def test_an_output_that_is_cut_off(monkeypatch: pytest.MonkeyPatch, tmp_path: Path) -> None:
    """What isn't whole doesn't count, whatever the status says."""
    line = '{"kind":"unframed","line":1,"reason":"empty","values":[]}'
    counts = '{"bad":0,"end":"end","kind":"counts","lines":1,"own":0,"strangers":0,"unframed":1}'
    for text in ("", "no JSON", "[]", "{}", line, counts):
        program = tmp_path / "program"
        program.write_text(f"#!/bin/sh\ncat >/dev/null\necho '{text}'\n")
        program.chmod(0o755)
        with pytest.raises(steps.ProgramFailed):
            steps.run_steps([str(program)], "state", ["A 1 "])


def test_whole_lines_alone(house: House) -> None:
    """A line without its end waits, and is taken once it has it; of a file that nobody writes any more it is dropped with the file."""
    first, second = house.whole(house.meters[0]), house.whole(house.meters[0])
    path = house.spool(first + second[:40])
    house.hear()
    assert house.all("select text || char(10) from line") == [first]
    with open(path, "a", encoding="ascii") as file:
        file.write(second[40:] + "A 1 torn")
    house.hear()
    assert house.all("select text || char(10) from line order by number") == [first, second]
    third = house.whole(house.meters[0])
    later = house.spool(third)
    house.hear()
    assert [path.exists(), later.exists()] == [False, True]
    house.hear()
    assert house.all("select file, taken from source order by file") == [(path.name, len(first + second)), (later.name, len(third))]


def test_a_file_that_would_come_back(house: House, monkeypatch: pytest.MonkeyPatch) -> None:
    """The place of a file that went is forgotten once the folder without it stands on the disk (fsync(2)): after a power cut the file may be
    there again, and its lines would be heard a second time."""
    first = house.spool(house.whole(house.meters[0]))
    house.spool(house.whole(house.meters[0]))
    synced: list[tuple[bool, int]] = []

    def sync(opened: int) -> None:
        if os.readlink(f"/proc/self/fd/{opened}") == str(house.config.spool):
            synced.append((first.exists(), len(house.all("select file from source"))))
    monkeypatch.setattr(spool, "sync", sync)
    monkeypatch.setattr(spool, "KEPT_PLACES", 0)
    house.hear()
    house.sessions.next(NOW)
    assert not first.exists() and len(house.all("select file from source")) == 1
    assert synced[-1] == (False, 2)


def test_a_file_that_is_written_stays(house: House) -> None:
    """As long as somebody holds the lock of a file it stays, though a later one is there."""
    opened = new_file(house.config.spool, "attic")
    with open(opened, "w", encoding="ascii") as file:
        (first,) = house.config.spool.glob("attic.*")
        other = new_file(house.config.spool, "attic")
        house.sessions.next(NOW)
        assert first.exists()
        file.write(house.whole(house.meters[0]))
        file.flush()
        house.hear()
        assert len(house.all("select number from line")) == 1
    house.sessions.next(NOW)
    assert not first.exists()
    with open(other, "w", encoding="ascii"):
        pass


def test_long_lines(house: House) -> None:
    """A line that is far too long is a bad one, and costs no more memory than others; those behind it are heard."""
    good = house.whole(house.meters[0])
    house.spool("A 1 " + "0" * (2 * CHUNK + 5) + "\n" + good)
    house.hear()
    assert len(house.all("select id from reading")) == 1
    assert max(len(text) for text in house.all("select text from line")) <= 1100


def test_lines_behind_long_ones(house: House) -> None:
    """However long lines are, those behind them stay in their order, in front of those of the receiver's next file and of ticks that are
    due, and their file stays until they are heard."""
    good = [house.whole(house.meters[0], moment=5) for _ in range(3)]
    house.spool("bad\n" + "0" * (3 * CHUNK // 2) + "\n" + good[0] + ("0" * 2000 + "\n") * 3000 + good[1])
    house.spool(good[2])
    house.database.execute("update meter set due = 1000 where address = ?", (house.meters[1].name,))
    house.sessions.most = 1
    house.hear()
    assert house.all("select counter from reading") == [1, 2, 3]
    assert house.all("select text from line order by number desc limit 1") == [f"T {house.meters[1].name}"]


def test_files_that_went(house: House, monkeypatch: pytest.MonkeyPatch) -> None:
    """Of files that are taken away nothing is held but the last ones' places, however often a receiver begins anew."""
    monkeypatch.setattr(spool, "KEPT_PLACES", 3)
    for _ in range(10):
        house.spool(house.whole(house.meters[0]))
        house.hear()
    assert len(house.sessions.spools[0].synced) <= 2
    assert len(house.all("select file from source")) <= 5


@pytest.mark.parametrize("asked", [1, 2, 3])
def test_an_empty_file_that_goes_meanwhile(house: House, monkeypatch: pytest.MonkeyPatch, asked: int) -> None:
    """A receiver that heard nothing takes its file away, at whichever moment of a session: the others' lines are heard."""
    gone = house.spool("")
    house.spool(house.whole(house.meters[0]))
    place_of, places = spool.place_of, itertools.count(1)

    def going(*words: Any) -> int:
        if next(places) == asked:
            gone.unlink(missing_ok=True)
        return place_of(*words)
    monkeypatch.setattr(spool, "place_of", going)
    house.hear()
    assert house.all("select counter from reading") == [1]


def test_a_long_header_names_another_meter(house: House) -> None:
    """The program says for which meter a line is, and the session has that meter's block, whatever the link address is."""
    meter = house.meters[0]
    text, mac = messages.message(meter.key, meter.address, 1, payload_of(1))
    header = bytes([0x72]) + meter.address[2:6] + meter.address[:2] + meter.address[6:] + text[1:5]
    inner = header + text[5:]
    counted = bytes([0x25]) + (1).to_bytes(4, "little")
    mac = messages.cmac(messages.derived(meter.key, messages.METER_MAC, 1, meter.address), counted + inner)[:8]
    adapter = bytes.fromhex("931599999999") + b"\x01\x07"
    house.spool(line_of(messages.telegram(0x44, adapter, bytes.fromhex("900f002c") + counted + mac + inner), 5))
    house.hear()
    assert house.all("select address, counter from reading") == [(meter.name, 1)]
    assert not house.all("select address from stranger")


def test_receivers_by_moment(house: House, monkeypatch: pytest.MonkeyPatch) -> None:
    """The least moment is next, of equal ones the first receiver's; lines without a moment stay behind the one before; also where few
    are taken at once."""
    attic = ["A 5 aa", "T 0000000000000000", "A 3 bb", "A 9 cc"]
    roof = ["nothing", "A 5 dd", "A 4 ee", "B 18446744073709551615 ff", "A 1 11"]
    wanted = ["nothing", "A 5 aa", "T 0000000000000000", "A 3 bb", "A 5 dd", "A 4 ee", "A 9 cc", "B 18446744073709551615 ff", "A 1 11"]
    inputs = [[Spooled(name, "f", 0, it) for it in lines] for name, lines in (("attic", attic), ("roof", roof))]
    assert [it.text for it in merging.merged(inputs)] == wanted
    house.spool("".join(f"{it}\n" for it in attic))
    house.spool("".join(f"{it}\n" for it in roof), "roof")
    monkeypatch.setattr(session, "MOST", 3)
    house.sessions.most = 3
    house.hear()
    assert house.all("select text from line order by number") == wanted


def test_receivers_merged_by_the_program() -> None:
    """Where the program `line_merge` is there it says the same of drawn lines."""
    path = os.environ.get("WMBUS_LINE_MERGE") or programs.ready("line_merge")
    if not path:
        pytest.skip("line_merge isn't there")
    draw = random.Random(3)
    kinds = ["A {} aa", "B {} bb", "T 0000000000000000", "bad", "A {}", "", "A {} ", "A 0{} aa", "A {} a", "a {} aa", "B {} aa\r",
             "A {} aa bb", "A 18446744073709551615 aa", "A 18446744073709551616 aa", "A -{} aa",
             "A {} " + "0" * 1016, "A {} " + "0" * 1020 + "\r", "A {} " + "0" * 1022]
    for _ in range(40):
        inputs = [[Spooled(name, "f", 0, draw.choice(kinds).format(draw.randrange(9))) for _ in range(draw.randrange(30))]
                  for name in ("attic", "roof", "cellar")[:draw.randrange(1, 4)]]
        assert merging.merged(inputs, [path]) == merging.merged(inputs)


def test_a_program_that_fails_to_merge(house: House) -> None:
    """Where `line_merge` fails that is said, no line counts, and all are heard once it does its work again."""
    for receiver in ("attic", "roof"):
        house.spool(house.whole(house.meters[0]), receiver)
    config, house.sessions.config = house.config, replace(house.config, programs=Programs(line_merge="false"))
    for _ in range(3):
        with pytest.raises(Trouble, match="false: .*status 1"):
            house.sessions.next(NOW)
    for output in ("usage: line_merge FILE", "3 A\\n1 A", "0 A\\n1 A", "1 A\\n1 A"):
        house.sessions.config = replace(house.config, programs=Programs(line_merge=f"printf '{output}\\n'"))
        with pytest.raises(Trouble, match="printf .*fails to merge"):
            house.sessions.next(NOW)
    house.sessions.config = replace(house.config, programs=Programs(line_merge="/nonexistent/line_merge"))
    with pytest.raises(Trouble, match="/nonexistent/line_merge: .*can't be started"):
        house.sessions.next(NOW)
    house.sessions.config = config
    house.hear()
    assert house.all("select counter from reading") == [1, 2]


def test_lines_of_a_receiver_that_is_no_more(house: House) -> None:
    """What a receiver spooled is heard though it has another name in the configuration now."""
    house.spool(house.whole(house.meters[0]), "cellar")
    Sessions(house.config, house.database).next(NOW)
    assert house.all("select counter, receiver from reading") == [(1, "cellar")]


def test_lines_of_a_receiver_that_is_new(house: House) -> None:
    """Who names a further receiver, and starts it beside a service that runs, has its lines heard."""
    house.hear()
    house.spool(house.whole(house.meters[0]), "garage")
    house.hear()
    assert house.all("select counter, receiver from reading") == [(1, "garage")]


def test_ticks(house: House) -> None:
    """A window is closed once its time is over, in front of what is heard later; three tries, and the command has expired."""
    meter = house.meters[0]
    put_command(house.database, "a", meter.name, "01", NOW)
    at = int(NOW)
    states = []
    for number in range(4):
        house.spool(house.whole(meter, access=0x84, moment=at))
        house.hear(at)
        send_downlinks(house.config, house.database, at)
        (due,) = house.all(f"select due from meter where address = '{meter.name}'")
        assert due == (at + 30 if number < 3 else None)
        states += house.all("select state || tries from command")
        assert house.hear(at + 29) == 0
        # what was heard within the window stands in front of the tick, what was heard later behind it
        house.spool(house.whole(meter, moment=at + 30) + house.whole(meter, moment=at + 31))
        house.hear(at + 40)
        at += 100
    assert states == ["sent1", "sent2", "sent3", "expired3"]
    kinds = house.all("select substr(text, 1, 1) from line where number > 1 order by number")
    assert "".join(kinds) == "AATA" * 3 + "AAA"
    assert len(house.sent.read_text().splitlines()) == 3


def test_fragments_grow_old(house: House) -> None:
    """Fragments whose others never come are given up at the second tick, and no tick is due then."""
    meter = house.meters[0]
    meter.counter = 1
    house.spool(line_of(messages.fragments(meter.key, meter.address, 1, payload_of(1) * 4, 2)[0], int(NOW)))
    holds = []
    for second in (0, 59, 60, 119, 120, 500):
        house.hear(NOW + second)
        holds += house.all(f"select holds, due - {NOW} from meter where address = '{meter.name}'")
    assert holds == [(1, 60), (1, 60), (1, 120), (1, 120), (0, None), (0, None)]


def test_a_clock_that_jumps(house: House) -> None:
    """Where the clock is set back by a day the tick still comes in time; where it is set forward it comes at once."""
    meter = house.meters[0]
    put_command(house.database, "a", meter.name, "01", NOW)
    house.spool(house.whole(meter, access=0x84))
    house.hear(NOW)
    house.spool(house.whole(meter))
    house.hear(NOW - 86_400)
    assert house.all(f"select due from meter where address = '{meter.name}'") == [NOW - 86_400 + 60]
    house.hear(NOW + 86_400)
    assert house.all(f"select due, waits from meter where address = '{meter.name}'") == [(None, None)]


def test_a_clock_set_back_over_a_silent_meter(house: House) -> None:
    """The tick comes in time also where the meter isn't heard any more since the clock was set back."""
    meter, back = house.meters[0], NOW - 86_400
    put_command(house.database, "a", meter.name, "01", NOW)
    house.spool(house.whole(meter, access=0x84))
    house.hear(NOW)
    waits = []
    for second in (0, 59, 61):
        house.hear(back + second)
        waits += house.all(f"select waits is null from meter where address = '{meter.name}'")
    assert waits == [0, 0, 1]


def test_commands(house: House) -> None:
    """A command is confirmed by a response, cancelled on its way, refused where eight wait; nothing is done twice."""
    meter = house.meters[0]
    for number in range(10):
        assert put_command(house.database, f"c{number}", meter.name, f"0{number}", NOW)
    (payload,) = house.all("select payload from command where id = 'c0'")
    assert not put_command(house.database, "c0", meter.name.upper(), payload, NOW)
    for other, told in ((meter, "99"), (house.meters[1], payload)):
        with pytest.raises(Trouble, match="command c0: its id was used for another command"):
            put_command(house.database, "c0", other.name, told, NOW)
    house.hear()
    assert house.all("select id from command where state = 'refused'") == ["c8", "c9"]
    house.spool(house.whole(meter, access=0x84))
    house.hear()
    assert house.all("select state from command where id = 'c0'") == ["queued"]
    send_downlinks(house.config, house.database, NOW)
    assert house.all("select state from command where id = 'c0'") == ["sent"]
    assert cancel_command(house.database, "c1", NOW) == "queued"
    house.spool(house.whole(meter, 0x08))
    house.hear()
    assert house.all("select state from command where id in ('c0', 'c1') order by id") == ["confirmed", "cancelled"]
    assert cancel_command(house.database, "c0", NOW) == "confirmed"
    assert house.hear() == 0


def test_downlinks(house: House) -> None:
    """A radio that can't send, one that isn't there, and a downlink that comes too late are named; none of them is sent later."""
    for receiver, told, said in (("roof", "", "can't send"), ("roof", "pipe", "isn't there"), ("attic", "", "too late")):
        meter = house.meters[0]
        path = house.config.folder.parent / "pipe"
        if told:
            os.mkfifo(path)
            house.config.receivers["roof"] = Receiver(downlinks=str(path))
        put_command(house.database, f"{receiver}{told}", meter.name, "01", NOW)
        house.spool(house.whole(meter, access=0x84), receiver)
        house.hear()
        send_downlinks(house.config, house.database, NOW + (1000 if said == "too late" else 0))
        assert said in house.all("select missed from outbox order by id desc limit 1")[0]
        house.hear(NOW + 31)
    assert not house.sent.exists()


def test_a_downlink_that_was_written_in_part(tmp_path: Path) -> None:
    """Where the disk has no room for all of a downlink it isn't sent, and the next one stands on a line of its own."""
    path = tmp_path / "sent"
    write_downlink(str(path), "01")
    before = resource.getrlimit(resource.RLIMIT_FSIZE)
    resource.setrlimit(resource.RLIMIT_FSIZE, (8, before[1]))
    try:
        with pytest.raises(OSError, match="in part"):
            write_downlink(str(path), "0203")
    finally:
        resource.setrlimit(resource.RLIMIT_FSIZE, before)
    write_downlink(str(path), "04")
    assert path.read_text().splitlines()[-1] == "D 04"


def test_events_with_ticks() -> None:
    """Ticks stand in front of the first line that was heard later."""
    lines = [Spooled("attic", "f", 0, text) for text in ("A 5 aa", "bad", "A 7 bb")]
    for due, place in ((4.0, 0), (5.0, 2), (6.5, 2), (7.0, 3), (9.0, 3)):
        found = events.with_ticks(lines, [(due, "m")])
        assert [it.ticked for it in found].index("m") == place


def test_no_tick_overtakes_lines(house: House) -> None:
    """While lines wait that a session has no room for, as many commands have come or the last one failed, no tick is taken that isn't due
    before one of them was heard; a session that has room takes it behind all lines."""
    meter = house.meters[0].name
    house.database.execute("update meter set due = 500 where address = ?", (meter,))
    house.spool("A 1 00\nA 2 00\nA 600 00\nA 3 00\n")
    put_command(house.database, "c1", meter, "01", NOW)
    spool = Spool(house.config.spool, "attic")
    heard = []
    for most in (1, 2, 1, 1, 2, 2):
        batch = events.gather(house.config, house.database, [spool], NOW, most)
        put_places(house.database, [it.spooled for it in batch if it.spooled])
        for it in batch:
            house.database.execute("update meter set due = null where address = ?", (it.ticked,))
            house.database.execute("update command set state = 'queued' where id = ?", (it.command,))
        heard.append([it.text for it in batch])
    assert heard == [[f"Q {meter} 01"], ["A 1 00", "A 2 00"], [f"T {meter}"], ["A 600 00"], ["A 3 00"], []]
    house.database.execute("update meter set due = 700 where address = ?", (meter,))
    house.spool("A 4 00\n")
    assert [[it.text for it in events.gather(house.config, house.database, [spool], NOW, most)] for most in (0, 1, 2)] == [
        [], ["A 4 00"], ["A 4 00", f"T {meter}"]]
    house.sessions.most = 1
    assert house.hear() == 2


def test_what_old_commands_cost(house: House) -> None:
    """Commands that are done stay, as each id is taken once, and cost a session nothing."""
    rows = [(f"c{number}", house.meters[0].name, number) for number in range(5000)]
    with store.transaction(house.database):
        house.database.executemany("insert into command (id, address, kind, payload, state, number, made, changed)"
                                   " values (?, ?, 'send', '01', 'confirmed', ?, 1, 1)", rows)
    put_command(house.database, "new", house.meters[0].name, "02", NOW)
    house.database.execute("update command set state = 'sent', wish = 'cancel' where id = 'c7'")
    steps_of: list[None] = []
    house.database.set_progress_handler(lambda: steps_of.append(None), 100)
    asked = events.asked_for(house.database)
    house.database.set_progress_handler(None, 0)
    assert [it.text for it in asked] == [f"X {house.meters[0].name} 7", f"Q {house.meters[0].name} 02"]
    assert len(steps_of) * 100 < 5000


def test_spool_place_is_kept(house: House) -> None:
    """A transaction that isn't committed leaves the place where it was."""
    house.spool(house.whole(house.meters[0]))
    spool = Spool(house.config.spool, "attic")
    with pytest.raises(sqlite3.OperationalError), store.transaction(house.database):
        put_places(house.database, spool.take(house.database, 5))
        house.database.execute("no statement")
    assert len(spool.take(house.database, 5)) == 1


def test_drawn_lines_are_written_as_told(house: House) -> None:
    """Of drawn telegrams the rows are those of one uncut session, in whatever batches they are heard."""
    lines = [line_of(it, 100) for _ in range(40) for it in next_telegrams(house.draw, house.draw.choice(house.meters))]
    for start in range(0, len(lines), 7):
        house.spool("".join(lines[start:start + 7]))
        house.hear()
    told = stand_in.stand_in(None, roster_of(house.meters), [line.rstrip("\n") for line in lines])
    stored = [(it["address"], it["counter"], len(it["records"])) for it in told.lines if it["outcome"] == "stored"]
    query = "select address, counter, (select count(*) from record where reading = reading.id) from reading order by id"
    assert house.all(query) == stored
    assert {address: block.text for address, block in told.blocks.items()} == dict(house.all("select address, block from meter"))
