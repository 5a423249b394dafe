"""The command line as somebody uses it who installs the service, over a configuration in a file."""
from __future__ import annotations

import errno
import io
import json
import os
import pty
import re
import signal
import socket
import sqlite3
import subprocess
import sys
import threading
import time
from collections.abc import Iterator
from contextlib import closing, redirect_stderr, redirect_stdout, suppress
from dataclasses import dataclass
from pathlib import Path

from telegrams import messages
import pytest
from wmbus_service import backup, config, exporting, meters, schema, service, store
from wmbus_service.backup import raise_counters
from wmbus_service.commandline import main
from wmbus_service.commands import put_key
from wmbus_service.config import Config, Programs, has_steps, read_config, unproved_words
from wmbus_service.meters import add_meter, set_own
from wmbus_service.receiving import spooled_bytes
from wmbus_service.service import Service
from wmbus_service.store import open_store, prepare_folder
from wmbus_service.trouble import Trouble

from .kill import PYTHON, TOP, Child, program
from .meters import line_of, payload_of
from .processes import PATIENCE, run, until
from .stand_in import use_stand_in
from .test_operation import NOBODY, as_root

ADDRESS, KEY = "4304101230400104", "00112233445566778899aabbccddeeff"
OWN = "9315010000000131"
STEPS = f"{TOP}/tests/reference/steps"


@dataclass(frozen=True)
class Run:
    """What a run of the command gave."""

    status: int
    output: str
    errors: str


class Place:
    """A configuration, and runs of the command over it."""

    def __init__(self, folder: Path, patches: pytest.MonkeyPatch) -> None:
        self.folder, self.config, self.patches = folder, folder / "config.toml", patches
        use_stand_in(patches)
        self.config.write_text(f'folder = "{folder}/wmbus"\n[programs]\nsteps = "{STEPS}"\nline_feed = "{program("line_feed")}"\n'
                               f'meter_name = "{program("meter_name")}"\n[receivers.attic]\ncommand = "cat"\nformat = "hex"\n')

    def run(self, *words: str, given: str = "") -> Run:
        """Runs the command."""
        self.patches.setenv("WMBUS_CONFIG", str(self.config))
        self.patches.setattr("sys.stdin", io.StringIO(given))
        output, errors = io.StringIO(), io.StringIO()
        with redirect_stdout(output), redirect_stderr(errors):
            try:
                status: int = main(list(words))
            except SystemExit as ended:
                status = int(ended.code or 0)
        return Run(status, output.getvalue(), errors.getvalue())

    def said(self, *words: str, given: str = "") -> str:
        """What a run that has to succeed prints."""
        done = self.run(*words, given=given)
        assert done.status == 0, done.errors
        return done.output

    def fault(self, *words: str, given: str = "") -> str:
        """What a run that has to fail says."""
        done = self.run(*words, given=given)
        assert done.status == 1, done.output + done.errors
        return done.output + done.errors

    def hear(self, lines: str) -> None:
        """Has the service hear these lines, in this process."""
        config = read_config(self.config)
        number = max((int(path.name.split(".")[1]) for path in config.spool.iterdir()), default=0) + 1
        (config.spool / f"attic.{number:08d}.1.lines").write_text(lines)
        Service(config, open_store(config.database)).turn()


@pytest.fixture(name="place")
def place_fixture(tmp_path: Path, monkeypatch: pytest.MonkeyPatch) -> Place:
    """An empty place."""
    return Place(tmp_path, monkeypatch)


def recorded() -> str:
    """Two telegrams of the meter ADDRESS."""
    return (TOP / "examples" / "heat.rx").read_text()


def test_from_nothing_to_readings(place: Place) -> None:
    """A meter is added, its telegrams are heard, a command waits, is cancelled, and all goes through a copy."""
    assert "no meter is known" in place.fault("check")
    assert "own address isn't known" in place.fault("add", ADDRESS, given=KEY)
    assert "key" in place.fault("add", ADDRESS, "--own", OWN, given="0011")
    assert "one that no meter has" in place.fault("add", ADDRESS, "--own", ADDRESS.upper(), given=KEY)
    assert place.said("add", ADDRESS, "--own", OWN, "--name", "cellar", given=f"{KEY}\n") == f"meter {ADDRESS} was added\n"
    assert "known already" in place.fault("add", ADDRESS, given=KEY)
    assert "can't send" in place.fault("check")
    place.hear(recorded())
    told = json.loads(place.said("status", "--json"))
    assert [(it["name"], it["counter"]) for it in told["meters"]] == [("cellar", 8)]
    wanted = run([program("wmbus"), "hear", TOP / "examples/heat.roster", TOP / "examples/heat.rx"])
    records = [line.split() for line in wanted.stdout.split("\n") if line.startswith("record ")]
    # the report has the records of the last reading
    rows = [json.loads(line) for line in place.said("export", "--json").splitlines()]
    assert [it["quantity"] for it in rows if it["counter"] == 8] == [it[5] for it in records]
    assert "doesn't run" in place.said("status")
    assert place.said("command", ADDRESS, "0102", "--id", "a1") == "command a1 waits\n"
    assert "taken before" in place.said("command", ADDRESS, "0102", "--id", "a1")
    assert "1 to 94 bytes" in place.fault("command", ADDRESS, "xyz")
    assert "no meter" in place.fault("command", "0" * 16, "01")
    assert place.said("command", "--cancel", "a1") == "command a1 is cancelled\n"
    assert "no command" in place.fault("command", "--cancel", "a2")
    # (as a script has it whose variable is empty: it asks for no command of its own id, and for none at all)
    assert "its id isn't" in place.fault("command", ADDRESS, "01", "--id", "")
    assert "no command" in place.fault("command", ADDRESS, "01", "--cancel", "")
    with sqlite3.connect(place.folder / "wmbus/wmbus.db") as database:
        assert database.execute("select id from command").fetchall() == [("a1",)]


def test_when_each_receiver_was_heard(place: Place) -> None:
    """`status` says of each receiver of the configuration when its last line came, also where no session has taken it yet; of one that stands
    still what to do."""
    with open(place.config, "a", encoding="utf-8") as file:
        file.write('[receivers.roof]\ncommand = "cat"\nformat = "hex"\n')
    place.said("add", ADDRESS, "--own", OWN, given=KEY)

    def receivers() -> list[str]:
        return [line for line in place.said("status").splitlines() if line.startswith("receiver ")]
    never = "receiver roof: heard nothing: is it plugged in, and does its unit run (journalctl -u wmbus-receiver@roof)?"
    assert receivers() == [never.replace("roof", "attic"), never]
    place.hear(recorded())
    assert re.fullmatch("receiver attic: heard [0-9] s ago", receivers()[0]) and receivers()[1] == never
    with sqlite3.connect(place.folder / "wmbus/wmbus.db") as database:
        database.execute("update line set made = made - 5 * 3600")
    assert receivers()[0] == ("receiver attic: silent for 5 hours: is it plugged in, and does its unit run"
                              " (journalctl -u wmbus-receiver@attic)?")
    told = json.loads(place.said("status", "--json"))["receivers"]
    assert [it["name"] for it in told] == ["attic", "roof"] and told[1]["age"] is None and 0 <= told[0]["age"] - 5 * 3600 < PATIENCE
    # (the service doesn't run, and what comes waits)
    with open(read_config(place.config).spool / "attic.00000001.1.lines", "a", encoding="ascii") as lines:
        lines.write("A 1 00\n")
    assert re.fullmatch("receiver attic: heard [0-9] s ago", receivers()[0])
    with sqlite3.connect(place.folder / "wmbus/wmbus.db") as database:
        database.execute("delete from line")
    (place.folder / "wmbus/spool/attic.00000001.1.lines").unlink()
    assert receivers()[0].startswith("receiver attic: silent for long: ")


def test_a_key_that_is_corrected(place: Place) -> None:
    """A meter with a wrong key gets the right one, with which what it sends from then on is read; nothing else of it changes, and what was
    refused under the wrong one is told no more."""
    place.said("add", ADDRESS, "--own", OWN, "--name", "cellar", given=KEY[::-1])
    place.hear(recorded())
    told = json.loads(place.said("status", "--json"))
    assert [it["counter"] for it in told["meters"]] == [None] and told["refusals"]
    assert "no meter" in place.fault("correct", "0" * 16, given=KEY)
    assert f"key of {ADDRESS}: it isn't 32" in place.fault("correct", ADDRESS, given=KEY[1:])
    assert place.said("correct", ADDRESS.upper(), given=f"{KEY}\n") == f"meter {ADDRESS} has another key\n"
    assert not json.loads(place.said("status", "--json"))["refusals"]
    place.hear(recorded())
    told = json.loads(place.said("status", "--json"))
    assert [(it["name"], it["counter"]) for it in told["meters"]] == [("cellar", 8)]
    # (its counter stays: what was stored isn't stored again)
    values = place.said("export", "--json")
    place.said("correct", ADDRESS, given=KEY)
    place.hear(recorded())
    assert place.said("export", "--json") == values


def test_a_mode_that_is_corrected(place: Place) -> None:
    """A meter that was added in mode 5 and sends in mode 7 is read from then on where its mode is corrected; and one of which messages of
    mode 7 were stored stays in it, since no counter would keep them from coming again."""
    place.said("add", ADDRESS, "--own", OWN, "--name", "cellar", "--mode", "5", given=KEY)
    place.hear(recorded())
    assert [it["words"] for it in json.loads(place.said("status", "--json"))["refusals"]] == ["mode 7 5"]
    assert place.said("correct", ADDRESS, "--mode", "7", given=KEY) == f"meter {ADDRESS} has another key, in mode 7\n"
    place.hear(recorded())
    told = json.loads(place.said("status", "--json"))
    assert [(it["name"], it["counter"]) for it in told["meters"]] == [("cellar", 8)] and not told["refusals"]
    assert "stays in this mode" in place.fault("correct", ADDRESS, "--mode", "5", given=KEY)
    assert place.said("correct", ADDRESS, "--mode", "7", given=KEY)
    place.said("export", "--state", str(place.folder / "state"))
    assert f"meter {ADDRESS} 7 {KEY} - 8 0 0" in (place.folder / "state").read_text()


def test_a_meter_that_counts_anew(place: Place) -> None:
    """As one whose electronics were exchanged: under its new key its messages are stored again from the first one on, and under a key that it
    had before, by which all that it ever sent could come again, it is taken neither then nor later. Its downlink counter stays."""
    def spoken(counter: int, key: str) -> str:
        return line_of(messages.whole(bytes.fromhex(key), bytes.fromhex(ADDRESS), counter, payload_of(counter), 0x44, None), 100 + counter)

    def counters() -> list[int]:
        with closing(open_store(place.folder / "wmbus/wmbus.db")) as database:
            return [counter for (counter,) in database.execute("select counter from reading order by id")]
    place.said("add", ADDRESS, "--own", OWN, given=KEY)
    for second in ("c", "d"):
        place.said("rekey", ADDRESS, given=second * 32)
        place.hear(spoken(900, KEY))
    for key in ("a" * 32, KEY):
        place.said("correct", ADDRESS, given=key)
    with closing(open_store(place.folder / "wmbus/wmbus.db")) as database:
        database.execute("update meter set block = replace(block, ' 900 0 0', ' 900 7 0')")
    for key in (KEY, "C" * 32, "d" * 32, "a" * 32):
        assert "one that it never had" in place.fault("correct", ADDRESS, "--anew", given=key)
    place.hear(spoken(3, KEY) + spoken(4, "e" * 32))
    assert counters() == [900]
    # (behind it this one would be the second key of the new electronics)
    place.said("rekey", ADDRESS, given="b" * 32)
    ident = re.findall(r"a second key of it, (\S+), still waits for a session", place.fault("correct", ADDRESS, "--anew", given="E" * 32))[0]
    assert place.said("command", "--cancel", ident)
    assert place.said("correct", ADDRESS, "--anew", given="E" * 32) == f"meter {ADDRESS} has another key, and counts anew\n"
    assert not json.loads(place.said("status", "--json"))["refusals"]
    place.hear(spoken(5, "e" * 32) + spoken(901, KEY) + spoken(6, "e" * 32) + spoken(5, "e" * 32))
    assert counters() == [900, 5, 6]
    place.said("export", "--state", str(place.folder / "state"))
    assert f"meter {ADDRESS} 7 {'e' * 32} - 6 7 0" in (place.folder / "state").read_text()
    for words in (("correct", ADDRESS), ("correct", ADDRESS, "--anew"), ("rekey", ADDRESS)):
        for key in (KEY.upper(), "c" * 32, "d" * 32):
            assert "it had this key before" in place.fault(*words, given=key)
    place.said("correct", ADDRESS, given="f" * 32)


def test_a_second_key_while_a_meter_begins_to_count_anew(place: Place) -> None:
    """Two people at once: the second key is judged by all keys that the meter had before it counted anew, and these stay noted."""
    place.said("add", ADDRESS, "--own", OWN, given=KEY)
    said: list[str] = []

    def rekey() -> None:
        with closing(open_store(place.folder / "wmbus/wmbus.db")) as database:
            try:
                put_key(database, "key", ADDRESS, KEY, time.time())
            except Trouble as trouble:
                said.append(str(trouble))
    other = threading.Thread(target=rekey)

    def judge(*_words: object) -> None:
        other.start()
        other.join(0.5)
    with closing(open_store(place.folder / "wmbus/wmbus.db")) as database, place.patches.context() as patches:
        patches.setattr(meters, "judge_roster", judge)
        meters.correct_key(read_config(place.config), database, ADDRESS, "e" * 32, None, True)
    other.join()
    assert len(said) == 1 and "it had this key before" in said[0]
    assert "it had this key before" in place.fault("rekey", ADDRESS, given=KEY)


def test_numbers_of_the_mode_before() -> None:
    """In another mode a meter has no second key, and no number of the mode before; its downlink counter stays, and all of the mode that it
    has."""
    block = f"meter {ADDRESS} 5 {KEY} - 42 7 8\nreading 1 42 2f2f\n"
    assert meters.with_mode(block, "7", "it") == f"meter {ADDRESS} 7 {KEY} - - 7 8\nreading 1 42 2f2f\n"
    assert meters.with_mode(block, "5", "it") == block
    assert meters.with_mode(f"meter {ADDRESS} 7 {KEY} {KEY} - 7 8\n", "5", "it") == f"meter {ADDRESS} 5 {KEY} - - 7 8\n"


@pytest.mark.parametrize("given", ["00 11 22 33 44 55 66 77 88 99 AA BB CC DD EE FF\t\r\n", f"0x{KEY.upper()}",
                                   "00:11:22:33:44:55:66:77:88:99:AA:BB:CC:DD:EE:FF", "00112233-44556677-8899AABB-CCDDEEFF"])
def test_a_key_in_groups(place: Place, given: str) -> None:
    """A key is taken as lists of keys have it, in groups with blanks, colons or hyphens between them, by each command that asks for one."""
    place.said("add", ADDRESS, "--own", OWN, given=given)
    place.said("correct", ADDRESS, given=given)
    place.said("rekey", ADDRESS, given=given)
    with closing(open_store(place.folder / "wmbus/wmbus.db")) as database:
        assert KEY in database.execute("select block from meter").fetchone()[0]
        assert database.execute("select payload from command").fetchall() == [(KEY,)]


@pytest.mark.parametrize("address, own, key, words", [
    ("40301210", OWN, KEY, "meter 40301210: it isn't 16 hexadecimal digits; `meter_name` makes it"),
    (ADDRESS, "0131", KEY, "the collector's own address: it isn't 16 hexadecimal digits"),
    (ADDRESS, OWN, KEY[1:], f"key of {ADDRESS}: it isn't 32 hexadecimal digits")])
def test_digits_that_are_none(place: Place, address: str, own: str, key: str, words: str) -> None:
    """What isn't as many digits as it has to be is named by itself, without a roster that nobody wrote, and no key is told."""
    said = place.fault("add", address, "--own", own, given=key)
    assert words in said and "roster" not in said and KEY[1:] not in said


@pytest.mark.parametrize("address, own, key", [(f"{ADDRESS}\u200b", OWN, KEY), (ADDRESS, f"\ufeff{OWN}", KEY),
                                               (ADDRESS, OWN, f"{KEY}\u200b"), (f"{ADDRESS}\udcfc", OWN, KEY)])
def test_signs_that_arent_seen(place: Place, address: str, own: str, key: str) -> None:
    """What was copied out of a document with a sign that nobody sees is refused in words, and no key is told."""
    said = place.fault("add", address, "--own", own, given=key)
    assert f"meter {address}: " in said and "type it" in said and KEY not in said


def test_a_name_in_another_encoding(place: Place) -> None:
    """A meter is added also where its name has signs that can't be shown, as a terminal of another encoding gives them: without these."""
    place.said("add", ADDRESS, "--own", OWN, "--name", "K\udcfcche\n1", given=KEY)
    assert json.loads(place.said("status", "--json"))["meters"][0]["name"] == "Kche1"


def test_a_meter_comes_with_its_name(place: Place, monkeypatch: pytest.MonkeyPatch) -> None:
    """In one commit: a plug that is pulled behind it leaves none that is known without the name that was given."""
    (place.folder / "none").write_text("Key;ID\n")
    place.said("import", str(place.folder / "none"), "--own", OWN)
    commit = store.commit

    def pulled(database: sqlite3.Connection) -> None:
        commit(database)
        raise OSError("the plug was pulled")
    with monkeypatch.context() as within:
        within.setattr(store, "commit", pulled)
        place.fault("add", ADDRESS, "--name", "cellar", given=KEY)
    assert [it["name"] for it in json.loads(place.said("status", "--json"))["meters"]] == ["cellar"]


def test_paths_of_the_folder_in_which_one_stands(place: Place, monkeypatch: pytest.MonkeyPatch) -> None:
    """A file that is named without its folder is found by who checks it there, and by no unit: it is named as wrong."""
    monkeypatch.chdir(place.folder)
    (place.folder / "token").touch(0o600)
    (place.folder / "token").write_text("0123456789abcdef0123456789abcdef\n")
    told = place.config.read_text()
    place.config.write_text(f'{told}downlinks = "attic.downlinks"\n[page]\ntoken_file = "token"\n')
    said = place.fault("check")
    for name in ("receivers.attic.downlinks", "page.token_file"):
        assert f"wrong: {name}: it isn't a path from the root on" in said
    place.config.write_text(f'{told}downlinks = "{place.folder}/attic.downlinks"\n[page]\ntoken_file = "{place.folder}/token"\n')
    assert "from the root" not in place.fault("check")


@as_root
def test_a_user_who_isnt_the_services(place: Place, tmp_path: Path) -> None:
    """Who checks it without sudo is told so of the folder, and of all else what can be told; and of a configuration that isn't for everybody
    that sudo reads it."""
    place.said("add", ADDRESS, "--own", OWN, given=KEY)
    for path in (tmp_path.parent.parent, tmp_path.parent, tmp_path):
        path.chmod(0o755)
    # (whatever the umask is)
    place.config.chmod(0o644)
    os.seteuid(NOBODY)
    try:
        said = place.fault("check")
        os.seteuid(0)
        place.config.chmod(0o600)
        os.seteuid(NOBODY)
        unread = place.fault("check")
    finally:
        os.seteuid(0)
    assert "it belongs to the user 0, and this is 65534" in said and "receivers.attic: it can't send" in said
    assert "can't be read: Permission denied; start it with sudo" in unread


def test_metrics_that_cant_be_served(place: Place) -> None:
    """Without its metrics the service doesn't start: `check` says so where their host is none or their port another's, and that all is right
    where it is the service itself that has the port."""
    pytest.importorskip("prometheus_client")
    told = place.config.read_text()
    with socket.create_server(("127.0.0.1", 0)) as taken:
        port = taken.getsockname()[1]
        place.config.write_text(f"{told}[metrics]\nport = {port}\n")
        assert f"wrong: metrics 127.0.0.1:{port}: they can't be served: " in place.fault("check")
        held = service.lock(place.folder / "wmbus")
        try:
            assert f"right: metrics 127.0.0.1:{port}\n" in place.fault("check")
        finally:
            os.close(held)
    assert f"right: metrics 127.0.0.1:{port}\n" in place.fault("check")
    place.config.write_text(f'{told}[metrics]\nhost = "256.0.0.1"\n')
    assert "wrong: metrics 256.0.0.1:9101: they can't be served: " in place.fault("check")


def test_a_disk_that_is_full(place: Place, monkeypatch: pytest.MonkeyPatch) -> None:
    """A command for which there is no room says so of itself, and nothing of sessions and lines, which it has none of."""
    place.said("add", ADDRESS, "--own", OWN, given=KEY)

    def full(*_: object) -> int:
        fault = sqlite3.OperationalError("database or disk is full")
        fault.sqlite_errorname = "SQLITE_FULL"
        raise fault
    monkeypatch.setattr(backup, "back_up", full)
    said = place.fault("backup", str(place.folder / "copy"))
    assert said.endswith("wmbus-service: backup: the database: database or disk is full; make room on its disk; nothing was done\n")


@pytest.mark.parametrize("words, wanted", [(["status"], "K\\xfcche \\u0141"), (["status", "--json"], '"K\\u00fcche \\u0141"'),
                                           (["export"], "K\\xfcche \\u0141"), (["export", "--json"], '"K\\u00fcche \\u0141"')])
def test_a_terminal_of_another_encoding(place: Place, words: list[str], wanted: str) -> None:
    """What a terminal can't show is told by its number, which JSON has in its own way (RFC 8259, 7), and ends no command."""
    place.said("add", ADDRESS, "--own", OWN, "--name", "K\u00fcche \u0141", given=KEY)
    with sqlite3.connect(place.folder / "wmbus/wmbus.db") as database:
        database.execute("insert into reading values (1, 1, ?, 1, 100, null, null, null, 0, 100)", (ADDRESS,))
        database.execute("insert into record values (1, 0, 'volume', 'm3', -3, '5', 'instantaneous', 0, 0, 0, '', '')")
    environment = os.environ | {"PYTHONIOENCODING": "ascii", "PYTHONPATH": str(TOP / "service")}
    done = run([PYTHON, "-m", "wmbus_service", "--config", place.config, *words], check=False, env=environment)
    assert done.returncode == 0, done.stderr
    assert wanted in done.stdout


def test_strangers_that_are_known_now(place: Place) -> None:
    """A meter that was heard before it was added is no longer among those that aren't known."""
    place.said("add", ADDRESS, "--own", OWN, given=KEY)
    with sqlite3.connect(place.folder / "wmbus/wmbus.db") as database:
        database.executemany("insert into stranger values (?, ?, 'attic', 1)", [(ADDRESS, 5), ("9315999999990107", 4)])
    told = place.said("status")
    assert "not known: 9315999999990107" in told and f"not known: {ADDRESS}" not in told


def test_the_age_of_what_was_heard_late(place: Place) -> None:
    """What a receiver heard while the service was down is as old as that, and not as young as the session that took it; where a moment can
    be none the session's counts."""
    place.said("add", ADDRESS, "--own", OWN, given=KEY)
    for moment, wanted in ((int(time.time()) - 259_200, 259_200), (100, 0)):
        with sqlite3.connect(place.folder / "wmbus/wmbus.db") as database:
            database.execute("insert or replace into reading values (1, 1, ?, 1, ?, null, null, null, 0, ?)",
                             (ADDRESS, moment, time.time()))
        assert wanted <= json.loads(place.said("status", "--json"))["meters"][0]["age"] < wanted + PATIENCE


def test_a_file_that_goes_meanwhile(place: Place) -> None:
    """A file that a session takes away while its bytes are counted, as one that stands for nothing here, has none."""
    place.said("add", ADDRESS, "--own", OWN, given=KEY)
    spool = place.folder / "wmbus/spool"
    (spool / "attic.00000001.1.lines").symlink_to("gone")
    (spool / "attic.00000002.1.lines").write_text("A 1 00\n")
    assert "7 bytes wait" in place.said("status")
    assert spooled_bytes(spool) == 7


def test_a_state_of_many_meters(place: Place) -> None:
    """A state has 4,096 meters (docs/FORMATS.md, "The state"): of more there are several, each of which the programs read. Where one of the
    files is there already none is written."""
    place.said("add", ADDRESS, "--own", OWN, given=KEY)
    addresses = [ADDRESS, *(f"4304{number:08d}0104" for number in range(4096))]
    with closing(open_store(place.folder / "wmbus/wmbus.db")) as database, store.transaction(database):
        for number, address in enumerate(addresses[1:], 2):
            database.execute("insert into meter (address, place, block) values (?, ?, ?)",
                             (address, number, f"meter {address} 7 {KEY} - - 0 0\n"))
    file, second = place.folder / "state", place.folder / "state.2"
    second.touch()
    assert f"{second}: it is there already" in place.fault("export", "--state", str(file))
    assert not file.exists() and not (place.folder / "state.1").exists()
    second.unlink()
    (place.folder / "heard").touch()
    assert f"{file}.1 {file}.2" in place.said("export", "--state", str(file)) and not file.exists()
    found: list[str] = []
    for part in (place.folder / "state.1", second):
        assert part.stat().st_mode & 0o777 == 0o600
        others = [place.folder / name for name in ("next", "last", "heard", "sent")]
        done = run([f"{TOP}/bin/wmbus", "continue", part, *others], check=False)
        assert (done.returncode, done.stderr) == (0, "")
        found += [line.split(" ")[1] for line in (place.folder / "next").read_text().splitlines() if line.startswith("meter")]
    assert found == addresses


def test_export_of_a_meter_in_large_letters(place: Place) -> None:
    """An address in large letters names its meter, as it does for the other commands."""
    address = "93150100000a01ab"
    place.said("add", address.upper(), "--own", OWN, given=KEY)
    with sqlite3.connect(place.folder / "wmbus/wmbus.db") as database:
        database.execute("insert into reading values (1, 1, ?, 1, 100, null, null, null, 0, 100)", (address,))
        database.execute("insert into record values (1, 0, 'volume', 'm3', -3, '5', 'instantaneous', 0, 0, 0, '', '')")
    told = [json.loads(line) for line in place.said("export", "--json", "--meter", address.upper()).splitlines()]
    assert [(it["address"], it["value"]) for it in told] == [(address, "0.005")]
    # (no file that is empty by a slip of the hand is taken for a silent meter's)
    assert f"there is no meter {OWN}" in place.fault("export", "--meter", OWN)
    for words in (("--lines", "--meter", ADDRESS), ("--state", "--since", "5")):
        file = place.folder / "file"
        assert "values alone" in place.fault("export", words[0], str(file), *words[1:]) and not file.exists()


@pytest.mark.parametrize("piece", [200, 1, 2])
def test_an_export_that_nobody_reads_on(place: Place, monkeypatch: pytest.MonkeyPatch, piece: int) -> None:
    """An export that stands still, as in a pager, holds nothing of the database, whose log would grow until the disk is full (SQLite,
    "Write-Ahead Logging", 6): read on, it has each value once and in order."""
    monkeypatch.setattr(exporting, "PIECE", piece, raising=False)
    place.said("add", ADDRESS, "--own", OWN, given=KEY)
    wanted = [(number, place_of) for number in range(1, 6) for place_of in range(number % 3)]
    with closing(open_store(place.folder / "wmbus/wmbus.db")) as database, closing(open_store(place.folder / "wmbus/wmbus.db")) as other:
        for number in range(1, 6):
            other.execute("insert into reading values (?, ?, ?, ?, 100, null, null, null, 0, 100)", (number, number, ADDRESS, number))
        for number, place_of in wanted:
            other.execute("insert into record values (?, ?, 'volume', 'm3', 0, ?, 'instantaneous', 0, 0, 0, '', '')",
                          (number, place_of, str(10 * number + place_of)))
        rows = exporting.as_csv(database, None, 0)
        told = [next(rows) for _ in range(3)]
        other.execute("insert into total values ('more', 1)")
        _, logged, done = other.execute("pragma wal_checkpoint(passive)").fetchone()
        assert done == logged
        found = [tuple(map(int, (row.split(",")[3], row.split(",")[5]))) for row in (told + list(rows))[1:]]
    assert found == [(number, 10 * number + place_of) for number, place_of in wanted]


def test_status_of_a_receiver_that_cant_send(place: Place) -> None:
    """It is named by its name (docs/SERVICE.md, "Receivers")."""
    place.said("add", ADDRESS, "--own", OWN, given=KEY)
    with sqlite3.connect(place.folder / "wmbus/wmbus.db") as database:
        database.execute("insert into outbox (receiver, address, down, frame, command, made, missed)"
                         " values ('roof', ?, 4, '', 1, 100, 'it can''t send')", (ADDRESS,))
    assert f"downlink 4 for {ADDRESS} wasn't sent by receiver roof: it can't send" in place.said("status")


def test_check_of_a_format(place: Place) -> None:
    """A format that line_feed doesn't know is named, with its receiver."""
    assert "right: receiver attic" in place.run("check").output
    place.config.write_text(place.config.read_text().replace('format = "hex"', 'format = "rtl433"'))
    assert "receivers.attic.format: line_feed doesn't take the format rtl433" in place.fault("check")


def test_status_of_what_flowed_backward(place: Place) -> None:
    """What flowed backward isn't told as a second volume: it is another quantity (docs/FORMATS.md), under its own name."""
    place.said("add", ADDRESS, "--own", OWN, given=KEY)
    with sqlite3.connect(place.folder / "wmbus/wmbus.db") as database:
        database.execute("insert into reading values (1, 1, ?, 1, 100, null, null, null, 0, 100)", (ADDRESS,))
        for number, modifiers in enumerate(("3c", "")):
            database.execute("insert into record values (1, ?, 'volume', 'm3', -3, ?, 'instantaneous', 0, 0, 0, ?, '')",
                             (number, str(7 - number), modifiers))
    told = json.loads(place.said("status", "--json"))["meters"][0]["values"]
    assert told == ["volume_modifiers3c 0.007 m3", "volume 0.006 m3"]


def test_copy(place: Place) -> None:
    """A copy comes back with higher counters, its open commands are cancelled, and the state is still one that the program takes."""
    place.said("add", ADDRESS, "--own", OWN, given=KEY)
    place.hear(recorded())
    place.said("command", ADDRESS, "01", "--id", "before")
    copy = place.folder / "copy.db"
    place.said("backup", str(copy))
    assert copy.stat().st_mode & 0o777 == 0o600
    assert "there already" in place.fault("backup", str(copy))
    place.said("command", ADDRESS, "02", "--id", "behind")
    assert "1 meters are 50 higher" in place.said("restore", str(copy), "--margin", "50")
    state = place.folder / "state"
    place.said("export", "--state", str(state))
    assert state.stat().st_mode & 0o777 == 0o600
    assert f"meter {ADDRESS} 7 {KEY} - 8 50 0\n" in state.read_text()
    with sqlite3.connect(place.folder / "wmbus/wmbus.db") as database:
        assert database.execute("select id, state from command").fetchall() == [("before", "cancelled")]
    copy.write_bytes(copy.read_bytes()[:5000])
    assert "isn't whole" in place.fault("restore", str(copy))
    assert f"meter {ADDRESS}" in place.said("status")


def test_meters_out_of_service(place: Place) -> None:
    """Meters out of service are missed no more, all that are named or none, from the first time on. What they send is committed as ever,
    which is said, and no command is taken for them until they are back."""
    other, texts = "9315010000000107", []
    place.said("add", ADDRESS, "--own", OWN, "--name", "cellar", given=KEY)
    place.said("add", other, given=KEY)
    place.said("command", ADDRESS, "01", "--id", "before")
    assert "there is no meter 0000000000000000" in place.fault("retire", other, "0" * 16)
    assert "no reading yet" in place.said("status") and "out of service" not in place.said("status")
    assert place.said("retire", ADDRESS.upper(), other, ADDRESS).splitlines() == [
        f"meter {ADDRESS} is out of service since {time.strftime('%Y-%m-%d')}; 1 command of it still waits: cancel it",
        f"meter {other} is out of service since {time.strftime('%Y-%m-%d')}"]
    with closing(open_store(place.folder / "wmbus/wmbus.db")) as database:
        database.execute("update meter set retired = 1500000000 where address = ?", (ADDRESS,))
    assert "since 2017-07-1" in place.said("retire", ADDRESS)
    told = json.loads(place.said("status", "--json"))
    assert told["meters"] == [] and [(it["address"], it["heard"]) for it in told["retired"]] == [(ADDRESS, None), (other, None)]
    assert "2 meters are out of service" in place.said("status") and "no reading yet" not in place.said("status")
    assert f"the meter {ADDRESS} is out of service since 2017-07-1" in place.fault("command", ADDRESS, "02", "--id", "behind")
    assert "taken before" in place.said("command", ADDRESS, "01", "--id", "before")
    place.said("correct", ADDRESS, given=KEY)
    place.said("rekey", ADDRESS, given=KEY[::-1])
    assert "was heard" not in place.said("status")
    for is_retired in (True, False):
        place.hear(recorded())
        place.said("export", "--state", str(place.folder / f"state{is_retired}"))
        texts.append((place.said("export", "--meter", ADDRESS), (place.folder / f"state{is_retired}").read_text()))
        said = f"meter {ADDRESS} cellar was heard though it is out of service since 2017-07-1"
        assert (said in place.said("status")) == (f"retire --back {ADDRESS}" in place.said("status")) == is_retired
        place.said("retire", "--back", ADDRESS, other)
    assert ",8," in texts[0][0] and texts[0][0] == texts[1][0] and f"meter {ADDRESS} 7 {KEY} {KEY[::-1]} 8 " in texts[0][1]
    assert "command before waits" not in place.said("command", "--cancel", "before")
    assert place.said("command", ADDRESS, "02", "--id", "behind") == "command behind waits\n"
    told = json.loads(place.said("status", "--json"))
    assert [it["address"] for it in told["meters"]] == [ADDRESS, other] and told["retired"] == []


def test_a_meter_out_of_service_that_is_added_again(place: Place) -> None:
    """It is back in service, with the key that it has, which is said; a roster that is read at each start puts none back."""
    listed, roster = place.folder / "list.csv", place.folder / "roster"
    place.said("add", ADDRESS, "--own", OWN, given=KEY)
    for words in (("add", ADDRESS), ("import", str(listed))):
        listed.write_text(f"address;key\n{ADDRESS};{KEY[::-1]}\n")
        place.said("retire", ADDRESS)
        assert ("back in service; its key stays" if words[0] == "add" else "1 were out of service, and are back with the keys"
                ) in place.said(*words, given=KEY[::-1])
        assert "out of service" not in place.said("status")
    assert "known already" in place.fault("add", ADDRESS, given=KEY)
    place.said("retire", ADDRESS)
    roster.write_text(f"wmbus-roster 2\nown {OWN}\nmeter {ADDRESS} 7 {KEY} - - 0 0\n")
    with closing(open_store(place.folder / "wmbus/wmbus.db")) as database:
        assert not meters.take_roster(read_config(place.config), database, roster.read_text(), roster)
        assert database.execute("select retired > 0, block from meter").fetchall() == [(1, f"meter {ADDRESS} 7 {KEY} - - 0 0\n")]


def test_copies_and_meters_out_of_service(place: Place) -> None:
    """A copy keeps which meters are out of service; in one of a version before none is."""
    place.said("add", ADDRESS, "--own", OWN, given=KEY)
    with place.patches.context() as earlier:
        earlier.setattr(schema, "MIGRATIONS", schema.MIGRATIONS[:6])
        earlier.setattr(schema, "VERSION", 6)
        with closing(open_store(place.folder / "earlier.db", is_new=True)) as database:
            set_own(database, OWN, "")
            add_meter(database, f"meter {ADDRESS} 7 {KEY} - - 0 0".split())
    place.said("retire", ADDRESS)
    place.said("backup", str(place.folder / "copy.db"))
    place.said("retire", "--back", ADDRESS)
    for name, count in (("copy.db", 1), ("earlier.db", 0)):
        place.said("restore", str(place.folder / name))
        told = json.loads(place.said("status", "--json"))
        assert (len(told["retired"]), len(told["meters"])) == (count, 1 - count)


def test_commands_that_a_restore_cancels_are_told(place: Place) -> None:
    """Each change of a command's state is a message (docs/SERVICE.md, "MQTT and Home Assistant"), also that it is cancelled by a restore."""
    place.config.write_text(place.config.read_text() + "[mqtt]\n")
    place.said("add", ADDRESS, "--own", OWN, given=KEY)
    place.said("command", ADDRESS, "01", "--id", "before")
    place.said("backup", str(place.folder / "copy.db"))
    place.said("restore", str(place.folder / "copy.db"))
    with sqlite3.connect(place.folder / "wmbus/wmbus.db") as database:
        told = database.execute("select topic, payload from publication").fetchall()
    assert [(topic, json.loads(text)["id"], json.loads(text)["state"]) for topic, text in told] == [
        (f"wmbus/commands/{ADDRESS}", "before", "cancelled")]


@pytest.mark.parametrize("name", ["copy #1.db", "copy?.db", "copy%31.db"])
def test_copy_of_any_name(place: Place, name: str) -> None:
    """A copy is put back whatever it is called, and no other one in its place."""
    place.said("add", ADDRESS, "--own", OWN, given=KEY)
    place.said("backup", str(place.folder / "copy1.db"))
    place.said("add", ADDRESS[:-4] + "0204", given=KEY)
    place.said("backup", str(place.folder / name))
    assert "counters of 2 meters" in place.said("restore", str(place.folder / name))


def test_what_is_no_copy(place: Place) -> None:
    """An empty file, as a full disk leaves one, and another program's database take no database's place."""
    place.said("add", ADDRESS, "--own", OWN, given=KEY)
    copy = place.folder / "copy.db"
    copy.touch()
    assert "no copy" in place.fault("restore", str(copy))
    with sqlite3.connect(copy) as database:
        database.execute("create table mail (text text)")
    assert "no copy" in place.fault("restore", str(copy))
    assert f"meter {ADDRESS}" in place.said("status")


def test_a_copy_where_a_restore_works(place: Place) -> None:
    """A copy that stands where a restore makes its own file is named, and isn't deleted for it."""
    place.said("add", ADDRESS, "--own", OWN, given=KEY)
    copy = place.folder / "wmbus/restored.db"
    place.said("backup", str(copy))
    assert "another name" in place.fault("restore", str(copy))
    os.rename(copy, place.folder / "copy.db")
    assert "counters of 1 meters" in place.said("restore", str(place.folder / "copy.db"))


def test_copies_that_fail(place: Place, monkeypatch: pytest.MonkeyPatch) -> None:
    """A copy that can't be made, or isn't put back, leaves no part of it, in which keys are, and which takes room."""
    copy, folder = place.folder / "copy.db", place.folder / "wmbus"
    place.fault("backup", str(copy))
    place.said("add", ADDRESS, "--own", OWN, given=KEY)
    with monkeypatch.context() as full:
        full.setattr(backup, "sync", lambda _: os.write(os.open("/dev/full", os.O_WRONLY), b"a"))
        assert "No space left" in place.fault("backup", str(copy))
    assert not list(place.folder.glob("copy*"))
    place.said("backup", str(copy))
    with sqlite3.connect(copy) as database:
        database.execute("update meter set block = 'no block 1 2 3 4 5 6'")
    assert "doesn't take" in place.fault("restore", str(copy))
    copy.write_bytes(b"")
    place.fault("restore", str(copy))
    assert not list(folder.glob("restored*"))


def test_an_export_that_fails(place: Place, monkeypatch: pytest.MonkeyPatch) -> None:
    """Lines or a state of which a part alone can be written, as where the disk is full, leave no file that looks whole."""
    place.said("add", ADDRESS, "--own", OWN, given=KEY)

    def cut_off(*_: object) -> Iterator[str]:
        yield "A 1 00\n"
        raise OSError(errno.ENOSPC, "No space left on device")
    monkeypatch.setattr(exporting, "lines", cut_off)
    assert "No space left" in place.fault("export", "--lines", str(place.folder / "lines"))
    assert not (place.folder / "lines").exists()


def test_copy_of_many_meters(place: Place) -> None:
    """The program reads what a copy knows of all meters, also where they are more than one state has."""
    place.said("add", ADDRESS, "--own", OWN, given=KEY)
    with sqlite3.connect(place.folder / "wmbus/wmbus.db") as database:
        for number in range(2, 4098):
            address = f"9315{number:08d}0107"
            add_meter(database, f"meter {address} 7 {KEY if number < 4097 else 'nokey'} - - 0 0".split())
    copy = place.folder / "copy.db"
    place.said("backup", str(copy))
    assert "doesn't take" in place.fault("restore", str(copy))


@pytest.mark.parametrize("written", ["", "end\\n", "wmbus-state 1\\nend\\n", f"wmbus-state 1\\nown {OWN}\\nreading 1 2 -\\nend\\n",
                                     f"wmbus-state 1\\nown {OWN}\\nmeter {ADDRESS} 7 {KEY} - - 12 0\\n"])
def test_a_program_that_raises_no_counters(place: Place, written: str) -> None:
    """Where what `state_raise` writes isn't the state of all meters that is said, and the database stays."""
    program_file = place.folder / "state_raise"
    program_file.write_text(f"#!/bin/sh\nprintf '{written}' >\"$3\"\n")
    program_file.chmod(0o755)
    place.said("add", ADDRESS, "--own", OWN, given=KEY)
    place.said("backup", str(place.folder / "copy.db"))
    place.config.write_text(place.config.read_text().replace("[programs]\n", f'[programs]\nstate_raise = "{program_file}"\n'))
    assert f"{program_file}: what it wrote isn't" in place.fault("restore", str(place.folder / "copy.db"))
    assert f"meter {ADDRESS}" in place.said("status")


def test_counters_that_would_come_again(place: Place) -> None:
    """A margin below nothing is refused, and so is one above all counters, as `state_raise` has it (docs/FORMATS.md, "The state"): no command
    would reach a meter any more. The database stays as it was."""
    place.said("add", ADDRESS, "--own", OWN, given=KEY)
    copy = place.folder / "copy.db"
    place.said("backup", str(copy))
    place.said("restore", str(copy), "--margin", "50")
    place.said("backup", str(place.folder / "later.db"))
    for margin in ("-20", str((1 << 32) - 50)):
        assert "margin" in place.fault("restore", str(place.folder / "later.db"), "--margin", margin)
    place.said("export", "--state", str(place.folder / "state"))
    assert f"meter {ADDRESS} 7 {KEY} - - 50 0\n" in (place.folder / "state").read_text()


def test_no_service_begins_amid_a_restore(place: Place, monkeypatch: pytest.MonkeyPatch) -> None:
    """As long as a copy is put back the folder is locked: what a service committed meanwhile would be gone with the old database."""
    place.said("add", ADDRESS, "--own", OWN, given=KEY)
    copy, folder = place.folder / "copy.db", place.folder / "wmbus"
    place.said("backup", str(copy))
    locked, restored = [], backup.restore

    def restore(asked: Config, source: Path, margin: int) -> int:
        locked.append(service.is_locked(folder))
        return restored(asked, source, margin)
    monkeypatch.setattr(backup, "restore", restore)
    place.said("restore", str(copy))
    assert locked == [True] and not service.is_locked(folder)
    held = service.lock(folder)
    assert "systemctl stop wmbus" in place.fault("restore", str(copy))
    os.close(held)


def test_a_restore_that_is_cut_off(place: Place, monkeypatch: pytest.MonkeyPatch) -> None:
    """Until the copy stands in its place the database has all that was committed, also what a killed service left beside it."""
    place.said("add", ADDRESS, "--own", OWN, given=KEY)
    copy, path = place.folder / "copy.db", place.folder / "wmbus/wmbus.db"
    place.said("backup", str(copy))

    def write() -> None:
        open_store(path).execute("update setting set value = 'later'")
        os.kill(os.getpid(), signal.SIGKILL)
    child = Child(place.folder / "log", write)
    until(lambda: not child.is_running())

    def pulled(*_: object) -> None:
        raise OSError("the plug was pulled")
    monkeypatch.setattr(backup, "put_in_place", pulled)
    place.fault("restore", str(copy))
    with sqlite3.connect(path) as database:
        assert database.execute("select value from setting where name = 'own'").fetchone() == ("later",)


def test_counters_raised_by_the_program(tmp_path: Path) -> None:
    """Where `state_raise` is named the blocks are those that it writes."""
    program_file = tmp_path / "state_raise"
    program_file.write_text('#!/bin/sh\nsed "s/^meter 4304101230400104 .*/meter raised by $2/" "$1" >"$3"\n')
    program_file.chmod(0o755)
    config = Config(folder=tmp_path / "wmbus", programs=Programs(state_raise=str(program_file)))
    prepare_folder(config.folder)
    database = open_store(config.database, is_new=True)
    set_own(database, OWN, "here")
    for line in (f"meter 4304785634121002 7 {KEY} - - 0 0", f"meter {ADDRESS} 7 {KEY} - - 0 0"):
        add_meter(database, line.split())
    database.execute("update meter set block = block || 'reading 1 2 -' || char(10)")
    assert raise_counters(config, database, 12) == 2
    assert database.execute("select block from meter order by place").fetchall() == [
        (f"meter 4304785634121002 7 {KEY} - - 0 0\nreading 1 2 -\n",), ("meter raised by 12\nreading 1 2 -\n",)]


def test_configuration(place: Place) -> None:
    """Each setting that isn't as it has to be is named."""
    folder = f'folder = "{place.folder}/wmbus"\n'
    for text, said in {
        "": "folder is missing",
        'folder = "here"\n': "folder isn't a path from the root on",
        folder + "speed = 1\n": "speed is no setting",
        folder + "interval = 0\n": "interval isn't a number above 0",
        folder + "interval = true\n": "interval isn't a number above 0",
        folder + "spool_bytes = 0\n": "spool_bytes is 0",
        folder + "[receivers.Attic]\n": "receivers.Attic: a name has",
        folder + "[receivers.attic]\nprofile = 1\n": "receivers.attic.profile isn't a text",
        folder + 'receivers = "rtl_433"\n': "receivers isn't a table, and each has one under its own name: write [receivers.NAME]",
        folder + '[receivers]\nprofile = "rtl_433"\n': "receivers.profile isn't a table, and each has one under its own name",
        folder + '[[receivers]]\nprofile = "cul"\n': "receivers isn't a table, and each has one under its own name",
        folder + "mqtt = true\n": "mqtt isn't a table: write [mqtt], and its settings below it",
        folder + "[mqtt]\nport = -1\n": "mqtt.port isn't a number",
        folder + "[page]\nport = 99999\n": "page.port isn't a number from 0 to 65535",
        folder + "[ticks\n": "it is no TOML",
        folder + '[programs]\nsteps = "/opt/tim\'s/wmbus steps"\n': "programs.steps isn't a command",
        folder + '[programs]\nline_merge = "line\'merge"\n': "programs.line_merge isn't a command",
        folder + '[programs]\nline_feed = ""\n': "programs.line_feed is empty",
        folder + '[programs]\nline_merge = " "\n': "programs.line_merge is empty",
        folder + 'roster = "a\\u0000b"\n': "roster has a NUL",
        'folder = "/a\\u0000b"\n': "folder has a NUL",
    }.items():
        place.config.write_text(text)
        assert said in place.fault("status")
    place.config.write_text(folder + '[receivers.attic]\nprofile = "cul"\n')
    assert "wants `device`" in place.fault("receive", "attic")
    place.config.write_text(folder + '[receivers.attic]\nprofile = "radio"\n')
    assert "no profile" in place.fault("receive", "attic")
    assert "there is no receiver roof" in place.fault("receive", "roof")
    place.config.unlink()
    assert "can't be read" in place.fault("status")


@pytest.mark.parametrize("words", [("export", "--since", "9" * 19), ("export", "--since", "9" * 5000), ("export", "--since", "today"),
                                   ("export", "--meter", "\udcfc"), ("command", "--cancel", "\udcfc"), ("command", "\udcfc", "01"),
                                   ("rekey", "\udcfc"), ("demo", "--steps", "it's"), ("demo", "--steps", "")])
def test_words_that_cant_be_asked_for(place: Place, words: tuple[str, ...]) -> None:
    """A moment beyond all that a database has, what isn't in UTF-8, and what is no command are faulty words."""
    place.said("add", ADDRESS, "--own", OWN, given=KEY)
    done = place.run(*words, given=KEY)
    assert done.status == 2 and "usage: wmbus-service" in done.errors


def test_a_package_that_isnt_there(place: Place, monkeypatch: pytest.MonkeyPatch) -> None:
    """Where Debian's package isn't installed that a command needs, that is said, and `check` looks at all else."""
    for name in ("broker", "kem"):
        monkeypatch.setitem(sys.modules, f"wmbus_service.{name}", None)  # type: ignore[misc]
        monkeypatch.delattr(sys.modules["wmbus_service"], name, raising=False)
    place.config.write_text(place.config.read_text() + "[mqtt]\n")
    said = place.fault("check")
    assert "wrong: MQTT broker 127.0.0.1:1883: " in said and "receivers.attic: it can't send" in said
    (place.folder / "keys.kem").write_text("<MetersInOrder/>")
    assert "names the packages of Debian" in place.fault("import", str(place.folder / "keys.kem"), "--own", OWN)


def test_check_of_a_database_that_isnt_whole(place: Place) -> None:
    """All else is looked at all the same."""
    place.said("add", ADDRESS, "--own", OWN, given=KEY)
    path = place.folder / "wmbus/wmbus.db"
    with sqlite3.connect(path) as database:
        pages = database.execute("select rootpage from sqlite_master where tbl_name = 'meter'").fetchall()
        (size,) = database.execute("pragma page_size").fetchone()
        database.execute("pragma wal_checkpoint(truncate)")
    with open(path, "r+b") as file:
        for (page,) in pages:
            file.seek((page - 1) * size)
            file.write(b"\xff" * 200)
    said = place.fault("check")
    assert "wrong: meters: the database: " in said and "last backup" in said and "receivers.attic: it can't send" in said
    # (a copy of it is none, and it is the database that isn't whole)
    assert f"{path}: the database isn't whole" in place.fault("backup", str(place.folder / "copy.db"))
    assert not (place.folder / "copy.db").exists()


def test_check_of_programs(place: Place) -> None:
    """Each program that the configuration names is looked for, also those without which the service does the same itself."""
    for name in ("line_merge", "state_raise", "meter_name"):
        lines = [line for line in place.config.read_text().splitlines() if not line.startswith(name)]
        lines.insert(lines.index("[programs]") + 1, f'{name} = "/nonexistent/{name} -x"')
        place.config.write_text("\n".join(lines))
        assert f"/nonexistent/{name}: there is no such program" in place.fault("check")


@pytest.mark.parametrize("words, told", [
    ("port = 9103", "right: page 127.0.0.1:9103"),
    ('token_file = "/nonexistent/token"', "wrong: /nonexistent/token: the page's token can't be read"),
    ('host = "0.0.0.0"', "wrong: page.host 0.0.0.0: others reach it there, and without TLS they read along"),
    ('certificate = "/nonexistent/certificate"', "wrong: /nonexistent/certificate: TLS can't be begun"),
])
def test_check_of_the_page(place: Place, words: str, told: str) -> None:
    """What keeps the page from being served is named, as docs/GUIDE.md says where the page doesn't come."""
    if "certificate" in words:
        pytest.importorskip("cheroot", reason="python3-cheroot isn't there")
    place.config.write_text(f"{place.config.read_text()}[page]\n{words}\n")
    assert told in place.run("check").output


def test_check_of_a_large_roster(place: Place) -> None:
    """A roster of more meters than a session's state has is right, as it is for the service, which takes it in pieces."""
    roster = place.folder / "meters.roster"
    roster.write_text(f"wmbus-roster 2\nown {OWN}\n" + "".join(f"meter 9315{number:08d}0107 7 {KEY} - - 0 0\n" for number in range(4097)))
    roster.chmod(0o600)
    place.config.write_text(f'roster = "{roster}"\n' + place.config.read_text())
    assert f"right: roster {roster}" in place.run("check").output
    # (as a database has it whose collector is another one, over which the service doesn't start)
    place.said("add", ADDRESS, "--own", OWN[:-1] + "2", given=KEY)
    assert f"{roster}: the collector's own address is {OWN}" in place.fault("check")
    roster.write_text(roster.read_text() + "meter 93150000000201\n")
    assert "doesn't take the roster" in place.fault("check")


@pytest.mark.parametrize("sign", [b"\x03", b"\x04"])
def test_a_key_that_isnt_entered(place: Place, sign: bytes) -> None:
    """Who ends the question for a key, by Ctrl-C or Ctrl-D, is told so, and the status says that no meter was added."""
    child, terminal = pty.fork()
    if not child:
        os.environ |= {"WMBUS_CONFIG": str(place.config), "PYTHONPATH": str(TOP / "service")}
        os.execv(PYTHON, [PYTHON, "-m", "wmbus_service", "add", ADDRESS, "--own", OWN])
    told = b""
    with suppress(OSError), os.fdopen(terminal, "r+b", 0) as opened:
        while piece := opened.read(1000):
            told += piece
            if told.endswith(b": "):
                opened.write(sign)
    _, status = os.waitpid(child, 0)
    assert os.waitstatus_to_exitcode(status) == 1
    assert b"wmbus-service: " in told and b"Traceback" not in told
    assert json.loads(place.said("status", "--json"))["meters"] == []


@pytest.mark.parametrize("language", ["C", "C.UTF-8"])
def test_a_key_in_another_encoding(place: Place, language: str) -> None:
    """A key or a password that isn't in UTF-8 is refused in words, and nothing of it is told."""
    words = [PYTHON, "-m", "wmbus_service", "--config", str(place.config), "add", ADDRESS, "--own", OWN]
    environment = {**os.environ, "LC_ALL": language, "PYTHONPATH": str(TOP / "service")}
    done = subprocess.run(words, input=f"{KEY}\xfc\n".encode("latin-1"), env=environment, capture_output=True, timeout=PATIENCE,
                          check=False)
    assert (done.returncode, done.stderr.count(b"\n")) == (1, 1) and b"UTF-8" in done.stderr and KEY.encode() not in done.stderr


def test_a_configuration_of_windows(place: Place) -> None:
    """A configuration that was edited on Windows, with a mark in front and carriage returns, is read as it is meant."""
    place.said("add", ADDRESS, "--own", OWN, given=KEY)
    place.config.write_bytes(b"\xef\xbb\xbf" + place.config.read_bytes().replace(b"\n", b"\r\n"))
    assert f"meter {ADDRESS}" in place.said("status")


def test_words(place: Place) -> None:
    """Faulty words end with status 2, and each command has its help."""
    assert place.run("rum").status == 2
    assert place.run().status == 2
    for name in ("run", "receive", "check", "status", "add", "import", "correct", "rekey", "command", "export", "backup", "restore", "demo"):
        assert name in place.said("--help")
        assert "exit status" in place.said(name, "--help")


@pytest.mark.parametrize("command", ["wmbus-service", "fleet/wmbus-fleet"])
def test_output_that_takes_nothing(command: str) -> None:
    """Help for which nobody is there ends without a word, and with one where its file is full."""
    if command.startswith("fleet"):
        pytest.importorskip("psycopg", reason="python3-psycopg isn't there")
        pytest.importorskip("pika", reason="python3-pika isn't there")
    reader, writer = os.pipe()
    os.close(reader)
    for output, told in ((writer, ""), (os.open("/dev/full", os.O_WRONLY), "No space left")):
        with os.fdopen(output, "w") as opened:
            done = subprocess.run([PYTHON, f"{TOP}/service/{command}", "--help"], check=False, stdout=opened, stderr=subprocess.PIPE, text=True,
                                  timeout=PATIENCE)
        assert done.returncode == 1 and told in done.stderr and "Traceback" not in done.stderr and bool(done.stderr) == bool(told)


@pytest.mark.parametrize("closed, words, wanted", [
    ("<&-", ["check"], f"right: program {STEPS}"), ("<&-", ["add", ADDRESS, "--own", OWN], "it isn't 32 hexadecimal digits"),
    (">&-", ["status"], ""), ("<&- >&-", ["backup", "copy.db"], "")])
def test_a_closed_stream(place: Place, closed: str, words: list[str], wanted: str) -> None:
    """Where a standard stream is closed, as a supervisor may leave it, what is given to a program doesn't stand in its place, and no command
    ends with a trace."""
    if not wanted:
        place.said("add", ADDRESS, "--own", OWN, given=KEY)
    started: list[str | Path] = ["sh", "-c", f'exec "$@" {closed}', "sh", PYTHON, "-m", "wmbus_service", "--config", place.config, *words]
    done = run(started, check=False, env=os.environ | {"PYTHONPATH": str(TOP / "service")}, cwd=place.folder)
    assert wanted in done.stdout + done.stderr and "Traceback" not in done.stderr
    assert done.returncode == int(bool(wanted))


def test_demo() -> None:
    """Without a page the demo says what was read, by a process of its own without a configuration."""
    words = [PYTHON, "-m", "wmbus_service", "demo", "--days", "2", "--text", "--steps", STEPS]
    done = run(words, env=os.environ | {"PYTHONPATH": str(TOP / "service")})
    # (one meter has been silent for longer, and one has a wrong key)
    assert done.stdout.count(" s ago, by attic)") == 10 and done.stdout.count(": no reading yet") == 2
    assert "isn't proved" in done.stdout
    faulty = run([*words[:4], "--days", "many"], cwd=TOP / "service", check=False)
    assert faulty.returncode == 2 and "no number" in faulty.stderr


def test_proved_steps_are_preferred(tmp_path: Path, monkeypatch: pytest.MonkeyPatch) -> None:
    """A `wmbus` whose help names `steps` tells the sessions; with one that doesn't, or without one, the second implementation does, and is
    said to."""
    wmbus = tmp_path / "wmbus"
    for help_text, has in (("usage: wmbus hear STATE RX\n       wmbus steps STATE NEXT RX\n", True), ("wmbus hear, stepsize", False)):
        wmbus.write_text(f"#!/bin/sh\n[ \"$1\" = --help ] && printf '{help_text}'\n")
        wmbus.chmod(0o755)
        assert has_steps(str(wmbus)) is has
        with monkeypatch.context() as installed:
            installed.setattr(config, "HERE", tmp_path)
            assert config.steps_program.__wrapped__() == (f"{wmbus} steps" if has else str(tmp_path.parent / config.STAND_IN))
    assert not has_steps(str(tmp_path / "none"))
    assert "isn't proved" in unproved_words(STEPS) and not unproved_words(f"{tmp_path}/wmbus steps")


def test_check_names_the_second_implementation(place: Place) -> None:
    """Beside what is right or wrong."""
    assert f"note: {STEPS} tells the sessions, a second implementation in Python that isn't proved" in place.fault("check")
