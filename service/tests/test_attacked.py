"""What somebody with bad luck or bad intent does to a service: nothing is lost, no counter goes out with two frames, and it is told."""
from __future__ import annotations

import errno
import json
import os
import shutil
import sqlite3
import subprocess
import time
from contextlib import closing, suppress
from dataclasses import replace
from pathlib import Path

import pytest
from wmbus_service import begun, spool, status, store, writing
from wmbus_service.broker import Broker
from wmbus_service.checking import look_at_certificate, look_at_key
from wmbus_service.config import Mqtt, read_config
from wmbus_service.ending import Ending
from wmbus_service.page import looks
from wmbus_service.service import Service
from wmbus_service.trouble import Trouble
from wmbus_service.troubles import Troubles, troubles_of

from telegrams import messages
from . import servers
from .meters import line_of, payload_of
from .processes import PATIENCE, certificate_of, until
from .test_commandline import ADDRESS, KEY, OWN, Place, place_fixture  # noqa: F401
from .test_sessions import NOW, House, house_fixture  # noqa: F401


def counter_of(place: Place) -> int:
    """The last downlink counter of the one meter."""
    with closing(sqlite3.connect(read_config(place.config).database)) as database:
        (block,) = database.execute("select block from meter").fetchone()
    return int(block.split(" ")[6])


def take_all(path: Path) -> None:
    """The database is gone."""
    for name in (path.name, f"{path.name}-wal", f"{path.name}-shm"):
        path.with_name(name).unlink(missing_ok=True)


def make_empty(path: Path) -> None:
    """It is there, and has nothing, as after a repair of the file system."""
    take_all(path)
    path.touch(mode=0o600)


def leave_head(path: Path) -> None:
    """It has a head, and no tables."""
    take_all(path)
    path.touch(mode=0o600)
    with closing(sqlite3.connect(path)) as database:
        database.execute("pragma journal_mode = wal")


@pytest.mark.parametrize("lose", [take_all, make_empty, leave_head])
def test_a_database_that_is_lost(place: Place, lose: object) -> None:
    """A database that is gone, empty or without tables isn't taken for a new one: no word begins at counter 0 again. A copy is put back, or
    it is begun above all that was used, however often it is lost."""
    assert callable(lose)
    place.said("add", ADDRESS, "--own", OWN, given=KEY)
    place.said("backup", str(place.folder / "copy.db"))
    path = read_config(place.config).database
    assert "database is there" in place.fault("begin", "--lost") and counter_of(place) == 0
    lose(path)
    for words in (["add", ADDRESS, "--own", OWN], ["run"], ["status"], ["check"]):
        told = place.fault(*words, given=KEY)
        assert "there was one here" in told and "wmbus-service restore" in told and "begin --lost" in told
    place.said("restore", str(place.folder / "copy.db"), "--margin", "50")
    assert counter_of(place) == 50
    # (1,050: the counters of the copy and those of after it may both have been used)
    for wanted in (1050, 2050):
        lose(path)
        assert f"begin {wanted} higher" in place.said("begin", "--lost")
        place.said("add", ADDRESS, "--own", OWN, given=KEY)
        assert counter_of(place) == wanted
    assert "margin is below 0" in place.fault("begin", "--lost", "--margin", "-1")


def test_who_asked_for_a_command(place: Place) -> None:
    """Who put a command stands in its row, in what status says, and in the log once a session has it; an id that was used is that of the
    same command alone."""
    place.said("add", ADDRESS, "--own", OWN, given=KEY)
    place.patches.setenv("SUDO_USER", "mallory")
    place.said("command", ADDRESS, "01", "--id", "a")
    assert "was taken before" in place.said("command", ADDRESS, "01", "--id", "a")
    assert "command a: its id was used for another command, and it isn't sent" in place.fault("command", ADDRESS, "02", "--id", "a")
    place.said("rekey", ADDRESS, given="1" * 32)
    with closing(sqlite3.connect(read_config(place.config).database)) as database:
        assert database.execute("select kind, asked_by from command").fetchall() == [(it, "user mallory") for it in ("send", "rekey")]
    assert "command a for 4304101230400104: waiting, sent 0 times; who asked for it: user mallory" in place.said("status")
    told: list[str] = []
    place.patches.setattr(writing.log, "info", lambda words, *given: told.append(words % given))
    place.hear("")
    assert told == [f"command a for meter {ADDRESS} is queued; who asked for it: user mallory"]


def test_a_meter_that_the_copy_has_not(place: Place) -> None:
    """A meter that came behind the copy is added again behind its restore, and its counters go on above those that it may have used."""
    place.said("add", "4304101230400105", "--own", OWN, given=KEY)
    copy = place.folder / "copy.db"
    place.said("backup", str(copy))
    place.said("add", ADDRESS, given=KEY)
    place.said("restore", str(copy))
    place.said("add", ADDRESS, given=KEY)
    with closing(sqlite3.connect(read_config(place.config).database)) as database:
        assert [block.split(" ")[6] for (block,) in database.execute("select block from meter order by place")] == ["1000", "1000"]


def test_a_database_of_before_is_marked(place: Place) -> None:
    """That of an earlier release, which has no mark, gets one when it is opened; one that never was isn't missed."""
    path = read_config(place.config).database
    assert "no database yet" in place.fault("status") and "was no database here" in place.fault("begin", "--lost")
    place.said("add", ADDRESS, "--own", OWN, given=KEY)
    begun.mark_of(path).unlink()
    place.said("status")
    assert begun.mark_of(path).read_text() == "counters 0\n"
    begun.mark_of(path).write_text("counters\n")
    path.unlink()
    assert "write `counters N` into it" in place.fault("begin", "--lost")


def test_an_entry_of_the_spool_that_cant_be_read(house: House, monkeypatch: pytest.MonkeyPatch, caplog: pytest.LogCaptureFixture) -> None:
    """It alone stands still, whatever it is, a link by which lines would be heard twice too, and is told once in the log, and by status and
    the page as long as it is so; all others are heard, of its receiver too."""
    served, failing = Service(house.config, house.database), [house.spool(house.whole(house.meters[0]))]
    (house.config.spool / "attic.00000003.1.lines").mkdir()
    os.mkfifo(house.config.spool / "attic.00000004.1.lines")
    (house.config.spool / "attic.00000005.1.lines").symlink_to("attic.00000006.1.lines")
    house.files = 6
    house.spool(house.whole(house.meters[1]))
    house.spool("A 1 00\n", "roof")
    opened = spool.open_lines

    def broken(path: Path) -> object:
        if path in failing:
            raise OSError(errno.EIO, os.strerror(errno.EIO))
        return opened(path)
    monkeypatch.setattr(spool, "open_lines", broken)
    assert served.turn() == 2 and served.turn() == 0
    wrong = {"1": "Input/output error", "3": "it is no file", "4": "it is no file", "5": "it is a link"}
    told = status.status(house.config, False)
    shown = [it.to_do for it in looks.all_looks(house.config, house.database, [], [], NOW)]
    for number, words in wrong.items():
        said = f"attic.0000000{number}.1.lines: it can't be read, and its lines aren't heard: {words}"
        assert caplog.text.count(said) == told.count(said) == sum(said in it for it in shown) == 1
    failing.clear()
    assert served.turn() == 1 and len(house.all("select id from reading")) == 2


def test_names_in_the_spool(house: House, caplog: pytest.LogCaptureFixture) -> None:
    """A file whose name is none of a receiver's isn't heard, neither under its name nor under one that fits others, and is told once in the
    log, and by status and the page; it ends no service, whatever signs it has."""
    served = Service(house.config, house.database)
    names = [b"*", b"att[i]c", b"x", b"", b"att\xffic", b"a\nb", "\u00e4".encode(), b"attic (copy)"]
    for name in names:
        whole = name + (b".00000001.1.lines" if len(name) != 1 or name == b"*" else b".lines")
        (house.config.spool / os.fsdecode(whole)).write_text(house.whole(house.meters[0]))
    house.spool(house.whole(house.meters[1]))
    house.spool(house.whole(house.meters[2]), "roof")
    assert served.turn() == 2 and served.turn() == 0
    told = status.status(house.config, False)
    shown = "\n".join(it.to_do for it in looks.all_looks(house.config, house.database, [], [], NOW))
    for text in (caplog.text, told, shown):
        assert text.count("its name isn't RECEIVER.NUMBER.MADE.lines") == len(names) and text.encode() and "a\\nb.0" in text
    assert json.loads(status.status(house.config, True))["spooled_bytes"] == 0


def test_a_spool_file_that_is_cut(house: House, caplog: pytest.LogCaptureFixture) -> None:
    """Nobody knows which lines of a file were heard that is shorter than what was taken of it: it is told, isn't heard, and stays."""
    served = Service(house.config, house.database)
    path = house.spool("".join(house.whole(house.meters[0]) for _ in range(3)))
    assert served.turn() == 3
    path.write_text(house.whole(house.meters[0]))
    house.spool(house.whole(house.meters[1]))
    assert served.turn() == 1 and path.exists()
    said = f"{path.name}: it can't be read, and its lines aren't heard: it is shorter than what was taken of it"
    told = status.status(house.config, False)
    shown = [it.to_do for it in looks.all_looks(house.config, house.database, [], [], NOW)]
    assert caplog.text.count(said) == told.count(said) == sum(said in it for it in shown) == 1


def test_a_spool_file_that_comes_back(house: House) -> None:
    """One that is moved away and back isn't heard again, in mode 5 neither; places are kept of so many files alone."""
    served, meter = Service(house.config, house.database), house.meters[2]
    path = house.spool(line_of(messages.whole_5(meter.key, meter.address, 1, payload_of(1)), 100))
    assert meter.mode == 5 and served.turn() == 1
    path.rename(away := house.config.folder / "away")
    house.spool(line_of(messages.whole_5(meter.key, meter.address, 2, payload_of(2)), 101))
    assert served.turn() == 1
    away.rename(path)
    assert served.turn() == 0 and house.all("select count(*) from reading") == [2]
    for _ in range(spool.KEPT_PLACES + 5):
        house.spool("A 1 00\n")
    while served.turn():
        pass
    assert house.all("select count(*) from source") == [spool.KEPT_PLACES + 1]


def test_a_spool_that_is_gone(house: House) -> None:
    """That its folder is gone is said with what to do; once receivers made it again lines are heard."""
    served = Service(house.config, house.database)
    house.config.spool.rename(house.config.folder / "away")
    with pytest.raises(Trouble, match="is gone, and nothing is heard; start the receivers again"):
        served.turn()
    house.config.spool.mkdir(0o700)
    house.spool(house.whole(house.meters[0]))
    assert served.turn() == 1


def test_trouble_is_told_at_once(house: House, monkeypatch: pytest.MonkeyPatch) -> None:
    """That the disk is full is said by status and page with the first session that it stops, and no more once sessions go on."""
    house.spool("".join(house.whole(house.meters[0]) for _ in range(300)))
    served, seen = Service(house.config, house.database), list[tuple[str, list[str]]]()
    (pages,) = house.database.execute("pragma page_count").fetchone()
    house.database.execute(f"pragma max_page_count = {pages + 2}")

    def wait(_seconds: float, _watched: int | None) -> None:
        seen.append((status.status(house.config, False),
                     [it.to_do for it in looks.all_looks(house.config, house.database, [], [], NOW) if it.what == "trouble"]))
        house.database.execute("pragma max_page_count = 1000000")
        if len(seen) == 2:
            served.ending.set()
    monkeypatch.setattr(served, "_wait", wait)
    served.run()
    words = "database or disk is full; make room on its disk; nothing of the session was kept, and its lines stay in the spool"
    assert "trouble with its sessions since 20" in seen[0][0] and words in seen[0][0] and words in seen[0][1][0]
    assert "trouble" not in seen[1][0] and not seen[1][1]


def test_trouble_on_a_disk_that_is_full(tmp_path: Path) -> None:
    """It has its room on the disk from the start."""
    folder = tmp_path / "small"
    folder.mkdir()
    if subprocess.run(["mount", "-t", "tmpfs", "-o", "size=64k", "none", folder], capture_output=True, check=False).returncode:
        pytest.skip("no file system can be mounted here")
    try:
        told = Troubles(folder)
        with suppress(OSError), open(folder / "rest", "wb", buffering=0) as rest:
            while True:
                rest.write(bytes(4096))
        told.tell("sessions", "the disk is full")
        assert [(it.part, it.words) for it in troubles_of(folder)] == [("sessions", "the disk is full")]
        told.over("sessions")
        assert not troubles_of(folder)
    finally:
        subprocess.run(["umount", folder], check=True)


def test_trouble_with_the_broker(house: House, tmp_path: Path) -> None:
    """What the broker says where it refuses the service stands in status, with its words; no longer once it takes it."""
    if servers.missing():
        pytest.skip(f"{', '.join(servers.missing())} isn't there")
    mosquitto = servers.Mosquitto(tmp_path / "broker", "allow_anonymous false\n")
    ending, config = Ending(), replace(house.config, mqtt=Mqtt(port=mosquitto.port))
    connecting = Broker(config, Mqtt(port=mosquitto.port), ending)
    connecting.start()
    try:
        words = f"127.0.0.1:{mosquitto.port}: the broker refuses the connection: not authorised"
        until(lambda: words in status.status(config, False))
        mosquitto.end()
        (mosquitto.folder / "conf").write_text((mosquitto.folder / "conf").read_text().replace("allow_anonymous false", "allow_anonymous true"))
        mosquitto.start()
        until(lambda: "trouble" not in status.status(config, False))
    finally:
        ending.set()
        connecting.join(PATIENCE)
        mosquitto.end()


def test_what_check_looks_into(place: Place, tmp_path: Path) -> None:
    """`check` names a database whose pages are broken, a certificate that has ended or soon does, and a key that others may read."""
    if not shutil.which("openssl"):
        pytest.skip("openssl isn't there")
    place.said("add", ADDRESS, "--own", OWN, given=KEY)
    certificate, key = certificate_of(tmp_path)
    now = time.time()
    for path, wanted in ((key, 0o600), (key, 0o640)):
        path.chmod(wanted)
        look_at_key(str(path))
    for rights in (0o644, 0o660, 0o604):
        key.chmod(rights)
        with pytest.raises(Trouble, match="others have rights on it"):
            look_at_key(str(key))
    # (it is made for two days)
    look_at_certificate(str(certificate), now)
    for moment, words in ((now + 1.5 * 86_400, "it ends in 0 days"), (now + 4 * 86_400, "it ended 2 days ago")):
        with pytest.raises(Trouble, match=words):
            look_at_certificate(str(certificate), moment)
    place.config.write_text(place.config.read_text() + f'[page]\nport = 0\ncertificate = "{certificate}"\nkey = "{key}"\n')
    assert f"{key}: others have rights on it" in place.fault("check")
    path = read_config(place.config).database
    with closing(sqlite3.connect(path)) as database:
        database.execute("pragma wal_checkpoint(truncate)")
        (root,) = database.execute("select rootpage from sqlite_master where name = 'refusal'").fetchone()
        (size,) = database.execute("pragma page_size").fetchone()
    with open(path, "r+b") as file:
        file.seek((root - 1) * size)
        file.write(b"\xff" * 200)
    assert "the database isn't whole" in place.fault("check") or "malformed" in place.fault("check")


def test_ages_by_a_clock_that_is_ahead(house: House) -> None:
    """What a receiver's clock, which is ahead, says of a reading is no age below 0."""
    house.spool(house.whole(house.meters[0], moment=int(time.time()) + 1800))
    house.hear(time.time())
    assert [it["age"] for it in status.figures(house.config, house.database)["meters"]] == [0, None, None]


@pytest.mark.parametrize("words", [["run"], ["status"], ["check"], ["receive", "attic"], ["command", ADDRESS, "01"], ["rekey", ADDRESS],
                                   ["retire", ADDRESS], ["correct", ADDRESS], ["export"], ["page"], ["begin", "--lost"], ["restore", "none"]])
def test_a_file_system_that_is_read_only(place: Place, words: list[str]) -> None:
    """Where the kernel took the file system read-only each command ends and says so, with what to do, and changes nothing."""
    folder = place.folder / "wmbus"
    folder.mkdir()
    if subprocess.run(["mount", "-t", "tmpfs", "-o", "size=20m,mode=700", "none", folder], capture_output=True, check=False).returncode:
        pytest.skip("no file system can be mounted here")
    try:
        place.said("add", ADDRESS, "--own", OWN, given=KEY)
        subprocess.run(["mount", "-o", "remount,ro", folder], check=True)
        told = place.fault(*words, given="1" * 32)
        assert "the file system is read-only: see why (dmesg), and mount it writable" in told and str(folder) in told
        subprocess.run(["mount", "-o", "remount,rw", folder], check=True)
        assert f"meter {ADDRESS}: no reading yet" in place.said("status")
    finally:
        subprocess.run(["umount", folder], check=True)


def test_a_database_that_goes_while_the_service_runs(house: House, tmp_path: Path) -> None:
    """A service whose database was deleted, or replaced by a copy, takes no line into a file that nobody finds any more."""
    served = Service(house.config, house.database)
    house.spool(house.whole(house.meters[0]))
    assert served.turn() == 1
    house.spool(house.whole(house.meters[0]))
    path = house.config.database
    path.rename(tmp_path / "away")
    with pytest.raises(Trouble, match="taken away or replaced while the service runs; end the service"):
        served.turn()
    shutil.copyfile(tmp_path / "away", path)
    with pytest.raises(Trouble, match="taken away or replaced"):
        served.turn()
    path.unlink()
    with pytest.raises(Trouble, match="there was one here"):
        store.open_store(path)
    (tmp_path / "away").rename(path)
    assert served.turn() == 1 and house.all("select counter from reading order by id") == [1, 2]
