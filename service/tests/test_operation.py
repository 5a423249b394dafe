"""What goes wrong on a machine: each is a clear error, and nothing is lost."""
from __future__ import annotations

import functools
import itertools
import os
import pwd
import resource
import shutil
import signal
import socket
import sqlite3
import stat
import subprocess
import sys
import tempfile
import time
from collections.abc import Callable
from contextlib import closing
from dataclasses import replace
from pathlib import Path

import pytest
from wmbus_service import receiving, retention, schema, service, session, status, steps, store
from wmbus_service.commandline import main
from wmbus_service.commands import put_command
from wmbus_service.config import Config, Keep, Programs, Receiver
from wmbus_service.ending import Ending
from wmbus_service.page import looks
from wmbus_service.service import Service
from wmbus_service.trouble import Trouble

from telegrams import messages
from . import measure
from .kill import MEMORY, TOP, Child
from .meters import line_of
from .processes import PATIENCE, started, until
from .stand_in import use_stand_in
from .test_sessions import NOW, House, house_fixture  # noqa: F401

NOBODY = 65534
DAY = 86_400


def may_give_away() -> bool:
    """Whether this user may give files to another one."""
    with tempfile.NamedTemporaryFile() as file:
        try:
            os.chown(file.name, NOBODY, NOBODY)
        except OSError:
            return False
    return True


as_root = pytest.mark.skipif(not may_give_away(), reason="only root can give files to another user")


def test_disk_full(house: House, caplog: pytest.LogCaptureFixture) -> None:
    """No room for a session: it is said once, nothing of it counts, and once there is room all is heard."""
    lines = [house.whole(house.meters[0]) for _ in range(300)]
    house.spool("".join(lines))
    served = Service(house.config, house.database)
    (pages,) = house.database.execute("pragma page_count").fetchone()
    house.database.execute(f"pragma max_page_count = {pages + 2}")
    for _ in range(3):
        with pytest.raises(sqlite3.Error) as fault:
            served.turn()
        served._tell(fault.value)
    assert caplog.text.count("make room") == 1
    assert not house.all("select number from line")
    house.database.execute("pragma max_page_count = 1000000")
    while served.turn():
        pass
    assert len(house.all("select id from reading")) == 300


def test_trouble_that_is_over(house: House, monkeypatch: pytest.MonkeyPatch, caplog: pytest.LogCaptureFixture) -> None:
    """What was wrong is the last that the log says of it only as long as it is so: once a session was committed it says that they go on."""
    caplog.set_level("INFO", "wmbus")
    served, left = Service(house.config, house.database), [Trouble("the disk", "it is full")] * 2
    monkeypatch.setattr(service, "LEAST_PAUSE", 0.01)

    def turn() -> int:
        if left:
            raise left.pop()
        if served.trouble == "":
            served.ending.set()
        return 1
    monkeypatch.setattr(served, "turn", turn)
    served.config = replace(house.config, interval=0.01)
    served.run()
    assert [record.getMessage() for record in caplog.records] == ["the disk: it is full", "sessions go on"]


@as_root
def test_read_only(tmp_path: Path) -> None:
    """A database that can't be written is said to be so, before anything is heard."""
    folder = tmp_path / "wmbus"
    store.prepare_folder(folder)
    store.open_store(folder / "wmbus.db", is_new=True).close()
    for path in (tmp_path.parent.parent, tmp_path.parent, tmp_path):
        path.chmod(0o755)
    os.chown(folder / "wmbus.db", NOBODY, NOBODY)
    os.chown(folder, NOBODY, NOBODY)
    (folder / "wmbus.db").chmod(0o400)
    folder.chmod(0o500)

    def look() -> None:
        os.seteuid(NOBODY)
        with pytest.raises(Trouble, match="read-only|rights|owner"):
            database = store.open_store(folder / "wmbus.db")
            with store.transaction(database):
                database.execute("insert into total values ('a', 1)")
        with pytest.raises((Trouble, sqlite3.Error)):
            store.open_store(folder / "other.db", is_new=True)
    child = Child(tmp_path / "log", look)
    until(lambda: not child.is_running())
    assert child.status == 0, (tmp_path / "log").read_text()


@as_root
def test_a_folder_that_takes_no_lock(tmp_path: Path) -> None:
    """A service that begins in a folder that can't be written ends, and says what to do."""
    folder = tmp_path / "wmbus"
    store.prepare_folder(folder)
    for path in (tmp_path.parent.parent, tmp_path.parent, tmp_path):
        path.chmod(0o755)
    for path in (folder / "spool", folder):
        os.chown(path, NOBODY, NOBODY)
    folder.chmod(0o500)

    def begin() -> None:
        os.seteuid(NOBODY)
        with pytest.raises(Trouble, match="lock: .*writable"):
            service.run(Config(folder=folder))
    child = Child(tmp_path / "log", begin)
    until(lambda: not child.is_running())
    assert child.status == 0, (tmp_path / "log").read_text()


@as_root
def test_status_over_a_folder_that_cant_be_written(tmp_path: Path) -> None:
    """What is known is told also where the file system became read-only, as after a fault of its disk, and whether a service runs."""
    folder = tmp_path / "wmbus"
    store.prepare_folder(folder)
    with closing(store.open_store(folder / "wmbus.db", is_new=True)):
        os.close(service.lock(folder))
        for path in (tmp_path.parent.parent, tmp_path.parent, tmp_path):
            path.chmod(0o755)
        for path in (*folder.iterdir(), folder):
            os.chown(path, NOBODY, NOBODY)
            path.chmod(0o500 if path.is_dir() else 0o400)

        def look() -> None:
            os.seteuid(NOBODY)
            assert "the service doesn't run" in status.status(Config(folder=folder), False)
        child = Child(tmp_path / "log", look)
        until(lambda: not child.is_running())
    assert child.status == 0, (tmp_path / "log").read_text()


@as_root
def test_whether_a_service_runs_on_a_disk_that_takes_nothing(tmp_path: Path) -> None:
    """The page and `status` see that a service runs, or none, also where nothing can be written any more."""
    folders = [tmp_path / name for name in ("runs", "ran", "new")]
    for folder in folders:
        store.prepare_folder(folder)
    held = service.lock(folders[0])
    os.close(service.lock(folders[1]))
    for path in (tmp_path.parent.parent, tmp_path.parent, tmp_path):
        path.chmod(0o755)
    for path in tmp_path.rglob("*"):
        path.chmod(0o400 if path.is_file() else 0o500)
        os.chown(path, NOBODY, NOBODY)

    def look() -> None:
        os.seteuid(NOBODY)
        assert [service.is_locked(folder) for folder in folders] == [True, False, False]
    child = Child(tmp_path / "log", look)
    until(lambda: not child.is_running())
    os.close(held)
    assert child.status == 0, (tmp_path / "log").read_text()


def test_rights(tmp_path: Path) -> None:
    """Keys stand in the folder, so others may have no right on it, nor on the database and the roster."""
    folder = tmp_path / "wmbus"
    before = os.umask(0)
    try:
        store.prepare_folder(folder)
        store.open_store(folder / "wmbus.db", is_new=True).close()
    finally:
        os.umask(before)
    assert [stat.S_IMODE(path.stat().st_mode) for path in (folder, folder / "spool", folder / "wmbus.db")] == [0o700, 0o700, 0o600]
    (folder / "wmbus.db").chmod(0o640)
    with pytest.raises(Trouble, match="chmod 600"):
        store.open_store(folder / "wmbus.db")
    folder.chmod(0o755)
    with pytest.raises(Trouble, match="chmod 700"):
        store.prepare_folder(folder)
    if may_give_away():
        os.chown(folder, NOBODY, NOBODY)
        with pytest.raises(Trouble, match="belongs to the user"):
            store.prepare_folder(folder)


@as_root
def test_root_acts_as_the_owner() -> None:
    """Where root adds a meter the database belongs to the service's user all the same; a list may be one that root alone reads."""
    with tempfile.TemporaryDirectory() as place:
        folder, config = Path(place) / "wmbus", Path(place) / "config.toml"
        Path(place).chmod(0o755)
        config.write_text(f'folder = "{folder}"\n')
        folder.mkdir(mode=0o700)
        os.chown(folder, NOBODY, NOBODY)
        keys = Path(place) / "keys"
        keys.write_text("ID;Key\n1;2\n")
        keys.chmod(0o600)
        child = Child(Path(place) / "log", lambda: print(main(["--config", str(config), "import", str(keys), "--own", "93" * 8])))
        until(lambda: not child.is_running())
        assert "line 2, column `Key`" in (Path(place) / "log").read_text()
        assert {path.stat().st_uid for path in folder.rglob("*")} == {NOBODY}
        assert (folder / "wmbus.db").exists()


@as_root
@pytest.mark.parametrize("words", [("backup", "new"), ("restore", "copy"), ("export", "--state", "new")])
def test_what_root_may_and_the_owner_may_not(words: tuple[str, ...]) -> None:
    """Where root asks for a file that the service's user can't have, to whom the rest is left, it is told whose right is lacking."""
    with tempfile.TemporaryDirectory() as place:
        folder, config, own = Path(place) / "wmbus", Path(place) / "config.toml", Path(place) / "root"
        Path(place).chmod(0o755)
        own.mkdir(mode=0o700)
        (own / "copy").touch(0o600)
        config.write_text(f'folder = "{folder}"\n')
        store.prepare_folder(folder)
        with closing(store.open_store(folder / "wmbus.db", is_new=True)) as database:
            store.set_setting(database, "own", "93" * 8)
        for path in (*folder.iterdir(), folder):
            os.chown(path, NOBODY, NOBODY)
        child = Child(Path(place) / "log", lambda: print(main(["--config", str(config), *words[:-1], str(own / words[-1])])))
        until(lambda: not child.is_running())
        said = (Path(place) / "log").read_text()
        assert "Permission denied" in said and f"as {pwd.getpwuid(NOBODY).pw_name}, to whom" in said


def test_two_services(tmp_path: Path) -> None:
    """A second service on a folder ends at once, and once the first has ended it may begin."""
    store.prepare_folder(tmp_path / "wmbus")
    held = service.lock(tmp_path / "wmbus")
    with pytest.raises(Trouble, match="another service"):
        service.lock(tmp_path / "wmbus")
    os.close(held)
    os.close(service.lock(tmp_path / "wmbus"))


def test_sessions_that_stand_still(house: House) -> None:
    """Where the service runs and none of its sessions can be committed, as on a full disk, page and `status` say so; and nothing of it once
    they go on."""
    held = service.lock(house.config.folder)
    running = Service(house.config, house.database)

    def told() -> list[str]:
        now = time.time()
        found = [it.to_do for it in looks.all_looks(house.config, house.database, [], [], now) if it.what == "stands still"]
        return found + [line for line in status.status(house.config, False).split("\n") if "no session" in line]
    try:
        running.turn()
        assert told() == []
        os.utime(house.config.folder / "lock", (0, time.time() - 2410))
        # (one of before, which notes nothing, isn't told of)
        assert told() == []
        os.write(held, b"noted")
        os.utime(house.config.folder / "lock", (0, time.time() - 2410))
        assert told() == ["It runs, and has had no session for 40 minutes. Its log says why.",
                          "it has had no session for 40 minutes: journalctl -u wmbus says why"]
        running.noted_at = 0.0
        house.spool(house.whole(house.meters[0]))
        house.database.execute("create temp trigger full before insert on reading begin select raise(abort, 'full'); end")
        with pytest.raises(sqlite3.Error):
            running.turn()
        assert len(told()) == 2
        house.database.execute("drop trigger full")
        running.turn()
        assert told() == []
    finally:
        os.close(held)


def test_what_systemd_is_told(house: House, tmp_path: Path, monkeypatch: pytest.MonkeyPatch) -> None:
    """It tells when it is ready, that it lives, and that it ends; SIGTERM ends it, once its session is committed."""
    with socket.socket(socket.AF_UNIX, socket.SOCK_DGRAM) as told:
        told.bind(str(tmp_path / "notify"))
        told.settimeout(PATIENCE)
        monkeypatch.setenv("NOTIFY_SOCKET", str(tmp_path / "notify"))
        house.database.close()
        house.spool(house.whole(house.meters[0]))
        child = Child(tmp_path / "log", lambda: service.run(house.config))
        assert [told.recv(100), told.recv(100)] == [b"READY=1", b"WATCHDOG=1"]
        assert service.is_locked(house.config.folder)
        assert service.still_seconds(house.config.folder, time.time() + 3600) > 3000
        assert child.end(signal.SIGTERM) == 0
        last = told.recv(100)
        while last == b"WATCHDOG=1":
            last = told.recv(100)
        assert last == b"STOPPING=1"
    assert not service.is_locked(house.config.folder)
    with closing(store.open_store(house.config.database)) as database:
        assert database.execute("select count(*) from reading").fetchone() == (1,)


def test_a_socket_of_systemds_that_is_gone(tmp_path: Path, monkeypatch: pytest.MonkeyPatch) -> None:
    """Where nobody listens any more at the socket that somebody named, as to a program that a service's shell started, it goes on (sd_notify(3):
    what comes of it is best ignored)."""
    monkeypatch.setenv("NOTIFY_SOCKET", str(tmp_path / "gone"))
    service.notify("READY=1")


@pytest.mark.parametrize("text", ["", "a line\n"])
def test_that_it_lives_is_told_within_an_interval(house: House, tmp_path: Path, monkeypatch: pytest.MonkeyPatch, text: str) -> None:
    """Where the interval is longer than systemd waits for a sign of life (sd_watchdog_enabled(3)), it gets one all the same, whether
    there was something to hear or nothing."""
    with socket.socket(socket.AF_UNIX, socket.SOCK_DGRAM) as told:
        told.bind(str(tmp_path / "notify"))
        told.settimeout(5)
        monkeypatch.setenv("NOTIFY_SOCKET", str(tmp_path / "notify"))
        monkeypatch.setenv("WATCHDOG_USEC", "400000")
        house.database.close()
        house.spool(text)
        child = Child(tmp_path / "log", lambda: service.run(replace(house.config, interval=100_000.0)))
        try:
            assert [told.recv(100) for _ in range(5)] == [b"READY=1"] + [b"WATCHDOG=1"] * 4
        finally:
            assert child.end(signal.SIGTERM) == 0


def test_an_interruption_at_a_terminal(house: House, tmp_path: Path) -> None:
    """Ctrl-C, which a terminal gives to all programs in front of it, ends the service once the session that runs is committed."""
    program, begun = tmp_path / "steps", tmp_path / "begun"
    program.write_text(f'#!/bin/sh\ntouch {begun}\nsleep 0.5\nexec {TOP}/tests/reference/steps "$@"\n')
    program.chmod(0o755)
    house.spool(house.whole(house.meters[0]))
    house.database.close()

    def run() -> None:
        os.setpgid(0, 0)
        session_with(steps.run_steps, replace(house.config, programs=Programs(steps=str(program))))
    child = Child(tmp_path / "log", run)
    until(begun.exists)
    os.killpg(child.pid, signal.SIGINT)
    until(lambda: not child.is_running())
    assert child.status == 0, (tmp_path / "log").read_text()
    with closing(store.open_store(house.config.database)) as database:
        assert database.execute("select count(*) from reading").fetchone() == (1,)


@pytest.mark.parametrize("number, is_ignored", [(signal.SIGTERM, False), (signal.SIGINT, False), (signal.SIGHUP, False), (signal.SIGHUP, True)])
def test_what_ends_a_process(tmp_path: Path, number: signal.Signals, is_ignored: bool) -> None:
    """Also that its terminal is closed (signal(7), SIGHUP), so that what it made goes with it, as the demo's folder; but where nohup has it
    ignore that."""
    def run() -> None:
        signal.signal(number, signal.SIG_IGN if is_ignored else signal.SIG_DFL)
        ending = Ending()
        ending.heed_signals()
        signal.raise_signal(number)
        assert ending.is_set() is not is_ignored
    child = Child(tmp_path / "log", run)
    until(lambda: not child.is_running())
    assert child.status == 0, (tmp_path / "log").read_text()


def test_an_end_at_any_moment(tmp_path: Path) -> None:
    """A signal ends who waits for the end, at whichever step of the wait it comes."""
    def end_at(step: int) -> None:
        ending, steps = Ending(), itertools.count()
        ending.heed_signals()

        def trace(*_: object) -> object:
            if next(steps) == step:
                signal.raise_signal(signal.SIGTERM)
            return trace
        sys.settrace(trace)  # type: ignore[arg-type]
        while not ending.wait(0.01):
            pass
    children = [Child(tmp_path / str(step), functools.partial(end_at, step)) for step in range(24)]
    try:
        until(lambda: not any([child.is_running() for child in children]))
    finally:
        statuses = [child.end() for child in children]
    assert not any(statuses)


def test_a_line_is_heard_at_once(house: House, tmp_path: Path) -> None:
    """Once nothing is left the next line is heard when it comes, and not an interval later; the ones behind it wait for the interval."""
    house.database.close()
    config = replace(house.config, interval=100_000.0)
    path = house.spool("")
    child = Child(tmp_path / "log", lambda: service.run(config))
    try:
        until(lambda: "begun" in (tmp_path / "log").read_text())
        with closing(store.open_store(config.database)) as database:
            for number in (1, 2):
                with open(path, "a", encoding="ascii") as file:
                    file.write(house.whole(house.meters[0]))
                if number == 1:
                    until(lambda: database.execute("select count(*) from reading").fetchone() == (1,))
            time.sleep(0.5)
            assert database.execute("select count(*) from reading").fetchone() == (1,)
    finally:
        assert child.end(signal.SIGTERM) == 0


def test_a_command_beside_sessions_that_follow_each_other(house: House, tmp_path: Path, monkeypatch: pytest.MonkeyPatch) -> None:
    """While there is much to hear, as behind a long pause, and a small machine takes long for each session, what an operator, the page or
    the broker writes comes between two of them."""
    program = tmp_path / "steps"
    program.write_text(f'#!/bin/sh\nsleep 2\nexec {TOP}/tests/reference/steps "$@"\n')
    program.chmod(0o755)
    house.spool("".join(house.whole(house.meters[0]) for _ in range(40)))
    house.database.close()
    monkeypatch.setattr(session, "MOST", 1)
    child = Child(tmp_path / "log", lambda: session_with(steps.run_steps, replace(house.config, programs=Programs(steps=str(program)))))
    try:
        with closing(store.open_store(house.config.database)) as database:
            until(lambda: database.execute("select count(*) from line").fetchone() > (0,))
            assert put_command(database, "a", house.meters[0].name, "01", NOW)
    finally:
        assert child.end(signal.SIGTERM) == 0


def core_files(folder: Path) -> list[Path]:
    """The core files in a folder."""
    return [path for path in folder.iterdir() if path.name.startswith("core")]


def test_no_core_file(house: House, tmp_path: Path) -> None:
    """Where the program or the service dies of a fault no core file is left, in which keys would stand, though the machine writes such
    files."""
    place = tmp_path / "cores"
    place.mkdir()

    def within(work: Callable[[], None]) -> Callable[[], None]:
        def run() -> None:
            os.chdir(place)
            _, most = resource.getrlimit(resource.RLIMIT_CORE)
            resource.setrlimit(resource.RLIMIT_CORE, (most, most))
            work()
        return run
    control = Child(tmp_path / "control", within(lambda: os.kill(os.getpid(), signal.SIGQUIT)))
    until(lambda: not control.is_running())
    if not core_files(place):
        pytest.skip("this machine writes no core files into the folder")
    for path in core_files(place):
        path.unlink()
    program = tmp_path / "steps"
    program.write_text("#!/bin/sh\nkill -SEGV $$\n")
    program.chmod(0o755)
    house.spool(house.whole(house.meters[0]))
    house.database.close()
    config = replace(house.config, programs=Programs(steps=str(program)))
    child = Child(tmp_path / "log", within(lambda: session_with(steps.run_steps, config)))
    until(lambda: "status -11" in (tmp_path / "log").read_text())
    assert child.end(signal.SIGQUIT) == -signal.SIGQUIT
    assert not core_files(place)


def session_with(run: Callable[..., steps.Told], config: Config) -> None:
    """A service whose program is a process of its own."""
    session.run_steps = run  # type: ignore[attr-defined]
    service.run(config)


def test_measures(tmp_path: Path) -> None:
    """What is measured by hand can be measured: each line is seen once it is committed."""
    told = measure.measured("latency", 0.01, tmp_path / "latency") + measure.measured("backlog", 0.002, tmp_path / "backlog")
    assert told.count("3 lines of 12 meters") == told.count("262 lines of 300 meters") == told.count("latency median") == 1


def test_versions(tmp_path: Path, monkeypatch: pytest.MonkeyPatch) -> None:
    """An earlier database becomes one of this version, whole or not at all; a later one and another program's are refused, and stay as
    they are."""
    path = tmp_path / "wmbus.db"
    store.open_store(path, is_new=True).close()
    with monkeypatch.context() as later:
        steps = (*schema.MIGRATIONS, "alter table meter add column place_in_house text;\ncreate table house (name text);\n")
        later.setattr(schema, "MIGRATIONS", (*schema.MIGRATIONS, steps[-1] + "no statement;"))
        later.setattr(schema, "VERSION", len(steps))
        with pytest.raises(Trouble):
            store.open_store(path)
        with sqlite3.connect(path) as database:
            assert database.execute("pragma user_version").fetchone() == (len(steps) - 1,)
            assert not database.execute("select 1 from sqlite_master where name = 'house'").fetchall()
        later.setattr(schema, "MIGRATIONS", steps)
        database = store.open_store(path)
        database.execute("insert into house values ('a')")
        database.execute("select place_in_house from meter")
        database.close()
    with pytest.raises(Trouble, match="later release"):
        store.open_store(path)
    other = tmp_path / "other.db"
    with sqlite3.connect(other) as database:
        database.execute("create table mail (text text)")
    other.chmod(0o600)
    for version in (0, len(schema.MIGRATIONS), len(schema.MIGRATIONS) + 6):
        with sqlite3.connect(other) as database:
            database.execute(f"pragma user_version = {version}")
        with pytest.raises(Trouble, match="another program's"):
            store.open_store(other)
        with sqlite3.connect(other) as database:
            assert database.execute("pragma application_id").fetchone() == (0,)
    none = tmp_path / "none.db"
    none.write_bytes(b"no database at all" * 300)
    none.chmod(0o600)
    with pytest.raises(Trouble, match="last backup"):
        store.open_store(none)
    with pytest.raises(Trouble, match="no database yet"):
        store.open_store(tmp_path / "absent.db")


def test_retention(house: House) -> None:
    """Lines go after days, payloads after weeks, readings after a year; the last values of each day stay."""
    for day, hours in ((0, (1, 2, 3)), (1, (4,)), (50, (5,)), (500, (6,))):
        for hour in hours:
            house.spool(house.whole(house.meters[0]))
            house.hear(NOW + day * DAY + hour * 3600)
    house.hear(NOW + 500 * DAY + 7 * 3600)
    while retention.let_go(house.database, Keep(lines=7, payloads=60, readings=400), NOW + 501 * DAY):
        pass
    assert len(house.all("select number from line")) == 1
    assert house.all("select counter from reading order by id") == [6]
    # (1,800,000,000 is the 15th of January 2027, 08:00; what was sent is 1, 2, 3 .. litres)
    assert house.all("select day, value, exponent, unit from daily order by day") == [
        ("2027-01-15", "3", -3, "m3"), ("2027-01-16", "4", -3, "m3"), ("2027-03-06", "5", -3, "m3")]
    assert not house.all("select 1 from record where reading not in (select id from reading)")


def test_days_that_were_heard_late(house: House) -> None:
    """What receivers heard on days on which the service was down is of those days: the last values of each of them stay, and not those of
    the day alone on which all was taken out of the spool. A moment that can be none, or is far ahead, names no day; it is that of its
    session, where nothing else was heard on it."""
    meter = house.meters[0]
    house.spool("".join(house.whole(meter, moment=int(NOW) + moment)
                        for moment in (-2 * DAY, -2 * DAY + 60, -DAY, -DAY + 60, 0)) + house.whole(meter, moment=int(NOW) + 900 * DAY))
    house.hear(NOW)
    house.spool(house.whole(meter, moment=int(NOW) + 900 * DAY))
    house.hear(NOW + DAY)
    while retention.let_go(house.database, Keep(readings=1), NOW + 3 * DAY):
        pass
    # (1,800,000,000 is the 15th of January 2027, 08:00)
    assert house.all("select day, value from daily order by day") == [
        ("2027-01-13", "2"), ("2027-01-14", "4"), ("2027-01-15", "5"), ("2027-01-16", "7")]


@pytest.mark.parametrize("piece", [1, 1000])
def test_what_flowed_backward_in_a_later_piece(house: House, monkeypatch: pytest.MonkeyPatch, piece: int) -> None:
    """Of a day the last values stay of the volume and of what flowed backward, whichever goes later: in a large house each reading of a day
    goes with others."""
    monkeypatch.setattr(retention, "PIECE", piece)
    meter = house.meters[0]
    for counter, payload in enumerate(("0c933c03000000", "0c1306000000", "0c1307000000", "0c933c04000000", "0c933c05000000"), 1):
        text = b"\x2f\x2f" + bytes.fromhex(payload)
        house.spool(line_of(messages.whole(meter.key, meter.address, counter, text, 0x44, None), 100))
        house.hear(NOW + counter)
    while retention.let_go(house.database, Keep(readings=1), NOW + 2 * DAY):
        pass
    assert house.all("select value, modifiers from daily order by value") == [("5", "3c"), ("7", "")]


def test_days_of_an_earlier_version(tmp_path: Path, monkeypatch: pytest.MonkeyPatch) -> None:
    """The values of days that a database of version 1 has are there in this version, as those of registers without modifiers; others come
    beside them, each with its own."""
    path, day = tmp_path / "wmbus.db", ("a", "2026-01-31", "volume", "m3", -3, "7", "instantaneous", 0, 0, 0)
    with monkeypatch.context() as earlier:
        earlier.setattr(schema, "MIGRATIONS", schema.MIGRATIONS[:1])
        earlier.setattr(schema, "VERSION", 1)
        with closing(store.open_store(path, is_new=True)) as database:
            database.execute(f"insert into daily values (?{', ?' * 9})", day)
    with closing(store.open_store(path)) as database:
        # (1,769,903,999 is the 31st of January 2026, 23:59:59 in UTC)
        assert database.execute("select * from daily").fetchall() == [(*day, "", "UTC", 1_769_903_999)]
        database.execute(f"insert into daily values (?{', ?' * 9}, '3c', 'UTC', 0)", day)
        assert database.execute("pragma integrity_check").fetchone() == ("ok",)


@pytest.mark.parametrize("version", range(1, schema.VERSION))
def test_a_database_of_each_earlier_version(tmp_path: Path, monkeypatch: pytest.MonkeyPatch, version: int) -> None:
    """What a database of each earlier version has is there in this one, whole; while one process brings it on the others say so, and where
    that is ended amid a step nothing of it counts, and it begins anew."""
    path, given = tmp_path / "wmbus.db", {
        "setting": ("own", "9315010000000131"), "meter (address, place, name, block)": ("a", 1, "heat", "meter a 7 k - 5 9 0\n"),
        "source": ("attic", "attic.1.lines", 7), "line (receiver, text, made)": ("attic", "A 1 00", NOW),
        "reading": (1, 1, "a", 5, int(NOW), "attic", "2f2f", None, 0, NOW),
        "record": (1, 0, "volume", "m3", -3, "7", "instantaneous", 0, 0, 0, "", "00ff"),
        "refusal": ("a", "mac", "mac", 2, 1, NOW), "stranger": ("b", 3, "attic", NOW),
        "command (id, address, kind, payload, state, number, tries, made, changed)": ("c", "a", "send", "01", "sent", 1, 2, NOW, NOW),
        "outbox": (1, "attic", "a", 9, "00", 1, NOW, NOW, None), "publication (topic, payload, retain)": ("t", "p", 1),
        "announced (address, name)": ("a", "volume"), "aside": (1, "attic", "bad", "why", NOW), "total": ("lines", 4),
        "daily (address, day, quantity, unit, exponent, value, function, storage, tariff, subunit"
        + ", modifiers" * (version >= 2) + ", zone, moment" * (version >= 8) + ")":
            ("a", "2026-01-31", "volume", "m3", -3, "6", "instantaneous", 0, 0, 0, *[""] * (version >= 2), *["CET", 7] * (version >= 8))}
    with monkeypatch.context() as earlier:
        earlier.setattr(schema, "MIGRATIONS", schema.MIGRATIONS[:version])
        earlier.setattr(schema, "VERSION", version)
        with closing(store.open_store(path, is_new=True)) as database:
            for table, row in given.items():
                database.execute(f"insert into {table} values (?{', ?' * (len(row) - 1)})", row)
    with monkeypatch.context() as ended:
        ended.setattr(schema, "MIGRATIONS", (*schema.MIGRATIONS[:-1], schema.MIGRATIONS[-1] + "create table setting (a);\n"))
        with pytest.raises(Trouble, match="already exists"):
            store.open_store(path)
    with store.only_one(path), pytest.raises(Trouble, match="another process brings the database to this version; wait: its log"):
        store.open_store(path)
    with closing(store.open_store(path)) as database:
        for table, row in given.items():
            columns = table.partition("(")[2].rstrip(")") or ", ".join(
                name for (name,) in database.execute(f"select name from pragma_table_info('{table}') order by cid limit {len(row)}"))
            assert database.execute(f"select {columns} from {table.partition(' ')[0]}").fetchall() == [row], table
        assert database.execute("pragma integrity_check").fetchone() == ("ok",)
        assert database.execute("pragma user_version").fetchone() == (schema.VERSION,)


def test_a_step_that_takes_long(tmp_path: Path, monkeypatch: pytest.MonkeyPatch, caplog: pytest.LogCaptureFixture) -> None:
    """The log says at which step of how many a great database is that is brought to this version, and that it goes on."""
    caplog.set_level("INFO", "wmbus")
    path = tmp_path / "wmbus.db"
    monkeypatch.setattr(store, "TOLD_EACH", 0.0)
    monkeypatch.setattr(store, "STEPS", 1000)
    with monkeypatch.context() as earlier:
        earlier.setattr(schema, "MIGRATIONS", schema.MIGRATIONS[:7])
        earlier.setattr(schema, "VERSION", 7)
        with closing(store.open_store(path, is_new=True)) as database, store.transaction(database):
            database.executemany("insert into daily values (?, '2026-01-31', 'volume', 'm3', 0, '1', 'instantaneous', 0, 0, 0, '')",
                                 [(str(number),) for number in range(20_000)])
    store.open_store(path).close()
    said = [record.getMessage() for record in caplog.records]
    steps_said = [it for it in said if "is brought to version" in it]
    assert steps_said == [f"{path}: the database is brought to version {schema.VERSION}: step {number} of {schema.VERSION - 7}"
                          for number in range(1, schema.VERSION - 6)]
    assert sum("the step goes on since" in it for it in said) > 10


def test_a_power_cut_behind_a_kill(house: House, tmp_path: Path) -> None:
    """What a service that was killed committed may stand in memory alone: the next one has all of it stand on the disk before it sends the
    downlinks that it finds there, so that no counter is free again after a power cut."""
    if not shutil.which("strace"):
        pytest.skip("strace isn't there")

    def commit() -> None:
        # (a commit whose sync didn't come any more)
        with closing(store.connect(house.config.database)) as database:
            database.execute("pragma synchronous = off")
            database.execute("insert into outbox (receiver, address, down, frame, command, made) values ('attic', ?, 1, '00', 1, ?)",
                             (house.meters[0].name, time.time()))
            os._exit(9)
    house.database.close()
    child = Child(tmp_path / "log", commit)
    until(lambda: not child.is_running())
    config = tmp_path / "config.toml"
    config.write_text(f'folder = "{house.config.folder}"\n[programs]\nsteps = "{TOP}/tests/reference/steps"\n'
                      f'[receivers.attic]\ncommand = "cat"\nformat = "hex"\ndownlinks = "{house.sent}"\n')
    trace = tmp_path / "trace"
    words = ["strace", "-f", "-y", "-e", "trace=fsync,fdatasync,openat", "-o", str(trace), sys.executable, "-m", "wmbus_service", "--config",
             str(config), "run"]
    with started(words, cwd=TOP / "service", stderr=subprocess.DEVNULL, start_new_session=True) as process:
        try:
            until(lambda: house.sent.exists() and house.sent.read_text() == "D 00\n")
        finally:
            os.killpg(process.pid, signal.SIGKILL)
    calls = trace.read_text().splitlines()
    sent = next(number for number, call in enumerate(calls) if f'"{house.sent}"' in call and "O_APPEND" in call)
    assert any("sync(" in call and "wmbus.db-wal>" in call for call in calls[:sent])


def test_retention_beside_lines(house: House) -> None:
    """What is kept no longer goes also where each session has lines, as in a house in which one always comes within the interval; more
    goes than comes."""
    meter = house.meters[0]
    house.spool("A 1 00\n" * 7000)
    house.hear(time.time() - 8 * DAY)
    served = Service(house.config, house.database)
    for _ in range(2):
        house.spool("A 1 00\n" * 2000 + house.whole(meter))
        assert served.turn() == 2001
    for _ in range(4):
        house.spool(house.whole(meter))
        assert served.turn() == 1
    assert len(house.all("select number from line")) == 2 * 2001 + 4


def test_retention_and_a_wrong_clock(house: House) -> None:
    """Readings that were made while the clock was wrong, as on a machine that has none of its own and finds no network at its start, take
    no others with them: those of before stay as long as they are kept."""
    meter = house.meters[0]
    for made in (NOW, NOW + DAY, 1000, NOW + 2 * DAY):
        house.spool(house.whole(meter))
        house.hear(made)
    while retention.let_go(house.database, Keep(), NOW + 3 * DAY):
        pass
    assert house.all("select counter from reading order by id") == [1, 2, 4]
    assert house.all("select day, value from daily") == [("1970-01-01", "3")]


def test_retention_and_a_clock_that_jumps(house: House, monkeypatch: pytest.MonkeyPatch, caplog: pytest.LogCaptureFixture) -> None:
    """A clock that is years ahead for an hour takes nothing with it, and one that isn't set neither; the log says so, and status. Where it
    stays there, what is kept no longer goes by a day further with each hour."""
    now = [NOW]
    monkeypatch.setattr("time.time", lambda: now[0])
    served, words = Service(house.config, house.database), "the clock of this machine went forward by"

    def kept(hours: float) -> list[int]:
        """Of which readings the payloads are there, where the service goes on for so long."""
        served.let_go_at, served.ages.looked = 0.0, served.ages.looked - hours * 3600
        served.turn()
        return house.all("select counter from reading where payload is not null order by id")
    for day in range(5):
        now[0] = NOW + day * DAY
        house.spool(house.whole(house.meters[0]))
        assert len(kept(24)) == day + 1 and words not in caplog.text
    with closing(os.fdopen(service.lock(house.config.folder))):
        for wrong, is_told in ((NOW + 5000 * DAY, True), (NOW + 5000 * DAY + 3600, True), (1000.0, False), (NOW + 4 * DAY + 7200, False)):
            now[0] = wrong
            assert kept(0.5) == [1, 2, 3, 4, 5] and len(house.all("select number from line")) == 5
            assert (words in status.status(house.config, False)) is is_told
    assert caplog.text.count(f"{words} 4995 days") == 1
    # (as after an upgrade, where nothing says yet when the clock was looked at last)
    now[0] = NOW + 5000 * DAY
    house.database.execute("delete from setting where name = 'ages'")
    Service(house.config, house.database).turn()
    assert len(house.all("select number from line")) == 5
    now[0] = NOW + 63 * DAY
    assert all(kept(1) == [1, 2, 3, 4, 5] for _ in range(55))
    assert [kept(1) for _ in range(5)] == [[2, 3, 4, 5], [3, 4, 5], [4, 5], [4, 5], [4, 5]]


def test_what_retention_costs(house: House) -> None:
    """To look for what is kept no longer costs no more the more is kept: a session waits for it, and so do all that write."""
    rows = [(number, number, "m", number, int(NOW), None, "00", None, 0, NOW + number) for number in range(1, 5001)]
    house.database.executemany("insert into reading values (?, ?, ?, ?, ?, ?, ?, ?, ?, ?)", rows)
    steps: list[None] = []
    for now in (NOW + 100 * DAY, NOW + 100 * DAY + 3600):
        while retention.let_go(house.database, Keep(), now):
            pass
        house.database.set_progress_handler(lambda: steps.append(None), 100)
        assert retention.let_go(house.database, Keep(), now) == 0
        house.database.set_progress_handler(None, 0)
    assert not house.all("select id from reading where payload is not null")
    assert len(steps) * 100 < 5000


def test_what_status_costs(house: House) -> None:
    """A meter's last reading is found in an index, and none of its others is read for it: a large house has millions."""
    address = house.meters[0].name
    rows = [(number, number, address, number, int(NOW), None, "00", None, 0, NOW) for number in range(1, 5001)]
    house.database.executemany("insert into reading values (?, ?, ?, ?, ?, ?, ?, ?, ?, ?)", rows)
    counted: list[None] = []
    house.database.set_progress_handler(lambda: counted.append(None), 100)
    assert status.meter(house.database, (address, "", None, 0, None), NOW)["counter"] == 5000
    house.database.set_progress_handler(None, 0)
    assert len(counted) * 100 < 10 * 5000


def test_what_lines_cost_that_stay(house: House) -> None:
    """The same is so of lines: where none or few of them go, those that stay aren't looked through."""
    rows = [(NOW + number,) for number in range(40_000)]
    with store.transaction(house.database):
        house.database.executemany("insert into line (receiver, text, made) values ('attic', 'A 1 00', ?)", rows)
    steps: list[None] = []
    for gone in (0, 10):
        house.database.set_progress_handler(lambda: steps.append(None), 100)
        assert retention.let_go(house.database, Keep(), NOW + 7 * DAY + gone) == gone
        house.database.set_progress_handler(None, 0)
    assert len(steps) * 100 < 40_000


def test_lines_and_a_wrong_clock(house: House) -> None:
    """Lines go in time also behind some that came while the clock was years ahead."""
    rows = [(NOW + 5000 * DAY,)] * 1500 + [(NOW + day * DAY,) for day in range(5) for _ in range(700)]
    with store.transaction(house.database):
        house.database.executemany("insert into line (receiver, text, made) values ('attic', 'A 1 00', ?)", rows)
    while retention.let_go(house.database, Keep(), NOW + 9 * DAY + 1):
        pass
    assert house.all("select count(*) from line") == [1500 + 2 * 700]


def test_payloads_and_a_wrong_clock(house: House) -> None:
    """Payloads go in time also where the clock was years ahead for a while, or where they are kept for less long than before."""
    for day in range(0, 60, 10):
        house.spool(house.whole(house.meters[0]))
        house.hear(NOW + day * DAY)
    house.spool(house.whole(house.meters[0]))
    house.hear(NOW + 5000 * DAY)
    assert retention.let_go(house.database, Keep(lines=0, payloads=4990, readings=0), NOW + 5000 * DAY) == 1
    for payloads, left in ((100, 6), (40, 5), (15, 2), (100, 2)):
        while retention.let_go(house.database, Keep(lines=0, payloads=payloads, readings=0), NOW + 60 * DAY):
            pass
        assert len(house.all("select id from reading where payload is not null")) == left


def test_lines_that_went(house: House) -> None:
    """Once all lines are let go, those that come later have later numbers, so that no reading has the line of another."""
    house.spool(house.whole(house.meters[0]))
    house.hear()
    retention.let_go(house.database, Keep(lines=1), NOW + 5 * DAY)
    house.spool(house.whole(house.meters[0]))
    house.hear(NOW + 5 * DAY)
    assert house.all("select line, counter from reading order by id") == [(1, 1), (2, 2)]


def test_receiver_and_its_limits(tmp_path: Path, monkeypatch: pytest.MonkeyPatch) -> None:
    """A feed that ends is started again into a new file; a full spool stops it, and it says so; it ends with all that it started."""
    use_stand_in(monkeypatch)
    with tempfile.TemporaryDirectory(dir=MEMORY) as place:
        folder = Path(place)
        line_feed = folder / "line_feed"
        line_feed.write_text("#!/bin/sh\nexec cat\n")
        line_feed.chmod(0o755)
        programs = Config(folder=folder).programs.__class__(line_feed=str(line_feed))
        config = Config(folder=folder / "wmbus", spool_bytes=60, programs=programs,
                        receivers={"attic": Receiver(command="echo a line; sleep 0.05", format="hex")})
        monkeypatch.setattr(receiving, "PAUSE", 0.01)
        monkeypatch.setattr(receiving, "LOOK", 0.05)
        child = Child(folder / "log", receiving.Receiving(config, "attic").run)
        try:
            until(lambda: "spool is full" in (folder / "log").read_text())
            files = sorted((folder / "wmbus/spool").iterdir())
            assert "".join(path.read_text() for path in files) == "a line\n" * 9
            files[0].unlink()
            until(lambda: (folder / "log").read_text().count("feed ended") == 10)
        finally:
            assert child.end(signal.SIGTERM) == 0


def test_a_full_spool_that_was_heard(house: House, tmp_path: Path, monkeypatch: pytest.MonkeyPatch) -> None:
    """Once sessions have taken what filled the spool the receiver goes on, also where a single file of its own filled it."""
    line_feed = tmp_path / "line_feed"
    line_feed.write_text("#!/bin/sh\nexec cat\n")
    line_feed.chmod(0o755)
    monkeypatch.setattr(receiving, "PAUSE", 0.01)
    monkeypatch.setattr(receiving, "LOOK", 0.05)
    config = replace(house.config, spool_bytes=60, programs=replace(house.config.programs, line_feed=str(line_feed)),
                     receivers={"attic": Receiver(command="seq 100 120", format="hex")})
    child = Child(tmp_path / "log", receiving.Receiving(config, "attic").run)
    try:
        for number in (1, 2):
            until(lambda: (tmp_path / "log").read_text().count("spool is full") == number, 10)
            house.hear()
    finally:
        assert child.end(signal.SIGTERM) == 0
    assert house.all("select text from line order by number")[:42] == [str(number) for number in range(100, 121)] * 2


def test_a_receiver_that_hears_nothing(house: House, tmp_path: Path, monkeypatch: pytest.MonkeyPatch) -> None:
    """A feed that ends at once, as where the stick isn't there, leaves no file behind, also while no service takes files away."""
    monkeypatch.setattr(receiving, "PAUSE", 0.01)
    config = replace(house.config, programs=replace(house.config.programs, line_feed="cat"),
                     receivers={"attic": Receiver(command="true", format="-")})
    child = Child(tmp_path / "log", receiving.Receiving(config, "attic").run)
    try:
        until(lambda: (tmp_path / "log").read_text().count("feed ended") == 5)
    finally:
        assert child.end(signal.SIGTERM) == 0
    assert len(list(house.config.spool.iterdir())) <= 1


def test_a_receiver_whose_line_feed_isnt_there(house: House) -> None:
    """Where line_feed can't be started, and systemd tries it again each five seconds, no file is left each time."""
    config = replace(house.config, programs=replace(house.config.programs, line_feed="/nonexistent/line_feed"),
                     receivers={"attic": Receiver(command="sleep 60", format="-")})
    for _ in range(3):
        with pytest.raises(Trouble, match="line_feed can't be started"):
            receiving.Receiving(config, "attic")._feed()
    assert not list(house.config.spool.iterdir())
