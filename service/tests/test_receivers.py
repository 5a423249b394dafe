"""Receivers' profiles: a stick with culfw, a TCP port, a file, each through the proved line_feed into the spool; and systemd's units."""
from __future__ import annotations

import functools
import grp
import io
import json
import os
import pty
import re
import shutil
import signal
import socket
import subprocess
import sys
import threading
import time
import tty
from collections.abc import Callable
from contextlib import suppress
from pathlib import Path
from typing import Any

import pytest
from wmbus_service import receiving, recorded
from wmbus_service.checking import UNIT_GROUPS, look_at_downlinks, look_at_receiver, tried
from wmbus_service.config import Config, Programs, Receiver
from wmbus_service.receiving import PROFILES, Receiving, feed_of
from wmbus_service.store import prepare_folder
from wmbus_service.trouble import Trouble

from .kill import TOP, Child, program
from .processes import PATIENCE, run, started, until
from .test_operation import NOBODY, as_root

# a telegram of examples/gas.rx as each of them prints it
FRAME = (TOP / "examples" / "gas.rx").read_text().split()[2]


def telegram_of(frame: str) -> str:
    """The telegram of a frame of format A, without its CRCs."""
    from reference.frames import telegram_a
    return str(telegram_a(bytes.fromhex(frame)).hex())


class Heard:
    """A receiver over a folder, and what it spools."""

    def __init__(self, folder: Path, told: Receiver) -> None:
        self.config = Config(folder=folder / "wmbus", programs=Programs(line_feed=program("line_feed")), receivers={"attic": told})
        self.log = folder / "log"
        self.child = Child(self.log, Receiving(self.config, "attic").run)

    def text(self) -> str:
        """All that was spooled."""
        return "".join(path.read_text() for path in sorted(self.config.spool.glob("*.lines"))) if self.config.spool.exists() else ""

    def judge(self) -> None:
        """The telegram comes, once, as a receiver's line; then it ends with all that it started."""
        try:
            until(lambda: self.text().endswith("\n"))
            letter, moment, frame = self.text().split()
            assert letter == "A" and moment.isdecimal() and frame == FRAME
        finally:
            assert self.child.end(signal.SIGTERM) == 0, self.log.read_text()


def test_stick_with_culfw(tmp_path: Path) -> None:
    """The stick is set to wireless M-Bus, and its telegrams come."""
    pytest.importorskip("serial")
    ours, theirs = pty.openpty()
    tty.setraw(ours)
    os.set_blocking(ours, False)
    heard = Heard(tmp_path, Receiver(profile="cul", device=os.ttyname(theirs)))
    asked = b""

    def is_set() -> bool:
        nonlocal asked
        with suppress(BlockingIOError):
            asked += os.read(ours, 100)
        return b"brt\r\n" in asked
    try:
        until(is_set)
    except AssertionError:
        heard.child.end()
        raise
    os.write(ours, f"TMODE\r\nb{FRAME.upper()}8031\r\n".encode())
    heard.judge()


def test_a_stick_that_another_receiver_has(monkeypatch: pytest.MonkeyPatch, capsys: pytest.CaptureFixture[str]) -> None:
    """Of two who read a stick, as its unit and somebody who tries it, each would get a part of the telegrams: the second one says so, and
    takes nothing of what the stick says."""
    serial = pytest.importorskip("serial")
    from wmbus_service import culfw
    ours, theirs = pty.openpty()
    tty.setraw(ours)
    device = os.ttyname(theirs)
    with serial.Serial(device, culfw.SPEED, exclusive=True):
        def read(*_: object) -> bytes:
            raise OSError("it is read all the same")
        monkeypatch.setattr(serial.Serial, "read", read)
        assert culfw.main([device]) == 1
    said = capsys.readouterr().err
    assert device in said and "lock" in said and "all the same" not in said


class EndlessLine:
    """A port at which so much comes without an end of a line, until it is gone."""

    in_waiting = 1000

    def __init__(self, output: io.BytesIO, pieces: int) -> None:
        self.output, self.pieces, self.held = output, pieces, 0

    def __enter__(self) -> EndlessLine:
        return self

    def __exit__(self, *_: object) -> None:
        pass

    def write(self, _content: bytes) -> None:
        """What the stick is set to."""

    def flush(self) -> None:
        """The same."""

    def read(self, count: int) -> bytes:
        """The next piece."""
        self.held = count * (500 - self.pieces) - len(self.output.getvalue())
        self.pieces -= 1
        if not self.pieces:
            raise OSError("the port is gone")
        return bytes(count)


def test_stick_that_ends_no_line(monkeypatch: pytest.MonkeyPatch) -> None:
    """What comes without an end of a line, as from a stick of another speed, is passed on, and isn't gathered for ever."""
    serial = pytest.importorskip("serial")
    from wmbus_service import culfw
    output = io.BytesIO()
    port = EndlessLine(output, 500)
    monkeypatch.setattr(serial, "Serial", lambda *_, **__: port)
    monkeypatch.setattr("sys.stdout", io.TextIOWrapper(output))
    with pytest.raises(OSError):
        culfw.read("/dev/ttyACM0", "brt")
    assert port.held <= 4096


def test_tcp_port(tmp_path: Path) -> None:
    """What comes over a connection is taken."""
    with socket.create_server(("127.0.0.1", 0)) as server:
        server.settimeout(PATIENCE)
        heard = Heard(tmp_path, Receiver(profile="tcp", host="127.0.0.1", port=server.getsockname()[1], format="hex"))

        def serve() -> None:
            opened, _ = server.accept()
            opened.sendall(f"{telegram_of(FRAME)}\n".encode())
            opened.recv(1)
        threading.Thread(target=serve, daemon=True).start()
        heard.judge()


@pytest.mark.parametrize("words", [["radio..house", "1"], ["127.0.0.1", "70000"], ["a" * 64 + ".house", "1"]])
def test_place_that_can_be_none(words: list[str], capsys: pytest.CaptureFixture[str]) -> None:
    """A host or a port that can be none is named."""
    from wmbus_service import tcp
    assert tcp.main(words) == 1
    assert f"tcp: {':'.join(words)}: " in capsys.readouterr().err


def test_file(tmp_path: Path) -> None:
    """A file is heard once, however often its receiver is started, also where its lines were taken from the spool; with another content it
    is another one."""
    path = tmp_path / "recorded file"
    path.write_text(f"{telegram_of(FRAME)}\n")
    told = Receiver(profile="file", file=str(path), format="hex")
    Heard(tmp_path, told).judge()
    for is_taken in (False, True):
        for spooled in (tmp_path / "wmbus/spool").glob("*.lines") if is_taken else ():
            spooled.unlink()
        again = Heard(tmp_path, told)
        until(lambda heard=again, count=1 + is_taken: heard.log.read_text().count("was heard before") == count)  # type: ignore[misc]
        assert again.child.end(signal.SIGTERM) == 0 and again.text().count("\n") == (not is_taken)
    path.write_text(f"{telegram_of(FRAME)}\n" * 2)
    other = Heard(tmp_path, told)
    until(lambda: other.text().count("\n") == 2)
    assert other.child.end(signal.SIGTERM) == 0


@pytest.mark.parametrize("step", range(1, 8))
def test_a_file_whose_receiver_is_killed(tmp_path: Path, monkeypatch: pytest.MonkeyPatch, step: int) -> None:
    """At whatever step of its first start the receiver is killed: at the next its lines are in the spool once."""
    path, config = tmp_path / "recorded", Config(folder=tmp_path / "wmbus", programs=Programs(line_feed=program("line_feed")), receivers={
        "attic": Receiver(profile="file", file=str(tmp_path / "recorded"), format="hex")})
    path.write_text(f"{telegram_of(FRAME)}\n" * 3)
    prepare_folder(config.folder)
    left = [step]

    def dies(inner: Callable[..., Any]) -> Callable[..., Any]:
        def work(*given: Any, **named: Any) -> Any:
            left[0] -= 1
            if not left[0]:
                os._exit(9)
            return inner(*given, **named)
        return work
    with monkeypatch.context() as patches:
        for owner, name in ((recorded, "sync"), (recorded, "sync_names"), (Path, "rename"), (subprocess, "Popen"), (json, "dump")):
            patches.setattr(owner, name, dies(getattr(owner, name)))
        child = Child(tmp_path / "log", lambda: Receiving(config, "attic")._hear_recorded(path))
        until(lambda: not child.is_running())
        assert child.status == 9, (tmp_path / "log").read_text()
    Receiving(config, "attic")._hear_recorded(path)
    Receiving(config, "attic")._hear_recorded(path)
    lines = "".join(it.read_text() for it in config.spool.glob("*.lines"))
    assert lines.count(FRAME) == 3 == lines.count("\n")


def test_a_spool_file_that_is_deleted(tmp_path: Path) -> None:
    """A receiver whose file is deleted writes into a new one: what comes from then on is there, also the line of which a part had come."""
    os.mkfifo(tmp_path / "radio")
    heard = Heard(tmp_path, Receiver(command=f"cat {tmp_path}/radio", format="hex"))
    telegram = telegram_of(FRAME)
    try:
        with open(tmp_path / "radio", "w", encoding="ascii", buffering=1) as radio:
            for number in range(1, 4):
                radio.write(f"{telegram}\n{telegram[:20]}")
                radio.flush()
                until(lambda: heard.text().endswith(f"{FRAME}\n"))
                for path in heard.config.spool.glob("*.lines"):
                    path.unlink()
                until(lambda: len(list(heard.config.spool.glob("*.lines"))) == 1)
                assert not heard.text()
                radio.write(f"{telegram[20:]}\n")
                until(lambda: heard.text().endswith("\n"))
                assert heard.text().count(FRAME) == 1 == heard.text().count("\n"), number
                for path in heard.config.spool.glob("*.lines"):
                    path.unlink()
                until(lambda: len(list(heard.config.spool.glob("*.lines"))) == 1)
    finally:
        assert heard.child.end(signal.SIGTERM) == 0, heard.log.read_text()
    assert heard.log.read_text().count("begins another one") == 6


def test_a_spool_file_that_is_cut(tmp_path: Path) -> None:
    """A receiver whose file is cut, as by who wants room on the disk, writes into a new one: nobody reads what comes below its place."""
    os.mkfifo(tmp_path / "radio")
    heard = Heard(tmp_path, Receiver(command=f"cat {tmp_path}/radio", format="hex"))
    telegram = telegram_of(FRAME)
    try:
        with open(tmp_path / "radio", "w", encoding="ascii", buffering=1) as radio:
            radio.write(f"{telegram}\n")
            until(lambda: heard.text().endswith(f"{FRAME}\n"))
            (path,) = heard.config.spool.glob("*.lines")
            # (its size is looked at so often)
            time.sleep(receiving.PAUSE + 0.5)
            os.truncate(path, 0)
            until(lambda: "begins another one" in heard.log.read_text())
            radio.write(f"{telegram}\n")
            until(lambda: heard.text().endswith(f"{FRAME}\n"))
            assert not path.exists() or not path.stat().st_size
    finally:
        assert heard.child.end(signal.SIGTERM) == 0, heard.log.read_text()
    assert "its file of the spool was cut, and it begins another one" in heard.log.read_text()


def test_a_program_that_hangs(tmp_path: Path, monkeypatch: pytest.MonkeyPatch) -> None:
    """What a feed started ends with it, also a program that heeds no signal in a command of several, whose shell ends at once: it would
    hold the stick, and no later feed would have it."""
    monkeypatch.setattr(receiving, "GRACE", 0.5)
    (tmp_path / "line_feed").write_text(f"#!/bin/sh\nuntil [ -s {tmp_path}/hangs ]; do sleep 0.05; done\n")
    (tmp_path / "line_feed").chmod(0o755)
    command = f"sh -c 'trap \"\" TERM; echo $$ >{tmp_path}/hangs; exec sleep 60' | cat"
    told = Config(folder=tmp_path / "wmbus", programs=Programs(line_feed=str(tmp_path / "line_feed")),
                  receivers={"attic": Receiver(command=command, format="-")})
    (tmp_path / "wmbus/spool").mkdir(parents=True)
    Receiving(told, "attic")._feed()
    until(lambda: has_ended((tmp_path / "hangs").read_text()), 5)


def has_ended(pid: str) -> bool:
    """Whether a process runs no more."""
    with suppress(OSError):
        # (also what isn't reaped yet)
        return Path(f"/proc/{pid.strip()}/stat").read_text().split()[2] in "ZX"
    return True


@pytest.mark.parametrize("number", [signal.SIGTERM, signal.SIGINT, signal.SIGHUP])
def test_what_a_receiver_started_ends_with_it(tmp_path: Path, number: int) -> None:
    """However it is told to end, also as a terminal does that is closed (signal(7), SIGHUP): what goes on would hold the stick."""
    command = f"echo $$ >{tmp_path}/next; mv {tmp_path}/next {tmp_path}/radio; exec sleep 60"
    told = Config(folder=tmp_path / "wmbus", programs=Programs(line_feed="sh -c cat"),
                  receivers={"attic": Receiver(command=command, format="-")})

    def receive() -> None:
        # (the tests may be run by nohup)
        signal.signal(number, signal.SIG_DFL)
        Receiving(told, "attic").run()
    child = Child(tmp_path / "log", receive)
    until((tmp_path / "radio").exists)
    radio = (tmp_path / "radio").read_text()
    try:
        assert child.end(number) == 0
        assert has_ended(radio)
    finally:
        if not has_ended(radio):
            os.kill(int(radio), signal.SIGKILL)


def test_profiles() -> None:
    """Each profile has a command and a format that line_feed knows; what it lacks is named."""
    known = run([program("line_feed"), "--help"]).stdout
    for name in PROFILES:
        told = Receiver(profile=name, device="/dev/ttyUSB0", host="radio", port=1, file="/tmp/a b", format="hex")
        command, form = feed_of("attic", told)
        assert form in known and "{" not in command
        assert ("'/tmp/a b'" in command) == (name == "file")
    for told in (Receiver(), Receiver(command="cat"), Receiver(format="hex"), Receiver(profile="cul"),
                 Receiver(profile="tcp", host="radio", format="hex")):
        with pytest.raises(Trouble):
            feed_of("attic", told)


def test_programs_that_a_receiver_wants(tmp_path: Path, monkeypatch: pytest.MonkeyPatch) -> None:
    """`check` names each program of a receiver's command that isn't there, and none that is; also what is no command, and what a profile
    makes no use of, as a command beside it."""
    (tmp_path / "rtl_sdr").write_text("#!/bin/sh\n")
    (tmp_path / "rtl_sdr").chmod(0o755)
    monkeypatch.setenv("PATH", f"{tmp_path}:/usr/bin:/bin")
    for told, said in ((Receiver(profile="rtl_wmbus"), "the program rtl_wmbus isn't there"),
                       (Receiver(command="rtl_sdr | absent -x", format="hex"), "the program absent isn't there"),
                       (Receiver(command="cat 'a", format="hex"), "quotation"),
                       (Receiver(profile="file", file="/dev/null", command="rtl_sdr", format="hex"), "profile file takes no `command`"),
                       (Receiver(profile="rtl_433", device="/dev/null"), "profile rtl_433 takes no `device`"),
                       (Receiver(profile="cul", device="/dev/null", port=7), "profile cul takes no `port`")):
        with pytest.raises(Trouble, match=said):
            look_at_receiver("attic", told)
    (tmp_path / "rtl_wmbus").symlink_to(tmp_path / "rtl_sdr")
    look_at_receiver("attic", Receiver(profile="rtl_wmbus"))
    for command in ("TZ=UTC rtl_sdr", "exec rtl_sdr - 2>/dev/null", "while true; do rtl_sdr 2>&1 | env TZ=UTC rtl_wmbus; done",
                    "(rtl_sdr; rtl_wmbus) | cat", "rtl_sdr -d $(cat serial) -F '' a", "$RADIO -f 868M",
                    "rtl_sdr | cut -d '|' -f 2 | tr \\; ' '", "env -i rtl_sdr"):
        look_at_receiver("attic", Receiver(command=command, format="hex"))


@as_root
def test_a_stick_that_the_unit_may_read(tmp_path: Path) -> None:
    """`check`, which is done as the service's user, takes a stick that the receiver's unit may read by its groups, and no other one."""
    unit = (TOP / "service/systemd/wmbus-receiver@.service").read_text()
    assert set(UNIT_GROUPS) == set(unit.split("SupplementaryGroups=")[1].split("\n")[0].split())
    for path in (tmp_path.parent.parent, tmp_path.parent, tmp_path):
        path.chmod(0o755)
    stick = tmp_path / "ttyACM0"
    stick.touch()

    def look(is_right: bool) -> None:
        os.setgroups([])
        os.setgid(NOBODY)
        os.setuid(NOBODY)
        said = tried("receiver attic", lambda: look_at_receiver("attic", Receiver(profile="cul", device=str(stick)))).wrong
        assert ("can't be read" in said) is not is_right
    for group, rights, is_right in (("dialout", 0o660, True), ("dialout", 0o600, False), ("root", 0o660, False)):
        os.chown(stick, 0, grp.getgrnam(group).gr_gid)
        stick.chmod(rights)
        child = Child(tmp_path / "log", functools.partial(look, is_right))
        until(lambda: not child.is_running())  # noqa: B023
        assert child.status == 0, (tmp_path / "log").read_text()


def test_downlinks_that_the_unit_may_write(tmp_path: Path) -> None:
    """`check` takes a file or a pipe, and no device: the service's unit has none, and writes files in its folder alone (systemd.exec(5))."""
    unit = (TOP / "service/systemd/wmbus.service").read_text().splitlines()
    assert {"PrivateDevices=yes", "ProtectSystem=strict", "StateDirectory=wmbus"} <= {*unit}
    assert not [line for line in unit if line.startswith("ReadWritePaths=")]
    os.mkfifo(tmp_path / "pipe")
    (tmp_path / "file").touch()
    for path in (tmp_path / "pipe", tmp_path / "file", tmp_path / "later"):
        look_at_downlinks("attic", Receiver(downlinks=str(path)))
    for path in (Path("/dev/tty"), tmp_path):
        with pytest.raises(Trouble, match="is no file and no pipe"):
            look_at_downlinks("attic", Receiver(downlinks=str(path)))


def test_files_one_after_the_other(tmp_path: Path, monkeypatch: pytest.MonkeyPatch) -> None:
    """Where a file has become great enough the next one goes on behind the end of a line: the radio's program isn't started again for it,
    and each telegram comes once and whole."""
    monkeypatch.setattr(receiving, "MOST_BYTES", receiving.ROOM + 100_000)
    with open(TOP / "examples/receivers/rtl_433.txt", encoding="ascii") as file:
        told = json.loads(file.readline())
    count = 3 * receiving.MOST_BYTES // (len(FRAME) + 15)
    (tmp_path / "printed").write_text("".join(json.dumps(told | {"time": str(1_800_000_000 + number)}) + "\n" for number in range(count)))
    heard = Heard(tmp_path, Receiver(command=f"echo begun >>{tmp_path}/begun; cat {tmp_path}/printed; sleep 600", format="rtl_433"))
    try:
        until(lambda: heard.text().count("\n") >= count)
    finally:
        assert heard.child.end(signal.SIGTERM) == 0, heard.log.read_text()
    lines = [line.split(" ") for line in heard.text().splitlines()]
    assert [int(moment) for _, moment, _ in lines] == [1_800_000_000 + number for number in range(count)]
    assert {(letter, frame) for letter, _, frame in lines} == {(lines[0][0], lines[0][2])}
    sizes = [path.stat().st_size for path in sorted(heard.config.spool.iterdir())]
    assert len(sizes) > 2 and max(sizes) < receiving.MOST_BYTES and (tmp_path / "begun").read_text() == "begun\n"


def test_a_line_that_is_written_last(tmp_path: Path) -> None:
    """What line_feed writes while its receiver is told to end stays, also as the first line of its file."""
    line_feed = tmp_path / "line_feed"
    line_feed.write_text(f"#!/bin/sh\ntrap 'sleep 1; echo a line; exit' TERM\ntouch {tmp_path}/begun\nwhile sleep 0.1; do :; done\n")
    line_feed.chmod(0o755)
    config = Config(folder=tmp_path / "wmbus", programs=Programs(line_feed=str(line_feed)),
                    receivers={"attic": Receiver(command="sleep 600", format="hex")})
    child = Child(tmp_path / "log", Receiving(config, "attic").run)
    try:
        until((tmp_path / "begun").exists)
    finally:
        assert child.end(signal.SIGTERM) == 0, (tmp_path / "log").read_text()
    assert [path.read_text() for path in config.spool.iterdir()] == ["a line\n"]


def test_a_program_that_says_much(tmp_path: Path) -> None:
    """A radio's program that writes into its log without end fills no disk, and what it hears goes on; how much was left out is said."""
    telegram = telegram_of(FRAME)
    noisy = "i=0; while [ $i -lt 20000 ]; do echo noise $i >&2; i=$((i+1)); done"
    heard = Heard(tmp_path, Receiver(command=f"{noisy}; head -c 5000000 /dev/zero >&2; echo {telegram}; sleep 60", format="hex"))
    heard.judge()
    log = heard.log.read_text()
    assert "noise 0\n" in log and "noise 59\n" in log and "noise 60\n" not in log and len(log) < 100_000
    assert re.search(r"attic: 3\d{4} further lines of its program's log were left out", log), log[-2000:]


def test_two_writers_of_a_receiver(tmp_path: Path) -> None:
    """Each start has a file of its own, whose number is above all that are there."""
    numbers = []
    for _ in range(3):
        os.close(receiving.new_file(tmp_path, "attic"))
        os.close(receiving.new_file(tmp_path, "attic-2"))
        names = sorted(path.name for path in tmp_path.glob("attic.*"))
        numbers.append(names[-1].split(".")[1])
        (tmp_path / names[0]).unlink() if len(names) > 1 else None
    assert numbers == ["00000001", "00000002", "00000003"]


@pytest.mark.skipif(shutil.which("systemd-analyze") is None, reason="systemd-analyze isn't there")
def calls_of(group: str) -> set[str]:
    """The calls of a group of systemd's, with those of the groups in it."""
    words = [line.strip() for line in run(["systemd-analyze", "syscall-filter", group]).stdout.splitlines()[1:]]
    told = [it for it in words if it and not it.startswith("#")]
    return {it for it in told if it[0] != "@"}.union(*(calls_of(it) for it in told if it[0] == "@"))


@pytest.mark.parametrize("profile", ["command", "tcp", "file"])
def test_calls_of_a_receiver(tmp_path: Path, profile: str) -> None:
    """A receiver with all that it starts makes no call that its unit's filter refuses."""
    if not shutil.which("strace") or not shutil.which("systemd-analyze"):
        pytest.skip("strace or systemd-analyze isn't there")
    unit = (TOP / "service/systemd/wmbus-receiver@.service").read_text()
    assert "\nSystemCallFilter=@system-service\n" in unit and "\nSystemCallErrorNumber=EPERM\n" in unit
    telegram, trace, config = telegram_of(FRAME), tmp_path / "trace", tmp_path / "config.toml"
    (tmp_path / "recorded").write_text(f"{telegram}\n")
    with socket.create_server(("127.0.0.1", 0)) as server:
        def serve() -> None:
            with suppress(OSError):
                opened, _ = server.accept()
                opened.sendall(f"{telegram}\n".encode())
                opened.recv(1)
        threading.Thread(target=serve, daemon=True).start()
        words = {"command": f'command = "echo {telegram}; sleep 60"', "file": f'profile = "file"\nfile = "{tmp_path}/recorded"',
                 "tcp": f'profile = "tcp"\nhost = "127.0.0.1"\nport = {server.getsockname()[1]}'}[profile]
        config.write_text(f'folder = "{tmp_path}/wmbus"\n[programs]\nline_feed = "{program("line_feed")}"\n[receivers.attic]\n{words}\n'
                          'format = "hex"\n')
        with started(["strace", "-f", "-o", str(trace), sys.executable, "-m", "wmbus_service", "--config", str(config), "receive", "attic"],
                     cwd=TOP / "service", stderr=subprocess.DEVNULL) as process:
            until(lambda: any(it.stat().st_size for it in (tmp_path / "wmbus/spool").glob("*.lines")))
            # (strace passes none on)
            child = int(run(["pgrep", "-P", str(process.pid)]).stdout.split()[0])
            os.kill(child, signal.SIGTERM)
            until(lambda: process.poll() is not None)
    made = set(re.findall(r"^\d+ +([a-z0-9_]+)\(", trace.read_text(), re.MULTILINE))
    assert "execve" in made and made <= calls_of("@system-service"), made - calls_of("@system-service")


def test_units(tmp_path: Path) -> None:
    """systemd takes the units."""
    for path in (TOP / "service" / "systemd").iterdir():
        text = path.read_text().replace("/usr/bin/wmbus-service", "/bin/true").replace("User=wmbus", "User=root")
        (tmp_path / path.name).write_text(text)
    units = sorted(str(path) for path in tmp_path.glob("*.service"))
    done = run(["systemd-analyze", "verify", *units], check=False)
    assert (done.returncode, done.stderr) == (0, "")
