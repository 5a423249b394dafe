"""Servers for tests, on loopback, in folders of their own, and ended by their ids; and the packages of Debian that they need."""
from __future__ import annotations

import importlib.util
import os
import shutil
import socket
import subprocess
import threading
from contextlib import suppress
from pathlib import Path

from .processes import PATIENCE, put_down, until
from .processes import free_port as free_port

END = "the/listener/hears/all"
PACKAGES = {"paho.mqtt": "python3-paho-mqtt", "prometheus_client": "python3-prometheus-client", "cryptography": "python3-cryptography"}


def missing() -> list[str]:
    """Debian's packages that the tests want and that aren't there."""
    found = [package for module, package in PACKAGES.items() if not _is_there(module)]
    return found + ([] if mosquitto() else ["mosquitto"])


def _is_there(module: str) -> bool:
    try:
        return importlib.util.find_spec(module) is not None
    except ModuleNotFoundError:
        return False


def mosquitto() -> str | None:
    """The broker's program."""
    return shutil.which("mosquitto", path=f"{os.environ.get('PATH', '')}:/usr/sbin")


class Mosquitto:
    """A broker that keeps what it has acknowledged."""

    def __init__(self, folder: Path, extra: str = "") -> None:
        self.folder = folder
        folder.mkdir()
        self.process: subprocess.Popen[bytes] | None = None
        for tries in range(3):
            self.port = free_port()
            self._configure(extra)
            try:
                self.start()
                break
            except AssertionError:
                # (another may have taken the port meanwhile)
                if tries == 2:
                    raise

    def _configure(self, extra: str) -> None:
        folder = self.folder
        text = f"listener {self.port} 127.0.0.1\npersistence true\npersistence_location {folder}/\n"
        text += "max_queued_messages 0\nmax_inflight_messages 0\nset_tcp_nodelay true\n"
        (folder / "conf").write_text(text + (extra or "allow_anonymous true\n") + ("user root\n" if os.geteuid() == 0 else ""))

    def start(self) -> None:
        """Starts it, and waits until it listens."""
        program = mosquitto()
        assert program
        with open(self.folder / "log", "ab") as log:
            self.process = subprocess.Popen([program, "-c", str(self.folder / "conf")], stdout=log, stderr=log)
        try:
            until(lambda: self._listens() or self._is_gone())
            assert not self._is_gone()
        except AssertionError:
            put_down(self.process)
            raise AssertionError((self.folder / "log").read_text()) from None

    def _is_gone(self) -> bool:
        return self.process is None or self.process.poll() is not None

    def _listens(self) -> bool:
        with socket.socket() as tried:
            return tried.connect_ex(("127.0.0.1", self.port)) == 0

    def end(self, is_killed: bool = False) -> None:
        """Ends it; what it holds stands in its folder, unless it is killed."""
        if self.process:
            self.process.kill() if is_killed else self.process.terminate()
            with suppress(subprocess.TimeoutExpired):
                self.process.wait(PATIENCE)
            put_down(self.process)
            self.process = None


class Listener:
    """A client that keeps all that is published, and that the broker keeps it for while it isn't there."""

    def __init__(self, port: int, topics: list[str], user: str = "") -> None:
        import paho.mqtt.client as mqtt
        self.heard: list[tuple[str, str, bool]] = []
        self.ends, subscribed = 0, threading.Event()
        self.client = mqtt.Client(client_id=f"listener{user}", clean_session=False)
        if user:
            self.client.username_pw_set(user, "secret")
        self.client.on_connect = lambda client, *_: client.subscribe([(topic, 1) for topic in [*topics, END]])
        self.client.on_subscribe = lambda *_: subscribed.set()
        self.client.on_message = lambda _client, _data, message: self.heard.append((message.topic, message.payload.decode(),
                                                                                    bool(message.retain)))
        self.client.reconnect_delay_set(1, 1)
        self.client.connect("127.0.0.1", port)
        self.client.loop_start()
        assert subscribed.wait(PATIENCE), "the broker doesn't answer"

    def hear_all(self) -> None:
        """Waits for all that the broker has taken by now: what comes to a client comes in its order."""
        self.ends += 1
        self.client.publish(END, str(self.ends), qos=1)
        until(lambda: any(topic == END and text == str(self.ends) for topic, text, _ in self.heard))

    def end(self) -> None:
        """Ends it."""
        self.client.disconnect()
        self.client.loop_stop()
