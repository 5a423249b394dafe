"""A RabbitMQ and a PostgreSQL of one's own, of Debian's packages: on loopback, on free ports, in a folder of their own, ended by their
ids."""
from __future__ import annotations

import importlib.util
import os
import random
import secrets
import shutil
import signal
import socket
import subprocess
import tempfile
import time
from collections.abc import Callable, Mapping
from contextlib import suppress
from dataclasses import dataclass
from pathlib import Path

import psycopg
from wmbus_service.memory_files import memory_files, path_of
from wmbus_service.trouble import Trouble

from . import broker, lifeline
from .config import Broker

RABBIT = Path("/usr/lib/rabbitmq/bin/rabbitmq-server")
POSTGRES = Path("/usr/lib/postgresql/15/bin")
PATIENCE = 120
ENDING = 20
# below those of connections (net.ipv4.ip_local_port_range)
PORTS = 16_384, 32_768
TRIES = 3
SAID_MOST = 3000
FOLDERS = "/usr/sbin:/usr/bin:/sbin:/bin"
# a runtime that doesn't spin while it has nothing to do
ERLANG = "+sbwt none +sbwtdcpu none +sbwtdio none +S 2:2"


def missing() -> list[str]:
    """Debian's packages that these servers want and that aren't there."""
    found = [package for module, package in (("pika", "python3-pika"), ("psycopg", "python3-psycopg"))
             if importlib.util.find_spec(module) is None]
    found += [] if RABBIT.exists() and shutil.which("epmd", path=FOLDERS) else ["rabbitmq-server"]
    return found + ([] if (POSTGRES / "postgres").exists() else ["postgresql"])


def free_port() -> int:
    """A port that nobody listens at; none of those that the system gives to whoever connects."""
    while True:
        port = random.randrange(*PORTS)
        with socket.socket() as tried, suppress(OSError):
            tried.bind(("127.0.0.1", port))
            return port


def until(is_done: Callable[[], object], server: Server) -> None:
    """Waits until a server does its work."""
    limit = time.monotonic() + PATIENCE
    while True:
        with suppress(psycopg.Error, *broker.FAULTS):
            if is_done():
                return
        if time.monotonic() > limit or not server.is_running():
            raise slow(server.log)
        time.sleep(0.1)


def slow(log: Path) -> Trouble:
    """A server that doesn't come up."""
    return Trouble(log.stem, "it ended, or doesn't answer", log.read_text(encoding="utf-8", errors="replace")[-SAID_MOST:])


def _listens(port: int) -> bool:
    """Whether something listens at a port."""
    with socket.socket() as tried:
        return tried.connect_ex(("127.0.0.1", port)) == 0


class Server:
    """A server's process, with all that it starts."""

    def __init__(self, log: Path) -> None:
        self.log = log
        self.process: subprocess.Popen[bytes] | None = None

    def launch(self, words: list[str], environment: Mapping[str, str] | None = None, user: str | None = None, first: str = "KILL") -> None:
        """Starts the process, in a group of its own, which ends with this process, however that ends."""
        # (what is left of one that ended goes)
        self.kill()
        self.process = lifeline.started(words, self.log, environment, user, first)

    def is_running(self) -> bool:
        """Whether it hasn't ended."""
        return self.process is not None and self.process.poll() is None

    def kill(self, number: int = signal.SIGKILL) -> None:
        """Ends it by a signal; what it started is killed."""
        if self.process:
            self.process.send_signal(number)
            try:
                self.process.wait(ENDING)
            except subprocess.TimeoutExpired:
                self.process.kill()
                self.process.wait()
            lifeline.put_down(self.process)
            self.process = None


class Postgres(Server):
    """A PostgreSQL, each database of which is made anew by its name."""

    def __init__(self, folder: Path) -> None:
        super().__init__(folder / "postgres.log")
        self.folder, self.port = folder / "postgres", free_port()
        self.user, self.password = None if os.geteuid() else "postgres", secrets.token_hex(16)
        self.folder.mkdir(mode=0o700)
        if self.user:
            shutil.chown(self.folder, self.user)
        self._make_files()
        with open(self.folder / "postgresql.conf", "a", encoding="ascii") as conf:
            conf.write(f"listen_addresses = '127.0.0.1'\nport = {self.port}\nunix_socket_directories = ''\nshared_buffers = 64MB\n")

    def _make_files(self) -> None:
        """Makes its files. (Its superuser has programs started in its user's name, and so no other user of the machine gets in.)"""
        words = [str(POSTGRES / "initdb"), "-D", str(self.folder), "-A", "scram-sha-256", "-U", "postgres", "-E", "UTF8", "--locale=C", "-N"]
        with memory_files([self.password.encode()]) as opened:
            made = subprocess.run([*words, f"--pwfile={path_of(opened[0])}"], stdin=subprocess.DEVNULL, capture_output=True, text=True,
                                  pass_fds=opened, user=self.user, check=False, cwd="/")
        if made.returncode:
            raise Trouble("initdb", made.stderr.strip()[-SAID_MOST:])

    def start(self) -> None:
        """Starts it, and waits until it answers."""
        limit = time.monotonic() + PATIENCE
        while True:
            # (after a kill what it had started ends a moment later, and it doesn't begin before)
            self.launch([str(POSTGRES / "postgres"), "-D", str(self.folder)], {"PATH": "/usr/bin:/bin"}, self.user, "INT")
            while self.process and self.process.poll() is None:
                with suppress(psycopg.Error), psycopg.connect(self.words("postgres"), connect_timeout=2):
                    return
                time.sleep(0.05)
            if time.monotonic() > limit:
                raise slow(self.log)
            time.sleep(0.2)

    def words(self, name: str, user: str = "postgres") -> str:
        """How a database is reached."""
        return f"host=127.0.0.1 port={self.port} user={user} password={self.password} dbname={name}"

    def make(self, name: str) -> str:
        """Makes a database."""
        with psycopg.connect(self.words("postgres"), autocommit=True) as database:
            database.execute(f"create database {name}")
        return self.words(name)


@dataclass(frozen=True)
class Secured:
    """The files of a server's certificate, all in PEM."""

    authority: Path
    certificate: Path
    key: Path


class Rabbit(Server):
    """A RabbitMQ with its management plugin, and the daemon by which its runtime is found; with TLS beside it where there are files."""

    def __init__(self, folder: Path, secured: Secured | None = None) -> None:
        super().__init__(folder / "rabbit.log")
        self.folder = Path(tempfile.mkdtemp(prefix="rabbit-", dir=folder))
        self.port, self.management, self.tls_port = free_port(), free_port(), free_port()
        self.secured = secured
        names = free_port()
        self.environment = {
            "PATH": FOLDERS, "HOME": str(self.folder), "RABBITMQ_NODENAME": "wmbus@localhost",
            "RABBITMQ_MNESIA_BASE": str(self.folder / "mnesia"), "RABBITMQ_LOG_BASE": str(self.folder / "log"),
            "RABBITMQ_CONFIG_FILE": str(self.folder / "rabbitmq"), "RABBITMQ_ENABLED_PLUGINS_FILE": str(self.folder / "plugins"),
            "RABBITMQ_CONF_ENV_FILE": "/dev/null", "RABBITMQ_DIST_PORT": str(free_port()), "ERL_EPMD_PORT": str(names),
            "ERL_EPMD_ADDRESS": "127.0.0.1", "ERL_FLAGS": "-start_epmd false", "ERL_CRASH_DUMP": "/dev/null",
            "RABBITMQ_PID_FILE": str(self.folder / "pid"),
            "RABBITMQ_SERVER_ADDITIONAL_ERL_ARGS": f"-kernel inet_dist_use_interface {{127,0,0,1}} {ERLANG}"}
        (self.folder / "rabbitmq.conf").write_text("".join(f"{line}\n" for line in self._settings()), encoding="ascii")
        (self.folder / "plugins").write_text("[rabbitmq_management].\n", encoding="ascii")
        self.names = Server(folder / "epmd.log")
        self.names.launch(["epmd", "-port", str(names), "-address", "127.0.0.1"], {"PATH": FOLDERS})
        # (the runtime starts none of itself, which would outlive it)
        until(lambda: _listens(names), self.names)

    def _settings(self) -> list[str]:
        """Its configuration."""
        lines = [f"listeners.tcp.1 = 127.0.0.1:{self.port}", "log.file.level = warning", "disk_free_limit.absolute = 50MB",
                 "management.tcp.ip = 127.0.0.1", f"management.tcp.port = {self.management}"]
        if self.secured:
            lines += [f"listeners.ssl.1 = 127.0.0.1:{self.tls_port}", f"ssl_options.cacertfile = {self.secured.authority}",
                      f"ssl_options.certfile = {self.secured.certificate}", f"ssl_options.keyfile = {self.secured.key}",
                      "ssl_options.verify = verify_none", "ssl_options.versions.1 = tlsv1.3", "ssl_options.versions.2 = tlsv1.2"]
        return lines

    @property
    def told(self) -> Broker:
        """How it is reached, by who administers it."""
        return Broker(port=self.port, management=f"http://127.0.0.1:{self.management}")

    def begin(self) -> None:
        """Starts it."""
        self.launch([str(RABBIT)], self.environment)

    def wait(self) -> None:
        """Waits until it answers."""
        until(self._answers, self)

    def _answers(self) -> bool:
        with broker.connected(self.told):
            return _listens(self.management)

    def end(self) -> None:
        """Ends both."""
        self.kill()
        self.names.kill()


class Both:
    """Both servers, in a folder."""

    def __init__(self, folder: Path, secured: Secured | None = None) -> None:
        self.folder = folder
        # (PostgreSQL never runs as root, and has its own folder in this one)
        self.folder.chmod(0o711)
        self.rabbit = Rabbit(folder, secured)
        try:
            self.rabbit.begin()
            self.postgres = Postgres(folder)
            self.postgres.start()
            self._wait(secured)
        except BaseException:
            self.stop()
            raise

    def _wait(self, secured: Secured | None) -> None:
        """Waits for the broker; one that found a port taken meanwhile is begun anew with others."""
        for left in reversed(range(TRIES)):
            try:
                self.rabbit.wait()
                return
            except Trouble:
                if not left:
                    raise
                self.rabbit.end()
                self.rabbit = Rabbit(self.folder, secured)
                self.rabbit.begin()

    def stop(self) -> None:
        """Ends them."""
        if hasattr(self, "postgres"):
            self.postgres.kill(signal.SIGINT)
        self.rabbit.end()
