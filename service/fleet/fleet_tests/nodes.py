"""Three nodes of RabbitMQ by the configuration of docs/FLEET.md ("Three nodes"), each in a network namespace with an address and a name
of its own, the fleet's parts in others, and a bridge between them. All of it is within namespaces of one process, which go with it,
whatever happens: nothing of the machine's own network is touched, and nothing is left."""
from __future__ import annotations

import base64
import ctypes
import http.client
import json
import os
import random
import secrets
import shutil
import signal
import subprocess
import threading
import time
import urllib.request
from contextlib import suppress
from pathlib import Path
from typing import Any

from wmbus_fleet.config import Broker
from wmbus_fleet.own_servers import ERLANG, FOLDERS, RABBIT, missing

from .servers import Postgres, Server

COUNT, PATIENCE = 3, 240
COOKIE = ".erlang.cookie"
USER, MANAGEMENT = "wmbus", 15672
# of a node that is cut off, or stands still; of one that is just starting
NO_ANSWER = (OSError, http.client.HTTPException, ValueError)
DOCUMENT = Path(__file__).resolve().parents[3] / "docs/FLEET.md"
# a process with networks, mounts and processes of its own; with it all that it started ends
APART = ["unshare", "--net", "--mount", "--pid", "--fork", "--kill-child", "--mount-proc"]
HUB, NETWORK = "10.77.0.1", "10.77.0.0/24"
# where the fleet's parts are, by their kind
PLACES = {"gateway": "field", "intake": "intake", "sessions": "hall", "downlinks": "hall"}
NEW_NETWORK = 0x40000000


def lacking() -> str:
    """Why no trial can be had here, where that is so."""
    if os.geteuid():
        return "network namespaces are made by root alone"
    programs = [it for it in ("ip", "unshare", "nsenter", "mount", "hostname") if not shutil.which(it, path=FOLDERS)]
    if programs or missing():
        return f"{', '.join(programs + missing())} isn't there"
    tried = subprocess.run([*APART, "sh", "-c", "ip link add tried type bridge && ip link add one type veth peer name two"],
                           stdin=subprocess.DEVNULL, capture_output=True, text=True, env={"PATH": FOLDERS}, timeout=60, check=False)
    return f"network namespaces can't be made: {tried.stderr.strip()}" if tried.returncode else ""


def done(*words: str) -> str:
    """Runs a program of the system's; what it says."""
    told = subprocess.run(words, stdin=subprocess.DEVNULL, capture_output=True, text=True, env={"PATH": FOLDERS}, timeout=PATIENCE,
                          check=False)
    assert not told.returncode, f"{' '.join(words)}: {told.stdout} {told.stderr}"
    return told.stdout


def ip(words: str) -> None:
    """Changes the network."""
    done("ip", *words.split())


def enter(name: str) -> None:
    """Has this process, and all that it starts, be in a namespace."""
    opened = os.open(f"/run/netns/{name}", os.O_RDONLY | os.O_CLOEXEC)
    told = ctypes.CDLL(None, use_errno=True).setns(opened, NEW_NETWORK)
    os.close(opened)
    if told:
        raise OSError(ctypes.get_errno(), os.strerror(ctypes.get_errno()), name)


class Network:
    """Namespaces, each with an address and a link to a bridge, where PostgreSQL is."""

    def __init__(self, folder: Path) -> None:
        done("mount", "-t", "tmpfs", "tmpfs", "/run")
        ip("link set lo up")
        ip("link add hub type bridge")
        ip(f"address add {HUB}/24 dev hub")
        ip("link set hub up")
        self.addresses = {name: f"10.77.0.{number}" for number, name in enumerate([*NAMES, *sorted({*PLACES.values()})], 11)}
        for name, address in self.addresses.items():
            ip(f"netns add {name}")
            ip(f"link add {name} type veth peer name eth0 netns {name}")
            ip(f"link set {name} master hub up")
            ip(f"-n {name} link set lo up")
            ip(f"-n {name} address add {address}/24 dev eth0")
            ip(f"-n {name} link set eth0 up")
        hosts = folder / "hosts"
        hosts.write_text("127.0.0.1 localhost\n" + "".join(f"{self.addresses[name]} {name}\n" for name in NAMES), encoding="ascii")
        done("mount", "--bind", str(hosts), "/etc/hosts")

    def cut(self, name: str) -> None:
        """Pulls the cable, as it were."""
        ip(f"link set {name} down")

    def join(self, name: str) -> None:
        """Puts it in again."""
        ip(f"link set {name} up")

    def end(self) -> None:
        """Takes the namespaces away. (They would go with this process too.)"""
        done("umount", "/etc/hosts")
        for name in self.addresses:
            ip(f"netns delete {name}")
        ip("link delete hub")


class Node(Server):
    """One of the nodes, with the daemon by which its runtime is found, as on a machine of its own: the name, the ports and the files are
    those that RabbitMQ has of itself, but for the folders."""

    def __init__(self, folder: Path, name: str, cookie: str, password: str) -> None:
        super().__init__(folder / f"{name}.log")
        self.name, self.folder = name, folder / name
        self.folder.mkdir(mode=0o700)
        self.environment = {
            "PATH": FOLDERS, "HOME": str(self.folder), "RABBITMQ_MNESIA_BASE": str(self.folder / "mnesia"),
            "RABBITMQ_LOG_BASE": str(self.folder / "log"), "RABBITMQ_CONFIG_FILE": str(self.folder / "rabbitmq"),
            "RABBITMQ_ENABLED_PLUGINS_FILE": str(self.folder / "plugins"), "RABBITMQ_CONF_ENV_FILE": "/dev/null",
            "ERL_CRASH_DUMP": "/dev/null", "RABBITMQ_PID_FILE": str(self.folder / "pid"), "RABBITMQ_SERVER_ADDITIONAL_ERL_ARGS": ERLANG}
        documented = [line.strip() for line in DOCUMENT.read_text(encoding="utf-8").splitlines() if line.startswith("    cluster_")]
        assert len(documented) == COUNT + 2, documented
        settings = [*documented, f"default_user = {USER}", f"default_pass = {password}", "log.file.level = warning",
                    "disk_free_limit.absolute = 50MB"]
        (self.folder / "rabbitmq.conf").write_text("".join(f"{line}\n" for line in settings), encoding="ascii")
        (self.folder / "plugins").write_text("[rabbitmq_management].\n", encoding="ascii")
        path = self.folder / COOKIE
        path.write_text(cookie)
        path.chmod(0o400)
        self.authority = "Basic " + base64.b64encode(f"{USER}:{password}".encode()).decode()
        self.names = Server(folder / f"{name}.names.log")
        self.names.launch(self.inside("epmd"), {"PATH": FOLDERS})

    def inside(self, *words: str) -> list[str]:
        """The words that run a program on the node's machine, as it were."""
        return ["nsenter", f"--net=/run/netns/{self.name}", "unshare", "--uts", "sh", "-c", 'hostname "$0" && exec "$@"', self.name, *words]

    def begin(self) -> None:
        """Starts it."""
        self.launch(self.inside(str(RABBIT)), self.environment)

    def asked(self, what: str) -> list[dict[str, Any]]:
        """What its management says of queues or nodes."""
        request = urllib.request.Request(f"http://{self.name}:{MANAGEMENT}/api/{what}", headers={"Authorization": self.authority})
        with urllib.request.urlopen(request, timeout=10) as answer:
            told: list[dict[str, Any]] = json.load(answer)
        return told

    def sees_all(self) -> bool:
        """Whether it works, and sees all others work."""
        try:
            return sum(bool(it["running"]) for it in self.asked("nodes?columns=running")) == COUNT
        except NO_ANSWER:
            return False

    def end(self) -> None:
        """Ends both."""
        self.kill()
        self.names.kill()


NAMES = tuple(f"node{number}" for number in range(1, COUNT + 1))


class Nodes:
    """The three nodes in the place of one. The node that leads an area's queue is killed, and begun again; or it is cut off, and joined
    again."""

    def __init__(self, folder: Path, network: Network) -> None:
        self.network, self.changing = network, threading.Lock()
        cookie, password = secrets.token_hex(10).upper(), secrets.token_hex(24)
        self.password = folder / "broker.password"
        self.password.write_text(password)
        self.nodes: list[Node] = []
        try:
            for name in NAMES:
                self.nodes.append(Node(folder, name, cookie, password))
            self.log = self.nodes[0].log
            self.begin()
            self.wait()
        except BaseException:
            self.end()
            raise

    @property
    def told(self) -> Broker:
        """How they are reached."""
        return Broker(host=" ".join(NAMES), user=USER, password_file=str(self.password))

    def is_running(self) -> bool:
        """Whether all do."""
        with self.changing:
            return all(node.is_running() for node in self.nodes)

    def begin(self) -> None:
        """Starts those that don't run."""
        with self.changing:
            for node in self.nodes:
                if not node.is_running():
                    node.begin()

    def leader(self) -> Node:
        """A node that leads an area's queue."""
        limit = time.monotonic() + PATIENCE
        while True:
            with suppress(*NO_ANSWER):
                queues = random.choice(self.nodes).asked("queues?columns=name,leader")
                led = {it.get("leader") for it in queues if it["name"].startswith("area.")}
                if found := [node for node in self.nodes if f"rabbit@{node.name}" in led]:
                    return random.choice(found)
            assert time.monotonic() < limit, "no node says which one leads"
            time.sleep(0.5)

    def kill_leader(self) -> str:
        """Kills the leader's node, which is begun again; its name, once all are there again."""
        node = self.leader()
        with self.changing:
            node.kill()
            node.begin()
        self.wait()
        return node.name

    def cut_leader(self, seconds: float) -> str:
        """Cuts the leader's node off for so long; its name, once all are there again."""
        node = self.leader()
        self.network.cut(node.name)
        time.sleep(seconds)
        self.network.join(node.name)
        self.wait()
        return node.name

    def wait(self) -> None:
        """Waits until each node sees all."""
        limit = time.monotonic() + PATIENCE
        while not all(node.sees_all() for node in self.nodes):
            assert time.monotonic() < limit, "\n".join(node.log.read_text(errors="replace")[-1000:] for node in self.nodes)
            # (the daemon that knows a runtime's name may hold it for a moment)
            self.begin()
            time.sleep(0.5)

    def end(self) -> None:
        """Ends all of them."""
        for node in reversed(self.nodes):
            node.end()


class HubPostgres(Postgres):
    """A PostgreSQL that all namespaces reach."""

    def __init__(self, folder: Path) -> None:
        super().__init__(folder)
        with open(self.folder / "postgresql.conf", "a", encoding="ascii") as conf:
            conf.write(f"listen_addresses = '{HUB}'\n")
        with open(self.folder / "pg_hba.conf", "a", encoding="ascii") as rights:
            rights.write(f"host all all {NETWORK} trust\n")

    def words(self, name: str, user: str = "postgres") -> str:
        """How a database is reached."""
        return f"host={HUB} port={self.port} user={user} dbname={name}"


class NodesAndPostgres:
    """PostgreSQL and three nodes of RabbitMQ, in namespaces."""

    def __init__(self, folder: Path) -> None:
        folder.chmod(0o711)
        self.folder, self.network = folder, Network(folder)
        try:
            self.postgres = HubPostgres(folder)
            self.postgres.start()
            self.rabbit = Nodes(folder, self.network)
        except BaseException:
            self.end()
            raise

    def end(self) -> None:
        """Ends them, by their ids, and takes the namespaces away."""
        if hasattr(self, "rabbit"):
            self.rabbit.end()
        if hasattr(self, "postgres"):
            self.postgres.kill(signal.SIGINT)
        self.network.end()
