"""The configuration of the fleet, a file in TOML (docs/FLEET.md, "The configuration")."""
from __future__ import annotations

from dataclasses import dataclass, field
from pathlib import Path

import psycopg
from psycopg.conninfo import conninfo_to_dict
from wmbus_service import config as service
from wmbus_service.config import look_at_programs, program, read_settings, steps_program
from wmbus_service.trouble import Trouble


@dataclass(frozen=True)
class Programs:
    """The programs that the fleet starts, each with its first words."""

    steps: str = field(default_factory=steps_program)
    line_accept: str = field(default_factory=lambda: program("line_accept"))
    address_list: str = field(default_factory=lambda: program("address_list"))
    state_raise: str = field(default_factory=lambda: program("state_raise"))


@dataclass(frozen=True)
class Outside:
    """RabbitMQ as gateways reach it from their machines, and the file of the authority there."""

    host: str
    port: int = 5671
    tls: bool = True
    authority: str = ""


@dataclass(frozen=True)
class Broker:
    """RabbitMQ, and whom it knows this machine as."""

    # one node or several, with blanks between; each may have a port of its own behind a colon
    host: str = "127.0.0.1"
    port: int = 5672
    user: str = "guest"
    password_file: str = ""
    tls: bool = False
    authority: str = ""
    # where its management plugin is asked for users and queues
    management: str = ""
    outside: Outside | None = None

    def nodes(self) -> list[tuple[str, int]]:
        """The host and the port of each node."""
        told = [name.partition(":") for name in self.host.split()]
        if any(colon and not port.isdecimal() for _, colon, port in told):
            raise Trouble(f"broker.host {self.host}", "what stands behind a colon there is no port",
                          "write HOST:PORT; an address of IP version 6 needs a name, in DNS or /etc/hosts")
        return [(host, int(port) if port.isdecimal() else self.port) for host, _, port in told]

    def from_outside(self) -> Outside:
        """As gateways reach it, so far as that is known: what this machine finds on itself says nothing of other machines."""
        if self.outside:
            return self.outside
        if any(host == "localhost" or host.startswith("127.") for host, _ in self.nodes()):
            return Outside("")
        return Outside(self.host, self.port, self.tls, self.authority)


@dataclass(frozen=True)
class Ticks(service.Ticks):
    """After how many seconds a window is closed, and fragments that wait for others grow older. A downlink waits at its gateway for the
    meter's next uplink, so a window is open for longer than on one machine."""

    window: float = 900.0
    fragments: float = 900.0
    # so long a tick waits for a gateway that is cut off, and whose lines of before it would come behind it
    patience: float = 86_400.0


@dataclass(frozen=True)
class Gateway:
    """A gateway's agent: its name, its area, and the receiver of this machine's service whose lines it sends."""

    name: str
    area: str
    receiver: str
    service: str = "/etc/wmbus/config.toml"
    # lines of so many seconds go into one message, and an empty one goes out after so much silence
    interval: float = 2.0
    silence: float = 60.0
    # for how many days messages are kept, to be sent again; 0 keeps them for ever
    keep: int = 7


@dataclass(frozen=True)
class Page(service.Page):
    """Where the page is to be had."""

    port: int = 9103


@dataclass(frozen=True)
class Metrics(service.Metrics):
    """Where the metrics are to be had."""

    port: int = 9104


@dataclass(frozen=True)
class Keep:
    """For how many days something is kept; 0 keeps it for ever."""

    lines: int = 7
    readings: int = 0
    # those that are done, with their downlinks
    commands: int = 365


@dataclass(frozen=True)
class Config:
    """All that a configuration says."""

    # how PostgreSQL is reached, in libpq's words
    database: str = "dbname=wmbus"
    # seconds that an intake gathers messages for, and between two looks of sessions and the sender
    interval: float = 0.2
    broker: Broker = field(default_factory=Broker)
    programs: Programs = field(default_factory=Programs)
    ticks: Ticks = field(default_factory=Ticks)
    keep: Keep = field(default_factory=Keep)
    page: Page | None = None
    metrics: Metrics | None = None
    gateway: Gateway | None = None


def read_config(path: Path) -> Config:
    """The configuration of a file."""
    config = read_settings(path, Config, "docs/FLEET.md")
    assert isinstance(config, Config)
    look_at_programs(path, config.programs)
    try:
        conninfo_to_dict(config.database)
    except psycopg.Error:
        # (what libpq says of it has what it couldn't read, and so mostly a part of a password)
        raise Trouble(path, "database isn't in libpq's words",
                      "a value with blanks stands between ', and a sign that a URI can't have is % and two digits") from None
    return config
