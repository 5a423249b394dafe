"""The configuration, a file in TOML (docs/SERVICE.md, "The configuration")."""
from __future__ import annotations

import dataclasses
import re
import shlex
import subprocess
import tomllib
import types
import typing
from collections.abc import Iterator
from dataclasses import dataclass, field
from functools import cache
from pathlib import Path
from typing import Any

from .trouble import Trouble

NAME = re.compile(r"[a-z0-9_-]{1,64}")
# where the package stands: /usr/lib/wmbus where it is installed, else service/ of the repository
HERE = Path(__file__).resolve().parent.parent
HELP_SECONDS = 10


def program(name: str) -> str:
    """A program beside the package, where it is installed, else as the repository starts it."""
    installed = HERE / name
    return str(installed if installed.exists() else HERE.parent / "bin" / name)


STAND_IN = "tests/reference/steps"
LACKING = "no `wmbus` that is installed or built for these sources has the command `steps`"


@cache
def steps_program() -> str:
    """What tells a session step by step: the proved `wmbus steps`, where a `wmbus` that is installed or built has that command, else, in the
    repository, the second implementation in Python, which isn't proved and isn't installed."""
    for wmbus in _ready_programs("wmbus"):
        if has_steps(wmbus):
            return f"{shlex.quote(wmbus)} steps"
    return str(HERE.parent / STAND_IN)


def _ready_programs(name: str) -> Iterator[str]:
    """Where a program may stand that can be started at once: beside the package, or ready in the repository, where nothing is built."""
    if (HERE / name).exists():
        yield str(HERE / name)
    elif (start := HERE.parent / "bin/start").exists():
        yield from subprocess.run([start, "--ready", name], capture_output=True, text=True, check=False).stdout.splitlines()


def has_steps(wmbus: str) -> bool:
    """Whether this `wmbus` names the command `steps` in its help."""
    try:
        told = subprocess.run([wmbus, "--help"], capture_output=True, text=True, timeout=HELP_SECONDS, check=False)
    except (OSError, subprocess.TimeoutExpired):
        return False
    return told.returncode == 0 and re.search(r"\bwmbus steps\b", told.stdout) is not None


def unproved_words(steps: str) -> str:
    """What is to be known where the second implementation tells the sessions; nothing where the proved program does."""
    if not any(word.endswith(STAND_IN) for word in shlex.split(steps)[:1]):
        return ""
    return f"{steps} tells the sessions, a second implementation in Python that isn't proved: {LACKING}"


@dataclass(frozen=True)
class Programs:
    """The programs that the service starts, each with its first words."""

    steps: str = field(default_factory=steps_program)
    line_feed: str = field(default_factory=lambda: program("line_feed"))
    meter_name: str = field(default_factory=lambda: program("meter_name"))
    # merges receivers by moment; without it the service does so itself
    line_merge: str = ""
    # raises downlink counters in a state; without it `restore` does so itself
    state_raise: str = ""


@dataclass(frozen=True)
class Receiver:
    """A radio: what prints its telegrams, in which format of line_feed, and the file or pipe from which it sends."""

    profile: str = ""
    command: str = ""
    format: str = ""
    device: str = ""
    host: str = ""
    port: int = 0
    file: str = ""
    downlinks: str = ""


@dataclass(frozen=True)
class Ticks:
    """After how many seconds a window is closed, and fragments that wait for others grow older."""

    window: float = 30.0
    fragments: float = 60.0


@dataclass(frozen=True)
class Mqtt:
    """The broker, and under which topics readings and commands stand there."""

    host: str = "127.0.0.1"
    port: int = 1883
    user: str = ""
    password_file: str = ""
    tls: bool = False
    authority: str = ""
    client: str = "wmbus"
    topic: str = "wmbus"
    discovery: str = "homeassistant"
    # whether commands to meters come by MQTT: who may publish there may send them
    commands: bool = False
    # so many messages all wait for a broker that is away; of those before the last of each topic; 0 has all wait
    waiting: int = 100_000


@dataclass(frozen=True)
class Metrics:
    """Where the metrics are to be had over HTTP."""

    host: str = "127.0.0.1"
    port: int = 9101


@dataclass(frozen=True)
class Page:
    """Where the page is to be had; elsewhere than on this machine it needs a token's file, a certificate and its key."""

    host: str = "127.0.0.1"
    port: int = 9102
    token_file: str = ""
    certificate: str = ""
    key: str = ""


@dataclass(frozen=True)
class Keep:
    """For how many days something is kept; 0 keeps it for ever."""

    lines: int = 7
    payloads: int = 60
    readings: int = 400


@dataclass(frozen=True)
class Config:
    """All that a configuration says."""

    folder: Path
    roster: str = ""
    interval: float = 2.0
    # a downlink that is older than so many seconds isn't sent any more: its meter has long ceased to listen
    downlink_seconds: float = 60.0
    spool_bytes: int = 1 << 30
    programs: Programs = field(default_factory=Programs)
    receivers: dict[str, Receiver] = field(default_factory=dict)
    ticks: Ticks = field(default_factory=Ticks)
    mqtt: Mqtt | None = None
    metrics: Metrics | None = None
    page: Page | None = None
    keep: Keep = field(default_factory=Keep)

    @property
    def database(self) -> Path:
        """The file of the database."""
        return self.folder / "wmbus.db"

    @property
    def spool(self) -> Path:
        """The folder of the receivers' lines."""
        return self.folder / "spool"


def words_of(command: str) -> list[str]:
    """A command's words, as a shell takes them apart."""
    return shlex.split(command)


def read_config(path: Path) -> Config:
    """The configuration of a file."""
    config = read_settings(path, Config, "docs/SERVICE.md")
    assert isinstance(config, Config)
    look_at_programs(path, config.programs)
    if not config.spool_bytes:
        raise Trouble(path, "spool_bytes is 0, and no receiver would hear anything", "leave it out, or name more")
    return config


def look_at_programs(path: Path, programs: Any) -> None:
    """Programs whose words are none."""
    for known in dataclasses.fields(programs):
        command = getattr(programs, known.name)
        try:
            is_empty = not words_of(command)
        except ValueError as fault:
            raise Trouble(path, f"programs.{known.name} isn't a command: {fault}", "look at its quotes") from None
        if is_empty and (command or known.default is dataclasses.MISSING):
            raise Trouble(path, f"programs.{known.name} is empty",
                          "leave it out: the program that is installed does its work then, or the service itself")


def read_settings(path: Path, wanted: Any, document: str) -> object:
    """The settings of a file, which the document describes, as a value of the type that is wanted."""
    try:
        # (editors on Windows put a mark in front)
        told = tomllib.loads(path.read_text(encoding="utf-8-sig"))
    except OSError as fault:
        remedy = "start it with sudo, or as the service's user" if isinstance(fault, PermissionError) else "name it with --config"
        raise Trouble(path, f"the configuration can't be read: {fault.strerror}", remedy) from None
    except (tomllib.TOMLDecodeError, UnicodeDecodeError) as fault:
        raise Trouble(path, f"it is no TOML: {fault}", f"{document} has a whole example") from None
    try:
        return _value_of("", wanted, told)
    except _Faulty as fault:
        raise Trouble(path, str(fault), f"{document} names each setting") from None


class _Faulty(Exception):
    """A setting that isn't as it has to be."""


def _value_of(name: str, wanted: Any, told: object) -> object:
    """A setting as a value of the type that it has to have."""
    if isinstance(wanted, types.UnionType):
        return _value_of(name, typing.get_args(wanted)[0], told)
    if dataclasses.is_dataclass(wanted):
        return _table_of(name, wanted, told)
    if typing.get_origin(wanted) is dict:
        return _named_tables(name, typing.get_args(wanted)[1], told)
    if isinstance(told, str) and "\0" in told:
        raise _Faulty(f"{name} has a NUL, which stands in no path and no word")
    if wanted is Path and isinstance(told, str) and told.startswith("/"):
        return Path(told)
    if wanted is float and isinstance(told, (int, float)) and not isinstance(told, bool) and 0 < told < 10 ** 9:
        return float(told)
    # (of a greater port the system takes another one, without a word)
    most = 2 ** 16 - 1 if name.endswith("port") else 2 ** 62 - 1
    if wanted is int and isinstance(told, int) and not isinstance(told, bool) and 0 <= told <= most:
        return told
    if wanted in (str, bool) and isinstance(told, wanted):
        return told
    words = {Path: "a path from the root on", float: "a number above 0", int: f"a number from 0 to {most}", str: "a text",
             bool: "true or false"}
    raise _Faulty(f"{name} isn't {words[wanted]}")


def _table_of(name: str, wanted: Any, told: object) -> object:
    """A table of settings, of which none is unknown."""
    if not isinstance(told, dict):
        table = name.removesuffix(".")
        raise _Faulty(f"{table} isn't a table: write [{table}], and its settings below it")
    types_of = typing.get_type_hints(wanted)
    for key in told:
        if key not in types_of:
            raise _Faulty(f"{name}{key} is no setting")
    for known in dataclasses.fields(wanted):
        if known.name not in told and known.default is dataclasses.MISSING and known.default_factory is dataclasses.MISSING:
            raise _Faulty(f"{name}{known.name} is missing")
    return wanted(**{key: _value_of(f"{name}{key}" + _point(types_of[key]), types_of[key], value) for key, value in told.items()})


def _point(wanted: Any) -> str:
    """What stands between the name of a table and that of a setting in it."""
    first = typing.get_args(wanted)[0] if isinstance(wanted, types.UnionType) else wanted
    return "." if dataclasses.is_dataclass(first) or typing.get_origin(first) is dict else ""


def _named_tables(name: str, wanted: Any, told: object) -> dict[str, object]:
    """Tables under names that their owner chose."""
    for key, value in told.items() if isinstance(told, dict) else [("", told)]:
        if not isinstance(value, dict):
            raise _Faulty(f"{(name + key).removesuffix('.')} isn't a table, and each has one under its own name: write [{name}NAME], and its"
                          " settings below it")
        if not NAME.fullmatch(key):
            raise _Faulty(f"{name}{key}: a name has 1 to 64 of a-z, 0-9, _ and -")
    assert isinstance(told, dict)
    return {key: _value_of(f"{name}{key}.", wanted, value) for key, value in told.items()}
