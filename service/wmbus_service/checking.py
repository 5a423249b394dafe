"""Whether all that a configuration names is there and can be used, in words."""
from __future__ import annotations

import grp
import os
import re
import shlex
import shutil
import sqlite3
import stat
import subprocess
import time
from collections.abc import Callable, Iterator
from contextlib import closing, suppress
from dataclasses import dataclass, replace
from datetime import timezone
from pathlib import Path

from . import begun, meters, service, store
from .config import Config, Metrics, Mqtt, Page, Receiver, unproved_words, words_of
from .local import is_local
from .receiving import PROFILES, feed_of
from .steps import ProgramFailed, output_of, run_steps, state_text
from .trouble import Trouble

LEAST_ROOM = 256 << 20
# a certificate that ends within so long is to be renewed
DAY, SOON = 86_400, 14 * 86_400
NOBODY = "0" * 16
# what stands in front of a part of a shell's command, and these signs as parts of a word, in quotes or behind a backslash
BETWEEN = set("|;&(")
QUOTED = re.compile(r"""'[^']*'|"(?:\\.|[^"\\])*"|\\.""", re.DOTALL)
HIDDEN = {ord(sign): 0xE000 + ord(sign) for sign in BETWEEN}
# those of wmbus-receiver@.service, by which it reads sticks
UNIT_GROUPS = ("plugdev", "dialout")
# what some profiles take of a receiver's settings
SETTINGS = ("command", "device", "host", "port", "file")


@dataclass(frozen=True)
class Finding:
    """Something that was looked at, and what is wrong with it."""

    name: str
    wrong: str = ""
    # what somebody should know of it, though it is right
    note: str = ""

    def __str__(self) -> str:
        told = f"wrong: {self.wrong}" if self.wrong else f"right: {self.name}"
        return f"{told}\nnote: {self.note}" if self.note else told


def check(config: Config) -> Iterator[Finding]:
    """Looks at everything, one after the other."""
    yield tried(f"folder {config.folder}", lambda: store.prepare_folder(config.folder))
    yield tried(f"room on the disk of {config.folder}", lambda: look_at_room(config.folder))
    for name, path in paths_of(config):
        if path and not path.startswith("/"):
            # (found from the folder in which somebody checks it, and not by the units, which begin in that of the root)
            yield tried(name, lambda name=name: refuse_path(name))  # type: ignore[misc]
    # (who may not look into the folder is told so of the folder, and of the rest what can be told)
    if os.path.exists(config.database) or os.path.exists(begun.mark_of(config.database)):
        yield tried(f"database {config.database}", lambda: look_at_database(config.database))
    found = tried(f"program {config.programs.steps}", lambda: look_at_steps(config))
    yield replace(found, note=unproved_words(config.programs.steps))
    programs = config.programs
    for command in filter(None, (programs.line_feed, programs.meter_name, programs.line_merge, programs.state_raise)):
        yield tried(f"program {command}", lambda command=command: look_at_program(command))  # type: ignore[misc]
    if config.roster:
        yield tried(f"roster {config.roster}", lambda: look_at_roster(config))
    yield tried("meters", lambda: look_at_meters(config))
    if not config.receivers:
        yield Finding("receivers", "receivers: there are none; docs/SERVICE.md has examples")
    for name, told in config.receivers.items():
        yield tried(f"receiver {name}", lambda name=name, told=told: look_at_feed(config, name, told))  # type: ignore[misc]
        yield tried(f"downlinks of {name}", lambda name=name, told=told: look_at_downlinks(name, told))  # type: ignore[misc]
    if config.mqtt:
        found = tried(f"MQTT broker {config.mqtt.host}:{config.mqtt.port}", lambda: look_at_broker(config, config.mqtt))
        yield replace(found, note=broker_words(config.mqtt))
    if config.metrics:
        yield tried(f"metrics {config.metrics.host}:{config.metrics.port}", lambda: look_at_metrics(config, config.metrics))
    if config.page:
        yield tried(f"page {config.page.host}:{config.page.port}", lambda: look_at_page(config.page))


def tried(name: str, look: Callable[[], object]) -> Finding:
    """Looks at something; what is wrong."""
    try:
        look()
    except (Trouble, OSError, ImportError, sqlite3.Error) as fault:
        told = store.trouble_of(name, fault) if isinstance(fault, sqlite3.Error) else fault
        return Finding(name, str(told) if isinstance(told, Trouble) else f"{name}: {told}")
    return Finding(name)


def paths_of(config: Config) -> Iterator[tuple[str, str]]:
    """The files that a configuration names beside its folder, each with its setting."""
    yield "roster", config.roster
    for name, told in config.receivers.items():
        yield from ((f"receivers.{name}.{word}", getattr(told, word)) for word in ("device", "file", "downlinks"))
    if config.mqtt:
        yield from (("mqtt.password_file", config.mqtt.password_file), ("mqtt.authority", config.mqtt.authority))
    if config.page:
        yield from ((f"page.{word}", getattr(config.page, word)) for word in ("token_file", "certificate", "key"))


def refuse_path(name: str) -> None:
    """A path that is another one wherever somebody stands."""
    raise Trouble(name, "it isn't a path from the root on, and the units look for it elsewhere than you do here", "write its whole path")


def look_at_room(folder: Path) -> None:
    """A disk that is nearly full."""
    free = shutil.disk_usage(folder).free
    if free < LEAST_ROOM:
        raise Trouble(folder, f"only {free >> 20} MiB are free", "make room, or name another folder")


def look_at_database(path: Path) -> None:
    """A database that can't be opened, or whose pages aren't what they have to be."""
    with closing(store.open_store(path)) as database:
        (said,) = database.execute("pragma quick_check(1)").fetchone()
        if said != "ok":
            raise Trouble(path, f"the database isn't whole: {said}", "put the last backup in its place: wmbus-service restore")


def look_at_certificate(path: str, now: float) -> None:
    """A certificate that has ended, or soon does. (It is named where it can't be read at all by who uses it.)"""
    from cryptography import x509
    try:
        certificate = x509.load_pem_x509_certificate(Path(path).read_bytes())
    except (OSError, ValueError):
        return
    begin, end = (it.replace(tzinfo=timezone.utc).timestamp() for it in (certificate.not_valid_before, certificate.not_valid_after))
    left = end - now
    # (one of a few days is renewed later)
    if left < min(SOON, (end - begin) / 3):
        ends = f"it ended {-left // DAY:.0f} days ago" if left < 0 else f"it ends in {left // DAY:.0f} days"
        raise Trouble(path, f"the certificate is of use no more: {ends}" if left < 0 else f"the certificate: {ends}", "have it renewed")


def look_at_key(path: str) -> None:
    """A key of TLS that others may read."""
    told = Path(path).stat()
    if told.st_mode & 0o027:
        raise Trouble(path, "others have rights on it, and whoever has it can be this page", f"chmod 640 {path}, or 600")


def look_at_program(command: str) -> None:
    """A program that isn't there."""
    word = words_of(command)[0]
    if shutil.which(word) is None:
        raise Trouble(word, "there is no such program", "name it in the configuration under [programs]")


def look_at_steps(config: Config) -> None:
    """The program of the sessions, over a state without meters."""
    try:
        run_steps(words_of(config.programs.steps), state_text(NOBODY, []), [])
    except ProgramFailed as failed:
        raise Trouble(config.programs.steps, f"the program doesn't do its work: {failed}",
                      "install its release that has `steps`") from None


def look_at_roster(config: Config) -> None:
    """A roster that the program doesn't take, or that is of another collector than the database."""
    text = meters.read_roster(Path(config.roster))
    for piece in meters.pieces_of(text):
        meters.judge_roster(words_of(config.programs.steps), piece, config.roster)
    if config.database.exists():
        with closing(store.open_store(config.database)) as database:
            meters.judge_own(database, meters.meters_in(text)[0], config.roster)


def look_at_meters(config: Config) -> None:
    """Without a meter nothing is read."""
    if config.roster:
        return
    count = 0
    if config.database.exists():
        with closing(store.open_store(config.database)) as database:
            count = meters.count(database)
    if not count:
        raise Trouble(config.database, "no meter is known", "`wmbus-service add` or `wmbus-service import` adds some, or name a `roster`")


def look_at_feed(config: Config, name: str, told: Receiver) -> None:
    """A receiver, and whether line_feed takes what it prints."""
    look_at_receiver(name, told)
    _, form = feed_of(name, told)
    try:
        output_of([*words_of(config.programs.line_feed), form], [])
    except ProgramFailed:
        raise Trouble(f"receivers.{name}.format", f"line_feed doesn't take the format {form}",
                      "docs/FORMATS.md, \"What radio receivers print\", has all formats") from None


def look_at_receiver(name: str, told: Receiver) -> None:
    """A radio's programs and its device."""
    command, _ = feed_of(name, told)
    unused = [word for word in SETTINGS if told.profile and getattr(told, word) and "{" + word + "}" not in PROFILES[told.profile][0]]
    if unused:
        raise Trouble(f"receivers.{name}", f"the profile {told.profile} takes no `{unused[0]}`",
                      "leave it out, or give a `command` with its `format` in place of the profile")
    try:
        programs = list(programs_in(command))
    except ValueError as fault:
        raise Trouble(f"receivers.{name}.command", f"it is none that a shell takes: {fault}", "look at its quotes") from None
    for program in programs:
        if subprocess.run(["/bin/sh", "-c", 'command -v "$1"', "sh", program], capture_output=True, check=False).returncode:
            raise Trouble(f"receivers.{name}", f"the program {program} isn't there",
                          "Debian doesn't have it: build it" if program == "rtl_wmbus" else f"apt-get install {program.replace('_', '-')}")
    for path in (told.device, told.file):
        if path and not may_read(Path(path)):
            raise Trouble(f"receivers.{name}", f"{path} isn't there, or can't be read by this user",
                          "plug it in, and add the user to the group of the device (dialout)")


def may_read(path: Path) -> bool:
    """Whether a receiver may read a device or a file: as this user, or as one of the groups that its unit gives it."""
    if os.access(path, os.R_OK):
        return True
    told = path.stat() if path.exists() else None
    return told is not None and bool(told.st_mode & stat.S_IRGRP) and told.st_gid in radio_groups()


def radio_groups() -> Iterator[int]:
    """The groups of wmbus-receiver@.service."""
    for name in UNIT_GROUPS:
        with suppress(KeyError):
            yield grp.getgrnam(name).gr_gid


def programs_in(command: str) -> Iterator[str]:
    """The programs, and words of the shell, with which the parts of a command begin, behind variables that are set for them."""
    words = shlex.shlex(QUOTED.sub(lambda it: it[0].translate(HIDDEN), command), posix=True, punctuation_chars=True)
    words.whitespace_split, words.commenters = True, ""
    begins = True
    for word in words:
        if word and set(word) <= BETWEEN:
            begins = True
        elif begins and word != "env" and "=" not in word:
            begins = False
            # (behind an option of env's own its word may stand)
            if "$" not in word and not word.startswith("-"):
                yield word.translate({hidden: sign for sign, hidden in HIDDEN.items()})


def look_at_downlinks(name: str, told: Receiver) -> None:
    """A radio that can't send."""
    if not told.downlinks:
        raise Trouble(f"receivers.{name}", "it can't send, and commands to meters that it hears expire",
                      "name `downlinks`, the file or pipe from which its radio sends")
    path = Path(told.downlinks)
    if path.exists() and not (path.is_file() or path.is_fifo()):
        raise Trouble(f"receivers.{name}.downlinks", f"{path} is no file and no pipe", "name one from which the radio's program reads")
    if not os.access(path if path.exists() else path.parent, os.W_OK):
        raise Trouble(f"receivers.{name}.downlinks", f"{path} can't be written by this user")


def look_at_broker(config: Config, told: Mqtt | None) -> None:
    """Whether the broker takes a connection."""
    from .broker import try_connection
    assert told
    if told.authority:
        look_at_certificate(told.authority, time.time())
    try_connection(told)


def broker_words(told: Mqtt) -> str:
    """What is to be known of a broker that can be used."""
    words = []
    if told.password_file and not told.tls and not is_local(told.host):
        words.append(f"the password goes in the clear to {told.host}, as all that is published: write tls = true under [mqtt]")
    if told.commands:
        words.append("who may publish under mqtt.topic sends commands to meters: docs/SERVICE.md has rights for the broker")
    return "; ".join(words)


def look_at_metrics(config: Config, told: Metrics | None) -> None:
    """Whether the metrics can be served, without which the service doesn't start."""
    from . import metrics
    assert told
    metrics.look_at_metrics(told, service.is_locked(config.folder))


def look_at_page(told: Page | None) -> None:
    """What the page needs: its packages, its token, and TLS where others reach it."""
    from .page import servers
    assert told
    servers().look_at_page(told)
    if told.certificate:
        serving = servers()
        serving.server_with_tls(None, told, serving.CertificateFiles(told))
        look_at_certificate(told.certificate, time.time())
        look_at_key(told.key or told.certificate)
