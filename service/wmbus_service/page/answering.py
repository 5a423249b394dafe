"""Answers a page that is apart: by a user who can read the database, over a socket that the page's user may write to. What it may ask is in
page/questions.py, and no answer has a meter's key; a form is taken of a session that gave the token, which is judged here."""
from __future__ import annotations

import json
import logging
import os
import socket
import sqlite3
import threading
import time
from collections.abc import Callable
from contextlib import closing, suppress
from pathlib import Path
from typing import Any

from .. import store
from ..commands import KEY, joined
from ..config import Config, Page
from ..ending import Ending
from ..importing import ADDRESS
from ..local import is_local
from ..memory_files import leave_no_core
from ..meters import MODES, name_of
from ..service import notify
from ..trouble import Trouble
from .apart import LONGEST
from .certificates import CertificateFiles
from .house import HouseDoor
from .questions import QUESTIONS, Asked
from .serving import look_at_page
from .tokens import Guard, HasToWait

log = logging.getLogger("wmbus")

# so many questions are answered at once; one has so many seconds to come, and its answer as many to be taken
PLACES, SECONDS = 8, 5.0
Answer = tuple[str, Any]


class Answering:
    """What a page that is apart is told. Its words are judged as a stranger's are."""

    def __init__(self, config: Config, clock: Callable[[], float] = time.time) -> None:
        self.config, self.page, self.clock = config, config.page or Page(), clock
        self.is_elsewhere = not is_local(self.page.host)
        self.door, self.files = HouseDoor(config), CertificateFiles(self.page)
        self.guard = Guard(None)
        # what a page asks for itself, and what forms do
        self.of_page: dict[str, Callable[..., Any]] = {
            "settings": self._settings, "certificate": self._certificate, "certificate_seen": self._certificate_seen, "enter": self._enter}
        self.forms: dict[str, Callable[..., Any]] = {
            "put_command": self._put_command, "cancel_command": self._cancel_command, "add_meter": self._add_meter,
            "retire": lambda address: self.door.retire(_address(address), self.clock()),
            "bring_back": lambda address: self.door.bring_back(_address(address))}

    def answer(self, question: bytes) -> Answer:
        """What is said to a question: its answer, or why there is none."""
        name: object = ""
        try:
            name, word, words = json.loads(question)
            return "told", self._told(str(name), word, words)
        except PermissionError:
            return "refused", None
        except HasToWait:
            return "waits", None
        except Trouble as trouble:
            return "trouble", str(trouble)
        except sqlite3.Error as fault:
            return "fault", str(self.door.trouble_of(fault))
        except Exception as fault:
            # (what a page asks that isn't one of ours ends nothing)
            log.error("the page's question %.40r: %s", name, type(fault).__name__, exc_info=fault if name in QUESTIONS else None)
            return "unanswered", "the log of wmbus-door tells why"

    def _told(self, name: str, word: object, words: dict[str, Any]) -> Any:
        if name in self.of_page:
            return self.of_page[name](**words)
        is_in = self.guard.is_in(word, self.clock())
        if name == "is_in":
            return is_in
        if name == "leave":
            return self.guard.leave(word)
        if not is_in and (name in self.forms or self.is_elsewhere):
            raise PermissionError(name)
        if name in self.forms:
            return self.forms[name](**words)
        with closing(self.door.opened()) as database:
            return QUESTIONS[name](Asked(self.door, database, self.clock(), self.config), **words)

    def _settings(self) -> dict[str, Any]:
        """Where the page is to be served, and whether it has a token; an error where it would be open to others."""
        token = look_at_page(self.page)
        # (a database of an earlier version becomes one of this)
        store.open_store(self.config.database).close()
        if token != self.guard.token:
            self.guard = Guard(token)
        return {"host": self.page.host, "port": self.page.port, "certificate": self.page.certificate, "key": self.page.key,
                "has_token": token is not None}

    def _certificate(self) -> list[str]:
        with self.files.opened() as paths:
            try:
                return [Path(path).read_text("latin-1") for path in paths]
            except OSError as fault:
                raise Trouble("page.certificate", str(fault), "look at page.certificate and page.key") from None

    def _certificate_seen(self) -> object:
        try:
            return self.files.seen()
        except OSError as fault:
            raise Trouble("page.certificate", str(fault), "look at page.certificate and page.key") from None

    def _enter(self, token: str, address: str) -> str | None:
        return self.guard.enter(token, address[:64], self.clock())

    def _put_command(self, address: str, ident: str, payload: str) -> bool:
        return self.door.put_command(_address(address), ident, payload, self.clock())

    def _cancel_command(self, address: str, ident: str) -> str | None:
        return self.door.cancel_command(address, ident, self.clock())

    def _add_meter(self, address: str, mode: str, key: str, name: str) -> bool:
        if mode not in MODES or not KEY.fullmatch(joined(key)):
            raise Trouble("the meter", "its mode or its key can't be one")
        return self.door.add_meter(_address(address), mode, joined(key), name_of(name))


def _address(text: str) -> str:
    if not ADDRESS.fullmatch(text):
        raise Trouble("the meter", "an address has sixteen hexadecimal digits")
    return text


def run(config: Config, path: Path) -> None:
    """Answers at a socket, which those of its folder's group may write to, until SIGTERM or SIGINT."""
    ending = Ending()
    ending.heed_signals()
    os.umask(0o077)
    leave_no_core()
    with socket.socket(socket.AF_UNIX) as listening:
        listen_at(listening, path)
        notify("READY=1")
        log.info("the page is answered at %s", path)
        serve(ending, listening, Answering(config))
        path.unlink(missing_ok=True)
    log.info("ended")


def listen_at(listening: socket.socket, path: Path) -> None:
    """Makes the socket. What a process that was killed left of it goes."""
    try:
        with suppress(FileNotFoundError):
            if path.is_socket():
                path.unlink()
        listening.bind(str(path))
        path.chmod(0o660)
        listening.listen(socket.SOMAXCONN)
    except OSError as fault:
        raise Trouble(path, f"the page's socket can't be made: {fault.strerror or fault}",
                      "look at the rights of its folder, and whether another answers there") from None


def serve(ending: Ending, listening: socket.socket, answering: Answering) -> None:
    """Takes connections, each with one question, until the end."""
    places = threading.Semaphore(PLACES)
    while not ending.wait(watched=listening.fileno()):
        if not places.acquire(timeout=1.0):
            continue
        try:
            opened, _ = listening.accept()
        except OSError:
            places.release()
            continue
        threading.Thread(target=_serve_one, args=(opened, answering, places), daemon=True).start()


def _serve_one(opened: socket.socket, answering: Answering, places: threading.Semaphore) -> None:
    """One question and its answer."""
    try:
        with opened, suppress(OSError):
            opened.settimeout(SECONDS)
            question = question_of(opened)
            if question is not None:
                opened.sendall(json.dumps(answering.answer(question)).encode())
    finally:
        places.release()


def question_of(opened: socket.socket) -> bytes | None:
    """A question, which is a line; none where it doesn't come as a whole, or in time."""
    until, question = time.monotonic() + SECONDS, b""
    while not question.endswith(b"\n"):
        opened.settimeout(max(0.001, until - time.monotonic()))
        found = opened.recv(1 << 16)
        question += found
        if not found or len(question) > LONGEST or time.monotonic() > until:
            return None
    opened.settimeout(SECONDS)
    return question
