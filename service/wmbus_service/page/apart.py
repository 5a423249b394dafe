"""A page whose user can't read the database: what it shows, and whether a form is taken, it asks of the service's user, over a socket
(page/answering.py)."""
from __future__ import annotations

import json
import socket
from collections.abc import Iterator
from contextlib import contextmanager
from pathlib import Path
from typing import Any

from flask import session

from ..config import Page
from ..memory_files import memory_files, path_of
from ..trouble import Trouble
from .certificates import CertificateFiles
from .house import HouseDoor
from .tokens import HasToWait
from .views import Piece

# of a question with its form, and after so many seconds without an answer it is given up
LONGEST, PATIENCE = 1 << 17, 60.0


class Refused(Exception):
    """Who asks hasn't given the token."""


class Said(Trouble):
    """What is wrong, in the words of who answers."""

    def __init__(self, words: str) -> None:
        Exception.__init__(self, words)


class Fault(Exception):
    """What is wrong with the database, in the words of who answers."""


class Unanswered(Exception):
    """Who answers has a fault, which its log tells."""


class FarDoor:
    """The service's database, of which all is asked, and nothing is read. It judges tokens too."""

    links, adding = HouseDoor.links, HouseDoor.adding
    faults = Fault

    def __init__(self, path: Path) -> None:
        self.path = path
        self.has_token = False

    def trouble_of(self, fault: Exception) -> Trouble:
        """What went wrong, in words."""
        return Said(str(fault))

    def ask(self, name: str, word: object, words: dict[str, Any]) -> Any:
        """The answer to a question, or what a form did; of a session that is known by its word, where it gave the token."""
        kind, told = self._answer(json.dumps([name, word, words]).encode() + b"\n")
        if kind == "told":
            return told
        if kind == "refused":
            raise Refused
        if kind == "waits":
            raise HasToWait
        raise {"trouble": Said, "fault": Fault}.get(kind, Unanswered)(str(told))

    def _answer(self, question: bytes) -> Any:
        try:
            with socket.socket(socket.AF_UNIX) as opened:
                opened.settimeout(PATIENCE)
                opened.connect(str(self.path))
                opened.sendall(question)
                with opened.makefile("rb") as answer:
                    return json.loads(answer.read())
        except (OSError, ValueError) as fault:
            words = fault.strerror or str(fault) if isinstance(fault, OSError) else "its answer isn't whole"
            raise Trouble(self.path, f"the service's door doesn't answer: {words}", "systemctl status wmbus-door") from None

    def settings(self) -> Page:
        """Where the page is to be served. Nothing of it is a file here."""
        told = self.ask("settings", None, {})
        self.has_token = bool(told["has_token"])
        return Page(host=str(told["host"]), port=int(told["port"]), certificate=str(told["certificate"]), key=str(told["key"]))

    def readings(self, word: object, end: int, address: str, behind: tuple[int, int]) -> Piece | None:
        """The values of a meter's next readings up to a moment; none where there are no further ones."""
        piece: Piece | None = self.ask("readings", word, {"address": address, "end": end, "behind": behind})
        return piece

    def enter(self, token: str, address: str, now: float) -> str | None:
        """A session at an address gives a token; the word by which it is known, none where the token is wrong."""
        word = self.ask("enter", None, {"token": token, "address": address})
        return None if word is None else str(word)

    def leave(self, word: object) -> None:
        """A session leaves."""
        self.ask("leave", word, {})

    def is_in(self, word: object, now: float) -> bool:
        """Whether a session has given the token, and not too long ago."""
        return self.has_token and bool(self.ask("is_in", word, {}))

    def put_command(self, address: str, ident: str, payload: str, now: float) -> bool:
        """Takes a command; whether its id is new."""
        return bool(self._form("put_command", address=address, ident=ident, payload=payload))

    def cancel_command(self, address: str, ident: str, now: float) -> str | None:
        """Cancels a meter's command; the state that it has, none where there is no such command."""
        state = self._form("cancel_command", address=address, ident=ident)
        return None if state is None else str(state)

    def add_meter(self, address: str, mode: str, key: str, name: str) -> bool:
        """Adds a meter; whether it is new."""
        return bool(self._form("add_meter", address=address, mode=mode, key=key, name=name))

    def retire(self, address: str, now: float) -> int:
        """Says that a meter is out of service; how many commands still wait for it."""
        return int(self._form("retire", address=address))

    def bring_back(self, address: str) -> bool:
        """Puts a meter back into service; whether it was out of it."""
        return bool(self._form("bring_back", address=address))

    def _form(self, form: str, **words: str) -> Any:
        return self.ask(form, session.get("entered"), words)


class FarFiles(CertificateFiles):
    """The page's certificate and its key, which the service's user reads: here they are held in memory alone."""

    def __init__(self, door: FarDoor) -> None:
        self.door = door

    def seen(self) -> object:
        """By what it is seen that they were renewed."""
        try:
            return self.door.ask("certificate_seen", None, {})
        except Trouble as trouble:
            raise OSError(str(trouble)) from None

    @contextmanager
    def opened(self) -> Iterator[tuple[str, str]]:
        """Their paths."""
        try:
            told = self.door.ask("certificate", None, {})
        except Trouble as trouble:
            raise OSError(str(trouble)) from None
        with memory_files([text.encode("latin-1") for text in told]) as (certificate, key):
            yield path_of(certificate), path_of(key)
