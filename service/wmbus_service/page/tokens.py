"""Who gave the token, and who gave wrong ones: known to the process that serves the page, and gone with it."""
from __future__ import annotations

import logging
import secrets
import threading
from collections import OrderedDict
from hmac import compare_digest
from typing import Protocol

log = logging.getLogger("wmbus")

# after so many wrong tokens within so long an address has to wait; so many addresses are known, and so many wrong tokens told of at most
MOST_WRONG, SECONDS, MOST_ADDRESSES, MOST_TOLD = 5, 60.0, 1000, 60
# after so long the token is asked for again
ENTERED_SECONDS = 12 * 3600


class HasToWait(Exception):
    """Too many wrong tokens came from an address of late."""


class Guarding(Protocol):
    """Who judges tokens, and knows the sessions that gave the right one."""

    @property
    def has_token(self) -> bool:
        """Whether there is a token: without one nobody may write."""

    def enter(self, token: str, address: str, now: float) -> str | None:
        """A session at an address gives a token; the word by which it is known, none where the token is wrong."""

    def leave(self, word: object) -> None:
        """A session leaves."""

    def is_in(self, word: object, now: float) -> bool:
        """Whether a session has given the token, and not too long ago."""


class Entered:
    """The sessions that gave the token, until they leave or are too old."""

    def __init__(self, seconds: float) -> None:
        self.seconds, self.lock = seconds, threading.Lock()
        self.moments: dict[str, float] = {}

    def enter(self, now: float) -> str:
        """A session gives the token; the word by which it is known."""
        word = secrets.token_urlsafe(16)
        with self.lock:
            self.moments = {it: moment for it, moment in self.moments.items() if now - moment < self.seconds}
            self.moments[word] = now
        return word

    def leave(self, word: object) -> None:
        """A session leaves: whoever has a copy of its cookie has left too."""
        with self.lock:
            self.moments.pop(str(word), None)

    def is_in(self, word: object, now: float) -> bool:
        """Whether a session has given the token, and not too long ago."""
        with self.lock:
            moment = self.moments.get(str(word))
        return moment is not None and now - moment < self.seconds


class Wrong:
    """Wrong tokens, by the address from which they came."""

    def __init__(self) -> None:
        self.lock = threading.Lock()
        self.moments: OrderedDict[str, list[float]] = OrderedDict()
        self.told: list[float] = []

    def has_to_wait(self, address: str, now: float) -> bool:
        """Whether an address gave too many of late."""
        with self.lock:
            return len(self._of(address, now)) >= MOST_WRONG

    def add(self, address: str, now: float) -> None:
        """One came; the log has it, though not more often than it can be read."""
        with self.lock:
            self.moments[address] = [*self._of(address, now), now]
            self.moments.move_to_end(address)
            while len(self.moments) > MOST_ADDRESSES:
                self.moments.popitem(last=False)
            self.told = [it for it in self.told if 0 <= now - it < SECONDS]
            if len(self.told) < MOST_TOLD:
                self.told.append(now)
                log.warning("the page: a wrong token came from %s", address)

    def _of(self, address: str, now: float) -> list[float]:
        return [it for it in self.moments.get(address, []) if 0 <= now - it < SECONDS]


class Guard:
    """A token, the sessions that gave it, and who gave wrong ones."""

    def __init__(self, token: str | None) -> None:
        self.token, self.entered, self.wrong = token, Entered(ENTERED_SECONDS), Wrong()

    @property
    def has_token(self) -> bool:
        """Whether there is a token."""
        return self.token is not None

    def enter(self, token: str, address: str, now: float) -> str | None:
        """A session at an address gives a token; the word by which it is known, none where the token is wrong."""
        if self.wrong.has_to_wait(address, now):
            raise HasToWait
        if self.token is None or not compare_digest(token.encode(), self.token.encode()):
            self.wrong.add(address, now)
            return None
        return self.entered.enter(now)

    def leave(self, word: object) -> None:
        """A session leaves, with each copy of it."""
        self.entered.leave(word)

    def is_in(self, word: object, now: float) -> bool:
        """Whether a session has given the token, and not too long ago."""
        return self.has_token and self.entered.is_in(word, now)
