"""Asks gateways for what is missing, over a connection of its own: of one that publishes a broker whose disk or memory is short reads nothing
more, and what was taken has to be acknowledged."""
from __future__ import annotations

import logging
import time
from contextlib import suppress
from types import TracebackType
from typing import Any

from wmbus_service.trouble import Trouble

from . import broker, store
from .config import Config
from .messages import Again, Begin, asked_body

log = logging.getLogger("wmbus")

PAUSE = 5.0


class Asking:
    """The connection by which questions go out, which is made with the first of them. What can't be asked now is asked again later, as the
    gap is still there."""

    def __init__(self, config: Config) -> None:
        self.config = config
        self.held: Any = None
        self.connection: Any = None
        self.channel: Any = None
        self.is_blocked = False
        self.ended_at = -PAUSE
        self.trouble = ""

    def __enter__(self) -> Asking:
        return self

    def __exit__(self, kind: type[BaseException] | None, fault: BaseException | None, where: TracebackType | None) -> None:
        self.close()

    def close(self) -> None:
        """Ends the connection."""
        held, self.held, self.channel, self.connection = self.held, None, None, None
        if held:
            with suppress(*broker.FAULTS):
                held.__exit__(None, None, None)

    def turn(self) -> None:
        """Sees what the broker says."""
        if self.connection:
            try:
                self.connection.process_data_events(0)
            except broker.FAULTS as fault:
                self._ended(fault)

    def ask(self, asked: Again | Begin) -> None:
        """Asks a gateway for something, unless the broker takes no questions now."""
        try:
            if self._is_open() and not self.is_blocked:
                ask(self.channel, asked)
                self.turn()
        except (Trouble, *broker.FAULTS) as fault:
            self._ended(fault)

    def _is_open(self) -> bool:
        """Whether there is a connection; one that ended is made anew a moment later."""
        if self.channel and self.channel.is_open:
            return True
        if time.monotonic() < self.ended_at + PAUSE:
            return False
        self.close()
        self.held = broker.connected(self.config.broker)
        self.connection = self.held.__enter__()
        self.connection.add_on_connection_blocked_callback(lambda *_: self._blocked(True))
        self.connection.add_on_connection_unblocked_callback(lambda *_: self._blocked(False))
        self.is_blocked, self.channel = False, self.connection.channel()
        self.channel.add_on_return_callback(_returned)
        return True

    def _blocked(self, is_so: bool) -> None:
        """The broker takes no questions, or does so again."""
        if is_so:
            log.error("intake: the broker takes no questions, since %s; what comes is taken all the same", broker.SHORT)
        self.is_blocked = is_so

    def _ended(self, fault: Exception) -> None:
        """The connection ended; taking goes on."""
        if (told := store.told_of(fault)) != self.trouble:
            log.error("intake: gateways can't be asked: %s", told)
        self.trouble, self.ended_at = told, time.monotonic()
        self.close()


def ask(channel: Any, asked: Again | Begin) -> None:
    """Asks a gateway to send again."""
    broker.tell(channel, broker.gateway_queue(asked.gateway), asked_body(asked), broker.ASKED_MILLISECONDS)


def _returned(_channel: Any, method: Any, _properties: Any, _body: bytes) -> None:
    """No queue took a question."""
    log.warning("%s: there is no such queue yet, and its gateway can't be asked to send again", method.routing_key)
