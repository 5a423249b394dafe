"""The rows of a session, as the program said them."""
from __future__ import annotations

import json
from collections import Counter
from collections.abc import Sequence
from typing import Any

from wmbus_service.events import Event
from wmbus_service.merging import moment_in
from wmbus_service.steps import Told

from .arrived import Arrived
from .oddities import SLACK

COMPACT = json.JSONEncoder(separators=(",", ":")).encode
# what becomes of a command: by its id, or by its meter and the program's number
Change = dict[str, Any]


class Rows:
    """Rows that are to be written, gathered step by step."""

    def __init__(self, now: float) -> None:
        self.now = now
        self.counts: Counter[str] = Counter()
        self.lines: list[tuple[Any, ...]] = []
        self.readings: list[tuple[Any, ...]] = []
        self.refusals: dict[tuple[str, str], tuple[str, int, int, str | None]] = {}
        self.strangers: dict[str, tuple[int, str | None]] = {}
        self.downlinks: list[tuple[str, str, int, str, int]] = []
        self.changes: list[Change] = []
        # the gateway by which a meter's last reading came, the meters with readings, and those whose windows were opened or closed last
        self.gateways: dict[str, str] = {}
        self.read: set[str] = set()
        self.opened: set[str] = set()
        self.ticked: set[str] = set()

    def gather(self, numbers: Sequence[int], batch: Sequence[Event], told: Told) -> None:
        """All rows of a session, whose lines get these numbers."""
        for number, event, said in zip(numbers, batch, told.lines, strict=True):
            self._line(number, event, said)
            if said["kind"] == "step":
                self._step(number, event, said)
            elif said["kind"] == "stranger":
                self._stranger(event, said)
            elif event.command:
                self._refuse(event.command, f"{said['kind']} {said['reason']}")
        self.counts["sessions"] += 1
        for kind in ("strangers", "unframed", "bad"):
            self.counts[kind] += told.counts[kind]

    def _line(self, number: int, event: Event, said: dict[str, Any]) -> None:
        """The line itself, by the meter that it is for."""
        it = arrived_of(event)
        self.counts["heard" if it else "orders"] += 1
        place = (it.receiver, it.epoch, it.message, it.behind) if it else (None, None, None, None)
        self.lines.append((number, said.get("address", "-"), *place, without_key(event), event.due, self.now))

    def _step(self, number: int, event: Event, said: dict[str, Any]) -> None:
        """A meter's step."""
        self.counts[said["outcome"]] += 1
        write = {"stored": self._stored, "queued": self._queued, "cancelled": self._cancelled, "refused": self._refused,
                 "rekeyed": self._rekeyed, "ticked": self._ticked}.get(said["outcome"])
        if write:
            write(number, event, said)

    def _stored(self, number: int, event: Event, said: dict[str, Any]) -> None:
        """A reading, the command that it confirms, the downlink that is due."""
        it = arrived_of(event)
        gateway = it.receiver if it else None
        if gateway:
            # (what nobody authenticated moves no meter to another gateway)
            self.gateways[said["address"]] = gateway
        self.read.add(said["address"])
        self.readings.append((number, said["address"], gateway, said["counter"], said["at"], said["payload"], said["fault"],
                              said["more"], COMPACT(said["records"]), self.now))
        if said["confirmed"] is not None:
            # (a copy of an earlier response may come late, by another gateway: what was heard before the downlink went out confirms nothing)
            self.changes.append({"address": said["address"], "number": said["confirmed"], "state": "confirmed",
                                 "heard": self._heard(event)})
        sent = said["sent"]
        if sent:
            self.opened.add(said["address"])
            self.counts["downlinks"] += 1
            self.downlinks.append((gateway or "", said["address"], sent["down"], sent["frame"], sent["id"]))
            self.changes.append({"address": said["address"], "number": sent["id"], "tries": 1})

    def _heard(self, event: Event) -> float:
        """When it was heard for sure: by a clock that is ahead that isn't known, and so nothing was out by then."""
        moment = moment_in(event.text, 0) or self.now
        return min(moment, self.now) if moment < self.now + SLACK else 0.0

    def _queued(self, _number: int, event: Event, said: dict[str, Any]) -> None:
        """A command has its number."""
        self.changes.append({"id": event.command, "state": "queued", "given": said["id"]})

    def _cancelled(self, _number: int, _event: Event, said: dict[str, Any]) -> None:
        """A command isn't sent any more."""
        self._change(said["address"], said["id"], "cancelled")

    def _rekeyed(self, _number: int, event: Event, _said: dict[str, Any]) -> None:
        """The meter has its new second key, which stands in its block."""
        self.changes.append({"id": event.command, "state": "done", "payload": ""})

    def _ticked(self, _number: int, _event: Event, said: dict[str, Any]) -> None:
        """The meter's window is closed, its fragments are older, and a command may be given up."""
        self.ticked.add(said["address"])
        self.opened.discard(said["address"])
        if said["expired"] is not None:
            self._change(said["address"], said["expired"], "expired")

    def _refused(self, number: int, event: Event, said: dict[str, Any]) -> None:
        """A refusal, counted by its reason."""
        words = " ".join([said["reason"], *(str(value) for value in said["values"])])
        key = said["address"], said["reason"]
        it = arrived_of(event)
        _, times, _, before = self.refusals.get(key, ("", 0, 0, None))
        self.refusals[key] = words, times + 1, number, it.receiver if it else before
        if event.command and said["event"] == "cancel":
            # it was confirmed or given up before
            self.changes.append({"id": event.command})
        elif event.command:
            self._refuse(event.command, words)

    def _refuse(self, ident: str, words: str) -> None:
        """A command that isn't taken, and why."""
        self.changes.append({"id": ident, "state": "refused", "reason": words})

    def _change(self, address: str, number: int, state: str) -> None:
        """A command's new state, told by its number."""
        self.changes.append({"address": address, "number": number, "state": state})

    def _stranger(self, event: Event, said: dict[str, Any]) -> None:
        """A meter that isn't known."""
        if event.command:
            self._refuse(event.command, "the meter is unknown")
        it = arrived_of(event)
        self.strangers[said["address"]] = self.strangers.get(said["address"], (0, None))[0] + 1, it.receiver if it else None


def without_key(event: Event) -> str:
    """The text of a line as it is kept: of a new second key its meter alone."""
    return " ".join(event.text.split(" ")[:2]) if event.command and event.text.startswith("K ") else event.text


def arrived_of(event: Event) -> Arrived | None:
    """The gateway's line of an event."""
    return event.spooled if isinstance(event.spooled, Arrived) else None
