"""What an event is answered: in the report's words, and as members of a step (docs/FORMATS.md, "Report", "Steps")."""
from dataclasses import dataclass

from reference.messages import Refusal
from reference.readings import listing_tree
from reference.states import Reading

Members = dict[str, object]


@dataclass(frozen=True)
class Plain:
    """An answer of one word, `part` or `rekeyed`."""

    outcome: str

    @property
    def words(self) -> str:
        """What stands in a report behind the step's line."""
        return self.outcome

    @property
    def members(self) -> Members:
        """What a step tells of it."""
        return {"outcome": self.outcome}


@dataclass(frozen=True)
class OfCommand:
    """A command is `queued` or `cancelled`."""

    outcome: str
    ident: int

    @property
    def words(self) -> str:
        """What stands in a report behind the step's line."""
        return f"{self.outcome} {self.ident}"

    @property
    def members(self) -> Members:
        """What a step tells of it."""
        return {"outcome": self.outcome, "id": self.ident}


@dataclass(frozen=True)
class Ticked:
    """The window closes; a command may expire."""

    expired: int | None

    @property
    def words(self) -> str:
        """What stands in a report behind the step's line."""
        return "ticked" if self.expired is None else f"ticked expired {self.expired}"

    @property
    def members(self) -> Members:
        """What a step tells of it."""
        return {"outcome": "ticked", "expired": self.expired}


@dataclass(frozen=True)
class Refused:
    """Nothing is stored and nothing is sent."""

    why: Refusal

    @property
    def words(self) -> str:
        """What stands in a report behind the step's line."""
        return f"refused {self.why}"

    @property
    def members(self) -> Members:
        """What a step tells of it."""
        return {"outcome": "refused", "reason": self.why.words, "values": list(self.why.values)}


@dataclass(frozen=True)
class Sent:
    """The downlink that a stored message sends: its counter, its command's id, its frame."""

    down: int
    ident: int
    frame: bytes


@dataclass(frozen=True)
class Stored:
    """A message is stored; it may confirm a command and send one."""

    reading: Reading
    confirmed: int | None
    sent: Sent | None

    @property
    def words(self) -> str:
        """What stands in a report behind the step's line."""
        it = self.reading
        confirmed = "" if self.confirmed is None else f" confirmed {self.confirmed}"
        sent = f" sent {self.sent.down}" if self.sent else ""
        return f"stored {it.counter} {it.moment} {it.payload.hex() or '-'}{confirmed}{sent}"

    @property
    def members(self) -> Members:
        """What a step tells of it."""
        it, sent = self.reading, self.sent
        told = {"outcome": "stored", "at": it.moment, "counter": it.counter, "payload": it.payload.hex()}
        down = {"down": sent.down, "frame": sent.frame.hex(), "id": sent.ident} if sent else None
        return told | listing_tree(it.payload) | {"confirmed": self.confirmed, "sent": down}


Answer = Plain | OfCommand | Ticked | Refused | Stored
