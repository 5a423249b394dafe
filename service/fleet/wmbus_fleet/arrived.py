"""Lines of gateways that were taken, with where they stood."""
from __future__ import annotations

from wmbus_service.spool import Spooled


class Arrived(Spooled):
    """A line of a gateway's message: the gateway is its receiver, its meter and the message its file, and the place in it is behind."""

    __slots__ = ()

    @property
    def address(self) -> str:
        """The meter that it is for."""
        return self.file.split(" ")[0]

    @property
    def epoch(self) -> int:
        """The message's epoch."""
        return int(self.file.split(" ")[1])

    @property
    def message(self) -> int:
        """The message's number in it."""
        return int(self.file.split(" ")[2])


def arrived(address: str, gateway: str, epoch: int, message: int, place: int, text: str) -> Arrived:
    """A line by its row of the inbox."""
    return Arrived(gateway, f"{address} {epoch} {message}", place, text)
