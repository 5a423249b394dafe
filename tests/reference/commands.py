"""Commands that wait, and the window in which one is sent, confirmed or expires (`Pending`, `Orders`).

docs/FORMATS.md, "Commands and the window"."""
from dataclasses import dataclass, field

from reference.layers import Layers, Tpl
from reference.messages import Refusal

MOST_WAITING, TRIES, GREATEST = 8, 3, (1 << 32) - 1
LISTENS = 0b10


@dataclass
class Command:
    """A command that waits."""

    ident: int
    payload: bytes
    tries: int = 0


@dataclass
class Commands:
    """The commands that wait, the oldest first, and the one for whose answer the window is open."""

    ids: int
    down: int
    waiting: list[Command] = field(default_factory=list)
    open_for: int | None = None

    def put(self, payload: bytes) -> int:
        """Queues a command under the next id."""
        if len(self.waiting) == MOST_WAITING:
            raise Refusal("queue")
        if self.ids == GREATEST:
            raise Refusal("ids")
        self.ids += 1
        self.waiting.append(Command(self.ids, payload))
        return self.ids

    def restore(self, command: Command, is_open: bool) -> bool:
        """`may_restore`: puts a command that waited before behind the others, where it may stand there.

        The window is open for the oldest one alone, and then it was sent; where it isn't open, a try is left."""
        newest = self.waiting[-1].ident if self.waiting else 0
        least, most = (1, TRIES) if is_open else (0, 0 if self.waiting else TRIES - 1)
        if len(self.waiting) == MOST_WAITING or (is_open and self.waiting):
            return False
        if not newest < command.ident <= self.ids or not least <= command.tries <= most:
            return False
        self.waiting.append(command)
        self.open_for = command.ident if is_open else self.open_for
        return True

    def cancel(self, ident: int) -> None:
        """Takes a command out; if it was the one that was sent, the window closes."""
        if all(it.ident != ident for it in self.waiting):
            raise Refusal("nosuch", ident)
        self._remove(ident)

    def tick(self) -> int | None:
        """`after_tick`: the window closes; the command that expires, if one was sent three times."""
        expired = next((it.ident for it in self.waiting if it.ident == self.open_for and it.tries == TRIES), None)
        self.open_for = None
        if expired is not None:
            self._remove(expired)
        return expired

    def confirm(self, is_response: bool) -> int | None:
        """`after_stored`: a response confirms the command for which the window is open, and the window closes."""
        confirmed = self.open_for
        if not is_response or confirmed is None:
            return None
        self._remove(confirmed)
        return confirmed

    def send(self, access: int) -> Command | None:
        """`after_stored`: the oldest one is sent if the window is closed, the meter listens and a counter is left."""
        if self.open_for is not None or not access & LISTENS or not self.waiting or self.down == GREATEST:
            return None
        command = self.waiting[0]
        self.down += 1
        command.tries += 1
        self.open_for = command.ident
        return command

    def _remove(self, ident: int) -> None:
        self.waiting = [it for it in self.waiting if it.ident != ident]
        if self.open_for == ident:
            self.open_for = None


def access_in(layers: Layers, tpl: Tpl) -> int:
    """`access_in`: the bits B and A of the communication control, else of the configuration field of mode 5."""
    if layers.communication is not None:
        return layers.communication >> 6 & 2 | layers.communication >> 2 & 1
    return tpl.configuration >> 14 if tpl.mode == 5 else 0
