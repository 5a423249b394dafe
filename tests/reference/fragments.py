"""Held fragments and the message that they make (`held`, `assembled`, `IsLastEnd`; docs/FORMATS.md, "Report")."""
from dataclasses import dataclass, field

from reference.layers import Afl, LayerFault, read_tpl
from reference.messages import Message, Refusal

MOST = 16


@dataclass
class Piece:
    """A held fragment, with the ticks that it saw."""

    afl: Afl
    content: bytes
    ticks: int = 0


@dataclass
class Fragments:
    """The latest fragment of each number, in the order in which they were heard."""

    pieces: dict[int, Piece] = field(default_factory=dict)

    def hold(self, afl: Afl, content: bytes) -> None:
        """Holds a fragment in the place of an earlier one of its number."""
        if afl.number > MOST:
            raise Refusal("parts", afl.number)
        self.pieces.pop(afl.number, None)
        self.pieces[afl.number] = Piece(afl, content)

    def tick(self) -> None:
        """A held fragment is given up at the second tick after it."""
        for piece in self.pieces.values():
            piece.ticks += 1
        self.pieces = {number: piece for number, piece in self.pieces.items() if piece.ticks < 2}

    def message(self, link: bytes) -> Message | None:
        """`assembled`: up to the end that was heard last, if all in front are held and say that more follow."""
        ends = [number for number, piece in self.pieces.items() if piece.afl.is_last]
        numbers = range(1, ends[-1] + 1) if ends else range(0)
        parts = [self.pieces[number] for number in numbers if number in self.pieces]
        if not ends or len(parts) < len(numbers) or any(part.afl.is_last for part in parts[:-1]):
            return None
        try:
            tpl = read_tpl(b"".join(part.content for part in parts))
        except LayerFault as fault:
            raise Refusal(f"message {fault.words}", *fault.values) from None
        address = tpl.long_address
        if address is not None and address != link:
            raise Refusal("other", address.hex())
        return Message(tpl, parts[0].afl.fields | parts[-1].afl.fields)
