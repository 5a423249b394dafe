"""A meter's slot: what each event is answered, with the refusals in their order (`outcome`, `Standing`)."""
from dataclasses import dataclass

from reference.answers import Answer, OfCommand, Plain, Refused, Sent, Stored, Ticked
from reference.commands import access_in
from reference.downlinks import downlink
from reference.fragments import Fragments
from reference.layers import RESPONSES, UPLINKS, Layers, read_layers
from reference.lines import Order, line_of
from reference.messages import Keys, Message, Refusal, open5, open7
from reference.states import Reading, Start


@dataclass(frozen=True)
class Telegram:
    """A telegram that is for this meter, with its moment and layers."""

    moment: int
    layers: Layers


Event = Telegram | Order


def event_of(line: bytes) -> tuple[bytes, Event]:
    """`event_of_line`: the meter that a line is for, and what comes to it; else the line's fault, or its frame's."""
    said = line_of(line)
    if isinstance(said, Order):
        return said.address, said
    layers = read_layers(said.telegram)
    return layers.target, Telegram(said.moment, layers)


@dataclass
class Slot:
    """What is known of a commissioned meter now, the answers to its events in their order, and what this session stored."""

    own: bytes
    known: Start
    readings: int = 0
    last_stored: Reading | None = None

    def step(self, event: Event) -> Answer:
        """`outcome`: what an event is answered."""
        try:
            return self._order(event) if isinstance(event, Order) else self._telegram(event)
        except Refusal as refusal:
            return Refused(refusal)

    def _order(self, order: Order) -> Answer:
        if order.letter == "T":
            self.known.fragments.tick()
            return Ticked(self.known.commands.tick())
        if order.letter == "Q":
            return OfCommand("queued", self.known.commands.put(order.content))
        if order.letter == "X":
            self.known.commands.cancel(order.number)
            return OfCommand("cancelled", order.number)
        if self.known.commission.mode == 5:
            raise Refusal("key5")
        self.known.commission.other = order.content
        return Plain("rekeyed")

    def _telegram(self, telegram: Telegram) -> Answer:
        layers, it = telegram.layers, self.known.commission
        message = self._brought(layers)
        if message is None:
            return Plain("part")
        opened = (open5 if it.mode == 5 else open7)(message, Keys(it.address, it.key, it.other), it.last)
        if layers.tpl is None:
            self.known.fragments = Fragments()
        return self._stored(Reading(opened[0], telegram.moment, opened[1]), layers, access_in(layers, message.tpl))

    def _brought(self, layers: Layers) -> Message | None:
        """`received` and `brought`: the message that a telegram brings, or the first refusals."""
        if layers.control not in UPLINKS:
            raise Refusal("uplink", f"{layers.control:02x}")
        if layers.fault:
            raise Refusal(f"layers {layers.fault.words}", *layers.fault.values)
        afl, tpl = layers.afl, layers.tpl
        if tpl:
            return Message(tpl, afl.fields if afl else {})
        if self.known.commission.mode == 5:
            raise Refusal("part5")
        if afl:
            self.known.fragments.hold(afl, layers.piece)
        return self.known.fragments.message(layers.link)

    def _stored(self, reading: Reading, layers: Layers, access: int) -> Stored:
        it, commands = self.known.commission, self.known.commands
        it.last, self.known.reading = reading.counter, reading
        self.readings, self.last_stored = self.readings + 1, reading
        confirmed = commands.confirm(layers.control in RESPONSES)
        command = commands.send(access)
        if command is None:
            return Stored(reading, confirmed, None)
        frame = downlink(self.own, it.address, it.key, commands.down, command.payload)
        return Stored(reading, confirmed, Sent(commands.down, command.ident, frame))
