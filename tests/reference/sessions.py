"""A session: the classes of lines, the slots after each meter's steps in an order, and the outputs (`IsSession`)."""
from dataclasses import dataclass, field

from reference.answers import Stored
from reference.frames import FrameFault
from reference.lines import BadLine, heard_lines
from reference.readings import readings_text
from reference.reports import meter_lines, strangers_lines
from reference.roster import Roster, roster_text
from reference.slots import Event, Slot, event_of
from reference.states import State, state_text

Place = tuple[int, int]
CLASSES = ("lines", "own", "strangers", "unframed", "bad")


@dataclass
class Receiver:
    """A receiver's lines by class, its end, and the downlinks of its own lines with their places."""

    counts: dict[str, int] = field(default_factory=lambda: dict.fromkeys(CLASSES, 0))
    is_cut: bool = False
    sent: list[tuple[int, bytes]] = field(default_factory=list)

    def line(self, number: int) -> str:
        """The report's line of a receiver."""
        counts = " ".join(f"{name} {count}" for name, count in self.counts.items())
        return f"receiver {number} {counts} {'cut' if self.is_cut else 'end'}"


@dataclass
class Session:
    """What the receivers heard: each meter's own lines by their places, and the strangers'."""

    state: State
    receivers: list[Receiver] = field(default_factory=list)
    events: dict[bytes, dict[Place, Event]] = field(default_factory=dict)
    strangers: dict[Place, bytes] = field(default_factory=dict)

    def hear(self, text: bytes) -> None:
        """`heard_by`: one more receiver's lines, each in its class."""
        receiver, (lines, over) = Receiver(), heard_lines(text)
        self.receivers.append(receiver)
        receiver.is_cut = over
        for number, line in enumerate(lines, 1):
            receiver.counts["lines"] += 1
            receiver.counts[self._take((len(self.receivers), number), line)] += 1

    def _take(self, place: Place, line: bytes) -> str:
        """`class_by` and `event_of_line`: notes a line for the meter that it is for; its class."""
        try:
            address, event = event_of(line)
        except BadLine:
            return "bad"
        except FrameFault:
            return "unframed"
        if address not in self.events:
            self.strangers[place] = address
            return "strangers"
        self.events[address][place] = event
        return "own"


@dataclass(frozen=True)
class Outputs:
    """What a session prints and writes."""

    report: str
    next_roster: str
    next_state: str
    readings: str
    sent: list[str]


def session_of(state: State, texts: list[bytes]) -> Session:
    """A session over receivers' texts, which begins from this state."""
    session = Session(state, events={known.commission.address: {} for known in state.meters})
    for text in texts:
        session.hear(text)
    return session


def outputs_of(session: Session, orders: dict[bytes, list[Place]], order_of_strangers: list[Place]) -> Outputs:
    """The outputs where each meter's steps are made in its order; the state goes on to the session's end."""
    own, meters, parts = session.state.own, session.state.meters, []
    for known in meters:
        slot, steps, address = Slot(own, known), [], known.commission.address
        for place in orders[address]:
            answer = slot.step(session.events[address][place])
            steps.append((*place, answer.words))
            if isinstance(answer, Stored) and answer.sent:
                session.receivers[place[0] - 1].sent.append((place[1], answer.sent.frame))
        parts += meter_lines(slot, steps)
    lines = ["wmbus-report 1"] + [it.line(number) for number, it in enumerate(session.receivers, 1)] + parts
    lines += strangers_lines([(*place, session.strangers[place]) for place in order_of_strangers]) + ["end"]
    roster = roster_text(Roster(own, [known.commission_now() for known in meters]))
    sent = ["".join(f"D {frame.hex()}\n" for _, frame in sorted(it.sent)) for it in session.receivers]
    report = "".join(f"{line}\n" for line in lines)
    return Outputs(report, roster, state_text(session.state), readings_text(meters), sent)
