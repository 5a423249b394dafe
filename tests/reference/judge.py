"""What a run has to print and write, by its inputs and the orders of steps that its report tells; where it differs."""
import os
from dataclasses import dataclass, field

from reference.roster import RosterFault, read_roster
from reference.sessions import Place, Session, outputs_of, session_of
from reference.states import State, read_state, state_of
from reference.steps import told_over

FAULTY, PAST_LIMIT = 3, 8
BEFORE, SHOWN = 100, 160


@dataclass
class Run:
    """What a run gave: its status, and its texts by name (`report`, `stderr`, `next`, `readings`, `tx1` and so on)."""

    status: int
    texts: dict[str, str]


@dataclass
class Told:
    """The lists of steps that a report tells (`orders`): each place with the report's line, the strangers' last."""

    lists: list[list[tuple[Place, int]]] = field(default_factory=list)


def told_by(report: str, meters: int) -> Told:
    """`told`: `meter ` and `strangers ` open lists, and `step ` and `stranger ` lines add their two numbers."""
    told = Told([[] for _ in range(meters + 1)])
    heading = -1
    for number, line in enumerate(report.split("\n"), 1):
        word, *fields = line.split(" ")
        if word == "meter":
            heading = min(heading + 1, meters - 1)
        elif word == "strangers":
            heading = meters
        elif word in ("step", "stranger") and heading >= 0 and [it.isdecimal() for it in fields[:2]] == [True, True]:
            told.lists[heading].append(((int(fields[0]), int(fields[1])), number))
    return told


def order_of(told: list[tuple[Place, int]], own: list[Place], name: str) -> tuple[list[Place], list[str]]:
    """`IsOrderOf`: the told order, if it has each receiver's own lines once, in order; else mended, with why."""
    receivers = {place[0] for place in own}
    following = {receiver: iter([place for place in own if place[0] == receiver]) for receiver in receivers}
    places: dict[Place, None] = {}
    notes = []
    for place, line in told:
        if next(following.get(place[0], iter(())), None) != place:
            notes = [f"report line {line}: {name}: {place[0]} {place[1]} isn't the next line of its receiver"]
            break
        places[place] = None
    rest = [place for place in own if place not in places]
    if rest and not notes:
        notes = [f"report: {name} lacks {rest[0][0]} {rest[0][1]}"]
    return list(places) + rest, notes


def _orders(session: Session, report: str) -> tuple[dict[bytes, list[Place]], list[Place], list[str]]:
    """The order of each meter's steps and of the strangers' lines, as the report tells them."""
    told = told_by(report, len(session.state.meters))
    orders, notes = {}, []
    for known, lines in zip(session.state.meters, told.lists):
        address = known.commission.address
        orders[address], said = order_of(lines, list(session.events[address]), f"meter {address.hex()}")
        notes += said
    strangers, said = order_of(told.lists[-1], list(session.strangers), "strangers")
    return orders, strangers, notes + said


def known_to(command: str, text: bytes) -> State:
    """What `collect` reads of a roster, and `hear` and `continue` of a roster or a state."""
    return state_of(read_roster(text)) if command == "collect" else read_state(text)


def wanted_of(command: str, state: State, inputs: list[bytes], report: str) -> tuple[Run, list[str]]:
    """The run that the inputs and the orders of this report fix, and what is wrong with the orders."""
    session = session_of(state, inputs)
    orders, strangers, notes = _orders(session, report)
    outputs = outputs_of(session, orders, strangers)
    following = outputs.next_state if command == "continue" else outputs.next_roster
    texts = {"report": outputs.report, "stderr": "", "next": following, "readings": outputs.readings}
    texts |= {f"tx{number}": sent for number, sent in enumerate(outputs.sent, 1)}
    over = next((number for number, it in enumerate(session.receivers, 1) if it.is_cut), None)
    if over is None:
        return Run(0, texts), notes
    return Run(PAST_LIMIT, texts | {"stderr": f"wmbus: receiver {over} goes past the limit\n"}), notes


def _shown(want: str, give: str) -> str:
    """Two lines from shortly before the place at which they differ."""
    start = max(0, len(os.path.commonprefix((want, give))) - BEFORE)
    return f"wanted {want[start:start + SHOWN]!r}, got {give[start:start + SHOWN]!r} behind {start} characters"


def differences(wanted: Run, given: Run, most: int = 3) -> list[str]:
    """The first lines of each text that differ, and the status."""
    found = [f"status: wanted {wanted.status}, got {given.status}"] if wanted.status != given.status else []
    for name, text in given.texts.items():
        wants, gives = wanted.texts[name].split("\n"), text.split("\n")
        pairs = enumerate(zip(wants, gives), 1)
        lines = [f"{name} line {number}: {_shown(want, give)}" for number, (want, give) in pairs if want != give]
        if not lines and len(wants) != len(gives):
            behind = min(len(wants), len(gives)) + 1
            lines = [f"{name} line {behind}: wanted {len(wants) - 1} lines, got {len(gives) - 1}"]
        found += lines[:most]
    return found


def steps_judged(known: bytes, heard: bytes, given: Run) -> list[str]:
    """All that is wrong with a run of `steps`, of which nothing is left to chance: `steps`, `stderr` and `next`."""
    try:
        status, told, following = told_over(read_state(known), heard)
    except RosterFault as fault:
        return differences(Run(FAULTY, {"steps": "", "stderr": f"wmbus: {fault}\n", "next": ""}), given)
    errors = "" if status == 0 else "wmbus: receiver 1 goes past the limit\n"
    return differences(Run(status, {"steps": told, "stderr": errors, "next": following}), given)


def judged(command: str, known: bytes, inputs: list[bytes], given: Run) -> list[str]:
    """All that is wrong with a run of a command over a roster or a state and receivers' texts."""
    try:
        state = known_to(command, known)
    except RosterFault as fault:
        nothing = dict.fromkeys(given.texts, "")
        return differences(Run(FAULTY, nothing | {"stderr": f"wmbus: {fault}\n"}), given)
    wanted, notes = wanted_of(command, state, inputs, given.texts["report"])
    return notes + differences(wanted, given)
