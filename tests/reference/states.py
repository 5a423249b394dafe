"""States: what is known of each meter, read with their first faulty line, and written (docs/FORMATS.md, "The state")."""
from collections.abc import Callable
from dataclasses import dataclass, field

from reference.commands import TRIES, Command, Commands
from reference.fragments import MOST, Fragments, Piece
from reference.layers import AFL, LayerFault, afl_bytes, read_afl
from reference.lines import DIGITS, MOMENTS, MOST_PAYLOAD
from reference.roster import (
    HEADS, MOST_METERS, WORD, Commission, Roster, RosterFault,
    lines_of, meter_line, meter_of, number_of, own_line, own_of, read_roster, told_of, unhex)

LIMIT = 134_217_728
HEAD, END, METER = b"wmbus-state 1", b"end", b"meter"
VERSION_2 = HEADS[b"wmbus-roster 2"]
LONGEST_READING, LONGEST_PIECE = 4096, 242


class StateFault(RosterFault):
    """The first faulty line of a state and its cause."""

    kind = "state"


class Cause(Exception):
    """What is wrong with a line, the word of its cause."""


@dataclass(frozen=True)
class Reading:
    """A stored message: its counter or access number, its moment, its payload."""

    counter: int
    moment: int
    payload: bytes


@dataclass
class Start:
    """What is known of a meter (`Start`): its slot begins with it, and leaves it behind for the next session."""

    commission: Commission
    commands: Commands
    fragments: Fragments = field(default_factory=Fragments)
    reading: Reading | None = None

    def commission_now(self) -> Commission:
        """`commission_of`: as the next roster has it."""
        it = self.commission
        return Commission(it.address, it.mode, it.key, it.other, it.last, self.commands.down, self.commands.ids)


@dataclass
class State:
    """The collector's own address and what is known of its meters, in their order (`Known`)."""

    own: bytes
    meters: list[Start]


def fresh_start(commission: Commission) -> Start:
    """`fresh_start`: only what is commissioned of the meter is known."""
    return Start(commission, Commands(commission.ids, commission.down))


def state_of(roster: Roster) -> State:
    """`of_roster`: a roster is a state."""
    return State(roster.own, [fresh_start(it) for it in roster.meters])


def _add_reading(start: Start, fields: list[bytes]) -> None:
    """`with_reading_in`: the meter's last reading, of which there is one."""
    if start.reading:
        raise Cause("twice")
    if len(fields) != 3:
        raise Cause("fields")
    moment, counter = number_of(fields[0], MOMENTS), number_of(fields[1], WORD)
    payload = b"" if fields[2] == b"-" else unhex(DIGITS, fields[2])
    if moment is None:
        raise Cause("at")
    if counter is None:
        raise Cause("counter")
    if payload is None or len(payload) > LONGEST_READING:
        raise Cause("payload")
    start.reading = Reading(counter, moment, payload)


def _add_part(start: Start, fields: list[bytes]) -> None:
    """`with_part_in`: a fragment that came behind those above it."""
    if len(fields) != 1:
        raise Cause("fields")
    sent = unhex(DIGITS, fields[0])
    if not sent or sent[0] != AFL:
        raise Cause("part")
    try:
        afl, piece = read_afl(sent)
    except LayerFault:
        raise Cause("part") from None
    if not afl.is_fragment or afl.number > MOST or len(piece) > LONGEST_PIECE:
        raise Cause("part")
    start.fragments.hold(afl, piece)


def _add_tick(start: Start, fields: list[bytes]) -> None:
    """`with_tick`: a tick behind the fragments above it."""
    if fields:
        raise Cause("fields")
    start.fragments.tick()


def _add_command(start: Start, fields: list[bytes], is_open: bool) -> None:
    """`with_command_in`: a command behind those above it, and whether the window is open for it."""
    if len(fields) != 3:
        raise Cause("fields")
    ident, tries, payload = number_of(fields[0], WORD), number_of(fields[1], TRIES + 1), unhex(DIGITS, fields[2])
    if ident is None:
        raise Cause("id")
    if tries is None:
        raise Cause("tries")
    if payload is None or not 1 <= len(payload) <= MOST_PAYLOAD:
        raise Cause("payload")
    if not start.commands.restore(Command(ident, payload, tries), is_open):
        raise Cause("command")


WORDS: dict[bytes, Callable[[Start, list[bytes]], None]] = {
    b"reading": _add_reading,
    b"part": _add_part,
    b"tick": _add_tick,
    b"waits": lambda start, fields: _add_command(start, fields, True),
    b"command": lambda start, fields: _add_command(start, fields, False),
}


def _read_more(meters: dict[bytes, Start], line: bytes) -> None:
    """`read_more`: what one more line says, which opens a meter's block or belongs to the last one."""
    kind, *fields = line.split(b" ")
    if kind == METER:
        meter = meter_of([kind, *fields], VERSION_2)
        if isinstance(meter, str):
            raise Cause(meter)
        if meter.address in meters:
            raise Cause("same")
        if len(meters) == MOST_METERS:
            raise Cause("toomany")
        meters[meter.address] = fresh_start(meter)
        return
    if not meters:
        raise Cause("place")
    if kind not in WORDS:
        raise Cause("kind")
    WORDS[kind](next(reversed(meters.values())), fields)


def read_state(text: bytes) -> State:
    """`state_of`: the state of a text, or its first faulty line and cause; without a state's head it is a roster.

    Of a text that is too long the head isn't looked at, and it is named as a roster."""
    if len(text) > LIMIT:
        raise RosterFault(0, "toolong")
    lines = lines_of(text)
    told = iter(told_of(lines))
    if next(told, (0, b""))[1] != HEAD:
        return state_of(read_roster(text))
    missing = StateFault(len(lines) + 1, "missing")
    number, line = next(told, (0, b""))
    if not number:
        raise missing
    own = own_of(line)
    if own is None:
        raise StateFault(number, "own")
    meters: dict[bytes, Start] = {}
    for number, line in told:
        if line == END:
            break
        try:
            _read_more(meters, line)
        except Cause as cause:
            raise StateFault(number, str(cause)) from None
    else:
        raise missing
    for number, _ in told:
        raise StateFault(number, "behind")
    return State(own, list(meters.values()))


def _part_line(piece: Piece) -> str:
    return f"part {(afl_bytes(piece.afl) + piece.content).hex()}"


def block_lines(start: Start) -> list[str]:
    """`block_text`: a meter's line, and below it the reading, the fragments with the tick between them, the commands."""
    lines = [meter_line(start.commission_now())]
    if start.reading:
        it = start.reading
        lines.append(f"reading {it.moment} {it.counter} {it.payload.hex() or '-'}")
    pieces = start.fragments.pieces.values()
    old = [_part_line(piece) for piece in pieces if piece.ticks]
    lines += old + ["tick"] * bool(old) + [_part_line(piece) for piece in pieces if not piece.ticks]
    for command in start.commands.waiting:
        word = "waits" if command.ident == start.commands.open_for else "command"
        lines.append(f"{word} {command.ident} {command.tries} {command.payload.hex()}")
    return lines


def state_text(state: State) -> str:
    """`state_text`: the text of a state."""
    lines = [HEAD.decode(), own_line(state.own)] + [line for start in state.meters for line in block_lines(start)]
    return "".join(f"{line}\n" for line in [*lines, END.decode()])
