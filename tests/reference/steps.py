"""What `wmbus steps` prints: each line of a stream as a JSON object, each concerned meter's block of the next state, and the counts.

docs/FORMATS.md, "Steps"."""
import errno
import os
import sys
from collections.abc import Iterator

from reference.frames import FrameFault
from reference.lines import BadLine, Feed, Order
from reference.readings import compact_line
from reference.reasons import Reason
from reference.roster import RosterFault
from reference.sessions import CLASSES
from reference.slots import Event, Slot, event_of
from reference.states import LIMIT, Start, State, block_lines, read_state, state_text

EVENTS = {"T": "tick", "Q": "put", "X": "cancel", "K": "rekey"}
DONE, WORDS, FAULTY, UNREAD, DEAF, UNWRITTEN, PAST_LIMIT, NO_MEMORY, UNOPENED = 0, 2, 3, 4, 5, 7, 8, 10, 11
ENDS = {DONE: "end", DEAF: "readfault", PAST_LIMIT: "cut"}
PIECE = 1 << 16
KEPT_BY_OWNER = 0o600
STANDARD = "-"


def event_word(event: Event) -> str:
    """What comes to a meter."""
    return EVENTS[event.letter] if isinstance(event, Order) else "hear"


def _reason_tree(kind: str, reason: Reason) -> dict[str, object]:
    """A line that is for no meter, with its cause."""
    return {"kind": kind, "reason": reason.words, "values": list(reason.values)}


def _block_line(known: Start) -> str:
    """The line of a meter's block of the next state."""
    block = "".join(f"{line}\n" for line in block_lines(known))
    told = {"address": known.commission.address.hex(), "block": block, "kind": "block"}
    return compact_line(told | {"holds": len(known.fragments.pieces), "waits": known.commands.open_for})


class Stepping:
    """A session of one receiver, told line by line."""

    def __init__(self, state: State) -> None:
        self.state = state
        self.slots = {known.commission.address: Slot(state.own, known) for known in state.meters}
        self.counts = dict.fromkeys(CLASSES, 0)
        self.stepped: set[bytes] = set()

    def line(self, text: bytes) -> str:
        """What is told of one more line."""
        self.counts["lines"] += 1
        return compact_line({"line": self.counts["lines"]} | self._told(text))

    def _told(self, text: bytes) -> dict[str, object]:
        try:
            address, event = event_of(text)
        except BadLine as fault:
            self.counts["bad"] += 1
            return _reason_tree("bad", fault)
        except FrameFault as fault:
            self.counts["unframed"] += 1
            return _reason_tree("unframed", fault)
        told = {"address": address.hex(), "event": event_word(event)}
        slot = self.slots.get(address)
        if slot is None:
            self.counts["strangers"] += 1
            return told | {"kind": "stranger"}
        self.counts["own"] += 1
        self.stepped.add(address)
        return told | {"kind": "step"} | slot.step(event).members

    def next_state(self) -> str:
        """The state behind the lines so far."""
        return state_text(self.state)

    def end(self, how: str) -> str:
        """The blocks of the meters that had a step, and the counts."""
        concerned = [known for known in self.state.meters if known.commission.address in self.stepped]
        return "".join(map(_block_line, concerned)) + compact_line({"kind": "counts", "end": how} | self.counts)


def told_over(state: State, heard: bytes) -> tuple[int, str, str]:
    """A run over a state and a receiver's text: its status, all that is told, and the next state."""
    stepping, feed = Stepping(state), Feed(iter((heard, b"")).__next__)
    lines = [stepping.line(line) for line in feed]
    status = PAST_LIMIT if feed.is_over else DONE
    return status, "".join(lines) + stepping.end(ENDS[status]), stepping.next_state()


class Ended(Exception):
    """A run ends with this status, for which these words are said."""

    def __init__(self, status: int, words: str) -> None:
        super().__init__(words)
        self.status = status


def _opened(name: str, flags: int) -> int:
    try:
        return os.open(name, flags | os.O_CLOEXEC, KEPT_BY_OWNER)
    except OSError:
        raise Ended(UNOPENED, f"cannot open {name}") from None


def _written(file: int, text: str, name: str) -> None:
    """Writes all of a text."""
    left = memoryview(text.encode("ascii"))
    try:
        while left:
            left = left[os.write(file, left):]
    except OSError:
        raise Ended(UNWRITTEN, f"cannot write {name}") from None


def _known_in(file: int) -> State:
    """The state of an opened file, or that of a roster."""
    pieces, left = [], LIMIT + 1
    try:
        while left and (piece := os.read(file, min(left, PIECE))):
            pieces.append(piece)
            left -= len(piece)
        return read_state(b"".join(pieces))
    except OSError:
        raise Ended(UNREAD, "cannot read the roster") from None
    except RosterFault as fault:
        raise Ended(FAULTY, str(fault)) from None


def _unlike(names: list[str]) -> None:
    """No other word leads to the regular file NEXT."""
    state, following, heard = names
    if following == STANDARD or not os.path.isfile(following):
        return
    others = [state, *[heard] * (heard != STANDARD)]
    if any(os.path.exists(it) and os.path.samefile(it, following) for it in others):
        raise Ended(UNOPENED, f"the file {following} is named twice")


def _all_told(stepping: Stepping, heard: int) -> int:
    """Prints what is told of each line as soon as it was read; how it ended."""
    feed = Feed(lambda: os.read(heard, PIECE))
    lines: Iterator[bytes] = iter(feed)
    while True:
        try:
            line = next(lines, None)
        except OSError as fault:
            return NO_MEMORY if fault.errno == errno.ENOMEM else DEAF
        if line is None:
            return PAST_LIMIT if feed.is_over else DONE
        _written(1, stepping.line(line), "steps")


def run(names: list[str]) -> int:
    """A run over STATE, NEXT and RX."""
    _unlike(names)
    # (where a standard stream is closed, no file that is opened takes its number)
    while os.open(os.devnull, os.O_RDONLY) <= 2:
        pass
    beginning = _opened(names[0], os.O_RDONLY)
    following = None if names[1] == STANDARD else _opened(names[1], os.O_WRONLY | os.O_CREAT | os.O_TRUNC)
    heard = 0 if names[2] == STANDARD else _opened(names[2], os.O_RDONLY)
    _unlike(names)
    stepping = Stepping(_known_in(beginning))
    status = _all_told(stepping, heard)
    if following is not None:
        _written(following, stepping.next_state(), "next")
    _written(1, stepping.end(ENDS[status]), "steps")
    if status == DEAF:
        raise Ended(status, "cannot read receiver 1")
    if status == PAST_LIMIT:
        raise Ended(status, "receiver 1 goes past the limit")
    return DONE


def main(names: list[str]) -> int:
    """A run with its status, whose words go to the standard error."""
    try:
        if len(names) != 3 or names[1] in {names[0], names[2]} - {STANDARD}:
            raise Ended(WORDS, "words")
        return run(names)
    except Ended as ended:
        status, words = ended.status, str(ended)
    except MemoryError:
        status, words = NO_MEMORY, "no memory"
    print(f"wmbus: {words}", file=sys.stderr)
    return status
