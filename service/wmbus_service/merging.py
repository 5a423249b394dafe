"""Several receivers' lines as one stream, by their moments; each receiver's stay in their order."""
from __future__ import annotations

import heapq
import re
from collections import Counter
from collections.abc import Iterator, Sequence

from .memory_files import memory_files, path_of
from .spool import Spooled
from .steps import ProgramFailed, output_of

MOMENTS = 1 << 64
# a line of a frame (docs/FORMATS.md, "Lines of a receiver"); a carriage return in front of its newline isn't of it
FRAME = re.compile(r"[AB] (0|[1-9][0-9]{0,19}) (?:[0-9a-fA-F]{2})*")
LONGEST = 1024


def moment_in(text: str, before: int) -> int:
    """The moment at which a line was heard; one without a moment, as a bad one, stands at that of the line before it."""
    line = text.removesuffix("\r")
    found = FRAME.fullmatch(line)
    if found and len(line) <= LONGEST and int(found[1]) < MOMENTS:
        return int(found[1])
    return before


def merged(inputs: Sequence[Sequence[Spooled]], program: Sequence[str] = ()) -> list[Spooled]:
    """All lines, the least moment first, of equal ones the first input's: as the program `line_merge` says, or else by the same rule."""
    present = [lines for lines in inputs if lines]
    if len(present) < 2:
        return [line for lines in present for line in lines]
    heads = [iter(lines) for lines in present]
    order = _order_of_program(present, program) if program else _order_of(present)
    return [next(heads[place]) for place in order]


def _order_of(inputs: Sequence[Sequence[Spooled]]) -> Iterator[int]:
    """Whose line is next, one after the other."""
    streams = [_moments(lines) for lines in inputs]
    heads = [(next(stream), place) for place, stream in enumerate(streams)]
    heapq.heapify(heads)
    while heads:
        place = heads[0][1]
        yield place
        following = next(streams[place], None)
        if following is None:
            heapq.heappop(heads)
        else:
            heapq.heapreplace(heads, (following, place))


def _moments(lines: Sequence[Spooled]) -> Iterator[int]:
    """The moments at which an input's lines stand."""
    moment = 0
    for line in lines:
        moment = moment_in(line.text, moment)
        yield moment


def _order_of_program(inputs: Sequence[Sequence[Spooled]], program: Sequence[str]) -> list[int]:
    """Whose line is next, as `line_merge --numbered` prints it."""
    texts = ["".join(f"{line.text}\n" for line in lines).encode("latin-1") for lines in inputs]
    with memory_files(texts) as opened:
        output = output_of([*program, "--numbered", *(path_of(number) for number in opened)], (), opened)
    told = [line.split(b" ", 1)[0] for line in output.split(b"\n") if line]
    if Counter(told) != {b"%d" % number: len(lines) for number, lines in enumerate(inputs, 1)}:
        raise ProgramFailed(0, "what it printed isn't an order of all lines")
    return [int(number) - 1 for number in told]
