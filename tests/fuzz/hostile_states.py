"""Hostile states: such as sessions write, and one of which every kind of line is known, changed in bytes, fields, lines and ends."""
from __future__ import annotations

import random
from collections.abc import Callable

import hostile
import judging
from reference.layers import AFL, AFL_FIELDS
from reference.sessions import outputs_of, session_of
from reference.states import LIMIT, read_state

ADDRESS, SECOND = "9315010203040107", "9315785634123303"
HEAD = ["wmbus-state 1", "own 9315010000000131"]
# two meters of which all is known that a state can say, and one of which nothing is known but what a roster says
KNOWN = [line.encode() for line in [
    "# a state", *HEAD, "",
    f"meter {ADDRESS} 7 000102030405060708090a0b0c0d0e0f f0f1f2f3f4f5f6f7f8f9fafbfcfdfeff 4294967294 4 7",
    "reading 18446744073709551615 4294967294 2f2f0c1427048502",
    "part 900a030444be55dccc54b5b50decfe5e405e", "tick",
    "part 9007016825080000007a0100100710e50c", "part 90020240d21ef5cd1c2a5f71",
    "waits 3 3 012f2f2f", "command 5 0 02", "command 7 0 03",
    f"meter {SECOND} 5 0102030405060708090a0b0c0d0e0f11 - 42 4294967294 8", "reading 100 42 -", "command 8 2 01",
    "meter f09a3d86a480040a 7 5bdb9b96294e7c32b302e186433adf1d - - 0 0", "end",
]]
NUMBERS = [0, 1, 2, 3, 4, 7, 8, 9, 255, 256, 2**32 - 1, 2**32, 2**64 - 1, 2**64, 10**20, "00", "01", "+1", "-1", "1e3", "", "-", "3 ", "٣",
           "9" * 400]
MOST_READING, MOST_COMMAND, MOST_PIECE = 4096, 94, 242
MOST_WRITTEN = 24
State = tuple[list[bytes], bytes]


def written(number: int, seed: str) -> State:
    """A state as the first half of a drawn session writes it, in lines, and some lines of a receiver behind it."""
    roster, texts = judging.session_drawn(number, seed)
    lines = texts[0].split(b"\n")
    session = session_of(read_state(roster.encode()), [b"\n".join(lines[:len(lines) // 2]) + b"\n"])
    orders = {address: list(events) for address, events in session.events.items()}
    state = outputs_of(session, orders, list(session.strangers)).next_state
    return state.encode().split(b"\n")[:-1], b"\n".join(lines[len(lines) // 2:][:20])


def _place(draw: random.Random, lines: list[bytes]) -> int:
    return draw.randrange(len(lines)) if lines else 0


def _with_field(draw: random.Random, lines: list[bytes], places: dict[bytes, list[int]], value: bytes) -> None:
    """Puts a value in one of these fields of a line, by the line's first word."""
    fitting = [(at, place) for at, line in enumerate(lines) for place in places.get(line.split(b" ")[0], [])
               if place < len(line.split(b" "))]
    if fitting:
        at, place = draw.choice(fitting)
        fields = lines[at].split(b" ")
        lines[at] = b" ".join([*fields[:place], value, *fields[place + 1:]])


def other_byte(draw: random.Random, lines: list[bytes]) -> None:
    """One byte changed, which may make two lines of one, or one of two."""
    text = bytearray(b"\n".join(lines))
    if text:
        text[draw.randrange(len(text))] = draw.choice(b" \n\r\t#-019agG\0\x80\xff")
        lines[:] = bytes(text).split(b"\n")


def doubled(draw: random.Random, lines: list[bytes]) -> None:
    """A line twice, the second time anywhere."""
    if lines:
        lines.insert(draw.choice([_place(draw, lines), len(lines)]), draw.choice(lines))


def left_out(draw: random.Random, lines: list[bytes]) -> None:
    """A line less."""
    if lines:
        del lines[_place(draw, lines)]


def exchanged(draw: random.Random, lines: list[bytes]) -> None:
    """Two lines in each other's place, often neighbours."""
    if len(lines) > 1:
        first = draw.randrange(len(lines) - 1)
        second = draw.choice([first + 1, _place(draw, lines)])
        lines[first], lines[second] = lines[second], lines[first]


def other_number(draw: random.Random, lines: list[bytes]) -> None:
    """A number at a limit, past it, or none."""
    places = {b"meter": [2, 5, 6, 7], b"reading": [1, 2], b"waits": [1, 2], b"command": [1, 2]}
    _with_field(draw, lines, places, str(draw.choice(NUMBERS)).encode())


def other_bytes(draw: random.Random, lines: list[bytes]) -> None:
    """Hexadecimal of another length, at a limit or past it, in capitals, or none."""
    most = draw.choice([MOST_READING, MOST_COMMAND, MOST_PIECE, 16, 8, 1, 300_000])
    digits = draw.randbytes(max(0, most + draw.choice([-1, 0, 0, 1]))).hex()
    value = draw.choice([digits, digits.upper(), digits[:-1], "-", "", "0x00", digits[:8] + "g" + digits[9:], " "])
    places = {b"own": [1], b"meter": [1, 3, 4], b"reading": [3], b"part": [1], b"waits": [3], b"command": [3]}
    _with_field(draw, lines, places, value.encode())


def other_part(draw: random.Random, lines: list[bytes]) -> None:
    """A fragment with other fields, another number, another length, or cut off."""
    number, bits = draw.choice([0, 1, 1, 2, 3, 15, 16, 17, 255]), draw.choice([0x4000, 0x4000, 0, 0xC000, 0x4100, 0x8100])
    named = [bit for bit, _ in AFL_FIELDS if draw.random() < draw.choice([0.1, 0.5])]
    size = sum(width for bit, width in AFL_FIELDS if bit in named)
    said = 2 + size if draw.random() < 0.9 else draw.randrange(256)
    ci = AFL if draw.random() < 0.95 else draw.randrange(256)
    layer = bytes([ci, said]) + (bits | number | sum(named)).to_bytes(2, "little") + draw.randbytes(size)
    sent = layer + draw.randbytes(draw.choice([0, 1, 20, 241, 242, 243, 251]))
    lines.insert(_place(draw, lines) + 1, b"part " + (sent if draw.random() < 0.9 else sent[:draw.randrange(len(sent))]).hex().encode())


def more_commands(draw: random.Random, lines: list[bytes]) -> None:
    """Commands below a meter's line, with rising ids or nearly so, up to one more than may wait."""
    meters = [at for at, line in enumerate(lines) if line.startswith(b"meter ")]
    if meters:
        ids, at = 0, draw.choice(meters)
        lines[at] = b" ".join([*lines[at].split(b" ")[:7], draw.choice([b"9", b"8", b"100"])])
        made = []
        for place in range(draw.choice([1, 2, 7, 8, 9])):
            ids += draw.choice([1, 1, 1, 1, 1, 1, 2, 0])
            word = "waits" if place == 0 and draw.random() < 0.4 else "command" if draw.random() < 0.98 else "waits"
            tries = draw.choice([0, 1, 2, 3]) if place == 0 else 0 if draw.random() < 0.98 else 1
            made.append(f"{word} {ids} {tries} {draw.randbytes(3).hex()}".encode())
        rest = [line for line in lines[at + 1:] if not line.startswith((b"waits ", b"command "))]
        lines[at + 1:] = made + rest


def other_spelling(draw: random.Random, lines: list[bytes]) -> None:
    """Blanks, tabs, carriage returns, a field more or less, capitals."""
    at = _place(draw, lines)
    if not lines:
        return
    line = lines[at]
    fields = line.split(b" ")
    lines[at] = draw.choice([
        line + b" ", b" " + line, line.replace(b" ", b"  ", 1), line.replace(b" ", b"\t", 1), line + b" 0", b" ".join(fields[:-1]),
        line.upper(),
        line + b"\r", line + b"\r\r", line[:3] + b"\r" + line[3:], b"#" + line, b"\xef\xbb\xbf" + line, line + b"\0",
        line[:draw.randrange(len(line) + 1)]])


def one_more(draw: random.Random, lines: list[bytes]) -> None:
    """A line of another place, or one that may stand anywhere or nowhere."""
    others = [b"tick", b"tick", b"end", b"clear", b"ring 9315010203040107", b"part", b"waits", b"", b"#", b"tick 1", b"end ",
              b"wmbus-roster 2"]
    other = draw.choice([*KNOWN, *others])
    lines.insert(draw.randrange(len(lines) + 1), other)


def other_head(draw: random.Random, lines: list[bytes]) -> None:
    """Another head: that of a roster, or none."""
    heads = [at for at, line in enumerate(lines) if line.startswith(b"wmbus-")]
    if heads:
        others = [b"wmbus-roster 2", b"wmbus-roster 2", b"wmbus-roster 1", b"wmbus-state 2", b"wmbus-state", b"wmbus-state 1 ", b""]
        lines[heads[0]] = draw.choice(others)


def roster_alone(draw: random.Random, lines: list[bytes]) -> None:
    """The lines that a roster has, below its head."""
    lines[:] = [b"wmbus-roster 2", *(line for line in lines if line.startswith((b"own ", b"meter ")))]


CHANGES = [
    other_byte, doubled, left_out, exchanged, other_number, other_number, other_bytes, other_part, other_part, more_commands,
    other_spelling, one_more,
    one_more, other_head, roster_alone,
]
RARE = {other_head, roster_alone}


def text_of(draw: random.Random, lines: list[bytes]) -> bytes:
    """The text of lines: mostly each ends with a newline, at times all with a carriage return before it, and the last one with less."""
    end = b"\r\n" if draw.random() < 0.05 else b"\n"
    last = end if draw.random() < 0.9 else draw.choice([b"", b"\r", b"\r\r\n", b"\n\n"])
    return end.join(lines) + last if lines else b""


def changed(draw: random.Random, lines: list[bytes]) -> bytes:
    """A state with one to four changes."""
    lines = list(lines)
    for _ in range(draw.choice([1, 1, 1, 2, 4])):
        change = draw.choice(CHANGES)
        if change not in RARE or draw.random() < 0.5:
            change(draw, lines)
    return text_of(draw, lines)


def with_byte(draw: random.Random, place: int) -> bytes:
    """The state of which every kind of line is known, with another byte at a place."""
    text = bytearray(b"\n".join(KNOWN) + b"\n")
    place %= len(text)
    text[place] = draw.choice([text[place] ^ 1 << draw.randrange(8), *b" \n\r#-09agG\0\xff"])
    return bytes(text)


def cut_off(place: int) -> bytes:
    """The same state cut off at a place."""
    text = b"\n".join(KNOWN) + b"\n"
    return text[:place % (len(text) + 1)]


def meters(count: int) -> list[bytes]:
    """A state of so many meters."""
    lines = [f"meter 9315{number:08x}0107 7 {number:032x} - - 0 0".encode() for number in range(count)]
    return [*(line.encode() for line in HEAD), *lines, b"end"]


def _ended(lines: list[bytes]) -> bytes:
    return b"".join(line + b"\n" for line in lines)


def _filled(text: bytes, size: int) -> bytes:
    """A text of this size, a comment behind it."""
    return text + b"#" * (size - len(text))


def _parts(numbers: range) -> list[bytes]:
    return [f"part 9002{number:02x}40{number:02x}".encode() for number in numbers]


ROSTER = [b"wmbus-roster 2", *(line for line in KNOWN if line.startswith((b"own ", b"meter ")))]
# states and rosters at a limit and just past it: meters, fragments, a roster's bytes under both heads, a state's bytes
LIMITS: list[Callable[[], bytes]] = [
    lambda: _ended(meters(4096)),
    lambda: _ended(meters(4097)),
    lambda: _ended([*KNOWN[:5], *_parts(range(1, 17)), b"tick", *_parts(range(1, 4)), b"end"]),
    lambda: _ended([*KNOWN[:5], *_parts(range(1, 18)), b"end"]),
    lambda: _filled(_ended(KNOWN), 1_048_577),
    lambda: _filled(_ended(ROSTER), 1_048_576),
    lambda: _filled(_ended(ROSTER), 1_048_577),
    lambda: _filled(_ended(KNOWN), LIMIT),
    lambda: _filled(_ended(KNOWN), LIMIT + 1),
    lambda: b"",
]


def _block(*below: str, ids: int = 9, mode: int = 7) -> bytes:
    """A state of one meter with these lines below its own."""
    line = f"meter {ADDRESS} {mode} 000102030405060708090a0b0c0d0e0f - - 0 {ids}"
    return _ended([it.encode() for it in (*HEAD, line, *below, "end")])


def _commands(count: int, first: str = "command 1 0 01") -> list[str]:
    return [first, *(f"command {number} 0 01" for number in range(2, count + 1))]


# blocks at a limit and just past it, and lines with more than one fault, of which the first counts
EDGES = [
    *(_block(f"reading {at} {counter} {'5a' * size}") for at, counter, size in [
        (2**64 - 1, 2**32 - 1, 4096), (0, 0, 4097), (2**64, 2**32, 4097), (1, 2**32, 4097), ("00", "00", 0), ("", "", 0)]),
    *(_block("reading 1 1 -", second) for second in ["reading 1 1 -", "reading x", "reading"]),
    *(_block(f"{word} {ident} {tries} {payload}") for word in ["waits", "command"] for ident, tries, payload in [
        (1, 0, "01"), (1, 1, "01"), (1, 2, "01"), (1, 3, "01"), (1, 4, "01"), (0, 1, "01"), (9, 1, "5a" * 94), (9, 1, "5a" * 95),
        (10, 1, "01"),
        (2**32 - 1, 1, "01"), (2**32, 4, "-"), (10, 4, "-"), (10, 3, ""), (10, 3, "-"), (1, 1, "0"), ("01", 1, "01"), (1, "01", "01")]),
    *(_block(*_commands(count, first)) for count in (8, 9) for first in ("waits 1 3 01", "command 1 2 01")),
    *(_block(*_commands(2), last) for last in ["command 2 0 01", "command 3 1 01", "waits 3 1 01", "waits 3 0 01", "command 9 0 01",
                                               "command 3 0 01"]),
    _block(f"command {2**32 - 1} 0 01", ids=2**32 - 1),
    *(_block(f"part {layer}{'5a' * size}", mode=mode) for mode in (5, 7) for layer, size in [
        ("90020140", 242), ("90020140", 243), ("90021040", 1), ("90021140", 1), ("90020040", 1), ("90020000", 1), ("90020100", 1),
        ("90020200", 0),
        ("900a030400000000000000ff", 1), ("900a034400000000000000ff", 1), ("9003024001", 1), ("90030140", 1), ("900201c1", 1),
        ("91020140", 1),
        ("900201", 0), ("", 0)]),
    *(_block(*below) for below in [["tick", "tick"], ["part 9002014001", "tick", "tick"], ["part 9002014001", "tick", "part 9002014002"],
                                   ["part 9002014001", "tick", "part 9002024002", "tick", "part 9002034003"], ["part", "tick 1"],
                                   ["tick "]]),
    *(_ended([it.encode() for it in (*HEAD, line, "end")]) for line in [
        "meter", f"meter {ADDRESS}", "meter a 6 k o l d i", f"meter {ADDRESS} 6 k o l d i",
        f"meter {ADDRESS} 5 {'00' * 16} {'00' * 16} l d i",
        f"meter {ADDRESS} 5 {'00' * 16} - 256 d i", f"meter {ADDRESS} 7 {'00' * 16} - 256 d i", f"meter {ADDRESS} 7 {'00' * 16} - - 1 i",
        "tick", "end "]),
]


def hostile_bytes(draw: random.Random) -> bytes:
    """Bytes by chance behind the head of a state, or a state with a piece changed."""
    text = b"\n".join(KNOWN)
    return draw.choice([b"wmbus-state 1\n" + draw.randbytes(draw.randrange(200)), hostile.bent(draw, text, draw.randrange(1, 5))])


def written_ones(count: int, seed: str) -> list[State]:
    """The states of which so many drawn ones are made."""
    return [written(number, seed) for number in range(min(MOST_WRITTEN, count))]


def state_drawn(number: int, seed: str, written_before: list[State]) -> tuple[bytes, bytes]:
    """The state of a number, and a receiver's lines."""
    draw = random.Random(f"{seed} state {number}")
    if number < len(LIMITS):
        return LIMITS[number](), b""
    number -= len(LIMITS)
    if number < len(EDGES):
        return EDGES[number], b""
    turn, kind = divmod(number - len(EDGES), 8)
    if kind < 3:
        return with_byte(draw, turn * 3 + kind), b""
    if kind == 3:
        return cut_off(turn), b""
    if kind == 4 and turn % 4 == 0:
        return hostile_bytes(draw), b""
    lines, heard = draw.choice(written_before) if kind < 7 else (KNOWN, b"")
    return changed(draw, lines), heard if draw.random() < 0.3 else b""
