"""Made sessions and their summaries (docs/FORMATS.md, "Made sessions")."""
from reference.ciphers import BLOCK, METER_CIPHER, METER_MAC, cbc_encrypted, cmac, derived
from reference.frames import frame_a
from reference.roster import Commission, Roster, roster_text
from reference.sessions import outputs_of, session_of
from reference.states import state_of

OWN = bytes.fromhex("9315010000000131")
FACTOR, STEP, MASK = 6364136223846793005, 1442695040888963407, (1 << 64) - 1
RECEIVERS, GROUP = 4, 4
AUTHENTICATION, HEADER = bytes.fromhex("900f002c"), bytes.fromhex("7a0100100710")


def _bcd(number: int) -> bytes:
    """Eight digits, low byte first."""
    return bytes.fromhex(f"{number:08d}")[::-1]


def meters_of(count: int, seed: int) -> list[Commission]:
    """`meters_of`: the meters, each with a key of four draws."""
    meters, state = [], seed
    for number in range(1, count + 1):
        key = b""
        for _ in range(4):
            state = state * FACTOR + STEP & MASK
            key += (state >> 32).to_bytes(4, "little")
        meters.append(Commission(bytes.fromhex("9315") + _bcd(number) + bytes([1, 7]), 7, key, None, None, 0, 0))
    return meters


def _telegram(body: bytes) -> bytes:
    return bytes([len(body)]) + body


def _uplink(meter: Commission, counter: int) -> bytes:
    """`uplink`: a genuine message of mode 7 with this counter, which is also its volume."""
    identification, number = meter.address[2:6], counter.to_bytes(4, "little")
    content = (b"\x2f\x2f\x0c\x13" + _bcd(counter)).ljust(BLOCK, b"\x2f")
    message = HEADER + cbc_encrypted(derived(meter.key, METER_CIPHER, counter, identification), bytes(BLOCK), content)
    mac = cmac(derived(meter.key, METER_MAC, counter, identification), b"\x25" + number + message)[:8]
    return _telegram(b"\x44" + meter.address + AUTHENTICATION + b"\x25" + number + mac + message)


def _stranger(place: int) -> bytes:
    """`stranger`: the telegram that is nobody's."""
    return _telegram(bytes.fromhex("4493159999999901077a") + bytes([place & 0xFF, 0, 0, 0]))


def _lines(meters: list[Commission], telegrams: int) -> list[bytes]:
    """`line_at`: the lines of the telegrams, from 1."""
    lines = []
    for place in range(1, telegrams + 1):
        turn, rounds = (place - 1) % (len(meters) + 1), (place - 1) // (len(meters) + 1) + 1
        telegram = _stranger(place) if turn == len(meters) else _uplink(meters[turn], rounds)
        lines.append(f"A {place} {frame_a(telegram).hex()}\n".encode())
    return lines


def _heard(lines: list[bytes], receiver: int) -> bytes:
    """`heard`: what a receiver hears, each group rotated."""
    groups = [lines[start:start + GROUP] for start in range(0, len(lines), GROUP)]
    return b"".join(b"".join(group[receiver % len(group):] + group[:receiver % len(group)]) for group in groups)


def made_inputs(meters: int, telegrams: int, seed: int) -> tuple[bytes, list[bytes]]:
    """The roster of a made session, and what each of its receivers hears."""
    known = meters_of(meters, seed)
    lines = _lines(known, telegrams)
    return roster_text(Roster(OWN, known)).encode(), [_heard(lines, receiver) for receiver in range(RECEIVERS)]


def summary_told(report: str) -> str:
    """The summary whose numbers are those of a report."""
    rows = [line.split(" ") for line in report.splitlines()]
    receivers, meters, strangers = ([row for row in rows if row[0] == word] for word in ("receiver", "meter", "strangers"))
    last, steps = (sum(int(row[row.index(word) + 1].replace("-", "0")) for row in meters) for word in ("last", "steps"))
    lines = sum(int(row[3]) for row in receivers)
    told = f"meters {len(meters)} receivers {len(receivers)} lines {lines} steps {steps} strangers {strangers[0][1]}"
    return f"wmbus-made 1\n{told}\nhighest {last}\nend\n"


def made_summary(meters: int, telegrams: int, seed: int) -> str:
    """`summary_text`, by hearing the session."""
    roster = Roster(OWN, meters_of(meters, seed))
    lines = _lines(roster.meters, telegrams)
    session = session_of(state_of(roster), [_heard(lines, receiver) for receiver in range(RECEIVERS)])
    outputs_of(session, {address: list(events) for address, events in session.events.items()}, list(session.strangers))
    steps, highest = sum(len(it) for it in session.events.values()), sum(it.last or 0 for it in roster.meters)
    counted = sum(it.counts["lines"] for it in session.receivers)
    told = f"meters {meters} receivers {RECEIVERS} lines {counted} steps {steps} strangers {len(session.strangers)}"
    return f"wmbus-made 1\n{told}\nhighest {highest}\nend\n"
