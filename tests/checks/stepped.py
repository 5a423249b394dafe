"""What `wmbus steps` tells, said again as the report, the downlinks, the last readings and the next state of the same session say it."""
from __future__ import annotations

import json
from dataclasses import dataclass, field
from typing import Any

from reference.reports import letters_of

Tree = dict[str, Any]
HEARD = {"address", "event", "kind", "line"}
CAUSED = {"kind", "line", "reason", "values"}
# the members of each kind of line, and of a step by its outcome
KINDS = {
    "stranger": HEARD, "unframed": CAUSED, "bad": CAUSED,
    "block": {"address", "block", "holds", "kind", "waits"},
    "counts": {"bad", "end", "kind", "lines", "own", "strangers", "unframed"},
}
NOTHING: set[str] = set()
OUTCOMES = {
    "stored": {"at", "confirmed", "counter", "fault", "more", "payload", "records", "sent"}, "part": NOTHING, "rekeyed": NOTHING,
    "ticked": {"expired"}, "queued": {"id"}, "cancelled": {"id"}, "refused": {"reason", "values"},
}
EVENTS = {"A": "hear", "B": "hear", "T": "tick", "Q": "put", "X": "cancel", "K": "rekey"}
RING = 256


class Unlike(Exception):
    """What of the lines isn't as it has to be."""


@dataclass
class Told:
    """The lines of a run by their kinds."""

    lines: list[Tree] = field(default_factory=list)
    blocks: list[Tree] = field(default_factory=list)
    counts: Tree = field(default_factory=dict)

    def of_kind(self, kind: str) -> list[Tree]:
        """The lines of a kind."""
        return [line for line in self.lines if line["kind"] == kind]


def equal(what: str, wanted: object, given: object) -> None:
    """Fails where the two differ."""
    if wanted != given:
        raise Unlike(f"{what}: wanted {str(wanted)[:200]}, got {str(given)[:200]}")


def _tree(number: int, line: str) -> Tree:
    """A line read as JSON: it is the compact text of just the members of its kind, in the order of their names."""
    tree: Tree = json.loads(line)
    equal(f"line {number} of the output", json.dumps(tree, sort_keys=True, separators=(",", ":")), line)
    kind = tree["kind"]
    members = HEARD | {"outcome"} | OUTCOMES[tree["outcome"]] if kind == "step" else KINDS[kind]
    equal(f"members in line {number} of the output", sorted(members), sorted(tree))
    return tree


def told_by(text: str) -> Told:
    """An output read: the lines of the receiver in their order, then the blocks, and the counts last."""
    if not text.endswith("\n"):
        raise Unlike("the output ends without a newline")
    *trees, counts = [_tree(number, line) for number, line in enumerate(text[:-1].split("\n"), 1)]
    equal("kind of the last line", "counts", counts["kind"])
    heard = [tree for tree in trees if "line" in tree]
    equal("lines of the receiver", [*range(1, len(heard) + 1)], [tree["line"] for tree in heard])
    blocks = trees[len(heard):]
    equal("lines behind those of the receiver", ["block"] * len(blocks), [tree["kind"] for tree in blocks])
    return Told(heard, blocks, counts)


def outcome_of(step: Tree) -> str:
    """The outcome as a report's step has it."""
    outcome = str(step["outcome"])
    if outcome == "stored":
        equal(f"what is no lower case hexadecimal in the payload of line {step['line']}", "", step["payload"].strip("0123456789abcdef"))
        confirmed = "" if step["confirmed"] is None else f" confirmed {step['confirmed']}"
        sent = "" if step["sent"] is None else f" sent {step['sent']['down']}"
        return f"stored {step['counter']} {step['at']} {step['payload'] or '-'}{confirmed}{sent}"
    if outcome == "ticked":
        return "ticked" if step["expired"] is None else f"ticked expired {step['expired']}"
    if outcome == "refused":
        return " ".join(["refused", step["reason"], *map(str, step["values"])])
    return f"{outcome} {step['id']}" if "id" in step else outcome


def _record_line(record: Tree) -> str:
    """A record as a report has it."""
    if "maker" in record:
        return f"maker {record['maker']} {record['raw'] or '-'}"
    names = ("function", "storage", "tariff", "subunit", "quantity", "unit", "exponent", "modifiers", "value", "raw")
    return " ".join(["record", *(str(record[name]) or "-" for name in names)])


def _listing_lines(stored: Tree) -> list[str]:
    """The records of a stored step as a report has those of the last one."""
    ended = ["more"] * bool(stored["more"]) + [f"fault {stored['fault']}"] * (stored["fault"] is not None)
    return [_record_line(it) for it in stored["records"]] + ended


def blocks_in(state: str) -> dict[str, str]:
    """The blocks of a state by their meters, each line with its newline."""
    blocks: dict[str, str] = {}
    for line in state.split("\n")[2:-2]:
        word, _, rest = line.partition(" ")
        if word == "meter":
            blocks[rest[:16]] = ""
        last = next(reversed(blocks))
        blocks[last] += f"{line}\n"
    return blocks


def _meter_lines(address: str, block: str, steps: list[Tree]) -> list[str]:
    """A report's lines of a meter, by its steps and its block of the next state."""
    heading, *below = block.split("\n")[:-1]
    _, _, mode, _, _, last, down, _ = heading.split(" ")
    stored = [step for step in steps if step["outcome"] == "stored"]
    letters = letters_of(bytes.fromhex(address[:4]))
    lines = [f"meter {address} {letters} mode {mode} last {last} down {down} steps {len(steps)} readings {len(stored)}"]
    lines += [f"step 1 {step['line']} {outcome_of(step)}" for step in steps]
    lines += [line for it in stored[-1:] for line in _listing_lines(it)]
    commands = [line.split(" ") for line in below if line.startswith(("waits ", "command "))]
    return lines + [f"pending {ident} {tries}" for _, ident, tries, _ in commands]


def report_of(told: Told, state: str) -> str:
    """The report of the session that a run told, which left this state."""
    counts, strangers = told.counts, told.of_kind("stranger")
    numbers = " ".join(f"{name} {counts[name]}" for name in ("lines", "own", "strangers", "unframed", "bad"))
    lines = ["wmbus-report 1", f"receiver 1 {numbers} {counts['end']}"]
    steps: dict[object, list[Tree]] = {}
    for step in told.of_kind("step"):
        steps.setdefault(step["address"], []).append(step)
    for address, block in blocks_in(state).items():
        lines += _meter_lines(address, block, steps.pop(address, []))
    equal("steps of meters that the state doesn't have", {}, steps)
    lines += [f"strangers {len(strangers)}", *(f"stranger 1 {it['line']}" for it in strangers)]
    lines += [f"ring {it['address']}" for it in strangers[-RING:]]
    return "".join(f"{line}\n" for line in [*lines, "end"])


def downlinks_of(told: Told) -> str:
    """The downlinks of the receiver."""
    return "".join(f"D {step['sent']['frame']}\n" for step in told.of_kind("step") if step.get("sent"))


def check_readings(told: Told, readings: str) -> None:
    """The last reading of each meter that stored one is that of its last stored step."""
    meters = {it["address"]: it for it in json.loads(readings)["meters"]}
    stored = {step["address"]: step for step in told.of_kind("step") if step["outcome"] == "stored"}
    for address, step in stored.items():
        names = ("address", "at", "counter", "fault", "more", "records")
        equal(f"last reading of {address}", {name: meters[address][name] for name in names}, {name: step[name] for name in names})


def _check_block(block: Tree) -> None:
    """What a block says of the window and of fragments is what its lines say."""
    words = [line.split(" ") for line in block["block"].split("\n")]
    equal(f"waits of {block['address']}", next((int(it[1]) for it in words if it[0] == "waits"), None), block["waits"])
    equal(f"holds of {block['address']}", sum(it[0] == "part" for it in words), block["holds"])


def check_blocks(told: Told, before: str, after: str) -> None:
    """Each meter with a step has its block of the next state, in the state's order; no other block was changed."""
    wanted, concerned = blocks_in(after), {step["address"] for step in told.of_kind("step")}
    equal("meters that have a block", [it for it in wanted if it in concerned], [it["address"] for it in told.blocks])
    for block in told.blocks:
        equal(f"block of {block['address']}", wanted[block["address"]], block["block"])
        _check_block(block)
    silent = {address: block for address, block in blocks_in(before).items() if address not in concerned}
    equal("blocks without a step", silent, {address: wanted[address] for address in silent})


def check_events(told: Told, lines: list[bytes]) -> None:
    """Each step's and each stranger's event is that of its line's first word."""
    for it in told.of_kind("step") + told.of_kind("stranger"):
        word = lines[it["line"] - 1].split(b" ")[0].decode("latin-1")
        equal(f"event of line {it['line']}", EVENTS.get(word), it["event"])


def check_inspected(told: Told, shown: str) -> None:
    """`frame_inspect` names the same lines bad or unframed, the latter with the same cause."""
    wanted = [(int(number), rest) for number, _, rest in (line.partition(" ") for line in shown.split("\n")[:-1])]
    faulty = [(number, rest) for number, rest in wanted if rest == "bad" or rest.startswith("unframed ")]
    causes = [(it["line"], "bad" if it["kind"] == "bad" else " ".join(["unframed", it["reason"], *map(str, it["values"])]))
              for it in told.lines if it["kind"] in ("bad", "unframed")]
    equal("lines that are bad or unframed", faulty, causes)
