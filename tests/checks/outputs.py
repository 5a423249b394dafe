"""What the other outputs of `wmbus collect` have to hold, by its report and its inputs alone: the readings, the next roster and the
downlinks."""
import json
from typing import Any

import replay
from typing import Any
from telegrams.frames import format_a
from telegrams.messages import downlink


def record_of(line: str) -> dict[str, object]:
    fields = line.split(" ")
    if fields[0] == "maker":
        return {"maker": fields[1], "raw": fields[2].replace("-", "")}
    _, function, storage, tariff, subunit, quantity, unit, exponent, modifiers, value, raw = fields
    return {"function": function, "storage": int(storage), "tariff": int(tariff), "subunit": int(subunit), "quantity": quantity,
            "unit": unit, "exponent": int(exponent),
            "modifiers": modifiers.replace("-", ""), "value": value, "raw": raw.replace("-", "")}


def readings_of(report: str) -> str:
    """The JSON of a report's last readings."""
    meters = []
    for address, head, steps, behind in replay.parts(report)[1]:
        stored = [outcome.split(" ") for _, _, outcome in steps if outcome.startswith("stored ")]
        fault = [line.split(" ", 1)[1] for line in behind if line.startswith("fault ")]
        meters.append({"address": address, "mode": int(head.split(" ")[3]), "counter": int(stored[-1][1]) if stored else None,
                       "at": int(stored[-1][2]) if stored else None,
                       "fault": fault[0] if fault else None, "more": "more" in behind,
                       "records": [record_of(line) for line in behind if line.startswith(("record ", "maker "))]})
    return json.dumps({"meters": meters}, sort_keys=True, separators=(",", ":")) + "\n"


def next_of(report: str, roster: str, heard: list[list[bytes]]) -> tuple[str, list[bytes]]:
    """The next roster, and the downlinks of each receiver; `heard` are the lines of each receiver."""
    lines = roster.splitlines()
    own, made = bytes.fromhex(lines[1].split()[1]), lines[:2]
    sent: dict[int, list[tuple[int, bytes]]] = {w: [] for w in range(1, len(heard) + 1)}
    for line, (address, head, steps, _) in zip(lines[2:], replay.parts(report)[1]):
        _, _, mode, key, other, _, down, last_id = line.split(" ")
        of_head = head.split(" ")
        payloads: dict[int, bytes] = {}
        queue: list[int] = []
        ids = int(last_id)
        for w, number, outcome in steps:
            fields, words = heard[w - 1][number - 1].split(b" "), outcome.split(" ")
            if words[0] == "queued":
                ids += 1
                replay.equal("id of a command", str(ids), words[1])
                payloads[ids] = bytes.fromhex(fields[2].decode())
                queue.append(ids)
            elif words[0] == "cancelled" or words[:2] == ["ticked", "expired"]:
                queue.remove(int(words[-1]))
            elif words[0] == "rekeyed":
                other = fields[2].decode().lower()
            elif words[0] == "stored":
                queue = [command for command in queue if "confirmed" not in words or command != int(words[words.index("confirmed") + 1])]
                if "sent" in words:
                    count = int(words[-1])
                    down = str(count)
                    frame = format_a(downlink(own, bytes.fromhex(key), bytes.fromhex(address), count, payloads[queue[0]]))
                    sent[w].append((number, b"D " + frame.hex().encode() + b"\n"))
        made.append(f"meter {address} {mode} {key} {other} {of_head[5]} {down} {ids}")
    return "".join(f"{line}\n" for line in made), [b"".join(line for _, line in sorted(sent[w])) for w in sent]


def check_outputs(roster: str, heard: list[list[bytes]], report: str, outputs: dict[str, Any]) -> None:
    """`outputs` are the next roster, the readings, and the downlinks of each receiver, as bytes."""
    wanted_next, wanted_sent = next_of(report, roster, heard)
    replay.equal("readings by the report", readings_of(report), outputs["readings"].decode())
    replay.equal("next roster by the report", wanted_next, outputs["next"].decode())
    replay.equal("downlinks by the report", wanted_sent, outputs["tx"])
