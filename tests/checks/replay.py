"""Judges a printed session of several receivers, without looking into the program: by the program run on one receiver alone.

A session is right where
- each receiver's lines stand in the report as `wmbus hear` classes them when it hears that receiver alone: its counts, each meter's own
  lines and the strangers' lines, each once and in their order;
- the lines of each meter, put behind one another in the order that the report prints, are answered by one receiver as the report says,
  down to the records, the commands that wait, the ring, the next roster and the bytes of every downlink."""
import os
from typing import Any

import running
from typing import Any

MOST_SECONDS = 600
# of a report: its receivers, its meters (address, head, steps as receiver, line and outcome, the lines after them), strangers and ring
Parts = tuple[list[str], list[tuple[str, str, list[tuple[int, int, str]], list[str]]], list[tuple[int, int]], list[str]]


class Wrong(Exception):
    """What of a session isn't right."""


def run(program: list[str], words: list[str], folder: str) -> tuple[int, str, str]:
    return running.run([*program, *words], seconds=MOST_SECONDS, cwd=folder).texts


def parts(report: str) -> Parts:
    """A report's receivers, its meters (address, head, steps as (receiver, line, outcome), the lines behind them), its strangers and its
    ring."""
    meters: list[tuple[str, str, list[tuple[int, int, str]], list[str]]] = []
    receivers, strangers, ring = [], [], []
    for line in report.splitlines():
        word, _, rest = line.partition(" ")
        if word == "receiver":
            receivers.append(rest.split(" ", 1)[1])
        elif word == "meter":
            meters.append((rest.split()[0], rest, [], []))
        elif word == "step":
            w, number, outcome = rest.split(" ", 2)
            meters[-1][2].append((int(w), int(number), outcome))
        elif word == "stranger":
            w, number = rest.split()
            strangers.append((int(w), int(number)))
        elif word == "ring":
            ring.append(rest)
        elif word in ("record", "maker", "more", "fault", "pending"):
            meters[-1][3].append(line)
    return receivers, meters, strangers, ring


def text_lines(path: str) -> list[bytes]:
    with open(path, "rb") as file:
        return file.read().split(b"\n")


def equal(what: str, wanted: object, given: object) -> None:
    if wanted != given:
        raise Wrong(f"{what}: wanted {str(wanted)[:200]}, got {str(given)[:200]}")


def check_lines(program: list[str], folder: str, roster: str, inputs: list[str], report: str) -> None:
    """Each receiver's lines stand in the report as they do where it is heard alone."""
    receivers, meters, strangers, _ = parts(report)
    for w, rx in enumerate(inputs, 1):
        status, alone, _ = run(program, ["hear", roster, rx], folder)
        equal(f"status of receiver {w} alone", 0, status)
        ends, of_meters, of_strangers, _ = parts(alone)
        equal(f"receiver {w}", ends[0], receivers[w - 1])
        for mine, (address, _, steps, _) in zip(of_meters, meters):
            equal(f"lines of receiver {w} for {address}", [line for _, line, _ in mine[2]], [line for by, line, _ in steps if by == w])
        equal(f"strangers of receiver {w}", [line for _, line in of_strangers], [line for by, line in strangers if by == w])
    known = set(range(1, len(inputs) + 1))
    for address, _, steps, _ in meters:
        equal(f"receivers of {address}", set[int](), {w for w, _, _ in steps} - known)


def check_replay(program: list[str], folder: str, roster: str, inputs: list[str], outputs: dict[str, Any], report: str) -> None:
    """One receiver that hears the printed order answers as printed; `outputs` are the paths of the downlinks and of the next roster."""
    _, meters, strangers, ring = parts(report)
    heard = [text_lines(os.path.join(folder, rx)) for rx in inputs]
    order = [(w, line) for _, _, steps, _ in meters for w, line, _ in steps] + strangers
    with open(os.path.join(folder, "replay.rx"), "wb") as file:
        file.writelines(heard[w - 1][line - 1] + b"\n" for w, line in order)
    words = ["collect", roster, "replay.next", "replay.readings", "replay.rx", "replay.tx"]
    status, replayed, said = run(program, words, folder)
    equal("status of the replay", (0, ""), (status, said))
    _, again, _, ring_again = parts(replayed)
    for (address, head, steps, behind), (_, head_again, steps_again, behind_again) in zip(meters, again):
        equal(f"meter {address}", head_again, head)
        equal(f"steps of {address}", [outcome for _, _, outcome in steps_again], [outcome for _, _, outcome in steps])
        equal(f"records of {address}", behind_again, behind)
    equal("ring", ring_again, ring)
    sent = [(w, line) for _, _, steps, _ in meters for w, line, outcome in steps if " sent " in outcome and outcome.startswith("stored ")]
    lines = [line for line in text_lines(os.path.join(folder, "replay.tx")) if line]
    equal("downlinks of the replay", len(sent), len(lines))
    by_receiver: dict[int, list[tuple[int, bytes]]] = {w: [] for w in range(1, len(inputs) + 1)}
    for (w, line), downlink in zip(sent, lines):
        by_receiver[w].append((line, downlink))
    for w, tx in enumerate(outputs["tx"], 1):
        wanted = [downlink for _, downlink in sorted(by_receiver[w])]
        equal(f"downlinks of receiver {w}", wanted, [line for line in text_lines(os.path.join(folder, tx)) if line])
    for name in ("next", "readings"):
        with open(os.path.join(folder, outputs[name]), "rb") as given, open(os.path.join(folder, f"replay.{name}"), "rb") as replayed_file:
            equal(name, replayed_file.read(), given.read())
