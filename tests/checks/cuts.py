"""Cut sessions: receivers' lines in parts, sessions one after the other over them by `wmbus continue`, and their outputs put together.

Each session begins from the state that the one before it wrote, so that all of them together are one session over all lines."""
from __future__ import annotations

import os
import tempfile
from collections import Counter
from dataclasses import dataclass

import judging
import replay
from reference.judge import Run, judged

RING = 256
# what stands below a meter's line in a state
BLOCK_WORDS = ("reading", "part", "tick", "waits", "command")


class Unlike(Exception):
    """What of a session isn't as it has to be."""


@dataclass
class Chain:
    """Sessions one after the other: their outputs put together, and how often the states between them had each kind of line."""

    run: Run
    carried: Counter[str]


def lines_of(text: bytes) -> list[bytes]:
    """A receiver's lines, each with its end."""
    *ended, rest = text.split(b"\n")
    return [line + b"\n" for line in ended] + ([rest] if rest else [])


def cut(text: bytes, places: list[int]) -> list[bytes]:
    """A receiver's text in parts, cut behind so many lines; the places rise."""
    lines = lines_of(text)
    bounds = [0, *places, len(lines)]
    return [b"".join(lines[start:end]) for start, end in zip(bounds, bounds[1:])]


def _receiver(number: int, told: list[str]) -> str:
    """The report's line of a receiver whose sessions told this, its counts added."""
    *names, _ = told[0].split(" ")
    counts = [[int(word) for word in it.split(" ")[1:-1:2]] for it in told]
    added = " ".join(f"{name} {sum(column)}" for name, column in zip(names[::2], zip(*counts)))
    return f"receiver {number} {added} {told[-1].split(' ')[-1]}"


def _meter(told: list[tuple[str, str, list[tuple[int, int, str]], list[str]]], before: list[list[int]]) -> list[str]:
    """The report's lines of a meter of which the sessions told this, behind so many lines of each receiver."""
    steps = [f"step {receiver} {line + counts[receiver - 1]} {words}"
             for counts, (_, _, lines, _) in zip(before, told) for receiver, line, words in lines]
    heads = [head.split(" ") for _, head, _, _ in told]
    readings = [int(head[-1]) for head in heads]
    storing = [behind for count, (_, _, _, behind) in zip(readings, told) if count]
    records = [line for line in (storing or [[]])[-1] if not line.startswith("pending ")]
    pending = [line for line in told[-1][3] if line.startswith("pending ")]
    head = " ".join([*heads[-1][:-3], str(len(steps)), "readings", str(sum(readings))])
    return [f"meter {head}", *steps, *records, *pending]


def joined_report(reports: list[str]) -> str:
    """The one report of sessions one after the other: lines are numbered on, counts are added, and of what stands once the last counts."""
    told = [replay.parts(report) for report in reports]
    before = [[0] * len(told[0][0])]
    for receivers, *_ in told:
        before.append([count + int(it.split(" ")[1]) for count, it in zip(before[-1], receivers)])
    lines = ["wmbus-report 1"]
    lines += [_receiver(number, list(it)) for number, it in enumerate(zip(*(receivers for receivers, *_ in told)), 1)]
    for meter in zip(*(meters for _, meters, _, _ in told)):
        lines += _meter(list(meter), before)
    strangers = [f"stranger {receiver} {line + counts[receiver - 1]}"
                 for counts, (_, _, places, _) in zip(before, told) for receiver, line in places]
    ring = [f"ring {address}" for _, _, _, addresses in told for address in addresses]
    lines += [f"strangers {len(strangers)}", *strangers, *ring[-RING:], "end"]
    return "".join(f"{line}\n" for line in lines)


def joined(runs: list[Run]) -> Run:
    """The outputs of sessions one after the other, put together."""
    texts = dict(runs[-1].texts) | {"report": joined_report([run.texts["report"] for run in runs])}
    for name in texts:
        if name.startswith("tx"):
            texts[name] = "".join(run.texts[name] for run in runs)
    return Run(runs[-1].status, texts)


def audited(auditor: str, known: bytes, next_: bytes, report: str, inputs: list[bytes]) -> str:
    """What `audit_check` answers to a session's state, the one that it left, its report and its receivers' texts."""
    names = [f"rx{number}" for number in range(1, len(inputs) + 1)]
    with tempfile.TemporaryDirectory() as folder:
        for name, text in [("state", known), ("next", next_), ("report", report.encode()), *zip(names, inputs)]:
            judging.write(os.path.join(folder, name), text)
        return judging.ran(auditor, folder, ["--next", "next", "state", "report", *names])[1].strip()


def chained(program: str, known: bytes, sessions: list[list[bytes]], is_judged: bool = False, auditor: str | None = None) -> Chain:
    """Sessions one after the other, each over its receivers' texts; each is judged by itself and audited too, where that is asked."""
    runs, carried = [], Counter[str]()
    for number, inputs in enumerate(sessions, 1):
        run = judging.run_over(program, "continue", known, inputs)
        if run.status or run.texts["stderr"]:
            raise Unlike(f"session {number} ended with status {run.status}: {run.texts['stderr'].strip()}")
        found = judged("continue", known, inputs, run) if is_judged else []
        if found:
            raise Unlike(f"session {number}: {found[0]}")
        left = run.texts["next"].encode("utf-8", "surrogateescape")
        answer = audited(auditor, known, left, run.texts["report"], inputs) if auditor else "yes"
        if answer != "yes":
            raise Unlike(f"session {number}: audit_check --next answers {answer}")
        runs.append(run)
        known = left
        if number < len(sessions):
            carried.update(word for word in (line.split(b" ", 1)[0].decode() for line in known.split(b"\n")) if word in BLOCK_WORDS)
    return Chain(joined(runs), carried)
