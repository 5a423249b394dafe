"""The proved program `wmbus steps` over a state and lines: what it says of each line and the meters' next blocks (docs/FORMATS.md,
"Steps")."""
from __future__ import annotations

import json
import signal
import subprocess
from collections.abc import Iterable, Sequence
from dataclasses import dataclass, field
from typing import Any

from .memory_files import memory_files, path_of
from .trouble import Trouble

PATIENCE = 60
SAID_MOST = 300


class ProgramFailed(Exception):
    """The program ended with another status than 0, or didn't say all that it has to; nothing that it said counts."""

    def __init__(self, status: int | None, said: str) -> None:
        super().__init__(f"status {'none' if status is None else status}: {said.strip()[:SAID_MOST]}")
        self.status = status

    def is_ended(self) -> bool:
        """Whether it was ended from outside, as all processes of a service are that is stopped: that is no line's fault."""
        return self.status is not None and -self.status in (signal.SIGHUP, signal.SIGINT, signal.SIGKILL, signal.SIGTERM)


@dataclass(frozen=True)
class Block:
    """A meter's part of the next state, the command for which its window waits, and how many fragments are held."""

    text: str
    waits: int | None
    holds: int


@dataclass
class Told:
    """What a session said: of each line one object, and each heard meter's next block."""

    lines: list[dict[str, Any]] = field(default_factory=list)
    blocks: dict[str, Block] = field(default_factory=dict)
    counts: dict[str, Any] = field(default_factory=dict)


# of a state (docs/FORMATS.md, "The state")
MOST_METERS = 4096


def state_text(own: str, blocks: Iterable[str]) -> str:
    """The state of some meters, as the program reads it."""
    return "".join(["wmbus-state 1\n", f"own {own}\n", *blocks, "end\n"])


def run_steps(program: Sequence[str], state: str, lines: Sequence[str]) -> Told:
    """One session. The state has keys: it goes through memory, and nothing of it is told where the program fails."""
    with memory_files([state.encode("latin-1")]) as opened:
        output = output_of([*program, path_of(opened[0]), "-", "-"], lines, opened)
    try:
        told = told_of(output)
    except (ValueError, KeyError, TypeError):
        raise ProgramFailed(0, "what it printed can't be read") from None
    if told.counts.get("end") != "end" or len(told.lines) != len(lines):
        raise ProgramFailed(0, "what it printed isn't whole")
    return told


def output_of(words: Sequence[str], lines: Iterable[str], opened: Sequence[int] = ()) -> bytes:
    """What a program prints over lines, which has to end with status 0; it gets these open files."""
    try:
        # (Ctrl-C at a terminal is for the service alone, which commits what the program says)
        done = subprocess.run(words, input="".join(f"{line}\n" for line in lines).encode("latin-1"), capture_output=True,
                              pass_fds=opened, timeout=PATIENCE, check=False, start_new_session=True)
    except subprocess.TimeoutExpired:
        raise ProgramFailed(None, f"no answer within {PATIENCE} seconds") from None
    except OSError as fault:
        raise Trouble(words[0], f"the program can't be started: {fault.strerror}",
                      "name it in the configuration under [programs]") from None
    if done.returncode:
        raise ProgramFailed(done.returncode, done.stderr.decode("utf-8", "replace"))
    return done.stdout


def told_of(output: bytes) -> Told:
    """What the program printed: objects, one a line, which are read as one array, since a reader's start costs more than a line."""
    told = Told()
    for said in json.loads("[" + output.decode("ascii").removesuffix("\n").replace("\n", ",") + "]"):
        if said["kind"] == "block":
            told.blocks[said["address"]] = Block(said["block"], said["waits"], said["holds"])
        elif said["kind"] == "counts":
            told.counts = said
        else:
            told.lines.append(said)
    return told
