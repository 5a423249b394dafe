"""The proved programs that say which message is taken, and for which meter a line is."""
from __future__ import annotations

from collections.abc import Mapping, Sequence
from dataclasses import dataclass

from wmbus_service.memory_files import memory_files, path_of
from wmbus_service.steps import ProgramFailed, output_of

from .messages import Message

# a gateway's last message that was taken: its epoch, and its number there
Fence = tuple[int, int]
NONE = "-"
# the programs' own word for it (docs/FORMATS.md, "Exit statuses")
NO_MEMORY = 10


def is_lack(fault: Exception) -> bool:
    """Whether the machine is why a program failed, whatever the lines are."""
    return isinstance(fault, ProgramFailed) and (fault.is_ended() or fault.status == NO_MEMORY)


@dataclass(frozen=True)
class Accepted:
    """Of each message an answer (`take`, `again`, `ask EPOCH N`, `unknown`), and the fences that moved."""

    answers: list[str]
    fences: dict[str, Fence]


def accept(program: Sequence[str], fences: Mapping[str, Fence], messages: Sequence[Message]) -> Accepted:
    """What `line_accept` says of messages in their order (docs/FORMATS.md, "Senders and their messages")."""
    senders = [f"sender {name} {epoch} {number}\n" for name, (epoch, number) in fences.items()]
    with memory_files(["".join(["wmbus-senders 1\n", *senders, "end\n"]).encode()]) as opened:
        words = [*program, path_of(opened[0])]
        output = output_of(words, (f"{it.gateway} {it.epoch} {it.number}" for it in messages), opened).decode().splitlines()
    answers, moved = output[:len(messages)], [line.split(" ") for line in output[len(messages):]]
    if len(answers) != len(messages) or any(len(it) != 4 or it[0] != "sender" for it in moved):
        raise ProgramFailed(0, "what it printed isn't whole")
    return Accepted(answers, {name: (int(epoch), int(number)) for _, name, epoch, number in moved})


def addresses_of(program: Sequence[str], lines: Sequence[str]) -> list[str]:
    """For each line the meter that it is for, or a dash, as `address_list` says (docs/FORMATS.md, "Meters of lines")."""
    if not lines:
        return []
    addresses = output_of([*program, NONE], lines).decode().splitlines()
    if len(addresses) != len(lines):
        raise ProgramFailed(0, "what it printed isn't whole")
    return addresses
