"""Processes that end with the one that starts them, however that one ends: also where it is killed (-9) and can't end anything."""
from __future__ import annotations

import functools
import os
import signal
import subprocess
import time
from collections.abc import Mapping, Sequence
from contextlib import suppress
from pathlib import Path

PATIENCE = 20

# Beside the program, in a group that they have for themselves, something waits for the end of a pipe into which nobody writes and whose
# other end this process alone has open; then it sends the whole group a signal, and kills what hasn't ended by it in some seconds.
WATCHED = 'first=$1; shift; exec 3<&0 </dev/null; { read _ <&3; kill -"$first" 0; sleep 5; kill -KILL 0; } & exec 3<&-; exec "$@"'


@functools.cache
def _pipe() -> tuple[int, int]:
    """The pipe of this process. (Programs that it starts don't get its end of it.)"""
    return os.pipe()


def started(words: Sequence[str], log: Path, environment: Mapping[str, str] | None = None, user: str | None = None,
            first: str = "KILL") -> subprocess.Popen[bytes]:
    """Starts a program, what it says being appended to a file, in a session of its own, and has it end with this process, by a
    signal."""
    with open(log, "ab") as file:
        return subprocess.Popen(["/bin/sh", "-c", WATCHED, "sh", first, *words], stdin=_pipe()[0], stdout=file, stderr=file, env=environment,
                                user=user, start_new_session=True)


def put_down(process: subprocess.Popen[bytes]) -> None:
    """Kills what a program that has ended left of its group; none of it lives when this returns."""
    with suppress(ProcessLookupError):
        os.killpg(process.pid, signal.SIGKILL)
    limit = time.monotonic() + PATIENCE
    while time.monotonic() < limit and any(_lives_in(process.pid, path) for path in Path("/proc").glob("[0-9]*/stat")):
        time.sleep(0.02)


def _lives_in(group: int, path: Path) -> bool:
    """Whether a process, by what the system says of it, is of a group, and hasn't ended."""
    try:
        state, _, own, *_ = path.read_text(encoding="latin-1").rpartition(")")[2].split()
    except (OSError, ValueError):
        return False
    return own == str(group) and state not in "ZX"
