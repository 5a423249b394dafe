"""What is held in memory alone: texts as files that never stand on a disk and are gone with the processes that hold them; no core files."""
from __future__ import annotations

import ctypes
import os
import resource
from collections.abc import Iterator, Sequence
from contextlib import ExitStack, contextmanager

# of prctl(2)
SET_DUMPABLE = 4


def leave_no_core() -> None:
    """Where this process or one that it starts dies, nothing of its memory, in which keys are, comes into a core file."""
    resource.setrlimit(resource.RLIMIT_CORE, (0, 0))
    # (what takes core files through a pipe isn't held by the limit, but gets none of a process that can't be dumped; the programs that are
    # started have the limit alone)
    ctypes.CDLL(None).prctl(SET_DUMPABLE, 0, 0, 0, 0)


@contextmanager
def memory_files(texts: Sequence[bytes]) -> Iterator[list[int]]:
    """For each text an open file of it, whose path is PATH % its number in a process that gets it."""
    with ExitStack() as held:
        opened = []
        for text in texts:
            number = os.memfd_create("wmbus")
            held.callback(os.close, number)
            view = memoryview(text)
            while view:
                view = view[os.write(number, view):]
            opened.append(number)
        yield opened


def path_of(opened: int) -> str:
    """The path under which a process that was given an open file opens it."""
    return f"/proc/self/fd/{opened}"
