"""What comes into a folder is seen at once, where the machine tells of it (inotify(7))."""
from __future__ import annotations

import ctypes
import os
import weakref
from contextlib import suppress
from pathlib import Path

# of inotify(7)
MODIFY, MOVED_TO, CREATE = 0x2, 0x80, 0x100
MOST = 1 << 16


class Watch:
    """An open file that can be read once something was written into a folder; none where the machine doesn't tell."""

    def __init__(self, folder: Path) -> None:
        self.opened: int | None = None
        library = ctypes.CDLL(None)
        opened = library.inotify_init1(os.O_NONBLOCK | os.O_CLOEXEC)
        if opened < 0:
            return
        if library.inotify_add_watch(opened, os.fsencode(folder), MODIFY | MOVED_TO | CREATE) < 0:
            os.close(opened)
            return
        self.opened = opened
        weakref.finalize(self, os.close, opened)

    def forget(self) -> None:
        """What was written until now isn't told any more."""
        with suppress(BlockingIOError):
            while self.opened is not None:
                os.read(self.opened, MOST)
