"""What is the matter now, for who looks at the folder alone: in a file that has its room on the disk from the start, so that a full disk
takes it too."""
from __future__ import annotations

import json
import os
import threading
import time
from contextlib import suppress
from dataclasses import dataclass
from pathlib import Path

NAME = "trouble"
ROOM, LONGEST = 4096, 900


@dataclass(frozen=True)
class Told:
    """What is the matter with a part of the service, and since when."""

    part: str
    words: str
    since: float


class Troubles:
    """What is the matter with a service that runs."""

    def __init__(self, folder: Path) -> None:
        self.path, self.lock = folder / NAME, threading.Lock()
        self.told: dict[str, tuple[str, float]] = {}
        with self.lock:
            self._write()

    def tell(self, part: str, words: str) -> None:
        """Something is the matter with a part."""
        with self.lock:
            if self.told.get(part, ("", 0.0))[0] != words:
                self.told[part] = words, time.time()
                self._write()

    def over(self, part: str) -> None:
        """Nothing is the matter with it any more."""
        with self.lock:
            if self.told.pop(part, None):
                self._write()

    def _write(self) -> None:
        """(Where not even this can be written the log has it.)"""
        text = json.dumps([[part, words[:LONGEST], since] for part, (words, since) in self.told.items()])
        with suppress(OSError):
            opened = os.open(self.path, os.O_WRONLY | os.O_CREAT | os.O_CLOEXEC, 0o600)
            try:
                os.pwrite(opened, text.encode()[:ROOM].ljust(ROOM), 0)
            finally:
                os.close(opened)


def troubles_of(folder: Path) -> list[Told]:
    """What was last the matter with the service of a folder."""
    with suppress(OSError, ValueError, TypeError):
        return [Told(*row) for row in json.loads((folder / NAME).read_text("utf-8"))]
    return []
