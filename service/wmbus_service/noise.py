"""What the programs of a receiver say in their log: passed on as it comes, but no more of it than somebody can read."""
from __future__ import annotations

import logging
import os
import threading
import time
from typing import BinaryIO

log = logging.getLogger("wmbus")

# of each program so many lines a minute, of so many bytes at most
MOST_LINES, LONGEST, SECONDS = 60, 400, 60.0
LOG, LAST_WORDS = 2, 2.0


class Noise:
    """What a program says on its standard error, which is always read, so that it never waits."""

    def __init__(self, name: str, source: BinaryIO) -> None:
        self.name, self.source = name, source
        self.begun, self.count, self.left_out = time.monotonic(), 0, 0
        self.thread = threading.Thread(target=self._read, name=f"log of {name}", daemon=True)
        self.thread.start()

    def end(self) -> None:
        """Waits for the last words of a program that has ended; one that it left behind may hold its log open."""
        self.thread.join(LAST_WORDS)

    def _read(self) -> None:
        with self.source:
            while line := self.source.readline(LONGEST):
                self._take(line)
        self._tell_left_out()

    def _take(self, line: bytes) -> None:
        """Passes a line on, where there is room for it."""
        if time.monotonic() - self.begun >= SECONDS:
            self._tell_left_out()
            self.begun, self.count = time.monotonic(), 0
        self.count += 1
        if self.count > MOST_LINES:
            self.left_out += 1
            return
        os.write(LOG, line if line.endswith(b"\n") else line + b"\n")

    def _tell_left_out(self) -> None:
        if self.left_out:
            log.warning("%s: %d further lines of its program's log were left out", self.name, self.left_out)
            self.left_out = 0
