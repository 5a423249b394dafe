"""Programs that are fed one line at a time: what comes of a line is waited for before the next one is fed."""
from __future__ import annotations

import os
import select
import subprocess
import time

from running import END_SECONDS, ended


class Lines:
    """The lines that come out of an open file, each waited for."""

    def __init__(self, file: int) -> None:
        self.file, self.rest = file, b""

    def next(self, seconds: float = END_SECONDS) -> bytes | None:
        """The next whole line with its newline; none where it doesn't come in this time."""
        until = time.monotonic() + seconds
        while b"\n" not in self.rest:
            left = until - time.monotonic()
            if left <= 0 or not select.select([self.file], [], [], left)[0]:
                return None
            piece = os.read(self.file, 1 << 16)
            if not piece:
                return None
            self.rest += piece
        line, _, self.rest = self.rest.partition(b"\n")
        return line + b"\n"


class Program:
    """A program whose standard input and output are open pipes; where it doesn't end by itself at the end of its input it is killed."""

    def __init__(self, words: list[str]) -> None:
        heard, self.input = os.pipe()
        self.output, told = os.pipe()
        self.process = subprocess.Popen(words, stdin=heard, stdout=told, stderr=subprocess.DEVNULL)
        os.close(heard)
        os.close(told)
        self.lines = Lines(self.output)

    def feed(self, line: bytes) -> bool:
        """Writes a line into its input; whether it is there to read it."""
        try:
            return os.write(self.input, line) == len(line)
        except BrokenPipeError:
            return False

    def line(self) -> bytes | None:
        """The next line that it prints; none where it prints none in time."""
        return self.lines.next()

    def __enter__(self) -> Program:
        return self

    def __exit__(self, *_: object) -> None:
        os.close(self.input)
        while self.line():
            pass
        ended(self.process)
        os.close(self.output)
