"""Programs that are run: by their words, with what they are given, within a limit of time; and how they ended."""
from __future__ import annotations

import subprocess
from collections.abc import Iterator, Sequence
from contextlib import contextmanager
from typing import Any, NamedTuple

# a program that hasn't ended after so many seconds is ended; one that was to end by itself has fewer
SECONDS, END_SECONDS = 600, 60
TooLong = subprocess.TimeoutExpired


class Ran(NamedTuple):
    """How a program ended: its status, and what it printed on its two outputs, where these didn't go elsewhere."""

    status: int
    out: bytes
    err: bytes

    @property
    def text(self) -> str:
        """The standard output as text; bytes that are none stand for themselves."""
        return self.out.decode("utf-8", "surrogateescape")

    @property
    def lines(self) -> list[str]:
        """The lines of the standard output."""
        return self.text.splitlines()

    @property
    def told(self) -> str:
        """The standard error as text."""
        return self.err.decode("utf-8", "surrogateescape")

    @property
    def texts(self) -> tuple[int, str, str]:
        """The status, and what was printed as texts."""
        return self.status, self.text, self.told


def run(words: Sequence[str | bytes], given: bytes = b"", seconds: float = SECONDS, **how: Any) -> Ran:
    """Runs a program to its end, which has to come in time. It is given these bytes on its standard input, and its outputs are read; `how`
    may name other streams, the folder and what else subprocess takes."""
    streams: dict[str, Any] = {"stdout": subprocess.PIPE, "stderr": subprocess.PIPE} | ({} if "stdin" in how else {"input": given})
    done = subprocess.run(words, timeout=seconds, check=False, **streams | how)
    return Ran(done.returncode, done.stdout or b"", done.stderr or b"")


@contextmanager
def started(words: Sequence[str | bytes], **how: Any) -> Iterator[subprocess.Popen[bytes]]:
    """A program that runs beside this one, and is killed where it still does at the end."""
    with subprocess.Popen(words, **how) as process:
        try:
            yield process
        finally:
            if process.poll() is None:
                process.kill()


def ended(process: subprocess.Popen[bytes]) -> int:
    """A program's exit status; where it doesn't end in time it is killed."""
    try:
        return process.wait(END_SECONDS)
    except TooLong:
        process.kill()
        return process.wait()
