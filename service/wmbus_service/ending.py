"""How a process learns that it is to end, wherever it is at that moment."""
from __future__ import annotations

import math
import os
import select
import signal
import time
import weakref
from collections.abc import Callable
from types import FrameType

# a signal that comes just before a wait begins is seen when the next slice does
SLICE = 1.0


class Ending:
    """Whether the process is to end. A signal's handler may say so while the thread that it interrupts waits for it, which with
    threading.Event would stand still for ever; nor does it raise anything that a library, in whose midst it may come, could swallow."""

    def __init__(self) -> None:
        self._is_set = False
        # (there is something to read once the process is to end)
        self._told, self._tell = os.pipe2(os.O_CLOEXEC | os.O_NONBLOCK)
        for opened in (self._told, self._tell):
            weakref.finalize(self, os.close, opened)

    def heed_signals(self, behind: Callable[[], None] = lambda: None) -> None:
        """From now on SIGTERM and SIGINT end the process so, and that its terminal is closed, unless nohup has it ignore that; what has to
        be done then is done behind it."""
        def end(_number: int, _frame: FrameType | None) -> None:
            self.set()
            behind()

        for number in (signal.SIGTERM, signal.SIGINT, signal.SIGHUP):
            if number != signal.SIGHUP or signal.getsignal(number) != signal.SIG_IGN:
                signal.signal(number, end)

    def is_set(self) -> bool:
        """Whether it is to end."""
        return self._is_set

    def set(self) -> None:
        """It is to end."""
        if not self._is_set:
            self._is_set = True
            os.write(self._tell, b"e")

    def wait(self, seconds: float = math.inf, watched: int | None = None) -> bool:
        """Waits so long, or until it is to end or the open file that is watched can be read; whether it is to end."""
        limit = time.monotonic() + seconds
        opened = [self._told] if watched is None else [self._told, watched]
        while not self._is_set and (left := limit - time.monotonic()) > 0:
            if watched in select.select(opened, [], [], min(left, SLICE))[0]:
                break
        return self._is_set
