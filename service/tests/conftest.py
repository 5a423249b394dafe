"""Where the tests find the package, the makers of messages and the second implementation of sessions; no test goes on without end."""
from __future__ import annotations

import os
import signal
import sys
from collections.abc import Iterator
from pathlib import Path
from types import FrameType

import pytest

TOP = Path(__file__).resolve().parents[2]
sys.path[:0] = [str(TOP / "service"), str(TOP), str(TOP / "tests"), str(TOP / "tests/checks")]
# (what the tests fetch is on this machine, whatever stands between it and the network)
os.environ |= {"no_proxy": "127.0.0.1,localhost", "NO_PROXY": "127.0.0.1,localhost"}
# of a test in seconds, beside what the kill tests are given; where it goes on all the same it is told again
MOST, AGAIN = 180.0, 15.0


@pytest.fixture(autouse=True)
def limit_fixture() -> Iterator[None]:
    """Whatever a test waits for, it fails at its limit."""
    def end(_number: int, _frame: FrameType | None) -> None:
        raise TimeoutError("the test took too long")
    before = signal.signal(signal.SIGALRM, end)
    signal.setitimer(signal.ITIMER_REAL, MOST + 5 * float(os.environ.get("WMBUS_KILL_SECONDS", "20")), AGAIN)
    yield
    signal.setitimer(signal.ITIMER_REAL, 0)
    signal.signal(signal.SIGALRM, before)
