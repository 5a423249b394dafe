"""Three nodes of RabbitMQ by the documented configuration, in network namespaces: the one that leads a queue is killed (-9), and cut off
from the network and joined again, while all parts work and die: nothing is lost, nothing comes twice, and the order is kept."""
from __future__ import annotations

import subprocess
from pathlib import Path

import pytest
from tests.kill import PYTHON

from . import nodes

LIMIT = 900
BY_HAND = Path(__file__).with_name("nodes_by_hand.py")


def test_leaders_are_killed_and_cut_off() -> None:
    """One kill and one cut, for longer than a connection lives without an answer. (Where it isn't done in time all its processes and
    namespaces go with the one that is killed.)"""
    if why := nodes.lacking():
        pytest.skip(why)
    done = subprocess.run([PYTHON, "-B", BY_HAND, "40", "1", "1", "25"], stdin=subprocess.DEVNULL, capture_output=True, text=True,
                          timeout=LIMIT, check=False)
    print(done.stdout[-5000:], done.stderr[-5000:])
    assert done.returncode == 0, done.stdout[-3000:] + done.stderr[-3000:]
    assert "'leader killed': 1" in done.stdout and "'leader cut off': 1" in done.stdout
