"""The service is killed (-9) at random and at each of its steps, and its receivers too: nothing is lost, and nothing comes twice.
Steps in a wrong order are found.

WMBUS_KILL_SECONDS says for how long the first of these goes on; a day and night's figures stand in docs/SERVICE.md."""
from __future__ import annotations

import os
import tempfile
from pathlib import Path

import pytest

from . import servers
from .kill import MEMORY, Plan, Trial
from .killed_service import WRONG

SECONDS = float(os.environ.get("WMBUS_KILL_SECONDS", "20"))
needs_broker = pytest.mark.skipif(servers.mosquitto() is None, reason="mosquitto isn't there")


def tried(plan: Plan, seed: int) -> tuple[Trial, list[str]]:
    """A trial in a folder of its own."""
    with tempfile.TemporaryDirectory(dir=MEMORY) as folder:
        trial = Trial(Path(folder), plan, seed)
        found = trial.run()
        print(trial.counts(), dict(trial.places()))
        return trial, found


@needs_broker
def test_live() -> None:
    """Receivers, service, commands, keys, ticks and messages at the same time, all killed at random."""
    trial, found = tried(Plan(rounds=max(4, int(SECONDS * 4)), seconds=SECONDS), 1)
    assert not found
    assert trial.deaths


@needs_broker
def test_each_step() -> None:
    """The service dies in front of and behind each of its steps."""
    _, found = tried(Plan(rounds=6, seconds=SECONDS / 2, chance=0.05, is_live=False), 2)
    assert not found


@pytest.mark.parametrize("wrong", WRONG)
def test_wrong_order_is_found(wrong: str) -> None:
    """Steps in a wrong order are found by the same trial, in which each death falls where it tells of the order. (So nothing is left to
    chance: what waits at a death is cancelled, and other commands are put, and the frames of the session that is lost differ.)"""
    has_broker = "publish" in WRONG[wrong].place
    if has_broker and servers.mosquitto() is None:
        pytest.skip("mosquitto isn't there")
    trial, found = tried(Plan(rounds=6, seconds=6, chance=1.0, deaths=3, wrong=wrong, is_live=False, has_broker=has_broker), 0)
    assert trial.deaths >= 3
    assert any(WRONG[wrong].sign in it for it in found), found
