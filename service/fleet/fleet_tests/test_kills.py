"""The fleet's processes and servers are killed (-9) at random and at each of their steps: nothing is lost, and nothing comes twice. Steps
in a wrong order are found, or shown to be healed.

WMBUS_KILL_SECONDS says for how long the first of these goes on."""
from __future__ import annotations

import os
from collections import Counter
from pathlib import Path

import pytest
from wmbus_fleet import store
from wmbus_fleet.status import figures, in_words

from .kill import EACH, EVERYWHERE, Plan, tried
from .killed_fleet import HEALED, WRONG
from .losing import IN_FLIGHT, InFlight, LostDisk, SetBack
from .servers import Both

SECONDS = float(os.environ.get("WMBUS_KILL_SECONDS", "12"))
PATIENCE = 200


def test_live(both: Both) -> None:
    """Gateways, intakes, sessions, senders, RabbitMQ and PostgreSQL, commands, keys and ticks at the same time, all killed at random."""
    plan = Plan("live", meters=15, rounds=max(6, int(1.5 * SECONDS)), seconds=SECONDS, chance=0.01, rabbit=max(1, int(SECONDS / 240)),
                postgres=max(2, int(SECONDS / 120)), losses=max(2, int(SECONDS / 60)), freezes=max(3, int(SECONDS / 10)))
    trial, found = tried(both, plan, 1)
    assert not found
    assert {"gateway", "intake", "sessions", "downlinks", "rabbit", "postgres", "loss", "freeze"} <= trial.kills.keys()


def test_each_step(both: Both) -> None:
    """Each process dies in front of and behind one of its steps after the other."""
    plan = Plan("steps", rounds=120, seconds=SECONDS / 2, chance=0.7, place=EACH, patience=PATIENCE)
    trial, found = tried(both, plan, 2)
    assert not found
    assert not EVERYWHERE - trial.died.keys()


@pytest.mark.parametrize("wrong", WRONG)
def test_wrong_order_is_found(both: Both, wrong: str) -> None:
    """Steps in a wrong order are found by the same trial, in which each death falls where it tells of the order. (So nothing is left to
    chance: what was open at a death is cancelled, and other commands are put, and the frames of the session that is lost differ.)"""
    plan = Plan(wrong.replace(" ", "_"), rounds=5, chance=1.0, window=600, wrong=WRONG[wrong], workers=1)
    trial, found = tried(both, plan, 0)
    assert trial.died.total() >= plan.deaths
    assert any(WRONG[wrong].sign in it for it in found), found


def test_acknowledgement_first_is_healed(both: Both) -> None:
    """Messages that are acknowledged before the commit are lost with it, and asked for again."""
    plan = Plan("acknowledged", rounds=5, chance=1.0, window=600, wrong=HEALED, workers=1)
    trial, found = tried(both, plan, 1)
    assert not found
    assert trial.died.total() >= plan.deaths


@pytest.mark.parametrize("margin, is_right", [(1000, True), (0, False)])
def test_set_back_to_a_copy(both: Both, tmp_path: Path, monkeypatch: pytest.MonkeyPatch, margin: int, is_right: bool) -> None:
    """PostgreSQL is set back to a copy under load: gateways send again by themselves what came since, and no counter gets a second frame;
    without a margin some do."""
    monkeypatch.setenv("PATH", "/usr/lib/postgresql/15/bin:/usr/bin:/bin")
    trial = SetBack(both, tmp_path, Plan(f"copy{margin}x", meters=9, rounds=8, window=600), 4, margin)
    found = trial.run()
    print(found, trial.heard_before, trial.heard_copy, trial.counts())
    assert trial.heard_copy < trial.heard_before
    assert not found if is_right else [it for it in found if "counters with two frames" in it]


@pytest.mark.parametrize("margin, is_right", [(1000, True), (0, False)])
def test_set_back_with_commands_in_flight(both: Both, tmp_path: Path, monkeypatch: pytest.MonkeyPatch, margin: int, is_right: bool) -> None:
    """What was open in the copy is cancelled, what was done stays, what was put since isn't known; and no counter has two frames, in both
    histories and on the air; without a margin some have."""
    monkeypatch.setenv("PATH", "/usr/lib/postgresql/15/bin:/usr/bin:/bin")
    trial = InFlight(both, tmp_path, Plan(f"flight{margin}x", meters=9, rounds=20, window=600), 6, margin)
    found = trial.run()
    states = {state for state, *_ in trial.copied.values()}
    print(found, Counter(state for state, *_ in trial.copied.values()), trial.counts())
    assert not found if is_right else [it for it in found if "frames" in it]
    assert {"waiting", "queued", "sent"} <= states
    assert trial.heard_copy < trial.heard_before
    # (what the program had is cancelled by a session, and shows why until then)
    assert all(trial.open_then[ident][2] == "restored" for ident, (state, *_) in trial.copied.items() if state in IN_FLIGHT)
    assert all(trial.caught_up[ident][0] == "cancelled" for ident, (state, *_) in trial.copied.items() if state in IN_FLIGHT)
    assert trial.copied.keys() == trial.open_then.keys()


def test_a_gateway_that_lost_its_disk(both: Both, tmp_path: Path) -> None:
    """It begins an epoch, which is told; nothing that was sent before is lost or doubled, and the other gateways go on."""
    trial = LostDisk(both, tmp_path, Plan("disk", meters=9, rounds=6), 5)
    assert not trial.run()
    with store.connect(trial.config.database) as database:
        rows = database.execute("select gateway from missing").fetchall()
        words = "\n".join(in_words(figures(database)))
    assert rows == [(trial.stations[0].told.name,)]
    assert f"gateway {trial.stations[0].told.name} began a new epoch behind message" in words
