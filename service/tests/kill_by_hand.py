"""The kill tests for longer, by hand: kill_by_hand.py [SECONDS [SEED [WRONG]]]"""
from __future__ import annotations

import sys
import tempfile
from pathlib import Path

TOP = Path(__file__).resolve().parents[2]
sys.path[:0] = [str(TOP / "service"), str(TOP), str(TOP / "tests"), str(TOP / "tests/checks")]

from tests import kill  # noqa: E402
from tests.killed_service import WRONG  # noqa: E402


def main() -> int:
    """One trial; what is wrong then."""
    seconds, seed, *rest = [*sys.argv[1:], *["20", "1"][len(sys.argv[1:]):]]
    plan = kill.Plan(rounds=max(1, int(float(seconds) * 4)), seconds=float(seconds))
    if rest:
        plan = kill.Plan(rounds=6, seconds=float(seconds), chance=1.0, deaths=3, wrong=rest[0], is_live=False,
                         has_broker="publish" in WRONG[rest[0]].place)
    with tempfile.TemporaryDirectory(dir=kill.MEMORY) as folder:
        trial = kill.Trial(Path(folder), plan, int(seed))
        found = trial.run()
        print(trial.counts())
        print(dict(trial.places()))
    print(*found, sep="\n")
    return 1 if found else 0


if __name__ == "__main__":
    sys.exit(main())
