"""Three nodes of RabbitMQ in network namespaces, of which the one that leads an area's queue is killed (-9), or cut off from the network
and joined again, while lines flow, by hand, as root: nodes_by_hand.py [SECONDS [KILLS [CUTS [CUT_SECONDS]]]]

All other processes are killed too, as in the short tests. Prints what was done and what the parts said, and ends with status 1 where
anything was lost, came twice, or is otherwise than one uncut session says. (Behind 60 seconds a node that is cut off pauses.)"""
from __future__ import annotations

import os
import re
import sys
import tempfile
import threading
import time
from collections import Counter
from pathlib import Path
from typing import cast

TOP = Path(__file__).resolve().parents[3]
sys.path[:0] = [str(TOP / "service/fleet"), str(TOP / "service"), str(TOP), str(TOP / "tests"), str(TOP / "tests/checks")]

from fleet_tests import kill  # noqa: E402
from fleet_tests.kill import Plan, Trial  # noqa: E402
from fleet_tests.killed_fleet import Part  # noqa: E402
from fleet_tests.nodes import APART, PLACES, NodesAndPostgres, enter, lacking  # noqa: E402
from fleet_tests.servers import MEMORY, Both  # noqa: E402
from wmbus_fleet import store  # noqa: E402

DRAINED, PAUSE = 240, 5.0
IS_APART = "WMBUS_NODES_APART"
# what differs from one gateway, meter and moment to the next
GENERAL = re.compile(r"nodes1-[0-9]|[0-9a-f]{16}|(?<= )[0-9]+(?= )|(?<=:)[0-9]+")


class NodesTrial(Trial):
    """A trial over three nodes, in which each part is in a namespace, and lines go on while nodes are killed, cut off and joined again."""

    def __init__(self, servers: NodesAndPostgres, folder: Path, plan: Plan, kinds: list[str], cut_seconds: float) -> None:
        # (they have what a trial needs of one of each)
        super().__init__(cast(Both, servers), folder, plan, 1)
        self.servers, self.kinds, self.cut_seconds, self.each = servers, kinds, cut_seconds, plan.seconds / (len(kinds) + 1)
        self.told: list[tuple[str, str, float, float, Counter[str]]] = []
        self.failed: list[str] = []

    def enter(self, part: Part) -> None:
        """Each part is where its kind is."""
        enter(PLACES[part.kind])

    def _live(self) -> None:
        self.struck, self.begun = 0, time.monotonic()
        self.striking = threading.Thread(target=self._strike_nodes)
        self.striking.start()
        super()._live()
        self.striking.join(DRAINED)

    def is_busy(self) -> bool:
        """Whether nodes are still to be killed or cut off."""
        return self.striking.is_alive()

    def share(self, passed: float) -> float:
        """As much for each kill and each cut, however long they take."""
        return (self.struck + min(1.0, (time.monotonic() - self.begun) / self.each)) / (len(self.kinds) + 1)

    def _strike_nodes(self) -> None:
        """Kills and cuts, one after the other, each once all nodes are there again."""
        try:
            for kind in self.kinds:
                time.sleep(PAUSE)
                self.struck, self.begun = self.struck + 1, time.monotonic()
                begun, before = time.time(), self._logged()
                rabbit = self.servers.rabbit
                name = rabbit.kill_leader() if kind == "killed" else rabbit.cut_leader(self.cut_seconds)
                self.kills[f"leader {kind}"] += 1
                self.told.append((name, kind, begun, time.time(), self._logged() - before))
        except Exception as fault:
            self.failed.append(f"nodes: {type(fault).__name__}: {fault}")

    def said(self) -> list[str]:
        """Each kill and each cut, and what the parts said meanwhile."""
        with store.connect(self.config.database) as database:
            took = [(fed, made - fed) for station in self.stations for fed, (made,) in zip(station.times, database.execute(
                "select made from line where gateway = %s order by epoch, message, place", (station.told.name,)))]
        found = []
        for name, kind, begun, ended, logged in self.told:
            seconds = sorted(wait for fed, wait in took if begun - 1 < fed < ended) or [0.0]
            found.append(f"{name} {kind}: all there again behind {ended - begun:.0f} s; of {len(seconds)} lines heard meanwhile one took"
                         f" {seconds[-1]:.1f} s to its commit at most, half of them {seconds[len(seconds) // 2]:.1f} s")
            found += [f"  {count} times {line}" for line, count in sorted(logged.items())]
        return found

    def _logged(self) -> Counter[str]:
        """What each kind of part has said so far of what it doesn't like."""
        found: Counter[str] = Counter()
        for part in self.all_parts():
            path = self.folder / f"{part.name}.log"
            for line in path.read_text(errors="replace").splitlines() if path.exists() else []:
                if line.startswith(("WARNING", "ERROR")):
                    found[f"{part.kind}: {GENERAL.sub('N', line)[:200]}"] += 1
        return found

    def faults(self) -> list[str]:
        """What isn't as it has to be, and whether all was done."""
        return self.failed + super().faults()


def main() -> int:
    """One trial."""
    seconds, kills, cuts, cut_seconds = [float(word) for word in (sys.argv[1:] + ["60", "2", "1", "30"][len(sys.argv) - 1:])[:4]]
    kill.PATIENCE = DRAINED
    with tempfile.TemporaryDirectory(dir=MEMORY) as folder:
        servers = NodesAndPostgres(Path(folder))
        try:
            (Path(folder) / "trial").mkdir()
            plan = Plan("nodes", meters=15, rounds=max(6, int(1.5 * seconds)), seconds=seconds, chance=0.003, window=20, losses=1)
            kinds = ["killed", "cut off"] * int(min(kills, cuts)) + ["killed"] * int(kills - cuts) + ["cut off"] * int(cuts - kills)
            trial = NodesTrial(servers, Path(folder) / "trial", plan, kinds, cut_seconds)
            found = trial.run()
            print(*trial.said(), sep="\n")
            print(trial.counts(), f"lines: {sum(len(it.lines) for it in trial.stations)}")
            print("\n".join([*found, trial.logs()]) if found else "nothing lost, nothing doubled, no difference to the uncut sessions")
            return 1 if found else 0
        finally:
            servers.end()


if __name__ == "__main__":
    if why := lacking() if IS_APART not in os.environ else "":
        sys.exit(f"nodes_by_hand.py: {why}")
    if IS_APART not in os.environ:
        os.environ[IS_APART] = "1"
        os.execvp(APART[0], [*APART, sys.executable, "-B", *sys.argv])
    sys.exit(main())
