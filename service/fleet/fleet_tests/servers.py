"""RabbitMQ and PostgreSQL for tests, and the certificates of the tests' authority."""
from __future__ import annotations

import os
import shutil
import tempfile
from pathlib import Path

from wmbus_fleet.own_servers import Both as OwnBoth
from wmbus_fleet.own_servers import Postgres, Rabbit, Secured, Server, missing

__all__ = ["MEMORY", "Both", "Postgres", "Rabbit", "Secured", "Server", "missing"]

MEMORY = "/dev/shm" if os.access("/dev/shm", os.W_OK) else None


class Both(OwnBoth):
    """Both servers, of which a test may kill each, in a folder that goes with them."""

    def __init__(self) -> None:
        folder = Path(tempfile.mkdtemp(prefix="wmbus-fleet-", dir=MEMORY))
        try:
            super().__init__(folder)
        except BaseException:
            shutil.rmtree(folder, ignore_errors=True)
            raise

    def end(self) -> None:
        """Ends them, and takes their folder away."""
        self.stop()
        shutil.rmtree(self.folder, ignore_errors=True)
