"""Where the tests find the package, the service's package and tests, the makers of messages and the second implementation."""
import sys
from collections.abc import Iterator
from pathlib import Path

import pytest

TOP = Path(__file__).resolve().parents[3]
sys.path[:0] = [str(TOP / "service/fleet"), str(TOP / "service"), str(TOP), str(TOP / "tests"), str(TOP / "tests/checks")]

from fleet_tests import servers  # noqa: E402


@pytest.fixture(scope="session")
def both(tmp_path_factory: pytest.TempPathFactory) -> Iterator[servers.Both]:
    """RabbitMQ and PostgreSQL, for all tests."""
    lacking = servers.missing()
    if lacking:
        pytest.skip(f"{', '.join(lacking)} isn't there")
    running = servers.Both()
    try:
        yield running
    finally:
        running.end()
