"""What is asked of a store of meters."""
from __future__ import annotations

from collections.abc import Sequence
from typing import Any, Protocol


class Database(Protocol):
    """A database that is asked in the SQL that the stores have in common: the service's own, and others that have its tables as views."""

    def execute(self, query: str, values: Sequence[Any] = ..., /) -> Any:
        """Asks something."""

    def close(self) -> None:
        """Ends it."""
