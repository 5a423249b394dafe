"""The files of the page's certificate and its key."""
from __future__ import annotations

import os
from collections.abc import Iterator
from contextlib import contextmanager

from ..config import Page


class CertificateFiles:
    """A certificate and its key in files that are read here."""

    def __init__(self, page: Page) -> None:
        self.page = page

    def seen(self) -> object:
        """By what it is seen that they were renewed, or may be read now."""
        told = [os.stat(path) for path in (self.page.certificate, self.page.key)]
        return [(it.st_ino, it.st_size, it.st_ctime_ns) for it in told]

    @contextmanager
    def opened(self) -> Iterator[tuple[str, str]]:
        """Their paths."""
        yield self.page.certificate, self.page.key
