"""The way to what the service has in common with the repository's scripts, the packages readings and telegrams: these are
in the source tree or, once installed, in the library's folder."""
from __future__ import annotations

import sys

from .config import HERE

FOLDERS = (HERE.parent, HERE)
FOLDER = next((folder for folder in FOLDERS if (folder / "readings/page_texts.py").exists()), FOLDERS[0])
sys.path += [it for it in (str(FOLDER),) if it not in sys.path]

from readings.version import ShowVersion, version  # noqa: E402

__all__ = ["FOLDER", "ShowVersion", "version"]
