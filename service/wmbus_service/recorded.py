"""A recorded file is heard once, by its name and content, whatever ends its receiver meanwhile: its lines come into the spool as one file,
under a name that is noted first."""
from __future__ import annotations

import hashlib
import json
import os
from contextlib import suppress
from pathlib import Path

from .spool import sync, sync_names
from .trouble import Trouble

CHUNK = 1 << 20


class Recorded:
    """What a receiver's recorded file is, and which of its contents were heard: each with the spool's file that took it."""

    def __init__(self, spool: Path, name: str, path: Path) -> None:
        self.spool, self.path = spool, path
        self.note = spool / f"{name}.heard"
        self.key = f"{path} {_digest(path)}"
        self.heard: dict[str, str] = self._read()

    def _read(self) -> dict[str, str]:
        try:
            told: dict[str, str] = json.loads(self.note.read_text("utf-8"))
            return told
        except FileNotFoundError:
            return {}
        except ValueError:
            raise Trouble(self.note, "it can't be read, and says which recorded files were heard", "delete it to hear them again") from None

    def is_heard(self) -> bool:
        """Whether it was heard; what a kill left of that is done now."""
        target = self.heard.get(self.key)
        if target is None:
            return False
        self._name(target)
        return True

    def making(self, target: str) -> Path:
        """Where its lines are put together."""
        return self.spool / f"{target}.making"

    def count(self, target: str) -> None:
        """From here on it counts as heard: its lines stand whole on the disk, and have their name now, or at the next start."""
        with open(self.making(target), "rb+") as made:
            sync(made.fileno())
        beside = self.note.with_suffix(".making")
        opened = os.open(beside, os.O_WRONLY | os.O_CREAT | os.O_TRUNC | os.O_CLOEXEC, 0o600)
        with open(opened, "w", encoding="utf-8") as file:
            json.dump(self.heard | {self.key: target}, file)
            file.flush()
            sync(file.fileno())
        beside.rename(self.note)
        sync_names(self.spool)
        self._name(target)

    def _name(self, target: str) -> None:
        with suppress(FileNotFoundError):
            self.making(target).rename(self.spool / target)
            sync_names(self.spool)


def _digest(path: Path) -> str:
    told = hashlib.sha256()
    try:
        with open(path, "rb") as file:
            while content := file.read(CHUNK):
                told.update(content)
    except OSError as fault:
        raise Trouble(path, f"the recorded file can't be read: {fault.strerror}", "look at receivers.NAME.file and at its rights") from None
    return told.hexdigest()
