"""What words of a report mean and what to do, and the device types in words: tables that build/word_tables makes of docs/FORMATS.md and of
the crate meter_label, in words.json beside this file."""
from __future__ import annotations

import functools
import json
import os
import re
from typing import Any, NamedTuple

TOP = os.path.dirname(os.path.dirname(os.path.realpath(__file__)))
WORDS = "readings/words.json"
# a piece between backticks, or between two of them where there are some in it
CODE = re.compile(r"``(.+?)``|`([^`]+)`")


class Explained(NamedTuple):
    """What words mean, and what to do, with pieces between backticks."""

    meaning: str
    to_do: str


def codes_of(text: str) -> list[str]:
    """The pieces between backticks."""
    return [(long or short).strip() for long, short in CODE.findall(text)]


@functools.cache
def _tables() -> dict[str, Any]:
    with open(os.path.join(TOP, WORDS), encoding="utf-8") as file:
        tables: dict[str, Any] = json.load(file)
    return tables


def device_types() -> list[str]:
    """The device types in words, from 0 on."""
    types: list[str] = _tables()["device_types"]
    return types


def row_of(words: str) -> Explained | None:
    """What explains words of a report: that of their longest beginning which is explained, if any is."""
    rows, parts = _tables()["report"], words.split(" ")
    found = (rows.get(" ".join(parts[:count])) for count in range(len(parts), 0, -1))
    return next((Explained(*row) for row in found if row is not None), None)
