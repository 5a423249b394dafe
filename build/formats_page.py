"""The rows of docs/FORMATS.md whose last column is headed `What to do`: what each printed word means, and what to do."""
from __future__ import annotations

import os
import re

from readings.explained import codes_of

TOP = os.path.dirname(os.path.dirname(os.path.realpath(__file__)))
PAGE = "docs/FORMATS.md"


class Row:
    """A row: under which heading it is, the words in its first column, what they mean, and what to do."""

    def __init__(self, number: int, section: str, cells: list[str]) -> None:
        self.number = number
        self.section = section
        self.words = codes_of(cells[0])
        self.first = cells[0]
        self.middle = cells[1:-2]
        self.meaning, self.to_do = cells[-2:]


def cells_of(line: str) -> list[str]:
    """The cells of a line of a table."""
    return [cell.strip() for cell in line.strip().strip("|").split("|")]


def explained_rows() -> list[Row]:
    """All rows, in the order of the page. One that says `as above` says what the one above it says."""
    rows: list[Row] = []
    section, explains = "", False
    with open(os.path.join(TOP, PAGE), encoding="utf-8") as file:
        for number, line in enumerate(file, 1):
            if line.startswith("## "):
                section = line[3:].strip()
            if not line.startswith("|"):
                explains = False
            elif cells_of(line)[-1] == "What to do":
                explains = True
            elif explains and not line.startswith("|---"):
                rows.append(Row(number, section, cells_of(line)))
    for above, row in zip(rows, rows[1:]):
        if row.to_do == "as above" and row.section == above.section:
            row.to_do = above.to_do
    return rows


def fixed_words(words: str) -> str:
    """The words without what varies, which is there in capitals: `stale GOT LAST` is `stale`."""
    return re.sub(r"^[A-Z]+ (?=[a-z])|(?: [A-Z]+)+$", "", words)
