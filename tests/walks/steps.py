"""What the walks share: a person's folder, the programs as they lie ready, and what each step has to give."""
from __future__ import annotations

import functools
import os
import re
import subprocess
import sys
from collections.abc import Callable
from pathlib import Path
from typing import Any

import running
from formats_page import Row, explained_rows
from judging import content, text_of
from readings import programs
from reference import judge

TOP = Path(programs.TOP)
EXAMPLES = TOP / "examples"
# what copies lines as they stand prints what stands in them
COPIES = {"line_merge"}
PROGRAMS = ("address_list", "audit_check", "frame_inspect", "input_check", "line_accept", "line_feed", "line_merge", "meter_name", "meter_side", "reading_list",
            "state_merge", "state_raise", "usage_totals", "wmbus")
SCRIPTS = ("keep_readings", "report_page", "sessions")
# the statuses that the scripts' own --help names; bin/sessions ends with those of wmbus too
OF_SCRIPTS = {"keep_readings": {0, 1, 2}, "report_page": {0, 1, 2}, "sessions": {0, 1, 2, 9}}
MOST_SECONDS = 60


class Wrong(Exception):
    """What of a step isn't as it has to be."""


def equal(what: str, wanted: object, given: object) -> None:
    """Two things that have to be the same; of two lists the first place at which they differ is told."""
    if wanted != given and isinstance(wanted, list) and isinstance(given, list):
        unlike = (at for at, pair in enumerate(zip(wanted, given)) if pair[0] != pair[1])
        at = next(unlike, min(len(wanted), len(given)))
        raise Wrong(f"{what}: at place {at} of {len(wanted)}: wanted {wanted[at:at + 1]!r:.400}, got {given[at:at + 1]!r:.400}")
    if wanted != given:
        raise Wrong(f"{what}: wanted {wanted!r:.400}, got {given!r:.400}")


def true(what: str, holds: object) -> None:
    """What has to hold."""
    if not holds:
        raise Wrong(what)


@functools.cache
def ready(name: str) -> str:
    """The path of a program, which is looked for once."""
    return programs.path(name)


@functools.cache
def rows() -> list[Row]:
    """The rows of docs/FORMATS.md that say what to do."""
    return explained_rows()


@functools.cache
def documented(name: str) -> frozenset[int]:
    """The statuses that docs/FORMATS.md gives a program, or a script's --help."""
    if name in OF_SCRIPTS:
        return frozenset(OF_SCRIPTS[name] | (documented("wmbus") if name == "sessions" else set()))
    found = [row for row in rows() if row.section == "Exit statuses" and row.first.isdecimal()]
    return frozenset(int(row.first) for row in found if f"`{name}`" in row.middle[0])


def what_to_do(section: str, words: str) -> str:
    """What docs/FORMATS.md says under this heading that is to be done about words that were printed."""
    for row in (it for it in rows() if it.section == section):
        for code in row.words:
            pattern = " ".join(r"\S+" if re.fullmatch("[A-Z]+:?", word) else re.escape(word) for word in code.split(" "))
            if re.match(pattern, words) and row.to_do:
                return row.to_do
    raise Wrong(f'docs/FORMATS.md, "{section}", has no row with what to do for {words!r}')


class Walk:
    """A folder, in which a person goes from step to step; each step uses what the one before left there."""

    def __init__(self, folder: str, stand_ins: dict[str, str]) -> None:
        self.folder = Path(folder)
        self.stand_ins = stand_ins
        self.left_out: list[str] = []
        self.keys: set[str] = set()

    def program(self, name: str) -> str:
        """The path of a program or a script."""
        if name in self.stand_ins:
            return self.stand_ins[name]
        return ready(name) if name in PROGRAMS else str(TOP / "bin" / name)

    def command(self, name: str) -> list[str]:
        """The words that start a program, or a script by the Python that runs here."""
        is_script = name in SCRIPTS and name not in self.stand_ins
        return [sys.executable, self.program(name)] if is_script else [self.program(name)]

    def path(self, name: str) -> Path:
        """The path of a file of the folder."""
        return self.folder / name

    def write(self, name: str, text: bytes | str) -> None:
        """Makes a file."""
        self.path(name).write_bytes(text if isinstance(text, bytes) else text.encode())

    def read(self, name: str) -> bytes:
        """A file's bytes."""
        return content(str(self.path(name)))

    def text(self, name: str) -> str:
        """A file's text."""
        return text_of(str(self.path(name)))

    def add(self, name: str, text: bytes | str) -> None:
        """Writes behind what a file has."""
        with open(self.path(name), "ab") as file:
            file.write(text if isinstance(text, bytes) else text.encode())

    def say(self, words: str) -> None:
        """Says what is left out, and why."""
        self.left_out.append(words)

    def environment(self) -> dict[str, str]:
        """Scripts start the program that lies ready, or its stand-in; what they print is buffered, as it is by itself."""
        kept = {name: value for name, value in os.environ.items() if name != "PYTHONUNBUFFERED"}
        return kept | {"READING_LIST": self.program("reading_list")}

    def tried(self, name: str, *words: str, feed: bytes = b"", output: int = subprocess.PIPE,
              before: Callable[[], object] | None = None) -> running.Ran:
        """Runs a program, and looks at what holds of every run: a documented status, words on the standard error, no traceback and no key."""
        asked = [*self.command(name), *words]
        told = f"{name} {' '.join(words)}"
        try:
            ran = running.run(asked, feed, MOST_SECONDS, cwd=self.folder, stdout=output, preexec_fn=before, env=self.environment())
        except running.TooLong:
            raise Wrong(f"{told}: it hasn't ended after {MOST_SECONDS} s") from None
        if ran.status not in documented(name):
            raise Wrong(f"{told}: status {ran.status} isn't documented; it said {ran.told:.300}")
        if "Traceback" in ran.told or "Exception" in ran.told:
            raise Wrong(f"{told}: a traceback: {ran.told[-300:]}")
        if ran.status and not re.search(rf"^(?:bin/)?{name}: .", ran.told, re.M):
            raise Wrong(f"{told}: status {ran.status} without a word on the standard error: {ran.told:.300}")
        shown = (ran.text + ran.told).lower()
        if name not in COPIES and any(key in shown for key in self.keys):
            raise Wrong(f"{told}: a key is printed")
        return ran

    def run(self, name: str, *words: str, status: int = 0, told: str | None = None, **how: Any) -> running.Ran:
        """Runs a program that has to end with this status, and to say this on the standard error."""
        ran = self.tried(name, *words, **how)
        if ran.status != status:
            raise Wrong(f"{name} {' '.join(words)}: wanted status {status}, got {ran.status}: {ran.told:.300}")
        if told is not None:
            equal(f"{name} {' '.join(words)}: the standard error", told, ran.told)
        return ran

    def stick(self, name: str, *words: str) -> bytes:
        """What the stand-in of a radio receiver prints."""
        ran = running.run([str(TOP / "tests" / "stand_ins" / name), *words])
        equal(f"the status of the stand-in {name}", 0, ran.status)
        return ran.out

    def session(self, *words: str) -> str:
        """A session of `hear`, `collect` or `continue` that ends with status 0 and is what the second implementation says of it; its report."""
        command, known = words[0], self.read(words[1])
        ran = self.run("wmbus", *words, told="")
        texts = {"report": ran.text}
        heard, sent = ([words[2]], []) if command == "hear" else (words[4::2], words[5::2])
        if command != "hear":
            texts |= {"next": self.text(words[2]), "readings": self.text(words[3])}
            texts |= {f"tx{number}": self.text(name) for number, name in enumerate(sent, 1)}
        self.judge(command, known, list(heard), texts)
        return ran.text

    def judge(self, command: str, known: bytes, heard: list[str], texts: dict[str, str]) -> None:
        """What a session over these files printed and wrote has to be what the second implementation says of them."""
        run = judge.Run(0, {"stderr": ""} | texts)
        found = judge.judged(command, known, [self.read(name) for name in heard], run)
        if found:
            raise Wrong(f"wmbus {command} over {' '.join(heard)}: {found[0]}")
