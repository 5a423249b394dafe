"""The demo is killed (-9), so that it ends nothing of itself: what it started ends all the same, its folder goes at the next start, and a
demo that runs beside it stays."""
from __future__ import annotations

import os
import shutil
import subprocess
import tempfile
from collections.abc import Iterator
from contextlib import suppress
from pathlib import Path

import pytest
from tests.kill import PYTHON
from tests.processes import until
from wmbus_fleet import demo

from . import servers

COMMAND = Path(__file__).parents[1] / "wmbus-fleet"
LIMIT = 240


@pytest.fixture(name="folder")
def folder_fixture() -> Iterator[Path]:
    """Where demos have their folders; PostgreSQL, which is another user's where this is root, gets through it."""
    if lacking := servers.missing():
        pytest.skip(f"{', '.join(lacking)} isn't there")
    folder = Path(tempfile.mkdtemp(prefix="wmbus-fleet-killed-"))
    folder.chmod(0o711)
    try:
        yield folder
    finally:
        shutil.rmtree(folder)


def started(folder: Path, *words: str) -> subprocess.Popen[str]:
    """A demo of a few meters."""
    return subprocess.Popen([PYTHON, COMMAND, "demo", "--meters", "20", *words], env=os.environ | {"TMPDIR": str(folder)},
                            stdin=subprocess.DEVNULL, stdout=subprocess.PIPE, stderr=subprocess.STDOUT, text=True)


def says(process: subprocess.Popen[str], words: str) -> None:
    """Waits until a process says something."""
    assert process.stdout
    said = []
    for line in process.stdout:
        said.append(line)
        if words in line:
            return
    raise AssertionError("".join(said))


def processes(folder: Path) -> list[str]:
    """The processes whose words, or surroundings, or what is open for them are of a folder."""
    found = []
    for place in Path("/proc").glob("[0-9]*"):
        with suppress(OSError):
            words = (place / "cmdline").read_bytes().replace(b"\0", b" ").decode(errors="replace")
            # (of a process that can't be dumped root alone sees more than its words)
            if str(folder) in words or str(folder).encode() in (place / "environ").read_bytes() or any(
                    os.readlink(it).startswith(str(folder)) for it in (place / "fd").iterdir()):
                found.append(f"{place.name} {words}")
    return found


def test_all_ends_with_the_demo(folder: Path) -> None:
    """A demo that is killed while its servers start, and one while all its parts work; the next ones take away what each has left, and the
    one that works stays."""
    early = started(folder)
    says(early, "RabbitMQ and PostgreSQL start")
    until(lambda: processes(folder), LIMIT)
    kill(early, folder)
    (left,) = folder.iterdir()
    first = started(folder, "--port", "0")
    says(first, "RabbitMQ and PostgreSQL start")
    assert not left.exists()
    (own,) = folder.iterdir()
    assert demo.FOLDER in own.name
    second = started(folder, "--port", "0")
    for it in (first, second):
        says(it, "Ctrl-C ends it")
    told = " ".join(processes(own))
    assert all(it in told for it in ("beam", "postgres", "epmd", " gateway", " intake", " sessions", " downlinks")), told
    kill(first, own)
    (others,) = set(folder.iterdir()) - {own}
    third = started(folder)
    says(third, "RabbitMQ and PostgreSQL start")
    assert not own.exists() and others.exists() and processes(others) and second.poll() is None
    (last,) = set(folder.iterdir()) - {others}
    kill(third, last)
    second.terminate()
    assert second.wait(LIMIT) == 0
    assert not others.exists() and not processes(folder)


def kill(process: subprocess.Popen[str], folder: Path) -> None:
    """Kills a demo, and waits until nothing of its folder runs."""
    process.kill()
    process.wait()
    until(lambda: not processes(folder), LIMIT)
