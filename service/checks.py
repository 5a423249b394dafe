"""A folder's tests: types, then pytest. Counts them, and says by name what was skipped. Nothing of it goes on without a limit, and nothing
needs a network or a home that can be written."""
from __future__ import annotations

import os
import re
import shutil
import subprocess
import tempfile
import time
from collections.abc import Iterable
from dataclasses import dataclass
from pathlib import Path

PYTHON = "/usr/bin/python3"
FOLDERS = "/usr/sbin:/usr/bin:/usr/local/sbin:/usr/local/bin"
TYPES_SECONDS, INSTALL_SECONDS, UNPACK_SECONDS = 600, 300, 900
# where there is no network, or another installs, it is given up soon
NO_PATIENCE = ("-o", "Acquire::Retries=0", "-o", "Acquire::http::Timeout=15", "-o", "Acquire::https::Timeout=15", "-o",
               "DPkg::Lock::Timeout=60")
FOUND = """
import importlib.util, sys
for name in sys.argv[1:]:
    try:
        found = importlib.util.find_spec(name)
    except ImportError:
        found = None
    print("no" if found is None else "yes")"""


@dataclass(frozen=True)
class Check:
    """What a folder's tests want."""

    folder: Path
    name: str
    packages: list[str]
    # Debian's package of each module and of each program, and those without which nothing is tried
    modules: dict[str, str]
    programs: dict[str, str]
    needed: set[str]
    seconds: int = 600

    def missing(self) -> list[str]:
        """Debian's packages that aren't there."""
        told = subprocess.run([PYTHON, "-c", FOUND, *self.modules], capture_output=True, text=True, check=True).stdout.split()
        lacking = [package for said, package in zip(told, self.modules.values(), strict=True) if said == "no"]
        return lacking + [package for program, package in self.programs.items() if not shutil.which(program, path=FOLDERS)]

    def run(self, words: Iterable[str]) -> int:
        """Types, then tests, to which the words go; the last line counts them. The word --install installs alone. The exit status."""
        if not os.path.exists(PYTHON):
            print(f"{self.name}: skipped, {PYTHON} isn't there\n0 passed, 0 failed")
            return 0
        install(self.missing())
        words = [*words]
        if words == ["--install"]:
            return 0
        lacking = self.missing()
        for package in lacking:
            print(f"{self.name}: {package} isn't there, and what needs it is skipped")
        if self.needed & set(lacking):
            print("0 passed, 0 failed")
            return 0
        failed = 0 if "mypy" in lacking else self._types()
        passed, wrong = self._tests(words)
        failed += wrong
        print(f"{passed} passed, {failed} failed")
        return 1 if failed else 0

    def _types(self) -> int:
        """Whether the types are wrong."""
        types = limited([PYTHON, "-m", "mypy", "--config-file", "pyproject.toml", "--cache-dir", f"/tmp/{self.packages[0]}-mypy",
                         *self.packages], self.folder, TYPES_SECONDS)
        print(types.stdout[-5000:], types.stderr[-5000:], sep="", end="")
        return int(types.returncode != 0)

    def _tests(self, words: Iterable[str]) -> tuple[int, int]:
        """How many tests passed, and how many didn't."""
        tests = limited([PYTHON, "-B", "-m", "pytest", "-q", "-rs", "--durations=15", "-p", "no:cacheprovider", "-W",
                         "ignore::DeprecationWarning", "-o", "faulthandler_timeout=150", self.packages[-1], *words], self.folder, self.seconds)
        print(tests.stdout[-5000:], tests.stderr[-5000:], sep="")
        counts = {word: int(count) for count, word in re.findall(r"(\d+) (passed|failed|error)", tests.stdout)}
        failed = counts.get("failed", 0) + counts.get("error", 0)
        return counts.get("passed", 0), failed + (failed == 0 and tests.returncode != 0)


def limited(words: list[str], folder: Path, seconds: int, environment: dict[str, str] | None = None) -> subprocess.CompletedProcess[str]:
    """Runs a program with all that it starts, at most so long. What it leaves behind and what holds its output can't hold up who waits."""
    with tempfile.TemporaryFile("w+", encoding="utf-8", errors="replace") as out, tempfile.TemporaryFile("w+", encoding="utf-8",
                                                                                                         errors="replace") as err:
        done = subprocess.run(["timeout", "-k", "5", str(seconds), *words], cwd=folder, env=environment, stdin=subprocess.DEVNULL, stdout=out,
                              stderr=err, check=False)
        texts = [file.read() for file in (out, err) if file.seek(0) == 0]
    late = f"ended after {seconds} s\n" if done.returncode in (124, 137) else ""
    return subprocess.CompletedProcess(words, done.returncode, texts[0], texts[1] + late)


def install(packages: list[str], seconds: int = INSTALL_SECONDS) -> None:
    """Installs packages, each by itself where not all are to be had, where this is Debian and root; what can't be fetched in time is
    left."""
    if not packages or os.geteuid() or not os.path.exists("/usr/bin/apt-get"):
        return
    environment = os.environ | {"DEBIAN_FRONTEND": "noninteractive", "RUNLEVEL": "1"}
    until = time.monotonic() + seconds

    def apt_get(limit: int, *words: str) -> bool:
        return limit > 0 and limited(["apt-get", *NO_PATIENCE, *words], Path("/"), limit, environment).returncode == 0

    def left() -> int:
        return int(until - time.monotonic())

    def add(*names: str) -> bool:
        # (what is fetched may be cut off at any moment; what is put in place mustn't be)
        words = ("install", "-y", "--no-install-recommends")
        return apt_get(left(), *words, "--download-only", *names) and apt_get(UNPACK_SECONDS, *words, *names)
    if not add(*packages) and not (apt_get(left(), "update") and add(*packages)):
        for package in packages:
            add(package)
