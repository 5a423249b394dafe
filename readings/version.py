"""Which release this is: the number in VERSION, and the commit where it is known. A package has the commit behind the number in its own
VERSION; a checkout asks git for it."""
from __future__ import annotations

import argparse
import functools
import os
import subprocess
from collections.abc import Sequence
from typing import Any

TOP = os.path.dirname(os.path.dirname(os.path.realpath(__file__)))
GIT_SECONDS = 5


def commit_of_checkout() -> str:
    """The first eight digits of the commit that is checked out here, or nothing where this is no checkout or git doesn't say."""
    if not os.path.exists(os.path.join(TOP, ".git")):
        return ""
    try:
        words = ["git", "-C", TOP, "rev-parse", "--short=8", "HEAD"]
        ran = subprocess.run(words, capture_output=True, text=True, timeout=GIT_SECONDS, check=False)
    except (OSError, subprocess.TimeoutExpired):
        return ""
    return ran.stdout.strip() if ran.returncode == 0 else ""


@functools.cache
def number() -> str:
    """The release's number alone."""
    return _words()[0]


@functools.cache
def version() -> str:
    """The number, and behind it the commit where it is known."""
    release, *built = _words()
    commit = built[0] if built else commit_of_checkout()
    return f"{release} ({commit})" if commit else release


class ShowVersion(argparse.Action):
    """What `--version` does: the commit is looked for only where it is asked for."""

    def __init__(self, option_strings: Sequence[str], dest: str, **_: Any) -> None:
        super().__init__(option_strings, argparse.SUPPRESS, nargs=0, default=argparse.SUPPRESS, help="prints which release this is")

    def __call__(self, parser: argparse.ArgumentParser, *_: Any) -> None:
        print(f"{os.path.basename(parser.prog)} {version()}")
        parser.exit()


def built() -> str:
    """What a package or an installation has in its VERSION."""
    return " ".join(_words() if len(_words()) > 1 else [number(), commit_of_checkout()]).strip()


def _words() -> list[str]:
    with open(os.path.join(TOP, "VERSION"), encoding="ascii") as file:
        return file.read().split()


if __name__ == "__main__":
    print(built())
