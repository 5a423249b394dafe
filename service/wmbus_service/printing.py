"""What a command prints, also where nobody reads it any more."""
from __future__ import annotations

import argparse
import io
import os
import sys


def open_streams() -> None:
    """A standard stream that is closed is one that gives and takes nothing: else a file that a program is given would stand in its place."""
    for name, mode in (("stdin", "r"), ("stdout", "w"), ("stderr", "w")):
        if getattr(sys, name) is None:
            # (it gets the least number that is free, which is its own)
            setattr(sys, name, open(os.devnull, mode, encoding="utf-8"))


def leave_unread() -> None:
    """Nothing more is printed, the rest of a buffer neither."""
    os.dup2(os.open(os.devnull, os.O_WRONLY), sys.stdout.fileno())


def parsed(parser: argparse.ArgumentParser, given: list[str]) -> argparse.Namespace:
    """What the words ask for. Where that is help or the version it is printed; an output that can't take it is an OSError."""
    if isinstance(sys.stdout, io.TextIOWrapper):
        # (a terminal of another encoding gets the number of a sign that it doesn't have)
        sys.stdout.reconfigure(errors="backslashreplace")
    try:
        try:
            return parser.parse_args(given)
        except SystemExit:
            sys.stdout.flush()
            raise
    except OSError:
        leave_unread()
        raise
