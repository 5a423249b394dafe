"""What is told to those who run the service."""
from __future__ import annotations


class Trouble(Exception):
    """What is wrong, where, and what to do about it."""

    def __init__(self, place: object, wrong: str, remedy: str = "") -> None:
        super().__init__(f"{place}: {wrong}" + (f"; {remedy}" if remedy else ""))
