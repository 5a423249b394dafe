"""Meters out of lists of keys, all of a list or none: those with columns (key_lists), and Kamstrup's key files (kem)."""
from __future__ import annotations

import json
import re
import sqlite3
import subprocess
from collections.abc import Callable, Sequence
from dataclasses import dataclass
from pathlib import Path

from . import key_lists, store
from .asking import Database
from .commands import joined
from .config import Config, words_of
from .key_lists import Row
from .meters import KEY_PLACE, bring_back, name_of, take_roster
from .trouble import Trouble

ADDRESS = re.compile(r"[0-9a-f]{16}")
ADDRESS_DIGITS, KEY_DIGITS = 16, 32
# the modes, and the profiles of OMS that are these
MODES = {"5": "5", "7": "7", "a": "5", "b": "7"}
MODE = re.compile("(?:security )?(?:(?:mode|modus|profile?) ?)?([57ab])", re.IGNORECASE)
# what stands on a meter by DIN 43863-5: what it measures, the maker's letters, a block, and its number
NUMBER, WHOLE_NUMBER = re.compile(r"[0-9]{1,8}"), re.compile(r"[0-9A-Z]([A-Z]{3})[0-9A-Z]{2}([0-9]{8})")
# a long number as a spreadsheet writes it
ROUNDED = re.compile(r"[0-9]+(?:[.,][0-9]+)?e\+[0-9]+")
MOST_TOLD = 10


@dataclass(frozen=True)
class Wish:
    """How a list is taken: under which address of the collector, in which mode where the list names none, and whether of meters that were
    heard alone."""

    own: str
    mode: str = "7"
    is_heard: bool = False


class Faulty(Exception):
    """A field that isn't as it has to be, in words that tell nothing of it."""

    def __init__(self, row: Row, name: str, why: str) -> None:
        super().__init__(f"{row.at(name)}: {why}")


def read_list(path: Path, content: bytes, password: Callable[[], str]) -> list[Row]:
    """The meters of a list of any form that is known; the password is asked for where the form has one."""
    if key_lists.has_columns(content):
        return key_lists.read_rows(path, content)
    # (what it takes to open these is loaded for them alone)
    from . import kem
    return kem.read_kem(path, content, password)


def take_list(config: Config, database: sqlite3.Connection, path: Path, rows: Sequence[Row], wish: Wish) -> tuple[int, int, int, int]:
    """Adds the meters of a list, all of them or none; how many are new, how many are known with another key, how many are left since they
    weren't heard yet, and how many were out of service and are back."""
    addresses = Addresses(words_of(config.programs.meter_name), database)
    meters, unheard = meters_of(path, rows, addresses, wish)
    blocks = database.execute("select address, block from meter where address in (select value from json_each(?))",
                              (json.dumps(list(meters)),))
    others = sum(block.split(" ")[KEY_PLACE] != meters[address][0].split(" ")[KEY_PLACE] for address, block in blocks)
    text = f"wmbus-roster 2\nown {wish.own}\n" + "".join(f"{line}\n" for line, _ in meters.values())
    added = take_roster(config, database, text, path)
    with store.transaction(database):
        database.executemany("update meter set name = ? where address = ? and name = ''",
                             [(name, address) for address, (_, name) in meters.items()])
        back = bring_back(database, list(meters))
    return added, others, unheard, back


def meters_of(path: Path, rows: Sequence[Row], addresses: Addresses, wish: Wish) -> tuple[dict[str, tuple[str, str]], int]:
    """Of each meter by its address its line of a roster and its name; and how many are left since they weren't heard yet."""
    found: dict[str, tuple[str, str]] = {}
    faults: list[str] = []
    unheard: list[Row] = []
    for row in rows:
        try:
            line = _line_of(row, wish)
            address = addresses.of(row)
            if address is None or wish.is_heard and address not in addresses:
                unheard.append(row)
            elif address in found:
                raise Faulty(row, "identification", "the same meter stands further up")
            else:
                found[address] = f"meter {address} {line}", name_of(row.fields.get("name", ""))
        except Faulty as fault:
            faults.append(str(fault))
    if faults:
        more = [f"and {len(faults) - MOST_TOLD} more"] if len(faults) > MOST_TOLD else []
        raise Trouble(path, "nothing of the list was taken\n" + "\n".join(faults[:MOST_TOLD] + more))
    if unheard and not wish.is_heard:
        raise Trouble(path, f"nothing of the list was taken: {len(unheard)} of its {len(rows)} meters weren't heard yet"
                            f" ({unheard[0].place}), and it doesn't say their maker, version and device type as codes of three letters and"
                            " of two hexadecimal digits",
                      "add these, or let the service hear the meters first; --heard takes those that were")
    return found, len(unheard)


def _line_of(row: Row, wish: Wish) -> str:
    """What a meter's line of a roster has behind its address."""
    told = MODE.fullmatch(row.fields.get("mode") or wish.mode)
    if told is None:
        raise Faulty(row, "mode", "it is none of 5, 7, A and B")
    mode, key = MODES[told[1].lower()], _digits(row, "key", KEY_DIGITS)
    other = _digits(row, "other", KEY_DIGITS) if row.fields.get("other", "-") not in ("", "-") else "-"
    if mode == "5" and other != "-":
        raise Faulty(row, "other", "a meter of mode 5 has one key")
    return f"{mode} {key} {other} - 0 0"


def _digits(row: Row, name: str, count: int) -> str:
    """A field of so many hexadecimal digits, which may stand in groups and in large letters."""
    text = joined(row.fields.get(name, ""))
    if ROUNDED.fullmatch(text):
        raise Faulty(row, name, "a spreadsheet made a number of it, and digits are gone: have the column be text, and enter it anew")
    if not re.fullmatch("[0-9a-f]*", text):
        raise Faulty(row, name, f"it has other signs than hexadecimal digits, of which there have to be {count}")
    if len(text) != count:
        raise Faulty(row, name, f"it has {len(text)} hexadecimal digits, and there have to be {count}")
    return text


class Addresses:
    """The addresses of a list's meters: as they stand there, as `meter_name` makes them of a whole label, or as they were heard."""

    def __init__(self, program: Sequence[str], database: Database) -> None:
        self.program = program
        self.known: dict[str, list[str]] = {}
        for (address,) in database.execute("select address from stranger union select address from meter").fetchall():
            self.known.setdefault(address[4:12], []).append(address)

    def __contains__(self, address: str) -> bool:
        """Whether a meter was heard, or is known already."""
        return address in self.known.get(address[4:12], [])

    def of(self, row: Row) -> str | None:
        """The address of a row's meter, none where it isn't told and no such meter was heard."""
        if row.fields.get("address"):
            return _digits(row, "address", ADDRESS_DIGITS)
        labels = _labels(row)
        version, kind = (_code(row.fields.get(name, "")) for name in ("version", "type"))
        if version and kind and labels[0][0]:
            return self._named(row, *labels[0], version, kind)
        found = {address for maker, number in labels for address in self._heard(row, maker, number)
                 if version in ("", address[12:14]) and kind in ("", address[14:])}
        if len(found) > 1:
            raise Faulty(row, "identification", f"{len(found)} meters with this number were heard, {' and '.join(sorted(found))}: name"
                                                " maker, version and device type, or the address")
        return next(iter(found), None)

    def _heard(self, row: Row, maker: str, number: str) -> list[str]:
        """The meters with a number that were heard, and are of this maker where one is named."""
        known = self.known.get(bytes.fromhex(number)[::-1].hex(), [])
        begin = self._named(row, maker, number, "00", "00")[:4] if maker and known else ""
        return [address for address in known if address.startswith(begin)]

    def _named(self, row: Row, *label: str) -> str:
        """The address of what stands on a label, as the program says."""
        words = [*self.program, *label]
        try:
            done = subprocess.run(words, stdin=subprocess.DEVNULL, capture_output=True, text=True, check=False)
        except OSError as fault:
            raise Trouble(words[0], f"the program can't be started: {fault.strerror}",
                          "name it in the configuration under [programs]") from None
        found = ADDRESS.search(done.stdout.lower())
        if done.returncode or not found:
            raise Faulty(row, "identification", f"`meter_name` makes no address of this label, and ends with status {done.returncode}")
        return found[0]


def _labels(row: Row) -> list[tuple[str, str]]:
    """The maker's letters, if they are known, and the eight digits of each number that a row has, one at least."""
    maker = row.fields.get("maker", "").upper()
    maker = maker if re.fullmatch("[A-Z]{3}", maker) else ""
    found = []
    for name in ("identification", "number"):
        text = re.sub(r"[\s.-]", "", row.fields.get(name, "")).upper()
        whole = WHOLE_NUMBER.fullmatch(text)
        if whole:
            found.append((maker or whole[1], whole[2]))
        elif NUMBER.fullmatch(text):
            # (a spreadsheet leaves out zeros in front)
            found.append((maker, text.zfill(8)))
    if not found:
        raise Faulty(row, "identification", "it is no number of up to eight digits, and none of fourteen signs with the maker's letters"
                                            " in it (DIN 43863-5)")
    return found


def _code(text: str) -> str:
    """Two hexadecimal digits, of which a spreadsheet may have left out a zero in front; nothing of what is said in words."""
    found = re.fullmatch("(?:0x)?([0-9a-f]{1,2})h?", text.lower())
    return found[1].zfill(2) if found else ""
