"""Lists of keys as makers and spreadsheets save them: rows of fields, under columns that go by many names. No field of a row is ever told,
since any may be a key that stands in a wrong place."""
from __future__ import annotations

import codecs
import csv
import io
import re
from collections.abc import Iterator, Sequence
from contextlib import suppress
from dataclasses import dataclass
from pathlib import Path

from .trouble import Trouble

MOST_BYTES = 16 << 20
SEPARATORS = ";,\t|"
# the head stands among so many lines
MOST_ABOVE = 20
# columns by their names, in small letters without blanks and signs, ae for ä; docs/SERVICE.md, "Lists of keys", has the same
COLUMNS = {
    "key": ("key", "aeskey", "aes128key", "aes", "aes128", "dek", "encryptionkey", "decryptionkey", "meterkey", "schluessel",
            "aesschluessel", "aes128schluessel"),
    "address": ("address", "linkaddress", "meteraddress", "wmbusaddress", "zaehleradresse", "wmbusadresse"),
    "identification": ("identification", "identificationnumber", "id", "meterid", "meternumber", "meterno", "serial", "serialnumber",
                       "serialno", "deviceid", "devicenumber", "zaehlernummer", "zaehlernr", "seriennummer", "seriennr", "geraetenummer",
                       "geraetenr", "fabriknummer", "identnummer", "identnr"),
    "maker": ("maker", "manufacturer", "manufacturerid", "manufacturercode", "man", "vendor", "vendorid", "hersteller", "herstellerkennung",
              "herstellercode"),
    "version": ("version", "deviceversion", "generation", "gen"),
    "type": ("type", "devicetype", "medium", "mediumdevicetype", "geraetetyp", "zaehlertyp"),
    "mode": ("mode", "securitymode", "encryptionmode", "securityprofile", "modus", "sicherheitsmodus", "sicherheitsprofil"),
    "name": ("name", "label", "location", "description", "ort", "einbauort", "standort", "bezeichnung"),
    "other": ("other", "secondkey", "zweiterschluessel"),
}
NAMES = {word: name for name, words in COLUMNS.items() for word in words}
SPELT = str.maketrans({"ä": "ae", "ö": "oe", "ü": "ue"})
# how an archive begins, and XML
ARCHIVE, XML = b"PK\x03\x04", (b"<", b"\xef\xbb\xbf<", b"\xff\xfe<", b"\xfe\xff\0<")


@dataclass(frozen=True)
class Row:
    """A meter of a list: where it stands, its fields by what they are, and what the list calls these."""

    place: str
    fields: dict[str, str]
    columns: dict[str, str]

    def at(self, name: str) -> str:
        """The place of a field."""
        return f"{self.place}, column `{self.columns.get(name, name)}`"


def read_content(path: Path) -> bytes:
    """All of a list's file."""
    try:
        with open(path, "rb") as file:
            content = file.read(MOST_BYTES + 1)
    except OSError as fault:
        raise Trouble(path, f"the list can't be read: {fault.strerror}") from None
    if len(content) > MOST_BYTES:
        raise Trouble(path, f"the list has more than {MOST_BYTES} bytes", "give it in parts")
    return content


def has_columns(content: bytes) -> bool:
    """Whether a file may be a list with columns, and is neither an archive nor XML."""
    return not content.lstrip().startswith((ARCHIVE, *XML))


def read_rows(path: Path, content: bytes) -> list[Row]:
    """The rows of a list with a head, whatever separates its fields."""
    lines = list(io.StringIO(_text_of(content), newline=""))
    if not any(map(str.strip, lines)):
        raise Trouble(path, "the list is empty")
    above, separator = _head_of(path, lines)
    rows = _rows_of(path, lines, above, separator)
    _, head = next(rows)
    _look_for_pairs(path, head)
    places = _columns(head)
    columns = {name: head[at] for name, at in places.items()}
    found = []
    for line, cells in rows:
        if any(cells[len(head):]):
            raise Trouble(f"{path} line {line}", "it has more fields than the head", "put a field that has a separator in it into quotes")
        if any(cells):
            found.append(Row(f"{path} line {line}", {name: cells[at] for name, at in places.items() if at < len(cells)}, columns))
    return found


def _text_of(content: bytes) -> str:
    """The list's text: in the encoding that its mark names, in UTF-8, or else in that of Windows in western Europe, nearly Latin-1."""
    if content.startswith((codecs.BOM_UTF16_LE, codecs.BOM_UTF16_BE)):
        return content.decode("utf-16", "replace")
    try:
        return content.decode("utf-8-sig")
    except UnicodeDecodeError:
        return content.decode("cp1252", "replace")


def _head_of(path: Path, lines: Sequence[str]) -> tuple[int, str]:
    """How many lines stand above the head, and what separates its fields: as most columns are known."""
    found = []
    for separator in SEPARATORS:
        reader = csv.reader(lines[:MOST_ABOVE], delimiter=separator, skipinitialspace=True)
        above = 0
        with suppress(csv.Error):
            for cells in reader:
                head = _columns([_plain(cell) for cell in cells])
                if "key" in head and ("address" in head or "identification" in head):
                    found.append((len(head), -above, separator))
                above = reader.line_num
    if not found:
        raise Trouble(path, "none of its first lines names the columns `key`, and `address` or `identification`",
                      "write their names there, with a semicolon between each; docs/SERVICE.md, \"Lists of keys\", has all names")
    _, above, separator = max(found)
    return -above, separator


def _columns(cells: Sequence[str]) -> dict[str, int]:
    """Which known column stands where in a row, if it is the head."""
    return {name: at for at, name in reversed(list(enumerate(map(_name_of, cells)))) if name}


def _look_for_pairs(path: Path, cells: Sequence[str]) -> None:
    """Two columns of one meaning in the head: nobody knows which one counts."""
    known: dict[str, str] = {}
    for cell in cells:
        name = _name_of(cell)
        if name in known:
            raise Trouble(path, f"its columns `{known[name]}` and `{cell}` are both the {name}",
                          "leave one of them, or give the other another name")
        if name:
            known[name] = cell


def _name_of(cell: str) -> str | None:
    """What a column is by its name, of whose form what stands in brackets, blanks and signs say nothing."""
    return NAMES.get(re.sub(r"\(.*?\)|\[.*?\]|[\W_]", "", cell.casefold().translate(SPELT)))


def _rows_of(path: Path, lines: Sequence[str], above: int, separator: str) -> Iterator[tuple[int, list[str]]]:
    """The head's and each later row's first line and its fields."""
    reader = csv.reader(lines[above:], delimiter=separator, strict=True, skipinitialspace=True)
    line = above + 1
    try:
        for cells in reader:
            yield line, [_plain(cell) for cell in cells]
            line = above + reader.line_num + 1
    except csv.Error as fault:
        raise Trouble(f"{path} line {line}", f"its quotes can't be read: {fault}",
                      "put a field's quotes around all of it, and double those within") from None


def _plain(cell: str) -> str:
    """A field without what a spreadsheet has so that it stays a text: ="0123" or '0123."""
    text = cell.strip()
    formula = re.fullmatch(r'="(.*)"', text)
    return (formula[1] if formula else text.removeprefix("'")).strip()
