"""Kamstrup's key files of the first form (KEM), as programs that read them describe it: XML Encryption with AES-128 in CBC mode, whose key
and initialization vector are both the password, filled up with zeros; in it the meters of an order. It may stand in a zip archive."""
from __future__ import annotations

import base64
import io
import lzma
import zipfile
import zlib
from collections.abc import Callable
from pathlib import Path
from typing import Any
from xml.etree.ElementTree import ParseError

from cryptography.hazmat.primitives.ciphers import Cipher, algorithms, modes

from .key_lists import ARCHIVE, MOST_BYTES, Row
from .trouble import Trouble

SUFFIXES = (".kem", ".xml")
AES_128 = "http://www.w3.org/2001/04/xmlenc#aes128-cbc"
SIZE = 16
# what a meter's elements are
FIELDS = {"SerialNo": "identification", "MeterNo": "number", "VendorId": "maker", "DEK": "key"}


def read_kem(path: Path, content: bytes, password: Callable[[], str]) -> list[Row]:
    """The meters of a key file, whose password is asked for where it is encrypted."""
    root = _element_of(_unpacked(path, content))
    if root is None:
        raise Trouble(path, "it is neither a list with columns nor XML that can be read", "save a spreadsheet as CSV")
    if _name_of(root) == "EncryptedData":
        root = _opened(path, root, password())
    meters = [it for it in root.iter() if _name_of(it) == "Meter"]
    if not meters:
        raise Trouble(path, f"it is XML of `{_name_of(root)}` without a `Meter`, and no key file of Kamstrup's that is read",
                      "take a list with columns (CSV)")
    columns = {name: tag for tag, name in FIELDS.items()}
    return [Row(f"{path} meter {number}", _fields_of(meter), columns) for number, meter in enumerate(meters, 1)]


def _fields_of(meter: Any) -> dict[str, str]:
    """What a meter's elements say."""
    told = {_name_of(it): (it.text or "").strip() for it in meter.iter()}
    return {name: told[tag] for tag, name in FIELDS.items() if told.get(tag)}


def _unpacked(path: Path, content: bytes) -> bytes:
    """The key file itself, where it stands in an archive the one that is in it."""
    if not content.startswith(ARCHIVE):
        return content
    try:
        with zipfile.ZipFile(io.BytesIO(content)) as archive:
            names = [name for name in archive.namelist() if name.lower().endswith(SUFFIXES)]
            if len(names) != 1:
                raise Trouble(path, f"it is an archive with {len(names)} key files in it", "unpack it, and save a spreadsheet as CSV")
            with archive.open(names[0]) as file:
                unpacked = file.read(MOST_BYTES + 1)
    except (zipfile.BadZipFile, zlib.error, lzma.LZMAError, OSError, RuntimeError, EOFError, ValueError) as fault:
        raise Trouble(path, f"the archive can't be read: {fault}", "unpack it, and give what was in it") from None
    if len(unpacked) > MOST_BYTES:
        raise Trouble(path, f"what is in it has more than {MOST_BYTES} bytes")
    return unpacked


def _opened(path: Path, root: Any, password: str) -> Any:
    """What is encrypted in an element."""
    methods = {str(it.get("Algorithm")) for it in root.iter() if _name_of(it) == "EncryptionMethod"}
    if methods - {AES_128}:
        raise Trouble(path, f"it is encrypted otherwise than key files of the first form: {', '.join(sorted(methods - {AES_128}))}",
                      "ask for one of the first form with a password, or for a list (CSV)")
    secret = password.encode()
    if not 1 <= len(secret) <= SIZE:
        raise Trouble(path, f"the password of a key file has 1 to {SIZE} bytes, and this one {len(secret)}")
    key = secret.ljust(SIZE, b"\0")
    texts = [it.text or "" for it in root.iter() if _name_of(it) == "CipherValue"]
    try:
        hidden = base64.b64decode("".join("".join(texts).split()), validate=True)
    except ValueError:
        hidden = b""
    if not hidden or len(hidden) % SIZE:
        raise Trouble(path, "its `CipherValue` isn't whole", "fetch the file anew")
    opening = Cipher(algorithms.AES(key), modes.CBC(key)).decryptor()
    text = opening.update(hidden) + opening.finalize()
    # (XML Encryption itself has a vector in front; with that only the first block, which is no text, comes out otherwise)
    for begin in (0, SIZE):
        found = _element_of(_unpadded(text[begin:]))
        if found is not None:
            return found
    raise Trouble(path, "the password isn't that of this file, or what it hides is no XML")


def _unpadded(text: bytes) -> bytes:
    """What was filled up to whole blocks: the last byte says by how many, or all are zeros."""
    return text[:-text[-1]] if text and 1 <= text[-1] <= SIZE else text.rstrip(b"\0")


def _element_of(text: bytes) -> Any:
    """The root of XML, if it is some, which declares no document type and so no entities."""
    try:
        from defusedxml import ElementTree
    except ImportError as fault:
        raise Trouble("a key file", f"it can't be read: {fault}", "apt-get install python3-defusedxml") from None
    try:
        return ElementTree.fromstring(text, forbid_dtd=True)
    except (ParseError, ValueError, LookupError):
        return None


def _name_of(element: Any) -> str:
    """An element's name without its space."""
    return str(element.tag).rpartition("}")[2]
