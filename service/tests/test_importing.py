"""Lists of keys as makers and spreadsheets give them: each form is taken, and what is faulty is named without a word of it."""
from __future__ import annotations

import base64
import io
import itertools
import json
import re
import sqlite3
import zipfile
from contextlib import closing
from pathlib import Path

import pytest
from wmbus_service import key_lists, meters, store
from wmbus_service.config import read_config
from wmbus_service.store import open_store
from wmbus_service.trouble import Trouble

from .kill import TOP
from .processes import run
from .test_commandline import ADDRESS, KEY, OWN, Place, place_fixture  # noqa: F401

# by `meter_name` in docs/PROGRAMS.md and docs/GUIDE.md
GAS, HEAT, POWER = "9315785634123303", ADDRESS, "4304785634121002"
GROUPS = "00 11 22 33 44 55 66 77 88 99 AA BB CC DD EE FF"
COLONS = "00:11:22:33:44:55:66:77:88:99:aa:bb:cc:dd:ee:ff"
PASSWORD = "order 4711"


def known(place: Place) -> dict[str, str]:
    """The meters' blocks by their addresses."""
    path = place.folder / "wmbus/wmbus.db"
    if not path.exists():
        return {}
    with sqlite3.connect(path) as database:
        return dict(database.execute("select address, block from meter order by place").fetchall())


def heard(place: Place, *addresses: str) -> None:
    """Strangers that were heard."""
    place.said("import", str(listed(place, "Key;ID\n", "none")), "--own", OWN)
    with sqlite3.connect(place.folder / "wmbus/wmbus.db") as database:
        database.executemany("insert into stranger values (?, 1, 'attic', 1)", [(address,) for address in addresses])


def listed(place: Place, text: str | bytes, name: str = "keys") -> Path:
    """A list in a file."""
    path = place.folder / name
    path.write_bytes(text.encode() if isinstance(text, str) else text)
    return path


GERMAN = f"Zählernummer;Hersteller;Version;Medium;AES-Schlüssel;Einbauort\r\n40301210;ABC;01;04;{GROUPS};Küche\r\n"


@pytest.mark.parametrize("text", [
    GERMAN, GERMAN.encode("utf-8-sig"), GERMAN.encode("latin-1"), GERMAN.encode("utf-16"), GERMAN.replace("\r", ""),
    GERMAN.replace("\r\n", "\r"), GERMAN.replace(";", "\t"), GERMAN.replace(";", ","), GERMAN.replace(";", " | "),
    # what stands above the head, as what a spreadsheet says of its separators
    f"sep=,\n\"Delivery; 4711\"\n\nSerial number,Manufacturer,Gen,Device type,AES-Key,Location\n40301210,abc,1,0x04,{COLONS},Küche\n\n",
    # in quotes, with lines and blanks
    f'"Meter ID", "Vendor","Version","Type","DEK","Remark","Name"\n40301210, "ABC","01","04","{KEY}","two\nlines, ""here""","Küche"\n',
    # as spreadsheets keep texts
    f'Key;Man;ID;Gen;Type;Ort\n"=""{KEY.upper()}""";ABC;\'40301210;="01";\'04;Küche\n',
    # by DIN 43863-5, with blanks, and a maker's whole name beside
    f"Hersteller;Zähler-Nr.;Version;Medium;Schlüssel [hex];Ort\nAbecedar GmbH;6 ABC 00 4030 1210;01;04;{KEY};Küche\n",
    f"address;key;name\n43 04 10 12 30 40 01 04;{KEY};Küche\n",
])
def test_a_list_is_taken(place: Place, text: str | bytes) -> None:
    """Whatever its separators, its encoding, its quotes and its names of columns."""
    assert place.said("import", str(listed(place, text)), "--own", OWN) == "1 new meters\n"
    assert known(place) == {HEAT: f"meter {HEAT} 7 {KEY} - - 0 0\n"}
    assert [it["name"] for it in json.loads(place.said("status", "--json"))["meters"]] == ["Küche"]
    assert place.said("import", str(listed(place, text))) == "0 new meters\n"


def test_each_column_by_all_its_names(place: Place) -> None:
    """Those that docs/SERVICE.md has, and no others."""
    text = (TOP / "docs/SERVICE.md").read_text(encoding="utf-8").partition("## Lists of keys")[2].partition("\n## ")[0]
    table = {name: re.findall("`([^`]+)`", told) for name, told in re.findall(r"^\| (\w+) \| (`.*?) \|", text, re.MULTILINE)}
    assert {name: len(words) for name, words in table.items()} == {name: len(words) for name, words in key_lists.COLUMNS.items()}
    label = {"identification": "12345678", "maker": "ELS", "version": "33", "type": "03"}
    fields = {"key": KEY, "address": "", **label, "mode": "7", "name": "Cellar", "other": "ff" * 16}
    for turn in range(max(map(len, table.values()))):
        heads = [table[name][turn % len(table[name])] for name in fields]
        large = [word.upper().replace("Ä", "AE").replace("Ü", "UE") for word in heads]
        told = fields | ({"address": GAS, **dict.fromkeys(label, "")} if turn < len(table["address"]) else {})
        for head in (heads, large):
            place.said("import", str(listed(place, f"{';'.join(head)}\n{';'.join(told.values())}\n")), "--own", OWN)
            assert known(place) == {GAS: f"meter {GAS} 7 {KEY} {'ff' * 16} - 0 0\n"}, head
            assert "Cellar" in place.said("status"), head
            for path in (place.folder / "wmbus").glob("wmbus.db*"):
                path.unlink()


@pytest.mark.parametrize("mode, given, wanted", [("", "7", "7"), ("", "5", "5"), ("5", "7", "5"), ("Mode 7", "5", "7"), ("a", "7", "5"),
                                                 ("Security profile B", "5", "7"), ("13", "7", None), ("7 or 5", "7", None)])
def test_modes(place: Place, mode: str, given: str, wanted: str | None) -> None:
    """A list's own mode goes before that of the words; a mode that isn't read is named."""
    words = ("import", str(listed(place, f"address;key;mode\n{HEAT};{KEY};{mode}\n")), "--own", OWN, "--mode", given)
    if wanted is None:
        assert "column `mode`: it is none of 5, 7, A and B" in place.fault(*words)
    else:
        place.said(*words)
    assert known(place) == ({HEAT: f"meter {HEAT} {wanted} {KEY} - - 0 0\n"} if wanted else {})


HEAD = "Serial number;Manufacturer;Version;Medium;Mode;AES-Key;Second key;Name"


@pytest.mark.parametrize("row, words", [
    (f"12345678;ELS;33;03;7;{KEY[:-1]};;", "line 3, column `AES-Key`: it has 31 hexadecimal digits, and there have to be 32"),
    (f"12345678;ELS;33;03;7;{KEY[:-1]}g;;", "line 3, column `AES-Key`: it has other signs than hexadecimal digits"),
    (f"12345678;ELS;33;03;7;{KEY[:-1]}\u0661;;", "line 3, column `AES-Key`: it has other signs than hexadecimal digits"),
    ("12345678;ELS;33;03;7;1,23457E+31;;", "line 3, column `AES-Key`: a spreadsheet made a number of it"),
    ("12345678;ELS;33;03;7", "line 3, column `AES-Key`: it has 0 hexadecimal digits"),
    (f"12345678;ELS;33;03;7;{KEY};{KEY}0;", "line 3, column `Second key`: it has 33 hexadecimal digits"),
    (f"12345678;ELS;33;03;5;{KEY};{KEY};", "line 3, column `Second key`: a meter of mode 5 has one key"),
    (f"12345678;ELS;33;03;9;{KEY};;", "line 3, column `Mode`: it is none of"),
    (f"{KEY};ELS;33;03;7;12345678;;", "line 3, column `AES-Key`: it has 8 hexadecimal digits"),
    (f"{KEY};ELS;33;03;7;{KEY};;", "line 3, column `Serial number`: it is no number of up to eight digits"),
    (f"40301210;ABC;01;04;7;{KEY};;", "line 3, column `Serial number`: the same meter stands further up"),
    (f"12345678;ELS;33;03;7;{KEY};;Flat 2; left", "line 3: it has more fields than the head"),
    (f"12345678;ELS;33;03;7;\"{KEY}\" old;;", "line 3: its quotes can't be read"),
    (f"12345678;ELS;33;03;7;\"{KEY};;", "line 3: its quotes can't be read"),
    (f"12345678;ELS;33;gas;7;{KEY};;", "1 of its 2 meters weren't heard yet"),
], ids=map(str, itertools.count()))
def test_a_faulty_row(place: Place, row: str, words: str) -> None:
    """It is named with its line, its column and what is wrong with it; nothing of the list is taken, and no field of it is told."""
    said = place.fault("import", str(listed(place, f"{HEAD}\n40301210;ABC;01;04;;{KEY};;\n{row}\n")), "--own", OWN)
    assert words in said and not known(place)
    assert not [field for field in (KEY[:8], "12345678", "ELS", "gas", "Flat") if field in said]


def test_all_faulty_rows(place: Place) -> None:
    """The first ten are named, and how many more there are."""
    said = place.fault("import", str(listed(place, "ID;Key\n" + "1;2\n" * 12)), "--own", OWN)
    assert [line.split(",")[0].rpartition(" ")[2] for line in said.splitlines()[1:-1]] == [str(number) for number in range(2, 12)]
    assert said.endswith("\nand 2 more\n")


@pytest.mark.parametrize("content, words", [
    ("", "the list is empty"), ("\r\n \r\n", "the list is empty"), ("\0" * 300_000, "names the columns"),
    ("Key;Name\n", "names the columns"), (f"ELS;12345678;{KEY}\n", "names the columns"), ("PK\x03\x04rubbish", "the archive can't be read"),
    (f"ID;Serial No.;Key\n1;1;{KEY}\n", "its columns `ID` and `Serial No.` are both the identification"),
], ids=map(str, itertools.count()))
def test_what_is_no_list(place: Place, content: str, words: str) -> None:
    """It is named, with what to do, and nothing of it."""
    said = place.fault("import", str(listed(place, content)), "--own", OWN)
    assert words in said and KEY not in said and not known(place)
    assert "can't be read" in place.fault("import", str(place.folder), "--own", OWN)


def test_meters_that_were_heard(place: Place) -> None:
    """Where a list has number and key alone the address is the one that was heard with this number; what isn't heard is left where that is
    asked for, and nothing is guessed."""
    path = listed(place, f"Seriennummer;Schlüssel\n12345678;{KEY}\n40301210;{KEY}\n")
    assert place.said("import", str(path), "--own", OWN, "--heard") == "0 new meters; 2 weren't heard yet, and are left\n"
    heard(place, HEAT)
    assert "1 of its 2 meters weren't heard yet" in place.fault("import", str(path)) and not known(place)
    assert place.said("import", str(path), "--heard") == "1 new meters; 1 weren't heard yet, and are left\n"
    assert place.said("import", str(path), "--heard") == "0 new meters; 1 weren't heard yet, and are left\n"
    heard(place, GAS, POWER)
    said = place.fault("import", str(path))
    assert f"line 2, column `Seriennummer`: 2 meters with this number were heard, {POWER} and {GAS}" in said
    for more, wanted in (("ELS;;", GAS), (";10;", POWER), (";;03", GAS), ("XYZ;;", None)):
        path = listed(place, f"Seriennummer;Schlüssel;Hersteller;Version;Medium\n12345678;{KEY};{more}\n")
        assert place.run("import", str(path)).status == (0 if wanted else 1)
        assert set(known(place)) == {HEAT, *([wanted] if wanted else [])}
        with sqlite3.connect(place.folder / "wmbus/wmbus.db") as database:
            database.execute("delete from meter where address <> ?", (HEAT,))
    # (of a meter whose whole label stands there too)
    path = listed(place, f"ID;Man;Version;Type;Key\n12345678;ELS;34;03;{KEY}\n")
    assert place.said("import", str(path), "--heard") == "0 new meters; 1 weren't heard yet, and are left\n"


def test_known_meters_with_another_key(place: Place) -> None:
    """They stay as they are, which is said: nobody who had the right key at last would wait for what is read by it."""
    place.said("import", str(listed(place, f"address;key\n{HEAT};{KEY}\n")), "--own", OWN)
    path = listed(place, f"address;key\n{HEAT};{'ff' * 16}\n{GAS};{KEY}\n")
    assert place.said("import", str(path)) == "1 new meters; 1 are known with another key, and keep theirs (`correct` changes it)\n"
    assert known(place)[HEAT].split(" ")[3] == KEY


def test_more_meters_than_a_roster_has(place: Place, monkeypatch: pytest.MonkeyPatch) -> None:
    """A list of any length is judged in pieces, and taken whole or not at all."""
    monkeypatch.setattr(meters, "PIECE", 3)
    addresses = [f"93150000000{number}0107" for number in range(7)]
    lines = [f"meter {address} 7 {KEY} - - 0 0\n" for address in addresses]
    head = f"wmbus-roster 2\nown {OWN}\n"
    assert list(meters.pieces_of(head + "".join(lines[:3]))) == [head + "".join(lines[:3])]
    assert list(meters.pieces_of(f"# kept\n{head}" + "".join(lines))) == [head + "".join(lines[at:at + 3]) for at in (0, 3, 6)]
    heard(place)
    config = read_config(place.config)
    with closing(open_store(config.database)) as database, pytest.raises(Trouble, match="roster line 3"):
        meters.take_roster(config, database, head + "".join([*lines[:6], lines[6].replace(" 7 ", " 6 ")]), "here")
    assert not known(place)
    rows = "".join(f"{address};{KEY}\n" for address in addresses)
    assert place.said("import", str(listed(place, f"address;key\n{rows}"))) == "7 new meters\n"


@pytest.mark.parametrize("above", ["", "# of bin/sessions\n\n"])
def test_a_state_as_a_roster(place: Place, above: str) -> None:
    """The state of `bin/sessions`, in which more stands than in a roster (docs/FORMATS.md, "The state"), is named where a roster has to be,
    and none of its lines is taken for a meter's."""
    state = place.folder / "state"
    state.write_text(f"{above}wmbus-state 1\nown {OWN}\nmeter {HEAT} 7 {KEY} - 24 4 7\nreading 1700000123 24 2f2f0c1427048502\n"
                     "command 5 0 02\nend\n")
    state.chmod(0o600)
    heard(place)
    place.config.write_text(f'roster = "{state}"\n' + place.config.read_text())
    assert "it is a state, and no roster" in place.fault("check")
    config = read_config(place.config)
    with closing(open_store(config.database)) as database, pytest.raises(Trouble, match="it is a state"):
        meters.take_roster(config, database, meters.read_roster(state), state)
    assert not known(place)


def test_a_state_that_was_taken_as_a_roster(place: Place) -> None:
    """A database of before version 6 in which lines of a state stand as meters loses these: it is put back as a copy, and its state is read."""
    place.said("add", HEAT, "--own", OWN, given=KEY)
    with sqlite3.connect(place.folder / "wmbus/wmbus.db") as database:
        for number, block in enumerate(("reading 1700000123 24 2f2f0c1427048502 -\n", "command 5 0 02 -\n", "end -\n"), 2):
            database.execute("insert into meter (address, place, block) values (?, ?, ?)", (block.split(" ")[1], number, block))
        database.execute("alter table meter drop column retired")
        database.execute("alter table command drop column asked_by")
        database.execute("drop table publication_aside")
        database.execute("pragma user_version = 5")
    copy, state = place.folder / "copy.db", place.folder / "state"
    with closing(sqlite3.connect(copy)) as made:
        database.backup(made)
    assert "1 meters are" in place.said("restore", str(copy), "--margin", "0")
    place.said("export", "--state", str(state))
    assert [*known(place)] == [HEAT] and state.read_text() == f"wmbus-state 1\nown {OWN}\nmeter {HEAT} 7 {KEY} - - 0 0\nend\n"


def test_a_list_that_root_alone_reads(place: Place, monkeypatch: pytest.MonkeyPatch) -> None:
    """It is read before root becomes the service's user."""
    path = listed(place, f"address;key\n{HEAT};{KEY}\n")
    monkeypatch.setattr(store, "act_as_owner", lambda _folder: path.unlink())
    assert place.said("import", str(path), "--own", OWN) == "1 new meters\n"


ORDER = f"""<?xml version="1.0" encoding="utf-8"?>
<MetersInOrder orderid="4711" schemaVersion="2.0">
  <Meter>
    <MeterName>MULTICAL 21</MeterName><MeterNo>12345678</MeterNo><SerialNo>12345678</SerialNo><VendorId>KAM</VendorId>
    <ConsumptionType>Cold water</ConsumptionType><TypeNo>021</TypeNo><ConfigNo>0</ConfigNo><DEK>{KEY.upper()}</DEK>
  </Meter>
  <Meter><MeterNo>7</MeterNo><SerialNo>40301210</SerialNo><VendorId>Kamstrup</VendorId><DEK>{'ff' * 16}</DEK></Meter>
</MetersInOrder>
"""
# KAM is 2d2c, by its letters (EN 13757-3)
KAMSTRUP = "2d2c785634121b16"
AES_128 = "http://www.w3.org/2001/04/xmlenc#aes128-cbc"


def hidden(folder: Path, text: str, vector: bytes | None = None) -> bytes:
    """A text under the password, as OpenSSL encrypts it: the password, filled up with zeros, is the key, and the vector too where no other
    one is named, which stands in front then, as XML Encryption has it."""
    plain, secret = folder / "plain", folder / "secret"
    plain.write_text(text, encoding="utf-8")
    key = PASSWORD.encode().ljust(16, b"\0")
    run(["openssl", "enc", "-aes-128-cbc", "-nosalt", "-K", key.hex(), "-iv", (vector or key).hex(), "-in", plain, "-out", secret])
    return (vector or b"") + secret.read_bytes()


def key_file(secret: bytes, method: str = AES_128) -> str:
    """A key file over what is encrypted."""
    lines = base64.encodebytes(secret).decode()
    return (f'\ufeff<?xml version="1.0" encoding="utf-8"?>\n<EncryptedData Type="http://www.w3.org/2001/04/xmlenc#Element"'
            f' xmlns="http://www.w3.org/2001/04/xmlenc#"><EncryptionMethod Algorithm="{method}" />'
            f"<CipherData><CipherValue>{lines}</CipherValue></CipherData></EncryptedData>\n")


def zipped(*files: tuple[str, str], method: int = zipfile.ZIP_DEFLATED) -> bytes:
    """An archive of files."""
    content = io.BytesIO()
    with zipfile.ZipFile(content, "w", method) as archive:
        for name, text in files:
            archive.writestr(name, text)
    return content.getvalue()


@pytest.mark.parametrize("form", ["xml", "zip", "vector in front", "open"])
def test_kamstrups_key_file(place: Place, form: str) -> None:
    """The meters of an order under its password, from an archive or bare; their addresses are those that were heard."""
    pytest.importorskip("defusedxml", reason="python3-defusedxml isn't there")
    heard(place, KAMSTRUP, POWER, HEAT)
    text = ORDER if form == "open" else key_file(hidden(place.folder, ORDER, bytes(range(16)) if form == "vector in front" else None))
    path = listed(place, zipped(("order.kem", text), ("read me.txt", "")) if form == "zip" else text)
    assert place.said("import", str(path), "--mode", "5", given=f"{PASSWORD}\n") == "2 new meters\n"
    assert known(place) == {KAMSTRUP: f"meter {KAMSTRUP} 5 {KEY} - - 0 0\n", HEAT: f"meter {HEAT} 5 {'ff' * 16} - - 0 0\n"}


@pytest.mark.parametrize("method", [zipfile.ZIP_STORED, zipfile.ZIP_DEFLATED, zipfile.ZIP_BZIP2, zipfile.ZIP_LZMA])
def test_a_damaged_archive(place: Place, method: int) -> None:
    """An archive that isn't whole any more is named, however it is packed."""
    pytest.importorskip("defusedxml", reason="python3-defusedxml isn't there")
    content = bytearray(zipped(("order.kem", ORDER), method=method))
    content[60:80] = bytes(20)
    assert "keys: the archive can't be read: " in place.fault("import", str(listed(place, bytes(content))), "--own", OWN)


def test_faulty_key_files(place: Place) -> None:
    """A wrong password, another encryption, an archive of something else, entities and a faulty meter are told in words without a key."""
    pytest.importorskip("defusedxml", reason="python3-defusedxml isn't there")
    heard(place, KAMSTRUP, HEAT)
    secret = hidden(place.folder, ORDER)
    bomb = '<!DOCTYPE a [<!ENTITY b "' + "c" * 1000 + '">]><MetersInOrder>' + "&b;" * 100 + "</MetersInOrder>"
    cases: list[tuple[str | bytes, str, str]] = [
        (key_file(secret), "order 4712", "the password isn't that of this file"),
        (key_file(secret), "", "has 1 to 16 bytes, and this one 0"),
        (key_file(secret), "p" * 17, "has 1 to 16 bytes, and this one 17"),
        (key_file(secret[:-1]), PASSWORD, "its `CipherValue` isn't whole"),
        (key_file(b""), PASSWORD, "its `CipherValue` isn't whole"),
        (key_file(secret).replace("<CipherValue>", "<CipherValue>!"), PASSWORD, "its `CipherValue` isn't whole"),
        (key_file(secret, AES_128.replace("128", "256")), PASSWORD, "encrypted otherwise than key files of the first form"),
        (key_file(hidden(place.folder, bomb)), PASSWORD, "the password isn't that of this file, or what it hides is no XML"),
        (bomb, "", "nor XML that can be read"), ("<broken", "", "nor XML that can be read"),
        ("<Lieferschein><Geraet/></Lieferschein>", "", "it is XML of `Lieferschein` without a `Meter`"),
        (zipped(("a.kem", ORDER), ("b.kem", ORDER)), "", "an archive with 2 key files in it"),
        (zipped(("sheet.csv", "")), "", "an archive with 0 key files in it"),
        (zipped(("order.kem", ORDER))[:-30], "", "the archive can't be read"),
        (ORDER.replace(KEY.upper(), KEY[:-2]), "", "meter 1, column `DEK`: it has 30 hexadecimal digits"),
        (ORDER.replace("40301210", "none").replace(">7<", "><"), "", "meter 2, column `SerialNo`: it is no number"),
        (ORDER.replace("40301210", "40301211"), "", "1 of its 2 meters weren't heard yet"),
    ]
    for content, password, words in cases:
        said = place.fault("import", str(listed(place, content)), given=f"{password}\n")
        assert words in said and KEY[:-2] not in said.lower() and PASSWORD not in said, said
        assert not known(place)
