"""The page over what is hostile: names and payloads with markup, huge values, thousands of registers."""
from __future__ import annotations

import re
from html.parser import HTMLParser

import pytest
from flask.testing import FlaskClient

from .page_house import DAY, TOKEN, PageHouse, each_page_fixture, entered  # noqa: F401
from .test_sessions import NOW, house_fixture  # noqa: F401

MARKUP = "<script>alert(1)</script><img src=x onerror=alert(1)>\"' onmouseover=x {{ 7 * 7 }} \u202e\x00"
TAGS = {"html", "head", "meta", "title", "link", "body", "a", "nav", "form", "input", "button", "main", "p", "footer", "h1", "h2", "h3",
        "ul", "li", "b", "span", "table", "thead", "tbody", "tr", "th", "td", "br", "code", "div", "figure", "figcaption", "svg",
        "polyline", "label", "details", "summary", "select", "option"}


class Tags(HTMLParser):
    """What stands on a page: its tags, their attributes, and where its links and forms lead."""

    def __init__(self, text: str) -> None:
        super().__init__()
        self.tags: set[str] = set()
        self.attributes: set[str] = set()
        self.targets: set[str] = set()
        self.feed(text)

    def handle_starttag(self, tag: str, attrs: list[tuple[str, str | None]]) -> None:
        """A tag."""
        self.tags.add(tag)
        self.attributes |= {name for name, _ in attrs}
        self.targets |= {value or "" for name, value in attrs if name in ("href", "action", "formaction")}


def look_at(client: FlaskClient, path: str) -> str:
    """A page that has its own tags alone, and is answered in words."""
    given = client.get(path)
    assert given.status_code < 500, path
    if given.mimetype == "text/html" and given.status_code != 303:
        told = Tags(given.text)
        assert told.tags <= TAGS, told.tags - TAGS
        assert not {name for name in told.attributes if name.startswith("on")} | told.attributes & {"style", "src"}
        policy = given.headers["Content-Security-Policy"]
        assert "default-src 'none'" in policy and "script-src" not in policy
        assert re.search(r"<h1>[^<]+</h1>", given.text)
    return given.text


def all_paths(page: PageHouse) -> list[str]:
    """All pages."""
    address = page.addresses[0]
    return ["/", "/meters", f"/meters/{address}", "/receivers", "/strangers", "/enter", "/api/overview", "/api/meters", f"/api/meters/{address}",
            "/api/receivers", "/api/strangers", "/readings.csv", f"/meters/{address}/readings.csv"]


def hostile(page: PageHouse) -> None:
    """Puts markup wherever the database has a text."""
    address = page.addresses[0]
    page.write("update meter set name = ?, receiver = ?", MARKUP, MARKUP)
    for number, value in enumerate((MARKUP, "9" * 5000, "-0", "", "-", "raw", "1")):
        page.read(address, NOW - 7 * DAY + number * DAY, (MARKUP, MARKUP, 0, value), ("volume", "m3", 10 ** 9, "7"),
                  ("energy", "Wh", -3, value), ("flow", "m3/h", -(10 ** 18), value), ("mass", "kg", 60, "9" * 200))
    page.write("insert into refusal values (?, ?, ?, 7, 1, ?)", address, MARKUP, MARKUP, NOW)
    page.write("insert into stranger values (?, 99, ?, ?)", MARKUP, MARKUP, NOW)
    page.write("insert into aside (receiver, text, said, made) values (?, ?, ?, ?)", MARKUP, MARKUP, MARKUP, NOW)
    page.write("insert into line (receiver, text, made) values (?, ?, ?)", MARKUP, MARKUP, NOW)
    page.write("insert into command (id, address, kind, payload, state, reason, made, changed)"
               " values (?, ?, 'send', ?, 'refused', ?, ?, ?)", MARKUP, address, MARKUP, MARKUP, NOW, NOW)
    page.write("insert into outbox (receiver, address, down, frame, command, made, missed) values (?, ?, 1, ?, 1, ?, ?)",
               MARKUP, address, MARKUP, NOW, MARKUP)
    page.write("insert into daily values (?, '2026-09-30', 'mass', 'kg', 60, ?, 'instantaneous', 0, 0, 0, '', ?, ?)", address, "9" * 5000,
               MARKUP, int(NOW) - 100 * DAY)


def test_markup(page: PageHouse) -> None:
    """Texts are texts wherever they come from, and no page has a key."""
    hostile(page)
    client, _ = entered(page.page(TOKEN))
    keys = [key.hex() for meter in page.house.meters for key in (meter.key, meter.other) if key]
    for path in all_paths(page):
        text = look_at(client, path)
        assert not [key for key in keys if key in text.lower()]
    assert "&lt;script&gt;" in client.get("/").text and "{{ 7 * 7 }}" in client.get("/").text


def test_many_registers(page: PageHouse) -> None:
    """Three thousand registers: so many are shown as a person reads, and the JSON has all."""
    address = page.addresses[0]
    for back in range(5):
        page.read(address, NOW - back * DAY, *(("volume", "m3", -3, "7", "instantaneous", storage) for storage in range(3000)))
    client = page.client()
    text = look_at(client, f"/meters/{address}")
    assert text.count("storage ") == 199 and "And 2800 more" in text
    told = client.get(f"/api/meters/{address}").json
    assert told and len(told["values"]) == 3000


def test_trouble_has_words(page: PageHouse, monkeypatch: pytest.MonkeyPatch) -> None:
    """A database that is gone or broken, and a fault of the page itself, are told in words, and nothing of the program is shown."""
    def fail(*_: object) -> None:
        raise ValueError("inner words")
    with monkeypatch.context() as patched:
        patched.setattr("wmbus_service.page.views.overview", fail)
        given = page.client().get("/")
        assert given.status_code == 500 and "has a fault" in given.text
        assert "inner words" not in given.text and "Traceback" not in given.text
    page.house.database.close()
    path = page.house.config.database
    for file in path.parent.glob("wmbus.db*"):
        file.unlink()
    given = page.client().get("/")
    assert given.status_code == 503 and "there is no database yet" in given.text
    path.write_bytes(b"no database at all" * 300)
    path.chmod(0o600)
    given = page.client().get("/api/meters")
    assert given.status_code == 503 and given.json and "last backup" in given.json["error"]
