"""A fuzzer over the page's routes: whatever is asked, in any way, is answered in words; nothing is executed, and no key is shown.

WMBUS_FUZZ_SEED and WMBUS_FUZZ_COUNT draw other requests, and more of them; a failure names seed and request."""
from __future__ import annotations

import errno
import os
import random
import re
import socket
import threading
from typing import Any
from urllib.parse import quote_from_bytes

import pytest
import waitress
from flask.testing import FlaskClient
from werkzeug.test import TestResponse

from .page_house import TOKEN, PageHouse, each_page_fixture, entered, forms_word  # noqa: F401
from .test_page_hostile import MARKUP, TAGS, Tags, hostile
from .test_sessions import house_fixture  # noqa: F401

SEED, COUNT = int(os.environ.get("WMBUS_FUZZ_SEED", "7")), int(os.environ.get("WMBUS_FUZZ_COUNT", "600"))
# what a template would make of this
SUM, OF_SUM = "{{ 1299709 * 7 }}", "9097963"
KEY = "5eC2e7" * 5 + "01"
# raw requests to a server, and how long one may take
RAW, PATIENCE = 40, 30.0
METHODS = ("GET", "GET", "GET", "POST", "POST", "POST", "HEAD", "PUT", "DELETE", "OPTIONS", "PATCH", "TRACE", "PROPFIND", "get", "X" * 40)
KINDS = {"text/html", "application/json", "text/csv", "text/css"}
TEXTS = ["", "0", "-1", "9" * 400, "-", "2026-02-30", "0001-01-01", "9999-12-31", "1e999", "week", "year", "' or 1=1 --", SUM, "${7*7}",
         "%00", "../../etc/passwd", "..\\..", "\0", "\r\nSet-Cookie: a=b", "\u0660" * 16, "x" * 3000, "ff" * 94, "00 11", MARKUP,
         "javascript:alert(1)", "//elsewhere.example", "http://elsewhere.example/", "5", "7", "0" * 32, "valve", "null", "[]", "true"]
PIECES = ["meters", "api", "overview", "receivers", "strangers", "add", "enter", "leave", "commands", "cancel", "readings.csv", "static",
          "page.css", "common.css", ".", "..", "%2e%2e", "%2f", "%00", "%ff", "%", "#", ";", "\u202e", "",
          quote_from_bytes(MARKUP.encode())]
FIELDS = ["forms", "token", "id", "payload", "address", "mode", "key", "name", "span", "from", "to", "q", "order", "_method", "__class__", "x"]
HEADERS = {"Host": ["elsewhere.example", "127.0.0.1:9", "localhost", "[::1]:9102", "", "a b", "127.0.0.1@elsewhere.example"],
           "Origin": ["null", "http://localhost", "http://elsewhere.example", "x"], "Sec-Fetch-Site": ["cross-site", "same-origin", "none"],
           "Cookie": ["wmbus=x", "wmbus=" + "a." * 900, "wmbus=eyJlbnRlcmVkIjp0cnVlfQ.aaaa.bbbb", "=", ";;;"],
           "Content-Type": ["application/json", "multipart/form-data", "multipart/form-data; boundary=a", "text/plain; charset=x", "/"],
           "Range": ["bytes=0-1", "bytes=5-1", "x"], "If-Modified-Since": ["x", "Thu, 01 Jan 1970 00:00:00 GMT"],
           "If-None-Match": ["*", '"'],
           "Accept": ["application/json", "*/*;q=x"], "X-Forwarded-Host": ["elsewhere.example"], "X-Forwarded-For": ["127.0.0.1"],
           "X-HTTP-Method-Override": ["DELETE"], "Transfer-Encoding": ["chunked"], "Expect": ["x"],
           "Authorization": ["Basic x", TOKEN[:-1]]}


class Fuzzer:
    """Draws requests, and looks at what is answered."""

    def __init__(self, page: PageHouse) -> None:
        self.draw, self.page = random.Random(SEED), page
        self.addresses = [*page.addresses, page.addresses[0].upper(), "0" * 16, "2d2c785634121b16"]
        secrets = [key.hex() for meter in page.house.meters for key in (meter.key, meter.other) if key]
        self.secrets = [*secrets, TOKEN, KEY]
        self.forms = {f"/meters/{page.addresses[0]}/commands": {"payload": "01 02", "id": "a1"},
                      f"/meters/{page.addresses[0]}/commands/cancel": {"id": "a1"},
                      "/strangers/add": {"address": "2d2c785634121b16", "mode": "7", "key": KEY, "name": "Garden"}}

    def path(self) -> str:
        """An address: one of a route, in which something may be other, or one of anything."""
        draw = self.draw
        address = draw.choice(self.page.addresses if draw.random() < 0.5 else [*self.addresses, *TEXTS])
        known = ["/", "/receivers", "/strangers", "/strangers/add", "/enter", "/leave", "/readings.csv", "/common.css", "/static/page.css",
                 "/api/overview", "/api/meters", "/api/receivers", "/api/strangers", f"/meters/{address}", f"/api/meters/{address}",
                 f"/meters/{address}/readings.csv", f"/meters/{address}/commands", f"/meters/{address}/commands/cancel",
                 "/meters"]
        path = draw.choice(known + known[13:15] * 4)
        if draw.random() < 0.3:
            path = "/" + "/".join(draw.choice([*PIECES, *self.addresses]) for _ in range(draw.randrange(1, 6)))
        if draw.random() < 0.1:
            path = f"{path}{draw.choice(['/', '//', '%2f..', '.', chr(0), '%0d%0aX: y'])}"
        # (behind two slashes a client reads a machine's name)
        return f"/{path.lstrip('/')}"

    def fields(self, word: str) -> dict[str, str]:
        """What a form or a query has."""
        found = {name: self.draw.choice([*TEXTS, *self.addresses]) for name in self.draw.sample(FIELDS, self.draw.randrange(8))}
        return found | ({"forms": word} if self.draw.random() < 0.7 else {})

    def request(self, word: str) -> dict[str, Any]:
        """A request."""
        draw = self.draw
        headers = {name: draw.choice(HEADERS[name]) for name in draw.sample(sorted(HEADERS), draw.choice([0, 0, 1, 2, 4]))}
        body: Any = self.fields(word)
        if draw.random() < 0.2:
            # (a form as it has to be, or with one field that is other)
            path, right = draw.choice(list(self.forms.items()))
            other = {name: draw.choice(TEXTS) for name in draw.sample(sorted(right), draw.randrange(2))}
            return {"path": path, "method": "POST", "headers": {}, "data": right | other | {"forms": word}}
        if draw.random() < 0.2:
            body = draw.choice([draw.randbytes(draw.randrange(2000)), b"a=%zz&b&=&" * 20, b"{", b"--a\r\nContent-Disposition: form-data",
                                b"x" * 70_000])
        return {"path": self.path(), "method": draw.choice(METHODS), "headers": headers, "data": body,
                "query_string": self.fields("") if draw.random() < 0.5 else ""}

    def look_at(self, given: TestResponse, told: str, is_head: bool) -> None:
        """An answer has words, its own tags alone, and no key; it leads nowhere else."""
        assert given.status_code < 500, told
        policy = given.headers["Content-Security-Policy"]
        assert given.headers["X-Content-Type-Options"] == "nosniff" and "default-src 'none'" in policy and "script-src" not in policy, told
        assert given.mimetype in KINDS or not given.data, told
        said = f"{given.headers}\n{given.get_data().decode('utf-8', 'replace')}"
        assert not [secret for secret in [*self.secrets, OF_SUM] if secret.lower() in said.lower()], told
        assert re.fullmatch(r"/(?!/)[^\r\n]*", given.headers.get("Location", "/")), told
        if is_head or given.status_code in (204, 304) or given.request.method == "OPTIONS":
            return
        if given.status_code >= 400:
            found = [given.json["error"]] if given.is_json and given.json else re.findall(r"</h1>\s*<p>([^<]+)</p>", given.text)
            assert found and len(found[0].split()) >= 5, told
        if given.mimetype == "text/html" and given.status_code != 303:
            shown = Tags(given.text)
            assert shown.tags <= TAGS, (told, shown.tags - TAGS)
            assert not {name for name in shown.attributes if name.startswith("on")} | shown.attributes & {"style", "src", "srcdoc"}, told
            assert all(re.match(r"[/?#](?!/)", target) for target in shown.targets), (told, shown.targets)


def asked(client: FlaskClient, request: dict[str, Any]) -> TestResponse:
    """An answer, the body of which is there whole."""
    given = client.open(**request)
    assert isinstance(given.get_data(), bytes)
    return given


WHO = ["has the token", "has no token", "hasn't given the token", "from elsewhere"]


@pytest.mark.parametrize("who", WHO)
def test_whatever_is_asked(page: PageHouse, who: str) -> None:
    """Any address, query, method, header and body; what the meters are and their keys stay as they were, but for what is added."""
    hostile(page)
    fuzzer = Fuzzer(page)
    before = page.house.all("select address, place, block from meter order by place")
    app = page.page(None if who == "has no token" else TOKEN, is_elsewhere=who == "from elsewhere")
    client = app.test_client()
    word = forms_word(client.get("/enter").text) if who in WHO[2:] else ""
    for number in range(COUNT):
        if who == "has the token" and number % 25 == 0:
            client, word = entered(app)
        request = fuzzer.request(word)
        told = f"seed {SEED}, request {number}, {who}: {request}"[:3000]
        given = asked(client, request)
        fuzzer.look_at(given, told, request["method"] == "HEAD")
        if who == "from elsewhere":
            assert not [address for address in page.addresses if address in given.get_data().decode("utf-8", "replace")], told
    assert page.house.all("select address, place, block from meter order by place")[:3] == before
    if who != "has the token":
        assert page.house.all("select count(*) from meter") == [3] and page.house.all("select count(*) from command") == [1]
    else:
        assert page.house.all("select state from command where id = 'a1'") == ["cancelled"]
        assert page.house.all("select count(*) from meter where address = '2d2c785634121b16'") == [1]


def raw_requests(draw: random.Random) -> list[bytes]:
    """What is no request, or one that a server has to refuse."""
    lines = [b"GET / HTTP/1.1\r\n", b"GET /", b"\0" * 90, b"\x16\x03\x01\x02\x00\x01\x00\x01\xfc\x03\x03", b"GET /%zz HTTP/9.9\r\n\r\n",
             b"POST /enter HTTP/1.1\r\nHost: localhost\r\nContent-Length: -5\r\n\r\n", b"GET http://elsewhere.example/ HTTP/1.1\r\n\r\n",
             b"POST /enter HTTP/1.1\r\nHost: localhost\r\nContent-Length: 9\r\nTransfer-Encoding: chunked\r\n\r\n0\r\n\r\nGET /x",
             b"GET / HTTP/1.1\r\nHost: localhost\r\nA: " + b"x" * 300_000 + b"\r\n\r\n", b"GET /" + b"y" * 9000 + b" HTTP/1.0\r\n\r\n",
             b"POST /enter HTTP/1.1\r\nHost: localhost\r\nTransfer-Encoding: chunked\r\n\r\nzz\r\n", b"\r\n\r\n\r\n",
             b"GET // HTTP/1.1\r\nHost: localhost\r\n\r\n", b"GET //elsewhere.example/.. HTTP/1.1\r\nHost: localhost\r\n\r\n"]
    return lines + [draw.randbytes(draw.randrange(1, 400)) + b"\r\n\r\n" for _ in range(RAW)]


def test_what_is_no_request(page: PageHouse) -> None:
    """Bytes that are no request are answered in words or not at all, and the next request as ever."""
    server = waitress.create_server(page.page(TOKEN), host="127.0.0.1", port=0, ident=None)
    running = threading.Thread(target=server.run, daemon=True)
    running.start()
    place = ("127.0.0.1", server.effective_port)
    try:
        for number, request in enumerate([*raw_requests(random.Random(SEED)), b"GET /api/meters HTTP/1.0\r\nHost: localhost\r\n\r\n"]):
            told = f"seed {SEED}, raw request {number}: {request[:300]!r}"
            with socket.create_connection(place, PATIENCE) as asked_by:
                given = b""
                try:
                    asked_by.sendall(request)
                    asked_by.shutdown(socket.SHUT_WR)
                    while piece := asked_by.recv(1 << 16):
                        given += piece
                except (BrokenPipeError, ConnectionResetError):
                    pass
                except OSError as fault:
                    # (the same, seen by this end's last word)
                    assert fault.errno == errno.ENOTCONN, told
            assert not given or re.match(rb"HTTP/1\.[01] (200|303|4[0-9][0-9]|50[15]) ", given), (told, given[:300])
            assert b"Traceback" not in given and TOKEN.encode() not in given, told
        assert page.addresses[0].encode() in given
    finally:
        server.close()
