"""The page as a process: served on this machine as it is, elsewhere with TLS; it ends when it is told to, whatever its connections do."""
from __future__ import annotations

import io
import os
import re
import shutil
import signal
import socket
import ssl
import subprocess
import sys
import threading
import time
import urllib.error
import urllib.parse
import urllib.request
from collections.abc import Iterator, Sequence
from concurrent.futures import ThreadPoolExecutor
from contextlib import ExitStack, contextmanager, suppress
from dataclasses import dataclass
from pathlib import Path
from typing import Any

import pytest
from wmbus_service.config import Page
from wmbus_service.page import serving

from .page_house import TOKEN, PageHouse, forms_word, page_fixture  # noqa: F401
from .processes import PATIENCE, certificate_of, started, until
from .test_sessions import house_fixture  # noqa: F401

SERVICE = Path(__file__).resolve().parents[1]
# more slow connections than a page has places
COUNT_SLOW = 120
# what a client of TLS sends first: a record's head, and then nothing
HALF_A_HANDSHAKE = bytes.fromhex("160301020001")
# the service on a machine whose localhost has two addresses, as Debian's /etc/hosts gives it
TWO_ADDRESSES = """import runpy, socket
found = socket.getaddrinfo
names = {"localhost": ("127.0.0.1", "::1")}
socket.getaddrinfo = lambda host, *more, **named: [it for name in names.get(host, (host,)) for it in found(name, *more, **named)]
runpy.run_module("wmbus_service", run_name="__main__")
"""
# the service on a machine that hasn't Debian's python3-flask
WITHOUT_FLASK = """import runpy, sys
sys.modules["flask"] = None
runpy.run_module("wmbus_service", run_name="__main__")
"""


@dataclass(frozen=True)
class Served:
    """A page that is a process of its own, and what it says."""

    process: subprocess.Popen[Any]
    log: Path

    def said(self) -> str:
        """Its words."""
        return self.log.read_text(encoding="utf-8")

    def port(self) -> int:
        """The port that it took."""
        until(lambda: "the page is at" in self.said() or self.process.poll() is not None)
        found = re.search(r"the page is at https?://[0-9.]+:(\d+)/", self.said())
        assert found, self.said()
        return int(found[1])

    def ended(self) -> int:
        """Its exit status, once it has ended."""
        until(lambda: self.process.poll() is not None)
        return int(self.process.returncode)


@contextmanager
def served(page: PageHouse, words: str, program: Sequence[str] = ("-m", "wmbus_service")) -> Iterator[Served]:
    """`wmbus-service page` by a configuration."""
    folder = page.house.config.folder
    file, log = folder.parent / "config.toml", folder.parent / "page.log"
    file.write_text(f'folder = "{folder}"\n[page]\n{words}')
    with open(log, "wb") as opened, started([sys.executable, *program, "--config", str(file), "page"], cwd=SERVICE,
                                            stderr=opened) as process:
        yield Served(process, log)


def fetched(it: Served, trust: ssl.SSLContext | None = None) -> str:
    """The page."""
    address = f"http{'s' if trust else ''}://127.0.0.1:{it.port()}/"
    with urllib.request.urlopen(address, context=trust, timeout=PATIENCE) as given:
        return str(given.read().decode())


def with_tls(tmp_path: Path, port: int = 0) -> tuple[str, ssl.SSLContext]:
    """The configuration of a page that is served with TLS, without a token, and who trusts it."""
    pytest.importorskip("cheroot", reason="python3-cheroot isn't there")
    if not shutil.which("openssl"):
        pytest.skip("openssl isn't there")
    certificate, key = certificate_of(tmp_path)
    words = f'host = "0.0.0.0"\nport = {port}\ncertificate = "{certificate}"\nkey = "{key}"\n'
    return words, ssl.create_default_context(cafile=str(certificate))


def with_token(tmp_path: Path) -> str:
    """The configuration of a token."""
    token = tmp_path / "token"
    token.touch(0o600)
    token.write_text(TOKEN)
    return f'token_file = "{token}"\n'


def free_port() -> int:
    """A port that nobody has."""
    with socket.create_server(("127.0.0.1", 0)) as free:
        return int(free.getsockname()[1])


def test_on_this_machine(page: PageHouse) -> None:
    """It is served, and ends with status 0."""
    with served(page, "port = 0\n") as it:
        assert "All meters" in fetched(it)
        it.process.send_signal(signal.SIGTERM)
        assert it.ended() == 0, it.said()


def test_many_at_once(page: PageHouse) -> None:
    """Many who look at it at once are all answered, and its log, in which its end has its reason, says nothing of them."""
    with served(page, "port = 0\n") as it, ThreadPoolExecutor(6 * serving.THREADS) as browsers:
        it.port()
        told = list(browsers.map(lambda _: fetched(it), range(30 * serving.THREADS)))
        assert all("All meters" in text for text in told) and len(it.said().splitlines()) == 1, it.said()


def test_a_new_token(page: PageHouse, tmp_path: Path) -> None:
    """A new token counts once the page is started anew; who entered by the one before has to enter again then."""
    port, browser = free_port(), urllib.request.build_opener(urllib.request.HTTPCookieProcessor())

    def asked(path: str, **fields: str) -> str:
        data = urllib.parse.urlencode(fields).encode() if fields else None
        with browser.open(f"http://127.0.0.1:{port}{path}", data, PATIENCE) as given:
            return str(given.read().decode())

    def is_entered(token: str = "") -> bool:
        with suppress(urllib.error.HTTPError):
            if token:
                asked("/enter", forms=forms_word(asked("/enter")), token=token)
        return "Leave" in asked("/")
    words = f"port = {port}\n{with_token(tmp_path)}"
    with served(page, words) as it:
        assert it.port() == port and is_entered(TOKEN)
        (tmp_path / "token").write_text(TOKEN[::-1])
        assert is_entered()
    with served(page, words) as it:
        assert it.port() == port and not is_entered() and not is_entered(TOKEN) and is_entered(TOKEN[::-1])


def test_a_name_of_two_addresses(page: PageHouse) -> None:
    """Under localhost it is served at both of its addresses, and says where."""
    port = free_port()
    with served(page, f'host = "localhost"\nport = {port}\n', ("-c", TWO_ADDRESSES)) as it:
        until(lambda: "the page is at" in it.said() or it.process.poll() is not None)
        assert f"the page is at http://localhost:{port}/" in it.said(), it.said()
        for host in ("127.0.0.1", "[::1]"):
            with urllib.request.urlopen(f"http://{host}:{port}/", timeout=PATIENCE) as given:
                assert "All meters" in given.read().decode()
        it.process.send_signal(signal.SIGTERM)
        assert it.ended() == 0, it.said()


def test_without_its_packages(page: PageHouse) -> None:
    """Where a package of Debian that it needs isn't there it is named."""
    with served(page, "port = 0\n", ("-c", WITHOUT_FLASK)) as it:
        assert it.ended() == 1 and "apt-get install python3-flask" in it.said() and "Traceback" not in it.said()


def test_an_address_of_version_6(page: PageHouse) -> None:
    """Where it says that the page is, a browser finds it."""
    with served(page, 'host = "::1"\nport = 0\n') as it:
        until(lambda: "the page is at" in it.said() or it.process.poll() is not None)
        found = re.search(r"the page is at (\S+)", it.said())
        assert found and found[1].startswith("http://[::1]:"), it.said()
        with urllib.request.urlopen(found[1], timeout=PATIENCE) as given:
            assert "All meters" in given.read().decode()


def test_elsewhere_with_tls(page: PageHouse, tmp_path: Path) -> None:
    """On all addresses it speaks TLS alone, and asks for the token first; without either it doesn't start."""
    tls, trust = with_tls(tmp_path)
    for words, told in (('host = "0.0.0.0"\nport = 0\n', "without TLS they read along"), (tls, "it has no token")):
        with served(page, words) as it:
            assert it.ended() == 1 and told in it.said()
    with served(page, tls + with_token(tmp_path)) as it:
        text = fetched(it, trust)
        assert "<h1>Enter</h1>" in text and "All meters" not in text
        with pytest.raises(OSError):
            urllib.request.urlopen(f"http://127.0.0.1:{it.port()}/", timeout=PATIENCE)
        it.process.send_signal(signal.SIGTERM)
        assert it.ended() == 0, it.said()


def test_a_renewed_certificate(page: PageHouse, tmp_path: Path) -> None:
    """A certificate that was renewed counts at the next connection; while it and its key don't fit, and where they can't be read, that of
    before does, and it is said once."""
    (tmp_path / "new").mkdir()
    words, before = with_tls(tmp_path)
    certificate, key = certificate_of(tmp_path / "new")
    after = ssl.create_default_context(cafile=str(certificate))
    with served(page, words + with_token(tmp_path)) as it:
        assert "<h1>Enter</h1>" in fetched(it, before)
        os.replace(certificate, tmp_path / "certificate")
        for _ in range(3):
            assert "<h1>Enter</h1>" in fetched(it, before)
        assert it.said().count("TLS goes on with the certificate of before") == 1, it.said()
        os.replace(key, tmp_path / "key")
        assert "<h1>Enter</h1>" in fetched(it, after)
        with pytest.raises(OSError):
            fetched(it, before)
        (tmp_path / "certificate").unlink()
        assert "<h1>Enter</h1>" in fetched(it, after) and "Traceback" not in it.said()


def test_a_port_that_is_taken(page: PageHouse, tmp_path: Path) -> None:
    """It ends, and names the port, with TLS too."""
    with socket.create_server(("127.0.0.1", 0)) as taken:
        port = taken.getsockname()[1]
        tls, _ = with_tls(tmp_path, port)
        for words in (f"port = {port}\n", tls + with_token(tmp_path)):
            with served(page, words) as it:
                assert it.ended() == 1 and f"page.port {port}" in it.said() and "can't be served" in it.said()


def go_on(opened: socket.socket) -> None:
    """Sends byte after byte, as long as somebody takes them."""
    with suppress(OSError):
        while True:
            opened.sendall(b"a")
            time.sleep(0.5)


def test_broken_records(page: PageHouse, tmp_path: Path) -> None:
    """Bytes that are no record of TLS, behind a handshake and in the midst of a request, take none of its threads with them."""
    words, trust = with_tls(tmp_path)
    with served(page, words + with_token(tmp_path)) as it:
        for begun in (b"", b"GET /enter HTTP/1.1\r\nHost: ") * serving.THREADS:
            with socket.create_connection(("127.0.0.1", it.port()), PATIENCE) as plain:
                with trust.wrap_socket(plain, server_hostname="127.0.0.1") as broken:
                    broken.sendall(begun)
                    os.write(broken.fileno(), b"no record" * 20)
                    with suppress(OSError):
                        broken.recv(100)
        assert "<h1>Enter</h1>" in fetched(it, trust)


@pytest.mark.parametrize("is_with_tls", [False, True])
def test_requests_without_end(page: PageHouse, tmp_path: Path, is_with_tls: bool) -> None:
    """Heads and bodies of any length take no memory and no disk from a page: it answers before it has taken all of them."""
    words, trust = with_tls(tmp_path) if is_with_tls else ("port = 0\n", None)
    head = b"Host: 127.0.0.1\r\nConnection: close\r\n"
    chunk = b"10000\r\n" + b"a" * 0x10000 + b"\r\n"
    with served(page, words + with_token(tmp_path)) as it:
        for begun, piece, end in ((b"GET /enter HTTP/1.1\r\n" + head + b"X: ", b"a" * 0x10000, b"\r\n\r\n"),
                                  (b"GET /enter?", b"a" * 0x10000, b" HTTP/1.1\r\n" + head + b"\r\n"),
                                  (b"POST /enter HTTP/1.1\r\nContent-Type: application/x-www-form-urlencoded\r\n" + head
                                   + b"Transfer-Encoding: chunked\r\n\r\n9\r\nforms=a&b\r\n", chunk, b"0\r\n\r\n")):
            sent = 0
            with socket.create_connection(("127.0.0.1", it.port()), PATIENCE) as plain, suppress(OSError):
                with trust.wrap_socket(plain, server_hostname="127.0.0.1") if trust else plain as asked:
                    asked.sendall(begun)
                    while sent < 1024:
                        asked.sendall(piece)
                        sent += 1
                    asked.sendall(end)
            assert sent < 1024
        assert ("<h1>Enter</h1>" if trust else "All meters") in fetched(it, trust)


def drips(trust: ssl.SSLContext | None) -> list[bytes]:
    """What goes on without an end where a byte comes at a time: a handshake, a request's head, and its body; with TLS what stands behind
    the handshake is what is sent within."""
    incoming, outgoing = ssl.MemoryBIO(), ssl.MemoryBIO()
    if trust:
        with suppress(ssl.SSLWantReadError):
            trust.wrap_bio(incoming, outgoing, server_hostname="127.0.0.1").do_handshake()
    head = b"Host: 127.0.0.1\r\nX: "
    form = b"POST /enter HTTP/1.1\r\nHost: 127.0.0.1\r\nContent-Type: application/x-www-form-urlencoded\r\nContent-Length: 60000\r\n\r\n"
    return [*([outgoing.read()] if trust else []), b"GET /enter HTTP/1.1\r\n" + head + b"a" * 1000, form + b"a" * 1000]


@pytest.mark.parametrize("is_with_tls", [False, True])
def test_slow_connections(page: PageHouse, tmp_path: Path, is_with_tls: bool) -> None:
    """More connections than it has places, over each of which a handshake, a head or a body comes byte by byte, keep nobody else from the
    page, and each is ended after seconds."""
    words, trust = with_tls(tmp_path) if is_with_tls else ("port = 0\n", None)
    kinds = drips(trust)
    with served(page, words + with_token(tmp_path)) as it, ExitStack() as opened:
        port, slow, over = it.port(), list[tuple[socket.socket, bytes]](), threading.Event()
        for number in range(COUNT_SLOW):
            plain = opened.enter_context(socket.create_connection(("127.0.0.1", port), PATIENCE))
            text, is_handshake = kinds[number % len(kinds)], bool(trust) and number % len(kinds) == 0
            with suppress(OSError):
                tls = trust.wrap_socket(plain, server_hostname="127.0.0.1") if trust and not is_handshake else plain
                begun = text.index(b"\r\n\r\n") + 4 if b"POST" in text else 1
                tls.sendall(text[:begun])
                slow.append((opened.enter_context(tls), text[begun:]))

        def drip() -> None:
            for place in range(1000):
                for connection, text in slow:
                    with suppress(OSError):
                        connection.sendall(text[place:place + 1])
                if over.wait(0.2):
                    return

        def is_ended(connection: socket.socket) -> bool:
            try:
                return not connection.recv(1000)
            except (BlockingIOError, ssl.SSLWantReadError):
                return False
            except OSError:
                return True
        opened.callback(over.set)
        threading.Thread(target=drip, daemon=True).start()
        before = time.monotonic()
        assert ("<h1>Enter</h1>" if trust else "All meters") in fetched(it, trust) and time.monotonic() - before < 8
        for connection, _ in slow:
            connection.settimeout(0)
        until(lambda: all(is_ended(connection) for connection, _ in slow), 4 * serving.SECONDS)
        assert len(slow) > serving.THREADS and "Traceback" not in it.said()


def answered(port: int, request: bytes, trust: ssl.SSLContext | None) -> bytes:
    """What a request of any bytes is answered, up to the connection's end."""
    with socket.create_connection(("127.0.0.1", port), PATIENCE) as plain:
        opened = trust.wrap_socket(plain, server_hostname="127.0.0.1") if trust else plain
        with opened, suppress(OSError):
            opened.sendall(request)
            opened.settimeout(PATIENCE)
            answer = b""
            while piece := opened.recv(65_536):
                answer += piece
            return answer
    return b""


# ways out of the page's folders, and lines of a head within words of an address, a form and a header
OUTSIDE = [b"/static/../../../wmbus.db", b"/static/..%2f..%2f..%2fetc%2fpasswd", b"/static/%2e%2e/%2e%2e/etc/passwd", b"/static//etc/passwd",
           b"/static/....//....//etc/passwd", b"/static/..\\..\\etc\\passwd", b"/static/%252e%252e/etc/passwd", b"/../../../../etc/passwd",
           b"/static/page.css%00.html", b"/meters/..%2f..%2fwmbus.db", b"//etc/passwd", b"file:///etc/passwd", b"/static/%c0%ae%c0%ae/etc/passwd",
           b"/meters/%2e%2e/readings.csv", b"/common.css/../../etc/passwd", b"http://elsewhere.example/etc/passwd"]
LINES = [b"/meters?q=a%0d%0aSet-Cookie:%20stolen=1", b"/?retired=1%0d%0aSet-Cookie:%20stolen=1", b"/%0d%0aSet-Cookie:%20stolen=1",
         b"/meters/%0d%0aSet-Cookie:%20stolen=1/readings.csv", b"/readings.csv?from=%0d%0aSet-Cookie:%20stolen=1",
         b"/meters?order=%E5%98%8A%E5%98%8DSet-Cookie:%20stolen=1", b"/enter?next=http://elsewhere.example/%0d%0aLocation:%20x"]


@pytest.mark.parametrize("is_with_tls", [False, True])
def test_ways_out_of_the_page(page: PageHouse, tmp_path: Path, is_with_tls: bool) -> None:
    """No address leads to a file that isn't the page's, no word puts a line into the head of an answer, and none leads elsewhere."""
    words, trust = with_tls(tmp_path) if is_with_tls else ("port = 0\n", None)
    with served(page, words + with_token(tmp_path)) as it:
        port = it.port()
        for path in OUTSIDE + LINES:
            for more in (b"", b"X-Forwarded-Host: elsewhere.example\r\n", b"X-Original-URL: /etc/passwd\r\nX-Rewrite-URL: /etc/passwd\r\n"):
                answer = answered(port, b"GET " + path + b" HTTP/1.1\r\nHost: 127.0.0.1\r\n" + more + b"Connection: close\r\n\r\n", trust)
                head, _, body = answer.partition(b"\r\n\r\n")
                assert re.match(rb"HTTP/1.[01] (200|303|400|403|404|405) ", head), (path, head)
                assert b"root:" not in body and b"SQLite format" not in body and b"stolen=1\r\n" not in head + b"\r\n", (path, answer)
                assert not re.search(rb"(?im)^(set-cookie: stolen|location: (?!/enter\r?$))", head), (path, head)
                assert path in LINES or head[9:12] != b"200" or is_with_tls and b"<h1>" in body, (path, head)
        # (a line of the head within the name of the host, and one that is cut in two)
        for host in (b"127.0.0.1\r\nSet-Cookie: stolen=1", b"127.0.0.1\r\n Set-Cookie: stolen=1", b"127.0.0.1:80\rX: y"):
            assert b"stolen" not in answered(port, b"GET /meters HTTP/1.1\r\nHost: " + host + b"\r\nConnection: close\r\n\r\n", trust)
        assert "Traceback" not in it.said() and TOKEN not in it.said()


@pytest.mark.parametrize("is_with_tls", [False, True])
def test_big_bodies(page: PageHouse, tmp_path: Path, is_with_tls: bool) -> None:
    """A body that is said to have 10 GB, or comes so in chunks, isn't taken, takes no memory and keeps nobody else from the page."""
    words, trust = with_tls(tmp_path) if is_with_tls else ("port = 0\n", None)
    with served(page, words + with_token(tmp_path)) as it:
        port, head = it.port(), b"POST /enter HTTP/1.1\r\nHost: 127.0.0.1\r\nContent-Type: application/x-www-form-urlencoded\r\n"
        for length, body in ((10 ** 10, b"token=" + b"a" * 4_000_000), (-1, b""), (10 ** 30, b"a"), (70_000, b"token=" + b"a" * 69_994)):
            answer = answered(port, head + b"Content-Length: %d\r\n\r\n" % length + body, trust)
            assert not answer or re.match(rb"HTTP/1.[01] (400|403|413) ", answer), (length, answer[:200])
        chunk = b"10000\r\n" + b"a" * 65_536 + b"\r\n"
        answer = answered(port, head + b"Transfer-Encoding: chunked\r\n\r\n" + chunk * 100, trust)
        assert not answer or re.match(rb"HTTP/1.[01] (400|403|413) ", answer), answer[:200]
        with open(f"/proc/{it.process.pid}/status", encoding="ascii") as told:
            (peak,) = [int(line.split()[1]) for line in told if line.startswith("VmHWM")]
        assert peak < 150_000
        assert ("<h1>Enter</h1>" if trust else "All meters") in fetched(it, trust)


def test_half_requests(page: PageHouse) -> None:
    """Connections whose requests never come whole, many times as many as there are places, hold up nobody: who asks is answered before the
    time of one of them is over, without TLS too."""
    with served(page, "port = 0\n") as it, ExitStack() as held:
        port = it.port()
        fetched(it)
        for number in range(300):
            opened = held.enter_context(socket.create_connection(("127.0.0.1", port), PATIENCE))
            opened.sendall(b"GET / HTTP/1.1\r\nHost: 127.0.0.1\r\n" if number % 2 else b"")
        begin = time.monotonic()
        assert "All meters" in fetched(it)
        assert time.monotonic() - begin < 0.8 * serving.SECONDS


def test_a_reader_that_pauses(monkeypatch: pytest.MonkeyPatch) -> None:
    """Who takes an answer may pause for longer than a request has to come, as in a pager, and gets all of it."""
    monkeypatch.setattr(serving, "SECONDS", 0.5)

    def app(_environ: object, begin: Any) -> list[bytes]:
        begin("200 OK", [("Content-Length", str(8 << 20))])
        return [b"a" * (8 << 20)]
    server = serving.plain_server(app, Page(port=0))
    threading.Thread(target=server.run, daemon=True).start()
    with socket.socket() as plain:
        plain.setsockopt(socket.SOL_SOCKET, socket.SO_RCVBUF, 4096)
        plain.settimeout(PATIENCE)
        plain.connect(("127.0.0.1", serving.port_of(server)))
        plain.sendall(b"GET / HTTP/1.1\r\nHost: 127.0.0.1\r\nConnection: close\r\n\r\n")
        time.sleep(6 * serving.SECONDS)
        with plain.makefile("rb") as told:
            assert told.read().count(b"a" * 1024) == 8 << 10
    server.task_dispatcher.shutdown()


def test_answers_at_once(page: PageHouse, tmp_path: Path) -> None:
    """With TLS too no more answers are made at once than there are threads for without, and each has what was asked as a whole."""
    pytest.importorskip("cheroot", reason="python3-cheroot isn't there")
    from wmbus_service.page import tls
    at_once, most, guard = 0, 0, threading.Lock()

    def app(environ: dict[str, Any], _begin: object) -> list[bytes]:
        nonlocal at_once, most
        with guard:
            at_once += 1
            most = max(most, at_once)
        time.sleep(0.02)
        with guard:
            at_once -= 1
        return [bytes(environ["wsgi.input"].read())]
    limited = tls.in_turn(app, serving.THREADS)
    with ThreadPoolExecutor(8 * serving.THREADS) as asking:
        told = list(asking.map(lambda it: [*limited({"wsgi.input": io.BytesIO(it)}, None)], asked := [b"%d" % it for it in range(32)]))
    assert told == [[it] for it in asked] and most == serving.THREADS


def test_silent_connections(page: PageHouse, tmp_path: Path) -> None:
    """Connections that begin no handshake, or only half of one, keep nobody else from a page with TLS."""
    words, trust = with_tls(tmp_path)
    with served(page, words + with_token(tmp_path)) as it, ExitStack() as opened:
        fetched(it, trust)
        for begun in (b"", b"", HALF_A_HANDSHAKE):
            opened.enter_context(socket.create_connection(("127.0.0.1", it.port()), PATIENCE)).sendall(begun)
        time.sleep(0.5)
        before = time.monotonic()
        assert "<h1>Enter</h1>" in fetched(it, trust)
        assert time.monotonic() - before < 8
        for _ in range(2 * serving.THREADS):
            with socket.create_connection(("127.0.0.1", it.port()), PATIENCE) as plain:
                plain.sendall(b"GET / HTTP/1.1\r\nHost: 127.0.0.1\r\n\r\n")
                assert b"200" not in plain.recv(100)
        assert "<h1>Enter</h1>" in fetched(it, trust) and "Traceback" not in it.said()


@pytest.mark.parametrize("is_with_tls", [False, True])
def test_open_connections(page: PageHouse, tmp_path: Path, is_with_tls: bool) -> None:
    """Told to end, once or twice, it ends within seconds, though one connection is kept alive, one goes on with its request without end,
    and one has begun a handshake."""
    words, trust = with_tls(tmp_path) if is_with_tls else ("port = 0\n", None)
    with served(page, words + with_token(tmp_path)) as it, ExitStack() as opened:
        fetched(it, trust)

        def connection() -> socket.socket:
            plain = opened.enter_context(socket.create_connection(("127.0.0.1", it.port()), PATIENCE))
            return opened.enter_context(trust.wrap_socket(plain, server_hostname="127.0.0.1")) if trust else plain
        kept, half = connection(), connection()
        kept.sendall(b"GET /enter HTTP/1.1\r\nHost: 127.0.0.1\r\n\r\n")
        assert kept.recv(100).startswith(b"HTTP/1.1 200")
        half.sendall(b"GET /enter HTTP/1.1\r\nHost: ")
        threading.Thread(target=go_on, args=(half,), daemon=True).start()
        opened.enter_context(socket.create_connection(("127.0.0.1", it.port()), PATIENCE)).sendall(HALF_A_HANDSHAKE)
        time.sleep(0.5)
        it.process.send_signal(signal.SIGTERM)
        time.sleep(serving.GRACE / 3)
        it.process.send_signal(signal.SIGTERM)
        assert it.ended() == 0, it.said()
