"""A server with TLS: what is wrong with a connection ends that one alone, and keeps nobody else waiting."""
from __future__ import annotations

import errno
import io
import logging
import socket
import ssl
import threading
import time
from collections.abc import Iterator
from contextlib import contextmanager, suppress
from typing import Any

from cheroot.errors import MaxSizeExceeded
from cheroot.server import HTTPConnection
from cheroot.ssl.builtin import BuiltinSSLAdapter
from cheroot.wsgi import Server

from ..config import Page
from .app import MOST_BODY, MOST_HEAD
from .certificates import CertificateFiles

log = logging.getLogger("wmbus")

ENVIRONMENT = {"wsgi.url_scheme": "https", "HTTPS": "on"}
# connections that are served at once; each has a thread, which mostly waits
PLACES = 64
# in bytes a second, an answer may be taken so slowly
SLOWEST = 4096


class Places:
    """The places of the connections that are served. Where all are taken that connection of those that others wait for ends for a new one
    whose time is over first."""

    def __init__(self) -> None:
        self.lock = threading.Lock()
        self.taken = 0
        self.awaited: set[InTime] = set()

    def take(self) -> None:
        """A connection comes."""
        with self.lock:
            self.taken += 1
            if self.taken > PLACES and self.awaited:
                first = min(self.awaited, key=lambda it: it.until)
                self.awaited.discard(first)
                with suppress(OSError):
                    socket.socket.shutdown(first, socket.SHUT_RDWR)

    def leave(self) -> None:
        """A connection ends, or has no request now."""
        with self.lock:
            self.taken -= 1

    @contextmanager
    def wait(self, connection: InTime) -> Iterator[None]:
        """A connection waits for its other side."""
        with self.lock:
            self.awaited.add(connection)
        try:
            yield
        finally:
            with self.lock:
                self.awaited.discard(connection)


class InTime(ssl.SSLSocket):
    """A connection that has some seconds for handshake and request, by whatever pieces they come, and for an answer as many beside those
    that its length takes."""

    places: Places
    seconds = until = 0.0
    is_answered = False

    def begin(self) -> None:
        """From here on a request has its time."""
        self.until, self.is_answered = time.monotonic() + self.seconds, False

    @contextmanager
    def _waited(self) -> Iterator[None]:
        left = self.until - time.monotonic()
        try:
            if left <= 0:
                raise TimeoutError("timed out")
            self.settimeout(left)
            with self.places.wait(self):
                yield
        except OSError as fault:
            # (of such a fault the server says nothing in the log)
            raise ConnectionResetError(errno.ECONNRESET, str(fault)) from None

    def do_handshake(self, *given: Any) -> None:
        """Makes the handshake."""
        with self._waited():
            super().do_handshake(*given)

    def recv_into(self, *given: Any) -> int:
        """Reads."""
        with self._waited():
            return super().recv_into(*given)

    def send(self, data: Any, *given: Any) -> int:
        """Writes."""
        if not self.is_answered:
            self.begin()
            self.is_answered = True
        self.until += len(data) / SLOWEST
        with self._waited():
            return super().send(data, *given)


def in_turn(app: Any, most: int) -> Any:
    """An application that makes so many answers at once: what is asked has come as a whole by then, so that who is slow keeps none waiting."""
    turns = threading.Semaphore(most)

    def answer(environ: dict[str, Any], begin: Any) -> Any:
        try:
            content = environ["wsgi.input"].read(MOST_BODY)
        except ValueError:
            # (chunks that are none: such a form isn't whole)
            content = b""
        except ConnectionError:
            raise
        except (MaxSizeExceeded, OSError):
            # (where chunks have more than the limit the server's reader says either of the two)
            begin("413 Request Entity Too Large", [("Content-Length", "0"), ("Connection", "close")])
            return []
        with turns:
            return app(environ | {"wsgi.input": io.BytesIO(content)}, begin)
    return answer


class Adapter(BuiltinSSLAdapter):
    """Makes connections those of TLS, whose handshake is left to the thread that serves them: here all others would wait for it."""

    said = ""

    def __init__(self, files: CertificateFiles, seconds: float) -> None:
        self.files, self.places, self.seconds = files, Places(), seconds
        self.read = files.seen()
        with files.opened() as (certificate, key):
            super().__init__(certificate, key)
        self.context.sslsocket_class = InTime

    def _renew(self) -> None:
        """Takes a certificate that was renewed since the last connection; as long as it can't be taken that of before counts."""
        try:
            if self.read == (found := self.files.seen()):
                return
            self.read = found
            context = ssl.create_default_context(ssl.Purpose.CLIENT_AUTH)
            with self.files.opened() as (certificate, key):
                # (nobody is there who could be asked for the password of a key)
                context.load_cert_chain(certificate, key, password="")
            context.sslsocket_class = InTime
            self.context, self.said = context, ""
            log.info("the certificate was renewed")
        except OSError as fault:
            # (a file that is gone for a moment is looked for again)
            if self.said != (said := str(fault)):
                self.said = said
                log.warning("TLS goes on with the certificate of before: %s", said)

    def wrap(self, sock: Any) -> tuple[Any, dict[str, str]]:
        """The connection of TLS, and what an application hears of it."""
        self._renew()
        made = self.context.wrap_socket(sock, server_side=True, do_handshake_on_connect=False)
        made.places, made.seconds = self.places, self.seconds
        return made, dict(ENVIRONMENT)


class Connection(HTTPConnection):
    """A connection whose faults don't end the thread that serves it."""

    def communicate(self) -> bool:
        """Answers what is asked; whether the connection stays. (A handshake that was made isn't made again.)"""
        inner: Any = super()
        try:
            self.socket.begin()
            self.socket.do_handshake()
            return bool(inner.communicate())
        except OSError:
            return False
        finally:
            self.socket.places.leave()

    def close(self) -> None:
        """Ends the connection."""
        inner: Any = super()
        with suppress(OSError):
            inner.close()


class PageServer(Server):
    """A server whose connections have their places."""

    def process_conn(self, conn: Any) -> None:
        """Has a thread serve a connection."""
        conn.socket.places.take()
        inner: Any = super()
        inner.process_conn(conn)


def server_of(app: object, page: Page, files: CertificateFiles, threads: int, seconds: float) -> Any:
    """The server, which doesn't listen yet. So many answers are made at once, and a request has so many seconds."""
    server: Any = PageServer((page.host, page.port), in_turn(app, threads), numthreads=PLACES, server_name="wmbus")
    server.request_queue_size = 2 * PLACES
    server.ssl_adapter = Adapter(files, seconds)
    server.ConnectionClass = Connection
    server.max_request_header_size, server.max_request_body_size = MOST_HEAD, MOST_BODY
    return server
