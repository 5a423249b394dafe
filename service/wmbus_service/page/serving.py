"""Serves the page: on this machine alone as it is, elsewhere with TLS and a token."""
from __future__ import annotations

import logging
import os
import threading
from collections.abc import Callable, Sequence
from pathlib import Path
from typing import Any

from .. import store
from ..config import Config, Page
from ..ending import Ending
from ..local import is_local as is_local
from ..memory_files import leave_no_core
from ..trouble import Trouble
from .apart import FarDoor, FarFiles
from .app import MOST_BODY, MOST_HEAD, create_apart, create_app
from .certificates import CertificateFiles

log = logging.getLogger("wmbus")

LEAST_TOKEN = 24
THREADS = 4
# so long a request may take to come as a whole
SECONDS = 5.0
# of more connections without TLS than this the one whose request takes longest gives way to a new one
PLACES = 64
# so long an answer that is on its way has when the page is to end
GRACE = 3.0


def read_token(page: Page) -> str | None:
    """The token, out of a file that its owner alone may read; none where none is named."""
    if not page.token_file:
        return None
    path = Path(page.token_file)
    try:
        store.look_at_rights(path, 0o600)
        token = path.read_text(encoding="utf-8").strip()
    except (OSError, UnicodeDecodeError) as fault:
        raise Trouble(path, f"the page's token can't be read: {fault}", "name its file in the configuration as page.token_file") from None
    if len(token) < LEAST_TOKEN:
        raise Trouble(path, f"the page's token has {len(token)} signs, and {LEAST_TOKEN} are the fewest", f"openssl rand -hex 16 > {path}")
    return token


def look_at_page(page: Page) -> str | None:
    """The token; an error where the page would be open to others."""
    token = read_token(page)
    if not is_local(page.host) and not (page.certificate and page.key):
        raise Trouble(f"page.host {page.host or '(all)'}", "others reach it there, and without TLS they read along",
                      "name page.certificate and page.key, or 127.0.0.1")
    if not is_local(page.host) and token is None:
        raise Trouble(f"page.host {page.host or '(all)'}", "others reach it there, and it has no token",
                      "name page.token_file, or 127.0.0.1")
    return token


def run(config: Config) -> None:
    """Serves the page until it gets SIGTERM or SIGINT, and ends the process then."""
    def made(token: str | None, is_elsewhere: bool) -> object:
        # (a database of an earlier version becomes one of this)
        store.open_store(config.database).close()
        return create_app(config, token, is_elsewhere)

    serve_page(config.page or Page(), made)


def run_apart(path: Path) -> None:
    """Serves the page by a user who can't read the database: all is asked at a socket."""
    ending = begun()
    door = FarDoor(path)
    page = door.settings()
    serve(ending, page, create_apart(door, not is_local(page.host)), FarFiles(door))


def serve_page(page: Page, made: Callable[[str | None, bool], object]) -> None:
    """Serves what is made for a token, and for others than those of this machine, until SIGTERM or SIGINT, and ends the process then."""
    ending = begun()
    token = look_at_page(page)
    serve(ending, page, made(token, not is_local(page.host)), CertificateFiles(page))


def begun() -> Ending:
    """What a process that serves does first."""
    ending = Ending()
    ending.heed_signals()
    os.umask(0o077)
    leave_no_core()
    return ending


def serve(ending: Ending, page: Page, app: object, files: CertificateFiles) -> None:
    """Serves a page until the end, and ends the process then."""
    host = f"[{page.host}]" if ":" in page.host else page.host
    server = server_with_tls(app, page, files) if page.certificate else plain_server(app, page)

    def serve_with_tls() -> None:
        server.prepare()
        log.info("the page is at https://%s:%s/", host, server.bind_addr[1])
        server.serve()

    def serve_plainly() -> None:
        log.info("the page is at http://%s:%s/", host, port_of(server))
        server.run()
    if page.certificate:
        serve_until(ending, page, serve_with_tls, server.stop)
    else:
        serve_until(ending, page, serve_plainly, server.task_dispatcher.shutdown)
    log.info("ended")
    # (a server's threads wait for connections, some without end, and may not hold up the process)
    logging.shutdown()
    os._exit(0)


def serve_until(ending: Ending, page: Page, serve: Callable[[], object], stop: Callable[[], object]) -> None:
    """Serves by a thread of its own, so that the main one is free to hear of the end; answers that are on their way have some seconds."""
    faults: list[BaseException] = []

    def work() -> None:
        try:
            serve()
        except BaseException as fault:
            faults.append(fault)
        ending.set()

    threading.Thread(target=work, daemon=True).start()
    ending.wait()
    for fault in faults:
        raise _unserved(page, fault) if isinstance(fault, OSError) else fault
    stopping = threading.Thread(target=stop, daemon=True)
    stopping.start()
    stopping.join(GRACE)


def plain_server(app: object, page: Page) -> Any:
    """A server without TLS, which holds its port already."""
    import waitress
    # (that requests wait for a moment is no trouble)
    logging.getLogger("waitress.queue").setLevel(logging.ERROR)
    try:
        server: Any = waitress.create_server(app, host=page.host, port=page.port, threads=THREADS, ident=None,
                                             max_request_header_size=MOST_HEAD, max_request_body_size=MOST_BODY, cleanup_interval=1)
    except OSError as fault:
        raise _unserved(page, fault) from None
    limit_requests(server)
    return server


def make_room(others: Sequence[Any], now: float) -> None:
    """Ends the connection that is waited for longest, where too many are open; else one that takes nothing of its answer."""
    if len(others) < PLACES:
        return
    waiting = [it for it in others if not it.requests and not it.total_outbufs_len]
    slow = [it for it in others if it.total_outbufs_len and it.last_activity < now - SECONDS]
    for it in [min(waiting, key=lambda it: float(it.begun))] if waiting else sorted(slow, key=lambda it: float(it.last_activity))[:1]:
        it.will_close = True


def limit_requests(server: Any) -> None:
    """Has a server without TLS, or each of those of a name's addresses, end connections whose request goes on for too long: it holds as
    many as there may be, and each piece of one would give it its time anew. Who takes an answer may pause. Where many are open that one
    whose request takes longest ends for each that comes."""
    from waitress.channel import HTTPChannel
    from waitress.server import BaseWSGIServer

    class Channel(HTTPChannel):  # type: ignore[misc]
        """A connection."""

        request: Any
        last_activity: float
        will_close: bool
        _map: dict[int, Any]

        def __init__(self, *given: Any, **named: Any) -> None:
            super().__init__(*given, **named)
            self.begun = self.last_activity
            self.limit()
            make_room([it for it in self._map.values() if isinstance(it, Channel) and it is not self and not it.will_close],
                      self.last_activity)

        def limit(self) -> None:
            """From here on nothing more may come once the request's time is over, since the server thinks that nothing has for long."""
            self.last_activity = self.begun + SECONDS - self.adj.channel_timeout

        def received(self, data: bytes) -> bool:
            """Takes what came."""
            now, request = self.last_activity, self.request
            told = bool(super().received(data))
            if self.request is not None:
                self.begun = self.begun if self.request is request else now
                self.limit()
            return told
    for it in server.map.values() if hasattr(server, "map") else [server]:
        if isinstance(it, BaseWSGIServer):
            it.channel_class = Channel


def port_of(server: Any) -> int:
    """The port that a server without TLS has; of a name with several addresses, as localhost, it is one server for each of them."""
    return int(server.effective_listen[0][1] if hasattr(server, "effective_listen") else server.effective_port)


def server_with_tls(app: object, page: Page, files: CertificateFiles) -> Any:
    """A server with TLS."""
    try:
        from .tls import server_of
    except ImportError:
        raise Trouble("page.certificate", "TLS needs cheroot, which isn't there", "apt-get install python3-cheroot") from None
    try:
        return server_of(app, page, files, THREADS, SECONDS)
    except OSError as fault:
        raise Trouble(page.certificate, f"TLS can't be begun: {fault}", "look at page.certificate and page.key") from None


def _unserved(page: Page, fault: OSError) -> Trouble:
    return Trouble(f"page.host {page.host} and page.port {page.port}", f"the page can't be served: {fault.strerror or fault}",
                   "name another port, or end what uses this one")
