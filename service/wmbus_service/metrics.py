"""Metrics in Prometheus' text format, over HTTP on this machine."""
from __future__ import annotations

import re
import socket
import sqlite3
import threading
import time
from collections import deque
from collections.abc import Iterator
from contextlib import suppress
from socketserver import ThreadingMixIn
from typing import TYPE_CHECKING, Any
from wsgiref.simple_server import WSGIRequestHandler, WSGIServer, make_server

from prometheus_client import CollectorRegistry, make_wsgi_app
from prometheus_client.core import CounterMetricFamily, GaugeMetricFamily, Metric
from prometheus_client.registry import Collector

from . import store
from .config import Config, Metrics
from .local import is_local
from .status import oldest_publication
from .trouble import Trouble

if TYPE_CHECKING:
    from .service import Service

# so long a connection has for all that is asked and answered over it, and so many are open at once
SILENCE, MOST = 5.0, 32
COUNTERS = {
    "lines": "lines of receivers that were heard",
    "orders": "lines for commands, keys and ticks",
    "stored": "readings",
    "part": "fragments that are held",
    "refused": "refused lines of known meters",
    "strangers": "lines for meters that aren't known",
    "unframed": "lines whose bytes are no frame",
    "bad": "lines outside the grammar",
    "downlinks": "downlinks made",
    "aside": "lines at which the program failed",
    "sessions": "sessions that were committed",
}
# what a service has beside what its sessions count
BESIDE = {"publications_left_out": "messages that weren't published, since too many waited and later ones of their topics did"}
GAUGES = {
    "meters": ("meters in service", "select count(*) from meter where retired is null"),
    "meters_retired": ("meters out of service", "select count(*) from meter where retired is not null"),
    "publications_waiting": ("messages that the broker hasn't acknowledged", "select count(*) from publication"),
    "downlinks_waiting": ("downlinks that aren't sent", "select count(*) from outbox where sent is null and missed is null"),
    "downlinks_missed": ("downlinks that couldn't be sent in time", "select count(*) from outbox where missed is not null"),
    "commands_open": ("commands that aren't done", "select count(*) from command where state in ('waiting', 'queued', 'sent')"),
    "windows_open": ("meters whose answer is awaited", "select count(*) from meter where waits is not null"),
}


class Figures(Collector):
    """What the database and the service say, at each time that it is asked for."""

    def __init__(self, config: Config, service: Service) -> None:
        self.config, self.service = config, service

    def collect(self) -> Iterator[Metric]:
        """All metrics."""
        database = store.open_store(self.config.database)
        try:
            yield from self._of(database)
        finally:
            database.close()

    def _of(self, database: sqlite3.Connection) -> Iterator[Metric]:
        totals = dict(database.execute("select name, value from total").fetchall())
        for name, words in (COUNTERS | BESIDE).items():
            counter = CounterMetricFamily(f"wmbus_{name}", f"{words}, over all starts")
            counter.add_metric([], totals.get(name, 0))
            yield counter
        for name, (words, query) in GAUGES.items():
            yield GaugeMetricFamily(f"wmbus_{name}", words, value=database.execute(query).fetchone()[0])
        yield GaugeMetricFamily("wmbus_publications_oldest_seconds", "since the oldest message that the broker hasn't acknowledged waits",
                                value=oldest_publication(database, time.time()))
        yield GaugeMetricFamily("wmbus_session_age_seconds", "since the service last looked for lines",
                                value=time.monotonic() - self.service.session_made)
        yield GaugeMetricFamily("wmbus_trouble", "1 where sessions stand still, and the log says why",
                                value=float(bool(self.service.trouble)))


class Asked(WSGIRequestHandler):
    """What is asked over a connection; nothing of it is logged."""

    def handle(self) -> None:
        """Reads, and answers."""
        with suppress(OSError):
            super().handle()

    def log_message(self, format: str, *args: object) -> None:
        """Nothing."""


class Server(ThreadingMixIn, WSGIServer):
    """Answers several at once. A connection whose time is over is cut off, whatever comes over it, and the oldest one where too many are
    open: who asks for the metrics is done by then."""

    daemon_threads = True

    def __init__(self, address: tuple[str, int], handler: type[Asked]) -> None:
        self.held: deque[tuple[float, socket.socket]] = deque()
        super().__init__(address, handler)

    def process_request(self, request: Any, client_address: Any) -> None:
        """A connection, which a thread of its own answers."""
        self.held.append((time.monotonic(), request))
        if len(self.held) > MOST:
            self._cut_off()
        super().process_request(request, client_address)

    def service_actions(self) -> None:
        """Looks for those whose time is over, twice a second at least."""
        while self.held and self.held[0][0] < time.monotonic() - SILENCE:
            self._cut_off()

    def _cut_off(self) -> None:
        _, request = self.held.popleft()
        # (most have long been answered, and are closed)
        with suppress(OSError):
            request.shutdown(socket.SHUT_RDWR)


def family_of(told: Metrics) -> socket.AddressFamily:
    """The family of the address at which they are."""
    return socket.getaddrinfo(told.host, told.port, type=socket.SOCK_STREAM)[0][0]


def look_at_metrics(told: Metrics, is_served: bool) -> None:
    """An address at which they can't be served; where the service serves them its port is taken."""
    try:
        with socket.socket(family_of(told)) as tried:
            tried.setsockopt(socket.SOL_SOCKET, socket.SO_REUSEADDR, 1)
            if not is_served:
                tried.bind((told.host, told.port))
    except (OSError, OverflowError, UnicodeError) as fault:
        raise trouble_of(told, fault) from None


def trouble_of(told: Metrics, fault: Exception) -> Trouble:
    """Why they can't be served."""
    return Trouble(f"metrics {told.host}:{told.port}", f"they can't be served: {fault}", "name another host or port under [metrics]")


def under_own_names(told: Metrics, inner: Any) -> Any:
    """On this machine they are answered under its own names alone, so that no site whose name leads here reads them by a browser."""
    def answer(environ: dict[str, Any], begin: Any) -> Any:
        name = re.sub(r":\d+$", "", environ.get("HTTP_HOST", "")).lower()
        if is_local(told.host) and not is_local(name.removeprefix("[").removesuffix("]")):
            begin("400 Bad Request", [("Content-Type", "text/plain; charset=utf-8")])
            return [b"The metrics are served under the names of this machine alone: 127.0.0.1 and localhost.\n"]
        return inner(environ, begin)
    return answer


def serve_figures(told: Metrics, registry: CollectorRegistry) -> None:
    """Shows metrics at an address of any family."""
    class OfFamily(Server):
        """A server of that family."""
    OfFamily.address_family = family_of(told)
    server = make_server(told.host, told.port, under_own_names(told, make_wsgi_app(registry)), OfFamily, Asked)
    threading.Thread(target=server.serve_forever, name="metrics", daemon=True).start()


def serve(config: Config, told: Metrics, service: Service) -> None:
    """Shows the service's metrics."""
    registry = CollectorRegistry()
    registry.register(Figures(config, service))
    try:
        serve_figures(told, registry)
    except (OSError, OverflowError, UnicodeError) as fault:
        raise trouble_of(told, fault) from None
