"""The fleet's metrics in Prometheus' text format, over HTTP on this machine: figures that are taken every few seconds, however many ask."""
from __future__ import annotations

import logging
import time
from collections.abc import Iterator
from contextlib import closing
from dataclasses import dataclass, field
from typing import Any

import psycopg
from pika.exceptions import ChannelClosedByBroker
from prometheus_client import CollectorRegistry
from prometheus_client.core import CounterMetricFamily, GaugeMetricFamily, Metric
from prometheus_client.registry import Collector
from wmbus_service.ending import Ending
from wmbus_service.metrics import COUNTERS as OF_SESSIONS
from wmbus_service.metrics import serve_figures
from wmbus_service.trouble import Trouble

from . import broker, store, sums
from .config import Config, Metrics
from .status import AGES, AHEAD
from .view import looking
from .view.door import FleetDoor

log = logging.getLogger("wmbus")

INTERVAL = 15.0
PREFIX = "wmbus_fleet_"
# totals of all workers, over all starts
COUNTERS = {name: words for name, words in OF_SESSIONS.items() if name != "lines"} | {
    "lines": "lines of gateways that were taken", "heard": "lines of gateways that a session heard",
    "messages": "messages of gateways that came", "take": "messages that were taken", "again": "messages that had come before",
    "ask": "messages behind a gap", "asked": "questions to gateways", "unknown": "messages of gateways that aren't known",
    "left": "messages that were left, since their gateways sent more than their part while others waited",
    "ended": "runs of the sessions' program that were ended from outside, or had no memory",
}
GAUGES = {
    "lag_seconds": "how long ago the oldest line that waits for a session was heard, by its receiver's clock",
    "inbox_lines": "lines that wait for a session", "meters": "meters that are known",
    "meters_retired": "meters that are out of service",
    "meters_silent": "meters in service without a reading for two days",
    "meters_set_back": "meters in service that are heard, and whose counter is below the last stored one",
    "meters_unheard": "meters in service that never had a reading", "downlinks_waiting": "downlinks that the broker hasn't got yet",
    "downlinks_waiting_seconds": "how long ago the oldest of these was made", "commands_open": "commands that aren't done",
    "commands_open_seconds": "how long ago the oldest of these was put", "downlinks_missed": "downlinks that weren't sent in time",
    "aside_lines": "lines at which the program failed", "gaps": "epochs of gateways that ended with a gap",
    "ticks_late": "ticks that were due a minute ago or earlier and don't wait for a gateway that is cut off",
    "gateways_clock_seconds": "how far most gateways' clocks are ahead of the database server's",
    "broker_up": "1 where the broker answers",
}
LABELLED = {
    "gateways": ("gateways that are known", "area"), "gateways_silent": ("gateways that weren't heard for ten minutes", "area"),
    "area_meters": ("meters in service, by the gateway that heard them last", "area"),
    "area_refusals": ("refused lines, but for repeats", "area"),
    "queue_messages": ("messages of an area that wait for an intake", "area"), "workers": ("processes that are connected", "part"),
    "gateway_lines_per_second": ("lines a second of a gateway, as in the last minute", "gateway"),
    "gateway_strangers": ("lines of a gateway that were counted and not kept, since it heard too many of meters that aren't known", "gateway"),
    "commands": ("commands", "state"), "table_bytes": ("size of a table with its indexes", "table"),
}
TABLES = ("meter", "line", "reading", "outbox", "command", "refusal")
QUERIES = {
    "downlinks_missed": "select count(*) from outbox where missed is not null", "aside_lines": "select count(*) from aside",
    "gaps": "select count(*) from missing",
    "gateways_clock_seconds": AHEAD, "downlinks_waiting_seconds": AGES["downlinks"], "commands_open_seconds": AGES["commands"],
}
NAMES = {"lag_seconds": "lag", "inbox_lines": "inbox", "meters": "meters", "meters_silent": "silent_meters",
         "meters_retired": "retired", "meters_set_back": "set_back", "meters_unheard": "unheard_meters", "downlinks_waiting": "downlinks_waiting",
         "commands_open": "commands"}


@dataclass
class Taken:
    """The figures of a moment."""

    counters: dict[str, float] = field(default_factory=dict)
    gauges: dict[str, float] = field(default_factory=dict)
    labelled: dict[str, dict[str, float]] = field(default_factory=dict)
    moment: float = 0.0
    # what couldn't be had, and why
    troubles: list[str] = field(default_factory=list)


def take(config: Config) -> Taken:
    """All figures as they are."""
    taken = Taken(moment=time.time())
    with closing(FleetDoor(config).opened()) as database:
        told = looking.counts(database, taken.moment)
        taken.counters = {name: float(told.get(name, 0)) for name in COUNTERS}
        taken.gauges = {name: float(told[key]) for name, key in NAMES.items()}
        taken.gauges |= {name: float(database.execute(query).fetchall()[0][0]) for name, query in QUERIES.items()}
        taken.gauges["ticks_late"] = float(sums.of(database, "late", taken.moment)[0]["count"])
        areas = looking.areas(database, taken.moment)
        for name, key in (("gateways", "gateways"), ("gateways_silent", "silent_gateways"), ("area_meters", "meters"),
                          ("area_refusals", "refused")):
            taken.labelled[name] = {row["name"]: float(row[key]) for row in areas}
        rows = database.execute("select name, rate, strangers from gateway where not gone").fetchall()
        taken.labelled["gateway_lines_per_second"] = _floats((name, rate) for name, rate, _ in rows)
        taken.labelled["gateway_strangers"] = _floats((name, count) for name, _, count in rows)
        taken.labelled["workers"] = {part: float(count) for part, count in looking.workers(database).items()}
        taken.labelled["commands"] = _floats(database.execute("select state, count(*) from command group by state").fetchall())
        taken.labelled["table_bytes"] = _floats(
            (name, database.execute("select pg_total_relation_size(?::text::regclass)", (f"public.{name}",)).fetchall()[0][0])
            for name in TABLES)
    _take_queues(config, taken, [row["name"] for row in areas])
    return taken


def _floats(rows: Any) -> dict[str, float]:
    return {str(name): float(value) for name, value in rows}


def _take_queues(config: Config, taken: Taken, areas: list[str]) -> None:
    """How many messages wait with the broker."""
    try:
        with broker.connected(config.broker) as connection:
            taken.labelled["queue_messages"] = dict(_depths(connection, areas, taken.troubles))
        taken.gauges["broker_up"] = 1.0
    except (Trouble, *broker.FAULTS) as fault:
        taken.troubles.append(f"the broker: {store.told_of(fault)}")
        taken.gauges["broker_up"] = 0.0


def _depths(connection: Any, areas: list[str], troubles: list[str]) -> Iterator[tuple[str, float]]:
    """How many messages wait for an intake of each area; of one without a queue that is said."""
    channel = broker.opened(connection)
    for area in areas:
        try:
            yield area, float(broker.depth(channel, broker.area_queue(area)))
        except ChannelClosedByBroker as fault:
            troubles.append(f"the broker: {fault}")
            channel = broker.opened(connection)


class Figures(Collector):
    """What was taken last."""

    def __init__(self) -> None:
        # (none yet)
        self.taken = Taken(moment=time.time())

    def collect(self) -> Iterator[Metric]:
        """All metrics."""
        taken = self.taken
        yield GaugeMetricFamily(f"{PREFIX}figures_age_seconds", "how old these figures are", value=time.time() - taken.moment)
        # (before any are taken there are none: after a nought each of these would seem to have risen from there in a moment)
        for name, number in taken.counters.items():
            counter = CounterMetricFamily(f"{PREFIX}{name}", f"{COUNTERS[name]}, over all starts")
            counter.add_metric([], number)
            yield counter
        for name, words in GAUGES.items():
            if name in taken.gauges:
                yield GaugeMetricFamily(f"{PREFIX}{name}", words, value=taken.gauges[name])
        for name, (words, label) in LABELLED.items():
            gauge = GaugeMetricFamily(f"{PREFIX}{name}", words, labels=[label])
            for value, number in taken.labelled.get(name, {}).items():
                gauge.add_metric([value], number)
            yield gauge


def run(config: Config, ending: Ending) -> None:
    """Serves the metrics until the process is told to end."""
    told = config.metrics or Metrics()
    figures, registry = Figures(), CollectorRegistry()
    registry.register(figures)
    try:
        serve_figures(told, registry)
    except (OSError, OverflowError, UnicodeError) as fault:
        raise Trouble(f"metrics.host {told.host} and metrics.port {told.port}", f"the metrics can't be served: {fault}",
                      "name another host or port, or end what uses this one") from None
    told_before: list[str] = []
    while True:
        try:
            figures.taken = take(config)
            troubles = figures.taken.troubles
        except (psycopg.Error, Trouble) as fault:
            troubles = [store.told_of(fault)]
        for trouble in troubles:
            if trouble not in told_before:
                log.error("the metrics: %s", trouble)
        told_before = troubles
        if ending.wait(INTERVAL):
            return
