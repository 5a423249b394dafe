"""RabbitMQ: quorum queues, of which each message is acknowledged once most of their nodes have it on the disk."""
from __future__ import annotations

import logging
import random
import signal
import ssl
import threading
import time
from collections.abc import Callable, Iterator
from contextlib import contextmanager, suppress
from pathlib import Path
from types import FrameType
from typing import Any

import pika
import pika.exceptions
import pika.spec
from wmbus_service.trouble import Trouble

from .config import Broker

# (it tells of each step of each connection)
logging.getLogger("pika").setLevel(logging.CRITICAL)

EXCHANGE = "wmbus"
QUORUM = {"x-queue-type": "quorum", "x-single-active-consumer": True}
# (a quorum queue knows no consumer that has it for itself; nothing goes into this one)
HELD = {"x-queue-type": "classic", "x-max-length": 0}
# RabbitMQ's own words of a queue that another consumer has for itself
IN_USE = "in exclusive use"
# a fleet's mark, of which the last ones stay
MARKS, LOOKS = {"x-queue-type": "quorum", "x-max-length": 2}, 100
PERSISTENT = 2
PATIENCE = 20.0
ACCESS_REFUSED, NOT_FOUND = 403, 404
# an old question mustn't have a gateway send anything: a gap that is still there is asked for anew
ASKED_MILLISECONDS = 60_000
# no queue takes a message; the broker goes, or says nothing
NoQueue = pika.exceptions.UnroutableError
# (what a node does that has too little of either: it reads nothing more of a connection that publishes, also not that this one ends)
SHORT = "its memory or its disk is short (`rabbitmqctl status` on its machine says which)"
# (before nothing comes of what waits for its acknowledgement)
BLOCKED = PATIENCE / 2
FAULTS = (pika.exceptions.AMQPError, OSError)
# what ends a channel and leaves its connection
CHANNEL_FAULTS = (pika.exceptions.AMQPChannelError, pika.exceptions.ConsumerCancelled)


class NotTaken(pika.exceptions.AMQPError):  # type: ignore[misc]
    """The broker is there, and takes no message."""


class QueueRefuses(NotTaken):
    """A queue takes no message, as one that is at a limit; others may."""


class Properties(pika.spec.BasicProperties):  # type: ignore[misc]
    """What stands beside a message. What can't be read of it, and the broker passes on all the same, is a fault of this message and not of
    the connection, which would end with it again and again."""

    unread = ""

    def decode(self, encoded: bytes, offset: int = 0) -> Properties:
        """Reads it, as far as that goes."""
        try:
            super().decode(encoded, offset)
        except Exception as fault:
            # (moments without a year, tables in tables without end: whatever it is, none of it counts)
            self.__dict__.clear()
            self.__init__()  # type: ignore[misc]
            self.unread = type(fault).__name__
        return self


pika.spec.props[pika.spec.BasicProperties.INDEX] = Properties


@contextmanager
def connected(told: Broker) -> Iterator[Any]:
    """A connection to one of the broker's nodes, any that answers, which ends with the block."""
    nodes = told.nodes()
    if not nodes:
        raise Trouble("broker.host", "it names no node", "write the name by which this machine reaches the broker")
    try:
        with within(PATIENCE):
            connection = pika.BlockingConnection([_parameters(told, *node) for node in random.sample(nodes, len(nodes))])
    except UnicodeError:
        raise Trouble(f"broker.host {told.host}", "no broker can be at such a host") from None
    except pika.exceptions.AMQPConnectionError as fault:
        # (that of a connection which can't be made has no words of its own)
        raise fault if str(fault) else pika.exceptions.AMQPConnectionError(f"{told.host}, port {told.port}: {_reason(fault)}") from None
    try:
        yield connection
    finally:
        with suppress(*FAULTS), within(PATIENCE):
            connection.close()


def _reason(fault: Exception) -> str:
    """Why a connection can't be made, which stands in what pika has of it."""
    inner = fault.args[0] if fault.args else fault
    return str(getattr(inner, "exception", "")) or repr(inner)


def password_of(told: Broker) -> str:
    """The password of who connects."""
    if not told.password_file:
        return "guest"
    try:
        # (an editor of another system ends a line otherwise)
        return Path(told.password_file).read_text(encoding="utf-8").strip()
    except OSError as fault:
        raise Trouble(told.password_file, f"the broker's password can't be read: {fault.strerror}") from None
    except UnicodeDecodeError:
        raise Trouble(told.password_file, "the broker's password can't be read: it is no text in UTF-8") from None


def context_of(told: Broker) -> ssl.SSLContext:
    """Whose certificates count."""
    try:
        return ssl.create_default_context(cafile=told.authority or None)
    except OSError as fault:
        raise Trouble(told.authority, f"the authority's certificate can't be read: {fault.strerror}") from None


def _parameters(told: Broker, host: str, port: int) -> Any:
    context = context_of(told) if told.tls else None
    return pika.ConnectionParameters(
        host, port, credentials=pika.PlainCredentials(told.user, password_of(told)), heartbeat=10, socket_timeout=5,
        blocked_connection_timeout=BLOCKED, ssl_options=pika.SSLOptions(context, host) if context else None)


@contextmanager
def within(seconds: float) -> Iterator[None]:
    """What the broker says nothing to for so long ends; in the process's first thread. (In another one no signal comes: there the limits of
    the connection have to do.)"""
    if threading.current_thread() is not threading.main_thread():
        yield
        return

    def late(_number: int, _frame: FrameType | None) -> None:
        raise TimeoutError("the broker gives no answer")

    before = signal.signal(signal.SIGALRM, late)
    signal.setitimer(signal.ITIMER_REAL, seconds)
    try:
        yield
    finally:
        signal.setitimer(signal.ITIMER_REAL, 0)
        signal.signal(signal.SIGALRM, before)


def area_queue(area: str) -> str:
    """Where the messages of an area's gateways wait."""
    return f"area.{area}"


def gateway_queue(name: str) -> str:
    """Where what a gateway is told waits."""
    return f"gateway.{name}"


def held_queue(name: str) -> str:
    """An empty queue, to which the one connection of a gateway's name listens. (Gateways of an earlier release make one of their own, whose
    name is another.)"""
    return f"{gateway_queue(name)}.one"


def up_key(area: str, gateway: str) -> str:
    """What a gateway's messages are called."""
    return f"up.{area}.{gateway}"


def declare_area(channel: Any, area: str) -> None:
    """Makes an area's queue, of which one process gets the messages at a time, in their order."""
    with within(PATIENCE):
        channel.exchange_declare(EXCHANGE, exchange_type="topic", durable=True)
        channel.queue_declare(area_queue(area), durable=True, arguments=QUORUM)
        channel.queue_bind(area_queue(area), EXCHANGE, up_key(area, "*"))


def declare_gateway(channel: Any, name: str) -> int:
    """Makes a gateway's queues; how many listen to the first one already."""
    with within(PATIENCE):
        declared = channel.queue_declare(gateway_queue(name), durable=True, arguments=QUORUM)
        channel.queue_declare(held_queue(name), durable=True, arguments=HELD)
    return int(declared.method.consumer_count)


def find_gateway(connection: Any, name: str) -> int:
    """How many listen to a gateway's queue; where the fleet made none the gateway makes it, if it may."""
    channel = opened(connection)
    try:
        with within(PATIENCE):
            declared = channel.queue_declare(gateway_queue(name), passive=True)
    except pika.exceptions.ChannelClosedByBroker as fault:
        if fault.reply_code != NOT_FOUND:
            raise
        return declare_gateway(opened(connection), name)
    channel.close()
    return int(declared.method.consumer_count)


def hold_gateway(connection: Any, name: str) -> bool:
    """Keeps a gateway's name for a connection as long as that stands; whether no other one has it. (Of two that come in the same moment both
    may be told that nobody listens, and the broker takes both.)"""
    try:
        with within(PATIENCE):
            connection.channel().basic_consume(held_queue(name), lambda *_: None, exclusive=True)
    except pika.exceptions.ChannelClosedByBroker as fault:
        # (a fleet of an earlier release made none, and a user that it made has no right to it: it goes on without)
        return fault.reply_code == NOT_FOUND or IN_USE not in str(fault.reply_text)
    return True


def delete_gateway(channel: Any, name: str) -> None:
    """Takes a gateway's queue away, with what is in it."""
    with within(PATIENCE):
        channel.queue_delete(gateway_queue(name))
        channel.queue_delete(held_queue(name))


def depth(channel: Any, queue: str) -> int:
    """How many messages of a queue wait."""
    with within(PATIENCE):
        return int(channel.queue_declare(queue, passive=True).method.message_count)


def consume(channel: Any, queue: str, take: Callable[..., None], gone: Callable[[Any], None] | None = None) -> None:
    """Has each message of a queue be taken; that the queue goes is an error where nothing else is named for it, since of one that is made anew
    nothing would come."""
    def went(told: Any) -> None:
        raise pika.exceptions.ConsumerCancelled(f"the queue {told.method.consumer_tag} went")

    channel.add_on_cancel_callback(gone or went)
    with within(PATIENCE):
        channel.basic_consume(queue, take, consumer_tag=queue)


def _kept(lives: int | None) -> Any:
    """What stands beside a message. What lives for so many milliseconds tells when it was published."""
    return Properties(delivery_mode=PERSISTENT, expiration=None if lives is None else str(lives),
                      timestamp=None if lives is None else int(time.time()))


def publish(channel: Any, exchange: str, key: str, body: bytes, lives: int | None = None) -> None:
    """Publishes a message, and waits until its queue has it; one that no queue takes is an error."""
    try:
        with within(PATIENCE):
            channel.basic_publish(exchange, key, body, _kept(lives), mandatory=True)
    except pika.exceptions.ConnectionBlockedTimeout:
        raise NotTaken(f"the broker takes no messages, since {SHORT}") from None
    except pika.exceptions.NackError:
        raise QueueRefuses(f"the broker refused a message for {key}: its queue is at a limit, or too few of its nodes work") from None


def tell(channel: Any, queue: str, body: bytes, lives: int) -> None:
    """Publishes what may be lost, and waits for nothing."""
    with within(PATIENCE):
        channel.basic_publish("", queue, body, _kept(lives), mandatory=True)


def put_mark(channel: Any, queue: str, value: int) -> None:
    """Keeps a fleet's mark, which stands when this returns."""
    with within(PATIENCE):
        channel.queue_declare(queue, durable=True, arguments=MARKS)
        channel.basic_publish("", queue, str(value).encode(), _kept(None), mandatory=True)


def highest_mark(channel: Any, queue: str) -> int:
    """The highest mark of a fleet that the broker has; it stays there."""
    tags, values = [], [0]
    with within(PATIENCE):
        channel.queue_declare(queue, durable=True, arguments=MARKS)
        while (told := channel.basic_get(queue))[0]:
            tags.append(told[0].delivery_tag)
            values.append(int(told[2]))
        for tag in tags:
            channel.basic_nack(tag, requeue=True)
        # (who looks next finds them there)
        for _ in range(LOOKS):
            if not tags or channel.queue_declare(queue, passive=True).method.message_count:
                break
            time.sleep(0.02)
    return max(values)


def opened(connection: Any) -> Any:
    """A channel that acknowledges what is published."""
    with within(PATIENCE):
        channel = connection.channel()
        channel.confirm_delivery()
    return channel
