"""RabbitMQ's users, over HTTP by its management plugin. A gateway has one of its own, which reads its own queue, and publishes under its
own name alone."""
from __future__ import annotations

import base64
import hashlib
import json
import re
import secrets
import time
import urllib.error
import urllib.request
from http.client import HTTPException
from typing import Any
from urllib.parse import quote, urlsplit

from wmbus_service.trouble import Trouble

from . import broker
from .config import Broker

PATIENCE = 20.0
# RabbitMQ's own words for a virtual host, and for salted SHA-256
HOST, HASHING = "%2F", "rabbit_password_hashing_sha256"
NONE = r"^\z"
# a gateway has one connection with three channels; those of before may be there for a moment, and a second machine of its name is told so
LIMITS = {"max-connections": 6, "max-channels": 24}


class Administration:
    """What RabbitMQ is told by who administers it."""

    def __init__(self, told: Broker) -> None:
        try:
            address = urlsplit(told.management)
        except ValueError:
            address = urlsplit("")
        if address.scheme not in ("http", "https") or not address.netloc:
            raise Trouble("broker.management", "users are made by RabbitMQ's management plugin, and its address isn't known",
                          "name it, as http://127.0.0.1:15672; `rabbitmq-plugins enable rabbitmq_management` has it work")
        self.told, self.base = told, told.management.rstrip("/")
        login = f"{told.user}:{broker.password_of(told)}".encode()
        self.head = {"Authorization": "Basic " + base64.b64encode(login).decode(), "Content-Type": "application/json"}
        context = broker.context_of(told) if address.scheme == "https" else None
        # (through no proxy, whatever the environment names: it would read the administrator's password)
        self.opener = urllib.request.build_opener(urllib.request.ProxyHandler({}), urllib.request.HTTPSHandler(context=context))

    def put_password(self, gateway: str, password: str) -> None:
        """Gives a gateway's user this password, of which RabbitMQ gets the hash; the user is made first where there is none."""
        self._ask("PUT", f"users/{quote(gateway)}", {"password_hash": hash_of(password, secrets.token_bytes(4)),
                                                     "hashing_algorithm": HASHING, "tags": ""})

    def knows(self, gateway: str) -> bool:
        """Whether a gateway's user is there."""
        return self._ask("GET", f"users/{quote(gateway)}", may_lack=True) is not None

    def put_rights(self, area: str, gateway: str) -> None:
        """Lets a gateway read its own queues, and publish under its own name in its area; nothing else, over few connections."""
        queue, held = (re.escape(it) for it in (broker.gateway_queue(gateway), broker.held_queue(gateway)))
        self._ask("PUT", f"permissions/{HOST}/{quote(gateway)}",
                  {"configure": NONE, "write": f"^{broker.EXCHANGE}\\z", "read": f"^({queue}|{held})\\z"})
        for what, most in LIMITS.items():
            self._ask("PUT", f"user-limits/{quote(gateway)}/{what}", {"value": most})
        # (at a $ a newline may stand behind the name)
        self._ask("PUT", f"topic-permissions/{HOST}/{quote(gateway)}",
                  {"exchange": broker.EXCHANGE, "write": f"^{re.escape(broker.up_key(area, gateway))}\\z", "read": NONE})

    def remove(self, gateway: str) -> None:
        """Takes a gateway's user away, and ends its connections."""
        self._ask("DELETE", f"users/{quote(gateway)}", may_lack=True)
        self.end_connections(gateway)

    def end_connections(self, gateway: str) -> None:
        """Ends all connections of a gateway's user, also one that comes to be known of meanwhile."""
        limit = time.monotonic() + PATIENCE
        while found := self._ask("GET", f"connections/username/{quote(gateway)}"):
            for it in found:
                self._ask("DELETE", f"connections/{quote(str(it['name']), safe='')}", may_lack=True)
            if time.monotonic() > limit:
                raise Trouble(f"gateway {gateway}", "RabbitMQ doesn't end its connections", "`rabbitmqctl list_connections name user` names them")
            time.sleep(0.1)

    def depths(self) -> dict[str, int]:
        """How many messages each queue has."""
        return {str(it["name"]): int(it.get("messages", 0)) for it in self._ask("GET", f"queues/{HOST}?columns=name,messages")}

    def _ask(self, method: str, path: str, told: Any = None, may_lack: bool = False) -> Any:
        """Asks the plugin; what it answers."""
        asked = urllib.request.Request(f"{self.base}/api/{path}", None if told is None else json.dumps(told).encode(), self.head,
                                       method=method)
        try:
            with self.opener.open(asked, timeout=PATIENCE) as answer:
                text = answer.read()
            return json.loads(text) if text else None
        except urllib.error.HTTPError as fault:
            if fault.code == 404 and may_lack:
                return None
            remedy = f"has {self.told.user} the tag `administrator`?" if fault.code in (401, 403) else ""
            raise Trouble(self.base, f"RabbitMQ refuses {method} {path}: {fault.code} {fault.reason}", remedy) from None
        except (OSError, HTTPException, ValueError) as fault:
            # (of UTF-8 and of JSON, too, as where something else is at the address)
            raise Trouble(self.base, f"RabbitMQ's management plugin can't be asked: {fault}",
                          "`rabbitmq-plugins enable rabbitmq_management` has it work") from None


def hash_of(password: str, salt: bytes) -> str:
    """A password's hash as RabbitMQ keeps it: the salt, and SHA-256 of salt and password."""
    return base64.b64encode(salt + hashlib.sha256(salt + password.encode()).digest()).decode()
