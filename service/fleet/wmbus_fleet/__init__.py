"""The fleet: a million meters on RabbitMQ and PostgreSQL (docs/FLEET.md)."""
from __future__ import annotations
