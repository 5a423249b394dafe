"""Roles of PostgreSQL's for parts that need no key: the page and the metrics read views, and an intake writes what gateways say."""
from __future__ import annotations

import psycopg
from psycopg import sql
from wmbus_service.trouble import Trouble

from . import store
from .store import Database

KINDS = {
    "page": ("grant usage on schema page to {role}", "grant select on all tables in schema page to {role}"),
    "intake": (
        "grant usage on schema page to {role}", "grant select on page.release to {role}", "grant select on area to {role}",
        "grant select, update (epoch, number, until, asked, seen, digests, lines, rate, strangers) on gateway to {role}",
        "grant insert on inbox to {role}", "grant usage on sequence inbox_id to {role}", "grant select (address) on meter to {role}",
        "grant select, insert, update on oddity, total to {role}", "grant insert on missing to {role}",
        "grant select, insert, update, delete on ended, digest to {role}"),
}
SETTING = "allowed"


def allow(database: Database, kind: str, role: str) -> None:
    """Lets a role do what a part has to; nothing else of the fleet is open to it by that."""
    if not store.one(database, "select exists (select 1 from pg_roles where rolname = %s)", (role,)):
        raise Trouble(f"role {role}", "PostgreSQL has no such role", f"`createuser {role}` makes it")
    with store.transaction(database):
        _grant(database, kind, role)
        store.set_setting(database, f"{SETTING} {kind} {role}", "")


def allow_again(database: Database) -> None:
    """Within a transaction: behind a change of the tables those who were allowed something still are."""
    for (name,) in database.execute("select name from setting where name like %s", (f"{SETTING} %",)).fetchall():
        _, kind, role = name.split(" ", 2)
        if store.one(database, "select exists (select 1 from pg_roles where rolname = %s)", (role,)):
            _grant(database, kind, role)


def _grant(database: psycopg.Connection[tuple[object, ...]], kind: str, role: str) -> None:
    for words in KINDS[kind]:
        database.execute(sql.SQL(words).format(role=sql.Identifier(role)))
