"""Gateways with users of their own: what is made for one in RabbitMQ, the files that go to it, and how it is taken away."""
from __future__ import annotations

import os
import secrets
import time
from collections.abc import Sequence
from contextlib import suppress
from pathlib import Path

from wmbus_service.trouble import Trouble

from . import broker, commands, fences, store
from .administration import Administration
from .config import Config
from .store import Database

SETTINGS, PASSWORD = "fleet.toml", "broker.password"
# a gateway that was taken away holds up no tick of a meter
NO_MORE = 1 << 62


def add_all(config: Config, database: Database, area: str, names: Sequence[str], folder: Path | None) -> int:
    """Makes gateways known, or moves them to another area, none of them where one can't be made; how many are new."""
    judged = {name: _judged(config, database, area, name, folder) for name in names}
    return sum(_add(config, database, area, name, folder, *told) for name, told in judged.items())


def add(config: Config, database: Database, area: str, name: str, folder: Path | None) -> bool:
    """Makes one known, or moves it; whether it is new."""
    return add_all(config, database, area, [name], folder) == 1


def _judged(config: Config, database: Database, area: str, name: str, folder: Path | None) -> tuple[Administration | None, bool]:
    """Whether a gateway may be made: who makes its user, where users are made, and whether it is known."""
    is_known = database.execute("select 1 from gateway where name = %s and gone is null", (name,)).fetchone() is not None
    commands.judge_gateway(database, area, name)
    asked = administration_for(config, name)
    if folder is None and asked and not (is_known and asked.knows(name)):
        raise Trouble(f"gateway {name}", "its password has to go somewhere", "name a folder: --files FOLDER")
    if folder is not None and asked is None:
        # (says what lacks)
        Administration(config.broker)
    if folder is not None:
        above = next(it for it in (folder, *folder.absolute().parents) if it.exists())
        if not above.is_dir() or not os.access(above, os.W_OK | os.X_OK):
            raise Trouble(folder, f"the gateways' files can't be written: {above} is no folder that may be written into")
    return asked, is_known


def _add(config: Config, database: Database, area: str, name: str, folder: Path | None, asked: Administration | None,
         is_known: bool) -> bool:
    """Makes a gateway known, or moves it; whether it is new. Where users are made, a new one gets a user with a password, which a folder for
    it gets with its configuration, and a known one gets a new password where a folder is named."""
    is_new = commands.add_gateway(config, database, area, name)
    database.execute("update gateway set gone = null, until = least(until, extract(epoch from now())::bigint) where name = %s", (name,))
    if asked:
        if folder is not None:
            asked.put_password(name, put_files(config, folder, area, name))
        asked.put_rights(area, name)
        if folder is not None and not is_new:
            # (who has the password of before is connected perhaps, and isn't asked for it again)
            asked.end_connections(name)
            with store.transaction(database):
                fences.put_in_place(database, name, time.time())
    return is_new or not is_known


def administration_for(config: Config, name: str) -> Administration | None:
    """Who makes and takes away a gateway's user, where users are made; never the fleet's own one."""
    if not config.broker.management:
        return None
    if name == config.broker.user:
        raise Trouble(f"gateway {name}", "the fleet's own user of RabbitMQ is called so, and would lose its rights", "choose another name")
    return Administration(config.broker)


def put_files(config: Config, folder: Path, area: str, name: str) -> str:
    """Writes what goes to the gateway's /etc/wmbus, its owner's alone; the password."""
    password = secrets.token_urlsafe(24)
    told = config.broker.from_outside()
    settings = f"""# the gateway {name} (docs/FLEET.md); beside it stands config.toml with its receiver
[broker]
# {"the broker as this machine reaches it" if told.host else "write the name by which this machine reaches the broker"}
host = "{told.host}"
port = {told.port}
user = "{name}"
password_file = "/etc/wmbus/{PASSWORD}"
tls = {"true" if told.tls else "false"}
{f'authority = "{told.authority}"' if told.authority else '# authority = "/etc/wmbus/authority.pem"'}

[gateway]
name = "{name}"
area = "{area}"
receiver = "radio"
"""
    place = folder / name
    try:
        place.mkdir(mode=0o700, parents=True, exist_ok=True)
        for file, text in ((SETTINGS, settings), (PASSWORD, f"{password}\n")):
            _write(place / file, text)
    except OSError as fault:
        raise Trouble(place, f"the gateway's files can't be written: {fault.strerror}") from None
    return password


def _write(path: Path, text: str) -> None:
    """A file of its owner's alone, in the place of one that was there."""
    with suppress(FileNotFoundError):
        path.unlink()
    with os.fdopen(os.open(path, os.O_WRONLY | os.O_CREAT | os.O_EXCL, 0o600), "w", encoding="utf-8") as file:
        file.write(text)


def remove_all(config: Config, database: Database, names: Sequence[str]) -> None:
    """Takes gateways away, none of them where one can't be."""
    judged = {}
    for name in names:
        if not database.execute("select 1 from gateway where name = %s", (name,)).fetchone():
            raise Trouble(f"gateway {name}", "there is no such gateway", "`wmbus-fleet status --gateways` names all")
        judged[name] = administration_for(config, name)
    for name, asked in judged.items():
        _remove(config, database, name, asked)


def remove(config: Config, database: Database, name: str) -> None:
    """Takes one away."""
    remove_all(config, database, [name])


def _remove(config: Config, database: Database, name: str, asked: Administration | None) -> None:
    """Takes a gateway away: its user, its connections, its queue. What it sent stays, and so does its fence: where it comes back, nothing
    of it is taken twice."""
    if asked:
        asked.remove(name)
    with store.transaction(database):
        database.execute("update gateway set gone = now(), until = %s where name = %s", (NO_MORE, name))
        database.execute("update outbox set missed = 'its gateway was taken away' where gateway = %s and sent is null and missed is null",
                         (name,))
    with broker.connected(config.broker) as connection:
        broker.delete_gateway(broker.opened(connection), name)
