"""`wmbus-fleet`: the collector for many gateways and meters, on RabbitMQ and PostgreSQL."""
from __future__ import annotations

import argparse
import getpass
import logging
import os
import secrets
import signal
import socket
import sys
import time
from collections.abc import Callable
from pathlib import Path

import psycopg
from wmbus_service.config import read_config as read_service
from wmbus_service.ending import Ending
from wmbus_service.memory_files import leave_no_core
from wmbus_service.meters import MODES
from wmbus_service.page.shared import counted
from wmbus_service.printing import leave_unread, parsed
from wmbus_service.tool_modules import ShowVersion
from wmbus_service.trouble import Trouble

from . import allowing, backup, broker, commands, downlinks, gateway, gateways, intake, retiring, sessions, store
from .config import Config, read_config
from .status import command_words, gateway_words, status

DONE, TROUBLE = 0, 1
STATUSES = "exit status: 0 all is done, 1 something is wrong and was named, 2 faulty words"
MARGIN = 1000
Command = Callable[[str, Callable[[Config, argparse.Namespace], None], str], argparse.ArgumentParser]


def main(given: list[str]) -> int:
    """Does what is asked for; the exit status."""
    logging.basicConfig(level=logging.INFO, format="%(levelname)s %(message)s", stream=sys.stderr)
    os.umask(0o077)
    try:
        asked = parsed(words(), given)
        # (under which PostgreSQL shows who works)
        os.environ.setdefault("PGAPPNAME", f"wmbus {asked.word}")
        asked.work(read_config(asked.config) if asked.is_configured else Config(), asked)
        if sys.stdout:
            # (who started it may have closed it)
            sys.stdout.flush()
        return DONE
    except Trouble as trouble:
        said = str(trouble)
    except psycopg.Error as fault:
        said = f"the database: {store.told_of(fault)}"
    except UnicodeError:
        # (without what was given, in which a key may stand)
        said = "what was given is no text in UTF-8"
    except BrokenPipeError:
        leave_unread()
        return TROUBLE
    except broker.FAULTS as fault:
        said = f"{type(fault).__name__}: {fault}"
    except KeyboardInterrupt:
        said = "it was interrupted"
    print(f"wmbus-fleet: {said}", file=sys.stderr)
    return TROUBLE


def words() -> argparse.ArgumentParser:
    """The words behind the program's name."""
    parser = argparse.ArgumentParser(prog="wmbus-fleet", description=__doc__, epilog=STATUSES)
    parser.add_argument("--config", metavar="FILE", type=Path, default=Path(os.environ.get("WMBUS_FLEET_CONFIG", "/etc/wmbus/fleet.toml")),
                        help="the configuration, /etc/wmbus/fleet.toml where none is named")
    parser.add_argument("--version", action=ShowVersion)
    kinds = parser.add_subparsers(metavar="COMMAND", required=True)

    def command(name: str, work: Callable[[Config, argparse.Namespace], None], told: str) -> argparse.ArgumentParser:
        made = kinds.add_parser(name, help=told, description=told, epilog=STATUSES)
        made.set_defaults(work=work, word=name, is_configured=name != "demo")
        return made

    _running_words(command)
    _showing_words(command)
    _making_words(command)
    _operating_words(command)
    return parser


def _running_words(command: Command) -> None:
    """The words of what runs without end."""
    command("gateway", lambda config, _: _run_gateway(config), "sends this machine's lines, and the downlinks that it is given")
    made = command("intake", lambda config, asked: intake.run(config, asked.areas, asked.name, _ending()), "takes in gateways' messages")
    made.add_argument("areas", metavar="AREA", nargs="*", help="of these areas alone")
    made.add_argument("--name", default=socket.gethostname(), help="under which it counts, the machine's where none is given")
    command("sessions", lambda config, _: sessions.run(config, _ending()), "has the program hear what was taken in")
    command("downlinks", lambda config, _: downlinks.run(config, _ending()), "sends downlinks to gateways")


def _showing_words(command: Command) -> None:
    """The words of what is looked at."""
    command("page", lambda config, _: _run_page(config), "serves the page over the fleet's database")
    command("metrics", lambda config, _: _run_metrics(config), "serves the metrics of the fleet")
    made = command("demo", lambda _, asked: _demo(asked), "has a fleet on this machine hear made meters, and serves its page;"
                                                          " all goes when it ends")
    made.add_argument("--meters", metavar="N", type=int, default=1000, help="how many meters send, 1000")
    made.add_argument("--seconds", metavar="N", type=float, default=30.0, help="how often each of them sends, 30")
    made.add_argument("--port", metavar="N", type=int, default=9103, help="of the page, 9103; 0 is any")
    made.add_argument("--text", action="store_true", help="says what was read in place of a page, and ends")
    made = command("status", _status, "says what was heard and what somebody should look at")
    made.add_argument("--json", action="store_true", help="as data")
    made.add_argument("--gateways", action="store_true", help="names each gateway, and when it was heard")
    made = command("commands", _commands, "says what became of the last commands, of a meter or of all")
    made.add_argument("address", metavar="METER", nargs="?")


def _making_words(command: Command) -> None:
    """The words that make a fleet."""
    command("init", lambda config, _: store.init(config.database), "makes the tables in an empty database, or this release's of an earlier"
                                                                   " one's")
    made = command("area", _area, "makes an area, whose gateways' messages are one queue")
    made.add_argument("name", metavar="AREA")
    made = command("gateways", _gateways, "makes gateways of an area known, or moves them to it; where broker.management is set each gets a"
                                          " user of RabbitMQ's that has its own queue and its own name alone")
    made.add_argument("area", metavar="AREA")
    made.add_argument("names", metavar="GATEWAY", nargs="+")
    made.add_argument("--files", metavar="FOLDER", type=Path, help="gets FOLDER/GATEWAY with what goes to the gateway's /etc/wmbus, its new"
                                                                   " password too")
    made = command("remove", _remove, "takes gateways away, with their users and queues; what they sent stays")
    made.add_argument("names", metavar="GATEWAY", nargs="+")
    made = command("commission", _commission, "adds a roster's new meters")
    made.add_argument("roster", metavar="ROSTER", help="a file that its owner alone may read, or - for the standard input")
    made.add_argument("--names", metavar="FILE", type=Path, help="names of meters, in each line an address, a space and a name")


def _operating_words(command: Command) -> None:
    """The words of those who run the fleet."""
    made = command("command", _command, "has a command sent to a meter once it listens, or cancels one")
    made.add_argument("address", metavar="METER", nargs="?")
    made.add_argument("payload", metavar="HEX", nargs="?", help="what the meter gets, 1 to 94 bytes")
    made.add_argument("--id", help="your own id of the command; under one id a command is taken once")
    made.add_argument("--cancel", metavar="ID", help="has this command not be sent any more")
    made = command("correct", _correct, "gives a meter another key in the place of its own, which was wrong; it is asked for as with `rekey`")
    made.add_argument("address", metavar="METER")
    made.add_argument("--mode", choices=MODES, help="its security mode too, where that was wrong")
    made.add_argument("--anew", action="store_true", help="it counts anew, as where its electronics were exchanged: forgets its last number;"
                                                          " takes no key that it had")
    made = command("rekey", _rekey, "gives a meter of mode 7 its new second key, which is asked for, or read from the standard input")
    made.add_argument("address", metavar="METER")
    made = command("retire", _retire, "says that meters are out of service: nothing of them is missed any more; readings, counters and keys"
                                      " stay")
    made.add_argument("meters", metavar="METER", nargs="+", help="an address; - in its place reads addresses, one a line, from the standard"
                                                                 " input")
    made.add_argument("--back", action="store_true", help="puts them back into service")
    made = command("backup", _backup, "copies the database, also while the fleet works")
    made.add_argument("file", metavar="FILE", type=Path)
    made = command("restore", _restore, "puts a copy into an empty database, before any part of the fleet is started")
    made.add_argument("file", metavar="FILE", type=Path)
    made.add_argument("--margin", metavar="N", type=int, default=MARGIN,
                      help=f"raises downlink counters so far, at least by what was sent to a meter since the copy ({MARGIN})")


    made = command("set-back", _set_back, "says that the database was set back, as by a snapshot, a recovery or a standby: raises all downlink"
                                          " counters, and cancels what was open; no part works meanwhile")
    made.add_argument("--margin", metavar="N", type=int, default=MARGIN,
                      help=f"raises downlink counters so far, at least by what was sent to a meter since that moment ({MARGIN})")
    made = command("allow", _allow, "lets a role of PostgreSQL's, which has no key by that, be the page's or an intake's")
    made.add_argument("kind", choices=sorted(allowing.KINDS), help="what it is for")
    made.add_argument("role", metavar="ROLE")


def _ending() -> Ending:
    """What SIGTERM and SIGINT set. No core file with keys is left."""
    leave_no_core()
    ending = Ending()
    ending.heed_signals()
    return ending


def _run_gateway(config: Config) -> None:
    if config.gateway is None:
        raise Trouble("the configuration", "it has no [gateway]", "docs/FLEET.md names each setting")
    gateway.run(config, config.gateway, read_service(Path(config.gateway.service)), _ending())


def _area(config: Config, asked: argparse.Namespace) -> None:
    with store.connect(config.database) as database:
        commands.add_area(config, database, asked.name)


def _gateways(config: Config, asked: argparse.Namespace) -> None:
    with store.connect(config.database) as database:
        count = gateways.add_all(config, database, asked.area, asked.names, asked.files)
    print(f"{count} new gateways")
    if asked.files and not config.broker.from_outside().host:
        print(f"their {gateways.SETTINGS} lack broker.host: write the broker's name there, or name it once as host under [broker.outside] in"
              f" {asked.config}, and say this again")


def _remove(config: Config, asked: argparse.Namespace) -> None:
    with store.connect(config.database) as database:
        gateways.remove_all(config, database, asked.names)


def _commission(config: Config, asked: argparse.Namespace) -> None:
    with store.connect(config.database) as database:
        if asked.roster == "-":
            # (as a file is read)
            count, back = commands.take_roster(config, database, sys.stdin.buffer.read().decode("latin-1"), "the standard input")
        else:
            count, back = commands.commission(config, database, Path(asked.roster))
        print(f"{count} new meters")
        if back:
            print(f"{_were(back)} put back into service")
        if asked.names:
            print(f"{commands.put_names(database, asked.names)} names")


def _commands(config: Config, asked: argparse.Namespace) -> None:
    with store.connect(config.database) as database:
        if asked.address:
            commands.block_of(database, asked.address.lower(), f"meter {asked.address}")
        for line in command_words(database, asked.address):
            print(line)


def _run_page(config: Config) -> None:
    try:
        from .view import serving
    except ImportError as fault:
        raise Trouble("the page", f"it can't be served: {fault}", "apt-get install python3-flask python3-waitress") from None
    serving.run(config)


def _run_metrics(config: Config) -> None:
    try:
        from . import metrics
    except ImportError as fault:
        raise Trouble("the metrics", f"they can't be served: {fault}", "apt-get install python3-prometheus-client") from None
    metrics.run(config, _ending())


def _demo(asked: argparse.Namespace) -> None:
    try:
        from . import demo
    except ImportError as fault:
        raise Trouble("the demo", f"it can't run: {fault}", "apt-get install python3-flask python3-waitress") from None
    demo.run(asked.meters, asked.seconds, None if asked.text else asked.port, _ending(), lambda words: print(words, flush=True))


def _command(config: Config, asked: argparse.Namespace) -> None:
    now = time.time()
    with store.connect(config.database) as database:
        if asked.cancel and not (asked.address or asked.id):
            print(f"{asked.cancel}: {commands.cancel_command(database, asked.cancel, now)}")
        elif asked.address and asked.payload and not asked.cancel:
            ident = asked.id or secrets.token_hex(8)
            is_new = commands.put_command(database, ident, asked.address, asked.payload, now)
            print(ident if is_new else f"{ident}: it was taken before")
        else:
            raise Trouble("command", "give METER and HEX, or --cancel ID alone")


def _key() -> str:
    """A key, which no list of processes shows."""
    try:
        key = getpass.getpass("new key: ") if sys.stdin.isatty() else sys.stdin.readline()
    except EOFError:
        raise Trouble("the new key", "none was given") from None
    # (delivery notes have blanks in it)
    return key.strip().replace(" ", "")


def _correct(config: Config, asked: argparse.Namespace) -> None:
    address = asked.address.lower()
    with store.connect(config.database) as database:
        commands.block_of(database, address, f"meter {asked.address}")
        commands.correct_key(config, database, address, _key(), asked.mode, asked.anew)
    print(f"meter {address} has another key" + (f", in mode {asked.mode}" if asked.mode else "") + (", and counts anew" if asked.anew else ""))


def _rekey(config: Config, asked: argparse.Namespace) -> None:
    with store.connect(config.database) as database:
        ident = secrets.token_hex(8)
        commands.put_key(database, ident, asked.address, _key(), time.time())
        print(ident)


def _retire(config: Config, asked: argparse.Namespace) -> None:
    if asked.meters == ["-"]:
        # (some editors put a sign in front of the first line)
        given = retiring.lines_in(sys.stdin.buffer.read().decode("utf-8-sig", "replace"))
    else:
        given = {address.lower(): f"meter {address}" for address in asked.meters}
    with store.connect(config.database) as database:
        changed, waiting = retiring.retire(database, given, None if asked.back else time.time())
    before = len(given) - changed
    print(f"{_were(changed)} {'put back into' if asked.back else 'taken out of'} service"
          + (f", {before} {'was' if before == 1 else 'were'} so before" if before else ""))
    if waiting and not asked.back:
        print(f"{counted(waiting, 'of them still has', 'of them still have')} commands that wait: `wmbus-fleet commands METER` names them")


def _were(count: int) -> str:
    return str(counted(count, "meter was", "meters were"))


def _status(config: Config, asked: argparse.Namespace) -> None:
    with store.connect(config.database) as database:
        if asked.gateways:
            print("\n".join(gateway_words(database)))
        else:
            print(status(database, asked.json))


def _backup(config: Config, asked: argparse.Namespace) -> None:
    # (who ends it so, as a timer whose time is over, finds no part of a copy either)
    signal.signal(signal.SIGTERM, signal.default_int_handler)
    backup.back_up(config, asked.file)


def _set_back(config: Config, asked: argparse.Namespace) -> None:
    print(f"set back, with {backup.set_back(config, asked.margin)} meters")


def _allow(config: Config, asked: argparse.Namespace) -> None:
    with store.connect(config.database) as database:
        allowing.allow(database, asked.kind, asked.role)


def _restore(config: Config, asked: argparse.Namespace) -> None:
    print(f"restored, with {backup.restore(config, asked.file, asked.margin)} meters")
