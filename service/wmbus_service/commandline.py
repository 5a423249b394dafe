"""`wmbus-service`: the collector as a service on one machine."""
from __future__ import annotations

import argparse
import getpass
import logging
import os
import pwd
import re
import secrets
import sqlite3
import sys
import time
from collections.abc import Callable, Iterable, Iterator
from contextlib import closing, contextmanager
from pathlib import Path

from . import backup, begun, checking, demo, exporting, importing, key_lists, meters, service, store
from .commands import cancel_command, joined, put_command, put_key, waiting_commands, waiting_words
from .config import Config, Page, Programs, read_config, words_of
from .printing import leave_unread, open_streams, parsed
from .publications import Publications
from .receiving import Receiving
from .status import status
from .steps import MOST_METERS
from .tool_modules import ShowVersion
from .trouble import Trouble

DONE, TROUBLE = 0, 1
STATUSES = "exit status: 0 all is done or right, 1 something is wrong and was named, 2 faulty words"
MARGIN = 1000
MOST_COUNT = 65_535


def main(given: list[str]) -> int:
    """Does what is asked for; the exit status."""
    open_streams()
    is_root = not os.geteuid()
    logging.basicConfig(level=logging.INFO, format="%(levelname)s %(message)s", stream=sys.stderr)
    try:
        asked = parsed(words(), given)
        done: int = asked.work(asked)
        sys.stdout.flush()
        return done
    except Trouble as trouble:
        said = str(trouble)
    except sqlite3.Error as fault:
        said = str(store.trouble_of(asked.command, fault, "nothing was done"))
    except ImportError as fault:
        said = f"{fault}; docs/SERVICE.md names the packages of Debian that it wants"
    except BrokenPipeError:
        leave_unread()
        return TROUBLE
    except OSError as fault:
        said = str(fault)
        if isinstance(fault, PermissionError) and is_root and os.geteuid():
            said += f"; this was done as {pwd.getpwuid(os.geteuid()).pw_name}, to whom the service's folder belongs"
    except EOFError:
        said = "nothing was entered, and nothing was done"
    except KeyboardInterrupt:
        said = "it was interrupted"
    print(f"wmbus-service: {said}", file=sys.stderr)
    return TROUBLE


def words() -> argparse.ArgumentParser:
    """The words behind the program's name."""
    parser = argparse.ArgumentParser(prog="wmbus-service", description=__doc__, epilog=STATUSES)
    parser.add_argument("--config", metavar="FILE", type=Path, default=Path(os.environ.get("WMBUS_CONFIG", "/etc/wmbus/config.toml")),
                        help="the configuration, /etc/wmbus/config.toml where none is named")
    parser.add_argument("--version", action=ShowVersion)
    kinds = parser.add_subparsers(metavar="COMMAND", required=True)

    def command(name: str, work: Callable[[argparse.Namespace], int], told: str) -> argparse.ArgumentParser:
        made = kinds.add_parser(name, help=told, description=told, epilog=STATUSES)
        made.set_defaults(work=work, command=name)
        return made

    command("run", _run, "runs the service until it gets SIGTERM or SIGINT")
    command("receive", _receive, "feeds the spool from a receiver").add_argument("name", metavar="NAME",
                                                                                 help="the receiver's name in the configuration")
    command("page", _page, "serves the page that people look at, until it gets SIGTERM or SIGINT").add_argument(
        "--door", metavar="SOCKET", type=Path, help="by a user who can't read the database: `door` answers it at this socket")
    command("door", _door, "answers a page of another user, until it gets SIGTERM or SIGINT").add_argument(
        "socket", metavar="SOCKET", type=Path, help="where: those of its folder's group may ask")
    command("check", _check, "looks at configuration, rights, programs, meters, receivers, broker, metrics and page, and says what is wrong")
    made = command("status", _status, "says what was heard and what somebody should look at")
    made.add_argument("--json", action="store_true", help="as data")
    _meter_words(command)
    _command_words(command)
    _data_words(command)
    _demo_words(command)
    return parser


Command = Callable[[str, Callable[[argparse.Namespace], int], str], argparse.ArgumentParser]


def _meter_words(command: Command) -> None:
    """The words of what changes the meters."""
    made = command("add", _add,
                   "adds a meter; its key is asked for, or read from the standard input, so that no list of processes shows it")
    made.add_argument("address", metavar="METER", help="the meter's address, sixteen hexadecimal digits as bin/meter_name prints them")
    made.add_argument("--mode", choices=meters.MODES, default="7", help="its security mode, 7 where none is named")
    made.add_argument("--name", default="", help="what it is called")
    made.add_argument("--own", metavar="ADDRESS", help="the collector's own address, with the first meter")
    made = command("import", _import, "adds the meters of a list of keys, all or none: CSV with a head, or Kamstrup's key file (KEM), whose"
                                      " password is asked for, or read from the standard input")
    made.add_argument("list", metavar="FILE", type=Path)
    made.add_argument("--mode", choices=meters.MODES, default="7", help="the security mode where the list names none, 7 where none is named here")
    made.add_argument("--heard", action="store_true", help="leaves out meters that weren't heard yet")
    made.add_argument("--own", metavar="ADDRESS", help="the collector's own address, with the first meters")
    made = command("correct", _correct, "gives a meter another key in the place of its own, which was wrong; it is asked for as with `add`")
    made.add_argument("address", metavar="METER", type=_text)
    made.add_argument("--mode", choices=meters.MODES, help="its security mode too, where that was wrong")
    made.add_argument("--anew", action="store_true", help="it counts anew, as where its electronics were exchanged: forgets its last number;"
                                                          " takes no key that it had")
    made = command("retire", _retire, "says that meters are out of service: nothing of them is missed any more; readings, counters and keys"
                                      " stay")
    made.add_argument("addresses", metavar="METER", type=_text, nargs="+")
    made.add_argument("--back", action="store_true", help="puts them back into service")
    made = command("rekey", _rekey, "gives a meter of mode 7 its new second key, which is asked for as with `add`")
    made.add_argument("address", metavar="METER", type=_text)


def _command_words(command: Command) -> None:
    """The words of commands to meters."""
    made = command("command", _command, "has a command sent to a meter once it listens, or cancels one")
    made.add_argument("address", metavar="METER", type=_text, nargs="?")
    made.add_argument("payload", metavar="HEX", nargs="?", help="what the meter gets, 1 to 94 bytes")
    made.add_argument("--id", help="your own id of the command; under one id a command is taken once")
    made.add_argument("--cancel", metavar="ID", type=_text, help="has this command not be sent any more")


def _data_words(command: Command) -> None:
    """The words of what goes out of the database and comes back."""
    made = command("export", _export, "prints readings, or the lines or the state with keys into a file of its owner's")
    kinds = made.add_mutually_exclusive_group()
    kinds.add_argument("--json", action="store_true", help="one JSON object a value, in place of CSV")
    kinds.add_argument("--state", metavar="FILE", type=Path, help="writes the state, with keys, for the other programs")
    kinds.add_argument("--lines", metavar="FILE", type=Path, help="writes the lines that are kept, as they were committed")
    made.add_argument("--meter", metavar="METER", type=_text, help="of this meter alone")
    made.add_argument("--since", metavar="SECONDS", type=_moment, default=0, help="from this moment on, in seconds since 1970")
    command("backup", _backup, "copies the database, also while the service runs").add_argument("file", metavar="FILE", type=Path)
    made = command("begin", _begin, "begins anew where the database is lost and there is no copy, once the service has ended")
    made.add_argument("--lost", action="store_true", required=True, help="says that there is no copy")
    made.add_argument("--margin", metavar="N", type=int, default=MARGIN,
                      help=f"meters' downlink counters begin so much higher, at least by what was ever sent to one ({MARGIN})")
    made = command("restore", _restore, "puts a copy in the place of the database, once the service has ended")
    made.add_argument("file", metavar="FILE", type=Path)
    made.add_argument("--margin", metavar="N", type=int, default=MARGIN,
                      help=f"raises downlink counters so far, at least by what was sent to a meter since the copy ({MARGIN})")


def _demo_words(command: Command) -> None:
    """The words of the demo."""
    made = command("demo", _demo, "a made building of twelve meters and its page, without a radio and a configuration, until Ctrl-C")
    made.add_argument("--days", metavar="N", type=_count, default=demo.DAYS, help=f"for so many days meters have sent ({demo.DAYS})")
    made.add_argument("--port", metavar="N", type=_count, default=Page().port,
                      help=f"where the page is ({Page().port}); 0 takes a free one")
    made.add_argument("--text", action="store_true", help="says what was read, in place of a page, and ends")
    made.add_argument("--steps", metavar="PROGRAM", type=_program, default=Programs().steps,
                      help=f"the program of the sessions, where it isn't {Programs().steps}")


def _count(text: str) -> int:
    """A number of days or of a port."""
    if not text.isascii() or not text.isdigit() or int(text) > MOST_COUNT:
        raise argparse.ArgumentTypeError(f"this is no number up to {MOST_COUNT}")
    return int(text)


def _program(text: str) -> str:
    """A program with its first words."""
    try:
        if words_of(text):
            return text
    except ValueError:
        pass
    raise argparse.ArgumentTypeError("this is no command")


def _moment(text: str) -> int:
    """A moment in seconds, of which SQLite has those below 2^63."""
    if not re.fullmatch("-?[0-9]{1,18}", text):
        raise argparse.ArgumentTypeError("this is no number of seconds")
    return int(text)


def _text(text: str) -> str:
    """A word that can be asked for."""
    if any("\ud800" <= sign <= "\udfff" for sign in text):
        raise argparse.ArgumentTypeError("this isn't in UTF-8")
    return text


def _config(asked: argparse.Namespace) -> Config:
    """The configuration, of which root may read more than the service's user; the rest is done as that user."""
    config = read_config(asked.config)
    store.act_as_owner(config.folder)
    return config


def _opened(config: Config, is_new: bool = False) -> closing[sqlite3.Connection]:
    if is_new:
        store.prepare_folder(config.folder)
    return closing(store.open_store(config.database, is_new))


def _run(asked: argparse.Namespace) -> int:
    service.run(_config(asked))
    return DONE


def _receive(asked: argparse.Namespace) -> int:
    config = _config(asked)
    if asked.name not in config.receivers:
        raise Trouble(asked.config, f"there is no receiver {asked.name}", f"there are: {', '.join(config.receivers) or 'none'}")
    Receiving(config, asked.name).run()
    return DONE


def _page(asked: argparse.Namespace) -> int:
    from .page import servers
    if asked.door:
        servers().run_apart(asked.door)
    else:
        servers().run(_config(asked))
    return DONE


def _door(asked: argparse.Namespace) -> int:
    from .page import servers
    servers()
    from .page import answering
    answering.run(_config(asked), asked.socket)
    return DONE


def _check(asked: argparse.Namespace) -> int:
    found = list(checking.check(_config(asked)))
    print(f"right: configuration {asked.config}", *found, sep="\n")
    return TROUBLE if any(it.wrong for it in found) else DONE


def _status(asked: argparse.Namespace) -> int:
    print(status(_config(asked), asked.json))
    return DONE


def _add(asked: argparse.Namespace) -> int:
    config = _config(asked)
    address = _digits(f"meter {asked.address}", asked.address.lower(), 16, "`meter_name` makes it of what stands on the label")
    with _opened(config, True) as database:
        own = _own(config, database, asked.own)
        key = _key_of(address)
        text = f"wmbus-roster 2\nown {own}\nmeter {address} {asked.mode} {key} - - 0 0\n"
        added = meters.take_roster(config, database, text, f"meter {asked.address}", meters.name_of(asked.name))
        if not added and meters.bring_back(database, [address]):
            print(f"meter {address} is known already, and is back in service; its key stays as it is (`wmbus-service correct` gives it"
                  " another one, and `rekey` a second one)")
            return DONE
        if not added:
            raise Trouble(f"meter {asked.address}", "it is known already",
                          "its key stays as it is; `wmbus-service correct` gives it another one, and `rekey` a second one")
    print(f"meter {address} was added")
    return DONE


def _digits(what: str, text: str, count: int, remedy: str) -> str:
    """So many hexadecimal digits. What has other signs, which may not be seen, is named by who judges rosters."""
    if text.isascii() and not re.fullmatch(f"[0-9a-f]{{{count}}}", text):
        raise Trouble(what, f"it isn't {count} hexadecimal digits", remedy)
    return text


def _own(config: Config, database: sqlite3.Connection, asked: str | None) -> str:
    own = (asked or store.setting(database, "own") or "").lower()
    if not own:
        raise Trouble(config.database, "the collector's own address isn't known",
                      "name it with --own, sixteen hexadecimal digits that no meter has")
    return _digits("the collector's own address", own, 16, "name one that no meter has")


def _secret(what: str) -> str:
    """A key or a password, which no list of processes and no history of a shell shows."""
    try:
        secret = getpass.getpass(f"{what}: ") if sys.stdin.isatty() else sys.stdin.readline().rstrip("\r\n")
        secret.encode()
    except UnicodeError:
        raise Trouble(what, "it isn't in UTF-8", "enter it in this encoding") from None
    return secret


def _key(address: str) -> str:
    return joined(_secret(f"key of {address}"))


def _key_of(address: str) -> str:
    return _digits(f"key of {address}", _key(address), 32, "copy it again")


def _import(asked: argparse.Namespace) -> int:
    # (the list may be one that root alone can read)
    content = key_lists.read_content(asked.list)
    config = _config(asked)
    rows = importing.read_list(asked.list, content, lambda: _secret(f"password of {asked.list}"))
    with _opened(config, True) as database:
        wish = importing.Wish(_own(config, database, asked.own), asked.mode, asked.heard)
        added, others, left, back = importing.take_list(config, database, asked.list, rows, wish)
    print(f"{added} new meters" + (f"; {others} are known with another key, and keep theirs (`correct` changes it)" if others else "")
          + (f"; {left} weren't heard yet, and are left" if left else "")
          + (f"; {back} were out of service, and are back with the keys that they had" if back else ""))
    return DONE


def _correct(asked: argparse.Namespace) -> int:
    config, address = _config(asked), asked.address.lower()
    with _opened(config) as database:
        meters.judge_known(database, address, f"meter {address}")
        meters.correct_key(config, database, address, _key_of(address), asked.mode, asked.anew)
    print(f"meter {address} has another key" + (f", in mode {asked.mode}" if asked.mode else "") + (", and counts anew" if asked.anew else ""))
    return DONE


def _retire(asked: argparse.Namespace) -> int:
    config, addresses = _config(asked), list(dict.fromkeys(it.lower() for it in asked.addresses))
    with _opened(config) as database:
        if asked.back:
            meters.bring_back(database, addresses)
            print(*(f"meter {address} is in service" for address in addresses), sep="\n")
            return DONE
        meters.retire(database, addresses, time.time())
        for address in addresses:
            since = meters.retired_since(database, address)
            words = waiting_words(waiting_commands(database, address))
            print(f"meter {address} is out of service" + (f" since {meters.day_of(since)}" if since is not None else "") + words)
    return DONE


def _who() -> str:
    """Who types, also behind sudo."""
    try:
        return f"user {os.environ.get('SUDO_USER') or pwd.getpwuid(os.getuid()).pw_name}"
    except KeyError:
        return f"user {os.getuid()}"


def _rekey(asked: argparse.Namespace) -> int:
    with _opened(_config(asked)) as database:
        put_key(database, f"key-{secrets.token_hex(4)}", asked.address, _key(asked.address), time.time(), _who())
    print("the next session gives the meter its second key")
    return DONE


def _command(asked: argparse.Namespace) -> int:
    config = _config(asked)
    with _opened(config) as database:
        if asked.cancel is not None:
            state = cancel_command(database, asked.cancel, time.time(), Publications(config.mqtt, database))
            print(f"command {asked.cancel} is {state}" + ("; the next session cancels it" if state in ("queued", "sent") else ""))
            return DONE
        if not asked.address or not asked.payload:
            raise Trouble("the command", "it has no METER or no HEX", "`wmbus-service command --help` shows both")
        ident = f"cli-{secrets.token_hex(4)}" if asked.id is None else asked.id
        is_new = put_command(database, ident, asked.address, asked.payload, time.time(), _who())
    print(f"command {ident} waits" if is_new else f"command {ident} was taken before; nothing is sent again")
    return DONE


def _export(asked: argparse.Namespace) -> int:
    if (asked.state or asked.lines) and (asked.meter or asked.since):
        raise Trouble("the export", "--meter and --since are of values alone", "leave them out: all meters are in a state and in lines")
    with _opened(_config(asked)) as database:
        if asked.state:
            _write_states(asked.state, exporting.states(database))
        elif asked.lines:
            _write_own(asked.lines, exporting.lines(database))
        else:
            address = asked.meter and asked.meter.lower()
            if address is not None:
                meters.judge_known(database, address, "the export")
            rows = exporting.as_json if asked.json else exporting.as_csv
            sys.stdout.writelines(rows(database, address, asked.since))
    return DONE


def _write_states(path: Path, states: list[str]) -> None:
    """Writes a state, or several into files with numbers behind their name: all of them, or none."""
    paths = [path] if len(states) == 1 else [path.with_name(f"{path.name}.{number}") for number in range(1, len(states) + 1)]
    written: list[Path] = []
    try:
        for part, text in zip(paths, states, strict=True):
            _write_own(part, [text])
            written.append(part)
    except BaseException:
        for part in written:
            part.unlink()
        raise
    if len(paths) > 1:
        print(f"a state has {MOST_METERS} meters at most, so there are several: {' '.join(map(str, paths))}")


def _write_own(path: Path, texts: Iterable[str]) -> None:
    """Writes a new file that its owner alone may read."""
    try:
        opened = os.open(path, os.O_WRONLY | os.O_CREAT | os.O_EXCL, 0o600)
    except FileExistsError:
        raise Trouble(path, "it is there already", "name a new file") from None
    try:
        with open(opened, "w", encoding="latin-1") as file:
            file.writelines(texts)
    except BaseException:
        # (a part of it would be taken for all)
        path.unlink()
        raise


def _backup(asked: argparse.Namespace) -> int:
    size = backup.back_up(_config(asked), asked.file)
    print(f"{asked.file} has the database as it was now, {size} bytes with the keys: keep it as you keep them")
    return DONE


@contextmanager
def _ended(asked: argparse.Namespace) -> Iterator[Config]:
    """The configuration of a folder on which no service works, for what changes counters by a margin."""
    config = _config(asked)
    if asked.margin < 0:
        raise Trouble(asked.command, "the margin is below 0, and downlink counters would be used twice",
                      "give one above the number of downlinks to one meter since the copy")
    store.prepare_folder(config.folder)
    if service.is_locked(config.folder):
        raise Trouble(config.folder, "a service works on this folder", "end it first: systemctl stop wmbus")
    held = service.lock(config.folder)
    try:
        yield config
    finally:
        os.close(held)


def _begin(asked: argparse.Namespace) -> int:
    with _ended(asked) as config:
        backup.begin_lost(config, asked.margin)
    print(f"begun anew; downlink counters of all meters that are added begin {begun.floor_of(config.database)} higher")
    return DONE


def _restore(asked: argparse.Namespace) -> int:
    with _ended(asked) as config:
        count = backup.restore(config, asked.file, asked.margin)
    print(f"restored; downlink counters of {count} meters are {asked.margin} higher, and commands that were open are cancelled")
    return DONE


def _demo(asked: argparse.Namespace) -> int:
    demo.run(Programs(steps=asked.steps), asked.days, None if asked.text else asked.port, lambda words: print(words, flush=True))
    return DONE
