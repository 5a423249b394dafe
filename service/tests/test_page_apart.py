"""The page by a user who can't read what has keys: it shows what the other shows, its forms are judged by who can read the database, and
whatever it asks no answer has a key."""
from __future__ import annotations

import json
import os
import random
import re
import shutil
import signal
import socket
import sqlite3
import ssl
import subprocess
import sys
import tempfile
import time
import urllib.error
import urllib.parse
import urllib.request
from collections.abc import Iterator
from contextlib import ExitStack, contextmanager
from dataclasses import dataclass
from http.cookiejar import CookieJar
from pathlib import Path
from typing import Any

import pytest
from wmbus_service.page.answering import PLACES, SECONDS, Answering
from wmbus_service.page.questions import QUESTIONS
from wmbus_service.page.tokens import Guard

from .kill import TOP
from .page_house import TOKEN, PageHouse, answered, forms_word, page_fixture  # noqa: F401
from .processes import PATIENCE, certificate_of, run, started, until
from .test_page_hostile import hostile
from .test_sessions import house_fixture  # noqa: F401

SERVICE = TOP / "service"
# the service's user, the page's, and the group of those who may ask
KEEPER, PAGE, GROUP = 64_001, 64_002, 64_003
NAMES = [*QUESTIONS, "put_command", "cancel_command", "add_meter", "retire", "bring_back", "enter", "leave", "is_in"]
WORDS: list[Any] = [None, "", 0, -1, 1 << 70, 1e308, "x" * 5000, [], {}, [1, 2], {"q": "", "order": ""}, {"q": "a\0", "order": "silence"},
                    "week", True, "' or 1=1 --", "select block from meter", "7", "0" * 32, "ff" * 94, "\ud800"]
PARAMETERS = ["number", "asked", "is_retired", "address", "span", "end", "behind", "ident", "payload", "mode", "key", "name", "token", "self",
              "of", "x"]


def keys_of(page: PageHouse) -> list[str]:
    """All keys of the house."""
    return [key.hex() for meter in page.house.meters for key in (meter.key, meter.other) if key]


def asked(path: Path, question: object, word: object = None, words: object = None) -> Any:
    """What is answered to a question."""
    with socket.socket(socket.AF_UNIX) as opened:
        opened.settimeout(PATIENCE)
        opened.connect(str(path))
        opened.sendall(json.dumps([question, word, {} if words is None else words]).encode() + b"\n")
        with opened.makefile("rb") as answer:
            return json.loads(answer.read())


def as_user(user: int) -> dict[str, Any]:
    """How a process is started as a user of the group that may ask."""
    return {"user": user, "group": GROUP, "extra_groups": [], "env": {"PATH": os.environ["PATH"], "HOME": "/nonexistent"}}


@dataclass(frozen=True)
class Apart:
    """A page whose user can't read the folder: where both are, and the processes of who answers and of the page."""

    place: Path
    at: str
    door: subprocess.Popen[Any]
    page: subprocess.Popen[Any]


@contextmanager
def apart(page: PageHouse, words: str = "") -> Iterator[Apart]:
    """The page as its units start it: who answers is the owner of the folder, and the page another user."""
    if os.geteuid():
        pytest.skip("the page's user: only root can start processes of other users")
    if subprocess.run([sys.executable, "-c", "import flask, wmbus_service"], cwd=SERVICE, check=False, **as_user(PAGE)).returncode:
        pytest.skip("the page's user: another user can't read this repository")
    with ExitStack() as held:
        place = Path(held.enter_context(tempfile.TemporaryDirectory()))
        place.chmod(0o755)
        made = Path(shutil.copytree(page.house.config.folder, place / "wmbus"))
        made.chmod(0o700)
        for path in (made, *made.rglob("*")):
            os.chown(path, KEEPER, KEEPER)
        (place / "run").mkdir()
        os.chown(place / "run", KEEPER, GROUP)
        (place / "run").chmod(0o710)
        (place / "config.toml").write_text(f'folder = "{made}"\n[page]\nport = 0\n{words.replace("FOLDER", str(made))}')
        # (whatever the umask is)
        (place / "config.toml").chmod(0o644)
        first = [sys.executable, "-B", "-m", "wmbus_service"]
        line = [*first, "--config", str(place / "config.toml"), "door", str(place / "run/door")]
        log = held.enter_context(open(place / "door.log", "wb"))
        door = held.enter_context(started(line, cwd=SERVICE, stderr=log, umask=0o077, **as_user(KEEPER)))
        until(lambda: "is answered" in (place / "door.log").read_text())
        line = [*first, "--config", "/none", "page", "--door", str(place / "run/door")]
        said = place / "page.log"
        process = held.enter_context(started(line, cwd=SERVICE, stderr=held.enter_context(open(said, "wb")), **as_user(PAGE)))
        until(lambda: "the page is at" in said.read_text() or process.poll() is not None)
        found = re.search(r"the page is at (https?://)[0-9.]+(:\d+/)", said.read_text())
        assert found, said.read_text() + (place / "door.log").read_text()
        yield Apart(place, f"{found[1]}127.0.0.1{found[2]}", door, process)


def opened_by(user: int, paths: list[Path]) -> list[str]:
    """Those of these files that a user can open."""
    words = "import sys\nfor it in sys.argv[1:]:\n    try:\n        open(it, 'rb').close()\n        print(it)\n    except OSError:\n        pass"
    return run([sys.executable, "-c", words, *paths], **as_user(user)).stdout.split()


class Browser:
    """Who looks at a page, and uses its forms."""

    def __init__(self, at: str, trust: ssl.SSLContext | None = None) -> None:
        self.at = at
        handlers = [urllib.request.HTTPCookieProcessor(CookieJar()), urllib.request.HTTPSHandler(context=trust)]
        self.opener = urllib.request.build_opener(*handlers)

    def fetched(self, path: str = "", **form: str) -> str:
        """A page, or what is behind a form."""
        body = urllib.parse.urlencode(form).encode() if form else None
        with self.opener.open(self.at + path, body, timeout=PATIENCE) as given:
            return str(given.read().decode())


def with_token(page: PageHouse) -> str:
    """The setting of a token, which the service's user alone may read."""
    token = page.house.config.folder / "token"
    token.write_text(TOKEN)
    token.chmod(0o600)
    return 'token_file = "FOLDER/token"\n'


def test_its_user_opens_nothing_that_has_keys(page: PageHouse) -> None:
    """It shows the meters, and takes a command of who has the token. No file of the service's folder can be opened by its user, nor the memory
    of who answers."""
    page.write("update meter set name = 'cellar' where place = 1")
    with apart(page, with_token(page)) as it:
        place, browser, address = it.place, Browser(it.at), page.addresses[0]
        assert "cellar" in browser.fetched()
        files = [path for path in (place / "wmbus").rglob("*") if path.is_file()]
        has_keys = [path for path in files if any(key.encode() in path.read_bytes() for key in keys_of(page))]
        assert has_keys and not opened_by(PAGE, [*files, place / "wmbus", place / "wmbus/spool"])
        assert set(map(str, has_keys)) <= set(opened_by(KEEPER, files))
        keeper, own = (Path(f"/proc/{process.pid}") for process in (it.door, it.page))
        assert not opened_by(PAGE, [keeper / "mem", keeper / "environ", *keeper.glob("fd/*")])
        assert not [path for path in own.glob("fd/*") if os.readlink(path).startswith(str(place / "wmbus"))]
        word = forms_word(browser.fetched("enter"))
        assert "Leave" in browser.fetched("enter", forms=word, token=TOKEN)
        said = browser.fetched(f"meters/{address}/commands", forms=word, payload="01 02", id="a1")
        assert "Command a1 waits for the next session" in said
        with sqlite3.connect(f"file:{place}/wmbus/wmbus.db?mode=ro", uri=True) as database:
            assert database.execute("select id, address, payload, asked_by from command").fetchall() == [("a1", address, "0102", "the page")]


def test_its_certificate_is_read_by_who_answers(page: PageHouse) -> None:
    """The key of its certificate stays the service's user's alone, and a renewed one counts at the next connection."""
    pytest.importorskip("cheroot", reason="python3-cheroot isn't there")
    if not shutil.which("openssl"):
        pytest.skip("openssl isn't there")
    certificate, key = certificate_of(page.house.config.folder)
    key.chmod(0o600)
    settings = with_token(page) + f'certificate = "FOLDER/{certificate.name}"\nkey = "FOLDER/{key.name}"\n'
    with apart(page, settings) as it:
        made = it.place / "wmbus"
        assert it.at.startswith("https") and not opened_by(PAGE, [made / key.name])
        assert "All meters" in Browser(it.at, ssl.create_default_context(cafile=str(certificate))).fetched()
        renewed = [path.rename(made / path.name) for path in certificate_of(it.place)]
        for path in renewed:
            os.chown(path, KEEPER, KEEPER)
        assert "All meters" in Browser(it.at, ssl.create_default_context(cafile=str(renewed[0]))).fetched()


def test_whatever_is_asked(page: PageHouse) -> None:
    """A page of which somebody has made himself master asks anything in any words: no answer has a key, and without the token nothing is
    done; elsewhere than on this machine nothing is read without it either."""
    hostile(page)
    draw, keys = random.Random(11), keys_of(page)
    before = list(page.house.database.iterdump())
    answering = Answering(page.house.config)
    answering.guard = Guard(TOKEN)
    with answered(answering) as path:
        for number in range(1500):
            name = draw.choice(NAMES)
            if name == "enter" and number % 50:
                continue
            words = {it: draw.choice([*WORDS, *page.addresses]) for it in draw.sample(PARAMETERS, draw.randrange(5))}
            given = asked(path, name, draw.choice(WORDS), draw.choice([words, words, words, *WORDS]))
            text = json.dumps(given)
            assert given[0] in ("told", "trouble", "fault", "refused", "unanswered", "waits") and len(given) == 2, (name, words)
            assert not [key for key in keys if key in text], (name, words)
        for name in ("overview", "meter", "receivers", "strangers", "readings"):
            right = {"overview": {"number": 1}, "meter": {"address": page.addresses[0], "span": "week"},
                     "readings": {"address": page.addresses[0], "end": 1 << 62, "behind": [0, 0]}}.get(name, {})
            answering.is_elsewhere = False
            kind, told = asked(path, name, None, right)
            assert kind == "told" and told and not [key for key in keys if key in json.dumps(told)], name
            answering.is_elsewhere = True
            assert asked(path, name, "x", right) == ["refused", None]
        form = {"address": page.addresses[0], "ident": "a", "payload": "01"}
        assert asked(path, "put_command", None, form) == ["refused", None]
        assert list(page.house.database.iterdump()) == before
        kind, word = asked(path, "enter", None, {"token": TOKEN, "address": "10.0.0.1"})
        assert kind == "told" and asked(path, "put_command", word, form) == ["told", True]
        assert asked(path, "leave", word) == ["told", None] and asked(path, "put_command", word, form)[0] == "refused"
        line = {"address": f"{page.addresses[0]} 7 x\nmeter {page.addresses[0]}", "mode": "7", "key": "0" * 32, "name": "x"}
        kind, word = asked(path, "enter", None, {"token": TOKEN, "address": "10.0.0.1"})
        assert asked(path, "add_meter", word, line)[0] == "trouble"


def test_questions_that_do_not_come(page: PageHouse) -> None:
    """Who says nothing, half of a question, one without end, or takes no answer, is waited for some seconds, and then others are answered."""
    with answered(Answering(page.house.config)) as path, ExitStack() as held:
        begun = time.monotonic()
        for number in range(2 * PLACES):
            opened = held.enter_context(socket.socket(socket.AF_UNIX))
            opened.connect(str(path))
            opened.sendall([b"", b"[", b'["overview", null, {"number": 1}]\n', b"x" * 100_000][number % 4])
        assert asked(path, "strangers")[0] == "told" and time.monotonic() - begun < 4 * SECONDS


def test_without_who_answers(page: PageHouse, tmp_path: Path) -> None:
    """Where nobody answers the page says so, and what to look at, at its start as at each of its pages."""
    line = [sys.executable, "-B", "-m", "wmbus_service", "--config", "/none", "page", "--door", str(tmp_path / "none")]
    ran = run(line, check=False, cwd=SERVICE)
    assert ran.returncode == 1 and "doesn't answer" in ran.stderr and "systemctl status wmbus-door" in ran.stderr
    with apart(page) as it:
        it.door.send_signal(signal.SIGTERM)
        until(lambda: it.door.poll() is not None)
        assert it.door.returncode == 0 and not (it.place / "run/door").exists()
        with pytest.raises(urllib.error.HTTPError) as fault:
            Browser(it.at).fetched()
        assert fault.value.code == 503 and "doesn&#39;t answer" in fault.value.read().decode()


def test_its_units() -> None:
    """The page's unit has a user of its own, whom what the service has is hidden from; those who may ask are of his group."""
    units = {name: (SERVICE / f"systemd/{name}.service").read_text() for name in ("wmbus-page", "wmbus-door", "wmbus")}
    told = {name: re.findall(r"^(\w+)=(.*)$", text, re.MULTILINE) for name, text in units.items()}
    page, door, service = (dict(told[name]) for name in units)
    assert page["User"] == "wmbus-page" and page["InaccessiblePaths"] == "-/var/lib/wmbus -/etc/wmbus"
    assert not {"Group", "SupplementaryGroups", "StateDirectory", "ReadWritePaths"} & page.keys()
    assert door["User"] == service["User"] == "wmbus" and door["Group"] == page["User"] and door["PrivateNetwork"] == "yes"
    assert page["ExecStart"].split()[-1] == door["ExecStart"].split()[-1] == f"/run/{door['RuntimeDirectory']}/door"
    assert page["Requires"] == "wmbus-door.service" and door["PartOf"] == "wmbus-page.service"
    scripts = [(SERVICE / name).read_text() for name in ("install", "debian/postinst", "debian/postrm")]
    assert all("wmbus-page" in text for text in scripts)
