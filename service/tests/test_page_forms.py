"""The page's forms: who may use them, and what they do."""
from __future__ import annotations

import re
from pathlib import Path

import pytest
from wmbus_service.config import Page
from wmbus_service.page import serving
from wmbus_service.tool_modules import version
from wmbus_service.trouble import Trouble

from .page_house import HOUR, TOKEN, PageHouse, each_page_fixture, entered, forms_word  # noqa: F401
from .test_sessions import NOW, house_fixture  # noqa: F401

STRANGER = "2d2c785634121b16"
KEY = "0123456789abcdef" * 2


def test_without_a_token_it_only_reads(page: PageHouse) -> None:
    """Where the configuration names no token there are no forms, and none is taken."""
    address = page.addresses[0]
    client = page.client()
    text = client.get(f"/meters/{address}").text
    assert "<button>Queue" not in text and "/enter" not in text
    assert client.get("/enter").status_code == 404
    for path in ("/enter", f"/meters/{address}/commands", f"/meters/{address}/commands/cancel", "/strangers/add", "/leave"):
        given = client.post(path, data={"forms": "", "payload": "00", "token": "", "id": "a"})
        assert given.status_code == 403 and "token" in given.text
    assert page.house.all("select count(*) from command") == [0]


def test_leave(page: PageHouse) -> None:
    """Who leaves has left on the server: a copy of the cookie, as somebody may have it, is of no use any more."""
    app = page.page(TOKEN)
    client, word = entered(app)
    copied = app.test_client()
    assert client.cookie_jar is not None
    (cookie,) = [it for it in client.cookie_jar if it.name == "wmbus"]
    copied.set_cookie("localhost", "wmbus", cookie.value or "")
    command = {"forms": word, "payload": "01", "id": "a"}
    assert copied.post(f"/meters/{page.addresses[0]}/commands", data=command).status_code == 303
    assert client.post("/leave", data={"forms": word}).status_code == 303
    for each in (client, copied):
        assert each.post(f"/meters/{page.addresses[0]}/commands", data={**command, "id": "b"}).status_code == 403
    assert page.house.all("select id from command") == ["a"]
    assert entered(app)[0].post("/leave", data={}).status_code == 403


def test_wrong_tokens(page: PageHouse, caplog: pytest.LogCaptureFixture) -> None:
    """After five wrong tokens an address waits for a minute, with the right one too; the log says from where they came, and has no token."""
    now, app = [NOW], page.page(TOKEN)
    app.config.update(CLOCK=lambda: now[0])
    client = app.test_client()
    word = forms_word(client.get("/enter").text)

    def given(token: str, address: str = "10.0.0.1") -> int:
        return client.post("/enter", data={"forms": word, "token": token}, environ_base={"REMOTE_ADDR": address}).status_code
    assert [given("a wrong one of many signs") for _ in range(7)] == [403] * 5 + [429] * 2
    assert given(TOKEN) == 429 and given("another", "10.0.0.2") == 403
    assert caplog.text.count("a wrong token came from 10.0.0.1") == 5 and "many signs" not in caplog.text
    now[0] += 61
    assert given("a wrong one") == 403 and given(TOKEN) == 303
    for number in range(2000):
        given("x", f"10.1.{number // 200}.{number % 200}")
    wrong = page.guard(app).wrong
    assert len(wrong.moments) == 1000 and caplog.text.count("a wrong token came") < 70


def test_queue_and_cancel(page: PageHouse) -> None:
    """A command that is queued waits for a session, is shown with its state, and can be cancelled."""
    address = page.addresses[0]
    client, word = entered(page.page(TOKEN))
    given = client.post(f"/meters/{address}/commands", data={"forms": word, "payload": "01 02 FF", "id": "valve"}, follow_redirects=True)
    assert "Command valve waits for the next session" in given.text and "Cancel valve" in given.text
    assert page.house.all("select id, address, kind, payload, state, made from command") == [
        ("valve", address, "send", "0102ff", "waiting", NOW)]
    again = client.post(f"/meters/{address}/commands", data={"forms": word, "payload": "0102ff", "id": "valve"}, follow_redirects=True)
    assert "was taken before" in again.text
    for meter, payload in ((address, "03"), (page.addresses[1], "0102ff")):
        other = client.post(f"/meters/{meter}/commands", data={"forms": word, "payload": payload, "id": "valve"}, follow_redirects=True)
        assert other.status_code == 400 and "its id was used for another command" in other.text
    assert page.house.all("select payload, asked_by from command") == [("0102ff", "the page")]
    given = client.post(f"/meters/{address}/commands/cancel", data={"forms": word, "id": "valve"}, follow_redirects=True)
    assert "Command valve is cancelled" in given.text and page.house.all("select state from command") == ["cancelled"]
    page.write("update command set state = 'sent', number = 1")
    given = client.post(f"/meters/{address}/commands/cancel", data={"forms": word, "id": "valve"}, follow_redirects=True)
    assert "The next session cancels command valve" in given.text and page.house.all("select wish from command") == ["cancel"]
    other = client.post(f"/meters/{page.addresses[1]}/commands/cancel", data={"forms": word, "id": "valve"})
    assert other.status_code == 400 and "no such command" in other.text


def test_a_form_that_is_sent_twice(page: PageHouse) -> None:
    """A double click, or a form that is sent once more behind an answer that didn't come, queues its command once; the next form another."""
    address = page.addresses[0]
    client = entered(page.page(TOKEN))[0]

    def fields() -> dict[str, str]:
        text = client.get(f"/meters/{address}").text
        form = re.search(rf'<form method="post" action="/meters/{address}/commands" .*?</form>', text, re.S)
        assert form
        return dict(re.findall(r'name="(\w+)" value="([^"]+)"', form[0])) | {"payload": "0102"}

    form = fields()
    given = [client.post(f"/meters/{address}/commands", data=form, follow_redirects=True).text for _ in range(2)]
    assert "waits for the next session" in given[0] and "was taken before" in given[1]
    assert page.house.all("select payload from command") == ["0102"]
    assert client.post(f"/meters/{address}/commands", data=fields()).status_code == 303
    assert page.house.all("select count(*) from command") == [2]


def test_add_a_stranger(page: PageHouse) -> None:
    """A stranger becomes a meter with its name, its key stands in no answer, and a known meter's key stays."""
    page.write("insert into stranger values (?, 50, 'attic', ?)", STRANGER, NOW)
    client, word = entered(page.page(TOKEN))
    assert "This is mine" in client.get("/strangers").text
    given = client.post("/strangers/add", data={"forms": word, "address": STRANGER, "mode": "7", "key": KEY, "name": "Garden\r\nmeter x"},
                        follow_redirects=True)
    assert given.status_code == 200 and "Gardenmeter x was added" in given.text and KEY not in given.text
    assert page.house.all(f"select name, block from meter where address = '{STRANGER}'") == [
        ("Gardenmeter x", f"meter {STRANGER} 7 {KEY} - - 0 0\n")]
    assert STRANGER not in client.get("/strangers").text
    again = client.post("/strangers/add", data={"forms": word, "address": STRANGER, "mode": "7", "key": "00" * 16})
    assert again.status_code == 400 and "known already" in again.text
    assert page.house.all(f"select block from meter where address = '{STRANGER}'") == [f"meter {STRANGER} 7 {KEY} - - 0 0\n"]


def test_out_of_service_and_back(page: PageHouse) -> None:
    """Who has the token has a meter be out of service and puts it back by a button of its page, from that page alone. Meanwhile no command
    is taken; the form of strangers puts it back too, and leaves its key."""
    address = page.addresses[0]
    path, blocks = f"/meters/{address}/retire", page.house.all("select block from meter")
    assert "Out of service" not in page.client().get(f"/meters/{address}").text
    client, word = entered(page.page(TOKEN))
    for asking, data, headers in ((page.page(TOKEN).test_client(), {"forms": word}, {}), (client, {"forms": "x"}, {}),
                                  (client, {"forms": word}, {"Origin": "http://elsewhere.example"})):
        assert asking.post(path, data=data, headers=headers).status_code == 403
    assert client.post(f"/meters/{STRANGER}/retire", data={"forms": word}).status_code == 400
    assert page.house.all("select count(*) from meter where retired is not null") == [0]
    command = {"forms": word, "payload": "01", "id": "valve"}
    client.post(f"/meters/{address}/commands", data=command)
    assert "<button>Out of service" in client.get(f"/meters/{address}").text
    given = client.post(path, data={"forms": word}, follow_redirects=True).text
    assert "1 command of it still waits: cancel it" in given and "<button>Back into service" in given and "<button>Queue" not in given
    assert page.house.all("select address, retired from meter where retired is not null") == [(address, NOW)]
    refused = client.post(f"/meters/{address}/commands", data=command | {"id": "other"})
    assert refused.status_code == 400 and "is out of service since 2027-01-15" in refused.text
    assert page.house.all("select id from command") == ["valve"]
    added = {"forms": word, "address": address, "mode": "7", "key": KEY}
    for form, data, words in ((path, {"forms": word, "back": "1"}, "It is back in service"),
                              ("/strangers/add", added, "its key stays as it is")):
        client.post(path, data={"forms": word})
        back = client.post(form, data=data, follow_redirects=True)
        assert back.status_code == 200 and words in back.text and "<button>Queue" in back.text
        assert page.house.all("select count(*) from meter where retired is not null") == [0]
    assert client.post("/strangers/add", data=added).status_code == 400 and page.house.all("select block from meter") == blocks


def test_a_key_in_groups(page: PageHouse) -> None:
    """A stranger's key is taken as lists of keys have it, with colons or hyphens between its digits too."""
    page.write("insert into stranger values (?, 50, 'attic', ?)", STRANGER, NOW)
    client, word = entered(page.page(TOKEN))
    given = "0x" + ":".join(KEY[start:start + 2] for start in range(0, 32, 2)).upper()
    told = client.post("/strangers/add", data={"forms": word, "address": STRANGER, "mode": "5", "key": given})
    assert told.status_code == 303
    assert page.house.all(f"select block from meter where address = '{STRANGER}'") == [f"meter {STRANGER} 5 {KEY} - - 0 0\n"]


def test_faulty_forms(page: PageHouse) -> None:
    """Each faulty field is told in words, and changes nothing; no line of a roster is smuggled in."""
    address = page.addresses[0]
    client, word = entered(page.page(TOKEN))
    for payload in ("", "0", "zz", "00" * 95):
        given = client.post(f"/meters/{address}/commands", data={"forms": word, "payload": payload})
        assert given.status_code == 400 and "1 to 94 bytes" in given.text
    for ident in ("a b", "x" * 65, "<b>"):
        assert client.post(f"/meters/{address}/commands", data={"forms": word, "payload": "00", "id": ident}).status_code == 400
    for fields in ({"address": f"{STRANGER}\nmeter"}, {"mode": "6"}, {"mode": "7 x"}, {"key": "00"}, {"key": f"{KEY[:-1]}\u0660"},
                   {"address": STRANGER.replace("2", "\u0662")}):
        given = client.post("/strangers/add", data={"forms": word, "address": STRANGER, "mode": "7", "key": KEY} | fields)
        assert given.status_code == 400 and "hexadecimal digits" in given.text
    assert client.post(f"/meters/{address}/commands", data={"forms": word, "payload": "0" * 70_000}).status_code == 413
    assert page.house.all("select count(*) from command") == [0] and page.house.all("select count(*) from meter") == [3]


def test_other_sites(page: PageHouse) -> None:
    """A form that another site sends, or without the session's word, is refused; so is another name for this machine, and a wrong token."""
    address = page.addresses[0]
    app = page.page(TOKEN)
    client, word = entered(app)
    path, data = f"/meters/{address}/commands", {"forms": word, "payload": "00"}
    for headers in ({"Origin": "http://elsewhere.example"}, {"Origin": "null"}, {"Origin": "http://localhost:9103"}, {"Origin": "http://["},
                    {"Sec-Fetch-Site": "cross-site"}, {"Sec-Fetch-Site": "same-site"}):
        assert client.post(path, data=data, headers=headers).status_code == 403
    for given in ("", "x", word[:-1], word + "é"):
        assert client.post(path, data=data | {"forms": given}).status_code == 403
    assert app.test_client().post(path, data=data).status_code == 403
    assert page.house.all("select count(*) from command") == [0]
    assert client.post(path, data=data, headers={"Origin": "http://localhost", "Sec-Fetch-Site": "same-origin"}).status_code == 303
    rebound = app.test_client().get("/", headers={"Host": "elsewhere.example:9102"})
    assert rebound.status_code == 400 and "names of this machine" in rebound.text
    cookie = app.test_client().get("/enter").headers["Set-Cookie"]
    assert "HttpOnly" in cookie and "SameSite=Strict" in cookie
    assert client.post("/leave", data={"forms": word}).status_code == 303
    assert client.post(path, data=data).status_code == 403


def test_a_token_given_long_ago(page: PageHouse) -> None:
    """The token holds for twelve hours from when it was given, however often a page was asked for in between."""
    app = page.page(TOKEN)
    client, word = entered(app)
    path, data = f"/meters/{page.addresses[0]}/commands", {"forms": word, "payload": "00"}
    for hours in (5, 11.9):
        app.config.update(CLOCK=lambda: NOW + hours * HOUR)
        assert client.post(path, data=data).status_code == 303 and "Leave" in client.get("/").text
    app.config.update(CLOCK=lambda: NOW + 12.1 * HOUR)
    assert client.post(path, data=data).status_code == 403
    given = client.get("/").text
    assert "Leave" not in given and ">Enter<" in given and page.house.all("select count(*) from command") == [2]
    again = client.post("/enter", data={"forms": word, "token": TOKEN})
    assert again.status_code == 303 and client.post(path, data=data).status_code == 303


def test_addresses_of_this_machine(page: PageHouse) -> None:
    """It answers under each address of this machine alone at which it may be served, and under no other site's name that looks like one."""
    for host in ("127.0.0.1", "127.8.0.1:9102", "[::1]:9102", "localhost", "LOCALHOST:80"):
        assert page.client().get("/", headers={"Host": host}).status_code == 200, host
    for host in ("127.0.0.1.example", "192.168.1.2", "[::2]", "127.0.0.1@elsewhere.example", "localhost.example", "0.0.0.0"):
        assert page.client().get("/", headers={"Host": host}).status_code == 400, host


def test_two_pages_of_a_machine(page: PageHouse) -> None:
    """Who is entered at one page stays so while he enters at another one of the same machine, as that of a fleet at the next port."""
    tokens = {9102: TOKEN, 9103: TOKEN[::-1]}
    clients = {port: page.page(token).test_client() for port, token in tokens.items()}
    clients[9103].cookie_jar = clients[9102].cookie_jar
    for port, client in clients.items():
        at = f"http://localhost:{port}"
        word = forms_word(client.get("/enter", base_url=at).text)
        assert client.post("/enter", data={"forms": word, "token": tokens[port]}, base_url=at).status_code == 303
    for port, client in clients.items():
        assert "Leave" in client.get("/", base_url=f"http://localhost:{port}").text, port


def test_elsewhere(page: PageHouse) -> None:
    """Bound elsewhere, nothing is read without the token, nor which release this is, and the session's cookie goes over TLS alone."""
    app = page.page(TOKEN, is_elsewhere=True)
    client = app.test_client()
    for path in ("/", f"/meters/{page.addresses[0]}", "/receivers", "/nothing"):
        assert client.get(path).headers["Location"] == "/enter"
    for path in ("/api/overview", "/readings.csv"):
        assert client.get(path).status_code == 403
    given = client.get("/enter")
    assert given.status_code == 200 and "Secure" in given.headers["Set-Cookie"]
    release = f"wmbus {version()}."
    assert release in page.page().test_client().get("/").text and release not in given.text
    wrong = client.post("/enter", data={"forms": "x", "token": TOKEN})
    assert wrong.status_code == 403 and "entered" not in str(wrong.headers.get("Set-Cookie"))


def test_what_it_starts_with(tmp_path: Path) -> None:
    """Elsewhere than on this machine it needs TLS and a token; a token is long, and others can't read it."""
    token = tmp_path / "token"
    token.write_text(TOKEN + "\n")
    token.chmod(0o600)
    named = str(token)
    assert serving.look_at_page(Page()) is None
    assert serving.look_at_page(Page(token_file=named)) == TOKEN
    for host in ("127.0.0.1", "::1", "localhost", "127.8.0.1"):
        assert serving.is_local(host)
    for host in ("0.0.0.0", "", "::", "192.168.1.2", "meters.example", "127.0.0.1.example"):
        assert not serving.is_local(host)
        with pytest.raises(Trouble, match="TLS"):
            serving.look_at_page(Page(host=host, token_file=named))
        with pytest.raises(Trouble, match="no token"):
            serving.look_at_page(Page(host=host, certificate="/c", key="/k"))
        assert serving.look_at_page(Page(host=host, certificate="/c", key="/k", token_file=named)) == TOKEN
    token.write_text("short")
    with pytest.raises(Trouble, match="fewest"):
        serving.look_at_page(Page(token_file=named))
    token.chmod(0o640)
    with pytest.raises(Trouble, match="rights"):
        serving.look_at_page(Page(token_file=named))
    with pytest.raises(Trouble, match="can't be read"):
        serving.look_at_page(Page(token_file=str(tmp_path / "none")))
