"""The page's addresses: HTML for people, the same as JSON under /api, readings as CSV."""
from __future__ import annotations

import logging
import re
import secrets
import time
from collections.abc import Iterator
from contextlib import closing
from datetime import datetime, time as clock_time
from functools import partial
from typing import Any

from flask import (
    Blueprint, Flask, Response, abort, current_app, g, jsonify, make_response, redirect, render_template, request, send_file, session,
)
from flask.sessions import SecureCookieSessionInterface
from markupsafe import Markup
from werkzeug.exceptions import HTTPException
from werkzeug.routing import Map
from werkzeug.wrappers import Response as AnyResponse

from ..asking import Database
from ..config import Config
from ..local import is_local
from ..tool_modules import FOLDER, version
from ..trouble import Trouble
from . import periods, views
from .apart import FarDoor, Refused
from .house import Door, HouseDoor, Opening, Retiring
from .questions import QUESTIONS, Asked
from .shared import counted, grouped, is_address, time_text, times, zone_text
from .tokens import ENTERED_SECONDS, Guard, Guarding

log = logging.getLogger("wmbus")

# what is shown of any store, and what of one house's alone
pages = Blueprint("pages", __name__)
house = Blueprint("house", __name__)
# nothing is loaded from elsewhere, nothing is executed, and no other page may show this one within itself
HEADERS = {
    "Content-Security-Policy": "default-src 'none'; style-src 'self'; img-src 'self'; form-action 'self'; frame-ancestors 'none';"
                               " base-uri 'none'",
    "X-Content-Type-Options": "nosniff", "Referrer-Policy": "same-origin", "Cache-Control": "no-store",
    "Cross-Origin-Resource-Policy": "same-origin",
}
MOST_BYTES = 1 << 16
# so many bytes a server takes of a request's head at most, and of its body; the page itself takes fewer, and says so in words
MOST_HEAD, MOST_BODY = 1 << 16, 1 << 20
LAST_MOMENT = (1 << 63) - 1
MOST_SHOWN = 200
# of what is looked for
LONGEST = 80
WORDS = {
    400: "The address or the form has something in it that can't be read.",
    403: "This needs the page's token, or the form has become too old: go back, load the page again, and send it once more.",
    404: "There is no such page, or no such meter.",
    405: "This address can't be asked in this way.",
    413: "What was sent is too long.",
    429: "Too many wrong tokens came from this address: wait a minute.",
}


class Addresses(Map):
    """An address is that of a page or of none: none is put right by leading to another one."""

    def __init__(self, *rules: Any, **named: Any) -> None:
        named["merge_slashes"] = False
        super().__init__(*rules, **named)


class Pages(Flask):
    """The page with its addresses."""

    url_map_class: type[Map] = Addresses


class Sessions(SecureCookieSessionInterface):
    """Sessions whose cookie has the port in its name: a browser gives a machine's cookies to all ports, and another page may be at one."""

    def get_cookie_name(self, app: Flask) -> str:
        """The cookie's name."""
        port = re.search(r":([0-9]{1,5})$", request.host)
        return super().get_cookie_name(app) + (f"-{port[1]}" if port else "")


def create_app(config: Config, token: str | None = None, is_elsewhere: bool = False) -> Flask:
    """The page over a configuration's database. Without a token it only reads; elsewhere than on this machine reading needs it too."""
    app = create_page(HouseDoor(config), token, is_elsewhere)
    app.config.update(WMBUS=config)
    app.register_blueprint(house)
    return app


def create_apart(door: FarDoor, is_elsewhere: bool) -> Flask:
    """The page of a house by a user who can't read its database: all is asked of who can."""
    app = _create(door, door, is_elsewhere)
    app.register_blueprint(house)
    return app


def create_page(door: Door, token: str | None, is_elsewhere: bool) -> Flask:
    """The page over a store: what is shown of any."""
    return _create(door, Guard(token), is_elsewhere)


def _create(door: Door, guard: Guarding, is_elsewhere: bool) -> Flask:
    app = Pages(__name__)
    app.config.update(DOOR=door, GUARD=guard, IS_ELSEWHERE=is_elsewhere, CLOCK=time.time, WMBUS=None, MAX_CONTENT_LENGTH=MOST_BYTES,
                      SESSION_COOKIE_NAME="wmbus", PERMANENT_SESSION_LIFETIME=ENTERED_SECONDS,
                      SESSION_COOKIE_SAMESITE="Strict", SESSION_COOKIE_SECURE=is_elsewhere)
    app.session_interface = Sessions()
    # (a new start ends all sessions)
    app.secret_key = secrets.token_bytes(32)
    app.jinja_options = {"trim_blocks": True, "lstrip_blocks": True}
    app.jinja_env.filters.update(moment=_moment_text, ago=_ago, grouped=grouped, counted=counted, times=times, html=Markup)
    app.jinja_env.globals.update(zone=zone_text, version=version, may_write=may_write, may_read=lambda: not is_elsewhere or may_write(),
                                 has_token=lambda: guard.has_token, forms=_forms_word, new_ident=new_ident, spans=list(periods.SPANS),
                                 door=door, retires=isinstance(door, Retiring))
    app.register_blueprint(pages)
    from .forms import forms
    app.register_blueprint(forms)
    app.before_request(_guard)
    app.after_request(_with_headers)
    app.teardown_appcontext(_close)
    app.register_error_handler(HTTPException, _http_fault)
    app.register_error_handler(Trouble, _trouble)
    app.register_error_handler(Refused, lambda _: _fault_page(403, WORDS[403]))
    app.register_error_handler(door.faults, _database_fault)
    app.register_error_handler(Exception, _any_fault)
    return app


def clock() -> float:
    """Now."""
    return float(current_app.config["CLOCK"]())


def door_of() -> Door:
    """The store's door."""
    door: Door = current_app.config["DOOR"]
    return door


def guard_of() -> Guarding:
    """Who judges tokens."""
    guard: Guarding = current_app.config["GUARD"]
    return guard


def may_write() -> bool:
    """Whether who asks has given the token, and not too long ago; each answer makes the cookie itself younger."""
    word = session.get("entered")
    if word is None:
        return False
    # (a page asks it for each of its forms)
    if g.get("judged", ("", False))[0] != word:
        g.judged = word, guard_of().is_in(word, clock())
    return bool(g.judged[1])


def told(name: str, **words: Any) -> Any:
    """The answer to a question about the store."""
    door = door_of()
    if isinstance(door, FarDoor):
        return door.ask(name, session.get("entered"), words)
    return QUESTIONS[name](Asked(door, database(), clock(), current_app.config["WMBUS"]), **words)


def database() -> Database:
    """The database of this request, for reading."""
    if "database" not in g:
        door = door_of()
        assert isinstance(door, Opening)
        g.database = door.opened()
    opened: Database = g.database
    return opened


def _close(_fault: BaseException | None) -> None:
    opened = g.pop("database", None)
    if opened is not None:
        opened.close()


def _guard() -> AnyResponse | None:
    """Another site's name that leads to this machine isn't answered, and elsewhere than on this machine reading needs the token."""
    if not current_app.config["IS_ELSEWHERE"]:
        name = re.sub(r":\d+$", "", request.host).lower()
        if not is_local(name.removeprefix("[").removesuffix("]")):
            raise Worded("This page is served under the names of this machine alone: 127.0.0.1 and localhost.")
        return None
    if may_write() or request.endpoint in ("static", "pages.common_style", "forms.enter", "forms.entered"):
        return None
    if _is_data():
        abort(403)
    return redirect("/enter", 303)


def _with_headers(response: Response) -> Response:
    response.headers.update(HEADERS)
    return response


def _forms_word() -> str:
    """The word that each form of this session brings, so that none comes from another site."""
    if "forms" not in session:
        session["forms"] = secrets.token_urlsafe(24)
    return str(session["forms"])


def new_ident() -> str:
    """A new command's id. A form brings it, so that one that is sent twice queues its command once."""
    return f"page-{secrets.token_hex(4)}"


def _moment_text(moment: float | None) -> str:
    return str(time_text(None if moment is None else int(moment)))


def _ago(moment: float | None) -> str:
    """How long ago something was."""
    if moment is None:
        return "never"
    seconds = max(0, int(clock() - moment))
    for size, one, many in ((86_400, "day", "days"), (3600, "hour", "hours"), (60, "minute", "minutes")):
        if seconds >= 2 * size:
            return f"{counted(seconds // size, one, many)} ago"
    return f"{counted(seconds, 'second', 'seconds')} ago"


def _is_data() -> bool:
    return request.path.startswith("/api/") or request.path.endswith(".csv")


def _fault_page(status: int, words: str) -> AnyResponse:
    """A fault in words, as data where data were asked for."""
    if _is_data():
        return make_response(jsonify(error=words), status)
    return make_response(render_template("fault.html", status=status, words=words), status)


def _http_fault(fault: HTTPException) -> AnyResponse:
    status = fault.code or 500
    if fault.response is not None or status < 400:
        return make_response(fault.get_response())
    return _fault_page(status, fault.words if isinstance(fault, Worded) else WORDS.get(status, "This can't be answered as it was asked."))


class Worded(HTTPException):
    """A fault of who asked, with its own words."""

    def __init__(self, words: str, status: int = 400) -> None:
        super().__init__(words)
        self.words, self.code = words, status


def _trouble(trouble: Trouble) -> AnyResponse:
    return _fault_page(400 if request.method == "POST" else 503, str(trouble))


def _database_fault(fault: Exception) -> AnyResponse:
    trouble = door_of().trouble_of(fault)
    log.error("the page: %s", trouble)
    return _fault_page(503, str(trouble))


def _any_fault(fault: Exception) -> AnyResponse:
    log.error("the page: %s at %s", type(fault).__name__, request.path, exc_info=fault)
    return _fault_page(500, "The page has a fault, which its log tells. The service and its readings aren't touched by it.")


@pages.get("/common.css")
def common_style() -> Response:
    """What its looks have in common with the page that is a file."""
    return send_file(FOLDER / "readings/page.css", mimetype="text/css")


@house.get("/")
def overview() -> str:
    """What needs a person, then all meters."""
    return render_template("overview.html", shows_retired=_shows_retired(), **told("overview", number=_page_number()))


def _shows_retired() -> bool:
    """Whether meters out of service are asked for, in the place of those in service."""
    return request.args.get("retired") == "1"


@house.get("/meters")
def meters() -> str:
    """The meters that somebody looks for."""
    return render_template("meters.html", **_meters())


def _meters() -> Any:
    asked = {name: text_asked(name) for name in ("q", "order")}
    if asked["order"] and asked["order"] not in views.ORDERS:
        raise Worded(f"An order is one of {', '.join(views.ORDERS)}.")
    return told("meters", asked=asked, is_retired=_shows_retired(), number=_page_number())


def _page_number() -> int:
    """Which page of many meters is asked for."""
    text = request.args.get("page", "1")
    if not re.fullmatch("[1-9][0-9]{0,5}", text, re.ASCII):
        raise Worded("A page is a number from 1 on.")
    return int(text)


def text_asked(name: str) -> str:
    """A word of the address, without the one sign that PostgreSQL has no texts with."""
    return request.args.get(name, "").strip().replace("\0", "")[:LONGEST]


@pages.get("/meters/<address>")
def meter(address: str) -> str:
    """A meter."""
    return render_template("meter.html", most=MOST_SHOWN, **_meter(address))


def _meter(address: str) -> Any:
    span = request.args.get("span", "month")
    if span not in periods.SPANS:
        raise Worded(f"A span is one of {', '.join(periods.SPANS)}.")
    found = told("meter", address=_address(address), span=span)
    return found if found is not None else abort(404)


def _address(text: str) -> str:
    if not is_address(text.lower()):
        raise Worded("A meter's address has sixteen hexadecimal digits.")
    return text.lower()


@house.get("/receivers")
def receivers() -> str:
    """The receivers."""
    return render_template("receivers.html", **told("receivers"))


@pages.get("/strangers")
def strangers() -> str:
    """The meters that aren't known."""
    return render_template("strangers.html", most=MOST_SHOWN, **told("strangers"))


@house.get("/api/overview")
def api_overview() -> Response:
    """The overview as data."""
    return jsonify(told("overview", number=_page_number()))


@house.get("/api/meters")
def api_meters() -> Response:
    """The same as data."""
    return jsonify(_meters())


@pages.get("/api/meters/<address>")
def api_meter(address: str) -> Response:
    """All of a meter as data."""
    return jsonify(_meter(address))


@house.get("/api/receivers")
def api_receivers() -> Response:
    """The receivers as data."""
    return jsonify(told("receivers"))


@pages.get("/api/strangers")
def api_strangers() -> Response:
    """The meters that aren't known, as data."""
    return jsonify(told("strangers"))


@house.get("/readings.csv")
def all_readings() -> Response:
    """All meters' readings in a span."""
    return _csv("readings.csv", told("addresses"))


@pages.get("/meters/<address>/readings.csv")
def meter_readings(address: str) -> Response:
    """A meter's readings in a span."""
    known = told("known", address=_address(address))
    return abort(404) if known is None else _csv(f"{known}.csv", [known])


def _csv(name: str, addresses: list[str]) -> Response:
    """Readings from a moment or day to another, line by line."""
    # (where an hour comes twice at a day's end, its second one is of that day too)
    begin, end = _bound("from", 0, clock_time()), _bound("to", LAST_MOMENT, clock_time(23, 59, 59, fold=1))
    door, word = door_of(), session.get("entered")

    def rows() -> Iterator[str]:
        if isinstance(door, FarDoor):
            yield from views.readings_csv(addresses, begin, partial(door.readings, word, end))
            return
        assert isinstance(door, Opening)
        with closing(door.opened()) as opened:
            yield from views.readings_csv(addresses, begin, partial(views.piece_of_readings, opened, end))
    return Response(rows(), mimetype="text/csv", headers={"Content-Disposition": f'attachment; filename="{name}"'})


def _bound(name: str, without: int, of_day: clock_time) -> int:
    """A bound of a span: seconds since 1970, or a day, of which the last second counts at the end."""
    text = request.args.get(name, "")
    if not text:
        return without
    if re.fullmatch("[0-9]{1,18}", text, re.ASCII):
        return int(text)
    try:
        return int(datetime.combine(datetime.strptime(text, "%Y-%m-%d"), of_day).timestamp())
    except (ValueError, OverflowError):
        raise Worded(f"`{name}` is a day as 2026-01-31, or a number of seconds since 1970.") from None
