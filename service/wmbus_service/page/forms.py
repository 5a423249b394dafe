"""What may be done over the page by who has its token: commands are queued and cancelled, and strangers become meters."""
from __future__ import annotations

import re
import secrets
from hmac import compare_digest
from urllib.parse import urlsplit

from flask import Blueprint, abort, flash, redirect, render_template, request, session
from werkzeug.wrappers import Response

from ..commands import KEY, joined, waiting_words
from ..importing import ADDRESS
from ..meters import MODES, name_of
from .app import Worded, clock, door_of, guard_of, may_write, new_ident
from .house import Retiring
from .tokens import HasToWait

forms = Blueprint("forms", __name__)


@forms.before_request
def guard() -> None:
    """A form comes from this page alone, and what changes something from who has the token."""
    if request.method != "POST":
        return
    origin = request.headers.get("Origin")
    if origin is not None and not _is_own(origin):
        abort(403)
    if request.headers.get("Sec-Fetch-Site", "same-origin") not in ("same-origin", "none"):
        abort(403)
    if not compare_digest(_field("forms").encode(), str(session.get("forms") or secrets.token_hex()).encode()):
        abort(403)
    if request.endpoint != "forms.entered" and not may_write():
        abort(403)


def _is_own(origin: str) -> bool:
    """Whether a site is this page's own."""
    try:
        return urlsplit(origin).netloc == request.host
    except ValueError:
        return False


def _field(name: str) -> str:
    return request.form.get(name, "").strip()


@forms.get("/enter")
def enter() -> str:
    """Asks for the token."""
    if not guard_of().has_token:
        abort(404)
    return render_template("enter.html")


@forms.post("/enter")
def entered() -> Response:
    """Takes the token."""
    try:
        word = guard_of().enter(_field("token"), request.remote_addr or "nowhere", clock())
    except HasToWait:
        abort(429)
    if word is None:
        raise Worded("This isn't the token, which stands in the file that the configuration names as page.token_file.", 403)
    session["entered"], session.permanent = word, True
    return redirect("/", 303)


@forms.post("/leave")
def leave() -> Response:
    """Forgets that the token was given, for each copy of this session."""
    guard_of().leave(session.get("entered"))
    session.clear()
    return redirect("/", 303)


@forms.post("/meters/<address>/commands")
def queue(address: str) -> Response:
    """Has a command sent to a meter once it listens."""
    if not ADDRESS.fullmatch(address):
        raise Worded("A meter's address has sixteen hexadecimal digits.")
    ident = _field("id") or new_ident()
    is_new = door_of().put_command(address, ident, re.sub(r"\s", "", _field("payload")), clock())
    flash(f"Command {ident} waits for the next session." if is_new else f"Command {ident} was taken before; nothing is sent again.")
    return redirect(f"/meters/{address}", 303)


@forms.post("/meters/<address>/commands/cancel")
def cancel(address: str) -> Response:
    """Has a command not be sent any more."""
    ident = _field("id")
    state = door_of().cancel_command(address, ident, clock())
    if state is None:
        raise Worded("This meter has no such command.")
    flash(f"The next session cancels command {ident}." if state in ("queued", "sent") else f"Command {ident} is {state}.")
    return redirect(f"/meters/{address}", 303)


@forms.post("/meters/<address>/retire")
def retire(address: str) -> Response:
    """Has a meter be out of service, or puts it back."""
    door = door_of()
    if not isinstance(door, Retiring):
        abort(404)
    if not ADDRESS.fullmatch(address):
        raise Worded("A meter's address has sixteen hexadecimal digits.")
    if _field("back"):
        door.bring_back(address)
        flash("It is back in service.")
    else:
        flash(f"It is out of service{waiting_words(door.retire(address, clock()))}.")
    return redirect(f"/meters/{address}", 303)


@forms.post("/strangers/add")
def add() -> Response:
    """Makes a stranger a meter, by the key that its owner has of its maker."""
    address, mode, key = _field("address").lower(), _field("mode"), joined(_field("key"))
    if not ADDRESS.fullmatch(address) or mode not in MODES:
        raise Worded("A meter's address has sixteen hexadecimal digits, and its security mode is 5 or 7.")
    if not KEY.fullmatch(key):
        raise Worded("A key has 32 hexadecimal digits.")
    name = name_of(_field("name"))
    door = door_of()
    if door.add_meter(address, mode, key, name):
        flash(f"{name or address} was added. What it sends from now on is read.")
    elif isinstance(door, Retiring) and door.bring_back(address):
        flash("This meter is known already, and is back in service; its key stays as it is.")
    else:
        raise Worded("This meter is known already; its key stays as it is.")
    return redirect(f"/meters/{address}", 303)
