"""The addresses of the fleet's page: its own, and those that it has in common with the service's."""
from __future__ import annotations

from typing import Any

from flask import Blueprint, Flask, Response, abort, jsonify, render_template
from wmbus_service.page.app import MOST_SHOWN, Worded, clock, create_page, database, text_asked
from wmbus_service.page.app import _meter as meter_told

from ..config import Config
from . import looking
from .door import FleetDoor

fleet = Blueprint("fleet", __name__, template_folder="templates")


def create_app(config: Config, token: str | None = None, is_elsewhere: bool = False) -> Flask:
    """The page over the fleet's database. Without a token it only reads; elsewhere than on this machine reading needs it too."""
    app = create_page(FleetDoor(config), token, is_elsewhere)
    app.register_blueprint(fleet)
    # (a meter's page is that of the service, and tells of its being out of service)
    app.view_functions |= {"pages.meter": meter, "pages.api_meter": api_meter}
    return app


@fleet.get("/")
def overview() -> str:
    """What needs a person, then areas."""
    return render_template("fleet_overview.html", **looking.overview(database(), clock()))


@fleet.get("/api/overview")
def api_overview() -> Response:
    """The overview as data."""
    return jsonify(looking.overview(database(), clock()))


@fleet.get("/meters")
def meters() -> str:
    """The meters that somebody looks for."""
    return render_template("fleet_meters.html", **_meters())


@fleet.get("/api/meters")
def api_meters() -> Response:
    """The same as data."""
    return jsonify(_meters())


def meter(address: str) -> str:
    """A meter."""
    return render_template("fleet_meter.html", most=MOST_SHOWN, **looking.put_service(database(), meter_told(address)))


def api_meter(address: str) -> Response:
    """All of a meter as data."""
    return jsonify(looking.put_service(database(), meter_told(address)))


def _meters() -> dict[str, Any]:
    asked = {name: text_asked(name) for name in ("q", "area", "gateway", "state", "after")}
    if asked["state"] not in looking.STATES:
        raise Worded(f"A state is one of {', '.join(it for it in looking.STATES if it)}.")
    return looking.meters(database(), clock(), asked)


@fleet.get("/gateways")
def gateways() -> str:
    """The gateways."""
    return render_template("fleet_gateways.html", **_gateways())


@fleet.get("/api/gateways")
def api_gateways() -> Response:
    """The gateways as data."""
    return jsonify(_gateways())


def _gateways() -> dict[str, Any]:
    return looking.gateways(database(), clock(), text_asked("area") or None, bool(text_asked("silent")), text_asked("after"))


@fleet.get("/areas/<name>")
def area(name: str) -> str:
    """An area."""
    return render_template("fleet_area.html", **_area(name))


@fleet.get("/api/areas/<name>")
def api_area(name: str) -> Response:
    """An area as data."""
    return jsonify(_area(name))


def _area(name: str) -> dict[str, Any]:
    found = looking.area_page(database(), clock(), name.replace("\0", ""))
    return found if found is not None else abort(404)
