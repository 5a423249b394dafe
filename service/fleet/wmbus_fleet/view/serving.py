"""Serves the fleet's page: on this machine alone as it is, elsewhere with TLS and a token."""
from __future__ import annotations

from wmbus_service.page.serving import serve_page

from ..config import Config, Page
from .app import create_app


def run(config: Config) -> None:
    """Serves the page until the process ends."""
    page = config.page or Page()
    serve_page(page, lambda token, is_elsewhere: create_app(config, token, is_elsewhere))
