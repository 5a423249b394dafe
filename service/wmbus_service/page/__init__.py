"""The page that people look at: what the database has, served on this machine."""
from __future__ import annotations

from types import ModuleType

from ..trouble import Trouble


def servers(otherwise: str = "") -> ModuleType:
    """What serves it; an error where Debian's packages that it needs aren't there, with what may be done otherwise."""
    try:
        import waitress  # noqa: F401
        from . import serving
    except ImportError as fault:
        raise Trouble("the page", f"it can't be served: {fault}", f"apt-get install python3-flask python3-waitress{otherwise}") from None
    return serving
